/* What carries packets in the examples, a clock, and what else they share. A link is a file that poll waits for, and three functions; udp.h, ethernet.h,
 * nethub.h and by_pcap.h make one each. A packet's `via` says where it comes from or goes to: what it is, each link says. */
#ifndef LINK_H
#define LINK_H

#include "xns.h"
#include <poll.h>
#include <stdint.h>
#include <stdio.h>
#include <stdlib.h>
#include <string.h>
#include <time.h>

enum { LINK_MOST_WAIT = 1000, LINK_SHORT_WAIT = 20, LINK_LEAST_SOCKET = 3001, LINK_SOCKETS = 60000 };

/* Is given a packet that came. */
typedef void link_taker(void *given, uint64_t via, const uint8_t *bytes, size_t length);

struct link {
    int file;
    void (*receive)(struct link *link, link_taker *take, void *given); /* gives what is there to the taker, but not more at once than a few */
    void (*put)(struct link *link, uint64_t via, const uint8_t *packet, size_t length); /* takes a packet that is to go out */
    void (*flush)(struct link *link);                                  /* sends what was put; what can't be sent is as what is lost */
    uint8_t station[6];                                                /* its own host */
    uint64_t via;                                                      /* for packets to its peers, where it is one for all */
    uint16_t socket;                                                   /* a socket of its host that hardly another program has */
    bool can_wait;                                                     /* whether its `receive` can wait for a packet, LINK_SHORT_WAIT at most */
    bool is_busy;                                                      /* whether packets came the last time; kept by links that can wait */
    bool waits;                                                        /* whether the next `receive` is to wait */
};

static inline uint64_t milliseconds(void) {
    struct timespec now;
    clock_gettime(CLOCK_MONOTONIC, &now);
    return (uint64_t)now.tv_sec * 1000 + (uint64_t)now.tv_nsec / 1000000;
}

/* Random bytes, that a stranger can't guess: the secret of a host is 32 of them. */
static inline void random_bytes(void *bytes, size_t length) {
    FILE *source = fopen("/dev/urandom", "rb");
    if (source == NULL || fread(bytes, length, 1, source) != 1) {
        fputs("there are no random bytes\n", stderr);
        exit(1);
    }
    fclose(source);
}

/* A socket at random: nobody hands them out. */
static inline uint16_t random_socket(void) {
    uint16_t number;
    random_bytes(&number, sizeof number);
    return (uint16_t)(LINK_LEAST_SOCKET + number % LINK_SOCKETS);
}

/* Ends the program where a function returned another result than that it was done. */
static inline void check(enum xns_result told) {
    if (told == XNS_OK) return;
    fprintf(stderr, "%s\n", xns_result_text(told));
    exit(1);
}

/* The `flush` of a link whose `put` sends at once. */
static inline void link_flush_nothing(struct link *link) {
    (void)link;
}

/* Makes a host of the link's station, with a secret at random. */
static inline void link_new_host(const struct link *link, struct xns_host *host, const struct xns_settings *settings) {
    struct xns_address here = { 1, { 0 }, 0 };
    uint8_t secret[32];
    memcpy(here.host, link->station, 6);
    random_bytes(secret, sizeof secret);
    check(xns_host_new(host, &here, settings, secret));
}

/* Waits for a packet, but not beyond this time, and a second at most: so a signal that comes just before is seen. Where packets came the last time, the next
 * comes soon: the link's `receive` then waits for it, which takes a system call less. */
static inline void link_wait(struct link *link, uint64_t until) {
    const uint64_t now = milliseconds();
    const uint64_t wait = until <= now ? 0 : until - now;
    struct pollfd one = { link->file, POLLIN, 0 };
    link->waits = link->is_busy && wait >= LINK_SHORT_WAIT;
    if (!link->waits) (void)poll(&one, 1, wait < LINK_MOST_WAIT ? (int)wait : LINK_MOST_WAIT);
}

/* Gives a host a packet that has just come. */
static inline void link_give(void *host, uint64_t via, const uint8_t *bytes, size_t length) {
    xns_host_receive(host, milliseconds(), via, bytes, length);
}

/* Gives the host the packets that are there. The time behind them. */
static inline uint64_t link_receive_packets(struct link *link, struct xns_host *host) {
    link->receive(link, link_give, host);
    return milliseconds();
}

/* Waits until the host has something to do or a packet comes, and gives it the packets that are there. The time. */
static inline uint64_t link_hear(struct link *link, struct xns_host *host) {
    link_wait(link, xns_host_wake(host));
    return link_receive_packets(link, host);
}

/* Sends the packets that the host has made. */
static inline void link_send_packets(struct link *link, struct xns_host *host, uint64_t now) {
    uint8_t packet[XNS_LONGEST_PACKET];
    uint64_t via;
    size_t length;
    while (xns_host_next_packet(host, now, packet, sizeof packet, &length, &via) == XNS_OK) link->put(link, via, packet, length);
    link->flush(link);
}

#endif
