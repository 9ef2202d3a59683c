/* A link by way of a hub of emulators on this machine: a stream of TCP with Ethernet frames in it, each behind its length, two bytes, the high one first. */
#ifndef NETHUB_H
#define NETHUB_H

#include "frame.h"
#include <arpa/inet.h>
#include <errno.h>
#include <netinet/tcp.h>
#include <sys/socket.h>
#include <unistd.h>

enum { NETHUB_LENGTH = 2, NETHUB_ROOM = 1 << 17, NETHUB_LONGEST_WAIT = 1000, NETHUB_REST = 1000, NETHUB_NO_STREAM = -1 };

static struct sockaddr_in nethub_place;  /* the hub's */
static uint8_t nethub_came[NETHUB_ROOM]; /* what came and is no whole frame yet */
static size_t nethub_count;
static uint64_t nethub_next; /* the time at which a hub that is gone is tried again */

/* Opens a stream to the hub, if the hub is there. */
static inline bool nethub_join(struct link *link) {
    const int at_once = 1;
    nethub_next = milliseconds() + NETHUB_REST;
    link->file = socket(AF_INET, SOCK_STREAM, 0);
    if (link->file < 0) return false;
    if (connect(link->file, (struct sockaddr *)&nethub_place, sizeof nethub_place) != 0) {
        const int why = errno;
        close(link->file);
        link->file = NETHUB_NO_STREAM;
        errno = why;
        return false;
    }
    setsockopt(link->file, IPPROTO_TCP, TCP_NODELAY, &at_once, sizeof at_once);
    nethub_count = 0;
    return true;
}

/* The hub is gone: until it is back, a packet is as one that is lost. */
static inline void nethub_leave(struct link *link) {
    close(link->file);
    link->file = NETHUB_NO_STREAM;
    nethub_next = milliseconds() + NETHUB_REST;
}

/* Whether there is a stream to the hub. One that is gone is tried again each second. */
static inline bool nethub_is_there(struct link *link) {
    return link->file >= 0 || (milliseconds() >= nethub_next && nethub_join(link));
}

/* Gives the packets of whole frames to this station or to all. */
static inline void nethub_receive(struct link *link, link_taker *take, void *given) {
    size_t at = 0;
    ssize_t more;
    if (!nethub_is_there(link)) return;
    more = recv(link->file, nethub_came + nethub_count, NETHUB_ROOM - nethub_count, MSG_DONTWAIT);
    if (more == 0 || (more < 0 && errno != EAGAIN && errno != EINTR)) nethub_leave(link);
    if (more <= 0) return;
    nethub_count += (size_t)more;
    while (nethub_count - at >= NETHUB_LENGTH) {
        const uint8_t *frame = nethub_came + at + NETHUB_LENGTH;
        const size_t size = (size_t)frame[-2] << 8 | frame[-1];
        if (nethub_count - at < NETHUB_LENGTH + size) break;
        at += NETHUB_LENGTH + size;
        if (frame_is_ours(link->station, frame, size)) take(given, 0, frame + FRAME_HEAD, size - FRAME_HEAD);
    }
    nethub_count -= at;
    memmove(nethub_came, nethub_came + at, nethub_count);
}

/* Sends a frame whole: behind a part of one the stream would be of no more use. */
static inline void nethub_put(struct link *link, uint64_t via, const uint8_t *packet, size_t length) {
    uint8_t bytes[NETHUB_LENGTH + FRAME_MOST];
    const size_t size = frame_write(link->station, packet, length, bytes + NETHUB_LENGTH);
    (void)via;
    bytes[0] = (uint8_t)(size >> 8);
    bytes[1] = (uint8_t)size;
    if (!nethub_is_there(link)) return;
    for (size_t sent = 0; sent < NETHUB_LENGTH + size;) {
        struct pollfd one = { link->file, POLLOUT, 0 };
        const ssize_t more = poll(&one, 1, NETHUB_LONGEST_WAIT) == 1 ? send(link->file, bytes + sent, NETHUB_LENGTH + size - sent, MSG_NOSIGNAL) : -1;
        if (more <= 0) {
            nethub_leave(link);
            return;
        }
        sent += (size_t)more;
    }
}

/* A link by way of the hub at a port, as this station. The hub has to be there at first; where it is gone later, the link comes back by itself. */
static inline void nethub_open(struct link *link, uint16_t port, const uint8_t station[6]) {
    memset(&nethub_place, 0, sizeof nethub_place);
    nethub_place.sin_family = AF_INET;
    nethub_place.sin_port = htons(port);
    nethub_place.sin_addr.s_addr = htonl(INADDR_LOOPBACK);
    if (!nethub_join(link)) {
        perror("the hub");
        exit(1);
    }
    memcpy(link->station, station, 6);
    link->receive = nethub_receive;
    link->put = nethub_put;
    link->flush = link_flush_nothing;
    link->socket = random_socket();
}

#endif
