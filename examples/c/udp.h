/* A link over UDP: one packet a datagram, on this machine. A packet's `via` is where it comes from or goes to: an IPv4 address, and its
 * port in the last 16 bits. */
#ifndef UDP_H
#define UDP_H

#include "batch.h"
#include <arpa/inet.h>

static inline struct sockaddr_in udp_place(uint64_t via) {
    struct sockaddr_in place;
    memset(&place, 0, sizeof place);
    place.sin_family = AF_INET;
    place.sin_port = htons((uint16_t)via);
    place.sin_addr.s_addr = htonl((uint32_t)(via >> 16));
    return place;
}

static inline uint64_t udp_via(const struct sockaddr_in *place) {
    return (uint64_t)ntohl(place->sin_addr.s_addr) << 16 | ntohs(place->sin_port);
}

/* The `via` of a port of this machine. */
static inline uint64_t udp_here(uint32_t port) {
    return (uint64_t)INADDR_LOOPBACK << 16 | (uint16_t)port;
}

static inline void udp_receive(struct link *link, link_taker *take, void *given) {
    const unsigned count = batch_receive(link);
    for (unsigned k = 0; k < count; k++) {
        take(given, udp_via((const struct sockaddr_in *)&batch_in.places[k]), batch_in.bytes[k], batch_in.messages[k].msg_len);
    }
}

static inline void udp_put(struct link *link, uint64_t via, const uint8_t *packet, size_t length) {
    const struct sockaddr_in place = udp_place(via);
    batch_put(link, packet, length, 0, &place, sizeof place);
}

/* A link at a port; 0 is any that is free. The socket of the link is its port, which no other program on this machine has. */
static inline void udp_open(struct link *link, uint32_t port) {
    struct sockaddr_in place = udp_place(udp_here(port));
    socklen_t size = sizeof place;
    link->file = socket(AF_INET, SOCK_DGRAM, 0);
    if (link->file < 0 || bind(link->file, (struct sockaddr *)&place, sizeof place) != 0 || getsockname(link->file, (struct sockaddr *)&place, &size) != 0) {
        perror("the socket");
        exit(1);
    }
    link->receive = udp_receive;
    link->put = udp_put;
    link->flush = batch_flush;
    batch_let_wait(link);
    link->socket = ntohs(place.sin_port);
}

#endif
