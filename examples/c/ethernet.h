/* A link on Ethernet: one packet a frame of type 0600, as XNS ran on it. Linux, and the right CAP_NET_RAW. There are no routers: a packet goes to the station
 * whose address is its target host, and the broadcast host is the broadcast station. A packet's `via` is the number of the interface that it comes from or
 * goes to. */
#ifndef ETHERNET_H
#define ETHERNET_H

#include "batch.h"
#include <arpa/inet.h>
#include <net/if.h>
#include <netpacket/packet.h>
#include <sys/ioctl.h>

enum { ETHERNET_TYPE = 0x0600, ETHERNET_LEAST = 46, ETHERNET_TARGET_AT = 10 };

static const char *ethernet_interface; /* its name, where the link is at one */

static inline struct sockaddr_ll ethernet_place(uint64_t via) {
    struct sockaddr_ll place;
    memset(&place, 0, sizeof place);
    place.sll_family = AF_PACKET;
    place.sll_protocol = htons(ETHERNET_TYPE);
    place.sll_ifindex = (int)via;
    place.sll_halen = 6;
    return place;
}

/* Where the interface was taken away, the one that has its name by now is taken for it. */
static inline void ethernet_come_back(struct link *link) {
    struct sockaddr_ll place;
    socklen_t size = sizeof place;
    if (link->via == 0 || getsockname(link->file, (struct sockaddr *)&place, &size) != 0 || place.sll_ifindex > 0) return;
    place = ethernet_place(if_nametoindex(ethernet_interface));
    if (place.sll_ifindex != 0 && bind(link->file, (struct sockaddr *)&place, sizeof place) == 0) link->via = (uint32_t)place.sll_ifindex;
}

/* Packets to this station or to all; frames to others, which come where an interface is promiscuous, and those that this machine sends are passed over.
 * Where an interface is down there is none. */
static inline void ethernet_receive(struct link *link, link_taker *take, void *given) {
    const unsigned count = batch_receive(link);
    if (count == 0) ethernet_come_back(link);
    for (unsigned k = 0; k < count; k++) {
        const struct sockaddr_ll *from = (const struct sockaddr_ll *)&batch_in.places[k];
        if (from->sll_pkttype != PACKET_HOST && from->sll_pkttype != PACKET_BROADCAST) continue;
        take(given, (uint32_t)from->sll_ifindex, batch_in.bytes[k], batch_in.messages[k].msg_len);
    }
}

/* A packet is made up to the shortest frame. A link at one interface sends all by it: a connection may have the number that the interface had before. */
static inline void ethernet_put(struct link *link, uint64_t via, const uint8_t *packet, size_t length) {
    struct sockaddr_ll place = ethernet_place(link->via == 0 ? via : link->via);
    memcpy(place.sll_addr, packet + ETHERNET_TARGET_AT, 6);
    batch_put(link, packet, length, ETHERNET_LEAST, &place, sizeof place);
}

/* A link at an interface, as its station. The kernel writes and takes away the frame's head. Without an interface it is at all, and has no station. */
static inline void ethernet_open(struct link *link, const char *interface) {
    struct sockaddr_ll place = ethernet_place(interface == NULL ? 0 : if_nametoindex(interface));
    struct ifreq request;
    bool is_there = interface == NULL || place.sll_ifindex != 0;
    memset(&request, 0, sizeof request);
    link->file = socket(AF_PACKET, SOCK_DGRAM, 0); /* nothing comes before it is bound */
    if (is_there && link->file >= 0 && interface != NULL) {
        strncpy(request.ifr_name, interface, sizeof request.ifr_name - 1);
        is_there = ioctl(link->file, SIOCGIFHWADDR, &request) == 0;
    }
    if (!is_there || link->file < 0 || bind(link->file, (struct sockaddr *)&place, sizeof place) != 0) {
        perror(interface == NULL ? "frames" : interface);
        exit(1);
    }
    memcpy(link->station, request.ifr_hwaddr.sa_data, 6);
    link->receive = ethernet_receive;
    link->put = ethernet_put;
    link->flush = batch_flush;
    batch_let_wait(link);
    link->via = (uint32_t)place.sll_ifindex;
    ethernet_interface = interface;
    link->socket = random_socket();
}

#endif
