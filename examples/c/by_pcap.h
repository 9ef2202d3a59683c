/* A link by libpcap, which needs the right CAP_NET_RAW, or what the system's libpcap asks for. The station need not be the interface's own: that is made
 * promiscuous, and whole frames are written. */
#ifndef BY_PCAP_H
#define BY_PCAP_H

#include "frame.h"
#include <pcap/pcap.h>

enum { BY_PCAP_AT_ONCE = 64 };

static pcap_t *by_pcap;

static inline void by_pcap_receive(struct link *link, link_taker *take, void *given) {
    struct pcap_pkthdr *about;
    const u_char *frame;
    for (int k = 0; k < BY_PCAP_AT_ONCE && pcap_next_ex(by_pcap, &about, &frame) == 1; k++)
        if (frame_is_ours(link->station, frame, about->caplen)) take(given, 0, frame + FRAME_HEAD, about->caplen - FRAME_HEAD);
}

static inline void by_pcap_put(struct link *link, uint64_t via, const uint8_t *packet, size_t length) {
    uint8_t frame[FRAME_MOST];
    (void)via;
    (void)pcap_sendpacket(by_pcap, frame, (int)frame_write(link->station, packet, length, frame));
}

/* A link at an interface, as this station. */
static inline void by_pcap_open(struct link *link, const char *interface, const uint8_t station[6]) {
    char why[PCAP_ERRBUF_SIZE];
    struct bpf_program filter;
    by_pcap = pcap_create(interface, why);
    if (by_pcap == NULL || pcap_set_promisc(by_pcap, 1) != 0 || pcap_set_immediate_mode(by_pcap, 1) != 0 || pcap_set_snaplen(by_pcap, 65535) != 0
        || pcap_activate(by_pcap) < 0 || pcap_setnonblock(by_pcap, 1, why) != 0
        || pcap_compile(by_pcap, &filter, "ether proto 0x600", 1, PCAP_NETMASK_UNKNOWN) != 0 || pcap_setfilter(by_pcap, &filter) != 0) {
        fprintf(stderr, "pcap: %s\n", by_pcap == NULL ? why : pcap_geterr(by_pcap));
        exit(1);
    }
    pcap_freecode(&filter);
    link->file = pcap_get_selectable_fd(by_pcap);
    memcpy(link->station, station, 6);
    link->receive = by_pcap_receive;
    link->put = by_pcap_put;
    link->flush = link_flush_nothing;
    link->socket = random_socket();
}

#endif
