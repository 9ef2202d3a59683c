/* Writes and reads packets of 576 bytes by the library for C; the peer is c_codec_peer.c, which does the same in plain C. */
#include "xns.h"
#include <stdio.h>

enum { PACKETS = 1000000, DATA = 546 };

int main(void) {
    static uint8_t body[DATA], bytes[576];
    struct xns_packet packet = { .summed = 1, .kind = 5, .target = { 1, { 0, 0, 0xaa, 0, 1, 2 }, 5 }, .source = { 1, { 0, 0, 0xaa, 0, 3, 4 }, 0x400 } }, read;
    uint64_t total = 0;
    for (uint32_t i = 0; i < PACKETS; i++) {
        size_t written;
        body[i % DATA] = (uint8_t)(i % 251);
        if (xns_encode(&packet, body, DATA, bytes, sizeof bytes, &written) != XNS_OK || xns_decode(bytes, written, &read) != XNS_OK) return 1;
        total += (uint64_t)bytes[0] * 256 + bytes[1] + bytes[read.body_at + i % DATA] + read.taken + read.source.socket;
    }
    printf("%d packets, total %llu\n", PACKETS, (unsigned long long)total);
    return 0;
}
