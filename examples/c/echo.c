/* An Echo answerer: reads packets from standard input as lines of hex, and writes the reply to each Echo request to host 0000aa000102,
 * socket 2, of network 1. Of what it can't read it complains to the sender by an Error packet, where one may. */
#include "hex.h"
#include "xns.h"

enum { UNSPECIFIED = 0, BAD_CHECKSUM = 1 };

int main(void) {
    static const struct xns_address own = { 1, { 0, 0, 0xaa, 0, 1, 2 }, 2 };
    static uint8_t bytes[4096];
    uint8_t answer[XNS_LONGEST_PACKET];
    struct xns_packet packet;
    size_t written;
    int length;
    while ((length = read_hex(stdin, bytes, sizeof bytes)) != -1) {
        uint32_t result;
        if (length < 0) continue;
        result = xns_decode(bytes, (size_t)length, &packet);
        if (result == XNS_OK) result = xns_echo_reply(&own, bytes, (size_t)length, answer, sizeof answer, &written);
        else result = xns_complain(&own, result == XNS_BAD_SUM ? BAD_CHECKSUM : UNSPECIFIED, 0, bytes, (size_t)length, answer, sizeof answer, &written);
        if (result == XNS_NO_MEMORY) fprintf(stderr, "a packet is not answered: no memory\n");
        if (result == XNS_OK) write_hex(stdout, answer, written);
    }
    return 0;
}
