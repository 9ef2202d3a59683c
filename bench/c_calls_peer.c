/* Makes the calls of c_calls.c between two endpoints of the library. Its program writes and reads the messages itself, and has no clock, no timeouts and no
 * retransmission: its network loses nothing. The difference to c_calls.c is the cost of the hosts. c_calls_peer CALLS. */
#include "xns.h"
#include <stdio.h>
#include <stdlib.h>
#include <string.h>

enum { PROGRAM = 7, VERSION = 2, ADD = 1, ADDEND = 5, WORDS = 16 };

static const uint8_t VERSIONS[] = { 0, 3, 0, 3 };

static void must(bool done) {
    if (!done) exit(1);
}

/* Sends an item, whose packet also acknowledges the items that came. */
static void send(struct xns_endpoint *from, struct xns_endpoint *to, const uint8_t *bytes, size_t size) {
    uint8_t packet[XNS_LONGEST_PACKET], reply[XNS_REPLY];
    struct xns_received received;
    size_t length;
    must(xns_endpoint_send(from, XNS_STREAM_COURIER, 0, 1, bytes, size) == XNS_OK && xns_endpoint_flush(from) == XNS_OK);
    while (xns_endpoint_next_packet(from, packet, sizeof packet, &length) == XNS_OK)
        must(xns_endpoint_receive(to, packet, length, &received, reply, sizeof reply) == XNS_OK && received.dropped == XNS_NOT_DROPPED);
}

/* Sends a message in one item. */
static void say(struct xns_endpoint *from, struct xns_endpoint *to, const struct xns_message *message, const uint16_t *words, size_t count) {
    uint8_t bytes[XNS_LONGEST_ITEM];
    size_t size;
    must(xns_message_write(message, words, count, bytes, sizeof bytes, &size) == XNS_OK);
    send(from, to, bytes, size);
}

/* The message that came, of so many words. */
static struct xns_message hear(struct xns_endpoint *at, uint16_t *words, size_t wanted) {
    uint8_t bytes[XNS_LONGEST_ITEM];
    struct xns_message message;
    struct xns_item item;
    size_t count;
    must(xns_endpoint_take(at, &item, bytes, sizeof bytes) == XNS_OK && item.last);
    must(xns_message_read(bytes, item.length, &message, words, WORDS, &count) == XNS_OK && count == wanted);
    return message;
}

/* Both sides say their versions. */
static void begin(struct xns_endpoint *from, struct xns_endpoint *to) {
    uint8_t bytes[XNS_LONGEST_ITEM];
    struct xns_item item;
    send(from, to, VERSIONS, sizeof VERSIONS);
    must(xns_endpoint_take(to, &item, bytes, sizeof bytes) == XNS_OK && item.length == sizeof VERSIONS && memcmp(bytes, VERSIONS, sizeof VERSIONS) == 0);
}

/* Opens both ends. */
static void open_both(struct xns_endpoint *a, struct xns_endpoint *b) {
    static const struct xns_address here = { 1, { 0, 0, 0xaa, 0, 3, 4 }, 1000 }, there = { 1, { 0, 0, 0xaa, 0, 1, 2 }, 5 };
    uint8_t packet[XNS_LONGEST_PACKET], reply[XNS_REPLY], none[XNS_REPLY];
    struct xns_received received;
    size_t length;
    must(xns_endpoint_new_initiator(a, &here, 77, &there, 8, 16) == XNS_OK && xns_endpoint_new_responder(b, &there, 88, &here, 77, 8, 16) == XNS_OK);
    must(xns_endpoint_resend_first(a, packet, sizeof packet, &length) == XNS_OK);
    must(xns_endpoint_receive(b, packet, length, &received, reply, sizeof reply) == XNS_OK);
    must(xns_endpoint_receive(a, reply, received.reply, &received, none, sizeof none) == XNS_OK);
}

int main(int count, char **given) {
    struct xns_endpoint client = XNS_ENDPOINT_INIT, service = XNS_ENDPOINT_INIT;
    struct xns_message call = { XNS_KIND_CALL, 0, PROGRAM, VERSION, ADD, 0 }, told;
    uint32_t total = 0, returned = 0;
    uint16_t words[WORDS];
    const uint16_t addend = ADDEND;
    const unsigned long calls = count > 1 ? strtoul(given[1], NULL, 10) : 0;
    open_both(&client, &service);
    begin(&client, &service);
    begin(&service, &client);
    for (unsigned long i = 0; i < calls; i++) {
        call.transaction++;
        say(&client, &service, &call, &addend, 1);
        told = hear(&service, words, 1);
        must(told.kind == XNS_KIND_CALL && told.program == PROGRAM && told.version == VERSION && told.procedure == ADD);
        total += words[0];
        words[0] = (uint16_t)(total >> 16);
        words[1] = (uint16_t)total;
        told.kind = XNS_KIND_RETURN;
        say(&service, &client, &told, words, 2);
        told = hear(&client, words, 2);
        must(told.kind == XNS_KIND_RETURN && told.transaction == call.transaction);
        returned = (uint32_t)words[0] << 16 | words[1];
    }
    printf("%lu calls, total %lu\n", calls, (unsigned long)returned);
    xns_endpoint_free(&client);
    xns_endpoint_free(&service);
    return 0;
}
