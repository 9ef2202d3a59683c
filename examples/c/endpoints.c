/* Two endpoints exchange items over a network in memory that loses a packet in four.
 *
 *     endpoints ITEMS [packets]
 *
 * sends so many items each way, looks at each that arrives, and says ok. With the second word it writes each packet that was
 * sent as a line of hex in its place. A function that is refused memory is called again.
 *
 * Each side says what docs/ENDPOINT.md, "When to say what", has it say: it replies once to what came together and tells the room of what
 * it took; at a timeout it sends its first item again, and the next one at once while more is acknowledged; it asks an idle peer.
 */
#include "xns.h"
#include <stdio.h>
#include <stdlib.h>
#include <string.h>

#define CHECK(x) do { if (!(x)) { fprintf(stderr, "endpoints.c, line %d: %s\n", __LINE__, #x); exit(1); } } while (0)

/* After so many rounds without a packet there is a timeout, and after so many the peer is gone. */
enum { QUEUE = 256, WINDOW = 8, BACKLOG = 16, TIMEOUT = 3, GONE = 300 };

/* The packets on their way to one side. */
struct wire {
    uint8_t bytes[QUEUE][XNS_LONGEST_PACKET];
    size_t length[QUEUE], first, end;
};

/* One side: its endpoint, what comes to it, and how far it is. */
struct side {
    struct xns_endpoint endpoint;
    struct wire in;
    struct side *peer;
    unsigned number, sent, got;
    unsigned quiet; /* rounds in which nothing came */
    size_t missing; /* how many of the items that were unacknowledged at the last timeout still are */
    bool owes;      /* whether there is something to tell: a packet asked for a reply, or items were taken */
};

static unsigned items, lost, carried, refused;
static bool shows_packets;
static uint32_t seed = 12345;

static bool is_lost(void) {
    seed = seed * 1664525u + 1013904223u;
    return (seed >> 24) < 64;
}

/* Whether a function did its work; one that was refused memory has changed nothing. */
static bool is_done(uint32_t result) {
    CHECK(result == XNS_OK || result == XNS_NO_MEMORY);
    refused += result == XNS_NO_MEMORY;
    return result == XNS_OK;
}

static void put_on_wire(struct wire *wire, const uint8_t *bytes, size_t length) {
    if (shows_packets) {
        for (size_t i = 0; i < length; i++) printf("%02x", bytes[i]);
        printf("\n");
    }
    if (is_lost()) {
        lost++;
        return;
    }
    carried++;
    CHECK(wire->end - wire->first < QUEUE);
    memcpy(wire->bytes[wire->end % QUEUE], bytes, length);
    wire->length[wire->end++ % QUEUE] = length;
}

/* Sends the items that may go out for the first time. Their packets tell the peer what a system packet would. */
static void flush(struct side *side) {
    uint8_t packet[XNS_LONGEST_PACKET];
    size_t length;
    if (!is_done(xns_endpoint_flush(&side->endpoint))) return;
    while (xns_endpoint_next_packet(&side->endpoint, packet, sizeof packet, &length) == XNS_OK) {
        put_on_wire(&side->peer->in, packet, length);
        side->owes = false;
    }
}

/* Tells the peer what was taken and what there is room for. */
static void tell(struct side *side) {
    uint8_t packet[XNS_REPLY];
    size_t length;
    if (!is_done(xns_endpoint_system_packet(&side->endpoint, 0, packet, sizeof packet, &length))) return;
    put_on_wire(&side->peer->in, packet, length);
    side->owes = false;
}

/* Sends the first item again, or opens the connection. Where all items are acknowledged it asks the peer whether it is there. */
static void send_first(struct side *side) {
    uint8_t packet[XNS_LONGEST_PACKET];
    size_t length;
    uint32_t result = xns_endpoint_resend_first(&side->endpoint, packet, sizeof packet, &length);
    if (result == XNS_NOTHING) result = xns_endpoint_system_packet(&side->endpoint, 1, packet, sizeof packet, &length);
    if (is_done(result)) put_on_wire(&side->peer->in, packet, length);
}

static void time_out(struct side *side) {
    side->missing = xns_endpoint_unacknowledged(&side->endpoint);
    send_first(side);
}

/* The bytes of an item, which the other side knows too. */
static size_t item_bytes(unsigned side, unsigned item, uint8_t *bytes) {
    size_t length = (item * 7 + side) % (XNS_LONGEST_ITEM + 1);
    for (size_t i = 0; i < length; i++) bytes[i] = (uint8_t)(item + side * 31 + i);
    return length;
}

static void send_items(struct side *side) {
    uint8_t body[XNS_LONGEST_ITEM];
    while (side->sent < items && xns_endpoint_is_open(&side->endpoint) && !xns_endpoint_is_full(&side->endpoint)) {
        size_t length = item_bytes(side->number, side->sent, body);
        if (is_done(xns_endpoint_send(&side->endpoint, (uint8_t)side->sent, 0, side->sent % 3 == 0, body, length))) side->sent++;
    }
}

static void take_items(struct side *side) {
    uint8_t body[XNS_LONGEST_ITEM], wanted[XNS_LONGEST_ITEM];
    struct xns_item item;
    while (xns_endpoint_take(&side->endpoint, &item, body, sizeof body) == XNS_OK) {
        size_t length = item_bytes(side->peer->number, side->got, wanted);
        CHECK(item.length == length && memcmp(body, wanted, length) == 0);
        CHECK(item.stream == (uint8_t)side->got && item.last == (side->got % 3 == 0) && !item.attention);
        side->got++;
        side->owes = true;
    }
}

static void receive_packets(struct side *side) {
    uint8_t reply[XNS_REPLY];
    struct xns_received received;
    size_t before = side->missing;
    side->quiet++;
    while (side->in.first < side->in.end) {
        size_t at = side->in.first++ % QUEUE;
        if (!is_done(xns_endpoint_receive(&side->endpoint, side->in.bytes[at], side->in.length[at], &received, reply, sizeof reply))) continue;
        side->quiet = 0;
        side->missing -= received.acknowledged < side->missing ? received.acknowledged : side->missing;
        if (received.reply > 0) side->owes = true;
    }
    if (side->missing > 0 && side->missing < before) send_first(side);
}

/* What a side does in each round. */
static void go_on(struct side *side) {
    receive_packets(side);
    take_items(side);
    send_items(side);
    flush(side);
    if (side->owes) tell(side);
    if (side->quiet > 0 && side->quiet % TIMEOUT == 0) time_out(side);
    CHECK(side->quiet < GONE);
}

/* Makes the responder, where an opening packet has come. */
static void answer_opening(struct side *side, const struct xns_address *own) {
    struct xns_address peer;
    uint16_t peer_id;
    size_t at = side->in.first % QUEUE;
    if (side->in.first == side->in.end || xns_opening(side->in.bytes[at], side->in.length[at], &peer, &peer_id) != XNS_OK) return;
    while (!is_done(xns_endpoint_new_responder(&side->endpoint, own, 88, &peer, peer_id, WINDOW, BACKLOG))) CHECK(side->endpoint.at == NULL);
    CHECK(xns_endpoint_is_open(&side->endpoint));
}

int main(int count, char **words) {
    static struct side a = { .number = 1 }, b = { .number = 2 };
    const struct xns_address at_a = { 1, { 0, 0, 0xaa, 0, 1, 2 }, 1000 }, at_b = { 1, { 0, 0, 0xaa, 0, 3, 4 }, 2000 };
    items = count > 1 ? (unsigned)strtoul(words[1], NULL, 10) : 0;
    shows_packets = count > 2;
    a.peer = &b;
    b.peer = &a;

    while (!is_done(xns_endpoint_new_initiator(&a.endpoint, &at_a, 77, &at_b, WINDOW, BACKLOG))) CHECK(a.endpoint.at == NULL);
    send_first(&a); /* the opening packet */
    for (unsigned round = 0; a.got < items || b.got < items; round++) {
        CHECK(round < 100000);
        go_on(&a);
        if (b.endpoint.at == NULL) answer_opening(&b, &at_b);
        if (b.endpoint.at != NULL) go_on(&b);
    }
    xns_endpoint_free(&a.endpoint);
    xns_endpoint_free(&b.endpoint);
    if (!shows_packets) printf("ok: %u items each way, %u packets carried, %u lost, %u calls refused memory\n", items, carried, lost, refused);
    return 0;
}
