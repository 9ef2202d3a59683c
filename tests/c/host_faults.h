/* Part of host.c: peers that are endpoints alone, what they say that is no conversation of Courier's, and by which fault their connection closes. */

/* A peer that is an endpoint alone: its packets go to a host, and the replies come back. */
static void exchange(struct xns_endpoint *peer, struct xns_host *host) {
    uint8_t packet[XNS_LONGEST_PACKET], reply[XNS_REPLY];
    struct xns_received received;
    size_t length;
    uint64_t via;
    CHECK(xns_endpoint_tick(peer) == XNS_OK);
    while (xns_endpoint_next_packet(peer, packet, sizeof packet, &length) == XNS_OK) CHECK(xns_host_receive(host, now, CLIENT_VIA, packet, length) == XNS_OK);
    while (xns_host_next_packet(host, now, packet, sizeof packet, &length, &via) == XNS_OK) {
        CHECK(xns_endpoint_receive(peer, packet, length, &received, reply, sizeof reply) == XNS_OK);
        if (received.reply > 0) CHECK(xns_host_receive(host, now, CLIENT_VIA, reply, received.reply) == XNS_OK);
    }
}

struct said {
    uint8_t stream, attention, last;
    const char *bytes;
    size_t length;
};

static const struct said VERSIONS = { 0, 0, 1, "\0\3\0\3", 4 }, CALLED = { 0, 0, 1, "\0\0\0\5\0\0\0\7\0\2\0\1", 12 };
static const struct said ATTENTION = { 0, 1, 0, "\1", 1 }, HALF = { 0, 0, 0, "\0\0\0\5\0\0", 6 };

/* The connection is dead: no packet of it goes out. Of what comes again of its peer the host complains. */
static void is_dead(struct xns_endpoint *peer, struct xns_host *host, size_t number) {
    uint8_t packet[XNS_LONGEST_PACKET];
    struct xns_address address;
    size_t length;
    uint64_t via;
    CHECK(xns_endpoint_tick(peer) == XNS_OK);
    while (xns_endpoint_next_packet(peer, packet, sizeof packet, &length) == XNS_OK) CHECK(xns_host_receive(host, now, CLIENT_VIA, packet, length) == XNS_OK);
    while (xns_host_next_packet(host, now, packet, sizeof packet, &length, &via) == XNS_OK) CHECK(packet[5] == XNS_TYPE_ERROR);
    CHECK(xns_host_peer(host, number, &address) == XNS_NO_CONNECTION);
}

/* Says these items to a host; it closes by this fault, once the call that came before is answered. */
static void hear_fault(struct xns_endpoint *peer, struct xns_host *host, const struct said *items, size_t length, enum xns_result fault) {
    struct xns_event event;
    for (size_t i = 0; i < length; i++) {
        CHECK(xns_endpoint_send(peer, items[i].stream, items[i].attention, items[i].last, (const uint8_t *)items[i].bytes, items[i].length) == XNS_OK);
        exchange(peer, host);
    }
    CHECK(xns_host_next_event(host, &event, words, WORDS, &count) == XNS_OK);
    if (event.kind == XNS_EVENT_CALL) {
        CHECK(xns_host_answer(host, now, event.number, XNS_KIND_RETURN, 0, words, 0) == XNS_OK);
        CHECK(xns_host_next_event(host, &event, words, WORDS, &count) == XNS_OK);
    }
    CHECK(event.kind == XNS_EVENT_CLOSED && event.closed == XNS_CLOSED_REFUSED && event.fault == (uint32_t)fault);
    is_dead(peer, host, event.number);
}

/* A client that says this to the service. */
static void client_fault(const struct said *items, size_t length, enum xns_result fault) {
    const struct xns_address other = { 1, { 0, 0, 0xaa, 0, 3, 5 }, 0x500 };
    struct xns_endpoint peer = XNS_ENDPOINT_INIT;
    size_t number;
    open_both(&usual, &number);
    asks(number, XNS_KIND_RETURN, 0, 1);
    CHECK(xns_endpoint_new_initiator(&peer, &other, 77, &there, 8, 8) == XNS_OK);
    exchange(&peer, &service);
    hear_fault(&peer, &service, items, length, fault);
    asks(number, XNS_KIND_RETURN, 0, 2);
    xns_endpoint_free(&peer);
    free_both();
}

/* A server that says this to the client. */
static void server_fault(const struct said *items, size_t length, enum xns_result fault) {
    struct xns_endpoint peer = XNS_ENDPOINT_INIT;
    struct xns_address from;
    uint8_t opening[XNS_LONGEST_PACKET];
    uint16_t id;
    uint64_t via;
    size_t number, size;
    open_both(&usual, &number);
    CHECK(xns_host_call(&client, now, number, 7, 2, 1, given, 1) == XNS_OK);
    CHECK(xns_host_next_packet(&client, now, opening, sizeof opening, &size, &via) == XNS_OK && xns_opening(opening, size, &from, &id) == XNS_OK);
    CHECK(xns_endpoint_new_responder(&peer, &there, 88, &from, id, 8, 8) == XNS_OK);
    hear_fault(&peer, &client, items, length, fault);
    CHECK(xns_host_call(&client, now, number, 7, 2, 1, given, 1) == XNS_NO_CONNECTION);
    xns_endpoint_free(&peer);
    free_both();
}

/* A message that has no end within 131,072 bytes, which are 245 items and some bytes. */
static void long_fault(void) {
    enum { ITEMS = 246 };
    static const char zeros[XNS_LONGEST_ITEM];
    struct said items[1 + ITEMS] = { VERSIONS };
    for (size_t i = 1; i <= ITEMS; i++) items[i] = (struct said){ 0, 0, 0, zeros, sizeof zeros };
    client_fault(items, 1 + ITEMS, XNS_LONG_MESSAGE);
}

static void faults(void) {
    long_fault();
    client_fault((const struct said[]){ ATTENTION }, 1, XNS_ATTENTION);
    client_fault((const struct said[]){ VERSIONS, HALF, ATTENTION }, 3, XNS_ATTENTION);
    client_fault((const struct said[]){ VERSIONS, CALLED, ATTENTION }, 3, XNS_ATTENTION);
    client_fault((const struct said[]){ VERSIONS, { 9, 0, 1, "\1", 1 } }, 2, XNS_OTHER_STREAM);
    client_fault((const struct said[]){ { 0, 0, 1, "\0\1\0\2", 4 } }, 1, XNS_NO_COMMON_VERSION);
    client_fault((const struct said[]){ { 0, 0, 1, "\0\4\0\3", 4 } }, 1, XNS_BAD_VERSIONS);
    client_fault((const struct said[]){ VERSIONS, { 0, 0, 1, "\0\0\0", 3 } }, 2, XNS_ODD_LENGTH);
    client_fault((const struct said[]){ VERSIONS, { 0, 0, 1, "\0\0", 2 } }, 2, XNS_SHORT_MESSAGE);
    client_fault((const struct said[]){ VERSIONS, { 0, 0, 1, "\0\4\0\1", 4 } }, 2, XNS_UNKNOWN_KIND);
    client_fault((const struct said[]){ VERSIONS, { 0, 0, 1, "\0\2\0\1", 4 } }, 2, XNS_BAD_REPLY);
    server_fault((const struct said[]){ VERSIONS, { 0, 0, 1, "\0\2\7\7", 4 } }, 2, XNS_WRONG_TRANSACTION);
    server_fault((const struct said[]){ VERSIONS, CALLED }, 2, XNS_BAD_REPLY);
    server_fault((const struct said[]){ VERSIONS, ATTENTION }, 2, XNS_ATTENTION);
}
