/* Part of host.c: what each function of a host returns, writes and leaves; Echo, networks, refusals, buffers that are too short, and tags. */

/* Each function says so of a handle with no host, and of one whose host is freed, and writes nothing. */
static void no_host(struct xns_host *none) {
    struct xns_event event;
    struct xns_address peer;
    uint8_t packet[XNS_LONGEST_PACKET];
    uint64_t via = 7;
    size_t number = 7;
    memset(&event, 0xee, sizeof event);
    CHECK(none->at == NULL && xns_host_serve(none, 5, programs, 1) == XNS_NO_HOST && xns_host_connect(none, 0, 0, 5, &there, &number) == XNS_NO_HOST);
    CHECK(xns_host_call(none, 0, 0, 7, 1, 1, given, 1) == XNS_NO_HOST && xns_host_answer(none, 0, 0, 9, 0, given, 1) == XNS_NO_HOST);
    CHECK(xns_host_abandon(none, 0) == XNS_NO_HOST && xns_host_set_network(none, 7) == XNS_NO_HOST);
    CHECK(xns_host_close(none, 0, 0) == XNS_NO_HOST && xns_host_receive(none, 0, 0, packet, 0) == XNS_NO_HOST);
    CHECK(xns_host_next_event(none, &event, words, WORDS, &number) == XNS_NO_HOST && event.kind == 0xee);
    CHECK(xns_host_next_packet(none, 0, packet, sizeof packet, &number, &via) == XNS_NO_HOST && via == 7 && number == 7);
    CHECK(xns_host_wake(none) == XNS_NEVER && xns_host_connections(none) == 0 && xns_host_peer(none, 0, &peer) == XNS_NO_HOST);
    CHECK(xns_host_number_from(none, 0, &number) == XNS_NO_HOST && number == 7);
    CHECK(xns_host_set_tag(none, 0, 7) == XNS_NO_HOST && xns_host_tag(none, 0, &via) == XNS_NO_HOST && via == 7);
    xns_host_free(none);
    CHECK(none->at == NULL);
}

/* At most 16 sockets, and one that is served again is none more. A host that is made again has none. */
static void services(void) {
    uint8_t packet[XNS_LONGEST_PACKET] = { 0 };
    uint64_t via = 7;
    size_t length = 7;
    no_host(&service);
    CHECK(xns_host_new(&service, &there, &usual, secret) == XNS_OK && xns_host_wake(&service) == XNS_NEVER && xns_host_connections(&service) == 0);
    for (uint16_t socket = 3; socket < XNS_MOST_SERVICES + 3; socket++) CHECK(xns_host_serve(&service, socket, programs, 1) == XNS_OK);
    CHECK(xns_host_serve(&service, XNS_MOST_SERVICES + 3, programs, 1) == XNS_TOO_MANY_SERVICES && xns_host_serve(&service, 3, programs, 0) == XNS_OK);
    growths = 0, refuse_at = 1; /* where two results hold, the one that the header names first */
    CHECK(xns_host_serve(&service, XNS_MOST_SERVICES + 3, programs, 1) == XNS_TOO_MANY_SERVICES && xns_host_serve(&service, 3, programs, 1) == XNS_NO_MEMORY);
    refuse_at = 0;
    CHECK(xns_host_receive(&service, 0, 0, packet, sizeof packet) == XNS_NOTHING && xns_host_next_packet(&service, 0, packet, sizeof packet, &length, &via) == XNS_NOTHING);
    CHECK(length == 7 && via == 7 && xns_host_wake(&service) == XNS_NEVER);
    CHECK(xns_host_new(&service, &there, &usual, secret) == XNS_OK && xns_host_serve(&service, XNS_MOST_SERVICES + 1, programs, 1) == XNS_OK);
    CHECK(xns_host_new(&service, &there, &(const struct xns_settings){ .window = 65 }, secret) == XNS_BAD_ARGUMENT); /* the former one is freed */
    no_host(&service);
}

/* An Echo request is answered by the `via` that it came by; other packets are the program's. */
static void strangers(void) {
    const struct xns_address echo = { 1, { 0, 0, 0xaa, 0, 1, 2 }, XNS_SOCKET_ECHO }, other = { 1, { 0, 0, 0xaa, 0, 1, 3 }, XNS_SOCKET_ECHO };
    const uint64_t place = (uint64_t)0xffffffff << 32 | 77;
    uint8_t packet[XNS_LONGEST_PACKET], reply[XNS_LONGEST_PACKET];
    size_t length, at, size;
    uint64_t via = 0;
    CHECK(xns_host_new(&service, &there, &usual, secret) == XNS_OK);
    CHECK(xns_echo_request(&here, &echo, (const uint8_t *)"Hi", 2, packet, sizeof packet, &length) == XNS_OK);
    CHECK(xns_host_receive(&service, 0, place, packet, length) == XNS_OK && xns_host_wake(&service) == 0);
    CHECK(xns_host_next_packet(&service, 0, reply, 33, &size, &via) == XNS_SHORT_BUFFER && size == 34 && via == 0 && xns_host_wake(&service) == 0);
    CHECK(xns_host_next_packet(&service, 0, reply, 34, &size, &via) == XNS_OK && size == 34 && via == place);
    CHECK(xns_echo_accept(&echo, reply, size, &at, &size) == XNS_OK && size == 2 && memcmp(reply + at, "Hi", 2) == 0);
    CHECK(xns_host_next_packet(&service, 0, reply, sizeof reply, &size, &via) == XNS_NOTHING && xns_host_wake(&service) == XNS_NEVER);
    CHECK(xns_echo_request(&here, &other, (const uint8_t *)"Hi", 2, packet, sizeof packet, &length) == XNS_OK);
    CHECK(xns_host_receive(&service, 0, 77, packet, length) == XNS_NOTHING && xns_host_receive(&service, 0, 77, packet, 20) == XNS_NOTHING);
    CHECK(xns_exchange_request(&here, &there, 1, 5, packet, 4, reply, sizeof reply, &size) == XNS_OK && xns_host_receive(&service, 0, 77, reply, size) == XNS_NOTHING);
    CHECK(xns_host_wake(&service) == XNS_NEVER);
    free_both();
}

/* Echo requests of the broadcast host are not answered, nor is any where the settings say so. */
static void unanswered(void) {
    const struct xns_address echo = { 1, { 0, 0, 0xaa, 0, 1, 2 }, XNS_SOCKET_ECHO }, everybody = { 1, { 255, 255, 255, 255, 255, 255 }, 0x400 };
    const struct xns_settings quiet = { .no_echo = 1 };
    uint8_t packet[XNS_LONGEST_PACKET];
    size_t length;
    CHECK(xns_host_new(&service, &there, &usual, secret) == XNS_OK);
    CHECK(xns_echo_request(&everybody, &echo, (const uint8_t *)"Hi", 2, packet, sizeof packet, &length) == XNS_OK);
    CHECK(xns_host_receive(&service, 0, 0, packet, length) == XNS_NOTHING && xns_host_wake(&service) == XNS_NEVER);
    CHECK(xns_echo_request(&here, &echo, (const uint8_t *)"Hi", 2, packet, sizeof packet, &length) == XNS_OK);
    CHECK(xns_host_receive(&service, 0, 0, packet, length) == XNS_OK);
    CHECK(xns_host_new(&service, &there, &quiet, secret) == XNS_OK);
    CHECK(xns_host_receive(&service, 0, 0, packet, length) == XNS_NOTHING && xns_host_wake(&service) == XNS_NEVER);
    free_both();
}

/* The broadcast host has no connections: it is connected to by none and from none, and a packet of it opens none. */
static void everybody(void) {
    const struct xns_address all = { 1, { 255, 255, 255, 255, 255, 255 }, 5 };
    uint8_t opening[XNS_LONGEST_PACKET];
    size_t number, none = 7, length;
    uint64_t via;
    open_both(&usual, &number);
    CHECK(xns_host_next_packet(&client, now, opening, sizeof opening, &length, &via) == XNS_OK);
    opening[0] = opening[1] = 0xff; /* no checksum */
    memset(opening + 18 + 4, 255, 6); /* the host of its source */
    CHECK(xns_host_receive(&service, now, 0, opening, length) == XNS_NOTHING && xns_host_connections(&service) == 0);
    CHECK(xns_host_connect(&client, now, 0, here.socket, &all, &none) == XNS_EVERY_HOST && none == 7);
    CHECK(xns_host_new(&client, &all, &usual, secret) == XNS_OK && xns_host_connect(&client, now, 0, here.socket, &there, &none) == XNS_EVERY_HOST);
    free_both();
}

/* What is refused whatever is there, by number, and changes nothing. */
static void never(void) {
    const struct xns_address nowhere = { 1, { 0, 0, 0xaa, 0, 1, 2 }, 0 };
    const struct xns_program good[] = { { 7, 2, 2 }, { 8, 0, 65535 } }, bad[] = { { 7, 1, 2 }, { 8, 2, 1 } };
    size_t none = 7;
    CHECK(xns_host_new(&client, &here, &usual, secret) == XNS_OK);
    CHECK(xns_host_connect(&client, 0, 0, here.socket, &nowhere, &none) == XNS_NO_SOCKET && xns_host_connect(&client, 0, 0, 0, &there, &none) == XNS_NO_SOCKET);
    CHECK(none == 7 && xns_host_connections(&client) == 0 && xns_host_wake(&client) == XNS_NEVER);
    CHECK(xns_host_serve(&client, XNS_SOCKET_ECHO, good, 2) == XNS_ECHO_SOCKET && xns_host_serve(&client, 5, bad, 2) == XNS_NO_VERSION);
    CHECK(xns_host_serve(&client, 5, good, 2) == XNS_OK && xns_host_serve(&client, 5, good, 0) == XNS_OK);
    free_both();
}

/* A network that is learned late is that of new connections and of Echo replies; a connection that is there keeps its own, and goes on. */
static void networks(void) {
    const struct xns_address echo = { 1, { 0, 0, 0xaa, 0, 3, 4 }, XNS_SOCKET_ECHO };
    uint8_t packet[XNS_LONGEST_PACKET];
    struct xns_packet read;
    size_t number, second, length;
    uint64_t via;
    open_both(&usual, &number);
    CHECK(xns_host_next_packet(&client, now, packet, sizeof packet, &length, &via) == XNS_OK);
    CHECK(xns_decode(packet, length, &read) == XNS_OK && read.source.network == 1 && xns_host_receive(&service, now, SERVICE_VIA, packet, length) == XNS_OK);
    CHECK(xns_host_set_network(&client, 0x12345678) == XNS_OK);
    asks(number, XNS_KIND_RETURN, 0, 2);
    CHECK(carry(&client, &service, CLIENT_VIA)); /* the answer is acknowledged */
    CHECK(xns_host_connect(&client, now, CLIENT_VIA, here.socket + 1, &there, &second) == XNS_OK);
    CHECK(xns_host_next_packet(&client, now, packet, sizeof packet, &length, &via) == XNS_OK);
    CHECK(xns_decode(packet, length, &read) == XNS_OK && read.source.network == 0x12345678 && read.target.network == 1);
    CHECK(xns_host_receive(&service, now, SERVICE_VIA, packet, length) == XNS_OK);
    asks(second, XNS_KIND_RETURN, 0, 2);
    CHECK(xns_echo_request(&there, &echo, (const uint8_t *)"Hi", 2, packet, sizeof packet, &length) == XNS_OK && xns_host_receive(&client, now, 0, packet, length) == XNS_OK);
    CHECK(xns_host_next_packet(&client, now, packet, sizeof packet, &length, &via) == XNS_OK);
    CHECK(xns_decode(packet, length, &read) == XNS_OK && read.source.network == 0x12345678);
    free_both();
}

/* The refusals of calls, answers and closings, by number; those of a call that waits, and of one that is answered. */
static void refusals(void) {
    struct xns_address peer;
    struct xns_event call;
    size_t number, second, none = 7;
    const struct xns_settings two = { .connections = 2 };
    open_both(&two, &number);
    CHECK(xns_host_connect(&client, now, CLIENT_VIA, here.socket + 1, &there, &second) == XNS_OK && second != number && xns_host_connections(&client) == 2);
    CHECK(xns_host_connect(&client, now, CLIENT_VIA, here.socket + 2, &there, &none) == XNS_NO_SLOT && none == 7);
    CHECK(xns_host_peer(&client, number, &peer) == XNS_OK && memcmp(&peer, &there, sizeof peer) == 0 && xns_host_peer(&client, 2, &peer) == XNS_NO_CONNECTION);
    const size_t first = number < second ? number : second, last = number + second - first;
    size_t found = 7;
    CHECK(xns_host_number_from(&client, 0, &found) == XNS_OK && found == first);
    CHECK(xns_host_number_from(&client, first + 1, &found) == XNS_OK && found == last);
    CHECK(xns_host_number_from(&client, last + 1, &found) == XNS_NOTHING && xns_host_number_from(&client, SIZE_MAX, &found) == XNS_NOTHING && found == last);
    CHECK(xns_host_peer(&client, SIZE_MAX, &peer) == XNS_NO_CONNECTION && xns_host_call(&client, now, SIZE_MAX, 7, 1, 1, given, 0) == XNS_NO_CONNECTION);
    CHECK(xns_host_answer(&client, now, 2, XNS_KIND_RETURN, 0, given, 0) == XNS_NO_CONNECTION && xns_host_close(&client, now, 2) == XNS_NO_CONNECTION);
    CHECK(xns_host_answer(&client, now, 2, XNS_KIND_CALL, 0, given, 0) == XNS_BAD_ARGUMENT && xns_host_answer(&client, now, 2, 4, 0, given, 0) == XNS_BAD_ARGUMENT);
    CHECK(xns_host_call(&client, now, number, 7, 1, 1, given, XNS_MOST_CALL_WORDS + 1) == XNS_TOO_LONG);

    call = calls(number, 1);
    CHECK(xns_host_call(&client, now, number, 7, 1, 1, given, 0) == XNS_BUSY && xns_host_call(&service, now, call.number, 7, 1, 1, given, 0) == XNS_PEER_CALLS);
    CHECK(xns_host_answer(&service, now, call.number, XNS_KIND_RETURN, 0, given, XNS_MOST_MESSAGE_WORDS + 1) == XNS_TOO_LONG);
    CHECK(xns_host_peer(&service, call.number, &peer) == XNS_OK && memcmp(&peer, &here, sizeof peer) == 0);
    CHECK(xns_host_answer(&service, now, call.number, XNS_KIND_RETURN, 0, given, 1) == XNS_OK);
    CHECK(xns_host_answer(&service, now, call.number, XNS_KIND_RETURN, 0, given, 1) == XNS_NOTHING);
    for (int i = 0; i < 4; i++) turn();
    CHECK(xns_host_call(&client, now, number, 7, 1, 1, given, 0) == XNS_BUSY); /* the answer is there, and was not fetched */
    hears(number, XNS_KIND_RETURN, 0, 1);
    CHECK(xns_host_answer(&client, now, number, XNS_KIND_RETURN, 0, given, 0) == XNS_NOTHING);

    CHECK(xns_host_close(&client, now, number) == XNS_OK && xns_host_call(&client, now, number, 7, 1, 1, given, 0) == XNS_CLOSING);
    is_closed(&service, XNS_CLOSED_BY_PEER, XNS_OK);
    CHECK(xns_host_answer(&service, now, call.number, XNS_KIND_RETURN, 0, given, 0) == XNS_CLOSING);
    is_closed(&client, XNS_CLOSED_ASKED, XNS_OK);
    CHECK(xns_host_connect(&client, now, CLIENT_VIA, here.socket + 2, &there, &none) == XNS_OK && none == number); /* the closed one gives way */
    asks(none, XNS_KIND_RETURN, 0, 2);
    asks(second, XNS_KIND_RETURN, 0, 2);
    free_both();
}

/* Where its connection is asked to close, an answer that stays goes: the program has said all. */
static void answer_that_stays(void) {
    struct xns_event call, event;
    size_t number;
    open_both(&usual, &number);
    call = calls(number, 2);
    CHECK(xns_host_answer(&service, now, call.number, XNS_KIND_RETURN, 0, given, 2) == XNS_OK);
    while (xns_host_next_event(&client, &event, words, 1, &count) == XNS_NOTHING) turn();
    CHECK(event.kind == XNS_EVENT_ANSWER && count == 2 && xns_host_close(&client, now, number) == XNS_OK);
    CHECK(xns_host_next_event(&client, &event, words, WORDS, &count) == XNS_NOTHING);
    is_closed(&service, XNS_CLOSED_BY_PEER, XNS_OK);
    is_closed(&client, XNS_CLOSED_ASKED, XNS_OK);
    free_both();
}

/* A side that calls closes behind its call: the answer still comes, and the close behind it, also where both sides ask for it. */
static void close_behind_a_call(void) {
    for (int both = 0; both < 2; both++) {
        struct xns_event call, event;
        size_t number;
        open_both(&usual, &number);
        call = calls(number, 2);
        CHECK(xns_host_close(&client, now, number) == XNS_OK && xns_host_call(&client, now, number, 7, 1, 1, given, 0) == XNS_CLOSING);
        if (both) CHECK(xns_host_close(&service, now, call.number) == XNS_OK);
        for (int i = 0; i < 4; i++) turn();
        CHECK(xns_host_next_event(&client, &event, words, WORDS, &count) == XNS_NOTHING);
        CHECK(xns_host_answer(&service, now, call.number, XNS_KIND_RETURN, 0, given, 2) == XNS_OK);
        hears(number, XNS_KIND_RETURN, 0, 2);
        is_closed(&client, XNS_CLOSED_ASKED, XNS_OK);
        is_closed(&service, XNS_CLOSED_BY_PEER, XNS_OK); /* the client's wish is there before the answer */
        free_both();
    }
}

/* The longest messages. An event whose words have no room stays, and the program may answer a call that stays. */
static void short_buffers(void) {
    struct xns_event event;
    uint8_t packet[XNS_LONGEST_PACKET];
    size_t number, length;
    uint64_t via;
    open_both(&usual, &number);
    CHECK(xns_host_next_packet(&client, now, packet, 41, &length, &via) == XNS_SHORT_BUFFER && length == 42 && xns_host_wake(&client) == 0);
    CHECK(xns_host_next_packet(&client, now, packet, 42, &length, &via) == XNS_OK && length == 42 && xns_host_receive(&service, now, SERVICE_VIA, packet, length) == XNS_OK);
    for (size_t i = 0; i < XNS_MOST_CALL_WORDS; i++) given[i] = (uint16_t)(i * 3);
    CHECK(xns_host_call(&client, now, number, 7, 1, 4, given, XNS_MOST_CALL_WORDS) == XNS_OK);
    memset(words, 0xee, sizeof words);
    while (xns_host_next_event(&service, &event, words, 10, &count) == XNS_NOTHING) turn();
    for (int i = 0; i < 3; i++) {
        CHECK(xns_host_next_event(&service, &event, words, XNS_MOST_CALL_WORDS - 1, &count) == XNS_SHORT_BUFFER && count == XNS_MOST_CALL_WORDS && words[0] == 0xeeee);
        CHECK(event.kind == XNS_EVENT_CALL && event.message.procedure == 4 && event.message.version == 1 && xns_host_wake(&service) == 0);
    }
    CHECK(xns_host_next_event(&service, &event, words, XNS_MOST_CALL_WORDS, &count) == XNS_OK && count == XNS_MOST_CALL_WORDS && memcmp(words, given, 2 * count) == 0);
    CHECK(xns_host_next_event(&service, &event, words, XNS_MOST_CALL_WORDS, &count) == XNS_NOTHING && words[count] == 0xeeee);
    CHECK(xns_host_answer(&service, now, event.number, XNS_KIND_RETURN, 0, given, XNS_MOST_MESSAGE_WORDS) == XNS_OK);
    while (xns_host_next_event(&client, &event, words, 10, &count) == XNS_NOTHING) turn();
    CHECK(event.kind == XNS_EVENT_ANSWER && event.number == number && count == XNS_MOST_MESSAGE_WORDS && event.message.kind == XNS_KIND_RETURN);
    CHECK(xns_host_call(&client, now, number, 7, 1, 4, given, 1) == XNS_BUSY); /* the answer stays */
    hears(number, XNS_KIND_RETURN, 0, XNS_MOST_MESSAGE_WORDS);

    CHECK(xns_host_call(&client, now, number, 7, 1, 4, given, 5) == XNS_OK);
    while (xns_host_next_event(&service, &event, words, 0, &count) == XNS_NOTHING) turn();
    CHECK(count == 5 && xns_host_answer(&service, now, event.number, XNS_KIND_REJECT, 3, NULL, 0) == XNS_OK);
    CHECK(xns_host_next_event(&service, &event, words, WORDS, &count) == XNS_NOTHING); /* it went by its answer */
    hears(number, XNS_KIND_REJECT, 3, 0);
    CHECK(xns_host_call(&client, now, number, 7, 1, 4, given, 5) == XNS_OK);
    while (xns_host_next_event(&service, &event, words, 0, &count) == XNS_NOTHING) turn();
    CHECK(xns_host_close(&service, now, event.number) == XNS_OK); /* it is still to be answered, and comes again */
    CHECK(xns_host_next_event(&service, &event, words, WORDS, &count) == XNS_OK && event.kind == XNS_EVENT_CALL && count == 5);
    CHECK(xns_host_next_event(&service, &event, words, WORDS, &count) == XNS_NOTHING);
    CHECK(xns_host_answer(&service, now, event.number, XNS_KIND_ABORT, 4, given, 1) == XNS_OK);
    hears(number, XNS_KIND_ABORT, 4, 1);
    is_closed(&client, XNS_CLOSED_BY_PEER, XNS_OK);
    is_closed(&service, XNS_CLOSED_ASKED, XNS_OK);
    free_both();
    answer_that_stays();
}

/* By the setting it is told once, before all else, that a connection of ours is open: also where its call was answered meanwhile; never where the peer is silent,
 * nor of one that a peer opened. */
static void opened(void) {
    const struct xns_settings told = { .tells_opened = 1 }, brief = { .first_wait = 100, .longest_wait = 100, .tries = 1, .patience = 200, .tells_opened = UINT8_MAX };
    struct xns_event event;
    size_t number;
    open_both(&told, &number);
    CHECK(xns_host_set_tag(&client, number, 7) == XNS_OK && carry(&client, NULL, CLIENT_VIA));
    CHECK(xns_host_next_event(&client, &event, words, WORDS, &count) == XNS_NOTHING);
    event = await(&client, XNS_EVENT_OPENED);
    CHECK(event.number == number && event.tag == 7 && count == 0 && event.message.kind == 0 && event.closed == 0 && event.error == 0 && event.fault == 0);
    CHECK(xns_host_next_event(&client, &event, words, WORDS, &count) == XNS_NOTHING);
    asks(number, XNS_KIND_RETURN, 0, 3);
    CHECK(xns_host_close(&client, now, number) == XNS_OK);
    is_closed(&service, XNS_CLOSED_BY_PEER, XNS_OK);
    is_closed(&client, XNS_CLOSED_ASKED, XNS_OK);
    free_both();
    open_both(&told, &number);
    event = calls(number, 3);
    CHECK(xns_host_answer(&service, now, event.number, XNS_KIND_RETURN, 0, given, 3) == XNS_OK);
    while (carry(&service, &client, SERVICE_VIA) || carry(&client, &service, CLIENT_VIA)) continue;
    CHECK(xns_host_wake(&client) == 0 && xns_host_next_event(&client, &event, words, 0, &count) == XNS_OK && event.kind == XNS_EVENT_OPENED);
    CHECK(xns_host_wake(&client) == 0);
    hears(number, XNS_KIND_RETURN, 0, 3);
    free_both();
    open_both(&brief, &number);
    for (int i = 0; i < 4; i++, now += 100) carry(&client, NULL, CLIENT_VIA);
    is_closed(&client, XNS_CLOSED_SILENT, XNS_OK);
    free_both();
}

/* The tag of a connection is in each event of it, whoever opened it, also in one that stays; the next connection of the number has none. */
static void tags(void) {
    const struct xns_settings one = { .connections = 1 };
    struct xns_event event;
    uint64_t tag = 7;
    size_t number, second;
    open_both(&one, &number);
    CHECK(xns_host_tag(&client, number, &tag) == XNS_OK && tag == 0 && xns_host_set_tag(&client, number, UINT64_MAX) == XNS_OK);
    CHECK(xns_host_tag(&client, number, &tag) == XNS_OK && tag == UINT64_MAX);
    CHECK(xns_host_set_tag(&client, 1, 5) == XNS_NO_CONNECTION && xns_host_set_tag(&client, SIZE_MAX, 5) == XNS_NO_CONNECTION);
    CHECK(xns_host_tag(&client, 1, &tag) == XNS_NO_CONNECTION && tag == UINT64_MAX);
    AGAIN(xns_host_call(&client, now, number, 7, 1, 1, given, 5));
    while (xns_host_next_event(&service, &event, words, 0, &count) == XNS_NOTHING) turn();
    CHECK(event.kind == XNS_EVENT_CALL && event.tag == 0 && xns_host_set_tag(&service, event.number, 9) == XNS_OK);
    CHECK(xns_host_next_event(&service, &event, words, WORDS, &count) == XNS_OK && event.kind == XNS_EVENT_CALL && event.tag == 9);
    AGAIN(xns_host_answer(&service, now, event.number, XNS_KIND_RETURN, 0, given, 1));
    event = await(&client, XNS_EVENT_ANSWER);
    CHECK(event.tag == UINT64_MAX && xns_host_set_tag(&client, number, 3) == XNS_OK && xns_host_close(&client, now, number) == XNS_OK);
    event = await(&service, XNS_EVENT_CLOSED);
    CHECK(event.tag == 9 && await(&client, XNS_EVENT_CLOSED).tag == 3);
    AGAIN(xns_host_connect(&client, now, CLIENT_VIA, here.socket + 1, &there, &second)); /* the closed one gives way */
    CHECK(second == number && xns_host_tag(&client, second, &tag) == XNS_OK && tag == 0);
    event = calls(second, 1);
    CHECK(event.tag == 0 && xns_host_abandon(&service, event.number) == XNS_OK && xns_host_set_tag(&service, event.number, 5) == XNS_NO_CONNECTION);
    free_both();
}
