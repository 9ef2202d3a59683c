/* Calls each function of xns.h but those of a host, and compares its result, the fields and the bytes that it writes, and those that it leaves. Then it calls
 * the functions of a connection with the k-th growth refused, for every k. Prints ok, or ends with 1 at the first difference. */
#include "xns.h"
#include <stdio.h>
#include <stdlib.h>
#include <string.h>

#define CHECK(x) do { if (!(x)) { fprintf(stderr, "calls.c, line %d: %s (growth %ld refused)\n", __LINE__, #x, refuse_at); exit(1); } } while (0)

extern long refuse_at, growths; /* of refuse.c */

static const struct xns_address at_a = { 1, { 0, 0, 0xaa, 0, 3, 4 }, 0x400 }, at_b = { 1, { 0, 0, 0xaa, 0, 1, 2 }, 5 };

/* A request of Echo from host 0000aa000304, socket 400, to host 0000aa000102, socket 2, of network 1, and its reply. */
static const uint8_t request[] = { 0x53, 0x23, 0, 0x22, 0, 2, 0, 0, 0, 1, 0, 0, 0xaa, 0, 1, 2, 0, 2, 0, 0, 0, 1, 0, 0, 0xaa, 0, 3, 4, 4, 0, 0, 1, 0x48, 0x69 };
static const uint8_t echoed[] = { 0x17, 0x27, 0, 0x22, 0, 2, 0, 0, 0, 1, 0, 0, 0xaa, 0, 3, 4, 4, 0, 0, 0, 0, 1, 0, 0, 0xaa, 0, 1, 2, 0, 2, 0, 2, 0x48, 0x69 };
/* The opening packet of an initiator with identifier 1234 and window 4 at a, and the reply of a responder 5678 at b. */
static const uint8_t opening[] = { 0xcc, 0x1c, 0, 0x2a, 0, 5, 0, 0, 0, 1, 0, 0, 0xaa, 0, 1, 2, 0, 5, 0, 0, 0, 1, 0, 0, 0xaa, 0, 3, 4, 4, 0, 0xc0, 0, 0x12, 0x34, 0, 0, 0, 0, 0, 0, 0, 3 };
static const uint8_t answer[] = { 0x59, 0x52, 0, 0x2a, 0, 5, 0, 0, 0, 1, 0, 0, 0xaa, 0, 3, 4, 4, 0, 0, 0, 0, 1, 0, 0, 0xaa, 0, 1, 2, 0, 5, 0x80, 0, 0x56, 0x78, 0x12, 0x34, 0, 0, 0, 0, 0, 3 };
/* The item 0003 0003, with its mark, on its way from a. */
static const uint8_t versions[] = { 0xcf, 0x2a, 0, 0x2e, 0, 5, 0, 0, 0, 1, 0, 0, 0xaa, 0, 1, 2, 0, 5, 0, 0, 0, 1, 0, 0, 0xaa, 0, 3, 4, 4, 0, 0x50, 0, 0x12, 0x34, 0x56, 0x78, 0, 0, 0, 0, 0, 3, 0, 3, 0, 3 };

/* A struct with bytes behind it that no function may write. */
#define GUARDED(type) struct { type it; uint8_t behind[16]; }
#define GUARD(x) memset(&(x), 0xee, sizeof (x))
#define IS_GUARDED(x) (memcmp((x).behind, "\xee\xee\xee\xee\xee\xee\xee\xee\xee\xee\xee\xee\xee\xee\xee\xee", 16) == 0)

/* Whether all of the buffer from `at` on is as it was filled. */
static bool is_left(const uint8_t *buffer, size_t at, size_t room) {
    while (at < room && buffer[at] == 0xee) at++;
    return at == room;
}

static bool is_address(const struct xns_address *a, const struct xns_address *b) {
    return a->network == b->network && memcmp(a->host, b->host, 6) == 0 && a->socket == b->socket;
}

static void formats(void) {
    GUARDED(struct xns_packet) packet;
    GUARDED(struct xns_header) header;
    GUARDED(struct xns_address) peer;
    static uint8_t large[1000];
    uint8_t buffer[600], damaged[sizeof request];
    size_t written = 7;
    uint16_t sum = 7, number = 7, parameter = 7, client = 7, peer_id = 7;
    uint32_t id = 7;

    CHECK(xns_checksum(request + 2, 32, &sum) == XNS_OK && sum == 0x5323);
    sum = 7;
    CHECK(xns_checksum(request, 3, &sum) == XNS_BAD_ARGUMENT && sum == 7);

    GUARD(packet);
    CHECK(xns_decode(request, sizeof request, &packet.it) == XNS_OK && IS_GUARDED(packet));
    CHECK(packet.it.summed == 1 && packet.it.control == 0 && packet.it.kind == 2 && packet.it.body_at == 30 && packet.it.body_length == 4 && packet.it.taken == 34);
    CHECK(packet.it.target.network == 1 && memcmp(packet.it.target.host, at_b.host, 6) == 0 && packet.it.target.socket == 2 && is_address(&packet.it.source, &at_a));

    memset(buffer, 0xee, sizeof buffer);
    CHECK(xns_encode(&packet.it, request + 30, 4, buffer, sizeof buffer, &written) == XNS_OK && written == 34);
    CHECK(memcmp(buffer, request, 34) == 0 && is_left(buffer, 34, sizeof buffer));
    packet.it.summed = 2; /* any number but 0 is yes */
    CHECK(xns_encode(&packet.it, request + 30, 4, buffer, 34, &written) == XNS_OK && memcmp(buffer, request, 34) == 0);
    memset(buffer, 0xee, sizeof buffer);
    written = 7;
    CHECK(xns_encode(&packet.it, request + 30, 4, buffer, 33, &written) == XNS_SHORT_BUFFER && is_left(buffer, 0, sizeof buffer) && written == 34);
    written = 7;
    CHECK(xns_encode(&packet.it, large, 547, buffer, sizeof buffer, &written) == XNS_TOO_LONG && is_left(buffer, 0, sizeof buffer) && written == 7);
    CHECK(xns_encode(&packet.it, large, 546, buffer, 576, &written) == XNS_OK && written == 576);

    GUARD(packet);
    memcpy(damaged, request, sizeof request);
    damaged[33] ^= 1;
    CHECK(xns_decode(request, 29, &packet.it) == XNS_SHORT && xns_decode(request, 33, &packet.it) == XNS_CUT && xns_decode(damaged, 34, &packet.it) == XNS_BAD_SUM);
    damaged[3] = 29;
    CHECK(xns_decode(damaged, 34, &packet.it) == XNS_LENGTH_SMALL);
    damaged[2] = 2, damaged[3] = 65;
    CHECK(xns_decode(damaged, 34, &packet.it) == XNS_LENGTH_LARGE && is_left((uint8_t *)&packet, 0, sizeof packet));

    struct xns_address own = at_b;
    own.socket = 2;
    memset(buffer, 0xee, sizeof buffer);
    CHECK(xns_echo_reply(&own, request, 34, buffer, sizeof buffer, &written) == XNS_OK && written == 34);
    CHECK(memcmp(buffer, echoed, 34) == 0 && is_left(buffer, 34, sizeof buffer));
    written = 7;
    CHECK(xns_echo_reply(&own, request, 34, buffer, 33, &written) == XNS_SHORT_BUFFER && written == 34);
    written = 7;
    CHECK(xns_echo_reply(&at_b, request, 34, buffer, sizeof buffer, &written) == XNS_NOTHING && written == 7);
    CHECK(xns_echo_reply(&own, request, 33, buffer, sizeof buffer, &written) == XNS_NOTHING && written == 7);
    memcpy(damaged, request, sizeof request);
    damaged[0] = damaged[1] = 0xff; /* no checksum */
    memset(damaged + 10, 255, 6);   /* to all hosts */
    CHECK(xns_echo_reply(&own, damaged, 34, buffer, sizeof buffer, &written) == XNS_OK && written == 34 && memcmp(buffer, echoed, 34) == 0);
    memset(damaged + 22, 255, 6);   /* and from all */
    CHECK(xns_echo_reply(&own, damaged, 34, buffer, sizeof buffer, &written) == XNS_OK && written == 34 && memcmp(buffer + 10, damaged + 22, 6) == 0);

    CHECK(xns_complain(&own, 1, 9, request, 34, buffer, sizeof buffer, &written) == XNS_OK && written == 68);
    CHECK(xns_decode(buffer, written, &packet.it) == XNS_OK && packet.it.kind == 3 && is_address(&packet.it.target, &at_a) && memcmp(buffer + 34, request, 34) == 0);
    CHECK(xns_error_read(buffer + 30, 38, &number, &parameter) == XNS_OK && number == 1 && parameter == 9);
    CHECK(xns_complain(&own, 1, 9, buffer, 68, large, sizeof large, &written) == XNS_NOTHING && xns_complain(&own, 1, 9, request, 29, large, sizeof large, &written) == XNS_NOTHING);
    written = 7;
    CHECK(xns_complain(&own, 1, 9, request, 34, large, 67, &written) == XNS_SHORT_BUFFER && written == 68);
    CHECK(xns_error_read(buffer, 3, &number, &parameter) == XNS_SHORT && number == 1 && parameter == 9);

    memset(buffer, 0xee, sizeof buffer);
    CHECK(xns_exchange_write(0x01020304, 5, request, 34, buffer, sizeof buffer, &written) == XNS_OK && written == 40 && is_left(buffer, 40, sizeof buffer));
    CHECK(memcmp(buffer, "\1\2\3\4\0\5", 6) == 0 && memcmp(buffer + 6, request, 34) == 0);
    CHECK(xns_exchange_read(buffer, 40, &id, &client) == XNS_OK && id == 0x01020304 && client == 5);
    id = 7;
    CHECK(xns_exchange_read(buffer, 5, &id, &client) == XNS_SHORT && id == 7);
    written = 7;
    CHECK(xns_exchange_write(1, 5, large, 541, buffer, sizeof buffer, &written) == XNS_TOO_LONG && written == 7);
    CHECK(xns_exchange_write(1, 5, request, 34, buffer, 39, &written) == XNS_SHORT_BUFFER && written == 40);

    GUARD(header);
    CHECK(xns_header_read(answer + 30, 12, &header.it) == XNS_OK && IS_GUARDED(header));
    CHECK(header.it.control == 0x80 && header.it.stream == 0 && header.it.source_id == 0x5678 && header.it.target_id == 0x1234);
    CHECK(header.it.sequence == 0 && header.it.acknowledge == 0 && header.it.allocation == 3);
    struct xns_header all = { 1, 2, 0x304, 0x506, 0x708, 0x90a, 0xb0c };
    memset(buffer, 0xee, sizeof buffer);
    CHECK(xns_header_write(&all, buffer, sizeof buffer, &written) == XNS_OK && written == 12 && memcmp(buffer, "\1\2\3\4\5\6\7\10\11\12\13\14", 12) == 0 && is_left(buffer, 12, sizeof buffer));
    CHECK(xns_header_read(buffer, 12, &header.it) == XNS_OK && memcmp(&header.it, &all, sizeof all) == 0);
    written = 7;
    CHECK(xns_header_write(&all, buffer, 11, &written) == XNS_SHORT_BUFFER && written == 12 && xns_header_read(buffer, 11, &header.it) == XNS_SHORT);

    GUARD(peer);
    CHECK(xns_opening(opening, sizeof opening, &peer.it, &peer_id) == XNS_OK && IS_GUARDED(peer) && is_address(&peer.it, &at_a) && peer_id == 0x1234);
    GUARD(peer);
    peer_id = 7;
    CHECK(xns_opening(answer, sizeof answer, &peer.it, &peer_id) == XNS_NOTHING && peer_id == 7 && is_left((uint8_t *)&peer, 0, sizeof peer));
}

/* Calls a function again while it is refused memory, which happens once at most. */
#define AGAIN(call) do { uint32_t result = (call); if (result == XNS_NO_MEMORY) { CHECK(growths >= refuse_at && refuse_at > 0); result = (call); } CHECK(result == XNS_OK); } while (0)

/* A call of program 7, version 2, procedure 1 with the word 5, and the reject of it for its version, with the words 1 and 2. */
/* A request of Packet Exchange from a to b, with identifier 01020304, client type 5 and the data "Hi!", and the response "Hello". */
static const uint8_t asking[] = { 0xf6, 0xe3, 0, 0x27, 0, 4, 0, 0, 0, 1, 0, 0, 0xaa, 0, 1, 2, 0, 5, 0, 0, 0, 1, 0, 0, 0xaa, 0, 3, 4, 4, 0, 1, 2, 3, 4, 0, 5, 0x48, 0x69, 0x21, 0 };
static const uint8_t response[] = { 0xda, 0xf5, 0, 0x29, 0, 4, 0, 0, 0, 1, 0, 0, 0xaa, 0, 3, 4, 4, 0, 0, 0, 0, 1, 0, 0, 0xaa, 0, 1, 2, 0, 5, 1, 2, 3, 4, 0, 5, 0x48, 0x65, 0x6c, 0x6c, 0x6f, 0 };

static void exchange(void) {
    const struct xns_address everyone = { 1, { 255, 255, 255, 255, 255, 255 }, 5 };
    struct xns_address other = at_b;
    static const uint8_t large[541];
    uint8_t buffer[600], damaged[sizeof response];
    size_t written = 7, body_at = 7, body_length = 7;

    memset(buffer, 0xee, sizeof buffer);
    CHECK(xns_exchange_request(&at_a, &at_b, 0x01020304, 5, (const uint8_t *)"Hi!", 3, buffer, 39, &written) == XNS_SHORT_BUFFER && written == 40 && is_left(buffer, 0, sizeof buffer));
    CHECK(xns_exchange_request(&at_a, &at_b, 0x01020304, 5, (const uint8_t *)"Hi!", 3, buffer, 40, &written) == XNS_OK && written == sizeof asking);
    CHECK(memcmp(buffer, asking, sizeof asking) == 0 && is_left(buffer, sizeof asking, sizeof buffer));
    CHECK(xns_exchange_request(&at_a, &at_b, 1, 5, large, 540, buffer, 576, &written) == XNS_OK && written == 576);
    written = 7;
    CHECK(xns_exchange_request(&at_a, &everyone, 1, 5, large, 541, buffer, sizeof buffer, &written) == XNS_TOO_LONG && written == 7);
    CHECK(xns_exchange_request(&at_a, &everyone, 1, 5, large, 540, buffer, 0, &written) == XNS_BAD_ARGUMENT && written == 7);

    CHECK(xns_exchange_accept(&at_b, 0x01020304, response, sizeof response, &body_at, &body_length) == XNS_OK && body_at == 36 && body_length == 5);
    other.network = 9; /* networks are not compared */
    CHECK(xns_exchange_accept(&other, 0x01020304, response, sizeof response, &body_at, &body_length) == XNS_OK);
    body_at = body_length = 7;
    memcpy(damaged, response, sizeof response);
    damaged[40] ^= 1;
    CHECK(xns_exchange_accept(&at_b, 0x01020304, damaged, sizeof damaged, &body_at, &body_length) == XNS_NOTHING);
    CHECK(xns_exchange_accept(&at_b, 0x01020305, response, sizeof response, &body_at, &body_length) == XNS_NOTHING);
    other.socket = 6;
    CHECK(xns_exchange_accept(&other, 0x01020304, response, sizeof response, &body_at, &body_length) == XNS_NOTHING);
    CHECK(xns_exchange_accept(&at_a, 0x01020304, response, sizeof response, &body_at, &body_length) == XNS_NOTHING);
    CHECK(xns_exchange_accept(&at_a, 0x01020304, request, sizeof request, &body_at, &body_length) == XNS_NOTHING && body_at == 7 && body_length == 7);

    memset(buffer, 0xee, sizeof buffer);
    CHECK(xns_exchange_reply(&at_b, asking, sizeof asking, (const uint8_t *)"Hello", 5, buffer, 41, &written) == XNS_SHORT_BUFFER && written == 42 && is_left(buffer, 0, sizeof buffer));
    CHECK(xns_exchange_reply(&at_b, asking, sizeof asking, (const uint8_t *)"Hello", 5, buffer, 42, &written) == XNS_OK && written == sizeof response);
    CHECK(memcmp(buffer, response, sizeof response) == 0 && is_left(buffer, sizeof response, sizeof buffer));
    CHECK(xns_exchange_reply(&at_b, asking, sizeof asking, large, 540, buffer, 576, &written) == XNS_OK && written == 576);
    written = 7;
    CHECK(xns_exchange_reply(&at_b, request, sizeof request, large, 541, buffer, sizeof buffer, &written) == XNS_TOO_LONG && written == 7);
    CHECK(xns_exchange_reply(&at_b, request, sizeof request, large, 1, buffer, sizeof buffer, &written) == XNS_NOTHING && written == 7);
    CHECK(xns_exchange_reply(&at_a, asking, sizeof asking, large, 1, buffer, sizeof buffer, &written) == XNS_NOTHING && written == 7);
    CHECK(xns_exchange_request(&everyone, &at_b, 1, 5, large, 1, buffer, sizeof buffer, &written) == XNS_OK && xns_exchange_reply(&at_b, buffer, written, large, 1, buffer + 100, 100, &written) == XNS_NOTHING);
}

/* Asking by Echo, and the reply to it. */
static void echo(void) {
    const struct xns_address server = { 1, { 0, 0, 0xaa, 0, 1, 2 }, 2 }, everyone = { 0, { 255, 255, 255, 255, 255, 255 }, 2 };
    struct xns_address other = server;
    static const uint8_t large[545];
    uint8_t buffer[600], damaged[sizeof echoed];
    size_t written = 7, body_at = 7, body_length = 7;

    memset(buffer, 0xee, sizeof buffer);
    CHECK(xns_echo_request(&at_a, &server, (const uint8_t *)"Hi", 2, buffer, 33, &written) == XNS_SHORT_BUFFER && written == 34 && is_left(buffer, 0, sizeof buffer));
    CHECK(xns_echo_request(&at_a, &server, (const uint8_t *)"Hi", 2, buffer, 34, &written) == XNS_OK && written == sizeof request);
    CHECK(memcmp(buffer, request, sizeof request) == 0 && is_left(buffer, sizeof request, sizeof buffer));
    CHECK(xns_echo_request(&at_a, &server, large, XNS_LONGEST_ECHO, buffer, XNS_LONGEST_PACKET, &written) == XNS_OK && written == XNS_LONGEST_PACKET);
    written = 7;
    CHECK(xns_echo_request(&at_a, &server, large, XNS_LONGEST_ECHO + 1, buffer, sizeof buffer, &written) == XNS_TOO_LONG && written == 7);

    CHECK(xns_echo_accept(&server, echoed, sizeof echoed, &body_at, &body_length) == XNS_OK && body_at == 32 && body_length == 2);
    CHECK(xns_echo_accept(&everyone, echoed, sizeof echoed, &body_at, &body_length) == XNS_OK && body_at == 32 && body_length == 2);
    other.network = 9; /* networks are not compared */
    CHECK(xns_echo_accept(&other, echoed, sizeof echoed, &body_at, &body_length) == XNS_OK);
    body_at = body_length = 7;
    memcpy(damaged, echoed, sizeof echoed);
    damaged[33] ^= 1;
    CHECK(xns_echo_accept(&server, damaged, sizeof damaged, &body_at, &body_length) == XNS_NOTHING && xns_echo_accept(&at_b, echoed, sizeof echoed, &body_at, &body_length) == XNS_NOTHING);
    CHECK(xns_echo_accept(&at_a, request, sizeof request, &body_at, &body_length) == XNS_NOTHING && xns_echo_accept(&server, response, sizeof response, &body_at, &body_length) == XNS_NOTHING);
    other.host[5] = 9;
    CHECK(xns_echo_accept(&other, echoed, sizeof echoed, &body_at, &body_length) == XNS_NOTHING && body_at == 7 && body_length == 7);
}

static const uint8_t call[] = { 0, 0, 0, 1, 0, 0, 0, 7, 0, 2, 0, 1, 0, 5 }, reject[] = { 0, 1, 0, 1, 0, 1, 0, 1, 0, 2 };

static void messages(void) {
    GUARDED(struct xns_message) message;
    uint8_t buffer[32];
    uint16_t words[8];
    size_t count = 7, written = 7;

    GUARD(message);
    memset(words, 0xee, sizeof words);
    AGAIN(xns_message_read(call, sizeof call, &message.it, words, 8, &count));
    CHECK(IS_GUARDED(message) && message.it.kind == XNS_KIND_CALL && message.it.transaction == 1 && message.it.program == 7 && message.it.version == 2);
    CHECK(message.it.procedure == 1 && message.it.number == 0 && count == 1 && words[0] == 5 && is_left((uint8_t *)words, 2, sizeof words));
    memset(buffer, 0xee, sizeof buffer);
    AGAIN(xns_message_write(&message.it, words, count, buffer, sizeof buffer, &written));
    CHECK(written == sizeof call && memcmp(buffer, call, sizeof call) == 0 && is_left(buffer, written, sizeof buffer));

    AGAIN(xns_message_read(reject, sizeof reject, &message.it, words, 2, &count));
    CHECK(message.it.kind == XNS_KIND_REJECT && message.it.transaction == 1 && message.it.number == 1 && count == 2 && words[0] == 1 && words[1] == 2);
    AGAIN(xns_message_write(&message.it, words, count, buffer, sizeof reject, &written));
    CHECK(written == sizeof reject && memcmp(buffer, reject, sizeof reject) == 0);
}

static void bad_messages(void) {
    GUARDED(struct xns_message) message;
    uint8_t buffer[32];
    uint16_t words[8] = { 0 };
    size_t count = 7, written = 7;
    GUARD(message);
    CHECK(xns_message_read(reject, sizeof reject, &message.it, words, 1, &count) == XNS_SHORT_BUFFER && count == 2 && is_left((uint8_t *)&message, 0, sizeof message));
    CHECK(xns_message_read(call, 13, &message.it, words, 8, &count) == XNS_ODD_LENGTH && xns_message_read(call, 10, &message.it, words, 8, &count) == XNS_SHORT_MESSAGE);
    CHECK(xns_message_read(request, 34, &message.it, words, 8, &count) == XNS_UNKNOWN_KIND && count == 2);
    message.it.kind = 4;
    CHECK(xns_message_write(&message.it, words, 1, buffer, sizeof buffer, &written) == XNS_BAD_ARGUMENT);
    message.it.kind = XNS_KIND_RETURN;
    CHECK(xns_message_write(&message.it, words, 2, buffer, 7, &written) == XNS_SHORT_BUFFER && written == 8);
    CHECK(xns_message_write(&message.it, words, 2, buffer, 8, &written) == XNS_OK && written == 8);
}

/* Each function says so of a handle with no endpoint, and of one whose endpoint is freed. */
static void no_endpoint(struct xns_endpoint *none) {
    struct xns_item item;
    struct xns_received received;
    uint8_t buffer[576];
    size_t written = 7;
    CHECK(none->at == NULL && !xns_endpoint_is_open(none) && !xns_endpoint_is_full(none) && xns_endpoint_waiting(none) == 0);
    CHECK(xns_endpoint_send(none, 0, 0, 0, buffer, 0) == XNS_NO_ENDPOINT && xns_endpoint_take(none, &item, buffer, 534) == XNS_NO_ENDPOINT);
    CHECK(xns_endpoint_receive(none, answer, sizeof answer, &received, buffer, 42) == XNS_NO_ENDPOINT && xns_endpoint_flush(none) == XNS_NO_ENDPOINT);
    CHECK(xns_endpoint_tick(none) == XNS_NO_ENDPOINT && xns_endpoint_next_packet(none, buffer, 576, &written) == XNS_NO_ENDPOINT && written == 7);
    xns_endpoint_free(none);
    CHECK(none->at == NULL);
}

/* The packet that comes next is this one, and there is one more only if so is said. */
static void fetches(struct xns_endpoint *endpoint, const uint8_t *packet, size_t length) {
    uint8_t buffer[600];
    size_t written = 7;
    memset(buffer, 0xee, sizeof buffer);
    CHECK(xns_endpoint_next_packet(endpoint, buffer, length - 1, &written) == XNS_SHORT_BUFFER && written == length && is_left(buffer, 0, sizeof buffer));
    CHECK(xns_endpoint_next_packet(endpoint, buffer, 576, &written) == XNS_OK && written == length && memcmp(buffer, packet, length) == 0 && is_left(buffer, length, sizeof buffer));
}

static bool fetches_none(struct xns_endpoint *endpoint) {
    uint8_t buffer[576];
    size_t written = 7;
    return xns_endpoint_next_packet(endpoint, buffer, 576, &written) == XNS_NOTHING && written == 7;
}

static void connection(void) {
    struct xns_endpoint a = XNS_ENDPOINT_INIT, b = XNS_ENDPOINT_INIT;
    GUARDED(struct xns_received) received;
    GUARDED(struct xns_item) item;
    uint8_t buffer[600], large[535] = { 0 };
    uint16_t id = 0x1234;

    no_endpoint(&a);
    CHECK(xns_endpoint_new_initiator(&a, &at_a, 0, &at_b, 4, 4) == XNS_BAD_ARGUMENT && xns_endpoint_new_initiator(&a, &at_a, id, &at_b, 0, 4) == XNS_BAD_ARGUMENT);
    CHECK(xns_endpoint_new_initiator(&a, &at_a, id, &at_b, 65, 4) == XNS_BAD_ARGUMENT && xns_endpoint_new_initiator(&a, &at_a, id, &at_b, 4, 0) == XNS_BAD_ARGUMENT);
    CHECK(xns_endpoint_new_initiator(&a, &at_a, id, &at_b, 4, 65) == XNS_BAD_ARGUMENT && xns_endpoint_new_responder(&a, &at_a, id, &at_b, 0, 4, 4) == XNS_BAD_ARGUMENT);
    CHECK(xns_endpoint_new_responder(&a, &at_a, 0, &at_b, id, 4, 4) == XNS_BAD_ARGUMENT && xns_endpoint_new_responder(&a, &at_a, 1, &at_b, id, 4, 65) == XNS_BAD_ARGUMENT);
    no_endpoint(&a);

    AGAIN(xns_endpoint_new_initiator(&a, &at_a, id, &at_b, 4, 2));
    AGAIN(xns_endpoint_new_responder(&b, &at_b, 0x5678, &at_a, id, 4, 2));
    CHECK(!xns_endpoint_is_open(&a) && xns_endpoint_is_open(&b) && fetches_none(&a));
    AGAIN(xns_endpoint_flush(&a));
    CHECK(fetches_none(&a));
    AGAIN(xns_endpoint_tick(&a));
    AGAIN(xns_endpoint_tick(&a)); /* the first is let go */
    fetches(&a, opening, sizeof opening);
    CHECK(fetches_none(&a));

    GUARD(received);
    memset(buffer, 0xee, sizeof buffer);
    CHECK(xns_endpoint_receive(&b, opening, sizeof opening, &received.it, buffer, 41) == XNS_SHORT_BUFFER && received.it.reply == 42 && is_left(buffer, 0, sizeof buffer));
    CHECK(received.it.took == (size_t)0xeeeeeeeeeeeeeeee && received.it.acknowledged == received.it.took && received.it.dropped == 0xeeeeeeee && IS_GUARDED(received));
    AGAIN(xns_endpoint_receive(&b, opening, sizeof opening, &received.it, buffer, 42));
    CHECK(IS_GUARDED(received) && received.it.took == 0 && received.it.reply == 42 && received.it.dropped == 0 && memcmp(buffer, answer, 42) == 0 && is_left(buffer, 42, sizeof buffer));
    AGAIN(xns_endpoint_receive(&a, answer, sizeof answer, &received.it, buffer, 42));
    CHECK(received.it.took == 0 && received.it.reply == 0 && received.it.dropped == 0 && xns_endpoint_is_open(&a));
    AGAIN(xns_endpoint_receive(&a, request, sizeof request, &received.it, buffer, 42));
    CHECK(received.it.dropped == XNS_NOT_SPP);
    AGAIN(xns_endpoint_receive(&a, request, 29, &received.it, buffer, 42));
    CHECK(received.it.dropped == XNS_NOT_IDP);
    AGAIN(xns_endpoint_receive(&a, opening, sizeof opening, &received.it, buffer, 42));
    CHECK(received.it.dropped == XNS_NOT_OURS);

    AGAIN(xns_endpoint_send(&a, 0, 0, 1, versions + 42, 4));
    AGAIN(xns_endpoint_flush(&a));
    fetches(&a, versions, sizeof versions);
    AGAIN(xns_endpoint_receive(&b, versions, sizeof versions, &received.it, buffer, 42));
    CHECK(received.it.took == 1 && received.it.reply == 42 && xns_endpoint_waiting(&b) == 1);
    AGAIN(xns_endpoint_receive(&b, versions, sizeof versions, &received.it, buffer, 42));
    CHECK(received.it.took == 0 && received.it.reply == 42 && received.it.dropped == XNS_REPEAT);
    GUARD(item);
    memset(buffer, 0xee, sizeof buffer);
    CHECK(xns_endpoint_take(&b, &item.it, buffer, 533) == XNS_SHORT_BUFFER && item.it.length == 534 && item.it.stream == 0xee && item.it.last == 0xee && xns_endpoint_waiting(&b) == 1);
    CHECK(xns_endpoint_take(&b, &item.it, buffer, 534) == XNS_OK && IS_GUARDED(item) && item.it.stream == 0 && item.it.attention == 0 && item.it.last == 1 && item.it.length == 4);
    CHECK(memcmp(buffer, versions + 42, 4) == 0 && is_left(buffer, 4, sizeof buffer));
    CHECK(xns_endpoint_take(&b, &item.it, buffer, 534) == XNS_NOTHING && xns_endpoint_waiting(&b) == 0);

    CHECK(xns_endpoint_send(&b, 9, 0, 0, large, 535) == XNS_TOO_LONG);
    for (uint32_t result = XNS_NO_MEMORY; result == XNS_NO_MEMORY;) { result = xns_endpoint_send(&b, 9, 1, 0, large, 2); CHECK(result == XNS_NO_MEMORY || result == XNS_ATTENTION_SIZE); }
    AGAIN(xns_endpoint_send(&b, 9, 255, 0, large, 1)); /* any number but 0 is yes */
    AGAIN(xns_endpoint_send(&b, 9, 0, 0, large, 534));
    CHECK(xns_endpoint_is_full(&b));
    for (uint32_t result = XNS_NO_MEMORY; result == XNS_NO_MEMORY;) { result = xns_endpoint_send(&b, 9, 0, 0, large, 1); CHECK(result == XNS_NO_MEMORY || result == XNS_FULL); }
    AGAIN(xns_endpoint_flush(&b));
    for (int items = 0; items < 2; items++) {
        size_t length;
        CHECK(xns_endpoint_next_packet(&b, buffer, 576, &length) == XNS_OK && length == (items ? 576 : 44));
        uint8_t reply[42];
        AGAIN(xns_endpoint_receive(&a, buffer, length, &received.it, reply, 42));
        CHECK(received.it.took == 1);
        CHECK(xns_endpoint_take(&a, &item.it, buffer, 534) == XNS_OK && item.it.stream == 9 && item.it.attention == !items && item.it.last == 0 && item.it.length == (items ? 534 : 1));
    }

    AGAIN(xns_endpoint_new_initiator(&b, &at_a, id, &at_b, 4, 2)); /* the former one is freed */
    CHECK(!xns_endpoint_is_open(&b));
    xns_endpoint_free(&a);
    xns_endpoint_free(&b);
    no_endpoint(&a);
    no_endpoint(&b);
}

/* Each writer with each growth refused: it writes nothing, and writes all when it is called again. */
static void refused_writers(void) {
    struct xns_address own = at_b;
    uint8_t buffer[600];
    size_t written;
    own.socket = 2;
    AGAIN(xns_echo_reply(&own, request, 34, buffer, sizeof buffer, &written));
    AGAIN(xns_complain(&own, 1, 9, request, 34, buffer, sizeof buffer, &written));
    AGAIN(xns_exchange_write(1, 5, request, 34, buffer, sizeof buffer, &written));
    AGAIN(xns_exchange_request(&at_a, &at_b, 7, 5, request, 34, buffer, sizeof buffer, &written));
    AGAIN(xns_exchange_reply(&at_b, asking, sizeof asking, request, 34, buffer, sizeof buffer, &written));
    AGAIN(xns_echo_request(&at_a, &own, request, 34, buffer, sizeof buffer, &written));
}

int main(void) {
    long most;
    formats();
    exchange();
    echo();
    bad_messages();
    for (refuse_at = 0, most = 1; refuse_at <= most; refuse_at++) {
        growths = 0;
        connection();
        refused_writers();
        messages();
        if (refuse_at == 0) most = growths;
        CHECK(growths >= most);
    }
    CHECK(most > 20);
    printf("ok: with each of %ld growths refused\n", most);
    return 0;
}
