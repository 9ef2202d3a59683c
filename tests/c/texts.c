/* The parts that the header defines itself, as C and as C++: the initializers, the texts of results and reasons, null pointers with the length 0, and the version,
 * which it prints. Ends with 1 at the first difference. */
#include "xns.h"
#include <stdio.h>
#include <stdlib.h>
#include <string.h>

#define CHECK(x) do { if (!(x)) { fprintf(stderr, "texts.c, line %d: %s\n", __LINE__, #x); exit(1); } } while (0)
/* The fields are 0, where a struct begins so and where it is assigned. */
#define IS_INIT(type, init, fields) do { \
    struct type one = init; \
    CHECK(fields); \
    memset(&one, 0xee, sizeof one); \
    one = init; \
    CHECK(fields); \
} while (0)

static struct xns_endpoint unused; /* begins as XNS_ENDPOINT_INIT */

static void initializers(void) {
    IS_INIT(xns_address, XNS_ADDRESS_INIT, one.network == 0 && one.host[0] == 0 && one.host[5] == 0 && one.socket == 0);
    IS_INIT(xns_packet, XNS_PACKET_INIT, one.summed == 0 && one.kind == 0 && one.target.socket == 0 && one.source.host[5] == 0 && one.body_at == 0 && one.taken == 0);
    IS_INIT(xns_header, XNS_HEADER_INIT, one.control == 0 && one.stream == 0 && one.source_id == 0 && one.allocation == 0);
    IS_INIT(xns_message, XNS_MESSAGE_INIT, one.kind == 0 && one.transaction == 0 && one.program == 0 && one.number == 0);
    IS_INIT(xns_item, XNS_ITEM_INIT, one.stream == 0 && one.attention == 0 && one.last == 0 && one.length == 0);
    IS_INIT(xns_received, XNS_RECEIVED_INIT, one.took == 0 && one.acknowledged == 0 && one.reply == 0 && one.dropped == 0);
    IS_INIT(xns_endpoint, XNS_ENDPOINT_INIT, one.at == NULL && unused.at == NULL);
    IS_INIT(xns_host, XNS_HOST_INIT, one.at == NULL);
    IS_INIT(xns_settings, XNS_SETTINGS_INIT, one.connections == 0 && one.window == 0 && one.first_wait == 0 && one.idle == 0 && one.tries == 0 && one.no_echo == 0 && one.least_wait == 0 && one.tells_opened == 0 && one.patience == 0);
    IS_INIT(xns_event, XNS_EVENT_INIT, one.kind == 0 && one.number == 0 && one.message.program == 0 && one.closed == 0 && one.fault == 0);
    IS_INIT(xns_cursor, XNS_CURSOR_INIT, one.place == 0 && one.fault == 0);
    IS_INIT(xns_program, XNS_PROGRAM_INIT, one.program == 0 && one.low == 0 && one.high == 0);
    IS_INIT(xns_programs, XNS_PROGRAMS_INIT, one.at == NULL);
    IS_INIT(xns_notation_fault, XNS_NOTATION_FAULT_INIT, one.line == 0 && one.column == 0 && one.reason == 0);
    IS_INIT(xns_node, XNS_NODE_INIT, one.kind == 0 && one.number == 0 && one.parts == 0 && one.name == 0);
}

/* Each result has a text of its own, and a number that is none has another. */
static void results(void) {
    static const enum xns_result all[] = {
        XNS_OK, XNS_NOTHING, XNS_NO_MEMORY, XNS_NO_ENDPOINT, XNS_SHORT_BUFFER, XNS_BAD_ARGUMENT, XNS_SHORT, XNS_LENGTH_SMALL, XNS_LENGTH_LARGE, XNS_CUT,
        XNS_BAD_SUM, XNS_TOO_LONG, XNS_ATTENTION_SIZE, XNS_EXHAUSTED, XNS_FULL, XNS_NO_SLOT, XNS_ODD_LENGTH, XNS_SHORT_MESSAGE, XNS_UNKNOWN_KIND, XNS_LONG_MESSAGE,
        XNS_NO_COMMON_VERSION, XNS_BAD_VERSIONS, XNS_WRONG_TRANSACTION, XNS_BAD_REPLY, XNS_OTHER_STREAM, XNS_STOPPED, XNS_BUSY, XNS_CLOSING, XNS_ATTENTION,
        XNS_TRUNCATED, XNS_NOT_BOOLEAN, XNS_OVER_MAXIMUM, XNS_NOT_LISTED, XNS_LEFT_OVER, XNS_NO_HOST, XNS_NO_CONNECTION,
        XNS_TOO_MANY_SERVICES, XNS_PEER_CALLS, XNS_EVERY_HOST, XNS_NO_SOCKET, XNS_ECHO_SOCKET, XNS_NO_VERSION, XNS_WRONG_TEXT
    };
    const size_t count = sizeof all / sizeof all[0];
    const char *none = xns_result_text((enum xns_result)127);
    int number, named = 0;
    for (size_t i = 0; i < count; i++) {
        const char *text = xns_result_text(all[i]);
        CHECK(text[0] != 0 && strcmp(text, none) != 0);
        for (size_t k = 0; k < i; k++) CHECK(strcmp(text, xns_result_text(all[k])) != 0);
    }
    for (number = 0; number < 127; number++) named += strcmp(xns_result_text((enum xns_result)number), none) != 0;
    CHECK((size_t)named == count);
}

/* Each of these reasons has a text of its own, and a number that is none has another. */
static void have_texts(const char *(*text)(uint32_t), const uint32_t *all, size_t count) {
    const char *none = text(127);
    uint32_t number, named = 0;
    for (size_t i = 0; i < count; i++) {
        CHECK(text(all[i])[0] != 0);
        for (size_t k = 0; k < i; k++) CHECK(strcmp(text(all[i]), text(all[k])) != 0);
    }
    for (number = 0; number < 127; number++) named += strcmp(text(number), none) != 0;
    CHECK(named == count);
}

/* Each reason for which an item is not taken, and each for which a connection is closed, has a text too. The reasons of a text in the notation are named; two limits
 * of depth have one name. */
static void reasons(void) {
    static const uint32_t dropped[] = { XNS_NOT_DROPPED, XNS_NOT_IDP, XNS_NOT_SPP, XNS_NOT_OURS, XNS_AHEAD_OF_US, XNS_OUT_OF_ORDER, XNS_NO_ROOM, XNS_REPEAT };
    static const uint32_t closed[] = { XNS_CLOSED_ASKED, XNS_CLOSED_BY_PEER, XNS_CLOSED_SILENT, XNS_CLOSED_NOT_SERVED, XNS_CLOSED_REFUSED };
    have_texts(xns_dropped_text, dropped, sizeof dropped / sizeof dropped[0]);
    have_texts(xns_closed_text, closed, sizeof closed / sizeof closed[0]);
    for (uint32_t reason = 0; reason < 127; reason++)
        CHECK((strcmp(xns_reason_text(reason), xns_reason_text(0)) != 0) == ((reason >= 1 && reason <= 6) || (reason >= 11 && reason <= 36) || (reason >= 41 && reason <= 55)));
    CHECK(strcmp(xns_reason_text(XNS_REASON_TOO_LONG), "TooLong") == 0 && strcmp(xns_reason_text(XNS_REASON_NO_CLOSE_PARENTHESIS), "NoCloseParenthesis") == 0);
    CHECK(strcmp(xns_reason_text(XNS_REASON_TYPES_TOO_DEEP), "TooDeep") == 0 && strcmp(xns_reason_text(XNS_REASON_TOO_LARGE), "TooLarge") == 0);
}

/* A cursor says its fault, or that it has one of the program's. */
static void faults(void) {
    struct xns_cursor cursor = XNS_CURSOR_INIT;
    uint16_t value;
    CHECK(strcmp(xns_fault_text(&cursor), xns_result_text(XNS_OK)) == 0);
    xns_read_cardinal(NULL, 0, &cursor, &value);
    CHECK(strcmp(xns_fault_text(&cursor), xns_result_text(XNS_TRUNCATED)) == 0);
    for (cursor.fault = 0; cursor.fault < 127; cursor.fault++)
        CHECK(strcmp(xns_fault_text(&cursor), xns_result_text((enum xns_result)cursor.fault)) == 0);
    for (int i = 0; i < 2; i++) {
        cursor.fault = i == 0 ? 1000 : UINT32_MAX;
        CHECK(strcmp(xns_fault_text(&cursor), xns_result_text((enum xns_result)127)) == 0);
    }
}

/* A pointer with the length 0 may be null. */
static void nulls(void) {
    const struct xns_address here = { 1, { 0, 0, 0xaa, 0, 3, 4 }, 0x400 }, there = { 1, { 0, 0, 0xaa, 0, 1, 2 }, 2 };
    struct xns_packet packet = XNS_PACKET_INIT;
    struct xns_header header = XNS_HEADER_INIT;
    struct xns_message message = XNS_MESSAGE_INIT;
    struct xns_cursor cursor = XNS_CURSOR_INIT;
    struct xns_endpoint end = XNS_ENDPOINT_INIT;
    static const uint8_t secret[32] = { 1 };
    const struct xns_settings usual = XNS_SETTINGS_INIT;
    struct xns_host host = XNS_HOST_INIT;
    struct xns_event event;
    struct xns_received received;
    struct xns_address peer;
    struct xns_item item;
    uint8_t bytes[XNS_LONGEST_PACKET], reply[XNS_LONGEST_PACKET];
    uint32_t id;
    uint64_t via;
    uint16_t sum, number, parameter, peer_id;
    size_t size = 0, at = 0, count = 0;
    enum xns_result (*address)(const uint8_t *, size_t, struct xns_packet *) = xns_decode; /* the address of a call is the library's */

    CHECK(xns_checksum(NULL, 0, &sum) == XNS_OK && sum == 0 && xns_decode(NULL, 0, &packet) == XNS_SHORT);
    CHECK(xns_encode(&packet, NULL, 0, NULL, 0, &size) == XNS_SHORT_BUFFER && size == 30 && xns_encode(&packet, NULL, 0, bytes, size, &size) == XNS_OK);
    CHECK(address(bytes, size, &packet) == XNS_OK && packet.body_length == 0);
    CHECK(xns_echo_reply(&there, NULL, 0, NULL, 0, &size) == XNS_NOTHING && xns_echo_accept(&there, NULL, 0, &at, &size) == XNS_NOTHING);
    CHECK(xns_echo_request(&here, &there, NULL, 0, NULL, 0, &size) == XNS_SHORT_BUFFER && size == 32);
    CHECK(xns_echo_request(&here, &there, NULL, 0, bytes, size, &size) == XNS_OK && xns_echo_reply(&there, bytes, size, NULL, 0, &count) == XNS_SHORT_BUFFER && count == 32);
    CHECK(xns_echo_reply(&there, bytes, size, reply, count, &count) == XNS_OK && xns_echo_accept(&there, reply, count, &at, &size) == XNS_OK && at == 32 && size == 0);
    CHECK(xns_complain(&here, 0, 0, NULL, 0, NULL, 0, &size) == XNS_NOTHING && xns_error_read(NULL, 0, &number, &parameter) == XNS_SHORT);
    CHECK(xns_exchange_read(NULL, 0, &id, &number) == XNS_SHORT && xns_exchange_write(1, 2, NULL, 0, NULL, 0, &size) == XNS_SHORT_BUFFER && size == 6);
    CHECK(xns_exchange_request(&here, &there, 1, 2, NULL, 0, NULL, 0, &size) == XNS_SHORT_BUFFER && size == 36);
    CHECK(xns_exchange_request(&here, &there, 1, 2, NULL, 0, bytes, size, &size) == XNS_OK && xns_exchange_reply(&there, bytes, size, NULL, 0, NULL, 0, &count) == XNS_SHORT_BUFFER);
    CHECK(xns_exchange_reply(&there, bytes, size, NULL, 0, reply, count, &count) == XNS_OK && xns_exchange_accept(&there, 1, reply, count, &at, &size) == XNS_OK && at == 36 && size == 0);
    CHECK(xns_exchange_reply(&there, NULL, 0, NULL, 0, NULL, 0, &size) == XNS_NOTHING && xns_exchange_accept(&there, 1, NULL, 0, &at, &size) == XNS_NOTHING);
    CHECK(xns_header_read(NULL, 0, &header) == XNS_SHORT && xns_header_write(&header, NULL, 0, &size) == XNS_SHORT_BUFFER && xns_opening(NULL, 0, &peer, &peer_id) == XNS_NOTHING);

    message.kind = XNS_KIND_RETURN;
    CHECK(xns_message_write(&message, NULL, 0, NULL, 0, &size) == XNS_SHORT_BUFFER && size == 4 && xns_message_write(&message, NULL, 0, bytes, size, &size) == XNS_OK);
    CHECK(xns_message_read(bytes, size, &message, NULL, 0, &count) == XNS_OK && count == 0 && xns_message_read(NULL, 0, &message, NULL, 0, &count) == XNS_SHORT_MESSAGE);
    CHECK(xns_read_end(NULL, 0, &cursor) == XNS_OK && xns_read_text(NULL, 0, &cursor, NULL, 0, &size) == XNS_TRUNCATED);
    cursor = XNS_CURSOR_INIT;
    CHECK(xns_write_cardinal(NULL, 0, &cursor, 1) == XNS_SHORT_BUFFER);

    CHECK(xns_endpoint_take(&end, &item, NULL, 0) == XNS_SHORT_BUFFER && item.length == XNS_LONGEST_ITEM && !xns_endpoint_is_ours(&end, NULL, 0));
    CHECK(xns_endpoint_new_initiator(&end, &here, 1, &there, 1, 1) == XNS_OK && xns_endpoint_receive(&end, NULL, 0, &received, NULL, 0) == XNS_SHORT_BUFFER && received.reply == XNS_REPLY);
    CHECK(xns_endpoint_send(&end, XNS_STREAM_END, 0, 1, NULL, 0) == XNS_OK && xns_endpoint_tick(&end) == XNS_OK && xns_endpoint_next_packet(&end, NULL, 0, &size) == XNS_SHORT_BUFFER && size == 42);
    CHECK(xns_endpoint_system_packet(&end, 0, NULL, 0, &size) == XNS_SHORT_BUFFER && xns_endpoint_resend_first(&end, NULL, 0, &size) == XNS_SHORT_BUFFER);
    xns_endpoint_free(&end);

    CHECK(xns_host_serve(&host, 5, NULL, 0) == XNS_NO_HOST && xns_host_receive(&host, 0, 0, NULL, 0) == XNS_NO_HOST);
    CHECK(xns_host_new(&host, &here, &usual, secret) == XNS_OK && xns_host_serve(&host, 5, NULL, 0) == XNS_OK);
    CHECK(xns_host_receive(&host, 0, 0, NULL, 0) == XNS_NOTHING && xns_host_next_event(&host, &event, NULL, 0, &count) == XNS_NOTHING);
    CHECK(xns_host_next_packet(&host, 0, NULL, 0, &size, &via) == XNS_NOTHING && xns_host_answer(&host, 0, 7, XNS_KIND_RETURN, 0, NULL, 0) == XNS_NO_CONNECTION);
    CHECK(xns_host_connect(&host, 0, 0, 5, &there, &count) == XNS_OK && xns_host_call(&host, 0, count, 7, 1, 1, NULL, 0) == XNS_OK);
    CHECK(xns_host_next_packet(&host, 0, NULL, 0, &size, &via) == XNS_SHORT_BUFFER && size == 42 && xns_host_next_packet(&host, 0, bytes, size, &size, &via) == XNS_OK);
    xns_host_free(&host);
    CHECK(host.at == NULL);
}

int main(void) {
    struct xns_version_text version = xns_version();
    initializers();
    results();
    reasons();
    faults();
    nulls();
    xns_endpoint_free(NULL);
    xns_host_free(NULL);
    CHECK(memchr(version.text, 0, sizeof version.text) != NULL && strcmp(version.text, XNS_VERSION) == 0);
    puts(version.text);
    return 0;
}
