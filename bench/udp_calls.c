/* Calls a server over UDP: udp_calls PORT WINDOW CALLS BYTES. Each call adds one to the tally of examples/c/server.c, or has BYTES returned, where they are not
 * 0. Prints how many calls were answered as they should be. A window of 0 is the default; the backlog is as large. */
#define _GNU_SOURCE
#include "net.h"

enum { PROGRAM = 7, VERSION = 1, ADD = 1, BACK = 2, FIRST_WAIT = 1000, LONGEST_WAIT = 4000, TRIES = 6 };

static struct xns_host host;
static size_t connection;
static uint16_t sent[XNS_MOST_CALL_WORDS], words[XNS_MOST_MESSAGE_WORDS];

/* Makes the next call, of so many words to be returned; closes where none is left. */
static void go_on(uint64_t now, long left, size_t count) {
    if (left == 0) check(xns_host_close(&host, now, connection));
    else check(xns_host_call(&host, now, connection, PROGRAM, VERSION, count == 0 ? ADD : BACK, sent, count == 0 ? 1 : count));
}

/* Whether this is the answer to a call: a total, or the words that were sent. */
static bool is_right(const struct xns_message *message, size_t length, size_t count) {
    if (message->kind != XNS_KIND_RETURN) return false;
    return count == 0 ? length == 2 : length == count && memcmp(words, sent, 2 * count) == 0;
}

int main(int count, char **given) {
    struct xns_address server = { 1, { 0 }, XNS_SOCKET_COURIER };
    struct xns_settings settings = { 1, 0, 0, FIRST_WAIT, LONGEST_WAIT, 0, TRIES };
    struct link link = { 0 };
    struct xns_event event = XNS_EVENT_INIT;
    uint64_t now = milliseconds();
    size_t length, returned;
    long left, right = 0;
    if (count != 5) return 2;
    given = net_open(&link, NET_ASKS, given + 1, server.host);
    settings.window = settings.backlog = (size_t)atol(given[0]);
    left = atol(given[1]);
    returned = (size_t)atol(given[2]) / 2;
    if (returned > XNS_MOST_CALL_WORDS) return 2;
    for (size_t i = 0; i < XNS_MOST_CALL_WORDS; i++) sent[i] = (uint16_t)(i * 40503u + 1);
    link_new_host(&link, &host, &settings);
    check(xns_host_connect(&host, now, link.via, link.socket, &server, &connection));
    go_on(now, left, returned);
    while (event.kind != XNS_EVENT_CLOSED) {
        link_send_packets(&link, &host, now);
        now = link_hear(&link, &host);
        while (xns_host_next_event(&host, &event, words, XNS_MOST_MESSAGE_WORDS, &length) == XNS_OK) {
            if (event.kind != XNS_EVENT_ANSWER) continue;
            right += is_right(&event.message, length, returned);
            go_on(now, --left, returned);
        }
    }
    link_send_packets(&link, &host, now);
    xns_host_free(&host);
    printf("%ld calls\n", right);
    return event.closed == XNS_CLOSED_ASKED ? 0 : 1;
}
