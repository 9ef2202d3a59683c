/* A client of server.c: client PORT NUMBER .. adds each number to the tally, prints what it is answered, and closes; client -i INTERFACE STATION NUMBER ..
 * does so on Ethernet, and net.h has the other networks. xBYTES in the place of a number has so many bytes returned, made even, and prints whether they are
 * the same. Behind client, --patient is for a network that loses much: a server may be silent for minutes. */
#ifndef _GNU_SOURCE
#define _GNU_SOURCE
#endif
#include "net.h"

enum { PATIENT = 255 };
static struct xns_settings settings = { .connections = 1, .first_wait = 100, .longest_wait = 1000, .tries = 6, .patience = 4500 }; /* a server that is silent for 4.5 seconds is gone */
static struct xns_host host;
static size_t connection;
static uint16_t sent[XNS_MOST_CALL_WORDS], words[XNS_MOST_MESSAGE_WORDS];
static bool comes_back;   /* whether the words of the call are to come back, and not the total */
static size_t sent_count; /* of those words */

/* Whether the words each name a call. */
static bool are_calls(char **given) {
    unsigned long number;
    for (char **one = given; *one != NULL; one++) {
        if (**one == 'x' ? !read_number(*one + 1, 2 * XNS_MOST_CALL_WORDS, &number) : !read_number(*one, UINT16_MAX, &number)) return false;
    }
    return true;
}

/* The words of the next call, and its procedure. */
static uint16_t next_call(const char *next, size_t *count) {
    comes_back = next != NULL && next[0] == 'x';
    *count = 1;
    sent[0] = next == NULL ? 0 : (uint16_t)strtoul(next, NULL, 10);
    if (!comes_back) return 1;
    sent_count = (strtoul(next + 1, NULL, 10) + 1) / 2;
    for (size_t i = 0; i < sent_count; i++) sent[i] = (uint16_t)(i * 2654435761u >> 7);
    *count = sent_count;
    return 2;
}

/* Makes the next call; closes where there is none. What is refused memory is tried again. */
static void go_on(uint64_t now, const char *next) {
    size_t count;
    const uint16_t procedure = next_call(next, &count);
    enum xns_result told;
    do told = next == NULL ? xns_host_close(&host, now, connection) : xns_host_call(&host, now, connection, 7, 1, procedure, sent, count);
    while (told == XNS_NO_MEMORY);
    check(told);
}

static void print_answer(const struct xns_message *message, size_t count) {
    static const char *const kinds[] = { "call", "reject", "return", "abort" };
    fputs(kinds[message->kind], stdout);
    if (comes_back) printf(" %zu bytes, %s", 2 * count, count == sent_count && memcmp(words, sent, 2 * count) == 0 ? "the same" : "others");
    for (size_t i = 0; !comes_back && i < count; i++) printf(" %u", words[i]);
    putchar('\n');
}

/* What the client ends with. */
static int status_of(const struct xns_event *closed) {
    if (closed->closed == XNS_CLOSED_ASKED) return 0;
    fprintf(stderr, "%s\n", closed->closed == XNS_CLOSED_REFUSED ? xns_result_text((enum xns_result)closed->fault) : xns_closed_text(closed->closed));
    return 1;
}

int main(int count, char **given) {
    struct xns_address server = { 1, { 0 }, XNS_SOCKET_COURIER };
    struct link link = { 0 };
    uint64_t now = milliseconds();
    struct xns_event event = XNS_EVENT_INIT;
    size_t length;
    if (count > 1 && strcmp(given[1], "--patient") == 0) {
        settings.tries = PATIENT;
        given++;
    }
    given = net_open(&link, NET_ASKS, given + 1, server.host);
    if (given == NULL || !are_calls(given)) return wrong_words("[--patient] NETWORK NUMBER|xBYTES ..; " NET_USAGE);
    link_new_host(&link, &host, &settings);
    check(xns_host_connect(&host, now, link.via, link.socket, &server, &connection));
    go_on(now, *given);
    while (event.kind != XNS_EVENT_CLOSED) {
        link_send_packets(&link, &host, now);
        now = link_hear(&link, &host);
        while (xns_host_next_event(&host, &event, words, XNS_MOST_MESSAGE_WORDS, &length) == XNS_OK) {
            if (event.kind != XNS_EVENT_ANSWER) continue;
            print_answer(&event.message, length);
            go_on(now, *++given);
        }
    }
    link_send_packets(&link, &host, now);
    xns_host_free(&host);
    return status_of(&event);
}
