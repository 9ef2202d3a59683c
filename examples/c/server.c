/* A Courier server for many clients at once: server PORT serves over UDP, server -i INTERFACE on Ethernet; net.h has the other networks. It keeps a tally:
 * procedure 1 of program 7, version 1, adds a cardinal and returns the total, procedure 2 returns its words. It ends with 0 when it is told to, by SIGTERM. */
#define _GNU_SOURCE
#include "net.h"
#include <signal.h>

static const struct xns_program PROGRAMS[] = { { 7, 1, 1 } };
static const struct xns_settings SETTINGS = { 0 }; /* each its default */
static struct xns_host host;
static uint32_t total;
static volatile sig_atomic_t is_stopped;

static void stop(int number) {
    (void)number;
    is_stopped = 1;
}

/* Answers a call: what is refused memory is tried again. */
static void answer(uint64_t now, const struct xns_event *call, const uint16_t *words, size_t count) {
    struct xns_cursor in = XNS_CURSOR_INIT, out = XNS_CURSOR_INIT;
    uint16_t number = 0, results[2];
    enum xns_result told;
    xns_read_cardinal(words, count, &in, &number);
    xns_read_end(words, count, &in);
    xns_write_long_cardinal(results, 2, &out, total + number);
    do {
        if (call->message.procedure == 2) told = xns_host_answer(&host, now, call->number, XNS_KIND_RETURN, 0, words, count);
        else if (call->message.procedure != 1) told = xns_host_answer(&host, now, call->number, XNS_KIND_REJECT, XNS_REJECT_NO_SUCH_PROCEDURE, NULL, 0);
        else if (in.fault != XNS_OK) told = xns_host_answer(&host, now, call->number, XNS_KIND_REJECT, XNS_REJECT_INVALID_ARGUMENTS, NULL, 0);
        else {
            told = xns_host_answer(&host, now, call->number, XNS_KIND_RETURN, 0, results, out.place);
            if (told == XNS_OK) total += number;
        }
    } while (told == XNS_NO_MEMORY);
}

int main(int count, char **given) {
    static uint16_t words[XNS_MOST_MESSAGE_WORDS];
    struct link link = { 0 };
    uint8_t server[6];
    struct xns_event event;
    size_t length;
    (void)count;
    signal(SIGTERM, stop);
    given = net_open(&link, NET_SERVES, given + 1, server);
    if (given == NULL || *given != NULL) return wrong_words("PORT, -i INTERFACE or -n PORT STATION");
    link_new_host(&link, &host, &SETTINGS);
    check(xns_host_serve(&host, XNS_SOCKET_COURIER, PROGRAMS, 1));
    while (!is_stopped) {
        const uint64_t now = link_hear(&link, &host);
        while (xns_host_next_event(&host, &event, words, XNS_MOST_MESSAGE_WORDS, &length) == XNS_OK)
            if (event.kind == XNS_EVENT_CALL) answer(now, &event, words, length);
        link_send_packets(&link, &host, now);
    }
    xns_host_free(&host);
    return 0;
}
