/* A server that is made to be killed: booking PORT FILE serves over UDP, for 1,024 connections. Procedure 1 of program 7, version 1, writes its cardinal to
 * the end of the file, a line each, and returns it with its complement. It ends when it is killed, or where the file can't be written. */
#define _GNU_SOURCE
#include "../../examples/c/udp.h"
#include <fcntl.h>
#include <unistd.h>

static const struct xns_program PROGRAMS[] = { { 7, 1, 1 } };
static const struct xns_settings SETTINGS = { .connections = 1024 };
static const uint8_t STATION[6] = { 0, 0, 0xaa, 0, 1, 2 };
static struct xns_host host;
static int book;

static void answer(uint64_t now, const struct xns_event *call, const uint16_t *words, size_t count) {
    struct xns_cursor in = XNS_CURSOR_INIT;
    uint16_t number = 0, results[2];
    char line[8];
    int length;
    xns_read_cardinal(words, count, &in, &number);
    xns_read_end(words, count, &in);
    if (call->message.procedure != 1 || in.fault != XNS_OK) {
        check(xns_host_answer(&host, now, call->number, XNS_KIND_REJECT, XNS_REJECT_INVALID_ARGUMENTS, NULL, 0));
        return;
    }
    length = snprintf(line, sizeof line, "%u\n", (unsigned)number);
    if (write(book, line, (size_t)length) != length) exit(1);
    results[0] = number;
    results[1] = (uint16_t)~number;
    check(xns_host_answer(&host, now, call->number, XNS_KIND_RETURN, 0, results, 2));
}

int main(int count, char **given) {
    static uint16_t words[XNS_MOST_MESSAGE_WORDS];
    struct link link = { 0 };
    struct xns_event event;
    size_t length;
    if (count != 3) return 2;
    book = open(given[2], O_WRONLY | O_APPEND | O_CREAT, 0600);
    if (book < 0) return 1;
    udp_open(&link, (uint32_t)atoi(given[1]));
    memcpy(link.station, STATION, 6);
    link_new_host(&link, &host, &SETTINGS);
    check(xns_host_serve(&host, XNS_SOCKET_COURIER, PROGRAMS, 1));
    for (;;) {
        const uint64_t now = link_hear(&link, &host);
        while (xns_host_next_event(&host, &event, words, XNS_MOST_MESSAGE_WORDS, &length) == XNS_OK)
            if (event.kind == XNS_EVENT_CALL) answer(now, &event, words, length);
        link_send_packets(&link, &host, now);
    }
}
