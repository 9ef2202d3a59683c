/* A server over UDP that returns the words that it is given, whatever is called: udp_back PORT WINDOW. A window of 0 is the default; the backlog is as large. */
#define _GNU_SOURCE
#include "net.h"

static struct xns_host host;

int main(int count, char **given) {
    static uint16_t words[XNS_MOST_MESSAGE_WORDS];
    struct xns_settings settings = { 0 };
    struct link link = { 0 };
    uint8_t server[6];
    struct xns_event event;
    size_t length;
    if (count != 3) return 2;
    given = net_open(&link, NET_SERVES, given + 1, server);
    settings.window = settings.backlog = (size_t)atol(given[0]);
    link_new_host(&link, &host, &settings);
    check(xns_host_serve(&host, XNS_SOCKET_COURIER, NULL, 0));
    for (;;) {
        const uint64_t now = link_hear(&link, &host);
        while (xns_host_next_event(&host, &event, words, XNS_MOST_MESSAGE_WORDS, &length) == XNS_OK)
            if (event.kind == XNS_EVENT_CALL) check(xns_host_answer(&host, now, event.number, XNS_KIND_RETURN, 0, words, length));
        link_send_packets(&link, &host, now);
    }
}
