/* A Courier call between two hosts in this program, with time that it plays: procedure 1 of program 7 adds the words that it is given. Prints the sum. The
 * network between the hosts loses nothing. */
#include "xns.h"
#include <stdio.h>
#include <stdlib.h>

#define DO(call) do { enum xns_result told = (call); if (told != XNS_OK) { fprintf(stderr, "courier.c, line %d: %s\n", __LINE__, xns_result_text(told)); exit(1); } } while (0)

/* Gives the packets that one host has made to the other. */
static void carry(uint64_t now, struct xns_host *from, struct xns_host *to) {
    uint8_t packet[XNS_LONGEST_PACKET];
    size_t length;
    uint64_t via;
    while (xns_host_next_packet(from, now, packet, sizeof packet, &length, &via) == XNS_OK) xns_host_receive(to, now, via, packet, length);
}

/* The service: answers each call with the sum of its words. */
static void serve(uint64_t now, struct xns_host *service) {
    static uint16_t words[XNS_MOST_MESSAGE_WORDS];
    struct xns_event event;
    size_t count;
    while (xns_host_next_event(service, &event, words, XNS_MOST_MESSAGE_WORDS, &count) == XNS_OK) {
        uint16_t sum = 0;
        if (event.kind != XNS_EVENT_CALL) continue;
        for (size_t i = 0; i < count; i++) sum = (uint16_t)(sum + words[i]);
        DO(xns_host_answer(service, now, event.number, XNS_KIND_RETURN, 0, &sum, 1));
    }
}

/* The client: prints the sum that is returned, and closes. Whether the connection is still there. */
static bool hear(uint64_t now, struct xns_host *client) {
    static uint16_t words[XNS_MOST_MESSAGE_WORDS];
    struct xns_event event;
    size_t count;
    while (xns_host_next_event(client, &event, words, XNS_MOST_MESSAGE_WORDS, &count) == XNS_OK) {
        if (event.kind == XNS_EVENT_CLOSED) return false;
        if (event.message.kind == XNS_KIND_RETURN && count == 1) printf("%u\n", words[0]);
        DO(xns_host_close(client, now, event.number));
    }
    return true;
}

int main(void) {
    static const struct xns_address here = { 1, { 0, 0, 0xaa, 0, 1, 2 }, 1000 }, there = { 1, { 0, 0, 0xaa, 0, 3, 4 }, XNS_SOCKET_COURIER };
    static const struct xns_program programs[] = { { 7, 1, 2 } };
    const struct xns_settings usual = XNS_SETTINGS_INIT;
    static const uint8_t a_secret[32] = { 1 }, another_secret[32] = { 2 }; /* of a program that talks to others: random bytes */
    static const uint16_t words[] = { 40, 2 };
    struct xns_host client = XNS_HOST_INIT, service = XNS_HOST_INIT;
    uint64_t now = 0;
    size_t number;
    DO(xns_host_new(&client, &here, &usual, a_secret));
    DO(xns_host_new(&service, &there, &usual, another_secret));
    DO(xns_host_serve(&service, there.socket, programs, 1));
    DO(xns_host_connect(&client, now, 0, here.socket, &there, &number));
    DO(xns_host_call(&client, now, number, 7, 1, 1, words, 2));
    do {
        carry(now, &client, &service);
        serve(now, &service);
        carry(now, &service, &client);
    } while (hear(now++, &client));
    xns_host_free(&client);
    xns_host_free(&service);
    return 0;
}
