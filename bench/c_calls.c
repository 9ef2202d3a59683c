/* Makes calls Add of 5 from one host to another, with nothing but memory between them: c_calls CALLS. Prints the total, as c_calls_peer.c does. */
#include "xns.h"
#include <stdio.h>
#include <stdlib.h>

enum { PROGRAM = 7, VERSION = 2, ADD = 1, ADDEND = 5, WORDS = 16 };

/* Gives the packets that one host has made to the other. */
static void carry(struct xns_host *from, struct xns_host *to) {
    uint8_t packet[XNS_LONGEST_PACKET];
    size_t length;
    uint64_t via;
    while (xns_host_next_packet(from, 0, packet, sizeof packet, &length, &via) == XNS_OK) xns_host_receive(to, 0, via, packet, length);
}

/* Answers the calls that came with the total, with the addend in it. */
static void answer(struct xns_host *host, uint32_t *total) {
    struct xns_event event;
    uint16_t words[WORDS];
    size_t count;
    while (xns_host_next_event(host, &event, words, WORDS, &count) == XNS_OK) {
        if (event.kind != XNS_EVENT_CALL || event.message.procedure != ADD || count != 1) continue;
        *total += words[0];
        words[0] = (uint16_t)(*total >> 16);
        words[1] = (uint16_t)*total;
        if (xns_host_answer(host, 0, event.number, XNS_KIND_RETURN, 0, words, 2) != XNS_OK) exit(1);
    }
}

/* Whether the answer to a call has come; the total that it tells. */
static bool hears(struct xns_host *host, uint32_t *told) {
    struct xns_event event;
    uint16_t words[WORDS];
    size_t count;
    if (xns_host_next_event(host, &event, words, WORDS, &count) != XNS_OK) return false;
    if (event.message.kind != XNS_KIND_RETURN || count != 2) exit(1);
    *told = (uint32_t)words[0] << 16 | words[1];
    return true;
}

int main(int count, char **given) {
    static const struct xns_address here = { 1, { 0, 0, 0xaa, 0, 3, 4 }, 1000 }, there = { 1, { 0, 0, 0xaa, 0, 1, 2 }, 5 };
    static const struct xns_program programs[] = { { PROGRAM, 1, VERSION } };
    static const struct xns_settings usual = { 0 };
    static const uint8_t secret[32] = { 1 };
    const uint16_t addend = ADDEND;
    struct xns_host client = XNS_HOST_INIT, service = XNS_HOST_INIT;
    uint32_t total = 0, told = 0;
    size_t number;
    const unsigned long calls = count > 1 ? strtoul(given[1], NULL, 10) : 0;
    if (xns_host_new(&client, &here, &usual, secret) != XNS_OK || xns_host_new(&service, &there, &usual, secret) != XNS_OK) return 1;
    if (xns_host_serve(&service, there.socket, programs, 1) != XNS_OK) return 1;
    if (xns_host_connect(&client, 0, 0, here.socket, &there, &number) != XNS_OK) return 1;
    for (unsigned long i = 0; i < calls; i++) {
        if (xns_host_call(&client, 0, number, PROGRAM, VERSION, ADD, &addend, 1) != XNS_OK) return 1;
        do {
            carry(&client, &service);
            answer(&service, &total);
            carry(&service, &client);
        } while (!hears(&client, &told));
    }
    printf("%lu calls, total %lu\n", calls, (unsigned long)told);
    xns_host_free(&client);
    xns_host_free(&service);
    return 0;
}
