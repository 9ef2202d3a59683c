/* Two threads, each with two hosts of its own that talk: so many calls each. Prints ok, or ends with 1. */
#include "xns.h"
#include <pthread.h>
#include <stdio.h>
#include <stdlib.h>

#define CHECK(x) do { if (!(x)) { fprintf(stderr, "threads.c, line %d: %s\n", __LINE__, #x); exit(1); } } while (0)

enum { CALLS = 500, WORDS = 400 };

static void carry(struct xns_host *from, struct xns_host *to) {
    uint8_t packet[XNS_LONGEST_PACKET];
    size_t length;
    uint64_t via;
    while (xns_host_next_packet(from, 0, packet, sizeof packet, &length, &via) == XNS_OK) CHECK(xns_host_receive(to, 0, via, packet, length) == XNS_OK);
}

/* The next event of one host, once the packets of the other have come. */
static struct xns_event await(struct xns_host *host, struct xns_host *other, uint16_t *words, size_t *count) {
    struct xns_event event;
    while (xns_host_next_event(host, &event, words, WORDS, count) == XNS_NOTHING) {
        carry(host, other);
        carry(other, host);
    }
    return event;
}

static void *talk(void *given) {
    static const struct xns_address here = { 1, { 0, 0, 0xaa, 0, 3, 4 }, 1000 }, there = { 1, { 0, 0, 0xaa, 0, 1, 2 }, 5 };
    static const struct xns_settings usual = { 0 };
    static const uint8_t secret[32] = { 1 };
    struct xns_host client = XNS_HOST_INIT, service = XNS_HOST_INIT;
    struct xns_event event;
    uint16_t words[WORDS] = { 0 };
    size_t number, count;
    CHECK(xns_host_new(&client, &here, &usual, secret) == XNS_OK && xns_host_new(&service, &there, &usual, secret) == XNS_OK);
    CHECK(xns_host_serve(&service, there.socket, NULL, 0) == XNS_OK && xns_host_connect(&client, 0, 0, here.socket, &there, &number) == XNS_OK);
    for (uint16_t i = 0; i < CALLS; i++) {
        words[0] = i;
        CHECK(xns_host_call(&client, 0, number, 7, 1, 1, words, WORDS) == XNS_OK);
        event = await(&service, &client, words, &count);
        CHECK(event.kind == XNS_EVENT_CALL && count == WORDS && words[0] == i);
        CHECK(xns_host_answer(&service, 0, event.number, XNS_KIND_RETURN, 0, words, count) == XNS_OK);
        event = await(&client, &service, words, &count);
        CHECK(event.kind == XNS_EVENT_ANSWER && count == WORDS && words[0] == i);
    }
    xns_host_free(&client);
    xns_host_free(&service);
    return given;
}

int main(void) {
    pthread_t threads[2];
    for (int i = 0; i < 2; i++) CHECK(pthread_create(&threads[i], NULL, talk, NULL) == 0);
    for (int i = 0; i < 2; i++) CHECK(pthread_join(threads[i], NULL) == 0);
    puts("ok");
    return 0;
}
