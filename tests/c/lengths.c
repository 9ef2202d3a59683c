/* Lengths that are too long are answered before a byte is looked at: each pointer is to a page that can't be read. Prints ok, or ends with 1. */
#define _DEFAULT_SOURCE
#include "xns.h"
#include <stdio.h>
#include <stdlib.h>
#include <string.h>
#include <sys/mman.h>

#define CHECK(x) do { if (!(x)) { fprintf(stderr, "lengths.c, line %d: %s (growth %ld refused)\n", __LINE__, #x, refuse_at); exit(1); } } while (0)

extern long refuse_at, growths; /* of refuse.c */

/* The most bytes that an object may have, and the most words. */
static const size_t BYTES = SIZE_MAX / 2, WORDS = SIZE_MAX / 4;

int main(void) {
    const struct xns_address here = { 1, { 0, 0, 0xaa, 0, 3, 4 }, 0x400 }, there = { 1, { 0, 0, 0xaa, 0, 1, 2 }, 5 };
    struct xns_endpoint endpoint = XNS_ENDPOINT_INIT;
    struct xns_host client = XNS_HOST_INIT, service = XNS_HOST_INIT;
    const struct xns_settings usual = XNS_SETTINGS_INIT;
    const uint8_t secret[32] = { 1 };
    struct xns_event event;
    uint16_t word;
    uint64_t via;
    size_t number, length;
    struct xns_packet packet = XNS_PACKET_INIT;
    struct xns_message message = XNS_MESSAGE_INIT;
    static uint8_t buffer[131071];
    size_t written = 7;
    const void *closed = mmap(NULL, 4096, PROT_NONE, MAP_PRIVATE | MAP_ANONYMOUS, -1, 0);
    CHECK(closed != MAP_FAILED);
    CHECK(xns_endpoint_new_initiator(&endpoint, &here, 77, &there, 8, 8) == XNS_OK);
    CHECK(xns_host_new(&client, &here, &usual, secret) == XNS_OK && xns_host_new(&service, &there, &usual, secret) == XNS_OK);
    CHECK(xns_host_serve(&service, there.socket, NULL, 0) == XNS_OK && xns_host_connect(&client, 0, 0, 9, &there, &number) == XNS_OK);
    growths = 0;
    refuse_at = 1; /* no answer needs memory */
    CHECK(xns_encode(&packet, closed, BYTES, buffer, sizeof buffer, &written) == XNS_TOO_LONG);
    CHECK(xns_exchange_write(1, 2, closed, BYTES, buffer, sizeof buffer, &written) == XNS_TOO_LONG);
    CHECK(xns_exchange_reply(&here, closed, 576, closed, BYTES, buffer, sizeof buffer, &written) == XNS_TOO_LONG);
    CHECK(xns_echo_request(&here, &there, closed, BYTES, buffer, sizeof buffer, &written) == XNS_TOO_LONG);
    for (message.kind = XNS_KIND_CALL; message.kind <= XNS_KIND_ABORT; message.kind++)
        CHECK(xns_message_write(&message, closed, WORDS, buffer, sizeof buffer, &written) == XNS_TOO_LONG);
    CHECK(xns_message_write(&message, closed, WORDS, buffer, sizeof buffer, &written) == XNS_BAD_ARGUMENT);
    CHECK(xns_endpoint_send(&endpoint, 0, 0, 1, closed, BYTES) == XNS_TOO_LONG && xns_endpoint_send(&endpoint, 0, 1, 1, closed, 535) == XNS_TOO_LONG);
    CHECK(xns_host_call(&client, 0, number, 7, 2, 1, closed, WORDS) == XNS_TOO_LONG && xns_host_call(&client, 0, number, 7, 2, 1, closed, 65531) == XNS_TOO_LONG);
    CHECK(xns_host_answer(&client, 0, number, XNS_KIND_RETURN, 0, closed, WORDS) == XNS_NOTHING && xns_host_answer(&client, 0, number, XNS_KIND_CALL, 0, closed, WORDS) == XNS_BAD_ARGUMENT);
    CHECK(xns_host_call(&client, 0, number + 1, 7, 2, 1, closed, WORDS) == XNS_NO_CONNECTION);
    message.kind = XNS_KIND_RETURN;
    CHECK(xns_message_write(&message, closed, 65534, buffer, sizeof buffer, &written) == XNS_SHORT_BUFFER && written == 131072);
    written = 7;
    CHECK(xns_message_write(&message, closed, 65535, buffer, sizeof buffer, &written) == XNS_TOO_LONG && written == 7 && growths == 0);

    refuse_at = 0;
    CHECK(xns_endpoint_unacknowledged(&endpoint) == 0 && xns_endpoint_send(&endpoint, 0, 0, 1, buffer, 534) == XNS_OK);
    CHECK(xns_host_call(&client, 0, number, 7, 2, 1, NULL, 0) == XNS_OK); /* nothing was changed */
    while (xns_host_next_event(&service, &event, &word, 0, &written) == XNS_NOTHING) {
        while (xns_host_next_packet(&client, 0, buffer, sizeof buffer, &length, &via) == XNS_OK) CHECK(xns_host_receive(&service, 0, 0, buffer, length) == XNS_OK);
        while (xns_host_next_packet(&service, 0, buffer, sizeof buffer, &length, &via) == XNS_OK) CHECK(xns_host_receive(&client, 0, 0, buffer, length) == XNS_OK);
    }
    CHECK(event.kind == XNS_EVENT_CALL);
    refuse_at = 1;
    growths = 0;
    for (uint8_t kind = XNS_KIND_REJECT; kind <= XNS_KIND_ABORT; kind++) {
        CHECK(xns_host_answer(&service, 0, event.number, kind, 0, closed, WORDS) == XNS_TOO_LONG);
        CHECK(xns_host_answer(&service, 0, event.number, kind, 0, closed, 65535) == XNS_TOO_LONG && growths == 0);
    }
    refuse_at = 0;
    CHECK(xns_host_answer(&service, 0, event.number, XNS_KIND_RETURN, 0, NULL, 0) == XNS_OK);
    xns_host_free(&service);
    xns_host_free(&client);
    xns_endpoint_free(&endpoint);
    puts("ok");
    return 0;
}
