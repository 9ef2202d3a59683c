/* Calls each function of a host, and compares its result, the bytes that it writes and those that it leaves. Two hosts talk, with small and large windows, and
 * with the k-th growth refused, for every k; and a connection closes in each way. The network is memory, and time is a number. Prints ok, or ends with 1 at the
 * first difference. */
#include "xns.h"
#include <stdio.h>
#include <stdlib.h>
#include <string.h>

#define CHECK(x) do { if (!(x)) { fprintf(stderr, "host.c, line %d: %s (growth %ld refused)\n", __LINE__, #x, refuse_at); exit(1); } } while (0)
/* Done, at once or after a growth that was refused. */
#define AGAIN(call) do { enum xns_result told = (call); if (told == XNS_NO_MEMORY) { CHECK(refuse_at > 0); told = (call); } CHECK(told == XNS_OK); } while (0)

enum { WORDS = 65536, MOST_TURNS = 1000, CLIENT_VIA = 7, SERVICE_VIA = 9, LAST_VERSION = 2 };

extern long refuse_at, growths; /* of refuse.c */

static const struct xns_address here = { 1, { 0, 0, 0xaa, 0, 3, 4 }, 0x400 }, there = { 1, { 0, 0, 0xaa, 0, 1, 2 }, 5 };
static const struct xns_program programs[] = { { 7, 1, LAST_VERSION } };
static const struct xns_settings usual = { 0 };
static const uint8_t secret[32] = { 1, 2, 3 };

static struct xns_host client, service;
static uint64_t now;
static uint16_t words[WORDS], given[WORDS];
static size_t count;

/* Gives the packets of one host to the other, or drops them. Whether there were any. */
static bool carry(struct xns_host *from, struct xns_host *to, uint64_t via) {
    uint8_t packet[XNS_LONGEST_PACKET];
    enum xns_result told;
    uint64_t by = 0;
    size_t length;
    bool moved = false;
    while ((told = xns_host_next_packet(from, now, packet, sizeof packet, &length, &by)) != XNS_NOTHING) {
        if (told == XNS_NO_MEMORY) CHECK(refuse_at > 0 && (xns_host_wake(from) == 0 || xns_host_wake(from) > now)); /* it rests */
        else CHECK(told == XNS_OK && by == via);
        if (told == XNS_OK && to != NULL) CHECK(xns_host_receive(to, now, via == CLIENT_VIA ? SERVICE_VIA : CLIENT_VIA, packet, length) == XNS_OK);
        moved = true;
    }
    CHECK(xns_host_wake(from) == 0 || xns_host_wake(from) > now); /* at once where an event waits */
    return moved;
}

/* When a host wants to be asked. Where an event waits that is not fetched yet, time passes all the same. */
static uint64_t wakes(struct xns_host *host) {
    const uint64_t wake = xns_host_wake(host);
    return wake == 0 ? now + 100 : wake;
}

/* Carries the packets of both hosts; where there are none, time passes. */
static void turn(void) {
    bool moved = carry(&client, &service, CLIENT_VIA);
    uint64_t wake;
    moved |= carry(&service, &client, SERVICE_VIA);
    if (moved) return;
    wake = wakes(&client);
    if (wakes(&service) < wake) wake = wakes(&service);
    CHECK(wake != XNS_NEVER);
    now = wake;
}

/* The next event of a host, which is of this kind, with its words. */
static struct xns_event await(struct xns_host *host, uint8_t kind) {
    struct xns_event event;
    enum xns_result told;
    int turns = 0;
    memset(&event, 0xee, sizeof event);
    while ((told = xns_host_next_event(host, &event, words, WORDS, &count)) == XNS_NOTHING) {
        CHECK(turns++ < MOST_TURNS);
        turn();
    }
    CHECK(told == XNS_OK && event.kind == kind);
    return event;
}

static void open_both(const struct xns_settings *settings, size_t *number) {
    now = 1000;
    AGAIN(xns_host_new(&client, &here, settings, secret));
    AGAIN(xns_host_new(&service, &there, settings, secret));
    AGAIN(xns_host_serve(&service, there.socket, programs, 1));
    AGAIN(xns_host_connect(&client, now, CLIENT_VIA, here.socket, &there, number));
}

static void free_both(void) {
    xns_host_free(&client);
    xns_host_free(&service);
}

/* A call with so many words is the next event of the service. */
static struct xns_event calls(size_t number, size_t length) {
    struct xns_event call;
    for (size_t i = 0; i < length; i++) given[i] = (uint16_t)(i * 7 + length);
    AGAIN(xns_host_call(&client, now, number, 7, LAST_VERSION, 3, given, length));
    call = await(&service, XNS_EVENT_CALL);
    CHECK(call.message.kind == XNS_KIND_CALL && call.message.program == 7 && call.message.version == LAST_VERSION && call.message.procedure == 3);
    CHECK(call.message.number == 0 && call.closed == 0 && call.error == 0 && call.fault == 0 && count == length && memcmp(words, given, 2 * length) == 0);
    return call;
}

/* The answer is the next event of the client. */
static void hears(size_t number, uint8_t kind, uint16_t code, size_t length) {
    struct xns_event answer = await(&client, XNS_EVENT_ANSWER);
    CHECK(answer.number == number && answer.message.kind == kind && answer.message.number == code && answer.message.program == 0);
    CHECK(answer.closed == 0 && answer.error == 0 && answer.fault == 0 && count == length && memcmp(words, given, 2 * length) == 0);
}

/* A call that is answered so, with so many words each way. */
static void asks(size_t number, uint8_t kind, uint16_t code, size_t length) {
    struct xns_event call = calls(number, length);
    AGAIN(xns_host_answer(&service, now, call.number, kind, code, given, length));
    hears(number, kind, code, length);
}

/* A call that the service rejects by itself. */
static void is_rejected(size_t number, uint32_t program, uint16_t version, uint16_t reason, size_t length) {
    AGAIN(xns_host_call(&client, now, number, program, version, 3, given, 2));
    given[0] = 1;
    given[1] = LAST_VERSION;
    hears(number, XNS_KIND_REJECT, reason, length);
}

static void is_closed(struct xns_host *host, uint8_t why, enum xns_result fault) {
    struct xns_event closed = await(host, XNS_EVENT_CLOSED);
    CHECK(closed.error == 0);
    CHECK(closed.closed == why && closed.fault == (uint32_t)fault && count == 0 && closed.message.kind == 0 && closed.message.program == 0);
}

static void is_not_served(struct xns_host *host, uint16_t error) {
    struct xns_event closed = await(host, XNS_EVENT_CLOSED);
    CHECK(closed.closed == XNS_CLOSED_NOT_SERVED && closed.error == error && closed.fault == XNS_OK && count == 0 && closed.message.kind == 0);
}

static void converse(size_t window, size_t backlog) {
    const struct xns_settings settings = { .window = window, .backlog = backlog };
    size_t number;
    open_both(&settings, &number);
    asks(number, XNS_KIND_RETURN, 0, 0);
    asks(number, XNS_KIND_ABORT, 12, 1);
    asks(number, XNS_KIND_REJECT, XNS_REJECT_INVALID_ARGUMENTS, 0);
    asks(number, XNS_KIND_RETURN, 0, 3000);
    is_rejected(number, 8, 1, XNS_REJECT_NO_SUCH_PROGRAM, 0);
    is_rejected(number, 7, LAST_VERSION + 1, XNS_REJECT_NO_SUCH_VERSION, 2);
    asks(number, XNS_KIND_RETURN, 0, 300);
    AGAIN(xns_host_close(&client, now, number));
    is_closed(&service, XNS_CLOSED_BY_PEER, XNS_OK);
    is_closed(&client, XNS_CLOSED_ASKED, XNS_OK);
    free_both();
}

#include "host_answers.h"

/* ---- how a connection closes */

/* Between two packets of the peer so many packets go out, at these times, and then the peer counts as silent, which is told at once. Where the clock is set
 * back, the waits go on from there. */
static void silent(uint32_t patience, size_t packets) {
    const struct xns_settings settings = { .first_wait = 100, .longest_wait = 300, .tries = 4, .patience = patience };
    static const uint64_t waits[] = { 100, 200, 300, 300, 300 };
    uint64_t due = 1000;
    size_t number;
    open_both(&settings, &number);
    CHECK(xns_host_wake(&client) == 0 && carry(&client, NULL, CLIENT_VIA) && xns_host_wake(&client) == due + waits[0]);
    for (size_t i = 0; i < packets; i++) {
        now = 5 * i;
        CHECK(!carry(&client, NULL, CLIENT_VIA));
        due = now + waits[i];
        CHECK(xns_host_wake(&client) == due);
        now = due - 1;
        CHECK(!carry(&client, NULL, CLIENT_VIA));
        now = due;
        CHECK(carry(&client, NULL, CLIENT_VIA));
    }
    now = due + 300;
    CHECK(xns_host_wake(&client) == now && !carry(&client, NULL, CLIENT_VIA) && xns_host_wake(&client) == 0);
    is_closed(&client, XNS_CLOSED_SILENT, XNS_OK);
    while (xns_host_wake(&client) != XNS_NEVER) {
        now = xns_host_wake(&client);
        CHECK(!carry(&client, NULL, CLIENT_VIA) && now <= due + 600);
    }
    CHECK(xns_host_connections(&client) == 0 && xns_host_close(&client, now, number) == XNS_NO_CONNECTION);
    free_both();
}

/* A call that is abandoned is gone, and so is an event that stayed. The answer to it is complained of, which closes its connection at once. */
static void abandoned(void) {
    struct xns_event call, event;
    size_t number;
    open_both(&usual, &number);
    call = calls(number, 1);
    CHECK(xns_host_abandon(&client, number) == XNS_OK && xns_host_connections(&client) == 0 && xns_host_wake(&client) == XNS_NEVER);
    CHECK(xns_host_abandon(&client, number) == XNS_NO_CONNECTION && xns_host_abandon(&client, SIZE_MAX) == XNS_NO_CONNECTION);
    CHECK(xns_host_answer(&service, now, call.number, XNS_KIND_RETURN, 0, given, 1) == XNS_OK);
    CHECK(carry(&service, &client, SERVICE_VIA) && xns_host_next_event(&client, &event, words, WORDS, &count) == XNS_NOTHING);
    CHECK(carry(&client, &service, CLIENT_VIA) && now == 1000);
    is_not_served(&service, XNS_ERROR_NO_SUCH_SOCKET);
    CHECK(!carry(&client, &service, CLIENT_VIA) && !carry(&service, &client, SERVICE_VIA) && xns_host_connections(&service) == 0);
    free_both();
    open_both(&usual, &number);
    CHECK(xns_host_call(&client, now, number, 7, 1, 4, given, 5) == XNS_OK);
    while (xns_host_next_event(&service, &event, words, 0, &count) == XNS_NOTHING) turn();
    CHECK(count == 5 && xns_host_abandon(&service, event.number) == XNS_OK);
    CHECK(xns_host_next_event(&service, &event, words, WORDS, &count) == XNS_NOTHING && xns_host_connections(&service) == 0);
    free_both();
}

/* A peer that waits for an answer sends probes, and gets replies, even where the setting is never to probe. Without a call such a one has nothing to wait for. */
static void idle(void) {
    const struct xns_settings never = { .idle = UINT32_MAX };
    struct xns_event call;
    size_t number;
    open_both(&usual, &number);
    call = calls(number, 1);
    for (int i = 0; i < 40; i++) turn();
    CHECK(now > 60000);
    CHECK(xns_host_answer(&service, now, call.number, XNS_KIND_RETURN, 0, given, 1) == XNS_OK);
    hears(number, XNS_KIND_RETURN, 0, 1);
    free_both();
    open_both(&never, &number);
    call = calls(number, 1);
    while (carry(&client, &service, CLIENT_VIA) || carry(&service, &client, SERVICE_VIA)) continue;
    CHECK(xns_host_wake(&client) <= now + 10000 && xns_host_wake(&service) == XNS_NEVER);
    CHECK(xns_host_answer(&service, now, call.number, XNS_KIND_RETURN, 0, given, 1) == XNS_OK);
    hears(number, XNS_KIND_RETURN, 0, 1);
    while (carry(&client, &service, CLIENT_VIA) || carry(&service, &client, SERVICE_VIA)) continue;
    CHECK(xns_host_wake(&client) == XNS_NEVER && xns_host_wake(&service) == XNS_NEVER);
    free_both();
}

/* A connection that closes is closed as silent, even where the setting is never to probe, once the peer has acknowledged End and gone away: behind the answer
 * nothing of the peer comes, and nothing waits for the peer. */
static void closes_alone(void) {
    const struct xns_settings settings = { .idle = UINT32_MAX, .first_wait = 100, .longest_wait = 300, .tries = 4, .patience = 1200 };
    uint8_t packet[XNS_LONGEST_PACKET];
    struct xns_event call;
    uint64_t via, then;
    size_t number, length;
    open_both(&settings, &number);
    call = calls(number, 1);
    CHECK(xns_host_close(&client, now, number) == XNS_OK);
    while (carry(&client, &service, CLIENT_VIA) || carry(&service, &client, SERVICE_VIA)) continue;
    CHECK(xns_host_answer(&service, now, call.number, XNS_KIND_RETURN, 0, given, 1) == XNS_OK);
    CHECK(xns_host_next_packet(&service, now, packet, sizeof packet, &length, &via) == XNS_OK && via == SERVICE_VIA); /* the answer, and EndReply is lost */
    CHECK(xns_host_receive(&client, now, CLIENT_VIA, packet, length) == XNS_OK);
    hears(number, XNS_KIND_RETURN, 0, 1);
    CHECK(carry(&service, NULL, SERVICE_VIA) && carry(&client, NULL, CLIENT_VIA));
    for (then = now; xns_host_wake(&client) != 0; carry(&client, NULL, CLIENT_VIA)) {
        CHECK(xns_host_wake(&client) != XNS_NEVER);
        now = xns_host_wake(&client);
    }
    CHECK(now - then >= 10000 && now - then < 13000);
    is_closed(&client, XNS_CLOSED_SILENT, XNS_OK);
    free_both();
}

/* An Error packet of one of two numbers that quotes a packet which the client sent lately closes its connection; one that quotes another does
 * not, nor does another number. The first packet opens the connection, a later one is a call. */
static void not_served(void) {
    static const size_t odd[] = { 15, 17, 27, 29, 33, 35, 36 }; /* of both places, both identifiers, and the sequence number that are quoted */
    uint8_t packet[XNS_LONGEST_PACKET], error[XNS_LONGEST_PACKET];
    size_t number, length, size;
    uint64_t via;
    for (int is_open = 0; is_open < 2; is_open++) {
        open_both(&usual, &number);
        if (is_open) asks(number, XNS_KIND_RETURN, 0, 300);
        if (is_open) AGAIN(xns_host_call(&client, now, number, 7, LAST_VERSION, 3, given, 1));
        CHECK(xns_host_next_packet(&client, now, packet, sizeof packet, &length, &via) == XNS_OK);
        CHECK(xns_complain(&there, XNS_ERROR_NO_RESOURCES, 0, packet, length, error, sizeof error, &size) == XNS_OK);
        error[0] = error[1] = 0xff; /* no checksum */
        for (size_t k = 0; k < sizeof odd / sizeof odd[0]; k++) {
            error[30 + 4 + odd[k]] ^= 1;
            CHECK(xns_host_receive(&client, now, CLIENT_VIA, error, size) == XNS_NOTHING);
            error[30 + 4 + odd[k]] ^= 1;
        }
        error[30 + 1] = XNS_ERROR_BAD_CHECKSUM;
        CHECK(xns_host_receive(&client, now, CLIENT_VIA, error, size) == XNS_NOTHING);
        error[30 + 1] = XNS_ERROR_NO_RESOURCES;
        CHECK(xns_host_receive(&client, now, CLIENT_VIA, error, size) == XNS_OK);
        is_not_served(&client, XNS_ERROR_NO_RESOURCES);
        free_both();
    }
}

/* A service that is made anew complains of what it hears of an old connection, which is closed: it has no such connection. */
static void made_anew(void) {
    size_t number;
    uint64_t began;
    open_both(&usual, &number);
    asks(number, XNS_KIND_RETURN, 0, 3);
    began = now;
    AGAIN(xns_host_new(&service, &there, &usual, secret));
    AGAIN(xns_host_serve(&service, there.socket, programs, 1));
    AGAIN(xns_host_call(&client, now, number, 7, LAST_VERSION, 3, given, 2));
    is_not_served(&client, XNS_ERROR_NO_SUCH_SOCKET);
    CHECK(now == began);
    free_both();
}

/* A client that is made anew complains at the socket from which it has connected, also of what the service says to the connection of before, and at no
 * other socket. */
static void client_anew(void) {
    static const uint8_t other[32] = { 3 };
    uint8_t packet[XNS_LONGEST_PACKET];
    struct xns_event call;
    size_t number, length;
    uint64_t via;
    open_both(&usual, &number);
    call = calls(number, 1);
    AGAIN(xns_host_new(&client, &here, &usual, other));
    AGAIN(xns_host_answer(&service, now, call.number, XNS_KIND_RETURN, 0, given, 1));
    CHECK(xns_host_next_packet(&service, now, packet, sizeof packet, &length, &via) == XNS_OK);
    CHECK(xns_host_receive(&client, now, CLIENT_VIA, packet, length) == XNS_NOTHING && xns_host_wake(&client) == XNS_NEVER);
    CHECK(xns_host_connect(&client, now, CLIENT_VIA, here.socket + 1, &there, &number) == XNS_OK && xns_host_abandon(&client, number) == XNS_OK);
    CHECK(xns_host_receive(&client, now, CLIENT_VIA, packet, length) == XNS_NOTHING && xns_host_wake(&client) == XNS_NEVER);
    CHECK(xns_host_connect(&client, now, CLIENT_VIA, here.socket, &there, &number) == XNS_OK);
    CHECK(xns_host_receive(&client, now, CLIENT_VIA, packet, length) == XNS_OK && carry(&client, &service, CLIENT_VIA) && now == 1000);
    is_not_served(&service, XNS_ERROR_NO_SUCH_SOCKET);
    asks(number, XNS_KIND_RETURN, 0, 5);
    CHECK(xns_host_connections(&service) == 1);
    free_both();
}

#include "host_faults.h"

/* A host whose first packet is refused memory rests for the first wait, unless something is done of a connection. Asked before that, it gives the packet. */
static void rests(void) {
    struct xns_host one = XNS_HOST_INIT;
    uint8_t packet[XNS_LONGEST_PACKET];
    size_t number, length;
    uint64_t via;
    CHECK(xns_host_new(&one, &here, &usual, secret) == XNS_OK);
    CHECK(xns_host_connect(&one, 1000, CLIENT_VIA, here.socket, &there, &number) == XNS_OK && xns_host_wake(&one) == 0);
    for (int k = 0; k < 2; k++) {
        growths = 0, refuse_at = 1;
        CHECK(xns_host_next_packet(&one, 1000, packet, sizeof packet, &length, &via) == XNS_NO_MEMORY);
        CHECK(xns_host_wake(&one) == 1250);
        if (k == 0) CHECK(xns_host_set_tag(&one, number, 1) == XNS_OK && xns_host_wake(&one) == 0);
    }
    refuse_at = 0;
    CHECK(xns_host_next_packet(&one, 1001, packet, sizeof packet, &length, &via) == XNS_OK && length == 42);
    xns_host_free(&one);
}

int main(void) {
    static const size_t sizes[] = { 1, 2, 3, 8, 64 };
    long most;
    for (size_t i = 0; i < 5; i++)
        for (size_t k = 0; k < 5; k++) converse(sizes[i], sizes[k]);
    services();
    strangers();
    unanswered();
    everybody();
    never();
    networks();
    refusals();
    short_buffers();
    tags();
    close_behind_a_call();
    opened();
    silent(1, 4);
    silent(1200, 4); /* the waits in vain, and the last */
    silent(1201, 5);
    abandoned();
    idle();
    closes_alone();
    not_served();
    made_anew();
    client_anew();
    faults();
    rests();
    for (refuse_at = 0, most = 1; refuse_at <= most; refuse_at++) {
        growths = 0;
        converse(2, 3);
        if (refuse_at == 0) most = growths;
        CHECK(growths >= most);
    }
    CHECK(most > 100);
    printf("ok: with each of %ld growths refused\n", most);
    return 0;
}
