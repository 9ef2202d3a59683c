/* Bare datagrams there and back: what the network of this machine costs alone.
 *
 *     datagrams serve KIND PORT COUNT BYTES WINDOW
 *     datagrams ask KIND PORT COUNT BYTES WINDOW TURNS
 *
 * A turn is COUNT datagrams there and as many back, of the BYTES that each side is told. At most WINDOW, two or more, are out and not acknowledged: half a window
 * is acknowledged by a datagram of its own, and a whole turn by what comes back. Nothing is sent again. Of the kind `batched` the datagrams go as in
 * examples/c/udp.h, of the kind `single` each by a system call of its own that waits. Prints how many turns were done. */
#define _GNU_SOURCE
#include "udp.h"

struct side {
    struct link link;
    bool is_single;
    uint64_t peer;
    long count, window;
    size_t bytes;
    long came, sent, known; /* datagrams in all: that came, that were sent, and that the peer has acknowledged */
};

/* The peer of a socket for single datagrams is fixed by the first that comes. */
static void single_receive(struct link *link, link_taker *take, void *given) {
    static uint8_t bytes[BATCH_ROOM];
    const struct side *side = given;
    struct sockaddr_in from = udp_place(side->peer);
    socklen_t size = sizeof from;
    const bool is_first = side->peer == 0;
    const ssize_t length = recvfrom(link->file, bytes, sizeof bytes, 0, is_first ? (struct sockaddr *)&from : NULL, is_first ? &size : NULL);
    if (length < 0) return;
    if (is_first) (void)!connect(link->file, (struct sockaddr *)&from, size);
    take(given, udp_via(&from), bytes, (size_t)length);
}

static void single_put(struct link *link, uint64_t via, const uint8_t *packet, size_t length) {
    (void)via;
    (void)!send(link->file, packet, length, 0);
}

static void single_flush(struct link *link) {
    (void)link;
}

/* What comes is an acknowledgement, or a datagram of a turn. */
static void take(void *given, uint64_t via, const uint8_t *bytes, size_t length) {
    struct side *side = given;
    side->peer = via;
    if (length == sizeof side->known) {
        memcpy(&side->known, bytes, length);
        return;
    }
    side->known = side->sent;
    side->came++;
    if (side->came % side->count == 0 || side->came % (side->window / 2) != 0) return;
    side->link.put(&side->link, via, (const uint8_t *)&side->came, sizeof side->came);
}

static void receive(struct side *side) {
    if (!side->is_single) link_wait(&side->link, UINT64_MAX);
    side->link.receive(&side->link, take, side);
    side->link.flush(&side->link);
}

static void send_turn(struct side *side) {
    static const uint8_t bytes[BATCH_ROOM];
    const long end = side->sent + side->count;
    while (side->sent < end) {
        for (; side->sent < end && side->sent - side->known < side->window; side->sent++) side->link.put(&side->link, side->peer, bytes, side->bytes);
        side->link.flush(&side->link);
        if (side->sent < end) receive(side);
    }
}

static void take_turn(struct side *side) {
    const long end = side->came + side->count;
    while (side->came < end) receive(side);
}

static void open_single(struct side *side) {
    const struct sockaddr_in place = udp_place(side->peer);
    side->link.receive = single_receive;
    side->link.put = single_put;
    side->link.flush = single_flush;
    if (side->peer != 0) (void)!connect(side->link.file, (const struct sockaddr *)&place, sizeof place);
}

int main(int count, char **given) {
    struct side side = { 0 };
    long turns;
    bool asks;
    if (count < 7) return 2;
    asks = strcmp(given[1], "ask") == 0;
    side.is_single = strcmp(given[2], "single") == 0;
    side.peer = asks ? udp_here((uint32_t)atol(given[3])) : 0;
    side.count = atol(given[4]);
    side.bytes = (size_t)atol(given[5]);
    side.window = atol(given[6]);
    turns = asks && count > 7 ? atol(given[7]) : 0;
    udp_open(&side.link, asks ? 0 : (uint32_t)atol(given[3]));
    if (side.is_single) open_single(&side);
    for (long i = 0; i < turns; i++) {
        send_turn(&side);
        take_turn(&side);
    }
    while (!asks) {
        take_turn(&side);
        send_turn(&side);
    }
    printf("%ld calls\n", turns);
    return 0;
}
