/* Asks the Echo socket of a host: ping PORT [COUNT [BYTES]] over UDP, ping -i INTERFACE STATION|all [COUNT [BYTES]] on Ethernet; net.h has the other networks.
 * Prints each reply, and how many came of how many that were sent. Ends with 1 where none came. */
#define _GNU_SOURCE
#include "net.h"

enum { EACH = 200, LAST = 1000, MARK = 8, LEAST = 2 * MARK, USUAL_COUNT = 4, MOST_COUNT = 1000000000 };

/* What was asked, and what came. */
struct asked {
    struct xns_address here, there;
    uint8_t body[XNS_LONGEST_ECHO]; /* a mark of this run, for an Echo has no identifier, then when it was sent, then others */
    unsigned long size;
    unsigned sent, came;
};

static uint64_t microseconds(void) {
    struct timespec now;
    clock_gettime(CLOCK_MONOTONIC, &now);
    return (uint64_t)now.tv_sec * 1000000 + (uint64_t)now.tv_nsec / 1000;
}

static void ask(struct link *link, struct asked *asked) {
    uint8_t packet[XNS_LONGEST_PACKET];
    const uint64_t at = microseconds();
    size_t length;
    memcpy(asked->body + MARK, &at, sizeof at);
    check(xns_echo_request(&asked->here, &asked->there, asked->body, asked->size, packet, sizeof packet, &length));
    link->put(link, link->via, packet, length);
    link->flush(link);
    asked->sent++;
}

/* Whether nothing more is waited for: of all hosts any may still reply. */
static bool is_done(const struct asked *asked, unsigned long wanted, uint64_t next) {
    static const uint8_t all[6] = { 255, 255, 255, 255, 255, 255 };
    if (asked->sent < wanted) return false;
    return milliseconds() >= next || (asked->came >= asked->sent && memcmp(asked->there.host, all, 6) != 0);
}

/* Whether these bytes are what this run sent, but for the time. */
static bool is_ours(const struct asked *asked, const uint8_t *body, size_t size) {
    return size == asked->size && memcmp(body, asked->body, MARK) == 0 && memcmp(body + LEAST, asked->body + LEAST, size - LEAST) == 0;
}

static void take(void *given, uint64_t via, const uint8_t *bytes, size_t length) {
    struct asked *asked = given;
    struct xns_packet packet;
    size_t body_at, size;
    uint64_t at;
    (void)via;
    if (xns_echo_accept(&asked->there, bytes, length, &body_at, &size) != XNS_OK || !is_ours(asked, bytes + body_at, size)) return;
    if (xns_decode(bytes, length, &packet) != XNS_OK || packet.target.socket != asked->here.socket) return;
    memcpy(&at, bytes + body_at + MARK, sizeof at);
    printf("%zu bytes from ", size);
    for (int i = 0; i < 6; i++) printf("%02x", packet.source.host[i]);
    printf(" in %llu us\n", (unsigned long long)(microseconds() - at));
    fflush(stdout);
    asked->came++;
}

/* Reads how many requests are sent, of how many bytes: the words behind the network. Whether there are no others. */
static bool read_words(char **given, unsigned long *count, unsigned long *size) {
    if (*given != NULL && !read_number(*given++, MOST_COUNT, count)) return false;
    if (*given != NULL && !read_number(*given++, XNS_LONGEST_ECHO, size)) return false;
    return *given == NULL && *size >= LEAST;
}

int main(int count, char **given) {
    struct asked asked = { { 1, { 0 }, 0 }, { 1, { 0 }, XNS_SOCKET_ECHO }, { 0 }, LEAST, 0, 0 };
    struct link link = { 0 };
    unsigned long wanted = USUAL_COUNT;
    uint64_t next = milliseconds();
    (void)count;
    given = net_open(&link, NET_ASKS, given + 1, asked.there.host);
    if (given == NULL || !read_words(given, &wanted, &asked.size)) return wrong_words("NETWORK [COUNT [BYTES]]; " NET_USAGE);
    memcpy(asked.here.host, link.station, 6);
    asked.here.socket = link.socket;
    random_bytes(asked.body, MARK);
    while (!is_done(&asked, wanted, next)) {
        if (asked.sent < wanted && milliseconds() >= next) {
            ask(&link, &asked);
            next = milliseconds() + (asked.sent < wanted ? EACH : LAST);
        }
        link_wait(&link, next);
        link.receive(&link, take, &asked);
    }
    printf("%u sent, %u came\n", asked.sent, asked.came);
    return asked.came == 0;
}
