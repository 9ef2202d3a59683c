/* Packets of a socket, many by one system call each way. Linux; include it with _GNU_SOURCE. */
#ifndef BATCH_H
#define BATCH_H

#include "link.h"
#include <sys/socket.h>
#include <sys/time.h>

enum { BATCH_MOST = 64, BATCH_ROOM = 2048 };

/* Up to so many packets, each with its place. */
struct batch {
    struct mmsghdr messages[BATCH_MOST];
    struct iovec parts[BATCH_MOST];
    struct sockaddr_storage places[BATCH_MOST];
    uint8_t bytes[BATCH_MOST][BATCH_ROOM];
    unsigned count;
};

static struct batch batch_in, batch_out;

/* Makes the k-th packet of a batch one of so many bytes, or of room for them. */
static inline void batch_set(struct batch *batch, unsigned k, size_t length, size_t place) {
    struct msghdr *head = &batch->messages[k].msg_hdr;
    memset(head, 0, sizeof *head);
    batch->parts[k].iov_base = batch->bytes[k];
    batch->parts[k].iov_len = length;
    head->msg_iov = &batch->parts[k];
    head->msg_iovlen = 1;
    head->msg_name = &batch->places[k];
    head->msg_namelen = (socklen_t)place;
}

/* Lets batch_receive wait for a packet: LINK_SHORT_WAIT at most, which the socket keeps. */
static inline void batch_let_wait(struct link *link) {
    const struct timeval most = { 0, LINK_SHORT_WAIT * 1000 };
    link->can_wait = setsockopt(link->file, SOL_SOCKET, SO_RCVTIMEO, &most, sizeof most) == 0;
}

/* Takes in the packets that are there, once one is where the link is to wait: `messages[k].msg_len` bytes of each stand in `bytes[k]`. How many. */
static inline unsigned batch_receive(struct link *link) {
    static unsigned used = BATCH_MOST; /* by the packets before: only these messages are to be made ready again */
    int count;
    for (unsigned k = 0; k < used; k++) batch_set(&batch_in, k, BATCH_ROOM, sizeof batch_in.places[k]);
    count = recvmmsg(link->file, batch_in.messages, BATCH_MOST, link->waits ? MSG_WAITFORONE : MSG_DONTWAIT, NULL);
    used = count < 0 ? 0 : (unsigned)count;
    link->is_busy = link->can_wait && used > 0;
    link->waits = false;
    return used;
}

/* Sends what was put: one packet alone takes less by itself. One that can't be sent is as one that is lost. */
static inline void batch_flush(struct link *link) {
    unsigned first = 0;
    if (batch_out.count == 1) {
        (void)!sendmsg(link->file, &batch_out.messages[0].msg_hdr, MSG_DONTWAIT);
        first = 1;
    }
    while (first < batch_out.count) {
        const int sent = sendmmsg(link->file, batch_out.messages + first, batch_out.count - first, MSG_DONTWAIT);
        first += sent > 0 ? (unsigned)sent : 1;
    }
    batch_out.count = 0;
}

/* Puts a packet, made up by zeros to the least length, for this place. */
static inline void batch_put(struct link *link, const uint8_t *packet, size_t length, size_t least, const void *place, size_t size) {
    const unsigned k = batch_out.count;
    memcpy(batch_out.bytes[k], packet, length);
    if (length < least) memset(batch_out.bytes[k] + length, 0, least - length);
    memcpy(&batch_out.places[k], place, size);
    batch_set(&batch_out, k, length < least ? least : length, size);
    if (++batch_out.count == BATCH_MOST) batch_flush(link);
}

#endif
