/* Whole Ethernet frames of type 0600, for links that the kernel writes no head for. There are no routers, as in ethernet.h. */
#ifndef FRAME_H
#define FRAME_H

#include "link.h"

enum { FRAME_HEAD = 14, FRAME_LEAST = 60, FRAME_MOST = FRAME_HEAD + XNS_LONGEST_PACKET, FRAME_TARGET_AT = 10 };

/* Writes the frame that brings a packet to its target host, made up to the shortest one; its length. */
static inline size_t frame_write(const uint8_t station[6], const uint8_t *packet, size_t length, uint8_t frame[FRAME_MOST]) {
    const size_t size = FRAME_HEAD + length;
    memset(frame, 0, FRAME_MOST);
    memcpy(frame, packet + FRAME_TARGET_AT, 6);
    memcpy(frame + 6, station, 6);
    frame[12] = 6;
    memcpy(frame + FRAME_HEAD, packet, length);
    return size < FRAME_LEAST ? FRAME_LEAST : size;
}

/* Whether a frame brings this station a packet of another one. */
static inline bool frame_is_ours(const uint8_t station[6], const uint8_t *frame, size_t size) {
    static const uint8_t all[6] = { 255, 255, 255, 255, 255, 255 };
    if (size <= FRAME_HEAD || frame[12] != 6 || frame[13] != 0 || memcmp(frame + 6, station, 6) == 0) return false;
    return memcmp(frame, station, 6) == 0 || memcmp(frame, all, 6) == 0;
}

#endif
