/* Lines of hex, for the examples. */
#ifndef HEX_H
#define HEX_H

#include <stdint.h>
#include <stdio.h>

static int digit(int c) {
    return c >= '0' && c <= '9' ? c - '0' : c >= 'a' && c <= 'f' ? c - 'a' + 10 : c >= 'A' && c <= 'F' ? c - 'A' + 10 : -1;
}

/* Reads a line of at most `room` bytes in hex: how many, -1 at the end, -2 where the line is no such hex. */
static int read_hex(FILE *from, uint8_t *bytes, int room) {
    int digits = 0, high = 0, bad = 0, c;
    for (c = getc(from); c != EOF && c != '\n'; c = getc(from)) {
        int d = digit(c);
        bad |= d < 0 || digits / 2 >= room;
        if (bad) continue;
        if (digits++ % 2 == 0) high = d;
        else bytes[digits / 2 - 1] = (uint8_t)(high * 16 + d);
    }
    if (c == EOF && digits == 0 && !bad) return -1;
    return bad || digits % 2 != 0 ? -2 : digits / 2;
}

static void write_hex(FILE *to, const uint8_t *bytes, size_t length) {
    for (size_t i = 0; i < length; i++) fprintf(to, "%02x", bytes[i]);
    fputc('\n', to);
}

#endif
