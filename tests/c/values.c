/* Courier's values in words: what each reader and writer takes and leaves, and that a fault stays. Prints ok, or ends with 1 at the first that is not so. */
#include "xns.h"
#include <stdio.h>
#include <stdlib.h>
#include <string.h>

#define CHECK(x) do { if (!(x)) { fprintf(stderr, "values.c, line %d: %s\n", __LINE__, #x); exit(1); } } while (0)

/* 513, 70,000, -2, -70,000, true, false and the count 3, as XSIS 038112 spells them. */
static const uint16_t spelled[] = { 0x0201, 0x0001, 0x1170, 0xfffe, 0xfffe, 0xee90, 1, 0, 3 };
enum { WORDS = sizeof spelled / sizeof spelled[0] };

static void readers(void) {
    struct xns_cursor at = XNS_CURSOR_INIT;
    uint16_t cardinal = 7, count = 7;
    uint32_t long_cardinal = 7;
    int16_t integer = 7;
    int32_t long_integer = 7;
    uint8_t boolean = 7;
    CHECK(xns_read_cardinal(spelled, WORDS, &at, &cardinal) == XNS_OK && cardinal == 513 && at.place == 1);
    CHECK(xns_read_long_cardinal(spelled, WORDS, &at, &long_cardinal) == XNS_OK && long_cardinal == 70000 && at.place == 3);
    CHECK(xns_read_integer(spelled, WORDS, &at, &integer) == XNS_OK && integer == -2 && at.place == 4);
    CHECK(xns_read_long_integer(spelled, WORDS, &at, &long_integer) == XNS_OK && long_integer == -70000 && at.place == 6);
    CHECK(xns_read_boolean(spelled, WORDS, &at, &boolean) == XNS_OK && boolean == 1 && at.place == 7);
    CHECK(xns_read_boolean(spelled, WORDS, &at, &boolean) == XNS_OK && boolean == 0 && at.place == 8);
    CHECK(xns_read_count(spelled, WORDS, &at, 3, &count) == XNS_OK && count == 3 && at.place == 9 && at.fault == 0);
    CHECK(xns_read_end(spelled, WORDS, &at) == XNS_OK && at.place == 9 && at.fault == 0);
    CHECK(xns_read_cardinal(spelled, WORDS, &at, &cardinal) == XNS_TRUNCATED && cardinal == 513 && at.place == 9 && at.fault == XNS_TRUNCATED);
}

/* The call answers this, the cursor stays with it as its fault, and each call answers it from then on. */
#define REFUSED(call, at, where, number) do { \
    CHECK((call) == (number) && (at).place == (where) && (at).fault == (number)); \
    CHECK((call) == (number) && (at).place == (where) && (at).fault == (number)); \
    stays(&(at)); \
} while (0)

static void stays(struct xns_cursor *at) {
    const struct xns_cursor before = *at;
    uint16_t cardinal = 7, count = 7, buffer[WORDS] = { 7 };
    uint32_t long_cardinal = 7;
    int16_t integer = 7;
    int32_t long_integer = 7;
    uint8_t boolean = 7, text[2] = { 7, 7 };
    size_t length = 7;
    CHECK(xns_read_cardinal(spelled, WORDS, at, &cardinal) == before.fault && xns_read_long_cardinal(spelled, WORDS, at, &long_cardinal) == before.fault);
    CHECK(xns_read_integer(spelled, WORDS, at, &integer) == before.fault && xns_read_long_integer(spelled, WORDS, at, &long_integer) == before.fault);
    CHECK(xns_read_boolean(spelled, WORDS, at, &boolean) == before.fault && xns_read_count(spelled, WORDS, at, 9, &count) == before.fault);
    CHECK(xns_read_text(spelled, WORDS, at, text, sizeof text, &length) == before.fault && xns_read_text(spelled, WORDS, at, text, 0, &length) == before.fault);
    CHECK(length == 7 && text[0] == 7 && text[1] == 7);
    CHECK(xns_read_end(spelled, WORDS, at) == before.fault && xns_write_cardinal(buffer, WORDS, at, 1) == before.fault);
    CHECK(xns_write_long_cardinal(buffer, WORDS, at, 1) == before.fault && xns_write_integer(buffer, WORDS, at, 1) == before.fault);
    CHECK(xns_write_long_integer(buffer, WORDS, at, 1) == before.fault && xns_write_boolean(buffer, WORDS, at, 1) == before.fault);
    CHECK(xns_write_text(buffer, WORDS, at, (const uint8_t *)"abc", 3) == before.fault);
    CHECK(xns_write_count(buffer, WORDS, at, 9, 1) == before.fault && at->place == before.place && at->fault == before.fault);
    CHECK(cardinal == 7 && long_cardinal == 7 && integer == 7 && long_integer == 7 && boolean == 7 && count == 7 && buffer[0] == 7 && buffer[1] == 0);
}

static void faults(void) {
    const struct xns_cursor last = { WORDS - 1, 0 }, behind = { SIZE_MAX, 0 };
    struct xns_cursor at;
    uint16_t count = 7;
    uint32_t long_cardinal = 7;
    int16_t integer = 7;
    int32_t long_integer = 7;
    uint8_t boolean = 7;
    at = last;
    REFUSED(xns_read_boolean(spelled, WORDS, &at, &boolean), at, WORDS - 1, XNS_NOT_BOOLEAN);
    at = last;
    REFUSED(xns_read_count(spelled, WORDS, &at, 2, &count), at, WORDS - 1, XNS_OVER_MAXIMUM);
    at = last;
    REFUSED(xns_read_long_cardinal(spelled, WORDS, &at, &long_cardinal), at, WORDS - 1, XNS_TRUNCATED);
    at = last;
    REFUSED(xns_read_long_integer(spelled, WORDS, &at, &long_integer), at, WORDS - 1, XNS_TRUNCATED);
    at = last;
    REFUSED(xns_read_end(spelled, WORDS, &at), at, WORDS - 1, XNS_LEFT_OVER);
    at = behind;
    REFUSED(xns_read_integer(spelled, WORDS, &at, &integer), at, SIZE_MAX, XNS_TRUNCATED);
    at = behind;
    REFUSED(xns_read_count(spelled, WORDS, &at, 9, &count), at, SIZE_MAX, XNS_TRUNCATED);
    at = behind;
    REFUSED(xns_read_boolean(spelled, 0, &at, &boolean), at, SIZE_MAX, XNS_TRUNCATED);
    at = behind;
    at.fault = XNS_NOT_LISTED; /* as a program sets it */
    stays(&at);
    CHECK(count == 7 && long_cardinal == 7 && integer == 7 && long_integer == 7 && boolean == 7);
}

static void writers(void) {
    struct xns_cursor at = XNS_CURSOR_INIT;
    uint16_t words[WORDS + 1];
    memset(words, 0xee, sizeof words);
    CHECK(xns_write_cardinal(words, WORDS, &at, 513) == XNS_OK && at.place == 1 && xns_write_long_cardinal(words, WORDS, &at, 70000) == XNS_OK && at.place == 3);
    CHECK(xns_write_integer(words, WORDS, &at, -2) == XNS_OK && at.place == 4 && xns_write_long_integer(words, WORDS, &at, -70000) == XNS_OK && at.place == 6);
    CHECK(xns_write_boolean(words, WORDS, &at, 2) == XNS_OK && at.place == 7 && xns_write_boolean(words, WORDS, &at, 0) == XNS_OK && at.place == 8);
    CHECK(words[8] == 0xeeee && xns_write_count(words, WORDS, &at, 3, 3) == XNS_OK && at.place == 9 && at.fault == 0);
    CHECK(memcmp(words, spelled, sizeof spelled) == 0 && words[WORDS] == 0xeeee);
    REFUSED(xns_write_cardinal(words, WORDS, &at, 1), at, WORDS, XNS_SHORT_BUFFER);
    at.fault = XNS_OK;
    at.place = WORDS - 1;
    REFUSED(xns_write_long_cardinal(words, WORDS, &at, 1), at, WORDS - 1, XNS_SHORT_BUFFER);
    at.fault = XNS_OK;
    REFUSED(xns_write_count(words, WORDS, &at, 3, 4), at, WORDS - 1, XNS_OVER_MAXIMUM);
    at.fault = XNS_OK;
    REFUSED(xns_write_count(words, WORDS, &at, 3, 65537), at, WORDS - 1, XNS_OVER_MAXIMUM);
    at.fault = XNS_OK;
    at.place = SIZE_MAX;
    REFUSED(xns_write_long_integer(words, WORDS, &at, 1), at, SIZE_MAX, XNS_SHORT_BUFFER);
    CHECK(memcmp(words, spelled, sizeof spelled) == 0 && words[WORDS] == 0xeeee);
}

/* The string of XSIS 038112's form: a count of bytes, then two a word, the spare one 0. */
static void texts(void) {
    static const uint8_t bytes[65536];
    static const uint16_t odd[] = { 5, 0x4865, 0x6c6c, 0x6f00 }, even[] = { 2, 0x4869 };
    struct xns_cursor at = XNS_CURSOR_INIT;
    static uint16_t words[32770];
    memset(words, 0xee, sizeof words);
    CHECK(xns_write_text(words, 7, &at, (const uint8_t *)"Hello", 5) == XNS_OK && at.place == 4 && memcmp(words, odd, sizeof odd) == 0 && words[4] == 0xeeee);
    CHECK(xns_write_text(words, 7, &at, (const uint8_t *)"Hi", 2) == XNS_OK && at.place == 6 && memcmp(words + 4, even, sizeof even) == 0 && words[6] == 0xeeee);
    CHECK(memcmp(words, odd, sizeof odd) == 0 && xns_write_text(words, 7, &at, bytes, 0) == XNS_OK && at.place == 7 && words[6] == 0 && words[7] == 0xeeee);
    at.place = 4;
    REFUSED(xns_write_text(words, 7, &at, (const uint8_t *)"Hello", 5), at, 4, XNS_SHORT_BUFFER);
    at.fault = XNS_OK;
    REFUSED(xns_write_text(words, 7, &at, bytes, 65536), at, 4, XNS_TOO_LONG);
    CHECK(memcmp(words + 4, even, sizeof even) == 0);
    at.fault = XNS_OK;
    at.place = 0;
    CHECK(xns_write_text(words, 32770, &at, bytes, 65535) == XNS_OK && at.place == 32769 && words[0] == 65535 && words[32768] == 0 && words[32769] == 0xeeee);
}

/* Texts that are read: "Hello" with a spare byte that is not 0, "Hi", none, and one whose last word is not there. */
static void texts_read(void) {
    static const uint16_t words[] = { 5, 0x4865, 0x6c6c, 0x6fff, 2, 0x4869, 0, 3, 0x4869 };
    enum { COUNT = sizeof words / sizeof words[0] };
    struct xns_cursor at = XNS_CURSOR_INIT;
    uint8_t text[8];
    size_t length = 7;
    memset(text, 0xee, sizeof text);
    CHECK(xns_read_text(words, COUNT, &at, text, 4, &length) == XNS_SHORT_BUFFER && length == 5 && text[0] == 0xee && at.place == 0 && at.fault == 0);
    CHECK(xns_read_text(words, COUNT, &at, text, 0, &length) == XNS_SHORT_BUFFER && length == 5 && text[0] == 0xee && at.place == 0 && at.fault == 0);
    length = 7;
    CHECK(xns_read_text(words, COUNT, &at, text, 5, &length) == XNS_OK && length == 5 && memcmp(text, "Hello\xee", 6) == 0 && at.place == 4);
    CHECK(xns_read_text(words, COUNT, &at, text, 8, &length) == XNS_OK && length == 2 && memcmp(text, "Hillo\xee", 6) == 0 && at.place == 6);
    CHECK(xns_read_text(words, COUNT, &at, text, 0, &length) == XNS_OK && length == 0 && memcmp(text, "Hillo\xee", 6) == 0 && at.place == 7 && at.fault == 0);
    length = 7;
    REFUSED(xns_read_text(words, COUNT, &at, text, 8, &length), at, 7, XNS_TRUNCATED);
    at.fault = XNS_OK;
    REFUSED(xns_read_text(words, COUNT, &at, text, 0, &length), at, 7, XNS_TRUNCATED);
    at.fault = XNS_OK;
    at.place = COUNT;
    REFUSED(xns_read_text(words, COUNT, &at, text, 8, &length), at, COUNT, XNS_TRUNCATED);
    at.fault = XNS_OK;
    at.place = SIZE_MAX;
    REFUSED(xns_read_text(words, COUNT, &at, text, 8, &length), at, SIZE_MAX, XNS_TRUNCATED);
    CHECK(length == 7 && memcmp(text, "Hillo\xee", 6) == 0);
}

/* The longest text, 65,535 bytes, comes back as it was written. */
static void longest_text(void) {
    static uint8_t bytes[65535], text[65536];
    static uint16_t words[32769];
    struct xns_cursor at = XNS_CURSOR_INIT;
    size_t i, length = 7;
    for (i = 0; i < sizeof bytes; i++) bytes[i] = (uint8_t)(i * 31 + i / 256);
    memset(text, 0xee, sizeof text);
    CHECK(xns_write_text(words, 32769, &at, bytes, 65535) == XNS_OK && at.place == 32769);
    at.place = 0;
    CHECK(xns_read_text(words, 32768, &at, text, 65535, &length) == XNS_TRUNCATED && length == 7 && text[0] == 0xee && at.place == 0);
    at.fault = XNS_OK;
    CHECK(xns_read_text(words, 32769, &at, text, 65534, &length) == XNS_SHORT_BUFFER && length == 65535 && text[0] == 0xee && at.place == 0 && at.fault == 0);
    length = 7;
    CHECK(xns_read_text(words, 32769, &at, text, 65535, &length) == XNS_OK && length == 65535 && at.place == 32769 && at.fault == 0);
    CHECK(memcmp(text, bytes, sizeof bytes) == 0 && text[65535] == 0xee && xns_read_end(words, 32769, &at) == XNS_OK);
}

int main(void) {
    readers();
    faults();
    writers();
    texts();
    texts_read();
    longest_text();
    puts("ok");
    return 0;
}
