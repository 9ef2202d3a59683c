/* What c_codec.c does, in plain C: the checksum by the standard's loop, add with end-around carry and rotate left by one for each word. */
#include <stdbool.h>
#include <stddef.h>
#include <stdint.h>
#include <stdio.h>
#include <string.h>

enum { PACKETS = 1000000, DATA = 546, HEADER = 30, LONGEST = 576 };

struct address { uint32_t network; uint8_t host[6]; uint16_t socket; };
struct packet { uint8_t summed, control, kind; struct address target, source; size_t body_at, body_length, taken; };

static uint16_t get16(const uint8_t *at) { return (uint16_t)(at[0] << 8 | at[1]); }
static uint32_t get32(const uint8_t *at) { return (uint32_t)get16(at) << 16 | get16(at + 2); }
static void put16(uint8_t *at, uint16_t value) { at[0] = (uint8_t)(value >> 8); at[1] = (uint8_t)value; }
static void put32(uint8_t *at, uint32_t value) { put16(at, (uint16_t)(value >> 16)); put16(at + 2, (uint16_t)value); }

static uint16_t checksum(const uint8_t *bytes, size_t length) {
    uint32_t sum = 0;
    for (size_t i = 0; i < length; i += 2) {
        sum += get16(bytes + i);
        sum = (sum & 0xffff) + (sum >> 16);
        sum = (sum << 1 & 0xffff) | sum >> 15;
    }
    return sum == 0xffff ? 0 : (uint16_t)sum;
}

static void put_address(uint8_t *at, const struct address *address) {
    put32(at, address->network);
    memcpy(at + 4, address->host, 6);
    put16(at + 10, address->socket);
}

static void get_address(const uint8_t *at, struct address *address) {
    address->network = get32(at);
    memcpy(address->host, at + 4, 6);
    address->socket = get16(at + 10);
}

__attribute__((noinline)) static bool encode(const struct packet *packet, const uint8_t *body, size_t length, uint8_t *buffer, size_t room, size_t *written) {
    size_t even = HEADER + length + length % 2;
    if (length > DATA || room < even) return false;
    put16(buffer + 2, (uint16_t)(HEADER + length));
    buffer[4] = packet->control;
    buffer[5] = packet->kind;
    put_address(buffer + 6, &packet->target);
    put_address(buffer + 18, &packet->source);
    memcpy(buffer + HEADER, body, length);
    if (length % 2) buffer[HEADER + length] = 0;
    put16(buffer, packet->summed ? checksum(buffer + 2, even - 2) : 0xffff);
    *written = even;
    return true;
}

__attribute__((noinline)) static bool decode(const uint8_t *bytes, size_t have, struct packet *packet) {
    size_t length, even;
    if (have < HEADER) return false;
    length = get16(bytes + 2);
    even = length + length % 2;
    if (length < HEADER || length > LONGEST || have < even) return false;
    if (get16(bytes) != 0xffff && get16(bytes) != checksum(bytes + 2, even - 2)) return false;
    packet->summed = get16(bytes) != 0xffff;
    packet->control = bytes[4];
    packet->kind = bytes[5];
    get_address(bytes + 6, &packet->target);
    get_address(bytes + 18, &packet->source);
    packet->body_at = HEADER;
    packet->body_length = length - HEADER;
    packet->taken = even;
    return true;
}

int main(void) {
    static uint8_t body[DATA], bytes[LONGEST];
    struct packet packet = { .summed = 1, .kind = 5, .target = { 1, { 0, 0, 0xaa, 0, 1, 2 }, 5 }, .source = { 1, { 0, 0, 0xaa, 0, 3, 4 }, 0x400 } }, read;
    uint64_t total = 0;
    for (uint32_t i = 0; i < PACKETS; i++) {
        size_t written;
        body[i % DATA] = (uint8_t)(i % 251);
        if (!encode(&packet, body, DATA, bytes, sizeof bytes, &written) || !decode(bytes, written, &read)) return 1;
        total += (uint64_t)bytes[0] * 256 + bytes[1] + bytes[read.body_at + i % DATA] + read.taken + read.source.socket;
    }
    printf("%d packets, total %llu\n", PACKETS, (unsigned long long)total);
    return 0;
}
