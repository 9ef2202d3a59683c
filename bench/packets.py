#!/usr/bin/env python3
"""Prints 65,536 summed internet packets as lines of hex, of several sizes; the same each time.

    packets.py                     of types that no layer reads
    packets.py echo                Echo requests and replies; so also error and exchange, for Error and Packet Exchange
    packets.py sequenced FLOWS     sequenced data packets without an end of message, of so many flows in turn
    packets.py messages            sequenced data packets that end messages: calls, returns, rejects and aborts of Courier, and one in seven that is none
"""
import random, sys


def cycle(data):
    """The checksum of the bytes that follow it in a packet."""
    total = 0
    for i in range(0, len(data), 2):
        total = (total + (data[i] << 8 | data[i + 1])) * 2 % 65535
    return total


def packet(kind, body, source_host=bytes.fromhex("0000aa000304")):
    length = 30 + len(body)
    rest = length.to_bytes(2, "big") + bytes([0, kind]) + bytes.fromhex("000000010000aa000102000200000001") + source_host + b"\4\0" + body + (b"\0" if length % 2 else b"")
    return (cycle(rest).to_bytes(2, "big") + rest).hex()


def some_bytes(largest):
    return bytes(random.randrange(256) for _ in range(random.choice([2, 16, 40, 300, largest])))


def sequenced(control, flows, i, data):
    header = bytes([control]) + bytes.fromhex("0012345678") + (i // flows % 65536).to_bytes(2, "big") + bytes.fromhex("00000003")
    return packet(5, header + data, bytes.fromhex("0000aa00") + (i % flows).to_bytes(2, "big"))


def message(i):
    """A message of any kind, of which 4 is none, with what comes before its words."""
    kind = random.choice([0, 0, 1, 2, 2, 3, 4])
    head = {0: bytes.fromhex("0000000700020001"), 1: b"\0\1", 3: b"\0\2"}.get(kind, b"")
    return kind.to_bytes(2, "big") + i.to_bytes(2, "big") + head + some_bytes(522)


def packet_of(which, flows, i):
    if which == "echo":
        return packet(2, random.choice([b"\0\1", b"\0\2"]) + some_bytes(544))
    if which == "error":
        return packet(3, random.randrange(65536).to_bytes(2, "big") + b"\0\0" + some_bytes(42))
    if which == "exchange":
        return packet(4, i.to_bytes(4, "big") + b"\0\1" + some_bytes(540))
    if which == "sequenced":
        return sequenced(0x40, flows, i, some_bytes(534))
    if which == "messages":
        return sequenced(0x50, flows, i, message(i))
    return packet(random.choice([1, 6, 7, 20]), some_bytes(546))


def main(words):
    random.seed(1)
    which = words[0] if words else "data"
    flows = int(words[1]) if len(words) > 1 else 1
    for i in range(65536):
        print(packet_of(which, flows, i))


if __name__ == "__main__":
    main(sys.argv[1:])
