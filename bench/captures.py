#!/usr/bin/env python3
"""Writes 65,536 packets in hex, one a line, that carry calls of Courier; or, with the word `pcap` behind, a capture of them, each in a frame
of Ethernet. The first word says which:

    short      one connection of calls with one argument and their answers
    reversed   one flow of short calls whose items come in reverse order, 63 at a time
    long       one flow of messages of 245 full packets
    flows      each packet begins a flow, with its versions and a call
    endless    one flow of full packets that never ends a message; each line has 4,096 digits
    endless-flows    the same, each packet in a flow of its own
"""
import struct
import sys

from packets import cycle

PACKETS = 65536
HOSTS = bytes.fromhex("0000aa000102"), bytes.fromhex("0000aa000304")
NETWORK = bytes.fromhex("00000001")
VERSIONS = bytes.fromhex("00030003")


def packet(side, flow, sequence, acknowledge, last, data, summed=True):
    """A data packet of one side, without a checksum if it is not summed."""
    host = flow.to_bytes(2, "big")
    ends = [NETWORK + HOSTS[0] + b"\0\5", NETWORK + HOSTS[1][:4] + host + b"\4\0"]
    ids = [b"\x56\x78", b"\x12\x34"]
    length = 42 + len(data)
    rest = length.to_bytes(2, "big") + b"\0\5" + ends[1 - side] + ends[side]
    rest += bytes([0x10 if last else 0, 0]) + ids[side] + ids[1 - side] + b"".join((n % 65536).to_bytes(2, "big") for n in (sequence, acknowledge, acknowledge + 3))
    rest += data + b"\0" * (length % 2)
    return ((cycle(rest).to_bytes(2, "big") if summed else b"\xff\xff") + rest).hex()


def call(transaction):
    return b"\0\0" + (transaction % 65536).to_bytes(2, "big") + bytes.fromhex("00000007000200010005")


def answer(transaction):
    return b"\0\2" + (transaction % 65536).to_bytes(2, "big") + bytes.fromhex("00000005")


def packets(which):
    if which == "short":
        for i in range(PACKETS // 2):
            yield packet(1, 1, i, i, True, call(i) if i else VERSIONS)
            yield packet(0, 1, i, i + 1, True, answer(i) if i else VERSIONS)
    elif which == "reversed":
        for i in range(0, PACKETS, 63):
            for j in reversed(range(i, min(i + 63, PACKETS))):
                yield packet(1, 1, j, 0, True, call(j) if j else VERSIONS)
    elif which == "long":
        for i in range(PACKETS):
            place = (i - 1) % 245
            data = VERSIONS if i == 0 else (call(i) if place == 0 else b"").ljust(534, b"\1")
            yield packet(1, 1, i, 0, i == 0 or place == 244, data, False)
    elif which == "flows":
        for i in range(PACKETS):
            yield packet(1, i, 0, 0, True, VERSIONS + call(i))
    elif which in ("endless", "endless-flows"):
        one = which == "endless"
        for i in range(PACKETS):
            data = (VERSIONS if i == 0 or not one else b"").ljust(534, b"\1")
            yield packet(1, 1 if one else i, i if one else 0, 0, False, data, False).ljust(4096, "0")
    else:
        sys.exit(__doc__)


def write_capture(lines, file):
    file.write(struct.pack("<IHHiIII", 0xA1B2C3D4, 2, 4, 0, 0, 262144, 1))
    for number, line in enumerate(lines):
        frame = HOSTS[0] + HOSTS[1] + b"\6\0" + bytes.fromhex(line)
        file.write(struct.pack("<IIII", 1700000000 + number // 1000, number % 1000 * 1000, len(frame), len(frame)) + frame)


if sys.argv[2:] == ["pcap"]:
    write_capture(packets(sys.argv[1]), sys.stdout.buffer)
else:
    for line in packets(sys.argv[1] if len(sys.argv) == 2 else ""):
        print(line)
