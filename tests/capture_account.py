#!/usr/bin/env python3
"""A second account of what captures hold: plain and slow, and independent of the proved code.

    capture_account.py FILE        prints the numbered packets of a capture, a line `N HEX` for each, where N is the number
                                   of the frame, from 1. A fault is named on standard error, and the status is then 3.
    capture_account.py --times FILE    prints standard input, which is what `calls` says of the capture, with the times of its frames;
    capture_account.py --times=relative FILE    the same, in seconds since the first frame

Faults: NoCapture, Cut, TooLong, Lengths, Order, Version, NoInterface, TooManyInterfaces, UnreadLink with the link type.
"""
import sys
from fractions import Fraction

MOST_FRAME = 262144
MOST_BLOCK = 16777216
MOST_INTERFACES = 65536

# The link types that are read.
LINKS = {1, 2, 113, 276}

# The types of blocks that are read: section headers, interfaces, and packets. Longer ones than MOST_BLOCK are refused.
READ = (0x0A0D0D0A, 1, 2, 3, 6)

# Blocks that are no packets, and have numbers as frames in Wireshark: a systemd journal entry, a system call, and custom blocks.
COUNTED = (9, 0x204, 0xBAD, 0x40000BAD)


class Fault(Exception):
    """Why a capture can't be read on."""


class Source:
    """The bytes of a file, taken from the front. A file may end only between two parts."""

    def __init__(self, data):
        self.data = data
        self.at = 0

    def is_empty(self):
        return self.at == len(self.data)

    def peek(self, count):
        if len(self.data) - self.at < count:
            raise Fault("Cut")
        return self.data[self.at:self.at + count]

    def take(self, count):
        taken = self.peek(count)
        self.at += count
        return taken


def resolution_of(options, number):
    """The resolution of an interface's times by its options: how many units a second has, and the digits of one."""
    at = 0
    while at + 4 <= len(options):
        code, length = number(options, at, 2), number(options, at + 2, 2)
        if code == 0:
            break
        if code == 9 and length == 1:
            power = options[at + 4] if at + 4 < len(options) else 0
            if power >= 128:
                return (2 ** (power - 128), 9) if power < 192 else None
            return (10 ** power, min(power, 9)) if power < 20 else None
        at += 4 + length + -length % 4
    return 10 ** 6, 6


def time_of(resolution, high, low):
    """The time of a count of units, or None where it is not known, and its digits."""
    if resolution is None:
        return None, 0
    units, digits = resolution
    time = Fraction((high << 32) + low, units)
    return time if time * 10 ** 9 < 2 ** 64 else None, digits


def frames_of_classic(source, order):
    """The frames of a classic capture, whose numbers have their bytes in that order."""
    header = source.take(24)

    def number(data, start, count):
        return int.from_bytes(data[start:start + count], order)

    if (number(header, 4, 2), number(header, 6, 2)) != (2, 4):
        raise Fault("Version")
    link = number(header, 20, 4) & 0xFFFF
    if link not in LINKS:
        raise Fault(f"UnreadLink {link}")
    digits = 9 if number(header, 0, 4) == 0xA1B23C4D else 6
    while not source.is_empty():
        head = source.peek(16)
        captured = number(head, 8, 4)
        if captured > MOST_FRAME:
            raise Fault("TooLong")
        time = Fraction(number(head, 4, 4), 10 ** digits) + number(head, 0, 4)
        yield link, source.take(16 + captured)[16:], (time, digits)


def frames_of_blocks(source):
    """The frames of a pcapng file."""
    order = None
    interfaces = []
    while not source.is_empty():
        head = source.peek(12)
        is_section = head[:4] == bytes.fromhex("0a0d0d0a")
        if is_section:
            mark = head[8:12].hex()
            if mark == "1a2b3c4d":
                own = "big"
            elif mark == "4d3c2b1a":
                own = "little"
            else:
                raise Fault("Order")
        else:
            own = order

        def number(data, start, count):
            return int.from_bytes(data[start:start + count], own)

        total = number(head, 4, 4)
        if total < 12 or total % 4:
            raise Fault("Lengths")
        if total > MOST_BLOCK and number(head, 0, 4) in READ:
            raise Fault("TooLong")
        block = source.take(total)
        kind = number(block, 0, 4)
        least = 28 if is_section else {1: 20, 2: 32, 3: 16, 6: 32}.get(kind, 12)
        if total < least or number(block, total - 4, 4) != total:
            raise Fault("Lengths")
        room = total - 4
        if is_section:
            if number(block, 12, 2) != 1 or number(block, 14, 2) not in (0, 2):
                raise Fault("Version")
            order, interfaces = own, []
        elif kind == 1:
            if len(interfaces) >= MOST_INTERFACES:
                raise Fault("TooManyInterfaces")
            interfaces.append((number(block, 8, 2), number(block, 12, 4), resolution_of(block[16:total - 4], number)))
        elif kind in (2, 3, 6):
            if kind == 6:
                which = number(block, 8, 4)
            elif kind == 2:
                which = number(block, 8, 2)
            else:
                which = 0
            if which >= len(interfaces):
                raise Fault("NoInterface")
            link, most, resolution = interfaces[which]
            if LINKS.isdisjoint(other[0] for other in interfaces):
                raise Fault(f"UnreadLink {link}")
            if kind == 3:
                start, captured = 12, number(block, 8, 4)
                if most and most < captured:
                    captured = most
            else:
                start, captured = 28, number(block, 20, 4)
            if captured > MOST_FRAME:
                raise Fault("TooLong")
            if start + captured > room:
                raise Fault("Lengths")
            time = None if kind == 3 else time_of(resolution, number(block, 12, 4), number(block, 16, 4))
            yield link, block[start:start + captured], time
        elif kind in COUNTED:
            yield 0, b"", None


def frames_of(data):
    """The frames of a capture: each with its link type, its bytes, and its time with the digits of that, or None."""
    source = Source(data)
    first = data[:4].hex()
    if first == "0a0d0d0a":
        yield from frames_of_blocks(source)
    elif first in ("a1b2c3d4", "a1b23c4d"):
        yield from frames_of_classic(source, "big")
    elif first in ("d4c3b2a1", "4d3cb2a1"):
        yield from frames_of_classic(source, "little")
    else:
        raise Fault("NoCapture")


TAGS = (0x8100, 0x88A8, 0x9100)


def behind_llc(data):
    """The packet behind a header of LLC, or None."""
    if data[:1] == b"\x80":
        unnumbered = len(data) > 2 and data[2] & 3 == 3
        return data[3:] if unnumbered else data[4:]
    if data[:3] == b"\xaa\xaa\x03" and data[3:6] in (b"\0\0\0", b"\0\0\xf8") and data[6:8] == b"\x06\x00":
        return data[8:]
    return None


def behind_type(number, data):
    """The packet behind a type or a length, or None."""
    while number in TAGS:
        if len(data) < 4:
            return None
        number = int.from_bytes(data[2:4], "big")
        data = data[4:]
    if number == 0x0600:
        return data
    if number <= 1500:
        return behind_llc(data[:number])
    return None


def behind_protocol(number, data):
    """The packet behind the protocol of a Linux cooked header, or None."""
    if number == 4:
        return behind_llc(data)
    return behind_type(number, data) if number > 1500 else None


def packet_of(link, frame):
    """The internet packet that a frame carries, or None."""
    def word(at):
        return int.from_bytes(frame[at:at + 2], "big")

    if link == 1 and len(frame) >= 14:
        return behind_type(word(12), frame[14:])
    if link == 2 and len(frame) >= 4:
        return frame[4:] if word(2) == 0x0600 else None
    if link == 113 and len(frame) >= 16:
        return behind_protocol(word(14), frame[16:])
    if link == 276 and len(frame) >= 20:
        return behind_protocol(word(0), frame[20:])
    return None


def packets_of(data):
    """The packets of a capture, each with the number of its frame, and the name of the fault, or None."""
    packets = []
    try:
        for number, (link, frame, _) in enumerate(frames_of(data), 1):
            packet = packet_of(link, frame)
            if packet is not None:
                packets.append((number, packet))
    except Fault as fault:
        return packets, str(fault)
    return packets, None


def seconds(time, digits):
    """Seconds with so many digits, rounded down towards 0 from billionths of a second."""
    billionths = abs(time)
    text = f"{billionths // 10 ** 9}"
    if digits:
        text += "." + f"{billionths % 10 ** 9:09}"[:digits]
    return "-" + text if time < 0 else text


def with_times(data, text, is_relative):
    """The text of `calls` with the time of the frame before each line, and behind each answer how long its call took."""
    times = []
    try:
        for _, _, time in frames_of(data):
            times.append(time)
    except Fault:
        pass
    first = next((time[0] for time in times if time), None) if is_relative else Fraction(0)
    known = [time and time[0] is not None and first is not None and (time[0] * 10 ** 9 // 1, time[1]) for time in times]
    since = None if first is None else first * 10 ** 9 // 1
    lines = []
    for line in text.splitlines():
        words = line.split(" ")
        time = known[int(words[0]) - 1]
        if len(words) > 5 and words[4] == "of":
            call = known[int(words[5]) - 1] if words[5] != "-" else None
            line += " took " + (seconds(time[0] - call[0], time[1]) if time and call else "-")
        lines.append((seconds(time[0] - since, time[1]) if time else "-") + " " + line + "\n")
    return "".join(lines)


def main(words):
    if len(words) == 2 and words[0] in ("--times", "--times=relative"):
        with open(words[1], "rb") as file:
            sys.stdout.write(with_times(file.read(), sys.stdin.read(), words[0] == "--times=relative"))
        return 0
    if len(words) != 1:
        sys.stderr.write(__doc__)
        return 2
    with open(words[0], "rb") as file:
        packets, fault = packets_of(file.read())
    for number, packet in packets:
        print(number, packet.hex())
    if fault:
        sys.stderr.write(f"fault {fault}\n")
        return 3
    return 0


if __name__ == "__main__":
    sys.exit(main(sys.argv[1:]))
