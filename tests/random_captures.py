#!/usr/bin/env python3
"""Random captures with many odd features, for a comparison of readers.

    random_captures.py SEED COUNT DIR [--fair]      writes COUNT captures: DIR/K.pcap or DIR/K.pcapng
    --fair                                          only captures without a fault, of features that every reader knows

A capture is classic pcap or pcapng, of either order of bytes. Frames are of all link types that are read and of others, behind
tags, LLC and SNAP, whole, cut and too short. Files have several sections and interfaces, each kind of block, options, unknown
blocks, wrong lengths, wrong versions, and ends anywhere.
"""
import os
import random
import struct
import sys


class Writer:
    """Numbers in one order of bytes."""

    def __init__(self, is_big):
        self.mark = ">" if is_big else "<"

    def word(self, number):
        return struct.pack(self.mark + "H", number & 0xFFFF)

    def long(self, number):
        return struct.pack(self.mark + "I", number & 0xFFFFFFFF)


class Maker:
    def __init__(self, rng, is_fair):
        self.rng = rng
        self.is_fair = is_fair

    def chance(self, share):
        return self.rng.random() < share

    def odd(self, share):
        """Whether something odd is done, which fair captures never have."""
        return not self.is_fair and self.chance(share)

    def bytes(self, count):
        return self.rng.randbytes(count)

    def internet_packet(self):
        """Bytes that are mostly an internet packet."""
        kind = self.rng.choice([1, 2, 3, 4, 5, 5, 5, 9])
        body = self.bytes(self.rng.choice([0, 1, 2, 12, 14, 33, 100, 546]))
        if kind == 5:
            body = bytes([self.rng.choice([0x40, 0x50, 0x80, 0xC0, 0x00]), 0]) + struct.pack(
                ">HHHHH", self.rng.randrange(3), self.rng.randrange(3), self.rng.randrange(6), self.rng.randrange(6),
                self.rng.randrange(9)) + body[:534]
        length = 30 + len(body)
        packet = bytes.fromhex("ffff") + struct.pack(">HBB", length, 0, kind)
        for _ in range(2):
            packet += struct.pack(">I6sH", 1, bytes([0, 0, 0xAA, 0, 0, self.rng.randrange(3)]), self.rng.randrange(1, 4))
        packet += body
        if length % 2:
            packet += b"\0"
        if self.chance(0.2):
            packet += bytes(self.rng.randrange(20))
        if self.chance(0.1):
            packet = packet[:self.rng.randrange(len(packet) + 1)]
        if self.chance(0.05):
            packet = self.bytes(self.rng.randrange(40))
        return packet

    def behind_llc(self, packet):
        choice = self.rng.random()
        if choice < 0.4:
            return bytes.fromhex("808003") + packet
        if choice < 0.8:
            return bytes.fromhex("aaaa03") + self.rng.choice([b"\0\0\0", b"\0\0\0", b"\0\0\xf8"]) + bytes.fromhex("0600") + packet
        if self.is_fair:
            return bytes.fromhex("e0e003") + packet
        heads = ["80", "8080", "80800000", "80800100", "8080e3", "8080af", "818003", "aaaa13", "aaaa030000000800", "aaaa030000aa0600",
                 "abaa030000000600", "aaab030000000600", "aaaa03000000", "aaaa0300000006", "aaaa0300000081000005", "", "e0e003", "80800b"]
        head = bytes.fromhex(self.rng.choice(heads))
        return head + packet if self.chance(0.8) else head

    def behind_type(self, packet):
        """A type or a length, with what stands behind it; tags before it."""
        tags = b""
        while self.chance(0.3):
            tags += self.rng.choice([b"\x81\0", b"\x88\xa8", b"\x91\0"]) + struct.pack(">H", self.rng.randrange(4096))
            if self.is_fair and tags[-4:-2] == b"\x88\xa8":  # tshark reads no LLC right behind such a tag
                tags += b"\x81\0" + struct.pack(">H", self.rng.randrange(4096))
            if self.odd(0.05):
                return tags[:self.rng.randrange(2, len(tags) + 1)]
        choice = self.rng.random()
        if choice < 0.5:
            return tags + b"\x06\0" + packet
        if choice < 0.85:
            rest = self.behind_llc(packet)
            length = len(rest)
            if length > 1500:
                return tags + b"\x06\0" + packet
            if self.odd(0.15):
                length = self.rng.choice([0, 1, 2, 3, 4, 8, max(0, length - 5), 1499, 1500, 1501, 1535, length + 1])
            return tags + struct.pack(">H", length) + rest + bytes(self.rng.choice([0, 0, 4, 46]))
        kind = self.rng.choice([0x0800, 0x0806, 0x86DD, 0x0601, 0x05FF, 0x0807] if self.is_fair else
                               [0x0800, 0x0806, 0x86DD, 0x0601, 0x05FF, 0x0807, 0x0006, 0x9200, 0x88A9, 0xFFFF])
        return tags + struct.pack(">H", kind) + packet

    def frame(self, link):
        packet = self.internet_packet()
        hosts = self.bytes(12)
        if link == 1:
            data = hosts + self.behind_type(packet)
        elif link == 2:
            data = self.bytes(2) + self.rng.choice([b"\x06\0", b"\x06\0", b"\x02\0", b"\x08\0"]) + packet
        elif link in (113, 276):
            choice = self.rng.random()
            if choice < 0.3:
                rest = b"\x06\0" + packet
            elif choice < 0.6:
                rest = b"\0\x04" + self.behind_llc(packet)
            elif choice < 0.8 or self.is_fair:
                rest = self.behind_type(packet)
                if len(rest) < 2 or int.from_bytes(rest[:2], "big") <= 1500:
                    rest = b"\x06\0" + packet
            else:
                rest = self.rng.choice([b"\0\0", b"\0\1", b"\0\x21", b"\x05\xdc", b"\x05\xdd"]) + self.behind_llc(packet)
            if link == 113:
                data = struct.pack(">HHH8s", self.rng.randrange(5), 1, 6, self.bytes(6) + b"\0\0") + rest
            else:
                data = rest[:2] + struct.pack(">HIHBB8s", 0, 1, 1, self.rng.randrange(5), 6, self.bytes(6) + b"\0\0") + rest[2:]
        else:
            data = self.behind_type(packet)
        if self.odd(0.1):
            data = data[:self.rng.randrange(len(data) + 1)]
        return data

    def link(self):
        if self.odd(0.1):
            return self.rng.choice([0, 12, 101, 147])
        return self.rng.choice([1, 1, 1, 1, 2, 113, 276] if not self.is_fair else [1, 1, 1, 113, 276])

    def captured(self, frame):
        """The bytes that were captured, and the original length."""
        if self.chance(0.1):
            return frame[:self.rng.randrange(len(frame) + 1)], len(frame)
        return frame, len(frame)

    def classic(self):
        write = Writer(self.chance(0.5))
        magic = self.rng.choice([0xA1B2C3D4, 0xA1B23C4D])
        if self.odd(0.02):
            magic = self.rng.choice([0xA1B2CD34, 0x0A0D0D0A, 0])
        version = (2, 4)
        if self.odd(0.03):
            version = self.rng.choice([(2, 3), (1, 4), (2, 5), (4, 2), (0, 0)])
        link = self.link()
        above = 0
        if self.odd(0.2):
            above = self.rng.choice([0x50000000, 0x04000000, 0x24000000, 0x00010000])
        data = write.long(magic) + write.word(version[0]) + write.word(version[1]) + write.long(0) + write.long(0)
        data += write.long(self.rng.choice([65535, 262144, 0, 68])) + write.long(link | above)
        for _ in range(self.rng.choice([0, 1, 2, 3, 5, 8])):
            frame, original = self.captured(self.frame(link))
            captured = len(frame)
            if self.odd(0.01):
                captured = self.rng.choice([262145, 0xFFFFFFFF, captured + 1, 1 << 20])
            elif self.odd(0.003):
                frame = frame + bytes(262144 - len(frame))
                captured = len(frame)
            data += write.long(self.rng.randrange(1 << 31)) + write.long(self.rng.randrange(1000000))
            data += write.long(captured) + write.long(original) + frame
        return data

    def options(self, write):
        if not self.chance(0.4):
            return b""
        data = b""
        for _ in range(self.rng.randrange(3)):
            value = self.bytes(self.rng.randrange(9)) if not self.is_fair else b"a note"[:self.rng.randrange(1, 7)]
            data += write.word(1) + write.word(len(value)) + value + bytes(-len(value) % 4)
        return data + write.word(0) + write.word(0) if self.chance(0.8) and data else data

    def block(self, write, kind, body, least=12):
        body += bytes(-len(body) % 4)
        total = 12 + len(body)
        first = last = total
        if self.odd(0.01):
            first = self.rng.choice([0, 4, 8, 11, 12, total - 4, total + 4, total + 1, 16777216, 16777220, 0xFFFFFFFF, 0xFFFFFFFC])
            if self.chance(0.5):
                last = first
        elif self.odd(0.01):
            last = self.rng.choice([0, total - 4, total + 4, total ^ 1, total << 8])
        return write.long(kind) + write.long(first) + body + write.long(last)

    def section(self, write):
        mark = 0x1A2B3C4D
        if self.odd(0.01):
            mark = self.rng.choice([0x1A2B3C4E, 0, 0x4D3C2B1B])
        version = self.rng.choice([(1, 0)] * 9 + [(1, 2)])
        if self.odd(0.02):
            version = self.rng.choice([(1, 1), (2, 0), (0, 0), (1, 3)])
        body = write.long(mark) + write.word(version[0]) + write.word(version[1])
        body += write.long(0xFFFFFFFF) * 2 + self.options(write)
        if self.odd(0.005):
            body = body[:self.rng.choice([4, 8, 12])]
        return self.block(write, 0x0A0D0D0A, body)

    def resolution(self, write):
        """An option with the resolution of times, among others."""
        power = self.rng.choice([0, 3, 6, 9, 9, 12, 128, 138, 148]) if not self.odd(0.3) else self.rng.randrange(256)
        value = bytes([power]) + self.bytes(self.rng.randrange(3) if self.odd(0.1) else 0)
        option = write.word(9) + write.word(len(value)) + value + bytes(-len(value) % 4)
        return option if not self.odd(0.05) else option[:self.rng.randrange(8)]

    def interface(self, write, link, most):
        options = (self.resolution(write) if self.chance(0.4) else b"") + self.options(write)
        if self.chance(0.2):
            options = self.options(write) + (self.resolution(write) if self.chance(0.4) else b"")
        body = write.word(link) + write.word(0) + write.long(most) + options
        if self.odd(0.005):
            body = body[:4]
        return self.block(write, 1, body)

    def enhanced(self, write, which, link):
        frame, original = self.captured(self.frame(link))
        captured = len(frame)
        if self.odd(0.01):
            captured = self.rng.choice([262145, 0xFFFFFFFF, captured + 4, captured + 100, 262144])
        if self.odd(0.005):
            frame += bytes(262144 - len(frame))
            captured = len(frame)
        if self.odd(0.02):
            which = self.rng.choice([which + 1, which + 7, 0xFFFFFFFF, 1 << 16])
        if self.odd(0.005):
            return self.block(write, 6, self.bytes(self.rng.choice([0, 4, 16])))
        high = self.rng.choice([0, 1, 0x50000, self.rng.randrange(1 << 32)])
        body = write.long(which) + write.long(high) + write.long(self.rng.randrange(1 << 31)) + write.long(captured) + write.long(original)
        return self.block(write, 6, body + frame + bytes(-len(frame) % 4) + self.options(write))

    def old(self, write, which, link):
        frame, original = self.captured(self.frame(link))
        if self.odd(0.02):
            which = self.rng.choice([which + 1, 0xFFFF])
        body = write.word(which) + write.word(self.rng.choice([0, 0xFFFF])) + write.long(0) + write.long(7) + write.long(len(frame))
        return self.block(write, 2, body + write.long(original) + frame + bytes(-len(frame) % 4) + self.options(write))

    def simple(self, write, link, most):
        frame = self.frame(link)
        original = len(frame)
        if most and most < len(frame):
            frame = frame[:most]
        if self.odd(0.03):
            original = self.rng.choice([original + 4, original + 1, 0, 0xFFFFFFFF, max(0, original - 2)])
        return self.block(write, 3, write.long(original) + frame)

    def other(self, write):
        kinds = [4, 5, 10, 0x80000001] if self.is_fair else [4, 5, 10, 0, 7, 8, 9, 0xBAD, 0x40000BAD, 0x204, 0x0D0D0A0A, 0x80000001]
        kind = self.rng.choice(kinds)
        if self.is_fair:
            if kind == 4:
                body = write.word(0) + write.word(0)
            elif kind == 5:
                body = write.long(0) * 3
            elif kind == 10:
                body = write.long(0x544C534B) + write.long(4) + b"key\n"
            else:
                body = self.bytes(8)
        else:
            body = self.bytes(self.rng.choice([0, 1, 4, 7, 8, 20, 200]))
        return self.block(write, kind, body)

    def blocks(self):
        data = b""
        for _ in range(self.rng.choice([1, 1, 1, 2, 3])):
            write = Writer(self.chance(0.5))
            data += self.section(write)
            interfaces = []
            if self.odd(0.0005):
                count = self.rng.choice([65535, 65536, 65537])
                data += self.block(write, 1, write.word(1) + write.word(0) + write.long(0)) * count
                interfaces = [(1, 0)] * count
            for _ in range(self.rng.choice([0, 1, 2, 4, 8])):
                kind = self.rng.random()
                if kind < 0.2 or not interfaces:
                    if self.odd(0.1) and not interfaces:
                        data += self.rng.choice([self.simple(write, 1, 0), self.enhanced(write, 0, 1), self.other(write)])
                    link, most = self.link(), self.rng.choice([0, 0, 65535, 262144, 60, 20])
                    interfaces.append((link, most))
                    data += self.interface(write, link, most)
                which = self.rng.randrange(len(interfaces))
                link, most = interfaces[which]
                kind = self.rng.random()
                if kind < 0.5:
                    data += self.enhanced(write, which, link)
                elif kind < 0.65:
                    data += self.old(write, which, link)
                elif kind < 0.8:
                    data += self.simple(write, interfaces[0][0], interfaces[0][1])
                else:
                    data += self.other(write)
        return data

    def capture(self):
        data = self.classic() if self.chance(0.4) else self.blocks()
        if self.odd(0.1):
            data = data[:self.rng.randrange(len(data) + 1)]
        if self.odd(0.02):
            place = self.rng.randrange(len(data) + 1)
            data = data[:place] + self.bytes(1) + data[place + 1:]
        if self.odd(0.01):
            data += self.bytes(self.rng.randrange(20))
        return data


def captures_of(seed, count, is_fair=False):
    """As many random captures as asked, the same for the same seed."""
    maker = Maker(random.Random(seed), is_fair)
    return [maker.capture() for _ in range(count)]


def main(words):
    is_fair = "--fair" in words
    words = [word for word in words if word != "--fair"]
    if len(words) != 3:
        sys.stderr.write(__doc__)
        return 2
    os.makedirs(words[2], exist_ok=True)
    for place, data in enumerate(captures_of(int(words[0]), int(words[1]), is_fair), 1):
        end = "pcapng" if data[:4] == bytes.fromhex("0a0d0d0a") else "pcap"
        with open(os.path.join(words[2], f"{place}.{end}"), "wb") as file:
            file.write(data)
    return 0


if __name__ == "__main__":
    sys.exit(main(sys.argv[1:]))
