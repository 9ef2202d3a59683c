#!/usr/bin/env python3
"""Random captures of calls in hex, for a comparison of readers.

    random_calls.py SEED COUNT DIR      writes COUNT captures: DIR/K.hex
    random_calls.py SEED COUNT DIR whole    writes as many of two other kinds: DIR/sent_K.hex and overtaken_K.hex, and again_N_K.hex

A capture has the packets of some connections, whose ends call, answer and close, in the order in which they were captured. They overtake one
another, are lost, repeated and damaged. Acknowledgements are false, identifiers are used again with a closing before and without, one side
alone is captured, and lines are no packets.

Of the other kinds nothing is lost, repeated, damaged or false. `sent_K.hex` has the packets of some connections in the order in which they were
sent. In `overtaken_K.hex` they overtake one another by up to 60 places, but none overtakes the first item of an end of its connection.
`again_N_K.hex` has N conversations of the same two ends, with one call and a closing each; packets of the same one overtake one another.
"""
import os
import random
import struct
import sys

from calls_account import END, END_REPLY, LAST, SYSTEM, checksum

ASKS = 0x40


class End:
    """One end of a conversation."""

    def __init__(self, place, identifier, first):
        self.place, self.identifier, self.sequence = place, identifier, first


class Conversation:
    """The packets of a conversation in the order in which they are sent. Of a true one each acknowledges all that was sent before it."""

    def __init__(self, rng, ends, is_true=False):
        self.rng, self.ends, self.is_true, self.packets = rng, ends, is_true, []

    def packet(self, side, control, stream, sequence, data):
        own, other = self.ends[side], self.ends[1 - side]
        lag = 0 if self.is_true or self.rng.random() < 0.7 else self.rng.randrange(4)
        acknowledge = max(other.sequence - lag, 0)
        if not self.is_true and self.rng.random() < 0.003:
            acknowledge = self.rng.choice([acknowledge + self.rng.randrange(300), self.rng.randrange(65536)])
        fields = struct.pack(">BBHHHHH", control, stream, own.identifier, other.identifier, sequence % 65536, acknowledge % 65536, (acknowledge + 8) % 65536)
        length = 42 + len(data)
        rest = struct.pack(">HBB", length, self.rng.randrange(3), 5) + other.place + own.place + fields + data + b"\0" * (length % 2)
        total = checksum(rest) if self.rng.random() < 0.3 else 65535
        return struct.pack(">H", total) + rest

    def send(self, side, stream, is_last, data):
        own = self.ends[side]
        self.packets.append(self.packet(side, LAST if is_last else 0, stream, own.sequence, data))
        own.sequence += 1

    def tell(self, side):
        self.packets.append(self.packet(side, SYSTEM | self.rng.choice([0, ASKS]), 0, self.ends[side].sequence, b""))

    def open(self, side):
        own, other = self.ends[side], self.ends[1 - side]
        fields = struct.pack(">BBHHHHH", SYSTEM | ASKS, 0, own.identifier, 0, 0, 0, 7)
        self.packets.append(struct.pack(">HHBB", 65535, 42, 0, 5) + other.place + own.place + fields)

    def say(self, side, data):
        """A message in items of random lengths."""
        data = data or b""
        most = self.rng.choice([7, 64, 534, 534, 534])
        while True:
            item, data = data[:most], data[most:]
            is_last = not data
            if self.rng.random() < 0.05:
                self.send(side, self.rng.choice([1, 7, 200]), self.rng.random() < 0.5, b"\1\2\3")
            self.send(side, 0, is_last and self.rng.random() < 0.98, item)
            if self.rng.random() < 0.2:
                self.tell(1 - side)
            if is_last:
                return

    def words(self, *words):
        more = [self.rng.randrange(65536) for _ in range(self.rng.choice([0, 0, 1, 2, 5, 40]))]
        return struct.pack(f">{len(words) + len(more)}H", *(word % 65536 for word in words), *more)

    def say_range(self, side):
        choice = self.rng.random()
        data = b"\0\3\0\3" if choice < 0.9 else self.rng.choice([b"\0\2\0\3", b"\0\1\0\2", b"\0\4\0\3", b"\0\3", b""])
        if self.rng.random() < 0.5:
            self.say(side, data)
            return b""
        return data

    def message(self, side, transaction):
        if self.rng.random() < 0.03:
            return self.rng.choice([b"", b"\0", self.words(0, 1), self.words(9, 1), struct.pack(">3H", 0, 1, 2), struct.pack(">H", 2)])
        if side == 1:
            return self.words(0, transaction, 0, 7, 2, 1)
        kind = self.rng.choice([2, 2, 2, 2, 1, 3])
        return struct.pack(">2H", kind, transaction % 65536) if kind == 2 and self.rng.random() < 0.1 else self.words(kind, transaction, self.rng.randrange(4))

    def play(self, calls, is_opened, is_closed):
        if is_opened:
            self.open(1)
            self.tell(0)
        fronts = [self.say_range(0), self.say_range(1)] if is_opened else [b"", b""]
        for transaction in range(1, calls + 1):
            self.say(1, fronts[1] + self.message(1, transaction))
            if self.rng.random() < 0.95:
                self.say(0, fronts[0] + self.message(0, transaction))
                fronts[0] = b""
            fronts[1] = b""
            if self.rng.random() < 0.03:
                self.open(1)
        if is_closed:
            self.close()
        return self.packets

    def close(self):
        self.send(1, END, True, b"")
        self.send(0, END_REPLY, True, b"")
        self.send(1, END_REPLY, True, b"")
        if self.rng.random() < 0.3:
            self.tell(0)

    def play_once(self):
        """A whole call with its answer, and a closing."""
        self.open(1)
        self.tell(0)
        for side in self.rng.choice([(0, 1), (1, 0)]):
            self.send(side, 0, True, b"\0\3\0\3")
        for side, words in (1, self.words(0, 1, 0, 7, 2, 1)), (0, self.words(self.rng.choice([1, 2, 3]), 1, 4)):
            most = self.rng.choice([7, 64, 534])
            for at in range(0, len(words), most):
                self.send(side, 0, at + most >= len(words), words[at:at + most])
                if self.rng.random() < 0.2:
                    self.tell(1 - side)
        self.close()
        return self.packets


def reach(order):
    """How many places a packet stands before one that it overtakes, at most."""
    places = {at: place for place, at in enumerate(order)}
    first, most = len(order), 0
    for at in reversed(range(len(order))):
        most = max(most, places[at] - first)
        first = min(first, places[at])
    return most


def overtaken(rng, packets, most):
    """The packets in another order: one that overtakes another stands before it by at most so many places. No packet is overtaken before each
    end of its connection has sent an item."""
    share = rng.choice([0.02, 0.2, 0.7])
    begun, later = {}, []
    for packet in packets:
        own = begun.setdefault(frozenset((packet[6:18] + packet[34:36], packet[18:30] + packet[32:34])), set())
        is_front = len(own) < 2
        if not packet[30] & SYSTEM:
            own.add(packet[18:30])
        later.append(rng.random() * most if not is_front and rng.random() < share else 0)
    while True:
        order = sorted(range(len(packets)), key=lambda at: (at + later[at], at))
        if reach(order) <= most:
            return [packets[at] for at in order]
        later = [0.9 * places for places in later]


class Maker:
    def __init__(self, rng):
        self.rng = rng

    def place(self, number):
        return bytes.fromhex("00000001") + bytes([0, 0, 0xAA, 0, 0, number]) + struct.pack(">H", 5)

    def conversations(self, number):
        """The conversations of two ends that come one after the other, with the same identifiers."""
        server, caller = self.place(1), self.place(number + 2)
        packets = []
        for _ in range(self.rng.choice([1, 1, 2, 3])):
            is_whole = self.rng.random() < 0.8
            first = 0 if is_whole else self.rng.choice([1, 40, 63, 64, 300, 65500, 65535])
            ends = End(server, 0x5678, first), End(caller, 0x1234, first)
            calls = self.rng.choice([1, 2, 4, 10, 20])
            conversation = Conversation(self.rng, ends)
            packets += conversation.play(calls, is_whole, self.rng.random() < 0.7)
        if self.rng.random() < 0.15:
            side = self.rng.randrange(2)
            packets = [packet for packet in packets if packet[32:34] == struct.pack(">H", [0x5678, 0x1234][side])]
        return packets

    def merged(self, lists):
        """The lists, each in its order."""
        lists = [one for one in lists if one]
        while lists:
            one = self.rng.choice(lists)
            for _ in range(self.rng.choice([1, 1, 5, 20])):
                if one:
                    yield one.pop(0)
            lists = [one for one in lists if one]

    def captured(self, packets):
        """As they are captured: each at its place, or somewhat later, or twice, or not at all."""
        loss, copies, odd = (self.rng.choice([0, 0, 0.002, 0.02, 0.2]) for _ in range(3))
        overtakes, reach = self.rng.choice([0, 0, 0.02, 0.2, 0.7]), self.rng.choice([2, 8, 40, 70, 150])
        placed = []
        for at, packet in enumerate(packets):
            if self.rng.random() >= loss:
                later = self.rng.random() * reach if self.rng.random() < overtakes else 0
                placed.append((at + later, len(placed), self.damaged(packet, odd)))
            if self.rng.random() < copies:
                placed.append((at + self.rng.random() * self.rng.choice([2, 70, 300]), len(placed), packet))
            if self.rng.random() < 0.001:
                placed += [(at + 0.1, len(placed) + count, packet) for count in range(self.rng.choice([10, 63, 64, 65, 140]))]
        return [packet for _, _, packet in sorted(placed)]

    def damaged(self, packet, odd):
        if self.rng.random() >= odd:
            return packet
        at = self.rng.choice([0, 2, 30, 31, 32, 36, 36, 37, 38, 38, 39, self.rng.randrange(len(packet))])
        packet = bytearray(packet)
        packet[at] = self.rng.randrange(256)
        if self.rng.random() < 0.9:
            packet[0:2] = b"\xff\xff"
        return bytes(packet[:self.rng.randrange(len(packet))] if self.rng.random() < 0.05 else packet)

    def line(self, packet):
        choice = self.rng.random()
        if choice < 0.995:
            return packet.hex()
        return self.rng.choice(["", "0", "5g", packet.hex()[:-1], packet.hex().upper() + "\r", " ".join(packet.hex()), packet.hex() + "0000"])

    def sent(self):
        """Whole conversations, each of ends of its own."""
        lists = []
        for number in range(self.rng.choice([1, 1, 2, 4])):
            ends = End(self.place(1), 0x5678, 0), End(self.place(number + 2), 0x1234, 0)
            lists.append(Conversation(self.rng, ends, True).play(self.rng.choice([2, 10, 40]), True, self.rng.random() < 0.7))
        return list(self.merged(lists))

    def again(self, count):
        """Closed conversations of the same ends, one after the other."""
        packets = []
        for _ in range(count):
            ends = End(self.place(1), 0x5678, 0), End(self.place(2), 0x1234, 0)
            packets += overtaken(self.rng, Conversation(self.rng, ends, True).play_once(), self.rng.choice([0, 4, 60]))
        return packets

    def capture(self):
        packets = list(self.merged([self.conversations(number) for number in range(self.rng.choice([1, 1, 1, 2, 4]))]))
        return [self.line(packet) for packet in self.captured(packets)]


def write(folder, name, lines):
    with open(os.path.join(folder, f"{name}.hex"), "w") as file:
        file.write("".join(line + "\n" for line in lines))


def main():
    seed, count, folder = int(sys.argv[1]), int(sys.argv[2]), sys.argv[3]
    rng = random.Random(seed)
    for number in range(count):
        maker = Maker(rng)
        if sys.argv[4:] != ["whole"]:
            write(folder, number, maker.capture())
            continue
        sent = maker.sent()
        write(folder, f"sent_{number}", [packet.hex() for packet in sent])
        write(folder, f"overtaken_{number}", [packet.hex() for packet in overtaken(rng, sent, rng.choice([2, 8, 40, 60]))])
        conversations = rng.choice([1, 2, 20, 200])
        write(folder, f"again_{conversations}_{number}", [packet.hex() for packet in maker.again(conversations)])


if __name__ == "__main__":
    main()
