#!/usr/bin/env python3
"""A second account of what `xns calls` prints: plain and slow, by docs/FORMATS.md and docs/COURIER.md, and independent of the proved code.

    calls_account.py FILE..     writes into FILE.text what `xns calls` prints of the lines of hex in FILE, and behind it a line `# STATUS`

It knows no programs, no times and no captures.
"""
import struct
import sys

ITEMS = 64
MOST_MESSAGE = 131072
SYSTEM, LAST = 0x80, 0x10
END, END_REPLY = 254, 255
KINDS = {0: 6, 1: 3, 2: 2, 3: 3}


class Refused(Exception):
    """Why something is refused."""


def bytes_of(line):
    digits = line.removesuffix(b"\r").translate(None, b" \t")
    if len(digits) % 2:
        raise Refused("hex refused OddLength")
    for place, digit in enumerate(digits):
        if digit not in b"0123456789abcdefABCDEF":
            raise Refused(f"hex refused Digit {place}")
    return bytes.fromhex(digits.decode())


def checksum(data):
    total = 0
    for word in struct.unpack(f">{len(data) // 2}H", data):
        total = (total + word) * 2 % 65535
    return total


def packet_of(data):
    """The ends of a packet, its type and its data."""
    if len(data) < 30:
        raise Refused(f"idp refused Short {len(data)}")
    found, length, _, kind = struct.unpack_from(">HHBB", data)
    if length < 30:
        raise Refused(f"idp refused LengthSmall {length}")
    if length > 576:
        raise Refused(f"idp refused LengthLarge {length}")
    even = length + length % 2
    if len(data) < even:
        raise Refused(f"idp refused Cut {even} {len(data)}")
    computed = checksum(data[2:even])
    if found not in (65535, computed):
        raise Refused(f"idp refused BadSum {found:04x} {computed:04x}")
    return kind, data[6:18], data[18:30], data[30:length]


def address(end):
    return f"{end[:4].hex()}.{end[4:10].hex()}.{end[10:].hex()}"


def near(next_item, field):
    """The number that a field stands for, near the next item: none where it would be below 0."""
    number = next_item - 32768 + (field - next_item + 32768) % 65536
    return number if number >= 0 else None


def words_text(words):
    return " ".join(f"{word:04x}" for word in words) or "-"


def message_of(data):
    """The kind, the transaction and the further words of a message."""
    if len(data) > MOST_MESSAGE:
        raise Refused("TooLong")
    if len(data) % 2:
        raise Refused("OddLength")
    words = struct.unpack(f">{len(data) // 2}H", data)
    if len(words) < 2:
        raise Refused("ShortMessage")
    if words[0] not in KINDS:
        raise Refused(f"UnknownKind {words[0]}")
    if len(words) < KINDS[words[0]]:
        raise Refused("ShortMessage")
    return words[0], words[1], words[2:]


class Speech:
    """What a flow says: its version range, and then its messages. Where it waits, all up to the next end of a message is lost."""

    def __init__(self, waits):
        self.waits, self.range, self.drops_mark, self.data = waits, not waits, False, b""

    def behind(self, is_last):
        """Goes on behind a gap or a fault: where that ended no message, all up to the next end of one is lost."""
        self.waits, self.range, self.drops_mark, self.data = not is_last, False, False, b""

    def hear(self, body, is_last):
        """The message that the item ends, if it ends one."""
        if self.waits:
            self.behind(is_last)
            return None
        try:
            return self.heard(body, is_last)
        except Refused:
            self.behind(is_last)
            raise

    def heard(self, body, is_last):
        self.data += body
        if self.range:
            if len(self.data) < 4:
                if is_last:
                    raise Refused("BadVersions")
                return None
            low, high = struct.unpack_from(">2H", self.data)
            if low > high:
                raise Refused("BadVersions")
            if not low <= 3 <= high:
                raise Refused("NoCommonVersion")
            self.range, self.drops_mark, self.data = False, True, self.data[4:]
        if self.data:
            self.drops_mark = False
        if is_last and self.drops_mark:
            self.drops_mark = False
            return None
        if not is_last:
            if len(self.data) > MOST_MESSAGE:
                raise Refused("TooLong")
            return None
        data, self.data = self.data, b""
        return message_of(data)


class Kept:
    """An item that waits to be read."""

    def __init__(self, line, stream, is_last, body, acknowledged):
        self.line, self.stream, self.is_last, self.body, self.acknowledged = line, stream, is_last, body, acknowledged


class Flow:
    """One direction of a connection."""

    def __init__(self, letter):
        self.letter = letter
        self.next = None
        self.kept = {}
        self.speech = None
        self.call = None
        self.noted = []
        self.given = 0
        self.is_closed = self.has_replied = False
        self.row, self.is_told = 0, False

    def has_begun(self):
        return self.next is not None

    def begin(self, field):
        is_first = field < ITEMS
        self.next = 0 if is_first else field
        self.speech = Speech(not is_first)

    def number_of(self, field):
        return near(self.next, field) if self.has_begun() else None

    def is_repeat(self, field):
        if not self.has_begun():
            return False
        number = self.number_of(field)
        return number is None or number < self.next or number in self.kept

    def is_noted(self, number):
        """Whether what a packet acknowledges is noted: it is more than the next item and than all that is noted."""
        return number is not None and number > max([self.next] + [noted for _, noted in self.noted])

    def count_packet(self):
        """What takes effect with a packet."""
        for noted in self.noted:
            noted[0] -= 1
        if self.noted and self.noted[0][0] == 0:
            number = self.noted.pop(0)[1]
            self.given = max(self.given, number)
            return number
        return None

    def frees(self, number):
        """Whether an item of the other flow, whose packet acknowledges so much, waits for nothing."""
        if not self.has_begun() or number is None:
            return True
        return number <= max(self.next, self.given) or number > self.next + ITEMS


class Connection:
    def __init__(self, account, number, source):
        self.account, self.number, self.source = account, number, source
        self.flows = Flow("a"), Flow("b")

    def say(self, flow, text):
        self.account.say(f"{self.account.line} {self.number}{flow.letter} {text}")

    def other(self, flow):
        return self.flows[1 - self.flows.index(flow)]

    def is_over(self):
        return all(flow.is_closed for flow in self.flows if flow.has_begun()) and any(flow.has_replied for flow in self.flows)

    # ---- items are read

    def pass_to(self, flow, number):
        if flow.next < number:
            self.say(flow, f"missing {flow.next} to {number - 1}")
            flow.next = number
            flow.speech.behind(False)

    def read(self, flow, number):
        item = flow.kept.pop(number)
        self.pass_to(flow, number)
        flow.next = number + 1
        if item.stream != 0:
            return
        try:
            message = flow.speech.hear(item.body, item.is_last)
        except Refused as reason:
            self.say(flow, f"refused {reason}")
            self.account.status = 1
            return
        if message:
            self.tell(flow, *message)

    def tell(self, flow, kind, transaction, words):
        if kind == 0:
            program, version, procedure = words[0] << 16 | words[1], words[2], words[3]
            flow.call = transaction, self.account.line
            self.say(flow, f"call {transaction} program {program} version {version} procedure {procedure} args {words_text(words[4:])}")
            return
        other = self.other(flow)
        of = "-"
        if other.call and other.call[0] == transaction:
            of, other.call = other.call[1], None
        if kind == 1:
            self.say(flow, f"reject {transaction} of {of} reason {words[0]} words {words_text(words[1:])}")
        elif kind == 2:
            self.say(flow, f"return {transaction} of {of} results {words_text(words)}")
        else:
            self.say(flow, f"abort {transaction} of {of} error {words[0]} args {words_text(words[1:])}")

    def bring(self, flow, number):
        """Reads what is kept below the number, and passes over the rest."""
        for kept in sorted(flow.kept):
            if kept < number:
                self.read(flow, kept)
        self.pass_to(flow, number)

    def bring_to(self, flow, number):
        """Reads what is kept below the number, and passes over the rest, as far as the flow keeps items."""
        if number is not None and flow.kept:
            self.bring(flow, min(number, max(flow.kept) + 1))

    def settle(self):
        """Reads what can be read."""
        while True:
            can = []
            for flow in self.flows:
                item = flow.kept.get(flow.next)
                if item and self.other(flow).frees(item.acknowledged):
                    can.append((item.line, flow.letter, flow))
            if not can:
                return
            flow = min(can)[2]
            self.read(flow, flow.next)

    def end(self):
        """Reads all that is kept."""
        while True:
            kept = [(item.line, flow.letter, flow, number) for flow in self.flows for number, item in flow.kept.items()]
            if not kept:
                return
            _, _, flow, number = min(kept)
            self.bring_to(self.other(flow), flow.kept[number].acknowledged)
            self.bring(flow, number + 1)

    # ---- packets

    def take(self, flow, packet):
        other = self.other(flow)
        is_repeat = packet.is_data and flow.is_repeat(packet.sequence)
        if packet.is_data:
            self.count_repeat(flow, is_repeat)
            if not is_repeat and packet.stream in (END, END_REPLY):
                flow.is_closed = True
                flow.has_replied = flow.has_replied or packet.stream == END_REPLY
        acknowledged = other.number_of(packet.acknowledge)
        is_noted = other.is_noted(acknowledged)
        of_flow, of_other = flow.count_packet(), other.count_packet()
        if is_noted:
            other.noted.append([ITEMS, acknowledged])
        self.bring_to(other, of_other)
        if packet.is_data and not is_repeat:
            self.take_item(flow, packet, acknowledged)
        self.bring_to(flow, of_flow)
        self.settle()

    def count_repeat(self, flow, is_repeat):
        flow.row = flow.row + 1 if is_repeat else 0
        if flow.row == ITEMS and not flow.is_told:
            flow.is_told = True
            self.say(flow, "repeats")

    def take_item(self, flow, packet, acknowledged):
        if not flow.has_begun():
            flow.begin(packet.sequence)
            self.say(flow, f"flow to {packet.target} from {packet.source}")
        number = flow.number_of(packet.sequence)
        self.bring(flow, number - (ITEMS - 1))
        flow.kept[number] = Kept(self.account.line, packet.stream, packet.is_last, packet.body, acknowledged)


class Packet:
    """A sequenced packet."""

    def __init__(self, target, source, data):
        control, self.stream, source_id, target_id, self.sequence, self.acknowledge, _ = struct.unpack_from(">BBHHHHH", data)
        self.is_data, self.is_last, self.body = not control & SYSTEM, bool(control & LAST), data[12:]
        self.is_known = target_id != 0
        self.target, self.source = f"{address(target)} id {target_id:04x}", f"{address(source)} id {source_id:04x}"
        self.to, self.by = target[4:] + struct.pack(">H", target_id), source[4:] + struct.pack(">H", source_id)


class Account:
    def __init__(self):
        self.line, self.status, self.text = 0, 0, []
        self.connections, self.count = {}, 0

    def say(self, text):
        self.text.append(text)

    def refuse(self, text):
        self.say(f"{self.line} {text}")
        self.status = 1

    def take(self, line):
        self.line += 1
        try:
            kind, target, source, data = packet_of(bytes_of(line))
            if kind == 5:
                if len(data) < 12:
                    raise Refused(f"inner refused Short {len(data)}")
                self.take_packet(Packet(target, source, data))
        except Refused as refused:
            self.refuse(refused)

    def take_packet(self, packet):
        if not packet.is_known:
            return
        ends = frozenset((packet.to, packet.by))
        connection = self.connections.get(ends)
        begins = packet.is_data and packet.sequence == 0 and packet.stream not in (END, END_REPLY)
        if connection and begins and connection.is_over():
            connection.end()
            connection = None
        if not connection:
            if not packet.is_data:
                return
            self.count += 1
            connection = self.connections[ends] = Connection(self, self.count, packet.by)
        connection.take(connection.flows[packet.by != connection.source], packet)

    def end(self):
        for connection in self.connections.values():
            connection.end()


def text_of(data):
    """What is printed of lines of hex, and the status behind it."""
    account = Account()
    lines = data.split(b"\n")
    if not lines[-1]:
        lines.pop()
    for line in lines:
        account.take(line)
    account.end()
    return "".join(line + "\n" for line in [*account.text, f"# {account.status}"])


def main():
    for name in sys.argv[1:]:
        with open(name, "rb") as file:
            text = text_of(file.read())
        with open(f"{name}.text", "w") as file:
            file.write(text)


if __name__ == "__main__":
    main()
