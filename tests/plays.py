"""A second account of what the program `test_plays` plays, written from the documents and not from its code.

It reads the program's input and prints what the program must print:

    python3 tests/plays.py < crates/test_plays/stdin | cmp - crates/test_plays/stdout

docs/FORMATS.md has the layouts, docs/ENDPOINT.md an end, docs/COURIER.md the sessions and docs/WORLD.md the network.
"""
import struct
import sys

A = (1, bytes.fromhex("0000aa000304"), 0x400)
B = (1, bytes.fromhex("0000aa000102"), 5)
A_ID, B_ID = 0x1234, 0x5678
MOST_ITEMS = 2 ** 48
LIFETIME = 30000
MOST_MESSAGE = 131072


# ---- internet packets

def cycle_sum(data):
    total = 0
    for word in struct.unpack(">%dH" % (len(data) // 2), data):
        total = (total + word) * 2
    return total % 65535


def encode(target, source, body, summed):
    front = struct.pack(">HBB", 30 + len(body), 0, 5)
    for network, host, socket in (target, source):
        front += struct.pack(">I6sH", network, host, socket)
    rest = front + body + b"\0" * (len(body) % 2)
    return struct.pack(">H", cycle_sum(rest) if summed else 65535) + rest


def decode(data):
    """The packet at the front of the bytes, or None."""
    if len(data) < 30:
        return None
    field, length, control, kind = struct.unpack(">HHBB", data[:6])
    even = length + length % 2
    if length < 30 or length > 576 or len(data) < even:
        return None
    if field != 65535 and field != cycle_sum(data[2:even]):
        return None
    target = struct.unpack(">I6sH", data[6:18])
    source = struct.unpack(">I6sH", data[18:30])
    return field != 65535, control, kind, target, source, data[30:length], even


# ---- an end of a connection

def nearest(reference, field):
    """The number near the reference that has the field as its remainder, or None below 0."""
    number = (reference - 32768) + (field - (reference - 32768)) % 65536
    return number if number >= 0 else None


def place(address):
    return address[1:]


class End:
    def __init__(self, responds, own, own_id, peer, peer_id, window, backlog):
        self.responds, self.own, self.own_id = responds, own, own_id
        self.peer, self.peer_id = peer, peer_id
        self.window, self.backlog = window, backlog
        self.accepted, self.taken, self.early = [], [], {}
        self.acknowledged = self.sent = self.allowed = self.handed = 0

    def is_open(self):
        return self.peer_id != 0

    def top(self):
        return min(self.handed + self.window - 1, MOST_ITEMS - 1)

    def packet(self, control, stream, sequence, body):
        header = struct.pack(">BBHHHHH", control, stream, self.own_id, self.peer_id, sequence % 65536,
                             len(self.taken) % 65536, self.top() % 65536)
        return encode(self.peer, self.own, header + body, True)

    def system(self, control):
        return self.packet(control, 0, self.sent, b"")

    def data(self, number):
        stream, attention, last, body = self.accepted[number]
        return self.packet(64 + 32 * attention + 16 * last, stream, number, body)

    def is_full(self):
        return len(self.accepted) == MOST_ITEMS or len(self.accepted) - self.acknowledged == self.backlog

    def send(self, item):
        _, attention, _, body = item
        if len(body) > 534 or (attention and len(body) != 1) or self.is_full():
            return False
        self.accepted.append(item)
        return True

    def take(self):
        if self.handed == len(self.taken):
            return None
        self.handed += 1
        return self.taken[self.handed - 1]

    def reach(self):
        return min(len(self.accepted), self.allowed)

    def flush(self):
        if not self.is_open():
            return []
        packets = [self.data(number) for number in range(self.sent, self.reach())]
        self.sent = max(self.sent, self.reach())
        return packets

    def tick(self):
        if not self.is_open():
            return [self.system(192)]
        if self.acknowledged < self.reach():
            packets = [self.data(number) for number in range(self.acknowledged, self.reach())]
            self.sent = max(self.sent, self.reach())
            return packets
        if self.acknowledged < len(self.accepted):
            return [self.system(192)]
        return []

    def is_ours(self, target, source, source_id, target_id):
        if place(target) != place(self.own):
            return False
        if self.responds:
            return target_id in (0, self.own_id) and place(source) == place(self.peer) and source_id == self.peer_id
        if self.is_open():
            return target_id == self.own_id and place(source) == place(self.peer) and source_id == self.peer_id
        return target_id == self.own_id and source[1] == self.peer[1] and source_id != 0

    def read(self, data):
        """The header's fields and the data, with the source address; or why the packet is dropped."""
        packet = decode(data)
        if packet is None:
            return "NotIdp"
        _, _, kind, target, source, body, _ = packet
        if kind != 5 or len(body) < 12:
            return "NotSpp"
        control, stream, source_id, target_id, sequence, acknowledge, allocation = struct.unpack(">BBHHHHH", body[:12])
        if not self.is_ours(target, source, source_id, target_id):
            return "NotOurs"
        acknowledge = nearest(self.sent, acknowledge)
        if acknowledge is not None and acknowledge > self.sent:
            return "AheadOfUs"
        return control, stream, source, source_id, target_id, sequence, acknowledge, allocation, body[12:]

    def receive(self, data):
        """How many items were taken, the reply or None, and why the packet was dropped or '-'."""
        packet = self.read(data)
        if isinstance(packet, str):
            return 0, None, packet
        control, stream, source, source_id, target_id, sequence, acknowledge, allocation, body = packet
        allocation = nearest(self.sent, allocation)
        if not self.is_open():
            self.peer, self.peer_id = source, source_id
        if acknowledge is not None:
            self.acknowledged = max(self.acknowledged, acknowledge)
        if allocation is not None:
            self.allowed = max(self.allowed, allocation + 1)
        took, dropped = 0, "-"
        if not control & 128 and target_id != 0:
            item = (stream, bool(control & 32), bool(control & 16), body)
            took, dropped = self.bring(nearest(len(self.taken), sequence), item)
        reply = self.system(128) if control & 64 or target_id == 0 else None
        return took, reply, dropped

    def bring(self, number, item):
        if number is None or number < len(self.taken):
            return 0, "Repeat"
        if number > self.top():
            return 0, "NoRoom" if number == len(self.taken) else "OutOfOrder"
        if number > len(self.taken):
            if number in self.early:
                return 0, "Repeat"
            self.early[number] = item
            return 0, "-"
        before = len(self.taken)
        self.taken.append(item)
        while len(self.taken) in self.early:
            self.taken.append(self.early.pop(len(self.taken)))
        return len(self.taken) - before, "-"


# ---- sessions

def words_of(data):
    return list(struct.unpack(">%dH" % (len(data) // 2), data))


def bytes_of(words):
    return struct.pack(">%dH" % len(words), *words)


def cut(words):
    """A message's items."""
    data = bytes_of(words)
    items = []
    while len(data) > 534:
        items.append((0, False, False, data[:534]))
        data = data[534:]
    return items + [(0, False, True, data)]


class Fault(Exception):
    pass


class Hearing:
    """What a session has read: the versions, and then messages that marks end."""

    def __init__(self):
        self.versions, self.data, self.mark_may_follow, self.fault = b"", b"", False, None

    def hear(self, item):
        """The message that the item ends, as words, or None."""
        stream, _, last, body = item
        if stream != 0:
            raise Fault("Stream %d" % stream)
        if len(self.versions) < 4:
            need = 4 - len(self.versions)
            self.versions += body[:need]
            body = body[need:]
            if len(self.versions) == 4:
                self.check_versions()
                self.mark_may_follow = True
            elif last:
                raise Fault("BadVersions")
        if body:
            self.mark_may_follow = False
        self.data += body
        if len(self.data) > MOST_MESSAGE:
            raise Fault("TooLong")
        if not last or len(self.versions) < 4:
            return None
        if self.mark_may_follow:
            self.mark_may_follow = False
            return None
        data, self.data = self.data, b""
        return self.message(data)

    def check_versions(self):
        lowest, highest = words_of(self.versions)
        if lowest > highest:
            raise Fault("BadVersions")
        if not lowest <= 3 <= highest:
            raise Fault("NoCommonVersion")

    @staticmethod
    def message(data):
        if len(data) % 2:
            raise Fault("OddLength")
        words = words_of(data)
        if len(words) < 2:
            raise Fault("ShortMessage")
        if words[0] > 3:
            raise Fault("UnknownKind %d" % words[0])
        if len(words) < (6, 3, 2, 3)[words[0]]:
            raise Fault("ShortMessage")
        return words


class Session:
    def __init__(self):
        self.hearing, self.out, self.fault = Hearing(), [(0, False, True, bytes_of([3, 3]))], None

    def feed(self, item):
        if self.fault:
            return
        try:
            message = self.hearing.hear(item)
            if message is not None:
                self.take_in(message)
        except Fault as fault:
            self.fault = str(fault)


class Server(Session):
    """A server of the tally: program 7, versions 1 to 2, procedures Add and Total, error Limit."""

    def __init__(self):
        super().__init__()
        self.total, self.carried = 0, []

    def take_in(self, message):
        if message[0] != 0:
            raise Fault("BadReply")
        transaction, program = message[1], message[2] * 65536 + message[3]
        version, procedure, arguments = message[4], message[5], message[6:]
        self.carried.append((program, version, procedure, arguments))
        self.out += cut(self.answer(transaction, program, version, procedure, arguments))

    def answer(self, transaction, program, version, procedure, arguments):
        if program != 7:
            return [1, transaction, 0]
        if not 1 <= version <= 2:
            return [1, transaction, 1, 1, 2]
        if procedure not in (1, 2):
            return [1, transaction, 2]
        if len(arguments) != (1 if procedure == 1 else 0):
            return [1, transaction, 3]
        total = self.total + sum(arguments)
        if total > 1000000:
            return [3, transaction, 1] + words_of(struct.pack(">I", self.total))
        self.total = total
        return [2, transaction] + words_of(struct.pack(">I", total))


class Caller(Session):
    def __init__(self):
        super().__init__()
        self.made, self.waits, self.outcome = 0, False, None

    def call(self, call):
        program, version, procedure, arguments = call
        self.made += 1
        self.waits = True
        self.out += cut([0, self.made % 65536, program >> 16, program % 65536, version, procedure] + arguments)

    def take_in(self, message):
        if message[0] == 0:
            raise Fault("BadReply")
        if not self.waits or message[1] != self.made % 65536:
            raise Fault("WrongTransaction")
        self.waits = False
        if message[0] == 1:
            self.outcome = "rejected %d %s" % (message[2], words_text(message[3:]))
        elif message[0] == 2:
            self.outcome = "returned %d" % struct.unpack(">I", bytes_of(message[2:]))
        else:
            self.outcome = "aborted %d %d" % (message[2], struct.unpack(">I", bytes_of(message[3:]))[0])


# ---- plays

class Play:
    """Two ends, and every packet that was sent between them with what both had taken then."""

    def __init__(self, window, backlog):
        self.ends = {"a": End(False, A, A_ID, B, 0, window, backlog), "b": End(True, B, B_ID, A, A_ID, window, backlog)}
        self.bag, self.undelivered = [], []

    def counts(self):
        return len(self.ends["a"].taken), len(self.ends["b"].taken)

    def emit(self, side, packets):
        for packet in packets:
            self.undelivered.append(len(self.bag))
            self.bag.append((side, packet, self.counts()))

    def deliver(self, number):
        if number >= len(self.bag):
            return
        side, packet, before = self.bag[number]
        if any(now - then > LIFETIME for now, then in zip(self.counts(), before)):
            return
        if number in self.undelivered:
            self.undelivered.remove(number)
        other = "b" if side == "a" else "a"
        _, reply, _ = self.ends[other].receive(packet)
        self.emit(other, [reply] if reply else [])
        self.settle(other)

    def settle(self, side):
        self.emit(side, self.ends[side].flush())

    def happen(self, step):
        words = step.split(" ")
        if words[0] == "tick":
            self.emit(words[1], self.ends[words[1]].tick())
            self.after_tick(words[1])
        elif words[0] == "deliver":
            self.deliver(int(words[1]))
        elif words[0] == "rest":
            for number in list(self.undelivered):
                self.deliver(number)

    def after_tick(self, side):
        pass

    def put_bag(self, lines):
        if len(self.bag) > 40:
            digest = digest_text(b"".join(side.encode() + packet for side, packet, _ in self.bag))
            lines.put("packets %d digest %s" % (len(self.bag), digest))
            return
        lines.put("packets %d" % len(self.bag))
        for side, packet, _ in self.bag:
            lines.put(packet_text(side, packet, *((A, B) if side == "a" else (B, A))))


class ItemPlay(Play):
    def __init__(self, window, backlog):
        super().__init__(window, backlog)
        self.handed = {"a": [], "b": []}

    def happen(self, step):
        words = step.split(" ")
        if words[0] == "send":
            self.ends[words[1]].send(read_item(words[2:]))
            self.settle(words[1])
        elif words[0] == "take":
            item = self.ends[words[1]].take()
            if item:
                self.handed[words[1]].append(item)
        else:
            super().happen(step)


def settle_session(end, session, handed):
    """The first two steps of settling; whether one applied."""
    if session.out:
        if end.is_full():
            return False
        end.send(session.out.pop(0))
        return True
    item = end.take()
    if item is None:
        return False
    handed.append(item)
    session.feed(item)
    return True


class CallPlay(Play):
    def __init__(self, window, backlog, calls):
        super().__init__(window, backlog)
        self.calls, self.seen = calls, []
        self.sessions = {"a": Caller(), "b": Server()}
        self.settle("a")
        self.settle("b")

    def step(self, side):
        session = self.sessions[side]
        if settle_session(self.ends[side], session, []):
            return True
        if side == "b" or session.out:
            return False
        if session.outcome is not None:
            self.seen.append(session.outcome)
            session.outcome = None
            return True
        if not session.waits and session.made < len(self.calls):
            session.call(self.calls[session.made])
            return True
        return False

    def settle(self, side):
        while self.step(side):
            pass
        super().settle(side)

    def after_tick(self, side):
        self.settle(side)


class ServePlay:
    def __init__(self, window, backlog):
        self.end = End(True, B, B_ID, A, A_ID, window, backlog)
        self.server, self.handed, self.replies = Server(), [], []
        self.settle()

    def settle(self):
        while settle_session(self.end, self.server, self.handed):
            pass
        self.replies += self.end.flush()

    def hear(self, packet):
        _, reply, _ = self.end.receive(packet)
        if reply:
            self.replies.append(reply)
        self.settle()


# ---- text

class Lines:
    """Lines, of which equal ones in a row are told once."""

    def __init__(self):
        self.lines = []

    def put(self, line):
        if self.lines and self.lines[-1][0] == line:
            self.lines[-1][1] += 1
        else:
            self.lines.append([line, 1])

    def text(self):
        return "".join(line + ("\n" if times == 1 else ", %d times\n" % times) for line, times in self.lines)


def hex_text(data):
    if not data:
        return "-"
    return "=%d" % len(data) if len(data) > 40 else data.hex()


def words_text(words):
    if len(words) > 40:
        return "=%d" % len(words)
    return " ".join("%04x" % word for word in words) or "-"


def digest_text(data):
    digest = 0
    for byte in data:
        digest = (digest * 31 + byte) % 2 ** 32
    return "%08x" % digest


def item_text(who, item):
    stream, attention, last, body = item
    return "%s %d%s%s %s" % (who, stream, " attention" if attention else "", " last" if last else "", hex_text(body))


def call_text(call):
    return "carried %d %d %d %s" % (call[0], call[1], call[2], words_text(call[3]))


def packet_text(who, data, source, target):
    packet = decode(data)
    body = packet[5]
    assert packet == (True, 0, 5, target, source, body, len(data)) and len(body) >= 12
    return "%s %s %s" % (who, words_text(words_of(body[:12])), hex_text(body[12:]))


# ---- the lines of the input

def unfold(steps):
    for group in steps.split(","):
        count, group = counted(group.strip())
        for _ in range(count):
            for step in group.split(";"):
                yield step.strip()


def counted(group):
    count, star, rest = group.partition("*")
    return (int(count), rest.strip()) if star else (1, group)


def read_item(words):
    """The item that words say: of datastream 0 and the last of its message, where they say nothing else."""
    stream, body = 0, b""
    for word in words:
        if word.startswith("stream="):
            stream = int(word[7:])
        elif word not in ("attention", "part"):
            body = bytes.fromhex(word)
    return stream, "attention" in words, "part" not in words, body


def items(window, backlog, steps):
    play, lines = ItemPlay(window, backlog), Lines()
    for step in unfold(steps):
        if step:
            play.happen(step)
    for who, some in (("a sent", play.ends["a"].accepted), ("b sent", play.ends["b"].accepted),
                      ("a handed", play.handed["a"]), ("b handed", play.handed["b"])):
        for item in some:
            lines.put(item_text(who, item))
    play.put_bag(lines)
    return lines.text()


def read_call(words):
    if words[0] == "add":
        return 7, 2, 1, [int(words[1])]
    if words[0] == "total":
        return 7, 2, 2, []
    return int(words[1]), int(words[2]), int(words[3]), [int(word, 16) for word in words[4:] if word != "-"]


def calls(window, backlog, steps):
    steps = [step for step in unfold(steps) if step]
    play = CallPlay(window, backlog, [read_call(step.split(" ")[1:]) for step in steps if step.startswith("call ")])
    for step in steps:
        play.happen(step)
    lines = Lines()
    for call in play.sessions["b"].carried:
        lines.put(call_text(call))
    for seen in play.seen:
        lines.put(seen)
    lines.put("total %d" % play.sessions["b"].total)
    play.put_bag(lines)
    return lines.text()


def read_draft(words):
    data = b""
    for word in words.split(" "):
        data += bytes(int(word[1:])) if word.startswith("=") else bytes.fromhex(word)
    return data


def unsummed(data):
    return encode(B, A, data, False)


def serve(window, backlog, steps):
    play, lines = ServePlay(window, backlog), Lines()
    for group in steps.split(","):
        group = group.strip()
        if group.startswith("whole "):
            play.hear(bytes.fromhex(group[6:]))
            continue
        count, words = counted(group)
        data = read_draft(words)
        if len(data) < 12:
            continue
        sequence = struct.unpack(">H", data[6:8])[0]
        for number in range(count):
            play.hear(unsummed(data[:6] + struct.pack(">H", (sequence + number) % 65536) + data[8:]))
    for item in play.handed:
        lines.put(item_text("handed", item))
    for call in play.server.carried:
        lines.put(call_text(call))
    lines.put("fault %s" % (play.server.fault or "none"))
    many = " digest " + digest_text(b"".join(play.replies)) if len(play.replies) > 44 else ""
    lines.put("replies %d%s" % (len(play.replies), many))
    for reply in play.replies[-2:] if many else play.replies:
        lines.put(packet_text("reply", reply, B, A))
    lines.put("total %d" % play.server.total)
    return lines.text()


class Generator:
    def __init__(self, seed):
        self.state = seed

    def below(self, bound):
        self.state = (self.state * 6364136223846793005 + 1442695040888963407) % 2 ** 64
        return (self.state >> 33) % bound

    def byte(self):
        return self.below(256)

    def number_near(self, number):
        kind = self.below(3)
        if kind == 0:
            high = self.byte()
            return high * 256 + self.byte()
        if kind == 1:
            return (0, 1, 32767, 32768, 65535)[self.below(5)]
        return (number + self.below(9) - 4) % 65536


def damaged(generator, header, data):
    kind = generator.below(11)
    if kind <= 1:
        header[kind] = generator.byte()
    elif kind <= 6:
        header[kind] = generator.number_near(header[kind])
    elif kind == 7:
        data = data[:-2]
    elif kind == 8:
        data += bytes([generator.byte()]) * 2
    packet = bytearray(unsummed(struct.pack(">BBHHHHH", *header) + data))
    if kind == 9:
        packet = packet[:generator.below(64)]
    elif kind == 10:
        spot = generator.below(64)
        byte = generator.byte()
        if spot < len(packet):
            packet[spot] = byte
    return bytes(packet)


def block(generator, play):
    """The next packets of an honest caller, some of them changed."""
    first, acknowledge = len(play.handed), play.end.sent
    packets = []
    for number in range(first, first + 8):
        header = [0x50, 0, A_ID, B_ID, number, acknowledge, acknowledge + 63]
        data = bytes_of([3, 3]) if number == 0 else bytes_of([0, number, 0, 7, 2, 1, generator.below(1000)])
        if generator.below(8) == 0:
            packets.append(damaged(generator, header, data))
        else:
            packets.append(unsummed(struct.pack(">BBHHHHH", *header) + data))
    return packets


def random(window, backlog, steps):
    seed, blocks = (int(word) for word in steps.split(" "))
    play, generator = ServePlay(window, backlog), Generator(seed)
    for _ in range(blocks):
        for packet in block(generator, play):
            play.hear(packet)
    return "packets %d handed %d carried %d fault %s replies %d digest %s total %d\n" % (
        8 * blocks, len(play.handed), len(play.server.carried), play.server.fault or "none", len(play.replies),
        digest_text(b"".join(play.replies)), play.server.total)


def receives(responds, window, backlog, steps, header, data):
    """What a new end that the steps bring to a state makes of the packet."""
    end = End(responds, B, B_ID, A, A_ID if responds else 0, window, backlog)
    for step in steps:
        kind, _, rest = step.partition(" ")
        if kind == "send":
            end.send((0, False, True, bytes.fromhex(rest)))
            end.flush()
        elif kind == "get":
            end.receive(unsummed(read_draft(rest)))
        elif kind == "take":
            end.take()
        elif kind == "tick":
            end.tick()
    took, reply, dropped = end.receive(unsummed(struct.pack(">BBHHHHH", *header) + data))
    text = "took %d dropped %s waiting %d" % (took, dropped, len(end.taken) - end.handed)
    if reply:
        text += "; " + packet_text("reply", reply, B, A)
    for packet in end.tick():
        text += "; " + packet_text("then", packet, B, A)
    return text


def receiving(responds, window, backlog, steps):
    draft, *steps = [step.strip() for step in steps.split(",")]
    data = read_draft(draft)
    header, data = list(struct.unpack(">BBHHHHH", data[:12])), data[12:]
    lines = Lines()
    for control in range(256):
        text = receives(responds, window, backlog, steps, [control] + header[1:], data)
        lines.put("control %02x to %02x: %s" % (control & 0xf0, control | 15, text))
    for place, name in enumerate(("stream", "source", "target", "sequence", "acknowledge", "allocation"), 1):
        for number in (0, 1, 32767, 32768, 65535):
            changed = header[:place] + [number % 256 if place == 1 else number] + header[place + 1:]
            lines.put("%s %d: %s" % (name, number, receives(responds, window, backlog, steps, changed, data)))
    return lines.text()


def main():
    kinds = {"items": items, "calls": calls, "serve": serve, "random": random,
             "responder": lambda *words: receiving(True, *words), "initiator": lambda *words: receiving(False, *words)}
    for line in sys.stdin:
        line = line.rstrip("\n")
        head, _, steps = line.partition(",")
        kind, *numbers = head.split(" ")
        if kind in kinds:
            sys.stdout.write(kinds[kind](*(int(number) for number in numbers), steps.strip()))
        else:
            print(line)


main()
