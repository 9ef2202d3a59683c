"""A second account of what the program of a host is told, and when, written from docs/C.md and not from the code.

    python3 tests/host_rules.py [PLAYS [SEED]]

Two hosts play over a network that loses, repeats and delays. Each is there twice: one is told the times of a clock that goes back and jumps, the
other the sum of its steps forward, as the account has it. Both must say the same, and wake at the same moment. The account knows by itself which
numbers are taken, which events may come at each, which packets may go out, and when nothing may happen. No call or answer is told later than the packet
or the deed that it comes of; hosts that are left alone, and never ask idle peers, fall silent; and each connection ends that is asked to close.
"""
import itertools
import random
import struct
import sys
from types import SimpleNamespace

import xns
from xns import Why

DAY, LAST = 86_400_000, 2**64 - 1
COURIER, CLIENT, NOBODY = 5, 3001, 9  # sockets: one that is served, that of the clients, one that is not served
SETTINGS = {"first_wait": 20, "longest_wait": 100, "tries": 3, "patience": 300}
IDLE = 200, None  # a play has one of them; by None idle peers are never asked
MOST_TURNS, MOST_AT_ONCE = 3000, 10_000  # turns of a play that comes to its end; packets or events that are there at one time
DEAD = Why.SILENT, Why.NOT_SERVED, Why.REFUSED
OPENING, DATA = 0xC0, 0x50  # the control of an opening packet, and of an item that ends a message
STRANGER = 1, bytes([2, 0, 0xAA, 0, 0, 9]), CLIENT


def packet(kind, target, source, body):
    """An internet packet without a checksum."""
    ends = b"".join(struct.pack(">I6sH", *end) for end in (target, source))
    return struct.pack(">HHBB", 65535, 30 + len(body), 0, kind) + ends + body + bytes(len(body) % 2)


def is_opening(data):
    return data[5] == 5 and data[30] == OPENING and data[34:36] == b"\0\0"


class Clock:
    """A host's own time: the steps forward that it was told, each at most a day. A step back counts as none."""

    def __init__(self):
        self.told = self.own = 0

    def tell(self, now):
        self.own += min(max(now - self.told, 0), DAY)
        self.told = now

    def when(self, wake):
        """A time of its own by the clock that it was told: what is past the end of that clock is at once."""
        at = max(self.told + wake - self.own, 0) if wake else wake
        return 0 if at and at >= LAST else at


class Twins:
    """A host, by the account, and the two that must agree. `silenced` has the vias of which no packet may go out."""

    def __init__(self, station, play):
        self.own, self.play, self.clock, self.now = xns.Address(1, bytes([2, 0, 0xAA, 0, 0, station]), COURIER), play, Clock(), 0
        self.wild, self.plain = (xns.Host(self.own, bytes([station]) * 32, idle=play.idle, **SETTINGS) for _ in range(2))
        self.is_waiting = False  # time passes, and nothing else
        self.held, self.silenced, self.refused, self.spoiled, self.handed, self.asked = {}, set(), {}, set(), set(), set()
        self.sockets = {COURIER}  # that it serves, or from which it made a connection
        self.last = {}  # by its via, the front of the last packet of a connection behind which no packet came
        self.unheard = self.is_stranger = None  # the front of the packet of which it may complain, with its via, and whether it must
        self.ask("serve", COURIER, [(7, 1, 1)], timed=False)

    def ask(self, name, *arguments, timed=True):
        """What both return, where each is told the time of its own clock."""
        if timed:
            self.clock.tell(self.now)
        said = []
        for host, now in (self.wild, self.clock.told), (self.plain, self.clock.own):
            returned = getattr(host, name)(*([now] if timed else []), *arguments)
            said.append(returned if returned is None or isinstance(returned, int) else list(itertools.islice(returned, MOST_AT_ONCE)))
        assert said[0] == said[1], (name, arguments, said)
        return said[0]

    def wake(self):
        wake = self.plain.wake()
        assert self.wild.wake() == self.clock.when(wake), (self.wild.wake(), wake, vars(self.clock))
        return wake

    def count(self, come=0, gone=frozenset()):
        """The numbers that are taken are those of the account, but for so many that came at most, which are returned; for those that are gone; and for
        those of which the close was told, which may go at any time."""
        numbers, told = set(self.ask("numbers", timed=False)), {number for number, one in self.held.items() if one.why}
        came, went = numbers - self.held.keys(), self.held.keys() - numbers
        assert len(came) <= come and gone <= went <= gone | told, (came, went, come, gone)
        for number in went:
            del self.held[number]
        return came

    def open(self, number, ours, via):
        self.held[number] = SimpleNamespace(ours=ours, via=via, tag=0, made=self.clock.own, calls=[], answers=0, is_asked=False, why=None)
        assert self.ask("tag", number, timed=False) == 0, ("a new connection has a tag", number)

    def packets(self):
        """Fetches the packets, and returns their vias."""
        packets = self.ask("packets")
        assert len(packets) < MOST_AT_ONCE, "packets for ever"
        for via, data in packets:
            if data[5] == 3:
                assert (via, data[34:76], data[30:32]) == (*self.unheard, b"\0\2"), ("a complaint of what did not come", via, data)
                self.unheard = self.is_stranger = None
            else:
                assert via not in self.silenced, ("a packet of a connection that is dead or abandoned", via)
                self.last[via] = data[:42]
            self.play.bag.append((self.other, via, data))
        return [via if data[5] == 5 else None for via, data in packets]

    def fetch(self):
        """Fetches all that there is, packets or events first, and says whether there was anything. Where a peer is given up as packets are fetched, its
        event is there behind them, and the wake is at once."""
        found, empty, wake, is_first, rounds = False, 0, 0, self.play.random.random() < 0.5, 0
        while empty < 3 and (not empty or wake == 0):
            rounds += 1
            assert rounds < MOST_AT_ONCE, "packets or events for ever"
            before, wake = self.packets() if is_first else [], self.wake()
            events, heard, gone = self.ask("events", timed=False), set(), set()
            assert not events or wake == 0, ("an event waited, and the host slept", events, wake)
            for event in events:
                if self.hear(event):
                    gone.add(event.number)
                    # Where no message was fetched before, it was dead before the packets went out.
                    assert event.number in heard or self.held[event.number].via not in before, ("a packet of a dead connection", event)
                heard.add(event.number)
            if events:
                self.count(gone=gone)
            vias = before if is_first else self.packets()
            found, empty, wake = found or bool(events or vias), 0 if events or vias else empty + 1, self.wake()
        assert wake is None or wake > self.clock.own, ("nothing is left, and the host does not sleep", wake, self.clock.own)
        self.count()
        assert not self.is_stranger, ("a packet of no connection, and no complaint", self.unheard)
        return found

    def hear(self, event):
        """One event, which the account has to allow. Whether the number is free now."""
        one = self.held[event.number]
        assert one.why is None, ("an event behind the close", event)
        assert event.tag == one.tag, ("an event with another tag", event, one.tag)
        assert isinstance(event, xns.Closed) or not self.is_waiting, ("a message that was told later than what it comes of", event)
        if isinstance(event, xns.Call):
            word = event.words[0]
            assert not one.ours and len(one.calls) == one.answers and word not in self.handed and (not one.calls or word == one.calls[-1] + 1), event
            self.handed.add(word)
            one.calls.append(word)
        elif isinstance(event, xns.Answer):
            assert one.ours and len(one.calls) == one.answers + 1 and event.words == [one.calls[-1] ^ 0x8000], event
            one.answers += 1
        else:
            one.why = event.why
            assert {
                Why.ASKED: one.is_asked,
                Why.BY_PEER: one.via in self.other.asked,
                Why.SILENT: self.clock.own > one.made,
                Why.NOT_SERVED: one.via in self.refused and event.error == self.refused[one.via],
                Why.REFUSED: one.via in self.spoiled,
            }[event.why], (event, vars(one))
            if event.why in DEAD:
                self.silenced.add(one.via)
        return one.why in DEAD

    def receive(self, via, data):
        """A packet comes. Only an opening packet makes a connection."""
        taken = self.ask("receive", via, data)
        self.last.pop(via, None)
        for number in self.count(come=int(is_opening(data))):
            self.open(number, False, via)
            self.silenced.discard(via)
        if data[5] == 5:
            self.unheard = (via, data[:42])
            to = int.from_bytes(data[16:18], "big")
            assert taken or to not in self.sockets, ("a packet to a socket of the host is not taken", via, data)
            self.is_stranger = taken and to in self.sockets and all(one.via != via for one in self.held.values())
        return taken

    def hear_error(self, via, data):
        """An Error packet comes. One that quotes the last packet of a connection closes it, if it is not closed and by its number."""
        error = int.from_bytes(data[30:32], "big")
        ends = error in (2, 3)
        is_due = any(one.via == via and not one.why for one in self.held.values()) and self.last.get(via) == data[34:76]
        if ends:
            self.refused[via] = error
        taken = self.receive(via, data)
        assert taken <= ends and (taken or not (is_due and ends)), ("an Error packet", taken, data)
        self.fetch()
        assert not taken or all(one.via != via or one.why for one in self.held.values()), ("an Error packet closed nothing", via)
        return taken

    def connect(self):
        if len(self.held) < 6:
            via = next(self.play.vias)
            self.sockets.add(CLIENT)
            number = self.ask("connect", via, CLIENT, self.other.own._replace(socket=self.play.random.choice((COURIER, COURIER, COURIER, NOBODY))))
            assert self.count(come=1) == {number}
            self.open(number, True, via)

    def pick(self, rule):
        """A connection that meets the rule and its number, if there is one."""
        return self.play.random.choice([(number, one) for number, one in self.held.items() if not one.why and rule(one)] or [(None, None)])

    def call(self):
        number, one = self.pick(lambda one: one.ours and len(one.calls) == one.answers < 15 and one.via not in self.asked | self.other.asked)
        if one:
            one.calls.append(one.calls[-1] + 1 if one.calls else next(self.play.words) % 2048 * 16)
            self.ask("call", number, 7, 1, 1, [one.calls[-1]])

    def answer(self):
        """Answers a call. Whether there is one."""
        number, one = self.pick(lambda one: not one.ours and len(one.calls) > one.answers)
        if one:
            one.answers += 1
            self.ask("answer", number, xns.returns([one.calls[-1] ^ 0x8000]))
        return one is not None

    def close(self):
        number, one = self.pick(lambda one: not one.is_asked)
        if one:
            one.is_asked = True
            self.asked.add(one.via)
            self.ask("close", number)

    def abandon(self):
        number, one = self.pick(lambda one: True)
        if one:
            self.silenced.add(one.via)
            self.ask("abandon", number, timed=False)
            self.count(gone={number})

    def tag(self):
        number, one = self.pick(lambda one: True)
        if one:
            one.tag = self.play.random.randrange(2**64)
            self.ask("set_tag", number, one.tag, timed=False)

    def pass_time(self):
        """Another time is told: that of the wake, a near one, an earlier one, one up to three days ahead, or any."""
        rng, at, kind = self.play.random, self.clock.when(self.wake()), self.play.random.random()
        near, far = min(self.now + rng.randrange(60), LAST), min(self.now + rng.randrange(3 * DAY), LAST)
        self.come_to(at if at and kind < 0.5 else near if kind < 0.8 else rng.choice((rng.randrange(self.now + 1), far, rng.randrange(LAST + 1))))

    def come_to(self, now):
        """Tells the host this time. Before the wake nothing may happen."""
        wake, self.now, self.is_waiting = self.wake(), now, True
        found, self.is_waiting = self.fetch(), False
        assert not found or wake is not None and wake <= self.clock.own, ("something happened before the wake", wake, vars(self.clock))

    def sleep(self):
        """The time of the wake is told. Whether it is never."""
        at = self.clock.when(self.wake())
        if at is not None:
            self.come_to(at)
        return at is None

    def spoil(self):
        """A stranger opens a connection, and says what is no conversation: the host closes it in the same moment."""
        via, bag, self.play.bag = next(self.play.vias), self.play.bag, []

        def says(control, stream, peer_id, body=b""):
            header = struct.pack(">BBHHHHH", control, stream, via % 65535 + 1, peer_id, 0, 0, 7)
            self.receive(via, packet(5, self.own, STRANGER, header + body))

        says(OPENING, 0, 0)
        self.fetch()
        reply = next(data for _, out, data in self.play.bag if out == via)
        self.spoiled.add(via)
        says(DATA, 9, int.from_bytes(reply[32:34], "big"), b"\1\2")
        self.fetch()
        assert via in self.silenced and all(one.via != via for one in self.held.values()), "what a stranger spoiled is not closed"
        self.play.bag = bag


class Play:
    """Two hosts and the packets on their way, each with the host that it is for and its via."""

    def __init__(self, seed):
        self.random, self.bag, self.vias, self.words = random.Random(seed), [], itertools.count(1), itertools.count()
        self.idle = self.random.choice(IDLE)
        self.hosts = [Twins(station, self) for station in (1, 2)]
        self.hosts[0].other, self.hosts[1].other = self.hosts[1], self.hosts[0]

    def deliver(self, losses):
        """A packet of the bag comes, or is lost, or comes and may come again, or comes to a third that complains, as do the play's hosts of a sequenced packet
        that is to no socket of theirs: by the numbers 2 and 3 the connection that sent it lately is closed, by 1 it is not."""
        if not self.bag:
            return
        host, via, data = self.bag.pop(self.random.randrange(len(self.bag)))
        kind = self.random.random()
        if kind < losses:
            return
        if kind > 1 - losses and len(self.bag) < 30:
            self.bag.append((host, via, data))
        is_astray = losses > 0 and self.random.random() < 0.02
        taken = host.hear_error(via, data) if data[5] == 3 else not is_astray and host.receive(via, data)
        if not taken and data[5] == 5:
            target, source = (struct.unpack(">I6sH", data[at : at + 12]) for at in (18, 6))
            error = struct.pack(">HH", self.random.choice((1, 2, 3)), 0)
            self.bag.append((host.other, via, packet(3, target, source, error + data[:42])))
        host.fetch()

    def rest(self):
        """Each call is answered and nothing is lost any more. Where idle peers are never asked, soon no packet is on its way, and no host wants to be asked."""
        for _ in range(MOST_TURNS):
            for host in self.hosts:
                while host.answer():
                    host.fetch()
            if not self.bag and all([host.sleep() for host in self.hosts]):
                return
            for _ in range(len(self.bag)):
                self.deliver(0)
        assert self.idle is not None, "packets for ever"

    def run(self, losses, steps, end_losses):
        """Some random steps, and sometimes a rest. Then all is asked to close, and answered, and each connection ends, whatever the network does, also
        where idle peers are never asked: while a connection closes its peer is."""
        for _ in range(steps):
            host, deliver = self.random.choice(self.hosts), lambda: self.deliver(losses)
            done = deliver, host.pass_time, host.call, host.answer, host.connect, host.close, host.abandon, host.spoil, host.tag
            self.random.choices(done, (45, 17, 10, 12, 8, 4, 2, 2, 4))[0]()
            host.fetch()
        if self.idle is None and self.random.random() < 0.5:
            self.rest()
        turns = 0
        while any(host.held for host in self.hosts):
            turns += 1
            assert turns < MOST_TURNS, "a connection does not end"
            for host in self.hosts:
                host.answer()
                host.close()
                host.fetch()
            for _ in range(len(self.bag)):
                self.deliver(end_losses)
            for host in self.hosts:
                host.pass_time()
        self.bag.clear()


def main(words):
    plays, seed = int(words[0]) if words else 1000, int(words[1]) if len(words) > 1 else 1
    silenced = 0
    for first in range(0, plays, 50):
        play = Play(seed * 1_000_000 + first)
        for _ in range(min(50, plays - first)):
            play.run(play.random.choice((0.0, 0.1, 0.3, 1.0)), play.random.randrange(80), play.random.choice((0.0, 0.2, 1.0)))
        silenced += sum(len(host.silenced) for host in play.hosts)
    print("%d plays of hosts, with %d connections that were dead or abandoned" % (plays, silenced))


if __name__ == "__main__":
    main(sys.argv[1:])
