"""Hosts and endpoints: what the library holds for a program."""
import ctypes
import os
import threading
from ctypes import addressof, byref, c_size_t, c_uint8, c_uint16, c_uint64
from typing import Iterable, Iterator, List, Optional, Tuple

from ._errors import NoCallError, done
from ._library import FUNCTIONS, RawAddress, RawEvent, RawHandle, RawItem, RawProgram, RawReceived, RawSettings, flag, octets, unsigned, words_of, written
from ._told import LONGEST_ITEM, LONGEST_PACKET, MOST_MESSAGE_WORDS, Address, Dropped, Event, Item, Received, Reply, Stream

_REPLY = 42  # bytes of a reply of an endpoint, and of a system packet
_NEVER = 2**64 - 1  # a time that does not come
_SECRET = 32  # bytes of a host's secret


class Object:
    """What a handle holds, until it is freed."""

    _family = ""

    def __init_subclass__(cls) -> None:
        front = cls._family + "_"
        cls._functions = {name[len(front) :]: function for name, function in FUNCTIONS.items() if name.startswith(front)}

    def __init__(self) -> None:
        self._handle, self._thread = RawHandle(), threading.get_ident()
        self._at = addressof(self._handle)

    def free(self) -> None:
        """Gives the memory back. A method that is called later raises `NoEndpointError` or `NoHostError`, or returns what it has for none."""
        self._call("clear")

    def __enter__(self):
        return self

    def __exit__(self, *_) -> None:
        self.free()

    def __del__(self) -> None:
        if getattr(self, "_thread", None) == threading.get_ident():
            self.free()

    def _call(self, name: str, *arguments):
        return self._functions[name](self._at, *arguments)

    def _done(self, name: str, *arguments) -> bool:
        return done(self._functions[name](self._at, *arguments))

    def _written(self, name: str, room: int, *arguments) -> Optional[bytes]:
        return written(f"{self._family}_{name}", room, self._at, *arguments)

    def _item(self, name: str) -> Optional[Item]:
        item, body = RawItem(), (c_uint8 * LONGEST_ITEM)()
        if not self._done(name, byref(item), body, LONGEST_ITEM):
            return None
        return Item(ctypes.string_at(body, item.length), item.stream, bool(item.attention), bool(item.last))


class Endpoint(Object):
    """One end of a connection. It has no socket and no clock: packets that came go to `receive`, those that the methods return are sent."""

    _family = "endpoint"

    @classmethod
    def initiator(cls, own: Address, own_id: int, peer: Address, window: int = 8, backlog: int = 16) -> "Endpoint":
        """The end that begins a connection. Its identifier, not 0, is new for each connection. At most `window` items wait to be taken, and at most `backlog`
        are unacknowledged, each from 1 to 64; else `BadArgumentError`. The first packet of `tick` opens the connection."""
        end = cls()
        sizes = unsigned(window, 64, "window"), unsigned(backlog, 64, "backlog")
        ends = byref(RawAddress.of(own, "own")), unsigned(own_id, 16, "own_id"), byref(RawAddress.of(peer, "peer"))
        end._done("new_initiator", *ends, *sizes)
        return end

    @classmethod
    def responder(cls, own: Address, own_id: int, peer: Address, peer_id: int, window: int = 8, backlog: int = 16) -> "Endpoint":
        """The end that replies to the opening packet of `peer`, which is then given to `receive` too. All else is as of `initiator`."""
        end = cls()
        sizes = unsigned(window, 64, "window"), unsigned(backlog, 64, "backlog")
        ids = unsigned(own_id, 16, "own_id"), byref(RawAddress.of(peer, "peer")), unsigned(peer_id, 16, "peer_id")
        end._done("new_responder", byref(RawAddress.of(own, "own")), *ids, *sizes)
        return end

    @property
    def is_open(self) -> bool:
        """Whether the peer is known."""
        return self._call("is_open")

    @property
    def is_full(self) -> bool:
        """Whether `send` would raise `ExhaustedError` or `FullError`."""
        return self._call("is_full")

    @property
    def waiting(self) -> int:
        """How many items wait to be taken."""
        return self._call("waiting")

    @property
    def unacknowledged(self) -> int:
        """How many accepted items the peer has not acknowledged."""
        return self._call("unacknowledged")

    @property
    def room_to_send(self) -> int:
        """How many items more `send` accepts that `flush` then sends at once."""
        return self._call("room_to_send")

    @property
    def own(self) -> Tuple[Address, int]:
        """The endpoint's own address and identifier."""
        return self._name("own")

    @property
    def peer(self) -> Optional[Tuple[Address, int]]:
        """The peer's address and identifier; None while it is not known."""
        return self._name("peer")

    def _name(self, which: str) -> Optional[Tuple[Address, int]]:
        address, identifier = RawAddress(), c_uint16()
        return (address.told(), identifier.value) if self._done(which, byref(address), byref(identifier)) else None

    def is_ours(self, packet: bytes) -> bool:
        """Whether the bytes are a packet of this connection."""
        given = octets(packet, "packet")
        return self._call("is_ours", given, len(given))

    def send(self, body: bytes, stream: int = Stream.COURIER, attention: bool = False, last: bool = True) -> None:
        """Accepts an item, which `flush` and `tick` then send. `TooLongError` over 534 bytes, `AttentionSizeError`, `ExhaustedError`, `FullError`: the
        endpoint is as it was."""
        given = octets(body, "body")
        self._done("send", unsigned(stream, 8, "stream"), flag(attention), flag(last), given, len(given))

    def take(self) -> Optional[Item]:
        """The next item, which is handed up; None where none waits."""
        return self._item("take")

    def receive(self, packet: bytes) -> Received:
        """Takes in the bytes of a packet that came. Its reply, if it has one, is to be sent at once."""
        told, reply = RawReceived(), (c_uint8 * _REPLY)()
        given = octets(packet, "packet")
        self._done("receive", given, len(given), byref(told), reply, _REPLY)
        return Received(told.took, told.acknowledged, Dropped(told.dropped), bytes(reply[: told.reply]))

    def flush(self) -> List[bytes]:
        """The packets that may go out for the first time."""
        self._done("flush")
        return self._packets()

    def tick(self) -> List[bytes]:
        """The packets that are to go out when time has passed: again what is not acknowledged, or a question to the peer."""
        self._done("tick")
        return self._packets()

    def _packets(self) -> List[bytes]:
        return list(iter(lambda: self._written("next_packet", LONGEST_PACKET), None))

    def system_packet(self, asks: bool = False) -> Optional[bytes]:
        """A packet that tells the peer what was taken and what there is room for, and asks for a reply or not; None while the peer is not known."""
        return self._written("system_packet", _REPLY, flag(asks))

    def resend_first(self) -> Optional[bytes]:
        """The first of the packets that `tick` would make; None where it would make none."""
        return self._written("resend_first", LONGEST_PACKET)


class Host(Object):
    """Many Courier conversations behind one address, with time. It has no socket, no clock and no thread: packets that came go to `receive`, those of
    `packets` are sent, and `events` returns the events. `now` is in milliseconds of any clock, never older than the one before, since timers would fire
    early. A `via` is a number of the program's: the packets of a connection go out by the one that it was opened by."""

    _family = "host"

    def __init__(self, own: Address, secret: Optional[bytes] = None, **settings: Optional[int]) -> None:
        """At the network and host of `own`. The secret, 32 bytes, is new for each host and hard to guess; without one it is the system's.
        Settings: `connections` at most (64); `window` (8) and `backlog` (16) of each, in items; in milliseconds `first_wait` for an acknowledgement
        until a time is measured (250), `longest_wait` (8000), `least_wait`, by which a measured wait is longer than the time that was measured at
        least (10, or `first_wait` if that is less), and `idle`, after which a peer is asked for a word (10000; None: only while a call waits or a
        connection closes, after that); a silent peer is given up once `tries` packets at least (8) went out in vain, and the waits in vain took
        `patience` milliseconds at least (32000); `answers_echo` (True): of the programs at one station one should; `tells_opened` (False): an
        `Opened` tells when the peer of a connection of ours is there. `BadArgumentError` where the longest wait is below the first, or the least
        one above it."""
        super().__init__()
        given = octets(os.urandom(_SECRET) if secret is None else secret, "secret")
        if len(given) != _SECRET:
            raise ValueError(f"secret has {len(given)} bytes, and not {_SECRET}")
        self._done("new", byref(RawAddress.of(own, "own")), byref(RawSettings.of(settings)), given)
        self._words, self._event, self._count = (c_uint16 * MOST_MESSAGE_WORDS)(), RawEvent(), c_size_t()
        self._packet, self._length, self._via = (c_uint8 * LONGEST_PACKET)(), c_size_t(), c_uint64()
        self._for_events = self._at, addressof(self._event), addressof(self._words), MOST_MESSAGE_WORDS, addressof(self._count)
        self._for_packets = addressof(self._packet), LONGEST_PACKET, addressof(self._length), addressof(self._via)

    def set_network(self, network: int) -> None:
        """The host is at this network from now on: new connections and Echo replies have its number, and those that are there keep theirs."""
        self._done("set_network", unsigned(network, 32, "network"))

    def serve(self, socket_number: int, programs: Iterable[Tuple[int, int, int]] = ()) -> None:
        """From now on the host serves connections that peers open to this socket, for these programs, each as (program, low, high); with none each
        call is an event. Calls of others are rejected without an event. `EchoSocketError` for socket 2, `NoVersionError` where a low version is above its
        high one, `TooManyServicesError` where 16 other sockets are served."""
        listed = [_program(one) for one in programs]
        self._done("serve", unsigned(socket_number, 16, "socket_number"), (RawProgram * max(1, len(listed)))(*listed), len(listed))

    def connect(self, now: int, via: int, socket_number: int, peer: Address) -> int:
        """Opens a connection from this socket of ours to the peer, and returns its number. Our side calls. By the setting `tells_opened` an `Opened`
        tells when the peer is there, before all other events of the connection. `EveryHostError` to or from the broadcast host, `NoSocketError` to
        or from socket 0, `NoSlotError` where there is no room."""
        number = c_size_t()
        numbers = unsigned(now, 64, "now"), unsigned(via, 64, "via"), unsigned(socket_number, 16, "socket_number")
        self._done("connect", *numbers, byref(RawAddress.of(peer, "peer")), byref(number))
        return number.value

    def call(self, now: int, number: int, program: int, version: int, procedure: int, words: Iterable[int] = ()) -> None:
        """Puts out a call. `BusyError` while one waits or its answer was not fetched, `NoConnectionError`, `PeerCallsError`, `ClosingError`, `TooLongError`."""
        numbers = unsigned(program, 32, "program"), unsigned(version, 16, "version"), unsigned(procedure, 16, "procedure")
        self._done("call", unsigned(now, 64, "now"), unsigned(number, 64, "number"), *numbers, *words_of(words))

    def answer(self, now: int, number: int, reply: Reply) -> None:
        """Answers the call that was fetched. `NoCallError` where none waits for an answer; `BadArgumentError` where `reply` is no return, abort or reject;
        `NoConnectionError`, `ClosingError`, `TooLongError`."""
        if not isinstance(reply, tuple) or len(reply) != 3:
            raise TypeError(f"reply is no Reply: it is of type {type(reply).__name__}")
        kind, words, code = reply
        numbers = unsigned(now, 64, "now"), unsigned(number, 64, "number"), unsigned(kind, 8, "kind"), unsigned(code, 16, "code")
        if not self._done("answer", *numbers, *words_of(words)):
            raise NoCallError("no call waits for an answer")

    def close(self, now: int, number: int) -> None:
        """Closes a connection once all that it has to say is said, which a `Closed` tells. The end is asked for right behind a call; its `Answer` is
        still an event, if it comes before the peer agrees. A peer that lives and never agrees keeps the connection: `abandon` ends it. `NoConnectionError`."""
        self._done("close", unsigned(now, 64, "now"), unsigned(number, 64, "number"))

    def abandon(self, number: int) -> None:
        """Abandons a connection: nothing of it goes out or is an event any more, and its number may be another one's. `NoConnectionError`."""
        self._done("abandon", unsigned(number, 64, "number"))

    def set_tag(self, number: int, tag: int) -> None:
        """Gives a connection a number of the program's own, of 64 bits, which its events have as `tag` from now on. It is 0 at first. `NoConnectionError`."""
        self._done("set_tag", unsigned(number, 64, "number"), unsigned(tag, 64, "tag"))

    def tag(self, number: int) -> int:
        """The tag of a connection. `NoConnectionError`."""
        tag = c_uint64()
        self._done("tag", unsigned(number, 64, "number"), byref(tag))
        return tag.value

    def receive(self, now: int, via: int, packet: bytes) -> bool:
        """Takes in a packet that came; false where it is not for the host, and is the program's to use."""
        given = octets(packet, "packet")
        return self._done("receive", unsigned(now, 64, "now"), unsigned(via, 64, "via"), given, len(given))

    def events(self) -> Iterator[Event]:
        """The events that are there, each once."""
        next_event, given = self._functions["next_event"], self._for_events
        while done(next_event(*given)):
            yield self._event.told(self._words[: self._count.value])

    def packets(self, now: int) -> Iterator[Tuple[int, bytes]]:
        """The packets that are to go out, each once, with its `via`. What is due at this time is done too. `NoMemoryError`: what is to go out stays so."""
        next_packet, given = self._functions["next_packet"], (self._at, unsigned(now, 64, "now"), *self._for_packets)
        while done(next_packet(*given)):
            yield self._via.value, ctypes.string_at(self._packet, self._length.value)

    def wake(self) -> Optional[int]:
        """When `events` and then `packets` want to be asked at the latest; 0 is at once, None never, until something is done."""
        at = self._call("wake")
        return None if at == _NEVER else at

    @property
    def connections(self) -> int:
        """How many connections there are, with those that are closed and still reply to what comes again."""
        return self._call("connections")

    def peer(self, number: int) -> Address:
        """Whom a connection is with. `NoConnectionError`."""
        address = RawAddress()
        self._done("peer", unsigned(number, 64, "number"), byref(address))
        return address.told()

    def numbers(self) -> List[int]:
        """The numbers of the connections that are there."""
        found, number = [], c_size_t()
        while self._done("number_from", found[-1] + 1 if found else 0, byref(number)):
            found.append(number.value)
        return found


def _program(listed: Tuple[int, int, int]) -> Tuple[int, int, int]:
    """A program that is served, as the library takes it."""
    try:
        program, low, high = listed
    except (TypeError, ValueError):
        raise TypeError("one of programs is no tuple of a program, a low and a high version") from None
    return unsigned(program, 32, "program"), unsigned(low, 16, "low"), unsigned(high, 16, "high")
