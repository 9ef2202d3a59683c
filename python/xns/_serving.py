"""A server, by a loop of its own."""
import contextlib
import logging
import socket
import threading
from typing import Any, Callable, Dict, Iterable, Optional, Set, Tuple, Union

from ._errors import ArgumentsError, ClosingError, NoCallError, NoConnectionError, NoMemoryError, XnsError
from ._library import address_of
from ._links import Carrier, checked, not_blocking
from ._objects import Host
from ._programs import TypedServer, together
from ._station import Other, Station, milliseconds
from ._told import Address, Call, Closed, Reject, Reply, rejects

LOG = logging.getLogger("xns")
UNSPECIFIED = 65535  # the reason of a reject that says no more than that the call failed
CLOSING = 2000  # milliseconds that the connections of a server have to close in
_LOOKED_AT = 250  # milliseconds after which an event that stops a server is looked at again
_CLOSED = 1  # the tag of a connection that was told as closed; another one by its number has the tag 0 at first

Service = Callable[[Call], Reply]
Programs = Iterable[Union[Tuple[int, int, int], TypedServer]]


def failed(call: Call, error: BaseException) -> Reply:
    """What a call is answered whose answering raised this."""
    if isinstance(error, ArgumentsError):
        return rejects(Reject.INVALID_ARGUMENTS)
    LOG.error("a call of program %d, version %d, procedure %d failed", call.program, call.version, call.procedure, exc_info=error)
    return rejects(UNSPECIFIED)


def _copied(reply: Reply) -> Reply:
    """The reply, with words of its own."""
    kind, words, code = reply
    return Reply(kind, [*words], code)


class Replies:
    """Gives calls their replies. One that is refused memory is kept, and given at a turn behind."""

    def __init__(self, host: Host) -> None:
        self._host = host
        self._kept: Dict[int, Tuple[Call, Reply]] = {}  # by the connection

    def give(self, now: int, call: Call, reply: Reply) -> None:
        """Answers a call, unless its connection has closed. A reply that can't be given is a failure of the call."""
        for one in (reply, rejects(UNSPECIFIED)):
            try:
                self._put(now, call, one)
                return
            except (ClosingError, NoConnectionError, NoCallError):
                return
            except Exception as error:
                failed(call, error)
        with contextlib.suppress(XnsError):  # not even a reject can be given
            self._host.close(now, call.number)

    def _put(self, now: int, call: Call, reply: Reply) -> None:
        if isinstance(reply, tuple) and len(reply) == 3 and hasattr(reply[1], "__next__"):  # it gives its words once
            reply = _copied(reply)
        try:
            self._host.answer(now, call.number, reply)
        except NoMemoryError:
            self._kept[call.number] = call, _copied(reply)

    def give_kept(self, now: int) -> None:
        """Gives what is kept, or keeps it on. Is called at each turn: one comes within a second."""
        if self._kept:
            kept, self._kept = self._kept, {}
            for call, reply in kept.values():
                self.give(now, call, reply)

    def forget(self, number: int) -> None:
        """Lets go what is kept for a connection that is closed: the number may be another one's by now."""
        self._kept.pop(number, None)


def note_closed(host: Host, closed: Closed) -> None:
    """Notes that a connection is closed, while it still replies to what comes again."""
    with contextlib.suppress(NoConnectionError):
        host.set_tag(closed.number, _CLOSED)


def close_all(host: Host, now: int) -> Set[int]:
    """Begins to close the connections that are not closed; their numbers."""
    there = {number for number in host.numbers() if host.tag(number) != _CLOSED}
    for number in there:
        host.close(now, number)
    return there


def guarded(other: Other) -> Other:
    """What is given each packet that is not the host's: what it raises ends nothing."""
    if other is not None and not callable(other):
        raise TypeError(f"other is no function: it is of type {type(other).__name__}")

    def heard(packet: bytes, place: Any) -> None:
        try:
            other(packet, place)
        except Exception as error:
            LOG.error("a packet that is not the host's was not taken", exc_info=error)

    return None if other is None else heard


class Server:
    """Serves clients by a host with these settings: `run` does, until `stop` is called. See `serve`."""

    def __init__(
        self, carrier: Carrier, own: Address, programs: Programs, answer: Optional[Service] = None, other: Other = None, **settings: Optional[int]
    ) -> None:
        self._programs, self._service = together(programs, answer)
        self._carrier, self._own, self._settings, self._other = checked(carrier), address_of(own, "own"), settings, guarded(other)
        self._is_stopped = False
        self._bell, self._ringer = socket.socketpair()  # wakes what waits
        for one in (self._bell, self._ringer):
            one.setblocking(False)

    def stop(self) -> None:
        """Ends `run`: it closes the connections, and returns. Can be called by a signal's handler, by another thread, and while a call is answered."""
        self._is_stopped = True
        with contextlib.suppress(OSError):
            self._ringer.send(b"\0")

    def run(self, stop: Optional[threading.Event] = None) -> None:
        """Serves until `stop` is called, or the event is set, or an exception ends it that is no `Exception`, as KeyboardInterrupt. Then the connections
        are closed, for which their peers have two seconds. Runs once."""
        try:
            if stop is not None and not hasattr(stop, "is_set"):
                raise TypeError(f"stop is no event: it is of type {type(stop).__name__}")
            with Host(self._own, **self._settings) as host, not_blocking(self._carrier):
                host.serve(self._own.socket, self._programs)
                station, replies = Station(self._carrier, host, self._other), Replies(host)
                try:
                    while not (self._is_stopped or stop is not None and stop.is_set()):
                        station.wait(also=self._bell.fileno(), **({} if stop is None else {"most": _LOOKED_AT}))
                        self._turn(station, replies)
                finally:
                    self._close(station, replies)
        finally:
            self._bell.close()
            self._ringer.close()

    def _turn(self, station: Station, replies: Replies) -> None:
        station.take_in()
        for event in station.host.events():
            if isinstance(event, Call):
                reply = rejects(UNSPECIFIED)  # where Ctrl-C ends what carries it out: the connection stays until the call is answered
                try:
                    reply = self._reply(event)
                finally:
                    replies.give(station.now, event, reply)
            elif isinstance(event, Closed):
                note_closed(station.host, event)
                replies.forget(event.number)
        replies.give_kept(station.now)
        station.send()

    def _reply(self, call: Call) -> Reply:
        try:
            return self._service(call)
        except Exception as error:
            return failed(call, error)

    @staticmethod
    def _close(station: Station, replies: Replies) -> None:
        host, until = station.host, milliseconds() + CLOSING
        there = close_all(host, station.now)
        station.send()
        while there and milliseconds() < until:
            station.wait(until)
            station.take_in()
            for event in host.events():
                if isinstance(event, Call):
                    replies.give(station.now, event, rejects(UNSPECIFIED))
                elif isinstance(event, Closed):
                    there.discard(event.number)
                    replies.forget(event.number)
            replies.give_kept(station.now)
            station.send()


def serve(
    carrier: Carrier,
    own: Address,
    programs: Programs,
    answer: Optional[Service] = None,
    other: Other = None,
    stop: Optional[threading.Event] = None,
    **settings: Optional[int],
) -> None:
    """Serves clients by a host with these settings, which are those of `Host`, over a socket for datagrams, or another carrier.

    Each of `programs` is a typed server, which answers the calls of its program, or (program, low, high). `answer` is given each call of the latter, or of any
    program where `programs` is empty. It gives what the call is answered by `returns`, `aborts` or `rejects`. A call whose answering raises an error is
    rejected: with `Reject.INVALID_ARGUMENTS` where the error is one of a `Reader`, else with `UNSPECIFIED`, and the log of the name `xns` has the error. Typed
    servers of one program follow each other in their versions; else `serve` raises a ValueError. `other` is given each packet that is not the host's, as one
    of a packet exchange, with the place that it comes from. Calls are carried out one behind another, and meanwhile nothing is said: the clients of a server
    that takes longer than their patience, with the settings of this module some 30 seconds, give it up. See `serve_async` for what takes long.

    It returns once the event `stop` is set; a `Server` can be stopped by its `stop`. The connections are closed then, also where Ctrl-C ends it. An `OSError`
    says within a second that the socket, or the link, was closed."""
    Server(carrier, own, programs, answer, other, **settings).run(stop)
