"""A client, by a loop of its own."""
import contextlib
from typing import Any, Iterable, Iterator, Optional

from ._errors import BY_RESULT, CLOSED_TEXTS, TEXTS, BusyError, ClosedError, ClosingError, NoConnectionError, NoSlotError, NotServedError, SilentError
from ._library import unsigned, words_of
from ._links import Carrier, checked, not_blocking
from ._objects import Host
from ._station import Station, milliseconds
from ._told import Address, Answer, Closed, Event, Opened, Why


class TooLate(Exception):
    """The time that was given is over."""


def until_of(seconds: Optional[float], name: str = "timeout") -> Optional[int]:
    """The time so many seconds from now. None: it never comes."""
    if seconds is None:
        return None
    return milliseconds() + _milliseconds_of(seconds, name)


def _milliseconds_of(seconds: float, name: str) -> int:
    if isinstance(seconds, bool) or not isinstance(seconds, (int, float)):
        raise TypeError(f"{name} is no number of seconds: it is of type {type(seconds).__name__}")
    try:
        return round(1000 * float(seconds))
    except (OverflowError, ValueError):
        raise ValueError(f"{name} is no number of seconds, or too many") from None


class Conversation:
    """The connection of a client, and nothing that waits."""

    def __init__(self, station: Station, place: Any, own: Address, peer: Address) -> None:
        self.station, self._place, self._own, self._peer = station, place, own, peer
        self.open()

    def open(self) -> None:
        """Opens a connection: the next one, where there was another. Those that were left, and are not closed yet, give their places up where there is no other."""
        try:
            self._number = self.station.connect(self._place, self._own, self._peer)
        except NoSlotError:
            for number in self.station.host.numbers():
                self.station.host.abandon(number)
            self._number = self.station.connect(self._place, self._own, self._peer)
        self.closed: Optional[Closed] = None
        self.is_answered = False  # whether the server has confirmed the connection
        self._acted = milliseconds()

    @property
    def rested(self) -> int:
        """How many milliseconds nothing was done here: a server that asked for a word meanwhile got no reply."""
        return milliseconds() - self._acted

    def fetch(self) -> Optional[Event]:
        """The next event; what is to go out is sent, with what acknowledges it. None where there is none. That the connection is closed is the last event,
        and stays."""
        self._acted = milliseconds()
        if self.closed is None:
            found = self._next()
            if isinstance(found, Closed):
                self.closed = found
            self.station.send()
            if found is not None:
                return found
            if not self.station.host.connections:  # a call that Ctrl-C ended has fetched the event that it is closed
                self.closed = Closed(self._number, Why.SILENT, None)
        elif self.station.host.connections:
            for _ in self.station.host.events():  # nobody waits for them, but while one stays the host does not rest
                pass
            self.station.send()
        return self.closed

    def _next(self) -> Optional[Event]:
        """The next event but that the connection is open, which is noted."""
        for event in self.station.host.events():
            if event.number == self._number:
                if not isinstance(event, Opened):
                    return event
                self.is_answered = True
        return None

    def put_out(self, program: int, version: int, procedure: int, words: Iterable[int]) -> bool:
        """Puts out a call; false where the answer to the call before is to be fetched first. The event of a closed connection says why it takes none."""
        if self.closed is None:
            try:
                self.station.host.call(self.station.time(), self._number, program, version, procedure, words)
            except BusyError:
                return False
            except (ClosingError, NoConnectionError):
                pass
        return True

    def close(self) -> None:
        """Begins to close."""
        if self.closed is None:
            with contextlib.suppress(NoConnectionError):
                self.station.host.close(self.station.time(), self._number)

    def leave(self) -> None:
        """Closes, and hears no more of it."""
        self.close()
        self.station.send()
        if self.closed is None:
            self.closed = Closed(self._number, Why.ASKED, None)

    def check(self) -> None:
        """Raises the reason why the connection is closed, where no side asked for it."""
        closed = self.closed
        if closed is None:
            return
        if closed.why == Why.SILENT:
            raise SilentError(CLOSED_TEXTS[closed.why])
        if closed.why == Why.NOT_SERVED:
            raise _not_served(closed)
        if closed.why == Why.REFUSED and closed.fault is not None:
            raise BY_RESULT[closed.fault](TEXTS[closed.fault])

    def answer(self, event: Event) -> Answer:
        """The event, which is an answer. Raises the reason why there is none."""
        if isinstance(event, Answer):
            return event
        self.check()
        raise ClosedError(CLOSED_TEXTS[self.closed.why] if self.closed is not None else "the connection is closed")


def _not_served(closed: Closed) -> NotServedError:
    error = NotServedError(CLOSED_TEXTS[closed.why])
    error.error = closed.error
    return error


class Client:
    """Calls, each of which waits for its answer. Between calls it says nothing, unless `wait` is called: a server that asks for a word meanwhile gives it up
    after a while, with the settings of this module after some 40 seconds."""

    def __init__(
        self,
        carrier: Carrier,
        place: Any,
        own: Address,
        peer: Address,
        timeout: Optional[float] = None,
        reopens: Optional[float] = None,
        **settings: Optional[int],
    ) -> None:
        """Opens a connection from `own`, a socket that no other client of its host has, to `peer`, whose packets go to this place, by a host with these
        settings, which are those of `Host`. Nothing is waited for.

        `timeout`: seconds that a call, `connect` or `close` may take where it names no others; None is any time, as long as the server says that it is
        there. `reopens`: a call opens a new connection first where the old one is closed, or so many seconds have passed since the last call or `wait`;
        None is never. No call is made twice."""
        until_of(timeout)
        until_of(reopens, "reopens")
        self._timeout, self._reopens = timeout, reopens
        self._host = Host(own, **{**settings, "tells_opened": True})
        self._station = Station(checked(carrier), self._host)
        self._conversation = Conversation(self._station, place, own, peer)
        with not_blocking(carrier):
            self._station.send()

    def connect(self, timeout: Optional[float] = None) -> None:
        """Waits until the server has confirmed the connection. Errors as for a call."""
        with self._in_time(timeout, "the server did not open the connection") as until:
            while not self._conversation.is_answered and self._conversation.closed is None:
                self._turn(until)
        if self._conversation.closed is not None:
            self._conversation.answer(self._conversation.closed)

    def call(self, program: int, version: int, procedure: int, words: Iterable[int] = (), timeout: Optional[float] = None) -> Answer:
        """What a call is answered: a return, an abort or a reject.

        `SilentError`, a TimeoutError, where the server is silent, or so many seconds have passed: the connection is closed then, and it is not known whether
        the call was carried out. `NotServedError`, a ConnectionRefusedError, where an Error packet says that there is no server, or no room at it. `ClosedError`,
        a ConnectionResetError, where the connection is closed. What the server says against the protocol is raised by its name. The answer to a call that
        Ctrl-C ended is waited for before the next call, and let go."""
        numbers, (given, _) = (unsigned(program, 32, "program"), unsigned(version, 16, "version"), unsigned(procedure, 16, "procedure")), words_of(words)
        listed = memoryview(given).cast("H")
        with self._in_time(timeout, "the call was not answered") as until:
            self._open_again()
            while not self._conversation.put_out(*numbers, listed.tolist()):
                self._next(until)
            return self._conversation.answer(self._next(until))

    def wait(self, seconds: float) -> None:
        """Says for so many seconds that it is there, where the server asks: a client that waits so is not given up."""
        until = milliseconds() + _milliseconds_of(seconds, "seconds")
        with not_blocking(self._station.carrier):
            while milliseconds() < until:
                self._conversation.fetch()
                self._station.wait(until)
                self._station.take_in()
            self._conversation.fetch()

    def close(self, timeout: Optional[float] = None) -> None:
        """Closes the connection, and waits until the server has closed it too. Errors as for a call; that it is closed is none."""
        with self._in_time(timeout, "the server did not close the connection") as until:
            self._conversation.close()
            while not isinstance(self._next(until), Closed):
                pass
        self._conversation.check()

    def __enter__(self) -> "Client":
        return self

    def __exit__(self, error: Optional[type], *_) -> None:
        """Closes the connection, and waits for it where no error ends the `with`. The memory of its host is given back."""
        try:
            if error is None:
                self.close()
            else:
                with contextlib.suppress(OSError), not_blocking(self._station.carrier):  # it may be closed, which is not what ended the `with`
                    self._conversation.leave()
        finally:
            self._host.free()

    def _open_again(self) -> None:
        """Opens a new connection, where it is time for it."""
        if self._reopens is None:
            return
        rested = self._conversation.rested
        self._station.take_in()
        self._conversation.fetch()
        if self._conversation.closed is not None or rested >= 1000 * self._reopens:
            self._conversation.leave()
            self._conversation.open()

    @contextlib.contextmanager
    def _in_time(self, timeout: Optional[float], text: str) -> Iterator[Optional[int]]:
        """Until when is waited. Where that is too late, the connection is closed, and `SilentError` raised with this text."""
        seconds = self._timeout if timeout is None else timeout
        until = until_of(seconds)
        with not_blocking(self._station.carrier):
            try:
                yield until
            except TooLate:
                self._conversation.leave()
                raise SilentError(f"{text} in {seconds:g} seconds") from None

    def _next(self, until: Optional[int]) -> Event:
        """The next event of the connection."""
        while True:
            event = self._turn(until)
            if event is not None:
                return event

    def _turn(self, until: Optional[int]) -> Optional[Event]:
        """The next event, where there is one; else it waits, and takes in what came, unless an event said just now that the connection is open."""
        was_answered = self._conversation.is_answered
        event = self._conversation.fetch()
        if event is None and self._conversation.is_answered == was_answered:
            if until is not None and milliseconds() >= until:
                raise TooLate
            self._station.wait(until)
            self._station.take_in()
        return event
