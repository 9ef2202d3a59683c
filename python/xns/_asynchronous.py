"""A server and a client in a loop of asyncio, beside what else the program does there."""
import asyncio
import contextlib
import inspect
import select
from typing import Any, Awaitable, Callable, Dict, Iterable, Optional, Set, Union

from ._client import Conversation, until_of
from ._errors import ClosedError, SilentError
from ._library import address_of, unsigned, words_of
from ._links import Carrier, checked, not_blocking
from ._objects import Host
from ._programs import together
from ._serving import CLOSING, UNSPECIFIED, Programs, Replies, close_all, failed, guarded, note_closed
from ._station import Other, Station, file_of
from ._told import Address, Answer, Call, Closed, Event, Reply, rejects

_AGAIN = 1.0  # seconds after which a carrier is looked at again: it may have no file, and of a socket that was closed the loop says nothing

AsyncService = Callable[[Call], Union[Reply, Awaitable[Reply]]]


class _Pump:
    """Carries the packets of a station by the running loop. `turned` is called when packets may have come, or time has passed. `failed` is given an error that
    ends the pump, as that of a socket that was closed."""

    def __init__(self, station: Station, turned: Callable[[], None], failed: Callable[[Exception], None]) -> None:
        self._station, self._turned, self._failed, self._loop = station, turned, failed, asyncio.get_running_loop()
        self._file: Optional[int] = None
        self._waiting = select.epoll()  # the loop has this file alone: the carrier's may be closed, and its number another one's, before a pump hears of it
        self._loop.add_reader(self._waiting.fileno(), self._come)
        self._timer: Optional[asyncio.TimerHandle] = None
        self.is_stopped = False

    def turn(self) -> None:
        """What is to be done after each function of the host: events, packets, and when to come again."""
        if self.is_stopped:
            return
        self._turned()
        self._station.send()
        self._watch(file_of(self._station.carrier))
        if self._timer is not None:
            self._timer.cancel()
        rest = self._station.rest()
        self._timer = self._loop.call_later(_AGAIN if rest is None else min(rest / 1000, _AGAIN), self._come)

    def stop(self) -> None:
        self.is_stopped = True
        if not self._waiting.closed:
            self._loop.remove_reader(self._waiting.fileno())
            self._waiting.close()
        if self._timer is not None:
            self._timer.cancel()

    def turn_alone(self, takes_in: bool = False) -> None:
        """`turn` where nobody waits for it to return, and before it what came, if that is to be taken in."""
        try:
            if takes_in:
                self._station.take_in()
            self.turn()
        except Exception as error:
            self.stop()
            self._failed(error)

    def _come(self) -> None:
        self.turn_alone(True)

    def _watch(self, file: Optional[int]) -> None:
        if file == self._file:
            return
        if self._file is not None:
            with contextlib.suppress(OSError):  # it was closed
                self._waiting.unregister(self._file)
        if file is not None:
            self._waiting.register(file, select.EPOLLIN)
        self._file = file


class AsyncClient:
    """A `Client` in a loop of asyncio: `async with xns.AsyncClient(..) as client`, and then `await client.call(..)`. Between calls it says that it is there,
    where the server asks, so that it is not given up. Calls wait for each other."""

    def __init__(
        self, carrier: Carrier, place: Any, own: Address, peer: Address, timeout: Optional[float] = None, **settings: Optional[int]
    ) -> None:
        """As of `Client`, without `reopens`. Nothing is done before the `async with`, and a call before it is a `ClosedError`."""
        until_of(timeout)
        self._carrier, self._place, self._own, self._peer, self._timeout, self._settings = checked(carrier), place, own, peer, timeout, settings
        self._events: "asyncio.Queue[Union[Event, Exception]]"
        self._calls: asyncio.Lock
        self._last: Union[Closed, Exception, None]  # behind which no event comes
        self._opened: Optional[Conversation] = None

    async def __aenter__(self) -> "AsyncClient":
        self._events, self._calls, self._last, self._opened = asyncio.Queue(), asyncio.Lock(), None, None
        with contextlib.ExitStack() as left:
            host = left.enter_context(Host(self._own, **{**self._settings, "tells_opened": True}))
            left.enter_context(not_blocking(self._carrier))
            self._opened = Conversation(Station(self._carrier, host), self._place, self._own, self._peer)
            self._pump = _Pump(self._conversation.station, self._fetch, self._end)
            left.callback(self._pump.stop)
            self._pump.turn()
            self._left = left.pop_all()
        return self

    @property
    def _conversation(self) -> Conversation:
        if self._opened is None:
            raise ClosedError("the connection is not open: `async with` opens it")
        return self._opened

    async def __aexit__(self, error: Optional[type], *_) -> None:
        try:
            if error is None:
                await self.close()
        finally:
            with self._left:
                self._leave()  # where it is not closed, as its task was cancelled, others may wait still

    async def call(self, program: int, version: int, procedure: int, words: Iterable[int] = (), timeout: Optional[float] = None) -> Answer:
        """What a call is answered, and the errors, as of `Client.call`. The answer to a call whose task was cancelled is let go. A call whose time is over
        while it waits for another one is not made, and closes nothing."""
        numbers, (given, _) = (unsigned(program, 32, "program"), unsigned(version, 16, "version"), unsigned(procedure, 16, "procedure")), words_of(words)
        listed, has_turn, conversation = memoryview(given).cast("H").tolist(), False, self._conversation

        async def answer() -> Answer:
            nonlocal has_turn
            async with self._calls:
                has_turn = True
                while not conversation.put_out(*numbers, listed):
                    await self._next()
                self._forget()
                self._pump.turn()
                return conversation.answer(await self._next())

        return await self._in_time(answer, timeout, "the call was not answered", lambda: has_turn)

    async def close(self, timeout: Optional[float] = None) -> None:
        """Closes the connection, and waits until the server has closed it too. A call that waits meanwhile is still answered, if the answer comes before.
        Errors as of `Client.close`."""
        self._conversation.close()

        async def closed() -> None:
            self._pump.turn()
            while not isinstance(await self._next(), Closed):
                pass

        await self._in_time(closed, timeout, "the server did not close the connection", lambda: True)
        self._conversation.check()

    def _fetch(self) -> None:
        while True:
            was_closed = self._conversation.closed is not None
            event = self._conversation.fetch()
            if event is None or was_closed:
                return
            if isinstance(event, Closed):
                self._end(event)
            else:
                self._events.put_nowait(event)

    def _end(self, last: Union[Closed, Exception]) -> None:
        """No event comes behind this one, which all are told that wait or will."""
        self._last = last
        self._events.put_nowait(last)

    def _leave(self) -> None:
        """Closes, and hears no more of it."""
        self._conversation.leave()
        if self._last is None and self._conversation.closed is not None:
            self._end(self._conversation.closed)

    def _forget(self) -> None:
        """Lets go an answer that nobody waits for."""
        while not self._events.empty():
            self._events.get_nowait()
        if self._last is not None:
            self._events.put_nowait(self._last)

    async def _next(self) -> Event:
        """The next event. The last one stays. Raises the error that has ended the pump."""
        event = await self._events.get()
        if event is self._last:
            self._events.put_nowait(event)
        if isinstance(event, Exception):
            raise event
        return event

    async def _in_time(self, done: Callable[[], Awaitable], timeout: Optional[float], text: str, leaves: Callable[[], bool]) -> Any:
        seconds = self._timeout if timeout is None else timeout
        until_of(seconds)
        told: Optional[Exception] = None

        async def tried() -> Any:
            nonlocal told
            try:
                return await done()
            except asyncio.TimeoutError as error:  # the server is silent, or the carrier: the seconds are not over
                told = error
                raise

        try:
            return await asyncio.wait_for(tried(), seconds)
        except asyncio.TimeoutError as error:
            if error is told:
                raise
            if leaves():
                self._leave()
            raise SilentError(f"{text} in {seconds:g} seconds") from None


class _AsyncServer:
    """One run of `serve_async`."""

    def __init__(self, station: Station, answered: Callable[[Call], Any], stopped: asyncio.Event) -> None:
        self._station, self._host, self._answered, self._replies = station, station.host, answered, Replies(station.host)
        self._tasks: Set[asyncio.Future] = set()
        self._called: Dict[int, Call] = {}  # by the connection the call that is carried out, until the connection is closed
        self._there: Optional[Set[int]] = None  # the connections that are to be closed
        self._error: Optional[Exception] = None
        self._pump = _Pump(station, self._turned, self._failed)
        self._gone, self._stopped = asyncio.Event(), asyncio.ensure_future(stopped.wait())

    async def run(self) -> None:
        """Serves until the event is set, the task is cancelled, or an error ends the pump. Then the connections are closed."""
        try:
            self._pump.turn()
            await asyncio.wait([self._stopped])
            if self._error is None:
                self._stopped.result()
        finally:
            try:
                if self._error is None:
                    await self._close()
            finally:
                self._pump.stop()
                await self._end()
        if self._error is not None:
            raise self._error

    async def _close(self) -> None:
        self._there = close_all(self._host, self._station.now)
        self._pump.turn()
        await self._are_gone()
        if self._called and self._error is None:  # their clients would wait until they give the server up
            called, self._called = self._called, {}
            for call in called.values():
                self._replies.give(self._station.time(), call, rejects(UNSPECIFIED))
            self._pump.turn()
            await self._are_gone()

    async def _are_gone(self) -> None:
        with contextlib.suppress(asyncio.TimeoutError):
            await asyncio.wait_for(self._gone.wait(), CLOSING / 1000)

    async def _end(self) -> None:
        ending = [self._stopped, *self._tasks]
        for task in ending:
            task.cancel()
        await asyncio.gather(*ending, return_exceptions=True)

    def _failed(self, error: Exception) -> None:
        self._error = error
        self._stopped.cancel()

    def _turned(self) -> None:
        for event in self._host.events():
            if isinstance(event, Closed):
                note_closed(self._host, event)
                self._called.pop(event.number, None)
                self._replies.forget(event.number)
                (self._there or set()).discard(event.number)
            elif isinstance(event, Call) and self._there is None:
                self._called[event.number] = event
                task = asyncio.ensure_future(self._carry_out(event))
                self._tasks.add(task)
                task.add_done_callback(self._tasks.discard)
            elif isinstance(event, Call):
                self._replies.give(self._station.now, event, rejects(UNSPECIFIED))
        self._replies.give_kept(self._station.now)
        if self._there is not None and not self._there:
            self._gone.set()

    async def _carry_out(self, call: Call) -> None:
        try:
            reply = self._answered(call)
            if inspect.isawaitable(reply):
                reply = await reply
        except asyncio.CancelledError as error:
            if self._pump.is_stopped:  # the server has ended, and cancels its tasks
                raise
            reply = failed(call, error)  # what it waited for was cancelled
        except Exception as error:
            reply = failed(call, error)
        if self._called.get(call.number) is call:  # else the number may be another connection's by now
            del self._called[call.number]
            self._replies.give(self._station.time(), call, reply)
            self._pump.turn_alone()


async def serve_async(
    carrier: Carrier,
    own: Address,
    programs: Programs,
    answer: Optional[AsyncService] = None,
    other: Other = None,
    stop: Optional[asyncio.Event] = None,
    **settings: Optional[int],
) -> None:
    """Serves clients in a loop of asyncio, as `serve` does. `answer` may be a coroutine function: while it waits, other calls are carried out. The reply
    to a call whose connection is closed meanwhile is let go. It ends once the event is set, or its task is cancelled, and closes the connections; a call that
    is carried out two seconds later still is rejected. An `OSError` says within a second that the socket, or the link, was closed."""
    if stop is not None and not inspect.iscoroutinefunction(getattr(stop, "wait", None)):
        raise TypeError(f"stop is no event of asyncio: it is of type {type(stop).__name__}")
    served, answered = together(programs, answer)
    with Host(own, **settings) as host, not_blocking(checked(carrier)):
        host.serve(address_of(own, "own").socket, served)
        await _AsyncServer(Station(carrier, host, guarded(other)), answered, asyncio.Event() if stop is None else stop).run()
