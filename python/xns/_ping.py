"""Asks Echo sockets, and says what came back, as ping does."""
import secrets
import select
import time
from typing import Callable, List, Optional, Set, Tuple

from ._links import BROADCAST
from ._packets import decode, echo_accept, echo_request
from ._reached import Network, spelled
from ._told import Address

MARK = 8  # bytes at the front of what is sent back: they tell the replies of one run from others, for an Echo packet has no identifier
LEAST = MARK + 4  # with the number of the request
MOST = 544
_SIZE = 2048
_MOST_AT_ONCE = 64  # packets that are taken in before the time is looked at


class Ping:
    """One run: its requests, their times, and what came back."""

    def __init__(self, network: Network, target: Address, size: int, say: Callable[[str], None]) -> None:
        self._network, self._target, self._say = network, target, say
        self._own, self._mark, self._filler = network.own(), secrets.token_bytes(MARK), bytes(range(256)) * 3
        self._size = size
        self._sent: List[float] = []  # when each request went out
        self._times: List[float] = []  # milliseconds that each reply took
        self._came: Set[Tuple[Address, int]] = set()
        self._again = 0

    def run(self, count: Optional[int], interval: float, wait: float) -> int:
        """Sends so many requests, or until Ctrl-C ends it; 0 where a reply came, else 1."""
        self._say(f"ping {spelled(self._target)}: {self._size} bytes")
        try:
            while count is None or len(self._sent) < count:
                self._ask()
                is_last = len(self._sent) == count
                self._hear(wait if is_last else interval, is_last)
        except KeyboardInterrupt:
            pass
        self._sum_up()
        return 0 if self._came else 1

    def _ask(self) -> None:
        body = (self._mark + len(self._sent).to_bytes(4, "big") + self._filler)[: self._size]
        self._sent.append(time.monotonic())
        try:
            self._network.link.sendto(echo_request(self._own, self._target, body), self._network.place(self._target))
        except OSError:  # the network is down: the request is lost
            pass

    def _is_done(self) -> bool:
        """Whether nothing more is waited for: the one host that was asked has replied to each request."""
        return self._target.host != BROADCAST and self._answered() == len(self._sent)

    def _answered(self) -> int:
        return len({number for _, number in self._came})

    def _hear(self, seconds: float, is_last: bool) -> None:
        """Takes in replies for so many seconds; the wait after the last request ends where nothing more is waited for."""
        until = time.monotonic() + seconds
        while not (is_last and self._is_done()):
            rest = until - time.monotonic()
            if rest <= 0:
                return
            file = self._network.link.fileno()
            select.select([] if file < 0 else [file], [], [], min(rest, 1.0 if file < 0 else rest))
            for _ in range(_MOST_AT_ONCE):
                try:
                    packet, _ = self._network.link.recvfrom(_SIZE)
                except OSError:
                    break
                self._take(packet)

    def _take(self, packet: bytes) -> None:
        body = echo_accept(self._target, packet)
        if body is None or len(body) != self._size or not body.startswith(self._mark):
            return
        number = int.from_bytes(body[MARK:LEAST], "big")
        source = decode(packet).source
        if number >= len(self._sent):
            return
        took = 1000 * (time.monotonic() - self._sent[number])
        again = (source, number) in self._came
        self._again += again
        self._came.add((source, number))
        if not again:
            self._times.append(took)
        self._say(f"{self._size} bytes from {spelled(source)}: seq={number + 1} time={took:.3f} ms{' (again)' if again else ''}")

    def _sum_up(self) -> None:
        answered, sent = self._answered(), len(self._sent)
        self._say(f"--- {spelled(self._target)}")
        more = f", {self._again} again" if self._again else ""
        if self._target.host == BROADCAST:
            more += f", from {len({source for source, _ in self._came})} hosts"
        self._say(f"{sent} sent, {answered} answered{more}, {0 if not sent else 100 - 100 * answered // sent}% lost")
        if self._times:
            self._say(f"time min/mean/max = {min(self._times):.3f}/{sum(self._times) / len(self._times):.3f}/{max(self._times):.3f} ms")
