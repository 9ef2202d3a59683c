"""A host and what carries its packets, as `serve` and `Client` and those of asyncio have it."""
import contextlib
import errno
import select
import socket
import time
from typing import Any, Callable, Dict, Hashable, Optional, Tuple

from ._errors import NoConnectionError, NoMemoryError
from ._library import address_of
from ._links import Carrier
from ._objects import Host
from ._told import Address

_LONGEST_DATAGRAM = 2048
_MOST_AT_ONCE = 64  # packets that are taken in before some go out
_AGAIN = 1000  # milliseconds after which a carrier is looked at again: it may have no file, and no poll says that another thread has closed it
_SOURCE = slice(18, 30)  # where the source stands in a packet

Other = Optional[Callable[[bytes, Any], None]]


def milliseconds() -> int:
    """The time by which hosts go here."""
    return time.monotonic_ns() // 1_000_000


def _spelled(address: Address) -> bytes:
    """An address as it stands in a packet."""
    return address.network.to_bytes(4, "big") + address.host + address.socket.to_bytes(2, "big")


class Places:
    """The places of packets, each with a number by the place and by the source that the packet names. Of too many those go whose source is the peer of no
    connection; the newest stay."""

    MOST = 65536

    def __init__(self, host: Host) -> None:
        self._host, self._next, self._most = host, 0, self.MOST
        self._numbers: Dict[Tuple[Hashable, bytes], int] = {}
        self._places: Dict[int, Tuple[Hashable, bytes]] = {}  # from the oldest on

    def number(self, place: Hashable, source: bytes) -> int:
        """The number of a packet with this source, from or to this place."""
        key = place, source
        number = self._numbers.get(key)
        if number is None:
            if len(self._places) >= self._most:
                self._forget()
            while self._next in self._places:
                self._next = (self._next + 1) % 2**32
            number = self._next
            self._next = (self._next + 1) % 2**32
        else:
            del self._places[number]
        self._numbers[key], self._places[number] = number, key
        return number

    def _forget(self) -> None:
        peers = set()
        for number in self._host.numbers():
            with contextlib.suppress(NoConnectionError):
                peers.add(_spelled(self._host.peer(number)))
        for number, key in list(self._places.items())[:-_MOST_AT_ONCE]:
            if key[1] not in peers:
                del self._places[number], self._numbers[key]
        self._most = max(self.MOST, 2 * len(self._places))

    def __getitem__(self, number: int) -> Any:
        return self._places[number][0]


class Station:
    """Carries the packets of a host. A packet that is not the host's is given to `other`, with the place that it comes from."""

    def __init__(self, carrier: Carrier, host: Host, other: Other = None) -> None:
        self.carrier, self.host, self._other, self._places = carrier, host, other, Places(host)
        self._files, self._waiting = (None, None), select.poll()
        self.now = milliseconds()  # of this turn: what comes while a call is carried out is read before anything is due for want of it

    def time(self) -> int:
        """The time, which from now on is that of this turn: a host that is told an older time behind a newer one counts the step between them twice."""
        self.now = milliseconds()
        return self.now

    def connect(self, place: Any, own: Address, peer: Address) -> int:
        """Opens a connection to the peer, whose packets go to this place; its number."""
        there = address_of(peer, "peer")
        return self.host.connect(self.time(), self._places.number(place, _spelled(there)), address_of(own, "own").socket, there)

    def send(self) -> None:
        """Sends what is to go out. What can't be sent is as what is lost. What is refused memory stays, and the host wants to be asked again."""
        with contextlib.suppress(NoMemoryError):
            for via, packet in self.host.packets(self.now):
                with contextlib.suppress(OSError):
                    self.carrier.sendto(packet, self._places[via])

    def take_in(self) -> None:
        """Takes in the packets that are there, but not more at once than a few. `OSError` of a carrier that is closed."""
        self.time()
        for _ in range(_MOST_AT_ONCE):
            try:
                packet, place = self.carrier.recvfrom(_LONGEST_DATAGRAM)
            except ConnectionError:  # a datagram before did not arrive
                continue
            except OSError as error:  # nothing is there, or the network is down
                if error.errno == errno.EBADF and file_of(self.carrier) is None:
                    raise OSError(errno.EBADF, "the carrier is closed") from None
                return
            if place is None and isinstance(self.carrier, socket.socket):  # of a socket without a name, to which nothing can be sent
                continue
            if not self.host.receive(self.now, self._places.number(place, packet[_SOURCE]), packet) and self._other is not None:
                self._other(packet, place)

    def rest(self, until: Optional[int] = None) -> Optional[int]:
        """How many milliseconds there are until the host wants to be asked, or until this time. None: nothing is to be done until something comes."""
        wakes = [time for time in (self.host.wake(), until) if time is not None]
        return max(0, min(wakes) - milliseconds()) if wakes else None

    def wait(self, until: Optional[int] = None, also: Optional[int] = None, most: int = _AGAIN) -> None:
        """Waits until a packet comes, the host wants to be asked, this time is there, so many milliseconds have passed, or `also`, a file, can be read.
        Whoever calls it again is told by an `OSError` that the carrier was closed meanwhile."""
        rest, file = self.rest(until), file_of(self.carrier)
        if self._files != (file, also):
            self._files, self._waiting = (file, also), select.poll()
            for one in (file, also):
                if one is not None:
                    self._waiting.register(one, select.POLLIN)
        self._waiting.poll(most if rest is None else min(most, rest))
        self.time()


def file_of(carrier: Carrier) -> Optional[int]:
    """The file of a carrier. None while it has none. `OSError` of a socket or a link that is closed."""
    file = carrier.fileno()
    if file < 0 and isinstance(carrier, socket.socket):
        raise OSError(errno.EBADF, "the socket is closed")
    return None if file < 0 else file
