"""What carries packets: the protocol of a carrier, frames on Ethernet, and the hubs of emulators."""
import contextlib
import errno
import os
import secrets
import select
import socket
import time
from typing import Any, Iterator, Optional, Protocol, Tuple, runtime_checkable

from ._library import octets

FRAME_TYPE = 0x0600  # the type of an Ethernet frame that has an internet packet in it
BROADCAST = b"\xff" * 6  # the host that is all hosts, and the station that is all stations
_HEAD = 14  # bytes of a frame before the packet
_LEAST = 46  # bytes of data that a frame has at least
_TO_OTHERS, _SENT = 3, 4  # kinds of frames, as the kernel tells them
_LENGTH = 2  # bytes of length before each frame in a hub's stream
_MOST_PASSED = 64  # frames that are passed over at a time: where they never cease, whoever asks looks at the time in between


@runtime_checkable
class Carrier(Protocol):
    """What `serve` and `Client` want of what carries their packets. A `socket.socket` for datagrams is one; another is a class with these four methods.

    A place is where a packet comes from or goes to: what `recvfrom` gives is given back to `sendto`. It can be a key of a dict."""

    def fileno(self) -> int:
        """The file that can be read once a packet is there. Below 0 while there is none: it is then asked for again within a second. An `OSError` ends whoever
        asks, as that of a link that is closed."""

    def setblocking(self, flag: bool) -> None:
        """Is called with False before the first packet."""

    def recvfrom(self, size: int) -> Tuple[bytes, Any]:
        """The next packet that is there, and its place. `BlockingIOError`, or another `OSError`, where there is none: a network that is down ends nothing. But
        one of EBADF, as of a closed socket, ends whoever asks, where there is no file either."""

    def sendto(self, packet: bytes, place: Any) -> Any:
        """Sends a packet to a place. An `OSError` is as a packet that is lost."""


def checked(carrier: Carrier) -> Carrier:
    """The carrier, which has the four methods."""
    if not isinstance(carrier, Carrier):
        raise TypeError(f"carrier lacks a method of xns.Carrier: it is of type {type(carrier).__name__}")
    return carrier


@contextlib.contextmanager
def not_blocking(carrier: Carrier) -> Iterator[None]:
    """The carrier does not block meanwhile. A socket's own timeout is then again what it was."""
    timeout = carrier.gettimeout() if isinstance(carrier, socket.socket) else None
    carrier.setblocking(False)
    try:
        yield
    finally:
        if isinstance(carrier, socket.socket) and carrier.fileno() >= 0:
            carrier.settimeout(timeout)


class _Link:
    """A carrier that is closed by `close`, or at the end of a `with`. `station`: the six bytes of its own station."""

    station: bytes
    _is_closed = False

    def close(self) -> None:
        """Ends the link, for good."""
        self._is_closed = True

    def _check(self) -> None:
        if self._is_closed:
            raise OSError(errno.EBADF, "the link is closed")

    def __enter__(self):
        return self

    def __exit__(self, *_) -> None:
        self.close()


class Ethernet(_Link):
    """Packets in frames of type 0600 at an interface, as XNS ran on Ethernet. A place is the station that a packet comes from or goes to."""

    _is_down = False  # whether there was an error since the last frame came

    def __init__(self, interface: str) -> None:
        if not isinstance(interface, str):
            raise TypeError(f"interface is no name: it is of type {type(interface).__name__}")
        self._interface = interface
        self._socket = socket.socket(socket.AF_PACKET, socket.SOCK_DGRAM, 0)  # nothing comes before it is bound
        try:
            self._socket.bind((interface, FRAME_TYPE))
        except OSError:
            self._socket.close()
            raise
        self.station = self._socket.getsockname()[4]

    def close(self) -> None:
        """Ends the link, for good."""
        super().close()
        self._socket.close()

    def fileno(self) -> int:
        """The file of its frames. `OSError` once it is closed."""
        self._check()
        return self._socket.fileno()

    def setblocking(self, flag: bool) -> None:
        """Whether the other methods wait."""
        self._socket.setblocking(flag)

    def recvfrom(self, size: int) -> Tuple[bytes, bytes]:
        """The next packet to this station or to all, and the station that it comes from. Frames to others, which come where the interface is promiscuous,
        and those that this machine sends are passed over. `BlockingIOError` behind so many of them, as where nothing is there."""
        for _ in range(_MOST_PASSED):
            packet, (_, _, kind, _, station) = self._frame(size)
            if kind not in (_TO_OTHERS, _SENT) and packet:
                return packet, station
        raise BlockingIOError

    def _name(self) -> str:
        """The name that the interface has by now. Where it was taken away, the one that has the name that was given is taken for it."""
        name = self._socket.getsockname()[0]
        if not name:
            self._socket.getsockopt(socket.SOL_SOCKET, socket.SO_ERROR)  # takes the error, for which a poll would never wait
            self._socket.bind((self._interface, FRAME_TYPE))
        return name or self._interface

    def _frame(self, size: int) -> tuple:
        if self._is_down:
            self._name()
        try:
            frame = self._socket.recvfrom(size)
        except OSError as error:
            self._note(error)
            raise
        self._is_down = False
        return frame

    def sendto(self, packet: bytes, station: bytes) -> int:
        """Sends a packet, padded to the shortest frame."""
        try:
            return self._socket.sendto(packet.ljust(_LEAST, b"\0"), (self._name(), FRAME_TYPE, 0, 0, station))
        except OSError as error:
            self._note(error)
            raise

    def _note(self, error: OSError) -> None:
        """Notes that the interface is down: the kernel says so once, to whoever asks first."""
        self._is_down = self._is_down or not isinstance(error, BlockingIOError)


class NetHub(_Link):
    """Packets by way of a hub of emulators: a stream of TCP with Ethernet frames in it, each behind two bytes of its length. A place is the station that a
    packet comes from or goes to. A hub that is gone is a network that is down: a second later the link is made again. One that is gone without a word, as where
    its machine fell silent, is so within half a minute."""

    AGAIN = 1.0  # seconds from the end of one attempt to reach the hub to the next
    REACHED = 2.0  # seconds in which the hub replies, or is gone
    ASKED = 10  # seconds without a byte after which the hub's system is asked whether it has the stream, and from one such question to the next
    _ASKED_IN_VAIN = 2  # how many questions go out, each without a reply, before the hub is gone
    _until: Optional[float] = None  # the time by which the hub is to reply, while it is asked for a stream

    def __init__(self, host: str, port: int, station: Optional[bytes] = None) -> None:
        """`OSError` where the hub is not there, which may take as long as `REACHED` says, for each address that its name has. The name is looked up here
        alone. Without a station it is one of no maker's, at random."""
        self.station = bytes([2]) + secrets.token_bytes(5) if station is None else octets(station, "station")
        if len(self.station) != 6:
            raise ValueError(f"station has {len(self.station)} bytes, and not six")
        self._stream: Optional[socket.socket] = None
        self._came, self._tried, self._places = b"", 0.0, socket.getaddrinfo(host, port, type=socket.SOCK_STREAM)
        for left in reversed(range(len(self._places))):
            try:
                self._join(self._open(), self.REACHED)
                return
            except OSError:
                if not left:
                    raise

    def _open(self) -> socket.socket:
        """A stream that the hub is asked for, at the first of its addresses."""
        family, kind, protocol, _, place = self._places[0]
        stream = socket.socket(family, kind, protocol)
        self._stream, self._until = stream, time.monotonic() + self.REACHED
        if self._is_closed:  # by another thread meanwhile
            self._lose()
            self._check()
        stream.setblocking(False)
        stream.setsockopt(socket.SOL_SOCKET, socket.SO_KEEPALIVE, 1)  # who only waits for packets would not learn that the hub has forgotten the stream
        of_tcp = {socket.TCP_NODELAY: 1, socket.TCP_KEEPIDLE: self.ASKED, socket.TCP_KEEPINTVL: self.ASKED, socket.TCP_KEEPCNT: self._ASKED_IN_VAIN}
        for name, value in of_tcp.items():
            stream.setsockopt(socket.IPPROTO_TCP, name, value)
        self._miss(stream.connect_ex(place))
        return stream

    def _join(self, stream: socket.socket, seconds: float = 0) -> None:
        """The hub has replied, at the latest in so many seconds. `BlockingIOError` where it may still."""
        if _takes_more(stream, seconds):
            self._miss(stream.getsockopt(socket.SOL_SOCKET, socket.SO_ERROR))
            self._until = None
        elif time.monotonic() < self._until:
            raise BlockingIOError
        else:
            self._miss(errno.ETIMEDOUT)

    def _miss(self, error: int) -> None:
        """Where there was an error, the hub is not at this address: its next one is tried the next time. Raises the error."""
        if error not in (0, errno.EINPROGRESS):
            self._lose()
            self._places = self._places[1:] + self._places[:1]
            raise OSError(error, os.strerror(error))

    def _reached(self) -> socket.socket:
        """The stream. `OSError` while the hub is gone, and once it is left."""
        self._check()
        stream = self._stream  # another thread may close it
        if stream is None:
            if time.monotonic() < self._tried + self.AGAIN:
                raise BlockingIOError
            stream = self._open()
        if self._until is not None:
            self._join(stream)
        return stream

    def _lose(self) -> None:
        stream, self._stream, self._came, self._tried = self._stream, None, b"", time.monotonic()
        if stream is not None:
            stream.close()

    def close(self) -> None:
        """Leaves the hub, for good."""
        super().close()
        self._lose()

    def fileno(self) -> int:
        """The file of its stream, also while the hub is asked for one; below 0 while there is none. `OSError` once it is closed."""
        self._check()
        stream = self._stream  # another thread may close it
        return -1 if stream is None else stream.fileno()

    def setblocking(self, flag: bool) -> None:
        """Changes nothing: the other methods wait for no packet, and for no hub that is gone. They wait for one that takes nothing as long as `AGAIN` says;
        in a loop of asyncio all else waits then too."""

    def recvfrom(self, _: int) -> Tuple[bytes, bytes]:
        """The next packet to this station or to all, and the station that it comes from. Other frames are passed over, as those of `Ethernet`."""
        for _ in range(_MOST_PASSED):
            frame = self._frame()
            target, source, kind = frame[:6], frame[6:12], int.from_bytes(frame[12:_HEAD], "big")
            if target in (self.station, BROADCAST) and source != self.station and kind == FRAME_TYPE and len(frame) > _HEAD:
                return frame[_HEAD:], source
        raise BlockingIOError

    def _frame(self) -> bytes:
        """The next whole frame. No more of the stream is read: what the link kept would be seen by no poll."""
        while True:
            wanted = _LENGTH if len(self._came) < _LENGTH else _LENGTH + int.from_bytes(self._came[:_LENGTH], "big")
            if len(self._came) >= _LENGTH and len(self._came) == wanted:
                frame, self._came = self._came[_LENGTH:], b""
                return frame
            self._read(wanted - len(self._came))

    def _read(self, size: int) -> None:
        """Reads so many bytes at most."""
        stream = self._reached()
        try:
            more = stream.recv(size)
            self._came += more
        except BlockingIOError:
            raise
        except OSError:
            more = b""
        except BaseException:  # Ctrl-C, and perhaps bytes were read: without them the stream is of no more use
            self._lose()
            raise
        if not more:
            self._lose()
            raise BlockingIOError

    def sendto(self, packet: bytes, station: bytes) -> int:
        """Sends a packet, padded to the shortest frame. A hub that takes no more for a second is gone."""
        frame = (station + self.station + FRAME_TYPE.to_bytes(2, "big") + packet).ljust(_HEAD + _LEAST, b"\0")
        rest, stream = len(frame).to_bytes(_LENGTH, "big") + frame, self._reached()
        try:
            while rest:
                try:
                    rest = rest[stream.send(rest) :]
                except BlockingIOError:
                    if not _takes_more(stream, self.AGAIN):
                        raise ConnectionError("the hub takes nothing") from None
        except BaseException:  # also Ctrl-C: behind a part of a frame the stream is of no more use
            self._lose()
            raise
        return len(packet)


def _takes_more(stream: socket.socket, seconds: float) -> bool:
    """Whether a stream takes more, within so many seconds."""
    file, waiting = stream.fileno(), select.poll()
    if file < 0:  # another thread has closed it
        return False
    waiting.register(file, select.POLLOUT)
    return bool(waiting.poll(1000 * seconds))


def ethernet(interface: str) -> Ethernet:
    """What carries packets on this interface, as `eth0`. `PermissionError` without the right CAP_NET_RAW; another `OSError` where there is no such interface.
    One that is down, or taken away, is as a network that loses all, until it is up, or there is one of the name that was given. One that is renamed stays the
    same."""
    return Ethernet(interface)


def nethub(host: str, port: int, station: Optional[bytes] = None) -> NetHub:
    """What carries packets by way of the hub of emulators that listens there. `OSError` where it does not. Each station of a hub is another one."""
    return NetHub(host, port, station)
