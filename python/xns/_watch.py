"""Shows the packets of an interface as they come, by `xns calls`."""
import contextlib
import os
import select
import shutil
import signal
import socket
import subprocess
import sys
import time
from typing import BinaryIO, List, Optional

from ._links import FRAME_TYPE

_ALL = 3  # the kernel's number for frames of each type; only so it shows those that this machine sends
_SOL_PACKET, _ADD_MEMBERSHIP, _PROMISCUOUS = 263, 1, 1
_FORCE_ROOM = 33  # SO_RCVBUFFORCE
_ROOM = 1 << 22  # bytes that the kernel keeps meanwhile
_SIZE = 2048
_LOOKED_AT = 200  # milliseconds after which it is looked whether a signal came
_SIGNALLED = 128  # the status of a program that a signal ended is so much and the signal's number, as shells have it
_LEFT = 1.0  # seconds in which what came before the signal is written still, where frames never cease


def program() -> Optional[str]:
    """The program `xns`: the one that was installed with this module, else the one in the search path."""
    prefix, below, _ = os.path.dirname(os.path.abspath(__file__)).rpartition("/share/xns/python/xns")
    beside = prefix + "/bin/xns"
    return beside if below and os.access(beside, os.X_OK) else shutil.which("xns")


class _Frames(socket.socket):
    """The frames of an interface. Where that was taken away, the one that has its name by now is taken for it."""

    def __init__(self, interface: str) -> None:
        super().__init__(socket.AF_PACKET, socket.SOCK_DGRAM, 0)  # nothing comes before it is bound
        self._interface = interface
        try:
            try:
                self.setsockopt(socket.SOL_SOCKET, _FORCE_ROOM, _ROOM)
            except PermissionError:  # it takes CAP_NET_ADMIN; else the system has a limit
                self.setsockopt(socket.SOL_SOCKET, socket.SO_RCVBUF, _ROOM)
            self._bind()
            self.setblocking(False)
        except OSError:
            self.close()
            raise

    def _bind(self) -> None:
        number = socket.if_nametoindex(self._interface)
        self.setsockopt(_SOL_PACKET, _ADD_MEMBERSHIP, number.to_bytes(4, sys.byteorder) + _PROMISCUOUS.to_bytes(2, sys.byteorder) + bytes(10))
        self.bind((self._interface, _ALL))

    def recvfrom(self, size: int) -> tuple:
        if not self.getsockname()[0]:
            self.getsockopt(socket.SOL_SOCKET, socket.SO_ERROR)  # takes the error, for which a poll would never wait
            self._bind()
        return super().recvfrom(size)


def _copy(frames: socket.socket, lines: BinaryIO, count: Optional[int]) -> bool:
    """Writes each packet as a line of hex, up to so many, until SIGINT or SIGTERM comes: what came before that is written still. Whether a signal came.
    `BrokenPipeError` once nobody reads the lines, also where no packet comes."""
    stops: List[float] = []
    for one in (signal.SIGINT, signal.SIGTERM):
        signal.signal(one, lambda *_: stops.append(time.monotonic()))
    waiting = select.poll()
    waiting.register(frames, select.POLLIN)
    waiting.register(lines, 0)  # that it broke is told unasked
    while count is None or count > 0:
        told = [file for file, _ in waiting.poll(0 if stops else _LOOKED_AT)]
        if stops and (frames.fileno() not in told or time.monotonic() > stops[0] + _LEFT):
            break
        if lines.fileno() in told:
            raise BrokenPipeError
        try:
            packet, (_, kind, *_) = frames.recvfrom(_SIZE)
        except OSError:  # nothing is there, or the interface is down for a while
            continue
        if kind == FRAME_TYPE and packet:
            lines.write(packet.hex().encode() + b"\n")
            lines.flush()
            count = None if count is None else count - 1
    return bool(stops)


def _give(frames: socket.socket, words: List[str], count: Optional[int]) -> int:
    """Gives the packets to the program of these words. Its status, but 0 where a signal ended the watch."""
    reader = subprocess.Popen(words, stdin=subprocess.PIPE, start_new_session=True)  # Ctrl-C is for us: it ends with its input
    is_stopped = False
    with contextlib.suppress(BrokenPipeError), reader:  # it may have ended by itself
        is_stopped = _copy(frames, reader.stdin, count)
    if is_stopped:
        return 0
    return reader.returncode if reader.returncode >= 0 else _SIGNALLED - reader.returncode


def watch(interface: str, command: Optional[str], count: Optional[int]) -> int:
    """Gives the packets of an interface to `xns calls` or `xns dump`, or without a command prints them in hex, until Ctrl-C ends it or so many have come.
    The status."""
    with _Frames(interface) as frames:
        if command is None:
            _copy(frames, sys.stdout.buffer, count)
            return 0
        found = program()
        if found is None:
            raise FileNotFoundError("there is no program xns beside this one or in the search path")
        return _give(frames, [found, command], count)
