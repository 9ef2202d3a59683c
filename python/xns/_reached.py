"""Addresses as the words of a command have them, and the networks that it reaches."""
import contextlib
import random
import re
import socket
from typing import Any, Optional, Tuple

from ._links import BROADCAST, Ethernet, NetHub
from ._told import Address

LOCAL = "127.0.0.1"
USUAL_NETWORK = 1
CLIENT_HOST, SERVER_HOST = bytes.fromhex("0000aa000304"), bytes.fromhex("0000aa000102")  # those of the examples
_FIRST_SOCKET, _LAST_SOCKET = 3001, 63000  # nobody hands out sockets: one at random is hardly another program's


def spelled(address: Address) -> str:
    """An address as `xns calls` prints it."""
    return f"{address.network:08x}.{address.host.hex()}.{address.socket:04x}"


def read_host(text: str) -> bytes:
    """A host: twelve digits of hex, with colons or without; `all` is each. `ValueError`."""
    if text == "all":
        return BROADCAST
    if not re.fullmatch(r"[0-9a-fA-F]{12}|([0-9a-fA-F]{2}[:-]){5}[0-9a-fA-F]{2}", text):
        raise ValueError(f"{text} is no host, which is twelve digits of hex")
    return bytes.fromhex(re.sub("[:-]", "", text))


def read_address(text: str, network: int, socket_number: int) -> Address:
    """An address: HOST, NETWORK.HOST or NETWORK.HOST.SOCKET, in hex; what is not said is the one that is given. `ValueError`."""
    match = re.fullmatch(r"(?:([0-9a-fA-F]{1,8})\.)?([^.]+)(?:\.([0-9a-fA-F]{1,4}))?", text)
    if match is None or match[3] and not match[1]:
        raise ValueError(f"{text} is no address, which is HOST, NETWORK.HOST or NETWORK.HOST.SOCKET in hex")
    return Address(int(match[1], 16) if match[1] else network, read_host(match[2]), int(match[3], 16) if match[3] else socket_number)


class Network:
    """A network that a command reaches: what carries packets there, and who it is itself. It is closed at the end of a `with`."""

    def __init__(self, link: Any, number: int, host: bytes, place: Optional[Tuple[str, int]] = None) -> None:
        self.link, self._number, self._host, self._place = link, number, host, place
        link.setblocking(False)

    def own(self, socket_number: Optional[int] = None) -> Address:
        """The station's own address; without a socket, of one at random."""
        number = random.SystemRandom().randrange(_FIRST_SOCKET, _LAST_SOCKET) if socket_number is None else socket_number
        return Address(self._number, self._host, number)

    def place(self, address: Address) -> Any:
        """Where packets to this address go. There are no routers: its host is the station."""
        return address.host if self._place is None else self._place

    def __enter__(self) -> "Network":
        return self

    def __exit__(self, *_) -> None:
        self.link.close()


def over_udp(port: int, number: int, host: Optional[bytes], serves: bool) -> Network:
    """One packet a datagram on this machine: a server's port is its own, a client's the one that its packets go to."""
    with contextlib.ExitStack() as opened:
        udp = opened.enter_context(socket.socket(socket.AF_INET, socket.SOCK_DGRAM))
        udp.bind((LOCAL, port if serves else 0))
        opened.pop_all()
    return Network(udp, number, host or (SERVER_HOST if serves else CLIENT_HOST), None if serves else (LOCAL, port))


def over_ethernet(interface: str, number: int) -> Network:
    """Frames at an interface, as the station that it has."""
    link = Ethernet(interface)
    return Network(link, number, link.station)


def over_nethub(place: Tuple[str, int], number: int, host: Optional[bytes]) -> Network:
    """Frames by way of a hub of emulators."""
    link = NetHub(*place, host)
    return Network(link, number, link.station)
