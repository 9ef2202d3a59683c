"""Servers and clients of Xerox's Courier, and the packets of the Xerox Network Systems.

A server is one function. This one returns to each call the words that it has:

    with socket.socket(socket.AF_INET, socket.SOCK_DGRAM) as udp:
        udp.bind(("127.0.0.1", 4000))
        own = xns.Address(1, bytes.fromhex("0000aa000102"), 5)
        xns.serve(udp, own, [(7, 1, 1)], lambda call: xns.returns(call.words))

And a client of it is this. Its socket, 3000, is one that no other client of its host has:

    own = xns.Address(1, bytes.fromhex("0000aa000304"), 3000)
    peer = xns.Address(1, bytes.fromhex("0000aa000102"), 5)
    with socket.socket(socket.AF_INET, socket.SOCK_DGRAM) as udp:
        with xns.Client(udp, ("127.0.0.1", 4000), own, peer, timeout=10) as client:
            print(client.call(7, 1, 1, [5, 6]).words)

By name and value, where a program is written in Courier's notation, the same is

    tally = xns.read_programs("tally.courier")["Tally"]
    xns.serve(udp, own, [tally.server(service)])    # service.Add(amount) gives the total
    print(tally.client(client).Add(5))

On Ethernet the socket is `xns.ethernet("eth0")`, and by way of a hub of emulators
`xns.nethub("127.0.0.1", 3333)`; the place of a peer is then the host of its address. `Carrier` says
what else can carry packets. In a loop of asyncio there are `serve_async` and `AsyncClient`. For
another loop there is `Host`, for what is no call of Courier's `Endpoint`, for the values in words
`Reader` and `Writer`, and for packets `decode`, `encode` and others.

Bytes go in and come out as `bytes`, words as lists of numbers below 65,536. Each error of the
module is an `XnsError`: where the library returns another result than that it was done, the one of
its name is raised, as `TooLongError`. A value of another type is a `TypeError`, and a number that
is too large a `ValueError`, with the name of the argument. That there is nothing of what was asked
for is no error: the function then returns None.

The module uses the shared library `libxns.so`: the one that the environment's XNS_LIBRARY names,
else the one that `install.sh` installed with this module, else the one that the system finds. What
the library does is proved; this module is not. It needs Python 3.8 or later and nothing else.
docs/PYTHON.md has more on it; docs/C.md says when a program calls which function, and
docs/C-REFERENCE.md which functions there are.

An object is used by the thread that made it alone; `Server.stop` can be called by any. An object
gives its memory back when it is freed, by `free` or at the end of a `with`, or when Python lets it
go in that thread; the memory of one that is let go in another thread stays taken."""
import importlib
from typing import Any, List

from . import _errors
from ._client import Client
from ._errors import ArgumentsError, ClosedError, LibraryError, NoCallError, NotServedError, SilentError, XnsError
from ._library import version
from ._links import Carrier, Ethernet, NetHub, ethernet, nethub
from ._objects import Endpoint, Host
from ._packets import (
    checksum, complain, decode, echo_accept, echo_reply, echo_request, encode, error_read, exchange_accept, exchange_read, exchange_reply, exchange_request,
    exchange_write, header_read, header_write, message_read, message_write, new_identifier, opening,
)
from ._programs import AbortedError, DeclaredError, Program, Programs, RejectedError, TypedServer, read_programs
from ._serving import UNSPECIFIED, Server, serve
from ._told import (
    LONGEST_ITEM, LONGEST_PACKET, MOST_CALL_WORDS, MOST_MESSAGE_WORDS, MOST_WINDOW, Address, Answer, Call, Closed, Control, Dropped, Event, Header, Item, Kind,
    Message, NotationReason, Opened, Packet, PacketType, Received, Reject, Reply, Result, Stream, Why, aborts, rejects, returns,
)
from ._values import Reader, Writer

_OF_RESULTS = {error.__name__: error for error in _errors.BY_RESULT.values()}
globals().update(_OF_RESULTS)

__all__ = [
    "serve", "Client", "Server", "returns", "aborts", "rejects", "Address", "Call", "Answer", "Reply", "Reader", "Writer",
    "read_programs", "Programs", "Program", "TypedServer", "DeclaredError", "AbortedError", "RejectedError",
    "ethernet", "nethub", "Carrier", "Ethernet", "NetHub", "serve_async", "AsyncClient",
    "XnsError", "SilentError", "ClosedError", "NotServedError", "ArgumentsError", "NoCallError", "LibraryError", *_OF_RESULTS,
    "Host", "Event", "Opened", "Closed", "Endpoint", "Item", "Received", "Packet", "Header", "Message",
    "Kind", "Reject", "UNSPECIFIED", "Why", "Result", "NotationReason", "Dropped", "PacketType", "Control", "Stream",
    "checksum", "decode", "encode", "echo_reply", "echo_request", "echo_accept", "complain", "error_read", "exchange_read", "exchange_write",
    "exchange_request", "exchange_accept", "exchange_reply", "header_read", "header_write", "message_read", "message_write", "new_identifier", "opening",
    "version", "LONGEST_PACKET", "LONGEST_ITEM", "MOST_WINDOW", "MOST_CALL_WORDS", "MOST_MESSAGE_WORDS",
]
_LATE = ("serve_async", "AsyncClient")  # asyncio takes as long to load as all else: who does not use it does not wait for it


def _named(one: Any) -> Any:
    """A class or function of the package, with the name that programs import it by."""
    if getattr(one, "__module__", "").startswith(f"{__name__}."):
        one.__module__ = __name__
    return one


def __getattr__(name: str) -> Any:
    if name not in _LATE:
        raise AttributeError(f"module {__name__!r} has no attribute {name!r}")
    globals()[name] = found = _named(getattr(importlib.import_module("._asynchronous", __name__), name))
    return found


def __dir__() -> List[str]:
    return sorted({*globals(), *_LATE})


for _name in set(__all__) - set(_LATE):
    _named(globals()[_name])
del _name
