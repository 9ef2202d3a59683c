"""The command `xns-net`: asks Echo sockets, calls, serves, and shows packets. `python3 -m xns.net --help` says more."""
import argparse
import contextlib
import importlib
import inspect
import os
import re
import signal
import sys
from typing import Any, Callable, List, Optional, Tuple

from ._client import Client
from ._errors import XnsError
from ._library import version
from ._links import BROADCAST
from ._named import Named, plain
from ._objects import Host
from ._ping import LEAST, MOST, Ping
from ._reached import USUAL_NETWORK, Network, over_ethernet, over_nethub, over_udp, read_address, read_host, spelled
from ._serving import Server
from ._told import Address, Call, Kind, Reject, Reply, rejects, returns
from ._values import Reader, Writer
from ._watch import watch

ECHO, COURIER = 2, 5  # sockets
DONE, FAILED, WRONG_WORDS, NOT_RETURNED, INTERRUPTED = 0, 1, 2, 3, 130  # statuses

_ADDRESS = "HOST, NETWORK.HOST or NETWORK.HOST.SOCKET, in hex as `xns calls` prints them; a host may have colons, and `all` is each host"
_SERVICE = """what answers calls: a function of a `xns.Call` that gives a reply, or a class of such objects; without it a tally: program 7, version 1,
procedure 1 adds a cardinal, procedure 2 returns its words"""
_PROGRAM = "a program that is served, with its versions; else those that the service has as `programs`, else each"
_PROGRAMS = """a program in Courier's notation, by whose names and types calls are made and answers printed; again for each file, what one depends upon before it"""
_END = """statuses: 0 done; 1 the network or the other side failed; 2 wrong words; 3 a call was aborted or rejected; 130 Ctrl-C ended a call"""


class Tally:
    """The service of the examples. Procedure 1 adds a cardinal to the total and returns that; procedure 2 returns its words."""

    programs = [(7, 1, 1)]

    def __init__(self) -> None:
        self._total = 0

    def __call__(self, call: Call) -> Reply:
        if call.procedure == 2:
            return returns(call.words)
        if call.procedure != 1:
            return rejects(Reject.NO_SUCH_PROCEDURE)
        arguments = Reader(call.words)
        number = arguments.cardinal()
        arguments.end()
        self._total = (self._total + number) % 2**32
        return returns(Writer().long_cardinal(self._total).words)


# ---- the words


def _whole(low: int, high: int) -> Callable[[str], int]:
    def read(text: str) -> int:
        if not re.fullmatch("[0-9]{1,10}", text) or not low <= int(text) <= high:
            raise argparse.ArgumentTypeError(f"{text} is no number from {low} to {high}")
        return int(text)

    return read


def _word(text: str) -> int:
    if not re.fullmatch("[0-9a-fA-F]{4}", text):
        raise argparse.ArgumentTypeError(f"{text} is no word, which is four digits of hex")
    return int(text, 16)


def _hex_number(text: str) -> int:
    if not re.fullmatch("[0-9a-fA-F]{1,8}", text):
        raise argparse.ArgumentTypeError(f"{text} is no network, which is up to eight digits of hex")
    return int(text, 16)


def _seconds(text: str) -> float:
    try:
        seconds = float(text)
    except ValueError:
        seconds = -1
    if not 0 < seconds < 10**6:
        raise argparse.ArgumentTypeError(f"{text} is no number of seconds")
    return seconds


def _hub(text: str) -> Tuple[str, int]:
    host, _, port = text.rpartition(":")
    return host or "127.0.0.1", _whole(1, 65535)(port)


def _host(text: str) -> bytes:
    try:
        return read_host(text)
    except ValueError as error:
        raise argparse.ArgumentTypeError(str(error)) from None


def _program(text: str) -> Tuple[int, int, int]:
    match = re.fullmatch("([0-9]{1,10}):([0-9]{1,5})(?:-([0-9]{1,5}))?", text)
    if not match:
        raise argparse.ArgumentTypeError(f"{text} is no program, as 7:1 or 7:1-3")
    number, low, high = int(match[1]), int(match[2]), int(match[3] or match[2])
    if number >= 2**32 or not low <= high < 2**16:
        raise argparse.ArgumentTypeError(f"{text} is no program, whose versions go from the lower to the higher")
    return number, low, high


def _own_host(text: str) -> bytes:
    host = _host(text)
    if host == BROADCAST:
        raise argparse.ArgumentTypeError(f"{text} is each host, and no host of one's own")
    return host


def _with_network(parser: argparse.ArgumentParser) -> None:
    links = parser.add_mutually_exclusive_group(required=True)
    links.add_argument("-i", "--ethernet", metavar="IFACE", help="over Ethernet at this interface, as its station; needs the right CAP_NET_RAW")
    links.add_argument("--nethub", metavar="HOST:PORT", type=_hub, help="by way of the hub of emulators that listens there")
    links.add_argument("--udp", metavar="PORT", type=_whole(1, 65535), help="in datagrams on this machine: to this port, or for serve at it")
    parser.add_argument("--network", metavar="HEX", type=_hex_number, default=USUAL_NETWORK, help="the network that this host is on (1)")
    parser.add_argument("--station", metavar="HOST", type=_own_host, help="this host's own number, over UDP or a hub")


def _parser() -> argparse.ArgumentParser:
    parser = argparse.ArgumentParser(prog="xns-net", description="Asks, calls, serves and watches hosts of the Xerox Network Systems.", epilog=_END)
    parser.add_argument("--version", action="version", version=f"xns-net {version()}")
    commands = parser.add_subparsers(dest="command", metavar="COMMAND", required=True)
    ping = commands.add_parser("ping", help="ask the Echo socket of a host, or of all", epilog=_END)
    ping.add_argument("address", metavar="ADDRESS", help=_ADDRESS)
    ping.add_argument("-c", "--count", type=_whole(1, 10**9), help="requests; without it until Ctrl-C")
    ping.add_argument("-s", "--size", type=_whole(LEAST, MOST), default=56, help=f"bytes of each request, from {LEAST} to {MOST} (56)")
    ping.add_argument("--interval", type=_seconds, default=1.0, help="seconds from one request to the next (1)")
    ping.add_argument("--wait", type=_seconds, default=1.0, help="seconds for the reply to the last one (1)")
    call = commands.add_parser("call", help="call a procedure, and print what it is answered", epilog=_END)
    call.add_argument("address", metavar="ADDRESS", help=f"{_ADDRESS}; the socket is 5 where none is said")
    call.add_argument("program", metavar="PROGRAM", help="its number, or its name")
    call.add_argument("version", metavar="VERSION", type=_whole(0, 65535))
    call.add_argument("procedure", metavar="PROCEDURE", help="its number, or its name")
    call.add_argument("arguments", metavar="ARGUMENT", nargs="*", help="each word four digits of hex; by name each a value, as `xns calls` prints it")
    call.add_argument("--programs", metavar="FILE", action="append", help=_PROGRAMS)
    call.set_defaults(parser=call)
    call.add_argument("--timeout", type=_seconds, default=10.0, help="seconds for the answer (10)")
    serve = commands.add_parser("serve", help="serve calls until Ctrl-C or SIGTERM ends it", epilog=_END)
    serve.add_argument("service", metavar="MODULE:NAME", nargs="?", help=_SERVICE)
    serve.add_argument("--program", metavar="N:LOW-HIGH", type=_program, action="append", help=_PROGRAM)
    serve.add_argument("--socket", metavar="N", type=_whole(1, 65535), default=COURIER, help="the socket (5)")
    for one in (ping, call, serve):
        _with_network(one)
    watched = commands.add_parser("watch", help="show the packets of an interface as they come, by `xns calls`, until Ctrl-C", epilog=_END)
    watched.add_argument("-i", "--ethernet", metavar="IFACE", required=True, help="the interface; needs the right CAP_NET_RAW")
    watched.add_argument("--dump", action="store_true", help="by `xns dump`")
    watched.add_argument("--hex", action="store_true", help="as lines of hex, which both take")
    watched.add_argument("-c", "--count", type=_whole(1, 10**9), help="packets, and then it ends")
    return parser


# ---- what is done


def _network(given: argparse.Namespace, serves: bool = False) -> Network:
    if given.ethernet is not None:
        return over_ethernet(given.ethernet, given.network)
    if given.nethub is not None:
        return over_nethub(given.nethub, given.network, given.station)
    return over_udp(given.udp, given.network, given.station, serves)


def _say(line: str) -> None:
    print(line, flush=True)


def _ping(given: argparse.Namespace) -> int:
    with _network(given) as network:
        return Ping(network, read_address(given.address, given.network, ECHO), given.size, _say).run(given.count, given.interval, given.wait)


def _call(given: argparse.Namespace) -> int:
    named = None if given.programs is None else Named(given.programs)
    program, procedure, words = (_numbered if named is None else named.called)(given)
    with _network(given) as network:
        peer = read_address(given.address, given.network, COURIER)
        with Client(network.link, network.place(peer), network.own(), peer, timeout=given.timeout) as client:
            answer = client.call(program, given.version, procedure, words)
            line = plain(answer)
            _say(line if named is None else named.told(line, program, given.version, procedure, answer))
    return DONE if answer.kind == Kind.RETURN else NOT_RETURNED


def _numbered(given: argparse.Namespace) -> Tuple[int, int, List[int]]:
    """The program, the procedure and the words of a call by numbers."""

    def number(name: str, read: Callable[[str], int], text: str) -> int:
        try:
            return read(text)
        except argparse.ArgumentTypeError as error:
            return given.parser.error(f"argument {name}: {error}")

    program, procedure = number("PROGRAM", _whole(0, 2**32 - 1), given.program), number("PROCEDURE", _whole(0, 65535), given.procedure)
    return program, procedure, [number("ARGUMENT", _word, argument) for argument in given.arguments]


def _service(name: Optional[str]) -> Any:
    if name is None:
        return Tally()
    module, _, attributes = name.partition(":")
    if not module or not attributes:
        raise ValueError(f"{name} is no MODULE:NAME")
    sys.path.insert(0, os.getcwd())
    found = importlib.import_module(module)
    for attribute in attributes.split("."):
        found = getattr(found, attribute)
    if not inspect.isclass(found):
        return found
    try:
        inspect.signature(found).bind()
    except TypeError as error:
        raise ValueError(f"{name} is made with arguments: {error}") from None
    return found()


def _served(given: argparse.Namespace, service: Any) -> List[Tuple[int, int, int]]:
    """The programs that are served. A ValueError where they can't be, or the service is none."""
    if not callable(service):
        raise ValueError(f"{given.service} is no function of a call, and no class of such objects")
    try:
        programs = given.program or list(getattr(service, "programs", []))
        with Host(Address(0, bytes(6), given.socket)) as host:
            host.serve(given.socket, programs)
    except (TypeError, XnsError) as error:
        raise ValueError(f"nothing can be served: {error}") from None
    return programs


def _serve(given: argparse.Namespace) -> int:
    service = _service(given.service)
    programs = _served(given, service)
    with _network(given, serves=True) as network:
        own = network.own(given.socket)
        server = Server(network.link, own, programs, service)
        for one in (signal.SIGINT, signal.SIGTERM):
            signal.signal(one, lambda *_: server.stop())
        _say(f"serving at {spelled(own)}")
        server.run()
    return DONE


def _watch(given: argparse.Namespace) -> int:
    return watch(given.ethernet, None if given.hex else "dump" if given.dump else "calls", given.count)


_COMMANDS = {"ping": _ping, "call": _call, "serve": _serve, "watch": _watch}


def _failed(text: str, status: int = FAILED) -> int:
    print(f"xns-net: {text}", file=sys.stderr)
    return status


def main(words: Optional[List[str]] = None) -> int:
    """Does what the words say; the status."""
    given = _parser().parse_args(words)
    where = getattr(given, "ethernet", None)
    try:
        return _COMMANDS[given.command](given)
    except KeyboardInterrupt:
        return INTERRUPTED
    except PermissionError as error:
        return _failed(f"{where}: no right to frames: CAP_NET_RAW is needed, as root has it" if where is not None else str(error))
    except BrokenPipeError:
        with contextlib.suppress(OSError):
            os.dup2(os.open(os.devnull, os.O_WRONLY), sys.stdout.fileno())
        return FAILED
    except XnsError as error:
        return _failed(str(error))
    except OSError as error:
        return _failed(f"{where}: {error.strerror or error}" if where is not None else str(error.strerror or error))
    except (ValueError, ImportError, AttributeError) as error:
        return _failed(str(error), WRONG_WORDS)


if __name__ == "__main__":
    sys.exit(main())
