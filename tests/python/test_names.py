"""What the module refuses, how its errors and its help are named, that its names, numbers and texts are the header's, and which places of packets it knows."""
import asyncio
import collections
import os
import pathlib
import pydoc
import re
import subprocess
import sys
import threading
import unittest

import xns
from servers import CLIENT, SERVER

HEADER = (pathlib.Path(__file__).resolve().parents[2] / "include" / "xns.h").read_text(encoding="utf-8")


class Memory:
    """A carrier without a file, whose packets are lists."""

    def __init__(self):
        self.comes, self.goes = collections.deque(), []

    def fileno(self):
        return -1

    def setblocking(self, flag):
        pass

    def recvfrom(self, size):
        if not self.comes:
            raise BlockingIOError
        return self.comes.popleft()

    def sendto(self, packet, place):
        self.goes.append((packet, place))


class PlacesTest(unittest.TestCase):
    def test_the_place_of_a_connection_is_kept_and_others_go(self):
        carrier, own = Memory(), CLIENT
        with xns.Host(own) as host:
            station = xns._station.Station(carrier, host)
            station._places.MOST = station._places._most = 200
            station.connect("far", own, SERVER)
            for number in range(5000):
                source = xns.Address(1, number.to_bytes(6, "big"), 2000)
                carrier.comes.append((xns.echo_request(source, own._replace(socket=2), b"Hi"), f"place {number}"))
                station.take_in()
                station.send()
            self.assertEqual(len([place for _, place in carrier.goes if place.startswith("place")]), 5000)
            self.assertEqual(carrier.goes[-1][1], "place 4999")
            self.assertLess(len(station._places._places), 300)
            station.now += 60_000
            station.send()
            self.assertEqual(carrier.goes[-1][1], "far")  # the opening once more


async def later(**settings):
    """A call of a client in a loop of asyncio."""
    async with xns.AsyncClient(Memory(), None, CLIENT, SERVER) as client:
        await client.call(7, 1, 1, **settings)


async def served(**settings):
    """A server in a loop of asyncio, which is stopped at once."""
    stop = asyncio.Event()
    stop.set()
    await xns.serve_async(Memory(), CLIENT, [], print, stop=stop, **settings)


class TypesTest(unittest.TestCase):
    def test_names_of_arguments(self):
        host = xns.Host(CLIENT)
        for name, call in (
            ("number", lambda: host.peer("1")),
            ("now", lambda: host.close(1.5, 1)),
            ("packet", lambda: host.receive(0, 0, "text")),
            ("own", lambda: xns.Host("here")),
            ("the host of own", lambda: xns.Host(xns.Address(1, "text", 5))),
            ("the network of peer", lambda: host.connect(0, 0, 5, SERVER._replace(network=None))),
            ("own", lambda: xns.Client(Memory(), None, None, SERVER)),
            ("peer", lambda: xns.Client(Memory(), None, CLIENT, None)),
            ("the host of peer", lambda: xns.Client(Memory(), None, CLIENT, SERVER._replace(host="text"))),
            ("own", lambda: xns.serve(Memory(), "here", [], print)),
            ("programs", lambda: xns.serve(Memory(), CLIENT, None, print)),
            ("packet", lambda: xns.encode(b"")),
            ("header", lambda: xns.header_write((1, 2))),
            ("message", lambda: xns.message_write(None)),
            ("programs", lambda: host.serve(5, [7])),
            ("low", lambda: host.serve(5, [(7, "1", 1)])),
            ("idle", lambda: xns.Host(CLIENT, idle="never")),
            ("waits", lambda: xns.Host(CLIENT, waits=1)),
            ("reply", lambda: host.answer(0, 0, None)),
            ("words", lambda: host.call(0, 0, 7, 1, 1, b"12")),
            ("words", lambda: host.call(0, 0, 7, 1, 1, bytearray(2))),
            ("words", lambda: host.call(0, 0, 7, 1, 1, "12")),
            ("words", lambda: host.call(0, 0, 7, 1, 1, ["1"])),
            ("words", lambda: host.call(0, 0, 7, 1, 1, 5)),
            ("words", lambda: xns.Reader(b"12")),
            ("value", lambda: xns.Writer().cardinal("5")),
            ("text", lambda: xns.Writer().text("Hello")),
            ("data", lambda: xns.decode("text")),
            ("answer", lambda: xns.Server(Memory(), CLIENT, [], "answer")),
            ("other", lambda: xns.serve(Memory(), CLIENT, [], print, "other")),
            ("stop", lambda: xns.serve(Memory(), CLIENT, [], print, stop=True)),
            ("carrier", lambda: xns.serve(None, CLIENT, [], print)),
            ("carrier", lambda: xns.Client(5, None, CLIENT, SERVER)),
            ("timeout", lambda: xns.Client(Memory(), None, CLIENT, SERVER, timeout="5")),
            ("timeout", lambda: asyncio.run(later(timeout="5"))),
            ("seconds", lambda: xns.Client(Memory(), None, CLIENT, SERVER).wait(None)),
            ("stop", lambda: asyncio.run(xns.serve_async(Memory(), CLIENT, [], print, stop=threading.Event()))),
            ("reopens", lambda: xns.Client(Memory(), None, CLIENT, SERVER, reopens="5")),
            ("interface", lambda: xns.ethernet(0)),
            ("station", lambda: xns.nethub("127.0.0.1", 9, "0000aa000304")),
            ("other", lambda: asyncio.run(served(other="other"))),
        ):
            with self.subTest(name), self.assertRaisesRegex(TypeError, name):
                call()
        with self.assertRaisesRegex(ValueError, "procedure"):
            host.call(0, 0, 7, 1, 65536)
        with self.assertRaisesRegex(ValueError, "the network of peer"):
            xns.Client(Memory(), None, CLIENT, SERVER._replace(network=-1))
        xns.Client(Memory(), None, tuple(CLIENT), tuple(SERVER))
        for seconds in (float("inf"), float("nan"), 10**400):
            for call in (lambda: xns.Client(Memory(), None, CLIENT, SERVER, timeout=seconds), lambda: asyncio.run(later(timeout=seconds))):
                with self.assertRaisesRegex(ValueError, "timeout"):
                    call()
        self.assertEqual(xns.Writer().text(bytearray(b"Hi")).words, [2, 0x4869])

    def test_errors(self):
        for name in xns.__all__:
            one = getattr(xns, name)
            if isinstance(one, type) and issubclass(one, Exception):
                self.assertTrue(name.endswith("Error") and issubclass(one, xns.XnsError), name)
                self.assertEqual(one.__module__, "xns")
        self.assertTrue(issubclass(xns.NotServedError, ConnectionRefusedError) and issubclass(xns.ClosedError, ConnectionResetError))
        self.assertTrue(issubclass(xns.TruncatedError, xns.ArgumentsError) and issubclass(xns.NoCallError, LookupError))

    def test_help(self):
        told = pydoc.plain(pydoc.render_doc(xns))
        self.assertLess(told.index("xns.serve("), told.index("CLASSES"))
        self.assertLess(told.index("xns.Client("), told.index("CLASSES"))
        self.assertNotIn("_Raw", told)
        self.assertEqual(xns.__all__[:2], ["serve", "Client"])

    def test_a_library_that_is_missing_or_another(self):
        for library, wanted in (("/nowhere/libxns.so", "XNS_LIBRARY names it"), ("libc.so.6", "another version")):
            words = [sys.executable, "-c", "import xns"]
            ended = subprocess.run(words, env={**os.environ, "XNS_LIBRARY": library}, stderr=subprocess.PIPE, text=True)
            self.assertEqual(ended.returncode, 1)
            self.assertIn("LibraryError", ended.stderr.splitlines()[-1])
            self.assertIn(wanted, ended.stderr.splitlines()[-1])


class HeaderTest(unittest.TestCase):
    """What the module says is what include/xns.h says."""

    def numbers(self, name, prefix):
        body = re.search(r"enum %s \{(.*?)\n\};" % name, HEADER, re.S).group(1)
        return {found: int(number) for found, number in re.findall(r"^    XNS_%s(\w+) = (\d+)" % prefix, body, re.M)}

    def test_numbers(self):
        for name, prefix, ours in (
            ("xns_result", "", xns.Result),
            ("xns_dropped", "", xns.Dropped),
            ("xns_type", "TYPE_", xns.PacketType),
            ("xns_stream", "STREAM_", xns.Stream),
            ("xns_message_kind", "KIND_", xns.Kind),
            ("xns_reject", "REJECT_", xns.Reject),
            ("xns_control", "CONTROL_", xns.Control),
            ("xns_closed", "CLOSED_", xns.Why),
            ("xns_reason", "REASON_", xns.NotationReason),
            ("xns_node_kind", "NODE_", xns._types.NodeKind),
        ):
            with self.subTest(name):
                self.assertEqual({one.name: int(one) for one in ours}, self.numbers(name, prefix))
        sizes = self.numbers("xns_size", "")
        for name in ("LONGEST_PACKET", "LONGEST_ITEM", "MOST_WINDOW", "MOST_CALL_WORDS", "MOST_MESSAGE_WORDS"):
            self.assertEqual(getattr(xns, name), sizes[name])

    def test_calls(self):
        declared = re.findall(r"^(?!static)[a-z][\w ]*[ *]xns_(\w+)\(", HEADER, re.M)
        self.assertEqual(sorted(declared), sorted(xns._library.CALLS))

    def test_version(self):
        self.assertEqual(xns.version(), re.search(r'XNS_VERSION "(.*)"', HEADER).group(1))

    def test_errors(self):
        self.assertEqual(xns.NoMemoryError.result, xns.Result.NO_MEMORY)
        self.assertTrue(issubclass(xns.WrongTransactionError, xns.XnsError))
        body = re.search(r"\*xns_result_text\(.*?\n}", HEADER, re.S).group(0)
        texts = dict(re.findall(r'case XNS_(\w+): return "(.*)";', body))
        self.assertEqual({"OK", "NOTHING"} | {one.name for one in xns._errors.TEXTS}, set(texts))
        self.assertTrue(all(texts[one.name] == text for one, text in xns._errors.TEXTS.items()))
        body = re.search(r"\*xns_closed_text\(.*?\n}", HEADER, re.S).group(0)
        self.assertEqual({one.name: text for one, text in xns._errors.CLOSED_TEXTS.items()}, dict(re.findall(r'case XNS_CLOSED_(\w+): return "(.*)";', body)))
        body = re.search(r"\*xns_reason_text\(.*?\n}", HEADER, re.S).group(0)
        self.assertEqual({one.name: str(one) for one in xns.NotationReason}, dict(re.findall(r'case XNS_REASON_(\w+): return "(.*)";', body)))


if __name__ == "__main__":
    unittest.main()
