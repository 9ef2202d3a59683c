"""The command `xns-net` over UDP, as a process: what it prints, its statuses, and how it ends. Ethernet is tried by tests/network.sh, hubs by test_tally.py."""
import contextlib
import os
import pathlib
import re
import signal
import socket
import subprocess
import tempfile
import threading
import types
import unittest
from unittest import mock

import xns
from relay import Peer, bound
from xns._ping import Ping
from xns._reached import Network, read_address, read_host
from xns._watch import watch

NET = [str(pathlib.Path(__file__).resolve().parents[2] / "python" / "xns-net")]
SERVER = "0000aa000102"
SERVICE = """import xns
class Doubles:
    programs = [(9, 1, 2)]
    def __call__(self, call):
        return xns.aborts(4, [1, 2]) if call.procedure else xns.returns(call.words * 2)
def anything(call):
    return xns.returns([call.program, call.version, call.procedure])
class Larger(Doubles):
    def __init__(self, size): pass
class Wrong(Doubles):
    programs = 9
"""


def setUpModule():
    """Ctrl-C's signal is ignored in what a script's shell starts behind `&`, and in the children of that. Here it is not."""
    unittest.addModuleCleanup(signal.signal, signal.SIGINT, signal.signal(signal.SIGINT, signal.default_int_handler))


def run(*words, **more):
    ended = subprocess.run([*NET, *words], stdout=subprocess.PIPE, stderr=subprocess.PIPE, text=True, timeout=60, **more)
    return ended.returncode, ended.stdout, ended.stderr


def started(*words, **more):
    return subprocess.Popen([*NET, *words], stdout=subprocess.PIPE, stderr=subprocess.PIPE, text=True, **more)


class Serving:
    """`xns-net serve` at a free port."""

    def __init__(self, *words, **more):
        with bound() as free:
            self.port = str(free.getsockname()[1])
        self.process = started("serve", *words, "--udp", self.port, **more)

    def __enter__(self):
        self.said = self.process.stdout.readline()
        return self

    def __exit__(self, *_):
        self.end(signal.SIGTERM)

    def end(self, signal_number):
        self.process.send_signal(signal_number)
        self.told = self.process.communicate(timeout=30)
        self.status = self.process.returncode


@contextlib.contextmanager
def watched(frames):
    """The file of the program to which `watch` gives these frames. Signals are then handled as before."""
    handlers = {number: signal.getsignal(number) for number in (signal.SIGINT, signal.SIGTERM)}
    with tempfile.TemporaryDirectory() as folder:
        program = pathlib.Path(folder) / "xns"
        program.touch(0o700)
        try:
            with mock.patch("xns._watch._Frames", lambda interface: contextlib.nullcontext(frames)), mock.patch("xns._watch.program", lambda: str(program)):
                yield program
        finally:
            for number, handler in handlers.items():
                signal.signal(number, handler)


@contextlib.contextmanager
def interrupted_after(seconds):
    """Ctrl-C comes after so many seconds, unless it ends before."""
    timer = threading.Timer(seconds, os.kill, (os.getpid(), signal.SIGINT))
    timer.start()
    try:
        yield
    finally:
        timer.cancel()


class NetTest(unittest.TestCase):
    def test_a_tally(self):
        with Serving() as serving:
            self.assertEqual(serving.said, f"serving at 00000001.{SERVER}.0005\n")
            for words, wanted in (
                (("7", "1", "1", "0005"), (0, "return 0000 0005\n", "")),
                (("7", "1", "1", "FFFF"), (0, "return 0001 0004\n", "")),
                (("7", "1", "1"), (3, "reject 3 -\n", "")),
                (("7", "1", "3"), (3, "reject 2 -\n", "")),
                (("7", "2", "1"), (3, "reject 1 0001 0001\n", "")),
                (("7", "1", "2"), (0, "return -\n", "")),
            ):
                self.assertEqual(run("call", f"1.{SERVER}.5", *words, "--udp", serving.port), wanted)
        self.assertEqual((serving.status, serving.told), (0, ("", "")))

    def test_services_by_name(self):
        with tempfile.TemporaryDirectory() as folder:
            (pathlib.Path(folder) / "named.py").write_text(SERVICE, encoding="utf-8")
            with Serving("named:Doubles", cwd=folder) as serving:
                self.assertEqual(run("call", SERVER, "9", "2", "0", "0001", "--udp", serving.port), (0, "return 0001 0001\n", ""))
                self.assertEqual(run("call", SERVER, "9", "2", "1", "--udp", serving.port), (3, "abort 4 0001 0002\n", ""))
                self.assertEqual(run("call", SERVER, "7", "2", "1", "--udp", serving.port), (3, "reject 0 -\n", ""))
            with Serving("named:anything", "--socket", "6", cwd=folder) as serving:
                self.assertEqual(run("call", f"1.{SERVER}.6", "70", "2", "1", "--udp", serving.port), (0, "return 0046 0002 0001\n", ""))
            for name, told in (("named:other", "has no attribute"), ("nowhere:other", "No module named"), ("named", "no MODULE:NAME"), ("os:path", "no function"),
                               ("named:Larger", "arguments"), ("named:Wrong", "nothing can be served")):
                status, _, err = run("serve", name, "--udp", "4000", cwd=folder)
                self.assertEqual(status, 2)
                self.assertIn(told, err)
                self.assertEqual(len(err.splitlines()), 1)

    def test_ping(self):
        with Serving() as serving:
            status, out, err = run("ping", SERVER, "--udp", serving.port, "-c", "3", "--interval", "0.1", "-s", "100")
            self.assertEqual((status, err), (0, ""))
            place = f"00000001.{SERVER}.0002"
            times = r"[0-9]+\.[0-9]{3}"
            replies = "".join(rf"100 bytes from {place}: seq={k} time={times} ms\n" for k in (1, 2, 3))
            end = rf"--- {place}\n3 sent, 3 answered, 0% lost\ntime min/mean/max = {times}/{times}/{times} ms\n"
            self.assertRegex(out, rf"\A{re.escape(f'ping {place}: 100 bytes')}\n{replies}{end}\Z")
            pinging = started("ping", SERVER, "--udp", serving.port, "--interval", "0.1")
            for _ in range(4):
                pinging.stdout.readline()
            pinging.send_signal(signal.SIGINT)
            out, err = pinging.communicate(timeout=30)
            self.assertEqual((pinging.returncode, err), (0, ""))
            self.assertRegex(out, "(?m)^[0-9]+ sent, [0-9]+ answered, [0-9]+% lost$")
        status, out, err = run("ping", SERVER, "--udp", serving.port, "-c", "2", "--interval", "0.1", "--wait", "0.1")
        self.assertEqual((status, out.splitlines()[-1], err), (1, "2 sent, 0 answered, 100% lost", ""))

    def test_a_ping_ends_where_packets_never_cease(self):
        link = types.SimpleNamespace(fileno=lambda: -1, setblocking=lambda flag: None, recvfrom=lambda size: (b"", None), sendto=lambda packet, place: None)
        said = []
        self.assertEqual(Ping(Network(link, 1, bytes(6)), xns.Address(1, bytes.fromhex(SERVER), 2), 56, said.append).run(1, 0.1, 0.1), 1)
        self.assertEqual(said[-1], "1 sent, 0 answered, 100% lost")

    def test_ends(self):
        for number in (signal.SIGINT, signal.SIGTERM):
            with bound() as udp:
                serving = Serving()
                with serving:
                    own, peer = xns.Address(1, bytes(6), 3000), xns.Address(1, bytes.fromhex(SERVER), 5)
                    with xns.Client(udp, ("127.0.0.1", int(serving.port)), own, peer, timeout=5) as client:
                        client.call(7, 1, 1, [1])
                        serving.process.send_signal(number)
                        with self.assertRaises(xns.ClosedError):
                            for _ in range(100):
                                client.wait(0.1)
                                client.call(7, 1, 1, [1])
                    serving.process.wait(30)
                self.assertEqual((serving.status, serving.told), (0, ("", "")))
        with bound() as nobody:
            calling = started("call", SERVER, "7", "1", "1", "--udp", str(nobody.getsockname()[1]))
            nobody.recv(2048)
            calling.send_signal(signal.SIGINT)
            self.assertEqual((calling.communicate(timeout=30), calling.returncode), (("", ""), 130))
            status, out, err = run("call", SERVER, "7", "1", "1", "--timeout", "0.3", "--udp", str(nobody.getsockname()[1]))
            self.assertEqual((status, out, err), (1, "", "xns-net: the call was not answered in 0.3 seconds\n"))

    def test_an_answer_is_printed_where_the_server_does_not_close(self):
        with bound() as udp:

            def answers():
                peer = Peer.answering(udp, xns.Address(1, bytes.fromhex(SERVER), 5))
                peer.endpoint.send(bytes.fromhex("000200010007"))
                with contextlib.suppress(TimeoutError):
                    peer.until(lambda: False, 4)

            thread = threading.Thread(target=answers)
            thread.start()
            told = run("call", SERVER, "7", "1", "1", "--timeout", "1", "--udp", str(udp.getsockname()[1]))
            thread.join()
        self.assertEqual(told, (1, "return 0007\n", "xns-net: the server did not close the connection in 1 seconds\n"))

    def test_a_call_by_name(self):
        with tempfile.TemporaryDirectory() as folder:
            description = pathlib.Path(folder) / "tally.courier"
            description.write_text("""Tally: PROGRAM 7 VERSION 1 = BEGIN
                Kind: TYPE = {small(0), large(1)};
                Add: PROCEDURE [amount: CARDINAL] RETURNS [total: LONG CARDINAL] = 1;
                Echo: PROCEDURE [what: STRING, kinds: SEQUENCE OF Kind] RETURNS [what: STRING, kinds: SEQUENCE OF Kind] = 2;
                Short: PROCEDURE RETURNS [total: LONG CARDINAL, rest: CARDINAL] = 3; END.""")
            by_name = "--programs", str(description)
            with Serving() as serving:
                for words, wanted in (
                    (("Tally", "1", "Add", "5"), (0, "return Add [total: 5]\n", "")),
                    (("7", "1", "1", "6"), (0, "return Add [total: 11]\n", "")),
                    (("Tally", "1", "Echo", '"a b\\x00\\""', "[large, small]"), (0, 'return Echo [what: "a b\\x00\\"", kinds: [large, small]]\n', "")),
                    (("Tally", "1", "Short"), (3, "reject 2 -\n", "")),
                    (("Tally", "2", "Add", "5"), (2, "", "xns-net: no program Tally of version 2 is declared\n")),
                    (("Tally", "1", "Sub", "5"), (2, "", "xns-net: Tally declares no procedure Sub\n")),
                    (("Tally", "1", "Add"), (2, "", "xns-net: Add takes [amount: CARDINAL]\n")),
                    (("Tally", "1", "Add", "five"), (2, "", "xns-net: amount: 'five' is no CARDINAL\n")),
                    (("Tally", "1", "Add", "65536"), (2, "", "xns-net: amount is 65536, which is not from 0 to 65535\n")),
                    (("Tally", "1", "Add", "5 6"), (2, "", "xns-net: amount: '6' is left\n")),
                ):
                    self.assertEqual(run("call", SERVER, *words, "--udp", serving.port, *by_name), wanted)
                description.write_text("Tally: PROGRAM 7 VERSION 1 = BEGIN Echo: PROCEDURE [a: CARDINAL] RETURNS [a: LONG CARDINAL] = 2; END.")
                self.assertEqual(run("call", SERVER, "Tally", "1", "Echo", "5", "--udp", serving.port, *by_name), (0, "return 0005 unread 1 Truncated\n", ""))
                description.write_text("Tally: PROGRAM\n7 VERSION = BEGIN END.")
                self.assertEqual(run("call", SERVER, "Tally", "1", "Echo", "--udp", serving.port, *by_name), (2, "", f"xns-net: {description}:2:11 NoNumber\n"))
            status, out, err = run("call", SERVER, "Tally", "1", "Echo", "--udp", "9", "--programs", f"{folder}/none")
            self.assertEqual((status, out, err), (2, "", f"xns-net: {folder}/none: No such file or directory\n"))

    def test_the_status_of_a_watch(self):
        """It is that of `xns`, but where a signal ends the watch. Frames never cease here."""
        near, far = socket.socketpair()
        far.send(b"there")
        frames = types.SimpleNamespace(fileno=near.fileno, recvfrom=lambda size: (bytes(30), ("eth0", 0x0600, 0, 1, bytes(6))))
        with near, far, watched(frames) as program:
            for does, count, wanted in (("cat; exit 3", 2, 3), ("cat", 2, 0), ("exit 3", None, 3), ("kill $$", None, 143), ("cat; exit 3", None, 0)):
                program.write_text(f"#!/bin/sh\nexec > /dev/null\n{does}\n", encoding="utf-8")
                with interrupted_after(0.3) if (count, wanted) == (None, 0) else contextlib.nullcontext():
                    self.assertEqual(watch("eth0", "calls", count), wanted, does)

    def test_a_watch_ends_with_its_reader_where_no_frame_comes(self):
        near, far = socket.socketpair()
        near.setblocking(False)
        reader, writer = os.pipe()
        with near, far, watched(near) as program, open(writer, "w", encoding="utf-8") as lines:
            for does, wanted in (("exit 3", 3), ("exec < /dev/null; sleep 0.3; exit 4", 4), ("kill $$", 143)):
                program.write_text(f"#!/bin/sh\n{does}\n", encoding="utf-8")
                with interrupted_after(5):
                    self.assertEqual(watch("eth0", "calls", None), wanted, does)
            os.close(reader)
            with mock.patch("sys.stdout", lines), interrupted_after(5), self.assertRaises(BrokenPipeError):
                watch("eth0", None, None)

    def test_words(self):
        for words in ((), ("pong",), ("ping",), ("ping", SERVER), ("ping", SERVER, "--udp", "0"), ("ping", SERVER, "--udp", "1", "-i", "lo"),
                      ("ping", "12", "--udp", "9"), ("ping", SERVER, "--udp", "9", "-s", "11"), ("ping", SERVER, "--udp", "9", "-s", "545"),
                      ("call", SERVER, "7", "1", "--udp", "9"), ("call", SERVER, "7", "1", "1", "5", "--udp", "9"),
                      ("call", SERVER, "-1", "1", "1", "--udp", "9"),
                      ("call", SERVER, "7", "65536", "1", "--udp", "9"), ("call", f"{SERVER}.5", "7", "1", "1", "--udp", "9"), ("watch",),
                      ("serve", "--udp", "9", "--program", "7:3-1"), ("serve", "--udp", "9", "--program", "7:1-65536"),
                      ("serve", "--udp", "9", "--program", "4294967296:1"), ("serve", "--udp", "9", "--socket", "2"), ("serve", "--udp", "9", "--station", "all")):
            status, out, err = run(*words)
            self.assertEqual((status, out), (2, ""), words)
            self.assertIn("xns-net", err)
        for words in (("--help",), ("ping", "--help"), ("call", "--help"), ("serve", "--help"), ("watch", "--help")):
            status, out, err = run(*words)
            self.assertEqual((status, err), (0, ""))
            self.assertIn("statuses: 0 done", out)
        self.assertEqual(run("--version"), (0, f"xns-net {xns.version()}\n", ""))
        status, _, err = run("watch", "-i", "none0")
        self.assertEqual((status, len(err.splitlines())), (1, 1))

    def test_addresses(self):
        host = bytes.fromhex(SERVER)
        for text, wanted in ((SERVER, (3, host, 2)), ("00:00:AA:00:01:02", (3, host, 2)), (f"1.{SERVER}", (1, host, 2)),
                             (f"ffffffff.{SERVER}.fFfF", (2**32 - 1, host, 65535)), ("all", (3, b"\xff" * 6, 2)), ("0.all.5", (0, b"\xff" * 6, 5))):
            self.assertEqual(read_address(text, 3, 2), xns.Address(*wanted))
        for text in ("", ".", "1", "1.2", f"{SERVER}.5", f"1.{SERVER}.", f"1.{SERVER}.10000", f"100000000.{SERVER}", f"1.{SERVER}.5.6", "0000aa00010g"):
            with self.assertRaises(ValueError):
                read_address(text, 3, 2)
        with self.assertRaises(ValueError):
            read_host("00:00aa000102")


if __name__ == "__main__":
    unittest.main()
