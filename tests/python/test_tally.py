"""The example examples/python/tally.py, and those of examples/c where TALLY_C names the folder of `server` and `client`: servers and clients as processes,
over a network that spoils one packet in ten. Where `refused_server` and `refused_client` stand there too, each growth of them is refused in turn, and where
valgrind is there, both are run under it. Each client makes TALLY_CALLS calls, 30 where that is not said."""
import os
import pathlib
import shutil
import socket
import subprocess
import sys
import tempfile
import threading
import time
import unittest

import xns
from relay import Hub, Peer, Relay, await_echo, bound, send_all_kinds
from servers import CLIENT, SERVER

TALLY = [sys.executable, str(pathlib.Path(__file__).resolve().parents[2] / "examples" / "python" / "tally.py")]
PYTHON = [*TALLY, "serve"], [*TALLY, "add"]
FOLDER = os.environ.get("TALLY_C")
C = ([f"{FOLDER}/server"], [f"{FOLDER}/client"]) if FOLDER else None
BOTH = [PYTHON, C] if C else [PYTHON]
VALGRIND = ["valgrind", "-q", "--leak-check=full", "--show-leak-kinds=all", "--error-exitcode=9"]
CALLS = int(os.environ.get("TALLY_CALLS", "30"))
CLIENTS = 20


def started(client, port, numbers, **more):
    words = [*client, str(port), *map(str, numbers)]
    return subprocess.Popen(words, stdout=subprocess.PIPE, stderr=subprocess.PIPE, text=True, env={**os.environ, **more})


class Serving:
    """A server that runs, behind a relay or not."""

    def __init__(self, words, one_of=0, dies_after=None, **more):
        with bound() as free:
            self.place = free.getsockname()
        self.process = subprocess.Popen([*words, str(self.place[1])], stderr=subprocess.PIPE, text=True, env={**os.environ, **more})
        self.relay = Relay(self.place, one_of, dies_after) if one_of or dies_after else None
        self.is_refused = bool(more)

    def __enter__(self):
        if not self.is_refused:
            deadline = time.monotonic() + 60
            await_echo(self.place, CLIENT, SERVER, lambda: time.monotonic() < deadline and self.process.poll() is None)
        if self.relay:
            self.relay.start()
        return self

    def __exit__(self, *_):
        if self.relay:
            self.relay.stops = True
            self.relay.join()
        self.ended = self.process.poll()
        self.process.terminate()
        self.told = self.process.communicate(timeout=60)[1]

    def client(self, words, numbers, **more):
        return started(words, self.relay.port if self.relay else self.place[1], numbers, **more)


def total(line):
    kind, high, low = line.split()
    assert kind == "return", line
    return 65536 * int(high) + int(low)


class Slow(threading.Thread):
    """A server that answers each call after so many seconds, and meanwhile says what a host says by itself."""

    def __init__(self, seconds):
        super().__init__(daemon=True)
        self.udp, self.seconds, self.stops = bound(), seconds, False

    def run(self):
        self.udp.settimeout(0.05)
        places, waiting = [], []
        with xns.Host(SERVER, idle=1000) as host:
            host.serve(5, [(7, 1, 1)])
            while not self.stops:
                now = time.monotonic_ns() // 1_000_000
                try:
                    packet, place = self.udp.recvfrom(2048)
                    places += [place] if place not in places else []
                    host.receive(now, places.index(place), packet)
                except socket.timeout:
                    pass
                waiting += [(now + 1000 * self.seconds, event.number, event.words) for event in host.events() if isinstance(event, xns.Call)]
                for due, number, words in waiting:
                    if due <= now:
                        host.answer(now, number, xns.returns([0, *words]))
                waiting = [one for one in waiting if one[0] > now]
                for via, packet in host.packets(now):
                    self.udp.sendto(packet, places[via])
        self.udp.close()


class TallyTest(unittest.TestCase):
    def serve_and_add(self, server):
        """20 clients, of both languages, are answered each of their calls, once; their totals are those of all calls; all are closed."""
        with Serving(server, 10) as serving:
            clients = [serving.client(BOTH[k % len(BOTH)][1], [1] * CALLS) for k in range(CLIENTS)]
            totals = []
            for one in clients:
                out, err = one.communicate(timeout=600)
                self.assertEqual((one.returncode, err), (0, ""))
                seen = [total(line) for line in out.splitlines()]
                self.assertEqual((len(seen), seen), (CALLS, sorted(seen)))
                totals += seen
            self.assertEqual(sorted(totals), list(range(1, CLIENTS * CALLS + 1)))
        self.assertEqual((serving.ended, serving.told), (None, ""))
        self.assertGreater(min(serving.relay.spoiled.values()), 10)
        self.assertEqual(serving.relay.empty, 0)  # nobody sends a datagram of no bytes

    def test_words(self):
        for words in ((), ("serve",), ("sub", "4000", "5")):
            ended = subprocess.run([*TALLY, *words], stderr=subprocess.PIPE, text=True, timeout=60)
            self.assertEqual((ended.returncode, len(ended.stderr.splitlines())), (1, 1))

    def test_python(self):
        self.serve_and_add(PYTHON[0])

    @unittest.skipUnless(C, "no programs of C")
    def test_c(self):
        self.serve_and_add(C[0])

    def test_large_numbers(self):
        for server, client in BOTH:
            with Serving(server) as serving:
                answers = serving.client(client, [65535, 65535, 2]).communicate(timeout=60)
            self.assertEqual(answers, ("return 0 65535\nreturn 1 65534\nreturn 2 0\n", ""))

    def test_a_hub_of_emulators(self):
        """Both languages by way of a hub: `xns-net` for Python."""
        station, net = "0000aa000102", [sys.executable, "-m", "xns.net"]
        hub = Hub()
        hub.start()
        try:
            for server in [[*net, "serve", "--nethub", f":{hub.port}", "--station", station], *([[*C[0], "-n", str(hub.port), station]] if C else [])]:
                process = subprocess.Popen(server, stdout=subprocess.DEVNULL, stderr=subprocess.PIPE, text=True)
                hub.wait(True)
                call = [*net, "call", station, "7", "1", "1", "0005", "--nethub", f":{hub.port}"]
                self.assertEqual(subprocess.run(call, stdout=subprocess.PIPE, text=True, timeout=60).stdout, "return 0000 0005\n")
                # The hub is gone for a while: the server comes back, and its tally is as it was.
                hub.drop()
                self.assertEqual(subprocess.run(call, stdout=subprocess.PIPE, text=True, timeout=60).stdout, "return 0000 000a\n")
                if C:
                    add = [*C[1], "-n", str(hub.port), "0000aa000304", station, "7", "x131060"]
                    told = subprocess.run(add, stdout=subprocess.PIPE, text=True, timeout=60).stdout
                    self.assertEqual(told, "return 0 17\nreturn 131060 bytes, the same\n")
                process.terminate()
                self.assertEqual((process.communicate(timeout=60)[1], process.returncode), ("", 0))
                hub.wait(False)
            self.assertEqual(hub.shortest, 60)
        finally:
            hub.stop()

    def test_datagrams_of_any_kind(self):
        for server, client in BOTH:
            with Serving(server) as serving:
                self.assertEqual(serving.client(client, [1]).communicate(timeout=60), ("return 0 1\n", ""))
                send_all_kinds(serving.place, CLIENT, SERVER)
                self.assertEqual(serving.client(client, [2]).communicate(timeout=60), ("return 0 3\n", ""))
            self.assertEqual((serving.ended, serving.told), (None, ""))

    def test_many_short_connections(self):
        """At a server for 64: 200 one after another, each in no time."""
        for server, _ in BOTH:
            with Serving(server) as serving, bound() as udp:
                begun = time.monotonic()
                for number in range(200):
                    client = xns.Client(udp, serving.place, CLIENT._replace(socket=1024 + number), SERVER)
                    self.assertEqual(client.call(7, 1, 1, [1]).words, [0, number + 1])
                    client.close()
                self.assertLess(time.monotonic() - begun, 10)
            self.assertEqual((serving.ended, serving.told), (None, ""))

    def test_stray_bytes_while_the_server_is_gone(self):
        """Bytes that are no packet of the server are no word of it: the clients give up in time."""
        with Serving(BOTH[-1][0], dies_after=40) as serving:
            begun = time.monotonic()
            for one in [serving.client(client, [1] * 100) for _, client in BOTH]:
                out, err = one.communicate(timeout=60)
                self.assertEqual((one.returncode, err), (1, "the peer does not answer\n"))
                self.assertLess(len(out.splitlines()), 40)
            self.assertTrue(3 < time.monotonic() - begun < 15)

    def test_a_slow_server(self):
        """A client waits for an answer as long as the server says that it is there."""
        slow = Slow(float(os.environ.get("TALLY_SLOW", "7")))
        slow.start()
        port, begun = slow.udp.getsockname()[1], time.monotonic()
        for one in [started(client, port, [5]) for _, client in BOTH]:
            self.assertEqual((one.communicate(timeout=100), one.returncode), (("return 0 5\n", ""), 0))
        self.assertGreater(time.monotonic() - begun, slow.seconds)
        slow.stops = True
        slow.join()

    def test_the_end_before_its_call(self):
        """A call and the end behind it that come the other way round are answered both."""
        for server, _ in BOTH:
            with Serving(server) as serving, bound() as udp:
                client = Peer.opening(udp, serving.place, CLIENT, SERVER)
                self.assertEqual(client.item().body, Peer.VERSIONS)
                client.until(lambda: not client.endpoint.unacknowledged)
                client.endpoint.send(bytes.fromhex("00000001000000070001000100aa"))
                client.endpoint.send(b"", stream=xns.Stream.END)
                client.send(reversed(client.endpoint.flush()))
                self.assertEqual(client.item(), xns.Item(bytes.fromhex("00020001000000aa")))
                self.assertEqual(client.item(), xns.Item(b"", xns.Stream.END_REPLY))

    @unittest.skipUnless(C and os.path.exists(f"{FOLDER}/ping"), "no programs of C")
    def test_echo_of_c(self):
        for server, _ in BOTH:
            with Serving(server) as serving:
                ended = subprocess.run([f"{FOLDER}/ping", str(serving.place[1]), "3", "544"], stdout=subprocess.PIPE, text=True, timeout=60)
                lines = ended.stdout.splitlines()
                self.assertEqual((ended.returncode, len(lines), lines[-1]), (0, 4, "3 sent, 3 came"))
                self.assertTrue(all(line.startswith("544 bytes from 0000aa000102 in ") for line in lines[:3]))

    @unittest.skipUnless(C and shutil.which("valgrind"), "no programs of C, or no valgrind")
    def test_valgrind(self):
        with Serving([*VALGRIND, *C[0]]) as serving:
            one = serving.client([*VALGRIND, *C[1]], [1, 2, 3])
            self.assertEqual((one.communicate(timeout=120), one.returncode), (("return 0 1\nreturn 0 3\nreturn 0 6\n", ""), 0))
        self.assertEqual((serving.ended, serving.process.returncode, serving.told), (None, 0, ""))

    def refuse(self, growth, of_server, counted):
        """One growth refused: all is done, or the program that was refused says that there is no memory. Whether it was done."""
        refused = {"REFUSE_AT": str(growth), "GROWTHS_TO": str(counted)}
        server, client = ([f"{FOLDER}/refused_server"], C[1]) if of_server else (C[0], [f"{FOLDER}/refused_client"])
        with Serving(server, **(refused if of_server else {})) as serving:
            one = serving.client(client, [1, 2], **({} if of_server else refused))
            deadline = time.monotonic() + 60
            while one.poll() is None and serving.process.poll() is None and time.monotonic() < deadline:
                time.sleep(0.005)
            done = serving.process.poll() is None and one.returncode == 0
            if not done:
                one.kill()
            out, err = one.communicate(timeout=60)
        told = serving.told if of_server else err
        self.assertEqual((out, told) if done else told, ("return 0 1\nreturn 0 3\n", "") if done else "there is no memory\n")
        return done

    @unittest.skipUnless(FOLDER and os.path.exists(f"{FOLDER}/refused_server"), "no programs whose growths are refused")
    def test_refusals(self):
        for of_server in (True, False):
            growth, done, seen = 0, [], True
            with tempfile.TemporaryDirectory() as folder:
                while seen:
                    growth += 1
                    counted = pathlib.Path(folder) / str(growth)
                    done.append(self.refuse(growth, of_server, counted))
                    seen = int(counted.read_text()) >= growth
            begun = done.index(True)  # by then the host is made
            self.assertTrue(all(done[begun:]) and len(done) > begun + 10, (of_server, done))


if __name__ == "__main__":
    unittest.main()
