"""What users expect of carriers: of a socket, one of their own, a link to a hub and one at an interface, and that a server ends where its carrier is closed."""
import asyncio
import contextlib
import itertools
import pathlib
import re
import select
import socket
import threading
import time
import types
import unittest
import unittest.mock

import xns
from relay import LOCAL, Counting, Hub, bound
from servers import CLIENT, QUICK, SERVER, OverUdp, answers, serving


def told_at_closing(carrier):
    """What a server says whose carrier another thread closes, where nothing is due."""
    told = []

    def serves():
        try:
            xns.serve(carrier, SERVER, [], answers)
        except OSError as error:
            told.append(error.strerror)

    thread = threading.Thread(target=serves, daemon=True)
    thread.start()
    time.sleep(0.1)
    carrier.close()
    thread.join(5)
    return told


def told_at_closing_by_asyncio(carrier):
    """The same of one of asyncio."""

    async def play():
        server = asyncio.ensure_future(xns.serve_async(carrier, SERVER, [], answers))
        await asyncio.sleep(0.1)
        carrier.close()
        ended, _ = await asyncio.wait([server], timeout=5)
        return [one.exception().strerror for one in ended]

    return asyncio.run(play())


class CarriersTest(OverUdp):
    def test_a_socket_keeps_its_own_time(self):
        for timeout in (None, 3.5, 0.0):
            self.there.settimeout(timeout)
            self.here.settimeout(timeout)
            with serving(self.there), self.client() as client:
                self.assertEqual(self.here.gettimeout(), timeout)
                client.call(7, 1, 1)
                client.wait(0.01)
            self.assertEqual((self.here.gettimeout(), self.there.gettimeout()), (timeout, timeout))

    def test_a_network_that_is_down_ends_nothing(self):
        theirs, ours = Counting(self.there), Counting(self.here)
        with serving(theirs), self.client(ours, tries=30) as client:
            client.call(7, 1, 1)
            for one in (theirs, ours):
                one.is_down = True
                threading.Timer(0.3, setattr, (one, "is_down", False)).start()
                self.assertEqual(client.call(7, 1, 1, [5]).words, [5])

    def test_the_carrier_of_the_page(self):
        page = (pathlib.Path(__file__).resolve().parents[2] / "docs" / "NETWORKS.md").read_text(encoding="utf-8")
        defined = {}
        exec(re.search(r"```python\n(.*?)```", page, re.S).group(1), defined)
        losing = defined["Losing"](self.here)
        with serving(self.there, tries=30), self.client(losing, tries=30) as client:
            for number in range(30):
                self.assertEqual(client.call(7, 1, 1, [number]).words, [number])

    def test_a_socket_that_is_closed_ends_the_server(self):
        self.there.close()
        with self.assertRaises(OSError):
            xns.serve(self.there, SERVER, [], answers)

    def test_a_socket_that_another_thread_closes_ends_the_server_within_a_second(self):
        self.assertEqual(told_at_closing(self.there), ["the socket is closed"])

    def test_a_carrier_over_a_socket_that_is_closed_ends_the_server_within_a_second(self):
        for told in (told_at_closing, told_at_closing_by_asyncio):
            udp = bound()
            carrier = Counting(udp)
            carrier.close = udp.close
            self.assertEqual(told(carrier), ["the carrier is closed"])


class HubTest(unittest.TestCase):
    def setUp(self):
        self.hub = Hub()
        self.hub.start()
        self.addCleanup(self.hub.stop)

    def link(self, station):
        link = xns.nethub(LOCAL, self.hub.port, station)
        self.addCleanup(link.close)
        return link

    def test_calls_echo_and_a_hub_that_is_gone_for_a_while(self):
        theirs, ours = self.link(SERVER.host), self.link(CLIENT.host)
        for one in (theirs, ours):
            one.AGAIN = 0.1
        with serving(theirs, tries=30), xns.Client(ours, SERVER.host, CLIENT, SERVER, **{**QUICK, "tries": 30}) as client:
            words = list(range(5000))
            self.assertEqual(client.call(7, 1, 1, words).words, words)
            self.hub.drop()
            self.assertEqual(client.call(7, 1, 1, [4]).words, [4])
        self.assertGreater(self.hub.frames, 40)
        self.assertEqual(self.hub.shortest, 60)

    def test_no_hub(self):
        with bound() as nobody, self.assertRaises(OSError):
            xns.nethub(LOCAL, nobody.getsockname()[1])
        with self.assertRaises(ValueError):
            xns.nethub(LOCAL, self.hub.port, b"short")

    def test_a_link_that_is_closed_ends_the_server_within_a_second(self):
        for told in (told_at_closing, told_at_closing_by_asyncio):
            self.assertEqual(told(self.link(SERVER.host)), ["the link is closed"])

    def test_times_where_frames_of_others_never_cease(self):
        """The hub itself floods, for ten seconds at most."""
        frame = (SERVER.host * 2 + b"\x06\x00").ljust(60, b"\0")
        many, begun, ends = 1000 * (len(frame).to_bytes(2, "big") + frame), time.monotonic(), threading.Event()

        def flood():
            with contextlib.suppress(OSError):
                while not ends.is_set() and time.monotonic() < begun + 10:
                    stream.sendall(many)

        with socket.create_server((LOCAL, 0)) as hub, xns.nethub(LOCAL, hub.getsockname()[1]) as link, hub.accept()[0] as stream:
            thread = threading.Thread(target=flood)
            thread.start()
            with self.assertRaises(TimeoutError):
                xns.Client(link, SERVER.host, CLIENT, SERVER, tries=100).call(7, 1, 1, timeout=0.3)
            self.assertLess(time.monotonic() - begun, 5)
            ends.set()
            link.close()
            thread.join()

    def test_frames_in_pieces_and_of_others(self):
        link = self.link(CLIENT.host)
        stream = self.hub.first()
        packet = xns.echo_request(SERVER, CLIENT._replace(socket=2), b"Hi")
        mine = (CLIENT.host + SERVER.host + b"\x06\x00" + packet).ljust(60, b"\0")
        others = SERVER.host + mine[6:]
        ip = mine[:12] + b"\x08\x00" + mine[14:]
        sent = b"".join(len(frame).to_bytes(2, "big") + frame for frame in (others, ip, b"", mine))
        came = []
        for at in range(0, len(sent), 7):
            stream.sendall(sent[at : at + 7])
            select.select([link], [], [], 1)
            with contextlib.suppress(BlockingIOError):
                came.append(link.recvfrom(2048))
        for _ in range(50):
            with contextlib.suppress(BlockingIOError):
                came.append(link.recvfrom(2048))
        self.assertEqual(came, [(mine[14:], SERVER.host)])


class EthernetTest(unittest.TestCase):
    """What takes no right to frames; tests/network.sh has the rest."""

    def test_frames_to_others_that_never_cease(self):
        link, to_others = object.__new__(xns.Ethernet), itertools.repeat((bytes(46), ("eth0", 0x0600, 3, 1, SERVER.host)), 10_000)
        link._socket = types.SimpleNamespace(recvfrom=lambda size: next(to_others))
        with self.assertRaises(BlockingIOError):
            link.recvfrom(2048)

    def test_a_link_that_is_closed_ends_the_server_within_a_second(self):
        for told in (told_at_closing, told_at_closing_by_asyncio):
            udp = bound()
            frames = types.SimpleNamespace(bind=lambda place: None, getsockname=lambda: ("eth0", 0x0600, 0, 1, SERVER.host), recvfrom=udp.recvfrom,
                                           fileno=udp.fileno, setblocking=udp.setblocking, close=udp.close)
            with unittest.mock.patch("socket.socket", lambda *_: frames):
                link = xns.ethernet("eth0")
            self.assertEqual(told(link), ["the link is closed"])


if __name__ == "__main__":
    unittest.main()
