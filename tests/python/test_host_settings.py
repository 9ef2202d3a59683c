"""What a host is given: its settings and secret, a clock, numbers, and what it refuses."""
import unittest

import xns
from hosts import HERE, REPLY, REQUEST, THERE, TwoHosts


class HostSettingsTest(TwoHosts):
    def test_clock(self):
        """A clock that is set back: the wait goes on from there. One that is once far ahead closes nothing."""
        with xns.Host(THERE, first_wait=100) as client:
            client.connect(50_000, 3, 1024, HERE._replace(socket=5))
            self.assertEqual((len(list(client.packets(50_000))), client.wake()), (1, 50_100))
            self.assertEqual((len(list(client.packets(7))), client.wake()), (0, 107))
            self.assertEqual((len(list(client.packets(107))), client.wake()), (1, 307))
            self.assertEqual((len(list(client.packets(2**64 - 1))), client.wake()), (1, 0))
            self.assertEqual((len(list(client.packets(108))), client.wake(), list(client.events())), (0, 508, []))

    def test_silence(self):
        for settings, sent, end in (
            ({"first_wait": 100, "longest_wait": 300, "tries": 4, "patience": 1}, [0, 100, 300, 600, 900], 1200),
            ({"first_wait": 100, "longest_wait": 300, "tries": 4, "patience": 1200}, [0, 100, 300, 600, 900], 1200),
            ({"first_wait": 100, "longest_wait": 300, "tries": 4, "patience": 1201}, [0, 100, 300, 600, 900, 1200], 1500),
            ({}, [0, 250, 750, 1750, 3750, 7750, 15750, 23750, 31750], 39750),
        ):
            self.assertEqual(self.silence(settings), (sent, [(end, xns.Why.SILENT)]))

    def silence(self, settings):
        """When packets of a host go out of which no peer hears, and when and why its connection is closed."""
        with xns.Host(THERE, **settings) as client:
            client.connect(0, 3, 1024, HERE._replace(socket=5))
            times, ends, now = [], [], 0
            while now is not None:
                times += [now for _ in client.packets(now)]
                ends += [(now, event.why) for event in client.events()]
                now = client.wake()
        return times, ends

    def test_what_is_not_for_the_host(self):
        self.assertFalse(self.service.receive(0, 0, b""))
        self.assertFalse(self.service.receive(0, 0, REQUEST[:-1]))
        self.assertFalse(self.service.receive(0, 0, xns.exchange_request(THERE, HERE, 1, 5, b"")))
        self.assertTrue(self.service.receive(0, 9, REQUEST))
        self.assertEqual(list(self.service.packets(0)), [(9, REPLY)])
        with xns.Host(HERE, answers_echo=True) as host:
            self.assertTrue(host.receive(0, 9, REQUEST))
        with xns.Host(HERE, answers_echo=False) as host:
            self.assertFalse(host.receive(0, 9, REQUEST))

    def test_refusals(self):
        everybody = HERE._replace(host=bytes([255] * 6))
        for fault, refused in (
            (xns.EveryHostError, lambda: self.client.connect(0, 3, 7, everybody)),
            (xns.NoSocketError, lambda: self.client.connect(0, 3, 7, HERE._replace(socket=0))),
            (xns.NoSocketError, lambda: self.client.connect(0, 3, 0, HERE)),
            (xns.EchoSocketError, lambda: self.service.serve(2)),
            (xns.NoVersionError, lambda: self.service.serve(5, [(7, 1, 2), (8, 2, 1)])),
        ):
            with self.assertRaises(fault):
                refused()
        self.assertEqual(self.client.connections, 1)
        self.call([5])

    def test_network(self):
        """A network that is learned late is that of new connections; one that is there keeps its own."""
        self.client.set_network(0x12345678)
        second = self.client.connect(0, 3, THERE.socket + 1, HERE._replace(socket=5))
        networks = {xns.decode(packet).source.socket: xns.decode(packet).source.network for _, packet in self.client.packets(0)}
        self.assertEqual(networks, {THERE.socket: THERE.network, THERE.socket + 1: 0x12345678})
        self.assertNotEqual(second, self.number)

    def test_peers(self):
        self.assertEqual(self.client.peer(self.number), HERE._replace(socket=5))
        self.assertEqual(self.service.peer(self.call([])), THERE)
        self.assertEqual((self.client.connections, self.service.connections), (1, 1))
        with self.assertRaises(xns.NoConnectionError):
            self.client.peer(64)
        for _ in range(63):
            self.client.connect(0, 3, 7, HERE)
        with self.assertRaises(xns.NoSlotError):
            self.client.connect(0, 3, 7, HERE)
        for number in range(15):
            self.service.serve(100 + number)
        self.service.serve(5)
        with self.assertRaises(xns.TooManyServicesError):
            self.service.serve(200)

    def test_settings(self):
        for name, value in (("tries", 0), ("tries", 256), ("window", 65), ("backlog", -1), ("connections", 65536), ("idle", 2**32), ("idle", 2**64), ("least_wait", 0), ("least_wait", 2**16), ("patience", 0), ("patience", 86_400_001)):
            with self.assertRaises(ValueError):
                xns.Host(HERE, **{name: value})
        with self.assertRaises(xns.BadArgumentError):
            xns.Host(HERE, longest_wait=249)
        with self.assertRaises(xns.BadArgumentError):
            xns.Host(HERE, least_wait=251)
        xns.Host(HERE, least_wait=250)
        for wrong in ({"waits": 9}, {"answers_echo": 1}, {"tells_opened": 1}):
            with self.assertRaises(TypeError):
                xns.Host(HERE, **wrong)
        for secret in (b"", bytes(31), bytes(33)):
            with self.assertRaises(ValueError):
                xns.Host(HERE, secret)
        with self.assertRaises(TypeError):
            xns.Host(HERE, 32)

    def test_secrets(self):
        """One secret gives one order of identifiers; without one they are others each time."""
        peer = HERE._replace(socket=5)

        def opening(*secret):
            with xns.Host(THERE, *secret) as host:
                host.connect(0, 0, 1024, peer)
                ((_, packet),) = host.packets(0)
                return packet

        self.assertEqual(opening(bytes(32)), opening(bytes(32)))
        self.assertNotEqual(opening(bytes(32)), opening(b"\1" * 32))
        self.assertGreater(len({opening() for _ in range(8)}), 6)

    def test_idle_peers_are_asked_or_never(self):
        for idle, wake in ((5000, 5000), (None, None)):
            with xns.Host(THERE, idle=idle) as client:
                number = client.connect(0, 3, 1024, HERE._replace(socket=5))
                self.client, self.number = client, number
                self.carry()
                self.assertEqual(client.wake(), wake)

    def test_numbers_are_not_cut(self):
        for number in (-1, 2**64):
            for call in (
                lambda: self.client.peer(number),
                lambda: self.client.close(0, number),
                lambda: self.client.abandon(number),
                lambda: self.client.call(0, number, 7, 1, 1),
                lambda: self.client.call(number, 0, 7, 1, 1),
                lambda: self.client.call(0, 0, number, 1, 1),
                lambda: self.client.call(0, 0, 7, number, 1),
                lambda: self.client.call(0, 0, 7, 1, number),
                lambda: self.client.answer(0, number, xns.returns()),
                lambda: self.client.answer(0, 0, xns.aborts(number)),
                lambda: self.client.receive(number, 0, b""),
                lambda: self.client.receive(0, number, b""),
                lambda: self.client.connect(0, number, 5, HERE),
                lambda: self.client.connect(0, 0, number, HERE),
                lambda: self.client.connect(0, 0, 5, HERE._replace(network=number)),
                lambda: list(self.client.packets(number)),
                lambda: self.client.serve(number),
                lambda: self.client.serve(5, [(number, 1, 1)]),
                lambda: self.client.serve(5, [(7, 1, number)]),
                lambda: xns.Endpoint.initiator(HERE, 1, THERE, window=number),
                lambda: xns.Endpoint.responder(HERE, 1, THERE, 2, backlog=number),
            ):
                with self.assertRaises(ValueError):
                    call()

    def test_freed(self):
        self.client.free()
        with self.assertRaises(xns.NoHostError):
            self.client.receive(0, 0, REQUEST)
        self.assertEqual((self.client.connections, self.client.wake()), (0, None))
        self.client.free()


if __name__ == "__main__":
    unittest.main()
