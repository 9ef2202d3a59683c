"""Calls between two hosts: their answers, and how connections are opened, abandoned and closed."""
import unittest

import xns
from hosts import HERE, THERE, TwoHosts


class HostCallsTest(TwoHosts):
    def test_answers(self):
        for reply, wanted in (
            (xns.returns([0, 5]), (xns.Kind.RETURN, 0, [0, 5])),
            (xns.aborts(1, [9]), (xns.Kind.ABORT, 1, [9])),
            (xns.rejects(xns.Reject.INVALID_ARGUMENTS), (xns.Kind.REJECT, 3, [])),
        ):
            number = self.call([5])
            with self.assertRaises(xns.BusyError):
                self.client.call(self.now, self.number, 7, 2, 1, [5])
            self.service.answer(self.now, number, reply)
            self.assertEqual(self.told(self.client), xns.Answer(self.number, *wanted))
            self.assertEqual((list(self.client.events()), list(self.service.events())), ([], []))
            with self.assertRaises(LookupError):
                self.service.answer(self.now, number, reply)
        with self.assertRaises(xns.PeerCallsError):
            self.service.call(self.now, number, 7, 2, 1)

    def test_unlisted(self):
        for program, version, number, words in ((9, 1, xns.Reject.NO_SUCH_PROGRAM, []), (7, 3, xns.Reject.NO_SUCH_VERSION, [1, 2])):
            self.client.call(self.now, self.number, program, version, 1)
            self.assertEqual(self.told(self.client), xns.Answer(self.number, xns.Kind.REJECT, number, words))
            self.assertEqual(list(self.service.events()), [])

    def test_longest(self):
        words = [number % 65536 for number in range(xns.MOST_CALL_WORDS)]
        number = self.call(words)
        self.service.answer(self.now, number, xns.returns([7] * xns.MOST_MESSAGE_WORDS))
        self.assertEqual(self.told(self.client).words, [7] * xns.MOST_MESSAGE_WORDS)
        with self.assertRaises(xns.TooLongError):
            self.client.call(self.now, self.number, 7, 1, 1, words + [0])
        for word in (65536, -1):
            with self.assertRaises(ValueError):
                self.client.call(self.now, self.number, 7, 1, 1, [word])

    def test_closing(self):
        number = self.call([5])
        self.client.close(self.now, self.number)
        with self.assertRaises(xns.ClosingError):
            self.client.call(self.now, self.number, 7, 2, 1)
        self.service.answer(self.now, number, xns.returns())
        self.carry()
        self.assertEqual(list(self.client.events()), [xns.Answer(self.number, xns.Kind.RETURN, 0, []), xns.Closed(self.number, xns.Why.ASKED, None)])
        self.assertEqual(list(self.service.events()), [xns.Closed(number, xns.Why.BY_PEER, None)])
        self.now = 20_000
        self.carry()
        self.assertEqual((self.client.connections, self.client.wake()), (0, None))

    def test_tags(self):
        """Each event has the tag that its connection was given, and the next connection of the number has none."""
        self.assertEqual(self.client.tag(self.number), 0)
        self.client.set_tag(self.number, 2**64 - 1)
        number = self.call([5])
        self.service.set_tag(number, 9)
        self.assertEqual((self.client.tag(self.number), self.service.tag(number)), (2**64 - 1, 9))
        self.service.answer(self.now, number, xns.returns([7]))
        self.assertEqual(self.told(self.client).tag, 2**64 - 1)
        self.client.close(self.now, self.number)
        self.carry()
        self.assertEqual([event.tag for host in (self.client, self.service) for event in host.events()], [2**64 - 1, 9])
        self.client.abandon(self.number)
        for wrong in (lambda: self.client.tag(self.number), lambda: self.client.set_tag(self.number, 1)):
            self.assertRaises(xns.NoConnectionError, wrong)
        self.assertRaises(ValueError, self.service.set_tag, number, 2**64)
        self.assertEqual(self.client.tag(self.client.connect(self.now, 3, THERE.socket, HERE._replace(socket=5))), 0)

    def test_abandoned(self):
        """A call that is abandoned: nothing of it is told any more, and the server learns so by the complaint of its answer."""
        number = self.call([5])
        self.client.abandon(self.number)
        self.assertEqual((self.client.connections, self.client.wake(), list(self.client.events())), (0, None, []))
        self.service.answer(self.now, number, xns.returns([7]))
        self.carry()
        self.assertEqual((list(self.client.events()), self.service.connections), ([], 1))
        self.assertEqual([(closed.why, closed.error) for closed in self.service.events()], [(xns.Why.NOT_SERVED, 2)])
        self.assertEqual((self.client.connections, self.service.connections), (0, 0))
        with self.assertRaises(xns.NoConnectionError):
            self.client.abandon(self.number)

    def test_not_served(self):
        """An Error packet about an answer that went out closes its connection, and the event has its number."""
        number = self.call([5])
        self.service.answer(self.now, number, xns.returns())
        ((via, answer),) = self.service.packets(self.now)
        self.assertFalse(self.service.receive(self.now, via, xns.complain(THERE, 1, 0, answer)))
        self.assertTrue(self.service.receive(self.now, via, xns.complain(THERE, 2, 0, answer)))
        (closed,) = self.service.events()
        self.assertEqual((closed.why, closed.error, closed.fault), (xns.Why.NOT_SERVED, 2, None))

    def test_opened(self):
        """By the setting it is told once, before all else, that a connection of ours is open; never where the peer is silent, nor of one that a peer opened."""
        silent = {"first_wait": 100, "longest_wait": 100, "tries": 1, "patience": 200}
        with xns.Host(THERE, tells_opened=True) as self.client, xns.Host(HERE, tells_opened=True) as self.service:
            self.service.serve(5, [(7, 1, 2)])
            self.number = self.client.connect(self.now, 3, THERE.socket, HERE._replace(socket=5))
            self.client.set_tag(self.number, 7)
            self.assertEqual((list(self.client.events()), len(list(self.client.packets(self.now)))), ([], 1))  # which is lost
            self.now = 1000
            opened = self.told(self.client)
            self.assertIsInstance(opened, xns.Opened)
            self.assertEqual((opened, opened.tag, list(self.client.events())), (xns.Opened(self.number), 7, []))
            number = self.call([5])
            self.service.answer(self.now, number, xns.returns([6]))
            self.assertEqual(self.told(self.client), xns.Answer(self.number, xns.Kind.RETURN, 0, [6]))
            second = self.client.connect(self.now, 3, 1025, HERE._replace(socket=5))
            self.client.call(self.now, second, 7, 2, 1, [5])
            self.service.answer(self.now, self.told(self.service).number, xns.returns([6]))
            self.carry()
            self.assertEqual(self.client.wake(), 0)
            self.assertEqual(list(self.client.events()), [xns.Opened(second), xns.Answer(second, xns.Kind.RETURN, 0, [6])])
            self.assertEqual(list(self.service.events()), [])
        with xns.Host(THERE, tells_opened=True, **silent) as client:
            number = client.connect(0, 3, 1024, HERE._replace(socket=5))
            for now in range(0, 400, 100):
                list(client.packets(now))
            self.assertEqual(list(client.events()), [xns.Closed(number, xns.Why.SILENT, None)])

    def test_attention_amid_a_call(self):
        peer, own = HERE._replace(socket=5), THERE._replace(socket=2000)
        end = xns.Endpoint.initiator(own, 77, peer)

        def say(packets):
            for packet in packets:
                self.assertTrue(self.service.receive(self.now, 4, packet))
            for _, packet in self.service.packets(self.now):
                reply = end.receive(packet).reply
                self.service.receive(self.now, 4, reply)

        say(end.tick())
        for item in (xns.Item(bytes.fromhex("00030003")), xns.Item(bytes.fromhex("000000010000000700020001"))):
            end.send(*item)
            say(end.tick())
        (call,) = self.service.events()
        end.send(b"\1", attention=True, last=False)
        say(end.tick())
        self.assertEqual(list(self.service.events()), [])  # it is read when the call is answered
        self.service.answer(self.now, call.number, xns.returns())
        self.assertEqual(list(self.service.events()), [xns.Closed(call.number, xns.Why.REFUSED, xns.Result.ATTENTION)])
        with self.assertRaises(xns.NoConnectionError):  # it is dead, and so it is gone
            self.service.answer(self.now, call.number, xns.returns())
        say([])
        self.call([6])  # the other one goes on


if __name__ == "__main__":
    unittest.main()
