"""`serve` and `Client` of the module, over UDP on this machine, in one process."""
import contextlib
import threading
import time
import types
import unittest

import xns
from relay import LOCAL, Peer, bound, send_all_kinds
from servers import CLIENT, SERVER
from xns._serving import Replies

PROGRAMS = [(7, 1, 2)]
QUICK = {"first_wait": 50, "longest_wait": 200, "tries": 5, "patience": 950, "idle": 500}  # asked after half a second, and silent after one more


def doubles(call):
    """Procedure 1 returns its words twice, 2 fails in the way that its word says, 3 is an error, and there is no other."""
    if call.procedure == 2:
        return FAILURES[xns.Reader(call.words).cardinal()]()
    if call.procedure == 1:
        return xns.returns(call.words * 2)
    return xns.aborts(9, [8]) if call.procedure == 3 else xns.rejects(xns.Reject.NO_SUCH_PROCEDURE)


def fails():
    raise KeyError("no such word")


FAILURES = [fails, lambda: None, lambda: xns.returns([1] * 65535), lambda: xns.returns([65536]), lambda: xns.returns(b"12"), lambda: xns.aborts("no number")]


def exchanges(udp):
    """Answers packet exchanges with what is asked, backwards; fails at a packet that is none."""

    def answer(packet, place):
        if packet == b"none":
            raise ValueError
        try:
            told = xns.decode(packet)
        except xns.XnsError:
            return
        if told.kind == xns.PacketType.EXCHANGE:
            _, _, data = xns.exchange_read(told.body)
            udp.sendto(xns.exchange_reply(SERVER, packet, data[::-1]), place)

    return answer


class Serving(unittest.TestCase):
    def setUp(self):
        self.udp, self.stops = bound(), threading.Event()
        self.addCleanup(self.udp.close)
        self.thread = threading.Thread(target=self.serve, daemon=True)
        self.thread.start()
        self.addCleanup(self.stop)

    def serve(self):
        xns.serve(self.udp, SERVER, PROGRAMS, doubles, exchanges(self.udp), self.stops, connections=2, **QUICK)

    def client(self, **settings):
        udp = bound()
        self.addCleanup(udp.close)
        client = xns.Client(udp, self.udp.getsockname(), CLIENT, SERVER, **{**QUICK, **settings})
        self.addCleanup(self.leave, client)
        return client

    @staticmethod
    def leave(client):
        """A client that is still there closes."""
        try:
            client.close()
        except (OSError, xns.XnsError):
            pass

    def stop(self):
        self.stops.set()
        self.thread.join(10)
        self.assertFalse(self.thread.is_alive())

    def told(self, answer):
        return answer.kind, answer.code, answer.words

    def test_calls_are_answered_in_turn(self):
        client = self.client()
        for word in range(20):
            self.assertEqual(self.told(client.call(7, 1, 1, [word])), (xns.Kind.RETURN, 0, [word, word]))
        client.close()
        client.close()
        with self.assertRaises(ConnectionResetError):
            client.call(7, 1, 1)

    def test_long_calls_go_both_ways(self):
        words = [word % 65536 for word in range(30_000)]
        self.assertEqual(self.client().call(7, 2, 1, words).words, words * 2)

    def test_errors_and_rejects(self):
        client = self.client()
        self.assertEqual(self.told(client.call(7, 1, 3)), (xns.Kind.ABORT, 9, [8]))
        self.assertEqual(self.told(client.call(8, 1, 1)), (xns.Kind.REJECT, xns.Reject.NO_SUCH_PROGRAM, []))
        self.assertEqual(self.told(client.call(7, 3, 1)), (xns.Kind.REJECT, xns.Reject.NO_SUCH_VERSION, [1, 2]))
        self.assertEqual(self.told(client.call(7, 1, 4)), (xns.Kind.REJECT, xns.Reject.NO_SUCH_PROCEDURE, []))

    def test_a_call_that_fails_is_rejected_and_ends_nothing(self):
        client = self.client()
        self.assertEqual(self.told(client.call(7, 1, 2)), (xns.Kind.REJECT, xns.Reject.INVALID_ARGUMENTS, []))  # there is no word
        for failure in range(len(FAILURES)):
            with self.assertLogs("xns", "ERROR") as logged:
                self.assertEqual(self.told(client.call(7, 1, 2, [failure])), (xns.Kind.REJECT, xns.UNSPECIFIED, []))
            self.assertIn("program 7, version 1, procedure 2", logged.output[0])
        self.assertEqual(client.call(7, 1, 1, [3]).words, [3, 3])

    def test_a_server_that_is_stopped_closes_its_connections(self):
        client = self.client()
        client.call(7, 1, 1)
        self.stops.set()
        with self.assertRaises(xns.ClosedError):
            for _ in range(100):
                client.wait(0.1)
                client.call(7, 1, 1)
        self.thread.join(10)
        self.assertFalse(self.thread.is_alive())
        with self.assertRaises(TimeoutError):
            self.client(longest_wait=50, tries=1, patience=100).call(7, 1, 1)

    def test_a_client_more_than_there_is_room_for_is_told_so_at_once(self):
        first, second = self.client(), self.client()
        for client in (first, second):
            client.call(7, 1, 1)
        with self.assertRaises(xns.NotServedError) as full:
            self.client().call(7, 1, 1)
        self.assertEqual(full.exception.error, 3)  # no resources
        self.assertEqual(first.call(7, 1, 1, [3]).words, [3, 3])
        second.close()
        self.assertEqual(self.client().call(7, 1, 1, [5]).words, [5, 5])

    def test_a_client_against_the_protocol_is_dropped_alone(self):
        good, udp = self.client(), bound()
        self.addCleanup(udp.close)
        good.call(7, 1, 1)
        bad = Peer.opening(udp, self.udp.getsockname(), CLIENT._replace(socket=1025), SERVER)
        bad.item()
        bad.endpoint.send(bytes(3))  # a message of an odd number of bytes
        with contextlib.suppress(TimeoutError):  # a connection that is refused acknowledges nothing more
            bad.until(lambda: not bad.endpoint.unacknowledged, 1)
        self.assertEqual(good.call(7, 1, 1, [4]).words, [4, 4])
        self.assertEqual(self.client().call(7, 1, 1, [5]).words, [5, 5])  # it has given its place up

    def test_datagrams_of_any_kind(self):
        client = self.client()
        client.call(7, 1, 1)
        send_all_kinds(self.udp.getsockname(), CLIENT, SERVER)
        self.assertEqual(client.call(7, 1, 1, [6]).words, [6, 6])

    def test_echo_and_packet_exchange_beside_calls(self):
        client = self.client()
        client.call(7, 1, 1)
        with bound() as udp:
            udp.settimeout(5)
            udp.sendto(xns.echo_request(CLIENT, SERVER._replace(socket=2), b"Hi"), self.udp.getsockname())
            self.assertEqual(xns.echo_accept(SERVER._replace(socket=2), udp.recv(2048)), b"Hi")
            with self.assertLogs("xns", "ERROR"):
                udp.sendto(b"none", self.udp.getsockname())
                time.sleep(0.2)
            udp.sendto(xns.exchange_request(CLIENT, SERVER, 77, 5, b"abc"), self.udp.getsockname())
            self.assertEqual(xns.exchange_accept(SERVER, 77, udp.recv(2048)), b"cba")
        self.assertEqual(client.call(7, 1, 1, [6]).words, [6, 6])


class RepliesTest(unittest.TestCase):
    """Replies to calls of a host that has memory, or has none."""

    def setUp(self):
        self.has_memory, self.given, self.call = False, [], types.SimpleNamespace(number=1, program=7, version=1, procedure=1)
        self.replies = Replies(types.SimpleNamespace(answer=self.answer))

    def answer(self, now, number, reply):
        words = [*reply.words]
        if not self.has_memory:
            raise xns.NoMemoryError
        self.given.append((now, number, reply.kind, words))

    def test_what_is_refused_memory_is_given_later_as_it_was(self):
        words = [5, 6]
        for reply in (xns.returns(words), xns.returns(iter(words)), (xns.Kind.RETURN, iter(words), 0)):
            self.has_memory, self.given[:] = False, []
            self.replies.give(1, self.call, reply)
            self.replies.give_kept(2)
            words[0], self.has_memory = 7, True
            for now in (3, 4):
                self.replies.give_kept(now)
            self.assertEqual(self.given, [(3, 1, xns.Kind.RETURN, [5, 6])])
            words[0] = 5

    def test_what_is_kept_goes_with_its_connection(self):
        self.replies.give(1, self.call, xns.returns([5]))
        self.replies.forget(1)
        self.replies.forget(2)
        self.has_memory = True
        self.replies.give_kept(2)
        self.assertEqual(self.given, [])


class Alone(unittest.TestCase):
    """Servers that are none."""

    def setUp(self):
        self.udp, self.nobody = bound(), bound()
        self.addCleanup(self.udp.close)
        self.addCleanup(self.nobody.close)

    def client(self, place=None):
        return xns.Client(self.udp, place or self.nobody.getsockname(), CLIENT, SERVER, **QUICK)

    def test_a_server_that_is_not_there(self):
        client = self.client()
        for _ in range(2):
            with self.assertRaises(TimeoutError):
                client.call(7, 1, 1)
        with self.assertRaises(TimeoutError):
            client.close()

    def test_a_send_that_fails_is_a_lost_packet(self):
        with self.assertRaises(TimeoutError):
            self.client((LOCAL, 0)).call(7, 1, 1)

    def answered_by(self, answer):
        """A call to a server that does this."""
        client, thread = self.client(), threading.Thread(target=answer, daemon=True)
        thread.start()
        try:
            return client.call(7, 1, 1)
        finally:
            thread.join(5)

    def test_an_error_packet_says_that_there_is_none(self):
        def answer():
            opening, place = self.nobody.recvfrom(2048)
            self.nobody.sendto(xns.complain(SERVER, 3, 0, opening), place)

        with self.assertRaises(ConnectionRefusedError) as refused:
            self.answered_by(answer)
        self.assertEqual(refused.exception.error, 3)

    def says(self, *items):
        def answer():
            peer = Peer.answering(self.nobody, SERVER)
            for item in items:
                peer.endpoint.send(*item)
            with contextlib.suppress(TimeoutError):  # the client need not hear the last of them
                peer.until(lambda: not peer.endpoint.unacknowledged, 1)

        return answer

    def test_attention_amid_a_call(self):
        with self.assertRaises(xns.AttentionError):
            self.answered_by(self.says(xns.Item(b"\1", attention=True, last=False)))

    def test_an_answer_to_another_call(self):
        with self.assertRaises(xns.WrongTransactionError):
            self.answered_by(self.says(xns.Item(bytes.fromhex("00027777"))))

    def test_a_server_that_closes(self):
        with self.assertRaises((ConnectionResetError, xns.SilentError)):  # the second where the call was not acknowledged before the server went
            self.answered_by(self.says(xns.Item(b"", xns.Stream.END)))

    def test_a_server_that_closes_behind_an_answer(self):
        client = self.client()
        answer = self.says(xns.Item(bytes.fromhex("000200010007")), xns.Item(b"", xns.Stream.END))
        thread = threading.Thread(target=answer, daemon=True)
        thread.start()
        self.assertEqual(client.call(7, 1, 1).words, [7])
        for _ in range(2):
            with self.assertRaises((ConnectionResetError, xns.SilentError)):  # the second where the call went out before End came
                client.call(7, 1, 1)
        with contextlib.suppress(xns.SilentError):
            client.close()
        thread.join(5)


if __name__ == "__main__":
    unittest.main()
