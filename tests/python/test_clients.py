"""What users expect of `Client` and `Server` over UDP on this machine, in one process: times, clients that rest, Ctrl-C, and memory that is refused."""
import asyncio
import contextlib
import functools
import signal
import threading
import time
import unittest
import unittest.mock

import xns
from relay import Counting, bound
from servers import CLIENT, QUICK, SERVER, OverUdp, answers, serving


class Refused(xns.Host):
    """A host that is refused memory for what is to go out, two times of three."""

    asked = 0

    def packets(self, now):
        self.asked += 1
        if self.asked % 3:
            raise xns.NoMemoryError
        return super().packets(now)


class RefusedReplies(xns.Host):
    """A host that is refused memory for replies, two times of three, once it has read their words."""

    asked = 0

    def answer(self, now, number, reply):
        self.asked += 1
        if self.asked % 3:
            _ = [*reply.words]
            raise xns.NoMemoryError
        super().answer(now, number, reply)


class ClientsTest(OverUdp):
    def test_with(self):
        with serving(self.there), self.client() as client:
            client.connect(5)
            self.assertEqual(client.call(7, 1, 1, [3]).words, [3])
        with self.assertRaises(xns.ClosedError):
            client.call(7, 1, 1)

    def test_an_error_in_a_with_is_told(self):
        begun = time.monotonic()
        with self.assertRaises(KeyError), self.client(tries=100):  # the server would be waited for some 20 seconds
            raise KeyError
        self.assertLess(time.monotonic() - begun, 5)

    def test_times(self):
        for what in ("connect", "call", "close"):
            client, begun = self.client(tries=100), time.monotonic()
            given = {"timeout": 0.2, **({"program": 7, "version": 1, "procedure": 1} if what == "call" else {})}
            with self.assertRaises(TimeoutError) as told:
                getattr(client, what)(**given)
            self.assertIsInstance(told.exception, xns.XnsError)
            self.assertTrue(0.19 < time.monotonic() - begun < 5)
            with self.assertRaises(xns.ClosedError):
                client.call(7, 1, 1)
            client.close()
        with self.assertRaises(TypeError):
            self.client(timeout="5")

    def test_a_time_for_each(self):
        with serving(self.there), self.client(timeout=0.1) as client:
            with self.assertRaises(TimeoutError):
                client.call(7, 1, 2)

    def test_a_time_of_years(self):
        with serving(self.there), self.client(first_wait=2**32 - 1, longest_wait=2**32 - 1, idle=2**32 - 2) as client:
            self.assertEqual(client.call(7, 1, 1, [3]).words, [3])

    def test_the_last_answer_is_acknowledged(self):
        """A server sends nothing again to a client that rests."""
        carrier = Counting(self.there)
        with serving(carrier, idle=None), self.client() as client:
            client.call(7, 1, 1, [3])
            time.sleep(0.1)
            sent = carrier.sent
            time.sleep(0.4)
            self.assertEqual(carrier.sent, sent)

    def test_a_client_that_rests_waits_or_opens_again(self):
        with serving(self.there, idle=100):
            with self.client(reopens=0.3) as rests:
                rests.call(7, 1, 1)
                time.sleep(1.5)  # the server has given it up
                self.assertEqual(rests.call(7, 1, 1, [4]).words, [4])
            resting = self.client()
            resting.call(7, 1, 1)
            time.sleep(1.5)
            with self.assertRaises(xns.XnsError):
                resting.call(7, 1, 1, [5])
            with self.client() as waits:
                waits.call(7, 1, 1)
                waits.wait(1.5)
                self.assertEqual(waits.call(7, 1, 1, [6]).words, [6])

    def stopped_beside_a_guest(self, stop):
        """A server with room for one connection is stopped: a client whose connection has the number of one before is told so."""
        with self.client() as first:
            first.call(7, 1, 1)
        time.sleep(1)  # until the number is free
        with bound() as udp:
            second = self.client(udp)
            second.connect(5)
            stop()
            second.wait(0.3)
            with self.assertRaises(xns.ClosedError):
                second.call(7, 1, 1)

    def test_a_server_that_is_stopped_closes_a_connection_by_a_number_of_one_before(self):
        with serving(self.there, connections=1) as server:
            self.stopped_beside_a_guest(server.stop)

    def test_asyncio_closes_a_connection_by_a_number_of_one_before(self):
        stopping = []

        async def served():
            stops = asyncio.Event()
            stopping.append(functools.partial(asyncio.get_running_loop().call_soon_threadsafe, stops.set))
            await xns.serve_async(self.there, SERVER, [(7, 1, 1)], answers, stop=stops, connections=1, **QUICK)

        thread = threading.Thread(target=lambda: asyncio.run(served()), daemon=True)
        thread.start()
        self.stopped_beside_a_guest(lambda: stopping[0]())
        thread.join(10)
        self.assertFalse(thread.is_alive())

    @unittest.skipUnless(threading.current_thread() is threading.main_thread(), "signals go to another thread")
    def test_ctrl_c_in_a_call(self):
        before = signal.signal(signal.SIGALRM, signal.default_int_handler)
        try:
            with serving(self.there, tries=30), self.client(tries=30) as client:  # the server says nothing while it carries out a call
                for number in range(5):
                    with self.assertRaises(KeyboardInterrupt):
                        signal.setitimer(signal.ITIMER_REAL, 0.1)
                        client.call(7, 1, 2, [number])
                    self.assertEqual(client.call(7, 1, 1, [100 + number]).words, [100 + number])
        finally:
            signal.signal(signal.SIGALRM, before)

    @unittest.skipUnless(threading.current_thread() is threading.main_thread(), "signals go to another thread")
    def test_ctrl_c_ends_a_server_that_closes_its_connections(self):
        told = []

        def ended(call):
            if not call.words:
                signal.setitimer(signal.ITIMER_REAL, 0.05)
            return answers(call)

        def calls():
            with bound() as udp, xns.Client(udp, self.there.getsockname(), CLIENT, SERVER, **QUICK) as client:
                try:
                    client.call(7, 1, 1)
                    for _ in range(100):
                        client.wait(0.2)
                        client.call(7, 1, 1, [1])
                except xns.XnsError as error:
                    told.append(error)

        thread = threading.Thread(target=calls)
        before = signal.signal(signal.SIGALRM, signal.default_int_handler)
        try:
            thread.start()
            with self.assertRaises(KeyboardInterrupt):
                xns.serve(self.there, SERVER, [], ended)
        finally:
            signal.signal(signal.SIGALRM, before)
            thread.join()
        self.assertIsInstance(told[0], xns.ClosedError)

    def calls_by(self, host, answer=answers):
        """A call of the server and of that of asyncio, with hosts of this class."""

        async def calls():
            with bound() as udp:
                stop = asyncio.Event()
                server = asyncio.ensure_future(xns.serve_async(udp, SERVER, [(7, 1, 1)], answer, stop=stop, **QUICK))
                async with xns.AsyncClient(self.here, udp.getsockname(), CLIENT, SERVER, **QUICK) as client:
                    self.assertEqual((await client.call(7, 1, 1, [4])).words, [4])
                stop.set()
                await server

        with contextlib.ExitStack() as patched:
            for module in ("_serving", "_client", "_asynchronous"):
                patched.enter_context(unittest.mock.patch(f"xns.{module}.Host", host))
            with serving(self.there, answer), self.client() as client:
                self.assertEqual(client.call(7, 1, 1, [3]).words, [3])
            asyncio.run(calls())

    def test_packets_that_are_refused_memory_go_out_later(self):
        self.calls_by(Refused)

    def test_replies_that_are_refused_memory_are_given_later(self):
        carried_out = []

        def once(call):
            carried_out.append(call.words)
            return xns.returns(iter(call.words))

        self.calls_by(RefusedReplies, once)
        self.assertEqual(carried_out, [[3], [4]])

    def test_many_clients_at_once(self):
        with serving(self.there, connections=20):
            told = []

            def calls(number):
                with bound() as udp, xns.Client(udp, self.there.getsockname(), CLIENT._replace(socket=2000 + number), SERVER) as client:
                    told.append(client.call(7, 1, 1, [number]).words)

            threads = [threading.Thread(target=calls, args=(number,)) for number in range(20)]
            for one in threads:
                one.start()
            for one in threads:
                one.join()
            self.assertEqual(sorted(told), [[number] for number in range(20)])


if __name__ == "__main__":
    unittest.main()
