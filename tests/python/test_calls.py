"""What becomes of a `Client` and a `serve` where calls are given up, and where sockets are closed, or have no name."""
import contextlib
import os
import socket
import tempfile
import threading
import time
import unittest

import xns
from relay import Counting, bound
from servers import CLIENT, SERVER


def late(call):
    """Is answered after a while, unless it has words."""
    time.sleep(0 if call.words else 0.3)
    return xns.returns(call.words)


@contextlib.contextmanager
def serving(carrier):
    """A server in another thread."""
    server = xns.Server(carrier, SERVER, [(7, 1, 1)], late)
    thread = threading.Thread(target=server.run, daemon=True)
    thread.start()
    try:
        yield
    finally:
        server.stop()
        thread.join(10)


class CallsTest(unittest.TestCase):
    def setUp(self):
        self.there, self.here = bound(), bound()
        self.addCleanup(self.there.close)
        self.addCleanup(self.here.close)

    def client(self, carrier=None, **settings):
        return xns.Client(carrier or self.here, self.there.getsockname(), CLIENT, SERVER, **settings)

    def test_a_client_that_has_given_a_call_up_rests(self):
        """The answer comes later, and nobody waits for it."""
        carrier = Counting(self.here)
        with serving(self.there), self.client(carrier) as client:
            with self.assertRaises(xns.SilentError):
                client.call(7, 1, 1, timeout=0.1)
            client.wait(1)
        self.assertLess(carrier.asked, 100)

    def test_a_client_that_opens_again_and_again(self):
        """The connections that it has left are not closed yet: the host has room for no more of them."""
        client = self.client(timeout=5, reopens=30, connections=3)
        for _ in range(10):
            with self.assertRaises(xns.SilentError):
                client.call(7, 1, 1, timeout=0.01)
        with serving(self.there), client:
            self.assertEqual(client.call(7, 1, 1, [5]).words, [5])

    def test_a_client_of_one_connection_opens_another_one(self):
        with serving(self.there), self.client(timeout=5, reopens=0, connections=1) as client:
            for word in range(10):
                self.assertEqual(client.call(7, 1, 1, [word]).words, [word])

    def test_an_error_in_a_with_is_told_where_the_socket_was_closed(self):
        with self.assertRaises(KeyError), self.client():
            self.here.close()
            raise KeyError

    def test_a_packet_from_a_socket_without_a_name_ends_no_server(self):
        """As one of a client over a socket of the system's own files that was not bound."""
        there, here, nameless = (socket.socket(socket.AF_UNIX, socket.SOCK_DGRAM) for _ in range(3))
        with tempfile.TemporaryDirectory() as folder, there, here, nameless:
            place = os.path.join(folder, "there")
            there.bind(place)
            here.bind(os.path.join(folder, "here"))
            with serving(there), xns.Client(here, place, CLIENT, SERVER, timeout=5) as client:
                nameless.sendto(xns.echo_request(CLIENT, SERVER._replace(socket=2), b"Hi"), place)
                self.assertEqual(client.call(7, 1, 1, [5]).words, [5])

    def test_ctrl_c_while_a_call_is_carried_out_closes_its_connection(self):
        told = []

        def calls():
            with self.client() as client:
                told.append(client.call(7, 1, 1, timeout=10))

        def interrupted(call):
            raise KeyboardInterrupt

        thread, begun = threading.Thread(target=calls), time.monotonic()
        thread.start()
        with self.assertRaises(KeyboardInterrupt):
            xns.serve(self.there, SERVER, [], interrupted)
        self.assertLess(time.monotonic() - begun, 1.5)  # it does not wait in vain
        thread.join()
        self.assertEqual([(one.kind, one.code) for one in told], [(xns.Kind.REJECT, xns.UNSPECIFIED)])

    def test_a_server_that_is_busy_says_nothing_and_is_given_up(self):
        quick = {"first_wait": 20, "longest_wait": 40, "tries": 3, "patience": 100}
        with serving(self.there):
            with self.assertRaises(xns.SilentError):
                self.client(**quick, idle=20).call(7, 1, 1, timeout=5)


if __name__ == "__main__":
    unittest.main()
