"""What tests of servers and clients share: two addresses, settings by which a silent peer is soon given up, a server in another thread, and two sockets."""
import contextlib
import threading
import time
import unittest

import xns
from relay import bound

SERVER, CLIENT = xns.Address(1, bytes.fromhex("0000aa000102"), 5), xns.Address(1, bytes.fromhex("0000aa000304"), 1024)
QUICK = {"first_wait": 50, "longest_wait": 200, "tries": 3, "patience": 550}


def answers(call):
    """Procedure 1 returns its words, 2 does so half a second later."""
    if call.procedure == 2:
        time.sleep(0.5)
    return xns.returns(call.words)


@contextlib.contextmanager
def serving(carrier, answer=answers, **settings):
    """A server in another thread."""
    server = xns.Server(carrier, SERVER, [(7, 1, 1)], answer, **{**QUICK, **settings})
    thread = threading.Thread(target=server.run, daemon=True)
    thread.start()
    try:
        yield server
    finally:
        server.stop()
        thread.join(10)
    if thread.is_alive():
        raise AssertionError("the server goes on")


class OverUdp(unittest.TestCase):
    """A socket of a server, and one of a client."""

    def setUp(self):
        self.there, self.here = bound(), bound()
        self.addCleanup(self.there.close)
        self.addCleanup(self.here.close)

    def client(self, carrier=None, **settings):
        return xns.Client(carrier or self.here, self.there.getsockname(), CLIENT, SERVER, **{**QUICK, **settings})
