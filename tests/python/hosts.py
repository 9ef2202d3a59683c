"""What tests of packets and hosts share: two addresses, an Echo request and its reply, and two hosts."""
import unittest

import xns

HERE = xns.Address(1, bytes.fromhex("0000aa000102"), 2)
THERE = xns.Address(1, bytes.fromhex("0000aa000304"), 1024)
REQUEST = bytes.fromhex("532300220002000000010000aa0001020002000000010000aa000304040000014869")
REPLY = bytes.fromhex("172700220002000000010000aa0003040400000000010000aa000102000200024869")


class TwoHosts(unittest.TestCase):
    """Two hosts, and a network of memory between them that loses nothing."""

    def setUp(self):
        self.now, self.client, self.service = 0, xns.Host(THERE), xns.Host(HERE)
        self.service.serve(5, [(7, 1, 2)])
        self.number = self.client.connect(self.now, 3, THERE.socket, HERE._replace(socket=5))

    def carry(self):
        """All packets go to the other side, until there are none."""
        moved = True
        while moved:
            moved = False
            for sender, receiver, via in ((self.client, self.service, 3), (self.service, self.client, 4)):
                for by, packet in sender.packets(self.now):
                    self.assertEqual(by, via)
                    self.assertTrue(receiver.receive(self.now, 7 - via, packet))
                    moved = True

    def told(self, host):
        """The one event that is there."""
        self.carry()
        (event,) = host.events()
        return event

    def call(self, words):
        self.client.call(self.now, self.number, 7, 2, 1, words)
        call = self.told(self.service)
        self.assertEqual(call, xns.Call(call.number, 7, 2, 1, words))
        return call.number
