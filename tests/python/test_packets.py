"""What the module reads and writes: values in words, packets and what is in them; and two ends of a connection."""
import unittest

import xns
from hosts import HERE, REPLY, REQUEST, THERE

OPENING = bytes.fromhex("cc1c002a0005000000010000aa0001020005000000010000aa0003040400c00012340000000000000003")


class ValueTest(unittest.TestCase):
    """Values as XSIS 038112 spells them."""

    WORDS = [0x0201, 0x0001, 0x1170, 0xFFFE, 0xFFFE, 0xEE90, 1, 0, 3]

    def test_read(self):
        reader = xns.Reader(self.WORDS)
        values = [reader.cardinal(), reader.long_cardinal(), reader.integer(), reader.long_integer(), reader.boolean(), reader.boolean()]
        self.assertEqual(values, [513, 70000, -2, -70000, True, False])
        self.assertRaises(xns.LeftOverError, reader.end)
        self.assertRaises(xns.LeftOverError, reader.count)
        reader = xns.Reader([3])
        self.assertEqual(reader.count(3), 3)
        reader.end()
        self.assertRaises(xns.TruncatedError, reader.cardinal)
        self.assertRaises(xns.OverMaximumError, xns.Reader([3]).count, 2)
        self.assertRaises(xns.NotBooleanError, xns.Reader([2]).boolean)

    def test_read_text(self):
        reader = xns.Reader([5, 0x4865, 0x6C6C, 0x6FFF, 2, 0x4869, 0, 3, 0x4869])
        self.assertEqual([reader.text(), reader.text(), reader.text()], [b"Hello", b"Hi", b""])
        self.assertRaises(xns.TruncatedError, reader.text)
        self.assertRaises(xns.TruncatedError, reader.cardinal)
        self.assertRaises(xns.TruncatedError, xns.Reader([]).text)
        longest = bytes(range(256)) * 256
        self.assertEqual(xns.Reader(xns.Writer().text(longest[1:]).words).text(), longest[1:])

    def test_write(self):
        writer = xns.Writer().cardinal(513).long_cardinal(70000).integer(-2).long_integer(-70000)
        self.assertEqual(writer.boolean(True).boolean(False).count(3, 3).words, self.WORDS)
        self.assertEqual(xns.Writer().text(b"Hello").words, [5, 0x4865, 0x6C6C, 0x6F00])
        self.assertRaises(xns.OverMaximumError, writer.count, 4, 3)
        self.assertRaises(xns.TooLongError, writer.text, bytes(65536))
        self.assertRaises(ValueError, writer.integer, 32768)


class PacketTest(unittest.TestCase):
    def test_decode(self):
        packet = xns.decode(REQUEST + b"\xff")
        self.assertEqual(packet, xns.Packet(HERE, THERE, xns.PacketType.ECHO, b"\0\1Hi", True, 0, 34))
        self.assertEqual(xns.encode(packet), REQUEST)

    def test_faults(self):
        for data, error in ((REQUEST[:29], xns.ShortError), (REQUEST[:33], xns.CutError), (b"\x53\x24" + REQUEST[2:], xns.BadSumError)):
            with self.assertRaises(error):
                xns.decode(data)
        with self.assertRaises(xns.TooLongError):
            xns.encode(xns.Packet(HERE, THERE, 2, bytes(547)))
        with self.assertRaises(xns.BadArgumentError):
            xns.checksum(b"\1")

    def test_numbers_are_not_cut(self):
        with self.assertRaises(ValueError):
            xns.encode(xns.Packet(HERE, THERE, 256, b""))
        with self.assertRaises(ValueError):
            xns.encode(xns.Packet(xns.Address(1, b"short", 2), THERE, 2, b""))
        with self.assertRaises(ValueError):
            xns.message_write(xns.Message(256, []))
        self.assertEqual(xns.encode(xns.Packet(HERE, THERE, 2, b"\0\1Hi", summed=256)), REQUEST)
        with self.assertRaises(TypeError):
            xns.decode(None)

    def test_checksum(self):
        self.assertEqual([xns.checksum(bytes.fromhex(data)) for data in ("", "8000", "ffff", "ffff0001")], [0, 1, 0, 2])

    def test_echo(self):
        self.assertEqual(xns.echo_reply(HERE, REQUEST), REPLY)
        self.assertIsNone(xns.echo_reply(HERE, REPLY))
        self.assertEqual(xns.echo_request(THERE, HERE, b"Hi"), REQUEST)
        self.assertEqual(xns.echo_accept(HERE, REPLY), b"Hi")
        self.assertEqual(xns.echo_accept(HERE._replace(host=b"\xff" * 6), REPLY), b"Hi")
        self.assertIsNone(xns.echo_accept(THERE, REPLY))
        self.assertIsNone(xns.echo_accept(HERE, REQUEST))
        self.assertEqual(len(xns.echo_request(THERE, HERE, bytes(544))), 576)
        with self.assertRaises(xns.TooLongError):
            xns.echo_request(THERE, HERE, bytes(545))

    def test_error(self):
        packet = xns.decode(xns.complain(HERE, 2, 9, REQUEST))
        self.assertEqual((packet.kind, packet.target, xns.error_read(packet.body)), (xns.PacketType.ERROR, THERE, (2, 9, REQUEST)))
        self.assertIsNone(xns.complain(HERE, 2, 9, REQUEST[:29]))

    def test_exchange(self):
        body = xns.exchange_write(0x00010002, 3, b"\xaa\xbb")
        self.assertEqual(body.hex(), "000100020003aabb")
        self.assertEqual(xns.exchange_read(body), (0x00010002, 3, b"\xaa\xbb"))
        with self.assertRaises(xns.ShortError):
            xns.exchange_read(body[:5])

    def test_asking(self):
        request = xns.exchange_request(THERE, HERE._replace(socket=5), 0x01020304, 5, b"Hi!")
        self.assertEqual(request.hex(), "f6e300270004000000010000aa0001020005000000010000aa000304040001020304000548692100")
        response = bytes.fromhex("daf500290004000000010000aa0003040400000000010000aa000102000501020304000548656c6c6f00")
        self.assertEqual(xns.exchange_accept(HERE._replace(socket=5), 0x01020304, response), b"Hello")
        self.assertIsNone(xns.exchange_accept(HERE._replace(socket=5), 0x01020305, response))
        self.assertIsNone(xns.exchange_accept(HERE._replace(socket=5), 0x01020304, request))
        self.assertEqual(xns.exchange_reply(HERE._replace(socket=5), request, b"Hello"), response)
        self.assertIsNone(xns.exchange_reply(HERE, request, b"Hello"))
        self.assertIsNone(xns.exchange_reply(HERE._replace(socket=5), REQUEST, b"Hello"))
        with self.assertRaises(xns.TooLongError):
            xns.exchange_reply(HERE._replace(socket=5), request, bytes(541))
        with self.assertRaises(xns.BadArgumentError):
            xns.exchange_request(THERE, xns.Address(1, b"\xff" * 6, 5), 1, 5, b"")

    def test_header(self):
        header, rest = xns.header_read(xns.decode(OPENING).body)
        self.assertEqual((header, rest), (xns.Header(0xC0, 0, 0x1234, 0, 0, 0, 3), b""))
        self.assertEqual(xns.header_write(header), xns.decode(OPENING).body)

    def test_message(self):
        message = xns.message_read(bytes.fromhex("00000001000000070002000100050006"))
        self.assertEqual(message, xns.Message(xns.Kind.CALL, [5, 6], 0, 1, 7, 2, 1))
        self.assertEqual(xns.message_write(message).hex(), "00000001000000070002000100050006")
        for data, error in (("00", xns.OddLengthError), ("0000", xns.ShortMessageError), ("00040001", xns.UnknownKindError)):
            with self.assertRaises(error):
                xns.message_read(bytes.fromhex(data))


def connected(window=8, backlog=16):
    """Two ends of an open connection."""
    a, b = xns.Endpoint.initiator(THERE, 0x1234, HERE, window, backlog), None
    (packet,) = a.tick()
    b = xns.Endpoint.responder(HERE, 0x5678, *xns.opening(packet), window, backlog)
    a.receive(b.receive(packet).reply)
    return a, b


def carry(packets, to, back):
    """The packets come to an end, and its replies back."""
    for packet in packets:
        reply = to.receive(packet).reply
        if reply:
            back.receive(reply)


class EndpointTest(unittest.TestCase):
    def test_opening(self):
        self.assertEqual(xns.opening(OPENING), (xns.Address(1, bytes.fromhex("0000aa000304"), 0x400), 0x1234))
        self.assertIsNone(xns.opening(REQUEST))
        end = xns.Endpoint.initiator(THERE, 0x1234, HERE)
        self.assertEqual((end.is_open, end.peer, end.own), (False, None, (THERE, 0x1234)))
        self.assertIsNone(end.system_packet())
        a, b = connected()
        self.assertEqual((a.is_open, a.peer, b.peer), (True, (HERE, 0x5678), (THERE, 0x1234)))

    def test_items(self):
        a, b = connected()
        sent = [xns.Item(b"one"), xns.Item(b"", last=False), xns.Item(b"\7", attention=True), xns.Item(bytes(534), stream=9)]
        for item in sent:
            a.send(*item)
        self.assertEqual(a.unacknowledged, 4)
        packets = a.flush()
        self.assertTrue(all(b.is_ours(packet) and not a.is_ours(packet) for packet in packets))
        carry(reversed(packets), b, a)
        self.assertEqual((b.waiting, a.unacknowledged), (4, 0))
        self.assertEqual(list(iter(b.take, None)), sent)
        self.assertEqual(b.receive(packets[0]).dropped, xns.Dropped.REPEAT)

    def test_losses(self):
        a, b = connected(4, 4)
        taken = []
        for number in range(40):
            a.send(bytes([number]))
            a.flush()  # all are lost
            self.assertTrue(b.is_ours(a.resend_first()))
            carry(a.tick(), b, a)
            taken += [item.body[0] for item in iter(b.take, None)]
            carry([b.system_packet()], a, b)
        self.assertEqual(taken, list(range(40)))

    def test_refused_items(self):
        a, _ = connected(8, 2)
        for body, attention, error in ((bytes(535), False, xns.TooLongError), (b"12", True, xns.AttentionSizeError)):
            with self.assertRaises(error):
                a.send(body, attention=attention)
        a.send(b"1")
        self.assertEqual((a.room_to_send, a.is_full), (1, False))
        a.send(b"2")
        self.assertTrue(a.is_full)
        with self.assertRaises(xns.FullError):
            a.send(b"3")

    def test_bad_arguments(self):
        for identifier, window in ((0, 8), (1, 0), (1, 65)):
            with self.assertRaises(xns.BadArgumentError):
                xns.Endpoint.initiator(THERE, identifier, HERE, window)

    def test_freed(self):
        with xns.Endpoint.initiator(THERE, 1, HERE) as end:
            pass
        self.assertFalse(end.is_open)
        with self.assertRaises(xns.NoEndpointError):
            end.tick()
        end.free()


if __name__ == "__main__":
    unittest.main()
