"""What a loop of asyncio has to expect of `serve_async` and `AsyncClient` where carriers, tasks and services end in other ways than they should."""
import asyncio
import errno
import unittest

import xns
from relay import LOCAL, Counting, Hub
from servers import CLIENT, SERVER, OverUdp, answers


class Breaking:
    """A carrier over a socket that fails once a packet has come, in no way that a carrier should."""

    def __init__(self, udp):
        self._udp, self.fileno, self.setblocking, self.sendto = udp, udp.fileno, udp.setblocking, udp.sendto

    def recvfrom(self, size):
        self._udp.recvfrom(size)
        raise ValueError("it is broken")


class Hearing(asyncio.DatagramProtocol):
    """Another transport of the loop."""

    def __init__(self):
        self.packets = asyncio.Queue()

    def datagram_received(self, data, place):
        self.packets.put_nowait(data)


class AsyncioTest(OverUdp):
    def test_a_carrier_that_fails_ends_who_waits(self):
        async def play():
            server = asyncio.ensure_future(xns.serve_async(Breaking(self.there), SERVER, [], answers))
            with self.assertRaisesRegex(ValueError, "broken"):
                async with xns.AsyncClient(Breaking(self.here), self.there.getsockname(), CLIENT, SERVER) as client:
                    call = asyncio.ensure_future(client.call(7, 1, 1))
                    await asyncio.sleep(0)
                    self.there.sendto(b"", self.here.getsockname())
                    self.here.sendto(b"", self.there.getsockname())
                    await asyncio.wait_for(call, 5)
            with self.assertRaisesRegex(ValueError, "broken"):
                await asyncio.wait_for(server, 5)

        asyncio.run(play())

    def test_a_socket_whose_file_is_another_one_by_now(self):
        """It was closed, and a transport of the loop has its number: the server ends, and the transport hears."""

        async def play():
            server = asyncio.ensure_future(xns.serve_async(self.there, SERVER, [], answers))
            await asyncio.sleep(0.1)
            file = self.there.fileno()
            self.there.close()
            transport, heard = await asyncio.get_running_loop().create_datagram_endpoint(Hearing, local_addr=(LOCAL, 0))
            try:
                self.assertEqual(transport.get_extra_info("socket").fileno(), file)
                with self.assertRaisesRegex(OSError, "the socket is closed"):
                    await asyncio.wait_for(server, 5)
                self.here.sendto(b"there", transport.get_extra_info("sockname"))
                self.assertEqual(await asyncio.wait_for(heard.packets.get(), 5), b"there")
            finally:
                transport.close()

        asyncio.run(play())

    def test_a_client_whose_closing_is_cancelled_tells_who_waits(self):
        async def leaves(client, begins):
            async with client:
                begins.set()

        async def play():
            client, begins = xns.AsyncClient(self.here, self.there.getsockname(), CLIENT, SERVER, tries=100), asyncio.Event()  # of a server that is not there
            leaving = asyncio.ensure_future(leaves(client, begins))
            await begins.wait()
            call = asyncio.ensure_future(client.call(7, 1, 1))
            await asyncio.sleep(0.1)
            leaving.cancel()
            for wanted, one in ((asyncio.CancelledError, leaving), (xns.ClosedError, call), (xns.ClosedError, client.call(7, 1, 1))):
                with self.assertRaises(wanted):
                    await asyncio.wait_for(one, 5)

        asyncio.run(play())

    def test_a_client_that_is_not_open_yet_says_so(self):
        async def play():
            client = xns.AsyncClient(self.here, self.there.getsockname(), CLIENT, SERVER, timeout=1)
            for one in (client.call(7, 1, 1), client.close()):
                with self.assertRaisesRegex(xns.ClosedError, "not open"):
                    await one

        asyncio.run(play())

    def test_a_client_that_has_given_a_call_up_rests(self):
        """The answer comes later, and nobody waits for it."""
        carrier = Counting(self.here)

        async def late(call):
            await asyncio.sleep(0.2)
            return xns.returns()

        async def play():
            server = asyncio.ensure_future(xns.serve_async(self.there, SERVER, [], late))
            async with xns.AsyncClient(carrier, self.there.getsockname(), CLIENT, SERVER) as client:
                with self.assertRaises(xns.SilentError):
                    await client.call(7, 1, 1, timeout=0.1)
                await asyncio.sleep(1)
            server.cancel()
            await asyncio.wait([server])

        asyncio.run(play())
        self.assertLess(carrier.asked, 100)

    def test_a_call_whose_answering_waits_for_what_was_cancelled_is_rejected(self):
        async def answer(call):
            gone = asyncio.get_running_loop().create_future()
            gone.cancel()
            return await gone

        async def play():
            server = asyncio.ensure_future(xns.serve_async(self.there, SERVER, [], answer))
            async with xns.AsyncClient(self.here, self.there.getsockname(), CLIENT, SERVER) as client:
                with self.assertLogs("xns", "ERROR"):
                    told = await client.call(7, 1, 1, timeout=5)
                self.assertEqual((told.kind, told.code), (xns.Kind.REJECT, xns.UNSPECIFIED))
            server.cancel()
            await asyncio.wait([server])

        asyncio.run(play())

    def test_a_server_that_is_cancelled_while_it_closes_says_so(self):
        """It was stopped, and its client is silent: a time limit of the caller comes before that of the closing."""

        async def play():
            stop = asyncio.Event()
            server = asyncio.ensure_future(xns.serve_async(self.there, SERVER, [], answers, stop=stop))
            with self.assertRaisesRegex(OSError, "closed"):
                async with xns.AsyncClient(self.here, self.there.getsockname(), CLIENT, SERVER) as client:
                    await client.call(7, 1, 1, timeout=5)
                    self.here.close()
                    stop.set()
                    await asyncio.sleep(0.2)
                    self.assertFalse(server.done())
                    server.cancel()
                    with self.assertRaises(asyncio.CancelledError):
                        await asyncio.wait_for(server, 1)

        asyncio.run(play())

    def test_a_call_that_goes_on_when_the_server_ends_is_rejected(self):
        async def goes_on(call):
            await asyncio.sleep(60)

        async def play():
            stop = asyncio.Event()
            server = asyncio.ensure_future(xns.serve_async(self.there, SERVER, [], goes_on, stop=stop))
            async with xns.AsyncClient(self.here, self.there.getsockname(), CLIENT, SERVER) as client:
                call = asyncio.ensure_future(client.call(7, 1, 1, timeout=10))
                await asyncio.sleep(0.2)
                stop.set()
                await asyncio.wait_for(server, 5)
                told = await asyncio.wait_for(call, 5)
                self.assertEqual((told.kind, told.code), (xns.Kind.REJECT, xns.UNSPECIFIED))

        asyncio.run(play())

    def test_a_call_that_is_out_of_time_before_its_turn_ends_no_other(self):
        async def slow(call):
            await asyncio.sleep(0.5)
            return xns.returns(call.words)

        async def play():
            server = asyncio.ensure_future(xns.serve_async(self.there, SERVER, [], slow))
            async with xns.AsyncClient(self.here, self.there.getsockname(), CLIENT, SERVER) as client:
                first = asyncio.ensure_future(client.call(7, 1, 1, [1], timeout=5))
                await asyncio.sleep(0.1)
                with self.assertRaises(xns.SilentError):
                    await client.call(7, 1, 1, [2], timeout=0.1)
                third = client.call(7, 1, 1, [3], timeout=5)
                self.assertEqual([one.words for one in (await first, await third)], [[1], [3]])
                with self.assertRaises(xns.SilentError):  # this one goes out, and closes
                    await client.call(7, 1, 1, [4], timeout=0.1)
                with self.assertRaises(xns.ClosedError):
                    await client.call(7, 1, 1, [5], timeout=5)
            server.cancel()
            await asyncio.wait([server])

        asyncio.run(play())

    def test_an_error_of_a_carrier_that_is_one_of_time_is_told_as_it_is(self):
        async def play():
            carrier = Counting(self.here)
            with self.assertRaisesRegex(TimeoutError, "the line is silent"):
                async with xns.AsyncClient(carrier, self.there.getsockname(), CLIENT, SERVER) as client:
                    carrier.fileno = fails
                    await asyncio.wait_for(client.call(7, 1, 1), 5)

        def fails():
            raise OSError(errno.ETIMEDOUT, "the line is silent")

        asyncio.run(play())

    def test_a_hub_that_is_gone_for_a_while(self):
        async def play(hub):
            theirs, ours = (xns.nethub(LOCAL, hub.port, one.host) for one in (SERVER, CLIENT))
            with theirs, ours:
                stop = asyncio.Event()
                server = asyncio.ensure_future(xns.serve_async(theirs, SERVER, [], answers, stop=stop))
                async with xns.AsyncClient(ours, SERVER.host, CLIENT, SERVER, timeout=20) as client:
                    for word in range(3):
                        self.assertEqual((await client.call(7, 1, 1, [word])).words, [word])
                        hub.drop()
                stop.set()
                await asyncio.wait_for(server, 5)

        hub = Hub()
        hub.start()
        try:
            asyncio.run(play(hub))
        finally:
            hub.stop()


if __name__ == "__main__":
    unittest.main()
