"""What users expect of `AsyncClient` and `serve_async` over UDP on this machine, in one process: calls at once, late replies, and sockets that are closed."""
import asyncio
import time
import unittest

import xns
from relay import Counting, bound
from servers import CLIENT, QUICK, SERVER, OverUdp, answers, serving


class AsyncClientsTest(OverUdp):
    def test_asyncio(self):
        total = 0

        async def slow(call):
            nonlocal total
            await asyncio.sleep(0.5)
            if call.procedure == 3:
                xns.Reader(call.words).cardinal()
            total += call.words[0]
            return xns.returns([total])

        async def calls(number, procedure=1):
            with bound() as udp:
                own = CLIENT._replace(socket=2000 + number)
                async with xns.AsyncClient(udp, self.there.getsockname(), own, SERVER, timeout=5, **QUICK) as client:
                    if number == 4:
                        with self.assertRaises(TimeoutError):
                            await client.call(7, 1, procedure, [0], timeout=0.05)
                        return 0
                    if number == 5:
                        return (await client.call(7, 1, 3)).code
                    first = asyncio.ensure_future(client.call(7, 1, procedure, [0]))
                    await asyncio.sleep(0.05)
                    first.cancel()
                    return (await client.call(7, 1, procedure, [number])).words[0]

        async def main():
            stop = asyncio.Event()
            server = asyncio.ensure_future(xns.serve_async(self.there, SERVER, [(7, 1, 1)], slow, stop=stop, **QUICK))
            begun = time.monotonic()
            told = await asyncio.gather(*map(calls, range(1, 6)))
            self.assertLess(time.monotonic() - begun, 3.5)  # one does not wait for the other: eight calls take four seconds
            self.assertEqual((told[3:], max(told[:3])), ([0, xns.Reject.INVALID_ARGUMENTS], 6))
            stop.set()
            await asyncio.wait_for(server, 5)

        asyncio.run(main())

    def test_asyncio_gives_a_late_reply_to_no_other_client(self):
        udp = bound()
        self.addCleanup(udp.close)
        carrier = Counting(udp)

        async def is_lost():
            async with xns.AsyncClient(carrier, self.there.getsockname(), CLIENT._replace(socket=1025), SERVER, idle=100, **QUICK) as client:
                call = asyncio.ensure_future(client.call(7, 1, 1, [1]))
                await asyncio.sleep(0.3)
                carrier.is_down = True
                await call

        async def play():
            stops, lets = asyncio.Event(), {word: asyncio.Event() for word in (1, 2)}

            async def answer(call):
                await lets[call.words[0]].wait()
                return xns.returns(call.words)

            quick = {**QUICK, "tries": 1, "patience": 100, "idle": 100}
            server = asyncio.ensure_future(xns.serve_async(self.there, SERVER, [(7, 1, 1)], answer, stop=stops, connections=1, **quick))
            with self.assertRaises(xns.SilentError):
                await is_lost()
            async with xns.AsyncClient(self.here, self.there.getsockname(), CLIENT, SERVER, **QUICK) as client:
                call = asyncio.ensure_future(client.call(7, 1, 1, [2], timeout=5))
                for word in (1, 2):
                    await asyncio.sleep(0.2)
                    lets[word].set()
                self.assertEqual((await call).words, [2])
            stops.set()
            await server

        asyncio.run(play())

    def test_asyncio_tells_each_that_waits_that_the_connection_is_closed(self):
        async def play():
            client = xns.AsyncClient(self.here, self.there.getsockname(), CLIENT, SERVER, tries=100)  # of a server that is not there
            async with client:
                call = asyncio.ensure_future(client.call(7, 1, 1, timeout=0.3))
                await asyncio.sleep(0.1)
                closing = asyncio.ensure_future(client.close())
                with self.assertRaises(xns.SilentError):
                    await call
                await asyncio.wait_for(closing, 2)

        asyncio.run(play())

    def test_asyncio_tells_that_a_socket_was_closed(self):
        async def play():
            quick, udp = {**QUICK, "tries": 100, "idle": 100}, bound()
            server = asyncio.ensure_future(xns.serve_async(self.there, SERVER, [(7, 1, 1)], answers, **quick))
            async with xns.AsyncClient(udp, self.there.getsockname(), CLIENT, SERVER, **quick) as client:
                await client.call(7, 1, 1)
                call = asyncio.ensure_future(client.call(7, 1, 1))
                await asyncio.sleep(0)
                for one in (udp, self.there):
                    one.close()
                for one in (call, server, client.call(7, 1, 1), client.close()):
                    with self.assertRaisesRegex(OSError, "closed"):
                        await asyncio.wait_for(one, 5)
                raise KeyError

        with self.assertRaises(KeyError):
            asyncio.run(play())

    def test_asyncio_tells_within_a_second_that_a_socket_was_closed_where_nothing_is_due(self):
        async def play():
            server = asyncio.ensure_future(xns.serve_async(self.there, SERVER, [(7, 1, 1)], answers))
            await asyncio.sleep(0.1)
            self.there.close()
            self.assertTrue((await asyncio.wait([server], timeout=5))[0])
            with self.assertRaisesRegex(OSError, "closed"):
                await server

        asyncio.run(play())

    def test_asyncio_leaves_a_socket_as_it_was_where_there_is_no_connection(self):
        async def play(client):
            with self.assertRaises(xns.NoSocketError):
                async with client:
                    self.fail("socket 0 has a server")

        self.here.settimeout(3.5)
        client = xns.AsyncClient(self.here, self.there.getsockname(), CLIENT, SERVER._replace(socket=0))
        asyncio.run(play(client))
        self.assertEqual(self.here.gettimeout(), 3.5)

    def test_asyncio_and_the_other_loop(self):
        async def main():
            with bound() as udp:
                async with xns.AsyncClient(udp, self.there.getsockname(), CLIENT, SERVER, idle=50, **QUICK) as client:
                    await client.call(7, 1, 1, [1])
                    await asyncio.sleep(1)  # it says that it is there
                    return (await client.call(7, 1, 1, [9])).words

        with serving(self.there, idle=100):
            self.assertEqual(asyncio.run(main()), [9])


if __name__ == "__main__":
    unittest.main()
