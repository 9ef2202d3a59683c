"""Clients whose server is killed and started again at random, over a network that spoils packets.

    python3 tests/python/restarts.py [--clients 20] [--calls 20] [--life 1.0] [--spoiled 0.4] [--seed 1]

Each client makes calls one after another, each with a number that no other call has, and after an error it opens a new connection and goes on. The server
writes each number that it carries out to a book, and returns it. No number may stand in the book twice, each that was answered stands there, each answer is
right, and each client comes to its end. Clients and servers are of Python, and of C too where TALLY_C names the folder of `client` and `booking`: of each life
chance says of which the server is. Of the packets `--spoiled` is the part that is spoiled: lost, repeated, late or corrupted, a fourth of them each.
"""
import argparse
import asyncio
import collections
import os
import pathlib
import random
import socket
import subprocess
import sys
import tempfile
import threading
import time

import xns
from relay import Relay, await_echo, bound

SERVER, CLIENT = xns.Address(1, bytes.fromhex("0000aa000102"), 5), xns.Address(1, bytes.fromhex("0000aa000304"), 0)
FOLDER = os.environ.get("TALLY_C")
PATIENCE = {"first_wait": 100, "longest_wait": 1000, "tries": 6, "patience": 4500}  # those of the client in C
REASONS = {  # why the client in C ended
    "": "well",
    "the peer does not answer": "silent",
    "the peer closed the connection": "closed",
    "an Error packet says that a packet of the connection was not taken": "not served",
}
NUMBERS, LONGEST = 65536, 600  # numbers of calls have 16 bits; seconds that a run may take


def serve(port, book):
    """The server of Python."""

    def answer(call):
        (number,) = call.words
        os.write(file, b"%d\n" % number)
        return xns.returns([number, number ^ 65535])

    file = os.open(book, os.O_WRONLY | os.O_APPEND | os.O_CREAT, 0o600)
    with socket.socket(socket.AF_INET, socket.SOCK_DGRAM) as udp:
        udp.bind(("127.0.0.1", int(port)))
        xns.serve(udp, SERVER, [(7, 1, 1)], answer, connections=1024)


class Lives(threading.Thread):
    """A server that is killed and started again, after lives and pauses of chance, until it is told to stop. A life begins when it answers."""

    def __init__(self, place, book, life, chance):
        super().__init__(daemon=True)
        self.place, self.book, self.life, self.chance, self.stops, self.kills, self.broken = place, book, life, chance, threading.Event(), 0, None
        self.languages = [[sys.executable, __file__, "serve"], *([[f"{FOLDER}/booking"]] if FOLDER else [])]

    def run(self):
        while True:
            process = subprocess.Popen([*self.chance.choice(self.languages), str(self.place[1]), self.book])
            await_echo(self.place, CLIENT, SERVER, lambda: process.poll() is None and not self.stops.is_set())
            is_last = self.stops.wait(self.chance.uniform(0.5, 1.5) * self.life)
            if process.poll() is not None:
                self.broken = f"the server ended with {process.returncode}"
            process.kill()
            process.wait()
            self.kills += 1
            if is_last:
                return
            self.stops.wait(self.chance.uniform(0, 0.5) * self.life)


class Clients:
    """What came of all clients."""

    def __init__(self, port, calls, share):
        self.port, self.calls, self.share = port, calls, share
        self.answered, self.unanswered, self.ends, self.longest = set(), set(), collections.Counter(), 0.0

    def hear(self, number, answer, before):
        """An answer to the call with this number came. When."""
        assert answer == [number, number ^ 65535], ("a wrong answer", number, answer)
        self.answered.add(number)
        self.longest = max(self.longest, time.monotonic() - before)
        return time.monotonic()

    async def of_python(self, first):
        numbers, left, before = iter(range(first, first + self.share)), self.calls, time.monotonic()
        while left:
            number = None
            with bound() as udp:
                own = CLIENT._replace(socket=udp.getsockname()[1])
                try:
                    async with xns.AsyncClient(udp, ("127.0.0.1", self.port), own, SERVER, **PATIENCE) as client:
                        while left:
                            number = next(numbers)
                            before = self.hear(number, (await client.call(7, 1, 1, [number])).words, before)
                            number, left = None, left - 1
                    self.ends["well"] += 1
                except xns.NotServedError:
                    self.ends["not served"] += 1
                except xns.SilentError:
                    self.ends["silent"] += 1
                except xns.ClosedError:
                    self.ends["closed"] += 1
            if number is not None:
                self.unanswered.add(number)

    async def of_c(self, first):
        numbers, left, before = list(range(first, first + self.share)), self.calls, time.monotonic()
        while left:
            words = [f"{FOLDER}/client", str(self.port), *map(str, numbers[:left])]
            process = await asyncio.create_subprocess_exec(*words, stdout=subprocess.PIPE, stderr=subprocess.PIPE)
            out, err = (told.decode() for told in await process.communicate())
            for line in out.splitlines():
                kind, *answer = line.split()
                assert kind == "return", line
                before = self.hear(numbers.pop(0), list(map(int, answer)), before)
                left -= 1
            assert (process.returncode == 0) == (err == ""), (process.returncode, err)
            self.ends[REASONS[err.strip()]] += 1
            if left:
                self.unanswered.add(numbers.pop(0))

    async def run(self, count):
        kinds = [self.of_python, self.of_c] if FOLDER else [self.of_python]
        await asyncio.wait_for(asyncio.gather(*(kinds[k % len(kinds)](k * self.share) for k in range(count))), LONGEST)


def play(given, folder):
    book, chance = str(pathlib.Path(folder) / "book"), random.Random(given.seed)
    with bound() as free:
        place = free.getsockname()
    relay = Relay(place, 1 / given.spoiled if given.spoiled else 0)
    lives = Lives(place, book, given.life, chance)
    clients, begun = Clients(relay.port, given.calls, NUMBERS // given.clients), time.monotonic()
    relay.start()
    lives.start()
    try:
        asyncio.run(clients.run(given.clients))
    finally:
        lives.stops.set()
        lives.join()
        relay.stops = True
        relay.join()
    took, booked = time.monotonic() - begun, collections.Counter(map(int, pathlib.Path(book).read_text().split()))
    assert lives.broken is None, lives.broken
    assert max(booked.values()) == 1, ("calls that were carried out twice", [number for number, count in booked.items() if count > 1])
    assert clients.answered <= booked.keys() <= clients.answered | clients.unanswered, "the book is not of these calls"
    assert len(clients.answered) == given.clients * given.calls, "a client did not come to its end"
    print(
        f"{given.clients} clients of {given.calls} calls, {lives.kills - 1} restarts in {took:.1f} s: {len(clients.answered)} answered; "
        f"{len(clients.unanswered)} not, of which {len(booked) - len(clients.answered)} were carried out; connections ended {dict(clients.ends)}; "
        f"{clients.longest:.1f} s between two answers at most; {relay.seen} packets, {sum(relay.spoiled.values())} of them spoiled"
    )


def main():
    if sys.argv[1:2] == ["serve"]:
        serve(*sys.argv[2:])
    words = argparse.ArgumentParser(description=__doc__, formatter_class=argparse.RawDescriptionHelpFormatter)
    for name, kind, usual in ("clients", int, 20), ("calls", int, 20), ("life", float, 1.0), ("spoiled", float, 0.4), ("seed", int, 1):
        words.add_argument(f"--{name}", type=kind, default=usual)
    with tempfile.TemporaryDirectory() as folder:
        play(words.parse_args(), folder)


if __name__ == "__main__":
    main()
