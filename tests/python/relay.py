"""Networks for the tests: a relay between UDP clients and a server that spoils some of their datagrams, a hub, a carrier that counts, and an end of a connection
over UDP that says what no client says."""
import contextlib
import heapq
import random
import select
import selectors
import socket
import struct
import threading
import time

import xns

LOCAL = "127.0.0.1"


def bound():
    one = socket.socket(socket.AF_INET, socket.SOCK_DGRAM)
    one.bind((LOCAL, 0))
    return one


def await_echo(place, client, server, goes_on):
    """Waits until the server at this place answers Echo: a busy machine may start it late. It stops where `goes_on` returns false."""
    request = xns.echo_request(client._replace(socket=1024), server._replace(socket=2), b"Hi")
    with bound() as udp:
        udp.settimeout(0.1)
        while goes_on():
            udp.sendto(request, place)
            with contextlib.suppress(socket.timeout):
                udp.recv(2048)
                return


def from_port_0(data, port):
    """Sends a datagram whose source port is 0; nothing where that takes rights that one has not."""
    try:
        with socket.socket(socket.AF_INET, socket.SOCK_RAW, socket.IPPROTO_UDP) as raw:
            raw.sendto(struct.pack("!HHHH", 0, port, 8 + len(data), 0) + data, (LOCAL, 0))
    except PermissionError:
        pass


def send_all_kinds(place, own, server):
    """Sends a server datagrams of no bytes, of bytes that are no packet, and some that ask for an answer where none can be sent."""
    echo = xns.echo_request(own, server._replace(socket=2), b"Hi")
    opening = xns.Endpoint.initiator(own._replace(socket=7), 7, server).resend_first()
    with bound() as udp:
        for data in (b"", b"\0", echo[:20], bytes(576), bytes(range(256)) * 5, opening[:-1]):
            udp.sendto(data, place)
    for data in (b"", b"\0", echo, opening):
        from_port_0(data, place[1])


class Counting:
    """A carrier of four methods, over a socket, that counts how often it is asked for a packet, and what it sends. While it is down nothing comes through, and
    each call is an error."""

    def __init__(self, udp):
        self._udp, self.asked, self.sent, self.is_down = udp, 0, 0, False
        self.fileno, self.setblocking = udp.fileno, udp.setblocking

    def recvfrom(self, size):
        self.asked += 1
        packet = self._udp.recvfrom(size)
        if self.is_down:
            raise OSError(100, "the network is down")
        return packet

    def sendto(self, packet, place):
        self.sent += 1
        if self.is_down:
            raise OSError(100, "the network is down")
        self._udp.sendto(packet, place)


class Relay(threading.Thread):
    """Brings each client's datagrams to the server and back. Of so many, as 10 or 2.5, one is dropped, repeated, delayed or corrupted; none where that is 0.
    After `dies_after` datagrams none goes on, and each client is sent stray bytes every 0.3 seconds."""

    STRAY = 0.3
    MOST_DELAY = 0.05

    def __init__(self, server, one_of, dies_after=None):
        super().__init__(daemon=True)
        self.server, self.one_of, self.dies_after, self.clients, self.chance = server, one_of, dies_after, bound(), random.Random(1)
        self.behind, self.late, self.stops, self.next_stray = {}, [], False, 0.0
        self.seen, self.empty, self.spoiled = 0, 0, dict.fromkeys(("dropped", "repeated", "delayed", "corrupted"), 0)

    @property
    def port(self):
        return self.clients.getsockname()[1]

    def run(self):
        with selectors.DefaultSelector() as waiting:
            waiting.register(self.clients, selectors.EVENT_READ, None)
            while not self.stops:
                for key, _ in waiting.select(0.1 if not self.late else max(0, self.late[0][0] - time.monotonic())):
                    packet, place = key.fileobj.recvfrom(2048)
                    if key.data is None and place not in self.behind:
                        self.behind[place] = bound()
                        waiting.register(self.behind[place], selectors.EVENT_READ, place)
                    way = (self.behind[place], self.server) if key.data is None else (self.clients, key.data)
                    self.pass_on(packet, way)
                self.send_late()
        for one in [self.clients, *self.behind.values()]:
            one.close()

    def pass_on(self, packet, way):
        self.seen += 1
        self.empty += not packet
        if self.dies_after is not None and self.seen > self.dies_after:
            return
        if not self.one_of or self.chance.random() * self.one_of >= 1:
            self.send(packet, way)
            return
        fault = self.chance.choice(list(self.spoiled))
        self.spoiled[fault] += 1
        if fault == "repeated":
            self.send(packet, way)
            self.send(packet, way)
        elif fault == "delayed":
            heapq.heappush(self.late, (time.monotonic() + self.chance.uniform(0, self.MOST_DELAY), self.seen, packet, way))
        elif fault == "corrupted":
            at = self.chance.randrange(len(packet))
            self.send(packet[:at] + bytes([packet[at] ^ self.chance.randrange(1, 256)]) + packet[at + 1 :], way)

    def send_late(self):
        now = time.monotonic()
        while self.late and self.late[0][0] <= now:
            _, _, packet, way = heapq.heappop(self.late)
            self.send(packet, way)
        if self.dies_after is not None and self.seen > self.dies_after and self.next_stray <= now:
            self.next_stray = now + self.STRAY
            for client in self.behind:
                self.send(bytes(self.chance.choices(range(256), k=self.chance.randrange(80))), (self.clients, client))

    @staticmethod
    def send(packet, way):
        udp, place = way
        udp.sendto(packet, place)


class Peer:
    """An endpoint over UDP, whose items the test says itself."""

    VERSIONS = bytes.fromhex("00030003")

    def __init__(self, udp, place, endpoint):
        udp.settimeout(0.1)
        self.udp, self.place, self.endpoint = udp, place, endpoint

    @classmethod
    def opening(cls, udp, place, own, peer):
        """The side that opens: it waits until it is open, and says its versions."""
        one = cls(udp, place, xns.Endpoint.initiator(own, xns.new_identifier(), peer))
        one.until(lambda: one.endpoint.is_open)
        one.endpoint.send(cls.VERSIONS)
        return one

    @classmethod
    def answering(cls, udp, own):
        """The side that is opened, by the packet that comes first."""
        udp.settimeout(5)
        packet, place = udp.recvfrom(2048)
        one = cls(udp, place, xns.Endpoint.responder(own, xns.new_identifier(), *xns.opening(packet)))
        one.take_in(packet)
        one.endpoint.send(cls.VERSIONS)
        return one

    def send(self, packets):
        for packet in packets:
            self.udp.sendto(packet, self.place)

    def take_in(self, packet):
        reply = self.endpoint.receive(packet).reply
        self.send([reply] if reply else [])

    def until(self, is_done, seconds=5):
        """Sends and takes in packets until it is so."""
        deadline = time.monotonic() + seconds
        while not is_done():
            if time.monotonic() > deadline:
                raise TimeoutError
            self.send(self.endpoint.tick())
            try:
                self.take_in(self.udp.recv(2048))
            except socket.timeout:
                pass

    def item(self):
        """The next item that comes."""
        self.until(lambda: self.endpoint.waiting)
        return self.endpoint.take()


class Hub(threading.Thread):
    """A hub of emulators: gives each frame that comes by one stream to all others."""

    def __init__(self):
        super().__init__(daemon=True)
        self.listens, self.streams, self.ends = socket.create_server((LOCAL, 0)), {}, False
        self.port, self.frames, self.shortest = self.listens.getsockname()[1], 0, 2**16

    def run(self):
        while not self.ends:
            for one in select.select([self.listens, *self.streams], [], [], 0.05)[0]:
                if one is self.listens:
                    self.streams[one.accept()[0]] = b""
                elif one in self.streams:
                    self.take_in(one)
        for one in [self.listens, *self.streams]:
            one.close()

    def take_in(self, stream):
        try:
            more = stream.recv(65536)
        except OSError:
            more = b""
        if not more:
            del self.streams[stream]
            stream.close()
            return
        left = self.streams[stream] + more
        while len(left) >= 2 and len(left) >= 2 + int.from_bytes(left[:2], "big"):
            size = 2 + int.from_bytes(left[:2], "big")
            self.frames, self.shortest = self.frames + 1, min(self.shortest, size - 2)
            for other in self.streams:
                if other is not stream:
                    # A stream that has ended hears no more, and goes once it is read.
                    with contextlib.suppress(OSError):
                        other.sendall(left[:size])
            left = left[size:]
        self.streams[stream] = left

    def wait(self, are_there):
        """Waits until there are streams, or none are left, for a minute at most."""
        deadline = time.monotonic() + 60
        while bool(self.streams) != are_there:
            if time.monotonic() > deadline:
                raise AssertionError("no stream comes" if are_there else "a stream does not end")
            time.sleep(0.01)

    def first(self):
        """The stream that was there first, once there is one."""
        self.wait(True)
        return next(iter(self.streams))

    def drop(self):
        """All streams end; their stations may come back."""
        for one in list(self.streams):
            one.shutdown(socket.SHUT_RDWR)

    def stop(self):
        self.ends = True
        self.join()
