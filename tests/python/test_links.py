"""What becomes of a link to a hub of emulators where the hub is slow, gone, or left amid a frame, and of one at an interface that is gone."""
import asyncio
import contextlib
import errno
import fcntl
import resource
import select
import shutil
import socket
import subprocess
import sys
import time
import types
import unittest
import unittest.mock

import xns
from relay import LOCAL

HOST, OTHER = bytes.fromhex("0000aa000102"), bytes.fromhex("0000aa000304")
PACKET = bytes(range(60))
COMES = b"\x00\x4a" + HOST + OTHER + b"\x06\x00" + PACKET  # as the link hears it, behind its length
FRAME = b"\x00\x4a" + OTHER + HOST + b"\x06\x00" + PACKET  # as the hub hears it, behind its length


class HubTest(unittest.TestCase):
    """The test is the hub."""

    def setUp(self):
        self.hub = socket.create_server((LOCAL, 0))
        self.hub.settimeout(5)
        self.addCleanup(self.hub.close)
        self.link = xns.nethub(*self.hub.getsockname(), HOST)
        self.link.AGAIN = 0.2
        self.addCleanup(self.link.close)
        self.stream = self.accepted()

    def accepted(self):
        stream, _ = self.hub.accept()
        stream.settimeout(5)
        self.addCleanup(stream.close)
        return stream

    def lost(self):
        """The hub closes the stream, the link sees it, and may open another one."""
        self.stream.close()
        while self.link.fileno() >= 0:
            with self.assertRaises(OSError):
                self.link.recvfrom(2048)
        time.sleep(self.link.AGAIN)

    def opened_again(self):
        """Sends, once the link has left the stream: by a new one."""
        time.sleep(self.link.AGAIN)
        self.link.sendto(PACKET, OTHER)
        self.stream = self.accepted()
        self.assertEqual(self.stream.recv(2048), FRAME)

    def test_a_stream_that_took_a_part_of_a_frame_is_left(self):
        """Also where Ctrl-C ended the sending: the hub would take the next frame for the rest of this one."""
        for error in (KeyboardInterrupt(), OSError(errno.EHOSTUNREACH, "no way to the hub"), ConnectionResetError()):
            stream, sent = self.link._stream, []

            def takes_a_part(data):
                if sent:
                    raise error
                sent.append(data[:20])
                return stream.send(data[:20])

            self.link._stream = types.SimpleNamespace(send=takes_a_part, fileno=stream.fileno, close=stream.close)
            with self.assertRaises(type(error)):
                self.link.sendto(PACKET, OTHER)
            self.assertEqual((self.stream.recv(2048), self.stream.recv(2048)), (FRAME[:20], b""))
            self.opened_again()

    def test_a_stream_of_which_a_part_is_gone_is_left(self):
        """Ctrl-C came between the reading of bytes and what is done with them."""
        stream, read = self.link._stream, []

        def reads_and_is_interrupted(size):
            read.append(stream.recv(size))
            raise KeyboardInterrupt

        self.stream.sendall(b"\x00\x4a" + HOST + OTHER)
        select.select([stream], [], [], 5)
        self.link._stream = types.SimpleNamespace(recv=reads_and_is_interrupted, fileno=stream.fileno, close=stream.close)
        with self.assertRaises(KeyboardInterrupt):
            self.link.recvfrom(2048)
        self.assertEqual(read, [b"\x00\x4a"])
        self.opened_again()

    def test_a_part_of_a_frame_goes_with_its_stream(self):
        """Also where the new stream has frames at once."""

        def opened_with_frames():
            stream = opens()
            self.stream = self.accepted()
            self.stream.sendall(10 * COMES)
            select.select([stream], [], [], 5)
            return stream

        opens, self.link._open = self.link._open, opened_with_frames
        self.stream.sendall(b"\x02\x4e" + COMES[2:50])
        select.select([self.link], [], [], 5)
        self.lost()
        for _ in range(10):
            self.assertEqual(self.link.recvfrom(2048), (PACKET, OTHER))

    def test_a_hub_that_reads_nothing_in_a_program_with_many_files(self):
        soft, hard = resource.getrlimit(resource.RLIMIT_NOFILE)
        if hard < 2000:
            self.skipTest("a program may not have so many files")
        resource.setrlimit(resource.RLIMIT_NOFILE, (max(soft, 2000), hard))
        self.addCleanup(resource.setrlimit, resource.RLIMIT_NOFILE, (soft, hard))
        with self.link._stream as stream:
            self.link._stream = socket.socket(fileno=fcntl.fcntl(stream.fileno(), fcntl.F_DUPFD, 1500))
        self.link._stream.setblocking(False)
        with self.assertRaisesRegex(ConnectionError, "takes nothing"):
            while True:
                self.link.sendto(bytes(576), OTHER)
        self.assertLess(self.link.fileno(), 0)

    def test_a_link_that_another_thread_closes_while_it_is_opened_again_stays_closed(self):
        def closed_meanwhile(*kind):
            self.link.close()
            return made(*kind)

        made = socket.socket
        self.lost()
        with unittest.mock.patch("socket.socket", closed_meanwhile), self.assertRaisesRegex(OSError, "the link is closed"):
            self.link.sendto(PACKET, OTHER)
        self.assertIsNone(self.link._stream)

    def silent(self):
        """The hub lets in one more, and then replies to nobody until that one is taken."""
        self.hub.listen(0)
        self.addCleanup(socket.create_connection(self.hub.getsockname()).close)

    def test_a_hub_that_does_not_reply_keeps_nobody(self):
        """It is asked a while behind each attempt, and is there once it replies."""
        self.link.REACHED, asked = 0.3, []
        self.lost()
        self.silent()
        opens, self.link._open = self.link._open, lambda: asked.append(time.monotonic()) or opens()
        while len(asked) < 3:
            begun = time.monotonic()
            for one in (lambda: self.link.sendto(PACKET, OTHER), lambda: self.link.recvfrom(2048)):
                with self.assertRaises(OSError):
                    one()
            self.assertLess(time.monotonic() - begun, 0.1)
            time.sleep(0.01)
        for before, behind in zip(asked, asked[1:]):
            self.assertGreater(behind - before, 0.45)
        self.accepted()
        until = time.monotonic() + 10
        while time.monotonic() < until:
            with contextlib.suppress(OSError):
                self.link.sendto(PACKET, OTHER)
                break
            time.sleep(0.05)
        self.assertEqual(self.accepted().recv(2048), FRAME)

    def test_a_loop_goes_on_while_a_hub_does_not_reply(self):
        async def longest_rest():
            server = asyncio.ensure_future(xns.serve_async(self.link, xns.Address(1, HOST, 5), [], lambda call: xns.returns()))
            longest, last, until = 0.0, time.monotonic(), time.monotonic() + 2.5
            while time.monotonic() < until:
                await asyncio.sleep(0.01)
                longest, last = max(longest, time.monotonic() - last), time.monotonic()
            server.cancel()
            await asyncio.wait([server])
            return longest

        self.lost()
        self.silent()
        self.assertLess(asyncio.run(longest_rest()), 1)


PLUGGED = """import contextlib, select, subprocess, time, xns
FIRST, SECOND = "02:00:aa:00:00:01", "02:00:aa:00:00:02"
def ip(*words):
    subprocess.run(["ip", "link", *words], check=True)
def plug():
    ip("add", "xa", "address", FIRST, "type", "veth", "peer", "name", "xb", "address", SECOND)
    for name in ("xa", "xb"):
        ip("set", name, "up")
    return xns.ethernet("xb")
def is_heard():
    until = time.monotonic() + 5
    while time.monotonic() < until:
        with contextlib.suppress(OSError):
            far.sendto(b"there" + bytes(50), near.station)
        for _ in range(9):
            with contextlib.suppress(OSError):
                return near.recvfrom(2048)[0][:5] == b"there"
        time.sleep(0.05)
far = plug()
near = xns.ethernet("xa")
for link in (near, far):
    link.setblocking(False)
heard = [is_heard()]
for asks in (near.recvfrom, lambda size: near.sendto(b"", near.station)):
    for steps in ((("set", "xa", "down"), ("del", "xa")), (("del", "xa"),)):
        far.close()
        for step in steps:
            ip(*step)
            with contextlib.suppress(OSError):
                asks(2048)
        with contextlib.suppress(OSError):
            near.recvfrom(2048)
        heard.append(select.select([near], [], [], 0)[0] == [])  # who waits rests
        far = plug()
        far.setblocking(False)
        heard.append(is_heard())
for link in (near, far):
    link.close()
print(*heard)
"""

RENAMED = """import contextlib, subprocess, time, xns
def ip(words):
    subprocess.run(["ip", "link", *words.split()], check=True)
def pair():
    for step in ("add one address 02:00:aa:00:00:01 type veth peer name far address 02:00:aa:00:00:02", "set one up", "set far up"):
        ip(step)
def opened(name):
    link = xns.ethernet(name)
    link.setblocking(False)
    return link
def hears(there, here):
    until = time.monotonic() + 5
    while time.monotonic() < until:
        with contextlib.suppress(OSError):
            there.sendto(b"there" + bytes(50), here.station)
        with contextlib.suppress(OSError):
            return here.recvfrom(2048)[0][:5] == b"there"
        time.sleep(0.05)
pair()
near, far = opened("one"), opened("far")
for step in ("set one down", "set one name other", "set other up"):
    ip(step)
for step in ("add one type veth peer name two", "set one up"):  # another one has the name by now
    ip(step)
heard = [hears(near, far), hears(far, near)]
for step in ("del other", "del one"):
    ip(step)
    with contextlib.suppress(OSError):
        near.recvfrom(2048)
far.close()
pair()
far = opened("far")
heard += [hears(near, far), hears(far, near)]
for link in (near, far):
    link.close()
print(*heard)
"""

SILENT = """import contextlib, socket, struct, subprocess, sys, time, xns
def lo(way):
    subprocess.run(["ip", "link", "set", "lo", way], check=True)
lo("up")
xns.NetHub.ASKED = 1
with socket.create_server(("127.0.0.1", 0)) as hub, xns.nethub(*hub.getsockname()) as link:
    hub.settimeout(10)
    for way in ("forgets", "is gone"):
        stream, _ = hub.accept()
        lo("down")
        if way == "forgets":  # and what it says of that is lost
            stream.setsockopt(socket.SOL_SOCKET, socket.SO_LINGER, struct.pack("ii", 1, 0))
            stream.close()
            lo("up")
        until = time.monotonic() + 10
        while link.fileno() >= 0 and time.monotonic() < until:
            with contextlib.suppress(OSError):
                link.recvfrom(2048)
            time.sleep(0.05)
        print("it", way, "and is left" if link.fileno() < 0 else "and is believed in")
        lo("up")
        while link.fileno() < 0:
            with contextlib.suppress(OSError):
                link.recvfrom(2048)
            time.sleep(0.05)
    stream.close()
"""


EARLY = """import socket, subprocess, xns
def ip(words):
    subprocess.run(["ip", "link", *words.split()], check=True)
for step in ("add one type veth peer name far", "add two type veth peer name away", "set one up", "set two up", "set away up"):
    ip(step)
class Late(socket.socket):
    def bind(self, place):
        away.sendto(b"there", bytes(6 * [255]))
        super().bind(place)
with xns.ethernet("away") as away:
    socket.socket = Late
    with xns.ethernet("one") as link:
        link.setblocking(False)
        try:
            print(link.recvfrom(2048))
        except BlockingIOError:
            print("nothing")
"""

WATCHED = """import contextlib, select, subprocess, sys, time, xns
def ip(words):
    subprocess.run(["ip", "link", *words.split()], check=True)
def plug():
    for step in ("add one type veth peer name far", "set one up", "set far up"):
        ip(step)
def shown(name):
    until = time.monotonic() + 25
    with xns.ethernet("far") as far:
        while time.monotonic() < until:
            with contextlib.suppress(OSError):
                far.sendto(name, b"there!")
            if select.select([watching.stdout], [], [], 0.05)[0]:
                if bytes.fromhex(watching.stdout.readline().decode()).startswith(name):
                    return True
plug()
watching = subprocess.Popen([sys.executable, "-m", "xns.net", "watch", "-i", "one", "--hex"], stdout=subprocess.PIPE, bufsize=0)
heard = [shown(b"first")]
ip("del one")
plug()
heard += [shown(b"second")]
watching.kill()
watching.communicate()
print(*heard)
"""


class ApartTest(unittest.TestCase):
    """What takes the right to a network of its own."""

    def told(self, script):
        """What a script prints there."""
        apart = ["unshare", "-n"]
        if not shutil.which("unshare") or not shutil.which("ip") or subprocess.run([*apart, "true"], stderr=subprocess.DEVNULL).returncode:
            self.skipTest("there is no right to a network of its own")
        return subprocess.run([*apart, sys.executable, "-W", "error", "-c", script], stdout=subprocess.PIPE, text=True, timeout=60).stdout

    def test_a_hub_that_is_gone_without_a_word(self):
        self.assertEqual(self.told(SILENT), "it forgets and is left\nit is gone and is left\n")

    def test_an_interface_that_is_taken_away_and_put_back(self):
        self.assertEqual(self.told(PLUGGED), " ".join(9 * ["True"]) + "\n")

    def test_a_frame_of_another_interface_before_the_link_is_bound(self):
        self.assertEqual(self.told(EARLY), "nothing\n")

    def test_a_watch_at_an_interface_that_is_taken_away_and_put_back(self):
        self.assertEqual(self.told(WATCHED), "True True\n")

    def test_an_interface_that_is_renamed_is_the_same_one(self):
        """Once it is taken away, one of the name that was given is taken for it."""
        self.assertEqual(self.told(RENAMED), "True True True True\n")


if __name__ == "__main__":
    unittest.main()
