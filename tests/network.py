#!/usr/bin/env python3
"""What tests/network.sh runs in its network namespaces.

    network.py hub LOSS DELAY_MS REPEAT CORRUPT INTERFACE ..   a hub that spoils frames
    network.py capture INTERFACE FILE                          all frames of an interface, as a capture
    network.py add INTERFACE STATION NUMBER ..                 a patient client of the tally; prints each total
    network.py noise INTERFACE                                 frames that are nobody's, without end
    network.py agree FILE                                      what tshark and `xns dump` say of each packet of a capture, field by field

The hub gives each frame that comes by one interface to all others. LOSS, REPEAT and CORRUPT are chances from 0 to 1, each drawn for each copy, and a frame
waits up to DELAY_MS, so that frames overtake each other. The hub, the capture and the noise end at SIGTERM."""
import collections
import heapq
import random
import re
import select
import signal
import socket
import struct
import subprocess
import sys
import time

SO_RCVBUFFORCE, ALL, SOL_PACKET, ADD_MEMBERSHIP, PROMISCUOUS, OUTGOING = 33, 3, 263, 1, 1, 4
HEAD, AT_ONCE, ROOM = 14, 64, 1 << 22
LEFT = 1.0  # seconds in which a capture still reads what came before the signal, where frames never cease
CAPTURE_HEAD = struct.pack("<IHHiIII", 0xA1B2C3D4, 2, 4, 0, 0, 65535, 1)  # frames of Ethernet, times in microseconds
PATIENT = {"first_wait": 50, "longest_wait": 200, "tries": 100}
IDP = ["checksum", "len", "hops", "packet_type", "dst.net", "dst.node", "dst.socket", "src.net", "src.node", "src.socket"]
SPP = ["ctl", "type", "src", "dst", "seq", "ack", "alloc"]


class Stopped(Exception):
    pass


def stop(*_):
    raise Stopped


def opened(interface):
    one = socket.socket(socket.AF_PACKET, socket.SOCK_RAW, 0)
    one.setsockopt(socket.SOL_SOCKET, SO_RCVBUFFORCE, ROOM)
    number = socket.if_nametoindex(interface)
    one.setsockopt(SOL_PACKET, ADD_MEMBERSHIP, number.to_bytes(4, sys.byteorder) + PROMISCUOUS.to_bytes(2, sys.byteorder) + bytes(10))
    one.bind((interface, ALL))
    one.setblocking(False)
    return one


def hub(loss, delay, repeat, corrupt, *names):
    loss, repeat, corrupt, wait = float(loss), float(repeat), float(corrupt), float(delay) / 1000
    draw, ports, late, counts = random.Random(1), [opened(name) for name in names], [], collections.Counter()

    def spread(frame, came_by):
        for port in ports:
            if port is came_by:
                continue
            if draw.random() < loss:
                counts["lost"] += 1
                continue
            twice = draw.random() < repeat
            counts["repeated"] += twice
            for _ in range(1 + twice):
                sent = frame
                if draw.random() < corrupt:
                    counts["corrupted"] += 1
                    at = draw.randrange(HEAD, len(frame))
                    sent = frame[:at] + bytes([frame[at] ^ 1 << draw.randrange(8)]) + frame[at + 1 :]
                counts["sent"] += 1
                heapq.heappush(late, (time.monotonic() + wait * draw.random(), counts["sent"], port.fileno(), sent))

    by_file = {port.fileno(): port for port in ports}
    try:
        while True:
            while late and late[0][0] <= time.monotonic():
                _, _, file, frame = heapq.heappop(late)
                by_file[file].send(frame)
            for port in select.select(ports, [], [], max(0, late[0][0] - time.monotonic()) if late else 1)[0]:
                for _ in range(AT_ONCE):
                    try:
                        frame, place = port.recvfrom(2048)
                    except OSError:
                        break
                    if place[2] != OUTGOING:
                        spread(frame, port)
    except Stopped:
        print(" ".join(f"{name} {count}" for name, count in sorted(counts.items())))


def capture(interface, path):
    frames, stops = opened(interface), []
    signal.signal(signal.SIGTERM, lambda *_: stops.append(time.monotonic()))

    def may_be_left():
        is_there = select.select([frames], [], [], 0.1)[0]
        return not stops or is_there and time.monotonic() < stops[0] + LEFT

    with open(path, "wb") as file:
        file.write(CAPTURE_HEAD)
        while may_be_left():
            try:
                frame, now = frames.recv(65535), time.time()
            except OSError:
                continue
            file.write(struct.pack("<IIII", int(now), int(now % 1 * 1_000_000), len(frame), len(frame)) + frame)


def add(interface, station, *numbers):
    import xns

    host = bytes.fromhex(station.replace(":", ""))
    with xns.ethernet(interface) as link:
        own = xns.Address(1, link.station, random.SystemRandom().randrange(3001, 63000))
        with xns.Client(link, host, own, xns.Address(1, host, 5), timeout=300, **PATIENT) as client:
            for number in numbers:
                print(xns.Reader(client.call(7, 1, 1, [int(number)]).words).long_cardinal())


def noise(interface):
    frames = opened(interface)
    try:
        while True:
            frames.send(b"\xff" * 6 + frames.getsockname()[4] + b"\x88\xb5" + bytes(46))
            time.sleep(0.02)
    except Stopped:
        pass


def tshark(path, *fields):
    words = ["tshark", "-r", path, "-Y", "eth.type==0x600", "-T", "fields", *[word for field in fields for word in ("-e", field)]]
    return [line.split("\t") for line in subprocess.run(words, stdout=subprocess.PIPE, stderr=subprocess.DEVNULL, check=True, text=True).stdout.splitlines()]


def number(text):
    return int(text.replace(":", ""), 16) if text.startswith("0x") or ":" in text else int(text)


def agree(path):
    fields = [f"idp.{name}" for name in IDP] + [f"spp.{name}" for name in SPP]
    theirs = tshark(path, *fields)
    lines = collections.defaultdict(list)
    for line in subprocess.run(["xns", "dump", path], stdout=subprocess.PIPE, text=True).stdout.splitlines():
        lines[int(line.split()[0])].append(line.split(" ", 1)[1])
    agreed = 0
    if len(theirs) != len(lines):
        sys.exit(f"tshark has {len(theirs)} packets, xns {len(lines)}")
    for told, at in zip(theirs, sorted(lines)):
        head = re.fullmatch(r"idp length (\d+) sum (\w+) control (\d+) type (\d+) to (\w+)\.(\w+)\.(\w+) from (\w+)\.(\w+)\.(\w+)", lines[at][0]).groups()
        ours = [65535 if head[1] == "none" else int(head[1], 16), int(head[0]), int(head[2]), int(head[3]), *(int(part, 16) for part in head[4:])]
        if head[3] == "5":
            part = re.fullmatch(r"spp control (\w+) stream (\d+) source (\w+) target (\w+) seq (\d+) ack (\d+) alloc (\d+)", lines[at][1]).groups()
            ours += [int(part[0], 16), int(part[1]), int(part[2], 16), int(part[3], 16), *map(int, part[4:])]
        if [number(text) for text in told[: len(ours)]] != ours:
            sys.exit(f"packet {at}: tshark has {told}, xns {lines[at]}")
        agreed += len(ours)
    print(f"{len(theirs)} packets, {agreed} fields agree")


if __name__ == "__main__":
    signal.signal(signal.SIGTERM, stop)
    {"hub": hub, "capture": capture, "add": add, "noise": noise, "agree": agree}[sys.argv[1]](*sys.argv[2:])
