"""Captures of calls, and a second account of how `xns calls --programs` names them.

    named_calls.py --lines < lines         prints packets in hex, which carry the calls, returns and aborts of the lines
    named_calls.py --capture < lines       writes a capture of the same packets, a millisecond apart
    named_calls.py --name FILE.. < plain   prints what `xns calls` prints without programs as it prints it with those of the files

A line is one that tests/notation_account.py takes. A return or an abort answers a call without words, of the same procedure, or of
procedure 0. Then comes an answer whose call is not known, and a reject. What is named is named as that account does. A file that is
refused is told on standard error as `xns` tells it, with status 2.
"""

import re
import struct
import sys

import notation_account as ref

CALLER, SERVER = bytes.fromhex("00000001 0000aa000304 0400"), bytes.fromhex("00000001 0000aa000102 0005")
MOST_ITEM = 534
END_OF_MESSAGE = 0x10
MOST_WORDS = 65000


class Flow:
    """The data packets of one direction of a connection."""

    def __init__(self, target, source, own, other):
        self.target, self.source, self.own, self.other, self.sequence = target, source, own, other, 0
        self.front = struct.pack(">2H", 2, 3)

    def packets(self, words):
        """The packets of a message."""
        data = self.front + struct.pack(f">{len(words)}H", *words)
        self.front = b""
        for at in range(0, len(data), MOST_ITEM):
            item = data[at : at + MOST_ITEM]
            control = END_OF_MESSAGE if at + MOST_ITEM >= len(data) else 0
            yield self.packet(control, item)

    def packet(self, control, item):
        fields = struct.pack(">BBHHHHH", control, 0, self.own, self.other, self.sequence % 65536, 0, 60)
        self.sequence += 1
        length = 42 + len(item)
        return struct.pack(">HHBB", 0xFFFF, length, 0, 5) + self.target + self.source + fields + item


def messages(lines):
    """Messages of the lines: whether it is the caller's, and its words."""
    transaction = 0
    for line in lines:
        kind, number, version, which, *digits = line.split()
        words = [] if digits == ["-"] else [int(word, 16) for word in digits]
        if len(words) > MOST_WORDS:
            continue
        transaction = (transaction + 1) % 65536
        number, version, which = int(number), int(version), int(which)
        callee = [number >> 16, number & 0xFFFF, version]
        if kind == "call":
            yield True, [0, transaction, *callee, which, *words]
        elif kind == "return":
            yield True, [0, transaction, *callee, which]
            yield False, [2, transaction, *words]
        else:
            yield True, [0, transaction, *callee, 0]
            yield False, [3, transaction, which, *words]
    yield False, [2, 7, 1, 2]
    yield False, [1, 8, 2]


def packets(lines):
    forth, back = Flow(SERVER, CALLER, 0x1234, 0x5678), Flow(CALLER, SERVER, 0x5678, 0x1234)
    for is_callers, words in messages(lines):
        yield from (forth if is_callers else back).packets(words)


def write_capture(out, lines):
    out.write(struct.pack(">IHHiIII", 0xA1B2C3D4, 2, 4, 0, 0, 65535, 1))
    for at, packet in enumerate(packets(lines)):
        frame = SERVER[4:10] + CALLER[4:10] + b"\x06\x00" + packet
        out.write(struct.pack(">IIII", 1700000000 + at // 1000, at % 1000 * 1000, len(frame), len(frame)) + frame)


def words_in(text):
    return [] if text == "-" else [int(word, 16) for word in text.split()]


def named_or(line, front, took, name):
    """A line of `xns calls`, named where the account has a name."""
    try:
        text = name()
    except ref.Unread as unread:
        return f"{line} unread {unread}"
    return line if text is None else f"{front} {text}{took}"


class Namer:
    """Names lines, and remembers which calls wait."""

    def __init__(self, programs):
        self.programs, self.calls = programs, {}

    def line(self, line):
        found = re.fullmatch(r"((?:\S+ )?(\d+) (\d+)([ab]) (call|return|abort) (\d+))( of (\d+|-))?( .*)", line)
        if not found:
            return line
        front, number, connection, letter, kind, transaction, of, at, rest = found.groups()
        if kind == "call":
            callee = re.fullmatch(r" program (\d+) version (\d+) procedure (\d+) args (.*)", rest)
            program, version, procedure = (int(callee.group(i)) for i in (1, 2, 3))
            self.calls[connection, letter, number] = (program, version, procedure)
            words = words_in(callee.group(4))
            return named_or(line, front, "", lambda: ref.call_text(self.programs, program, version, procedure, words))
        if at == "-":
            return line
        program, version, procedure = self.calls[connection, "b" if letter == "a" else "a", at]
        answer = re.fullmatch(r"(?: error (\d+))? (?:results|args) (.*?)( took \S+)?", rest)
        words, took = words_in(answer.group(2)), answer.group(3) or ""
        if kind == "return":
            return named_or(line, front + of, took, lambda: ref.return_text(self.programs, program, version, procedure, words))
        return named_or(line, front + of, took, lambda: ref.abort_text(self.programs, program, version, int(answer.group(1)), words))


def name_lines(files):
    programs = ref.read_files(files, sys.stderr)
    if programs is None:
        return 2
    namer = Namer(programs)
    for line in sys.stdin:
        print(namer.line(line.rstrip("\n")))
    return 0


def main(words):
    if words[0] == "--name":
        return name_lines(words[1:])
    lines = [line for line in sys.stdin.read().split("\n") if line]
    if words[0] == "--capture":
        write_capture(sys.stdout.buffer, lines)
    else:
        for packet in packets(lines):
            print(packet.hex())
    return 0


if __name__ == "__main__":
    sys.exit(main(sys.argv[1:]))
