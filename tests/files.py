#!/usr/bin/env python3
"""Compares what the program prints of random captures with a second account of what they hold.

    files.py PROGRAM SEED COUNT

Each capture is written to a file, and read by `dump` and `calls`: by its name, and through a pipe in pieces of 1 or of 7 bytes, or
whole. The packets that `capture_account.py` finds in it go, as lines of hex, to the same commands, and the number of each packet's
frame takes the place of the number of its line. Texts, statuses and the line on standard error are to be the same. The text of
`calls --times` is that of `calls` with the times that the second account finds. Captures with a
packet that has no line are compared by `dump`'s first words alone. The last line is 'N passed, M failed'.
"""
import os
import subprocess
import sys
import tempfile

from capture_account import packets_of, with_times
from random_captures import captures_of

# What the program says of a fault.
SAID = {
    "Cut": "the capture is cut",
    "TooLong": "a record of the capture is too long",
    "Lengths": "the lengths of a block disagree",
    "Order": "a section has bytes in an unknown order",
    "Version": "the version of the capture is unknown",
    "NoInterface": "a frame names an interface that is not described",
    "TooManyInterfaces": "a section has too many interfaces",
}

# The names of links that are not read, of those that random captures have.
LINK_NAMES = {"0": " (BSD loopback)", "12": " (raw IP)", "101": " (raw IP)"}

# A line has at most so many bytes, and a packet half as many.
MOST_PACKET = 2048


def said_of(fault):
    """What the program says of a fault by its name, which the link type follows where a link is not read."""
    name, _, link = fault.partition(" ")
    return f"link type {link}{LINK_NAMES.get(link, '')} is not read" if name == "UnreadLink" else SAID[name]


def run(words, given=b"", piece=None):
    """The status, the output and the errors of the program, which is given the bytes in pieces."""
    if piece is None:
        ended = subprocess.run(words, input=given, capture_output=True, check=False)
        return ended.returncode, ended.stdout.decode(), ended.stderr.decode()
    with subprocess.Popen(words, stdin=subprocess.PIPE, stdout=subprocess.PIPE, stderr=subprocess.PIPE, bufsize=0) as program:
        for start in range(0, len(given), piece):
            try:
                program.stdin.write(given[start:start + piece])
            except BrokenPipeError:
                break
        out, errors = program.communicate()
        return program.returncode, out.decode(), errors.decode()


def with_frames(text, numbers):
    """The text with the numbers of frames in place of those of lines, also behind the word `of` of an answer."""
    lines = []
    for line in text.splitlines():
        words = line.split(" ")
        words[0] = str(numbers[int(words[0]) - 1])
        if len(words) > 5 and words[4] == "of" and words[5] != "-":
            words[5] = str(numbers[int(words[5]) - 1])
        lines.append(" ".join(words) + "\n")
    return "".join(lines)


def compare(program, mode, path, capture, piece):
    """What differs, or None."""
    packets, fault = packets_of(capture)
    if fault == "NoCapture":
        return None
    words = [program, mode, path if piece is None else "-"]
    status, text, errors = run(words, capture if piece else b"", piece)
    said = f"xns: {words[2]}: {said_of(fault)}\n" if fault else ""
    if errors != said:
        return f"said {errors!r} and not {said!r}"
    if any(len(packet) > MOST_PACKET for number, packet in packets):
        seen = sorted({int(line.split(" ", 1)[0]) for line in text.splitlines()})
        if mode == "dump" and seen != [number for number, packet in packets]:
            return f"frames {seen}"
        return None
    lines = "".join(packet.hex() + "\n" for number, packet in packets).encode()
    wanted, expected, unsaid = run([program, mode], lines)
    if fault:
        wanted = 3
        if mode == "calls":
            # No end of the capture is reached, so what is kept is not read: the text is a front.
            if not with_frames(expected, [number for number, packet in packets]).startswith(text):
                return "another text"
            return None if status == wanted else f"status {status}"
    if with_frames(expected, [number for number, packet in packets]) != text:
        return "another text"
    return None if status == wanted and not unsaid else f"status {status} and not {wanted}"


def compare_times(program, style, path, capture):
    """What differs of `calls` with times, beside the same without, or None."""
    status, text, errors = run([program, "calls", path])
    if "NoCapture" == packets_of(capture)[1]:
        text = run([program, "calls", f"--times{style}", path])
        return None if text == (status, *run([program, "calls", path])[1:]) else "another text of lines"
    wanted = status, with_times(capture, text, style == "=relative"), errors
    return None if run([program, "calls", f"--times{style}", path]) == wanted else "other times"


def compared(program, path, capture, piece):
    """What was compared of a capture, and what differs or None."""
    for mode in ("dump", "calls"):
        yield f"{mode}, pieces of {piece}", compare(program, mode, path, capture, piece)
    for style in ("", "=relative"):
        yield f"calls --times{style}", compare_times(program, style, path, capture)


def main(words):
    program, seed, count = os.path.abspath(words[0]), int(words[1]), int(words[2])
    passed = failed = 0
    with tempfile.TemporaryDirectory() as folder:
        path = os.path.join(folder, "capture")
        for place, capture in enumerate(captures_of(seed, count), 1):
            with open(path, "wb") as file:
                file.write(capture)
            piece = [None, 1, 7, 1 << 20][place % 4]
            if piece == 1 and len(capture) > 100000:
                piece = 7
            for what, differs in compared(program, path, capture, piece):
                if differs is None:
                    passed += 1
                else:
                    failed += 1
                    print(f"FAILED capture {place} of seed {seed}, {what}: {differs}")
    print(f"{passed} passed, {failed} failed")
    return 1 if failed else 0


if __name__ == "__main__":
    sys.exit(main(sys.argv[1:]))
