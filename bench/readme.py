"""README's table of speed, with its wording: processor time and instructions of ours divided by those of a peer. Instructions of items each way, and of long messages in
captures, are counted over fewer of them."""
import functools, itertools, pathlib
from typing import NamedTuple

from building import BENCH, built_c, built_peer, built_program, has_gcc, has_tirpc, has_valgrind
from kinds import RUNS_OF, WINDOWS, add_kinds, bare_adds, large_kinds, python_kinds
from loopback import measured_kinds
from measuring import MANY_RUNS, RUNS, compare, held_by, instructions_of, made_by, ratio_of, seconds_of

README = BENCH.parent / "README.md"
HEAD = "| What | Time | Instructions |\n|---|---|---|\n"
CAPTURES = "short", "flows", "long", "endless", "reversed"
FEW = 8_192  # packets of long messages


class Ratio(NamedTuple):
    """Ours divided by a peer's; None where it was not measured."""

    time: float | None
    instructions: float | None


class Row(NamedTuple):
    what: str
    groups: list  # of lists of Ratio


@functools.cache
def counted(words, given):
    return instructions_of(words, given)


def beside(ours, peer, given, runs=RUNS, fewer=lambda words: words, few=None):
    """Ours beside a peer. `fewer` makes of the words of both those of the runs whose instructions are counted, and `few` is what these are given."""
    counts = [counted(tuple(fewer(words)), few or given) for words in (ours, peer)] if has_valgrind() else None
    return Ratio(ratio_of(compare(ours, peer, given, runs=runs)), counts[0] / counts[1] if counts else None)


def made(given, script, *words):
    """A file of its own with what a script writes, and one with the first of its lines."""
    whole, few = (given.with_name("-".join([script, *words, size])) for size in ("whole", "few"))
    whole.write_bytes(made_by(script, *words))
    with open(whole, "rb") as lines:
        few.write_bytes(b"".join(itertools.islice(lines, FEW)))
    return whole, few


def beside_lines(ours, peer, given, *script):
    whole, few = made(given, *script)
    return beside(ours, peer, whole, few=few if script[-1] in ("long", "endless") else None)


def megabytes(held):
    """What `held_by` tells in KiB."""
    return held * 1024 / 1_000_000


def held_by_both(ours, peer, given, *script):
    whole, _ = made(given, *script)
    return held_by(ours, whole), held_by(peer, whole)


def dump_row(folder, given):
    ours, peer = [built_program("xns"), "dump"], [built_peer("dump_peer", folder)]
    yield Row(
        "`xns dump` of 65,536 packets of one flow; of those that end messages of Courier",
        [[beside_lines(ours, peer, given, "packets.py", *words)] for words in (("sequenced", "1"), ("messages",))],
    )
    held = [held_by_both(ours, peer, given, "packets.py", "sequenced", flows) for flows in ("1", "65536")]
    shown = "; ".join(f"{megabytes(mine):.1f} of {megabytes(theirs):.1f} MB" for mine, theirs in held)
    yield f"| most resident memory of `xns dump`, beside the peer: one flow; 65,536 flows | {shown} | |"


def calls_rows(folder, given):
    ours, peer = [built_program("xns"), "calls"], [built_peer("captures_peer", folder)]
    yield Row(
        "`xns calls` of as many: short calls, each in a flow of its own, long ones, messages that never end, out of order",
        [[beside_lines(ours, peer, given, "captures.py", which) for which in CAPTURES]],
    )
    held = [held_by(ours, made(given, "captures.py", which)[0]) for which in ("endless", "endless-flows")]
    cells = []
    given.write_bytes(b"")
    for which in ("short", "flows", "reversed"):
        capture = pathlib.Path(folder) / f"{which}.pcap"
        capture.write_bytes(made_by("captures.py", which, "pcap"))
        cells.append(beside([*ours, capture], [*peer, capture], given))
    yield Row("`xns calls x.pcap` of as many: short calls, each in a flow of its own, out of order", [cells])
    yield f"| of `xns calls`: one flow; 65,536 flows that each kept 534 bytes of a message | {megabytes(held[0]):.1f} MB; {megabytes(held[1]):.0f} MB | |"


def bench_rows(folder, given):
    given.write_bytes(b"")
    ours = [built_program("bench")]
    peers = [built_peer("calls_peer", folder, "--cfg", "plain"), built_peer("calls_peer", folder)]
    yield Row(
        "100,000 calls Add in memory, beside a simple peer and a tuned one",
        [[beside([*ours, "calls", "100000", "0"], [peer, "100000", "0"], given, 9) for peer in peers]],
    )
    peers = [built_peer("exchange_peer", folder, "--cfg", "standard"), built_peer("exchange_peer", folder)]
    fewer = lambda words: [*words[:-1], "1"]
    yield Row(
        "65,535 items each way, in order, late, with losses: beside a peer that sums as the standard says; in lanes",
        [[beside([*ours, "exchange", order, "3"], [peer, order, "3"], given, 9, fewer) for order in ("ordered", "late", "lossy")] for peer in peers],
    )
    peer = [built_peer("sim_peer", folder, "--cfg", "standard")]
    play = beside([*ours, "play", "calls"], peer, made(given, "script.py", "1000", "96")[0])
    sim = beside([built_program("xns"), "sim"], peer, made(given, "script.py", "5000", "6")[0])
    yield Row("a play of 1,000 calls and 100,000 events; `xns sim` of 5,000 calls with repeats", [[play], [sim]])


def hosts_rows(folder, given):
    given.write_bytes(b"")
    program = built_program("test_hosts")

    # What opening takes is left out: it is that of a run without calls.
    def of_calls(taken, words, calls):
        return taken([*words, calls]) - taken([*words, "0"])

    def least_seconds(words):
        return min(seconds_of(words, given) for _ in range(MANY_RUNS))

    def beside_calls(*both):
        seconds = [of_calls(least_seconds, words, "100000") for words in both]
        counts = [of_calls(lambda words: instructions_of(words, given), words, "5000") for words in both] if has_valgrind() else None
        return Ratio(seconds[0] / seconds[1], counts[0] / counts[1] if counts else None)

    by_hand = beside_calls([program, "hosts", "1"], [program, "parts", "1"])
    crowd = beside_calls([program, "hosts", "10000"], [program, "hosts", "1"])
    yield Row("two hosts against two hand-driven endpoints, 100,000 calls; the same on a host with 10,000 connections against one with a single connection", [[by_hand], [crowd]])
    if has_gcc():
        ours, peer = ([built_c(name, folder, True)] for name in ("c_calls", "c_calls_peer"))
        yield Row("two hosts of the library for C against two of its endpoints, 100,000 calls", [[beside_calls(ours, peer)]])
    held = held_by([program, "hosts", "10000", "0"], given) - held_by([program, "hosts", "1", "0"], given)
    yield f"| of an idle connection of a host | {held * 1024 / 20_000_000:.1f} KB | |"


def sides(kinds, *words, **more):
    """A group: the first kind beside each of the others."""
    seconds, counts = measured_kinds(kinds, *words, **more)
    ours = kinds[0]
    return [Ratio(seconds[ours] / seconds[peer], counts[ours] / counts[peer] if peer in counts else None) for peer in kinds[1:]]


def loopback_rows(folder, _given):
    if not has_gcc():
        return
    ours = add_kinds(folder)
    if has_tirpc():
        kinds = add_kinds(folder, "udp")
        groups = [sides(kinds, RUNS, *RUNS_OF["add"]), sides(kinds, RUNS, *RUNS_OF["crowd"], clients=16)]
        yield Row("a call Add over UDP on loopback by the library for C, both sides, beside ONC RPC of libtirpc: one client; 16", groups)
    groups = [sides([*ours, *bare_adds(folder, "batched")], RUNS, *RUNS_OF["add"])]
    groups += [sides(large_kinds(folder, name, "batched"), RUNS, *RUNS_OF["large"]) for name in WINDOWS]
    yield Row("the same beside bare datagrams: a call Add; 100,000 bytes there and back at the default window; at window 64", groups)


def python_rows(folder, _given):
    if not has_gcc():
        return
    kinds, environment = python_kinds(folder, "1.1")
    group = sides(kinds, RUNS, *RUNS_OF["python"], environment=environment)
    yield Row("a call Add of Python on loopback, both sides, beside its own XML-RPC over one connection", [group])


PARTS = dump_row, calls_rows, bench_rows, hosts_rows, loopback_rows, python_rows


def cell(groups, number):
    """Ratios of times or of instructions; `-` where none was measured."""
    return "; ".join(", ".join("-" if ratio[number] is None else f"{ratio[number]:.2f}" for ratio in group) for group in groups)


def line_of(row):
    return row if isinstance(row, str) else f"| {row.what} | {cell(row.groups, 0)} | {cell(row.groups, 1)} |"


def made_table(folder):
    """The table's lines: those of speed, and then those of memory."""
    given, speed, memory = pathlib.Path(folder) / "given", [], []
    for part in PARTS:
        for row in part(folder, given):
            (memory if isinstance(row, str) else speed).append(line_of(row))
            print(line_of(row), flush=True)
    return HEAD + "\n".join([*speed, *memory]) + "\n"


def write_table(table):
    """Puts the table in the place of README's, which is its last."""
    text = README.read_text()
    README.write_text(text[: text.index("\n| What |", text.index("\n## Speed\n")) + 1] + table)
