#!/usr/bin/env python3
"""Times a proved program beside a plain Rust peer: five runs of each in turn, or fifteen of `exchange`, `calls` and `hosts`, which scatter, or
so many that they take a second together. It prints the least of each and their ratio.

    python3 bench/compare.py readme       README's table, in some ten minutes once all is built; with --write behind it stands in README
    python3 bench/compare.py all          all of those below, and then the table of their ratios, with the peer of each, the processor and the compilers
    python3 bench/compare.py checksum     the cycle checksum of a million packets of 576 bytes
    python3 bench/compare.py values       Courier values read, read over pieces, and written; the least time of many
    python3 bench/compare.py c            a million packets of 576 bytes written and read by the library for C, beside plain C and
                                          beside the same in Rattle
    python3 bench/compare.py exchange     65,535 items of 534 bytes each way at window 64, in order, with every second packet late, and with the last
                                          seven packets of each 51 lost, which a tick sends again; both say how many were late, lost and sent
                                          again. Beside a peer that sums by the standard's loop and one that sums in lanes
    python3 bench/compare.py calls        100,000 calls of Courier through a caller and a server in memory, and 200 calls of 60,000
                                          cardinals each way, with the most memory that a run holds, beside a peer that makes a message of
                                           its own of what comes, and one that reads words where the bytes lie
    python3 bench/compare.py hosts        100,000 calls between two hosts in memory, beside the same ends made by hand of endpoints and sessions; beside
                                           the same calls on one of 10,000 open connections; what an idle connection holds; and 100,000 calls
                                           between two hosts of the library for C, beside two of its endpoints whose program writes and reads
                                           the messages itself, without a clock
    python3 bench/compare.py sim          `xns sim` of 2,500, 5,000 and 10,000 calls Add, and of 5,000 calls with 50,000 events, among them 30,000
                                          packets that come again; nearly as many lines as an input may have
    python3 bench/compare.py plays        a play of 1,000 calls and 100,000 events, most of them packets that come again, beside the same peer; and plays of
                                          1,000, 10,000 and 65,535 items each way, to see that their time grows with the packets
    python3 bench/compare.py dump         `xns dump` of 65,536 packets in hex: of types that no layer reads, of types 2 to 4, sequenced ones of 1, 1,000 and
                                          65,536 flows, and those that end messages of Courier; and the largest resident memory of each
    python3 bench/compare.py captures     `xns calls` of 65,536 packets in hex: short calls of one connection, out of order, long ones, each in a flow
                                          of its own, and messages that never end; beside a peer and beside `xns dump` of the same; and of captures
                                          of them, beside the same peer, by time and by instructions
    python3 bench/compare.py loopback     calls Add over UDP on this machine, of one client of the library for C and of 16, beside ONC RPC by libtirpc, over UDP
                                          and TCP, and beside bare datagrams; and 100,000 bytes there and back, at the default window and at
                                          window 64, beside bare datagrams and ONC RPC over TCP. Processor time of both sides, and instructions
                                          of a call by callgrind
    python3 bench/compare.py python       calls Add by Python over UDP on this machine, beside Python's own XML-RPC, with a connection a call and with one
                                          for all; processor time and instructions likewise

What needs gcc, libtirpc or valgrind is left out where that is not installed, and a line says so. If XNS_ARCHIVE is in the environment, it names the
library for C, as `rt lib` makes it, and none is built: for a try. XNS_PROGRAMS likewise names a folder with the programs of the crates.

The proved program is built by `rt run` in its crate, the peer by `rustc -O`. Absolute times say little on a shared machine; the
ratio is of processor time in one run. What is printed is thrown away, once it is known that both print the same; that of `xns dump` goes
into a file too, which costs both the same time of the system's.
"""
import os, pathlib, statistics, subprocess, sys, tempfile

from building import built_c, built_peer, built_program, has_gcc, has_valgrind
from kinds import RUNS_OF, WINDOWS, add_kinds, bare_adds, large_kinds, large_onc, python_kinds
from loopback import compare_kinds
from measuring import MANY_RUNS, RUNS, compare, held_by, instructions_of, made_by, output_of, ratio_of, seconds_of
from readme import made_table, write_table

def nanoseconds_of(words):
    """What a program of values found: its lines of counts, and the nanoseconds by value and kind of work."""
    lines = subprocess.run([*words, "200"], stdout=subprocess.PIPE, check=True, text=True).stdout.splitlines()
    counts = [line for line in lines if line.endswith(" words")]
    return counts, {line.rsplit(" ", 1)[0]: int(line.rsplit(" ", 1)[1]) for line in lines if line not in counts}


def compare_values(ours, peer):
    """The least time of each kind of work over all runs: ours to the peer's, and reading over pieces to reading. Rows of those beside the peer."""
    rows = []
    least = {"ours": {}, "peer": {}}
    for _ in range(RUNS):
        counts = {}
        for name, words in (("ours", ours), ("peer", peer)):
            counts[name], found = nanoseconds_of(words)
            for work, spent in found.items():
                least[name][work] = min(spent, least[name].get(work, spent))
        if counts["ours"] != counts["peer"]:
            sys.exit("the two programs print different things")
    for work, spent in least["ours"].items():
        beside = "peer" if work in least["peer"] else "ours"
        other = least[beside][work if beside == "peer" else work.replace(" pieces", " read")]
        against = "the peer" if beside == "peer" else "our reading of a slice"
        print(f"{work}: {spent} ns, {spent / other:.2f} of {against}")
        if beside == "peer":
            rows.append((f"Courier value: {work}", "values_peer", spent / other))
    return rows


def time_checksum(folder, given):
    given.touch()
    least = compare([built_program("bench"), "checksum"], [built_peer("checksum_peer", folder)], given)
    yield "the checksum of a million packets", "checksum_peer", ratio_of(least)


def time_values(folder, _given):
    yield from compare_values([built_program("bench"), "values"], [built_peer("values_peer", folder)])


def time_c(folder, given):
    given.touch()
    library = built_c("c_codec", folder, True)
    least = compare([library], [built_c("c_codec_peer", folder, False)], given)
    yield "a million packets written and read by the library for C", "c_codec_peer.c, by gcc -O2", ratio_of(least)
    least = compare([library], [built_program("bench"), "codec"], given)
    print(f"through C each packet takes {(least['ours'] - least['peer']) * 1000:.0f} ns more than in Rattle, for its two calls")


def time_exchange(folder, given):
    given.touch()
    ours = [built_program("bench"), "exchange"]
    loop, lanes = built_peer("exchange_peer", folder, "--cfg", "standard"), built_peer("exchange_peer", folder)
    for order in ("ordered", "late", "lossy"):
        for name, peer in (("loop", loop), ("lanes", lanes)):
            print(f"{order}, {name}:", end=" ", flush=True)
            least = compare([*ours, order, "5"], [peer, order, "5"], given, runs=MANY_RUNS)
            yield f"65,535 items each way between two ends, {order}", f"exchange_peer, sums in {'a ' if name == 'loop' else ''}{name}", ratio_of(least)


def time_calls(folder, given):
    given.touch()
    ours = [built_program("bench"), "calls"]
    plain, tuned = built_peer("calls_peer", folder, "--cfg", "plain"), built_peer("calls_peer", folder)
    for name, what, counts in (("adds", "100,000 calls Add in memory", ["100000", "0"]), ("lists", "200 calls of 60,000 cardinals each way", ["0", "200"])):
        for kind, peer in (("plain", plain), ("tuned", tuned)):
            print(f"{name}, {kind}:", end=" ", flush=True)
            least = compare([*ours, *counts], [peer, *counts], given, runs=MANY_RUNS)
            print(f"{name}, {kind}: ours holds {held_by([*ours, *counts], given)} KiB at most, the peer {held_by([peer, *counts], given)}")
            yield what, f"calls_peer, {kind}", ratio_of(least)


def time_hosts(folder, given):
    given.touch()
    program = built_program("test_hosts")
    print("beside ends made by hand:", end=" ", flush=True)
    least = compare([program, "hosts", "1", "100000"], [program, "parts", "1", "100000"], given, runs=MANY_RUNS)
    yield "100,000 calls between two hosts in memory", "the same ends made by hand", ratio_of(least)
    # What opening takes is left out: it is that of a run without calls.
    def calls_among(connections):
        run = [program, "hosts", connections]
        return statistics.median(seconds_of([*run, "100000"], given) - seconds_of([*run, "0"], given) for _ in range(RUNS))
    yield "the same on one of 10,000 open connections", "the same on one of one", calls_among("10000") / calls_among("1")
    held = held_by([program, "hosts", "10000", "0"], given) - held_by([program, "hosts", "1", "0"], given)
    print(f"an idle connection holds {held * 1024 / 20_000:.0f} bytes at each of both hosts")
    ours, peer = ([built_c(name, folder, True), "100000"] for name in ("c_calls", "c_calls_peer"))
    least = compare(ours, peer, given, runs=MANY_RUNS)
    print(f"between two hosts {100_000 / least['ours']:.0f} calls a second of one processor, both sides together")
    yield "100,000 calls Add between two hosts of the library for C", "c_calls_peer.c, two endpoints", ratio_of(least)


def time_sim(folder, given):
    ours, peer = built_program("xns"), built_peer("sim_peer", folder, "--cfg", "standard")
    for words in (["2500"], ["5000"], ["10000"], ["5000", "6"]):
        given.write_bytes(made_by("script.py", *words))
        what = f"{words[0]} calls{' with repeats' if len(words) > 1 else ''}"
        print(f"{what}:", end=" ", flush=True)
        yield f"`xns sim` of {what}", "sim_peer", ratio_of(compare([ours, "sim"], [peer], given))


def time_plays(folder, given):
    ours, peer = [built_program("bench"), "play"], built_peer("sim_peer", folder, "--cfg", "standard")
    given.write_bytes(made_by("script.py", "1000", "96"))
    print(f"{sum(not line.startswith(b'call') for line in given.read_bytes().splitlines())} events:", end=" ", flush=True)
    yield "a play of 1,000 calls and 100,000 events", "sim_peer", ratio_of(compare([*ours, "calls"], [peer], given))
    for count in ("1000", "10000", "65535"):
        packets = int(output_of([*ours, count], given).split()[-1])
        median = statistics.median(seconds_of([*ours, count], given) for _ in range(RUNS))
        print(f"{count} items each way: {median:.3f} s for {packets} packets, {median / packets * 1e9:.0f} ns each")


def time_dump(folder, given):
    ours, peer = built_program("xns"), built_peer("dump_peer", folder)
    for which in (["data"], ["echo"], ["error"], ["exchange"], ["sequenced", "1"], ["sequenced", "1000"], ["sequenced", "65536"], ["messages"]):
        given.write_bytes(made_by("packets.py", *which))
        what = f"`xns dump` of 65,536 packets, {which[0]}{f' in flows: {which[1]}' if len(which) > 1 else ''}"
        print(" ".join(which) + ":", end=" ", flush=True)
        yield f"{what}, thrown away", "dump_peer", ratio_of(compare([ours, "dump"], [peer], given))
        print("    into a file:", end=" ", flush=True)
        yield f"{what}, into a file", "dump_peer", ratio_of(compare([ours, "dump"], [peer], given, pathlib.Path(folder) / "output"))
        print(f"    ours holds {held_by([ours, 'dump'], given)} KiB at most, the peer {held_by([peer], given)}")


def time_captures(folder, given):
    ours, peer = built_program("xns"), built_peer("captures_peer", folder)
    for which in ("short", "reversed", "long", "flows", "endless", "endless-flows"):
        given.write_bytes(made_by("captures.py", which))
        print(f"{which}:", end=" ", flush=True)
        least = compare([ours, "calls"], [peer], given)
        dump = min(seconds_of([ours, "dump"], given) for _ in range(RUNS))
        print(f"    {least['ours'] / dump:.2f} of the time of dump; ours holds {held_by([ours, 'calls'], given)} KiB at most, the peer {held_by([peer], given)}")
        yield f"`xns calls` of 65,536 packets, {which}", "captures_peer", ratio_of(least)
    given.write_bytes(b"")
    capture = pathlib.Path(folder) / "capture.pcap"
    for which in ("short", "reversed", "long", "flows"):
        capture.write_bytes(made_by("captures.py", which, "pcap"))
        print(f"{which}, of a capture:", end=" ", flush=True)
        ratio = ratio_of(compare([ours, "calls", capture], [peer, capture], given))
        if has_valgrind():
            counts = [instructions_of([*words, capture], given) for words in ([ours, "calls"], [peer])]
            print(f"    ours {counts[0]:,} instructions, the peer {counts[1]:,}: {counts[0] / counts[1]:.2f}")
        yield f"`xns calls x.pcap` of 65,536 packets, {which}", "captures_peer", ratio


def time_loopback(folder, _given):
    if not has_gcc():
        return
    adds = add_kinds(folder, "udp", "tcp")
    yield from compare_kinds("a call Add over loopback", [*adds, *bare_adds(folder, "batched", "single")], RUNS, *RUNS_OF["add"])
    yield from compare_kinds("the same of 16 clients at once", adds, RUNS, *RUNS_OF["crowd"], clients=16)
    for name in WINDOWS:
        kinds = [*large_kinds(folder, name, "batched", "single"), *large_onc(folder)]
        yield from compare_kinds(f"100,000 bytes there and back, {name}", kinds, RUNS, *RUNS_OF["large"])


def time_python(folder, _given):
    if not has_gcc():
        return
    kinds, environment = python_kinds(folder, "1.0", "1.1")
    yield from compare_kinds("a call Add of Python over loopback", kinds, RUNS, *RUNS_OF["python"], environment=environment)


TIMINGS = {
    "checksum": time_checksum,
    "values": time_values,
    "c": time_c,
    "exchange": time_exchange,
    "calls": time_calls,
    "hosts": time_hosts,
    "sim": time_sim,
    "plays": time_plays,
    "dump": time_dump,
    "captures": time_captures,
    "loopback": time_loopback,
    "python": time_python,
}


def first_line(*words):
    return subprocess.run(words, stdout=subprocess.PIPE, check=True, text=True).stdout.splitlines()[0]


def processor():
    names = [line.partition(":")[2].strip() for line in pathlib.Path("/proc/cpuinfo").read_text().splitlines() if line.startswith("model name")]
    return f"{len(names)} x {names[0]}" if names else f"{os.cpu_count()} processors without a name"


def circumstances(before):
    after = os.getloadavg()[0]
    return f"Processor {processor()}, load {before:.1f} before and {after:.1f} after. Ours by {first_line('rt', 'version')}; the peers in bench/ by {first_line('rustc', '--version')}, `rustc -O`."


def print_table(rows, before):
    """The rows as a table in Markdown, under what they were measured on."""
    print(f"\n{circumstances(before)}\n\n| What | Peer | Ratio |\n|---|---|---|")
    for what, peer, ratio in rows:
        print(f"| {what} | {peer} | {ratio:.2f} |")


def print_readme(folder, is_written, before):
    table = made_table(folder)
    print(f"\n{circumstances(before)}\n\n{table}", end="")
    if is_written:
        write_table(table)


def main():
    which, further = sys.argv[1] if len(sys.argv) > 1 else "", sys.argv[2:]
    if (which not in TIMINGS and which not in ("all", "readme")) or further not in ([], ["--write"] if which == "readme" else []):
        sys.exit(__doc__)
    before = os.getloadavg()[0]
    rows = []
    with tempfile.TemporaryDirectory() as folder:
        if which == "readme":
            return print_readme(folder, further != [], before)
        for name in TIMINGS if which == "all" else [which]:
            if which == "all":
                print(f"\n{name}", flush=True)
            rows += TIMINGS[name](folder, pathlib.Path(folder) / f"given-{name}")
    if which == "all":
        print_table(rows, before)


main()
