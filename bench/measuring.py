"""Runs of programs side by side: what each prints, its processor time, its memory and its instructions."""
import os, pathlib, re, subprocess, sys, tempfile, time

from building import BENCH

RUNS = 5
MANY_RUNS = 15
MOST_RUNS = 99
LEAST_SECONDS = 1.0  # of all runs of one program together


def output_of(words, given):
    with open(given, "rb") as lines:
        return subprocess.run(words, stdin=lines, stdout=subprocess.PIPE, check=False).stdout


def made_by(script, *words):
    return subprocess.run([sys.executable, BENCH / script, *words], stdout=subprocess.PIPE, check=True).stdout


def seconds_of(words, given, to=os.devnull):
    """Processor seconds of one run, whose output goes to a file."""
    with open(given, "rb") as lines, open(to, "wb") as output:
        started = subprocess.Popen(words, stdin=lines, stdout=output)
        _, _, used = os.wait4(started.pid, 0)
        return used.ru_utime + used.ru_stime


def held_by(words, given):
    """The most memory that one run holds, in KiB, as its process tells while it runs."""
    most = 0
    with open(given, "rb") as lines, subprocess.Popen(words, stdin=lines, stdout=subprocess.DEVNULL) as started:
        while started.poll() is None:
            status = pathlib.Path(f"/proc/{started.pid}/status").read_text()
            most = max([most, *(int(line.split()[1]) for line in status.splitlines() if line.startswith("VmHWM"))])
            time.sleep(0.005)
    return most


def instructions_of(words, given):
    """How many instructions one run has, by callgrind."""
    with open(given, "rb") as lines, tempfile.NamedTemporaryFile() as found:
        counting = ["valgrind", "--tool=callgrind", f"--callgrind-out-file={found.name}"]
        said = subprocess.run([*counting, *words], stdin=lines, stdout=subprocess.DEVNULL, stderr=subprocess.PIPE, check=False, text=True).stderr
    return int(re.search(r"Collected : ([0-9]+)", said).group(1))


def compare(ours, peer, given, to=os.devnull, runs=RUNS):
    """The least processor seconds of each, run in turns: what else the machine does only adds to them."""
    if output_of(ours, given) != output_of(peer, given):
        sys.exit("the two programs print different things")
    times = {"ours": [], "peer": []}
    # A short run tells little by itself.
    wanted = int(LEAST_SECONDS / max(seconds_of(ours, given, to), 0.001))
    for _ in range(max(runs, min(wanted, MOST_RUNS))):
        for name, words in (("ours", ours), ("peer", peer)):
            times[name].append(seconds_of(words, given, to))
    least = {name: min(spent) for name, spent in times.items()}
    print(f"ours {least['ours']:.3f} s, peer {least['peer']:.3f} s: the peer takes {least['peer'] / least['ours']:.1f} times as long, ours {least['ours'] / least['peer']:.2f} of its time")
    return least


def ratio_of(least):
    return least["ours"] / least["peer"]
