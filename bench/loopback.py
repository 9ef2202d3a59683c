"""Servers and clients on this machine, over loopback: what both sides take of the processor, and by callgrind the instructions of a call. No program runs longer
than LONGEST seconds."""
import contextlib, os, pathlib, re, signal, socket, subprocess, sys, tempfile, time
from typing import Callable, NamedTuple

from building import has_valgrind

LONGEST = 180
LISTENS = "0A"  # a state in /proc/net/tcp


class Kind(NamedTuple):
    """A server and its client, as their words: the server's by the port, the client's by the port and the number of calls."""

    name: str
    server: Callable
    client: Callable
    is_tcp: bool = False
    is_counted: bool = True  # whether its instructions are looked at


class TooLong(Exception):
    """The time of a run is over."""


def free_port(is_tcp):
    with socket.socket(socket.AF_INET, socket.SOCK_STREAM if is_tcp else socket.SOCK_DGRAM) as one:
        one.bind(("127.0.0.1", 0))
        return one.getsockname()[1]


def is_open(port, is_tcp):
    lines = pathlib.Path("/proc/net/tcp" if is_tcp else "/proc/net/udp").read_text().splitlines()[1:]
    places = [(int(line.split()[1].rpartition(":")[2], 16), line.split()[3]) for line in lines]
    return any(place == port and (state == LISTENS or not is_tcp) for place, state in places)


@contextlib.contextmanager
def bounded(started):
    """Ends what was started, at the end or when the time is over."""

    def too_long(*_):
        raise TooLong

    signal.signal(signal.SIGALRM, too_long)
    signal.alarm(LONGEST)
    try:
        yield
    except TooLong:
        sys.exit(f"{started[-1].args} took longer than {LONGEST} seconds")
    finally:
        signal.alarm(0)
        for one in started:
            if one.poll() is None:
                one.kill()
                one.wait()


def used_by(one):
    """Processor seconds of a program that ends."""
    _, status, used = os.wait4(one.pid, 0)
    one.returncode = os.waitstatus_to_exitcode(status)
    return used.ru_utime + used.ru_stime


def run(kind, calls, clients, environment, front=lambda number: []):
    """Processor seconds of both sides, starting and ending them included. `front` gives words before those of the server, which is 0, and of each client."""
    port, started = free_port(kind.is_tcp), []

    def start(words):
        words = [*map(str, [*front(len(started)), *words])]
        started.append(subprocess.Popen(words, env={**os.environ, **environment}, stdout=subprocess.PIPE, stderr=subprocess.DEVNULL, text=True))

    with bounded(started):
        start(kind.server(port))
        while not is_open(port, kind.is_tcp):
            if started[0].poll() is not None:
                sys.exit(f"{started[0].args} ended")
            time.sleep(0.02)
        for _ in range(clients):
            start(kind.client(port, calls))
        used = sum(used_by(one) for one in started[1:])
        for one in started[1:]:
            if one.returncode != 0 or one.stdout.read() != f"{calls} calls\n":
                sys.exit(f"{one.args} failed")
        os.kill(started[0].pid, signal.SIGTERM)
        return used + used_by(started[0])


def instructions(kind, calls, clients, environment):
    """Instructions of a call in user space, both sides together: what a run takes more that has twice the calls, so that starting and ending are left out."""
    totals = []
    for wanted in (calls, 2 * calls):
        with tempfile.TemporaryDirectory() as folder:
            path = pathlib.Path(folder)
            run(kind, wanted, clients, environment, lambda number: ["valgrind", "--tool=callgrind", f"--callgrind-out-file={path / str(number)}"])
            totals.append(sum(int(re.search(r"^totals: (\d+)", file.read_text(), re.M)[1]) for file in path.iterdir()))
    return (totals[1] - totals[0]) / (calls * clients)


def measured_kinds(kinds, runs, calls, counted, clients=1, environment=None):
    """Of each kind of server and client, run in turn: the seconds of processor of a call, both sides together, and its instructions where they mean something.
    What starting and ending take is left out of both: it is that of a run without calls."""
    environment = environment or {}
    times = {kind: {calls: [], 0: []} for kind in kinds}
    for _ in range(runs):
        for kind in kinds:
            for wanted, spent in times[kind].items():
                spent.append(run(kind, wanted, clients, environment))
    least = {kind: (min(spent[calls]) - min(spent[0])) / calls / clients for kind, spent in times.items()}
    counts = {kind: instructions(kind, counted, clients, environment) for kind in kinds if kind.is_counted and has_valgrind()}
    return least, counts


def compare_kinds(what, kinds, runs, calls, counted, clients=1, environment=None):
    """Each kind of server and client, ours first. Rows of processor time of both sides, and of instructions."""
    least, counts = measured_kinds(kinds, runs, calls, counted, clients, environment)
    for kind in kinds:
        told = f", {counts[kind]:.0f} instructions" if kind in counts else ""
        print(f"{what}, {kind.name}: {least[kind] * 1e6:.1f} us of processor a call{told}")
    ours = kinds[0]
    for peer in kinds[1:]:
        yield what, peer.name, least[ours] / least[peer]
        if peer in counts:
            yield f"{what}: instructions", peer.name, counts[ours] / counts[peer]


def ours_over_udp(server, client, size, *window):
    """The library for C: a client whose calls have so many bytes returned, or add where they are 0. The server takes no window, or the client's."""
    return Kind("ours", lambda port: [server, port, *window], lambda port, calls: [client, port, *(window or (0,)), calls, size])


def onc_rpc(program, carrier, size):
    """The calls of this benchmark as ONC RPC."""
    return Kind(
        f"ONC RPC over {carrier.upper()}, libtirpc",
        lambda port: [program, "serve", carrier, port],
        lambda port, calls: [program, "ask", carrier, port, calls, size],
        is_tcp=carrier == "tcp",
    )


def bare_datagrams(program, kind, sizes, count, window):
    """Datagrams of so many bytes there and back: `batched` as ours, `single` with a system call for each."""
    asked, answered = sizes
    return Kind(
        f"bare datagrams, {kind}",
        lambda port: [program, "serve", kind, port, count, answered, window],
        lambda port, calls: [program, "ask", kind, port, count, asked, window, calls],
        is_counted=False,
    )
