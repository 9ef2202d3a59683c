"""The servers and clients that are run over loopback, as programs in C and Python."""
import functools, sys

from building import BENCH, EXAMPLES, TIRPC, built_c, built_shared, has_tirpc
from loopback import Kind, bare_datagrams, onc_rpc, ours_over_udp

CALL_SIZES = (56, 50)  # bytes of the packets of a call Add, and of its answer
LARGE, LARGE_ITEMS = 100_000, 188  # bytes there and back, and the packets that they fill
LARGE_SIZES = (576, 576)
WINDOWS = {"the default window": (0, 8), "window 64": (64, 64)}  # as our client is told it, and the packets that are under way
RUNS_OF = {"add": (50_000, 2_000), "crowd": (10_000, 250), "large": (300, 20), "python": (3_000, 300)}  # calls that are timed, and that are counted


@functools.cache
def onc_program(folder):
    return built_c("onc_calls", folder, False, *TIRPC) if has_tirpc() else None


def add_kinds(folder, *carriers):
    """Calls Add: ours, and ONC RPC over these carriers."""
    ours = ours_over_udp(built_c("server", folder, True, source=EXAMPLES / "c"), built_c("udp_calls", folder, True), 0)
    return [ours, *(onc_rpc(onc_program(folder), carrier, 0) for carrier in carriers if onc_program(folder))]


def bare_adds(folder, *kinds):
    return [bare_datagrams(built_c("datagrams", folder, False), kind, CALL_SIZES, 1, 2) for kind in kinds]


def large_kinds(folder, name, *kinds):
    """Many bytes there and back: ours, and bare datagrams of these kinds."""
    given, window = WINDOWS[name]
    ours = ours_over_udp(built_c("udp_back", folder, True), built_c("udp_calls", folder, True), LARGE, given)
    return [ours, *(bare_datagrams(built_c("datagrams", folder, False), kind, LARGE_SIZES, LARGE_ITEMS, window) for kind in kinds)]


def large_onc(folder):
    return [onc_rpc(onc_program(folder), "tcp", LARGE)] if onc_program(folder) else []


def python_kinds(folder, *versions):
    """Calls Add of Python: ours, and XML-RPC by these versions of HTTP; and what is to be in the environment."""
    tally, script = EXAMPLES / "python" / "tally.py", BENCH / "python_calls.py"
    environment = {"PYTHONPATH": f"{BENCH.parent / 'python'}:{tally.parent}", "XNS_LIBRARY": str(built_shared(folder)), "PYTHONHASHSEED": "0", "PYTHONDONTWRITEBYTECODE": "1"}
    ours = Kind("ours", lambda port: [sys.executable, tally, "serve", port], lambda port, calls: [sys.executable, script, "xns", "ask", port, calls])
    theirs = [
        Kind(
            f"xmlrpc, HTTP/{version}",
            lambda port, version=version: [sys.executable, script, f"http{version}", "serve", port],
            lambda port, calls, version=version: [sys.executable, script, f"http{version}", "ask", port, calls],
            is_tcp=True,
        )
        for version in versions
    ]
    return [ours, *theirs], environment
