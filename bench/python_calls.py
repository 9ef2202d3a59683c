"""The tally of examples/python, called by Python, and the same by what Python has itself. Prints how many calls were answered as they should be.

    python_calls.py xns ask PORT CALLS                   calls the server of examples/python/tally.py
    python_calls.py http1.0|http1.1 serve PORT
    python_calls.py http1.0|http1.1 ask PORT CALLS       XML-RPC: a TCP connection a call, as the standard library has it, or one for all

python/ and examples/python/ are in PYTHONPATH, and XNS_LIBRARY names libxns.so."""
import socket
import sys
import xmlrpc.client
import xmlrpc.server

VERSIONS = {"http1.0": "HTTP/1.0", "http1.1": "HTTP/1.1"}


def ask_xns(port, calls):
    import tally
    import xns

    with socket.socket(socket.AF_INET, socket.SOCK_DGRAM) as udp:
        udp.bind(("127.0.0.1", 0))
        own = tally.CLIENT._replace(socket=udp.getsockname()[1])
        client = xns.Client(udp, ("127.0.0.1", port), own, tally.SERVER, first_wait=1000, longest_wait=4000, tries=6)
        answers = (client.call(tally.PROGRAM, tally.VERSION, tally.ADD, [1]) for _ in range(calls))
        right = sum(xns.Reader(answer.words).long_cardinal() == number for number, answer in enumerate(answers, 1))
        client.close()
    return right


def serve_xmlrpc(port, version):
    class Handler(xmlrpc.server.SimpleXMLRPCRequestHandler):
        protocol_version = version

    total = 0

    def add(number):
        nonlocal total
        total += number
        return total

    server = xmlrpc.server.SimpleXMLRPCServer(("127.0.0.1", port), requestHandler=Handler, logRequests=False)
    server.register_function(add)
    server.serve_forever()


def ask_xmlrpc(port, calls):
    with xmlrpc.client.ServerProxy(f"http://127.0.0.1:{port}") as server:
        return sum(server.add(1) == number for number in range(1, calls + 1))


def main(kind, side, port, calls="0"):
    if side == "serve":
        serve_xmlrpc(int(port), VERSIONS[kind])
    asked = ask_xns if kind == "xns" else ask_xmlrpc
    print(f"{asked(int(port), int(calls))} calls")


main(*sys.argv[1:])
