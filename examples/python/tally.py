"""A tally over UDP, one packet a datagram. `tally.py serve PORT` answers calls; `tally.py add PORT NUMBER ..` adds numbers, prints each answer, and closes.
Procedure 1 of program 7 adds a cardinal and returns the total. python/ is in PYTHONPATH, and XNS_LIBRARY or the system names libxns.so."""
import socket
import sys

import xns

SERVER, CLIENT = xns.Address(1, bytes.fromhex("0000aa000102"), 5), xns.Address(1, bytes.fromhex("0000aa000304"), 0)
PROGRAM, VERSION, ADD = 7, 1, 1


class Tally:
    def __init__(self):
        self.total = 0

    def answer(self, call):
        if call.procedure != ADD:
            return xns.rejects(xns.Reject.NO_SUCH_PROCEDURE)
        arguments = xns.Reader(call.words)
        try:
            number = arguments.cardinal()
            arguments.end()
        except xns.XnsError:
            return xns.rejects(xns.Reject.INVALID_ARGUMENTS)
        self.total = (self.total + number) % 2**32
        return xns.returns(xns.Writer().long_cardinal(self.total).words)


def add(udp, place, numbers):
    udp.bind(("127.0.0.1", 0))
    own = CLIENT._replace(socket=udp.getsockname()[1])  # a socket that no other client has
    client = xns.Client(udp, place, own, SERVER, first_wait=100, longest_wait=1000, tries=6, patience=4500)
    for number in numbers:
        answer = client.call(PROGRAM, VERSION, ADD, [number])
        print(answer.kind.name.lower(), *answer.words)
    client.close()


if __name__ == "__main__":
    if sys.argv[1:2] not in (["serve"], ["add"]) or len(sys.argv) < 3:
        sys.exit("usage: tally.py serve PORT, or tally.py add PORT NUMBER ..")
    with socket.socket(socket.AF_INET, socket.SOCK_DGRAM) as udp:
        if sys.argv[1] == "serve":
            udp.bind(("127.0.0.1", int(sys.argv[2])))
            xns.serve(udp, SERVER, [(PROGRAM, VERSION, VERSION)], Tally().answer)
        else:
            try:
                add(udp, ("127.0.0.1", int(sys.argv[2])), map(int, sys.argv[3:]))
            except OSError as error:  # the server is silent, or gone
                sys.exit(str(error))
