"""What goes wrong, each as an exception of its name."""
from typing import Optional

from ._told import Result, Why

TEXTS = {
    Result.NO_MEMORY: "there is no memory",
    Result.NO_ENDPOINT: "there is no endpoint in the handle",
    Result.SHORT_BUFFER: "the buffer is too short",
    Result.BAD_ARGUMENT: "an argument is not allowed",
    Result.SHORT: "there are fewer bytes than a header has",
    Result.LENGTH_SMALL: "the length field is below 30",
    Result.LENGTH_LARGE: "the length field is above 576",
    Result.CUT: "there are fewer bytes than the length field says",
    Result.BAD_SUM: "the checksum is another one",
    Result.TOO_LONG: "there are more data than a packet, a message or a text carries",
    Result.ATTENTION_SIZE: "an attention item has exactly one byte",
    Result.EXHAUSTED: "the connection has carried its last item",
    Result.FULL: "as many items are unacknowledged as the backlog holds",
    Result.NO_SLOT: "as many connections are there as the host may have",
    Result.ODD_LENGTH: "the message has an odd number of bytes",
    Result.SHORT_MESSAGE: "the message has fewer bytes than its head",
    Result.UNKNOWN_KIND: "the message is of another kind than the four",
    Result.LONG_MESSAGE: "the message has more than 131,072 bytes",
    Result.NO_COMMON_VERSION: "the peer does not speak version 3",
    Result.BAD_VERSIONS: "the peer's version range is none",
    Result.WRONG_TRANSACTION: "an answer to another call, or to none",
    Result.BAD_REPLY: "the peer calls where its side answers, or answers where its side calls",
    Result.OTHER_STREAM: "an item of another datastream than 0",
    Result.STOPPED: "the conversation has stopped",
    Result.BUSY: "a call waits for its answer, or the answer was not fetched",
    Result.CLOSING: "the connection is closed, or closes",
    Result.ATTENTION: "an attention item is no part of a message",
    Result.TRUNCATED: "the words end before the value does",
    Result.NOT_BOOLEAN: "the word of a boolean is neither 0 nor 1",
    Result.OVER_MAXIMUM: "the count of a sequence is over its maximum",
    Result.NOT_LISTED: "the word of an enumeration or the designator of a choice is not listed",
    Result.LEFT_OVER: "words are left behind the last value",
    Result.NO_HOST: "there is no host in the handle",
    Result.NO_CONNECTION: "no connection has this number",
    Result.TOO_MANY_SERVICES: "the host serves as many sockets as it can",
    Result.PEER_CALLS: "the peer opened the connection: its side calls",
    Result.EVERY_HOST: "the broadcast host has no connections",
    Result.NO_SOCKET: "0 is no socket",
    Result.ECHO_SOCKET: "2 is the socket of Echo",
    Result.NO_VERSION: "a program has its lowest version above its highest",
    Result.WRONG_TEXT: "the text is no program of Courier's notation",
}
CLOSED_TEXTS = {
    Why.ASKED: "the program closed the connection",
    Why.BY_PEER: "the peer closed the connection",
    Why.SILENT: "the peer does not answer",
    Why.NOT_SERVED: "an Error packet says that a packet of the connection was not taken",
    Why.REFUSED: "what the peer said is no conversation of Courier's",
}


class XnsError(Exception):
    """Each error of this module is one. `result`: what the library returned, None where it was not asked."""

    result: Optional[Result] = None


class LibraryError(XnsError, ImportError):
    """There is no library, or one of another version than this module is for."""


class ArgumentsError(XnsError):
    """Words do not have the value that they were read for. A call whose answering raises it is rejected with reason 3."""


class SilentError(XnsError, TimeoutError):
    """The server is silent, or what was waited for did not come in the time that was given. The connection is closed, unless the call of an `AsyncClient`
    still waited for another one."""


class NotServedError(XnsError, ConnectionRefusedError):
    """An Error packet says that there is no server, or no room at it. `error`: its number; 2 is no such socket, 3 no resources."""

    error: Optional[int] = None


class ClosedError(XnsError, ConnectionResetError):
    """The connection is closed, or was not opened yet."""


class NoCallError(XnsError, LookupError):
    """No call of this connection waits for an answer."""


_OF_VALUES = {Result.TRUNCATED, Result.NOT_BOOLEAN, Result.OVER_MAXIMUM, Result.NOT_LISTED, Result.LEFT_OVER}


def _error_of(result: Result, text: str) -> type:
    """The exception of a result: `TooLongError` of TOO_LONG."""
    name = "".join(word.capitalize() for word in result.name.split("_")) + "Error"
    above = ArgumentsError if result in _OF_VALUES else XnsError
    return type(name, (above,), {"result": result, "__doc__": text[0].upper() + text[1:] + ".", "__module__": "xns"})


BY_RESULT = {result: _error_of(result, text) for result, text in TEXTS.items()}
ClosingError, NoConnectionError, BusyError, NoMemoryError, NoSlotError = (
    BY_RESULT[result] for result in (Result.CLOSING, Result.NO_CONNECTION, Result.BUSY, Result.NO_MEMORY, Result.NO_SLOT)
)


_OK, _NOTHING = int(Result.OK), int(Result.NOTHING)


def done(result: int) -> bool:
    """Whether it was done; false where there is nothing."""
    if result in (_OK, _NOTHING):
        return result == _OK
    if result in BY_RESULT:
        raise BY_RESULT[result](TEXTS[result])
    raise XnsError(f"the library answered {result}, which this module does not know")
