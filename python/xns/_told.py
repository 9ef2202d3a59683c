"""The numbers of the library, and the tuples of what packets and events have."""
import enum
from typing import Iterable, List, NamedTuple, Optional, Union

LONGEST_PACKET = 576  # bytes of the longest packet
LONGEST_ITEM = 534  # bytes of an item, at most
MOST_WINDOW = 64  # items in a window or a backlog, at most
MOST_CALL_WORDS = 65530  # words of a call's arguments, at most
MOST_MESSAGE_WORDS = 65534  # words of any message behind its head, at most


class Result(enum.IntEnum):
    """What the library's functions return."""

    OK = 0
    NOTHING = 1
    NO_MEMORY = 2
    NO_ENDPOINT = 3
    SHORT_BUFFER = 4
    BAD_ARGUMENT = 5
    SHORT = 11
    LENGTH_SMALL = 12
    LENGTH_LARGE = 13
    CUT = 14
    BAD_SUM = 15
    TOO_LONG = 21
    ATTENTION_SIZE = 22
    EXHAUSTED = 23
    FULL = 24
    NO_SLOT = 27
    ODD_LENGTH = 41
    SHORT_MESSAGE = 42
    UNKNOWN_KIND = 43
    LONG_MESSAGE = 44
    NO_COMMON_VERSION = 51
    BAD_VERSIONS = 52
    WRONG_TRANSACTION = 53
    BAD_REPLY = 54
    OTHER_STREAM = 55
    STOPPED = 56
    BUSY = 57
    CLOSING = 58
    ATTENTION = 59
    TRUNCATED = 71
    NOT_BOOLEAN = 72
    OVER_MAXIMUM = 73
    NOT_LISTED = 74
    LEFT_OVER = 75
    NO_HOST = 81
    NO_CONNECTION = 82
    TOO_MANY_SERVICES = 83
    PEER_CALLS = 84
    EVERY_HOST = 85
    NO_SOCKET = 86
    ECHO_SOCKET = 87
    NO_VERSION = 88
    WRONG_TEXT = 91


class NotationReason(enum.IntEnum):
    """What is wrong with a text in Courier's notation. docs/NOTATION.md has each by the name that it has as a text, as `NoName`."""

    TOO_LONG = 1
    BAD_BYTE = 2
    HUGE_NUMBER = 3
    LONG_NAME = 4
    OPEN_STRING = 5
    TOO_MANY_TOKENS = 6
    NO_TYPE = 11
    NO_CONSTANT = 12
    NO_PROGRAM = 13
    NO_VERSION = 14
    NO_BEGIN = 15
    NO_END = 16
    NO_UPON = 17
    NO_EQUAL = 18
    NO_SEMICOLON = 19
    NO_DOT = 20
    NO_NAME = 21
    NO_NUMBER = 22
    LARGE_NUMBER = 23
    NO_OF = 24
    NO_ARROW = 25
    NO_COLON = 26
    NO_OPEN_BRACE = 27
    NO_CLOSE_BRACE = 28
    NO_OPEN_BRACKET = 29
    NO_CLOSE_BRACKET = 30
    NO_OPEN_PARENTHESIS = 31
    NO_CLOSE_PARENTHESIS = 32
    TOO_DEEP = 33
    TOO_MANY_PARTS = 34
    TOO_MANY_DECLARATIONS = 35
    TRAILING = 36
    DOUBLED_NAME = 41
    DOUBLED_WORD = 42
    DOUBLED_NUMBER = 43
    DOUBLED_PROGRAM = 44
    UNKNOWN_NAME = 45
    UNKNOWN_PROGRAM = 46
    NOT_READ = 47
    NOT_NUMBER = 48
    NOT_ENUMERATION = 49
    OTHER_NUMBER = 50
    NO_DESIGNATOR = 51
    RECURSIVE = 52
    TYPES_TOO_DEEP = 53
    NO_WORDS = 54
    TOO_LARGE = 55

    def __str__(self) -> str:
        return "TooDeep" if self is NotationReason.TYPES_TOO_DEEP else "".join(word.capitalize() for word in self.name.split("_"))


class Dropped(enum.IntEnum):
    """Why a received packet's item was neither taken nor kept."""

    NOT_DROPPED = 0
    NOT_IDP = 31
    NOT_SPP = 32
    NOT_OURS = 33
    AHEAD_OF_US = 34
    OUT_OF_ORDER = 35
    NO_ROOM = 36
    REPEAT = 37


class PacketType(enum.IntEnum):
    """The packet types that the library knows; a packet may have others."""

    ECHO = 2
    ERROR = 3
    EXCHANGE = 4
    SEQUENCED = 5


class Control(enum.IntFlag):
    """Bits of a sequenced packet's control field."""

    SYSTEM = 128
    SEND_ACKNOWLEDGEMENT = 64
    ATTENTION = 32
    END_OF_MESSAGE = 16


class Stream(enum.IntEnum):
    """Datastream types."""

    COURIER = 0
    END = 254
    END_REPLY = 255


class Kind(enum.IntEnum):
    """Kinds of Courier messages."""

    CALL = 0
    REJECT = 1
    RETURN = 2
    ABORT = 3


class Why(enum.IntEnum):
    """The reason why a connection of a host is closed."""

    ASKED = 1
    BY_PEER = 2
    SILENT = 3
    NOT_SERVED = 4
    REFUSED = 5


class Reject(enum.IntEnum):
    """Why a call is rejected. A service may give other reasons."""

    NO_SUCH_PROGRAM = 0
    NO_SUCH_VERSION = 1
    NO_SUCH_PROCEDURE = 2
    INVALID_ARGUMENTS = 3


class Address(NamedTuple):
    """Where a packet goes to or comes from: a network, 0 for an unknown one, a host of six bytes, and a socket."""

    network: int
    host: bytes
    socket: int


class Packet(NamedTuple):
    """An internet packet. `taken`: how many of the bytes that were decoded are the packet, with its garbage byte."""

    target: Address
    source: Address
    kind: int
    body: bytes
    summed: bool = True
    control: int = 0
    taken: int = 0


class Header(NamedTuple):
    """The header of a sequenced packet. `control` has bits of `Control`; an identifier of 0 is not known."""

    control: int
    stream: int
    source_id: int
    target_id: int
    sequence: int
    acknowledge: int
    allocation: int


class Item(NamedTuple):
    """What one data packet carries."""

    body: bytes
    stream: int = Stream.COURIER
    attention: bool = False
    last: bool = True


class Received(NamedTuple):
    """What became of a packet: how many items were taken, and how many fewer are unacknowledged; why its item was neither taken nor kept, if so; what is to be
    sent in reply, or no bytes."""

    took: int
    acknowledged: int
    dropped: Dropped
    reply: bytes


class Message(NamedTuple):
    """A Courier message. `number` is the reason of a reject or the error of an abort; what a kind does not have is 0."""

    kind: Kind
    words: List[int]
    number: int = 0
    transaction: int = 0
    program: int = 0
    version: int = 0
    procedure: int = 0


class Reply(NamedTuple):
    """What a call is answered: as `returns`, `aborts` and `rejects` make it."""

    kind: Kind
    words: Iterable[int] = ()
    code: int = 0


def returns(words: Iterable[int] = ()) -> Reply:
    """A return with these results."""
    return Reply(Kind.RETURN, words)


def aborts(error: int, words: Iterable[int] = ()) -> Reply:
    """An abort with an error and its arguments."""
    return Reply(Kind.ABORT, words, error)


def rejects(reason: int) -> Reply:
    """A reject with a reason, as of `Reject`."""
    return Reply(Kind.REJECT, (), reason)


# An event has the tag of its connection, by `Host.set_tag`, as an attribute; it is no element of the tuple.


class _Opened(NamedTuple):
    number: int


class Opened(_Opened):
    """The peer of the connection with this number, which `Host.connect` opened, has confirmed it. Returned by the setting `tells_opened` alone: once, before
    all other events of the connection, or never."""

    tag = 0


class _Call(NamedTuple):
    number: int
    program: int
    version: int
    procedure: int
    words: List[int]


class Call(_Call):
    """The peer of the connection with this number calls. It waits for `Host.answer`."""

    tag = 0


class _Answer(NamedTuple):
    number: int
    kind: Kind
    code: int
    words: List[int]


class Answer(_Answer):
    """The call that was made on the connection with this number is answered. `code` is the error of an abort or the reason of a reject, else 0."""

    tag = 0


class _Closed(NamedTuple):
    number: int
    why: Why
    fault: Optional[Result]


class Closed(_Closed):
    """The connection with this number is closed, and nothing more comes of it. `why` is the reason; `fault` is what a peer was refused for, else None. As
    attributes alone: `error`, the number of the Error packet that closed it, else None; `tag`."""

    tag = 0
    error: Optional[int] = None


Event = Union[Opened, Call, Answer, Closed]
