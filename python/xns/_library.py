"""The shared library: its structs, its functions, and how what Python gives becomes what they take."""
import array
import ctypes
import ctypes.util
import operator
import os
from ctypes import byref, c_bool, c_char, c_int16, c_int32, c_size_t, c_uint8, c_uint16, c_uint32, c_uint64, c_void_p
from typing import Any, Iterable, List, Optional, Tuple

from ._errors import LibraryError, done
from ._told import MOST_WINDOW, Address, Answer, Call, Closed, Event, Kind, Message, Opened, Result, Why

_KINDS = list(Kind)  # each at its number
_EVENT_CALL, _EVENT_ANSWER, _EVENT_OPENED = 1, 2, 4  # kinds of events; else it is a closed connection
_NEVER_IDLE = 2**32 - 1  # the idle time after which a peer is never asked
_MOST_SETTINGS = {
    "connections": 65535,
    "window": MOST_WINDOW,
    "backlog": MOST_WINDOW,
    "first_wait": 2**32 - 1,
    "longest_wait": 2**32 - 1,
    "idle": 2**32 - 1,
    "tries": 255,
    "least_wait": 2**16 - 1,
    "patience": 86_400_000,
}


class RawAddress(ctypes.Structure):
    _fields_ = [("network", c_uint32), ("host", c_uint8 * 6), ("socket", c_uint16)]

    @staticmethod
    def of(address: Address, name: str) -> "RawAddress":
        if not isinstance(address, tuple) or len(address) != 3:
            raise TypeError(f"{name} is no Address: it is {_kind(address)}")
        network, host, socket = address
        six = octets(host, f"the host of {name}")
        if len(six) != 6:
            raise ValueError(f"the host of {name} has {len(six)} bytes, and not six")
        return RawAddress(unsigned(network, 32, f"the network of {name}"), (c_uint8 * 6)(*six), unsigned(socket, 16, f"the socket of {name}"))

    def told(self) -> Address:
        return Address(self.network, bytes(self.host), self.socket)


def address_of(address: Address, name: str) -> Address:
    """The address, whose parts are those of one."""
    return RawAddress.of(address, name).told()


def tuple_of(kind: type, value: Any, name: str) -> Any:
    """The value, which is a tuple of this class."""
    if not isinstance(value, kind):
        raise TypeError(f"{name} is no {kind.__name__}: it is {_kind(value)}")
    return value


class RawPacket(ctypes.Structure):
    _fields_ = [
        ("summed", c_uint8), ("control", c_uint8), ("kind", c_uint8), ("target", RawAddress), ("source", RawAddress),
        ("body_at", c_size_t), ("body_length", c_size_t), ("taken", c_size_t),
    ]


class RawItem(ctypes.Structure):
    _fields_ = [("stream", c_uint8), ("attention", c_uint8), ("last", c_uint8), ("length", c_size_t)]


class RawReceived(ctypes.Structure):
    _fields_ = [("took", c_size_t), ("acknowledged", c_size_t), ("reply", c_size_t), ("dropped", c_uint32)]


class RawHeader(ctypes.Structure):
    _fields_ = [
        ("control", c_uint8), ("stream", c_uint8), ("source_id", c_uint16), ("target_id", c_uint16), ("sequence", c_uint16),
        ("acknowledge", c_uint16), ("allocation", c_uint16),
    ]


class RawMessage(ctypes.Structure):
    _fields_ = [
        ("kind", c_uint8), ("transaction", c_uint16), ("program", c_uint32), ("version", c_uint16), ("procedure", c_uint16),
        ("number", c_uint16),
    ]

    def told(self, words: Iterable[int]) -> Message:
        return Message(Kind(self.kind), list(words), self.number, self.transaction, self.program, self.version, self.procedure)


class RawProgram(ctypes.Structure):
    _fields_ = [("program", c_uint32), ("low", c_uint16), ("high", c_uint16)]


class RawSettings(ctypes.Structure):
    _fields_ = [
        ("connections", c_size_t), ("window", c_size_t), ("backlog", c_size_t), ("first_wait", c_uint32), ("longest_wait", c_uint32),
        ("idle", c_uint32), ("tries", c_uint8), ("no_echo", c_uint8), ("least_wait", c_uint16), ("tells_opened", c_uint8),
        ("patience", c_uint32),
    ]

    @staticmethod
    def of(settings: dict) -> "RawSettings":
        """The settings that are given; 0, which stands for the default, is none."""
        settings = dict(settings)
        answers_echo, tells_opened = (_yes_or_no(settings.pop(name, usual), name) for name, usual in (("answers_echo", True), ("tells_opened", False)))
        unknown = set(settings) - set(_MOST_SETTINGS)
        if unknown:
            raise TypeError(f"a host has no setting {', '.join(sorted(unknown))}")
        never = {name: _NEVER_IDLE for name, value in settings.items() if name == "idle" and value is None}
        given = {name: within(1, value, _MOST_SETTINGS[name], name) for name, value in {**settings, **never}.items()}
        return RawSettings(no_echo=flag(not answers_echo), tells_opened=flag(tells_opened), **given)


class RawEvent(ctypes.Structure):
    _fields_ = [("kind", c_uint8), ("number", c_size_t), ("tag", c_uint64), ("message", RawMessage), ("closed", c_uint8), ("error", c_uint16), ("fault", c_uint32)]

    def told(self, words: List[int]) -> Event:
        event = self._told(words)
        if self.tag:
            event.tag = self.tag
        return event

    def _told(self, words: List[int]) -> Event:
        message = self.message
        if self.kind == _EVENT_CALL:
            return Call(self.number, message.program, message.version, message.procedure, words)
        if self.kind == _EVENT_ANSWER:
            return Answer(self.number, _KINDS[message.kind], message.number, words)
        if self.kind == _EVENT_OPENED:
            return Opened(self.number)
        closed = Closed(self.number, Why(self.closed), Result(self.fault) if self.fault else None)
        if closed.why == Why.NOT_SERVED:
            closed.error = self.error
        return closed


class RawHandle(ctypes.Structure):
    _fields_ = [("at", c_void_p)]


class RawFault(ctypes.Structure):
    _fields_ = [("line", c_size_t), ("column", c_size_t), ("reason", c_uint32)]


class RawNode(ctypes.Structure):
    _fields_ = [("kind", c_uint32), ("number", c_uint32), ("parts", c_size_t), ("name", c_size_t)]


class RawCursor(ctypes.Structure):
    _fields_ = [("place", c_size_t), ("fault", c_uint32)]


class RawVersion(ctypes.Structure):
    _fields_ = [("text", c_char * 16)]



# ---- its functions

_BYTES, _HANDLE, _STRUCT, _BUFFER, _WORDS, _LENGTH = ctypes.c_char_p, *[c_void_p] * 5  # the module makes what the pointers lead to
CALLS = {
    "decode": [_BYTES, c_size_t, _STRUCT],
    "encode": [_STRUCT, _BYTES, c_size_t, _BUFFER, c_size_t, _LENGTH],
    "checksum": [_BYTES, c_size_t, _WORDS],
    "echo_reply": [_STRUCT, _BYTES, c_size_t, _BUFFER, c_size_t, _LENGTH],
    "echo_request": [_STRUCT, _STRUCT, _BYTES, c_size_t, _BUFFER, c_size_t, _LENGTH],
    "echo_accept": [_STRUCT, _BYTES, c_size_t, _LENGTH, _LENGTH],
    "complain": [_STRUCT, c_uint16, c_uint16, _BYTES, c_size_t, _BUFFER, c_size_t, _LENGTH],
    "error_read": [_BYTES, c_size_t, _WORDS, _WORDS],
    "exchange_read": [_BYTES, c_size_t, _STRUCT, _WORDS],
    "exchange_write": [c_uint32, c_uint16, _BYTES, c_size_t, _BUFFER, c_size_t, _LENGTH],
    "exchange_request": [_STRUCT, _STRUCT, c_uint32, c_uint16, _BYTES, c_size_t, _BUFFER, c_size_t, _LENGTH],
    "exchange_reply": [_STRUCT, _BYTES, c_size_t, _BYTES, c_size_t, _BUFFER, c_size_t, _LENGTH],
    "exchange_accept": [_STRUCT, c_uint32, _BYTES, c_size_t, _LENGTH, _LENGTH],
    "header_read": [_BYTES, c_size_t, _STRUCT],
    "header_write": [_STRUCT, _BUFFER, c_size_t, _LENGTH],
    "message_read": [_BYTES, c_size_t, _STRUCT, _WORDS, c_size_t, _LENGTH],
    "message_write": [_STRUCT, _WORDS, c_size_t, _BUFFER, c_size_t, _LENGTH],
    "opening": [_BYTES, c_size_t, _STRUCT, _WORDS],
    "endpoint_new_initiator": [_HANDLE, _STRUCT, c_uint16, _STRUCT, c_size_t, c_size_t],
    "endpoint_new_responder": [_HANDLE, _STRUCT, c_uint16, _STRUCT, c_uint16, c_size_t, c_size_t],
    "endpoint_clear": [_HANDLE],
    "endpoint_is_open": [_HANDLE],
    "endpoint_is_full": [_HANDLE],
    "endpoint_waiting": [_HANDLE],
    "endpoint_unacknowledged": [_HANDLE],
    "endpoint_room_to_send": [_HANDLE],
    "endpoint_is_ours": [_HANDLE, _BYTES, c_size_t],
    "endpoint_own": [_HANDLE, _STRUCT, _WORDS],
    "endpoint_peer": [_HANDLE, _STRUCT, _WORDS],
    "endpoint_send": [_HANDLE, c_uint8, c_uint8, c_uint8, _BYTES, c_size_t],
    "endpoint_take": [_HANDLE, _STRUCT, _BUFFER, c_size_t],
    "endpoint_receive": [_HANDLE, _BYTES, c_size_t, _STRUCT, _BUFFER, c_size_t],
    "endpoint_flush": [_HANDLE],
    "endpoint_tick": [_HANDLE],
    "endpoint_next_packet": [_HANDLE, _BUFFER, c_size_t, _LENGTH],
    "endpoint_system_packet": [_HANDLE, c_uint8, _BUFFER, c_size_t, _LENGTH],
    "endpoint_resend_first": [_HANDLE, _BUFFER, c_size_t, _LENGTH],
    "host_new": [_HANDLE, _STRUCT, _STRUCT, _BYTES],
    "host_clear": [_HANDLE],
    "host_serve": [_HANDLE, c_uint16, _STRUCT, c_size_t],
    "host_connect": [_HANDLE, c_uint64, c_uint64, c_uint16, _STRUCT, _LENGTH],
    "host_call": [_HANDLE, c_uint64, c_size_t, c_uint32, c_uint16, c_uint16, _WORDS, c_size_t],
    "host_answer": [_HANDLE, c_uint64, c_size_t, c_uint8, c_uint16, _WORDS, c_size_t],
    "host_close": [_HANDLE, c_uint64, c_size_t],
    "host_abandon": [_HANDLE, c_size_t],
    "host_set_network": [_HANDLE, c_uint32],
    "host_set_tag": [_HANDLE, c_size_t, c_uint64],
    "host_tag": [_HANDLE, c_size_t, _STRUCT],
    "host_receive": [_HANDLE, c_uint64, c_uint64, _BYTES, c_size_t],
    "host_next_event": [_HANDLE, _STRUCT, _WORDS, c_size_t, _LENGTH],
    "host_next_packet": [_HANDLE, c_uint64, _BUFFER, c_size_t, _LENGTH, _STRUCT],
    "host_wake": [_HANDLE],
    "host_connections": [_HANDLE],
    "host_number_from": [_HANDLE, c_size_t, _LENGTH],
    "host_peer": [_HANDLE, c_size_t, _STRUCT],
    "programs_read": [_HANDLE, _BYTES, c_size_t, _STRUCT],
    "programs_clear": [_HANDLE],
    "programs_find": [_HANDLE, _BYTES, c_size_t, _STRUCT, _WORDS],
    "programs_find_procedure": [_HANDLE, c_uint32, c_uint16, _BYTES, c_size_t, _WORDS],
    "programs_find_error": [_HANDLE, c_uint32, c_uint16, _BYTES, c_size_t, _WORDS],
    "programs_name": [_HANDLE, c_uint32, c_uint16, _BUFFER, c_size_t, _LENGTH],
    "programs_procedure_name": [_HANDLE, c_uint32, c_uint16, c_uint16, _BUFFER, c_size_t, _LENGTH],
    "programs_error_name": [_HANDLE, c_uint32, c_uint16, c_uint16, _BUFFER, c_size_t, _LENGTH],
    "programs_call_text": [_HANDLE, c_uint32, c_uint16, c_uint16, _WORDS, c_size_t, _BUFFER, c_size_t, _LENGTH, _LENGTH],
    "programs_return_text": [_HANDLE, c_uint32, c_uint16, c_uint16, _WORDS, c_size_t, _BUFFER, c_size_t, _LENGTH, _LENGTH],
    "programs_abort_text": [_HANDLE, c_uint32, c_uint16, c_uint16, _WORDS, c_size_t, _BUFFER, c_size_t, _LENGTH, _LENGTH],
    "programs_table": [_HANDLE, c_size_t, _STRUCT, _WORDS, _STRUCT, c_size_t, _LENGTH, _BUFFER, c_size_t, _LENGTH],
    "read_cardinal": [_WORDS, c_size_t, _STRUCT, _WORDS],
    "read_long_cardinal": [_WORDS, c_size_t, _STRUCT, _STRUCT],
    "read_integer": [_WORDS, c_size_t, _STRUCT, _STRUCT],
    "read_long_integer": [_WORDS, c_size_t, _STRUCT, _STRUCT],
    "read_boolean": [_WORDS, c_size_t, _STRUCT, _BUFFER],
    "read_count": [_WORDS, c_size_t, _STRUCT, c_uint16, _WORDS],
    "read_text": [_WORDS, c_size_t, _STRUCT, _BUFFER, c_size_t, _LENGTH],
    "read_end": [_WORDS, c_size_t, _STRUCT],
    "write_cardinal": [_WORDS, c_size_t, _STRUCT, c_uint16],
    "write_long_cardinal": [_WORDS, c_size_t, _STRUCT, c_uint32],
    "write_integer": [_WORDS, c_size_t, _STRUCT, c_int16],
    "write_long_integer": [_WORDS, c_size_t, _STRUCT, c_int32],
    "write_boolean": [_WORDS, c_size_t, _STRUCT, c_uint8],
    "write_count": [_WORDS, c_size_t, _STRUCT, c_uint16, c_size_t],
    "write_text": [_WORDS, c_size_t, _STRUCT, _BYTES, c_size_t],
    "version": [],
}
_ANSWERS = {
    "endpoint_clear": None,
    "host_clear": None,
    "programs_clear": None,
    "endpoint_is_open": c_bool,
    "endpoint_is_full": c_bool,
    "endpoint_is_ours": c_bool,
    "endpoint_waiting": c_size_t,
    "endpoint_unacknowledged": c_size_t,
    "endpoint_room_to_send": c_size_t,
    "host_connections": c_size_t,
    "host_wake": c_uint64,
    "version": RawVersion,
}



def _installed() -> Optional[str]:
    """The library that was installed with this file. None: this file was not installed, or the library is gone."""
    prefix, below, rest = os.path.dirname(os.path.abspath(__file__)).rpartition("/share/xns/python/xns")
    library = prefix + "/lib/libxns.so"
    return library if below and not rest and os.path.exists(library) else None


def _load() -> dict:
    """The functions of the library by their names, without the xns_ in front."""
    named = os.environ.get("XNS_LIBRARY")
    path = named or _installed() or ctypes.util.find_library("xns") or "libxns.so"
    try:
        library = ctypes.CDLL(path)
        found = {call: getattr(library, f"xns_{call}") for call in CALLS}
    except OSError as error:
        told = "XNS_LIBRARY names it" if named else "`sh install.sh PREFIX` builds it and puts it beside this module; else XNS_LIBRARY has to name it"
        raise LibraryError(f"the library can't be loaded ({error}): {told}") from None
    except AttributeError as error:
        raise LibraryError(f"the library is of another version than this module ({error}): take both from one `sh install.sh PREFIX`") from None
    for call, function in found.items():
        function.argtypes, function.restype = CALLS[call], _ANSWERS.get(call, c_uint32)
    return found


FUNCTIONS = _load()


def ask(name: str, *arguments):
    """What the function of this name returns."""
    return FUNCTIONS[name](*arguments)


# ---- what Python gives: ctypes itself would cut a number, and take words for bytes


def _kind(value: object) -> str:
    return f"of type {type(value).__name__}"


def whole(value: int, name: str) -> int:
    """The value, which is a whole number."""
    if type(value) is int:
        return value
    try:
        return operator.index(value)
    except TypeError:
        raise TypeError(f"{name} is no whole number: it is {_kind(value)}") from None


def within(low: int, value: int, high: int, name: str) -> int:
    """The number, which is in this range."""
    number = whole(value, name)
    if not low <= number <= high:
        raise ValueError(f"{name} is {number}, which is not from {low} to {high}")
    return number


def unsigned(value: int, bits: int, name: str) -> int:
    """The number, which has at most so many bits."""
    number = whole(value, name)
    return number if not number >> bits else within(0, number, (1 << bits) - 1, name)


def _yes_or_no(value: bool, name: str) -> bool:
    if not isinstance(value, bool):
        raise TypeError(f"{name} is no bool: it is of type {type(value).__name__}")
    return value


def flag(value: bool) -> int:
    """Yes or no, as the library takes it."""
    return 1 if value else 0


def octets(data: bytes, name: str) -> bytes:
    """The value, which is bytes."""
    if isinstance(data, (bytearray, memoryview)):
        return bytes(data)
    if not isinstance(data, bytes):
        raise TypeError(f"{name} is no bytes: it is {_kind(data)}")
    return data


def words_of(words: Iterable[int], name: str = "words") -> Tuple[bytes, int]:
    """The words as they stand in memory, and their number. Bytes are no words: two of them would be one."""
    if isinstance(words, (bytes, bytearray, memoryview, str)):
        raise TypeError(f"{name} is no list of numbers: it is {_kind(words)}")
    try:
        listed = array.array("H", [*words])
    except TypeError:
        raise TypeError(f"{name} is no list of whole numbers") from None
    except OverflowError:
        raise ValueError(f"one of {name} is not from 0 to 65535") from None
    return listed.tobytes(), len(listed)


# ---- what the library gives


def written(name: str, room: int, *arguments) -> Optional[bytes]:
    """What a function writes into a buffer with that much room; None where there is nothing."""
    buffer, length = (c_uint8 * room)(), c_size_t()
    return ctypes.string_at(buffer, length.value) if done(ask(name, *arguments, buffer, room, byref(length))) else None


def part(name: str, packet: bytes, *arguments) -> Optional[bytes]:
    """What a function finds in a packet; None where there is nothing."""
    at, length = c_size_t(), c_size_t()
    return packet[at.value : at.value + length.value] if done(ask(name, *arguments, packet, len(packet), byref(at), byref(length))) else None


def message_of(name: str, room: int, *arguments) -> Optional[Message]:
    """The message that a function returns, with room for so many words; None where there is nothing."""
    message, words, count = RawMessage(), (c_uint16 * room)(), c_size_t()
    if not done(ask(name, *arguments, byref(message), words, room, byref(count))):
        return None
    return message.told(words[: count.value])


def version() -> str:
    """The version of the library."""
    return ask("version").text.decode("ascii")
