"""Internet packets, Echo, Error, Packet Exchange, the header of a sequenced packet, and Courier's messages."""
import secrets
from ctypes import byref, c_uint16, c_uint32
from typing import Optional, Tuple

from ._errors import done
from ._library import RawAddress, RawHeader, RawMessage, RawPacket, ask, flag, message_of, octets, part, tuple_of, unsigned, words_of, written
from ._told import LONGEST_PACKET, MOST_MESSAGE_WORDS, Address, Header, Message, Packet

_EXCHANGE_HEAD = 6  # bytes of the head of a Packet Exchange packet's data
_HEADER = 12  # bytes of the header of a sequenced packet
_HEADER_BITS = [8, 8, 16, 16, 16, 16, 16]  # of each of its fields
_MOST_MESSAGE = 131072  # bytes of a message, at most


def _address(address: Address, name: str):
    return byref(RawAddress.of(address, name))


def _sized(data: bytes, name: str) -> Tuple[bytes, int]:
    """The bytes and their number, as the library takes them."""
    given = octets(data, name)
    return given, len(given)


def checksum(data: bytes) -> int:
    """The checksum of an even number of bytes; else `BadArgumentError`."""
    result = c_uint16()
    done(ask("checksum", *_sized(data, "data"), byref(result)))
    return result.value


def decode(data: bytes) -> Packet:
    """The internet packet at the front of the bytes. `ShortError`, `LengthSmallError`, `LengthLargeError`, `CutError`, `BadSumError`."""
    told, given = RawPacket(), octets(data, "data")
    done(ask("decode", given, len(given), byref(told)))
    body = given[told.body_at : told.body_at + told.body_length]
    return Packet(told.target.told(), told.source.told(), told.kind, body, bool(told.summed), told.control, told.taken)


def encode(packet: Packet) -> bytes:
    """The bytes of a packet; its `taken` is not looked at. `TooLongError` for over 546 bytes of data."""
    packet = tuple_of(Packet, packet, "packet")
    told = RawPacket(
        summed=flag(packet.summed), control=unsigned(packet.control, 8, "control"), kind=unsigned(packet.kind, 8, "kind"),
        target=RawAddress.of(packet.target, "target"), source=RawAddress.of(packet.source, "source"),
    )
    return written("encode", LONGEST_PACKET, byref(told), *_sized(packet.body, "body"))


def echo_reply(own: Address, data: bytes) -> Optional[bytes]:
    """The reply to an Echo request that is to `own`; None where the bytes are no such request."""
    return written("echo_reply", LONGEST_PACKET, _address(own, "own"), *_sized(data, "data"))


def echo_request(own: Address, target: Address, data: bytes) -> bytes:
    """The packet that asks `target`, an Echo socket, to send these bytes back. `TooLongError` for over 544 bytes."""
    return written("echo_request", LONGEST_PACKET, _address(own, "own"), _address(target, "target"), *_sized(data, "data"))


def echo_accept(target: Address, packet: bytes) -> Optional[bytes]:
    """The bytes that come back in an Echo reply from `target`, or from any host where it is the broadcast host; None where the packet is no such reply.
    The program compares them with those that it sent."""
    return part("echo_accept", octets(packet, "packet"), _address(target, "target"))


def complain(own: Address, number: int, parameter: int, offending: bytes) -> Optional[bytes]:
    """The Error packet from `own` about an offending packet; None where one must not complain."""
    numbers = unsigned(number, 16, "number"), unsigned(parameter, 16, "parameter")
    return written("complain", LONGEST_PACKET, _address(own, "own"), *numbers, *_sized(offending, "offending"))


def error_read(body: bytes) -> Tuple[int, int, bytes]:
    """The number, the parameter and what is quoted, of the data of an Error packet. `ShortError` under 4 bytes."""
    number, parameter, given = c_uint16(), c_uint16(), octets(body, "body")
    done(ask("error_read", given, len(given), byref(number), byref(parameter)))
    return number.value, parameter.value, given[4:]


def exchange_read(body: bytes) -> Tuple[int, int, bytes]:
    """The identifier, the client type and the data, of the data of a Packet Exchange packet. `ShortError` under 6 bytes."""
    identifier, client, given = c_uint32(), c_uint16(), octets(body, "body")
    done(ask("exchange_read", given, len(given), byref(identifier), byref(client)))
    return identifier.value, client.value, given[_EXCHANGE_HEAD:]


def exchange_write(identifier: int, client: int, data: bytes) -> bytes:
    """The data of a Packet Exchange packet. `TooLongError` for over 540 bytes."""
    return written("exchange_write", LONGEST_PACKET, unsigned(identifier, 32, "identifier"), unsigned(client, 16, "client"), *_sized(data, "data"))


def exchange_request(own: Address, target: Address, identifier: int, client: int, data: bytes) -> bytes:
    """The request packet of a packet exchange: to be sent, and sent again until the response comes. `TooLongError` for over 540 bytes; `BadArgumentError`
    where the target is the broadcast host. The identifier is new for each request."""
    numbers = unsigned(identifier, 32, "identifier"), unsigned(client, 16, "client")
    return written("exchange_request", LONGEST_PACKET, _address(own, "own"), _address(target, "target"), *numbers, *_sized(data, "data"))


def exchange_accept(target: Address, identifier: int, packet: bytes) -> Optional[bytes]:
    """The data of the response to what was asked of `target` under this identifier; None where the packet is not the response."""
    return part("exchange_accept", octets(packet, "packet"), _address(target, "target"), unsigned(identifier, 32, "identifier"))


def exchange_reply(own: Address, request: bytes, data: bytes) -> Optional[bytes]:
    """The response packet to the request packet of a packet exchange, with these data; None where the request is no such packet to `own`. What it asks
    is read by `decode` and `exchange_read`. `TooLongError` for over 540 bytes."""
    return written("exchange_reply", LONGEST_PACKET, _address(own, "own"), *_sized(request, "request"), *_sized(data, "data"))


def header_read(body: bytes) -> Tuple[Header, bytes]:
    """The header at the front of a sequenced packet's data, and what follows it. `ShortError` under 12 bytes."""
    told, given = RawHeader(), octets(body, "body")
    done(ask("header_read", given, len(given), byref(told)))
    return Header(*(getattr(told, name) for name in Header._fields)), given[_HEADER:]


def header_write(header: Header) -> bytes:
    """The 12 bytes of a header."""
    if not isinstance(header, tuple) or len(header) != len(_HEADER_BITS):
        raise TypeError(f"header is no Header: it is of type {type(header).__name__}")
    return written("header_write", _HEADER, byref(RawHeader(*map(unsigned, header, _HEADER_BITS, Header._fields))))


def message_read(data: bytes) -> Message:
    """The Courier message that the bytes are. `OddLengthError`, `ShortMessageError`, `UnknownKindError`, `LongMessageError`."""
    return message_of("message_read", MOST_MESSAGE_WORDS, *_sized(data, "data"))


def message_write(message: Message) -> bytes:
    """The bytes of a message. `TooLongError` where they would be over 131,072."""
    message = tuple_of(Message, message, "message")
    told = RawMessage(
        kind=unsigned(message.kind, 8, "kind"), transaction=unsigned(message.transaction, 16, "transaction"),
        program=unsigned(message.program, 32, "program"), version=unsigned(message.version, 16, "version"),
        procedure=unsigned(message.procedure, 16, "procedure"), number=unsigned(message.number, 16, "number"),
    )
    return written("message_write", _MOST_MESSAGE, byref(told), *words_of(message.words))


def new_identifier() -> int:
    """An identifier for a new connection, which a stranger can't guess."""
    return 1 + secrets.randbelow(65535)


def opening(packet: bytes) -> Optional[Tuple[Address, int]]:
    """Who opens a connection by this packet, and with which identifier: what `Endpoint.responder` wants. None where nobody does."""
    peer, peer_id = RawAddress(), c_uint16()
    return (peer.told(), peer_id.value) if done(ask("opening", *_sized(packet, "packet"), byref(peer), byref(peer_id))) else None
