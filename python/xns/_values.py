"""Courier's values, in words."""
from ctypes import byref, c_int16, c_int32, c_uint8, c_uint16, c_uint32
from typing import Iterable, List

from ._errors import done
from ._library import RawCursor, ask, flag, octets, unsigned, within, words_of, written


class Reader:
    """Reads values from words, one behind the other. A value that is not there raises an `ArgumentsError`, as does each method that is called after it."""

    def __init__(self, words: Iterable[int]):
        self._words, self._count = words_of(words)
        self._cursor = RawCursor()

    def _value(self, name: str, kind: type, *arguments) -> int:
        value = kind()
        done(ask(name, self._words, self._count, byref(self._cursor), *arguments, byref(value)))
        return value.value

    def cardinal(self) -> int:
        """A cardinal; also an unspecified word, the word of an enumeration, and the designator of a choice."""
        return self._value("read_cardinal", c_uint16)

    def long_cardinal(self) -> int:
        """A long cardinal, of two words."""
        return self._value("read_long_cardinal", c_uint32)

    def integer(self) -> int:
        """An integer, of one word."""
        return self._value("read_integer", c_int16)

    def long_integer(self) -> int:
        """A long integer, of two words."""
        return self._value("read_long_integer", c_int32)

    def boolean(self) -> bool:
        """A boolean, whose word is 0 or 1."""
        return self._value("read_boolean", c_uint8) == 1

    def count(self, most: int = 65535) -> int:
        """How many elements a sequence has, which are to be read then: at most so many."""
        return self._value("read_count", c_uint16, unsigned(most, 16, "most"))

    def text(self) -> bytes:
        """The bytes of a text."""
        return written("read_text", len(self._words), self._words, self._count, byref(self._cursor))

    def end(self) -> None:
        """Says that all is read: a word that is left raises an `ArgumentsError`."""
        done(ask("read_end", self._words, self._count, byref(self._cursor)))


class Writer:
    """Writes values to `words`, one behind the other. Each method returns the writer."""

    def __init__(self) -> None:
        self.words: List[int] = []

    def _value(self, name: str, room: int, *arguments) -> "Writer":
        words, cursor = (c_uint16 * room)(), RawCursor()
        done(ask(name, words, room, byref(cursor), *arguments))
        self.words += words[: cursor.place]
        return self

    def cardinal(self, value: int) -> "Writer":
        """A cardinal; also an unspecified word, the word of an enumeration, and the designator of a choice."""
        return self._value("write_cardinal", 1, unsigned(value, 16, "value"))

    def long_cardinal(self, value: int) -> "Writer":
        """A long cardinal, of two words."""
        return self._value("write_long_cardinal", 2, unsigned(value, 32, "value"))

    def integer(self, value: int) -> "Writer":
        """An integer, of one word."""
        return self._value("write_integer", 1, within(-(2**15), value, 2**15 - 1, "value"))

    def long_integer(self, value: int) -> "Writer":
        """A long integer, of two words."""
        return self._value("write_long_integer", 2, within(-(2**31), value, 2**31 - 1, "value"))

    def boolean(self, value: bool) -> "Writer":
        """A boolean, whose word is 0 or 1."""
        return self._value("write_boolean", 1, flag(value))

    def count(self, elements: int, most: int = 65535) -> "Writer":
        """How many elements a sequence has, which are to be written then. `OverMaximumError` over `most`."""
        return self._value("write_count", 1, unsigned(most, 16, "most"), unsigned(elements, 64, "elements"))

    def text(self, text: bytes) -> "Writer":
        """A text of these bytes. `TooLongError` over 65,535."""
        given = octets(text, "text")
        return self._value("write_text", 1 + (len(given) + 1) // 2, given, len(given))
