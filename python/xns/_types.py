"""Courier's types as Python has them, made of the nodes of a program's table: each writes and reads values in words."""
import collections
import collections.abc
import enum
import keyword
import re
from typing import Any, Callable, Dict, Iterable, List, NamedTuple, Optional, Tuple

from ._errors import BY_RESULT, TEXTS
from ._library import octets, unsigned, within
from ._told import Result
from ._values import Reader, Writer

_MOST_TEXT = 65535  # bytes of a string


class NodeKind(enum.IntEnum):
    """What a node of a program's table stands for."""

    BOOLEAN = 1
    CARDINAL = 2
    LONG_CARDINAL = 3
    INTEGER = 4
    LONG_INTEGER = 5
    UNSPECIFIED = 6
    TEXT = 7
    ENUMERATION = 8
    MEMBER = 9
    ARRAY = 10
    SEQUENCE = 11
    RECORD = 12
    CHOICE = 13
    CANDIDATE = 14
    CONSTANT = 15
    PROCEDURE = 16
    ERROR = 17


class Node(NamedTuple):
    """A node of a program's table, with its parts."""

    kind: NodeKind
    number: int
    name: str
    parts: Tuple["Node", ...]

    @property
    def form(self) -> tuple:
        """What two types have in common that differ in their names alone."""
        return self.kind, self.number, tuple((part.name, part.form) for part in self.parts)


def trees(rows: Iterable[Tuple[int, int, int, str]]) -> List[Node]:
    """The nodes of a table, each with its parts, which stand behind it."""
    left = iter(rows)

    def one(row: Tuple[int, int, int, str]) -> Node:
        kind, number, parts, name = row
        return Node(NodeKind(kind), number, name, tuple(one(next(left)) for _ in range(parts)))

    return [one(row) for row in left]


def as_python(name: str) -> str:
    """The name as a name of Python's: a keyword has a _ behind it."""
    return f"{name}_" if keyword.iskeyword(name) or name == "mro" else name


def _refused(result: Result) -> Exception:
    return BY_RESULT[result](TEXTS[result])


class Type:
    """A type of Courier's. `python` is what its values are in Python, `text` how it is written."""

    python: Any
    text: str

    def write(self, out: Writer, value: Any, name: str) -> None:
        """Writes the value. A TypeError or a ValueError with the name, where it is none of the type."""
        raise NotImplementedError

    def read(self, words: Reader) -> Any:
        """The value at the front of the words. An `ArgumentsError` where there is none."""
        raise NotImplementedError

    def parse(self, text: "Constant") -> Any:
        """The value that is written in Courier's notation of constants. A ValueError where it is none of the type."""
        raise NotImplementedError


class _Plain(Type):
    def __init__(self, text: str, call: str, bits: int, is_signed: bool = False) -> None:
        self.python, self.text, self._call = int, text, call
        self._low, self._high = (-(1 << bits - 1), (1 << bits - 1) - 1) if is_signed else (0, (1 << bits) - 1)

    def write(self, out: Writer, value: Any, name: str) -> None:
        getattr(out, self._call)(within(self._low, value, self._high, name))

    def read(self, words: Reader) -> int:
        return getattr(words, self._call)()

    def parse(self, text: "Constant") -> int:
        return int(text.take("-?[0-9]+", self.text))


class _Boolean(Type):
    python, text = bool, "BOOLEAN"

    def write(self, out: Writer, value: Any, name: str) -> None:
        if not isinstance(value, bool):
            raise TypeError(f"{name} is no bool: it is of type {type(value).__name__}")
        out.boolean(value)

    def read(self, words: Reader) -> bool:
        return words.boolean()

    def parse(self, text: "Constant") -> bool:
        return text.take("TRUE|FALSE", self.text) == "TRUE"


class _String(Type):
    python, text = bytes, "STRING"

    def write(self, out: Writer, value: Any, name: str) -> None:
        given = octets(value, name)
        if len(given) > _MOST_TEXT:
            raise ValueError(f"{name} has {len(given)} bytes, and at most {_MOST_TEXT} go")
        out.text(given)

    def read(self, words: Reader) -> bytes:
        return words.text()

    def parse(self, text: "Constant") -> bytes:
        quoted = text.take(r'"(?:[^"\\]|\\["\\]|\\x[0-9a-f]{2})*"', self.text)[1:-1].encode("utf-8")
        return re.sub(rb'\\(?:x([0-9a-f]{2})|(.))', lambda found: bytes.fromhex(found[1].decode()) if found[1] else found[2], quoted)


class Enumeration(Type):
    """An enumeration, whose values are members of an `IntEnum`."""

    def __init__(self, node: Node, name: str, module: str) -> None:
        self._words = {member.name: member.number for member in node.parts}
        self.text = "{" + ", ".join(f"{member.name}({member.number})" for member in node.parts) + "}"
        self.python = enum.IntEnum(name, [(as_python(member.name), member.number) for member in node.parts], module=module)

    def write(self, out: Writer, value: Any, name: str) -> None:
        out.cardinal(self._member(unsigned(value, 16, name), name))

    def _member(self, word: int, name: str) -> int:
        if word not in self._words.values():
            raise ValueError(f"{name} is {word}, which is no member of {self.text}")
        return word

    def read(self, words: Reader) -> enum.IntEnum:
        word = words.cardinal()
        if word not in self._words.values():
            raise _refused(Result.NOT_LISTED)
        return self.python(word)

    def parse(self, text: "Constant") -> enum.IntEnum:
        return self.python(text.one_of(self._words, self.text))


class _Elements(Type):
    """An array or a sequence, whose values are lists."""

    def __init__(self, element: Type, count: int, is_array: bool) -> None:
        self._element, self._count, self._is_array = element, count, is_array
        self.python = List[element.python]
        self.text = f"ARRAY {count} OF {element.text}" if is_array else f"SEQUENCE {count} OF {element.text}"

    def write(self, out: Writer, value: Any, name: str) -> None:
        if isinstance(value, (str, bytes, bytearray)) or not isinstance(value, collections.abc.Iterable):
            raise TypeError(f"{name} is no list: it is of type {type(value).__name__}")
        elements = list(value)
        if len(elements) != self._count if self._is_array else len(elements) > self._count:
            raise ValueError(f"{name} has {len(elements)} elements, and {'' if self._is_array else 'at most '}{self._count} go")
        if not self._is_array:
            out.count(len(elements))
        for i, element in enumerate(elements):
            self._element.write(out, element, f"{name}[{i}]")

    def read(self, words: Reader) -> list:
        count = self._count if self._is_array else words.count(self._count)
        return [self._element.read(words) for _ in range(count)]

    def parse(self, text: "Constant") -> list:
        return text.listed(lambda i: self._element.parse(text))


class Record(Type):
    """A record, whose values are named tuples."""

    def __init__(self, components: List[Tuple[str, Type]], name: str, module: str) -> None:
        self.components = components
        self.text = f"RECORD {self.fields_text}"
        fields = [as_python(component) for component, _ in components]
        self.python = collections.namedtuple(name, fields, module=module)
        self.python.__annotations__ = {field: one.python for field, (_, one) in zip(fields, components)}
        self.python.__doc__ = f"{name}: {self.text}"

    @property
    def fields_text(self) -> str:
        return "[" + ", ".join(f"{name}: {one.text}" for name, one in self.components) + "]"

    def write(self, out: Writer, value: Any, name: str) -> None:
        if not isinstance(value, (tuple, list)):
            raise TypeError(f"{name} is no tuple: it is of type {type(value).__name__}")
        if len(value) != len(self.components):
            raise ValueError(f"{name} has {len(value)} components, and {len(self.components)} go")
        for (component, one), part in zip(self.components, value):
            one.write(out, part, f"{name}.{component}" if name else component)

    def read(self, words: Reader) -> tuple:
        return self.python(*[one.read(words) for _, one in self.components])

    def parse(self, text: "Constant") -> tuple:
        def component(i: int) -> Any:
            if i >= len(self.components):
                raise ValueError(f"the record {self.fields_text} has {len(self.components)} components")
            name, one = self.components[i]
            text.one_of({name: 0}, self.text)
            text.take(":", self.text)
            return one.parse(text)

        values = text.listed(component)
        if len(values) != len(self.components):
            raise ValueError(f"the record {self.fields_text} has {len(self.components)} components")
        return self.python(*values)


class Choice(Type):
    """A choice, whose values are pairs: the name of the candidate, and its value."""

    python = Tuple[str, Any]

    def __init__(self, candidates: Dict[str, Tuple[int, Type]]) -> None:
        self._candidates = candidates
        self._by_word = {word: (name, one) for name, (word, one) in candidates.items()}
        self.text = "CHOICE OF {" + ", ".join(f"{name}({word}) => {one.text}" for name, (word, one) in candidates.items()) + "}"

    def write(self, out: Writer, value: Any, name: str) -> None:
        if not isinstance(value, tuple) or len(value) != 2 or not isinstance(value[0], str):
            raise TypeError(f"{name} is no pair of a candidate's name and a value")
        if value[0] not in self._candidates:
            raise ValueError(f"{name} is of {value[0]!r}, which is no candidate of {self.text}")
        word, one = self._candidates[value[0]]
        out.cardinal(word)
        one.write(out, value[1], f"{name}.{value[0]}")

    def read(self, words: Reader) -> Tuple[str, Any]:
        word = words.cardinal()
        if word not in self._by_word:
            raise _refused(Result.NOT_LISTED)
        name, one = self._by_word[word]
        return name, one.read(words)

    def parse(self, text: "Constant") -> Tuple[str, Any]:
        word = text.one_of({name: word for name, (word, _) in self._candidates.items()}, self.text)
        name, one = self._by_word[word]
        return name, one.parse(text)


class Constant:
    """A text in Courier's notation of constants, as the values of calls are printed."""

    def __init__(self, text: str) -> None:
        self._text, self._at = text, 0

    def take(self, pattern: str, kind: str) -> str:
        """What stands next, behind blanks."""
        found = re.compile(rf"\s*({pattern})").match(self._text, self._at)
        if not found:
            raise ValueError(f"{self._text[self._at:].strip() or 'the end'!r} is no {kind}")
        self._at = found.end()
        return found[1]

    def one_of(self, names: Dict[str, int], kind: str) -> int:
        """What the name that stands next is given."""
        name = self.take("[A-Za-z][A-Za-z0-9]*", kind)
        if name not in names:
            raise ValueError(f"{name!r} is no name of {kind}")
        return names[name]

    def listed(self, one: Callable[[int], Any]) -> list:
        """What stands in brackets with commas between."""
        self.take(r"\[", "list")
        values: list = []
        if re.compile(r"\s*\]").match(self._text, self._at):
            self.take(r"\]", "list")
            return values
        while True:
            values.append(one(len(values)))
            if self.take(r"[,\]]", "list") == "]":
                return values

    def end(self) -> None:
        if self._text[self._at :].strip():
            raise ValueError(f"{self._text[self._at:].strip()!r} is left")


_PLAIN: Dict[NodeKind, Type] = {
    NodeKind.BOOLEAN: _Boolean(),
    NodeKind.CARDINAL: _Plain("CARDINAL", "cardinal", 16),
    NodeKind.LONG_CARDINAL: _Plain("LONG CARDINAL", "long_cardinal", 32),
    NodeKind.INTEGER: _Plain("INTEGER", "integer", 16, True),
    NodeKind.LONG_INTEGER: _Plain("LONG INTEGER", "long_integer", 32, True),
    NodeKind.UNSPECIFIED: _Plain("UNSPECIFIED", "cardinal", 16),
    NodeKind.TEXT: _String(),
}


class Types:
    """The types of a program: types that differ in nothing have one class, by the name of the one that was declared first."""

    def __init__(self, module: str) -> None:
        self._module = module
        self._known: Dict[tuple, Type] = {}

    def of(self, node: Node, name: Optional[str] = None) -> Type:
        """The type of a node. Where it is the first of its kind, its class has this name."""
        if node.kind in _PLAIN:
            return _PLAIN[node.kind]
        if node.form not in self._known:
            self._known[node.form] = self._made(node, as_python(name or node.name or "Record"))
        return self._known[node.form]

    def declared(self, node: Node) -> Type:
        """The type that is declared by the name of its node, by which others write it."""
        is_new = node.kind not in _PLAIN and node.form not in self._known
        found = self.of(node)
        if is_new:
            found.text = node.name
        return found

    def record(self, node: Node, name: str) -> Record:
        """The type of arguments or results, which has a class of its own."""
        return Record([(part.name, self.of(part, _capital(part.name))) for part in node.parts], as_python(name), self._module)

    def _made(self, node: Node, name: str) -> Type:
        if node.kind == NodeKind.ENUMERATION:
            return Enumeration(node, name, self._module)
        if node.kind in (NodeKind.ARRAY, NodeKind.SEQUENCE):
            return _Elements(self.of(node.parts[0], name), node.number, node.kind == NodeKind.ARRAY)
        if node.kind == NodeKind.RECORD:
            return self.record(node, name)
        return Choice({part.name: (part.number, self.of(part.parts[0], _capital(part.name))) for part in node.parts})


def _capital(name: str) -> str:
    return name[:1].upper() + name[1:]
