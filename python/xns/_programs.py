"""Programs in Courier's notation: typed clients whose procedures are methods, and typed servers."""
import inspect
import os
from ctypes import byref, c_size_t, c_uint8, c_uint16, c_uint32, string_at
from typing import Any, Callable, Dict, Iterable, Iterator, List, Mapping, Optional, Tuple, Union

from ._errors import BY_RESULT, XnsError, done
from ._library import RawFault, RawNode, octets, unsigned, words_of
from ._objects import Object
from ._told import Answer, Call, Kind, NotationReason, Reject, Reply, Result, aborts, rejects, returns
from ._types import Node, NodeKind, Record, Types, as_python, trees
from ._values import Reader, Writer

File = Union[str, "os.PathLike[str]"]


class AbortedError(XnsError):
    """A call was aborted. `code` is the number of the error, `words` its arguments: an error that the program does not declare has no other ones."""

    def __init__(self, code: int, words: Iterable[int], text: Optional[str] = None) -> None:
        super().__init__(f"error {code}" if text is None else text)
        self._code, self._words = code, list(words)

    def __reduce__(self) -> tuple:  # another process has not read the program, and so not the class of a declared error
        return AbortedError, (self._code, self._words, str(self))

    @property
    def code(self) -> int:
        """The number of the error."""
        return self._code

    @property
    def words(self) -> List[int]:
        """The words of its arguments."""
        return self._words


class DeclaredError(AbortedError):
    """An error that a program declares: each is a class of its own, which has the error's arguments as its fields, and all of them as `fields`. A field goes
    before what an exception has by that name. Raised by a method of a server it aborts the call."""

    _record: Record
    _number: int

    def __init__(self, /, *arguments: Any, **named: Any) -> None:
        self._values = _bound(self._record, arguments, named, type(self).__name__)
        writer = Writer()
        self._record.write(writer, self._values, "")
        told = ", ".join(f"{name} {value!r}" for name, value in zip(self._values._fields, self._values))
        super().__init__(self._number, writer.words, f"{type(self).__name__}: {told}" if told else type(self).__name__)

    @property
    def fields(self) -> Any:
        """The error's arguments, as a named tuple."""
        return self._values


class RejectedError(XnsError):
    """A call was rejected. `reason` is a `Reject`, or the number of another one."""

    def __init__(self, reason: int, words: Iterable[int] = ()) -> None:
        self.reason: int = Reject(reason) if reason in list(Reject) else reason
        self.words = list(words)
        super().__init__(self.reason.name.lower().replace("_", " ") if isinstance(self.reason, Reject) else f"reason {reason}")

    def __reduce__(self) -> tuple:
        return RejectedError, (self.reason, self.words)


def _bound(record: Record, arguments: tuple, named: dict, name: str) -> tuple:
    """The values of the components, by their order or their names."""
    try:
        return record.python(*arguments, **named)
    except TypeError:
        raise TypeError(f"{name} takes {record.fields_text}") from None


def _read(record: Record, words: Iterable[int]) -> tuple:
    reader = Reader(words)
    values = record.read(reader)
    reader.end()
    return values


def _bare(values: tuple) -> Any:
    """None of no results, the result where there is one, and else all of them."""
    return values if len(values) > 1 else values[0] if values else None


class Procedure:
    """A procedure of a program: its name, its number, and the records of its arguments and its results."""

    def __init__(self, node: Node, types: Types) -> None:
        arguments, results = node.parts
        self.name, self.number = node.name, node.number
        self.arguments = types.record(arguments, f"{node.name}Arguments")
        self.results = types.record(results, f"{node.name}Results")

    @property
    def text(self) -> str:
        """How it is declared."""
        return f"{self.name}: PROCEDURE {self.arguments.fields_text} RETURNS {self.results.fields_text} = {self.number}"

    @property
    def signature(self) -> inspect.Signature:
        """The signature of the method, for `help`."""
        kind = inspect.Parameter.POSITIONAL_OR_KEYWORD
        given = [inspect.Parameter(as_python(name), kind, annotation=one.python) for name, one in self.arguments.components]
        results = [one.python for _, one in self.results.components]
        own = "self_" if any(one.name == "self" for one in given) else "self"
        back = None if not results else results[0] if len(results) == 1 else self.results.python
        return inspect.Signature([inspect.Parameter(own, kind), *given], return_annotation=back)

    def words(self, arguments: tuple, named: dict) -> List[int]:
        """The words of arguments."""
        writer = Writer()
        self.arguments.write(writer, _bound(self.arguments, arguments, named, self.name), "")
        return writer.words

    def result_words(self, result: Any) -> List[int]:
        """The words of results, as a server's method gives them."""
        count = len(self.results.components)
        if count == 0 and result is not None:
            raise TypeError(f"{self.name} returns nothing")
        values = () if count == 0 else (result,) if count == 1 else result
        writer = Writer()
        self.results.write(writer, values, "")
        return writer.words


class Program:
    """A program that was read. Its errors, its types but for recursive ones, and its constants that are numbers are its attributes, as `program.Limit`. What has
    the name of a method, as `client`, is in `declared`. `client` gives a typed client, `server` a typed server."""

    def __init__(self, name: str, number: int, version: int, table: List[Node]) -> None:
        self.name, self.number, self.version = name, number, version
        types = Types(name)
        self.declared: Dict[str, Any] = {}
        self.procedures: Dict[str, Procedure] = {}
        self._errors: Dict[int, type] = {}
        for node in table:
            if node.kind == NodeKind.PROCEDURE:
                self.procedures[node.name] = Procedure(node, types)
            elif node.kind == NodeKind.ERROR:
                self.declared[node.name] = self._errors[node.number] = self._error(node, types)
            elif node.kind == NodeKind.CONSTANT:
                self.declared[node.name] = node.number
            else:
                self.declared[node.name] = types.declared(node).python
        self._by_number = {procedure.number: procedure for procedure in self.procedures.values()}

    def _error(self, node: Node, types: Types) -> type:
        record = types.record(node.parts[0], node.name)
        fields = {field: property(lambda error, field=field: getattr(error._values, field)) for field in record.python._fields}
        doc = f"{node.name}: ERROR {record.fields_text} = {node.number}"
        return type(as_python(node.name), (DeclaredError,), {**fields, "_number": node.number, "_record": record, "__doc__": doc, "__module__": self.name})

    def __getattr__(self, name: str) -> Any:
        declared = self.__dict__.get("declared", {})
        if name in declared:
            return declared[name]
        raise AttributeError(f"the program has no error, no number and no type that is not recursive by the name {name}")

    def __dir__(self) -> List[str]:
        return [*super().__dir__(), *self.declared]

    def __repr__(self) -> str:
        return f"<program {self.name}, {self.number} version {self.version}>"

    @property
    def served(self) -> Tuple[int, int, int]:
        """The program, for `serve`."""
        return self.number, self.version, self.version

    def client(self, client: Any) -> Any:
        """A typed client: each procedure is a method, and what the server answers is its result, None, a value or a named tuple of several. It calls by this
        `Client`; by an `AsyncClient` its methods are awaited. A declared error is raised as its class, another one as `AbortedError`, a reject as
        `RejectedError`; results that are no value are an `ArgumentsError`. A value that is none of its type is a TypeError or a ValueError with its name, and
        is not sent."""
        methods = {as_python(name): _method(self, procedure) for name, procedure in self.procedures.items()}
        return type(f"{self.name}Client", (_TypedClient,), {**methods, "__doc__": f"Calls {self.name}, program {self.number} version {self.version}."})(client)

    def server(self, served: Any) -> "TypedServer":
        """A typed server, one of the `programs` of `serve` and `serve_async`, or their `answer`: the methods of this object, named as the procedures, are given
        arguments, and give results as a client has them. A declared error that one raises aborts the call. Words that are no value are rejected with
        `Reject.INVALID_ARGUMENTS`, a procedure that is not declared, or has no method, with `Reject.NO_SUCH_PROCEDURE`. A method may be a coroutine for
        `serve_async`."""
        return TypedServer(self, served)

    def outcome(self, procedure: Procedure, answer: Answer) -> Any:
        """What a client makes of an answer: the results, or it raises."""
        if answer.kind == Kind.RETURN:
            return _bare(_read(procedure.results, answer.words))
        if answer.kind == Kind.REJECT:
            raise RejectedError(answer.code, answer.words)
        declared = self._errors.get(answer.code)
        if declared is not None:
            raise declared(*_read(declared._record, answer.words))
        raise AbortedError(answer.code, answer.words)

    def procedure(self, number: int) -> Optional[Procedure]:
        """The procedure of this number; None where none is declared."""
        return self._by_number.get(number)


class _TypedClient:
    def __init__(self, client: Any) -> None:
        self._client = client


def _method(program: Program, procedure: Procedure) -> Callable:
    def call(self, /, *arguments: Any, **named: Any) -> Any:
        answer = self._client.call(program.number, program.version, procedure.number, procedure.words(arguments, named))
        return _later(program, procedure, answer) if inspect.isawaitable(answer) else program.outcome(procedure, answer)

    call.__name__ = call.__qualname__ = as_python(procedure.name)
    call.__doc__, call.__module__ = procedure.text, program.name
    call.__signature__ = procedure.signature  # type: ignore[attr-defined]
    return call


async def _later(program: Program, procedure: Procedure, answer: Any) -> Any:
    return program.outcome(procedure, await answer)


class TypedServer:
    """What answers the calls of a program by the methods of an object. `programs` is what it serves."""

    def __init__(self, program: Program, served: Any) -> None:
        self._program, self._served, self.programs = program, served, [program.served]

    def __call__(self, call: Call) -> Any:
        procedure = self._program.procedure(call.procedure)
        method = None if procedure is None else getattr(self._served, as_python(procedure.name), None)
        if procedure is None or method is None or (call.program, call.version) != (self._program.number, self._program.version):
            return rejects(Reject.NO_SUCH_PROCEDURE)
        arguments = _read(procedure.arguments, call.words)
        try:
            result = method(*arguments)
        except DeclaredError as error:
            return self._aborted(error)
        if inspect.isawaitable(result):
            return self._later(procedure, result)
        return returns(procedure.result_words(result))

    async def _later(self, procedure: Procedure, result: Any) -> Reply:
        try:
            return returns(procedure.result_words(await result))
        except DeclaredError as error:
            return self._aborted(error)

    def _aborted(self, error: DeclaredError) -> Reply:
        """An abort, if the program declares the error."""
        if type(error) is not self._program._errors.get(error._number):
            raise error
        return aborts(error._number, error._words)


def together(programs: Iterable[Any], answer: Optional[Callable[[Call], Any]]) -> Tuple[List[Tuple[int, int, int]], Callable[[Call], Any]]:
    """What a server serves, and what answers it: a typed server answers the calls of its program, and `answer` those of all others."""
    try:
        given = list(programs)
    except TypeError:
        raise TypeError(f"programs is no list: it is of type {type(programs).__name__}") from None
    typed = [one for one in given if isinstance(one, TypedServer)]
    others = [one for one in given if not isinstance(one, TypedServer)]
    if (others or not typed) and not callable(answer):
        raise TypeError(f"answer is no function: it is of type {type(answer).__name__}")
    by_program: Dict[Tuple[int, int], TypedServer] = {}
    versions: Dict[int, List[int]] = {}
    for one in typed:
        number, version, _ = one.programs[0]
        if (number, version) in by_program:
            raise ValueError(f"two servers of program {number} version {version}")
        by_program[number, version] = one
        versions.setdefault(number, []).append(version)
    for number, there in versions.items():
        if max(there) - min(there) >= len(there):
            raise ValueError(f"the versions of program {number} that are served do not follow each other: {sorted(there)}")
        if number in [other[0] for other in others]:
            raise ValueError(f"program {number} is served by a typed server, and by another one")

    def answered(call: Call) -> Any:
        return by_program.get((call.program, call.version), answer)(call)  # type: ignore[misc]

    return [*others, *((number, min(there), max(there)) for number, there in versions.items())], answered


class Programs(Object, Mapping):
    """Programs that were read, by their names: of one name the first. Iterating gives the names."""

    _family = "programs"

    def __init__(self) -> None:
        self._programs: List[Program] = []
        self._freed = 0  # how many of them the library has no longer
        super().__init__()

    def free(self) -> None:
        """Gives the memory back. The programs that were read stay; those that are read later know nothing of them, and `call_text` and the like neither."""
        super().free()
        self._freed = len(self._programs)

    def read(self, text: bytes, file: str = "text") -> Program:
        """Reads a text in Courier's notation, one program, which may depend upon those that were read before. `WrongTextError` with `line`, `column` and
        `reason`, a `NotationReason`, of its first fault; `file` stands in what it says."""
        given, fault = octets(text, "text"), RawFault()
        try:
            self._done("read", given, len(given), byref(fault))
        except BY_RESULT[Result.WRONG_TEXT]:
            raise _wrong(file, fault) from None
        self._programs.append(self._table(len(self._programs) - self._freed))
        return self._programs[-1]

    def _table(self, index: int) -> Program:
        number, version, count, length = c_uint32(), c_uint16(), c_size_t(), c_size_t()
        for_table = byref(number), byref(version)
        self._call("table", index, *for_table, (RawNode * 1)(), 0, byref(count), (c_uint8 * 1)(), 0, byref(length))
        nodes, names = (RawNode * max(count.value, 1))(), (c_uint8 * max(length.value, 1))()
        self._done("table", index, *for_table, nodes, len(nodes), byref(count), names, len(names), byref(length))
        text = string_at(names, length.value)
        rows = [(node.kind, node.number, node.parts, text[node.name : text.index(0, node.name)].decode("ascii")) for node in nodes[: count.value]]
        name = self._written("name", 255, number, version)
        return Program((name or b"").decode("ascii"), number.value, version.value, trees(rows))

    @property
    def all(self) -> List[Program]:
        """Each program that was read, in their order."""
        return list(self._programs)

    def __getitem__(self, name: str) -> Program:
        for program in self._programs:
            if program.name == name:
                return program
        raise KeyError(name)

    def __iter__(self) -> Iterator[str]:
        return iter(dict.fromkeys(program.name for program in self._programs))

    def __len__(self) -> int:
        return len(set(program.name for program in self._programs))

    def call_text(self, program: int, version: int, procedure: int, words: Iterable[int]) -> Optional[str]:
        """A call by name and value, as `xns calls` prints it; None where the program or the procedure is not declared. An `ArgumentsError` with `place`, the
        word from 0, where the words are not exactly one value; a `TooLongError` over 1,048,576 bytes."""
        return self._text("call_text", program, version, procedure, words)

    def return_text(self, program: int, version: int, procedure: int, words: Iterable[int]) -> Optional[str]:
        """A return of a call by name and value, as `call_text` has a call."""
        return self._text("return_text", program, version, procedure, words)

    def abort_text(self, program: int, version: int, error: int, words: Iterable[int]) -> Optional[str]:
        """An abort of a call by name and value, as `call_text` has a call, by the number of its error."""
        return self._text("abort_text", program, version, error, words)

    def _text(self, name: str, program: int, version: int, number: int, words: Iterable[int]) -> Optional[str]:
        given, count = words_of(words)
        numbers = unsigned(program, 32, "program"), unsigned(version, 16, "version"), unsigned(number, 16, "number")
        buffer, room, written, place = (c_uint8 * 1024)(), 1024, c_size_t(), c_size_t()
        while True:
            result = self._call(name, *numbers, given, count, buffer, room, byref(written), byref(place))
            if result != Result.SHORT_BUFFER:
                break
            room = written.value
            buffer = (c_uint8 * room)()
        try:
            return string_at(buffer, written.value).decode("ascii") if done(result) else None
        except XnsError as error:
            error.place = place.value  # type: ignore[attr-defined]
            raise


def _wrong(file: str, fault: RawFault) -> Exception:
    reason = NotationReason(fault.reason)
    error = BY_RESULT[Result.WRONG_TEXT](f"{file}:{fault.line}:{fault.column} {reason}")
    error.line, error.column, error.reason = fault.line, fault.column, reason
    return error


def read_programs(*files: File) -> Programs:
    """The programs of these files, which are in Courier's notation, one each. A file that depends upon another one comes behind it. Errors as of
    `Programs.read`."""
    programs = Programs()
    for file in files:
        name = os.fspath(file)  # `open` takes a number for a file that is open, which is then closed
        with open(name, "rb") as opened:
            programs.read(opened.read(), name)
    return programs
