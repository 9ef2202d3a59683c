"""Calls of the command `xns-net` by name and value."""
import argparse
from typing import List, Optional, Sequence, Tuple

from ._errors import ArgumentsError, XnsError
from ._programs import Procedure, Program, read_programs
from ._told import Answer, Kind
from ._types import Constant


def plain(answer: Answer) -> str:
    """An answer by its number and words."""
    number = [] if answer.kind == Kind.RETURN else [str(answer.code)]
    return " ".join([answer.kind.name.lower(), *number, *([f"{word:04x}" for word in answer.words] or ["-"])])


class Named:
    """The programs of these files. A ValueError for a file that is not there or has a fault, and for a name or a value that is none."""

    def __init__(self, files: Sequence[str]) -> None:
        try:
            self._programs = read_programs(*files)
        except OSError as error:
            raise ValueError(f"{error.filename}: {error.strerror}") from None
        except XnsError as error:
            raise ValueError(str(error)) from None

    def called(self, given: argparse.Namespace) -> Tuple[int, int, List[int]]:
        """The program, the procedure and the words of a call."""
        program = self._program(given.program, given.version)
        procedure = self._procedure(program, given.procedure)
        components = procedure.arguments.components
        if len(components) != len(given.arguments):
            raise ValueError(f"{procedure.name} takes {procedure.arguments.fields_text}")
        values = []
        for (name, one), text in zip(components, given.arguments):
            constant = Constant(text)
            try:
                values.append(one.parse(constant))
                constant.end()
            except ValueError as error:
                raise ValueError(f"{name}: {error}") from None
        return program.number, procedure.number, procedure.words(tuple(values), {})

    def _program(self, name: str, version: int) -> Program:
        for program in self._programs.all:
            if program.version == version and name in (program.name, str(program.number)):
                return program
        raise ValueError(f"no program {name} of version {version} is declared")

    @staticmethod
    def _procedure(program: Program, name: str) -> Procedure:
        for procedure in program.procedures.values():
            if name in (procedure.name, str(procedure.number)):
                return procedure
        raise ValueError(f"{program.name} declares no procedure {name}")

    def told(self, line: str, program: int, version: int, procedure: int, answer: Answer) -> str:
        """An answer by name and value; where there is none, the line, with the place and the reason why."""
        text: Optional[str] = None
        try:
            if answer.kind == Kind.RETURN:
                text = self._programs.return_text(program, version, procedure, answer.words)
            elif answer.kind == Kind.ABORT:
                text = self._programs.abort_text(program, version, answer.code, answer.words)
        except ArgumentsError as error:
            return f"{line} unread {error.place} {_reason(error)}"
        return line if text is None else f"{answer.kind.name.lower()} {text}"


def _reason(error: ArgumentsError) -> str:
    name = type(error).__name__[: -len("Error")]
    return "Trailing" if name == "LeftOver" else name
