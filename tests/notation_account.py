"""A second account of Courier's notation of remote programs (XSIS 038112), written from docs/NOTATION.md alone.

    notation_account.py FILE..  < lines      answers lines as `call 7 2 1 0005` by name, over the programs that the files declare
    notation_account.py --list FILE..        prints the programs, each with its procedures and errors, as `xns programs` does

A line is `call`, `return` or `abort`, the numbers of the program, the version and the procedure or error, and the words, or `-` for
none. Its answer is the text by name; the line itself where nothing of these numbers is declared; and the line with ` unread PLACE REASON`
behind it where the words are not exactly one value. A file that is refused is answered with FILE:LINE:COLUMN REASON alone, and status 2.

Other files import `read_programs`, which raises Refusal, and `call_text`, `return_text` and `abort_text`, which raise Unread.
"""

import sys

MOST_BYTES, MOST_TOKENS, MOST_PARTS, MOST_DECLARATIONS, MOST_DEPTH, MOST_NODES = 262144, 65536, 1024, 4096, 16, 65536
MOST_NAME, MOST_TEXT = 255, 1048576

KEYWORDS = set(
    "ARRAY BEGIN BOOLEAN CARDINAL CHOICE DEPENDS END ERROR FALSE INTEGER LONG OF PROCEDURE PROGRAM RECORD REPORTS"
    " RETURNS SEQUENCE STRING TRUE TYPE UNSPECIFIED UPON VERSION".split()
)
LETTERS = set(b"ABCDEFGHIJKLMNOPQRSTUVWXYZabcdefghijklmnopqrstuvwxyz")
DIGITS = set(b"0123456789")
MARKS = set(b":;,.-()[]{}")


class Refusal(Exception):
    """The first fault of a text: a reason, and where it stands; line and column count from 1."""

    def __init__(self, text, place, reason):
        before = text[:place]
        self.reason = reason
        self.line = before.count(b"\n") + 1
        self.column = place - (before.rfind(b"\n") + 1) + 1
        super().__init__(f"{self.line}:{self.column} {reason}")


class Unread(Exception):
    """Words that are not exactly one value: the place of the wrong word, and why."""

    def __init__(self, place, reason):
        self.place, self.reason = place, reason
        super().__init__(f"{place} {reason}")


# ---- tokens


def lex(text):
    """Tokens (kind, value, place); kinds are keywords, marks, and `name`, `number`, `string`."""
    if len(text) > MOST_BYTES:
        raise Refusal(text, MOST_BYTES, "TooLong")
    tokens, at, end = [], 0, len(text)
    for _ in range(MOST_TOKENS):
        start = at
        at = behind_blanks(text, at)
        if at == end:
            return tokens
        byte, place = text[at], at
        if byte in LETTERS:
            while at < end and (text[at] in LETTERS or text[at] in DIGITS):
                at += 1
            word = text[place:at].decode()
            if len(word) > MOST_NAME:
                raise Refusal(text, place, "LongName")
            tokens.append((word, None, place) if word in KEYWORDS else ("name", word, place))
        elif byte in DIGITS:
            while at < end and text[at] in DIGITS:
                at += 1
            number = int(text[place:at])
            if number >= 2**32:
                raise Refusal(text, place, "HugeNumber")
            tokens.append(("number", number, place))
        elif byte == ord('"'):
            close = text.find(b'"', at + 1)
            if close < 0:
                raise Refusal(text, place, "OpenString")
            tokens.append(("string", text[at + 1 : close], place))
            at = close + 1
        elif byte == ord("="):
            kind = "=>" if text[at + 1 : at + 2] == b">" else "="
            tokens.append((kind, None, place))
            at += len(kind)
        elif byte in MARKS:
            tokens.append((chr(byte), None, place))
            at += 1
        else:
            raise Refusal(text, place, "BadByte")
    raise Refusal(text, at, "TooManyTokens")


def behind_blanks(text, at):
    is_comment = False
    while at < len(text):
        if text[at : at + 2] == b"--":
            is_comment = not is_comment
            at += 2
        elif is_comment:
            is_comment = text[at] not in b"\r\n"
            at += 1
        elif text[at] in b" \t\r\n":
            at += 1
        else:
            break
    return at


# ---- syntax: trees are tuples; a name is (word, place)


class Parser:
    def __init__(self, text):
        self.text, self.tokens, self.at = text, lex(text), 0

    def peek(self):
        return self.tokens[self.at][0] if self.at < len(self.tokens) else None

    def place(self):
        return self.tokens[self.at][2] if self.at < len(self.tokens) else len(self.text)

    def refuse(self, reason):
        raise Refusal(self.text, self.place(), reason)

    def take(self, kind, reason):
        if self.peek() != kind:
            self.refuse(reason)
        self.at += 1
        return self.tokens[self.at - 1]

    def name(self):
        _, word, place = self.take("name", "NoName")
        return (word, place)

    def long(self):
        return self.take("number", "NoNumber")[1]

    def small(self):
        if self.peek() == "number" and self.tokens[self.at][1] > 65535:
            self.refuse("LargeNumber")
        return self.long()

    def reference_behind(self, first):
        if self.peek() == ".":
            self.at += 1
            return (first, self.name())
        return (None, first)

    def reference(self):
        return self.reference_behind(self.name())

    def numeric(self):
        if self.peek() == "name":
            return ("constant", self.reference())
        return ("number", self.small())

    def listed(self, one):
        parts = []
        while True:
            if len(parts) == MOST_PARTS:
                self.refuse("TooManyParts")
            parts.append(one())
            if self.peek() != ",":
                return parts
            self.at += 1

    def member(self):
        name = self.name()
        self.take("(", "NoOpenParenthesis")
        number = self.numeric()
        self.take(")", "NoCloseParenthesis")
        return (name, number)

    def designator(self):
        name, number = self.name(), None
        if self.peek() == "(":
            self.at += 1
            number = self.numeric()
            self.take(")", "NoCloseParenthesis")
        return (name, number)

    def field(self, depth):
        names = self.listed(self.name)
        self.take(":", "NoColon")
        return (names, self.type(depth))

    def fields(self, depth):
        self.take("[", "NoOpenBracket")
        if self.peek() == "]":
            self.at += 1
            return []
        fields = self.listed(lambda: self.field(depth))
        self.take("]", "NoCloseBracket")
        return fields

    def candidate(self, depth):
        designators = self.listed(self.designator)
        self.take("=>", "NoArrow")
        return (designators, self.type(depth))

    def type(self, depth=MOST_DEPTH):
        if depth == 0:
            self.refuse("TooDeep")
        kind = self.peek()
        if kind == "name":
            return ("named", self.reference())
        if kind in ("BOOLEAN", "CARDINAL", "INTEGER", "UNSPECIFIED", "STRING"):
            self.at += 1
            return (kind,)
        if kind == "LONG":
            self.at += 1
            if self.peek() not in ("CARDINAL", "INTEGER"):
                self.refuse("NoType")
            self.at += 1
            return ("LONG " + self.tokens[self.at - 1][0],)
        if kind == "{":
            self.at += 1
            members = self.listed(self.member)
            self.take("}", "NoCloseBrace")
            return ("{", members)
        if kind == "ARRAY":
            self.at += 1
            number = self.numeric()
            self.take("OF", "NoOf")
            return ("ARRAY", number, self.type(depth - 1))
        if kind == "SEQUENCE":
            self.at += 1
            most = None if self.peek() == "OF" else self.numeric()
            self.take("OF", "NoOf")
            return ("SEQUENCE", most, self.type(depth - 1))
        if kind == "RECORD":
            self.at += 1
            return ("RECORD", self.fields(depth - 1))
        if kind == "CHOICE":
            self.at += 1
            tag = self.reference() if self.peek() == "name" else None
            self.take("OF", "NoOf")
            self.take("{", "NoOpenBrace")
            candidates = self.listed(lambda: self.candidate(depth - 1))
            self.take("}", "NoCloseBrace")
            return ("CHOICE", tag, candidates)
        self.refuse("NoType")

    def constant(self, depth=MOST_DEPTH):
        if depth == 0:
            self.refuse("TooDeep")
        kind = self.peek()
        if kind == "number":
            return ("number", self.long())
        if kind in ("string", "TRUE", "FALSE"):
            self.at += 1
            return ("other",)
        if kind == "-":
            self.at += 1
            self.long()
            return ("other",)
        if kind == "name":
            reference = self.reference()
            if self.peek() in ("number", "string", "name", "TRUE", "FALSE", "-", "["):
                self.constant(depth - 1)
                return ("other",)
            return ("named", reference)
        if kind == "[":
            self.at += 1
            if self.peek() != "]":
                self.listed(lambda: self.element(depth - 1))
            self.take("]", "NoCloseBracket")
            return ("other",)
        self.refuse("NoConstant")

    def element(self, depth):
        self.constant(depth)
        if self.peek() == ":":
            self.at += 1
            self.constant(depth)

    def arguments(self):
        return self.fields(MOST_DEPTH) if self.peek() == "[" else []

    def declaration(self):
        name = self.name()
        self.take(":", "NoColon")
        kind = self.peek()
        if kind == "TYPE":
            self.at += 1
            self.take("=", "NoEqual")
            declared = ("type", self.type())
        elif kind == "PROCEDURE":
            self.at += 1
            arguments, results, errors = self.arguments(), [], []
            if self.peek() == "RETURNS":
                self.at += 1
                results = self.fields(MOST_DEPTH)
            if self.peek() == "REPORTS":
                self.at += 1
                self.take("[", "NoOpenBracket")
                errors = self.listed(self.reference)
                self.take("]", "NoCloseBracket")
            self.take("=", "NoEqual")
            declared = ("procedure", arguments, results, errors, self.small())
        elif kind == "ERROR":
            self.at += 1
            arguments = self.arguments()
            self.take("=", "NoEqual")
            declared = ("error", arguments, self.small())
        else:
            type = self.type()
            self.take("=", "NoEqual")
            declared = ("constant", type, self.constant())
        self.take(";", "NoSemicolon")
        return (name, declared)

    def dependency(self):
        name = self.name()
        self.take("(", "NoOpenParenthesis")
        number = self.long()
        self.take(")", "NoCloseParenthesis")
        self.take("VERSION", "NoVersion")
        return (name, number, self.small())

    def program(self):
        name = self.name()
        self.take(":", "NoColon")
        self.take("PROGRAM", "NoProgram")
        number = self.long()
        self.take("VERSION", "NoVersion")
        version = self.small()
        self.take("=", "NoEqual")
        self.take("BEGIN", "NoBegin")
        dependencies = []
        if self.peek() == "DEPENDS":
            self.at += 1
            self.take("UPON", "NoUpon")
            dependencies = self.listed(self.dependency)
            self.take(";", "NoSemicolon")
        declarations = []
        while self.peek() != "END":
            if len(declarations) == MOST_DECLARATIONS:
                self.refuse("TooManyDeclarations")
            declarations.append(self.declaration())
        self.at += 1
        self.take(".", "NoDot")
        if self.at < len(self.tokens):
            self.refuse("Trailing")
        return (name, number, version, dependencies, declarations)


# ---- types that are complete in themselves:
#      (KIND,), ("{", [(name, word)]), ("ARRAY", n, t), ("SEQUENCE", n, t), ("RECORD", [(name, t)]), ("CHOICE", [(name, word, t)])


class Recursive(Exception):
    def __init__(self, place):
        self.place = place


class Program:
    def __init__(self, name, number, version):
        self.name, self.number, self.version = name, number, version
        self.types, self.constants, self.procedures, self.errors = {}, {}, {}, {}
        self.procedure_names, self.error_names = {}, {}


class Resolver:
    def __init__(self, text, before):
        self.text = text
        name, number, version, dependencies, declarations = Parser(text).program()
        self.program, self.others, self.left = Program(name[0], number, version), {}, MOST_NODES
        if any((p.number, p.version) == (number, version) for p in before):
            self.refuse(name, "DoubledProgram")
        for (alias, place), number, version in dependencies:
            if alias in self.others:
                self.refuse((alias, place), "DoubledName")
            found = [p for p in before if (p.number, p.version) == (number, version)]
            if not found:
                self.refuse((alias, place), "NotRead")
            self.others[alias] = found[0]
        self.declared = {}
        for name, declared in declarations:
            self.declaration(name, declared)
        for name, declared in declarations:
            if declared[0] == "procedure":
                for reference in declared[3]:
                    self.reported(reference)

    def refuse(self, name, reason):
        raise Refusal(self.text, name[1], reason)

    def declaration(self, name, declared):
        if name[0] in self.declared:
            self.refuse(name, "DoubledName")
        self.own = name
        kind = declared[0]
        if kind == "type":
            self.declared[name[0]] = "type"
            room = self.left
            try:
                self.program.types[name[0]] = self.whole(declared[1])
            except Recursive:
                self.program.types[name[0]], self.left = None, room
            return
        try:
            if kind == "constant":
                self.whole(declared[1])
                value = declared[2]
                if value[0] == "named":
                    value = self.constant(value[1])
                self.program.constants[name[0]] = value
            elif kind == "procedure":
                arguments, results = self.whole(("RECORD", declared[1])), self.whole(("RECORD", declared[2]))
                if declared[4] in self.program.procedure_names:
                    self.refuse(name, "DoubledNumber")
                self.program.procedures[declared[4]] = (arguments, results)
                self.program.procedure_names[declared[4]] = name[0]
            else:
                arguments = self.whole(("RECORD", declared[1]))
                if declared[2] in self.program.error_names:
                    self.refuse(name, "DoubledNumber")
                self.program.errors[declared[2]] = arguments
                self.program.error_names[declared[2]] = name[0]
        except Recursive as stop:
            raise Refusal(self.text, stop.place, "Recursive")
        self.declared[name[0]] = kind

    def whole(self, type):
        """A type that stands by itself; faults of its shape are told at the name that is declared."""
        complete = self.complete(type)
        if depth(complete) > MOST_DEPTH:
            self.refuse(self.own, "TooDeep")
        if has_wordless_element(complete):
            self.refuse(self.own, "NoWords")
        return complete

    def spend(self, count=1):
        self.left -= count
        if self.left < 0:
            self.refuse(self.own, "TooLarge")

    def program_of(self, reference):
        program, name = reference
        if program is None:
            return self.program
        if program[0] not in self.others:
            self.refuse(program, "UnknownProgram")
        return self.others[program[0]]

    def constant(self, reference):
        where, name = self.program_of(reference), reference[1]
        if name[0] not in where.constants:
            self.refuse(name, "UnknownName")
        return where.constants[name[0]]

    def numeric(self, numeric):
        if numeric[0] == "number":
            return numeric[1]
        value = self.constant(numeric[1])
        if value[0] != "number" or value[1] > 65535:
            self.refuse(numeric[1][1], "NotNumber")
        return value[1]

    def reported(self, reference):
        where, name = self.program_of(reference), reference[1]
        if name[0] not in where.error_names.values():
            self.refuse(name, "UnknownName")

    def named(self, reference):
        where, name = self.program_of(reference), reference[1]
        if name[0] not in where.types:
            if where is self.program and name[0] == self.own[0] and self.declared.get(name[0]) == "type":
                raise Recursive(name[1])
            self.refuse(name, "UnknownName")
        if where.types[name[0]] is None:
            raise Recursive(name[1])
        return where.types[name[0]]

    def once(self, name, names):
        if name[0] in names:
            self.refuse(name, "DoubledName")
        names.add(name[0])

    def complete(self, type):
        self.spend()
        kind = type[0]
        if kind == "named":
            found = self.named(type[1])
            self.spend(nodes(found) - 1)
            return found
        if kind == "{":
            names, words, members = set(), set(), []
            for name, number in type[1]:
                self.spend()
                self.once(name, names)
                word = self.numeric(number)
                if word in words:
                    self.refuse(name, "DoubledWord")
                words.add(word)
                members.append((name[0], word))
            return ("{", members)
        if kind == "ARRAY":
            number = self.numeric(type[1])
            return ("ARRAY", number, self.complete(type[2]))
        if kind == "SEQUENCE":
            most = 65535 if type[1] is None else self.numeric(type[1])
            return ("SEQUENCE", most, self.complete(type[2]))
        if kind == "RECORD":
            names, components = set(), []
            for group, part in type[1]:
                for name in group:
                    self.once(name, names)
                for name in group:
                    self.spend()
                    components.append((name[0], self.complete(part)))
            return ("RECORD", components)
        if kind == "CHOICE":
            members = None
            if type[1] is not None:
                tag = self.named(type[1])
                if tag[0] != "{":
                    self.refuse(type[1][1], "NotEnumeration")
                members = dict(tag[1])
            names, words, candidates = set(), set(), []
            for group, part in type[2]:
                chosen = []
                for name, number in group:
                    self.once(name, names)
                    word = None if number is None else self.numeric(number)
                    if members is not None:
                        if name[0] not in members:
                            self.refuse(name, "UnknownName")
                        if word is not None and word != members[name[0]]:
                            self.refuse(name, "OtherNumber")
                        word = members[name[0]]
                    if word is None:
                        self.refuse(name, "NoDesignator")
                    if word in words:
                        self.refuse(name, "DoubledWord")
                    words.add(word)
                    chosen.append((name[0], word))
                for name, word in chosen:
                    self.spend()
                    candidates.append((name, word, self.complete(part)))
            return ("CHOICE", candidates)
        return (kind,)


def parts(type):
    """The types that stand in a type, in order."""
    kind = type[0]
    if kind in ("ARRAY", "SEQUENCE"):
        return [type[2]]
    return [part[-1] for part in type[1]] if kind in ("RECORD", "CHOICE") else []


def depth(type):
    return 1 + max((depth(part) for part in parts(type)), default=0)


def nodes(type):
    own = 1 + (len(type[1]) if type[0] in ("{", "RECORD", "CHOICE") else 0)
    return own + sum(nodes(part) for part in parts(type))


def is_wordless(type):
    if type[0] == "ARRAY":
        return type[1] == 0
    return type[0] == "RECORD" and all(is_wordless(part) for part in parts(type))


def has_wordless_element(type):
    if type[0] in ("ARRAY", "SEQUENCE") and is_wordless(type[2]):
        return True
    return any(has_wordless_element(part) for part in parts(type))


def read_programs(texts):
    programs = []
    for text in texts:
        programs.append(Resolver(text, programs).program)
    return programs


# ---- values


def quoted(string):
    out = '"'
    for byte in string:
        if byte in b'"\\':
            out += "\\" + chr(byte)
        elif 32 <= byte <= 126:
            out += chr(byte)
        else:
            out += f"\\x{byte:02x}"
    return out + '"'


class Reader:
    def __init__(self, words):
        self.words, self.at = words, 0

    def word(self):
        if self.at == len(self.words):
            raise Unread(self.at, "Truncated")
        self.at += 1
        return self.words[self.at - 1]

    def wrong(self, reason):
        raise Unread(self.at - 1, reason)

    def text(self, type):
        kind = type[0]
        if kind == "BOOLEAN":
            word = self.word()
            if word > 1:
                self.wrong("NotBoolean")
            return ["FALSE", "TRUE"][word]
        if kind in ("CARDINAL", "UNSPECIFIED"):
            return str(self.word())
        if kind == "INTEGER":
            word = self.word()
            return str(word - 65536 if word >= 32768 else word)
        if kind in ("LONG CARDINAL", "LONG INTEGER"):
            number = self.word() * 65536
            number += self.word()
            return str(number - 2**32 if kind == "LONG INTEGER" and number >= 2**31 else number)
        if kind == "STRING":
            count = self.word()
            if len(self.words) - self.at < (count + 1) // 2:
                raise Unread(len(self.words), "Truncated")
            pairs = b"".join(word.to_bytes(2, "big") for word in self.words[self.at : self.at + (count + 1) // 2])
            self.at += (count + 1) // 2
            return quoted(pairs[:count])
        if kind == "{":
            word = self.word()
            for name, listed in type[1]:
                if listed == word:
                    return name
            self.wrong("NotListed")
        if kind in ("ARRAY", "SEQUENCE"):
            count = type[1]
            if kind == "SEQUENCE":
                count = self.word()
                if count > type[1]:
                    self.wrong("OverMaximum")
            return "[" + ", ".join([self.text(type[2]) for _ in range(count)]) + "]"
        if kind == "RECORD":
            return "[" + ", ".join([f"{name}: {self.text(part)}" for name, part in type[1]]) + "]"
        word = self.word()
        for name, listed, part in type[1]:
            if listed == word:
                return f"{name} {self.text(part)}"
        self.wrong("NotListed")


def value_text(type, words):
    reader = Reader(words)
    text = reader.text(type)
    if reader.at < len(words):
        raise Unread(reader.at, "Trailing")
    if len(text) > MOST_TEXT:
        raise Unread(0, "LongText")
    return text


def declared(programs, number, version):
    return next((p for p in programs if (p.number, p.version) == (number, version)), None)


def call_text(programs, number, version, procedure, words):
    program = declared(programs, number, version)
    if program is None or procedure not in program.procedures:
        return None
    text = value_text(program.procedures[procedure][0], words)
    return f"{program.name} {number}.{version} {program.procedure_names[procedure]} {text}"


def return_text(programs, number, version, procedure, words):
    program = declared(programs, number, version)
    if program is None or procedure not in program.procedures:
        return None
    return f"{program.procedure_names[procedure]} {value_text(program.procedures[procedure][1], words)}"


def abort_text(programs, number, version, error, words):
    program = declared(programs, number, version)
    if program is None or error not in program.errors:
        return None
    return f"{program.error_names[error]} {value_text(program.errors[error], words)}"


def answer(programs, line):
    """The answer to a line `call`, `return` or `abort` PROGRAM VERSION NUMBER WORDS, with `-` for no words."""
    kind, number, version, which, *digits = line.split()
    words = [] if digits == ["-"] else [int(word, 16) for word in digits]
    say = {"call": call_text, "return": return_text, "abort": abort_text}[kind]
    try:
        text = say(programs, int(number), int(version), int(which), words)
    except Unread as unread:
        return f"{line} unread {unread}"
    return line if text is None else f"{kind} {text}"


def names(type):
    return ", ".join(name for name, _ in type[1])


def listed(program):
    """The lines of a program, its procedures and its errors."""
    head = f"{program.name} {program.number}.{program.version}"
    lines = [head]
    for number, (arguments, results) in program.procedures.items():
        name = program.procedure_names[number]
        lines.append(f"{head} procedure {number} {name} [{names(arguments)}] returns [{names(results)}]")
    for number, arguments in program.errors.items():
        lines.append(f"{head} error {number} {program.error_names[number]} [{names(arguments)}]")
    return "\n".join(lines)


def read_files(files, said, read=lambda program: None):
    """The programs of the files, each of which knows those before it. None where one is refused: `said` is told where."""
    programs = []
    for file in files:
        with open(file, "rb") as text:
            try:
                programs.append(Resolver(text.read(), programs).program)
            except Refusal as refusal:
                print(f"{file}:{refusal}", file=said)
                return None
        read(programs[-1])
    return programs


def list_programs(files):
    programs = read_files(files, sys.stderr, lambda program: print(listed(program)))
    return 2 if programs is None else 0


def main(files):
    if files[0] == "--list":
        return list_programs(files[1:])
    programs = read_files(files, sys.stdout)
    if programs is None:
        return 2
    for line in sys.stdin:
        print(answer(programs, line.rstrip("\n")))
    return 0


if __name__ == "__main__":
    sys.exit(main(sys.argv[1:]))
