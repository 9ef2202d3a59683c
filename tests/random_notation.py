"""Random programs in Courier's notation with lines of words, and texts that are to be refused, for a comparison of readers.

    random_notation.py DIR SEED COUNT      writes COUNT cases: DIR/SEED, DIR/SEED+1, ..
    random_notation.py --directed DIR      writes a case for each reason and limit that random cases seldom meet: DIR/NAME

A case is a folder: a.courier and b.courier, the second of which depends upon the first; lines, as tests/notation_account.py takes them;
and answers, which is what that account says. Of random cases every second has a token gone, doubled or changed, or two exchanged.
"""

import os
import random
import sys

import notation_account as ref

PREDEFINED = ["BOOLEAN", "CARDINAL", "LONG CARDINAL", "INTEGER", "LONG INTEGER", "STRING", "UNSPECIFIED"]


class Writer:
    """A program as it is written, with its blanks and comments."""

    def __init__(self, dice, name, number, version, other=None):
        self.dice, self.name, self.number, self.version, self.other = dice, name, number, version, other
        self.types, self.enumerations, self.constants, self.errors, self.used = [], {}, [], [], set()

    def fresh(self, capital):
        while True:
            letters = "ABCDEFGHIJKLMNOPQRSTUVWXYZ" if capital else "abcdefghijklmnopqrstuvwxyz"
            word = self.dice.choice(letters) + "".join(
                self.dice.choice("abcdefghijklmnopqrstuvwxyzABC0123456789") for _ in range(self.dice.randrange(1, 7))
            )
            if word not in self.used and word not in ref.KEYWORDS:
                self.used.add(word)
                return word

    def names(self, count):
        before, self.used = self.used, set()
        names = [self.fresh(False) for _ in range(count)]
        self.used = before
        return names

    def numeric(self, most):
        small = [name for name, value in self.constants if value <= most]
        if small and self.dice.random() < 0.3:
            return self.dice.choice(small)
        if self.other and self.other.constants and self.dice.random() < 0.2:
            name, value = self.dice.choice(self.other.constants)
            if value <= most:
                return f"{self.other.name}.{name}"
        return str(self.dice.randrange(0, most + 1))

    def distinct(self, count):
        return self.dice.sample(range(0, 40 if count < 40 else 65536), count)

    def group(self, names, one):
        """Names in groups, each with what one() gives."""
        groups = []
        while names:
            count = self.dice.choice([1, 1, 1, 2, 3])
            groups.append((names[:count], one()))
            names = names[count:]
        return groups

    def fields(self, depth):
        names = self.names(self.dice.choice([0, 1, 1, 2, 3, 4]))
        groups = self.group(names, lambda: self.type(depth))
        return "[" + ", ".join(f"{', '.join(names)}: {type}" for names, type in groups) + "]"

    def type(self, depth):
        dice = self.dice
        choices = ["predefined"] * 3 + ["named"] * 2
        if depth > 0:
            choices += ["enumeration", "array", "sequence", "record", "record", "choice"]
        kind = dice.choice(choices)
        if kind == "named" and self.other and self.other.types and dice.random() < 0.3:
            return f"{self.other.name}.{dice.choice(self.other.types)}"
        if kind == "named" and self.types:
            return dice.choice(self.types)
        if kind == "enumeration":
            return self.enumeration()[0]
        if kind == "array":
            return f"ARRAY {self.numeric(4)} OF {self.type(depth - 1)}"
        if kind == "sequence":
            most = "" if dice.random() < 0.5 else self.numeric(5)
            return f"SEQUENCE {most} OF {self.type(depth - 1)}"
        if kind == "record":
            return "RECORD " + self.fields(depth - 1)
        if kind == "choice":
            return self.choice_type(depth)
        return dice.choice(PREDEFINED)

    def enumeration(self):
        names = self.names(self.dice.randrange(1, 5))
        words = self.distinct(len(names))
        text = ", ".join(f"{name}{self.dice.choice(['', ' '])}({word})" for name, word in zip(names, words))
        return "{" + text + "}", list(zip(names, words))

    def choice_type(self, depth):
        if self.enumerations and self.dice.random() < 0.5:
            tag = self.dice.choice(sorted(self.enumerations))
            members = self.dice.sample(self.enumerations[tag], self.dice.randrange(1, len(self.enumerations[tag]) + 1))
            designators = [name if self.dice.random() < 0.7 else f"{name}({word})" for name, word in members]
        else:
            tag, names = "", self.names(self.dice.randrange(1, 5))
            designators = [f"{name}({word})" for name, word in zip(names, self.distinct(len(names)))]
        groups = self.group(designators, lambda: self.type(depth - 1))
        return f"CHOICE {tag} OF {{" + ", ".join(f"{', '.join(names)} => {type}" for names, type in groups) + "}"

    def constant(self):
        return self.dice.choice(
            ["TRUE", "FALSE", "-5", '"a b"', "[]", "[1, 2, 3]", '[a: 1, b, c: "x"]', "left [1]", "left 3", "left", "70000"]
        )

    def declaration(self):
        dice, kind = self.dice, self.dice.random()
        if kind < 0.35:
            name = self.fresh(True)
            text = f"{name}: TYPE = {self.type(3)};"
            self.types.append(name)
        elif kind < 0.5:
            name = self.fresh(True)
            spelled, members = self.enumeration()
            text = f"{name}: TYPE = {spelled};"
            self.types.append(name)
            self.enumerations[name] = members
        elif kind < 0.6:
            name, value = self.fresh(False), dice.choice([0, 1, 2, 3, 4, 70000])
            text = f"{name}: LONG CARDINAL = {value};"
            self.constants.append((name, value))
        elif kind < 0.65:
            constant = self.constant()
            if constant == "left":
                constant = "0"
            text = f"{self.fresh(False)}: STRING = {constant};"
        elif kind < 0.75:
            name = self.fresh(True)
            text = f"{name}: ERROR {dice.choice(['', self.fields(2)])} = {len(self.errors)};"
            self.errors.append(name)
        else:
            reports = ""
            if self.errors and dice.random() < 0.5:
                reports = f"REPORTS [{', '.join(dice.sample(self.errors, dice.randrange(1, len(self.errors) + 1)))}]"
            arguments = dice.choice(["", self.fields(3)])
            results = dice.choice(["", "RETURNS " + self.fields(3)])
            self.procedures += 1
            text = f"{self.fresh(True)}: PROCEDURE {arguments} {results} {reports} = {self.procedures};"
        return text

    def text(self):
        self.procedures = 0
        lines = [f"{self.name}: PROGRAM {self.number} VERSION {self.version} =", "BEGIN"]
        if self.other:
            lines.append(f"  DEPENDS UPON {self.other.name} ({self.other.number}) VERSION {self.other.version};")
        for _ in range(self.dice.randrange(3, 14)):
            lines.append("  " + self.declaration())
        lines.append("END.")
        out = ""
        for line in lines:
            comment = self.dice.random()
            out += line
            if comment < 0.1:
                out += " -- a comment"
            elif comment < 0.2:
                out += " -- one -- -- and \" another --"
            out += self.dice.choice(["\n", "\r\n", "\n\n"])
        return out.encode()


class Words:
    """Words of a value of a type, mostly right."""

    def __init__(self, dice):
        self.dice, self.words = dice, []

    def put(self, type):
        dice, kind, put = self.dice, type[0], self.words.append
        if kind == "BOOLEAN":
            put(dice.randrange(2))
        elif kind in ("CARDINAL", "UNSPECIFIED", "INTEGER"):
            put(dice.choice([0, 1, 5, 32767, 32768, 65535, dice.randrange(65536)]))
        elif kind in ("LONG CARDINAL", "LONG INTEGER"):
            put(dice.choice([0, 1, 32767, 32768, 65535]))
            put(dice.randrange(65536))
        elif kind == "STRING":
            string = bytes(dice.choice([34, 92, 0, 10, 31, 126, 127, 255, 65, 97, 32]) for _ in range(dice.randrange(5)))
            put(len(string))
            string += b"\0" * (len(string) % 2)
            self.words += [int.from_bytes(string[i : i + 2], "big") for i in range(0, len(string), 2)]
        elif kind == "{":
            put(dice.choice(type[1])[1])
        elif kind == "ARRAY":
            for _ in range(type[1]):
                self.put(type[2])
        elif kind == "SEQUENCE":
            count = dice.randrange(min(type[1], 3) + 1)
            put(count)
            for _ in range(count):
                self.put(type[2])
        elif kind == "RECORD":
            for _, part in type[1]:
                self.put(part)
        else:
            _, word, part = dice.choice(type[1])
            put(word)
            self.put(part)


def lines_of(dice, programs):
    lines = ["call 1 1 1 -"]
    for program in programs:
        wanted = [("call", n, t[0]) for n, t in program.procedures.items()]
        wanted += [("return", n, t[1]) for n, t in program.procedures.items()]
        wanted += [("abort", n, t) for n, t in program.errors.items()]
        for kind, number, type in wanted:
            for _ in range(2):
                value = Words(dice)
                value.put(type)
                words = value.words[:400]
                if words and dice.random() < 0.15:
                    words[dice.randrange(len(words))] = dice.randrange(65536)
                if dice.random() < 0.1:
                    words = words[: dice.randrange(len(words) + 1)]
                if dice.random() < 0.1:
                    words.append(7)
                spelled = " ".join(f"{word:04x}" for word in words) or "-"
                lines.append(f"{kind} {program.number} {program.version} {number} {spelled}")
    return lines


def end_of(text, place):
    """The end of the token at a place; of a string, of its quote."""
    end = place + 1
    while end < len(text) and text[end : end + 1].isalnum() and text[place : place + 1].isalnum():
        end += 1
    return end


def mutated(dice, text):
    """The text with one token or byte gone, doubled or changed, or two tokens exchanged; every second time with one name in the place of another."""
    tokens = ref.lex(text)
    if dice.random() < 0.5:
        names = [(word, place) for kind, word, place in tokens if kind == "name"]
        word, place = dice.choice(names)
        return text[:place] + dice.choice(names)[0].encode() + text[place + len(word) :]
    kind, _, place = dice.choice(tokens)
    end = end_of(text, place)
    token = text[place:end]
    change = dice.randrange(6)
    if change == 0:
        return text[:place] + text[end:]
    if change == 1:
        return text[:end] + b" " + token + text[end:]
    if change == 2:
        other = dice.choice([b"x", b"7", b"99999", b"4294967296", b"ARRAY", b"[", b"]", b";", b",", b".", b"=>", b'"', b"#", b"OF"])
        return text[:place] + other + text[end:]
    if change == 3:
        _, _, other = dice.choice(tokens)
        return text[:place] + text[other : other + (end - place)] + text[end:]
    if change == 4:
        one, other = sorted(dice.choice(tokens)[2] for _ in range(2))
        if one == other:
            return text
        behind, last = end_of(text, one), end_of(text, other)
        return text[:one] + text[other:last] + text[behind:other] + text[one:behind] + text[last:]
    at = dice.randrange(len(text))
    return text[:at] + bytes([dice.randrange(256)]) + text[at + 1 :]


def case(seed):
    """The texts of a case, and its lines."""
    dice = random.Random(seed)
    first = Writer(dice, "Base", 4, 1)
    texts = [first.text()]
    second = Writer(dice, "Above", dice.choice([7, 100000]), 2, first)
    texts.append(second.text())
    is_mutated = dice.random() < 0.5
    if is_mutated:
        which = dice.randrange(2)
        texts[which] = mutated(dice, texts[which])
    try:
        programs = ref.read_programs(texts)
    except ref.Refusal:
        return texts, []
    return texts, lines_of(dice, programs)


def write(folder, texts, lines):
    os.makedirs(folder, exist_ok=True)
    for name, text in zip(("a.courier", "b.courier"), texts):
        with open(os.path.join(folder, name), "wb") as file:
            file.write(text)
    with open(os.path.join(folder, "lines"), "w") as file:
        file.writelines(line + "\n" for line in lines)
    with open(os.path.join(folder, "answers"), "w") as file:
        file.write(account(texts, lines))


def account(texts, lines):
    """What the account answers."""
    programs, out = [], ""
    for name, text in zip(("a.courier", "b.courier"), texts):
        try:
            programs.append(ref.Resolver(text, programs).program)
        except ref.Refusal as refusal:
            return f"{name}:{refusal}\n"
    return "".join(ref.answer(programs, line) + "\n" for line in lines)


def directed():
    """Texts for the reasons that random cases seldom meet, by name; the second text of each is the one that is at fault."""
    base = b"Base: PROGRAM 4 VERSION 1 =\nBEGIN\n  Colour: TYPE = {red(0), green(1)};\n  Name: TYPE = STRING;\n  large: LONG CARDINAL = 70000;\nEND.\n"

    def above(*declarations, head="Above: PROGRAM 7 VERSION 2 =", depends="DEPENDS UPON Base (4) VERSION 1;", end="END."):
        return "\n".join([head, "BEGIN", depends, *declarations, end]).encode() + b"\n"

    doubling = ["T0: TYPE = RECORD [a, b: CARDINAL];"] + [f"T{i}: TYPE = RECORD [a, b: T{i - 1}];" for i in range(1, 15)]
    deep = ["T0: TYPE = CARDINAL;"] + [f"T{i}: TYPE = ARRAY 1 OF T{i - 1};" for i in range(1, 20)]
    wide = ", ".join(f"a{i}: CARDINAL" for i in range(1025))
    empty = ", ".join(f"a{i}: RECORD []" for i in range(1023))
    long_lines = ["call 7 2 1 0064" + " 0001" * 100, "call 7 2 1 0078" + " 0001" * 120]
    stream = "Stream: TYPE = CHOICE OF {next(0) => RECORD [rest: Stream], last(1) => CARDINAL};"
    texts = {
        "recursive_declared": above(stream, "Add: PROCEDURE [a: CARDINAL] = 1;"),
        "recursive_used": above(stream, "Add: PROCEDURE [a: CARDINAL, b: Stream] = 1;"),
        "recursive_behind": above(stream, "Pair: TYPE = RECORD [a, b: Stream];", "Limit: ERROR [p: Pair] = 1;"),
        "recursive_constant": above(stream, "none: Stream = last 0;"),
        "too_large": above(*doubling),
        "too_deep_shape": above(*deep),
        "too_deep": above("T: TYPE = " + "ARRAY 1 OF " * 16 + "CARDINAL;"),
        "not_too_deep": above("T: TYPE = " + "ARRAY 1 OF " * 15 + "CARDINAL;"),
        "too_deep_constant": above("c: T = " + "[" * 17 + "]" * 17 + ";"),
        "too_many_parts": above(f"T: TYPE = RECORD [{wide}];"),
        "most_parts": above("T: TYPE = {" + ", ".join(f"a{i}({i})" for i in range(1024)) + "};"),
        "too_many_declarations": above(*[f"c{i}: CARDINAL = 1;" for i in range(4097)]),
        "most_declarations": above(*[f"c{i}: CARDINAL = 1;" for i in range(4096)]),
        "too_many_tokens": b"; " * 65536,
        "most_tokens": b"; " * 65535,
        "too_long": b" " * 262145,
        "not_too_long": b" " * 262144,
        "long_name": above(f"{'n' * 256}: TYPE = STRING;"),
        "most_name": above(f"{'n' * 255}: TYPE = STRING;", f"T: TYPE = {'n' * 255};"),
        "long_text": above(f"R: TYPE = RECORD [{empty}, last: CARDINAL];", "P: PROCEDURE [s: SEQUENCE OF R] = 1;"),
        "not_enumeration": above("T: TYPE = CHOICE Base.Name OF {red => CARDINAL};"),
        "other_number": above("T: TYPE = CHOICE Base.Colour OF {red(1) => CARDINAL};"),
        "no_member": above("T: TYPE = CHOICE Base.Colour OF {blue => CARDINAL};"),
        "no_designator": above("T: TYPE = CHOICE OF {red => CARDINAL};"),
        "doubled_designator": above("T: TYPE = CHOICE OF {a(1), b(1) => CARDINAL};"),
        "doubled_candidate": above("T: TYPE = CHOICE OF {a(1) => STRING, a(2) => CARDINAL};"),
        "doubled_member": above("T: TYPE = {a(1), b(2), a(3)};"),
        "doubled_word": above("T: TYPE = {a(1), b(2), c(1)};"),
        "doubled_component": above("T: TYPE = RECORD [a, b: CARDINAL, a: STRING];"),
        "doubled_argument": above("P: PROCEDURE [a: CARDINAL, a: STRING] = 1;"),
        "doubled_declaration": above("T: TYPE = STRING;", "T: CARDINAL = 1;"),
        "doubled_procedure": above("P: PROCEDURE = 1;", "Q: PROCEDURE = 1;"),
        "doubled_error": above("P: ERROR = 1;", "Q: ERROR = 1;"),
        "error_beside_procedure": above("P: ERROR = 1;", "Q: PROCEDURE = 1;"),
        "doubled_program": above(head="Above: PROGRAM 4 VERSION 1 ="),
        "doubled_dependency": above(depends="DEPENDS UPON Base (4) VERSION 1, Base (4) VERSION 1;"),
        "not_read": above(depends="DEPENDS UPON Base (4) VERSION 2;"),
        "unknown_program": above("T: TYPE = Bose.Name;"),
        "other_alias": above("T: TYPE = Bose.Name;", depends="DEPENDS UPON Bose (4) VERSION 1;"),
        "not_number": above("T: TYPE = ARRAY Base.large OF STRING;"),
        "no_constant": above("T: TYPE = ARRAY Base.Name OF STRING;"),
        "not_a_type": above("a: CARDINAL = 1;", "T: TYPE = a;"),
        "later": above("T: TYPE = U;", "U: TYPE = STRING;"),
        "unknown_error": above("P: PROCEDURE REPORTS [E] = 1;"),
        "error_of_other": above("P: PROCEDURE REPORTS [Base.Colour] = 1;"),
        "later_error": above("P: PROCEDURE REPORTS [E] = 1;", "E: ERROR = 1;"),
        "trailing": above(end="END. x"),
        "no_dot": above(end="END"),
        "wordless": above("T: TYPE = SEQUENCE OF RECORD [];"),
        "wordless_array": above("T: TYPE = ARRAY 2 OF ARRAY 0 OF STRING;"),
        "procedure_as_value": above("T: TYPE = PROCEDURE;"),
        "error_as_value": above("T: TYPE = RECORD [a: ERROR];"),
        "octal": above("T: TYPE = ARRAY 17B OF STRING;"),
        "keyword_as_name": above("OF: TYPE = STRING;"),
        "empty": b"",
        "comment_alone": b"-- nothing",
        "long_number": above("P: PROCEDURE = 65536;"),
        "no_enumeration_members": above("T: TYPE = {};"),
        "negative_size": above("T: TYPE = ARRAY -1 OF STRING;"),
    }
    cases = {name: ([base, text], lines_if(base, text)) for name, text in texts.items()}
    cases["long_text"] = ([base, texts["long_text"]], long_lines)
    return cases


def lines_if(*texts):
    try:
        return lines_of(random.Random(1), ref.read_programs(texts)) + ["call 7 2 1 0001"]
    except ref.Refusal:
        return []


def main(words):
    if words[0] == "--directed":
        for name, (texts, lines) in directed().items():
            write(os.path.join(words[1], name), texts, lines)
    else:
        folder, seed, count = words[0], int(words[1]), int(words[2])
        for number in range(seed, seed + count):
            write(os.path.join(folder, str(number)), *case(number))


if __name__ == "__main__":
    main(sys.argv[1:])
