#!/usr/bin/env python3
"""What has to be read to know what a clause says: each definition that it needs, once, in reading order, with its file.

usage: reading.py CRATE FILE FUNCTION [CLAUSE] [--stop|--stop-ends]
                                                          a function, a method (Type::name) or a law: all its clauses, or one with what
                                                          the function requires
       reading.py --table                                 the table of docs/PROOF.md
       reading.py --check                                 whether docs/PROOF.md has this table, and the machines
       reading.py --write                                 puts both into docs/PROOF.md, where they stand

A definition is one of specs/, or a struct, an enum or a trait of src/. Its lines are those of its text without comments and blank lines.
A constant's are those of its line. The names of the standard library and of the kit's crates are not followed. With --stop neither are the
names of STEPS: what the ends and the sessions of the program do, which the law takes as they are; with --stop-ends only those of ENDS."""
import pathlib
import re
import sys

ROOT = pathlib.Path(__file__).resolve().parent.parent
CRATES = ROOT / "crates"
PAGE = ROOT / "docs" / "PROOF.md"

# what the program's ends do: the contracts of `Endpoint` cite them
ENDS = frozenset("""initiator_state responder_state after_send send_answer after_take take_answer after_receive receive_answer after_flush
    flush_answer after_tick tick_answer after_resend resend_answer told_answer is_full waiting_count is_ours State IsItem Holds""".split())

# what the program's ends do, and what its sessions make of items: the contracts of `Caller` and `Server` cite them
STEPS = ENDS | frozenset("caller_items server_items server_state answers decided_calls decision after_decision Serving Service IsFitting".split())

# what the functions of a host do, which the contracts of `Host` cite, and what a host is
TURNS = frozenset("IsNewHost ConnectsTo Turn TellsNext TakesIn GivesOut ServesAt MovesTo Tags Abandons Host Guest Connection".split())

NOTHING = frozenset()

# what docs/PROOF.md gives figures for: its name, crate, file, function, clause (None: all) and what is left out: NOTHING, ENDS, STEPS or TURNS
SUBJECTS = [
    ("`entries_keep_the_order`, the ledger alone", "xns_world", "laws/calls.rt", "entries_keep_the_order", None, STEPS),
    ("`each_step_is_an_entry`, the headline for calls, with the network", "xns_world", "laws/calls.rt", "each_step_is_an_entry", None, STEPS),
    ("the same, with what its words mean: calls and outcomes as items", "xns_world", "laws/calls.rt", "each_step_is_an_entry", None, ENDS),
    ("the same, with what ends do too", "xns_world", "laws/calls.rt", "each_step_is_an_entry", None, NOTHING),
    ("`moves_keep_the_order`, the channel alone", "item_world", "laws.rt", "moves_keep_the_order", None, NOTHING),
    ("`each_step_is_a_move`, the headline for items, with the network", "item_world", "laws.rt", "each_step_is_a_move", None, STEPS),
    ("the same, with what ends do", "item_world", "laws.rt", "each_step_is_a_move", None, NOTHING),
    ("`play_items`: `finishes`, with the network", "item_world", "play.rt", "play_items", "finishes", STEPS),
    ("`no_play_is_stuck`, with the network", "xns_world", "laws/calls.rt", "no_play_is_stuck", None, STEPS),
    ("the same, with what ends and sessions do", "xns_world", "laws/calls.rt", "no_play_is_stuck", None, NOTHING),
    ("`play_calls`: `once`", "xns_world", "call_play.rt", "play_calls", "once", NOTHING),
    ("`a_number_keeps_its_order`, the dialogue alone", "host_world", "laws.rt", "a_number_keeps_its_order", None, NOTHING),
    ("`each_number_of_a_host_has_a_history`, with the functions of a host", "host_world", "laws.rt", "each_number_of_a_host_has_a_history",
     None, TURNS),
    ("the same, with what its functions do", "host_world", "laws.rt", "each_number_of_a_host_has_a_history", None, NOTHING),
    ("`decode`", "xns_idp", "decoding.rt", "decode", None, NOTHING),
    ("`Endpoint::receive`", "xns_spp", "endpoint.rt", "Endpoint::receive", None, NOTHING),
    ("`Host::call`", "xns_host", "host.rt", "Host::call", None, NOTHING),
    ("`Host::receive`", "xns_host", "host/receiving.rt", "Host::receive", None, NOTHING),
    ("`dump`", "xns_dump", "dumping.rt", "dump", None, NOTHING),
    ("`calls`", "xns_calls", "calling.rt", "calls", None, NOTHING),
]

# the machines that docs/PROOF.md shows: the file of each, and the line before which the page stops (None: it shows all)
MACHINES = {
    "item_world/specs/Channel.antt": None,
    "xns_world/specs/Ledger.antt": None,
    "host_world/specs/Dialogue.antt": "-- a number that is free gets a connection",
}

WORD = re.compile(r"[^\s(){}\[\],;]+")
HEAD = re.compile(r"^(?:(?:abbrev|unfoldable|mutual|pub|data|record|ruleset)\s+)*([^\s(){}:]+)(?=[\s(){:]|$)")
KIND = re.compile(r"^(?:abbrev |unfoldable )?(?:mutual |pub )*(data|record)\b")


class Text:
    """A file of definitions or of code: what it imports, and what it defines."""

    def __init__(self, path):
        self.path = path
        self.names = {}    # name -> (module, name)
        self.modules = {}  # alias -> module
        self.chunks = {}   # name -> Chunk
        text = path.read_text()
        for path_, names, alias in re.findall(r"(?:^|\n)\s*(?:ghost )?use ([\w.\-]+?)(?:\.\{([^}]*)\}| as ([\w]+))?;?(?=\n)", text):
            if names:
                for name in names.split(","):
                    name, _, other = name.strip().partition(" as ")
                    self.names[other or name] = (path_, name)
            elif alias:
                self.modules[alias] = path_
        if path.suffix == ".antt":
            self.read_definitions(text)

    def read_definitions(self, text):
        chunk = None
        for block in re.split(r"\n\s*\n", text):
            lines = [line for line in block.split("\n") if line.strip()]
            while lines and lines[0].lstrip().startswith("--"):
                lines.pop(0)
            lines = [line for line in lines if not re.match(r"\s*--", line)]
            if not lines or lines[0].startswith(("use ", "pub mod", "mod ", "pub use")):
                continue
            if lines[0].startswith(" ") and chunk:     # a blank line within a definition, or within several that name each other
                chunk.lines += lines
            else:
                chunk = Chunk(self, lines)
            for name in chunk.defines():
                self.chunks.setdefault(name, chunk)


class Chunk:
    """A definition."""

    def __init__(self, file, lines):
        self.file, self.lines = file, lines

    def defines(self):
        kind = KIND.match(self.lines[0])
        names = []
        mutual = re.match(r"^(?:abbrev |unfoldable )?mutual", self.lines[0])
        for line in self.lines:
            if not line.startswith(" ") or mutual:
                head = HEAD.match(line.strip())
                if head and head.group(1) not in ("mutual", "unfolding", "where"):
                    names.append(head.group(1))
            elif kind and kind.group(1) == "data":
                names.append(line.split()[0])
        return dict.fromkeys(names)

    def words(self):
        text = "\n".join(re.sub(r"--.*", "", line) for line in self.lines)
        text = re.sub(r"^\s+pub ([\w\-]+) :", " ", text, flags=re.M)          # a field
        bound = set()
        for names in re.findall(r"[({]([^(){}:=;]+) :", text):
            bound |= set(names.split())
        for names in re.findall(r"λ ([^.]+)\.", text):
            bound |= set(WORD.findall(names))
        text = re.sub(r"([{;]\s*)[\w\-]+ =", r"\1", text)                      # a field that is given
        words = WORD.findall(text) if self.file.path.suffix == ".antt" else re.findall(r"[\w.«»]+", text)
        return [word for word in words if word.split(".")[0] not in bound]


TEXTS = {}


def text_of(path):
    if path not in TEXTS:
        TEXTS[path] = Text(path)
    return TEXTS[path]


def braced(text, start):
    """From start to the end of the braces that open first."""
    depth, place = 0, text.index("{", start)
    for end in range(place, len(text)):
        depth += {"{": 1, "}": -1}.get(text[end], 0)
        if depth == 0:
            return text[start:end + 1]
    raise SystemExit("reading.py: braces")


def code(crate):
    return sorted((CRATES / crate / "src").rglob("*.rt"))


def bare(text):
    """Code without comments, attributes and blank lines."""
    return [line for line in text.split("\n") if line.strip() and not re.match(r"\s*(//|#\[)", line)]


def declared(crate, name):
    """The struct, enum, alias or trait of this name, and what contracts see of it."""
    key = (crate, name)
    if key not in TEXTS:
        TEXTS[key] = None
        for path in code(crate):
            text = path.read_text()
            found = re.search(r"^(?:pub(?:\([^)]*\))? )?(struct|enum|type|trait) %s\b" % re.escape(name), text, re.M)
            if found:
                start = found.start()
                end = re.compile("[;{]").search(text, start).start()
                part = braced(text, start) if text[end] == "{" else text[start:end + 1]
                model = re.search(r"^impl(?:<[^\n]*>)? Model for %s\b" % re.escape(name), text, re.M)
                lines = bare(part) + (bare(braced(text, model.start())) if model else [])
                lines = [line for line in lines if not re.match(r"\s*ghost use", line)]
                TEXTS[key] = Chunk(text_of(path), lines)
                break
    return TEXTS[key]


def constant(crate, name):
    """The constant of this name, of a module or a type."""
    key = (crate, "const", name)
    if key not in TEXTS:
        TEXTS[key] = None
        for path in code(crate):
            found = re.search(r"^\s*(?:pub(?:\([^)]*\))? )?const %s\b[^;]*;" % re.escape(name), path.read_text(), re.M)
            if found:
                TEXTS[key] = Chunk(text_of(path), bare(found.group(0)))
                break
    return TEXTS[key]


def in_module(module, name):
    parts = module.split(".")
    if parts[0] != "Rattle" or not (CRATES / parts[1]).is_dir():
        return None
    crate, rest = parts[1], parts[3:]
    if rest and rest[-1] == "TheConstants":
        return constant(crate, name)
    if rest and rest[0] in ("declared", "contracts"):
        if rest[-1] in ("TheVariants", "TheImpl"):
            rest = rest[:-1]
        return declared(crate, rest[-1])
    path = CRATES / crate / "specs" / ("/".join(rest) + ".antt")
    if not path.exists():
        return None
    return text_of(path).chunks.get(name)


def resolve(file, word):
    """The definition that a word of a file names, or None."""
    head, _, rest = word.partition(".")
    if head in file.modules and rest:
        return in_module(file.modules[head], rest.split(".")[0])
    if head in file.chunks:
        return file.chunks[head]
    if head in file.names:
        module, name = file.names[head]
        return in_module(module, name)
    if file.path.suffix == ".rt" and head.isidentifier() and head[0].isupper():
        crate = file.path.relative_to(CRATES).parts[0]
        text = file.path.read_text()
        found = re.search(r"\buse (\w+)(?:::\w+)*::(?:\{[^}]*\b%s\b[^}]*\}|%s\b)" % (head, head), text)
        source = found.group(1) if found else "crate"
        source = crate if source in ("crate", "super", "self") else source
        if (CRATES / source).is_dir():
            return declared(source, head) or (declared("item_world", head) if source == "xns_world" else None)
    return None


def clauses(crate, path, function, clause):
    """The contract of a function, as a definition."""
    file = CRATES / crate / "src" / path
    text = file.read_text()
    owner, _, name = function.rpartition("::")
    start = 0
    if owner:
        start = re.search(r"^impl(?:<[^\n]*?>)? %s\b" % owner, text, re.M).start()
    found = re.compile(r"^\s*pub fn %s\b" % name, re.M).search(text, start)
    end = re.compile(r"^\s*\{(\}|)$", re.M).search(text, found.start()).start()
    lines, wanted, depth = [], True, 0
    for line in bare(text[found.start():end]):
        mark = re.match(r"\s*(requires|ensures)\*? *(\w*)", line)
        if mark and depth == 0:
            wanted = mark.group(1) == "requires" or clause in (None, mark.group(2))
        if wanted:
            lines.append(line)
        depth += line.count("{") - line.count("}")
    return Chunk(text_of(file), lines)


def needed(first, stop):
    """Each definition that a contract needs, the lower ones first, but for these names."""
    order, seen = [], {id(first)}

    def visit(chunk):
        for word in chunk.words():
            if word.split(".")[-1] in stop:
                continue
            # a trait's own names, as S.serving
            found = resolve(chunk.file, word)
            if found is not None and id(found) not in seen:
                seen.add(id(found))
                visit(found)
                order.append(found)

    sys.setrecursionlimit(10000)
    visit(first)
    return order


def figures(crate, path, function, clause, stop):
    order = needed(clauses(crate, path, function, clause), stop)
    return len(order), sum(len(chunk.lines) for chunk in order)


def table():
    rows = ["| What is read | Definitions | Lines |", "|---|---|---|"]
    for name, *subject in SUBJECTS:
        many, lines = figures(*subject)
        rows.append(f"| {name} | {many} | {lines} |")
    return "\n".join(rows)


def page_now(page):
    """The page with the table and the machines as they are."""
    page = re.sub(r"\| What is read \|.*\n(?:\|.*\n)+", lambda _: table() + "\n", page)
    for path, stop in MACHINES.items():
        text = (CRATES / path).read_text()
        text = text[text.index("pub record"):]
        if stop is not None:
            text = text[:text.index("\n" + stop + "\n")]
        head = text[:text.index("\n")]
        page = re.sub(r"```\n" + re.escape(head) + r".*?```", lambda _: "```\n" + text + "```", page, flags=re.S)
    return page


def main(words):
    if words == ["--table"]:
        print(table())
        return 0
    if words in (["--check"], ["--write"]):
        page = PAGE.read_text()
        now = page_now(page)
        if words == ["--write"]:
            PAGE.write_text(now)
        elif now != page:
            print("docs/PROOF.md is not what tests/reading.py --write makes of it; the table is:\n" + table())
        return int(words == ["--check"] and now != page)
    stop = STEPS if "--stop" in words else ENDS if "--stop-ends" in words else NOTHING
    words = [word for word in words if not word.startswith("--stop")]
    if len(words) not in (3, 4):
        print(__doc__)
        return 2
    order = needed(clauses(*words[:3], words[3] if len(words) == 4 else None), stop)
    for chunk in order:
        print(f"-- {chunk.file.path.relative_to(ROOT)}")
        print("\n".join(chunk.lines) + "\n")
    print(f"-- {len(order)} definitions, {sum(len(chunk.lines) for chunk in order)} lines")
    return 0


if __name__ == "__main__":
    sys.exit(main(sys.argv[1:]))
