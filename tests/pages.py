"""Compares what the pages in docs/ quote of the code with the code, line by line, and looks for the files that they name.

    python3 tests/pages.py            says what differs; status 1 where something does
    python3 tests/pages.py --write    makes the quoted contracts anew, and then compares

A block of a page is compared where its first line says where it is from:

    ```rust quote CRATE ITEM ITEM ..  of each item the first paragraph of its doc comment, and what stands before its body;
                                      of a type, a trait or a constant all of it, but for attributes before it. An item is
                                      a name that the crate exports, TYPE::METHOD, or MODULE::FUNCTION
    ```rust part FILE                 lines of the file: those between two blank lines stand there together

Each page in docs/crates has a quoted contract, and there no block of Rust may be without one of these two.
A file or folder that a page or README.md names from the root, as `crates/xns_idp/src/places.rt`, is to be there. In a row of
docs/MAP.md a name without its folder, as `places.rt` or `_told.py`, stands for one in the crate, or in the folder, that was named before it.
A name in brackets behind a file of the map, as `most_items`, is to stand in that file. Each line of crates.txt has one row in the tables of docs/CALLING.md and
docs/MAP.md.
A name of code that a page in docs/ has, as `Endpoint::send` or `xns_decode`, is to stand somewhere in the code.
A clause that docs/PROMISES.md names behind its functions, as `exact` in "`read`: `exact`", is to be a clause of one of them.
Another root than this repository is named last.
"""
import pathlib
import re
import sys

CONTAINER = re.compile(r"(?:impl(?:<.*?>)? (?:[\w:]+(?:<.*>)? for )?|(?:pub )?trait )(\w+)")
FUNCTION = re.compile(r'( *)(?:pub\(crate\) )?(pub )?(?:const |unsafe |final |extern "C" )*fn (\w+)')
OTHER = re.compile(r"()(pub )(?:struct|enum|trait|const|type) (\w+)")
NAMED = re.compile(r"`([^`\s]+)`")
FILE_AND_NAMES = re.compile(r"`([^`\s]+)`(?: \((`\w+`(?:, `\w+`)*)\))?")
FROM_ROOT = re.compile(r"(?:crates|tests|docs|examples|python|bench|include)/[\w./+-]+")
PARTS = ("src", "specs", "proofs", "must-fail")
IN_FOLDER = re.compile(r"(?:[\w+-]+/)*[\w+-]+\.(?:rt|antt|py|sh|c|h|rs)")
CODE_NAME = re.compile(r"[A-Za-z]\w*(?:(?:::|\.)\w+)*(?:\(\))?")
CODE = ("crates/*/src/**/*", "crates/*/specs/**/*", "crates/*/stdin", "crates.txt", "include/*", "python/**/*", "bench/**/*", "tests/**/*",
        "examples/**/*")
MADE = re.compile(r"crates/mine\b|.*/out(?:/|$)")
CLAUSE = re.compile(r" *(?:requires|ensures) (\w+) \{")
PROMISED = re.compile(r"(.*?[^:]):([^:].*)")
EXPORT = re.compile(r"^pub use [^;]*;", re.MULTILINE)


class NotFound(Exception):
    """There is no such item, or more than one."""


def doc_start(lines, at):
    """The first line of the doc comment and the attributes above a line."""
    while at > 0 and lines[at - 1].lstrip().startswith(("///", "#[")):
        at -= 1
    return at


def first_paragraph(lines):
    """The doc comment up to its first empty line, without attributes."""
    paragraph = []
    for line in lines:
        if line.strip() == "///":
            break
        if not line.lstrip().startswith("#["):
            paragraph.append(line)
    return paragraph


def function_head(lines, at, indent):
    """A function's lines before its body, without the brace that opens it."""
    head, depth = [], 0
    for line in lines[at:]:
        if line in (indent + "{", indent + "{}"):
            return head
        if line.endswith(" {") and not line.startswith(indent + " "):
            return head + [line[:-2]]
        head.append(line)
        depth += sum(line.count(opened) for opened in "({[") - sum(line.count(closed) for closed in ")}]")
        if line.endswith(";") and depth == 0:
            return head
    raise NotFound("a function has no end")


def whole(lines, at, indent):
    """All lines of a type, a trait or a constant."""
    for end in range(at, len(lines)):
        line = lines[end]
        if line.startswith(indent + "}") or (end == at and line.endswith((";", "}"))):
            return lines[at:end + 1]
    raise NotFound("an item has no end")


class Crate:
    """The items of a crate by their names: where each stands, and what its text is there."""

    def __init__(self, root, name):
        self.name = name
        self.folder = root / "crates" / name / "src"
        if not (self.folder / "lib.rt").is_file():
            raise NotFound("there is no crate %s" % name)
        self.lib = (self.folder / "lib.rt").read_text()
        self.exported = set(re.findall(r"\w+", " ".join(EXPORT.findall(self.lib))))
        self.items = {}
        for path in sorted(self.folder.rglob("*.rt")):
            self.read(path)

    def read(self, path):
        lines = path.read_text().split("\n")
        holder, in_trait = None, False
        module = path.relative_to(self.folder).with_suffix("").as_posix().replace("/", "::")
        for at, line in enumerate(lines):
            opened = CONTAINER.match(line)
            if opened and line.endswith("{"):
                holder, in_trait = opened[1], not line.startswith("impl")
            elif line.startswith("}"):
                holder = None
            function = FUNCTION.match(line)
            found = function or OTHER.match(line)
            if not found or not (found[2] or (holder and in_trait)):
                continue
            indent, name = found[1], found[3]
            names = ["%s::%s" % (holder, name)] if indent else [name, "%s::%s" % (module, name)]
            for known in names:
                self.items.setdefault(known, []).append((lines, at, indent, function_head if function else whole))

    def is_public(self, name):
        front, _, _ = name.partition("::")
        return front in self.exported or re.search(r"^pub mod %s;" % front, self.lib, re.MULTILINE)

    def quote(self, name):
        found = self.items.get(name, [])
        if len(found) != 1 or not self.is_public(name):
            raise NotFound("%s has %s public item %s" % (self.name, "no" if len(found) < 2 else "more than one", name))
        lines, at, indent, text = found[0]
        doc = first_paragraph(lines[doc_start(lines, at):at])
        return [line[len(indent):] for line in doc + text(lines, at, indent)]


def quoted(root, words):
    """The lines of a block of contracts."""
    if len(words) < 2:
        raise NotFound("a quote names a crate and its items")
    crate = Crate(root, words[0])
    lines = []
    for name in words[1:]:
        lines += ([""] if lines else []) + crate.quote(name)
    return lines


def strange_part(root, words, block):
    """The first line of the first part that does not stand in the file."""
    path = root / " ".join(words)
    if not path.is_file():
        raise NotFound("there is no file %s" % " ".join(words))
    text = "\n" + path.read_text() + "\n"
    for part in "\n".join(block).split("\n\n"):
        if "\n" + part.strip("\n") + "\n" not in text:
            return part.strip("\n").split("\n")[0]
    return None


class Page:
    """A page, the faults of its blocks, and its lines with the quotes made anew."""

    def __init__(self, root, path):
        self.root = root
        self.path = path
        self.shown = path.relative_to(root)
        self.old = path.read_text().split("\n")
        self.new = []
        self.faults = []
        self.quotes = 0
        self.parts = 0
        self.read()

    def read(self):
        at = 0
        while at < len(self.old):
            line = self.old[at]
            self.new.append(line)
            at += 1
            if not line.startswith("```"):
                continue
            block = []
            while at < len(self.old) and self.old[at] != "```":
                block.append(self.old[at])
                at += 1
            if at == len(self.old):
                self.faults.append("%s: a block has no end" % self.shown)
            self.new += self.compare(line[3:].split(), block)
            self.new += self.old[at:at + 1]
            at += 1
        if self.is_of_crate() and self.quotes == 0:
            self.faults.append("%s: no contract is quoted" % self.shown)

    def is_of_crate(self):
        return self.path.parent.name == "crates"

    def compare(self, words, block):
        try:
            if words[1:2] == ["quote"]:
                self.quotes += 1
                right = quoted(self.root, words[2:])
                if right != block:
                    differs = [pair for pair in zip(block + [""], right + [""]) if pair[0] != pair[1]]
                    self.faults.append("%s: the quote of %s differs at\n    %s\nwhere the code has\n    %s"
                                       % ((self.shown, " ".join(words[2:])) + (differs or [("", "")])[0]))
                return right
            if words[1:2] == ["part"]:
                self.parts += 1
                strange = strange_part(self.root, words[2:], block)
                if strange is not None:
                    self.faults.append("%s: %s has no lines\n    %s" % (self.shown, " ".join(words[2:]), strange))
            elif words[:1] == ["rust"] and self.is_of_crate():
                self.faults.append("%s: a block of Rust does not say where it is from" % self.shown)
        except NotFound as fault:
            self.faults.append("%s: %s" % (self.shown, fault))
        return block


def names(text):
    """The names in a text, without those in blocks."""
    return NAMED.findall(re.sub(r"^```.*?^```$", "", text, flags=re.MULTILINE | re.DOTALL))


def missing_files(root, path):
    """The files and folders that a page names and that are not there."""
    text = path.read_text()
    missing = [name for name in names(text)
               if FROM_ROOT.fullmatch(name) and not MADE.match(name) and not (root / name).exists()]
    if path.name == "MAP.md":
        for row in text.split("\n"):
            missing += missing_in_row(root, row)
    return missing


def folders_behind(root, name, folders):
    """Where the files without their folder lie that a row of the map names behind this name: in its crate, or in its folder."""
    if name.startswith("crates/"):
        return [root / "crates" / name.split("/")[1]]
    return [(root / name).parent] if FROM_ROOT.fullmatch(name) else folders


def missing_in_row(root, row):
    """The files without their folder that a row of the map names and that are not there."""
    folders, missing = [], []
    for name in names(row):
        folders = folders_behind(root, name, folders)
        if folders and IN_FOLDER.fullmatch(name) and not (root / name).exists():
            bare = name.endswith((".rt", ".antt")) and name.split("/")[0] not in PARTS
            searched = [folder / part for folder in folders for part in ("src", "specs")] if bare else folders
            if not any(folder.joinpath(name).exists() or any(folder.rglob(name)) for folder in searched):
                missing.append("%s of %s" % (name, folders[0].name))
    return missing


def absent_in_row(root, row):
    """The names in brackets behind a file, in a row of the map, that do not stand in that file."""
    folders, absent = [], []
    for name, bracketed in FILE_AND_NAMES.findall(row):
        folders = folders_behind(root, name, folders)
        paths = [root / name] if FROM_ROOT.fullmatch(name) else [path for folder in folders for path in folder.rglob(name)]
        words = {word for path in paths if path.is_file() for word in re.findall(r"\w+", path.read_text())}
        absent += ["%s has no %s" % (name, wanted) for wanted in NAMED.findall(bracketed) if wanted not in words]
    return absent


def words_of_code(root):
    """Each word of the code, the tests and the examples, and the names of their files."""
    words = set()
    for pattern in CODE:
        for path in root.glob(pattern):
            if path.is_file() and path.name not in ("pages.py", "pages.sh"):
                words.update(re.findall(r"\w+", path.name + " " + path.read_text(errors="replace")))
    return words


def unknown_names(path, words):
    """The names of code in a page of which some word stands nowhere in the code. Beginnings of names, as `xns_caller_`, and what
    stands for a word of the reader's, as `PREFIX`, are passed over."""
    return [name for name in names(path.read_text()) if CODE_NAME.fullmatch(name) and not re.fullmatch("[A-Z]+", name)
            and any(len(word) > 2 and word not in words and not word.endswith("_") for word in re.findall(r"\w+", name))]


def map_faults(root):
    """Crates without one row in the pages that list them, those that a page has and crates.txt lacks, and names that files of the map lack."""
    listed = {line.split()[0].strip(":") for line in (root / "crates.txt").read_text().split("\n") if ":" in line.split("#")[0]}
    rows = (root / "docs/MAP.md").read_text().split("\n")
    shown = [name for page in ("CALLING.md", "MAP.md")
             for name in re.findall(r"^\| `(\w+)` \|", (root / "docs" / page).read_text(), re.MULTILINE)]
    return (["docs/CALLING.md and docs/MAP.md have %d rows of %s" % (shown.count(name), name) for name in sorted(listed) if shown.count(name) != 1]
            + ["docs/MAP.md: crates.txt has no %s" % name for name in sorted(set(shown) - listed)]
            + ["docs/MAP.md: %s" % fault for row in rows if row.startswith("| ") for fault in absent_in_row(root, row)])


def clauses_by_function(root):
    """The names of the clauses of each function, by its name and by that with its type's."""
    clauses = {}
    for path in root.glob("crates/*/src/**/*.rt"):
        holder, names_here = None, []
        for line in path.read_text().split("\n"):
            opened, function, clause = CONTAINER.match(line), FUNCTION.match(line), CLAUSE.match(line)
            if opened and line.endswith("{"):
                holder = opened[1]
            elif line.startswith("}"):
                holder = None
            elif function:
                names_here = [function[3]] + (["%s::%s" % (holder, function[3])] if holder and function[1] else [])
                for name in names_here:
                    clauses.setdefault(name, set())
            elif clause:
                for name in names_here:
                    clauses[name].add(clause[1])
    return clauses


def missing_clauses(root):
    """The clauses that docs/PROMISES.md names and that none of their functions has, each with the functions. A name without a type has
    that of the name before it."""
    clauses, missing = clauses_by_function(root), []
    for row in (root / "docs/PROMISES.md").read_text().split("\n"):
        for part in row.strip("|").split(" | ")[-1].split(";") if row.startswith("| ") else []:
            promised = PROMISED.match(part)
            holder, functions = None, []
            for name in NAMED.findall(promised[1]) if promised else []:
                front, apart, _ = name.rpartition("::")
                holder = front if apart else holder
                functions += [known for known in ("%s::%s" % (holder, name), name) if known in clauses][:1]
            missing += ["%s of %s" % (clause, ", ".join(functions)) for clause in (NAMED.findall(promised[2]) if functions else [])
                        if re.fullmatch(r"\w+", clause) and not any(clause in clauses[function] for function in functions)]
    return missing


def main(words):
    write = words[:1] == ["--write"]
    root = pathlib.Path(words[-1] if words[int(write):] else pathlib.Path(__file__).parent.parent).resolve()
    paths = sorted((root / "docs").rglob("*.md"))
    pages = [Page(root, path) for path in paths]
    if write:
        for page in pages:
            if page.new != page.old:
                page.path.write_text("\n".join(page.new))
        pages = [Page(root, path) for path in paths]
    faults = [fault for page in pages for fault in page.faults]
    faults += map_faults(root)
    faults += ["docs/PROMISES.md: there is no clause %s" % name for name in missing_clauses(root)]
    words_known = words_of_code(root)
    for path in paths:
        faults += ["%s: %s is not in the code" % (path.relative_to(root), name) for name in unknown_names(path, words_known)]
    for path in paths + [root / "README.md"]:
        faults += ["%s: there is no %s" % (path.relative_to(root), name) for name in missing_files(root, path)]
    for fault in faults:
        print(fault)
    quotes, parts = sum(page.quotes for page in pages), sum(page.parts for page in pages)
    if quotes == 0:
        print("no page quotes a contract")
        return 1
    print("%d quotes of contracts and %d of files, %d differ" % (quotes, parts, len(faults)))
    return 1 if faults else 0


if __name__ == "__main__":
    sys.exit(main(sys.argv[1:]))
