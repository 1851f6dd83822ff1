#!/usr/bin/env python3
"""What a reader must read to believe the program: `trust.py [--write | --why NAME]`

Goes from the contract of `serve` to each definition, declared type and trait that it reaches, in this repository, and lists them in
docs/TRUST.md between two marks: crate, file, names, lines (comments and empty lines don't count), and a total. Looks that the list
there is the sources' own; with --write it writes it. With --why it prints the way on which a name is reached, the contract last. Its
last line is `N faults`.
"""

import re
import sys
from collections import namedtuple
from pathlib import Path

TOP = Path(__file__).resolve().parent.parent
CRATES = TOP / "crates"
PAGE = TOP / "docs" / "TRUST.md"
MARKS = "<!-- made by tests/trust.py -->", "<!-- end -->"
START = "pool_edge", "serving.rt", "serve"

IMPORT = re.compile(r"^\s*(?:ghost )?use Rattle\.([\w.]+?)(?:\.\{([^}]*)\}| as (\w+))?;?$", re.M)
HEAD = re.compile(r"^(?:(?:unfoldable|abbrev|instance) )*(?:pub )?(?:(?:unfoldable|abbrev|instance|record|data) )*(?:pub )?([^\s:()]+)(?= |$)")
DECLARED = re.compile(r"^(?:abbrev|unfoldable|pub|record|data|instance)\b")
WORD = re.compile(r"[^\W\d][\w'.-]*[\w']|[^\W\d]|◌\S*◌")
TYPE = re.compile(r"^(?:pub(?:\([^)]*\))? )?(?:struct|enum) (\w+)")
CODE_IMPORT = re.compile(r"^\s*(?:pub )?use (crate|[a-z]\w*)::(.+);$", re.M)

Item = namedtuple("Item", "crate file name kind")


def lines_of(text):
    """The lines of a text that are neither empty nor comments."""
    return [line for line in text.splitlines() if line.strip() and not re.match(r"\s*(?:--|//|#\[)", line)]


class Definitions:
    """A file of definitions: what it imports, and the text of each definition by its name."""

    def __init__(self, path):
        self.text = path.read_text()
        self.imports, self.modules = imports_of(self.text)
        self.blocks = {}
        name = None
        for line in self.text.splitlines():
            if not line.strip() or line.startswith(("--", "use ")):
                continue
            if not line.startswith(" "):
                found = HEAD.match(line)
                if DECLARED.match(line):
                    name = found[1]
                elif found and found[1] in self.blocks:
                    name = found[1]
            if name and not line.startswith("pub mod"):
                self.blocks.setdefault(name, []).append(line)
        # the fields of a record and the constructors of data stand for it
        self.members = {}
        for name, block in self.blocks.items():
            if re.match(r"(?:pub )?(?:record|data) ", block[0]):
                for line in block[1:]:
                    found = re.match(r"  (?:pub )?([^\s:(]+) :", line)
                    if found:
                        self.members.setdefault(found[1], name)


def imports_of(text):
    """Names with where they come from, and other names of whole modules."""
    names, modules = {}, {}
    for path, listed, other in IMPORT.findall(re.sub(r"\{\s*([^}]*?)\s*\}", lambda found: "{" + " ".join(found[1].split()) + "}", text)):
        if listed:
            for one in (it.strip() for it in listed.split(",") if it.strip()):
                name, _, new = one.partition(" as ")
                names[new or name] = (path, name)
        else:
            modules[other or path.rsplit(".", 1)[1]] = path
    return names, modules


def source_of(crate, module):
    """The file of a module of a crate's code, by its path with points."""
    path = CRATES / crate / "src" / module.replace(".", "/")
    for file in (path.with_suffix(".rt"), path.parent.with_suffix(".rt"), CRATES / crate / "src" / "lib.rt"):
        if file.exists():
            return file
    return None


def block_at(text, head):
    """The text from that place on up to the brace that closes it, or to its semicolon."""
    depth = 0
    for at in range(head, len(text)):
        if text[at] in "{(":
            depth += 1
        elif text[at] in "})":
            depth -= 1
            if depth == 0 and text[at] == "}":
                return text[head : at + 1]
        elif text[at] == ";" and depth == 0:
            return text[head : at + 1]
    return text[head:]


class Reader:
    """All that is reached, with its lines, and what was not found."""

    def __init__(self):
        self.specs, self.sources = {}, {}
        self.found = {}
        self.reached_from = {}
        self.faults = []
        self.waiting = []

    def definitions(self, crate, file):
        path = self.path_of(crate, file)
        if path not in self.specs:
            self.specs[path] = Definitions(path) if path.exists() else None
        return self.specs[path]

    def path_of(self, crate, file):
        return CRATES / crate / "specs" / f"{file.replace('.', '/')}.antt"

    def owner_of(self, crate, file):
        """The crate that a module of definitions stands in: this one, or one below that it passes it on from."""
        while not self.path_of(crate, file).exists():
            below = re.search(rf"use Rattle\.(\w+)\.specs(?:\.\{{[^}}]*\b{file}\b|\.{file}\b)", (CRATES / crate / "specs" / "Lib.antt").read_text())
            if not below:
                return crate
            crate = below[1]
        return crate

    def take(self, item, text, imports, modules, own, above=None):
        """Lists an item that another one names, and looks at each word of its text."""
        if item in self.found:
            return
        self.reached_from[item] = above
        body = "\n".join(lines_of(text))
        self.found[item] = len(body.splitlines())
        for word in set(WORD.findall(body)):
            self.waiting.append((word, imports, modules, own, item))

    def follow(self):
        while self.waiting:
            word, imports, modules, own, item = self.waiting.pop()
            parts = word.split(".")
            for count in range(len(parts), 0, -1):
                name = ".".join(parts[:count])
                if name in imports:
                    self.enter(*imports[name], item)
                    break
                if name in modules:
                    self.enter(modules[name], ".".join(parts[count : count + 1]), item)
                    break
                if own and self.enter_own(own, name, item):
                    break

    def enter_own(self, own, name, item):
        """A name of the same file."""
        crate, file = own = self.owner_of(*own), own[1]
        definitions = self.definitions(crate, file)
        known = definitions and (name if name in definitions.blocks else definitions.members.get(name))
        if known:
            self.take(Item(crate, f"specs/{file}.antt", known, "definition"), "\n".join(definitions.blocks[known]), definitions.imports, definitions.modules, own, item)
        return bool(known)

    def enter(self, path, name, item):
        """A name of a module by its whole path; those of the toolchain and its libraries are passed over."""
        parts = path.split(".")
        crate = parts[0]
        if not (CRATES / crate).is_dir():
            return
        if parts[1:2] == ["proofs"]:
            self.faults.append(f"{item.name} rests on a proof, {path}")
        elif parts[2:3] == ["declared"]:
            self.enter_type(crate, [it for it in parts[3:] if it != "TheVariants"], name, item)
        elif not (self.enter_own((crate, ".".join(parts[2:])), name, item) or name == "" or self.of_type_in(crate, parts[2:], name, item)):
            self.faults.append(f"{item.name}: {name} of {path} is not found")

    def of_type_in(self, crate, parts, name, item):
        """A name that a module of definitions passes on from a module that it is over."""
        return bool(parts) and parts[0][:1].islower() and self.enter_type(crate, parts, name, item)

    def code(self, path):
        if path not in self.sources:
            self.sources[path] = path.read_text()
        return self.sources[path]

    def enter_type(self, crate, parts, name, item):
        """A declared type: its declaration, and what clauses see of it."""
        wanted = next((it for it in reversed(parts) if it[:1].isupper()), name)
        module = ".".join(it for it in parts if it[:1].islower())
        return self.take_type(crate, module, wanted, item)

    def take_type(self, crate, module, wanted, item):
        """Of a type that clauses see as something else, what they see; of another one its declaration."""
        near = source_of(crate, module) if module else None
        files = ([near] if near else []) + sorted((CRATES / crate / "src").rglob("*.rt"))
        for path in files:
            text = self.code(path)
            found = re.search(rf"^(?:pub(?:\([^)]*\))? )?(?:struct|enum|type) {re.escape(wanted)}\b", text, re.M)
            if found:
                shown = re.search(rf"^impl(?:<[^>]*>)? Model for {re.escape(wanted)}\b", text, re.M)
                body = block_at(text, (shown or found).start())
                imports, modules = imports_of(text)
                file = str(path.relative_to(CRATES / crate))
                self.take(Item(crate, file, wanted, "type"), body, {**self.types_in(crate, text), **imports}, modules, None, item)
                return True
        return False

    def types_in(self, crate, text):
        """The types that a file of code names, by their crates."""
        named = {}
        for of, path in CODE_IMPORT.findall(text):
            owner = crate if of == "crate" else of
            if (CRATES / owner).is_dir():
                for name in re.findall(r"\b[A-Z]\w*", path):
                    named[name] = (f"{owner}.specs.declared", name)
        for found in re.finditer(TYPE.pattern, text, re.M):
            named[found[1]] = (f"{crate}.specs.declared", found[1])
        return named

    def take_contract(self, crate, file, name):
        """The contract of a function: from its head to its body."""
        path = CRATES / crate / "src" / file
        text = self.code(path)
        head = text.index(f"pub fn {name}")
        contract = text[head : text.index("\n{\n", head)]
        imports, modules = imports_of(text)
        known = {**self.types_in(crate, text), **imports}
        self.take(Item(crate, f"src/{file}", name, "contract"), contract, known, modules, None)
        for trait in set(re.findall(r"\w+: (\w+)[,>]", contract[: contract.index("(")])):
            self.take_trait(trait)

    def take_trait(self, trait):
        for path in sorted(CRATES.glob("*/src/**/*.rt")):
            text = self.code(path)
            found = re.search(rf"^pub trait {trait}\b", text, re.M)
            if found:
                crate = path.relative_to(CRATES).parts[0]
                imports, modules = imports_of(text)
                self.take(Item(crate, str(path.relative_to(CRATES / crate)), trait, "trait"), block_at(text, found.start()), {**self.types_in(crate, text), **imports}, modules, None)
                return
        self.faults.append(f"the trait {trait} is not found")


def table(reader, order):
    """The rows of the list, lowest crate first, and its total."""
    files = {}
    for item, count in reader.found.items():
        files.setdefault((item.crate, item.file), []).append((item.name, count))
    rows = ["| Crate | File | What to read there | Lines |", "|---|---|---|---|"]
    for crate, file in sorted(files, key=lambda it: (order.index(it[0]), it[1])):
        names = sorted(files[crate, file])
        rows.append(f"| `{crate}` | `{file}` | {', '.join(f'`{name}`' for name, _ in names)} | {sum(count for _, count in names)} |")
    total = sum(reader.found.values())
    return [f"{total:,} lines in {len(files)} files of {len({it.crate for it in reader.found})} crates.", "", *rows]


def main():
    reader = Reader()
    reader.take_contract(*START)
    reader.follow()
    order = re.findall(r"^(\w+):", (TOP / "crates.txt").read_text(), re.M)
    wanted = "\n".join([MARKS[0], "", *table(reader, order), "", MARKS[1]])
    page = PAGE.read_text()
    begin, end = page.index(MARKS[0]), page.index(MARKS[1]) + len(MARKS[1])
    if sys.argv[1:2] == ["--why"]:
        for item in (it for it in reader.found if it.name in sys.argv[2:]):
            while item:
                print(f"{item.name} ({item.kind}, crates/{item.crate}/{item.file})")
                item = reader.reached_from[item]
    elif sys.argv[1:] == ["--write"]:
        page = page[:begin] + wanted + page[end:]
        PAGE.write_text(page)
    elif page[begin:end] != wanted:
        reader.faults.append("docs/TRUST.md is not what the contract of serve reaches: tests/trust.py --write")
    for fault in reader.faults:
        print(fault)
    print(f"{len(reader.faults)} faults")
    return 1 if reader.faults else 0


if __name__ == "__main__":
    sys.exit(main())
