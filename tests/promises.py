#!/usr/bin/env python3
"""Whether the pages of promises say what stands at the clauses: `promises.py [--write]`

A promise is one sentence in a comment right above the clause that carries it: `// Promise: ..` above a clause of a function or, where
it has none, above the function; `-- Promise: ..` above a definition or a field of it. Its further lines are indented by two more. A
sentence that several clauses carry stands above each of them; above a function that is not public it speaks to a reader of the code
alone. Of these docs/promises/LAYER.md is made, a table for each crate, with the call or the definition and the clause or the
field. Looks that these pages are as they are to be; with --write it writes them. Its last line is `N faults`.
"""

import re
import sys
from pathlib import Path

sys.dont_write_bytecode = True
TOP = Path(__file__).resolve().parent.parent
sys.path.insert(0, str(TOP / "tests"))
from layers import LIST, Layers  # noqa: E402

PAGES = TOP / "docs" / "promises"
PROMISE = re.compile(r"\s*(?://|--) Promise: (.+)")
FURTHER = re.compile(r"\s*(?://|--)   (\S.*)")
COMMENT = re.compile(r"\s*(?://|--)")
PUBLIC = re.compile(r"\s*pub (?:const )?fn ")
BLOCK = re.compile(r"(?:pub(?:\([^)]*\))? )?(?:impl|trait)\b.*")
FUNCTION = re.compile(r"\s*(?:pub(?:\([^)]*\))? )?(?:const )?fn (\w+)")
CLAUSE = re.compile(r"\s*(ensures|requires)\*? (?:(\w+) )?\{")
DEFINITION = re.compile(r"(?:pub record|abbrev pub|unfoldable pub|pub data) (\w+)")
FIELD = re.compile(r"  pub (\w+) :")


class Promise:
    """A sentence and what carries it: a call and a clause, or a definition and a field."""

    def __init__(self, sentence, carrier, clause, file):
        self.sentence = sentence
        self.carrier = carrier
        self.clause = clause
        self.file = file


def owner_of(block):
    """The type or the trait that a block of methods belongs to."""
    found = re.search(r"\bfor (\w+)", block) or re.search(r"(?:impl(?:<[^>]*>)?|trait) (\w+)", block)
    return found[1] if found else None


def promises_in(path):
    """The promises of a file in their order, and where a promise stands above nothing that could carry it."""
    file = path.relative_to(TOP)
    owner = carrier = None
    is_of_trait = is_public = False
    waiting = []
    for number, line in enumerate(path.read_text().splitlines(), 1):
        told, further = PROMISE.fullmatch(line), FURTHER.fullmatch(line)
        if told:
            waiting.append(told[1])
            continue
        if further and waiting:
            waiting[-1] += f" {further[1]}"
            continue
        if COMMENT.match(line) and not line.strip().startswith("///"):
            continue
        if BLOCK.fullmatch(line):
            owner = owner_of(line)
            is_of_trait = bool(re.search(r"\btrait\b|\bfor\b", line))
        elif line.startswith("}"):
            owner = None
        function, clause = FUNCTION.match(line), CLAUSE.match(line)
        definition, field = DEFINITION.match(line), FIELD.match(line)
        if function:
            carrier = f"{owner}::{function[1]}" if owner else function[1]
            is_public = bool(PUBLIC.match(line)) or bool(owner) and is_of_trait
        elif definition:
            carrier = definition[1]
            is_public = True
        if waiting and not (function or clause or definition or field):
            yield None, f"{file}:{number}: a promise stands above no clause"
            waiting = []
        name = field[1] if field else clause[2] or "" if clause else ""
        condition = bool(clause) and clause[1] == "requires"
        for sentence in waiting if is_public else []:
            yield Promise(sentence, carrier, f"{name} (a condition)" if condition else name, file), None
        waiting = []


def of_crate(name):
    """The promises of a crate, those of its code first, and its faults."""
    folder = TOP / "crates" / name
    found = [it for part, kind in (("src", "*.rt"), ("specs", "*.antt")) for path in sorted((folder / part).rglob(kind)) for it in promises_in(path)]
    return [it for it, _ in found if it], [fault for _, fault in found if fault]


def table(promises):
    """Rows of sentences, each with all that carries it."""
    carriers = {}
    for it in promises:
        at = f"`{it.carrier}`" + (f", `{it.clause}`" if it.clause and " (" not in it.clause else f", {it.clause}" if it.clause else "")
        carriers.setdefault(it.sentence, []).append((at, f"`{'/'.join(it.file.parts[2:])}`"))
    for sentence, at in carriers.items():
        yield f"| {sentence} | {'; '.join(one for one, _ in at)} | {', '.join(dict.fromkeys(file for _, file in at))} |"


def page(layers, layer):
    """The page of a layer, or nothing, and faults."""
    lines = [f"# What is promised: {layer}", "", f"{layers.what[layer].capitalize()}. Made by `tests/promises.py --write` of the sentences at the clauses."]
    faults = []
    for name in (it for it in layers.uses if layers.layer[it] == layer):
        promises, wrong = of_crate(name)
        faults += wrong
        if promises:
            lines += ["", f"## `{name}`", "", "| Promise | Call or definition, clause or field | File |", "|---|---|---|", *table(promises)]
    return ("\n".join(lines) + "\n" if len(lines) > 3 else ""), faults


def main():
    layers = Layers(LIST.read_text())
    faults = []
    wanted = {}
    for layer in layers.stands_on:
        text, wrong = page(layers, layer)
        faults += wrong
        if text:
            wanted[PAGES / f"{layer}.md"] = text
    if sys.argv[1:] == ["--write"]:
        PAGES.mkdir(exist_ok=True)
        for path, text in wanted.items():
            path.write_text(text)
    there = {path for path in PAGES.glob("*.md") if path.name != "README.md"}
    faults += [f"{path.relative_to(TOP)} is no layer's page" for path in sorted(there - wanted.keys())]
    for path, text in wanted.items():
        if not path.exists() or path.read_text() != text:
            faults.append(f"{path.relative_to(TOP)} is not what the clauses say: tests/promises.py --write")
    for fault in faults:
        print(fault)
    print(f"{len(faults)} faults")
    return 1 if faults else 0


if __name__ == "__main__":
    sys.exit(main())
