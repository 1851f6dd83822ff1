#!/usr/bin/env python3
"""Whether the crates stand in their layers: `layers.py [--write]`

crates.txt lists the crates in layers. Of them it looks that

- each crate stands on crates above it in the list alone, of its own layer or of those that its layer stands on,
- a layer stands on layers above it in the list alone, and what checks a certificate on nothing of advice, search or journal,
- the map of the layers in docs/ARCHITECTURE.md is the one that crates.txt gives, and so is what each crate stands on there: the
  nearest crates, those on which no other of them stands.

With --write the map and these columns are written anew. Its last line is `N faults`.
"""

import re
import sys
from pathlib import Path

TOP = Path(__file__).resolve().parent.parent
LIST = TOP / "crates.txt"
PAGE = TOP / "docs" / "ARCHITECTURE.md"
HEADING = re.compile(r"# == (\w+) == (.+); stands on: (.+)")
ROW = re.compile(r"(?m)^\| `(\w+)` \| ([^|]*) \| ([^|]*) \|$")
MAP = re.compile(r"(?s)```mermaid\n.*?```\n")
# A certificate is judged by nothing of these.
UNTRUSTED = {"advice", "search", "journal"}


class Layers:
    """The layers and the crates of the list, in its order."""

    def __init__(self, text):
        self.stands_on = {}
        self.what = {}
        self.layer = {}
        self.uses = {}
        now = None
        for line in text.splitlines():
            heading = HEADING.fullmatch(line)
            if heading:
                now = heading[1]
                self.what[now] = heading[2]
                self.stands_on[now] = self.named_layers(heading[3])
            elif line and not line.startswith("#"):
                name, libraries = line.split(":")
                self.layer[name] = now
                self.uses[name] = libraries.split()
        self.below = {}
        for name in self.uses:
            own = self.own(name)
            self.below[name] = set(own).union(*(self.below.get(it, set()) for it in own))

    def named_layers(self, text):
        return {"nothing": [], "all": [*self.stands_on]}.get(text, text.split(", "))

    def own(self, name):
        """The crates of the repository that a crate names."""
        return [it for it in self.uses[name] if it in self.uses]

    def nearest(self, name):
        """The crates that a crate names and on which none of the others that it names stands."""
        own = self.own(name)
        return [it for it in own if not any(it in self.below[other] for other in own)]

    def used_layers(self, layer):
        """The other layers of which crates of a layer name crates."""
        found = {self.layer[it] for name in self.uses if self.layer[name] == layer for it in self.own(name)}
        return [it for it in self.stands_on if it in found - {layer}]

    def faults(self):
        above = []
        for name in self.uses:
            for it in self.own(name):
                if it not in above:
                    yield f"{name} stands on {it}, which comes later in the list"
                elif self.layer[it] not in [self.layer[name], *self.stands_on.get(self.layer[name], [])]:
                    yield f"{name} ({self.layer[name]}) stands on {it} ({self.layer[it]}), and its layer doesn't"
            above.append(name)
        layers = []
        for layer, others in self.stands_on.items():
            yield from (f"the layer {layer} stands on {it}, which is none above it" for it in others if it not in layers)
            yield from (f"nothing of {layer} stands on {it}" for it in others if layer != "tests" and it not in self.used_layers(layer))
            layers.append(layer)
        for name, below in self.below.items():
            judging = self.layer[name] == "certificate"
            yield from (f"{name} judges certificates and stands on {it}" for it in below if judging and self.layer[it] in UNTRUSTED)

    def map(self):
        """The layers, with the edges that no others imply."""
        lines = ["```mermaid", "flowchart BT"]
        below = {}
        for layer in self.stands_on:
            used = self.used_layers(layer)
            below[layer] = set(used).union(*(below[it] for it in used))
            lines.append(f'    {layer}["{layer}: {self.what[layer]}"]')
            lines += [f"    {layer} --> {it}" for it in used if not any(it in below[other] for other in used)]
        return "\n".join([*lines, "```", ""])


def column(layers, name):
    return ", ".join(f"`{it}`" for it in layers.nearest(name)) or "nothing"


def written(layers, page):
    """The page with its map and its columns as the list gives them."""

    def row(found):
        name, _, what = found.groups()
        return f"| `{name}` | {column(layers, name)} | {what} |" if name in layers.uses else found[0]

    return MAP.sub(lambda _: layers.map(), ROW.sub(row, page), count=1)


def page_faults(layers, is_to_write):
    """Where the page says otherwise than the list; with `is_to_write` it is written as the list says."""
    page = PAGE.read_text()
    wanted = written(layers, page)
    if is_to_write:
        PAGE.write_text(wanted)
    elif layers.map() not in page:
        yield "docs/ARCHITECTURE.md: the map is not that of crates.txt"
    elif wanted != page:
        lines = zip(page.splitlines(), wanted.splitlines())
        yield from (f"docs/ARCHITECTURE.md: {line}\n  is to be: {other}" for line, other in lines if line != other)


def main():
    layers = Layers(LIST.read_text())
    # What stands in no order has no map.
    faults = [*layers.faults()] or [*page_faults(layers, sys.argv[1:] == ["--write"])]
    for fault in faults:
        print(fault)
    print(f"{len(faults)} faults")
    return 1 if faults else 0


if __name__ == "__main__":
    sys.exit(main())
