#!/usr/bin/env python3
"""Whether the doors to other solvers say the same as the program: `other_solvers.py [POOL]`

What `tools/program_to_lp` writes in the LP format and in AMPL's language is read back by a reader of this file, and is the text of
`pool formulate` again, for each network of examples/ and some that `pool make` makes, in all three forms. The relaxation is solved by
`glpsol`, where that is installed, in both languages: it finds the root bounds that the literature has. `tools/network_from_dat`
reads Haverly's networks in the tables of Alfaki and Haugland, as GAMS and as AMPL have them, and tells what does not fit. POOL is the
program, else that of the door. It prints what differs, and how many programs there were.
"""

import json
import os
import re
import shutil
import subprocess
import sys
import tempfile
from fractions import Fraction
from pathlib import Path

sys.dont_write_bytecode = True
TOP = Path(__file__).resolve().parent.parent
sys.path.insert(0, str(TOP / "tools"))
import pooling

tool = pooling.beside("program_to_lp")
EXAMPLES = TOP / "examples"
FORMS = ("p", "q", "pq")
VARIABLE = re.compile(r"[xyzwQpv][0-9]+")

# The bounds at the root that the literature has: of P for Haverly's first network, of PQ for the others.
ROOTS = {("haverly1", "p"): -500, ("bental4", "pq"): -550, ("foulds2", "pq"): -1100, ("adhya1", "pq"): Fraction(-840271, 1000), ("adhya4", "pq"): Fraction(-959020, 1000)}


def run(tool, *words, at=None):
    return subprocess.run([str(TOP / "tools" / tool), *map(str, words)], capture_output=True, text=True, cwd=at)


def pool(*words):
    return subprocess.run([pooling.program(), *map(str, words)], capture_output=True, text=True, check=True).stdout


# ---- a reader of both languages


def terms(text):
    """Variables with their coefficients, in the order in which they stand."""
    found = re.findall(r"([-+]?) ?([0-9]+(?:\.[0-9]+)?)? ?\*? ?([xyzwQpv][0-9]+|nothing)", " ".join(text.split()))
    return [(name, Fraction(size or 1) * (-1 if sign == "-" else 1)) for sign, size, name in found if Fraction(size or 1)]


class Read:
    """Cost, ends, rows and products of a text."""

    def __init__(self, text):
        self.cost, self.ends, self.rows, self.products = [], {}, [], []

    def row(self, name, left, sign, right):
        if not name.startswith("row"):
            return
        self.rows.append((int(name[3:]), "eq" if sign == "=" else "ge", -Fraction(right), terms(left)))

    def program(self, form):
        """The text that `pool formulate` prints of this."""
        number = lambda value: str(value) if Fraction(value).denominator == 1 else f"{value} is not whole"
        written = lambda pairs: "".join(f" {name} {number(a)}" for name, a in pairs)
        lines = [f"program {form}", "min" + written(self.cost)] + [f"ends {name} {number(low)} {number(high)}" for name, (low, high) in self.ends.items()]
        rows = [(row, f"row {row} {kind} {number(constant)}{written(found)}") for row, kind, constant, found in self.rows]
        products = [f"prod {variable} {a} {b} {number(scale)}" for variable, a, b, scale in self.products]
        return lines, [line for _, line in rows], products


class ReadLp(Read):
    def __init__(self, text):
        super().__init__(text)
        body = re.sub(r"(?m)^\\.*\n", "", text)
        cost, rest = re.fullmatch(r"Minimize\n cost:(.*?)\nSubject To\n(.*)", body, re.DOTALL).groups()
        rows, bounds = re.fullmatch(r"(.*?)Bounds\n(.*)End\n", rest, re.DOTALL).groups()
        self.cost = terms(cost)
        for name, left, sign, right in re.findall(r"(?ms)^ (\w+): (.*?)\s+(>=|=)\s+(-?[0-9.]+)$", rows):
            product = re.fullmatch(r"(.*) \+ \[ - (\w+) \* (\w+) \]", left)
            if product:
                [(variable, scale)] = terms(product.group(1))
                self.products.append((variable, product.group(2), product.group(3), scale))
            self.row(name, left, sign, right)
        for low, name, high in re.findall(r"(?m)^ (-?[0-9.]+) <= (\w+) <= (-?[0-9.]+)$", bounds):
            self.ends[name] = Fraction(low), Fraction(high)


class ReadMod(Read):
    def __init__(self, text):
        super().__init__(text)
        for statement in re.sub(r"(?m)^#.*\n", "", text).split(";"):
            statement = " ".join(statement.split())
            if found := re.fullmatch(r"var (\w+) >= (-?[0-9.]+), <= (-?[0-9.]+)", statement):
                self.ends[found[1]] = Fraction(found[2]), Fraction(found[3])
            elif found := re.fullmatch(r"minimize cost: (.*)", statement):
                self.cost = terms(found[1])
            elif found := re.fullmatch(r"subject to product_\w+: (.*) = (\w+)\*(\w+)", statement):
                [(variable, scale)] = terms(found[1])
                self.products.append((variable, found[2], found[3], scale))
            elif found := re.fullmatch(r"subject to (\w+): (.*) (>=|=) (-?[0-9.]+)", statement):
                self.row(*found.groups())


# ---- the parts


def read_back(folder):
    nets = [*sorted(EXAMPLES.glob("*.json"))]
    for number in ("1", "2", "9"):
        (folder / f"make{number}.json").write_text(pool("make", number))
        nets.append(folder / f"make{number}.json")
    for net in nets:
        for form in FORMS:
            text = pool("formulate", net, "--form", form)
            for language, reader in (("lp", ReadLp), ("mod", ReadMod)):
                found = getattr(tool, f"{language}_text")(tool.Program("program", text), "")
                head, rows, products = reader(found).program(form)
                lines = text.splitlines()[:-1]
                if head + rows + products != [line for word in ("program", "min", "ends", "row", "prod") for line in lines if line.split(" ")[0] == word]:
                    yield f"{net.stem}, form {form}, {language}: another program comes back"
                if max(map(len, found.splitlines())) > 250:
                    yield f"{net.stem}, form {form}, {language}: a long line"


def in_units(folder):
    """Haverly's first network at its best plan: all of B goes to Y through the pool, and as much of C."""
    (folder / "program").write_text(pool("formulate", EXAMPLES / "haverly1.json", "--form", "p"))
    point = {"x0": 0, "x1": 100, "y0": 0, "y1": 100, "z0": 0, "z1": 100, "p0": 1, "v0": 0, "v1": 100}
    read = ReadLp(run("program_to_lp", "program", "--units", at=folder).stdout)
    value = lambda found: sum(a * point[name] for name, a in found)
    if value(read.cost) != -400 or set(read.ends) != set(point) or read.ends["v1"] != (0, 600) or read.ends["p0"] != (1, 3):
        yield f"in units: the cost is {value(read.cost)}, and the ends are {read.ends}"
    for number, kind, constant, found in read.rows:
        if (constant + value(found) != 0) if kind == "eq" else (constant + value(found) < 0):
            yield f"in units: row {number} does not hold"
    if sorted(number for number, kind, constant, found in read.rows if kind == "ge" and constant + value(found) == 0) != [6, 7, 10, 11]:
        yield "in units: other rows are at their limit"
    if [(name, a, b, scale) for name, a, b, scale in read.products] != [("v0", "p0", "y0", 1), ("v1", "p0", "y1", 1)]:
        yield f"in units: the products are {read.products}"


def roots(folder):
    if not shutil.which("glpsol"):
        print("skipped: no relaxation was solved: glpsol is not installed (apt-get install glpk-utils)")
        return
    for (name, form), bound in [*ROOTS.items(), (("empty", "pq"), 0)]:
        (folder / "program").write_text(pool("formulate", EXAMPLES / f"{name}.json", "--form", form))
        for language, words in (("lp", ["--lp"]), ("mod", ["-m"])):
            (folder / "relaxation").write_text(run("program_to_lp", "program", "--relaxation", "--units", "--format", language, at=folder).stdout)
            subprocess.run(["glpsol", *words, "relaxation", "-o", "answer"], cwd=folder, capture_output=True)
            found = re.search(r"(?m)^Objective:  cost = (\S+) \(MINimum\)$", (folder / "answer").read_text())
            if not found or abs(Fraction(found[1]) - bound) > Fraction(1, 1000):
                yield f"{name}, form {form}, {language}: glpsol finds {found and found[1]}, and the root bound is {bound}"


# Haverly's first network in the tables of Alfaki and Haugland. Node 4 is the pool, and 5 and 6 are the terminals.
GAMS = """$ontext
  a pooling instance; set i / nothing /
$offtext
set i    / 1*6 /;
set s(i) / 1*3 /;
set t(i) / 5*6 /;
set k    / 1*1 /;
alias (i,j);
# The cost along arcs
table c(i,j)
             4           5           6
 1        6.00        0.00        0.00
 2       16.00        0.00        0.00
 3        0.00        1.00       -5.00
 4        0.00       -9.00      -15.00 ;
table a(i,j)
   4   5   6
 1    1   0   0
 2    1   0   0
 3    0   1   1
 4    0   1   1 ;
table q(i,k)
            1
 1       3.00
 2       1.00
 3       2.00
 5       2.50
 6       1.50 ;
parameter bl(i) /  1    0.00
   5   0.00
   6   0.00 / ;
parameter bu(i) /  1  300.00
 2 300, 3 300
 4      300.00
 5      100.00
 6      200.00 / ;
$include xmodel.gms
"""
AMPL = """set S := 1 2 3;
set T := 5 6; set K := 1;
param c : 4 5 6 :=
  1 6 . .
  2 16 . .
  3 . 1 -5
  4 . -9 -15;
param q : 1 := 1 3.00  2 1.00
  3 2.00  5 2.50  6 1.50;
param bu := 1 300 2 300 3 300 4 300 5 100 6 200;
"""
HAVERLY = {"version": 1, "qualities": ["1"],
           "sources": [{"name": "1", "cost": 6, "max": 300, "quality": {"1": 3}}, {"name": "2", "cost": 16, "max": 300, "quality": {"1": 1}}, {"name": "3", "cost": 10, "max": 300, "quality": {"1": 2}}],
           "pools": [{"name": "4", "max": 300}],
           "products": [{"name": "5", "price": 9, "max": 100, "most": {"1": "2.5"}}, {"name": "6", "price": 15, "max": 200, "most": {"1": "1.5"}}],
           "arcs": [["1", "4"], ["2", "4"], ["3", "5"], ["3", "6"], ["4", "5"], ["4", "6"]]}

UNFIT = [
    (GAMS, " 4    0   1   1 ;", " 4    1   1   1 ;", "21: the arc from 4 to 4 goes from a pool to a pool, which network files have not"),
    (GAMS, "bl(i) /  1    0.00", "bl(i) /  1    5.00", "29: 1 has a least that passes it, and network files have that of products alone"),
    (GAMS, "16.00", "16.0000001", "13: no number of six decimals at most: 16.0000001"),
    (GAMS, " 2    1   0   0\n", " 2    1   0\n", "19: 2 numbers in a row of 3 columns"),
    (GAMS, "   5   0.00\n", "   5\n", "29: bl: a name without a number"),
    (GAMS, " 3    0   1   1", " 3    0   2   1", "20: a has a number that is neither 0 nor 1"),
    (GAMS, "set k    / 1*1 /;", "", "1: the set k is absent"),
    (GAMS, "table q(i,k)", "tabel q(i,k)", "22: no set, table or parameter: tabel q(i,k) 1 1 3.00"),
    (GAMS, "100.00", "2000000", " the network does not fit: products[0].max: a number is outside its limits (9 11)"),
    (GAMS, " 1       3.00\n", "", " the network does not fit: sources[0].quality: an object lacks a member (5)"),
    (AMPL, "4 . -9 -15", "4 . -9", "3: a table whose rows are not as long as its columns are many"),
    (AMPL, "set T := 5 6;", "set T := 5 6; set S := 4;", "2: S stands twice"),
    (AMPL, "param bu :=", "param bu", "10: a parameter of another form"),
]


def own_costs(folder):
    """Where 5 pays 8 for what the pool sends, 3 costs 9 for what it sends to 5, and 1 more for what it sends to 6: the arc's own cost."""
    (folder / "instance").write_text(GAMS.replace("        0.00       -9.00", "        0.00       -8.00"))
    found = run("network_from_dat", "instance", at=folder)
    net = pooling.Network.of(found.stdout.encode())
    told = ([source.cost for source in net.sources], [product.price for product in net.products], [(*ends, arc.cost) for ends, arc in zip(net.arc_names(), net.arcs) if arc.cost])
    if (net.value["version"], *told) != (2, [6_000_000, 16_000_000, 9_000_000], [8_000_000, 15_000_000], [("3", "6", 1_000_000)]):
        yield f"costs of arcs: {told}"
    if (found := pooling.solve(net, gap="0.001")).cost != -400:
        yield f"costs of arcs: it costs {found.cost}"


def instances(folder):
    for label, text in (("GAMS", GAMS), ("AMPL", AMPL)):
        (folder / "instance").write_text(text)
        found = run("network_from_dat", "instance", "--title", "Haverly", at=folder)
        if found.returncode:
            yield f"{label}: {found.stderr}"
            continue
        net = pooling.Network.of(found.stdout.encode())
        if net.title != "Haverly" or {**json.loads(net.canonical()), "arcs": None} != {**json.loads(pooling.network_of(HAVERLY).canonical()), "arcs": None} or sorted(net.arc_names()) != sorted(map(tuple, HAVERLY["arcs"])):
            yield f"{label}: another network: {net.canonical()}"
        if (found := pooling.solve(net, gap="0.001")).cost != -400:
            yield f"{label}: it costs {found.cost}"
    yield from own_costs(folder)
    for text, old, new, line in UNFIT:
        assert old in text, old
        (folder / "instance").write_text(text.replace(old, new, 1))
        found = run("network_from_dat", "instance", at=folder)
        told = found.stderr.splitlines()[0] if found.stderr else ""
        if (found.returncode, found.stdout) != (3, "") or not re.sub(r"(instance: the network does not fit: )[0-9:]+ ", r"\1", told).startswith("instance:" + line) or "Traceback" in found.stderr:
            yield f"{new!r}: {found.returncode} {found.stderr}"


BAD = [("min x0 1", "min x0 1.5", "2: no whole number: '1.5'"), ("ends x0 0 1\n", "", "2: a variable of the cost has no ends"), ("row 0 ge 1 x0 -1", "row 0 le 1 x0 -1", "4: a row without a number, ge or eq, and a constant"),
       ("row 0 ge 1 x0 -1", "row 0 ge 1 x1 -1", "4: a term of no variable that has ends"), ("end\n", "", "5: no line that begins with 'end', or one of another length"), ("program q", "program r", "1: a form that is none of p, q and pq"),
       ("end\n", "end\nend\n", "5: something behind the last line, or no line feed there"), ("row 0", "prod x0 x0 x1 1\nrow 0", "4: a product of no variables that have ends")]


def bad_programs(folder):
    good = "program q\nmin x0 1\nends x0 0 1\nrow 0 ge 1 x0 -1\nend\n"
    for old, new, line in BAD:
        (folder / "bad").write_text(good.replace(old, new, 1))
        found = run("program_to_lp", "bad", at=folder)
        if (found.returncode, found.stdout, found.stderr) != (1, "", f"bad:{line}\n"):
            yield f"{new!r}: {found.returncode} {found.stderr}"
    for tool, words, status in (("program_to_lp", ["nowhere"], 20), ("program_to_lp", [], 2), ("program_to_lp", ["bad", "--format", "x"], 2), ("network_from_dat", ["nowhere"], 20), ("network_from_dat", [], 2)):
        if (found := run(tool, *words, at=folder)).returncode != status or found.stdout or "Traceback" in found.stderr:
            yield f"{tool} {words}: {found.returncode} {found.stderr}"


def main(*program):
    if program:
        os.environ["POOL"] = os.path.abspath(program[0])
    os.environ["LC_ALL"] = "C"
    parts, differ = [read_back, in_units, roots, instances, bad_programs], []
    for part in parts:
        with tempfile.TemporaryDirectory() as folder:
            differ += [f"{part.__name__}: {fault}" for fault in part(Path(folder))]
    print(*differ, sep="\n", end="\n" if differ else "")
    print(f"{len(parts)} parts, {len(UNFIT)} instances that do not fit, {len(differ)} differ")
    return 1 if differ else 0


if __name__ == "__main__":
    sys.exit(main(*sys.argv[1:]))
