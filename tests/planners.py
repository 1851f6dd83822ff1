#!/usr/bin/env python3
"""Whether the tools for planners do what they say: `planners.py [POOL]`

What they say is compared with numbers worked out by hand, with best costs of the
literature, and with what the program finds where it solves the changed network; each certificate that they print is accepted by
the program and by the second checker. Bad input is told at its file, line or member, with the tool's status, and nothing is
printed or written then. POOL is the program, else that of the door. It prints what differs, and how many parts there were.
"""

import csv
import io
import json
import os
import random
import re
import signal
import subprocess
import sys
import tempfile
import time
import xml.etree.ElementTree as tree
from fractions import Fraction
from html.parser import HTMLParser
from pathlib import Path

sys.dont_write_bytecode = True
TOP = Path(__file__).resolve().parent.parent
sys.path[:0] = [str(TOP / "tools"), str(TOP / "tests")]
import damaged_certificates as damaged
import pictures
import pooling
from journal_bytes import heeds_interrupts

EXAMPLES, SEED, DRAWN = TOP / "examples", 1980, 30
checker = damaged.checker


def run(tool, *words, at=None, data=None):
    return subprocess.run([str(TOP / "tools" / tool), *map(str, words)], capture_output=True, text=True, cwd=at, input=data)


def pool(*words):
    return subprocess.run([pooling.program(), *map(str, words)], capture_output=True, text=True)


def solved(net, folder, *words):
    """The certificate of a network, in a file."""
    cert = folder / f"{net.stem}.cert"
    cert.write_text(pool("solve", net, *words).stdout)
    return cert


def accepted(net, cert, label):
    """What the program and the second checker say, where one of them does not accept a certificate."""
    program, here = pool("check", net, cert), checker.run([str(net), str(cert)])
    if program.returncode or here[0]:
        yield f"{label}: the program says {program.stdout or program.stderr!r}, the second checker {here}"


def bound_of(text):
    return next((Fraction(int(line.split()[1]), 10**12) for line in text.splitlines() if line.startswith("bound ")), None)


def rows_of(text):
    return list(csv.reader(io.StringIO(text)))


# ---- what_if, prices, why_none


def same_network(folder):
    """Valued for its own network, a certificate shows at least what it showed. How long that takes of 200 splits is printed, and not judged."""
    for name in ("haverly1", "adhya1", "wastewater", "no_plan"):
        net = EXAMPLES / f"{name}.json"
        cert = solved(net, folder, "--nodes", "200")
        begun = time.monotonic()
        found = run("what_if", net, cert)
        if name == "adhya1":
            print(f"adhya1's certificate of 200 splits is valued anew in {time.monotonic() - begun:.1f} s")
        (folder / "same.cert").write_text(found.stdout)
        yield from accepted(net, folder / "same.cert", f"{name} again")
        if found.returncode or name != "no_plan" and not bound_of(found.stdout) >= bound_of(cert.read_text()):
            yield f"{name} again: {found.returncode} {found.stderr}"


def literature(folder):
    """Haverly's second network is the first with 600 for X, his third one with 13 for B; their best costs are known."""
    net = EXAMPLES / "haverly1.json"
    cert = solved(net, folder, "--gap", "0.001")
    for change, best in (("products.X.max=600", -600), ("sources.B.cost=13", -750)):
        found = run("what_if", net, cert, "--set", change, "--network", folder / "other.json")
        (folder / "other.cert").write_text(found.stdout)
        yield from accepted(folder / "other.json", folder / "other.cert", change)
        before, now = found.stderr.splitlines()[:2]
        if not -2100 <= bound_of(found.stdout) <= best or not before.startswith("before: cost -400, bound -400") or not now.startswith("now   : cost "):
            yield f"{change}: the bound is {bound_of(found.stdout)}, and {best} is best: {found.stderr}"


def by_hand(folder):
    """100 units that are bought at 6 and sold at 9. More than 100 can't be bought, and 80 earn 240; sold at 10 they earn 400."""
    net, cert = EXAMPLES / "row1.json", EXAMPLES / "row1.cert"
    found = run("what_if", net, cert, "--table", "products.X.max=80..120/20", "--plot", folder / "plot.svg")
    wanted = [["products.X.max", "cost of the plan", "bound", "gap", "worth at most"], ["80", "", "-240", "", "-60"], ["100", "-300", "-300", "0", "0"], ["120", "-300", "-300", "0", "0"]]
    if rows_of(found.stdout) != wanted or found.returncode:
        yield f"a table of three maxima: {found.stdout} {found.stderr}"
    drawn = [text.text for text in tree.parse(folder / "plot.svg").iter("{http://www.w3.org/2000/svg}text")]
    yield from (f"the plot lacks {words!r}" for words in ("products.X.max", "80", "120", "bound -300", "cost -300") if words not in " | ".join(drawn))
    found = run("what_if", net, cert, "--set", "products.X.price=10")
    if found.stderr != "before: cost -300, bound -300, gap 0\nnow   : cost -400, bound -400, gap 0\n":
        yield f"a price of 10: {found.stderr}"
    found = run("what_if", net, cert, "--set", "sources.A.max=30")
    if found.stderr != "before: cost -300, bound -300, gap 0\nnow   : no plan known, bound -90\nthe plan is left out: source A sends 100, and 30 is its maximum\n":
        yield f"a maximum of 30: {found.stderr}"


def drawn_networks(folder):
    """Networks with changes that a number draws: each certificate is accepted, and no plan that is found costs less than its bound."""
    rng = random.Random(SEED)
    net, cert, other, there = (folder / name for name in ("drawn.json", "drawn.cert", "other.json", "other.cert"))
    for number in range(DRAWN):
        net.write_bytes(damaged.some_network(rng))
        cert.write_text(pool("solve", net, "--nodes", "12", "--gap", "0", "--rule", rng.choice(["widest", "violated"])).stdout)
        value = json.loads(net.read_text())
        kind = rng.choice(["sources", "pools", "products", "products"])
        node = rng.choice(value[kind])
        member = rng.choice({"sources": ["cost", "max"], "pools": ["max"], "products": ["price", "max", "max"] + [f"most.{name}" for name in node.get("most", {})]}[kind])
        change = f"{kind}.{node['name']}.{member}={rng.choice(['0', '0.5', '3', '17.25', '60'])}"
        found = run("what_if", net, cert, "--set", change, "--network", other, "--journal", folder / "drawn.journal")
        if found.returncode:
            yield f"{change}: {found.returncode} {found.stderr}"
            continue
        there.write_text(found.stdout)
        yield from accepted(other, there, f"network {number}, {change}")
        best = pool("solve", other, "--nodes", "30")
        cost = next((Fraction(*map(int, line.split()[1:])) / 10**12 for line in best.stdout.splitlines() if line.startswith("cost ")), None)
        if (bound_of(found.stdout) is None) != ("kind none" in found.stdout) or cost is not None and (bound_of(found.stdout) is None or bound_of(found.stdout) > cost):
            yield f"network {number}, {change}: the bound is {bound_of(found.stdout)}, and a plan costs {cost}"
        going_on = pool("solve", other, "--nodes", "30", "--journal", folder / "drawn.journal")
        if going_on.returncode not in (0, 10, 11, 12, 13) or cost is not None and bound_of(going_on.stdout) < bound_of(found.stdout):
            yield f"network {number}, {change}: solve does not go on from the journal: {going_on.returncode} {going_on.stderr}"
        (folder / "drawn.journal").unlink()


def a_unit_more(folder):
    """Haverly 1: Y takes as much of B through the pool as of C, so that a unit costs 13 and earns 2; X takes nothing."""
    net = EXAMPLES / "haverly1.json"
    found = run("prices", net, solved(net, folder, "--gap", "0"))
    rows = {row[0]: row[1:] for row in rows_of(found.stdout)}
    if rows.get("products.Y.max") != ["200", "201", "2", "-402", "2"] or rows.get("products.X.max") != ["100", "101", "0", "-400", "0"]:
        yield f"Haverly 1: {found.stdout} {found.stderr}"
    if sorted(rows) != ["member", "products.X.max", "products.X.most.sulfur", "products.Y.max", "products.Y.most.sulfur"]:
        yield f"Haverly 1: the members are {sorted(rows)}"
    for member, *_, worth in rows_of(found.stdout)[1:]:
        with_more = pooling.solve(pooling.Network.read(net).changed({member: int(Fraction(rows[member][1]) * 10**6)}), gap="0.001")
        if -400 - with_more.cost > Fraction(worth):
            yield f"{member} is worth {-400 - with_more.cost}, and {worth} at most is told"
    found = run("prices", EXAMPLES / "row1.json", EXAMPLES / "row1.cert", "--step", "10")
    if rows_of(found.stdout)[1:] != [["sources.A.max", "100", "110", "0", "-300", "0"], ["products.X.max", "100", "110", "30", "-300", "0"], ["products.X.most.sulfur", "3", "13", "0", "-300", "0"]]:
        yield f"a row of 100 units: {found.stdout}"


SCARCE = {"version": 1, "qualities": ["sulfur"], "sources": [{"name": name, "cost": 1, "max": 20, "quality": {"sulfur": 1}} for name in "AB"], "pools": [{"name": "P", "max": 90}],
          "products": [{"name": "X", "price": 2, "min": 50, "max": 70, "most": {"sulfur": 3}}, {"name": "Z", "price": 1, "max": 5}],
          "arcs": [["A", "P"], ["B", "P"], ["P", "X"], ["P", "Z"]]}


def no_plans(folder):
    (folder / "scarce.json").write_text(json.dumps(SCARCE))
    cases = [(EXAMPLES / "no_plan.json", ["  product X has at most 2 of sulfur", "  product X takes at least 10"]),
             (folder / "scarce.json", ["  source A gives at most 20", "  source B gives at most 20", "  product X takes at least 50"])]
    for net, rules in cases:
        found = run("why_none", net, solved(net, folder), "--keep", folder / "kept")
        if found.stdout.splitlines() != ["No plan keeps all of these:", *rules]:
            yield f"{net.stem}: {found.stdout} {found.stderr}"
        yield from accepted(folder / "kept" / "net.json", folder / "kept" / "net.cert", f"{net.stem}, these rules alone")
        if "kind none" not in (folder / "kept" / "net.cert").read_text():
            yield f"{net.stem}: what is kept does not say that no plan obeys"


# Names and a title that HTML could trip over, a product that nothing reaches, and a source that gives nothing.
ODD = {"version": 1, "title": "<script>alert(1)</script> & \"co\"", "sources": [{"name": "<b>", "cost": 1, "max": 0, "quality": {}}], "pools": [{"name": "P'", "max": 0}],
       "products": [{"name": "X&Y", "price": 9, "max": 100}, {"name": "lonely", "price": 1, "max": 5}], "arcs": [["<b>", "P'"], ["P'", "X&Y"], ["<b>", "X&Y"]]}


class Cells(HTMLParser):
    """The texts of a page's cells and headings, and its elements that stand in a text by mistake."""

    def __init__(self, page):
        super().__init__()
        self.found, self.tags = [], []
        self.feed(page)

    def handle_starttag(self, tag, attributes):
        self.tags.append(tag)

    def handle_data(self, data):
        self.found.append(data)


def odd_networks(folder):
    (folder / "odd.json").write_text(json.dumps(ODD))
    for net in (folder / "odd.json", EXAMPLES / "empty.json", EXAMPLES / "row1.json"):
        cert = solved(net, folder)
        page = run("page", net, cert)
        cells = Cells(page.stdout)
        if page.returncode or cells.tags.count("script") != 1 or "b" in cells.tags:
            yield f"{net.stem}: the page ends with {page.returncode}: {page.stderr}"
        if net.stem == "odd":
            yield from (f"the page lacks {name}" for name in ("<b>", "P'", "X&Y", "lonely", ODD["title"]) if name not in cells.found)
        tools = [("what_if", [net, cert]), ("prices", [net, cert]), ("plan_to_csv", [net, cert, folder / net.stem, "--round", "1"]), ("check_plan", [net, folder / net.stem / "flows.csv", "--certificate", folder / "odd.cert"])]
        for tool, words in tools:
            found = run(tool, *words)
            if found.returncode or "Traceback" in found.stderr:
                yield f"{net.stem}: {tool} ends with {found.returncode}: {found.stderr}"
        yield from accepted(net, folder / "odd.cert", f"{net.stem}, its plan in whole units")


# ---- networks of version 2


# A gives sulfur 3 and costs 6, the arc from A costs 0.5 and carries 80, the pool takes out half of the sulfur, and X pays 9 for a
# unit with 1.5 at most: each unit earns 2.5. The file is tests/worked/desulfured.json.
DESULFURED = TOP / "tests" / "worked" / "desulfured"
TREATED = {
    "flows.csv": "from,to,flow,spent,revenue,max\nA,P,80,520,,80\nP,X,80,,720,\n",
    "qualities.csv": "kind,name,quality,mean,least,most,leaving\npool,P,sulfur,3,,,1.5\nproduct,X,sulfur,1.5,,1.5,\n",
    "money.csv": "kind,name,flow,max,spent,revenue\nsource,A,80,100,480,\npool,P,80,,,\nproduct,X,80,100,,720\narc,A -> P,80,80,40,\n",
}
# What is changed, what is told then, and whether the plan of 80 stays.
CHANGES = [
    ("arcs.A -> P.max=90", "now   : cost -200, bound -225, gap 25", True),
    ("arcs.A -> P.cost=-0.5", "now   : cost -280, bound -280, gap 0", True),
    ("arcs.P -> X.cost=1", "now   : cost -120, bound -120, gap 0", True),
    ("arcs.P -> X.max=60", "now   : no plan known, bound -150", False),
    ("pools.P.ratio.sulfur=400", "now   : cost -200, bound -200, gap 0", True),
    ("pools.P.ratio.sulfur=501", "the plan is left out: product X has sulfur 1.503, and 1.5 is the most that it may have", False),
]


def treated(folder):
    net, cert = DESULFURED.with_suffix(".json"), DESULFURED.with_suffix(".cert")
    found = run("plan_to_csv", net, cert, folder / "tables")
    written = {path.name: path.read_text() for path in (folder / "tables").iterdir()} if not found.returncode else {}
    if written != TREATED:
        yield f"tables: {found.stderr} {written}"
    found = run("check_plan", net, folder / "tables" / "flows.csv", "--certificate", folder / "again.cert")
    rooms = ["source A: 80 of 100, room 20", "product X: 80 of 100, room 20", "A -> P: 80 of 80, room 0", "product X: sulfur 1.5 of at most 1.5, room 0"]
    if found.stdout.splitlines() != ["the plan obeys", "cost -200", *rooms] or (folder / "again.cert").read_text() != cert.read_text():
        yield f"its own plan: {found.stdout} {found.stderr}"
    (folder / "over.csv").write_text(TREATED["flows.csv"].replace("80", "80.000001"))
    found = run("check_plan", net, folder / "over.csv")
    if (found.returncode, found.stdout.splitlines()) != (1, ["the plan breaks a rule", "A -> P carries 80.000001, and 80 is its maximum", "cost -200.0000025"]):
        yield f"a millionth more: {found.stdout} {found.stderr}"
    for change, words, stays in CHANGES:
        found = run("what_if", net, cert, "--set", change, "--network", folder / "other.json")
        (folder / "other.cert").write_text(found.stdout)
        yield from accepted(folder / "other.json", folder / "other.cert", change)
        if words not in found.stderr.splitlines() or ("kind gap" in found.stdout) != stays:
            yield f"{change}: {found.stderr}"
    rows = {row[0]: row[1:] for row in rows_of(run("prices", net, solved(net, folder, "--gap", "0")).stdout)}
    if rows.get("arcs.A -> P.max") != ["80", "81", "2.5", "-202.5", "2.5"] or rows.get("products.X.max", [""])[-1] != "0":
        yield f"a unit more: {rows}"
    (folder / "scarce.json").write_text(net.read_text().replace('"price":9', '"price":9,"min":90'))
    found = run("why_none", folder / "scarce.json", solved(folder / "scarce.json", folder), "--keep", folder / "kept")
    if found.stdout.splitlines() != ["No plan keeps all of these:", "  arc A -> P carries at most 80", "  product X takes at least 90"]:
        yield f"a demand of 90: {found.stdout} {found.stderr}"
    yield from accepted(folder / "kept" / "net.json", folder / "kept" / "net.cert", "a demand of 90, these rules alone")
    cells = Cells(run("page", net, cert).stdout).found
    for title, row in ((["pool", "passes", "maximum", "used %", "sulfur", "sulfur kept %", "sulfur leaving", "binds"], ["P", "80", "3", "50", "1.5"]),
                       (["from", "to", "cost", "carries", "maximum", "used %", "spent", "revenue", "binds"], ["A", "P", "0.5", "80", "80", "100", "520", "at its maximum"])):
        words = "\n".join(cell for cell in cells if cell.strip())
        if "\n".join([*title, *row]) not in words:
            yield f"the page lacks a table of {title} that begins with {row}"


def furnished_networks(folder):
    """Networks with arcs that cost something and pools that take something out: what the tools say of the program's plan adds up."""
    rng = random.Random(SEED)
    for number in range(DRAWN):
        net = folder / f"{number}.json"
        net.write_bytes(damaged.furnished(rng, damaged.some_network(rng)))
        cert = solved(net, folder, "--nodes", "12", "--gap", "0")
        if "kind gap" not in cert.read_text():
            continue
        read = pooling.Network.read(net)
        cost = Fraction(*pooling.read_certificate(read, cert)[0].cost) / 10**12
        found = run("plan_to_csv", net, cert, folder / f"tables {number}", "--exact")
        for table, last in (("flows.csv", 4), ("money.csv", 5)):
            rows = rows_of((folder / f"tables {number}" / table).read_text())[1:]
            if sum(Fraction(row[last - 1] or 0) - Fraction(row[last] or 0) for row in rows) != cost:
                yield f"network {number}: {table} adds up to another cost than {cost}: {rows}"
        again = run("check_plan", net, folder / f"tables {number}" / "flows.csv", "--certificate", folder / "again.cert")
        yield from accepted(net, folder / "again.cert", f"network {number}: its plan again")
        if found.returncode or not again.stdout.startswith(f"the plan obeys\ncost {pooling.exact(cost)}\n"):
            yield f"network {number}: {found.stderr} {again.stdout} {again.stderr}"
        arc = rng.choice(read.arcs)
        change = rng.choice([f"arcs.{arc.name()}.max={rng.choice([0, '0.5', 17, 60])}", f"arcs.{arc.name()}.cost={rng.choice(['-0.5', 0, 3])}",
                             *(f"pools.{pool.name}.ratio.{name}={rng.choice([0, 250, 1000])}" for pool in read.pools for name in read.qualities)])
        found = run("what_if", net, cert, "--set", change, "--network", folder / "other.json")
        (folder / "other.cert").write_text(found.stdout)
        yield from accepted(folder / "other.json", folder / "other.cert", f"network {number}, {change}")
        best = pooling.solve(folder / "other.json", nodes=30)
        if best.cost is not None and (bound_of(found.stdout) is None or bound_of(found.stdout) > best.cost):
            yield f"network {number}, {change}: the bound is {bound_of(found.stdout)}, and a plan costs {best.cost}"


# ---- plans of one's own, tables of plans, runs of so many minutes


# 60 of W2 through basin 1 and 20 of fresh water to the river, 100 of fresh water through basin 2 to the sewer, as tests/pictures.py has it.
OUTLETS = "to,from,flow\nbasin 1,W2,60\nbasin 2,fresh,100.0\nriver,basin 1,60\nsewer,basin 2,100\nriver,fresh,20\n"
OBEYS = """the plan obeys
cost -298
source W1: 0 of 40, room 40
source W2: 60 of 60, room 0
product river: 80 of 80, room 0
product sewer: 100 of 100, room 0
product river: load 22.5 of at most 50, room 27.5
product sewer: load 0 of at most 90, room 90
"""


def own_plans(folder):
    net = EXAMPLES / "wastewater.json"
    (folder / "plan.csv").write_text(OUTLETS)
    found = run("check_plan", net, "plan.csv", "--certificate", "plan.cert", "--journal", "plan.journal", at=folder)
    if (found.returncode, found.stdout, found.stderr) != (0, OBEYS, "") or (folder / "plan.cert").read_text() != pictures.WASTEWATER:
        yield f"outlets: {found.returncode} {found.stdout} {found.stderr} {(folder / 'plan.cert').read_text()}"
    going_on = pool("solve", net, "--journal", folder / "plan.journal", "--nodes", "0")
    if "\ncost -298000000000000 1\n" not in going_on.stdout or going_on.returncode != 0:
        yield f"solve does not start from the plan: {going_on.returncode} {going_on.stdout}"
    rows = [{"from": start, "to": end, "flow": flow} for end, start, flow in (line.split(",") for line in OUTLETS.splitlines()[1:])]
    (folder / "plan.json").write_text(json.dumps({"flows": rows}))
    if run("check_plan", net, "plan.json", at=folder).stdout != OBEYS:
        yield "the same as JSON is another plan"
    solved(net, folder, "--gap", "0")
    found = run("check_plan", net, "plan.csv", "--certificate", "with.cert", "--with", "wastewater.cert", at=folder)
    yield from accepted(net, folder / "with.cert", "a plan with another bound")
    if found.returncode or not -298.01 <= bound_of((folder / "with.cert").read_text()) <= -298:
        yield f"a plan with another bound: {found.stderr}"
    for old, new, words in (("W2,60", "W2,61", ["source W2 sends 61, and 60 is its maximum"]), ("fresh,20", "fresh,20.000001", ["product river takes 80.000001, and 80 is its maximum"]),
                            ("basin 1,60", "basin 1,-1", ["basin 1 -> river carries -1, and a flow is 0 at least", "into pool basin 1 flow 60, and out of it -1"])):
        (folder / "other.csv").write_text(OUTLETS.replace(old, new))
        found = run("check_plan", net, "other.csv", "--certificate", "none.cert", at=folder)
        lines = found.stdout.splitlines()
        if found.returncode != 1 or lines[0] != "the plan breaks a rule" or not set(words) <= set(lines) or lines[-1][:5] != "cost " or (folder / "none.cert").exists():
            yield f"{new}: {found.returncode} {found.stdout} {found.stderr}"


# Two feeds: 30 of A and 10 of B make 40 with a sulfur of 2.5, that earn 9 each and cost 6 and 16.
TABLES = {"flows.csv": "from,to,flow,spent,revenue\nA,P,30,180,\nB,P,10,160,\nP,X,40,,360\n",
          "qualities.csv": "kind,name,quality,mean,least,most\npool,P,sulfur,2.5,,\nproduct,X,sulfur,2.5,,\n",
          "money.csv": "kind,name,flow,max,spent,revenue\nsource,A,30,,180,\nsource,B,10,,160,\npool,P,40,,,\nproduct,X,40,100,,360\n"}


def tables_of_plans(folder):
    (folder / "mixed.cert").write_text(pictures.MIXED)
    found = run("plan_to_csv", EXAMPLES / "two_feeds.json", "mixed.cert", "tables", at=folder)
    written = {path.name: path.read_text() for path in (folder / "tables").iterdir()} if not found.returncode else {}
    if written != TABLES:
        yield f"two feeds: {found.stderr} {written}"
    found = run("plan_to_csv", EXAMPLES / "two_feeds.json", "mixed.cert", "tables", "--exact", at=folder)
    if found.returncode != 21 or "is there already" not in found.stderr or {path.name: path.read_text() for path in (folder / "tables").iterdir()} != TABLES:
        yield f"tables are written over: {found.returncode} {found.stderr}"
    # 28 + 14 = 42 differs by 2 + 4 + 2; 28 + 7 = 35 and 35 + 7 = 42 by 10. It costs 28 * 6 + 14 * 16 - 42 * 9 = 14, where the plan costs -20.
    found = run("plan_to_csv", EXAMPLES / "two_feeds.json", "mixed.cert", "tables", "--round", "7", "--force", at=folder)
    if found.stderr != "cost 14, which is 34 more than the plan costs\n" or (folder / "tables" / "flows.csv").read_text().splitlines()[1:] != ["A,P,28,168,", "B,P,14,224,", "P,X,42,,378"]:
        yield f"whole sevens: {found.stderr} {(folder / 'tables' / 'flows.csv').read_text()}"
    net = EXAMPLES / "wastewater.json"
    found = run("plan_to_csv", net, solved(net, folder), folder / "whole", "--round", "1")
    again = run("check_plan", net, folder / "whole" / "flows.csv", "--certificate", folder / "whole.cert")
    if not found.stderr.startswith("cost -298, which is ") or not again.stdout.startswith("the plan obeys\ncost -298\n"):
        yield f"whole units: {found.stderr} {again.stdout} {again.stderr}"
    yield from accepted(net, folder / "whole.cert", "whole units")
    found = run("plan_to_csv", EXAMPLES / "adhya4.json", solved(EXAMPLES / "adhya4.json", folder, "--nodes", "20"), folder / "coarse", "--round", "1000")
    if not found.stderr.startswith("cost 0, which is ") or found.returncode:
        yield f"steps of 1000, of which no product takes one: {found.stderr}"


def minutes(folder):
    found = run("solve_for", "1", EXAMPLES / "haverly1.json", "--gap", "0.001")
    (folder / "done.cert").write_text(found.stdout)
    yield from accepted(EXAMPLES / "haverly1.json", folder / "done.cert", "Haverly 1")
    if found.returncode or found.stderr or "\ncost -400000000000000 1\n" not in found.stdout:
        yield f"Haverly 1: {found.returncode} {found.stderr}"
    # the lowest quarter of the flow of the second part holds no better plan: the empty proof shows it
    squeezed = run("solve_for", "1", TOP / "tests" / "worked" / "haverly1_and_one.json", "--gap", "0.001", "--squeeze", "on")
    if "\nsplit 0 7 25000000\n" not in squeezed.stdout:
        yield f"Haverly 1 and one more, with squeezes: {squeezed.returncode} {squeezed.stderr}"
    raised = run("solve_for", "1", EXAMPLES / "haverly1.json", "--gap", "0", "--raise", "1000")
    if raised.returncode or "\ngap 0 1\n" not in raised.stdout:
        yield f"Haverly 1, with halves raised: {raised.returncode} {raised.stderr}"
    net, journal = folder / "made.json", folder / "made.journal"
    net.write_text(pool("make", "9").stdout)
    begun = time.monotonic()
    found = run("solve_for", "0.1", net, "--journal", journal, "--progress", "--gap", "0")
    (folder / "over.cert").write_text(found.stdout)
    yield from accepted(net, folder / "over.cert", "after six seconds")
    if found.returncode != 10 or not 6 <= time.monotonic() - begun < 100 or not all(" splits, bound -" in line and "%)" in line for line in found.stderr.splitlines()) or not found.stderr:
        yield f"after six seconds: {found.returncode} {time.monotonic() - begun} {found.stderr}"
    words = [str(TOP / "tools" / "solve_for"), "10", str(net), "--journal", str(journal), "--gap", "0"]
    stopped = subprocess.Popen(words, stdout=subprocess.PIPE, stderr=subprocess.PIPE, text=True, preexec_fn=heeds_interrupts)
    time.sleep(6)
    stopped.send_signal(signal.SIGINT)
    out, error = stopped.communicate(timeout=100)
    (folder / "stopped.cert").write_text(out)
    yield from accepted(net, folder / "stopped.cert", "where it is interrupted")
    counts = [int(re.search(r"(?m)^splits ([0-9]+)$", text)[1]) for text in (found.stdout, out)]
    if stopped.returncode != 10 or error or not 0 < counts[0] < counts[1] or out.splitlines()[8 : 8 + counts[0]] != found.stdout.splitlines()[8 : 8 + counts[0]]:
        yield f"where it is interrupted: {stopped.returncode} {error} {counts}"
    if (found := run("solve_for", "1", EXAMPLES / "no_plan.json")).returncode != 12 or found.stdout != pool("solve", EXAMPLES / "no_plan.json").stdout:
        yield f"no plan: {found.returncode} {found.stdout}"


# ---- bad input: the words, the status, and the first line on standard error


BAD = [
    ("page", ["{row1}", "{refused}/cost.cert"], 1, "{refused}/cost.cert: refused cost"),
    ("page", ["{row1}", "{refused}/text.cert"], 1, "{refused}/text.cert: refused text 7"),
    ("page", ["bad.json", "{row1c}"], 3, "bad.json:2:32: sources[0].cost: a quantity is a number that is not whole, or not of 64 bits (7)"),
    ("page", ["{row1}", "nowhere"], 20, "nowhere: No such file or directory"),
    ("page", ["{row1}", "{row1c}", "--journal", "{row1}"], 33, "{row1}: not a journal"),
    ("page", ["{row1}", "{row1c}", "--journal", "other.journal"], 30, "other.journal: a journal of another network"),
    ("page", ["{row1}", "{row1c}", "--journal", "bad.journal"], 31, "bad.journal: record 0 is bad: plan 3"),
    ("page", ["{row1}", "{row1c}", "--journal", "nowhere"], 20, "nowhere: No such file or directory"),
    ("page", ["{row1}"], 2, "usage: page"),
    ("what_if", ["{row1}", "{examples}/haverly1.cert"], 1, "{examples}/haverly1.cert: refused shape"),
    ("what_if", ["{examples}/two_feeds.json", "{refused}/split.cert"], 1, "{refused}/split.cert: refused split 1"),
    ("what_if", ["{examples}/two_feeds.json", "{refused}/place.cert"], 1, "{refused}/place.cert: refused place 0"),
    ("what_if", ["{row1}", "{row1c}", "--set", "products.Y.max=1"], 2, "products.Y.max: no member of this network, as sources.NAME.cost, pools.NAME.max or products.NAME.most.QUALITY"),
    ("what_if", ["{row1}", "{row1c}", "--set", "products.X.max=1,5"], 2, "usage: what_if"),
    ("what_if", ["{row1}", "{row1c}", "--set", "products.X.max=-1", "--network", "kept.json"], 3, "the changed network:20:11: products[0].max: a number is outside its limits (9 11)"),
    ("what_if", ["{row1}", "{row1c}", "--table", "products.X.max=80..1/5"], 2, "usage: what_if"),
    ("what_if", ["{row1}", "{row1c}", "--table", "products.X.max=0..9/0"], 2, "usage: what_if"),
    ("what_if", ["{row1}", "{row1c}", "--plot", "plot.svg"], 2, "usage: what_if"),
    ("what_if", ["{row1}", "{row1c}", "--journal", "nowhere/journal"], 21, "before: cost -300, bound -300, gap 0"),
    ("what_if", ["bad.json", "{row1c}"], 3, "bad.json:2:32: sources[0].cost: a quantity is a number that is not whole, or not of 64 bits (7)"),
    ("what_if", ["{row1}", "{row1c}", "--set", "arcs.X -> A.max=1"], 2, "arcs.X -> A.max: no member of this network"),
    ("what_if", ["{treated}.json", "{treated}.cert", "--set", "pools.P.ratio.sulfur=500.5"], 3, "the changed network:20:15: pools[0].ratio.sulfur: something is of the wrong kind (3)"),
    ("what_if", ["{treated}.json", "{treated}.cert", "--set", "arcs.A -> P.max=-1"], 3, "the changed network:39:11: arcs[0].max: a number is outside its limits (9 11)"),
    ("prices", ["{row1}", "{refused}/gap.cert"], 1, "{refused}/gap.cert: refused gap"),
    ("prices", ["{examples}/no_plan.json", "{examples}/no_plan.cert"], 1, "{examples}/no_plan.cert: no plan obeys, so there is nothing to be worth more (tools/why_none says why)"),
    ("prices", ["{row1}", "{row1c}", "--step", "0"], 2, "usage: prices"),
    ("prices", ["nowhere", "{row1c}"], 20, "nowhere: No such file or directory"),
    ("check_plan", ["{row1}", "arcs.csv"], 3, "arcs.csv:3: column C (flow): X -> A is no arc of the network"),
    ("check_plan", ["{row1}", "twice.json"], 3, "twice.json: flows[1]: the arc A -> X stands twice"),
    ("check_plan", ["{row1}", "comma.csv"], 3, "comma.csv:2: column C (flow): a number of another form"),
    ("check_plan", ["{row1}", "form.json"], 3, 'form.json: flows[0]: not of the form {{"from": "A", "to": "P", "flow": "2.5"}}'),
    ("check_plan", ["{row1}", "{row1}"], 3, "{row1}: no list of flows: a list, or an object with a member flows that is one"),
    ("check_plan", ["{row1}", "{row1c}"], 3, "{row1c}:1: column A: a column that the table may not have"),
    ("check_plan", ["{row1}", "good.csv", "--journal", "other.journal"], 21, "other.journal: is there already, and is kept"),
    ("check_plan", ["{row1}", "good.csv", "--certificate", "nowhere/cert"], 21, "nowhere/cert: No such file or directory"),
    ("check_plan", ["{row1}", "good.csv", "--certificate", "cert", "--with", "{refused}/gap.cert"], 1, "{refused}/gap.cert: refused gap"),
    ("check_plan", ["{row1}", "good.csv", "--with", "{row1c}"], 2, "usage: check_plan"),
    ("check_plan", ["{row1}", "nowhere"], 20, "nowhere: No such file or directory"),
    ("plan_to_csv", ["{row1}", "{refused}/plan.cert", "tables"], 1, "{refused}/plan.cert: refused plan 1"),
    ("plan_to_csv", ["{row1}", "{examples}/row1_bound.cert", "tables"], 1, "{examples}/row1_bound.cert: a certificate of the kind bound: it has no plan"),
    ("plan_to_csv", ["{row1}", "{row1c}", "bad.json/tables"], 21, "bad.json/tables: Not a directory"),
    ("plan_to_csv", ["{row1}", "{row1c}", "tables", "--round", "-1"], 2, "usage: plan_to_csv"),
    ("plan_to_csv", ["{examples}/no_plan.json", "{examples}/no_plan.cert", "tables"], 1, "{examples}/no_plan.cert: a certificate of the kind none: it has no plan"),
    ("solve_for", ["0", "{row1}"], 2, "usage: solve_for"),
    ("solve_for", ["x", "{row1}"], 2, "usage: solve_for"),
    ("solve_for", ["1", "bad.json"], 3, "bad.json:2:32: sources[0].cost"),
    ("solve_for", ["1", "{row1}", "--journal", "bad.journal"], 31, "pool: journal record 0 is bad"),
    ("solve_for", ["1", "{row1}", "--gap", "x"], 2, "pool: usage: solve NET"),
    ("solve_for", ["1", "nowhere"], 20, "nowhere: No such file or directory"),
    ("why_none", ["{row1}", "{row1c}"], 1, "{row1c}: a certificate of the kind gap: it does not say that no plan obeys"),
    ("why_none", ["{row1}", "{refused}/bound.cert"], 1, "{refused}/bound.cert: refused bound"),
    ("why_none", ["{examples}/no_plan.json", "{examples}/no_plan.cert", "--keep", "bad.json/x"], 21, "bad.json/x: Not a directory"),
]


def bad_input(folder):
    row1 = pooling.Network.read(EXAMPLES / "row1.json")
    (folder / "bad.json").write_text('{"version": 1,\n "sources":[{"name":"A","cost":2.5, "quality": {}}], "products": [], "arcs": []}')
    (folder / "arcs.csv").write_text("from,to,flow\nA,X,1\nX,A,1\n")
    (folder / "good.csv").write_text("from,to,flow\nA,X,100\n")
    (folder / "comma.csv").write_text('from,to,flow\nA,X,"2,5"\n')
    (folder / "twice.json").write_text('[{"from": "A", "to": "X", "flow": 1}, {"from": "A", "to": "X", "flow": "1/3"}]')
    (folder / "form.json").write_text('{"flows": [{"from": "A", "flow": 1}]}')
    (folder / "other.journal").write_bytes(pooling.journal_of(pooling.Network.read(EXAMPLES / "haverly1.json"), None))
    (folder / "bad.journal").write_bytes(pooling.journal_of(row1, pooling.WrittenPlan(1, 1, [], [], [100_000_001])))
    names = {"row1": EXAMPLES / "row1.json", "row1c": EXAMPLES / "row1.cert", "refused": EXAMPLES / "refused", "examples": EXAMPLES, "treated": DESULFURED}
    before = sorted(path.name for path in folder.rglob("*"))
    for tool, words, status, line in BAD:
        found = run(tool, *(word.format(**names) for word in words), at=folder)
        first = (found.stderr.splitlines() or [""])[0]
        if (found.returncode, found.stdout) != (status, "") or not first.startswith(line.format(**names)) or "Traceback" in found.stderr:
            yield f"{tool} {words}: {found.returncode} {found.stdout[:80]!r} {found.stderr[-300:]!r}"
    if sorted(path.name for path in folder.rglob("*")) != before:
        yield f"bad input leaves files: {sorted(path.name for path in folder.rglob('*'))}"
    for tool in sorted({tool for tool, *_ in BAD}):
        if run(tool, "--help").returncode or "It needs Python 3.9" not in run(tool, "--help").stdout:
            yield f"{tool} --help"
        with open("/dev/full", "w") as full:
            words = [EXAMPLES / "no_plan.json", EXAMPLES / "no_plan.cert"] if tool == "why_none" else [EXAMPLES / "row1.json", EXAMPLES / "row1.cert"]
            if tool in OF_A_CERTIFICATE and subprocess.run([str(TOP / "tools" / tool), *words], stdout=full, stderr=subprocess.DEVNULL).returncode != 21:
                yield f"{tool} does not tell that nothing can be written"


OF_A_CERTIFICATE = ["page", "what_if", "prices", "why_none"]


def main(*program):
    if program:
        os.environ["POOL"] = os.path.abspath(program[0])
    os.environ["LC_ALL"] = "C"
    parts = [same_network, literature, by_hand, drawn_networks, a_unit_more, no_plans, odd_networks, treated, furnished_networks, own_plans, tables_of_plans, minutes, bad_input]
    differ = []
    for part in parts:
        with tempfile.TemporaryDirectory() as folder:
            differ += [f"{part.__name__}: {fault}" for fault in part(Path(folder))]
    print(*differ, sep="\n", end="\n" if differ else "")
    print(f"{len(parts)} parts, {len(BAD)} cases of bad input, {len(differ)} differ")
    return 1 if differ else 0


if __name__ == "__main__":
    sys.exit(main(*sys.argv[1:]))
