#!/usr/bin/env python3
"""Whether `tools/picture` draws what a network and a plan say: `pictures.py`

Widths, numbers and marks of Haverly's first network and of the wastewater file are compared with what is worked out here by
hand, from a certificate and from a report; a network of 64 sources is drawn without one thing over another; the colours of
the three kinds of arcs, and of the four marks of leaves, stay apart for each kind of colour blindness; the boxes of a tree stand
where its cuts say, each with its bound and its mark; and nothing is drawn of what is refused. It prints what differs, and how
many parts there were.
"""

import itertools
import json
import subprocess
import sys
import tempfile
import xml.etree.ElementTree as tree
from importlib.machinery import SourceFileLoader
from pathlib import Path
from types import SimpleNamespace

sys.dont_write_bytecode = True
TOP = Path(__file__).resolve().parent.parent
sys.path.insert(0, str(TOP / "tools"))
import second_checker as checker
import svg

tool = SourceFileLoader("picture", str(TOP / "tools" / "picture")).load_module()
EXAMPLES = TOP / "examples"
NAME = "{http://www.w3.org/2000/svg}"

# 60 of W2 through basin 1 and 20 of fresh water straight to the river, 100 of fresh water through basin 2 to the sewer. It
# costs 0.35 * 120 - 3 * 80 - 1 * 100 = -298; the reach bound is -(80 * 3 + 100 * 1) = -340. The river gets 60 * 30 / 80 = 22.5.
WASTEWATER = """poolcert 1
kind gap
shape 3 2 2 1 4 4 1
plan 1 1
weights 0 1 0 1
outflows 60000000 0 0 100000000
direct 20000000
splits 0
proofs 0
cost -298000000000000 1
bound -340000000000000
gap 42000000000000 1
end
"""
REPORT = """kind gap
cost -298.000000
bound -340.000000
gap 42.000000
flow             0.000000 W1 -> basin 1
flow            60.000000 W2 -> basin 1
flow             0.000000 W2 -> basin 2
flow           100.000000 fresh -> basin 2
flow            60.000000 basin 1 -> river
flow             0.000000 basin 1 -> sewer
flow             0.000000 basin 2 -> river
flow           100.000000 basin 2 -> sewer
flow            20.000000 fresh -> river
quality            22.500000 river: load
quality             0.000000 sewer: load
slack            40.000000 W1
slack             0.000000 W2
slack            60.000000 fresh
slack           120.000000 basin 1
slack            80.000000 basin 2
slack             0.000000 river
slack             0.000000 sewer
"""

# 3 of 4 parts of 40 units from A, 1 from B: 30 at 6 and 10 at 16, less 40 at 9, are -20, and (30 * 3 + 10 * 1) / 40 is 2.5.
MIXED = """poolcert 1
kind gap
shape 2 1 1 1 2 1 0
plan 4 2
weights 3 1
outflows 80000000
direct
splits 0
proofs 0
cost -160000000000000 8
bound -300000000000000
gap 2240000000000000 8
end
"""


# Of examples/two_feeds.cert, whose leaf 3 holds no plan: all of A reaches the bound of leaf 2, and of leaf 4 nothing is said.
TIGHT = """pooltight 1
form pq
pivots 7
leaves 2
tight 2 1 9 100000000 0 100000000 100000000 0 1048576 0 3000000 300000000000000
loose 4 1 7
bound -300000000000000
end
"""


def run(*words):
    return subprocess.run([str(TOP / "tools" / "picture"), *map(str, words)], capture_output=True, text=True)


def drawn(net, *plan):
    """The root of the picture of these files."""
    read = tool.pooling.Network.read(net)
    return tree.fromstring(tool.drawing(read, tool.read_plan(read, plan[0]) if plan else None, net.name).svg())


def arcs(picture):
    """Each arc by what the pointer is told: whether it is idle, and its width."""
    paths = [path for path in picture.iter(NAME + "path") if path.get("class", "").startswith("arc")]
    return {path.find(NAME + "title").text: ("idle" in path.get("class"), float(path.get("stroke-width"))) for path in paths}


def texts(picture):
    return [text.text for text in picture.iter(NAME + "text")]


def lacking(picture, wanted):
    found = texts(picture)
    yield from (f"the text {text!r} is not drawn" for text in wanted if text not in found)


def haverly(_):
    """All of B through the pool and all of C go to Y, which then has as much sulfur as it may."""
    picture = drawn(EXAMPLES / "haverly1.json", EXAMPLES / "haverly1.cert")
    found = arcs(picture)
    used = {name: width for name, (idle, width) in found.items() if not idle}
    if sorted(used) != ["B to P: 100", "C to Y: 100", "P to Y: 100"] or len(set(used.values())) != 1 or used["C to Y: 100"] < 10:
        yield f"Haverly 1: the arcs that carry something are {used}"
    if sorted(set(found) - set(used)) != ["A to P: 0", "C to X: 0", "P to X: 0"] or max(found[name][1] for name in set(found) - set(used)) > 1:
        yield f"Haverly 1: the arcs are {found}"
    wanted = ["Haverly 1", "cost -400 \u00a0\u00a0 bound -2,100 \u00a0\u00a0 gap 1,700", "sends 0, cost 6, sulfur 3", "passes 100", "sulfur 1"]
    yield from lacking(picture, wanted + ["takes 0 of 100, price 9", "at most 2.5", "takes 200 of 200, price 15", "1.5 (at most 1.5)"])
    gauges = [gauge.findtext(NAME + "title") for gauge in picture.iter(NAME + "g") if any(part.get("fill") == svg.VERMILION for part in gauge)]
    if gauges != ["Y, sulfur: 1.5 (at most 1.5)"]:
        yield f"Haverly 1: at a limit are {gauges}"
    if (TOP / "docs" / "images" / "haverly1.svg").read_text() != run(EXAMPLES / "haverly1.json", EXAMPLES / "haverly1.cert").stdout:
        yield "docs/images/haverly1.svg is another picture"


def wastewater(folder):
    (folder / "plan.cert").write_text(WASTEWATER)
    (folder / "plan.report").write_text(REPORT)
    pictures = [drawn(EXAMPLES / "wastewater.json", folder / name) for name in ("plan.cert", "plan.report")]
    widths = {name: width for name, (idle, width) in arcs(pictures[0]).items() if not idle}
    units = {"W2 to basin 1: 60": 60, "fresh to basin 2: 100": 100, "basin 1 to river: 60": 60, "basin 2 to sewer: 100": 100, "fresh to river: 20": 20}
    if set(widths) != set(units) or max(abs(widths[name] / flow - widths["fresh to river: 20"] / 20) for name, flow in units.items()) > 0.001:
        yield f"waste water: the arcs that carry something are {widths}"
    for picture, origin in zip(pictures, ("the certificate was checked by tools/pooling.py", "drawn from a report, which can't be checked")):
        wanted = ["cost -298 \u00a0\u00a0 bound -340 \u00a0\u00a0 gap 42", "22.5 (at most 50)", "0 (at most 90)", "sends 60 of 60, cost 0, load 30"]
        yield from lacking(picture, [*wanted, f"\u25cf mean within its limits, \u25c6 mean at a limit; {origin}"])
    if arcs(pictures[0]) != arcs(pictures[1]):
        yield "waste water: the report's picture has other arcs"


def treated(folder):
    """A pool that takes out half of the sulfur, and an arc that carries all that it may: with a plan, and the network alone."""
    net, cert = TOP / "tests" / "worked" / "desulfured.json", TOP / "tests" / "worked" / "desulfured.cert"
    picture = drawn(net, cert)
    if sorted(arcs(picture)) != ["A to P: 80 of 80, cost 0.5", "P to X: 80"]:
        yield f"half of the sulfur: the arcs are {arcs(picture)}"
    yield from lacking(picture, ["cost -200 \u00a0\u00a0 bound -250 \u00a0\u00a0 gap 50", "passes 80", "sulfur 3 in, 1.5 out", "80 of 80", "80", "1.5 (at most 1.5)"])
    bold = [text.text for text in picture.iter(NAME + "text") if text.get("font-weight") == "bold"]
    if "80 of 80" not in bold or "80" in bold:
        yield f"half of the sulfur: bold are {bold}"
    alone = drawn(net)
    if sorted(arcs(alone)) != ["A to P: at most 80, cost 0.5", "P to X"]:
        yield f"half of the sulfur, the network alone: the arcs are {arcs(alone)}"
    yield from lacking(alone, ["takes out 50 % of sulfur", "at most 80", "the network alone"])
    (folder / "treated.report").write_text((TOP / "tests" / "worked" / "desulfured.report").read_text())
    if arcs(drawn(net, folder / "treated.report")) != arcs(picture):
        yield "half of the sulfur: the report's picture has other arcs"


def mixed(folder):
    """A plan over other bases than 1."""
    (folder / "mixed.cert").write_text(MIXED)
    picture = drawn(EXAMPLES / "two_feeds.json", folder / "mixed.cert")
    widths = {name: width for name, (_, width) in arcs(picture).items()}
    if sorted(widths) != ["A to P: 30", "B to P: 10", "P to X: 40"] or abs(widths["A to P: 30"] - 3 * widths["B to P: 10"]) > 0.01:
        yield f"two feeds: the arcs are {widths}"
    wanted = ["cost -20 \u00a0\u00a0 bound -300 \u00a0\u00a0 gap 280", "passes 40", "sulfur 2.5", "takes 40 of 100, price 9", "2.5 (no limit)"]
    yield from lacking(picture, wanted)


def large_network(folder):
    """64 sources, 16 pools, 64 products and 256 arcs, each with something in every other arc."""
    quality, names = {"sulfur": 2}, lambda word, count: [f"{word} {n} of a plant" for n in range(count)]
    sources, pools, products = names("source", 64), names("pool", 16), names("product", 64)
    ways = [[sources[(4 * l + 3 * e) % 64], pools[l]] for l in range(16) for e in range(5)]
    ways += [[pools[l], products[(4 * l + 5 * o) % 64]] for l in range(16) for o in range(5)]
    ways += [[sources[7 * d % 64], products[(11 * d + d // 64) % 64]] for d in range(96)]
    net = {"version": 1, "qualities": ["sulfur"], "sources": [{"name": name, "cost": 5, "quality": quality} for name in sources],
           "pools": [{"name": name} for name in pools], "products": [{"name": name, "price": 9, "max": 500, "most": {"sulfur": "2.5"}} for name in products],
           "arcs": ways}
    plan = SimpleNamespace(R=5, d=1, r=[1] * 80, y=[n % 2 * 10**7 for n in range(80)], z=[n % 2 * 10**6 * (n % 9 + 1) for n in range(96)])
    rows = checker.judge_rows(checker.walk(checker.parse_json(json.dumps(net).encode())))
    (cost, base), bound = checker.plan_cost(rows, plan), checker.reach_bound(rows)
    lines = ["poolcert 1", "kind gap", "shape 64 16 64 1 80 80 96", "plan 5 1"]
    lines += [" ".join([word, *map(str, numbers)]) for word, numbers in (("weights", plan.r), ("outflows", plan.y), ("direct", plan.z))]
    lines += ["splits 0", "proofs 0", f"cost {cost} {base}", f"bound {bound}", f"gap {cost - bound * base} {base}", "end", ""]
    (folder / "large.json").write_text(json.dumps(net))
    (folder / "large.cert").write_text("\n".join(lines))
    return folder / "large.json", folder / "large.cert"


def boxes(picture):
    """Each node's box, and each text's as wide as it is at least, as x, y, right, bottom and what it is."""
    for box in picture.iter(NAME + "rect"):
        if box.get("class") == "node":
            x, y, width, height = (float(box.get(key)) for key in ("x", "y", "width", "height"))
            yield x, y, x + width, y + height, "node"
    for text in picture.iter(NAME + "text"):
        x, y, size = float(text.get("x")), float(text.get("y")), float(text.get("font-size"))
        width = len(text.text) * size * 0.52
        left = x - width if text.get("text-anchor") == "end" else x
        yield left, y - 0.75 * size, left + width, y, text.text


def legible(folder):
    picture = drawn(*large_network(folder))
    if len(arcs(picture)) != 256:
        yield f"64 sources: there are {len(arcs(picture))} arcs"
    places, (_, _, right, bottom) = list(boxes(picture)), map(float, picture.get("viewBox").split())
    for x, y, end, low, name in places:
        if min(x, y) < 0 or end > right or low > bottom:
            yield f"64 sources: {name} leaves the picture"
    nodes, labels = ([place for place in places if (place[4] == "node") == kind] for kind in (True, False))
    for group in (nodes, labels):
        for a, b in itertools.combinations(group, 2):
            if a[0] < b[2] and b[0] < a[2] and a[1] < b[3] and b[1] < a[3]:
                yield f"64 sources: {a[4]} and {b[4]} stand on one another"
    if min(float(text.get("font-size")) for text in picture.iter(NAME + "text")) < 11:
        yield "64 sources: a text is small"
    yield from lacking(picture, ["source 63 of a plant", "product 63 of a plant", "pool 15 of a plant"])


# What readers see who lack a kind of cone: of linear red, green and blue, by Machado, Oliveira and Fernandes (2009).
BLINDNESS = {
    "none": ((1, 0, 0), (0, 1, 0), (0, 0, 1)),
    "red": ((0.152286, 1.052583, -0.204868), (0.114503, 0.786281, 0.099216), (-0.003882, -0.048116, 1.051998)),
    "green": ((0.367322, 0.860646, -0.227968), (0.280085, 0.672501, 0.047413), (-0.011820, 0.042940, 0.968881)),
    "blue": ((1.255528, -0.076749, -0.178779), (-0.078411, 0.930809, 0.147602), (0.004733, 0.691367, 0.303900)),
}


def lightness_and_hue(colour, matrix):
    """The colour, drawn on white with seven tenths of its strength, as CIELAB numbers."""
    parts = [0.3 + 0.7 * int(colour[at : at + 2], 16) / 255 for at in (1, 3, 5)]
    linear = [part / 12.92 if part <= 0.04045 else ((part + 0.055) / 1.055) ** 2.4 for part in parts]
    r, g, b = (min(1, max(0, sum(weight * part for weight, part in zip(row, linear)))) for row in matrix)
    x, y, z = (0.4124 * r + 0.3576 * g + 0.1805 * b) / 0.9505, 0.2126 * r + 0.7152 * g + 0.0722 * b, (0.0193 * r + 0.1192 * g + 0.9505 * b) / 1.089
    x, y, z = (part ** (1 / 3) if part > 0.008856 else 7.787 * part + 16 / 116 for part in (x, y, z))
    return 116 * y - 16, 500 * (x - y), 200 * (y - z)


def colours(_):
    picture = drawn(EXAMPLES / "haverly1.json")
    strokes = {path.get("stroke") for path in picture.iter(NAME + "path") if path.get("class", "").startswith("arc")}
    if len(strokes) != 3:
        yield f"the kinds of arcs have the colours {strokes}"
    for (cone, matrix), (one, other) in itertools.product(BLINDNESS.items(), itertools.combinations(sorted(strokes), 2)):
        distance = sum((a - b) ** 2 for a, b in zip(lightness_and_hue(one, matrix), lightness_and_hue(other, matrix))) ** 0.5
        if distance < 20:
            yield f"{one} and {other} are {distance:.0f} apart where the cone that is lacking is: {cone}"


    marks = [colour for colour, *_ in tool.tree_picture.MARKS.values()]
    for (cone, matrix), (one, other) in itertools.product(BLINDNESS.items(), itertools.combinations(marks, 2)):
        distance = sum((a - b) ** 2 for a, b in zip(lightness_and_hue(one, matrix), lightness_and_hue(other, matrix))) ** 0.5
        if distance < 20:
            yield f"the marks {one} and {other} are {distance:.0f} apart where the cone that is lacking is: {cone}"


def drawn_tree(folder, *words):
    """The picture of the tree of two feeds: the left end, the top and the width of each box by its node, and the marks with theirs."""
    done = run("--tree", EXAMPLES / "two_feeds.json", EXAMPLES / "two_feeds.cert", *words)
    picture = tree.fromstring(done.stdout)
    rects = [(rect, tuple(round(float(rect.get(key)), 1) for key in ("x", "y", "width"))) for rect in picture.iter(NAME + "rect") if rect.get("class")]
    boxes = {int(rect.get("data-node")): place for rect, place in rects if rect.get("class") == "box"}
    return picture, boxes, {(rect.get("class"), rect.get("fill"), place[0], place[2]) for rect, place in rects if rect.get("class") != "box"}


def trees(folder):
    """Three leaves, of which the first two are halves of node 1; the picture is 1,068 wide within its margin of 16."""
    (folder / "marks.tight").write_text(TIGHT)
    plain, boxes, marks = drawn_tree(folder)
    if boxes != {0: (16, 64, 1068), 1: (16, 94, 712), 2: (728, 94, 356), 3: (16, 124, 356), 4: (372, 124, 356)} or marks:
        yield f"two feeds: the boxes are {boxes}, the marks {marks}"
    yield from lacking(plain, ["2 cuts \u00a0\u00a0 bound -300", "-300", "no plan", "the certificate was checked by tools/pooling.py"])
    if texts(plain).count("-300") != 4 or texts(plain).count("no plan") != 1:
        yield f"two feeds: the bounds are {texts(plain)}"
    dashed = [rect.get("data-node") for rect in plain.iter(NAME + "rect") if rect.get("stroke-dasharray")]
    if dashed != ["3"]:
        yield f"two feeds: without a plan are {dashed}"
    marked, again, marks = drawn_tree(folder, folder / "marks.tight")
    if again != boxes or marks != {("mark tight", svg.BLUE, 728, 356), ("mark loose", svg.PALE, 372, 356)}:
        yield f"two feeds: the boxes with marks are {again}, the marks {marks}"
    wanted = ["2 cuts \u00a0\u00a0 bound -300 \u00a0\u00a0 with the marks by form pq -300", "tight 1: the rows allow no better bound", "loose 1: nothing is said"]
    yield from lacking(marked, wanted)
    titles = {rect.findtext(NAME + "title") for rect in marked.iter(NAME + "rect")}
    for words in ("box 3, not cut: holds no plan; the part of B in P at most 0.25",
                  "box 2, not cut: no plan costs less than -300; the part of A in P at least 0.5; tight: the rows allow no better bound"):
        if words not in titles:
            yield f"two feeds: no box says {words}; {titles}"


def other_kinds(_):
    for net, cert, head in (("row1", "row1_bound", "no plan is known \u00a0\u00a0 bound -300"), ("no_plan", "no_plan", "no plan obeys")):
        yield from lacking(drawn(EXAMPLES / f"{net}.json", EXAMPLES / f"{cert}.cert"), [head])
    yield from lacking(drawn(EXAMPLES / "two_feeds.json"), ["sources: 2 \u00a0\u00a0 pools: 1 \u00a0\u00a0 products: 1", "the network alone"])
    yield from lacking(drawn(EXAMPLES / "empty.json"), ["sources: 0 \u00a0\u00a0 pools: 0 \u00a0\u00a0 products: 0"])


def odd_names(folder):
    """Names and titles that XML could trip over."""
    (folder / "odd.json").write_text('{"version":1,"title":"\\u0000 <b> & co","sources":[],"products":[{"name":"<&>\\"\'","price":1,"max":3}],"arcs":[]}')
    yield from lacking(drawn(folder / "odd.json"), ["\ufffd <b> & co", "<&>\"'", "at most 3, price 1"])


def refused(folder):
    (folder / "plan.report").write_text(REPORT)
    (folder / "short.report").write_text(REPORT.replace("slack             0.000000 sewer\n", ""))
    (folder / "marks.tight").write_text(TIGHT)
    (folder / "false.tight").write_text(TIGHT.replace(" 1048576 0 ", " 1048575 0 "))
    (folder / "cut.tight").write_text(TIGHT[:40])
    feeds, of_feeds, false, cut = EXAMPLES / "two_feeds.json", EXAMPLES / "two_feeds.cert", folder / "false.tight", folder / "cut.tight"
    row1, nowhere = EXAMPLES / "row1.json", folder / "nowhere"
    cases = [
        ([row1, EXAMPLES / "refused" / "cost.cert"], 1, f"{EXAMPLES / 'refused' / 'cost.cert'}: refused cost"),
        ([row1, EXAMPLES / "refused" / "text.cert"], 1, f"{EXAMPLES / 'refused' / 'text.cert'}: refused text 7"),
        ([row1, EXAMPLES / "haverly1.cert"], 1, f"{EXAMPLES / 'haverly1.cert'}: refused shape"),
        ([row1, folder / "plan.report"], 1, f"{folder / 'plan.report'}: refused report 5"),
        ([EXAMPLES / "wastewater.json", folder / "short.report"], 1, f"{folder / 'short.report'}: refused report 22"),
        ([EXAMPLES / "row1.cert"], 3, f"{EXAMPLES / 'row1.cert'}:1:1: the file: it is no JSON (2)\n    stands there: poolcert 1 kind gap\n    right:        a text in double quotes, a number, a list or an object"),
        ([nowhere], 20, f"{nowhere}: No such file or directory"),
        ([row1, nowhere], 20, f"{nowhere}: No such file or directory"),
        (["--tree", feeds, of_feeds, false], 1, f"{false}: refused tight 3"),
        (["--tree", feeds, of_feeds, cut], 1, f"{cut}: refused tight 1\nthe first faulty line is 5"),
        (["--tree", feeds, of_feeds, nowhere], 20, f"{nowhere}: it can't be read"),
        (["--tree", feeds, EXAMPLES / "haverly1.cert", false], 1, f"{EXAMPLES / 'haverly1.cert'}: refused shape"),
    ]
    for words, status, line in cases:
        found = run(*words)
        if (found.returncode, found.stdout, found.stderr) != (status, "", line + "\n"):
            yield f"{words}: {found.returncode} {found.stdout[:60]} {found.stderr}"
    marks = folder / "marks.tight"
    if [run(*words).returncode for words in (["--help"], [], [row1, row1, row1, row1], [feeds, of_feeds, marks], ["--tree", feeds])] != [0, 2, 2, 2, 2]:
        yield "help and usage have other statuses"


def main():
    parts = [haverly, wastewater, treated, mixed, legible, colours, trees, other_kinds, odd_names, refused]
    with tempfile.TemporaryDirectory() as folder:
        differ = [fault for part in parts for fault in part(Path(folder))]
    print(*differ, sep="\n", end="\n" if differ else "")
    print(f"{len(parts)} parts, {len(differ)} differ")
    return 1 if differ else 0


if __name__ == "__main__":
    sys.exit(main())
