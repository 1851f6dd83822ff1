#!/usr/bin/env python3
"""Whether the program, `tools/explain` and `tools/second_checker.py` tell the same first fault of network files.

`damaged_networks.py POOL` damages the networks of examples/ from a fixed seed, has `POOL check` judge each file, and
compares its line on standard error with that of the second checker and with the last line of `tools/explain`. A third
of them say costs and maxima of arcs and ratios of pools before they are damaged. Faults of a network of version 2 come
first, each at the place that was worked out by hand. It also compares docs/network.schema.json with the tables of
`tools/explain`. It prints what differs, and how often each cause was met.
"""

import contextlib
import io
import json
import random
import subprocess
import sys
import tempfile
from collections import Counter
from importlib.machinery import SourceFileLoader
from pathlib import Path

sys.dont_write_bytecode = True
TOP = Path(__file__).resolve().parent.parent
explain = SourceFileLoader("explain", str(TOP / "tools" / "explain")).load_module()
checker = SourceFileLoader("second_checker", str(TOP / "tools" / "second_checker.py")).load_module()
FILES = 300
SEED = 1976

# What a planner or an accident may write in the place of a value.
WRITTEN = [
    '"2,5"', '"1,000"', '""', "null", "2.5", "1e3", "-0", '"-0"', '"+5"', '" 5"', '"5."', '".5"', '"2.5000001"', '"000000000000001"',
    '"1234567890123456"', "18446744073709551615", "18446744073709551616", "-9223372036854775808", "-9223372036854775809",
    "1000001", "-1", "100001", "100000001", "true", "[]", "{}", '"A"', '"X"', '"P"', '["A","X"]', "1e400", '"\\ud800"', '"\\u00e4"',
    '"' + "n" * 40 + '"', '"' + "n" * 41 + '"', "NaN", "01", "'A'", '"0.000001"', '"-100000.000001"', "2", "1", "1.0",
    "3", "1001", '{"sulfur":500}', '{"from":"A","to":"X"}', '{"from":"A","to":"P","cost":"0.5","max":80}',
]
NAMES = ["cots", "cost", "max", "min", "Name", "name", "quality", "most", "least", "sulfur", "note", "version", "arcs", "pools", "price", "",
         "ratio", "from", "to"]

# A network of version 2, and what is written in the place of its text: where the first fault of the file is, and its causes.
LATER = (
    '{"version":2,"qualities":["sulfur"],"sources":[{"name":"A","cost":6,"max":100,"quality":{"sulfur":3}}],'
    '"pools":[{"name":"P","ratio":{"sulfur":500}}],"products":[{"name":"X","price":9,"max":100,"most":{"sulfur":"1.5"}}],'
    '"arcs":[{"from":"A","to":"P","cost":"0.5","max":80},["P","X"]]}'
)
FAULTS = [
    ('"version":2', '"version":1', "pools[0].ratio", "4"),
    ('"version":2', '"version":3', "version", "6"),
    ('"version":2', '"version":2.0', "version", "6"),
    ('"version":2', '"version":"2"', "version", "3"),
    ('"pools":[{"name":"P","ratio":{"sulfur":500}}]', '"pools":[{"name":"P","ratio":500}]', "pools[0].ratio", "3"),
    ('"sulfur":500', '"lead":500', "pools[0].ratio.lead", "4"),
    ('"sulfur":500', '"sulfur":"500"', "pools[0].ratio.sulfur", "3"),
    ('"sulfur":500', '"sulfur":null', "pools[0].ratio.sulfur", "3"),
    ('"sulfur":500', '"sulfur":0.5', "pools[0].ratio.sulfur", "7"),
    ('"sulfur":500', '"sulfur":-9223372036854775809', "pools[0].ratio.sulfur", "7"),
    ('"sulfur":500', '"sulfur":18446744073709551615', "pools[0].ratio.sulfur", "9 11"),
    ('"sulfur":500', '"sulfur":1001', "pools[0].ratio.sulfur", "9 11"),
    ('"sulfur":500', '"sulfur":-1', "pools[0].ratio.sulfur", "9 11"),
    ('["P","X"]', '["P"]', "arcs[1]", "3"),
    ('["P","X"]', '["P","X","X"]', "arcs[1]", "3"),
    ('["P","X"]', '"P"', "arcs[1]", "3"),
    ('["P","X"]', '{"from":"P"}', "arcs[1]", "5"),
    ('"from":"A",', '', "arcs[0]", "5"),
    ('"from":"A"', '"from":7', "arcs[0].from", "3"),
    ('"to":"P"', '"to":["P"]', "arcs[0].to", "3"),
    ('"cost":"0.5"', '"cots":"0.5"', "arcs[0].cots", "4"),
    ('"cost":"0.5"', '"cost":0.5', "arcs[0].cost", "7"),
    ('"cost":"0.5"', '"cost":".5"', "arcs[0].cost", "8"),
    ('"cost":"0.5"', '"cost":"-1000000.000001"', "arcs[0].cost", "9 11"),
    ('"max":80', '"max":null', "arcs[0].max", "3"),
    ('"max":80', '"max":"100000000.000001"', "arcs[0].max", "9 11"),
    ('"max":80', '"max":-1', "arcs[0].max", "9 11"),
    ('["P","X"]', '{"from":"A","to":"P"},["P","X"]', "arcs[1]", "9 7"),
    ('["P","X"]', '["P","Z"]', "arcs[1][1]", "9 4"),
    ('"to":"P"', '"to":"Z"', "arcs[0].to", "9 4"),
]


def places(value, kinds):
    """All values of these kinds within a value, each with where it is held: its container, and its index or name."""
    items = list(enumerate(value)) if isinstance(value, list) else list(value.items()) if isinstance(value, dict) else []
    for key, item in items:
        if isinstance(item, kinds):
            yield value, key
        yield from places(item, kinds)


class Written(str):
    """A text that stands in the file as it is."""


def text_of(value, twice):
    """The JSON text of a value; the member `twice`, if it is met, stands twice."""
    if isinstance(value, Written):
        return value
    if isinstance(value, list):
        return "[" + ",".join(text_of(item, twice) for item in value) + "]"
    if isinstance(value, dict):
        members = [(name, text_of(item, twice)) for name, item in value.items()]
        members = [pair for pair in members for _ in range(2 if pair[0] == twice else 1)]
        return "{" + ",".join(json.dumps(name) + ":" + item for name, item in members) + "}"
    return json.dumps(value)


def damage_value(rng, net):
    held, key = rng.choice(list(places(net, (str, int, list, dict))))
    held[key] = Written(rng.choice(WRITTEN))


def damage_quantity(rng, net):
    held, key = rng.choice([place for place in places(net, (str, int)) if isinstance(place[0], dict) and place[1] not in ("name", "title")])
    held[key] = Written(rng.choice(WRITTEN[:27]))


def drop_member(rng, net):
    held, key = rng.choice([place for place in places(net, (str, int, list, dict)) if isinstance(place[0], dict)])
    del held[key]


def rename_member(rng, net):
    held, key = rng.choice([place for place in places(net, (str, int, list, dict)) if isinstance(place[0], dict)])
    held[rng.choice(NAMES)] = held.pop(key)


def drop_element(rng, net):
    held, key = rng.choice([place for place in places(net, (str, list, dict)) if isinstance(place[0], list)])
    del held[key]


def repeat_element(rng, net):
    held, key = rng.choice([place for place in places(net, (list, dict)) if isinstance(place[0], list)])
    held.insert(rng.randrange(len(held) + 1), held[key])


def ends_of(arc):
    """Where an arc holds its ends: in a list by number, and in an object by name."""
    return (0, 1) if isinstance(arc, list) else ("from", "to")


def turn_arc(rng, net):
    arc = rng.choice(net["arcs"]) if net["arcs"] else []
    names = [row["name"] for kind in ("sources", "pools", "products") for row in net.get(kind, [])]
    one, other = ends_of(arc)
    if arc and rng.randrange(2):
        arc[one], arc[other] = arc[other], arc[one]
    elif arc:
        arc[rng.choice([one, other])] = rng.choice(names + ["nobody"])


def second_version(rng, net):
    """The network says ratios of some pools, and costs and maxima of some arcs."""
    net["version"] = 2
    for pool in net.get("pools", []):
        if rng.randrange(2):
            pool["ratio"] = {name: rng.choice([0, 1, 500, 1000]) for name in net.get("qualities", []) if rng.randrange(4)}
    for number, arc in enumerate(net["arcs"]):
        if rng.randrange(2):
            net["arcs"][number] = {"from": arc[0], "to": arc[1], "cost": rng.choice([0, -1, "0.5"]), "max": rng.choice([0, 80, "12.5"])}


def damage_ratio(rng, net):
    pool = rng.choice([pool for pool in net["pools"] if pool.get("ratio")])
    pool["ratio"][rng.choice([*pool["ratio"], "lead"])] = Written(rng.choice(WRITTEN))


def damage_arc(rng, net):
    arc = rng.choice([arc for arc in net["arcs"] if isinstance(arc, dict)])
    arc[rng.choice([*arc, "name"])] = Written(rng.choice(WRITTEN))


def lower_version(rng, net):
    net["version"] = 1


def join_pools(rng, net):
    net["arcs"].append([rng.choice(net["pools"])["name"], rng.choice(net["pools"])["name"]])


def strand_pool(rng, net):
    """All arcs into or out of a pool go."""
    name, end = rng.choice(net["pools"])["name"], rng.randrange(2)
    net["arcs"] = [arc for arc in net["arcs"] if arc[ends_of(arc)[end]] != name]


def rename_node(rng, net):
    rng.choice(net[rng.choice(["sources", "pools", "products"])])["name"] = rng.choice(["", "n" * 41, "\u00e4", "A\n", "n" * 40, "A", "X"])


def lower_maximum(rng, net):
    product = rng.choice(net["products"]) if net["products"] else {}
    product.update(rng.choice([{"min": 101, "max": 100}, {"least": {"sulfur": 4}, "most": {"sulfur": 3}}, {"least": {"load": "90.1"}}]))


def lengthen_list(rng, net):
    kind = rng.choice(["sources", "pools", "products", "qualities", "arcs"])
    net[kind] = (net.get(kind) or [["A", "X"]]) * rng.choice([9, 17, 65, 257])


def widen_pool(rng, net):
    """More paths than there may be, or just as many."""
    feeds, outs = rng.choice([(27, 19), (16, 32)])
    net["sources"] = [{"name": f"S{n}", "cost": 1, "quality": {name: 1 for name in net.get("qualities", [])}} for n in range(feeds)]
    net["pools"] = [{"name": "P"}]
    net["products"] = [{"name": f"X{n}", "price": 1, "max": 1} for n in range(outs)]
    net["arcs"] = [[f"S{n}", "P"] for n in range(feeds)] + [["P", f"X{n}"] for n in range(outs)]


DAMAGES = [damage_value, damage_quantity, damage_quantity, drop_member, rename_member, drop_element, repeat_element, turn_arc, turn_arc,
           join_pools, strand_pool, rename_node, lower_maximum, lengthen_list, widen_pool]
LATER_DAMAGES = DAMAGES + [damage_ratio, damage_ratio, damage_arc, damage_arc, lower_version]


def damage_bytes(rng, data):
    at = rng.randrange(len(data))
    return rng.choice([
        data[:at], data[:at] + data[at + 1 :], data[:at] + bytes([rng.randrange(256)]) + data[at + 1 :], b"\xef\xbb\xbf" + data,
        data[:at] + b"," + data[at:], data[:at] + b'"' + data[at:], data + b" 1", data.decode().encode("utf-16"),
    ])


def damaged(rng, net):
    """The bytes of a network with one to three things changed."""
    later = rng.randrange(3) == 0
    if later and net["version"] == 1:
        second_version(rng, net)
    for _ in range(rng.choice([1, 1, 1, 2, 3])):
        try:
            rng.choice(LATER_DAMAGES if later else DAMAGES)(rng, net)
        except (IndexError, KeyError, TypeError, AttributeError):
            pass  # what was to be changed is no longer there
    names = ["max", "name", "cost", "version"]
    data = text_of(net, rng.choice(names) if rng.random() < 0.1 else None).encode()
    return damage_bytes(rng, data) if rng.random() < 0.1 else data


def told_by_program(pool, file):
    """What the program says of a file: the line of its refusal, or nothing."""
    run = subprocess.run([pool, "check", file, file + ".none"], capture_output=True, text=True)
    if run.returncode not in (3, 20):
        return f"status {run.returncode}"
    return run.stderr.strip().removeprefix("pool: ") if run.returncode == 3 else ""


def told_by_explain(data):
    printed = io.StringIO()
    with contextlib.redirect_stdout(printed):
        explain.explain("file", data)
    last = printed.getvalue().splitlines()[-1]
    return last.removeprefix("The program refuses this file: ") if last.startswith("The program refuses") else ""


def place_by_explain(data):
    """Where `tools/explain` finds the first fault of a file."""
    printed = io.StringIO()
    with contextlib.redirect_stdout(printed):
        explain.explain("file", data)
    return printed.getvalue().split(": ")[1]


def told_by_checker(file):
    status, line = checker.run([file, file + ".none"])
    return line.removeprefix("pool: ") if status == 3 else ""


def stated_faults(pool, folder):
    """Where a fault of a network of version 2 is told otherwise than it was worked out."""
    file = str(Path(folder) / "later.json")
    for old, new, place, causes in FAULTS:
        data = LATER.replace(old, new, 1).encode()
        Path(file).write_bytes(data)
        told = (place_by_explain(data), told_by_program(pool, file), told_by_explain(data), told_by_checker(file))
        if told != (place, *3 * [f"network refused: {causes}"]):
            yield f"{new} for {old} is {causes} at {place}, and is told as {told}"


def schema_faults():
    """Where the schema says something else than the tables of `tools/explain`."""
    schema = json.loads((TOP / "docs" / "network.schema.json").read_text())
    parts = schema["$defs"]
    for name, shape, members in (("top", schema, explain.TOP), ("source", parts["source"], explain.SOURCE), ("pool", parts["pool"], explain.POOL),
                                 ("product", parts["product"], explain.PRODUCT), ("arc", parts["priced"], explain.ARC)):
        if set(shape["properties"]) != set(members) or shape["additionalProperties"]:
            yield f"{name}: other members"
        if set(shape["required"]) != {member for member, needed in members.items() if needed}:
            yield f"{name}: other members are required"
    for kind, most in explain.COUNTS.items():
        if schema["properties"][kind]["maxItems"] != most:
            yield f"{kind}: another count"
    if schema["properties"]["version"]["enum"] != [1, 2]:
        yield "other versions"
    ranges = {"money": explain.MONEY, "amount": explain.AMOUNT, "supply": explain.SUPPLY, "carried": explain.SUPPLY,
              "quality": explain.QUALITY, "ratio": explain.RATIO}
    for name, (least, most) in ranges.items():
        number = parts[name].get("anyOf", [parts[name]])[0]
        if (number["minimum"], number["maximum"]) != (least, most):
            yield f"{name}: another range"
    patterns = {"name": "^" + explain.NAME.pattern + "$", "text": "^" + explain.TEXT.pattern.replace("-?", "-?", 1) + "$"}
    for name, pattern in patterns.items():
        if parts[name]["pattern"] != pattern:
            yield f"{name}: another pattern"


def main(pool):
    rng = random.Random(SEED)
    nets = [path.read_text() for path in sorted((TOP / "examples").glob("*.json"))]
    met, differ = Counter(), list(schema_faults())
    with tempfile.TemporaryDirectory() as folder:
        differ += stated_faults(pool, folder)
        for number in range(FILES):
            data = damaged(rng, json.loads(rng.choice(nets)))
            file = str(Path(folder) / f"{number}.json")
            Path(file).write_bytes(data)
            program, here, there = told_by_program(pool, file), told_by_explain(data), told_by_checker(file)
            met[program.removeprefix("network refused: ") or "taken"] += 1
            if not program == here == there:
                differ.append(f"file {number}: the program says {program!r}, tools/explain {here!r}, the second checker {there!r}: {data[:300]!r}")
    differ += [f"no file was refused for {cause}" for cause in explain.CAUSES if cause != "1" and not met[cause]]
    print(*differ, sep="\n", end="\n" if differ else "")
    print(f"{FILES - len(differ)} of {FILES} damaged files alike; " + ", ".join(f"{cause}: {n}" for cause, n in sorted(met.items())))
    return 1 if differ else 0


if __name__ == "__main__":
    sys.exit(main(*sys.argv[1:]))
