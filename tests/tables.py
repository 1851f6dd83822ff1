#!/usr/bin/env python3
"""Whether `tools/network_from_csv` and `tools/csv_from_network` do what they say: `tables.py`

The template of examples/csv is the network of examples/wastewater.json; tables as a spreadsheet saves them give a text that
is written out here; each network of examples/ and of tests/worked comes back from its tables; tables without a cost or a maximum of
an arc and without a ratio give version 1; and each fault is told at its file, line and column. It prints what differs, and how many cases there were.
"""

import json
import os
import subprocess
import sys
import tempfile
from pathlib import Path

sys.dont_write_bytecode = True
TOP = Path(__file__).resolve().parent.parent
TOOLS = TOP / "tools"
sys.path.insert(0, str(TOOLS))
import csv_tables
import second_checker as checker

# Tables as a spreadsheet saves them: a byte order mark, carriage returns, columns in another order, thousands separators,
# empty cells and lines, and names with a comma, with double quotes and with a space at the end.
SAVED = {
    "sources.csv": b'\xef\xbb\xbfname,quality sulfur,max,cost,quality octane,\r\n"A, north",3," 1,000 ",6.50,-0.25,\r\n"B ""old""",1,,16,"1,234.5",\r\n,,,,,\r\n',
    "pools.csv": b'name,max\r\nP,"1\'000"\r\n',
    "products.csv": b'name,min,max,price,most sulfur,least octane\r\nX ,,100.000000,9,2.5,\r\n\r\nY,1 0,0,-0,,-5\r\n'.replace(b"1 0,0", b'1,"2 000"'),
    "arcs.csv": b'to,from\r\nP,"A, north"\r\nP,"B ""old"""\r\nX ,P\r\nY,P\r\nX ,"B ""old"""\r\n',
}
NETWORK = r"""{"version":1,"qualities":["sulfur","octane"],
"sources":[{"name":"A, north","cost":"6.5","max":1000,"quality":{"sulfur":3,"octane":"-0.25"}},
{"name":"B \"old\"","cost":16,"quality":{"sulfur":1,"octane":"1234.5"}}],
"pools":[{"name":"P","max":1000}],
"products":[{"name":"X ","price":9,"max":100,"most":{"sulfur":"2.5"}},
{"name":"Y","price":0,"max":2000,"min":1,"least":{"octane":-5}}],
"arcs":[["A, north","P"],
["B \"old\"","P"],
["P","X "],
["P","Y"],
["B \"old\"","X "]]}
"""

# The same with what version 2 has: columns in another order, empty cells, and numbers as a spreadsheet writes them.
SAVED_2 = {
    **SAVED,
    "pools.csv": b'ratio:octane,name,max,ratio:sulfur\r\n"1,000",P,,500\r\n',
    "arcs.csv": b'max,to,from,cost\r\n"1,080.5",P,"A, north",-0.50\r\n,P,"B ""old""",\r\n,X ,P,0\r\n0,Y,P,\r\n,X ,"B ""old""",\r\n',
}
NETWORK_2 = NETWORK.replace('"version":1', '"version":2').replace('"max":1000}],\n"products"', '"ratio":{"sulfur":500,"octane":1000}}],\n"products"')
NETWORK_2 = NETWORK_2[: NETWORK_2.index('"arcs"')] + r""""arcs":[{"from":"A, north","to":"P","cost":"-0.5","max":"1080.5"},
["B \"old\"","P"],
{"from":"P","to":"X ","cost":0},
{"from":"P","to":"Y","max":0},
["B \"old\"","X "]]}
"""

# Two feeds of one pool, which the cases below change in one place each: a table, what stands there, what is written in its
# place, and the first line and the advice that are told.
GOOD = {
    "sources.csv": "name,cost,max,quality sulfur\nA,6,300,3\nB,16,,1\n",
    "pools.csv": "name,max\nP,\n",
    "products.csv": "name,price,min,max,most sulfur\nX,9,,100,2.5\n",
    "arcs.csv": "from,to\nA,P\nB,P\nP,X\n",
}
FAULTS = [
    ("sources", "B,16,", "B,,", "3: column B (cost): a number is absent", "a number, 0 too"),
    ("sources", "A,6,", 'A,"2,5",', "2: column B (cost): a number of another form", "2.5"),
    ("sources", "A,6,", 'A,"1.000,5",', "2: column B (cost): a number of another form", "1000.5"),
    ("sources", "A,6,", "A,5 %,", "2: column B (cost): a number of another form", "5"),
    ("sources", "A,6,", "A,1E+03,", "2: column B (cost): a number of another form", "1000"),
    ("sources", "A,6,", "A,2.5000001,", "2: column B (cost): a number of another form", "2.5, rounded to six decimals"),
    ("sources", "A,6,", 'A,"1,00,000",', "2: column B (cost): a number of another form", "digits, 15 at most, with a point before decimals: 5 or 2.5"),
    ("sources", "A,6,300,3", "A,6,300,", "2: column D (quality sulfur): a number is absent", "a number, 0 too"),
    ("products", "9,,100", "1,000,100", "2: column C (min): a number of another form", 'double quotes around both cells where this is the end of a number as "1,000"; else 0'),
    ("sources", "A,6,300,3", "A,6,1,000,3", "2: column E: a cell behind the last column", "double quotes around a number or a name with a comma"),
    ("sources", "A,6,", "A,1000001,", "2: column B (cost): a number is outside its limits (9 11)", "from -1,000,000 to 1,000,000"),
    ("sources", "300", "-1", "2: column C (max): a number is outside its limits (9 11)", "from 0 to 100,000,000"),
    ("sources", "B,16", "A,16", "3: column A (name): a name stands twice (9 3)", "another name than that of sources.csv:2: column A (name)"),
    ("sources", "A,6", ",6", "2: column A (name): a name is absent", "the name of a source, a pool or a product"),
    ("sources", "cost", "Cost", "1: column B: a column that the table may not have", '"cost"'),
    ("sources", "cost", "Cost", "1: a column is absent", 'a column "cost"'),
    ("sources", "max", "cost", "1: column C: a title stands twice", "one column of that title"),
    ("sources", "B,16", "\u00d6l,16", "3: column A (name): a name has no byte, more than 40, or one outside space to ~ (9 2)", "1 to 40 bytes, letters without accents"),
    ("sources", "name,cost,max,quality sulfur", "name;cost;max;quality sulfur", "1: column A: the cells are not separated by commas", "saved as CSV with commas, and numbers with a point: 2.5"),
    ("sources", "A,6", 'A,"6"0', "2: ',' expected after '\"'", 'double quotes around a cell, and "" for one within it'),
    ("pools", "name,max\nP,\n", "", "1: the table has no titles", "name,max"),
    ("products", "most sulfur", "most sulphur", "1: column E: a quality that no source has", '"sulfur"'),
    ("products", ",100,", ",,", "2: column D (max): a number is absent", "a number, 0 too"),
    ("products", "9,,100", "9,101,100", "2: column C (min): a minimum is above the maximum, or a least quality above the most (9 12)", "at most the maximum, 100"),
    ("arcs", "A,P", "a,P", "2: column A (from): an end of an arc names no source, pool or product (9 4)", '"A"'),
    ("arcs", "P,X\n", "P,X\nA,P\n", "5: an arc stands twice (9 7)", "once: it is arcs.csv:2"),
    ("arcs", "A,P\nB,P\n", "A,X\n", "2: column A (name): no arc goes into a pool (9 8)", "an arc from a source to P"),
    ("arcs", "P,X", "P,", "4: column B (to): a name is absent", "the name of a source, a pool or a product"),
    ("arcs", "from,to\nA,P", 'from,to,cost\nA,P,"0,5"', "2: column C (cost): a number of another form", "0.5"),
    ("arcs", "from,to\nA,P", "from,to,cost\nA,P,-1000000.1", "2: column C (cost): a number is outside its limits (9 11)", "from -1,000,000 to 1,000,000"),
    ("arcs", "from,to\nA,P", "from,to,max\nA,P,-1", "2: column C (max): a number is outside its limits (9 11)", "from 0 to 100,000,000"),
    ("arcs", "from,to\nA,P", "from,to,max\nA,Q,1", "2: column B (to): an end of an arc names no source, pool or product (9 4)", 'one of "A", "B", "P", "X"'),
    ("arcs", "from,to\nA,P", "from,to,max\nB,P,1", "3: an arc stands twice (9 7)", "once: it is arcs.csv:2"),
    ("arcs", "from,to\nA,P", "from,to,most\nA,P,1", "1: column C: a column that the table may not have", '"cost"'),
    ("pools", "name,max\nP,", "name,ratio:sulfur\nP,0.5", "2: column B (ratio:sulfur): a quantity is a number that is not whole, or not of 64 bits (7)", "a whole number of thousandths, from 0 to 1,000: 500"),
    ("pools", "name,max\nP,", "name,ratio:sulfur\nP,1001", "2: column B (ratio:sulfur): a number is outside its limits (9 11)", "from 0 to 1,000"),
    ("pools", "name,max\nP,", "name,ratio:sulphur\nP,5", "1: column B: a quality that no source has", '"sulfur"'),
    ("pools", "name,max\nP,", "name,ratio sulfur\nP,5", "1: column B: a column that the table may not have", '"ratio:sulfur"'),
]


def run(tool, *words, at=None):
    return subprocess.run([str(TOOLS / tool), *map(str, words)], capture_output=True, text=True, cwd=at)


def written(folder, tables):
    folder.mkdir(exist_ok=True)
    for name, text in tables.items():
        (folder / name).write_bytes(text if isinstance(text, bytes) else text.encode())
    return folder


def network(data):
    return checker.judge_rows(checker.walk(checker.parse_json(data)))


def odd_network():
    """A network with names that a table must quote, and with a quality of the name of a column."""
    qualities = ["cost", " max ", 'a "b", c', "="]
    quality = {name: n for n, name in enumerate(qualities)}
    products = [{"name": ",", "price": "-0.000001", "max": 0, "least": {"=": 1}, "most": {"=": "1.5", " max ": -100000}}]
    sources = [{"name": " ", "cost": 1, "max": 0, "quality": quality}, {"name": "x" * 40, "cost": "0.10", "quality": quality}]
    arcs = [[" ", ","], ["x" * 40, '"'], ['"', ","]]
    return {"version": 1, "qualities": qualities, "sources": sources, "pools": [{"name": '"', "max": "0.5"}], "products": products, "arcs": arcs}


def odd_network_2():
    """The odd network, of which a pool keeps parts of two qualities and two arcs have more than their ends."""
    net = {**odd_network(), "version": 2}
    net["pools"] = [{"name": '"', "ratio": {" max ": 0, 'a "b", c': 1000}}]
    net["arcs"][1:] = [{"from": "x" * 40, "to": '"', "cost": "-0.000001"}, {"to": ",", "from": '"', "max": "0.1"}]
    return net


def template(_):
    run_ = run("network_from_csv", TOP / "examples" / "csv", "--title", "Outlets")
    if run_.returncode or network(run_.stdout.encode()) != network((TOP / "examples" / "wastewater.json").read_bytes()):
        yield f"examples/csv is not the network of wastewater.json: {run_.stderr}"
    if '"title":"Outlets"' not in run_.stdout:
        yield "the title is lost"


def saved_by_a_spreadsheet(folder):
    for tables, text in ((SAVED, NETWORK), (SAVED_2, NETWORK_2)):
        found = run("network_from_csv", written(folder / "saved", tables))
        if (found.returncode, found.stdout, found.stderr) != (0, text, ""):
            yield f"saved tables: {found.returncode} {found.stdout} {found.stderr}"


def version_by_cells(_):
    """Columns of version 2 in which nothing stands are as good as none; a 0 says something, as a cost and as a ratio."""
    plain = csv_tables.network_of([(name, text.encode()) for name, text in GOOD.items()], "")[0]
    cases = [("arcs", "from,to,cost,max\nA,P,,\nB,P,,\nP,X,,\n", plain), ("pools", "name,max,ratio:sulfur\nP,,\n", plain),
             ("arcs", "from,to,cost\nA,P,0\nB,P,\nP,X,\n", plain.replace(":1,", ":2,", 1).replace('["A","P"]', '{"from":"A","to":"P","cost":0}')),
             ("pools", "name,ratio:sulfur\nP,0\n", plain.replace(":1,", ":2,", 1).replace('{"name":"P"}', '{"name":"P","ratio":{"sulfur":0}}'))]
    for table, text, wanted in cases:
        found = csv_tables.network_of([(name, data.encode()) for name, data in {**GOOD, f"{table}.csv": text}.items()], "")
        if found != (wanted, []):
            yield f"{text!r}: {found}"


def way_back(folder):
    nets = {path.stem: path.read_text() for folder in ("examples", "tests/worked") for path in (TOP / folder).glob("*.json")}
    nets["odd"], nets["odd, version 2"] = json.dumps(odd_network()), json.dumps(odd_network_2())
    for name, text in nets.items():
        tables = csv_tables.tables_of(text)
        back, found = csv_tables.network_of([(file, table.encode()) for file, table in tables.items()], "")
        if found or network(back.encode()) != network(text.encode()) or json.loads(back)["version"] != json.loads(text)["version"]:
            yield f"{name} does not come back: {found}"
    for name in ("odd", "odd, version 2"):
        (folder / "odd.json").write_text(nets[name])
        if run("csv_from_network", "odd.json", name, at=folder).returncode or network(run("network_from_csv", name, at=folder).stdout.encode()) != network(nets[name].encode()):
            yield f"the commands lose odd names: {name}"


def row_by_hand(folder):
    """The tables of two feeds, with what the network leaves out left empty; and those of a pool that takes out half of the sulfur."""
    wanted = {
        "sources.csv": "name,cost,max,quality sulfur\nA,6,,3\nB,16,,1\n",
        "pools.csv": "name,max\nP,\n",
        "products.csv": "name,price,max,min,least sulfur,most sulfur\nX,9,100,,,\n",
        "arcs.csv": "from,to\nA,P\nB,P\nP,X\n",
    }
    treated = {
        "sources.csv": "name,cost,max,quality sulfur\nA,6,100,3\n",
        "pools.csv": "name,max,ratio:sulfur\nP,,500\n",
        "products.csv": "name,price,max,min,least sulfur,most sulfur\nX,9,100,,,1.5\n",
        "arcs.csv": "from,to,cost,max\nA,P,0.5,80\nP,X,,\n",
    }
    for net, tables in (("examples/two_feeds", wanted), ("tests/worked/desulfured", treated)):
        run("csv_from_network", TOP / f"{net}.json", folder / "by_hand", "--force")
        for name, text in tables.items():
            if (folder / "by_hand" / name).read_bytes() != text.encode():
                yield f"{net}: {name} is {(folder / 'by_hand' / name).read_text()!r}"


def faults(_):
    for table, part, other, place, right in FAULTS:
        tables = dict(GOOD)
        assert part in tables[f"{table}.csv"], part
        tables[f"{table}.csv"] = tables[f"{table}.csv"].replace(part, other, 1)
        found = csv_tables.network_of([(name, text.encode()) for name, text in tables.items()], "")[1]
        lines = [line for fault in found for line in fault.lines()]
        wanted = f"{'pools' if '(9 8)' in place else table}.csv:{place}"
        if wanted not in lines or f"    right:        {right}" not in lines:
            yield f"{table}: {part!r} as {other!r}: wanted {wanted}, {right}: {lines}"


def bytes_that_are_no_text(folder):
    for data, place in ((b"name,cost,max,quality sulfur\nA,6,,3\nB\xf6,1,,1\n", "sources.csv:3: column A: the table is not in UTF-8"),
                        (GOOD["sources.csv"].encode("utf-16"), "sources.csv:1: the table is not in UTF-8")):
        at = written(folder / "bytes", {**GOOD, "sources.csv": data})
        found = run("network_from_csv", ".", at=at)
        if found.returncode != 3 or found.stderr.splitlines()[0].replace("./", "") != place:
            yield f"{place}: {found.returncode} {found.stderr}"


def files_and_words(folder):
    at = written(folder / "kept", GOOD)
    net = TOP / "examples" / "row1.json"
    cases = [
        ("csv_from_network", [net, at], 20, f"{at / 'sources.csv'}: is there already, and is kept; --force writes over it"),
        ("csv_from_network", [folder / "nowhere.json", at], 20, f"{folder / 'nowhere.json'}: No such file or directory"),
        ("csv_from_network", [at / "arcs.csv", folder / "other"], 3, f"{at / 'arcs.csv'}: network refused: 2 (tools/explain says why)"),
        ("network_from_csv", [folder / "nowhere"], 20, f"{folder / 'nowhere' / 'sources.csv'}: No such file or directory"),
    ]
    for tool, words, status, line in cases:
        found = run(tool, *words)
        if (found.returncode, found.stdout, found.stderr) != (status, "", line + "\n"):
            yield f"{tool} {words}: {found.returncode} {found.stdout} {found.stderr}"
    if (at / "arcs.csv").read_text() != GOOD["arcs.csv"]:
        yield "a table was written over"
    if run("csv_from_network", net, at, "--force").returncode or (at / "arcs.csv").read_text() != "from,to\nA,X\n":
        yield "--force does not write over a table"
    for tool in ("csv_from_network", "network_from_csv"):
        found = [run(tool, *words) for words in (["--help"], [], ["--wide", "x"])]
        if [f.returncode for f in found] != [0, 2, 2] or "sources.csv, pools.csv, products.csv and arcs.csv" not in found[0].stdout:
            yield f"{tool}: help and usage end with {[f.returncode for f in found]}"


def main():
    os.environ["LC_ALL"] = "C"
    parts = [template, saved_by_a_spreadsheet, version_by_cells, way_back, row_by_hand, faults, bytes_that_are_no_text, files_and_words]
    with tempfile.TemporaryDirectory() as folder:
        differ = [fault for part in parts for fault in part(Path(folder))]
    print(*differ, sep="\n", end="\n" if differ else "")
    print(f"{len(parts)} parts, {len(FAULTS)} faults of tables, {len(differ)} differ")
    return 1 if differ else 0


if __name__ == "__main__":
    sys.exit(main())
