#!/usr/bin/env python3
"""Worked cases, tried on the built program: `worked_cases.py POOL`

Networks, certificates, plans and programs with the answers that were worked out by hand, or written by other programs: what each
command prints of them, with which status, and what it leaves in a journal. The cases are tables, a case a line; files that stand in
no folder of examples are in tests/worked. Prints each case that differs, and ends with a line `N passed, M failed`.
"""

import os
import re
import socket
import subprocess
import sys
import tempfile
import threading
from contextlib import suppress
from importlib.machinery import SourceFileLoader
from itertools import chain
from pathlib import Path

sys.dont_write_bytecode = True
import journal_bytes as made
from journal_bytes import checker

TOP = Path(__file__).resolve().parent.parent
USAGE = "pool: usage: solve NET, check NET CERT, report NET CERT, formulate NET, make N or trial N\n"
MONEY = 10**12  # the picos of one unit of money
PACKETS = getattr(os, "O_DIRECT", 0)  # a pipe of packets: each write to it is one read


# ---- files and runs


def text(name):
    """A file of tests/worked or of examples, by its name; `void.cert` has no byte."""
    if name == "void.cert":
        return ""
    own = TOP / "tests" / "worked" / name
    return (own if own.is_file() else TOP / "examples" / name).read_text()


def lines(table):
    """The lines of a table, each parted at its ` = `."""
    return [line.split(" = ") for line in table.strip("\n").split("\n")]


def changed(line):
    """The certificate of a line `NAME, OLD to NEW, OLD to NEW`: each change is made wherever its old text stands, in their order. A
    `/` in a change stands for a line feed."""
    name, *changes = line.split(", ")
    found = text(f"{name}.cert")
    for change in changes:
        old, new = change.replace("/", "\n").split(" to ")
        found = found.replace(old, new)
    return found


class Pool:
    """The program, in a folder of its own."""

    def __init__(self, program, folder):
        self.program, self.folder = program, folder

    def file(self, name, content):
        """A file of this name, with a text or with bytes."""
        path = self.folder / name
        path.write_bytes(content.encode() if isinstance(content, str) else content)
        return path

    def run(self, *words, **how):
        """Status, standard output and standard error of a run of these words."""
        done = subprocess.run([self.program, *map(str, words)], capture_output=True, cwd=self.folder, **how)
        return done.returncode, done.stdout.decode(), done.stderr.decode()

    def on(self, command, net, certificate, *words):
        """The same over a network's text, and a certificate's where there is one."""
        files = [self.file("net.json", net), *([] if certificate is None else [self.file("of.cert", certificate)])]
        return self.run(command, *files, *words)

    def solve(self, net, *words):
        return self.on("solve", net, None, *words)

    def check_in_pieces(self, net, certificate, length):
        """`check`, where each read of the certificate gives so many bytes at the most: status and standard output."""
        here, there = os.pipe2(PACKETS)
        data = certificate.encode()

        def fill():
            # A program that ends before it has read all breaks the pipe.
            with suppress(BrokenPipeError), os.fdopen(there, "wb", buffering=0) as pipe:
                for at in range(0, len(data), length):
                    pipe.write(data[at : at + length])

        words = [self.program, "check", self.file("net.json", net), f"/dev/fd/{here}"]
        with subprocess.Popen(words, stdout=subprocess.PIPE, pass_fds=[here]) as run:
            os.close(here)
            filling = threading.Thread(target=fill)
            filling.start()
            printed = run.communicate()[0].decode()
            filling.join()
        return run.returncode, printed

    def writes(self, *words):
        """What a run writes to standard output and standard error, a text for each write."""
        here, there = socket.socketpair(socket.AF_UNIX, socket.SOCK_SEQPACKET)
        there.setsockopt(socket.SOL_SOCKET, socket.SO_SNDBUF, 1 << 20)
        with here:
            with there, subprocess.Popen([self.program, *map(str, words)], stdout=there, stderr=there, cwd=self.folder) as run:
                pass
            written = []
            while not written or written[-1]:
                written.append(here.recv(1 << 20).decode())
        return [run.returncode, *written[:-1]]


def plan_of(certificate):
    """The lines of the plan, and the cost as a number."""
    found = dict(re.findall("(?m)^(weights|outflows|direct|cost)(.*)$", certificate))
    return " ".join(f"{name}{found[name]}" for name in ("weights", "outflows", "direct", "cost")) if found else "none"


def numbers(certificate, label):
    """The numbers of the line that begins so."""
    return [int(number) for number in re.findall(f"(?m)^{label}( .*)$", certificate)[0].split()]


# ---- statuses

# Networks with the words of a run, and its status. There is no file of the name `other`. The last five are a search that is stopped,
# one that is stuck, one that is infeasible, which the root shows or only its halves, and one that is undecided.
STATUSES = """
row1 solve net = 0
row1 solve --nodes=1000 net --form pq --rule widest --gap 0.01 = 0
row1 solve net --form p --rule violated --nodes 0 --gap 0 = 0
row1 solve net --nodes 200000 --rule first = 0
row1 solve net --squeeze on = 0
row1 solve net --squeeze=off = 0
haverly1 solve net --rule violated --squeeze=on --gap 0.001 = 0
haverly1 solve net --raise 1000 --gap 0 = 0
row1 solve net --raise=1000000 = 0
row1 solve net --raise 1000001 = 4
row1 solve other --raise 1000001 = 20
row1 solve net --nodes=200001 = 4
row1 solve other --nodes 200001 = 20
row1 solve net --journal j = 0
row1 report net other = 20
row1 report other net = 20
row1 formulate net = 0
row1 formulate net --form p = 0
row1 formulate other = 20
row1 make 7 = 0
row1 make 18446744073709551616 = 2
row1 trial 18446744073709551616 = 2
row1 help = 2
row1 solve other = 20
row1 check net other = 20
row1 check other net = 20
haverly1 solve net --nodes 0 --gap 0 = 10
prime solve net --gap 0 = 11
sour_direct solve net --nodes 0 = 12
torn solve net --nodes 9 = 12
torn solve net --nodes 0 = 13
"""

# Words that ask nothing, parted at each space.
NOT_ASKED = """
help

solve
solve net --nodes
solve net --nodes x
solve net --gap 1 --gap=1
solve\x20
solve net\x20
solve -net
solve net --
solve net -n 3
solve net --journal\x20
solve net --journal=
solve net --journal -j
solve net --journal=-j
solve net --form p --form=q
solve net --form PQ
solve net --rule best
solve net --squeeze
solve net --squeeze maybe
solve net --squeeze ON
solve net --squeeze on --squeeze=on
solve net --raise
solve net --raise on
solve net --raise -1
solve net --raise 1 --raise=1
solve net --nodes 000000000000000000007
solve net --nodes 18446744073709551616
solve net --nodes +7
solve net --gap 0.0000001
solve net --gap 1000000.000001
solve net --gap=-0
solve net --depth 3
solve net --=3
solve net more
solve --help
--form p solve net
check net
check net cert more
report net cert --form p
formulate
formulate net --nodes 3
make
make x
make 1 2
trial -1
"""


def statuses(pool):
    for asked, status in lines(STATUSES):
        name, words = asked.split(" ", 1)
        pool.file("net", text(f"{name}.json"))
        (pool.folder / "j").unlink(missing_ok=True)
        yield asked, pool.run(*words.split(" "))[0], int(status)


def words_that_ask_nothing(pool):
    pool.file("net", text("row1.json"))
    pool.file("cert", text("row1.cert"))
    for line in NOT_ASKED[1:-1].split("\n"):
        yield f"words: {line}", pool.run(*line.split(" ")), (2, "", USAGE)


# ---- one write each

# Networks whose cheapest starting plan costs the reach bound, and the certificates that are printed of them.
PRINTED = """
row1 = row1
idle = nothing_flows
empty = nothing
two_feeds = one_feed
"""


def single_writes(pool):
    for name, certificate in lines(PRINTED):
        net = pool.file("net.json", text(f"{name}.json"))
        yield f"one write: solve {name}", pool.writes("solve", net), [0, text(f"{certificate}.cert")]
    net, certificate = pool.file("net.json", text("row1.json")), pool.file("of.cert", text("row1.cert"))
    line = "accepted gap cost -300000000000000 base 1 bound -300000000000000 gap 0\n"
    yield "one write: check", pool.writes("check", net, certificate), [0, line]
    yield "one write: report", pool.writes("report", net, certificate), [0, text("row1.report")]
    none = pool.file("sour.json", text("sour_direct.json")), pool.file("none.cert", text("no_plan.cert"))
    yield "one write: report of no plan", pool.writes("report", *none), [0, "kind none\n"]
    yield "one write: words that ask nothing", pool.writes("help"), [2, USAGE]
    trial = pool.writes("trial", "7")
    yield "one write: trial", (trial[0], len(trial)), (0, 2)


# ---- networks that are refused

# A file is a part of the network of one source and one product with what is written in its place, or a whole text.
FILES = """
no network = 2
{"version":1,"sources":[{"name":"A","cost":1,"quality":{}}],"products":[{"name":"A","price":2,"max":1}],"arcs":[]} = 9 3
{"version":1,"sources":[],"products":[{"name":"X","price":2,"min":2,"max":1}],"arcs":[]} = 9 12
"cost":6 to "cost":18446744073709551615 = 9 11
"max":100,"quality" to "max":-1,"quality" = 9 11
"cost":6 to "cost":"" = 8
"cost":6 to "cost":"1." = 8
"cost":6 to "cost":"+1" = 8
"cost":6 to "cost":" 1" = 8
"cost":6 to "cost":"1e3" = 8
"cost":6 to "cost":"1234567890123456" = 8
"cost":6 to "cost":true = 3
"name":"A" to "name":"12345678901234567890123456789012345678901" = 9 2
"name":"A" to "name":"\u00e9" = 9 2
"name":"A" to "name":"1234567890123456789012345678901234567890" = 9 4
"cost":6 to "cost":2.5 = 7
"most":{"sulfur":3} to "most":{"sulfur":"2.5000001"} = 8
"cost":6 to "cots":6 = 4
"""

# Sources, pools, products, qualities, feeds, outs and directs, what the names of products begin with, one arc more, and the number
# of the rows' first fault. There may be 64, 16, 64 and 8, and 256 arcs; 27 feeds times 19 outs are 513 paths.
ROWS = """
65 16 64 8 64 128 64 x = 1
64 17 64 8 64 128 64 x = 1
64 16 65 8 64 128 64 x = 1
64 16 64 9 64 128 64 x = 1
64 16 64 8 64 128 65 x = 1
65 0 1 0 0 0 0 s = 1
2 0 1 0 0 0 0 \\n = 2
2 0 1 0 0 0 0 s = 3
1 0 1 0 0 0 1 x x0 p0 = 4
1 1 1 0 1 1 0 x s0 s0 = 5
1 2 1 0 2 2 0 x p0 p1 = 6
1 1 1 0 1 1 0 x p0 x0 = 7
1 1 1 0 0 1 0 x = 8
1 2 1 0 2 1 0 x = 9
27 1 19 0 27 19 0 x = 10
"""

# The minimum and the maximum of a product, and the number of the rows' fault.
ENDS = """
0 1000000.000001 = 11
0.000002 0.000001 = 12
"""


def sized(counts, product, more):
    """A network of these counts: feeds and outs go around the pools, and directs around the sources."""
    sources, pools, products, qualities, feeds, outs, directs = map(int, counts)

    def around(first, others, count, back):
        ends = [(f"{first}{n // max(others, 1)}", f"{back}{n % max(others, 1)}") for n in range(count)]
        return ends if first == "s" else [end[::-1] for end in ends]

    arcs = around("s", pools, feeds, "p") + around("x", pools, outs, "p") + around("x", sources, directs, "s")
    quality = ",".join(f'"q{n}":0' for n in range(qualities))
    rows = {
        "qualities": [f'"q{n}"' for n in range(qualities)],
        "sources": [f'{{"name":"s{n}","cost":0,"quality":{{{quality}}}}}' for n in range(sources)],
        "pools": [f'{{"name":"p{n}"}}' for n in range(pools)],
        "products": [f'{{"name":"{product}{n}","price":0,"max":"0.000001"}}' for n in range(products)],
        "arcs": [f'["{start}","{end}"]' for start, end in [*arcs, *([more] if more else [])]],
    }
    return '{"version":1,' + ",".join(f'"{name}":[{",".join(items)}]' for name, items in rows.items()) + "}"


def refusal(number):
    return 3, "", f"pool: network refused: {number}\n"


def refused_networks(pool):
    row1 = text("row1.json")
    for file, number in lines(FILES):
        old, *new = file.split(" to ")
        yield f"refused: {file}", pool.solve(row1.replace(old, new[0]) if new else file), refusal(number)
    yield "refused: 200 brackets", pool.solve("[" * 200), refusal(2)
    yield "refused: spaces alone, as many as may be", pool.solve(" " * 4194304), refusal(2)
    yield "refused: a space more", pool.solve(" " * 4194305), refusal(1)


def refused_rows(pool):
    for line, number in lines(ROWS):
        words = line.split(" ")
        yield f"rows: {line}", pool.solve(sized(words[:7], words[7], words[8:])), refusal(f"9 {number}")
    for line, number in lines(ENDS):
        least, most = line.split(" ")
        net = text("row1.json").replace('"price":9,"max":100', f'"price":9,"min":"{least}","max":"{most}"')
        yield f"ends: {line}", pool.solve(net), refusal(f"9 {number}")
    for label, net in (
        ("as many rows as may be", sized("64 16 64 8 64 128 64".split(), "x", [])),
        ("the greatest maximum", text("row1.json").replace('"price":9,"max":100', '"price":9,"max":"1000000.000000"')),
        ("32 feeds times 16 outs", sized("32 1 16 0 32 16 0".split(), "x", [])),
    ):
        status, printed, error = pool.on("formulate", net, None)
        yield label, (status, printed.split("\n")[0], error), (0, "program pq", "")


# ---- certificates that are checked

# Networks and certificates as they are, or with texts changed into others, and the line that `check` writes. The first network has 5
# rows. Of several causes the first in the order of causes is told, wherever it stands in the text.
ANSWERS = """
row1 row1 = accepted gap cost -300000000000000 base 1 bound -300000000000000 gap 0
row1 row1, bound -300000000000000 to bound -299999999999999 = refused bound
row1 row1, bound -300000000000000 to bound -300000000000001 = refused bound
row1 row1, end/ to end = refused text 13
row1 row1, direct 100000000 to direct 0100000000 = refused text 7
row1 row1, end/ to end/ / = refused text 14
row1 void = refused text 1
row1 row1, gap 0 1 to gap 0 2, shape 1 to shape 2 = refused text 12
row1 row1, shape 1 to shape 2, plan 1 1 to plan 0 1 = refused shape
row1 row1, direct 100000000 to direct 100000001, splits 0 to splits 1/split 0 0 1 = refused plan 3
row1 row1, splits 0 to splits 1/split 0 0 1, gap 0 1 to gap 1 1 = refused split 0
row1 row1, proofs 0 to proofs 1/proof 0 0 6 0 1 1 1 2 1 3 1 4 1 5 1 = refused proof 0 2
row1 row1, proofs 0 to proofs 1/proof 0 0 6 0 1 1 1 2 1 3 1 4 1 4 1 = refused proof 0 1
row1 row1, proofs 0 to proofs 1/proof 0 0 7 0 1 1 1 2 1 3 1 4 1 9 1 6 1 = refused proof 0 1
row1 row1, cost -300000000000000 to cost -299999999999999, bound -300000000000000 to bound 0 = refused cost
row1 row1, gap 0 1 to gap -1 1 = refused gap
row1 row1_bound = accepted bound -300000000000000
row1 row1_bound, kind bound to kind none, bound -300000000000000/end to end = refused kind
sour_direct no_plan = accepted none
sour_direct no_plan, kind none to kind bound, end to bound 0/end = refused kind
sour_direct no_plan, 2 1000000 3 1 to 2 -1000000 3 1 = refused proof 0 3
two_feeds two_feeds = accepted gap cost 0 base 1 bound -300000000000000 gap 300000000000000
two_feeds two_feeds, split 1 1 262144 to split 0 1 262144 = refused split 1
two_feeds two_feeds, split 1 1 262144 to split 1 0 524288 = refused split 1
two_feeds two_feeds, split 1 1 262144 to split 1 0 524288, proof 3 to proof 5 = refused split 1
two_feeds two_feeds, proof 3 0 1 11 1 to proof 3 0 1 11 0 = refused proof 3 4
two_feeds two_feeds, proof 3 0 1 11 1 to proof 2 0 1 11 1 = refused proof 2 6
two_feeds two_feeds, proof 3 0 1 11 1 to proof 5 0 1 11 1 = refused place 0
two_feeds two_feeds, proofs 1/proof 3 0 1 11 1 to proofs 2/proof 3 0 1 11 0/proof 3 0 1 11 1 = refused place 1
two_feeds two_feeds, proofs 1/proof 3 0 1 11 1 to proofs 2/proof 3 0 1 11 0/proof 4 0 1 99 1 = refused proof 3 4
row1 row1, poolcert 1 to poolcert 2 = refused text 1
row1 row1, gap 0 1 to gap 0 2 = refused text 12
row1 row1, shape 1 to shape 2 = refused shape
row1 row1, plan 1 1 to plan 0 1 = refused plan 1
row1 row1, cost -3 to cost -2 = refused cost
row1 row1, gap 0 1 to gap 1 1 = refused gap
row1 row1, end/ to end/x = refused text 14
row1 row1, direct 100000000 to direct 18446744073709551616 = refused text 7
row1 row1, shape 1 0 1 1 0 0 1 to shape 1 0 1 1 0 0 2 = refused text 7
row1 row1, splits 0 to splits 4294967295 = refused text 9
row1 row1, splits 0 to splits 4294967296 = refused text 8
row1 row1, bound -300000000000000 to bound -170141183460469231731687303715884105729 = refused text 11
row1 row1, kind gap to kind none = refused text 4
row1 none = refused kind
row1 row1, bound -300000000000000 to bound -170141183460469231731687303715884105728 = refused bound
row1 row1, plan 1 1 to plan 1048577 1 = refused plan 1
row1 row1, direct 100000000 to direct 18446744073709551615 = refused plan 3
row1 row1, shape 1 0 1 1 0 0 1 to shape 1 0 1 2 0 0 1 = refused shape
row1 over_two = refused cost
haverly1 haverly1 = accepted gap cost -400000000000000 base 1 bound -2100000000000000 gap 1700000000000000
sour_direct no_plan, proof 0 0 2 2 1000000 3 1 to proof 0 0 2 3 1 2 1000000 = refused proof 0 1
sour_direct no_plan, proof 0 0 2 2 1000000 3 1 to proof 0 0 1 5 1 = refused proof 0 2
sour_direct no_plan, proof 0 0 2 2 1000000 3 1 to proof 0 0 2 2 -1000000 3 1 = refused proof 0 3
sour_direct no_plan, proof 0 0 2 2 1000000 3 1 to proof 0 0 1 3 1 = refused proof 0 6
sour_direct no_plan, proofs 1 to proofs 2/proof 0 0 2 2 1000000 3 1 = refused place 1
two_products two_products = accepted gap cost -50000000000000 base 1 bound -50000000000000 gap 0
desulfured desulfured = accepted gap cost -200000000000000 base 1 bound -250000000000000 gap 50000000000000
desulfured desulfured, outflows 80000000 to outflows 80000001 = refused plan 9
desulfured desulfured, outflows 80000000 to outflows 80000001, bound -250000000000000 to bound -240000000000000 = refused plan 9
desulfured desulfured, cost -200000000000000 to cost -240000000000000 = refused cost
desulfured desulfured, bound -250000000000000 to bound -249999999999999 = refused bound
"""

# Proofs on the root of Haverly's first network, which has 45 rows, and their first faults. Row 6 is Y's maximum.
ROOT_PROOFS = """
1 1 6 -1 = refused proof 0 3
1 1 45 1 = refused proof 0 2
1 1 6 0 = refused proof 0 4
1 2 5 0 6 -1 = refused proof 0 3
0 1 6 1 = refused proof 0 6
0 0 = refused proof 0 6
1 0 = accepted bound -2100000000000000
1 1 6 15000000 = accepted bound -2100000000000000
"""

# Proofs over sulfur that is 2^36 millionths apart, and flows of 2^39: the weight is 2^126, or above. The product's limit is row 3 by
# qualities, and row 4 by proportions.
WEIGHTS = """
1 1 3 2251799813685248 = accepted bound 0
1 1 4 2251799813685248 = accepted bound 0
1 2 2 1 3 2251799813685248 = refused proof 0 5
1 2 2 1 4 2251799813685248 = refused proof 0 5
"""

# Plans of 100 of B and of C for Y of Haverly's first network, by their base and weights.
PLANS = """
1 0 1 = accepted gap cost -400000000000000 base 1 bound -2100000000000000 gap 1700000000000000
2 1 1 = refused plan 7
1 0 0 = refused plan 2
0 0 1 = refused plan 1
"""

# Plans of networks with maxima of arcs and with treatment: the two bases, weights, outflows, flows of directs and cost. Each keeps a
# maximum or a limit, or passes it by the least amount. Costs by hand.
TREATED = """
piped, 3 1, 2 1, 30, 7, -261 = accepted gap cost -261 base 3 bound -240 gap 459
piped, 1 1, 0 1, 30, 7, -127 = accepted gap cost -127 base 1 bound -240 gap 113
piped, 30 1, 21 9, 30, 7, 0 = refused plan 9
piped, 31 1, 20 11, 31, 7, 0 = refused plan 9
piped, 3 1, 2 1, 30, 8, 0 = refused plan 9
piped, 3 2, 2 1, 60, 15, 0 = refused plan 9
cleaned, 1 1, 1, 10, 0, -40 = accepted gap cost -40 base 1 bound -240 gap 200
cleaned, 1 1, 1, 10, 10, -70 = accepted gap cost -70 base 1 bound -240 gap 170
cleaned, 1 1, 1, 10, 11, 0 = refused plan 7
"""


def status_of(line):
    return 1 if line.startswith("refused") else 0


def answers(pool):
    for line, answer in lines(ANSWERS):
        name, certificate = line.split(" ", 1)
        net, certificate = text(f"{name}.json"), changed(certificate)
        wanted = status_of(answer), f"{answer}\n"
        yield f"check: {line}", pool.on("check", net, certificate)[:2], wanted
        for length in (1, 7):
            yield f"check in pieces of {length}: {line}", pool.check_in_pieces(net, certificate, length), wanted
        if wanted[0]:
            yield f"report: {line}", pool.on("report", net, certificate)[:2], wanted


def root_bound(shape, proof, bound):
    return f"poolcert 1\nkind bound\nshape {shape}\nsplits 0\nproofs 1\nproof 0 {proof}\nbound {bound}\nend\n"


def root_proofs(pool):
    for name, shape, bound, table in (
        ("haverly1", "3 1 2 1 2 2 2", -2100000000000000, ROOT_PROOFS),
        ("far_apart", "1 0 1 1 0 0 1", 0, WEIGHTS),
    ):
        for proof, answer in lines(table):
            done = pool.on("check", text(f"{name}.json"), root_bound(shape, proof, bound))
            yield f"a proof of {name}: {proof}", done, (status_of(answer), f"{answer}\n", "")


def plans(pool):
    for line, answer in lines(PLANS):
        base, weights = line.split(" ", 1)
        certificate = text("haverly1.cert").replace("plan 1 1", f"plan {base} 1").replace("weights 0 1", f"weights {weights}")
        done = pool.on("check", text("haverly1.json"), certificate)
        yield f"a plan of Haverly 1: {line}", done, (status_of(answer), f"{answer}\n", "")
    # Over base 4, where B costs 13.
    certificate = claimed("3 1 2 1 2 2 2", (4, 1), "1 3", "0 200000000", "0 0", -3000000000000000, -2100000000000000)
    answer = "accepted gap cost -3000000000000000 base 4 bound -2100000000000000 gap 5400000000000000\n"
    yield "a plan over base 4", pool.on("check", text("haverly3.json"), certificate), (0, answer, "")


def treated_plans(pool):
    shapes = {"piped": "2 1 1 0 2 1 1", "cleaned": "2 1 1 1 1 1 1"}
    for line, answer in lines(TREATED):
        name, bases, weights, outflows, direct, cost = line.split(", ")
        certificate = claimed(shapes[name], [int(base) for base in bases.split()], weights, outflows, direct, int(cost), -240)
        done = pool.on("check", text(f"{name}.json"), certificate)
        yield f"a plan of {line}", done, (status_of(answer), f"{answer}\n", "")
    less = text("desulfured.json").replace('"sulfur":500', '"sulfur":501')
    done = pool.on("check", less, text("desulfured.cert"))
    yield "a plan where 501 thousandths are left", done, (1, "refused plan 7\n", "")


def chain_of_proofs():
    """Split number t, from 0 to 1999, cuts node 2t at t + 1 millionths of what flows from P to X, and each node has a proof without
    parts: its bound is what all costs are at their least, below the reach bound."""
    splits = "".join(f"split {2 * t} 3 {t + 1}\n" for t in range(2000))
    proofs = "".join(f"proof {node} 1 0\n" for node in range(4001))
    return f"poolcert 1\nkind bound\nshape 2 1 1 1 2 1 0\nsplits 2000\n{splits}proofs 4001\n{proofs}bound -300000000000000\nend\n"


def thousands_of_proofs(pool):
    net, certificate, wanted = text("two_feeds.json"), chain_of_proofs(), (0, "accepted bound -300000000000000\n")
    yield "more than 65,536 bytes", len(certificate) > 65536, True
    yield "thousands of proofs", pool.on("check", net, certificate)[:2], wanted
    yield "thousands of proofs in pieces of 7", pool.check_in_pieces(net, certificate, 7), wanted


def damaged_bytes(pool):
    """Each byte of a certificate made another, and each of its fronts: both checkers name the same line."""
    net, whole = pool.file("net.json", text("sour_direct.json")), text("no_plan.cert")
    others = [whole[:at] + ("1" if byte == "0" else "0") + whole[at + 1 :] for at, byte in enumerate(whole)]
    for at, certificate in chain(enumerate(others), enumerate(whole[:at] for at in range(len(whole)))):
        file = pool.file("of.cert", certificate)
        status, line = checker.run([str(net), str(file)])
        yield f"damaged at {at}, of {len(certificate)} bytes", pool.run("check", net, file), (status, f"{line}\n", "")


# ---- reports


def claimed(shape, bases, weights, outflows, direct, cost, bound):
    """A certificate of a plan without splits, by the numerator of its cost and its bound."""
    base = bases[0] * bases[1]
    plan = [f"plan {bases[0]} {bases[1]}", *(f"{name} {numbers}".rstrip() for name, numbers in
                                             (("weights", weights), ("outflows", outflows), ("direct", direct)))]
    ends = ["splits 0", "proofs 0", f"cost {cost} {base}", f"bound {bound}", f"gap {cost - bound * base} {base}", "end"]
    return "\n".join(["poolcert 1", "kind gap", f"shape {shape}", *plan, *ends, ""])


def reports(pool):
    def reported(name, net, certificate, wanted, status=0):
        return f"report: {name}", pool.on("report", text(f"{net}.json"), certificate), (status, wanted, "")

    yield reported("one direct", "row1", text("row1.cert"), text("row1.report"))
    yield reported("Haverly 1", "haverly1", text("haverly1.cert"), text("haverly1.report"))
    # A third of basin 1 comes from W1; flows are over 21.
    mixed = (3, 7), "1 2 3 0", "140000001 199999999 99999998 0", "100000003"
    gap, bound = 3924999988150000, -340000000000000
    outlets = claimed("3 2 2 1 4 4 1", *mixed, gap + 21 * bound, bound)
    yield reported("outlets", "wastewater", outlets, text("wastewater.report"))
    # Means below 0, and flows of less than a millionth. The bound and the gap are by hand: 7 at 1.5 and 1 at 1.5 can be earned at the most.
    cold = claimed("2 1 2 2 2 2 1", (3, 2), "1 2", "5 0", "3", 11500000, -12 * MONEY)
    yield reported("means below 0", "cold", cold, text("cold.report"))
    least = text("row1.json").replace('"cost":6', '"cost":0').replace('"price":9,"max":100', '"price":"0.000001","max":"0.000001"')
    pool.file("least.json", least)
    bound = pool.file("least.cert", text("row1_bound.cert").replace("-300000000000000", "-1"))
    yield "report: a bound of one pico", pool.run("report", "least.json", bound), (0, "kind bound\nbound -0.000001\n", "")
    wrong = changed("row1, bound -300000000000000 to bound -299999999999999, gap 0 1 to gap -1 1")
    yield reported("a bound that is too high", "row1", wrong, "refused bound\n", 1)
    status, certificate, _ = pool.solve(text("wastewater.json"), "--nodes", 2)
    told = pool.on("report", text("wastewater.json"), certificate)
    yield "report: what solve prints", (told[0], told[1].startswith("kind gap\ncost -")), (0, True)


# ---- exact programs, canonical texts, made networks

# The FNV-1a hashes of the canonical texts of the networks that numbers make, by a script that was written from the description of the generator.
MADE = """
0 = 13313862758690077874
1 = 8738360884390628429
2 = 1274501664665787836
3 = 3282778338735757273
4 = 17450042036228655464
5 = 6392230149804246960
7 = 11974355452980052458
4294967297 = 9281741414678167186
18446744073709551615 = 6650660571137532348
"""


def programs(pool):
    for name in ("row1", "haverly1", "two_pools"):
        for form in ("p", "q", "pq"):
            done = pool.on("formulate", text(f"{name}.json"), None, "--form", form)
            yield f"program {form} of {name}", done, (0, text(f"{name}.{form}.program"), "")


def pools_between(count):
    """The canonical text of source A and product X with this many pools between them."""
    feeds, outs = [f'["A","P{n}"]' for n in range(count)], [f'["P{n}","X"]' for n in range(count)]
    pools = ",".join(f'{{"max":7,"name":"P{n}"}}' for n in range(count))
    return (f'{{"arcs":[{",".join(feeds + outs)}],"pools":[{pools}],"products":[{{"least":{{}},"max":7,"min":0,"most":{{}},"name":"X",'
            '"price":"0.5"}],"qualities":[],"sources":[{"cost":0,"max":7,"name":"A","quality":{}}],"version":1}')


def canonical_texts(pool):
    """What a journal says of its network; the second text of a pair is from a script that was written from docs/FORMATS.md."""
    names = ("row1", "haverly1", "two_pools", "far_apart", "wastewater", "two_products")
    files = [(name, text(f"{name}.json"), text(f"{name}.canonical")) for name in names]
    files += [(f"{name} again", wanted, wanted) for name, _, wanted in files]
    files.append(("sixteen pools", pools_between(16), pools_between(16)))
    for name, net, wanted in files:
        journal = pool.file("run.journal", "")
        pool.solve(net, "--nodes", 0, "--journal", journal)
        yield f"canonical text: {name}", made.text_of(journal.read_bytes()), wanted


def made_networks(pool):
    for number, hash_wanted in lines(MADE):
        status, network, _ = pool.run("make", number)
        found = 0xCBF29CE484222325
        for byte in network.rstrip("\n").encode():
            found = (found ^ byte) * 0x100000001B3 % 2**64
        yield f"make {number}", (status, found), (0, int(hash_wanted))


# ---- searches

# The counts of networks, and the reach bound, in money: the bound that `check` accepts where nothing is split or proved.
SHAPES = """
empty = 0 0 0 0 0 0 0, 0
row1 = 1 0 1 1 0 0 1, -300
sour_direct = 1 0 1 1 0 0 1, -300
one_path = 1 1 1 1 1 1 0, -300
two_feeds = 2 1 1 1 2 1 0, -300
haverly1 = 3 1 2 1 2 2 2, -2100
haverly2 = 3 1 2 1 2 2 2, -3600
haverly3 = 3 1 2 1 2 2 2, -2100
two_pools = 2 2 2 2 3 3 2, -2100
far_apart = 1 0 1 1 0 0 1, 0
as_trials = 10 3 6 2 20 18 6, -3000
"""

# The cheapest starting plans.
STARTS = """
empty = weights outflows direct cost 0 1
row1 = weights outflows direct 100000000 cost -300000000000000 1
sour_direct = none
demanded = weights 1 outflows 100000000 direct 0 cost -300000000000000 1
two_feeds = weights 1 0 outflows 100000000 direct cost -300000000000000 1
haverly1 = weights 1 0 outflows 0 0 direct 0 0 cost 0 1
"""

# Networks with the options of a search, its status, and what its plan costs, in thousandths of money, rounded down. Where nothing can
# be cut the best plan costs -733 and a third.
ENDS_OF_SEARCHES = """
row1 --nodes 0 --gap 0 = 0 -300000
a_third --nodes 9 --gap 0 = 11 -733334
sour_direct --nodes 9 --gap 0 = 12 none
torn --nodes 9 --gap 0 = 12 none
torn --nodes 0 --gap 0 = 13 none
haverly1 --nodes 20 --gap 0.001 = 0 -400000
haverly2 --nodes 20 --gap 0.001 = 0 -600000
haverly3 --nodes 20 --gap 0.001 = 0 -750000
haverly1 --nodes 0 --gap 0.001 = 10 -400000
"""

# The least bounds of roots: those of the linear programs, which other solvers found, less a millionth or what their digits leave.
ROOTS = """
haverly1 = -500000001000000
haverly2 = -1000000001000000
haverly3 = -800000001000000
bental4 = -550000001000000
foulds2 = -1100000010000000
adhya1 = -840271200000000
adhya4 = -959020100000000
"""


def starts(pool):
    for name, wanted in lines(SHAPES):
        shape, bound = wanted.split(", ")
        bound = int(bound) * MONEY
        certificate = f"poolcert 1\nkind bound\nshape {shape}\nsplits 0\nproofs 0\nbound {bound}\nend\n"
        done = pool.on("check", text(f"{name}.json"), certificate)
        yield f"counts and bound of {name}", done, (0, f"accepted bound {bound}\n", "")
    for name, wanted in lines(STARTS):
        certificate = pool.solve(text(f"{name}.json"), "--nodes", 0, "--gap", 1000000)[1]
        yield f"the start of {name}", plan_of(certificate), wanted


def searches(pool):
    for line, wanted in lines(ENDS_OF_SEARCHES):
        name, *options = line.split(" ")
        status, certificate, _ = pool.solve(text(f"{name}.json"), "--rule", "violated", *options)
        cost = "none"
        if "\ncost " in certificate:
            number, base = numbers(certificate, "cost")
            cost = number // (base * MONEY // 1000)
        yield f"a search: {line}", f"{status} {cost}", wanted
    for name, least in lines(ROOTS):
        bound = numbers(pool.solve(text(f"{name}.json"), "--nodes", 0, "--gap", 0)[1], "bound")[0]
        yield f"the root of {name}", bound >= int(least), True


def longer_searches(pool):
    # Three proportions and three flows are cut; the four qualities between them are not.
    status, certificate, _ = pool.solve(text("two_pools.json"), "--nodes", 8, "--gap", 0, "--rule", "fewest")
    coords = [int(coord) for coord in re.findall(r"(?m)^split \d+ (\d+)", certificate)]
    yield "the rule fewest takes the coordinates in turn", (status, coords), (10, [0, 1, 2, 7, 8, 9, 0, 1])
    journal = pool.file("run.journal", "")
    asked = [text("haverly1.json"), "--gap", "0.001", "--journal", journal, "--nodes"]
    status, certificate, _ = pool.solve(*asked, 0, "--rule", "first")
    yield "a run without splits", (status, numbers(certificate, "splits")), (10, [0])
    status, certificate, _ = pool.solve(*asked, 20, "--rule", "violated")
    (cost, base), splits = numbers(certificate, "cost"), numbers(certificate, "splits")[0]
    yield "one that goes on from its tree", (status, splits > 0, cost <= -399999000000000 * base), (0, True, True)


def squeezed_searches(pool):
    """Searches with `--squeeze on`: whole ones, and some that were stopped and go on with it, without it, or from a run without it.

    The second network is Haverly's first and, apart, a source that earns 7,000 through a pool of its own. With each variable at the end
    where it costs least the first part earns 4,900 and the lowest quarter of the second part 1,750. That is less than 7,000, so this
    quarter, of the coordinate 7, is cut off before anything is halved.
    """
    haverly, both = text("haverly1.json"), text("haverly1_and_one.json")
    piece = ["0 7 25000000"]

    def solved(net, most, *words):
        status, certificate, _ = pool.solve(net, "--gap", "0.001", *words)
        cost, base = numbers(certificate, "cost")
        said = pool.on("check", net, certificate)[1].split(" ")[0]
        return (status, said, cost <= most * base), re.findall("(?m)^split (.*)$", certificate)

    closed = (0, "accepted", True)
    yield "squeezes of Haverly 1", solved(haverly, -399999000000000, "--squeeze", "on")[0], closed
    for rule in ("widest", "first", "violated", "fewest"):
        found, splits = solved(both, -7399999000000000, "--rule", rule, "--squeeze", "on")
        yield f"squeezes by the rule {rule}", (found, splits[:1]), (closed, piece)
    for first, nodes, begun, then in (("on", 1, piece, "on"), ("on", 1, piece, "off"), ("off", 0, [], "on")):
        journal = pool.file("squeezed.journal", "")
        found, splits = solved(both, -7000000000000000, "--nodes", nodes, "--squeeze", first, "--journal", journal)
        yield f"squeezes {first}, stopped", (found, splits), ((10, "accepted", True), begun)
        found, splits = solved(both, -7399999000000000, "--squeeze", then, "--journal", journal)
        yield f"squeezes {first}, then {then}", (found, splits[:1]), (closed, piece)


# ---- journals


def journal_files():
    """Files by their parts, and how a run on them ends: what its status is, and what it says."""
    head, record = made.header(text("row1.canonical")), made.record(made.plan(1, 1, [], [], [100000000]))
    canonical, finished = text("row1.canonical").encode(), head + record + b"\0"
    yield from ((data, 0, "", finished) for data in (b"", head + record, b"\1", b"\2POOLJNL and more", head + b"\0"))
    for data, status, words in (
        (head + record + record + b"\0\1", 31, "journal record 1 is bad"),
        (head + record + record + b"\0", 31, "journal record 1 is bad"),
        (head + record + record + b"\1\0\0\0\1\x09\0", 31, "journal record 2 is bad"),
        (head[: -len(canonical)] + b"{}" + canonical, 30, "journal of another network"),
        (b"\1POOLJNL\7", 32, "journal of unknown version 7"),
        (b"\1POOLJNL", 32, "journal of unknown version 0"),
        (canonical, 33, "not a journal"),
    ):
        yield data, status, f"pool: {words}\n", data
    # Its entries are not in order, and the gate behind the last one is missing: it is there then.
    yield head + record + record, 31, "pool: journal record 1 is bad\n", head + record + record + b"\0"


def journals(pool):
    for data, status, error, left in journal_files():
        journal = pool.file("run.journal", data)
        done = pool.solve(text("row1.json"), "--nodes", 4, "--journal", journal)
        label = f"a journal: {data[:9]}, {len(data)} bytes"
        yield label, done, (status, "" if status else text("row1.cert"), error)
        yield f"{label}: the file", journal.read_bytes(), left
    yield "a finished journal", len(left_by(pool, "row1")), 260
    file = left_by(pool, "haverly1")
    for name, data, status in (("haverly1", file, 0), ("haverly2", file, 30), ("haverly1", file[:8] + b"\7" + file[9:], 32)):
        journal = pool.file("run.journal", data)
        yield f"Haverly 1's journal under {name}", pool.solve(text(f"{name}.json"), "--nodes", 4, "--journal", journal)[0], status
    net = text("haverly1.json").encode()
    journal = pool.file("run.journal", net)
    yield "a network is no journal", pool.solve(net, "--nodes", 4, "--journal", journal)[0], 33
    yield "a network is no journal: the file", journal.read_bytes(), net


def left_by(pool, name):
    """The journal of a whole run."""
    journal = pool.file("run.journal", "")
    pool.solve(text(f"{name}.json"), "--nodes", 4, "--journal", journal)
    return journal.read_bytes()


def longest_trees(pool):
    """A journal of as many splits as there may be, and of one more. Split number t, from 0, cuts node 2t at t + 1 millionths of what
    flows from P to X."""
    net = text("two_feeds.json")
    entries = [made.split(2 * t, 3, t + 1) for t in range(200_001)]
    journal = pool.file("run.journal", made.journal(made.canonical(net.encode()), *entries[:-1]))
    status, certificate, _ = pool.solve(net, "--nodes", 200_000, "--journal", journal)
    found = status, numbers(certificate, "splits"), numbers(certificate, "bound")
    yield "a tree of 200,000 splits", found, (0, [200_000], [-300 * MONEY])
    yield "its certificate", pool.on("check", net, certificate)[:2], (
        0, "accepted gap cost -300000000000000 base 1 bound -300000000000000 gap 0\n")
    pool.file("run.journal", made.journal(made.canonical(net.encode()), *entries))
    done = pool.solve(net, "--nodes", 200_000, "--journal", journal)
    yield "one split more", done, (31, "", "pool: journal record 200000 is bad\n")


# ---- the whole


def cases(pool):
    """Each case: what it is, what was found, and what is wanted."""
    for part in (statuses, words_that_ask_nothing, single_writes, refused_networks, refused_rows, answers, root_proofs, plans,
                 treated_plans, thousands_of_proofs, damaged_bytes, reports, programs, canonical_texts, made_networks, starts, searches,
                 longer_searches, squeezed_searches, journals, longest_trees):
        yield from part(pool)
    trials = [pool.run("trial", 7) for _ in range(2)]
    yield "a trial tells the same twice", trials[0], trials[1]


def main():
    if len(sys.argv) != 2:
        sys.exit("usage: worked_cases.py POOL")
    passed = failed = 0
    with tempfile.TemporaryDirectory() as folder:
        for label, found, wanted in cases(Pool(Path(sys.argv[1]).resolve(), Path(folder))):
            if found == wanted:
                passed += 1
            else:
                failed += 1
                print(f"{label}: {found!r:.1000} in place of {wanted!r:.1000}", flush=True)
    print(f"{passed} passed, {failed} failed")
    return 1 if failed else 0


if __name__ == "__main__":
    sys.exit(main())
