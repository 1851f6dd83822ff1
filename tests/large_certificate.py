#!/usr/bin/env python3
"""Writes a valid certificate of any size to standard output: `large_certificate.py NET BYTES [PARTS]`

It is for the network in the file NET, of the kind `bound`, and has at least BYTES bytes, and not many more: a proof on each node of a
tree of splits, and some PARTS parts in each proof (600, or as many as the network has rows). A tree has at most 200,000 splits;
where they are too few for so many bytes it says so and ends with 1. What `check` says of it is written to standard error.

The splits halve the proportions of feeds, level by level. A scale of 2^40 outweighs the parts, so each proof shows what
the costs alone show in the box, but for a few picos, and that is below the reach bound: no cost stands on a proportion. So the
tree's bound is the reach bound, whatever the parts are. That each list of parts is in order and shows less is found out
with the second checker, in the root box; in a smaller one the weight is no larger.
"""

import importlib.util
import random
import sys
from pathlib import Path

sys.dont_write_bytecode = True
TOP = Path(__file__).resolve().parent.parent
SCALE = 2**40
LISTS = 64  # different lists of parts
MOST_SPLITS = 200_000


def load_checker():
    spec = importlib.util.spec_from_file_location("second_checker", TOP / "tools" / "second_checker.py")
    checker = importlib.util.module_from_spec(spec)
    spec.loader.exec_module(checker)
    return checker


def draw_parts(net, count, draw):
    """Rows that rise, each with a multiplier that it may have."""
    rows = sorted(draw.sample(range(len(net.rows)), count))
    return [number for row in rows for number in (row, draw.randint(1, 10**6) * (1 if net.rows[row][0] else draw.choice((1, -1))))]


def draw_lists(checker, net, count, reach):
    """What stands behind a node in the lines of proofs."""
    draw, lists = random.Random(1), []
    for _ in range(LISTS):
        numbers = draw_parts(net, count, draw)
        if checker.proof_number(net, [0, SCALE, count, *numbers], net.low, net.high) // SCALE >= reach:
            sys.exit("large_certificate.py: the costs alone show as much as the reach bound here")
        lists.append(f"{SCALE} {count} {' '.join(map(str, numbers))}\n")
    return lists


def split_lines(net, count):
    """Each node is cut in its turn, at the next proportion, in the middle of what is left of it."""
    feeds = len(net.feeds)
    ends = [(0, ())]  # of each node: its depth, and the ends of the proportions that were cut
    for node in range(count):
        depth, cut_ends = ends[node]
        coordinate, known = depth % feeds, dict(cut_ends)
        low, high = known.get(coordinate, (0, 2**20))
        cut = (low + high) // 2
        yield f"split {node} {coordinate} {cut}\n"
        for half in ((low, cut), (cut, high)):
            ends.append((depth + 1, tuple({**known, coordinate: half}.items())))


def splits_for(least, lists):
    """How many splits make so many bytes."""
    line = sum(map(len, lists)) // LISTS + len("proof 9999 ")
    splits = max(1, -(-least // (2 * line)))
    if splits > MOST_SPLITS:
        sys.exit("large_certificate.py: too few rows for so many bytes")
    return splits


def main():
    network, least, *rest = sys.argv[1:]
    checker = load_checker()
    net = checker.judge_rows(checker.walk(checker.parse_json(Path(network).read_bytes())))
    net.rows = checker.make_rows(net)
    if not net.feeds:
        sys.exit("large_certificate.py: the network has no feed, so no proportion to be cut")
    reach = checker.reach_bound(net)
    lists = draw_lists(checker, net, min(int(rest[0]) if rest else 600, len(net.rows)), reach)
    splits = splits_for(int(least), lists)
    out = sys.stdout
    out.write(f"poolcert 1\nkind bound\nshape {' '.join(map(str, net.shape))}\nsplits {splits}\n")
    out.writelines(split_lines(net, splits))
    out.write(f"proofs {2 * splits + 1}\n")
    out.writelines(f"proof {node} {lists[node % LISTS]}" for node in range(2 * splits + 1))
    out.write(f"bound {reach}\nend\n")
    out.flush()
    print(f"accepted bound {reach}", file=sys.stderr)


if __name__ == "__main__":
    main()
