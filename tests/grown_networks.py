"""Larger networks made from a number: `grown_networks.py FOLDER SEED..` writes `grown-SEED.json` for each seed.

48 sources, 12 pools, 40 products, 3 qualities, 500 paths and 40 directs: near the limits of docs/FORMATS.md. The same seed gives the same file."""

import json
import random
import sys
from pathlib import Path

SOURCES, PRODUCTS, DIRECTS = 48, 40, 40
# Feeds and outs of each pool: ten times 7 by 6 paths and twice 8 by 5 are 500.
POOLS = [(7, 6)] * 10 + [(8, 5)] * 2
QUALITIES = ["sulfur", "density", "octane"]


def network(seed):
    draw = random.Random(seed)
    sources = [
        {"name": f"S{i}", "cost": draw.randint(5, 30), "max": draw.randint(20, 100), "quality": {q: draw.randint(1, 10) for q in QUALITIES}}
        for i in range(SOURCES)
    ]
    pools = [{"name": f"L{l}", "max": draw.randint(50, 200)} for l in range(len(POOLS))]
    products = [
        {"name": f"J{j}", "price": draw.randint(15, 45), "max": draw.randint(20, 100), "most": {q: draw.randint(3, 8) for q in QUALITIES}}
        for j in range(PRODUCTS)
    ]
    arcs = []
    for l, (feeds, outs) in enumerate(POOLS):
        arcs += [[f"S{i}", f"L{l}"] for i in sorted(draw.sample(range(SOURCES), feeds))]
        arcs += [[f"L{l}", f"J{j}"] for j in sorted(draw.sample(range(PRODUCTS), outs))]
    pairs = draw.sample(range(SOURCES * PRODUCTS), DIRECTS)
    arcs += [[f"S{pair // PRODUCTS}", f"J{pair % PRODUCTS}"] for pair in sorted(pairs)]
    return {"version": 1, "qualities": QUALITIES, "sources": sources, "pools": pools, "products": products, "arcs": arcs}


def write(folder, seed):
    """The file of a seed's network."""
    Path(folder).mkdir(parents=True, exist_ok=True)
    path = Path(folder) / f"grown-{seed}.json"
    path.write_text(json.dumps(network(seed)))
    return path


if __name__ == "__main__":
    for given in sys.argv[2:]:
        print(write(sys.argv[1], int(given)))
