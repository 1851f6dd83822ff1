#!/usr/bin/env python3
"""A second checker of certificates for the pooling problem: `second_checker.py NET CERT` prints the line that `pool check NET CERT`
prints, and ends with its status. It was written from docs/FORMATS.md, in whole numbers and plain Python 3.9, without a look at
the program. Its parts follow that page; single letters are those of its formulas. Tight texts are judged by `second_tight.py`."""
import collections, io, itertools, json, math, os, re, sys, types
G, UNIT, NETWORK_BYTES, CERTIFICATE_BYTES = 1_048_576, 1_000_000, 4_194_304, 1_073_741_824
U32, U64, I64, I128 = (0, 2**32 - 1), (0, 2**64 - 1), (-2**63, 2**63 - 1), (-2**127, 2**127 - 1)
Number = collections.namedtuple("Number", "text")           # a JSON number as it is written
class Refused(Exception): pass                              # the argument tells why; a second one is a remark on it
def refuse(fault, *why):
    if fault: raise Refused(*why)
# THE NETWORK FILE: JSON. Python's json module takes more than the page does; check_tokens and keep_number see to that.
# A token is an escaped surrogate pair, half of one, any other escape, or what opens or closes a text, list or object.
TOKEN = re.compile(r'\\u[dD][89abAB]..\\u[dD][c-fC-F]..|(\\u[dD][89a-fA-F])|\\.|["\[\]{}]', re.DOTALL)
def check_tokens(text):
    depth, in_text = 0, False
    for token in TOKEN.finditer(text):
        in_text ^= token[0] == '"'
        depth += 0 if in_text else (token[0] in "[{") - (token[0] in "]}")
        refuse(depth > 127 or token[1], 2)
def keep_number(text):
    whole, decimals, sign, power = re.fullmatch(r"-?(\d+)\.?(\d*)[eE]?([-+]?)0*(\d*)", text).groups()
    digits = (whole + decimals).lstrip("0")
    length = len(digits) - len(decimals) + int(sign + (power[:12] or "0"))      # 12 digits outweigh the longest file
    refuse(digits and (length, digits) >= (309, str(2**1024 - 2**970)), 2)      # a 64-bit float rounds that to infinity
    return Number(text)
def parse_json(data):
    refuse(len(data) > NETWORK_BYTES, 1)
    try:
        check_tokens(data.decode("utf-8"))
        return json.loads(data.decode("utf-8"), parse_int=keep_number, parse_float=keep_number, parse_constant=int)
    except (ValueError, RecursionError): raise Refused(2)   # ValueError: of decode, of json, and of int("NaN")
# THE NETWORK FILE: the walk, in the order of the page. Quantities become millionths.
def typed(value, kind): return value if isinstance(value, kind) else refuse(True, 3)        # the kind of JSON value
def members(value, needed, optional=()):
    refuse(any(name not in needed and name not in optional for name in typed(value, dict)), 4)  # one too many
    refuse(any(name not in value for name in needed), 5)                        # one is absent
    return value
def quantity(value):
    if isinstance(typed(value, (Number, str)), Number):
        refuse(not re.fullmatch("(?!-0)-?[0-9]{1,20}", value.text) or not I64[0] <= int(value.text) <= U64[1], 7)
        return int(value.text) * UNIT
    parts = re.fullmatch(r"(-?[0-9]{1,15})(?:\.([0-9]{1,6}))?", value)
    refuse(not parts, 8)                                                        # the form of a text
    return int(parts[1] + (parts[2] or "").ljust(6, "0"))
def walk(value):
    top = members(value, ["version", "sources", "products", "arcs"], ["title", "qualities", "pools"])
    version = typed(top["version"], Number).text
    refuse(version not in ("1", "2"), 6)                                        # the version
    typed(top.get("title", ""), str)
    qualities = [typed(name, str) for name in typed(top.get("qualities", []), list)]
    place = {name: k for k, name in enumerate(qualities)}
    def contents(item, needed=(), kind=(Number, str)):      # quantities by the number of their quality
        return {place[name]: quantity(typed(item[name], kind)) for name in sorted(members(item, needed, place), key=place.get)}
    def name_of(item): return typed(item, str)
    read = {"name": name_of, "from": name_of, "to": name_of, "cost": quantity, "price": quantity, "min": quantity,
            "max": quantity, "quality": lambda item: contents(item, place), "least": contents, "most": contents,
            "ratio": lambda item: contents(item, kind=Number)}                  # in thousandths, counted as a quantity
    def row(item, needed, optional):                        # `read` has the members in the order of every kind of row
        members(item, needed, optional)
        values = {name: read[name](item[name]) for name in read if name in item}
        return types.SimpleNamespace(**{"cost": 0, "min": 0, "max": None, "least": {}, "most": {}, "ratio": {}, **values})
    def arc(item):                                          # a list of its ends; in version 2 an object too
        if version == "2" and not isinstance(item, list): return row(item, ["from", "to"], ["cost", "max"])
        refuse(len([typed(end, str) for end in typed(item, list)]) != 2, 3)
        return row(dict(zip(("from", "to"), item)), (), ("from", "to"))
    sources = [row(item, ["name", "cost", "quality"], ["max"]) for item in typed(top["sources"], list)]
    pools = [row(item, ["name"], ["max", "ratio"][:int(version)]) for item in typed(top.get("pools", []), list)]
    products = [row(item, ["name", "price", "max"], ["min", "least", "most"]) for item in typed(top["products"], list)]
    arcs = [arc(item) for item in typed(top["arcs"], list)]
    for each in arcs: each.ends = vars(each)["from"], each.to
    return types.SimpleNamespace(qualities=qualities, sources=sources, pools=pools, products=products, arcs=arcs)
# THE NETWORK FILE: its rows, judged and numbered.
def outside(low, high, *lists): return not all(low * UNIT <= n <= high * UNIT for n in itertools.chain(*lists))
def judge_rows(net):
    sources, pools, products, arcs, qualities = net.sources, net.pools, net.products, net.arcs, net.qualities
    refuse(len(sources) > 64 or len(pools) > 16 or len(products) > 64 or len(qualities) > 8 or len(arcs) > 256, "9 1")
    names = [node.name for node in sources + pools + products]
    refuse(not all(re.fullmatch("[ -~]{1,40}", name) for name in names + qualities), "9 2")  # 1 to 40 signs
    refuse(len(set(names)) < len(names) or len(set(qualities)) < len(qualities), "9 3")                     # unique
    source, pool, product = ({node.name: i for i, node in enumerate(nodes)} for nodes in (sources, pools, products))
    both = [arc.ends for arc in arcs]
    refuse(any(end not in names for ends in both for end in ends), "9 4")                 # every end is a node
    refuse(any(start in product or end in source for start, end in both), "9 5")          # ways that no arc goes
    refuse(any(start in pool and end in pool for start, end in both), "9 6")              # from pool to pool
    refuse(len(set(both)) < len(both), "9 7")                                             # an arc twice, by its ends
    net.into, net.out = [arc for arc in arcs if arc.ends[1] in pool], [arc for arc in arcs if arc.ends[0] in pool]
    net.past = [arc for arc in arcs if arc.ends[0] in source and arc.ends[1] in product]
    net.arcs = net.into + net.out + net.past                # in the order of their numbers
    net.feeds, net.outs, net.directs = ([(starts[arc.ends[0]], ends[arc.ends[1]]) for arc in kind] for kind, starts, ends in
                                        ((net.into, source, pool), (net.out, pool, product), (net.past, source, product)))
    net.paths = [(e, o) for l in range(len(pools)) for e, (_, end) in enumerate(net.feeds) if end == l
                 for o, (start, _) in enumerate(net.outs) if start == l]
    refuse(len({l for _, l in net.feeds}) < len(pools), "9 8")                            # a pool that nothing enters
    refuse(len({l for l, _ in net.outs}) < len(pools), "9 9")                             # a pool that nothing leaves
    refuse(len(net.paths) > 512, "9 10")                                                  # too many paths
    refuse(outside(-1_000_000, 1_000_000, [s.cost for s in sources], [p.price for p in products], [a.cost for a in arcs])
           or outside(0, 1_000_000, [p.max for p in products], [p.min for p in products])
           or outside(0, 100_000_000, [node.max or 0 for node in sources + pools + arcs]) or outside(0, 1000, *[l.ratio.values() for l in pools])
           or outside(-100_000, 100_000, *[s.quality.values() for s in sources],
                      *[limits.values() for p in products for limits in (p.least, p.most)]), "9 11")
    refuse(any(p.min > p.max or any(p.least[k] > p.most.get(k, p.least[k]) for k in p.least) for p in products), "9 12")
    net.shape = [len(part) for part in (sources, pools, products, qualities, net.feeds, net.outs, net.directs)]
    net.limits = [(1, j, k, p.most[k]) for j, p in enumerate(products) for k in p.most]             # sign, product, ..
    net.limits += [(-1, j, k, p.least[k]) for j, p in enumerate(products) for k in p.least]         # .. quality, limit
    for node in sources + pools: node.max = sum(p.max for p in products) if node.max is None else node.max
    for arc in arcs: arc.max = math.inf if arc.max is None else arc.max                  # an absent one bounds nothing
    ratios = [[pool.ratio.get(k, 1000 * UNIT) // UNIT for k in range(len(qualities))] for pool in pools]
    net.H = 1 if all(ratio == 1000 for part in ratios for ratio in part) else 1000
    net.tau = [[ratio * net.H // 1000 for ratio in part] for part in ratios]
    return net
# THE CERTIFICATE: line after line. A fault is told with the number of the line that was taken last.
class Text:
    def __init__(self, data, tell): self.stream, self.tell, self.taken = io.BytesIO(data), tell, 0
    def refuse(self, fault): refuse(fault, *self.tell(self.taken))
    def begins(self, words): return self.stream.getbuffer()[self.stream.tell():][:len(words)] == words      # the next line
    def take(self, words, count, *ranges):                  # a range for each number; the last two go on over and over
        self.taken += 1
        line, ranges = self.stream.readline(), itertools.chain(ranges, itertools.cycle(ranges[-2:]))
        try: numbers = [int(field[:41]) for field in line[len(words):].split()]     # 41 bytes are too many
        except ValueError: numbers = []
        self.refuse(line != words + b"".join(b" %d" % number for number in numbers) + b"\n")     # their one writing
        if words == b"proof": count = 3 + 2 * sum(numbers[2:3])     # the third number tells how many pairs follow
        self.refuse(count is not None and len(numbers) != count)
        self.refuse(not all(low <= n <= high for n, (low, high) in zip(numbers, ranges)))
        return numbers
    def end(self):
        self.take(b"end", 0)
        self.taken += 1                                     # the rest, which must be empty
        self.refuse(self.stream.read(1))
def read_certificate(data):
    text, cert = Text(data, lambda line: [f"text {line}"]), types.SimpleNamespace()
    take = text.take
    take(b"poolcert", 1, (1, 1))
    cert.kind = next((kind for kind in ("gap", "bound") if text.begins(f"kind {kind}\n".encode())), "none")
    take(f"kind {cert.kind}".encode(), 0)
    cert.shape = take(b"shape", 7, U32)
    if cert.kind == "gap":
        cert.R, cert.d = take(b"plan", 2, U32)
        cert.r, cert.y = take(b"weights", cert.shape[4], U32), take(b"outflows", cert.shape[5], U64)
        cert.z = take(b"direct", cert.shape[6], U64)
    cert.splits = [take(b"split", 3, U32, U32, I64) for _ in range(*take(b"splits", 1, U32))]
    cert.proofs = [take(b"proof", None, U32, U64, U32, U32, I64) for _ in range(*take(b"proofs", 1, U32))]
    if cert.kind == "gap": cert.cost = take(b"cost", 2, I128, U64)
    if cert.kind != "none": [cert.bound] = take(b"bound", 1, I128)
    if cert.kind == "gap": cert.gap, _ = take(b"gap", 2, I128, (cert.cost[1], cert.cost[1]))
    text.end()
    return cert
# THE WRITTEN PLAN: rules, cost, base. `pick` takes the values of those pairs of numbers that have a number on a side.
def pick(values, pairs, side, number): return [value for value, pair in zip(values, pairs) if pair[side] == number]
def plan_cost(net, plan):
    R, d, r, y, z, feeds, outs, directs = plan.R, plan.d, plan.r, plan.y, plan.z, net.feeds, net.outs, net.directs
    refuse(not 1 <= R <= G or not 1 <= d <= 65_536, "plan 1")                             # the bases
    refuse(any(sum(pick(r, feeds, 1, l)) != R for l in range(len(net.pools))), "plan 2")  # weights sum to R
    T = [sum(pick(y, outs, 0, l)) for l in range(len(net.pools))]
    x = [weight * T[l] for weight, (_, l) in zip(r, feeds)]
    drawn = [sum(pick(x, feeds, 0, s)) + R * sum(pick(z, directs, 0, s)) for s in range(len(net.sources))]
    taken = [sum(pick(y, outs, 1, j)) + sum(pick(z, directs, 1, j)) for j in range(len(net.products))]
    refuse(any(flow > d * R * source.max for flow, source in zip(drawn, net.sources)), "plan 3")    # source
    refuse(any(flow > d * pool.max for flow, pool in zip(T, net.pools)), "plan 4")                  # pool
    refuse(any(flow > d * product.max for flow, product in zip(taken, net.products)), "plan 5")     # maximum
    refuse(any(flow < d * product.min for flow, product in zip(taken, net.products)), "plan 6")     # minimum
    for sign, j, k, limit in net.limits:                    # rule 7 for all mosts, then rule 8 for all leasts
        q = [source.quality[k] for source in net.sources]
        M = [net.tau[l][k] * sum(pick([weight * q[s] for weight, (s, _) in zip(r, feeds)], feeds, 1, l)) for l in range(len(T))]
        carried = (sum(M[l] * flow for flow, (l, end) in zip(y, outs) if end == j)
                   + net.H * sum(R * q[s] * flow for flow, (s, end) in zip(z, directs) if end == j))
        refuse(sign * carried > sign * limit * net.H * R * taken[j], "plan 7" if sign > 0 else "plan 8")
    along = x + [R * flow for flow in y + z]
    refuse(any(flow > d * R * arc.max for flow, arc in zip(along, net.arcs)), "plan 9")             # arc
    return [sum(source.cost * flow for flow, source in zip(drawn, net.sources))
            + sum(arc.cost * flow for flow, arc in zip(along, net.arcs))
            - R * sum(product.price * flow for flow, product in zip(taken, net.products)), d * R]
# VARIABLES AND ROWS. A box has the ends of the coordinates, and behind them those of x and z, which nothing cuts. So a
# variable x, y, z, Q or p is the number of its ends. A w is its feed, A of the feed's source or the feed's own maximum, and
# y; a v is p and y.
def ends(variable, low, high):
    if isinstance(variable, int): return low[variable], high[variable]
    if len(variable) == 3: return 0, min(variable[1], high[variable[2]])
    p, y = variable
    products = [low[p] * low[y], low[p] * high[y], high[p] * low[y], high[p] * high[y]]
    return min(products), max(products)
def make_rows(net):
    """The root box, the variables in order, their costs, which rows each form has, and the rows: whether at least, constant,
    coefficients by variable. An envelope's depend on the box: it has its side for a constant, and scale, a, b, f for coefficients."""
    feeds, outs, directs, paths, sides = net.feeds, net.outs, net.directs, net.paths, (1, 2, 3, 4)
    A, S, D = ([node.max for node in nodes] for nodes in (net.sources, net.pools, net.products))
    c, q, H, tau = [source.cost for source in net.sources], [source.quality for source in net.sources], net.H, net.tau
    price, least = [product.price for product in net.products], [product.min for product in net.products]
    sources, pools, products, qualities = (range(count) for count in net.shape[:4])
    contents = [[q[s][k] for s, end in feeds if end == l] for l in pools for k in qualities]
    net.low = [0] * len(feeds) + [min(content) for content in contents] + [0] * (len(outs) + len(feeds) + len(directs))
    net.high = ([G] * len(feeds) + [max(content) for content in contents]
                + [min(S[l], D[j], arc.max) for (l, j), arc in zip(outs, net.out)]
                + [min(A[s], S[l], arc.max) for (s, l), arc in zip(feeds, net.into)]
                + [min(A[s], D[j], arc.max) for (s, j), arc in zip(directs, net.past)])
    net.coordinates = len(feeds) + len(contents) + len(outs)
    numbers = iter(range(len(net.low)))
    Q, p, y, x, z = ([next(numbers) for _ in part] for part in (feeds, contents, outs, feeds, directs))
    w = [(e, min(A[feeds[e][0]], net.into[e].max), y[o]) for e, o in paths]
    v = [[(p[l * len(qualities) + k], y[o]) for o, (l, _) in enumerate(outs)] for k in qualities]
    costs = [arc.cost - price[j] for (_, j), arc in zip(outs, net.out)] + [c[s] + arc.cost for (s, _), arc in zip(feeds, net.into)]
    costs += [c[s] + arc.cost - price[j] for (s, j), arc in zip(directs, net.past)]
    net.costs = dict(zip(y + x + z, costs))
    net.variables = x + y + z + w + Q + p + [v[k][o] for o in range(len(outs)) for k in qualities]
    def times(factor, *variables): return dict.fromkeys(itertools.chain(*variables), factor)
    def limit_row(sign, j, k, U, carried):                  # of a most; for a least all signs are turned
        direct = {z[i]: sign * H * (U - q[s][k]) for i, (s, end) in enumerate(directs) if end == j}
        return True, 0, times(sign * H * U, pick(y, outs, 1, j)) | {f: -sign * a for f, a in carried.items()} | direct
    rows = [(True, A[s], times(-1, pick(x, feeds, 0, s), pick(z, directs, 0, s))) for s in sources]             # N1
    rows += [(False, 0, times(1, pick(x, feeds, 1, l)) | times(-1, pick(y, outs, 0, l))) for l in pools]        # N2
    rows += [(True, S[l], times(-1, pick(y, outs, 0, l))) for l in pools]                                       # N3
    rows += [(True, D[j], times(-1, pick(y, outs, 1, j), pick(z, directs, 1, j))) for j in products]            # N4
    rows += [(True, -least[j], times(1, pick(y, outs, 1, j), pick(z, directs, 1, j))) for j in products]        # N5
    after_n = len(rows)
    rows += [(False, 0, {x[e]: q[s][k] for e, (s, end) in enumerate(feeds) if end == l}
              | times(-1, pick(v[k], outs, 0, l))) for l in pools for k in qualities]                           # P1
    rows += [limit_row(sign, j, k, U, {v[k][o]: tau[l][k] for o, (l, end) in enumerate(outs) if end == j})
             for sign, j, k, U in net.limits]                                                                   # P2, P3
    rows += [(True, side, (1, *v[k][o], v[k][o])) for o in range(len(outs)) for k in qualities for side in sides]  # P4
    after_p = len(rows)
    rows += [(False, -G, times(1, pick(Q, feeds, 1, l))) for l in pools]                                        # Q1
    rows += [(False, 0, {x[e]: 1} | times(-1, pick(w, paths, 0, e))) for e in range(len(feeds))]                # Q2
    rows += [limit_row(sign, j, k, U, {w[i]: tau[outs[o][0]][k] * q[feeds[e][0]][k] for i, (e, o) in enumerate(paths)
                                       if outs[o][1] == j}) for sign, j, k, U in net.limits]                    # Q3, Q4
    rows += [(True, side, (G, Q[e], y[o], w[i])) for i, (e, o) in enumerate(paths) for side in sides]           # Q5
    after_q = len(rows)
    rows += [(False, 0, times(1, pick(w, paths, 1, o)) | {y[o]: -1}) for o in range(len(outs))]                 # PQ1
    rows += [(True, 0, {Q[e]: S[l]} | times(-G, pick(w, paths, 0, e))) for e, (_, l) in enumerate(feeds)]       # PQ2
    net.forms = {"p": [*range(after_p)]} | {form: [*range(after_n), *range(after_p, to)]
                                              for form, to in (("q", after_q), ("pq", len(rows)))}
    return rows
def row_in_box(constant, coefficients, low, high):          # what they are in this box
    if isinstance(coefficients, dict): return constant, coefficients
    scale, a, b, f = coefficients
    (aL, aU), (bL, bU) = ends(a, low, high), ends(b, low, high)
    return {1: (aL * bL, {f: scale, a: -bL, b: -aL}), 2: (aU * bU, {f: scale, a: -bU, b: -aU}),
            3: (-aU * bL, {f: -scale, a: bL, b: aU}), 4: (-aL * bU, {f: -scale, a: bU, b: aL})}[constant]
# THE TREE AND ITS PROOFS
def new_tree(net): return types.SimpleNamespace(lows=[net.low], highs=[net.high], cut_nodes=set())   # ends of each node's box, cut nodes
def cut_leaf(net, tree, leaf, coord, cut):
    t, nodes = len(tree.cut_nodes), len(tree.lows)
    refuse(t > 199_999 or leaf >= nodes or leaf in tree.cut_nodes or coord >= net.coordinates, f"split {t}")
    low, high = tree.lows[leaf], tree.highs[leaf]
    refuse(not low[coord] < cut < high[coord], f"split {t}")                                        # cuts the box
    tree.lows += [low, low[:coord] + [cut] + low[coord + 1:]]
    tree.highs += [high[:coord] + [cut] + high[coord + 1:], high]
    tree.cut_nodes.add(leaf)
def proof_number(net, proof, low, high):
    node, scale, rows, multipliers = proof[0], proof[1], proof[3::2], proof[4::2]
    refuse(any(a >= b for a, b in zip(rows, rows[1:])), f"proof {node} 1")                          # rows rise strictly
    refuse(any(row >= len(net.rows) for row in rows), f"proof {node} 2")                            # rows exist
    refuse(any(m < 0 and net.rows[row][0] for row, m in zip(rows, multipliers)), f"proof {node} 3")  # at least
    refuse(0 in multipliers, f"proof {node} 4")                                                     # none is 0
    rest, size = (collections.defaultdict(int, {variable: scale * of(cost) for variable, cost in net.costs.items()}) for of in (int, abs))
    number = weight = 0
    for row, m in zip(rows, multipliers):
        b, coefficients = row_in_box(*net.rows[row][1:], low, high)
        number, weight = number - m * b, weight + abs(m * b)
        for variable, a in coefficients.items():
            rest[variable] -= m * a
            size[variable] += abs(m * a)
    for variable in size:                                   # all other variables count 0 in both sums
        lo, hi = ends(variable, low, high)
        number += min(rest[variable] * lo, rest[variable] * hi)
        weight += size[variable] * max(abs(lo), abs(hi))
    refuse(weight > 2**126, f"proof {node} 5")                                                      # too wide
    refuse(scale == 0 and number <= 0, f"proof {node} 6")                                           # shows nothing
    return number
def reach_bound(net):
    ways = [(s, j, arc.cost) for (s, j), arc in zip(net.directs, net.past)]
    ways += [(net.feeds[e][0], net.outs[o][1], net.into[e].cost + net.out[o].cost) for e, o in net.paths]
    margins = [(j, net.products[j].price - net.sources[s].cost - carriage) for s, j, carriage in ways]
    return -sum(p.max * max([0] + [margin for end, margin in margins if end == j]) for j, p in enumerate(net.products))
def node_bound(net, bound, proof, low, high):               # of the parent's bound, or None where it holds no plan
    if proof is None: return bound
    number, scale = proof_number(net, proof, low, high), proof[1]
    return None if scale == 0 or bound is None else max(bound, number // scale)
def tree_bound(net, cert):                                  # the least bound of the leaves that have one, or None
    tree, bounds, proofs = new_tree(net), [], {proof[0]: proof for proof in cert.proofs}
    for split in cert.splits: cut_leaf(net, tree, *split)
    for line, (node, *_) in enumerate(cert.proofs):
        refuse(node >= len(tree.lows) or line and node <= cert.proofs[line - 1][0], f"place {line}")
    for node, (low, high) in enumerate(zip(tree.lows, tree.highs)):
        bound = bounds[cert.splits[(node - 1) // 2][0]] if node else reach_bound(net)       # the parent's
        bounds.append(node_bound(net, bound, proofs.get(node), low, high))
    net.leaves = {node: (bound, (tree.lows[node], tree.highs[node])) for node, bound in enumerate(bounds)
                  if bound is not None and node not in tree.cut_nodes}                  # those that may hold a plan
    return min((bound for bound, _ in net.leaves.values()), default=None)
# THE ORDER OF REFUSALS, AND THE COMMAND
def check(net, data):
    cert = read_certificate(data)
    refuse(cert.shape != net.shape, "shape")
    cost = plan_cost(net, cert) if cert.kind == "gap" else None
    net.rows = make_rows(net)
    bound = tree_bound(net, cert)
    refuse((cert.kind == "none") != (bound is None), "kind")
    refuse(cert.kind == "gap" and cert.cost != cost, "cost")
    refuse(cert.kind != "none" and cert.bound != bound, "bound")
    refuse(cert.kind == "gap" and cert.gap != cost[0] - bound * cost[1], "gap")
    if cert.kind == "gap": return f"accepted gap cost {cost[0]} base {cost[1]} bound {bound} gap {cert.gap}"
    return "accepted none" if cert.kind == "none" else f"accepted bound {bound}"
def read_file(name, most):                                  # by pieces; of a file that is too long one piece too many
    with open(name, "rb") as file: return b"".join(itertools.islice(iter(lambda: file.read(2**20), b""), most // 2**20 + 1))
def judge(words, judges=(check,)):                          # the status, the line to write, and remarks; a judge for each text
    if len(words) != 1 + len(judges) or any(word[:1] in ("", "-") for word in words):
        return 2, "pool: usage: solve NET, check NET CERT, report NET CERT, formulate NET, make N or trial N"
    status, front = 3, "pool: network refused:"
    try:
        net = judge_rows(walk(parse_json(read_file(words[0], NETWORK_BYTES))))
        for name, judged in zip(words[1:], judges):
            data = read_file(name, CERTIFICATE_BYTES)
            if len(data) > CERTIFICATE_BYTES: return 5, "pool: certificate too long"
            status, front = 1, "refused"
            line = judged(net, data)
        return 0, line
    except Refused as why: return status, f"{front} {why.args[0]}", *why.args[1:]
    except OSError: return 20, "pool: read fault"
    except MemoryError: return 23, "pool: out of memory"
def run(words): return judge(words)[:2]                     # the status, and the line to write
def written(number, line):                                  # whether all of the line was written
    try: return os.write(number, f"{line}\n".encode()) > len(line)
    except OSError: return False
def main(judges=(check,)):
    status, line, *remarks = judge(sys.argv[1:], judges)
    if status < 2 and not written(1, line): status, line = 21, "pool: write fault"
    for remark in [line] * (status >= 2) + remarks: written(2, remark)
    sys.exit(status)
if __name__ == "__main__": main()
