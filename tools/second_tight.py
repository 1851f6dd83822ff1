#!/usr/bin/env python3
"""A second checker of what is said of leaves: `second_tight.py NET CERT FILE` prints the line that `pool checktight NET CERT FILE`
prints, and ends with its status; of a text that is none it tells the first faulty line too, on standard error. It was written from
docs/FORMATS.md, as `second_checker.py` was, which judges the certificate first and whose names for a network's rows it takes."""
import collections, math, os, sys, types
sys.dont_write_bytecode = True
sys.path.append(os.path.dirname(os.path.realpath(__file__)))    # where `second_checker.py` is
from second_checker import I64, I128, U32, U64, Refused, Text, check, ends, judge, main, node_bound, refuse, row_in_box

# The lines, with the numbers of certificates.
def read_mark(text):
    word = next((word for word in ("raised", "empty", "loose") if text.begins(word.encode())), "tight")
    fields = iter(text.take(word.encode(), None, I128))
    def number(low, high):
        found = next(fields, None)
        text.refuse(found is None or not low <= found <= high)
        return found
    def proof(): return [mark.node, number(*U64), 0] + [number(*each) for _ in range(number(*U32)) for each in (U32, I64)]
    def point(): return number(*U64), [number(*I128) for _ in range(number(*U32))]
    def fraction():
        num, den = number(-I128[1], I128[1]), number(1, I128[1])
        text.refuse(math.gcd(num, den) > 1)                                             # in lowest terms
        return num, den
    mark = types.SimpleNamespace(word=word, node=number(*U32), proof=None, point=None)
    if word == "loose": mark.reason = number(1, 5)
    if word in ("raised", "empty") or word == "loose" and mark.reason == 4: mark.proof = proof()
    if word in ("tight", "raised") or word == "loose" and mark.reason == 5: mark.point = point()
    if word == "loose" and mark.reason == 1: mark.numbers = number(*U32)
    if word == "loose" and mark.reason == 2: mark.numbers = number(1, 4), fraction(), fraction()
    if word == "loose" and mark.reason == 3: mark.numbers = number(*U64), fraction()
    text.refuse(next(fields, None) is not None)
    return mark
def read_tight(data):
    text = Text(data, lambda line: ["tight 1", f"the first faulty line is {line}"])
    tight = types.SimpleNamespace(bound=None)
    text.take(b"pooltight", 1, (1, 1))
    tight.form = next((form for form in ("p", "q") if text.begins(f"form {form}\n".encode())), "pq")
    text.take(f"form {tight.form}".encode(), 0)
    [tight.pivots] = text.take(b"pivots", 1, U32)
    tight.marks = [read_mark(text) for _ in range(*text.take(b"leaves", 1, U32))]
    if text.begins(b"bound none"): text.take(b"bound none", 0)
    else: [tight.bound] = text.take(b"bound", 1, I128)
    text.end()
    return tight

# Whether a mark says what is so of a form's rows in the box of its leaf.
def sums_at(net, form, box, point):                         # of the cost and of each row: whether at least, value, weight
    base, at = point[0], dict(zip(net.variables, point[1]))
    rows = [(net.rows[row][0], *row_in_box(*net.rows[row][1:], *box)) for row in net.forms[form]]
    products = [(at_least, b * base, [a * at[variable] for variable, a in coefficients.items()])
                for at_least, b, coefficients in [(None, 0, net.costs)] + rows]
    return [(at_least, b + sum(parts), abs(b) + sum(map(abs, parts))) for at_least, b, parts in products]
def has_shape(net, point): return point[0] > 0 and len(point[1]) == len(net.variables)
def is_light(sums): return all(weight <= 2**126 for _, _, weight in sums)
def is_witness(net, form, box, bound, point):               # light, in the box, on the rows, and below bound + 1
    if not has_shape(net, point): return False
    (base, values), sides = point, [ends(variable, *box) for variable in net.variables]
    (_, cost, _), *rows = sums = sums_at(net, form, box, point)
    return (is_light(sums) and all(base * low <= value <= base * high for value, (low, high) in zip(values, sides))
            and all(number >= 0 if at_least else number == 0 for at_least, number, _ in rows) and cost < (bound + 1) * base)
def shown(net, box, proof):                                 # what it shows: a bound, or none where no plan; or its fault
    try: return node_bound(net, -math.inf, proof, *box), None
    except Refused as why: return None, int(str(why)[-1])
def is_wide(operation, a, b):                               # 1 to 4: add, sub, mul, div
    (n, m), (k, l) = a, b
    if operation < 3:
        common, sign = math.gcd(m, l), 3 - 2 * operation
        left, right, den = n * (l // common), sign * k * (m // common), m * (l // common)
        return any(abs(number) > I128[1] for number in (left, right, den, left + right))
    num, den = (n * k, m * l) if operation == 3 else (n * l, m * k)
    return den != 0 and max(abs(num), abs(den)) // math.gcd(num, den) > I128[1]
def is_coarse(n, f):                                        # no short common denominator, or too large over n
    return n > 0 and (math.lcm(n, f[1]) > U64[1] or not I64[0] * f[1] <= n * f[0] <= I64[1] * f[1])
def shows_more(net, form, bound, box, mark):                # a proof and its point; what no plan obeys is above all
    number, fault = shown(net, box, mark.proof)
    if fault or not set(mark.proof[3::2]) <= set(net.forms[form]): return False
    if mark.word == "empty": return number is None
    return number is not None and number > bound and is_witness(net, form, box, number, mark.point)
def is_so(net, tight, mark):
    bound, box = net.leaves[mark.node]
    if mark.word == "tight": return is_witness(net, tight.form, box, bound, mark.point)
    if mark.word != "loose": return shows_more(net, tight.form, bound, box, mark)
    return {1: lambda: mark.numbers == tight.pivots, 2: lambda: is_wide(*mark.numbers), 3: lambda: is_coarse(*mark.numbers),
            4: lambda: shown(net, box, mark.proof)[1] == 5,
            5: lambda: has_shape(net, mark.point) and not is_light(sums_at(net, tight.form, box, mark.point))}[mark.reason]()
def check_tight(net, data):                                 # behind `check`, which leaves the leaves
    tight = read_tight(data)
    refuse([mark.node for mark in tight.marks] != sorted(net.leaves), "tight 2")
    refuse(not all(is_so(net, tight, mark) for mark in tight.marks), "tight 3")
    bounds = [shown(net, net.leaves[mark.node][1], mark.proof)[0] if mark.word == "raised" else net.leaves[mark.node][0]
              for mark in tight.marks if mark.word != "empty"]
    refuse(tight.bound != min(bounds, default=None), "tight 4")
    counts = collections.Counter(mark.word for mark in tight.marks)
    told = " ".join(f"{word} {counts[word]}" for word in ("tight", "raised", "empty", "loose"))
    return f"accepted {told} bound {'none' if tight.bound is None else tight.bound}"

JUDGES = (check, check_tight)                               # one for each text behind the network
def judge_tight(words): return judge(words, JUDGES)         # the status, the line to write, and remarks
if __name__ == "__main__": main(JUDGES)
