"""The tree and the proofs of a certificate, valued for another network of the same shape: what `tools/what_if`, `tools/prices` and
`tools/why_none` stand on. Multipliers that are in order show a bound in every network, so nothing here needs trust: what comes
of it is a certificate of the other network, which `./pool check` judges.

A cut that lies outside its box there is left out, and so is the half that has nothing of the box. A multiplier that is not in
order there is left out. Then the leaf of the least bound is looked at again and again: its multipliers, and those of the boxes
above it, are moved one row at a time to where they show the most, until the least leaf gains nothing by that."""

import heapq
from fractions import Fraction

import pooling
from pooling import Fault, Proof, Rows, Shown, Tree

PASSES = 3
LARGEST = 2**63 - 1


def in_order(certificate, net):
    """Raises what is wrong with a certificate that was made for another network of the shape of this one."""
    pooling.refuse(certificate.shape != net.shape, "shape")
    splits = certificate.splits
    first = pooling.new_leaf(splits, len(Rows(net).low))
    pooling.refuse(first < len(splits), f"split {first}")
    nodes = [proof.node for proof in certificate.proofs]
    for line, node in enumerate(nodes):
        pooling.refuse(node > 2 * len(splits) or line and node <= nodes[line - 1], f"place {line}")


class Revalued:
    """A tree over the boxes of a network, with the proofs that hold there and the bound of each node."""

    def __init__(self, net, splits, proofs, tighten=True):
        self.net, self.rows = net, Rows(net)
        self.splits, candidates = self.mended(splits, proofs)
        self.tree, self.proofs, self.hints, self.bounds = Tree(self.rows, self.splits), {}, {}, {}
        for node, low, high in self.tree.walk():
            self.value(node, candidates.get(node, ()), low, high)
        if tighten:
            self.tighten()

    def mended(self, splits, proofs):
        """The splits that cut their box here, and by the new number of each node the proofs that stood on it."""
        tree = Tree(self.rows, splits, mend=True)
        for _ in tree.walk():
            pass
        place, kept, candidates = {0: 0}, [], {}
        for t, (leaf, coord, cut) in enumerate(splits):
            at = place.get(leaf)
            if at is None:
                continue
            if t in tree.wrong:
                place[tree.wrong[t]] = at
                continue
            place[2 * t + 1], place[2 * t + 2] = 2 * len(kept) + 1, 2 * len(kept) + 2
            kept.append((at, coord, cut))
        for proof in proofs:
            if proof.node in place:
                candidates.setdefault(place[proof.node], []).append(proof)
        return kept, candidates

    def fitted(self, node, proof):
        """The parts of a proof that are in order here, on a node."""
        pairs = [(row, m) for row, m in zip(proof.rows, proof.multipliers) if row < len(self.rows.rows) and m and (m > 0 or not self.rows.rows[row][0])]
        return Proof(node, proof.scale, pooling.array("I", [row for row, _ in pairs]), pooling.array("q", [m for _, m in pairs]))

    def value(self, node, candidates, low, high):
        """The bound of a node, by the proof that shows the most there."""
        bound = self.bounds[Tree.parent(self.splits, node)] if node else self.rows.reach_bound()
        best = None
        for proof in candidates:
            proof = self.fitted(node, proof)
            try:
                shown = proof.in_order(self.rows, low, high)
            except Fault:
                self.hints[node] = proof
                continue
            if best is None or shown is None or best[0] is not None and shown > best[0]:
                best = shown, proof
        if best:
            self.proofs[node] = best[1]
        self.bounds[node] = None if bound is None or best and best[0] is None else max(bound, best[0]) if best else bound

    # ---- multipliers that are moved to where they show the most

    def tighten(self):
        cut = {leaf for leaf, _, _ in self.splits}
        leaves, tried = [(bound, node) for node, bound in self.bounds.items() if bound is not None and node not in cut], set()
        heapq.heapify(leaves)
        while leaves and leaves[0][1] not in tried:
            bound, node = leaves[0]
            tried.add(node)
            better = self.better(node, bound)
            if better:
                bound, self.proofs[node] = better
                self.bounds[node] = bound
                heapq.heapreplace(leaves, (bound, node)) if bound is not None else heapq.heappop(leaves)

    def better(self, node, bound):
        """A bound of a leaf that is greater, with its proof; none of a leaf that holds no plan."""
        low, high = self.tree.box(node)
        found = None
        for proof in self.starts(node):
            moved = self.moved(self.fitted(node, proof), low, high)
            try:
                shown = moved.in_order(self.rows, low, high)
            except Fault:
                continue
            if shown is None:
                return None, moved
            if shown > bound:
                found, bound = (shown, moved), shown
        return found

    def starts(self, node):
        """The proofs that a leaf begins with: its own, what is out of order of it, and the nearest one above it that shows a bound."""
        yield from (proofs[node] for proofs in (self.hints, self.proofs) if node in proofs)
        while node and not (node in self.proofs and self.proofs[node].scale):
            node = Tree.parent(self.splits, node)
        yield self.proofs.get(node, Proof(node, 1))

    def moved(self, proof, low, high):
        shown, multipliers = Shown(self.rows, proof.scale, low, high), dict(zip(proof.rows, proof.multipliers))
        for row, m in multipliers.items():
            shown.add(row, m)
        plain = [row for row, (_, _, terms, _) in enumerate(self.rows.rows) if isinstance(terms, list) or row in multipliers]
        for _ in range(PASSES):
            moved = False
            for row in plain:
                step = self.step(shown, row, multipliers.get(row, 0))
                if step and abs(multipliers.get(row, 0) + step) <= LARGEST:
                    shown.add(row, step)
                    multipliers[row] = multipliers.get(row, 0) + step
                    moved = True
            if not moved:
                break
        rows = sorted(row for row, m in multipliers.items() if m)
        return Proof(proof.node, proof.scale, pooling.array("I", rows), pooling.array("q", [multipliers[row] for row in rows]))

    def step(self, shown, row, m):
        """By how much a row's multiplier is moved, for the number to be the greatest: it is concave in that, and bends where a rest is 0."""
        constant, terms = self.rows.in_box(row, shown.low, shown.high)
        slope, bends = -constant, []
        for variable, a in terms:
            if a:
                low, high = self.rows.ends(variable, shown.low, shown.high)
                slope -= a * (low if a > 0 else high)
                bends.append((Fraction(shown.rest[variable], a), abs(a) * (high - low)))
        least = -m if self.rows.rows[row][0] else None
        best = None
        for at, change in sorted(bends):
            slope -= change
            if slope <= 0:
                best = at
                break
        if best is None:
            return 0 if shown.scale or slope <= 0 else self.unbounded(shown, constant, terms, max([0, *(at for at, _ in bends)]).__ceil__(), slope)
        steps = {best.__floor__(), best.__ceil__()}
        steps = {step if least is None else max(step, least) for step in steps}
        return max(steps | {0}, key=lambda step: (self.gain(shown, constant, terms, step), -abs(step)))

    def unbounded(self, shown, constant, terms, last, slope):
        """Of multipliers without the cost that show the more the further they go: so far that the number is above 0."""
        number = shown.number() + self.gain(shown, constant, terms, last)
        return last + max(0, -(-(1 - number) // slope))

    def gain(self, shown, constant, terms, step):
        """By how much the number grows where a row is taken so many times more."""
        total = -step * constant
        for variable, a in terms:
            low, high = self.rows.ends(variable, shown.low, shown.high)
            before, after = shown.rest[variable], shown.rest[variable] - step * a
            total += (after * low if after > 0 else after * high) - (before * low if before > 0 else before * high)
        return total

    def least(self):
        return pooling.leaf_bound(self.splits, self.bounds)

    def certificate(self, plan):
        """The certificate, with the plan where it obeys here."""
        proofs = [self.proofs[node] for node in sorted(self.proofs)]
        return pooling.certificate_with(self.net, plan if plan_obeys(self.net, plan) else None, self.splits, proofs, self.bounds)


def plan_obeys(net, plan):
    try:
        return plan is not None and bool(plan.judge(net))
    except Fault:
        return False


def revalued(net, certificate, tighten=True):
    """The certificate of a network that a certificate of another one shows."""
    return Revalued(net, certificate.splits, certificate.proofs, tighten).certificate(certificate.plan)


def read(net, path):
    """A certificate that may have been made for another network of this shape."""
    with open(path, "rb") as file:
        try:
            certificate = pooling.CertificateReader(file).certificate()
            in_order(certificate, net)
            return certificate
        except Fault as fault:
            raise pooling.Ends(1, f"{path}: refused {fault}") from None
        except pooling.Ends as end:
            raise pooling.Ends(end.status, f"{path}: {end.lines[0]}") from None
