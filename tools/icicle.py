"""The tree of boxes behind a bound, from the root down: what `tools/page` and `tools/picture --tree` draw of a certificate that was checked.

A box is as wide as its share of the leaves, and stands above the two that it is cut into. Of a tree with very many boxes those are left
out that would be too narrow; the box that holds the bound is there whatever its width.
"""

from fractions import Fraction

import pooling
import svg
from pooling import units

PLACES, MANY_BOXES, SHADES = 6, 3000, 6


def plain(value, places=PLACES, up=False):
    """A number as a spreadsheet takes it, without zeros at the end."""
    text = svg.decimal(value, places, up, plain=True) if places else svg.decimal(value, 0, up, plain=True)[:-1].rstrip(".")
    return text.rstrip("0").rstrip(".") if "." in text else text


class Icicle:
    """Where each box stands, what it says, and how dark it is."""

    def __init__(self, net, certificate, bounds, width):
        self.net, self.certificate, self.splits, self.bounds, self.width = net, certificate, certificate.splits, bounds, width
        self.children = {leaf: (2 * t + 1, 2 * t + 2) for t, (leaf, _, _) in enumerate(self.splits)}
        self.least = pooling.leaf_bound(self.splits, self.bounds)
        self.count_leaves()
        self.boxes = self.placed()

    def count_leaves(self):
        nodes = 2 * len(self.splits) + 1
        self.leaves, self.depth = [1] * nodes, [0] * nodes
        for t, (leaf, _, _) in enumerate(self.splits):
            self.depth[2 * t + 1] = self.depth[2 * t + 2] = self.depth[leaf] + 1
        for leaf, _, _ in reversed(self.splits):
            self.leaves[leaf] = sum(self.leaves[child] for child in self.children[leaf])

    def placed(self):
        """Of each box that is wide enough to be drawn its node, left end and width; the leaf of the bound is drawn whatever its width."""
        found, stack, narrowest = [], [(0, 0.0, float(self.width))], 0.5
        widths = sorted((self.width * leaves / self.leaves[0] for leaves in self.leaves), reverse=True)
        if len(widths) > MANY_BOXES:
            narrowest = max(narrowest, widths[MANY_BOXES])
        while stack:
            node, x, width = stack.pop()
            if width > narrowest or len(widths) <= MANY_BOXES or self.least and node == self.least[1]:
                found.append((node, x, width))
            for child in self.children.get(node, ()):
                share = width * self.leaves[child] / self.leaves[node]
                stack.append((child, x, share))
                x += share
        return found

    def in_order(self):
        """The boxes from the back to the front: that of the bound is the last."""
        return sorted(self.boxes, key=lambda box: bool(self.least and box[0] == self.least[1]))

    def words(self, node):
        bound = self.bounds.get(node)
        said = "holds no plan" if bound is None else f"no plan costs less than {plain(pooling.money(bound))}"
        cut = f"; {self.last_cut(node)}" if node else ""
        return f"box {node}{'' if node in self.children else ', not cut'}: {said}{cut}"

    def last_cut(self, node):
        """What a box has that its parent has not, in words."""
        net, (_, coord, cut) = self.net, self.splits[(node - 1) // 2]
        side = "at most" if node % 2 else "at least"
        nf, nk = len(net.feeds), len(net.qualities)
        if coord < nf:
            s, l = net.feeds[coord]
            return f"the part of {net.sources[s].name} in {net.pools[l].name} {side} {plain(Fraction(cut, pooling.GRAIN))}"
        if coord < nf + len(net.pools) * nk:
            l, k = divmod(coord - nf, nk)
            return f"{net.qualities[k]} of {net.pools[l].name} {side} {plain(units(cut))}"
        l, j = net.outs[coord - nf - len(net.pools) * nk]
        return f"{net.pools[l].name} to {net.products[j].name} {side} {plain(units(cut))}"

    def shade(self, node):
        """How dark a box is: the darkest, 0, has the root's bound; the lightest reaches the cost of the plan. None where it holds no plan."""
        bound = self.bounds.get(node)
        if bound is None:
            return None
        low, high = self.bounds[0], max(bound for bound in self.bounds.values() if bound is not None)
        if self.certificate.cost:
            high = max(low, min(high, Fraction(*self.certificate.cost)))
        last = SHADES - 1
        return min(last, max(0, int(SHADES * (bound - low) / (high - low)))) if low <= bound < high else last
