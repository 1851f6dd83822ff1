"""What `tools/picture --tree` draws: the tree of boxes behind a certificate's bound, and what a tight text says of its leaves.

The darker a box, the lower its bound. Under each leaf that may hold a plan stands a bar: what its mark says.
"""

from collections import Counter
from dataclasses import dataclass

import icicle
import pooling
import second_tight
import svg
from icicle import plain

WIDTH, TALLEST, ROW, MARGIN, LINE = 1100, 640, 30, 16, 17
FILLS = ("#a6a6a6", "#b8b8b8", "#cacaca", "#dadada", "#e8e8e8", "#f4f4f4")
LABELLED = 20  # from such a height on a box has its bound written into it, where that has room
BAR = 6  # how high a leaf's bar is at most
# What the bar of each mark looks like, what it is called, and what it says of a leaf.
MARKS = {
    "tight": (svg.BLUE, "tight", "the rows allow no better bound"),
    "raised": (svg.ORANGE, "raised", "the rows allow this bound and no better one"),
    "empty": (svg.BLACK, "empty", "the rows allow no plan"),
    "loose": (svg.PALE, "loose", "nothing is said"),
}
LEGEND = "the root on top, each box above the two that it is cut into; the darker, the lower its bound; dashed: no plan; \u25b2 the box that holds the bound"


@dataclass
class Marks:
    """What an accepted tight text says: by which form, a mark for each leaf, and the bound that it comes to."""

    form: str
    words: dict  # by node
    raised: dict  # the bounds of those that are raised
    bound: object


def read_marks(net, certificate, files):
    """The marks of a tight text for the network and the certificate, all in files; what the second checker refuses ends it."""
    status, line, *remarks = second_tight.judge_tight(files)
    if status == 20:
        raise pooling.Ends(20, f"{files[2]}: it can't be read")
    if status:
        raise pooling.Ends(status, f"{files[2]}: {line}", *remarks)
    with open(files[2], "rb") as file:
        tight = second_tight.read_tight(file.read())
    tree, raised = pooling.Tree(pooling.Rows(net), certificate.splits), {}
    for mark in tight.marks:
        if mark.word == "raised":
            proof = pooling.Proof(mark.node, mark.proof[1], mark.proof[3::2], mark.proof[4::2])
            raised[mark.node] = proof.in_order(tree.rows, *tree.box(mark.node))
    return Marks(tight.form, {mark.node: mark.word for mark in tight.marks}, raised, tight.bound)


class TreeDrawing(icicle.Icicle):
    def __init__(self, net, certificate, bounds, name, marks=None):
        super().__init__(net, certificate, bounds, WIDTH - 2 * MARGIN)
        self.name, self.marks, self.body = name, marks, []
        self.rows = max(self.depth) + 1
        self.tall = min(ROW, TALLEST / self.rows)
        self.top = self.draw_head()
        for node, x, width in self.in_order():
            self.draw_box(node, MARGIN + float(x), max(float(width), 1.0))
        self.draw_least()
        self.height = self.draw_legend(self.top + self.tall * self.rows + 32)

    def svg(self):
        return svg.document(WIDTH, self.height, f"{self.name}, the tree of boxes", self.body)

    def say(self, *arguments, **options):
        self.body.append(svg.text(*arguments, **options))

    def draw_head(self):
        cuts = len(self.splits)
        words = [f"{cuts} {'cut' if cuts == 1 else 'cuts'}", self.bound_in_words("bound", self.certificate.bound)]
        if self.marks:
            words.append(self.bound_in_words(f"with the marks by form {self.marks.form}", self.marks.bound))
        self.say(MARGIN, 28, self.name, 16, True, most=WIDTH - 2 * MARGIN)
        self.say(MARGIN, 50, " \u00a0\u00a0 ".join(words), 14, most=WIDTH - 2 * MARGIN)
        return 64

    def bound_in_words(self, front, bound):
        return f"{front} {svg.decimal(pooling.money(bound), icicle.PLACES)}" if bound is not None else "no plan obeys"

    def mark_of(self, node):
        return self.marks.words.get(node) if self.marks else None

    def words(self, node):
        said, word = super().words(node), self.mark_of(node)
        if word is None:
            return said
        raised = f" to {plain(pooling.money(self.marks.raised[node]))}" if word == "raised" else ""
        return f"{said}; {word}{raised}: {MARKS[word][2]}"

    def draw_box(self, node, x, width):
        y, shade, word = self.top + self.tall * self.depth[node], self.shade(node), self.mark_of(node)
        box = {"class": "box", "data_node": node, "x": x, "y": float(y), "width": width, "height": float(self.tall), "stroke": svg.WHITE, "stroke_width": 0.5}
        box["fill"] = svg.WHITE if shade is None else FILLS[shade]
        if shade is None:
            box.update({"stroke": svg.PALE, "stroke_dasharray": "3 2"})
        self.body.append(svg.element("rect", box, svg.title(self.words(node))))
        bar = min(BAR, self.tall / 3)
        if word:
            mark = {"class": f"mark {word}", "x": x, "y": float(y + self.tall - bar), "width": width, "height": float(bar), "fill": MARKS[word][0]}
            self.body.append(svg.element("rect", mark, svg.title(self.words(node))))
        said = "no plan" if shade is None else plain(pooling.money(self.bounds[node]))
        if self.tall >= LABELLED and svg.width_of(said, 11) <= width - 6:
            self.say(x + 4, y + 14, said, 11)

    def draw_least(self):
        for node, x, width in self.boxes:
            if self.least and node == self.least[1]:
                corner = f"M{svg.number(MARGIN + float(x + width / 2))} {svg.number(float(self.top + self.tall * (self.depth[node] + 1) + 2))}l6 11h-12z"
                self.body.append(svg.element("path", {"d": corner, "fill": svg.BLACK}, svg.title("the box that holds the bound")))

    def draw_legend(self, y):
        """What bars and shades mean, and how many leaves have each mark; where the legend ends."""
        x, counts = MARGIN, Counter(self.marks.words.values() if self.marks else ())
        for word in [word for word in MARKS if counts[word]]:
            colour, called, says = MARKS[word]
            self.body.append(svg.element("rect", {"x": x, "y": y - 8, "width": 24, "height": BAR, "fill": colour}))
            text = f"{called} {counts[word]}: {says}"
            self.say(x + 30, y, text, 11)
            x += 42 + svg.width_of(text, 11)
        y += LINE if counts else 0
        left_out = 2 * len(self.splits) + 1 - len(self.boxes)
        words = ["the certificate was checked by tools/pooling.py"]
        words += ["the marks by tools/second_tight.py"] * bool(self.marks) + [f"{left_out} boxes are too narrow to be drawn"] * (left_out > 0)
        for line in (LEGEND, "; ".join(words)):
            self.say(MARGIN, y, line, 11, colour=svg.GRAY, most=WIDTH - 2 * MARGIN)
            y += LINE
        return y


def drawing(net, certificate, bounds, name, marks=None):
    """The drawing of a certificate's tree."""
    return TreeDrawing(net, certificate, bounds, net.title[:120] or name, marks)
