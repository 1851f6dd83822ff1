"""The curves of bound and best cost: over splits, which `tools/watch` draws of a running search and `tools/page` of one that is done; and
over a number of the network, which `tools/what_if` draws."""

from dataclasses import dataclass
from fractions import Fraction

import svg


@dataclass
class Point:
    """What is known at some count of splits, in money."""

    splits: int
    bound: object
    cost: object


def point_of(search):
    """Where a search of `pooling.py` is."""
    bound = search.bound()
    return Point(len(search.splits), None if bound is None else Fraction(bound, 10**12), None if search.cost is None else search.cost / 10**12)


class Plot:
    """The curves of bound and cost over splits, as one SVG."""

    COST = "best cost"
    WIDTH, HEIGHT, LEFT, RIGHT, TOP, BOTTOM = 900, 480, 120, 190, 64, 50

    def __init__(self, name, points):
        self.points, self.body = points, []
        values = [value for point in points for value in (point.bound, point.cost) if value is not None] or [Fraction(0)]
        low, high = min(values), max(values)
        room = (high - low) / 20 or max(abs(high) / 20, Fraction(1))
        self.low, self.high, self.most = low - room, high + room, max(points[-1].splits, 1)
        self.draw_axes(name)
        self.draw_curve("bound", [(point.splits, point.bound) for point in points], svg.BLUE, None)
        self.draw_curve(self.COST, [(point.splits, point.cost) for point in points], svg.ORANGE, "7 3")

    def svg(self, name):
        return svg.document(self.WIDTH, self.HEIGHT, name, self.body)

    def x(self, splits):
        return self.LEFT + (self.WIDTH - self.LEFT - self.RIGHT) * splits / self.most

    def y(self, value):
        return float(self.TOP + (self.HEIGHT - self.TOP - self.BOTTOM) * (self.high - value) / (self.high - self.low))

    def state(self):
        """Where the search is, in words."""
        last = self.points[-1]
        if last.bound is None:
            return f"no plan obeys, after {last.splits:,} splits"
        gap = "no plan yet" if last.cost is None else f"gap {svg.decimal(last.cost - last.bound, 6, up=True)}"
        return f"{gap}, after {last.splits:,} splits"

    def draw_axes(self, name):
        bottom, right = self.HEIGHT - self.BOTTOM, self.WIDTH - self.RIGHT
        self.body += [svg.text(16, 28, name, 16, True, most=self.WIDTH - 32), svg.text(16, 50, self.state(), 14)]
        for value in ticks(self.low, self.high):
            path = f"M{self.LEFT} {svg.number(self.y(value))}H{right}"
            self.body.append(svg.element("path", {"d": path, "stroke": svg.PALE, "stroke_width": 0.5}))
            self.body.append(svg.text(self.LEFT - 8, self.y(value) + 4, svg.decimal(value, 6), 11, anchor="end"))
        frame = f"M{self.LEFT} {self.TOP}V{bottom}H{right}"
        self.body.append(svg.element("path", {"d": frame, "fill": "none", "stroke": svg.BLACK, "stroke_width": 1}))
        self.draw_below(bottom, right)

    def draw_below(self, bottom, right):
        """The numbers and the name of the axis below."""
        for splits in ticks(Fraction(0), Fraction(self.most)):
            if splits.denominator == 1:
                self.body.append(svg.text(self.x(int(splits)), bottom + 18, f"{int(splits):,}", 11, anchor="middle"))
        self.body.append(svg.text((self.LEFT + right) / 2, bottom + 38, "splits", 12, anchor="middle"))

    def draw_curve(self, name, points, colour, dashes):
        """A curve in steps; it ends where there is no value, and is named with its last one."""
        path, last = "", None
        for splits, value in points:
            if value is None:
                last = None
            elif last is None:
                path += f"M{svg.number(float(self.x(splits)))} {svg.number(self.y(value))}"
            elif value != last or splits == points[-1][0]:
                path += f"H{svg.number(float(self.x(splits)))}V{svg.number(self.y(value))}"
            last = value
        if path:
            look = {"class": "curve", "d": path, "fill": "none", "stroke": colour, "stroke_width": 2.5, "stroke_dasharray": dashes}
            self.body.append(svg.element("path", look))
        if last is not None:
            above = 12 if name == "bound" else -4
            end = {"cx": float(self.x(points[-1][0])), "cy": self.y(last), "r": 3.5, "fill": colour}
            self.body.append(svg.element("circle", end))
            words = f"{name} {svg.decimal(last, 6, up=name != 'bound')}"
            self.body.append(svg.text(self.x(points[-1][0]) + 8, self.y(last) + above, words, 12, True, most=self.RIGHT - 16))


def ticks(low, high):
    """Round numbers between two, about five of them."""
    step = Fraction(10) ** (len(str(int((high - low) * 10**6))) - 7)
    step = next(step * many for many in (Fraction(1, 5), Fraction(1, 2), 1, 2, 5, 10) if (high - low) / (step * many) <= 6)
    first = -(-low // step)
    return [step * number for number in range(int(first), int(high // step) + 1)]


class Range(Plot):
    """The curves of bound and cost over a number of the network, from point to point."""

    COST = "cost"

    def __init__(self, name, axis, points):
        self.axis = axis
        self.first, self.last = points[0].splits, points[-1].splits
        super().__init__(name, points)
        self.name = name

    def svg(self):
        return svg.document(self.WIDTH, self.HEIGHT, self.name, self.body)

    def x(self, number):
        reach = self.last - self.first or 1
        return self.LEFT + (self.WIDTH - self.LEFT - self.RIGHT) * float((number - self.first) / reach)

    def state(self):
        return "what no plan costs less than, and what the plan costs where it obeys"

    def draw_below(self, bottom, right):
        for number in ticks(self.first, self.last) if self.last > self.first else [self.first]:
            self.body.append(svg.text(self.x(number), bottom + 18, svg.decimal(number, 6), 11, anchor="middle"))
        self.body.append(svg.text((self.LEFT + right) / 2, bottom + 38, self.axis, 12, anchor="middle"))

    def draw_curve(self, name, points, colour, dashes):
        runs, run = [], []
        for number, value in [*points, (None, None)]:
            if value is not None:
                run.append((self.x(number), self.y(value), value))
            elif run:
                runs.append(run)
                run = []
        path = "".join("M" + "L".join(f"{svg.number(x)} {svg.number(y)}" for x, y, _ in run) for run in runs)
        if path:
            look = {"class": "curve", "d": path, "fill": "none", "stroke": colour, "stroke_width": 2.5, "stroke_dasharray": dashes}
            self.body.append(svg.element("path", look))
            x, y, value = runs[-1][-1]
            self.body.append(svg.element("circle", {"cx": float(x), "cy": float(y), "r": 3.5, "fill": colour}))
            above = 12 if name == "bound" else -4
            self.body.append(svg.text(x + 8, y + above, f"{name} {svg.decimal(value, 6, up=name != 'bound')}", 12, True, most=self.RIGHT - 16))
