#!/usr/bin/env python3
"""Draws the reserves of a report as an SVG, with nothing but Python's own library.

    examples/reserves_svg.py CONTRACT REPORT > DRAWING.svg

The reserve lines of the contract give the times and who is alive then, and the report of `halo value` gives the bounds in
the same order. There is a line for each set of lives; a point is the middle of its bounds, and
tells them where it is pointed at.
"""
import sys
from decimal import Decimal
from html import escape

WIDTH, HEIGHT = 720, 400
LEFT, RIGHT, TOP, BOTTOM = 90, 20, 40, 50
COLOURS = ["#1f5fa8", "#b3441e", "#2e7d4f", "#7a4fa3", "#8a6d1f", "#555555"]


def words(path):
    """The words of each line of a file, without comments and empty lines."""
    with open(path, encoding="utf-8") as file:
        lines = [line.split() for line in file]
    return [line for line in lines if line and not line[0].startswith("#")]


def reserves(contract, report):
    """The points of each set of lives: a time, the bounds as they are told, and the middle of them."""
    asked = [line for line in words(contract) if line[0] == "reserve"]
    told = [line for line in words(report) if line[0] == "reserve"]
    if len(asked) != len(told):
        sys.exit("the report has %d reserves, and the contract asks for %d" % (len(told), len(asked)))
    points = {}
    for (_, time, *alive), (_, _, low, high) in zip(asked, told):
        name = "with " + " and ".join(alive) + " alive" if alive else "with nobody alive"
        points.setdefault(name, []).append((int(time), low, high, (Decimal(low) + Decimal(high)) / 2))
    return {name: sorted(line) for name, line in points.items()}


def step(span):
    """A round step that cuts a span into at most eight parts."""
    size = Decimal(10) ** (span.adjusted() - 1)
    return next(size * m for m in (1, 2, 5, 10, 20, 50, 100) if size * m * 8 >= span)


def marks(low, high):
    """Round numbers from one at or below `low` to one at or above `high`."""
    by = step(max(high - low, Decimal(1)))
    first = (low / by).to_integral_value("ROUND_FLOOR")
    last = (high / by).to_integral_value("ROUND_CEILING")
    return [by * n for n in range(int(first), int(last) + 1)]


def number(value):
    """A number as a text, with commas and without zeros at its end."""
    return format(value.normalize(), ",f")


class Plane:
    """Where times and amounts lie in the drawing."""

    def __init__(self, points):
        ends = [point for line in points.values() for point in line]
        amounts = [amount for _, _, _, amount in ends] + [Decimal(0)]
        self.times = marks(Decimal(0), Decimal(max(time for time, _, _, _ in ends)))
        self.amounts = marks(min(amounts), max(amounts))

    def x(self, time):
        return LEFT + (WIDTH - LEFT - RIGHT) * (time - self.times[0]) / (self.times[-1] - self.times[0])

    def y(self, amount):
        below, above = self.amounts[0], self.amounts[-1]
        return HEIGHT - BOTTOM - (HEIGHT - TOP - BOTTOM) * (amount - below) / (above - below)


def text(x, y, words, anchor="middle", colour="#333"):
    return '<text x="%.1f" y="%.1f" text-anchor="%s" fill="%s">%s</text>' % (x, y, anchor, colour, escape(words))


def axes(plane):
    """A thin line and a number at each round time and amount."""
    parts = []
    for amount in plane.amounts:
        y = plane.y(amount)
        colour = "#888" if amount == 0 else "#ddd"
        parts.append('<line x1="%d" y1="%.1f" x2="%d" y2="%.1f" stroke="%s"/>' % (LEFT, y, WIDTH - RIGHT, y, colour))
        parts.append(text(LEFT - 8, y + 4, number(amount), "end"))
    for time in plane.times:
        parts.append(text(plane.x(time), HEIGHT - BOTTOM + 20, number(time)))
    parts.append(text((LEFT + WIDTH - RIGHT) / 2, HEIGHT - 10, "years"))
    return parts


def curve(plane, at, name, line):
    """The points of one set of lives, joined, with its name at the top."""
    colour = COLOURS[at % len(COLOURS)]
    places = [(plane.x(time), plane.y(amount)) for time, _, _, amount in line]
    joined = " ".join("%.1f,%.1f" % place for place in places)
    parts = ['<polyline points="%s" fill="none" stroke="%s" stroke-width="2"/>' % (joined, colour)]
    for (x, y), (time, low, high, _) in zip(places, line):
        told = "at time %d from %s to %s" % (time, low, high)
        parts.append('<circle cx="%.1f" cy="%.1f" r="3" fill="%s"><title>%s</title></circle>' % (x, y, colour, escape(told)))
    parts.append(text(LEFT + 10, TOP + 18 + 18 * at, name, "start", colour))
    return parts


def drawing(points):
    plane = Plane(points)
    parts = ['<svg xmlns="http://www.w3.org/2000/svg" viewBox="0 0 %d %d" font-family="sans-serif" font-size="12">' % (WIDTH, HEIGHT)]
    parts.append('<rect width="%d" height="%d" fill="white"/>' % (WIDTH, HEIGHT))
    parts.append(text(WIDTH / 2, 20, "Reserves"))
    parts += axes(plane)
    for at, (name, line) in enumerate(points.items()):
        parts += curve(plane, at, name, line)
    return "\n".join(parts + ["</svg>"])


def main():
    if len(sys.argv) != 3:
        sys.exit("usage: reserves_svg.py CONTRACT REPORT > DRAWING.svg")
    points = reserves(sys.argv[1], sys.argv[2])
    if not points:
        sys.exit("the contract asks for no reserves")
    print(drawing(points))


main()
