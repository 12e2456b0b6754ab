#!/usr/bin/env python3
"""Draws what host/stores --growth measured: growth.py FILE.csv FILE.svg. A line of the first is: what, keys, length, nanoseconds."""
import csv
import math
import sys

WIDTH, HEIGHT, LEFT, TOP, GAP = 300, 220, 70, 60, 80
COLOURS = ["#4477aa", "#ee8866"]
STYLE = "text{font-family:Helvetica,Arial,sans-serif;font-size:11px;fill:#222222}.title{font-size:13px;font-weight:bold}"


class Panel:
    """A plot with both axes logarithmic."""

    def __init__(self, index, title, across, lines):
        self.x, self.y, self.title, self.across, self.lines = LEFT + index * (WIDTH + GAP), TOP, title, across, lines
        points = [p for _, line in lines for p in line]
        self.least_x, self.most_x = self.decades([x for x, _ in points])
        self.least_y, self.most_y = self.decades([y for _, y in points])

    @staticmethod
    def decades(values):
        return math.floor(math.log10(min(values))), math.ceil(math.log10(max(values)))

    def at(self, x, y):
        return (self.x + (math.log10(x) - self.least_x) * WIDTH / (self.most_x - self.least_x),
                self.y + HEIGHT - (math.log10(y) - self.least_y) * HEIGHT / (self.most_y - self.least_y))

    def drawn(self):
        yield f'<text x="{self.x}" y="{self.y - 14}" class="title">{self.title}</text>'
        for k in range(self.least_x, self.most_x + 1):
            x, _ = self.at(10 ** k, 10 ** self.least_y)
            yield f'<path d="M{x:.1f} {self.y}V{self.y + HEIGHT}" stroke="#dddddd"/>'
            yield f'<text x="{x:.1f}" y="{self.y + HEIGHT + 16}" text-anchor="middle">{10 ** k:,}</text>'
        for k in range(self.least_y, self.most_y + 1):
            _, y = self.at(10 ** self.least_x, 10 ** k)
            yield f'<path d="M{self.x} {y:.1f}H{self.x + WIDTH}" stroke="#dddddd"/>'
            yield f'<text x="{self.x - 6}" y="{y + 4:.1f}" text-anchor="end">{10 ** k:,} ns</text>'
        yield f'<text x="{self.x + WIDTH / 2}" y="{self.y + HEIGHT + 34}" text-anchor="middle">{self.across}</text>'
        for (name, line), colour in zip(self.lines, COLOURS):
            points = " ".join("{:.1f},{:.1f}".format(*self.at(x, y)) for x, y in line)
            yield f'<polyline points="{points}" fill="none" stroke="{colour}" stroke-width="2"/>'
            x, y = self.at(*line[-1])
            yield f'<text x="{x:.1f}" y="{y - 8:.1f}" text-anchor="end" style="fill:{colour}">{name}</text>'


def main(source, target):
    rows = [(what, int(keys), int(length), float(time)) for what, keys, length, time in csv.reader(open(source))]

    def line(what, keys):
        return [(length, time) for w, k, length, time in rows if w == what and k == keys]

    panels = [
        Panel(0, "An append, by the calls before it", "calls", [(f"{k:,} keys, dropped at {n}", line("history", k)) for k, n in ((2000, 400), (50000, 40))]),
        Panel(1, "An append, by its key's list", "numbers in the list", [("64 keys", line("append", 64))]),
        Panel(2, "A read, by its list", "numbers in the list", [("64 keys", line("read", 64))]),
    ]
    width = LEFT + 3 * (WIDTH + GAP) - GAP + 20
    body = "\n".join(part for panel in panels for part in panel.drawn())
    with open(target, "w") as out:
        out.write(f'<svg xmlns="http://www.w3.org/2000/svg" width="{width}" height="{TOP + HEIGHT + 50}" viewBox="0 0 {width} {TOP + HEIGHT + 50}" role="img" '
                  f'style="max-width:100%;height:auto">\n<title>Time of appends and reads</title>\n<style>{STYLE}</style>\n'
                  f'<rect width="100%" height="100%" fill="#ffffff"/>\n{body}\n</svg>\n')


main(*sys.argv[1:])
