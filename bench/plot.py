#!/usr/bin/env python3
"""Plots of the sweeps of bench/land.sh.

    plot.py TABLE DIRECTORY

reads what bench/land.sh printed, and writes DIRECTORY/NAME.svg for each sweep in it: the times of each program on the left
axis, and the ratio of the server's to the plain program's on the right one.
"""
import math
import os
import sys

WIDTH, HEIGHT = 360, 200
LEFT, RIGHT, TOP, BOTTOM = 44, 322, 26, 164
COLORS = {"server": "#1f5fa8", "old": "#8a8a8a", "plain": "#2f8f4e", "ratio": "#c4561c"}


class Scale:
    """Values on a line from one end to the other: by their logarithm, or as they are."""

    def __init__(self, low, high, start, end, value=lambda v: v):
        self.value, self.start, self.end = value, start, end
        self.low, self.high = value(low), value(high)

    def at(self, value):
        part = (self.value(value) - self.low) / ((self.high - self.low) or 1)
        return round(self.start + part * (self.end - self.start), 1)


def short(value):
    if value >= 10000:
        return f"{value / 1000:g}k"
    return f"{value:g}"


def read_sweeps(path):
    """Name, axis, columns, and rows of numbers of each sweep."""
    sweeps, current = [], None
    for line in open(path):
        words = line.split()
        if line.startswith("sweep "):
            name, axis = line[6:].strip().split(": ", 1)
            current = {"name": name, "axis": axis, "rows": []}
            sweeps.append(current)
        elif not words:
            current = None
        elif current and words[0] == "point":
            current["columns"] = [word.removesuffix("_ms") for word in words]
        elif current:
            current["rows"].append([float(word) for word in words[:len(current["columns"])]])
    return [sweep for sweep in sweeps if len(sweep["rows"]) > 1]


def across(points):
    """The scale of the points: as they are where they lie evenly, else by logarithm, with one added where 0 is among them."""
    steps = {round(b - a, 6) for a, b in zip(points, points[1:])}
    if len(steps) == 1:
        return Scale(points[0], points[-1], LEFT, RIGHT)
    return Scale(points[0], points[-1], LEFT, RIGHT, (lambda v: math.log(v + 1)) if points[0] == 0 else math.log)


def upward(values):
    """The scale of times, and its marks: by powers of ten where they lie far apart, else from 0."""
    least, most = min(values), max(values)
    if most / least >= 20:
        low, high = math.floor(math.log10(least)), math.ceil(math.log10(most))
        return Scale(10.0 ** low, 10.0 ** high, BOTTOM, TOP, math.log), [10.0 ** n for n in range(low, high + 1)]
    return from_nothing(most)


def from_nothing(most):
    """A scale from 0, and its marks at round numbers."""
    step = 10.0 ** math.floor(math.log10(most))
    step = next(step * part for part in (0.2, 0.5, 1, 2, 5) if most / (step * part) <= 5)
    count = math.ceil(most / step)
    return Scale(0, count * step, BOTTOM, TOP), [round(n * step, 6) for n in range(count + 1)]


def text(x, y, words, anchor="middle", color="#333", size=9):
    return f'<text x="{x}" y="{y}" text-anchor="{anchor}" fill="{color}" font-size="{size}">{words}</text>'


def line(x1, y1, x2, y2, color):
    return f'<line x1="{x1}" y1="{y1}" x2="{x2}" y2="{y2}" stroke="{color}" stroke-width="1"/>'


def curve(places, color, dashes=""):
    dashed = f' stroke-dasharray="{dashes}"' if dashes else ""
    points = " ".join(f"{x},{y}" for x, y in places)
    yield f'<polyline points="{points}" fill="none" stroke="{color}" stroke-width="1.5"{dashed}/>'
    for x, y in places:
        yield f'<circle cx="{x}" cy="{y}" r="2" fill="{color}"/>'


def axes(sweep, x, y, marks, ratio, ratio_marks):
    for mark in marks:
        yield line(LEFT, y.at(mark), RIGHT, y.at(mark), "#e4e4e4")
        yield text(LEFT - 4, y.at(mark) + 3, short(mark), "end")
    for mark in ratio_marks:
        yield text(RIGHT + 4, ratio.at(mark) + 3, short(mark), "start", COLORS["ratio"])
    yield line(LEFT, TOP, LEFT, BOTTOM, "#777")
    yield line(RIGHT, TOP, RIGHT, BOTTOM, "#777")
    yield line(LEFT, BOTTOM, RIGHT, BOTTOM, "#777")
    last = -100
    for point, *_ in sweep["rows"]:
        yield line(x.at(point), BOTTOM, x.at(point), BOTTOM + 3, "#777")
        if x.at(point) - last >= 22:
            last = x.at(point)
            yield text(last, BOTTOM + 13, short(point))
    yield text((LEFT + RIGHT) / 2, HEIGHT - 8, sweep["axis"])
    yield text(8, TOP - 10, "ms", "start")
    yield text(WIDTH - 6, TOP - 10, "ratio", "end", COLORS["ratio"])


def plot(sweep):
    columns, rows = sweep["columns"], sweep["rows"]
    programs = [name for name in columns[1:columns.index("ratio")]]
    column = lambda name: [row[columns.index(name)] for row in rows]
    x = across(column("point"))
    y, marks = upward([time for name in programs for time in column(name)])
    ratio, ratio_marks = from_nothing(max(column("ratio")))
    parts = list(axes(sweep, x, y, marks, ratio, ratio_marks))
    for n, name in enumerate(programs):
        parts += curve([(x.at(p), y.at(t)) for p, t in zip(column("point"), column(name))], COLORS[name])
        parts.append(text(LEFT + 30 + 60 * n, TOP - 10, name, color=COLORS[name]))
    parts += curve([(x.at(p), ratio.at(r)) for p, r in zip(column("point"), column("ratio"))], COLORS["ratio"], "4 3")
    size = f'width="{WIDTH}" height="{HEIGHT}" viewBox="0 0 {WIDTH} {HEIGHT}"'
    head = f'<svg xmlns="http://www.w3.org/2000/svg" {size} font-family="sans-serif">'
    return "\n".join([head, f'<rect width="{WIDTH}" height="{HEIGHT}" fill="white"/>', *parts, "</svg>"]) + "\n"


def main():
    table, directory = sys.argv[1:]
    os.makedirs(directory, exist_ok=True)
    for sweep in read_sweeps(table):
        with open(os.path.join(directory, sweep["name"] + ".svg"), "w") as file:
            file.write(plot(sweep))


main()
