#!/usr/bin/env python3
"""The pictures of docs/BENCHMARKS.md, from the figures of bench/runs.

    bench/pictures.py           writes docs/claims.svg, docs/gets.svg and docs/session.svg
    bench/pictures.py --check   writes nothing, and ends with 1 where one of them isn't what it would write

Of each kind the file with the latest date counts: bench/runs/*-claims.csv, *-gets.csv, *-session.csv. Of several runs a point is the middle one.
Python's standard library is enough.
"""
import collections
import csv
import html
import math
import pathlib
import statistics
import sys

TOP = pathlib.Path(__file__).resolve().parent.parent
WIDTH, HEIGHT = 760, 400
LEFT, RIGHT, UPPER, LOWER = 70, 270, 60, 50  # margins in pixels; series are named to the right
INK, FAINT = "#333333", "#dddddd"
COLOURS = ("#0b5fa5", "#c8501e", "#2a8a3e", "#7a4fa3", "#8a6d00")
BAR, GAP, NAMES = 34, 22, 210  # of a bar: its height, the room to the next, and that for its name
CLAIMS = (
    ("claim, 16 links, half ripe", {"command": "claim", "links": "16", "priorities": "5", "ripe": "half"}),
    ("claim, 1 link, all ripe", {"command": "claim", "links": "1", "priorities": "1", "ripe": "all"}),
    ("cancellation, anywhere", {"command": "cancellation, half of the files anywhere"}),
    ("report with a retry", {"command": "report with a retry"}),
    ("cancellation, in turn", {"command": "cancellation, every second file in turn"}),
)

# A series of points, by its name.
Series = collections.namedtuple("Series", "name points")

# Where a number stands on an axis: the least and the greatest, and whether equal ways are equal ratios.
Axis = collections.namedtuple("Axis", "low high is_log start end")


def figures(kind):
    """The rows of the latest file of a kind, and its date with the remark in its first line, where one stands there."""
    place = max((TOP / "bench" / "runs").glob(f"*-{kind}.csv"))
    date, text = place.name.removesuffix(f"-{kind}.csv"), place.read_text().splitlines()
    if text[0].startswith("#"):
        date = f"{date}, {text.pop(0)[1:].strip()}"
    return list(csv.DictReader(text)), date


def middles(rows, key, value):
    """For each number of a column, the middle of another column's."""
    found = collections.defaultdict(list)
    for row in rows:
        found[float(row[key])].append(float(row[value]))
    return [(number, statistics.median(values)) for number, values in sorted(found.items())]


def place_on(axis, number):
    low, high, at = (math.log(it) if axis.is_log else it for it in (axis.low, axis.high, number))
    return axis.start + (at - low) / (high - low) * (axis.end - axis.start)


def words(x, y, text, anchor="start", colour=INK, size=13):
    return f'<text x="{x:.1f}" y="{y:.1f}" text-anchor="{anchor}" fill="{colour}" font-size="{size}">{html.escape(text)}</text>'


def stroke(points, colour, width):
    joined = " ".join(f"{x:.1f},{y:.1f}" for x, y in points)
    return f'<polyline points="{joined}" fill="none" stroke="{colour}" stroke-width="{width}"/>'


def picture(title, subtitle, height, marks):
    head = f'<svg xmlns="http://www.w3.org/2000/svg" viewBox="0 0 {WIDTH} {height}" role="img" font-family="sans-serif">'
    body = [f"<title>{html.escape(title)}</title>", f'<rect width="{WIDTH}" height="{height}" fill="#ffffff"/>']
    heads = [words(16, 24, title, size=16), words(16, 43, subtitle, colour="#666666", size=12)]
    return "\n".join([head, *body, *heads, *marks, "</svg>"]) + "\n"


def steps(high):
    """Round numbers from 0 to beyond a number, some five of them."""
    size = 10 ** math.floor(math.log10(high))
    step = next(it * size for it in (0.2, 0.5, 1, 2) if high / (it * size) <= 6)
    return [step * count for count in range(math.ceil(high / step) + 1)]


def number_of(value):
    return f"{value:,.0f}" if value == int(value) else f"{value:,.2f}".rstrip("0")


def apart(wanted, room):
    """The same places, moved down where two have less than this room."""
    found = []
    for place in wanted:
        found.append(max(place, found[-1] + room) if found else place)
    return found


def lines(title, subtitle, under, series):
    """A picture of lines over a logarithmic axis, each named at its end."""
    numbers = sorted({x for one in series for x, _ in one.points})
    levels = steps(max(y for one in series for _, y in one.points))
    across = Axis(numbers[0], numbers[-1], True, LEFT, WIDTH - RIGHT)
    up = Axis(0, levels[-1], False, HEIGHT - LOWER, UPPER + 10)
    marks = []
    for level in levels:
        y = place_on(up, level)
        marks += [stroke([(LEFT, y), (WIDTH - RIGHT, y)], FAINT, 1), words(LEFT - 8, y + 4, number_of(level), "end")]
    marks += [words(place_on(across, it), HEIGHT - LOWER + 20, number_of(it), "middle") for it in numbers]
    marks.append(words((LEFT + WIDTH - RIGHT) / 2, HEIGHT - 10, under, "middle"))
    ordered = sorted(series, key=lambda one: -one.points[-1][1])
    named = apart([place_on(up, one.points[-1][1]) + 4 for one in ordered], 17)
    for one, colour, y in zip(ordered, COLOURS, named):
        points = [(place_on(across, number), place_on(up, value)) for number, value in one.points]
        marks += [stroke(points, colour, 2), *(f'<circle cx="{a:.1f}" cy="{b:.1f}" r="3" fill="{colour}"/>' for a, b in points)]
        marks.append(words(WIDTH - RIGHT + 10, y, one.name, colour=colour, size=12))
    return picture(title, subtitle, HEIGHT, marks)


def claims():
    rows, date = figures("claims")
    series = []
    for name, wanted in CLAIMS:
        points = middles([row for row in rows if all(row[key] == value for key, value in wanted.items())], "waiting", "microseconds")
        series.append(Series(f"{name}: {points[-1][1] / points[0][1]:.2f} times", points))
    return lines("A command while files wait", f"microseconds, {date}; named with the last point beside the first", "files that wait", series)


def gets():
    rows, date = figures("gets")
    named = (("fts, 8 lanes", "service"), ("nginx, a file", "nginx"))
    series = [Series(name, middles(rows, "connections", column)) for name, column in named if column in rows[0]]
    return lines("GETs of one job", f"requests a second, {date}", "connections that are kept", series)


def session():
    rows, date = figures("session")
    sums = collections.defaultdict(lambda: [0.0, 0.0])
    for row in rows:
        both = sums[f"{row['files']}, {'on a disk' if row['place'] == 'disk' else 'in memory'}"]
        both[0] += float(row["session"])
        both[1] += float(row["floor"])
    ratios = [(name, ours / floor, ours, floor) for name, (ours, floor) in sums.items()]
    across = Axis(0, max(2, *(ratio for _, ratio, _, _ in ratios)), False, NAMES, WIDTH - 200)
    one, marks, y = place_on(across, 1), [], UPPER + 10
    for name, ratio, ours, floor in ratios:
        end = place_on(across, ratio)
        marks.append(f'<rect x="{NAMES}" y="{y}" width="{end - NAMES:.1f}" height="{BAR}" fill="{COLOURS[0]}"/>')
        marks += [words(NAMES - 8, y + 22, name, "end"), words(max(end, one) + 8, y + 22, f"{ratio:.2f} ({ours:.2f} s, floor {floor:.2f} s)")]
        y += BAR + GAP
    marks += [stroke([(one, UPPER), (one, y - 8)], INK, 1.5), words(one, y + 8, "1: the floor", "middle", size=12)]
    return picture("A session that copies, beside its floor", f"seconds over those of the same steps in C, sums of all runs, {date}", y + 22, marks)


def main(given):
    if given not in ([], ["--check"]):
        sys.exit(__doc__)
    other = []
    for name, draw in (("claims", claims), ("gets", gets), ("session", session)):
        place, text = TOP / "docs" / f"{name}.svg", draw()
        if not given:
            place.write_text(text)
        elif not place.exists() or place.read_text() != text:
            other.append(str(place))
    if other:
        print(f"not as they would be written: {', '.join(other)}")
    return 1 if other else 0


if __name__ == "__main__":
    sys.exit(main(sys.argv[1:]))
