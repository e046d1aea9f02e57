#!/usr/bin/env python3
"""Draws a report of examples/c/report.c as a picture: for each order a bar of the average with its
margin, in the colour of the verdict, and the peak as a ring; beside the bar the order's limit, with its
figure. Limits, margin and verdicts are those of the report; an edition other than 2 is named. Writes SVG;
refuses what is no report, with status 1, and every argument, with status 2.

    report CLASS_LETTER UNITS_PER_AMPERE [EDITION] < recording | picture.py > picture.svg
"""

import math
import re
import sys
from typing import NamedTuple, Optional

ORDERS = 40
ABOVE_0 = "[1-9][0-9]{0,19}"
HEAD = {  # the names of the head's lines, and what may stand there
    "class": "[AB]",
    "system": ABOVE_0,
    "edition": r"2|2\.0 A1",
    "windows": ABOVE_0,
    "units per ampere": ABOVE_0,
    "margin, units": ABOVE_0,
}
COLUMNS = "order  average, units  peak, units  limit, mA  as decimal  peak limit, mA  verdict"
WHOLE, DECIMAL = " +([0-9]{1,20})", r" +([0-9]{1,20}\.[0-9]{1,20})"
LIMIT = f" +({ABOVE_0}(?:/{ABOVE_0})?)"
LINE = re.compile(f"{WHOLE}{DECIMAL}{WHOLE}(?:{LIMIT}{DECIMAL}{DECIMAL}  (within|close|over)| +-  +-  +-  -)")
COLOURS = {"within": "#2e6da4", "close": "#e39b1f", "over": "#c0392b", None: "#8a8f94"}

WIDTH, HEIGHT, LEFT, RIGHT, TOP, BOTTOM = 980, 460, 70, 20, 64, 76
GAP, BAR, COLUMN = 2, 9, 9  # in the place of an order: before its bar, the bar, the limit beside it
LEAST = 1e-4  # amperes at the foot of the logarithmic scale


class Limit(NamedTuple):
    """A limit as the report has it, a whole number of milliamperes or a fraction, and its size."""

    text: str
    amperes: float


def limit_of(text):
    numerator, _, denominator = text.partition("/")
    return Limit(text, int(numerator) / int(denominator or 1) / 1000)


class Order(NamedTuple):
    """What the report says of an order: units, milliamperes and a word; order 1 has no limits."""

    average: float
    peak: int
    limit: Optional[Limit]
    peak_limit: Optional[float]
    verdict: Optional[str]


def read_report(text):
    """What the lines of the report's head hold, and its orders; ValueError for any other text."""
    lines = text.split("\n")
    if len(lines) != len(HEAD) + 2 + ORDERS + 1 or lines[-1] != "":
        raise ValueError("no report")
    head = []
    for (name, known), line in zip(HEAD.items(), lines):
        found = re.fullmatch(f"{re.escape(name)} +({known})", line)
        if found is None:
            raise ValueError(f"no report: the line of {name}")
        head.append(found[1])
    if lines[len(HEAD)] != "" or lines[len(HEAD) + 1] != COLUMNS:
        raise ValueError("no report: its columns are not named")
    orders = []
    for number, line in enumerate(lines[len(HEAD) + 2 : -1], start=1):
        found = LINE.fullmatch(line)
        if found is None or int(found[1]) != number or (found[7] is None) != (number == 1):
            raise ValueError(f"no report: the line of order {number}")
        limit, peak_limit = (None, None) if number == 1 else (limit_of(found[4]), float(found[6]))
        orders.append(Order(float(found[2]), int(found[3]), limit, peak_limit, found[7]))
    return head, orders


def picture(head, orders):
    """The picture's lines."""
    class_letter, system, edition, windows = head[:4]
    units_per_ampere, margin = map(int, head[4:])
    amended = "" if edition == "2" else f" edition {edition};"
    highest = max(max(order.peak / units_per_ampere, (order.peak_limit or 0) / 1000) for order in orders)
    least, most = math.log10(LEAST), math.ceil(math.log10(max(highest, 10 * LEAST)))
    step = (WIDTH - LEFT - RIGHT) / ORDERS
    foot = HEIGHT - BOTTOM

    def height(amperes):
        share = (math.log10(max(amperes, LEAST)) - least) / (most - least)
        return foot - share * (foot - TOP)

    def line(x1, x2, y1, y2, look):
        return f'<line x1="{x1:.1f}" x2="{x2:.1f}" y1="{y1:.1f}" y2="{y2:.1f}" {look}/>'

    def words(x, y, text, look=""):
        return f'<text x="{x:.1f}" y="{y:.1f}"{look}>{text}</text>'

    def words_upward(x, y, text):
        return words(0, 0, text, f' font-size="8" transform="translate({x:.1f} {y:.1f}) rotate(-90)"')

    def bar(x, y, width, tall, colour):
        return f'<rect x="{x:.1f}" y="{y:.1f}" width="{width:.1f}" height="{tall:.1f}" fill="{colour}"/>'

    def ring(x, y):
        return f'<circle cx="{x:.1f}" cy="{y:.1f}" r="3" fill="white" stroke="black"/>'

    def limit_column(x, y, y_peak, y_foot):
        """The limit as a column beside a bar, and the peak's as a dashed line above it."""
        return [
            bar(x, y, COLUMN, y_foot - y, "#dfe3e6"),
            line(x, x + COLUMN, y, y, 'stroke="black" stroke-width="2"'),
            line(x, x + COLUMN, y_peak, y_peak, 'stroke="black" stroke-dasharray="2 1"'),
        ]

    out = [
        f'<svg xmlns="http://www.w3.org/2000/svg" width="{WIDTH}" height="{HEIGHT}" font-family="sans-serif" font-size="12">',
        f'<rect width="{WIDTH}" height="{HEIGHT}" fill="white"/>',
        words(LEFT, 24, f"Smoothed harmonic groups against class {class_letter}; limits and verdicts are the core's", ' font-size="15"'),
        words(LEFT, 44, f"System {system};{amended} windows: {windows}; units per ampere: {units_per_ampere}"),
    ]
    for power in range(round(least), most + 1):
        y = height(10.0**power)
        out.append(line(LEFT, WIDTH - RIGHT, y, y, 'stroke="#ddd"'))
        out.append(words(LEFT - 8, y + 4, f"{10.0**power:g} A", ' text-anchor="end"'))
    for number, order in enumerate(orders, start=1):
        x = LEFT + (number - 1) * step
        middle = x + GAP + BAR / 2
        top = height(order.average / units_per_ampere)
        low, high = (height((order.average + way * margin) / units_per_ampere) for way in (-1, 1))
        out.append(bar(x + GAP, top, BAR, foot - top, COLOURS[order.verdict]))
        if order.limit is not None:
            beside = x + GAP + BAR
            out += limit_column(beside, height(order.limit.amperes), height(order.peak_limit / 1000), foot)
            out.append(words_upward(beside + COLUMN - 2, foot - 4, order.limit.text))
        out.append(ring(middle, height(order.peak / units_per_ampere)))
        out.append(line(middle, middle, low, high, 'stroke="black"'))
        out.append(words(middle, foot + 16, number, ' text-anchor="middle"'))
    y = foot + 38
    for place, (verdict, colour) in enumerate(COLOURS.items()):
        x = LEFT + 80 * place
        out.append(bar(x, y - 10, 11, 11, colour))
        out.append(words(x + 16, y, verdict or "order 1, which has no limit"))
    x = LEFT + 430
    out += limit_column(x, y - 4, y - 12, y + 2)
    out += [
        words(x + 14, y, "limit of the average in mA, and of the peak"),
        ring(x + 296, y - 4),
        words(x + 306, y, "peak"),
        words(LEFT, y + 22, f"Bars by order are averages; the margin is {margin} units, {margin / units_per_ampere * 1e6:.2f} &#181;A, either way."),
        "</svg>",
    ]
    return out


def main():
    if len(sys.argv) > 1:
        print("usage: picture.py < REPORT > PICTURE", file=sys.stderr)
        return 2
    place = "standard input"
    try:
        with open(0, "rb", closefd=False) as file:
            text = file.read().decode("ascii", "replace")  # no report has the sign for another byte
        drawn = "\n".join(picture(*read_report(text))) + "\n"
        place = "standard output"
        with open(1, "wb", closefd=False) as file:
            file.write(drawn.encode())
    except OSError as fault:
        print(f"picture.py: {place}: {fault.strerror}", file=sys.stderr)
        return 1
    except ValueError as fault:
        print(f"picture.py: {fault}", file=sys.stderr)
        return 1
    return 0


if __name__ == "__main__":
    sys.exit(main())
