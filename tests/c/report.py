#!/usr/bin/env python3
"""Recordings with faults: examples/c/report.c must write the line that harmlist writes, with the
number that stands here, and end with status 1, unless its edition is refused directly after the system;
examples/picture.py must refuse that line. Reports of one recording in both classes, under both editions.
Both programs must fail by their status where an input cannot be read or an output not written.

    report.py REPORT HARMLIST PICTURE
"""

import itertools
import os
import re
import subprocess
import sys
import tempfile

CLASS, SCALE = "A", "16384000"


def column(number):
    return f"{number:8d}\n"


def recording(system, *samples):
    return column(system) + "".join(map(column, samples))


WINDOW = [1000] + [0] * 2047
BAD_LINE = "      07\n"
FAULTY = [
    (13, ""),
    (13, "10\n"),
    (13, "      10"),
    (13, "     010\n"),
    (13, "      10\r\n"),
    (13, " " * 8 + "\n" + recording(10, *WINDOW)),
    (1, recording(0)),
    (1, recording(11)),
    (1, recording(-10)),
    (1, recording(99999999)),
    (1, recording(11) + BAD_LINE),
    (1, recording(11, 131072)),
    (13, recording(10) + BAD_LINE),
    (13, recording(10) + BAD_LINE + column(131072)),
    (13, recording(10, *WINDOW)[:-1]),
    (13, recording(10, 1) + "       "),
    (13, recording(10, *WINDOW) + "x"),
    (3, recording(10, 131072)),
    (3, recording(12, -131072)),
    (3, recording(10, 131072) + BAD_LINE),
    (3, recording(10, 1, 99999999) + "\n"),
    (3, recording(10, *WINDOW[:-1], -9999999)),
    (3, recording(10, *WINDOW, *WINDOW[:-1], 131072)),
    (10, recording(10)),
    (10, recording(12)),
    (2, recording(10, 131071)),
    (2, recording(10, *WINDOW[:-1])),
    (2, recording(12, *WINDOW, -131071)),
]
# Of each class, orders with their limits in figures: as a fraction, as a decimal, and the peak's.
LIMITS = {
    "A": [
        ["1", "-", "-", "-"],
        ["3", "2300", "2300.0000", "3450.0000"],
        ["12", "460/3", "153.3333", "230.0000"],
        ["39", "750/13", "57.6923", "86.5385"],
        ["40", "46", "46.0000", "69.0000"],
    ],
    "B": [
        ["1", "-", "-", "-"],
        ["3", "3450", "3450.0000", "5175.0000"],
        ["12", "230", "230.0000", "345.0000"],
        ["39", "1125/13", "86.5385", "129.8077"],
        ["40", "69", "69.0000", "103.5000"],
    ],
}
# The values of the pulse in WINDOW at the orders 1 and 2, of each edition.
PULSE = {"0": [8944, 8944], "1": [2828, 8944]}
LETTERS = ["a", "b", "C", "D", "", "AB", " A", "\xc1"]
EDITIONS = {"0": "2", "1": "2.0 A1"}  # the number of each, and its name in a report
OTHER_EDITIONS = ["2", "3", "10", "65536", "4294967295", "4294967296", "4294967297", "99999999999999999999"]
OTHER_EDITIONS += ["-1", "+1", "1.0", " 1", "1 ", "x", "", "A1", "2.0 A1"]
SCALES = ["0", "268435457", "4294967296", "4311351296", "99999999999999999999", "-1", "1.5", " 1", "x", ""]


def run(command, text):
    """What a program writes, on both outputs, and its status."""
    done = subprocess.run(command, input=text.encode("latin-1"), capture_output=True, check=False)
    return done.stdout, done.stderr, done.returncode


def same(what, found, expected):
    if found != expected:
        sys.exit(f"{what}: {found!r} in place of {expected!r}")


def main():
    report, harmlist, picture = sys.argv[1:]
    for number, text in FAULTY:
        line = f"refused{number:3d}\n"
        what = f"{number} in {text[:40]!r}"
        same(f"harmlist, {what}", run([harmlist], text)[0], line.encode())
        for arguments in [(CLASS, SCALE), ("b", "0"), (CLASS, SCALE, "0"), (CLASS, SCALE, "1"), ("b", "0", "1")]:
            same(f"report, {what}", run([report, *arguments], text), (line.encode(), b"", 1))
        # An edition that is refused comes directly after the system.
        expected = "refused 19\n" if text[:9] in (column(10), column(12)) else line
        for arguments in [(CLASS, SCALE, "2"), ("b", "0", "x")]:
            same(f"report, {what}, {arguments}", run([report, *arguments], text), (expected.encode(), b"", 1))
    whole = recording(10, *WINDOW)
    for edition in OTHER_EDITIONS:
        for arguments in [(CLASS, SCALE), ("b", SCALE), (CLASS, "0"), ("b", "0")]:
            same(f"report, edition {edition!r}", run([report, *arguments, edition], whole), (b"refused 19\n", b"", 1))
    for letter in LETTERS:
        for scale in [SCALE, "0"]:
            same(f"report, class {letter!r}", run([report, letter, scale], whole), (b"refused 15\n", b"", 1))
    for scale in SCALES:
        same(f"report, {scale!r} units per ampere", run([report, CLASS, scale], whole), (b"refused 11\n", b"", 1))
    for scale in ["1", "268435456"]:
        same(f"report, {scale!r} units per ampere", run([report, CLASS, scale], whole)[1:], (b"", 0))
    for arguments in [[], [CLASS], [CLASS, SCALE, "0", "0"]]:
        same(f"report with {arguments!r}", run([report, *arguments], whole)[::2], (b"", 2))
    with open("/dev/full", "wb") as full:
        done = subprocess.run([report, CLASS, SCALE], input=whole.encode(), stdout=full, stderr=subprocess.PIPE, check=False)
        same("report that cannot be written", done.returncode, 2)
    folder = os.open("/", os.O_RDONLY)  # a read from it fails
    done = subprocess.run([report, CLASS, SCALE], stdin=folder, capture_output=True, check=False)
    same("report of what cannot be read", (done.stdout, done.returncode), (b"", 2))

    listing = run([harmlist], whole)[0].decode()
    for letter, edition in itertools.product(LIMITS, EDITIONS):
        good = run([report, letter, SCALE, edition], whole)[0].decode()
        rows = [line.split() for line in good.splitlines()]
        same("report, the class", rows[0], ["class", letter])
        same("report, the edition", rows[2], ["edition", *EDITIONS[edition].split()])
        same("report, the margin", rows[5], ["margin,", "units", "12"])
        for row in LIMITS[letter]:
            found = [found[3:6] for found in rows if found[:1] == row[:1]]
            same(f"report, the limits of order {row[0]} in class {letter}", found, [row[1:]])
        for order, value in enumerate(PULSE[edition], 1):
            found = [found[1:3] for found in rows if found[:1] == [str(order)]]
            same(f"report, the values of order {order} under edition {edition}", found, [[f"{value}.00", str(value)]])
        drawn = run([picture], good)
        same(f"picture of a report, class {letter}, edition {edition}", drawn[1:], (b"", 0))
        same("picture, its class", drawn[0].count(f"against class {letter};".encode()), 1)
        same("picture, its edition", drawn[0].count(b"2.0 A1"), int(edition))
        if edition == "0":
            same("report without an edition", run([report, letter, SCALE], whole)[0].decode(), good)
    good = run([report, CLASS, SCALE], whole)[0].decode()
    others = ["", "\n", "refused 13\n", listing, good[:-1], good + "\n", good + good, good.replace("within", "Within", 1)]
    others += ["\xff", good.replace("limit", "limit\xff", 1), good.replace(".", "9" * 400 + ".", 1), good.replace(SCALE, "9" * 400, 1)]
    others += [good.replace("class ", "", 1), good.replace(" A\n", " C\n", 1), good.replace(" A\n", " AB\n", 1)]
    others += [re.sub("edition .*\n", wrong, good) for wrong in ("", "edition 3\n", "edition 2.0 A2\n", "edition\n", "Edition 2\n")]
    others += [good.replace("margin, units", "margin", 1), good.replace("limit", "Limit", 1), good.replace("\n    7 ", "\n    8 ", 1)]
    others += [good.replace(" 460/3 ", wrong, 1) for wrong in (" 460/0 ", " 0/3 ", " 460/ ", " 460.3 ", " 460/3/1 ")]
    for text in others:
        out, said, status = run([picture], text)
        same(f"picture of {text[:40]!r}", (out, said.count(b"\n"), status), (b"", 1, 1))
    done = subprocess.run([picture], stdin=folder, capture_output=True, check=False)  # Python itself refuses it
    same("picture of a folder", (done.stdout, done.returncode), (b"", 1))
    same("picture with an argument", run([picture, "report.txt"], good), (b"", b"usage: picture.py < REPORT > PICTURE\n", 2))
    with open("/dev/full", "wb") as full, tempfile.TemporaryFile() as report_file:
        report_file.write(good.encode())
        for fault, options in [
            ("input: Bad file descriptor", {"preexec_fn": lambda: os.close(0)}),
            ("output: No space left on device", {"stdout": full}),
            ("output: Bad file descriptor", {"preexec_fn": lambda: os.close(1)}),
        ]:
            report_file.seek(0)
            options = {"stdin": report_file, "stdout": subprocess.PIPE} | options
            done = subprocess.run([picture], stderr=subprocess.PIPE, check=False, **options)
            same(f"picture, {fault}", (done.stdout or b"", done.stderr, done.returncode), (b"", f"picture.py: standard {fault}\n".encode(), 1))
    print(f"{len(FAULTY)} faulty recordings: the report and harmlist alike; {len(others)} texts that are no report: not drawn")


if __name__ == "__main__":
    main()
