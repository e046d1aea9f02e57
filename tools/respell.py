#!/usr/bin/env python3
"""Brings the repository's own names in specifications and proofs to Rattle's spelling: words in snake case, types and
modules in upper camel case, a dash between two names. Run once, at the top, after the toolchain's port.py.

usage: tools/respell.py          rewrites crates/*/{specs,proofs,src,must-fail}, and the pages that cite the names
       tools/respell.py --check  prints names that would fall together, and writes nothing
"""

import pathlib
import re
import sys

ROOT = pathlib.Path(__file__).resolve().parent.parent
# a word in lower camel case
CAMEL = re.compile(r"(?<![A-Za-z0-9_])[a-z][a-z0-9]*(?:[A-Z][a-z0-9]*)+(?![A-Za-z_])")
# names of lemmas that say a library's word in its older spelling
OLDER = [(re.compile(p), n) for p, n in [(r"\bget_d_", "get_or-"), (r"(?<![A-Za-z_])getD(?![A-Za-z])", "get_or")]]
PAGES = ["README.md", "docs/**/*.md", "include/kifsang.h", "bindings/rust/src/*.rs", "tests/**/*.rs", "bench/README.md"]
DECLARED = re.compile(r"(?:(?:pub|abbrev|unfoldable|record|data|private|infix[lr]?|\d+) +)*([^\s:(){}]+) +:(?: |$)")


def snake(word):
    """`fooBarA1` as `foo_bar_a1`."""
    return re.sub(r"([A-Z])", r"_\1", word).lower()


def turned(text):
    text = CAMEL.sub(lambda m: snake(m[0]), text)
    for pattern, new in OLDER:
        text = pattern.sub(new, text)
    return text


def sources():
    for kind in ("specs/**/*.antt", "proofs/**/*.antt", "src/**/*.rt", "must-fail/*.edit"):
        yield from sorted(p for p in ROOT.glob("crates/*/" + kind))


def declared():
    names = set()
    for path in ROOT.glob("crates/*/*/**/*.antt"):
        for line in path.read_text().splitlines():
            if found := DECLARED.match(line.strip()):
                names.update(CAMEL.findall(found[1]))
    return names


def tokens(text):
    return set(re.findall(r"[A-Za-z_][A-Za-z0-9_]*", text))


def clashes():
    """Two spellings of one file that would become one; and a name of a clause that its function has as a parameter."""
    for path in sources():
        text = path.read_text()
        words = tokens(text)
        for word in sorted(w for w in words if CAMEL.fullmatch(w)):
            if snake(word) in words:
                yield f"{path.relative_to(ROOT)}: {word} and {snake(word)}"


def main():
    if "--check" in sys.argv:
        print("\n".join(clashes()))
        return
    own = declared()
    for path in sources():
        path.write_text(turned(path.read_text()))
    for pattern in PAGES:
        for path in ROOT.glob(pattern):
            text = path.read_text()
            path.write_text(CAMEL.sub(lambda m: snake(m[0]) if m[0] in own else m[0], text))


if __name__ == "__main__":
    main()
