#!/usr/bin/env python3
"""Names that docs/definitions.md gives to definitions, functions and theorems, and that no crate has.

usage: names.py

A name is what stands between backticks: words of letters, digits, `_`, `-` and `·`, alone, behind `crate::module::` or in a list. Each has to
be a word of some .rt or .antt file, or a file or folder of the repository. The status is 1 where one is not.
"""
import re
import sys

from crates import ROOT, sources

DOCUMENT = ROOT / "docs/definitions.md"
WORD = re.compile(r"[A-Za-z][\w·-]*[\w]")


def names():
    """(line, name) of each name in the document."""
    for number, line in enumerate(DOCUMENT.read_text(encoding="utf-8").splitlines(), 1):
        for quoted in re.findall(r"`([^`]+)`", line):
            if not (ROOT / quoted).exists():
                yield from ((number, name) for name in WORD.findall(re.sub(r"\b[\w/.]+/[\w/.]*", " ", quoted)))


def main():
    known = {word for path in sources() for word in WORD.findall(path.read_text(encoding="utf-8"))}
    given = list(names())
    unknown = [(number, name) for number, name in given if name not in known]
    for number, name in unknown:
        print(f"{DOCUMENT.relative_to(ROOT)}:{number}: no crate has {name}")
    print(f"{len(unknown)} of {len(given)} names in {DOCUMENT.relative_to(ROOT)} that no crate has")
    return bool(unknown) or not given


if __name__ == "__main__":
    sys.exit(main())
