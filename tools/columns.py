#!/usr/bin/env python3
"""Lines of 160 columns or more in the crates' .antt and .rt files, which `rt fmt` leaves where it finds no place to break.

usage: columns.py

Prints each as FILE:LINE: COLUMNS, and fails if there are any.
"""
import sys

from crates import ROOT, sources

LIMIT = 160


def long_lines(path):
    lines = path.read_text(encoding="utf-8").split("\n")
    return [f"{path.relative_to(ROOT)}:{at}: {len(line)}" for at, line in enumerate(lines, 1) if len(line) >= LIMIT]


def main():
    files = sources()
    found = [line for path in files for line in long_lines(path)]
    print("\n".join([*found, f"{len(found)} lines of {LIMIT} columns or more in {len(files)} files"]))
    return bool(found) or not files


if __name__ == "__main__":
    sys.exit(main())
