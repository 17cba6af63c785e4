#!/usr/bin/env python3
"""Unused imports in the crates' .antt and .rt files.

usage: unused.py [--remove]

Works on the text: a name counts as used where it occurs as a word outside of `use` lines and comments; an operator where all its parts
do (`◌then◌`, whose ◌ are its arguments). Prints each file with its unused imports, and fails if there are any; --remove takes them out.
"""
import re
import sys

from crates import ROOT, sources

LISTED = re.compile(r"(?P<head>(?:ghost )?use \S+\.\{)(?P<names>.*)(?P<tail>\};?)$")
MODULE = re.compile(r"(?:ghost )?use \S+ as (?P<name>[^\s;}]+);?$")
ITEM = re.compile(r"use (?:\w+::)+(?P<name>\w+);$")
COMMENT = {".antt": "--", ".rt": "//"}
WORD = r"(?<![\w·-]){}(?![\w·-])"


def said(name, text):
    parts = [part for part in name.split("◌") if part]
    return all(re.search(WORD.format(re.escape(part)) if part[0].isalnum() or part[0] in "·" else re.escape(part), text) for part in parts)


def pruned(line, text):
    """The line without its unused imports, or None where none is left; and those imports."""
    if match := LISTED.match(line):
        names = [name.strip() for name in match["names"].split(",")]
        used = [name for name in names if said(name.split(" as ")[-1], text)]
        rest = match["head"] + ", ".join(used) + match["tail"] if used else None
        return rest, [name for name in names if name not in used]
    if match := MODULE.match(line) or ITEM.match(line):
        return (line, []) if said(match["name"], text) else (None, [match["name"]])
    return line, []


def prune(path, remove):
    """How many unused imports a file has."""
    lines = path.read_text(encoding="utf-8").split("\n")
    mark = COMMENT[path.suffix]
    text = "\n".join(line.split(mark)[0] for line in lines if not re.match(r"(ghost )?use ", line))
    kept, count = [], 0
    for line in lines:
        rest, unused = pruned(line, text)
        count += len(unused)
        if unused and not remove:
            print(f"{path.relative_to(ROOT)}: {', '.join(unused)}")
        if rest is not None:
            kept.append(rest)
    if remove and count:
        path.write_text("\n".join(kept), encoding="utf-8")
    return count


def main():
    remove = sys.argv[1:] == ["--remove"]
    if sys.argv[1:] and not remove:
        sys.exit(__doc__)
    count = sum(prune(path, remove) for path in sources())
    print(f"{count} unused imports{' removed' if remove and count else ''}")
    sys.exit(1 if count and not remove else 0)


if __name__ == "__main__":
    main()
