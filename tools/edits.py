#!/usr/bin/env python3
"""Must-fail edits that no longer fit the files that they change. `rt ci` finds such an edit too, but only after many minutes.

usage: edits.py

Applies each crates/NAME/must-fail/*.edit in memory, as `rt must-fail` does: a `file:` line holds for the `old:` and `new:` pairs after it, and
an `old:` text has to be in its file exactly once. Prints each edit that does not fit with what is wrong, and fails if there are any.
"""
import pathlib
import sys

ROOT = pathlib.Path(__file__).resolve().parent.parent


def misfit(edit):
    """What is wrong with an edit; None where it fits."""
    crate, texts, path, old = edit.parent.parent, {}, None, None
    for line in edit.read_text(encoding="utf-8").splitlines():
        if line.startswith("file: "):
            path = crate / line.removeprefix("file: ")
            if not path.is_file():
                return f"there is no {path.relative_to(crate)}"
            texts.setdefault(path, path.read_text(encoding="utf-8"))
        elif line.startswith("old: "):
            old = line.removeprefix("old: ")
        elif line.startswith("new:"):
            if path is None or not old:
                return "a 'new:' line without its 'file:' and 'old:'"
            if (times := texts[path].count(old)) != 1:
                return f"{times} times in {path.relative_to(crate)}: {old.strip()}"
            texts[path], old = texts[path].replace(old, line.removeprefix("new:").removeprefix(" ")), None
    changed = any(text != file.read_text(encoding="utf-8") for file, text in texts.items())
    return None if changed else "it changes nothing"


def main():
    edits = sorted((ROOT / "crates").glob("*/must-fail/*.edit"))
    found = [f"{edit.relative_to(ROOT)}: {wrong}" for edit in edits if (wrong := misfit(edit))]
    print("\n".join([*found, f"{len(found)} of {len(edits)} must-fail edits do not fit"]))
    return bool(found) or not edits


if __name__ == "__main__":
    sys.exit(main())
