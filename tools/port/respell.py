#!/usr/bin/env python3
"""Brings the repository's own definitions and lemmas to today's spelling, once, after the toolchain's port.py.

usage: python3 tools/port/respell.py     at the top of a checkout in which port.py has run, and nothing else

port.py turns the language, the library's names and some of our own. This turns the rest of ours: what specs/ and proofs/ declare in camel case or
with a dash is written in snake case. A dash stays where it joins two names, as in length-number_bytes. Types and modules are in camel case already.
Functions of src/, exported names, strings, inputs and outputs keep theirs. The must-fail edits, which port.py leaves alone, follow: ported.json
beside this file lists what port.py renamed, name by name, as read off its own run.
Where two names would fall together in some file, the lemma gets _lem behind its name.
"""

import collections
import glob
import json
import os
import re
import sys

WORD = r"[^\s(){}.;,@\"«»\[\]\\|`:]+"
TOKEN = re.compile(r"\"(?:[^\"\\]|\\.)*\"|" + WORD)
DECLARED = re.compile(r"\s*((?:abbrev|unfoldable|pub|ruleset)\s+)*(" + WORD + r")\s+:(?:\s|$)|\s*(?:pub\s+)?(?:record|data)\s+(" + WORD + ")")
IMPORT = re.compile(r"\s*(?:pub |ghost )*use ([^\s{;]+?)(?:\.\{(.*)\})?(?: as \S+)?;?\s*$")
# What Rattle makes, or a word of the language.
KEPT = {"type-inv"}
# Both would be named alike: the lemma gives way.
LEMMA = "_lem"
# A definition and a field of that name, which nothing confuses.
FIELDS = {"key_row", "packet_row"}
LISTS = {"length", "take", "drop", "map", "append"}


def read(path):
    with open(path, encoding="utf-8", newline="") as f:
        return f.read()


def write(path, text):
    with open(path, "w", encoding="utf-8", newline="") as f:
        f.write(text)


def snake(part):
    part = re.sub(r"([a-z0-9])([A-Z])", r"\1_\2", part)
    part = re.sub(r"([A-Z])([A-Z][a-z])", r"\1_\2", part)
    return part.lower() if part[:1].islower() else part


def is_type(name):
    return name[:1].isupper() and "-" not in name


def names_of_others(paths):
    """What files bring in from the library: names, and those of its functions."""
    out = set()
    for path in paths:
        for line in read(path).split("\n"):
            m = IMPORT.match(line)
            if m and m.group(2) and not re.match(r"Rattle\.(?!std\b)", m.group(1)):
                out |= {it.split(" as ")[0].strip() for it in m.group(2).split(",")}
    return out


def declared(paths):
    out = collections.defaultdict(set)
    for path in paths:
        for line in read(path).split("\n"):
            m = DECLARED.match(line)
            if m and not line.lstrip().startswith(("--", "use ", "pub use ")):
                out[m.group(2) or m.group(3)].add(path)
    return out


def respelled(name, library, functions):
    """A dash stays behind a word on lists, before a name that is known, and is an underscore elsewhere."""
    parts = [snake(it) for it in name.split("-")]
    out = parts[0]
    for left, right in zip(parts, parts[1:]):
        out += ("-" if left in LISTS and (right in library or right in functions) else "_") + right
    return out


def table(specs, proofs):
    library = names_of_others(specs + proofs + glob.glob("crates/*/src/*.rt"))
    own = declared(specs + proofs)
    in_specs = set(declared(specs))
    functions = {snake(it) for it in in_specs if not is_type(it) and "-" not in it}
    turned, taken = {}, collections.defaultdict(set)
    for it in list(own) + sorted(library):
        taken[it].add(it)
    # where each word stands
    files = collections.defaultdict(set)
    for path in glob.glob("crates/*/*/**/*.antt", recursive=True) + glob.glob("crates/*/src/*.rt"):
        for it in set(TOKEN.findall(read(path))):
            files[it].add(path)
    for name in sorted(own, key=lambda it: (it not in in_specs, it)):
        if name in library or name in KEPT or is_type(name) or not re.search(r"-|[a-z0-9][A-Z]", name) or not re.match(r"[A-Za-z]", name):
            continue
        new = respelled(name, library, functions)
        if new == name:
            continue
        if new not in FIELDS and any(files[name] & files[it] for it in taken[new]):
            # the definition has the plain name, and the lemma gives way
            gives_way = new if new in own and new not in in_specs and (name in in_specs or "-" not in name) else name
            if name != gives_way or taken[new] != {new}:
                lemmas = [it for it in taken[new] if "-" in it and it not in in_specs] if name in in_specs or "-" not in name else []
                gives_way = lemmas[0] if lemmas else gives_way
            print(f"respell: some file has {name} and {', '.join(sorted(taken[new]))}, both {new}: {gives_way} is {new}{LEMMA}")
            if taken[new + LEMMA]:
                sys.exit(f"respell: {new}{LEMMA} is taken too")
            taken[new + LEMMA].add(gives_way)
            if gives_way == name:
                turned[name] = new + LEMMA
                continue
            turned[gives_way] = new + LEMMA
        turned[name] = new
        taken[new].add(name)
    return turned


def turn(text, names):
    return TOKEN.sub(lambda m: m.group() if m.group().startswith('"') else names.get(m.group(), m.group()), text)


def turn_ticks(text, names):
    return re.sub(r"`[^`\n]+`", lambda m: turn(m.group(), names), text)


def tight(text):
    """A projection is written tight: f (x .a) .b becomes f x.a.b."""
    while True:
        new = re.sub(r"(?<![\w)'₀])\(([\w'₀.-]+(?: \.[\w'-]+)+)\)", lambda m: m.group(1).replace(" .", "."), text)
        new = re.sub(r"([\w'₀)]) (\.[A-Za-z_0-9][\w'-]*)", r"\1\2", new)
        if new == text:
            return text
        text = new


def main():
    specs = sorted(glob.glob("crates/*/specs/*.antt"))
    proofs = sorted(glob.glob("crates/*/proofs/*.antt"))
    names = table(specs, proofs)
    for path in sorted(glob.glob("crates/*/*/**/*.antt", recursive=True) + glob.glob("crates/*/src/*.rt")):
        if "/out/" not in path:
            text = read(path)
            new = turn(text, names)
            if new != text:
                write(path, new)
    here = os.path.dirname(os.path.abspath(__file__))
    ported = json.loads(read(os.path.join(here, "ported.json")))
    both = {old: names.get(new, new) for old, new in ported.items()}
    for path in sorted(glob.glob("crates/*/must-fail/*.edit")):
        lines = []
        for line in read(path).split("\n"):
            m = re.match(r"(old:|new:)(.*)$", line)
            lines.append(m.group(1) + turn(turn(tight(m.group(2)), both), names) if m else line)
        write(path, "\n".join(lines))
    for path in ["README.md"] + sorted(glob.glob("docs/*.md")):
        write(path, turn_ticks(turn_ticks(read(path), both), names))
    with open(os.path.join(here, "respelled.tsv"), "w", encoding="utf-8") as f:
        f.writelines(f"{old}\t{new}\n" for old, new in sorted(names.items()))
    print(f"respell: {len(names)} names")


if __name__ == "__main__":
    main()
