#!/usr/bin/env python3
"""Says where a repository could rest on something unproved, and fails if it does.

usage: axioms.py [FOLDER [LOG]]

- A library (src/lib.rt) that depends, directly or not, on one of the toolchain's crates over C functions: their contracts are assumed, and
  the library's own verdict does not say so. It is read off crates.txt, and for the toolchain's other crates off their own lists.
- A library whose code names a part of std, which is over C functions too and stands in no list, or the runtime or the allocator that is.
- With LOG, what `rt ci` printed: a library whose proof has loaded what is stated of C functions, or whose verdict counts axioms. Of a crate
  whose proof was kept from an earlier run it prints neither; the other tests do not depend on that.
- The word `axiom`, or a name of the module `Prim.Axiom`, in any .antt or .rt file under crates/, outside comments and quoted texts. rt
  refuses an axiom that is declared or used; this also finds one that is only brought in.
"""
import pathlib
import re
import shutil
import sys

import crates

TOOLCHAIN = "/opt/rattle/bin/rt"
OVER_C = {"libc", "io", "os"}
# The modules of std that libraries may name: those that reach no C function. No library needs one yet.
PURE = set()
NAMED_STD = re.compile(r"(?<![\w.])std\s*::\s*(\w*)")
RUNTIME = {"HostRuntime", "LibcRuntime", "Global", "AllocGlobal"}
LOADED = re.compile(r"statements (?:libc|os): modules loaded=(?!0\b)|axioms |logic=.* axioms=")
# A comment ends at the first mark that could end it, and one line's quote does not reach into the next: what is in doubt is looked at.
PASSED_OVER = {
    ".antt": re.compile(r'"(?:\\.|[^"\\\n])*"|(?:^|(?<=\s))--[^\n]*|\{-.*?-\}', re.DOTALL | re.MULTILINE),
    ".rt": re.compile(r'"(?:\\.|[^"\\\n])*"|\'(?:\\.|[^\'\\\n])\'|//[^\n]*|/\*.*?\*/', re.DOTALL),
}
WORDS = re.compile(r"[^\s.(){}\[\];,]+")


def dependencies(text):
    """What each crate of a crates.txt depends on."""
    lines = (line.partition("#")[0].partition(":") for line in text.splitlines())
    return {name.strip(): words.split() for name, colon, words in lines if colon}


def of_the_kit(crate):
    """What a crate of the toolchain depends on. Below std is all that it has over C functions: of that, what a library names is looked at."""
    if crate == "std":
        return []
    for rt in filter(None, (shutil.which("rt"), TOOLCHAIN)):
        form = pathlib.Path(rt).resolve().parents[1] / "rlibs" / f"{crate}.rlib" / "format"
        if form.exists():
            return [line.removeprefix("dep ") for line in form.read_text(encoding="utf-8").splitlines() if line.startswith("dep ")]
    return ["libc"]  # a crate of which nothing is known may be over it


def reached(crate, depends):
    """All that a crate depends on."""
    found, left = set(), [crate]
    while left:
        at = left.pop()
        new = set(depends[at] if at in depends else of_the_kit(at)) - found
        found |= new
        left += new
    return found


def libraries_over_c(root):
    depends = dependencies((root / "crates.txt").read_text())
    for crate in sorted(depends):
        over = sorted(reached(crate, depends) & OVER_C)
        if over and is_library(root, crate):
            yield f"crates.txt: the library {crate} depends on {', '.join(over)}"


def is_library(root, crate):
    return (root / "crates" / crate / "src/lib.rt").exists()


def verdicts_over_c(root, log):
    """The lines of what rt ci printed of a library's proof, below `== NAME`, that show C functions."""
    crate = None
    for line in log.splitlines():
        if line.startswith("== "):
            crate = line.removeprefix("== ")
        elif crate and LOADED.match(line) and is_library(root, crate):
            yield f"the verdict on the library {crate}: {line}"


def lines_of(file):
    """(number, line) of a file, without comments and quoted texts."""
    kept = PASSED_OVER[file.suffix].sub(lambda part: " " + "\n" * part[0].count("\n"), file.read_text(encoding="utf-8"))
    return enumerate(kept.split("\n"), 1)


def parts_over_c(root):
    for file in crates.sources(root):
        if file.suffix == ".rt" and is_library(root, file.relative_to(root).parts[1]):
            for number, line in lines_of(file):
                if not set(NAMED_STD.findall(line)) <= PURE or RUNTIME & set(re.findall(r"\w+", line)):
                    yield f"{file.relative_to(root)}:{number}: a library over std: {line.strip()}"


def axioms(root):
    for file in crates.sources(root):
        for number, line in lines_of(file):
            if {"axiom", "Axiom", "«Axiom»"} & set(WORDS.findall(line)):
                yield f"{file.relative_to(root)}:{number}: an axiom: {line.strip()}"


def main():
    root = pathlib.Path(sys.argv[1]) if sys.argv[1:] else crates.ROOT
    log = pathlib.Path(sys.argv[2]).read_text(encoding="utf-8", errors="replace") if sys.argv[2:] else ""
    found = [*libraries_over_c(root), *parts_over_c(root), *axioms(root), *verdicts_over_c(root, log)]
    print("\n".join(found), end="\n" if found else "")
    return 1 if found else 0


if __name__ == "__main__":
    sys.exit(main())
