#!/usr/bin/env python3
"""tools/axioms.py finds what it is there for, and nothing else: small repositories, each with what has to be found in it."""
import pathlib
import subprocess
import sys
import tempfile

ROOT = pathlib.Path(__file__).resolve().parent.parent
CRATES = "low:\nhigh: low\nprogram: high io  # prints\n"
SPEC = "crates/high/specs/Lib.antt"
CODE = "crates/high/src/lib.rt"
LOG = "log"  # what rt ci printed

# A file of the repository, its text, and how many lines are found.
CASES = [
    (SPEC, "axiom absurd : ⊥\n", 1),
    (SPEC, "axiom pub absurd : ⊥\n", 1),
    (SPEC, "axiom\n  pub\n  absurd : ⊥\n", 1),
    (SPEC, "module _ (n : ℕ) where\n  axiom absurd : ⊥\n", 1),
    (SPEC, "{- -- -}\naxiom absurd : ⊥\n", 1),
    (SPEC, "{- -- -} axiom absurd : ⊥\n", 1),
    (SPEC, "{-\n-}\naxiom absurd : ⊥\n", 1),
    (SPEC, 't = "{-"\naxiom absurd : ⊥\n-- -}\n', 1),
    (SPEC, "a--b = 0\na--b : ℕ axiom\n", 1),
    (SPEC, "use Prim.Axiom.{lem}\n", 1),
    (SPEC, "use Prim.Axiom as A\n", 1),
    (SPEC, "use Prim.Axiom\nd = Axiom.ac\n", 2),
    (SPEC, "d P p = package.Prim.Axiom.lem P p\n", 1),
    (SPEC, "d P p = Prim.Axiom.resize P p\n", 1),
    (CODE, "fn f()\n    ensures { λ r. ⌜ Prim.Axiom.LEM ⌝ }\n", 1),
    (CODE, "fn f(c: u8) { if c == b'\"' { axiom } }\n", 1),
    (SPEC, "-- no axiom\n--axiom\n{- axiom\naxiom -}\n", 0),
    (SPEC, 't = "axiom"\naxiom-free = 0\n«axiom» = 0\n', 0),
    (CODE, "// no axiom\n/* axiom\naxiom */\n", 0),
    ("crates.txt", CRATES, 0),
    ("crates.txt", CRATES.replace("high: low", "high: low libc"), 1),
    ("crates.txt", CRATES.replace("low:", "low : io"), 2),
    ("crates.txt", CRATES.replace("low:\n", "low: os  # reads a file\n"), 2),
    ("crates.txt", CRATES.replace("low:", "low: std bytes  # not libc"), 0),
    ("crates.txt", CRATES.replace("high: low", "high: low mio"), 1),
    ("crates.txt", CRATES.replace("high: low", "high: low no_such_crate"), 1),
    (CODE, "use std::fs;\n", 1),
    (CODE, "use std::{fs, io};\n", 1),
    (CODE, "fn f() {\n    std :: process::id();\n}\n", 1),
    (CODE, "pub fn f(rt: &HostRuntime) {}\n", 1),
    (CODE, "use low::std_name;\nghost use Rattle.std.specs.Prelude.{◌≡◌};\n// std::fs, HostRuntime\n", 0),
    ("crates/high/out/rlib/high.rlib/lang/src/lib.rt", "use std::fs;\naxiom\n", 0),
    ("crates/program/src/main.rt", "use std::fs;\nfn main(rt: HostRuntime) {}\n", 0),
    (LOG, "== high\nstatements libc: modules loaded=0 checked=0\nlogic=proved functions=1 sum=1\n", 0),
    (LOG, "== high\nstatements io: modules loaded=2 checked=0\nstatements libc: modules loaded=10 checked=0\n", 1),
    (LOG, "== high\nstatements os: modules loaded=1 checked=0\nlogic=proved functions=1 axioms=2 sum=1\n", 2),
    (LOG, "== high\nrt: the check was killed, once more\nstatements os: modules loaded=1 checked=0\n", 1),
    (LOG, "== high\naxioms libc: libc::read (1 of the 128 declared)\n", 1),
    (LOG, "== program\nstatements libc: modules loaded=9 checked=0\nlogic=proved functions=1 axioms=2 sum=1\n", 0),
    (LOG, "== high: its tests\nstatements libc: modules loaded=9 checked=0\nlogic=proved tests=1 functions=1 axioms=2 sum=1\n", 0),
]


def found(file, text):
    """The lines that the tool prints of a repository with this file."""
    with tempfile.TemporaryDirectory() as folder:
        files = {"crates.txt": CRATES, "crates/low/src/lib.rt": "", CODE: "", "crates/program/src/main.rt": "", LOG: "", file: text}
        for name, contents in files.items():
            path = pathlib.Path(folder) / name
            path.parent.mkdir(parents=True, exist_ok=True)
            path.write_text(contents, encoding="utf-8")
        ran = subprocess.run([sys.executable, ROOT / "tools/axioms.py", folder, f"{folder}/{LOG}"], stdout=subprocess.PIPE, encoding="utf-8")
    lines = ran.stdout.splitlines()
    return lines if ran.returncode == (1 if lines else 0) else [f"status {ran.returncode}"] * 9


def main():
    wrong = 0
    for file, text, count in CASES:
        lines = found(file, text)
        if len(lines) != count:
            print(f"{file} {text!r}: {lines}, not {count} lines")
            wrong += 1
    print(f"axioms: {len(CASES)} cases, {wrong} wrong")
    return 1 if wrong else 0


if __name__ == "__main__":
    sys.exit(main())
