"""The files of the crates, and the programs that rt makes of them.

usage: crates.py PROGRAM     status 0 where the program of a crate is there and no older than any source

rt works in crates/NAME/out/, where it also keeps copies of sources: those are no files of the repository.
"""
import pathlib
import sys

ROOT = pathlib.Path(__file__).resolve().parent.parent


def sources(root=ROOT):
    """The .rt and .antt files under crates/, in order."""
    found = sorted(path for path in root.glob("crates/**/*") if path.suffix in (".rt", ".antt") and path.is_file())
    return [path for path in found if path.relative_to(root).parts[2] != "out"]


def program(name):
    """Where `rt ci` and `rt run` leave a program, as LLVM builds it."""
    return ROOT / "crates" / name / "out" / name


def is_built(name):
    try:
        made = program(name).stat().st_mtime
    except OSError:
        return False
    return all(path.lstat().st_mtime <= made for path in [ROOT / "crates.txt", *sources()])


def main():
    if len(sys.argv) != 2:
        sys.exit(__doc__)
    return 0 if is_built(sys.argv[1]) else 1


if __name__ == "__main__":
    sys.exit(main())
