#!/usr/bin/env python3
"""Runs the program elements on stored inputs and compares what it writes with stored outputs.

tests/elements/NAME.hex has one input to a line: bytes in hexadecimal, 61*253 for 253 bytes 61, and - for no bytes.
Empty lines and lines that begin with # are passed over. NAME.out has what the program writes for each, in turn.
tests/models/NAME.lvs is an input as it stands, and NAME.elements is what the program writes for it.
"""
import pathlib
import re
import subprocess
import sys

ROOT = pathlib.Path(__file__).resolve().parent.parent
sys.path.insert(0, str(ROOT / "tools"))
sys.dont_write_bytecode = True
import crates  # noqa: E402

PROGRAM = crates.program("elements")


def lines_of(path):
    """The lines of a .hex file that hold bytes, with their numbers."""
    lines = path.read_text().splitlines()
    return [(n, line) for n, line in enumerate(lines, 1) if line.strip() and not line.startswith("#")]


def bytes_of(line):
    if line.strip() == "-":
        return b""
    words = (word.partition("*") for word in line.split())
    return b"".join(bytes.fromhex(digits) * int(times or 1) for digits, _, times in words)


def outputs_of(path):
    """What the program writes for each input: every output ends with one of three last lines."""
    text = path.read_text()
    outputs = re.findall(r"(?:\d.*\n)*(?:end|malformed|longer).*\n", text)
    if "".join(outputs) != text:
        sys.exit(f"{path.name}: not outputs of the program")
    return outputs


def cases():
    for path in sorted(ROOT.glob("tests/elements/*.hex")):
        lines, outputs = lines_of(path), outputs_of(path.with_suffix(".out"))
        if len(lines) != len(outputs):
            sys.exit(f"{path.name}: {len(lines)} inputs and {len(outputs)} outputs")
        for (n, line), output in zip(lines, outputs):
            yield f"{path.name} line {n}", bytes_of(line), output
    for path in sorted(ROOT.glob("tests/models/*.lvs")):
        yield path.name, path.read_bytes(), path.with_suffix(".elements").read_text()


def main():
    count = wrong = 0
    for name, data, expected in cases():
        ran = subprocess.run([PROGRAM], input=data, stdout=subprocess.PIPE, timeout=60)
        written = ran.stdout.decode()
        count += 1
        if ran.returncode != 0 or written != expected:
            wrong += 1
            print(f"{name}: status {ran.returncode}, wrote {written!r}, not {expected!r}")
    # what rt itself runs the program on is binary; stdin.hex says what it is made of
    crate = ROOT / "crates/elements"
    if b"".join(bytes_of(line) for _, line in lines_of(crate / "stdin.hex")) != (crate / "stdin").read_bytes():
        wrong += 1
        print("crates/elements/stdin is not what stdin.hex says")
    print(f"elements: {count} inputs, {wrong} wrong")
    return 1 if wrong or not count else 0


if __name__ == "__main__":
    sys.exit(main())
