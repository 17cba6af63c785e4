#!/usr/bin/env python3
"""Runs lvs_cases and lvs_check on the run cases and compares every line with what the format says.

tests/cases/NAME.py builds cases of the driver, each with the line that it must get, by reasoning from the format and not by running
anything. Their bytes and lines are stored beside it, NAME.in and NAME.out, for other checkers to be compared with: `--store` writes
them anew, and a plain run refuses them where they differ. checker.py has whole runs of lvs_check, driver.py of lvs_cases.

usage: run_cases.py [--store] [FOLDER-OF-THE-PROGRAMS]
"""
import importlib
import pathlib
import subprocess
import sys
import tempfile
import time

ROOT = pathlib.Path(__file__).resolve().parent.parent
CASES = ROOT / "tests/cases"
TABLES = (
    "bench", "limits", "refusals", "gaps", "places", "document_003", "walks", "writing", "certificates", "temporary", "components", "paths",
    "origins", "trees",
)  # fmt: skip
sys.path[:0] = [str(CASES), str(ROOT / "tools")]
sys.dont_write_bytecode = True
import crates  # noqa: E402


def table(name):
    return list(importlib.import_module(name).cases())


def stored_files(name, cases):
    """The contents of NAME.in and NAME.out."""
    given = b"".join(case for _, case, _ in cases)
    lines = "".join(line + "\n" for _, _, line in cases)
    return {CASES / f"{name}.in": given, CASES / f"{name}.out": lines.encode()}


def store():
    for name in TABLES:
        for file, contents in stored_files(name, table(name)).items():
            file.write_bytes(contents)


def run(program, given, folder):
    ran = subprocess.run([program], input=given, stdout=subprocess.PIPE, cwd=folder, timeout=300)
    if ran.returncode != 0:
        return f"status {ran.returncode}"
    return ran.stdout.decode()


def run_in_pieces(program, given, folder):
    """The same with an input that comes a few bytes at a time, so that reads answer less than they ask for."""
    with subprocess.Popen([program], stdin=subprocess.PIPE, stdout=subprocess.PIPE, cwd=folder) as running:
        for i in range(0, len(given), 5):
            running.stdin.write(given[i : i + 5])
            running.stdin.flush()
            time.sleep(0.001)
        return running.communicate(timeout=60)[0].decode()


def short(text):
    return text if len(text) < 200 else f"{text[:150]} .. {text[-40:]}"


def check_table(name, program):
    """One run on all cases of a table. Answers how many lines are wrong."""
    cases = table(name)
    wrong = 0
    for file, contents in stored_files(name, cases).items():
        if not file.exists() or file.read_bytes() != contents:
            print(f"{file.name} is not what {name}.py makes (run_cases.py --store)")
            wrong += 1
    lines = run(program, (CASES / f"{name}.in").read_bytes(), CASES).split("\n")[:-1]
    if len(lines) != len(cases):
        print(f"{name}: {len(cases)} cases and {len(lines)} lines")
        wrong += 1
    for (what, _, expected), line in zip(cases, lines):
        if line != expected:
            print(f"{name}, {what}: {short(line)!r}, not {short(expected)!r}")
            wrong += 1
    print(f"{name}: {len(cases)} cases, {wrong} wrong")
    return wrong


def check_runs(name, runs):
    count = wrong = 0
    for what, written, expected in runs:
        count += 1
        if written != expected:
            print(f"{name}, {what}: {short(written)!r}, not {short(expected)!r}")
            wrong += 1
    print(f"{name}: {count} runs, {wrong} wrong")
    return wrong if count else 1


def driver_runs(program):
    driver = importlib.import_module("driver")
    for what, given, expected in driver.runs():
        yield what, run(program, given, CASES), expected
    letters = "GOOD", "WORDS", "WRITE", "DESCRIBE", "SUGGEST", "COMPARE", "SIGN", "FOLLOW"
    given = b"".join(getattr(driver, each) for each in letters)
    expected = "".join(getattr(driver, "LINE" if each == "GOOD" else f"{each}_LINE") for each in letters)
    yield "in pieces", run_in_pieces(program, given, CASES), expected


def checker_runs(program):
    """Each run in a folder with its model.lvs alone."""
    for what, model, given, expected in importlib.import_module("checker").runs():
        with tempfile.TemporaryDirectory() as folder:
            if model is not None:
                (pathlib.Path(folder) / "model.lvs").write_bytes(model)
            yield what, run(program, given, folder), expected
    crate = ROOT / "crates/lvs_check"
    yield "in pieces", run_in_pieces(program, (crate / "stdin").read_bytes(), crate / "data"), (crate / "stdout").read_text()


def example_is_document_01s():
    """What rt itself runs lvs_check on is the first of checker.py's answers."""
    _, model, given, expected = next(importlib.import_module("checker").answers())
    crate = ROOT / "crates/lvs_check"
    parts = (crate / "data/model.lvs", model), (crate / "stdin", given), (crate / "stdout", expected.encode())
    different = [file.name for file, contents in parts if file.read_bytes() != contents]
    if different:
        print(f"crates/lvs_check: not the format's example: {', '.join(different)}")
    return len(different)


def check_uris():
    """tools/name.py, and the example that is made with it: the LVS tutorial's."""
    uris, tutorial = importlib.import_module("uris"), importlib.import_module("document_003")
    name = importlib.import_module("name")  # tools/name.py, which build.py brings
    wrong = [uri for uri, data in uris.NAMES if name.name(uri) != bytes.fromhex(data)]
    for uri in uris.NO_NAMES:
        try:
            name.name(uri)
            wrong.append(uri)
        except ValueError:
            pass
    if list(name.pairs((ROOT / "example/requests.txt").open())) != [[packet, key] for packet, key, _ in tutorial.TUTORIAL_CHECKS]:
        wrong.append("example/requests.txt")
    if (ROOT / "example/model.lvs").read_bytes() != tutorial.TUTORIAL:
        wrong.append("example/model.lvs")
    for uri in wrong:
        print(f"uris, {uri!r}")
    print(f"uris: {len(uris.NAMES) + len(uris.NO_NAMES)} URIs, {len(wrong)} wrong")
    return len(wrong)


def main():
    words = sys.argv[1:]
    if words[:1] == ["--store"]:
        store()
        words = words[1:]
    driver, checker = (pathlib.Path(words[0]).resolve() / name if words else crates.program(name) for name in ("lvs_cases", "lvs_check"))
    wrong = sum(check_table(name, driver) for name in TABLES)
    wrong += check_runs("driver", driver_runs(driver))
    wrong += check_runs("checker", checker_runs(checker))
    wrong += example_is_document_01s()
    wrong += check_uris()
    return 1 if wrong else 0


if __name__ == "__main__":
    sys.exit(main())
