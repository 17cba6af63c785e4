#!/usr/bin/env python3
"""Compares lvs_cases and lvs_check with the reference checker (reference/, in Rust) on generated cases.

usage: compare.py [CASES [SEED]]
       compare.py --descriptions [CASES [SEED]]
       compare.py --certificates [CASES [SEED]]
       compare.py --components [CASES [SEED]]
       compare.py --damaged [CASES [SEED]]
       compare.py --paths [CASES [SEED]]

CASES cases (default 100,000) in batches of 20,000, one seed each, beginning with SEED (default 1). In each batch
- lvs_cases must print the reference's line for every case, with every lent word after the call;
- lvs_cases must print the reference's line for half as many cases of gen_descriptions, which write (W) and describe (D) models,
  for a quarter as many of gen_certificates, which look for a certificate in a list (C), of gen_components, which compare two
  components (E), and of gen_paths, most of which follow a path (P) and some of which ask for one (S), and for half as many of
  gen_damaged, whose models are damaged, so that most are refused with 2 at some place;
- lvs_check must print the reference's lines for the first signing cases, given the model as its file; it has room for all bindings
  and every path, so the reference is asked again with room enough;
- the cases of gap_cases (optional and critical elements in gaps, other versions) must get their lines.
With --descriptions only cases of gen_descriptions are compared, CASES of them in batches of 10,000, one seed each, and with --damaged
only those of gen_damaged; with --certificates only those of gen_certificates, with --components only those of gen_components, and
with --paths only those of gen_paths, in batches of 5,000.
A difference is printed with its program, seed and index, and e.g. `gen_cases SEED 1 INDEX` writes that case alone.
The last lines say how often each answer came up, with the letter before those that are not of gen_cases, then how many different
places refusal 2 named in each kind of cases, and how many of the allowed pairs have bindings of each origin.
"""
import collections
import itertools
import os
import pathlib
import shutil
import subprocess
import sys
import tempfile

from crates import ROOT, program as made_by_rt

OUR_CASES, OUR_CHECKER = made_by_rt("lvs_cases"), made_by_rt("lvs_check")
REFERENCE = ROOT / "reference/target/release"
BATCH = 20_000
# what follows the cases of gen_cases in a batch: the program gen_NAME and how many of its cases; --NAME compares them alone
MORE = {"descriptions": BATCH // 2, "certificates": BATCH // 4, "components": BATCH // 4, "damaged": BATCH // 2, "paths": BATCH // 4}
RUNS = 100  # of lvs_check, in a batch
LIMIT = 2048  # lvs_check's, for the length of a name
BINDING_WORDS = 3 * 128  # start, length and origin of each Tag
BINDING_ROOM = bytes(4 * BINDING_WORDS)
PATH_ROOM = bytes(2 * 64)  # a word for each component of two names
FIELDS = {b"V": 1, b"M": 3, b"S": 5, b"P": 4, b"W": 3, b"D": 3, b"C": 3, b"E": 2}


def build_reference():
    cargo = shutil.which("cargo") or os.path.expanduser("~/.cargo/bin/cargo")
    subprocess.run([cargo, "build", "--quiet", "--release", "--offline"], cwd=ROOT / "reference", check=True)


def lines_of(program, given, **where):
    """The lines that a program prints, given a file or bytes."""
    if isinstance(given, bytes):
        where["input"] = given
    else:
        where["stdin"] = open(given, "rb")
    return subprocess.run([program], stdout=subprocess.PIPE, check=True, **where).stdout.decode().splitlines()


def differences(ours, expected):
    """(index, our line, the line expected) wherever the two differ."""
    for index, (a, b) in enumerate(itertools.zip_longest(ours, expected)):
        if a != b:
            yield index, a, b


def cases_of(file):
    """(letter, fields) of each case."""
    with open(file, "rb") as given:
        while letter := given.read(1):
            yield letter, [given.read(int.from_bytes(given.read(4), "big")) for _ in range(FIELDS[letter])]


def field(data):
    return len(data).to_bytes(4, "big") + data


def request(name):
    return len(name).to_bytes(2, "big") + name


def checker_lines(verdict, signing, names):
    """What lvs_check prints for one request, by the reference's verdict and its answer to the signing call."""
    word, number, *node = verdict.split()
    if word == "refused":
        return [f"model refused {number} at {node[0]}"]
    answer = "broken" if any(len(name) > LIMIT for name in names) else without_rest(signing)
    return [f"model {number} nodes", f"1 {answer}"]


def without_rest(signing):
    """A signing answer without what lvs_check doesn't print: the lent words, and a refusal's second number."""
    words = signing.split(maxsplit=3)
    return " ".join(words[:3] if words[0] == "allowed" else words[:2])


def with_room(model, packet, key):
    """The reference's verdict, and its answer to the signing call when there is room for all bindings and any path."""
    signing = b"".join(map(field, (model, packet, key, BINDING_ROOM, PATH_ROOM)))
    return lines_of(REFERENCE / "answer_cases", b"V" + field(model) + b"S" + signing)


def compare_checker(file, folder):
    """Runs lvs_check on the first signing cases. Answers how many it ran, and the differences."""
    signing = ((index, fields) for index, (letter, fields) in enumerate(cases_of(file)) if letter == b"S")
    wrong = ran = 0
    for index, (model, packet, key, *_) in itertools.islice(signing, RUNS):
        (folder / "model.lvs").write_bytes(model)
        verdict, answer = with_room(model, packet, key)
        ours = lines_of(OUR_CHECKER, b"\x4d\x4b" + request(packet) + request(key), cwd=folder)
        ran += 1
        if ours != checker_lines(verdict, answer, (packet, key)):
            wrong += 1
            print(f"  lvs_check, case {index}: {ours}, the reference: {verdict}, {without_rest(answer)}")
    return ran, wrong


def kind(line):
    """What a line is counted as."""
    words = line.split(maxsplit=2)
    return " ".join(words[:2]) if words[0] in ("refused", "no", "not") else words[0]


def origins(allowed):
    """The origins of the bindings in the line of an allowed pair."""
    bindings = allowed.split(maxsplit=3 + BINDING_WORDS)[3:3 + BINDING_WORDS]
    return frozenset(bindings[2::3]) - {"0"}


class Tally:
    """How often each answer came up, at which places models were malformed, and which origins allowed pairs have."""

    def __init__(self):
        self.answers = collections.Counter()
        self.places = collections.defaultdict(collections.Counter)
        self.origins = collections.defaultdict(collections.Counter)

    def add(self, program, letter, line):
        self.answers[letter, kind(line)] += 1
        if line.startswith("refused 2 "):
            self.places[program][line.split(maxsplit=3)[2]] += 1
        if line.startswith("allowed "):
            self.origins[program][origins(line)] += 1

    def print(self):
        for letter, answer in sorted(self.answers, key=in_order):
            print(f"{self.answers[letter, answer]:>10} {letter}{answer}")
        for program, places in sorted(self.places.items()):
            print(f"{program}: {places.total()} malformed models, {len(places)} different places")
        for program, pairs in sorted(self.origins.items()):
            of = {origin: sum(number for found, number in pairs.items() if origin in found) for origin in "12"}
            print(f"{program}: {pairs.total()} allowed pairs, {of['1']} with bindings of origin 1, {of['2']} of origin 2, "
                  f"{pairs[frozenset('12')]} of both")


def excerpt(line, other):
    """The part of a line where it begins to differ from another one; with all lent words it is a long one."""
    start = max(0, len(os.path.commonprefix([str(line), str(other)])) - 60)
    return "..." * (start > 0) + str(line)[start:start + 100]


def report(what, seed, ours, expected):
    found = list(differences(ours, expected))
    for index, a, b in found[:5]:
        print(f"  {what}, seed {seed}, case {index}: {excerpt(a, b)}, the reference: {excerpt(b, a)}")
    return len(found)


def generate(file, program, *arguments):
    """Has a program of the reference write cases to a file."""
    with open(file, "wb") as out:
        subprocess.run([REFERENCE / program, *map(str, arguments)], stdout=out, check=True)


def compare_cases(program, seed, count, folder):
    """Compares cases of one program. Answers their file, the reference's lines and the number of differences."""
    cases = folder / program
    generate(cases, program, seed, count)
    expected = lines_of(REFERENCE / "answer_cases", cases)
    return cases, expected, report(program, seed, lines_of(OUR_CASES, cases), expected)


def compare_more(name, seed, count, folder, tally):
    """Compares cases of gen_NAME and counts their answers by letter. Answers how many there were, and the differences."""
    program = "gen_" + name
    cases, expected, wrong = compare_cases(program, seed, count, folder)
    for (letter, _), line in zip(cases_of(cases), expected):
        tally.add(program, letter.decode() + " ", line)
    return len(expected), wrong


def compare_batch(seed, count, folder, tally):
    gaps, lines = folder / "gaps", folder / "lines"
    cases, expected, wrong = compare_cases("gen_cases", seed, count, folder)
    for line in expected:
        tally.add("gen_cases", "", line)
    made = {"cases": len(expected)}
    for name, in_batch in MORE.items():
        made[f"of {name}"], bad = compare_more(name, seed, count * in_batch // BATCH, folder, tally)
        wrong += bad
    made["runs of lvs_check"], bad = compare_checker(cases, folder)
    generate(gaps, "gap_cases", seed, count // 100, lines)
    demanded = lines.read_text().splitlines()
    made["cases of demand 3"] = len(demanded)
    wrong += bad + report("demand 3", seed, lines_of(OUR_CASES, gaps), demanded)
    print(f"seed {seed}: {', '.join(f'{number} {what}' for what, number in made.items())}, {wrong} differences", flush=True)
    return sum(made.values()), wrong


def compare_only(name):
    """A batch that has only cases of gen_NAME."""
    def compare(seed, count, folder, tally):
        made, wrong = compare_more(name, seed, count, folder, tally)
        print(f"seed {seed}: {made} cases of {name}, {wrong} differences", flush=True)
        return made, wrong
    return compare


def in_order(answer):
    """Sorts the answers of one letter: refusals behind the others, by their numbers."""
    letter, words = answer
    number = words.removeprefix("refused ")
    return (letter, int(number), "") if number.isdigit() else (letter, 0, words)


def main():
    arguments = sys.argv[1:]
    compare, batch = compare_batch, BATCH
    if arguments and arguments[0].startswith("--"):
        name = arguments.pop(0)[2:]
        if name not in MORE:
            sys.exit(__doc__)
        compare, batch = compare_only(name), MORE[name]
    count = int(arguments[0]) if arguments else 100_000
    seed = int(arguments[1]) if len(arguments) > 1 else 1
    build_reference()
    tally = Tally()
    calls = wrong = 0
    with tempfile.TemporaryDirectory() as folder:
        while count > 0:
            made, bad = compare(seed, min(count, batch), pathlib.Path(folder), tally)
            calls, wrong = calls + made, wrong + bad
            count, seed = count - batch, seed + 1
    tally.print()
    print(f"{calls} comparisons, {wrong} differences")
    return 1 if wrong or not calls else 0


if __name__ == "__main__":
    sys.exit(main())
