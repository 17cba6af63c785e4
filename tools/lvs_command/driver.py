"""The proved calls, through the case driver lvs_cases. crates/lvs_cases/src/main.rt has the form of its cases and lines."""
import functools
import os
import shutil
import struct
import subprocess
import time
from typing import NamedTuple

import crates

from .answers import Accepted, Allowed, Certificate, Described, Followed, Match, NoCertificate, NoMatch, NotAllowed, NotFollowed, Refused, Written
from .answers import PATH_WORDS, counted, no_answer, read_answer
from .bindings import WORDS
from .errors import Failure, say
from .refusals import LISTS

CRATE = "lvs_cases"
PROGRAM = crates.program(CRATE)
TOOLCHAIN = "/opt/rattle/bin"  # where rt is looked for when it is not in PATH


class Field(NamedTuple):
    """How many bytes of a field the driver takes, and the refusal of one that is longer than the calls take.

    A longer field is cut to that many. They are still too many for the calls, so that the answer is the same: this refusal, or one
    that is tested before it, which has a lower number.
    """

    longest: int
    refusal: int


MODEL, PACKET, KEY = Field(65536, 1), Field(4096, 21), Field(4096, 24)
LIST, MOST_ENTRIES = Field(65536, 32), 64  # a list of certificate names
SHORTEST_ENTRY = b"\x07\x00"
LONGEST_PATH = 2048  # words of a path that the driver takes
NUMBERS, TEXTS, OUTPUT = 8192, 65536, 65536  # numbers and bytes of a description, and bytes of what is written, that the driver takes


# what a case may be answered with, by its letter, besides a refusal
ANSWERS = {
    "V": Accepted,
    "M": (Match, NoMatch),
    "S": (Allowed, NotAllowed),
    "P": (Followed, NotFollowed),
    "C": (Certificate, NoCertificate),
    "D": Described,
    "W": Written,
}


def verdict_case(model):
    return "V", ((MODEL, model),)


def match_case(model, name):
    return "M", ((MODEL, model), (PACKET, name), (None, bytes(4 * WORDS)))


def sign_case(model, packet, key):
    return "S", ((MODEL, model), (PACKET, packet), (KEY, key), (None, bytes(4 * WORDS)), (None, bytes(2 * PATH_WORDS)))


def follow_case(model, packet, key, path):
    """Of a path that is longer than the driver takes the beginning is given: that has too many words for any two names as well."""
    words = path[:LONGEST_PATH]
    return "P", ((MODEL, model), (PACKET, packet), (KEY, key), (None, struct.pack(f">{len(words)}H", *words)))


def suggest_case(model, packet, entries):
    """Each entry is one whole element. A list that is longer than the driver takes has more than 64 of them, or a long one.

    More than 64 are refused with 33, whatever they are: as many of the shortest are given instead. Of up to 64 one has more than 1,024
    bytes, so that the answer is 32 with the first entry i that is refused, and the list can be cut as other fields are. If entry i is
    whole before the cut, the answer is the same. If not, the entries before it have at most 1,024 bytes each, so the cut is within entry
    i: it cannot be cut off any more, which is 32 and i too.
    """
    data = b"".join(entries)
    if len(data) > LIST.longest and len(entries) > MOST_ENTRIES:
        data = SHORTEST_ENTRY * (MOST_ENTRIES + 1)
    return "C", ((MODEL, model), (PACKET, packet), (LIST, data))


def describe_case(model):
    """The lists are as long as can be. The texts always fit: each is a part of the model."""
    return "D", ((MODEL, model), (None, bytes(8 * NUMBERS)), (None, bytes(TEXTS)))


def write_case(numbers, texts):
    """The output always suffices: a model that is longer is refused before."""
    return "W", ((None, struct.pack(f">{len(numbers)}Q", *numbers)), (None, bytes(texts)), (None, bytes(OUTPUT)))


def written(case):
    letter, fields = case
    cut = [data[: field.longest] if field else data for field, data in fields]
    return letter.encode() + b"".join(len(data).to_bytes(4, "big") + data for data in cut)


def answer_of(case, line):
    letter, fields = case
    answer = read_answer(line, *(data for field, data in fields if field in (PACKET, KEY)))
    if not isinstance(answer, (Refused, ANSWERS[letter])):
        no_answer(line)
    for field, data in fields:
        if field and len(data) > field.longest:
            if not isinstance(answer, Refused) or answer.number > field.refusal:
                raise Failure(f"lvs_cases takes only {field.longest:,} bytes of this input, and answers {line[:60]!r}")
            break
    return answer


def ask(cases):
    """The answers to cases, from one run of the driver."""
    given, path = b"".join(map(written, cases)), program()
    try:
        ran = subprocess.run([path], input=given, stdout=subprocess.PIPE)
    except OSError as fault:
        raise Failure(f"cannot run {path}: {fault.strerror}") from None
    lines = ran.stdout.decode("ascii", "replace").splitlines()
    if ran.returncode != 0 or len(lines) != len(cases):
        raise Failure(f"lvs_cases ended with status {ran.returncode} and {counted(len(lines), 'line')} for {counted(len(cases), 'case')}")
    return list(map(answer_of, cases, lines))


def judge(model):
    return ask([verdict_case(model)])[0]


def describe(model):
    answer = ask([describe_case(model)])[0]
    if isinstance(answer, Refused) and answer.number == LISTS:
        raise Failure(f"the model is accepted, but its description has more than {NUMBERS:,} numbers, which is the most that lvs_cases takes")
    return answer


def write(numbers, texts):
    for count, most, what in (len(numbers), NUMBERS, "numbers"), (len(texts), TEXTS, "bytes of text"):
        if count > most:
            raise Failure(f"the description has {count:,} {what}, and {most:,} is the most that lvs_cases takes")
    return ask([write_case(numbers, texts)])[0]


# building


@functools.lru_cache
def program():
    """The driver, built where it is missing or older than code or a proof."""
    if not crates.is_built(CRATE):
        build()
    return PROGRAM


def build():
    rt = shutil.which("rt") or shutil.which("rt", path=TOOLCHAIN)
    if rt is None:
        raise Failure("the checker has to be built with `rt` of the Rattle toolchain, which is not in PATH")
    say("building the checker with `rt run` in crates/lvs_cases; the first time this proves the crates that it is made of, which takes minutes")
    began = time.time()
    try:
        status, lines = run_rt([rt, "run"])
    except OSError as fault:
        raise Failure(f"cannot run {rt}: {fault.strerror}") from None
    if status == 0 and not PROGRAM.exists():
        raise Failure(f"`rt run` ended well, but {PROGRAM} is not there: remove {PROGRAM.parent} and try again")
    if status != 0:
        last = "".join(f"\n  {line}" for line in lines[-20:])
        raise Failure(f"the build failed: `rt run` ended with status {status}. Its last lines:{last}")
    os.utime(PROGRAM, (began, began))  # a file that was changed since then is newer; and rt goes by what is in the files, not by their times


def run_rt(words):
    """rt's status and all its lines; its own ones are shown while it runs. It also runs the program that it built, here on no cases."""
    lines, how = [], {"cwd": PROGRAM.parents[1], "stdin": subprocess.DEVNULL}
    with subprocess.Popen(words, **how, stdout=subprocess.PIPE, stderr=subprocess.STDOUT) as running:
        for line in running.stdout:
            lines.append(line.decode("utf-8", "replace").rstrip())
            if lines[-1].startswith("rt: "):
                say(lines[-1].removeprefix("rt: "), "rt")
    return running.returncode, lines

