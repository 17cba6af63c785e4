"""What the subcommands share: the parser, how models and names are read, and how answers are printed."""
import argparse
import contextlib
import json
import sys
from urllib.parse import quote

from name import Malformed, name_or_bytes

from .answers import counted
from .driver import MODEL
from .errors import ERROR, Failure, say

LONGEST_TEXT = 1 << 24
MOST_MISTAKES = 20  # that are printed


class Parser(argparse.ArgumentParser):
    def __init__(self, **words):
        super().__init__(formatter_class=argparse.RawDescriptionHelpFormatter, allow_abbrev=False, **words)

    def error(self, message):
        say(f"{message} (see {self.prog} --help)", self.prog)
        sys.exit(ERROR)


def add_bare_command(commands, name, run, summary, details):
    """The parser of a subcommand, without its arguments."""
    command = commands.add_parser(name, help=summary, description=summary, epilog=details)
    command.set_defaults(run=run, parser=command)
    command.add_argument("--json", action="store_true", help="print one JSON object a line")
    return command


def add_command(commands, name, run, summary, details):
    """The parser of a subcommand that takes a model."""
    command = add_bare_command(commands, name, run, summary, details)
    command.add_argument("model", metavar="MODEL", help="the model's file, or - for standard input")
    return command


def standard_input():
    if sys.stdin is None:
        raise Failure("standard input is closed")
    return sys.stdin


def input_lines():
    try:
        yield from standard_input()
    except OSError as fault:
        raise Failure(f"cannot read standard input: {fault.strerror}") from None


def file_bytes(path, what, longest):
    """The bytes of a file or of standard input; of one that is longer, one byte more than that."""
    try:
        with open(path, "rb") if path != "-" else contextlib.nullcontext(standard_input().buffer) as file:
            return file.read(longest + 1)
    except OSError as fault:
        raise Failure(f"cannot read the {what} {path!r}: {fault.strerror}") from None


def model_bytes(path):
    return file_bytes(path, "model", MODEL.longest)


def file_text(path, what, hint=""):
    """The characters of a text. A byte that is not UTF-8 is one that no good line has."""
    data = file_bytes(path, what, LONGEST_TEXT)
    if b"\0" in data:
        raise Failure(f"the {what} {path!r} has a byte 0, so it is no text{hint}")
    if len(data) > LONGEST_TEXT:
        raise Failure(f"the {what} {path!r} is longer than {LONGEST_TEXT:,} bytes")
    return data.decode("utf-8", "surrogateescape").removeprefix("\ufeff")


def file_name(path):
    return "standard input" if path == "-" else path


def name_bytes(text, what):
    """The bytes of a name; `what` says in the error which name it is."""
    try:
        return name_or_bytes(text)
    except Malformed as fault:
        raise Failure(f"{what} {fault}") from None


def show(args, answer, labels=None, more=None, lines=()):
    """Prints an answer: in words with its lines and `lines` below, or as an object with `more` in it. Answers its exit status."""
    if args.json:
        print_object({**answer.object(labels), **(more or {})})
    else:
        print("\n".join([answer.words(labels), *answer.lines(labels), *lines]))
    return answer.status


def show_mistakes(args, path, mistakes):
    """Prints (line, what is wrong) of a text's lines. Answers the exit status."""
    if args.json:
        for line, why in mistakes:
            print_object({"line": line, "answer": "error", "error": why})
        return ERROR
    for line, why in mistakes[:MOST_MISTAKES]:
        say(why, f"{file_name(path)}:{line}")
    if len(mistakes) > MOST_MISTAKES:
        say(f"{counted(len(mistakes) - MOST_MISTAKES, 'more mistake')}")
    return ERROR


def print_object(of):
    print(json.dumps(of))


def printable(uri):
    """A name as it was given, but with %XX for what a terminal would not print."""
    return "".join(c if c.isprintable() else quote(c, errors="surrogateescape") for c in uri)
