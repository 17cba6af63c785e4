"""lvs suggest: which of the certificates in a list is to sign a packet?"""
from collections import namedtuple
from typing import NamedTuple

from name import is_element, word_lines

from . import driver
from .answers import Answer, Certificate, Refused, counted
from .errors import NO, YES, Failure
from .parser import add_command, file_name, file_text, model_bytes, name_bytes, printable, show, show_mistakes
from .refusals import BAD_ENTRY, MANY_ENTRIES

DETAILS = """\
example:
  $ lvs suggest example/model.lvs /ndn/blog/100001/post/2022/1 example/certificates.txt
  /ndn/blog/author/100001/KEY/1/000001/1

A line of the list is one entry, a certificate's name; empty lines and those that begin with #
are skipped. The answer is the name of the first certificate that may sign the packet, as it
is written there. Who signed that certificate is not looked at. Where none may sign, an empty
list included, the answer begins with `none`, and the exit status is 1.

The whole list is tested before any answer. Refusals come in this order: of the model, of the
packet name, 33 where the list has more than 64 entries, and 32 at the first entry that is no
key name, with its index from 0, its line, and its refusal as a key name.

A malformed line is answered with what is wrong with it, on standard error (with --json, as an
object), and then nothing is suggested. Bytes after 0x must be one whole element, of any type:
nothing else is one entry. The answer and the refusals are the proved call's; reading the lines
is not proved.

--json prints the answer with the entry's index, its name and its line.
"""

MOST_CHARACTERS = 120  # of a refused name


def add(commands):
    command = add_command(commands, "suggest", run, "Say which of the certificates in a list may sign a packet.", DETAILS)
    command.add_argument("packet", metavar="PACKET", help="the packet's name")
    command.add_argument("names", metavar="NAMES-FILE", help="the list: a certificate name a line, or - for standard input")


class Suggested(Answer, namedtuple("Numbers", "index name line")):
    answer, status = "certificate", YES

    def words(self, labels=None):
        return printable(self.name)


class NoneOf(Answer, namedtuple("Numbers", "entries")):
    answer, status = "none", NO

    def words(self, labels=None):
        return f"none of {counted(self.entries, 'certificate')} may sign this packet" if self.entries else "none: the list is empty"


def run(args):
    if args.model == args.names == "-":
        args.parser.error("standard input has either the model or the list")
    model, packet = model_bytes(args.model), name_bytes(args.packet, "packet name")
    entries, mistakes = read_entries(file_text(args.names, "list"))
    if mistakes:
        return show_mistakes(args, args.names, mistakes)
    answer = driver.ask([driver.suggest_case(model, packet, [entry.data for entry in entries])])[0]
    if isinstance(answer, Refused):
        return show_refusal(args, answer, model, packet, entries)
    if isinstance(answer, Certificate):
        entry = entry_at(entries, answer.index)
        return show(args, Suggested(answer.index, entry.name, entry.line))
    return show(args, NoneOf(len(entries)))


# the list


class Entry(NamedTuple):
    line: int
    name: str  # as it is written there
    data: bytes


def read_entries(text):
    """The entries, and (line, what is wrong) of each line that is none."""
    entries, mistakes = [], []
    for line, words in word_lines(text.split("\n")):
        try:
            entries.append(Entry(line, *entry_of(words)))
        except Failure as fault:
            mistakes.append((line, str(fault)))
    return entries, mistakes


def entry_of(words):
    if len(words) != 1:
        raise Failure(f"{len(words)} words, not one certificate name")
    (name,) = words
    data = name_bytes(name, "certificate name")
    if not is_element(data):
        raise Failure(f"certificate name {name!r}: the bytes are not one whole element")
    return name, data


def entry_at(entries, index):
    if index >= len(entries):
        raise Failure(f"lvs_cases answers with entry {index}, and the list has {len(entries)}")
    return entries[index]


# refusals


def show_refusal(args, answer, model, packet, entries):
    if answer.number == BAD_ENTRY:
        entry = entry_at(entries, answer.at)
        why = refusal_as_key(model, packet, entry)
        return show_with_place(args, answer, entry, why.words(), {"reason": why.object()})
    if answer.number == MANY_ENTRIES:
        return show_with_place(args, answer, entry_at(entries, driver.MOST_ENTRIES), f"the {driver.MOST_ENTRIES + 1}th entry")
    return show(args, answer)


def refusal_as_key(model, packet, entry):
    """Why it was refused: the signing answer for this entry alone says it."""
    why = driver.ask([driver.sign_case(model, packet, entry.data)])[0]
    if not isinstance(why, Refused):
        raise Failure(f"lvs_cases refuses line {entry.line} of the list, but takes it as a key name")
    return why


def show_with_place(args, answer, entry, note, more=None):
    lines = [f"  {file_name(args.names)}:{entry.line}: {shortened(printable(entry.name))}: {note}"]
    return show(args, answer, None, {"name": entry.name, "line": entry.line, **(more or {})}, lines)


def shortened(text):
    return text if len(text) <= MOST_CHARACTERS else f"{text[:MOST_CHARACTERS]} .. ({len(text):,} characters)"
