"""lvs sign: may a key sign a packet? Of one pair of names, or of many from standard input."""
import itertools
import sys

from name import pair, word_lines

from . import driver
from .answers import Allowed, Refused, counted
from .errors import ERROR, YES, Failure, say
from .model import Labels
from .parser import add_command, input_lines, model_bytes, name_bytes, print_object, printable, show, standard_input
from .path import AllowedPath

DETAILS = """\
example:
  $ lvs sign example/model.lvs /ndn/blog/100001/post/2022/1 /ndn/blog/admin/000001/KEY/1/root/1
  allowed: packet at node 28, key at node 12
    tag 1 = 000001, from the key
    tag 2 = 100001, from the packet
    tag 3 = 2022, from the packet
    tag 4 = 1, from the packet

Below an allowed pair are its bindings: each bound tag, by its symbol where the model has one;
its component, as in a URI; and the name in which it was first bound. A tag that is bound in
the packet and met again in the key, as the ID of this author, is from the packet:

  $ lvs sign example/model.lvs /ndn/blog/100001/post/2022/1 /ndn/blog/author/100001/KEY/1/000001/1
  allowed: packet at node 28, key at node 18
    tag 2 = 100001, from the packet
    tag 3 = 2022, from the packet
    tag 4 = 1, from the packet

With --path an allowed pair is answered with its path too, edge by edge: the node, the ordinal
of its edge, whether that is for a value or has a pattern, the component that crosses it, and
the node behind it. An ordinal counts all edges of a node from 0, those for a value first. The
last line has the ordinals alone: `lvs follow` takes them, and checks them without a search.

  $ lvs sign --path example/model.lvs /ndn/blog/admin/000001/KEY/1/root/1 /ndn/blog/KEY/1/self/1
  allowed: packet at node 12, key at node 6
    tag 1 = 000001, from the packet
    packet:
      node 0, edge 0, value: ndn -> node 1
      node 1, edge 0, value: blog -> node 2
      node 2, edge 1, pattern _ (tag 8): admin -> node 7
      node 7, edge 0, pattern tag 1: 000001 -> node 8
      node 8, edge 0, value: KEY -> node 9
      node 9, edge 0, pattern _ (tag 9): 1 -> node 10
      node 10, edge 0, pattern _ (tag 10): root -> node 11
      node 11, edge 0, pattern _ (tag 11): 1 -> node 12
    key:
      node 0, edge 0, value: ndn -> node 1
      node 1, edge 0, value: blog -> node 2
      node 2, edge 0, value: KEY -> node 3
      node 3, edge 0, pattern _ (tag 5): 1 -> node 4
      node 4, edge 0, pattern _ (tag 6): self -> node 5
      node 5, edge 0, pattern _ (tag 7): 1 -> node 6
    path 0,0,1,0,0,0,0,0,0,0,0,0,0,0

The answer, the bindings and the ordinals are the proved call's. Symbols, and the nodes, kinds
and tags of the edges, are a display of the model's bytes and are not proved.

With - in place of the names, each line of standard input has a packet name and a key name,
with blanks between; empty lines and those that begin with # are skipped. A pair's answer is
one line: the line number, the answer, the names, and of an allowed pair with --bindings its
bindings and with --path its ordinals. A malformed line gets an error on standard error (with
--json, an object), and the rest is still answered. Of a refused model there is the refusal
only.

  $ lvs sign example/model.lvs - <example/requests.txt | head -n 2
     3  allowed: packet at node 12, key at node 6     /ndn/blog/admin/000001/KEY/1/root/1  by  /ndn/blog/KEY/1/self/1
     5  not allowed                                   /ndn/blog/admin/000001/key/1/root/1  by  /ndn/blog/KEY/1/self/1
  $ lvs sign --bindings example/model.lvs - <example/requests.txt | grep -o 'by .* bindings .*' | head -n 2
  by  /ndn/blog/KEY/1/self/1  bindings tag 1 = 000001 (packet)
  by  /ndn/blog/admin/000001/KEY/1/root/1  bindings tag 1 = 000001 (key), tag 2 = 100001 (packet)

--json always has the bindings of an allowed pair, each with the start and the length of its
component in the name that it is from, in bytes.

The exit status is the highest of any line's: 3 malformed, 2 refused, 1 not allowed, else 0.
No pair at all is 3 too, so that an empty list is not taken for one that is allowed.
"""

RUN_PAIRS, RUN_BYTES = 2000, 1 << 23  # for one run of the driver: pairs, and bytes of models (each case has the model)


def add(commands):
    command = add_command(commands, "sign", run, "Say whether a key may sign a packet, by their names.", DETAILS)
    command.add_argument("--bindings", action="store_true", help="print the bindings of pairs from standard input too")
    command.add_argument("--path", action="store_true", help="print the path of an allowed pair, edge by edge")
    command.add_argument("packet", metavar="PACKET", help="the packet's name, or - for pairs of names from standard input")
    command.add_argument("key", metavar="KEY", nargs="?", help="the key's name, where the packet's is given")


def run(args):
    if args.packet == "-":
        if args.key is not None:
            args.parser.error("- takes pairs from standard input, so KEY cannot be given")
        if args.model == "-":
            args.parser.error("standard input has either the model or the pairs")
        return sign_lines(args)
    if args.key is None:
        args.parser.error("the following arguments are required: KEY")
    model = model_bytes(args.model)
    packet, key = name_bytes(args.packet, "packet name"), name_bytes(args.key, "key name")
    answer, labels = driver.ask([driver.sign_case(model, packet, key)])[0], Labels(model)
    path = path_of(args, answer, labels, packet, key)
    return show(args, answer, labels, path and path.object(), path.lines() if path else ())


def path_of(args, answer, labels, packet, key):
    """The path that is to be shown, or None."""
    return AllowedPath(answer, labels, packet, key) if args.path and isinstance(answer, Allowed) else None


class Line:
    """A line of the input that is to be answered: its number and words, and its names and case or what is wrong with it."""

    def __init__(self, number, words, model):
        self.number, self.words = number, words
        self.names = self.case = self.error = None
        try:
            packet, key = pair(words)
            self.names = name_bytes(packet, "packet name"), name_bytes(key, "key name")
            self.case = driver.sign_case(model, *self.names)
        except (Failure, ValueError) as fault:
            self.error = str(fault)


def sign_lines(args):
    model = model_bytes(args.model)
    labels = Labels(model)
    verdict = driver.judge(model)
    if isinstance(verdict, Refused):
        return show(args, verdict)
    status, done = YES, 0
    lines = (Line(number, words, model) for number, words in word_lines(input_lines()))
    with Progress() as progress:
        for part in runs(lines, len(model)):
            answers = iter(driver.ask([line.case for line in part if line.case]))
            progress.clear()
            for line in part:
                status = max(status, show_error(args, line) if line.error else show_line(args, line, next(answers), labels))
            done += len(part)
            sys.stdout.flush()
            progress.show(done)
    if not done:
        raise Failure("standard input has no pair of names")
    return status


def runs(lines, model_size):
    """The lines in parts, one for each run of the driver. A person who types them gets each answer at once."""
    count = 1 if standard_input().isatty() else min(RUN_PAIRS, RUN_BYTES // model_size)
    while part := list(itertools.islice(lines, count)):
        yield part


def show_line(args, line, answer, labels):
    packet, key = line.words
    path = path_of(args, answer, labels, *line.names)
    if args.json:
        print_object({"line": line.number, "packet": packet, "key": key, **answer.object(labels), **(path.object() if path else {})})
    else:
        parts = [f"{line.number:>4}", f"{answer.words(labels):<44}", printable(packet), "by", printable(key)]
        if args.bindings and isinstance(answer, Allowed):
            parts.append(answer.bindings_line(labels))
        if path:
            parts.append(path.line())
        print("  ".join(parts))
    return answer.status


def show_error(args, line):
    if args.json:
        print_object({"line": line.number, "answer": "error", "error": line.error})
    else:
        sys.stdout.flush()
        say(f"line {line.number}: {line.error}")
    return ERROR


class Progress:
    """How many pairs are answered, as a line that is written over; on a terminal only, and when one run is not enough."""

    is_shown = False

    def __enter__(self):
        return self

    def __exit__(self, *fault):
        self.clear()

    def show(self, done):
        if done >= RUN_PAIRS and sys.stderr and sys.stderr.isatty():
            print(f"lvs: {counted(done, 'pair')} answered", end="", file=sys.stderr, flush=True)
            self.is_shown = True

    def clear(self):
        if self.is_shown:
            print("\r\x1b[K", end="", file=sys.stderr, flush=True)
            self.is_shown = False
