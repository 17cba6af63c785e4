"""lvs show: a model as text that a person can read and change."""
from . import driver
from .answers import Described
from .description import from_lists
from .parser import add_command, model_bytes
from .parser import show as show_answer
from .text import FORMAT, lines

DETAILS = f"""\
example:
  $ lvs show example/model.lvs | tail -n 4
  node 28
    parent 27
    signer 12
    signer 18

`lvs build` writes a model from such a text. Shown again, that model has the same text. What
the text does not have: optional elements, and integers with more bytes than they need.

{FORMAT}
The description is the proved one. Its text is a display of it and is not proved.
--json prints the description as the two lists of docs/format.md: its numbers, and the bytes
of its texts in hexadecimal. A refused model has no description: the answer is its refusal.
"""


def add(commands):
    add_command(commands, "show", run, "Print a model as text that can be changed and built again.", DETAILS)


def run(args):
    answer = driver.describe(model_bytes(args.model))
    if args.json or not isinstance(answer, Described):
        return show_answer(args, answer)
    for line in lines(from_lists(answer.numbers, answer.texts)):
        print(line)
    return answer.status
