"""lvs judge: is a model accepted?"""
from . import driver
from .answers import Refused
from .errors import Failure
from .malformed import explain
from .parser import add_command, model_bytes, show
from .refusals import MALFORMED

DETAILS = """\
example:
  $ lvs judge example/model.lvs
  accepted: 29 nodes

Of a refused model the answer has the refusal number, the node at fault where there is one,
and what the number means. A malformed model is refused with 2 and the place of its first
fault, in bytes from 0:

  $ sed 's/KEY/K/' example/model.lvs | lvs judge -
  refused 2 at byte 70: the model is malformed: its bytes are not the elements of an LVS model, or not in their order
    NodeId out of its place: expected ValueEdge, PatternEdge, SignConstraint or the end of the Node
    in Node 2 at byte 50
    byte 70 (0x46):  .. 03 21 05 08 03 4B 53 13 [25 01 07] 23 01 08 43 0B 41 09 21 ..

The lines below say what is wrong there; in which containers, with the byte at which each
begins; and the bytes, with [ ] around the element, or at the end of a container that lacks
one. (Here a component became shorter, and its length did not, so what follows is read as a
part of it.) The place is the proved one. The lines below it are a display of the model's bytes
and are not proved.

--json has the place, what was found there, and the containers from the outermost.
"""


def add(commands):
    add_command(commands, "judge", run, "Say whether a model is accepted, or why not.", DETAILS)


def run(args):
    model = model_bytes(args.model)
    answer = driver.judge(model)
    if not isinstance(answer, Refused) or answer.number != MALFORMED:
        return show(args, answer)
    if answer.at > len(model):
        raise Failure(f"lvs_cases answers with byte {answer.at}, and the model has {len(model)}")
    why = explain(model, answer.at)
    return show(args, answer, None, why.object(), why.lines(model))
