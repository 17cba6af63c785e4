"""lvs follow: is this the path of an allowed pair?"""
import itertools

from name import NAME, element, elements, shortest_integer

from . import driver
from .answers import Followed, NotFollowed, Refused, counted
from .model import NODE, SIGNER, Labels
from .parser import add_command, model_bytes, name_bytes, show
from .path import components, ends, read_path, steps

DETAILS = """\
example:
  $ lvs follow example/model.lvs /ndn/blog/admin/000001/KEY/1/root/1 /ndn/blog/KEY/1/self/1 0,0,1,0,0,0,0,0,0,0,0,0,0,0
  accepted

PATH is as `lvs sign --path` prints it: a word for each component, the packet's and then the
key's, with commas between; `none` where there is no component. A word is the ordinal of the
edge that the component is to cross. It counts all edges of a node from 0, those for a value
first, in the order in which `lvs tree` and `lvs show` have them.

A path is accepted exactly when it has one word for each component, every edge may be crossed,
and the key ends at a signer that the packet's node lists. So whoever made the path, an
accepted one means that the key may sign the packet; nothing is searched. Otherwise the answer
is `no`, which says nothing of other paths of the same names, and a line below says why:

  $ lvs follow example/model.lvs /ndn/blog/admin/000001/KEY/1/root/1 /ndn/blog/KEY/1/self/1 0,0,2,0,0,0,0,0,0,0,0,0,0,0
  no
    component 3 of the packet, admin, may not cross edge 2 of node 2: the constraints of the pattern _ (tag 12) do not hold

The answer is the proved one. Which edge may not be crossed is found by asking the same call
about each beginning of the path, with one signer in place of the model's; the words are a
display of the model's bytes and are not proved. Only of a model that would be too long with
another signer there is no such line.

--json has the line as `why`.
"""


def add(commands):
    command = add_command(commands, "follow", run, "Say whether a path shows that a key may sign a packet.", DETAILS)
    command.add_argument("packet", metavar="PACKET", help="the packet's name")
    command.add_argument("key", metavar="KEY", help="the key's name")
    command.add_argument("path", metavar="PATH", help="the ordinals of the edges, with commas between")


def run(args):
    model = model_bytes(args.model)
    packet, key = name_bytes(args.packet, "packet name"), name_bytes(args.key, "key name")
    path = read_path(args.path)
    answer = driver.ask([driver.follow_case(model, packet, key, path)])[0]
    if not isinstance(answer, NotFollowed):
        return show(args, answer)
    doubt = Doubt(model, packet, key, path)
    why = doubt.words(driver.ask(doubt.cases))
    return show(args, answer, None, {"why": why}, [f"  {why}"] if why else [])


# why a path is not accepted


class Doubt:
    """Why a path is not accepted. `cases` are the questions to the driver that it takes to know: one for each beginning of the path."""

    def __init__(self, data, packet, key, path):
        self.labels, self.path = Labels(data), path
        self.packet, self.key = components(packet), components(key)
        self.is_whole = len(path) == len(self.packet) + len(self.key)
        self.steps = list(steps(self.labels.model, packet, key, path)) if self.is_whole else []
        self.cases = list(self.beginnings(Unsigned(data)))

    def beginnings(self, unsigned):
        """Each is accepted exactly when its edges may be crossed.

        The names end with it, and the model has one signer in place of its own: of the node where the packet ends, the node where the key does.
        """
        for count, step in enumerate(self.steps, 1):
            if step.edge:
                names = self.packet[:count], self.key[: max(0, count - len(self.packet))]
                signed = unsigned.signed(*ends(self.labels.model, self.steps[:count]))
                yield driver.follow_case(signed, *(element(NAME, *name) for name in names), self.path[:count])

    def words(self, answers):
        """What is wrong, first of all; None where that cannot be said, of a model without room for another signer."""
        if not self.is_whole:
            count = len(self.packet) + len(self.key)
            return f"the path has {counted(len(self.path), 'word')}, and the two names have {counted(count, 'component')}"
        crossed = len(list(itertools.takewhile(lambda answer: isinstance(answer, Followed), answers)))
        if any(isinstance(answer, Refused) for answer in answers[crossed:][:1]):
            return None
        if crossed < len(self.steps):
            return obstacle(self.steps[crossed], self.steps[:crossed], self.labels)
        at, signer = map(self.labels.node, ends(self.labels.model, self.steps))
        return f"every edge may be crossed, but {at} does not list {signer} as a signer"


class Unsigned:
    """The elements of a model without its signers."""

    def __init__(self, data):
        self.parts = [(typ, without_signers(inside) if typ == NODE else inside) for typ, inside in elements(data)]
        self.nodes = [i for i, (typ, _) in enumerate(self.parts) if typ == NODE]

    def signed(self, at, signer):
        """The model with one signer, which node `at` lists. (A Node ends with its signers.)"""
        parts, i = list(self.parts), self.nodes[at]
        typ, inside = parts[i]
        parts[i] = typ, inside + element(SIGNER, shortest_integer(signer))
        return b"".join(element(*part) for part in parts)


def without_signers(inside):
    return b"".join(element(*part) for part in elements(inside) if part[0] != SIGNER)


def obstacle(step, before, labels):
    """Why the component of a step may not cross its edge. The steps before may be taken, so that their tags are bound."""
    of = f"component {step.place} of the {step.whose}, {step.component},"
    if step.edge is None:
        edges = counted(len(labels.model.nodes[step.node].edges), "edge")
        return f"{of} has no edge {step.ordinal} to cross: node {step.node} has {edges}"
    return f"{of} may not cross edge {step.ordinal} of node {step.node}: {reason(step, before, labels)}"


def reason(step, before, labels):
    """One that the driver's answer leaves: where nothing else is in the way, the constraints are."""
    if step.edge.value:
        return f"it is for the value {labels.term(step.edge.value)}"
    tag = step.edge.tag.tag
    bound = next((one.component for one in before if one.edge.tag == step.edge.tag), None)
    if bound not in (None, step.component) and not labels.model.is_temporary(tag):
        return f"the pattern {labels.pattern(tag)} is bound to {bound}"
    return f"the constraints of the pattern {labels.pattern(tag)} do not hold"
