"""lvs tree: a model's nodes and edges, for reading."""
from . import driver
from .answers import Refused, counted
from .model import Call, Labels, Tag, Value
from .parser import add_command, model_bytes, print_object, show
from .refusals import LAST_UNREADABLE, refusal

DETAILS = """\
example:
  $ lvs tree example/model.lvs | head -n 7
  accepted: 29 nodes
  start at node 0, 4 named patterns
  node 0 (start)
    "ndn" -> node 1
      "blog" -> node 2
        "KEY" -> node 3
          _ (tag 5) -> node 4

A line is an edge and the node that it leads to, with its rule names in ( ) and its signers.
"x" is a value, as in a URI; a tag is called by its symbol where the model has one. _ begins a
temporary pattern: its tag is above the number of named patterns, so it is never bound. After &
come the edge's constraints, each in { } with | between its options. The nodes are in depth
first order, each once: (above) is one that is there already. Below the start of an accepted
model there is no such edge: the nodes that it leads to are a tree.

The verdict is the proved one. The tree is a display of the model's bytes and is not proved.
Of a model that is refused with 4 or more the tree is shown too, with a mark at the node that
the refusal names; one that is refused with 1 to 3 cannot be read, so it has no tree.
"""


def add(commands):
    add_command(commands, "tree", run, "Show a model as a tree of nodes, edges, constraints and signers.", DETAILS)


def run(args):
    data = model_bytes(args.model)
    verdict = driver.judge(data)
    status = show(args, verdict)
    if isinstance(verdict, Refused) and verdict.number <= LAST_UNREADABLE:
        return status
    labels = Labels(data)
    if args.json:
        for of in objects(labels.model):
            print_object(of)
    else:
        for line in Tree(labels, verdict).lines():
            print(line)
    return status


class Tree:
    def __init__(self, labels, verdict):
        self.labels, self.model = labels, labels.model
        self.shown = set()
        self.is_accepted = not isinstance(verdict, Refused)
        self.marked, self.mark = None, ""
        if not self.is_accepted and refusal(verdict.number).at == "node":
            self.marked, self.mark = verdict.at, f"  <- refused {verdict.number}"

    def lines(self):
        model = self.model
        start = f"node {model.start}" + ("" if model.start < len(model.nodes) else " (no such node)")
        count = "" if self.is_accepted else counted(len(model.nodes), "node") + ", "
        yield f"{count}start at {start}, {counted(model.patterns, 'named pattern')}"
        if model.symbols:
            yield "symbols: " + ", ".join(f"tag {tag} = {symbol}" for tag, symbol in model.symbols)
        yield from (f"{skipped.words()}, in the {skipped.container}" for skipped in model.skipped)
        yield from self.below(model.start)
        first = True
        for i in range(len(model.nodes)):
            if i not in self.shown:
                if first:
                    yield "not reachable from the start:"
                first = False
                yield from self.below(i)

    def below(self, root):
        """The nodes that are reached from a root and not shown yet, depth first. No recursion: a refused model may be very deep."""
        if root >= len(self.model.nodes):
            return
        to_do = [(0, None, None, root)]
        while to_do:
            depth, source, edge, i = to_do.pop()
            is_new = i < len(self.model.nodes) and i not in self.shown
            yield "  " * depth + self.line(source, edge, i)
            yield from ("  " * (depth + 2) + note for note in self.skipped(edge, i if is_new else None))
            if is_new:
                self.shown.add(i)
                to_do += [(depth + 1, i, out, out.to) for out in reversed(self.model.nodes[i].edges)]

    def line(self, source, edge, i):
        """One node, after the edge that leads to it. What an accepted model can't have is noted."""
        before = f"{self.edge(edge)} -> " if edge else ""
        if i >= len(self.model.nodes):
            return f"{before}node {i} (no such node)"
        if i in self.shown:
            return f"{before}node {i} (above)"
        node = self.model.nodes[i]
        notes = ["start"] if i == self.model.start else []
        if node.parent != source:
            notes.append("no parent" if node.parent is None else f"parent {node.parent}")
        if node.id != i:
            notes.append(f"NodeId {node.id}")
        text = before + self.labels.node(i, *notes)
        if node.signers:
            text += ", signed by " + ", ".join(map(self.signer, node.signers))
        return text + (self.mark if i == self.marked else "")

    def signer(self, i):
        return self.labels.node(i) if i < len(self.model.nodes) else f"node {i} (no such node)"

    def edge(self, edge):
        constraints = [" & {" + " | ".join(map(self.option, options)) + "}" for options in edge.constraints]
        return self.labels.term(edge.value or edge.tag) + "".join(constraints)

    def option(self, terms):
        """An option's one term; in ( ) where it has another number of them, with which the model is refused."""
        texts = list(map(self.labels.term, terms))
        return texts[0] if len(texts) == 1 else f"({' '.join(texts)})"

    def skipped(self, edge, i):
        for skipped in edge.skipped if edge else ():
            yield f"{skipped.words()}, in the {skipped.container}"
        for skipped in self.model.nodes[i].skipped if i is not None else ():
            yield f"{skipped.words()}, in the Node"


# for --json


def objects(model):
    """One for the model, then one for each node in file order."""
    yield {
        "start": model.start,
        "named_patterns": model.patterns,
        "symbols": [{"tag": tag, "symbol": symbol} for tag, symbol in model.symbols],
        "optional": list(map(skipped_object, model.skipped)),
    }
    for i, node in enumerate(model.nodes):
        yield {
            "node": i,
            "node_id": node.id,
            "parent": node.parent,
            "rules": node.rules,
            "edges": [edge_object(model, edge) for edge in node.edges],
            "signers": node.signers,
            "optional": list(map(skipped_object, node.skipped)),
        }


def edge_object(model, edge):
    of = {"to": edge.to, **term_object(edge.value or edge.tag)}
    if edge.tag:
        of["temporary"] = model.is_temporary(edge.tag.tag)
        of["constraints"] = [[list(map(term_object, option)) for option in options] for options in edge.constraints]
    return {**of, "optional": list(map(skipped_object, edge.skipped))}


def term_object(term):
    if isinstance(term, Value):
        return {"value": term.component}
    if isinstance(term, Tag):
        return {"tag": term.tag}
    assert isinstance(term, Call)
    return {"function": term.function, "arguments": list(map(term_object, term.arguments))}


def skipped_object(skipped):
    return {"in": skipped.container, "type": skipped.type, "bytes": skipped.size}
