"""A model's nodes, edges and names, read from its bytes for display. Nothing here is proved, and no answer comes from here.

Only of bytes that the driver did not refuse with 1 to 3: these are well formed, so no fault is looked for.
"""
from functools import cached_property
from typing import NamedTuple

from name import component_uri, elements

VALUE, TAG, NODE_ID, FN_ID, IDENTIFIER, CALL, ARGUMENT = 0x21, 0x23, 0x25, 0x27, 0x29, 0x31, 0x33
OPTION, CONSTRAINT, VALUE_EDGE, PATTERN_EDGE, SIGNER, PARENT = 0x41, 0x43, 0x51, 0x53, 0x55, 0x57
VERSION, NODE, SYMBOL, PATTERN_COUNT = 0x61, 0x63, 0x67, 0x69
LARGEST_TAG = 128
CONTAINERS = {
    CALL: "UserFnCall",
    ARGUMENT: "UserFnArg",
    OPTION: "ConstraintOption",
    CONSTRAINT: "Constraint",
    VALUE_EDGE: "ValueEdge",
    PATTERN_EDGE: "PatternEdge",
    NODE: "Node",
    SYMBOL: "TagSymbol",
}
KNOWN = {
    **CONTAINERS,
    VALUE: "Value",
    TAG: "Tag",
    NODE_ID: "NodeId",
    FN_ID: "FnId",
    IDENTIFIER: "Identifier",
    SIGNER: "SignConstraint",
    PARENT: "Parent",
    VERSION: "Version",
    PATTERN_COUNT: "NamedPatternCnt",
}


class Skipped(NamedTuple):
    """An optional element, which the calls skip, and the container that it is in."""

    container: str
    type: int
    size: int

    def words(self):
        return f"optional element 0x{self.type:02X}, {self.size} byte{'' if self.size == 1 else 's'}"


class Value(NamedTuple):
    component: str  # as in a URI


class Tag(NamedTuple):
    tag: int


class Call(NamedTuple):
    function: str
    arguments: list  # of Value and Tag


class Edge:
    def __init__(self):
        self.to = 0
        self.value = None  # a Value, of a ValueEdge
        self.tag = None  # a Tag, of a PatternEdge
        self.constraints = []  # each a list of options, each a list of Value, Tag and Call
        self.skipped = []  # anywhere in the edge


class Node:
    def __init__(self):
        self.id, self.parent = 0, None
        self.rules, self.edges, self.signers = [], [], []
        self.skipped = []  # in the Node itself


class Model:
    def __init__(self):
        self.start, self.patterns, self.nodes = 0, 0, []
        self.symbols = []  # (Tag, symbol), in file order
        self.skipped = []  # at the top and in TagSymbols

    def is_temporary(self, tag):
        return tag > self.patterns


def integer(inside):
    return int.from_bytes(inside, "big")


def known(container, inside, skipped):
    """The known elements of a container; the optional ones are added to `skipped`."""
    for typ, part in elements(inside):
        if typ in KNOWN:
            yield typ, part
        else:
            skipped.append(Skipped(container, typ, len(part)))


def read_term(typ, inside, skipped):
    """A Value, a Tag or a UserFnCall."""
    if typ == VALUE:
        return Value(component_uri(inside))
    if typ == TAG:
        return Tag(integer(inside))
    parts = list(known(CONTAINERS[CALL], inside, skipped))
    arguments = [read_term(t, p, skipped) for of, arg in parts if of == ARGUMENT for t, p in known(CONTAINERS[ARGUMENT], arg, skipped)]
    return Call(next(part.decode() for of, part in parts if of == FN_ID), arguments)


def read_constraint(inside, skipped):
    options = [option for _, option in known(CONTAINERS[CONSTRAINT], inside, skipped)]
    return [[read_term(typ, part, skipped) for typ, part in known(CONTAINERS[OPTION], option, skipped)] for option in options]


def read_edge(kind, inside):
    edge = Edge()
    for typ, part in known(CONTAINERS[kind], inside, edge.skipped):
        if typ == NODE_ID:
            edge.to = integer(part)
        elif typ == VALUE:
            edge.value = read_term(typ, part, edge.skipped)
        elif typ == TAG:
            edge.tag = read_term(typ, part, edge.skipped)
        elif typ == CONSTRAINT:
            edge.constraints.append(read_constraint(part, edge.skipped))
    return edge


def read_node(inside):
    node = Node()
    for typ, part in known(CONTAINERS[NODE], inside, node.skipped):
        if typ == NODE_ID:
            node.id = integer(part)
        elif typ == PARENT:
            node.parent = integer(part)
        elif typ == IDENTIFIER:
            node.rules.append(part.decode())
        elif typ == SIGNER:
            node.signers.append(integer(part))
        else:
            node.edges.append(read_edge(typ, part))
    return node


def read_symbol(inside, skipped):
    parts = dict(known(CONTAINERS[SYMBOL], inside, skipped))
    return integer(parts[TAG]), parts[IDENTIFIER].decode()


def read_model(data):
    model = Model()
    for typ, part in known("model", data, model.skipped):
        if typ == NODE_ID:
            model.start = integer(part)
        elif typ == PATTERN_COUNT:
            model.patterns = integer(part)
        elif typ == NODE:
            model.nodes.append(read_node(part))
        elif typ == SYMBOL:
            model.symbols.append(read_symbol(part, model.skipped))
    return model


class Labels:
    """What a model calls its nodes and tags. It is read at first use: an answer that names a node or a tag is of an accepted model."""

    def __init__(self, data):
        self.data = data

    @cached_property
    def model(self):
        return read_model(self.data)

    @cached_property
    def symbols(self):
        return dict(reversed(self.model.symbols))  # a Tag's first symbol

    def rules(self, i):
        return self.model.nodes[i].rules if i < len(self.model.nodes) else []

    def node(self, i, *notes):
        notes = [*self.rules(i), *notes]
        return f"node {i}{' (' + ', '.join(notes) + ')' if notes else ''}"

    def tag(self, n):
        """A Tag's symbol, with its number where another Tag has the same; its number alone where it has none.

        A temporary Tag begins with _, as in LVS text, and has its number too: many may be called _.
        """
        symbol = self.symbols.get(n)
        if self.model.is_temporary(n):
            return f"_{(symbol or '').removeprefix('_')} (tag {n})"
        if symbol is None:
            return f"tag {n}"
        alone = list(self.symbols.values()).count(symbol) == 1
        return symbol if alone else f"{symbol} (tag {n})"

    def pattern(self, n):
        """A Tag with its number, and with its symbol where it has one."""
        text = self.tag(n)
        return text if f"tag {n}" in text else f"{text} (tag {n})"

    def term(self, term):
        if isinstance(term, Value):
            return f'"{term.component}"'
        if isinstance(term, Tag):
            return self.tag(term.tag)
        return f"{term.function}({', '.join(map(self.term, term.arguments))})"
