"""A model's description: as objects, and as the two lists (numbers and texts) that the proved calls take and give.

The layout of the lists is docs/format.md's: a count before what is counted, a text's length where the text is met, and the bytes of all
texts one after the other. Nothing is judged here: an object may describe a model that is refused.
"""
from dataclasses import dataclass, field
from typing import NamedTuple, Optional

NO_PARENT, PARENT = 0, 1
VALUE, TAG, CALL = 0, 1, 2  # kinds of a term; an argument is one of the first two


class Value(NamedTuple):
    type: int
    bytes: bytes


class Tag(NamedTuple):
    number: int


class Call(NamedTuple):
    function: bytes  # with its $
    arguments: list  # of Value and Tag


class Symbol(NamedTuple):
    tag: int
    identifier: bytes


class ValueEdge(NamedTuple):
    to: int
    value: Value


class PatternEdge(NamedTuple):
    to: int
    tag: Tag
    constraints: list  # each a list of options, each a list of Value, Tag and Call


@dataclass
class Node:
    id: int = 0
    parent: Optional[int] = None
    rules: list = field(default_factory=list)  # in bytes, with their #
    value_edges: list = field(default_factory=list)
    pattern_edges: list = field(default_factory=list)
    signers: list = field(default_factory=list)


@dataclass
class Description:
    start: int = 0
    patterns: int = 0
    nodes: list = field(default_factory=list)
    symbols: list = field(default_factory=list)


# to lists


class Lists:
    """The two lists, as they grow. Each method adds one thing."""

    def __init__(self, description):
        self.numbers, self.texts = [], bytearray()
        self.numbers += description.start, description.patterns
        self.all(description.nodes, self.node)
        self.all(description.symbols, self.symbol)

    def all(self, things, add):
        self.numbers.append(len(things))
        for thing in things:
            add(thing)

    def number(self, n):
        self.numbers.append(n)

    def text(self, text):
        self.numbers.append(len(text))
        self.texts += text

    def value(self, value):
        self.numbers.append(value.type)
        self.text(value.bytes)

    def node(self, node):
        self.numbers.append(node.id)
        self.numbers += [NO_PARENT] if node.parent is None else [PARENT, node.parent]
        self.all(node.rules, self.text)
        self.all(node.value_edges, self.value_edge)
        self.all(node.pattern_edges, self.pattern_edge)
        self.all(node.signers, self.number)

    def value_edge(self, edge):
        self.numbers.append(edge.to)
        self.value(edge.value)

    def pattern_edge(self, edge):
        self.numbers += edge.to, edge.tag.number
        self.all(edge.constraints, self.constraint)

    def constraint(self, options):
        self.all(options, self.option)

    def option(self, terms):
        self.all(terms, self.term)

    def term(self, term):
        """A term, or an argument, which is written alike."""
        if isinstance(term, Value):
            self.numbers.append(VALUE)
            self.value(term)
        elif isinstance(term, Tag):
            self.numbers += TAG, term.number
        else:
            self.numbers.append(CALL)
            self.text(term.function)
            self.all(term.arguments, self.term)

    def symbol(self, symbol):
        self.numbers.append(symbol.tag)
        self.text(symbol.identifier)


# from lists


class ListReader:
    """What is left of two lists. They are a proved call's, so no fault is looked for."""

    def __init__(self, numbers, texts):
        self.numbers, self.texts, self.at = iter(numbers), texts, 0

    def number(self):
        return next(self.numbers)

    def all(self, read):
        return [read() for _ in range(self.number())]

    def text(self):
        begin, self.at = self.at, self.at + self.number()
        return self.texts[begin : self.at]

    def value(self):
        return Value(self.number(), self.text())

    def description(self):
        return Description(self.number(), self.number(), self.all(self.node), self.all(self.symbol))

    def node(self):
        lists = (self.text, self.value_edge, self.pattern_edge, self.number)
        return Node(self.number(), self.parent(), *map(self.all, lists))

    def parent(self):
        return self.number() if self.number() == PARENT else None

    def value_edge(self):
        return ValueEdge(self.number(), self.value())

    def pattern_edge(self):
        return PatternEdge(self.number(), Tag(self.number()), self.all(self.constraint))

    def constraint(self):
        return self.all(self.option)

    def option(self):
        return self.all(self.term)

    def term(self):
        kind = self.number()
        if kind == VALUE:
            return self.value()
        return Tag(self.number()) if kind == TAG else Call(self.text(), self.all(self.term))

    def symbol(self):
        return Symbol(self.number(), self.text())


def from_lists(numbers, texts):
    return ListReader(numbers, texts).description()
