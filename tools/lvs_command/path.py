"""Paths: the edges that the names of a packet and then of a key cross, as words, as steps through a model, and as text.

A word is the ordinal of an edge in its node, from 0 in the order of the model. All this is for display: which path a pair has, and whether
a path is accepted, the proved calls say.
"""
import re
from typing import NamedTuple, Optional

from name import component_uri, element, elements

from .errors import Failure
from .model import Edge

NO_WORDS = "none"  # how a path without words is written
LARGEST_WORD = 65535
PACKET, KEY = "packet", "key"


def components(name):
    """The components of a name that a proved call has read, each as its bytes."""
    ((_, inside),) = elements(name)
    return [element(*part) for part in elements(inside)]


def path_text(path):
    return ",".join(map(str, path)) or NO_WORDS


def read_path(text):
    """The words of a path as path_text writes it."""
    words = [] if text == NO_WORDS else text.split(",")
    for i, word in enumerate(words, 1):
        if not re.fullmatch("[0-9]{1,5}", word) or int(word) > LARGEST_WORD:
            raise Failure(f"path {text!r}, word {i}: a word is a number of 0 to {LARGEST_WORD:,} (no word at all is written {NO_WORDS})")
    return list(map(int, words))


class Step(NamedTuple):
    """A word of a path in its place: the component that is to cross an edge, and that edge, or None where the node has no such edge."""

    whose: str
    place: int  # of the component in its name, from 1
    component: str  # as in a URI
    node: int
    ordinal: int
    edge: Optional[Edge]

    @property
    def to(self):
        return self.edge.to if self.edge else None

    def words(self, labels):
        kind = "value" if self.edge.value else f"pattern {labels.pattern(self.edge.tag.tag)}"
        return f"node {self.node}, edge {self.ordinal}, {kind}: {self.component} -> {labels.node(self.to)}"

    def object(self, labels):
        return {"from": self.node, "edge": self.ordinal, **self.kind_object(labels), "component": self.component, "to": self.to}

    def kind_object(self, labels):
        if self.edge.value:
            return {"value": self.edge.value.component}
        tag = self.edge.tag.tag
        return {"tag": tag, "symbol": labels.symbols.get(tag), "temporary": labels.model.is_temporary(tag)}


def steps(model, packet, key, path):
    """The steps of a path that has a word for each component, up to the first without an edge."""
    words = iter(path)
    for whose, name in (PACKET, packet), (KEY, key):
        at = model.start
        for place, component in enumerate(components(name), 1):
            ordinal, edges = next(words), model.nodes[at].edges
            step = Step(whose, place, component_uri(component), at, ordinal, edges[ordinal] if ordinal < len(edges) else None)
            yield step
            if step.edge is None:
                return
            at = step.to


def ends(model, taken):
    """The nodes where the packet and the key are after these steps: each at the start where it has none."""
    reached = {PACKET: model.start, KEY: model.start}
    for step in taken:
        reached[step.whose] = step.to
    return reached[PACKET], reached[KEY]


class AllowedPath:
    """The path of an allowed pair, edge by edge."""

    def __init__(self, answer, labels, packet, key):
        self.labels, self.path = labels, answer.path[: len(components(packet)) + len(components(key))]
        self.steps = list(steps(labels.model, packet, key, self.path))
        if ends(labels.model, self.steps) != (answer.packet_node, answer.key_node):
            raise Failure(f"lvs_cases answers with the path {path_text(self.path)}, which does not lead to its nodes")

    def of(self, whose):
        return [step for step in self.steps if step.whose == whose]

    def lines(self):
        for whose in PACKET, KEY:
            taken = self.of(whose)
            yield f"  {whose}:" if taken else f"  {whose}: no component, so at node {self.labels.model.start}"
            yield from (f"    {step.words(self.labels)}" for step in taken)
        yield f"  {self.line()}"

    def line(self):
        return f"path {path_text(self.path)}"

    def object(self):
        edges = {f"{whose}_edges": [step.object(self.labels) for step in self.of(whose)] for whose in (PACKET, KEY)}
        return {"path": list(self.path), **edges}
