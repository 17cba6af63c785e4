"""What is wrong with a path, by docs/format.md, 7.2 to 7.4, and names with paths at random: for what the command says of paths.

A model is given as its description, and a name as a list of its components.
"""
import dataclasses

from build import NAME, component as component_element, element
from lvs_command.description import Tag, Value, ValueEdge
from name import elements

COUNT, NO_EDGE, VALUE, BOUND, CONSTRAINTS, SIGNER = "the count", "no edge", "a value", "a bound tag", "constraints", "the signer"


def components(name):
    ((_, inside),) = elements(name)
    return [Value(*part) for part in elements(inside)]


def name_of(parts):
    return element(NAME, *(component_element(part.bytes, part.type) for part in parts))


def edges(node):
    return [*node.value_edges, *node.pattern_edges]


def first_fault(of, packet, key, path):
    """What is wrong first, and the node and the number of the word where; None of a path that is to be accepted."""
    if len(path) != len(packet) + len(key):
        return COUNT, None, None
    bindings, ends, begin = {}, [], 0
    for name in packet, key:
        at = of.start
        for i, part in enumerate(name, begin):
            out = edges(of.nodes[at])
            wrong = obstacle(of, out[path[i]], part, bindings) if path[i] < len(out) else NO_EDGE
            if wrong:
                return wrong, at, i
            at = out[path[i]].to
        ends.append(at)
        begin = len(packet)
    return None if ends[1] in of.nodes[ends[0]].signers else (SIGNER, ends[0], None)


def obstacle(of, edge, part, bindings):
    """Why a component may not cross an edge. Where it may, its Tag is bound afterwards."""
    if isinstance(edge, ValueEdge):
        return VALUE if edge.value != part else None
    if bindings.get(edge.tag, part) != part:
        return BOUND
    if not all(any(holds(term, part, bindings) for (term,) in options) for options in edge.constraints):
        return CONSTRAINTS
    if edge.tag.number <= of.patterns:
        bindings.setdefault(edge.tag, part)
    return None


def holds(term, part, bindings):
    if isinstance(term, (Value, Tag)):
        return bindings.get(term) == part if isinstance(term, Tag) else term == part
    if term.function in (b"$isValidID", b"$isValidYear"):
        return len(part.bytes) == {b"$isValidID": 6, b"$isValidYear": 4}[term.function]
    (argument,) = term.arguments
    other = bindings.get(argument) if isinstance(argument, Tag) else argument
    return other is not None and (other == part if term.function == b"$eq" else other.type == part.type)


# at random


def walked(of, chance):
    """A name and a path to a node, by edges that its components may or may not cross."""
    at, name, path = of.start, [], []
    while (out := edges(of.nodes[at])) and len(name) < 5 and chance.random() < 0.8:
        path.append(chance.randrange(len(out)))
        name.append(some_component(out[path[-1]], name, chance))
        at = out[path[-1]].to
    return name, path, at


def some_component(edge, before, chance):
    """For a ValueEdge mostly its own; for a PatternEdge one that its Constraints may take, or that was there before, or any."""
    terms = [edge.value] * 9 if isinstance(edge, ValueEdge) else [term for options in edge.constraints for (term,) in options]
    terms += [argument for term in terms if not isinstance(term, (Value, Tag)) for argument in term.arguments]
    known = [term for term in terms if isinstance(term, Value)]
    return chance.choice([*known, *before, Value(8, b"123456"), Value(8, b"2022"), Value(8, b"a")])


def signed(of, at, signer):
    """The model with one signer, and no other."""
    nodes = [dataclasses.replace(node, signers=[signer] if i == at else []) for i, node in enumerate(of.nodes)]
    return dataclasses.replace(of, nodes=nodes)


def changed(path, chance):
    """A path with one word changed, more or fewer."""
    path, at = list(path), chance.randrange(len(path) + 1)
    size = chance.choice((0, 1, 1, 1, 1, 1))
    path[at : at + size] = [chance.choice((0, 1, 2, 3, 255, 256, 65535))] * chance.choice((0, 1, 1, 1, 1, 1))
    return path
