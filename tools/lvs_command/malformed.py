"""What is wrong at the place where a model is malformed. For display: nothing here is proved, and the place is the proved call's.

The reader goes through a model as docs/format.md orders it, an element's header before its inside and that before the next, up to its first
fault. Should that be at another place than the call's, the call is right, and only the bytes at its place are shown.
"""
import re
from typing import NamedTuple

from name import number, number_at

from .model import ARGUMENT, CALL, CONSTRAINT, CONTAINERS, FN_ID, IDENTIFIER, KNOWN, NODE, NODE_ID, OPTION, PARENT, PATTERN_COUNT
from .model import PATTERN_EDGE, SIGNER, SYMBOL, TAG, VALUE, VALUE_EDGE, VERSION
from .text import AN_IDENTIFIER
from .text import IDENTIFIER as IDENTIFIER_FORM

MODEL = 0  # the model itself, in place of a type: no element has this one
LARGEST_TYPE, LARGEST_COMPONENT_TYPE = (1 << 32) - 1, (1 << 16) - 1
FIRST_OPTIONAL = 32
VERSION_SIZE, INTEGER_SIZES = 4, (1, 2, 4, 8)
UNEXPLAINED = "tools/lvs_command/malformed.py does not say what is wrong here"
BEFORE, MARKED, BEHIND = 8, 12, 8  # bytes of the line of hexadecimal: at most so many of what is marked, and of each side
MOST_TEXT = 40  # bytes of an identifier that are shown


class Step(NamedTuple):
    """A step in the order of a container's elements, which are of any of these types."""

    types: tuple
    is_needed: bool = False
    repeats: bool = False


def one(*types):
    return Step(types, is_needed=True)


def any_number(*types):
    return Step(types, repeats=True)


# a container that needs elements has them first
ORDER = {
    MODEL: (one(VERSION), one(NODE_ID), one(PATTERN_COUNT), any_number(NODE), any_number(SYMBOL)),
    NODE: (one(NODE_ID), Step((PARENT,)), any_number(IDENTIFIER), any_number(VALUE_EDGE), any_number(PATTERN_EDGE), any_number(SIGNER)),
    VALUE_EDGE: (one(NODE_ID), one(VALUE)),
    PATTERN_EDGE: (one(NODE_ID), one(TAG), any_number(CONSTRAINT)),
    CONSTRAINT: (any_number(OPTION),),
    OPTION: (any_number(VALUE, TAG, CALL),),
    CALL: (one(FN_ID), any_number(ARGUMENT)),
    ARGUMENT: (one(VALUE, TAG),),
    SYMBOL: (one(TAG), one(IDENTIFIER)),
}
# what a type is called in this container, where that is not its own name
ROLES = {
    (MODEL, NODE_ID): "StartId",
    (VALUE_EDGE, NODE_ID): "Destination",
    (PATTERN_EDGE, NODE_ID): "Destination",
    (NODE, IDENTIFIER): "RuleName",
}
SIGNS = {"FnId": "$", "RuleName": "#", "Identifier": ""}


class Element(NamedTuple):
    type: int
    start: int
    inside: int
    end: int


class Fault(Exception):
    """The place of a fault, the end of what is marked there, and what is wrong."""


class Reader:
    """Reads a model up to its first fault. What is open then are the containers around that."""

    def __init__(self, data):
        self.data, self.nodes = data, 0
        self.open = [Element(MODEL, 0, 0, len(data))]  # the innermost last

    def read(self):
        """The elements of the innermost container."""
        container = self.open[-1]
        steps, at = ORDER[container.type], container.inside
        while at < container.end:
            element = self.element(at)
            at = element.end
            if element.type in KNOWN:
                steps = self.steps_after(element, steps)
                self.inside(element)
            elif is_critical(element.type):
                raise Fault(element.start, at, self.called(element.type))
        if needs_one(steps):
            raise Fault(at, at, f"{self.here()} ends, and its {self.either(steps)} is missing")

    # headers

    def element(self, at):
        end = self.open[-1].end
        typ, behind = self.number(at, at, "a type")
        if not 1 <= typ <= LARGEST_TYPE:
            raise Fault(at, behind, f"type {typ:,}: types are 1 to {LARGEST_TYPE:,}")
        if behind == end:
            raise Fault(at, end, f"{self.called(typ)} without a length: {self.here()} ends")
        size, inside = self.number(at, behind, f"{self.called(typ)} with a length")
        if size > end - inside:
            raise Fault(at, end, f"{self.called(typ)} of {counted_bytes(size)}, and {are(end - inside)} left in {self.here()}")
        return Element(typ, at, inside, inside + size)

    def number(self, start, at, what):
        """The type or the length of the element that begins at `start`, and where it ends."""
        n, behind = number_at(self.data, at)
        end = self.open[-1].end
        if behind > end:
            raise Fault(start, end, f"{what} in {behind - at} bytes, of which {are(end - at)} left in {self.here()}")
        if number(n) != self.data[at:behind]:
            raise Fault(start, behind, f"{what} in {behind - at} bytes, and {n:,} has a shorter form")
        return n, behind

    # insides

    def steps_after(self, element, steps):
        """What may follow an element of a known type."""
        for i, step in enumerate(steps):
            if element.type in step.types:
                return steps[i if step.repeats else i + 1 :]
            if step.is_needed:
                break
        raise Fault(element.start, element.end, f"{self.called(element.type)} out of its place: expected {self.either(steps)}")

    def inside(self, element):
        if element.type not in CONTAINERS and element.type != VALUE:
            return self.plain(element)
        self.nodes += element.type == NODE
        self.open.append(element)
        read = self.value if element.type == VALUE else self.read
        read()
        self.open.pop()

    def value(self):
        value = self.open[-1]
        if value.inside == value.end:
            raise Fault(value.end, value.end, "the Value ends, and its component is missing")
        component = self.element(value.inside)
        if component.type > LARGEST_COMPONENT_TYPE:
            raise Fault(component.start, component.end, f"component of type {component.type:,}, and {LARGEST_COMPONENT_TYPE:,} is the largest")
        if component.end < value.end:
            raise Fault(component.end, value.end, f"{counted_bytes(value.end - component.end)} behind the Value's one component")

    def plain(self, element):
        called = self.called(element.type)
        fault = plain_fault(called, self.data[element.inside : element.end])
        if fault:
            raise Fault(element.start, element.end, f"{called} {fault}")

    # words

    def here(self):
        return f"the {name_of(self.open[-1].type)}"

    def called(self, typ):
        """What an element of this type is, in the innermost container."""
        container = self.open[-1].type
        if container == VALUE:
            return f"component of type {typ:,}"
        if typ in KNOWN:
            return ROLES.get((container, typ), KNOWN[typ])
        return f"{'element of the unknown critical type' if is_critical(typ) else 'optional element'} 0x{typ:02X}"

    def either(self, steps):
        """What may come next in the innermost container."""
        names = [self.called(typ) for step in (steps[:1] if needs_one(steps) else steps) for typ in step.types]
        if not needs_one(steps):
            names.append(f"the end of {self.here()}")
        return " or ".join(filter(None, (", ".join(names[:-1]), names[-1])))


def needs_one(steps):
    return bool(steps) and steps[0].is_needed


def plain_fault(called, inside):
    """What is wrong with the bytes of an integer, a Version or a text; None where they are well formed."""
    if called in SIGNS:
        sign = SIGNS[called]
        if re.fullmatch(re.escape(sign) + IDENTIFIER_FORM, inside.decode("latin-1")):
            return None
        return f"{quoted(inside)}, which is not {f'{sign} and ' if sign else ''}{AN_IDENTIFIER}"
    if called == KNOWN[VERSION]:
        return None if len(inside) == VERSION_SIZE else f"of {counted_bytes(len(inside))}, and it takes {VERSION_SIZE}"
    return None if len(inside) in INTEGER_SIZES else f"of {counted_bytes(len(inside))}, and an integer takes 1, 2, 4 or 8"


def is_critical(typ):
    return typ not in KNOWN and (typ < FIRST_OPTIONAL or typ % 2 == 1)


def name_of(typ):
    return "model" if typ == MODEL else KNOWN[typ]


def counted_bytes(n):
    return f"{n:,} byte{'' if n == 1 else 's'}"


def are(n):
    return f"{n:,} {'is' if n == 1 else 'are'}"


def quoted(data):
    shown = repr(data[:MOST_TEXT])[1:]
    return shown if len(data) <= MOST_TEXT else f"{shown} .. ({len(data):,} bytes)"


# what is shown


class Container(NamedTuple):
    name: str
    start: int
    node: int = None  # a Node's index

    def words(self):
        return f"{self.name}{'' if self.node is None else f' {self.node}'} at byte {self.start}"

    def object(self):
        index = {} if self.node is None else {"node": self.node}
        return {"container": self.name, **index, "start": self.start}


class Explanation(NamedTuple):
    """What is found at a place, the end of its bytes, and the containers around it, from the outermost; None where they are not known."""

    place: int
    end: int
    found: str
    containers: list

    def lines(self, data):
        yield f"  {self.found}"
        if self.containers is not None:
            yield "  in " + (" > ".join(map(Container.words, self.containers)) or "the model itself")
        yield f"  byte {self.place} (0x{self.place:X}):  {marked(data, self.place, self.end)}"

    def object(self):
        return {"found": self.found, "in": self.containers and list(map(Container.object, self.containers))}


def explain(data, place):
    reader = Reader(data)
    try:
        reader.read()
    except Fault as fault:
        at, end, found = fault.args
        if at == place:
            around = [Container(name_of(of.type), of.start, reader.nodes - 1 if of.type == NODE else None) for of in reader.open[1:]]
            return Explanation(place, end, found, around)
    return Explanation(place, min(place + 1, len(data)), UNEXPLAINED, None)


def marked(data, start, end):
    """Bytes in hexadecimal, with [ ] around those from start to end; .. stands for bytes that are left out."""
    first, last, behind = max(start - BEFORE, 0), min(start + MARKED, end), min(end + BEHIND, len(data))
    inside = hexadecimal(data[start:last]) + [".."] * (last < end)
    before = [".."] * (first > 0) + hexadecimal(data[first:start])
    return " ".join([*before, f"[{' '.join(inside)}]", *hexadecimal(data[end:behind]), *[".."] * (behind < len(data))])


def hexadecimal(data):
    return [f"{byte:02X}" for byte in data]
