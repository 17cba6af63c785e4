"""Malformed models, and what `lvs judge` says of each: every sort of fault in every container, in each of its gaps or at its end."""
import random
from typing import NamedTuple

from build import *

ROLES = {
    ("model", NODE_ID): "StartId",
    ("ValueEdge", NODE_ID): "Destination",
    ("PatternEdge", NODE_ID): "Destination",
    ("Node", IDENTIFIER): "RuleName",
}
A_VERSION, COUNT, FUNCTION = element(VERSION, GOOD_VERSION.to_bytes(4, "big")), integer(PATTERN_COUNT, 0), element(FN_ID, b"$eq")
AN_IDENTIFIER = "an identifier (a letter or _, then letters, digits or _)"


class Case(NamedTuple):
    what: str
    model: bytes
    place: int
    size: int  # of what is marked
    found: str
    around: str  # the containers


# where each container is: the containers from the outermost, each with what is before and behind it in the one around it
IN_NODE = ((NODE, A_VERSION + node_id(0) + COUNT + node(0), node(2)),)
IN_EDGE = (*IN_NODE, (PATTERN_EDGE, node_id(1) + parent(0), signer(0)))
IN_CONSTRAINT = (*IN_EDGE, (CONSTRAINT, node_id(2) + tag(1) + constraint(), constraint()))
IN_OPTION = (*IN_CONSTRAINT, (OPTION, option(tag(1)), option()))
IN_CALL = (*IN_OPTION, (CALL, tag(1), tag(2)))
WHERE = {
    "model": (),
    "Node": IN_NODE,
    "ValueEdge": (*IN_NODE, (VALUE_EDGE, node_id(1) + rule_name("#r"), pattern_edge(2, 1))),
    "PatternEdge": IN_EDGE,
    "Constraint": IN_CONSTRAINT,
    "ConstraintOption": IN_OPTION,
    "UserFnCall": IN_CALL,
    "UserFnArg": (*IN_CALL, (ARGUMENT, FUNCTION, argument(tag(1)))),
    "TagSymbol": ((SYMBOL, A_VERSION + node_id(0) + COUNT + node(0), symbol(1, "s")),),
}
END = " or the end of the {0}"
EDGES = "ValueEdge, PatternEdge, SignConstraint" + END
# elements that each container may have, and what may stand in each gap between them
ORDER = {
    "model": (
        [A_VERSION, node_id(0), COUNT, node(0), symbol(1, "s")],
        ["Version", "StartId", "NamedPatternCnt", "Node, TagSymbol" + END, "Node, TagSymbol" + END, "TagSymbol" + END],
    ),
    "Node": (
        [node_id(1), parent(0), rule_name("#r"), value_edge(2, "v"), pattern_edge(2, 1), signer(0)],
        ["NodeId", "Parent, RuleName, " + EDGES, "RuleName, " + EDGES, "RuleName, " + EDGES, EDGES, EDGES.partition(", ")[2], "SignConstraint" + END],
    ),
    "ValueEdge": ([node_id(2), value("v")], ["Destination", "Value", "the end of the {0}"]),
    "PatternEdge": ([node_id(2), tag(1), constraint()], ["Destination", "Tag", "Constraint" + END, "Constraint" + END]),
    "Constraint": ([option(tag(1))], ["ConstraintOption" + END] * 2),
    "ConstraintOption": ([value("v"), tag(1), call("$eq", tag(1))], ["Value, Tag, UserFnCall" + END] * 4),
    "UserFnCall": ([FUNCTION, argument(tag(1))], ["FnId", "UserFnArg" + END, "UserFnArg" + END]),
    "UserFnArg": ([tag(1)], ["Value or Tag", "the end of the {0}"]),
    "TagSymbol": ([tag(1), element(IDENTIFIER, b"s")], ["Tag", "Identifier", "the end of the {0}"]),
}


def within(where, inside):
    """A model with this inside of a container, where in the model it begins, and the containers as the command writes them."""
    headers = []
    for typ, before, behind in reversed(where):
        whole = element(typ, inside)
        headers.append(len(whole) - len(inside))
        inside = before + whole + behind
    at, around = 0, []
    for typ, before, _ in where:
        at += len(before)
        around.append(f"{NAMES[typ]}{' 1' if typ == NODE else ''} at byte {at}")
        at += headers.pop()
    return inside, at, " > ".join(around) or "the model itself"


def case(where, before, fault, behind, found, size=None, place=0):
    """A fault between other elements; `place` is in its bytes, of which all are marked where no size is given."""
    of, at, around = within(where, before + fault + behind)
    what = f"{found} in {around}, {fault[:20].hex()} after {before.hex()}"
    return Case(what, of, at + len(before) + place, len(fault) if size is None else size, found, around)


# headers: the bytes, what is said of them, and how many are marked. The first ones may be anywhere, the others need the end of the container
ANYWHERE = (
    ("00 00", "type 0: types are 1 to 4,294,967,295", 1),
    ("FF 00 00 00 01 00 00 00 00 00", "type 4,294,967,296: types are 1 to 4,294,967,295", 9),
    ("FD 00 80 00", "a type in 3 bytes, and 128 has a shorter form", 3),
    ("FE 00 00 FF FF 00", "a type in 5 bytes, and 65,535 has a shorter form", 5),
    ("FF 00 00 00 00 00 00 00 25 00", "a type in 9 bytes, and 37 has a shorter form", 9),
    ("80 FD 00 01 00", "optional element 0x80 with a length in 3 bytes, and 1 has a shorter form", 4),
    ("FD 01 01 FE 00 00 00 FD", "element of the unknown critical type 0x101 with a length in 5 bytes, and 253 has a shorter form", 8),
    ("81 00", "element of the unknown critical type 0x81", 2),
    ("07 03 80 00 00", "element of the unknown critical type 0x07", 5),
    ("1E 00", "element of the unknown critical type 0x1E", 2),
    ("FD 01 01 00", "element of the unknown critical type 0x101", 4),
    ("FE FF FF FF FF 01 00", "element of the unknown critical type 0xFFFFFFFF", 7),
)
AT_THE_END = (
    ("80", "{1} without a length: the {0} ends"),
    ("80 FD 01", "{1} with a length in 3 bytes, of which 2 are left in the {0}"),
    ("80 FF 00 00 00 01", "{1} with a length in 9 bytes, of which 5 are left in the {0}"),
    ("80 01", "{1} of 1 byte, and 0 are left in the {0}"),
    ("80 03 00", "{1} of 3 bytes, and 1 is left in the {0}"),
    ("80 FF FF FF FF FF FF FF FF FF", "{1} of 18,446,744,073,709,551,615 bytes, and 0 are left in the {0}"),
    ("FD", "a type in 3 bytes, of which 1 is left in the {0}"),
    ("FE 00 01 00", "a type in 5 bytes, of which 4 are left in the {0}"),
)
CRITICAL_AT_THE_END = (
    ("81", "element of the unknown critical type 0x81 without a length: the {0} ends"),
    ("81 03 00 00", "element of the unknown critical type 0x81 of 3 bytes, and 2 are left in the {0}"),
)


def header_faults():
    for name, (elements, _) in ORDER.items():
        for i in range(len(elements) + 1):
            before, behind = b"".join(elements[:i]), b"".join(elements[i:])
            for text, found, size in ANYWHERE:
                yield case(WHERE[name], before, bytes.fromhex(text), behind, found, size)
            for text, found in AT_THE_END + CRITICAL_AT_THE_END:
                yield case(WHERE[name], before, bytes.fromhex(text), b"", found.format(name, "optional element 0x80"))


def order_faults():
    for name, (elements, expected) in ORDER.items():
        for i, words in enumerate(expected):
            words = words.format(name)
            before, behind = b"".join(elements[:i]), b"".join(elements[i:])
            for typ, called in NAMES.items():
                called = ROLES.get((name, typ), called)
                if called not in words.partition("the end")[0].replace(" or ", ", ").split(", "):
                    yield case(WHERE[name], before, element(typ, b"\0"), behind, f"{called} out of its place: expected {words}")
            if "the end" not in words:
                for optional in b"", b"\x80\x00":
                    yield case(WHERE[name], before + optional, b"", b"", f"the {name} ends, and its {words} is missing")


def plain_faults():
    sizes = "1, 2, 4 or 8"
    for name, (elements, _) in ORDER.items():
        for i, of in enumerate(elements):
            before, behind = b"".join(elements[:i]), b"".join(elements[i + 1 :])
            called = ROLES.get((name, of[0]), NAMES[of[0]])
            if of[0] in (TAG, NODE_ID, SIGNER, PARENT, PATTERN_COUNT):
                for size in (0, 3, 5, 6, 7, 9, 300):
                    words = f"{called} of {size} bytes, and an integer takes {sizes}"
                    yield case(WHERE[name], before, element(of[0], bytes(size)), behind, words)
            elif of[0] == VERSION:
                for size in (0, 1, 3, 5, 8):
                    words = f"Version of {size} byte{'s' * (size != 1)}, and it takes 4"
                    yield case((), before, element(VERSION, bytes(size)), behind, words)
            elif of[0] in (IDENTIFIER, FN_ID):
                yield from text_faults(name, before, of[0], behind, called)


def text_faults(name, before, typ, behind, called):
    sign = {"RuleName": "#", "FnId": "$", "Identifier": ""}[called]
    form = f"{sign} and {AN_IDENTIFIER}" if sign else AN_IDENTIFIER
    without = ["", sign, "a"] if sign else [""]
    for text in [*without, *(sign + rest for rest in ("1a", "a b", "é", "a\n", "a-", "\0", "'", "#a", "$a"))]:
        data = text.encode()
        yield case(WHERE[name], before, element(typ, data), behind, f"{called} {repr(data)[1:]}, which is not {form}")
    long = sign.encode() + b"r" * 299 + b"-"
    yield case(WHERE[name], before, element(typ, long), behind, f"{called} {repr(long[:40])[1:]} .. ({len(long)} bytes), which is not {form}")


def value_faults():
    """The component in a Value; the Value is a container here."""
    for name, before, behind in (
        ("ValueEdge", node_id(2), b""),
        ("ConstraintOption", tag(1), tag(2)),
        ("UserFnArg", b"", b""),
    ):
        where = (*WHERE[name], (VALUE, before, behind))
        yield case(where, b"", b"", b"", "the Value ends, and its component is missing")
        for text, found, size in ANYWHERE[:5]:
            yield case(where, b"", bytes.fromhex(text), b"", found, size)
        yield case(where, b"", bytes.fromhex("08 FD 00 01 00"), b"", "component of type 8 with a length in 3 bytes, and 1 has a shorter form", 4)
        for text, found in AT_THE_END:
            yield case(where, b"", bytes.fromhex(text), b"", found.format("Value", "component of type 128"))
        for typ in (65536, 2**32 - 1):
            yield case(where, b"", component("v", typ), b"", f"component of type {typ:,}, and 65,535 is the largest")
        for rest in ("00", "80 00", "08 01 62", "FD", "08 05"):
            rest = bytes.fromhex(rest)
            words = f"{len(rest)} byte{'s' * (len(rest) > 1)} behind the Value's one component"
            yield case(where, component("v"), rest, b"", words)
            yield case(where, component(bytes(300), 65535), rest, b"", words)


def cases():
    yield Case("no bytes", b"", 0, 0, "the model ends, and its Version is missing", "the model itself")
    yield from header_faults()
    yield from order_faults()
    yield from plain_faults()
    yield from value_faults()


# damage at random


def damaged(data, chance):
    """A model with some of its bytes changed, taken out or put in: mostly what a reader knows, so that the fault is deep."""
    data = bytearray(data)
    for _ in range(chance.choice((1, 1, 1, 2, 3))):
        at = chance.randrange(len(data) + 1)
        byte = chance.choice((0, 1, 3, 8, 0x80, 0x81, 0xFD, 0xFE, 0xFF, *NAMES, chance.randrange(256)))
        size = chance.choice((0, 1, 1, 1, chance.randrange(20)))
        data[at : at + size] = [byte] * chance.choice((0, 1, 1, 1, 2))
    return bytes(data)


def damaged_models(models, count, seed=0):
    chance = random.Random(seed)
    return [damaged(chance.choice(models), chance) for _ in range(count)]
