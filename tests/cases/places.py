"""Where a model is malformed: the place that refusal 2 gives, for every sort of fault in every container.

Most models here are a good one with something changed in one of its containers. The place comes from how it was built (build.py, Faulty):
what is changed says where its own fault is, and each container around it adds what stands before.
"""
from bench import A, B
from build import *
from gaps import CONTAINERS, parts, put_everywhere
from writing import (
    a_call,
    a_constraint,
    a_model,
    a_node,
    a_pattern,
    a_symbol,
    a_tag,
    a_value,
    an_edge,
    an_option,
    bad,
    not_described,
    not_written,
)

MODEL, END = "model", "end"

# what may stand next in a container, behind its last element that is not optional (None: there is none); END where it may end there
FOLLOWS = {
    MODEL: {
        None: {VERSION},
        VERSION: {NODE_ID},
        NODE_ID: {PATTERN_COUNT},
        PATTERN_COUNT: {NODE, SYMBOL, END},
        NODE: {NODE, SYMBOL, END},
        SYMBOL: {SYMBOL, END},
    },
    NODE: {
        None: {NODE_ID},
        NODE_ID: {PARENT, IDENTIFIER, VALUE_EDGE, PATTERN_EDGE, SIGNER, END},
        PARENT: {IDENTIFIER, VALUE_EDGE, PATTERN_EDGE, SIGNER, END},
        IDENTIFIER: {IDENTIFIER, VALUE_EDGE, PATTERN_EDGE, SIGNER, END},
        VALUE_EDGE: {VALUE_EDGE, PATTERN_EDGE, SIGNER, END},
        PATTERN_EDGE: {PATTERN_EDGE, SIGNER, END},
        SIGNER: {SIGNER, END},
    },
    VALUE_EDGE: {None: {NODE_ID}, NODE_ID: {VALUE}, VALUE: {END}},
    PATTERN_EDGE: {None: {NODE_ID}, NODE_ID: {TAG}, TAG: {CONSTRAINT, END}, CONSTRAINT: {CONSTRAINT, END}},
    CONSTRAINT: {None: {OPTION, END}, OPTION: {OPTION, END}},
    OPTION: {last: {VALUE, TAG, CALL, END} for last in (None, VALUE, TAG, CALL)},
    CALL: {None: {FN_ID}, FN_ID: {ARGUMENT, END}, ARGUMENT: {ARGUMENT, END}},
    ARGUMENT: {None: {VALUE, TAG}, VALUE: {END}, TAG: {END}},
    SYMBOL: {None: {TAG}, TAG: {IDENTIFIER}, IDENTIFIER: {END}},
}

# models that are accepted


def full_at(i, count):
    """The index of the i-th Node with every kind of container: the start comes before them, and three Nodes for each."""
    return 1 + 3 * count + i % count


def full_parts(i, count, text="x"):
    """What is in it. Its edges lead to the next of its kind, from the last to the first, and to three Nodes that have nothing but a Parent."""
    to = full_at(i + 1, count), *range(1 + 3 * i, 4 + 3 * i)
    terms = value(text), tag(1), call("$eq", value(text)), call("$eq_type", tag(1)), call("$isValidID")
    constrained = pattern_edge(to[3], 2, constraint(), constraint(*map(option, terms)))
    edges = value_edge(to[0], text), value_edge(to[1], "v"), pattern_edge(to[2], 1), constrained
    at = full_at(i, count)
    return node_id(at), parent(full_at(i - 1, count)), rule_name("#a"), rule_name("#b"), *edges, signer(at), signer(0)


def full_nodes(count, text="x"):
    """The start leads to none of the others, so that these may lead around."""
    ends = [node(1 + i, parent(full_at(i // 3, count))) for i in range(3 * count)]
    return [node(0), *ends, *(element(NODE, *full_parts(i, count, text)) for i in range(count))]


def full_model(nodes, text="x"):
    return model(*nodes, patterns=2, behind=concat(symbol(1, "s"), symbol(2, text)))


HEAD = model()
ONE, THREE = full_model(full_nodes(1)), full_model(full_nodes(3))
LONG_TEXT = "x" * 253
WIDE = full_model(full_nodes(1, LONG_TEXT), LONG_TEXT)  # a Value's length has 3 bytes, so have those of all around it
SPARES = {data: bytes.fromhex(data) for data in ("8000", "fd010003ffffff", "fefffffffe00")}  # types of 1, 3 and 5 bytes
SPREAD = {f"{what} in every gap": put_everywhere(ONE, spare) for what, spare in SPARES.items()}
IN_FRONT = "fefffffffe00 in every gap"
CRITICAL = bytes.fromhex("8100")


def good_models():
    yield "three Nodes, no fault", verdict(THREE), "accepted 13"
    for what, of in ("one Node", ONE), ("long texts", WIDE), *SPREAD.items():
        yield f"{what}, no fault", verdict(of), "accepted 5"


# the calls

A_NAME = path("/a")
WORDS = [7, 8]  # 1 to 3 are tested before 27
PATH_WORDS = [9]  # and before 34: two names of one component each take two


def by_match(what, of, answer):
    yield f"{what}, to be matched", match(of, A_NAME, WORDS), kept(answer, WORDS)


def by_sign(what, of, answer):
    yield f"{what}, to be signed by", sign(of, A_NAME, A_NAME, PATH_WORDS, WORDS), both_kept(answer, PATH_WORDS, WORDS)
    yield f"{what}, to follow a path in", follow(of, A_NAME, A_NAME, PATH_WORDS), answer


def by_suggest(what, of, answer):
    yield f"{what}, for a suggestion", suggest(of, A_NAME, A_NAME), answer


def by_describe(what, of, answer):
    yield from not_described(f"{what}, to be described", of, answer, 1, 1)


OTHER_CALLS = by_match, by_sign, by_suggest, by_describe


def verdicts(models):
    """models: (what, model)."""
    for what, of in models:
        yield what, verdict(of), refused_at(of)


def all_calls(models):
    for what, of in models:
        yield what, verdict(of), refused_at(of)
        for asked in OTHER_CALLS:
            yield from asked(what, of, refused_at(of))


def in_turn(models):
    """The verdict on each, and one of the other calls."""
    for i, (what, of) in enumerate(models):
        yield what, verdict(of), refused_at(of)
        yield from OTHER_CALLS[i % len(OTHER_CALLS)](what, of, refused_at(of))


# (bytes, place) by hand; H is the head of A

BY_HAND = (
    ("", 0),
    ("61", 0),
    ("61 04 FF 01 10", 0),
    ("61 03 00 01 10", 0),
    ("61 04 00 01 10 00", 6),
    ("61 04 00 01 10 00 25 01 00", 9),
    ("61 04 00 01 10 00 25 03 00 00 00", 6),
    ("61 04 00 01 10 00 80 00 25 03 00 00 00", 8),
    ("61 04 00 01 10 00 69 01 00 25 01 00", 6),
    ("80 01 00 61 03 00 01 10", 3),
    ("H 61 04 FF 01 10 00", 12),
    ("H 51 02 81 00", 12),
    ("H 63", 12),
    ("H 63 00", 14),
    ("H 63 05 81 00", 12),
    ("H 63 02 81 00", 14),
    ("H 63 02 80 00", 16),
    ("H 63 02 80 01", 14),
    ("H 63 01 80 63 03 25 01 01", 14),
    ("H 63 05 25 01 00 57 05", 17),
    ("H 63 06 57 01 00 25 01 00", 14),
    ("H 63 05 25 03 00 00 00", 14),
    ("H 63 06 25 01 00 29 01 61", 17),
    ("H 63 0A 25 01 00 51 05 25 01 00 21 00", 24),
    ("H 63 08 25 01 00 51 03 25 01 00", 22),
    ("H 63 0D 25 01 00 51 08 25 01 00 21 03 08 02 61", 24),
    ("H 63 0E 25 01 00 51 09 25 01 00 21 04 08 01 61 00", 27),
    ("H 63 0F 25 01 00 53 0A 25 01 00 23 01 01 43 02 41 01", 27),
    ("H 63 13 25 01 00 53 0E 25 01 00 23 01 01 43 06 41 04 31 02 27 00", 31),
    ("H 63 11 25 01 00 53 0C 25 01 00 23 01 01 43 04 41 02 31 00", 31),
    ("H 63 03 25 01 00 67 03 23 01 01", 22),
    ("H 63 03 25 01 00 67 06 23 01 01 29 01 39", 22),
    ("H 67 06 23 01 01 29 01 61 63 03 25 01 00", 20),
)


def by_hand():
    for data, place in BY_HAND:
        yield data or "no bytes", faulty(bytes.fromhex(data.replace("H", "61 04 00 01 10 00 25 01 00 69 01 00")), place)


# changes of a container


def changed(inside, change, around=MODEL):
    """(what, model) for all that `change` makes of one container, of the model itself and of each that is in it at any depth."""
    elements = list(parts(inside))
    written = [element(*e) for e in elements]
    for what, new in change(around, elements, written):
        yield f"{NAMES.get(around, around)}, {what}", new
    for i, (typ, deeper) in enumerate(elements):
        if typ in CONTAINERS:
            for what, new in changed(deeper, change, typ):
                yield f"{i}: {what}", concat(*written[:i], element(typ, new), *written[i + 1 :])


def named(what, models):
    return ((f"{what}, {where}", of) for where, of in models)


def may_follow(around, elements):
    return FOLLOWS[around][next((typ for typ, _ in reversed(elements) if typ in NAMES), None)]


# headers

HEADERS = {
    "type 0": "0000",
    "type 0 with an inside": "000100",
    "type 0 in 3 bytes": "fd000000",
    "NodeId's type in 3 bytes": "fd00250100",
    "type 128 in 3 bytes": "fd008000",
    "type 256 in 5 bytes": "fe0000010000",
    "type 65,536 in 9 bytes": "ff000000000001000000",
    "type 2^32": "ff000000010000000000",
    "type 2^64 - 1": "ffffffffffffffffff00",
    "a length of 0 in 3 bytes": "80fd0000",
    "a length of 1 in 5 bytes": "80fe0000000100",
    "a length of 0 in 9 bytes": "80ff0000000000000000",
    "a length of 252 in 3 bytes": "80fd00fc" + "00" * 252,
    "a length of 65,535": "80fdffff",
    "a length of 2^31": "80fe80000000",
    "a length of 2^32": "80ff0000000100000000",
    "a length of 2^64 - 1": "80ffffffffffffffffff",
    "a length of 2^64 - 10, so that the end would be the start": "80fffffffffffffffff6",
    "a critical element": "8100",
    "a critical element with another in it": "81028100",
    "a critical element whose length is too large": "81ff0000000100000000",
    "type 1": "0100",
    "type 7": "0703080161",
    "type 8": "080161",
    "type 30": "1e00",
    "type 31": "1f00",
    "a critical type of 3 bytes": "fd0101020800",
    "a critical type of 5 bytes": "fe0001000100",
    "the largest type": "feffffffff00",
}
CUT_HEADERS = ("80", "63", "81", "fd", "fd01", "fd0100", "fe000100", "ff00000001", "80fd", "80fd01", "80fe000100", "80ff00000001", "8001")


def in_gaps(faults):
    """Each of these elements in each gap."""

    def change(_, elements, written):
        for i in range(len(elements) + 1):
            for what, data in faults.items():
                yield f"{what} in gap {i}", concat(*written[:i], faulty(bytes.fromhex(data)), *written[i:])

    return change


def one_in_each_gap(faults, step):
    """One of these elements in each gap, another in the next."""
    faults, turn = list(faults.items()), iter(range(0, 10**6, step))

    def change(_, elements, written):
        for i in range(len(elements) + 1):
            what, data = faults[next(turn) % len(faults)]
            yield f"{what} in gap {i}", concat(*written[:i], faulty(bytes.fromhex(data)), *written[i:])

    return change


def too_long(typ, rest):
    """An element with a length of one byte more than there is."""
    return faulty(number(typ) + number(len(rest) + 1) + rest)


def past_the_end(_, elements, written):
    for i in range(len(elements) + 1):
        for typ in (0x80, 0x81, 0xFFFFFFFE):
            yield f"type {typ} in gap {i}, past the end", concat(*written[:i], too_long(typ, b"".join(written[i:])))
    for i, (typ, inside) in enumerate(elements):
        yield f"element {i} past the end", concat(*written[:i], too_long(typ, inside + b"".join(written[i + 1 :])))


def cut_header_last(_, elements, written):
    for data in CUT_HEADERS:
        yield f"{data} behind the last", concat(*written, faulty(bytes.fromhex(data)))


def longer_forms(_, elements, written):
    """The type or the length of an element in more bytes than it needs."""
    for i, (typ, inside) in enumerate(elements):
        shortest = number(typ), number(len(inside))
        for marker, size in (0xFD, 2), (0xFE, 4), (0xFF, 8):
            for k, n in enumerate((typ, len(inside))):
                if len(shortest[k]) <= size:
                    long = bytes([marker]) + n.to_bytes(size, "big")
                    head = long + shortest[1] if k == 0 else shortest[0] + long
                    what = f"element {i}, its {('type', 'length')[k]} in {1 + size} bytes"
                    yield what, concat(*written[:i], faulty(head + inside), *written[i + 1 :])


def headers():
    yield from verdicts(changed(ONE, in_gaps(HEADERS)))
    yield from in_turn(named("three Nodes", changed(THREE, one_in_each_gap(HEADERS, 5))))
    for step, (what, of) in enumerate([*SPREAD.items(), ("long texts", WIDE)], 2):
        yield from verdicts(named(what, changed(of, one_in_each_gap(HEADERS, step))))
    for change in past_the_end, cut_header_last, longer_forms:
        yield from verdicts(changed(ONE, change))
    # put into a gap of a readable model, a critical element is at fault itself
    critical = {"8100": "8100", "fd0101": "fd010103ffffff"}
    yield from all_calls(named("A", changed(A, in_gaps(critical))))
    yield from all_calls(named("B", changed(B, in_gaps(critical))))
    yield from verdicts(named("long texts", changed(WIDE, in_gaps({"8100": "8100"}))))


# known elements out of their place

GOOD_ELEMENTS = {
    VALUE: value("a"),
    TAG: tag(1),
    NODE_ID: node_id(0),
    FN_ID: element(FN_ID, b"$eq"),
    IDENTIFIER: rule_name("#a"),
    CALL: call("$isValidID"),
    ARGUMENT: argument(tag(1)),
    OPTION: option(tag(1)),
    CONSTRAINT: constraint(),
    VALUE_EDGE: value_edge(0, "a"),
    PATTERN_EDGE: pattern_edge(0, 1),
    SIGNER: signer(0),
    PARENT: parent(0),
    VERSION: HEAD[:6],
    NODE: node(0),
    SYMBOL: symbol(1, "a"),
    PATTERN_COUNT: integer(PATTERN_COUNT, 0),
}


def misplaced(made):
    """Each known element in each gap where it may not stand, as `made` has it."""

    def change(around, elements, written):
        for i in range(len(elements) + 1):
            for typ in GOOD_ELEMENTS:
                if typ not in may_follow(around, elements[:i]):
                    yield f"a {NAMES[typ]} in gap {i}", concat(*written[:i], faulty(made(typ)), *written[i:])

    return change


def reordered(elements):
    """(what, elements) with one taken out, twice, or exchanged with the next."""
    for i, e in enumerate(elements):
        yield f"without element {i}", [*elements[:i], *elements[i + 1 :]]
        yield f"element {i} twice", [*elements[:i], e, *elements[i:]]
        if i:
            yield f"elements {i - 1} and {i} exchanged", [*elements[: i - 1], e, elements[i - 1], *elements[i + 1 :]]
    yield "all in reverse", elements[::-1]


def other_orders(around, elements, _):
    for what, others in reordered(elements):
        written = [element(*e) for e in others]
        wrong = [i for i, (typ, _) in enumerate(others) if typ not in FOLLOWS[around].get(others[i - 1][0] if i else None, ())]
        if wrong:
            i = wrong[0]
            yield what, concat(*written[:i], faulty(written[i]), *written[i + 1 :])
        elif END not in may_follow(around, others):
            yield what, concat(*written, MISSING)


def order():
    yield from verdicts(changed(ONE, misplaced(GOOD_ELEMENTS.get)))
    # the header stands before the inside, so that this is not read
    yield from verdicts(named("a type alone inside", changed(B, misplaced(lambda typ: element(typ, b"\x81")))))
    yield from in_turn(changed(ONE, other_orders))
    yield from verdicts(named("three Nodes", changed(THREE, other_orders)))


# an end with one missing


def missing(around, elements, written):
    for i in range(len(elements) + 1):
        if END not in may_follow(around, elements[:i]):
            yield f"nothing from gap {i} on", concat(*written[:i], MISSING)
            for what, spare in SPARES.items():
                yield f"nothing from gap {i} on but {what}", concat(*written[:i], spare, MISSING)
            yield f"an optional element around all from gap {i} on", concat(*written[:i], element(0x80, *written[i:]), MISSING)


def ends():
    yield from in_turn(changed(ONE, missing))
    for what, of in ("three Nodes", THREE), (IN_FRONT, SPREAD[IN_FRONT]):
        yield from verdicts(named(what, changed(of, missing)))


# plain bytes

INTEGER_SIZES = (0, 3, 5, 6, 7, 9, 253)
RULE_NAMES = ("", "#", "a", "9", "#9", "##a", "#a-b", "#a ", "$a", "#\u00e4", "#a#", "#a\0", f"#{LONG_TEXT}-")
IDENTIFIERS = ("", "9", "9a", "#a", "$a", "a-b", "a ", "\u00e4", f"{LONG_TEXT}-")
FUNCTIONS = ("", "$", "eq", "$9", "#eq", "$$eq", "$eq ", "$eq-type", "$\u00e4", f"${LONG_TEXT}-")


def bad_bytes(around, typ):
    """(what, bytes) that may not be an element's inside."""
    texts = {FN_ID: FUNCTIONS, IDENTIFIER: RULE_NAMES if around == NODE else IDENTIFIERS}.get(typ, ())
    sizes = {VERSION: (0, 1, 2, 3, 5, 8, 253), **dict.fromkeys((TAG, NODE_ID, SIGNER, PARENT, PATTERN_COUNT), INTEGER_SIZES)}.get(typ, ())
    yield from ((repr(text[:9]), text.encode()) for text in texts)
    yield from ((f"{size} bytes", bytes(size)) for size in sizes)


def bad_insides(around, elements, written):
    for i, (typ, _) in enumerate(elements):
        for what, data in bad_bytes(around, typ):
            yield f"element {i}, {NAMES[typ]} of {what}", concat(*written[:i], plain(typ, faulty(data)), *written[i + 1 :])


def plain_bytes():
    yield from in_turn(changed(ONE, bad_insides))
    for what, of in ("three Nodes", THREE), (IN_FRONT, SPREAD[IN_FRONT]):
        yield from verdicts(named(what, changed(of, bad_insides)))


# Values

BAD_COMPONENTS = {
    "type 0": "0000",
    "type 0 and an inside": "000161",
    "type 65,536": "fe0001000000",
    "type 65,536 and a length that is too large": "fe0001000001",
    "type 2^32 - 1": "feffffffff0161",
    "type 2^32": "ff000000010000000000",
    "type 8 in 3 bytes": "fd00080161",
    "type 253 in 5 bytes": "fe000000fd00",
    "a length of 1 in 3 bytes": "08fd000161",
    "a length of 1 in 9 bytes": "08ff000000000000000161",
    "a length of one too much": "080261",
    "a length of 65,535": "08fdffff",
    "a length of 2^64 - 1": "08ffffffffffffffffff",
    "a type alone": "08",
    "a cut type": "fd01",
    "a cut length": "08fd01",
}
COMPONENTS = {
    "an empty component": component(""),
    "one of 253 bytes": component(LONG_TEXT),
    "one of type 256": component("a", 256),
    "one of an optional type": component("", 0x80),
    "one of a critical type": component("", 0x81),
    "one of a Value's type": component("", VALUE),
}
BEHIND = {
    "another": "080162",
    "an optional element": "8000",
    "a critical element": "8100",
    "a byte 0": "00",
    "a type alone": "80",
    "a cut element": "0802",
}


def bad_values():
    """(what, Value)."""
    yield "a Value with nothing", element(VALUE, MISSING)
    for what, data in BAD_COMPONENTS.items():
        yield f"a Value with {what}", element(VALUE, faulty(bytes.fromhex(data)))
    for what in ("type 0", "type 65,536", "type 8 in 3 bytes", "a length of 1 in 3 bytes"):
        yield f"a Value with {what}, and more", element(VALUE, faulty(bytes.fromhex(BAD_COMPONENTS[what])), component("b"))
    for what, data in BEHIND.items():
        yield f"a Value with a component and {what}", element(VALUE, component("a"), faulty(bytes.fromhex(data)))
    for what, first in COMPONENTS.items():
        yield f"a Value with {what} and another", element(VALUE, first, faulty(component("b")))


def values(_, elements, written):
    for i, (typ, _) in enumerate(elements):
        if typ == VALUE:
            for what, new in bad_values():
                yield f"element {i}, {what}", concat(*written[:i], new, *written[i + 1 :])


def in_values():
    yield from in_turn(changed(ONE, values))
    for what, of in ("three Nodes", THREE), (IN_FRONT, SPREAD[IN_FRONT]):
        yield from verdicts(named(what, changed(of, values)))


# cuts


def cut_elements(_, elements, written):
    """A container that ends within one of its elements, the lengths around it being right."""
    for i, e in enumerate(written):
        for size in range(1, len(e)):
            yield f"element {i} cut after {size} bytes", concat(*written[:i], faulty(e[:size]))


def cut_models(what, of, answers):
    """A file that ends too early: within an element of the model, or before one. `answers` are those of no Node, one Node and so on."""
    elements = list(parts(of))
    written = [element(*e) for e in elements]
    for i, e in enumerate(written):
        before = concat(*written[:i])
        if END not in may_follow(MODEL, elements[:i]):
            yield from all_calls([(f"{what}, cut before element {i}", concat(before, MISSING))])
        else:
            yield f"{what}, cut before element {i}", verdict(before), answers[sum(typ == NODE for typ, _ in elements[:i])]
        yield from in_turn((f"{what}, element {i} cut after {size} bytes", concat(before, faulty(e[:size]))) for size in range(1, len(e)))


def cuts():
    yield from verdicts(changed(ONE, cut_elements))
    yield from cut_models("A", A, ["refused 7 0"])
    yield from cut_models("B", B, ["refused 7 0", "refused 8 0"])
    some = [f"accepted {i}" for i in range(1, 11)]  # the start, and Nodes without edges
    yield from cut_models("three Nodes", THREE, ["refused 7 0", *some, "refused 8 10", "refused 8 11", "accepted 13"])
    yield from cut_models("8000 in every gap", SPREAD["8000 in every gap"], ["refused 7 0", *some[:5]])


# Version


def other_versions(front):
    """(what, the beginning of a model of another version, its answer). `front` are optional elements."""
    other, there = element(VERSION, bytes.fromhex("ff011000")), f"refused 2 {len(front)}"
    yield "nothing but Version", front + other, "refused 3 0"
    for what, data in HEADERS.items():
        yield f"{what} behind Version", front + other + bytes.fromhex(data), "refused 3 0"
        yield f"{what} before Version", front + bytes.fromhex(data) + other, there
    for data in CUT_HEADERS:
        yield f"{data} behind Version", front + other + bytes.fromhex(data), "refused 3 0"
    for typ, data in GOOD_ELEMENTS.items():
        if typ != VERSION:
            yield f"a {NAMES[typ]} before Version", front + data + other, there
        yield f"a {NAMES[typ]} behind Version", front + other + data, "refused 3 0"
    for size in range(1, len(other)):
        yield f"the first {size} bytes of Version", front + other[:size], there
    for size in (0, 1, 2, 3, 5, 6, 8, 253):
        yield f"a Version of {size} bytes", front + element(VERSION, b"\xff" * size) + HEAD[6:], there
    for head in ("fd006104", "fe0000006104", "61fd0004", "61fe00000004", "61ff0000000000000004"):
        yield f"a Version with header {head}", front + bytes.fromhex(head) + other[2:], there
    for typ in (0x80, 0xFFFFFFFE):
        yield f"an element of type {typ} before Version, past the end", front + too_long(typ, other), there
    # the first Version is the one that counts, and a second is out of its place
    for i in (6, 9, 12):
        yield f"a good Version and another, {i} bytes behind it", front + HEAD[:i] + other + HEAD[i:], f"refused 2 {len(front) + i}"
        yield f"another Version and a good one, {i} bytes behind it", front + other + HEAD[6:i] + HEAD[:6], "refused 3 0"


def versions():
    fronts = {"": b"", **{f"{what} in front, ": spare for what, spare in SPARES.items()}}
    fronts["two long elements in front, "] = element(0x80, bytes(253)) + element(0x10000, b"\x81" * 300)
    for front, data in fronts.items():
        yield f"{front}nothing else", verdict(data), f"refused 2 {len(data)}"
        for i, (what, of, answer) in enumerate(other_versions(data)):
            yield front + what, verdict(of), answer
            if not data:
                yield from OTHER_CALLS[i % len(OTHER_CALLS)](what, of, answer)


# two faults: the first in the file counts, and an element's header stands before its inside


def held(term):
    return pattern_edge(0, 1, constraint(option(tag(1)), option(term)))


# what stands where a Node may, with a fault of each sort
FAULTY_NODES = {
    "a critical element": faulty(CRITICAL),
    "type 0": faulty(bytes(2)),
    "a Parent": faulty(parent(0)),
    "a Node with nothing": element(NODE, MISSING),
    "a Node with a RuleName first": element(NODE, faulty(rule_name("#a")), node_id(0)),
    "two Parents": node(0, parent(0), faulty(parent(0))),
    "a NodeId of 3 bytes": element(NODE, faulty(integer(NODE_ID, 0, 3))),
    "a RuleName without #": node(0, parent(0), faulty(rule_name("a"))),
    "a ValueEdge without Value": node(0, parent(0), element(VALUE_EDGE, node_id(0), MISSING), signer(0)),
    "a Value with nothing": node(0, parent(0), value_edge(0, MISSING), signer(0)),
    "a component of type 65,536": node(0, parent(0), value_edge(0, faulty(component("a", 65536))), signer(0)),
    "two components": node(0, parent(0), value_edge(0, concat(component("a"), faulty(component("b")))), signer(0)),
    "a ValueEdge past its Node": node(0, parent(0), too_long(VALUE_EDGE, node_id(0) + value("a"))),
    "a critical element in an option": node(0, parent(0), held(faulty(CRITICAL)), signer(0)),
    "an FnId without $": node(0, parent(0), held(faulty(call("eq", tag(1)), 2)), signer(0)),  # behind the call's header
    "an argument with nothing": node(0, parent(0), held(call("$eq", MISSING)), signer(0)),
    "an argument with two Tags": node(0, parent(0), held(call("$eq", concat(tag(1), faulty(tag(1))))), signer(0)),
    "a signer of 5 bytes": node(0, parent(0), signer(0), faulty(integer(SIGNER, 0, 5))),
    "a cut element at a Node's end": node(0, parent(0), faulty(b"\x80")),
    "a TagSymbol without Identifier": element(SYMBOL, tag(1), MISSING),
    "a TagSymbol of '9'": element(SYMBOL, tag(1), faulty(element(IDENTIFIER, b"9"))),
}


def two_nodes():
    for first, a in FAULTY_NODES.items():
        yield f"{first}, then nothing", model(a)
        yield f"a cut file with {first} in its last element", model(faulty(a[:-1]))
        yield f"{first}, then a cut element", model(a, faulty(node(1)[:-1]))
        yield f"{first}, behind a head without NamedPatternCnt", concat(HEAD[:9], faulty(a))
        yield f"{first}, behind a StartId of 3 bytes", concat(HEAD[:6], faulty(integer(NODE_ID, 0, 3)), HEAD[9:], a)
        for second, b in FAULTY_NODES.items():
            yield f"{first}, then {second}", model(a, b)


def two_gaps(_, elements, written):
    """Faults in two gaps of one container."""
    for i in range(len(elements) + 1):
        for j in range(i + 1, len(elements) + 1):
            two = concat(*written[:i], faulty(bytes(2)), *written[i:j], faulty(CRITICAL), *written[j:])
            yield f"type 0 in gap {i}, a critical element in gap {j}", two


def outer_and_inner(_, elements, written):
    """A container with a critical element in it, and a fault of its own header, of one before it or of one behind it."""
    for i, (typ, inside) in enumerate(elements):
        if typ in CONTAINERS:
            front, behind = written[:i], written[i + 1 :]
            bad_inside, bad_one = CRITICAL + inside, element(typ, faulty(CRITICAL), inside)
            size = len(bad_inside)
            long_type, long_length = bytes([0xFD, 0, typ]) + number(size), bytes([typ, 0xFF]) + size.to_bytes(8, "big")
            yield f"element {i} past the end", concat(*front, too_long(typ, concat(bad_inside, *behind)))
            yield f"element {i}, its type in 3 bytes", concat(*front, faulty(long_type + bad_inside), *behind)
            yield f"element {i}, its length in 9 bytes", concat(*front, faulty(long_length + bad_inside), *behind)
            yield f"a critical element before element {i}", concat(*front, faulty(CRITICAL), bad_one, *behind)
            yield f"a critical element behind element {i}", concat(*front, bad_one, faulty(CRITICAL), *behind)
            yield f"element {i} without what follows, and a cut header", concat(*front, bad_one, faulty(b"\x80"))


def two_faults():
    yield from verdicts(two_nodes())
    yield from verdicts(changed(ONE, two_gaps))
    yield from in_turn(changed(ONE, outer_and_inner))
    yield from verdicts(named("three Nodes", changed(THREE, outer_and_inner)))


# long files


def long_file():
    """A file of 9 KB with a fault before its first Node, one in the middle, the last, and behind it.

    And with one in the first, a middle and the last of the Nodes that have every kind of container.
    """
    count = 61
    nodes = full_nodes(count)
    assert 9000 < len(full_model(nodes)) < 9300
    for k, i in enumerate((0, full_at(count // 2, count), len(nodes) - 1, len(nodes))):
        for what, of in list(FAULTY_NODES.items())[k::4]:
            yield f"{what} before Node {i}", full_model([*nodes[:i], of, *nodes[i:]])
    for i in (0, count // 2, count - 1):
        elements, at = full_parts(i, count), full_at(i, count)
        for j in range(len(elements) + 1):
            held_in = element(NODE, *elements[:j], faulty(CRITICAL), *elements[j:])
            yield f"a critical element in gap {j} of Node {at}", full_model([*nodes[:at], held_in, *nodes[at + 1 :]])


def largest():
    """Models of 32,768 bytes, and of one more."""
    version = HEAD[:6]
    for what, size, behind in ("a type alone", 32767, "80"), ("a header alone", 32766, "8001"), ("a critical element", 32766, "8100"):
        yield what, padded(A, size) + bytes.fromhex(behind), f"refused 2 {size}"
        yield f"{what}, one byte more", padded(A, size + 1) + bytes.fromhex(behind), "refused 1 0"
    yield "Version and nothing more", padded(version, 32768), "refused 2 32768"
    yield "Version and nothing more, one byte more", padded(version, 32769), "refused 1 0"
    # A's 17 bytes; a header of 4 for what is long; the Node's length has 3 bytes
    long_node = model(node(0, element(0x80, bytes(32768 - 17 - 4 - 2 - 2)), faulty(CRITICAL)))
    assert len(long_node) == 32768 and long_node.place == 32766
    yield "a Node that ends with a critical element", long_node, refused_at(long_node)
    edge = model(node(0, value_edge(0, concat(component(bytes(32768 - 17 - 2 - 5 - 4 - 6 - 1)), faulty(b"\x00")))))
    assert len(edge) == 32768 and edge.place == 32767
    yield "a Value with a byte behind its component", edge, refused_at(edge)
    yield "the same, cut by a byte", edge[:-1], "refused 2 12"


def long_files():
    yield from verdicts(long_file())
    for i, (what, of, answer) in enumerate(largest()):
        yield f"32,768 bytes: {what}", verdict(of), answer
        if i % 4 == 0:
            yield from by_match(f"32,768 bytes: {what}", of, answer)
            yield from by_sign(f"32,768 bytes: {what}", of, answer)


# descriptions: the place is that in the bytes that would be written


def term_in(i, term):
    return dict(patterns=[a_pattern(i, 1), a_pattern(i, 2, a_constraint(), a_constraint(an_option(a_tag(1)), an_option(term)))])


def bad_parts(i):
    """(what, what Node i has)."""
    for text in RULE_NAMES:
        yield f"rule name {text[:9]!r}", dict(rules=["#a", bad(text)])
        yield f"rule name {text[:9]!r} first", dict(rules=[bad(text), "#a"], values=[an_edge(i, "v")])
    for text in FUNCTIONS:
        yield f"function {text[:9]!r}", term_in(i, a_call(bad(text), a_tag(1)))
    for typ in (0, 65536, 2**32 - 1, 2**32, 2**64 - 1):
        for text in ("", "x", LONG_TEXT):
            size = f"type {typ} with {len(text)} bytes"
            yield f"an edge of {size}", dict(values=[an_edge(i, "v"), an_edge(i, text, typ)])
            yield f"an option of {size}", term_in(i, a_value(text, typ))
            yield f"an argument of {size}", term_in(i, a_call("$eq", a_tag(1), a_value(text, typ)))
    yield "a rule name and an edge", dict(rules=[bad("a")], values=[an_edge(i, "v", 0)])
    yield "an edge and a function", dict(values=[an_edge(i, "v", 0)], **term_in(i, a_call(bad("eq"))))
    yield "a function and its argument", term_in(i, a_call(bad("eq"), a_value("x", 0)))


def bad_descriptions():
    long_ones = dict(rules=[f"#{LONG_TEXT}"], values=[an_edge(0, LONG_TEXT)])
    for what, rest in bad_parts(0):
        yield f"{what} of the only Node", a_model(a_node(0, 0, **rest))
        yield f"{what} of the first Node", a_model(a_node(0, 0, **rest), a_node(1, **long_ones))
        last = a_node(2, 70000, **rest)
        yield f"{what} of the last Node", a_model(a_node(0, 0, **long_ones), a_node(1, 1), last, symbols=[a_symbol(1, "a")])
        yield f"{what} of both Nodes", a_model(a_node(0, 0, **rest), a_node(1, 0, **rest), patterns=2**32)
    for text in IDENTIFIERS:
        for before in ([], ["a"], [LONG_TEXT, "b"]):
            symbols = [a_symbol(1, good) for good in before] + [a_symbol(2, bad(text)), a_symbol(3, bad("9"))]
            yield f"symbol {text[:9]!r} behind {len(before)}", a_model(a_node(0, 0, **long_ones), symbols=symbols)


def descriptions():
    for i, (what, of) in enumerate(bad_descriptions()):
        yield from not_written(what, of.numbers, of.texts, refused_at(of.data), size=i % 3)
        if i % 4 == 0:
            yield f"{what}, its bytes", verdict(of.data), refused_at(of.data)


def cases():
    yield from all_calls(by_hand())
    for part in good_models, headers, order, ends, plain_bytes, in_values, cuts, versions, two_faults, long_files, descriptions:
        yield from part()
