"""Models written from their descriptions, and described: both calls (docs/format.md), with what was lent to them after each.

A part of a model is made here in three ways at once: its numbers and its texts, as the layout of the lists says, and its bytes, by
build.py. So each expected line follows from the layout.
"""
from typing import NamedTuple

from bench import A, B, OTHER_VERSION_CUT
from build import *
from gaps import FULL, put_everywhere
from limits import sized


class Part(NamedTuple):
    numbers: list
    texts: bytes
    data: bytes


def joined(parts):
    """(numbers, texts, data) of parts that follow one another."""
    parts = list(parts)
    return [n for part in parts for n in part.numbers], b"".join(p.texts for p in parts), concat(*(p.data for p in parts))


def counted(parts):
    """The same with a count before the numbers."""
    parts = list(parts)
    numbers, texts, data = joined(parts)
    return Part([len(parts), *numbers], texts, data)


def wrapped(typ, head, *parts):
    """A container: numbers and bytes at its head, and what is in it."""
    numbers, texts, data = joined(parts)
    return Part(head.numbers + numbers, head.texts + texts, element(typ, head.data, data))


def raw(text):
    return text if isinstance(text, bytes) else text.encode()


def bad(text):
    """A text that is not of its form."""
    return faulty(raw(text))


def a_text(typ, text):
    return Part([len(raw(text))], raw(text), plain(typ, raw(text)))


def a_number(typ, n):
    return Part([n], b"", integer(typ, n))


def a_component(text, typ=GENERIC):
    """A Value, without the kind of a term. A type outside of a component's is a fault at the component's start."""
    inside = component(raw(text), typ)
    return Part([typ, len(raw(text))], raw(text), value(inside if 1 <= typ <= 65535 else faulty(inside)))


def of_kind(kind, part):
    return Part([kind, *part.numbers], part.texts, part.data)


def a_value(text, typ=GENERIC):
    return of_kind(0, a_component(text, typ))


def a_tag(n):
    return of_kind(1, a_number(TAG, n))


def a_call(function, *terms):
    arguments = counted(Part(t.numbers, t.texts, argument(t.data)) for t in terms)
    return of_kind(2, wrapped(CALL, a_text(FN_ID, function), arguments))


def an_option(*terms):
    return wrapped(OPTION, counted(terms))


def a_constraint(*options):
    return wrapped(CONSTRAINT, counted(options))


def an_edge(to, text, typ=GENERIC):
    return wrapped(VALUE_EDGE, a_number(NODE_ID, to), a_component(text, typ))


def a_pattern(to, n, *constraints):
    return wrapped(PATTERN_EDGE, a_number(NODE_ID, to), a_number(TAG, n), counted(constraints))


def a_node(i, up=None, rules=(), values=(), patterns=(), signers=()):
    over = Part([0], b"", b"") if up is None else of_kind(1, a_number(PARENT, up))
    lists = (a_text(IDENTIFIER, rule) for rule in rules), values, patterns, (a_number(SIGNER, j) for j in signers)
    return wrapped(NODE, a_number(NODE_ID, i), over, *map(counted, lists))


def a_symbol(n, text):
    return wrapped(SYMBOL, a_number(TAG, n), a_text(IDENTIFIER, text))


def a_model(*nodes, start=0, patterns=0, symbols=()):
    head = a_number(NODE_ID, start), a_number(PATTERN_COUNT, patterns)
    numbers, texts, data = joined([*head, counted(nodes), counted(symbols)])
    return Part(numbers, texts, concat(element(VERSION, GOOD_VERSION.to_bytes(4, "big")), data))


# what is lent, and lines

OLD_BYTES = bytes.fromhex("a1b2c3d4e5f6")


def lent(size):
    return (OLD_BYTES * (size // len(OLD_BYTES) + 1))[:size]


def lent_numbers(count):
    return [2**64 - 1 - i for i in range(count)]


def is_written(what, of, more=3):
    """The model's bytes, and the output's own behind them."""
    size = len(of.data)
    output = lent(size + more)
    yield f"{what}: written", write(of.numbers, of.texts, output), f"written {size}" + bytes_line(of.data + output[size:])


def is_described(what, of, data=None, more=3):
    """The model's lists, and what the lent ones held behind them."""
    n, m = len(of.numbers), len(of.texts)
    numbers, texts = lent_numbers(n + more), lent(m + more)
    line = f"described {n} {m}" + words_line(of.numbers + numbers[n:]) + bytes_line(of.texts + texts[m:])
    yield f"{what}: described", describe(data or of.data, numbers, texts), line


def both(what, of):
    yield from is_written(what, of)
    yield from is_described(what, of)


def not_written(what, numbers, texts, answer, size=9):
    """A refusal keeps the output."""
    yield what, write(numbers, texts, lent(size)), answer + bytes_line(lent(size))


def not_described(what, of, answer, count=4, size=5):
    """A refusal keeps both lists."""
    numbers, texts = lent_numbers(count), lent(size)
    yield what, describe(of, numbers, texts), answer + words_line(numbers) + bytes_line(texts)


# models

# the numbers of the format's examples, by hand
A_LISTS = Part([0, 0, 1, 0, 0, 0, 0, 0, 0, 0], b"", A)
B_LISTS = Part([0, 1, 2, *(0, 0, 0, 0, 1, 1, 1, 0, 0), *(1, 1, 0, 0, 0, 0, 1, 1), 0], b"", B)

# every kind of thing, with its lists by hand
ALL = Part(
    [
        *(1, 2, 5),  # start, patterns, Nodes
        *(0, 1, 1, 0, 0, 2),  # Node 0, its Parent and two PatternEdges
        *(2, 1, 0),  # to 2, Tag 1, no Constraint
        *(3, 128, 3, 0),  # to 3, Tag 128: a Constraint without options
        *(2, 1, 0, 8, 0, 1, 1, 2),  # one with the empty component and Tag 2
        *(3, 1, 2, 3, 1, 1, 1, 1, 2, 8, 1, 0, 253, 2, 1, 2, 10, 0),  # one with three calls
        *(2, 2, 1),  # two signers, and Node 0 has no more
        *(1, 0, 2, 4, 3, 2, 0, 8, 3, 4, 54, 1, 0, 0),  # Node 1: two rule names; two ValueEdges
        *(2, 1, 0, 0, 0, 0, 1, 3),  # Node 2
        *(3, 1, 0, 1, 2, 0, 0, 0),  # Node 3
        *(4, 1, 1, 0, 0, 0, 0),  # Node 4
        *(2, 1, 1, 128, 4),  # symbols
    ],
    b"" + b"$eq" + b"$eq_type" + b"\x00\xff" + b"$isValidID" + b"#top" + b"#_9" + b"ndn" + b"\x03" + b"#r" + b"u" + b"part",
    model(
        node(
            0,
            parent(1),
            pattern_edge(2, 1),
            pattern_edge(
                3,
                128,
                constraint(),
                constraint(option(value("")), option(tag(2))),
                constraint(
                    option(call("$eq", tag(1))),
                    option(call("$eq_type", value(component(b"\x00\xff", 253)))),
                    option(call("$isValidID")),
                ),
            ),
            signer(2),
            signer(1),
        ),
        node(1, rule_name("#top"), rule_name("#_9"), value_edge(0, "ndn"), value_edge(4, component(b"\x03", 54))),
        node(2, parent(0), signer(3)),
        node(3, parent(0), rule_name("#r")),
        node(4, parent(1)),
        start=1,
        patterns=2,
        behind=symbol(1, "u") + symbol(128, "part"),
    ),
)


def examples():
    yield from both("A", A_LISTS)
    yield from both("B", B_LISTS)
    yield from both("every kind of thing", ALL)
    of = with_second(patterns=[a_pattern(1, 1, a_constraint(an_option(a_call("$eq", a_tag(1)))))])
    yield from both("its own parent, and a call", of)
    yield from both("mutual parents", a_model(a_node(0), a_node(1, 2, values=[an_edge(2, "x")]), a_node(2, 1, values=[an_edge(1, "y")])))
    yield from both("two equal edges to two Nodes", a_model(a_node(0, values=[an_edge(1, "x"), an_edge(2, "x")]), a_node(1, 0), a_node(2, 0)))
    yield from both("the same signer three times", a_model(a_node(0, signers=[0, 0, 0])))
    yield from both("two symbols of one Tag", a_model(a_node(0), symbols=[a_symbol(1, "a"), a_symbol(1, "b")]))
    yield from both("256 Nodes", a_model(*(a_node(i) for i in range(256)), start=255))
    edges = [an_edge(to, bytes(range(256)), typ) for to, typ in ((1, 1), (2, 8))]
    yield from both("components of every byte", a_model(a_node(0, values=edges), a_node(1, 0), a_node(2, 0)))
    for typ in (1, 7, 252, 253, 65535):
        yield from both(f"a component of type {typ}", node_with(values=[an_edge(1, "x", typ)]))


# lists that form no description


def no_descriptions():
    for count in range(len(B_LISTS.numbers)):
        yield from not_written(f"B's first {count} numbers", B_LISTS.numbers[:count], b"", "refused 30 0")
    for count in range(27, len(ALL.numbers), 9):
        yield from not_written(f"the first {count} numbers of all kinds", ALL.numbers[:count], ALL.texts, "refused 30 0")
    no = "refused 30 0"
    yield from not_written("a number left over", [*B_LISTS.numbers, 0], b"", no)
    yield from not_written("a text left over", B_LISTS.numbers, b"x", no)
    yield from not_written("a text's last byte missing", ALL.numbers, ALL.texts[:-1], no)
    yield from not_written("a byte more of texts", ALL.numbers, ALL.texts + b"x", no)
    yield from not_written("no texts", ALL.numbers, b"", no)
    for what, at, kinds in ("a Parent of kind", 4, (2, 2**32, 2**64 - 1)), ("a second Parent of kind", 13, (2,)):
        for kind in kinds:
            yield from not_written(f"{what} {kind}", [*B_LISTS.numbers[:at], kind, *B_LISTS.numbers[at + 1 :]], b"", no)

    def term(*numbers):
        return [0, 0, 1, 0, 1, 0, 0, 0, 1, 0, 1, 1, 1, 1, *numbers, 0, 0]

    yield from not_written("a term of kind 3", term(3, 1), b"", no)
    yield from not_written("a term of kind 256", term(256, 1), b"", no)
    yield from not_written("a term of kind 2^64 - 1", term(2**64 - 1, 1), b"", no)
    yield from not_written("an argument of kind 2", term(2, 3, 1, 2, 3, 0), b"$eq$eq", no)
    yield from not_written("an argument of kind 3", term(2, 3, 1, 3, 1), b"$eq", no)
    for n in (2, 2**32, 2**63, 2**64 - 1):
        yield from not_written(f"{n} Nodes", [0, 0, n, *A_LISTS.numbers[3:]], b"", no)
        yield from not_written(f"{n} symbols", [*A_LISTS.numbers[:-1], n], b"", no)
        yield from not_written(f"{n} signers", [*A_LISTS.numbers[:-2], n, 0], b"", no)
    for length in (3, 2**32 + 2, 2**64 - 1):
        yield from not_written(f"a rule name of {length} bytes", [0, 0, 1, 0, 0, 1, length, 0, 0, 0, 0], b"#a", no)
    # lengths whose sum is 2^64 and a little
    yield from not_written("lengths of 2^64 + 2 in all", [0, 0, 1, 0, 0, 2, 2**64 - 1, 3, 0, 0, 0, 0], b"#a", no)


# descriptions that are refused


def node_with(rules=(), **edge):
    """A Node with these rule names and an edge to the next."""
    return a_model(a_node(0, rules=rules, **edge), a_node(1, 0))


def an_edge_with(*constraints):
    return node_with(patterns=[a_pattern(1, 1, *constraints)])


def a_term(*terms):
    return an_edge_with(a_constraint(an_option(*terms)))


def with_second(**rest):
    """The start, and a Node that is its own Parent."""
    return a_model(a_node(0), a_node(1, 1, **rest))


# two edges, to these Nodes
TWO_EDGES = {
    "two ValueEdges": lambda a, b: dict(values=[an_edge(a, "x"), an_edge(b, "y")]),
    "two PatternEdges": lambda a, b: dict(patterns=[a_pattern(a, 1), a_pattern(b, 2)]),
    "a ValueEdge and a PatternEdge": lambda a, b: dict(values=[an_edge(a, "x")], patterns=[a_pattern(b, 1)]),
}


def refused_descriptions():
    """(what, description, answer)."""
    yield "longer than 32,768 bytes", node_with(values=[an_edge(1, bytes(32768))]), "refused 1 0"
    yield "longer, and a rule name without #", node_with(["x"], values=[an_edge(1, bytes(32768))]), "refused 1 0"
    for text in ("", "#", "a", "#9", "#a-b", "##a", b"#\xc3\xa9"):
        of = node_with(rules=[bad(text)])
        yield f"rule name {text!r}", of, refused_at(of.data)
    for text in ("", "9", "#a", "a b"):
        of = a_model(a_node(0), symbols=[a_symbol(1, bad(text))])
        yield f"symbol {text!r}", of, refused_at(of.data)
    for text in ("", "$", "eq", "#eq", "$9"):
        of = a_term(a_call(bad(text), a_tag(1)))
        yield f"function {text!r}", of, refused_at(of.data)
    for typ in (0, 65536, 2**32 - 1, 2**32, 2**64 - 1):
        edge, term = node_with(values=[an_edge(1, "x", typ)]), a_term(a_value("x", typ))
        yield f"a component of type {typ}", edge, refused_at(edge.data)
        yield f"an option of type {typ}", term, refused_at(term.data)
    yield "257 Nodes", a_model(*(a_node(i) for i in range(257))), "refused 4 0"
    for n in (0, 129, 2**32 + 1):
        yield f"Tag {n} on an edge", node_with(patterns=[a_pattern(1, n)]), "refused 5 0"
        yield f"Tag {n} in an option", a_term(a_tag(n)), "refused 5 0"
        yield f"Tag {n} in an argument", a_term(a_call("$eq", a_tag(n))), "refused 5 0"
        yield f"Tag {n} of a symbol", a_model(a_node(0), symbols=[a_symbol(n, "a")]), "refused 5 0"
    yield "NodeId 1 at 0", a_model(a_node(1)), "refused 6 0"
    yield "NodeId 256 at 1", a_model(a_node(0), a_node(256)), "refused 6 1"
    yield "no Node", a_model(), "refused 7 0"
    yield "StartId 1 of one Node", a_model(a_node(0), start=1), "refused 7 0"
    yield "StartId 2^64 - 1", a_model(a_node(0), start=2**64 - 1), "refused 7 0"
    yield "a ValueEdge to no Node", with_second(values=[an_edge(2, "x")]), "refused 8 1"
    yield "a PatternEdge to no Node", with_second(patterns=[a_pattern(2**32, 1)]), "refused 8 1"
    yield "a signer that is no Node", with_second(signers=[1, 2]), "refused 9 1"
    nothing = a_pattern(1, 1, a_constraint(an_option()))
    yield "an option without a term", with_second(patterns=[nothing]), "refused 10 1"
    yield "an option with two terms", a_term(a_value("x"), a_tag(1)), "refused 10 0"
    yield "an option with two calls", a_term(a_call("$isValidID"), a_call("$isValidYear")), "refused 10 0"
    yield "a destination without Parent", a_model(a_node(0, values=[an_edge(1, "x")]), a_node(1)), "refused 11 0"
    yield "a destination with another Parent", a_model(a_node(0), a_node(1, values=[an_edge(0, "x")])), "refused 11 1"
    yield "a function that is not known", a_term(a_call("$no")), "refused 12 0"
    yield "$eq without an argument", a_term(a_call("$eq")), "refused 12 0"
    yield "$isValidID with two", a_term(a_call("$isValidID", a_tag(1), a_value("x"))), "refused 12 0"
    for up in (0, 1, 2**64 - 1):
        yield f"the start with Parent {up}", a_model(a_node(0, up)), "refused 13 0"
        yield f"the start being Node 2, with Parent {up}", a_model(a_node(0), a_node(1, 0), a_node(2, up), start=2), "refused 13 2"
    of = a_model(a_node(0, 1, values=[an_edge(1, "x")]), a_node(1, 0, values=[an_edge(0, "x")]))
    yield "mutual parents, one of them the start", of, "refused 13 0"
    for what, edges in TWO_EDGES.items():
        yield f"{what} to one Node", a_model(a_node(0, **edges(1, 1)), a_node(1, 0)), "refused 14 0"
        of = a_model(a_node(0), a_node(1), a_node(2, **edges(3, 3)), a_node(3, 2))
        yield f"{what} of Node 2 to one Node", of, "refused 14 2"
        yield f"{what} of the start, with a Parent, to one Node", a_model(a_node(0, 0, **edges(1, 1)), a_node(1, 0)), "refused 13 0"
        yield f"{what} to no Node", a_model(a_node(0, **edges(1, 1))), "refused 8 0"
        yield f"{what} to one Node with another Parent", a_model(a_node(0, **edges(1, 1)), a_node(1, 1)), "refused 11 0"
    # the lower number first
    yield "5 before 6", a_model(a_node(7, 7, patterns=[a_pattern(0, 0)])), "refused 5 0"
    unknown = a_pattern(1, 1, a_constraint(an_option(a_call("$no"))))
    yield "12 before 13 and 14", a_model(a_node(0, 0, patterns=[unknown, unknown]), a_node(1, 0)), "refused 12 0"
    of = a_model(a_node(0, **TWO_EDGES["two ValueEdges"](1, 1)), a_node(1, 0), a_node(2, 9), start=2)
    yield "13 at Node 2, 14 at Node 0", of, "refused 13 2"
    of = a_model(*(a_node(i, rules=[bad("x")]) for i in range(257)))
    yield "2 before 4", of, refused_at(of.data)
    yield "9 at the first of two Nodes", a_model(a_node(0), a_node(1, signers=[5]), a_node(2, signers=[5])), "refused 9 1"


def refusals():
    seen = set()
    for what, of, answer in refused_descriptions():
        yield from not_written(what, of.numbers, of.texts, answer, size=min(len(of.data), 300))
        if answer not in seen:
            # the refusal comes before 31, and the model's bytes get it too
            yield from not_written(f"{what}, no output", of.numbers, of.texts, answer, size=0)
            yield from not_described(what, of.data, answer)
        seen.add(answer)
    yield from not_written("30 before the refusal and 31", [*a_term().numbers, 1], b"", "refused 30 0", size=0)
    yield from not_written("30 before 31", [0], b"", "refused 30 0", size=0)


# outputs and lists of each length


def outputs():
    for what, of in ("A", A_LISTS), ("B", B_LISTS), ("every kind of thing", ALL):
        size = len(of.data)
        for short in (0, 1, size - 1):
            yield from not_written(f"{what}, {short} bytes", of.numbers, of.texts, "refused 31 0", size=short)
        yield from is_written(f"{what}, {size} bytes", of, more=0)
        yield from is_written(f"{what}, {size + 1} bytes", of, more=1)
    yield from is_written("A, 300 bytes more", A_LISTS, more=300)


def lists():
    for what, of in ("A", A_LISTS), ("B", B_LISTS), ("every kind of thing", ALL):
        n, m = len(of.numbers), len(of.texts)
        yield from is_described(f"{what}, both lists exact", of, more=0)
        yield from is_described(f"{what}, one more each", of, more=1)
        for count in (0, 1, n - 1):
            yield from not_described(f"{what}, {count} numbers", of.data, "refused 30 0", count, m)
        if m:
            for size in (0, 1, m - 1):
                yield from not_described(f"{what}, {size} bytes of texts", of.data, "refused 30 0", n, size)
            yield from not_described(f"{what}, both one short", of.data, "refused 30 0", n - 1, m - 1)
    for what, of, answer in (
        ("a malformed model", B[:-1], "refused 2 25"),
        ("no model", b"", "refused 2 0"),
        ("another version", OTHER_VERSION_CUT, "refused 3 0"),
        ("32,769 bytes", padded(A, 32769), "refused 1 0"),
        ("StartId 9", model(node(0), start=9), "refused 7 0"),
        ("a signer that is no Node", model(node(0), node(1, signer(2))), "refused 9 1"),
        ("a start with a Parent", model(node(0), node(1, parent(0)), start=1), "refused 13 1"),
        ("two edges to one Node", model(node(0), node(1, value_edge(2, "a"), pattern_edge(2, 1)), node(2, parent(1))), "refused 14 1"),
    ):
        yield from not_described(f"{what}, no lists", of, answer, 0, 0)
        yield from not_described(f"{what}, lists with room", of, answer, 30, 30)


# the bytes of numbers and lengths


def widths():
    for n in (255, 256, 65535, 65536, 2**32 - 1, 2**32, 2**64 - 1):
        yield from both(f"pattern count {n}", a_model(a_node(0), patterns=n))
        yield from both(f"Parent {n}", a_model(a_node(0), a_node(1, n)))  # of a Node that no edge leads to
    sizes = {0: "an empty component", 252: "a component of 252", 253: "a component of 253"}
    for inside, size in ("the Value's inside", 2), ("the edge's inside", 7), ("the Node's inside", 12):
        sizes |= {252 - size: f"{inside} of 252", 253 - size: f"{inside} of 253"}
    for size, what in sizes.items():
        of = a_model(a_node(0, values=[an_edge(1, bytes(size))]), a_node(1, 0))
        yield from both(f"{what} bytes", of)
        yield from not_written(f"{what} bytes, one short", of.numbers, of.texts, "refused 31 0", size=len(of.data) - 1)
    for count in (42, 43):  # of 6 bytes each: a Constraint's inside of 252 and of 258
        yield from both(f"{count} options", an_edge_with(a_constraint(*[an_option(a_value(""))] * count)))
    for length in (252, 253):
        yield from both(f"a rule name of {length} bytes", node_with(rules=["#" + "r" * (length - 1)]))
        yield from both(f"a symbol of {length} bytes", a_model(a_node(0), symbols=[a_symbol(1, "s" * length)]))

    def of_bytes(size):
        """A model of so many bytes, by the length of a component: A's 17, an edge, four longer headers and a second Node."""
        rest = 17 + 9 + 2 * 4 + 8
        return node_with(values=[an_edge(1, bytes(size - rest))])

    assert len(of_bytes(32768).data) == 32768
    yield from both("32,768 bytes", of_bytes(32768))
    longer = of_bytes(32769)
    yield from not_written("32,769 bytes", longer.numbers, longer.texts, "refused 1 0")
    yield from not_described("32,769 bytes", longer.data, "refused 1 0")


def other_bytes():
    """Models that are not written as the writing call does: the description is that of the bare model."""
    yield from is_described("A with an optional element after it", A_LISTS, padded(A, 200))
    for size in (1, 2, 4, 8):
        yield from is_described(f"B with integers of {size} bytes", B_LISTS, sized(size))
    lists = a_model(
        a_node(0, rules=["#start"], values=[an_edge(1, "v")]),
        a_node(
            1,
            0,
            patterns=[
                a_pattern(
                    2,
                    1,
                    a_constraint(an_option(a_tag(2)), an_option(a_call("$eq", a_value("w")))),
                    a_constraint(an_option(a_call("$eq_type", a_value("z")))),
                )
            ],
        ),
        a_node(2, 1, rules=["#end"], signers=[2]),
        patterns=1,
        symbols=[a_symbol(1, "part")],
    )
    assert lists.data == FULL
    yield from both("all nine containers", lists)
    for spare in ("8000", "20020000", "fefffffffe00", "80028100"):
        yield from is_described(f"{spare} in every gap", lists, put_everywhere(FULL, bytes.fromhex(spare)))


def cases():
    for part in examples, no_descriptions, refusals, outputs, lists, widths, other_bytes:
        yield from part()
