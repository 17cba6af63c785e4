"""Comparing components (request 4): type and length first, then the values from the back, with the value bytes that were looked at.

The first half compares two components by themselves. Each line follows from how its pair was made: a value of n bytes whose last unequal
byte is at place p takes n - p bytes to compare, equal values take all n, and another type or length takes none. The second half makes the
same differences decide a match, a signing answer and a suggestion.
"""
from bench import B, EMPTY, SLASH_A, SLASH_B
from build import *

NONE = "different 0"


def some(size):
    """A value in which no byte is like its neighbours, so that one moved by a place, or by 256, is seen."""
    return bytes((37 * i + 11) % 241 for i in range(size))


def changed(value, *places, by=0x01):
    value = bytearray(value)
    for place in places:
        value[place] ^= by
    return bytes(value)


def either_order(what, a, b, line):
    yield what, compare(a, b), line
    if a != b:
        yield f"{what}, exchanged", compare(b, a), line


def values(what, a, b, line):
    """The same for two values of generic components."""
    yield from either_order(what, component(a), component(b), line)


# places in values of one length


def one_place():
    """One unequal byte, at each place of short values: it and all behind it are looked at."""
    for size in range(9):
        yield f"{size} equal bytes", compare(component(some(size)), component(some(size))), f"equal {size}"
        for base in (some(size), bytes(size), b"\xff" * size):
            for place in range(size):
                for by in (0x01, 0x80):
                    yield from values(f"place {place} of {base.hex()}, by {by}", base, changed(base, place, by=by), f"different {size - place}")
    for byte in (b"\x00", b"x", b"\xff"):
        for size in (2, 8, 252, 253):
            yield f"{size} times {byte}", compare(component(byte * size), component(byte * size)), f"equal {size}"


def several_places():
    """Of several unequal bytes the one nearest to the end decides."""
    for size in range(2, 9):
        value = some(size)
        for q in range(1, size):
            for p in range(q):
                yield from values(f"places {p} and {q} of {size}", value, changed(value, p, q), f"different {size - q}")
    for size in (8, 252, 253, 300):
        value = some(size)
        yield from values(f"all {size} places", value, changed(value, *range(size)), "different 1")
        for q in (2, size // 2, size - 3):
            yield from values(f"places 0 to {q} of {size}", value, changed(value, *range(q + 1)), f"different {size - q}")
            yield from values(f"places {q} to the last of {size}", value, changed(value, *range(q, size)), "different 1")


def other_orders():
    """The same bytes in another order: nothing that adds them up tells them apart."""
    for a, b, line in (
        ("ab", "ba", "different 1"),
        ("abc", "cba", "different 1"),
        ("abc", "bca", "different 1"),
        ("aba", "baa", "different 2"),
        ("abca", "acba", "different 2"),
        ("xaby", "xbay", "different 2"),
        ("abxyz", "baxyz", "different 4"),
        ("aabb", "bbaa", "different 1"),
        ("abcabc", "abccba", "different 1"),
        ("abcabc", "cbaabc", "different 4"),
        ("ab" * 100, "ba" * 100, "different 1"),
        ("ab" + "x" * 298, "ba" + "x" * 298, "different 299"),
    ):
        yield from values(f"{a[:6]} and {b[:6]}, {len(a)} bytes", a, b, line)


def single_bytes():
    """The smallest and largest bytes, those around the sign bit, and each bit."""
    bounds = (0x00, 0x01, 0x7F, 0x80, 0xFE, 0xFF)
    for one in bounds:
        for other in bounds:
            word = "equal" if one == other else "different"
            a, b = bytes([one]), bytes([other])
            what = f"bytes {one:02x} and {other:02x}"
            yield what, compare(component(a), component(b)), f"{word} 1"
            yield f"{what} before an equal one", compare(component(a + b"x"), component(b + b"x")), f"{word} 2"
            behind = "equal 2" if one == other else "different 1"
            yield f"{what} behind an equal one", compare(component(b"x" + a), component(b"x" + b)), behind
    for bit in range(8):
        for place in range(3):
            yield from values(f"bit {bit} at place {place} of 3", "abc", changed(b"abc", place, by=1 << bit), f"different {3 - place}")


def numbers_looked_at():
    """Where the number itself passes a border."""
    for size in (300, 1018):
        value = some(size)
        for looked_at in (1, 2, 127, 128, 129, 251, 252, 253, 254, 255, 256, 257, 299, 300, 511, 512, 513, 1017, 1018):
            if looked_at <= size:
                yield from values(f"{looked_at} of {size}", value, changed(value, size - looked_at), f"different {looked_at}")


# types

# around the border of a type's two forms; many have another's low byte, and 2049 is 264 with its two bytes exchanged
TYPES = (1, 2, 7, 8, 9, 252, 253, 254, 255, 256, 257, 264, 509, 520, 2049, 65281, 65288, 65533, 65535)


def types():
    """Another type ends the comparison before any byte; the same one, of either form, does not."""
    for one in TYPES:
        for other in TYPES:
            line = "equal 3" if one == other else NONE
            yield f"types {one} and {other}", compare(component("abc", one), component("abc", other)), line
        yield f"type {one}, no bytes", compare(component("", one), component("", one)), "equal 0"
        yield from either_order(f"type {one}, another last byte", component("abc", one), component("abd", one), "different 1")
        yield from either_order(f"type {one}, another first byte", component("abc", one), component("bbc", one), "different 3")
        yield from either_order(f"type {one}, another length", component("abc", one), component("bc", one), NONE)
        if one != GENERIC:
            yield from either_order(f"types {one} and 8, no bytes", component("", one), component(""), NONE)
            yield from either_order(f"types {one} and 8, 253 bytes", component(some(253), one), component(some(253)), NONE)
            yield from either_order(f"types {one} and 8, another last byte", component("abc", one), component("abd"), NONE)


def headers():
    """Type and length differ, though bytes of the elements agree."""
    for what, a, b in (
        ("type and length exchanged", component(b"x" * 8, 1), component("x", 8)),
        ("as many bytes, the last three equal", component("a", 300), component(b"\x2c\x01a")),
        ("as many bytes, the last four equal", component("ab", 264), component(b"\x08\x02ab")),
        ("as many bytes, the last 254 equal", component(some(256)[2:], 253), component(some(256))),
        ("another type and another length of three bytes", component(some(256)), component(some(257), 9)),
    ):
        yield from either_order(what, a, b, NONE)


# lengths

LENGTHS = (0, 1, 251, 252, 253, 254, 255, 256, 257, 300, 1018)
SAME_LOW_BYTE = ((2, 258), (3, 259), (44, 300), (100, 356), (252, 508), (253, 509), (1, 513))
LONGEST = 65532  # with a type of one byte and a length of three it fills a field of 65,536 bytes


def of_two_lengths(short, long):
    """Values of both lengths of which the shorter one is the longer one's beginning, its end, or both."""
    value = some(long)
    yield "the same beginning", value[:short], value
    if short:
        yield "the same end", value[long - short :], value
        yield "nothing but one byte", b"x" * short, b"x" * long


def lengths():
    """Another length ends the comparison before any byte, whatever the bytes are."""
    for i, long in enumerate(LENGTHS):
        for short in LENGTHS[:i]:
            for what, a, b in of_two_lengths(short, long):
                yield from values(f"{short} and {long} bytes, {what}", a, b, NONE)
    for short, long in *SAME_LOW_BYTE, (2, 3), (6, 7), (7, 8), (8, 16):
        for what, a, b in of_two_lengths(short, long):
            yield from values(f"{short} and {long} bytes, {what}", a, b, NONE)
    for size in LENGTHS[1:]:
        value = some(size)
        yield f"{size} bytes", compare(component(value), component(value)), f"equal {size}"
        for place in sorted({0, size // 2, size - 1}):
            yield from values(f"place {place} of {size} bytes", value, changed(value, place), f"different {size - place}")


def parts():
    """A value that is a part of the other."""
    for short, long in (
        ("", "a"), ("", "abcdefgh"), ("a", "aa"), ("a", "ab"), ("b", "ab"), ("ab", "abab"), ("ba", "abab"), ("abc", "abcd"), ("bcd", "abcd"),
        ("bc", "abcd"), (b"\x00", b"\x00\x00"), (b"", b"\x00"), (b"\x01", b"\x00\x01"), (b"\x01", b"\x01\x00"), (b"\xff", b"\xff\xff"),
    ):  # fmt: skip
        yield from values(f"{short!r} in {long!r}", short, long, NONE)


def longest():
    """As many bytes as a field holds. These are stored, so most of them are among the runs of driver.py instead."""
    value = some(LONGEST)
    full = component(value)
    assert len(full) == 65536
    yield f"{LONGEST} equal bytes", compare(full, full), f"equal {LONGEST}"
    yield f"the first of {LONGEST} bytes", compare(full, component(changed(value, 0))), f"different {LONGEST}"
    yield f"0 and {LONGEST} bytes", compare(component(""), full), NONE
    yield f"{LONGEST} bytes and as many as its low byte says", compare(full, component(value[: LONGEST % 256])), NONE


# what stands in a value


def elements():
    """The bytes of a value are bytes, also where they are elements."""
    a, b = component("a"), component("b")
    for what, one, other, line in (
        ("another byte inside", component(a), component(b), "different 1"),
        ("another type inside", component(a), component(component("a", 9)), "different 3"),
        ("another length inside", component(a + b"b"), component(component("ab")), "different 3"),
        ("another type of three bytes inside", component(component("a", 264)), component(component("a", 520)), "different 4"),
        ("an element and its value", component(a), a, NONE),
        ("one element and two", component(a), component(a + a), NONE),
        ("two elements", component(a + b), component(a + b), "equal 6"),
        ("two elements exchanged", component(a + b), component(b + a), "different 1"),
        ("the first of two", component(a + a), component(b + a), "different 4"),
        ("a header that says more than there is", component(b"\x08\x05a"), component(b"\x08\x05b"), "different 1"),
        ("names, which are of type 7", SLASH_A, SLASH_B, "different 1"),
        ("one name", SLASH_A, SLASH_A, "equal 3"),
        ("a name and its component", SLASH_A, a, NONE),
        ("a name and a component of its value", SLASH_A, component(a), NONE),
        ("the empty name", EMPTY, EMPTY, "equal 0"),
        ("the empty name and an empty component", EMPTY, component(""), NONE),
        ("a name inside", component(SLASH_A), component(SLASH_B), "different 1"),
        ("model B and its count", component(B), component(changed(B, 11)), f"different {len(B) - 11}"),
    ):
        yield from either_order(what, one, other, line)


DATES = (
    ("20261116", "20261116", "equal 8"),
    ("20261116", "20261117", "different 1"),
    ("20261116", "20261126", "different 2"),
    ("20261116", "20261016", "different 3"),
    ("20261216", "20261116", "different 3"),
    ("20261116", "20251116", "different 5"),
    ("20261116", "19261116", "different 7"),
    ("20261116", "10261116", "different 8"),
    ("20261116", "20271117", "different 1"),
    ("20261109", "20261110", "different 1"),
    ("20261119", "20261209", "different 2"),
    ("16112026", "17112026", "different 7"),  # the day first
    ("16112026", "16112027", "different 1"),
    ("2026", "2027", "different 1"),
    ("2026", "20261116", NONE),
    ("1116", "20261116", NONE),
    ("261116", "20261116", NONE),
    ("2026-11-16", "2026-11-17", "different 1"),
    ("2026-11-16", "20261116", NONE),
    ("20261116T120000", "20261116T120000", "equal 15"),
    ("20261116T120000", "20261116T120001", "different 1"),
    ("20261116T120000", "20261116T130000", "different 5"),
    ("20261116T120000", "20261117T120000", "different 8"),
    ("20261116T120000", "20251116T120000", "different 12"),
    ("20261116T120000", "20261116t120000", "different 7"),
    ("20261116T120000", "20261117T120001", "different 1"),
    ("20261116", "20261116T120000", NONE),
    ("20261116T1200", "20261116T120000", NONE),
    ("string-quartet-in-d-minor-violin-1-20261116", "string-quartet-in-d-minor-violin-1-20261117", "different 1"),
    ("string-quartet-in-d-minor-violin-1-20261116", "string-quartet-in-d-minor-violin-2-20261116", "different 10"),
)


def dates():
    for a, b, line in DATES:
        yield from values(f"{a} and {b}", a, b, line)
    # a time in microseconds, as a number of 8 bytes in a component of NDN's type for times (56) or sequence numbers (58)
    now = 1794830400000000
    for step, line in (0, "equal 8"), (1, "different 1"), (256, "different 2"), (1 << 56, "different 8"):
        a, b = (component((now ^ n).to_bytes(8, "big"), 56) for n in (0, step))
        yield from either_order(f"times {step} apart", a, b, line)
        yield from either_order(f"a time and a number, {step} apart", a, component((now ^ step).to_bytes(8, "big"), 58), NONE)


# through the calls: how a component was compared is not seen in any answer


def variants(size):
    """A component, and those that differ from it in one thing."""
    value = some(size)
    yield "itself", component(value)
    for where, place in ("first", 0), ("middle", size // 2), ("last", size - 1):
        yield f"another {where} byte", component(changed(value, place))
    yield "a byte less in front", component(value[1:])
    yield "a byte less behind", component(value[:-1])
    yield "a byte more in front", component(b"\x00" + value)
    yield "a byte more behind", component(value + b"\x00")
    yield "type 9", component(value, 9)
    yield "a type with the same low byte", component(value, 264)


def pairs():
    """(what, component, component, whether they are equal), with types and lengths of both forms."""
    for size in (3, 200, 252, 253, 300):
        for what, other in variants(size):
            yield f"{size} bytes, {what}", component(some(size)), other, what == "itself"
    for typ, other in (252, 253), (253, 254), (253, 509), (255, 65535), (264, 520), (264, 2049), (1, 257), (7, 8):
        yield f"types {typ} and {other}", component("abc", typ), component("abc", other), False
    for typ in (1, 7, 252, 253, 255, 264, 65535):
        yield f"type {typ} twice", component("abc", typ), component("abc", typ), True
    yield "types of three bytes, no bytes", component("", 264), component("", 520), False
    yield "no bytes twice", component(""), component(""), True
    yield "no bytes and the byte 0", component(""), component(b"\x00"), False
    yield "no bytes of types 8 and 9", component(""), component("", 9), False
    yield "one byte, another", component("y"), component("z"), False
    for short, long in (0, 256), (1, 257), (44, 300):
        for what, a, b in of_two_lengths(short, long):
            yield f"{short} and {long} bytes, {what}", component(a), component(b), False


def must(term):
    return constraint(option(term))


def match_forms(a, b):
    """Where a walk compares a with b: (what, model, components of the name, the Tags of their edges). Component n leads to Node n."""
    yield "a ValueEdge", model(node(0, value_edge(1, a)), node(1, parent(0))), [b], [None]
    yield "a Tag twice", tree([(1,), (1,), ()]), [a, b], [1, 1]
    yield "a Value option", tree([(1, must(value(a))), ()]), [b], [1]
    yield "a Tag option", tree([(1,), (2, must(tag(1))), ()]), [a, b], [1, 2]
    yield "$eq of a Value", tree([(1, must(call("$eq", value(a)))), ()]), [b], [1]
    yield "$eq of a Tag", tree([(1,), (2, must(call("$eq", tag(1)))), ()]), [a, b], [1, 2]


def match_line(holds, components, tags, at=None):
    """`at` is the node, where it is not the number of components."""
    if not holds:
        return kept("no match")
    return matched(len(components) if at is None else at, *first_places(name(*components), tags))


def matches():
    for what, a, b, is_equal in pairs():
        for form, of, components, tags in match_forms(a, b):
            yield f"{form}: {what}", match(of, name(*components), OLD), match_line(is_equal, components, tags)


def sign_forms(a, b):
    """Where a signing call compares them: (what, model, names, the Tags of their edges, the nodes and the path if they are equal)."""
    by_value = model(node(0, value_edge(1, a)), node(1, parent(0), signer(1)))
    yield "a ValueEdge for both", by_value, (name(a), name(b)), ([None], [None]), (1, 1, 0, 0)
    yield "a Tag in packet and key", B, (name(a), name(b)), ([1], [1]), (1, 1, 0, 0)
    twice = tree(["p", (3,)], [(1,), (1,), ()])
    yield "a Tag twice in the key", twice, (name("p"), name(a, b)), ([None], [1, 1]), (1, 3, 0, 1, 0)
    for form, term in ("a Tag option", tag(1)), ("$eq of a Tag", call("$eq", tag(1))):
        of = tree(["p", (1,), (3,)], [(2, must(term)), ()])
        yield f"{form}, bound by the packet", of, (name("p", a), name(b)), ([None, 1], [2]), (2, 3, 0, 0, 1)
        of = tree(["p", (3,)], [(1,), (2, must(term)), ()])
        yield f"{form}, bound by the key", of, (name("p"), name(a, b)), ([None], [1, 2]), (1, 3, 0, 1, 0)
    for form, term in ("a Value option", value(a)), ("$eq of a Value", call("$eq", value(a))):
        of = tree(["p", (2,)], [(1, must(term)), ()])
        yield f"{form} in the key", of, (name("p"), name(b)), ([None], [1]), (1, 2, 0, 1)


def sign_line(holds, names, tags, found):
    if not holds:
        return NOT_ALLOWED
    return allowed(*found, **pair_bindings(names[0], tags[0], names[1], tags[1]))


def signings():
    for what, one, other, is_equal in pairs():
        for form, of, names, tags, found in sign_forms(one, other):
            yield f"{form}: {what}", sign(of, *names), sign_line(is_equal, names, tags, found)
        for form, of, names, *_ in sign_forms(other, one) if not is_equal else ():
            yield f"{form}: {what}, exchanged", sign(of, *names), NOT_ALLOWED


def suggestions():
    for what, a, b, is_equal in pairs():
        yield f"one entry: {what}", suggest(B, name(a), name(b)), "certificate 0" if is_equal else "none"
        yield f"the packet's own behind it: {what}", suggest(B, name(a), name(b), name(a)), f"certificate {0 if is_equal else 1}"
    for size in (3, 253):
        others = [name(each) for _, each in variants(size)]
        for i, packet in enumerate(others):
            yield f"entry {i} of all that are like it, {size} bytes", suggest(B, packet, *others), f"certificate {i}"
            yield f"all but entry {i}, {size} bytes", suggest(B, packet, *others[:i], *others[i + 1 :]), "none"


def one_of_many():
    """A Node with an edge for each variant: every component finds its own."""
    for size in (3, 253):
        components = [each for _, each in variants(size)]
        nodes = [node(i, parent(0)) for i in range(1, len(components) + 1)]
        by_value = model(node(0, *(value_edge(i, each) for i, each in enumerate(components, 1))), *nodes)
        by_option = model(node(0, *(pattern_edge(i, 1, must(value(each))) for i, each in enumerate(components, 1))), *nodes, patterns=1)
        by_any = model(node(0, pattern_edge(1, 1, constraint(*(option(value(each)) for each in components)))), node(1, parent(0)), patterns=1)
        for i, each in enumerate(components, 1):
            what = f"variant {i} of {size} bytes"
            yield f"{what}, ValueEdges", match(by_value, name(each), OLD), match_line(True, [each], [None], i)
            yield f"{what}, PatternEdges", match(by_option, name(each), OLD), match_line(True, [each], [1], i)
            yield f"{what}, options", match(by_any, name(each), OLD), match_line(True, [each], [1])
        for what, each in ("another byte", component(changed(some(size), size // 2, by=2))), ("another type", component(some(size), 10)):
            for form, of in ("ValueEdges", by_value), ("PatternEdges", by_option), ("options", by_any):
                yield f"no variant of {size} bytes, {what}, {form}", match(of, name(each), OLD), kept("no match")


def same_types():
    """`$eq_type` asks for the type alone, whatever the values are."""
    kinds = [(typ, b"abc") for typ in (8, 9, 252, 253, 264, 509, 520, 65535)]
    kinds += (8, b""), (8, b"abd"), (8, b"ab"), (8, some(300)), (264, some(252))
    of_tag = tree(["p", (1,), (3,)], [(2, must(call("$eq_type", tag(1)))), ()])
    for a_type, a_value in kinds:
        a = component(a_value, a_type)
        of_value = tree(["p", (2,)], [(1, must(call("$eq_type", value(a)))), ()])
        for b_type, b_value in kinds:
            b, holds = component(b_value, b_type), a_type == b_type
            what = f"{a[:8].hex()} and {b[:8].hex()}"
            names = name("p", a), name(b)
            yield f"$eq_type of a Tag: {what}", sign(of_tag, *names), sign_line(holds, names, ([None, 1], [2]), (2, 3, 0, 0, 1))
            names = name("p"), name(b)
            yield f"$eq_type of a Value: {what}", sign(of_value, *names), sign_line(holds, names, ([None], [1]), (1, 2, 0, 1))


def longest_names():
    """Names of 1,024 bytes: one component of 1,016 bytes, or two of 506."""
    for what, b in variants(1016):
        if len(name(b)) <= 1024:
            a, is_itself = component(some(1016)), what == "itself"
            for form, of, components, tags in match_forms(a, b):
                if len(components) == 1:
                    yield f"{form}: 1016 bytes, {what}", match(of, name(b), OLD), match_line(is_itself, components, tags)
            line = allowed(1, 1, 0, 0, packet=[(1, 4, 1020)]) if is_itself else NOT_ALLOWED
            yield f"a Tag in packet and key: 1016 bytes, {what}", sign(B, name(a), name(b)), line
            yield f"the packet's own behind it: 1016 bytes, {what}", suggest(B, name(a), name(b), name(a)), f"certificate {0 if is_itself else 1}"
    value = some(506)
    for what, other in ("itself", value), *((f"place {i}", changed(value, i)) for i in (0, 253, 505)), ("a byte less", value[1:]):
        for form, of, components, tags in match_forms(component(value), component(other)):
            yield f"{form}: 506 bytes, {what}", match(of, name(*components), OLD), match_line(value == other, components, tags)


def date_names():
    """Names whose dates differ at the end, or before a time that is the same."""
    for end in ("", "T120000", "T120000" + "x" * 240):
        days = [component(f"202611{day}{end}") for day in range(10, 20)]
        each_day = model(node(0, *(value_edge(i, day) for i, day in enumerate(days, 1))), *(node(i, parent(0)) for i in range(1, 11)))
        # /part/DAY is signed by /key/DAY
        parts_of_days = tree(["part", (1,), (4,)], ["key", (1,), ()])
        keys = [name("key", day) for day in days]
        for i, day in enumerate(days):
            what = f"1{i}{end[:7]}, {len(day)} bytes"
            yield f"the edge of day {what}", match(each_day, name(day), OLD), match_line(True, [day], [None], i + 1)
            yield f"the key of day {what}", suggest(parts_of_days, name("part", day), *keys), f"certificate {i}"
            yield f"no key of day {what}", suggest(parts_of_days, name("part", day), *keys[:i], *keys[i + 1 :]), "none"
            for j in (i, (i + 1) % 10):
                names = name("part", day), keys[j]
                line = sign_line(i == j, names, ([None, 1], [None, 1]), (2, 4, 0, 0, 1, 0))
                yield f"day {what} by 1{j}", sign(parts_of_days, *names), line
        other = component(f"20261120{end}")
        yield f"a day without an edge, {len(other)} bytes", match(each_day, name(other), OLD), kept("no match")


COMPARISONS = (
    one_place, several_places, other_orders, single_bytes, numbers_looked_at, types, headers, lengths, parts, longest, elements, dates,
)  # fmt: skip
CALLS = matches, signings, suggestions, one_of_many, same_types, longest_names, date_names


def cases():
    for part in COMPARISONS + CALLS:
        yield from part()
