"""Whose a binding is (request 7): start, length and origin of each Tag, and the binding words that a signing call is lent.

Most pairs here are two chains of edges from the start, the packet's and the key's. A step of a chain is a text, for a ValueEdge, or a
component and a Tag, for a PatternEdge. Model, names and words are all made from the steps: the words of a Tag are those of its first step,
where the packet's steps come before the key's.
"""
from itertools import permutations, product
from typing import NamedTuple

from bench import A, B, EMPTY, SLASH_A, SLASH_B
from build import *
from gaps import CRITICAL, OPTIONAL, put_everywhere
from paths import LADDER, a_name, count, full_tree, model_faults, name_faults, reached, rungs
from temporary import with_count


class Pair(NamedTuple):
    """A model and two names. Where they are allowed: the nodes and the edges to them, and what each name binds."""

    model: bytes
    packet: bytes
    key: bytes
    found: tuple = None
    bound: dict = {}


def is_value(step):
    return isinstance(step, str)


def name_of(steps):
    return name(*(step if is_value(step) else step[0] for step in steps))


def tags_of(steps):
    return [None if is_value(step) else step[1] for step in steps]


def edges_of(steps):
    return [step if is_value(step) else (step[1],) for step in steps]


def chains(packet, key, named=128):
    """The pair of two chains that begin with different edges: no other packet match has a signer, and no other key match is one."""
    n, m = len(packet), len(key)
    by = n + m if key else 0
    branches = [[*edges_of(packet), (by,)]] + ([[*edges_of(key), ()]] if key else [])
    first, second = 0, int(n > 0)
    if packet and key and is_value(key[0]) > is_value(packet[0]):
        first, second = 1, 0  # ValueEdges come before PatternEdges
    ordinals = [first, *[0] * (n - 1)][:n] + [second, *[0] * (m - 1)][:m]
    names = name_of(packet), name_of(key)
    bound = pair_bindings(names[0], tags_of(packet), names[1], tags_of(key), named)
    return Pair(tree(*branches, patterns=named), *names, (n, by, *ordinals), bound)


LENGTHS = {3: 385, 8: 390, 13: 1024}  # of every 20 buffers; the others have 384 words


def lent(i):
    """(path words, binding words) of case i."""
    return [65535 - j for j in range(66)] if i % 4 == 0 else OLD_PATH, old_words(LENGTHS.get(i % 20, 384))


def signed(pairs):
    """Cases of (what, pair)."""
    for i, (what, pair) in enumerate(pairs):
        words = lent(i if count(pair.packet, pair.key) <= len(OLD_PATH) else 0)
        line = both_kept("not allowed", *words)
        if pair.found is not None:
            line = allowed(*pair.found, **pair.bound, path_words=words[0], words=words[1])
        yield what, sign(pair.model, pair.packet, pair.key, *words), line


# words by hand


def by_hand():
    a_b = path("/a/b")
    yield "B: /a by /a", sign(B, SLASH_A, SLASH_A), allowed(1, 1, 0, 0, packet=[(1, 2, 3)])
    yield "B, count 0: /a by /b", sign(with_count(B, 0), SLASH_A, SLASH_B), allowed(1, 1, 0, 0)
    line = "allowed 1 1 2 3 1" + " 0" * 381 + " 0 0 9"
    yield "B: /a by /a, the whole line", sign(B, SLASH_A, SLASH_A, [7, 8, 9]), line
    # the packet binds Tag 1, the key Tag 2, and both meet Tag 3
    of = tree(["p", (1,), (3,), (7,)], ["k", (3,), (2,), "x", ()])
    line = allowed(3, 7, 0, 0, 0, 1, 0, 0, 0, packet=[(1, 5, 4), (3, 9, 6)], key=[(2, 11, 5)])
    yield "/p/aa/cccc by /k/cccc/bbb/x", sign(of, path("/p/aa/cccc"), path("/k/cccc/bbb/x")), line
    line = "allowed 3 7 5 4 1 11 5 2 9 6 1" + " 0" * 375 + " 0 0 0 1 0 0 0"
    yield "/p/aa/cccc by /k/cccc/bbb/x, the whole line", sign(of, path("/p/aa/cccc"), path("/k/cccc/bbb/x"), [9] * 7), line
    yield "/p/aa/cccc by /k/ccc/bbb/x", sign(of, path("/p/aa/cccc"), path("/k/ccc/bbb/x")), NOT_ALLOWED
    # a name of 253 bytes and more begins with a header of 4: /p/ and 300 times x, so that Tag 1 stands at 4 + 3
    long = "x" * 300
    of = tree(["p", (1,), (4,)], ["k", (2,), ()])
    line = allowed(2, 4, 0, 0, 1, 0, packet=[(1, 7, 304)], key=[(2, 5, 3)])
    yield "a long packet name", sign(of, name("p", long), path("/k/b")), line
    line = allowed(2, 4, 0, 0, 1, 0, packet=[(1, 5, 3)], key=[(2, 7, 304)])
    yield "a long key name", sign(of, path("/p/b"), name("k", long)), line
    of = tree(["p", (1,), (5,)], ["k", long, (1,), ()])
    line = allowed(2, 5, 0, 0, 1, 0, 0, packet=[(1, 5, 3)])
    yield "the packet's Tag behind a long component of the key", sign(of, path("/p/b"), name("k", long, "b")), line
    # where a start alone does not tell: both names are /a/b
    of = tree([(1,), (2,), (4,)], [(3,), (4,), ()])
    line = allowed(2, 4, 0, 0, 1, 0, packet=[(1, 2, 3), (2, 5, 3)], key=[(3, 2, 3), (4, 5, 3)])
    yield "/a/b by /a/b, four Tags", sign(of, a_b, a_b), line
    of = tree([(1,), (2,), (4,)], [(3,), (1,), ()])
    line = allowed(2, 4, 0, 0, 1, 0, packet=[(1, 2, 3), (2, 5, 3)], key=[(3, 2, 3)])
    yield "/a/b by /b/a, Tag 1 again", sign(of, a_b, path("/b/a")), line
    yield "/a/b by /a/b, Tag 1 again", sign(of, a_b, a_b), NOT_ALLOWED
    # the last words: Tag 128 by the key, Tag 127 by the packet
    of = tree(["p", (127,), (4,)], ["k", (128,), ()])
    line = "allowed 2 4" + " 0" * 378 + " 5 3 1 5 2 2" + " 0 0 1 0"
    yield "Tags 127 and 128", sign(of, path("/p/a"), name("k", ""), [9] * 4), line
    line = "allowed 2 4" + " 0" * 378 + " 5 3 1 5 2 2 77 78" + " 0 0 1 0"
    yield "Tags 127 and 128, 386 words", sign(of, path("/p/a"), name("k", ""), [9] * 4, [*OLD, 77, 78]), line


# one Tag

TAGS = (1, 2, 64, 127, 128)
X = "x" * 300  # a component with a header of 4 bytes
# how often the packet and the key meet a Tag
MEETS = {
    "neither": (0, 0),
    "the packet": (1, 0),
    "the key": (0, 1),
    "the packet, then the key": (1, 1),
    "the packet twice": (2, 0),
    "the key twice": (0, 2),
    "the packet, then the key twice": (1, 2),
    "the packet twice, then the key": (2, 1),
}
# what stands in front of it in each name
FRONTS = {
    "short names": (["p"], ["k"]),
    "a long packet name": (["p", X], ["k"]),
    "a long key name": (["p"], ["k", X]),
    "two long names": (["p", X], ["k", "y", X]),
    "a longer packet name": (["p", "y" * 50, "z"], ["k"]),
    "a longer key name": (["p"], ["k", "y" * 50, "z"]),
}
# components with every width of a header
COMPONENTS = {
    "no bytes": component(""),
    "one byte": component("a"),
    "252 bytes": component("a" * 252),
    "253 bytes": component("a" * 253),
    "type 300": component("a", 300),
    "type 300, no bytes": component("", 300),
    "type 65,535, 253 bytes": component("a" * 253, 65535),
}


def met(front, n, each, times):
    return [*front, *[(each, n), "-"] * times]


def one_tag():
    """A Tag that is met by one name or by both, once and twice: the first place counts."""
    for (i, n), (where, (packet, key)), (who, (first, second)) in product(enumerate(TAGS), FRONTS.items(), MEETS.items()):
        each = list(COMPONENTS.values())[(i + len(packet) + 3 * len(key)) % 3]
        yield f"Tag {n}, met by {who}, {where}", chains(met(packet, n, each, first), met(key, n, each, second))


def component_headers():
    """Components with every width of a header, behind others with headers of 2 and 4 bytes."""
    for (what, each), (where, (packet, key)), (who, times) in product(COMPONENTS.items(), list(FRONTS.items())[:3], MEETS.items()):
        if max(times) == 1:
            yield f"a component of {what}, met by {who}, {where}", chains(met(packet, 5, each, times[0]), met(key, 5, each, times[1]))


def headers_before():
    """Components of every width before the Tag, in both names, so that the key meets Tag 3 at another place."""
    for (before, a), (behind, b) in product(COMPONENTS.items(), repeat=2):
        steps = ["p", (a, 1), (b, 3)], ["k", (b, 2), (a, 4), (b, 3)]
        yield f"{before} before {behind}", chains(*steps)


# several Tags

STATES = ("unbound", "packet", "key", "both")


def assigned(tags, states, components):
    """Tags in the packet's chain in order, in the key's in reverse; between them ValueEdges."""
    steps = [(each, n) for n, each in zip(tags, components)]
    packet = [step for step, state in zip(steps, states) if state in ("packet", "both")]
    key = [step for step, state in zip(steps, states) if state in ("key", "both")]
    return ["p", *packet, "-"], ["k", "--", *key[::-1]]


def assignments():
    """Three Tags, each unbound, bound by the packet, by the key, or by the packet and met by the key."""
    some = component(""), component("bb"), component("c" * 253)
    for i, tags in enumerate(((1, 2, 3), (128, 1, 64), (127, 128, 126))):
        for states in product(STATES, repeat=3):
            what = ", ".join(f"{n}: {state}" for n, state in zip(tags, states))
            yield f"Tags {what}", chains(*assigned(tags, states, some[i:] + some[:i]))


def temporary():
    """Tags above the count stay 0, whichever name meets them, and with whatever components."""
    for named, states in product((0, 1, 2), product(STATES[1:], repeat=3)):
        tags = (1, 2, 3)
        packet, key = assigned(tags, states, ("a", "bb", "ccc"))
        # the key has another component where its Tag is temporary
        key = [step if is_value(step) or step[1] <= named else (step[0] + "x", step[1]) for step in key]
        what = ", ".join(f"{n}: {state}" for n, state in zip(tags, states))
        yield f"{named} Tags named, {what}", chains(packet, key, named)
    for n, named in (2, 1), (64, 63), (128, 127), (128, 0):
        for (a, b), c in product((("a", "a"), ("a", "b"), ("a", "")), ("", "cc")):
            steps = ["p", (a, n), (c, 1)], ["k", (c, 1), (b, n), (b + "y", n)]
            yield f"Tag {n} of {named} named, {a!r} and {b!r}, Tag 1 {c!r}", chains(*steps, named)


def many_tags():
    """As many Tags as two names of 32 components take, and one Tag in all of them."""

    def each(i):
        return "x" * (i % 29)

    ways = {
        "1 to 32, then 33 to 64": (range(1, 33), range(33, 65)),
        "97 to 128, then 1 to 32": (range(97, 129), range(1, 33)),
        "odd ones, then even ones": (range(1, 65, 2), range(2, 66, 2)),
        "even ones down, then odd ones down": (range(128, 64, -2), range(127, 63, -2)),
        "every second one": (range(2, 66, 2), range(128, 64, -2)),
    }
    for what, (packet, key) in ways.items():
        yield f"Tags {what}", chains([(each(n), n) for n in packet], [(each(n + 7), n) for n in key])
    # the packet's Tags again in the key, from the last to the first, and half of them
    for what, key in ("all of them again", range(32, 0, -1)), ("some of them again", range(48, 16, -1)):
        yield f"Tags 1 to 32, {what}", chains([(each(n), n) for n in range(1, 33)], [(each(n), n) for n in key])
    for n in (1, 128):
        yield f"Tag {n} in 31 and 31 components", chains(["p", *[("ab", n)] * 31], ["k", *[("ab", n)] * 31])
        yield f"Tag {n} in 31 components of the key", chains(["p"], ["k", *[("ab", n)] * 31])


# starts


def filled(size):
    """A text whose component has so many bytes."""
    return "y" * (size - (2 if size < 255 else 4))


def starts():
    """Tags 1, 2 and 3 of the packet, the key and both, behind components of many sizes: names shorter and longer than one another."""
    for before, behind in product((2, 3, 100, 254, 257, 600), repeat=2):
        steps = ["p", filled(before), ("a", 1), ("ccc", 3)], ["k", filled(behind), ("bb", 2), ("ccc", 3)]
        yield f"{before} bytes in the packet, {behind} in the key", chains(*steps)
    # the key's start around the packet's length, 11
    for size in range(2, 12):
        yield f"{size} bytes before the key's Tag", chains(["p", ("a", 1), ("a", 3)], ["k", filled(size), ("bb", 2), ("a", 1)])
    # and a packet's start around the key's length, 9
    for size in range(2, 9):
        yield f"{size} bytes before the packet's Tag", chains(["p", filled(size), ("a", 1)], ["k", ("bb", 2)])
    # names of 1,024 bytes
    for first, second in ("the longest", "short"), ("short", "the longest"), ("the longest", "the longest"):
        sizes = {"short": 10, "the longest": 1024 - 4 - 3 - 3}
        packet, key = ["p", filled(sizes[first]), ("a", 1)], ["k", filled(sizes[second]), ("b", 2)]
        yield f"the packet name {first}, the key name {second}", chains(packet, key)
        packet, key = ["p", ("y" * (sizes[first] - 4), 1), ("a", 3)], ["k", ("z" * (sizes[second] - 4), 2), ("a", 3)]
        yield f"the packet name {first}, the key name {second}, the long one bound", chains(packet, key)


def first_steps():
    """Tags of the very first components: the key's chain and the packet's begin with a pattern each, or one of them does."""
    for a, b in product(COMPONENTS.values(), repeat=2):
        what = f"{a[:4].hex()} and {b[:4].hex()}"
        yield f"first components {what}", chains([(a, 7), "-"], [(b, 9)])
        yield f"first component {what}, then the packet's again", chains([(a, 7), (b, 8)], [(b, 9), (b, 8), (a, 7)])
        yield f"first component of the key alone, {what}", chains(["p", (a, 7)], [(b, 9), (a, 7), "-"])


# names that are equal or empty


def equal_names():
    """A rule that signs itself: the packet binds all, the key meets all."""
    for tags in permutations((1, 64, 128)):
        for components in ("a", "bb", "ccc"), ("", "", ""), (X, "", "a"):
            of = tree([*((n,) for n in tags), (3,)])
            both = name(*components)
            yield f"Tags {tags}, {len(both)} bytes", Pair(of, both, both, (3, 3, *[0] * 6), pair_bindings(both, tags, both, tags))
    # two rules for one name: the packet's end and the key's have no Tag in common
    for first, second in product(permutations((1, 2, 3)), [(4, 5, 6), (128, 127, 126)]):
        yield f"Tags {first} and {second}", chains(*([(each, n) for n, each in zip(tags, ("a", "", X))] for tags in (first, second)))


def empty_names():
    steps = ["-", ("a", 1), ("", 128), ("a", 1)]
    yield "an empty packet name", chains([], steps)
    yield "an empty key name", chains(steps, [])
    yield "two empty names", chains([], [])
    yield "an empty packet name, a long key name", chains([], [(X, 3), ("b", 2)])
    yield "a long packet name, an empty key name", chains([(X, 3), ("b", 2)], [])
    # the start signs, or is signed by, all that a Tag takes
    for n in TAGS:
        yield f"Tag {n}, an empty packet name", chains([], [("abc", n)])
        yield f"Tag {n}, an empty key name", chains([("abc", n)], [])
    yield "an empty packet name, temporary Tags", chains([], [("a", 2), ("b", 2), ("c", 1)], 1)
    yield "an empty key name, temporary Tags", chains([("a", 2), ("b", 2), ("c", 1)], [], 1)


# an edge for each Tag at the start, and at each Node behind it


def all_tags():
    """The first path takes the lowest Tag that it can: the i-th component that is new, in the packet and then in the key, is Tag i's.

    With a Tag fewer than there are different components, no path ends; with a temporary Tag behind the named one, that takes the others.
    """
    some = {"a": component(""), "b": component("bb"), "c": component("c" * 253)}
    texts = [letters for n in range(3) for letters in product("abc", repeat=n)]
    for tags, named in (3, 3), (2, 2), (2, 1):
        of = full_tree(lambda to: [pattern_edge(to + n, 1 + n) for n in range(tags)], 2, range(1 + tags + tags**2), named)
        for packet, key in product(texts, repeat=2):
            different = list(dict.fromkeys(packet + key))
            names = [name(*(some[c] for c in letters)) for letters in (packet, key)]
            pair = Pair(of, *names)
            if len(different) <= tags or named < tags:
                crossed = [min(1 + different.index(c), tags) for c in packet + key]
                bound = pair_bindings(names[0], crossed[: len(packet)], names[1], crossed[len(packet) :], named)
                words = [n - 1 for n in crossed]
                ends = reached(words[: len(packet)], tags), reached(words[len(packet) :], tags)
                pair = Pair(of, *names, (*ends, *words), bound)
            yield f"{tags} Tags, {named} named, {''.join(packet) or 'nothing'} by {''.join(key) or 'nothing'}", pair


# branches that are left

PACKET_BRANCHES = ((11, 1, 2), (12, 2, 1), (13, 3, "never"), (14, 3, 5), (15, 15, 6), (16, 4, 4))  # for /a/bb/bb
KEY_BRANCHES = ((21, 3), (22, 1), (23, 7), (24, 24), (25, "never"), (26, 2), (27, 5))  # for /dd/bb
PACKET_TEXTS, KEY_TEXTS = ("a", "bb", "bb"), ("dd", "bb")


def agreed(branch, texts, before):
    """What the Tags of a branch are bound to behind those before; None where it may not be crossed."""
    bound = dict(before)
    for tag_or_text, each in zip(branch, texts):
        if is_value(tag_or_text) and tag_or_text != each or bound.setdefault(tag_or_text, each) != each:
            return None
    return bound


def edges_in(branch):
    return [each if is_value(each) else (each,) for each in branch]


def branch_pair(listed):
    """A model with all branches, where the packet's list those of the key's that are listed with them: the first pair of these that agrees."""
    packet, key = name(*PACKET_TEXTS), name(*KEY_TEXTS)
    ends = [3 * len(PACKET_BRANCHES) + 2 * j + 2 for j in range(len(KEY_BRANCHES))]
    signers = [tuple(ends[j] for k, j in listed if k == i) for i in range(len(PACKET_BRANCHES))]
    packets = [[*edges_in(branch), signers[i]] for i, branch in enumerate(PACKET_BRANCHES)]
    of = tree(*packets, *([*edges_in(branch), ()] for branch in KEY_BRANCHES))
    for i, j in sorted(listed):
        by_packet = agreed(PACKET_BRANCHES[i], PACKET_TEXTS, {})
        if by_packet is not None and agreed(KEY_BRANCHES[j], KEY_TEXTS, by_packet) is not None:
            found = 3 * i + 3, ends[j], i, 0, 0, len(PACKET_BRANCHES) + j, 0
            return Pair(of, packet, key, found, pair_bindings(packet, PACKET_BRANCHES[i], key, KEY_BRANCHES[j]))
    return Pair(of, packet, key)


def branches():
    """The words are those of the answered pair, whichever branches were tried before it; where no pair is allowed, none is written."""
    every = list(product(range(len(PACKET_BRANCHES)), range(len(KEY_BRANCHES))))
    several = [[pair] for pair in every]
    several += [[pair for pair in every if pair[1] == j] for j in range(len(KEY_BRANCHES))]
    several += [[pair for pair in every if pair[0] == i] for i in range(len(PACKET_BRANCHES))]
    several += [every, every[::3], every[1::3], every[2::3], every[::2], every[1::2], every[20:], every[33:]]
    for listed in several:
        more = f" and {len(listed) - 3} more" if len(listed) > 3 else ""
        yield f"branches {', '.join(f'{i} by {j}' for i, j in listed[:3])}{more}", branch_pair(listed)


def left_by_hand():
    """Branches that bound Tags and were left, each place by hand."""
    ap, kb, kbc = path("/a/p"), path("/k/b"), path("/k/b/c")  # the components stand at 2, 5 and 8
    # the packet's first match has no signer: what it bound is not there, and the key binds Tag 1 first
    of = tree([(1,), "p", ()], [(2,), "p", (6,)], ["k", (1,), ()])
    yield "the packet's second match", sign(of, ap, kb), allowed(4, 6, 2, 0, 0, 0, packet=[(2, 2, 3)], key=[(1, 5, 3)])
    # its first match has the same signer, but binds Tag 1 to another component than the key's
    of = tree([(1,), "p", (6,)], [(2,), "p", (6,)], ["k", (1,), ()])
    yield "the packet's second match, the first not agreeing", sign(of, ap, kb), allowed(4, 6, 2, 0, 0, 0, packet=[(2, 2, 3)], key=[(1, 5, 3)])
    yield "the packet's first match", sign(of, ap, path("/k/a")), allowed(2, 6, 1, 0, 0, 0, packet=[(1, 2, 3)])
    # three matches of the packet, each with another Tag; only the last has a signer
    of = tree([(1,), "p", ()], [(2,), "p", ()], [(3,), "p", (9,)], ["k", (1,), (2,), ()])
    line = allowed(6, 9, 3, 0, 0, 0, 0, packet=[(3, 2, 3)], key=[(1, 5, 3), (2, 8, 3)])
    yield "the packet's third match", sign(of, ap, kbc), line
    # the key's first branch binds Tags 4 and 5 and fails at its last edge
    of = tree(["p", (8,)], ["k", (4,), (5,), "x", ()], ["k", (5,), (6,), "c", ()])
    line = allowed(1, 8, 0, 1, 1, 0, 0, key=[(5, 5, 3), (6, 8, 3)])
    yield "the key's second branch", sign(of, path("/p"), path("/k/a/b/c")), line
    # the key's first branch ends at a Node that is no signer
    of = tree(["p", (6,)], ["k", (4,), (5,), ()], ["k", (5,), (4,), ()])
    line = allowed(1, 6, 0, 1, 1, 0, key=[(5, 5, 3), (4, 8, 3)])
    yield "the key's second match", sign(of, path("/p"), kbc), line
    # the same where that Node's branch meets the packet's Tag
    of = tree([(1,), (6,)], [(2,), (6,)], ["k", (3,), (1,), ()], ["k", (3,), (4,), ()])
    line = allowed(1, 6, 1, 0, 0, 1, packet=[(1, 2, 3)], key=[(3, 5, 3), (4, 8, 3)])
    yield "the key's second match, the first meeting the packet's Tag", sign(of, SLASH_A, path("/k/b/a")), line
    # from the first packet match the key's walk binds Tag 3 and fails at Tag 1; from the second it binds both
    of = tree([(1,), (5,)], [(2,), (5,)], ["k", (3,), (1,), ()])
    line = allowed(2, 5, 2, 0, 0, 0, packet=[(2, 2, 3)], key=[(3, 5, 3), (1, 8, 3)])
    yield "Tag 1 by the packet at first, then by the key", sign(of, SLASH_A, kbc), line
    line = allowed(1, 5, 1, 0, 0, 0, packet=[(1, 2, 3)], key=[(3, 5, 3)])
    yield "Tag 1 by the packet, met by the key", sign(of, SLASH_A, path("/k/b/a")), line
    # a Constraint that refuses the last edge
    of = tree([(1,), (2, must_be("x")), ()], [(3,), (2,), (4,)])
    line = allowed(4, 4, 1, 0, 1, 0, packet=[(3, 2, 3), (2, 5, 3)])
    yield "a Constraint that refuses, in both names", sign(of, path("/a/b"), path("/a/b")), line
    # the key's first branch needs the packet's component, the second binds Tag 2 to any
    of = tree(["p", (1,), (4,)], ["k", (1,), ()], ["k", (2,), ()])
    yield "the key's first branch, alike", sign(of, path("/p/b"), kb), allowed(2, 4, 0, 0, 1, 0, packet=[(1, 5, 3)])
    yield "the key's first branch, not alike", sign(of, path("/p/a"), kb), NOT_ALLOWED
    of = tree(["p", (1,), (4, 5)], ["k", (1,), ()], ["k", (2,), ()])
    line = allowed(2, 5, 0, 0, 1, 1, packet=[(1, 5, 3)], key=[(2, 5, 3)])
    yield "the key's first branch, not alike, or its second", sign(of, path("/p/a"), kb), line


# components that are compared with those of either name


def compared():
    """Where both names have a component at the same start, that of the Tag's origin is the one that counts."""
    for what, term in ("a Tag option", tag), ("$eq", lambda n: call("$eq", tag(n))), ("$eq_type", lambda n: call("$eq_type", tag(n))):

        def asks(n):
            return constraint(option(term(n)))

        other = component("b", 9) if what == "$eq_type" else component("b")
        # Tag 1 is the packet's a at 5, Tag 2 the key's b at 5; Tag 3's edge asks for one of them
        good = allowed(2, 5, 0, 0, 1, 0, 0, packet=[(1, 5, 3)], key=[(2, 5, 3), (3, 8, 3)])
        for n, like, unlike in (1, "a", other), (2, other, "a"):
            of = tree(["p", (1,), (5,)], ["k", (2,), (3, asks(n)), ()])
            yield f"{what} of Tag {n}, alike", sign(of, path("/p/a"), name("k", other, like)), good
            yield f"{what} of Tag {n}, not alike", sign(of, path("/p/a"), name("k", other, unlike)), NOT_ALLOWED
        # the same within each name
        of, both = tree(["p", (1,), (2, asks(1)), (3,)]), path("/p/a/a")
        yield f"{what} in the packet and the key", sign(of, both, both), allowed(3, 3, *[0] * 6, packet=[(1, 5, 3), (2, 8, 3)])
    # Tag 2 twice in the key, where the packet has another component at its first place
    of = tree(["p", (1,), (5,)], ["k", (2,), (2,), ()])
    for key, line in (
        ("/k/b/b", allowed(2, 5, 0, 0, 1, 0, 0, packet=[(1, 5, 3)], key=[(2, 5, 3)])),
        ("/k/a/a", allowed(2, 5, 0, 0, 1, 0, 0, packet=[(1, 5, 3)], key=[(2, 5, 3)])),
        ("/k/b/a", NOT_ALLOWED),
        ("/k/a/b", NOT_ALLOWED),
    ):
        yield f"Tag 2 twice in {key}, packet /p/a", sign(of, path("/p/a"), path(key)), line
    # a packet's component further than the key's last byte, and a key's further than the packet's
    long = "y" * 100
    of = tree(["p", long, (1,), (5,)], ["k", (1,), ()])
    line = allowed(3, 5, 0, 0, 0, 1, 0, packet=[(1, 107, 3)])
    yield "the packet's component behind the key's end", sign(of, name("p", long, "a"), path("/k/a")), line
    of = tree(["p", (1,), (7,)], ["k", long, (2,), (1,), (2,), ()])
    line = allowed(2, 7, 0, 0, 1, 0, 0, 0, 0, packet=[(1, 5, 3)], key=[(2, 107, 3)])
    yield "the key's component behind the packet's end", sign(of, path("/p/a"), name("k", long, "b", "a", "b")), line


def unequal():
    """A Tag that the packet bound, and the key meets with another component: not allowed, and all words stay."""
    changes = component("b"), component("a", 9), component(""), component("aa"), component("a", 264)
    for n, (where, (packet, key)), other in product(TAGS, list(FRONTS.items())[:3], changes):
        pair = chains([*packet, ("a", n)], [*key, ("a", n)])
        yield f"Tag {n}, {where}, the key's {other.hex()}", Pair(pair.model, pair.packet, name_of([*key, (other, n)]))
    pairs = ("/p/a/b", "/k/a/a"), ("/p/a/a", "/k/a/b"), ("/p/a/a", "/k/b/a"), ("/p/a/a", "/k/b/b"), ("/p/b/b", "/k/a/a")
    # a signer that is not listed, and names that end too soon or too late
    others = ("/k/a/a", "/p/a/a"), ("/p/a/a", "/k/a"), ("/p/a", "/k/a/a"), ("/p/a/a", "/k/a/a/a")
    for n in TAGS:
        twice = chains(["p", ("a", n), ("a", n)], ["k", ("a", n), ("a", n)])
        for packet, key in pairs + others:
            yield f"Tag {n}, {packet} by {key}", Pair(twice.model, path(packet), path(key))
        by_key = chains(["p"], ["k", ("a", n), ("a", n)])
        yield f"Tag {n}, /p by /k/a/b", Pair(by_key.model, path("/p"), path("/k/a/b"))


# the buffer

SIZES = (384, 385, 386, 390, 500, 768, 1023, 1024)
SHORT = (0, 1, 2, 3, 128, 255, 256, 257, 381, 382, 383)


def sizes():
    """The first 384 words are written, and those behind them stay; fewer are refused."""
    pairs = (
        ("Tag 1", chains(["p", ("a", 1)], ["k", ("b", 2)])),
        ("Tag 128", chains(["p", ("a", 127)], ["k", ("b", 128)])),
        ("no Tag", chains(["p"], ["k"])),
        ("no component", chains([], [])),
    )
    for what, pair in pairs:
        names = pair.packet, pair.key
        for size in SIZES:
            words = old_words(size)
            yield f"{what}, {size} words", sign(pair.model, *names, words=words), allowed(*pair.found, **pair.bound, words=words)
            bound = pair.bound["packet"]
            yield f"{what}, {size} words, a match", match(pair.model, pair.packet, words), matched(pair.found[0], *bound, behind=words[384:])
        for size in SHORT:
            words = old_words(size)
            yield f"{what}, {size} words", sign(pair.model, *names, words=words), both_kept("refused 27 0", words=words)
    # what the words hold before has no influence: zeros, origins, places
    pair = pairs[0][1]
    for what, words in (
        ("zeros", [0] * 385),
        ("ones", [1] * 385),
        ("twos", [2] * 385),
        ("the largest", [2**32 - 1] * 385),
        ("the packet's words", [*binding_words([(1, 5, 3)]), 5]),
        ("words of another pair", [*binding_words([(n, 2, 3) for n in range(1, 65)], [(n, 2, 3) for n in range(65, 129)]), 5]),
    ):
        yield f"{what} before", sign(pair.model, pair.packet, pair.key, words=words), allowed(*pair.found, **pair.bound, words=words)
        yield f"{what} before, not allowed", sign(pair.model, pair.key, pair.packet, words=words), both_kept("not allowed", words=words)


def before_27():
    """The refusals of the model and of the names come before 27 and 34. All words of both buffers stay."""
    lent_sizes = (0, 0), (0, 2), (256, 1), (383, 0), (383, 2), (384, 1), (384, 2), (390, 3)
    for k, (what, of, answer) in enumerate(model_faults()):
        # a long one with fewer of them
        for size, path_size in lent_sizes[k % 2 :: 5] if len(of) > 32768 else lent_sizes:
            words = OLD_PATH[:path_size], old_words(size)
            yield f"{what}, {size} words, a path of {path_size}", sign(of, SLASH_A, SLASH_A, *words), both_kept(answer, *words)
    for k, (what, packet, key, answer) in enumerate(name_faults()):
        for size, path_size in lent_sizes[k % 3 :: 3]:
            words = OLD_PATH[:path_size], old_words(size)
            yield f"{what}, {size} words, a path of {path_size}", sign(B, packet, key, *words), both_kept(answer, *words)


def before_34():
    """27 comes before 34, and both before the walk."""
    for what, of, packet, key, found in (
        ("B, /a by /a", B, SLASH_A, SLASH_A, (1, 1, 0, 0)),
        ("B, /a by /b", B, SLASH_A, SLASH_B, None),
        ("A, empty names", A, EMPTY, EMPTY, None),
        ("a start that lists itself, empty names", model(node(0, signer(0))), EMPTY, EMPTY, (0, 0)),
        ("32 and 32 components", LADDER, a_name(32), a_name(32), (32, 32, *rungs(32, 32))),
        ("32 and 31 components", LADDER, a_name(32), a_name(31), None),
    ):
        need, bound = count(packet, key), dict(packet=[(1, 2, 3)]) if of == B else {}
        for size, path_size in product((0, 256, 383, 384, 385), sorted({0, max(need - 1, 0), need, need + 1})):
            words = [65535 - i for i in range(path_size)], old_words(size)
            if size < 384 or path_size < need:
                line = both_kept(f"refused {27 if size < 384 else 34} 0", *words)
            else:
                line = allowed(*found, **bound, path_words=words[0], words=words[1]) if found else both_kept("not allowed", *words)
            yield f"{what}, {size} words, a path of {path_size}", sign(of, packet, key, *words), line


# the match call, and models with more in them


def matches():
    """Either name of a pair matched by itself: every binding has origin 1, and starts in that name."""
    pairs = [*list(assignments())[::5], *list(starts())[::4], *list(headers_before())[::5]]
    for i, (what, pair) in enumerate(pairs):
        _, words = lent(i)
        line = matched(pair.found[0], *pair.bound["packet"], behind=words[384:])
        yield f"{what}, the packet name", match(pair.model, pair.packet, words), line
    for what, packet, key, named in (
        ("Tags 1 and 2", ["p", ("a", 1)], ["k", ("b", 2), ("a", 1)], 2),
        ("Tags 127 and 128", ["p", ("a", 128)], ["k", X, ("a", 128), ("", 127)], 128),
        ("one Tag twice", ["p", ("a", 3)], ["k", ("a", 3), ("a", 3)], 3),
        ("a temporary Tag", ["p", ("a", 3)], ["k", ("a", 3), ("b", 3), ("c", 1)], 2),
    ):
        pair = chains(packet, key, named)
        line = matched(pair.found[1], *first_places(pair.key, tags_of(key), named))
        yield f"{what}, the key name", match(pair.model, pair.key, OLD), line


def optional():
    """Optional elements change no word; critical ones are refused, and all words stay."""
    pairs = (
        ("three Tags", chains(["p", ("a", 1), ("ccc", 3)], ["k", "x", ("bb", 2), ("ccc", 3)])),
        ("a temporary Tag", chains(["p", ("a", 1), ("b", 3)], ["k", ("c", 3), ("d", 2)], 2)),
    )
    for what, pair in pairs:
        for spare in OPTIONAL:
            of = put_everywhere(pair.model, bytes.fromhex(spare))
            yield f"{what}, {spare} in every gap", sign(of, pair.packet, pair.key), allowed(*pair.found, **pair.bound)
            yield f"{what}, {spare} in every gap, exchanged", sign(of, pair.key, pair.packet), NOT_ALLOWED
        for spare in CRITICAL:
            of = put_everywhere(pair.model, faulty(bytes.fromhex(spare)))
            yield f"{what}, {spare} in every gap", sign(of, pair.packet, pair.key), both_kept(refused_at(of))
        of = pair.model + symbol(1, "part") + symbol(128, "author")
        yield f"{what}, with symbols", sign(of, pair.packet, pair.key), allowed(*pair.found, **pair.bound)


PAIRS = (
    one_tag, component_headers, headers_before, assignments, temporary, many_tags, starts, first_steps, equal_names, empty_names, all_tags,
    branches, unequal,
)  # fmt: skip


def cases():
    yield from by_hand()
    for part in PAIRS:
        yield from signed(part())
    for part in left_by_hand, compared, sizes, before_27, before_34, matches, optional:
        yield from part()
