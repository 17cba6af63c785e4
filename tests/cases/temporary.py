"""Temporary patterns (request 3): edges whose Tag is above NamedPatternCnt take any component that their Constraints take.

Most models come with several counts, so that a Tag is temporary under the lower ones and named under the higher ones, where the answer is
that of a walk in which every Tag binds. Only the count differs between them.
"""
from bench import B, EMPTY, SLASH_A, SLASH_B
from build import *
from certificates import TOO_MANY, as_lists, bad_entry, certificate, documents, many
from document_003 import ADMIN, ADMIN_KEY, AUTHOR, AUTHOR_KEY, QUICK_CHECKS, QUICK_COUNT, QUICK_EDGES, ROOT
from document_003 import T_ADMIN, T_ARTICLE, T_AUTHOR, T_ROOT, T_USER, TUTORIAL_CHECKS, TUTORIAL_COUNT, TUTORIAL_EDGES
from document_003 import by_rules, check_line, quick, quick_tags, tutorial, tutorial_tags
from gaps import CRITICAL, FULL, OPTIONAL, PACKET, put_everywhere, put_in
from limits import A_NAME, all_three
from refusals import COUNT, FAULTS, forks, forks_model, refused
from writing import Part, both

LARGEST = 2**64 - 1
AB, AA, BB = map(path, ("/a/b", "/a/a", "/b/b"))  # the components stand at 2 and 5, with 3 bytes each
NO_MATCH = kept("no match")


def with_count(of, count, size=None, before=b"", behind=b""):
    """The same model with another count, in `size` bytes, and what stands before and behind it."""
    assert of[9:11] == bytes([PATTERN_COUNT, 1])
    return concat(of[:9], before, integer(PATTERN_COUNT, count, size), behind, of[12:])


def walked(at, uri, tags, count):
    """The line of a match. `tags` has the Tag of each edge on the path, None for a ValueEdge: a named one is bound at its first place."""
    return matched(at, *first_places(path(uri), tags, count))


def allowed_if(holds, *found, path_words=OLD_PATH, **bound):
    """`found` is the nodes and the path of an allowed pair; no Tag is bound where nothing is said of it."""
    return allowed(*found, path_words=path_words, **bound) if holds else both_kept("not allowed", path_words)


# the request's own example


def bench():
    """Model B: its Tag is named by its own count and any higher one, and temporary with 0."""
    none = with_count(B, 0)
    assert none == B[:11] + b"\x00" + B[12:]
    yield "B, count 0", verdict(none), "accepted 2"
    yield "B, count 0: /a at node 1, no Tag bound", match(none, SLASH_A, OLD), matched(1)
    yield "B, count 0: /b at node 1, no Tag bound", match(none, SLASH_B, OLD), matched(1)
    yield "B, count 0: the empty name at node 0", match(none, EMPTY, OLD), matched(0)
    yield "B, count 0: /a/b", match(none, AB, OLD), NO_MATCH
    yield "B, count 0: (/a, /b)", sign(none, SLASH_A, SLASH_B), allowed(1, 1, 0, 0)
    yield "B, count 0: (/b, /a)", sign(none, SLASH_B, SLASH_A), allowed(1, 1, 0, 0)
    yield "B, count 0: (/a, /a)", sign(none, SLASH_A, SLASH_A), allowed(1, 1, 0, 0)
    yield "B, count 0: (/a, empty)", sign(none, SLASH_A, EMPTY), NOT_ALLOWED
    yield "B, count 0: (empty, /a)", sign(none, EMPTY, SLASH_A), NOT_ALLOWED
    for count in (1, 2, 128, LARGEST):
        of = with_count(B, count)
        yield f"B, count {count}", verdict(of), "accepted 2"
        yield f"B, count {count}: /a at node 1, Tag 1 at 2, length 3", match(of, SLASH_A, OLD), matched(1, (1, 2, 3))
        yield f"B, count {count}: (/a, /a)", sign(of, SLASH_A, SLASH_A), allowed(1, 1, 0, 0, packet=[(1, 2, 3)])
        yield f"B, count {count}: (/a, /b)", sign(of, SLASH_A, SLASH_B), NOT_ALLOWED
        yield f"B, count {count}: (/a, empty)", sign(of, SLASH_A, EMPTY), NOT_ALLOWED


# the Tag and the count as numbers


def one_edge(n, count, tag_size=None, count_size=None):
    """Model B with this Tag and this count."""
    edge = element(PATTERN_EDGE, node_id(1), integer(TAG, n, tag_size))
    return with_count(model(node(0, edge), node(1, parent(0), signer(1))), count, count_size)


def at_count(what, n, count, *sizes):
    of = one_edge(n, count, *sizes)
    yield what, match(of, SLASH_A, OLD), matched(1, (n, 2, 3)) if n <= count else matched(1)
    yield what, sign(of, SLASH_A, SLASH_B), allowed_if(n > count, 1, 1, 0, 0)


def counts():
    """A Tag equal to the count is named, the next one temporary; counts may be larger than any Tag; no bit of either is lost."""
    for n in (1, 2, 3, 64, 126, 127, 128):
        for count in (n - 1, n, n + 1):
            yield from at_count(f"Tag {n}, count {count}", n, count)
    for count in (0, 127, 128, 129, 255, 256, 65535, 65536, 2**32, 2**63, LARGEST):
        for size in (1, 2, 4, 8):
            if count < 1 << 8 * size:
                yield f"count {count} in {size} bytes", verdict(one_edge(1, count, None, size)), "accepted 2"
                for n in (1, 127, 128):
                    yield from at_count(f"Tag {n}, count {count} in {size} bytes", n, count, None, size)
    for n in (1, 127, 128):
        for size in (2, 4, 8):
            for count in (n - 1, n):
                yield from at_count(f"Tag {n} and count {count}, each in {size} bytes", n, count, size, size)
        yield from at_count(f"Tag {n} in 8 bytes, count {n - 1} in 1", n, n - 1, 8, 1)
        yield from at_count(f"Tag {n} in 8 bytes, count {n} in 1", n, n, 8, 1)
        yield from at_count(f"Tag {n} in 1 byte, count {n - 1} in 8", n, n - 1, 1, 8)
        yield from at_count(f"Tag {n} in 1 byte, count {n} in 8", n, n, 1, 8)


# one temporary Tag on several edges


def repeated():
    """Twice and more in one name, in packet and key, in several rules: components may differ."""
    for count in (0, 1):
        free = count == 0
        twice = tree([(1,), (1,), (2,)], patterns=count)
        for what, packet, is_equal in (
            ("different components", AB, False),
            ("equal components", AA, True),
            ("another type", name("a", component("a", 9)), False),
            ("a shorter component", path("/ab/a"), False),
        ):
            line = matched(2) if free else matched(2, (1, 2, 3)) if is_equal else NO_MATCH
            yield f"twice in a name, count {count}: {what}", match(twice, packet, OLD), line
        for packet, key in ("/a/b", "/c/d"), ("/a/a", "/b/b"), ("/a/a", "/a/b"), ("/a/b", "/a/b"):
            yield f"twice in {packet} and {key}, count {count}", sign(twice, path(packet), path(key)), allowed_if(free, 2, 2, 0, 0, 0, 0)
        yield f"twice in /a/a and /a/a, count {count}", sign(twice, AA, AA), allowed(2, 2, 0, 0, 0, 0, packet=[(1, 2, 3)][:count])
        apart = tree([(1,), "x", (1,), "x", (1,), ()], patterns=count)
        yield f"three times, count {count}: different components", match(apart, path("/a/x/b/x/c"), OLD), matched(5) if free else NO_MATCH
        line = walked(5, "/a/x/a/x/a", (1, None, 1, None, 1), count)
        yield f"three times, count {count}: equal components", match(apart, path("/a/x/a/x/a"), OLD), line
        # a chain of as many edges as a name has components
        longest = tree([*[(1,)] * 32, (1, 2, 32)], patterns=count)
        different, equal = name(*(f"{i:02}" for i in range(32))), name(*["00"] * 32)
        yield f"32 times, count {count}: different components", match(longest, different, OLD), matched(32) if free else NO_MATCH
        yield f"32 times, count {count}: equal components", match(longest, equal, OLD), matched(32) if free else matched(32, (1, 2, 4))
        room = list(range(900, 968))  # four words more than two names of 32 components take
        line = allowed_if(free, 32, 32, *[0] * 64, path_words=room)
        yield f"32 times in both names, count {count}", sign(longest, different, different, room), line
        line = allowed_if(free, 32, 1, *[0] * 33, path_words=room)
        yield f"32 times, another key, count {count}", sign(longest, equal, path("/01"), room), line
        line = allowed(32, 2, *[0] * 34, path_words=room, packet=[(1, 2, 4)][:count])
        yield f"32 times, the same key, count {count}", sign(longest, equal, path("/00/00"), room), line
        # rules p and q, whose keys are of rule k
        rules = tree(["p", (1,), (6,)], ["q", (1,), (6,)], ["k", (1,), ()], patterns=count)
        for packet, found in ("/p/a", (2, 6, 0, 0, 2, 0)), ("/q/a", (4, 6, 1, 0, 2, 0)):
            yield f"{packet} by /k/b, count {count}", sign(rules, path(packet), path("/k/b")), allowed_if(free, *found)
            yield f"{packet} by /k/a, count {count}", sign(rules, path(packet), path("/k/a")), allowed(*found, packet=[(1, 5, 3)][:count])
            yield f"{packet} by /k, count {count}", sign(rules, path(packet), path("/k")), NOT_ALLOWED
        # a packet's Tag again in the key's name, twice there
        chain = tree(["p", (1,), (5,)], ["k", (1,), (1,), ()], patterns=count)
        for key, is_equal in ("/k/a/a", True), ("/k/a/b", False), ("/k/b/a", False), ("/k/b/b", False):
            line = allowed_if(free or is_equal, 2, 5, 0, 0, 1, 0, 0, packet=[(1, 5, 3)][:count])
            yield f"/p/a by {key}, count {count}", sign(chain, path("/p/a"), path(key)), line


def mixed():
    """Named and temporary Tags on one path: the words of the named ones, and how many they are."""
    of = [(1,), (2,), (1,), (3,), ()]
    for count in range(5):
        line = walked(4, "/a/bb/a/cccc", (1, 2, 1, 3), count)
        yield f"Tags 1, 2, 1 and 3, count {count}", match(tree(of, patterns=count), path("/a/bb/a/cccc"), OLD), line
        line = walked(4, "/a/bb/x/cccc", (1, 2, 1, 3), 0) if count == 0 else NO_MATCH
        yield f"Tags 1, 2, 1 and 3, count {count}: another third", match(tree(of, patterns=count), path("/a/bb/x/cccc"), OLD), line
    # by hand: count 2, and the components stand at 2, 5, 9 and 12
    line = matched(4, (1, 2, 3), (2, 5, 4))
    yield "Tags 1, 2, 1 and 3, count 2, by hand", match(tree(of, patterns=2), path("/a/bb/a/cccc"), OLD), line
    around = [(9,), (1,), (9,), (128,), (2,), ()]
    for count in (0, 1, 2, 8, 9, 127, 128):
        # Tag 9 is met with two components: named, it refuses them
        line = walked(5, "/aa/b/ccc/d/e", (9, 1, 9, 128, 2), count) if count < 9 else NO_MATCH
        yield f"Tags 9, 1, 9, 128 and 2, count {count}", match(tree(around, patterns=count), path("/aa/b/ccc/d/e"), OLD), line
        line = walked(5, "/aa/b/aa/d/e", (9, 1, 9, 128, 2), count)
        yield f"Tags 9, 1, 9, 128 and 2, 9 twice alike, count {count}", match(tree(around, patterns=count), path("/aa/b/aa/d/e"), OLD), line
    # as many Tags as a name has components
    uri = "".join(f"/{'x' * (1 + i % 5)}" for i in range(32))
    for what, tags, some in (
        ("Tags 1 to 32", range(1, 33), (0, 1, 16, 31, 32, 33)),
        ("Tags 97 to 128", range(97, 129), (0, 96, 97, 112, 127, 128, 129)),
        ("Tags 32 to 1", range(32, 0, -1), (0, 1, 16, 31, 32)),
    ):
        long = tree([*((n,) for n in tags), ()])
        for count in some:
            yield f"{what}, count {count}", match(with_count(long, count), path(uri), OLD), walked(32, uri, tags, count)
    # p/author/issuer is signed by k/author/issuer
    for count in range(4):
        of = tree(["p", (1,), (2,), (6,)], ["k", (1,), (2,), ()], patterns=count)
        for key in ("/k/a/x", "/k/a/y", "/k/b/x", "/k/b/y"):
            _, _, author, issuer = key.split("/")
            holds = (count < 1 or author == "a") and (count < 2 or issuer == "x")
            line = allowed_if(holds, 3, 6, 0, 0, 0, 1, 0, 0, packet=[(1, 5, 3), (2, 8, 3)][:count])
            yield f"/p/a/x by {key}, count {count}", sign(of, path("/p/a/x"), path(key)), line


# Constraints

NAMING = (
    ("an option", tag),
    ("$eq's argument", lambda n: call("$eq", tag(n))),
    ("$eq_type's argument", lambda n: call("$eq_type", tag(n))),
)


def named_in_terms():
    """Terms of Constraints that name a Tag: of no use where it is temporary, though its edge was crossed with an equal component."""
    for what, term in NAMING:

        def naming(n, *options):
            return constraint(option(term(n)), *options)

        for count in (0, 1):
            own = tree([(1, naming(1)), (1,)], patterns=count)
            yield f"{what}: the edge's own Tag, count {count}", match(own, A_NAME, OLD), NO_MATCH
            yield f"{what}: the edge's own Tag, count {count}", sign(own, A_NAME, A_NAME), NOT_ALLOWED
            again = tree([(1,), (1, naming(1)), (2,)], patterns=count)
            yield f"{what}: its own, crossed before, count {count}", match(again, AA, OLD), matched(2, (1, 2, 3)) if count else NO_MATCH
            line = allowed_if(count, 2, 2, 0, 0, 0, 0, packet=[(1, 2, 3)])
            yield f"{what}: its own, crossed before, count {count}", sign(again, AA, AA), line
        for count in (0, 1, 2):
            # Tag 1 is crossed first; with count 1 the temporary edge behind it names a named Tag
            other = tree([(1,), (2, naming(1)), (2,)], patterns=count)
            line = walked(2, "/a/a", (1, 2), count) if count else NO_MATCH
            yield f"{what}: another edge's Tag, count {count}", match(other, AA, OLD), line
            line = allowed_if(count, 2, 2, 0, 0, 0, 0, packet=[(1, 2, 3), (2, 5, 3)][:count])
            yield f"{what}: another edge's Tag, count {count}", sign(other, AA, AA), line
            # the other way round: with count 1 the named edge names a temporary Tag
            line = walked(2, "/a/a", (2, 1), count) if count == 2 else NO_MATCH
            higher = tree([(2,), (1, naming(2)), (2,)], patterns=count)
            yield f"{what}: a higher Tag, count {count}", match(higher, AA, OLD), line
            line = allowed_if(count == 2, 2, 2, 0, 0, 0, 0, packet=[(2, 2, 3), (1, 5, 3)])
            yield f"{what}: a higher Tag, count {count}", sign(higher, AA, AA), line
            # a Tag of the packet's name, named in the key's
            carried = tree(["p", (1,), (3,)], [(2, naming(1)), ()], patterns=count)
            line = allowed_if(count, 2, 3, 0, 0, 1, packet=[(1, 5, 3)], key=[(2, 2, 3)] if count == 2 else [])
            yield f"{what}: the packet's Tag, count {count}", sign(carried, path("/p/a"), A_NAME), line
            # a Tag of no edge is unbound, whatever it is
            nowhere = tree([(1, naming(2)), (1,)], patterns=count)
            yield f"{what}: a Tag of no edge, count {count}", match(nowhere, A_NAME, OLD), NO_MATCH
        for count in (0, 1):
            # beside options and Constraints that hold for b alone
            for where, beside in (
                ("before an option", naming(1, option(value("b")))),
                ("behind an option", constraint(option(value("b")), option(term(1)))),
            ):
                of = tree([(1,), (2, beside), ()], patterns=count)
                yield f"{what}: {where} that holds, count {count}", match(of, AB, OLD), walked(2, "/a/b", (1, 2), count)
                line = walked(2, "/a/a", (1, 2), count) if count else NO_MATCH
                yield f"{what}: {where} that does not, count {count}", match(of, AA, OLD), line
            for where, beside in ("before a Constraint", (naming(1), must_be("a"))), ("behind a Constraint", (must_be("a"), naming(1))):
                of = tree([(1,), (2, *beside), ()], patterns=count)
                line = walked(2, "/a/a", (1, 2), count) if count else NO_MATCH
                yield f"{what}: {where} that holds, count {count}", match(of, AA, OLD), line


def constraints():
    """The Constraints of a temporary edge count on every crossing."""

    def one(*held):
        return tree([(1, *held), (1,)], patterns=0)

    for what, held, good in (
        ("a Value", [must_be("a")], "a"),
        ("another Value", [must_be("c")], ""),
        ("two options", [must_be("a", "b")], "ab"),
        ("two Constraints", [must_be("a", "b"), must_be("c", "b")], "b"),
        ("two Constraints, not both", [must_be("a"), must_be("b")], ""),
        ("no options", [constraint()], ""),
        ("no options, beside one that holds", [must_be("a"), constraint()], ""),
        ("$eq of a Value", [constraint(option(call("$eq", value("b"))))], "b"),
        ("$eq_type of a Value", [constraint(option(call("$eq_type", value("other"))))], "ab"),
        ("$eq_type of another type", [constraint(option(call("$eq_type", value(component("a", 9)))))], ""),
    ):
        for packet, letter in (SLASH_A, "a"), (SLASH_B, "b"):
            yield f"{what}: /{letter}", match(one(*held), packet, OLD), matched(1) if letter in good else NO_MATCH
            yield f"{what}: /{letter} by itself", sign(one(*held), packet, packet), allowed_if(letter in good, 1, 1, 0, 0)
        yield f"{what}: /a by /b", sign(one(*held), SLASH_A, SLASH_B), allowed_if(good == "ab", 1, 1, 0, 0)
    for count in (0, 1):
        free = count == 0
        # on the second crossing alone, and others on each
        second = tree([(1,), (1, must_be("b")), ()], patterns=count)
        yield f"the second crossing, count {count}: /a/b", match(second, AB, OLD), matched(2) if free else NO_MATCH
        yield f"the second crossing, count {count}: /a/a", match(second, AA, OLD), NO_MATCH
        yield f"the second crossing, count {count}: /b/b", match(second, BB, OLD), matched(2) if free else matched(2, (1, 2, 3))
        each = tree([(1, must_be("a")), (1, must_be("b")), ()], patterns=count)
        yield f"others on each crossing, count {count}: /a/b", match(each, AB, OLD), matched(2) if free else NO_MATCH
        yield f"others on each crossing, count {count}: /a/a", match(each, AA, OLD), NO_MATCH
        # in the key's walk
        key = tree(["p", (1,), (3,)], [(1, must_be("b")), ()], patterns=count)
        yield f"in the key, count {count}: /p/a by /b", sign(key, path("/p/a"), SLASH_B), allowed_if(free, 2, 3, 0, 0, 1)
        yield f"in the key, count {count}: /p/b by /b", sign(key, path("/p/b"), SLASH_B), allowed(2, 3, 0, 0, 1, packet=[(1, 5, 3)][:count])
        yield f"in the key, count {count}: /p/a by /a", sign(key, path("/p/a"), SLASH_A), NOT_ALLOWED


def functions():
    """Calls without arguments on temporary edges: the lengths count, and two components need not be equal."""
    for function, size in ("$isValidID", 6), ("$isValidYear", 4):
        valid = constraint(option(call(function)))
        for length in (0, 3, 4, 5, 6, 7):
            line = matched(1) if length == size else NO_MATCH
            yield f"{function} of {length} bytes", match(tree([(1, valid), ()], patterns=0), name("9" * length), OLD), line
        first, second, longer = "1" * size, "2" * size, "3" * (size + 1)
        for count in (0, 1):
            twice = tree([(1, valid), (1, valid), (2,)], patterns=count)
            for what, texts, line in (
                ("two", (first, second), NO_MATCH if count else matched(2)),
                ("two equal ones", (first, first), matched(2, (1, 2, 2 + size)) if count else matched(2)),
                ("two, the first longer", (longer, second), NO_MATCH),
                ("two, the second longer", (first, longer), NO_MATCH),
            ):
                yield f"{function}, {what}, count {count}", match(twice, name(*texts), OLD), line
            other = name(second, second)
            yield f"{function}, another key, count {count}", sign(twice, name(first, first), other), allowed_if(not count, 2, 2, 0, 0, 0, 0)
            yield f"{function}, a key that is longer, count {count}", sign(twice, name(first, first), name(first, longer)), NOT_ALLOWED


# the search


def backtracking():
    """A temporary edge that was crossed and left leaves nothing behind, and takes nothing that was bound."""
    for count in range(4):
        # the first branch crosses Tag 2 with a and fails at "x"
        of = tree([(2,), "x", ()], [(1,), (2,), ()], patterns=count)
        yield f"left at once, count {count}", match(of, AB, OLD), walked(4, "/a/b", (1, 2), count)
        # Tag 1 is bound before both branches, and is compared in the second
        of = tree([(1,), (2,), "x", ()], [(1,), (3,), (1,), ()], patterns=count)
        yield f"an earlier binding is kept, count {count}", match(of, path("/a/b/a"), OLD), walked(5, "/a/b/a", (1, 3, 1), count)
        line = NO_MATCH if count else matched(5)
        yield f"an earlier binding still counts, count {count}", match(of, path("/a/b/c"), OLD), line
        # the first branch binds Tag 1 behind a temporary edge, the second needs it for another component
        of = tree([(2,), (1,), "x", ()], [(3,), (2,), (1,), ()], patterns=count)
        yield f"a binding of a failed branch, count {count}", match(of, path("/a/b/c"), OLD), walked(6, "/a/b/c", (3, 2, 1), count)
        # the packet's first match binds Tag 1, where it is named; the second does not, so that the key does
        of = tree([(1,), "p", (6,)], [(2,), "p", (6,)], ["k", (1,), ()], patterns=count)
        second = allowed(4, 6, 2, 0, 0, 0, packet=[(2, 2, 3)] if count > 1 else [], key=[(1, 5, 3)])
        yield f"the packet's second match, count {count}", sign(of, path("/a/p"), path("/k/b")), second if count else allowed(2, 6, 1, 0, 0, 0)
        line = allowed(2, 6, 1, 0, 0, 0, packet=[(1, 2, 3)] if count else [])
        yield f"the packet's first match, count {count}", sign(of, path("/a/p"), path("/k/a")), line
        # the key's first branch fails behind its Tag
        of = tree(["p", (1,), (7,)], ["k", (1,), "x", ()], ["k", (2,), (1,), ()], patterns=count)
        yield f"the key's second branch, count {count}", sign(of, path("/p/a"), path("/k/b/c")), allowed_if(count == 0, 2, 7, 0, 0, 1, 1, 0)
        line = allowed(2, 7, 0, 0, 1, 1, 0, packet=[(1, 5, 3)] if count else [], key=[(2, 5, 3)] if count > 1 else [])
        yield f"the key's second branch, bound alike, count {count}", sign(of, path("/p/a"), path("/k/b/a")), line


def order():
    """The first match: ValueEdges, then PatternEdges in file order, named and temporary ones alike."""
    for count in range(3):
        both_ways = tree([(2,), ()], [(1,), ()], patterns=count)
        yield f"the higher Tag first in the file, count {count}", match(both_ways, A_NAME, OLD), walked(1, "/a", (2,), count)
        both_ways = tree([(1,), ()], [(2,), ()], patterns=count)
        yield f"the lower Tag first in the file, count {count}", match(both_ways, A_NAME, OLD), walked(1, "/a", (1,), count)
        # the first of them has a Constraint that refuses
        held = tree([(2, must_be("b")), ()], [(1,), ()], patterns=count)
        yield f"the first refuses, count {count}", match(held, A_NAME, OLD), walked(2, "/a", (1,), count)
        by_value = tree([(2,), ()], [(1,), ()], ["a", ()], patterns=count)
        yield f"a ValueEdge before both, count {count}", match(by_value, A_NAME, OLD), matched(3)
        yield f"a ValueEdge of another component, count {count}", match(by_value, SLASH_B, OLD), walked(1, "/b", (2,), count)
        # both edges lead on, and the first in the file does to the end
        longer = tree([(2,), (2,), ()], [(1,), (2,), ()], patterns=count)
        line = walked(2, "/a/b", (2, 2), count) if count < 2 else walked(4, "/a/b", (1, 2), count)
        yield f"the first path that a Tag allows, count {count}", match(longer, AB, OLD), line
    for count in (0, 1):
        # edges of one Node, and of the Nodes behind it, that share a Tag
        of = tree(
            [(1, must_be("a")), (1, must_be("c")), (8,)],
            [(1, must_be("b")), (1,), (8,)],
            [(1,), (1, must_be("d")), (8,)],
            ["k", (1,), ()],
            patterns=count,
        )
        # of Node 0's edges the first is "k"
        for uri, at, edge in ("/a/c", 2, 1), ("/b/c", 4, 2), ("/c/d", 6, 3), ("/a/d", 6, 3), ("/b/d", 4, 2):
            yield f"edges that share a Tag, {uri}, count {count}", match(of, path(uri), OLD), NO_MATCH if count else matched(at)
            line = allowed_if(not count, at, 8, edge, 0, 0, 0)
            yield f"edges that share a Tag, {uri} by /k/x, count {count}", sign(of, path(uri), path("/k/x")), line
        for uri, at in ("/b/b", 4), ("/d/d", 6):
            yield f"edges that share a Tag, {uri}, count {count}", match(of, path(uri), OLD), walked(at, uri, (1, 1), count)
        yield f"edges that share a Tag, /a/a, count {count}", match(of, AA, OLD), NO_MATCH


# the buffer


def buffer():
    """On a match, and on an allowed pair, the first 384 words are written, those of temporary Tags with 0; all others are kept."""
    none = with_count(B, 0)
    for size in (384, 385, 430, 1024):
        lent = old_words(size)
        yield f"{size} words, no Tag bound", match(none, SLASH_A, lent), matched(1, behind=lent[384:])
        yield f"{size} words, no Tag bound", sign(none, SLASH_A, SLASH_B, words=lent), allowed(1, 1, 0, 0, words=lent)
        between = tree([(2,), (1,), (3,), (3,)], patterns=1)
        line, abc = matched(3, (1, 5, 3), behind=lent[384:]), path("/a/b/c")
        yield f"{size} words, a named Tag between temporary ones", match(between, abc, lent), line
        line = allowed(3, 3, 0, 0, 0, 0, 0, 0, packet=[(1, 5, 3)], words=lent)
        yield f"{size} words, a named Tag between temporary ones", sign(between, abc, path("/c/b/a"), words=lent), line
        refusing = tree([(1, must_be("b")), (1,)], patterns=0)
        yield f"{size} words, no match", match(refusing, A_NAME, lent), kept("no match", lent)
        yield f"{size} words, not allowed", sign(refusing, A_NAME, SLASH_B, words=lent), both_kept("not allowed", words=lent)
    for size in (383, 256, 0):
        lent = old_words(size)
        yield f"{size} words", match(none, SLASH_A, lent), kept("refused 27 0", lent)
        yield f"{size} words", sign(none, SLASH_A, SLASH_B, words=lent), both_kept("refused 27 0", words=lent)
    last = tree([(128,), (127,), ()])
    for count in (126, 127, 128):
        line = walked(2, "/a/b", (128, 127), count)
        yield f"the last words, count {count}", match(with_count(last, count), AB, OLD), line


# lists of certificates


def lists():
    """The first entry that may sign comes earlier where fewer Tags are named; refusals of the list stay."""
    keys = [path(uri) for uri in ("/k", "/k/b/y", "/k/b/x", "/k/a/y", "/k/a/x")]
    for count, first in (0, 1), (1, 3), (2, 4), (3, 4):
        of = tree(["p", (1,), (2,), (6,)], ["k", (1,), (2,), ()], patterns=count)
        yield f"author and issuer, count {count}", suggest(of, path("/p/a/x"), *keys), certificate(first)
        yield f"author and issuer, no such key, count {count}", suggest(of, path("/p/a/x"), keys[0], path("/k/a")), "none"
    kab, kbb = path("/k/a/b"), path("/k/b/b")
    for count in range(3):
        twice = tree(["p", (4,)], ["k", (2,), (2,), ()], patterns=count)
        yield f"twice in the key, count {count}", suggest(twice, path("/p"), kab, kbb), certificate(1 if count == 2 else 0)
        # the first packet match takes /k/a, where Tag 1 is named, and the second /k/b
        two = tree([(1,), (2,), (6,)], [(2,), (1,), (6,)], ["k", (1,), ()], patterns=count)
        yield f"two packet matches, count {count}", suggest(two, AB, *map(path, ("/k/c", "/k/b", "/k/a"))), certificate(1 if count else 0)
    none = with_count(B, 0)
    for what, of, first in ("B", B, 63), ("B, count 0", none, 0):
        yield f"{what}: 64 entries", suggest(of, SLASH_A, *many(63), SLASH_A), certificate(first)
        yield f"{what}: 65 entries", suggest(of, SLASH_A, *many(64), SLASH_A), TOO_MANY
        yield f"{what}: a bad entry behind", suggest(of, SLASH_A, *many(2), component("a")), bad_entry(2)
        yield f"{what}: no entry", suggest(of, SLASH_A), "none"
        yield f"{what}: the empty name", suggest(of, SLASH_A, EMPTY, EMPTY), "none"


# optional and critical elements


def answers_of_b(what, of, count):
    named = count >= 1
    yield what, verdict(of), "accepted 2"
    yield what, match(of, SLASH_A, OLD), matched(1, (1, 2, 3)) if named else matched(1)
    yield what, sign(of, SLASH_A, SLASH_B), allowed_if(not named, 1, 1, 0, 0)
    yield what, suggest(of, SLASH_A, SLASH_B, SLASH_A), certificate(1 if named else 0)


def gaps():
    """Optional elements around the count leave the answers as they are; critical ones there are 2."""
    count_inside = element(0x80, integer(PATTERN_COUNT, 1)).hex()  # what looks like a count is the inside of another element
    for count in (0, 1, LARGEST):
        for spare in (*OPTIONAL, count_inside):
            data = bytes.fromhex(spare)
            yield from answers_of_b(f"{spare} before count {count}", with_count(B, count, before=data), count)
            yield from answers_of_b(f"{spare} behind count {count}", with_count(B, count, behind=data), count)
        around = with_count(B, count, before=bytes.fromhex("80002200"), behind=bytes.fromhex(count_inside * 2))
        yield from answers_of_b(f"two before and two behind count {count}", around, count)
        for spare in CRITICAL:
            data = faulty(bytes.fromhex(spare))
            for where, of in ("before", with_count(B, count, before=data)), ("behind", with_count(B, count, behind=data)):
                yield from all_three(f"{spare} {where} count {count}", of, refused_at(of))
                yield f"{spare} {where} count {count}", suggest(of, SLASH_A, SLASH_A), refused_at(of)
        of = with_count(B, count, behind=faulty(integer(PATTERN_COUNT, 0)))
        yield from all_three(f"a second count behind {count}", of, refused_at(of))
    for size in (0, 3, 5, 6, 7, 9):
        yield f"a count of {size} bytes", verdict(B[:9] + element(PATTERN_COUNT, bytes(size)) + B[12:]), "refused 2 9"
    # every container, with its Tag temporary: /v/w matches Node 2, and the Constraints are those of gaps.py
    temporary = with_count(FULL, 0)
    yield "no optional element", match(temporary, PACKET, OLD), matched(2)
    yield "no optional element, and a Constraint that refuses", match(temporary, path("/v/x"), OLD), NO_MATCH
    for i, of in enumerate(put_in(temporary, bytes.fromhex("80028100"))):
        yield f"an optional element in gap {i}", match(of, PACKET, OLD), matched(2)
        yield f"an optional element in gap {i}", sign(of, PACKET, PACKET), allowed(2, 2, 0, 0, 0, 0)
    for spare in OPTIONAL:
        of = put_everywhere(temporary, bytes.fromhex(spare))
        yield f"{spare} in every gap", match(of, PACKET, OLD), matched(2)
        yield f"{spare} in every gap, and a Constraint that refuses", match(of, path("/v/x"), OLD), NO_MATCH
        yield f"{spare} in every gap", sign(of, PACKET, PACKET), allowed(2, 2, 0, 0, 0, 0)
        yield from answers_of_b(f"{spare} in every gap of B, count 0", put_everywhere(with_count(B, 0), bytes.fromhex(spare)), 0)


# what stays as it was


def unchanged():
    """The verdict does not read the count; TagSymbols say nothing of Tags; a description has the count as it is."""
    second = node(1, parent(0), signer(1))
    for n in (0, 129, 2**32 + 1):
        for count in (0, 129, LARGEST):
            what = f"Tag {n}, count {count}"
            yield from all_three(f"{what}, of an edge", model(node(0, pattern_edge(1, n)), second, patterns=count), "refused 5 0")
            for where, held in ("an option", tag(n)), ("an argument", call("$eq", tag(n))):
                edge = pattern_edge(1, 1, constraint(option(held), option(value("a"))))
                yield f"{what}, of {where}", verdict(model(node(0, edge), second, patterns=count)), "refused 5 0"
            yield f"{what}, of a TagSymbol", verdict(model(node(0), patterns=count, behind=symbol(n, "a"))), "refused 5 0"
    for count in (0, 1, 5, 128, 129, LARGEST):
        yield f"no fault, count {count}", verdict(forks_model(forks(), patterns=count)), f"accepted {COUNT}"
        for rule, faults in FAULTS.items():
            nodes = forks()
            faults[0][1](nodes, 2)
            of = forks_model(nodes, patterns=count)
            yield f"rule {rule}, count {count}", verdict(of), refused(rule, 2, of)
    for what, symbols in (
        ("none", ()),
        ("of the temporary Tag", ((1, "x"),)),
        ("with _", ((1, "_x"), (1, "_"))),
        ("of a Tag of no edge", ((128, "y"),)),
        ("of many", tuple((n, "z") for n in range(1, 129))),
    ):
        for count in (0, 1):
            of = with_count(B, count) + b"".join(symbol(*one) for one in symbols)
            yield f"TagSymbols {what}, count {count}", match(of, SLASH_A, OLD), matched(1, (1, 2, 3)) if count else matched(1)
            yield f"TagSymbols {what}, count {count}", sign(of, SLASH_A, SLASH_B), allowed_if(not count, 1, 1, 0, 0)
    lists_of_b = [0, 0, 2, *(0, 0, 0, 0, 1, 1, 1, 0, 0), *(1, 1, 0, 0, 0, 0, 1, 1), 0]
    yield from both("B, count 0", Part(lists_of_b, b"", with_count(B, 0)))


# Light VerSec's own documentation, with temporary Tags that occurrences share

# the three `_` of #KEY are written once, so they have one Tag each in all rules
SHARED = ((7, 8, 9),) * 3
QUICK_SHARED = quick(*SHARED)
# in the tutorial three _role come before them, each written in a rule of its own
TUTORIAL_TAGS = (8, 9, 10)
T_SHARED = TUTORIAL_TAGS, (5, *TUTORIAL_TAGS), (6, *TUTORIAL_TAGS), (7, *TUTORIAL_TAGS)
TUTORIAL_SHARED = tutorial(*T_SHARED)
# fewer Tags still: one for each temporary identifier, and one for all temporary patterns
SINGLE = ((7, 7, 7),) * 3
QUICK_SINGLE = quick(*SINGLE)
T_IDENTIFIERS = (6, 6, 6), (5, 6, 6, 6), (5, 6, 6, 6), (5, 6, 6, 6)
TUTORIAL_IDENTIFIERS = tutorial(*T_IDENTIFIERS)
T_SINGLE = (5, 5, 5), (5, 5, 5, 5), (5, 5, 5, 5), (5, 5, 5, 5)
TUTORIAL_SINGLE = tutorial(*T_SINGLE)

# of the checks that 003 prints as True, those where no temporary Tag meets two components, so that they hold with every Tag named too
QUICK_STILL, TUTORIAL_STILL = {1}, {7}


def checks(what, of, tags, edges, count, of_003, still):
    """003's checks on a model of these rules, and on the same with every Tag named."""
    yield what, verdict(of), f"accepted {max(edges) + 1}"
    for i, check in enumerate(of_003, 1):
        names = [path(uri) for uri in check[:2]]
        yield f"{what}, check {i}", sign(of, *names), check_line(check, edges, tags, count)
        for more in (128, LARGEST):
            line = check_line(check, edges, tags, more) if i in still else NOT_ALLOWED
            yield f"{what}, check {i}, count {more}", sign(with_count(of, more), *names), line


def quick_checks(what, keys, still=()):
    return checks(f"quick example, {what}", quick(*keys), quick_tags(*keys), QUICK_EDGES, QUICK_COUNT, QUICK_CHECKS, still)


def tutorial_checks(what, keys, still=()):
    return checks(f"tutorial, {what}", tutorial(*keys), tutorial_tags(*keys), TUTORIAL_EDGES, TUTORIAL_COUNT, TUTORIAL_CHECKS, still)


def shared():
    """003's thirteen checks, however its temporary patterns share Tags."""
    yield from quick_checks("#KEY's Tags shared", SHARED, QUICK_STILL)
    yield from tutorial_checks("#KEY's Tags shared", T_SHARED, TUTORIAL_STILL)
    # where a key's name has one Tag for three components, a walk that compares them does not match it at all
    yield from quick_checks("one temporary Tag", SINGLE)
    yield from tutorial_checks("a Tag for each identifier", T_IDENTIFIERS)
    yield from tutorial_checks("one temporary Tag", T_SINGLE)
    # by hand, with #KEY's Tags 7, 8 and 9 named: of the author's key /a/blog/author/xinyu/KEY/1/admin/1 KEY stands at 26 (5 bytes)
    words = dict(packet=[(1, 20, 6), (2, 26, 6), (3, 32, 4)], key=[(4, 11, 8), (5, 19, 7), (7, 31, 3), (8, 34, 7), (9, 41, 3)])
    article, by, _ = QUICK_CHECKS[0]
    line = allowed(10, 22, 0, 0, 1, 0, 0, 0, 0, 0, 3, 0, 0, 0, 0, 0, **words)
    yield "quick example, #KEY's Tags shared, check 1, count 128, by hand", sign(with_count(QUICK_SHARED, 128), path(article), path(by)), line


def signed_if(holds, *rules):
    return by_rules(*rules) if holds else NOT_ALLOWED


ISSUERS = ("1/admin/1", "1/root/1", "2/admin/1", "1/admin/2", "2/root/3")


def issuers():
    """The request's story: an author's key, an admin's and the root's, with any key id, issuer and certificate id in each.

    A count above 6 names the first, the first two or all three of #KEY's Tags; those must agree.
    """
    for count in (QUICK_COUNT, 7, 8, 9, 128):
        of, tags = with_count(QUICK_SHARED, count), quick_tags(*SHARED)
        for mine in ISSUERS[:2]:
            for theirs in ISSUERS:
                parts = list(zip(mine.split("/"), theirs.split("/")))
                holds = all(a == b for a, b in parts[: max(0, count - QUICK_COUNT)])
                author, admin = f"/a/blog/author/xinyu/KEY/{mine}", f"/a/blog/admin/admin/KEY/{theirs}"
                line = signed_if(holds, AUTHOR, author, ADMIN, admin, QUICK_EDGES, tags, count)
                yield f"author {mine} by admin {theirs}, count {count}", sign(of, path(author), path(admin)), line
                admin, root = f"/a/blog/admin/admin/KEY/{mine}", f"/a/blog/KEY/{theirs}"
                line = signed_if(holds, ADMIN, admin, ROOT, root, QUICK_EDGES, tags, count)
                yield f"admin {mine} by root {theirs}, count {count}", sign(of, path(admin), path(root)), line
                # the root signs no author, however the parts agree
                yield f"author {mine} by root {theirs}, count {count}", sign(of, path(author), path(root)), NOT_ALLOWED
    # the same story by the tutorial, with one Tag for _role too: count 5 names that
    for count in (TUTORIAL_COUNT, 5, 128):
        of, rest = with_count(TUTORIAL_IDENTIFIERS, count), (TUTORIAL_EDGES, tutorial_tags(*T_IDENTIFIERS), count)
        for role, at in ("author", T_AUTHOR), ("reader", T_USER):
            for issuer in ("1/000001/1", "1/root/1", "x/x/x"):
                packet = f"/ndn/blog/{role}/100001/KEY/{issuer}"
                line = signed_if(count == TUTORIAL_COUNT, at, packet, T_ADMIN, ADMIN_KEY, *rest)
                yield f"{role} {issuer} by an admin, count {count}", sign(of, path(packet), path(ADMIN_KEY)), line
        # the article has no _role, and its key's is compared with nothing; with every Tag named the key's three parts must be equal
        article = "/ndn/blog/100001/post/2022/1"
        for issuer in ("1/000001/1", "x/x/x"):
            key = f"/ndn/blog/author/100001/KEY/{issuer}"
            line = signed_if(count < 6 or issuer == "x/x/x", T_ARTICLE, article, T_AUTHOR, key, *rest)
            yield f"an article by {issuer}, count {count}", sign(of, path(article), path(key)), line
        # a named pattern is compared as ever
        key = path("/ndn/blog/author/100002/KEY/1/1/1")
        yield f"an article by another author, count {count}", sign(of, path(article), key), NOT_ALLOWED


def bindings_of_keys():
    """The words of key names: named patterns alone."""
    uri = AUTHOR_KEY
    tags = (None, None, 6, 2, None, *TUTORIAL_TAGS)  # /ndn/blog/_role/ID/KEY/_/_/_
    for count in (TUTORIAL_COUNT, 6, 8, 9, 10, 128):
        of = with_count(TUTORIAL_SHARED, count)
        yield f"an author's key, count {count}", match(of, path(uri), OLD), walked(T_AUTHOR, uri, tags, count)
    # by hand: ndn at 2 (5 bytes), blog at 7 (6), author at 13 (8), the ID at 21 (8)
    yield "an author's key, by hand", match(TUTORIAL_SHARED, path(uri), OLD), matched(T_AUTHOR, (2, 21, 8))
    yield "an admin's key, by hand", match(TUTORIAL_SHARED, path(ADMIN_KEY), OLD), matched(T_ADMIN, (1, 20, 8))
    yield "the root's key", match(TUTORIAL_SHARED, path("/ndn/blog/KEY/1/self/1"), OLD), matched(T_ROOT)
    for what, of in ("#KEY's Tags shared", TUTORIAL_SHARED), ("one temporary Tag", TUTORIAL_SINGLE):
        line = matched(T_ARTICLE, (2, 13, 8), (3, 27, 6), (4, 33, 3))
        yield f"an article, {what}", match(of, path("/ndn/blog/100001/post/2022/1"), OLD), line
        line = matched(T_USER, (2, 21, 8))
        yield f"a reader's key, {what}", match(of, path("/ndn/blog/reader/200001/KEY/1/000001/1"), OLD), line


def certificates():
    """The lists of certificates.py on models with shared Tags."""
    for what, of, of_quick in (
        ("#KEY's Tags shared", TUTORIAL_SHARED, QUICK_SHARED),
        ("a Tag for each identifier", TUTORIAL_IDENTIFIERS, QUICK_SINGLE),
        ("one temporary Tag", TUTORIAL_SINGLE, QUICK_SINGLE),
    ):
        for which, case, line in documents(of, of_quick):
            yield f"{which}, {what}", case, line


WALKS = bench, counts, repeated, mixed, named_in_terms, constraints, functions, backtracking, order, shared, issuers, bindings_of_keys


def signing():
    """Each pair that was signed, as a list of certificates."""
    yield from as_lists((case for part in WALKS for case in part()), is_twice=False)


def cases():
    for part in (*WALKS, buffer, lists, gaps, unchanged, certificates, signing):
        yield from part()
