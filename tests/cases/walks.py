"""The walk and the signing answer: backtracking, order, bindings, Constraints, functions."""
from build import *

AB = path("/a/b")  # its components stand at 2 and 5, with 3 bytes each


def left_behind():
    """A binding left behind after going back from a failed branch, so that a later branch is refused."""
    # the first branch binds Tag 1 to a and fails at "x"; the second needs Tag 1 for b
    rebound = tree([(1,), "x", ()], [(2,), (1,), (4,)])
    yield "slip 1: a Tag bound in a failed branch", match(rebound, AB, OLD), matched(4, (1, 5, 3), (2, 2, 3))
    yield "slip 1: the same in both names", sign(rebound, AB, AB), allowed(4, 4, 1, 0, 1, 0, packet=[(1, 5, 3), (2, 2, 3)])
    # the failed branch's Tag is not among the bound ones
    unused = tree([(1,), "x", ()], [(2,), (3,), ()])
    yield "slip 1: a failed branch leaves no word", match(unused, AB, OLD), matched(4, (2, 2, 3), (3, 5, 3))
    # the failed branch goes deeper before it fails
    deep = tree([(1,), (2,), (3,), "x", ()], [(4,), (1,), (2,), (3,), ()])
    abcd = path("/a/b/c/d")
    yield "slip 1: three bindings back", match(deep, abcd, OLD), matched(8, (1, 5, 3), (2, 8, 3), (3, 11, 3), (4, 2, 3))
    # a Tag that was bound before the failed branch stays bound
    kept_tag = tree([(1,), (1, must_be("x")), ()], [(1,), (2,), (1,), ()])
    yield "slip 1: an earlier binding is kept", match(kept_tag, path("/a/b/a"), OLD), matched(4, (1, 2, 3), (2, 5, 3))
    yield "slip 1: and still counts", match(kept_tag, path("/a/b/c"), OLD), kept("no match")
    # the packet's first match binds Tag 1, which its second does not: the key needs Tag 1 for another component
    packets = tree([(1,), "p", ()], [(2,), "p", (6,)], ["k", (1,), ()])
    line = allowed(4, 6, 2, 0, 0, 0, packet=[(2, 2, 3)], key=[(1, 5, 3)])
    yield "slip 1: the packet's first match", sign(packets, path("/a/p"), path("/k/b")), line
    # the key's failed walk from the first packet match binds Tag 3 to b
    keys = model(
        node(0, value_edge(5, "k"), pattern_edge(1, 1), pattern_edge(3, 2)),
        node(1, parent(0), value_edge(2, "p")),
        node(2, parent(1), signer(9)),
        node(3, parent(0), value_edge(4, "p")),
        node(4, parent(3), signer(8)),
        node(5, parent(0), pattern_edge(6, 3), pattern_edge(7, 4)),
        node(6, parent(5), value_edge(9, "never")),
        node(7, parent(5), pattern_edge(8, 3)),
        node(8, parent(7)),
        node(9, parent(6)),
        patterns=4,
    )
    line = allowed(4, 8, 2, 0, 0, 1, 0, packet=[(2, 2, 3)], key=[(3, 8, 3), (4, 5, 3)])
    yield "slip 1: in the key's walk", sign(keys, path("/a/p"), path("/k/b/c")), line


def first_match_only():
    """Looking for the key only from the packet's first match."""
    # /a/p matches Node 2 first, which has no signer
    unsigned = tree([(1,), "p", ()], [(2,), "p", (6,)], ["k", "b", ()])
    line = allowed(4, 6, 2, 0, 0, 0, packet=[(2, 2, 3)])
    yield "slip 2: the first match has no signer", sign(unsigned, path("/a/p"), path("/k/b")), line
    # the first match's signer wants the key's component equal to Tag 1, the second's to Tag 2
    other = tree([(1,), (2,), (6,)], [(2,), (1,), (6,)], ["k", (1,), ()])
    line = allowed(2, 6, 1, 0, 0, 0, packet=[(1, 2, 3), (2, 5, 3)])
    yield "slip 2: the first match binds otherwise", sign(other, AB, path("/k/a")), line
    line = allowed(4, 6, 2, 0, 0, 0, packet=[(2, 2, 3), (1, 5, 3)])
    yield "slip 2: only the second match's bindings fit", sign(other, AB, path("/k/b")), line
    yield "slip 2: no match fits", sign(other, AB, path("/k/c")), NOT_ALLOWED
    # likewise the key's first match is not the only one
    second_key = tree(["p", (5,)], [(1,), "b", ()], [(2,), "b", ()])
    yield "slip 2: the key's second match", sign(second_key, path("/p"), path("/k/b")), allowed(1, 5, 0, 2, 0, key=[(2, 2, 3)])


def bound_too_soon():
    """Binding the Tag before its own Constraints are tried."""
    own = tree([(1, constraint(option(tag(1)))), (1,)])
    yield "slip 3: an option with the edge's own Tag", match(own, path("/a"), OLD), kept("no match")
    yield "slip 3: an option with the edge's own Tag", sign(own, path("/a"), path("/a")), NOT_ALLOWED
    for function in "$eq", "$eq_type":
        own = tree([(1, constraint(option(call(function, tag(1))))), ()])
        yield f"slip 3: {function} of the edge's own Tag", match(own, path("/a"), OLD), kept("no match")
    # it holds where the Tag was bound before
    again = tree([(1,), (1, constraint(option(tag(1)))), ()])
    yield "slip 3: its own Tag, bound before", match(again, path("/a/a"), OLD), matched(2, (1, 2, 3))
    # or by the packet, where the key is walked
    chain = tree(["p", (1,), (3,)], [(1, constraint(option(tag(1)))), ()])
    line = allowed(2, 3, 0, 0, 1, packet=[(1, 5, 3)])
    yield "slip 3: its own Tag, bound by the packet", sign(chain, path("/p/a"), path("/a")), line
    yield "slip 3: bound to another component", sign(chain, path("/p/a"), path("/b")), NOT_ALLOWED


def parents():
    """Nodes that are each other's parent, or their own: no walk comes to them, though a name would lead around there for ever."""
    # Nodes 0, 1 and 2 are a chain; Nodes 3 and 4 lead to each other, and all are listed as signers
    every = [signer(i) for i in range(5)]
    mutual = model(
        node(0, value_edge(1, "a"), *every),
        node(1, parent(0), value_edge(2, "a"), *every),
        node(2, parent(1), *every),
        node(3, parent(4), value_edge(4, "a"), *every),
        node(4, parent(3), value_edge(3, "a"), *every),
    )
    yield "mutual parents", verdict(mutual), "accepted 5"
    for length in range(3):
        yield f"mutual parents, {length} components", match(mutual, name(*["a"] * length), OLD), matched(length)
    for length in (3, 4, 32):
        yield f"mutual parents, {length} components", match(mutual, name(*["a"] * length), OLD), kept("no match")
    yield "mutual parents, another component", match(mutual, path("/a/b"), OLD), kept("no match")
    yield "mutual parents, signing", sign(mutual, path("/a/a"), path("/a")), allowed(2, 1, 0, 0, 0)
    yield "mutual parents, a longer packet name", sign(mutual, path("/a/a/a"), path("/a/a")), NOT_ALLOWED
    yield "mutual parents, a longer key name", sign(mutual, path("/a/a"), path("/a/a/a/a")), NOT_ALLOWED
    # beside a Node that is its own parent, a chain with a Tag that each edge has to keep
    itself = model(
        node(0, pattern_edge(1, 1), signer(0)),
        node(1, parent(0), pattern_edge(2, 1), signer(2)),
        node(2, parent(1), pattern_edge(3, 1)),
        node(3, parent(2)),
        node(4, parent(4), pattern_edge(4, 1), signer(4)),
        patterns=1,
    )
    yield "its own parent", match(itself, path("/a/a/a"), OLD), matched(3, (1, 2, 3))
    yield "its own parent, another component", match(itself, path("/a/a/b"), OLD), kept("no match")
    yield "its own parent, signing", sign(itself, path("/a"), path("/a/a")), allowed(1, 2, 0, 0, 0, packet=[(1, 2, 3)])
    yield "its own parent, a longer name", match(itself, path("/a/a/a/a"), OLD), kept("no match")


def later_branches():
    """The allowed pair is found only in a later branch."""
    # by value: p then any; by pattern: any then q. The second alone has a signer, and the key's walk fails once too
    later = tree(["p", (1,), ()], [(2,), "q", (8,)], ["k", (2,), "x", ()], ["k", (3,), ()])
    line = allowed(4, 8, 2, 0, 1, 1, packet=[(2, 2, 3)], key=[(3, 5, 3)])
    yield "the pattern branch", sign(later, path("/p/q"), path("/k/z")), line
    yield "a later key branch", sign(later, path("/p/q"), path("/k/p")), line
    yield "no branch", sign(later, path("/p/r"), path("/k/z")), NOT_ALLOWED
    # the first node that is reached has signers, but none of them is the key
    first = tree(["p", (3,)], [(1,), (4,)], ["k1", ()], ["k2", ()])
    yield "the first match's key", sign(first, path("/p"), path("/k1")), allowed(1, 3, 0, 1)
    yield "the second match's key", sign(first, path("/p"), path("/k2")), allowed(2, 4, 3, 2, packet=[(1, 2, 3)])


def order():
    """Depth first: all ValueEdges in file order, then all PatternEdges in file order."""
    both = tree([(1,), ()], ["a", ()])
    yield "a ValueEdge comes first", match(both, path("/a"), OLD), matched(2)
    yield "the PatternEdge for another", match(both, path("/b"), OLD), matched(1, (1, 2, 3))
    patterns = tree([(2,), ()], [(1,), ()])
    yield "the first PatternEdge in the file", match(patterns, path("/a"), OLD), matched(1, (2, 2, 3))
    # two equal ValueEdges: both are tried
    equal = model(node(0, value_edge(2, "a"), value_edge(1, "a")), node(1, parent(0), value_edge(3, "b")), node(2, parent(0)), node(3, parent(1)))
    yield "equal ValueEdges, the first", match(equal, path("/a"), OLD), matched(2)
    yield "equal ValueEdges, the second", match(equal, AB, OLD), matched(3)
    # the order of the signers decides nothing: the key's matches do
    signers = tree(["p", (3, 2)], ["k", ()], [(1,), ()])
    yield "the key's first match", sign(signers, path("/p"), path("/k")), allowed(1, 2, 0, 1)
    yield "a signer twice", sign(tree(["p", (2, 2)], ["k", ()]), path("/p"), path("/k")), allowed(1, 2, 0, 1)
    # a first match is the answer, though a later one would bind more
    yield "the first match alone", match(tree([(1,), "b", ()], [(2,), (3,), ()]), AB, OLD), matched(2, (1, 2, 3))


def starts():
    """The walk starts at StartId; the empty name matches there."""
    # from Node 0 /a/b would lead to Node 2
    second = model(
        node(0, value_edge(1, "a")),
        node(1, parent(0), value_edge(2, "b"), signer(1)),
        node(2, parent(1)),
        node(3, value_edge(4, "b"), signer(3)),
        node(4, parent(3)),
        start=3,
    )
    yield "the empty name", match(second, name(), OLD), matched(3)
    yield "from StartId", match(second, path("/b"), OLD), matched(4)
    yield "not from Node 0", match(second, AB, OLD), kept("no match")
    yield "empty by empty", sign(second, name(), name()), allowed(3, 3)
    yield "a longer name than any path", match(second, path("/b/c"), OLD), kept("no match")


def bindings():
    yield "a bound Tag keeps its first place", match(tree([(1,), (1,), (1,), ()]), path("/a/a/a"), OLD), matched(3, (1, 2, 3))
    yield "and counts once", match(tree([(1,), (2,), (1,), ()]), path("/a/b/a"), OLD), matched(3, (1, 2, 3), (2, 5, 3))
    other_type = name("a", component("a", 9))
    yield "another type is another component", match(tree([(1,), (1,), ()]), other_type, OLD), kept("no match")
    yield "a component of no bytes", match(tree([(1,), (1,), ()]), name("", ""), OLD), matched(2, (1, 2, 2))
    yield "a shorter component", match(tree([(1,), (1,), ()]), path("/ab/a"), OLD), kept("no match")
    yield "a ValueEdge of another type", match(tree(["a", ()]), name(component("a", 9)), OLD), kept("no match")
    yield "a type of three bytes", match(tree([(1,), ()]), name(component("a", 300)), OLD), matched(1, (1, 2, 5))
    # a key's binding is not the packet's: Tag 2 is bound by the key alone
    yield "a key binds its own", sign(tree(["p", (2,)], [(2,), ()]), path("/p"), path("/k")), allowed(1, 2, 0, 1, key=[(2, 2, 3)])


def constraints():
    def one(*held):
        return tree([(1, *held), ()], patterns=2)  # Tag 2 is named too, and on no edge

    a, aa = path("/a"), path("/a/a")
    good = matched(1, (1, 2, 3))
    yield "no Constraint", match(one(), a, OLD), good
    yield "no option never holds", match(one(constraint()), a, OLD), kept("no match")
    yield "the same beside one that holds", match(one(must_be("a"), constraint()), a, OLD), kept("no match")
    yield "a Value", match(one(must_be("a")), a, OLD), good
    yield "another Value", match(one(must_be("b")), a, OLD), kept("no match")
    yield "the second option", match(one(must_be("b", "a")), a, OLD), good
    yield "both Constraints", match(one(must_be("a", "b"), must_be("c", "a")), a, OLD), good
    yield "the second Constraint fails", match(one(must_be("a"), must_be("b")), a, OLD), kept("no match")
    yield "the first Constraint fails", match(one(must_be("b"), must_be("a")), a, OLD), kept("no match")
    yield "an unbound Tag", match(one(constraint(option(tag(2)))), a, OLD), kept("no match")
    yield "an unbound Tag, then a Value", match(one(constraint(option(tag(2)), option(value("a")))), a, OLD), good
    # Constraints count on every crossing
    again = tree([(1,), (1, must_be("b")), ()])
    yield "a bound Tag's Constraint", match(again, aa, OLD), kept("no match")
    yield "a bound Tag's Constraint, met", match(again, path("/b/b"), OLD), matched(2, (1, 2, 3))
    chain = tree(["p", (1,), (3,)], [(1, must_be("b")), ()])
    yield "a Constraint in the key's walk", sign(chain, path("/p/a"), path("/a")), NOT_ALLOWED
    yield "and met", sign(chain, path("/p/b"), path("/b")), allowed(2, 3, 0, 0, 1, packet=[(1, 5, 3)])


def functions():
    def holds(function, *terms):
        return tree([(1,), (2, constraint(option(call(function, *terms)))), ()], patterns=3)  # Tag 3 is on no edge

    two = (1, 2, 3)
    yield "$eq of a Value", match(holds("$eq", value("b")), AB, OLD), matched(2, two, (2, 5, 3))
    yield "$eq of another Value", match(holds("$eq", value("c")), AB, OLD), kept("no match")
    yield "$eq of a Tag", match(holds("$eq", tag(1)), path("/a/a"), OLD), matched(2, two, (2, 5, 3))
    yield "$eq of a Tag bound otherwise", match(holds("$eq", tag(1)), AB, OLD), kept("no match")
    yield "$eq of an unbound Tag", match(holds("$eq", tag(3)), AB, OLD), kept("no match")
    yield "$eq of another type", match(holds("$eq", value(component("b", 9))), AB, OLD), kept("no match")
    yield "$eq_type of a Value", match(holds("$eq_type", value("other")), AB, OLD), matched(2, two, (2, 5, 3))
    yield "$eq_type of another type", match(holds("$eq_type", value(component("b", 9))), AB, OLD), kept("no match")
    yield "$eq_type of a Tag", match(holds("$eq_type", tag(1)), AB, OLD), matched(2, two, (2, 5, 3))
    yield "$eq_type of an unbound Tag", match(holds("$eq_type", tag(3)), AB, OLD), kept("no match")
    typed = name(component("a", 300), component("b", 300))
    yield "$eq_type, types of three bytes", match(holds("$eq_type", tag(1)), typed, OLD), matched(2, (1, 2, 5), (2, 7, 5))
    for function, size in ("$isValidID", 6), ("$isValidYear", 4):
        for length in (0, 3, 4, 5, 6, 7):
            answer = matched(2, two, (2, 5, 2 + length)) if length == size else kept("no match")
            yield f"{function} of {length} bytes", match(holds(function), name("a", "9" * length), OLD), answer
        # bytes are counted, not digits
        answer = matched(2, two, (2, 5, 2 + size))
        yield f"{function} of letters", match(holds(function), name("a", "x" * size), OLD), answer


def texts():
    """RuleNames and TagSymbols change no answer."""
    for what, rules, symbols in (
        ("none", (), ()),
        ("some", ("#a", "#b"), ((1, "x"),)),
        ("others", ("#zz",), ((128, "y"), (128, "y"))),
    ):
        named = model(
            node(0, *map(rule_name, rules), pattern_edge(1, 1)),
            node(1, parent(0), *map(rule_name, rules), signer(1)),
            patterns=1,
            behind=b"".join(symbol(*s) for s in symbols),
        )
        yield f"RuleNames and TagSymbols: {what}", match(named, path("/a"), OLD), matched(1, (1, 2, 3))
        yield f"RuleNames and TagSymbols: {what}", sign(named, path("/a"), path("/a")), allowed(1, 1, 0, 0, packet=[(1, 2, 3)])


def cases():
    for part in left_behind, first_match_only, bound_too_soon, parents, later_branches, order, starts, bindings, constraints, functions, texts:
        yield from part()
