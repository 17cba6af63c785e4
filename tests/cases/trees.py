"""No cycles through the start, no parallel edges (request 8): refusals 13 and 14; and walks in the models that they leave, whose Nodes that
the start leads to form a tree.

13 refuses a start that has a Parent, whatever that names. 14 refuses two edges of one Node to the same Node, whatever they take. Each Node of
a model is tested, reachable or not, and the answer has the first at fault.
"""
from itertools import permutations, product

from bench import B
from build import *
from gaps import OPTIONAL, put_everywhere, put_in
from paths import full_tree, reached
from places import OTHER_CALLS


def all_calls(what, of, answer):
    """The verdict and every other call, which keep what they were lent."""
    yield what, verdict(of), answer
    for asked in OTHER_CALLS:
        yield from asked(what, of, answer)


def in_turn(judged):
    """The verdict on each of (what, model, answer), and where that is a refusal one of the other calls."""
    for i, (what, of, answer) in enumerate(judged):
        yield what, verdict(of), answer
        if answer.startswith("refused"):
            yield from OTHER_CALLS[i % len(OTHER_CALLS)](what, of, answer)


# 13: the start has a Parent

NUMBERS = (0, 1, 2, 3, 4, 127, 255, 256, 257, 65535, 65536, 2**32 - 1, 2**32, 2**32 + 1, 2**63, 2**64 - 1)


def some_nodes(parents, start):
    """Nodes without edges. `parents` has the Parent of each as an element, or none."""
    return model(*(node(i, up) for i, up in enumerate(parents)), start=start)


def any_parent():
    """It may be the Node itself, another, or no Node at all, and in any of its sizes. Nowhere else is it a fault."""
    for n, size in product(NUMBERS, (1, 2, 4, 8)):
        if n < 1 << 8 * size:
            up, what = integer(PARENT, n, size), f"Parent {n} in {size} bytes"
            yield f"the only Node, {what}", some_nodes([up], 0), "refused 13 0"
            for i in range(4):
                one = [up if i == j else b"" for j in range(4)]
                others = [b"" if i == j else up for j in range(4)]
                yield f"the start being Node {i} of 4, {what}", some_nodes(one, i), f"refused 13 {i}"
                yield f"all but the start, Node {i} of 4, {what}", some_nodes(others, i), "accepted 4"


def which_start():
    """Of four Nodes all but one have a Parent: that one alone may be the start."""
    for one, start in product(range(4), repeat=2):
        for what, up in ("itself", lambda i: i), ("the next", lambda i: (i + 1) % 4), ("the first", lambda i: 0), ("none", lambda i: 4):
            parents = [b"" if i == one else parent(up(i)) for i in range(4)]
            answer = "accepted 4" if start == one else f"refused 13 {start}"
            yield f"no Parent in Node {one}, in the others {what}, StartId {start}", some_nodes(parents, start), answer
    for start in (0, 1, 2):
        for size in (1, 2, 4, 8):
            of = model(*(node(i, parent(0)) for i in range(3)))
            of = concat(of[:6], integer(NODE_ID, start, size), of[9:])
            yield f"StartId {start} in {size} bytes", of, f"refused 13 {start}"
    # a number whose low bytes name a Node with a Parent names none
    for start in (3, 255, 256, 257, 65536, 2**32, 2**32 + 2, 2**64 - 1):
        yield f"StartId {start} of 3 Nodes with Parents", some_nodes([parent(0)] * 3, start), "refused 7 0"
    for start in (0, 1, 128, 254, 255):
        many = [parent(start) if i == start else b"" for i in range(256)]
        yield f"the start being Node {start} of 256", some_nodes(many, start), f"refused 13 {start}"
        yield f"256 Nodes with Parents, but for the start, Node {start}", some_nodes([b"" if up else parent(7) for up in many], start), "accepted 256"


def cycle(count, start, first=0):
    """So many Nodes from the first on, each with an edge to the next, and from the last to the first. Those before it have nothing."""
    before = [node(i) for i in range(first)]
    around = [node(first + i, parent(first + (i - 1) % count), value_edge(first + (i + 1) % count, "a"), signer(first)) for i in range(count)]
    return model(*before, *around, start=start)


def cycles():
    """Nodes that are each other's parents and children, or their own: refused where one of them is the start, else accepted."""
    for count in (1, 2, 3, 5, 254):
        for i in sorted({0, 1, count // 2, count - 1} & set(range(count))):
            yield f"{count} Nodes in a cycle, StartId {i}", cycle(count, i), f"refused 13 {i}"
            yield f"{count} Nodes in a cycle, StartId {i + 2}, behind two others", cycle(count, i + 2, 2), f"refused 13 {i + 2}"
        for start in (0, 1):
            yield f"{count} Nodes in a cycle behind the start, Node {start}", cycle(count, start, 2), f"accepted {count + 2}"
    # the same without edges, or with one of two
    for edges in product((False, True), repeat=2):
        two = [node(i, parent(1 - i), *([value_edge(1 - i, "a")] if edges[i] else [])) for i in (0, 1)]
        for start in (0, 1):
            yield f"mutual parents, edges {edges}, StartId {start}", model(*two, start=start), f"refused 13 {start}"
        yield f"mutual parents, edges {edges}, and the start", model(*two, node(2), start=2), "accepted 3"
    # an edge to the start: 11 where that has no Parent or another
    yield "an edge to the start", model(node(0, value_edge(1, "a")), node(1, parent(0)), start=1), "refused 13 1"
    yield "an edge to the start, which has no Parent", model(node(0, value_edge(1, "a")), node(1), start=1), "refused 11 0"
    yield "an edge to the start, which has another Parent", model(node(0, value_edge(1, "a")), node(1, parent(1)), start=1), "refused 11 0"
    yield "an edge from the start to its Parent", model(node(0, parent(1), value_edge(1, "a")), node(1, parent(0))), "refused 13 0"
    yield "an edge from the start to itself", model(node(0, parent(0), pattern_edge(0, 1))), "refused 13 0"
    yield "the same without a Parent", model(node(0, pattern_edge(0, 1))), "refused 11 0"


def hidden_parents():
    """What looks like a Parent in an optional element is none, and one is found behind optional elements."""
    for spare in (element(0x80, parent(0)), element(0x58, parent(0)), element(0x56, b"\x00"), element(0xFFFE, parent(0)) * 2):
        yield f"{spare.hex()} and no Parent", some_nodes([spare], 0), "accepted 1"
        yield f"{spare.hex()} before a Parent", some_nodes([spare + parent(0)], 0), "refused 13 0"
        yield f"{spare.hex()} behind a Parent", some_nodes([parent(0) + spare], 0), "refused 13 0"
    of = model(node(0), node(1, parent(0), rule_name("#r"), signer(1)), start=1, behind=symbol(1, "s"))
    yield "no optional element", of, "refused 13 1"
    for spare in OPTIONAL:
        yield f"{spare} in every gap, the start with a Parent", put_everywhere(of, bytes.fromhex(spare)), "refused 13 1"
    for i, spread in enumerate(put_in(of, bytes.fromhex("80028100"))):
        yield f"an optional element in gap {i}, the start with a Parent", spread, "refused 13 1"
    for i, spread in enumerate(put_in(of, faulty(bytes.fromhex("8100")))):
        yield f"a critical element in gap {i}, the start with a Parent", spread, refused_at(spread)
    for size in (0, 3, 5):
        yield f"a Parent of {size} bytes", some_nodes([element(PARENT, bytes(size))], 0), "refused 2 17"


# 14: two edges of one Node to the same Node

TWO_EDGES = {
    "equal ValueEdges": lambda a, b: [value_edge(a, "x"), value_edge(b, "x")],
    "ValueEdges of two values": lambda a, b: [value_edge(a, "x"), value_edge(b, "y")],
    "ValueEdges of two types": lambda a, b: [value_edge(a, "x"), value_edge(b, component("x", 9))],
    "ValueEdges of no bytes and 300": lambda a, b: [value_edge(a, ""), value_edge(b, "x" * 300)],
    "equal PatternEdges": lambda a, b: [pattern_edge(a, 1), pattern_edge(b, 1)],
    "PatternEdges of two Tags": lambda a, b: [pattern_edge(a, 1), pattern_edge(b, 128)],
    "PatternEdges of one Tag, for two values": lambda a, b: [pattern_edge(a, 1, must_be("x")), pattern_edge(b, 1, must_be("y"))],
    "PatternEdges, one of which takes nothing": lambda a, b: [pattern_edge(a, 1, constraint()), pattern_edge(b, 2)],
    "a ValueEdge and a PatternEdge": lambda a, b: [value_edge(a, "x"), pattern_edge(b, 1)],
    "a ValueEdge and a PatternEdge for its value": lambda a, b: [value_edge(a, "x"), pattern_edge(b, 1, must_be("x"))],
    "a ValueEdge and a PatternEdge for another": lambda a, b: [value_edge(a, "x"), pattern_edge(b, 1, must_be("y"))],
}


def kinds():
    """Whatever the two take, in the start, in a Node behind it and in one that it does not lead to. To two Nodes they may lead."""
    for what, edges in TWO_EDGES.items():
        for a, b in product((2, 3), repeat=2):
            here, leaves = edges(a, b), [node(i, parent(1)) for i in (2, 3)]
            of_start = model(node(0), node(1, *here), *leaves, start=1, patterns=1)
            behind = model(node(0, value_edge(1, "a")), node(1, parent(0), *here), *leaves, patterns=1)
            beside = model(node(0), node(1, parent(0), *here), *leaves, patterns=1)
            for where, of in ("the start", of_start), ("a Node behind it", behind), ("a Node beside it", beside):
                yield f"{what} of {where}, to Nodes {a} and {b}", of, "refused 14 1" if a == b else "accepted 4"


def edges_to(destinations, values):
    """As many ValueEdges as `values` says, and then PatternEdges."""
    by_value = [value_edge(to, str(i)) for i, to in enumerate(destinations[:values])]
    return by_value + [pattern_edge(to, 1 + i % 128) for i, to in enumerate(destinations[values:])]


def fan(destinations, values, at=0, count=None):
    """Node `at` has these edges, and all others from Node 0 on have it as their Parent. It is the start."""
    count = max(at, *destinations) + 1 if count is None else count
    return model(*(node(i, *edges_to(destinations, values)) if i == at else node(i, parent(at)) for i in range(count)), start=at)


def sequences():
    """Four edges to four Nodes in every way: accepted where all are different."""
    for i, destinations in enumerate(product(range(1, 5), repeat=4)):
        is_good = len(set(destinations)) == 4
        yield f"edges to {destinations}, {i % 5} of them by value", fan(destinations, i % 5, count=5), "accepted 5" if is_good else "refused 14 0"
    # five edges of a Node in the middle, any two of them to one Node
    for values, p, q in product(range(6), range(5), range(5)):
        if p < q:
            others = [0, 1, 3, 4, 5]
            others[q] = others[p]
            yield f"edges {p} and {q} of 5, {values} by value", fan(others, values, 2, 6), "refused 14 2"


def positions():
    """The first two, the last two, two in the middle, the first and the last, of so many edges; the others lead to other Nodes."""
    for count in (2, 3, 10, 100, 255):
        for values in (0, 1, count // 2, count - 1, count):
            yield f"{count} edges to as many Nodes, {values} by value", fan(range(1, count + 1), values), f"accepted {count + 1}"
        middle = (count - 1) // 2
        for p, q in sorted({(0, 1), (count - 2, count - 1), (middle, middle + 1), (0, count - 1)}):
            for values in sorted({0, p + 1, count}):
                for order in 1, -1:
                    destinations = list(range(1, count + 1))[::order]
                    destinations[q] = destinations[p]
                    down = "" if order == 1 else ", down"
                    yield f"edges {p} and {q} of {count}, {values} by value{down}", fan(destinations, values, count=count + 1), "refused 14 0"


def destinations():
    """Any Node, told from one whose index differs in one bit; and numbers that agree with a Node's in their low bytes only, which is 8."""
    for to in (1, 2, 63, 64, 127, 128, 191, 192, 254, 255):
        yield f"two edges to Node {to} of 256", fan([to, to], to % 3, count=256), "refused 14 0"
        for bit in range(8):
            if to ^ 1 << bit:
                yield f"edges to Nodes {to} and {to ^ 1 << bit} of 256", fan([to, to ^ 1 << bit], bit % 3, count=256), "accepted 256"
    for to in (257, 65537, 2**32 + 1, 2**56 + 1, 2**64 - 255):
        for values in range(3):
            yield f"edges to Nodes 1 and {to}, {values} by value", fan([1, to], values, count=2), "refused 8 0"
            yield f"edges to Nodes {to} and 1, {values} by value", fan([to, 1], values, count=2), "refused 8 0"
    yield "edges to Nodes 0 and 255, Node 1 being the start", fan([0, 255], 1, 1, 256), "accepted 256"
    yield "two edges to Node 0", fan([0, 0], 1, 1), "refused 14 1"


def widths():
    """A destination in any of its four sizes is the same one."""

    def edge(typ, to, size):
        return element(typ, integer(NODE_ID, to, size), value("x") if typ == VALUE_EDGE else tag(1))

    for one, other in (VALUE_EDGE, VALUE_EDGE), (PATTERN_EDGE, PATTERN_EDGE), (VALUE_EDGE, PATTERN_EDGE):
        for first, second in product((1, 2, 4, 8), repeat=2):
            what = f"a {NAMES[one]} and a {NAMES[other]}, destinations of {first} and {second} bytes"
            for to, answer in (1, "refused 14 0"), (2, "accepted 3"):
                of = model(node(0, edge(one, 1, first), edge(other, to, second)), node(1, parent(0)), node(2, parent(0)))
                yield f"{what}, 1 and {to}", of, answer


def other_elements():
    """Optional elements between edges and in them change nothing, and what looks like an edge in one is none."""
    parallel = model(node(0, value_edge(1, "a"), pattern_edge(1, 1, must_be("b")), signer(1)), node(1, parent(0)))
    apart = model(node(0, value_edge(1, "a"), pattern_edge(2, 1, must_be("b")), signer(1)), node(1, parent(0)), node(2, parent(0)))
    spares = [bytes.fromhex(spare) for spare in OPTIONAL] + [element(0x80, each) for each in (node_id(1), value_edge(1, "c"), pattern_edge(1, 1))]
    for what, of, answer in ("two edges to one Node", parallel, "refused 14 0"), ("two edges to two Nodes", apart, "accepted 3"):
        yield what, of, answer
        for spare in spares:
            yield f"{what}, {spare.hex()} in every gap", put_everywhere(of, spare), answer
        for i, spread in enumerate(put_in(of, element(0x80, node_id(1)))):
            yield f"{what}, an optional element in gap {i}", spread, answer
        for i, spread in enumerate(put_in(of, faulty(bytes.fromhex("8100")))):
            yield f"{what}, a critical element in gap {i}", spread, refused_at(spread)
    for typ in (0x50, 0x52, 0x54, 0x80, 0xFFFE):
        for edge in value_edge(1, "a"), pattern_edge(1, 1):
            spare = element(typ, edge[2:])
            for behind in ([value_edge(1, "b"), spare], [spare, value_edge(1, "b")], [spare, pattern_edge(1, 2), spare]):
                yield f"{spare.hex()} beside an edge", model(node(0, *behind), node(1, parent(0))), "accepted 2"
    # signers, RuleNames and Tags are no destinations
    first = node(0, rule_name("#a"), rule_name("#a"), value_edge(1, "a"), pattern_edge(2, 1), signer(1), signer(1), signer(2))
    yield "signers and a Tag with the numbers of destinations", model(first, node(1, parent(0)), node(2, parent(0))), "accepted 3"


def which_node():
    """Five Nodes with two edges each, of which any lead to one Node: the first of them is named, whichever is the start."""
    for chosen in product((False, True), repeat=5):
        for turn in (0, 1):
            nodes = []
            for i, is_twice in enumerate(chosen):
                to = [5 + 2 * i, 6 + 2 * i]
                nodes.append(node(i, *edges_to([to[turn]] * 2 if is_twice else to[:: 1 - 2 * turn], i % 3)))
            leaves = [node(i, parent((i - 5) // 2)) for i in range(5, 15)]
            start = (sum(chosen) + turn) % 5
            answer = f"refused 14 {chosen.index(True)}" if any(chosen) else "accepted 15"
            yield f"of Nodes 0 to 4 {[i for i in range(5) if chosen[i]]}, StartId {start}", model(*nodes, *leaves, start=start), answer
    # from the first Node of a chain to the one before the last, and numbered from its end
    for at, what in product(range(5), TWO_EDGES):
        edges = TWO_EDGES[what]
        chain = [[value_edge(i + 1, "a")] for i in range(5)] + [[]]
        chain[at] = edges(at + 1, at + 1)
        of = model(*(node(i, *([parent(i - 1)] if i else []), *out) for i, out in enumerate(chain)), patterns=1)
        yield f"{what}, Node {at} of a chain", of, f"refused 14 {at}"
        down = [[value_edge(i - 1, "a")] if i else [] for i in range(6)]
        down[at + 1] = edges(at, at)
        of = model(*(node(i, *([parent(i + 1)] if i < 5 else []), *out) for i, out in enumerate(down)), start=5, patterns=1)
        yield f"{what}, Node {at + 1} of a chain that begins with Node 5", of, f"refused 14 {at + 1}"
    # the last of 256 Nodes, which the start does not lead to, and the last two
    many = [node(i, *([parent(254 + i % 2)] if i < 2 else [])) for i in range(254)]
    last_two = [node(254, value_edge(0, "a"), value_edge(0, "b")), node(255, pattern_edge(1, 1), pattern_edge(1, 2))]
    yield "the last of 256 Nodes", model(*many, node(254, value_edge(0, "a")), last_two[1], start=9), "refused 14 255"
    yield "the last two of 256 Nodes", model(*many, *last_two, start=9), "refused 14 254"


def different_nodes():
    """Edges of two Nodes to one are not parallel: 11, at the one that is not its Parent."""
    for what, edges in TWO_EDGES.items():
        first, second = edges(2, 2)
        for up in (0, 1):
            of = model(node(0, first), node(1, second), node(2, parent(up)), patterns=1)
            yield f"{what} of two Nodes, Parent {up}", of, f"refused 11 {1 - up}"
        # each Node has its own: what was seen in one is not there for the next
        of = model(node(0, *edges(2, 3)), node(1, *edges(4, 5)), *(node(i, parent(i // 4)) for i in range(2, 6)), patterns=1)
        yield f"{what} of each of two Nodes", of, "accepted 6"


def many_edges():
    """As many edges as there is room for. A Node with more than 255 has two to one Node, if it has no lower fault."""
    leaf, one = node(1, parent(0)), value_edge(1, "")
    assert len(one) == 9
    for count in (2, 255, 256, 257, 2000, 3600):
        yield f"{count} edges to one Node", model(node(0, *[one] * count), leaf), "refused 14 0"
        yield f"{count} edges of the last Node to one Node", model(node(0), node(1, parent(2)), node(2, *[one] * count)), "refused 14 2"
    yield "2,000 PatternEdges to one Node", model(node(0, *[pattern_edge(1, 1)] * 2000), leaf), "refused 14 0"
    for size, answer in (32768, "refused 14 0"), (32769, "refused 1 0"):
        yield f"3,600 edges in {size} bytes", padded(model(node(0, *[one] * 3600), leaf), size), answer
    for rounds, order in product((1, 2, 8), (1, -1)):
        around = list(range(1, 256))[::order] * rounds
        answer = "accepted 256" if rounds == 1 else "refused 14 0"
        yield f"{rounds} times 255 edges to 255 Nodes, {'up' if order == 1 else 'down'}", fan(around, len(around) // 2), answer
    yield "255 edges to 255 Nodes, and one more", fan([*range(1, 256), 128], 255), "refused 14 0"
    # a lower fault of the last edge
    yield "2,000 edges to one Node, the last to none", model(node(0, *[one] * 1999, value_edge(2, "")), leaf), "refused 8 0"
    unknown = pattern_edge(1, 1, constraint(option(call("$no"))))
    yield "2,000 edges to one Node, the last with an unknown function", model(node(0, *[one] * 1999, unknown), leaf), "refused 12 0"
    other = model(node(0, *[one] * 1999, value_edge(2, "")), leaf, node(2))
    yield "2,000 edges to one Node, the last to one without a Parent", other, "refused 11 0"
    # and one of the last Node
    yield "2,000 edges to one Node, a signer that is none", model(node(0, *[one] * 2000), node(1, parent(0), signer(2))), "refused 9 1"


# both, and lower faults beside them; refusals.py has each of the lower ones, in the same Node and in others


def both():
    """13 comes before 14, wherever each of them is; both come behind the others."""
    for what, edges in TWO_EDGES.items():
        parallel = edges(1, 1)
        yield f"{what}, and a Parent of the start", model(node(0, parent(0), *parallel), node(1, parent(0)), patterns=1), "refused 13 0"
        behind = model(node(0), node(1, parent(2)), node(2, *parallel), node(3, parent(2)), start=3, patterns=1)
        yield f"{what} before a start with a Parent", behind, "refused 13 3"
        before = model(node(0, parent(2)), node(1, parent(2)), node(2, *parallel), patterns=1)
        yield f"{what} behind a start with a Parent", before, "refused 13 0"
        # the destination's Parent is another Node, or there is no such Node
        yield f"{what} to a Node with another Parent", model(node(0, *parallel), node(1, parent(1)), patterns=1), "refused 11 0"
        yield f"{what} to a Node without a Parent", model(node(0, *parallel), node(1), patterns=1), "refused 11 0"
        yield f"{what} to the Node itself", model(node(0), node(1, parent(0), *parallel), patterns=1), "refused 11 1"
        yield f"{what} to the Node itself, which is its own Parent", model(node(0), node(1, parent(1), *parallel), patterns=1), "refused 14 1"
        yield f"{what} to no Node", model(node(0, *parallel), patterns=1), "refused 8 0"
        yield f"{what} to no Node, and a Parent of the start", model(node(0, parent(0), *parallel), patterns=1), "refused 8 0"
        yield f"{what}, and another with no Node in the last", model(node(0, *parallel), node(1, parent(0), value_edge(9, "x"))), "refused 8 1"
        yield f"{what}, another version", model(node(0, *parallel), node(1, parent(0)), version=0x00012000), "refused 3 0"
        yield f"{what}, and no StartId", model(node(0, *parallel), node(1, parent(0)), start=2), "refused 7 0"
        cut = faulty(node(0, *parallel)[:-1])
        yield f"{what}, cut", model(cut), refused_at(model(cut))


# trees that are accepted, however their Nodes are numbered

# a start with two edges for a, to Nodes 1 and 2, and from Node 2 one for b to Node 3
SMALL_EDGES, SMALL_PARENTS = {0: [(1, "a"), (2, "a")], 2: [(3, "b")]}, {1: 0, 2: 0, 3: 2}


def small_tree(order, more=(), start_up=()):
    """This tree with its Nodes at the indexes in `order`. `more` are (Node, destination) of further edges; the start may have a Parent."""
    nodes = [b""] * 4
    for i, at in enumerate(order):
        out = SMALL_EDGES.get(i, []) + [(to, "c") for j, to in more if i == j]
        over = [SMALL_PARENTS[i]] if i in SMALL_PARENTS else start_up
        nodes[at] = node(at, *(parent(order[j]) for j in over), *(value_edge(order[to], text) for to, text in out), signer(order[3]))
    return model(*nodes, start=order[0])


def numberings():
    """A tree is one in any order of its Nodes, and a fault is named by its Node's index."""
    for order in permutations(range(4)):
        what, of = f"Nodes at {order}", small_tree(order)
        yield what, verdict(of), "accepted 4"
        yield f"{what}, /a", match(of, path("/a"), OLD), matched(order[1])
        yield f"{what}, /a/b", match(of, path("/a/b"), OLD), matched(order[3])
        yield f"{what}, /a by /a/b", sign(of, path("/a"), path("/a/b")), allowed(order[1], order[3], 0, 1, 0)
        yield f"{what}, /a/b by /a", sign(of, path("/a/b"), path("/a")), NOT_ALLOWED
        for j, to in (0, 1), (0, 2), (2, 3):
            yield from all_calls(f"{what}, two edges from {j} to {to}", small_tree(order, [(j, to)]), f"refused 14 {order[j]}")
        two = [(0, 2), (2, 3)]
        yield from all_calls(f"{what}, two edges from 0 to 2 and from 2 to 3", small_tree(order, two), f"refused 14 {min(order[0], order[2])}")
        for j in range(4):
            yield from all_calls(f"{what}, the same, and {j} the start's Parent", small_tree(order, two, [j]), f"refused 13 {order[0]}")


def shapes():
    """Full trees of up to 255 Nodes, and a tree beside Nodes that the start does not lead to."""

    def two(to):
        return value_edge(to, "a"), value_edge(to + 1, "b")

    binary, broad = full_tree(two, 7, ()), full_tree(lambda to: [value_edge(to + i, str(i)) for i in range(15)], 2, ())
    for what, of, count, words in (
        ("two edges a Node", binary, 255, [(0,) * 7, (1,) * 7, (0, 1, 0, 1, 1, 0, 1), (1, 0), (0,)]),
        ("15 edges a Node", broad, 241, [(0, 0), (14, 14), (3, 7), (14,)]),
    ):
        yield f"{what}, {count} Nodes", verdict(of), f"accepted {count}"
        for edges in words:
            texts = ["ab"[i] if of == binary else str(i) for i in edges]
            yield f"{what}, /{'/'.join(texts)}", match(of, name(*texts), OLD), matched(reached(edges, 2 if of == binary else 15))
        yield f"{what}, no such edge", match(of, path("/a/c"), OLD), kept("no match")
    # beside it: another tree, a cycle, a Node that is its own Parent, one whose Parent is no Node, and two that their Parents do not lead to
    beside = [node(2, value_edge(3, "a")), node(3, parent(2)), node(4, parent(5), value_edge(5, "a")), node(5, parent(4), value_edge(4, "a"))]
    beside += [node(6, parent(6), pattern_edge(6, 1)), node(7, parent(99)), node(8, parent(0)), node(9, parent(2))]
    listed = [signer(i) for i in range(2, 10)]
    of = model(node(0, value_edge(1, "a"), *listed, signer(0)), node(1, parent(0), *listed, signer(1)), *beside)
    yield "other Nodes beside the tree", verdict(of), "accepted 10"
    yield "other Nodes beside the tree, /a", match(of, path("/a"), OLD), matched(1)
    yield "other Nodes beside the tree, /a/a", match(of, path("/a/a"), OLD), kept("no match")
    yield "other Nodes beside the tree, /a by /a", sign(of, path("/a"), path("/a")), allowed(1, 1, 0, 0)
    yield "other Nodes beside the tree, /a by the empty name", sign(of, path("/a"), name()), NOT_ALLOWED
    yield "other Nodes beside the tree, a list", suggest(of, path("/a"), name(), path("/a/a"), path("/a")), "certificate 2"
    # Node 2 may be the start as well, and no other, as they have Parents
    for start in range(1, 10):
        moved = concat(of[:6], integer(NODE_ID, start), of[9:])
        if start == 2:
            yield "other Nodes beside the tree, StartId 2", match(moved, path("/a"), OLD), matched(3)
        else:
            yield from all_calls(f"other Nodes beside the tree, StartId {start}", moved, f"refused 13 {start}")


# walks: two edges that take the same component lead to two Nodes, and both are tried

TAKE_A = {
    "two ValueEdges": lambda to: (value_edge(to, "a"), value_edge(to + 1, "a")),
    "a ValueEdge and a PatternEdge": lambda to: (value_edge(to, "a"), pattern_edge(to + 1, 1)),
    "two PatternEdges": lambda to: (pattern_edge(to, 1), pattern_edge(to + 1, 2, must_be("a"))),
}
PATHS = list(product((0, 1), repeat=3))  # to the eight Nodes at depth 3
AAA = path("/a/a/a")


def signed_tree(edges, listed):
    """Every Node down to depth 2 has these two edges. `listed` has pairs of the Nodes at depth 3, by their number from 0."""
    nodes = []
    for n in range(15):
        up, down = [parent((n - 1) // 2)] if n else [], edges(2 * n + 1) if n < 7 else []
        nodes.append(node(n, *up, *down, *(signer(7 + k) for p, k in listed if 7 + p == n)))
    return model(*nodes)  # no Tag is named


def pairs():
    """Eight matches of /a/a/a: a pair that is listed is found, and of several the first."""
    every = list(product(range(8), repeat=2))
    for what, edges in TAKE_A.items():
        for p, k in every:
            of, words = signed_tree(edges, [(p, k)]), (*PATHS[p], *PATHS[k])
            yield f"{what}, {p} by {k} of 8", sign(of, AAA, AAA), allowed(7 + p, 7 + k, *words)
            yield f"{what}, {p} by {k} of 8, its path", follow(of, AAA, AAA, words), "accepted"
            yield f"{what}, {p} by {k} of 8, another path", follow(of, AAA, AAA, (*words[:-1], 1 - words[-1])), "no"
            yield f"{what}, {p} by {k} of 8, a list", suggest(of, AAA, path("/a/a"), path("/a/a/a/a"), AAA), "certificate 2"
        for step, begin in product((5, 7, 11, 13), (0, 3, 20, 37)):
            listed = every[begin::step][::-1]
            p, k = min(listed)
            line = allowed(7 + p, 7 + k, *PATHS[p], *PATHS[k])
            yield f"{what}, every {step}th pair from {begin} on", sign(signed_tree(edges, listed), AAA, AAA), line
        yield f"{what}, no pair", sign(signed_tree(edges, []), AAA, AAA), NOT_ALLOWED
        yield f"{what}, the first match", match(signed_tree(edges, []), AAA, OLD), matched(7)
        yield f"{what}, a name that ends above", match(signed_tree(edges, []), path("/a/a"), OLD), matched(3)
        yield f"{what}, a name that goes on", match(signed_tree(edges, []), path("/a/a/a/a"), OLD), kept("no match")


def last_branch():
    """Only the last of many branches goes on: equal edges are left one after the other."""
    for count in (2, 3, 17, 127):
        for by_value in (count, count - 1, 0):
            # Node 0's edges lead to Nodes 1 to count, and only the last of these has an edge
            edges = [value_edge(i, "a") if i <= by_value else pattern_edge(i, i) for i in range(1, count + 1)]
            ends = [node(i, parent(0)) for i in range(1, count)]
            last = node(count, parent(0), value_edge(count + 1, "b")), node(count + 1, parent(count), signer(count + 1))
            of = model(node(0, *edges), *ends, *last, patterns=128)
            bound = [(count, 2, 3)] if by_value < count else []
            what = f"the last of {count} branches, {by_value} by value"
            yield what, match(of, path("/a/b"), OLD), matched(count + 1, *bound)
            line = allowed(count + 1, count + 1, count - 1, 0, count - 1, 0, packet=bound)
            yield what, sign(of, path("/a/b"), path("/a/b")), line
            yield f"{what}, none goes on so", match(of, path("/a/c"), OLD), kept("no match")


def small_changes():
    """Model B and what one more element makes of it."""
    leaf = node(1, parent(0), signer(1))
    for what, first, answer in (
        ("as it is", node(0, pattern_edge(1, 1)), "accepted 2"),
        ("a Parent of its start", node(0, parent(0), pattern_edge(1, 1)), "refused 13 0"),
        ("a Parent of its start, Node 1", node(0, parent(1), pattern_edge(1, 1)), "refused 13 0"),
        ("a Parent of its start that is no Node", node(0, parent(2), pattern_edge(1, 1)), "refused 13 0"),
        ("its edge twice", node(0, pattern_edge(1, 1), pattern_edge(1, 1)), "refused 14 0"),
        ("an edge for a", node(0, value_edge(1, "a"), pattern_edge(1, 1)), "refused 14 0"),
        ("both", node(0, parent(0), value_edge(1, "a"), pattern_edge(1, 1)), "refused 13 0"),
    ):
        of = model(first, leaf, patterns=1)
        if answer == "accepted 2":
            assert of == B
            yield f"B {what}", verdict(of), answer
        else:
            yield from all_calls(f"B, {what}", of, answer)
            # with names that would be refused themselves, and room for everything
            yield f"B, {what}, a malformed name", match(of, b"", OLD), kept(answer)
            yield f"B, {what}, malformed names", sign(of, b"", b""), both_kept(answer)
            yield f"B, {what}, good names", sign(of, path("/a"), path("/a")), both_kept(answer)
            yield f"B, {what}, a good path", follow(of, path("/a"), path("/a"), [0, 0]), answer
            yield f"B, {what}, 65 certificates", suggest(of, path("/a"), *[path("/a")] * 65), answer
    yield "B with StartId 1", verdict(model(node(0, pattern_edge(1, 1)), leaf, start=1, patterns=1)), "refused 13 1"


REFUSALS = (
    any_parent, which_start, cycles, hidden_parents, kinds, sequences, positions, destinations, widths, other_elements, which_node, different_nodes,
    many_edges, both,
)  # fmt: skip
ANSWERS = small_changes, numberings, shapes, pairs, last_branch


def cases():
    for part in REFUSALS:
        yield from in_turn(part())
    for part in ANSWERS:
        yield from part()
