"""The path of an allowed pair (request 6): what a signing call writes and when 34 refuses it, and which paths are accepted.

A path has a word for each edge that is crossed, the packet's and then the key's: how many edges of the same Node come before that edge. Of
all paths that are accepted for a pair of names the signing call's is the first, in the order of the first word that differs.
"""
from itertools import product

import bench
import document_003
import gaps
import limits
import refusals
import temporary
import walks
from bench import A, B, EMPTY, SLASH_A, SLASH_B
from build import *
from certificates import fields
from gaps import CRITICAL, OPTIONAL, parts, put_everywhere, put_in
from refusals import refused, with_faults

WORDS = list(range(40000, 42048))  # before a call, the first of these; all of them are as many as the driver takes
AB = path("/a/b")


def count(*names):
    """How many components these names have together."""
    return sum(len(list(parts(inside))) for each in names for _, inside in parts(each))


def a_name(length):
    return name(*["a"] * length)


def changed(words, i, word):
    return [*words[:i], word, *words[i + 1 :]]


def accepted_if(holds):
    return "accepted" if holds else "no"


def text(words):
    return ",".join(map(str, words[:8])) + (f" and {len(words) - 8} more" if len(words) > 8 else "") or "none"


def followed(what, of, packet, key, words, holds):
    yield f"{what}, path {text(words)}", follow(of, packet, key, words), accepted_if(holds)


def none_accepted(what, of, packet, key, several):
    for words in several:
        yield from followed(what, of, packet, key, words, False)


# room for the path


def rung(i):
    """The ordinal of the edge from Node i to the next in LADDER."""
    return i % 5


def ladder():
    """Names of up to 32 components a: each Node has one edge for it, the last, and a few for b, to Nodes of their own behind the others.

    The first 33 list Nodes 0, 1 and 32.
    """
    nodes, sides = [], []
    for i in range(33):
        up = [parent(i - 1)] if i else []
        down = []
        if i < 32:
            aside = range(33 + len(sides), 33 + len(sides) + rung(i))
            sides += (node(j, parent(i)) for j in aside)
            down = [value_edge(j, "b") for j in aside] + [value_edge(i + 1, "a")]
        nodes.append(node(i, *up, *down, signer(0), signer(1), signer(32)))
    return model(*nodes, *sides)


LADDER = ladder()


def rungs(*lengths):
    return [rung(i) for length in lengths for i in range(length)]


def room():
    """34 where there are fewer words than components, in both names together; else the path, and the words behind it stay."""
    for n, m in (0, 0), (0, 1), (1, 0), (1, 1), (2, 1), (31, 1), (0, 32), (32, 0), (1, 32), (32, 1), (31, 32), (32, 32):
        need = n + m
        for size in sorted({0, 1, n, m, abs(need - 1), need, need + 1, need + 2, 64, 65, 2048}):
            words = WORDS[:size]
            line = both_kept("refused 34 0", words) if size < need else allowed(n, m, *rungs(n, m), path_words=words)
            yield f"{n} and {m} components, {size} words", sign(LADDER, a_name(n), a_name(m), words), line


UNSIGNED = (
    ("another component", B, SLASH_A, SLASH_B),
    ("a key that ends too soon", B, SLASH_A, EMPTY),
    ("a packet that ends too soon", B, EMPTY, SLASH_A),
    ("two empty names", B, EMPTY, EMPTY),
    ("a packet that is too long", B, AB, SLASH_A),
    ("a key that is too long", B, SLASH_A, AB),
    ("two names that are too long", B, AB, AB),
    ("no signer", A, EMPTY, EMPTY),
    ("no edge", A, SLASH_A, SLASH_A),
    ("a key without an edge", A, EMPTY, SLASH_A),
    ("32 components, the packet's last without an edge", LADDER, name(*["a"] * 31, "c"), a_name(32)),
    ("32 components, the key's last without an edge", LADDER, a_name(32), name(*["a"] * 31, "c")),
    ("32 components, the key's first without an edge", LADDER, a_name(32), name("c", *["a"] * 31)),
    ("a key that is not listed", LADDER, a_name(2), a_name(2)),
    ("a long key that is not listed", LADDER, a_name(32), a_name(31)),
)


def unsigned():
    """34 comes before the walk, so where no pair is allowed too; with room enough all words stay."""
    for what, of, packet, key in UNSIGNED:
        need = count(packet, key)
        for size in sorted({0, need // 2, abs(need - 1), need, need + 1, need + 20, 2048}):
            words = WORDS[:size]
            line = both_kept("refused 34 0" if size < need else "not allowed", words)
            yield f"{what}, {size} words", sign(of, packet, key, words), line


# refusals of the model and the names

BAD_NAMES = (
    ("of 1,025 bytes", name("a" * 1017), 0),
    ("of 1,025 bytes that are no name", bytes(1025), 0),
    ("of 4,096 bytes", bytes(4096), 0),
    ("of no bytes", b"", 1),
    ("that is cut", SLASH_A[:-1], 1),
    ("of another type", component("a"), 1),
    ("with a byte behind it", SLASH_A + b"\x00", 1),
    ("of 33 components and a broken one", name(*["a"] * 33, b"\x08"), 1),
    ("of 33 components", a_name(33), 2),
)


def name_faults():
    """(what, packet name, key name, the refusal)."""
    for what, bad, kind in BAD_NAMES:
        in_packet, in_key = f"refused {21 + kind} 0", f"refused {24 + kind} 0"
        yield f"a packet name {what}", bad, SLASH_A, in_packet
        yield f"a packet name {what}, an empty key name", bad, EMPTY, in_packet
        yield f"a packet name {what}, a key name of 32 components", bad, a_name(32), in_packet
        yield f"a key name {what}", SLASH_A, bad, in_key
        yield f"a key name {what}, an empty packet name", EMPTY, bad, in_key
        yield f"a key name {what}, a packet name of 32 components", a_name(32), bad, in_key
        for other, worse, _ in BAD_NAMES[::4]:
            yield f"a packet name {what}, a key name {other}", bad, worse, in_packet


def model_faults():
    """(what, model, the refusal)."""
    for rule in range(1, 15):
        of = with_faults(**{f"r{rule}": 3})
        yield f"rule {rule}", of, refused(rule, 3, of)
    yield "no bytes", b"", "refused 2 0"
    yield "another version, and cut", bench.OTHER_VERSION_CUT, "refused 3 0"
    yield "a critical element", bench.CRITICAL, "refused 2 17"
    yield "B without its last byte", B[:-1], "refused 2 25"
    yield "another version", model(node(0), version=0x00011001), "refused 3 0"


def names_first():
    """The packet name's refusals, then the key name's, then 27 and 34. A path of another length refuses nothing."""
    for what, packet, key, answer in name_faults():
        for size, bindings in (0, 383), (2, 0), (33, 384):
            words = WORDS[:size], OLD[:bindings]
            yield f"{what}, {size} words, {bindings} binding words", sign(B, packet, key, *words), both_kept(answer, *words)
        for words in ([], [0, 0], [0] * 34):
            yield f"{what}, path {text(words)}", follow(B, packet, key, words), answer
    yield "a cut packet name, 2,048 words", sign(B, b"\x07", SLASH_A, WORDS), both_kept("refused 22 0", WORDS)


def models_first():
    """And the model's before all of these; a long one with fewer of them."""
    names = (SLASH_A, SLASH_A), (EMPTY, EMPTY), (b"", SLASH_A), (SLASH_A, a_name(33)), (bytes(1025), b"")
    asked = list(product(names, [(0, 383), (1, 0), (2, 384)]))
    for what, of, answer in model_faults():
        for (packet, key), (size, bindings) in asked[1::5] if len(of) > 32768 else asked:
            words, which = (WORDS[:size], OLD[:bindings]), f"{packet[:5].hex()} by {key[:5].hex()}"
            yield f"{what}, {which}, {size} words, {bindings} binding words", sign(of, packet, key, *words), both_kept(answer, *words)
            yield f"{what}, {which}, a path of {size}", follow(of, packet, key, [0] * size), answer
        yield f"{what}, a path of 2,048", follow(of, SLASH_A, SLASH_A, WORDS), answer


# ordinals


def fan(values, patterns):
    """From Node 0 an edge for each of these components: to Node 1 and so on. Each of those lists itself and Node 1. Tag 1 is temporary."""
    texts = [f"v{i}" for i in range(values)] + [f"p{i}" for i in range(patterns)]
    edges = [value_edge(i, each) for i, each in enumerate(texts[:values], 1)]
    edges += [pattern_edge(i, 1, must_be(each)) for i, each in enumerate(texts[values:], 1 + values)]
    return texts, model(node(0, *edges), *(node(i, parent(0), signer(i), signer(1)) for i in range(1, 1 + len(edges))))


def kinds():
    """ValueEdges count first, in file order, then PatternEdges; each edge by each other's key."""
    for values, patterns in (1, 0), (0, 1), (1, 1), (3, 2), (2, 3), (0, 4), (4, 0):
        texts, of = fan(values, patterns)
        for (i, packet), (j, key) in product(enumerate(texts), repeat=2):
            what, good = f"{values} ValueEdges and {patterns} PatternEdges, {packet} by {key}", j in (0, i)
            yield what, sign(of, name(packet), name(key)), allowed(i + 1, j + 1, i, j) if good else NOT_ALLOWED
            yield from followed(what, of, name(packet), name(key), [i, j], good)
            # the ordinal within its kind
            in_kind = [n - values if n >= values else n for n in (i, j)]
            if in_kind != [i, j]:
                yield from followed(what, of, name(packet), name(key), in_kind, False)


def all_words():
    """Two edges of each kind: of all paths of two words the right one alone is accepted."""
    texts, of = fan(2, 2)
    for (i, packet), (j, key) in product(enumerate(texts), repeat=2):
        for words in product(range(5), repeat=2):
            good = words == (i, j) and j in (0, i)
            yield from followed(f"{packet} by {key}", of, name(packet), name(key), list(words), good)


def wide():
    """As many edges as a Node can have, since each leads to another: 245 ValueEdges and 10 PatternEdges."""
    each = [component(bytes([i])) for i in range(256)]

    def of_edge(i):
        return name(each[i])

    edges = [value_edge(i + 1, each[i]) for i in range(245)] + [pattern_edge(i + 1, 1, must_be(each[i])) for i in range(245, 255)]
    several = (0, 1, 2, 127, 128, 129, 243, 244, 245, 246, 253, 254)
    by = {i: {1, 255 - i} for i in several} | {0: {i + 1 for i in several}}  # edge i's Node lists these
    of = model(node(0, *edges), *(node(i + 1, parent(0), *map(signer, sorted(by.get(i, ())))) for i in range(255)))
    for i in several:
        j = 254 - i
        yield f"edge {i} by edge {j}", sign(of, of_edge(i), of_edge(j)), allowed(i + 1, j + 1, i, j)
        yield from followed(f"edge {i} by edge {j}", of, of_edge(i), of_edge(j), [i, j], True)
        yield from followed(f"edge {i} by edge {j}", of, of_edge(i), of_edge(j), [j, i], i == j)
        # other words with the same low byte, or with the bytes exchanged
        for other in sorted({i + 256, i + 65536 - 512, i << 8, 255, 65535} - {i}):
            yield from followed(f"edge {i}, and edge 0", of, of_edge(i), of_edge(0), [other, 0], False)
            yield from followed(f"edge 0, and edge {i}", of, of_edge(0), of_edge(i), [0, other], False)
    yield "no edge", sign(of, of_edge(255), of_edge(0)), NOT_ALLOWED
    yield from none_accepted("no edge", of, of_edge(255), of_edge(0), ([255, 0], [254, 0], [256, 0]))


def widest():
    """253 equal ValueEdges for a component of no bytes, one for a, and a PatternEdge for any: each to another Node."""
    edges = [value_edge(i, "") for i in range(1, 254)] + [value_edge(254, "a"), pattern_edge(255, 1)]
    # each Node is listed by the last, and lists the first and the last two
    ends = [signer(i) for i in (1, 254, 255)]
    of = model(node(0, *edges), *(node(i, parent(0), *ends) for i in range(1, 255)), node(255, parent(0), *map(signer, range(1, 256))))
    for packet, key, words in ("", "", (0, 0)), ("a", "a", (253, 253)), ("a", "b", (253, 254)), ("b", "", (254, 0)), ("", "a", (0, 253)):
        yield f"{packet!r} by {key!r}", sign(of, name(packet), name(key)), allowed(words[0] + 1, words[1] + 1, *words)
        yield from followed(f"{packet!r} by {key!r}", of, name(packet), name(key), words, True)
    goods = (1, True), (127, True), (128, True), (252, True), (253, False), (254, True), (255, False), (256, False), (65535, False)
    for word, good in goods:
        yield from followed("no bytes by a", of, name(""), SLASH_A, [word, 253], good)
        yield from followed("a by no bytes", of, SLASH_A, name(""), [254, word], good)


def optional():
    """Optional elements are no edges, wherever they stand; critical ones are refused."""
    texts, of = fan(2, 2)
    spares = [bytes.fromhex(spare) for spare in OPTIONAL]
    # what looks like an edge in an optional element's inside is none
    spares += [element(0x80, value_edge(1, "v1")), element(0x54, pattern_edge(1, 1)), element(0x52, value_edge(1, "p1")) * 3]
    several = [(f"{spare.hex()} in every gap", put_everywhere(of, spare)) for spare in spares]
    gap_count = len(list(put_in(of, b"")))
    for i in range(gap_count):
        spare = spares[i % len(spares)]
        several.append((f"{spare.hex()} in gap {i}", list(put_in(of, spare))[i]))
    for i, (what, spread) in enumerate(several):
        at = i % 4
        each = name(texts[at])
        yield f"{what}, {texts[at]}", sign(spread, each, each), allowed(at + 1, at + 1, at, at)
        yield from followed(f"{what}, p1 by v0", spread, name("p1"), name("v0"), [3, 0], True)
        yield from followed(f"{what}, p1 by v0", spread, name("p1"), name("v0"), [4, 0], False)
    for i in range(gap_count):
        spare = faulty(bytes.fromhex(CRITICAL[i % len(CRITICAL)]))
        bad = list(put_in(of, spare))[i]
        yield f"{spare.hex()} in gap {i}", sign(bad, name("v0"), name("v0"), [7], [8, 9]), both_kept(refused_at(bad), [7], [8, 9])
        for size in (2, 3):
            yield f"{spare.hex()} in gap {i}, path of {size}", follow(bad, name("v0"), name("v0"), [0] * size), refused_at(bad)


def other_elements():
    """RuleNames, a Parent and signers are no edges."""
    named = model(
        node(0, rule_name("#a"), rule_name("#b"), value_edge(1, "v"), pattern_edge(2, 1, must_be("p")), signer(0), signer(1)),
        node(1, parent(0), rule_name("#c"), value_edge(3, "v"), pattern_edge(4, 1), signer(0)),
        node(2, parent(0), rule_name("#c"), value_edge(5, "v"), pattern_edge(6, 1), signer(0), signer(1)),
        *(node(i, parent((i - 1) // 2), rule_name("#d"), rule_name("#e"), signer(1), signer(5)) for i in (3, 4, 5, 6)),
    )
    vw, pv = path("/v/w"), path("/p/v")
    yield "RuleNames, Parents and signers", sign(named, vw, pv), allowed(4, 5, 0, 1, 1, 0)
    yield from followed("RuleNames, Parents and signers", named, vw, pv, [0, 1, 1, 0], True)
    yield from followed("RuleNames, Parents and signers", named, vw, pv, [2, 1, 3, 0], False)


# the first pair, and others

# Node 0 has "z", "k" and four patterns, which are its edges 2 to 5
SEARCH = tree(
    ["z", ()],  # 1
    [(1,), "y", ()],  # 2, 3
    [(1,), (2,), "c", ()],  # 4, 5: the first match of /a/b/c, without a signer
    [(2,), "b", "d", (22,)],  # 6, 7, 8
    [(3,), "b", "z", ()],  # 9, 10, 11
    [(3,), "b", (1,), (19,)],  # 12: the second match
    [(4,), (1, must_be("x")), ()],  # 13, 14
    [(4,), (1,), (1,), (22,)],  # 15, 16: the third
    ["k", (1,), "n", ()],  # 17, 18, 19
    ["k", (2,), "m", ()],  # 20, 21
    ["k", (2,), (3,), ()],  # 22
    patterns=0,
)


def search():
    """The path is that of the first pair, and nothing of a branch or a match that was left before it; other pairs are accepted too."""
    to = {5: [2, 1, 0], 8: [3, 0, 0], 12: [4, 0, 1], 16: [5, 1, 0], 19: [1, 0, 0], 21: [1, 1, 0], 22: [1, 1, 1]}  # edges to a Node
    keys = {"/k/u/v": (22,), "/k/u/n": (19, 22), "/k/u/m": (21, 22), "/k/n/n": (19, 22)}  # the key's matches
    listed = {(8, 22), (12, 19), (16, 22)}
    for packet, ends in ("/a/b/c", (5, 12, 16)), ("/a/b/d", (8, 12, 16)):
        for key, key_ends in keys.items():
            pairs = [pair for pair in product(ends, key_ends) if pair in listed]
            first, what = pairs[0], f"{packet} by {key}"
            yield what, sign(SEARCH, path(packet), path(key)), allowed(*first, *to[first[0]], *to[first[1]])
            for at, by in product(to, repeat=2):
                yield from followed(what, SEARCH, path(packet), path(key), to[at] + to[by], (at, by) in pairs)
    for packet, key, line in (
        ("/a/b/c", "/k/u/v", allowed(16, 22, 5, 1, 0, 1, 1, 1)),
        ("/a/b/c", "/k/u/n", allowed(12, 19, 4, 0, 1, 1, 0, 0)),
        ("/a/b/d", "/k/u/n", allowed(8, 22, 3, 0, 0, 1, 1, 1)),
    ):
        yield f"{packet} by {key}, by hand", sign(SEARCH, path(packet), path(key)), line
    # a search that finds nothing writes nothing
    for packet, key in ("/a/b/c", "/k/u"), ("/a/b/c", "/z/u/v"), ("/a/e/c", "/k/u"), ("/z", "/k/u/v"), ("/a/b", "/k/u/v"):
        yield f"{packet} by {key}", sign(SEARCH, path(packet), path(key)), NOT_ALLOWED


def signers():
    """/a leads to Node 1 by value and to Node 2 by pattern, /b by pattern alone; with each choice of the pairs that are listed."""
    every = list(product((1, 2), repeat=2))
    for choice in product((False, True), repeat=4):
        listed = [pair for pair, holds in zip(every, choice) if holds]
        second, third = (node(p, parent(0), *(signer(k) for q, k in listed if q == p)) for p in (1, 2))
        of = model(node(0, value_edge(1, "a"), pattern_edge(2, 1)), second, third, patterns=1)
        # by pattern the packet binds a, so that b is then no key
        for key, pairs in (SLASH_A, listed), (SLASH_B, [pair for pair in listed if pair == (1, 2)]):
            what, line = f"{listed} listed, /a by {key[-1:].decode()}", NOT_ALLOWED
            if pairs:
                tags = [[None, 1][n - 1] for n in pairs[0]]
                line = allowed(*pairs[0], *(n - 1 for n in pairs[0]), **pair_bindings(SLASH_A, tags[:1], key, tags[1:]))
            yield what, sign(of, SLASH_A, key), line
            for p, k in every:
                yield from followed(what, of, SLASH_A, key, [p - 1, k - 1], (p, k) in pairs)
    # by which Node it is signed, not by whom that is signed
    of = tree(["p", (2,)], ["k", (3,)], ["r", ()])
    for (i, packet), (j, key) in product(enumerate("pkr"), repeat=2):
        yield from followed(f"{packet} by {key}", of, name(packet), name(key), [i, j], (i, j) in ((0, 1), (1, 2)))
    # one of many, wherever it stands
    for i in (2, 20, 39):
        many = [1] * 40
        many[i] = 3
        of = tree(["p", many], ["q", ()], ["k", ()])
        yield f"signer {i} of 40", sign(of, path("/p"), path("/k")), allowed(1, 3, 0, 2)
        yield from followed(f"signer {i} of 40", of, path("/p"), path("/k"), [0, 2], True)
        yield from followed(f"signer {i} of 40, /p by /q", of, path("/p"), path("/q"), [0, 1], False)


def equal_edges():
    """Edges that take the same component, to different Nodes: the first is written, and each is accepted that leads to a signer."""
    edges = value_edge(1, "a"), value_edge(2, "a"), value_edge(3, "a"), pattern_edge(4, 1), pattern_edge(5, 2, must_be("b"))
    good = [signer(i) for i in (1, 2, 4, 5)]
    nodes = [node(i, parent(0), *(good if i != 3 else ())) for i in range(1, 6)]
    of = model(node(0, *edges), *nodes, patterns=2)
    yield "equal edges", sign(of, SLASH_A, SLASH_A), allowed(1, 1, 0, 0)
    for words in product(range(6), repeat=2):
        yield from followed("equal edges", of, SLASH_A, SLASH_A, list(words), set(words) <= {0, 1, 3})


def reached(words, edges):
    """The Node of full_tree at the end of these edges."""
    at = 0
    for word in words:
        at = edges * at + 1 + word
    return at


def full_tree(edges, depth, signers, patterns=0):
    """Each Node has all edges down to this depth, so that every path leads to a Node of its own. All list the same signers.

    `edges` makes them: the first leads to the Node that it is given, the next to the next.
    """
    size = len(edges(0))
    inner = sum(size**i for i in range(depth))

    def one(n):
        up, down = [parent((n - 1) // size)] if n else [], edges(size * n + 1) if n < inner else []
        return node(n, *up, *down, *map(signer, signers))

    return model(*map(one, range(inner + size**depth)), patterns=patterns)


def choices():
    """Five edges at the start, and at each Node behind them: a path is good where each edge takes its component. Nodes 1 to 5 may sign all."""
    takes = "a", "b", "ab", "abc", ""

    def edges(to):
        values = value_edge(to, "a"), value_edge(to + 1, "b")
        return *values, pattern_edge(to + 2, 1, must_be("a", "b")), pattern_edge(to + 3, 2), pattern_edge(to + 4, 3, constraint())

    of = full_tree(edges, 2, range(1, 6))
    for packet, key, most in ("ab", "a", 6), ("ca", "b", 5), ("cc", "c", 5):
        good = [words for words in product(range(5), repeat=3) if all(c in takes[word] for c, word in zip(packet + key, words))]
        what = f"/{packet[0]}/{packet[1]} by /{key}"
        ends = reached(good[0][:2], 5), reached(good[0][2:], 5)
        yield what, sign(of, name(*packet), name(key)), allowed(*ends, *good[0])
        for words in product(range(most), repeat=3):
            yield from followed(what, of, name(*packet), name(key), list(words), words in good)


# bindings and Constraints


def agree(components, words, named):
    """Edge 0 takes an a. Edges 1 and 2 have Tags 1 and 2: all components of a named Tag are the same."""
    values = all(c == "a" for c, word in zip(components, words) if word == 0)
    tags = all(len({c for c, word in zip(components, words) if word == n}) < 2 for n in (1, 2) if n <= named)
    return values and tags


def tags():
    """A ValueEdge for a, and Tags 1 and 2, at the start and at each Node behind it, with both, one or none of the Tags named: all paths."""

    def edges(to):
        return value_edge(to, "a"), pattern_edge(to + 1, 1), pattern_edge(to + 2, 2)

    several = list(product(range(3), repeat=4))
    for named in (0, 1, 2):
        of = full_tree(edges, 2, range(4, 13), patterns=named)
        for packet, key in ("ab", "ba"), ("aa", "ab"), ("bc", "cd"):
            good = [words for words in several if agree(packet + key, words, named)]
            what, line = f"/{'/'.join(packet)} by /{'/'.join(key)}, {named} Tags named", NOT_ALLOWED
            if good:
                crossed = [word or None for word in good[0]]  # the Tag of each edge
                ends = reached(good[0][:2], 3), reached(good[0][2:], 3)
                line = allowed(*ends, *good[0], **pair_bindings(name(*packet), crossed[:2], name(*key), crossed[2:], named))
            yield what, sign(of, name(*packet), name(*key)), line
            for words in several:
                yield from followed(what, of, name(*packet), name(*key), list(words), words in good)


def carried():
    """What the packet bound is there for the key, and what the key bound is not there for the packet."""
    for named, of_pair in (1, B), (0, temporary.with_count(B, 0)):
        for key in SLASH_A, SLASH_B, name(component("a", 9)), name(""), path("/aa"):
            yield from followed(f"B, {named} named, /a by {key.hex()}", of_pair, SLASH_A, key, [0, 0], key == SLASH_A or not named)
    for named in (0, 1):
        free = not named
        # /p/ID is signed by /k/ID/ID
        of = tree(["p", (1,), (5,)], ["k", (1,), (1,), ()], patterns=named)
        for key in "aa", "ab", "ba", "bb":
            what = f"/p/a by /k/{key[0]}/{key[1]}, {named} named"
            yield from followed(what, of, path("/p/a"), name("k", *key), [0, 0, 1, 0, 0], free or key == "aa")
        # /ID/ID is signed by /k/OTHER/OTHER
        of = tree([(1,), (1,), (5,)], ["k", (2,), (2,), ()], patterns=2 * named)
        for packet, key in product(("aa", "ab"), ("bb", "bc")):
            holds = free or packet[0] == packet[1] and key[0] == key[1]
            what = f"/{packet[0]}/{packet[1]} by /k/{key[0]}/{key[1]}, {2 * named} named"
            yield from followed(what, of, name(*packet), name("k", *key), [1, 0, 0, 0, 0], holds)
        # the packet asks for a Tag that the key alone would bind
        of = tree([(1, constraint(option(tag(2)))), (3,)], ["k", (2,), ()], patterns=2 * named)
        yield from followed(f"the key's Tag in the packet, {2 * named} named", of, SLASH_A, path("/k/a"), [1, 0, 0], False)
        # one that it binds itself, later
        of = tree([(1, constraint(option(tag(2)))), (2,), (2,)], patterns=2 * named)
        yield from followed(f"a later Tag, {2 * named} named", of, path("/a/a"), path("/a/a"), [0, 0, 0, 0], False)
    # a Tag keeps its first component, though a later edge of its path takes others
    of = tree([(1,), (2,), (1,), (3,)])
    for packet, key, holds in ("aba", "aba", True), ("abb", "abb", False), ("aba", "bab", False), ("aba", "aca", False), ("aaa", "aaa", True):
        yield from followed(f"Tags 1, 2 and 1, {packet} by {key}", of, name(*packet), name(*key), [0] * 6, holds)


def term(held):
    return constraint(option(held))


A_OR_B, YEAR = must_be("a", "b"), term(call("$isValidYear"))
HELD = (  # the Constraints of Tag 1's edge, and the components that cross it where Tag 1 is not bound
    ("none", (), ("a", "b", "2026")),
    ("a Value", (must_be("a"),), ("a",)),
    ("two options", (A_OR_B,), ("a", "b")),
    ("two Constraints", (A_OR_B, must_be("b", "c")), ("b",)),
    ("two that exclude each other", (must_be("a"), must_be("b")), ()),
    ("no options", (constraint(),), ()),
    ("no options, behind one that holds", (A_OR_B, constraint()), ()),
    ("its own Tag", (term(tag(1)),), ()),
    ("its own Tag, or a Value", (constraint(option(tag(1)), option(value("b"))),), ("b",)),
    ("another Tag", (term(tag(2)),), ()),
    ("$eq of a Value", (term(call("$eq", value("b"))),), ("b",)),
    ("$eq of its own Tag", (term(call("$eq", tag(1))),), ()),
    ("$eq_type of a Value", (term(call("$eq_type", value("x"))),), ("a", "b", "2026")),
    ("$eq_type of another type", (term(call("$eq_type", value(component("a", 9)))),), ()),
    ("$eq_type of its own Tag", (term(call("$eq_type", tag(1))),), ()),
    ("$isValidYear", (YEAR,), ("2026",)),
    ("$isValidYear and a Value", (YEAR, A_OR_B), ()),
    ("$isValidID", (term(call("$isValidID")),), ()),
)
LATER = (  # those of another edge behind it, and what crosses that where Tag 1 is bound to a, and where it is not
    ("Tag 1", term(tag(1)), ("a",), ()),
    ("$eq of Tag 1", term(call("$eq", tag(1))), ("a",), ()),
    ("$eq_type of Tag 1", term(call("$eq_type", tag(1))), ("a", "b"), ()),
    ("Tag 1 or b", constraint(option(tag(1)), option(value("b"))), ("a", "b"), ("b",)),
    ("b", must_be("b"), ("b",), ("b",)),
)


def constraints():
    """Constraints on the way, of the packet's edges and of the key's."""
    for what, held, good in HELD:
        for each in ("a", "b", "2026"):
            itself = tree([(1, *held), (1,)], patterns=2)
            yield from followed(f"{what}: {each} by itself", itself, name(each), name(each), [0, 0], each in good)
            # in one of the names alone
            by_key = tree([(1, *held), (2,)], ["k", ()], patterns=2)
            yield from followed(f"{what}: {each} by k", by_key, name(each), path("/k"), [1, 0], each in good)
            in_key = tree(["p", (2,)], [(1, *held), ()], patterns=2)
            yield from followed(f"{what}: p by {each}", in_key, path("/p"), name(each), [0, 1], each in good)
    for what, held, bound, unbound in LATER:
        for each, named in product(("a", "b"), (0, 1, 2)):
            holds = each in (bound if named else unbound)
            of = tree([(1,), (2, held), (3,)], ["k", ()], patterns=named)
            yield from followed(f"{what}: /a/{each} by /k, {named} named", of, name("a", each), path("/k"), [1, 0, 0], holds)
            of = tree(["p", (1,), (3,)], [(2, held), ()], patterns=named)
            yield from followed(f"{what}: /p/a by /{each}, {named} named", of, path("/p/a"), name(each), [0, 0, 1], holds)
            # the same Tag again, so that the component has to be its own as well
            of = tree(["p", (1,), (3,)], [(1, held), ()], patterns=named)
            holds = each in (bound if named else unbound) and (each == "a" or not named)
            yield from followed(f"{what}, of Tag 1 itself: /p/a by /{each}, {named} named", of, path("/p/a"), name(each), [0, 0, 1], holds)


# the length of a path, and single words


def lengths():
    """One word for each component, no fewer and no more."""
    for n, m in (0, 0), (0, 1), (1, 0), (1, 1), (2, 1), (5, 32), (31, 1), (32, 0), (32, 1), (31, 32), (32, 32):
        what, names, right = f"{n} and {m} components", (a_name(n), a_name(m)), rungs(n, m)
        yield from followed(what, LADDER, *names, right, True)
        others = [right + [word] for word in (0, 1, rung(m), rung(n), 65535)] + [right + [0, 0], right + right, right + rungs(32)]
        others += [right[:-1], right[:-2], right[1:], [], rungs(n), rungs(m), rungs(m, n), right + [0] * (2048 - len(right))]
        for words in others:
            if len(words) != len(right):
                yield from followed(f"{what}, {len(words)} words", LADDER, *names, words, False)
    # as many words as components, but not so that each name has its own
    yield from followed("2 and 1 components", LADDER, a_name(2), a_name(1), rungs(1, 2), False)
    yield from followed("1 and 32 components", LADDER, a_name(1), a_name(32), rungs(32, 1), False)
    yield from followed("the path of names of other lengths", LADDER, a_name(1), a_name(32), rungs(33), False)


def single_words():
    """Each word of a path that is the only one: the next is no edge of that Node, and the one before is an edge for b."""
    for n, m in (32, 32), (5, 1), (1, 0), (0, 1):
        right = rungs(n, m)
        for i, word in enumerate(right):
            for other in (*range(word)[-1:], word + 1, word + 256, 65535):
                yield from followed(f"{n} and {m} components, word {i}", LADDER, a_name(n), a_name(m), changed(right, i, other), False)
    # where a Node has no edges no word is one
    for words in ([0, 0, 0], [0, 1, 0], [0, 65535, 0]):
        yield from followed("B, /a/b by /a", B, AB, SLASH_A, words, False)
        yield from followed("B, /a by /a/b", B, SLASH_A, AB, words[::-1], False)


def empty_names():
    """No component, no word: the start has to list itself."""
    listing = model(node(0, value_edge(1, "a"), signer(0), signer(1)), node(1, parent(0), signer(0)))
    for packet, key, found in (EMPTY, EMPTY, (0, 0)), (EMPTY, SLASH_A, (0, 1, 0)), (SLASH_A, EMPTY, (1, 0, 0)), (SLASH_A, SLASH_A, None):
        what, need = f"{packet.hex()} by {key.hex()}", count(packet, key)
        for size in range(need, need + 4):
            line = allowed(*found, path_words=WORDS[:size]) if found else both_kept("not allowed", WORDS[:size])
            yield f"{what}, {size} words", sign(listing, packet, key, WORDS[:size]), line
        for size in range(4):
            yield from followed(what, listing, packet, key, [0] * size, found is not None and size == need)
        yield from none_accepted(what, listing, packet, key, ([1] * (need + 1), [65535], [0, 65535]))
    # from another Node than the first
    second = model(
        node(0, value_edge(2, "a"), signer(0)),
        node(1, value_edge(3, "b"), signer(1)),
        node(2, parent(0), value_edge(4, "b"), signer(1)),
        node(3, parent(1), signer(1)),
        node(4, parent(2), signer(1)),
        start=1,
    )
    yield "the start is Node 1", sign(second, EMPTY, EMPTY, []), allowed(1, 1, path_words=[])
    yield "the start is Node 1, /b by the empty name", sign(second, SLASH_B, EMPTY, [7]), allowed(3, 1, 0, path_words=[7])
    for packet, key, words, holds in (
        (EMPTY, EMPTY, [], True),
        (SLASH_B, EMPTY, [0], True),
        (SLASH_A, EMPTY, [0], False),
        (AB, EMPTY, [0, 0], False),
        (EMPTY, SLASH_B, [0], False),
    ):
        yield from followed(f"the start is Node 1, {packet.hex()} by {key.hex()}", second, packet, key, words, holds)
    yield from none_accepted("A, empty names", A, EMPTY, EMPTY, ([], [0]))


# the signing cases of the other tables


def edges_of(case, line):
    """The path that an allowed case's line gives, behind its binding words."""
    _, packet, key, words, _ = fields(case)
    first = 3 + len(words) // 4
    return [int(word) for word in line.split()[first : first + count(packet, key)]]


def in_other_tables():
    """(what, case, its line, how many words of its path are to be changed, with 0 for all). Following does not refuse with 27 or 34."""
    for table, several in (bench, 0), (limits, 2), (refusals, 2), (gaps, 1), (document_003, 0), (walks, 0), (temporary, 1):
        for what, case, line in table.cases():
            if case[:1] == b"S" and not line.startswith(("refused 27 ", "refused 34 ")):
                yield what, case, line, several


def other_tables():
    """An allowed pair's path is accepted, and no longer with a word that is no edge, or a word more or less; for other pairs none is."""
    for i, (what, case, line, several) in enumerate(in_other_tables()):
        of, packet, key, *_ = fields(case)
        if line.startswith("refused"):
            answer = " ".join(line.split()[:3])
            yield what, follow(of, packet, key, [0] * (i % 5)), answer
        elif line.startswith("not"):
            yield from none_accepted(what, of, packet, key, [[i % 2] * count(packet, key)])
        else:
            right = edges_of(case, line)
            yield from followed(what, of, packet, key, right, True)
            places = sorted({(i + j) % len(right) for j in range(several or len(right))}) if right else ()
            for j in places:
                # no Node of these tables has 256 edges
                yield from followed(f"{what}, word {j}", of, packet, key, changed(right, j, (right[j] + 256, 65535)[i % 2]), False)
            if not several:
                yield from none_accepted(what, of, packet, key, ([*right, 0], [*right, *right, 1], right[:-1] if right else [0, 0]))


# paths for the names of cases in walks.py and document_003.py, each a digit for each word: of branches that were left, of other pairs

NOT_FIRST = {
    "slip 1: the same in both names": {"0010": "no", "1000": "no", "2010": "no", "1011": "no"},
    "slip 1: the packet's first match": {"1000": "no", "2010": "no", "2001": "no"},
    "slip 1: in the key's walk": {"10010": "no", "20000": "no", "20011": "no"},
    "slip 2: the first match binds otherwise": {"2000": "no", "1000": "accepted"},
    "slip 2: only the second match's bindings fit": {"1000": "no", "2000": "accepted"},
    "slip 2: the key's second match": {"010": "no", "120": "no", "220": "no"},
    "slip 2: no match fits": {"1000": "no", "2000": "no"},
    "the pattern branch": {"0011": "no", "2010": "no", "2021": "no"},
    "a later key branch": {"0011": "no", "2010": "no"},
    "the first match's key": {"31": "no", "03": "no"},
    "the second match's key": {"02": "no", "33": "no", "03": "no"},
    "the key's first match": {"02": "accepted", "21": "no", "22": "no"},
    "the post's author": {"00020": "no", "10010": "no"},
    "another author": {"00010": "no"},
    "any admin": {"000100": "no", "000200": "accepted"},
    "tutorial, check 4": {"0020000000100000": "accepted", "0030000000100000": "accepted", "0010000000100000": "no"},
    "tutorial, check 6": {"0020000000100000": "no", "0030000000100000": "accepted"},
    "tutorial, check 7": {"00400000200000": "accepted", "00400000300000": "no", "0040000020000": "no", "00400000020000": "no"},
    "tutorial, check 8": {"00400000200000": "no"},
    "quick example, check 1": {"00100000300000": "accepted", "00100000200000": "no", "00300000300000": "no"},
}


def by_hand():
    found = 0
    for what, case, _ in [*walks.cases(), *document_003.cases()]:
        if case[:1] == b"S" and what in NOT_FIRST:
            found += 1
            of, packet, key, *_ = fields(case)
            for digits, line in NOT_FIRST[what].items():
                yield f"{what}, path {digits}", follow(of, packet, key, list(map(int, digits))), line
    assert found == len(NOT_FIRST)


SIGNING = room, unsigned, names_first, models_first, kinds, wide, widest, optional, other_elements, search, signers, equal_edges, empty_names
FOLLOWING = all_words, choices, tags, carried, constraints, lengths, single_words, other_tables, by_hand


def cases():
    for part in SIGNING + FOLLOWING:
        yield from part()
