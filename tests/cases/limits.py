"""The limits (docs/format.md, 11): the largest that is accepted and the smallest that is refused, of each; integers of each size."""
from bench import A, B
from build import *

A_NAME = path("/a")


def all_three(what, of, answer):
    """A model that is refused is refused by all three calls, and the buffers are kept."""
    yield what, verdict(of), answer
    yield what, match(of, A_NAME, OLD), kept(answer)
    yield what, sign(of, A_NAME, A_NAME), both_kept(answer)


def star(count):
    """Node 0 has a ValueEdge to each other Node; the text is its number."""
    edges = [value_edge(i, str(i)) for i in range(1, count)]
    return model(node(0, *edges), *(node(i, parent(0), signer(i)) for i in range(1, count)))


def nodes():
    yield "256 Nodes", verdict(star(256)), "accepted 256"
    yield "256 Nodes: the last is reached", match(star(256), path("/255"), OLD), matched(255)
    yield "256 Nodes: the last signs", sign(star(256), path("/255"), path("/255")), allowed(255, 255, 254, 254)
    yield from all_three("257 Nodes", star(257), "refused 4 0")


def tags():
    """Tag 128 is the last, whatever holds it: its words are the last three of 384."""

    def with_edge(n, *constraints, **rest):
        return model(node(0, pattern_edge(1, n, *constraints)), node(1, parent(0), signer(1)), patterns=128, **rest)

    def on_edge(n):
        return with_edge(n)

    def in_option(n):
        return with_edge(1, constraint(option(tag(n)), option(value("a"))))

    def in_argument(n):
        return with_edge(1, constraint(option(call("$eq", tag(n))), option(value("a"))))

    def in_symbol(n):
        return with_edge(1, behind=symbol(n, "last"))

    for where, of, bound in (
        ("an edge", on_edge, 128),
        ("an option", in_option, 1),
        ("an argument", in_argument, 1),
        ("a TagSymbol", in_symbol, 1),
    ):
        yield f"Tag 128 in {where}", verdict(of(128)), "accepted 2"
        yield f"Tag 128 in {where}", match(of(128), A_NAME, OLD), matched(1, (bound, 2, 3))
        yield f"Tag 128 in {where}", sign(of(128), A_NAME, A_NAME), allowed(1, 1, 0, 0, packet=[(bound, 2, 3)])
        for n in (0, 129, 256 + 1, (1 << 32) + 1):
            yield from all_three(f"Tag {n} in {where}", of(n), "refused 5 0")


def chain(count):
    """So many Nodes, each with an edge for a to the next. Each lists the first and the last two."""

    def one(i):
        up, down = [parent(i - 1)] if i else [], [value_edge(i + 1, "a")] if i + 1 < count else []
        return node(i, *up, *down, *map(signer, (0, count - 2, count - 1)))

    return model(*map(one, range(count)))


CHAIN = chain(34)  # 33 components lead to its last Node, and a name may not have so many


def components():
    def a_name(count):
        return name(*["a"] * count)

    room = list(range(300, 370))  # room for two names of 33 components, and four more
    yield "32 components", match(CHAIN, a_name(32), OLD), matched(32)
    yield "31 components", match(CHAIN, a_name(31), OLD), matched(31)
    yield "33 components", match(CHAIN, a_name(33), OLD), kept("refused 23 0")
    yield "32 and 32 components", sign(CHAIN, a_name(32), a_name(32), room), allowed(32, 32, *[0] * 64, path_words=room)
    yield "32 components and none", sign(CHAIN, a_name(32), a_name(0), room), allowed(32, 0, *[0] * 32, path_words=room)
    yield "no component and 32", sign(CHAIN, a_name(0), a_name(32), room), allowed(0, 32, *[0] * 32, path_words=room)
    yield "33 components in the packet name", sign(CHAIN, a_name(33), a_name(32), room), both_kept("refused 23 0", room)
    yield "33 components in the key name", sign(CHAIN, a_name(32), a_name(33), room), both_kept("refused 26 0", room)
    yield "33 in both", sign(CHAIN, a_name(33), a_name(33), room), both_kept("refused 23 0", room)
    # malformed is tested before the number of components
    yield "33 components and a broken one", match(CHAIN, name(*["a"] * 33, b"\x08"), OLD), kept("refused 22 0")
    yield "the same in the key name", sign(CHAIN, a_name(1), name(*["a"] * 33, b"\x08")), both_kept("refused 25 0")
    # one Node fewer: the last of 32 components has no edge
    yield "32 components, 32 Nodes", match(chain(32), a_name(32), OLD), kept("no match")
    yield "256 Nodes in a chain", verdict(chain(256)), "accepted 256"
    yield "256 Nodes in a chain, 32 components", match(chain(256), a_name(32), OLD), matched(32)


def words():
    """384 binding words, three for each Tag: of a match, and of a signing call. Those behind them stay."""
    old, place = old_words(1024), (1, 2, 3)
    for size in (0, 1, 255, 256, 257, 382, 383):
        few = old[:size]
        yield f"{size} words", match(B, A_NAME, few), kept("refused 27 0", few)
        yield f"{size} words to sign with", sign(B, A_NAME, A_NAME, words=few), both_kept("refused 27 0", words=few)
    for size in (384, 385, 386, 390, 1023, 1024):
        lent = old[:size]
        yield f"{size} words", match(B, A_NAME, lent), matched(1, place, behind=lent[384:])
        yield f"{size} words, no match", match(A, A_NAME, lent), kept("no match", lent)
        yield f"{size} words to sign with", sign(B, A_NAME, A_NAME, words=lent), allowed(1, 1, 0, 0, packet=[place], words=lent)
        yield f"{size} words, not allowed", sign(A, A_NAME, A_NAME, words=lent), both_kept("not allowed", words=lent)
    # the model and the names are tested before the buffer, the path behind it; the walk comes last
    for size in (256, 383):
        few = old[:size]
        yield f"{size} words and no match", match(A, A_NAME, few), kept("refused 27 0", few)
        yield f"{size} words and a malformed name", match(B, b"", few), kept("refused 22 0", few)
        yield f"{size} words and a malformed model", match(B[:-1], A_NAME, few), kept("refused 2 25", few)
        yield f"{size} words and not allowed", sign(A, A_NAME, A_NAME, words=few), both_kept("refused 27 0", words=few)
        yield f"{size} words and a malformed packet name", sign(B, b"", A_NAME, words=few), both_kept("refused 22 0", words=few)
        yield f"{size} words and a malformed key name", sign(B, A_NAME, b"", words=few), both_kept("refused 25 0", words=few)
        yield f"{size} words and a malformed model to sign by", sign(B[:-1], A_NAME, A_NAME, words=few), both_kept("refused 2 25", words=few)
        yield f"{size} words and a path of 1", sign(B, A_NAME, A_NAME, [7], few), both_kept("refused 27 0", [7], few)
    yield "384 words and a path of 1", sign(B, A_NAME, A_NAME, [7]), both_kept("refused 34 0", [7])


def model_bytes():
    yield "32,768 bytes", verdict(padded(B, 32768)), "accepted 2"
    yield "32,768 bytes", match(padded(B, 32768), A_NAME, OLD), matched(1, (1, 2, 3))
    yield "32,768 bytes", sign(padded(B, 32768), A_NAME, A_NAME), allowed(1, 1, 0, 0, packet=[(1, 2, 3)])
    yield from all_three("32,769 bytes", padded(B, 32769), "refused 1 0")
    # 1 is tested before 2
    yield "32,768 malformed bytes", verdict(bytes(32768)), "refused 2 0"
    yield "32,769 malformed bytes", verdict(bytes(32769)), "refused 1 0"
    yield "65,536 bytes, the driver's limit", verdict(bytes(65536)), "refused 1 0"


def name_bytes():
    # one component: 4 bytes for the name's type and length, and 4 for the component's
    longest, longer = name("x" * 1016), name("x" * 1017)
    assert len(longest) == 1024 and len(longer) == 1025
    yield "a name of 1,024 bytes", match(B, longest, OLD), matched(1, (1, 4, 1020))
    yield "a name of 1,025 bytes", match(B, longer, OLD), kept("refused 21 0")
    yield "packet and key of 1,024 bytes", sign(B, longest, longest), allowed(1, 1, 0, 0, packet=[(1, 4, 1020)])
    yield "a packet name of 1,025 bytes", sign(B, longer, longest), both_kept("refused 21 0")
    yield "a key name of 1,025 bytes", sign(B, longest, longer), both_kept("refused 24 0")
    yield "both", sign(B, longer, longer), both_kept("refused 21 0")
    # the length is tested before anything is read
    yield "1,024 bytes of noise", match(B, bytes(1024), OLD), kept("refused 22 0")
    yield "1,025 bytes of noise", match(B, bytes(1025), OLD), kept("refused 21 0")
    yield "1,025 bytes of noise as a key", sign(B, longest, bytes(1025)), both_kept("refused 24 0")
    yield "a malformed packet name and a long key name", sign(B, b"", longer), both_kept("refused 22 0")
    yield "4,096 bytes, the driver's limit", match(B, bytes(4096), OLD), kept("refused 21 0")


def sized(size, *, start=0, first=0, to=1, n=1, second=1, up=0, by=1, patterns=1):
    """Model B with every integer in `size` bytes."""

    def of(typ, value):
        return integer(typ, value, size)

    return (
        element(VERSION, bytes.fromhex("00011000"))
        + of(NODE_ID, start)
        + of(PATTERN_COUNT, patterns)
        + element(NODE, of(NODE_ID, first), element(PATTERN_EDGE, of(NODE_ID, to), of(TAG, n)))
        + element(NODE, of(NODE_ID, second), of(PARENT, up), of(SIGNER, by))
    )


def integers():
    for size in (1, 2, 4, 8):
        yield f"integers of {size} bytes", verdict(sized(size)), "accepted 2"
        yield f"integers of {size} bytes", match(sized(size), A_NAME, OLD), matched(1, (1, 2, 3))
        yield f"integers of {size} bytes", sign(sized(size), A_NAME, A_NAME), allowed(1, 1, 0, 0, packet=[(1, 2, 3)])
    for size in (3, 5, 6, 7, 9):
        yield f"integers of {size} bytes", verdict(sized(size)), "refused 2 6"  # StartId is the first
    # no bit of a large integer is lost
    large = 1 << 32
    yield "NamedPatternCnt has no limit", verdict(sized(8, patterns=2**64 - 1)), "accepted 2"
    yield "a large StartId", verdict(sized(8, start=large)), "refused 7 0"
    yield "a large first NodeId", verdict(sized(8, first=large)), "refused 6 0"
    yield "a large second NodeId", verdict(sized(8, second=large + 1)), "refused 6 1"
    yield "a large destination", verdict(sized(8, to=large + 1)), "refused 8 0"
    yield "a large Tag", verdict(sized(8, n=large + 1)), "refused 5 0"
    yield "a large Parent", verdict(sized(8, up=large)), "refused 11 0"
    yield "a large signer", verdict(sized(8, by=large + 1)), "refused 9 1"
    yield "the largest integers", verdict(sized(8, by=2**64 - 1)), "refused 9 1"


def cases():
    for part in nodes, tags, components, words, model_bytes, name_bytes, integers:
        yield from part()
