"""Which certificate to sign with: the first entry of a list that the signing answer allows, and refusals 33 and 32.

By model B, /a is signed by /a and by no other name, so that a list of /a and /b has its answer at the first /a.
"""
import document_003
import walks
from bench import A, B, EMPTY, SLASH_A, SLASH_B
from build import *
from document_003 import ADMIN_KEY, AUTHOR_KEY, QUICK, TUTORIAL
from gaps import FULL, PACKET, put_everywhere
from limits import CHAIN
from refusals import refused, with_faults

# at these no element can be cut off, whatever is behind them in a list of the driver
NOT_CUT = {
    "type 0": "00 00",
    "type 0 of a name's inside": "00 03 08 01 61",
    "type 2^32": "FF 00 00 00 01 00 00 00 00 00",
    "type 2^32 + 7": "FF 00 00 00 01 00 00 00 07 03 08 01 61",
    "type 2^64 - 1": "FF FF FF FF FF FF FF FF FF 00",
    "type 7 in 3 bytes": "FD 00 07 03 08 01 61",
    "type 7 in 5 bytes": "FE 00 00 00 07 03 08 01 61",
    "type 7 in 9 bytes": "FF 00 00 00 00 00 00 00 07 03 08 01 61",
    "type 253 in 5 bytes": "FE 00 00 00 FD 00",
    "a length of 3 in 3 bytes": "07 FD 00 03 08 01 61",
    "a length of 3 in 5 bytes": "07 FE 00 00 00 03 08 01 61",
    "a length of 3 in 9 bytes": "07 FF 00 00 00 00 00 00 00 03 08 01 61",
    "a length of 0 in 3 bytes": "07 FD 00 00",
    "a length of 2^32": "07 FF 00 00 00 01 00 00 00 00",
    "a length of 2^32 + 3": "07 FF 00 00 00 01 00 00 00 03 08 01 61",
    "a length of 2^63": "07 FF 80 00 00 00 00 00 00 00",
    "a length of 2^64 - 1": "07 FF FF FF FF FF FF FF FF FF",
    "a length of 2^64 - 10, so that the end would be the start": "07 FF FF FF FF FF FF FF FF F6",
    "a length of 2^64 - 5, so that the end would be in the header": "07 FF FF FF FF FF FF FF FF FB",
}
# nor at these, where they end the list
CUT_SHORT = {
    "a type alone": "07",
    "a type of 3 bytes, cut": "FD 01",
    "a type of 5 bytes, cut": "FE",
    "a type of 9 bytes, cut": "FF 00 00 00 01",
    "a type of 3 bytes alone": "FD 01 00",
    "a length of 3 bytes, cut": "07 FD 01",
    "a length of 9 bytes, cut": "07 FF 00 00 00 01",
    "a header alone": "07 03",
    "one byte missing": "07 03 08 01",
    "one byte of another type missing": "80 01",
    "a length of 65,536": "07 FE 00 01 00 00",
}

# these are cut off, and are no key name
NO_KEY_NAMES = {
    "a component": component("a"),
    "an empty element of type 6": element(6, b""),
    "a certificate's data, type 6 with a name in it": element(6, SLASH_A),
    "type 1": element(1, component("a")),
    "type 253": element(253, component("a")),
    "type 263, which ends in 7": element(263, component("a")),
    "type 65,543, which ends in 7": element(65543, component("a")),
    "type 2^32 - 1": element(2**32 - 1, component("a")),
    "an optional type": element(0x80, b""),
    "a critical type": element(0x81, b""),
    "a cut component": element(NAME, b"\x08\x02a"),
    "a component of type 0": name(component("a", 0)),
    "a component of type 65,536": name(component("a", 65536)),
    "a component's type in 3 bytes": element(NAME, b"\xfd\x00\x08\x01a"),
    "a component's length in 3 bytes": element(NAME, b"\x08\xfd\x00\x01a"),
    "a byte behind the components": element(NAME, component("a"), b"\x00"),
    "33 components": name(*["a"] * 33),
    "33 components and a broken one": name(*["a"] * 33, b"\x08"),
    "1,025 bytes": name("a" * 1017),
    "1,025 bytes of noise": element(NAME, bytes(1021)),
    "1,025 bytes of another type": element(8, bytes(1021)),
    "5,000 bytes": name("a" * 5000),
}


def certificate(i):
    return f"certificate {i}"


def bad_entry(i):
    return f"refused 32 {i}"


TOO_MANY = "refused 33 0"


def of_b(*entries):
    """A case of model B and packet /a."""
    return suggest(B, SLASH_A, *entries)


def many(count):
    """Entries that may not sign."""
    return [SLASH_B] * count


# how many entries, and which is the first


def counts():
    yield "no entry", of_b(), "none"
    yield "one that may not sign", of_b(SLASH_B), "none"
    yield "one that may sign", of_b(SLASH_A), certificate(0)
    for count in (2, 63, 64):
        yield f"{count} that may not sign", of_b(*many(count)), "none"
        yield f"{count} that may sign", of_b(*[SLASH_A] * count), certificate(0)
        yield f"{count}, the last may sign", of_b(*many(count - 1), SLASH_A), certificate(count - 1)
        yield f"{count}, the first may sign", of_b(SLASH_A, *many(count - 1)), certificate(0)
    yield "64 of two bytes", of_b(*[EMPTY] * 64), "none"
    for count in (65, 66, 128, 1000):
        yield f"{count} that may not sign", of_b(*many(count)), TOO_MANY
        yield f"{count} that may sign", of_b(*[SLASH_A] * count), TOO_MANY
    yield "65, the last may sign", of_b(*many(64), SLASH_A), TOO_MANY
    yield "65 of two bytes", of_b(*[EMPTY] * 65), TOO_MANY
    yield "32,768 of two bytes", of_b(*[EMPTY] * 32768), TOO_MANY


def places():
    """The first of several counts, wherever it is."""
    for i in (1, 7, 31, 32, 62):
        yield f"entry {i} of 64", of_b(*many(i), SLASH_A, *many(63 - i)), certificate(i)
        yield f"entries {i} and 63", of_b(*many(i), SLASH_A, *many(62 - i), SLASH_A), certificate(i)
    yield "two that are next to each other", of_b(SLASH_B, SLASH_A, SLASH_A), certificate(1)
    yield "the same entry before and behind", of_b(SLASH_B, SLASH_A, SLASH_B, SLASH_A), certificate(1)
    # names of several lengths, so that an entry's index is no multiple of anything
    lengths = [name("b" * n) for n in (0, 1, 249, 250, 251, 252, 253, 254, 255, 256, 1016)]
    yield "names of all lengths of a header", of_b(EMPTY, *lengths), "none"
    yield "and one behind them", of_b(EMPTY, *lengths, SLASH_A), certificate(1 + len(lengths))
    # a name that is a part of another one's bytes is not an entry
    yield "an entry in an entry", of_b(name(component(SLASH_A))), "none"
    yield "and behind it", of_b(name(component(SLASH_A)), SLASH_B, SLASH_A), certificate(2)


# refusals of the list


def broken_lists():
    """Entries that cannot be cut: nothing behind them is an entry."""
    for what, data in NOT_CUT.items():
        data = bytes.fromhex(data)
        yield f"{what}, alone", of_b(data), bad_entry(0)
        yield f"{what}, before one that may sign", of_b(data, SLASH_A), bad_entry(0)
        yield f"{what}, behind one that may sign", of_b(SLASH_A, data), bad_entry(1)
        yield f"{what}, after 63", of_b(*many(63), data), bad_entry(63)
        # nothing is cut off behind it, so that these are not more than 64
        yield f"{what}, before 64", of_b(data, *many(64)), bad_entry(0)
        yield f"{what}, between 40 and 40", of_b(*many(40), data, *many(40)), bad_entry(40)
    for what, data in CUT_SHORT.items():
        data = bytes.fromhex(data)
        yield f"{what}, alone", of_b(data), bad_entry(0)
        yield f"{what}, behind one that may not sign", of_b(SLASH_B, data), bad_entry(1)
        yield f"{what}, behind one that may sign", of_b(SLASH_A, data), bad_entry(1)
        yield f"{what}, after 63", of_b(*many(63), data), bad_entry(63)
    yield "one byte of noise", of_b(b"\x00"), bad_entry(0)
    yield "65,536 bytes of noise", of_b(bytes(65536)), bad_entry(0)
    # a length that takes bytes of the next entry: what is left is no entry, or another
    yield "a name that is one byte too long", of_b(b"\x07\x04\x08\x01a", SLASH_A), bad_entry(0)
    yield "the same, and the rest is cut off", of_b(b"\x07\x05\x08\x01b", b"\x08\x00", SLASH_A), certificate(1)
    for size in range(1, 10):
        expected = certificate(0) if size == 5 else bad_entry(size // 5)
        yield f"two entries, cut after {size} bytes", of_b((SLASH_A * 2)[:size]), expected


def bad_entries():
    """Elements that are no key name, wherever they are in the list: the whole of it is tested before an answer."""
    for what, data in NO_KEY_NAMES.items():
        yield f"{what}, alone", of_b(data), bad_entry(0)
        yield f"{what}, before one that may sign", of_b(data, SLASH_A), bad_entry(0)
        yield f"{what}, behind one that may sign", of_b(SLASH_A, data), bad_entry(1)
        yield f"{what}, behind one that may not sign", of_b(SLASH_B, data), bad_entry(1)
        yield f"{what}, between two that may sign", of_b(SLASH_B, SLASH_A, data, SLASH_A), bad_entry(2)
        yield f"{what}, of 64 the last", of_b(SLASH_A, *many(62), data), bad_entry(63)
    other = component("a")
    for i in (0, 1, 31, 62):
        yield f"of 64 entry {i}", of_b(*many(i), other, *many(62 - i), SLASH_A), bad_entry(i)
    yield "64 of another type", of_b(*[other] * 64), bad_entry(0)
    # of several the first, whichever fault it has
    longer, broken = name("a" * 1017), b"\x00"
    more = name(*["a"] * 33)
    for what, first, second in (
        ("too long, then another type", longer, other),
        ("another type, then too long", other, longer),
        ("too many components, then too long", more, longer),
        ("too long, then too many components", longer, more),
        ("another type, then no element", other, broken),
        ("too long, then no element", longer, broken),
        ("no element, then another type", broken, other),
    ):
        yield what, of_b(SLASH_B, first, SLASH_A, second), bad_entry(1)


def too_many():
    """33: anything behind 64 entries, and whatever these are."""
    behind = {
        "a byte": b"\x00",
        "a name's type": b"\x07",
        "a name that may sign": SLASH_A,
        "the empty name": EMPTY,
        "a name that is cut": SLASH_A[:-1],
        "a component": component("a"),
        "1,000 bytes of noise": bytes(1000),
        **{what: bytes.fromhex(data) for what, data in (NOT_CUT | CUT_SHORT).items()},
        **NO_KEY_NAMES,
    }
    for what, data in behind.items():
        yield f"64 and {what}", of_b(*many(64), data), TOO_MANY
    yield "64, of which the first may sign, and a byte", of_b(SLASH_A, *many(63), b"\xff"), TOO_MANY
    # it comes before 32, wherever the bad entry is
    for what, data in NO_KEY_NAMES.items():
        for i in (0, 63):
            yield f"64 and a byte, entry {i} being {what}", of_b(*many(i), data, *many(63 - i), b"\x00"), TOO_MANY
    yield "65 of another type", of_b(*[component("a")] * 65), TOO_MANY
    yield "64 of another type, and a byte", of_b(*[component("a")] * 64, b"\x00"), TOO_MANY


# limits of an entry


def limits():
    longest, another = name("x" * 1016), name("y" * 1016)
    assert len(longest) == len(another) == 1024
    yield "1,024 bytes", suggest(B, longest, longest), certificate(0)
    yield "1,024 bytes, behind another", suggest(B, longest, another, longest), certificate(1)
    yield "1,025 bytes", suggest(B, longest, longest, name("x" * 1017)), bad_entry(1)
    # 64 entries of 1,024 bytes are 65,536
    yield "64 of 1,024 bytes", suggest(B, longest, *[another] * 63, longest), certificate(63)
    yield "64 of 1,024 bytes, none of which may sign", suggest(B, longest, *[another] * 64), "none"
    assert len(short := name("x" * 1015)) == 1023
    yield "64 of 1,023 bytes and 64 bytes", suggest(B, longest, *[short] * 64, bytes(64)), TOO_MANY
    whole = name("x" * (65536 - 8))
    assert len(whole) == 65536
    yield "one of 65,536 bytes", suggest(B, longest, whole), bad_entry(0)
    yield "one of 65,536 bytes, cut", suggest(B, longest, whole[:-1]), bad_entry(0)
    yield "one of 65,536 bytes, of another type", suggest(B, longest, b"\x08" + whole[1:]), bad_entry(0)

    def a_name(count):
        return name(*["a"] * count)

    yield "32 components", suggest(CHAIN, a_name(1), a_name(32)), certificate(0)
    yield "32 components, the last of 64", suggest(CHAIN, a_name(1), *many(63), a_name(32)), certificate(63)
    yield "33 components", suggest(CHAIN, a_name(1), *many(1), a_name(33)), bad_entry(1)
    yield "33 components behind 32", suggest(CHAIN, a_name(1), a_name(32), a_name(33)), bad_entry(1)
    yield "no component", suggest(CHAIN, a_name(1), EMPTY), certificate(0)


# what comes before what


def bad_lists():
    """(what, list) of every refusal of a list, and lists that are not refused."""
    yield "no entry", b""
    yield "one that may sign", SLASH_A
    yield "one that may not sign", SLASH_B
    yield "a bad entry", component("a")
    yield "an entry that cannot be cut", b"\x00"
    yield "65 entries", SLASH_B * 65
    yield "64 bad entries and a byte", component("a") * 64 + b"\x00"


BAD_NAMES = (
    ("too long", name("a" * 1017), "refused 21 0"),
    ("1,025 bytes of noise", bytes(1025), "refused 21 0"),
    ("of 4,096 bytes", bytes(4096), "refused 21 0"),
    ("of no bytes", b"", "refused 22 0"),
    ("malformed", bytes.fromhex("0701"), "refused 22 0"),
    ("of another type", component("a"), "refused 22 0"),
    ("with a byte behind it", SLASH_A + b"\x00", "refused 22 0"),
    ("of two names", SLASH_A * 2, "refused 22 0"),
    ("of 33 components", name(*["a"] * 33), "refused 23 0"),
)


def order():
    """The model, then the packet name, then 33, then 32."""
    for rule in range(1, 15):
        of = with_faults(**{f"r{rule}": 3})
        answer = refused(rule, 3, of)
        for what, data in bad_lists() if rule in (2, 9, 12, 13, 14) else [("one that may sign", SLASH_A)]:
            yield f"model refused with {rule}, {what}", suggest(of, SLASH_A, data), answer
            yield f"model refused with {rule}, a malformed packet name, {what}", suggest(of, b"\x07", data), answer
    yield "no model, no packet name, no list", suggest(b"", b""), "refused 2 0"
    for which, packet, answer in BAD_NAMES:
        for what, data in bad_lists():
            yield f"a packet name {which}, {what}", suggest(B, packet, data), answer
    for what, entries in (
        ("33 before 32, the first bad", [component("a"), *many(64)]),
        ("33 before 32, the 64th bad", [*many(63), component("a"), SLASH_A]),
        ("33 before 32, the 65th bad", [*many(64), component("a")]),
        ("33 before an answer", [SLASH_A, *many(64)]),
    ):
        yield what, of_b(*entries), TOO_MANY
    yield "32 before an answer", of_b(SLASH_A, *many(62), component("a")), bad_entry(63)
    # a packet that leads nowhere still has its list tested
    for packet in path("/a/b"), EMPTY:
        yield "no signer, a good list", suggest(B, packet, SLASH_A), "none"
        yield "no signer, a bad entry", suggest(B, packet, SLASH_A, component("a")), bad_entry(1)
        yield "no signer, 65 entries", suggest(B, packet, *many(65)), TOO_MANY


# the signing answer


def bindings():
    """Each entry is a key of its own, walked from the bindings of each packet match."""
    both = [SLASH_A, SLASH_B]
    yield "B: /a by /a", suggest(B, SLASH_A, *both), certificate(0)
    yield "B: /b by /b", suggest(B, SLASH_B, *both), certificate(1)
    yield "B: /c by none", suggest(B, path("/c"), *both), "none"
    yield "B: the empty name by none", suggest(B, EMPTY, EMPTY, *both), "none"
    yield "A: the empty name by none", suggest(A, EMPTY, EMPTY, SLASH_A), "none"
    typed = name(component("a", 9))
    yield "B: another type of component", suggest(B, typed, SLASH_A, typed), certificate(1)
    # the first packet match takes /k/a, the second /k/b: the list's order decides, not that of the matches
    two = tree([(1,), (2,), (6,)], [(2,), (1,), (6,)], ["k", (1,), ()])
    ab, ka, kb, kc = map(path, ("/a/b", "/k/a", "/k/b", "/k/c"))
    yield "the second match's key", suggest(two, ab, kc, kb), certificate(1)
    yield "the second match's key alone", suggest(two, ab, kb), certificate(0)
    yield "the first match's key, then the second's", suggest(two, ab, kc, ka, kb), certificate(1)
    yield "the second match's key, then the first's", suggest(two, ab, kc, kb, ka), certificate(1)
    yield "no match's key", suggest(two, ab, kc, path("/k"), path("/k/a/a"), ab), "none"
    # the first packet match has no signer
    unsigned = tree([(1,), "p", ()], [(2,), "p", (6,)], ["k", "b", ()])
    yield "the first match has no signer", suggest(unsigned, path("/a/p"), kc, kb), certificate(1)
    # the packet's walk leaves nothing behind that a later match did not bind
    rebound = tree([(1,), "p", ()], [(2,), "p", (6,)], ["k", (1,), ()])
    yield "a Tag of the first match alone", suggest(rebound, path("/a/p"), path("/q"), kb), certificate(1)
    # an entry's walk leaves nothing behind for the next: Tag 2 is bound by the key alone
    own = tree(["p", (4,)], ["k", (2,), (2,), ()])
    kab, kbb, kcc = map(path, ("/k/a/b", "/k/b/b", "/k/c/c"))
    yield "a Tag that an earlier entry bound", suggest(own, path("/p"), kab, kbb), certificate(1)
    yield "a Tag that an earlier entry ended with", suggest(own, path("/p"), ka, kab, kbb), certificate(2)
    yield "a Tag that an earlier entry bound, of two", suggest(own, path("/p"), kab, kcc, kbb), certificate(1)
    # the packet's own name in the list
    yield "the packet's name, which may not sign itself", suggest(own, path("/p"), path("/p"), kbb), certificate(1)
    yield "the packet's name, which may sign itself", suggest(B, SLASH_A, SLASH_A), certificate(0)


def chains():
    """It looks no further up the chain: whether a certificate's own signer is in the list makes no difference."""
    chain = tree(["p", (2,)], ["k", (3,)], ["r", ()])
    p, k, r = map(path, ("/p", "/k", "/r"))
    yield "/p by /k, whose signer is not there", suggest(chain, p, k), certificate(0)
    yield "/p by /k, whose signer is there", suggest(chain, p, r, k), certificate(1)
    yield "/k by /r, which nobody signs", suggest(chain, k, p, k, r), certificate(2)
    yield "/r by none", suggest(chain, r, p, k, r), "none"
    yield "/p not by its signer's signer", suggest(chain, p, r, p), "none"
    signs_itself = model(node(0, value_edge(1, "a")), node(1, parent(0), signer(1), signer(0)))
    yield "/a by itself or the empty name", suggest(signs_itself, SLASH_A, SLASH_B, EMPTY, SLASH_A), certificate(1)


def documents(tutorial=TUTORIAL, quick=QUICK):
    """The certificates of the LVS documentation's blog: the root's, an admin's, authors' and a reader's."""
    root, reader = "/ndn/blog/KEY/1/self/1", "/ndn/blog/reader/200001/KEY/1/000001/1"
    own_reader, other_author = "/ndn/blog/reader/100001/KEY/1/000001/1", "/ndn/blog/author/100002/KEY/1/000001/1"
    other_admin = "/ndn/blog/admin/000002/KEY/1/root/1"
    article = "/ndn/blog/100001/post/2022/1"
    for what, packet, uris, answer in (
        ("the author among a reader and another author", article, [root, reader, own_reader, other_author, AUTHOR_KEY], certificate(4)),
        ("an admin before the author", article, [reader, ADMIN_KEY, AUTHOR_KEY], certificate(1)),
        ("the author before an admin", article, [reader, AUTHOR_KEY, ADMIN_KEY], certificate(1)),
        ("two admins", article, [other_author, other_admin, ADMIN_KEY], certificate(1)),
        ("two certificates of the author", article, [root, AUTHOR_KEY + "0", AUTHOR_KEY], certificate(1)),
        ("no author of this article", article, [root, reader, own_reader, other_author], "none"),
        ("an article of a year with three digits", "/ndn/blog/100001/post/202/1", [ADMIN_KEY, AUTHOR_KEY], "none"),
        ("another author's article", "/ndn/blog/100002/post/2022/1", [AUTHOR_KEY, other_author], certificate(1)),
        ("a reader's article, by an admin", "/ndn/blog/200001/post/2022/1", [reader, AUTHOR_KEY, ADMIN_KEY], certificate(2)),
        ("an author's key", AUTHOR_KEY, [root, AUTHOR_KEY, reader, ADMIN_KEY], certificate(3)),
        ("a reader's key", reader, [reader, AUTHOR_KEY, other_admin], certificate(2)),
        ("an admin's key", ADMIN_KEY, [ADMIN_KEY, other_admin, AUTHOR_KEY, root], certificate(3)),
        ("the root's key", root, [root, ADMIN_KEY, AUTHOR_KEY, reader], "none"),
        ("a name of no rule", "/ndn/blog", [root, ADMIN_KEY, AUTHOR_KEY, reader], "none"),
        ("no certificate", article, [], "none"),
    ):
        yield f"tutorial, {what}", suggest(tutorial, path(packet), *map(path, uris)), answer
    author, admin, root = "/a/blog/author/xinyu/KEY/1/admin/1", "/a/blog/admin/admin/KEY/1/root/1", "/a/blog/KEY/1/self/1"
    article = "/a/blog/article/math/2022/03"
    for packet, answer in ((article, certificate(2)), (author, certificate(1)), (admin, certificate(0)), (root, "none")):
        yield f"quick example, {packet}", suggest(quick, path(packet), *map(path, (root, admin, author))), answer


def fields(case):
    """The fields of a case, behind its letter."""
    at = 1
    while at < len(case):
        end = at + 4 + int.from_bytes(case[at : at + 4], "big")
        yield case[at + 4 : end]
        at = end


def as_lists(cases, is_twice=True):
    """Each pair of names that these cases sign, as a list with that key alone, and twice."""
    pairs = {}
    for what, case, line in cases:
        if case[:1] == b"S":
            pairs.setdefault(tuple(fields(case))[:3], (what, line))
    for (of, packet, key), (what, line) in pairs.items():
        assert line.startswith(("not allowed", "allowed"))
        answer = "none" if line.startswith("not") else certificate(0)
        yield f"{what}, as a list", suggest(of, packet, key), answer
        if is_twice:
            yield f"{what}, as a list of two", suggest(of, packet, key, key), answer


def signing():
    for table in walks, document_003:
        yield from as_lists(table.cases())


def optional():
    """Optional elements of the model change nothing."""
    for spare in ("8000", "20020000", "fefffffffe00"):
        of = put_everywhere(FULL, bytes.fromhex(spare))
        yield f"{spare} in every gap", suggest(of, PACKET, SLASH_A, PACKET, PACKET), certificate(1)
        yield f"{spare} in every gap, none", suggest(of, PACKET, SLASH_A, EMPTY), "none"
    of = put_everywhere(FULL, faulty(bytes.fromhex("8100")))
    yield "a critical element in every gap", suggest(of, PACKET, PACKET), refused_at(of)


def cases():
    for part in counts, places, broken_lists, bad_entries, too_many, limits, order, bindings, chains, documents, signing, optional:
        yield from part()
