"""Runs of lvs_check: the model's file (None where there is none), standard input and the whole output."""
from bench import A, B, B_PARENT_1, EMPTY, OTHER_VERSION_CUT, SLASH_A, SLASH_B
from build import *
from document_003 import QUICK, QUICK_CHECKS, TUTORIAL, TUTORIAL_CHECKS
from places import by_hand, long_file
from temporary import QUICK_SHARED, TUTORIAL_SHARED, with_count


def names(packet, key):
    """A request without its mark."""
    return request(packet, key)[2:]


GOOD = request(SLASH_A, SLASH_A)
HEAD = "model 2 nodes\n"
FIRST = "1 allowed 1 1\n"


def models():
    bad_signer = model(node(0), node(1, signer(2)))
    for what, of, line in (
        ("another version", OTHER_VERSION_CUT, "model refused 3 at 0\n"),
        ("a cut model", B[:-1], "model refused 2 at 25\n"),
        ("another parent", B_PARENT_1, "model refused 11 at 0\n"),
        ("a signer that is no Node", bad_signer, "model refused 9 at 1\n"),
        ("a start with a Parent", model(node(0), node(1), node(2, parent(0)), start=2), "model refused 13 at 2\n"),
        ("two edges to one Node", model(node(0), node(1, value_edge(2, "a"), pattern_edge(2, 1)), node(2, parent(1))), "model refused 14 at 1\n"),
        ("no file", None, "model refused 2 at 0\n"),
        ("an empty file", b"", "model refused 2 at 0\n"),
        ("32,769 bytes", padded(B, 32769), "model refused 1 at 0\n"),
        ("100,000 bytes", padded(B, 50000) + bytes(50000), "model refused 1 at 0\n"),
    ):
        # a refused model ends the program: requests are not answered
        yield what, of, GOOD, line
    for what, of in [*by_hand(), *list(long_file())[::9]]:
        yield what, of, GOOD, f"model refused 2 at {of.place}\n"
    yield "32,768 bytes", padded(B, 32768), GOOD, HEAD + FIRST
    yield "one Node", A, request(EMPTY, EMPTY), "model 1 nodes\n1 not allowed\n"
    # Nodes 2 and 3 are each other's Parents, and no name leads to them
    two = [node(2, parent(3), value_edge(3, "a")), node(3, parent(2), value_edge(2, "a"))]
    of = model(node(0, value_edge(1, "a")), node(1, parent(0), signer(1)), *two)
    yield "mutual parents", of, GOOD + request(path("/a/a"), path("/a/a")), "model 4 nodes\n1 allowed 1 1\n2 not allowed\n"


def answers():
    example = request(SLASH_A, SLASH_A) + request(SLASH_A, SLASH_B) + request(SLASH_A, bytes.fromhex("0701"))
    yield "the format's example", B, example, "model 2 nodes\n1 allowed 1 1\n2 not allowed\n3 refused 25\n"
    yield "the same without a named pattern", with_count(B, 0), example, "model 2 nodes\n1 allowed 1 1\n2 allowed 1 1\n3 refused 25\n"
    yield "no request", B, b"", HEAD
    yield "names of no bytes", B, request(b"", b"") + request(SLASH_A, b""), HEAD + "1 refused 22\n2 refused 25\n"
    longest = name("x" * 1016)
    lengths = request(longest, longest) + request(longest + b"x", SLASH_A) + request(SLASH_A, longest + b"x")
    yield "names of 1,024 and 1,025 bytes", B, lengths, HEAD + "1 allowed 1 1\n2 refused 21\n3 refused 24\n"
    full = request(bytes(2048), SLASH_A) + request(SLASH_A, bytes(2048))
    yield "names of 2,048 bytes", B, full, HEAD + "1 refused 21\n2 refused 24\n"
    many = request(name(*["a"] * 33), SLASH_A) + request(SLASH_A, name(*["a"] * 33))
    yield "33 components", B, many, HEAD + "1 refused 23\n2 refused 26\n"
    for what, of, head, checks in (
        ("quick example", QUICK, "model 23 nodes\n", QUICK_CHECKS),
        ("tutorial", TUTORIAL, "model 29 nodes\n", TUTORIAL_CHECKS),
        ("quick example, temporary Tags shared", QUICK_SHARED, "model 23 nodes\n", QUICK_CHECKS),
        ("tutorial, temporary Tags shared", TUTORIAL_SHARED, "model 29 nodes\n", TUTORIAL_CHECKS),
    ):
        asked = b"".join(request(path(packet), path(by)) for packet, by, _ in checks)
        yield what, of, asked, head + "".join(f"{k} {answer}\n" for k, (_, _, answer) in enumerate(checks, 1))


def broken():
    for size in range(1, len(GOOD)):
        yield f"cut after {size} bytes", B, GOOD[:size], HEAD + "1 broken\n"
    yield "the second request cut", B, GOOD + GOOD[:-1], HEAD + FIRST + "2 broken\n"
    for mark in ("0000", "4d4d", "4b4d", "4d00", "004b", "6d6b"):
        yield f"mark {mark}", B, bytes.fromhex(mark) + names(SLASH_A, SLASH_A) + GOOD, HEAD + "1 broken\n"
    yield "a wrong byte where a mark may be", B, GOOD + b"\x00", HEAD + FIRST + "2 broken\n"
    # the mark stands once: the second is a length above 2,048
    yield "the mark twice", B, b"\x4d\x4b" + GOOD, HEAD + "1 broken\n"
    for length in (2049, 4096, 65535):
        name_field = length.to_bytes(2, "big") + bytes(length)
        tail = name_field[:2] + bytes(length)
        yield f"a packet name of {length} bytes", B, b"\x4d\x4b" + name_field + names(b"", SLASH_A)[2:] + GOOD, HEAD + "1 broken\n"
        yield f"a key name of {length} bytes", B, b"\x4d\x4b" + names(SLASH_A, b"")[:-2] + tail + GOOD, HEAD + "1 broken\n"
    # a broken request ends the program, whatever follows
    yield "a good request after a broken one", B, GOOD + b"\x00\x00" + GOOD, HEAD + FIRST + "2 broken\n"


def last():
    """The 65,535th answer ends the program."""
    lines = HEAD + "".join(f"{k} allowed 1 1\n" for k in range(1, 65536))
    yield "65,535 requests", B, GOOD * 65535, lines
    yield "65,536 requests", B, GOOD * 65536, lines
    yield "a wrong mark after 65,535 requests", B, GOOD * 65535 + b"\x00", lines
    cut = HEAD + "".join(f"{k} allowed 1 1\n" for k in range(1, 65535)) + "65535 broken\n"
    yield "the 65,535th request cut", B, GOOD * 65534 + GOOD[:-1], cut


def runs():
    for part in models, answers, broken, last:
        yield from part()
