"""The examples that were given with the format (docs/format.md, 13.2 to 13.4), byte for byte."""
from build import *

A = bytes.fromhex("61 04 00 01 10 00 25 01 00 69 01 00 63 03 25 01 00")
B_HEAD = bytes.fromhex("61 04 00 01 10 00 25 01 00 69 01 01")
B_FIRST = bytes.fromhex("63 0B 25 01 00 53 06 25 01 01 23 01 01")
B_SECOND = bytes.fromhex("63 09 25 01 01 57 01 00 55 01 01")
B = B_HEAD + B_FIRST + B_SECOND
SLASH_A = bytes.fromhex("07 03 08 01 61")
SLASH_B = bytes.fromhex("07 03 08 01 62")
EMPTY = bytes.fromhex("07 00")

# B with an element after its first NodeId, and that Node's length 0D
OPTIONAL = B_HEAD + bytes.fromhex("63 0D 25 01 00 80 00 53 06 25 01 01 23 01 01") + B_SECOND
CRITICAL = B_HEAD + bytes.fromhex("63 0D 25 01 00 81 00 53 06 25 01 01 23 01 01") + B_SECOND

OTHER_VERSION_CUT = bytes.fromhex("61 04 00 01 10 01 25 01 00 69 01 00 63 03 25 01")
A_START_1 = bytes.fromhex("61 04 00 01 10 00 25 01 01 69 01 00 63 03 25 01 00")
A_NO_NODE = bytes.fromhex("61 04 00 01 10 00 25 01 00 69 01 00")
B_PARENT_1 = B_HEAD + B_FIRST + bytes.fromhex("63 09 25 01 01 57 01 01 55 01 01")


def cases():
    yield "A is accepted, 1 Node", verdict(A), "accepted 1"
    yield "A: the empty name matches node 0", match(A, EMPTY, OLD), matched(0)
    yield "A: empty by empty", sign(A, EMPTY, EMPTY), NOT_ALLOWED
    yield "A has no edge", match(A, SLASH_A, OLD), kept("no match")
    for what, model in ("B", B), ("B with an optional element", OPTIONAL):
        yield what, verdict(model), "accepted 2"
        yield f"{what}: /a at node 1, Tag 1 at 2, length 3", match(model, SLASH_A, OLD), matched(1, (1, 2, 3))
        yield f"{what}: the empty name at node 0", match(model, EMPTY, OLD), matched(0)
        yield f"{what}: (/a, /a)", sign(model, SLASH_A, SLASH_A), allowed(1, 1, 0, 0, packet=[(1, 2, 3)])
        yield f"{what}: (/a, /b)", sign(model, SLASH_A, SLASH_B), NOT_ALLOWED
        yield f"{what}: (/a, empty)", sign(model, SLASH_A, EMPTY), NOT_ALLOWED
        yield f"{what}: (/a, bytes 07 01)", sign(model, SLASH_A, bytes.fromhex("07 01")), both_kept("refused 25 0")
    for what, model, answer in (
        ("B with a critical element", CRITICAL, "refused 2 17"),
        ("another version, and cut", OTHER_VERSION_CUT, "refused 3 0"),
        ("A cut", A[:-1], "refused 2 12"),
        ("A with StartId 1", A_START_1, "refused 7 0"),
        ("A without its Node", A_NO_NODE, "refused 7 0"),
        ("B with Parent 1 in its second Node", B_PARENT_1, "refused 11 0"),
        ("empty", b"", "refused 2 0"),
    ):
        yield what, verdict(model), answer
        yield what, match(model, SLASH_A, OLD), kept(answer)
        yield what, sign(model, SLASH_A, SLASH_A), both_kept(answer)
