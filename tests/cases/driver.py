"""Inputs of lvs_cases as wholes: where a case is broken, and many cases in one run."""
from bench import A, B, EMPTY, SLASH_A, SLASH_B
from build import *
from components import changed, some

GOOD = verdict(B)
LINE = "accepted 2\n"
WORDS = match(B, SLASH_A, OLD)
WORDS_LINE = matched(1, (1, 2, 3)) + "\n"
B_NUMBERS = [0, 1, 2, *(0, 0, 0, 0, 1, 1, 1, 0, 0), *(1, 1, 0, 0, 0, 0, 1, 1), 0]
WRITE = write(B_NUMBERS, b"", b"x" * len(B))
DESCRIBE = describe(B, [7] * len(B_NUMBERS), b"\x00\xff")
SUGGEST = suggest(B, SLASH_A, SLASH_B, SLASH_A)
WRITE_LINE = f"written {len(B)} {B.hex()}\n"
DESCRIBE_LINE = f"described {len(B_NUMBERS)} 0" + words_line(B_NUMBERS) + " 00ff\n"
SUGGEST_LINE = "certificate 1\n"
DAY, NEXT_DAY = component("20261116"), component("20261117")
COMPARE = compare(DAY, NEXT_DAY)
COMPARE_LINE = "different 1\n"
SIGN, FOLLOW = sign(B, SLASH_A, SLASH_A, [7, 8, 9]), follow(B, SLASH_A, SLASH_A, [0, 0])
FOLLOW_LINE = "accepted\n"
LONGEST = component(some(65532))  # 65,536 bytes: a header of 4 and the value

# fields that are not exactly one component
NO_COMPONENTS = {
    "no bytes": b"",
    "a type alone": b"\x08",
    "a type of 3 bytes, cut": b"\xfd\x01",
    "a type of 3 bytes alone": b"\xfd\x01\x08",
    "a length of 3 bytes, cut": b"\x08\xfd\x01",
    "a header alone": b"\x08\x01",
    "one byte missing": DAY[:-1],
    "one byte too many": DAY + b"7",
    "a byte 0 too many": DAY + b"\x00",
    "two components": DAY + DAY,
    "a component and an empty one": DAY + b"\x08\x00",
    "an empty component and another": b"\x08\x00" + DAY,
    "type 0": element(0, b"a"),
    "type 0, empty": b"\x00\x00",
    "type 0 in 3 bytes": b"\xfd\x00\x00\x01a",
    "type 65,536": element(65536, b"a"),
    "type 65,544, which ends in 8": element(65544, b"a"),
    "type 2^32 - 1": element(2**32 - 1, b"a"),
    "type 2^32": element(2**32, b"a"),
    "type 2^32 + 8": element(2**32 + 8, b"a"),
    "type 8 in 3 bytes": b"\xfd\x00\x08\x01a",
    "type 8 in 5 bytes": b"\xfe\x00\x00\x00\x08\x01a",
    "type 8 in 9 bytes": b"\xff" + bytes(7) + b"\x08\x01a",
    "type 252 in 3 bytes": b"\xfd\x00\xfc\x01a",
    "type 253 in 5 bytes": b"\xfe\x00\x00\x00\xfd\x01a",
    "type 65,535 in 5 bytes": b"\xfe\x00\x00\xff\xff\x01a",
    "a length of 0 in 3 bytes": b"\x08\xfd\x00\x00",
    "a length of 1 in 3 bytes": b"\x08\xfd\x00\x01a",
    "a length of 1 in 5 bytes": b"\x08\xfe\x00\x00\x00\x01a",
    "a length of 1 in 9 bytes": b"\x08\xff" + bytes(7) + b"\x01a",
    "a length of 252 in 3 bytes": b"\x08\xfd\x00\xfc" + bytes(252),
    "a length of 253 in 5 bytes": b"\x08\xfe\x00\x00\x00\xfd" + bytes(253),
    "a length of 65,535 and no more": b"\x08\xfd\xff\xff",
    "a length of 65,536 in 65,536 bytes": b"\x08\xfe\x00\x01\x00\x00" + bytes(65530),
    "a length of 2^32 + 1": b"\x08\xff\x00\x00\x00\x01\x00\x00\x00\x01a",
    "a length of 2^64 - 1": b"\x08" + b"\xff" * 9,
    "a length of 2^64 - 10, so that the end would be the start": b"\x08" + b"\xff" * 8 + b"\xf6",
    "65,536 bytes, one missing": component(bytes(65533))[:-1],
    "65,536 bytes, one too many": component(bytes(65531)) + b"\x00",
    "65,536 bytes of type 0": bytes(65536),
}


def signed(path_words=OLD_PATH, words=OLD):
    """The line of /a by /a."""
    return allowed(1, 1, 0, 0, packet=[(1, 2, 3)], path_words=path_words, words=words) + "\n"


SIGN_LINE = signed([7, 8, 9])


def runs():
    yield "no case", b"", ""
    for of in (GOOD, WORDS, SIGN, FOLLOW, WRITE, DESCRIBE, SUGGEST, COMPARE):
        for size in range(1, len(of), max(1, len(of) // 40)):
            yield f"{of[:1]} cut after {size} bytes", GOOD + of[:size], LINE + "broken\n"
        yield f"{of[:1]} without its last byte", GOOD + of[:-1], LINE + "broken\n"
    for letter in (b"X", b"v", b"w", b"d", b"c", b"e", b"m", b"s", b"p", b"\x00", b"\n"):
        yield f"letter {letter}", GOOD + letter + GOOD[1:] + GOOD, LINE + "broken\n"
    longest = bytes(65536)
    yield "a model of 65,536 bytes", verdict(longest) + GOOD, "refused 1 0\n" + LINE
    yield "a model of 65,537 bytes", verdict(longest + b"\x00") + GOOD, "broken\n"
    yield "a name of 4,097 bytes", match(B, bytes(4097), OLD) + GOOD, "broken\n"
    yield "a key name of 4,096 bytes", sign(B, SLASH_A, bytes(4096), [7], [6]) + GOOD, "refused 24 0 6 7\n" + LINE
    yield "a key name of 4,097 bytes", sign(B, SLASH_A, bytes(4097)) + GOOD, "broken\n"
    yield "1,024 words", match(A, SLASH_A, [7] * 1024) + GOOD, kept("no match", [7] * 1024) + "\n" + LINE
    yield "1,025 words", match(A, SLASH_A, [7] * 1025) + GOOD, "broken\n"
    for size in (1, 2, 3, 1025):
        yield f"words of {size} bytes", b"M" + field(A) + field(SLASH_A) + field(bytes(size)) + GOOD, "broken\n"
    # a description's lists, and the output
    yield "both calls", WRITE + DESCRIBE + GOOD, WRITE_LINE + DESCRIBE_LINE + LINE
    longest_list, longest_line = [9] * 8192, words_line([9] * 8192) + "\n"
    yield "8,192 numbers and 65,536 bytes to write", write(longest_list, longest, longest) + GOOD, f"refused 30 0 {longest.hex()}\n" + LINE
    yield "8,192 numbers to describe in", describe(longest, longest_list, b"") + GOOD, f"refused 1 0{longest_line}" + LINE
    yield "65,536 bytes to describe in", describe(B, [], longest) + GOOD, f"refused 30 0 {longest.hex()}\n" + LINE
    for what, of in (
        ("8,193 numbers to write", write(longest_list + [9], b"", b"")),
        ("65,537 bytes of texts to write", write([], longest + b"\x00", b"")),
        ("65,537 bytes of output", write([], b"", longest + b"\x00")),
        ("a model of 65,537 bytes to describe", describe(longest + b"\x00", [], b"")),
        ("8,193 numbers to describe in", describe(B, longest_list + [9], b"")),
        ("65,537 bytes of texts to describe in", describe(B, [], longest + b"\x00")),
    ):
        yield what, of + GOOD, "broken\n"
    for size in (1, 4, 7, 9, 65535):
        yield f"numbers of {size} bytes to write", b"W" + field(bytes(size)) + field(b"") + field(b"") + GOOD, "broken\n"
        yield f"numbers of {size} bytes to describe in", b"D" + field(B) + field(bytes(size)) + field(b"") + GOOD, "broken\n"
    yield "the largest length", b"V\xff\xff\xff\xff" + GOOD, "broken\n"
    # more than any buffer of the driver holds, in and out
    yield "20,000 cases", GOOD * 20000, LINE * 20000
    yield "2,000 cases with words", WORDS * 2000, WORDS_LINE * 2000
    yield "2,000 cases of both calls", (WRITE + DESCRIBE) * 2000, (WRITE_LINE + DESCRIBE_LINE) * 2000
    # a list of certificate names
    yield "the list is read whole", SUGGEST + SUGGEST + GOOD, SUGGEST_LINE * 2 + LINE
    yield "no list", suggest(B, SLASH_A) + GOOD, "none\n" + LINE
    yield "a list of 65,536 bytes", suggest(B, SLASH_A, longest) + SUGGEST + GOOD, "refused 32 0\n" + SUGGEST_LINE + LINE
    yield "a packet name of 4,096 bytes and a list", suggest(B, bytes(4096), longest) + GOOD, "refused 21 0\n" + LINE
    yield "a model of 65,536 bytes and a list", suggest(longest, bytes(4096), longest) + GOOD, "refused 1 0\n" + LINE
    for what, of in (
        ("a list of 65,537 bytes", suggest(B, SLASH_A, longest, b"\x00")),
        ("a list of 65,537 bytes and a refused model", suggest(b"", SLASH_A, longest, b"\x00")),
        ("a packet name of 4,097 bytes and a list", suggest(B, bytes(4097), SLASH_A)),
        ("a model of 65,537 bytes and a list", suggest(longest + b"\x00", SLASH_A, SLASH_A)),
        ("a list of 2^32 - 1 bytes", b"C" + field(B) + field(SLASH_A) + b"\xff" * 4),
    ):
        yield what, of + GOOD, "broken\n"
    # what an earlier case left behind in the driver is no part of a list
    yield "a short list after a long one", suggest(B, SLASH_A, *[SLASH_A] * 64) + suggest(B, SLASH_A, SLASH_B), "certificate 0\nnone\n"
    for part in path_fields, binding_fields, many_words, component_fields, long_components, many_comparisons:
        yield from part()


# where a field of words is at fault the case is, whatever the model and the names are
NAMES_OF_CASES = (
    ("good names", B, SLASH_A, SLASH_A),
    ("empty names", A, EMPTY, EMPTY),
    ("a refused model", b"", SLASH_A, SLASH_A),
    ("a refused packet name", B, b"", SLASH_A),
    ("a refused key name", B, SLASH_A, b""),
)


def path_fields():
    """The fields of `S` and `P`, each behind a good case: a path has at most 2,048 words, of two bytes each."""
    words = [60000 - i for i in range(2048)]
    yield "2,048 path words", sign(B, SLASH_A, SLASH_A, words) + GOOD, signed(words) + LINE
    yield "2,048 path words, not allowed", sign(A, SLASH_A, SLASH_A, words) + GOOD, both_kept("not allowed", words) + "\n" + LINE
    yield "2,048 path words to follow", follow(B, SLASH_A, SLASH_A, [0] * 2048) + GOOD, "no\n" + LINE
    no_words = sign(B, SLASH_A, SLASH_A, []) + follow(B, SLASH_A, SLASH_A, [])
    yield "no path words", no_words + GOOD, kept("refused 34 0") + "\nno\n" + LINE
    none_needed = sign(A, EMPTY, EMPTY, []) + follow(A, EMPTY, EMPTY, [])
    yield "no path words, none needed", none_needed + GOOD, kept("not allowed") + "\nno\n" + LINE
    # the longest of all
    longest = bytes(65536), bytes(4096), bytes(4096), words
    line = both_kept("refused 1 0", words, old_words(1024)) + "\nrefused 1 0\n"
    yield "the longest fields", sign(*longest, old_words(1024)) + follow(*longest) + GOOD, line + LINE
    for letter, between, line in (b"S", words_field(OLD, 4), SIGN_LINE), (b"P", b"", FOLLOW_LINE):
        good = SIGN if letter == b"S" else FOLLOW

        def case(of, packet, key, data):
            return letter + field(of) + field(packet) + field(key) + between + field(data)

        for what, *given in NAMES_OF_CASES:
            for size in (1, 3, 5, 127, 4095, 4097, 4098, 4099, 65536):
                yield f"{letter}, {what}, a path of {size} bytes", good + case(*given, bytes(size)) + GOOD, line + "broken\n"
        before = letter + field(B) + field(SLASH_A) + field(SLASH_A) + between
        for what, data in (
            ("a model of 65,537 bytes", case(bytes(65537), SLASH_A, SLASH_A, bytes(4))),
            ("a packet name of 4,097 bytes", case(B, bytes(4097), SLASH_A, bytes(4))),
            ("a key name of 4,097 bytes", case(B, SLASH_A, bytes(4097), bytes(4))),
            ("no path", before),  # the next case's letter is in its length
            ("a path of 2^31 bytes", before + b"\x80\x00\x00\x00"),
            ("a path of 2^32 - 1 bytes", before + b"\xff" * 4),
            ("a path of 2^32 - 2 bytes", before + b"\xff\xff\xff\xfe"),
            ("a path of two bytes, one missing", before + b"\x00\x00\x00\x02\x00"),
        ):
            after = b"" if what.endswith("missing") else GOOD
            yield f"{letter}, {what}", good + data + after, line + "broken\n"
        yield f"{letter}, a field more", good + field(b"") + GOOD, line + "broken\n"
        yield f"{letter}, two cases", good + good + GOOD, line * 2 + LINE


def binding_fields():
    """The binding words of `S`, at most 1,024 of four bytes each, before the path; each behind a good case."""
    most, path_most = old_words(1024), [60000 - i for i in range(2048)]
    yield "1,024 binding words", sign(B, SLASH_A, SLASH_A, words=most) + GOOD, signed(words=most) + LINE
    both = path_most, most
    yield "1,024 binding words, 2,048 path words", sign(B, SLASH_A, SLASH_A, *both) + GOOD, signed(*both) + LINE
    yield "the same, not allowed", sign(B, SLASH_A, SLASH_B, *both) + GOOD, both_kept("not allowed", *both) + "\n" + LINE
    yield "no binding words", sign(B, SLASH_A, SLASH_A, [7, 8], []) + GOOD, "refused 27 0 7 8\n" + LINE
    yield "neither", sign(B, SLASH_A, SLASH_A, [], []) + sign(A, EMPTY, EMPTY, [], []) + GOOD, "refused 27 0\n" * 2 + LINE

    def case(of, packet, key, size, path_size=4):
        return b"S" + field(of) + field(packet) + field(key) + field(bytes(size)) + field(bytes(path_size))

    for what, *given in NAMES_OF_CASES:
        for size in (1, 2, 3, 5, 1535, 1537, 1538, 4095, 4097, 4098, 4099, 4100, 65536):
            yield f"{what}, binding words of {size} bytes", SIGN + case(*given, size) + GOOD, SIGN_LINE + "broken\n"
        for size, path_size in (1536, 1), (1536, 4095), (1536, 4097), (1536, 4098), (4096, 4097), (0, 1), (3, 1), (4, 3), (4100, 4100), (2, 2):
            sizes = f"binding words of {size} bytes, a path of {path_size}"
            yield f"{what}, {sizes}", SIGN + case(*given, size, path_size) + GOOD, SIGN_LINE + "broken\n"
    names = b"S" + field(B) + field(SLASH_A) + field(SLASH_A)
    bindings, path_field = words_field(OLD, 4), words_field([7, 8, 9], 2)
    for what, data in (
        ("no binding words and no path", names + GOOD),  # the next case's letter is in a length
        ("no path", names + bindings + GOOD),
        ("no binding words", names + path_field + GOOD),  # the path has 6 bytes, which are no words of 4
        ("no binding words, a path of two words", names + words_field([7, 8], 2) + GOOD),  # these are one word of 4, and no path follows
        ("no binding words, an empty path", names + field(b"") + GOOD),
        ("the path first", names + path_field + bindings + GOOD),
        ("a third field of words", names + bindings + path_field + bindings + GOOD),
        ("binding words of 2^31 bytes", names + b"\x80\x00\x00\x00" + path_field + GOOD),
        ("binding words of 2^32 - 4 bytes", names + b"\xff\xff\xff\xfc" + path_field + GOOD),
        ("binding words of 2^32 - 1 bytes", names + b"\xff" * 4 + path_field + GOOD),
        ("cut before the binding words", names),
        ("cut within their length", names + bindings[:2]),
        ("cut behind their length", names + bindings[:4]),
        ("cut within a binding word", names + bindings[:-1]),
        ("cut between two binding words", names + bindings[:-4]),
        ("cut between the two fields", names + bindings),
        ("cut within the path's length", names + bindings + path_field[:3]),
        ("cut behind the path's length", names + bindings + path_field[:4]),
        ("cut within the path", names + bindings + path_field[:-2]),
    ):
        line = SIGN_LINE + (signed([7, 8, 9]) if what.startswith("a third") else "") + "broken\n"
        yield f"binding words: {what}", SIGN + data, line


def many_words():
    """What a case has left behind is no part of the next."""
    long, short = sign(B, SLASH_A, SLASH_A, [5] * 2048, [4] * 1024), sign(B, SLASH_A, SLASH_B, [6])
    long_line = signed([5] * 2048, [4] * 1024)
    yield "few words after many", long + short + SIGN, long_line + both_kept("refused 34 0", [6]) + "\n" + SIGN_LINE
    yield "no path words after many", long + sign(A, EMPTY, EMPTY, []), long_line + kept("not allowed") + "\n"
    yield "no binding words after many", long + sign(B, SLASH_A, SLASH_A, [6], []) + SIGN, long_line + "refused 27 0 6\n" + SIGN_LINE
    few = sign(B, SLASH_A, SLASH_A, [5, 6], OLD[:383]) + match(B, SLASH_A, OLD[:383])
    line = both_kept("refused 27 0", [5, 6], OLD[:383]) + "\n" + kept("refused 27 0", OLD[:383]) + "\n"
    yield "383 binding words after many", long + few + SIGN, long_line + line + SIGN_LINE
    # the words that an allowed pair or a match wrote, and a case that keeps its own
    other = sign(B, SLASH_A, SLASH_B, [3] * 2, [9] * 384)
    line = both_kept("not allowed", [3] * 2, [9] * 384) + "\n"
    yield "not allowed after allowed", SIGN + other + SIGN, SIGN_LINE + line + SIGN_LINE
    yield "not allowed after a match", WORDS + other + WORDS, WORDS_LINE + line + WORDS_LINE
    yield "no match after allowed", SIGN + match(A, SLASH_A, [9] * 384), SIGN_LINE + kept("no match", [9] * 384) + "\n"
    several = b"".join(follow(B, SLASH_A, SLASH_A, [0] * size) for size in (3, 2, 1, 2, 0))
    yield "paths to follow, one after the other", several, "no\naccepted\nno\naccepted\nno\n"
    yield "a path to follow after a longer one", follow(B, SLASH_A, SLASH_A, [0] * 2048) + FOLLOW, "no\n" + FOLLOW_LINE
    yield "2,000 cases with paths", (SIGN + FOLLOW) * 2000, (SIGN_LINE + FOLLOW_LINE) * 2000
    yield "100 cases with 1,024 and 2,048 words", long * 100, long_line * 100
    # the longest lines
    most = [65535] * 2048, [4294967295] * 1024
    several = sign(B, SLASH_A, SLASH_B, *most) + GOOD + sign(B, SLASH_A, SLASH_A, *most)
    yield "the largest words", several * 20, (both_kept("not allowed", *most) + "\n" + LINE + signed(*most)) * 20


def component_fields():
    """Fields of `E` that are good, too long, or no component, each behind a good case."""
    yield "two cases", COMPARE + COMPARE + GOOD, COMPARE_LINE * 2 + LINE
    yield "equal components", compare(DAY, DAY) + GOOD, "equal 8\n" + LINE
    yield "empty components", compare(component(""), component("")) + GOOD, "equal 0\n" + LINE
    yield "a small letter", COMPARE + b"e" + COMPARE[1:] + COMPARE, COMPARE_LINE + "broken\n"
    for what, bad in NO_COMPONENTS.items():
        assert len(bad) <= 65536
        for where, of in ("first", compare(bad, DAY)), ("second", compare(DAY, bad)), ("both", compare(bad, bad)):
            yield f"{what}, {where}", COMPARE + of + GOOD, COMPARE_LINE + "broken\n"
    too_long = component(bytes(65533))
    assert len(too_long) == 65537
    for what, of in (
        ("65,537 bytes, first", compare(too_long, DAY)),
        ("65,537 bytes, second", compare(DAY, too_long)),
        ("65,537 bytes, both", compare(too_long, too_long)),
        ("2^32 - 1 bytes, first", b"E" + b"\xff" * 4),
        ("2^32 - 1 bytes, second", b"E" + field(DAY) + b"\xff" * 4),
        ("2^31 bytes", b"E\x80\x00\x00\x00"),
        ("one field only", b"E" + field(DAY)),  # the next case's letter is in the length of the second
        ("a third field", field(DAY)),  # no letter stands there
    ):
        yield what, COMPARE + of + GOOD, COMPARE_LINE + "broken\n"


def long_components():
    """65,536 bytes a field, in every form, and short ones behind them: what a case has left behind is no part of the next."""
    value = some(65532)
    for what, a, b, line in (
        ("equal", LONGEST, LONGEST, "equal 65532"),
        *((f"place {i}", LONGEST, component(changed(value, i)), f"different {65532 - i}") for i in (0, 1, 32764, 65276, 65530, 65531)),
        ("all places but the last", LONGEST, component(changed(value, *range(65531))), "different 2"),
        ("a byte less in front", LONGEST, component(value[1:]), "different 0"),
        ("a byte less behind", LONGEST, component(value[:-1]), "different 0"),
        ("256 bytes less", LONGEST, component(value[:-256]), "different 0"),
        ("nothing but zeros", component(bytes(65531)), component(bytes(65532)), "different 0"),
        ("no bytes", LONGEST, component(""), "different 0"),
        ("type 9", LONGEST, component(value, 9), "different 0"),
        ("a type of 3 bytes", component(value[2:], 65535), component(value[2:], 65535), "equal 65530"),
        ("a type of 3 bytes, another first byte", component(value[2:], 253), component(changed(value[2:], 0), 253), "different 65530"),
        ("a type of 3 bytes and one of 1", component(value[2:], 264), LONGEST, "different 0"),
    ):
        short = compare(component("b"), component("c")) + compare(component(""), component("")) + compare(DAY, DAY)
        yield f"{what}, 65,536 bytes", compare(a, b) + short + GOOD, f"{line}\ndifferent 1\nequal 0\nequal 8\n" + LINE
        yield f"{what}, 65,536 bytes, exchanged", compare(b, a) + short + GOOD, f"{line}\ndifferent 1\nequal 0\nequal 8\n" + LINE
    long = compare(LONGEST, LONGEST)
    for what, of in (
        ("no bytes", compare(DAY, b"")),
        ("the beginning of the long one", compare(LONGEST[:100], DAY)),
        ("the beginning of the long one, second", compare(DAY, LONGEST[:100])),
        ("one byte missing", compare(DAY, DAY[:-1])),
    ):
        yield f"behind 65,536 bytes: {what}", long + of + GOOD, "equal 65532\nbroken\n"


def many_comparisons():
    yield "20,000 comparisons", COMPARE * 20000, COMPARE_LINE * 20000
    yield "200 comparisons of 1,018 bytes", compare(component(some(1018)), component(some(1018))) * 200, "equal 1018\n" * 200
    yield "20 comparisons of 65,532 bytes", compare(LONGEST, LONGEST) * 20, "equal 65532\n" * 20
    others = (
        (GOOD, LINE),
        (WORDS, WORDS_LINE),
        (SIGN, SIGN_LINE),
        (FOLLOW, FOLLOW_LINE),
        (WRITE, WRITE_LINE),
        (DESCRIBE, DESCRIBE_LINE),
        (SUGGEST, SUGGEST_LINE),
    )
    for of, line in others:
        yield f"{of[:1]} between comparisons", (COMPARE + of) * 50 + COMPARE, (COMPARE_LINE + line) * 50 + COMPARE_LINE
        yield f"{of[:1]} behind a long one", compare(LONGEST, LONGEST) + of + COMPARE, "equal 65532\n" + line + COMPARE_LINE
    mixed, lines = b"".join(COMPARE + of for of, _ in others), "".join(COMPARE_LINE + line for _, line in others)
    yield "all letters", mixed * 20, lines * 20
    # a component is compared as it is, also where a model or a name was before, with other bytes behind it
    parts = compare(SLASH_A, SLASH_B) + verdict(B) + compare(component(B), component(B))
    yield "a name and a model as components", parts, "different 1\n" + LINE + "equal 36\n"
