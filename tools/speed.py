#!/usr/bin/env python3
"""The speed of lvs_cases and of the reference checker (reference/, in Rust, release build) on the same cases, and the ratios.

usage: speed.py [--against PROGRAM] [--counts] [WORD..]    only the rows whose name has one of the words; none: all, in about fifteen minutes

With --against the second program is not the reference but another lvs_cases, such as one that was built before a change. One from between
requests 6 and 7, whose `S` has no binding words and whose `M` has two for each Tag, gets its cases in that form. One from before request 8,
which accepts models that are no trees, is not asked about those: such a row has our numbers only. With --counts nothing is timed.

A case is run many times by both programs, once both have given the answer that the row is about. What reading and printing it costs is
taken off: the same run with a model of the same length whose first byte is wrong, which both refuse at once; of a description to write,
the same with a number that makes it none, near its front. What a call writes is lent to it already, so that both runs print the same.
Instructions are counted by valgrind --tool=callgrind. The ratio of the times is the median over several turns, in each of which both
programs run one after the other; its least and largest value stand after it. `a byte` is our instructions for each byte of the model.

Below these stand the signing calls without the verdict's share: the instructions that a call takes to read its two names and to walk, ours and
the reference's, and those of the walk alone. The places of the Nodes, which the reference finds while it judges, are not in them; our pass
that records them is a column of its own. Nor are the binding words, which both write once, at the end. For the bushy models it is the mean over pairs of names drawn evenly.

Then what following a path takes, beside the verdict that it contains and the signing call that found the path: `over` is a following call
without its verdict, `places` the pass that records the Nodes' places, `crossings` the steps through the two names, and `each` those for one
component.

Then one suggesting call with a list of 64 certificates against 64 signing calls, one for each of them, and against the reference's call. The
last line is the stack that a level of our walk takes, read off the program.
"""
import contextlib
import io
import os
import pathlib
import random
import re
import resource
import subprocess
import sys
import tempfile

ROOT = pathlib.Path(__file__).resolve().parent.parent
sys.path[:0] = [str(ROOT / "tests/cases"), str(ROOT / "tools")]
sys.dont_write_bytecode = True
import build  # noqa: E402
from compare import build_reference, FIELDS, OUR_CASES, REFERENCE  # noqa: E402

PROGRAMS = [OUR_CASES, REFERENCE / "answer_cases"]
WITHOUT_ORIGINS = []  # those of them whose signing case has no binding words, and whose matching case has two for each Tag
WITHOUT_TREES = []  # those of them that accept a start with a Parent, and two edges of a Node to the same destination
PATH = 64  # words: one for each component that two names may have
UNUSED = 65535  # a word of a path that no call writes: no Node has so many edges
COUNTED = 4  # times that a case is run under callgrind
TIMED_SECONDS = 0.3  # for one timed run of ours, about
TURNS = 9


# models of about a given size


MOST_NODES = 256
SIZES = [1 << i for i in range(10, 16)]
LARGE_SIZES = SIZES[3:]  # where thousands of edges fit


def children(count):
    """Of the start, without edges."""
    return [build.node(i, build.parent(0)) for i in range(1, count + 1)]


def star(size, least, edge, most=MOST_NODES - 1, up=b""):
    """The start and its children, as many as there is room for with `least` bytes for the edge to each. `edge(i, room)` takes that or less."""
    room = size - len(build.model(build.node(0, up, bytes(300)))) + 300
    count = min(room // (least + len(*children(1))), most)
    ends, edges = children(count), []
    room -= sum(map(len, ends))
    for i in range(count):
        edges.append(edge(i + 1, room // (count - i)))
        room -= len(edges[-1])
    return [build.node(0, up, *edges), *ends]


def value_of(i, room):
    """A ValueEdge of so many bytes."""
    return build.value_edge(i, "p" * (room - len(build.value_edge(i, ""))))


SHORT_VALUE = len(build.value_edge(1, "part"))


def value_edges(size):
    return build.model(*star(size, SHORT_VALUE, value_of))


def pattern_edges(size):
    return build.model(*star(size, len(build.pattern_edge(1, 1)), lambda i, room: build.pattern_edge(i, 1)))


def constraints(size):
    """In each edge as many Constraints as there is room for, one at least."""
    one = build.constraint(build.option(build.call("$eq", build.tag(2))), build.option(build.value("score")))
    bare = len(build.pattern_edge(1, 1))
    return build.model(*star(size, bare + len(one), lambda i, room: build.pattern_edge(i, 1, one * ((room - bare) // len(one)))))


def optional_elements(size):
    """As many optional elements before each Value and after it as there is room for, four at least."""
    skipped = build.element(0x80, b"")

    def edge(i, room):
        around = skipped * ((room - SHORT_VALUE) // (2 * len(skipped)))
        return build.element(build.VALUE_EDGE, build.node_id(i), around, build.value("part"), around)

    return build.model(*star(size, SHORT_VALUE + 8 * len(skipped), edge))


def wide_tree(size, ways=15):
    """256 Nodes or fewer, with so many children each or none, the room shared out as RuleNames."""
    count = min(MOST_NODES, size // 32)
    name = build.rule_name("#" + "n" * (size // count - 26))
    nodes = []
    for i in range(count):
        up = [build.parent((i - 1) // ways)] if i else []
        below = range(ways * i + 1, min(ways * (i + 1) + 1, count))
        nodes.append(build.node(i, *up, name, *(build.value_edge(child, "p") for child in below)))
    return build.model(*nodes)


def chain(size):
    """One Node after the other."""
    return wide_tree(size, ways=1)


def refused_at_last(size):
    """A fault of rule 12, in the last Node that has edges."""
    nodes = star(size - 64, SHORT_VALUE, value_of, most=MOST_NODES - 2)
    last = len(nodes) - 1
    fault = build.pattern_edge(last + 1, 1, build.constraint(build.option(build.call("$no"))))
    return build.model(*nodes[:-1], build.node(last, build.parent(0), fault), build.node(last + 1, build.parent(last)))


def long_values(size):
    """ValueEdges with components of 200 bytes."""
    of = lambda i: build.value_edge(i, "p" * 200)
    return build.model(*star(size, len(of(1)), lambda i, room: of(i)))


def optional_between(size, steps=1):
    """From the start, and from each Node on so many steps for any component, an edge for the component b too, and between the two edges as many
    optional elements of two bytes as there is room for."""
    skipped, aside = build.element(0x80, b""), steps + 1

    def around(between):
        nodes = []
        for i in range(steps):
            up = [build.parent(i - 1)] if i else []
            nodes.append(build.node(i, *up, build.value_edge(aside + i, "b"), between, build.pattern_edge(i + 1, 1)))
        nodes.append(build.node(steps, build.parent(steps - 1), build.signer(steps)))
        return build.model(*nodes, *(build.node(aside + i, build.parent(i)) for i in range(steps)))

    room = size - len(around(bytes(300))) + 300 * steps
    return around(skipped * (room // steps // len(skipped)))


# models that are no trees


def start_with_parent(size):
    return build.model(*star(size, SHORT_VALUE, value_of, up=build.parent(1)))


def in_turn(size, edge, destinations):
    """As many of the edges as there is room for from the start to so many Nodes in turn."""
    ends = children(destinations)
    room = size - len(build.model(build.node(0, bytes(300)), *ends)) + 300
    return build.model(build.node(0, *(edge(1 + i % destinations) for i in range(room // len(edge(1))))), *ends)


def values_to_one(size):
    return in_turn(size, lambda i: build.value_edge(i, "part"), 1)


def patterns_to_one(size):
    return in_turn(size, lambda i: build.pattern_edge(i, 1), 1)


def values_in_turn(size):
    return in_turn(size, lambda i: build.value_edge(i, "part"), MOST_NODES - 1)


def parallel_everywhere(size):
    """256 Nodes, one after the other, with as many edges each to the next as there is room for."""
    room = size // MOST_NODES - len(build.node(1, build.parent(1)))
    count = room // len(build.value_edge(1, "p"))
    nodes = []
    for i in range(MOST_NODES):
        up = [build.parent(i - 1)] if i else []
        down = [build.value_edge(i + 1, "p")] * count if i + 1 < MOST_NODES else []
        nodes.append(build.node(i, *up, *down))
    return build.model(*nodes)


PARENT_OF_START, PARALLEL = "refused 13 ", "refused 14 "
# (shape, the answer, sizes); 255 PatternEdges without Constraints take 4 KiB with their Nodes
SHAPES = (
    (value_edges, "accepted ", SIZES),
    (pattern_edges, "accepted ", SIZES[:3]),
    (constraints, "accepted ", SIZES),
    (optional_elements, "accepted ", SIZES),
    (chain, "accepted ", SIZES),
    (wide_tree, "accepted ", SIZES),
    (refused_at_last, "refused 12 ", SIZES),
    (optional_between, "accepted ", SIZES),
    (start_with_parent, PARENT_OF_START, LARGE_SIZES),
    (values_to_one, PARALLEL, LARGE_SIZES),
    (patterns_to_one, PARALLEL, LARGE_SIZES),
    (values_in_turn, PARALLEL, LARGE_SIZES),
    (parallel_everywhere, PARALLEL, LARGE_SIZES),
)


# signing calls: (what, model, packet name, key name)


def tutorial():
    model = (ROOT / "example/model.lvs").read_bytes()
    article, author = build.path("/ndn/blog/100001/post/2022/1"), "/ndn/blog/author/%s/KEY/1/000001/1"
    yield "tutorial, allowed", model, article, build.path(author % "100001")
    yield "tutorial, not allowed", model, article, build.path(author % "100002")


def long_names(what="long names", named=32):
    """32 components and 1,024 bytes in each name, every component bound in one and compared in the other, if its Tag is named."""
    count = 32
    nodes = [build.node(0, build.pattern_edge(1, 1))]
    for i in range(1, count):
        nodes.append(build.node(i, build.parent(i - 1), build.pattern_edge(i + 1, i + 1)))
    nodes.append(build.node(count, build.parent(count - 1), build.signer(count)))
    name = build.name(*(f"{i:029}" for i in range(count - 1)), "x" * 57)
    assert len(name) == 1024
    yield what, build.model(*nodes, patterns=named), name, name


def many_nodes():
    """254 ways out of the start, and the last of them is taken."""
    ways = [build.value_edge(i, f"{i:03}") for i in range(1, 255)]
    nodes = [build.node(0, *ways), *(build.node(i, build.parent(0), build.signer(i)) for i in range(1, 255))]
    yield "wide Node", build.model(*nodes), build.path("/254"), build.path("/254")


INSTRUMENTS = "flute oboe clarinet bassoon horn trumpet trombone tuba timpani harp violin viola cello bass piano".split()


def bushy(words):
    """241 Nodes: from Node 0 and from fourteen of its children 15 ValueEdges and a PatternEdge each, with RuleNames."""
    count, nodes = 241, []
    for i in range(count):
        children = range(16 * i + 1, min(16 * i + 17, count))
        values = [build.value_edge(child, word) for child, word in zip(children, words)]
        pattern = [build.pattern_edge(child, 1 + i % 8) for child in children[15:]]
        up = [build.parent((i - 1) // 16)] if i else []
        nodes.append(build.node(i, *up, build.rule_name(f"#rule{i}"), *values, *pattern, build.signer(i)))
    return build.model(*nodes, patterns=8)


ALIKE = [f"w{i:02}" for i in range(15)]  # values that differ at their end only


def bushy_models():
    name = build.path("/bass/piano")
    yield "bushy", bushy(INSTRUMENTS), name, name
    name = build.path("/w13/w14")
    yield "bushy, values alike", bushy(ALIKE), name, name


def drawn(words, count):
    """Signing calls on a bushy model, with names that lead to a signer: the first step by a value, the second by a value or by the pattern."""
    draw, model = random.Random(1), bushy(words)
    for _ in range(count):
        name = build.path(f"/{draw.choice(words[:14])}/{draw.choice(words + ['other'])}")
        yield sign("allowed", model, name, name)


def branching(ways, steps, named, *signers):
    """A tree with so many ways from each Node, which any component passes, up to so many steps from the start; its last Node has these signers."""
    inner = sum(ways**step for step in range(steps))
    last = inner * ways
    nodes = []
    for i in range(last + 1):
        up = [build.parent((i - 1) // ways)] if i else []
        below = range(ways * i + 1, ways * (i + 1) + 1) if i < inner else ()
        edges = [build.pattern_edge(child, 2 - child % 2) for child in below]
        nodes.append(build.node(i, *up, *edges, *(map(build.signer, signers) if i == last else ())))
    return build.model(*nodes, patterns=named)


def backtracking(what="deep backtracking", named=2):
    """Two ways from each Node, six times, and no signer: each pair of paths is tried."""
    name = build.path("/a/a/a/a/a/a")
    yield what, branching(2, 6, named), name, name


def wide_backtracking(what="wide backtracking", named=2):
    """As many ways from the start as a tree can have: no model makes a signing call try more edges."""
    yield what, branching(MOST_NODES - 1, 1, named), build.path("/a"), build.path("/a")


def long_comparisons():
    """The same with one component in each name, as long as can be: where its Tag is bound, it is compared as a whole."""
    name = build.name("d" * 1016)
    assert len(name) == 1024
    yield "wide backtracking, long components", branching(MOST_NODES - 1, 1, 2), name, name


def temporary():
    """Some of these with no Tag named: nothing is bound or compared."""
    yield from long_names("long names, temporary", named=0)
    yield from backtracking("deep backtracking, temporary", named=0)
    yield from wide_backtracking("wide backtracking, temporary", named=0)


def compared():
    """32 ways out of the start with values of 100 bytes or more, the last of which is taken: unequal in one byte, or in length."""
    shapes = {"last byte": lambda i: "d" * 99 + chr(48 + i), "first byte": lambda i: chr(48 + i) + "d" * 99, "length": lambda i: "d" * (100 + i)}
    for what, value in shapes.items():
        ways = [build.value_edge(i, value(i)) for i in range(1, 33)]
        nodes = [build.node(0, *ways), *(build.node(i, build.parent(0), build.signer(i)) for i in range(1, 33))]
        name = build.name(value(32))
        yield f"long values, {what}", build.model(*nodes), name, name


def answered(*groups):
    """(what, the answer, model, packet name, key name)"""
    for calls in groups:
        for what, *call in calls():
            yield what, "not allowed" if "not allowed" in what or "backtracking" in what else "allowed", *call


def signings():
    return answered(tutorial, long_names, many_nodes, bushy_models, backtracking, wide_backtracking, temporary, compared)


def matchings():
    """(what, the answer, model, packet name)"""
    for what, answer, model, packet, key in signings():
        if "backtracking" in what:
            longer = build.element(build.NAME, packet[2:], build.component("a"))  # than any path of the model
            yield f"match, {what}", "no match", model, longer
        elif answer == "allowed":
            yield f"match, {what.removesuffix(', allowed')}", "match", model, packet


# following calls: (what, model, packet name, key name, words of the path; None: those that the signing call writes)


def few_nodes():
    """Five Nodes, of an ordinary application's size: a document of a user's, and the user's key."""
    model = build.tree(("site", (1,), "doc", [4]), ("site", (1,), "KEY", []))
    yield "a few Nodes", model, build.path("/site/alice/doc"), build.path("/site/alice/KEY")


def last_pairs():
    """Backtracking with a pair at its end: of all pairs of paths only the last leads to a signer."""
    for steps in (1, 3, 5, 7):
        name, last = build.path("/a" * steps), 2 ** (steps + 1) - 2
        yield f"deep, {steps} step{'s' * (steps > 1)}", branching(2, steps, 2, last), name, name
    for ways in (15, 63, 255):
        yield f"wide, {ways} ways", branching(ways, 1, 2, ways), *[build.path("/a")] * 2


def counted_past():
    """By the first edge of 255, and by the last, each of which leads to a Node that signs itself."""
    edges = MOST_NODES - 1
    nodes = [build.node(i, build.parent(0), build.signer(i)) for i in range(1, edges + 1)]
    model = build.model(build.node(0, *(build.pattern_edge(i, 1) for i in range(1, edges + 1))), *nodes)
    for ordinal in (0, edges - 1):
        yield f"255 edges, edge {ordinal}", model, *[build.path("/a")] * 2, [ordinal] * 2


def skipped_past():
    """By one edge behind as many optional elements as there is room for; and by 32 edges, each behind its share of these."""
    for steps in (1, 32):
        yield f"optional elements, {steps} step{'s' * (steps > 1)}", optional_between(1 << 15, steps), *[build.path("/a" * steps)] * 2


def followings():
    (_, *article), _ = tutorial()
    yield "tutorial", *article, None
    for calls in (few_nodes, long_names, many_nodes, bushy_models, last_pairs, skipped_past):
        for call in calls():
            yield *call, None
    yield from counted_past()


CERTIFICATES = 64  # the most that a list has


def suggestings():
    """(what, whether the last one may sign, model, packet name, certificate names): no other may, and by the model for backtracking none may"""
    (_, model, article, author), (*_, other) = tutorial()
    yield "64 certificates, tutorial", True, model, article, [other] * (CERTIFICATES - 1) + [author]
    for calls in (long_names, many_nodes, bushy_models, backtracking):
        for what, model, packet, key in calls():
            other = key[:-1] + bytes([key[-1] ^ 1])
            yield f"64 certificates, {what}", calls is not backtracking, model, packet, [other] * (CERTIFICATES - 1) + [key]


NUMBERS = 8192  # that a case may have
NO_FLAG = 4  # the place of the first Node's flag before its Parent, among the numbers


def lists_of(model):
    """The description of a model, by the reference."""
    case = build.describe(model, [0] * NUMBERS, bytes(1 << 15))
    line = subprocess.run([PROGRAMS[1]], input=case, capture_output=True, check=True).stdout.split()
    if line[0] != b"described":
        return None
    count, size = int(line[1]), int(line[2])
    return [int(word) for word in line[3:3 + count]], bytes.fromhex(line[-1].decode())[:size]


def descriptions():
    """(what, the answer, model, case, the case that is refused at once)"""
    for shape, sizes in (value_edges, SIZES), (pattern_edges, SIZES[:3]), (constraints, SIZES), (chain, SIZES), (long_values, SIZES):
        for size in sizes:
            model = shape(size)
            lists = lists_of(model)
            if lists is None:
                continue  # more numbers than a case may have
            numbers, texts = lists
            none = numbers[:NO_FLAG] + [2] + numbers[NO_FLAG + 1:]
            where = f"{shape.__name__}, {size >> 10} KiB"
            yield f"write, {where}", "written", model, build.write(numbers, texts, model), build.write(none, texts, model)
            case = build.describe(model, numbers, texts)
            yield f"describe, {where}", "described", model, case, spoiled(case)


def workloads():
    """(what, the answer, model, case, the case that is refused at once)"""
    for shape, answer, sizes in SHAPES:
        for size in sizes:
            model = shape(size)
            assert size // 2 < len(model) <= size, (shape.__name__, size, len(model))
            case = build.verdict(model)
            yield f"verdict, {shape.__name__}, {size >> 10} KiB", answer, model, case, spoiled(case)
    for what, answer, model, packet, key in (*signings(), *answered(long_comparisons)):
        case = sign(answer, model, packet, key)
        yield what, answer, model, case, spoiled(case)
    for what, answer, model, packet in matchings():
        case = match(answer, model, packet)
        yield what, answer, model, case, spoiled(case)
    yield from descriptions()


# cases


def line_of(program, case):
    return subprocess.run([program], input=form(program, case), capture_output=True, check=True).stdout.decode()


def lent(answer, case, count):
    """The words that a call leaves in the last `count` of a case, ours."""
    line = line_of(PROGRAMS[0], case)
    assert line.startswith(answer), (answer, line[:60])
    return [int(word) for word in line.split()[-count:]]


def signed(answer, model, packet, key):
    """What a signing call leaves in the path, with a word for each component that a name may have, and in the binding words."""
    words = lent(answer, build.sign(model, packet, key, [UNUSED] * PATH), len(build.OLD) + PATH)
    return words[-PATH:], words[:-PATH]


def sign(answer, model, packet, key):
    """A signing call; what it leaves in its words stands there before it, too."""
    return build.sign(model, packet, key, *signed(answer, model, packet, key))


def match(answer, model, packet):
    return build.match(model, packet, lent(answer, build.match(model, packet, build.OLD), len(build.OLD)))


def has_origins(program):
    """Whether the program's `S` has binding words: without them a case is broken off."""
    model, name = build.model(build.node(0)), build.path("/")
    return subprocess.run([program], input=older(b"S", [model, name, name, b"", b""]), capture_output=True, check=True).stdout == b"broken\n"


def has_trees(program):
    """Whether the program refuses a start with a Parent."""
    return line_of(program, build.verdict(build.model(build.node(0, build.parent(0))))).startswith(PARENT_OF_START)


def older(letter, fields):
    """A case as it was before request 7."""
    if letter == b"S":
        del fields[3]
    if letter == b"M":
        words = [fields[2][i:i + 4] for i in range(0, len(fields[2]), 4)]
        fields[2] = b"".join(word for i, word in enumerate(words) if i % 3 < 2)
    return letter + b"".join(map(build.field, fields))


def form(program, cases):
    """The cases as the program reads them."""
    if program not in WITHOUT_ORIGINS:
        return cases
    written = b""
    with io.BytesIO(cases) as given:
        while letter := given.read(1):
            fields = [given.read(int.from_bytes(given.read(4), "big")) for _ in range(FIELDS[letter])]
            written += older(letter, fields)
    return written


# measuring


def spoiled(case):
    """The same with a model that is refused at once."""
    return case[:5] + b"\0" + case[6:]


def instructions(program, case, *inside):
    """Instructions for one case; with `inside`, only those in a function of that name and what it calls."""
    with tempfile.TemporaryFile() as given:
        given.write(form(program, case) * COUNTED)
        given.seek(0)
        collect = [f"--toggle-collect={name}" for name in inside]
        counter = ["valgrind", "--tool=callgrind", "--callgrind-out-file=/dev/null", *collect, str(program)]
        ran = subprocess.run(counter, stdin=given, capture_output=True, check=True)
    return int(re.search(rb"Collected : (\d+)", ran.stderr).group(1)) / COUNTED


def seconds(program, given):
    os.lseek(given.fileno(), 0, os.SEEK_SET)
    before = resource.getrusage(resource.RUSAGE_CHILDREN).ru_utime
    subprocess.run([program], stdin=given, stdout=subprocess.DEVNULL, check=True)
    return resource.getrusage(resource.RUSAGE_CHILDREN).ru_utime - before


def time_ratios(case, base, count):
    """Ours : the reference's in each turn, sorted."""
    with contextlib.ExitStack() as files:
        runs = []
        for program in PROGRAMS:
            real, empty = (files.enter_context(tempfile.TemporaryFile()) for _ in range(2))
            for file, one in ((real, form(program, case)), (empty, form(program, base))):
                for _ in range(count):
                    file.write(one)
                file.flush()
            runs.append((program, real, empty))
        turns = []
        for _ in range(TURNS):
            ours, theirs = (seconds(program, real) - seconds(program, empty) for program, real, empty in runs)
            turns.append(ours / theirs)
    return sorted(turns)


def expect(answer, case, base, programs):
    """The programs answer so, and refuse what is taken off."""
    for program in programs:
        for wanted, given in ((answer, case), ("refused ", base)):
            line = line_of(program, given)
            assert line.startswith(wanted) and line.count("\n") == 1, (program, wanted, line[:60])


def row(what, answer, model, case, base, timed):
    """Both programs, or ours alone of a model that is no tree where the other does not refuse that."""
    programs = [program for program in PROGRAMS if answer not in (PARENT_OF_START, PARALLEL) or program not in WITHOUT_TREES]
    expect(answer, case, base, programs)
    ours, *other = (instructions(program, case) - instructions(program, base) for program in programs)
    theirs = ratio = median = spread = ""
    if other:
        theirs, ratio = f"{other[0]:.0f}", f"{ours / other[0]:.3f}"
    if other and timed:
        count = max(1, int(TIMED_SECONDS * 5e9 / max(ours, 1)))
        count = min(count, (256 << 20) // len(case))
        times = time_ratios(case, base, count)
        median, spread = f"{times[TURNS // 2]:.2f}", f"{times[0]:.2f} to {times[-1]:.2f}"
    print(f"{what:<40}{ours:>12.0f}{theirs:>12}{ratio:>8}{median:>8}{spread:>16}{ours / len(model):>8.1f}", flush=True)


def walks():
    """(what, cases)"""
    for what, answer, model, packet, key in signings():
        if "bushy" not in what:
            yield what, [sign(answer, model, packet, key)]
    yield "bushy", list(drawn(INSTRUMENTS, 48))
    yield "bushy, values alike", list(drawn(ALIKE, 48))


NAMES, WALK, PLACES, FOLLOW = "lvs_names::read_name", "lvs_walk::walk", "lvs_edges::nodes::Nodes::of", "lvs_follow::follow_name"
# as the reference calls the first two, and what it writes while it still walks, which ours does behind the walk
THEIRS = {"names": "*Name*load*", "walk": "*walk_from*", "words": "*write_bindings*"}


def walk_row(what, cases):
    ours, theirs = (lambda *inside, program=program: instructions(program, b"".join(cases), *inside) / len(cases) for program in PROGRAMS)
    walk, their_walk = ours(WALK), theirs(THEIRS["walk"]) - (theirs(THEIRS["words"]) if "words" in THEIRS else 0)
    request, their_request = walk + ours(NAMES), their_walk + theirs(THEIRS["names"])
    print(f"{what:<28}{request:>10.0f}{their_request:>10.0f}{request / their_request:>7.2f}"
          f"{walk:>12.0f}{their_walk:>12.0f}{walk / their_walk:>7.2f}{ours(PLACES):>9.0f}", flush=True)


def follow_row(what, model, packet, key, words):
    """Ours, and the other program's."""
    signing = sign("allowed", model, packet, key)
    if words is None:
        words = [word for word in signed("allowed", model, packet, key)[0] if word != UNUSED]
    count, following = len(words), build.follow(model, packet, key, words)
    for program in PROGRAMS:
        assert line_of(program, following) == "accepted\n", (what, line_of(program, following))
    cost = lambda case, program=PROGRAMS[0]: instructions(program, case) - instructions(program, spoiled(case))
    verdict, found = cost(build.verdict(model)), cost(signing)
    follow, theirs = (cost(following, program) for program in PROGRAMS)
    over, places, crossings = follow - verdict, *(instructions(PROGRAMS[0], following, inside) for inside in (PLACES, FOLLOW))
    print(f"{what:<32}{count:>6}{verdict:>10.0f}{found:>12.0f}{follow:>10.0f}{found / follow:>9.2f}{over:>10.0f}{places:>8.0f}"
          f"{crossings:>11.0f}{crossings / count:>8.0f}{theirs:>11.0f}{follow / theirs:>7.2f}", flush=True)


def suggest_row(what, is_allowed, model, packet, keys):
    """One call for the list, and a signing call for each of its certificates."""
    case = build.suggest(model, packet, b"".join(keys))
    expect(f"certificate {CERTIFICATES - 1}" if is_allowed else "none", case, spoiled(case), PROGRAMS)
    ours, theirs = (instructions(program, case) - instructions(program, spoiled(case)) for program in PROGRAMS)
    signing = [sign("not allowed", model, packet, key) for key in keys[:1]] * (CERTIFICATES - 1)
    signing.append(sign("allowed" if is_allowed else "not allowed", model, packet, keys[-1]))
    calls = sum(sign * instructions(PROGRAMS[0], b"".join(cases)) for sign, cases in ((1, signing), (-1, map(spoiled, signing))))
    print(f"{what:<40}{ours:>12.0f}{calls:>12.0f}{ours / calls:>8.3f}{theirs:>12.0f}{ours / theirs:>8.2f}", flush=True)


def frame():
    """Bytes of the stack for a level of the walk: its locals, the registers that it saves, the return address, and the arguments for the
    next level that are pushed, if their places are not among the locals."""
    code = subprocess.run(["objdump", "-d", str(PROGRAMS[0])], capture_output=True, text=True, check=True).stdout
    start = code.index("<lvs_walk::walk>:")
    code = code[start:code.index("\n\n", start)]
    locals_ = int(re.search(r"sub +\$0x([0-9a-f]+),%rsp", code).group(1), 16)
    pushed = re.findall(r"call .*<lvs_walk::walk>\n.*add +\$0x([0-9a-f]+),%rsp", code)
    arguments = max((int(size, 16) for size in pushed), default=0)
    return locals_ + code[:code.index("sub ")].count("push ") * 8 + 8 + arguments


def main():
    words = sys.argv[1:]
    second = "reference"
    if words[:1] == ["--against"]:
        second, PROGRAMS[1], words = "other", words[1], words[2:]
        THEIRS.clear()
        THEIRS.update(names=NAMES, walk=WALK)
        if not has_origins(PROGRAMS[1]):
            WITHOUT_ORIGINS.append(PROGRAMS[1])
        if not has_trees(PROGRAMS[1]):
            WITHOUT_TREES.append(PROGRAMS[1])
    else:
        build_reference()
    timed = words[:1] != ["--counts"]
    words = words if timed else words[1:]
    wanted = lambda what: not words or any(word in what for word in words)
    print(f"{'':<40}{'ours':>12}{second:>12}{'ratio':>8}{'time':>8}{'':>16}{'a byte':>8}")
    for what, *measured in workloads():
        if wanted(what):
            row(what, *measured, timed)
    print(f"\n{'without the verdict':<28}{'ours':>10}{second:>10}{'ratio':>7}{'our walk':>12}{'their walk':>12}{'ratio':>7}{'places':>9}")
    for what, cases in walks():
        if wanted(what):
            walk_row(what, cases)
    print(f"\n{'following':<32}{'words':>6}{'verdict':>10}{'sign':>12}{'follow':>10}{'sign : 1':>9}{'over':>10}{'places':>8}{'crossings':>11}{'each':>8}"
          f"{second:>11}{'ratio':>7}")
    for what, *call in followings():
        if wanted(f"follow, {what}"):
            follow_row(what, *call)
    print(f"\n{'':<40}{'one call':>12}{'64 signings':>12}{'share':>8}{second:>12}{'ratio':>8}")
    for what, *call in suggestings():
        if wanted(what):
            suggest_row(what, *call)
    print(f"\na level of the walk takes {frame()} bytes of the stack")


if __name__ == "__main__":
    main()
