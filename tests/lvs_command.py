#!/usr/bin/env python3
"""Runs tools/lvs as a person would, and compares all that it prints and its exit status with what is written here.

usage: lvs_command.py

Every subcommand, every exit status, every refusal and every error text; the examples in README and in the help texts; what is said of
malformed models, of bindings and of paths; trees of any models; texts of models, shown and built again; and builds, in a copy of tools/
with another rt. Models are made with tests/cases/build.py.
"""
import collections
import concurrent.futures
import functools
import itertools
import json
import os
import pathlib
import pty
import random
import re
import shutil
import signal
import subprocess
import sys
import tempfile
from typing import NamedTuple

ROOT = pathlib.Path(__file__).resolve().parent.parent
sys.path[:0] = [str(ROOT / "tests/cases"), str(ROOT / "tools")]
sys.dont_write_bytecode = True
import crossings  # noqa: E402
import explanations  # noqa: E402
import name as names  # noqa: E402
import texts  # noqa: E402
import uris  # noqa: E402
from bench import A, B  # noqa: E402
from build import *  # noqa: E402, F403
from certificates import fields  # noqa: E402
from gaps import FULL, parts  # noqa: E402
from lvs_command import answers, description, driver, errors, follow as following, malformed, path as paths, refusals, text as text_form  # noqa: E402
from lvs_command import tree as trees  # noqa: E402
from lvs_command.model import Labels  # noqa: E402
from random_models import canonical, random_models  # noqa: E402
from run_cases import TABLES, table  # noqa: E402
from temporary import TUTORIAL_SHARED, with_count  # noqa: E402
from texts import A_TEXT, B_TEXT, LEAST  # noqa: E402

EXAMPLE = (ROOT / "example/model.lvs").read_bytes()
REQUESTS = (ROOT / "example/requests.txt").read_text()
ARTICLE = "/ndn/blog/100001/post/2022/1"
AUTHOR = "/ndn/blog/author/100001/KEY/1/000001/1"
ROOT_KEY = "/ndn/blog/KEY/1/self/1"
ADMIN = "/ndn/blog/admin/000001/KEY/1/root/1"
ALLOWED = "allowed: packet at node 28, key at node 18\n"
ARTICLE_BINDINGS = "  tag 2 = 100001, from the packet\n  tag 3 = 2022, from the packet\n  tag 4 = 1, from the packet\n"

# rule names, symbols, every kind of term, optional elements at several depths, and a node that nothing leads to
SKIPPED = element(0x80, b"abc")
NAMED = model(
    node(0, rule_name("#top"), value_edge(1, component(b"\x03", 54)), pattern_edge(2, 1)),
    node(1, SKIPPED, parent(0), rule_name("#time"), rule_name("#v"), pattern_edge(3, 2, constraint(SKIPPED, option(value("x")), option(tag(1))))),
    node(2, parent(0), pattern_edge(4, 3, constraint(), constraint(option(call("$eq", tag(1))), option(call("$eq_type", value("a=b")))))),
    node(3, parent(1), rule_name("#end"), signer(2), signer(1)),
    node(4, parent(2), signer(3)),
    node(5, element(VALUE_EDGE, node_id(6), element(0xFFFE, b""), value("y"))),
    node(6, parent(5)),
    patterns=2,
    behind=symbol(1, "user") + element(SYMBOL, tag(2), element(0x80, b"z"), element(IDENTIFIER, b"part")) + symbol(3, "part") + symbol(1, "again"),
)
# two nodes that are each other's parent and one that is its own, none of them the start or reachable from it
CYCLE = model(
    node(0, value_edge(1, "c")),
    node(1, parent(0)),
    node(2, parent(3), value_edge(3, "a")),
    node(3, parent(2), value_edge(2, "b")),
    node(4, parent(4), pattern_edge(4, 1)),
)
ANY = tree([(1,), (2,), (3,), (4,), (5,), (6,), (7,), ()])  # seven components, each bound
# Tags 2 to 5 are temporary, on edges and in terms, with symbols of every kind and without
TEMPORARY = tree(
    [(1,), (2,), (2, constraint(option(tag(1)), option(tag(2)))), (3,)],
    [(3, must_be("x")), (4, constraint(option(call("$eq", tag(5))), option(value("y")))), ()],
    patterns=1,
) + symbol(1, "user") + symbol(2, "_role") + symbol(3, "part") + symbol(4, "_")

# the key meets Tag 1 of the packet again, and binds 3, which it meets twice, 4 and 5; 2 and 4 share a symbol, 5 has none, 6 is temporary
ORIGINS = tree(
    ["data", (1,), (2,), (6,), [11]],
    ["key", (1,), (3,), (3,), (4,), (5,), (6,), ()],
    patterns=5,
) + symbol(1, "user") + symbol(2, "part") + symbol(3, "issuer") + symbol(4, "part") + symbol(6, "_nonce")
ITSELF = model(node(0, signer(0)))  # the empty name is signed by itself
TWICE = tree([(1,), (1, must_be("x")), (2,)])  # the same component twice, and only x
ROOMLESS = model(node(0, value_edge(1, "a")), node(1, parent(0)))  # no signer, which takes three bytes


def chain(count):
    return model(*(node(i, *([parent(i - 1)] if i else []), *([value_edge(i + 1, "p")] if i + 1 < count else [])) for i in range(count)))


def branching(*more):
    """Node 1 has an edge each to nodes 2 and 3, and these."""
    edges = value_edge(2, "a"), value_edge(3, "b"), *more
    return model(node(0, value_edge(1, "a")), node(1, parent(0), *edges), node(2, parent(1)), node(3, parent(1), signer(3)))


def many_numbers(options):
    """A model of 256 nodes and one edge with a constraint of so many options. An option of a component of no bytes is 4 numbers in 6 bytes."""
    many = [option(value(component("")))] * options
    return model(node(0, pattern_edge(1, 1, constraint(*many))), node(1, parent(0)), *map(node, range(2, 256)))


# its description has 4 numbers, 6 for each node, 1 for the Parent, 3 for the edge, 1 for the constraint and 4 for each option; an accepted
# model's has at most 22,516
FITTING = (min(driver.NUMBERS, 22516) - (4 + 6 * 256 + 1 + 3 + 1)) // 4


CRITICAL = B[:13] + b"\x0d" + B[14:17] + b"\x81\x00" + B[17:]  # in its first Node, behind the NodeId


def large(term):
    """A model of 9 KB with this term in an option of Node 170."""
    nodes = [node(i, rule_name(f"#rule_{i}"), pattern_edge(i, 1, must_be("a value", "another")), signer(i)) for i in range(180)]
    nodes[170] = node(170, parent(0), pattern_edge(170, 1, constraint(option(tag(1)), option(call("$eq", term)))))
    return model(*nodes)


FILES = {
    "critical.lvs": CRITICAL,
    "large.lvs": large(element(TAG, bytes(3))),
    "fitting.lvs": many_numbers(FITTING),
    "numbers.lvs": many_numbers(FITTING + 1),
    "example.lvs": EXAMPLE,
    "certificates.txt": (ROOT / "example/certificates.txt").read_bytes(),
    "wrong.txt": b"/%\n",
    "a.lvs": A,
    "b.lvs": B,
    "named.lvs": NAMED,
    "cycle.lvs": CYCLE,
    "any.lvs": ANY,
    "none-named.lvs": with_count(B, 0),
    "shared.lvs": TUTORIAL_SHARED,
    "temporary.lvs": TEMPORARY,
    "origins.lvs": ORIGINS,
    "itself.lvs": ITSELF,
    "twice.lvs": TWICE,
    "room.lvs": padded(ROOMLESS, 32765),
    "no-room.lvs": padded(ROOMLESS, 32766),
    "longest.lvs": padded(A, 32768),
    "r1.lvs": padded(A, 32769),
    "r1-driver.lvs": padded(A, 65536),
    "r1-above.lvs": padded(A, 65537),
    "r1-far.lvs": bytes(300000),
    "r2.lvs": EXAMPLE[:-1],
    "r3.lvs": EXAMPLE[:5] + b"\x01" + EXAMPLE[6:],
    "r4.lvs": chain(257),
    "deep.lvs": chain(1500),
    "r5.lvs": model(node(0, pattern_edge(0, 0))),
    "r6.lvs": model(node(0), node(7)),
    "r7.lvs": model(node(0), start=3),
    "r8.lvs": model(node(0, value_edge(9, "a"))),
    "r9.lvs": model(node(0), node(1, signer(4))),
    "r10.lvs": model(node(0, pattern_edge(1, 1, constraint(option(), option(value("a"), tag(2))))), node(1, parent(0))),
    "r11.lvs": model(node(0, value_edge(1, "a"), value_edge(2, "b")), node(1, parent(2)), node(2)),
    "r12.lvs": model(node(0), node(1, pattern_edge(2, 1, constraint(option(call("$no"))))), node(2, parent(1))),
    "r13.lvs": model(node(0, parent(1), value_edge(1, "a")), node(1, parent(0), value_edge(0, "b")), start=1),
    "r13-far.lvs": model(node(0, parent(9), value_edge(1, "a")), node(1, parent(0))),
    "r14.lvs": branching(pattern_edge(2, 1)),
    "branching.lvs": branching(),
}
MODEL_REFUSALS = range(1, 15)

NOT_A_NAME = "malformed: it is not one name element with nothing but components in it"
REFUSED = {
    1: "refused 1: the model is longer than 32,768 bytes",
    2: "refused 2 at byte 605: the model is malformed: its bytes are not the elements of an LVS model, or not in their order",
    3: "refused 3: the model has another version of the format than 0x00011000",
    4: "refused 4: the model has more than 256 nodes",
    5: "refused 5: a tag in the model is 0 or above 128",
    6: "refused 6 at node 1: this node's NodeId is not its position in the model, counted from 0",
    7: "refused 7: the model's StartId names no node",
    8: "refused 8 at node 0: this node has an edge to a node that does not exist",
    9: "refused 9 at node 1: this node lists a signer that does not exist",
    10: "refused 10 at node 0: this node has a constraint option that is not exactly one value, tag or function call",
    11: "refused 11 at node 0: this node has an edge to a node whose Parent is missing or names another node",
    12: "refused 12 at node 1: this node calls an unknown function, or a known one with a wrong number of arguments",
    13: "refused 13 at node 1: this node is the start and has a Parent",
    14: "refused 14 at node 1: this node has two edges to the same node",
    21: "refused 21: the packet name is longer than 1,024 bytes",
    22: f"refused 22: the packet name is {NOT_A_NAME}",
    23: "refused 23: the packet name has more than 32 components",
    24: "refused 24: the key name is longer than 1,024 bytes",
    25: f"refused 25: the key name is {NOT_A_NAME}",
    26: "refused 26: the key name has more than 32 components",
    27: "refused 27: the buffer for the bindings has fewer than 384 words",
    30: "refused 30: the two lists are no description, or too short for the model's",
    31: "refused 31: the buffer for the model is too short",
    32: "refused 32 at entry 2: this entry of the list is no key name: it is malformed, longer than 1,024 bytes, or has more than 32 components",
    33: "refused 33: the list has more than 64 entries",
    34: "refused 34: the buffer for the path has fewer words than the two names have components",
}


class Run(NamedTuple):
    """A run of the command: its words and standard input, and what it must end with and print."""

    words: list
    status: int
    out: str = ""
    err: str = ""
    given: bytes = b""


def judge_runs():
    yield Run(["judge", "example.lvs"], 0, "accepted: 29 nodes\n")
    yield Run(["judge", "a.lvs"], 0, "accepted: 1 node\n")
    yield Run(["judge", "longest.lvs"], 0, "accepted: 1 node\n")
    yield Run(["judge", "-"], 0, "accepted: 2 nodes\n", given=B)
    yield Run(["judge", "--json", "example.lvs"], 0, '{"answer": "accepted", "nodes": 29}\n')
    for number in MODEL_REFUSALS:
        if number != refusals.MALFORMED:
            yield Run(["judge", f"r{number}.lvs"], 2, REFUSED[number] + "\n")
    for file in ("r1-driver.lvs", "r1-above.lvs", "r1-far.lvs", "/dev/zero"):
        yield Run(["judge", file], 2, REFUSED[1] + "\n")
    for number, at in (3, 0), (9, 1):
        meaning = REFUSED[number].partition(": ")[2]
        yield Run(["judge", "--json", f"r{number}.lvs"], 2, f'{{"answer": "refused", "number": {number}, "node": {at}, "meaning": "{meaning}"}}\n')
    yield Run(["judge", "cycle.lvs"], 0, "accepted: 5 nodes\n")
    yield Run(["judge", "r13-far.lvs"], 2, refused_words(13, 0) + "\n")


def no_tree_runs():
    """A loop through the start, and two edges to the same node: each command refuses them, whatever the names, the path and the list are."""
    for number in 13, 14:
        file, of = f"r{number}.lvs", {"answer": "refused", "number": number, "node": 1, "meaning": REFUSED[number].partition(": ")[2]}
        for words in (
            *(["judge", file], ["show", file], ["match", file, "/"], ["match", file, "/a/b"], ["match", file, "0x"]),
            *(["sign", file, "/", "/"], ["sign", file, "/a/b", "0x"], ["sign", "--path", file, "/a/b", "/a/b"], ["sign", "--bindings", file, "-"]),
            *(["follow", file, "/", "/", "none"], ["follow", file, "/a/b", "/a/b", "0,0,0,0"], ["follow", file, "0x", "/", "0"]),
            *(["suggest", file, "/a/b", "certificates.txt"], ["suggest", file, "0x", "/dev/null"]),
        ):
            yield Run(words, 2, REFUSED[number] + "\n", given=b"/a/b /a/b\n")
            yield Run([words[0], "--json", *words[1:]], 2, json.dumps(of) + "\n", given=b"/a/b /a/b\n")
    # with one edge each there is an answer
    yield Run(["follow", "branching.lvs", "/a/b", "/a/b", "0,1,0,1"], 0, "accepted\n")
    yield Run(["sign", "--path", "branching.lvs", "/a/b", "/a/b"], 0, """\
allowed: packet at node 3, key at node 3
  packet:
    node 0, edge 0, value: a -> node 1
    node 1, edge 1, value: b -> node 3
  key:
    node 0, edge 0, value: a -> node 1
    node 1, edge 1, value: b -> node 3
  path 0,1,0,1
""")


def malformed_runs():
    def refused(place, *lines):
        return "".join(line + "\n" for line in (refused_words(2, place), *lines))

    def refused_object(place, found, around):
        of = {"answer": "refused", "number": 2, "place": place, "meaning": REFUSED[2].partition(": ")[2]}
        return json.dumps({**of, "found": found, "in": around}) + "\n"

    no_version = "the model ends, and its Version is missing"
    yield Run(["judge", "-"], 2, refused(0, f"  {no_version}", "  in the model itself", "  byte 0 (0x0):  []"))
    yield Run(["judge", "--json", "-"], 2, refused_object(0, no_version, []))
    cut = "  byte 605 (0x25D):  .. 53 06 25 01 1C 23 01 04 [63 0C 25 01 1C 57 01 1B 55 01 0C 55 ..]"
    yield Run(["judge", "r2.lvs"], 2, refused(605, "  Node of 12 bytes, and 11 are left in the model", "  in the model itself", cut))
    found, line = "element of the unknown critical type 0x81", "  byte 17 (0x11):  .. 69 01 01 63 0D 25 01 00 [81 00] 53 06 25 01 01 23 01 01 .."
    yield Run(["judge", "critical.lvs"], 2, refused(17, f"  {found}", "  in Node 0 at byte 12", line))
    yield Run(["judge", "--json", "critical.lvs"], 2, refused_object(17, found, [{"container": "Node", "node": 0, "start": 12}]))
    inner = ("PatternEdge", 9260), ("Constraint", 9268), ("ConstraintOption", 9275), ("UserFnCall", 9277), ("UserFnArg", 9284)
    found, words = "Tag of 3 bytes, and an integer takes 1, 2, 4 or 8", "".join(f" > {of} at byte {start}" for of, start in inner)
    line = "  byte 9286 (0x2446):  .. 0C 27 03 24 65 71 33 05 [23 03 00 00 00] 63 35 25 01 AB 29 09 23 .."
    yield Run(["judge", "large.lvs"], 2, refused(9286, f"  {found}", f"  in Node 170 at byte 9252{words}", line))
    around = [{"container": "Node", "node": 170, "start": 9252}, *({"container": of, "start": start} for of, start in inner)]
    yield Run(["judge", "--json", "large.lvs"], 2, refused_object(9286, found, around))
    # of the other commands the refusal alone
    for words in ["match", "r2.lvs", "/"], ["sign", "r2.lvs", "/", "/"], ["sign", "r2.lvs", "-"], ["follow", "r2.lvs", "/", "/", "none"]:
        yield Run(words, 2, REFUSED[2] + "\n")
    of = {"answer": "refused", "number": 2, "place": 605, "meaning": REFUSED[2].partition(": ")[2]}
    yield Run(["match", "--json", "r2.lvs", "/"], 2, json.dumps(of) + "\n")


def bad_names():
    """(name, its refusal as a packet's)."""
    yield "/" + "x" * 1017, 21
    yield "/" + "x" * 9000, 21  # more than the driver takes
    yield "0x" + "07" * 5000, 21
    yield "0x", 22
    yield "0x0701", 22
    yield "0x0703080162ff", 22
    yield "/a" * 33, 23


def match_runs():
    article = "match: node 28, 3 tags bound\n" + ARTICLE_BINDINGS
    yield Run(["match", "example.lvs", ARTICLE], 0, article)
    yield Run(["match", "-", "ndn:" + ARTICLE + "/"], 0, article, given=EXAMPLE)
    yield Run(["match", "example.lvs", "0x" + names.name(ARTICLE).hex().upper()], 0, article)
    yield Run(["match", "example.lvs", "/"], 0, "match: node 0, 0 tags bound\n")
    yield Run(["match", "example.lvs", "/ndn/blog"], 0, "match: node 2, 0 tags bound\n")
    yield Run(["match", "example.lvs", "/ndn/blog/1000/post/202/1"], 1, "no match\n")
    yield Run(["match", "named.lvs", "/me/a"], 1, "no match\n")  # of a Constraint without options
    yield Run(["match", "named.lvs", "/me"], 0, "match: node 2, 1 tag bound\n  user = me, from the packet\n")
    yield Run(["match", "named.lvs", "/v=3/x"], 0, "match: node 3 (#end), 1 tag bound\n  part (tag 2) = x, from the packet\n")
    yield Run(["match", "named.lvs", "/54=%03/x"], 0, "match: node 3 (#end), 1 tag bound\n  part (tag 2) = x, from the packet\n")
    yield Run(["match", "named.lvs", "/v=3"], 0, "match: node 1 (#time, #v), 0 tags bound\n")
    digest = "sha256digest=" + "0a" * 32
    parts = ["v=3", "54=%00%03", "...", "....", "%00%2F%C3%A9", digest, "x" * 900]
    for uri, texts in ("/" + "/".join(parts), parts), ("/9=a/1=%0A/é/a%62/32=.../a/b", ["9=a", "1=%0A", "%C3%A9", "ab", "32=...", "a", "b"]):
        lines = "".join(f"  tag {i} = {text}, from the packet\n" for i, text in enumerate(texts, 1))
        yield Run(["match", "any.lvs", uri], 0, "match: node 7, 7 tags bound\n" + lines)
    # temporary patterns are not shown as bound
    yield Run(["match", "none-named.lvs", "/a"], 0, "match: node 1, 0 tags bound\n")
    yield Run(["match", "shared.lvs", AUTHOR], 0, "match: node 18, 1 tag bound\n  tag 2 = 100001, from the packet\n")
    yield Run(["match", "temporary.lvs", "/a/b/a"], 0, "match: node 3, 1 tag bound\n  user = a, from the packet\n")
    yield Run(["match", "temporary.lvs", "/a/b/b"], 1, "no match\n")  # the option that names Tag 2 does not hold
    yield Run(["match", "temporary.lvs", "/x/y"], 0, "match: node 2, 1 tag bound\n  user = x, from the packet\n")
    yield Run(["match", "--json", "none-named.lvs", "/a"], 0, '{"answer": "match", "node": 1, "rules": [], "bound": 0, "bindings": []}\n')
    yield Run(["match", "--json", "temporary.lvs", "/a/b/a"], 0, '{"answer": "match", "node": 3, "rules": [], "bound": 1, "bindings": '
              '[{"tag": 1, "symbol": "user", "component": "a", "origin": "packet", "start": 2, "length": 3}]}\n')
    for text, number in bad_names():
        yield Run(["match", "example.lvs", text], 2, REFUSED[number] + "\n")
        yield Run(["match", "r7.lvs", text], 2, REFUSED[7] + "\n")
    yield Run(["match", "r1-far.lvs", "/"], 2, REFUSED[1] + "\n")
    yield Run(["match", "--json", "named.lvs", "/v=3/x"], 0, '{"answer": "match", "node": 3, "rules": ["#end"], "bound": 1, "bindings": '
              '[{"tag": 2, "symbol": "part", "component": "x", "origin": "packet", "start": 5, "length": 3}]}\n')
    yield Run(["match", "--json", "example.lvs", "/"], 0, '{"answer": "match", "node": 0, "rules": [], "bound": 0, "bindings": []}\n')
    yield Run(["match", "--json", "example.lvs", "/a"], 1, '{"answer": "no match"}\n')
    meaning = REFUSED[23].partition(": ")[2]
    yield Run(["match", "--json", "example.lvs", "/a" * 33], 2, f'{{"answer": "refused", "number": 23, "node": 0, "meaning": "{meaning}"}}\n')


def sign_runs():
    yield Run(["sign", "example.lvs", ARTICLE, AUTHOR], 0, ALLOWED + ARTICLE_BINDINGS)
    yield Run(["sign", "-", ARTICLE, AUTHOR], 0, ALLOWED + ARTICLE_BINDINGS, given=EXAMPLE)
    yield Run(["sign", "example.lvs", ARTICLE, ROOT_KEY], 1, "not allowed\n")
    part = "  part (tag 2) = x, from the packet\n"
    yield Run(["sign", "named.lvs", "/v=3/x", "/v=3"], 0, f"allowed: packet at node 3 (#end), key at node 1 (#time, #v)\n{part}")
    yield Run(["sign", "named.lvs", "/v=3/x", "/me"], 0, f"allowed: packet at node 3 (#end), key at node 2\n  user = me, from the key\n{part}")
    yield Run(["sign", "b.lvs", "/a", "/b"], 1, "not allowed\n")
    yield Run(["sign", "none-named.lvs", "/a", "/b"], 0, "allowed: packet at node 1, key at node 1\n")
    both = "  tag 1 = 000001, from the key\n  tag 2 = 100001, from the packet\n"
    yield Run(["sign", "shared.lvs", AUTHOR, ADMIN], 0, "allowed: packet at node 18, key at node 12\n" + both)
    for text, number in bad_names():
        yield Run(["sign", "example.lvs", text, ROOT_KEY], 2, REFUSED[number] + "\n")
        yield Run(["sign", "example.lvs", ARTICLE, text], 2, REFUSED[number + 3] + "\n")
    yield Run(["sign", "example.lvs", "0x", "/" + "x" * 9000], 2, REFUSED[22] + "\n")
    yield Run(["sign", "r1-far.lvs", "0x", "0x"], 2, REFUSED[1] + "\n")
    yield Run(["sign", "r11.lvs", "/a", "/b"], 2, REFUSED[11] + "\n")
    yield Run(["sign", "--json", "named.lvs", "/v=3/x", "/v=3"], 0, '{"answer": "allowed", "packet_node": 3, "key_node": 1, '
              '"packet_rules": ["#end"], "key_rules": ["#time", "#v"], "bindings": '
              '[{"tag": 2, "symbol": "part", "component": "x", "origin": "packet", "start": 5, "length": 3}]}\n')
    yield Run(["sign", "--json", "example.lvs", ARTICLE, ROOT_KEY], 1, '{"answer": "not allowed"}\n')


def pair_line(number, answer, packet, key, *more):
    return "  ".join([f"{number:>4}", f"{answer:<44}", packet, "by", key, *more]) + "\n"


def batch_runs():
    words = ["sign", "example.lvs", "-"]
    other = "/ndn/blog/author/100002/KEY/1/000001/1"
    yield Run(words, 1, f"""\
   3  allowed: packet at node 12, key at node 6     {ADMIN}  by  {ROOT_KEY}
   5  not allowed                                   /ndn/blog/admin/000001/key/1/root/1  by  {ROOT_KEY}
   7  not allowed                                   /ndn/blog/admin/000002/KEY/1/root/1  by  {ADMIN}
   9  allowed: packet at node 18, key at node 12    {AUTHOR}  by  {ADMIN}
  10  not allowed                                   /ndn/blog/author/1000/KEY/1/000001/1  by  {ADMIN}
  12  allowed: packet at node 24, key at node 12    /ndn/blog/reader/200001/KEY/1/000001/1  by  {ADMIN}
  14  allowed: packet at node 28, key at node 18    {ARTICLE}  by  {AUTHOR}
  15  not allowed                                   {ARTICLE}  by  {other}
  16  not allowed                                   /ndn/blog/100001/post/202/1  by  {AUTHOR}
  18  not allowed                                   /ndn/blog/200001/post/2022/1  by  /ndn/blog/reader/200001/KEY/1/000001/1
""", given=REQUESTS.encode())
    yes, no = f"{ARTICLE} {AUTHOR}\n", f"{ARTICLE}\t{ROOT_KEY}\r\n"
    yes_line, no_line = pair_line(1, ALLOWED[:-1], ARTICLE, AUTHOR), pair_line(2, "not allowed", ARTICLE, ROOT_KEY)
    yield Run(words, 0, yes_line, given=yes.encode())
    yield Run(words, 0, yes_line, given=yes.rstrip().encode())
    yield Run(words, 1, yes_line + no_line, given=(yes + no).encode())
    refused = pair_line(3, REFUSED[25], ARTICLE, "0x0701")
    yield Run(words, 2, yes_line + no_line + refused, given=f"{yes}{no}{ARTICLE} 0x0701".encode())
    # malformed lines, and the rest is answered
    given = f"{yes}{no}/a /%\n/a\n/a /b /c # x\n#\n\n0x7 /b\n{ARTICLE} 0x0701\n"
    percent = "% takes two hexadecimal digits (% itself is %25)"
    digit = "the last byte takes a second hexadecimal digit"
    yield Run(words, 3, yes_line + no_line + pair_line(9, REFUSED[25], ARTICLE, "0x0701"), f"""\
lvs: line 3: key name '/%', character 2: {percent}
lvs: line 4: 1 word, not a packet name and a key name
lvs: line 5: 5 words, not a packet name and a key name
lvs: line 8: packet name '0x7', character 4: {digit}
""", given.encode())
    yield Run([*words, "--json"], 3, f"""\
{{"line": 1, "packet": "{ARTICLE}", "key": "{AUTHOR}", "answer": "allowed", "packet_node": 28, "key_node": 18, "packet_rules": [], "key_rules": [], \
"bindings": {json.dumps(binding_objects(*ARTICLE_BOUND))}}}
{{"line": 2, "packet": "{ARTICLE}", "key": "{ROOT_KEY}", "answer": "not allowed"}}
{{"line": 3, "answer": "error", "error": "key name '/%', character 2: {percent}"}}
{{"line": 4, "answer": "error", "error": "1 word, not a packet name and a key name"}}
{{"line": 5, "answer": "error", "error": "5 words, not a packet name and a key name"}}
{{"line": 8, "answer": "error", "error": "packet name '0x7', character 4: {digit}"}}
{{"line": 9, "packet": "{ARTICLE}", "key": "0x0701", "answer": "refused", "number": 25, "node": 0, "meaning": "{REFUSED[25].partition(': ')[2]}"}}
""", given=given.encode())
    yield Run(words, 3, "", "lvs: line 1: 1 word, not a packet name and a key name\n", given=b"/a\n")
    for nothing in (b"", b"\n  \n", b"# no pair\n"):
        yield Run(words, 3, "", "lvs: standard input has no pair of names\n", given=nothing)
    yield Run(["sign", "r11.lvs", "-"], 2, REFUSED[11] + "\n", given=yes.encode())
    yield Run(["sign", "r11.lvs", "-"], 2, REFUSED[11] + "\n")
    # more than one run of the driver
    lines = "".join(pair_line(i, "not allowed", f"/{i}", "/b") for i in range(1, 4502))
    yield Run(words, 1, lines, given="".join(f"/{i} /b\n" for i in range(1, 4502)).encode())
    lines = "".join(pair_line(i, "not allowed", f"/{i}", "/b") for i in range(1, 601))
    yield Run(["sign", "longest.lvs", "-"], 1, lines, given="".join(f"/{i} /b\n" for i in range(1, 601)).encode())
    # what a terminal would take as a command, and bytes that are not UTF-8
    yield Run(["sign", "any.lvs", "-"], 1, pair_line(1, "not allowed", "/%1B[2J%FF/é", "/a"), given=b"/\x1b[2J\xff/\xc3\xa9 /a")


# bindings

BINDING = "tag", "symbol", "component", "origin", "start", "length"
ARTICLE_BOUND = (2, None, "100001", "packet", 13, 8), (3, None, "2022", "packet", 27, 6), (4, None, "1", "packet", 33, 3)


def binding_objects(*bindings):
    return [dict(zip(BINDING, one, strict=True)) for one in bindings]


def binding_runs():
    allowed = "allowed: packet at node 4, key at node 11"
    packet, key = "/data/a/v=3/x", "/key/a/%2F/%2F/.../9=%00/y"
    lines = """\
  user = a, from the packet
  part (tag 2) = v=3, from the packet
  issuer = %2F, from the key
  part (tag 4) = ..., from the key
  tag 5 = 9=%00, from the key
"""
    yield Run(["sign", "origins.lvs", packet, key], 0, f"{allowed}\n{lines}")
    yield Run(["sign", "--bindings", "origins.lvs", packet, key], 0, f"{allowed}\n{lines}")
    yield Run(["match", "origins.lvs", packet], 0, "match: node 4, 2 tags bound\n" + "".join(lines.splitlines(True)[:2]))
    yield Run(["match", "origins.lvs", key], 0, "match: node 11, 4 tags bound\n" + """\
  user = a, from the packet
  issuer = %2F, from the packet
  part (tag 4) = ..., from the packet
  tag 5 = 9=%00, from the packet
""")
    # starts count in the name of origin
    bound = [(1, "user", "a", "packet", 8, 3), (2, "part", "v=3", "packet", 11, 3), (3, "issuer", "%2F", "key", 10, 3)]
    bound += [(4, "part", "...", "key", 16, 2), (5, None, "9=%00", "key", 18, 3)]
    of = {"answer": "allowed", "packet_node": 4, "key_node": 11, "packet_rules": [], "key_rules": [], "bindings": binding_objects(*bound)}
    yield Run(["sign", "--json", "origins.lvs", packet, key], 0, json.dumps(of) + "\n")
    yield Run(["sign", "--json", "--bindings", "origins.lvs", packet, key], 0, json.dumps(of) + "\n")
    # of many pairs, with and without them
    compact = "bindings user = a (packet), part (tag 2) = v=3 (packet), issuer = %2F (key), part (tag 4) = ... (key), tag 5 = 9=%00 (key)"
    given, path = f"{packet} {key}\n{key} {packet}\n{packet} 0x\n".encode(), "path 0,0,0,0,1,0,0,0,0,0,0"
    others = pair_line(2, "not allowed", key, packet) + pair_line(3, REFUSED[25], packet, "0x")
    for words, more in ([], []), (["--path"], [path]), (["--bindings"], [compact]), (["--path", "--bindings"], [compact, path]):
        yield Run(["sign", *words, "origins.lvs", "-"], 2, pair_line(1, allowed, packet, key, *more) + others, given=given)
    of = json.dumps({"line": 1, "packet": packet, "key": key, **of}) + "\n"
    for words in [], ["--bindings"]:
        yield Run(["sign", "--json", *words, "origins.lvs", "-"], 0, of, given=given.splitlines()[0])
    # a component that is long, or that a terminal would take as a command
    long = "x" * 253
    text = f"allowed: packet at node 1, key at node 1\n  tag 1 = {long}, from the packet\n"
    yield Run(["sign", "b.lvs", f"/{long}", f"/{long}"], 0, text)
    of = {"answer": "allowed", "packet_node": 1, "key_node": 1, "packet_rules": [], "key_rules": []}
    of["bindings"] = binding_objects((1, None, long, "packet", 4, 257))
    yield Run(["sign", "--json", "b.lvs", f"/{long}", f"/{long}"], 0, json.dumps(of) + "\n")
    given, escaped = b"/\x1b[2J,\xff /%1b%5B2J%2C%fF", "%1B%5B2J%2C%FF"
    line = pair_line(1, "allowed: packet at node 1, key at node 1", "/%1B[2J,%FF", "/%1b%5B2J%2C%fF", f"bindings tag 1 = {escaped} (packet)")
    yield Run(["sign", "--bindings", "b.lvs", "-"], 0, line, given=given)
    # no tag is bound
    for file, pair, nodes in ("itself.lvs", ("/", "/"), (0, 0)), ("none-named.lvs", ("/a", "/b"), (1, 1)):
        allowed = "allowed: packet at node {}, key at node {}".format(*nodes)
        yield Run(["sign", "--bindings", file, *pair], 0, allowed + "\n")
        yield Run(["sign", "--bindings", file, "-"], 0, pair_line(1, allowed, *pair, "bindings none"), given=" ".join(pair).encode())
        of = {"answer": "allowed", "packet_node": nodes[0], "key_node": nodes[1], "packet_rules": [], "key_rules": [], "bindings": []}
        yield Run(["sign", "--json", file, *pair], 0, json.dumps(of) + "\n")
    both = pair_line(1, "allowed: packet at node 0, key at node 0", "/", "/", "bindings none", "path none")
    yield Run(["sign", "--path", "--bindings", "itself.lvs", "-"], 0, both, given=b"/ /")
    yield Run(["sign", "--bindings", "b.lvs", "/a", "/b"], 1, "not allowed\n")
    yield Run(["sign", "--bindings", "b.lvs", "/a", "0x"], 2, REFUSED[25] + "\n")


# paths

ARTICLE_PATH = "0,0,4,0,0,0,0,0,2,0,0,0,0,0"


def path_runs():
    yield Run(["sign", "--path", "example.lvs", ARTICLE, AUTHOR], 0, f"""\
{ALLOWED}{ARTICLE_BINDINGS}  packet:
    node 0, edge 0, value: ndn -> node 1
    node 1, edge 0, value: blog -> node 2
    node 2, edge 4, pattern tag 2: 100001 -> node 25
    node 25, edge 0, value: post -> node 26
    node 26, edge 0, pattern tag 3: 2022 -> node 27
    node 27, edge 0, pattern tag 4: 1 -> node 28
  key:
    node 0, edge 0, value: ndn -> node 1
    node 1, edge 0, value: blog -> node 2
    node 2, edge 2, pattern _ (tag 12): author -> node 13
    node 13, edge 0, pattern tag 2: 100001 -> node 14
    node 14, edge 0, value: KEY -> node 15
    node 15, edge 0, pattern _ (tag 13): 1 -> node 16
    node 16, edge 0, pattern _ (tag 14): 000001 -> node 17
    node 17, edge 0, pattern _ (tag 15): 1 -> node 18
  path {ARTICLE_PATH}
""")
    # ordinals go on from value to pattern edges; rule names and symbols
    yield Run(["sign", "named.lvs", "/v=3/x", "/me", "--path"], 0, """\
allowed: packet at node 3 (#end), key at node 2
  user = me, from the key
  part (tag 2) = x, from the packet
  packet:
    node 0, edge 0, value: v=3 -> node 1 (#time, #v)
    node 1, edge 0, pattern part (tag 2): x -> node 3 (#end)
  key:
    node 0, edge 1, pattern user (tag 1): me -> node 2
  path 0,0,1
""")
    yield Run(["sign", "--path", "-", "/a/b/a", "/a/%2F/a"], 0, """\
allowed: packet at node 3, key at node 3
  user = a, from the packet
  packet:
    node 0, edge 0, pattern user (tag 1): a -> node 1
    node 1, edge 0, pattern _role (tag 2): b -> node 2
    node 2, edge 0, pattern _role (tag 2): a -> node 3
  key:
    node 0, edge 0, pattern user (tag 1): a -> node 1
    node 1, edge 0, pattern _role (tag 2): %2F -> node 2
    node 2, edge 0, pattern _role (tag 2): a -> node 3
  path 0,0,0,0,0,0
""", given=TEMPORARY)
    empty = "  packet: no component, so at node 0\n  key: no component, so at node 0\n  path none\n"
    yield Run(["sign", "--path", "itself.lvs", "/", "/"], 0, "allowed: packet at node 0, key at node 0\n" + empty)
    edges = [{"from": 0, "edge": 0, "value": "v=3", "component": "v=3", "to": 1}]
    edges.append({"from": 1, "edge": 0, "tag": 2, "symbol": "part", "temporary": False, "component": "x", "to": 3})
    by = [{"from": 0, "edge": 1, "tag": 1, "symbol": "user", "temporary": False, "component": "me", "to": 2}]
    of = {"answer": "allowed", "packet_node": 3, "key_node": 2, "packet_rules": ["#end"], "key_rules": []}
    of |= {"bindings": binding_objects((1, "user", "me", "key", 2, 4), (2, "part", "x", "packet", 5, 3))}
    of |= {"path": [0, 0, 1], "packet_edges": edges, "key_edges": by}
    yield Run(["sign", "--path", "--json", "named.lvs", "/v=3/x", "/me"], 0, json.dumps(of) + "\n")
    nothing = {"answer": "allowed", "packet_node": 0, "key_node": 0, "packet_rules": [], "key_rules": [], "bindings": []}
    nothing |= {"path": [], "packet_edges": [], "key_edges": []}
    yield Run(["sign", "--path", "--json", "itself.lvs", "/", "/"], 0, json.dumps(nothing) + "\n")
    # other answers have none
    yield Run(["sign", "--path", "b.lvs", "/a", "/b"], 1, "not allowed\n")
    yield Run(["sign", "--path", "--json", "b.lvs", "/a", "/b"], 1, '{"answer": "not allowed"}\n')
    yield Run(["sign", "--path", "b.lvs", "/a", "0x"], 2, REFUSED[25] + "\n")
    # of many pairs
    given = b"/v=3/x /me\n/v=3/x /a/b\n/v=3/x 0x\n/v=3/x\n"
    lines = pair_line(1, "allowed: packet at node 3 (#end), key at node 2", "/v=3/x", "/me", "path 0,0,1")
    lines += pair_line(2, "not allowed", "/v=3/x", "/a/b") + pair_line(3, REFUSED[25], "/v=3/x", "0x")
    wrong = "1 word, not a packet name and a key name"
    yield Run(["sign", "--path", "named.lvs", "-"], 3, lines, f"lvs: line 4: {wrong}\n", given)
    yield Run(["sign", "--path", "--json", "named.lvs", "-"], 0, json.dumps({"line": 1, "packet": "/v=3/x", "key": "/me", **of}) + "\n", given=given[:11])


def no_path(text, i):
    return f"path {text!r}, word {i}: a word is a number of 0 to 65,535 (no word at all is written none)"


def followed_paths():
    """(model's file, packet name, key name, path, why it is not accepted; None where it is)."""
    yield "example.lvs", ARTICLE, AUTHOR, ARTICLE_PATH, None
    yield "named.lvs", "/v=3/x", "/me", "0,0,1", None
    yield "named.lvs", "/v=3/x", "/v=3", "00,000,00000", None
    yield "temporary.lvs", "/a/b/a", "/a/%2F/a", "0,0,0,0,0,0", None
    yield "itself.lvs", "/", "/", "none", None
    yield "none-named.lvs", "/a", "/b", "0,0", None
    yield "b.lvs", "/a", "/b", "0,0", "component 1 of the key, b, may not cross edge 0 of node 0: the pattern tag 1 is bound to a"
    other, bound = "/ndn/blog/author/100002/KEY/1/000001/1", "the pattern tag 2 is bound to 100001"
    yield "example.lvs", ARTICLE, other, ARTICLE_PATH, f"component 4 of the key, 100002, may not cross edge 0 of node 13: {bound}"
    third = "component 3 of the packet, 100001, may not cross edge"
    key_third = "component 3 of the key, author,"
    for path, why in (
        ("0,0,3,0,0,0,0,0,2,0,0,0,0,0", f"{third} 3 of node 2: the constraints of the pattern _ (tag 16) do not hold"),
        ("0,0,0,0,0,0,0,0,2,0,0,0,0,0", f'{third} 0 of node 2: it is for the value "KEY"'),
        ("1,0,4,0,0,0,0,0,2,0,0,0,0,0", "component 1 of the packet, ndn, has no edge 1 to cross: node 0 has 1 edge"),
        ("0,0,4,0,0,65535,0,0,2,0,0,0,0,0", "component 6 of the packet, 1, has no edge 65535 to cross: node 27 has 1 edge"),
        ("0,0,4,0,0,0,0,0,5,0,0,0,0,0", f"{key_third} has no edge 5 to cross: node 2 has 5 edges"),
        ("0,0,4,0,0,0,0,0,1,0,0,0,0,0", f"{key_third} may not cross edge 1 of node 2: the constraints of the pattern _ (tag 8) do not hold"),
        ("0,0,4,0,0,0,0,0,4,0,0,0,0,0", f"{key_third} may not cross edge 4 of node 2: {bound}"),
        ("0,0,4,0,0,0,0,0,3,0,0,0,0,0", "every edge may be crossed, but node 28 does not list node 24 as a signer"),
        ("0,0,4,0,0,0,0,0,2,0,0,0,0", "the path has 13 words, and the two names have 14 components"),
        (ARTICLE_PATH + ",0", "the path has 15 words, and the two names have 14 components"),
        ("none", "the path has 0 words, and the two names have 14 components"),
        ("9", "the path has 1 word, and the two names have 14 components"),
        ("0" + ",0" * 2047, "the path has 2048 words, and the two names have 14 components"),
        ("0" + ",0" * 2048, "the path has 2049 words, and the two names have 14 components"),
        (ARTICLE_PATH + ",65535" * 9000, "the path has 9014 words, and the two names have 14 components"),
    ):
        yield "example.lvs", ARTICLE, AUTHOR, path, why
    why = "every edge may be crossed, but node 3 (#end) does not list node 0 (#top) as a signer"
    yield "named.lvs", "/v=3/x", "/", "0,0", why
    yield "named.lvs", "/v=3/x", "/me", "0,0,0", 'component 1 of the key, me, may not cross edge 0 of node 0: it is for the value "v=3"'
    why = "component 2 of the packet, y, may not cross edge 0 of node 1: the constraints of the pattern part (tag 2) do not hold"
    yield "named.lvs", "/v=3/y", "/me", "0,0,1", why
    why = "component 2 of the packet, a, may not cross edge 0 of node 2: the constraints of the pattern _part (tag 3) do not hold"
    yield "named.lvs", "/me/a", "/", "1,0", why
    yield "named.lvs", "/v=3/x/y", "/", "0,0,0", "component 3 of the packet, y, has no edge 0 to cross: node 3 has 0 edges"
    why = "component 1 of the key, b, may not cross edge 0 of node 0: the pattern user (tag 1) is bound to a"
    yield "temporary.lvs", "/a/b/a", "/b/b/a", "0,0,0,0,0,0", why
    yield "a.lvs", "/", "/", "none", "every edge may be crossed, but node 0 does not list node 0 as a signer"
    yield "a.lvs", "/", "/", "0", "the path has 1 word, and the two names have 0 components"
    yield "a.lvs", "/", "/%00", "none", "the path has 0 words, and the two names have 1 component"
    yield "twice.lvs", "/x/x", "/x/x", "0,0,0,0", None
    twice = "component 2 of the packet, a, may not cross edge 0 of node 1"
    yield "twice.lvs", "/a/a", "/", "0,0", f"{twice}: the constraints of the pattern tag 1 do not hold"
    yield "twice.lvs", "/x/a", "/", "0,0", f"{twice}: the pattern tag 1 is bound to x"
    # with a signer this model is as long as can be
    yield "room.lvs", "/b", "/", "0", 'component 1 of the packet, b, may not cross edge 0 of node 0: it is for the value "a"'


def follow_runs():
    """Some of these paths; check_paths has all of them, without a process for each."""
    for *words, why in list(followed_paths())[::3]:
        yield Run(["follow", *words], 1 if why else 0, f"no\n  {why}\n" if why else "accepted\n")
    yield Run(["follow", "-", ARTICLE, "0x" + names.name(AUTHOR).hex(), ARTICLE_PATH], 0, "accepted\n", given=EXAMPLE)
    yield Run(["follow", "--json", "b.lvs", "/a", "/a", "0,0"], 0, '{"answer": "accepted"}\n')
    why = "component 1 of the key, b, may not cross edge 0 of node 0: the pattern tag 1 is bound to a"
    yield Run(["follow", "--json", "b.lvs", "/a", "/b", "0,0"], 1, json.dumps({"answer": "no", "why": why}) + "\n")
    # with a signer this model is too long
    yield Run(["follow", "no-room.lvs", "/b", "/", "0"], 1, "no\n")
    yield Run(["follow", "--json", "no-room.lvs", "/b", "/", "0"], 1, '{"answer": "no", "why": null}\n')
    yield from refused_path_runs()


def refused_path_runs():
    """Model and names are tested as ever, and before the path."""
    for number in 1, 7, 12, 13, 14:
        yield Run(["follow", f"r{number}.lvs", "0x", "0x", "0,0"], 2, REFUSED[number] + "\n")
    yield Run(["follow", "r1-far.lvs", "/", "/", "none"], 2, REFUSED[1] + "\n")
    for i, (text, number) in enumerate(bad_names()):
        path = ("none", "0,0", "1" + ",65535" * 3000)[i % 3]
        yield Run(["follow", "example.lvs", text, "0x", path], 2, REFUSED[number] + "\n")
        if i % 2:
            yield Run(["follow", "example.lvs", ARTICLE, text, path], 2, REFUSED[number + 3] + "\n")
    of = {"answer": "refused", "number": 25, "node": 0, "meaning": REFUSED[25].partition(": ")[2]}
    yield Run(["follow", "--json", "a.lvs", "/", "0x", "none"], 2, json.dumps(of) + "\n")


# lists of certificates


def suggest_run(lines, status, out, err="", packet="/a", file="b.lvs", more=()):
    """A run with these lines as standard input. By b.lvs /a is signed by /a alone."""
    return Run(["suggest", *more, file, packet, "-"], status, out, err, "\n".join(lines).encode())


def none_of(entries):
    return 1, f"none of {answers.counted(entries, 'certificate')} may sign this packet\n"


def at_line(line, text, note):
    shown = text if len(text) <= 120 else f"{text[:120]} .. ({len(text):,} characters)"
    return f"  standard input:{line}: {shown}: {note}\n"


def many_entries(line, text):
    """Refused with 33: the line and the name of the first entry that is one too many."""
    return 2, REFUSED[33] + "\n" + at_line(line, text, "the 65th entry")


def bad_entry(i, line, text, number):
    """Refused with 32: the entry's index, line and name, and its refusal as a key name."""
    return 2, REFUSED[32].replace("entry 2", f"entry {i}") + "\n" + at_line(line, text, REFUSED[number])


def suggest_runs():
    other, file = "/ndn/blog/author/100002/KEY/1/000001/1", "certificates.txt"
    yield Run(["suggest", "-", ARTICLE, file], 0, AUTHOR + "\n", given=EXAMPLE)
    for packet, name in (
        (ARTICLE, AUTHOR),
        ("/ndn/blog/100002/post/2022/1", other),
        ("/ndn/blog/100009/post/2022/1", ADMIN),
        (AUTHOR, ADMIN),
        (ADMIN, ROOT_KEY),
    ):
        yield Run(["suggest", "example.lvs", packet, file], 0, name + "\n")
    for packet in ROOT_KEY, "/ndn/blog/100001/post/202/1", "/", "/no/such/name":
        yield Run(["suggest", "example.lvs", packet, file], *none_of(5))
    of = f'{{"answer": "certificate", "index": 3, "name": "{AUTHOR}", "line": 7}}\n'
    yield Run(["suggest", "--json", "example.lvs", ARTICLE, file], 0, of)
    yield Run(["suggest", "--json", "example.lvs", ROOT_KEY, file], 1, '{"answer": "none", "entries": 5}\n')
    # which lines are entries, and names as they are written
    yield suggest_run(["/a"], 0, "/a\n")
    yield suggest_run(["/b", "/a", "/a"], 0, "/a\n")
    yield suggest_run(["/b", "/a", "/a"], 0, "/b\n", file="none-named.lvs")
    yield suggest_run(["# x", "", "  ", "\t/b \r", "#/a", " # /a", "\t ndn:/%61/ \r", "/a", ""], 0, "ndn:/%61/\n")
    yield suggest_run(["\ufeff/8=a", "/a"], 0, "/8=a\n")
    yield suggest_run(["/b", "0x0703080161", "/a"], 0, "0x0703080161\n")
    of = '{"answer": "certificate", "index": 1, "name": "0x0703080161", "line": 3}\n'
    yield suggest_run(["/b", "", "0x0703080161"], 0, of, more=["--json"])
    yield suggest_run(["/", "/a/a", "/b"], *none_of(3))
    yield suggest_run(["/b"], *none_of(1))
    for nothing in ([], ["", ""], ["# /a"]):
        yield suggest_run(nothing, 1, "none: the list is empty\n")
        yield suggest_run(nothing, 1, '{"answer": "none", "entries": 0}\n', more=["--json"])
    yield Run(["suggest", "b.lvs", "/a", "/dev/null"], 1, "none: the list is empty\n")
    # what a terminal would take as a command, and bytes that are not UTF-8
    yield Run(["suggest", "b.lvs", "/%1B[2J%FF", "-"], 0, "/%1B[2J%FF\n", given=b"/b\n/\x1b[2J\xff")


def refused_list_runs():
    for count in 63, 64:
        lines = [f"/{i}" for i in range(count)]
        yield suggest_run(lines, 0, f"/{count - 1}\n", packet=f"/{count - 1}")
        yield suggest_run(lines, *none_of(count))
    for count in 65, 66, 500, 30000:
        yield suggest_run(["# one more line", *(f"/{i}" for i in range(count))], *many_entries(66, "/64"), packet="/0")
    meaning = REFUSED[33].partition(": ")[2]
    of = f'{{"answer": "refused", "number": 33, "node": 0, "meaning": "{meaning}", "name": "/a", "line": 65}}\n'
    yield suggest_run(["/a"] * 70, 2, of, more=["--json"])
    long, parts = "/" + "x" * 1017, "/a" * 33
    kinds = (long, 24), ("/" + "x" * 9000, 24), (parts, 26), ("0x080161", 25), ("0x070108", 25), ("0xfe1234567800", 25), ("0x8000", 25)
    for text, number in kinds:
        yield suggest_run([text], *bad_entry(0, 1, text, number))
        yield suggest_run(["/a", "", text, "/b"], *bad_entry(1, 3, text, number))
        yield suggest_run(["/b", "#", "/b", text, "/a"], *bad_entry(2, 4, text, number))
        yield suggest_run([*["/b"] * 63, text], *bad_entry(63, 64, text, number))
        # what comes before it
        yield suggest_run([text, *["/b"] * 64], *many_entries(65, "/b"))
        yield suggest_run([text], 2, REFUSED[22] + "\n", packet="0x")
        yield suggest_run([text], 2, REFUSED[11] + "\n", packet="0x", file="r11.lvs")
    yield suggest_run([parts, long], *bad_entry(0, 1, parts, 26))
    yield suggest_run(["/a", long, parts], *bad_entry(1, 2, long, 24))
    meaning, why = REFUSED[32].partition(": ")[2], REFUSED[26].partition(": ")[2]
    reason = {"answer": "refused", "number": 26, "node": 0, "meaning": why}
    of = {"answer": "refused", "number": 32, "index": 1, "meaning": meaning, "name": parts, "line": 3, "reason": reason}
    yield suggest_run(["/a", "", parts], 2, json.dumps(of) + "\n", more=["--json"])
    for number in MODEL_REFUSALS:
        for lines in ["/a"], []:
            yield suggest_run(lines, 2, REFUSED[number] + "\n", file=f"r{number}.lvs")
    yield suggest_run(["/a"], 2, REFUSED[1] + "\n", file="r1-far.lvs", packet="0x")
    for text, number in bad_names():
        for lines in ["/a"], [], ["/a"] * 65:
            yield suggest_run(lines, 2, REFUSED[number] + "\n", packet=text)
        yield suggest_run(["/a"], 2, REFUSED[7] + "\n", packet=text, file="r7.lvs")


def long_list_runs():
    """Lists of more bytes than the driver takes, and of just as many, which 64 names of 1,024 bytes have."""
    full = [f"/{i:02}{'y' * 1014}" for i in range(65)]
    yield suggest_run(full[:64], 0, full[63] + "\n", packet=full[63])
    yield suggest_run(full[:64], *none_of(64))
    yield suggest_run(full, *many_entries(65, full[64]), packet=full[63])
    long, parts = full[63] + "y", "/a" * 33
    yield suggest_run([*full[:63], long], *bad_entry(63, 64, long, 24), packet=full[62])
    yield suggest_run([*full[:62], parts, long], *bad_entry(62, 63, parts, 26), packet=full[61])
    whole = "/" + "z" * (65536 - 8)
    for long in whole, whole + "z", "/" + "z" * 100000:
        yield suggest_run([long], *bad_entry(0, 1, long, 24))
        yield suggest_run([long, "/a"], *bad_entry(0, 1, long, 24))
        yield suggest_run(["/a", long, parts], *bad_entry(1, 2, long, 24))
        yield suggest_run(["/a", parts, long], *bad_entry(1, 2, parts, 26))
        yield suggest_run([*["/a"] * 63, long], *bad_entry(63, 64, long, 24))
        yield suggest_run([long, *["/a"] * 63], *bad_entry(0, 1, long, 24))
        yield suggest_run([long, *["/a"] * 64], *many_entries(65, "/a"))
        yield suggest_run([*["/a"] * 64, long], *many_entries(65, long))
        for lines in [long], [long] * 65:
            yield suggest_run(lines, 2, REFUSED[23] + "\n", packet=parts)
            yield suggest_run(lines, 2, REFUSED[9] + "\n", packet=parts, file="r9.lvs")


def list_mistake_runs():
    """Lines that are no entries: each is said, and nothing is suggested."""
    percent, digit = "% takes two hexadecimal digits (% itself is %25)", "the last byte takes a second hexadecimal digit"
    lines = ["/a", "/%", "", "/a /b", "/b # x", "0x7", "x", "/a"]
    yield suggest_run(lines, 3, "", f"""\
standard input:2: certificate name '/%', character 2: {percent}
standard input:4: 2 words, not one certificate name
standard input:5: 3 words, not one certificate name
standard input:6: certificate name '0x7', character 4: {digit}
standard input:7: certificate name 'x', character 1: a name begins with /
""")
    yield suggest_run(lines[:4], 3, f"""\
{{"line": 2, "answer": "error", "error": "certificate name '/%', character 2: {percent}"}}
{{"line": 4, "answer": "error", "error": "2 words, not one certificate name"}}
""", more=["--json"])
    yield Run(["suggest", "r2.lvs", "0x", "wrong.txt"], 3, "", f"wrong.txt:1: certificate name '/%', character 2: {percent}\n")
    for text in NO_ELEMENTS:
        yield suggest_run(["/a", text, "/a"], 3, "", f"standard input:2: certificate name {text!r}: the bytes are not one whole element\n")
    out = "".join(f"standard input:{i}: 2 words, not one certificate name\n" for i in range(1, 21))
    yield suggest_run(["a b"] * 25, 3, "", out + "lvs: 5 more mistakes\n")


# more or less than one element: no bytes, cut, bytes behind, types 0 and 2^32, numbers that are not in their shortest form
NO_ELEMENTS = (
    *("0x", "0x07", "0x0701", "0xfd01", "0x07fd01", "0x07ff", "0x070000", "0x07000700", "0x0000", "0xff000000010000000000"),
    *("0xfd000700", "0x07fd0000", "0x07fd000100", "0x07fe000000010a", "0x07ffffffffffffffffff"),
)


def tree_runs():
    yield Run(["tree", "example.lvs"], 0, """\
accepted: 29 nodes
start at node 0, 4 named patterns
node 0 (start)
  "ndn" -> node 1
    "blog" -> node 2
      "KEY" -> node 3
        _ (tag 5) -> node 4
          _ (tag 6) -> node 5
            _ (tag 7) -> node 6
      _ (tag 8) & {"admin"} -> node 7
        tag 1 -> node 8
          "KEY" -> node 9
            _ (tag 9) -> node 10
              _ (tag 10) -> node 11
                _ (tag 11) -> node 12, signed by node 6
      _ (tag 12) & {"author"} -> node 13
        tag 2 & {$isValidID()} -> node 14
          "KEY" -> node 15
            _ (tag 13) -> node 16
              _ (tag 14) -> node 17
                _ (tag 15) -> node 18, signed by node 12
      _ (tag 16) & {"reader" | "author"} -> node 19
        tag 2 & {$isValidID()} -> node 20
          "KEY" -> node 21
            _ (tag 17) -> node 22
              _ (tag 18) -> node 23
                _ (tag 19) -> node 24, signed by node 12
      tag 2 -> node 25
        "post" -> node 26
          tag 3 & {$isValidYear()} -> node 27
            tag 4 -> node 28, signed by node 12, node 18
""")
    yield Run(["tree", "named.lvs"], 0, """\
accepted: 7 nodes
start at node 0, 2 named patterns
symbols: tag 1 = user, tag 2 = part, tag 3 = part, tag 1 = again
optional element 0x80, 1 byte, in the TagSymbol
node 0 (#top, start)
  "v=3" -> node 1 (#time, #v)
      optional element 0x80, 3 bytes, in the Node
    part (tag 2) & {"x" | user} -> node 3 (#end), signed by node 2, node 1 (#time, #v)
        optional element 0x80, 3 bytes, in the Constraint
  user -> node 2
    _part (tag 3) & {} & {$eq(user) | $eq_type("a%3Db")} -> node 4, signed by node 3 (#end)
not reachable from the start:
node 5
  "y" -> node 6
      optional element 0xFFFE, 0 bytes, in the ValueEdge
""")
    yield Run(["tree", "none-named.lvs"], 0, """\
accepted: 2 nodes
start at node 0, 0 named patterns
node 0 (start)
  _ (tag 1) -> node 1, signed by node 1
""")
    yield Run(["tree", "b.lvs"], 0, """\
accepted: 2 nodes
start at node 0, 1 named pattern
node 0 (start)
  tag 1 -> node 1, signed by node 1
""")
    yield Run(["tree", "temporary.lvs"], 0, """\
accepted: 6 nodes
start at node 0, 1 named pattern
symbols: tag 1 = user, tag 2 = _role, tag 3 = part, tag 4 = _
node 0 (start)
  user -> node 1
    _role (tag 2) -> node 2
      _role (tag 2) & {user | _role (tag 2)} -> node 3, signed by node 3
  _part (tag 3) & {"x"} -> node 4
    _ (tag 4) & {$eq(_ (tag 5)) | "y"} -> node 5
""")
    yield Run(["tree", "cycle.lvs"], 0, """\
accepted: 5 nodes
start at node 0, 0 named patterns
node 0 (start)
  "c" -> node 1
not reachable from the start:
node 2 (parent 3)
  "a" -> node 3
    "b" -> node 2 (above)
node 4 (parent 4)
  _ (tag 1) -> node 4 (above)
""")
    yield Run(["tree", "-"], 0, "accepted: 1 node\nstart at node 0, 0 named patterns\nnode 0 (start)\n", given=A)
    skipping = SKIPPED + A
    yield Run(["tree", "-"], 0, """\
accepted: 1 node
start at node 0, 0 named patterns
optional element 0x80, 3 bytes, in the model
node 0 (start)
""", given=skipping)
    for number in (1, 2, 3):
        yield Run(["tree", f"r{number}.lvs"], 2, REFUSED[number] + "\n")
    yield Run(["tree", "--json", "r3.lvs"], 2, f'{{"answer": "refused", "number": 3, "node": 0, "meaning": "{REFUSED[3].partition(": ")[2]}"}}\n')
    for number, rest in {
        5: '1 node, start at node 0, 0 named patterns\nnode 0 (start)\n  tag 0 -> node 0 (above)\n',
        6: "2 nodes, start at node 0, 0 named patterns\nnode 0 (start)\nnot reachable from the start:\nnode 1 (NodeId 7)  <- refused 6\n",
        7: "1 node, start at node 3 (no such node), 0 named patterns\nnot reachable from the start:\nnode 0\n",
        8: '1 node, start at node 0, 0 named patterns\nnode 0 (start)  <- refused 8\n  "a" -> node 9 (no such node)\n',
        9: "2 nodes, start at node 0, 0 named patterns\nnode 0 (start)\nnot reachable from the start:\n"
           "node 1, signed by node 4 (no such node)  <- refused 9\n",
        10: '2 nodes, start at node 0, 0 named patterns\nnode 0 (start)  <- refused 10\n  _ (tag 1) & {() | ("a" _ (tag 2))} -> node 1\n',
        11: '3 nodes, start at node 0, 0 named patterns\nnode 0 (start)  <- refused 11\n  "a" -> node 1 (parent 2)\n  "b" -> node 2 (no parent)\n',
        12: "3 nodes, start at node 0, 0 named patterns\nnode 0 (start)\nnot reachable from the start:\n"
            "node 1  <- refused 12\n  _ (tag 1) & {$no()} -> node 2\n",
        13: "2 nodes, start at node 1, 0 named patterns\nnode 1 (start, parent 0)  <- refused 13\n"
            '  "b" -> node 0\n    "a" -> node 1 (above)\n',
        14: '4 nodes, start at node 0, 0 named patterns\nnode 0 (start)\n  "a" -> node 1  <- refused 14\n'
            '    "a" -> node 2\n    "b" -> node 3, signed by node 3\n    _ (tag 1) -> node 2 (above)\n',
    }.items():
        yield Run(["tree", f"r{number}.lvs"], 2, f"{REFUSED[number]}\n{rest}")
    rest = "2 nodes, start at node 0, 0 named patterns\nnode 0 (start, parent 9)  <- refused 13\n"
    yield Run(["tree", "r13-far.lvs"], 2, f'{refused_words(13, 0)}\n{rest}  "a" -> node 1\n')
    for number, objects in (13, loop_objects()), (14, parallel_objects()):
        of = {"answer": "refused", "number": number, "node": 1, "meaning": REFUSED[number].partition(": ")[2]}
        yield Run(["tree", "--json", f"r{number}.lvs"], 2, "".join(json.dumps(one) + "\n" for one in (of, *objects)))
    lines = "".join("  " * i + f'"p" -> node {i}\n' for i in range(1, 1500))
    yield Run(["tree", "deep.lvs"], 2, f"{REFUSED[4]}\n1500 nodes, start at node 0, 0 named patterns\nnode 0 (start)\n{lines}")
    yield Run(["tree", "--json", "named.lvs"], 0, "".join(json.dumps(of) + "\n" for of in named_objects()))


def shown(i, up, rules, edges=(), signers=(), optional=()):
    """A node, as `lvs tree --json` prints it."""
    return {"node": i, "node_id": i, "parent": up, "rules": rules, "edges": edges, "signers": signers, "optional": optional}


def loop_objects():
    """r13.lvs, below its refusal."""
    yield {"start": 1, "named_patterns": 0, "symbols": [], "optional": []}
    yield shown(0, 1, [], [{"to": 1, "value": "a", "optional": []}])
    yield shown(1, 0, [], [{"to": 0, "value": "b", "optional": []}])


def parallel_objects():
    """r14.lvs, below its refusal."""
    yield {"start": 0, "named_patterns": 0, "symbols": [], "optional": []}
    yield shown(0, None, [], [{"to": 1, "value": "a", "optional": []}])
    edges = [{"to": 2, "value": "a", "optional": []}, {"to": 3, "value": "b", "optional": []}]
    yield shown(1, 0, [], [*edges, {"to": 2, "tag": 1, "temporary": True, "constraints": [], "optional": []}])
    yield shown(2, 1, [])
    yield shown(3, 1, [], [], [3])


def named_objects():
    """named.lvs, as `lvs tree --json` prints it."""
    abc = {"type": 128, "bytes": 3}
    yield {"answer": "accepted", "nodes": 7}
    symbols = [{"tag": tag, "symbol": text} for tag, text in ((1, "user"), (2, "part"), (3, "part"), (1, "again"))]
    yield {"start": 0, "named_patterns": 2, "symbols": symbols, "optional": [{"in": "TagSymbol", "type": 128, "bytes": 1}]}
    yield shown(0, None, ["#top"], [{"to": 1, "value": "v=3", "optional": []}, {"to": 2, "tag": 1, "temporary": False, "constraints": [], "optional": []}])
    options = [[{"value": "x"}], [{"tag": 1}]]
    edge = {"to": 3, "tag": 2, "temporary": False, "constraints": [options], "optional": [{"in": "Constraint", **abc}]}
    yield shown(1, 0, ["#time", "#v"], [edge], [], [{"in": "Node", **abc}])
    calls = [[{"function": "$eq", "arguments": [{"tag": 1}]}], [{"function": "$eq_type", "arguments": [{"value": "a%3Db"}]}]]
    yield shown(2, 0, [], [{"to": 4, "tag": 3, "temporary": True, "constraints": [[], calls], "optional": []}])
    yield shown(3, 1, ["#end"], [], [2, 1])
    yield shown(4, 2, [], [], [3])
    yield shown(5, None, [], [{"to": 6, "value": "y", "optional": [{"in": "ValueEdge", "type": 0xFFFE, "bytes": 0}]}])
    yield shown(6, 5, [])


NAMED_TEXT = """\
start 0
patterns 2

node 0
  rule #top
  edge value v=3 to 1
  edge tag 1 to 2

node 1
  parent 0
  rule #time
  rule #v
  edge tag 2 to 3
    constraint
      option value x
      option tag 1

node 2
  parent 0
  edge tag 3 to 4
    constraint
    constraint
      option $eq(tag 1)
      option $eq_type(value a%3Db)

node 3
  parent 1
  rule #end
  signer 2
  signer 1

node 4
  parent 2
  signer 3

node 5
  edge value y to 6

node 6
  parent 5

symbol 1 user
symbol 2 part
symbol 3 part
symbol 1 again
"""


def show_runs():
    yield Run(["show", "named.lvs"], 0, NAMED_TEXT)
    yield Run(["show", "a.lvs"], 0, A_TEXT)
    yield Run(["show", "longest.lvs"], 0, A_TEXT)
    yield Run(["show", "-"], 0, B_TEXT, given=B)
    yield Run(["show", "--json", "-"], 0, '{"answer": "described", "numbers": [0, 1, 2, 0, 0, 0, 0, 1, 1, 1, 0, 0, 1, 1, 0, 0, 0, 0, 1, 1, 0], '
              '"texts": ""}\n', given=B)
    texts_of = "#top" + "\x03" + "#time" + "#v" + "x" + "$eq" + "$eq_type" + "a=b" + "#end" + "y" + "user" + "part" + "part" + "again"
    numbers = [0, 2, 7, 0, 0, 1, 4, 1, 1, 54, 1, 1, 2, 1, 0, 0, 1, 1, 0, 2, 5, 2, 0, 1, 3, 2, 1, 2, 1, 0, 8, 1, 1, 1, 1, 0]
    numbers += [2, 1, 0, 0, 0, 1, 4, 3, 2, 0, 2, 1, 2, 3, 1, 1, 1, 1, 2, 8, 1, 0, 8, 3, 0, 3, 1, 1, 1, 4, 0, 0, 2, 2, 1]
    numbers += [4, 1, 2, 0, 0, 0, 1, 3, 5, 0, 0, 1, 6, 8, 1, 0, 0, 6, 1, 5, 0, 0, 0, 0, 4, 1, 4, 2, 4, 3, 4, 1, 5]
    yield Run(["show", "--json", "named.lvs"], 0, json.dumps({"answer": "described", "numbers": numbers, "texts": texts_of.encode().hex()}) + "\n")
    yield Run(["show", "-"], 2, refused_words(2, 0) + "\n")
    for number in MODEL_REFUSALS:
        yield Run(["show", f"r{number}.lvs"], 2, REFUSED[number] + "\n")
    for file in ("r1-driver.lvs", "r1-above.lvs", "r1-far.lvs"):
        yield Run(["show", file], 2, REFUSED[1] + "\n")
    meaning = REFUSED[9].partition(": ")[2]
    yield Run(["show", "--json", "r9.lvs"], 2, f'{{"answer": "refused", "number": 9, "node": 1, "meaning": "{meaning}"}}\n')
    options = "      option value ...\n" * FITTING
    nodes = "".join(f"\nnode {i}\n" for i in range(2, 256))
    text = f"start 0\npatterns 0\n\nnode 0\n  edge tag 1 to 1\n    constraint\n{options}\nnode 1\n  parent 0\n{nodes}"
    yield Run(["show", "fitting.lvs"], 0, text)
    if driver.NUMBERS < 22516:
        most = f"its description has more than {driver.NUMBERS:,} numbers, which is the most that lvs_cases takes"
        yield Run(["show", "numbers.lvs"], 3, "", f"lvs: the model is accepted, but {most}\n")


# texts that are built


LOOP_TEXT = "start 1\npatterns 0\nnode 0\nparent 1\nedge value a to 1\nnode 1\nparent 0\nedge value b to 0\n"
PARALLEL_TEXT = B_TEXT.replace("  edge tag 1 to 1\n", "  edge tag 1 to 1\n  edge value a to 1\n")


def refused_words(number, node):
    return answers.Refused(number, node).words()


def check_texts(folder):
    """Texts from standard input: what is written, or that nothing is."""
    asked = []
    flat = NAMED_TEXT.replace("\n\n", "\n").replace("  ", "")
    named = ("named.lvs", NAMED_TEXT, canonical(NAMED)), ("named.lvs without blank lines and indentation", flat, canonical(NAMED))
    for what, text, of in [*named, *texts.built()]:
        nodes = driver.judge(of).nodes
        asked.append((what, text, [], 0, f"written: {len(of)} bytes, {answers.counted(nodes, 'node')}\n", "", of))
    for lines, mistakes in texts.mistakes():
        err = "".join(f"standard input:{line}: {mistake}\n" for line, mistake in mistakes)
        asked.append((" | ".join(lines)[:100], "\n".join([*LEAST, *lines]) + "\n", [], 3, "", err, None))
    for text, number, at, places in texts.refused():
        note = "  (a byte of the model that would have been written)\n" if number == refusals.MALFORMED else ""
        out = refused_words(number, at) + "\n" + note + "".join(f"  standard input:{line}: {what}\n" for line, what in places)
        asked.append((f"refusal {number}", text, [], 2, out, "", None))
    end = "found the end of the text"
    no_start, no_patterns = f"expected a line `start INDEX`, {end}\n", f"expected a line `patterns COUNT`, {end}\n"
    asked.append(("an empty text", "", [], 3, "", f"standard input:1: {no_start}standard input:1: {no_patterns}", None))
    asked.append(("no start", "patterns 0\nnode 0", [], 3, "", f"standard input:2: {no_start}", None))
    asked.append(("no patterns", "start 0\nnode 0\n", [], 3, "", f"standard input:3: {no_patterns}", None))
    many = "".join(f"standard input:{i}: expected a node index after 'signer', found 'x'\n" for i in range(4, 24))
    for count, rest in (20, ""), (21, "lvs: 1 more mistake\n"), (500, "lvs: 480 more mistakes\n"):
        asked.append((f"{count} mistakes", "\n".join(LEAST + ["signer x"] * count), [], 3, "", many + rest, None))
    mistake = '"answer": "error", "error": "expected a node index after \'signer\', found the end of the line"'
    both = f'{{"line": 4, {mistake}}}\n{{"line": 6, {mistake}}}\n'
    asked.append(("mistakes, --json", "\n".join([*LEAST, "signer", "", "signer"]), ["--json"], 3, both, "", None))
    asked.append(("written, --json", A_TEXT, ["--json"], 0, '{"answer": "written", "bytes": 17, "nodes": 1}\n', "", A))
    meaning, places = REFUSED[9].partition(": ")[2], '[{"line": 4, "text": "node 0"}]'
    refused = f'{{"answer": "refused", "number": 9, "node": 0, "meaning": "{meaning}", "places": {places}}}\n'
    asked.append(("refused, --json", A_TEXT + "signer 9", ["--json"], 2, refused, "", None))
    for number, text, at, line in (13, LOOP_TEXT, 1, 6), (14, PARALLEL_TEXT, 0, 4):
        out = f"{refused_words(number, at)}\n  standard input:{line}: node {at}\n"
        asked.append((f"refusal {number} of a text", text, [], 2, out, "", None))
        of = {"answer": "refused", "number": number, "node": at, "meaning": REFUSED[number].partition(": ")[2]}
        out = json.dumps({**of, "places": [{"line": line, "text": f"node {at}"}]}) + "\n"
        asked.append((f"refusal {number} of a text, --json", text, ["--json"], 2, out, "", None))
    signers = driver.NUMBERS + 1 - 10  # bench A's description has 10 numbers
    most = f"lvs: the description has {driver.NUMBERS + 1:,} numbers, and {driver.NUMBERS:,} is the most that lvs_cases takes\n"
    asked.append(("too many numbers", A_TEXT + "signer 0\n" * signers, [], 3, "", most, None))
    of = model(node(0, *[signer(0)] * (signers - 1)))
    if len(of) <= 32768:
        asked.append(("as many numbers as can be", A_TEXT + "signer 0\n" * (signers - 1), [], 0, f"written: {len(of)} bytes, 1 node\n", "", of))
    most = "lvs: the description has 65,537 bytes of text, and 65,536 is the most that lvs_cases takes\n"
    asked.append(("too many bytes of text", A_TEXT + f"rule #{'r' * 65536}", [], 3, "", most, None))
    asked.append(("a byte 0", A_TEXT + "\0", [], 3, "", "lvs: the text '-' has a byte 0, so it is no text (lvs show prints a model as text)\n", None))
    asked.append(("a long text", A_TEXT + " " * (1 << 24), [], 3, "", "lvs: the text '-' is longer than 16,777,216 bytes\n", None))

    def built(i):
        _, text, words, *_ = asked[i]
        return run(["build", *words, "-", f"built-{i}.lvs"], folder, text.encode("utf-8", "surrogateescape"))

    with concurrent.futures.ThreadPoolExecutor(os.cpu_count()) as pool:
        for i, ended in enumerate(pool.map(built, range(len(asked)))):
            what, _, _, *expected, of = asked[i]
            check(f"build, {what}", ended, tuple(expected))
            file = folder / f"built-{i}.lvs"
            check(f"the model of {what}", file.read_bytes() if file.exists() else None, of)


def text_of(described):
    return "".join(line + "\n" for line in text_form.lines(description.from_lists(described.numbers, described.texts)))


def check_files(folder):
    """The files of `lvs build`: a text from a file; the model replaced as a whole, or not at all, and nothing left beside it."""
    place = folder / "files"
    place.mkdir()
    wrong, bad = A_TEXT + "edge value a to x\n", A_TEXT + "\nsigner 1\n"
    for file, text in ("good", B_TEXT), ("wrong", wrong), ("bad", bad), ("loop", LOOP_TEXT), ("parallel", PARALLEL_TEXT):
        (place / f"{file}.txt").write_text(text)
    (place / "old.lvs").write_bytes(A)
    (place / "old.lvs").chmod(0o640)
    (place / "link.lvs").symlink_to("old.lvs")
    (place / "folder").mkdir()
    os.mkfifo(place / "pipe")
    names_before = set(os.listdir(place))
    see = "(see lvs build --help)"
    for words, ended in (
        (["wrong.txt", "old.lvs"], (3, "", "wrong.txt:5: expected a node index after 'to', found 'x'\n")),
        (["bad.txt", "old.lvs"], (2, f"{refused_words(9, 0)}\n  bad.txt:4: node 0\n", "")),
        (["loop.txt", "old.lvs"], (2, f"{refused_words(13, 1)}\n  loop.txt:6: node 1\n", "")),
        (["parallel.txt", "old.lvs"], (2, f"{refused_words(14, 0)}\n  parallel.txt:4: node 0\n", "")),
        (["none.txt", "old.lvs"], (3, "", "lvs: cannot read the text 'none.txt': No such file or directory\n")),
        (["folder", "old.lvs"], (3, "", "lvs: cannot read the text 'folder': Is a directory\n")),
        (["old.lvs", "link.lvs"], (3, "", f"lvs build: TEXT and MODEL are the same file {see}\n")),
        (["good.txt", "good.txt"], (3, "", f"lvs build: TEXT and MODEL are the same file {see}\n")),
        (["good.txt", "-"], (3, "", f"lvs build: MODEL is the file to write, and - is none {see}\n")),
        (["old.lvs", "new.lvs"], (3, "", "lvs: the text 'old.lvs' has a byte 0, so it is no text (lvs show prints a model as text)\n")),
        (["good.txt", "none/x.lvs"], (3, "", "lvs: cannot write the model 'none/x.lvs': No such file or directory\n")),
        (["good.txt", "old.lvs/x"], (3, "", "lvs: cannot write the model 'old.lvs/x': Not a directory\n")),
        (["good.txt", "folder"], (3, "", "lvs: cannot write the model 'folder': not a regular file\n")),
        (["good.txt", "pipe"], (3, "", "lvs: cannot write the model 'pipe': not a regular file\n")),
        (["good.txt", "/dev/null"], (3, "", "lvs: cannot write the model '/dev/null': not a regular file\n")),
        (["good.txt"], (3, "", f"lvs build: the following arguments are required: MODEL {see}\n")),
        ([], (3, "", f"lvs build: the following arguments are required: TEXT, MODEL {see}\n")),
    ):
        check(f"build {words}", run(["build", *words], place), ended)
        check(f"the files after build {words}", (set(os.listdir(place)), (place / "old.lvs").read_bytes()), (names_before, A))
    shell = "ulimit -f 0; exec " + " ".join(COMMAND)
    ended = run([f"{shell} build good.txt old.lvs"], place, command=["bash", "-c"])
    check("a write that fails", ended, (3, "", "lvs: cannot write the model 'old.lvs': File too large\n"))
    check("the files after it", (set(os.listdir(place)), (place / "old.lvs").read_bytes()), (names_before, A))
    check("a text from a file", run(["build", "good.txt", "link.lvs"], place), (0, "written: 36 bytes, 2 nodes\n", ""))
    old = place / "old.lvs"
    found = old.read_bytes(), old.stat().st_mode & 0o777, (place / "link.lvs").is_symlink(), set(os.listdir(place))
    check("the model, its permissions, the link", found, (B, 0o640, True, names_before))
    ended = run([f"umask 027; exec {' '.join(COMMAND)} build good.txt new.lvs"], place, command=["bash", "-c"])
    found = (place / "new.lvs").read_bytes(), (place / "new.lvs").stat().st_mode & 0o777
    check("a new model", (ended, found), ((0, "written: 36 bytes, 2 nodes\n", ""), (B, 0o640)))
    check("and shown", run(["show", "new.lvs"], place), (0, B_TEXT, ""))


@functools.lru_cache
def run_cases():
    return [case for name in TABLES for _, case, _ in table(name)]


def all_models():
    """Models of any kind: the examples', those of the run cases, with components of every type and byte, and random ones."""
    yield from (A, B, EXAMPLE, NAMED, CYCLE, ANY, chain(256), many_numbers(FITTING))
    yield from ((ROOT / f"tests/models/{name}.lvs").read_bytes() for name in ("bench_a", "bench_b"))
    yield from (next(fields(case)) for case in run_cases() if case[:1] != b"W")
    values = [b"", b".", b"...", bytes(range(256)), bytes(32), bytes(8), bytes(9), b"\0\1", b"//", b"# x", b"to", b"a,b(c)"]
    values += (bytes([i]) for i in range(256))
    for typ in (1, 2, 7, 8, 50, 52, 54, 56, 58, 252, 253, 65535):
        for of in ([component(one, typ) for one in half] for half in (values[::2], values[1::2])):
            options = constraint(*(option(value(one)) for one in of), *(option(call("$eq", value(one))) for one in of))
            edges = [*(value_edge(i, one) for i, one in enumerate(of, 1)), pattern_edge(len(of) + 1, 1, options)]
            yield model(node(0, *edges), *(node(i, parent(0)) for i in range(1, len(edges) + 1)))
    yield from random_models(500)


@functools.lru_cache
def judged_models():
    """(model, its verdict) of each of these."""
    models = list(dict.fromkeys(all_models()))
    return list(zip(models, driver.ask(list(map(driver.verdict_case, models)))))


def check_round_trips():
    """Each accepted model: shown, read, built and shown again, without a process for each."""
    models = [of for of, verdict in judged_models() if isinstance(verdict, answers.Accepted)]
    check("how many models there are", len(models) >= 650, True)
    shown, lists = [], []
    for of, answer in zip(models, driver.ask(list(map(driver.describe_case, models)))):
        check(f"the description of {of.hex()}"[:100], isinstance(answer, answers.Described), True)
        shown.append(text_of(answer))
        reader = text_form.Reader().read(shown[-1])
        check(f"mistakes in the text of {of.hex()}"[:100], reader.mistakes, [])
        lists.append(description.Lists(reader.description))
        check(f"the lists of {of.hex()}"[:100], (lists[-1].numbers, bytes(lists[-1].texts)), (answer.numbers, answer.texts))
    built = driver.ask([driver.write_case(one.numbers, one.texts) for one in lists])
    again = driver.ask([driver.describe_case(one.model) for one in built])
    for of, text, one, described in zip(models, shown, built, again):
        check(f"{of.hex()}, built"[:100], one, answers.Written(canonical(of)))
        check(f"{of.hex()}, shown again"[:100], text_of(described), text)


# models that are no tree, and trees of any models, without a process for each


EDGES = (
    lambda to: value_edge(to, "a"),
    lambda to: value_edge(to, "b"),
    lambda to: pattern_edge(to, 1),
    lambda to: pattern_edge(to, 2, must_be("x")),
)


def loops():
    """(model, the two numbers of its refusal; None where it is accepted): a start with a Parent, and other nodes with any."""
    for up in 0, 1, 2, 9, 256, 2**64 - 1:
        yield model(node(0, parent(up))), (13, 0)
        yield model(node(0), node(1, parent(up)), node(2), start=1), (13, 1)
        yield model(node(0, value_edge(2, "a")), node(1, parent(up)), node(2, parent(0))), None
    for edge in EDGES:
        yield model(node(0, parent(0), edge(0))), (13, 0)
        yield model(node(0), node(1, parent(1), edge(1))), None
        for start, refusal in (0, None), (1, (13, 1)), (2, (13, 2)):
            yield model(node(0), node(1, parent(2), edge(2)), node(2, parent(1), edge(1)), start=start), refusal


def parallel_edges():
    """The same, of two edges to one node, next to each other or not, and of edges to two."""
    for one, other in itertools.combinations_with_replacement(EDGES, 2):
        apart = sorted([one(2), value_edge(3, "c"), pattern_edge(4, 3), other(2)], key=lambda edge: edge[0])
        for edges, ends in ([one(2), other(2)], (2,)), (apart, (2, 3, 4)):
            below = [node(i, parent(1)) for i in ends]
            yield model(node(0, *edges), node(1), *(node(i, parent(0)) for i in ends)), (14, 0)
            yield model(node(0, value_edge(1, "a")), node(1, parent(0), *edges), *below), (14, 1)
            yield model(node(0), node(1, *edges), *below), (14, 1)  # nothing leads there
            yield model(node(0), node(1, *edges), *below, start=2), (13, 2)
        yield model(node(0), node(1), node(2, parent(2), one(2), other(2))), (14, 2)
        several = node(1), node(2, parent(2), one(2), other(2)), node(3, parent(3), one(3), other(3))
        yield model(node(0), *several), (14, 2)
        yield model(node(0, one(1), other(2)), node(1, parent(0)), node(2, parent(0))), None
        yield model(node(0, one(1), other(2)), node(1, parent(0), other(2)), node(2, parent(0))), (11, 1)


def no_tree(*more, ends=(node(2),), **how):
    """A loop through node 0, which has two edges to node 1, and these."""
    return model(node(0, parent(1), value_edge(1, "a"), pattern_edge(1, 1), *more), node(1, parent(0), value_edge(0, "b")), *ends, **how)


def outranked():
    """The same, of a loop and parallel edges with a fault that has a lower number."""
    yield no_tree(start=9), (7, 0)
    for start, refusal in (0, (13, 0)), (1, (13, 1)), (2, (14, 0)):
        of = functools.partial(no_tree, start=start)
        yield of(), refusal
        yield of(ends=map(node, range(2, 257))), (4, 0)
        yield of(pattern_edge(1, 129)), (5, 0)
        yield of(behind=symbol(0, "a")), (5, 0)
        yield of(ends=(node(2), node(7))), (6, 3)
        yield of(pattern_edge(9, 1)), (8, 0)
        yield of(signer(9)), (9, 0)
        yield of(pattern_edge(1, 1, constraint(option()))), (10, 0)
        yield of(pattern_edge(2, 1)), (11, 0)
        yield of(pattern_edge(1, 1, constraint(option(call("$no"))))), (12, 0)


def no_trees():
    return [*loops(), *parallel_edges(), *outranked()]


def check_no_trees():
    """Every call that takes a model refuses these alike."""
    name = names.name("/a")
    calls = driver.verdict_case, driver.match_case, driver.sign_case, driver.follow_case, driver.suggest_case, driver.describe_case
    words = (), (name,), (name, name), (name, name, [0, 0]), (name, [name]), ()
    answered = iter(driver.ask([call(of, *more) for of, _ in no_trees() for call, more in zip(calls, words)]))
    for of, refusal in no_trees():
        for call in calls:
            answer = next(answered)
            found = tuple(answer) if isinstance(answer, answers.Refused) else None
            check(f"{call.__name__} of {of.hex()}"[:200], found, refusal)


NODE_LINE = re.compile(r" *(?:.* -> )?node (\d+)(?! \((?:above|no such node)\))\b.*")


def check_tree(of, verdict):
    """Each node is shown once and so is each edge, also of a model that is no tree; and nothing leads back below an accepted start."""
    what, lines = f"the tree of {of.hex()}"[:200], list(trees.Tree(Labels(of), verdict).lines())
    nodes = [inside for typ, inside in parts(of) if typ == NODE]
    edges = [typ for inside in nodes for typ, _ in parts(inside) if typ in (VALUE_EDGE, PATTERN_EDGE)]
    found = sorted(int(line[1]) for line in map(NODE_LINE.fullmatch, lines) if line)
    check(f"nodes in {what}", found, list(range(len(nodes))))
    check(f"edges in {what}", sum(" -> " in line for line in lines), len(edges))
    if isinstance(verdict, answers.Accepted):
        reached = itertools.takewhile(lambda line: line != "not reachable from the start:", lines)
        check(f"ways back in {what}", [line for line in reached if line.endswith(" (above)")], [])


def check_trees():
    damaged = explanations.damaged_models([EXAMPLE, NAMED, CYCLE, FULL, *random_models(60)], 3000, seed="trees")
    models = [*(of for of, _ in no_trees()), *damaged]
    kinds = collections.Counter()
    for of, verdict in [*judged_models(), *zip(models, driver.ask(list(map(driver.verdict_case, models))))]:
        number = verdict.number if isinstance(verdict, answers.Refused) else 0
        kinds[number] += 1
        if number not in range(1, refusals.LAST_UNREADABLE + 1):
            check_tree(of, verdict)
    check("how many accepted models have a tree", kinds[0] >= 650, True)
    check("the refusals that there are, and 0 of accepted models", sorted(kinds), [0, *MODEL_REFUSALS])


def error_runs():
    see, sign_see = "(see lvs --help)", "(see lvs sign --help)"
    yield Run([], 3, "", f"lvs: the following arguments are required: COMMAND {see}\n")
    yield Run(["judge"], 3, "", "lvs judge: the following arguments are required: MODEL (see lvs judge --help)\n")
    yield Run(["match", "a.lvs"], 3, "", "lvs match: the following arguments are required: NAME (see lvs match --help)\n")
    yield Run(["sign", "a.lvs"], 3, "", f"lvs sign: the following arguments are required: PACKET {sign_see}\n")
    yield Run(["sign", "a.lvs", "/a"], 3, "", f"lvs sign: the following arguments are required: KEY {sign_see}\n")
    yield Run(["sign", "a.lvs", "-", "/a"], 3, "", f"lvs sign: - takes pairs from standard input, so KEY cannot be given {sign_see}\n")
    yield Run(["sign", "-", "-"], 3, "", f"lvs sign: standard input has either the model or the pairs {sign_see}\n")
    follow_see = "(see lvs follow --help)"
    yield Run(["follow", "a.lvs"], 3, "", f"lvs follow: the following arguments are required: PACKET, KEY, PATH {follow_see}\n")
    yield Run(["follow", "a.lvs", "/", "/"], 3, "", f"lvs follow: the following arguments are required: PATH {follow_see}\n")
    yield Run(["follow", "a.lvs", "/", "/", "0", "1"], 3, "", f"lvs: unrecognized arguments: 1 {see}\n")
    yield Run(["follow", "a.lvs", "a", "/", "x"], 3, "", "lvs: packet name 'a', character 1: a name begins with /\n")
    yield Run(["follow", "a.lvs", "/", "a", "x"], 3, "", "lvs: key name 'a', character 1: a name begins with /\n")
    for path, i in ("", 1), ("0,x", 2), ("-1", 1):
        yield Run(["follow", "a.lvs", "/", "/", path], 3, "", f"lvs: {no_path(path, i)}\n")
    suggest_see = "(see lvs suggest --help)"
    yield Run(["suggest", "a.lvs"], 3, "", f"lvs suggest: the following arguments are required: PACKET, NAMES-FILE {suggest_see}\n")
    yield Run(["suggest", "a.lvs", "/a"], 3, "", f"lvs suggest: the following arguments are required: NAMES-FILE {suggest_see}\n")
    yield Run(["suggest", "-", "/a", "-"], 3, "", f"lvs suggest: standard input has either the model or the list {suggest_see}\n")
    yield Run(["suggest", "a.lvs", "a", "none"], 3, "", "lvs: packet name 'a', character 1: a name begins with /\n")
    for file, why in ("none.txt", "No such file or directory"), (".", "Is a directory"), ("a.lvs/b", "Not a directory"):
        yield Run(["suggest", "a.lvs", "/", file], 3, "", f"lvs: cannot read the list {file!r}: {why}\n")
    yield Run(["suggest", "a.lvs", "/", "a.lvs"], 3, "", "lvs: the list 'a.lvs' has a byte 0, so it is no text\n")
    yield Run(["suggest", "a.lvs", "/", "-"], 3, "", "lvs: the list '-' is longer than 16,777,216 bytes\n", b"#" * ((1 << 24) + 1))
    yield Run(["tree"], 3, "", "lvs tree: the following arguments are required: MODEL (see lvs tree --help)\n")
    yield Run(["judge", "a.lvs", "b.lvs"], 3, "", f"lvs: unrecognized arguments: b.lvs {see}\n")
    yield Run(["judge", "--jso", "a.lvs"], 3, "", f"lvs: unrecognized arguments: --jso {see}\n")
    yield Run(["show"], 3, "", "lvs show: the following arguments are required: MODEL (see lvs show --help)\n")
    for words in (["judge"], ["match", "/"], ["sign", "/", "/"], ["sign", "-"], ["follow", "/", "/", "0"], ["suggest", "/", "-"], ["tree"], ["show"]):
        for file, why in ("none.lvs", "No such file or directory"), (".", "Is a directory"), ("a.lvs/b", "Not a directory"):
            yield Run([words[0], file, *words[1:]], 3, "", f"lvs: cannot read the model {file!r}: {why}\n")
    types = "1 to 65535, or sha256digest, params-sha256, seg, off, v, t, seq (= in a value is %3D)"
    empty = "a component of no bytes is written ... (and . and .. are none)"
    percent = "% takes two hexadecimal digits (% itself is %25)"
    for uri, at, why in (
        ("", 1, "a name begins with /"),
        ("ndn", 1, "a name begins with /"),
        ("ndn:a", 5, "a name begins with /"),
        ("/a/%zz", 4, percent),
        ("ndn:/ab%4", 8, percent),
        ("/8=a%", 5, percent),
        ("/%25%", 5, percent),
        ("//a", 2, empty),
        ("/a//", 4, empty),
        ("/a/./b", 4, empty),
        ("/a/8=..", 6, empty),
        ("/a/x=b", 4, f"'x' is no component type: {types}"),
        ("/0=b", 2, f"'0' is no component type: {types}"),
        ("/65536=b", 2, f"'65536' is no component type: {types}"),
        ("/=b", 2, f"'' is no component type: {types}"),
        ("/v=x", 4, "v= takes a number below 2^64"),
        ("/a/seg=18446744073709551616", 8, "seg= takes a number below 2^64"),
        ("/sha256digest=0a", 15, "sha256digest= takes 64 hexadecimal digits"),
        ("0x0g", 4, "not a hexadecimal digit"),
        ("0x07 ", 5, "not a hexadecimal digit"),
        ("0x070", 6, "the last byte takes a second hexadecimal digit"),
    ):
        yield Run(["match", "a.lvs", uri], 3, "", f"lvs: name {uri!r}, character {at}: {why}\n")
    yield Run(["sign", "a.lvs", "a", "/"], 3, "", "lvs: packet name 'a', character 1: a name begins with /\n")
    yield Run(["sign", "a.lvs", "/", "a"], 3, "", "lvs: key name 'a', character 1: a name begins with /\n")


# how runs are made and compared


COMMAND = [sys.executable, "-S", str(ROOT / "tools/lvs")]  # -S: no module from outside of the standard library
counts = {"checks": 0, "wrong": 0}


def check(what, found, expected):
    counts["checks"] += 1
    if found != expected:
        counts["wrong"] += 1
        print(f"{what}:\n  {found!r}\n  is not\n  {expected!r}"[:2000])


def run(words, folder, given=b"", command=COMMAND, **how):
    ran = subprocess.run([*command, *words], cwd=folder, input=given, stdout=subprocess.PIPE, stderr=subprocess.PIPE, timeout=120, **how)
    return ran.returncode, ran.stdout.decode(), ran.stderr.decode()


def check_runs(folder):
    lists = suggest_runs, refused_list_runs, long_list_runs, list_mistake_runs
    pairs = sign_runs, batch_runs, binding_runs, path_runs, follow_runs
    parts = judge_runs, malformed_runs, no_tree_runs, match_runs, *pairs, *lists, tree_runs, show_runs, error_runs
    runs = [one for part in parts for one in part()]
    with concurrent.futures.ThreadPoolExecutor(os.cpu_count()) as pool:
        found = pool.map(lambda one: run(one.words, folder, one.given), runs)
        for one, ended in zip(runs, found):
            check(" ".join(["lvs", *one.words])[:200], ended, (one.status, one.out, one.err))
    status, out, err = run(["guess"], folder)  # Python's versions list the choices in different ways
    check("lvs guess", (status, out, err.startswith("lvs: argument COMMAND: invalid choice: 'guess' (choose from")), (3, "", True))


def check_table():
    check("numbers with a meaning", list(refusals.REFUSALS), list(REFUSED))
    for number, words in REFUSED.items():
        at = re.match(r"refused \d+ at (?:byte|node|entry) (\d+)", words)
        check(f"refusal {number}", answers.Refused(number, int(at[1]) if at else 0).words(), words)
    unknown = "refused 99: tools/lvs_command/refusals.py does not say what this number means"
    check("a number without a meaning", answers.Refused(99, 1).words(), unknown)


LINE = re.compile(r"  byte (\d+) \(0x([0-9A-F]+)\):  (\.\. )?((?:[0-9A-F]{2} )*)\[([0-9A-F ]*)( \.\.)?\]((?: [0-9A-F]{2})*)( \.\.)?")


def read_line(line):
    """The place twice, and the bytes before it, in [ ] and behind, each with whether .. stands for more."""
    if not (found := LINE.fullmatch(line)):
        return line
    place, again, more_before, before, marked, cut, behind, more_behind = found.groups()
    parts = (before, more_before), (marked, cut), (behind, more_behind)
    return int(place), int(again, 16), *((bytes.fromhex(part), bool(more)) for part, more in parts)


def line_of(data, place, end):
    """What such a line has to have: 8 bytes before, 12 in [ ], 8 behind, where there are so many."""
    before, marked, behind = data[max(place - 8, 0) : place], data[place : min(place + 12, end)], data[end : end + 8]
    return place, place, (before, place > 8), (marked, end > place + 12), (behind, end + 8 < len(data))


def check_explanations():
    """What is said of malformed models, at the proved call's places, without a process for each."""
    cases = list(explanations.cases())
    for one, answer in zip(cases, driver.ask([driver.verdict_case(one.model) for one in cases])):
        check(f"the place of {one.what}", answer, answers.Refused(refusals.MALFORMED, one.place))
        *words, line = malformed.explain(one.model, one.place).lines(one.model)
        expected = [f"  {one.found}", f"  in {one.around}"], line_of(one.model, one.place, one.place + one.size)
        check(one.what, (words, read_line(line)), expected)
    # the example, cut at each byte: of 29 Nodes it is a whole model where one ends, or none has begun
    cut = malformed_among(EXAMPLE[:size] for size in range(len(EXAMPLE)))
    check("how many cuts are malformed", len(cut), len(EXAMPLE) - 29)
    damaged = explanations.damaged_models([EXAMPLE, NAMED, FULL, TEMPORARY, large(tag(1)), *random_models(60)], 3000)
    refused = malformed_among(damaged)
    check("how many damaged models are malformed", len(refused) > 2000, True)
    for of, place in cut + refused:
        check_line(of, place, is_explained=True)
    chance = random.Random(0)
    for of in damaged[::4]:  # another place than the call's: only the bytes are shown
        check_line(of, chance.randrange(len(of) + 1))


def malformed_among(models):
    """(model, place) of each that is refused with 2."""
    models = list(models)
    verdicts = driver.ask(list(map(driver.verdict_case, models)))
    return [(of, answer.at) for of, answer in zip(models, verdicts) if isinstance(answer, answers.Refused) and answer.number == refusals.MALFORMED]


def check_line(of, place, is_explained=False):
    why = malformed.explain(of, place)
    *words, line = why.lines(of)
    check(f"the line of {of.hex()} at {place}", read_line(line), line_of(of, place, why.end))
    if is_explained:
        check(f"an explanation of {of.hex()} at {place}", (len(words), malformed.UNEXPLAINED in words[0]), (2, False))


# bindings, without a process for each


def match_words(answer, *words):
    """A line of the driver: a match, and its binding words, 0 where no more are given."""
    return " ".join([answer, *map(str, words), *["0"] * (384 - len(words))])


def pair_words(answer, *words, path=()):
    """The same of a pair, with its path."""
    return " ".join([match_words(answer, *words), *map(str, path), *["0"] * (64 - len(path))])


def check_binding_words():
    """Lines of the driver with words that no call leaves. Of /a the only component is 2, 3, and of /bb 2, 4."""
    match_case, sign_case = driver.match_case(B, names.name("/a")), driver.sign_case(B, names.name("/a"), names.name("/bb"))
    wrong = (2, 3, 0), (2, 3, 3), (2, 3, 4294967295), (0, 3, 1), (2, 0, 1), (2, 0, 0), (0, 3, 0), (0, 0, 1), (0, 0, 3), (1, 4, 1)
    wrong += (2, 4, 1), (2, 2, 1), (3, 2, 1), (3, 3, 1), (5, 3, 1), (0, 5, 1), (4294967295, 3, 1), (2, 4294967295, 1), (2, 3, 2)
    lines = []
    for words in wrong:
        said = f"answers with the words {', '.join(map(str, words))} for tag"
        lines.append((match_case, match_words("match 1 1", *words), f"{said} 1, which are no binding"))
        lines.append((sign_case, pair_words("allowed 1 1", 2, 3, 1, *words), f"{said} 2, which are no binding"))
    said = "answers with the words 2, 4, 2 for tag 1, which are no binding"
    lines.append((match_case, match_words("match 1 1", 2, 4, 2), said))  # there is no key
    lines.append((match_case, match_words("match 1 1", *[0] * 381, 2, 4, 2), said.replace("tag 1", "tag 128")))
    for found, bound, words in ("2 bound tags", 2, (2, 3, 1)), ("0 bound tags", 0, (2, 3, 1)), ("1 bound tag", 1, ()):
        lines.append((match_case, match_words(f"match 1 {bound}", *words), f"answers with {found}, and with the words of {len(words) // 3}"))
    # a word more or less, no bindings or no path
    bound, both = match_words("match 1 1", 2, 3, 1), pair_words("allowed 1 1", 2, 3, 1)
    no_path, no_bindings = match_words("allowed 1 1", 2, 3, 1), "allowed 1 1" + " 0" * 64
    no_answers = [(match_case, line) for line in (bound + " 0", bound[:-2], "match 1 1")]
    no_answers += ((sign_case, line) for line in (both + " 0", both[:-2], "allowed 1 1", no_path, no_bindings))
    for case, line in no_answers:
        lines.append((case, line, f"printed {line[:60]!r}, which is no answer"))
    for case, line, text in lines:
        check(f"the line {line}"[:200], failure(driver.answer_of, case, line), f"lvs_cases {text}")
    for case, line, bindings in (
        (match_case, match_words("match 1 1", 2, 3, 1), [(1, "a", "packet", 2, 3)]),
        (match_case, match_words("match 1 1", *[0] * 381, 2, 3, 1), [(128, "a", "packet", 2, 3)]),
        (match_case, match_words("match 0 0"), []),
        (sign_case, pair_words("allowed 1 1", 2, 4, 2, 0, 0, 0, 2, 3, 1), [(1, "bb", "key", 2, 4), (3, "a", "packet", 2, 3)]),
        (sign_case, pair_words("allowed 1 1", *[0] * 381, 2, 4, 2, path=range(64)), [(128, "bb", "key", 2, 4)]),
    ):
        check(f"the bindings of {line}"[:200], list(driver.answer_of(case, line).bindings), bindings)


class Part(description.Value):
    """A component, which knows its name and its place there."""


def placed(name, origin):
    """The components of a name, each with its origin, start and length."""
    values = crossings.components(name)
    sizes = [len(element(*value)) for value in values]
    parts, start = [], len(name) - sum(sizes)
    for value, size in zip(values, sizes):
        parts.append(Part(*value))
        parts[-1].origin, parts[-1].start, parts[-1].length = origin, start, size
        start += size
    return parts


def matches(of, parts, bindings, at):
    """(node, bindings) of each match, in order, by docs/format.md, 7.2 to 7.5: from these bindings, and at this node."""
    if not parts:
        yield at, bindings
        return
    for edge in crossings.edges(of.nodes[at]):
        after = dict(bindings)
        if not crossings.obstacle(of, edge, parts[0], after):
            yield from matches(of, parts[1:], after, edge.to)


def pairs_of(of, packet, key):
    """(the two nodes, bindings) of each pair, in order."""
    for at, bindings in matches(of, packet, {}, of.start):
        for by, both in matches(of, key, bindings, of.start):
            if by in of.nodes[at].signers:
                yield (at, by), both


def tags_along(of, packet, key, path):
    """(Tag, component) of each edge with a Tag, along a path that is accepted."""
    ordinals = iter(path)
    for parts in packet, key:
        at = of.start
        for part in parts:
            edge = crossings.edges(of.nodes[at])[next(ordinals)]
            if isinstance(edge, description.PatternEdge):
                yield edge.tag, part
            at = edge.to


def bound_along(of, packet, key, path):
    """The bindings of such a path: each named Tag's first component."""
    bindings = {}
    for each, part in tags_along(of, packet, key, path):
        if each.number <= of.patterns:
            bindings.setdefault(each, part)
    return bindings


def kinds_along(of, packet, key, path):
    """What becomes of each Tag on such a path."""
    bindings = bound_along(of, packet, key, path)
    yield "some tags are bound" if bindings else "no tag is bound"
    for each, part in tags_along(of, packet, key, path):
        if each not in bindings:
            yield "temporary"
        elif bindings[each] is part:
            yield f"bound in the {part.origin}"
        else:
            yield f"bound in the {bindings[each].origin}, met again in the {part.origin}"


def shown_bindings(of, bindings):
    """What is printed of bindings: the lines, the part of a line, and the objects."""
    symbols = {one.tag: one.identifier.decode() for one in reversed(of.symbols)}
    often = collections.Counter(symbols.values())
    lines, parts, objects = [], [], []
    for (n,), part in sorted(bindings.items()):
        symbol, component_text = symbols.get(n), text_form.component_text(part)
        text = f"{symbol} (tag {n})" if often[symbol] > 1 else symbol or f"tag {n}"
        lines.append(f"  {text} = {component_text}, from the {part.origin}")
        parts.append(f"{text} = {component_text} ({part.origin})")
        objects.append((n, symbol, component_text, part.origin, part.start, part.length))
    return lines, "bindings " + (", ".join(parts) or "none"), binding_objects(*objects)


def printed_bindings(answer, labels):
    return answer.lines(labels), answer.bindings_line(labels), answer.object(labels)["bindings"]


def small_model(chance):
    """A model with few Tags, most of them named, so that names bind them and meet them again."""
    parents = [None, *(max(0, i - chance.choice((1, 1, 2, 3))) for i in range(1, chance.randint(2, 10)))]
    options = [value("x"), tag(chance.randint(1, 4)), call("$eq_type", tag(chance.randint(1, 4))), call("$eq", tag(1))]
    nodes = []
    for i, up in enumerate(parents):
        children = [j for j, of in enumerate(parents) if of == i]
        patterns = [j for j in children if chance.random() < 0.8]
        constraints = [[constraint(*map(option, chance.choices(options, k=2)))] if chance.random() < 0.2 else [] for _ in patterns]
        edges = [value_edge(j, chance.choice("xy")) for j in children if j not in patterns]
        edges += (pattern_edge(j, chance.choice((1, 1, 2, 3, 4)), *each) for j, each in zip(patterns, constraints))
        signers = [signer(j) for j in range(len(parents)) if chance.random() < 0.6]
        nodes.append(node(i, *([] if up is None else [parent(up)]), *edges, *signers))
    symbols = (symbol(chance.randint(1, 4), chance.choice(("user", "part", "_role"))) for _ in range(chance.randrange(6)))
    return model(*nodes, patterns=chance.choice((0, 2, 3, 4, 4, 128)), behind=b"".join(symbols))


TEXTS = "x", "x", "x", "y", "a/b,%\x1b", "", "...", "z" * 253
VALUES = [*(description.Value(8, text.encode()) for text in TEXTS), description.Value(54, b"\x03"), description.Value(9, b"=")]


def small_pairs(count, chance):
    """(model, its description, packet name, key name) for so many models."""
    for of, model_of in described(small_model(chance) for _ in range(count)).items():
        for _ in range(12):
            bound = {}
            yield of, model_of, walked_name(model_of, bound, chance), walked_name(model_of, bound, chance)


def walked_name(of, bound, chance):
    """A name that leads along some edges, if their Constraints hold. `bound` has what was taken for Tags, and mostly is taken again."""
    at, parts = of.start, []
    while (out := crossings.edges(of.nodes[at])) and chance.random() < 0.8:
        edge, any_value = chance.choice(out), chance.choice(VALUES)
        if isinstance(edge, description.ValueEdge):
            parts.append(edge.value)
        else:
            parts.append(bound.setdefault(edge.tag, any_value) if chance.random() < 0.9 else any_value)
        at = edge.to
    return crossings.name_of(parts)


def check_bindings():
    """What is shown of the bindings of pairs and matches, against a search of one's own; of the run cases' pairs, against their paths."""
    check_random_bindings()
    for of, model_of, packet, answer in found_matches():
        at, bindings = next(matches(model_of, placed(packet, "packet"), {}, model_of.start), (None, {}))
        found, expected = printed_bindings(answer, Labels(of)), shown_bindings(model_of, bindings)
        check(f"the bindings of {packet.hex()} in {of.hex()}"[:300], (answer.node, found), (at, expected))
    for of, model_of, packet, key, answer in allowed_pairs():
        bindings = bound_along(model_of, placed(packet, "packet"), placed(key, "key"), answer.path)
        found, expected = printed_bindings(answer, Labels(of)), shown_bindings(model_of, bindings)
        check(f"the bindings of {packet.hex()} and {key.hex()} in {of.hex()}"[:300], found, expected)


def check_random_bindings():
    chance, kinds = random.Random(0), collections.Counter()
    asked = [*small_pairs(200, chance), *((one.model, one.described, one.packet, one.key) for one in random_paths(60))]
    signed = driver.ask([driver.sign_case(of, packet, key) for of, _, packet, key in asked])
    matched = driver.ask([driver.match_case(of, packet) for of, _, packet, _ in asked])
    for (of, model_of, *both), pair_answer, match_answer in zip(asked, signed, matched):
        what, labels = f"{' and '.join(each.hex() for each in both)} in {of.hex()}"[:300], Labels(of)
        packet, key = map(placed, both, ("packet", "key"))
        nodes, bindings = next(pairs_of(model_of, packet, key), (None, None))
        is_allowed = isinstance(pair_answer, answers.Allowed)
        found = is_allowed and (pair_answer.packet_node, pair_answer.key_node, printed_bindings(pair_answer, labels))
        check(f"the pair of {what}", found, nodes is not None and (*nodes, shown_bindings(model_of, bindings)))
        kinds.update(kinds_along(model_of, packet, key, pair_answer.path) if is_allowed else ["not allowed"])
        at, bindings = next(matches(model_of, packet, {}, model_of.start), (None, None))
        found = isinstance(match_answer, answers.Match) and (match_answer.node, match_answer.bound, printed_bindings(match_answer, labels))
        check(f"the match of {what}", found, at is not None and (at, len(bindings), shown_bindings(model_of, bindings)))
    check("how often each thing becomes of a Tag", (len(kinds), min(kinds.values()) >= 30), (9, True))


class Followed:
    """A path that is followed, by a model and its description, two names and words; and what is wrong with it."""

    def __init__(self, of, model_of, packet, key, path):
        self.model, self.described, self.packet, self.key, self.path = of, model_of, packet, key, path
        self.fault = crossings.first_fault(model_of, crossings.components(packet), crossings.components(key), path)

    def changed(self, *path):
        return Followed(self.model, self.described, self.packet, self.key, path)

    def case(self):
        return driver.follow_case(self.model, self.packet, self.key, self.path)


def described(models):
    """The description of each model, by its bytes."""
    models = list(dict.fromkeys(models))
    return {of: description.from_lists(one.numbers, one.texts) for of, one in zip(models, driver.ask(list(map(driver.describe_case, models))))}


def answered_with(kind, case, asked):
    """(model, its description, the rest that was asked, answer) of each that has an answer of this kind."""
    found = [(*each, answer) for each, answer in zip(asked, driver.ask([case(*each) for each in asked])) if isinstance(answer, kind)]
    of_models = described(of for of, *_ in found)
    return [(of, of_models[of], *rest) for of, *rest in found]


def found_matches():
    """(model, its description, packet name, answer) of each match of the run cases."""
    asked = dict.fromkeys(tuple(fields(case))[:2] for case in run_cases() if case[:1] == b"M")
    return answered_with(answers.Match, driver.match_case, list(asked))


@functools.lru_cache
def allowed_pairs():
    """(model, its description, packet name, key name, answer) of each allowed pair of the run cases and of the example."""
    pairs = [tuple(fields(case))[:3] for case in run_cases() if case[:1] in b"SP"]
    pairs += ((EXAMPLE, names.name(packet), names.name(key)) for packet, key in names.pairs(REQUESTS.splitlines()))
    pairs = list(dict.fromkeys(pairs))
    return answered_with(answers.Allowed, driver.sign_case, pairs)


def printed_paths():
    """The path of each allowed pair as `lvs sign --path` prints it, read as `lvs follow` does; and the same with one word changed."""
    chance, pairs = random.Random(0), allowed_pairs()
    check("how many pairs are allowed", len(pairs) > 500, True)
    for of, model_of, packet, key, answer in pairs:
        *_, line = paths.AllowedPath(answer, Labels(of), packet, key).lines()
        one = Followed(of, model_of, packet, key, paths.read_path(line.removeprefix("  path ")))
        check(f"the path {line} of {of.hex()}"[:200], one.fault, None)
        yield one
        for i in chance.sample(range(len(one.path)), min(2, len(one.path))):
            other = chance.choice([word for word in (0, 1, 2, one.path[i] + 1, 65535) if word != one.path[i]])
            yield one.changed(*one.path[:i], other, *one.path[i + 1 :])
        yield one.changed(*one.path, 0)
        yield Followed(of, model_of, key, packet, one.path)


def random_paths(count):
    """Names and paths through random models, each model with the signer that the path leads to, or as it was."""
    chance = random.Random(0)
    for of, model_of in described(random_models(count, seed="paths")).items():
        for _ in range(10):
            packet, path, at = crossings.walked(model_of, chance)
            key, more, by = crossings.walked(model_of, chance)
            path = path + more if chance.random() < 0.7 else crossings.changed(path + more, chance)
            begun = crossings.name_of(packet), crossings.name_of(key)
            if max(map(len, begun)) <= 1024:
                signed = (of, model_of) if chance.random() < 0.2 else (following.Unsigned(of).signed(at, by), crossings.signed(model_of, at, by))
                yield Followed(*signed, *begun, path)


def check_paths():
    """What becomes of paths, without a process for each."""
    check_known_paths()
    check_many_paths()
    wrong = ("0,,1", 2), ("0,", 2), (",0", 1), ("0,65536", 2), ("0, 1", 2), ("0 1", 1), ("²", 1), ("+1", 1), ("0,none", 2), ("9" * 5000, 1)
    for path, i in wrong:
        check(f"the path {path}"[:100], failure(paths.read_path, path), no_path(path, i))


def failure(call, *words):
    """The text of the Failure with which a call ends."""
    try:
        return call(*words)
    except errors.Failure as fault:
        return str(fault)


def check_known_paths():
    for file, packet, key, path, why in followed_paths():
        words = FILES[file], names.name(packet), names.name(key), paths.read_path(path)
        doubt = following.Doubt(*words)
        answer, *said = driver.ask([driver.follow_case(*words), *(doubt.cases if why else [])])
        found = answer.answer, why and doubt.words(said)
        check(f"{path} of {packet} by {key} in {file}"[:200], found, ("no" if why else "accepted", why))


def check_many_paths():
    followed = [*printed_paths(), *random_paths(150)]
    kinds = collections.Counter(of.fault and of.fault[0] for of in followed)
    check("how often each thing is wrong, or nothing", (len(kinds), min(kinds.values()) >= 60), (7, True))
    for of, answer in zip(followed, driver.ask(list(map(Followed.case, followed)))):
        check(f"{of.path} in {of.model.hex()}"[:200], answer.answer, "no" if of.fault else "accepted")
    refused = [of for of in followed if of.fault]
    doubts = [following.Doubt(of.model, of.packet, of.key, of.path) for of in refused]
    said = iter(driver.ask([case for doubt in doubts for case in doubt.cases]))
    for of, doubt in zip(refused, doubts):
        words, (begin, end) = doubt.words([next(said) for _ in doubt.cases]), words_of_fault(of)
        is_right = words is not None and words.startswith(begin) and words.endswith(end)
        check(f"why {of.path} is no path in {of.model.hex()}: {words}"[:300], is_right, True)


def words_of_fault(of):
    """How the line that says why begins and ends."""
    wrong, at, i = of.fault
    packet, key = crossings.components(of.packet), crossings.components(of.key)
    if wrong == crossings.COUNT:
        return f"the path has {len(of.path)} word", f" {answers.counted(len(packet) + len(key), 'component')}"
    if wrong == crossings.SIGNER:
        return f"every edge may be crossed, but node {at}", " as a signer"
    place = f"component {i + 1} of the packet" if i < len(packet) else f"component {i - len(packet) + 1} of the key"
    begin = f"{place}, {text_form.component_text([*packet, *key][i])},"
    if wrong == crossings.NO_EDGE:
        count = len(crossings.edges(of.described.nodes[at]))
        return f"{begin} has no edge {of.path[i]} to cross: node {at} ", f"has {answers.counted(count, 'edge')}"
    reasons = {
        crossings.VALUE: ('it is for the value "', '"'),
        crossings.BOUND: ("the pattern ", ""),
        crossings.CONSTRAINTS: ("the constraints of the pattern ", " do not hold"),
    }
    why, end = reasons[wrong]
    return f"{begin} may not cross edge {of.path[i]} of node {at}: {why}", end


def check_uris():
    """Components are written so that they are read back, whatever their bytes."""
    values = [b"", b".", b"..", b"...", b"....", b"a.b", b"\x00", b"\xff" * 8, b"\x00\x01", bytes(9), bytes(range(256)), bytes(32), b"=", b"%41"]
    components = [element(typ, value) for typ in (1, 2, 3, 8, 32, 50, 52, 54, 56, 58, 252, 253, 65535) for value in values]
    for data in components:
        check(f"the URI of {data.hex()}", names.component(names.component_uri(data)), data)
    for uri, data in uris.NAMES:
        ((_, inside),) = names.elements(bytes.fromhex(data))
        texts = [names.component_uri(element(*part)) for part in names.elements(inside)]
        check(f"{uri}, written again", names.name("/" + "/".join(texts)), bytes.fromhex(data))


def check_elements():
    """Which bytes are one entry of a list."""
    for text in NO_ELEMENTS:
        check(f"{text} is no element", names.is_element(bytes.fromhex(text[2:])), False)
    for typ in (1, 7, 8, 252, 253, 65535, 65536, 2**32 - 1):
        for size in (0, 1, 252, 253, 65535, 65536):
            data = element(typ, bytes(size))
            found = [names.is_element(of) for of in (data, data[:-1], data + b"\x00")]
            check(f"an element of type {typ} and {size} bytes, one less, one more", found, [True, False, False])


# streams


def check_streams(folder):
    with subprocess.Popen([*COMMAND, "tree", "deep.lvs"], cwd=folder, stdout=subprocess.PIPE, stderr=subprocess.PIPE) as running:
        running.stdout.readline()
        running.stdout.close()
        check("a closed pipe", (running.wait(60), running.stderr.read()), (128 + signal.SIGPIPE, b""))
    shell = "exec " + " ".join(COMMAND)
    for words, status, out, err in (
        ("judge a.lvs >/dev/full", 3, "", "lvs: cannot write the answer: No space left on device\n"),
        ("judge r2.lvs >&-", 2, "", ""),
        ("judge none 2>/dev/full", 3, "", ""),
        ("judge none 2>&-", 3, "", ""),
        ("judge - <&-", 3, "", "lvs: standard input is closed\n"),
        ("sign a.lvs - <&-", 3, "", "lvs: standard input is closed\n"),
        ("judge - 0>/dev/null", 3, "", "lvs: cannot read the model '-': Bad file descriptor\n"),
        ("sign a.lvs - 0>/dev/null", 3, "", "lvs: cannot read standard input: Bad file descriptor\n"),
        ("suggest a.lvs / - <&-", 3, "", "lvs: standard input is closed\n"),
        ("suggest a.lvs / - 0>/dev/null", 3, "", "lvs: cannot read the list '-': Bad file descriptor\n"),
        ("suggest a.lvs / /dev/null >/dev/full", 3, "", "lvs: cannot write the answer: No space left on device\n"),
        ("show a.lvs >/dev/full", 3, "", "lvs: cannot write the answer: No space left on device\n"),
        ("show - <&-", 3, "", "lvs: standard input is closed\n"),
        ("build - x.lvs <&-", 3, "", "lvs: standard input is closed\n"),
        ("build - x.lvs 0>/dev/null", 3, "", "lvs: cannot read the text '-': Bad file descriptor\n"),
    ):
        check(words, run([f"{shell} {words}"], folder, command=["bash", "-c"]), (status, out, err))
    pipes = {"stdin": subprocess.PIPE, "stdout": subprocess.PIPE, "stderr": subprocess.PIPE}
    heard = functools.partial(signal.signal, signal.SIGINT, signal.SIG_DFL)  # what runs in the background ignores it, and hands that on
    with subprocess.Popen([*COMMAND, "sign", "a.lvs", "-"], cwd=folder, preexec_fn=heard, **pipes) as running:
        running.stdin.write(b"/a /b\n" * 2000)
        running.stdin.flush()
        line = running.stdout.readline()  # it waits for more pairs now
        running.send_signal(signal.SIGINT)
        running.stdout.read()
        ended = line.decode(), running.wait(60), running.stderr.read()
        check("an interrupt", ended, (pair_line(1, "not allowed", "/a", "/b"), 128 + signal.SIGINT, b""))


def check_terminal(folder):
    """Progress is shown on a terminal, and not of few pairs; pairs that are typed are answered one by one."""
    for count, expected in (1999, b""), (4001, b"lvs: 2000 pairs answered\r\x1b[Klvs: 4000 pairs answered\r\x1b[Klvs: 4001 pairs answered\r\x1b[K"):
        ours, theirs = pty.openpty()
        subprocess.run([*COMMAND, "sign", "a.lvs", "-"], cwd=folder, input=b"/a /b\n" * count, stdout=subprocess.DEVNULL, stderr=theirs)
        os.write(theirs, b".")
        shown = b""
        while not shown.endswith(b"."):
            shown += os.read(ours, 10000)
        check(f"progress of {count} pairs", shown[:-1], expected)
    ours, theirs = pty.openpty()
    with subprocess.Popen([*COMMAND, "sign", "a.lvs", "-"], cwd=folder, stdin=theirs, stdout=subprocess.PIPE) as running:
        for i in (1, 2):
            os.write(ours, b"/a /b\n")
            check(f"typed pair {i}", running.stdout.readline().decode(), pair_line(i, "not allowed", "/a", "/b"))
        os.write(ours, b"\x04")
        check("the end of what is typed", running.wait(60), 1)


def check_fault():
    """A fault of the command itself is no answer."""
    program = "import sys; sys.path.insert(0, sys.argv[1]); from lvs_command import judge, main; judge.driver.judge = None; "
    words = ["-c", program + "sys.exit(main.main(['judge', '/dev/null']))", str(ROOT / "tools")]
    status, out, err = run(words, ROOT, command=[sys.executable])
    check("a fault of the command", (status, out, err.splitlines()[-1]), (3, "", "TypeError: 'NoneType' object is not callable"))


# examples


def examples(text):
    """(command, what it prints) of each `$` line."""
    for found in re.finditer(r"^(?P<indent> *)\$ (?P<command>.*)\n(?P<out>(?:(?P=indent)(?!\$ |```).+\n)*)", text, re.M):
        lines = found["out"].splitlines()
        yield found["command"], "".join(line[len(found["indent"]) :] + "\n" for line in lines)


def check_examples():
    help_texts = {"lvs --help": ""}
    for command in ("judge", "match", "sign", "follow", "suggest", "tree", "show", "build"):
        help_texts[f"lvs {command} --help"] = "example:"
    place = {**os.environ, "PATH": f"{ROOT / 'tools'}:{os.environ['PATH']}"}
    readme = (ROOT / "README.md").read_text().partition("## Run it")[2].partition("\n## ")[0]
    shown = [("README", one) for one in examples(readme) if "lvs" in one[0]]
    check("README begins with an example", bool(shown) and shown[0][1][0].startswith("tools/lvs "), True)
    for words, part in help_texts.items():
        status, out, err = run(words.split()[1:], ROOT)
        check(words, (status, out.startswith(f"usage: {words.removesuffix(' --help')} "), part in out, err), (0, True, True, ""))
        check(f"the width of {words}", [line for line in out.splitlines() if len(line) > 95 and not line.startswith("  ")], [])
        shown += [(words, one) for one in examples(out)]
    check("how many examples the help has", len(shown) >= 20, True)
    with tempfile.TemporaryDirectory() as folder:  # for the files that they write
        for part in ("tools", "example"):
            os.symlink(ROOT / part, f"{folder}/{part}")
        for where, (command, expected) in shown:
            ran = subprocess.run(["bash", "-c", command], cwd=folder, env=place, stdout=subprocess.PIPE, stderr=subprocess.PIPE)
            check(f"{where}: {command}", (ran.stdout.decode(), ran.stderr), (expected, b""))


# building, in a copy of tools/ with another rt


def copied(folder):
    """A copy of the command that finds rt in PATH only, and has a crate."""
    shutil.copytree(ROOT / "tools", folder / "tools")
    file = folder / "tools/lvs_command/driver.py"
    text = file.read_text()
    assert '"/opt/rattle/bin"' in text
    file.write_text(text.replace('"/opt/rattle/bin"', '"/none"'))
    source = folder / "crates/lvs_cases/src/main.rt"
    source.parent.mkdir(parents=True)
    for path in (source, folder / "crates.txt"):
        path.touch()
    for path in (source, source.parent, folder / "crates.txt"):
        os.utime(path, (1, 1))
    return source


def programmed(file, text):
    file.parent.mkdir(parents=True, exist_ok=True)
    file.write_text(f"#!/bin/sh\n{text}\n")
    file.chmod(0o755)


BUILDING = "lvs: building the checker with `rt run` in crates/lvs_cases; the first time this proves the crates that it is made of, which takes minutes\n"


def check_builds(folder):
    source = copied(folder)
    bin_folder, program = folder / "bin", folder / "crates/lvs_cases/out/lvs_cases"
    (folder / "b.lvs").write_bytes(B)
    (folder / "long.lvs").write_bytes(bytes(65537))

    def answered(words, given=b""):
        place = {"PATH": f"{bin_folder}:/usr/bin:/bin"}
        return run(words, folder, given, command=[sys.executable, "-S", str(folder / "tools/lvs")], env=place)

    def judged(file="b.lvs"):
        return answered(["judge", file])

    if not any(os.path.exists(f"{place}/rt") for place in ("/usr/bin", "/bin")):
        text = "lvs: the checker has to be built with `rt` of the Rattle toolchain, which is not in PATH\n"
        check("no rt", judged(), (3, "", text))
    (bin_folder / "rt").parent.mkdir()
    (bin_folder / "rt").write_text("no program")
    (bin_folder / "rt").chmod(0o755)
    check("an rt that is no program", judged(), (3, "", f"{BUILDING}lvs: cannot run {bin_folder / 'rt'}: Exec format error\n"))
    programmed(bin_folder / "rt", "echo 'rt: tlv proved (1 s)'; echo 'no proof' >&2; exit 1")
    failed = "lvs: the build failed: `rt run` ended with status 1. Its last lines:\n  rt: tlv proved (1 s)\n  no proof\n"
    check("a failed build", judged(), (3, "", f"{BUILDING}rt: tlv proved (1 s)\n{failed}"))
    programmed(bin_folder / "rt", "exit 0")
    text = f"lvs: `rt run` ended well, but {program} is not there: remove {program.parent} and try again\n"
    check("a build without a program", judged(), (3, "", BUILDING + text))
    programmed(bin_folder / "rt", f"echo \"rt: $* in $PWD\"; mkdir -p out; cp '{driver.PROGRAM}' out/; touch -d @9 out/*; touch out/copy.rt")
    built = f"{BUILDING}rt: run in {program.parents[1]}\n"
    check("the first use", judged(), (0, "accepted: 2 nodes\n", built))
    check("the second use", judged(), (0, "accepted: 2 nodes\n", ""))
    os.utime(source, (program.stat().st_mtime + 0.01,) * 2)
    check("a crate has changed", judged(), (0, "accepted: 2 nodes\n", built))
    check("the use after that", judged(), (0, "accepted: 2 nodes\n", ""))
    os.utime(source, (1, 1))
    # drivers that do not answer as the command expects
    programmed(program, "cat >/dev/null; echo broken")
    check("a broken case", judged(), (3, "", "lvs: lvs_cases printed 'broken', which is no answer\n"))
    programmed(program, "cat >/dev/null; exit 4")
    check("no answer", judged(), (3, "", "lvs: lvs_cases ended with status 4 and 0 lines for 1 case\n"))
    for line in ("written 3 00", "described 1 0 00", "described 1 3 5 00", "written 1 0", "described 0 0", "written"):
        programmed(program, f"cat >/dev/null; echo {line}")
        check(f"the line {line}", judged(), (3, "", f"lvs: lvs_cases printed {line!r}, which is no answer\n"))
    for line in ("accepted 1", "refused 2 0"):
        programmed(program, f"cat >/dev/null; echo {line}")
        text = f"lvs: lvs_cases takes only 65,536 bytes of this input, and answers {line!r}\n"
        check(f"{line} of a cut model", judged("long.lvs"), (3, "", text))
    programmed(program, "cat >/dev/null; echo refused 2 37")
    check("a byte behind the model", judged(), (3, "", "lvs: lvs_cases answers with byte 37, and the model has 36\n"))
    programmed(program, "cat >/dev/null; echo refused 2 36")
    lines = f"  {malformed.UNEXPLAINED}\n  byte 36 (0x24):  .. 01 01 57 01 00 55 01 01 []\n"
    check("a refusal of a good model", judged(), (2, f"{refused_words(2, 36)}\n{lines}", ""))
    of = {"answer": "refused", "number": 2, "place": 36, "meaning": REFUSED[2].partition(": ")[2], "found": malformed.UNEXPLAINED, "in": None}
    check("the same, --json", answered(["judge", "--json", "b.lvs"]), (2, json.dumps(of) + "\n", ""))
    for line, text in (
        ("certificate", "lvs_cases printed 'certificate', which is no answer"),
        ("certificate 1 2", "lvs_cases printed 'certificate 1 2', which is no answer"),
        ("none 0", "lvs_cases printed 'none 0', which is no answer"),
        ("certificate 2", "lvs_cases answers with entry 2, and the list has 2"),
        ("refused 32 2", "lvs_cases answers with entry 2, and the list has 2"),
        ("refused 33 0", "lvs_cases answers with entry 64, and the list has 2"),
    ):
        programmed(program, f"cat >/dev/null; echo {line}")
        check(f"the line {line}", answered(["suggest", "b.lvs", "/a", "-"], b"/a\n/b\n"), (3, "", f"lvs: {text}\n"))
    for line in ("certificate 0", "none", "refused 33 0"):
        programmed(program, f"cat >/dev/null; echo {line}")
        text = f"lvs: lvs_cases takes only 65,536 bytes of this input, and answers {line!r}\n"
        check(f"{line} of a cut list", answered(["suggest", "b.lvs", "/a", "-"], b"/" + b"a" * 65536), (3, "", text))
    sign_path, follow_path = ["sign", "--path", "b.lvs", "/a", "/a"], ["follow", "b.lvs", "/a", "/a", "0,0"]
    for asked, line, text in (
        (["judge", "b.lvs"], "accepted", "printed 'accepted', which is no answer"),
        (sign_path, pair_words("allowed 1 1", path=(7,)), "answers with the path 7,0, which does not lead to its nodes"),
        (sign_path, pair_words("allowed 1 0"), "answers with the path 0,0, which does not lead to its nodes"),
        (follow_path, "accepted 2", "printed 'accepted 2', which is no answer"),
        (follow_path, "not allowed", "printed 'not allowed', which is no answer"),
        (follow_path, "no match", "printed 'no match', which is no answer"),
        (["match", "b.lvs", "/a"], match_words("match 1 1", 2, 3, 2), "answers with the words 2, 3, 2 for tag 1, which are no binding"),
        (["sign", "b.lvs", "/a", "/a"], pair_words("allowed 1 1", 2, 3), "answers with the words 2, 3, 0 for tag 1, which are no binding"),
        (["sign", "b.lvs", "/a", "/a"], "allowed 1 1", "printed 'allowed 1 1', which is no answer"),
    ):
        programmed(program, f"cat >/dev/null; echo {line}")
        check(f"the line {line}"[:200], answered(asked), (3, "", f"lvs: lvs_cases {text}\n"))
    for number in 27, 34:
        programmed(program, f"cat >/dev/null; echo {pair_words(f'refused {number} 0')}")
        check("too few words for the bindings or the path", answered(sign_path), (2, REFUSED[number] + "\n", ""))
    programmed(program, f"head -c 1 | grep -q V && echo accepted 2 || echo {pair_words('allowed 1 1', 2, 3)}")
    text = "lvs: lvs_cases answers with the words 2, 3, 0 for tag 1, which are no binding\n"
    check("no binding of a pair from standard input", answered(["sign", "b.lvs", "-"], b"/a /a"), (3, "", text))
    programmed(program, "head -c 1 | grep -q C && echo refused 32 0 || echo not allowed")
    text = "lvs: lvs_cases refuses line 1 of the list, but takes it as a key name\n"
    check("an entry refused without a reason", answered(["suggest", "b.lvs", "/a", "-"], b"/a"), (3, "", text))
    program.write_bytes(b"no program")
    check("no program", judged(), (3, "", f"lvs: cannot run {program}: Exec format error\n"))


def main_checks():
    driver.program()  # built once, before many runs ask for it
    signal.alarm(600)  # a run that waits for ever ends the checks
    with tempfile.TemporaryDirectory() as name:
        folder = pathlib.Path(name).resolve()
        for file, data in FILES.items():
            (folder / file).write_bytes(data)
        check_runs(folder)
        check_streams(folder)
        check_terminal(folder)
        check_texts(folder)
        check_files(folder)
    with tempfile.TemporaryDirectory() as name:
        check_builds(pathlib.Path(name).resolve())
    check_table()
    check_uris()
    check_elements()
    check_explanations()
    check_binding_words()
    check_bindings()
    check_paths()
    check_no_trees()
    check_trees()
    check_round_trips()
    check_fault()
    check_examples()
    print(f"lvs: {counts['checks']} checks, {counts['wrong']} wrong")
    return 1 if counts["wrong"] else 0


if __name__ == "__main__":
    sys.exit(main_checks())
