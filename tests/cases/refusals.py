"""Each refusal of a model at the first, a middle and the last Node; two faults at once; malformed elements; refused names."""
from bench import B
from build import *
from limits import all_three

COUNT = 11
FORKS = {0: (1, 4), 1: (2, 5), 2: (3, 6), 3: (COUNT - 1, 7), COUNT - 1: (8, 9)}  # where a Node's two edges lead; the others have none
NODE_RULES = (6, 8, 9, 10, 11, 12, 13, 14)  # these answer the Node's position, 2 the place of the fault, the others 0


def forks():
    """A tree in which the first, the last and three other Nodes have two edges each, as dicts, so that each part can be put at fault.

    Every Node has a RuleName and a signer, and all but the start have a Parent. The edges are a ValueEdge, and a PatternEdge with an option.
    """
    up = {to: i for i, both in FORKS.items() for to in both}
    nodes = [dict(id=i, parent=[parent(up[i])] if i in up else [], is_start=i == 0, signer=i, behind=b"") for i in range(COUNT)]
    for i, (to, pattern_to) in FORKS.items():
        nodes[i].update(to=to, pattern_to=pattern_to, values=1, patterns=1, tag=i + 1, terms=[call("$eq", value("x"))])
    return nodes


def edges_of(n):
    if "to" not in n:
        return []
    by_pattern = pattern_edge(n["pattern_to"], n["tag"], constraint(option(*n["terms"])))
    return [value_edge(n["to"], "v")] * n["values"] + [by_pattern] * n["patterns"]


def forks_model(nodes, more=(), **rest):
    written = [
        element(NODE, node_id(n["id"]), *n["parent"], rule_name("#r"), *edges_of(n), signer(n["signer"]), n["behind"]) for n in nodes
    ]
    (start,) = (i for i, n in enumerate(nodes) if n["is_start"])
    return model(*written, *more, **dict(start=start) | rest)


def set_to(**changes):
    return lambda nodes, i: nodes[i].update(changes)


def no_parent(edge):
    """An edge of Node i leads to a Node without a Parent."""
    return lambda nodes, i: nodes[nodes[i][edge]].update(parent=[])


def other_parent(edge):
    return lambda nodes, i: nodes[nodes[i][edge]].update(parent=[parent(nodes[i][edge])])


def start_with_parent(nodes, i):
    """Node i is the start. It has the Parent whose edge leads to it, and the first Node gets one."""
    for j, n in enumerate(nodes):
        n["is_start"] = i == j
    nodes[i]["parent"] = nodes[i]["parent"] or [parent(3)]


def one_destination(nodes, i):
    nodes[i]["pattern_to"] = nodes[i]["to"]


def other_destination(nodes, i):
    nodes[i]["to"] = nodes[i]["pattern_to"]


# by refusal number: what puts Node i at fault
FAULTS = {
    2: [
        ("a critical element", set_to(behind=faulty(bytes.fromhex("8100")))),
        ("a known element out of its place", set_to(behind=faulty(parent(0)))),
        ("a cut element", set_to(behind=faulty(bytes.fromhex("80 02 00")))),
        ("an option with a Parent", set_to(terms=[faulty(parent(0))])),
        ("a function without its $", set_to(terms=[faulty(call("eq", value("x")), 2)])),  # the FnId behind the call's header
        ("an argument with two Values", set_to(terms=[call("$eq", concat(value("x"), faulty(value("y"))))])),
    ],
    5: [("Tag 0", set_to(tag=0)), ("Tag 129", set_to(tag=129)), ("Tag 129 in an option", set_to(terms=[tag(129)]))],
    6: [("a NodeId of no Node", set_to(id=200)), ("another Node's NodeId", lambda nodes, i: nodes[i].update(id=(i + 1) % COUNT))],
    8: [("a ValueEdge to no Node", set_to(to=COUNT)), ("a PatternEdge to no Node", set_to(pattern_to=COUNT))],
    9: [("a signer that is no Node", set_to(signer=COUNT))],
    10: [
        ("an option with nothing", set_to(terms=[])),
        ("an option with a Value and a Tag", set_to(terms=[value("x"), tag(1)])),
        ("an option with two Values", set_to(terms=[value("x"), value("x")])),
        ("an option with two calls", set_to(terms=[call("$eq", value("x"))] * 2)),
        ("an option with an optional element alone", set_to(terms=[bytes.fromhex("8000")])),
    ],
    11: [
        ("a ValueEdge to the Node itself", lambda nodes, i: nodes[i].update(to=i)),
        ("a PatternEdge to the Node itself", lambda nodes, i: nodes[i].update(pattern_to=i)),
        ("a ValueEdge to a Node without Parent", no_parent("to")),
        ("a PatternEdge to a Node without Parent", no_parent("pattern_to")),
        ("a ValueEdge to a Node with another Parent", other_parent("to")),
        ("a PatternEdge to a Node with another Parent", other_parent("pattern_to")),
    ],
    12: [
        ("a function not known", set_to(terms=[call("$other")])),
        ("a longer name", set_to(terms=[call("$eq_types", value("x"))])),
        ("a shorter name", set_to(terms=[call("$e", value("x"))])),
        ("another case", set_to(terms=[call("$isvalidid")])),
        ("$eq without argument", set_to(terms=[call("$eq")])),
        ("$eq with two arguments", set_to(terms=[call("$eq", value("x"), value("x"))])),
        ("$eq_type without argument", set_to(terms=[call("$eq_type")])),
        ("$isValidID with an argument", set_to(terms=[call("$isValidID", value("x"))])),
        ("$isValidYear with an argument", set_to(terms=[call("$isValidYear", tag(1))])),
    ],
    13: [("the start with a Parent", start_with_parent)],
    14: [
        ("a ValueEdge and a PatternEdge to the ValueEdge's Node", one_destination),
        ("a ValueEdge and a PatternEdge to the PatternEdge's Node", other_destination),
        ("two equal ValueEdges", set_to(values=2)),
        ("two equal PatternEdges", set_to(patterns=2)),
        ("three of both", set_to(values=3, patterns=3)),
    ],
}


def refused(rule, i, of):
    return refused_at(of) if rule == 2 else f"refused {rule} {i if rule in NODE_RULES else 0}"


def one_fault():
    yield "no fault", verdict(forks_model(forks())), f"accepted {COUNT}"
    for rule, faults in FAULTS.items():
        for what, fault in faults:
            for i in (0, 2, COUNT - 1):
                nodes = forks()
                fault(nodes, i)
                of = forks_model(nodes)
                yield f"{what} in Node {i}", verdict(of), refused(rule, i, of)
        # what one rule refuses, all three calls refuse alike
        for i in (0, 2, COUNT - 1):
            nodes = forks()
            faults[0][1](nodes, i)
            of = forks_model(nodes)
            yield from all_three(f"{faults[0][0]} in Node {i}", of, refused(rule, i, of))
    yield from all_three("another version", forks_model(forks(), version=0x00011001), "refused 3 0")
    yield from all_three("a StartId of no Node", forks_model(forks(), start=COUNT), "refused 7 0")
    yield "StartId is the last Node", verdict(forks_model(forks(), [node(COUNT)], start=COUNT)), f"accepted {COUNT + 1}"


def with_faults(**at):
    """The tree with a fault of each rule named, r5=3 for rule 5 at Node 3. Rules 1, 3, 4 and 7 concern no Node."""
    nodes, rest = forks(), {}
    for rule, i in sorted((int(key[1:]), i) for key, i in at.items()):
        if rule == 1:
            rest["behind"] = element(0x80, bytes(32768))
        elif rule == 3:
            rest["version"] = 0x00010FFF
        elif rule == 4:
            rest["more"] = [node(j) for j in range(COUNT, 257)]
        elif rule == 7:
            rest["start"] = 300
        elif rule in (8, 9):
            # with 257 Nodes, COUNT names one
            nodes[i].update(to=300) if rule == 8 else nodes[i].update(signer=300)
        else:
            FAULTS[rule][0][1](nodes, i)
    return forks_model(nodes, **rest)


def two_faults():
    """The lower number wins, whichever stands first, and the node is its own; but 3 outranks any fault after Version.

    1 is long, so it is tried with fewer others. 13 and 14 are tried in one Node with the others too, where theirs are not in the way.
    """
    for low in range(1, 15):
        for high in range(low + 1, 15):
            if low == 1 and high not in (2, 3, 12, 14):
                continue
            for i, j in ((3, 1), (1, 3), (2, 2)) if high >= 13 else ((3, 1), (1, 3)):
                of = with_faults(**{f"r{low}": i, f"r{high}": j})
                answer = "refused 3 0" if (low, high) == (2, 3) else refused(low, i, of)
                yield f"rule {low} in Node {i}, rule {high} in Node {j}", verdict(of), answer


def one_rule_twice():
    for rule, faults in FAULTS.items():
        if rule == 13:  # there is one start
            continue
        nodes = forks()
        for i in (3, 1):
            faults[0][1](nodes, i)
        of = forks_model(nodes)
        yield f"rule {rule} in Nodes 1 and 3", verdict(of), refused(rule, 1, of)
    # an edge's faults in both of a Node's edges, and a rule's two faults in one Node
    nodes = forks()
    nodes[2].update(to=COUNT, pattern_to=COUNT, signer=COUNT)
    yield "every reference of Node 2", verdict(forks_model(nodes)), "refused 8 2"


def version_first():
    """3 is decided as soon as Version is read: no fault after it counts, and each before it or in it does."""
    other = element(VERSION, bytes.fromhex("00010000"))
    yield "nothing after Version", verdict(other), "refused 3 0"
    yield "no element after Version", verdict(other + b"\x00\xff"), "refused 3 0"
    yield "a good Version and nothing", verdict(element(VERSION, bytes.fromhex("00011000"))), "refused 2 6"
    yield "an optional element before Version", verdict(bytes.fromhex("8000") + other), "refused 3 0"
    yield "a critical one before Version", verdict(bytes.fromhex("8100") + other), "refused 2 0"
    yield "a known one before Version", verdict(integer(NODE_ID, 0) + other), "refused 2 0"
    yield "a cut optional element before Version", verdict(bytes.fromhex("80fd") + other), "refused 2 0"
    for size in (0, 1, 2, 3, 5, 8):
        yield f"a Version of {size} bytes", verdict(element(VERSION, bytes(size))), "refused 2 0"
    yield "a cut Version", verdict(other[:-1]), "refused 2 0"
    yield "a Version whose length has three bytes", verdict(b"\x61\xfd\x00\x04" + other[2:]), "refused 2 0"
    for n in (0, 0x00011001, 0x00021000, 0x01011000, 0xFFFFFFFF):
        yield f"version {n:08x}", verdict(model(node(0), version=n)), "refused 3 0"


def malformed():
    """Order, presence and number of elements in each of the nine containers, and what a text and a Value may be."""
    edge = (integer(NODE_ID, 1), tag(1))
    leaf = node(1, parent(0))

    def first(*rest):
        return model(node(0, *rest), leaf)

    def term(*terms):
        return first(pattern_edge(1, 1, constraint(option(*terms))))

    head = model()
    every = node(0, rule_name("#a"), rule_name("#_b9"), value_edge(1, "v"), pattern_edge(2, 1), signer(1))
    yield "every order kept", verdict(model(every, leaf, node(2, parent(0)))), "accepted 3"
    wrong = (
        ("no StartId", faulty(head[:6] + head[9:] + node(0), 6)),
        ("no NamedPatternCnt", faulty(head[:9] + node(0), 9)),
        ("two StartIds", faulty(head[:9] + head[6:] + node(0), 9)),
        ("two Versions", faulty(head[:6] + head + node(0), 6)),
        ("a wrapper around it", faulty(element(0x08, model(node(0))))),
        ("a TagSymbol before a Node", model(symbol(1, "a"), faulty(node(0)))),
        ("a Node without NodeId", model(element(NODE, MISSING))),
        ("a Node with two NodeIds", model(node(0, faulty(node_id(0))))),
        ("a Node with two Parents", model(node(0, parent(0), faulty(parent(0))))),
        ("a Parent before the NodeId", model(element(NODE, faulty(parent(0)), node_id(0)))),
        ("a Parent after a RuleName", first(rule_name("#a"), faulty(parent(0)))),
        ("a ValueEdge after a PatternEdge", first(pattern_edge(1, 1), faulty(value_edge(1, "v")))),
        ("a PatternEdge after a signer", first(signer(0), faulty(pattern_edge(1, 1)))),
        ("a RuleName after an edge", first(value_edge(1, "v"), faulty(rule_name("#a")))),
        ("a Node in a Node", first(faulty(node(1)))),
        ("a ValueEdge without Value", first(element(VALUE_EDGE, edge[0], MISSING))),
        ("a ValueEdge without destination", first(element(VALUE_EDGE, faulty(value("v"))))),
        ("a ValueEdge turned round", first(element(VALUE_EDGE, faulty(value("v")), edge[0]))),
        ("a ValueEdge with two Values", first(element(VALUE_EDGE, edge[0], value("v"), faulty(value("v"))))),
        ("a PatternEdge without Tag", first(element(PATTERN_EDGE, edge[0], MISSING))),
        ("a PatternEdge with two Tags", first(element(PATTERN_EDGE, *edge, faulty(tag(1))))),
        ("a PatternEdge with an option", first(element(PATTERN_EDGE, *edge, faulty(option(tag(1)))))),
        ("a Constraint with a Tag", first(element(PATTERN_EDGE, *edge, constraint(faulty(tag(1)))))),
        ("an option with an FnId", term(faulty(element(FN_ID, b"$eq")))),
        ("a call without FnId", term(element(CALL, MISSING))),
        ("a call with its argument first", term(element(CALL, faulty(argument(tag(1))), element(FN_ID, b"$eq")))),
        ("an argument with nothing", term(call("$eq", MISSING))),
        ("an argument with a Value and a Tag", term(call("$eq", concat(value("x"), faulty(tag(1)))))),
        ("an argument with a call", term(call("$eq", faulty(call("$eq", tag(1)))))),
        ("a TagSymbol without Identifier", model(node(0), behind=element(SYMBOL, tag(1), MISSING))),
        ("a TagSymbol without Tag", model(node(0), behind=element(SYMBOL, faulty(element(IDENTIFIER, b"a"))))),
        ("a Value with nothing", first(value_edge(1, MISSING))),
        ("a Value with two components", first(value_edge(1, concat(component("a"), faulty(component("b")))))),
        ("a Value with an optional element after it", first(value_edge(1, concat(component("a"), faulty(bytes.fromhex("8000")))))),
        ("a component of type 65,536", first(value_edge(1, faulty(component("a", 65536))))),
        ("a component of type 0", first(value_edge(1, faulty(component("a", 0))))),
        ("a component that is cut", first(value_edge(1, faulty(bytes.fromhex("080261"))))),
        ("an Identifier in the model", model(node(0), behind=faulty(rule_name("a")))),
    )
    for what, of in wrong:
        yield what, verdict(of), refused_at(of)
    for text in ("", "#", "a", "#9", "##a", "#a-b", "#a ", "$a", "#\u00e4", "#a#"):
        of = first(faulty(rule_name(text)))
        yield f"RuleName {text!r}", verdict(of), refused_at(of)
    for text in ("#_", "#a", "#Z_9"):
        yield f"RuleName {text!r}", verdict(first(rule_name(text))), "accepted 2"
    for text in ("", "9a", "#a", "a-b", "\u00e4"):
        of = model(node(0), behind=element(SYMBOL, tag(1), faulty(element(IDENTIFIER, text.encode()))))
        yield f"TagSymbol {text!r}", verdict(of), refused_at(of)
    yield "TagSymbol '_9'", verdict(model(node(0), behind=symbol(1, "_9"))), "accepted 1"
    for text in ("", "$", "eq", "$9", "#eq", "$eq "):
        of = term(element(CALL, faulty(element(FN_ID, text.encode())), argument(tag(1))))
        yield f"FnId {text!r}", verdict(of), refused_at(of)
    yield "no option", verdict(first(pattern_edge(1, 1, constraint()))), "accepted 2"
    yield "a component of type 65,535", verdict(first(value_edge(1, component("a", 65535)))), "accepted 2"
    yield "a component of a known type", verdict(first(value_edge(1, component("a", VALUE)))), "accepted 2"
    yield "a component of no bytes", verdict(first(value_edge(1, component("")))), "accepted 2"


def forms():
    """Types and lengths are in the shortest form and within 1 to 4,294,967,295; all bytes are there."""
    accepted, refused_there = "accepted 2", f"refused 2 {len(B)}"
    for what, spare, answer in (
        ("an optional type of 3 bytes", "fd 0100 00", accepted),
        ("an optional type of 5 bytes", "fe 00010000 00", accepted),
        ("the largest optional type", "fe fffffffe 00", accepted),
        ("the largest type is critical", "fe ffffffff 00", refused_there),
        ("a type of 9 bytes", "ff 0000000100000000 00", refused_there),
        ("type 0", "00 00", refused_there),
        ("a type of 3 bytes that fits 1", "fd 0080 00", refused_there),
        ("a type of 5 bytes that fits 3", "fe 00000100 00", refused_there),
        ("a length of 3 bytes that fits 1", "80 fd 0000", refused_there),
        ("a length of 5 bytes that fits 3", "80 fe 00000100" + "00" * 256, refused_there),
        ("a length of 9 bytes that fits 5", "80 ff 0000000000010000", refused_there),
        ("a length of 9 bytes", "80 ff 0000000100000000", refused_there),
        ("the largest length", "80 ff ffffffffffffffff", refused_there),
        ("a cut type", "fd 01", refused_there),
        ("a cut length", "80 fd 01", refused_there),
        ("a cut inside", "80 02 00", refused_there),
        ("type 32", "20 00", accepted),
        ("type 30", "1e 00", refused_there),
        ("type 31", "1f 00", refused_there),
        ("type 33 without its place", "21 00", refused_there),
        ("type 34", "22 00", accepted),
        ("type 37", "25 00", refused_there),
        ("type 252", "fc 00", accepted),
        ("an inside that is no element", "80 03 00ffff", accepted),
    ):
        yield what, verdict(B + bytes.fromhex(spare)), answer
    # an element ends within the one around it, though the model goes on
    yield "an optional element past its Node", verdict(model(node(0, b"\x80\x01"), node(1))), "refused 2 17"


def names():
    """22 and 25: what a name is."""
    for what, data in (
        ("no bytes", b""),
        ("another type", element(8, component("a"))),
        ("bytes after it", path("/a") + b"\x00"),
        ("a second name after it", path("/a") * 2),
        ("a byte missing", path("/a")[:-1]),
        ("a component that is cut", element(NAME, b"\x08\x02a")),
        ("a component of type 0", name(component("a", 0))),
        ("a component of type 65,536", name(component("a", 65536))),
        ("a component's length in 3 bytes that fits 1", element(NAME, b"\x08\xfd\x00\x01a")),
        ("the name's length in 3 bytes that fits 1", b"\x07\xfd\x00\x03\x08\x01a"),
        ("the name's type in 3 bytes", b"\xfd\x00\x07\x03\x08\x01a"),
    ):
        yield f"a packet name: {what}", match(B, data, OLD), kept("refused 22 0")
        yield f"a packet name: {what}", sign(B, data, path("/a")), both_kept("refused 22 0")
        yield f"a key name: {what}", sign(B, path("/a"), data), both_kept("refused 25 0")
        yield f"both: {what}", sign(B, data, data), both_kept("refused 22 0")
    # the element types of a model mean nothing in a name
    for typ in (1, 7, VALUE, 0x80, 0x81, VERSION, 65535):
        inside = component("a", typ)
        yield f"a component of type {typ}", match(B, name(inside), OLD), matched(1, (1, 2, len(inside)))
    # the model is tested before the names
    yield "a malformed model and names", sign(B[:-1], b"", b""), both_kept("refused 2 25")


def cases():
    for part in one_fault, two_faults, one_rule_twice, version_first, malformed, forms, names:
        yield from part()
