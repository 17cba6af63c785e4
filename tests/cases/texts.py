"""Texts of models as `lvs build` reads them: what each is built to, what is wrong with it, or how it is refused."""
from bench import A, B
from build import *

A_TEXT = "start 0\npatterns 0\n\nnode 0\n"
B_TEXT = "start 0\npatterns 1\n\nnode 0\n  edge tag 1 to 1\n\nnode 1\n  parent 0\n  signer 1\n"


def built():
    """(what, text, the model that it is built to)."""
    yield "bench A", A_TEXT, A
    yield "bench B", B_TEXT, B
    yield "carriage returns, tabs and no last line feed", B_TEXT.replace("\n", " \t\r\n").replace("  ", "\t").rstrip(), B
    yield "a byte order mark", "\ufeff" + A_TEXT, A
    yield "comments", "// text\n//\nstart 0 // #x\npatterns 0 //\n\n  // node 7\nnode 0\t//\n", A
    yield "zeros before a number", f"start 00\npatterns {'0' * 5000}255\nnode 0", model(node(0), patterns=255)
    yield "the largest number", f"start 0\npatterns {2**64 - 1}\nnode 0", model(node(0), patterns=2**64 - 1)
    parts = "  signer 1\n  edge tag 1 to 3\n  signer 0\n  edge value b to 1\n  rule #b\n  edge value a to 2\n  rule #a"
    of = node(0, rule_name("#b"), rule_name("#a"), value_edge(1, "b"), value_edge(2, "a"), pattern_edge(3, 1), signer(1), signer(0))
    mixed = model(of, *(node(i, parent(0)) for i in (1, 2, 3)), behind=symbol(2, "s") + symbol(1, "t"))
    others = "".join(f"node {i}\nparent 0\n" for i in (1, 2, 3))
    yield "parts in another order", f"symbol 2 s\nnode 0\n{parts}\nsymbol 1 t\n{others}patterns 0\nstart 0\n", mixed
    mutual = model(node(0), node(1, parent(2)), node(2, parent(1)))
    yield "mutual parents", "start 0\npatterns 0\nnode 0\nnode 1\nparent 2\nnode 2\nparent 1\n", mutual

    def of_edge(edge):
        return model(node(0, parent(1)), node(1, edge), start=1)

    head = "start 1\npatterns 0\nnode 0\nparent 1\nnode 1\n"
    edge = f"{head}edge tag 1 to 0\nconstraint\n"
    calls = [option(call("$isValidID")), option(call("$isValidYear")), option(call("$eq", tag(1)))]
    written = "option $isValidID\noption $isValidYear ( )\noption $eq( tag 1 )\n"
    yield "ways to write a call", edge + written, of_edge(pattern_edge(0, 1, constraint(*calls)))
    for uri, of in (
        ("a", component("a")),
        ("%41%3dé", component("A=é")),
        ("v=256", component(b"\1\0", 54)),
        ("54=%00", component(b"\0", 54)),
        ("8=x", component("x")),
        ("...", component("")),
        ("65535=....", component(".", 65535)),
        ("to", component("to")),
        ("value", component("value")),
        ("#a", component("#a")),
        ("$eq", component("$eq")),
        ("a:;@!*+'&?#", component("a:;@!*+'&?#")),
    ):
        yield f"component {uri}", f"{head}edge value {uri} to 0\n", of_edge(value_edge(0, of))
        option_of = of_edge(pattern_edge(0, 1, constraint(option(value(of)), option(call("$eq", value(of))))))
        yield f"component {uri} in options", f"{edge}option value {uri}\noption $eq(value {uri})\n", option_of


LEAST = ["start 0", "patterns 0", "node 0"]
KEYWORDS = "start, patterns, node, parent, rule, edge, constraint, option, signer, symbol"
TERM = "'value', 'tag' or a function, as $eq(tag 1),"


def mistakes():
    """(the lines after the least ones, [(line, mistake)])."""
    top = " at the beginning of the line"
    yield ["singer 3"], [(4, f"expected 'signer'{top}, found 'singer'")]
    yield ["Signer 3"], [(4, f"expected 'signer'{top}, found 'Signer'")]
    yield ["xyz"], [(4, f"expected one of {KEYWORDS}{top}, found 'xyz'")]
    yield ["", "(x)"], [(5, f"expected one of {KEYWORDS}{top}, found '('")]
    yield ["\x1b" + "x" * 70], [(4, f"expected one of {KEYWORDS}{top}, found '\\x1b{'x' * 56}...'")]
    yield ["# a comment"], [(4, f"expected one of {KEYWORDS}{top}, found '#' (a comment begins with //)")]
    # what is missing, and what is too much
    for line in ("start", "node", "parent", "signer", "edge value a to", "edge tag 1 to"):
        lines = [(4, f"expected a node index after {line.split()[-1]!r}, found the end of the line")]
        yield [line], ([(4, "expected one `start` in the text, found a second (the first is in line 1)")] if line == "start" else lines)
    yield ["rule"], [(4, "expected a rule name after 'rule', found the end of the line")]
    yield ["edge"], [(4, "expected 'value' or 'tag' after 'edge', found the end of the line")]
    yield ["edge value"], [(4, "expected a component after 'value', found the end of the line")]
    yield ["edge value //a to 1"], [(4, "expected a component after 'value', found the end of the line")]
    yield ["edge value a"], [(4, "expected 'to' after 'a', found the end of the line")]
    yield ["edge value to 0"], [(4, "expected 'to' after 'to', found '0'")]
    yield ["edge tag"], [(4, "expected a tag's number after 'tag', found the end of the line")]
    yield ["edge tag to 1"], [(4, "expected a tag's number after 'tag', found 'to'")]
    yield ["edge tag 1 0"], [(4, "expected 'to' after '1', found '0'")]
    yield ["edge ndn to 1"], [(4, "expected 'value' or 'tag' after 'edge', found 'ndn'")]
    yield ["edge value a to x"], [(4, "expected a node index after 'to', found 'x'")]
    yield ["edge value a(b to 1"], [(4, "expected 'to' after 'a', found '('")]
    yield ["symbol"], [(4, "expected a tag's number after 'symbol', found the end of the line")]
    yield ["symbol user 1"], [(4, "expected a tag's number after 'symbol', found 'user'")]
    yield ["symbol 1"], [(4, "expected a symbol after '1', found the end of the line")]
    for line in ("node 1", "parent 0", "rule #a", "edge value a to 1", "edge tag 1 to 1", "signer 0", "symbol 1 a"):
        yield [f"{line} x"], [(4, f"expected the end of the line after {line.split()[-1]!r}, found 'x'")]
        yield [f"{line} # x"], [(4, f"expected the end of the line after {line.split()[-1]!r}, found '#' (a comment begins with //)")]
    yield ["signer 0, 1"], [(4, "expected the end of the line after '0', found ','")]
    yield ["signer 0// x"], [(4, "expected a node index after 'signer', found '0//' (a comment takes a blank before its //)")]
    yield ["edge tag 1 to 0", "constraint x"], [(5, "expected the end of the line after 'constraint', found 'x'")]
    # numbers
    for word in ("-1", "+1", "0x1", "1.0", "1_0", "²", "one"):
        yield [f"signer {word}"], [(4, f"expected a node index after 'signer', found {word!r}")]
    for word in (str(2**64), "9" * 5000):
        found = repr(word if len(word) < 61 else word[:57] + "...")
        yield [f"signer {word}"], [(4, f"expected a node index of at most 64 bits, found {found} (the largest is {2**64 - 1})")]
        yield [f"symbol {word} a"], [(4, f"expected a tag's number of at most 64 bits, found {found} (the largest is {2**64 - 1})")]
    # components
    types = "1 to 65535, or sha256digest, params-sha256, seg, off, v, t, seq (= in a value is %3D)"
    for uri, at, why in (
        ("a%zz", 2, "% takes two hexadecimal digits (% itself is %25)"),
        ("a%4", 2, "% takes two hexadecimal digits (% itself is %25)"),
        (".", 1, "a component of no bytes is written ... (and . and .. are none)"),
        ("8=", 3, "a component of no bytes is written ... (and . and .. are none)"),
        ("x=1", 1, f"'x' is no component type: {types}"),
        ("0=a", 1, f"'0' is no component type: {types}"),
        ("65536=a", 1, f"'65536' is no component type: {types}"),
        ("v=x", 3, "v= takes a number below 2^64"),
        ("sha256digest=0a", 14, "sha256digest= takes 64 hexadecimal digits"),
        ("/a", 1, "a component has no / in it (/ itself is %2F)"),
        ("a/b", 2, "a component has no / in it (/ itself is %2F)"),
        ("a//b", 2, "a component has no / in it (/ itself is %2F) (a comment takes a blank before its //)"),
        ('"a"', 1, 'a component has no quotes around it (" itself is %22)'),
        ("a\xa0", 2, "'\\xa0' is not printable, so it is written %C2%A0"),
        ("a\u200bb", 2, "'\\u200b' is not printable, so it is written %E2%80%8B"),
        ("a\x0c", 2, "'\\x0c' is not printable, so it is written %0C"),
        ("\udcff", 1, "'\\udcff' is not printable, so it is written %FF"),
    ):
        yield [f"edge value {uri} to 0"], [(4, f"component {uri!r}, character {at}: {why}")]
        yield ["edge tag 1 to 0", "constraint", f"option value {uri}"], [(6, f"component {uri!r}, character {at}: {why}")]
    # terms
    for words, mistake in (
        ("admin", f"expected {TERM} after 'option', found 'admin'"),
        ("(tag 1)", f"expected {TERM} after 'option', found '('"),
        ("tag x", "expected a tag's number after 'tag', found 'x'"),
        ("tag", "expected a tag's number after 'tag', found the end of the line"),
        ("value", "expected a component after 'value', found the end of the line"),
        ("value a, tag 1", f"expected {TERM} after 'a', found ','"),
        ("value a b", f"expected {TERM} after 'a', found 'b'"),
        ("value a # b", f"expected {TERM} after 'a', found '#' (a comment begins with //)"),
        ("$eq(tag 1", "expected ',' or ')' after '1', found the end of the line"),
        ("$eq(tag 1 tag 2)", "expected ',' or ')' after '1', found 'tag'"),
        ("$eq(tag 1,)", "expected 'value' or 'tag' after ',', found ')'"),
        ("$eq(tag 1, 2)", "expected 'value' or 'tag' after ',', found '2'"),
        ("$eq(1)", "expected 'value' or 'tag' or ')' after '(', found '1'"),
        ("$eq(", "expected 'value' or 'tag' or ')' after '(', found the end of the line"),
        ("$eq($eq(tag 1))", "expected 'value' or 'tag' or ')' after '(', found '$eq'"),
        ("$eq(value)", "expected a component after 'value', found ')'"),
        ("$eq tag 1)", f"expected {TERM} after '1', found ')'"),
    ):
        yield ["edge tag 1 to 0", "constraint", f"option {words}"], [(6, mistake)]
    # what stands outside of its place; a line that may have been anything does not make others wrong
    for line in ("parent 0", "rule #a", "edge value a to 0", "edge tag 1 to 0", "signer 0"):
        keyword = line.split()[0]
        yield ["symbol 1 a", line], [(5, f"expected a `node` line above: `{keyword}` is a part of a node")]
    no_edge = "expected an `edge tag` line above: `constraint` is a part of such an edge"
    no_constraint = "expected a `constraint` line above: `option` is a part of a constraint"
    yield ["constraint"], [(4, no_edge)]
    yield ["edge value a to 0", "constraint"], [(5, no_edge)]
    yield ["edge tag 1 to 0", "signer 0", "constraint"], [(6, no_edge)]
    yield ["edge tag 1 to 0", "option tag 1"], [(5, no_constraint)]
    yield ["edge tag 1 to 0", "constraint", "edge tag 1 to 0", "option tag 1"], [(7, no_constraint)]
    yield ["parent 0", "parent 0"], [(5, "expected one `parent` in a node, found a second (the first is in line 4)")]
    yield ["patterns 1"], [(4, "expected one `patterns` in the text, found a second (the first is in line 2)")]
    yield ["parent 0", "nod 1", "parent 0", "signer 0"], [(5, f"expected 'node'{top}, found 'nod'")]
    yield ["edge tag x to 0", "constraint", "option tag 1"], [(4, "expected a tag's number after 'tag', found 'x'")]
    yield ["edg tag 1 to 0", "constraint", "option tag 1"], [(4, f"expected 'edge'{top}, found 'edg'")]
    yield ["edge tag 1 to 0", "contraint", "option tag 1"], [(5, f"expected 'constraint'{top}, found 'contraint'")]
    yield ["parent 0", "node x", "parent 0"], [(5, "expected a node index after 'node', found 'x'")]
    # several
    two = [(4, "expected a node index after 'signer', found 'x'"), (6, "expected a node index after 'parent', found 'y'")]
    yield ["signer x", "signer 0", "parent y"], two


def refused():
    """(text, the refusal's two numbers, [(line, what)]). The place of 2 counts in the bytes that would be written."""
    head = "start 0\npatterns 0\n"
    letters = "(a letter or _, then letters, digits or _)"
    for length in (32768, 65000):
        yield f"{head}node 0\nrule #{'r' * length}\n", 1, 0, []
    lines = [(4, f"rule top: 'top' is not a rule name, # and an identifier {letters}")]
    lines += [(5, f"rule #a-b: '#a-b' is not a rule name, # and an identifier {letters}")]
    lines += [(6, f"symbol 1 #x: '#x' is not a symbol, an identifier {letters}")]
    yield f"{head}node 0\nrule top\n  rule #a-b // x\nsymbol 1 #x", 2, 17, lines
    edge = f"{head}node 0\nparent 0\nedge tag 1 to 0\nconstraint\n"
    lines = [(7, f"option eq(tag 1): 'eq' is not a function's name, $ and an identifier {letters}")]
    yield edge + "option eq(tag 1)", 2, 34, lines
    lines = [(4, f"rule #é%FF: '#é\\udcff' is not a rule name, # and an identifier {letters}")]
    yield f"{head}node 0\nrule #é\udcff", 2, 17, lines
    yield head + "".join(f"node {i}\n" for i in range(257)), 4, 0, []
    tags = "edge tag 0 to 0\nconstraint\noption tag 129 $eq(tag 128)\nsymbol 500 a"
    yield f"{head}node 0\nparent 0\n{tags}\n", 5, 0, [(5, "edge tag 0 to 0"), (7, "option tag 129 $eq(tag 128)"), (8, "symbol 500 a")]
    yield f"{head}\nnode 0\n\nnode 7 // x\n", 6, 1, [(6, "node 7")]
    yield "patterns 0\n  start 3\nnode 0\n", 7, 0, [(2, "start 3")]
    yield head, 7, 0, [(1, "start 0")]
    yield f"{head}node 0\nedge value a to 9\n", 8, 0, [(3, "node 0")]
    yield f"{head}node 0\n\nnode 1\nsigner 4\n", 9, 1, [(5, "node 1")]
    yield edge + "option\n", 10, 0, [(3, "node 0")]
    yield edge + "option value a tag 1\n", 10, 0, [(3, "node 0")]
    yield f"{head}node 0\nedge value a to 1\nnode 1\n", 11, 0, [(3, "node 0")]
    yield f"{head}node 0\nnode 1\nparent 1\nedge tag 1 to 1\nconstraint\noption $no()\n", 12, 1, [(4, "node 1")]
    yield edge + "option $eq()\n", 12, 0, [(3, "node 0")]
    yield f"{head}node 0\nparent 0\n", 13, 0, [(3, "node 0")]
    yield f"node 0\n\nnode 1\n  parent {2**64 - 1}\nstart 1\npatterns 0\n", 13, 1, [(3, "node 1")]
    parallel = "edge value a to 2\nedge value b to 2"
    yield f"{head}node 0\nnode 1 // x\n{parallel}\nnode 2\nparent 1\n", 14, 1, [(4, "node 1")]
    yield f"{head}node 0\n{parallel}\nparent 0\nnode 1\nnode 2\nparent 0\n", 13, 0, [(3, "node 0")]
