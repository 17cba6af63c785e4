"""A model's description as text for people: written by `lvs show`, changed by hand, read by `lvs build`.

One thing a line, which begins with a keyword; FORMAT has them all. Writing and reading are exact: the text of a description is read as
that description again. The reader takes any text and keeps on after a mistake, so that a person sees all of them at once; whether the
model would be accepted is not its question but the writing call's.
"""
import difflib
import re
from typing import NamedTuple
from urllib.parse import quote

from name import Fault, Malformed, component, component_uri, element, elements

from .description import Call, Description, Node, PatternEdge, Symbol, Tag, Value, ValueEdge
from .model import LARGEST_TAG
from .refusals import refusal

FORMAT = """\
the text:
  start INDEX                        the node where every name begins
  patterns COUNT                     how many patterns are named: a tag above COUNT is temporary
  node INDEX                         a node, and below it what it has, each any number of times:
    parent INDEX                       the node whose edge leads here (at most one; the start has none)
    rule #NAME                         a rule name
    edge value COMPONENT to INDEX      an edge for one component
    edge tag NUMBER to INDEX           an edge for any component, which a named tag is bound to
      constraint                         of the edge above; each has to hold
        option TERM                        of the constraint above; one has to hold
    signer INDEX                       a node whose keys may sign
  symbol NUMBER NAME                 what a tag is called

A TERM is `value COMPONENT`, `tag NUMBER` or a call with its arguments, as $eq(tag 1) and
$isValidID(). A COMPONENT is written as in a URI: abc, %2F, v=3, 8=x, and ... for no bytes.
Numbers are decimal. INDEX counts the nodes from 0, in the order of the text.

A temporary tag, the _ of LVS text, is never bound: its components may differ wherever it is
met, and a term that names it does not hold. The constraints of its edges count.

Blanks at the beginning of a line have no meaning, and empty lines are skipped. // begins a
comment, at the beginning of a line or after a blank: no word of the text has a / in it, while
# begins a rule name and % an escape. Rule names, edges with a value, edges with a tag and
signers keep their order, each among themselves.
"""

LARGEST = (1 << 64) - 1
IDENTIFIER = r"[A-Za-z_][A-Za-z0-9_]*"
AN_IDENTIFIER = "an identifier (a letter or _, then letters, digits or _)"
BLANKS = " \t\r"
WORD = re.compile(f"[(),]|[^{BLANKS}(),]+")
COMMENT = re.compile(f"(?:^|(?<=[{BLANKS}]))//.*")


# writing


def component_text(value):
    return component_uri(element(value.type, value.bytes))


def term_text(term):
    if isinstance(term, Value):
        return f"value {component_text(term)}"
    if isinstance(term, Tag):
        return f"tag {term.number}"
    return f"{term.function.decode()}({', '.join(map(term_text, term.arguments))})"


def lines(description):
    """The lines of an accepted model's description. (Texts of another one might not be words.)"""
    yield f"start {description.start}"
    yield f"patterns {description.patterns}"
    for node in description.nodes:
        yield ""
        yield from node_lines(node)
    if description.symbols:
        yield ""
    for symbol in description.symbols:
        yield f"symbol {symbol.tag} {symbol.identifier.decode()}"


def node_lines(node):
    yield f"node {node.id}"
    if node.parent is not None:
        yield f"  parent {node.parent}"
    for rule in node.rules:
        yield f"  rule {rule.decode()}"
    for edge in node.value_edges:
        yield f"  edge {term_text(edge.value)} to {edge.to}"
    for edge in node.pattern_edges:
        yield f"  edge {term_text(edge.tag)} to {edge.to}"
        for options in edge.constraints:
            yield "    constraint"
            for terms in options:
                yield " ".join(["      option", *map(term_text, terms)])
    for signer in node.signers:
        yield f"  signer {signer}"


# reading


class Place(NamedTuple):
    """A line of the text, from 1, and what there is to say about it."""

    line: int
    text: str


class Mistake(Exception):
    """What is wrong in a line. Its number is the reader's matter."""


def quoted(word):
    return repr(word if len(word) <= 60 else word[:57] + "...")


def comment_hint(word):
    """For a word that may have been meant as a comment."""
    if word.startswith("#"):
        return " (a comment begins with //)"
    return " (a comment takes a blank before its //)" if "//" in word else ""


def check_characters(word):
    """A component's characters: none that a person would not see, or see and mean something else by."""
    for at, character in enumerate(word):
        if character == "/":
            raise Fault(at, f"a component has no / in it (/ itself is %2F){comment_hint(word)}")
        if character == '"':
            raise Fault(at, 'a component has no quotes around it (" itself is %22)')
        if not character.isprintable():
            raise Fault(at, f"{character!r} is not printable, so it is written {quote(character, errors='surrogateescape')}")


class Words:
    """The words of a line, taken one by one from the left."""

    def __init__(self, line):
        self.line = COMMENT.sub("", line).strip(BLANKS)
        self.words = WORD.findall(self.line)
        self.at = 0

    def peek(self):
        return self.words[self.at] if self.at < len(self.words) else None

    def skip(self, word):
        """Whether this word comes next; then it is taken."""
        is_next = self.peek() == word
        self.at += is_next
        return is_next

    def wrong(self, expected):
        """The mistake that something else comes next."""
        before = f" after {quoted(self.words[self.at - 1])}" if self.at else ""
        word = self.peek()
        found = "the end of the line" if word is None else quoted(word)
        return Mistake(f"expected {expected}{before}, found {found}{comment_hint(word or '')}")

    def word(self, expected):
        word = self.peek()
        if word is None or word in "(),":
            raise self.wrong(expected)
        self.at += 1
        return word

    def number(self, expected):
        word = self.peek()
        if word is None or not re.fullmatch("[0-9]+", word):
            raise self.wrong(expected)
        digits = word.lstrip("0") or "0"
        if len(digits) > 20 or int(digits) > LARGEST:
            raise Mistake(f"expected {expected} of at most 64 bits, found {quoted(word)} (the largest is {LARGEST})")
        self.at += 1
        return int(digits)

    def text(self, expected):
        return self.word(expected).encode("utf-8", "surrogateescape")

    def component(self):
        word = self.word("a component")
        try:
            check_characters(word)
            ((typ, value),) = elements(component(word))
        except Fault as fault:
            raise Mistake(f"component {Malformed(word, *fault.args)}") from None
        return Value(typ, value)

    def end(self):
        if self.peek() is not None:
            raise self.wrong("the end of the line")


class Reader:
    """Reads lines into a description, and keeps the place of each mistake, node and doubtful word.

    A line with a mistake still opens its node, edge or constraint, so that the lines below it get no mistake for that.
    """

    def __init__(self):
        self.description = Description()
        self.mistakes = []  # Places
        self.doubts = {2: [], 5: []}  # by refusal number: Places that can be the reason for it
        self.once = {}  # the line of `start`, of `patterns`, and of the open node's `parent`
        self.nodes_at = []  # each node's line
        self.node = self.constraints = self.options = None  # what is open
        self.line = 0

    def read(self, text):
        for self.line, line in enumerate(text.split("\n"), 1):
            words = Words(line)
            try:
                if words.words:
                    self.keyword(words)(self, words)
                    words.end()
            except Mistake as mistake:
                self.mistakes.append(Place(self.line, str(mistake)))
        for keyword, what in ("start", "INDEX"), ("patterns", "COUNT"):
            if keyword not in self.once:
                self.mistakes.append(Place(self.line, f"expected a line `{keyword} {what}`, found the end of the text"))
        return self

    def keyword(self, words):
        word = words.peek()
        if word not in KEYWORDS:
            self.open_all()
            near = difflib.get_close_matches(word, KEYWORDS, 1)
            raise words.wrong(f"{repr(near[0]) if near else 'one of ' + ', '.join(KEYWORDS)} at the beginning of the line")
        words.at = 1
        return KEYWORDS[word]

    def open_all(self):
        """After a line that could have been any: what belongs to a node, an edge or a constraint gets no mistake for that."""
        self.node, self.constraints, self.options = Node(), [], []
        self.once.pop("parent", None)

    def only_once(self, keyword, where):
        if keyword in self.once:
            raise Mistake(f"expected one `{keyword}` in {where}, found a second (the first is in line {self.once[keyword]})")
        self.once[keyword] = self.line

    def doubt(self, number, words, why=""):
        self.doubts[number].append(Place(self.line, words.line + why))

    def tag(self, words):
        number = words.number("a tag's number")
        if not 1 <= number <= LARGEST_TAG:
            self.doubt(5, words)
        return Tag(number)

    def identifier(self, words, sign, what):
        text = words.text(what)
        if not re.fullmatch(re.escape(sign) + IDENTIFIER, text.decode("latin-1")):
            word = quoted(text.decode("utf-8", "surrogateescape"))
            self.doubt(2, words, f": {word} is not {what}, {sign + ' and ' if sign else ''}{AN_IDENTIFIER}")
        return text

    # the model's lines: what is open is closed

    def close(self):
        self.node = self.constraints = self.options = None

    def start(self, words):
        self.close()
        self.only_once("start", "the text")
        self.description.start = words.number("a node index")

    def patterns(self, words):
        self.close()
        self.only_once("patterns", "the text")
        self.description.patterns = words.number("the number of named patterns")

    def symbol(self, words):
        self.close()
        tag = self.tag(words)
        self.description.symbols.append(Symbol(tag.number, self.identifier(words, "", "a symbol")))

    def new_node(self, words):
        self.close()
        self.node = Node()
        self.description.nodes.append(self.node)
        self.nodes_at.append(self.line)
        self.once.pop("parent", None)
        self.node.id = words.number("a node index")

    # a node's lines: an edge that is open is closed

    def in_node(self, keyword, constraints=None):
        """A new line of the open node, which may have constraints below it."""
        self.constraints, self.options = constraints, None
        if self.node is None:
            raise Mistake(f"expected a `node` line above: `{keyword}` is a part of a node")

    def parent(self, words):
        self.in_node("parent")
        self.only_once("parent", "a node")
        self.node.parent = words.number("a node index")

    def rule(self, words):
        self.in_node("rule")
        self.node.rules.append(self.identifier(words, "#", "a rule name"))

    def signer(self, words):
        self.in_node("signer")
        self.node.signers.append(words.number("a node index"))

    def edge(self, words):
        self.in_node("edge", None if words.peek() == "value" else [])
        if words.skip("value"):
            value = words.component()
            self.node.value_edges.append(ValueEdge(self.destination(words), value))
        elif words.skip("tag"):
            tag = self.tag(words)
            self.node.pattern_edges.append(PatternEdge(self.destination(words), tag, self.constraints))
        else:
            raise words.wrong("'value' or 'tag'")

    def destination(self, words):
        if not words.skip("to"):
            raise words.wrong("'to'")
        return words.number("a node index")

    # an edge's lines

    def constraint(self, words):
        if self.constraints is None:
            raise Mistake("expected an `edge tag` line above: `constraint` is a part of such an edge")
        self.options = []
        self.constraints.append(self.options)

    def option(self, words):
        if self.options is None:
            raise Mistake("expected a `constraint` line above: `option` is a part of a constraint")
        terms = []
        self.options.append(terms)
        while words.peek() is not None:
            terms.append(self.term(words))

    def term(self, words):
        """A Value, a Tag or a Call. A function that takes no arguments may have no ( ) either, as it cannot be anything else."""
        value = self.argument(words)
        if value is not None:
            return value
        word = words.peek()
        is_call = words.words[words.at + 1 : words.at + 2] == ["("]
        if word in "()," or not (is_call or word.startswith("$")):
            raise words.wrong("'value', 'tag' or a function, as $eq(tag 1),")
        function = self.identifier(words, "$", "a function's name")
        return Call(function, self.arguments(words) if words.skip("(") else [])

    def argument(self, words):
        """A Value or a Tag, or None where something else comes next."""
        if words.skip("value"):
            return words.component()
        return self.tag(words) if words.skip("tag") else None

    def arguments(self, words):
        arguments = []
        while not words.skip(")"):
            if arguments and not words.skip(","):
                raise words.wrong("',' or ')'")
            argument = self.argument(words)
            if argument is None:
                raise words.wrong("'value' or 'tag'" + ("" if arguments else " or ')'"))
            arguments.append(argument)
        return arguments

    # what a refusal is about

    def places(self, number, node):
        """The lines to look at where the description is refused with this number and node."""
        if number == 7:
            return [Place(self.once["start"], f"start {self.description.start}")]
        if number in self.doubts:
            return self.doubts[number]
        return [Place(self.nodes_at[node], f"node {self.description.nodes[node].id}")] if refusal(number).at == "node" else []


KEYWORDS = {
    "start": Reader.start,
    "patterns": Reader.patterns,
    "node": Reader.new_node,
    "parent": Reader.parent,
    "rule": Reader.rule,
    "edge": Reader.edge,
    "constraint": Reader.constraint,
    "option": Reader.option,
    "signer": Reader.signer,
    "symbol": Reader.symbol,
}
