"""Models, names and cases in bytes, as docs/format.md describes them. Nothing is checked here: faults are wanted too."""
import pathlib
import sys

sys.path.append(str(pathlib.Path(__file__).resolve().parents[2] / "tools"))
from name import elements as elements_of, name as path, number, request, shortest_integer  # path: a name from its URI

# types of elements (docs/format.md, 3.1)
NAME, GENERIC = 0x07, 0x08
VALUE, TAG, NODE_ID, FN_ID, IDENTIFIER = 0x21, 0x23, 0x25, 0x27, 0x29
CALL, ARGUMENT, OPTION, CONSTRAINT = 0x31, 0x33, 0x41, 0x43
VALUE_EDGE, PATTERN_EDGE, SIGNER, PARENT = 0x51, 0x53, 0x55, 0x57
VERSION, NODE, SYMBOL, PATTERN_COUNT = 0x61, 0x63, 0x67, 0x69
# and what those of a model are called
NAMES = {
    **{VALUE: "Value", TAG: "Tag", NODE_ID: "NodeId", FN_ID: "FnId", IDENTIFIER: "Identifier", CALL: "UserFnCall", ARGUMENT: "UserFnArg"},
    **{OPTION: "ConstraintOption", CONSTRAINT: "Constraint", VALUE_EDGE: "ValueEdge", PATTERN_EDGE: "PatternEdge", SIGNER: "SignConstraint"},
    **{PARENT: "Parent", VERSION: "Version", NODE: "Node", SYMBOL: "TagSymbol", PATTERN_COUNT: "NamedPatternCnt"},
}

GOOD_VERSION = 0x00011000

# what a model is built from carries the place of its first fault to where the model begins


class Faulty(bytes):
    """Malformed bytes, with the place of the first fault in them."""

    place = 0


def faulty(data, place=0):
    found = Faulty(data)
    found.place = place
    return found


MISSING = faulty(b"")  # behind the last element of a container that has to have one more


def concat(*parts):
    """The parts one behind the other. Where one is faulty the whole is, at the place of the first."""
    data, before = b"".join(parts), 0
    for part in parts:
        if isinstance(part, Faulty):
            return faulty(data, before + part.place)
        before += len(part)
    return data


def element(typ, *inside):
    inside = concat(*inside)
    return concat(number(typ) + number(len(inside)), inside)


def plain(typ, data):
    """An element that holds plain bytes. Where these are at fault, the place is the element's start."""
    written = element(typ, data)
    return faulty(written) if isinstance(data, Faulty) else written


def integer(typ, n, size=None):
    """An integer of `size` bytes; of the fewest that hold it where no size is given."""
    return element(typ, n.to_bytes(size, "big") if size else shortest_integer(n))


def component(text, typ=GENERIC):
    return element(typ, text if isinstance(text, bytes) else text.encode())


def name(*components):
    """A name of generic components; one in bytes is an element already."""
    return element(NAME, *(c if isinstance(c, bytes) else component(c) for c in components))


def value(text):
    return element(VALUE, text if isinstance(text, bytes) else component(text))


def tag(n):
    return integer(TAG, n)


def argument(term):
    return element(ARGUMENT, term)


def call(function, *terms):
    return element(CALL, element(FN_ID, function.encode()), *map(argument, terms))


def option(*terms):
    return element(OPTION, *terms)


def constraint(*options):
    return element(CONSTRAINT, *options)


def must_be(*texts):
    """A Constraint that holds for each of these values."""
    return constraint(*(option(value(text)) for text in texts))


def value_edge(destination, text):
    return element(VALUE_EDGE, integer(NODE_ID, destination), value(text))


def pattern_edge(destination, n, *constraints):
    return element(PATTERN_EDGE, integer(NODE_ID, destination), tag(n), *constraints)


def node_id(i):
    return integer(NODE_ID, i)


def parent(i):
    return integer(PARENT, i)


def signer(i):
    return integer(SIGNER, i)


def rule_name(text):
    return element(IDENTIFIER, text.encode())


def node(i, *rest):
    return element(NODE, node_id(i), *rest)


def symbol(n, text):
    return element(SYMBOL, tag(n), element(IDENTIFIER, text.encode()))


def model(*nodes, start=0, patterns=0, version=GOOD_VERSION, behind=b""):
    head = element(VERSION, version.to_bytes(4, "big")) + integer(NODE_ID, start) + integer(PATTERN_COUNT, patterns)
    return concat(head, *nodes, behind)


def padded(short, size):
    """A model with an optional element after its last, so that it has `size` bytes."""
    return short + element(0x80, bytes(size - len(short) - 4))


def tree(*branches, patterns=None):
    """A model from the paths of its leaves: [(edge, ..), .., signers], where an edge is a text, or (Tag, Constraint, ..).

    Equal beginnings are one path. Nodes are numbered as the paths reach them, and Node 0 is the start. Without a count of patterns
    the largest Tag of an edge is the last named one, so that no edge is temporary.
    """
    children, parents, signers, last_tag = [{}], [None], [()], 0
    for branch in branches:
        *edges, signed_by = branch
        at = 0
        for edge in edges:
            if not isinstance(edge, str):
                last_tag = max(last_tag, edge[0])
            if edge not in children[at]:
                children[at][edge] = len(children)
                children.append({})
                parents.append(at)
                signers.append(())
            at = children[at][edge]
        signers[at] = signed_by
    nodes = []
    for i, out in enumerate(children):
        rest = [] if parents[i] is None else [parent(parents[i])]
        rest += [value_edge(to, edge) for edge, to in out.items() if isinstance(edge, str)]
        rest += [pattern_edge(to, *edge) for edge, to in out.items() if not isinstance(edge, str)]
        rest += [signer(j) for j in signers[i]]
        nodes.append(node(i, *rest))
    return model(*nodes, patterns=last_tag if patterns is None else patterns)


# cases of the driver lvs_cases


def field(data):
    return len(data).to_bytes(4, "big") + data


def verdict(of):
    return b"V" + field(of)


# what is lent to a call holds these words before it: no word that a call writes is like one of them, and some take all of their bytes


def old_words(count):
    return [4294967295 - i if i % 20 == 0 else 2000 + i for i in range(count)]


OLD = old_words(384)  # binding words
OLD_PATH = [65535 - i for i in range(20)]  # no Node has so many edges


def words_field(words, size):
    return field(b"".join(word.to_bytes(size, "big") for word in words))


def match(of, packet, words=()):
    return b"M" + field(of) + field(packet) + words_field(words, 4)


def sign(of, packet, key, path_words=OLD_PATH, words=OLD):
    return b"S" + field(of) + field(packet) + field(key) + words_field(words, 4) + words_field(path_words, 2)


def follow(of, packet, key, path_words):
    """Whether a path is one of an allowed pair."""
    return b"P" + field(of) + field(packet) + field(key) + words_field(path_words, 2)


def suggest(of, packet, *entries):
    """The list is the entries, one after the other."""
    return b"C" + field(of) + field(packet) + field(b"".join(entries))


def compare(a, b):
    """Two components, as their bytes."""
    return b"E" + field(a) + field(b)


def number_field(numbers):
    return field(b"".join(n.to_bytes(8, "big") for n in numbers))


def write(numbers, texts, output):
    return b"W" + number_field(numbers) + field(texts) + field(output)


def describe(of, numbers, texts):
    return b"D" + field(of) + number_field(numbers) + field(texts)


def words_line(words):
    return "".join(f" {word}" for word in words)


PACKET_ORIGIN, KEY_ORIGIN = 1, 2


def binding_words(packet=(), key=()):
    """The words of all Tags, from (Tag, start, length) of each that is first bound in the packet name, and of each in the key name."""
    words = [0] * 384
    for origin, bound in (PACKET_ORIGIN, packet), (KEY_ORIGIN, key):
        for n, start, length in bound:
            words[3 * n - 3 : 3 * n] = start, length, origin
    return words


def first_places(of, tags, named=128):
    """(Tag, start, length) of each Tag that a name binds. `tags` has the Tag of the edge that each component crosses, None for a ValueEdge."""
    ((_, inside),) = elements_of(of)
    found, start = {}, len(of) - len(inside)
    for (typ, data), n in zip(elements_of(inside), tags, strict=True):
        size = len(component(data, typ))
        if n is not None and n <= named:
            found.setdefault(n, (start, size))
        start += size
    return [(n, *place) for n, place in found.items()]


def pair_bindings(packet, packet_tags, key, key_tags, named=128):
    """What the two names of an allowed pair bind, as `allowed` takes it: a Tag that the packet binds is not the key's."""
    by_packet = first_places(packet, packet_tags, named)
    before = {n for n, *_ in by_packet}
    return dict(packet=by_packet, key=[place for place in first_places(key, key_tags, named) if place[0] not in before])


def matched(at, *bound, behind=()):
    """The line of a match: its node, how many Tags are bound, their words, from (Tag, start, length) of each, and the words after the first 384."""
    return f"match {at} {len(bound)}" + words_line([*binding_words(bound), *behind])


def kept(answer, words=OLD):
    """The line of another answer: all words as they were."""
    return answer + words_line(words)


def allowed(packet_node, key_node, *edges, packet=(), key=(), path_words=OLD_PATH, words=OLD):
    """The line of an allowed pair: its nodes, the words of what each name binds and those behind them, then the path: the ordinals of the edges
    to the packet's node and to the key's, and the words behind these."""
    after = [*binding_words(packet, key), *words[384:], *edges, *path_words[len(edges) :]]
    return f"allowed {packet_node} {key_node}" + words_line(after)


def both_kept(answer, path_words=OLD_PATH, words=OLD):
    """The line of another answer of a signing call: all words as they were."""
    return answer + words_line([*words, *path_words])


NOT_ALLOWED = both_kept("not allowed")


def refused_at(of):
    """The line of a malformed model: where the first fault is."""
    return f"refused 2 {of.place}"


def bytes_line(data):
    return f" {data.hex()}" if data else ""
