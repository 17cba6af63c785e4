"""Random models that are accepted, with all that a model may have; and the bytes of any accepted model as the writing call writes them."""
import random

from build import *
from gaps import CONTAINERS, parts

INTEGERS = {TAG, NODE_ID, SIGNER, PARENT, PATTERN_COUNT}
KNOWN = {VALUE, FN_ID, IDENTIFIER, VERSION, *INTEGERS, *CONTAINERS}
TYPES = (1, 2, 7, 8, 8, 8, 8, 32, 50, 52, 54, 56, 58, 128, 252, 253, 254, 65535)
OPTIONAL = ("8000", "20020000", "fd010003ffffff", "fefffffffe00", "80028100")


def canonical(data):
    """An accepted model without its optional elements, and with each integer as short as it can be."""
    written = b""
    for typ, inside in parts(data):
        if typ in CONTAINERS:
            written += element(typ, canonical(inside))
        elif typ in INTEGERS:
            written += integer(typ, int.from_bytes(inside, "big"))
        elif typ in KNOWN:
            written += element(typ, inside)
    return written


class Maker:
    """A model's parts, each at random. `spread` puts optional elements into the gaps; `whole` takes any of the sizes an integer may have."""

    def __init__(self, seed):
        self.random = random.Random(seed)
        self.is_plain = self.random.random() < 0.3  # as the writing call would write it

    def some(self, most, make):
        return [make() for _ in range(self.random.choice([0, 0, 1, self.random.randrange(most + 1)]))]

    def spread(self, elements):
        spares = [] if self.is_plain else self.some(2, lambda: bytes.fromhex(self.random.choice(OPTIONAL)))
        elements = list(elements)
        for spare in spares:
            elements.insert(self.random.randrange(len(elements) + 1), spare)
        return elements

    def container(self, typ, *elements):
        return element(typ, *self.spread(elements))

    def whole(self, typ, n):
        sizes = [size for size in (1, 2, 4, 8) if n < 1 << 8 * size]
        return integer(typ, n, sizes[0] if self.is_plain else self.random.choice(sizes))

    def identifier(self, sign=""):
        letters = "abcXYZ_"
        text = self.random.choice(letters) + "".join(self.random.choices(letters + "0129", k=self.random.randrange(12)))
        return (sign + text).encode()

    def value(self):
        size = self.random.choice([0, 1, 1, 2, 3, 4, 8, 9, 32, self.random.randrange(300)])
        data = self.random.choice([bytes(size), self.random.randbytes(size), b"." * size, b"%41=/# //,()\"to"[:size]])
        return element(VALUE, component(data, self.random.choice(TYPES)))

    def tag(self):
        return self.whole(TAG, self.random.randint(1, 128))

    def value_or_tag(self):
        return self.value() if self.random.random() < 0.5 else self.tag()

    def call(self):
        function = self.random.choice([b"$eq", b"$eq_type", b"$isValidID", b"$isValidYear"])
        arguments = [self.container(ARGUMENT, self.value_or_tag())] if function.startswith(b"$eq") else []
        return self.container(CALL, element(FN_ID, function), *arguments)

    def option(self):
        return self.container(OPTION, self.call() if self.random.random() < 0.4 else self.value_or_tag())

    def constraint(self):
        return self.container(CONSTRAINT, *self.some(3, self.option))

    def edge(self, to):
        """(type, element), with the type for the order in its Node."""
        if self.random.random() < 0.5:
            return VALUE_EDGE, self.container(VALUE_EDGE, self.whole(NODE_ID, to), self.value())
        return PATTERN_EDGE, self.container(PATTERN_EDGE, self.whole(NODE_ID, to), self.tag(), *self.some(3, self.constraint))

    def node(self, i, parents):
        up = [] if parents[i] is None else [self.whole(PARENT, parents[i])]
        children = [j for j, of in enumerate(parents) if of == i and self.random.random() < 0.8]
        self.random.shuffle(children)
        edges = sorted(map(self.edge, children), key=lambda edge: edge[0])
        rules = self.some(3, lambda: element(IDENTIFIER, self.identifier("#")))
        signers = self.some(4, lambda: self.whole(SIGNER, self.random.randrange(len(parents))))
        return self.container(NODE, self.whole(NODE_ID, i), *up, *rules, *(edge for _, edge in edges), *signers)

    def parents(self, count, start):
        """Mostly of a tree, numbered in any order, whose root is the start: it has no Parent.

        Any number, or none, is good for a Node that no edge leads to. Two others than the start may be each other's Parent, and one its own.
        """
        order = [i for i in range(count) if i != start]
        self.random.shuffle(order)
        found = {start: None}
        for i in order:
            any_node, far = self.random.randrange(count), self.random.choice([count, 256, 65536, 2**32, 2**64 - 1])
            found[i] = self.random.choice([*[self.random.choice(list(found))] * 5, any_node, any_node, far, None])
        if count > 2 and self.random.random() < 0.3:
            one, other = order[-2:]
            found[one], found[other] = other, one
        return [found[i] for i in range(count)]

    def model(self):
        count = self.random.choice([1, 2, 3, 5, 8, 13, self.random.randint(1, 40)])
        start = self.random.randrange(count)
        parents = self.parents(count, start)
        head = [element(VERSION, GOOD_VERSION.to_bytes(4, "big")), self.whole(NODE_ID, start)]
        head.append(self.whole(PATTERN_COUNT, self.random.choice([0, 3, 128, 255, 256, 65536, 2**32, 2**64 - 1])))
        nodes = [self.node(i, parents) for i in range(count)]
        symbols = self.some(4, lambda: self.container(SYMBOL, self.tag(), element(IDENTIFIER, self.identifier())))
        return b"".join(self.spread([*head, *nodes, *symbols]))


def random_models(count, seed=0):
    return [Maker(f"{seed} {i}").model() for i in range(count)]
