"""Bindings: the tags that are bound in a match or in a pair, read from the words of the proved calls, and as text.

A tag has three words: where its component starts in the name where the tag was first bound, how long that is, and which name that is, its
origin. All three are 0 where the tag is not bound.
"""
import itertools
from typing import NamedTuple

from name import component_uri

from .errors import Failure
from .model import LARGEST_TAG
from .path import KEY, PACKET, components

ORIGINS = {1: PACKET, 2: KEY}
TAG_WORDS = 3
WORDS = TAG_WORDS * LARGEST_TAG  # of the binding buffer


class Binding(NamedTuple):
    tag: int
    component: str  # as in a URI
    origin: str
    start: int
    length: int

    def words(self, labels):
        return f"{labels.tag(self.tag)} = {self.component}, from the {self.origin}"

    def short_words(self, labels):
        return f"{labels.tag(self.tag)} = {self.component} ({self.origin})"

    def object(self, labels):
        return {"tag": self.tag, "symbol": labels.symbols.get(self.tag), **self._asdict()}


def read_bindings(words, *names):
    """The bindings that words say, in the order of the tags. The names are the packet's, and the key's where there is one."""
    places = {origin: placed_components(name) for origin, name in zip(ORIGINS, names)}
    for tag, (start, length, origin) in enumerate(zip(*[iter(words)] * TAG_WORDS), 1):
        if start or length or origin:
            component = places.get(origin, {}).get((start, length))
            if component is None:
                raise Failure(f"lvs_cases answers with the words {start}, {length}, {origin} for tag {tag}, which are no binding")
            yield Binding(tag, component_uri(component), ORIGINS[origin], start, length)


def placed_components(name):
    """The components of a name that a proved call has read, by where they start in it and how long they are."""
    parts = components(name)
    sizes = list(map(len, parts))
    starts = itertools.accumulate(sizes, initial=len(name) - sum(sizes))
    return dict(zip(zip(starts, sizes), parts))
