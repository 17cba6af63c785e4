"""The answers of the calls, read from the driver's lines: each as words, as an object for --json, and as an exit status."""
import re
from collections import namedtuple

from .bindings import WORDS, read_bindings
from .errors import NO, REFUSED, YES, Failure
from .refusals import refusal

MOST_COMPONENTS = 32  # of a name
PATH_WORDS = 2 * MOST_COMPONENTS  # lent for a path: enough for any two names


def counted(n, what):
    return f"{n} {what}{'' if n == 1 else 's'}"


class Answer:
    """What the call answered, and its numbers. `labels` has the names that the model gives its nodes and tags (model.py)."""

    answer = status = None

    def words(self, labels=None):
        return self.answer

    def lines(self, labels=None):
        """What is printed below the words."""
        return []

    def object(self, labels=None):
        return {"answer": self.answer, **self._asdict()}


class BindingAnswer(Answer):
    """An answer with bindings. Where no tag is bound, there are no lines for them."""

    def lines(self, labels):
        return [f"  {binding.words(labels)}" for binding in self.bindings]

    def bindings_line(self, labels):
        """All of them, as a part of a line."""
        return "bindings " + (", ".join(binding.short_words(labels) for binding in self.bindings) or "none")

    def binding_objects(self, labels):
        return [binding.object(labels) for binding in self.bindings]


class Refused(Answer, namedtuple("Numbers", "number at")):
    answer, status = "refused", REFUSED

    def words(self, labels=None):
        row = refusal(self.number)
        return f"refused {self.number}{f' at {row.at} {self.at}' if row.at else ''}: {row.meaning}"

    def object(self, labels=None):
        row = refusal(self.number)
        at = {"byte": "place", "entry": "index"}.get(row.at, "node")
        return {"answer": self.answer, "number": self.number, at: self.at, "meaning": row.meaning}


class Accepted(Answer, namedtuple("Numbers", "nodes")):
    answer, status = "accepted", YES

    def words(self, labels=None):
        return f"accepted: {counted(self.nodes, 'node')}"


class Match(BindingAnswer, namedtuple("Numbers", "node bound bindings")):
    answer, status = "match", YES

    def words(self, labels):
        return f"match: {labels.node(self.node)}, {counted(self.bound, 'tag')} bound"

    def object(self, labels):
        node = {"node": self.node, "rules": labels.rules(self.node)}
        return {"answer": self.answer, **node, "bound": self.bound, "bindings": self.binding_objects(labels)}


class NoMatch(Answer, namedtuple("Numbers", "")):
    answer, status = "no match", NO


class Allowed(BindingAnswer, namedtuple("Numbers", "packet_node key_node bindings path")):
    """The path begins with a word for each component of the two names; what follows means nothing."""

    answer, status = "allowed", YES

    def words(self, labels):
        return f"allowed: packet at {labels.node(self.packet_node)}, key at {labels.node(self.key_node)}"

    def object(self, labels):
        nodes = {"packet_node": self.packet_node, "key_node": self.key_node}
        rules = {"packet_rules": labels.rules(self.packet_node), "key_rules": labels.rules(self.key_node)}
        return {"answer": self.answer, **nodes, **rules, "bindings": self.binding_objects(labels)}


class NotAllowed(Answer, namedtuple("Numbers", "")):
    answer, status = "not allowed", NO


class Followed(Answer, namedtuple("Numbers", "")):
    """A path is one of an allowed pair."""

    answer, status = "accepted", YES


class NotFollowed(Answer, namedtuple("Numbers", "")):
    answer, status = "no", NO


class Certificate(Answer, namedtuple("Numbers", "index")):
    """The entry of a list that may sign."""

    answer, status = "certificate", YES


class NoCertificate(Answer, namedtuple("Numbers", "")):
    answer, status = "none", NO


class Written(Answer, namedtuple("Numbers", "model")):
    """The bytes of a model."""

    answer, status = "written", YES


class Described(Answer, namedtuple("Numbers", "numbers texts")):
    """The two lists of a model's description."""

    answer, status = "described", YES

    def object(self, labels=None):
        return {"answer": self.answer, "numbers": self.numbers, "texts": self.texts.hex()}


def all_numbers(words):
    return [int(word) for word in words if word.isdigit()]


def is_bytes(word):
    return len(word) % 2 == 0 and re.fullmatch("[0-9a-f]+", word)


def read_answer(line, *names):
    """The answer in a line of lvs_cases, which goes on with all that was lent to the call: numbers, then bytes in hexadecimal.

    The names are those that the call was asked about.
    """
    words = line.split()
    if words[:1] == ["refused"] and len(numbers := all_numbers(words[1:3])) == 2:
        return Refused(*numbers)
    if words[:1] in (["written"], ["described"]):
        return read_lent(words) or no_answer(line)
    if words[:2] == ["no", "match"]:
        return NoMatch()
    if words[:2] == ["not", "allowed"]:
        return NotAllowed()
    numbers = all_numbers(words)
    if words[:1] == ["accepted"] and len(numbers) == 1:
        return Accepted(*numbers)
    if words[:1] == ["match"] and len(numbers) == 2 + WORDS:
        return read_match(*numbers[:2], tuple(read_bindings(numbers[2:], *names)))
    if words[:1] == ["allowed"] and len(numbers) == 2 + WORDS + PATH_WORDS:
        return Allowed(*numbers[:2], tuple(read_bindings(numbers[2 : 2 + WORDS], *names)), tuple(numbers[2 + WORDS :]))
    if words == ["accepted"]:
        return Followed()
    if words == ["no"]:
        return NotFollowed()
    if words[:1] == ["certificate"] and len(numbers) == 1:
        return Certificate(*numbers)
    if words == ["none"]:
        return NoCertificate()
    return no_answer(line)


def read_match(node, bound, bindings):
    if len(bindings) != bound:
        raise Failure(f"lvs_cases answers with {counted(bound, 'bound tag')}, and with the words of {len(bindings)}")
    return Match(node, bound, bindings)


def read_lent(words):
    """What a call wrote into what it was lent, which here is never empty; None where the words don't say it."""
    *words, lent = words
    if not is_bytes(lent):
        return None
    counts, lent = all_numbers(words[1:3]), bytes.fromhex(lent)
    if words[0] == "written" and len(words) == 2 and len(counts) == 1 and counts[0] <= len(lent):
        return Written(lent[: counts[0]])
    if words[0] == "described" and len(counts) == 2 and counts[1] <= len(lent):
        numbers = all_numbers(words[3 : 3 + counts[0]])
        return Described(numbers, lent[: counts[1]]) if len(numbers) == counts[0] else None
    return None


def no_answer(line):
    raise Failure(f"lvs_cases printed {line[:60]!r}, which is no answer")
