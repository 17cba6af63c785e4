#!/usr/bin/env python3
"""NDN names from URIs, and requests for lvs_check from pairs of them.

    tools/name.py hex URI..          the bytes of each name, in hexadecimal
    tools/name.py requests [FILE]    lvs_check's standard input; a line of FILE (or of standard input) has a packet name and a key name

A URI is /ndn/blog/x, with or without `ndn:` before it, and / is the empty name. %2F is the byte 2F. A component is generic (type 8), or
TYPE=value with the type as a number or by one of its names, as in /ndn/v=3. One that is only periods stands for three periods fewer, so
that ... is a component of no bytes. Empty lines and those that begin with # are passed over.

This is the one place where URIs are read and written; tools/lvs has them from here.
"""
import re
import sys
from urllib.parse import quote_from_bytes, unquote_to_bytes

NAME, GENERIC = 7, 8
DIGESTS = {"sha256digest": 1, "params-sha256": 2}  # the value is written in hexadecimal
NUMBERS = {"seg": 50, "off": 52, "v": 54, "t": 56, "seq": 58}  # the value is a number


def number(n):
    """A type or a length, in the shortest form."""
    if n < 253:
        return bytes([n])
    if n < 1 << 16:
        return b"\xfd" + n.to_bytes(2, "big")
    if n < 1 << 32:
        return b"\xfe" + n.to_bytes(4, "big")
    return b"\xff" + n.to_bytes(8, "big")


def element(typ, *inside):
    inside = b"".join(inside)
    return number(typ) + number(len(inside)) + inside


def shortest_integer(n):
    """An integer of 1, 2, 4 or 8 bytes."""
    if not 0 <= n < 1 << 64:
        raise ValueError(f"{n} does not fit in 8 bytes")
    return next(n.to_bytes(size, "big") for size in (1, 2, 4, 8) if n < 1 << 8 * size)


class Malformed(ValueError):
    """A text that is no name: the text, the place of the fault in characters from 0, and what is wrong there."""

    def __init__(self, text, at, why):
        super().__init__(f"{text!r}, character {at + 1}: {why}")


class Fault(Exception):
    """A fault in a component: its place in the URI, and what is wrong."""


def value_of(text, at):
    """The bytes that a component's text stands for. `at` is where in the URI the text begins."""
    if not text.strip("."):
        if len(text) < 3:
            raise Fault(at, "a component of no bytes is written ... (and . and .. are none)")
        return text[3:].encode()
    if lone := re.search("%(?![0-9A-Fa-f]{2})", text):
        raise Fault(at + lone.start(), "% takes two hexadecimal digits (% itself is %25)")
    return unquote_to_bytes(text.encode("utf-8", "surrogateescape"))


def component(text, at=0):
    kind, equals, value = text.partition("=")
    if not equals:
        return element(GENERIC, value_of(text, at))
    value_at = at + len(kind) + 1
    if kind in DIGESTS:
        if not re.fullmatch("[0-9A-Fa-f]{64}", value):
            raise Fault(value_at, f"{kind}= takes 64 hexadecimal digits")
        return element(DIGESTS[kind], bytes.fromhex(value))
    if kind in NUMBERS:
        if not re.fullmatch("[0-9]{1,20}", value) or int(value) >= 1 << 64:
            raise Fault(value_at, f"{kind}= takes a number below 2^64")
        return element(NUMBERS[kind], shortest_integer(int(value)))
    if not re.fullmatch("[0-9]{1,5}", kind) or not 1 <= int(kind) <= 65535:
        names = ", ".join([*DIGESTS, *NUMBERS])
        raise Fault(at, f"{kind!r} is no component type: 1 to 65535, or {names} (= in a value is %3D)")
    return element(int(kind), value_of(value, value_at))


def components(uri):
    at = len("ndn:") if uri.startswith("ndn:") else 0
    if not uri.startswith("/", at):
        raise Fault(at, "a name begins with /")
    at += 1
    inside = uri[at:].removesuffix("/")
    for text in inside.split("/") if inside else ():
        yield component(text, at)
        at += len(text) + 1


def name(uri):
    try:
        return element(NAME, *components(uri))
    except Fault as fault:
        raise Malformed(uri, *fault.args) from None


def name_or_bytes(text):
    """The name that a URI stands for; or any bytes, name or not, given as 0x and their hexadecimal digits."""
    if not text.startswith("0x"):
        return name(text)
    digits = text[2:]
    if other := re.search("[^0-9A-Fa-f]", digits):
        raise Malformed(text, 2 + other.start(), "not a hexadecimal digit")
    if len(digits) % 2:
        raise Malformed(text, len(text), "the last byte takes a second hexadecimal digit")
    return bytes.fromhex(digits)


def number_at(data, at):
    """A type or a length, and where it ends."""
    size = {253: 2, 254: 4, 255: 8}.get(data[at])
    if size is None:
        return data[at], at + 1
    return int.from_bytes(data[at + 1 : at + 1 + size], "big"), at + 1 + size


def elements(data):
    """(type, inside) of each element in data. These are bytes that a proved call has read already: no fault is looked for."""
    at = 0
    while at < len(data):
        typ, at = number_at(data, at)
        size, at = number_at(data, at)
        yield typ, data[at : at + size]
        at += size


def is_element(data):
    """Whether any bytes are one whole element: written anew from its type and its inside, they are the same."""
    try:
        typ, at = number_at(data, 0)
        _, at = number_at(data, at)
    except IndexError:
        return False
    return 1 <= typ < 1 << 32 and element(typ, data[at:]) == data


def value_uri(value):
    return quote_from_bytes(value, safe="") if value.strip(b".") else value.decode() + "..."


def component_uri(data):
    """The text of one component, which component() reads back."""
    ((typ, value),) = elements(data)
    if typ == GENERIC:
        return value_uri(value)
    for kind, t in DIGESTS.items():
        if typ == t and len(value) == 32:
            return f"{kind}={value.hex()}"
    for kind, t in NUMBERS.items():
        if typ == t and len(value) <= 8 and value == shortest_integer(int.from_bytes(value, "big")):
            return f"{kind}={int.from_bytes(value, 'big')}"
    return f"{typ}={value_uri(value)}"


def request(packet, key):
    """One request of lvs_check, from two names in bytes: the mark, and each name after its 2-byte length."""
    return b"MK" + b"".join(len(n).to_bytes(2, "big") + n for n in (packet, key))


def word_lines(lines):
    """(line number, words) of each line that is neither empty nor a comment."""
    for i, line in enumerate(lines, 1):
        words = line.split()
        if words and not words[0].startswith("#"):
            yield i, words


def pair(words):
    if len(words) != 2:
        raise ValueError(f"{len(words)} word{'s' * (len(words) != 1)}, not a packet name and a key name")
    return words


def pairs(lines):
    """The pairs of URIs in lines."""
    for i, words in word_lines(lines):
        try:
            yield pair(words)
        except ValueError as fault:
            raise ValueError(f"line {i}: {fault}") from None


def main():
    command, *words = sys.argv[1:] or [""]
    if command == "hex" and words:
        for uri in words:
            print(name(uri).hex(" "))
    elif command == "requests" and len(words) < 2:
        lines = open(words[0], encoding="utf-8") if words else sys.stdin
        made = [request(name(packet), name(key)) for packet, key in pairs(lines)]
        sys.stdout.buffer.write(b"".join(made))
    else:
        sys.exit(__doc__)


if __name__ == "__main__":
    try:
        main()
    except (ValueError, OverflowError, OSError) as fault:
        sys.exit(f"name.py: {fault}")
