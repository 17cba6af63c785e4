"""Optional and critical elements in every gap of a model that has all nine containers."""
from build import *

CONTAINERS = {NODE, VALUE_EDGE, PATTERN_EDGE, CONSTRAINT, OPTION, CALL, ARGUMENT, SYMBOL}  # and the model itself


def read_number(data, at):
    size = {253: 2, 254: 4, 255: 8}.get(data[at], 0)
    return (int.from_bytes(data[at + 1 : at + 1 + size], "big"), at + 1 + size) if size else (data[at], at + 1)


def parts(data):
    """The elements in data, as (type, inside)."""
    at = 0
    while at < len(data):
        typ, at = read_number(data, at)
        size, at = read_number(data, at)
        yield typ, data[at : at + size]
        at += size


def put_in(inside, spare):
    """Each of the byte strings that inside becomes with spare in one of its gaps, at any depth."""
    elements = list(parts(inside))
    written = [element(*e) for e in elements]
    for i in range(len(written) + 1):
        yield concat(*written[:i], spare, *written[i:])
    for i, (typ, deeper) in enumerate(elements):
        if typ in CONTAINERS:
            for changed in put_in(deeper, spare):
                yield concat(*written[:i], element(typ, changed), *written[i + 1 :])


def put_everywhere(inside, spare):
    """inside with spare in all of its gaps, those of the containers in it too."""
    written = [element(typ, put_everywhere(deeper, spare) if typ in CONTAINERS else deeper) for typ, deeper in parts(inside)]
    return concat(spare, *(concat(e, spare) for e in written))


# /v/w matches Node 2 with Tag 1 bound to w: 2 bytes of the name, then /v in 3 bytes, then /w. Its own key signs it. Each Node has one edge.
FULL = model(
    node(0, rule_name("#start"), value_edge(1, "v")),
    node(
        1,
        parent(0),
        pattern_edge(2, 1, constraint(option(tag(2)), option(call("$eq", value("w")))), constraint(option(call("$eq_type", value("z"))))),
    ),
    node(2, parent(1), rule_name("#end"), signer(2)),
    patterns=1,
    behind=symbol(1, "part"),
)
PACKET = path("/v/w")
OPTIONAL = ["8000", "20020000", "fd010003ffffff", "fefffffffe00"]
CRITICAL = ["8100", "1e00", "0100", "fd0101020800", "fe0001000100"]
KNOWN = [faulty(element(typ)) for typ in (NAME, GENERIC)]  # types 7 and 8 are no types of a model


def answered(what, of):
    yield what, verdict(of), "accepted 3"
    yield what, match(of, PACKET, OLD), matched(2, (1, 5, 3))
    yield what, sign(of, PACKET, PACKET), allowed(2, 2, 0, 0, 0, 0, packet=[(1, 5, 3)])


def malformed(what, of):
    yield what, verdict(of), refused_at(of)
    yield what, match(of, PACKET, OLD), kept(refused_at(of))
    yield what, sign(of, PACKET, PACKET), both_kept(refused_at(of))


def cases():
    yield from answered("no optional element", FULL)
    gaps = len(list(put_in(FULL, b"")))
    for i in range(gaps):
        # one type for each gap, in turn, so that each container meets several
        spare = bytes.fromhex(OPTIONAL[i % len(OPTIONAL)])
        yield from answered(f"{spare.hex()} in gap {i}", list(put_in(FULL, spare))[i])
        spare = faulty(bytes.fromhex(CRITICAL[i % len(CRITICAL)]))
        yield from malformed(f"{spare.hex()} in gap {i}", list(put_in(FULL, spare))[i])
    for spare in OPTIONAL:
        yield from answered(f"{spare} in every gap", put_everywhere(FULL, bytes.fromhex(spare)))
    yield from answered("two in every gap", put_everywhere(FULL, bytes.fromhex("80002200")))
    for spare in CRITICAL:
        yield from malformed(f"{spare} in every gap", put_everywhere(FULL, faulty(bytes.fromhex(spare))))
    for spare in KNOWN:
        for i, of in enumerate(put_in(FULL, spare)):
            yield f"{spare.hex()} in gap {i}", verdict(of), refused_at(of)
    # a critical element within an optional one's inside is not read
    yield from answered("an optional element around a critical one", put_everywhere(FULL, bytes.fromhex("80028100")))
