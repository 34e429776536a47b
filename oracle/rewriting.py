#!/usr/bin/env python3
"""The two rewritings of an image, a second time from document 02, order 3.

    widened(image, room)     from version 1 to version 2
    narrowed(image, room)    from version 2 to version 1

answer the numbers and the bytes of a lent area that has so many bytes: 0 and
the length, the rewritten image with zeros behind it; or the refusal, and zeros
alone. An image is taken apart into a graph and put together again, so nothing
here copies bytes from one image to the other.

`python3 oracle/rewriting.py --selftest` tries what the order says of them on
drawn graphs: each undoes the other byte for byte, the way back succeeds exactly
when every symbol fits 32 bits, the refusals stand in their order. No oracle is
asked, as the Rust has no images.
"""

import argparse
import random

from images import (BOUND_SYMBOLS, DROP_SCOPES, GRAPH_A, NARROW, PUSH_SCOPED,
                    REMOVED, SCOPE, SYMBOL_BYTES, WIDE, WITH_SYMBOL, Edge, Graph,
                    Node, full_graph, image, node_record, random_graph)
from refusals import (FIRST_RECORD, LONGEST, LONGEST_OF_ALL, Refused, check,
                      checked, number)

NO_ROOM, WIDE_SYMBOL = 32, 38
MOST_BYTES = {NARROW: LONGEST, WIDE: LONGEST_OF_ALL}


class Fields:
    """The fields of a record, read one behind the other."""

    def __init__(self, record):
        self.record, self.at = record, 0

    def take(self, size):
        """The next number."""
        self.at += size
        return number(self.record, self.at - size, size)


def node_of(record, version):
    """A node by its record without the count byte."""
    fields = Fields(record)
    kind = fields.take(1)
    if kind < SCOPE:
        return Node(kind)
    file = fields.take(2)
    symbol = fields.take(SYMBOL_BYTES[version]) if kind in WITH_SYMBOL else 0
    scope = fields.take(2) if kind == PUSH_SCOPED else 0
    flag = kind != DROP_SCOPES and bool(fields.take(1))
    return Node(kind, file, symbol, scope, flag)


def edge_of(record):
    """An edge by its record without the count byte; None for a removed one."""
    fields = Fields(record)
    if fields.take(1) == REMOVED:
        return None
    source, target, precedence = fields.take(2), fields.take(2), fields.take(4)
    return Edge(source, target, precedence - 2**32 if precedence >= 2**31 else precedence)


def decoded(data):
    """The graph of an accepted image."""
    files, nodes, edges = (number(data, at, 2) for at in (5, 7, 9))
    records, at = [], FIRST_RECORD
    for _ in range(nodes + edges):
        records.append(data[at + 1:at + 1 + data[at]])
        at += 1 + data[at]
    return Graph(files, [node_of(record, data[0]) for record in records[:nodes]],
                 [edge_of(record) for record in records[nodes:]])


def check_symbols(graph):
    """38 with the place of the first record whose symbol does not fit."""
    at = FIRST_RECORD
    for node in graph.nodes:
        if node.symbol >= 2 ** (8 * SYMBOL_BYTES[NARROW]):
            raise Refused(WIDE_SYMBOL, at)
        at += len(node_record(node, WIDE))


def rewritten(data, version, wanted, room):
    """The image in the wanted version; else Refused."""
    check(data, (version,))
    graph = decoded(data)
    if wanted == NARROW:
        check_symbols(graph)
    result = image(graph, wanted)
    if len(result) > MOST_BYTES[wanted]:
        raise Refused(2)
    if len(result) > room:
        raise Refused(NO_ROOM)
    return result


def told(data, version, wanted, room):
    """The numbers of the answer, and the area."""
    try:
        result = rewritten(data, version, wanted, room)
    except Refused as refusal:
        return refusal.told, bytes(room)
    return [0, len(result)], result + bytes(room - len(result))


def widened(data, room):
    """From version 1 to version 2."""
    return told(data, NARROW, WIDE, room)


def narrowed(data, room):
    """From version 2 to version 1."""
    return told(data, WIDE, NARROW, room)


def drawn_graph(rng):
    """A random graph with symbols about the bounds, half of the time with fitting ones."""
    graph = random_graph(rng, max_nodes=11, max_edges=7, symbols=3)
    fitting = [symbol for symbol in BOUND_SYMBOLS if symbol < 2**32]
    among = fitting if rng.random() < 0.5 else BOUND_SYMBOLS
    return graph.renamed({symbol: rng.choice(among) for symbol in graph.symbols()})


def test_undone(rng):
    """There and back, in areas that are exact, longer and one byte short."""
    graph = drawn_graph(rng)
    wide = image(graph, WIDE)
    fits = all(symbol < 2**32 for symbol in graph.symbols())
    numbers, area = narrowed(wide, len(wide))
    assert (numbers[0] == 0) == fits
    assert decoded(wide) == graph
    if not fits:
        assert numbers[0] == WIDE_SYMBOL and not any(area)
        assert decoded_symbol(wide, numbers[1]) >= 2**32
        return fits
    narrow = image(graph, NARROW)
    assert numbers == [0, len(narrow)] and area == narrow + bytes(len(wide) - len(narrow))
    assert widened(narrow, len(wide)) == ([0, len(wide)], wide)
    assert narrowed(wide, len(narrow)) == ([0, len(narrow)], narrow)
    assert widened(narrow, len(wide) - 1) == ([NO_ROOM], bytes(len(wide) - 1))
    assert narrowed(wide, len(narrow) - 1) == ([NO_ROOM], bytes(len(narrow) - 1))
    return fits


def decoded_symbol(wide, at):
    """The symbol of the record at a place of a version 2 image."""
    return number(wide, at + 4, SYMBOL_BYTES[WIDE])


def test_lengths():
    """The longest image of version 2, and one of version 1 that has none there."""
    longest = image(full_graph(LONGEST_OF_ALL), WIDE)
    assert len(longest) == LONGEST_OF_ALL and checked(longest)[0] == 0
    assert checked(image(full_graph(LONGEST_OF_ALL + 1), WIDE)) == [2]
    fitting = full_graph(LONGEST_OF_ALL)
    fitting = fitting.renamed({symbol: symbol >> 32 for symbol in fitting.symbols()})
    narrow = image(fitting, NARROW)
    assert widened(narrow, LONGEST_OF_ALL) == ([0, LONGEST_OF_ALL], image(fitting, WIDE))
    longer = full_graph(LONGEST_OF_ALL + 1)
    longer = image(longer.renamed({symbol: 7 for symbol in longer.symbols()}), NARROW)
    assert checked(longer)[0] == 0
    # too long for the version comes before too long for the area
    assert widened(longer, 0) == ([2], b"") and widened(longer, 99_999) == ([2], bytes(99_999))
    # back there is no bound to meet: no record with a symbol has more than 11 bytes
    assert FIRST_RECORD + 2_048 * 11 + 4_096 * 10 == LONGEST


def test_order():
    """Size and length, the version, its own bound, counts; then 38, 2 and 32."""
    narrow, wide = image(GRAPH_A, NARROW), image(GRAPH_A, WIDE)
    far = image(GRAPH_A.renamed({8: 2**32}), WIDE)
    few_nodes = bytes([0, 0, 0, 1, 0, 0])
    long_one = bytes([NARROW]) + (LONGEST - 4).to_bytes(4, "big") + bytes(LONGEST - 4)
    # root, jump, a push and a scope stand in front of the pop of 7 and that of 8
    place = FIRST_RECORD + 2 + 2 + 13 + 5 + 13
    for data, there, back in (
            (narrow, 0, 1), (wide, 1, 0), (far, 1, WIDE_SYMBOL),
            (b"", 2, 2), (narrow[:-1], 2, 2), (wide[:-1], 2, 2),
            (narrow[:5] + few_nodes, 2, 2),
            (bytes([NARROW, 0, 0, 0, 6]) + few_nodes, 3, 1),
            (bytes([WIDE, 0, 0, 0, 6]) + few_nodes, 1, 3),
            (bytes([3]) + narrow[1:], 1, 1), (bytes([WIDE]) + narrow[1:], 1, 2),
            (bytes([NARROW]) + wide[1:], 2, 1), (long_one, 2, 1)):
        assert widened(data, 99)[0][0] == there, (data[:12], there)
        assert narrowed(data, 99)[0][0] == back, (data[:12], back)
    assert narrowed(far, 0) == ([WIDE_SYMBOL, place], b"")
    assert narrowed(wide, 0) == ([NO_ROOM], b"")


def main():
    """Run the self-test."""
    parser = argparse.ArgumentParser(description=__doc__.splitlines()[0])
    parser.add_argument("--selftest", action="store_true", required=True)
    parser.parse_args()
    rng, count = random.Random(1), 3_000
    fitting = sum(test_undone(rng) for _ in range(count))
    test_lengths()
    test_order()
    print(f"{count} drawn graphs, of which {fitting} can be rewritten back, are as the order says")


if __name__ == "__main__":
    main()
