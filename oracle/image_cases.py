#!/usr/bin/env python3
"""Write the list of images that the program cases replays.

    python3 oracle/image_cases.py

writes the first list of crates/cases/stdin, and into stdout what the program
must print of it, and tells how many cases of each sort there are. The expected answers
come from refusals.py, a second reading of documents 01 and 02 that shares
nothing with the library.

A case is a tag, what the tag says, and the expected answer; numbers are
big-endian:

    I  a whole image: its length in 4 bytes, then its bytes
    E  the last whole image with one byte changed: place in 2 bytes, value
    T  the beginning of the last whole image: its length in 2 bytes

An answer is a byte that counts its numbers, then each number in 4 bytes:
document 01's number, 0 for an accepted image, and then F, N and M of an
accepted image or the place of 4 and 5.

The list holds, in this order:

- the graphs B, C and A of document 01;
- A with every byte changed to every other value, cut behind every byte, and
  cut behind every byte of its records with the length in its header put right;
- images of 0 to 12 bytes: zeros, the beginning of A, and both again with the
  right length in the header where there is room for it;
- headers with counts at and beside their bounds;
- a graph with every kind of node in two files: each of its nodes, and the
  number behind the last, as the attached scope of a push-scoped node, and each
  pair of them as the ends of an edge;
- the largest accepted image (63,475 bytes, nearly all of its nodes
  push-scoped) and one of 2,048 nodes of every kind in 256 files and 4,096
  edges, each with single bytes changed at random places and in its records;
- images of 63,499 and 63,500 bytes whose headers claim just that, with a fault
  in the last record: only the shorter one is read that far;
- small random graphs with single bytes changed;
- small random graphs with one fault or two out of FAULTS;
- of version 2 (document 02, order 3): B, C and A; a graph with each kind of
  record that has a symbol, with every byte changed to every other value and cut
  behind every byte as A is above; the attached scopes and ends of edges as
  above; random graphs with single bytes changed and with faults, their symbols
  about the bounds of both widths and apart in the high half alone;
- the same bytes under other versions, and random graphs of either version that
  claim the other;
- images of 63,498 and 63,499 bytes in version 1, of 65,535 and 65,536 in version
  2, the last an accepted one; of 63,500, 65,536 and 65,537 bytes in every version.

All draws are seeded.
"""

import collections
import random

from images import (BOUND_SYMBOLS, DROP_SCOPES, GRAPH_A, GRAPH_B, GRAPH_C, NARROW,
                    POP, POP_SCOPED, PUSH, PUSH_SCOPED, REMOVED, ROOT_AND_JUMP,
                    SCOPE, WIDE, Edge, Graph, Node, full_graph, image, random_graph)
from refusals import FIRST_RECORD, LONGEST, LONGEST_OF_ALL, checked
from stored_lists import write_list

FILES_AT, NODES_AT, EDGES_AT = 5, 7, 9
NO_VERSION = 3
# What a push-scoped record counts in either version, and the other ones with a symbol.
SCOPED_COUNTS, SYMBOL_COUNTS = (10, 14), (8, 12)
LEAST, GREATEST = -(2**31), 2**31 - 1


# The one kind of case, and its name in what is printed.
IMAGES = "I"
NAMES = {IMAGES: "images"}


class CaseList:
    """The cases so far, and how many there are by tag and by number."""

    def __init__(self):
        self.written = bytearray()
        self.last = b""
        self.latest = 0, "", []
        self.tags = collections.Counter()
        self.numbers = collections.Counter()
        self.places = {4: set(), 5: set()}

    def sums(self):
        """How many cases there are."""
        return {IMAGES: sum(self.tags.values())}

    def _add(self, tag, told, data):
        """One case, with the answer that the second reading gives."""
        answer = checked(data)
        self.latest = len(self.written), IMAGES, answer
        self.written += tag + told + bytes([len(answer)])
        for number in answer:
            self.written += number.to_bytes(4, "big")
        self.tags[tag.decode()] += 1
        self.numbers[answer[0]] += 1
        if answer[0] in self.places:
            self.places[answer[0]].add(answer[1])

    def whole(self, data):
        """A whole image."""
        self.last = bytes(data)
        self._add(b"I", len(data).to_bytes(4, "big") + self.last, self.last)

    def changed(self, at, value):
        """The last whole image with another value at a place."""
        if self.last[at] == value:
            return
        data = bytearray(self.last)
        data[at] = value
        self._add(b"E", at.to_bytes(2, "big") + bytes([value]), bytes(data))

    def cut(self, length):
        """The beginning of the last whole image."""
        self._add(b"T", length.to_bytes(2, "big"), self.last[:length])


def put(data, at, size, number):
    """Overwrite a number, if the data reach that far."""
    if at + size <= len(data):
        data[at:at + size] = number.to_bytes(size, "big")


def sized(data):
    """The same bytes with the right length in the header."""
    data = bytearray(data)
    put(data, 1, 4, max(len(data) - 5, 0))
    return data


def record_places(data):
    """The places of the records of an accepted image: nodes, edges."""
    places, at = [], FIRST_RECORD
    while at < len(data):
        places.append(at)
        at += data[at] + 1
    nodes = int.from_bytes(data[NODES_AT:NODES_AT + 2], "big")
    return places[:nodes], places[nodes:]


def add_small_graphs(cases):
    """A, B and C; all that can befall one byte of A; A cut anywhere."""
    cases.whole(image(GRAPH_B))
    cases.whole(image(GRAPH_C))
    cases.whole(image(GRAPH_A))
    add_every_change(cases)


def add_every_change(cases):
    """Every byte of the last whole image changed, and the image cut anywhere."""
    first = cases.last
    for at in range(len(first)):
        for value in range(256):
            cases.changed(at, value)
    for length in range(len(first) + 1):
        cases.cut(length)
    for length in range(FIRST_RECORD, len(first)):
        cases.whole(sized(first[:length]))


def add_short_images(cases):
    """0 to 12 bytes."""
    for size in range(13):
        for data in (bytes(size), image(GRAPH_A)[:size]):
            cases.whole(data)
            cases.whole(sized(data))


def add_counts(cases):
    """Counts at and beside their bounds, in an image without edges."""
    nodes = ROOT_AND_JUMP + [Node(SCOPE, 0, flag=True)]
    for at, numbers in ((FILES_AT, (0, 1, 2, 256, 257, 65_535)),
                        (NODES_AT, (0, 1, 2, 3, 4, 2_048, 2_049, 65_535)),
                        (EDGES_AT, (0, 1, 4_096, 4_097, 65_535))):
        for number in numbers:
            data = bytearray(image(Graph(1, nodes, [])))
            put(data, at, 2, number)
            cases.whole(data)


def kinds_graph(edges):
    """Every kind of node in two files, scopes and flags of both sorts.

    Each byte of the symbols would pass as a set flag.
    """
    symbol = 0x01010101
    nodes = ROOT_AND_JUMP + [Node(REMOVED)]
    for file in (0, 1):
        scope = len(nodes)
        nodes += [Node(SCOPE, file, flag=True), Node(SCOPE, file),
                  Node(PUSH, file, symbol, flag=True), Node(POP, file, symbol),
                  Node(PUSH_SCOPED, file, symbol, scope, True),
                  Node(POP_SCOPED, file, symbol, flag=True), Node(DROP_SCOPES, file)]
    return Graph(2, nodes, edges)


def scope_at(data, at):
    """Where the attached scope of a push-scoped record stands: in front of the flag."""
    return at + data[at] - 2


def add_attached_scopes(cases, version=NARROW):
    """Every number as the attached scope of a node in either file."""
    cases.whole(image(kinds_graph([]), version))
    nodes, _ = record_places(cases.last)
    for at in nodes:
        if cases.last[at + 1] == PUSH_SCOPED:
            cases.changed(scope_at(cases.last, at), 1)
            for scope in range(len(nodes) + 1):
                cases.changed(scope_at(cases.last, at) + 1, scope)


def add_ends(cases, version=NARROW):
    """Every pair of numbers as the ends of an edge."""
    count = len(kinds_graph([]).nodes)
    for source in range(count + 1):
        cases.whole(image(kinds_graph([None, Edge(source, 0)]), version))
        _, edges = record_places(cases.last)
        cases.changed(edges[1] + 2, 1)
        cases.changed(edges[1] + 4, 1)
        for target in range(1, count + 1):
            cases.changed(edges[1] + 5, target)


def random_precedence(rng):
    """Any precedence, the extremes often."""
    return rng.choice((LEAST, -1, 0, GREATEST, rng.randint(LEAST, GREATEST)))


def largest_graph(rng):
    """The most bytes that an accepted image can have.

    Push-scoped records are the longest, and one exported scope serves them all.
    """
    nodes = ROOT_AND_JUMP + [Node(SCOPE, 0, flag=True)]
    while len(nodes) < 2_048:
        nodes.append(Node(PUSH_SCOPED, 0, rng.getrandbits(32), 2, rng.random() < 0.5))
    sources = [0] + list(range(2, 2_048))
    edges = [Edge(rng.choice(sources), rng.randrange(2_048), random_precedence(rng))
             for _ in range(4_096)]
    return Graph(1, nodes, edges)


def mixed_graph(rng):
    """2,048 nodes of every kind in 256 files, 4,096 edges, some removed.

    Node 2 + f is an exported scope of file f, so every file has one.
    """
    kinds = (REMOVED, SCOPE, PUSH, POP, PUSH_SCOPED, POP_SCOPED, DROP_SCOPES)
    nodes = ROOT_AND_JUMP + [Node(SCOPE, file, flag=True) for file in range(256)]
    while len(nodes) < 2_048:
        file = rng.randrange(256)
        nodes.append(Node(rng.choice(kinds), file, rng.getrandbits(32), 2 + file,
                          rng.random() < 0.5))
    by_file = collections.defaultdict(list)
    for number, node in enumerate(nodes):
        if node.kind >= SCOPE:
            by_file[node.file].append(number)
    return Graph(256, nodes, [mixed_edge(rng, by_file) for _ in range(4_096)])


def mixed_edge(rng, by_file):
    """An edge within a file, from or to root, to jump, or a removed one."""
    numbers = by_file[rng.randrange(256)]
    source, target = rng.choice(numbers), rng.choice(numbers)
    ends = rng.choice(((source, target), (source, target), (source, target),
                       (source, 0), (0, target), (source, 1), (0, 1), None))
    return ends and Edge(*ends, random_precedence(rng))


def add_changes(cases, rng, count):
    """Single bytes of the last whole image changed.

    Half of them at any place, the others in the first bytes of a record, where
    counts, kinds, files and edge ends stand. Small values are the likelier.
    """
    data = cases.last
    nodes, edges = record_places(data)
    for _ in range(count):
        at = rng.randrange(len(data))
        if rng.random() < 0.5:
            place = rng.choice(nodes + edges)
            at = min(place + rng.randrange(data[place] + 1), len(data) - 1)
        cases.changed(at, rng.choice((rng.randrange(4), rng.randrange(12),
                                      rng.randrange(256), data[at] ^ 1)))


def add_large_images(cases, rng):
    """The largest accepted image, one of every kind, and the bound on bytes."""
    for graph in (mixed_graph(rng), largest_graph(rng)):
        cases.whole(image(graph))
        add_changes(cases, rng, 150)
        for length in (FIRST_RECORD, len(cases.last) // 2, len(cases.last) - 1):
            cases.cut(length)
    _, edges = record_places(cases.last)
    add_longest(cases, bytearray(cases.last), edges[-1])


def add_longest(cases, data, last_edge):
    """63,499 and 63,500 bytes. The last record has no known kind.

    The image is stored once, a byte too long and with the header of the
    shorter one: cut by that byte it is refused for its last record, and with
    the header of the longer one it is refused for its size.
    """
    data[last_edge + 1] = 2
    data += bytes(LONGEST + 1 - len(data))
    data[last_edge] = LONGEST - last_edge - 1
    put(data, 1, 4, LONGEST - 5)
    cases.whole(data)
    cases.cut(LONGEST)
    cases.cut(LONGEST - 1)
    cases.changed(4, data[4] + 1)
    cases.changed(0, 2)


def fault_version(rng, data, nodes, edges):
    """Another version."""
    data[0] = rng.choice((0, 2, 3, 255))


def fault_length(rng, data, nodes, edges):
    """Another length in the header."""
    put(data, 1, 4, rng.choice((0, len(data), len(data) - 4, len(data) - 6, 2**32 - 1)))


def fault_bound(rng, data, nodes, edges):
    """A count in the header that is out of bounds."""
    at, number = rng.choice(((FILES_AT, 257), (FILES_AT, 65_535), (NODES_AT, 0), (NODES_AT, 1),
                             (NODES_AT, 2_049), (EDGES_AT, 4_097), (EDGES_AT, 65_535)))
    put(data, at, 2, number)


def fault_counts(rng, data, nodes, edges):
    """A count in the header that is one off."""
    at = rng.choice((FILES_AT, NODES_AT, EDGES_AT))
    number = int.from_bytes(data[at:at + 2], "big")
    put(data, at, 2, max(number + rng.choice((-1, 1)), 0))


def fault_record_count(rng, data, nodes, edges):
    """The count of a record."""
    at = rng.choice(nodes + edges)
    put(data, at, 1, rng.choice((0, data[at] - 1, data[at] + 1, 255, rng.randrange(12))))


def fault_kind(rng, data, nodes, edges):
    """The kind of a record, its count unchanged."""
    put(data, rng.choice(nodes + edges) + 1, 1, rng.randrange(11))


def fault_same_size_kind(rng, data, nodes, edges):
    """A kind that has the same count: root and jump elsewhere, push and pop."""
    at = rng.choice(nodes)
    with_symbol = {count: (PUSH, POP, POP_SCOPED) for count in SYMBOL_COUNTS}
    alike = {1: (0, 1, 2), **with_symbol}.get(data[at], (data[at + 1],))
    put(data, at + 1, 1, rng.choice(alike))


def fault_file(rng, data, nodes, edges):
    """The file of a node."""
    at = rng.choice([at for at in nodes if data[at] > 1] or nodes)
    files = int.from_bytes(data[FILES_AT:FILES_AT + 2], "big")
    put(data, at + 2, 2, rng.choice((0, max(files - 1, 0), files, 255, 65_535)))


def fault_flag(rng, data, nodes, edges):
    """The last byte of a node, which is its flag but in drop-scopes."""
    at = rng.choice([at for at in nodes if data[at] > 1] or nodes)
    put(data, at + data[at], 1, rng.choice((0, 1, 2, 255)))


def fault_scope(rng, data, nodes, edges):
    """The attached scope of a push-scoped node, if there is one."""
    at = rng.choice([at for at in nodes if data[at] in SCOPED_COUNTS] or nodes)
    if data[at] in SCOPED_COUNTS:
        put(data, scope_at(data, at), 2,
            rng.choice((0, 1, rng.randrange(len(nodes)), len(nodes), 65_535)))


def fault_end(rng, data, nodes, edges):
    """An end of a live edge, if there is one."""
    at = rng.choice([at for at in edges if data[at] == 9] or nodes)
    if data[at] == 9:
        end = rng.choice((0, 1, rng.randrange(len(nodes)), len(nodes), 65_535))
        put(data, at + rng.choice((2, 4)), 2, end)


def fault_left_over(rng, data, nodes, edges):
    """Bytes behind the last record."""
    data += bytes(rng.randrange(256) for _ in range(rng.randint(1, 12)))
    data[:] = sized(data)


def fault_cut(rng, data, nodes, edges):
    """Bytes missing at the end, with the right length."""
    del data[max(len(data) - rng.randint(1, 24), FIRST_RECORD):]
    data[:] = sized(data)


def extent(data, at):
    """A record's bytes; none where an earlier fault has cut the data before it."""
    return slice(at, at + data[at] + 1 if at < len(data) else at)


def fault_removed(rng, data, nodes, edges):
    """A node removed, whatever names it."""
    at = rng.choice(nodes[2:] or nodes)
    data[extent(data, at)] = bytes([1, REMOVED])
    data[:] = sized(data)


def fault_missing(rng, data, nodes, edges):
    """A record left out."""
    at = rng.choice(nodes + edges)
    del data[extent(data, at)]
    data[:] = sized(data)


def fault_doubled(rng, data, nodes, edges):
    """A record twice."""
    at = rng.choice(nodes + edges)
    data[at:at] = data[extent(data, at)]
    data[:] = sized(data)


# The later ones move records, so of two faults the earlier in this list is
# made first.
FAULTS = (fault_version, fault_length, fault_bound, fault_counts, fault_record_count,
          fault_kind, fault_same_size_kind, fault_file, fault_flag, fault_scope,
          fault_end, fault_left_over, fault_cut, fault_removed, fault_missing,
          fault_doubled)
# A fault in the header hides every other one, so those are drawn less often.
WEIGHTS = (1, 1, 2, 3, 4, 4, 4, 5, 5, 6, 8, 3, 3, 5, 3, 3)


def small_graph(rng):
    """A random graph that takes about a hundred bytes."""
    return random_graph(rng, max_nodes=11, max_edges=7)


def small_image(rng):
    """Its image."""
    return image(small_graph(rng))


def small_wide_image(rng):
    """The image of a random graph in version 2, with any symbols."""
    graph = small_graph(rng)
    names = {symbol: rng.choice(BOUND_SYMBOLS) for symbol in graph.symbols()}
    return image(graph.renamed(names), WIDE)


def add_random_changes(cases, rng, graphs, changes, draw=small_image):
    """Random graphs with single bytes changed."""
    for _ in range(graphs):
        cases.whole(draw(rng))
        add_changes(cases, rng, changes)


def add_random_faults(cases, rng, count, draw=small_image):
    """Random graphs with a fault or two."""
    for number in range(count):
        data = bytearray(draw(rng))
        nodes, edges = record_places(data)
        drawn = set(rng.choices(FAULTS, WEIGHTS, k=1 + number % 2))
        for fault in sorted(drawn, key=FAULTS.index):
            fault(rng, data, nodes, edges)
        cases.whole(data)


# A scope, a scoped push that attaches it, a pop, and an edge; every byte of a
# symbol differs, so that one that stands elsewhere shows.
WIDE_RECORDS = Graph(1, ROOT_AND_JUMP + [
    Node(SCOPE, flag=True), Node(PUSH_SCOPED, 0, 0x0102030405060708, 2, True),
    Node(POP, 0, 0x1112131415161718, flag=True)], [Edge(3, 2, -1)])


def add_small_wide_graphs(cases):
    """Version 2: all that can befall one byte, and what records name."""
    for graph in (GRAPH_B, GRAPH_C, GRAPH_A, WIDE_RECORDS):
        cases.whole(image(graph, WIDE))
    add_every_change(cases)
    add_attached_scopes(cases, WIDE)
    add_ends(cases, WIDE)


def add_other_versions(cases, rng, graphs):
    """Images that claim another version than theirs."""
    for _ in range(graphs):
        for data, version in ((small_image(rng), WIDE), (small_wide_image(rng), NARROW)):
            cases.whole(data)
            for claimed in (0, version, NO_VERSION, 255):
                cases.changed(0, claimed)


def zeros(version, size):
    """So many bytes with the length that is theirs: refused by 3 if they are read."""
    return sized(bytes([version]) + bytes(size - 1))


def add_sizes(cases):
    """Sizes about the bounds of both versions, each under every version.

    An image that is a byte longer than its header says stands for two sizes:
    cut by that byte, and with the longer length put in.
    """
    for version, size in ((NARROW, LONGEST - 1), (WIDE, LONGEST_OF_ALL - 1)):
        data = zeros(version, size)
        cases.whole(data + bytes(1))
        cases.cut(size)
        cases.changed(4, data[4] + 1)
    for size in (LONGEST + 1, LONGEST_OF_ALL + 1):
        cases.whole(zeros(WIDE, size))
        add_claims(cases)


def add_claims(cases):
    """The last whole image under other versions."""
    for version in (0, NARROW, NO_VERSION, 255):
        cases.changed(0, version)


def add_longest_wide(cases, rng):
    """The longest accepted image, other versions of it, and single bytes changed."""
    cases.whole(image(full_graph(LONGEST_OF_ALL), WIDE))
    add_claims(cases)
    add_changes(cases, rng, 100)
    for length in (FIRST_RECORD, LONGEST, LONGEST_OF_ALL - 1):
        cases.cut(length)


def add_version_2(cases):
    """What document 02, order 3, has added."""
    add_small_wide_graphs(cases)
    add_sizes(cases)
    add_longest_wide(cases, random.Random(4))
    add_other_versions(cases, random.Random(5), graphs=30)
    add_random_changes(cases, random.Random(6), graphs=40, changes=20, draw=small_wide_image)
    add_random_faults(cases, random.Random(7), count=300, draw=small_wide_image)


def main():
    """Write the list."""
    cases = CaseList()
    add_small_graphs(cases)
    add_short_images(cases)
    add_counts(cases)
    add_attached_scopes(cases)
    add_ends(cases)
    add_large_images(cases, random.Random(1))
    add_random_changes(cases, random.Random(2), graphs=100, changes=20)
    add_random_faults(cases, random.Random(3), count=500)
    add_version_2(cases)
    count = sum(cases.tags.values())
    write_list("images", cases, NAMES)
    print(f"{count} cases in {len(cases.written)} bytes")
    print("by tag:", dict(sorted(cases.tags.items())))
    print("by number:", dict(sorted(cases.numbers.items())))
    print("places:", {number: len(places) for number, places in cases.places.items()})


if __name__ == "__main__":
    main()
