#!/usr/bin/env python3
"""Write the list of searches that the program cases replays.

    python3 oracle/search_cases.py [--oracle PROGRAM]

writes the third list of crates/cases/stdin, and into stdout what the program
must print of it, and tells how many cases of each sort there are. The expected answers
are those of searches.py, a second reading of document 01. On each accepted
image every request is also put to the oracle, that is to the given Rust, which
must answer as searches.py does without the bound of 63 edges and without
areas; where the bound and the areas refuse nothing, that is the expected
answer itself. What the Rust lacks, 30, 31, 32 and every word of the areas,
comes from searches.py and document 01 alone; the refusals 1 to 5 of an image
come from refusals.py. 36 is not tried: the 16,777,217th expansion takes too
long.

A case is a tag and what the tag says; numbers are big-endian:

    I  an image: its length in 4 bytes, then its bytes
    D  a direct search, its returned paths
    d  a direct search, its recorded paths
    L  a linear search, its returned paths
    l  a linear search, its recorded paths

The searches behind an image, up to the next one, are asked of it. Of a search
there follow: the reference in 4 bytes; the order, b or d; the limits on length,
path count and complete paths, each 0 for none or 1, and 8 bytes; the word in 4
bytes that the areas are filled with before the call; how many words the work
area has and how many the result area has, 4 bytes each; the answer. A linear
search has no order and no work area: its bytes for them are b and 0.

An answer is a count in 2 bytes and as many numbers of 4 bytes: document 01's
number, 0 where nothing is refused, then

- behind a refusal its values;
- behind 0 the number of paths, and how many were expanded, were complete, were
  rejected and were cut as cycles, each as two numbers, the high one first; the
  flags of the limits on length, path count and complete paths, 1 or 0; how many
  paths ever waited together, of which the Rust knows nothing;
- in either case each word of the result area after the call that is not 0, as
  its place and the word, and the length of the area; and the same of the work
  area, in direct search.

The list holds, in this order:

- the graphs A, B and C of document 01, with a second loop on C as well: every
  node, and numbers behind the last, as a reference; the starred searches and
  every limit by itself, in both orders, returned and recorded; limits together;
- damaged images of A, one or more for each refusal 1 to 5, also with a
  reference that would be refused and without areas;
- areas with as many slots as the search needs, one more, one less, and none,
  with some words behind the last whole slot or one too few for another;
- paths of 62 to 66 edges with an end, another edge, an edge that would be
  rejected, or an edge of the path behind the last one, about the bound and about
  length limits there; two such paths, one of which shadows the other;
- more paths than 128 slots hold;
- edges of different precedences, the least and the greatest among them, and
  edges into jump beside them;
- graphs with every kind of node, several jumps and dropped scopes on a path;
- a graph of 2,048 nodes and 4,096 edges in 256 files;
- random graphs, with random references, limits and areas;
- a scope that is passed twice, where an edge that is on the path already stands
  before or behind the one that goes on: linear search takes no cycle cut for
  the first edge of a node, nor for the second;
- A, B, C and the graph with every kind of node in version 2 (document 02, order
  3), with symbols that differ in their high halves alone, and in their low ones.

All draws are seeded.
"""

import argparse
import collections
import itertools
import random

from image_cases import mixed_graph
from images import (FAR_APART, GRAPH_A, GRAPH_B, GRAPH_C, HIGH_ALIKE, NARROW,
                    POP, PROGRAM, PUSH, ROOT_AND_JUMP, SCOPE, WIDE, Edge, Graph,
                    Node, Oracle, fields, image, random_graph)
from path_cases import (BESIDE_JUMPS, CHAINS, GREATEST, LAST, LEAST,
                        PRECEDENCES, RULES, damaged_images, error_told, listed,
                        longs)
from refusals import Refused, checked
from searches import MOST_EDGES, Request, searched
from stored_lists import MOST_NUMBERS, write_list

# As many words as the program lends for an area.
MOST_WORDS = 16_896
# A slot: the count and the edges.
SLOT = MOST_EDGES + 1
NAMES = {"D": "direct", "d": "direct recorded", "L": "linear", "l": "linear recorded"}
# The list is of little use if one of these numbers is not expected of a kind.
ALWAYS = {0, 1, 2, 3, 4, 5, 10, 11, 30, 32}
WANTED = {"D": ALWAYS | {31}, "d": ALWAYS | {31}, "L": ALWAYS | {20}, "l": ALWAYS | {20}}
# What the areas hold before a call: nothing, what would pass for edge counts, any word.
FILLS = (0, 1, 2, MOST_EDGES, SLOT, 2 * SLOT - 1, 0xA5A5A5A5, LAST)
# The Rust is asked without areas, so a search without limits must end by itself.
MANY = 2_000


def wide(number):
    """A number of 64 bits as two of 32."""
    return [number >> 32, number & LAST]


def limit_bytes(limit):
    """A limit as the program reads it."""
    return bytes([limit is not None]) + (limit or 0).to_bytes(8, "big")


def limit_word(limit):
    """A limit as the oracle reads it."""
    return "-" if limit is None else str(limit)


def area(paths, words):
    """Every word of a result area: count, edges and zeros of each slot, zeros behind."""
    slots = [[len(path), *path] + [0] * (MOST_EDGES - len(path)) for path in paths]
    used = [word for slot in slots for word in slot]
    return used + [0] * (words - len(used))


def area_told(words):
    """The words that are not 0 with their places, and the length."""
    told = [[place, word] for place, word in enumerate(words) if word != 0]
    return [number for pair in told for number in pair] + [len(words)]


def edge_lists(found, recorded):
    """The paths that a call hands back."""
    return [list(path.edges) for path in (found.recorded if recorded else found.returned())]


def rust_told(answer):
    """The oracle's answer: counts, flags and edge lists, or the refusal."""
    if not answer.startswith("ok"):
        return error_told(answer)
    found = fields(answer)
    counts = [int(found[name]) for name in ("exp", "comp", "rej", "cyc")]
    paths = [[int(edge) for edge in path.split(",")] for path in listed(found["paths"], ";")]
    return counts, [int(flag) for flag in found["fl"]], paths


def model_told(graph, request, recorded):
    """The same of searches.py, and how many paths ever waited together."""
    try:
        found = searched(graph, request)
    except Refused as refusal:
        return refusal.told
    return found.counts, found.flags, edge_lists(found, recorded), found.most_waiting


def as_rust(told):
    """Without how many waited, which the Rust does not count."""
    return told[:3] if isinstance(told, tuple) else told


class CaseList:
    """The cases so far, and how many there are by kind and number."""

    def __init__(self, oracle):
        self.oracle = oracle
        self.rng = random.Random(1)
        self.written = bytearray()
        self.latest = 0, "", []
        self.graph, self.checked = None, []
        self.numbers = {kind: collections.Counter() for kind in NAMES}
        self.flags, self.paths = collections.Counter(), collections.Counter()
        self.compared = self.longest = 0

    def sums(self):
        """How many cases there are by kind."""
        return {kind: sum(numbers.values()) for kind, numbers in self.numbers.items()}

    def load(self, graph, version=NARROW):
        """The image of a graph, which the oracle is given too."""
        self.image(image(graph, version))
        self.graph = graph
        self.oracle.load(graph, version)

    def image(self, data):
        """An image."""
        self.written += b"I" + longs([len(data)]) + data
        self.graph, self.checked = None, checked(data)

    def compare(self, kind, request):
        """The Rust and searches.py must agree where there are no bounds and areas."""
        limits = map(limit_word, (request.length, request.count, request.complete))
        asked = f"{kind} {request.reference} {request.order} {' '.join(limits)}"
        rust = rust_told(self.oracle.ask(asked))
        model = as_rust(model_told(self.graph, request.unbounded(), kind.islower()))
        if rust != model:
            raise ValueError(f"{self.graph} {asked}: {rust} by the Rust, {model} by searches.py")
        self.compared += 1

    def answer(self, kind, request, work, result):
        """The numbers of the answer and of the areas."""
        told, paths = self.checked, []
        if told[0] == 0:
            self.compare(kind, request)
            told = model_told(self.graph, request, kind.islower())
        if isinstance(told, tuple):
            counts, flags, paths, waited = told
            self.flags["".join(map(str, flags))] += 1
            self.paths[min(len(paths), 10)] += 1
            told = [0] + [half for count in [len(paths)] + counts for half in wide(count)] + flags
            told.append(waited)
        self.numbers[kind][told[0]] += 1
        areas = area_told(area(paths, result))
        return told + areas + ([] if request.linear else area_told([0] * work))

    def search(self, kind, reference, order="b", limits=(None, None, None),
               work=4 * SLOT, result=4 * SLOT):
        """One search; areas are given in words."""
        linear = kind in "Ll"
        if linear:
            order, work = "b", 0
        request = Request(reference, linear, order, *limits, work // SLOT, result // SLOT)
        answer = self.answer(kind, request, work, result)
        if max(work, result) > MOST_WORDS or len(answer) > MOST_NUMBERS:
            raise ValueError("the program has no room for this")
        self.latest = len(self.written), kind, answer
        self.written += (kind.encode() + longs([reference]) + order.encode()
                         + b"".join(map(limit_bytes, limits))
                         + longs([self.rng.choice(FILLS), work, result])
                         + len(answer).to_bytes(2, "big") + longs(answer))
        self.longest = max(self.longest, len(answer))

    def every(self, reference, limits=(None, None, None), **areas):
        """The four calls, direct ones in both orders."""
        for kind, order in (("D", "b"), ("D", "d"), ("d", "b"), ("d", "d"), ("L", "b"), ("l", "b")):
            self.search(kind, reference, order, limits, **areas)

    def some(self, reference, limits=(None, None, None), **areas):
        """Each search once, direct search in both orders, returned or recorded."""
        for kinds, order in (("Dd", "b"), ("Dd", "d"), ("Ll", "b")):
            self.search(self.rng.choice(kinds), reference, order, limits, **areas)


# C with a second loop of greater precedence: all of its recorded paths shadow one another.
TWO_LOOPS = Graph(1, GRAPH_C.nodes, [Edge(2, 0), Edge(0, 0), Edge(0, 0, 1), Edge(0, 3)])


def add_small_graphs(cases):
    """A, B and C: references, each limit alone, limits together."""
    together = list(itertools.product((None, 1, 2), (None, 2, 3, 5), (None, 0, 1, 3)))
    for graph in (GRAPH_A, GRAPH_B, GRAPH_C, TWO_LOOPS):
        cases.load(graph)
        large = {"work": 8 * SLOT, "result": 6 * SLOT}
        for reference in [*range(len(graph.nodes) + 1), 65_536 + 2, LAST]:
            cases.some(reference)
        cases.every(2, **large)
        for number in (0, 1, 2, 3, 7):
            cases.every(2, (number, None, None), **large)
            cases.every(2, (None, number, None), **large)
            cases.some(2, (None, None, number), **large)
        for limit in (2**32, 2**63, 2**64 - 1):
            cases.some(2, (limit, limit, limit), **large)
        for limits in cases.rng.sample(together, 12):
            cases.some(2, limits, **large)


def add_damaged_images(cases):
    """The image is refused before anything else is looked at."""
    for data in damaged_images():
        cases.image(data)
        for kind in NAMES:
            cases.search(kind, 2, "d", (0, 0, 0), work=cases.rng.choice((0, 1, 200)),
                         result=cases.rng.choice((0, 1, 300)))
        cases.some(LAST, work=0, result=0)


def add_areas(cases):
    """About as many slots as each search needs, and words that make no slot."""
    for graph, reference in ((GRAPH_A, 2), (GRAPH_B, 2), (GRAPH_C, 2), (TWO_LOOPS, 2),
                             (PRECEDENCES, 2), (SCOPED, 2), (TWICE_COMPLETE, 2)):
        cases.load(graph)
        for order in "bd":
            add_direct_areas(cases, reference, order)
        for result in (0, 1, SLOT - 1, SLOT, SLOT + 1, 2 * SLOT):
            cases.search("L", reference, result=result)
            cases.search("l", reference, limits=(None, None, 1), result=result)


def add_direct_areas(cases, reference, order):
    """31 and 32 about the slots that a search without limits takes."""
    found = searched(cases.graph, Request(reference, False, order))
    waiting, results = found.most_waiting, len(found.recorded)
    for work, result in itertools.product(around(waiting), around(results)):
        enough = work // SLOT >= waiting and result // SLOT >= results
        told = model_told(cases.graph, Request(reference, False, order, waiting=work // SLOT,
                                               results=result // SLOT), True)
        if enough != isinstance(told, tuple):
            raise ValueError(f"{waiting} waiting and {results} results: {told}")
        cases.search(cases.rng.choice("Dd"), reference, order, work=work, result=result)
    cases.search("D", reference, order, (None, 0, None), work=0, result=0)
    cases.search("D", reference, order, (None, None, 0), work=SLOT * waiting, result=0)
    cases.search("d", reference, order, (0, 0, 0), work=SLOT, result=0)


def around(slots):
    """Areas of so many slots and of one less, the least and the most words for each."""
    areas = [SLOT * slots, SLOT * (slots + 1) - 1, SLOT * slots - 1, SLOT * (slots - 1), 0]
    return sorted({words for words in areas if words >= 0})


# A reference with a scope, two ways to jump, and a definition behind each of its scopes.
SCOPED = Graph(1, ROOT_AND_JUMP + BESIDE_JUMPS.nodes[2:6]
               + [Node(POP, symbol=7, flag=True), Node(PUSH, symbol=7)],
               [Edge(2, 4, -1), Edge(4, 1), Edge(4, 1, 1), Edge(3, 7), Edge(3, 7, 2), Edge(7, 6)])
# Two complete edges of one node, and then two that are not: 32 comes before 31 and before 20.
TWICE_COMPLETE = Graph(1, ROOT_AND_JUMP + [
    Node(PUSH, symbol=7, flag=True), Node(SCOPE), Node(POP, symbol=7, flag=True)],
    [Edge(2, 4), Edge(2, 4), Edge(2, 3), Edge(2, 3, LEAST)])


def chain(count, tail, doubled=None):
    """A reference, so many edges in a row along scopes, and further nodes and edges.

    `tail` is given the number of the row's last node and answers nodes and
    edges. One edge may be doubled, with a greater precedence.
    """
    last = 2 + count
    nodes, edges = tail(last)
    row = [Edge(node, node + 1) for node in range(2, last)]
    if doubled is not None:
        row.insert(doubled, row[doubled]._replace(precedence=GREATEST))
    return Graph(1, ROOT_AND_JUMP + [Node(PUSH, symbol=7, flag=True)]
                 + [Node(SCOPE)] * count + nodes, row + edges)


def at_end(last):
    """A definition behind the row."""
    return [Node(POP, symbol=7, flag=True)], [Edge(last, last + 1)]


def at_two_ends(last):
    """Two definitions behind the row, and an edge on from the second."""
    return ([Node(POP, symbol=7, flag=True)] * 2,
            [Edge(last, last + 1), Edge(last, last + 2), Edge(last + 2, last)])


def at_other_symbol(last):
    """A definition of another symbol behind the row."""
    return [Node(POP, symbol=8, flag=True)], [Edge(last, last + 1)]


def at_beginning(last):
    """An edge back to the second node of the row: what follows it is on the path already."""
    return [], [Edge(last, 3)]


def add_long_paths(cases):
    """30, and the length limits about it."""
    for count in range(MOST_EDGES - 2, MOST_EDGES + 2):
        cases.load(chain(count, at_end))
        for limit in (None, MOST_EDGES - 1, MOST_EDGES, MOST_EDGES + 1):
            cases.some(2, (limit, None, None), work=SLOT, result=SLOT)
        for limit in (MOST_EDGES, MOST_EDGES + 1, MOST_EDGES + 2):
            cases.some(2, (None, limit, None), work=SLOT, result=SLOT)
    for count, tail in ((MOST_EDGES - 1, at_two_ends), (MOST_EDGES, at_other_symbol),
                        (MOST_EDGES - 1, at_beginning), (MOST_EDGES, at_beginning)):
        cases.load(chain(count, tail))
        for limit in (None, MOST_EDGES, MOST_EDGES + 1):
            cases.some(2, (limit, None, None), work=2 * SLOT, result=2 * SLOT)
        cases.some(2, work=SLOT, result=0)
    cases.load(chain(MOST_EDGES - 1, at_end, doubled=30))
    for limits in ((None, None, None), (MOST_EDGES, None, None), (None, 95, None), (None, None, 1)):
        cases.every(2, limits, work=2 * SLOT + 5, result=3 * SLOT)


# Two references with 130 definitions; the paths of the first one differ in precedence.
FAN = Graph(1, ROOT_AND_JUMP + [Node(PUSH, symbol=7, flag=True)] * 2
            + [Node(POP, symbol=7, flag=True)] * 130,
            [Edge(reference, target, target % 3 if reference == 2 else 0)
             for reference in (2, 3) for target in range(4, 134)])


def add_wide_search(cases):
    """More paths than 128 slots hold."""
    cases.load(FAN)
    for work, result in ((128, 130), (129, 130), (130, 130), (132, 131), (130, 129), (130, 128)):
        for reference, kind, order in ((2, "D", "b"), (3, "D", "d"), (2, "d", "d")):
            cases.search(kind, reference, order, work=SLOT * work, result=SLOT * result)
    for limit in (127, 128, 129):
        cases.search("d", 2, "b", (None, None, limit), work=130 * SLOT, result=128 * SLOT)
    cases.search("L", 3, result=SLOT)


def add_precedences(cases):
    """What shadows what, and what was cut off before it could."""
    room = {"work": 20 * SLOT, "result": 20 * SLOT}
    for graph in (PRECEDENCES, BESIDE_JUMPS, TWO_LOOPS):
        cases.load(graph)
        for reference in graph.references():
            cases.every(reference, **room)
            for limit in range(1, 16):
                cases.search("D", reference, cases.rng.choice("bd"), (None, None, limit), **room)
                cases.search("D", reference, cases.rng.choice("bd"), (None, limit, None), **room)


def add_rules(cases):
    """Every kind of node; so many expansions that some paths are complete."""
    for graph, counts in ((RULES, (1, 5, 20, 60, 150)), (CHAINS, (1, 5, 20, 60))):
        cases.load(graph)
        for reference in range(len(graph.nodes)):
            cases.some(reference, (None, 20, None), work=40 * SLOT)
        for reference, count in itertools.product(graph.references(), counts):
            for limits in ((None, count, None), (5, count, None), (9, count, 2)):
                cases.some(reference, limits, work=100 * SLOT, result=20 * SLOT)


def add_large_graph(cases, rng):
    """As many nodes and edges as there may be."""
    graph = mixed_graph(rng)
    cases.load(graph)
    for reference in rng.sample(graph.references(), 12) + [0, 1, 2_047, 2_048]:
        cases.some(reference, (None, 60, None), work=60 * SLOT)


def any_limit(rng):
    """Absent, none, small, or very large."""
    return rng.choices((None, 0, rng.randint(1, 4), rng.randint(2, 12), rng.getrandbits(64)),
                       (60, 5, 20, 12, 3))[0]


def any_area(rng):
    """Mostly a few slots, seldom many, with words that make no slot behind them."""
    slots = rng.choices((0, rng.randint(1, 4), rng.randint(3, 12), 128), (4, 20, 40, 4))[0]
    return SLOT * slots + rng.choice((0, 0, 0, 1, SLOT - 1))


def any_reference(rng, graph):
    """Nearly always a reference with an edge."""
    good = [node for node in graph.references() if graph.outgoing(node)]
    if rng.random() < 0.97:
        return rng.choice(good)
    return rng.choice((rng.randrange(len(graph.nodes) + 1), rng.getrandbits(32)))


def any_count(rng, cases, reference):
    """A limit on the path count; never absent where the search would not end soon."""
    request = Request(reference, False, count=MANY).unbounded()
    told = model_told(cases.graph, request, True)
    if isinstance(told, tuple) and told[1][1] == 1:
        return rng.randint(0, 80)
    return any_limit(rng)


def add_random_graphs(cases, rng, graphs):
    """Random graphs with a reference that has an edge; often one that finds paths."""
    while graphs > 0:
        graph = random_graph(rng)
        good = [node for node in graph.references() if graph.outgoing(node)]
        if not good or not worth_while(rng, graph, good):
            continue
        cases.load(graph)
        graphs -= 1
        for kind in "DDDDDdddLLl":
            reference = any_reference(rng, graph)
            limits = (any_limit(rng), any_count(rng, cases, reference), any_limit(rng))
            cases.search(kind, reference, rng.choice("bd"), limits,
                         work=any_area(rng), result=any_area(rng))


def worth_while(rng, graph, references):
    """Whether a search of few expansions finds a path; seldom also where none does."""
    found = [searched(graph, Request(node, False, count=60)) for node in references]
    return any(each.recorded for each in found) or rng.random() < 0.1


# A reference, a scope with a way round over a push, and a way on over a pop to a definition.
ONCE_ROUND = Graph(1, ROOT_AND_JUMP + [
    Node(PUSH, symbol=7, flag=True), Node(SCOPE), Node(PUSH, symbol=8), Node(POP, symbol=8),
    Node(POP, symbol=7, flag=True)],
    [Edge(2, 3), Edge(3, 4), Edge(4, 3), Edge(3, 5), Edge(5, 6)])
# The same with the edge on before the edge round, and with a second one behind it.
ON_FIRST = ONCE_ROUND._replace(
    edges=[Edge(2, 3), Edge(3, 5), Edge(3, 4), Edge(4, 3), Edge(5, 6)])
ON_TWICE = ON_FIRST._replace(edges=ON_FIRST.edges + [Edge(3, 5)])


def add_passed_twice(cases):
    """A cycle cut is no edge that linear search appends, neither the first nor the second."""
    for graph, wanted in ((ONCE_ROUND, ([6, 1, 1, 1], [0, 0, 0], [[0, 1, 2, 3, 4]])),
                          (ON_FIRST, ([6, 1, 1, 1], [0, 0, 0], [[0, 2, 3, 1, 4]])),
                          (ON_TWICE, [20, 3])):
        if as_rust(model_told(graph, Request(2, True), False)) != wanted:
            raise ValueError(f"{graph}: not {wanted}")
        cases.load(graph)
        cases.every(2)
        for limit in (3, 4, 5):
            cases.some(2, (limit, None, None))
            cases.some(2, (None, limit, None))
        cases.search("L", 2, result=0)


def add_wide_symbols(cases):
    """Version 2, with symbols of 64 bits."""
    for names, graph in itertools.product((FAR_APART, HIGH_ALIKE),
                                          (GRAPH_A, GRAPH_B, GRAPH_C, ONCE_ROUND, RULES)):
        cases.load(graph.renamed(names), WIDE)
        for reference in graph.references():
            for limits in ((None, 60, None), (3, 60, None)):
                cases.some(reference, limits, work=100 * SLOT, result=20 * SLOT)


def write(cases):
    """The list, which must hold every refusal of each kind."""
    for kind, numbers in cases.numbers.items():
        if set(numbers) != WANTED[kind]:
            raise SystemExit(f"{kind}: not just the wanted numbers: {WANTED[kind] ^ set(numbers)}")
    write_list("searches", cases, NAMES)


def add_all(cases):
    """Every section in its order, and how many cases it adds."""
    sections = {
        "small graphs": add_small_graphs, "damaged images": add_damaged_images,
        "areas": add_areas, "long paths": add_long_paths, "wide search": add_wide_search,
        "precedences": add_precedences, "rules": add_rules,
        "large graph": lambda cases: add_large_graph(cases, random.Random(2)),
        "random graphs": lambda cases: add_random_graphs(cases, random.Random(3), graphs=80),
        "passed twice": add_passed_twice, "wide symbols": add_wide_symbols}
    for name, add in sections.items():
        before, size = cases.sums(), len(cases.written)
        add(cases)
        added = {kind: count - before[kind] for kind, count in cases.sums().items()}
        print(f"{name}: {added} in {len(cases.written) - size} bytes")


def main():
    """Write the list and tell what it holds."""
    parser = argparse.ArgumentParser(description=__doc__.splitlines()[0])
    parser.add_argument("--oracle", default=PROGRAM, help="the compiled oracle")
    arguments = parser.parse_args()
    with Oracle(arguments.oracle) as oracle:
        cases = CaseList(oracle)
        add_all(cases)
    for kind, numbers in cases.numbers.items():
        print(f"{NAMES[kind]} by number:", dict(sorted(numbers.items())))
    print("flags of length, path count, complete paths:", dict(sorted(cases.flags.items())))
    print("paths handed back, 10 for more:", dict(sorted(cases.paths.items())))
    print("compared with the Rust:", cases.compared)
    print("longest answer:", cases.longest)
    write(cases)


if __name__ == "__main__":
    main()
