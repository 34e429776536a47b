#!/usr/bin/env python3
"""Write the list of stitched searches that the program cases replays.

    python3 oracle/stitching_cases.py [--oracle PROGRAM]

writes the last list of crates/cases/stdin, and into stdout what the program
must print of it, and tells how many cases of each sort there are. The expected
answers are those of stitched.py and partials.py, a second reading of documents
01 and 02. Wherever image and database are accepted and every slot has a file the
request is also put to the oracle, that is to the given Rust with the same slots,
which must answer as stitched.py does without the bound of 63 edges and without
areas; where the bound and the areas refuse nothing, that is the expected answer
itself. What the Rust lacks, 30, 31, 32, 34, 35, slots that belong to no file and
every word of the areas, comes from stitched.py, partials.py and the documents
alone; the refusals 1 to 5 of an image come from refusals.py. 36 is not tried: the
16,777,217th expansion takes too long.

A case is a tag and what the tag says; numbers are big-endian:

    I  an image: its length in 4 bytes, then its bytes
    W  the words of the database: how many, and the word that all are filled
       with, 4 bytes each; then those that differ from it, written as an answer
       is, by twos a place and its word
    S  a stitched search, its returned paths
    s  a stitched search, its recorded paths

The searches behind an image and words, up to the next ones, are asked of them.
The database is lent to be read only. A search is written as a direct one in
the list of search_cases.py, and so is its answer; 12, 34 and 35 may come to
the refusals.

The list holds, in this order:

- the graphs A, B and C of document 01 and others with every kind of node, with
  a database in which every file was replaced: every node, and numbers behind
  the last, as a reference; each limit by itself, in both orders, returned and
  recorded; limits together; what document 01 states of A and C;
- damaged images of A, one or more for each refusal 1 to 5, with words and
  references that would be refused too;
- words of which each demand of 35 is met and broken by one; N and F stored
  about those of the graph (34); which of several refusals comes first;
- areas with as many slots as the search needs, copies included, one more, one
  less, and none, with some words behind the last whole slot;
- slots that no computation files: of a wrong source, of edges unknown (12) or
  removed behind others that are cut, too long or rejected, with an edge twice,
  with edges shared with the path or with one another, twice the same, with any
  end and file, with any words behind the last edge; dead ones between them;
- walks as slots on graphs with every kind of node, scopes attached and taken off;
- paths of 62 to 67 edges in one, two and three pieces, about the bound and about
  length limits there, with 12 and rejections behind it;
- more paths than 128 slots hold;
- about 4,096 slots;
- a graph of 2,048 nodes and 4,096 edges in 256 files;
- databases of one graph read with another: cleared, grown, or smaller (34);
- random graphs with all their partial paths, and with any slots;
- databases with slots that belong to no file (document 02, order 5): beside
  every file's, where direct search records the same; of any start and edges; with
  each demand of 35 on them met and broken by one;
- words that meet 35 and 34 at once;
- A, B, C and others in version 2 (document 02, order 3), with symbols that
  differ in their high halves alone, and in their low ones.

All draws are seeded.
"""

import argparse
import collections
import itertools
import random

from image_cases import mixed_graph
from images import (FAR_APART, GRAPH_A, GRAPH_B, GRAPH_C, HIGH_ALIKE, NARROW,
                    PROGRAM, WIDE, Oracle, image, random_graph)
from partial_cases import (KINDS, OVER_JUMP, RUBBISH, TWO_FILES, WITH_ALIASES,
                           database_request, few_paths, filed_on_a,
                           filed_with_aliases, is_malformed, malformed_aliases,
                           malformed_and_outgrown, next_graph, words_told)
from partials import (COUNT, EDGES, END, FILES, MOST_RECORDS, NOBODY, NODES,
                      OWNER, RECORD, START, USED, Extraction, PartialPath,
                      check_database, fresh, has_aliases, place, record,
                      replaced, slots)
from path_cases import (BESIDE_JUMPS, CHAINS, LAST, LOOPS, PRECEDENCES, RULES,
                        damaged_images, longs)
from refusals import Refused, checked
from search_cases import (FAN, FILLS, SCOPED, SLOT, TWICE_COMPLETE, TWO_LOOPS,
                          any_area, any_limit, any_reference, area, area_told,
                          around, as_rust, at_end, at_two_ends, chain,
                          edge_lists, limit_bytes, limit_word, rust_told, wide)
from searches import MOST_EDGES, Request, direct
from stitched import stitched
from stored_lists import MOST_NUMBERS, write_list

# As many words as the program lends.
MOST_WORDS, MOST_AREA = 536_841, 16_896
NAMES = {"S": "stitched", "s": "stitched recorded"}
# The list is of little use if one of these numbers is not expected of a kind.
WANTED = {0, 1, 2, 3, 4, 5, 10, 11, 12, 30, 31, 32, 34, 35}
# The Rust is asked without areas, so a search without limits must end by itself.
MANY = 1_000


def model_told(graph, words, request, recorded):
    """Counts, flags, edge lists and how many ever waited of stitched.py, or the refusal."""
    try:
        check_database(graph, words)
        found = stitched(graph, slots(words), request)
    except Refused as refusal:
        return refusal.told
    return found.counts, found.flags, edge_lists(found, recorded), found.most_waiting


def all_filed(graph, records, limits=(None, None)):
    """A fresh database in which every file was replaced."""
    words = fresh(graph, [0] * place(records))
    for file in range(graph.files):
        words = replaced(graph, Extraction(file, "b", *limits), words)[1]
    return words


def holding(graph, paths, records=None, fill=0):
    """A database with these slots, None for a dead one; the words behind the last edge are any."""
    paths = list(paths)
    records = len(paths) if records is None else records
    words = [len(paths), len(graph.nodes), graph.files] + [fill] * (RECORD * records)
    for number, path in enumerate(paths):
        written = [0] if path is None else record(path)[:EDGES + len(path.edges)]
        words[place(number):place(number) + len(written)] = written
    return words


def from_edges(graph, *edges):
    """The partial path that these edges make, of file 0."""
    return PartialPath(0, graph.edges[edges[0]].source, graph.edges[edges[-1]].target, edges)


class CaseList:
    """The cases so far, and how many there are by kind and number."""

    def __init__(self, oracle):
        self.oracle = oracle
        self.rng = random.Random(1)
        self.written = bytearray()
        self.latest = 0, "", []
        self.graph, self.checked, self.words = None, [], []
        self.numbers = {kind: collections.Counter() for kind in NAMES}
        self.flags, self.paths = collections.Counter(), collections.Counter()
        self.compared = self.longest = self.copies = 0

    def sums(self):
        """How many cases there are by kind."""
        return {kind: sum(numbers.values()) for kind, numbers in self.numbers.items()}

    def load(self, graph, version=NARROW):
        """The image of a graph, which the oracle is given too."""
        self.image(image(graph, version))
        self.graph = graph
        self.oracle.load(graph, version)

    def image(self, data):
        """An image."""
        self.written += b"I" + longs([len(data)]) + data
        self.graph, self.checked = None, checked(data)

    def lend(self, words, fill=0):
        """The words that the database has from now on."""
        if len(words) > MOST_WORDS:
            raise ValueError("the program has no room for this")
        given = [number for at, word in enumerate(words) if word != fill for number in (at, word)]
        self.written += b"W" + longs([len(words), fill]) + words_told(given)
        self.words = list(words)

    def is_read(self):
        """Whether neither 35 nor 34 stands in the way."""
        return (not is_malformed(self.words) and self.words[NODES] <= len(self.graph.nodes)
                and self.words[FILES] <= self.graph.files)

    def is_comparable(self):
        """Whether the Rust has such a database: every slot belongs to a file."""
        return self.is_read() and not has_aliases(self.words)

    def compare(self, kind, request):
        """The Rust and stitched.py must agree where there are no bounds and areas."""
        limits = map(limit_word, (request.length, request.count, request.complete))
        asked = f"{kind} {request.reference} {request.order} {' '.join(limits)}"
        rust = rust_told(self.oracle.ask_all([database_request(self.words), asked])[1])
        model = as_rust(model_told(self.graph, self.words, request.unbounded(), kind.islower()))
        if rust != model:
            raise ValueError(f"{self.graph} {asked}: {rust} by the Rust, {model} by stitched.py")
        self.compared += 1

    def answer(self, kind, request, work, result):
        """The numbers of the answer and of the areas."""
        told, paths = self.checked, []
        if told[0] == 0:
            if self.is_comparable():
                self.compare(kind, request)
            told = model_told(self.graph, self.words, request, kind.islower())
        if isinstance(told, tuple):
            counts, flags, paths, waited = told
            self.flags["".join(map(str, flags))] += 1
            self.paths[min(len(paths), 10)] += 1
            self.copies += kind == "s" and flags[2] == 0 and counts[1] > len(paths)
            told = [0] + [half for count in [len(paths)] + counts for half in wide(count)] + flags
            told.append(waited)
        self.numbers[kind][told[0]] += 1
        return told + area_told(area(paths, result)) + area_told([0] * work)

    def search(self, kind, reference, order="b", limits=(None, None, None),
               work=6 * SLOT, result=4 * SLOT):
        """One search; areas are given in words."""
        request = Request(reference, False, order, *limits, work // SLOT, result // SLOT)
        answer = self.answer(kind, request, work, result)
        if max(work, result) > MOST_AREA or len(answer) > MOST_NUMBERS:
            raise ValueError("the program has no room for this")
        self.latest = len(self.written), kind, answer
        self.written += (kind.encode() + longs([reference]) + order.encode()
                         + b"".join(map(limit_bytes, limits))
                         + longs([self.rng.choice(FILLS), work, result]) + words_told(answer))
        self.longest = max(self.longest, len(answer))

    def every(self, reference, limits=(None, None, None), **areas):
        """Both calls in both orders."""
        for kind, order in itertools.product("Ss", "bd"):
            self.search(kind, reference, order, limits, **areas)

    def some(self, reference, limits=(None, None, None), **areas):
        """Both orders, returned or recorded."""
        for order in "bd":
            self.search(self.rng.choice("Ss"), reference, order, limits, **areas)

    def either(self, reference, limits=(None, None, None), **areas):
        """One call in one order."""
        self.search(self.rng.choice("Ss"), reference, self.rng.choice("bd"), limits, **areas)


def check_stated(graph, counts, recorded, found_directly):
    """What document 01 states of A and C."""
    found = stitched(graph, slots(all_filed(graph, 20)), Request(2, False))
    if (found.counts[:3], edge_lists(found, True)) != (counts, recorded):
        raise ValueError(f"{graph}: {found}")
    if edge_lists(direct(graph, Request(2, False)), True) != found_directly:
        raise ValueError(f"{graph}: direct search")


def add_small_graphs(cases):
    """References and limits on small graphs with all their partial paths."""
    check_stated(GRAPH_A, [4, 2, 2], [[0, 1]], [[0, 1]])
    check_stated(GRAPH_C, [4, 2, 0], [[0, 2]], [[0, 2], [0, 1, 2]])
    large = {"work": 16 * SLOT, "result": 12 * SLOT}
    together = list(itertools.product((None, 1, 2), (None, 2, 3, 5), (None, 0, 1, 3)))
    for graph in (GRAPH_A, GRAPH_B, GRAPH_C, TWO_LOOPS, TWO_FILES, SCOPED, PRECEDENCES,
                  BESIDE_JUMPS, KINDS, TWICE_COMPLETE):
        cases.load(graph)
        cases.lend(all_filed(graph, 60))
        cases.every(2, **large)
        for reference in [*range(len(graph.nodes) + 1), 65_536 + 2, LAST]:
            cases.either(reference, **large)
        for number in (0, 1, 2, 3, 6):
            cases.some(2, (number, None, None), **large)
            cases.some(2, (None, number, None), **large)
            cases.some(2, (None, None, number), **large)
        cases.either(2, (2**32, 2**63, 2**64 - 1), **large)
        for limits in cases.rng.sample(together, 8):
            cases.either(2, limits, **large)


def add_damaged_images(cases):
    """The image is refused before anything else is looked at."""
    for number, data in enumerate(damaged_images()):
        cases.image(data)
        cases.lend(([], [0, 0], [0, 6, 1], [9, 9, 9, 9], [0, LAST, LAST], filed_on_a())[number % 6])
        for kind in "Ss":
            cases.search(kind, 2, "d", (0, 0, 0), work=cases.rng.choice((0, 1, 200)),
                         result=cases.rng.choice((0, 1, 300)))
        cases.either(LAST, work=0, result=0)


def add_malformed(cases):
    """35 to the letter and 34, before the reference and the areas."""
    cases.load(GRAPH_A)
    good = filed_on_a()
    fields = [(OWNER, (0, 1, 2, LAST)), (START, (0, 5, 6, LAST)), (END, (LAST,)),
              (COUNT, (0, 1, 2, MOST_EDGES, MOST_EDGES + 1, LAST)), (EDGES, (3, LAST)),
              (RECORD - 1, (LAST,))]
    altered = [(place(number) + field, value) for number in (0, 1, 2, 3)
               for field, values in fields for value in values]
    altered += [(USED, used) for used in (0, 1, 2, 4, 5, LAST)]
    altered += [(NODES, nodes) for nodes in (0, 2, 3, 4, 5, 6, 7, LAST)]
    altered += [(FILES, files) for files in (0, 1, 2, LAST)]
    for at, value in altered:
        cases.lend(good[:at] + [value] + good[at + 1:])
        cases.either(2)
        cases.either(cases.rng.choice((0, 2, 6, LAST)), work=cases.rng.choice((0, 2 * SLOT + 44)))
    for length in (0, 1, 2, 3, place(2), place(3) - 1, place(3)):
        for used in (0, 2, 3):
            cases.lend(([used] + good[1:])[:length])
            cases.either(2, work=3 * SLOT, result=SLOT + 5)


def add_areas(cases):
    """About as many slots as each search needs, and words that make no slot."""
    for graph in (GRAPH_A, GRAPH_B, GRAPH_C, SCOPED, PRECEDENCES, TWICE_COMPLETE):
        cases.load(graph)
        cases.lend(all_filed(graph, 60))
        for order in "bd":
            found = stitched(graph, slots(cases.words), Request(2, False, order))
            add_areas_about(cases, order, found.most_waiting, found.counts[1])


def add_areas_about(cases, order, waiting, kept):
    """31 and 32 about the slots that a search without limits takes; copies take slots too."""
    for work, result in itertools.product(around(waiting), around(kept)):
        enough = work // SLOT >= waiting and result // SLOT >= kept
        request = Request(2, False, order, waiting=work // SLOT, results=result // SLOT)
        told = model_told(cases.graph, cases.words, request, True)
        if enough != isinstance(told, tuple):
            raise ValueError(f"{waiting} waiting and {kept} results: {told}")
        cases.search(cases.rng.choice("Ss"), 2, order, work=work, result=result)
    cases.search("S", 2, order, (None, 0, None), work=0, result=0)
    cases.search("S", 2, order, (None, None, 0), work=SLOT * waiting, result=0)
    cases.search("s", 2, order, (None, None, 1), work=SLOT * waiting, result=SLOT)
    cases.search("s", 2, order, (0, 0, 0), work=SLOT, result=0)


def add_strange_slots(cases):
    """Slots that no computation files, on A, C and a graph with loops."""
    good, end = from_edges(GRAPH_A, 0, 1), from_edges(GRAPH_A, 1)
    cases.load(GRAPH_A)
    for paths in (
            [], [None] * 3, [good], [None, good, None, good], [good, good, good],
            # a start, an end and a file that do not belong to the edges
            [good._replace(start=3)], [good._replace(end=LAST)], [good._replace(start=0)],
            [good._replace(start=5, end=2), good],
            # wrong sources: at once, later
            [PartialPath(0, 2, 4, (1,))], [PartialPath(0, 2, 4, (0, 0))],
            [PartialPath(0, 2, 4, (0, 1, 1))], [PartialPath(0, 2, 4, (1, 0)), good],
            # unknown edges: first, behind an accepted one, behind a rejected one
            [PartialPath(0, 2, 4, (3,))], [PartialPath(0, 2, 4, (0, LAST)), good],
            [good, PartialPath(0, 2, 4, (0, 1, 4_096))], [PartialPath(0, 2, 4, (0, 2, 65_536))],
            [PartialPath(0, 2, 4, (1, LAST))], [PartialPath(0, 2, 4, (0, 1, 2, LAST))],
            # unknown, but cut first: the path has edge 0; and never reached
            [from_edges(GRAPH_A, 0), PartialPath(0, 3, 4, (LAST, 0)), end],
            [good, PartialPath(0, 4, 4, (0, LAST)), PartialPath(0, 5, 5, (LAST,))],
            # edges shared with the path, in front and behind
            [from_edges(GRAPH_A, 0), PartialPath(0, 3, 4, (1, 0)), end],
            [from_edges(GRAPH_A, 0), PartialPath(0, 3, 4, (0,)), end, end],
            [PartialPath(0, 3, 4, (1,)), good, from_edges(GRAPH_A, 0)]):
        cases.lend(holding(GRAPH_A, paths, fill=RUBBISH), RUBBISH)
        cases.every(2)
        for limit in (1, 2, 3):
            cases.either(2, (limit, None, None))
            cases.either(2, (None, limit, None))
    add_removed_edges(cases)
    add_repeated_edges(cases)


def add_removed_edges(cases):
    """A removed edge is unknown; one between nodes of another kind is rejected where it is met."""
    cases.load(RULES)
    for edges in ((0, 9), (9,), (0, 34), (0, 3), (0, 5), (0, 2, 9), (0, 1, 9), (0, 7, 8, 9)):
        cases.lend(holding(RULES, [PartialPath(0, 2, 4, edges), from_edges(RULES, 0, 1)]))
        cases.some(2)
        cases.either(2, (len(edges) - 1, None, None))
        cases.either(2, (None, 1, 0))


def add_repeated_edges(cases):
    """An edge twice in one slot is no cycle; the path then has it twice."""
    cases.load(LOOPS)
    for paths in (
            [(0, 1, 1, 2)], [(0, 1), (1, 2), (4, 2)], [(0, 1, 4, 1), (2,), (4, 4, 2)],
            [(0,), (1, 1), (4, 4, 4), (2,)], [(3,), (3, 3), (0, 2)], [(3, 3, 0), (1, 1, 2), (2,)],
            [(0,), (1,), (1,), (4,), (2,), (2,)]):
        for fill in (0, 1):
            cases.lend(holding(LOOPS, [from_edges(LOOPS, *edges) for edges in paths], fill=fill),
                       fill)
            cases.every(2, work=20 * SLOT, result=20 * SLOT)
            cases.either(2, (4, None, None), work=20 * SLOT, result=20 * SLOT)
            cases.either(2, (None, None, 2), work=20 * SLOT, result=3 * SLOT)


def add_long_paths(cases):
    """30, and the length limits about it: the whole partial path is counted before any edge."""
    for count, tail in ((MOST_EDGES - 1, at_end), (MOST_EDGES, at_end),
                        (MOST_EDGES - 1, at_two_ends)):
        graph = chain(count, tail)
        cases.load(graph)
        edges = tuple(range(count + 1))
        whole = [from_edges(graph, *edges)] if count < MOST_EDGES else []
        halves = [from_edges(graph, *edges[:32]), from_edges(graph, *edges[32:])]
        thirds = [from_edges(graph, *edges[:1]), from_edges(graph, *edges[1:45]),
                  from_edges(graph, *edges[45:])]
        for paths in (whole, halves, thirds):
            cases.lend(holding(graph, paths))
            cases.either(2, work=2 * SLOT, result=SLOT)
            for limit in (count, count + 1, MOST_EDGES):
                cases.either(2, (limit, None, None), work=2 * SLOT, result=SLOT)
    add_long_second_pieces(cases)


def add_long_second_pieces(cases):
    """30 before 12, before a rejection, not where an edge is shared or a limit is there."""
    graph = chain(MOST_EDGES + 3, at_end)
    cases.load(graph)
    held = 40
    first, left = from_edges(graph, *range(held)), MOST_EDGES - held
    for edges in ((held, *[LAST] * (left - 1)), (held, *[LAST] * left), (*[LAST] * (left + 1),),
                  (*[0] * (left + 1),), (*[50] * (left + 1),), (*[50] * left,),
                  tuple(range(held, MOST_EDGES)), tuple(range(held, MOST_EDGES + 1))):
        cases.lend(holding(graph, [first, PartialPath(0, held + 2, 3, edges)]))
        cases.some(2, work=2 * SLOT, result=SLOT)
        cases.either(2, (MOST_EDGES, None, None), work=2 * SLOT, result=SLOT)
        cases.either(2, (None, 1, None), work=2 * SLOT, result=SLOT)


def add_wide_search(cases):
    """More paths than 128 slots hold."""
    cases.load(FAN)
    cases.lend(holding(FAN, [from_edges(FAN, edge) for edge in range(130)]))
    for work, result in ((129, 130), (130, 130), (132, 131), (130, 129), (130, 128)):
        cases.some(2, work=SLOT * work, result=SLOT * result)
    for limit in (128, 129):
        cases.search("s", 2, "b", (None, None, limit), work=130 * SLOT, result=128 * SLOT)


def add_most_records(cases):
    """A database uses at most 4,096 slots, also where more are lent."""
    cases.load(GRAPH_A)
    for lent, used in ((4_098, 4_096), (4_098, 4_095), (4_098, 4_097), (4_096, 4_096),
                       (4_095, 4_095), (4_095, 4_096)):
        words = [used, 6, 1] + [0] * (RECORD * lent)
        for number, edges in ((7, (0,)), (4_094, (2,)), (MOST_RECORDS - 1, (1,)), (4_096, (0, 1))):
            if number < lent:
                words[place(number):place(number + 1)] = record(from_edges(GRAPH_A, *edges))
        cases.lend(words)
        cases.some(2)


def any_walk(rng, graph, start, length):
    """Up to so many edges in a row from a node, and where they end; none leaves jump."""
    edges, end = [], start
    while len(edges) < length and (ways := graph.outgoing(end)):
        edges.append(rng.choice(ways))
        end = graph.edges[edges[-1]].target
    return edges, end


def any_path(rng, graph):
    """Mostly a walk, seldom with an edge changed, a start that is not its own, or any edges."""
    starts = sorted({edge.source for edge in graph.edges if edge is not None})
    start = rng.choice(starts)
    edges, end = any_walk(rng, graph, start, rng.choice((1, 1, 2, 3, 5)))
    draw = rng.random()
    if draw < 0.06:
        edges[rng.randrange(len(edges))] = rng.randrange(len(graph.edges))
    elif draw < 0.09:
        edges[rng.randrange(len(edges))] = rng.choice((len(graph.edges), LAST))
    elif draw < 0.14:
        start = rng.randrange(len(graph.nodes))
    return PartialPath(rng.randrange(graph.files), start, end, tuple(edges))


def any_slots(rng, graph, count):
    """So many slots, some dead, some twice."""
    paths = []
    for _ in range(count):
        draw = rng.random()
        paths.append(None if draw < 0.1 else rng.choice(paths) if paths and draw < 0.2
                     else any_path(rng, graph))
    return paths


def any_count(rng, cases, reference):
    """A limit on the path count; never absent where the search would not end soon."""
    request = Request(reference, False, count=MANY).unbounded()
    told = model_told(cases.graph, cases.words, request, True)
    if isinstance(told, tuple) and told[1][1] == 1:
        return rng.randint(0, 60)
    return any_limit(rng)


def ask_any(cases, rng, times):
    """Random references, limits and areas."""
    for _ in range(times):
        reference = any_reference(rng, cases.graph)
        limits = (any_limit(rng), any_count(rng, cases, reference), any_limit(rng))
        cases.search(rng.choice("Ss"), reference, rng.choice("bd"), limits,
                     work=any_area(rng), result=any_area(rng))


def has_way(graph):
    """Whether a reference has an edge."""
    return any(graph.outgoing(node) for node in graph.references())


def add_large_graph(cases, rng):
    """As many nodes and edges as there may be; slots all over the graph."""
    graph = mixed_graph(rng)
    cases.load(graph)
    references = rng.sample([node for node in graph.references() if graph.outgoing(node)], 8)
    paths = any_slots(rng, graph, 150)
    for reference in references:
        for edge in graph.outgoing(reference)[:3]:
            paths.insert(rng.randrange(len(paths)), from_edges(graph, edge))
            end = graph.edges[edge].target
            edges, last = any_walk(rng, graph, end, 3)
            if edges:
                paths.append(PartialPath(0, end, last, tuple(edges)))
    cases.lend(holding(graph, paths))
    for reference in references + [0, 1, 2_047, 2_048]:
        cases.some(reference, (None, 40, None), work=60 * SLOT)


def add_stale(cases, rng, chains):
    """The database of a graph, read with others."""
    while chains > 0:
        graph = random_graph(rng, max_files=3, max_nodes=12, max_edges=10)
        if not few_paths(graph, 14) or not has_way(graph):
            continue
        chains -= 1
        cases.load(graph)
        cases.lend(all_filed(graph, 45))
        ask_any(cases, rng, 4)
        for _ in range(4):
            other = next_graph(rng, graph)
            if has_way(other):
                cases.load(other)
                ask_any(cases, rng, 4)


def add_random_graphs(cases, rng, graphs):
    """Random graphs with all their partial paths, then with any slots."""
    while graphs > 0:
        graph = random_graph(rng)
        if not has_way(graph):
            continue
        whole = few_paths(graph, 12)
        if not whole and rng.random() < 0.7:
            continue
        graphs -= 1
        cases.load(graph)
        if whole:
            cases.lend(all_filed(graph, 40))
            ask_any(cases, rng, 7)
        fill = rng.choice((0, 0, 1, RUBBISH))
        cases.lend(holding(graph, any_slots(rng, graph, rng.randint(3, 14)), fill=fill), fill)
        ask_any(cases, rng, 6)


def add_scopes(cases):
    """Scopes attached and taken off through slots; every kind of node."""
    rng = random.Random(5)
    for graph in (CHAINS, RULES):
        cases.load(graph)
        for _ in range(3):
            cases.lend(holding(graph, any_slots(rng, graph, 24)))
            for reference, count in itertools.product(graph.references(), (3, 20, 60)):
                cases.some(reference, (None, count, None), work=100 * SLOT, result=20 * SLOT)


def check_agreement(graph, words):
    """With all partial paths, those of no file too, both searches record the same."""
    for reference in graph.references():
        request = Request(reference, False)
        recorded = [sorted(edge_lists(found, True)) for found in (
            stitched(graph, slots(words), request), direct(graph, request))]
        if recorded[0] != recorded[1]:
            raise ValueError(f"{graph} from {reference}: {recorded}")
    if graph == GRAPH_C and recorded[0] != [[0, 1, 2], [0, 2]]:
        raise ValueError(f"C: {recorded}")
    if graph == OVER_JUMP and recorded[0] != [[0, 1, 2, 3, 4]]:
        raise ValueError(f"{graph}: {recorded}")


def add_aliases(cases):
    """Slots that belong to no file: all of them, any, and those that meet 35."""
    large = {"work": 60 * SLOT, "result": 60 * SLOT}
    for graph in WITH_ALIASES:
        cases.load(graph)
        for before in range(graph.files + 1):
            words = filed_with_aliases(graph, before, 80)
            check_agreement(graph, words)
            cases.lend(words)
            for reference in graph.references():
                cases.every(reference, **large)
                cases.either(reference, (3, None, None), **large)
                cases.either(reference, (None, 5, 2), **large)
                cases.either(reference)
    cases.load(GRAPH_C)
    for words in malformed_aliases():
        cases.lend(words)
        cases.some(2)
        cases.either(cases.rng.choice((0, LAST)), work=0)
    add_any_aliases(cases, random.Random(6), graphs=12)


def add_any_aliases(cases, rng, graphs):
    """Any slots, of which some belong to no file; the searches take them as the others."""
    while graphs > 0:
        graph = random_graph(rng)
        if not has_way(graph):
            continue
        graphs -= 1
        cases.load(graph)
        paths = [path if path is None or rng.random() < 0.5 else path._replace(file=NOBODY)
                 for path in any_slots(rng, graph, rng.randint(3, 12))]
        cases.lend(holding(graph, paths))
        ask_any(cases, rng, 5)


def add_both_refused(cases):
    """35 comes before 34, and both before the reference."""
    cases.load(GRAPH_A)
    for words in malformed_and_outgrown():
        cases.lend(words)
        cases.some(2)
        cases.either(LAST, work=0, result=0)


def add_wide_symbols(cases):
    """Version 2, with symbols of 64 bits."""
    for names, graph in itertools.product((FAR_APART, HIGH_ALIKE),
                                          (GRAPH_A, GRAPH_B, GRAPH_C, TWO_FILES, SCOPED, KINDS)):
        cases.load(graph.renamed(names), WIDE)
        cases.lend(all_filed(graph, 60))
        for reference in graph.references():
            cases.either(reference, work=16 * SLOT, result=12 * SLOT)


def write(cases):
    """The list, which must hold every refusal of each kind."""
    for kind, numbers in cases.numbers.items():
        if set(numbers) != WANTED:
            raise SystemExit(f"{kind}: not just the wanted numbers: {WANTED ^ set(numbers)}")
    write_list("stitched", cases, NAMES)


def add_all(cases):
    """Every section in its order, and how many cases it adds."""
    sections = {
        "small graphs": add_small_graphs, "damaged images": add_damaged_images,
        "malformed": add_malformed, "areas": add_areas, "strange slots": add_strange_slots,
        "scopes": add_scopes, "long paths": add_long_paths, "wide search": add_wide_search,
        "most records": add_most_records,
        "large graph": lambda cases: add_large_graph(cases, random.Random(2)),
        "stale": lambda cases: add_stale(cases, random.Random(3), chains=14),
        "random graphs": lambda cases: add_random_graphs(cases, random.Random(4), graphs=34),
        "aliases": add_aliases, "malformed and outgrown": add_both_refused,
        "wide symbols": add_wide_symbols}
    for name, add in sections.items():
        before, size = cases.sums(), len(cases.written)
        add(cases)
        added = {kind: count - before[kind] for kind, count in cases.sums().items()}
        print(f"{name}: {added} in {len(cases.written) - size} bytes")


def main():
    """Write the list and tell what it holds."""
    parser = argparse.ArgumentParser(description=__doc__.splitlines()[0])
    parser.add_argument("--oracle", default=PROGRAM, help="the compiled oracle")
    arguments = parser.parse_args()
    with Oracle(arguments.oracle) as oracle:
        cases = CaseList(oracle)
        add_all(cases)
    for kind, numbers in cases.numbers.items():
        print(f"{NAMES[kind]} by number:", dict(sorted(numbers.items())))
    print("flags of length, path count, complete paths:", dict(sorted(cases.flags.items())))
    print("paths handed back, 10 for more:", dict(sorted(cases.paths.items())))
    print("with copies among the recorded:", cases.copies)
    print("compared with the Rust:", cases.compared)
    print("longest answer:", cases.longest)
    print("bytes:", len(cases.written))
    write(cases)


if __name__ == "__main__":
    main()
