#!/usr/bin/env python3
"""Write the list of calls on a database that the program cases replays.

    python3 oracle/partial_cases.py [--oracle PROGRAM]

writes the fourth list of crates/cases/stdin, and into stdout what the program
must print of it, and tells how many cases of each sort there are. The expected answers
are those of partials.py, a second reading of documents 01 and 02. Wherever the Rust
has an answer it is asked through the oracle and must agree: the partial paths
of the file without the bound of 63 edges and without areas, on each accepted
image and known or unknown file; the statistics of the replacement and every
slot after it, where nothing is refused; the slots of a fresh database; the
edges that a lookup answers, on every database that does not meet 35 and stores
an N and an F that an image can have. What the Rust lacks, 30, 31, 33, 34, 35
and every word of the database and the work area, comes from partials.py and
the documents alone, and so does all that is asked of a database with slots that
belong to no file (document 02, order 5); the refusals 1 to 5 of an image come
from refusals.py. 36 is not tried: the 16,777,217th expansion takes too long.

A case is a tag and what the tag says; numbers are big-endian:

    I  an image: its length in 4 bytes, then its bytes
    W  the words of the database: how many, and the word that all are filled
       with, 4 bytes each; then those that differ from it, written as an answer
       is, by twos a place and its word
    F  a fresh database: the answer
    R  a file replaced: the file in 4 bytes; the order, b or d; the limits on
       length and path count, each 0 for none or 1, and 8 bytes; the word in 4
       bytes that the work area is filled with before the call; how many words
       the work area has, 4 bytes; the answer
    U  a lookup: the number in 4 bytes; the answer

The calls behind an image, up to the next one, are asked of it. There is one
database: each call finds its words as the last one left them.

An answer is a count in 2 bytes and as many numbers of 4 bytes. Of a lookup
these are the number of edges and the edges. Else document 01's number, 0
where nothing is refused, then

- behind a refusal its values;
- behind 0 of a replaced file how many paths were expanded, were found and were
  cut as cycles, each as two numbers, the high one first; the flags of the
  limits on length and path count, 1 or 0; how many routes ever waited
  together, of which the Rust knows nothing;
- in either case what the call altered in the database, and how many words it
  has: each run of altered words that became the same word as the place of its
  first, how many they are, and the word. A word in no run is as before;
- of a replaced file each word of the work area after the call that is not 0,
  as its place and the word, and the length of the area.

The list holds, in this order:

- the graphs A, B and C of document 01, one with two files, and others with
  every kind of node: every file, files behind the last, both orders, each limit
  alone and together, the starred case; every number looked up;
- damaged images of A, one or more for each refusal 1 to 5, with words that
  would be refused too;
- work areas with as many slots as are needed, one more, one less, as many as
  there are starts, and none, with some words behind the last whole slot;
- databases with room for the new paths, for one less, and words behind the
  last whole slot; what stands behind the used slots is any word;
- words of which each demand of 35 is met and broken by one, in dead slots and
  behind the used ones as well; N and F stored about those of the graph (34);
  which of several refusals comes first;
- routes of 62 to 65 edges, about the bound and about length limits there;
- about 4,096 slots;
- files cleared, grown and filed again, on graphs with more nodes and files and
  on smaller ones, in one database;
- a graph of 2,048 nodes and 4,096 edges in 256 files;
- random graphs, with random files, limits, areas and databases;
- databases with slots that belong to no file, whose first word is 65,535: put
  there before, between and behind the files, kept when these are replaced,
  looked up; in the way of 33; files 65,533 to 65,536 (21); each demand of 35 on
  such a slot met and broken by one, other first words, N and F stored about
  those of the graph;
- words that meet 35 and 34 at once.

All draws are seeded.
"""

import argparse
import collections
import itertools
import random

from conversion import FORMER_EDGES
from image_cases import mixed_graph
from images import (DROP_SCOPES, GRAPH_A, GRAPH_B, GRAPH_C, JUMP, POP,
                    POP_SCOPED, PROGRAM, PUSH, PUSH_SCOPED, REMOVED,
                    ROOT_AND_JUMP, SCOPE, Edge, Graph, Node, Oracle,
                    broken_rule, fields, image, may_join, random_graph)
from partials import (ALIASES, COUNT, EDGES, END, FILES, FIRST_RECORD,
                      MOST_RECORDS, NOBODY, NODES, OWNER, RECORD, START, USED,
                      Extraction, PartialPath, check_words, extracted, fresh,
                      has_aliases, looked_up, place, record, replaced, slots)
from path_cases import LAST, damaged_images, error_told, listed, longs
from refusals import Refused, checked
from search_cases import (FILLS, SCOPED, SLOT, TWO_LOOPS, area_told, around,
                          limit_bytes, limit_word, wide)
from searches import MOST_EDGES
from stored_lists import MOST_NUMBERS, write_list

# As many words as the program lends.
MOST_WORDS, MOST_WORK = 536_841, 16_896
NAMES = {"F": "fresh", "R": "replaced", "U": "lookups"}
# The list is of little use if one of these numbers is not expected of a kind.
ALWAYS = {0, 1, 2, 3, 4, 5, 35}
WANTED = {"F": ALWAYS, "R": ALWAYS | {21, 30, 31, 33, 34}}
# The Rust is asked without areas, so a computation without limits must end by itself.
MANY = 2_000
RUBBISH = 0xA5A5A5A5
# The Rust's database is only made for so many nodes and files as an image has.
MOST_NODES, MOST_FILES = 2_048, 256


def runs_told(before, after):
    """Each run of altered words that became the same word, and the length."""
    told, at = [], 0
    while at < len(after):
        if after[at] == before[at]:
            at += 1
            continue
        end = at + 1
        while end < len(after) and after[end] == after[at] and after[end] != before[end]:
            end += 1
        told += [at, end - at, after[at]]
        at = end
    return told + [len(after)]


def words_told(told):
    """Numbers as an answer is written."""
    return len(told).to_bytes(2, "big") + longs(told)


def path_written(path):
    """A slot as the oracle reads and writes it."""
    if path is None:
        return "x"
    return f"{path.file}:{path.start}:{path.end}:{','.join(map(str, path.edges))}"


def slots_written(paths):
    """The slots of a database likewise."""
    return ";".join(map(path_written, paths)) or "-"


def database_request(words):
    """The request that gives the oracle the database of sound words."""
    return f"W {words[NODES]} {words[FILES]} {slots_written(slots(words))}"


def is_malformed(words):
    """Whether the words meet 35."""
    try:
        check_words(words)
    except Refused:
        return True
    return False


def stats_told(answer):
    """The oracle's counts and flags, or the refusal."""
    if not answer.startswith("ok"):
        return error_told(answer)
    found = fields(answer)
    counts = [int(found[name]) for name in ("exp", "parts", "cyc")]
    return counts, [int(flag) for flag in found["fl"]]


def extracted_told(graph, request):
    """Counts, flags and paths of partials.py, or the refusal."""
    try:
        found = extracted(graph, request)
    except Refused as refusal:
        return refusal.told, []
    return (found.counts, found.flags), found.paths


class CaseList:
    """The cases so far, and how many there are by kind and number."""

    def __init__(self, oracle):
        self.oracle = oracle
        self.rng = random.Random(1)
        self.written = bytearray()
        self.latest = 0, "", []
        self.graph, self.checked, self.words = None, [], []
        self.numbers = {kind: collections.Counter() for kind in NAMES}
        self.flags, self.paths = collections.Counter(), collections.Counter()
        self.compared = collections.Counter()
        self.longest = self.beside_aliases = 0

    def sums(self):
        """How many cases there are by kind."""
        return {kind: sum(numbers.values()) for kind, numbers in self.numbers.items()}

    def load(self, graph):
        """The image of a graph, which the oracle is given too."""
        self.image(image(graph))
        self.graph = graph
        self.oracle.load(graph)

    def image(self, data):
        """An image."""
        self.written += b"I" + longs([len(data)]) + data
        self.graph, self.checked = None, checked(data)

    def lend(self, words, fill=0):
        """The words that the database has from now on."""
        if len(words) > MOST_WORDS:
            raise ValueError("the program has no room for this")
        given = [number for at, word in enumerate(words) if word != fill for number in (at, word)]
        self.written += b"W" + longs([len(words), fill]) + words_told(given)
        self.words = list(words)

    def add(self, kind, asked, answer, after):
        """One call with its answer, and the words that it leaves."""
        if len(answer) > MOST_NUMBERS:
            raise ValueError("the program has no room for this")
        self.latest = len(self.written), kind, answer
        self.written += kind.encode() + asked + words_told(answer)
        self.longest = max(self.longest, len(answer))
        self.words = after

    def ask_same(self, what, request, wanted):
        """The oracle must answer just this."""
        answer = self.oracle.ask(request)
        if answer != wanted:
            raise ValueError(f"{self.graph} {what} {request}: {answer} by the Rust, not {wanted}")
        self.compared[what] += 1

    def fresh(self):
        """A fresh database."""
        told, after = self.checked, self.words
        if told[0] == 0:
            try:
                told, after = [0], fresh(self.graph, self.words)
                self.ask_same("fresh", "N", "ok")
                self.ask_same("slots", "B", "ok " + slots_written(slots(after)))
            except Refused as refusal:
                told = refusal.told
        self.numbers["F"][told[0]] += 1
        self.add("F", b"", told + runs_told(self.words, after), after)

    def compare_paths(self, request, asked):
        """The Rust and partials.py must find the same where there are no bounds and areas."""
        answer = self.oracle.ask(f"P {asked}")
        told, paths = extracted_told(self.graph, request.unbounded())
        if not answer.startswith("ok"):
            rust = error_told(answer), []
        else:
            rust = stats_told(answer), listed(fields(answer)["paths"], ";")
        if rust != (told, list(map(path_written, paths))):
            raise ValueError(f"{self.graph} P {asked}: {rust} by the Rust, {told} {paths}")
        self.compared["paths"] += 1

    def compare_replaced(self, asked, found, after):
        """So must a replacement that nothing refuses, and its slots, if all have a file."""
        if has_aliases(self.words):
            return
        self.ask_same("words", database_request(self.words), "ok")
        stats = stats_told(self.oracle.ask(f"R {asked}"))
        if stats != (found.counts, found.flags):
            raise ValueError(f"{self.graph} R {asked}: {stats} by the Rust, {found}")
        self.compared["replaced"] += 1
        self.ask_same("slots", "B", "ok " + slots_written(slots(after)))

    def answer_replace(self, request):
        """The numbers of a replaced file, and the words after it."""
        if self.checked[0] != 0:
            return self.checked, self.words
        limits = f"{limit_word(request.length)} {limit_word(request.count)}"
        asked = f"{request.file} {request.order} {limits}"
        self.compare_paths(request, asked)
        try:
            found, after = replaced(self.graph, request, self.words)
        except Refused as refusal:
            return refusal.told, self.words
        self.compare_replaced(asked, found, after)
        self.flags["".join(map(str, found.flags))] += 1
        self.paths[min(len(found.paths), 10)] += 1
        told = [0] + [half for count in found.counts for half in wide(count)] + found.flags
        return told + [found.most_waiting], after

    def replace(self, file, order="b", length=None, count=None, work=20 * SLOT):
        """A file replaced; the work area is given in words."""
        if work > MOST_WORK:
            raise ValueError("the program has no room for this")
        told, after = self.answer_replace(Extraction(file, order, length, count, work // SLOT))
        self.numbers["R"][told[0]] += 1
        asked = (longs([file]) + order.encode() + limit_bytes(length) + limit_bytes(count)
                 + longs([self.rng.choice(FILLS), work]))
        self.beside_aliases += told[0] == 0 and has_aliases(self.words)
        self.add("R", asked, told + runs_told(self.words, after) + area_told([0] * work), after)

    def lookup(self, number):
        """The edges of a number."""
        edges = looked_up(self.words, number)
        if (not is_malformed(self.words) and not has_aliases(self.words)
                and self.words[NODES] <= MOST_NODES and self.words[FILES] <= MOST_FILES):
            self.ask_same("words", database_request(self.words), "ok")
            answer = listed(self.oracle.ask("B").split()[1], ";")
            slot = answer[number] if number < len(answer) else "x"
            if edges != ([] if slot == "x" else [int(edge) for edge in listed(slot.split(":")[3])]):
                raise ValueError(f"{number}: {edges} where the Rust has {slot}")
            self.compared["lookup"] += 1
        self.numbers["U"][min(len(edges), 10)] += 1
        self.add("U", longs([number]), [len(edges)] + edges, self.words)

    def lookups(self, *numbers):
        """Some numbers, with the last used one and those behind it."""
        used = self.words[USED]
        for number in sorted({*numbers, max(used, 1) - 1, used, min(used + 1, LAST), LAST}):
            self.lookup(number)

    def empty(self, records, extra=0, fill=0):
        """A database for the graph with nothing filed: words behind the first three are any."""
        words = [0, len(self.graph.nodes), self.graph.files] + [fill] * (RECORD * records + extra)
        self.lend(words, fill)

    def both(self, file, length=None, count=None, records=40, **areas):
        """A file replaced in a fresh database, in both orders."""
        for order in "bd":
            self.empty(records)
            self.replace(file, order, length, count, **areas)


    def either(self, file, length=None, count=None, **areas):
        """The same in one of the orders."""
        self.empty(40)
        self.replace(file, self.rng.choice("bd"), length, count, **areas)


# Two files about root: each can reach the other's definition; two edges are of no file.
TWO_FILES = Graph(2, ROOT_AND_JUMP + [
    Node(PUSH, 0, 7, flag=True), Node(SCOPE, 0, flag=True), Node(POP, 0, 7, flag=True),
    Node(SCOPE, 1, flag=True), Node(POP, 1, 7, flag=True), Node(PUSH, 1, 7, flag=True),
    Node(SCOPE, 1)],
    [Edge(2, 3), Edge(3, 0), Edge(0, 5), Edge(5, 6), Edge(0, 0), Edge(0, 1), Edge(7, 8),
     Edge(8, 0), Edge(0, 3, 2), Edge(3, 4), Edge(3, 1), None, Edge(8, 8)])
# Push-scoped and pop-scoped nodes, dropped scopes, flags on and off; each kind as an end.
KINDS = Graph(1, ROOT_AND_JUMP + [
    Node(PUSH_SCOPED, symbol=7, scope=3, flag=True), Node(SCOPE, flag=True), Node(SCOPE),
    Node(POP_SCOPED, symbol=7, flag=True), Node(POP_SCOPED, symbol=7), Node(POP, symbol=7),
    Node(DROP_SCOPES),
    Node(PUSH, symbol=8), Node(PUSH_SCOPED, symbol=8, scope=3), Node(REMOVED)],
    [Edge(2, 4), Edge(4, 5), Edge(4, 6), Edge(4, 7), Edge(4, 8), Edge(4, 9), Edge(4, 10),
     Edge(4, 1), Edge(4, 0), Edge(4, 3), Edge(8, 1), Edge(10, 5), None, Edge(2, 3)])
SMALL = (GRAPH_A, GRAPH_B, GRAPH_C, TWO_LOOPS, TWO_FILES, SCOPED, KINDS)


def add_small_graphs(cases):
    """Files and limits on small graphs; the starred case is the first."""
    for graph in SMALL:
        cases.load(graph)
        cases.lend([RUBBISH] * (FIRST_RECORD + 10 * RECORD + 7), RUBBISH)
        cases.fresh()
        for file in [*range(graph.files), graph.files, 256, 65_536, LAST]:
            cases.replace(file)
            if graph == GRAPH_A and file == 0:
                check_starred(cases)
        cases.lookups(*range(min(cases.words[USED], 8)))
        for file, number in itertools.product(range(graph.files), (0, 1, 2, 3, 8)):
            cases.either(file, length=number)
            cases.both(file, count=number)
        for limit in (MOST_EDGES, 2**32, 2**64 - 1):
            cases.either(0, length=limit, count=limit)
        for length, count in ((0, 0), (1, 3), (2, 5), (2, 9), (1, 100)):
            cases.either(graph.files - 1, length, count)


def check_starred(cases):
    """What document 01 states of A."""
    stated = [(2, 3, (0,)), (3, 4, (1,)), (3, 5, (2,)), (2, 4, (0, 1)), (2, 5, (0, 2))]
    if slots(cases.words) != [PartialPath(0, *path) for path in stated]:
        raise ValueError(f"A: {slots(cases.words)}")
    if extracted(GRAPH_A, Extraction(0)).counts[0] != 8:
        raise ValueError("A: not 8 expansions")


def add_damaged_images(cases):
    """The image is refused before anything else is looked at."""
    for number, data in enumerate(damaged_images()):
        cases.image(data)
        words = ([], [0, 0], [0, 6, 1], [9, 9, 9, 9], [0, LAST, LAST] + [RUBBISH] * RECORD,
                 [1, 6, 1] + record(PartialPath(0, 2, 4, (0, 1))))[number % 6]
        cases.lend(words, RUBBISH)
        cases.fresh()
        cases.replace(0, "d", 0, 0, work=cases.rng.choice((0, 1, SLOT, 300)))
        cases.replace(LAST, work=5)
        cases.lookup(0)


def add_areas(cases):
    """31 about the slots that a computation takes, and about the starts."""
    for graph, file in [(graph, graph.files - 1) for graph in SMALL] + [(TWO_FILES, 0)]:
        cases.load(graph)
        for order in "bd":
            waiting = extracted(graph, Extraction(file, order)).most_waiting
            starts = extracted(graph, Extraction(file, order, count=0)).most_waiting
            cases.empty(30)
            for work in sorted({*around(waiting), *around(starts), SLOT * (waiting + 3)}):
                enough = work // SLOT >= waiting
                told, _ = extracted_told(graph, Extraction(file, order, waiting=work // SLOT))
                if enough != isinstance(told, tuple):
                    raise ValueError(f"{waiting} waiting, {work} words: {told}")
                cases.replace(file, order, work=work)
            cases.replace(file, order, count=0, work=SLOT * starts)
            cases.replace(file, order, count=0, work=SLOT * starts - 1)
            cases.replace(file, order, length=0, work=SLOT * starts)
            cases.replace(LAST, order, work=0)


def add_room(cases):
    """33 about the slots that are lent, with any words behind the used ones."""
    for graph in (GRAPH_A, TWO_FILES, KINDS):
        cases.load(graph)
        found = len(extracted(graph, Extraction(0)).paths)
        for records, extra in itertools.product(
                (0, 1, found - 1, found, found + 1), (0, 1, RECORD - 1)):
            cases.empty(records, extra, cases.rng.choice((0, RUBBISH, LAST, 1)))
            cases.replace(0, cases.rng.choice("bd"))
        for records in (2 * found - 1, 2 * found, 2 * found + 1):
            cases.empty(records, 3, RUBBISH)
            cases.replace(0, "b")
            cases.replace(0, "d")
            cases.replace(0, "b", length=1)
            cases.replace(0, "d", count=0)
            cases.lookups(0, found)
        for count in range(9):
            cases.empty(2, fill=RUBBISH)
            cases.replace(0, "b", count=count)
        # 31 comes before 33 even where the capacity is exceeded first
        for work in (1, 2, 3, 4, 5, 6):
            cases.empty(1)
            cases.replace(0, "b", work=work * SLOT)


def filed_on_a():
    """A database for A: slots 0 and 2 are live, 1 is dead and 3 not used, both with any words."""
    rubbish = [RUBBISH, LAST, LAST, 200, 7, LAST]
    dead, unused = [[*front, *rubbish[len(front):], *[0] * (RECORD - len(rubbish))]
                    for front in ([0], [])]
    return ([3, 6, 1] + record(PartialPath(0, 2, 4, (0, 1))) + dead
            + record(PartialPath(0, 3, 5, (2,))) + unused + [RUBBISH] * 4)


def add_malformed(cases):
    """35 to the letter: one word altered at a time, and lengths cut."""
    cases.load(GRAPH_A)
    good = filed_on_a()
    altered = [(USED, used) for used in (0, 1, 2, 4, 5, LAST)]
    altered += [(NODES, nodes) for nodes in (0, 2, 3, 4, 5, 7, LAST)]
    altered += [(FILES, files) for files in (0, 2, LAST)]
    for number, (field, values) in itertools.product((0, 1, 2, 3), (
            (OWNER, (0, 1, 2, 3, LAST)), (START, (0, 5, 6, 7, 65_536, LAST)),
            (END, (6, LAST)),
            (COUNT, (0, 1, *range(MOST_EDGES, MOST_EDGES + 3), FORMER_EDGES, LAST)),
            (EDGES, (3, LAST)), (RECORD - 1, (1, LAST)))):
        altered += [(place(number) + field, value) for value in values]
    for at, value in altered:
        words = list(good)
        words[at] = value
        cases.lend(words)
        cases.lookups(0, 1, 2)
        cases.replace(cases.rng.choice((0, 0, 0, 1)), cases.rng.choice("bd"),
                      count=cases.rng.choice((0, 1, 2, 3)),
                      work=cases.rng.choice((0, 2 * SLOT, 4 * SLOT)))
    for length in (0, 1, 2, 3, 4, place(2), place(3) - 1, place(3), place(3) + 1):
        for used in (0, 1, 2, 3):
            cases.lend(([used] + good[1:])[:length])
            cases.lookup(0)
            cases.replace(0, "b", count=1)
        cases.fresh()


def add_outgrown(cases):
    """34 about the graph's N and F, and what comes before and behind it."""
    for graph in (GRAPH_A, TWO_FILES):
        cases.load(graph)
        nodes, files = len(graph.nodes), graph.files
        for n, f in ((nodes, files), (nodes + 1, files), (nodes, files + 1), (nodes - 1, files),
                     (nodes, files - 1), (nodes - 1, files + 1), (nodes + 1, files - 1),
                     (0, 0), (LAST, files), (nodes, LAST), (65_536 + nodes, files)):
            for used, file in ((0, 0), (1, files - 1), (1, LAST), (9, 0)):
                words = [used, n, f] + record(None) + [0] * (8 * RECORD)
                cases.lend(words)
                cases.replace(file, cases.rng.choice("bd"), work=cases.rng.choice((0, 20 * SLOT)))
                cases.lookup(0)


def malformed_and_outgrown():
    """Words that meet 35 and store an N or an F above those of A, so that they meet 34 as well."""
    nodes, files = len(GRAPH_A.nodes), GRAPH_A.files
    yield [9, 8, 1, 0]
    for n, f in ((nodes + 1, files), (nodes, files + 1), (LAST, LAST)):
        yield [1, n, f] + record(None)[:-1]
        live = record(PartialPath(0, 2, 4, (0, 1)))
        for field, value in ((OWNER, min(f + 2, LAST)), (START, n), (COUNT, 0),
                             (COUNT, MOST_EDGES + 1)):
            words = [1, n, f] + live[:field] + [value] + live[field + 1:]
            # a file + 1 of 32 bits is never above an F of as many
            if is_malformed(words):
                yield words


def add_both_refused(cases):
    """35 comes before 34, and both before the file."""
    cases.load(GRAPH_A)
    for words in malformed_and_outgrown():
        cases.lend(words)
        cases.replace(0)
        cases.replace(LAST, "d", work=0)
        cases.lookup(0)


def row(count, last, doubled=None):
    """An exported scope, so many edges in a row along scopes, the last node as given."""
    nodes = [Node(SCOPE, flag=True)] + [Node(SCOPE)] * (count - 1) + [last]
    edges = [Edge(node, node + 1) for node in range(2, 2 + count)]
    if doubled is not None:
        edges.insert(doubled, edges[doubled])
    return Graph(1, ROOT_AND_JUMP + nodes, edges)


def add_long_routes(cases):
    """30, and the length limits about it; slots of 63 edges."""
    definition = Node(POP, symbol=7, flag=True)
    for count in range(MOST_EDGES - 1, MOST_EDGES + 3):
        cases.load(row(count, definition))
        for length, order in ((None, "b"), (MOST_EDGES - 1, "d"), (MOST_EDGES, "b"),
                              (MOST_EDGES + 1, "d")):
            cases.empty(2, fill=RUBBISH)
            cases.replace(0, order, length, work=4 * SLOT)
        cases.lookups()
        for limit in (MOST_EDGES, MOST_EDGES + 2):
            cases.empty(1)
            cases.replace(0, "b", count=limit, work=2 * SLOT)
        cases.empty(0)
        cases.replace(0, work=2 * SLOT)
        cases.replace(0, work=SLOT)
    # the edge behind the 63rd is on the route already, or belongs to no file
    back = row(MOST_EDGES - 1, Node(SCOPE, flag=True))
    last = len(back.nodes) - 1
    for graph in (back._replace(edges=back.edges + [Edge(last, 3)]),
                  back._replace(edges=back.edges + [Edge(last, 0), Edge(0, 0), Edge(0, 1)]),
                  back._replace(edges=back.edges + [Edge(last, 0), Edge(0, 2)]),
                  row(MOST_EDGES, definition, doubled=50)):
        cases.load(graph)
        for order, length in (("b", None), ("d", None), ("d", MOST_EDGES)):
            cases.empty(5)
            cases.replace(0, order, length, work=6 * SLOT)
        cases.lookup(1)


def add_most_records(cases):
    """A database uses at most 4,096 slots, also where more are lent."""
    cases.load(GRAPH_A)
    for lent, used, count in ((4_098, 4_091, None), (4_098, 4_092, None), (4_098, 4_096, 1),
                              (4_098, 4_096, 2), (4_098, 4_097, None), (4_096, 4_091, None),
                              (4_096, 4_097, None), (4_095, 4_091, None), (4_095, 4_096, None)):
        words = [used, 6, 1] + [0] * (RECORD * lent)
        for number in (0, used - 1, MOST_RECORDS - 1):
            if number < lent:
                words[place(number):place(number + 1)] = record(PartialPath(0, 3, 5, (2,)))
        cases.lend(words)
        cases.replace(0, "b", count=count)
        cases.lookups(MOST_RECORDS - 1, MOST_RECORDS)
    cases.fresh()


def cleared(graph, file):
    """The graph without the file's nodes and their edges."""
    gone = {number for number, node in enumerate(graph.nodes)
            if node.kind >= SCOPE and node.file == file}
    nodes = [Node(REMOVED) if number in gone else node for number, node in enumerate(graph.nodes)]
    edges = [None if edge is None or {edge.source, edge.target} & gone else edge
             for edge in graph.edges]
    return graph._replace(nodes=nodes, edges=edges)


def grown(rng, graph, files):
    """The graph with more nodes and edges, and more files if so many are asked."""
    graph = Graph(graph.files + files, list(graph.nodes), list(graph.edges))
    file = rng.randrange(graph.files)
    more = (Node(SCOPE, file, flag=True), Node(POP, file, 0, flag=True),
            Node(PUSH, file, 0, flag=True), Node(SCOPE, file))
    graph.nodes.extend(rng.sample(more, rng.randint(1, 3)))
    for _ in range(rng.randint(1, 4)):
        source = rng.choice([number for number, node in enumerate(graph.nodes)
                             if node.kind not in (REMOVED, JUMP)])
        targets = [number for number in range(len(graph.nodes)) if may_join(graph, source, number)]
        graph.edges.append(Edge(source, rng.choice(targets)))
    return graph


def cut(graph):
    """The graph without its last node."""
    last = len(graph.nodes) - 1
    edges = [None if edge is None or last in (edge.source, edge.target) else edge
             for edge in graph.edges]
    return graph._replace(nodes=graph.nodes[:-1], edges=edges)


def altered(rng, graph):
    """One of the graphs that a file may be filed again on."""
    draw = rng.random()
    if graph.files == 0:
        return grown(rng, graph, 1)
    if draw < 0.25:
        return cleared(graph, rng.randrange(graph.files))
    if draw < 0.85:
        return grown(rng, graph, rng.choice((0, 0, 1)))
    return cut(graph) if draw < 0.95 else graph._replace(files=graph.files - 1)


def few_paths(graph, most):
    """Whether every file has few partial paths."""
    for file in range(graph.files):
        found = extracted(graph, Extraction(file, count=200, edges=None))
        if found.flags[1] or len(found.paths) > most:
            return False
    return True


def add_refilings(cases, rng, chains):
    """One database through a row of altered graphs, each file filed now and then."""
    while chains > 0:
        graph = random_graph(rng, max_files=3, max_nodes=10, max_edges=8)
        if not few_paths(graph, 14) or extracted(graph, Extraction(0)).counts[1] < 2:
            continue
        chains -= 1
        cases.load(graph)
        cases.lend([rng.choice(FILLS)] * FIRST_RECORD + [0] * (RECORD * 60 + rng.randrange(RECORD)))
        cases.fresh()
        for file in range(graph.files):
            cases.replace(file, rng.choice("bd"), work=40 * SLOT)
        for _ in range(5):
            other = next_graph(rng, graph)
            refile(cases, rng, other)
            # a smaller graph is turned away, and the larger one is gone on with
            if len(other.nodes) >= len(graph.nodes) and other.files >= graph.files:
                graph = other


def refile(cases, rng, graph):
    """Some files of a graph are filed in the database as it is."""
    cases.load(graph)
    for file in rng.sample(range(graph.files), rng.randint(min(1, graph.files), graph.files)):
        cases.replace(file, rng.choice("bd"), rng.choice((None, None, 2)),
                      rng.choice((None, None, 6)), work=40 * SLOT)
    cases.lookups(*rng.sample(range(60), 2))


def next_graph(rng, graph):
    """An accepted graph with few partial paths."""
    while True:
        other = altered(rng, graph)
        if broken_rule(other) is None and few_paths(other, 14):
            return other


def add_large_graph(cases, rng):
    """As many nodes, edges and files as there may be."""
    graph = mixed_graph(rng)
    cases.load(graph)
    cases.lend([0, 0, 0] + [0] * (60 * RECORD))
    cases.fresh()
    for file in [0, 1, 100, 255, 256, *rng.sample(range(256), 8)]:
        cases.replace(file, rng.choice("bd"), count=20, work=60 * SLOT)
    cases.lookups(*range(8))


# Edges 1 and 6 lead from root to root, 4 from root to jump; all others have an end in the file.
ALIASED = Graph(1, ROOT_AND_JUMP + [Node(PUSH, symbol=7, flag=True), Node(SCOPE, flag=True)],
                [Edge(2, 0), Edge(0, 0), Edge(0, 3), Edge(3, 1), Edge(0, 1), Edge(3, 0),
                 Edge(0, 0), Edge(3, 3)])
# The fewest edges with which an edge from root to jump, 3, leads to a definition.
OVER_JUMP = Graph(1, ROOT_AND_JUMP + [
    Node(PUSH, symbol=7, flag=True), Node(PUSH_SCOPED, symbol=9, scope=5),
    Node(POP_SCOPED, symbol=9), Node(SCOPE, flag=True), Node(POP, symbol=7, flag=True)],
    [Edge(2, 3), Edge(3, 4), Edge(4, 0), Edge(0, 1), Edge(5, 6)])
WITH_ALIASES = (GRAPH_C, TWO_FILES, ALIASED, OVER_JUMP)


def check_aliases():
    """The lists that belong to no file, found by hand, and how many there are of six loops."""
    breadth = [(1,), (4,), (6,), (1, 4), (1, 6), (6, 1), (6, 4), (1, 6, 4), (6, 1, 4)]
    depth = [(1,), (4,), (6,), (1, 4), (1, 6), (1, 6, 4), (6, 1), (6, 4), (6, 1, 4)]
    stated = ((GRAPH_C, "b", [(1,)]), (OVER_JUMP, "b", [(3,)]), (ALIASED, "b", breadth),
              (ALIASED, "d", depth), (GRAPH_A, "b", []))
    for graph, order, lists in stated:
        found = extracted(graph, Extraction(None, order)).paths
        ends = [graph.edges[edges[-1]].target for edges in lists]
        if found != [PartialPath(NOBODY, 0, *path) for path in zip(ends, lists)]:
            raise ValueError(f"{graph}: {found}")
    six = Graph(0, ROOT_AND_JUMP, [Edge(0, 0)] * 6 + [Edge(0, 1)])
    if len(extracted(six, Extraction(None)).paths) != 3_913:
        raise ValueError("six loops and an edge to jump")


def filed_with_aliases(graph, before, records):
    """A fresh database in which every file was replaced, the set of no file behind so many."""
    words = fresh(graph, [0] * place(records))
    owners = list(range(graph.files))
    owners.insert(before, None)
    for file in owners:
        words = replaced(graph, Extraction(file), words)[1]
    return words


def add_aliases(cases):
    """Slots that belong to no file beside those of files."""
    check_aliases()
    for graph in WITH_ALIASES:
        cases.load(graph)
        for before in range(graph.files + 1):
            cases.lend(filed_with_aliases(graph, before, 80))
            cases.lookups(*range(min(cases.words[USED], 6)))
            for file in [*range(graph.files), NOBODY - 1, NOBODY, ALIASES, ALIASES + 1]:
                cases.replace(file, cases.rng.choice("bd"), work=30 * SLOT)
            cases.lookups(*cases.rng.sample(range(cases.words[USED]), 3))
            cases.replace(0, "b", length=1)
            cases.replace(0, "d", count=0)
    add_aliases_in_the_way(cases)
    add_malformed_aliases(cases)


def add_aliases_in_the_way(cases):
    """Slots of no file take room of which 33 speaks; 31 comes first."""
    cases.load(GRAPH_C)
    filed = filed_with_aliases(GRAPH_C, 0, 4)
    for records in (4, 6, 7, 8):
        cases.lend(filed + [RUBBISH] * (RECORD * (records - 4)))
        cases.replace(0, "d")
        cases.replace(0, "b", work=SLOT)
        cases.lookup(0)


def aliased_words():
    """A database for C: slots 0 and 3 belong to no file, 1 to file 0, 2 is dead with any words."""
    dead = [0, RUBBISH, LAST, 200, ALIASES] + [0] * (RECORD - 6) + [ALIASES]
    behind = record(PartialPath(NOBODY, 0, 0, (1,)))[:-1] + [RUBBISH]
    return ([4, 4, 1] + behind + record(PartialPath(0, 2, 3, (0, 2))) + dead
            + record(PartialPath(NOBODY, 2, LAST, (0, 1, LAST)))
            + [RUBBISH] * 5 + [0] * (3 * RECORD - 5))


def malformed_aliases():
    """Such words with one altered, so that each demand of 35 is met and broken by one."""
    good = aliased_words()
    altered_words = [(NODES, nodes) for nodes in (0, 1, 2, 3, 5, LAST)]
    altered_words += [(FILES, files) for files in (0, 2, NOBODY, ALIASES, ALIASES + 1)]
    for number, (field, values) in itertools.product((0, 3), (
            (OWNER, (0, 1, 2, NOBODY, ALIASES, ALIASES + 1, LAST)),
            (START, (0, 3, 4, ALIASES, LAST)),
            (COUNT, (0, 1, MOST_EDGES, MOST_EDGES + 1, ALIASES)), (END, (LAST,)),
            (EDGES, (3, LAST)))):
        altered_words += [(place(number) + field, value) for value in values]
    for at, value in altered_words:
        yield good[:at] + [value] + good[at + 1:]


def add_malformed_aliases(cases):
    """35 and 34 with slots of no file, before the file and the areas."""
    cases.load(GRAPH_C)
    for words in malformed_aliases():
        cases.lend(words)
        cases.lookups(0, 1, 3)
        cases.replace(NOBODY, work=0)
        cases.replace(0, cases.rng.choice("bd"), count=cases.rng.choice((0, 2, None)))


def any_limit(rng):
    """Absent, none, small, or very large."""
    return rng.choices((None, 0, rng.randint(1, 4), rng.randint(2, 12), rng.getrandbits(64)),
                       (50, 5, 20, 22, 3))[0]


def any_count(rng, graph, file):
    """A limit on the path count; never absent where the computation would not end soon."""
    told, paths = extracted_told(graph, Extraction(file, count=MANY, edges=None))
    if isinstance(told, tuple) and (told[1][1] == 1 or len(paths) > 25):
        return rng.randint(0, 40)
    return any_limit(rng)


def any_words(rng, graph):
    """A database with any slots, most of them sound, of a graph that was smaller or not."""
    nodes = max(0, len(graph.nodes) - rng.choice((0, 0, 0, 1, 3)))
    files = max(0, graph.files - rng.choice((0, 0, 0, 1)))
    records, fill = rng.choice((6, 12, 30, 30)), rng.choice((0, 0, 1, RUBBISH))
    used = rng.randint(0, min(records, 8))
    words = [used, nodes, files] + [fill] * (RECORD * records + rng.choice((0, 0, 1, RECORD - 1)))
    for number in range(used):
        draw = rng.random()
        path = PartialPath(rng.randrange(max(1, files)), rng.randrange(max(1, nodes)),
                           rng.randrange(nodes + 2),
                           tuple(rng.randrange(len(graph.edges) + 2)
                                 for _ in range(rng.choice((1, 1, 2, 3, 6)))))
        if draw < 0.25 or not nodes or not files:
            words[place(number)] = 0
        elif draw < 0.3:
            words[place(number)] = rng.choice((files + 1, LAST))
        else:
            written = record(path)[:EDGES + len(path.edges)]
            words[place(number):place(number) + len(written)] = written
    return words, fill


def add_random_graphs(cases, rng, graphs):
    """Random graphs with any words for a database, and calls one after another."""
    for _ in range(graphs):
        graph = random_graph(rng)
        cases.load(graph)
        words, fill = any_words(rng, graph)
        cases.lend(words, fill)
        for _ in range(5):
            file = rng.choices((rng.randrange(graph.files), graph.files, rng.getrandbits(32)),
                               (30, 1, 1))[0]
            cases.replace(file, rng.choice("bd"), any_limit(rng), any_count(rng, graph, file),
                          work=any_area(rng))
            cases.lookup(rng.randrange(cases.words[USED] + 1))
        if rng.random() < 0.3:
            cases.fresh()
            cases.replace(0, rng.choice("bd"), None, any_count(rng, graph, 0), work=40 * SLOT)


def any_area(rng):
    """Mostly a few slots, seldom many, with words that make no slot behind them."""
    slots_lent = rng.choices((0, rng.randint(1, 6), rng.randint(5, 30), 128), (2, 20, 60, 18))[0]
    return SLOT * slots_lent + rng.choice((0, 0, 0, 1, SLOT - 1))


def write(cases):
    """The list, which must hold every refusal of each kind."""
    for kind, wanted in WANTED.items():
        if set(cases.numbers[kind]) != wanted:
            raise SystemExit(f"{kind}: not just the wanted numbers: "
                             f"{wanted ^ set(cases.numbers[kind])}")
    write_list("partials", cases, NAMES)


def add_all(cases):
    """Every section in its order, and how many cases it adds."""
    sections = {
        "small graphs": add_small_graphs, "damaged images": add_damaged_images,
        "work areas": add_areas, "room": add_room, "malformed": add_malformed,
        "outgrown": add_outgrown, "long routes": add_long_routes,
        "most records": add_most_records,
        "refilings": lambda cases: add_refilings(cases, random.Random(2), chains=14),
        "large graph": lambda cases: add_large_graph(cases, random.Random(3)),
        "random graphs": lambda cases: add_random_graphs(cases, random.Random(4), graphs=30),
        "aliases": add_aliases, "malformed and outgrown": add_both_refused}
    for name, add in sections.items():
        before, size = cases.sums(), len(cases.written)
        add(cases)
        added = {kind: count - before[kind] for kind, count in cases.sums().items()}
        print(f"{name}: {added} in {len(cases.written) - size} bytes")


def main():
    """Write the list and tell what it holds."""
    parser = argparse.ArgumentParser(description=__doc__.splitlines()[0])
    parser.add_argument("--oracle", default=PROGRAM, help="the compiled oracle")
    arguments = parser.parse_args()
    with Oracle(arguments.oracle) as oracle:
        cases = CaseList(oracle)
        add_all(cases)
    for kind in WANTED:
        print(f"{NAMES[kind]} by number:", dict(sorted(cases.numbers[kind].items())))
    print("lookups by edges, 10 for more:", dict(sorted(cases.numbers["U"].items())))
    print("flags of length, path count:", dict(sorted(cases.flags.items())))
    print("paths filed, 10 for more:", dict(sorted(cases.paths.items())))
    print("done beside slots that belong to no file:", cases.beside_aliases)
    print("compared with the Rust:", dict(cases.compared))
    print("longest answer:", cases.longest)
    print("bytes:", len(cases.written))
    write(cases)


if __name__ == "__main__":
    main()
