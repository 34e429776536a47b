#!/usr/bin/env python3
"""Write the list of paths that the program cases replays.

    python3 oracle/path_cases.py [--oracle PROGRAM]

writes the second list of crates/cases/stdin, and into stdout what the program
must print of it, and tells how many cases of each sort there are. The expected answers
are the oracle's, that is the given Rust's, but for two things that the Rust
does not know: the refusals 1 to 5 of an image come from refusals.py, and the
bound of 63 edges is laid over the Rust here: an edge list that is longer is
answered as its first 63 edges are if these are refused, else by 30.

A case is a tag and what the tag says; numbers are big-endian:

    I  an image: its length in 4 bytes, then its bytes
    Y  a replay: reference in 4 bytes, edge list, answer
    C  is the path complete: the same
    H  does the left path shadow the right one: reference and edge list of the
       left, those of the right, answer

The cases behind an image, up to the next one, are asked of it. An edge list is
L, its count in 2 bytes and each edge in 4 bytes, or R, its count in 4 bytes
and the one edge that it repeats. An answer is a count in 2 bytes and as many
numbers of 4 bytes: document 01's number, 0 where nothing is refused, then

- behind a refusal its values;
- behind the 0 of C and H: 1 for yes, 0 for no;
- behind the 0 of Y: the end; each edge e as 0 and e, each jump to scope s as 1
  and s, and a 2 behind the last step; how many symbols there are, and from top
  to bottom each symbol as two numbers, the high one first, with 0 if no scopes
  are attached, else with 1 and these; the scope stack. A list of scopes is a
  count, then the scopes, the top first.

The list holds, in this order:

- the graphs A, B and C of document 01: every node, and numbers behind the
  last, as a reference; every edge list of up to three edges, and a number
  behind the last, from their reference; on B each two of the shorter lists as
  left and right;
- damaged images of A, one or more for each refusal 1 to 5, also with
  arguments that would be refused;
- a graph with every kind of node: the refusals 10 to 18, among them those for
  a removed node or edge and for numbers up to 4294967295, 13 with different
  pairs of nodes, also behind a jump; paths with jumps and dropped scopes; all
  reasons why a path is complete or not; refusals on either side of H; then
  random walks. 19 cannot happen: in an accepted graph every attached scope is
  a live exported scope of its file, and no other gets on the scope stack;
- loops at a scope and at a reference: 62, 63 and 64 edges, whatever the last
  one is, up to 64 symbols, and lists of 100,000 edges;
- scopes attached and taken off again, up to 32 at once; up to 21 jumps in a
  row; many symbols with many scopes each;
- edges of five precedences, from the least to the greatest, and edges into
  jump beside them: each two paths as left and right;
- random walks in a graph of 2,048 nodes and 4,096 edges in 256 files, with
  symbols of 32 bits;
- 150 random graphs with random walks from their references, which mostly
  follow edges that the Rust accepts;
- the graph with every kind of node in version 2 (document 02, order 3), with
  symbols that differ in their high halves alone, and in their low ones; random
  graphs with symbols of 64 bits.

All draws are seeded.
"""

import argparse
import collections
import itertools
import random

from images import (DROP_SCOPES, FAR_APART, GRAPH_A, GRAPH_B, GRAPH_C,
                    HIGH_ALIKE, POP, POP_SCOPED, PROGRAM, PUSH, PUSH_SCOPED,
                    REMOVED, ROOT_AND_JUMP, SCOPE, WIDE, Edge, Graph, Node,
                    Oracle, fields, image, random_graph)
from image_cases import mixed_graph
from refusals import checked
from searches import MOST_EDGES
from stored_lists import MOST_NUMBERS, write_list

# The refusal beyond the bound on the edges of a path.
TOO_LONG = 30
# The longest edge list that the program lends.
LONGEST = 100_000
LEAST, GREATEST = -(2**31), 2**31 - 1
LAST = 2**32 - 1
NAMES = {"Y": "replays", "C": "complete", "H": "shadows"}
# The list is of little use if one of these numbers is not expected of a kind.
WANTED = {0, 1, 2, 3, 4, 5, *range(10, 19), TOO_LONG}


def listed(numbers, separator=","):
    """The items of a list as the oracle writes it."""
    return [] if numbers == "-" else numbers.split(separator)


def scopes_told(scopes):
    """A list of scopes, written from bottom to top, as a count and the scopes from the top."""
    return [len(scopes)] + [int(scope) for scope in reversed(scopes)]


def symbol_told(symbol):
    """A symbol, its high word first, with its attached scopes."""
    number, *attached = symbol.split("/")
    words = list(divmod(int(number), 2**32))
    if not attached:
        return words + [0]
    return words + [1] + scopes_told(listed(attached[0], "."))


def path_told(answer):
    """The numbers of a replayed path."""
    found = fields(answer)
    told = [int(found["end"])]
    for step in listed(found["steps"]):
        told += [1, int(step.split(">")[1])] if step[0] == "j" else [0, int(step)]
    symbols = listed(found["sym"])
    told += [2, len(symbols)]
    for symbol in reversed(symbols):
        told += symbol_told(symbol)
    return told + scopes_told(listed(found["sco"]))


def error_told(answer):
    """The number of a refusal and its values."""
    words = answer.split()
    if words[0] != "err":
        raise ValueError(f"neither ok nor err: {answer}")
    return [int(word) for word in words[1:]]


def written(edges):
    """An edge list as the oracle reads it."""
    return ",".join(map(str, edges)) or "-"


def longs(numbers):
    """Numbers of 4 bytes each."""
    return b"".join(number.to_bytes(4, "big") for number in numbers)


def edge_list(edges):
    """An edge list as the program reads it; a long repetition is written short."""
    if len(edges) > LONGEST:
        raise ValueError("the program lends no edge list of that length")
    if len(edges) > 2 and len(set(edges)) == 1:
        return b"R" + longs([len(edges), edges[0]])
    return b"L" + len(edges).to_bytes(2, "big") + longs(edges)


class CaseList:
    """The cases so far, and how many there are by kind and number."""

    def __init__(self, oracle):
        self.oracle = oracle
        self.written = bytearray()
        self.latest = 0, "", []
        self.checked = []
        self.known = {}
        self.numbers = {kind: collections.Counter() for kind in NAMES}
        self.judged = collections.Counter()
        self.longest = 0

    def sums(self):
        """How many cases there are by kind."""
        return {kind: sum(numbers.values()) for kind, numbers in self.numbers.items()}

    def image(self, data):
        """An image; the oracle is given only an accepted one."""
        self.written += b"I" + longs([len(data)]) + data
        self.checked, self.known = checked(data), {}
        if self.checked[0] == 0:
            wanted = "ok {} {} {}".format(*self.checked[1:])
            answer = self.oracle.ask("G " + data.hex())
            if answer != wanted:
                raise ValueError(f"the oracle did not load the graph: {answer}")

    def ask(self, request):
        """The oracle's answer, asked once for each graph."""
        if request not in self.known:
            self.known[request] = self.oracle.ask(request)
        return self.known[request]

    def path(self, reference, edges):
        """The oracle's answer to a replay within the bound."""
        return self.ask(f"Y {reference} {written(edges[:MOST_EDGES])}")

    def refusal(self, reference, edges):
        """The refusal of a replay, or None."""
        if self.checked[0] != 0:
            return self.checked
        answer = self.path(reference, edges)
        if not answer.startswith("ok"):
            return error_told(answer)
        return [TOO_LONG] if len(edges) > MOST_EDGES else None

    def _add(self, kind, paths, answer):
        """One case: its paths and the answer."""
        if len(answer) > MOST_NUMBERS:
            raise ValueError("the program has no room for the answer")
        self.latest = len(self.written), kind, answer
        self.written += kind.encode()
        for reference, edges in paths:
            self.written += longs([reference]) + edge_list(edges)
        self.written += len(answer).to_bytes(2, "big") + longs(answer)
        self.numbers[kind][answer[0]] += 1
        self.longest = max(self.longest, len(answer))

    def replay(self, reference, edges):
        """A replay."""
        refusal = self.refusal(reference, edges)
        self._add("Y", [(reference, edges)],
                  refusal or [0] + path_told(self.path(reference, edges)))

    def complete(self, reference, edges):
        """A question for completeness."""
        refusal = self.refusal(reference, edges)
        self._add("C", [(reference, edges)],
                  refusal or self._holds(f"C {reference} {written(edges)}"))

    def shadows(self, left, left_edges, right, right_edges):
        """Two paths; a refusal of the left one comes first."""
        refusal = self.refusal(left, left_edges) or self.refusal(right, right_edges)
        request = f"H {left} {written(left_edges)} {right} {written(right_edges)}"
        self._add("H", [(left, left_edges), (right, right_edges)],
                  refusal or self._holds(request))

    def _holds(self, request):
        """0 and the judgement."""
        answer = self.ask(request)
        if answer not in ("ok 0", "ok 1"):
            raise ValueError(f"no judgement: {request}: {answer}")
        self.judged[f"{request[0]} {answer}"] += 1
        return [0, int(answer[3:])]

    def both(self, reference, edges):
        """A replay, and whether the path is complete."""
        self.replay(reference, edges)
        self.complete(reference, edges)


def lists_up_to(edges, length):
    """Every list of so many of the edges at most."""
    for count in range(length + 1):
        yield from map(list, itertools.product(edges, repeat=count))


def add_small_graphs(cases):
    """A, B and C, all of them small enough for every short list."""
    for graph in (GRAPH_A, GRAPH_B, GRAPH_C):
        cases.image(image(graph))
        beyond = len(graph.nodes)
        for reference in [*range(beyond + 1), 65_536 + 2, 2**31, LAST]:
            for edges in ([], [0], [0, 1]):
                cases.both(reference, edges)
        numbers = range(len(graph.edges) + 1)
        for edges in lists_up_to(numbers, 3):
            cases.replay(2, edges)
        for edges in lists_up_to(numbers, 2):
            cases.complete(2, edges)
    cases.image(image(GRAPH_B))
    short = list(lists_up_to(range(len(GRAPH_B.edges)), 2))
    for left, right in itertools.product(short, short):
        cases.shadows(2, left, 2, right)


def damaged_images():
    """Images for each refusal 1 to 5."""
    good = image(GRAPH_A)
    yield from (b"", good[:10], good[:-1], good + b"\0")
    # version; length; files, nodes, edges; kind of the first node; kind, file
    # and flag of the reference; kind of the first edge; both its ends
    for at, value in ((0, 3), (4, 0), (5, 2), (8, 1), (9, 255), (12, 3), (16, 9),
                      (18, 1), (23, 2), (len(good) - 29, 2), (len(good) - 27, 9),
                      (len(good) - 25, 6)):
        data = bytearray(good)
        data[at] = value
        yield bytes(data)


def add_damaged_images(cases):
    """The image is refused before anything else is looked at."""
    for data in damaged_images():
        cases.image(data)
        for reference, edges in ((2, [0, 1]), (LAST, [LAST]), (2, [0] * (MOST_EDGES + 1))):
            cases.both(reference, edges)
            cases.shadows(2, [0, 1], reference, edges)
            cases.shadows(reference, edges, 2, [0, 1])


# Every kind of node, references and definitions of both sorts and others.
RULES_NODES = ROOT_AND_JUMP + [
    Node(PUSH, symbol=7, flag=True), Node(SCOPE, flag=True),
    Node(POP, symbol=7, flag=True), Node(POP, symbol=8, flag=True),
    Node(PUSH_SCOPED, symbol=7, scope=3, flag=True), Node(POP_SCOPED, symbol=7, flag=True),
    Node(DROP_SCOPES), Node(REMOVED), Node(SCOPE, flag=True),
    Node(PUSH_SCOPED, symbol=8, scope=10), Node(POP_SCOPED, symbol=8),
    Node(PUSH, symbol=8), Node(POP, symbol=7), Node(SCOPE)]
RULES = Graph(1, RULES_NODES, [
    Edge(2, 3), Edge(3, 4), Edge(3, 5), Edge(3, 1), Edge(6, 3), Edge(3, 7), Edge(7, 1),
    Edge(3, 8), Edge(8, 1), None, Edge(3, 3), Edge(3, 11), Edge(11, 12), Edge(12, 11),
    Edge(12, 1), Edge(10, 12), Edge(10, 3), Edge(3, 0), Edge(0, 3), Edge(10, 1),
    Edge(7, 11), Edge(12, 10), Edge(3, 13), Edge(13, 3), Edge(2, 15), Edge(15, 4),
    Edge(3, 14), Edge(7, 8), Edge(8, 3), Edge(4, 3), Edge(5, 3), Edge(7, 3), Edge(12, 3),
    Edge(12, 8)])
# A reference, its edges, and what the path comes to: the refusal, or whether it
# is complete.
RULES_PATHS = [
    (9, [], [10, 9]), (16, [0], [10, 16]), (LAST, [LAST], [10, LAST]),
    (0, [], [11, 0]), (1, [], [11, 1]), (3, [1], [11, 3]), (4, [], [11, 4]),
    (11, [12], [11, 11]), (13, [23], [11, 13]), (8, [], [11, 8]),
    (2, [9], [12, 9]), (2, [34], [12, 34]), (2, [0, 4096], [12, 4096]),
    (2, [0, 1, 65_536], [12, 65_536]), (2, [LAST], [12, LAST]),
    (2, [1], [13, 2, 3]), (2, [0, 0], [13, 3, 2]), (2, [0, 1, 12], [13, 4, 11]),
    (6, [4, 5, 6, 19], [13, 3, 10]), (2, [0, 1, 18], [13, 4, 0]), (6, [18], [13, 6, 0]),
    (2, [0, 1, 29, 1], [14, 4]), (2, [0, 1, 29, 5], [14, 7]), (2, [0, 1, 29, 2], [14, 5]),
    (2, [0, 2], [15, 5]), (2, [0, 22, 23, 1], [15, 4]), (2, [0, 22, 23, 5], [15, 7]),
    (6, [4, 2], [15, 5]),
    (6, [4, 1], [16, 4]), (6, [4, 26], [16, 14]),
    (2, [0, 5], [17, 7]), (2, [0, 22, 23, 10, 5], [15, 7]),
    (2, [0, 3], [18, 1]), (6, [4, 5, 27, 8], [18, 1]), (6, [4, 5, 6, 3], [18, 1]),
    (2, [0, 7, 8], [18, 1]), (6, [4, 3], [18, 1]),
    # complete: at a definition with both stacks empty
    (2, [0, 1], True), (2, [0, 17, 18, 10, 1], True), (2, [24, 25], True),
    # no definition: a reference, a scope, root, a pop that is not marked
    (2, [], False), (2, [0], False), (2, [0, 17], False), (2, [0, 26], False),
    (2, [0, 1, 29], False), (6, [4, 5, 6], False),
    # symbols left; scopes left; both; scopes dropped
    (2, [0, 22, 23, 2], False), (6, [4, 5], False), (6, [4, 22, 23, 2], False),
    (2, [0, 11, 12, 32, 1], False), (6, [4, 5, 27], False),
    (2, [0, 11, 12, 33, 28, 1], True),
    # jumps: one, two, with scopes left behind them
    (6, [4, 5, 20, 12, 14], False), (6, [4, 5, 20, 12, 14, 19], False),
    (6, [4, 5, 20, 12, 14, 19, 3], [18, 1]), (2, [0, 11, 12, 14, 16, 1], True),
    (2, [0, 11, 12, 13, 12, 14, 19, 16, 1], True),
]


def add_rules(cases):
    """Each path rule; what is written above must be what the oracle says."""
    cases.image(image(RULES))
    for reference, edges, wanted in RULES_PATHS:
        refusal = cases.refusal(reference, edges)
        found = refusal or cases.ask(f"C {reference} {written(edges)}") == "ok 1"
        if found != wanted:
            raise ValueError(f"{reference} {edges}: {found} where {wanted} was meant")
        cases.both(reference, edges)
    good = (2, [0, 1])
    for reference, edges, _ in RULES_PATHS:
        cases.shadows(*good, reference, edges)
        cases.shadows(reference, edges, *good)
    refused = [path[:2] for path in RULES_PATHS if isinstance(path[2], list)]
    for left, right in zip(refused, refused[5:] + refused[:5]):
        cases.shadows(*left, *right)
    add_walks(cases, random.Random(1), RULES, replays=150, completes=40, pairs=60)


# A reference that pushes again and again, a scope with a loop, a definition.
LOOPS = Graph(1, ROOT_AND_JUMP + [
    Node(PUSH, symbol=7, flag=True), Node(SCOPE, flag=True), Node(POP, symbol=7, flag=True)],
    [Edge(2, 3), Edge(3, 3), Edge(3, 4), Edge(2, 2), Edge(3, 3, 1)])


def add_long_paths(cases):
    """Paths at and beyond the bound, and edge lists far beyond it."""
    cases.image(image(LOOPS))
    for count in (MOST_EDGES - 2, MOST_EDGES - 1, MOST_EDGES):
        turns = [0] + [1] * (count - 1)
        for last in ([], [1], [2], [2, 2], [0], [LAST], [1, 1], [2, LAST]):
            cases.both(2, turns + last)
        cases.shadows(2, turns + [4], 2, turns + [1])
        cases.shadows(2, turns[:-1] + [4], 2, turns[:-1] + [1])
        cases.shadows(2, turns, 2, [0])
        cases.shadows(2, [0], 2, turns + [1])
    for count in (*range(MOST_EDGES - 1, MOST_EDGES + 3), 127, 128, 255, 256, 257, 65_535, 65_536,
                  LONGEST):
        cases.both(2, [3] * count)
    for reference, edge in ((2, 0), (2, 1), (2, 3), (2, LAST), (3, 3), (LAST, 3)):
        cases.both(reference, [edge] * LONGEST)
        cases.shadows(reference, [edge] * LONGEST, 2, [3])
        cases.shadows(2, [3], reference, [edge] * LONGEST)
    cases.shadows(2, [3] * LONGEST, 2, [1] * LONGEST)


# Push-scoped nodes with three scopes, a pop-scoped node, and a way to jump.
CHAINS = Graph(1, ROOT_AND_JUMP + [
    Node(PUSH_SCOPED, symbol=7, scope=5, flag=True), Node(PUSH_SCOPED, symbol=7, scope=6),
    Node(POP_SCOPED, symbol=7, flag=True), Node(SCOPE, flag=True), Node(SCOPE, flag=True),
    Node(SCOPE, flag=True), Node(PUSH_SCOPED, symbol=7, scope=7), Node(DROP_SCOPES)],
    [Edge(2, 4), Edge(4, 3), Edge(3, 4), Edge(4, 8), Edge(8, 4), Edge(4, 1), Edge(5, 1),
     Edge(6, 1), Edge(7, 1), Edge(3, 3), Edge(8, 8), Edge(3, 8), Edge(8, 3), Edge(4, 9),
     Edge(5, 4), Edge(9, 3)])


def chain(count):
    """So many edges, by turns to a pop-scoped and a push-scoped node."""
    return [0, *itertools.islice(itertools.cycle([1, 2, 3, 4, 3, 4]), count)][:count]


def add_scope_chains(cases):
    """Scopes attached and taken off, scope by scope."""
    cases.image(image(CHAINS))
    for count in (*range(9), 15, 16, 30, 31, 32, 33, *range(MOST_EDGES - 2, MOST_EDGES + 2), 127):
        cases.both(2, chain(count))
    for count in (1, 3, 5, 7, 25, 41):
        jumps = all_jumps(cases, chain(count))
        for taken in sorted({1, 2, len(jumps) // 2, len(jumps)}):
            cases.both(2, chain(count) + jumps[:taken])
        cases.both(2, chain(count) + jumps + [6])
    for count, more in ((1, 3), (3, 5), (21, 30), (31, 28), (31, 30), (31, 31), (31, 32)):
        pushes = ([1] + [9, 11, 10, 12] * 20)[:more]
        cases.both(2, chain(count) + pushes)
        cases.both(2, chain(count) + [13, 15] + pushes[1:])
    add_walks(cases, random.Random(2), CHAINS, replays=60, completes=15, pairs=25)


def all_jumps(cases, edges):
    """Edges into jump behind the edges, until the scope stack is empty."""
    jumps = []
    while (answer := fields(cases.path(2, edges + jumps)))["sco"] != "-":
        jumps.append({"4": 5, "5": 6, "6": 7, "7": 8}[answer["end"]])
    return jumps


# Five precedences on the first edge and three on the second.
PRECEDENCES = Graph(1, ROOT_AND_JUMP + [
    Node(PUSH, symbol=7, flag=True), Node(SCOPE, flag=True), Node(POP, symbol=7, flag=True)],
    [Edge(2, 3, precedence) for precedence in (LEAST, -1, 0, 1, GREATEST)]
    + [Edge(3, 4, precedence) for precedence in (LEAST, 0, GREATEST)])

# Two references; edges into jump beside others, and edges behind the scope
# where the jump leads as well as the others.
BESIDE_JUMPS = Graph(1, ROOT_AND_JUMP + [
    Node(PUSH_SCOPED, symbol=7, scope=3, flag=True), Node(SCOPE, flag=True),
    Node(POP_SCOPED, symbol=7), Node(SCOPE), Node(POP, symbol=7, flag=True),
    Node(PUSH_SCOPED, symbol=7, scope=3, flag=True)],
    [Edge(2, 4, -1), Edge(4, 1), Edge(4, 1, 1), Edge(4, 3), Edge(4, 3, -2), Edge(4, 5, 1),
     Edge(3, 5), Edge(3, 5, 2), Edge(5, 5, -5), Edge(7, 4, 3)])


def walks_from(cases, graph, reference, length):
    """Every accepted edge list of up to so many edges."""
    found, last = [[]], [[]]
    for _ in range(length):
        last = [edges + [edge] for edges in last for edge in range(len(graph.edges))
                if cases.path(reference, edges + [edge]).startswith("ok")]
        found += last
    return found


def add_precedences(cases):
    """Each two paths as left and right."""
    for graph, references, length in ((PRECEDENCES, [2], 2), (BESIDE_JUMPS, [2, 7], 3)):
        cases.image(image(graph))
        paths = [(reference, edges) for reference in references
                 for edges in walks_from(cases, graph, reference, length)]
        for path in paths:
            cases.both(*path)
        for left, right in itertools.product(paths, paths):
            cases.shadows(*left, *right)


def any_edge(rng, graph):
    """An edge number, seldom one that is far beyond the graph."""
    return rng.choice((rng.randrange(len(graph.edges) + 2), rng.randrange(len(graph.edges) + 2),
                       rng.randrange(len(graph.edges) + 2), rng.getrandbits(32)))


def next_edge(cases, rng, graph, reference, edges, end):
    """An edge behind the path: mostly one that is accepted."""
    ways = graph.outgoing(end)
    if not ways or rng.random() < 0.04:
        return any_edge(rng, graph)
    good = [edge for edge in ways
            if cases.path(reference, edges + [edge]).startswith("ok")]
    return rng.choice(good if good and rng.random() < 0.9 else ways)


def walk(cases, rng, graph, reference, edges, length):
    """The edges and more of them, until there are so many or one is refused."""
    edges = list(edges)
    while len(edges) < length:
        answer = cases.path(reference, edges)
        if not answer.startswith("ok") or len(edges) > MOST_EDGES:
            break
        end = int(fields(answer)["end"])
        if not graph.outgoing(end) and rng.random() < 0.5:
            break
        edges.append(next_edge(cases, rng, graph, reference, edges, end))
    if rng.random() < 0.05:
        edges.insert(rng.randrange(len(edges) + 1), any_edge(rng, graph))
    return edges


def any_reference(rng, graph):
    """Mostly a reference, else any number."""
    if rng.random() < 0.95:
        return rng.choice(graph.references())
    return rng.choice((rng.randrange(len(graph.nodes) + 1), rng.getrandbits(32)))


def any_length(rng):
    """Short, seldom long, very seldom about the bound."""
    return rng.choices((rng.randint(0, 5), rng.randint(3, 12), rng.randint(10, 40),
                        rng.randint(MOST_EDGES - 7, MOST_EDGES + 3)), (60, 40, 6, 1))[0]


def add_walks(cases, rng, graph, replays, completes, pairs):
    """Random walks of each kind; the two of a pair often begin alike."""
    for number in range(replays + completes):
        reference = any_reference(rng, graph)
        edges = walk(cases, rng, graph, reference, [], any_length(rng))
        (cases.replay if number < replays else cases.complete)(reference, edges)
    for _ in range(pairs):
        left, right = any_reference(rng, graph), any_reference(rng, graph)
        left_edges, common = walk(cases, rng, graph, left, [], any_length(rng)), []
        if rng.random() < 0.85:
            right, common = left, left_edges[:rng.randrange(len(left_edges) + 1)]
        right_edges = walk(cases, rng, graph, right, common, len(common) + any_length(rng))
        cases.shadows(left, left_edges, right, right_edges)


def add_large_graph(cases, rng):
    """Random walks among as many nodes and edges as there may be."""
    graph = mixed_graph(rng)
    cases.image(image(graph))
    add_walks(cases, rng, graph, replays=80, completes=20, pairs=30)


def add_random_graphs(cases, rng, graphs):
    """Random graphs that have a reference with an edge, twenty cases on each."""
    while graphs > 0:
        graph = random_graph(rng)
        if any(graph.outgoing(reference) for reference in graph.references()):
            cases.image(image(graph))
            add_walks(cases, rng, graph, replays=11, completes=4, pairs=5)
            graphs -= 1


def add_wide_symbols(cases, rng, graphs):
    """Version 2: every path rule, and random graphs with symbols of 64 bits."""
    for names in (FAR_APART, HIGH_ALIKE):
        cases.image(image(RULES.renamed(names), WIDE))
        for reference, edges, _ in RULES_PATHS:
            cases.both(reference, edges)
        add_walks(cases, rng, RULES, replays=25, completes=10, pairs=5)
    while graphs > 0:
        graph = random_graph(rng)
        if any(graph.outgoing(reference) for reference in graph.references()):
            names = {symbol: rng.getrandbits(64) for symbol in graph.symbols()}
            cases.image(image(graph.renamed(names), WIDE))
            add_walks(cases, rng, graph, replays=11, completes=4, pairs=5)
            graphs -= 1


def write(cases):
    """The list, which must hold every refusal of each kind."""
    for kind, numbers in cases.numbers.items():
        if set(numbers) != WANTED:
            raise SystemExit(f"{kind}: not just the wanted numbers: {WANTED ^ set(numbers)}")
    write_list("paths", cases, NAMES)


def add_all(cases):
    """Every section in its order, and how many cases it adds."""
    sections = (add_small_graphs, add_damaged_images, add_rules, add_long_paths,
                add_scope_chains, add_precedences,
                lambda cases: add_large_graph(cases, random.Random(3)),
                lambda cases: add_random_graphs(cases, random.Random(4), graphs=150),
                lambda cases: add_wide_symbols(cases, random.Random(5), graphs=30))
    names = ("small graphs", "damaged images", "rules", "long paths", "scope chains",
             "precedences", "large graph", "random graphs", "wide symbols")
    for name, add in zip(names, sections):
        before, size = cases.sums(), len(cases.written)
        add(cases)
        added = {kind: count - before[kind] for kind, count in cases.sums().items()}
        print(f"{name}: {added} in {len(cases.written) - size} bytes")


def main():
    """Write the list and tell what it holds."""
    parser = argparse.ArgumentParser(description=__doc__.splitlines()[0])
    parser.add_argument("--oracle", default=PROGRAM, help="the compiled oracle")
    arguments = parser.parse_args()
    with Oracle(arguments.oracle) as oracle:
        cases = CaseList(oracle)
        add_all(cases)
    for kind, numbers in cases.numbers.items():
        print(f"{NAMES[kind]} by number:", dict(sorted(numbers.items())))
    print("judgements:", dict(sorted(cases.judged.items())))
    print("longest answer:", cases.longest)
    write(cases)


if __name__ == "__main__":
    main()
