#!/usr/bin/env python3
"""Lists of edges counted by their length, a second time from document 02, order 9.

    tallied(graph, reference, waiting)

answers the numbers of the call: 0 and 64 counts, or the refusal. Of every list of
distinct edges of the graph it is asked by itself whether the path rules take it from
the reference (`taken`), one edge after another and with no frontier; those that end
complete are counted by their length. A list that is refused is not made longer, as
its first edges would be refused again. Refusals are those of an unlimited direct
search, depth-first, in so many waiting slots and with no end of result slots
(searches.py).

    python3 oracle/tally.py

writes service/tests/tally/list.txt, which the test `tally` of service/ replays. Each
line has an image, the visible files, the reference, the slots of the work area, a bar
and the numbers of the answer without the zeros at their end:

- A, B and C of document 01, and all that is refused before a search;
- drawn graphs, of which a third hides files: each with as many slots as its search
  needs, with one fewer, and with none;
- chains that end at the bound of 63 edges and go on behind it, also by an edge that
  the path rules would reject;
- a fan in which lengths 2 to 63 are all counted;
- at the end a line whose answer is wrong, the only one that the test must find.

    python3 oracle/tally.py --selftest

compares both ways of counting on drawn graphs: each number with the lists that the
search of searches.py records, in either order, and their sum with its complete count.
"""

import argparse
import collections
import random

from images import (DROP_SCOPES, GRAPH_A, GRAPH_B, GRAPH_C, POP, PUSH, REMOVED, REPOSITORY,
                    ROOT_AND_JUMP, SCOPE, Edge, Graph, Node, image, random_graph)
from refusals import Refused
from searches import MOST_EDGES, Request, appended, direct, first_path, is_complete

LIST = REPOSITORY / "service" / "tests" / "tally" / "list.txt"
LENGTHS = MOST_EDGES + 1
# Drawn graphs with more paths are left out: the number of lists grows fast.
MOST_PATHS = 400
# The share of drawn graphs in which the reference has a complete path.
COMPLETE = 0.85


def seen(graph, visible):
    """The graph with what belongs to hidden files removed: document 02, order 8."""
    def is_hidden(number):
        return graph.nodes[number].kind >= SCOPE and graph.nodes[number].file not in visible
    nodes = [Node(REMOVED) if is_hidden(number) else node for number, node in enumerate(graph.nodes)]
    edges = [None if edge is None or is_hidden(edge.source) or is_hidden(edge.target) else edge
             for edge in graph.edges]
    return Graph(graph.files, nodes, edges)


def taken(graph, reference, edges):
    """The path of a list of edges, or None where the path rules refuse one of them."""
    path = first_path(graph, reference)
    for number in edges:
        edge = graph.edges[number]
        path = None if edge is None or edge.source != path.end else appended(graph, path, number)
        if path is None:
            return None
    return path


def lists(graph, reference, edges=()):
    """Every list of distinct edges that is taken and begins with these."""
    for number in range(len(graph.edges)):
        longer = edges + (number,)
        if number not in edges and taken(graph, reference, longer) is not None:
            yield longer
            yield from lists(graph, reference, longer)


def counts(graph, reference):
    """How many of each length are complete."""
    lengths = collections.Counter(len(edges) for edges in lists(graph, reference)
                                  if is_complete(graph, taken(graph, reference, edges)))
    return [lengths[length] for length in range(LENGTHS)]


def unlimited(reference, order="d", waiting=None):
    """The search without limits, with no end of result slots."""
    return Request(reference=reference, linear=False, order=order, waiting=waiting)


def tallied(graph, reference, waiting):
    """The numbers of the answer."""
    try:
        direct(graph, unlimited(reference, waiting=waiting))
    except Refused as refusal:
        return list(refusal.told)
    return [0] + counts(graph, reference)


def ends_soon(graph, reference):
    """Whether the search meets no refusal and few paths."""
    try:
        return not direct(graph, unlimited(reference)._replace(count=MOST_PATHS)).flags[1]
    except Refused:
        return False


def drawn(rng, share):
    """A drawn graph, the files that are visible, and a reference whose search ends soon; in this share with a complete path."""
    wanted = int(rng.random() < share)
    while True:
        graph = random_graph(rng, max_files=4)
        every = range(graph.files)
        visible = sorted(rng.sample(every, rng.randint(0, graph.files))) if rng.random() < 0.34 else list(every)
        shown = seen(graph, visible)
        references = [number for number in graph.references() if ends_soon(shown, number)
                      and direct(shown, unlimited(number)).counts[1] >= wanted]
        if references:
            return graph, visible, rng.choice(references)


def chain(length, behind):
    """A chain of so many edges from 2 to a definition, and nodes and edges behind that."""
    scopes = [Node(SCOPE)] * (length - 1)
    end = 2 + length
    nodes = ROOT_AND_JUMP + [Node(PUSH, symbol=7, flag=True), *scopes, Node(POP, symbol=7, flag=True), *behind]
    edges = [Edge(2 + at, 3 + at) for at in range(length)]
    return Graph(1, nodes, edges + [Edge(end + at, end + at + 1) for at in range(len(behind))])


def fan():
    """From each scope of a chain one edge leads on and one to the definition, which also ends the chain."""
    end = 2 + MOST_EDGES
    nodes = ROOT_AND_JUMP + [Node(PUSH, symbol=7, flag=True), *[Node(SCOPE)] * (MOST_EDGES - 1), Node(POP, symbol=7, flag=True)]
    edges = [Edge(2 + at, 3 + at) for at in range(MOST_EDGES)]
    return Graph(1, nodes, edges + [Edge(number, end) for number in range(3, end - 1)])


def line(graph, visible, reference, waiting, answer=None, data=None):
    """A line of the list."""
    told = list(tallied(seen(graph, visible), reference, waiting) if answer is None else answer)
    while len(told) > 1 and told[0] == 0 and told[-1] == 0:
        told.pop()
    data = image(graph) if data is None else data
    files = ",".join(map(str, visible)) or "-"
    return f"{data.hex()} {files} {reference} {waiting} | {' '.join(map(str, told))}"


def stated():
    """Document 01's graphs, and what is refused before a search."""
    for graph, need in ((GRAPH_A, 1), (GRAPH_B, 3), (GRAPH_C, 2)):
        yield from (line(graph, [0], 2, waiting) for waiting in (8, need, need - 1))
    yield line(GRAPH_A, [0], 6, 0)
    yield line(GRAPH_A, [0], 3, 0)
    yield line(GRAPH_A, [], 2, 8)
    yield line(GRAPH_A, [0], 6, 0, [2], image(GRAPH_A)[:-1])


def bounds():
    """About the bound on edges, where a chain goes on behind its definition."""
    push, again = Node(PUSH, symbol=7), Node(POP, symbol=7, flag=True)
    for length in (62, 63):
        yield line(chain(length, []), [0], 2, 1)
        yield line(chain(length, [push]), [0], 2, 1)
        yield line(chain(length, [again]), [0], 2, 1)
    yield line(chain(61, [push, again]), [0], 2, 1)
    yield line(chain(60, [Node(DROP_SCOPES), push, again]), [0], 2, 1)
    yield line(fan(), [0], 2, 8)
    yield line(fan(), [0], 2, 2)
    yield line(fan(), [0], 2, 1)


def random_lines(count, seed):
    """Drawn graphs with as many slots as are needed, with one fewer, and with none."""
    rng = random.Random(seed)
    for _ in range(count):
        graph, visible, reference = drawn(rng, COMPLETE)
        need = direct(seen(graph, visible), unlimited(reference)).most_waiting
        yield from (line(graph, visible, reference, waiting) for waiting in (need, need - 1, 0))


def selftest(count, seed):
    """Both ways of counting."""
    rng, several = random.Random(seed), 0
    for _ in range(count):
        graph, visible, reference = drawn(rng, COMPLETE)
        graph = seen(graph, visible)
        numbers = counts(graph, reference)
        several += sum(number > 0 for number in numbers) > 1
        for order in "bd":
            found = direct(graph, unlimited(reference, order))
            lengths = collections.Counter(len(path.edges) for path in found.recorded)
            assert numbers == [lengths[length] for length in range(LENGTHS)], (graph, reference)
            assert sum(numbers) == found.counts[1], (graph, reference)
        assert numbers[0] == 0
    print(f"{count} drawn graphs, {several} with complete paths of more than one length: no difference")


def main():
    """Write the list, or compare."""
    parser = argparse.ArgumentParser(description=__doc__.split("\n", 1)[0])
    parser.add_argument("--selftest", action="store_true")
    parser.add_argument("--count", type=int, default=120)
    parser.add_argument("--seed", type=int, default=9)
    arguments = parser.parse_args()
    if arguments.selftest:
        selftest(10 * arguments.count, arguments.seed)
        return
    rows = [*stated(), *bounds(), *random_lines(arguments.count, arguments.seed)]
    rows.append(line(GRAPH_B, [0], 2, 8, [0, 0, 0, 3]))
    LIST.parent.mkdir(parents=True, exist_ok=True)
    LIST.write_text("# Tallies and their answers, written by oracle/tally.py.\n" + "\n".join(rows) + "\n", encoding="ascii")
    print(f"{len(rows)} lines in {LIST.relative_to(REPOSITORY)}")


if __name__ == "__main__":
    main()
