#!/usr/bin/env python3
"""Run the program resolve on many images and compare what it prints.

    python3 oracle/resolve_runs.py [--program PROGRAM]

PROGRAM is by default crates/resolve/out/resolve, which `rt run` in
crates/resolve and `rt ci` make. What it must print is laid down in document 01, "Small graphs"; the searches come
from searches.py and the refusals of an image from refusals.py. The images:

- A, B and C, with what document 01 prints for A; damaged images of A;
- no bytes, and zeros: about 63,499 bytes, where the size of an image of version
  1 is refused, and 65,536 and more, where the program stops reading;
- graphs in which a search is refused with 30, 31 or 32 between others that are
  not, and one with 128 returned paths, as many as there are slots;
- a graph without a file, one without a reference, one of 2,048 nodes;
- random graphs in which every search ends soon;
- all these graphs again in version 2 (document 02, order 3), the symbols of
  every other one moved to the high half.

All draws are seeded.
"""

import argparse
import random
import subprocess

from images import (GRAPH_A, GRAPH_B, GRAPH_C, POP, PUSH, REPOSITORY,
                    ROOT_AND_JUMP, SCOPE, WIDE, Edge, Graph, Node, image,
                    random_graph)
from path_cases import damaged_images
from refusals import Refused, checked
from search_cases import MANY, at_end, chain
from searches import MOST_EDGES, Request, searched

PROGRAM = REPOSITORY / "crates" / "resolve" / "out" / "resolve"
MOST_BYTES, SLOTS = 65_536, 128
PRINTED_FOR_A = "ref 2 returned 1 expanded 3 complete 1 rejected 1 cycles 0\npath 0 1\n"


def search_lines(graph, reference):
    """What is printed for one reference."""
    try:
        found = searched(graph, Request(reference, False, waiting=SLOTS, results=SLOTS))
    except Refused as refusal:
        return f"ref {reference} refused {refusal.told[0]}\n"
    paths = found.returned()
    expanded, complete, rejected, cycles = found.counts
    return (f"ref {reference} returned {len(paths)} expanded {expanded} complete {complete} "
            f"rejected {rejected} cycles {cycles}\n"
            + "".join(f"path {' '.join(map(str, path.edges))}\n" for path in paths))


def graph_lines(graph):
    """What is printed for the image of a graph."""
    return "".join(search_lines(graph, reference) for reference in graph.references())


def bytes_lines(data):
    """What is printed for bytes that are no accepted image."""
    number = 2 if len(data) > MOST_BYTES else checked(data)[0]
    if number == 0:
        raise ValueError("the image is accepted")
    return f"refused {number}\n"


def fan(count):
    """A reference with so many definitions behind it, and one with a single definition."""
    nodes = [Node(PUSH, symbol=7, flag=True)] * 2 + [Node(POP, symbol=7, flag=True)] * count
    edges = [Edge(2, 4 + number) for number in range(count)] + [Edge(3, 4)]
    return Graph(1, ROOT_AND_JUMP + nodes, edges)


def large_graph():
    """2,048 nodes: by turns a reference and its definition, with a symbol of their own."""
    nodes = [node for number in range(1_023) for node in (
        Node(PUSH, symbol=number, flag=True), Node(POP, symbol=number, flag=True))]
    return Graph(1, ROOT_AND_JUMP + nodes, [Edge(number, number + 1)
                                            for number in range(2, 2_048, 2)])


def refused_between():
    """A reference whose search is refused with 31, between two others."""
    nodes = [Node(PUSH, symbol=7, flag=True)] * 3 + [Node(SCOPE), Node(POP, symbol=7, flag=True)]
    edges = [Edge(2, 6), Edge(4, 6)] + [Edge(3, 5)] * (SLOTS + 1)
    return Graph(1, ROOT_AND_JUMP + nodes, edges)


def ends_soon(graph):
    """Whether every search of the graph is small."""
    found = [searched(graph, Request(reference, False, count=MANY))
             for reference in graph.references()]
    return all(each.flags[1] == 0 for each in found)


def wide_image(graph, number):
    """Its image in version 2, with the same paths whatever its number."""
    names = {symbol: symbol << 32 for symbol in graph.symbols()} if number % 2 else {}
    return image(graph.renamed(names), WIDE)


def runs(rng, count):
    """Pairs of bytes and what is printed for them."""
    yield image(GRAPH_A), PRINTED_FOR_A
    graphs = [GRAPH_A, GRAPH_B, GRAPH_C, Graph(0, ROOT_AND_JUMP, []),
              Graph(1, ROOT_AND_JUMP + [Node(SCOPE)], []), large_graph(), refused_between(),
              fan(SLOTS - 1), fan(SLOTS), fan(SLOTS + 1), chain(MOST_EDGES - 1, at_end),
              chain(MOST_EDGES, at_end)]
    while len(graphs) < count:
        graph = random_graph(rng)
        if ends_soon(graph):
            graphs.append(graph)
    for number, graph in enumerate(graphs):
        lines = graph_lines(graph)
        yield image(graph), lines
        yield wide_image(graph, number), lines
    sizes = (0, 1, 63_499, 63_500, MOST_BYTES - 1, MOST_BYTES, MOST_BYTES + 1, 200_000)
    for data in [*damaged_images(), *map(bytes, sizes)]:
        yield data, bytes_lines(data)


def main():
    """Every run; the first difference ends them."""
    parser = argparse.ArgumentParser(description=__doc__.splitlines()[0])
    parser.add_argument("--program", default=PROGRAM, help="the compiled program")
    arguments = parser.parse_args()
    made, refused = 0, set()
    for data, wanted in runs(random.Random(1), 400):
        ran = subprocess.run([arguments.program], input=data, capture_output=True, check=True)
        if ran.stdout.decode("ascii") != wanted:
            raise SystemExit(f"{data.hex()}: printed\n{ran.stdout}\nwhere this was meant:\n{wanted}")
        made += 1
        refused |= {line.split("refused ")[1] for line in wanted.splitlines() if "refused" in line}
    print(f"{made} runs, all as meant; refused with {', '.join(sorted(refused, key=int))}")


if __name__ == "__main__":
    main()
