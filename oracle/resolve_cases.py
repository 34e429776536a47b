#!/usr/bin/env python3
"""Write the inputs on which the gate runs the program resolve, and what it must print.

    python3 oracle/resolve_cases.py [--oracle PROGRAM]

writes NAME.in and NAME.out for each case into oracle/resolve_cases, where
.ci/resolve_cases.py finds them. An input is text: on each line bytes in
hexadecimal, then `*` and how often they stand there if not once, then a comment
behind `#`.

The statistics and paths of a search are the oracle's, that is the given Rust's.
The Rust knows neither areas of fixed size nor the bound of 63 edges, so 30, 31
and 32 are those of searches.py, which must agree with the Rust everywhere else.
The number of a refused image is that of refusals.py, a second reading of
documents 01 and 02, and 2 for more than 65,536 bytes. The cases:

- A, B and C of document 01;
- EXAMPLE of example.py, where all numbers on a line differ, and the order of
  the paths is breadth-first; the same with references whose searches are refused
  between others;
- as many paths as there are result slots, as many waiting as there are slots,
  as many edges as a path may have, and one more of each;
- graphs without a file, without a reference; one of the most bytes;
- in version 2 (document 02, order 3): A, EXAMPLE with symbols that differ in their
  high halves alone and with others that differ in the low ones, and one of the
  most bytes that an image may have;
- images that are refused by 1 to 5, among them those where two faults stand
  together and the first one is told; no bytes, and more than an image may have;
- one output that is wrong, the only one that .ci/resolve_cases.py must find.
"""

import argparse
import itertools
import pathlib

from example import EXAMPLE
from images import (FAR_APART, GRAPH_A, GRAPH_B, GRAPH_C, HIGH_ALIKE, NARROW, POP,
                    PROGRAM, PUSH, PUSH_SCOPED, ROOT_AND_JUMP, SCOPE, WIDE, Edge,
                    Graph, Node, Oracle, edge_record, fields, full_graph, image,
                    node_record)
from resolve_runs import MOST_BYTES, PRINTED_FOR_A, SLOTS, bytes_lines, search_lines
from search_cases import at_end, chain
from searches import MOST_EDGES

FOLDER = pathlib.Path(__file__).resolve().parent / "resolve_cases"
LONGEST = 63_499
NO_VERSION = 3
REFERENCE, DEFINITION = Node(PUSH, symbol=7, flag=True), Node(POP, symbol=7, flag=True)


def rust_lines(oracle, reference):
    """What is printed for a reference of the loaded graph, by the Rust's answer."""
    found = fields(oracle.ask(f"D {reference} b - - -"))
    paths = [] if found["paths"] == "-" else found["paths"].split(";")
    counted = "expanded {exp} complete {comp} rejected {rej} cycles {cyc}".format(**found)
    lines = [f"ref {reference} returned {len(paths)} {counted}"]
    return "\n".join(lines + [f"path {path.replace(',', ' ')}" for path in paths]) + "\n"


def graph_lines(oracle, graph, version):
    """The Rust's lines, but for searches that only areas and the bound refuse."""
    oracle.load(graph, version)
    lines = []
    for reference in graph.references():
        line = search_lines(graph, reference)
        if "refused" not in line and line != rust_lines(oracle, reference):
            raise ValueError(f"the Rust does not print {line}")
        lines.append(line)
    return "".join(lines)


def text_line(data, count, comment=""):
    """Bytes that stand there so often."""
    repeated = f" * {count}" if count > 1 else ""
    return f"{data.hex()}{repeated}{comment}\n"


def graph_text(graph, version=NARROW):
    """The head, then every record on a line, equal ones together."""
    data = image(graph, version)
    lines = [text_line(data[:11], 1, "  # version, length, F, N, M")]
    nodes = [node_record(node, version) for node in graph.nodes]
    for records, name in ((nodes, "node"), (map(edge_record, graph.edges), "edge")):
        number = 0
        for record, same in itertools.groupby(records):
            count = len(list(same))
            lines.append(text_line(record, count, f"  # {name} {number}"))
            number += count
    return "".join(lines)


def fan(count):
    """A reference with so many edges to one definition, and one with a single edge."""
    return Graph(1, ROOT_AND_JUMP + [REFERENCE, REFERENCE, DEFINITION],
                 [Edge(2, 4)] * count + [Edge(3, 4)])


def crowd(count):
    """A reference behind which so many paths wait at once, and one with a single edge."""
    return Graph(1, ROOT_AND_JUMP + [REFERENCE, REFERENCE, DEFINITION, Node(SCOPE)],
                 [Edge(2, 5)] * count + [Edge(3, 4)])


def with_refused():
    """EXAMPLE, then references that are refused by 31 and 32, each followed by another."""
    first = len(EXAMPLE.nodes)
    nodes = EXAMPLE.nodes + [REFERENCE] * 4
    edges = (EXAMPLE.edges + [Edge(first, 3)] * (SLOTS + 1) + [Edge(first + 1, 3)]
             + [Edge(first + 2, 4)] * (SLOTS + 1) + [Edge(first + 3, 4)])
    return Graph(EXAMPLE.files, nodes, edges)


def largest():
    """2,048 nodes and 4,096 edges, of as many bytes as records may have."""
    nodes = ([Node(SCOPE, flag=True)] + [Node(PUSH_SCOPED, scope=2)] * 2_044
             + [Node(PUSH_SCOPED, symbol=7, scope=2, flag=True)])
    return Graph(1, ROOT_AND_JUMP + nodes, [Edge(2_047, 2)] * 3 + [Edge(0, 0)] * 4_093)


def longest_wide():
    """The most bytes in version 2, with one symbol, so that equal records stand together."""
    graph = full_graph(MOST_BYTES)
    return graph.renamed({symbol: 2**64 - 1 for symbol in graph.symbols()})


GRAPHS = {
    "graph_a": GRAPH_A, "graph_b": GRAPH_B, "graph_c": GRAPH_C,
    "example": EXAMPLE, "example_with_refused": with_refused(),
    "fan_128": fan(SLOTS), "fan_129": fan(SLOTS + 1),
    "crowd_128": crowd(SLOTS), "crowd_129": crowd(SLOTS + 1),
    "edges_63": chain(MOST_EDGES - 1, at_end), "edges_64": chain(MOST_EDGES, at_end),
    "no_file": Graph(0, ROOT_AND_JUMP, []),
    "no_reference": Graph(1, ROOT_AND_JUMP + [Node(SCOPE), Node(PUSH, symbol=7)], [Edge(3, 2)]),
    "largest": largest(),
}
RENAMED = {
    "example_far_apart": EXAMPLE.renamed(FAR_APART),
    "example_high_alike": EXAMPLE.renamed(HIGH_ALIKE),
}
WIDE_GRAPHS = {"graph_a_wide": GRAPH_A, **RENAMED, "longest_wide": longest_wide()}


def changed(*changes):
    """A with bytes changed: place and byte of each."""
    data = bytearray(image(GRAPH_A))
    for at, byte in changes:
        data[at] = byte
    return bytes(data)


def sized(version, size):
    """So many bytes, with the length that is theirs and nothing else."""
    return bytes([version]) + (size - 5).to_bytes(4, "big") + bytes(size - 5)


# Of A, records begin at 11, 13, 15, 24, 29, 38, and edges at 47, 57, 67.
REFUSED = {
    "nothing": (b"", 2),
    "ten_bytes": (image(GRAPH_A)[:10], 2),
    "version": (changed((0, NO_VERSION)), 1),
    "version_and_counts": (changed((0, NO_VERSION), (8, 1)), 1),
    "version_of_other_records": (changed((0, WIDE)), 2),
    "length": (changed((4, 71)), 2),
    "length_and_version": (changed((4, 71), (0, NO_VERSION)), 2),
    "byte_missing": (image(GRAPH_A)[:-1], 2),
    "byte_left_over": (changed((4, 73)) + b"\0", 2),
    "record_miscounted": (changed((15, 9)), 2),
    "files_257": (changed((5, 1)), 3),
    "nodes_1": (changed((8, 1)), 3),
    "nodes_2049": (changed((7, 8), (8, 1)), 3),
    "edges_4097": (changed((9, 16), (10, 1)), 3),
    "root_missing": (changed((12, 3)), 4),
    "kind_9": (changed((16, 9)), 4),
    "flag_2": (changed((28, 2)), 4),
    "file_1": (changed((18, 1)), 4),
    "edge_kind_2": (changed((58, 2)), 4),
    "edge_from_jump": (changed((50, 1)), 5),
    "edge_to_no_node": (changed((72, 6)), 5),
    "edge_to_no_node_and_flag": (changed((72, 6), (37, 2)), 4),
    "longest": (sized(NARROW, LONGEST), 3),
    "longest_of_other_version": (sized(NO_VERSION, LONGEST), 1),
    "one_byte_too_many": (sized(NARROW, LONGEST + 1), 2),
    "one_byte_more_wide": (sized(WIDE, LONGEST + 1), 3),
    "one_byte_more_of_other_version": (sized(NO_VERSION, LONGEST + 1), 1),
    "most_bytes_read": (sized(WIDE, MOST_BYTES), 3),
    "most_bytes_read_narrow": (sized(NARROW, MOST_BYTES), 2),
    "most_bytes_read_of_other_version": (sized(NO_VERSION, MOST_BYTES), 1),
    "more_bytes_than_read": (sized(WIDE, MOST_BYTES + 1), 2),
    "many_bytes_behind_a": (image(GRAPH_A) + bytes(200_000), 2),
}


def bytes_text(data):
    """The bytes, with the zeros at the end counted."""
    front = data.rstrip(b"\0")
    return "".join(text_line(part, count) for part, count
                   in ((front, 1), (b"\0", len(data) - len(front))) if part and count)


def graph_cases(oracle):
    """Accepted images: input and output by name."""
    for graphs, version in ((GRAPHS, NARROW), (WIDE_GRAPHS, WIDE)):
        for name, graph in graphs.items():
            yield name, graph_text(graph, version), graph_lines(oracle, graph, version)


def refused_cases():
    """Refused ones, each with the number that it is there for."""
    for name, (data, number) in REFUSED.items():
        if bytes_lines(data) != f"refused {number}\n":
            raise ValueError(f"{name}: {bytes_lines(data)}")
        yield name, bytes_text(data), f"refused {number}\n"


def check_example(printed):
    """All numbers of each reference's line differ, so that exchanged ones show."""
    for line in printed.splitlines():
        found = [word for word in line.split() if word.isdigit()]
        if line.startswith("ref") and ("0" in found or len(set(found)) < len(found)):
            raise ValueError(f"equal numbers: {line}")


def main():
    """Every case, in a folder that holds nothing else."""
    parser = argparse.ArgumentParser(description=__doc__.splitlines()[0])
    parser.add_argument("--oracle", default=PROGRAM, help="the compiled oracle")
    arguments = parser.parse_args()
    with Oracle(arguments.oracle) as oracle:
        cases = [*graph_cases(oracle), *refused_cases()]
    printed = {name: output for name, _, output in cases}
    check_example(printed["example"])
    if any(printed[name] != printed["example"] for name in RENAMED):
        raise ValueError("another name of a symbol alters what is printed")
    if printed["graph_a"] != PRINTED_FOR_A:
        raise ValueError("document 01 prints something else for A")
    cases.append(("wrong", graph_text(GRAPH_A), PRINTED_FOR_A.replace("path 0 1", "path 0 2")))
    FOLDER.mkdir(exist_ok=True)
    for old in FOLDER.iterdir():
        old.unlink()
    for name, given, output in cases:
        (FOLDER / f"{name}.in").write_text(given, encoding="ascii")
        (FOLDER / f"{name}.out").write_text(output, encoding="ascii")
    print(f"{len(cases) - 1} cases and a wrong one")


if __name__ == "__main__":
    main()
