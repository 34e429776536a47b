#!/usr/bin/env python3
"""Graph images for lists of test cases, and the compiled oracle to ask.

Used by scripts that write lists of requests and answers:

    from images import GRAPH_A, Oracle, image, random_graph

    with Oracle() as oracle:
        oracle.load(GRAPH_A)
        print(oracle.ask("D 2 b - - -"))

Document 01 defines the image and the small graphs A, B and C, document 02,
order 3, the second version, whose symbols have eight bytes. README.md lists
the requests. `python3 oracle/images.py --selftest` asks the oracle for the
starred results of document 01, in both versions.
"""

import argparse
import pathlib
import random
import subprocess
import sys
import threading
from typing import NamedTuple, Optional

REPOSITORY = pathlib.Path(__file__).resolve().parent.parent
PROGRAM = REPOSITORY / "target" / "oracle" / "target" / "release" / "oracle"

# The versions of an image, and the bytes of a symbol in each.
NARROW, WIDE = 1, 2
SYMBOL_BYTES = {NARROW: 4, WIDE: 8}
MAX_FILES, MAX_NODES, MAX_EDGES = 256, 2048, 4096
LEAST_PRECEDENCE, GREATEST_PRECEDENCE = -(2**31), 2**31 - 1

# The kinds of node, as the image numbers them.
(REMOVED, ROOT, JUMP, SCOPE, PUSH, POP, PUSH_SCOPED, POP_SCOPED,
 DROP_SCOPES) = range(9)
WITH_SYMBOL = (PUSH, POP, PUSH_SCOPED, POP_SCOPED)


class Node(NamedTuple):
    """One node. A field that its kind lacks stays as it is here.

    `flag` means exported on a scope, reference on a push or push-scoped node,
    definition on a pop or pop-scoped node.
    """
    kind: int
    file: int = 0
    symbol: int = 0
    scope: int = 0
    flag: bool = False


class Edge(NamedTuple):
    """One live edge. A removed edge is written as None instead."""
    source: int
    target: int
    precedence: int = 0


class Graph(NamedTuple):
    """A graph as an image describes it: records are numbered from 0."""
    files: int
    nodes: list[Node]
    edges: list[Optional[Edge]]

    def references(self):
        """The numbers of the references, ascending."""
        return [number for number, node in enumerate(self.nodes)
                if node.kind in (PUSH, PUSH_SCOPED) and node.flag]

    def outgoing(self, node):
        """The numbers of the live edges that leave a node, ascending."""
        return [number for number, edge in enumerate(self.edges)
                if edge is not None and edge.source == node]

    def symbols(self):
        """The symbols, each once, ascending."""
        return sorted({node.symbol for node in self.nodes if node.kind in WITH_SYMBOL})

    def renamed(self, names):
        """The graph with other symbols in the place of some of its own."""
        nodes = [node._replace(symbol=names.get(node.symbol, node.symbol))
                 if node.kind in WITH_SYMBOL else node for node in self.nodes]
        return self._replace(nodes=nodes)


def node_record(node, version=NARROW):
    """The bytes of a node record, with its count byte first."""
    rest = bytes([node.kind])
    if node.kind >= SCOPE:
        rest += node.file.to_bytes(2, "big")
    if node.kind in WITH_SYMBOL:
        rest += node.symbol.to_bytes(SYMBOL_BYTES[version], "big")
    if node.kind == PUSH_SCOPED:
        rest += node.scope.to_bytes(2, "big")
    if node.kind == SCOPE or node.kind in WITH_SYMBOL:
        rest += bytes([node.flag])
    return bytes([len(rest)]) + rest


def edge_record(edge):
    """The bytes of an edge record, with its count byte first."""
    if edge is None:
        return bytes([1, 0])
    rest = (bytes([1]) + edge.source.to_bytes(2, "big")
            + edge.target.to_bytes(2, "big")
            + edge.precedence.to_bytes(4, "big", signed=True))
    return bytes([len(rest)]) + rest


def image(graph, version=NARROW):
    """The bytes of the graph's image."""
    counts = (graph.files, len(graph.nodes), len(graph.edges))
    body = b"".join(
        [count.to_bytes(2, "big") for count in counts]
        + [node_record(node, version) for node in graph.nodes]
        + [edge_record(edge) for edge in graph.edges])
    return bytes([version]) + len(body).to_bytes(4, "big") + body


def broken_rule(graph):
    """The first rule of an accepted image that the graph breaks, or None.

    Refusals 1 and 2 concern bytes that `image` always writes well; what is
    left are the bounds (3), the records (4) and what they name (5).
    """
    if not (0 <= graph.files <= MAX_FILES
            and 2 <= len(graph.nodes) <= MAX_NODES
            and len(graph.edges) <= MAX_EDGES):
        return "3: a count is out of bounds"
    for number, node in enumerate(graph.nodes):
        if (node.kind == ROOT) != (number == 0) or (node.kind == JUMP) != (number == 1):
            return f"4: node {number}: root and jump are nodes 0 and 1 alone"
        if not REMOVED <= node.kind <= DROP_SCOPES:
            return f"4: node {number} has no known kind"
        if node.kind >= SCOPE and not 0 <= node.file < graph.files:
            return f"4: node {number} is in no file"
    for number, node in enumerate(graph.nodes):
        if node.kind == PUSH_SCOPED and not is_exported_scope(graph, node.scope, node.file):
            return f"5: node {number} has no live exported scope of its file"
    for number, edge in enumerate(graph.edges):
        if edge is not None and not may_join(graph, edge.source, edge.target):
            return f"5: edge {number} may not join its ends"
    return None


def is_exported_scope(graph, number, file):
    """Whether the number is that of a live exported scope of the file."""
    if not 0 <= number < len(graph.nodes):
        return False
    node = graph.nodes[number]
    return node.kind == SCOPE and node.flag and node.file == file


def may_join(graph, source, target):
    """Whether an edge may go from source to target."""
    for end in (source, target):
        if not 0 <= end < len(graph.nodes) or graph.nodes[end].kind == REMOVED:
            return False
    if source == 1:
        return False
    without_file = (ROOT, JUMP)
    from_node, to_node = graph.nodes[source], graph.nodes[target]
    return (from_node.kind in without_file or to_node.kind in without_file
            or from_node.file == to_node.file)


ROOT_AND_JUMP = [Node(ROOT), Node(JUMP)]
_REFERENCE_7 = Node(PUSH, symbol=7, flag=True)
_EXPORTED = Node(SCOPE, flag=True)
_DEFINITION_7 = Node(POP, symbol=7, flag=True)
_DEFINITION_8 = Node(POP, symbol=8, flag=True)

GRAPH_A = Graph(
    1, ROOT_AND_JUMP + [_REFERENCE_7, _EXPORTED, _DEFINITION_7, _DEFINITION_8],
    [Edge(2, 3), Edge(3, 4), Edge(3, 5, 1)])
GRAPH_B = Graph(
    1, ROOT_AND_JUMP + [_REFERENCE_7, _EXPORTED, _DEFINITION_7],
    [Edge(2, 3), Edge(2, 3, 1), Edge(3, 4), Edge(3, 4, 1)])
GRAPH_C = Graph(
    1, ROOT_AND_JUMP + [_REFERENCE_7, _DEFINITION_7],
    [Edge(2, 0), Edge(0, 0), Edge(0, 3)])

# Names for the symbols of these graphs of which only the high halves differ, and
# others of which only the low halves do.
FAR_APART = {7: 2**32 + 7, 8: 2**63 + 7, 9: 7}
HIGH_ALIKE = {7: 2**64 - 1, 8: 2**64 - 2, 9: 2**64 - 2**32}
# Symbols about the bounds of both widths; of some only the high halves differ.
BOUND_SYMBOLS = (0, 7, 2**32 - 1, 2**32, 2**32 + 7, 2**63 + 7, 2**64 - 1)


def full_graph(size):
    """A graph whose image in version 2 has so many bytes, about 65,536 of them.

    An exported scope, push-scoped nodes, of which the first is a reference with
    three edges to the scope, as many edges as there may be, and removed nodes
    for the bytes that are left. All symbols have a high half of their own.
    """
    edges = [Edge(3, 2)] * 3 + [Edge(0, 0)] * (MAX_EDGES - 3)
    scope, push = Node(SCOPE, flag=True), Node(PUSH_SCOPED, symbol=7, scope=2)
    record = len(node_record(push, WIDE))
    count, left = divmod(size - len(image(Graph(1, ROOT_AND_JUMP + [scope], edges), WIDE)), record)
    if left % 2 == 1:
        count, left = count - 1, left + record
    pushes = [push._replace(symbol=(number << 32) + 7, flag=number == 1)
              for number in range(1, 1 + count)]
    removed = [Node(REMOVED)] * (left // len(node_record(Node(REMOVED))))
    return Graph(1, ROOT_AND_JUMP + [scope] + pushes + removed, edges)


def random_graph(rng, max_files=3, max_nodes=16, max_edges=14, symbols=2):
    """A random accepted graph.

    Every kind of node and both kinds of edge occur, an attached scope may
    stand before or behind its push, edges may be doubled, and precedences may
    be negative. Some edges lie on routes that the path rules allow; the others
    are drawn blindly and are often rejected. Give every search of such a graph
    a limit of some hundred expansions, partial paths included: the number of
    paths grows fast with that of edges, even within the default sizes.
    """
    files = 1 + _low(rng, max_files)
    count = rng.randint(1, max_nodes - 2)
    nodes = ROOT_AND_JUMP + [_random_node(rng, files, symbols) for _ in range(count)]
    graph = Graph(files, [_with_scope(rng, nodes, node) for node in nodes], [])
    for _ in range(rng.randint(1, max_edges)):
        if len(graph.edges) >= max_edges:
            break
        if graph.references() and rng.random() < 0.2:
            _add_route(rng, graph, max_edges)
        else:
            graph.edges.append(_random_edge(rng, graph))
    return graph


def _random_node(rng, files, symbols):
    """A node of any kind but root and jump; its scope is chosen later.

    Exported scopes, references and definitions are the ends of partial paths
    and paths, hence more frequent than the rest.
    """
    kind = rng.choices(
        (REMOVED, SCOPE, PUSH, POP, PUSH_SCOPED, POP_SCOPED, DROP_SCOPES),
        (1, 4, 4, 5, 3, 3, 1))[0]
    if kind == REMOVED:
        return Node(REMOVED)
    symbol = _low(rng, symbols) if kind in WITH_SYMBOL else 0
    flag = kind != DROP_SCOPES and rng.random() < 0.7
    return Node(kind, _low(rng, files), symbol, flag=flag)


def _low(rng, bound):
    """A number below the bound, a low one more often, so that many agree."""
    return min(rng.randrange(bound), rng.randrange(bound))


def _with_scope(rng, nodes, node):
    """The node, a push-scoped one with an exported scope of its file.

    Without such a scope it becomes a push.
    """
    if node.kind != PUSH_SCOPED:
        return node
    scopes = [number for number, other in enumerate(nodes)
              if other.kind == SCOPE and other.flag and other.file == node.file]
    if not scopes:
        return node._replace(kind=PUSH)
    return node._replace(scope=rng.choice(scopes))


def _random_edge(rng, graph):
    """A removed edge, a double of an earlier one or a new one."""
    if rng.random() < 0.08:
        return None
    live = [edge for edge in graph.edges if edge is not None]
    precedence = _random_precedence(rng)
    if live and rng.random() < 0.1:
        return rng.choice(live)._replace(precedence=precedence)
    sources = [number for number, node in enumerate(graph.nodes)
               if node.kind not in (REMOVED, JUMP)]
    source = rng.choice(sources)
    targets = [number for number in range(len(graph.nodes))
               if may_join(graph, source, number)]
    return Edge(source, rng.choice(targets), precedence)


def _random_precedence(rng):
    """Mostly 0, else small of either sign, seldom an extreme."""
    extremes = (LEAST_PRECEDENCE, GREATEST_PRECEDENCE)
    return rng.choices(
        (0, rng.randint(-3, 3), rng.choice(extremes)), (6, 5, 1))[0]


# How much sooner than any other node a route goes on to these.
ROUTE_WEIGHTS = {POP: 3, PUSH_SCOPED: 3, POP_SCOPED: 8, JUMP: 8}


def _add_route(rng, graph, max_edges, max_length=8):
    """Add the edges of a route that the path rules allow from a reference.

    Drawn blindly, few edges would lead to a pop that meets its symbol, and
    hardly any to jump with a scope to take. Pops and jump are preferred, and a
    route ends where both stacks are empty.
    """
    end = rng.choice(graph.references())
    stacks = applied(graph.nodes[end], Stacks())
    for _ in range(max_length):
        ways = [(target, after) for target, node in enumerate(graph.nodes)
                if may_join(graph, end, target)
                and (after := applied(node, stacks)) is not None]
        if not ways or len(graph.edges) >= max_edges:
            return
        weights = [ROUTE_WEIGHTS.get(graph.nodes[target].kind, 1) for target, _ in ways]
        target, stacks = rng.choices(ways, weights)[0]
        graph.edges.append(Edge(end, target, _random_precedence(rng)))
        end = target
        if graph.nodes[target].kind == JUMP:
            end = stacks.scopes[-1]
            stacks = stacks._replace(scopes=stacks.scopes[:-1])
        if stacks == Stacks():
            return


class Stacks(NamedTuple):
    """Both stacks of a path, tops last; a symbol goes with its scopes or None."""
    symbols: tuple = ()
    scopes: tuple = ()


def applied(node, stacks):
    """The stacks after the node, or None where the path rules refuse it.

    A second reading of document 01, for drawing routes and for searches.py,
    which is compared with the oracle. Jump only asks for a scope here; the
    caller takes it off.
    """
    symbols, scopes = stacks
    if node.kind == PUSH:
        return Stacks(symbols + ((node.symbol, None),), scopes)
    if node.kind == PUSH_SCOPED:
        return Stacks(symbols + ((node.symbol, scopes + (node.scope,)),), scopes)
    if node.kind in (POP, POP_SCOPED):
        if not symbols or symbols[-1][0] != node.symbol:
            return None
        attached = symbols[-1][1]
        if (attached is None) != (node.kind == POP):
            return None
        return Stacks(symbols[:-1], scopes if attached is None else attached)
    if node.kind == JUMP and not scopes:
        return None
    return Stacks(symbols, () if node.kind == DROP_SCOPES else scopes)


class Oracle:
    """The compiled oracle, running beside this program."""

    def __init__(self, program=PROGRAM):
        if not pathlib.Path(program).exists():
            raise FileNotFoundError(f"{program} is missing: run oracle/build.sh")
        self.process = subprocess.Popen(
            [str(program)], stdin=subprocess.PIPE, stdout=subprocess.PIPE,
            text=True, encoding="ascii")

    def __enter__(self):
        return self

    def __exit__(self, *_):
        self.close()

    def close(self):
        """End the oracle, which ends by itself when requests stop."""
        self.process.stdin.close()
        self.process.stdout.close()
        self.process.wait()

    def ask(self, request):
        """The answer to one request."""
        return self.ask_all([request])[0]

    def ask_all(self, requests):
        """The answers to many requests, in their order.

        Requests are written by a second thread: the oracle stops reading them
        while nobody reads its answers.
        """
        requests = list(requests)
        writer = threading.Thread(target=self._send, args=(requests,))
        writer.start()
        answers = [self.process.stdout.readline() for _ in requests]
        writer.join()
        if answers and not answers[-1]:
            raise EOFError("the oracle ended")
        return [answer.rstrip("\n") for answer in answers]

    def _send(self, requests):
        self.process.stdin.write("".join(f"{request}\n" for request in requests))
        self.process.stdin.write("flush\n")
        self.process.stdin.flush()

    def load(self, graph, version=NARROW):
        """Load a graph; the oracle must have counted as it was meant."""
        answer = self.ask(load_request(graph, version))
        counts = (graph.files, len(graph.nodes), len(graph.edges))
        if answer != "ok {} {} {}".format(*counts):
            raise ValueError(f"the oracle did not load the graph: {answer}")

    def replace_all(self, graph, limits="b - -"):
        """A fresh database in which every file of the graph is replaced.

        Without limits this suits small graphs only.
        """
        return self.ask_all(
            ["N"] + [f"R {file} {limits}" for file in range(graph.files)])


def load_request(graph, version=NARROW):
    """The request that loads the graph."""
    return "G " + image(graph, version).hex()


def fields(answer):
    """The named fields of an answer that begins with ok, by name."""
    words = answer.split()
    if not words or words[0] != "ok":
        raise ValueError(f"not ok: {answer}")
    return dict(word.split("=", 1) for word in words[1:])


# What document 01 states of A, B and C: the request, then either the fields
# that it states or the whole answer. C is not starred.
FOUND_ON_A = {"exp": "3", "comp": "1", "rej": "1", "cyc": "0", "fl": "000", "paths": "0,1"}
STATED = {
    "A": (GRAPH_A, [
        ("D 2 b - - -", FOUND_ON_A),
        ("D 2 d - - -", FOUND_ON_A),
        ("D 2 b 1 - -", {"exp": "2", "fl": "100"}),
        ("D 2 b 2 - -", FOUND_ON_A),
        ("D 2 b - 0 -", {"exp": "0", "fl": "010"}),
        ("D 2 b - 2 -", {"exp": "2", "comp": "1", "fl": "010"}),
        ("D 2 b - 3 -", {"fl": "000"}),
        ("P 0 b - -", {"exp": "8", "paths":
                       "0:2:3:0;0:3:4:1;0:3:5:2;0:2:4:0,1;0:2:5:0,2"}),
        ("S 2 b - - -", {"exp": "4", "comp": "2", "rej": "2", "paths": "0,1"}),
        ("Y 2 0,2", "err 15 5"),
        ("Y 2 1", "err 13 2 3"),
    ]),
    "B": (GRAPH_B, [
        ("D 2 b - - -", {"exp": "7", "comp": "4", "paths": "1,3"}),
        ("D 2 b - - 3", {"comp": "4", "fl": "001", "paths": "-"}),
        ("L 2 b - - -", "err 20 2"),
    ]),
    "C": (GRAPH_C, [
        ("d 2 b - - -", {"paths": "0,2;0,1,2"}),
        ("s 2 b - - -", {"paths": "0,2"}),
    ]),
}


def check(what, got, wanted):
    """Stop with a message when an answer is not the wanted one."""
    if isinstance(wanted, dict) and got.startswith("ok"):
        found = fields(got)
        got = {name: found.get(name) for name in wanted}
    if got != wanted:
        sys.exit(f"{what}: got {got}, wanted {wanted}")


def check_stated(oracle):
    """Ask for everything in STATED, in both versions; the number of requests."""
    check("A's image", len(image(GRAPH_A)), 77)
    # three records with a symbol, each four bytes longer
    check("A's image in version 2", len(image(GRAPH_A, WIDE)), 89)
    return ask_stated(oracle, NARROW, {}) + sum(
        ask_stated(oracle, WIDE, names) for names in ({}, FAR_APART, HIGH_ALIKE))


def ask_stated(oracle, version, names):
    """Everything in STATED with these symbols; the number of requests."""
    asked = 0
    for name, (graph, cases) in STATED.items():
        graph = graph.renamed(names)
        check(name, broken_rule(graph), None)
        oracle.load(graph, version)
        oracle.replace_all(graph)
        for request, wanted in cases:
            check(f"{name}: {request}", oracle.ask(request), wanted)
            asked += 1
    return asked


def check_random(oracle, count, seed=1):
    """Load random graphs and search each; the number of complete paths.

    The searches must all be answered and some must find a path, or the
    generator would be of little use.
    """
    rng = random.Random(seed)
    complete = 0
    for number in range(count):
        graph = random_graph(rng)
        check(f"random graph {number}", broken_rule(graph), None)
        oracle.load(graph)
        requests = [f"D {reference} b - 1000 -" for reference in graph.references()]
        for answer in oracle.ask_all(requests):
            complete += int(fields(answer)["comp"])
    if complete == 0:
        sys.exit("no random graph had a complete path")
    return complete


def main():
    """Run the self-test."""
    parser = argparse.ArgumentParser(description=__doc__.splitlines()[0])
    parser.add_argument("--selftest", action="store_true", required=True)
    parser.add_argument("--oracle", default=PROGRAM, help="the compiled oracle")
    arguments = parser.parse_args()
    with Oracle(arguments.oracle) as oracle:
        asked = check_stated(oracle)
        count = 200
        complete = check_random(oracle, count)
    print(f"{asked} stated results of A, B and C agree; {count} random graphs "
          f"load; direct searches of their references found {complete} complete paths")


if __name__ == "__main__":
    main()
