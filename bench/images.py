#!/usr/bin/env python3
"""images.py FOLDER: writes our own images for run.sh, each with its .cfg, into FOLDER.

Small graphs, where the fixed cost of a call shows, and series: one shape at
four sizes that double, NAME-SIZE.img, for growth.py. Nothing is drawn by
chance. README.md says what each of them is for.
"""
import pathlib
import sys

sys.path.insert(0, str(pathlib.Path(__file__).resolve().parent.parent / "oracle"))
from images import (GRAPH_A, GRAPH_B, GRAPH_C, POP, POP_SCOPED, PUSH, PUSH_SCOPED, ROOT_AND_JUMP, SCOPE,
                    Edge, Graph, Node, broken_rule, image)

ROOT_NODE, JUMP_NODE = 0, 1
NAME, OTHER = 7, 8
BREADTH_FIRST, DEPTH_FIRST = "- - - - - 0", "- - - - - 0 d"
FIRST_SIXTEEN = "- - - - - 16"
LIMITED = "60 500 - - - 0 d"
SHORT = "3 - - 3 - 0"

# A path has at most 63 edges, a graph 2,048 nodes, a database 4,096 slots.
LENGTHS = (7, 15, 30, 60)
WIDTHS = (250, 500, 1000, 2000)
DEPTHS = (2, 5, 10, 20)
FILES = (32, 64, 128, 256)
BALLAST = (15, 30, 60, 120)
RINGS = (16, 32, 64, 128)
WAYS = (225, 450, 900, 1800)
PATHS = (256, 512, 1024, 2048)
SCOPES = (8, 16, 32, 64)
HEIGHTS = (3, 7, 15, 30)
TAIL = 60


class Drawing:
    """A graph to which nodes and edges are added, numbered as they come."""

    def __init__(self, files=1):
        self.graph = Graph(files, list(ROOT_AND_JUMP), [])

    def node(self, kind, symbol=0, file=0, scope=0, flag=False):
        self.graph.nodes.append(Node(kind, file, symbol, scope, flag))
        return len(self.graph.nodes) - 1

    def scope(self, file=0, exported=False):
        return self.node(SCOPE, file=file, flag=exported)

    def reference(self, symbol=NAME, file=0):
        return self.node(PUSH, symbol, file, flag=True)

    def definition(self, symbol=NAME, file=0):
        return self.node(POP, symbol, file, flag=True)

    def edge(self, source, target, precedence=0):
        self.graph.edges.append(Edge(source, target, precedence))

    def chain(self, source, length, target, file=0):
        """`length` edges from source to target, over scopes of the file."""
        for _ in range(length - 1):
            scope = self.scope(file)
            self.edge(source, scope)
            source = scope
        self.edge(source, target)


def small(count):
    """About `count` nodes and edges in groups of two references, a scope and seven definitions, one of them theirs."""
    drawing = Drawing()
    for group in range(count // 10):
        scope = drawing.scope()
        for _ in range(2):
            drawing.edge(drawing.reference(group), scope)
        for other in range(7):
            drawing.edge(scope, drawing.definition(group + other))
        drawing.edge(scope, ROOT_NODE)
    return drawing.graph


def chains(length):
    """Sixteen references, each with a chain of its own to its definition."""
    drawing = Drawing()
    for _ in range(16):
        drawing.chain(drawing.reference(), length, drawing.definition())
    return drawing.graph


def lanes(length):
    """One reference with four chains. Breadth-first they are followed in turn: a popped path shares no edge with the one popped before."""
    drawing = Drawing()
    reference = drawing.reference()
    for _ in range(4):
        drawing.chain(reference, length, drawing.definition())
    return drawing.graph


def fan(width, step=1, exported=False, last=NAME, precedence=0):
    """A reference, a scope and its definitions, of which every `step`th matches; the last one has a symbol and a precedence of its own."""
    drawing = Drawing()
    scope = drawing.scope(exported=exported)
    drawing.edge(drawing.reference(), scope)
    for number in range(1, width):
        drawing.edge(scope, drawing.definition(OTHER if number % step else NAME))
    drawing.edge(scope, drawing.definition(last), precedence)
    return drawing.graph


def files(count):
    """Files joined at root. Each names what the next one defines, over an exported scope on either side."""
    drawing = Drawing(count)
    for file in range(count):
        inside = drawing.scope(file, exported=True)
        drawing.edge(drawing.reference((file + 1) % count, file), inside)
        drawing.edge(inside, ROOT_NODE)
        outside = drawing.scope(file, exported=True)
        drawing.edge(ROOT_NODE, outside)
        drawing.edge(outside, drawing.definition(file, file))
        drawing.edge(outside, drawing.definition(count, file))
    return drawing.graph


def scopes(depth):
    """Eight references; each pushes and pops so many scoped symbols, then jumps through the scopes that are left, the last leading to its definition."""
    drawing = Drawing()
    for _ in range(8):
        end = drawing.reference()
        exits = [drawing.scope(exported=True) for _ in range(depth)]
        for number, scope in enumerate(exits):
            push = drawing.node(PUSH_SCOPED, number, scope=scope)
            pop = drawing.node(POP_SCOPED, number)
            drawing.edge(end, push)
            drawing.edge(push, pop)
            end = pop
        drawing.edge(end, JUMP_NODE)
        for scope in exits[1:]:
            drawing.edge(scope, JUMP_NODE)
        drawing.edge(exits[0], drawing.definition())
    return drawing.graph


def diamonds(paths, precedence=0, exits=False):
    """Double edges in a row, so that there are `paths` routes; the second edge of two has the precedence. With exits there is a definition at every scope."""
    drawing = Drawing()
    scope = drawing.scope()
    drawing.edge(drawing.reference(), scope)
    for _ in range(paths.bit_length() - 1):
        following = drawing.scope()
        drawing.edge(scope, following)
        drawing.edge(scope, following, precedence)
        if exits:
            drawing.edge(scope, drawing.definition())
        scope = following
    drawing.edge(scope, drawing.definition())
    return drawing.graph


def dead_ends(paths):
    """The same without a definition: nothing is ever complete, and no partial path is found."""
    drawing = Drawing()
    scope = drawing.scope()
    drawing.edge(drawing.reference(), scope)
    for _ in range(paths.bit_length() - 1):
        following = drawing.scope()
        drawing.edge(scope, following)
        drawing.edge(scope, following)
        scope = following
    return drawing.graph


def dense(count):
    """So many scopes, each with an edge to every other one, and a definition behind the last."""
    drawing = Drawing()
    reference = drawing.reference()
    scopes = [drawing.scope() for _ in range(count)]
    drawing.edge(reference, scopes[0])
    for source in scopes:
        for target in scopes:
            if source != target:
                drawing.edge(source, target)
    drawing.edge(scopes[-1], drawing.definition())
    return drawing.graph


def towers(height):
    """Four ways from one reference, each over so many pushes and as many pops: no step leaves the symbol stack as it was."""
    drawing = Drawing()
    reference = drawing.reference()
    for _ in range(4):
        last = reference
        for kind, symbols in ((PUSH, range(height)), (POP, reversed(range(height)))):
            for symbol in symbols:
                node = drawing.node(kind, 100 + symbol)
                drawing.edge(last, node)
                last = node
        drawing.edge(last, drawing.definition())
    return drawing.graph


def tails(count):
    """So many ways into one exported scope, and a long chain behind it: complete paths differ in their first two edges alone. Stitched search finds
    each of them twice."""
    drawing = Drawing()
    reference, meeting = drawing.reference(), drawing.scope(exported=True)
    for _ in range(count):
        drawing.chain(reference, 2, meeting)
    drawing.chain(meeting, TAIL, drawing.definition())
    return drawing.graph


def ballast(count, joined=False):
    """A reference beside its definition, and so many files of 32 partial paths that its search never meets: they start at a scope of their file, or
    joined at root."""
    drawing = Drawing(count)
    drawing.edge(drawing.reference(), drawing.definition())
    for file in range(1, count):
        source = ROOT_NODE if joined else drawing.scope(file, exported=True)
        for _ in range(16):
            definition = drawing.definition(file=file)
            drawing.edge(source, definition)
            drawing.edge(source, definition)
    return drawing.graph


def rings(count):
    """So many files, each with a ring of eight edges from root to root: a long path has been round many of them, and is tried with every one."""
    drawing = Drawing(count)
    drawing.edge(drawing.reference(), ROOT_NODE)
    for file in range(count):
        drawing.chain(ROOT_NODE, 8, ROOT_NODE, file)
    return drawing.graph


SMALL = {"graph_a": GRAPH_A, "graph_b": GRAPH_B, "graph_c": GRAPH_C, "small_60": small(60), "small_140": small(140)}
SERIES = {
    "chains": (LENGTHS, chains, BREADTH_FIRST),
    "lanes": (LENGTHS, lanes, BREADTH_FIRST),
    "fan_none": (WIDTHS, lambda width: fan(width, step=width, last=OTHER), BREADTH_FIRST),
    "fan_few": (WIDTHS, lambda width: fan(width, step=16), BREADTH_FIRST),
    "fan_all": (WIDTHS, fan, BREADTH_FIRST),
    "fan_rival": (WIDTHS, lambda width: fan(width, precedence=1), BREADTH_FIRST),
    "fan_threat": (WIDTHS, lambda width: fan(width, last=OTHER, precedence=1), BREADTH_FIRST),
    "fan_copies": (WIDTHS, lambda width: fan(width, exported=True), BREADTH_FIRST),
    "fan_depth": (WIDTHS, fan, DEPTH_FIRST),
    "files": (FILES, files, FIRST_SIXTEEN),
    "rings": (RINGS, rings, LIMITED),
    "scopes": (DEPTHS, scopes, BREADTH_FIRST),
    "diamonds": (PATHS, diamonds, BREADTH_FIRST),
    "ranked": (PATHS, lambda paths: diamonds(paths, precedence=1), BREADTH_FIRST),
    "exits": (PATHS, lambda paths: diamonds(paths, exits=True), DEPTH_FIRST),
    "tails": (WAYS, tails, BREADTH_FIRST),
    "dead_ends": (PATHS, dead_ends, BREADTH_FIRST),
    "dense": (SCOPES, dense, SHORT),
    "towers": (HEIGHTS, towers, BREADTH_FIRST),
    "ballast": (BALLAST, ballast, BREADTH_FIRST),
    "ballast_root": (BALLAST, lambda count: ballast(count, joined=True), BREADTH_FIRST),
}


def write(folder, name, graph, settings):
    broken = broken_rule(graph)
    if broken:
        sys.exit(f"{name}: {broken}")
    (folder / f"{name}.img").write_bytes(image(graph))
    (folder / f"{name}.img.cfg").write_text(settings + "\n")


def main():
    folder = pathlib.Path(sys.argv[1])
    folder.mkdir(parents=True, exist_ok=True)
    for name, graph in SMALL.items():
        write(folder, name, graph, BREADTH_FIRST)
    for name, (sizes, shape, settings) in SERIES.items():
        for size in sizes:
            write(folder, f"{name}-{size:04}", shape(size), settings)


if __name__ == "__main__":
    main()
