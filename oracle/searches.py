"""Direct and linear search, written a second time from document 01, with document 02's bound.

The Rust knows neither the bound of 63 edges, nor areas of fixed size, nor the
bound on expansions, so the refusals 30, 31, 32 and 36 are compared with this
plain reading instead. Without bounds and areas it must find what the Rust
finds, which search_cases.py holds it to.

    searched(graph, Request(reference=2, linear=False, order="b"))

answers a Found, or raises Refused with the number and its values.
"""

from typing import NamedTuple, Optional

from images import (JUMP, POP, POP_SCOPED, PUSH, PUSH_SCOPED, REMOVED, Stacks,
                    applied)
from refusals import Refused

# The edges of a path: document 02, order 6.
MOST_EDGES = 63
MOST_EXPANSIONS = 16_777_216
# A jump step: its source is node 1, its precedence 0.
JUMP_STEP = (1, 0)


class Request(NamedTuple):
    """What a search is asked; None is a limit, an area or a bound that is absent.

    Areas are counted in whole slots. Linear search has no order and no
    waiting slots.
    """
    reference: int
    linear: bool
    order: str = "b"
    length: Optional[int] = None
    count: Optional[int] = None
    complete: Optional[int] = None
    waiting: Optional[int] = None
    results: Optional[int] = None
    edges: Optional[int] = MOST_EDGES

    def unbounded(self):
        """The same request as the Rust takes it: no areas, no bound on edges."""
        return self._replace(waiting=None, results=None, edges=None)


class Path(NamedTuple):
    """A path; a step is a source and a precedence."""
    end: int
    stacks: Stacks
    edges: tuple = ()
    steps: tuple = ()


class Found(NamedTuple):
    """The four counts, the three flags, the recorded paths; how many ever waited together."""
    counts: list
    flags: list
    recorded: list
    most_waiting: int

    def returned(self):
        """The recorded paths that no other one shadows."""
        return [path for path in self.recorded
                if not any(shadows(other, path) for other in self.recorded if other != path)]


def reaches(number, limit):
    """Whether the limit is there and the number has reached it."""
    return limit is not None and number >= limit


def exceeds(number, limit):
    """Whether the limit is there and the number is above it."""
    return limit is not None and number > limit


def first_path(graph, reference):
    """The path without edges, or 10 or 11."""
    if reference >= len(graph.nodes) or graph.nodes[reference].kind == REMOVED:
        raise Refused(10, reference)
    node = graph.nodes[reference]
    if node.kind not in (PUSH, PUSH_SCOPED) or not node.flag:
        raise Refused(11, reference)
    return Path(reference, applied(node, Stacks()))


def appended(graph, path, number):
    """The path with one more edge, or None where the path rules refuse it."""
    edge = graph.edges[number]
    stacks, end = applied(graph.nodes[edge.target], path.stacks), edge.target
    if stacks is None:
        return None
    steps = path.steps + ((edge.source, edge.precedence),)
    if graph.nodes[end].kind == JUMP:
        end, stacks = stacks.scopes[-1], stacks._replace(scopes=stacks.scopes[:-1])
        steps += (JUMP_STEP,)
    return Path(end, stacks, path.edges + (number,), steps)


def is_complete(graph, path):
    """At a definition, with both stacks empty."""
    node = graph.nodes[path.end]
    return node.kind in (POP, POP_SCOPED) and node.flag and path.stacks == Stacks()


def shadows(left, right):
    """A greater precedence on the left, before the sources differ."""
    for (source, precedence), (other, lower) in zip(left.steps, right.steps):
        if source != other:
            return False
        if precedence > lower:
            return True
    return False


class Search:
    """What every search counts, keeps and refuses; partials.py uses it too."""

    def __init__(self, graph, request):
        self.graph, self.request = graph, request
        self.expanded = self.complete = self.rejected = self.cycles = 0
        self.long = self.many = self.more_complete = False
        self.kept = []
        self.most_waiting = 0

    def expands(self):
        """Whether one more path may be expanded; 36 follows the limit."""
        if reaches(self.expanded, self.request.count):
            self.many = True
            return False
        if self.expanded == MOST_EXPANSIONS:
            raise Refused(36)
        self.expanded += 1
        return True

    def admits(self, held, added):
        """Cycle, length, the bound: whether these edges may follow those of a path."""
        if any(edge in held for edge in added):
            self.cycles += 1
            return False
        length = len(held) + len(added)
        if exceeds(length, self.request.length):
            self.long = True
            return False
        if exceeds(length, self.request.edges):
            raise Refused(30)
        return True

    def extended(self, path, edge):
        """Cycle, length, the bound, append: the longer path or None."""
        if not self.admits(path.edges, [edge]):
            return None
        longer = appended(self.graph, path, edge)
        self.rejected += longer is None
        return longer

    def record(self, path):
        """A complete path is counted, and kept unless the limit forbids it."""
        if not is_complete(self.graph, path):
            return
        self.complete += 1
        if reaches(len(self.kept), self.request.complete):
            self.more_complete = True
            return
        if reaches(len(self.kept), self.request.results):
            raise Refused(32)
        self.kept.append(path)

    def wait(self, waiting):
        """So many paths wait already, and one more comes."""
        if reaches(waiting, self.request.waiting):
            raise Refused(31)
        self.most_waiting = max(self.most_waiting, waiting + 1)

    def found(self):
        """What an unrefused search answers."""
        return Found([self.expanded, self.complete, self.rejected, self.cycles],
                     [int(self.long), int(self.many), int(self.more_complete)],
                     self.kept, self.most_waiting)


def direct(graph, request):
    """Every path; breadth-first is a queue, depth-first takes the newest successors first."""
    search, waiting = Search(graph, request), [first_path(graph, request.reference)]
    search.wait(0)
    while waiting:
        path = waiting.pop(0)
        if not search.expands():
            break
        successors = []
        for edge in graph.outgoing(path.end):
            longer = search.extended(path, edge)
            if longer is not None:
                search.record(longer)
                search.wait(len(waiting) + len(successors))
                successors.append(longer)
        waiting = waiting + successors if request.order == "b" else successors + waiting
    return search.found()


def linear(graph, request):
    """One path, as long as a single edge of its end can be appended; a second one is 20."""
    search, path = Search(graph, request), first_path(graph, request.reference)
    while path is not None and search.expands():
        following = None
        for edge in graph.outgoing(path.end):
            longer = search.extended(path, edge)
            if longer is not None:
                if following is not None:
                    raise Refused(20, path.end)
                search.record(longer)
                following = longer
        path = following
    return search.found()


def searched(graph, request):
    """Either search."""
    return (linear if request.linear else direct)(graph, request)
