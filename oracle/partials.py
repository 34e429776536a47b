"""Partial paths and the database in words, written a second time from documents 01 and 02.

The Rust keeps its database in vectors that grow, so the bound of 63 edges,
waiting slots, the words of a database and the refusals 30, 31, 33, 34 and 35
are compared with this plain reading instead. Without bounds and areas it must
find what the Rust finds, which partial_cases.py holds it to.

    extracted(graph, Extraction(file=0, order="b"))

answers the partial paths of a file, `fresh` and `replaced` the words that a
database consists of after those calls, `looked_up` the edges of a number. A
refused call raises Refused with the number and its values.

Document 02, order 5: "A database may hold one further set, whose slots have
65,535 as their first word: the same computation from root over just those
edges", those of which neither end has a file. Here it is asked for by the file
None, and its partial paths have NOBODY in the place of the file. "It is
accepted by 35", which tests its edge counts and starts as those of any other.
"""

from typing import NamedTuple, Optional

from images import JUMP, POP, POP_SCOPED, PUSH, PUSH_SCOPED, ROOT, SCOPE
from refusals import Refused
from searches import MOST_EDGES, Search

# A database: slots used, N, F; then records of file + 1, start, end, edge count and edges.
USED, NODES, FILES, FIRST_RECORD = range(4)
OWNER, START, END, COUNT, EDGES = range(5)
RECORD = EDGES + MOST_EDGES
MOST_RECORDS = 4_096
# The first word of a record of the further set, and what stands in the place of its file.
ALIASES = 65_535
NOBODY = ALIASES - 1


class Extraction(NamedTuple):
    """What is asked of a file, or of the edges of none for None; None is also a limit, an
    area or a bound that is absent."""
    file: Optional[int]
    order: str = "b"
    length: Optional[int] = None
    count: Optional[int] = None
    waiting: Optional[int] = None
    edges: Optional[int] = MOST_EDGES

    def unbounded(self):
        """The same request as the Rust takes it: no area, no bound on edges."""
        return self._replace(waiting=None, edges=None)


class PartialPath(NamedTuple):
    """A partial path, or a route that may become one; of a file or of NOBODY."""
    file: int
    start: int
    end: int
    edges: tuple


class Extracted(NamedTuple):
    """Expansions, paths and cycle cuts, both flags, the paths; how many ever waited together."""
    counts: list
    flags: list
    paths: list
    most_waiting: int


def in_file(node, file):
    """Whether a live node other than root and jump is of the file."""
    return node.kind >= SCOPE and node.file == file


def is_start(node):
    """References and exported scopes."""
    return node.flag and node.kind in (PUSH, PUSH_SCOPED, SCOPE)


def starts(graph, file):
    """Root, then the file's starts by number; root alone for the edges of no file."""
    return [0] + [number for number, node in enumerate(graph.nodes)
                  if file is not None and in_file(node, file) and is_start(node)]


def is_endpoint(node):
    """Root, exported scope, definition, jump."""
    return node.kind in (ROOT, JUMP) or node.flag and node.kind in (SCOPE, POP, POP_SCOPED)


def is_own(graph, edge, file):
    """Whether either end is of the file; for None, whether neither end has a file."""
    ends = [graph.nodes[edge.source], graph.nodes[edge.target]]
    if file is None:
        return all(node.kind in (ROOT, JUMP) for node in ends)
    return any(in_file(node, file) for node in ends)


def own_edges(graph, node, file):
    """The outgoing edges of a node that the file has, or that belong to none."""
    return [number for number in graph.outgoing(node) if is_own(graph, graph.edges[number], file)]


def owner(file):
    """What stands in the place of the file in a partial path."""
    return NOBODY if file is None else file


def extracted(graph, request):
    """The partial paths of a file or of none in the order found, or 21, 30, 31 or 36."""
    file = request.file
    if file is not None and file >= graph.files:
        raise Refused(21, file)
    search, waiting, paths = Search(graph, request), [], []
    for start in starts(graph, file):
        search.wait(len(waiting))
        waiting.append(PartialPath(owner(file), start, start, ()))
    while waiting:
        route = waiting.pop(0)
        if not search.expands():
            break
        successors = []
        for edge in own_edges(graph, route.end, file):
            if search.admits(route.edges, [edge]):
                longer = route._replace(end=graph.edges[edge].target, edges=route.edges + (edge,))
                paths += [longer] * is_endpoint(graph.nodes[longer.end])
                search.wait(len(waiting) + len(successors))
                successors.append(longer)
        waiting = waiting + successors if request.order == "b" else successors + waiting
    return Extracted([search.expanded, len(paths), search.cycles],
                     [int(search.long), int(search.many)], paths, search.most_waiting)


def capacity(words):
    """The lesser of 4,096 and the whole slots lent."""
    return min(MOST_RECORDS, max(0, len(words) - FIRST_RECORD) // RECORD)


def place(number):
    """Where a record begins."""
    return FIRST_RECORD + RECORD * number


def record(path):
    """The words of a record; None is a dead one."""
    if path is None:
        return [0] * RECORD
    behind = [0] * (MOST_EDGES - len(path.edges))
    return [path.file + 1, path.start, path.end, len(path.edges), *path.edges] + behind


def path_at(words, number):
    """The partial path that a record holds, None where it is dead."""
    first, start, end, count = words[place(number):place(number) + EDGES]
    if first == 0:
        return None
    edges = place(number) + EDGES
    return PartialPath(first - 1, start, end, tuple(words[edges:edges + count]))


def slots(words):
    """Every used record of words that are a database."""
    return [path_at(words, number) for number in range(words[USED])]


def is_sound(words, number):
    """Whether a record is dead, or of a known file or none and with a known start and 1 to 63
    edges."""
    first, start, _, count = words[place(number):place(number) + EDGES]
    is_known = first - 1 < words[FILES] or first == ALIASES
    return first == 0 or (is_known and start < words[NODES] and 1 <= count <= MOST_EDGES)


def has_aliases(words):
    """Whether a used record is of the further set, which the Rust does not have."""
    return any(words[place(number)] == ALIASES for number in range(words[USED]))


def check_words(words):
    """35."""
    if len(words) < FIRST_RECORD or words[USED] > capacity(words):
        raise Refused(35)
    if not all(is_sound(words, number) for number in range(words[USED])):
        raise Refused(35)


def check_database(graph, words):
    """35, then 34."""
    check_words(words)
    if len(graph.nodes) < words[NODES] or graph.files < words[FILES]:
        raise Refused(34)


def fresh(graph, words):
    """The words of a fresh database, or 35 for under 3 words."""
    if len(words) < FIRST_RECORD:
        raise Refused(35)
    return [0, len(graph.nodes), graph.files] + [0] * (len(words) - FIRST_RECORD)


def replaced(graph, request, words):
    """What was extracted, and the words with it in the place of the old records of the file,
    or of those that have none."""
    check_database(graph, words)
    found = extracted(graph, request)
    used = words[USED]
    if used + len(found.paths) > capacity(words):
        raise Refused(33)
    after = list(words)
    for number in range(used):
        if words[place(number)] == owner(request.file) + 1:
            after[place(number):place(number + 1)] = record(None)
    for number, path in enumerate(found.paths, used):
        after[place(number):place(number + 1)] = record(path)
    after[:FIRST_RECORD] = [used + len(found.paths), len(graph.nodes), graph.files]
    return found, after


def looked_up(words, number):
    """The edges of a partial path; none if dead, beyond use or in words that meet 35."""
    try:
        check_words(words)
    except Refused:
        return []
    path = path_at(words, number) if number < words[USED] else None
    return [] if path is None else list(path.edges)
