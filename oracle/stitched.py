"""Stitched search, written a second time from document 01.

The Rust knows neither the bound of 63 edges, nor areas of fixed size, nor a
database in words, so the refusals 30 to 35 are compared with this plain
reading instead. Without bounds and areas it must find what the Rust finds,
which stitching_cases.py holds it to.

    stitched(graph, slots(words), Request(reference=2, linear=False, order="b"))

answers a Found, or raises Refused with the number and its values. The slots
are those that partials.py reads from sound words, None for a dead one.
"""

from refusals import Refused
from searches import Search, appended, first_path


def is_known(graph, edge):
    """Whether the number is that of a live edge."""
    return edge < len(graph.edges) and graph.edges[edge] is not None


def replayed(graph, path, edges):
    """The path with all these edges, None where the path rules refuse one, or 12."""
    for edge in edges:
        if not is_known(graph, edge):
            raise Refused(12, edge)
        if graph.edges[edge].source != path.end:
            return None
        path = appended(graph, path, edge)
        if path is None:
            return None
    return path


def extended(search, path, partial):
    """Cycle, length, the bound, append: the longer path or None."""
    if not search.admits(path.edges, partial.edges):
        return None
    longer = replayed(search.graph, path, partial.edges)
    search.rejected += longer is None
    return longer


def stitched(graph, slots, request):
    """Every path that the partial paths make; copies are dropped at the end."""
    search, waiting = Search(graph, request), [first_path(graph, request.reference)]
    search.wait(0)
    while waiting:
        path = waiting.pop(0)
        if not search.expands():
            break
        successors = []
        for partial in slots:
            if partial is None or partial.start != path.end:
                continue
            longer = extended(search, path, partial)
            if longer is not None:
                search.record(longer)
                search.wait(len(waiting) + len(successors))
                successors.append(longer)
        waiting = waiting + successors if request.order == "b" else successors + waiting
    found = search.found()
    return found._replace(recorded=list(dict.fromkeys(found.recorded)))
