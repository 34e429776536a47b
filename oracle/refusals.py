"""The check of a graph image, written a second time from documents 01 and 02.

The Rust has no check of bytes, so the refusals 1 to 5 are compared with this
plain reading instead. `checked(image)` answers what the library answers: 0 and
the counts F, N, M of an accepted image, or the number of the refusal and the
record's place where it has one.

Document 02, order 3: version 2 stores symbols in eight bytes, and "counts in
records rise by four for kinds 4 to 7". "Size is checked against 65,536 before
the version, and a version 1 image over 63,499 bytes is then 2."
"""

VERSIONS = (1, 2)
REMOVED, ROOT, JUMP, SCOPE, PUSH_SCOPED, DROP_SCOPES = 0, 1, 2, 3, 6, 8
# The kinds that have a symbol.
WITH_SYMBOL = range(4, 8)
# Of document 01, that is of version 1.
NODE_COUNTS = [1, 1, 1, 4, 8, 8, 10, 8, 3]
EDGE_COUNTS = [1, 9]
# By how much a symbol is longer than in version 1.
RISE = {1: 0, 2: 4}
FIRST_RECORD = 11
LONGEST, LONGEST_OF_ALL = 63_499, 65_536


class Refused(Exception):
    """A refusal: its number, then the place for 4 and 5."""

    def __init__(self, *told):
        super().__init__(*told)
        self.told = list(told)


def number(image, at, size):
    """A big-endian number of so many bytes."""
    return int.from_bytes(image[at:at + size], "big")


def header(image, versions):
    """F, N and M, or 2, 1, 2 for the version's own bound, or 3."""
    if not FIRST_RECORD <= len(image) <= LONGEST_OF_ALL:
        raise Refused(2)
    if number(image, 1, 4) != len(image) - 5:
        raise Refused(2)
    if image[0] not in versions:
        raise Refused(1)
    if image[0] == 1 and len(image) > LONGEST:
        raise Refused(2)
    files, nodes, edges = (number(image, at, 2) for at in (5, 7, 9))
    if files > 256 or not 2 <= nodes <= 2048 or edges > 4096:
        raise Refused(3)
    return files, nodes, edges


def kind_at(image, at):
    """The kind of the record at a place, or 2 where the record is cut."""
    if at >= len(image) or image[at] == 0 or at + image[at] >= len(image):
        raise Refused(2)
    return image[at + 1]


def node_count(image, kind):
    """What a record of the kind counts in the image's version."""
    return NODE_COUNTS[kind] + (RISE[image[0]] if kind in WITH_SYMBOL else 0)


def check_node(image, files, node, at):
    """One node record: kind and where it may stand, count, fields."""
    kind = kind_at(image, at)
    wanted = {0: ROOT, 1: JUMP}.get(node)
    stands = kind == wanted if wanted else kind not in (ROOT, JUMP)
    if kind > 8 or not stands:
        raise Refused(4, at)
    if image[at] != node_count(image, kind):
        raise Refused(2)
    if kind < SCOPE:
        return
    flag = 0 if kind == DROP_SCOPES else image[at + image[at]]
    if number(image, at + 2, 2) >= files or flag > 1:
        raise Refused(4, at)


def check_edge(image, at):
    """One edge record: kind, then count."""
    kind = kind_at(image, at)
    if kind > 1:
        raise Refused(4, at)
    if image[at] != EDGE_COUNTS[kind]:
        raise Refused(2)


def file_of(image, at):
    """The file of a live node, None for root and jump."""
    return number(image, at + 2, 2) if image[at + 1] >= SCOPE else None


def check_scope(image, places, at):
    """5 unless a push-scoped node names a live exported scope of its file."""
    if image[at + 1] != PUSH_SCOPED:
        return
    scope = number(image, at + 8 + RISE[image[0]], 2)
    fits = (scope < len(places) and image[places[scope] + 1] == SCOPE
            and image[places[scope] + 4] == 1
            and file_of(image, places[scope]) == file_of(image, at))
    if not fits:
        raise Refused(5, at)


def check_ends(image, places, at):
    """5 unless a live edge joins two live nodes, not from jump, in one file."""
    if image[at + 1] == REMOVED:
        return
    ends = [number(image, at + 2, 2), number(image, at + 4, 2)]
    live = all(n < len(places) and image[places[n] + 1] != REMOVED for n in ends)
    if not live or ends[0] == 1:
        raise Refused(5, at)
    files = {file_of(image, places[n]) for n in ends} - {None}
    if len(files) > 1:
        raise Refused(5, at)


def check(image, versions=VERSIONS):
    """F, N and M of an accepted image of one of the versions; else Refused."""
    files, nodes, edges = header(image, versions)
    at, places = FIRST_RECORD, []
    for record in range(nodes + edges):
        if record < nodes:
            check_node(image, files, record, at)
        else:
            check_edge(image, at)
        places.append(at)
        at += image[at] + 1
    if at != len(image):
        raise Refused(2)
    for place in places[:nodes]:
        check_scope(image, places[:nodes], place)
    for place in places[nodes:]:
        check_ends(image, places[:nodes], place)
    return [0, files, nodes, edges]


def checked(image):
    """The answer as numbers."""
    try:
        return check(image)
    except Refused as refusal:
        return refusal.told
