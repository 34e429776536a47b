#!/usr/bin/env python3
"""An old database rewritten for 63 edges, a second time from document 02, order 6.

    converted(old, room)

answers the numbers and the words of a lent area that has so many words: 0 and
the database, with zeros behind it; or the refusal and zeros alone, whatever the
area held. The old words are taken apart into partial paths and put together
again, so nothing here copies words from one area to the other.

- 35: the old area is bad under the old bound. That is what partials.py says of
  35, with slots of 131 words and 1 to 127 edges.
- 33: the new area has under 3 words, or fewer slots than are used. It has at
  most 4,096, as any database.
- 39: a live path has more than 63 edges.

Nothing in the words tells an old area from a new one, so this is asked of old
ones alone.

`python3 oracle/conversion.py --selftest` tries on drawn areas what the order
says: every live path and every number survives, with the leading words; all
other words are zero; the new area is a database; the refusals stand in their
order and leave zeros. No oracle is asked, as the Rust has no words.
"""

import argparse
import collections
import random

from partials import (ALIASES, COUNT, EDGES, FILES, FIRST_RECORD, MOST_RECORDS,
                      NODES, OWNER, RECORD, START, USED, PartialPath,
                      check_words, looked_up, record, slots)
from refusals import Refused
from searches import MOST_EDGES

FORMER_EDGES = 127
FORMER_RECORD = EDGES + FORMER_EDGES
NO_ROOM, MALFORMED, TOO_LONG = 33, 35, 39
LAST = 2**32 - 1


def fitting_slots(room, size):
    """How many slots of a size stand in so many words, 4,096 at most."""
    return min(MOST_RECORDS, max(0, room - FIRST_RECORD) // size)


def former_path(slot, nodes, files):
    """The partial path of an old slot, None for a dead one; 35."""
    first, start, end, count = slot[:EDGES]
    if first == 0:
        return None
    is_known = first <= files or first == ALIASES
    if not is_known or start >= nodes or not 1 <= count <= FORMER_EDGES:
        raise Refused(MALFORMED)
    return PartialPath(first - 1, start, end, tuple(slot[EDGES:EDGES + count]))


def former_paths(old):
    """Every used slot of an old area; 35."""
    if len(old) < FIRST_RECORD or old[USED] > fitting_slots(len(old), FORMER_RECORD):
        raise Refused(MALFORMED)
    places = [FIRST_RECORD + FORMER_RECORD * number for number in range(old[USED])]
    return [former_path(old[at:at + FORMER_RECORD], old[NODES], old[FILES]) for at in places]


def rewritten(old, room):
    """The words of the new area without the zeros behind them, or 35, 33 or 39."""
    paths = former_paths(old)
    if room < FIRST_RECORD or len(paths) > fitting_slots(room, RECORD):
        raise Refused(NO_ROOM)
    if any(path is not None and len(path.edges) > MOST_EDGES for path in paths):
        raise Refused(TOO_LONG)
    return list(old[:FIRST_RECORD]) + [word for path in paths for word in record(path)]


def converted(old, room):
    """The numbers of the answer, and the area."""
    try:
        words = rewritten(old, room)
    except Refused as refusal:
        return refusal.told, [0] * room
    return [0], words + [0] * (room - len(words))


def former_record(path, rubbish=0):
    """The words of an old slot, with any word behind its last edge; None is a dead one."""
    front = [0] if path is None else [path.file + 1, path.start, path.end, len(path.edges),
                                      *path.edges]
    return front + [rubbish] * (FORMER_RECORD - len(front))


def former_words(nodes, files, paths, rubbish=0):
    """An old area of these slots."""
    return [len(paths), nodes, files] + [word for path in paths
                                         for word in former_record(path, rubbish)]


NODES_DRAWN, FILES_DRAWN = (1, 6, LAST), (0, 1, 256, LAST)


def drawn_path(rng, nodes, files, counts):
    """A live path of a file or of none, or a dead slot."""
    if rng.random() < 0.3:
        return None
    known = [ALIASES] + [min(files, number) for number in (1, 256, files) if files]
    edges = [rng.choice((0, 7, LAST)) for _ in range(rng.choice(counts))]
    return PartialPath(rng.choice(known) - 1, rng.choice((0, nodes - 1)),
                       rng.choice((0, 5, LAST)), tuple(edges))


def drawn_paths(rng, nodes, files):
    """Some slots; in every third area some are longer than the new bound."""
    counts = rng.choice(((1, 2, MOST_EDGES - 1, MOST_EDGES), (1, 3, MOST_EDGES),
                         (1, MOST_EDGES, MOST_EDGES + 1, FORMER_EDGES)))
    return [drawn_path(rng, nodes, files, counts) for _ in range(rng.randrange(6))]


def room_about(rng, used):
    """Words of a new area: few, one short, as many as are needed, more."""
    least = FIRST_RECORD + RECORD * used
    return rng.choice((0, 1, 2, 3, max(0, least - 1), least, least + 1, least + RECORD, least))


def test_survives(rng):
    """A sound area: what must survive does, and what must not be there is zero."""
    nodes, files = rng.choice(NODES_DRAWN), rng.choice(FILES_DRAWN)
    paths, rubbish = drawn_paths(rng, nodes, files), rng.choice((0, 1, LAST))
    old = former_words(nodes, files, paths, rubbish) + [rubbish] * rng.choice((0, 1, FORMER_RECORD))
    room = room_about(rng, len(paths))
    numbers, words = converted(tuple(old), room)
    has_room = FIRST_RECORD <= room and len(paths) <= (room - FIRST_RECORD) // RECORD
    is_long = any(path is not None and len(path.edges) > MOST_EDGES for path in paths)
    assert numbers == ([NO_ROOM] if not has_room else [TOO_LONG] if is_long else [0])
    assert len(words) == room
    if numbers != [0]:
        assert not any(words)
        return numbers[0]
    check_words(words)
    assert words[:FIRST_RECORD] == old[:FIRST_RECORD] and slots(words) == paths
    for number, path in enumerate([*paths, None]):
        assert looked_up(words, number) == ([] if path is None else list(path.edges))
    live = [path for path in paths if path is not None]
    held = sum(map(bool, [*old[:FIRST_RECORD]]))
    held += sum(sum(map(bool, former_record(path))) for path in live)
    assert sum(map(bool, words)) == held
    return 0


def test_malformed(rng):
    """One word of a sound area altered about each demand of 35, under the old bound."""
    nodes, files = 6, rng.choice((0, 2, 256))
    paths = [PartialPath(ALIASES - 1, 2, 4, (0,) * rng.choice((1, MOST_EDGES, FORMER_EDGES))),
             None, PartialPath(ALIASES - 1, 3, 4, (7, 8))]
    good = former_words(nodes, files, paths, LAST)
    room = rng.choice((0, 3, FIRST_RECORD + 9 * RECORD))
    at = FIRST_RECORD + FORMER_RECORD * rng.choice((0, 2))
    for field, value, is_bad in (
            (at + OWNER, 0, False), (at + OWNER, files + 1, True), (at + OWNER, ALIASES, False),
            (at + OWNER, ALIASES + 1, True), (at + OWNER, ALIASES - 1, True),
            (at + OWNER, files, False), (at + START, 5, False), (at + START, 6, True),
            (at + COUNT, 0, True), (at + COUNT, FORMER_EDGES, False),
            (at + COUNT, FORMER_EDGES + 1, True), (at + COUNT, MOST_EDGES + 1, False),
            (NODES, 4, False), (NODES, 3, True),
            (USED, 3, False), (USED, 4, True), (USED, LAST, True),
            (FIRST_RECORD + FORMER_RECORD + COUNT, LAST, False)):
        words = good[:field] + [value] + good[field + 1:]
        numbers, area = converted(tuple(words), room)
        assert (numbers == [MALFORMED]) == is_bad, (field, value)
        assert len(area) == room and (numbers == [0] or not any(area))


def test_order():
    """35 before 33 before 39; short areas; 4,096 slots at most."""
    long_one = PartialPath(0, 2, 4, (1,) * (MOST_EDGES + 1))
    bad = PartialPath(1, 2, 4, (1,) * (MOST_EDGES + 1))
    exact = FIRST_RECORD + RECORD
    for path, room, number in ((long_one, exact, TOO_LONG), (long_one, exact - 1, NO_ROOM),
                               (bad, exact, MALFORMED), (bad, exact - 1, MALFORMED),
                               (bad, 0, MALFORMED), (long_one, 0, NO_ROOM)):
        assert converted(former_words(6, 1, [path]), room) == ([number], [0] * room)
    for length in range(3):
        assert converted([0] * length, 9) == ([MALFORMED], [0] * 9)
        assert converted([0, 6, 1], length) == ([NO_ROOM], [0] * length)
    assert converted([0, LAST, LAST], 5) == ([0], [0, LAST, LAST, 0, 0])
    for used, number in ((MOST_RECORDS, 0), (MOST_RECORDS + 1, MALFORMED)):
        old = [used, 6, 1] + [0] * (FORMER_RECORD * (MOST_RECORDS + 2))
        room = FIRST_RECORD + RECORD * (MOST_RECORDS + 2)
        assert converted(old, room)[0] == [number]
    assert converted([MOST_RECORDS] + [0] * (2 + FORMER_RECORD * MOST_RECORDS),
                     FIRST_RECORD + RECORD * MOST_RECORDS - 1)[0] == [NO_ROOM]


def main():
    """Run the self-test."""
    parser = argparse.ArgumentParser(description=__doc__.splitlines()[0])
    parser.add_argument("--selftest", action="store_true", required=True)
    parser.parse_args()
    rng, count = random.Random(1), 3_000
    numbers = collections.Counter(test_survives(rng) for _ in range(count))
    for _ in range(50):
        test_malformed(rng)
    test_order()
    told = ", ".join(f"{number}: {times}" for number, times in sorted(numbers.items()))
    print(f"{count} drawn areas are as the order says; by number {told}")


if __name__ == "__main__":
    main()
