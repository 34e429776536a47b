#!/usr/bin/env python3
"""A database without its dead slots, a second time from document 02, order 7.

    compacted(words, room)

answers the numbers, the words and a lent list that has so many words: 0 and how
many slots are live, the database in which these stand first, and each one's old
and new number, with zeros behind; or the refusal, the words as they were and a
list of zeros.

- 35: the words are no database (partials.py).
- 32: the list has fewer words than two for each live slot.

Live slots are moved whole, with the words behind their last edges. The slots from
the number of live ones up to those that were used become zero; words behind these,
N and F stay.

`python3 oracle/compaction.py --selftest` tries on drawn areas what the order says,
with every pattern of dead slots: each live slot is found under the number that the
list gives it, in the old order; stitched searches (stitched.py) are the same before
and after; a replacement directly after it is 33 just when live and new slots are
more than there is room for; the refusals stand in their order and alter nothing. No
oracle is asked, as the Rust has no words.
"""

import argparse
import collections
import itertools
import random

from images import random_graph
from partials import (ALIASES, COUNT, EDGES, FILES, FIRST_RECORD, MOST_RECORDS, NODES, OWNER,
                      RECORD, START, USED, Extracted, Extraction, capacity, check_words,
                      extracted, fresh, looked_up, place, replaced, slots)
from refusals import Refused
from searches import MOST_EDGES, Request
from stitched import stitched

PAIR = 2
SHORT_LIST, FULL, MALFORMED = 32, 33, 35
LAST = 2**32 - 1


def live_slots(words):
    """The number and the words of each live slot; 35."""
    check_words(words)
    every = [words[at:at + RECORD]
             for at in range(FIRST_RECORD, FIRST_RECORD + RECORD * words[USED], RECORD)]
    return [(number, slot) for number, slot in enumerate(every) if slot[OWNER]]


def compacted(words, room):
    """The numbers of the answer, the words, the list."""
    words = list(words)
    try:
        live = live_slots(words)
        if room < PAIR * len(live):
            raise Refused(SHORT_LIST)
    except Refused as refusal:
        return refusal.told, words, [0] * room
    behind = FIRST_RECORD + RECORD * words[USED]
    moved = [word for _, slot in live for word in slot]
    freed = [0] * (behind - FIRST_RECORD - len(moved))
    pairs = [number for new, (old, _) in enumerate(live) for number in (old, new)]
    return ([0, len(live)],
            [len(live), words[NODES], words[FILES], *moved, *freed, *words[behind:]],
            pairs + [0] * (room - len(pairs)))


def pattern_words(rng, pattern, rubbish):
    """A database whose slots are live or dead as the pattern says; words that hold
    nothing are rubbish."""
    nodes, files = rng.choice((1, 6, LAST)), rng.choice((0, 1, 256, LAST))
    words = [len(pattern), nodes, files]
    for is_live in pattern:
        slot = [rubbish] * RECORD
        count = rng.choice((1, 2, 5, MOST_EDGES))
        slot[OWNER] = rng.choice([ALIASES] + [1, files] * (files > 0)) if is_live else 0
        slot[START], slot[COUNT] = rng.choice((0, nodes - 1)), count
        slot[EDGES:EDGES + count] = [rng.choice((0, 7, LAST)) for _ in range(count)]
        words += slot
    return words + [rubbish + 1] * rng.choice((0, 1, RECORD, 2 * RECORD + 5))


def test_pattern(rng, pattern):
    """Every length of the list; what is moved, listed, freed and left."""
    words = pattern_words(rng, pattern, rng.choice((0, 1, LAST - 1)))
    olds = [number for number, is_live in enumerate(pattern) if is_live]
    used, live = len(pattern), len(olds)
    for room in range(PAIR * used + 3):
        numbers, after, listed = compacted(tuple(words), room)
        assert len(after) == len(words) and len(listed) == room
        if room < PAIR * live:
            assert (numbers, after, any(listed)) == ([SHORT_LIST], words, False)
            continue
        assert numbers == [0, live]
        assert listed[0:PAIR * live:PAIR] == olds
        assert listed[1:PAIR * live:PAIR] == list(range(live))
        assert not any(listed[PAIR * live:])
        check_words(after)
        assert after[:FIRST_RECORD] == [live, *words[NODES:FIRST_RECORD]]
        assert slots(after) == [path for path in slots(words) if path is not None]
        for new, old in enumerate(olds):
            assert looked_up(after, new) == looked_up(words, old) != []
            assert after[place(new):place(new + 1)] == words[place(old):place(old + 1)]
        assert not any(after[place(live):place(used)])
        assert after[place(used):] == words[place(used):]
        assert compacted(after, room)[1] == after


def test_malformed(rng):
    """35 about each demand, before 32, whatever the list; dead slots are not looked at."""
    pattern = (True, False, True)
    good = pattern_words(rng, pattern, 3)
    good[NODES:FIRST_RECORD] = [6, 2]
    at = place(rng.choice((0, 2)))
    good[place(0) + OWNER] = good[place(2) + OWNER] = 2
    good[place(0) + START] = good[place(2) + START] = 5
    for field, value, is_bad in (
            (at + OWNER, 3, True), (at + OWNER, ALIASES, False), (at + OWNER, ALIASES - 1, True),
            (at + OWNER, ALIASES + 1, True), (at + START, 6, True), (at + START, 0, False),
            (at + COUNT, 0, True), (at + COUNT, MOST_EDGES, False),
            (at + COUNT, MOST_EDGES + 1, True), (place(1) + COUNT, LAST, False),
            (NODES, 5, True), (FILES, 1, True), (USED, capacity(good) + 1, True),
            (USED, LAST, True)):
        words = good[:field] + [value] + good[field + 1:]
        for room in (0, 3, 4, 9):
            numbers, after, listed = compacted(words, room)
            wanted = [MALFORMED] if is_bad else [SHORT_LIST] if room < 4 else [0, 2]
            assert numbers == wanted, (field, value, room)
            assert numbers[0] == 0 or (after, any(listed)) == (words, False)


def test_bounds():
    """Under 3 words, empty, 4,096 slots and one more."""
    for length in range(FIRST_RECORD):
        assert compacted([0] * length, 2) == ([MALFORMED], [0] * length, [0, 0])
    assert compacted([0, LAST, LAST, 9], 1) == ([0, 0], [0, LAST, LAST, 9], [0])
    for used, numbers in ((MOST_RECORDS, [0, 2]), (MOST_RECORDS + 1, [MALFORMED])):
        words = [used, 6, 1] + [0] * (RECORD * (MOST_RECORDS + 2))
        for number in (1, MOST_RECORDS - 1):
            words[place(number):place(number) + EDGES] = [1, 5, 0, 1]
        told, after, listed = compacted(words, 4)
        assert told == numbers
        if told[0] == 0:
            assert listed == [1, 0, MOST_RECORDS - 1, 1] and after[place(0):] != words[place(0):]


def filed(rng, graph, room):
    """A database of the graph, some sets replaced more than once, and a limit that keeps
    each within reason."""
    words = fresh(graph, [0] * place(room))
    for _ in range(rng.randint(1, 5)):
        file = rng.choice([None, *range(graph.files)])
        try:
            words = replaced(graph, Extraction(file, count=rng.choice((5, 20))), words)[1]
        except Refused:
            pass
    return words


def answer(call, *given):
    """What a call finds, or the refusal."""
    try:
        return call(*given)
    except Refused as refusal:
        return refusal.told


def test_goes_on(rng):
    """Stitched searches are as before; 33 directly after it just when live and new slots
    are more than there is room for."""
    graph = random_graph(rng)
    room = rng.choice((3, 8, 20, 60))
    words = filed(rng, graph, room)
    for number in range(words[USED]):
        if rng.random() < 0.3:
            words[place(number)] = 0
    told, after, _ = compacted(words, PAIR * words[USED])
    for reference in graph.references():
        request = Request(reference=reference, linear=False, order=rng.choice("bd"), count=60,
                          waiting=rng.choice((None, 2, 30)), results=rng.choice((None, 0, 1, 9)))
        assert (answer(stitched, graph, slots(words), request)
                == answer(stitched, graph, slots(after), request))
    counts = collections.Counter()
    for file in [None, *range(graph.files)]:
        request = Extraction(file, count=rng.choice((3, 20)))
        found = answer(extracted, graph, request)
        if isinstance(found, Extracted):
            is_full = told[1] + len(found.paths) > room
            assert (answer(replaced, graph, request, after) == [FULL]) == is_full
            counts[FULL if is_full else 0] += 1
    return counts


def main():
    """Run the self-test."""
    parser = argparse.ArgumentParser(description=__doc__.splitlines()[0])
    parser.add_argument("--selftest", action="store_true", required=True)
    parser.parse_args()
    rng, most, count = random.Random(7), 7, 400
    patterns = [pattern for used in range(most + 1)
                for pattern in itertools.product((False, True), repeat=used)]
    for pattern in patterns:
        test_pattern(rng, pattern)
    for _ in range(20):
        test_malformed(rng)
    test_bounds()
    counts = sum((test_goes_on(rng) for _ in range(count)), collections.Counter())
    print(f"{len(patterns)} patterns of dead slots and {count} databases of drawn graphs are as "
          f"the order says; replacements directly after: {counts[0]} done, {counts[FULL]} refused "
          "by 33")


if __name__ == "__main__":
    main()
