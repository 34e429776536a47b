#!/usr/bin/env python3
"""The window over the last searches, a second time from document 02, order 10.

    window = Window()
    window.enter(count)     0, or 40 for a count above 16,777,216
    window.report()         the sum and the greatest of the last 1,024 entries

A queue that drops its oldest entry when a 1,025th comes; sum and greatest are
counted out at each report. The library's words are not known here.

    python3 oracle/window.py > service/tests/window/list.txt

writes what a window reports after a million drawn calls. `drawn` says how they are
drawn: the counts rise and fall by whole windows, so that a greatest one leaves and a
lesser one is left, and now and then one is 0, 16,777,216, one more than that, or
2^64 - 1. A line has the number of calls made, the answer of the last, the sum and
the greatest: at the first calls, round the 1,024th and 2,048th, and then at every
9,973rd. The last line is a digest of the answer, the sum and the greatest after
every one of them. `python3 oracle/window.py --selftest` tries the queue on histories
that are short enough to be counted by hand. No oracle is asked, as the Rust has no
window.
"""

import argparse
import collections

ENTRIES = 1_024
MOST = 16_777_216
TOO_GREAT = 40
CALLS = 1_000_000
ROUND = 2**64
MULTIPLIER, INCREMENT = 6_364_136_223_846_793_005, 1_442_695_040_888_963_407
ODD = {0: 0, 1: MOST, 2: MOST + 1, 3: ROUND - 1}
RUN = 700
SHOWN = {*range(0, 6), *range(1_020, 1_030), *range(2_044, 2_054), CALLS}
STRIDE = 9_973


class Window:
    def __init__(self):
        self.last = collections.deque()

    def enter(self, count):
        if count > MOST:
            return TOO_GREAT
        self.last.append(count)
        if len(self.last) > ENTRIES:
            self.last.popleft()
        return 0

    def report(self):
        return sum(self.last), max(self.last, default=0)


def drawn(calls, seed=10):
    """So many counts: 24 bits, of which fewer are kept from run to run."""
    state = seed
    for call in range(calls):
        state = (state * MULTIPLIER + INCREMENT) % ROUND
        odd = ODD.get((state >> 20) % 1_024)
        yield (state >> 40) >> (call // RUN % 25) if odd is None else odd


def write_list():
    window, digest = Window(), 0
    print(0, 0, *window.report())
    for made, count in enumerate(drawn(CALLS), 1):
        told = window.enter(count)
        total, greatest = window.report()
        for number in (told, total, greatest):
            digest = (digest * MULTIPLIER + number + 1) % ROUND
        if made in SHOWN or made % STRIDE == 0:
            print(made, told, total, greatest)
    print("digest", digest)


def selftest():
    window = Window()
    assert window.report() == (0, 0)
    assert window.enter(MOST) == 0 and window.enter(MOST + 1) == 40
    assert window.report() == (MOST, MOST)
    for _ in range(ENTRIES - 1):
        window.enter(1)
    assert window.report() == (MOST + ENTRIES - 1, MOST)
    window.enter(2)
    assert window.report() == (ENTRIES + 1, 2)
    history = list(drawn(5_000))
    entered = [count for count in history if count <= MOST]
    window = Window()
    for count in history:
        window.enter(count)
    assert window.report() == (sum(entered[-ENTRIES:]), max(entered[-ENTRIES:]))
    assert len(entered) < len(history)
    print("window: as the order says")


def main():
    parser = argparse.ArgumentParser(description=__doc__.split("\n")[0])
    parser.add_argument("--selftest", action="store_true")
    if parser.parse_args().selftest:
        selftest()
    else:
        write_list()


if __name__ == "__main__":
    main()
