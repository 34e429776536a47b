#!/usr/bin/env python3
"""The flow directory, a second time from document 02, order 11.

    resolved(graph, data, visible, rows, key, request)

answers what the call answers: a refusal's number and values, or the word of the
definitions and what the direct search of searches.py gives.

    python3 oracle/directory.py > service/tests/directory/list.txt

writes the list that the test `directory` of service/ replays. Its lines:

- `isin`: a right ISIN, of which every other check digit is wrong. The real ones of the
  order's plan, a pair of letters exchanged that Luhn's rule does not see, drawn ones;
- `stem`: eleven bytes that no check digit makes an ISIN, as one of them is out of range;
- `malformed`: what else is none, in hexadecimal digits;
- `image`: a name and the bytes;
- `call`: image, visible files, order, the three limits, waiting and result slots, rows,
  ISIN, tranche, leg, a bar and the answer. First every order of refusals, then stated
  calls, then drawn directories; the last line is wrong, the only one that the test must
  find.

    python3 oracle/directory.py --selftest

holds the reading of ISO 6166 to single wrong digits, and counts what is in the list.
"""

import argparse
import collections
import random
from itertools import product
from typing import NamedTuple

from images import (GRAPH_A, GRAPH_C, POP, PUSH, REMOVED, ROOT_AND_JUMP, SCOPE, WIDE, Edge, Graph,
                    Node, image)
from refusals import Refused, check
from searches import Request, direct
from tally import chain, seen

SEED = 11
DIRECTORIES = 180
ROW, KEY = 18, 16
MOST = 65_535
CAPITALS = "ABCDEFGHIJKLMNOPQRSTUVWXYZ"
DIGITS = "0123456789"

REAL = """
US0378331005 US5949181045 US38259P5089 US02079K3059 US02079K1079 US0231351067 US4592001014
US0846707026 US0846701086 US9311421039 US1912161007 US7427181091 US4781601046 US30303M1027
US88160R1014 US67066G1040 US46625H1005 US0605051046 US1729674242 US30231G1022 GB0002634946
GB0002374006 GB00B03MLX29 GB00BP6MXD84 GB0007980591 GB0005405286 GB0009895292 GB00BH4HKS39
GB00B16GWD56 DE000BAY0017 DE0007164600 DE0007236101 DE0005140008 DE0007664039 DE000BASF111
DE0008404005 DE0005557508 FR0000131104 FR0000120271 FR0000121014 FR0000120578 NL0000009165
NL0010273215 CH0038863350 CH0012032048 CH0012005267 AU0000XVGZA3 AU000000BHP4 AU000000CBA7
JP3633400001 JP3435000009 JP3902900004 JP3436100006 KR7005930003 HK0000069689 BMG491BT1088
IE00B4BNMY34 IE00BZ12WP82 ES0113900J37 ES0178430E18 IT0003132476 SE0000108656 DK0062498333
NO0010096985 FI0009000681 BRPETRACNPR6 ZAE000042164 CA7800871021 INE002A01018 INE009A01021
TW0002330008 CNE100000296 IL0006290147 LU1598757687
""".split()
# Two letters of a real one exchanged: the sum stays right, so it is accepted.
EXCHANGED = "AU0000VXGZA3"
# Bytes next to the ranges of capitals and digits, the lower case, and both ends of a byte.
OUTSIDE = b"@[/:az`{\x00\x7f\x80\xff"


class Key(NamedTuple):
    """What is looked for."""
    isin: bytes
    tranche: int
    leg: int


class Row(NamedTuple):
    """A row; its key may be of any bytes."""
    isin: bytes
    tranche: int
    leg: int
    reference: int

    def written(self):
        """The bytes of the row."""
        return self.isin + b"".join(number.to_bytes(2, "big") for number in self[1:])


def written_out(text):
    """Letters as 10 to 35, one digit after another."""
    return [int(digit) for letter in text
            for digit in str(DIGITS.find(letter) if letter in DIGITS else 10 + CAPITALS.find(letter))]


def sum_is_right(text):
    """Luhn's rule: from the right every second digit is doubled, and its digits are summed."""
    turned = written_out(text)[::-1]
    doubled = sum(sum(map(int, str(2 * digit))) for digit in turned[1::2])
    return (sum(turned[::2]) + doubled) % 10 == 0


def is_isin(data):
    """Two capitals, nine capitals or digits, and a right check digit."""
    text = data.decode("latin-1")
    return (len(text) == 12 and all(letter in CAPITALS for letter in text[:2])
            and all(letter in CAPITALS + DIGITS for letter in text[2:11])
            and text[11] in DIGITS and sum_is_right(text))


def row_reference(rows, key):
    """The reference of the key's row, or 41, 42, 43. Bytes compare as unsigned numbers."""
    if not is_isin(key.isin):
        raise Refused(41)
    split = [rows[at:at + ROW] for at in range(0, len(rows), ROW)]
    if len(rows) % ROW or any(low[:KEY] >= high[:KEY] for low, high in zip(split, split[1:])):
        raise Refused(42)
    for row in split:
        tranche, leg, reference = (int.from_bytes(row[at:at + 2], "big") for at in (12, 14, 16))
        if (row[:12], tranche, leg) == tuple(key):
            return reference
    raise Refused(43)


def definitions(returned):
    """The word for the ends of the returned paths."""
    ends = {path.end for path in returned}
    if len(ends) > 1:
        return "several"
    return f"one {ends.pop()}" if ends else "nothing"


def resolved(graph, data, visible, rows, key, request):
    """The answer as the list has it; the graph is that of the image's bytes if they are accepted."""
    try:
        check(data)
        reference = row_reference(rows, key)
        found = direct(seen(graph, visible), request._replace(reference=reference))
    except Refused as refusal:
        told = (refusal.told + [0, 0])[:3]
        return "refused " + " ".join(map(str, told))
    returned = found.returned()
    numbers = [len(returned), *found.counts, *found.flags, found.most_waiting]
    return f"{definitions(returned)} | {' '.join(map(str, numbers))}"


def reference(symbol, file=0):
    """A node that pushes."""
    return Node(PUSH, file, symbol, flag=True)


def definition(symbol, file=0):
    """A node that pops."""
    return Node(POP, file, symbol, flag=True)


# All edges have precedence 0, so nothing is shadowed and every recorded path is returned.
# 2 and 6 reach nothing, 3 one definition, 4 one by two paths, 5 two of the three for its
# symbol, one of them twice. 13 is a push and 15 a pop without the flag, 14 is removed.
PLAIN = Graph(
    1, ROOT_AND_JUMP + [reference(1), reference(2), reference(3), reference(4), reference(5),
                        Node(SCOPE, flag=True), Node(SCOPE), definition(2), definition(3),
                        definition(4), definition(4), Node(PUSH, symbol=9), Node(REMOVED),
                        Node(POP, symbol=1), definition(4)],
    [Edge(2, 7), Edge(3, 7), Edge(4, 7), Edge(4, 8), Edge(5, 7), Edge(5, 0), Edge(7, 9), Edge(7, 10),
     Edge(8, 10), Edge(7, 11), Edge(7, 12), Edge(0, 11), Edge(7, 15), None, Edge(7, 13)])
# By way of root 2 of file 0 reaches a definition in each file, 5 of file 1 one in its own;
# whoever sees one file alone is told of one.
FILES = Graph(
    2, ROOT_AND_JUMP + [reference(7), definition(7), definition(7, 1), reference(8, 1), definition(8, 1)],
    [Edge(2, 0), Edge(0, 3), Edge(0, 4), Edge(5, 6)])
# Here precedences differ: 2 records paths to 4 and 5, and the one to 5 alone is returned.
SHADOWED = Graph(
    1, ROOT_AND_JUMP + [reference(7), Node(SCOPE), definition(7), definition(7)],
    [Edge(2, 3), Edge(3, 4), Edge(3, 5, 1)])

GRAPHS = {"plain": PLAIN, "files": FILES, "shadowed": SHADOWED, "loop": GRAPH_C, "wide": PLAIN,
          "chain": chain(63, [Node(SCOPE)]), "a": GRAPH_A}


def changed(data, at, byte):
    """The image with one byte changed."""
    return data[:at] + bytes([byte]) + data[at + 1:]


def images():
    """The images by name, with those that are refused by 1 to 5."""
    whole = {name: image(graph, WIDE) if name == "wide" else image(graph)
             for name, graph in GRAPHS.items()}
    data = whole["a"]
    broken = {"version": changed(data, 0, 3), "length": data[:-1], "counts": changed(data, 5, 2),
              "record": changed(data, 12, 2), "ends": changed(data, len(data) - 5, 9)}
    return whole | broken


IMAGES = images()


class Call(NamedTuple):
    """One call; by default everything is ample and visible."""
    image: str
    rows: bytes
    key: Key
    visible: tuple = (0, 1)
    request: Request = Request(reference=0, linear=False, waiting=8, results=8)

    def answer(self):
        """What it answers."""
        graph = GRAPHS.get(self.image, GRAPH_A)
        return resolved(graph, IMAGES[self.image], self.visible, self.rows, self.key, self.request)

    def line(self, answer=None):
        """The line of the list."""
        asked = self.request
        limits = ["-" if limit is None else limit for limit in (asked.length, asked.count, asked.complete)]
        files = ",".join(map(str, self.visible)) or "-"
        words = ["call", self.image, files, asked.order, *limits, asked.waiting, asked.results,
                 self.rows.hex() or "-", self.key.isin.hex() or "-", self.key.tranche, self.key.leg]
        return f"{' '.join(map(str, words))} | {self.answer() if answer is None else answer}"


APPLE, BAYER, ALPHABET = b"US0378331005", b"DE000BAY0017", b"US02079K3059"


def joined(rows):
    """The bytes of the directory."""
    return b"".join(row.written() for row in rows)


def every_order():
    """What is wrong at once, in all combinations: the first in the order's list is told."""
    key = Key(APPLE, 1, 2)
    keys = (key, key._replace(leg=3), key._replace(tranche=65_537))
    for node, given, wrong, waiting in product((3, 7, 14), keys, (True, False), (8, 0)):
        low, hit, high = Row(BAYER, 9, 9, 2), Row(*key, node), Row(APPLE, 2, 1, 2)
        given = given._replace(isin=b"US0378331006") if wrong else given
        request = Request(reference=0, linear=False, waiting=waiting, results=8)
        for rows in (joined([low, hit, high]), joined([hit, low, high]), joined([low, hit, hit]),
                     joined([low, hit, high])[:-1]):
            yield Call("plain", rows, given, request=request)
    for name in ("version", "length", "counts", "record", "ends"):
        yield Call(name, joined([Row(*key, 2)]), key)
        yield Call(name, joined([Row(*key, 2)] * 2)[:-1], key._replace(isin=b""))


def stated():
    """Every node as reference, visible files, limits, areas, the long chain, rows that hold no ISIN."""
    key = Key(BAYER, 65_535, 65_535)
    for name in ("plain", "wide"):
        yield from (Call(name, joined([Row(*key, node)]), key) for node in [*range(18), 255, 256, 259, MOST])
    for visible, node in product(((), (0,), (1,), (0, 1), (0, 1, 2)), (2, 3, 5)):
        yield Call("files", joined([Row(*key, node)]), key, visible)
    base = Request(reference=0, linear=False, waiting=8, results=8)
    cuts = ({"length": 1}, {"length": 2}, {"count": 0}, {"count": 2}, {"count": 3}, {"complete": 0},
            {"complete": 1}, {"complete": 2}, {"waiting": 0}, {"waiting": 1}, {"waiting": 2},
            {"results": 0}, {"results": 1}, {"results": 2}, {"results": 3})
    for order, cut, (name, node) in product("bd", cuts, (("plain", 5), ("plain", 4), ("shadowed", 2))):
        yield Call(name, joined([Row(*key, node)]), key, request=base._replace(order=order, **cut))
    for name, order in product(("shadowed", "loop", "chain", "a"), "bd"):
        yield Call(name, joined([Row(*key, 2)]), key, request=base._replace(order=order))
    for isin in (APPLE[:11], APPLE + b"\0", APPLE + b"\0\1\0\1", b"US0378331006", b"us0378331005"):
        rows = joined(Row(row, 1, 1, 3) for row in sorted([APPLE, b"US0378331006", b"us0378331005"]))
        yield from (Call("plain", rows, Key(given, 1, 1)) for given in (isin, APPLE))


# Few keys, so that hits are frequent. Of the last two row ISINs neither is one: rows may hold
# anything, and their first bytes tell signed from unsigned comparison.
ROW_ISINS = (APPLE, BAYER, ALPHABET, b"\x80" + APPLE[1:], b"us0378331005")
NUMBERS = (0, 1, 255, 256, MOST)
NODES = (2, 3, 4, 5) * 4 + (6, 0, 7, 9, 13, 14, 17, MOST)


def drawn_rows(rng, count):
    """So many rows with distinct keys, ascending."""
    keys = rng.sample(list(product(ROW_ISINS, NUMBERS, NUMBERS)), count)
    return [Row(*key, rng.choice(NODES)) for key in sorted(keys)]


def drawn_key(rng, rows):
    """A key that is there, one that is beside it, or a drawn one."""
    asked = [Key(*row[:3]) for row in rows if is_isin(row.isin)]
    drawn = Key(rng.choice(ROW_ISINS[:3]), rng.choice(NUMBERS), rng.choice(NUMBERS))
    key = rng.choice(asked) if asked and rng.random() < 0.9 else drawn
    kind = rng.random()
    if kind < 0.82:
        return key
    if kind < 0.88:
        return Key(key.isin, key.leg, key.tranche)
    high = rng.choice((65_536, 2**31, 2**32 - 65_536))
    return key._replace(tranche=key.tranche + high) if kind < 0.94 else key._replace(leg=key.leg + high)


def disturbed(rng, rows):
    """The rows' bytes, in most directories as they are."""
    kind, at = rng.random(), rng.randrange(max(1, len(rows) - 1))
    if len(rows) > 1 and kind < 0.14:
        rows = rows[:at] + [rows[at + 1], rows[at]] + rows[at + 2:]
    elif rows and kind < 0.24:
        at = rng.randrange(len(rows))
        rows = rows[:at] + [rows[at], rows[at]._replace(reference=rng.choice(NODES))] + rows[at + 1:]
    elif kind > 0.9:
        return joined(rows) + rng.randbytes(rng.randint(1, ROW - 1))
    return joined(rows)


def drawn_calls():
    """Drawn directories of 0 to 12 rows."""
    rng = random.Random(SEED)
    for _ in range(DIRECTORIES):
        rows = drawn_rows(rng, rng.randint(0, 12))
        key = drawn_key(rng, rows)
        name, order = rng.choice(("plain", "plain", "wide")), rng.choice("bd")
        request = Request(reference=0, linear=False, order=order, waiting=8, results=8)
        yield Call(name, disturbed(rng, rows), key, request=request)


def drawn_isins():
    """Right ones whose stems are drawn; in half of them letters and digits stand alike."""
    rng = random.Random(SEED)
    for number in range(60):
        letters = CAPITALS + DIGITS if number % 2 else CAPITALS
        stem = "".join(rng.choices(CAPITALS, k=2) + rng.choices(letters, k=9))
        yield from (stem + digit for digit in DIGITS if sum_is_right(stem + digit))


def stems():
    """Eleven bytes of which one may not stand where it stands."""
    stem = ALPHABET[:11]
    for at, byte in product(range(11), OUTSIDE):
        yield changed(stem, at, byte)
    for at, byte in product((0, 1), DIGITS.encode()):
        yield changed(stem, at, byte)


def malformed():
    """Other lengths, the lower case, and a last byte that is no digit."""
    yield from (b"", b"U", b"0", APPLE[:11], APPLE[1:], APPLE + b"0", b"0" + APPLE, APPLE + b"\0")
    yield from (APPLE + b"5", APPLE + APPLE, APPLE[:6] + APPLE[7:], bytes(12), b"\xff" * 12, b"0" * 12)
    yield from (real.encode().lower() for real in REAL[:8])
    yield from (b"Us0378331005", b"uS0378331005", b"US02079k3059", b" US037833100", b"US 37833100 ")
    yield from (APPLE[:11] + bytes([byte]) for byte in CAPITALS.encode() + OUTSIDE)


def lines():
    """The list."""
    yield "# Calls of the flow directory and their answers, written by oracle/directory.py."
    yield from (f"isin {isin}" for isin in [*REAL, EXCHANGED, *drawn_isins()])
    yield from (f"stem {stem.hex()}" for stem in stems())
    yield from (f"malformed {isin.hex() or '-'}" for isin in malformed())
    yield from (f"image {name} {data.hex()}" for name, data in IMAGES.items())
    yield from (call.line() for call in [*every_order(), *stated(), *drawn_calls()])
    key = Key(BAYER, 1, 1)
    wrong = Call("plain", joined([Row(*key, 4)]), key)
    yield wrong.line(wrong.answer().replace("one 10", "several"))


def selftest():
    """Of ten check digits one is right; one wrong digit is always found; what the list has."""
    for isin in [*REAL, EXCHANGED, *drawn_isins()]:
        assert [is_isin(f"{isin[:11]}{digit}".encode()) for digit in DIGITS].count(True) == 1
        assert is_isin(isin.encode()), isin
        for at, digit in product(range(2, 12), DIGITS):
            other = isin[:at] + digit + isin[at + 1:]
            assert isin[at] not in DIGITS or is_isin(other.encode()) == (other == isin)
    assert not any(is_isin(stem + bytes([digit])) for stem in stems() for digit in range(256))
    assert not any(is_isin(isin) for isin in malformed())
    print(dict(collections.Counter(line.split()[0] for line in lines())))
    for name, calls in (("orders", every_order()), ("stated", stated()), ("drawn", drawn_calls())):
        words = [call.answer().split() for call in calls]
        told = collections.Counter(" ".join(word[:2]) if word[0] == "refused" else word[0] for word in words)
        print(name, len(words), dict(sorted(told.items())))


def main():
    """Write the list, or test."""
    parser = argparse.ArgumentParser(description=__doc__.split("\n", 1)[0])
    parser.add_argument("--selftest", action="store_true")
    if parser.parse_args().selftest:
        selftest()
        return
    print("\n".join(lines()))


if __name__ == "__main__":
    main()
