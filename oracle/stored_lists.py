"""The five lists that the program `cases` replays, each written by its script.

crates/cases/stdin holds them one behind another, each its length in 4 bytes and then its bytes, and stdout what the program prints of them: the
line of each wrong case, then the sums of each kind. A script writes its own list and its kinds' lines, and leaves the others as they are.

Each list ends with one case more, whose stored answer is wrong. The program must find just that one: a comparison that lets everything pass would
not. It is the last case once more with 1 added to the last number of its answer; the last case of each list alters nothing, so that its right
answer is the same again.
"""

import pathlib
import re

FOLDER = pathlib.Path(__file__).resolve().parent.parent / "crates" / "cases"
# The lists in their order.
LISTS = ("images", "paths", "searches", "partials", "stitched")
# The kinds of all lists, in the order in which the program tells them.
KINDS = ("images", "replays", "complete", "shadows", "direct", "direct recorded", "linear", "linear recorded",
         "fresh", "replaced", "lookups", "stitched", "stitched recorded")
# As many bytes as the program reads of a list, and as many numbers as an answer may have.
MOST_BYTES, MOST_NUMBERS = 1_300_000, 8_192
LINE = re.compile(r"(\D+?)( case)? \d")


def wrong_case(written, begin):
    """The bytes of the case that begins there and ends the list, with its last number raised."""
    last = int.from_bytes(written[-4:], "big")
    return bytes(written[begin:-4]) + (last + 1).to_bytes(4, "big")


def told(name, number, answer):
    """The line that the program prints of it: case `number` of its kind, counted from 0."""
    expected = answer[:-1] + [answer[-1] + 1]
    return f"{name} case {number} expected {spaced(expected)} given {spaced(answer)}\n"


def spaced(numbers):
    """The numbers in one line."""
    return " ".join(map(str, numbers))


def sums(names, counts, wrong):
    """The line of each kind: how many cases there are and how many differ."""
    return [f"{name} {counts[kind] + (kind == wrong)} different {int(kind == wrong)}\n"
            for kind, name in names.items()]


def parted(stored):
    """The five lists; one that is not there is empty."""
    lists = []
    for _ in LISTS:
        length = int.from_bytes(stored[:4], "big")
        lists.append(stored[4:4 + length])
        stored = stored[4 + length:]
    return lists


def name_of(line):
    """The kind that a printed line speaks of, and whether it is the line of its sums."""
    found = LINE.match(line)
    return found[1], not found[2]


def order(line):
    """Wrong cases come before the sums, and both in the order of the kinds."""
    name, is_sum = name_of(line)
    return is_sum, KINDS.index(name)


def before(path):
    """What a file holds, if it is there."""
    return path.read_bytes() if path.exists() else b""


def write_list(name, cases, names):
    """The list in its place, and the lines that the program must print of its kinds."""
    begin, kind, answer = cases.latest
    counts = cases.sums()
    lists = parted(before(FOLDER / "stdin"))
    written = bytes(cases.written) + wrong_case(cases.written, begin)
    if len(written) > MOST_BYTES:
        raise SystemExit(f"{len(written)} bytes are more than the program reads")
    lists[LISTS.index(name)] = written
    others = before(FOLDER / "stdout").decode("ascii").splitlines(keepends=True)
    lines = [line for line in others if name_of(line)[0] not in names.values()]
    lines += [told(names[kind], counts[kind], answer), *sums(names, counts, kind)]
    FOLDER.mkdir(parents=True, exist_ok=True)
    (FOLDER / "stdin").write_bytes(b"".join(len(one).to_bytes(4, "big") + one for one in lists))
    (FOLDER / "stdout").write_text("".join(sorted(lines, key=order)), encoding="ascii")
