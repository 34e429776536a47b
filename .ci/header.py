#!/usr/bin/env python3
"""header.py: c/pozhdaghi.h says what the library exports.

Compared are: each prototype with the exported function of the Rattle source, by names, order, types, const and lengths; `POZHDAGHI_RESTRICT` stands on just
the areas that a call writes; each constant with those of the Rattle sources and of the package for Rust; each kind of record and each refusal with the Rattle
sources, and each refusal's name with c/refusals.c. A constant of the header that nothing here reads elsewhere is a difference too. Differences are printed and
end with status 1.
"""

import re
import sys

from declarations import TOP, exports
from signatures import plain, split

HEADER = TOP / "c" / "pozhdaghi.h"
NAMES = TOP / "c" / "refusals.c"
RUST = TOP / "service" / "src"

PROTOTYPE = re.compile(r"\bvoid (pozhdaghi_\w+)\s*\(([^()]*)\)\s*;")
POINTER = re.compile(r"(const )?(\w+) \*(POZHDAGHI_RESTRICT )?(\w+)")
VALUE = re.compile(r"(\w+) (\w+)")
TYPES = {"uint8_t": "u8", "uint32_t": "u32", "uint64_t": "u64", "size_t": "usize"}
# `new` is no name in C++.
RENAMED = {"new_words": "new", "new_words_len": "new_len"}

DEFINED = re.compile(r"^#define POZHDAGHI_(\w+) (.+)$", re.M)
ENUMERATED = re.compile(r"\bPOZHDAGHI_(\w+) = (\d+)\b")
CONSTANT = re.compile(r"^(pub )?const (\w+): \w+ =([^;]+);", re.M)
ASKED = re.compile(r"\bnumber\(asked, (\d+)\)")

# Refusals are compared by themselves; the places of numbers in what is asked and answered, and the two orders, stand in no constant of the sources. c/tests and
# c/examples use them.
OTHERWISE = re.compile(r"(REFUSED|ASKED|FOUND|FLOW|DEFINITIONS|REPLACED|FIELD)_|(BREADTH|DEPTH)_FIRST$|DONE$")

# Each constant of the header in terms of those of a Rattle source.
RATTLE = {
    "semantics/src/bounds.rt": {
        "MOST_EDGES": "MAX_EDGES",
        "SLOT_WORDS": "SLOT_WORDS",
        "LENGTHS": "LENGTHS",
        "TALLY": "1 + LENGTHS",
        "RECORD_WORDS": "RECORD_WORDS",
        "FORMER_RECORD_WORDS": "RECORD_WORDS - MAX_EDGES + FORMER_EDGES",
        "MOST_RECORDS": "MAX_RECORDS",
        "ALIASES": "NOBODY + 1",
        "MOST_EXPANSIONS": "MAX_EXPANSIONS",
        "ISIN_BYTES": "ISIN_BYTES",
        "ROW_BYTES": "ROW_BYTES",
        "WINDOW_ENTRIES": "WINDOW_ENTRIES",
        "WINDOW_WORDS": "WINDOW_WORDS",
    },
    "image/src/version.rt": {"LONGEST_IMAGE": "MOST_BYTES"},
    "image/src/header.rt": {
        "MOST_FILES": "MOST_FILES",
        "MOST_NODES": "MOST_NODES",
        "MOST_GRAPH_EDGES": "MOST_EDGES",
    },
    "database/src/layout.rt": {"DATABASE_HEAD": "FIRST_RECORD"},
    "pozhdaghi/src/numbers.rt": {"ANSWER": "MOST"},
    "semantics/src/kinds.rt": {
        "NODE_REMOVED": "REMOVED",
        "NODE_ROOT": "ROOT",
        "NODE_JUMP_TO_SCOPE": "JUMP_TO_SCOPE",
        "NODE_SCOPE": "SCOPE",
        "NODE_PUSH": "PUSH",
        "NODE_POP": "POP",
        "NODE_PUSH_SCOPED": "PUSH_SCOPED",
        "NODE_POP_SCOPED": "POP_SCOPED",
        "NODE_DROP_SCOPES": "DROP_SCOPES",
        "EDGE_REMOVED": "REMOVED",
        "EDGE_LIVE": "LIVE",
    },
}

# Where a refusal gets its number: a case of an enum, or a function of its own.
REFUSALS = ["told/src/refusal.rt", "pozhdaghi/src/numbers.rt"]
CASE = re.compile(r"\b\w+::(\w+)(?:\([^()]*\)|\s*\{[^{}]*\})?\)?\s*=>\s*(?:bare|valued)\((\d+)\b")
OWN = re.compile(r"\bpub fn (\w+)\([^()]*\) -> Told\s[^{]*\{[^{}]*\}\s*\{\s*(?:bare|valued)\((\d+)\b")
SOURCES = re.compile(r"\bfn sources\(.*?\bnumber: (\d+)", re.S)
NAMED = re.compile(r"\{POZHDAGHI_(?:REFUSED_)?(\w+), \"(\w+)\"")
# 30 has the name already.
TO_CONVERT = {39: "TOO_LONG_TO_CONVERT"}


def bare(path, marks=r"//[^\n]*|/\*.*?\*/"):
    return re.sub(marks, "", path.read_text(), flags=re.S)


def computed(expression, names):
    """The number that an expression over other constants means."""
    text = re.sub(r"\bas \w+|(?<=\d)_(?=\d)", "", expression)
    text = re.sub(r"\b(?:POZHDAGHI_)?([A-Z]\w*)\b", lambda found: f"({computed(names[found[1]], names)})", text)
    if not re.fullmatch(r"[\d\s()+*/-]+", text):
        raise ValueError(f"no number: {expression}")
    return eval(text.replace("/", "//"))


def constants(path):
    """Every constant of a Rattle or Rust file as its expression, and the names of the public ones."""
    found = CONSTANT.findall(bare(path))
    return {name: plain(value) for _, name, value in found}, [name for is_public, name, _ in found if is_public]


def declared(text):
    """A parameter of the header as `passed` writes it, or what is wrong with it."""
    pointer, value = POINTER.fullmatch(text), VALUE.fullmatch(text)
    if pointer and bool(pointer[1]) != bool(pointer[3]):
        return f"{RENAMED.get(pointer[4], pointer[4])}: *{'const' if pointer[1] else 'mut'} {TYPES.get(pointer[2])}"
    if value and not pointer:
        return f"{RENAMED.get(value[2], value[2])}: {TYPES.get(value[1])}"
    return f"`{text}` is written and not restricted, or the other way round"


def wrong_prototypes(header):
    exported, wrong = exports()
    given = {name: [declared(p) for p in split(plain(parameters))] for name, parameters in PROTOTYPE.findall(header)}
    for name in sorted(exported.keys() | given.keys()):
        if exported.get(name) != given.get(name):
            wrong.append(f"{name}\n  exported {exported.get(name)}\n  declared {given.get(name)}")
    return wrong, len(exported)


def sources():
    """Each constant of the sources under its name in the header: its value, and where it is from."""
    for place, table in RATTLE.items():
        names, _ = constants(TOP / "crates" / place)
        yield from ((name, computed(expression, names), place) for name, expression in table.items())
    asked = ASKED.findall(bare(TOP / "crates" / "pozhdaghi" / "src" / "asked.rt"))
    yield "ASKED", 1 + max(map(int, asked)), "pozhdaghi/src/asked.rt"
    for path in sorted(RUST.glob("*.rs")):
        names, public = constants(path)
        yield from ((name, computed(names[name], names), f"service/src/{path.name}") for name in public)


def wrong_constants(header):
    names = dict(DEFINED.findall(header)) | dict(ENUMERATED.findall(header))
    given = {name: computed(value, names) for name, value in names.items() if name != "RESTRICT"}
    read = list(sources())
    wrong = [f"{name} is {given.get(name)}, and {value} in {place}" for name, value, place in read if given.get(name) != value]
    known = {name for name, _, _ in read}
    wrong += [f"{name} is read nowhere else" for name in sorted(given.keys() - known) if not OTHERWISE.match(name)]
    return wrong, given


def upper(name):
    return re.sub(r"(?<=[a-z])(?=[A-Z])", "_", name).upper()


def refusals():
    """The names that the Rattle sources have for each number."""
    found = {}
    for place in REFUSALS:
        text = bare(TOP / "crates" / place)
        pairs = CASE.findall(text) + OWN.findall(text) + [("IncorrectSource", number) for number in SOURCES.findall(text)]
        for name, number in pairs:
            found.setdefault(int(number), set()).add(upper(name))
    return found


def wrong_refusals(given):
    told = refusals()
    numbers = {value: name.removeprefix("REFUSED_") for name, value in given.items() if re.match(r"REFUSED_|DONE$", name)}
    wrong = []
    for number in sorted(told.keys() | numbers.keys()):
        wanted = {TO_CONVERT[number]} if number in TO_CONVERT else told.get(number, set())
        if number in told and numbers.get(number) in wanted or number == 0 and numbers.get(0) == "DONE":
            continue
        wrong.append(f"refusal {number} is {numbers.get(number)}, and in the sources {', '.join(sorted(told.get(number, {'none'})))}")
    named = NAMED.findall(bare(NAMES))
    if [name for name, _ in named] != list(numbers.values()):
        wrong.append("c/refusals.c does not have the refusals of the header in their order")
    wrong += [f"c/refusals.c calls {name} {text}" for name, text in named if upper(text) != name]
    return wrong, len(numbers)


def main():
    header = bare(HEADER)
    wrong, functions = wrong_prototypes(header)
    others, given = wrong_constants(header)
    more, numbers = wrong_refusals(given)
    wrong += others + more
    same = [f"{functions} functions, {len(given)} constants and {numbers} refusals are those of the sources"]
    print("\n".join(f"c/pozhdaghi.h: {line}" for line in wrong or same))
    sys.exit(bool(wrong))


if __name__ == "__main__":
    main()
