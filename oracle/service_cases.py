#!/usr/bin/env python3
"""Write the list of calls that the test as_the_rust of service/ replays.

    python3 oracle/service_cases.py [--oracle PROGRAM]

writes service/tests/as_the_rust/list.txt: on each line a request in the words
of README.md, a bar, and the oracle's answer, that is the given Rust's; a line
that begins with # says what follows. The areas and the database that the test
lends are large enough for all of them, so nothing that the Rust lacks refuses
a call. It holds, in this order:

- A, B and C of document 01: the searches in both orders, with returned and with
  recorded paths, and the slots of their databases;
- LINE of example.py: linear search with no limit, each limit alone and all
  together;
- EXAMPLE of example.py: each file replaced in both orders, with either limit and
  both, and a second time; every search in both orders with the limits as above;
  replayed paths with jumps and attached scopes, completeness, `shadows`; nodes,
  edges and files that are none;
- the path rules of path_cases.py: replay, completeness and `shadows`, refused
  on either side, with 10 to 18 among the refusals;
- A, EXAMPLE and the path rules in version 2 (document 02, order 3), with symbols
  that differ in their high halves alone, and in their low ones: searches over all
  files, replayed paths, completeness;
- at the end a line whose answer is wrong, the only one that the test must find.

The list would be of little use if an exchange of numbers in it did not show, so
it is tested here that they differ.
"""

import argparse

from example import EXAMPLE, LINE
from images import (FAR_APART, GRAPH_A, GRAPH_B, GRAPH_C, HIGH_ALIKE, PROGRAM,
                    REPOSITORY, WIDE, Oracle, fields, load_request)
from path_cases import LAST, RULES, RULES_PATHS, written

LIST = REPOSITORY / "service" / "tests" / "as_the_rust" / "list.txt"
NO_LIMITS = "- - -"
LIMITS = (NO_LIMITS, "4 - -", "- 7 -", "- - 2", "6 12 3")
LINE_LIMITS = (NO_LIMITS, "4 - -", "- 7 -", "- - 1", "6 5 3")
FILE_LIMITS = ("- -", "2 -", "- 9", "3 12")
# The answer to C is 0 or 1, and this is the other one.
WRONG = ("C 2 0", "ok 1")


def searches(letters, references, limits, orders="bd"):
    """Each search from each reference."""
    return [f"{letter} {reference} {order} {limit}" for reference in references
            for letter in letters for order in orders for limit in limits]


def filed(graph):
    """A fresh database in which every file is replaced, and its slots."""
    return ["N"] + [f"R {file} b - -" for file in range(graph.files)] + ["B"]


def small_graph(graph):
    """One of document 01's graphs, searched in every way."""
    return [load_request(graph), *filed(graph), *searches("DdLlSs", [2], [NO_LIMITS])]


# Behind references 6 and 7: a jump; a symbol with two scopes; a scope left behind
# a jump; scopes dropped; nothing; the edges of one behind the other.
EXAMPLE_PATHS = ["6 1,4", "6 0,4", "6 0,5", "6 1,3,11,13", "6 2,7", "6 -", "7 -",
                 "7 9,10,3,11,14,15,4", "7 9,10,3,11,14,15", "7 9,10,3,11,14,19",
                 "7 9,10,3,11,14,19,20,21", "7 9,10,3,11,14,16,17", "7 9,10,3,11,14,16",
                 "6 9,10", "7 1,4", "15 23,26", "15 23,27", "15 23,24"]


def example_calls():
    """Each file by itself, then searches over the database of all three."""
    replaced = [request for file in range(3) for order in "bd" for limits in FILE_LIMITS
                for request in ("N", f"R {file} {order} {limits}", "B")]
    none = [*searches("DdLlSs", [2, 18, 19, LAST], [NO_LIMITS], "b"),
            "R 3 b - -", "R 65534 b - -", f"R {LAST} b - -"]
    sides = [(left, right) for left in EXAMPLE_PATHS[:5] for right in EXAMPLE_PATHS[:5]]
    sides += [("7 9,10", "15 23,26"), ("15 23,26", "7 9,10"), ("15 23,26", "15 23,27"),
              ("15 23,27", "15 23,26")]
    # edge 28 is none, and file 1 has no slot before it is replaced
    arbitrary = "W 19 3 0:6:2:1;x;2:2:4:4,28;0:2:4:4"
    return [load_request(EXAMPLE), *replaced, *filed(EXAMPLE),
            *searches("DdSs", EXAMPLE.references(), LIMITS),
            *searches("Ll", EXAMPLE.references(), LIMITS[:2]),
            *none, "R 0 d 2 -", "B",
            *(f"{letter} {path}" for path in EXAMPLE_PATHS for letter in "YC"),
            *(f"H {left} {right}" for left, right in sides),
            arbitrary, *searches("Ss", [6, 7], [NO_LIMITS]), "R 1 b 2 -", "B"]


def rule_calls():
    """Each path rule, and every refusal of one on either side."""
    paths = [f"{reference} {written(edges)}" for reference, edges, _ in RULES_PATHS]
    return [load_request(RULES), *(f"{letter} {path}" for path in paths for letter in "YC"),
            *(f"H {sides}" for path in paths for sides in (f"2 0,1 {path}", f"{path} 2 0,1"))]


def wide_calls(names):
    """The same graphs in version 2 with these symbols."""
    paths = [f"{reference} {written(edges)}" for reference, edges, _ in RULES_PATHS]
    return [load_request(GRAPH_A.renamed(names), WIDE), *filed(GRAPH_A),
            *searches("DdLlSs", [2], [NO_LIMITS], "b"), "Y 2 0", "Y 2 0,2",
            load_request(EXAMPLE.renamed(names), WIDE), *filed(EXAMPLE),
            *searches("DdSs", EXAMPLE.references(), [NO_LIMITS], "b"),
            *(f"{letter} {path}" for path in EXAMPLE_PATHS for letter in "YC"),
            load_request(RULES.renamed(names), WIDE),
            *(f"{letter} {path}" for path in paths for letter in "YC")]


PARTS = {
    "graph A": small_graph(GRAPH_A),
    "graph B": small_graph(GRAPH_B),
    "graph C": small_graph(GRAPH_C),
    "LINE": [load_request(LINE), *searches("Ll", [2, 7], LINE_LIMITS, "b")],
    "EXAMPLE": example_calls(),
    "path rules": rule_calls(),
    "symbols that differ in their high halves": wide_calls(FAR_APART),
    "symbols that differ in their low halves": wide_calls(HIGH_ALIKE),
}


def numbers(answer):
    """The statistics, and of a search how many paths are answered."""
    found = fields(answer)
    counted = [int(found[name]) for name in ("exp", "parts", "comp", "rej", "cyc") if name in found]
    if "paths" in found:
        counted.append(0 if found["paths"] == "-" else len(found["paths"].split(";")))
    return counted


def all_differ(answer):
    """Whether no two numbers of an answer are equal, and none is 0."""
    found = numbers(answer)
    return 0 not in found and len(set(found)) == len(found)


def check_kind(letter, answers):
    """Some answer in which all numbers differ, and each flag set alone."""
    done = [answer for request, answer in answers
            if request[0] == letter and answer.startswith("ok")]
    if not any(map(all_differ, done)):
        raise ValueError(f"{letter}: numbers could be exchanged")
    flags = {fields(answer)["fl"] for answer in done}
    count = len(min(flags))
    if not {"".join("01"[at == place] for place in range(count)) for at in range(count)} <= flags:
        raise ValueError(f"{letter}: flags {flags}")


def check_apart(told, letter, one, other):
    """Some request of this letter is answered differently with another word in it."""
    pairs = [(request, request.replace(one, other, 1)) for request in told if request[0] == letter]
    if all(told[first] == told[second] for first, second in pairs if second in told):
        raise ValueError(f"{letter}: nothing tells{one}from{other}")


def check(parts):
    """Nothing could be exchanged unseen, and every refusal that the Rust has is there."""
    answers = [asked for part in parts.values() for asked in part]
    for letter in "DdLlSsR":
        check_kind(letter, answers)
    told = dict(parts["EXAMPLE"])
    for letter in "DdSsR":
        check_apart(told, letter, " b ", " d ")
    for letter in "DdSs":
        check_apart(told, letter, " 6 ", " 7 ")
    # Linear search records no path beside another, so its two calls answer alike.
    check_apart(told, "D", "D ", "d ")
    check_apart(told, "S", "S ", "s ")
    refused = {int(answer.split()[1]) for _, answer in answers if answer.startswith("err")}
    if refused != {*range(10, 19), 20, 21}:
        raise ValueError(f"refused by {refused}")
    if any(not answer.startswith(("ok", "err")) for _, answer in answers):
        raise ValueError("a request was not understood")


def main():
    """Ask everything, test the list and write it."""
    parser = argparse.ArgumentParser(description=__doc__.splitlines()[0])
    parser.add_argument("--oracle", default=PROGRAM, help="the compiled oracle")
    arguments = parser.parse_args()
    with Oracle(arguments.oracle) as oracle:
        parts = {name: list(zip(requests, oracle.ask_all(requests)))
                 for name, requests in PARTS.items()}
        if oracle.ask(WRONG[0]) == WRONG[1]:
            raise ValueError("the wrong answer is right")
    check(parts)
    lines = ["# Requests and the Rust's answers, written by oracle/service_cases.py."]
    for name, asked in [*parts.items(), ("a wrong answer", [WRONG])]:
        lines += [f"# {name}", *(" | ".join(line) for line in asked)]
    LIST.parent.mkdir(exist_ok=True)
    LIST.write_text("\n".join(lines) + "\n", encoding="ascii")
    print(f"{sum(map(len, parts.values()))} calls and a wrong answer")


if __name__ == "__main__":
    main()
