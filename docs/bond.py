#!/usr/bin/env python3
"""bond.py: docs/bond.svg, the bond of docs/GUIDE.md drawn from the bytes of its image as they stand there.

Needs Debian's package graphviz, whose `dot` lays the graph out: apt-get install -y graphviz. Another version of it may place things otherwise; what dot says of
itself in the file is left out. What is drawn is read from the guide: the bytes, and the names of the symbols.
"""

import re
import shutil
import struct
import subprocess
import sys
from pathlib import Path

HERE = Path(__file__).resolve().parent
GUIDE = HERE / "GUIDE.md"
DRAWING = HERE / "bond.svg"

BYTES = re.compile(r"The image in version 1 has (\d+) bytes:\n\n((?:    .*\n)+)")
SYMBOLS = re.compile(r"^Symbols: (.*)\.", re.M)
FILES = re.compile(r"^    file (\d), (.+?) {3,}file (\d), (.+)$", re.M)
HEAD_BYTES = 11
REMOVED, ROOT, JUMP, SCOPE, PUSH, POP = range(6)
WORDS = {ROOT: "root", JUMP: "jump", SCOPE: "scope", PUSH: "push", POP: "pop"}
FLAGS = {PUSH: "reference", POP: "definition", SCOPE: "exported"}
LOOK = {
    "reference": 'shape=box, style="filled,rounded", fillcolor="#dbe9f6"',
    "definition": 'shape=box, style=filled, fillcolor="#fbe3c0"',
    "root": "shape=doublecircle",
}
PLAIN = "shape=box, style=rounded"
# What ends a line of a label in dot's language.
LINE = "\\n"


def image(text):
    """The bytes of the guide's image: the hexadecimal digits in front of what is said of them."""
    size, lines = BYTES.search(text).groups()
    said_at = lines.index("version, length")
    data = bytes.fromhex("".join(re.sub(r"\s", "", line[:said_at]) for line in lines.splitlines()))
    if len(data) != int(size):
        sys.exit(f"{GUIDE.name}: {len(data)} bytes where it says {size}")
    return data


def records(data):
    """The fields of each node, then those of each edge."""
    nodes, edges = struct.unpack_from(">HH", data, 7)
    found, at = [], HEAD_BYTES
    for _ in range(nodes + edges):
        found.append(data[at + 1 : at + 1 + data[at]])
        at += 1 + data[at]
    return found[:nodes], found[nodes:]


def symbols(text):
    """The names of the symbols by their numbers: `ACME31 is 1, coupon 2, ..`."""
    return {int(number): name for name, number in re.findall(r"(\w+)(?: is)? (\d+)", SYMBOLS.search(text)[1])}


def label(number, fields, names):
    kind, flag = fields[0], fields[-1]
    said = [f"{number} {WORDS[kind]}"]
    if kind in (PUSH, POP):
        said[0] += " " + names[struct.unpack_from(">I", fields, 3)[0]]
    if kind in FLAGS and flag:
        said.append(FLAGS[kind])
    return said


def node(number, fields, names):
    said = label(number, fields, names)
    look = LOOK.get(said[-1], LOOK.get(WORDS[fields[0]], PLAIN))
    return f'n{number} [label="{LINE.join(said)}", {look}]'


def edge(number, fields):
    source, target, precedence = struct.unpack_from(">HHi", fields, 1)
    return f'n{source} -> n{target} [label="{number}{f", precedence {precedence}" if precedence else ""}"]'


def cluster(file, title, nodes, names):
    own = [node(n, fields, names) for n, fields in enumerate(nodes) if fields[0] > JUMP and struct.unpack_from(">H", fields, 1)[0] == file]
    return [f"subgraph cluster_{file} {{", f'label="file {file}, {title}"; color="#999999";', *own, "}"]


def graph(text):
    """The graph in dot's language. Nodes that nothing leads to or from, as jump here, are left out where they have no file."""
    nodes, edges = records(image(text))
    names = symbols(text)
    live = [(number, fields) for number, fields in enumerate(edges) if fields[0] != REMOVED]
    ends = {n for _, fields in live for n in struct.unpack_from(">HH", fields, 1)}
    lines = ["digraph bond {", 'rankdir=LR; fontname="sans-serif"; node [fontname="sans-serif", fontsize=11]; edge [fontname="sans-serif", fontsize=10];']
    lines += [node(n, fields, names) for n, fields in enumerate(nodes) if fields[0] in (ROOT, JUMP) and n in ends]
    first, first_title, second, second_title = FILES.search(text).groups()
    lines += cluster(int(first), first_title, nodes, names) + cluster(int(second), second_title, nodes, names)
    lines += [edge(number, fields) for number, fields in live]
    return "\n".join(lines + ["}"]) + "\n"


def main():
    if not shutil.which("dot"):
        sys.exit("dot is missing: apt-get install -y graphviz")
    drawn = subprocess.run(["dot", "-Tsvg"], input=graph(GUIDE.read_text()), capture_output=True, text=True, check=True).stdout
    DRAWING.write_text(re.sub(r"<!--.*?-->\n?", "", drawn, flags=re.S))


if __name__ == "__main__":
    main()
