"""Function heads of Rattle sources: visibility, parameters in order, result and clauses."""

import re
from dataclasses import dataclass
from pathlib import Path

HEAD = re.compile(
    r'^[ \t]*(?P<seen>pub(?:\([a-z]+\))? )?(?:const )?(?:unsafe )?(?P<exported>extern "C" )?fn (?P<name>\w+)', re.M
)
METHODS = re.compile(r"^[ \t]*(?:unsafe )?impl\b(?:<[^{]*?>)? (?:[^{]*? for )?(?P<name>\w+)[^{;]*\{", re.M)
TEST = re.compile(r"#\[test\]\s*(?:#\[[^\]]*\]\s*)*$")
# `ensures low { .. }`: a clause has a name where its kind has several.
CLAUSE = re.compile(r"\s*(?P<kind>(?:requires|ensures)\*?|ghost)(?!\w)(?P<name>[^{;]*)\{")
# What has brackets of its own, or none that count.
COMMENT = re.compile(r"//[^\n]*")
TEXT = re.compile(r'"(?:\\.|[^"\\])*"|\'(?:\\.|[(){}\[\]"])\'', re.S)
TURNS = {"(": 1, ")": -1, "{": 1, "}": -1, "[": 1, "]": -1}


@dataclass
class Clause:
    kind: str
    name: str
    text: str

    def __str__(self):
        return " ".join(part for part in (self.kind, self.name, "{", self.text, "}") if part)


@dataclass
class Function:
    crate: str
    module: str
    name: str
    seen: str
    exported: bool
    is_test: bool
    parameters: list
    result: str
    clauses: list

    @property
    def path(self):
        return f"{self.crate}::{self.module}::{self.name}"


def closed(text, at):
    """The place behind the bracket that closes the one in front of `at`."""
    depth = 1
    while depth:
        depth += TURNS.get(text[at], 0)
        at += 1
    return at


def behind_generics(text, at):
    """The place behind the type parameters of a head, if it has any."""
    if text[at] != "<":
        return at
    depth = 0
    while True:
        depth += {"<": 1, ">": -1}.get(text[at], 0) if text[at - 1 : at + 1] != "->" else 0
        at += 1
        if depth == 0:
            return at


def plain(text):
    return " ".join(text.split())


def parameters(text):
    """Name and type of each, in order; `self` has no type of its own."""
    found = []
    for part in split(text):
        name, _, kind = part.partition(":")
        found.append((plain(name), plain(kind)))
    return found


def split(text):
    parts, depth, part = [], 0, ""
    for letter in text:
        depth += {"(": 1, "[": 1, "<": 1, ")": -1, "]": -1, ">": -1}.get(letter, 0) if part[-1:] + letter != "->" else 0
        if letter == "," and depth == 0:
            parts.append(part)
            part = ""
        else:
            part += letter
    return [plain(p) for p in parts + [part] if p.strip()]


def owner(shape, at):
    """The type whose `impl` holds this place."""
    for found in METHODS.finditer(shape):
        if found.end() <= at < closed(shape, found.end()):
            return found["name"]
    return None


def blanked(pattern, text):
    return pattern.sub(lambda found: " " * len(found[0]), text)


def functions(crate, path):
    text = path.read_text()
    # Strings first, as one may hold two slashes; a comment may hold a quote, so each comment is blanked where no string begins before it.
    both = re.compile(f"(?P<text>{TEXT.pattern})|{COMMENT.pattern}", re.S)
    text = both.sub(lambda found: found[0] if found["text"] else " " * len(found[0]), text)
    shape = blanked(TEXT, text.replace('extern "C"', "extern 'C'")).replace("extern 'C'", 'extern "C"')
    module = path.stem
    for head in HEAD.finditer(shape):
        begin = shape.index("(", behind_generics(shape, head.end())) + 1
        end = closed(shape, begin)
        at, depth = end, 0
        while depth or not CLAUSE.match(shape, at) and shape[at] not in "{;":
            depth += TURNS.get(shape[at], 0)
            at += 1
        result = plain(text[end:at]).removeprefix("->").strip()
        clauses = []
        while found := CLAUSE.match(shape, at):
            at = closed(shape, found.end())
            clauses.append(Clause(found["kind"], plain(found["name"]), plain(text[found.end() : at - 1])))
        kind = owner(shape, head.start())
        yield Function(
            crate,
            module,
            f"{kind}::{head['name']}" if kind else head["name"],
            (head["seen"] or "").strip(),
            bool(head["exported"]),
            bool(TEST.search(shape[: head.start()])),
            parameters(text[begin : end - 1]),
            result,
            clauses,
        )


def crates(top):
    """Each crate of crates.txt in order, with its functions."""
    for line in (Path(top) / "crates.txt").read_text().splitlines():
        name = (line.partition("#")[0].partition(":")[0].split() or [""])[0]
        if name:
            folder = Path(top) / "crates" / name
            found = [f for path in sorted(folder.glob("src/**/*.rt")) for f in functions(name, path)]
            yield name, folder, found
