#!/usr/bin/env python3
"""Counts the places in crates/*/src that are written in an older form, one list for each point of docs/DESIGN-PASS.md.

    python3 tools/forms.py            the counts
    python3 tools/forms.py 3          the counts and the places of point 3

What it finds are candidates by their text: whether a place stays is said in a comment that begins with `// Kept: ` beside it.
"""
import collections
import pathlib
import re
import sys

ROOT = pathlib.Path(__file__).resolve().parent.parent
SOURCES = sorted((ROOT / "crates").glob("*/src/**/*.rt"))


def text_of(path):
    return re.sub(r"//[^\n]*", "", path.read_text())


def lines_before(text, at):
    return text.count("\n", 0, at) + 1


def block(text, at):
    """The text between the brace that opens at or behind `at` and the one that closes it."""
    start = text.index("{", at)
    depth = 0
    for i in range(start, len(text)):
        depth += {"{": 1, "}": -1}.get(text[i], 0)
        if depth == 0:
            return text[start + 1 : i]
    return text[start + 1 :]


def parts(body):
    """Split at commas outside of brackets."""
    found, depth, last = [], 0, 0
    for i, c in enumerate(body):
        depth += (c in "([{<") - (c in ")]}>")
        if c == "," and depth == 0:
            found.append(body[last:i])
            last = i + 1
    found.append(body[last:])
    return [p.strip() for p in found if p.strip()]


def name(path):
    return str(path.relative_to(ROOT / "crates"))


def functions():
    for path in SOURCES:
        text = text_of(path)
        for m in re.finditer(r"^[ ]*(pub(?:\(crate\))? )?fn (\w+)", text, re.M):
            yield path, text, m.start(), m.group(2)


def body_of(text, at):
    """The body of the function at a place, and where it opens: clauses stand before it, each in braces of its own."""
    start = at
    for line in text[at:].split("\n"):
        if line.rstrip().endswith("{") and not re.match(r"\s*(requires|ensures)\b", line):
            opens = start + len(line.rstrip()) - 1
            return opens, block(text, opens)
        start += len(line) + 1
    return at, ""


def point_1():
    for path in SOURCES:
        text = text_of(path)
        for m in re.finditer(r"\benum (\w+)[^{]*\{", text):
            variants = parts(block(text, m.start()))
            carrying = [v for v in variants if re.search(r"[({]", v)]
            refusing = [v for v in variants if re.search(r"\(\w*(Refusal|Error)\)", v)]
            error = re.search(r"(Refusal|Error|TurnedBack)$", m.group(1))
            if not error and (len(variants) == 2 and carrying or refusing):
                yield f"{name(path)}:{lines_before(text, m.start())} enum {m.group(1)} of {len(variants)}"
        kinds = re.findall(r"^\s*pub const \w+: (?:u32|usize) = \d+;", text, re.M)
        if path.stem == "kinds" and len(kinds) > 1:
            yield f"{name(path)} {len(kinds)} numbers for kinds"
    for path, text, at, fn in functions():
        head = text[at : text.find("\n", at)]
        m = re.search(r"-> \((bool), ", head)
        if m:
            yield f"{name(path)}:{lines_before(text, at)} fn {fn} answers a flag and a value"


def shape(body):
    """A function's text without the names of types, constants and widths."""
    body = re.sub(r"\b(u8|u16|u32|u64|usize|i32)\b", "T", body)
    body = re.sub(r"\b[A-Z][A-Z_0-9]+\b", "C", body)
    body = re.sub(r"\b\d[\w_]*\b", "0", body)
    body = re.sub(r"\w+(::\w+)+", "P", body)
    return re.sub(r"\s+", " ", body)


def point_2():
    alike = collections.defaultdict(list)
    for path, text, at, fn in functions():
        start, body = body_of(text, at)
        if len(body.strip().split("\n")) < 2:
            continue
        alike[shape(body)].append(f"{name(path)}:{lines_before(text, at)} {fn}")
    for group in alike.values():
        if len(group) > 1:
            yield " = ".join(group)
    sizes = collections.defaultdict(list)
    for path, text, at, fn in functions():
        m = re.match(r"(\w+)_(small|large)$", fn)
        if m:
            sizes[name(path), m.group(1)].append(fn)
    for (path, stem), pair in sizes.items():
        yield f"{path} {' = '.join(pair)} (size of the index)"


def point_3():
    for path, text, at, fn in functions():
        start, body = body_of(text, at)
        for m in re.finditer(r"\bwhile ([^{]*)\{", body):
            inner = block(body, m.start())
            for variable in re.findall(r"\b[a-z]\w*\b", m.group(1)):
                if re.search(rf"\b{variable} (\+=|-=) \w+;|\b{variable} = {variable} [+-] ", inner):
                    yield f"{name(path)}:{lines_before(text, start + m.start())} {fn}: while {m.group(1).strip()}"
                    break
        for m in re.finditer(r"\bfor (\w+) in [^{]*\.\.[^{]*\{", body):
            inner = block(body, m.start())
            if re.search(rf"\[[^\]]*\b{m.group(1)}\b[^\]]*\]", inner):
                yield f"{name(path)}:{lines_before(text, start + m.start())} {fn}: {m.group(0)[:-1].strip()}"


def point_4():
    for path, text, at, fn in functions():
        if re.match(r"(same|equal|is_same|alike|differ|compare|copy|copied|greater|least|smaller|print|show|display|write_number|told|of_|as_|from_|into_|signed|unsigned)(_\w+)?$", fn):
            yield f"{name(path)}:{lines_before(text, at)} {fn}"


def point_5():
    facts = collections.defaultdict(set)
    travelling = collections.defaultdict(set)
    for path, text, at, fn in functions():
        start, _ = body_of(text, at)
        head = text[at:start]
        for clause in re.findall(r"requires (?:\w+ )?\{([^}]*)\}", head):
            for fact in clause.split(" × "):
                m = re.match(r"\(*([A-Z]\w*)", fact.strip())
                if m:
                    facts[m.group(1)].add(f"{name(path)} {fn}")
        m = re.match(r"[^(]*\((.*?)\)\s*(->|requires|ensures|$)", head, re.S)
        if m:
            names = [re.match(r"(?:mut )?(\w+)\s*:\s*(.*)", p, re.S) for p in parts(m.group(1))]
            names = [(n.group(1), n.group(2)) for n in names if n]
            for i in range(len(names) - 2):
                travelling[tuple(sorted(names[i : i + 3]))].add(f"{name(path)} {fn}")
    for fact, users in sorted(facts.items(), key=lambda x: -len(x[1])):
        if len(users) >= 3:
            yield f"fact {fact} in {len(users)} functions of {len({u.split('/')[0] for u in users})} crates"
    for names, users in sorted(travelling.items(), key=lambda x: -len(x[1])):
        if len(users) >= 5:
            yield f"parameters {', '.join(n for n, _ in names)} in {len(users)} functions"


def point_6():
    for path in SOURCES:
        text = text_of(path)
        for m in re.finditer(r"\bstruct (\w+)[^{;]*\{", text):
            fields = parts(block(text, m.start()))
            arrays = [f for f in fields if re.search(r": (\[|&(mut )?\[)", f)]
            counts = [f for f in fields if re.search(r"\b(count|length|len|used|filled|n)\b: ", f)]
            if arrays and counts:
                yield f"{name(path)}:{lines_before(text, m.start())} struct {m.group(1)}: {len(arrays)} arrays and a count"
    for path, text, at, fn in functions():
        _, body = body_of(text, at)
        for m in re.finditer(r"let mut (\w+) = \[[^\]]*; [^\]]*\];", body):
            if re.search(r"let mut \w*(count|length|used|filled|len)\w* ?(: \w+)? = 0", body):
                yield f"{name(path)}:{lines_before(text, at)} {fn}: array {m.group(1)} with a count beside it"


def point_7():
    for path, text, at, fn in functions():
        _, body = body_of(text, at)
        for m in re.finditer(r"\bmatch (\w*(?:order|kind|which|mode|step|request)\w*(?:\.\w+)*) \{", body):
            yield f"{name(path)}:{lines_before(text, at)} {fn}: match {m.group(1)}"


def point_8():
    for crate in sorted((ROOT / "crates").iterdir()):
        files = list(crate.glob("proofs/**/Answers.antt"))
        if files:
            count = sum(len(re.findall(r"^pub \S+ : goal\.", f.read_text(), re.M)) for f in files)
            yield f"{crate.name}: {len(files)} files, {count} answers"


POINTS = {
    1: ("own enums of the shape of Option or Result, numbers for kinds", point_1),
    2: ("functions that differ in a type, a size or a constant", point_2),
    3: ("loops that count an index by hand", point_3),
    4: ("equality, order, copying, conversion, printing by hand", point_4),
    5: ("facts in three contracts or more; three parameters together in five functions or more", point_5),
    6: ("arrays with a count beside", point_6),
    7: ("switches on which step to run", point_7),
    8: ("crates with answers", point_8),
}


def main():
    wanted = [int(a) for a in sys.argv[1:]]
    for number, (what, find) in POINTS.items():
        if wanted and number not in wanted:
            continue
        places = list(find())
        print(f"{number}. {what}: {len(places)}")
        if wanted:
            for place in places:
                print(f"   {place}")


main()
