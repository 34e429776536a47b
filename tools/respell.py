#!/usr/bin/env python3
"""Brings the repository's own definitions and lemmas to today's spelling; run once, at the top, behind the kit's port.py.

Words are in snake case, types and facts in upper camel case: `putSlot` becomes `put_slot`, `consIf-tail` becomes `cons_if-tail`.
Where a lemma would then have the name of what it speaks of, it gets `_lem`. Names of Rust, strings and exported names are in snake case already
and are not touched. Texts: sources, definitions, proofs and must-fail edits in crates/, and the pages README.md and docs/.
"""

import os
import re

WORD = re.compile(r"[A-Za-z_ℕℤ][\w'ℕℤ-]*")
HUMP = re.compile(r"(?<=[a-z0-9])([A-Z])")

# Lemmas whose name falls together with that of their function, once it is in snake case; each with the folder or file in which it is meant.
LEMMAS = {
    "in_graph": "crates/semantics/specs/Calls/Compacted.antt",
    "pushed_of": "crates/semantics/specs/Direct/Counted.antt",
    "most_bytes": "crates/semantics/",
    "lists_at": "crates/reply/",
    "target_row": "crates/",
}

# Facts that were spelled as words.
FACTS = {
    "precedenceFits": ("PrecedenceFits", "crates/semantics/specs/Told/"),
    "concluded": ("Concluded", "crates/finding/"),
    "ended_as": ("EndedAs", "crates/flow_directory/"),
    "endedAs": ("EndedAs", "crates/flow_directory/"),
}

# The kit calls it `get_or` today.
PARTS = {"getD": "get_or"}


def snake(part):
    if part in PARTS:
        return PARTS[part]
    if not re.match(r"[a-z]", part):
        return part
    turned = HUMP.sub(lambda m: "_" + m.group(1).lower(), part)
    return turned


def respelled(word, path):
    if word in FACTS and path.startswith(FACTS[word][1]):
        return FACTS[word][0]
    if word in LEMMAS and path.startswith(LEMMAS[word]) and path.endswith((".antt", ".edit")):
        return word + "_lem"
    return "-".join(snake(p) for p in word.split("-"))


def files():
    for root in ("crates", "docs"):
        for folder, dirs, names in os.walk(root):
            dirs[:] = sorted(d for d in dirs if d != "out")
            for n in sorted(names):
                p = os.path.join(folder, n)
                if root == "crates" and n.endswith((".rt", ".antt", ".edit")) or root == "docs" and n.endswith(".md"):
                    yield p
    yield "README.md"


def main():
    own = set()  # the repository's names, as they will be: on a page only these are turned
    for p in files():
        if p.endswith((".rt", ".antt")):
            with open(p, encoding="utf-8") as f:
                own |= {respelled(w, p) for w in WORD.findall(f.read())}
    for p in files():
        with open(p, encoding="utf-8") as f:
            old = f.read()
        page = p.endswith(".md")
        new = WORD.sub(lambda m: respelled(m.group(0), p) if not page or respelled(m.group(0), p) in own else m.group(0), old)
        if new != old:
            with open(p, "w", encoding="utf-8") as f:
                f.write(new)


main()
