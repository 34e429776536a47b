#!/usr/bin/env python3
"""declarations.py: the declarations of the exported functions for Rust are those that the library exports.

A Rattle slice `name: &[u8]` is passed as a pointer and a length: `name: *const u8, name_len: usize`. Names, order and types are compared, in
every file that declares the functions; so is each type of a function pointer with the functions of its shape. And each exported function has
the parameters and the clauses of the function that it calls: that of its name and module in crates/pozhdaghi. A difference is printed and ends with
status 1.
"""

import re
import sys
from pathlib import Path

from signatures import crates, plain, split

TOP = Path(__file__).resolve().parent.parent
FILES = [TOP / "service" / "src" / "link.rs", TOP / "oracle" / "compare" / "src" / "ours.rs"]
SLICE = re.compile(r"&(mut )?\[(\w+)\]")
DECLARED = re.compile(r"\bfn (pozhdaghi_\w+)\s*\(([^()]*)\)\s*;")
# In a clause `result` is what a function returns, so the area that Rust and C call so has another name there.
RENAMED = {"res": "result"}
POINTERS = re.compile(r"pub type (\w+) = unsafe extern \"C\" fn\(([^()]*)\);")


def passed(parameters):
    """What a caller in C passes for the parameters of a Rattle function."""
    given = []
    for own, kind in parameters:
        name = RENAMED.get(own, own)
        found = SLICE.fullmatch(kind)
        if found:
            pointer = "mut" if found[1] else "const"
            given += [f"{name}: *{pointer} {found[2]}", f"{name}_len: usize"]
        else:
            given.append(f"{name}: {kind}")
    return given


def exports():
    """What each exported function is passed, by its name; and what is wrong with an export."""
    tree = [f for _, _, functions in crates(TOP) for f in functions]
    functions = [f for f in tree if f.exported]
    wrong = [f"{f.name} has a result" for f in functions if f.result]
    offered = {(f.module, f.name): f for f in tree if f.crate == "pozhdaghi" and f.seen == "pub" and f.name.startswith("pozhdaghi_")}
    exported = {(f.module, f.name): f for f in functions}
    for place in sorted(offered.keys() | exported.keys()):
        both = [(f.parameters, [str(clause) for clause in f.clauses]) for f in (offered.get(place), exported.get(place)) if f]
        if len(both) < 2 or both[0] != both[1]:
            wrong.append(f"{'::'.join(place)} is not exported as crates/pozhdaghi has it")
    return {f.name: passed(f.parameters) for f in functions}, wrong


def main():
    exported, wrong = exports()
    for path in FILES:
        text = re.sub(r"//[^\n]*", "", path.read_text())
        declared = {name: split(plain(given)) for name, given in DECLARED.findall(text)}
        place = path.relative_to(TOP)
        for name in sorted(exported.keys() | declared.keys()):
            if exported.get(name) != declared.get(name):
                wrong.append(f"{place}: {name}\n  exported {exported.get(name)}\n  declared {declared.get(name)}")
        for name, given in POINTERS.findall(text):
            if split(plain(given)) not in exported.values():
                wrong.append(f"{place}: no exported function has the type {name}")
    print("\n".join(wrong) if wrong else f"{len(exported)} exported functions are declared as they are, in {len(FILES)} files")
    sys.exit(bool(wrong))


if __name__ == "__main__":
    main()
