#!/usr/bin/env python3
"""contracts.py [--check]: docs/CONTRACTS.txt, the promises of the public calls as they stand in the code.

Every public call with its parameters in order and each clause; then every crate with the number of its functions, clauses, tests and must-fail
edits. With --check nothing is written, and a difference is printed and ends with status 1: a promise that is weakened, left out or
reordered shows as a change of that one file. The public calls are those that crates/pozhdaghi offers: the functions named by its `pub use` lines,
and those on numbers and slices, which stand here as crates/pozhdaghi_c exports them (.ci/declarations.py sees to it that both say the same).
Behind them stand the functions of crates/demand, which have demand 3 as their contracts.
"""

import difflib
import re
import sys
from pathlib import Path

from signatures import crates

TOP = Path(__file__).resolve().parent.parent
LIST = TOP / "docs" / "CONTRACTS.txt"
SURFACE = TOP / "crates" / "pozhdaghi" / "src" / "lib.rt"
OFFERED = re.compile(r"^pub use (\w+::\w+)::(?:\{([^{}]*)\}|(\w+(?: as \w+)?));", re.M)


def offered():
    """The functions that the public surface names: types begin with a capital."""
    found = OFFERED.findall(SURFACE.read_text())
    named = [(module, name.split()[0]) for module, several, one in found for name in (several or one).split(",") if name.strip()]
    return {f"{module}::{name}" for module, name in named if name[0].islower()}


def contract(function):
    lines = [("export " if function.exported else "") + function.path]
    lines += [f"    {name}: {kind}" if kind else f"    {name}" for name, kind in function.parameters]
    if function.result:
        lines.append(f"    -> {function.result}")
    lines += [f"    {clause}" for clause in function.clauses]
    return lines


def counted(name, folder, functions):
    kind = "program" if (folder / "src" / "main.rt").exists() else "static library" if any(f.exported for f in functions) else "library"
    tests = sum(f.is_test for f in functions)
    functions = [f for f in functions if not f.is_test]
    clauses = [clause.kind.rstrip("*") for f in functions for clause in f.clauses]
    edits = len(list(folder.glob("must-fail/*.edit")))
    return (
        f"{kind} {name}: {len(functions)} functions, {sum(f.seen == 'pub' for f in functions)} of them pub, "
        f"{clauses.count('requires')} requires, {clauses.count('ensures')} ensures, {tests} tests, {edits} edits"
    )


def written():
    named = offered()
    tree = list(crates(TOP))
    public = [f for _, _, functions in tree for f in functions if f.exported or f.path in named or f.crate == "demand" and f.seen == "pub"]
    missing = named - {f.path for f in public} - {f.path for _, _, fs in tree for f in fs}
    lines = ["Written by .ci/contracts.py from the sources; the gate compares it with them.", ""]
    for function in public:
        lines += contract(function) + [""]
    kinds = [counted(*crate) for crate in tree]
    programs = sum(line.startswith("program") for line in kinds)
    edits = sum(len(list(folder.glob("must-fail/*.edit"))) for _, folder, _ in tree)
    lines += [f"{len(public)} public calls, {len(tree)} crates, {programs} of them programs, {edits} edits"] + kinds
    return "\n".join(lines) + "\n", missing


def main():
    text, missing = written()
    for path in sorted(missing):
        print(f"crates/pozhdaghi names {path}, which is no function")
    if sys.argv[1:] == ["--check"]:
        old = LIST.read_text() if LIST.exists() else ""
        changes = list(difflib.unified_diff(old.splitlines(), text.splitlines(), "docs/CONTRACTS.txt", "the sources", lineterm="", n=2))
        print("\n".join(line[:400] for line in changes[:60]))
        sys.exit(bool(changes) or bool(missing))
    LIST.write_text(text)
    sys.exit(bool(missing))


if __name__ == "__main__":
    main()
