#!/usr/bin/env python3
"""resolve_cases.py PROGRAM: the program `resolve` on the stored inputs of oracle/resolve_cases.

NAME.in holds bytes as text: on each line bytes in hexadecimal, then `*` and how often they stand there if not once, then a comment behind `#`.
What the program prints for them must be NAME.out to the byte, from standard input and from a file that an argument names. oracle/resolve_cases.py wrote both and
says where the outputs are from. One output is wrong, so that it shows if nothing is compared: this one alone must differ. Then --help and arguments that name no
image, input that cannot be read and output that is lost: what is printed, and what is told on standard error. Else the differences are printed and end with status 1.
"""

import os
import subprocess
import sys
import tempfile
from pathlib import Path

FOLDER = Path(__file__).resolve().parent.parent / "oracle" / "resolve_cases"
WRONG = {"wrong"}
SECONDS = 10


def read(text):
    data = b""
    for line in text.splitlines():
        digits, _, count = line.partition("#")[0].partition("*")
        data += bytes.fromhex(digits) * int(count or 1)
    return data


def run(program, arguments, data=b""):
    return subprocess.run([program, *arguments], input=data, capture_output=True, timeout=SECONDS)


def differs(program, case, folder):
    """What the program printed, if it was not what is stored: for the bytes as its input, then for those of a file, with other bytes as its input."""
    wanted = case.with_suffix(".out").read_bytes()
    data = read(case.read_text())
    image = Path(folder) / "image"
    image.write_bytes(data)
    for ran in [run(program, [], data), run(program, [image], b"other bytes")]:
        if (ran.returncode, ran.stdout, ran.stderr) != (0, wanted, b""):
            return f"{case.stem}: status {ran.returncode}, printed\n{ran.stdout[:400]}\nand told {ran.stderr[:400]}\nwhere this was meant:\n{wanted[:400]}"
    return None


def arguments(folder):
    """Arguments that name no image, each with how standard output begins and with what is told on standard error."""
    missing = Path(folder) / "missing"
    return [
        (["--help"], b"resolve [FILE]: ", b""),
        (["--helpless"], b"", b"resolve: --helpless: No such file or directory\n"),
        ([missing], b"", f"resolve: {missing}: No such file or directory\n".encode()),
        ([folder], b"", f"resolve: {folder}: Is a directory\n".encode()),
        ([""], b"", b"resolve: : No such file or directory\n"),
        (["a" * 4097], b"", b"resolve: the argument: File name too long\n"),
        (["a", "b"], b"", b"resolve: one file at most; --help says more\n"),
    ]


def lost(program, folder):
    """What is told where standard input cannot be read, and where nothing can be written to standard output."""
    with open("/dev/full", "wb") as full:
        ran = subprocess.run([program], input=b"", stdout=full, stderr=subprocess.PIPE, timeout=SECONDS)
    if (ran.returncode, ran.stderr) != (0, b"resolve: standard output: No space left on device\n"):
        yield f"output lost: status {ran.returncode}, told {ran.stderr[:400]}"
    descriptor = os.open(folder, os.O_RDONLY)
    ran = subprocess.run([program], stdin=descriptor, capture_output=True, timeout=SECONDS)
    os.close(descriptor)
    if (ran.returncode, ran.stdout, ran.stderr) != (0, b"", b"resolve: standard input: Is a directory\n"):
        yield f"input unread: status {ran.returncode}, printed {ran.stdout[:400]}, told {ran.stderr[:400]}"


def misread(program, folder):
    """The arguments for which the program said something else."""
    for given, printed, told in arguments(folder):
        ran = run(program, given)
        if ran.returncode != 0 or ran.stderr != told or not ran.stdout.startswith(printed) or bool(ran.stdout) != bool(printed):
            yield f"{str(given)[:80]}: status {ran.returncode}, printed {ran.stdout[:200]} and told {ran.stderr[:200]}"


def main():
    (program,) = sys.argv[1:]
    cases = sorted(FOLDER.glob("*.in"))
    with tempfile.TemporaryDirectory() as folder:
        found = {case.stem: message for case in cases if (message := differs(program, case, folder))}
        wrong = list(misread(program, folder)) + list(lost(program, folder))
        tried = len(arguments(folder))
    for message in [found[name] for name in sorted(found.keys() - WRONG)] + wrong:
        print(message)
    for name in sorted(WRONG - found.keys()):
        print(f"{name}: its output is wrong, and no difference was found")
    print(f"resolve: {len(cases)} inputs, {len(found.keys() - WRONG)} printed otherwise; {tried} other arguments, {len(wrong)} answered otherwise")
    sys.exit(found.keys() != WRONG or bool(wrong))


if __name__ == "__main__":
    main()
