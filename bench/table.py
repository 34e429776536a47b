#!/usr/bin/env python3
"""table.py TEXT SVG: from what run.sh printed, the table of docs/SPEED.md on standard output, and the plot of the ratios into SVG."""
import math
import sys
from typing import NamedTuple

LEFT, RIGHT, TOP, ROW = 190, 720, 36, 20


class Line(NamedTuple):
    """A job on an image; times are microseconds, "alone" without the check or the load."""
    image: str
    job: str
    calls: int
    slots: int
    expanded: int
    ours: float
    ours_alone: float
    rust_alone: float
    rust: float
    ratio: str
    ratio_alone: str


def lines(path):
    image = ""
    for line in open(path):
        words = line.split()
        if line.startswith(" ") and words and words[0] in ("direct", "linear", "replace", "stitched"):
            yield Line(image, words[0], *map(int, words[1:4]), *map(float, words[4:8]), words[8], words[9])
        elif ".img:" in line:
            image = words[0].removesuffix(".img:")


def milliseconds(time):
    return f"{time / 1000:.3f}" if time >= 100 else f"{time / 1000:.5f}"


def table(found):
    print("| image | job | calls | slots | ours | Rust, load and call | ratio | ours alone | Rust alone | ratio alone |")
    print("|---|---|---|---|---|---|---|---|---|---|")
    for line in found:
        ours, rust, ours_alone, rust_alone = map(milliseconds, (line.ours, line.rust, line.ours_alone, line.rust_alone))
        print(f"| {line.image} | {line.job} | {line.calls} | {line.slots} | {ours} | {rust} | {line.ratio} | {ours_alone} | {rust_alone} | {line.ratio_alone} |")


def place(ratio, least, most):
    return LEFT + (RIGHT - LEFT) * math.log2(ratio / least) / math.log2(most / least)


def plot(found, path):
    ratios = [float(line.ratio) for line in found]
    least = 2.0 ** math.floor(math.log2(min(ratios + [0.5])))
    most = 2.0 ** math.ceil(math.log2(max(ratios)))
    bottom = TOP + ROW * len(found)
    out = [f'<svg xmlns="http://www.w3.org/2000/svg" width="790" height="{bottom + 34}" font-family="sans-serif" font-size="12">',
           '<rect width="100%" height="100%" fill="white"/>',
           '<text x="10" y="20">Rust (load and call) over ours: right of 1 ours is faster</text>']
    mark = least
    while mark <= most:
        x, shade = place(mark, least, most), "#444" if mark == 1 else "#ddd"
        out.append(f'<line x1="{x:.1f}" y1="30" x2="{x:.1f}" y2="{bottom + 4}" stroke="{shade}"/><text x="{x:.1f}" y="{bottom + 22}" text-anchor="middle">{mark:g}</text>')
        mark *= 2
    one = place(1, least, most)
    for i, line in enumerate(found):
        x, y = place(float(line.ratio), least, most), TOP + ROW * i
        fill = "#4a7" if x >= one else "#c64"
        out.append(f'<text x="180" y="{y + 11}" text-anchor="end">{line.image}, {line.job}</text><rect x="{min(one, x):.1f}" y="{y}" width="{abs(x - one):.1f}" height="13" fill="{fill}"/>'
                   f'<text x="{max(one, x) + 4:.1f}" y="{y + 11}">{line.ratio}</text>')
    open(path, "w").write("\n".join(out + ["</svg>", ""]))


if __name__ == "__main__":
    found = list(lines(sys.argv[1]))
    table(found)
    plot(found, sys.argv[2])
