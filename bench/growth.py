#!/usr/bin/env python3
"""growth.py TEXT SVG: from what `run.sh own` printed, the tables of docs/SPEED.md on our own images, and the plot of the series into SVG.

First the images that belong to no series, as table.py has them. Then a row for
each job on a series, its cells a list from the least size to the greatest:
expansions and slots, microseconds a call without the check and the load, by
what factor these grew from size to size, and the ratios of load and call. A
time that is lost in that of the check is left out. A factor of ours is bold
where it is greater than the Rust's by a quarter or more, a ratio where it is
less than 1.
"""
import math
import sys

from table import lines, table

COLOURS = {"direct": "#27a", "linear": "#888", "replace": "#c64", "stitched": "#4a7"}
COLUMNS, WIDTH, HEIGHT, MARGIN = 4, 250, 200, 46
# What is left of a call after less than this is taken for noise of the check.
LEAST_SHARE = 0.05
FASTER = 1.25


def series_of(found):
    """The jobs on each series by its name, each job with its lines by size."""
    series = {}
    for line in found:
        name, _, size = line.image.rpartition("-")
        if name:
            series.setdefault(name, {}).setdefault(line.job, []).append((int(size), line))
    return {name: {job: sorted(sizes) for job, sizes in jobs.items() if any(line.expanded for _, line in sizes)}
            for name, jobs in series.items()}


def alone(line):
    """Microseconds a call of ours, or nothing."""
    return line.ours_alone / line.calls if line.ours_alone >= LEAST_SHARE * line.ours else None


def factors(times):
    return [after / before if before and after else None for before, after in zip(times, times[1:])]


def shown(value):
    return "-" if value is None else f"{value:.1f}"


def bold(text, condition):
    return f"**{text}**" if condition else text


def cell(texts):
    return ", ".join(map(str, texts))


def growth(series):
    print("| series | job | sizes | expanded | slots | ours | Rust | ours grows | Rust grows | ratio |")
    print("|---|---|---|---|---|---|---|---|---|---|")
    for name, jobs in series.items():
        for job, sizes in jobs.items():
            found = [line for _, line in sizes]
            ours, rust = [alone(line) for line in found], [line.rust_alone / line.calls for line in found]
            ours_grow, rust_grow = factors(ours), factors(rust)
            marked = [bold(shown(our), our and our >= FASTER * their) for our, their in zip(ours_grow, rust_grow)]
            cells = [(size for size, _ in sizes), (line.expanded for line in found), (line.slots for line in found), map(shown, ours), map(shown, rust),
                     marked, map(shown, rust_grow), (bold(line.ratio, float(line.ratio) < 1) for line in found)]
            print(f"| {name} | {job} | {' | '.join(map(cell, cells))} |")


def curve(points, at, colour, dash):
    places = " ".join("{:.1f},{:.1f}".format(*at(*point)) for point in points if point[1])
    return f'<polyline points="{places}" fill="none" stroke="{colour}" stroke-width="1.5"{dash}/>'


def panel(name, jobs, left, top):
    """One series: time over size, both logarithmic, with a line for each power of ten."""
    curves = [(job, [(size, alone(line)) for size, line in sizes], [(size, line.rust_alone / line.calls) for size, line in sizes])
              for job, sizes in jobs.items()]
    times = [time for _, ours, rust in curves for _, time in ours + rust if time]
    every = sorted({size for sizes in jobs.values() for size, _ in sizes})
    low, high = math.floor(math.log10(min(times))), math.ceil(math.log10(max(times)))
    wide, tall = WIDTH - MARGIN - 12, HEIGHT - 2 * MARGIN

    def at(size, time):
        return (left + MARGIN + wide * math.log(size / every[0]) / math.log(every[-1] / every[0]),
                top + MARGIN + tall * (high - math.log10(time)) / (high - low))

    out = [f'<text x="{left + MARGIN}" y="{top + 22}">{name}</text>']
    for power in range(low, high + 1):
        y = at(every[0], 10.0 ** power)[1]
        out.append(f'<line x1="{left + MARGIN}" y1="{y:.1f}" x2="{left + MARGIN + wide}" y2="{y:.1f}" stroke="#ddd"/>'
                   f'<text x="{left + MARGIN - 4}" y="{y + 4:.1f}" text-anchor="end" font-size="9">{10.0 ** power:g}</text>')
    for size in every:
        out.append(f'<text x="{at(size, 1)[0]:.1f}" y="{top + HEIGHT - MARGIN + 14}" text-anchor="middle" font-size="9">{size}</text>')
    for job, ours, rust in curves:
        out += [curve(ours, at, COLOURS[job], ""), curve(rust, at, COLOURS[job], ' stroke-dasharray="4 3"')]
    return out


def plot(series, path):
    rows = -(-len(series) // COLUMNS)
    out = [f'<svg xmlns="http://www.w3.org/2000/svg" width="{COLUMNS * WIDTH}" height="{rows * HEIGHT + 30}" font-family="sans-serif" font-size="12">',
           '<rect width="100%" height="100%" fill="white"/>',
           '<text x="10" y="20">Microseconds a call over the size, without check and load; drawn through: ours, dashed: the Rust</text>']
    for i, (job, colour) in enumerate(COLOURS.items()):
        out.append(f'<text x="{620 + 80 * i}" y="20" fill="{colour}">{job}</text>')
    for i, (name, jobs) in enumerate(series.items()):
        out += panel(name, jobs, i % COLUMNS * WIDTH, 24 + i // COLUMNS * HEIGHT)
    open(path, "w").write("\n".join(out + ["</svg>", ""]))


if __name__ == "__main__":
    found = list(lines(sys.argv[1]))
    series = series_of(found)
    table([line for line in found if "-" not in line.image])
    print()
    growth(series)
    plot(series, sys.argv[2])
