"""Draws docs/bench.svg: what `bench` takes over the number of people, from the table of docs/MEASURED.md.

Called at the top of the repository: python3 examples/figure.py
"""
import math
import re

HEADING = "## What `bench` takes"
WIDTH, HEIGHT, LEFT, TOP = 360, 240, 64, 40
COLOURS = {1: "#1b6ca8", 4: "#c8553d"}


def rows(text):
    """The rows of the table: people, workers, seconds and megabytes."""
    part = text[text.index(HEADING):]
    found = re.findall(r"^\| (\d+) \| (\d+) \| ([\d.]+) \| ([\d.]+) \|$", part, re.M)
    return [(int(p), int(w), float(s), float(m)) for p, w, s, m in found]


def scale(values):
    """Powers of ten around the values, and where between them a value stands, from 0 to 1."""
    low = math.floor(math.log10(min(values)))
    high = math.ceil(math.log10(max(values)))
    high = max(high, low + 1)
    return range(low, high + 1), lambda v: (math.log10(v) - low) / (high - low)


def plain(power):
    return f"{10 ** power:,}" if power >= 0 else f"{10 ** power:.{-power}f}"


def panel(table, column, title, at):
    """One diagram, both of whose axes are logarithmic."""
    across, x = scale([row[0] for row in table])
    up, y = scale([row[column] for row in table])
    left, bottom = at + LEFT, TOP + HEIGHT
    out = [f'<text x="{left}" y="{TOP - 16}" font-weight="bold">{title}</text>']
    for power in across:
        px = left + x(10 ** power) * WIDTH
        out.append(f'<line x1="{px:.1f}" y1="{TOP}" x2="{px:.1f}" y2="{bottom}" stroke="#ddd"/>')
        out.append(f'<text x="{px:.1f}" y="{bottom + 18}" text-anchor="middle">{plain(power)}</text>')
    for power in up:
        py = bottom - y(10 ** power) * HEIGHT
        out.append(f'<line x1="{left}" y1="{py:.1f}" x2="{left + WIDTH}" y2="{py:.1f}" stroke="#ddd"/>')
        out.append(f'<text x="{left - 8}" y="{py + 4:.1f}" text-anchor="end">{plain(power)}</text>')
    for number, (workers, colour) in enumerate(COLOURS.items()):
        points = [(left + x(row[0]) * WIDTH, bottom - y(row[column]) * HEIGHT) for row in sorted(table) if row[1] == workers]
        line = " ".join(f"{px:.1f},{py:.1f}" for px, py in points)
        out.append(f'<polyline points="{line}" fill="none" stroke="{colour}" stroke-width="2"/>')
        out += [f'<circle cx="{px:.1f}" cy="{py:.1f}" r="3.5" fill="{colour}"/>' for px, py in points]
        name = "1 worker" if workers == 1 else f"{workers} workers"
        out.append(f'<text x="{left + 12}" y="{TOP + 20 + 18 * number}" fill="{colour}">{name}</text>')
    out.append(f'<text x="{left + WIDTH / 2}" y="{bottom + 40}" text-anchor="middle">people</text>')
    return out


def main():
    with open("docs/MEASURED.md", encoding="utf-8") as page:
        table = rows(page.read())
    step = WIDTH + LEFT + 40
    parts = panel(table, 2, "Seconds", 0) + panel(table, 3, "Megabytes at most", step)
    size = f'width="{2 * step}" height="{TOP + HEIGHT + 56}"'
    head = f'<svg xmlns="http://www.w3.org/2000/svg" {size} font-family="sans-serif" font-size="13">'
    with open("docs/bench.svg", "w", encoding="utf-8") as picture:
        picture.write("\n".join([head, '<rect width="100%" height="100%" fill="white"/>'] + parts + ["</svg>", ""]))


main()
