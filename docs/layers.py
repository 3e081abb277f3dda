#!/usr/bin/env python3
"""Draws docs/layers.svg, the figure of the crates, from crates.txt: a band for each heading, a box for each crate, and a line
from each crate down to each crate that it stands on and that no other of its lines leads to. Lines to another band than the
next are pale, and those of the crates of tests, which stand on what they test, are left out.

usage: docs/layers.py

Writes the table in docs/CHANGING.md too: for each crate its functions, what stands above it, and the processor minutes that
it takes to check it, and it with all above it, where bench/gate.json has them.
"""
import json
import re
import sys
from pathlib import Path

ROOT = Path(__file__).resolve().parent.parent
WIDTH, BOX, ROW, GAP, EDGE, TITLE = 1100, 24, 50, 12, 12, 22
SHIFT = 55  # rows of a band stand by turns to the left and to the right, so that fewer lines run behind a box


def crates_and_headings():
    """The crates of the repository that each crate stands on, and the crates under each heading, as crates.txt has them."""
    stands, headings = {}, {}
    for line in (ROOT / "crates.txt").read_text().splitlines():
        if heading := re.fullmatch(r"# ([a-z]+)", line):
            headings[heading[1]] = members = []
        elif line and not line.startswith("#"):
            head, _, low = line.partition(":")
            stands[head.split()[0]] = low.split()
            members.append(head.split()[0])
    return {crate: [low for low in lows if low in stands] for crate, lows in stands.items()}, headings


def closure(stands):
    """All crates below each crate."""
    below = {}

    def of(crate):
        if crate not in below:
            below[crate] = set(stands[crate]).union(*(of(low) for low in stands[crate]))
        return below[crate]

    for crate in stands:
        of(crate)
    return below


def nearest(crate, below):
    """The crates below it that are below no other crate below it."""
    return sorted(low for low in below[crate] if not any(low in below[other] for other in below[crate]))


def depths(names, below):
    """How many of the names stand below each name, one on the other."""
    depth = {}
    for name in sorted(names, key=lambda n: len(below[n])):
        depth[name] = max((depth[low] + 1 for low in below[name] if low in depth), default=0)
    return depth


def ranks(headings, below):
    """How many bands stand below each heading's band."""
    of = {crate: heading for heading, crates in headings.items() for crate in crates}
    bands = {h: {of[low] for crate in crates for low in below[crate]} - {h} for h, crates in headings.items()}
    return depths(headings, closure({h: sorted(lows) for h, lows in bands.items()}))


def width_of(name):
    return 7.3 * len(name) + 16


def spread(names, left, right, wanted):
    """Places of the boxes between left and right, in the order of the places that they want."""
    names = sorted(names, key=lambda n: (wanted.get(n, 0), n))
    room = right - left - sum(map(width_of, names))
    gap = room / (len(names) + 1)
    places, at = {}, left + gap
    for name in names:
        places[name] = at
        at += width_of(name) + gap
    return places


def layout(stands, headings):
    """The box (x, y) of each crate, the frame of each band, and the height of the figure."""
    below = closure(stands)
    rank = ranks(headings, below)
    boxes, frames, centre = {}, {}, {}
    heights = {}
    for heading, crates in headings.items():
        rows = max(depths(crates, below).values()) + 1
        heights[rank[heading]] = max(heights.get(rank[heading], 0), TITLE + rows * ROW - (ROW - BOX) + 12)
    top = {}
    y = EDGE
    for level in sorted(heights, reverse=True):
        top[level] = y
        y += heights[level] + GAP
    for level in sorted(heights):
        here = [h for h in headings if rank[h] == level]
        weights = [max(sum(width_of(c) for c in headings[h]), 200) ** 0.5 for h in here]
        left = EDGE
        for heading, weight in zip(here, weights):
            across = (WIDTH - 2 * EDGE - GAP * (len(here) - 1)) * weight / sum(weights)
            frames[heading] = (left, top[level], across, heights[level])
            depth = depths(headings[heading], below)
            for row in range(max(depth.values()) + 1):
                names = [c for c in headings[heading] if depth[c] == row]
                lows = {n: [centre[low] for low in nearest(n, below) if low in centre] for n in names}
                wanted = {n: sum(xs) / len(xs) if xs else WIDTH / 2 for n, xs in lows.items()}
                shift = SHIFT if len(names) < 5 else 0
                aside = (0, shift) if row % 2 else (shift, 0)
                places = spread(names, left + 8 + aside[0], left + across - 8 - aside[1], wanted)
                for name, x in places.items():
                    boxes[name] = (x, top[level] + heights[level] - 10 - BOX - row * ROW)
                    centre[name] = x + width_of(name) / 2
            left += across + GAP
    return boxes, frames, y


def line(crate, low, boxes, colour):
    (x1, y1), (x2, y2) = boxes[crate], boxes[low]
    x1, x2, y1 = x1 + width_of(crate) / 2, x2 + width_of(low) / 2, y1 + BOX
    bend = max((y2 - y1) / 2, 12)
    return f'<path stroke="{colour}" d="M{x1:.0f} {y1:.0f} C{x1:.0f} {y1 + bend:.0f} {x2:.0f} {y2 - bend:.0f} {x2:.0f} {y2:.0f}"/>'


def svg(stands, headings):
    below = closure(stands)
    boxes, frames, height = layout(stands, headings)
    out = [
        f'<svg xmlns="http://www.w3.org/2000/svg" viewBox="0 0 {WIDTH} {height:.0f}" font-family="sans-serif" font-size="12">',
        f'<rect width="{WIDTH}" height="{height:.0f}" fill="#ffffff"/>',
    ]
    for heading, (x, y, across, high) in frames.items():
        out.append(f'<rect x="{x:.0f}" y="{y:.0f}" width="{across:.0f}" height="{high:.0f}" rx="6" fill="#f2f5f8"/>')
    rank, of = ranks(headings, below), {crate: heading for heading, crates in headings.items() for crate in crates}
    lines = [(crate, low) for crate in boxes if of[crate] != "tests" for low in nearest(crate, below)]
    is_long = {pair: rank[of[pair[0]]] - rank[of[pair[1]]] > 1 for pair in lines}
    out.append('<g fill="none" stroke-width="0.9">')
    for long, colour in ((True, "#d0dae3"), (False, "#7f96aa")):
        out += [line(*pair, boxes, colour) for pair in lines if is_long[pair] == long]
    out.append("</g>")
    for heading, (x, y, _, _) in frames.items():
        out.append(f'<text x="{x + 10:.0f}" y="{y + 17:.0f}" font-weight="bold" fill="#33475b" '
            f'stroke="#f2f5f8" stroke-width="4" paint-order="stroke">{heading}</text>')
    for crate, (x, y) in boxes.items():
        across = width_of(crate)
        out.append(
            f'<rect x="{x:.1f}" y="{y:.1f}" width="{across:.1f}" height="{BOX}" rx="4" fill="#ffffff" stroke="#33475b"/>'
            f'<text x="{x + across / 2:.1f}" y="{y + 16:.1f}" text-anchor="middle">{crate}</text>'
        )
    return "\n".join([*out, "</svg>", ""])


def functions(crate):
    """The functions with a body in the crate's sources, ghost items left out."""
    text = "\n".join(path.read_text() for path in sorted((ROOT / "crates" / crate / "src").glob("**/*.rt")))
    return len(re.findall(r"^\s*(?:pub(?:\([a-z]+\))? )?(?:const )?(?:unsafe )?fn \w+", text, re.M))


def minutes():
    """The processor minutes of each crate's check, as bench/gate.py measured them."""
    file = ROOT / "bench/gate.json"
    crates = json.loads(file.read_text())["crates"] if file.exists() else {}
    return {crate: parts["check"] for crate, parts in crates.items() if "check" in parts}


def above(stands, headings):
    """The table: crates of tests are left out."""
    below, spent = closure(stands), minutes()
    counts = {crate: functions(crate) for crate in stands}
    crates = [crate for heading, members in headings.items() if heading != "tests" for crate in members]
    head = "| crate | functions | crates above | functions above |"
    rows = [head + (" minutes | minutes with all above |" if spent else ""), "|---|---|---|---|" + ("---|---|" if spent else "")]
    for crate in crates:
        high = [other for other in crates if crate in below[other]]
        row = f"| `{crate}` | {counts[crate]} | {len(high)} | {sum(counts[other] for other in high)} |"
        if spent:
            own = f"{spent[crate]:.1f}" if crate in spent else ""
            whole = [spent.get(other) for other in [crate, *high]]
            row += f" {own} | {sum(filter(None, whole)):.0f}{'+' if None in whole else ''} |"
        rows.append(row)
    return "\n".join(rows)


def main():
    stands, headings = crates_and_headings()
    (ROOT / "docs/layers.svg").write_text(svg(stands, headings))
    page = ROOT / "docs/CHANGING.md"
    text = page.read_text()
    begin, end = text.index("<!-- above -->"), text.index("<!-- end -->")
    page.write_text(f"{text[:begin]}<!-- above -->\n{above(stands, headings)}\n{text[end:]}")


if __name__ == "__main__":
    if len(sys.argv) > 1:
        sys.exit(__doc__)
    main()
