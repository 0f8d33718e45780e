#!/usr/bin/env python3
"""plate.py NEW [OLD]: writes the probe's forty wells as one SVG to standard output, coloured by constant; with OLD, the wells that
differ from that header's are marked, with both constants."""
import pathlib
import sys

import vcfh

SIDE, GAP, MARGIN, HEAD = 96, 10, 24, 58
COLUMNS, ROWS = 8, 5
# a constant of 0.50 is blue, 1.00 nearly white, 2.00 red
STOPS = ((50, (33, 102, 172)), (100, (247, 247, 247)), (200, (178, 24, 43)))


def colour(constant):
    (low, a), (high, b) = (STOPS[0], STOPS[1]) if constant < 100 else (STOPS[1], STOPS[2])
    part = (constant - low) / (high - low)
    return tuple(round(x + (y - x) * part) for x, y in zip(a, b))


def ink(rgb):
    """Black or white, whichever is easier to read on the colour."""
    return "#000" if 0.299 * rgb[0] + 0.587 * rgb[1] + 0.114 * rgb[2] > 140 else "#fff"


def spelled(constant):
    return f"{constant // 100}.{constant % 100:02d}"


def text(x, y, size, fill, words, more=""):
    return f'<text x="{x}" y="{y}" font-size="{size}" fill="{fill}" text-anchor="middle"{more}>{words}</text>'


def cell(well, constant, before):
    x = MARGIN + (well - 1) % COLUMNS * (SIDE + GAP)
    y = HEAD + (well - 1) // COLUMNS * (SIDE + GAP)
    rgb = colour(constant)
    fill, middle = ink(rgb), x + SIDE // 2
    edge = 'stroke="#000" stroke-width="5"' if before is not None else 'stroke="#999" stroke-width="1"'
    yield f'<rect x="{x}" y="{y}" width="{SIDE}" height="{SIDE}" rx="10" fill="rgb{rgb}" {edge}/>'
    yield text(middle, y + 26, 16, fill, f"W{well:02d}")
    yield text(middle, y + 58, 26, fill, spelled(constant), ' font-weight="bold"')
    if before is not None:
        yield text(middle, y + 82, 16, fill, f"was {spelled(before)}")


def plate(new, old=None):
    """The picture of a register, and of what differs from another."""
    changed = {} if old is None else {well: had for well, had, _ in old.compare(new)}
    width = 2 * MARGIN + COLUMNS * SIDE + (COLUMNS - 1) * GAP
    height = HEAD + ROWS * SIDE + (ROWS - 1) * GAP + MARGIN
    told = "forty wells" if old is None else f"{len(changed)} of forty wells differ"
    yield f'<svg xmlns="http://www.w3.org/2000/svg" width="{width}" height="{height}" viewBox="0 0 {width} {height}" font-family="sans-serif">'
    yield f'<rect width="{width}" height="{height}" fill="#fff"/>'
    yield text(width // 2, 38, 22, "#000", f"cell constants, {told}")
    for well, constant in enumerate(new.constants, 1):
        yield from cell(well, constant, changed.get(well))
    yield "</svg>"


def main(names):
    if not 1 <= len(names) <= 2:
        sys.exit(__doc__)
    try:
        registers = []
        for name in names:
            registers.append(vcfh.Register(vcfh.header_of(pathlib.Path(name))))
    except vcfh.Refused as refused:
        sys.exit(f"{name}: {refused}")
    print("\n".join(plate(*registers)))


if __name__ == "__main__":
    main(sys.argv[1:])
