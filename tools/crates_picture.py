#!/usr/bin/env python3
"""Draws the crates by layer, each over those that it stands on, as SVG.

usage: tools/crates_picture.py [OUT]

The crates are those of crates.txt without those of tests. A crate's layer is the longest chain of crates below it. An arrow goes
to each crate that is needed directly, but for those that another arrow leads to already, and passes between the crates of the
layers that it crosses. Without OUT the picture goes to standard output.

    tools/crates_picture.py docs/crates.svg
"""
import os
import sys

from crates import below, crates_of

TOP = os.path.dirname(os.path.dirname(os.path.realpath(__file__)))
WIDTH, UP, HIGH, GAP, LETTER, MARGIN = 1000, 86, 26, 14, 7.4, 10


def layers_of(needs):
    """The crates of each layer, the lowest first."""
    depth = {}

    def deep(name):
        if name not in depth:
            depth[name] = 1 + max((deep(it) for it in needs[name]), default=-1)
        return depth[name]

    layers = [[] for _ in range(1 + max(map(deep, needs)))]
    for name in needs:
        layers[depth[name]].append(name)
    return layers


def arrows_of(needs):
    """The crates that each crate needs and that no other arrow of it leads to."""
    return {name: [it for it in own if not any(it in below(needs, other) for other in own)] for name, own in needs.items()}


def threaded(layers, arrows):
    """The layers with a point in each layer that an arrow crosses, and the arrows as chains from crate to crate by these points."""
    layer = {name: number for number, own in enumerate(layers) for name in own}
    layers, chains = [list(own) for own in layers], []
    for name, own in arrows.items():
        for it in own:
            points = [(name, it, number) for number in range(layer[name] - 1, layer[it], -1)]
            for point in points:
                layers[point[2]].append(point)
            chains.append([name, *points, it])
    return layers, chains


def spread(layer):
    """The left edge and the width of each crate and each point of a layer."""
    wide = [LETTER * len(it) + 16 if isinstance(it, str) else 0 for it in layer]
    gap = min(40, (WIDTH - 2 * MARGIN - sum(wide)) / max(1, len(layer) - 1)) if len(layer) > 1 else 0
    at, places = (WIDTH - sum(wide) - gap * (len(layer) - 1)) / 2, {}
    for name, width in zip(layer, wide):
        places[name] = (at, width)
        at += width + gap
    return places


def placed(layers, chains):
    """Places of all crates and points, each layer sorted by the middle of its neighbours."""
    joined = {name: set() for layer in layers for name in layer}
    for chain in chains:
        for over, under in zip(chain, chain[1:]):
            joined[over].add(under)
            joined[under].add(over)
    places = {name: place for layer in layers for name, place in spread(layer).items()}
    middle = lambda name: places[name][0] + places[name][1] / 2
    for _ in range(40):
        for number, layer in enumerate(layers):
            weight = lambda name: sum(map(middle, joined[name])) / len(joined[name]) if joined[name] else middle(name)
            layers[number] = sorted(layer, key=weight)
            places.update(spread(layers[number]))
    return places


def svg(needs):
    arrows = arrows_of(needs)
    layers, chains = threaded(layers_of(needs), arrows)
    places = placed(layers, chains)
    height = UP * (len(layers) - 1) + HIGH + 2 * MARGIN
    top = {name: height - MARGIN - HIGH - UP * number for number, layer in enumerate(layers) for name in layer}
    middle = lambda name: places[name][0] + places[name][1] / 2
    lines = [
        f'<svg xmlns="http://www.w3.org/2000/svg" width="{WIDTH}" height="{height}" font-family="sans-serif" font-size="13">',
        '<defs><marker id="tip" viewBox="0 0 8 8" refX="8" refY="4" markerWidth="7" markerHeight="7" orient="auto">'
        '<path d="M0,0 L8,4 L0,8 z" fill="#789"/></marker></defs>',
        f'<rect width="{WIDTH}" height="{height}" fill="white"/>',
        f'<text x="{MARGIN}" y="{MARGIN + 18}">an arrow: stands on</text>',
    ]
    for name, *points, it in chains:
        through = "".join(f" L{middle(point):.0f},{top[point]} V{top[point] + HIGH}" for point in points)
        path = f"M{middle(name):.0f},{top[name] + HIGH}{through} L{middle(it):.0f},{top[it]}"
        lines.append(f'<path d="{path}" stroke="#789" fill="none" marker-end="url(#tip)"/>')
    for name in needs:
        left, width = places[name]
        lines.append(f'<rect x="{left:.0f}" y="{top[name]}" width="{width:.0f}" height="{HIGH}" rx="4" fill="#eef3f8" stroke="#246"/>')
        lines.append(f'<text x="{middle(name):.0f}" y="{top[name] + 18}" text-anchor="middle">{name}</text>')
    return "\n".join([*lines, "</svg>", ""])


def main():
    if len(sys.argv) > 2 or sys.argv[1:] and sys.argv[1].startswith("-"):
        sys.exit(__doc__)
    needs = {name: own for name, own in crates_of(TOP).items() if not name.endswith("_tests") and name != "vectors"}
    drawn = svg({name: [it for it in own if it in needs] for name, own in needs.items()})
    if sys.argv[1:]:
        with open(sys.argv[1], "w", encoding="utf-8") as file:
            file.write(drawn)
    else:
        sys.stdout.write(drawn)


if __name__ == "__main__":
    try:
        main()
    except OSError as fault:
        sys.exit(f"crates_picture.py: {fault.filename or 'output'}: {fault.strerror}")
