#!/usr/bin/env python3
"""Draws the bytes of a small stream, a line a unit, with what they are and where each part begins, as SVG.

usage: tools/unit_picture.py STREAM PARAMETERS SLICE [OUT]

PARAMETERS is how many bytes the transform parameters of its pictures have, SLICE how many a slice has. The units and their
places are what `./vc2 chain` prints of the stream. VC2 names another program than the checkout's.

    tools/unit_picture.py examples/smallest.vc2 3 1 docs/units.svg
"""
import os
import subprocess
import sys

VC2 = os.environ.get("VC2") or os.path.join(os.path.dirname(os.path.dirname(os.path.realpath(__file__))), "vc2")
HEAD = [("prefix", 4), ("code", 1), ("next offset", 4), ("previous offset", 4)]
CELL, HIGH, LINE, LEFT = 34, 26, 100, 16
SHADES = ("#eef3f8", "#dfe8f0")


def parts_of(name, payload, parameters, each):
    """What a unit's bytes are: names with lengths."""
    if name == "low-delay-picture":
        slices = (payload - 4 - parameters) // each
        return [*HEAD, ("number", 4), ("parameters", parameters), *((f"slice {n}", each) for n in range(slices))]
    return [*HEAD, ("header" if name == "sequence-header" else "payload", payload)] if payload else HEAD


def drawn(place, name, data, parts, top):
    """A unit's line: each part's name, an offset's with its number, its bytes, and the place of its first one."""
    lines, at = [f'<text x="{LEFT}" y="{top}" font-weight="bold">{name}: {len(data)} bytes from byte {place} on</text>'], 0
    for number, (part, count) in enumerate(parts):
        x, y = LEFT + CELL * at, top + 22
        told = f"{part} {int.from_bytes(data[at : at + count], 'big')}" if part.endswith("offset") else part
        lines.append(f'<text x="{x}" y="{y}" fill="#246" font-size="11">{told}</text>')
        lines.append(f'<text x="{x}" y="{y + 44}" fill="#666" font-size="11">{place + at}</text>')
        for byte in data[at : at + count]:
            x = LEFT + CELL * at
            lines.append(f'<rect x="{x}" y="{y + 5}" width="{CELL}" height="{HIGH}" fill="{SHADES[number % 2]}" stroke="#246"/>')
            lines.append(f'<text x="{x + CELL / 2}" y="{y + 23}" text-anchor="middle" font-family="monospace">{byte:02X}</text>')
            at += 1
    return lines


def main():
    if len(sys.argv) not in (4, 5) or not sys.argv[2].isdigit() or not sys.argv[3].isdigit():
        sys.exit(__doc__)
    with open(sys.argv[1], "rb") as file:
        stream = file.read()
    chain = subprocess.run([VC2, "chain"], input=stream, stdout=subprocess.PIPE)
    if chain.returncode:
        sys.exit(chain.returncode)
    units = [(int(line[0]), line[1]) for line in map(str.split, chain.stdout.decode().splitlines())]
    ends, lines, longest = [place for place, _ in units[1:]] + [len(stream)], [], 0
    for number, ((place, name), end) in enumerate(zip(units, ends)):
        parts = parts_of(name, end - place - 13, int(sys.argv[2]), int(sys.argv[3]))
        lines += drawn(place, name, stream[place:end], parts, 24 + LINE * number)
        longest = max(longest, end - place)
    width, height = 2 * LEFT + CELL * longest + 40, LINE * len(units) + 8
    svg = [
        f'<svg xmlns="http://www.w3.org/2000/svg" width="{width}" height="{height}" font-family="sans-serif" font-size="13">',
        f'<rect width="{width}" height="{height}" fill="white"/>',
        *lines,
        "</svg>",
        "",
    ]
    if sys.argv[4:]:
        with open(sys.argv[4], "w", encoding="utf-8") as file:
            file.write("\n".join(svg))
    else:
        sys.stdout.write("\n".join(svg))


if __name__ == "__main__":
    try:
        main()
    except OSError as fault:
        sys.exit(f"unit_picture.py: {fault.filename or 'output'}: {fault.strerror}")
