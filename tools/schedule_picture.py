#!/usr/bin/env python3
"""Draws how a receiver's buffer fills under the plan of a stream.

usage: tools/schedule_picture.py STREAM SLICES_A/B RATE [OUT [IDLE]]

STREAM is a file; the units and their lengths are what `./vc2 chain` prints of it, the slices what `./vc2 check` counts.
SLICES_A/B is the bytes of a slice, RATE the bytes in slots of the channel, IDLE the idle slots behind each picture. The
picture is written to OUT, or to standard output, as SVG. The plan is found here by search, apart from the program. VC2 names
another program than the checkout's.

    tools/schedule_picture.py examples/pair_422.vc2 64/1 1561/24 docs/schedule.svg
    tools/schedule_picture.py examples/pair_422.vc2 64/1 1561/30 docs/schedule_idle.svg 6
"""
import os
import re
import subprocess
import sys

VC2 = os.environ.get("VC2") or os.path.join(os.path.dirname(os.path.dirname(os.path.realpath(__file__))), "vc2")
WIDTH, HEIGHT, LEFT, BOTTOM = 720, 320, 64, 62


def vc2(command, stream):
    with open(stream, "rb") as source:
        done = subprocess.run([VC2, command], stdin=source, stdout=subprocess.PIPE, text=True)
    if done.returncode:
        sys.exit(done.returncode)
    return done.stdout.splitlines()


def units_of(stream, a, b):
    """(first byte, length, slices) of each unit."""
    lines = [line.split() for line in vc2("chain", stream)]
    places = [int(line[0]) for line in lines] + [os.path.getsize(stream)]
    names = [line[1] for line in lines]
    pictures = names.count("low-delay-picture")
    slices = int(vc2("check", stream)[0].split()[4]) // max(pictures, 1)
    return [
        (place, after - place, slices if name == "low-delay-picture" else 0)
        for place, after, name in zip(places, places[1:], names)
    ]


def ends_of(units, a, b):
    """Where each slice ends, and the stream's length as the end of its tail."""
    ends = []
    for place, length, slices in units:
        head = length - slices * a // b
        ends += [place + head + (j + 1) * a // b for j in range(slices)]
    return ends + [units[-1][0] + units[-1][1]]


def taken_of(units, idle):
    """The slot of each slice, from that of the first on, and the tail's."""
    slots, slot = [], 0
    for _, _, slices in units:
        slots += range(slot, slot + slices)
        slot += slices + (idle if slices else 0)
    return slots + [slot]


def fills_of(ends, taken, num, den):
    """The least delay, and the bytes before and behind each slot, in which a slice is taken or none."""
    total = ends[-1]
    arrived = lambda slot: min(total, slot * num // den)
    delay = 0
    while any(arrived(delay + slot) < end for slot, end in zip(taken, ends)):
        delay += 1
    ends_at = {delay + slot: end for slot, end in zip(taken, ends)}
    gone, size, steps = 0, 0, []
    for slot in range(delay + taken[-1] + 1):
        before = arrived(slot) - gone
        if slot in ends_at:
            gone, size = ends_at[slot], max(size, before)
        steps.append((slot, before, arrived(slot) - gone))
    return delay, size, steps


def svg(delay, size, steps):
    across = (WIDTH - LEFT - 16) / (steps[-1][0] + 1)
    up = (HEIGHT - BOTTOM - 28) / size
    x = lambda slot: LEFT + slot * across
    y = lambda fill: HEIGHT - BOTTOM - fill * up
    path = " ".join(
        f"{'L' if i else 'M'}{x(slot):.1f},{y(before):.1f} L{x(slot):.1f},{y(behind):.1f}"
        for i, (slot, before, behind) in enumerate(steps)
    )
    text = lambda px, py, words, anchor="start": f'<text x="{px:.1f}" y="{py:.1f}" text-anchor="{anchor}">{words}</text>'
    floor, last = HEIGHT - BOTTOM, steps[-1][0]
    each = next(n for n in (1, 2, 5, 10, 20, 50, 100, 200, 500, 1000, 10**9) if last <= 12 * n)
    ticks = range(0, last + 1, each)
    return "\n".join([
        f'<svg xmlns="http://www.w3.org/2000/svg" width="{WIDTH}" height="{HEIGHT}" font-family="sans-serif" font-size="13">',
        f'<rect width="{WIDTH}" height="{HEIGHT}" fill="white"/>',
        f'<path d="M{LEFT},{y(size):.1f} H{WIDTH - 16}" stroke="#b33" stroke-dasharray="6 4"/>',
        f'<path d="M{x(delay):.1f},{y(0):.1f} V16" stroke="#888" stroke-dasharray="2 4"/>',
        f'<path d="{path}" fill="none" stroke="#246" stroke-width="1.2"/>',
        f'<path d="M{LEFT},16 V{floor} H{WIDTH - 16}" fill="none" stroke="black"/>',
        text(LEFT - 6, y(size) + 4, f"{size}", "end"),
        text(LEFT - 6, y(0) + 4, "0", "end"),
        text(WIDTH - 16, y(size) - 6, f"buffer={size}: the most that is held", "end"),
        f'<text transform="translate(18 {(28 + floor) / 2:.1f}) rotate(-90)" text-anchor="middle">bytes in the buffer</text>',
        *(f'<path d="M{x(slot):.1f},{floor} v5" stroke="black"/>' for slot in ticks),
        *(text(x(slot), floor + 18, f"{slot}", "middle") for slot in ticks),
        text(x(delay), floor + 36, f"delay={delay}: the first slice is taken in slot {delay}", "start"),
        text(x(last), floor + 36, f"slot {last}: the tail is taken", "end"),
        text((LEFT + WIDTH - 16) / 2, floor + 54, "time, in slots", "middle"),
        "</svg>",
        "",
    ])


def main():
    words = sys.argv[2:]
    if not re.fullmatch(r"\d+/[1-9]\d* [1-9]\d*/[1-9]\d*( \S+( \d+)?)?", " ".join(words)):
        sys.exit(__doc__)
    stream, share, rate, *out = sys.argv[1:]
    idle = int(out[1]) if len(out) > 1 else 0
    a, b = (int(n) for n in share.split("/"))
    num, den = (int(n) for n in rate.split("/"))
    units = units_of(stream, a, b)
    drawn = svg(*fills_of(ends_of(units, a, b), taken_of(units, idle), num, den))
    if out:
        with open(out[0], "w", encoding="utf-8") as file:
            file.write(drawn)
    else:
        sys.stdout.write(drawn)


if __name__ == "__main__":
    try:
        main()
    except OSError as fault:
        sys.exit(f"schedule_picture.py: {fault.filename or 'output'}: {fault.strerror}")
