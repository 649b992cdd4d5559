#!/usr/bin/env python3
"""Writes examples/pair_422.yuv, two pictures of 48x32 in 4:2:2 with 10 bits, to standard output: a ball that moves over a slope
of light. No sample leaves the video range."""
import struct
import sys

BALL = {0: 940, 1: 390, 2: 610}


def sample(component, p, x, y):
    """The sample of a component in row y and column x of picture p, by the columns of luma."""
    far = ((x - 13 - 7 * p) ** 2 + (y - 14 + 3 * p) ** 2) ** 0.5
    slope = (120 + 9 * x + 7 * y, 600 - 2 * x, 430 + 3 * y)[component]
    weight = min(1, max(0, 9 - far))
    shade = BALL[component] - (30 * far if component == 0 else 0)
    return round(weight * shade + (1 - weight) * slope)


def picture(p):
    planes = ([sample(c, p, x, y) for y in range(32) for x in range(0, 48, 1 if c == 0 else 2)] for c in range(3))
    return b"".join(struct.pack(f"<{len(it)}H", *it) for it in planes)


sys.stdout.buffer.write(picture(0) + picture(1))
