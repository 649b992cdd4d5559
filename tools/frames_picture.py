#!/usr/bin/env python3
"""Draws the pictures of raw video side by side, as a PNG.

usage: tools/frames_picture.py SIZE SAMPLING DEPTH OUT < RAW_VIDEO

    ./vc2 decode < examples/pair_422.vc2 | tools/frames_picture.py 48x32 422 10 pair.png

Raw video is as FORMATS.md, "Raw video", has it, of pictures of this size, sampling (444, 422 or 420) and depth. Colours are
those of BT.709 in the video range. Each sample is drawn as a square of SCALE points.
"""
import re
import struct
import sys
import zlib

SCALE, GAP = 5, 10
ACROSS, DOWN = {"444": 1, "422": 2, "420": 2}, {"444": 1, "422": 1, "420": 2}


def components(raw, width, height, sampling, depth):
    """The pictures, each as the rows of its three components."""
    across, down = ACROSS[sampling], DOWN[sampling]
    step, at = (1 if depth <= 8 else 2), 0
    while at < len(raw):
        planes = []
        for w, h in ((width, height), *[(width // across, height // down)] * 2):
            numbers = struct.unpack_from(f"<{w * h}{'B' if step == 1 else 'H'}", raw, at)
            planes.append([numbers[w * y : w * y + w] for y in range(h)])
            at += w * h * step
        yield planes, across, down


def colours(planes, across, down, depth):
    """Rows of red, green and blue."""
    unit = 1 << depth - 8
    for y, row in enumerate(planes[0]):
        line = bytearray()
        for x, luma in enumerate(row):
            l = (luma - 16 * unit) / (219 * unit)
            b, r = ((plane[y // down][x // across] - 128 * unit) / (224 * unit) for plane in planes[1:])
            for value in (l + 1.5748 * r, l - 0.1873 * b - 0.4681 * r, l + 1.8556 * b):
                line.append(round(255 * min(1, max(0, value))))
        yield bytes(line)


def png(rows):
    """The bytes of a PNG of rows of red, green and blue."""
    def chunk(name, data):
        return struct.pack(">I", len(data)) + name + data + struct.pack(">I", zlib.crc32(name + data))

    head = struct.pack(">IIBBBBB", len(rows[0]) // 3, len(rows), 8, 2, 0, 0, 0)
    # a row that is the one above it is told as no difference, which packs well
    told = [b"\2" + bytes(len(row)) if y and row == rows[y - 1] else b"\0" + row for y, row in enumerate(rows)]
    data = zlib.compress(b"".join(told), 9)
    return b"\x89PNG\r\n\x1a\n" + chunk(b"IHDR", head) + chunk(b"IDAT", data) + chunk(b"IEND", b"")


def main():
    if not re.fullmatch(r"[1-9]\d*x[1-9]\d* (444|422|420) ([89]|1[0-6]) \S+", " ".join(sys.argv[1:])):
        sys.exit(__doc__)
    size, sampling, depth, out = sys.argv[1:]
    width, height = map(int, size.split("x"))
    raw = sys.stdin.buffer.read()
    picture = (width * height + 2 * (width // ACROSS[sampling]) * (height // DOWN[sampling])) * (1 if depth == "8" else 2)
    if not raw or len(raw) % picture:
        sys.exit(f"frames_picture.py: {len(raw)} bytes aren't whole pictures of {picture}")
    pictures = [list(colours(*it, int(depth))) for it in components(raw, width, height, sampling, int(depth))]
    large = [[b"".join(row[3 * x : 3 * x + 3] * SCALE for x in range(width)) for row in it] for it in pictures]
    rows = [(b"\xff" * 3 * GAP).join(it[y] for it in large) for y in range(height) for _ in range(SCALE)]
    with open(out, "wb") as file:
        file.write(png(rows))


if __name__ == "__main__":
    try:
        main()
    except OSError as fault:
        sys.exit(f"frames_picture.py: {fault.filename or 'output'}: {fault.strerror}")
