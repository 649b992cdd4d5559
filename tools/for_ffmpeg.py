#!/usr/bin/env python3
"""Spells a stream anew for ffmpeg 5.1, which reads a slice otherwise than the standard where its luma codes don't end with its
luma block, and takes no ones past a block's end. So each block ends with its last code here, and each slice has bytes of ones
behind it. The values are the same.

usage: tools/for_ffmpeg.py < STREAM > OUT

The stream has one sequence, and frames. `vc2 check` has to accept it: VC2 names another program than the checkout's.
"""
import os
import re
import struct
import subprocess
import sys

VC2 = os.environ.get("VC2") or os.path.join(os.path.dirname(os.path.dirname(os.path.realpath(__file__))), "vc2")
HEADER, END, HEAD = 0x00, 0x10, 13
# how many bytes each slice may get more: the first that serves
MORE = (10, 23, 53, 109, 241, 509, 1201, 2503, 5003)


class NoRoom(Exception):
    """So many bytes more don't serve."""


class Bits:
    """Bits that are read from left to right."""

    def __init__(self, data):
        self.text, self.at = "".join(f"{byte:08b}" for byte in data), 0

    def flag(self):
        self.at += 1
        return self.text[self.at - 1] == "1"

    def uint(self):
        value = 1
        while not self.flag():
            value = 2 * value + self.flag()
        return value - 1

    def uints(self, count):
        return [self.uint() for _ in range(count)]


def code_of(value):
    return "".join("0" + bit for bit in f"{value + 1:b}"[1:]) + "1"


def units_of(data):
    """The units of a stream: each with its head."""
    at, units = 0, []
    while at < len(data):
        size = struct.unpack(">I", data[at + 5 : at + 9])[0] or len(data) - at
        units.append(data[at : at + size])
        at += size
    return units


def luma_size(header):
    """The size of the frames that a sequence header tells."""
    bits = Bits(header[13:])
    bits.uints(5)
    return bits.uints(2) if bits.flag() else sys.exit("the stream's size isn't a custom one")


def transform_words(data):
    """The words of `encode` for the transform of a stream's first picture."""
    bits = Bits(next(unit for unit in units_of(data) if unit[4] == 0xC8)[17:200])
    wavelet, depth, across, down, a, b = bits.uints(6)
    if not bits.flag():
        sys.exit("the stream carries no matrix")
    matrix = ",".join(map(str, bits.uints(1 + 3 * depth)))
    name = {1: "legall", 3: "haar-flat", 4: "haar-shift"}[wavelet]
    return [f"wavelet={name}", f"depth={depth}", f"slices={across}x{down}", f"bytes={a}/{b}", f"matrix={matrix}"]


class Slices:
    """The slices of a picture unit, with what its parameters say of them."""

    def __init__(self, unit, size):
        bits = Bits(unit[17:200])
        self.depth, self.across, self.down = bits.uints(4)[1:]
        self.start = bits.at
        self.share = bits.uints(2)
        self.behind = bits.at
        if not bits.flag():
            sys.exit("the stream carries no matrix")
        bits.uints(1 + 3 * self.depth)
        self.number, self.parts = unit[13:17], bits.text[: bits.at]
        self.data = unit[17 + (bits.at + 7) // 8 :]
        self.size = size

    def values(self, n):
        """How many luma values slice n has."""
        rows, columns = divmod(n, self.across)
        total = 0
        for level in range(self.depth + 1):
            edges = []
            for length, share, at in ((self.size[0], self.across, columns), (self.size[1], self.down, rows)):
                band = -(-length // 2**self.depth) << max(level - 1, 0)
                edges.append((at + 1) * band // share - at * band // share)
            total += edges[0] * edges[1] * (3 if level else 1)
        return total

    def spelled(self, more):
        """The parameters and the slices, spelled anew."""
        a, b = self.share
        text = self.parts[: self.start] + code_of(a + more * b) + code_of(b) + self.parts[self.behind :]
        text += "0" * (-len(text) % 8)
        out = [bytes(int(text[at : at + 8], 2) for at in range(0, len(text), 8))]
        for n in range(self.across * self.down):
            first, last = n * a // b, (n + 1) * a // b
            out.append(spelled_slice(self.data[first:last], self.values(n), more))
        return b"".join(out)


CODE = "(?:1|(?:0[01])+1[01])"


def spelled_slice(data, values, more):
    old, new, bits = len(data), len(data) + more, "".join(f"{byte:08b}" for byte in data)
    places = (8 * old - 8).bit_length()
    # ffmpeg's length field is longer where the size is a power of two
    if new & (new - 1) == 0:
        raise NoRoom
    index, length, rest = bits[:7], int(bits[7 : 7 + places] or "0", 2), bits[7 + places :]
    luma, colour = rest[:length], rest[length:]
    codes = re.compile(f"{CODE}{{{values}}}").match(luma + "1" * (values + 99)).group()
    # a colour code may run past the slice's end
    whole = re.compile(f"{CODE}*").match(colour).end()
    if whole < len(colour):
        colour = colour[:whole] + re.compile(CODE).match(colour[whole:] + "1" * 99).group()
    text = index + f"{len(codes):0{(8 * new - 8).bit_length()}b}" + codes + colour
    if len(text) > 8 * new:
        raise NoRoom
    text += "1" * (8 * new - len(text))
    return int(text, 2).to_bytes(new, "big")


def spelled(data, more):
    """The stream, spelled anew with so many bytes a slice more, and the number of its pictures."""
    header, *pictures = [unit for unit in units_of(data) if unit[4] in (0x00, 0xC8)]
    # version 2, since ffmpeg doubts version 1
    out, size = [bytearray(header)], luma_size(header)
    out[0][13] |= 0x40
    last = len(header)
    for unit in pictures:
        slices = Slices(unit, size)
        body = slices.number + slices.spelled(more)
        out.append(b"BBCD\xc8" + struct.pack(">II", 13 + len(body), last) + body)
        last = 13 + len(body)
    out[0][5:13] = struct.pack(">II", len(header), 0)
    return b"".join([*out, b"BBCD\x10" + struct.pack(">II", 0, last)]), len(pictures)


def readable(data):
    """The stream as ffmpeg reads it, and the number of its pictures."""
    for more in MORE:
        try:
            return spelled(data, more)
        except NoRoom:
            continue
    sys.exit("a slice has more luma codes than it can be given room for")


def asked(data, command):
    """What the program says of the stream; its note is the end of this run where it refuses."""
    ran = subprocess.run([VC2, command], input=data, stdout=subprocess.PIPE)
    if ran.returncode:
        sys.exit(ran.returncode)
    return ran.stdout.decode()


def main():
    if len(sys.argv) > 1:
        sys.exit(__doc__)
    data = sys.stdin.buffer.read()
    asked(data, "check")
    if "coding frames" not in asked(data, "header").splitlines():
        sys.exit("for_ffmpeg: the stream's pictures are fields")
    units = units_of(data)
    if any(unit[4] != END and unit[5:9] == bytes(4) for unit in units):
        sys.exit("for_ffmpeg: a unit doesn't tell its length (its next offset is 0)")
    # what follows an end unit counts to it
    if [unit[4] for unit in units].count(HEADER) > 1 or len(units[-1]) > HEAD:
        sys.exit("for_ffmpeg: the stream has more than one sequence header: `vc2 cut` takes a part")
    sys.stdout.buffer.write(readable(data)[0])
    sys.stdout.buffer.flush()


def command_of(stream, form, *more):
    """What runs ffmpeg on a stream, to raw video or to nothing on its standard output."""
    return ["ffmpeg", "-loglevel", "error", *more, "-threads", "1", "-f", "dirac", "-i", stream, "-fps_mode", "passthrough", "-f", form, "-"]


if __name__ == "__main__":
    try:
        main()
    except BrokenPipeError:
        os._exit(1)
    except OSError as fault:
        sys.exit(f"for_ffmpeg: {fault.strerror or fault}")
