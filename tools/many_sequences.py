#!/usr/bin/env python3
"""Writes a stream of many sequences to standard output: the examples' streams one after another, none of the size before it.

usage: tools/many_sequences.py [COUNT]     (default: 100)

The first previous offset of a later sequence is the true distance in every second one, and else 0, as either is allowed.
"""
import os
import sys

TOP = os.path.dirname(os.path.dirname(os.path.abspath(__file__)))
NAMES = ("smallest.vc2", "pair_422.vc2", "frames_422.vc2")
HEAD_SIZE = 13


def examples():
    for name in NAMES:
        with open(os.path.join(TOP, "examples", name), "rb") as file:
            yield file.read()


def sequences(count):
    """The streams, with the first previous offset of each as it stands in the whole."""
    streams = list(examples())
    for place in range(count):
        stream = streams[place % len(streams)]
        distance = HEAD_SIZE if place % 2 else 0
        yield stream[:9] + distance.to_bytes(4, "big") + stream[HEAD_SIZE:]


if __name__ == "__main__":
    sys.stdout.buffer.write(b"".join(sequences(int(sys.argv[1]) if len(sys.argv) > 1 else 100)))
