#!/usr/bin/env python3
"""Decodes a stream, and encodes the raw video again.

usage: examples/python/there_and_back.py LIBRARY STREAM RAW [AGAIN WORD..]
"""
import sys

import vc2


def main():
    if len(sys.argv) < 4 or len(sys.argv) == 5:
        sys.exit("usage: there_and_back.py LIBRARY STREAM RAW [AGAIN WORD..]")
    path, stream, raw, *again = sys.argv[1:]
    library = vc2.Library(path)
    with open(stream, "rb") as file, open(raw, "wb") as to:
        video = library.decode(file.read())
        to.write(video)
    if again:
        written, schedule = library.encode(" ".join(again[1:]), video)
        with open(again[0], "wb") as to:
            to.write(written)
        print(schedule, end="")


if __name__ == "__main__":
    try:
        main()
    except (OSError, vc2.Refused, MemoryError) as fault:
        sys.exit(f"there_and_back.py: {fault}")
