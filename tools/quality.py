"""How near a picture is to another: the peak signal to noise ratio, in dB. Where there is no C compiler it is counted in Python,
some hundred times as slowly."""
import array
import ctypes
import os
import subprocess
import sys
from math import inf, log10

HERE = os.path.dirname(os.path.realpath(__file__))


def compiled():
    """The functions of tools/c/squares.c by the bytes of a sample; none where it can't be compiled."""
    try:
        path = subprocess.run([os.path.join(HERE, "in_c"), "squares.so"], capture_output=True, check=True, text=True).stdout.strip()
        library = ctypes.CDLL(path)
    except (OSError, subprocess.CalledProcessError):
        return {}
    found = {1: library.squares_of_bytes, 2: library.squares_of_pairs}
    for function in found.values():
        function.argtypes, function.restype = [ctypes.c_char_p, ctypes.c_char_p, ctypes.c_size_t], ctypes.c_uint64
    return found


FUNCTIONS = {}


def samples(raw, wide):
    found = array.array("H" if wide == 2 else "B", raw)
    if wide == 2 and sys.byteorder == "big":
        found.byteswap()
    return found


def squares(one, other, wide):
    """The sum of squared differences of two raw texts of one length, whose samples have one byte or two."""
    if not FUNCTIONS:
        FUNCTIONS.update(compiled() or {0: None})
    if wide in FUNCTIONS:
        return FUNCTIONS[wide](one, other, len(one) // wide)
    return sum((x - y) ** 2 for x, y in zip(samples(one, wide), samples(other, wide)))


def decibels(total, count, depth):
    """Of so many samples of a depth, whose squared differences have this sum."""
    return 10 * log10((2**depth - 1) ** 2 * count / total) if total else inf
