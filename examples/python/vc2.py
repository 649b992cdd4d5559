"""VC-2 low delay streams by the library for C: `Library.run` is the program as a function.

Python's other threads go on while a call runs.
"""
import ctypes
import re

OK, REFUSED, USAGE, NO_ROOM, NO_MEMORY, NOT_TEXT = 0, 1, 2, 4, 5, 6
NOTE_ROOM = 256


class Refused(Exception):
    """The words or the input are refused: what the note says."""


class Library:
    def __init__(self, path="libvc2.so"):
        self.entry = ctypes.CDLL(path).vc2_run
        count, bytes_in, bytes_out = ctypes.c_size_t, ctypes.c_char_p, ctypes.POINTER(ctypes.c_char)
        pointer = ctypes.POINTER(count)
        self.entry.argtypes = [bytes_in, count, bytes_in, count, bytes_out, count, pointer, bytes_out, count, pointer]
        self.entry.restype = ctypes.c_uint32

    def run(self, words, source=b"", room=1 << 16, note_room=NOTE_ROOM):
        """(status, output, note) of one call, all bytes."""
        out, note = (ctypes.create_string_buffer(max(size, 1)) for size in (room, note_room))
        out_len, note_len = ctypes.c_size_t(), ctypes.c_size_t()
        status = self.entry(words, len(words), source, len(source), out, room, out_len, note, note_room, note_len)
        return status, ctypes.string_at(out, out_len.value), ctypes.string_at(note, note_len.value)

    def done(self, words, source=b"", room=1 << 16):
        """(output, note) of a call that has to be done; the room grows where it is too small."""
        while True:
            status, out, note = self.run(words.encode(), source, room)
            if status == OK:
                return out, note.decode()
            if status in (REFUSED, USAGE):
                raise Refused(note.decode().strip())
            if status != NO_ROOM:
                raise MemoryError(f"vc2: status {status}")
            room *= 2

    def decode(self, stream):
        """The raw video of a stream."""
        return self.done("decode", stream, self.picture_bytes(stream) * self.pictures(stream))[0]

    def encode(self, words, raw):
        """(stream, schedule line) of raw video."""
        return self.done(f"encode {words}", raw, len(raw) + 4096)

    def pictures(self, stream):
        return int(self.done("check", stream)[0].split()[2])

    def picture_bytes(self, stream):
        """The bytes of a picture's raw video in the first sequence."""
        told = self.done("header", stream)[0].decode()
        width, height, sampling = re.search(r"^size (\d+)x(\d+) sampling (\S+)$", told, re.M).groups()
        luma_depth, colour_depth = map(int, re.search(r"^signal \S+ depth (\d+) (\d+)$", told, re.M).groups())
        luma = int(width) * int(height) // (2 if "\ncoding fields\n" in told else 1)
        colour = luma // {"4:4:4": 1, "4:2:2": 2, "4:2:0": 4}[sampling]
        return (luma + 2 * colour) * (2 if max(luma_depth, colour_depth) > 8 else 1)
