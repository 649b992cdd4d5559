"""What is seen of a film while it is encoded, for tools/y4m: pictures, seconds, megabits a second, and how near its pictures come.

The stream goes through here to where it goes, and to a `decode` beside, whose pictures are held against the film's."""
import contextlib
import queue
import subprocess
import threading
import time
from fractions import Fraction
from math import inf

from plumbing import widen
from quality import decibels, squares
from units import END, HEAD, PICTURE, next_of

# how many frames may wait to be compared, and how often a terminal is told, in seconds
WAITING, OFTEN = 8, 0.2
DEPTHS = {"1": 8, "2": 8, "3": 10, "4": 12}


class Film:
    """What the words of `encode` say of the frames."""

    def __init__(self, words, size):
        told = dict(word.partition("=")[::2] for word in words)
        width, height = map(int, told["size"].split("x"))
        signal, share = told["signal"], {"444": 1, "422": 2, "420": 4}[told["sampling"]]
        self.depth = DEPTHS.get(signal) or int(signal.split(",")[1]).bit_length()
        self.size, luma = size, width * height
        self.wide = 2 if size > luma + 2 * (luma // share) else 1
        self.rate, self.step = Fraction(told["fps"]), 2 if told["fields"] == "yes" else 1
        cuts = [0, luma, luma + luma // share, luma + 2 * (luma // share)]
        self.planes = [(one * self.wide, other * self.wide) for one, other in zip(cuts, cuts[1:])]


class Watch:
    """Takes the encoder's output, and the frames that it was given."""

    def __init__(self, film, decoder, encoder, sink, stats, terminal):
        self.film, self.encoder, self.sink, self.stats, self.terminal = film, encoder, sink, stats, terminal
        self.decoder = subprocess.Popen(decoder, stdin=subprocess.PIPE, stdout=subprocess.PIPE, stderr=subprocess.DEVNULL)
        widen(self.decoder.stdin, self.decoder.stdout)
        self.frames, self.lengths, self.parts, self.is_blind = queue.Queue(WAITING), queue.SimpleQueue(), [], False
        self.count = self.bytes = 0
        self.squares, self.since, self.last = [0, 0, 0], time.monotonic(), 0.0
        self.threads = [threading.Thread(target=it, daemon=True) for it in (self.copy, self.compare)]
        for thread in self.threads:
            thread.start()

    def copy(self):
        """The stream's units to the sink and to the decoder."""
        with contextlib.suppress(OSError), self.encoder:
            while len(head := self.encoder.read(HEAD)) == HEAD:
                unit = head + self.encoder.read((HEAD if head[4] == END else next_of(head)) - HEAD)
                self.sink.write(unit)
                self.sink.flush()
                if unit[4] == PICTURE:
                    self.lengths.put(len(unit))
                with contextlib.suppress(OSError):
                    self.decoder.stdin.write(unit)
                    self.decoder.stdin.flush()
        with contextlib.suppress(OSError):
            self.decoder.stdin.close()

    def write(self, piece):
        self.parts.append(piece)

    def flush(self):
        """A frame is whole."""
        frame, self.parts = b"".join(self.parts), []
        self.put(frame)

    def put(self, frame):
        while not self.is_blind:
            with contextlib.suppress(queue.Full):
                self.frames.put(frame, timeout=OFTEN)
                return

    def compare(self):
        while (frame := self.frames.get()) is not None:
            shown = self.decoder.stdout.read(self.film.size)
            if len(shown) < self.film.size:
                break
            length = sum(self.lengths.get() for _ in range(self.film.step))
            self.tell(length, [squares(frame[one:other], shown[one:other], self.film.wide) for one, other in self.film.planes])
        self.is_blind = True

    def near(self, found):
        """dB of the three components, and of all samples."""
        counts = [(other - one) // self.film.wide for one, other in self.film.planes]
        return [decibels(*it, self.film.depth) for it in [*zip(found, counts), (sum(found), sum(counts))]]

    def tell(self, length, found):
        if self.stats:
            parts = " ".join(f"{it:.2f}" for it in self.near(found))
            print(f"picture {self.count} bytes {length} Mbit/s {float(length * 8 * self.film.rate) / 1e6:.3f} dB {parts}", file=self.stats, flush=True)
        self.count, self.bytes = self.count + 1, self.bytes + length
        self.squares = [one + other for one, other in zip(self.squares, found)]
        if self.terminal and time.monotonic() - self.last > OFTEN:
            self.last = time.monotonic()
            print(f"\r{self.line()}", end="", file=self.terminal, flush=True)

    def line(self):
        """How far it is."""
        near = decibels(sum(self.squares), max(1, self.count) * self.film.size // self.film.wide, self.film.depth) if self.count else inf
        rate = float(self.bytes * 8 * self.film.rate / max(1, self.count)) / 1e6
        return f"pictures {self.count} seconds {time.monotonic() - self.since:.1f} Mbit/s {rate:.3f} dB {near:.2f}"

    def end(self):
        """Behind the last frame."""
        self.put(None)
        for thread in self.threads:
            thread.join()
        self.decoder.stdout.close()
        self.decoder.wait()
        if self.terminal and self.count:
            print(f"\r{self.line()}", file=self.terminal, flush=True)
