#!/usr/bin/env python3
"""Rows for the tests of channel schedules, by search alone and apart from the program.

usage: tools/schedule_rows.py

A stream is a list of units (head, slices, a, b). The plan is found by trying delays; how a schedule comes out, by going
through slice after slice, and through the idle slots behind each picture. It prints the rows of both texts of
crates/codec_tests/src/schedules.rt that were found by search: first those without idle slots, then those with them. Then it
prints those of the plans that streams of any length share, having tried streams of up to five parts.
"""
import random
import sys


def ends_of(units):
    """The place where each slice ends, and the stream's length as the end of its tail."""
    ends, place = [], 0
    for head, slices, a, b in units:
        ends += [place + head + (j + 1) * a // b for j in range(slices)]
        place += head + slices * a // b
    return ends + [place]


def arrived(total, rate, slots):
    return min(total, slots * rate[0] // rate[1])


def slots_of(units, idle):
    """The slot of each slice, from that of the first on, and the tail's."""
    slots, slot = [], 0
    for _, slices, _, _ in units:
        slots += range(slot, slot + slices)
        slot += slices + (idle if slices else 0)
    return slots + [slot]


def outcome(units, rate, idle, delay, size):
    ends = ends_of(units)
    gone = 0
    for slot, need in zip(slots_of(units, idle), ends):
        have = arrived(ends[-1], rate, delay + slot)
        if have < need:
            return ("Late", delay + slot, have, need)
        if have - gone > size:
            return ("Overfull", delay + slot, have - gone, size)
        gone = need
    return ("Runs",)


def least(does):
    """The least number for which this holds, where it then holds for all above."""
    low, high = 0, 1
    while not does(high):
        low, high = high, 2 * high
    if low == 0 and does(0):
        return 0
    while high - low > 1:
        middle = (low + high) // 2
        low, high = (low, middle) if does(middle) else (middle, high)
    return high


def plan(units, rate, idle):
    delay = least(lambda d: outcome(units, rate, idle, d, 1 << 41)[0] == "Runs")
    return delay, least(lambda s: outcome(units, rate, idle, delay, s)[0] == "Runs")


def units_of(header, pictures, head, slices, a, b):
    return [(header, 0, 1, 1)] + [(head, slices, a, b)] * pictures + [(13, 0, 1, 1)]


def streams(random_numbers, count):
    for _ in range(count):
        b = random_numbers.choice([1, 1, 2, 3, 7])
        a = random_numbers.randint(b, 5 * b)
        pictures = random_numbers.randint(0, 3)
        slices = random_numbers.randint(1, 9)
        head = random_numbers.randint(13, 40)
        rate = (random_numbers.randint(1, 40), random_numbers.choice([1, 1, 2, 3, 10]))
        yield (17, pictures, head, slices, a, b), rate


def told(units, rate, idle, delay, size):
    kind, *numbers = outcome(units, rate, idle, delay, size)
    names = ("slot", "have", "need") if kind == "Late" else ("slot", "fill", "size")
    fields = ", ".join(f"{name}: {number}" for name, number in zip(names, numbers))
    return f"({delay}, {size}, {kind})" if kind == "Runs" else f"({delay}, {size}, {kind} {{ {fields} }})"


def plan_row(row, rate, idle):
    units = units_of(*row)
    return told(units, rate, idle, *plan(units, rate, idle)) + "|" + " ".join(map(str, (*row, *rate, idle, 0)))


def outcome_row(row, rate, idle, delay, size):
    text = " ".join(map(str, (*row, *rate, idle, 1, delay, 0, size)))
    return told(units_of(*row), rate, idle, delay, size) + "|" + text


def parts_of(row, parts):
    """So many sequences of some pictures; where a sequence has 0 of them, one sequence of so many pictures."""
    header, pictures, *picture = row
    if pictures == 0:
        return units_of(header, parts, *picture)
    return units_of(header, pictures, *picture) * parts


def carrying(row, idle):
    """The rate that carries a part in its slots."""
    header, pictures, head, slices, a, b = row
    unit = head + slices * a // b
    if pictures == 0:
        return unit, slices + idle
    return header + pictures * unit + 13, pictures * (slices + idle)


def known_row(row, idle):
    rate = carrying(row, idle)
    (delay, first), *others = [plan(parts_of(row, parts), rate, idle) for parts in range(1, 6)]
    if set(others) != {(delay, others[0][1])}:
        sys.exit(f"schedule_rows: the plans of {row} with {idle} idle slots differ: {others}")
    return f"({delay}, {first}, {others[0][1]})|" + " ".join(map(str, (*row, *rate, idle)))


# The smallest stream and the README's example, without idle slots and with them; a stream whose first picture alone holds a
# byte less; the smallest stream in groups.
KNOWN = [
    ((17, 0, 20, 1, 1, 1), 0),
    ((17, 0, 20, 1, 1, 1), 3),
    ((20, 0, 25, 24, 64, 1), 0),
    ((20, 0, 25, 24, 64, 1), 6),
    ((17, 0, 25, 1, 6, 1), 0),
    ((17, 2, 20, 1, 1, 1), 0),
]


# The smallest stream and one of two pictures, at the default rates and at the rates' bounds, with idle slots up to their bound.
BOUNDS = [
    ((17, pictures, 20, 1, 1, 1), rate, idle)
    for pictures, rate, idle in [
        (2, (21, 4), 3),
        (1, (21, 2), 1),
        (0, (21, 4), 3),
        (2, (21, 1 + (1 << 20)), 1 << 20),
        (2, (1, (1 << 32) - 1), 1 << 20),
        (2, ((1 << 32) - 1, 1), 1 << 20),
        (2, (1, (1 << 32) - 1), (1 << 32) - 1),
        (2, ((1 << 32) - 1, (1 << 32) - 1), (1 << 32) - 1),
    ]
]


def main():
    random_numbers = random.Random(7)
    print("PLANS, without idle slots:")
    for row, rate in streams(random_numbers, 20):
        print(plan_row(row, rate, 0))
    print("OUTCOMES, without idle slots:")
    for row, rate in streams(random_numbers, 8):
        delay, size = plan(units_of(*row), rate, 0)
        for d, s in ((delay, size - 1), (max(delay, 1) - 1, size)):
            print(outcome_row(row, rate, 0, d, s))
    print("PLANS, with idle slots:")
    rows = BOUNDS + [(row, rate, random_numbers.choice([1, 2, 3, 10, 100])) for row, rate in streams(random_numbers, 16)]
    for row, rate, idle in rows:
        print(plan_row(row, rate, idle))
    print("OUTCOMES, with idle slots:")
    for row, rate, idle in BOUNDS[:1] + [row for row in rows[len(BOUNDS):] if row[0][1] > 1][:4]:
        delay, size = plan(units_of(*row), rate, idle)
        for d, s, i in ((delay, size, idle - 1), (delay, size, idle + 1), (delay, size - 1, idle), (max(delay, 1) - 1, size, idle)):
            print(outcome_row(row, rate, i, d, s))
    print("KNOWN:")
    for row, idle in KNOWN + [(row, random_numbers.choice([0, 1, 3, 10])) for row, _ in streams(random_numbers, 12)]:
        print(known_row(row, idle))


if __name__ == "__main__":
    main()
