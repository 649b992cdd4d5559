"""What the tools of a link know of a stream's units: heads, numbers, where slices end, and the least schedule of so many units.

The rules are those of docs/FORMATS.md ("The unit head", "Transform parameters", "The channel schedule")."""
from for_ffmpeg import Bits

HEAD, PREFIX = 13, b"BBCD"
HEADER, END, AUXILIARY, PADDING, PICTURE = 0x00, 0x10, 0x20, 0x30, 0xC8
# the lengths that a unit of each kind may tell, beside 0 where its end is found otherwise
LENGTHS = {HEADER: (14, 263), END: (13, 13), AUXILIARY: (13, 2**32), PADDING: (13, 2**32), PICTURE: (18, 2**28 + 300)}
# more bytes than a picture's unit has before its slices
PARAMETERS = 300


def next_of(unit):
    return int.from_bytes(unit[5:9], "big")


def previous_of(unit):
    return int.from_bytes(unit[9:13], "big")


def number_of(unit):
    return int.from_bytes(unit[13:17], "big")


def placed(unit, before):
    """The unit with another previous offset: the bytes of the unit before it."""
    return b"".join((unit[:9], before.to_bytes(4, "big"), unit[13:]))


def numbered(unit, number):
    return b"".join((unit[:13], number.to_bytes(4, "big"), unit[17:]))


def padding(size, before):
    """A unit of so many bytes that says nothing."""
    return PREFIX + bytes([PADDING]) + size.to_bytes(4, "big") + before.to_bytes(4, "big") + bytes(size - HEAD)


def is_head(data, at=0):
    """Whether a unit may begin here: the prefix, a kind, and a length that goes with it."""
    if data[at : at + 4] != PREFIX or len(data) < at + HEAD or data[at + 4] not in LENGTHS:
        return False
    least, most = LENGTHS[data[at + 4]]
    length = next_of(data[at : at + HEAD])
    return least <= length <= most or not length and data[at + 4] not in (AUXILIARY, PADDING)


def shape_of(unit):
    """Of a picture: the bytes before its slices, how many slices, and their share A/B. IndexError where it ends before them."""
    bits = Bits(unit[17:PARAMETERS])
    _, depth, across, down, a, b = bits.uints(6)
    bits.flag()
    bits.uints(1 + 3 * depth)
    return 17 + (bits.at + 7) // 8, across * down, a, b


def picture_length(unit):
    """The length of a picture's unit, as its parameters tell."""
    before, slices, a, b = shape_of(unit)
    return before + slices * a // b


def slots_of(units, idle):
    """Of each picture the slot of its first slice, were there no delay, its place and its shape; last those of the tail."""
    at = slot = 0
    for length, shape in units:
        if shape:
            yield slot, at, shape
            slot += shape[1] + idle
        at += length
    yield slot, at, None


def least_delay(row, rate):
    """With which none of a row's slices is late, nor the tail."""
    (slot, at, shape), (many, of) = row, rate
    if not shape:
        return -(-at * of // many) - slot
    before, slices, a, b = shape
    return max(-(-(at + before + j * a // b) * of // many) - j for j in range(1, slices + 1)) - slot + 1


def most_held(row, rate, delay, total):
    """How much is held at most when a row's slices are taken, but for the first."""
    (slot, at, (before, slices, a, b)), (many, of) = row, rate
    start = at + before
    return max((min(total, (delay + slot + j) * many // of) - start - j * a // b for j in range(1, slices)), default=0)


def least_schedule(units, rate, idle=0):
    """The least delay, and with it the least buffer, of units (bytes; None, or a picture's shape) at a rate of bytes in slots.

    Of pictures of one shape the one that comes latest for its slots asks for the delay, and of those behind which the stream goes
    on the one that comes soonest for the buffer: so few are looked into."""
    (many, of), rows, taken, latest, looked = rate, [*slots_of(units, idle)], 0, {}, {}
    for row in rows:
        behind = row[1] * of - row[0] * many
        if row[2] not in latest or behind > latest[row[2]][0]:
            latest[row[2]] = behind, row
    delay, total = max(0, *(least_delay(row, rate) for _, row in latest.values())), rows[-1][1]
    most = 0
    for slot, at, shape in rows:
        most = max(most, min(total, (delay + slot) * many // of) - taken)
        if shape:
            before, slices, a, b = shape
            taken = at + before + slices * a // b
            is_last = (delay + slot + slices) * many // of >= total
            key, behind = (shape, slot if is_last else None), at * of - slot * many
            if key not in looked or behind < looked[key][0]:
                looked[key] = behind, (slot, at, shape)
    return delay, max([most, *(most_held(row, rate, delay, total) for _, row in looked.values())])
