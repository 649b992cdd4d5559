"""Checks of the tools of a link, for tools/program_check by tool_checks.py: what is lost, planned, paced, held and stuffed."""
import os
import random
import re
import select
import shutil
import socket
import subprocess
import time

from units import next_of, number_of, previous_of

CODING = "wavelet=legall depth=2 slices=6x4 bytes=64/1 matrix=4,2,2,0,4,4,2".split()
SETTINGS = ["size=48x32", "sampling=422", "fps=25/1", "signal=3", *CODING]
TOP = os.path.dirname(os.path.dirname(os.path.abspath(__file__)))
# the bytes of a picture of these settings, of its unit, and of the units before the first one
PICTURE, UNIT, FRONT = 6144, 1561, 20
LINE = b"YUV4MPEG2 W48 H32 F25:1 Ip A0:0 C422p10 XCOLORRANGE=LIMITED\n"


def moving(count):
    """Raw video of so many pictures, each another one."""
    with open(os.path.join(TOP, "examples", "pair_422.yuv"), "rb") as file:
        picture = file.read(PICTURE)
    return b"".join(picture[2 * n :] + picture[: 2 * n] for n in range(count))


def pictures_of(raw, size=PICTURE):
    return [raw[at : at + size] for at in range(0, len(raw), size)]


def fields_of(tools, count):
    """A stream of so many fields."""
    return tools.program(["encode", "size=48x64", *SETTINGS[1:], "fields=yes"], moving(count))


class Film:
    """A stream of pictures, and what `decode` shows of it."""

    def __init__(self, tools, count, *words):
        self.raw = moving(count)
        self.stream = tools.program(["encode", *SETTINGS, *words], self.raw)
        self.shown = tools.program(["decode"], self.stream)
        self.pictures = pictures_of(self.shown)

    def unit(self, n):
        """Where the unit of picture n begins, in a stream of one sequence."""
        return self.stream.index(b"BBCD\xc8") + UNIT * n

    def without(self, at, count):
        return self.stream[:at] + self.stream[at + count :]


def whole_streams(tools):
    """What `join` makes of streams that `decode` accepts: the same, in all ways to say a unit's length."""
    with open(os.path.join(TOP, "examples", "frames_422.vc2"), "rb") as file:
        other = file.read()
    film, fields = Film(tools, 6, "group=2"), fields_of(tools, 4)
    at = film.stream.index(b"BBCD\xc8")
    untold = film.stream[: at + 5] + bytes(4) + film.stream[at + 9 :]
    second, header = at + UNIT, film.stream[:at]
    behind = film.stream[second : second + 9] + len(header).to_bytes(4, "big") + film.stream[second + 13 :]
    repeated = film.stream[:second] + header[:9] + UNIT.to_bytes(4, "big") + header[13:] + behind
    streams = {"groups": film.stream, "fields": fields, "two formats": film.stream + other, "a unit without its length": untold, "a repeated header": repeated}
    for name, stream in streams.items():
        ran = subprocess.run([tools.runs.program, "decode"], input=stream, capture_output=True)
        tools.runs.judge(f"decode of {name}", (ran.returncode, len(ran.stdout) > 2 * PICTURE), (0, True))
        tools.case(f"join of {name}", ["join"], stream, (0, ran.stdout, ran.stderr))
    for order in ("top", "bottom"):
        tools.case(f"join of fields, {order} first", ["join", f"order={order}"], fields, (0, tools.program(["frames", f"order={order}"], fields), b"frames 2 bytes %d\n" % len(fields)))
    film = tools.run(["y4m", "decode", "order=top"], fields)
    tools.case("join into a film", ["join", "order=top", "as=y4m"], fields, film)


def losses(tools):
    """A lost packet costs the picture that it was of, or the two that it was of."""
    film = Film(tools, 25)
    size, shown = len(film.stream) - 100, film.pictures
    grey = b"\xf6\1" * (PICTURE // 4) + b"\0\2" * (PICTURE // 4)
    lossy = film.without(film.unit(4) + 500, 100)
    alone = subprocess.run([tools.runs.program, "decode"], input=lossy, capture_output=True)
    tools.runs.judge("decode alone, with a packet gone", (alone.returncode, len(alone.stdout)), (1, 4 * PICTURE))
    note = b"picture 4 lost: %d of its %d bytes came\npictures 24 lost 1 bytes %d\n" % (UNIT - 100, UNIT, size)
    for word, stands in (("repeat", [shown[3]]), ("drop", []), ("grey", [grey])):
        tools.case(f"a packet gone, lost={word}", ["join", f"lost={word}"], lossy, (1, b"".join([*shown[:4], *stands, *shown[5:]]), note))
    lossy = film.without(film.unit(9) - 50, 100)
    # the broken unit goes on up to the head of picture 10
    status, out, said = tools.run(["join", "lost=drop"], lossy)
    tools.runs.judge("a head gone", (status, out, said.count(b"\n"), b"picture 9 lost: it didn't come" in said), (1, b"".join([*shown[:8], *shown[10:]]), 3, True))
    lossy = film.without(film.unit(9), UNIT)
    tools.case("a unit gone", ["join"], lossy, (1, b"".join([*shown[:9], shown[8], *shown[10:]]), b"picture 9 lost: it didn't come\npictures 24 lost 1 bytes %d\n" % len(lossy)))
    # a slice of 64 bytes begins with 7 bits of its index, and 9 of its luma length
    at = film.unit(3) + UNIT - 24 * 64
    broken = film.stream[:at] + b"\1\xff" + film.stream[at + 2 :]
    note = b"picture 3 lost: refused at %d: LumaLengthTooLong\npictures 24 lost 1 bytes %d\n" % (at, len(broken))
    tools.case("a slice that is refused", ["join"], broken, (1, b"".join([*shown[:3], shown[2], *shown[4:]]), note))
    lossy = film.without(film.unit(0) + 500, 100)
    tools.case("the first picture gone", ["join"], lossy, (1, b"".join([grey, *shown[1:]]), b"picture 0 lost: %d of its %d bytes came\npictures 24 lost 1 bytes %d\n" % (UNIT - 100, UNIT, size)))
    for word in ("lost=blue", "x=1", "drop"):
        status, _, note = tools.run(["join", word])
        tools.runs.judge(f"join {word} tells its usage", (status, b"usage: tools/join" in note), (2, True))
    with open("/dev/full", "wb") as full:
        tools.runs.judge("join into a full disk", tools.run(["join"], film.stream, full)[0], 4)


def late(tools):
    """A receiver that comes late begins with the next group."""
    film = Film(tools, 12, "group=4")
    at = film.unit(1) + 700
    status, out, said = tools.run(["join"], film.stream[at:])
    tools.runs.judge("joined late", (status, out == b"".join(film.pictures[4:]), said.count(b"before there was a sequence header")), (0, True, 1))
    tools.runs.judge("joined after all", tools.run(["join"], film.stream[-800:])[::2], (1, b"no sequence header came\n"))
    tools.runs.judge("joined nothing", tools.run(["join"])[::2], (1, b"no sequence header came\n"))


def lost_fields(tools):
    fields = fields_of(tools, 12)
    frames = pictures_of(tools.program(["frames", "order=top"], fields), 2 * PICTURE)
    at = fields.index(b"BBCD\xc8")
    for part in (0, 1):
        place = at + (4 + part) * UNIT + 300
        lossy = fields[:place] + fields[place + 100 :]
        status, out, said = tools.run(["join", "order=top"], lossy)
        wanted = b"frame 2 lost: %d of its %d bytes came\nframes 5 lost 1 bytes %d\n" % (UNIT - 100, UNIT, len(lossy))
        tools.runs.judge(f"field {part} of a frame gone", (status, out == b"".join([*frames[:2], frames[1], *frames[3:]]), said), (1, True, wanted))
    lossy = fields[: at + 4 * UNIT] + fields[at + 5 * UNIT :]
    tools.runs.judge("a field that isn't there", tools.run(["join", "order=top"], lossy)[1] == b"".join([*frames[:2], frames[1], *frames[3:]]), True)


def drawn_losses(tools):
    """Packets gone by chance: each picture that is shown is that of its place, or the one before, as it is told."""
    film, draw = Film(tools, 60, "group=20"), random.Random(7)
    for turn in range(8):
        packets = [film.stream[at : at + 131] for at in range(0, len(film.stream), 131)]
        kept = b"".join(it for n, it in enumerate(packets) if n < 2 or draw.random() > 0.01)
        status, out, said = tools.run(["join"], kept)
        lost = {int(line.split()[1]) for line in said.splitlines() if line.startswith(b"picture ")}
        wanted, before = [], None
        for n in range(len(out) // PICTURE):
            before = before if n in lost else film.pictures[n]
            wanted.append(before or out[n * PICTURE : (n + 1) * PICTURE])
        tools.runs.judge(f"losses by chance, turn {turn}", (out == b"".join(wanted), len(out) // PICTURE > 56, len(lost) > 0), (True, True, True))


def prompt(tools):
    """A picture is shown before the next one comes."""
    film = Film(tools, 3)
    started = subprocess.Popen([os.path.join(TOP, "tools", "join")], stdin=subprocess.PIPE, stdout=subprocess.PIPE, stderr=subprocess.PIPE, env=tools.environment)
    started.stdin.write(film.stream[: film.unit(1)])
    started.stdin.flush()
    found = b""
    while len(found) < PICTURE and select.select([started.stdout], [], [], 10)[0]:
        found += os.read(started.stdout.fileno(), PICTURE - len(found))
    tools.runs.judge("a picture before the next one", found == film.pictures[0], True)
    started.kill()
    started.communicate()


# the rate of such a stream in slots, a hundred pictures a second
SCHEDULE, CLOCK = "rate=1561/24 delay=2 buffer=130".split(), ["slots=2400", "packet=200"]


def counts(note):
    """What the last line of `pace` or `hold` tells, by its words."""
    words = note.decode().splitlines()[-1].split()
    return {word: float(value) for word, value in zip(words, words[1:]) if re.fullmatch(r"[\d.]+", value)}


def units_of(stream):
    at, units = 0, []
    while at < len(stream):
        length = next_of(stream[at : at + 13]) or 13
        units.append(stream[at : at + length])
        at += length
    return units


def are_chained(units):
    """Whether each unit tells the length of the one before; a header may tell none."""
    return all(previous_of(unit) == len(before) or unit[4] == 0 == previous_of(unit) for before, unit in zip(units, units[1:]))


def fed(tools, words, pieces):
    """(status, output, note) of a script that gets its input in pieces, each after so many seconds, once the first shows."""
    script = os.path.join(TOP, "tools", words[0])
    started = subprocess.Popen([script, *words[1:]], stdin=subprocess.PIPE, stdout=subprocess.PIPE, stderr=subprocess.PIPE, env=tools.environment)
    first = b""
    try:
        for seconds, piece in pieces:
            if seconds and not first:
                first = os.read(started.stdout.fileno(), 1)
            time.sleep(seconds)
            started.stdin.write(piece)
            started.stdin.flush()
    except BrokenPipeError:
        pass
    out, note = started.communicate()
    return started.returncode, first + out, note


def packets(tools, stream):
    """Packets have one size and don't leave before they are due."""
    ours, theirs = socket.socketpair(socket.AF_UNIX, socket.SOCK_DGRAM)
    ours.settimeout(10)
    words = [os.path.join(TOP, "tools", "pace"), SCHEDULE[0], *CLOCK]
    started = subprocess.Popen(words, stdin=subprocess.PIPE, stdout=theirs, stderr=subprocess.PIPE)
    started.stdin.write(stream)
    started.stdin.close()
    got, times = [], []
    while sum(map(len, got)) < len(stream):
        got.append(ours.recv(1000))
        times.append(time.monotonic())
    note = started.stderr.read()
    started.wait()
    rate = 1561 / 24 * 2400
    soonest = min(at - n * 200 / rate for n, at in enumerate(times[:-1]))
    tools.runs.judge("paced packets", (b"".join(got) == stream, {len(it) for it in got[:-1]}), (True, {200}))
    # no packet is sooner beside the first one than its bytes allow, but for how late that one was
    tools.runs.judge("none too soon", times[0] - soonest < 0.002 + counts(note)["late"] / 1000, True)
    ours.close()
    theirs.close()


def paces(tools):
    film = Film(tools, 26, "group=13")
    packets(tools, film.stream)
    words = ["pace", SCHEDULE[0], *CLOCK]
    status, out, note = tools.run(words, film.stream)
    told = counts(note)
    tools.runs.judge("a paced stream", (status, out == film.stream, told["pictures"], told["packets"]), (0, True, 26, -(-len(film.stream) // 200)))
    lossy = [tools.run([*words, "loss=1/20", f"seed={seed}"], film.stream)[1] for seed in (1, 1, 2)]
    tools.runs.judge("packets left out", (lossy[0] == lossy[1], lossy[0] == lossy[2], len(lossy[0]) < len(film.stream)), (True, False, True))
    tools.runs.judge("jitter alone", tools.run([*words, "jitter=3"], film.stream)[:2], (0, film.stream))
    tools.runs.judge("pace of no stream", tools.run(words, film.raw)[::2][0], 1)
    tools.runs.judge("pace of nothing", tools.run(words)[:2], (0, b""))
    for more in (["rate=0/1"], ["rate=x"], ["rate=1/1", "x=1"], ["rate=1/1", "stall=cry"], ["rate=1/1", "packet=1"], []):
        tools.runs.judge(f"pace {' '.join(more)}", tools.run(["pace", *more], film.stream)[:2], (2, b""))
    with open("/dev/full", "wb") as full:
        tools.runs.judge("pace into a full disk", tools.run(words, film.stream, full)[0], 4)


def stalls(tools):
    """An encoder that pauses after five pictures: the rest later, padding meanwhile, or the next pictures dropped."""
    film = Film(tools, 26)
    at = film.unit(5)
    live = [(0.01, film.stream[film.unit(n) : film.unit(n + 1)]) for n in range(5, 26)]
    live[-1] = (0.01, film.stream[film.unit(25) :])
    for how in ("wait", "stuff", "drop"):
        pieces = [(0, film.stream[:at]), (0.3, b""), *live]
        status, out, note = fed(tools, ["pace", SCHEDULE[0], *CLOCK, f"stall={how}"], pieces)
        told, units = counts(note), units_of(out)
        tools.runs.judge(f"a stall, {how}", (status, told["stalls"] > 0, are_chained(units)), (0, True, True))
        shown = tools.program(["decode"], out)
        if how == "wait":
            tools.runs.judge("all of it, later", out == film.stream, True)
        elif how == "stuff":
            tools.runs.judge("with padding", (shown == film.shown, told["padding"] > 0, told["padding"] == len(out) - len(film.stream)), (True, True, True))
        else:
            numbers = [number_of(unit) for unit in units if unit[4] == 0xC8]
            tools.runs.judge("without the late pictures", (numbers[:5], told["dropped"] + len(numbers), told["dropped"] > 0), ([0, 1, 2, 3, 4], 26, True))
            kept = tools.run(["join", "lost=drop"], out)
            tools.runs.judge("and joined", kept[1] == b"".join(film.pictures[n] for n in numbers), True)


def holds(tools):
    film = Film(tools, 26, "group=13")
    words = ["hold", *SCHEDULE, *CLOCK]
    since = time.monotonic()
    status, out, note = tools.run([*words, "full=wait"], film.stream)
    told = counts(note)
    tools.runs.judge("a stream that is held", (status, out == film.stream, told["pictures"], told["slices"], told["over"]), (0, True, 26, 624, 0))
    tools.runs.judge("by its clock", time.monotonic() - since > 0.25, True)
    status, out, note = tools.run(words, film.stream)
    tools.runs.judge("a stream that comes too fast", (counts(note)["over"] > 0, out != film.stream), (True, True))
    behind = film.stream.index(b"BBCD\0", 100)
    tools.runs.judge("held from the next header on", tools.run([*words, "full=wait"], film.stream[500:])[1] == film.stream[behind:], True)
    tools.runs.judge("nothing held", tools.run(words)[:2], (1, b""))
    tools.runs.judge("nothing to hold", tools.run(words, film.raw)[:2], (1, b""))
    for end in (b"BBCD", bytes(30), film.stream[film.unit(4) : film.unit(4) + 15], film.stream[film.unit(4) : film.unit(4) + 900]):
        cut = film.stream[: film.unit(4)] + end
        tools.runs.judge(f"held up to an end of {len(end)} bytes", tools.run([*words, "full=wait"], cut)[:2], (0, cut))
    lossy = film.without(film.unit(3) + 400, 200)
    status, out, note = tools.run([*words, "full=wait"], lossy)
    tools.runs.judge("held with a loss", (status, out == lossy, counts(note)["cut"]), (0, True, 1))
    # slices are handed on as they come here, and the head that comes too soon comes in parts
    pieces = [(0, lossy[: film.unit(3)]), *((0.0002, lossy[at : at + 7]) for at in range(film.unit(3), film.unit(4), 7)), (0, lossy[film.unit(4) :])]
    status, out, note = fed(tools, ["hold", *SCHEDULE, "slots=240000", "packet=200", "full=wait"], pieces)
    tools.runs.judge("held as it comes, with a loss", (status, out == b"".join(it for _, it in pieces), counts(note)["cut"]), (0, True, 1))
    late = [(0, film.stream[: film.unit(5)]), (0.3, film.stream[film.unit(5) :])]
    status, out, note = fed(tools, [*words, "full=wait"], late)
    told = counts(note)
    tools.runs.judge("held, and late", (status, out == film.stream, told["late"] + told["anew"] > 0), (0, True, True))
    for more in ([], SCHEDULE, [*SCHEDULE, "slots=0"], [*SCHEDULE, "slots=1", "full=up"], [*SCHEDULE, "slots=1", "buffer"]):
        tools.runs.judge(f"hold {' '.join(more)}", tools.run(["hold", *more], film.stream)[:2], (2, b""))


def stuffs(tools):
    """A channel that carries more: the padded stream has the same pictures, and the schedule that is told is the least one."""
    film = Film(tools, 13, "group=5")
    for rate, idle in (("1600/24", 0), ("2000/24", 0), ("3001/47", 0), ("66/1", 0), ("1700/29", 5)):
        words = [f"rate={rate}", *([f"idle={idle}"] if idle else [])]
        status, out, note = tools.run(["stuff", *words], film.stream)
        told = dict(word.split("=") for word in note.decode().split())
        tools.runs.judge(f"stuffed to {rate}", (status, tools.program(["decode"], out) == film.shown, are_chained(units_of(out))), (0, True, True))
        for by, wanted in (((0, 0), 0), ((-1, 0), 1), ((0, -1), 1)):
            asked = [f"rate={rate}", f"delay={int(told['delay']) + by[0]}", f"buffer={int(told['buffer']) + by[1]}", *words[1:]]
            tools.runs.judge(f"its schedule by {by}", tools.run_program(["check", *asked], out).returncode, wanted)
    again = tools.run(["stuff", "rate=1700/24"], tools.run(["stuff", "rate=1600/24"], film.stream)[1])[1]
    tools.runs.judge("stuffed anew", again == tools.run(["stuff", "rate=1700/24"], film.stream)[1], True)
    status, out, _ = tools.run(["stuff", "rate=2000/24"], film.stream)
    paced = tools.run(["pace", "rate=2000/24", *CLOCK], out)[1]
    tools.runs.judge("paced with its padding", paced == out, True)
    held = tools.run(["hold", "rate=2000/24", "delay=2", "buffer=700", *CLOCK, "full=wait"], out)
    tools.runs.judge("held without it", (held[1] == film.stream, counts(held[2])["padding"] == len(out) - len(film.stream)), (True, True))
    tools.refuses("stuffing of no stream", ["stuff", "rate=1/1"], film.raw, 1, b"no whole unit")
    tools.runs.judge("stuff tells its usage", tools.run(["stuff"])[0], 2)


def whole_chains(tools):
    """encode, pace, hold, join: all pictures with nothing lost, and all but those that were."""
    film = Film(tools, 50, "group=10")
    for more, most in (([], 0), (["jitter=5"], 0), (["loss=1/100"], 25)):
        sent = subprocess.Popen([os.path.join(TOP, "tools", "pace"), SCHEDULE[0], *CLOCK, *more], stdin=subprocess.PIPE, stdout=subprocess.PIPE, stderr=subprocess.PIPE)
        # the clocks of a busy machine may be far behind
        words = [os.path.join(TOP, "tools", "hold"), *SCHEDULE, *CLOCK, "jitter=200", "full=wait"]
        held = subprocess.Popen(words, stdin=sent.stdout, stdout=subprocess.PIPE, stderr=subprocess.PIPE)
        sent.stdout.close()
        joined = subprocess.Popen([os.path.join(TOP, "tools", "join"), "lost=drop"], stdin=held.stdout, stdout=subprocess.PIPE, stderr=subprocess.PIPE, env=tools.environment)
        held.stdout.close()
        sent.stdin.write(film.stream)
        sent.stdin.close()
        out, note = joined.communicate()
        lost = {int(line.split()[1]) for line in note.splitlines() if line.startswith(b"picture ")}
        wanted = b"".join(it for n, it in enumerate(film.pictures) if n not in lost)
        tools.runs.judge(f"a chain with {more}", (out == wanted, len(lost) <= most, bool(lost) == bool(most)), (True, True, True))
        for run in (sent, held):
            run.stderr.close()
            run.wait()


def links(tools):
    for part in (whole_streams, losses, late, lost_fields, drawn_losses, prompt, stuffs):
        part(tools)
    if shutil.which(os.environ.get("CC", "cc")):
        for part in (paces, stalls, holds, whole_chains):
            part(tools)
    else:
        print("a C compiler is missing: pace and hold were not tried")
