"""Checks of the scripts that stand beside a program, for tools/program_check: what they write, say and end with."""
import os
import re
import shutil
import subprocess
import tempfile

from link_checks import links
from quality import decibels, squares

TOP = os.path.dirname(os.path.dirname(os.path.abspath(__file__)))
SECONDS = 60
CODING = "wavelet=legall depth=2 slices=6x4 bytes=64/1 matrix=4,2,2,0,4,4,2".split()
FIELDS = ["size=48x64", "sampling=422", "fps=25/1", "signal=3", "fields=yes", *CODING]
LINE = b"YUV4MPEG2 W48 H32 F25:1 Ip A0:0 C422p10 XCOLORRANGE=LIMITED\n"
FORMATS = [f"yuv{sampling}p{depth}" for sampling in (420, 422, 444) for depth in ("", "10le", "12le")]

# a small repository for tools/definitions: names that variables and fields hide, a word between its arguments, a constructor, an alias
SMALL = {
    "crates.txt": "low:\nvc2_cli: low # the program\n",
    "crates/low/specs/Low.antt": """-- Numbers (SMPTE ST 2042-1:2017, 13.4: low).
use Rattle.std.specs.Prelude.{ℕ, ◌+◌}

-- once more
abbrev pub twice : ℕ → ℕ
twice n = n + n

-- hidden by variables and by a field
abbrev pub hidden : ℕ → ℕ
hidden n = n

infix 4 ◌and◌
-- a word between (A.2)
abbrev pub ◌and◌ : ℕ → ℕ → ℕ
-- of any two
a and b = twice a + local b
  where
    local : ℕ → ℕ
    local hidden = hidden

-- of two kinds
pub data Kind : Type 0 where
  one : Kind
  two : (hidden : ℕ) → Kind
""",
    "crates/vc2_cli/specs/Program.antt": """use Rattle.std.specs.Prelude.{◌≡◌, ℕ}
use Rattle.low.specs.Low.{◌and◌, hidden, one as first}
use Rattle.low.specs.declared.Size.{Size}

-- not used
abbrev pub unused : ℕ → ℕ
unused n = n

-- all of it
pub record ProgramRan (size : Size) (told : ℕ) : Type 0 where
  pub kind : (λ unused. unused) first ≡ first
  pub hidden : told and told ≡ size.w
  pub same : hidden ≡ hidden
""",
}


class Tools:
    """Runs of the scripts over one program, judged by its runs."""

    def __init__(self, runs):
        self.runs, self.environment = runs, {**os.environ, "VC2": runs.program}

    def run(self, words, source=b"", stdout=subprocess.PIPE):
        """(status, output, note) of a script."""
        words = [os.path.join(TOP, "tools", words[0]), *words[1:]]
        started = subprocess.Popen(words, stdin=subprocess.PIPE, stdout=stdout, stderr=subprocess.PIPE, env=self.environment)
        try:
            out, note = started.communicate(source, timeout=SECONDS)
        except subprocess.TimeoutExpired:
            started.kill()
            out, note = started.communicate()
            return "late", out, note
        return started.returncode, out, note

    def case(self, name, words, source, wanted):
        self.runs.judge(name, self.run(words, source), wanted)

    def refuses(self, name, words, source, status, why):
        """A script ends with this status, and with one line that says why."""
        found, _, note = self.run(words, source)
        self.runs.judge(name, (found, note.count(b"\n"), why in note), (status, 1, True))

    def program(self, words, source=b""):
        return self.run_program(words, source).stdout

    def run_program(self, words, source=b""):
        return subprocess.run([self.runs.program, *words], input=source, capture_output=True)


def example(name):
    with open(os.path.join(TOP, "examples", name), "rb") as file:
        return file.read()


def film(line, raw, count):
    """A film of raw video, with so many frames."""
    size = len(raw) // count
    return line + b"".join(b"FRAME\n" + raw[at : at + size] for at in range(0, len(raw), size))


def films(tools):
    """y4m to a stream and back, as frames and as fields."""
    raw, stream = example("pair_422.yuv"), example("pair_422.vc2")
    source, schedule = film(LINE, raw, 2), b"rate=1561/24 delay=2 buffer=130\n"
    tools.case("a film to a stream", ["y4m", "encode", *CODING], source, (0, stream, schedule))
    tools.case("a frame with words of its own", ["y4m", "encode", *CODING], source.replace(b"FRAME\n", b"FRAME Ip\n"), (0, stream, schedule))
    shown = film(LINE, tools.program(["decode"], stream), 2)
    tools.case("a stream to a film", ["y4m", "decode"], stream, (0, shown, b"pictures 2 bytes 3155\n"))
    for order in ("top", "bottom"):
        tall = LINE.replace(b"H32", b"H64").replace(b"Ip", b"I" + order[:1].encode())
        words = ["size=48x64", "sampling=422", "signal=3", f"order={order}"]
        frame = tools.program(["weave", *words], raw)
        status, stream, _ = tools.run(["y4m", "encode", *CODING], film(tall, frame, 1))
        wanted = tools.program(["encode", *words[:3], "fps=25/1", "fields=yes", "scan=1", *CODING], raw)
        tools.runs.judge(f"a film of fields, {order} first", (status, stream), (0, wanted))
        frames = film(tall, tools.program(["frames", f"order={order}"], stream), 1)
        tools.case(f"a stream of fields, {order} first", ["y4m", "decode", f"order={order}"], stream, (0, frames, b"frames 1 bytes %d\n" % len(stream)))
        tools.refuses("a stream of fields without an order", ["y4m", "decode"], stream, 1, b"order=top or order=bottom")


def films_watched(tools):
    """What is told of a film while it is encoded, and that the stream is the same."""
    raw, signal = example("pair_422.yuv"), "size=48x64 sampling=422 signal=3".split()
    frame = tools.program(["weave", *signal, "order=top"], raw)
    lines = (LINE, raw, 2), (LINE.replace(b"H32", b"H64").replace(b"Ip", b"It"), 3 * frame, 3)
    with tempfile.TemporaryDirectory() as folder:
        for line, video, count in lines:
            source, stats, words = film(line, video, count), os.path.join(folder, "stats"), ["y4m", "encode", *CODING]
            wanted = tools.run(words, source)
            status, stream, note = tools.run([*words, "progress=yes", f"stats={stats}"], source)
            tools.runs.judge(f"a film of {count} that is watched", (status, stream), wanted[:2])
            last = note.replace(b"\r", b"\n").splitlines()[-1].split()
            tools.runs.judge("how far it is", (last[:2], last[2], last[4], len(last)), ([b"pictures", b"%d" % count], b"seconds", b"Mbit/s", 8))
            with open(stats, encoding="utf-8") as file:
                told = [row.split() for row in file]
            shown = tools.program(["frames", "order=top"], stream)
            near = [decibels(squares(one, other, 2), len(one) // 2, 10) for one, other in zip(parts(video, count), parts(shown, count))]
            tools.runs.judge("a line a frame", [(row[1], row[3], row[-1]) for row in told], [(str(n), str(1561 * len(video) // count // 6144), f"{it:.2f}") for n, it in enumerate(near)])
        with open("/dev/full", "wb") as full:
            tools.runs.judge("watched into a full disk", tools.run([*words, "progress=yes"], source, full)[0], 4)
    source = film(LINE, raw, 2)
    tools.refuses("a film that is refused while it is watched", [*words, "progress=yes", "x=1"], source, 2, b"usage: UnknownKey word 6")
    tools.refuses("a progress of neither kind", [*words, "progress=maybe"], source, 2, b"neither yes nor no")


def parts(raw, count):
    size = len(raw) // count
    return [raw[at : at + size] for at in range(0, len(raw), size)]


def films_contradicted(tools):
    """Words beside the film's own."""
    source, encode = film(LINE, example("pair_422.yuv"), 2), ["y4m", "encode", *CODING]
    for word in ("size=48x30", "sampling=420", "fields=yes"):
        tools.refuses(f"a given {word}", [*encode, word], source, 2, b"isn't the film's, which has " + word.partition("=")[0].encode())
    status, _, note = tools.run([*encode, "fps=50/2"], source)
    tools.runs.judge("the film's rate in other words", (status, note.count(b"\n")), (0, 1))
    status, _, note = tools.run([*encode, "fps=30/1"], source)
    tools.runs.judge("another rate than the film's", (status, b"fps=30/1 is given, and the film has 25/1" in note), (0, True))
    status, _, note = tools.run([*encode, "signal=0,1023,512,1023"], source)
    tools.runs.judge("another signal than the film's", (status, b"is given, and the film has 3" in note), (0, True))


def films_refused(tools):
    raw, stream = example("pair_422.yuv"), example("pair_422.vc2")
    source, encode = film(LINE, raw, 2), ["y4m", "encode", *CODING]
    tools.refuses("a signal of one byte for two", [*encode, "signal=1"], source, 2, b"haven't the size")
    status, stream_full, _ = tools.run([*encode, "signal=0,1023,512,1023"], source)
    full = tools.program(["header"], stream_full)
    tools.runs.judge("a given signal", (status, b"signal 0,1023,512,1023 depth 10 10" in full), (0, True))
    tools.refuses("a word that is none", [*encode, "x=1"], source, 2, b"usage: UnknownKey word 6")
    tools.refuses("a raw film", encode, raw, 1, b"isn't y4m")
    tools.refuses("no film", encode, b"", 1, b"isn't y4m")
    tools.refuses("a film without a rate", encode, b"YUV4MPEG2 W2 H2\n", 1, b"width, height and rate")
    for kind in (b"mono", b"411", b"444alpha", b"422p11"):
        tools.refuses(f"a film of {kind.decode()}", encode, LINE.replace(b"422p10", kind), 1, b"isn't taken")
    tools.refuses("an odd film", encode, LINE.replace(b"W48", b"W47"), 1, b"doesn't go into 422")
    tools.refuses("a film of mixed fields", encode, LINE.replace(b"Ip", b"Im"), 1, b"no order")
    tools.refuses("a film that is too large", encode, LINE.replace(b"W48 H32", b"W99998 H99998") + b"FRAME\n", 2, b"usage: SettingsRefused Size")
    status, _, note = tools.run(encode, source.replace(b"FRAME", b"FRUME"))
    tools.runs.judge("a frame without its word", (status, b"begin with FRAME" in note), (1, True))
    tools.refuses("a film cut short", encode, source[:-1], 1, b"refused at 12287: RawTruncated")
    tools.refuses("a stream cut short", ["y4m", "decode"], stream[:-5], 1, b"refused at 3147: Truncated")
    tools.refuses("a stream that is none", ["y4m", "decode"], raw, 1, b"refused at 0: BadPrefix")
    other = tools.run(["y4m", "decode"], stream + example("frames_422.vc2"))
    wanted = film(LINE, tools.program(["decode"], stream), 2), True
    tools.runs.judge("a later sequence with another header", (other[0], other[1], b"another header" in other[2]), (1, *wanted))
    same = tools.run(["y4m", "decode"], 2 * stream)
    tools.runs.judge("a later sequence with the same one", (same[0], len(same[1])), (0, 2 * len(wanted[0]) - len(LINE)))
    untold = stream[:5] + bytes(4) + stream[9:]
    tools.refuses("a unit without its length", ["y4m", "decode"], untold, 1, b"doesn't tell its length")
    elevens = tools.program(["encode", "size=1x1", "sampling=444", "fps=25/1", "signal=0,2047,1024,2047", "wavelet=haar-flat", "depth=0", "slices=1x1", "bytes=1/1", "matrix=0"])
    tools.refuses("samples of 11 bits", ["y4m", "decode"], elevens, 1, b"no samples of 11 bits")
    for words in (["y4m"], ["y4m", "play"], ["y4m", "decode", "order=up"]):
        status, _, note = tools.run(words)
        tools.runs.judge(f"{' '.join(words)} tells its usage", (status, b"usage: tools/y4m" in note), (2, True))
    with open("/dev/full", "wb") as full:
        for words, given in ((encode, source), (["y4m", "decode"], stream)):
            tools.runs.judge(f"y4m {words[1]} into a full disk", tools.run(words, given, full)[0], 4)


def films_by_ffmpeg(tools):
    """Films of each sampling and depth there and back: their samples are those of `decode` over the raw video of ffmpeg."""
    made = "ffmpeg -nostdin -v error -f lavfi -i testsrc2=size=96x64:rate=25 -frames:v 2 -strict -1 -pix_fmt".split()
    raw_of = "ffmpeg -nostdin -v error -f yuv4mpegpipe -i - -f rawvideo -".split()
    coding = [word.replace("64/1", "160/1") for word in CODING]
    for kind in FORMATS:
        source = subprocess.run([*made, kind, "-f", "yuv4mpegpipe", "-"], capture_output=True, check=True).stdout
        raw = subprocess.run([*made, kind, "-f", "rawvideo", "-"], capture_output=True, check=True).stdout
        _, stream, _ = tools.run(["y4m", "encode", *coding], source)
        words = {"": "2", "10le": "3", "12le": "4"}[kind[7:]]
        plain = tools.program(["encode", "size=96x64", f"sampling={kind[3:6]}", "fps=25/1", f"signal={words}", *coding], raw)
        shown = subprocess.run(raw_of, input=tools.run(["y4m", "decode"], stream)[1], capture_output=True, check=True).stdout
        tools.runs.judge(f"{kind} by ffmpeg", (stream == plain, shown == tools.program(["decode"], stream), len(shown)), (True, True, len(raw)))
    spelled(tools)


def spelled(tools):
    """A stream that is spelled anew for ffmpeg has the same samples, there and by the program."""
    stream, script = example("pair_422.vc2"), ["for_ffmpeg.py"]
    read = "ffmpeg -nostdin -v error -threads 1 -f dirac -i - -fps_mode passthrough -f rawvideo -".split()
    wanted, (status, anew, _) = tools.program(["decode"], stream), tools.run(script, stream)
    shown = subprocess.run(read, input=anew, capture_output=True).stdout
    tools.runs.judge("a stream spelled for ffmpeg", (status, shown == wanted, tools.program(["decode"], anew) == wanted), (0, True, True))
    tools.refuses("two sequences spelled for ffmpeg", script, 2 * stream, 1, b"more than one sequence header")
    tools.refuses("fields spelled for ffmpeg", script, tools.program(["encode", *FIELDS], example("pair_422.yuv")), 1, b"are fields")
    tools.refuses("no stream spelled for ffmpeg", script, b"", 1, b"refused at 0: Truncated")


def plans(tools):
    words = ["link_plan", "48x32", "422", "10", "25/1", "0.5", "depth=2", "slices=6x4"]
    status, out, _ = tools.run(words)
    lines = out.decode().splitlines()
    schedule = "rate=2468/24 delay=2 buffer=205"
    tools.runs.judge("a plan", (status, len(lines), lines[2:3]), (0, 10, [f"schedule {schedule}"]))
    tools.runs.judge("the words of pace and hold", lines[6:8], ["pace rate=2468/24 slots=600 packet=1316 start=20", f"hold {schedule} slots=600 packet=1316 jitter=5"])
    made = tools.program(["trial", *lines[0].split(), "seed=1", "pictures=3"]).decode().splitlines()
    tools.runs.judge("the words of a plan", made[2:3], [schedule])
    tools.runs.judge("a plan's matrices", ["matrix=4,2,2,0,4,4,2" in tools.run([*words, "matrix=4,2,2,0,4,4,2"])[1].decode(), "matrix=8,4,4,0,4,4,0" in tools.run([*words, "wavelet=haar-shift"])[1].decode()], [True, True])
    tools.refuses("a plan for too slow a channel", [*words[:5], "0.001"], b"", 1, b"less than a byte")
    tools.refuses("a plan by a rate of 0", [*words[:4], "25/0", "1"], b"", 1, b"25/0 isn't")
    for word in ("x=1", "group=0", "fields=maybe", "packet=0", "jitter=-1"):
        tools.refuses(f"a plan by {word}", [*words, word], b"", 1, word.encode() + b" isn't")
    tools.refuses("a plan that vc2 refuses", [*words[:1], "47x32", *words[2:]], b"", 2, b"usage: SettingsRefused Divide")
    tools.refuses("a plan of half frames", [*words, "fields=yes", "group=3"], b"", 2, b"usage: SettingsRefused GroupOdd")
    tools.runs.judge("no plan without words", tools.run(words[:3])[0], 1)


def plans_kept(tools):
    """Plans of groups and of fields: `y4m encode` takes the line, the stream isn't above the channel, and the schedule runs, the least one."""
    raw = example("pair_422.yuv")
    for name, more, tall in (("groups", ["group=4"], LINE), ("fields", ["fields=yes"], LINE.replace(b"Ip", b"It")), ("groups of fields", ["fields=yes", "group=6", "idle=5"], LINE.replace(b"Ip", b"It"))):
        status, out, _ = tools.run(["link_plan", "48x32", "422", "10", "25/1", "0.5", "depth=2", "slices=6x4", *more])
        lines = out.decode().splitlines()
        frames, schedule = 18, lines[2].split()[1:]
        status, stream, note = tools.run(["y4m", "encode", *lines[0].split()], film(tall, raw * (frames // 2), frames))
        tools.runs.judge(f"a film by a plan of {name}", (status, len(stream) * 8 * 25 <= 500000 * frames), (0, True))
        rate, delay, buffer = (int(word.split("=")[1]) if "/" not in word else word.split("=")[1] for word in schedule[:3])
        for by, wanted in (((0, 0), 0), ((-1, 0), 1), ((0, -1), 1)):
            found = tools.run_program(["check", f"rate={rate}", f"delay={delay + by[0]}", f"buffer={buffer + by[1]}", *schedule[3:]], stream)
            tools.runs.judge(f"the schedule of {name}, {by}", found.returncode, wanted)
    interlaced = film(LINE.replace(b"Ip", b"It"), raw, 2)
    line = tools.run(["link_plan", "48x32", "422", "10", "25/1", "0.5", "depth=2", "slices=6x4"])[1].decode().splitlines()[0].split()
    tools.refuses("an interlaced film that is planned as frames", ["y4m", "encode", *line], interlaced, 2, b"fields=no isn't the film's, which has fields=yes")
    status, _, note = tools.run(["y4m", "encode", *CODING], interlaced)
    tools.runs.judge("an interlaced film without a plan", (status, b"two fields are encoded for each of its 25/1 frames a second" in note), (0, True))


def plans_of_films(tools):
    """A plan that tries a film takes what came nearest, and no film but the one that is planned."""
    with tempfile.TemporaryDirectory() as folder:
        name, words = os.path.join(folder, "film.y4m"), ["link_plan", "48x32", "422", "10", "25/1", "0.5", "slices=6x4"]
        with open(name, "wb") as file:
            file.write(film(LINE, example("pair_422.yuv"), 2))
        status, out, _ = tools.run([*words, f"film={name}"])
        lines = out.decode().splitlines()
        tried = [line.split() for line in lines if line.startswith("film ")]
        best = max(tried, key=lambda it: float(it[1]))
        taken = lines[0].split()
        tools.runs.judge("a film that is tried", (status, len(tried) > 20, {best[3], best[4], best[7]} <= set(taken)), (0, True, True))
        lines = tools.run([*words, f"film={name}", "wavelet=haar-flat", "depth=1"])[1].decode().splitlines()
        tools.runs.judge("a film that is tried with given words", [line.split()[3:5] for line in lines if line.startswith("film ")], [["wavelet=haar-flat", "depth=1"]] * 2)
        tools.refuses("another film than is planned", [*words[:4], "30/1", *words[5:], f"film={name}"], b"", 1, b"isn't the film that is planned: it has fps=25/1")
        tools.refuses("frames that are planned as fields", [*words, "fields=yes", f"film={name}"], b"", 1, b"it has fields=no")
        tools.refuses("a film that isn't there", [*words, f"film={name}s"], b"", 1, b"No such file")


def pictures(tools):
    with tempfile.TemporaryDirectory() as folder:
        stream, drawn = os.path.join(TOP, "examples", "pair_422.vc2"), os.path.join(folder, "drawn")
        lines = b"0 slices 24 at 0 16 middle 0 most 19\n1 slices 24 at 0 15 middle 0 most 19\n"
        tools.case("indices", ["index_picture", stream], b"", (0, lines, b""))
        tools.case("a picture of indices", ["index_picture", stream, "1", drawn], b"", (0, lines, b""))
        with open(drawn, "rb") as file:
            tools.runs.judge("its size", file.read(24)[1:], b"PNG\r\n\x1a\n\0\0\0\rIHDR" + bytes([0, 0, 0, 48, 0, 0, 0, 32]))
        tools.refuses("a picture that isn't there", ["index_picture", stream, "2", drawn], b"", 1, b"no picture 2")
        tools.refuses("indices of no stream", ["index_picture", stream.replace("vc2", "yuv")], b"", 1, b"refused at 0: BadPrefix")
        tools.refuses("indices of no file", ["index_picture", drawn + "s"], b"", 1, b"No such file")
        tools.case("frames", ["frames_picture.py", "48x32", "422", "10", drawn], tools.program(["decode"], example("pair_422.vc2")), (0, b"", b""))
        with open(drawn, "rb") as one, open(os.path.join(TOP, "docs", "pair.png"), "rb") as other:
            tools.runs.judge("the picture of README.md", one.read() == other.read(), True)
        tools.refuses("half a frame", ["frames_picture.py", "48x32", "422", "10", drawn], b"B", 1, b"aren't whole pictures")
        for name, words in (("schedule.svg", ["1561/24"]), ("schedule_idle.svg", ["1561/30", drawn, "6"])):
            status, out, note = tools.run(["schedule_picture.py", stream, "64/1", *words])
            with open(os.path.join(TOP, "docs", name), "rb") as wanted, open(drawn, "rb") as written:
                tools.runs.judge(f"docs/{name}", (status, (out or written.read()) == wanted.read(), note), (0, True, b""))
        tools.refuses("a schedule of no stream", ["schedule_picture.py", stream.replace("vc2", "yuv"), "64/1", "1561/24"], b"", 1, b"refused at 0: BadPrefix")
        for name in ("index_picture", "frames_picture.py", "schedule_picture.py"):
            status, _, note = tools.run([name])
            tools.runs.judge(f"{name} tells its usage", (status, b"usage: tools/" + name.encode() in note), (1, True))


def names_of(page):
    """The definitions of a page, in their order."""
    return [kind or name for kind, name in re.findall(r"(?m)^(?:abbrev |unfoldable )?(?:pub )?(?:(?:record|data) (\S+)|(\S+) : )", page.decode())]


def definitions(tools):
    """What the headline rests on, of this repository and of a small one."""
    pages = [tools.run(["definitions", *words])[1] for words in ([], ["--by-section"])]
    names, count = names_of(pages[0]), tools.run(["definitions", "--count"])[1]
    tools.runs.judge("as many definitions as are counted", count.split()[:2], [b"definitions", b"%d" % len(names)])
    tools.runs.judge("the headline stands last", names[-1], "ProgramRan")
    tools.runs.judge("each stands below one section", sorted(names_of(pages[1])), sorted(names))
    for words in (["--all"], ["--count", "--by-section"]):
        status, _, note = tools.run(["definitions", *words])
        tools.runs.judge("definitions tells its usage", (status, b"usage: tools/definitions" in note), (1, True))
    with tempfile.TemporaryDirectory() as top:
        for name, text in SMALL.items():
            os.makedirs(os.path.dirname(f"{top}/{name}"), exist_ok=True)
            with open(f"{top}/{name}", "w", encoding="utf-8") as file:
                file.write(text)
        os.mkdir(f"{top}/tools")
        for name in ("definitions", "crates.py"):
            shutil.copy2(f"{TOP}/tools/{name}", f"{top}/tools")
        small = [f"{top}/tools/definitions"]
        tools.case("few definitions", [*small, "--count"], b"", (0, b"definitions 4 lines 14 with comments 20 modules 2 crates 2\n", b""))
        tools.runs.judge("and no hidden one", names_of(tools.run(small)[1]), ["twice", "◌and◌", "Kind", "ProgramRan"])
        page = tools.run([*small, "--by-section"])[1].decode()
        tools.runs.judge("by their sections", re.findall(r"(?m)^## (.*)", page)[:3], ["13.4", "A.2", "What cites no section"])
        with open(f"{top}/crates/vc2_cli/specs/Program.antt", "w", encoding="utf-8") as file:
            file.write(SMALL["crates/vc2_cli/specs/Program.antt"].replace("size.w", "lost"))
        tools.refuses("a name that isn't there", small, b"", 1, b"vc2_cli/specs/Program: what ProgramRan names isn't found: lost")
        os.remove(f"{top}/crates/low/specs/Low.antt")
        tools.refuses("a module that isn't there", small, b"", 1, b"crates/low/specs/Low.antt: No such file")


def tools(runs):
    """All checks of the scripts; what needs ffmpeg is named where it is missing."""
    made = Tools(runs)
    for part in (films, films_watched, films_contradicted, films_refused, plans, plans_kept, plans_of_films, pictures, definitions, links):
        part(made)
    if shutil.which("ffmpeg"):
        films_by_ffmpeg(made)
    else:
        print("ffmpeg is missing: its films were not tried")
