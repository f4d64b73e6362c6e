"""What the tool writes and prints, against the second program."""

import fcntl
import os
import pty
import random
import re
import resource
import stat
import struct
import termios
from pathlib import Path

import depth
import rules
from common import NAMES, check, cleared, done, haze, hazed, hazy, light_of, pgm, ppm, printed, put, tool


def words_of(settings):
    return [f"{name}={value}" for name, value in zip(NAMES, settings)]


def depths_of(size, map):
    number, depths = depth.depths(*size, map, [0] * len(map))
    check(number == 0, "the second program refuses a map")
    return depths


def written(size, settings, words, light=None):
    frame = hazy(size, (size, settings))
    map, picture = cleared(size, frame, settings, light)
    put("in.ppm", ppm(size, frame))
    files = ("out.ppm", ppm(size, picture)), ("out.pgm", pgm(size, map)), ("depth.pgm", pgm(size, depths_of(size, map), 918))
    for command, file in zip(("clear", "map", "depth"), files):
        done([command, "in.ppm", file[0], *words], file)
    done(["clear", "in.ppm", "out.ppm", *words, "map=out.pgm", "depth=depth.pgm"], *files)
    if not light:
        printed(["light", "in.ppm", *words], "%d,%d,%d\n" % light_of(size, frame, settings))
    for given, word in ((light_of(size, picture), []), ((201, 202, 255), ["light=201,202,255"])):
        done(["add", "out.ppm", "out.pgm", "hazed.ppm", *word], ("hazed.ppm", ppm(size, hazed(size, picture, map, given))))
        for t in (0, 7000, 10000):
            done(["add", "out.ppm", "hazed.ppm", f"t={t}", *word], ("hazed.ppm", ppm(size, hazed(size, picture, [t] * len(map), given))))
    bands(size, map, words)
    done(["clear", "in.ppm", "in.ppm", *words], ("in.ppm", ppm(size, picture)))


def bands(size, map, words):
    for start, end in ((0, 1), (0, size[1]), (size[1] - 1, size[1]), (size[1] // 3, size[1] // 2 + 1)):
        mean, least = rules.band(size, map, start, end)[1]
        run = haze("band", "in.ppm", str(start), str(end), *words)
        check(run.returncode == 0 and run.stderr == "", run)
        check(re.fullmatch(r"mean \S+\nleast \S+\n", run.stdout), run)
        texts = run.stdout.split()[1::2]
        check([float(text) for text in texts] == [mean, least], run, mean, least)
        check([len(text.replace("0.", "", 1).lstrip("0")) <= len(repr(value).replace("0.", "", 1).lstrip("0")) for text, value in zip(texts, (mean, least))]
              == [True, True], "more digits than it takes:", texts)


def frames():
    # more than 2000 pixels, so that the usual share is more than one pixel
    written((60, 37), rules.DEFAULTS, [])
    written((21, 15), rules.DEFAULTS, words_of(rules.DEFAULTS))
    written((9, 30), (2, 5, 8000, 300, 2500, 40), words_of((2, 5, 8000, 300, 2500, 40))[::-1])
    written((9, 30), (7, 30, 9500, 59, 1000, 1), ["light=190,200,00000000000000000255"], (190, 200, 255))
    for place, value in enumerate((1, 4, 5000, 2000, 6000, 300)):
        settings = list(rules.DEFAULTS)
        settings[place] = value
        written((16, 12), tuple(settings), [f"{NAMES[place]}={value:020}"])
    written((1, 1), rules.DEFAULTS, [])
    # at the limit of pixels; radii of 0, since the second program sums each window anew
    written((512, 512), (0, 0, 9500, 59, 1000, 1), ["s=0", "r=0"])


def masks_of(size):
    """By name: a hood, a border, stripes, single pixels, by chance with any bytes; all hidden is for a light that is given."""
    W, H = size
    draw, places = random.Random(repr(size)), [(x, y) for y in range(H) for x in range(W)]
    yield "hood", [255 * (y < 2 * H // 3) for x, y in places]
    yield "border", [2 * (0 < x < W - 1 and 0 < y < H - 1) for x, y in places]
    yield "rows", [y % 3 % 2 for x, y in places]
    yield "columns", [128 * (x % 4 > 1) for x, y in places]
    yield "one", [(x, y) == (W // 2, H // 2) for x, y in places]
    yield "chance", [draw.choice((0, 0, 1, 2, 128, 255, draw.randrange(256))) for _ in places]


def under_mask(size, settings, words, frame, mask):
    """The five commands under a mask."""
    map, picture = cleared(size, frame, settings, None, mask)
    put("mask.pgm", pgm(size, mask, 255))
    words = [*words, "mask=mask.pgm"]
    files = ("out.ppm", ppm(size, picture)), ("out.pgm", pgm(size, map)), ("depth.pgm", pgm(size, depths_of(size, map), 918))
    for command, file in zip(("clear", "map", "depth"), files):
        done([command, "in.ppm", file[0], *words], file)
    done(["clear", "in.ppm", "out.ppm", *words[::-1], "map=out.pgm", "depth=depth.pgm"], *files)
    printed(["light", "in.ppm", *words], "%d,%d,%d\n" % light_of(size, frame, settings, mask))
    bands(size, map, words)
    check(all(map[i] == 10000 and picture[3 * i:3 * i + 3] == frame[3 * i:3 * i + 3] for i, m in enumerate(mask) if not m), "the second program does not copy")


def masks():
    for size, settings in (((21, 15), (2, 3, 9500, 59, 1000, 100)), ((40, 26), rules.DEFAULTS), ((1, 30), (1, 1, 9500, 59, 1000, 1))):
        frame = hazy(size, ("masks", size))
        put("in.ppm", ppm(size, frame))
        for name, mask in masks_of(size):
            if any(mask):
                under_mask(size, settings, words_of(settings), frame, mask)


def ends_of_masks():
    """All seen is as without a mask, by whatever bytes; under a mask that hides all the frame is copied, where the light is given; a mask has a header as any
    file, and may come by standard input."""
    size = (16, 12)
    frame = hazy(size, "ends")
    map, picture = cleared(size, frame)
    put("in.ppm", ppm(size, frame))
    for byte in (1, 2, 128, 255):
        put("mask.pgm", pgm(size, [byte] * 192, 255))
        done(["clear", "in.ppm", "out.ppm", "mask=mask.pgm", "map=out.pgm"], ("out.ppm", ppm(size, picture)), ("out.pgm", pgm(size, map)))
    put("mask.pgm", pgm(size, [0] * 192, 255))
    done(["clear", "in.ppm", "out.ppm", "mask=mask.pgm", "map=out.pgm", "depth=depth.pgm", "light=200,210,220"],
         ("out.ppm", ppm(size, frame)), ("out.pgm", pgm(size, [10000] * 192)), ("depth.pgm", pgm(size, [0] * 192, 918)))
    mask = [k % 5 for k in range(192)]
    picture = ppm(size, cleared(size, frame, mask=mask)[1])
    put("mask.pgm", b"P5#a hood\n16\t012 #\r255 " + bytes(mask))
    done(["clear", "in.ppm", "out.ppm", "mask=mask.pgm"], ("out.ppm", picture))
    run = haze("clear", "in.ppm", "-", "mask=-", text=False, input=pgm(size, mask, 255))
    check((run.returncode, run.stdout, run.stderr) == (0, picture, b""), run.returncode, run.stderr)
    run = haze("clear", "-", "-", "mask=mask.pgm", text=False, input=ppm(size, frame))
    check((run.returncode, run.stdout, run.stderr) == (0, picture, b""), run.returncode, run.stderr)


def one_mask_for_several():
    """With -o one mask is that of every frame, read once, by standard input too. A frame of another size fails alone."""
    size = (16, 12)
    mask = [k % 3 for k in range(192)]
    frames = {name: hazy(size, ("mask", name)) for name in ("e.ppm", "f.ppm")}
    for folder in ("masked", "sources"):
        Path(folder).mkdir()
    names = [put("sources/" + name, ppm(size, frame)) for name, frame in frames.items()]
    wanted = [("masked/" + name, ppm(size, cleared(size, frame, mask=mask)[1])) for name, frame in frames.items()]
    put("mask.pgm", pgm(size, mask, 255))
    done(["clear", "-o", "masked", *names, "mask=mask.pgm"], *wanted)
    for name, _ in wanted:
        Path(name).unlink()
    put("sources/other.ppm", ppm((12, 16), frames["e.ppm"]))
    run = haze("clear", "-o", "masked", names[0], "sources/other.ppm", names[1], "mask=-", text=False, input=pgm(size, mask, 255))
    check(run.returncode == 1 and run.stderr == b"haze: standard input: refused 4: the mask is 16 by 12, the frame sources/other.ppm is 12 by 16\n"
          b"haze: 1 of 3 frames failed\n", run)
    check(all(Path(name).read_bytes() == data for name, data in wanted) and not Path("masked/other.ppm").exists(), "the others under one mask")


def standard_files():
    """`-` is standard input and output, for each file word."""
    size, settings = (16, 12), (2, 3, 9500, 59, 1000, 1)
    frame = hazy(size, "standard")
    map, picture = cleared(size, frame, settings)
    put("in.ppm", ppm(size, frame))
    put("map.pgm", pgm(size, map))
    words = words_of(settings)
    for into in ("-", "in.ppm"):
        for given, wanted in (("clear", ppm(size, picture)), ("map", pgm(size, map)), ("depth", pgm(size, depths_of(size, map), 918))):
            run = haze(given, into, "-", *words, text=False, input=ppm(size, frame))
            check((run.returncode, run.stdout, run.stderr) == (0, wanted, b""), given, into, run.returncode, run.stderr)
    run = haze("clear", "-", "-", "map=m.pgm", *words, text=False, input=ppm(size, frame))
    check((run.returncode, run.stdout, run.stderr) == (0, ppm(size, picture), b""), run.returncode, run.stderr)
    check(Path("m.pgm").read_bytes() == pgm(size, map), "map= beside standard output")
    hazy_again = ppm(size, hazed(size, frame, map, (9, 8, 7)))
    for files, given in ((["-", "map.pgm"], ppm(size, frame)), (["in.ppm", "-"], pgm(size, map))):
        run = haze("add", *files, "-", "light=9,8,7", text=False, input=given)
        check((run.returncode, run.stdout, run.stderr) == (0, hazy_again, b""), files, run.returncode, run.stderr)
    run = haze("add", "-", "-", "t=5000", "light=9,8,7", text=False, input=ppm(size, frame))
    check((run.returncode, run.stdout, run.stderr) == (0, ppm(size, hazed(size, frame, [5000] * len(map), (9, 8, 7))), b""), run.returncode, run.stderr)
    run = haze("light", "-", "-v", *words, text=False, input=ppm(size, frame))
    check(run.stderr.startswith(b"haze: standard input: 16 by 12, light="), run)
    check(haze("light", "-", *words, text=False, input=ppm(size, frame)).stdout == b"%d,%d,%d\n" % light_of(size, frame, settings), "light of standard input")


def maps_of_others():
    """Other maxima, one byte or two a sample: raw numbers as they stand, scaled ones to the nearest."""
    size, clean = (16, 16), hazy((16, 16), "others")
    put("clean.ppm", ppm(size, clean))
    for maximum in (255, 256, 918, 9999, 10000, 16383, 65535, 1, 7, 32):     # 32: there are halves
        samples = [k * min(maximum, 10000) // 255 for k in range(256)]
        put("m.pgm", pgm(size, samples, maximum))
        done(["add", "clean.ppm", "m.pgm", "out.ppm", "light=250,251,252", "raw"], ("out.ppm", ppm(size, hazed(size, clean, samples, (250, 251, 252)))))
        samples = [k * maximum // 255 for k in range(256)]
        put("m.pgm", pgm(size, samples, maximum))
        entries = [(2 * sample * 10000 + maximum) // (2 * maximum) for sample in samples]
        done(["add", "clean.ppm", "m.pgm", "out.ppm", "light=250,251,252", "scaled"], ("out.ppm", ppm(size, hazed(size, clean, entries, (250, 251, 252)))))


def names_of_words():
    """Names that look like something else, as they can be written."""
    size = (4, 3)
    frame = hazy(size, "names")
    data, picture = ppm(size, frame), ppm(size, cleared(size, frame)[1])
    put("s=5", data)
    put("=x", data)
    put("-v", data)
    done(["clear", "=x", "out.ppm"], ("out.ppm", picture))
    put("raw", data)
    done(["clear", "./s=5", "./light=1,2,3"], ("light=1,2,3", picture))
    done(["clear", "--", "-v", "-x"], ("-x", picture))
    done(["clear", "raw", "scaled"], ("scaled", picture))
    done(["clear", "--", "raw", "--"], ("--", picture))
    for words in (["-v", "clear"], ["clear", "-v"]):
        check(haze(*words, "raw", "out.ppm").returncode == (words[0] == "-v"), words)


def spoken_line(light, comparisons, step):
    line = r"haze: in.ppm: 16 by 12, light=%s%s; read {0}, light {0}, %s {0}\n" % (light, comparisons, step)
    return line.format(r"\d+\.\d ms")


def spoken():
    """-v: the light, the comparisons and times on standard error, nothing else changed."""
    size = (16, 12)
    frame = hazy(size, "spoken")
    put("in.ppm", ppm(size, frame))
    light, comparisons = "%d,%d,%d" % light_of(size, frame), ", comparisons %d" % rules.budget(size, rules.DEFAULTS[0])
    for command, files, step in (("clear", ["out"], "clear {0}, write"), ("map", ["out"], "clear {0}, write"), ("depth", ["out"], "clear {0}, write"),
                                 ("light", [], "print"), ("band", ["0", "1"], "clear {0}, print"), ("add", ["out", "t=5000"], "add and write")):
        for words in (["-v", command, "in.ppm", *files][1:2] + ["-v", "in.ppm", *files], [command, "in.ppm", *files, "-v"]):
            run = haze(*words)
            check(run.returncode == 0 and re.fullmatch(spoken_line(light, comparisons, step), run.stderr), words, run)
    # with a light that is given, clearing alone takes comparisons; other radii, and none
    for words, comparisons, step in ((["clear", "in.ppm", "out", "light=9,8,7", "s=2"], ", comparisons %d" % rules.budget(size, 2), "clear {0}, write"),
                                     (["clear", "in.ppm", "out", "light=9,8,7", "s=0"], ", comparisons 0", "clear {0}, write"),
                                     (["add", "in.ppm", "out", "t=5000", "light=9,8,7"], "", "add and write")):
        run = haze(*words, "-v")
        check(run.returncode == 0 and re.fullmatch(spoken_line("9,8,7", comparisons, step), run.stderr), words, run)


def on_a_terminal(words, columns):
    """What is said on standard error when that is a terminal of so many columns."""
    leader, follower = pty.openpty()
    fcntl.ioctl(follower, termios.TIOCSWINSZ, struct.pack("HHHH", 24, columns, 0, 0))
    child = os.fork()
    if not child:
        os.dup2(follower, 2)
        os.execvp(tool[0], [*tool, *words])
    os.close(follower)
    said = b""
    try:
        while part := os.read(leader, 1000):
            said += part
    except OSError:     # the end, where the last one that has the terminal is gone
        pass
    os.close(leader)
    return os.waitpid(child, 0)[1], said.decode()


def several():
    size = (16, 12)
    frames = {name: hazy(size, name) for name in ("a.ppm", "b c.ppm", "-d.ppm")}
    Path("to").mkdir()
    Path("from").mkdir()
    for name, frame in frames.items():
        put("from/" + name, ppm(size, frame))
    wanted = [("to/" + name, ppm(size, cleared(size, frame)[1])) for name, frame in frames.items()]
    done(["clear", "-o", "to", *["from/" + name for name in frames]], *wanted)
    done(["clear", *["from/" + name for name in frames], "-o", "to/.", "light=200,210,220", "s=2"],
         *[("to/" + name, ppm(size, cleared(size, frame, (2, *rules.DEFAULTS[1:]), (200, 210, 220))[1])) for name, frame in frames.items()])
    put("from/bad.ppm", b"P6 4 3 255 ")
    names = ["from/a.ppm", "from/b c.ppm", "from/bad.ppm", "from/-d.ppm"]
    for columns in (0, 80, 15):
        lines = [f"{k + 1} of 4: {name}"[:(columns or 80) - 1] for k, name in enumerate(names)]
        error = haze("clear", "-o", "to", "from/bad.ppm").stderr.splitlines()[0] + "\r\n"
        wiped = ["\r" + " " * len(line) + "\r" for line in lines]
        shown = lines[0] + wiped[0] + lines[1] + wiped[1] + lines[2] + wiped[2] + error + lines[3] + wiped[3] + "haze: 1 of 4 frames failed\r\n"
        status, said = on_a_terminal(["clear", "-o", "to", *names], columns)
        check(status == 256 and said == shown, columns, repr(said), repr(shown))
    status, said = on_a_terminal(["clear", "-o", "to", "from/a.ppm", "none/" + "ü" * 9], 20)
    check(status == 256 and "2 of 2: none/" + "ü" * 3 + "\r" in said, repr(said))
    # one that fails does not keep the others
    for name, data in wanted:
        Path(name).unlink()
    run = haze("clear", "-o", "to", "from/a.ppm", "from/bad.ppm", "none", "from/b c.ppm", "from/-d.ppm")
    check(run.returncode == 1 and run.stderr.count("\n") == 3 and run.stderr.endswith("haze: 2 of 5 frames failed\n"), run)
    check(all(Path(name).read_bytes() == data for name, data in wanted) and not Path("to/bad.ppm").exists(), "the others of a run")


def very_many():
    """More frames than files can be open at once."""
    os.mkdir("many")
    os.mkdir("into")
    names = [put(f"many/{k}.ppm", ppm((1, 1), [k, 7, 9])) for k in range(50)]
    done(["clear", "-o", "into", *names], preexec_fn=lambda: resource.setrlimit(resource.RLIMIT_NOFILE, (16, 16)))
    check(len(os.listdir("into")) == 50, "frames are missing")


def same_names():
    """Files of one name in different folders are different files."""
    size = (4, 3)
    frame = hazy(size, "same")
    map, picture = cleared(size, frame)
    for folder in ("one", "two"):
        os.mkdir(folder)
    put("in.ppm", ppm(size, frame))
    done(["clear", "in.ppm", "one/x", "map=two/x", "depth=x"], ("one/x", ppm(size, picture)), ("two/x", pgm(size, map)), ("x", pgm(size, depths_of(size, map), 918)))


def kept_modes():
    """The mode of the old file, and of a new one that of the system."""
    put("in.ppm", ppm((4, 3), hazy((4, 3), 0)))
    mask = os.umask(0)
    os.umask(mask)
    for mode in (0o600, 0o444, 0o664, 0o755, 0o1640):
        put("old.ppm", b"")
        os.chmod("old.ppm", mode)
        done(["clear", "in.ppm", "old.ppm", "map=new.pgm"])
        check(stat.S_IMODE(os.stat("old.ppm").st_mode) == mode, "the mode of the old file is", oct(os.stat("old.ppm").st_mode))
        check(stat.S_IMODE(os.stat("new.pgm").st_mode) == 0o666 & ~mask, "the mode of a new file is", oct(os.stat("new.pgm").st_mode))
        Path("new.pgm").unlink()


ALL = (frames, masks, ends_of_masks, one_mask_for_several, standard_files, maps_of_others, names_of_words, spoken, several, very_many, same_names, kept_modes)
