"""Holds reader and writer to two programs of others, Netpbm and ImageMagick.

They write PPM files of pixels that they are given raw, and the library's reader must answer those pixels; masks that they write must hide what they should.
The tool's frames and maps must give them, by their own readers, the bytes behind our header. And where the tool refuses a file and names a
command that helps, that command must help.
Where the two are missing they are installed, if apt-get can do that; if not, the test is skipped.
"""

import os
import random
import re
import shutil
import struct
import subprocess
import sys
import tempfile
from pathlib import Path

ROOT = Path(__file__).resolve().parent.parent
PACKAGES = ("netpbm", "imagemagick", "python3-numpy", "python3-pil")      # the last two for docs/FILES.md
VERSIONS = {"Netpbm": (["pamtopnm", "--version"], r"Netpbm ([0-9][0-9.]*)"), "ImageMagick": (["convert", "-version"], r"Version: ImageMagick ([0-9][^ ]*)")}
counts = {"read": 0, "refused": 0, "helped": 0, "written": 0}


def check(true, kind, *what):
    """Counts one more of a kind, or ends the test."""
    if not true:
        print("outside: DIFFERS:", *what)
        sys.exit(1)
    counts[kind] += 1


# ---------------------------------------------------------------------------
# The other programs
# ---------------------------------------------------------------------------

def version(words, pattern):
    """None where the program is missing, or is another than the one that is meant."""
    if not shutil.which(words[0]):
        return None
    said = subprocess.run(words, stdout=subprocess.PIPE, stderr=subprocess.STDOUT, text=True).stdout
    found = re.search(pattern, said)
    return found and found[1]


def versions():
    return {name: version(*how) for name, how in VERSIONS.items()}


def install():
    """With apt-get, by root, in silence; whether it worked is seen by the versions."""
    if os.geteuid() != 0 or not shutil.which("apt-get"):
        return
    for words in (["update"], ["install", "-y", "--no-install-recommends", *PACKAGES]):
        try:
            subprocess.run(["apt-get", "-q", *words], stdin=subprocess.DEVNULL, stdout=subprocess.DEVNULL, stderr=subprocess.DEVNULL, timeout=300,
                           env={**os.environ, "DEBIAN_FRONTEND": "noninteractive"})
        except subprocess.TimeoutExpired:
            return


def through(data, *commands):
    """The data through a line of commands, each given as one text or a list of words."""
    for command in commands:
        words = command.split() if isinstance(command, str) else command
        run = subprocess.run(words, input=data, capture_output=True)
        if run.returncode:
            sys.exit("outside: %s ends with %d: %s" % (words, run.returncode, run.stderr.decode()))
        data = run.stdout
    return data


# ---------------------------------------------------------------------------
# The library's reader, by host/calls.c
# ---------------------------------------------------------------------------

def read(file, size):
    """Answer, size and frame, the lent frame being of the size's length."""
    lent = bytes(3 * size[0] * size[1])
    reply = through(b"r" + struct.pack("<QQ", len(file), len(lent)) + file + lent, [ROOT / "host/run", "calls"])
    return reply[0], struct.unpack("<QQ", reply[1:17]), reply[17:]


def taken(file, size, raw, commented, *what):
    answer, places, frame = read(file, size)
    check((answer, places, frame) == (0, size, raw), "read", *what, "is answered", answer, places, "or has other pixels")
    if commented != (b"#" in file[:-len(raw)]):
        sys.exit("outside: %s: the comment is not where it should be" % (what,))


def pixels(size):
    W, H = size
    return random.Random(W * 1024 + H).randbytes(3 * W * H)


def raw_by(size):
    """What the programs make a frame of its raw bytes with."""
    W, H = size
    return f"rawtoppm {W} {H}", f"convert -size {W}x{H} -depth 8 rgb:- "


def plain_files():
    for size in ((1, 1), (37, 23), (1024, 256), (512, 512)):
        raw = pixels(size)
        netpbm, magick = raw_by(size)
        for way in ([netpbm], [magick + "ppm:-"], [netpbm, "pnmtopng", "pngtopnm"], [magick + "png:-", "pngtopnm"], [netpbm, "pnmtopng", "convert png:- ppm:-"],
                    [netpbm, "pamtopnm -plain", "pnmtopnm"], [magick + "pam:-", "pamtopnm"], [netpbm, "pamflip -lr", "pamflip -lr"]):
            taken(through(raw, *way), size, raw, False, way)


COMMENTS = ("CREATOR: GIMP PNM Filter Version 1.1", "", "two\nlines", "a CR\r\nand an LF", "# once more # and once more", "255 ", "P6 1 1 255 ",
            "für den Rübenacker")


def commented_files():
    size = (37, 23)
    raw = pixels(size)
    for comment in COMMENTS:
        for before, form in (((), "-size 37x23 -depth 8 rgb:-"), (("rawtoppm 37 23", "pnmtopng"), "png:-")):
            words = ["convert", *form.split(), "-set", "comment", comment, "ppm:-"]
            taken(through(raw, *before, words), size, raw, True, words)


def refused_files():
    size = (37, 23)
    raw = pixels(size)
    netpbm, magick = raw_by(size)
    ways = ((12, [magick + "-depth 16 ppm:-"]), (12, [netpbm, "pamdepth 15"]), (11, [netpbm + " -plain"]), (11, [magick + "-compress none ppm:-"]),
            (11, [netpbm, "ppmtopgm"]), (11, [magick + "pam:-"]), (13, [magick + "-duplicate 1 ppm:-"]), (1, [netpbm, "pamscale -width=1025 -height=1"]))
    for number, way in ways:
        answer, places, frame = read(through(raw, *way), size)
        check((answer, places, frame) == (number, (0x5555555555555555,) * 2, bytes(len(raw))), "refused", way, "is answered", answer, places)


# ---------------------------------------------------------------------------
# What the tool writes
# ---------------------------------------------------------------------------

def haze(*words):
    through(b"", [ROOT / "haze", *words])


def numbers(text):
    """Magic, width, height, maximum and values of a plain file."""
    magic, *rest = text.split()
    return [magic, *map(int, rest)]


def seen_alike(name, size):
    header, data = b"P6\n%d %d\n255\n" % size, Path(name).read_bytes()
    check(data.startswith(header), "written", name, "has another header")
    behind = data[len(header):]
    check(through(data, "convert ppm:- -depth 8 rgb:-") == behind, "written", name, "by ImageMagick")
    check(numbers(through(data, "pamtopnm -plain")) == [b"P3", *size, 255, *behind], "written", name, "by Netpbm")


def map_seen_alike(name, size):
    header, data = b"P5\n%d %d\n10000\n" % size, Path(name).read_bytes()
    entries = struct.unpack(">%dH" % (size[0] * size[1]), data[len(header):])
    check(data.startswith(header) and len(set(entries)) > 1, "written", name, "has another header, or one entry only")
    check(numbers(through(data, "pamtopnm -plain")) == [b"P2", *size, 10000, *entries], "written", name, "by Netpbm")


def our_files():
    for size in ((37, 23), (1024, 256)):
        Path("in.ppm").write_bytes(through(pixels(size), raw_by(size)[1] + "-blur 0x3 -set comment hazy ppm:-"))
        haze("clear", "in.ppm", "out.ppm")
        haze("map", "in.ppm", "map.pgm")
        seen_alike("out.ppm", size)
        map_seen_alike("map.pgm", size)
        haze("add", "out.ppm", "map.pgm", "hazed.ppm")
        seen_alike("hazed.ppm", size)
        # a map that Netpbm wrote is as good as ours
        Path("map.pgm").write_bytes(through(Path("map.pgm").read_bytes(), "pamtopnm -plain", "pnmtopnm"))
        haze("add", "out.ppm", "map.pgm", "again.ppm")
        check(Path("again.ppm").read_bytes() == Path("hazed.ppm").read_bytes(), "read", "a map of Netpbm")


# ---------------------------------------------------------------------------
# The commands that the tool names where it refuses a file
# ---------------------------------------------------------------------------

def as_frame(name):
    return [ROOT / "haze", "light", name]


def as_mask(name):
    return [ROOT / "haze", "light", "in.ppm", f"mask={name}"]


def helped(data, number, *what, name="bad.ppm", taken_as=as_frame):
    """The file is refused with the number, and the named command makes of it one that is taken, OUT, OUT.ppm or OUT.pgm, which is answered."""
    Path(name).write_bytes(data)
    run = subprocess.run(taken_as(name), capture_output=True, text=True)
    command = re.search(rf"refused {number}: .*; to (?:convert|scale) it: (.*)\n", run.stderr)
    check(run.returncode == 1 and command, "helped", what, run)
    made = subprocess.run(command[1], shell=True, capture_output=True, text=True)
    out = Path(next(out for out in ("OUT.ppm", "OUT.pgm", "OUT") if out in command[1]))
    again = subprocess.run(taken_as(out), capture_output=True, text=True)
    check(made.returncode == 0 and again.returncode == 0, "helped", what, command[1], made, again)
    taken = out.read_bytes()
    out.unlink()
    return taken


def other_formats():
    """Of pictures that nothing is lost of, the pixels come back."""
    size = (37, 23)
    raw = pixels(size)
    netpbm, magick = raw_by(size)
    whole = ppm_file(size, raw)
    for number, way in ((11, [netpbm, "pnmtopng"]), (11, [magick + "png:-"]), (11, [magick + "bmp:-"]), (11, [magick + "tiff:-"]), (11, [netpbm + " -plain"]),
                        (11, [magick + "-compress none ppm:-"]), (11, [magick + "pam:-"]), (12, [magick + "-depth 16 ppm:-"]), (12, [netpbm, "pamdepth 65535"]),
                        (11, [magick + "-depth 16 png:-"])):
        check(helped(through(raw, *way), number, way) == whole, "helped", way, "has other pixels")
    for number, way in ((11, [magick + "jpeg:-"]), (11, [magick + "gif:-"]), (11, [netpbm, "ppmtopgm"]), (11, [netpbm, "ppmtopgm", "pnmtopng"]),
                        (11, [magick + "-colors 9 png:-"]), (11, [netpbm, "ppmtopgm -plain"]), (11, [netpbm, "ppmtopgm", "pamthreshold -simple", "pamtopnm"]),
                        (12, [netpbm, "pamdepth 15"]), (11, [magick + "-alpha set -channel A -evaluate set 50% png:-"])):
        check(helped(through(raw, *way), number, way).startswith(b"P6\n37 23\n255\n"), "helped", way)


def masks():
    """Black hides, by whatever program the mask was written; and of one that is refused the named command makes the same mask."""
    size = W, H = (37, 23)
    hidden = bytes(random.Random(3).choices((0, 255), k=W * H))
    Path("in.ppm").write_bytes(ppm_file(size, pixels(size)))
    Path("mask.pgm").write_bytes(b"P5\n37 23\n255\n" + hidden)
    haze("clear", "in.ppm", "wanted.ppm", "mask=mask.pgm")
    wanted, netpbm, magick = Path("wanted.ppm").read_bytes(), f"rawtopgm {W} {H}", f"convert -size {W}x{H} -depth 8 gray:- "
    check(all(wanted[-3 * (W * H - p):][:3] == pixels(size)[3 * p:3 * p + 3] for p in range(W * H) if not hidden[p]), "read", "a mask hides other pixels")
    for way in ([netpbm], [magick + "-depth 8 pgm:-"], [netpbm, "pamtopnm -plain", "pnmtopnm"], [netpbm, "pamflip -lr", "pamflip -lr"],
                [magick + "-set comment hood -depth 8 pgm:-"]):
        Path("mask.pgm").write_bytes(through(hidden, *way))
        haze("clear", "in.ppm", "out.ppm", "mask=mask.pgm")
        check(Path("out.ppm").read_bytes() == wanted, "read", way, "is another mask")
    for number, way in ((11, [netpbm, "pnmtopng"]), (11, [magick + "png:-"]), (11, [netpbm, "pamtopnm -plain"]), (12, [netpbm, "pamdepth 65535"]),
                        (11, [netpbm, "pamthreshold -simple", "pamtopnm"])):
        Path("mask.pgm").write_bytes(helped(through(hidden, *way), number, way, name="bad.pgm", taken_as=as_mask))
        haze("clear", "in.ppm", "out.ppm", "mask=mask.pgm")
        check(Path("out.ppm").read_bytes() == wanted, "helped", way, "is another mask")


SIZES = ((513, 512), (640, 480), (800, 600), (1280, 720), (1920, 1080), (1080, 1920), (1024, 257), (2000, 1500), (4000, 3000), (5000, 100), (100, 5000), (1025, 1),
         (2000, 131), (1100, 275), (1100, 276), (1097, 271), (2048, 512), (2049, 512), (2047, 513), (3840, 2160), (2000, 1))


def large_sizes():
    for size in SIZES:
        helped(through(b"", "ppmmake -maxval 255 gray %d %d" % size), 1, size)


def ppm_file(size, raw):
    return b"P6\n%d %d\n255\n" % size + raw


if not all(versions().values()):
    install()
found = versions()
if not all(found.values()):
    print("outside: skipped, since Netpbm or ImageMagick is not here and cannot be installed")
    sys.exit(0)
with tempfile.TemporaryDirectory() as folder:
    os.chdir(folder)
    plain_files()
    commented_files()
    refused_files()
    our_files()
    other_formats()
    masks()
    large_sizes()
print("outside: %d files of" % counts["read"], " and ".join("%s %s" % pair for pair in found.items()),
      "read alike, %(refused)d refused; %(written)d times ours were read alike by them; the commands that the tool names helped, in %(helped)d checks" % counts)
