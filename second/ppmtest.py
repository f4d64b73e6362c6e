"""The checks of ppm.py, which selftest.py runs.

Both paths are held to the answers written out by hand, to refusals alone and
in pairs, to files whose parts are known, and to each other on seeded files and
on all short pieces of a header.
"""

import itertools
import random

import cases
import ppm
import ppmfiles

WIDEST = 2 ** 64 - 1
PATHS = (
    ("pattern", ppm.header, ppm.size, ppm.read, ppm.length, ppm.write),
    ("plain", ppm.plain_header, ppm.plain_size, ppm.plain_read, ppm.plain_length, ppm.plain_write),
)


# ---------------------------------------------------------------------------
# By hand
# ---------------------------------------------------------------------------

def group_files(same):
    for name, header, size, read, length, write in PATHS:
        for file, answer in ppmfiles.BY_HAND:
            what = "%s: %r" % (name, file)
            if isinstance(answer, int):
                same(what, size(file), (answer, None))
                same(what + " read", read(file, b"lent"), (answer, None, b"lent"))
            else:
                W, H, pixels = answer
                same(what, size(file), (0, (W, H)))
                same(what + " read", read(file, b"?" * len(pixels)), (0, (W, H), pixels))
                same(what + " read short", read(file, pixels[1:]), (4, None, pixels[1:]))


def group_headers(same):
    for name, header, *others in PATHS:
        for file, kind, answer in ppmfiles.HEADERS_BY_HAND:
            want = (11, None) if answer == 11 else (0, answer)
            same("%s: header %r of kind %r" % (name, file, kind), header(file, kind[0]), want)


LENGTHS = (
    ((1, 1), 14), ((2, 1), 17), ((9, 1), 38), ((10, 1), 42), ((1, 10), 42), ((99, 1), 309), ((100, 1), 313),
    ((999, 1), 3010), ((1000, 1), 3014), ((1, 1024), 3086), ((1024, 256), 786448), ((512, 512), 786447),
    ((0, 1), 0), ((1, 0), 0), ((1025, 1), 0), ((1, 1025), 0), ((481, 545), 0), ((WIDEST, 1), 0), ((2 ** 32, 2 ** 32), 0),
)

WRITTEN = (
    ((2, 1, b"abcdef"), b"P6\n2 1\n255\nabcdef"),
    ((1, 2, b"abcdef"), b"P6\n1 2\n255\nabcdef"),
    ((1, 1, b"\x00\n\xff"), b"P6\n1 1\n255\n\x00\n\xff"),
    ((10, 1, b"x" * 30), b"P6\n10 1\n255\n" + b"x" * 30),
    ((1, 1024, b"#" * 3072), b"P6\n1 1024\n255\n" + b"#" * 3072),
)


def group_written(same):
    for name, header, size, read, length, write in PATHS:
        for (W, H), want in LENGTHS:
            same("%s: length of %d by %d" % (name, W, H), length(W, H), want)
        for (W, H, frame), file in WRITTEN:
            same("%s: file of %d by %d" % (name, W, H), write(W, H, frame, b"?" * len(file)), (0, file))


# ---------------------------------------------------------------------------
# The order of refusals
# ---------------------------------------------------------------------------

def group_reader_order(same):
    for name, header, size, read, *others in PATHS:
        file, frame = ppmfiles.lent()
        same("%s: no fault" % name, read(file, frame), (0, (2, 1), b"\0\1\2\3\4\5"))
        for number, changes in cases.fault_sets(ppmfiles.FAULTS, ppmfiles.READER_ORDER):
            file, frame = ppmfiles.lent(**changes)
            same("%s: %s" % (name, changes), read(file, frame), (number, None, frame))
            same("%s: size, %s" % (name, changes), size(file), (0, (2, 1)) if number == 4 else (number, None))


WRITER_FAULTS = {
    1: ({"size": (0, 1)}, {"size": (2, 0)}, {"size": (1025, 1)}, {"size": (1, 1025)}, {"size": (WIDEST, WIDEST)},
        {"size": (2 ** 32, 2 ** 32)}),
    3: ({"frame": b""}, {"frame": b"abcde"}, {"frame": b"abcdefg"}),
    4: ({"out": b""}, {"out": b"?" * 16}, {"out": b"?" * 18}),
}


def group_writer_order(same):
    for name, header, size, read, length, write in PATHS:
        for number, changes in cases.fault_sets(WRITER_FAULTS, (1, 3, 4)):
            given = {"size": (2, 1), "frame": b"abcdef", "out": b"?" * 17, **changes}
            W, H = given["size"]
            same("%s: %s" % (name, changes), write(W, H, given["frame"], given["out"]), (number, given["out"]))


# ---------------------------------------------------------------------------
# Sizes at the limits, and files whose parts are known
# ---------------------------------------------------------------------------

def group_limits(same):
    for name, header, size, read, length, write in PATHS:
        for W, H in cases.GOOD_SIZES:
            head, frame = b"P6 %d %d 255 " % (W, H), b"\x80" * (3 * W * H)
            same("%s: %d by %d" % (name, W, H), size(head + frame), (0, (W, H)))
            same("%s: %d by %d, short" % (name, W, H), size(head + frame[1:]), (13, None))
            same("%s: %d by %d, more" % (name, W, H), size(head + frame + b"\n"), (13, None))
        for W, H in cases.BAD_SIZES:
            same("%s: %d by %d" % (name, W, H), size(b"P6 %d %d 255 " % (W, H)), (1, None))
            same("%s: length of %d by %d" % (name, W, H), length(W, H), 0)
            same("%s: file of %d by %d" % (name, W, H), write(W, H, b"", b"?"), (1, b"?"))


def group_long(same):
    for file, answer in ppmfiles.long_files():
        want = (answer, None) if isinstance(answer, int) else (0, answer)
        for name, header, size, *others in PATHS:
            same("%s: %r, long" % (name, file[:8]), size(file), want)


def group_known_parts(same):
    chance = random.Random(30101)
    for turn in range(3000):
        kind = chance.choice((ppm.PPM, chance.randrange(256)))
        numbers = tuple(chance.choice((0, 9, 255, 999999, chance.randrange(1000000))) for _ in range(3))
        head = ppmfiles.any_head(chance, bytes([ord("P"), kind]), numbers)
        rest = chance.randbytes(chance.randrange(4))
        for name, header, *others in PATHS:
            same("%s: header %r" % (name, head), header(head + rest, kind), (0, (*numbers, len(head))))
            same("%s: header %r, other kind" % (name, head), header(head + rest, kind ^ 1), (11, None))
            same("%s: header %r, cut" % (name, head), header(head[:-1], kind), (11, None))


def group_there_and_back(same):
    chance = random.Random(30102)
    sizes = [(chance.randrange(1, 40), chance.randrange(1, 40)) for _ in range(200)]
    for W, H in sizes + list(cases.GOOD_SIZES):
        frame = chance.randbytes(3 * W * H)
        for name, header, size, read, length, write in PATHS:
            number, file = write(W, H, frame, bytes(length(W, H)))
            same("%s: %d by %d written" % (name, W, H), number, 0)
            same("%s: %d by %d read back" % (name, W, H), read(file, bytes(3 * W * H)), (0, (W, H), frame))


# ---------------------------------------------------------------------------
# The two paths against each other
# ---------------------------------------------------------------------------

def group_paths_on_files(same):
    chance = random.Random(30103)
    seen = dict.fromkeys((0,) + ppmfiles.READER_ORDER, 0)
    for file in itertools.chain(ppmfiles.by_chance(chance, 9000), ppmfiles.every_byte()):
        frame = b"?" * ppmfiles.frame_length(chance, file)
        answer = ppm.read(file, frame)
        same("read %r into %d" % (file, len(frame)), ppm.plain_read(file, frame), answer)
        same("size %r" % file, ppm.plain_size(file), ppm.size(file))
        same("header %r" % file, ppm.plain_header(file, ppm.PPM), ppm.header(file, ppm.PPM))
        seen[answer[0]] += 1
    for number, times in seen.items():
        same("%d was met" % number, times > 0, True)


def group_paths_on_pieces(same):
    """Every piece of up to five bytes of a small alphabet, in three places of a header."""
    pieces = [bytes(piece) for count in range(6) for piece in itertools.product(b" \r\n#1x", repeat=count)]
    for before, after in ((b"P6", b"1 1 255 "), (b"P6 1 1", b"255 "), (b"P6 1 1 1", b"")):
        for piece in pieces:
            head = before + piece + after
            same("header %r" % head, ppm.plain_header(head, ppm.PPM), ppm.header(head, ppm.PPM))


def group_paths_on_frames(same):
    chance = random.Random(30104)
    for turn in range(2000):
        W, H = cases.any_size(chance)
        frame, out = ppmfiles.writer_buffers(chance, W, H)
        same("length of %d by %d" % (W, H), ppm.plain_length(W, H), ppm.length(W, H))
        same("write %d by %d from %d into %d" % (W, H, len(frame), len(out)),
             ppm.plain_write(W, H, frame, out), ppm.write(W, H, frame, out))


GROUPS = (
    ("PPM, files by hand", group_files),
    ("PPM, headers by hand", group_headers),
    ("PPM, written by hand", group_written),
    ("PPM, order of the reader's refusals", group_reader_order),
    ("PPM, order of the writer's refusals", group_writer_order),
    ("PPM, sizes at the limits", group_limits),
    ("PPM, long headers", group_long),
    ("PPM, headers of known parts", group_known_parts),
    ("PPM, written and read back", group_there_and_back),
    ("PPM, both paths on seeded files", group_paths_on_files),
    ("PPM, both paths on all short pieces", group_paths_on_pieces),
    ("PPM, both paths on seeded frames", group_paths_on_frames),
)
