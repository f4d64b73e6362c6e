"""The command `view`: pictures of maps and depths.

What colours look like is reckoned here from the standards, with floats; no code and no number of the scale is shared with the tool. All that is known of the
pictures is that a map stands at the top left, and under it a legend with a bar of colours, ticks, numbers and a title in letters of 5 by 9 dots.
"""

import math
import random
import zlib
from collections import namedtuple
from itertools import groupby
from pathlib import Path

from common import check, done, pgm, put

Kind = namedtuple("Kind", "top ends ticks title")   # ends: numbers and their levels, between which the scale runs evenly
KINDS = (
    Kind(10000, ((0, 0), (10000, 255)), (0, 2500, 5000, 7500, 10000), "transmission: 10000 lets all through"),
    Kind(918, ((0, 0), (300, 229), (918, 255)), (0, 100, 200, 300, 918), "depth: 0 is nearest, 918 farthest"),
)
SIZES = ((1, 1), (1, 1024), (1024, 1), (1024, 256), (512, 512), (37, 23))
LEVELS = 256
SCALE = 0xacf40893      # CRC of the scale's bytes: it is the same with every compiler and in every version, so that pictures can be compared
ADVANCE, CELL = 6, 9    # columns from letter to letter, and rows of a letter


# ---------------------------------------------------------------------------
# The command
# ---------------------------------------------------------------------------

Picture = namedtuple("Picture", "width height rows")    # a row is a list of colours, a colour is three bytes


def view(kind, size, entries):
    """The picture that the command makes."""
    put("in.pgm", pgm(size, entries, kind.top))
    done(["view", "in.pgm", "out.ppm"])
    magic, shape, maximum, pixels = Path("out.ppm").read_bytes().split(b"\n", 3)
    width, height = map(int, shape.split())
    check((magic, shape, maximum) == (b"P6", b"%d %d" % (width, height), b"255"), "the header is", magic, shape, maximum)
    check(len(pixels) == 3 * width * height, size, "the pixels are", len(pixels), "bytes, for", width, height)
    colours = [pixels[i:i + 3] for i in range(0, len(pixels), 3)]
    return Picture(width, height, [colours[y * width:(y + 1) * width] for y in range(height)])


# ---------------------------------------------------------------------------
# What a colour looks like
# ---------------------------------------------------------------------------

def times(matrix, vector):
    return [sum(m * v for m, v in zip(row, vector)) for row in matrix]


def lights(colour):
    """Red, green and blue by IEC 61966-2-1: 0 is none, 1 the most."""
    values = [byte / 255 for byte in colour]
    return [v / 12.92 if v <= 0.04045 else ((v + 0.055) / 1.055) ** 2.4 for v in values]


def xyz(colour):
    """CIE 1931 for the white of D65."""
    return times(((0.4124, 0.3576, 0.1805), (0.2126, 0.7152, 0.0722), (0.0193, 0.1192, 0.9505)), lights(colour))


def contrast(one, other):
    """By WCAG 2: 1 to 21."""
    low, high = sorted((xyz(one)[1], xyz(other)[1]))
    return (high + 0.05) / (low + 0.05)


def cones(colour):
    """What the cones for long and middle waves answer, by Hunt, Pointer and Estevez. Most people who take hues for one lack one of the two kinds."""
    return times(((0.38971, 0.68898, -0.07868), (-0.22981, 1.18340, 0.04641)), xyz(colour))


def oklab(colour):
    """Lightness, a and b by Ottosson."""
    answers = times(((0.4122214708, 0.5363325363, 0.0514459929), (0.2119034982, 0.6806995451, 0.1073969566), (0.0883024619, 0.2817188376, 0.6299787005)),
                    lights(colour))
    return times(((0.2104542553, 0.7936177850, -0.0040720468), (1.9779984951, -2.4285922050, 0.4505937099), (0.0259040371, 0.7827717662, -0.8086757660)),
                 [answer ** (1 / 3) for answer in answers])


def cielab(colour):
    """Lightness, a and b by CIE 1976."""
    shares = [amount / white for amount, white in zip(xyz(colour), (0.9505, 1.0, 1.089))]
    x, y, z = (share ** (1 / 3) if share > (6 / 29) ** 3 else share / (3 * (6 / 29) ** 2) + 4 / 29 for share in shares)
    return 116 * y - 16, 500 * (x - y), 200 * (y - z)


def ciede2000(one, other):
    """The distance of two colours of CIELAB, with the factors for usual viewing."""
    (L1, a1, b1), (L2, a2, b2) = one, other

    def share(chroma):
        return math.sqrt(chroma ** 7 / (chroma ** 7 + 25 ** 7))

    stretch = 1 + (1 - share((math.hypot(a1, b1) + math.hypot(a2, b2)) / 2)) / 2
    C1, C2 = math.hypot(stretch * a1, b1), math.hypot(stretch * a2, b2)
    h1, h2 = (math.degrees(math.atan2(b, stretch * a)) % 360 for a, b in ((a1, b1), (a2, b2)))
    turn = (h2 - h1 + 180) % 360 - 180
    L, C, h = (L1 + L2) / 2, (C1 + C2) / 2, h1 + turn / 2

    def wave(times, shift):
        return math.cos(math.radians(times * h + shift))

    T = 1 - 0.17 * wave(1, -30) + 0.24 * wave(2, 0) + 0.32 * wave(3, 6) - 0.20 * wave(4, -63)
    lightness = (L2 - L1) / (1 + 0.015 * (L - 50) ** 2 / math.sqrt(20 + (L - 50) ** 2))
    chroma = (C2 - C1) / (1 + 0.045 * C)
    hue = 2 * math.sqrt(C1 * C2) * math.sin(math.radians(turn / 2)) / (1 + 0.015 * C * T)
    blue = 2 * share(C) * math.sin(math.radians(60 * math.exp(-((h % 360 - 275) / 25) ** 2)))
    return math.sqrt(lightness ** 2 + chroma ** 2 + hue ** 2 - blue * chroma * hue)


def measures():
    """The measures themselves, where there are numbers to hold them against: the paper of Sharma, Wu and Dalal on CIEDE2000, and white."""
    for one, other, distance in (((50, 2.6772, -79.7751), (50, 0, -82.7485), 2.0425), ((50, 2.5, 0), (61, -5, 29), 22.8977),
                                 ((60.2574, -34.0099, 36.2677), (60.4626, -34.1751, 39.4387), 1.2644), ((50, -1, 2), (50, 0, 0), 2.3669)):
        check(abs(ciede2000(one, other) - distance) < 0.0001, one, other, ciede2000(one, other), distance)
    white = bytes((255, 255, 255))
    check(math.dist(oklab(white), (1, 0, 0)) < 0.0001 and math.dist(cielab(white), (100, 0, 0)) < 0.01, "white is", oklab(white), cielab(white))
    check(abs(contrast(white, bytes(3)) - 21) < 0.0001, "white against black has contrast", contrast(white, bytes(3)))


# ---------------------------------------------------------------------------
# The scale
# ---------------------------------------------------------------------------

def all_colours(kind):
    """The colour of every number, from a picture with each of them at least once."""
    size = (101, kind.top // 101 + 2)
    count = size[0] * size[1]
    entries = [i % (kind.top + 1) for i in range(count)]
    random.Random(kind.top).shuffle(entries)
    picture, found = view(kind, size, entries), {}
    for i, entry in enumerate(entries):
        colour = picture.rows[i // size[0]][i % size[0]]
        check(found.setdefault(entry, colour) == colour, "two colours for", entry)
    return [found[entry] for entry in range(kind.top + 1)]


def place(kind, entry):
    """Where a number stands on the scale, as a fraction: so many levels by so much."""
    for (low, first), (high, last) in zip(kind.ends, kind.ends[1:]):
        if entry <= high:
            return first * (high - low) + (entry - low) * (last - first), high - low


def scale_of(kind, colours):
    """The colours in their order. Each stands for the numbers that are nearest to its place."""
    scale = [colour for colour, _ in groupby(colours)]
    check(len(scale) == len(set(scale)) == LEVELS, "there are", len(scale), "levels,", len(set(scale)), "different")
    places = {colour: level for level, colour in enumerate(scale)}
    for entry, colour in enumerate(colours):
        top, bottom = place(kind, entry)
        check(2 * abs(places[colour] * bottom - top) <= bottom, entry, "has level", places[colour])
    return scale


def rises(what, values):
    check(all(low < high for low, high in zip(values, values[1:])), what, "falls or stands still")


def even(what, steps, least, most):
    """Each step against the mean of all."""
    mean = sum(steps) / len(steps)
    check(least <= min(steps) / mean and max(steps) / mean <= most, what, min(steps) / mean, max(steps) / mean)


def ordered(scale):
    """Lightness alone has the order, also for who lacks a kind of cones."""
    rises("lightness by Oklab", [oklab(colour)[0] for colour in scale])
    rises("lightness by CIE 1976", [cielab(colour)[0] for colour in scale])
    for kind in (0, 1):
        rises("what one kind of cones answers", [cones(colour)[kind] for colour in scale])
    # a channel that was cut off would be 0 or 255
    check(all(0 < byte < 255 for colour in scale for byte in colour), "a channel is at its end")
    check(zlib.crc32(b"".join(scale)) == SCALE, "the scale is another one:", hex(zlib.crc32(b"".join(scale))))


def evenness(scale):
    """A level is about as much as a byte of a channel, so single steps are rough; over some levels the rounding evens out."""
    oks, labs = [oklab(colour) for colour in scale], [cielab(colour) for colour in scale]
    lightness = [ok[0] for ok in oks]
    step = (lightness[-1] - lightness[0]) / (LEVELS - 1)
    off = max(abs(value - lightness[0] - level * step) / step for level, value in enumerate(lightness))
    check(off < 1, "lightness is off the straight line by", off, "levels")

    def steps(values, measure, apart):
        return [measure(one, other) for one, other in zip(values, values[apart:])]

    def climb(one, other):
        return other[0] - one[0]

    even("lightness by Oklab", steps(oks, climb, 1), 0, 2)
    even("distance by Oklab", steps(oks, math.dist, 1), 0, 2)
    even("lightness by Oklab", steps(oks, climb, 4), 0.75, 1.25)
    even("distance by Oklab", steps(oks, math.dist, 4), 0.75, 1.25)
    even("lightness by Oklab", steps(oks, climb, 16), 0.9, 1.1)
    even("distance by Oklab", steps(oks, math.dist, 16), 0.9, 1.1)
    even("lightness by CIE 1976", steps(labs, climb, 16), 0.8, 1.2)
    even("distance by CIE 1976", steps(labs, math.dist, 16), 0.8, 1.2)
    even("distance by CIEDE2000", steps(labs, ciede2000, 16), 0.75, 1.35)


def told_apart(kind, colours):
    """Numbers a hundredth of the scale apart, up to its bend, are farther apart than most neighbours on the scale."""
    bend = kind.ends[1][0]
    apart, oks = bend // 100, {colour: oklab(colour) for colour in colours}
    step = math.dist(oks[colours[0]], oks[colours[-1]]) / (LEVELS - 1)
    for one, other in zip(colours[:bend + 1], colours[apart:bend + 1]):
        check(math.dist(oks[one], oks[other]) > step, one, other, "are too near")


# ---------------------------------------------------------------------------
# The legend
# ---------------------------------------------------------------------------

def bar_of(legend, scale):
    """The bar's first column and its rows. It has the colours of the scale, each in one column, and nothing else has any."""
    found = [(row.index(scale[0]), y) for y, row in enumerate(legend) if scale[0] in row]
    left, rows = found[0][0], [y for _, y in found]
    check(rows == list(range(rows[0], rows[0] + len(rows))) and len(rows) >= 8, "the bar's rows are", rows)
    for y in rows:
        check(legend[y][left:left + LEVELS] == scale, "the bar's row", y, "has other colours")
    check({colour for y, row in enumerate(legend) for x, colour in enumerate(row) if colour in scale and not (y in rows and left <= x < left + LEVELS)}
          == set(), "a colour of the scale stands beside the bar")
    return left, rows


def written(dots, x, y, text, shapes):
    """Takes the dots of a text away whose first letter's cell begins at x and y. The same letter has the same shape everywhere, and other letters another."""
    for letter in text:
        shape = frozenset((i - x, j - y) for i, j in dots if x <= i < x + ADVANCE and y <= j < y + CELL)
        check(shapes.setdefault(letter, shape) == shape, "the letter", letter, "in", text, "is another one")
        check(all(i < ADVANCE - 1 for i, _ in shape), "the letter", letter, "touches the next")
        dots -= {(x + i, y + j) for i, j in shape}
        x += ADVANCE
    check(len(set(shapes.values())) == len(shapes) and shapes.get(" ", frozenset()) == frozenset(), "two letters look the same, or a blank does not")


def legend_holds(kind, legend, scale, colours, shapes):
    """Ground, bar, edge, title, ticks and numbers, and no other dot."""
    left, rows = bar_of(legend, scale)
    used = {colour for row in legend for colour in row} - set(scale)
    check(len(used) == 2, "colours beside the scale:", used)
    ground = legend[0][0]
    ink, = used - {ground}
    check(contrast(ground, ink) >= 4.5, "the contrast is", contrast(ground, ink))
    dots = {(x, y) for y, row in enumerate(legend) for x, colour in enumerate(row) if colour == ink}
    top, bottom = rows[0] - 1, rows[-1] + 1
    edge = {(x, y) for x in range(left - 1, left + LEVELS + 1) for y in range(top, bottom + 1)} - {(left + i, y) for i in range(LEVELS) for y in rows}
    check(edge <= dots, "the bar has no whole edge")
    dots -= edge
    ticks = {left + scale.index(colours[number]): number for number in kind.ticks}
    length = 0
    while {x for x, y in dots if y == bottom + 1 + length} == set(ticks):
        length += 1
    check(length >= 2, "the ticks are", length, "long")
    dots -= {(x, bottom + 1 + i) for x in ticks for i in range(length)}
    written(dots, left, min(y for _, y in dots), kind.title, shapes)
    line = min(y for _, y in dots)
    for x, number in ticks.items():
        written(dots, x - (len(str(number)) * ADVANCE - 1) // 2, line, str(number), shapes)
    check(line > bottom + length and not dots, "dots are left over:", sorted(dots))
    return ground


# ---------------------------------------------------------------------------
# Whole pictures
# ---------------------------------------------------------------------------

def whole(kind, size, legend, ground, colours):
    """A picture of random entries, pixel by pixel. They are of a part of the scale, so colours that are stretched over what a map has would be others."""
    (w, h), draw = size, random.Random(repr((kind, size)))
    low, high = sorted(draw.sample(range(kind.top + 1), 2))
    entries = [draw.randint(low, high) for _ in range(w * h)]
    picture, least = view(kind, size, entries), len(legend[0])
    check((picture.width, picture.height) == (max(w, least), h + len(legend)), size, "has a picture of", picture.width, picture.height)
    for y in range(h):
        wanted = [colours[entry] for entry in entries[y * w:(y + 1) * w]]
        check(picture.rows[y] == wanted + [ground] * (picture.width - w), size, "row", y, "of the map")
    for y, row in enumerate(legend):
        check(picture.rows[h + y] == row + [ground] * (picture.width - least), size, "row", y, "of the legend")


def pictures():
    measures()
    scales, shapes = [], {}
    for kind in KINDS:
        colours = all_colours(kind)
        scale = scale_of(kind, colours)
        ordered(scale)
        evenness(scale)
        told_apart(kind, colours)
        scales.append(scale)
        legend = view(kind, (1, 1), [0]).rows[1:]
        ground = legend_holds(kind, legend, scale, colours, shapes)
        least = len(legend[0])
        for size in (*SIZES, (least - 1, 2), (least, 2), (least + 1, 2)):
            whole(kind, size, legend, ground, colours)
    check(scales[0] == scales[1], "the two kinds have different scales")


def of_others():
    """Numbers with another maximum: raw as they stand, scaled to the top of their kind."""
    entries = [0, 1, 500, 900, 9, 918]
    for top, words in ((10000, []), (918, ["depth"])):
        put("exact.pgm", pgm((3, 2), entries, top))
        done(["view", "exact.pgm", "exact.ppm"])
        wanted = Path("exact.ppm").read_bytes()
        put("raw.pgm", pgm((3, 2), entries, 65535))
        done(["view", "raw.pgm", "out.ppm", "raw", *words], ("out.ppm", wanted))
        put("depths.pgm", pgm((3, 2), entries, 918 if top == 10000 else 10000))
        done(["view", "depths.pgm", "out.ppm", "raw", *words], ("out.ppm", wanted))
        put("scaled.pgm", pgm((3, 2), [(2 * entry * 65535 + top) // (2 * top) for entry in entries], 65535))
        done(["view", "scaled.pgm", "out.ppm", *words, "scaled"], ("out.ppm", wanted))


ALL = (pictures, of_others)
