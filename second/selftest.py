"""The self-test of the second program.  Run it as: python3 -I selftest.py

This file holds the figures of document 01 (P1 to P11, the whole example of
the text, the figures that are run only), P3 with the green that request Two of
document 02 gives it, that request's rounding and its bound, the order of
refusals of each call, the edges of each range, and comparisons on seeded random
frames: the fast path with the plain path, Replace with a fresh Clear, the text
with a second reader made of patterns.  The checks of PPM files stand in
ppmtest.py, those of depths in depthtest.py, those of settings in settingtest.py,
those of masks in masktest.py, those of comparisons in counttest.py, those of what
the whole numbers cost in exacttest.py.
Where nothing is said of a mask, it is all seen.

It prints one line for each group.  Where a check fails it prints what failed
and ends with status 1.
"""

import copy
import itertools
import math
import os
import random
import re
import struct
import subprocess
import sys
import traceback
from fractions import Fraction

sys.dont_write_bytecode = True
HERE = os.path.dirname(os.path.abspath(__file__))
sys.path.insert(0, HERE)

import counttest
import depthtest
import exacttest
import masktest
import ppmtest
import rules
import settingtest
import text
from counttest import uncounted

WIDEST = 2 ** 64 - 1
P2_FRAME = [200, 200, 200, 100, 150, 180]
P2_SETTINGS = (0, 0, 9500, 59, 1000, 1)
P3_SETTINGS = (0, 1, 9500, 59, 1000, 1)


# ---------------------------------------------------------------------------
# Counting
# ---------------------------------------------------------------------------

class Checks:
    """Counts the checks and keeps what failed."""

    def __init__(self):
        self.done = 0
        self.failed = []

    def same(self, what, got, want):
        self.done += 1
        if got != want:
            self.failed.append("%s: got %s, want %s" % (what, short(got), short(want)))


def short(value):
    """A value in words, cut where it is long."""
    words = repr(value)
    return words if len(words) <= 300 else words[:300] + "..."


def bits(value):
    """The 64 bits of a double as a whole number."""
    return struct.unpack(">Q", struct.pack(">d", value))[0]


# ---------------------------------------------------------------------------
# Calls with all buffers of the right length, the answers without their counts
# ---------------------------------------------------------------------------

def count_of(size):
    return size[0] * size[1]


def light_of(size, settings, frame):
    return uncounted(rules.light(size, settings, rules.all_seen(size), frame, rules.work_needed(size)))


def clear_of(size, settings, light, frame):
    count = count_of(size)
    return uncounted(rules.clear(size, settings, light, rules.all_seen(size), frame, count, 3 * count,
                                 rules.work_needed(size)))


def replace_of(size, settings, light, rect, new, frame, map, picture):
    return uncounted(rules.replace(size, settings, light, rect, new, rules.all_seen(size), frame, map,
                                   picture, rules.work_needed(size)))


def haze_of(size, light, clean, map):
    return rules.haze(size, light, clean, map, 3 * count_of(size))


# ---------------------------------------------------------------------------
# Random things
# ---------------------------------------------------------------------------

def random_frame(chance, count):
    """A frame of one of five kinds.  Few colours bring ties."""
    kind = chance.randrange(5)
    if kind == 0:
        return [chance.randrange(256) for _ in range(3 * count)]
    if kind == 1:
        palette = [chance.randrange(256) for _ in range(2)]
        return [chance.choice(palette) for _ in range(3 * count)]
    if kind == 2:
        return [chance.choice((0, 255)) for _ in range(3 * count)]
    if kind == 3:
        return [grey for _ in range(count) for grey in [chance.randrange(256)] * 3]
    start = chance.randrange(200)
    return [min(255, start + chance.randrange(8)) for _ in range(3 * count)]


def random_settings(chance, largest_s, largest_r):
    """Settings in their ranges, often at an end of one."""
    return (
        chance.randrange(largest_s + 1),
        chance.randrange(largest_r + 1),
        chance.choice((1, 5000, 9500, 10000, chance.randrange(1, 10001))),
        chance.choice((1, 59, 585225, chance.randrange(1, 585226))),
        chance.choice((1, 1000, 10000, chance.randrange(1, 10001))),
        chance.choice((1, 300, 1000, chance.randrange(1, 1001))),
    )


def random_light(chance):
    return tuple(chance.choice((1, 255, chance.randrange(1, 256))) for _ in range(3))


def random_rect(chance, size):
    W, H = size
    column, row = chance.randrange(W), chance.randrange(H)
    width = chance.randrange(1, min(3, W - column) + 1)
    height = chance.randrange(1, min(3, H - row) + 1)
    return column, row, width, height


# ---------------------------------------------------------------------------
# P1 to P11
# ---------------------------------------------------------------------------

def group_p1_to_p4(same):
    frame = [200, 150, 100]
    same("P1 light", light_of((1, 1), P2_SETTINGS, frame), (0, (200, 150, 100)))
    same("P1 clear", clear_of((1, 1), P2_SETTINGS, (200, 150, 100), frame),
         (0, ([500], [200, 150, 100])))
    grey = (200, 200, 200)
    same("P2 light", light_of((2, 1), P2_SETTINGS, P2_FRAME), (0, grey))
    same("P2 clear", clear_of((2, 1), P2_SETTINGS, grey, P2_FRAME),
         (0, ([500, 5250], [200, 200, 200, 10, 105, 162])))
    coarse = rules.coarse_values((2, 1), P3_SETTINGS, grey, [1, 1], P2_FRAME)
    same("P3 coarse", coarse, [500, 5250])
    same("P3 guide", rules.guides([1, 1], P2_FRAME), [600, 430])
    same("P3 slopes and offsets",
         rules.slopes_and_offsets((2, 1), 1, 59, [600, 430], coarse),
         ([-28381, -28381], [17560215, 17560215]))
    same("P3 slopes and offsets, plain",
         rules.plain_slopes_and_offsets((2, 1), P3_SETTINGS, grey, [1, 1], P2_FRAME),
         ({0: 600, 1: 430}, {0: -28381, 1: -28381}, {0: 17560215, 1: 17560215}))
    # Green: -50 * 10000 / 5230 is -95.6, so -96.
    same("P3 clear", clear_of((2, 1), P3_SETTINGS, grey, P2_FRAME),
         (0, ([519, 5230], [200, 200, 200, 9, 104, 162])))
    same("P3 clear, plain", rules.plain_clear((2, 1), P3_SETTINGS, grey, [1, 1], P2_FRAME),
         ([519, 5230], [200, 200, 200, 9, 104, 162]))
    same("P4 light", light_of((1, 1), P2_SETTINGS, [0, 0, 0]), (0, (1, 1, 1)))
    same("P4 clear", clear_of((1, 1), P2_SETTINGS, (1, 1, 1), [0, 0, 0]),
         (0, ([10000], [0, 0, 0])))


def group_p5_to_p11(same):
    for I, A, T, want in ((255, 100, 1000, 255), (90, 100, 1000, 0), (89, 100, 1000, 0),
                          (101, 100, 3000, 103), (99, 100, 3000, 97)):
        same("P5, P6 channel %d" % I, rules.cleared_channel(I, A, T), want)
    for seen, want in ((999, 1), (1000, 1), (2000, 2), (3000, 3)):
        same("P7 count of %d" % seen, rules.candidate_count(seen, 1), want)
    # The pixel ranked first is grey, the second one is brighter.
    for H, want in ((1, (100, 100, 100)), (2, (90, 255, 255))):
        frame = [0] * (3 * 1000 * H)
        frame[0:3] = [100, 100, 100]
        frame[15:18] = [90, 255, 255]
        same("P7 light of 1000 by %d" % H, light_of((1000, H), P2_SETTINGS, frame), (0, want))
    same("P8", haze_of((1, 1), (255, 255, 255), [0, 0, 0], [5000]), (0, [128, 128, 128]))
    same("P9", rules.ratio(250, 200), 10000)
    same("P9, one below", rules.ratio(199, 200), 9950)
    same("P10", rules.window_sizes((3, 3), 1, [7] * 9), [4, 6, 4, 6, 9, 6, 4, 6, 4])
    same("P10, plain", [len(rules.plain_window((3, 3), [1] * 9, p, 1)) for p in range(9)],
         [4, 6, 4, 6, 9, 6, 4, 6, 4])
    number, figure = rules.band((2, 1), [519, 5230], 0, 1)
    same("P11 number", number, 0)
    # 5749/20000 is 0.28745 and 519/10000 is 0.0519, as decimals.
    same("P11 mean", bits(figure[0]), bits(0.28745))
    same("P11 least", bits(figure[1]), bits(0.0519))


# ---------------------------------------------------------------------------
# Run only
# ---------------------------------------------------------------------------

def group_run_only(same):
    size = (512, 512)
    colour = (200, 150, 100)
    frame = list(colour) * count_of(size)
    same("512 by 512 light", light_of(size, P2_SETTINGS, frame), (0, colour))
    same("512 by 512 clear", clear_of(size, P2_SETTINGS, colour, frame),
         (0, ([500] * count_of(size), frame)))
    wide = (513, 512)
    frame = [7] * (3 * count_of(wide))
    map = [7] * count_of(wide)
    same("513 by 512 light", light_of(wide, P2_SETTINGS, frame), (1, None))
    same("513 by 512 clear", clear_of(wide, P2_SETTINGS, colour, frame), (1, None))
    same("513 by 512 replace",
         replace_of(wide, P2_SETTINGS, colour, (0, 0, 1, 1), [1, 2, 3], frame, map, frame),
         (1, None))
    same("513 by 512 haze", haze_of(wide, colour, frame, map), (1, None))
    same("513 by 512 band", rules.band(wide, map, 0, 1), (1, None))
    zero = (0, 0, 0, 59, 1000, 1)
    same("omega 0 light", light_of((2, 1), zero, P2_FRAME), (2, None))
    same("omega 0 clear", clear_of((2, 1), zero, colour, P2_FRAME), (2, None))
    same("omega 0 replace",
         replace_of((2, 1), zero, colour, (0, 0, 1, 1), [1, 2, 3], P2_FRAME, [0, 0], P2_FRAME),
         (2, None))


# ---------------------------------------------------------------------------
# Rectangles and bands
# ---------------------------------------------------------------------------

def replace_number(rect):
    """The number Replace gives for a rectangle in a 5 by 4 frame."""
    size = (5, 4)
    width, height = rect[2], rect[3]
    new = [9] * (3 * width * height) if width * height <= 20 else []
    return replace_of(size, P3_SETTINGS, (200, 180, 190), rect, new,
                      [50] * 60, [1] * 20, [2] * 60)[0]


def group_rectangles_and_bands(same):
    accepted = ((4, 0, 1, 1), (3, 1, 2, 2), (0, 3, 5, 1), (0, 0, 5, 4), (4, 3, 1, 1))
    for rect in accepted:
        same("rectangle %s" % (rect,), replace_number(rect), 0)
    refused = ((4, 0, 2, 1), (3, 1, 3, 2), (5, 0, 1, 1), (0, 4, 1, 1), (0, 3, 1, 2),
               (0, 0, 6, 4), (0, 0, 5, 5), (0, 0, 0, 1), (0, 0, 1, 0), (0, 0, 0, 0),
               (5, 0, 0, 1), (WIDEST, 0, 1, 1), (WIDEST, 0, 2, 1), (0, WIDEST, 1, 2),
               (1, 0, WIDEST, 1), (0, 1, 1, WIDEST), (WIDEST,) * 4, (0, 0, WIDEST, 0))
    for rect in refused:
        same("rectangle %s" % (rect,), replace_number(rect), 6)
    map = list(range(100, 120))
    for start, end, want in ((0, 4, 0), (3, 4, 0), (0, 1, 0), (0, 5, 6), (4, 5, 6), (4, 4, 6),
                             (0, 0, 6), (3, 2, 6), (WIDEST, 1, 6), (0, WIDEST, 6),
                             (WIDEST - 1, WIDEST, 6)):
        same("band %d..%d" % (start, end), rules.band((5, 4), map, start, end)[0], want)


# ---------------------------------------------------------------------------
# The order of refusals
# ---------------------------------------------------------------------------

BASE = {
    "size": (3, 2),
    "settings": (1, 1, 9500, 59, 1000, 1),
    "light": (200, 180, 190),
    "rect": (1, 0, 2, 1),
    "new": [10, 20, 30, 40, 50, 60],
    "mask": [1, 0, 2, 0, 128, 255],
    "frame": list(range(60, 78)),
    "clean": list(range(60, 78)),
    "map": [0, 10000, 3, 4, 5, 6],
    "picture": [5] * 18,
    "map_len": 6,
    "picture_len": 18,
    "hazed_len": 18,
    "work_len": 96,
    "start": 0,
    "end": 1,
}

CALLS = {
    "light": (rules.light, (1, 2, 3, 4, 14), ("size", "settings", "mask", "frame", "work_len")),
    "clear": (rules.clear, (1, 2, 3, 4, 5),
              ("size", "settings", "light", "mask", "frame", "map_len", "picture_len",
               "work_len")),
    "replace": (rules.replace, (1, 2, 3, 4, 5, 6, 7),
                ("size", "settings", "light", "rect", "new", "mask", "frame", "map", "picture",
                 "work_len")),
    "haze": (rules.haze, (1, 3, 4, 5, 8), ("size", "light", "clean", "map", "hazed_len")),
    "band": (rules.band, (1, 4, 6, 8), ("size", "map", "start", "end")),
}


def setting_faults():
    """Each setting just below and just above its range, and far above."""
    ends = ((None, 31), (None, 61), (0, 10001), (0, 585226), (0, 10001), (0, 1001))
    good = BASE["settings"]
    for place, (below, above) in enumerate(ends):
        for value in (below, above, WIDEST):
            if value is not None:
                yield {"settings": good[:place] + (value,) + good[place + 1:]}


def faults_of(name, number):
    """The ways in which a call can have one fault, as changes of BASE."""
    given = CALLS[name][2]
    bright = BASE["map"][:5] + [10001]
    ways = {
        1: [{"size": size} for size in ((0, 2), (3, 0), (0, 0), (1025, 1), (1, 1025),
                                        (513, 512), (481, 545), (1024, 257), (2 ** 63, 2),
                                        (WIDEST, WIDEST), (2 ** 32, 2 ** 32))],
        2: list(setting_faults()),
        3: [{key: [1] * length} for key in ("frame", "clean") for length in (0, 17, 19)],
        4: ([{key: length} for key, length in
             (("map_len", 5), ("map_len", 7), ("picture_len", 17), ("picture_len", 19),
              ("hazed_len", 17), ("hazed_len", 19), ("hazed_len", 0),
              ("work_len", 95), ("work_len", 0))]
            + [{"picture": [1] * 17}, {"picture": [1] * 19}, {"map": [1] * 5},
               {"map": [1] * 7}, {"map": []}]
            + [{"mask": mask} for mask in ([1] * 5, [1] * 7, [0] * 5, [0] * 7, [])]),
        5: [{"light": light} for light in ((0, 180, 190), (200, 0, 190), (200, 180, 0))],
        6: ([{"rect": rect} for rect in ((1, 0, 3, 1), (1, 0, 0, 1), (1, 2, 2, 1),
                                         (WIDEST, 0, 2, 1))]
            if name == "replace" else
            [{"start": 1}, {"start": 2, "end": 1}, {"end": 3}, {"start": 2, "end": 3},
             {"end": WIDEST}]),
        7: [{"new": [1] * length} for length in (0, 3, 5, 7)],
        8: [{"map": bright}, {"map": [10001] + BASE["map"][1:]}, {"map": [65535] * 6}],
        14: [{"mask": [0] * 6}],
    }
    return [way for way in ways[number] if set(way) <= set(given)]


def called(name, *changes):
    """A call with changes of BASE, and whether the given lists stayed."""
    function, numbers, given = CALLS[name]
    arguments = dict(BASE)
    for change in changes:
        arguments.update(change)
    values = [arguments[key] for key in given]
    before = copy.deepcopy(values)
    answer = function(*values)
    return answer, values == before


def clash(one, other):
    """Whether two changes want the same argument, so that one undoes the other."""
    return bool(set(one) & set(other))


def group_refusal_order(same):
    for name, (function, numbers, given) in CALLS.items():
        answer, stayed = called(name)
        same("%s of the base" % name, (answer[0], answer[1] is None, stayed), (0, False, True))
        for number in numbers:
            for way in faults_of(name, number):
                same("%s with %s" % (name, way), called(name, way), ((number, None), True))
        for low, high in itertools.combinations(numbers, 2):
            for one, other in itertools.product(faults_of(name, low), faults_of(name, high)):
                if not clash(one, other):
                    same("%s with %s and %s" % (name, one, other),
                         called(name, one, other), ((low, None), True))
    # A map that is too long and has an entry above 10,000.
    same("haze, 4 before 8", called("haze", {"map": [65535] * 7}), ((4, None), True))
    same("band, 4 before 8", called("band", {"map": [65535] * 7}), ((4, None), True))


def group_every_fault_at_once(same):
    for name, (function, numbers, given) in CALLS.items():
        for first in range(len(numbers)):
            changes = []
            for number in reversed(numbers[first:]):
                changes.append(faults_of(name, number)[0])
            same("%s with all from %d on" % (name, numbers[first]),
                 called(name, *changes), ((numbers[first], None), True))


# ---------------------------------------------------------------------------
# Edges of the ranges
# ---------------------------------------------------------------------------

def group_range_ends(same):
    low = (0, 0, 1, 1, 1, 1)
    high = (30, 60, 10000, 585225, 10000, 1000)
    for place in range(6):
        for ends in (low, high):
            settings = BASE["settings"][:place] + (ends[place],) + BASE["settings"][place + 1:]
            for name in ("light", "clear", "replace"):
                same("%s with settings %s" % (name, settings),
                     called(name, {"settings": settings})[0][0], 0)
    for size in ((1, 1), (1024, 1), (1, 1024), (1024, 256), (256, 1024)):
        count = count_of(size)
        same("haze of %s" % (size,), haze_of(size, (1, 255, 1), [9] * (3 * count), [10000] * count),
             (0, [9] * (3 * count)))
        same("band of %s" % (size,), rules.band(size, [10000] * count, 0, size[1]),
             (0, (1.0, 1.0)))
    for name in ("light", "clear", "replace"):
        for length in (96, 97, WIDEST):
            same("%s with work area of %d" % (name, length),
                 called(name, {"work_len": length})[0][0], 0)
    same("work area asked of 1 by 1", rules.work_needed((1, 1)), 32)
    same("work area after", rules.work_after((1, 1), [7] * 34), [0] * 32 + [7, 7])
    same("haze with entry 10,000", called("haze", {"map": [10000] * 6})[0][0], 0)
    same("band that leaves the bad row out",
         called("band", {"map": [0, 0, 0, 0, 0, 10001]})[0], (8, None))
    same("replace with a bright entry out of reach",
         replace_of((4, 1), P2_SETTINGS, (200, 200, 200), (0, 0, 1, 1), [200, 200, 200],
                    [0] * 12, [65535] * 4, [33] * 12),
         (0, ([200] * 3 + [0] * 9, [500] + [65535] * 3, [200] * 3 + [33] * 9)))


# ---------------------------------------------------------------------------
# Light by hand
# ---------------------------------------------------------------------------

def group_light_by_hand(same):
    both = (0, 0, 9500, 59, 1000, 1000)
    half = (0, 0, 9500, 59, 1000, 500)
    one = (0, 0, 9500, 59, 1000, 1)
    same("tie on R+G+B", light_of((2, 1), both, [10, 20, 30, 30, 20, 10]), (0, (10, 20, 30)))
    same("tie on dark value",
         light_of((2, 2), half, [50, 50, 50, 40, 250, 40, 40, 40, 240, 0, 255, 255]),
         (0, (40, 250, 40)))
    same("brightest is no candidate",
         light_of((2, 1), one, [0, 255, 255, 20, 20, 20]), (0, (20, 20, 20)))
    same("a channel of 0", light_of((1, 1), one, [0, 255, 0]), (0, (1, 255, 1)))
    # A 0 in the frame stays 0 in the ranking: the sum 2 is above the sum 1.
    same("0 stays 0 in the sums", light_of((2, 1), both, [0, 0, 1, 0, 0, 2]), (0, (1, 1, 2)))
    same("0 stays 0 in the ranking", light_of((2, 1), one, [0, 9, 9, 1, 1, 1]), (0, (1, 1, 1)))
    # The dark value comes from the neighbour, so the second pixel wins.
    same("dark radius 1",
         light_of((3, 1), (1, 0, 9500, 59, 1000, 1), [0, 0, 0, 200, 200, 200, 90, 90, 90]),
         (0, (90, 90, 90)))
    same("m is cut down", rules.candidate_count(3, 999), 2)
    same("m of the whole frame", rules.candidate_count(3, 1000), 3)


# ---------------------------------------------------------------------------
# Errors seen in other clearers
# ---------------------------------------------------------------------------

def group_errors_of_others(same):
    frame = [200, 150, 100] * 9
    light = (200, 150, 100)
    for s, r in ((1, 0), (0, 1), (1, 1), (2, 2), (30, 60)):
        settings = (s, r, 9500, 59, 1000, 1)
        same("no padding, s %d r %d" % (s, r), clear_of((3, 3), settings, light, frame),
             (0, ([500] * 9, frame)))
        same("no padding in the light, s %d" % s, light_of((3, 3), settings, frame), (0, light))
    same("slope floored", rules.slope(1, 0, 0, 0, 0, 59), 0)
    # n 2, guides 0 and 1, coarse 1 and 0: P is -1, Q is 1 + 4E.
    same("slope floored below 0", rules.slope(2, 1, 1, 1, 0, 59), -5)
    # (1024 + 5) / 2 and (-1024 * 0 - 5) / 2.
    same("offset floored", rules.offset(2, 1, 1, -5), 514)
    same("offset floored below 0", rules.offset(2, 1, 0, 5), -3)
    same("held", [rules.held(v, 0, 255) for v in (-1, 0, 255, 256)], [0, 0, 255, 255])


# ---------------------------------------------------------------------------
# Rounding in the recovery
# ---------------------------------------------------------------------------

# Top, bottom and the nearest whole number, by hand.  Below zero it is the negative.
NEAREST = (
    # Of 2 every odd number is a half.
    (0, 2, 0), (1, 2, 1), (2, 2, 1), (3, 2, 2), (4, 2, 2), (5, 2, 3),
    # Of 3 there are no halves: one third goes down, two thirds go up.
    (1, 3, 0), (2, 3, 1), (3, 3, 1), (4, 3, 1), (5, 3, 2), (6, 3, 2), (7, 3, 2), (8, 3, 3),
    # Of 4 the halves are 2, 6 and 10.
    (1, 4, 0), (2, 4, 1), (3, 4, 1), (5, 4, 1), (6, 4, 2), (7, 4, 2),
    (9, 4, 2), (10, 4, 3), (11, 4, 3),
    # Of 10,000, each half with its neighbours.
    (4999, 10000, 0), (5000, 10000, 1), (5001, 10000, 1),
    (14999, 10000, 1), (15000, 10000, 2), (15001, 10000, 2),
    (24999, 10000, 2), (25000, 10000, 3), (25001, 10000, 3),
    # Half of 9999 is 4999.5.
    (4999, 9999, 0), (5000, 9999, 1), (14998, 9999, 1), (14999, 9999, 2),
    # The least and the greatest transmission under the greatest difference.
    (2550000, 1, 2550000), (2550000, 10000, 255),
)

HALVES = [Fraction(top, 2) for top in (-5, -3, -1, 1, 3, 5)]

# Other rules, and what each gives for the halves.
OTHER_ROUNDINGS = (
    ("cut toward zero", math.trunc, [-2, -1, 0, 0, 1, 2]),
    ("halves up, below zero too", lambda x: math.floor(x + Fraction(1, 2)), [-2, -1, 0, 1, 2, 3]),
    ("halves to even", round, [-2, -2, 0, 0, 2, 2]),
    ("halves toward zero", lambda x: math.ceil(abs(x) - Fraction(1, 2)) * (1 if x > 0 else -1),
     [-2, -1, 0, 0, 1, 2]),
)

# I, A, T and the cleared channel, by hand.
ROUNDED_CHANNELS = (
    # 2.5 and -2.5.  If A were added before the rounding, 97.5 would become 98.
    (101, 100, 4000, 103), (99, 100, 4000, 97), (102, 100, 8000, 103), (98, 100, 8000, 97),
    # Just below 2.5, and just above.
    (101, 100, 4001, 102), (99, 100, 4001, 98), (101, 100, 3999, 103), (99, 100, 3999, 97),
    # 1.25 and 3.75.
    (101, 100, 8000, 101), (99, 100, 8000, 99), (103, 100, 8000, 104), (97, 100, 8000, 96),
    # The last values that need no holding, and the first that do: 2.5 goes to 3.
    (254, 252, 8000, 255), (255, 253, 8000, 255), (1, 3, 8000, 0), (0, 2, 8000, 0),
)


def is_nearest_away(whole, top, bottom):
    """The rule by its meaning: at most a half away, and at a half farther from zero."""
    off = 2 * abs(whole * bottom - top)
    return off < bottom or (off == bottom and abs(whole) * bottom > abs(top))


def group_rounding(same):
    for top, bottom, want in NEAREST:
        for sign in (1, -1):
            same("nearest to %d/%d" % (sign * top, bottom),
                 (rules.nearest_away(sign * top, bottom),
                  rules.plain_nearest(Fraction(sign * top, bottom))), (sign * want,) * 2)
    # Every quotient from -4 to 4 of small divisors, even and odd.
    for bottom in range(1, 31):
        tops = range(-4 * bottom, 4 * bottom + 1)
        got = [rules.nearest_away(top, bottom) for top in tops]
        same("nearest of %d by its meaning" % bottom,
             all(is_nearest_away(whole, top, bottom) for whole, top in zip(got, tops)), True)
        same("nearest of %d, plain" % bottom,
             [rules.plain_nearest(Fraction(top, bottom)) for top in tops], got)
    ours = [rules.nearest_away(x.numerator, x.denominator) for x in HALVES]
    same("halves away from zero", ours, [-3, -2, -1, 1, 2, 3])
    for name, other, want in OTHER_ROUNDINGS:
        same(name, [other(x) for x in HALVES], want)
        same("%s is another rule" % name, want != ours, True)
    # Only the cut differs from ours where there is no half.
    same("three quarters", [(rules.nearest_away(top, 4), *(other(Fraction(top, 4))
                             for name, other, want in OTHER_ROUNDINGS)) for top in (3, -3)],
         [(1, 0, 1, 1, 1), (-1, 0, -1, -1, -1)])
    for I, A, T, want in ROUNDED_CHANNELS:
        same("channel %d under %d at %d" % (I, A, T), rules.cleared_channel(I, A, T), want)


# ---------------------------------------------------------------------------
# The simulator's bound
# ---------------------------------------------------------------------------
#
# A byte J is hazed with t under the light A, then cleared with T = t under A.
# Haze gives A + k with k = floor(((J - A)*t + 5000)/10000), since 10000*A can be
# taken out of the floor.  Clear gives A + q with q nearest to 10000*k/t, and then
# holds it.  So before the holding the distance from J is that of q from J - A: it
# depends on the difference J - A and on t alone.  J is a byte, so holding the sum
# into 0..255 brings it nearer to J or leaves it.  The bound for all differences
# and all t, without holding, is then the bound for all J, A and t.
#
# q has the sign of J - A or is 0, so a sum is held only on the side of A on which
# J lies.  There the room is widest under light 1 for J above A and under light 255
# for J below A, so these two show the greatest distance that real bytes have.

DIFFERENCES = range(-255, 256)
TRANSMISSIONS = range(1, 10001)


def farthest(t):
    """The greatest distance at t: before holding, and of real bytes with it."""
    hazed = [rules.hazed_channel(difference, 0, t) for difference in DIFFERENCES]
    steps = range(hazed[0], hazed[-1] + 1)
    free = {k: rules.nearest_away(k * 10000, t) for k in steps}
    held = {k: rules.held(q, -255, 254) for k, q in free.items()}
    before = [free[k] - difference for k, difference in zip(hazed, DIFFERENCES)]
    # The difference 255 would need light 0.
    after = [held[k] - difference for k, difference in zip(hazed, DIFFERENCES[:-1])]
    return max(max(before), -min(before)), max(max(after), -min(after))


def round_trip(J, A, t):
    """The byte that comes back, with everything the rules say."""
    return rules.cleared_channel(rules.hazed_channel(J, A, t), A, t)


def group_bound(same):
    most_before, most_after = zip(*map(farthest, TRANSMISSIONS))
    same("every transmission was met", len(most_before), 10000)
    # D is whole, so t*(2*D - 1) is at most 10,000 exactly where D is at most this floor.
    allowed = [(10000 + t) // (2 * t) for t in TRANSMISSIONS]
    for name, most, greatest, met in (("before holding", most_before, 9983, 9908),
                                      ("real bytes", most_after, 9980, 9904)):
        sides = [t * (2 * D - 1) for t, D in zip(TRANSMISSIONS, most)]
        same("bound, %s" % name, [t for t, side in zip(TRANSMISSIONS, sides) if side > 10000], [])
        same("greatest t*(2*D - 1), %s" % name, max(sides), greatest)
        same("for how many t the most that is allowed is met, %s" % name,
             sum(D == limit for D, limit in zip(most, allowed)), met)
    # 67 * (2*75 - 1) is 9983.  A sum 299 away from its light is always held, so no
    # bytes show it.
    same("9983", (rules.hazed_channel(224, 0, 67), rules.nearest_away(2 * 10000, 67)), (2, 299))
    # 1996 * (2*3 - 1) is 9980.  50 * 10000 / 1996 is 250.501, so 251.
    same("9980", (rules.hazed_channel(249, 1, 1996), round_trip(249, 1, 1996)), (51, 252))
    # -124 * 10000 / 4980 is -248.995.  Cut it would give 7, and 4980 * (2*2 - 1) is too much.
    same("where a cut breaks the bound",
         (rules.hazed_channel(5, 255, 4980), round_trip(5, 255, 4980)), (131, 6))
    chance = random.Random(20117)
    nearer = 0
    for turn in range(20000):
        # Small transmissions bring large distances, and holding.
        t = chance.randrange(1, 10001 if turn % 2 else 200)
        J, A = chance.randrange(256), chance.randrange(1, 256)
        D = abs(round_trip(J, A, t) - J)
        step = rules.hazed_channel(J - A, 0, t)
        before = abs(rules.nearest_away(step * 10000, t) - (J - A))
        same("J %d, A %d, t %d" % (J, A, t),
             (t * (2 * D - 1) <= 10000, D <= most_after[t - 1], D <= before,
              rules.hazed_channel(J, A, t) == A + step), (True,) * 4)
        nearer += D < before
    same("holding brought some nearer and left some", 0 < nearer < 20000, True)


# ---------------------------------------------------------------------------
# Plain path and fast path
# ---------------------------------------------------------------------------

def note_what_happened(seen, settings, light, frame, size, slopes, offsets, guide, fast):
    """Counts the rare things, so that the comparison is known to meet them."""
    raw = rules.refined_before_holding(size, settings[1], guide, slopes, offsets)
    map, picture = fast
    seen["refined below 0"] += any(value < 0 for value in raw)
    seen["refined above 10,000"] += any(value > 10000 for value in raw)
    seen["slope below 0"] += any(a < 0 for a in slopes)
    seen["offset below 0"] += any(b < 0 for b in offsets)
    seen["ratio capped"] += any(10000 * I // A > 10000
                                for pixel in rules.pixels(frame) for I, A in zip(pixel, light))
    seen["floor t0 used"] += any(entry < settings[4] for entry in map)
    halves = [I > A for pixel, entry in zip(rules.pixels(frame), map) for I, A in zip(pixel, light)
              if (I - A) * 20000 % max(entry, settings[4]) == 0
              and (I - A) * 10000 % max(entry, settings[4]) != 0]
    seen["half above the light"] += True in halves
    seen["half below the light"] += False in halves
    seen["window cut off"] += settings[1] > 0
    seen["window inside the frame"] += size[0] > 2 * settings[1] > 0 and size[1] > 2 * settings[1]


def group_plain_and_fast(same):
    chance = random.Random(20110)
    seen = dict.fromkeys(("refined below 0", "refined above 10,000", "slope below 0",
                          "offset below 0", "ratio capped", "floor t0 used",
                          "half above the light", "half below the light",
                          "window cut off", "window inside the frame"), 0)
    for turn in range(200):
        size = (chance.randrange(1, 8), chance.randrange(1, 8))
        largest = (30, 60) if turn % 10 == 0 else (3, 3)
        settings = random_settings(chance, *largest)
        if turn % 4 == 1:
            # These bring refined values outside the range.
            settings = (0, 1, 10000, 1) + settings[4:]
        if turn % 4 == 3:
            # 10000/8000 is 1.25, so a difference of 2 is a quotient of 2.5.
            settings = settings[:4] + (8000,) + settings[5:]
        frame = random_frame(chance, count_of(size))
        mask = rules.all_seen(size)
        what = "frame %d" % turn
        found = rules.plain_light(size, settings, mask, frame)
        same(what + ", light", light_of(size, settings, frame), (0, found))
        light = found if turn % 2 else random_light(chance)
        plain = rules.plain_slopes_and_offsets(size, settings, light, mask, frame)
        guide, slopes, offsets = [list(values.values()) for values in plain]
        coarse = rules.coarse_values(size, settings, light, mask, frame)
        same(what + ", guide", rules.guides(mask, frame), guide)
        same(what + ", slopes and offsets",
             rules.slopes_and_offsets(size, settings[1], settings[3], guide, coarse),
             (slopes, offsets))
        number, fast = clear_of(size, settings, light, frame)
        same(what + ", clear", (number, fast), (0, rules.plain_clear(size, settings, light, mask, frame)))
        note_what_happened(seen, settings, light, frame, size, slopes, offsets, guide, fast)
    for thing, times in seen.items():
        same("%s was met" % thing, times > 0, True)


# ---------------------------------------------------------------------------
# Replace and a fresh Clear
# ---------------------------------------------------------------------------

def placed(size, rect, new, frame):
    """The new frame, made pixel by pixel."""
    W, H = size
    column, row, width, height = rect
    after = []
    for p in range(W * H):
        x, y = p % W - column, p // W - row
        inside = 0 <= x < width and 0 <= y < height
        k = y * width + x
        after.extend(new[3 * k:3 * k + 3] if inside else frame[3 * p:3 * p + 3])
    return after


def distance(p, size, rect):
    """Rows or columns to the nearest pixel of the rectangle, the greater of both."""
    W, H = size
    column, row, width, height = rect
    across = min(abs(p % W - x) for x in range(column, column + width))
    down = min(abs(p // W - y) for y in range(row, row + height))
    return max(across, down)


def group_replace_runs(same):
    """After a run of replacements all is as a fresh Clear gives it."""
    chance = random.Random(20111)
    stale = farther = 0
    for run in range(40):
        size = (chance.randrange(5, 14), chance.randrange(5, 14))
        settings = random_settings(chance, 1, 2)
        reach = settings[0] + 2 * settings[1]
        light = random_light(chance)
        frame = random_frame(chance, count_of(size))
        map, picture = clear_of(size, settings, light, frame)[1]
        for turn in range(5):
            rect = random_rect(chance, size)
            new = random_frame(chance, rect[2] * rect[3])
            after = placed(size, rect, new, frame)
            fresh = clear_of(size, settings, light, after)[1]
            same("run %d, replacement %d" % (run, turn),
                 replace_of(size, settings, light, rect, new, frame, map, picture),
                 (0, (after,) + fresh))
            far = [distance(p, size, rect) for p in range(count_of(size))]
            stale += any(d > reach for d in far)
            farther += any(d > settings[0] + settings[1] and map[p] != fresh[0][p]
                           for p, d in enumerate(far))
            frame, (map, picture) = after, fresh
    same("some entries were out of reach", stale > 0, True)
    same("the map moved farther than s+r", farther > 0, True)


def group_replace_reach(same):
    """Within reach all becomes new, whatever it held; outside all stays."""
    chance = random.Random(20112)
    for turn in range(40):
        size = (chance.randrange(1, 11), chance.randrange(1, 11))
        W, H = size
        settings = random_settings(chance, 1, 1)
        reach = settings[0] + 2 * settings[1]
        light = random_light(chance)
        frame = random_frame(chance, W * H)
        map = [chance.randrange(65536) for _ in range(W * H)]
        picture = [chance.randrange(256) for _ in range(3 * W * H)]
        rect = random_rect(chance, size)
        new = random_frame(chance, rect[2] * rect[3])
        after = placed(size, rect, new, frame)
        want_map, want_picture = rules.plain_clear(size, settings, light, rules.all_seen(size), after)
        for p in range(W * H):
            if distance(p, size, rect) > reach:
                want_map[p] = map[p]
                want_picture[3 * p:3 * p + 3] = picture[3 * p:3 * p + 3]
        before = copy.deepcopy((frame, map, picture, new))
        same("replacement %d" % turn,
             replace_of(size, settings, light, rect, new, frame, map, picture),
             (0, (after, want_map, want_picture)))
        same("replacement %d, what was given" % turn, (frame, map, picture, new), before)


# ---------------------------------------------------------------------------
# Haze and Band figure
# ---------------------------------------------------------------------------

def group_haze(same):
    chance = random.Random(20113)
    for turn in range(30):
        size = (chance.randrange(1, 9), chance.randrange(1, 9))
        count = count_of(size)
        light = random_light(chance)
        clean = random_frame(chance, count)
        map = [chance.choice((0, 1, 5000, 9999, 10000, chance.randrange(10001)))
               for _ in range(count)]
        want = []
        for k, J in enumerate(clean):
            t, A = Fraction(map[k // 3], 10000), light[k % 3]
            want.append(math.floor(J * t + A * (1 - t) + Fraction(1, 2)))
        same("haze %d" % turn, haze_of(size, light, clean, map), (0, want))
        same("haze %d, transmission 1" % turn, haze_of(size, light, clean, [10000] * count),
             (0, clean))
        same("haze %d, transmission 0" % turn, haze_of(size, light, clean, [0] * count),
             (0, list(light) * count))
    # 1.4999 goes down, 1.5 goes up.
    for t, want in ((4999, 1), (5000, 2), (5001, 2)):
        same("haze, half, t %d" % t, haze_of((1, 1), (1, 1, 1), [2, 2, 2], [t]), (0, [want] * 3))


def is_nearest(value, true):
    """Whether no neighbouring double is as near to the true quotient."""
    here = abs(Fraction(value) - true)
    around = [math.nextafter(value, end) for end in (-math.inf, math.inf)]
    return all(here < abs(Fraction(other) - true) for other in around)


def group_band(same):
    chance = random.Random(20114)
    for turn in range(60):
        W, H = size = (chance.randrange(1, 20), chance.randrange(1, 20))
        map = [chance.randrange(10001) for _ in range(W * H)]
        start = chance.randrange(H)
        end = chance.randrange(start + 1, H + 1)
        number, (mean, least) = rules.band(size, map, start, end)
        entries = [map[p] for p in range(W * H) if start <= p // W < end]
        true = Fraction(sum(entries), 10000 * len(entries))
        same("band %d" % turn,
             (number, is_nearest(mean, true), is_nearest(least, Fraction(min(entries), 10000))),
             (0, True, True))
    same("band of zeros", rules.band((2, 2), [0] * 4, 0, 2), (0, (0.0, 0.0)))
    same("band, second row alone", rules.band((2, 2), [1, 2, 5000, 10000], 1, 2),
         (0, (0.75, 0.5)))


# ---------------------------------------------------------------------------
# The program's text
# ---------------------------------------------------------------------------

def tabbed(words):
    """A text as the paper shows it, with its spaces made tabs."""
    return words.replace(" ", "\t").encode("ascii")


EXAMPLE = tabbed("size 2 1\nset 0 0 9500 59 1000 1\npx 200 200 200\npx 100 150 180\n")
EXAMPLE_OUT = tabbed("light 200 200 200\nout 500 200 200 200\nout 5250 10 105 162\n")


def group_text_example(same):
    same("whole example", text.clearframe(EXAMPLE), EXAMPLE_OUT)
    same("P3 as text", text.clearframe(EXAMPLE.replace(b"set\t0\t0", b"set\t0\t1")),
         tabbed("light 200 200 200\nout 519 200 200 200\nout 5230 9 104 162\n"))
    same("P4 as text", text.clearframe(tabbed("size 1 1\nset 0 0 9500 59 1000 1\npx 0 0 0\n")),
         tabbed("light 1 1 1\nout 10000 0 0 0\n"))
    run = subprocess.run([sys.executable, "-I", os.path.join(HERE, "text.py")],
                         input=EXAMPLE, stdout=subprocess.PIPE, check=False)
    same("whole example as a program", (run.stdout, run.returncode), (EXAMPLE_OUT, 0))


SET = "set 0 0 9500 59 1000 1\n"
ONE = "size 1 1\n" + SET

BAD_TEXTS = (
    # The first line.
    ("", 9, 1), ("\n", 9, 1), ("size 0 0", 9, 1), ("size 0 0\n", 1, 1), ("size 1 0\n", 1, 1),
    ("size 25 1", 9, 1), ("size 25 1\n", 10, 1), ("size 1 25\n", 10, 1), ("size 25 0\n", 1, 1),
    ("size 1024 256\n", 10, 1), ("size 513 512\n", 1, 1), ("size 1025 1\n", 1, 1),
    ("size 1000 1000\n", 1, 1), ("size 999999 999999\n", 1, 1), ("size 1000000 1\n", 9, 1),
    ("size 0000001 1\n", 9, 1), ("size 01 1\n", 9, 1), ("size 00 1\n", 9, 1),
    ("size +1 1\n", 9, 1), ("size -1 1\n", 9, 1), ("size 1 1 1\n", 9, 1), ("size 1\n", 9, 1),
    ("size\n", 9, 1), ("size 1 \n", 9, 1), ("size  1\n", 9, 1), ("size  1 1\n", 9, 1),
    (" size 1 1\n", 9, 1), ("size 1 1 \n", 9, 1), ("Size 1 1\n", 9, 1), ("sizes 1 1\n", 9, 1),
    ("siz 1 1\n", 9, 1), ("size 1 1\r\n", 9, 1), ("size 1 a\n", 9, 1), ("size 1 1.\n", 9, 1),
    ("size 1 1_0\n", 9, 1), ("px 1 1\n", 9, 1), (SET, 9, 1), ("\n" + ONE, 9, 1),
    ("size 25 x\n", 9, 1), ("size 0 01\n", 9, 1),
    # The second line.
    ("size 1 1\n", 9, 2), ("size 24 24\n", 9, 2), ("size 1 1\n\n", 9, 2),
    ("size 1 1\nset 0 0 9500 59 1000 1", 9, 2), ("size 1 1\nset 0 0 0 59 1000 1", 9, 2),
    ("size 1 1\nset 0 0 0 59 1000 1\n", 2, 2), ("size 1 1\nset 31 0 9500 59 1000 1\n", 2, 2),
    ("size 1 1\nset 0 61 9500 59 1000 1\n", 2, 2), ("size 1 1\nset 0 0 10001 59 1000 1\n", 2, 2),
    ("size 1 1\nset 0 0 9500 0 1000 1\n", 2, 2), ("size 1 1\nset 0 0 9500 585226 1000 1\n", 2, 2),
    ("size 1 1\nset 0 0 9500 59 0 1\n", 2, 2), ("size 1 1\nset 0 0 9500 59 10001 1\n", 2, 2),
    ("size 1 1\nset 0 0 9500 59 1000 0\n", 2, 2), ("size 1 1\nset 0 0 9500 59 1000 1001\n", 2, 2),
    ("size 1 1\nset 31 0 9500 59 1000\n", 9, 2), ("size 1 1\nset 0 0 9500 59 1000 1 1\n", 9, 2),
    ("size 1 1\nset 0 0 9500 59 1000 1 1 1\n", 9, 2),
    ("size 1 1\nset 31 0 9500 59 1000 01\n", 9, 2),
    ("size 1 1\nset 0 0 9500 1000000 1000 1\n", 9, 2), ("size 1 1\npx 1 2 3\n", 9, 2),
    ("size 1 1\nsize 1 1\n", 9, 2), ("size 25 1\nnothing", 10, 1),
    ("size 1 1\nset 0 0 9500 59 1000 1 \n", 9, 2), ("size 1 1\nset 0 0 9500 59  1000 1\n", 9, 2),
    # The pixels and what follows.
    (ONE, 9, 3), (ONE + "\n", 9, 3), (ONE + "px 1 2 3", 9, 3), (ONE + "px 256 2 3\n", 9, 3),
    (ONE + "px 1 256 3\n", 9, 3), (ONE + "px 1 2 999999\n", 9, 3), (ONE + "px 1 2\n", 9, 3),
    (ONE + "px 1 2 3 4\n", 9, 3), (ONE + "px 1 02 3\n", 9, 3), (ONE + "px 1 2 3\r\n", 9, 3),
    (ONE + "px 1 2 3 \n", 9, 3), (ONE + "px 1  2 3\n", 9, 3), (ONE + "PX 1 2 3\n", 9, 3),
    (ONE + SET, 9, 3), (ONE + "px 1 2 3\n\n", 9, 4),
    (ONE + "px 1 2 3\nx", 9, 4), (ONE + "px 1 2 3\npx 1 2 3\n", 9, 4),
    (ONE + "px 1 2 3\n ", 9, 4), (ONE + "px 1 2 3\n\0", 9, 4),
    ("size 2 1\n" + SET + "px 1 2 3\n", 9, 4),
    ("size 2 1\n" + SET + "px 1 2 3\n\npx 1 2 3\n", 9, 4),
    ("size 2 3\n" + SET + "px 1 2 3\n" * 5, 9, 8), ("size 2 3\n" + SET + "px 1 2 3\n" * 7, 9, 9),
)


def group_text_refusals(same):
    for words, number, line in BAD_TEXTS:
        same("text %r" % words, text.clearframe(tabbed(words)),
             tabbed("bad %d %d\n" % (number, line)))
    for odd in (b"\xb2", b"\xd9\xa3", b"\xff", b"\0", b" ", b"\x0b", b"\x0c", b"\x85", b"/", b":"):
        same("text with %r as a number" % odd, text.clearframe(b"size\t1\t" + odd + b"\n"),
             b"bad\t9\t1\n")
    same("spaces for tabs", text.clearframe(b"size 1 1\n"), b"bad\t9\t1\n")
    long = EXAMPLE + b"x" * 100000
    same("long rest", text.clearframe(long), b"bad\t9\t5\n")


NUMBER = rb"(0|[1-9][0-9]{0,5})"
BYTE = rb"([0-9]|[1-9][0-9]|1[0-9][0-9]|2[0-4][0-9]|25[0-5])"
SIZE_LINE = re.compile(rb"size" + (rb"\t" + NUMBER) * 2 + rb"\n")
SET_LINE = re.compile(rb"set" + (rb"\t" + NUMBER) * 6 + rb"\n")
PX_LINE = re.compile(rb"px" + (rb"\t" + BYTE) * 3 + rb"\n")
SET_ENDS = ((0, 30), (0, 60), (1, 10000), (1, 585225), (1, 10000), (1, 1000))


def read_by_patterns(data):
    """A second reader: ((number, line), None) or (None, (size, settings, frame))."""
    first = SIZE_LINE.match(data)
    if not first:
        return (9, 1), None
    W, H = size = tuple(int(field) for field in first.groups())
    if W == 0 or H == 0 or W > 1024 or H > 1024 or W * H > 262144:
        return (1, 1), None
    if W > 24 or H > 24:
        return (10, 1), None
    second = SET_LINE.match(data, first.end())
    if not second:
        return (9, 2), None
    settings = tuple(int(field) for field in second.groups())
    for value, (least, most) in zip(settings, SET_ENDS):
        if value < least or value > most:
            return (2, 2), None
    at, frame = second.end(), []
    for line in range(3, W * H + 3):
        pixel = PX_LINE.match(data, at)
        if not pixel:
            return (9, line), None
        frame += [int(field) for field in pixel.groups()]
        at = pixel.end()
    if at < len(data):
        return (9, W * H + 3), None
    return None, (size, settings, frame)


def text_by_patterns(data):
    """The output by the second reader and the plain path."""
    refused, given = read_by_patterns(data)
    if refused:
        return "bad\t%d\t%d\n" % refused
    size, settings, frame = given
    mask = [255] * count_of(size)
    light = rules.plain_light(size, settings, mask, frame)
    map, picture = rules.plain_clear(size, settings, light, mask, frame)
    output = "light\t%d\t%d\t%d\n" % light
    for p, entry in enumerate(map):
        output += "out\t%d\t%d\t%d\t%d\n" % (entry, *picture[3 * p:3 * p + 3])
    return output


def text_of(size, settings, frame):
    """The text of a frame."""
    words = "size %d %d\n" % size + "set %d %d %d %d %d %d\n" % settings
    for p in range(count_of(size)):
        words += "px %d %d %d\n" % tuple(frame[3 * p:3 * p + 3])
    return tabbed(words)


def spoiled(chance, data):
    """A text with one random edit, often in its first line."""
    at = chance.choice((chance.randrange(5, 9), chance.randrange(len(data) + 1)))
    byte = chance.choice((b"0", b"1", b"9", b"000", b"\t", b"\n", b"\r", b" ", b"x", b"-", b"\xff"))
    lines = data.splitlines(keepends=True)
    k = chance.randrange(len(lines))
    edits = (
        data[:at] + byte + data[at:],
        data[:at] + data[at + 1:],
        data[:at] + byte + data[at + 1:],
        data[:at],
        b"".join(lines[:k] + lines[k + 1:]),
        b"".join(lines[:k] + lines[k:k + 1] + lines[k:]),
        data,
    )
    return chance.choice(edits)


def group_text_random(same):
    chance = random.Random(20115)
    seen = dict.fromkeys(("light", "bad 1", "bad 2", "bad 9", "bad 10"), 0)
    for turn in range(1200):
        size = (chance.randrange(1, 4), chance.randrange(1, 4))
        settings = random_settings(chance, 30, 60)
        data = text_of(size, settings, random_frame(chance, count_of(size)))
        data = spoiled(chance, data)
        got = text.clearframe(data)
        same("text %r" % data, got, text_by_patterns(data).encode("ascii"))
        fields = got.decode("ascii").split("\t")
        seen["light" if fields[0] == "light" else "bad " + fields[1]] += 1
    for thing, times in seen.items():
        same("%s was met" % thing, times > 0, True)


def group_text_largest(same):
    chance = random.Random(20116)
    size, settings = (24, 24), (2, 3, 9500, 59, 1000, 10)
    frame = [chance.randrange(256) for _ in range(3 * 24 * 24)]
    data = text_of(size, settings, frame)
    same("24 by 24", text.clearframe(data), text_by_patterns(data).encode("ascii"))
    same("24 by 24, a byte more", text.clearframe(data + b"\n"), b"bad\t9\t579\n")
    same("24 by 24, a byte less", text.clearframe(data[:-1]), b"bad\t9\t578\n")


# ---------------------------------------------------------------------------
# The run
# ---------------------------------------------------------------------------

GROUPS = (
    ("P1 to P4", group_p1_to_p4),
    ("P5 to P11", group_p5_to_p11),
    ("figures that are run only", group_run_only),
    ("rectangles and bands", group_rectangles_and_bands),
    ("order of refusals, single faults and pairs", group_refusal_order),
    ("order of refusals, every fault at once", group_every_fault_at_once),
    ("ends of the ranges", group_range_ends),
    ("light by hand", group_light_by_hand),
    ("errors seen in other clearers", group_errors_of_others),
    ("rounding in the recovery", group_rounding),
    ("the simulator's bound", group_bound),
    ("plain path and fast path", group_plain_and_fast),
    ("runs of replacements and a fresh clear", group_replace_runs),
    ("reach of a replacement", group_replace_reach),
    ("haze", group_haze),
    ("band figure", group_band),
    ("text, whole example", group_text_example),
    ("text, refusals by hand", group_text_refusals),
    ("text, random edits", group_text_random),
    ("text, largest frame", group_text_largest),
) + masktest.GROUPS + counttest.GROUPS + exacttest.GROUPS + ppmtest.GROUPS + depthtest.GROUPS + settingtest.GROUPS


def run_group(name, group):
    """Runs one group and prints its line.  Gives its checks."""
    checks = Checks()
    try:
        group(checks.same)
    except Exception:
        checks.failed.append("%s stopped:\n%s" % (name, traceback.format_exc()))
    if checks.done == 0:
        checks.failed.append("%s made no check" % name)
    print("%s: %d checks, %d failed" % (name, checks.done, len(checks.failed)))
    for failure in checks.failed[:10]:
        print("  FAILED " + failure)
    sys.stdout.flush()
    return checks


def main():
    results = [run_group(name, group) for name, group in GROUPS]
    done = sum(checks.done for checks in results)
    failed = sum(len(checks.failed) for checks in results)
    if failed:
        print("second program: %d checks, %d FAILED" % (done, failed))
        return 1
    print("second program: %d checks, all as they should be" % done)
    return 0


if __name__ == "__main__":
    sys.exit(main())
