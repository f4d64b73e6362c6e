"""The checks of the comparisons, which selftest.py runs.

This file holds lines and parts worked out by hand, laws that follow from the
words of request Six of document 02, and the method itself: a minimum by blocks
whose every comparison is counted where it is made.  It gives the minima of
direct search, and its count is the one of rules.py.
"""

import math
import random

import rules

MOST_S = 30


def uncounted(answer):
    """What a call answers without its count.  A refusal has none."""
    number, values = answer
    return number, values and values[0]


def counted(answer):
    """The count alone."""
    number, values = answer
    return number, values and values[1]


# ---------------------------------------------------------------------------
# By hand
# ---------------------------------------------------------------------------

# The comparisons of lines of 1, 2, 3 and so on.
BY_HAND = {
    0: [0, 0, 0, 0, 0],
    # Blocks of 3.  Of 4 samples the windows of the third and the fourth reach into two.
    1: [0, 2, 4, 6, 8, 10, 12, 14, 16],
    # Blocks of 5.  Of 6 samples the windows from the fourth on; of 7 one more; of 8 no further one.
    2: [0, 2, 4, 6, 8, 11, 14, 16, 18, 20, 23, 26, 28],
    # A line that is no longer than one block.
    30: [0, 2, 4, 6, 8],
}


def group_by_hand(same):
    for s, line in BY_HAND.items():
        same("lines of radius %d" % s,
             [rules.line_comparisons(n, s) for n in range(1, len(line) + 1)], line)
    same("blocks of 3", rules.blocks_of(7, 1), [[0, 1, 2], [3, 4, 5], [6]])
    # Radius 7: blocks of 15.  640 samples are 42 blocks and 10 samples, so 42 borders: 1194 in the blocks, 14 windows at each border.
    same("640 samples", rules.line_comparisons(640, 7), 2 * (640 - 43) + 42 * 14)
    same("a frame", rules.frame_comparisons((4, 6), 1), 6 * 6 + 4 * 10)
    same("the paper's sizes", [rules.budget(size, 7) for size in ((1, 1), (2, 1), (512, 512))],
         [0, 2, 512 * rules.line_comparisons(512, 7) * 2])


def by_formula(n, s):
    """The line once more: borders between blocks, and the windows at each, fewer at the last."""
    blocks = -(-n // (2 * s + 1))
    last = n - (blocks - 1) * (2 * s + 1)
    windows = (blocks - 2) * 2 * s + min(2 * s, s + last) if blocks > 1 else 0
    return 2 * (n - blocks) + windows


def group_lines(same):
    for s in range(MOST_S + 1):
        whole = 2 * s + 1
        lengths = [*range(1, 4 * whole + 2), 127, 128, 255, 256, 640, 1023, 1024]
        got = [rules.line_comparisons(n, s) for n in lengths]
        same("radius %d, the borders' count" % s, got, [by_formula(n, s) for n in lengths])
        same("radius %d, at most 3 a sample" % s, [n for n, taken in zip(lengths, got) if taken > 3 * n], [])
        same("radius %d, one block" % s, got[:whole], [2 * (n - 1) for n in range(1, whole + 1)])
        same("radius %d, a block more" % s,
             [rules.line_comparisons(n + whole, s) - rules.line_comparisons(n, s) for n in range(whole, 3 * whole)],
             [6 * s] * (2 * whole))
        # A second block of one sample takes nothing for itself; s + 1 windows reach into it.
        same("radius %d, the first of a second block" % s, rules.line_comparisons(whole + 1, s),
             4 * s + (s + 1 if s else 0))
    same("radius 0", {rules.line_comparisons(n, 0) for n in range(1, 1025)}, {0})


def group_frames(same):
    chance = random.Random(20601)
    for turn in range(200):
        W, H = size = (chance.randrange(1, 257), chance.randrange(1, 257))
        s = chance.choice((0, 1, 7, 30, chance.randrange(31)))
        taken = rules.frame_comparisons(size, s)
        same("%d by %d, radius %d" % (W, H, s), taken, H * by_formula(W, s) + W * by_formula(H, s))
        same("%d by %d, at most 6 a pixel" % size, taken <= 6 * W * H, True)
        same("%d by %d turned" % size, rules.frame_comparisons((H, W), s), taken)
        same("%d by %d, the budget" % size, rules.budget(size, s), taken)


# ---------------------------------------------------------------------------
# The method itself
# ---------------------------------------------------------------------------

class Counter:
    """Takes the smaller of two and counts how often it was asked."""

    def __init__(self):
        self.asked = 0

    def least(self, one, other):
        self.asked += 1
        return other if other < one else one


def running(line, counter):
    """The least of all samples up to each."""
    least = line[:1]
    for sample in line[1:]:
        least.append(counter.least(least[-1], sample))
    return least


def by_blocks(line, s, counter):
    """For each sample the least of its window, by blocks of 2s+1, as van Herk and Gil and Werman give it."""
    whole = 2 * s + 1
    upto, since = [], []
    for first in range(0, len(line), whole):
        block = line[first:first + whole]
        upto += running(block, counter)
        since += running(block[::-1], counter)[::-1]
    minima = []
    for i in range(len(line)):
        left, right = max(0, i - s), min(len(line) - 1, i + s)
        if left // whole != right // whole:
            minima.append(counter.least(since[left], upto[right]))
        else:
            # The window begins or ends with its block.
            minima.append(upto[right] if left % whole == 0 else since[left])
    return minima


def by_search(line, s):
    return [min(line[max(0, i - s):i + s + 1]) for i in range(len(line))]


def group_method_on_lines(same):
    chance = random.Random(20602)
    for s in range(MOST_S + 1):
        whole = 2 * s + 1
        lengths = {1, 2, 3, max(1, s), s + 1, max(1, 2 * s), whole, whole + 1, 2 * whole - 1, 2 * whole, 2 * whole + 1,
                   *(chance.randrange(1, 300) for _ in range(12))}
        for n in sorted(lengths):
            # Few values bring ties; a hidden sample never wins.
            most = chance.choice((2, 5, 10001))
            line = [math.inf if chance.randrange(5) == 0 else chance.randrange(most) for _ in range(n)]
            counter = Counter()
            same("%d samples, radius %d" % (n, s), by_blocks(line, s, counter), by_search(line, s))
            same("%d samples, radius %d, count" % (n, s), counter.asked, rules.line_comparisons(n, s))


def group_method_on_frames(same):
    """Rows, then columns, hidden pixels among them: the dark values and the count of Light."""
    chance = random.Random(20603)
    for turn in range(60):
        W, H = size = (chance.randrange(1, 40), chance.randrange(1, 40))
        s = chance.choice((0, 1, 2, 7, 30))
        frame = [chance.randrange(256) for _ in range(3 * W * H)]
        mask = [chance.randrange(3) for _ in range(W * H)]
        mask[chance.randrange(W * H)] = 9
        counter = Counter()
        least = [min(pixel) if byte else math.inf for byte, pixel in zip(mask, rules.pixels(frame))]
        rows = [by_blocks(least[y * W:(y + 1) * W], s, counter) for y in range(H)]
        columns = [by_blocks(list(column), s, counter) for column in zip(*rows)]
        dark = [value if byte else None for byte, value in zip(mask, (v for row in zip(*columns) for v in row))]
        what = "%d by %d, radius %d" % (W, H, s)
        same(what, dark, rules.dark_values(size, s, mask, frame))
        same(what + ", count", (0, counter.asked),
             counted(rules.light(size, (s, 0, 9500, 59, 1000, 1), mask, frame, rules.work_needed(size))))


# ---------------------------------------------------------------------------
# The calls
# ---------------------------------------------------------------------------

def any_bytes(chance, count):
    palette = [chance.randrange(256) for _ in range(chance.choice((1, 2, 256)))]
    return [chance.choice(palette) for _ in range(count)]


def group_calls(same):
    """Light and Clear give the same number, whatever bytes, mask, light and other settings are."""
    chance = random.Random(20604)
    for turn in range(40):
        W, H = size = (chance.randrange(1, 20), chance.randrange(1, 20))
        s, count, work = chance.choice((0, 1, 2, 5, 30)), W * H, rules.work_needed(size)
        for mask in ([1] * count, [0] * (count - 1) + [7], any_bytes(chance, count), [0] * count):
            settings = (s, chance.randrange(4), chance.choice((1, 9500)), 59, chance.choice((1, 10000)), chance.choice((1, 1000)))
            frame = any_bytes(chance, 3 * count)
            what = "%d by %d, radius %d" % (W, H, s)
            if any(mask):
                same(what + ", light", counted(rules.light(size, settings, mask, frame, work)), (0, rules.budget(size, s)))
            else:
                same(what + ", nothing seen", rules.light(size, settings, mask, frame, work), (14, None))
            light = tuple(chance.randrange(1, 256) for _ in range(3))
            same(what + ", clear", counted(rules.clear(size, settings, light, mask, frame, count, 3 * count, work)),
                 (0, rules.budget(size, s)))


def replace_count(chance, size, s, r, rect):
    """The count of a Replace of any bytes under any mask."""
    count = size[0] * size[1]
    return counted(rules.replace(
        size, (s, r, 9500, 59, 1000, 1), (200, 180, 190), rect, any_bytes(chance, 3 * rect[2] * rect[3]),
        any_bytes(chance, count), any_bytes(chance, 3 * count), [7] * count, [8] * (3 * count), rules.work_needed(size)))


# Size, s, r, rectangle, and the columns and rows of the part.
PARTS = (
    # 2s+4r is 2: within the frame on all sides, at an edge, at the corners.
    ((20, 16), 1, 0, (9, 8, 1, 1), (5, 5)), ((20, 16), 1, 0, (9, 8, 3, 2), (7, 6)),
    ((20, 16), 1, 0, (0, 8, 1, 1), (3, 5)), ((20, 16), 1, 0, (19, 8, 1, 1), (3, 5)),
    ((20, 16), 1, 0, (9, 0, 1, 1), (5, 3)), ((20, 16), 1, 0, (9, 15, 1, 1), (5, 3)),
    ((20, 16), 1, 0, (0, 0, 1, 1), (3, 3)), ((20, 16), 1, 0, (19, 15, 1, 1), (3, 3)),
    ((20, 16), 1, 0, (2, 2, 1, 1), (5, 5)), ((20, 16), 1, 0, (1, 1, 1, 1), (4, 4)),
    # A reach of 4 is r alone; with s it is 8.
    ((20, 16), 0, 1, (9, 8, 1, 1), (9, 9)), ((20, 16), 2, 1, (9, 8, 1, 1), (17, 16)),
    ((20, 16), 2, 1, (0, 0, 1, 1), (9, 9)), ((20, 16), 2, 1, (0, 5, 20, 1), (20, 14)),
    # No reach at all, and one beyond all edges.
    ((20, 16), 0, 0, (3, 4, 5, 6), (5, 6)), ((20, 16), 30, 60, (3, 4, 5, 6), (20, 16)),
    ((20, 16), 3, 2, (0, 0, 20, 16), (20, 16)), ((1, 1), 7, 30, (0, 0, 1, 1), (1, 1)),
)


def group_parts(same):
    chance = random.Random(20605)
    for size, s, r, rect, part in PARTS:
        what = "%s of %s, s %d, r %d" % (rect, size, s, r)
        same(what + ", the part", rules.part_around(size, rect, 2 * s + 4 * r), part)
        same(what, replace_count(chance, size, s, r, rect), (0, rules.budget(part, s)))
    for turn in range(60):
        W, H = size = (chance.randrange(1, 30), chance.randrange(1, 30))
        s, r = chance.choice((0, 1, 2, 4)), chance.choice((0, 0, 1, 2))
        column, row = chance.randrange(W), chance.randrange(H)
        rect = (column, row, chance.randrange(1, W - column + 1), chance.randrange(1, H - row + 1))
        # The part as the pixels that are near enough, each of them looked at.
        near = [(x, y) for y in range(H) for x in range(W)
                if min(max(abs(x - column - i), abs(y - row - j)) for i in range(rect[2]) for j in range(rect[3])) <= 2 * s + 4 * r]
        part = (len({x for x, y in near}), len({y for x, y in near}))
        same("part %d is whole" % turn, len(near), part[0] * part[1])
        count = part[0] * part[1]
        same("part %d as a frame" % turn, replace_count(chance, size, s, r, rect),
             counted(rules.clear(part, (s, r, 9500, 59, 1000, 1), (1, 2, 3), [1] * count, [9] * (3 * count), count, 3 * count,
                                 rules.work_needed(part))))


def blocks_taken(blocks, windows):
    """The request's count, of blocks and windows that are named."""
    return (sum(2 * (len(block) - 1) for block in blocks)
            + sum(len([block for block in blocks if window & block]) == 2 for window in windows))


def group_other_readings(same):
    """What other readings of Replace's part would give, so that they are told apart."""
    # Radius 2 and no filter: the part is columns 7 to 15 of the row.
    size, s, r, rect = (30, 1), 2, 0, (11, 0, 1, 1)
    places = set(range(7, 16))
    cut = [set(range(i - s, i + s + 1)) & places for i in sorted(places)]
    uncut = [set(range(i - s, i + s + 1)) for i in sorted(places)]
    own = [set(range(7, 12)), set(range(12, 16))]
    frames = [set(range(7, 10)), set(range(10, 15)), {15}]
    same("blocks of its own", (0, blocks_taken(own, cut)), replace_count(random.Random(1), size, s, r, rect))
    same("readings", (blocks_taken(own, cut), blocks_taken(frames, cut),
                      blocks_taken([set(range(5, 10)), set(range(10, 15)), set(range(15, 20))], uncut)), (18, 19, 31))
    same("a reach of s+2r", rules.line_comparisons(rules.part_around(size, rect, s + 2 * r)[0], s), 8)
    same("the whole frame", rules.budget(size, s), 68)


def group_budget(same):
    """0 for what is refused, and for nothing else but radius 0 and one pixel."""
    widest = 2 ** 64 - 1
    for size in ((0, 1), (1, 0), (0, 0), (1025, 1), (1, 1025), (513, 512), (512, 513), (1024, 257), (257, 1024),
                 (2 ** 32, 2 ** 32), (2 ** 63, 2), (widest, widest), (widest, 1), (1, widest)):
        for s in (0, 1, 7, 30, 31):
            same("size %s, radius %d" % (size, s), rules.budget(size, s), 0)
    for s in (31, 32, 255, 2 ** 32, widest):
        same("radius %d" % s, [rules.budget(size, s) for size in ((1, 1), (640, 360), (512, 512))], [0, 0, 0])
    for size in ((1024, 1), (1, 1024), (1024, 256), (256, 1024), (512, 512), (2, 1)):
        same("size %s" % (size,), [rules.budget(size, s) > 0 for s in (0, 1, 30)], [False, True, True])
    same("one pixel", {rules.budget((1, 1), s) for s in range(31)}, {0})


GROUPS = (
    ("comparisons, by hand", group_by_hand),
    ("comparisons, lines", group_lines),
    ("comparisons, frames", group_frames),
    ("comparisons, the method on lines", group_method_on_lines),
    ("comparisons, the method on frames", group_method_on_frames),
    ("comparisons, whatever bytes and mask are", group_calls),
    ("comparisons, parts of a frame", group_parts),
    ("comparisons, other readings of a part", group_other_readings),
    ("comparisons, the budget", group_budget),
)
