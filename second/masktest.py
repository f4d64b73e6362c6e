"""The checks of the mask, which selftest.py runs.

This file holds the figures of document 01 under all-seen masks, small frames
worked out by hand, laws that follow from the words of request Three of document
02, and comparisons on seeded frames: the fast path with the plain path, Replace
with a fresh Clear.

A law that needs no rule for hidden pixels: where all hidden pixels lie at the
frame's edges, the seen part is cleared as a frame of its own, since a window is
cut off at a frame's edge in the same way.
"""

import copy
import random

import rules
from counttest import uncounted

SEEN_BYTES = (1, 2, 128, 255)
PLAIN = (0, 0, 9500, 59, 1000, 1)
P2_FRAME = [200, 200, 200, 100, 150, 180]


def count_of(size):
    return size[0] * size[1]


# ---------------------------------------------------------------------------
# Calls with all buffers of the right length, the answers without their counts
# ---------------------------------------------------------------------------

def light_of(size, settings, mask, frame):
    return uncounted(rules.light(size, settings, mask, frame, rules.work_needed(size)))


def clear_of(size, settings, light, mask, frame):
    count = count_of(size)
    return uncounted(rules.clear(size, settings, light, mask, frame, count, 3 * count,
                                 rules.work_needed(size)))


def replace_of(size, settings, light, rect, new, mask, frame, map, picture):
    return uncounted(rules.replace(size, settings, light, rect, new, mask, frame, map, picture,
                                   rules.work_needed(size)))


# ---------------------------------------------------------------------------
# Masks, frames and settings
# ---------------------------------------------------------------------------

def kinds(chance, size):
    """What is seen, by its kind: for each a test of column and row."""
    W, H = size
    step, start = chance.randrange(2, 4), chance.randrange(2)
    one = (chance.randrange(W), chance.randrange(H))
    hood = chance.randrange(H + 1)
    few, many = chance.randrange(1, 4), chance.randrange(5, 8)
    return {
        "all seen": lambda x, y: True,
        "all hidden": lambda x, y: False,
        "stripes of columns": lambda x, y: x % step == start % step,
        "stripes of rows": lambda x, y: y % step == start % step,
        "a single seen pixel": lambda x, y: (x, y) == one,
        "single seen pixels": lambda x, y: x % 3 == start and y % 3 == start,
        "a single hidden pixel": lambda x, y: (x, y) != one,
        "a hidden border": lambda x, y: 0 < x < W - 1 and 0 < y < H - 1,
        "a hood": lambda x, y: y < hood,
        "random, few": lambda x, y: chance.randrange(8) < few,
        "random, many": lambda x, y: chance.randrange(8) < many,
    }


def mask_of(chance, size, kind):
    """A mask of a kind; its seen bytes are one byte of four, or all of them mixed."""
    W, H = size
    is_seen = kinds(chance, size)[kind]
    bytes = chance.choice([(byte,) for byte in SEEN_BYTES] + [SEEN_BYTES])
    return [chance.choice(bytes) if is_seen(p % W, p // W) else 0 for p in range(W * H)]


KINDS = tuple(kinds(random.Random(0), (1, 1)))


def any_frame(chance, count):
    """A frame of few colours or of many."""
    palette = [chance.randrange(256) for _ in range(chance.choice((2, 5, 256)))]
    return [chance.choice(palette) for _ in range(3 * count)]


def any_settings(chance, largest_s, largest_r):
    return (chance.randrange(largest_s + 1), chance.randrange(largest_r + 1),
            chance.choice((1, 9500, 10000)), chance.choice((1, 59, 585225)),
            chance.choice((1, 1000, 10000)), chance.choice((1, 300, 500, 1000)))


def any_light(chance):
    return tuple(chance.choice((1, 255, chance.randrange(1, 256))) for _ in range(3))


def any_rect(chance, size):
    W, H = size
    column, row = chance.randrange(W), chance.randrange(H)
    return (column, row, chance.randrange(1, min(3, W - column) + 1),
            chance.randrange(1, min(3, H - row) + 1))


# ---------------------------------------------------------------------------
# The paper's figures, all seen
# ---------------------------------------------------------------------------

def group_all_seen(same):
    grey = (200, 200, 200)
    cases = (
        ("P1", (1, 1), 0, [200, 150, 100], (200, 150, 100), ([500], [200, 150, 100])),
        ("P2", (2, 1), 0, P2_FRAME, grey, ([500, 5250], [200, 200, 200, 10, 105, 162])),
        ("P3", (2, 1), 1, P2_FRAME, grey, ([519, 5230], [200, 200, 200, 9, 104, 162])),
        ("P4", (1, 1), 0, [0, 0, 0], (1, 1, 1), ([10000], [0, 0, 0])),
    )
    for name, size, r, frame, light, cleared in cases:
        settings = (0, r) + PLAIN[2:]
        for first in SEEN_BYTES:
            for last in SEEN_BYTES:
                mask = ([first] + [last] * count_of(size))[:count_of(size)]
                what = "%s, mask %s" % (name, mask)
                same(what, light_of(size, settings, mask, frame), (0, light))
                same(what, clear_of(size, settings, light, mask, frame), (0, cleared))
    for byte in range(1, 256):
        same("a mask of %d" % byte, light_of((1, 1), PLAIN, [byte], [9, 8, 7]), (0, (9, 8, 7)))
        same("n under a mask of %d" % byte,
             rules.window_sizes((3, 3), 1, rules.seen_only([byte] * 9, [0] * 9)),
             [4, 6, 4, 6, 9, 6, 4, 6, 4])


# ---------------------------------------------------------------------------
# By hand
# ---------------------------------------------------------------------------

def group_by_hand(same):
    # P1 beside black paint: seen, the paint pulls the dark value and the map.
    frame, light = [200, 150, 100, 0, 0, 0], (200, 150, 100)
    wide = (1, 1) + PLAIN[2:]
    same("paint, light", light_of((2, 1), wide, [1, 0], frame), (0, light))
    same("paint, clear", clear_of((2, 1), wide, light, [1, 0], frame), (0, ([500, 10000], frame)))
    same("paint that is seen", clear_of((2, 1), wide, light, [1, 1], frame),
         (0, ([10000, 10000], frame)))
    # P3 with a hidden pixel behind it, before it and in the middle, all within the windows.
    for mask, r in (([1, 1, 0], 1), ([0, 1, 1], 1), ([1, 0, 1], 2)):
        frame = [7, 77, 177] * 3
        seen = [p for p in range(3) if mask[p]]
        for p, colour in zip(seen, (P2_FRAME[:3], P2_FRAME[3:])):
            frame[3 * p:3 * p + 3] = colour
        map, picture = [10000] * 3, list(frame)
        map[seen[0]], map[seen[1]] = 519, 5230
        picture[3 * seen[1]:3 * seen[1] + 3] = [9, 104, 162]
        settings = (0, r) + PLAIN[2:]
        same("P3 under %s" % mask, clear_of((3, 1), settings, (200,) * 3, mask, frame),
             (0, (map, picture)))
        same("P3's lines under %s" % mask,
             rules.plain_slopes_and_offsets((3, 1), settings, (200,) * 3, mask, frame)[1:],
             ({p: -28381 for p in seen}, {p: 17560215 for p in seen}))
    # The brightest and lightest pixel is hidden.
    same("no candidate", light_of((3, 1), PLAIN, [1, 0, 1], [9, 9, 9, 255, 255, 255, 20, 20, 20]),
         (0, (20, 20, 20)))
    # Two of four are seen: half of them is one, and the second would be brighter.
    half = (0, 0, 9500, 59, 1000, 500)
    frame = [50, 50, 50, 90, 90, 90, 40, 200, 200, 60, 60, 60]
    same("m of two", light_of((4, 1), half, [1, 0, 2, 0], frame), (0, (50, 50, 50)))
    same("m of all", light_of((4, 1), (0, 0, 9500, 59, 1000, 1000), [1, 0, 2, 0], frame),
         (0, (40, 200, 200)))
    # A tie between the first and the last seen pixel goes to the first of them.
    same("a tie", light_of((4, 1), half, [0, 1, 1, 1], [30, 20, 10, 10, 20, 30, 9, 9, 9, 30, 10, 20]),
         (0, (10, 20, 30)))


def group_m(same):
    for seen, share, want in ((999, 1, 1), (1000, 1, 1), (1999, 1, 1), (2000, 1, 2),
                              (5, 1000, 5), (5, 399, 1), (5, 400, 2), (1, 1, 1)):
        same("m of %d at %d" % (seen, share), rules.candidate_count(seen, share), want)
    # 1000 by 2 as in P7, the pixel ranked second brighter; hidden ones at the end.
    frame = [0] * 6000
    frame[0:3], frame[15:18] = [100, 100, 100], [90, 255, 255]
    for hidden, want in ((0, (90, 255, 255)), (1, (100, 100, 100)), (1000, (100, 100, 100)),
                         (1994, (100, 100, 100))):
        mask = [1] * (2000 - hidden) + [0] * hidden
        same("light with %d hidden" % hidden, light_of((1000, 2), PLAIN, mask, frame), (0, want))


def group_copy(same):
    """An entry of 10,000 gives the byte itself, so a copied colour follows from the entry."""
    wrong = [(I, A) for I in range(256) for A in range(1, 256)
             if rules.cleared_channel(I, A, 10000) != I]
    same("bytes that 10,000 changes", wrong, [])


# ---------------------------------------------------------------------------
# Refusals
# ---------------------------------------------------------------------------

def group_refusals(same):
    """14 is Light's alone, and 4 comes before it.  The pairs stand in selftest.py."""
    size, settings, light = (3, 2), (1, 1, 9500, 59, 1000, 1), (200, 180, 190)
    frame, hidden = list(range(60, 78)), [0] * 6
    same("light of nothing", light_of(size, settings, hidden, frame), (14, None))
    same("clear of nothing", clear_of(size, settings, light, hidden, frame),
         (0, ([10000] * 6, frame)))
    same("replace under nothing",
         replace_of(size, settings, light, (1, 0, 2, 1), [1, 2, 3, 4, 5, 6], hidden, frame,
                    [7] * 6, [8] * 18),
         (0, (frame[:3] + [1, 2, 3, 4, 5, 6] + frame[9:], [10000] * 6,
              frame[:3] + [1, 2, 3, 4, 5, 6] + frame[9:])))
    for p in range(6):
        mask = [0] * p + [255] + [0] * (5 - p)
        same("pixel %d alone" % p, light_of(size, settings, mask, frame),
             (0, tuple(frame[3 * p:3 * p + 3])))
    for mask in ([0] * 5, [0] * 7, [], [1] * 5, [1] * 7, [0] * 6 + [1], [1] * 18):
        same("light, mask %s" % mask, light_of(size, settings, mask, frame), (4, None))
        same("clear, mask %s" % mask, clear_of(size, settings, light, mask, frame), (4, None))
        same("replace, mask %s" % mask,
             replace_of(size, settings, light, (1, 0, 2, 1), [1] * 6, mask, frame, [7] * 6, [8] * 18),
             (4, None))


# ---------------------------------------------------------------------------
# Plain path and fast path
# ---------------------------------------------------------------------------

def lights_agree(same, what, size, settings, mask, frame):
    """Both paths' light; whether an m of all pixels would have given another one."""
    if not any(mask):
        same(what + ", light", light_of(size, settings, mask, frame), (14, None))
        return False
    found = rules.plain_light(size, settings, mask, frame)
    same(what + ", light", light_of(size, settings, mask, frame), (0, found))
    dark = rules.dark_values(size, settings[0], mask, frame)
    m = rules.candidate_count(count_of(size), settings[5])
    wrong = rules.brightest(frame, rules.candidates(dark, m))
    return tuple(max(1, channel) for channel in wrong) != found


def group_plain_and_fast(same):
    chance = random.Random(20301)
    other_m = other_map = 0
    for turn in range(20):
        for kind in KINDS:
            size = (chance.randrange(1, 8), chance.randrange(1, 8))
            settings = any_settings(chance, *((30, 60) if turn % 10 == 0 else (3, 3)))
            mask, frame = mask_of(chance, size, kind), any_frame(chance, count_of(size))
            light = any_light(chance)
            what = "%s %d" % (kind, turn)
            other_m += lights_agree(same, what, size, settings, mask, frame)
            number, (map, picture) = clear_of(size, settings, light, mask, frame)
            same(what, (number, (map, picture)),
                 (0, rules.plain_clear(size, settings, light, mask, frame)))
            hidden = [p for p in range(count_of(size)) if mask[p] == 0]
            same(what + ", hidden pixels", [(map[p], picture[3 * p:3 * p + 3]) for p in hidden],
                 [(10000, frame[3 * p:3 * p + 3]) for p in hidden])
            bare = clear_of(size, settings, light, rules.all_seen(size), frame)[1][0]
            other_map += any(map[p] != bare[p] for p in range(count_of(size)) if mask[p])
    same("an m of all pixels would show", other_m > 0, True)
    same("a mask moves seen entries", other_map > 0, True)


def group_hidden_colours(same):
    """What a hidden pixel shows matters to its own colour alone."""
    chance = random.Random(20302)
    for turn in range(10):
        for kind in KINDS:
            size = (chance.randrange(1, 9), chance.randrange(1, 9))
            settings, light = any_settings(chance, 2, 2), any_light(chance)
            mask, frame = mask_of(chance, size, kind), any_frame(chance, count_of(size))
            other = [byte if mask[q // 3] else chance.choice((0, 255, chance.randrange(256)))
                     for q, byte in enumerate(frame)]
            bytes = [mask_byte and chance.choice(SEEN_BYTES) for mask_byte in mask]
            what = "%s %d" % (kind, turn)
            same(what + ", light", light_of(size, settings, bytes, other),
                 light_of(size, settings, mask, frame))
            map, picture = clear_of(size, settings, light, mask, frame)[1]
            want = [byte if mask[q // 3] else other[q] for q, byte in enumerate(picture)]
            same(what + ", clear", clear_of(size, settings, light, bytes, other), (0, (map, want)))


# ---------------------------------------------------------------------------
# Hidden edges
# ---------------------------------------------------------------------------

def part_of(values, each, size, rect):
    """The part of a frame or map within a rectangle."""
    W, H = size
    column, row, width, height = rect
    return [value for y in range(row, row + height)
            for value in values[each * (y * W + column):each * (y * W + column + width)]]


def group_hidden_edges(same):
    """What is seen is a rectangle: light, map and picture are those of its pixels alone."""
    chance = random.Random(20303)
    for turn in range(60):
        size = (chance.randrange(1, 12), chance.randrange(1, 12))
        W, H = size
        column, row = chance.randrange(W), chance.randrange(H)
        # Every third time a hood: all columns of the upper rows.
        rect = ((0, 0, W, chance.randrange(1, H + 1)) if turn % 3 == 0 else
                (column, row, chance.randrange(1, W - column + 1), chance.randrange(1, H - row + 1)))
        mask = [int(rect[0] <= p % W < rect[0] + rect[2] and rect[1] <= p // W < rect[1] + rect[3])
                for p in range(W * H)]
        settings, light = any_settings(chance, 3, 4), any_light(chance)
        frame = any_frame(chance, W * H)
        part, inside = part_of(frame, 3, size, rect), rect[2:]
        whole = rules.all_seen(inside)
        what = "%s of %s" % (rect, size)
        same(what + ", light", light_of(size, settings, mask, frame),
             light_of(inside, settings, whole, part))
        map, picture = clear_of(size, settings, light, mask, frame)[1]
        same(what, (0, (part_of(map, 1, size, rect), part_of(picture, 3, size, rect))),
             clear_of(inside, settings, light, whole, part))


# ---------------------------------------------------------------------------
# Replace
# ---------------------------------------------------------------------------

def placed(size, rect, new, frame):
    """The frame with the new pixels, pixel by pixel."""
    column, row, width, height = rect
    after = list(frame)
    for k in range(width * height):
        p = (row + k // width) * size[0] + column + k % width
        after[3 * p:3 * p + 3] = new[3 * k:3 * k + 3]
    return after


def group_runs(same):
    """After a run of replacements under one mask all is as a fresh Clear gives it."""
    chance = random.Random(20304)
    for turn in range(4):
        for kind in KINDS:
            size = (chance.randrange(4, 13), chance.randrange(4, 13))
            settings, light = any_settings(chance, 1, 2), any_light(chance)
            mask, frame = mask_of(chance, size, kind), any_frame(chance, count_of(size))
            state = clear_of(size, settings, light, mask, frame)[1]
            for step in range(4):
                rect = any_rect(chance, size)
                new = any_frame(chance, rect[2] * rect[3])
                after = placed(size, rect, new, frame)
                fresh = clear_of(size, settings, light, mask, after)[1]
                same("%s %d, replacement %d" % (kind, turn, step),
                     replace_of(size, settings, light, rect, new, mask, frame, *state),
                     (0, (after, *fresh)))
                frame, state = after, fresh


def group_under_the_hood(same):
    """Rectangles wholly under the hood, half under it and above it."""
    chance = random.Random(20305)
    size, settings, light = (7, 9), (1, 1, 9500, 59, 1000, 1), (200, 180, 190)
    mask = [2] * 35 + [0] * 28
    frame = any_frame(chance, 63)
    map, picture = clear_of(size, settings, light, mask, frame)[1]
    for rect, moves in (((2, 6, 3, 2), False), ((0, 5, 7, 4), False), ((2, 4, 2, 3), True),
                        ((6, 4, 1, 1), True), ((0, 5, 1, 1), False)):
        # Dark paint and bright colours in turn.
        new = [byte for k in range(rect[2] * rect[3]) for byte in ((0, 0, 0), (255, 250, 245))[k % 2]]
        after = placed(size, rect, new, frame)
        number, values = replace_of(size, settings, light, rect, new, mask, frame, map, picture)
        same("%s" % (rect,), (number, values),
             (0, (after, *rules.plain_clear(size, settings, light, mask, after))))
        same("%s, entries of seen pixels" % (rect,), values[1][:35] != map[:35], moves)
        same("%s, colours under the hood" % (rect,), values[2][105:], after[105:])
        frame, map, picture = values


def group_reach(same):
    """Within reach all becomes new, hidden or not, whatever it held; outside all stays."""
    chance = random.Random(20306)
    for turn in range(4):
        for kind in KINDS:
            size = (chance.randrange(1, 11), chance.randrange(1, 11))
            W, H = size
            settings, light = any_settings(chance, 1, 1), any_light(chance)
            reach = settings[0] + 2 * settings[1]
            mask, frame = mask_of(chance, size, kind), any_frame(chance, W * H)
            map = [chance.randrange(65536) for _ in range(W * H)]
            picture = [chance.randrange(256) for _ in range(3 * W * H)]
            rect = any_rect(chance, size)
            new = any_frame(chance, rect[2] * rect[3])
            after = placed(size, rect, new, frame)
            want_map, want_picture = rules.plain_clear(size, settings, light, mask, after)
            for p in range(W * H):
                across = max(rect[0] - p % W, p % W - (rect[0] + rect[2] - 1))
                down = max(rect[1] - p // W, p // W - (rect[1] + rect[3] - 1))
                if max(across, down) > reach:
                    want_map[p] = map[p]
                    want_picture[3 * p:3 * p + 3] = picture[3 * p:3 * p + 3]
            given = (new, mask, frame, map, picture)
            before = copy.deepcopy(given)
            same("%s %d" % (kind, turn), replace_of(size, settings, light, rect, *given),
                 (0, (after, want_map, want_picture)))
            same("%s %d, what was given" % (kind, turn), given, before)


GROUPS = (
    ("masks, the paper's figures all seen", group_all_seen),
    ("masks, by hand", group_by_hand),
    ("masks, m from the seen", group_m),
    ("masks, a copied colour", group_copy),
    ("masks, refusals", group_refusals),
    ("masks, plain path and fast path", group_plain_and_fast),
    ("masks, what hidden pixels show", group_hidden_colours),
    ("masks, hidden edges", group_hidden_edges),
    ("masks, runs of replacements and a fresh clear", group_runs),
    ("masks, rectangles under the hood", group_under_the_hood),
    ("masks, reach of a replacement", group_reach),
)
