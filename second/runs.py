"""The runs of the calls: what the program `runcalls` is given and must answer.

Run it as:
    python3 -I runs.py --check    makes both files anew and compares them with
                                  crates/runcalls/stdin and stdout; status 1 and
                                  the first difference where they differ
    python3 -I runs.py --write    writes them

The list of commands comes from a generator with a fixed seed, so it is the
same every time.  What the program must answer comes from rules.py.  Each line
of a command is carried out here, on lists that stand for the program's
buffers, while the list is made.

A command is a line of decimal numbers:
    1 light, 2 clear, 3 replace, 4 haze, 5 band figure:
        W H, s r omega E t0 share, light R G B, rectangle x y w h (band: from,
        to, 0, 0), then how many entries are lent of frame, new pixels, map,
        picture and work area, which entry of map and picture is the first, and
        how many bytes are lent of the mask
    6 fill:
        which buffer, first entry, how many, seed, low, noise, slow, fast, spots
    7 fill the mask:
        how many, width, left, right, top, bottom, across, down, seed, keep, byte
    8 budget of comparisons:
        as 1 to 5, of which W, H and s count
The answer to a call is one line: the answer itself, then for mask, frame, new
pixels, map, picture and work area its length, of a buffer of at most 12 entries
the entries, and a digest of all entries.  A fill answers nothing.
"""

import itertools
import os
import random
import struct
import sys

sys.dont_write_bytecode = True
sys.path.insert(0, os.path.dirname(os.path.abspath(__file__)))

import kept
import ratiocases
import rules

WIDEST = 2 ** 64 - 1

LIGHT, CLEAR, REPLACE, HAZE, BAND, FILL, SHOW, BUDGET = range(1, 9)
FRAME, NEW, MAP, PICTURE, WORK, MASK = range(6)

# The most that is lent: a frame of 130 by 130 with its work area, and one entry more.
MOST_SIDE = 130
PIXELS = MOST_SIDE * MOST_SIDE
MOST_LENT = (3 * PIXELS + 1, 3 * PIXELS + 1, PIXELS + 1, 3 * PIXELS + 1, 8 * (MOST_SIDE + 1) ** 2 + 1, PIXELS + 1)
# The program's buffers: map and picture have room for two, one behind the other.
ROOM = [count * (2 if which in (MAP, PICTURE) else 1) for which, count in enumerate(MOST_LENT)]
MOST_INPUT = 524288


# ---------------------------------------------------------------------------
# What a fill writes
# ---------------------------------------------------------------------------

# What a work area is filled with; none of it is what a call leaves.
UNLIKE_ZERO = (-2 ** 63, 2 ** 63 - 1, -1, 1)


def draws(count, seed):
    """A number below 65,536 for each entry."""
    state = seed
    for _ in range(count):
        state = (state * 1664525 + 1013904223) % 2 ** 32
        yield state // 65536


def pattern(count, seed, low, noise, slow, fast, spots):
    """The entries of a filled part, before they are fitted to the buffer."""
    values = []
    for i, draw in enumerate(draws(count, seed)):
        if spots and draw // 64 % spots == 0:
            values.append(255 - draw % 64)
            continue
        value = low
        if noise:
            value += draw % noise
        if slow:
            value += i // slow
        if fast:
            value += i % fast
        values.append(value % 65536)
    return values


def fitted(which, values):
    """The same as entries of a buffer."""
    if which == WORK:
        return [UNLIKE_ZERO[value % 4] for value in values]
    if which == MAP:
        return values
    return [value % 256 for value in values]


# What the seen pixels of a mask are filled with where no byte is named.
SEEN_BYTES = (1, 2, 128, 255)


def shown(count, width, left, right, top, bottom, across, down, seed, keep, byte):
    """The bytes of a filled mask."""
    columns, rows = range(left, right, across), range(top, bottom, down)
    return [(byte or SEEN_BYTES[draw // 16 % 4])
            if i % width in columns and i // width in rows and draw % 16 < keep else 0
            for i, draw in enumerate(draws(count, seed))]


# ---------------------------------------------------------------------------
# What is said of a buffer
# ---------------------------------------------------------------------------

# An entry of a work area is 0 or one of what it is filled with.
KINDS = {0: 0, -2 ** 63: 1, 2 ** 63 - 1: 2, -1: 3, 1: 4}


def digest(values):
    h = 0
    for value in values:
        h = (h * 1000003 + value + 1) % 4294967291
    return h


def said(values):
    """A frame or a map, in words."""
    shown = values if len(values) <= 12 else []
    return "; " + " ".join(map(str, [len(values), *shown, digest(values)]))


def work_said(work):
    """A work area, in words: an entry counts as its kind."""
    return said([KINDS[entry] for entry in work])


def bits(value):
    """The 64 bits of a double as a whole number."""
    return int.from_bytes(struct.pack(">d", value), "big")


# ---------------------------------------------------------------------------
# The program's buffers, and one call on them
# ---------------------------------------------------------------------------

class Call:
    """One call, with everything right for its size.  A case changes what it is about."""

    def __init__(self, number, size, settings=rules.DEFAULTS, light=(200, 190, 180), rect=None):
        W, H = size
        self.number = number
        self.size = size
        self.settings = settings
        self.light = light
        self.rect = rect or ((0, H, 0, 0) if number == BAND else (0, 0, W, H))
        self.lent = [0, 0, 0, 0, 0, 0]
        if number not in (BAND, BUDGET):
            self.lent[FRAME] = 3 * W * H
        if number not in (LIGHT, BUDGET):
            self.lent[MAP] = W * H
        if number not in (LIGHT, BAND, BUDGET):
            self.lent[PICTURE] = 3 * W * H
        if number not in (HAZE, BAND, BUDGET):
            self.lent[WORK] = rules.work_needed(size)
            self.lent[MASK] = W * H
        if number == REPLACE:
            self.lent[NEW] = 3 * self.rect[2] * self.rect[3]
        # The buffers end somewhere.
        self.lent = [min(count, most) for count, most in zip(self.lent, MOST_LENT)]
        self.first = [0, 0, 0, 0, 0, 0]

    def but(self, **changes):
        """The same call with some of its parts changed."""
        other = object.__new__(Call)
        other.__dict__.update(self.__dict__)
        other.lent = list(self.lent)
        other.first = list(self.first)
        for name, value in changes.items():
            if name == "more":
                for which, count in value.items():
                    other.lent[which] += count
            elif name in ("lent", "first"):
                for which, count in value.items():
                    getattr(other, name)[which] = count
            else:
                setattr(other, name, value)
        return other

    def line(self):
        return (self.number, *self.size, *self.settings, *self.light, *self.rect, *self.lent[:MASK],
                self.first[MAP], self.first[PICTURE], self.lent[MASK])


class Run:
    """The lines given, the lines answered, and what the buffers hold by now."""

    def __init__(self):
        self.given = []
        self.answered = []
        self.buffers = [[0] * count for count in ROOM]
        self.random = random.Random(20240117)

    def give(self, numbers):
        self.given.append(" ".join(map(str, numbers)))

    def fill(self, which, count, low=0, noise=0, slow=0, fast=0, spots=0, first=0):
        """Fills a part of a buffer."""
        seed = self.random.randrange(2 ** 16)
        self.give((FILL, which, first, count, seed, low, noise, slow, fast, spots))
        values = pattern(count, seed, low, noise, slow, fast, spots)
        assert first + count <= ROOM[which]
        self.buffers[which][first:first + count] = fitted(which, values)

    def show(self, size, more=0, left=0, right=None, top=0, bottom=None, across=1, down=1, keep=16, byte=0):
        """Fills the mask of a frame, and some bytes past it as rows that go on.  All of it is seen but for what is said."""
        W, H = size
        count = W * H + more
        right = W if right is None else right
        bottom = H + more if bottom is None else bottom
        seed = self.random.randrange(2 ** 16)
        numbers = (count, W, left, right, top, bottom, across, down, seed, keep, byte)
        self.give((SHOW, *numbers))
        assert count <= ROOM[MASK]
        self.buffers[MASK][:count] = shown(*numbers)

    def put(self, which, values):
        """Writes just these values, one fill for each run of equal ones."""
        first = 0
        for value, same in itertools.groupby(values):
            count = len(list(same))
            self.fill(which, count, low=value, first=first)
            first += count

    def call(self, call):
        """Makes a call; gives its number of refusal (0 for none) and its values."""
        self.give(call.line())
        parts = [slice(first, first + count) for first, count in zip(call.first, call.lent)]
        before = [buffer[part] for buffer, part in zip(self.buffers, parts)]
        assert [len(entries) for entries in before] == call.lent
        number, values, after = answer(call, *before)
        for buffer, part, entries in zip(self.buffers, parts, after):
            assert len(entries) == len(buffer[part])
            buffer[part] = entries
        words = "refused %d" % number if number else in_words(call.number, values)
        frame, new, map, picture, work, mask = after
        self.answered.append(words + said(mask) + said(frame) + said(new) + said(map) + said(picture) + work_said(work))
        return number, values


def in_words(call, values):
    """What an accepted call answers."""
    if call == LIGHT:
        light, comparisons = values
        return "light %d %d %d %d" % (*light, comparisons)
    if call == BAND:
        return "figure %d %d" % tuple(bits(value) for value in values)
    if call == BUDGET:
        return "takes %d" % values
    return "done" if call == HAZE else "done %d" % values[1]


def answer(call, frame, new, map, picture, work, mask):
    """Number, values, and the six lent parts after a call."""
    size, settings, light, rect = call.size, call.settings, call.light, call.rect
    kept = (frame, new, map, picture, work, mask)
    if call.number == LIGHT:
        number, values = rules.light(size, settings, mask, frame, len(work))
        after = lambda: (frame, new, map, picture, rules.work_after(size, work), mask)
    elif call.number == REPLACE:
        number, values = rules.replace(size, settings, light, rect, new, mask, frame, map, picture, len(work))
        after = lambda: (values[0][0], new, *values[0][1:], rules.work_after(size, work), mask)
    elif call.number == HAZE:
        number, values = rules.haze(size, light, frame, map, len(picture))
        after = lambda: (frame, new, map, values, work, mask)
    elif call.number == BAND:
        number, values = rules.band(size, map, rect[0], rect[1])
        after = lambda: kept
    elif call.number == BUDGET:
        number, values = 0, rules.budget(size, settings[0])
        after = lambda: kept
    else:
        number, values = rules.clear(size, settings, light, mask, frame, len(map), len(picture), len(work))
        after = lambda: (frame, new, *values[0], rules.work_after(size, work), mask)
    return number, values, kept if number else after()


# ---------------------------------------------------------------------------
# Frames, masks, settings and lights
# ---------------------------------------------------------------------------

def frame_of(run, size, kind):
    """Fills the frame with one of eight kinds of picture."""
    W, H = size
    count, pick = 3 * W * H, run.random.randrange
    shapes = (
        dict(noise=256),                                        # any bytes
        dict(low=pick(256)),                                    # flat
        dict(low=pick(40), noise=1 + pick(40), spots=9 + pick(40)),   # dark with bright spots
        dict(low=190 - pick(12), noise=1 + pick(24)),           # near the light
        dict(low=pick(120), noise=1 + pick(9), slow=3 * W),     # brighter downwards
        dict(low=pick(120), noise=1 + pick(9), fast=3 * W),     # brighter to the right
        dict(low=255, noise=2),                                 # 255 and 0
        dict(low=pick(3), noise=2 + pick(3), spots=3 + pick(60)),     # black with bright spots
    )
    run.fill(FRAME, count, **shapes[kind % len(shapes)])


def masks(run, size):
    """What is shown by each kind of mask, as `Run.show` takes it."""
    W, H = size
    upto = run.random.randint
    x, y = upto(0, W - 1), upto(0, H - 1)
    return {
        "all seen": dict(),
        "all hidden": dict(right=0),
        "columns": dict(left=upto(0, 1), across=upto(2, 3)),
        "rows": dict(top=upto(0, 1), down=upto(2, 3)),
        "one seen": dict(left=x, right=x + 1, top=y, bottom=y + 1),
        "single ones": dict(left=x % 3, across=upto(2, 5), top=y % 3, down=upto(2, 5)),
        "hidden border": dict(left=1, right=W - 1, top=1, bottom=H - 1),
        "hood": dict(bottom=upto(1, H)),
        "half": dict(keep=8),
        "some": dict(keep=upto(1, 15)),
    }


# The kinds of mask in the order in which cases take them in turn; 13 fits into no other turn of these runs.
TURNS = ("all seen", "hood", "columns", "all seen", "hidden border", "half", "all hidden", "all seen", "rows", "one seen",
         "all seen", "single ones", "some")


def mask_of(run, size, turn):
    """Fills the mask with one kind; its seen bytes are one byte, or four of them."""
    kind = masks(run, size)[TURNS[turn % len(TURNS)]]
    run.show(size, byte=run.random.choice((0, 0, 1, 2, 128, 255)), **kind)


def see_all(run):
    """Fills the mask, whatever the frame, with seen bytes."""
    run.show((MOST_SIDE, MOST_SIDE), more=1, byte=1)


def lend_unlike(run, size):
    """Fills map, picture and work area with what no call leaves."""
    W, H = size
    run.fill(MAP, W * H, low=run.random.randrange(65536), noise=60000)
    run.fill(PICTURE, 3 * W * H, noise=256)
    spoil_work(run, size)


def spoil_work(run, size):
    """Fills the work area and some entries past it."""
    run.fill(WORK, min(MOST_LENT[WORK], rules.work_needed(size) + 5), noise=65536)


def any_settings(run, most_s, most_r):
    pick = run.random.choice
    upto = run.random.randint
    return (upto(0, most_s), upto(0, most_r),
            pick((1, 9500, 9500, 10000, upto(1, 10000))),
            pick((1, 59, 59, 585225, upto(1, 2000), upto(1, 585225))),
            pick((1, 1000, 1000, 10000, upto(1, 10000))),
            pick((1, 1, 10, 100, 1000, upto(1, 1000))))


def any_light(run):
    pick = run.random.randint
    return run.random.choice((
        (pick(1, 255), pick(1, 255), pick(1, 255)),
        (pick(180, 255), pick(180, 255), pick(180, 255)),
        (pick(1, 9), pick(1, 9), pick(1, 9)),
        (1, 255, 128), (255, 255, 255), (1, 1, 1)))


def any_rect(run, size):
    """A rectangle inside a frame, often at an edge."""
    W, H = size

    def piece(side):
        length = run.random.choice((1, run.random.randint(1, side), run.random.randint(1, min(3, side))))
        return run.random.choice((0, side - length, run.random.randint(0, side - length))), length

    (x, w), (y, h) = piece(W), piece(H)
    return (x, y, w, h)


# ---------------------------------------------------------------------------
# Figures of document 01
# ---------------------------------------------------------------------------

def figures(run):
    """P1 to P4, P8 and P11, and the figures that are run only."""
    see_all(run)
    plain = (0, 0, 9500, 59, 1000, 1)
    whole = (
        ((1, 1), plain, (200, 150, 100)),                       # P1
        ((2, 1), plain, (200, 200, 200, 100, 150, 180)),        # P2
        ((2, 1), (0, 1, 9500, 59, 1000, 1), (200, 200, 200, 100, 150, 180)),   # P3
        ((1, 1), plain, (0, 0, 0)),                             # P4
    )
    for size, settings, frame in whole:
        lend_unlike(run, size)
        run.put(FRAME, frame)
        number, (light, comparisons) = run.call(Call(LIGHT, size, settings))
        run.call(Call(CLEAR, size, settings, light))
    run.put(FRAME, (0, 0, 0))                                   # P8
    run.put(MAP, (5000,))
    run.call(Call(HAZE, (1, 1), light=(255, 255, 255)))
    run.put(MAP, (519, 5230))                                   # P11
    run.call(Call(BAND, (2, 1)))
    run.call(Call(LIGHT, (513, 512)))                           # refused 1
    run.call(Call(CLEAR, (513, 512)))
    run.call(Call(CLEAR, (2, 1), (0, 0, 0, 59, 1000, 1)))       # refused 2
    run.fill(NEW, 24, noise=256)
    run.call(Call(REPLACE, (3, 2), plain, rect=(1, 0, 2, 1)))   # ends at the last column
    run.call(Call(REPLACE, (3, 2), plain, rect=(2, 0, 2, 1)))   # one column more: refused 6


# ---------------------------------------------------------------------------
# Frames, each through all calls
# ---------------------------------------------------------------------------

def all_calls(run, size, settings, kind, light=None):
    """Light, Clear with that light or another, Band figure and Haze on one frame."""
    W, H = size
    frame_of(run, size, kind)
    mask_of(run, size, kind)
    lend_unlike(run, size)
    number, found = run.call(Call(LIGHT, size, settings))
    spoil_work(run, size)
    # Where nothing is seen, no light is found.
    used = light or (found and found[0]) or any_light(run)
    # A work area may be longer than asked for.
    run.call(Call(CLEAR, size, settings, used).but(more={WORK: run.random.choice((0, 0, 1))}))
    start = run.random.randrange(H)
    run.call(Call(BAND, size, rect=(start, run.random.randint(start + 1, H), 0, 0)))
    run.call(Call(HAZE, size, light=used))


def small_frames(run):
    """Every size to 4 by 4, with four pairs of radii."""
    kind = 0
    for size in itertools.product(range(1, 5), repeat=2):
        for s, r in ((0, 0), (1, 0), (0, 1), (2, 3)):
            kind += 1
            settings = (s, r, *any_settings(run, 0, 0)[2:])
            all_calls(run, size, settings, kind, any_light(run) if kind % 2 else None)


def middle_frames(run):
    """Sizes to 24 by 24, and a few thin ones."""
    thin = [(1, 24), (24, 1), (2, 17), (130, 1), (1, 130), (97, 2)]
    sizes = thin + [(run.random.randint(1, 24), run.random.randint(1, 24)) for _ in range(84)]
    for kind, size in enumerate(sizes):
        most_s, most_r = ((2, 2), (3, 8), (30, 60))[kind % 3]
        settings = rules.DEFAULTS if kind % 10 == 9 else any_settings(run, most_s, most_r)
        all_calls(run, size, settings, kind, None if run.random.random() < 0.4 else any_light(run))


def large_frames(run):
    """Sizes to 130 by 130, radii to 30 and 60."""
    cases = [
        ((130, 130), (30, 60, 9500, 59, 1000, 1)),
        ((130, 130), rules.DEFAULTS),
        ((130, 129), (15, 60, 10000, 1, 1, 1000)),
        ((129, 130), (30, 15, 9500, 59, 1000, 7)),
        ((130, 64), (7, 30, 9500, 585225, 1000, 50)),
        ((64, 130), (1, 1, 9500, 59, 1000, 1)),
        ((130, 8), (30, 60, 9500, 59, 1000, 1)),
        ((8, 130), (30, 60, 9500, 59, 10000, 3)),
    ]
    for _ in range(12):
        size = (run.random.randint(25, 100), run.random.randint(25, 100))
        cases.append((size, any_settings(run, 30, 60)))
    for kind, (size, settings) in enumerate(cases):
        all_calls(run, size, settings, kind + kind // 8, None if kind % 2 else any_light(run))


# ---------------------------------------------------------------------------
# Ratios that are hard to tell
# ---------------------------------------------------------------------------

def close_ratios(run):
    """Fractions that tie, nearly tie or are capped, twelve pixels at a time, so that the answer shows every entry.

    With radii 0 and an omega of 10,000 an entry is 10,000 less the pixel's ratio.
    """
    ratiocases.assert_told_apart()
    see_all(run)
    for light, pixels in ratiocases.cases():
        for first in range(0, len(pixels), 12):
            some = pixels[first:first + 12]
            size = (len(some), 1)
            lend_unlike(run, size)
            run.put(FRAME, itertools.chain(*some))
            number, values = run.call(Call(CLEAR, size, (0, 0, 10000, 59, 1000, 1), light))
            assert number == 0 and values[0][0] == [10000 - ratiocases.right(light, pixel) for pixel in some]


# ---------------------------------------------------------------------------
# Bands and hazes of their own
# ---------------------------------------------------------------------------

def bands_and_hazes(run):
    """Maps that no clearing gave: ends of the range, every band of a small map."""
    for size in ((1, 1), (3, 5), (7, 4), (24, 24), (130, 130)):
        W, H = size
        for low, noise in ((0, 10001), (0, 1), (10000, 1), (9999, 2), (0, 2), (3333, 7)):
            run.fill(MAP, W * H, low=low, noise=noise)
            run.fill(FRAME, 3 * W * H, noise=256)
            run.call(Call(HAZE, size, light=any_light(run)))
            run.call(Call(BAND, size))
            run.call(Call(BAND, size, rect=(H - 1, H, 0, 0)))
    run.fill(MAP, 7 * 4, noise=10001)
    for start, end in itertools.combinations(range(5), 2):
        run.call(Call(BAND, (7, 4), rect=(start, end, 0, 0)))


# ---------------------------------------------------------------------------
# Runs of replacements
# ---------------------------------------------------------------------------

def replacements(run, size, settings, light, rects, kind):
    """A clearing, then replacements, each compared with a fresh clearing.  The mask is the one that was filled before."""
    # Where the fresh clearing goes: right behind the map and the picture that are kept.
    beside = {MAP: size[0] * size[1], PICTURE: 3 * size[0] * size[1]}
    frame_of(run, size, kind)
    lend_unlike(run, size)
    run.call(Call(CLEAR, size, settings, light))
    for k, rect in enumerate(rects):
        count = 3 * rect[2] * rect[3]
        run.fill(NEW, count, **(dict(noise=256), dict(low=250, noise=6), dict(low=k, noise=3))[k % 3])
        spoil_work(run, size)
        number, values = run.call(Call(REPLACE, size, settings, light, rect))
        assert number == 0
        number, fresh = run.call(Call(CLEAR, size, settings, light).but(first=beside))
        # The run theorem, on the second program's own side.
        assert number == 0 and values[0][1:] == fresh[0], "a replacement is not a fresh clearing"


def runs_of_replacements(run):
    """At every edge and corner, for reaches from 0 to the whole frame."""
    at_edges = lambda W, H: [(0, 0, 1, 1), (W - 1, 0, 1, 1), (0, H - 1, 1, 1), (W - 1, H - 1, 1, 1),
                             (0, H // 2, W, 1), (W // 2, 0, 1, H), (W // 2, H // 2, 1, 1), (0, 0, W, H)]
    edges = (((1, 1), 0, 0), ((5, 4), 0, 0), ((9, 8), 1, 1), ((12, 12), 0, 2), ((12, 12), 3, 0),
             ((24, 17), 2, 3), ((16, 24), 1, 5), ((20, 1), 1, 2), ((1, 20), 2, 1))
    for kind, (size, s, r) in enumerate(edges):
        settings = (s, r, *any_settings(run, 0, 0)[2:])
        mask_of(run, size, kind)
        replacements(run, size, settings, any_light(run), at_edges(*size), kind)
    for kind in range(24):
        size = (run.random.randint(2, 24), run.random.randint(2, 24))
        mask_of(run, size, kind)
        settings = any_settings(run, *((1, 1), (2, 3), (4, 6), (30, 60))[kind % 4])
        rects = [any_rect(run, size) for _ in range(4)]
        replacements(run, size, settings, any_light(run), rects, kind)
    for kind, (size, s, r) in enumerate((((130, 130), 2, 5), ((130, 90), 1, 20), ((70, 130), 30, 60))):
        settings = (s, r, 9500, 59, 1000, 1)
        rects = [any_rect(run, size) for _ in range(2)] + [(size[0] - 3, size[1] - 2, 3, 2)]
        mask_of(run, size, 3 * kind + 1)
        replacements(run, size, settings, any_light(run), rects, kind)


def under_the_hood(run):
    """A hood in the lower rows: rectangles wholly under it, half under it, at its edge and above it."""
    size = W, H = (19, 14)
    hood = 9
    rects = ((4, 11, 6, 2), (0, hood, W, H - hood), (5, hood - 2, 7, 4), (0, hood - 1, W, 1), (0, hood, W, 1), (W - 1, H - 1, 1, 1),
             (3, 2, 4, 3))
    for kind, (s, r) in enumerate(((0, 0), (1, 1), (2, 3))):
        run.show(size, bottom=hood, byte=(255, 2, 128)[kind])
        replacements(run, size, (s, r, 9500, 59, 1000, 1), any_light(run), rects, kind)


def every_mask(run):
    """Each kind of mask on a frame of twelve pixels, so that the answer shows it; all-seen ones of each byte."""
    size = (4, 3)
    kinds = [*masks(run, size).values(), *(dict(byte=byte) for byte in SEEN_BYTES)]
    for turn, kind in enumerate(kinds):
        settings = (1, 1, 9500, 59, 1000, (1, 500, 1000)[turn % 3])
        frame_of(run, size, (0, 4, 5)[turn % 3])
        run.show(size, **kind)
        lend_unlike(run, size)
        run.call(Call(LIGHT, size, settings))
        run.call(Call(CLEAR, size, settings, any_light(run)))


def replacements_into_anything(run):
    """Map and picture hold anything: outside the reach they stay as they are."""
    for kind in range(40):
        size = (run.random.randint(1, 24), run.random.randint(1, 24))
        settings = any_settings(run, *((0, 0), (1, 1), (2, 4))[kind % 3])
        rect = any_rect(run, size)
        frame_of(run, size, kind)
        mask_of(run, size, kind)
        lend_unlike(run, size)
        run.fill(NEW, 3 * rect[2] * rect[3], noise=256)
        run.call(Call(REPLACE, size, settings, any_light(run), rect))


# ---------------------------------------------------------------------------
# Comparisons
# ---------------------------------------------------------------------------

def lines_and_frames(run):
    """Lines of one row and of one column around the length of a block, and frames of such sides."""
    sizes = []
    for s in (0, 1, 2, 7, 30):
        whole = 2 * s + 1
        for n in sorted({1, max(1, 2 * s), whole, whole + 1, 2 * whole + s, 2 * whole + s + 1}):
            sizes += [((n, 1), s), ((1, n), s)]
    for s in (1, 2, 3):
        whole = 2 * s + 1
        sizes += [((whole, whole), s), ((whole + 1, whole - 1), s), ((2 * whole + s, 3 * whole + 1), s)]
    for kind, (size, s) in enumerate(sizes):
        settings = (s, kind % 2, *any_settings(run, 0, 0)[2:])
        frame_of(run, size, kind)
        mask_of(run, size, kind)
        lend_unlike(run, size)
        run.call(Call(LIGHT, size, settings))
        number, values = run.call(Call(CLEAR, size, settings, any_light(run)))
        assert number == 0 and values[1] == run.call(Call(BUDGET, size, settings))[1]


def parts_of_frames(run):
    """Replacements in the middle, at edges and in corners: parts that the frame cuts and that it does not cut."""
    W, H = size = (34, 29)
    rects = ((16, 14, 1, 1), (15, 13, 3, 2), (0, 14, 1, 1), (W - 1, 13, 1, 2), (16, 0, 2, 1), (17, H - 1, 1, 1),
             (0, 0, 1, 1), (W - 1, 0, 1, 1), (0, H - 2, 2, 2), (W - 1, H - 1, 1, 1), (0, 12, W, 1), (11, 0, 1, H), (0, 0, W, H))
    for kind, (s, r) in enumerate(((0, 0), (1, 0), (2, 0), (0, 1), (2, 2), (3, 1), (30, 0))):
        settings = (s, r, *rules.DEFAULTS[2:])
        frame_of(run, size, kind)
        mask_of(run, size, 2 * kind + 1)
        lend_unlike(run, size)
        # Every third rectangle from another one on, and the middle each time.
        for rect in (rects[0], *rects[1 + kind % 3::3]):
            run.fill(NEW, 3 * rect[2] * rect[3], noise=256)
            spoil_work(run, size)
            number, values = run.call(Call(REPLACE, size, settings, any_light(run), rect))
            assert number == 0


def budgets(run):
    """Whole frames without one; sizes and radii that are refused."""
    anything = (61, 0, 0, 0, 1001)
    sizes = ((1, 1), (2, 1), (1, 2), (640, 360), (512, 512), (1024, 256), (256, 1024), (1024, 1), (1, 1024), (61, 62), (60, 63))
    for turn, size in enumerate(sizes):
        for s in (0, 7, 30) if turn % 2 else (1, 30 - turn):
            number, values = run.call(Call(BUDGET, size, (s, *rules.DEFAULTS[1:])))
            assert (values == 0) == (s == 0 or size == (1, 1))
    for turn, size in enumerate((*BAD_SIZES, (257, 1024), (1024, 1024))):
        run.call(Call(BUDGET, size, ((1, 7, 30)[turn % 3], *rules.DEFAULTS[1:])))
    for s in (31, 32, 2 ** 32, 2 ** 63, WIDEST):
        run.call(Call(BUDGET, (640, 360), (s, *rules.DEFAULTS[1:])))
    run.call(Call(BUDGET, (0, 1025), (31, *anything)))
    # Nothing else counts, and nothing that is lent moves.
    size = (3, 2)
    lend_unlike(run, size)
    frame_of(run, size, 0)
    mask_of(run, size, 5)
    lent = {FRAME: 11, NEW: 1, MAP: 6, PICTURE: 12, WORK: 12, MASK: 6}
    for s in (0, 2, 31):
        run.call(Call(BUDGET, size, (s, *anything), (0, 0, 0), (9, 9, 9, 9)).but(lent=lent))


# ---------------------------------------------------------------------------
# Refusals
# ---------------------------------------------------------------------------

SMALL = (3, 2)

# Sizes outside their range; (2^32, 2^32) and (2^63, 2) have a product that is 0 in 64 bits.
BAD_SIZES = ((0, 2), (3, 0), (0, 0), (1025, 1), (1, 1025), (513, 512), (512, 513), (1024, 257),
             (WIDEST, 1), (1, WIDEST), (WIDEST, WIDEST), (2 ** 32, 2 ** 32), (2 ** 63, 2), (2, 2 ** 63))


def settings_with(place, value):
    settings = [1, 1, 9500, 59, 1000, 1]
    settings[place] = value
    return tuple(settings)


def faults(number):
    """For each number that a call can give, the changes that bring it about.

    A change of 8 is a pair: which entry of the map, and what it holds.  A change
    of 14 is how many bytes of the mask are hidden.
    """
    W, H = SMALL
    sizes = [dict(size=size) for size in BAD_SIZES]
    settings = [dict(settings=settings_with(place, value))
                for place, (least, greatest) in enumerate(rules.SETTINGS)
                for value in ([least - 1] if least else []) + [greatest + 1, WIDEST]]
    frame = [dict(more={FRAME: by}) for by in (-1, 1, -3, 3)] + [dict(lent={FRAME: 0})]
    map = [dict(more={MAP: by}) for by in (-1, 1)] + [dict(lent={MAP: 0})]
    picture = [dict(more={PICTURE: by}) for by in (-1, 1)] + [dict(lent={PICTURE: 0})]
    mask = [dict(more={MASK: by}) for by in (-1, 1)] + [dict(lent={MASK: 0})]
    work = [dict(more={WORK: -1}), dict(lent={WORK: 0}), dict(lent={WORK: 8 * W * H})]
    light = [dict(light=light) for light in ((0, 190, 180), (200, 0, 180), (200, 190, 0), (0, 0, 0))]
    rects = [dict(rect=rect) for rect in (
        (0, 0, 0, 1), (0, 0, 1, 0), (0, 0, 0, 0), (2, 0, 2, 1), (0, 1, 1, 2), (3, 0, 1, 1), (0, 2, 1, 1),
        (0, 0, 4, 2), (0, 0, 3, 3), (WIDEST, 0, 1, 1), (WIDEST, 0, 2, 1), (0, WIDEST, 1, 1), (0, WIDEST, 1, 2),
        (1, 0, WIDEST, 1), (0, 1, 1, WIDEST), (WIDEST, WIDEST, WIDEST, WIDEST), (2 ** 63, 0, 2 ** 63, 1))]
    bands = [dict(rect=(*band, 0, 0)) for band in (
        (0, 0), (1, 1), (2, 2), (1, 0), (2, 1), (0, 3), (2, 3), (3, 3), (0, WIDEST), (WIDEST, 0),
        (WIDEST, WIDEST), (WIDEST - 1, WIDEST), (WIDEST, 1))]
    new = [dict(more={NEW: by}) for by in (-1, 1, -3, 3)] + [dict(lent={NEW: 0})]
    above = [(place, value) for place in (0, 3, W * H - 1) for value in (10001, 65535)]
    return {
        LIGHT: {1: sizes, 2: settings, 3: frame, 4: mask + work, 14: [W * H, W * H + 9]},
        CLEAR: {1: sizes, 2: settings, 3: frame, 4: mask + picture + map + work, 5: light},
        REPLACE: {1: sizes, 2: settings, 3: frame, 4: mask + picture + map + work, 5: light, 6: rects, 7: new},
        HAZE: {1: sizes, 3: frame, 4: picture + map, 5: light, 8: above},
        BAND: {1: sizes, 4: map, 6: bands, 8: above},
    }[number]


def refuse(run, number, wrong):
    """A call with some faults, each a pair of its number and its change.

    The lowest number must be given, which is asserted of the second program too.
    """
    call = Call(number, SMALL, settings_with(0, 1))
    for fault, change in wrong:
        if fault == 8:
            place, value = change
            run.fill(MAP, 1, low=value, first=place)
        elif fault == 14:
            run.show(SMALL, more=change - SMALL[0] * SMALL[1], right=0)
        else:
            call = call.but(**change)
    # A map that is not lent to its full length may leave the bad entry out.
    hidden = [fault for fault, change in wrong if fault == 8 and change[0] >= call.lent[MAP]]
    got, values = run.call(call)
    assert got == min(fault for fault, change in wrong if fault not in hidden), (number, wrong, got)
    for fault, change in wrong:
        if fault == 8:
            run.fill(MAP, 1, low=5000, first=change[0])
        elif fault == 14:
            run.show(SMALL, more=9)


def sized_anew(run, number):
    """A size outside its range with every length as that size asks: 1 alone."""
    for size in ((0, 2), (3, 0), (0, 0)):
        run.call(Call(number, size, settings_with(0, 1)))
    for size in ((1025, 1), (1, 1025)):
        run.call(Call(number, size, settings_with(0, 1)))


def refusals(run):
    """Each fault of each call alone, every two numbers together, and all of them."""
    W, H = SMALL
    for number in (LIGHT, CLEAR, REPLACE, HAZE, BAND):
        run.fill(FRAME, 3 * W * H + 9, noise=256)
        run.fill(NEW, 3 * W * H + 9, noise=256)
        run.fill(MAP, W * H + 9, noise=10001)
        run.fill(PICTURE, 3 * W * H + 9, noise=256)
        run.fill(WORK, rules.work_needed(SMALL) + 9, noise=65536)
        run.show(SMALL, more=9)
        table = faults(number)
        sized_anew(run, number)
        for fault, changes in table.items():
            for change in changes:
                refuse(run, number, [(fault, change)])
        for low, high in itertools.combinations(table, 2):
            for turn in range(4):
                refuse(run, number, [(fault, table[fault][(turn * 5 + fault) % len(table[fault])])
                                     for fault in (low, high)])
        for turn in range(3):
            refuse(run, number, [(fault, changes[turn % len(changes)]) for fault, changes in table.items()])
        # A mask of another length that hides everything, or everything but the byte too many.
        for wrong, hidden in itertools.product(table[4], table.get(14, [])):
            refuse(run, number, [(4, wrong), (14, hidden)])


def ends_of_ranges(run):
    """The last values that are accepted, and masks that show one pixel or none."""
    W, H = SMALL
    for x, y in itertools.product(range(W), range(H)):
        run.show(SMALL, left=x, right=x + 1, top=y, bottom=y + 1)
        run.call(Call(LIGHT, SMALL, settings_with(0, 1)))
    run.show(SMALL, right=0)
    for number in (CLEAR, REPLACE):
        lend_unlike(run, SMALL)
        run.call(Call(number, SMALL, settings_with(0, 1)))
    see_all(run)
    for number in (LIGHT, CLEAR, REPLACE):
        for place, (least, greatest) in enumerate(rules.SETTINGS):
            for value in (least, greatest):
                spoil_work(run, SMALL)
                run.call(Call(number, SMALL, settings_with(place, value)))
        run.call(Call(number, SMALL, settings_with(0, 1)).but(more={WORK: 1}))
    for number in (CLEAR, REPLACE, HAZE):
        for light in ((1, 1, 1), (255, 255, 255), (1, 190, 180), (200, 1, 180), (200, 190, 1)):
            run.fill(MAP, 6, noise=10001)
            run.call(Call(number, SMALL, settings_with(0, 1), light))
    for number in (LIGHT, CLEAR, REPLACE, HAZE, BAND):
        for size in ((1024, 1), (1, 1024)):
            run.fill(MAP, 1024, noise=10001)
            call = Call(number, size, settings_with(0, 1))
            run.call(call)
    for place in range(6):
        run.fill(MAP, 6, noise=10001)
        run.fill(MAP, 1, low=10000, first=place)
        run.call(Call(BAND, SMALL))
        run.call(Call(HAZE, SMALL))


def made():
    """All commands and all answers, as the two files have them."""
    run = Run()
    for part in (figures, small_frames, refusals, ends_of_ranges, middle_frames, bands_and_hazes,
                 replacements_into_anything, runs_of_replacements, under_the_hood, every_mask, large_frames, close_ratios,
                 lines_and_frames, parts_of_frames, budgets):
        part(run)
    given = "".join(line + "\n" for line in run.given)
    answered = "".join(line + "\n" for line in run.answered)
    assert len(given) <= MOST_INPUT
    return {"stdin": given.encode("ascii"), "stdout": answered.encode("ascii")}


if __name__ == "__main__":
    files = made()
    kept.settle(sys.argv[1:], __doc__, "runcalls", files)
    answers = files["stdout"].decode("ascii")
    print("runs: %d calls, %d of them refused" % (answers.count("\n"), answers.count("refused")))
