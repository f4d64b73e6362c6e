"""The checks of depth.py, which selftest.py runs.

Both paths are held to the request's figures, to the bounds that the table sets
to every depth, to refusals alone and in pairs, and to each other on every
entry and on seeded maps.  The table is held to its rule at every pair of
neighbours, and to the powers of 99/100.
"""

import random

import cases
import depth
import depthmaps
import everydepth

EVERY = range(65536)
PATHS = (("table", depth.depth, depth.depths), ("plain", depth.plain_depth, depth.plain_depths))


# ---------------------------------------------------------------------------
# The table
# ---------------------------------------------------------------------------

def group_figures(same):
    for name, depth_of, depths in PATHS:
        for t, want in depthmaps.BY_HAND:
            same("%s: depth of %d" % (name, t), depth_of(t), want)
        entries = [t for t, want in depthmaps.BY_HAND if t <= 10000]
        after = [want for t, want in depthmaps.BY_HAND if t <= 10000]
        same("%s: a row" % name, depths(len(entries), 1, entries, [7] * len(entries)), (0, after))
        same("%s: a column" % name, depths(1, len(entries), entries, [7] * len(entries)), (0, after))
    same("table, its length", len(depth.TABLE), 918)
    same("table, its start", depth.TABLE[:6], [1000000000, 990000000, 980100000, 970299000, 960596010, 950990049])
    same("table, its end", depth.TABLE[-2:], [100375, 99371])


def group_neighbours(same):
    for place, (one, next_one) in enumerate(zip(depth.TABLE, depth.TABLE[1:])):
        what = "table, after place %d" % place
        same(what + ": 99/100, rounded down", 100 * next_one <= 99 * one < 100 * (next_one + 1), True)
        same(what + ": falls", next_one < one, True)
        same(what + ": goes on", one > 100000, True)


def group_powers(same):
    """The entry at k is at most 10**9 times (99/100)**k, and less than 100 below it."""
    for k, entry in enumerate(depth.TABLE):
        power = 10 ** 9 * 99 ** k
        same("table, place %d: not above" % k, entry * 100 ** k <= power, True)
        same("table, place %d: near" % k, power < (entry + 100) * 100 ** k, True)


# ---------------------------------------------------------------------------
# Every entry
# ---------------------------------------------------------------------------

def group_bounds(same):
    """The entry at the depth is at most 100,000*t, the one before it is more."""
    for name, depth_of, depths in PATHS:
        for t in EVERY:
            place = depth_of(t)
            at_most = [entry <= 100000 * t for entry in depth.TABLE[max(0, place - 1):place + 1]]
            want = [False, True]
            if place == 0:
                want = [True]
            if place == len(depth.TABLE):
                want = [False]
            same("%s: about the depth %d of %d" % (name, place, t), at_most, want)


def group_both(same):
    for t in EVERY:
        same("depth of %d" % t, depth.plain_depth(t), depth.depth(t))


def group_order(same):
    """More transmission never means more depth."""
    for name, depth_of, depths in PATHS:
        found = [depth_of(t) for t in EVERY]
        for t in EVERY[1:]:
            same("%s: depth of %d and of %d" % (name, t - 1, t), found[t - 1] >= found[t], True)


def group_lines(same):
    """The lines that are kept for every entry, spread out again."""
    files = everydepth.made()
    lines = [tuple(map(int, line.split(b" "))) for line in files["stdout"].splitlines()]
    same("kept lines, the first and the last", (lines[0], lines[-1]), ((0, 918), (10000, 0)))
    spread = []
    for (t, value), (end, _) in zip(lines, lines[1:] + [(len(EVERY), None)]):
        same("kept lines, the depth before %d" % t, spread[-1:] == [value], False)
        spread += [value] * (end - t)
    same("kept lines, spread out", spread, [depth.plain_depth(t) for t in EVERY])
    same("kept lines, what is given", files["stdin"], b"")


# ---------------------------------------------------------------------------
# Whole maps
# ---------------------------------------------------------------------------

def group_refusals(same):
    for name, depth_of, depths in PATHS:
        W, H, entries, lent = depthmaps.lent()
        same("%s: no fault" % name, depths(W, H, entries, lent), (0, [2, 217, 144, 102, 73, 50]))
        for number, changes in depthmaps.refused():
            W, H, entries, lent = depthmaps.lent(**changes)
            before = list(lent)
            same("%s: %s" % (name, changes), depths(W, H, entries, lent), (number, before))


def group_limits(same):
    for name, depth_of, depths in PATHS:
        for W, H in cases.GOOD_SIZES:
            what = "%s: %d by %d" % (name, W, H)
            entries, lent = [10000] * (W * H - 1) + [9999], [919] * (W * H)
            same(what, depths(W, H, entries, lent), (0, [0] * (W * H - 1) + [1]))
            same(what + ", map short", depths(W, H, entries[1:], lent), (4, lent))
            same(what + ", map long", depths(W, H, entries + [0], lent), (4, lent))
            same(what + ", depths short", depths(W, H, entries, lent[1:]), (4, lent[1:]))
            same(what + ", depths long", depths(W, H, entries, lent + [0]), (4, lent + [0]))
            same(what + ", last entry", depths(W, H, entries[:-1] + [10001], lent), (8, lent))
        for W, H in cases.BAD_SIZES:
            same("%s: %d by %d" % (name, W, H), depths(W, H, [], [919]), (1, [919]))


def group_every_map(same):
    """Every entry that a map may have, in one map, held to the other path entry by entry."""
    W, H = depthmaps.EVERY_SIZE
    for (name, _, depths), (_, depth_of, _) in zip(PATHS, PATHS[::-1]):
        want = [depth_of(t) for t in range(10001)]
        same("%s: rising" % name, depths(W, H, list(range(10001)), [919] * 10001), (0, want))
        same("%s: falling" % name, depths(H, W, list(range(10000, -1, -1)), [919] * 10001), (0, want[::-1]))


def group_maps_by_chance(same):
    chance = random.Random(30401)
    seen = dict.fromkeys((0,) + depthmaps.ORDER, 0)
    for W, H in cases.every_kind_of_size(chance, 1000):
        entries, lent = depthmaps.buffers(chance, W, H)
        answer = depth.depths(W, H, entries, lent)
        same("depths of %d by %d, %s into %d" % (W, H, entries[:30], len(lent)),
             depth.plain_depths(W, H, entries, lent), answer)
        seen[answer[0]] += 1
    for number, times in seen.items():
        same("%d was met" % number, times > 0, True)


GROUPS = (
    ("depth, the request's figures", group_figures),
    ("depth, neighbours in the table", group_neighbours),
    ("depth, powers of 99/100", group_powers),
    ("depth, bounds of every depth", group_bounds),
    ("depth, both paths on every entry", group_both),
    ("depth, more transmission", group_order),
    ("depth, the kept lines", group_lines),
    ("depth, order of refusals", group_refusals),
    ("depth, sizes at the limits", group_limits),
    ("depth, every entry in one map", group_every_map),
    ("depth, both paths on seeded maps", group_maps_by_chance),
)
