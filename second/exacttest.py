"""What the whole numbers cost, which selftest.py runs.

The equations of document 001 are written here a second time, from the paper, on
exact fractions, and the whole numbers of rules.py are held to the bounds that
are proved: of a coarse value, a map entry, a cleared byte and a hazed byte.  The
frames that come near the bounds are the proved ones.  Units are document 01's:
a guide of 0 to 765, transmissions in ten-thousandths.
"""

import random
from fractions import Fraction

import rules

ENTRY_UNDER = 1 + Fraction(766, 1024)
ENTRY_OVER = Fraction(765, 1024)
HALF = Fraction(1, 2)


# ---------------------------------------------------------------------------
# The paper
# ---------------------------------------------------------------------------

def around(size, mask, q, p):
    """The seen places of the window of radius q about the place p."""
    W, H = size
    y, x = divmod(p, W)
    window = [v * W + u for v in range(max(0, y - q), min(H, y + q + 1))
              for u in range(max(0, x - q), min(W, x + q + 1))]
    return [o for o in window if mask[o] > 0]


def mean(values):
    values = list(values)
    return Fraction(sum(values), len(values))


def coarse(size, s, omega, light, mask, frame, p):
    """Equation 14; a ratio is at most 1."""
    least = min(min(Fraction(frame[3 * o + c], light[c]), Fraction(1))
                for o in around(size, mask, s, p) for c in range(3))
    return 10000 * (1 - Fraction(omega, 10000) * least)


def line(E, I, t):
    """Equations 17 and 18, of the guides and transmissions of a window."""
    mu, mean_t = mean(I), mean(t)
    variance = mean(i ** 2 for i in I) - mu ** 2
    a = (mean(i * j for i, j in zip(I, t)) - mu * mean_t) / (variance + E)
    return a, mean_t - a * mu


def filtered(size, r, E, mask, I, t):
    """Equation 19, under each seen place."""
    windows = {k: around(size, mask, r, k) for k in range(len(I)) if mask[k] > 0}
    lines = {k: line(E, [I[i] for i in window], [t[i] for i in window]) for k, window in windows.items()}
    return {i: mean(lines[k][0] for k in window) * I[i] + mean(lines[k][1] for k in window)
            for i, window in windows.items()}


def recovered(I, A, t):
    """Equation 20, with t the larger of transmission and floor."""
    return (I - A) / Fraction(t, 10000) + A


def hazed(J, A, t):
    """Equation 4."""
    return J * Fraction(t, 10000) + A * (1 - Fraction(t, 10000))


def held(value, most):
    return max(Fraction(0), min(Fraction(most), value))


# ---------------------------------------------------------------------------
# The checks
# ---------------------------------------------------------------------------

def errors(size, settings, light, mask, frame):
    """How much too high each coarse value, each entry and each byte of a seen pixel is."""
    s, r, omega, E, t0, _ = settings
    whole = rules.coarse_values(size, settings, light, mask, frame)
    map, picture = rules.clear_by_rules(size, settings, light, mask, frame)
    guide = [sum(frame[3 * p:3 * p + 3]) for p in range(len(map))]
    exact = filtered(size, r, E, mask, guide, whole)
    return ([whole[p] - coarse(size, s, omega, light, mask, frame, p) for p in exact],
            [map[p] - held(exact[p], 10000) for p in exact],
            [picture[q] - held(recovered(frame[q], light[q % 3], max(map[p], t0)), 255)
             for p in exact for q in range(3 * p, 3 * p + 3)])


def group_bounds(same):
    chance = random.Random(20117)
    for turn in range(150):
        size = (chance.randrange(1, 6), chance.randrange(1, 5))
        palette = [chance.choice((0, 255, chance.randrange(256))) for _ in range(1 + turn % 5)]
        frame = [chance.choice(palette) for _ in range(3 * size[0] * size[1])]
        settings = (chance.randrange(3), chance.randrange(4), chance.randrange(1, 10001),
                    chance.choice((1, 59, 585225)), chance.randrange(1, 10001), 1)
        light = tuple(chance.choice((1, 255, chance.randrange(1, 256))) for _ in range(3))
        # Every third frame has hidden pixels, and the first pixel seen.
        mask = [1] + [chance.randrange(2) if turn % 3 == 2 else 1 for _ in range(size[0] * size[1] - 1)]
        coarse_off, entries_off, bytes_off = errors(size, settings, light, mask, frame)
        what = "size %s, settings %s, light %s, mask %s, frame %s: " % (size, settings, light, mask, frame)
        over = 1 + Fraction(settings[2], 10000)
        same(what + "coarse values", all(0 <= off < over for off in coarse_off), True)
        same(what + "entries", all(-ENTRY_UNDER < off < ENTRY_OVER for off in entries_off), True)
        same(what + "bytes", all(-HALF <= off <= HALF for off in bytes_off), True)
    for turn in range(2000):
        J, A, t = chance.randrange(256), chance.randrange(1, 256), chance.randrange(10001)
        _, (byte, *_) = rules.haze((1, 1), (A, A, A), [J, J, J], [t], 3)
        same("haze %d under %d at %d" % (J, A, t), abs(byte - hazed(J, A, t)) <= HALF, True)


def group_gain(same):
    """How a coarse value's error goes through the filter."""
    chance = random.Random(20118)
    for turn in range(60):
        size, r, E = (chance.randrange(1, 6), chance.randrange(1, 5)), chance.randrange(4), chance.choice((1, 59))
        count = size[0] * size[1]
        guide = [chance.choice((0, 30, 765)) for _ in range(count)]
        one = [chance.randrange(10001) for _ in range(count)]
        other = [t - Fraction(chance.randrange(2000), 1000) for t in one]
        mask = rules.all_seen(size)
        filtered_one, filtered_other = filtered(size, r, E, mask, guide, one), filtered(size, r, E, mask, guide, other)
        apart = [abs(filtered_one[p] - filtered_other[p]) for p in range(count)]
        what = "size %s, r %d, E %d, guides %s: " % (size, r, E, guide)
        same(what + "2 apart", all(off <= 2 * (2 * r + 2) for off in apart), True)
    # One white pixel among 1860 of 0 and 1860 of 10, all in one window.
    pixels = [255] + [0] * 1860 + [10] * 1860
    whole = {i: rules.coarse_transmission(9733, rules.ratio(i, 188)) for i in (255, 0, 10)}
    exact = {i: coarse((1, 1), 0, 9733, (188,) * 3, [1], [i] * 3, 0) for i in (255, 0, 10)}
    same("less than 2 too high", all(0 <= whole[i] - exact[i] < 2 for i in whole), True)
    a, b = line(59, [3 * i for i in pixels], [whole[i] - exact[i] for i in pixels])
    same("22.7 too high", Fraction(2269, 100) < a * 765 + b < Fraction(227, 10), True)


def group_near(same):
    for first, rest, low, high in ((255, 0, -ENTRY_UNDER, Fraction(-1721, 1000)),
                                   (0, 255, Fraction(721, 1000), ENTRY_OVER)):
        frame = [first] * 3 + [rest] * 105
        _, entries_off, _ = errors((6, 6), (0, 5, 9326, 59, 1000, 1), (200,) * 3, [1] * 36, frame)
        same("one %d among %d" % (first, rest), low < entries_off[0] < high, True)
    coarse_off, _, _ = errors((1, 1), (0, 30, 9189, 59, 1000, 1), (247,) * 3, [1], [212] * 3)
    same("212 under 247", Fraction(1914, 1000) < coarse_off[0] < Fraction(19189, 10000), True)
    same("cleared half", rules.cleared_channel(2, 1, 4000) - recovered(2, 1, 4000), HALF)
    same("hazed half", rules.haze((1, 1), (1, 1, 1), [2, 2, 2], [5000], 3)[1][0] - hazed(2, 1, 5000), HALF)
    size, frame = (2, 1), [200, 200, 200, 100, 150, 180]
    whole = rules.coarse_values(size, (0, 30, 9500, 59, 1000, 1), (200,) * 3, [1, 1], frame)
    same("P3", filtered(size, 30, 59, [1, 1], [600, 430], whole)[0], Fraction(3782125, 7284))


GROUPS = (
    ("exact, the bounds on seeded frames", group_bounds),
    ("exact, the filter's gain", group_gain),
    ("exact, frames that come near", group_near),
)
