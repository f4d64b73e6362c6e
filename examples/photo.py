"""Makes a frame as a hoe's camera takes it on a hazy morning: rows of young beet, a hedge, trees, sky.

    python3 -I examples/photo.py OUT.ppm            the hazy frame
    python3 -I examples/photo.py OUT.ppm --clean    the same field without haze
    python3 -I examples/photo.py OUT.ppm --hood     the hazy frame with the machine's own hood in its lower rows
    python3 -I examples/photo.py OUT.pgm --mask     the mask that hides the hood

The field is painted from far to near on a canvas that keeps each pixel's distance; then haze is laid on by distance. Every machine makes the same bytes.
"""

import math
import sys
from pathlib import Path

sys.dont_write_bytecode = True
sys.path.insert(0, str(Path(__file__).resolve().parent))
from painting import Dice, Noise, held, let_through, shaded, write, write_mask

W, H = 480, 320
HORIZON = 74            # the row where endless ground would end
GROUND = HORIZON + 12   # the first row of ground; the hedge stands before it
FOCAL = 480.0           # pixels for a metre at one metre's distance
HEIGHT = 1.6            # of the camera, metres
ROWS = 0.5              # metres from row to row
PLANTS = 0.21           # metres from plant to plant
NEAR, HEDGE = 2.9, 56.0  # metres: the picture's lower edge, and the end of the field
LIGHT = (217.0, 220.0, 222.0)
VEIL, THICKNESS = 0.68, 0.025           # transmission at the lens, and what a metre takes
HOOD = (268.0, 26.0)    # the row where the hood begins in the middle of the picture, and how many rows lower it does at the sides
HOOD_NEAR = 0.5         # metres: the veil lies behind it


# ---------------------------------------------------------------------------
# Noise
# ---------------------------------------------------------------------------

noise = Noise(256)


def octaves(x, y, finest, waves):
    """Noise of several wavelengths, the shorter the lower; those shorter than the finest that a pixel can show fade out."""
    total = 0.0
    for k, wave in enumerate(waves):
        seen = wave / finest - 1.0
        if seen <= 0.0:
            break
        total += min(1.0, seen) * noise(x / wave + 37.0 * k, y / wave + 11.0 * k) * math.sqrt(wave / waves[0])
    return total


def squares(a, b):
    return a * a + b * b


# ---------------------------------------------------------------------------
# The canvas
# ---------------------------------------------------------------------------

canvas = [(0.0, 0.0, 0.0)] * (W * H)
distance = [0.0] * (W * H)


def lay(x, y, colour, cover, z):
    """Colour over what is there, as far as it covers the pixel."""
    if cover <= 0.0 or not (0 <= x < W and 0 <= y < H):
        return
    p = y * W + x
    cover = min(1.0, cover)
    old = canvas[p]
    canvas[p] = tuple(o + (c - o) * cover for o, c in zip(old, colour))
    if cover > 0.5:
        distance[p] = z


def row_of(z):
    return HORIZON + FOCAL * HEIGHT / z


def column_of(x, z):
    return W / 2 + FOCAL * x / z


# ---------------------------------------------------------------------------
# Far away: sky, trees, hedge
# ---------------------------------------------------------------------------

def paint_sky():
    """Clouds. The haze is a layer on the ground: the sky is seen through it as from some hundred metres."""
    for y in range(GROUND):
        for x in range(W):
            cloud = octaves(x / 90.0, y / 26.0, 0.02, (1.0, 0.5, 0.25, 0.12))
            white = held(0.35 + 0.5 * cloud)
            down = held(y / (HORIZON + 10.0))
            blue = (150.0 + 45.0 * down, 180.0 + 28.0 * down, 216.0 + 6.0 * down)
            canvas[y * W + x] = tuple(c + (w - c) * white for c, w in zip(blue, (218.0, 220.0, 222.0)))
            distance[y * W + x] = 105.0 + 40.0 * down


def paint_clump(cx, cy, size, tint, light, z):
    """A handful of leaves: a disc with a torn edge, lit from the upper left."""
    for y in range(int(cy - size), int(cy + size) + 1):
        for x in range(int(cx - size), int(cx + size) + 1):
            dx, dy = (x + 0.5 - cx) / size, (y + 0.5 - cy) / size
            edge = 0.9 - squares(dx, dy)
            if edge > -0.3:
                grain = noise(x / 1.6 + z, y / 1.6)
                tone = light * (1.0 - 0.30 * (dx + dy) + 0.35 * grain)
                lay(x, y, shaded(tint, held(tone, 0.2, 1.8)), (edge + 0.5 * grain) * 2.0, z)


def paint_crown(cx, foot, wide, high, tint, z, dice):
    """A tree or bush: clumps over its whole crown, the lower ones in the shade and painted first."""
    clumps = [(0.06 * k, dx, 6.0, 0.45) for k in range(9) for dx in (-0.6, -0.2, 0.2, 0.6)]
    for _ in range(int(wide * high / 9.0)):
        dx, up = dice.roll(-1.0, 1.0), dice.roll()
        if squares(dx, 2.0 * up - 1.0) < 1.0 or up < 0.5:
            clumps.append((up, dx, dice.roll(2.2, 4.2), dice.roll(0.75, 1.2)))
    for up, dx, size, own in sorted(clumps):
        paint_clump(cx + dx * wide / 2, foot - up * high, size, tint, own * (0.42 + 0.70 * up - 0.16 * dx), z)


def paint_wood(z, foot, widths, heights, tints, gap, dice):
    """Crowns side by side over the whole width."""
    x = -10.0
    while x < W + 10:
        wide, high = dice.roll(*widths), dice.roll(*heights)
        tint = tuple(dice.roll(low, top) for low, top in tints)
        paint_crown(x + wide / 2, foot, wide, high, tint, z, dice)
        x += wide * gap


# ---------------------------------------------------------------------------
# The ground
# ---------------------------------------------------------------------------

CLODS = (0.30, 0.15, 0.08, 0.045, 0.026, 0.016, 0.010)


def soil(x, z, finest):
    """The colour at a place of the field: crumbs of earth, lit from the left."""
    here = octaves(x, z, finest, CLODS)
    lit = here - octaves(x - 0.012, z + 0.006, finest, CLODS)
    broad = noise(x / 1.7, z / 2.3)
    light = held(0.95 + 0.20 * here + 0.85 * lit + 0.10 * broad, 0.22, 1.6)
    damp = held(0.5 + 0.4 * broad + 0.25 * here)
    return tuple((a + (b - a) * damp) * light for a, b in zip((112.0, 84.0, 60.0), (150.0, 118.0, 88.0)))


def paint_ground():
    for y in range(GROUND, H):
        z = FOCAL * HEIGHT / (y + 0.5 - HORIZON)
        finest = z / FOCAL * math.sqrt(z / HEIGHT)
        for x in range(W):
            canvas[y * W + x] = soil((x + 0.5 - W / 2) * z / FOCAL, z, finest)
            distance[y * W + x] = z


def ellipse(cx, cy, rx, ry):
    """Its pixels, each with the square of its distance from the middle: 1 at the edge."""
    for y in range(int(cy - ry) - 1, int(cy + ry) + 2):
        for x in range(int(cx - rx) - 1, int(cx + rx) + 2):
            if 0 <= x < W and 0 <= y < H:
                yield x, y, squares((x + 0.5 - cx) / rx, (y + 0.5 - cy) / ry)


def shadow(cx, cy, rx, ry, z):
    for x, y, d in ellipse(cx, cy, rx, ry):
        lay(x, y, shaded(canvas[y * W + x], 0.38), held(1.25 - d) * 0.9, z)


def paint_stone(dice):
    z = NEAR + 16.0 * dice.roll() * dice.roll()
    x, size = dice.roll(-0.55, 0.55) * z, dice.roll(0.012, 0.045)
    scale = FOCAL / z
    cx, cy, rx = column_of(x, z), row_of(z), size * scale
    ry, grey, warm = rx * dice.roll(0.5, 0.75), dice.roll(130, 185), dice.roll(0.86, 0.96)
    if rx < 0.8:
        return
    shadow(cx + 0.5 * rx, cy + 0.35 * ry, rx * 1.2, ry, z)
    cy -= 0.3 * ry
    for px, py, d in ellipse(cx, cy, rx, ry):
        light = 1.0 - 0.35 * ((px - cx) / rx + (py - cy) / ry) + 0.2 * noise(px / 2.0, py / 2.0 + size * 999.0)
        lay(px, py, (grey * light, grey * light * (0.5 + 0.5 * warm), grey * light * warm), (1.0 - d) * rx, z)


# ---------------------------------------------------------------------------
# Plants
# ---------------------------------------------------------------------------

def around(turn):
    """The point of the unit circle at a share of a whole turn. Each quarter is run through by fractions, evenly enough for leaves."""
    quarter, t = int(turn * 4) % 4, turn * 4 % 1.0
    t = t / (1.0 + (1.0 - t) * 0.42)
    c, s = (1.0 - t * t) / (1.0 + t * t), 2.0 * t / (1.0 + t * t)
    return ((c, s), (-s, c), (-c, -s), (s, -c))[quarter]


def leaf_colour(u, v, tint, light, grain):
    """At u along the leaf, 0 to 1, and v across it, -1 to 1: a pale rib, side veins, one half turned to the light."""
    rib = held(1.0 - abs(v) * 7.0) * (1.0 - 0.6 * u)
    vein = 0.05 * noise(u * 9.0 - abs(v) * 3.0, 5.0)
    tone = light * (0.86 - 0.20 * v + 0.14 * u + vein + grain)
    return tuple(c * tone + r * rib * light for c, r in zip(tint, (46.0, 44.0, 30.0)))


def paint_leaf(base, tip, wide, tint, light, z):
    """A blade from base to tip on the picture; its inner third is a stalk."""
    bx, by = base
    ax, ay = tip[0] - bx, tip[1] - by
    long = math.sqrt(ax * ax + ay * ay) + 0.01
    ux, uy = ax / long, ay / long
    reach = wide + 1.0
    for y in range(int(min(by, tip[1]) - reach), int(max(by, tip[1]) + reach) + 1):
        for x in range(int(min(bx, tip[0]) - reach), int(max(bx, tip[0]) + reach) + 1):
            dx, dy = x + 0.5 - bx, y + 0.5 - by
            u, off = (dx * ux + dy * uy) / long, dy * ux - dx * uy
            if -0.05 < u < 1.05:
                s = held((u - 0.28) / 0.72)
                half = max(wide * 2.6 * s * math.sqrt(1.0 - s) * (1.0 - 0.35 * s), 0.06 * wide if u < 0.4 else 0.0)
                half *= 1.0 + 0.10 * noise(u * 11.0, z * 3.0 + (1.0 if off > 0 else 0.0))
                cover = half - abs(off) + 0.5
                if cover > 0.0 and half > 0.05:
                    colour = leaf_colour(s, held(off / (half + 0.3), -1.0, 1.0), tint, light, 0.07 * noise(x / 1.7, y / 1.7))
                    lay(x, y, colour, cover, z)


def paint_plant(x, z, size, leaves, tint, dice):
    """A rosette: leaves in a spiral, the outer and lower ones first."""
    scale = FOCAL / z
    cx, cy, flat = column_of(x, z), row_of(z), HEIGHT / z
    if not -60 < cx < W + 60:
        return
    shadow(cx + 0.28 * size * scale, cy + 0.05 * size * scale, 0.95 * size * scale, size * scale * (flat + 0.12), z)
    turn = dice.roll()
    for k in range(leaves):
        c, s = around((turn + 0.381966 * k) % 1.0)
        young = k / leaves
        out = size * (1.0 - 0.55 * young) * dice.roll(0.8, 1.15)
        up = size * (0.22 + 0.62 * young) * dice.roll(0.7, 1.2)
        tip = (cx + out * c * scale, cy - out * s * scale * flat - up * scale)
        base = (cx + 0.06 * out * c * scale, cy - 0.04 * size * scale)
        light = (0.62 + 0.50 * young - 0.16 * c + 0.06 * s) * dice.roll(0.88, 1.14)
        paint_leaf(base, tip, out * scale * dice.roll(0.24, 0.32) + 0.25, tint, light, z)


def green(dice):
    return (dice.roll(98, 126), dice.roll(136, 160), dice.roll(66, 88))


def beet(dice):
    """The rows; far plants are so small that fewer leaves do."""
    for line in range(-60, 61):
        z = NEAR - 0.4 + dice.roll(0.0, PLANTS)
        while z < HEDGE:
            x = line * ROWS + dice.roll(-0.025, 0.025)
            if dice.roll() > 0.05 and abs(x) < 0.53 * z + 0.2:
                yield z, x, dice.roll(0.11, 0.17), int(dice.roll(8, 12)) if z < 16.0 else 3, green(dice)
            z += PLANTS * dice.roll(0.88, 1.12)


def weeds(dice):
    for _ in range(150):
        z = NEAR + 14.0 * dice.roll() * dice.roll()
        yield z, dice.roll(-0.55, 0.55) * z, dice.roll(0.02, 0.06), 5, (dice.roll(96, 130), dice.roll(136, 156), dice.roll(56, 84))


def paint_plants():
    """All that grows, from far to near."""
    dice = Dice(99)
    for z, x, size, leaves, tint in sorted([*beet(Dice(2024)), *weeds(Dice(17))], reverse=True):
        paint_plant(x, z, size, leaves, tint, dice)


# ---------------------------------------------------------------------------
# The hood
# ---------------------------------------------------------------------------

def under_hood(x, y):
    """How many rows a pixel lies below the hood's edge, a flat arch; above it the number is negative."""
    return y + 0.5 - HOOD[0] - HOOD[1] * squares((x + 0.5 - W / 2) / (W / 2), 0.0)


def hood_colour(x, y):
    """Black paint that shines a little along the edge."""
    shine = held(1.0 - under_hood(x, y) / 14.0) + 0.3 * noise(x / 60.0, y / 9.0)
    return shaded((15.0, 16.0, 18.0), 0.7 + 0.6 * held(shine))


# ---------------------------------------------------------------------------
# The whole
# ---------------------------------------------------------------------------

def paint():
    paint_sky()
    paint_wood(95.0, HORIZON + 10.0, (34.0, 70.0), (34.0, 62.0), ((70.0, 96.0), (100.0, 122.0), (48.0, 66.0)), 0.62, Dice(11))
    paint_ground()
    paint_wood(HEDGE, row_of(HEDGE) + 1.0, (18.0, 34.0), (18.0, 30.0), ((78.0, 112.0), (108.0, 132.0), (46.0, 62.0)), 0.5, Dice(12))
    dice = Dice(5)
    for _ in range(170):
        paint_stone(dice)
    paint_plants()


def seen(p, how):
    """Colour and transmission of a pixel."""
    if how == "--hood" and under_hood(p % W, p // W) >= 0.0:
        return hood_colour(p % W, p // W), let_through(HOOD_NEAR, THICKNESS)
    return canvas[p], 1.0 if how == "--clean" else VEIL * let_through(distance[p], THICKNESS)


def main(path, how=""):
    if how == "--mask":
        write_mask(path, (W, H), (under_hood(p % W, p // W) >= 0.0 for p in range(W * H)))
    else:
        paint()
        write(path, (W, H), (seen(p, how) for p in range(W * H)), LIGHT)


if len(sys.argv) not in (2, 3) or sys.argv[2:] not in ([], ["--clean"], ["--hood"], ["--mask"]):
    sys.exit("usage: photo.py OUT.ppm [--clean|--hood], photo.py OUT.pgm --mask")
main(*sys.argv[1:])
