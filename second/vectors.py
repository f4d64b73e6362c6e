"""Worked results of the second program.  Run it as: python3 -I vectors.py

This file prints, with all inputs:
    (a) the clearing of a 4 by 3 frame: map and picture
    (b) the light of that frame
    (c) the bits of the band figure of rows 1..3 of that map
    (d) the haze of that frame under that light and map
    (e) a tiny frame where the offset from the unfloored slope is another one
    (f) a tiny frame where the lowest position decides between candidates
    (g) a tiny frame where the lower position decides who is a candidate
    (h) tiny frames whose refined value is above 10,000 or below 0 until it is held
    (i) that frame under a mask with hidden pixels, with a single seen pixel and
        with none: light or refusal, lines, map and picture
    (j) new pixels in that frame under a mask, at seen and hidden places, for
        three reaches
    (k) lines of 1 to 12 samples: the comparisons of each for three radii
    (l) the comparisons of a frame and of parts of it around rectangles

Without a mask all is seen.  Frames (e) and (h) are found by a search that runs
the same way every time.  Every result is held against the plain path before it
is printed.
"""

import os
import random
import struct
import sys
from fractions import Fraction
from math import floor

sys.dont_write_bytecode = True
sys.path.insert(0, os.path.dirname(os.path.abspath(__file__)))

import rules

SIZE = (4, 3)
FRAME = [(k * 37 + 11) % 256 for k in range(3 * 4 * 3)]
LIGHT = (200, 180, 190)
SETTINGS = (1, 1, 9500, 59, 1000, 1)
LIGHT_SETTINGS = (1, 1, 9500, 59, 1000, 300)
MASKS = (
    ("hidden pixels", [1, 0, 2, 255, 0, 128, 1, 1, 1, 1, 0, 1]),
    ("a single seen pixel", [0, 0, 0, 0, 0, 0, 1, 0, 0, 0, 0, 0]),
    ("nothing seen", [0] * 12),
)
RECT = (0, 0, 2, 2)
NEW = [240, 10, 20, 30, 250, 60, 70, 80, 235, 200, 190, 180]
SMALL_SIZES = ((2, 1), (1, 2), (3, 1), (1, 3), (2, 2), (3, 2), (2, 3), (3, 3))


def say(name, value):
    print("    %s: %s" % (name, value))


def must(condition, what):
    """Stops the run where a result is not what it is printed for."""
    if not condition:
        raise SystemExit("not as it should be: " + what)


def light_of(size, settings, frame, mask=None):
    mask = mask or rules.all_seen(size)
    number, (light, comparisons) = rules.light(size, settings, mask, frame, rules.work_needed(size))
    must(number == 0, "light accepted")
    must(light == rules.plain_light(size, settings, mask, frame), "light as the plain path has it")
    return light


def clear_of(size, settings, light, frame, mask=None):
    mask = mask or rules.all_seen(size)
    count = size[0] * size[1]
    number, (values, comparisons) = rules.clear(size, settings, light, mask, frame, count, 3 * count,
                                                rules.work_needed(size))
    must(number == 0, "clear accepted")
    must(values == rules.plain_clear(size, settings, light, mask, frame),
         "clear as the plain path has it")
    return values


def bits(value):
    """The 64 bits of a double as a whole number."""
    return int.from_bytes(struct.pack(">d", value), "big")


def say_inputs(size, settings, frame, light=None, mask=None):
    say("size W H", size)
    say("settings s r omega E t0 share", settings)
    if light is not None:
        say("light", light)
    if mask is not None:
        say("mask", mask)
    say("frame", frame)


# ---------------------------------------------------------------------------
# (a) to (d)
# ---------------------------------------------------------------------------

def vector_a():
    print("(a) clear")
    say_inputs(SIZE, SETTINGS, FRAME, LIGHT)
    map, picture = clear_of(SIZE, SETTINGS, LIGHT, FRAME)
    guide, coarse, slopes, offsets = parts(SIZE, SETTINGS, LIGHT, FRAME)
    say("coarse", coarse)
    say("guide", guide)
    say("slopes", slopes)
    say("offsets", offsets)
    say("map", map)
    say("picture", picture)
    return map


def vector_b():
    print("(b) light")
    say_inputs(SIZE, LIGHT_SETTINGS, FRAME)
    say_candidates(SIZE, LIGHT_SETTINGS, FRAME)
    say("light", light_of(SIZE, LIGHT_SETTINGS, FRAME))


def say_candidates(size, settings, frame, mask=None):
    """Dark values, m and candidates.  A hidden pixel's dark value is None."""
    mask = mask or rules.all_seen(size)
    dark = rules.dark_values(size, settings[0], mask, frame)
    m = rules.candidate_count(len(mask) - mask.count(0), settings[5])
    say("dark values", dark)
    say("m", m)
    say("candidates in rank order", rules.candidates(dark, m))


def vector_c(map):
    print("(c) band figure of rows 1..3 (rows 1 and 2)")
    number, (mean, least) = rules.band(SIZE, map, 1, 3)
    must(number == 0, "band accepted")
    entries = map[4:12]
    say("map", map)
    say("mean", "%d/%d = %r" % (sum(entries), 10000 * len(entries), mean))
    say("mean bits", "%d = 0x%016x" % (bits(mean), bits(mean)))
    say("least", "%d/10000 = %r" % (min(entries), least))
    say("least bits", "%d = 0x%016x" % (bits(least), bits(least)))


def vector_d(map):
    print("(d) haze")
    number, hazed = rules.haze(SIZE, LIGHT, FRAME, map, len(FRAME))
    must(number == 0, "haze accepted")
    for k, value in enumerate(hazed):
        t = Fraction(map[k // 3], 10000)
        exact = FRAME[k] * t + LIGHT[k % 3] * (1 - t)
        must(value == floor(exact + Fraction(1, 2)), "hazed byte")
    say("clean", FRAME)
    say("light", LIGHT)
    say("map", map)
    say("hazed", hazed)


# ---------------------------------------------------------------------------
# Searches
# ---------------------------------------------------------------------------

def below(chance, n):
    """A whole number in 0..n-1.  random() gives the same run on every Python."""
    return int(chance.random() * n)


def tries(sizes, seed, each):
    """Random frames, the small sizes first."""
    chance = random.Random(seed)
    for size in sizes:
        for _ in range(each):
            frame = [below(chance, 256) for _ in range(3 * size[0] * size[1])]
            yield size, frame


def window_sums(size, r, guide, coarse):
    """n, Sg, St, Sgg and Sgt at each pixel."""
    return list(zip(
        rules.window_sizes(size, r, guide),
        rules.over_windows(size, guide, r, sum),
        rules.over_windows(size, coarse, r, sum),
        rules.over_windows(size, [g * g for g in guide], r, sum),
        rules.over_windows(size, [g * t for g, t in zip(guide, coarse)], r, sum)))


def unfloored_offsets(size, r, E, guide, coarse):
    """The offsets a wrong rule would give, from the slope as a fraction."""
    offsets = []
    for n, Sg, St, Sgg, Sgt in window_sums(size, r, guide, coarse):
        a = Fraction(1024 * (n * Sgt - Sg * St), n * Sgg - Sg * Sg + n * n * E)
        offsets.append(floor((1024 * St - a * Sg) / n))
    return offsets


def map_from(size, r, guide, slopes, offsets):
    raw = rules.refined_before_holding(size, r, guide, slopes, offsets)
    return [rules.held(value, 0, 10000) for value in raw]


def parts(size, settings, light, frame, mask=None):
    """Guide, coarse values, slopes and offsets.  A hidden pixel's are None."""
    mask = mask or rules.all_seen(size)
    guide = rules.guides(mask, frame)
    coarse = rules.coarse_values(size, settings, light, mask, frame)
    slopes, offsets = rules.slopes_and_offsets(size, settings[1], settings[3], guide, coarse)
    plain = rules.plain_slopes_and_offsets(size, settings, light, mask, frame)
    must([guide, slopes, offsets] == [[values.get(p) for p in range(len(mask))] for values in plain],
         "slopes and offsets as the plain path has them")
    return guide, coarse, slopes, offsets


# ---------------------------------------------------------------------------
# (e)
# ---------------------------------------------------------------------------

def vector_e():
    print("(e) the offset uses the floored slope")
    settings = (0, 1, 9500, 59, 1000, 1)
    for size, frame in tries(SMALL_SIZES, 5, 2000):
        light = light_of(size, settings, frame)
        guide, coarse, slopes, offsets = parts(size, settings, light, frame)
        wrong = unfloored_offsets(size, 1, 59, guide, coarse)
        map, picture = clear_of(size, settings, light, frame)
        wrong_map = map_from(size, 1, guide, slopes, wrong)
        every_offset = all(b != w for b, w in zip(offsets, wrong))
        if every_offset and wrong_map != map:
            break
    else:
        must(False, "(e) found")
    say_inputs(size, settings, frame, light)
    say("guide", guide)
    say("coarse", coarse)
    say("n Sg St Sgg Sgt", window_sums(size, 1, guide, coarse))
    say("slopes", slopes)
    say("offsets", offsets)
    say("offsets from the unfloored slope (wrong)", wrong)
    say("map", map)
    say("map with the wrong offsets", wrong_map)
    say("picture", picture)


# ---------------------------------------------------------------------------
# (f) and (g)
# ---------------------------------------------------------------------------

def light_with(size, settings, frame, rank_sign, tie_sign):
    """Light with its two tie rules, sign 1 for lowest position, -1 for last."""
    dark = rules.dark_values(size, settings[0], rules.all_seen(size), frame)
    m = rules.candidate_count(len(dark), settings[5])
    ranked = sorted(range(len(dark)), key=lambda p: (-dark[p], rank_sign * p))
    colours = rules.pixels(frame)
    best = min(ranked[:m], key=lambda p: (-sum(colours[p]), tie_sign * p))
    return tuple(max(1, channel) for channel in colours[best])


def say_light(size, settings, frame):
    light = light_of(size, settings, frame)
    must(light == light_with(size, settings, frame, 1, 1), "light by both signs 1")
    say_inputs(size, settings, frame)
    say("R+G+B", rules.guides(rules.all_seen(size), frame))
    say_candidates(size, settings, frame)
    say("light", light)
    return light


def vector_f():
    print("(f) lowest position between candidates")
    size, settings = (2, 1), (0, 0, 9500, 59, 1000, 1000)
    frame = [10, 20, 30, 30, 20, 10]
    light = say_light(size, settings, frame)
    wrong = light_with(size, settings, frame, 1, -1)
    say("light by last position (wrong)", wrong)
    must(wrong != light, "(f) tells the rules apart")


def vector_g():
    print("(g) lower position in the ranking")
    size, settings = (2, 2), (0, 0, 9500, 59, 1000, 500)
    frame = [50, 50, 50, 40, 250, 40, 40, 40, 240, 0, 255, 255]
    light = say_light(size, settings, frame)
    wrong = light_with(size, settings, frame, -1, 1)
    say("light with ties ranked by higher position (wrong)", wrong)
    must(wrong != light, "(g) tells the rules apart")


# ---------------------------------------------------------------------------
# (h)
# ---------------------------------------------------------------------------

def vector_h(what, settings, is_it):
    print("(h) refined value %s before it is held" % what)
    sizes = [size for size in SMALL_SIZES if size[0] <= 3]
    for size, frame in tries(sizes, 8, 4000):
        light = light_of(size, settings, frame)
        guide, coarse, slopes, offsets = parts(size, settings, light, frame)
        raw = rules.refined_before_holding(size, settings[1], guide, slopes, offsets)
        if any(is_it(value) for value in raw):
            break
    else:
        print("    none found")
        return
    map, picture = clear_of(size, settings, light, frame)
    say_inputs(size, settings, frame, light)
    say("guide", guide)
    say("coarse", coarse)
    say("n Sg St Sgg Sgt", window_sums(size, settings[1], guide, coarse))
    say("slopes", slopes)
    say("offsets", offsets)
    say("refined before it is held", raw)
    say("map", map)
    say("picture", picture)


# ---------------------------------------------------------------------------
# (i) and (j)
# ---------------------------------------------------------------------------

def vector_i(what, mask):
    # With a share of 600, m is another number for 9 seen pixels than for 12.
    for settings in (SETTINGS, (*SETTINGS[:5], 600)):
        print("(i) a mask, %s: light" % what)
        say_inputs(SIZE, settings, FRAME, mask=mask)
        number, values = rules.light(SIZE, settings, mask, FRAME, rules.work_needed(SIZE))
        if number:
            say("refused", number)
        else:
            say_candidates(SIZE, settings, FRAME, mask)
            say("light", light_of(SIZE, settings, FRAME, mask))
    print("(i) a mask, %s: clear" % what)
    say_inputs(SIZE, SETTINGS, FRAME, LIGHT, mask)
    guide, coarse, slopes, offsets = parts(SIZE, SETTINGS, LIGHT, FRAME, mask)
    map, picture = clear_of(SIZE, SETTINGS, LIGHT, FRAME, mask)
    say("n", rules.window_sizes(SIZE, SETTINGS[1], guide))
    say("coarse", coarse)
    say("guide", guide)
    say("slopes", slopes)
    say("offsets", offsets)
    say("map", map)
    say("picture", picture)


def vector_j(s, r):
    print("(j) new pixels under a mask, reach %d" % (s + 2 * r))
    mask, settings = MASKS[0][1], (s, r, *SETTINGS[2:])
    # What no clearing gives, so that it shows where the values stay.
    old_map, old_picture = [1] * len(mask), [7] * len(FRAME)
    say_inputs(SIZE, settings, FRAME, LIGHT, mask)
    say("rectangle", RECT)
    say("new pixels", NEW)
    say("map before", old_map)
    say("picture before", old_picture)
    number, ((frame, map, picture), comparisons) = rules.replace(
        SIZE, settings, LIGHT, RECT, NEW, mask, FRAME, old_map, old_picture, rules.work_needed(SIZE))
    must(number == 0, "replace accepted")
    fresh_map, fresh_picture = rules.plain_clear(SIZE, settings, LIGHT, mask, frame)
    must(all(entry in (old, fresh) for entry, old, fresh in zip(map, old_map, fresh_map)),
         "each entry stays or is the plain path's")
    must(all(byte in (old, fresh) for byte, old, fresh in zip(picture, old_picture, fresh_picture)),
         "each byte stays or is the plain path's")
    say("frame after", frame)
    say("map after", map)
    say("picture after", picture)


# ---------------------------------------------------------------------------
# (k) and (l)
# ---------------------------------------------------------------------------

def vector_k(s):
    print("(k) comparisons of lines, s %d" % s)
    for n in range(1, 13):
        say("%d samples" % n, rules.line_comparisons(n, s))


def vector_l():
    size, settings = (40, 30), (2, 1, 9500, 59, 1000, 1)
    s, r = settings[:2]
    print("(l) comparisons of a frame and of its parts")
    say("size W H", size)
    say("s r", (s, r))
    say("whole frame", rules.budget(size, s))
    for rect in ((0, 0, 1, 1), (20, 15, 3, 2), (39, 0, 1, 30), (0, 0, 40, 30)):
        part = rules.part_around(size, rect, 2 * s + 4 * r)
        say("rectangle %s, part of %d by %d" % (rect, *part), rules.frame_comparisons(part, s))


def main():
    map = vector_a()
    vector_b()
    vector_c(map)
    vector_d(map)
    vector_e()
    vector_f()
    vector_g()
    settings = (0, 1, 10000, 1, 1000, 1)
    vector_h("above 10,000", settings, lambda value: value > 10000)
    vector_h("below 0 by its floor", settings, lambda value: value == -1)
    vector_h("below -100", settings, lambda value: value < -100)
    for what, mask in MASKS:
        vector_i(what, mask)
    for s, r in ((0, 0), (1, 0), (1, 1)):
        vector_j(s, r)
    for s in (0, 1, 2):
        vector_k(s)
    vector_l()


if __name__ == "__main__":
    main()
