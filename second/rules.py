"""The rules of the haze library, written a second time in plain Python.

This file holds the five operations Light, Clear, Replace, Haze and Band
figure, with their refusals.  It follows document 01 heading by heading, with
the paper's words as names and its step numbers in the comments.  The recovery
rounds as request Two of document 02 says, the mask is that of its request
Three, and the comparisons are those of its request Six.  The budget of a frame
is a sixth operation.

What every operation returns is a pair (number, values):
    accepted   (0, values)
    refused    (number, None), the number from the table of refusals
The values of an accepted call:
    light      ((R, G, B), comparisons)
    clear      ((map, picture), comparisons)
    replace    ((frame, map, picture), comparisons)
    haze       the hazed frame
    band       (mean, least), two floats
The budget refuses nothing and returns a number alone.
No list that is given is ever changed.  The answers are new lists.

What is given:
    size       (W, H)
    settings   (s, r, omega, E, t0, share)
    light      (R, G, B), each a byte
    rect       (column, row, width, height)
    mask       list of bytes, one for each pixel, 0 for hidden, any other for seen
    frame, clean, picture, new    lists of bytes, R, G, B for each pixel
    map        list of 16-bit entries, one for each pixel
    ..._len    the length of a buffer that is lent to be written
Sizes, settings, rectangles, bands and lengths may be any whole numbers that
are not negative.

All arithmetic is on whole numbers of any length, so nothing can overflow.
Only the Band figure has floats.  Every sum and every minimum is a direct one
over the seen pixels of the window, cut off at the frame's edge.  A list with
one value for each pixel has None where the pixel is hidden, up to the map.

The last part holds a plain path: Light and Clear once more, pixel by pixel,
on exact fractions.  It is slow and shares no function with the first path.
"""

from fractions import Fraction
from functools import cache
from math import ceil, floor, inf


# ---------------------------------------------------------------------------
# Numbers that are kept
# ---------------------------------------------------------------------------

SIDES = (1, 1024)
MOST_PIXELS = 262144
SETTINGS = (
    (0, 30),        # dark radius s
    (0, 60),        # filter radius r
    (1, 10000),     # omega
    (1, 585225),    # regularisation E
    (1, 10000),     # floor t0
    (1, 1000),      # share, per thousand
)
DEFAULTS = (7, 30, 9500, 59, 1000, 1)
LARGEST_ENTRY = 10000


def work_needed(size):
    """The fewest entries a work area may have."""
    W, H = size
    return 8 * (W + 1) * (H + 1)


def work_after(size, work):
    """What a lent work area holds after any accepted call."""
    first = work_needed(size)
    return [0] * first + list(work[first:])


# ---------------------------------------------------------------------------
# What a refused call says
# ---------------------------------------------------------------------------

def within(value, bounds):
    """Whether a value lies in a range, both ends belonging to it."""
    return bounds[0] <= value <= bounds[1]


def size_is_outside(size):
    """1: W, H or W*H is outside its range."""
    W, H = size
    return not (within(W, SIDES) and within(H, SIDES) and W * H <= MOST_PIXELS)


def setting_is_outside(settings):
    """2: a setting is outside its range.  All six count, used or not."""
    return not all(within(value, bounds) for value, bounds in zip(settings, SETTINGS))


def frame_is_not_whole(size, length):
    """3, and 4 for a frame that is written: not 3*W*H bytes."""
    W, H = size
    return length != 3 * W * H


def map_is_not_whole(size, length):
    """4: not W*H entries."""
    W, H = size
    return length != W * H


def mask_is_not_whole(size, length):
    """4: not W*H bytes."""
    W, H = size
    return length != W * H


def work_is_short(size, length):
    """4: fewer than 8*(W+1)*(H+1) entries.  More are allowed."""
    return length < work_needed(size)


def channel_is_0(light):
    """5: a light channel is 0."""
    return 0 in light


def rectangle_is_bad(size, rect):
    """6: the rectangle is empty or reaches outside the frame."""
    W, H = size
    column, row, width, height = rect
    empty = width == 0 or height == 0
    outside = column + width > W or row + height > H
    return empty or outside


def band_is_bad(size, start, end):
    """6: the band is empty or reaches outside the frame."""
    W, H = size
    return start >= end or end > H


def new_is_not_whole(rect, length):
    """7: not 3*w*h bytes for a w by h rectangle."""
    column, row, width, height = rect
    return length != 3 * width * height


def entry_is_above(map):
    """8: a map entry is above 10,000, anywhere in the map."""
    return any(entry > LARGEST_ENTRY for entry in map)


def nothing_is_seen(mask):
    """14: no pixel of the mask is seen."""
    return not any(mask)


def lowest_that_applies(faults):
    """The lowest number whose fault is there, 0 if none is."""
    return min((number for number, there in faults.items() if there), default=0)


# ---------------------------------------------------------------------------
# Masks
# ---------------------------------------------------------------------------

def all_seen(size):
    """A mask that hides nothing."""
    W, H = size
    return [1] * (W * H)


def seen_only(mask, plane):
    """The values of the seen pixels, None for the hidden ones."""
    return [value if byte != 0 else None for byte, value in zip(mask, plane)]


def where_seen(rule, *planes):
    """What a rule gives at each seen pixel, None for the hidden ones."""
    return [None if None in values else rule(*values) for values in zip(*planes)]


# ---------------------------------------------------------------------------
# Windows
# ---------------------------------------------------------------------------

# What a hidden pixel counts as in a window: what changes no sum and no minimum.
LEFT_OUT = {sum: 0, min: inf}


def pieces(line, q, combine):
    """For each place of a line, its piece of radius q, combined.

    The piece is cut off at both ends of the line.
    """
    return [combine(line[max(0, i - q):i + q + 1]) for i in range(len(line))]


def over_windows(size, plane, q, combine):
    """For each seen pixel, the seen pixels of the window of radius q, combined (sum or min).

    Each row piece is combined directly, then each column of row pieces.
    """
    W, H = size
    counted = [LEFT_OUT[combine] if value is None else value for value in plane]
    rows = [pieces(counted[y * W:(y + 1) * W], q, combine) for y in range(H)]
    columns = [pieces(column, q, combine) for column in zip(*rows)]
    combined = [value for row in zip(*columns) for value in row]
    return where_seen(lambda own, value: value, plane, combined)


def window_sizes(size, q, plane):
    """For each seen pixel, the number n of seen pixels that its window really has."""
    return over_windows(size, where_seen(lambda value: 1, plane), q, sum)


def pixels(frame):
    """The frame as a list of (R, G, B)."""
    return list(zip(frame[0::3], frame[1::3], frame[2::3]))


# ---------------------------------------------------------------------------
# Comparisons
# ---------------------------------------------------------------------------

def blocks_of(n, s):
    """The places of a line of n samples in blocks of 2s+1, the last perhaps shorter."""
    places = list(range(n))
    return [places[first:first + 2 * s + 1] for first in range(0, n, 2 * s + 1)]


@cache
def line_comparisons(n, s):
    """What the block method takes for the minimum over one line, walked block by block and window by window."""
    blocks = blocks_of(n, s)
    # A block of k takes 2*(k - 1).
    taken = sum(2 * (len(block) - 1) for block in blocks)
    # Each window that reaches into two blocks takes 1 more.
    block_of = {place: number for number, block in enumerate(blocks) for place in block}
    for i in range(n):
        window = range(max(0, i - s), min(n, i + s + 1))
        if len({block_of[place] for place in window}) == 2:
            taken += 1
    return taken


def frame_comparisons(size, s):
    """The total over all rows, then all columns."""
    W, H = size
    return sum(line_comparisons(W, s) for row in range(H)) + sum(line_comparisons(H, s) for column in range(W))


def part_around(size, rect, reach):
    """Columns and rows of the part of the frame at most reach columns and rows from the rectangle."""
    W, H = size
    column, row, width, height = rect
    return (len([x for x in range(W) if column - reach <= x < column + width + reach]),
            len([y for y in range(H) if row - reach <= y < row + height + reach]))


def budget(size, s):
    """The comparisons of a whole frame at radius s; 0 for a size or a radius that is refused."""
    if size_is_outside(size) or not within(s, SETTINGS[0]):
        return 0
    return frame_comparisons(size, s)


# ---------------------------------------------------------------------------
# From frame to light
# ---------------------------------------------------------------------------

def dark_values(size, s, mask, frame):
    # Step 1.  The least byte of all channels in the window of radius s.
    least_bytes = [min(pixel) for pixel in pixels(frame)]
    return over_windows(size, seen_only(mask, least_bytes), s, min)


def candidate_count(seen, share):
    # Step 2, first half, of the number of seen pixels.
    return max(1, seen * share // 1000)


def candidates(dark, m):
    # Step 2, second half.  Greater dark value first, then lower position.
    seen = [position for position, value in enumerate(dark) if value is not None]
    ranked = sorted(seen, key=lambda position: (-dark[position], position))
    return ranked[:m]


def brightest(frame, chosen):
    # Step 3.  The greatest R+G+B, lowest position on a tie.
    colours = pixels(frame)
    best = min(chosen, key=lambda position: (-sum(colours[position]), position))
    return colours[best]


def light_by_rules(size, settings, mask, frame):
    """The light of a frame that is not refused."""
    s, r, omega, E, t0, share = settings
    dark = dark_values(size, s, mask, frame)
    seen = len(mask) - mask.count(0)
    chosen = candidates(dark, candidate_count(seen, share))
    # Step 3, last sentence.  A channel of 0 becomes 1.
    return tuple(max(1, channel) for channel in brightest(frame, chosen))


def light(size, settings, mask, frame, work_len):
    """Light: finds the ambient light of a frame, and says its comparisons."""
    number = lowest_that_applies({
        1: size_is_outside(size),
        2: setting_is_outside(settings),
        3: frame_is_not_whole(size, len(frame)),
        4: mask_is_not_whole(size, len(mask)) or work_is_short(size, work_len),
        14: nothing_is_seen(mask),
    })
    if number:
        return number, None
    return 0, (light_by_rules(size, settings, mask, frame), frame_comparisons(size, settings[0]))


# ---------------------------------------------------------------------------
# From light to transmission
# ---------------------------------------------------------------------------

def ratio(I, A):
    # Step 1, first sentence.
    return min(10000, 10000 * I // A)


def least_ratios(size, s, light, mask, frame):
    # Step 1, second sentence.  The values d.
    least = [min(ratio(I, A) for I, A in zip(pixel, light)) for pixel in pixels(frame)]
    return over_windows(size, seen_only(mask, least), s, min)


def coarse_transmission(omega, d):
    # Step 2.
    return 10000 - omega * d // 10000


def guides(mask, frame):
    # Step 3.  R+G+B.
    return seen_only(mask, [sum(pixel) for pixel in pixels(frame)])


def slope(n, Sg, St, Sgg, Sgt, E):
    # Step 4, P and Q, and step 5, first half.  // goes toward minus infinity.
    P = n * Sgt - Sg * St
    Q = n * Sgg - Sg * Sg + n * n * E
    return 1024 * P // Q


def offset(n, Sg, St, a):
    # Step 5, second half.  The slope a is the floored one.
    return (1024 * St - a * Sg) // n


def slopes_and_offsets(size, r, E, guide, coarse):
    # Step 4.  The sums over the window of radius r.
    n = window_sizes(size, r, guide)
    Sg = over_windows(size, guide, r, sum)
    St = over_windows(size, coarse, r, sum)
    Sgg = over_windows(size, where_seen(lambda g: g * g, guide), r, sum)
    Sgt = over_windows(size, where_seen(lambda g, t: g * t, guide, coarse), r, sum)
    # Step 5.
    a = where_seen(lambda *sums: slope(*sums, E), n, Sg, St, Sgg, Sgt)
    b = where_seen(offset, n, Sg, St, a)
    return a, b


def refined_before_holding(size, r, guide, a, b):
    # Step 6 without its last words.
    n = window_sizes(size, r, guide)
    sum_a = over_windows(size, a, r, sum)
    sum_b = over_windows(size, b, r, sum)
    return where_seen(lambda A, g, B, count: (A * g + B) // (1024 * count), sum_a, guide, sum_b, n)


def held(value, least, greatest):
    """A value held into a range."""
    return max(least, min(greatest, value))


def coarse_values(size, settings, light, mask, frame):
    # Steps 1 and 2.
    s, r, omega, E, t0, share = settings
    return where_seen(lambda d: coarse_transmission(omega, d),
                      least_ratios(size, s, light, mask, frame))


def map_by_rules(size, settings, light, mask, frame):
    """The transmission map of a frame that is not refused."""
    s, r, omega, E, t0, share = settings
    coarse = coarse_values(size, settings, light, mask, frame)
    guide = guides(mask, frame)
    a, b = slopes_and_offsets(size, r, E, guide, coarse)
    # Step 6, last words.  A hidden pixel's entry is 10,000.
    return [LARGEST_ENTRY if value is None else held(value, 0, LARGEST_ENTRY)
            for value in refined_before_holding(size, r, guide, a, b)]


# ---------------------------------------------------------------------------
# From transmission to picture, and back
# ---------------------------------------------------------------------------

def nearest_away(top, bottom):
    """The whole number nearest to top/bottom, bottom above 0, halves away from zero."""
    whole, rest = divmod(abs(top), bottom)
    if 2 * rest >= bottom:
        whole += 1
    return -whole if top < 0 else whole


def cleared_channel(I, A, T):
    """One channel of the cleared frame."""
    # Request Two.  The quotient is rounded, then A is added, then the sum is held.
    return held(A + nearest_away((I - A) * 10000, T), 0, 255)


def picture_by_rules(light, t0, mask, frame, map):
    """The cleared frame.  A hidden pixel's colour is copied."""
    picture = []
    for byte, pixel, entry in zip(mask, pixels(frame), map):
        if byte == 0:
            picture.extend(pixel)
        else:
            picture.extend(cleared_channel(I, A, max(entry, t0)) for I, A in zip(pixel, light))
    return picture


def clear_by_rules(size, settings, light, mask, frame):
    """Map and picture of a frame that is not refused."""
    s, r, omega, E, t0, share = settings
    map = map_by_rules(size, settings, light, mask, frame)
    return map, picture_by_rules(light, t0, mask, frame, map)


def clear(size, settings, light, mask, frame, map_len, picture_len, work_len):
    """Clear: frame, its mask, light and settings in; map, cleared frame and comparisons out."""
    number = lowest_that_applies({
        1: size_is_outside(size),
        2: setting_is_outside(settings),
        3: frame_is_not_whole(size, len(frame)),
        4: (mask_is_not_whole(size, len(mask))
            or frame_is_not_whole(size, picture_len)
            or map_is_not_whole(size, map_len)
            or work_is_short(size, work_len)),
        5: channel_is_0(light),
    })
    if number:
        return number, None
    return 0, (clear_by_rules(size, settings, light, mask, frame), frame_comparisons(size, settings[0]))


def hazed_channel(J, A, t):
    """One channel of the hazed frame."""
    return (J * t + A * (10000 - t) + 5000) // 10000


def haze(size, light, clean, map, hazed_len):
    """Haze: clean frame, light and map in; hazy frame out."""
    number = lowest_that_applies({
        1: size_is_outside(size),
        3: frame_is_not_whole(size, len(clean)),
        4: frame_is_not_whole(size, hazed_len) or map_is_not_whole(size, len(map)),
        5: channel_is_0(light),
        8: entry_is_above(map),
    })
    if number:
        return number, None
    return 0, [hazed_channel(J, A, t)
               for pixel, t in zip(pixels(clean), map)
               for J, A in zip(pixel, light)]


def with_new_pixels(size, rect, new, frame):
    """The frame with the new pixels at their rectangle."""
    W, H = size
    column, row, width, height = rect
    after = list(frame)
    for y in range(height):
        for x in range(width):
            here = 3 * ((row + y) * W + column + x)
            there = 3 * (y * width + x)
            after[here:here + 3] = new[there:there + 3]
    return after


def is_reached(rect, reach, x, y):
    """Whether a pixel is at most reach rows and reach columns from the rectangle."""
    column, row, width, height = rect
    return (column - reach <= x <= column + width - 1 + reach
            and row - reach <= y <= row + height - 1 + reach)


def replace(size, settings, light, rect, new, mask, frame, map, picture, work_len):
    """Replace: new pixels into a frame, map and cleared frame brought up to date."""
    number = lowest_that_applies({
        1: size_is_outside(size),
        2: setting_is_outside(settings),
        3: frame_is_not_whole(size, len(frame)),
        4: (mask_is_not_whole(size, len(mask))
            or frame_is_not_whole(size, len(picture))
            or map_is_not_whole(size, len(map))
            or work_is_short(size, work_len)),
        5: channel_is_0(light),
        6: rectangle_is_bad(size, rect),
        7: new_is_not_whole(rect, len(new)),
    })
    if number:
        return number, None
    W, H = size
    s, r, omega, E, t0, share = settings
    # The new pixels go in, at hidden places too; the others stay.
    new_frame = with_new_pixels(size, rect, new, frame)
    # What Clear would give for the whole new frame.
    clear_map, clear_picture = clear_by_rules(size, settings, light, mask, new_frame)
    # Within s+2r the values become those, all others stay.
    new_map, new_picture = list(map), list(picture)
    for p in range(W * H):
        if is_reached(rect, s + 2 * r, p % W, p // W):
            new_map[p] = clear_map[p]
            new_picture[3 * p:3 * p + 3] = clear_picture[3 * p:3 * p + 3]
    # The part within 2s+4r is a frame of its own.
    part = part_around(size, rect, 2 * s + 4 * r)
    return 0, ((new_frame, new_map, new_picture), frame_comparisons(part, s))


def band(size, map, start, end):
    """Band figure: mean and least of the rows start..end, the last left out.

    Python's / of two whole numbers is correctly rounded: it is the double
    nearest to the true quotient.  All four numbers are below 2**53, so they
    go into doubles without loss, and a division of doubles gives the same bits.
    """
    number = lowest_that_applies({
        1: size_is_outside(size),
        4: map_is_not_whole(size, len(map)),
        6: band_is_bad(size, start, end),
        8: entry_is_above(map),
    })
    if number:
        return number, None
    W, H = size
    entries = map[start * W:end * W]
    return 0, (sum(entries) / (10000 * len(entries)), min(entries) / 10000)


# ---------------------------------------------------------------------------
# The plain path: the same rules, pixel by pixel, on exact fractions.
# It is for small frames.  floor and ceil of a Fraction are exact.
# ---------------------------------------------------------------------------

def plain_window(size, mask, position, q):
    """Every seen position of the frame at most q rows and q columns away."""
    W, H = size
    return [other for other in range(W * H)
            if mask[other]
            and abs(other // W - position // W) <= q
            and abs(other % W - position % W) <= q]


def plain_light(size, settings, mask, frame):
    """Steps 1 to 3 of "From frame to light".  At least one pixel is seen."""
    W, H = size
    s, r, omega, E, t0, share = settings
    seen = [p for p in range(W * H) if mask[p]]
    # Step 1.
    dark = {}
    for p in seen:
        window = plain_window(size, mask, p, s)
        dark[p] = min(frame[3 * k + c] for k in window for c in (0, 1, 2))
    # Step 2.  A pixel is a candidate where fewer than m are ranked before it.
    m = floor(Fraction(len(seen) * share, 1000))
    if m < 1:
        m = 1
    chosen = []
    for p in seen:
        before = [k for k in seen if dark[k] > dark[p] or (dark[k] == dark[p] and k < p)]
        if len(before) < m:
            chosen.append(p)
    # Step 3.  Positions come in order, so only a greater sum takes over.
    best = chosen[0]
    for p in chosen:
        if sum(frame[3 * p:3 * p + 3]) > sum(frame[3 * best:3 * best + 3]):
            best = p
    return tuple(1 if byte == 0 else byte for byte in frame[3 * best:3 * best + 3])


def plain_slopes_and_offsets(size, settings, light, mask, frame):
    """Steps 1 to 5 of "From light to transmission", under the positions of the seen pixels."""
    W, H = size
    s, r, omega, E, t0, share = settings
    guide, coarse, slopes, offsets = {}, {}, {}, {}
    seen = [p for p in range(W * H) if mask[p]]
    for p in seen:
        # Step 1.
        d = 10000
        for k in plain_window(size, mask, p, s):
            for c in (0, 1, 2):
                d = min(d, floor(Fraction(10000 * frame[3 * k + c], light[c])))
        # Step 2.
        coarse[p] = 10000 - floor(Fraction(omega * d, 10000))
        # Step 3.
        guide[p] = frame[3 * p] + frame[3 * p + 1] + frame[3 * p + 2]
    for p in seen:
        # Step 4.
        n = Sg = St = Sgg = Sgt = 0
        for k in plain_window(size, mask, p, r):
            n += 1
            Sg += guide[k]
            St += coarse[k]
            Sgg += guide[k] ** 2
            Sgt += guide[k] * coarse[k]
        P = n * Sgt - Sg * St
        Q = n * Sgg - Sg ** 2 + n ** 2 * E
        # Step 5.
        slopes[p] = floor(Fraction(1024 * P, Q))
        offsets[p] = floor(Fraction(1024 * St - slopes[p] * Sg, n))
    return guide, slopes, offsets


def plain_nearest(x):
    """Of floor and ceil the nearer one; of two equally near ones the one farther from zero."""
    below, above = floor(x), ceil(x)
    if x - below < above - x:
        return below
    if above - x < x - below:
        return above
    return max(below, above, key=abs)


def plain_clear(size, settings, light, mask, frame):
    """Step 6, and Clear of "From transmission to picture, and back"."""
    W, H = size
    s, r, omega, E, t0, share = settings
    guide, slopes, offsets = plain_slopes_and_offsets(size, settings, light, mask, frame)
    # What hidden pixels have: 10,000 and their colour.
    map, picture = [10000] * (W * H), list(frame)
    for p in guide:
        # Step 6.
        n = total = 0
        for k in plain_window(size, mask, p, r):
            n += 1
            total += slopes[k] * guide[p] + offsets[k]
        t = floor(Fraction(total, 1024 * n))
        if t < 0:
            t = 0
        if t > 10000:
            t = 10000
        map[p] = t
        # Clear.
        T = t if t > t0 else t0
        for c in (0, 1, 2):
            I, A = frame[3 * p + c], light[c]
            value = A + plain_nearest(Fraction((I - A) * 10000, T))
            if value < 0:
                value = 0
            if value > 255:
                value = 255
            picture[3 * p + c] = value
    return map, picture
