"""Pixels whose fractions byte / light tie, nearly tie or are capped.

The ratio of a pixel is that of the smallest of its three fractions, and a
program may look for that fraction before it divides.  `cases` gives lights,
each with pixels on which such a search can go wrong; `assert_told_apart` makes
sure that these pixels show the wrong searches that are listed here.
"""

import itertools
import math

import rules

# Fractions nearly tie where they differ by less than a step of the ratio, one ten-thousandth.
STEPS = 10000


def ties(light):
    """All fractions equal, then one byte of the three a step lower or higher."""
    part = math.gcd(*light)
    for n in range(1, part + 1, max(1, part // 4)):
        pixel = [channel // part * n for channel in light]
        yield tuple(pixel)
        for which, by in itertools.product(range(3), (-1, 1)):
            other = list(pixel)
            other[which] += by
            if other[which] <= 255:
                yield tuple(other)


def apart(light, pixel, one, other):
    """How far two channels' fractions are from each other, times both lights."""
    return pixel[one] * light[other] - pixel[other] * light[one]


def nearly_tie(light, pixel, one, other):
    return 0 < STEPS * abs(apart(light, pixel, one, other)) < light[one] * light[other]


def near_ties(light):
    """Two channels that nearly tie with the third at its light, and all three near each other."""
    for one, other in itertools.combinations(range(3), 2):
        for byte in range(1, light[one]):
            below = byte * light[other] // light[one]
            for beside in (below, below + 1):
                pixel = list(light)
                pixel[one], pixel[other] = byte, beside
                if nearly_tie(light, pixel, one, other):
                    yield tuple(pixel)
    for byte in range(1, light[0]):
        pixel = (byte, *(round(byte * channel / light[0]) for channel in light[1:]))
        if all(nearly_tie(light, pixel, one, other) for one, other in itertools.combinations(range(3), 2)):
            yield pixel


def capped(light):
    """Each channel one below its light, at it, one above it."""
    return (pixel for pixel in itertools.product(*((channel - 1, channel, channel + 1) for channel in light)) if max(pixel) <= 255)


def thinned(pixels, most):
    """At most so many, spread over all."""
    pixels = sorted(set(pixels))
    return pixels[::-(-len(pixels) // most)] if pixels else []


def cases():
    """Pairs of a light and its pixels."""
    for light in ((10, 20, 30), (255, 85, 51), (128, 64, 32), (200, 200, 200), (255, 255, 255), (6, 10, 14)):
        yield light, thinned(ties(light), 24)
    for light in (*itertools.permutations((255, 254, 253)), (251, 241, 239), (199, 211, 197), (101, 103, 100), (254, 127, 255)):
        yield light, thinned(near_ties(light), 24)
    for light in ((1, 1, 1), (1, 255, 128), (2, 3, 5), (200, 190, 180), (255, 255, 255)):
        yield light, thinned(capped(light), 27)


# ---------------------------------------------------------------------------
# Wrong searches
# ---------------------------------------------------------------------------

def by_key(key, channels=(0, 1, 2)):
    """The ratio of the first channel whose key is the least."""
    def wrong(light, pixel):
        first = min(channels, key=lambda channel: key(pixel[channel], light[channel]))
        return rules.ratio(pixel[first], light[first])
    return wrong


def light_of_the_next(light, pixel):
    first = min(range(3), key=lambda channel: rules.ratio(pixel[channel], light[channel]))
    return rules.ratio(pixel[first], light[(first + 1) % 3])


WRONG = {
    "the largest": by_key(lambda byte, light: -rules.ratio(byte, light)),
    "bytes times their own light": by_key(lambda byte, light: byte * light),
    "the darkest byte": by_key(lambda byte, light: byte),
    "red not compared": by_key(rules.ratio, (1, 2)),
    "green not compared": by_key(rules.ratio, (0, 2)),
    "blue not compared": by_key(rules.ratio, (0, 1)),
    "fractions in thousandths": by_key(lambda byte, light: 1000 * byte // light),
    "the light of another channel": light_of_the_next,
    "no cap": lambda light, pixel: min(10000 * byte // channel for byte, channel in zip(pixel, light)),
}


def right(light, pixel):
    return min(rules.ratio(byte, channel) for byte, channel in zip(pixel, light))


def assert_told_apart():
    """Each wrong search differs from the rule on one of these pixels."""
    for name, wrong in WRONG.items():
        assert any(wrong(light, pixel) != right(light, pixel) for light, pixels in cases() for pixel in pixels), name
    near = [(light, pixel) for light, pixels in cases() for pixel in pixels
            if any(nearly_tie(light, pixel, one, other) for one, other in itertools.combinations(range(3), 2))]
    # Near ties of both kinds: their ratios are the same number, and they are not.
    same = [len({rules.ratio(byte, channel) for byte, channel in zip(pixel, light) if byte != channel}) == 1 for light, pixel in near]
    assert any(same) and not all(same)
