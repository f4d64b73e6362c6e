"""What the painted frames share: dice, noise, haze laid on by distance, and the files.

Only sums, products, quotients and square roots of doubles are used, which IEEE 754 fixes to the bit, so every machine makes the same bytes.
"""

import os


class Dice:
    """A congruential generator; the high bits of each number are used."""

    def __init__(self, seed):
        self.state = seed

    def roll(self, low=0.0, high=1.0):
        self.state = (self.state * 6364136223846793005 + 1442695040888963407) % 2**64
        return low + (high - low) * (self.state >> 33) / 2147483648.0


class Noise:
    """Smooth between random values at whole places; about -1 to 1. It begins anew after `side` places."""

    def __init__(self, side):
        dice = Dice(7)
        self.side, self.lattice = side, [dice.roll(-1.0, 1.0) for _ in range(side * side)]

    def __call__(self, x, y):
        fx, fy = x // 1.0, y // 1.0
        u, v = x - fx, y - fy
        u, v = u * u * (3.0 - 2.0 * u), v * v * (3.0 - 2.0 * v)
        left, right = int(fx) % self.side, (int(fx) + 1) % self.side
        upper, lower = int(fy) % self.side * self.side, (int(fy) + 1) % self.side * self.side
        a, b = self.lattice[upper + left], self.lattice[upper + right]
        c, d = self.lattice[lower + left], self.lattice[lower + right]
        top, bottom = a + (b - a) * u, c + (d - c) * u
        return top + (bottom - top) * v


def held(value, low=0.0, high=1.0):
    return low if value < low else high if value > high else value


def shaded(colour, by):
    return tuple(c * by for c in colour)


def let_through(z, thickness):
    """What z metres of haze let through: the exponential of document 000, as the 64th power of a root's first terms."""
    root = 1.0 - thickness * z / 64.0
    for _ in range(6):
        root *= root
    return root


def write(path, size, pixels, light):
    """A PPM file of pixels, each a colour and its transmission, under a light. The sensor's noise is less than one step either way."""
    dice, out = Dice(31), bytearray(b"P6\n%d %d\n255\n" % size)
    for colour, t in pixels:
        for c, a in zip(colour, light):
            out.append(int(held(c * t + a * (1.0 - t) + dice.roll(-0.7, 0.7) + 0.5, 0.0, 255.0)))
    put(path, out)


def write_mask(path, size, hidden):
    """A PGM file of a mask, from what is hidden: black there, white elsewhere."""
    put(path, b"P5\n%d %d\n255\n" % size + bytes(0 if h else 255 for h in hidden))


def put(path, data):
    os.makedirs(os.path.dirname(path) or ".", exist_ok=True)
    with open(path, "wb") as file:
        file.write(data)
