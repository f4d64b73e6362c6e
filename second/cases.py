"""What PPM calls and depths are both tried with.

Sizes at the limits and sizes that wrap, faults alone and in pairs, and lengths
that are off by one.  Settings are tried with faults alone and in pairs too.
"""

import itertools

# ---------------------------------------------------------------------------
# Sizes
# ---------------------------------------------------------------------------

# Sizes at the limits: the products 262,144, 262,143 and every count of digits.
GOOD_SIZES = ((1, 1), (9, 10), (10, 9), (99, 100), (100, 99), (1024, 1), (1, 1024), (999, 1), (1, 1000),
              (1024, 256), (256, 1024), (512, 512), (513, 511))
# 481 by 545 is 262,145.  Some are good, or nothing at all, once cut to 8, 16 or 32 bits.
BAD_SIZES = ((0, 0), (0, 1), (1, 0), (1025, 1), (1, 1025), (1025, 0), (481, 545), (545, 481), (513, 512), (512, 513),
             (1024, 257), (257, 1024), (1024, 1024), (65536, 65536), (65537, 1), (1, 65537), (131072, 32768),
             (999999, 1), (1, 999999), (999999, 999999), (0, 999999))

# Three times THIRD is 1 in 64 bits, and 1024 times 2**54 is 0.
THIRD = 0xAAAAAAAAAAAAAAAB
SIDES = (0, 1, 2, 3, 1024, 1025, 2 ** 8 + 1, 2 ** 16 + 1, 2 ** 31, 2 ** 32 - 1, 2 ** 32, 2 ** 32 + 2, 2 ** 54,
         2 ** 54 + 1, 2 ** 63, 2 ** 63 + 1, THIRD, 2 ** 64 - 2, 2 ** 64 - 1)


def any_size(chance):
    """Small ones for the most part."""
    if chance.randrange(8) == 0:
        return chance.choice(GOOD_SIZES + BAD_SIZES)
    return chance.randrange(1, 6), chance.randrange(1, 6)


def every_kind_of_size(chance, count):
    """Sizes that wrap, bad ones, any of 64 bits, and as many by chance as asked."""
    sizes = list(itertools.product(SIDES, SIDES)) + list(BAD_SIZES)
    sizes += [(chance.getrandbits(64), chance.getrandbits(64)) for _ in range(100)]
    return sizes + [any_size(chance) for _ in range(count)]


# ---------------------------------------------------------------------------
# Faults
# ---------------------------------------------------------------------------

def fault_sets(faults, order):
    """Each fault alone and each pair of two numbers: (the number that wins, changes)."""
    for number in order:
        for one in faults[number]:
            yield number, one
    for first, then in itertools.combinations(order, 2):
        for one, other in itertools.product(faults[first], faults[then]):
            yield first, {**one, **other}


# ---------------------------------------------------------------------------
# Lengths
# ---------------------------------------------------------------------------

# Buffers by chance stay this short.  It is the longest row of a frame.
MOST_LENT = 3072


def slipped(chance, length):
    """A length, at times one too short or too long."""
    return max(0, length + chance.choice(6 * (0,) + (-1, 1)))


def lendable(chance, length):
    """The length in 64 bits, or any small one where that is too much to lend."""
    cut = length % 2 ** 64
    return cut if cut <= MOST_LENT else chance.randrange(20)
