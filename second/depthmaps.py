"""Maps for the depths, good and bad: those written out by hand with their answers, and seeded ones.

depthtest.py holds the two paths of depth.py to the answers and to each other;
depths.py gives the same maps to the library.
"""

import cases

# ---------------------------------------------------------------------------
# By hand
# ---------------------------------------------------------------------------

# An entry and its depth.
BY_HAND = (
    # The request's words, and the list of readings.
    (10000, 0), (9999, 1), (9900, 1), (1, 917), (0, 918),
    # The table goes on with 990,000,000, 980,100,000, 970,299,000, 960,596,010 and 950,990,049.
    (9901, 1), (9899, 2), (9801, 2), (9800, 3), (9703, 3), (9702, 4), (9606, 4), (9605, 5),
    # No map may have these, but they have a depth.
    (10001, 0), (32768, 0), (65535, 0),
)

# Every entry that a map may have fills this size.
EVERY_SIZE = (73, 137)


# ---------------------------------------------------------------------------
# One good call, and the ways in which it can have each fault
# ---------------------------------------------------------------------------

ORDER = (1, 4, 8)

# Changes of what lent() takes.  No two of different numbers want the same thing.
FAULTS = {
    # Six entries are lent for sizes that are 3 by 2 or have six pixels once cut to 16, 32 or 64 bits.
    1: ({"size": (1025, 1)}, {"size": (1, 1025)}, {"size": (0, 6), "whole": 6}, {"size": (6, 0), "whole": 6},
        {"size": (2 ** 16 + 3, 2), "whole": 6}, {"size": (3, 2 ** 32 + 2), "whole": 6},
        {"size": (2 ** 63 + 3, 2), "whole": 6}, {"size": (2 ** 64 - 3, 2 ** 64 - 2), "whole": 6}),
    4: ({"left": -1}, {"left": 1}, {"over": -1}, {"over": 1}, {"over": -6}, {"left": -1, "over": -1},
        {"left": -1, "over": 1}, {"left": 1, "over": -1}, {"left": 1, "over": 1}),
    8: tuple({"above": (place, value)} for place in (0, 3, -1) for value in (10001, 65535)),
}

# A map without entries has no place for an entry at fault, so these are in no pair.
EMPTY = (
    (1, {"size": (0, 0)}), (1, {"size": (0, 6)}), (1, {"size": (6, 0)}), (1, {"size": (2 ** 32, 2 ** 32), "whole": 0}),
    (4, {"left": -6}), (4, {"left": -6, "over": -6}),
)


def unlike_depths(count):
    """Entries that are no depth: one that was written shows, and one that was not."""
    return [919 + 4099 * k % 64617 for k in range(count)]


def lent(size=(3, 2), whole=None, left=0, over=0, above=None):
    """A size, a map and lent depths; left and over count entries too many, above is a place and what stands there."""
    W, H = size
    whole = W * H if whole is None else whole
    entries = [(9899 + 1237 * k) % 10001 for k in range(whole + left)]
    if above:
        place, value = above
        entries[place] = value
    return W, H, entries, unlike_depths(whole + over)


def refused():
    """Each fault alone and each pair of two numbers: (the number that wins, changes)."""
    yield from EMPTY
    yield from cases.fault_sets(FAULTS, ORDER)


# ---------------------------------------------------------------------------
# By chance
# ---------------------------------------------------------------------------

# The first and the last of a range of entries.  Small ones come often: there the depth moves fastest.
RANGES = ((0, 0), (0, 9), (0, 99), (0, 999), (0, 10000), (9800, 10000), (10000, 10000))


def any_entry(chance):
    return chance.randint(*chance.choice(RANGES))


def any_map(chance, count):
    """One map of four has an entry above 10,000."""
    entries = [any_entry(chance) for _ in range(count)]
    if entries and chance.randrange(4) == 0:
        entries[chance.randrange(count)] = chance.choice((10001, 16384, 65535, chance.randrange(10001, 65536)))
    return entries


def any_lent(chance, count):
    """Entries that are no depth."""
    return [chance.randrange(919, 65536) for _ in range(count)]


def buffers(chance, W, H):
    """A map and lent depths for a size."""
    whole = cases.lendable(chance, W * H)
    return any_map(chance, cases.slipped(chance, whole)), any_lent(chance, cases.slipped(chance, whole))
