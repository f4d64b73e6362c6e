"""Depths of a map: change request Four in plain Python.

What is given:
    t          an entry of a map, any whole number that is not negative
    W, H       any whole numbers that are not negative
    entries    the map, a list of such entries
    lent       the lent depths, a list
What is answered:
    depth      the depth of t
    depths     (number, the lent depths afterwards)
The number is 0 or that of the refusal.  On a refusal the lent depths come back
as they were.  Nothing given is changed.  Places count from 0.

The last part holds a plain path: the same two without a table, the steps
counted anew for every entry.  It shares no function with the first.
"""

import rules


def table():
    """From 1,000,000,000, each 99/100 of the one before, rounded down, to the first that is at most 100,000."""
    entries = [1000000000]
    while entries[-1] > 100000:
        entries.append(99 * entries[-1] // 100)
    return entries


TABLE = table()


def depth(t):
    """The first place whose entry is at most 100,000*t, and the table's length for t = 0."""
    if t == 0:
        return len(TABLE)
    return next(place for place, entry in enumerate(TABLE) if entry <= 100000 * t)


def depths(W, H, entries, lent):
    """The depth of every entry in the lent depths: 1, 4, then 8."""
    number = rules.lowest_that_applies({
        1: rules.size_is_outside((W, H)),
        4: rules.map_is_not_whole((W, H), len(entries)) or rules.map_is_not_whole((W, H), len(lent)),
        8: rules.entry_is_above(entries),
    })
    if number:
        return number, lent
    depth_of = {t: depth(t) for t in set(entries)}
    return 0, [depth_of[t] for t in entries]


# ---------------------------------------------------------------------------
# The plain path: no table, and one step after the other.
# ---------------------------------------------------------------------------

def plain_depth(t):
    """depth: how often a hundredth, rounded up, is taken away; once more where even the last is too large."""
    left, enough, steps = 10 ** 9, t * 10 ** 5, 0
    while left > enough:
        steps += 1
        if left <= 10 ** 5:
            break
        left -= (left + 99) // 100
    return steps


def plain_depths(W, H, entries, lent):
    """depths, entry by entry."""
    if W not in range(1, 1025) or H not in range(1, min(1024, 262144 // W) + 1):
        return 1, lent
    if {len(entries), len(lent)} != {W * H}:
        return 4, lent
    after = []
    for t in entries:
        if t >= 10001:
            return 8, lent
        after.append(plain_depth(t))
    return 0, after
