"""Calls for the settings, good and bad: those with known answers, and seeded ones.

A call is a field text, a house text and a name.  Its answer is the number of
the refusal, or (which, at, value).  settingtest.py holds the two paths of
settings.py to the answers and to each other; settingruns.py gives the same
calls to the library.
"""

import itertools
import random

import cases
import texts

LETTERS = b"abcdefghijklmnopqrstuvwxyz0123456789"
# The byte that parts the texts in the runs stands in no call.
BYTES = tuple(bytes([byte]) for byte in range(256) if byte not in texts.PARTED_BY)


# ---------------------------------------------------------------------------
# By hand
# ---------------------------------------------------------------------------

BY_HAND = (
    # The request's words: the field's before the house's.
    (b"keep\tr\t60\n", b"", b"r", ("field", 7, b"60")),
    (b"", b"keep\tr\t60\n", b"r", ("house", 7, b"60")),
    (b"keep\tr\t60\n", b"keep\tr\t30\n", b"r", ("field", 7, b"60")),
    (b"keep\ts\t7\nkeep\tr\t60\n", b"keep\tr\t30\n", b"r", ("field", 16, b"60")),
    (b"keep\ts\t7\n", b"keep\tr\t30\n", b"r", ("house", 7, b"30")),
    (b"keep\ts\t7\n", b"keep\tomega\t9500\nkeep\tr\t30\n", b"omega", ("house", 11, b"9500")),
    (b"keep\ts\t7\n", b"keep\tomega\t9500\nkeep\tr\t30\n", b"r", ("house", 23, b"30")),
    (b"keep\ts\t7\n", b"keep\tomega\t9500\nkeep\tr\t30\n", b"t0", 15),
    (b"", b"", b"r", 15), (b"keep\ts\t7\n", b"", b"r", 15), (b"", b"keep\ts\t7\n", b"r", 15),
    # The first line with the name counts.
    (b"keep\tr\t60\nkeep\tr\t30\n", b"", b"r", ("field", 7, b"60")),
    (b"", b"keep\tr\t60\nkeep\tr\t30\n", b"r", ("house", 7, b"60")),
    (b"keep\tr\t1\nkeep\tr\t2\n", b"keep\tr\t3\nkeep\tr\t4\n", b"r", ("field", 7, b"1")),
    (b"keep\ts\t1\nkeep\tr\t2\nkeep\tr\t3\n", b"keep\tr\t4\n", b"r", ("field", 16, b"2")),
    (b"keep\ts\t1\n", b"keep\ts\t2\nkeep\tr\t3\nkeep\tr\t4\n", b"r", ("house", 16, b"3")),
    # Equal values: the place tells them apart.
    (b"keep\tr\t7\n", b"keep\tr\t7\n", b"r", ("field", 7, b"7")),
    (b"keep\tr\t7\nkeep\tr\t7\n", b"", b"r", ("field", 7, b"7")),
    (b"keep\ts\t7\nkeep\tr\t7\nkeep\tr\t7\n", b"keep\tr\t7\n", b"r", ("field", 16, b"7")),
    (b"keep\ts\t7\n", b"keep\tu\t7\nkeep\tr\t7\nkeep\tr\t7\n", b"r", ("house", 16, b"7")),
    (b"keep\tp\tp\nkeep\te\te\nkeep\tee\tee\n", b"", b"ee", ("field", 26, b"ee")),
    (b"keep\tk\tk\n", b"keep\te\te\n", b"e", ("house", 7, b"e")),
    # A name that stands as a value.
    (b"keep\tr\ts\n", b"", b"s", 15), (b"", b"keep\tr\ts\n", b"s", 15),
    (b"keep\tr\ts\nkeep\ts\t7\n", b"", b"s", ("field", 16, b"7")),
    (b"keep\tr\ts\n", b"keep\ts\t7\n", b"s", ("house", 7, b"7")),
    (b"keep\ts\ts\n", b"", b"s", ("field", 7, b"s")),
    # A name that begins or ends another.
    (b"keep\tra\t1\n", b"", b"r", 15), (b"keep\tar\t1\n", b"", b"r", 15), (b"keep\tr\t1\n", b"", b"ra", 15),
    (b"keep\tr\t1\n", b"", b"rr", 15), (b"keep\trr\t1\n", b"", b"r", 15), (b"keep\tab\t1\n", b"", b"ba", 15),
    (b"keep\tra\t1\nkeep\tr\t2\n", b"", b"r", ("field", 17, b"2")),
    (b"keep\tr\t2\nkeep\tra\t1\n", b"", b"ra", ("field", 17, b"1")),
    (b"keep\tra\t1\n", b"keep\tr\t2\n", b"r", ("house", 7, b"2")),
    (b"keep\tr\t2\n", b"keep\tra\t1\n", b"ra", ("house", 8, b"1")),
    # Numbers are words: 7 is neither 07 nor 007.
    (b"keep\t07\t1\nkeep\t7\t2\n", b"keep\t007\t3\n", b"7", ("field", 17, b"2")),
    (b"keep\t07\t1\n", b"keep\t007\t3\n", b"7", 15),
    # The most letters.
    (b"keep\tabcdefghijklmnop\tqrstuvwxyz012345\n", b"", b"abcdefghijklmnop", ("field", 22, b"qrstuvwxyz012345")),
    (b"keep\tabcdefghijklmnop\tqrstuvwxyz012345\n", b"", b"abcdefghijklmno", 15),
    (b"keep\tabcdefghijklmnop\tqrstuvwxyz012345\n", b"", b"abcdefghijklmnopq", 15),
    (b"keep\tabcdefghijklmnopq\tr\n", b"", b"abcdefghijklmnop", 9),
    (b"keep\tabcdefghijklmnopq\tr\n", b"", b"abcdefghijklmnopq", 9),
    (b"keep\tr\tabcdefghijklmnopq\n", b"", b"r", 9),
    # 1.  A bad line after the one that counts; no line, no last LF, a lone LF.
    (b"keep\tr\t60\nkeep\ts\n", b"", b"r", 9), (b"keep\tr\t60\n\n", b"", b"r", 9), (b"keep\tr\t60\nkeep", b"", b"r", 9),
    (b"keep\tr\t60\n", b"keep\ts\n", b"r", 9), (b"keep\tr\t60\n", b"\n", b"r", 9), (b"keep\tr\t60\n", b"x", b"r", 9),
    (b"keep\tr\t60\n", b"keep\tr\t30\nkeep\tr\t\n", b"r", 9), (b"keep\ts\n", b"keep\tr\t30\n", b"r", 9),
    (b"\n", b"keep\tr\t30\n", b"r", 9), (b"keep\tr\t60", b"", b"r", 9), (b"", b"keep\tr\t60", b"r", 9),
    (b"\nkeep\tr\t60\n", b"", b"r", 9), (b"keep\ts\t7\n\nkeep\tr\t60\n", b"", b"r", 9), (b"\n\n\n", b"\n", b"r", 9),
    # 2.  The name `keep`, and ill-formed names.
    (b"keep\tkeep\tkeep\n", b"", b"keep", ("field", 10, b"keep")),
    (b"keep\tr\tkeep\nkeep\tkeep\tr\n", b"", b"keep", ("field", 22, b"r")),
    (b"keep\tr\tkeep\n", b"keep\tkeep\tr\n", b"keep", ("house", 10, b"r")),
    (b"keep\tr\tkeep\n", b"", b"keep", 15), (b"", b"", b"keep", 15),
    (b"", b"", b"", 15), (b"keep\tr\t60\n", b"", b"", 15), (b"keep\tr\t60\n", b"", b"R", 15),
    (b"keep\tr\t60\n", b"\n", b"", 9), (b"x", b"keep\tr\t60\n", b"R", 9), (b"\n", b"\n", b"r 60", 9),
    # Ill-formed names that stand in the text all the same.
    *((b"keep\tr\t60\nkeep\ts\t7\n", b"keep\ts\t7\nkeep\tr\t60\n", name, 15)
      for name in (b"\t", b"\n", b"r\t", b"\tr", b"\tr\t", b"r\t60", b"r\t60\n", b"r\n", b"keep\tr", b"60\nkeep\ts",
                   b"r\t60\nkeep\ts", b"s\t7\nkeep\tr", b"keep\tr\t60\n", b"keep\tr\t60\nkeep\ts\t7\n")),
)


# ---------------------------------------------------------------------------
# Malformed texts
# ---------------------------------------------------------------------------

# Each is malformed as a whole text, and makes every text malformed that it stands in between lines.
MALFORMED = (
    # Too few fields, too many, empty ones.
    b"keep\n", b"keep\ta\n", b"a\tb\n", b"keep\ta\tb\tc\n", b"keep\ta\tb\tkeep\ta\tb\n", b"keep\t\tb\n", b"keep\ta\t\n",
    b"\ta\tb\n", b"keep\t\t\n", b"\t\t\n", b"\t\n", b"keep\t\n",
    # A tab too many, or another thing for a tab.
    b"keep\t\ta\tb\n", b"keep\ta\t\tb\n", b"\tkeep\ta\tb\n", b"keep\ta\tb\t\n", b"keep a b\n", b"keep\ta b\n",
    b"keep a\tb\n", b"keep,a,b\n", b"keep\va\vb\n", b"keep\ta=b\n", b"keep \ta\tb\n", b"keep\t a\tb\n",
    b"keep\ta \tb\n", b"keep\ta\t b\n", b"keep\ta\tb \n", b" keep\ta\tb\n",
    # Ends of a line.
    b"\n", b"\n\n\n", b"\r\n", b"\r", b"keep\ta\tb\r\n", b"keep\ta\tb\r", b"keep\ta\tb\n\r", b"keep\ta\tb\v",
    b"keep\ta\tb\x85", b"keep\ta\tb\0", b"keep\ta\tb", b"keep\ta\t", b"keep\ta", b"keep\t", b"keep", b"kee", b"k",
    b"keep\ta\n\tb\n", b"keep\n\ta\tb\n",
    # Another word.
    b"kee\ta\tb\n", b"keeps\ta\tb\n", b"Keep\ta\tb\n", b"KEEP\ta\tb\n", b"eep\ta\tb\n", b"kep\ta\tb\n", b"keeq\ta\tb\n",
    b"size\ta\tb\n", b"size\t2\t1\n", b"#\n", b"#\ta\tb\n", b"\xef\xbb\xbfkeep\ta\tb\n",
    # Other letters.
    b"keep\tA\tb\n", b"keep\ta\tB\n", b"keep\ta_a\tb\n", b"keep\ta\tb_b\n", b"keep\ta\t-1\n", b"keep\ta\t0.5\n",
    b"keep\t\xc2\xb2\tb\n", b"keep\ta\t\xd9\xa1\n", b"keep\t\xb2\tb\n", b"keep\ta\t\xe4\n", b"keep\ta\0\tb\n",
)

GOOD = b"keep\ta\tb\n"

FAULTS = {
    9: tuple(changes for bad in MALFORMED
             for changes in ({"field": bad}, {"house": bad}, {"field": bad, "house": bad})),
    15: ({"name": b"z"}, {"name": b""}, {"name": b"A"}, {"name": b"abcdefghijklmnopq"}),
}


def lent(field=GOOD, house=GOOD, name=b"a"):
    """A call."""
    return field, house, name


def refused():
    """Each fault alone and each pair of two numbers."""
    for number, changes in cases.fault_sets(FAULTS, (9, 15)):
        yield (*lent(**changes), number)


def malformed_among_lines():
    """First, between and last; in the house text while the field text has the name."""
    one, other = b"keep\ta\t1\n", b"keep\tc\t2\n"
    for bad in MALFORMED:
        for text in (bad + one + other, one + bad + other, one + other + bad):
            yield text, b"", b"a", 9
            yield one, text, b"a", 9


# ---------------------------------------------------------------------------
# Every length, every place of a name, many lines and every byte
# ---------------------------------------------------------------------------

def in_each_text(text, name, found):
    """A call with the text as the field text and one as the house text; found is a place and a value, or a number."""
    for which, field, house in (("field", text, b""), ("house", b"", text)):
        yield field, house, name, found if isinstance(found, int) else (which, *found)


LENGTHS = (0, 1, 15, 16, 17)
# These are 1 or 16 once cut to 5 or 8 bits.
LONG = (33, 48, 257, 272)


def word(length):
    return (LETTERS * 8)[:length]


def every_length():
    """Names and values of every length in a text, and names of every length that are asked for."""
    pairs = [*itertools.product(LENGTHS, LENGTHS), *((long, 1) for long in LONG), *((1, long) for long in LONG)]
    for of_name, of_value in pairs:
        text = b"keep\t" + word(of_name) + b"\t" + word(of_value) + b"\n"
        good = 1 <= of_name <= 16 and 1 <= of_value <= 16
        yield from in_each_text(text, word(of_name), (6 + of_name, word(of_value)) if good else 9)
    text = b"keep\ta\t1\nkeep\tabcdefghijklmno\t2\nkeep\tabcdefghijklmnop\t3\n"
    found = {1: (7, b"1"), 15: (30, b"2"), 16: (54, b"3")}
    for length in LENGTHS + LONG:
        yield from in_each_text(text, word(length), found.get(length, 15))


def every_place():
    """Two names of 16 letters that differ in one place, the second asked for."""
    one = word(16)
    for place in range(16):
        other = one[:place] + b"0" + one[place + 1:]
        yield from in_each_text(b"keep\t%b\t1\nkeep\t%b\t2\n" % (one, other), other, (46, b"2"))


def many_lines(count):
    """As many lines before the one that counts; then with a lone LF behind it."""
    text = count * b"keep\tb\t0\n" + b"keep\ta\t1\n"
    yield from in_each_text(text, b"a", (9 * count + 7, b"1"))
    yield from in_each_text(text + b"\n", b"a", 9)


def every_byte():
    """Every byte in a name, in a value, in the name asked for, before and after a line, and for a tab or LF."""
    for byte in BYTES:
        letter = byte in LETTERS
        yield from in_each_text(b"keep\ta" + byte + b"a\tb\n", b"a" + byte + b"a", (9, b"b") if letter else 9)
        yield from in_each_text(b"keep\ta\tb" + byte + b"b\n", b"a", (7, b"b" + byte + b"b") if letter else 9)
        yield from in_each_text(b"keep\ta\tb\nkeep\tab\tc\n", b"a" + byte, (17, b"c") if byte == b"b" else 15)
        yield from in_each_text(byte + GOOD, b"a", 9)
        yield from in_each_text(GOOD + byte, b"a", 9)
        yield from in_each_text(b"keep" + byte + b"a\tb\n", b"a", (7, b"b") if byte == b"\t" else 9)
        yield from in_each_text(b"keep\ta" + byte + b"b\n", b"a", (7, b"b") if byte == b"\t" else 9)
        yield from in_each_text(b"keep\ta\tb" + byte + GOOD, b"a", (7, b"b") if byte == b"\n" else 9)


def known():
    """All calls of the runs with known answers: (field, house, name, answer)."""
    # A count of 260 lines does not fit 8 bits.
    return itertools.chain(BY_HAND, refused(), malformed_among_lines(), every_length(), every_place(),
                           many_lines(260), every_byte())


# ---------------------------------------------------------------------------
# By chance
# ---------------------------------------------------------------------------

NAMES = (b"a", b"ab", b"abc", b"b", b"ba", b"k", b"kee", b"keep", b"keeps", b"0", b"00", b"9", b"z" * 15, b"z" * 16)
ILL_FORMED = (b"", b"A", b"a ", b"a\t", b"a\n", b"a\tb", b"\xff", b"z" * 17, b"keep\ta", b"ab\0")
# What a damaged text may have in a place: tab and LF and near them, letters and digits and near them.
TELLING = (b"\0", b"\b", b"\t", b"\n", b"\v", b"\r", b" ", b"/", b"0", b"9", b":", b"@", b"A", b"Z", b"[", b"_", b"`",
           b"a", b"b", b"k", b"z", b"{", b"\x89", b"\x8a", b"\xb2", b"\xe1", b"\xff")


def any_value(chance):
    """Short ones for the most part, names among them, so that equal values are common."""
    of_any_length = bytes(chance.choices(LETTERS, k=chance.randint(1, 16)))
    return chance.choice(NAMES + 6 * (b"%d" % chance.randrange(1000),) + (of_any_length,))


def any_pairs(chance, names):
    """Names and values for the lines of a text, from some of the names.  Few lines for the most part."""
    some = chance.sample(names, chance.randint(1, len(names)))
    return [(chance.choice(some), any_value(chance)) for _ in range(chance.randrange(chance.choice((5, 13))))]


def text_of(pairs):
    """A good text."""
    return b"".join(b"keep\t%b\t%b\n" % pair for pair in pairs)


def any_name(chance, field, house):
    """A name of the field text alone, of the house text alone, of both or of neither; at times an ill-formed one."""
    in_field, in_house = ({name for name, _ in pairs} for pairs in (field, house))
    kinds = (in_field - in_house, in_house - in_field, in_field & in_house, set(NAMES) - in_field - in_house)
    kind = chance.choice([kind for kind in kinds if kind])
    return chance.choice(8 * (chance.choice(sorted(kind)),) + (chance.choice(ILL_FORMED),))


def any_good(chance):
    """The pairs of a field text and of a house text, and a name.  Five names, so that many stand twice or in both."""
    names = chance.sample(NAMES, 5)
    field, house = any_pairs(chance, names), any_pairs(chance, names)
    return field, house, any_name(chance, field, house)


def damaged(chance, text):
    """A byte dropped, doubled or changed, two swapped, or the end cut off."""
    if not text:
        return chance.choice(BYTES)
    at, then = sorted((chance.randrange(len(text)), chance.randrange(len(text))))
    byte = chance.choice((chance.choice(BYTES), chance.choice(TELLING)))
    edits = (
        text[:at] + text[at + 1:],
        text[:at] + 2 * text[at:at + 1] + text[at + 1:],
        text[:at] + byte + text[at + 1:],
        text[:at] + text[then:then + 1] + text[at + 1:then] + text[at:at + 1] + text[then + 1:],
        text[:at],
    )
    return chance.choice(edits)


def by_chance(chance, count):
    """One half as made, one quarter with a damaged field text, one quarter with a damaged house text."""
    for turn in range(count):
        field, house, name = any_good(chance)
        field, house = text_of(field), text_of(house)
        if turn % 4 == 1:
            field = damaged(chance, field)
        if turn % 4 == 3:
            house = damaged(chance, house)
        yield field, house, name


def calls():
    """All calls of the runs, none of them twice."""
    with_answers = ((field, house, name) for field, house, name, _ in known())
    return list(dict.fromkeys(itertools.chain(with_answers, by_chance(random.Random(14), 950))))
