"""The checks of settings.py, which selftest.py runs.

Both paths are held to the answers that are known, to texts whose lines are
known, to laws that follow from the request's words, and to each other on
seeded calls and on all short pieces of a text.
"""

import itertools
import random

import settingcases
import settingruns
import settings
import texts

PATHS = (("pattern", settings.refusal, settings.setting), ("slow", settings.slow_refusal, settings.slow_setting))
REFUSED = ("field", 0, b"")


# ---------------------------------------------------------------------------
# Known answers
# ---------------------------------------------------------------------------

def check_answer(same, call, answer):
    """Both paths give the answer: a number, or (which, at, value)."""
    number, want = (answer, REFUSED) if isinstance(answer, int) else (0, answer)
    for path, refusal, setting in PATHS:
        what = "%s: %r" % (path, call)
        same(what + ", the number", refusal(*call), number)
        same(what + ", the part", setting(*call), want)


def group_known(same):
    # The last value of 8,000 lines begins at a place that does not fit 16 bits.
    for *call, answer in itertools.chain(settingcases.known(), settingcases.many_lines(8000)):
        check_answer(same, call, answer)


def group_parting_byte(same):
    """The one byte that is in no call of the runs is no letter, no tab and no LF."""
    byte, good = texts.PARTED_BY, settingcases.GOOD
    for text in (byte, byte + good, good + byte, good.replace(b"a", byte), good.replace(b"b", byte),
                 good.replace(b"\t", byte), good.replace(b"\n", byte)):
        check_answer(same, (text, b"", b"a"), 9)
        check_answer(same, (b"", text, byte), 9)
    check_answer(same, (good, good, byte), 15)
    check_answer(same, (good, good, b"a" + byte), 15)


def first_of(pairs, name):
    """The place and the value of the first pair with a name, None where none has it."""
    at = 0
    for one, value in pairs:
        if one == name:
            return at + len("keep\t") + len(name) + len("\t"), value
        at += len("keep\t") + len(one) + len("\t") + len(value) + len("\n")
    return None


def group_known_lines(same):
    """Texts that are made from pairs, the answer found in the pairs."""
    chance = random.Random(31401)
    for turn in range(4000):
        field, house, name = settingcases.any_good(chance)
        in_field, in_house = first_of(field, name), first_of(house, name)
        answer = 15
        if in_house:
            answer = ("house", *in_house)
        if in_field:
            answer = ("field", *in_field)
        check_answer(same, (settingcases.text_of(field), settingcases.text_of(house), name), answer)


# ---------------------------------------------------------------------------
# Laws
# ---------------------------------------------------------------------------

# The calls that the laws are checked on.
TRIED = settingcases.calls() + list(settingcases.by_chance(random.Random(31402), 1500))


def well_formed(name):
    return 1 <= len(name) <= 16 and set(name) <= set(settingcases.LETTERS)


def has(text, name):
    """Whether a line of a text has a name."""
    return any(line.split(b"\t")[1:2] == [name] for line in text.split(b"\n"))


def group_part(same):
    """The part is empty exactly on a refusal, and lies at the beginning of the field text there."""
    for path, refusal, setting in PATHS:
        for call in TRIED:
            what = "%s: %r" % (path, call)
            same(what, setting(*call)[2] == b"", refusal(*call) != 0)
            if refusal(*call):
                same(what + ", refused", setting(*call), REFUSED)


def group_place(same):
    """A value stands at its place, in a line with the name, and no line before it has the name."""
    for path, refusal, setting in PATHS:
        for field, house, name in TRIED:
            which, at, value = setting(field, house, name)
            if not value:
                continue
            what = "%s: %r %r %r" % (path, field, house, name)
            text = {"field": field, "house": house}[which]
            start = at - len(b"keep\t" + name + b"\t")
            same(what + ", the line", text[max(0, start):at + len(value) + 1], b"keep\t%b\t%b\n" % (name, value))
            same(what + ", the end before it", text[max(0, start - 1):start] in (b"", b"\n"), True)
            same(what + ", the lines before it", has(text[:start], name), False)
            same(what + ", the field text", has(field, name), which == "field")


def group_line_at_the_end(same):
    """A good line at the end of the house text changes no accepted answer."""
    for path, refusal, setting in PATHS:
        for field, house, name in TRIED:
            if refusal(field, house, name):
                continue
            before = setting(field, house, name)
            for line in (b"keep\t%b\tother\n" % name, b"keep\tkeep\t%b\n" % name):
                what = "%s: %r %r and %r, %r" % (path, field, house, line, name)
                same(what, (refusal(field, house + line, name), setting(field, house + line, name)), (0, before))


def group_line_in_front(same):
    """A good line with the name in front of a good field text is the one that counts."""
    for path, refusal, setting in PATHS:
        for field, house, name in TRIED:
            if refusal(field, house, name) == 9 or not well_formed(name):
                continue
            line = b"keep\t%b\tother\n" % name
            what = "%s: %r %r %r, in front" % (path, field, house, name)
            same(what, setting(line + field, house, name), ("field", len(line) - len("other\n"), b"other"))


def group_one_text(same):
    """The field text and the house text behind it, as one text, answer the same."""
    for path, refusal, setting in PATHS:
        for field, house, name in TRIED:
            if refusal(field, house, name) == 9:
                continue
            which, at, value = setting(field, house, name)
            place = at + {"field": 0, "house": len(field)}[which]
            for one, call in (("field", (field + house, b"", name)), ("house", (b"", field + house, name))):
                what = "%s: %r %r %r, one %s text" % (path, field, house, name, one)
                same(what, refusal(*call), refusal(field, house, name))
                same(what + ", the part", setting(*call), (one, place, value) if value else REFUSED)


def group_other_way_round(same):
    """Which text is the field's makes no difference to the number."""
    for path, refusal, setting in PATHS:
        for field, house, name in TRIED:
            same("%s: %r %r %r" % (path, field, house, name), refusal(house, field, name), refusal(field, house, name))


def group_malformed(same):
    """9 says that one of the texts is malformed, and a malformed text is 9 in either place for every name."""
    good = settingcases.GOOD
    for path, refusal, setting in PATHS:
        for field, house, name in TRIED:
            bad = [text for text in (field, house) if refusal(text, b"", b"a") == 9]
            same("%s: %r %r %r" % (path, field, house, name), refusal(field, house, name) == 9, bad != [])
            for text, asked in itertools.product(bad, (b"a", b"z", b"")):
                for call in ((text, good, asked), (good, text, asked)):
                    same("%s: %r" % (path, call), (refusal(*call), setting(*call)), (9, REFUSED))


# ---------------------------------------------------------------------------
# The two paths against each other
# ---------------------------------------------------------------------------

def check_paths(same, call):
    """Gives the answer, on which both paths must agree."""
    number, part = settings.refusal(*call), settings.setting(*call)
    same("%r, the number" % (call,), settings.slow_refusal(*call), number)
    same("%r, the part" % (call,), settings.slow_setting(*call), part)
    return number, part


def group_paths_on_calls(same):
    seen = dict.fromkeys((9, 15, "field", "house"), 0)
    for call in settingcases.by_chance(random.Random(31403), 15000):
        number, (which, at, value) = check_paths(same, call)
        seen[number or which] += 1
    for thing, times in seen.items():
        same("%s was met a thousand times" % thing, times >= 1000, True)


def group_paths_on_pieces(same):
    """Every piece of up to six fields, tabs and LFs: alone, before a line, after a line and in a line."""
    pieces = [b"".join(piece) for count in range(7)
              for piece in itertools.product((b"keep", b"a", b"\t", b"\n", b"A"), repeat=count)]
    good = settingcases.GOOD
    for before, after in ((b"", b""), (b"", good), (good, b""), (b"keep\t", b"\ta\n")):
        for piece in pieces:
            check_paths(same, (before + piece + after, b"", b"a"))


# ---------------------------------------------------------------------------
# The runs
# ---------------------------------------------------------------------------

def group_runs(same):
    """The calls are read back from what is given, and the slow path gives the lines that must be answered."""
    files = settingruns.made()
    *parts, rest = files["stdin"].split(texts.PARTED_BY)
    same("what stands after the last call", rest, b"")
    calls = list(zip(parts[::3], parts[1::3], parts[2::3]))
    same("the calls", calls, settingcases.calls())
    seen = dict.fromkeys((9, 15, "field", "house"), 0)
    for call, line in zip(calls, files["stdout"].splitlines(keepends=True), strict=True):
        number, (which, at, value) = settings.slow_refusal(*call), settings.slow_setting(*call)
        same("the line of %r" % (call,), line, str(number).encode() + b"\t" + value + b"\n")
        seen[number or which] += 1
    for thing, times in seen.items():
        same("%s was met a hundred times" % thing, times >= 100, True)


GROUPS = (
    ("settings, known answers", group_known),
    ("settings, the byte that parts", group_parting_byte),
    ("settings, texts of known lines", group_known_lines),
    ("settings, the part and the number", group_part),
    ("settings, where the value stands", group_place),
    ("settings, a line at the end", group_line_at_the_end),
    ("settings, a line in front", group_line_in_front),
    ("settings, both as one text", group_one_text),
    ("settings, the texts the other way round", group_other_way_round),
    ("settings, malformed texts", group_malformed),
    ("settings, both paths on seeded calls", group_paths_on_calls),
    ("settings, both paths on all short pieces", group_paths_on_pieces),
    ("settings, the runs", group_runs),
)
