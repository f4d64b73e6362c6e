"""Field settings over house settings: change request Fourteen in plain Python.

What is given:
    field      the field text, bytes
    house      the house text, bytes
    name       the name asked for, bytes
What is answered:
    refusal    0, or the number of the refusal
    setting    (which, at, value): the value, the text it stands in, "field" or
               "house", and the place of its first byte there
On a refusal the setting is ("field", 0, b"").  Places count from 0.

One pattern reads a whole text.  The last part holds a slow path: the same two,
byte by byte with a table of states.  It shares no function with the first.
"""

import re

WORD = rb"([a-z0-9]{1,16})"
LINE = re.compile(rb"keep\t" + WORD + rb"\t" + WORD + rb"\n")
TEXT = re.compile(rb"(?:" + LINE.pattern + rb")*")


def line_of(text, name):
    """The first line of a good text that has the name, None where none has it."""
    return next((line for line in LINE.finditer(text) if line[1] == name), None)


def refusal(field, house, name):
    """9, then 15.  No line of a good text has an ill-formed name."""
    if not (TEXT.fullmatch(field) and TEXT.fullmatch(house)):
        return 9
    return 0 if line_of(field, name) or line_of(house, name) else 15


def setting(field, house, name):
    """The value of the first line with the name, in the field text before the house text."""
    if refusal(field, house, name):
        return "field", 0, b""
    line = line_of(field, name)
    if line:
        return "field", line.start(2), line[2]
    line = line_of(house, name)
    return "house", line.start(2), line[2]


# ---------------------------------------------------------------------------
# The slow path: a state before every byte.
# ---------------------------------------------------------------------------

def slow_table():
    """From a state, on a byte, to the next state.  What is not here is bad.

    A state is a field of the line and how many of its bytes were read.
    """
    steps = {("keep", 0, 107): ("keep", 1), ("keep", 1, 101): ("keep", 2), ("keep", 2, 101): ("keep", 3),
             ("keep", 3, 112): ("keep", 4), ("keep", 4, 9): ("name", 0)}
    for count in range(16):
        for byte in [*range(48, 58), *range(97, 123)]:
            steps["name", count, byte] = ("name", count + 1)
            steps["value", count, byte] = ("value", count + 1)
        steps["name", count + 1, 9] = ("value", 0)
        steps["value", count + 1, 10] = ("keep", 0)
    return steps


SLOW_STEPS = slow_table()


def slow_states(text):
    """The state before every byte, None for a text with a malformed line."""
    state, states = ("keep", 0), []
    for byte in text:
        states.append(state)
        state = SLOW_STEPS.get((*state, byte))
        if state is None:
            return None
    return states if state == ("keep", 0) else None


def slow_place(text, states, name):
    """Where the first value of a name begins, None where there is none."""
    for at, state in enumerate(states):
        if state == ("name", 0):
            # The name that is read, and the tab after it.
            read = []
        if state[0] == "name":
            read.append(text[at])
        if state == ("value", 0) and read == [*name, 9]:
            return at
    return None


def slow_value(text, at):
    """The bytes from a place to the end of its line."""
    value = []
    while text[at] != 10:
        value.append(text[at])
        at += 1
    return bytes(value)


def slow_answer(field, house, name):
    """The number of the refusal, and the setting."""
    in_field, in_house = slow_states(field), slow_states(house)
    if in_field is None or in_house is None:
        return 9, ("field", 0, b"")
    at = slow_place(field, in_field, name)
    if at is not None:
        return 0, ("field", at, slow_value(field, at))
    at = slow_place(house, in_house, name)
    if at is not None:
        return 0, ("house", at, slow_value(house, at))
    return 15, ("field", 0, b"")


def slow_refusal(field, house, name):
    """refusal, byte by byte."""
    return slow_answer(field, house, name)[0]


def slow_setting(field, house, name):
    """setting, byte by byte."""
    return slow_answer(field, house, name)[1]
