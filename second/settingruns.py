"""The runs of the settings: what the program `runsettings` is given and must answer.

Run it as:
    python3 -I settingruns.py --check    makes both files anew and compares them
                                         with crates/runsettings/stdin and
                                         stdout; status 1 and the first
                                         difference where they differ
    python3 -I settingruns.py --write    writes them

The calls come from settingcases.py, their answers from settings.py.  In stdin
a call is its field text, its house text and its name, each followed by one
byte 30, which stands in none of them.  In stdout a call is one line: the number
of the refusal or 0, a tab, and the bytes of the part, none on a refusal.
"""

import os
import sys

sys.dont_write_bytecode = True
sys.path.insert(0, os.path.dirname(os.path.abspath(__file__)))

import kept
import settingcases
import settings
import texts

# The most that `runsettings` is given.
MOST_INPUT = 262144


def line(call):
    """What must be answered to a call."""
    which, at, value = settings.setting(*call)
    return b"%d\t%b\n" % (settings.refusal(*call), value)


def never_met(calls):
    """The numbers and the texts that no answer comes from."""
    numbers = {settings.refusal(*call) for call in calls}
    places = {settings.setting(*call)[0] for call in calls if settings.refusal(*call) == 0}
    return {0, 9, 15, "field", "house"} - numbers - places


def made():
    """The two files."""
    calls = settingcases.calls()
    if any(texts.PARTED_BY in part for call in calls for part in call):
        raise SystemExit("settingruns: byte 30 stands in a call")
    missing = never_met(calls)
    if missing:
        raise SystemExit("settingruns: never met: %s" % missing)
    given = b"".join(part + texts.PARTED_BY for call in calls for part in call)
    if len(given) > MOST_INPUT:
        raise SystemExit("settingruns: stdin has %d bytes, %d are the most" % (len(given), MOST_INPUT))
    return {"stdin": given, "stdout": b"".join(map(line, calls))}


if __name__ == "__main__":
    files = made()
    kept.settle(sys.argv[1:], __doc__, "runsettings", files)
    answers = files["stdout"].splitlines()
    refused = sum(not answer.startswith(b"0\t") for answer in answers)
    print("settingruns: %d calls, %d refused" % (len(answers), refused))
