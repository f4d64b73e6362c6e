"""The help: the same from the checkout and from the tool, no page without its command, and examples that do what they say."""

import os
import re
import shutil
import subprocess
import sys
from pathlib import Path

import rules
from common import NAMES, ROOT, check, haze, tool
from refusals import PLACES

HELP = ROOT / "host/help"
TOPICS = sorted(path.stem for path in HELP.glob("*.txt"))
checkout = [str(ROOT / "haze")]


def same():
    """From the checkout there are some lines more, of its own commands."""
    check(set(TOPICS) == {"haze", "settings", "files", *PLACES}, TOPICS)
    for topic in TOPICS:
        text = (HELP / (topic + ".txt")).read_text()
        for words in ((["help"], ["--help"], ["-h"]) if topic == "haze" else (["help", topic], ["--help", topic])):
            ours, theirs = haze(*words), haze(*words, command=checkout)
            check((ours.returncode, ours.stdout, ours.stderr) == (0, text, ""), words, ours)
            check((theirs.returncode, theirs.stderr) == (0, "") and theirs.stdout.startswith(text), words, theirs)
            check(theirs.stdout == text or topic == "haze", words, theirs)
    for command in PLACES:
        for words in ([command, "--help"], [command, "-h"]):
            check(haze(*words).stdout == haze(*words, command=checkout).stdout == (HELP / (command + ".txt")).read_text(), words)
    for topic in ("demo", "install"):
        check(haze("help", topic, command=checkout).stdout.startswith(f"haze {topic}"), topic)
        check(haze("help", topic).returncode == 1, topic, "is a topic of the tool itself")


def wrong():
    """What is wrong before any command is the same from both."""
    for words in ([], ["clean"], [""], ["help", "me"], ["help", "clear", "map"], ["help", "../help/clear"], ["settings"], ["--version", "x"], ["haze"], ["help", ""],
                  ["a\x1b[31mb\nhaze: c\\033"]):
        ours, theirs = haze(*words), haze(*words, command=checkout)
        check(ours.returncode == theirs.returncode == 1 and ours.stdout == theirs.stdout == "", words, ours, theirs)
        check(ours.stderr == theirs.stderr and ours.stderr.startswith("haze: "), words, ours, theirs)


def version():
    wanted = "haze %s\n" % re.search('HAZE_VERSION "(.*)"', (ROOT / "include/haze.h").read_text())[1]
    check(haze("--version").stdout == haze("--version", command=checkout).stdout == wanted, wanted)


def settings():
    """The page of the settings: ranges and usual values."""
    rows = re.findall(r"^  (\w+)=(\d+) +(\d+) to (\d+) ", (HELP / "settings.txt").read_text(), re.M)
    wanted = [(name, str(usual), str(least), str(most)) for name, usual, (least, most) in zip(NAMES, rules.DEFAULTS, rules.SETTINGS)]
    check(rows == wanted, rows, wanted)
    check(" ".join(f"{name}={value}" for name, value in zip(NAMES, rules.DEFAULTS)) in (HELP / "haze.txt").read_text(), "the usual settings of the overview")


def examples_of(text):
    """Commands, each with the lines that it prints."""
    found = []
    for line in text.split("\nExamples\n")[1].splitlines() if "\nExamples\n" in text else []:
        if line.startswith("  $ "):
            found.append((line[4:], []))
        elif line.startswith("  ") and found:
            found[-1][1].append(line[2:] + "\n")
    return found


def examples():
    """Each page's examples in a folder with the painted field, hazy, clean, and with a hood and its mask. All end well, and print what the page says, or
    nothing."""
    os.mkdir("bin")
    Path("bin/haze").write_text('#!/bin/sh\nexec %s "$@"\n' % " ".join(tool))
    os.chmod("bin/haze", 0o755)
    path = {**os.environ, "PATH": os.path.abspath("bin") + ":" + os.environ["PATH"]}
    painted = {"field.ppm": [], "clean.ppm": ["--clean"], "hood.ppm": ["--hood"], "mask.pgm": ["--mask"]}
    for name, words in painted.items():
        subprocess.run([sys.executable, "-I", ROOT / "examples/photo.py", name, *words], check=True)
    count = 0
    for topic in TOPICS:
        os.mkdir(topic)
        for name in painted:
            shutil.copy(name, topic)
        for command, prints in examples_of((HELP / (topic + ".txt")).read_text()):
            run = subprocess.run(["sh", "-ec", command], cwd=topic, env=path, capture_output=True, text=True, stdin=subprocess.DEVNULL)
            check((run.returncode, run.stdout, run.stderr) == (0, "".join(prints), ""), topic, command, run)
            count += 1
    check(count >= 20, "examples were not found:", count)


ALL = (same, wrong, version, settings, examples)
