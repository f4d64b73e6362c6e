"""Tests the tool: `python3 -I host/tests/run.py`, after host/build and host/ready. With `--sanitized PROGRAM` that program is tested in its place, where the
tool itself is meant and not the checkout around it.

Each test runs in the folder of its group, a new one. A refused run must end with status 1, say why on standard error, and leave the folder as it was.
"""

import os
import sys
import tempfile
from pathlib import Path

sys.dont_write_bytecode = True
sys.path.insert(0, str(Path(__file__).resolve().parent))
import common

if sys.argv[1:2] == ["--sanitized"]:
    common.tool, common.sanitized = [str(Path(sys.argv[2]).resolve())], True
import advice
import checkout
import pages
import places
import reading
import refusals
import views
import written

GROUPS = (written, refusals, reading, places, views) + (() if common.sanitized else (advice, pages, checkout))
for group in GROUPS:
    with tempfile.TemporaryDirectory() as folder:
        os.chdir(folder)
        for test in group.ALL:
            test()
        os.chdir("/")
where = "with every access to memory and every operation checked" if common.sanitized else "as it is built"
print(f"tool: {common.checks} checks hold, {where}" + ("" if places.ALL != places.PLAIN else "; no faults were put in, which takes an x86-64 machine"))
