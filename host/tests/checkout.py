"""./haze in a checkout: what it answers before anything is built, how it builds and when, and what it installs.

The checkout is a copy, and its `rt` one of the test, which says what the true one says and takes the libraries that are proved already.
"""

import os
import re
import shutil
import subprocess
import threading
import time
from pathlib import Path

from common import ROOT, X86, check, cleared, hazy, light_of, ppm, put
from places import without_override

SIZE = (16, 12)
FRAME = hazy(SIZE, "checkout")
LIGHT = "%d,%d,%d\n" % light_of(SIZE, FRAME)
RT = r"""#!/bin/sh
name=$(basename "$PWD")
echo "$* $name" >>%(calls)s
case $1 in
doc) exec %(rt)s doc ;;
lib)
    [ ! -e %(broken)s ] || { echo 'rt: the library pixel did not build, so nothing above it was checked' && exit 1; }
    needs=$(../../host/made-of needs | sed -n "s/^$name //p")
    ../../host/made-of needs | awk '{ print NF, $1 }' | sort -n | while read -r _ crate; do # each after those that it needs
        case " $needs " in *" $crate "*) printf 'crate %%s: modules loaded=1 checked=1\nlogic=proved functions=1\n' "$crate" ;; esac
    done
    mkdir -p out
    cp "%(root)s/target/staticlib/lib$name.a" out/
    ;;
*) exit 2 ;;
esac
"""
CHANGED = "haze: what the tool is made of has changed since it was built; it is used as it is: "


def no_rt():
    """A path with links to all commands but rt."""
    if not Path("none").exists():
        Path("none").mkdir()
        for folder in reversed(os.environ["PATH"].split(":")):
            for file in Path(folder).iterdir() if Path(folder).is_dir() else ():
                if file.name not in ("rt", "rattle"):
                    Path("none", file.name).unlink(missing_ok=True)
                    Path("none", file.name).symlink_to(file)
    return os.path.abspath("none")


def haze(*words, here="copy", path=None, **how):
    env = {**os.environ, "PATH": path or os.path.abspath("ours") + ":" + os.environ["PATH"]}
    return subprocess.run([os.path.abspath(here + "/haze"), *words], capture_output=True, text=True, stdin=subprocess.DEVNULL, env=env, **how)


def calls():
    """What rt was asked since the last time, but for where it is."""
    said = Path("calls").read_text().splitlines() if Path("calls").exists() else []
    Path("calls").unlink(missing_ok=True)
    return [line for line in said if not line.startswith("doc ")]


def says(run, status, out="", err=""):
    check((run.returncode, run.stdout) == (status, out) and re.fullmatch(err, run.stderr), run, "is not", status, out, err)


def copy():
    shutil.copytree(ROOT, "copy", ignore=shutil.ignore_patterns("target", "out", ".git"), symlinks=True)
    os.mkdir("ours")
    put("ours/rt", (RT % {"calls": os.path.abspath("calls"), "broken": os.path.abspath("broken"), "rt": shutil.which("rt"), "root": ROOT}).encode())
    os.chmod("ours/rt", 0o755)
    put("in.ppm", ppm(SIZE, FRAME))


def before():
    """Help, version and wrong words: at once, with nothing built and nothing to build with."""
    begin = time.monotonic()
    for words in (["help"], ["-h"], ["--help"], ["help", "clear"], ["clear", "--help"], ["clear", "in.ppm", "-h"], ["--version"], ["help", "install"],
                  ["install", "--help"], ["demo", "-h"]):
        says(haze(*words, path=no_rt()), 0, haze(*words).stdout)
        check(haze(*words).stdout, words)
    for words in ([], ["clean"], ["help", "me"]):
        check(haze(*words, path=no_rt()).returncode == 1, words)
    check(time.monotonic() - begin < 20, "not at once")
    check(not Path("copy/target").exists() and calls() == [], "something was built")
    says(haze("light", "in.ppm", path=no_rt()), 1, err="haze: the tool is not built, and cannot be: rt, the toolchain's command, is not found\n")
    check(not Path("copy/target").exists(), "something was built")


def first_use():
    """A build says what it does: each crate once, the time so far, and how many are left."""
    put("broken", b"")
    run = haze("light", "in.ppm")
    check(run.returncode == 1 and "rt: the library pixel did not build, so nothing above it was checked\n" in run.stderr and run.stderr.endswith("haze: the tool could not be built\n"), run)
    Path("broken").unlink()
    calls()
    run = haze("light", "in.ppm")
    check((run.returncode, run.stdout) == (0, LIGHT), run)
    first, *steps, last = run.stderr.splitlines()
    check(first.startswith("haze: building the tool") and re.fullmatch(r"haze: \d+:\d\d  the tool is built", last), run.stderr)
    crates = subprocess.run(["host/made-of", "crates"], cwd="copy", capture_output=True, text=True, check=True).stdout.split()
    found = [re.fullmatch(r"haze: \d+:\d\d  (\w+) is proved: (\d+) of (\d+), (\d+) left", step) for step in steps]
    check(all(found) and sorted(step[1] for step in found) == sorted(crates) and len(crates) > 15, steps)
    check([step.group(2, 3, 4) for step in found] == [(str(k + 1), str(len(crates)), str(len(crates) - k - 1)) for k in range(len(crates))], steps)
    check(calls() == ["lib haze_c", "lib haze_files_c"], "rt was asked for other things")


def built():
    """Once it is built nothing is said and nothing is asked."""
    says(haze("light", "in.ppm"), 0, LIGHT)
    check(calls() == [], "rt was asked")
    says(haze("light", "in.ppm", path=no_rt()), 0, LIGHT)


def again():
    """It is built again when what it is made of has changed, and only then; and proved again only when a crate of it has."""
    for name in ("README.md", "crates/text/src/lib.rt", "second/rules.py", "host/stress.c", "crates/pixel/must-fail/new.edit", "crates.txt",
                 "host/tool/say.c~", "host/tool/.say.c.swp", "crates/pixel/src/lib.rt~"):
        with open("copy/" + name, "a") as file:
            file.write("\n")
        says(haze("light", "in.ppm"), 0, LIGHT)
    for name in ("host/tool/say.c", "crates/pixel/src/lib.rt", "include/haze.h"):
        os.utime("copy/" + name)
        says(haze("light", "in.ppm"), 0, LIGHT)
    check(calls() == [], "rt was asked")
    wanted = r"haze: building the tool.*\n(haze: .* is proved: .*\n)*haze: 0:\d\d  the tool is built\n"
    for name, asked in (("host/tool/say.c", []), ("host/help/map.txt", []), ("include/haze.h", []), ("crates/pixel/src/lib.rt", ["lib haze_c", "lib haze_files_c"])):
        with open("copy/" + name, "a") as file:
            file.write("\n")
        says(haze("light", "in.ppm"), 0, LIGHT, wanted)
        check(calls() == asked, name, "changed, and rt was asked for something else")
    says(haze("light", "in.ppm"), 0, LIGHT)


def sums():
    """What the tool is made of, file by file: another one of any is another sum, of the crates for the library too."""
    def made_of(which):
        return subprocess.run(["host/made-of", which], cwd="copy", capture_output=True, text=True, check=True).stdout

    put("stamp", b"")
    os.utime("stamp", (time.time() - 2, time.time() - 2))
    for name, library in (("crates/pixel/src/lib.rt", True), ("crates/pixel/proofs/Lib.antt", True), ("crates/rules/specs/Lib.antt", True), ("host/build", False),
                          ("host/headers/sys/stat.h", False), ("host/pages.awk", False), ("host/help/add.txt", False), ("host/tool/view.c", False),
                          ("include/haze.h", False)):
        before, data = (made_of("library"), made_of("tool")), Path("copy", name).read_bytes()
        put("copy/" + name, data + b"\n")
        after = made_of("library"), made_of("tool")
        put("copy/" + name, data)
        check((before[0] != after[0]) == library and before[1] != after[1] and (made_of("library"), made_of("tool")) == before, name)
    before, data = made_of("library"), Path("copy/crates.txt").read_bytes()
    put("copy/crates.txt", data.replace(b"adding: rules pixel", b"adding: rules pixel judge"))
    check(made_of("library") != before, "crates.txt")
    put("copy/crates.txt", data)
    newer = subprocess.run(["host/made-of", "newer", os.path.abspath("stamp")], cwd="copy", capture_output=True, text=True).stdout
    check(newer.count("\n") == 1, newer)


def failed_once():
    """A build that fails is tried again by the next run."""
    put("broken", b"")
    with open("copy/crates/pixel/src/lib.rt", "a") as file:
        file.write("\n")
    check(haze("light", "in.ppm").returncode == 1, "a build that fails")
    check(haze("light", "in.ppm").returncode == 1, "a build that fails again")
    Path("broken").unlink()
    run = haze("light", "in.ppm")
    check((run.returncode, run.stdout) == (0, LIGHT) and "the tool is built" in run.stderr, run)
    calls()


def two_at_once():
    """Of two that find it to be built one builds, and the other says that it waits."""
    with open("copy/host/tool/say.c", "a") as file:
        file.write("\n")
    both = [threading.Thread(target=lambda: runs.append(haze("light", "in.ppm"))) for _ in range(2)]
    runs = []
    for one in both:
        one.start()
    for one in both:
        one.join()
    check([(run.returncode, run.stdout) for run in runs] == [(0, LIGHT)] * 2, runs)
    said = sorted(run.stderr.count("\n") for run in runs)
    check(said[0] <= 1 and said[1] == 2 and ("waiting for it" in runs[0].stderr + runs[1].stderr or said[0] == 0), runs)


def linked():
    os.makedirs("elsewhere")
    os.symlink(os.path.abspath("copy/haze"), "elsewhere/haze")
    os.symlink("../elsewhere/haze", "ours/linked")
    says(haze("light", "in.ppm", here="elsewhere"), 0, LIGHT)
    run = subprocess.run(["linked", "light", "in.ppm"], capture_output=True, text=True, env={**os.environ, "PATH": os.path.abspath("ours") + ":" + os.environ["PATH"]})
    says(run, 0, LIGHT)


def shut():
    """In a checkout that cannot be written a tool that is built runs; it says so where it is not that of the sources."""
    subprocess.run(["chmod", "-R", "a-w", "copy"], check=True)
    says(haze("light", "in.ppm", preexec_fn=without_override), 0, LIGHT)
    os.utime("copy/include/haze.h")
    says(haze("light", "in.ppm", preexec_fn=without_override), 0, LIGHT)
    with open("copy/include/haze.h", "a") as file:
        file.write("\n")
    says(haze("light", "in.ppm", preexec_fn=without_override), 0, LIGHT, re.escape(CHANGED + os.path.abspath("copy") + " cannot be written\n"))
    says(haze("light", "in.ppm", path=no_rt()), 0, LIGHT, re.escape(CHANGED + "rt, the toolchain's command, is not found\n"))
    os.rename("copy/target", "target")
    says(haze("light", "in.ppm", preexec_fn=without_override), 1,
         err=re.escape(f"haze: the tool is not built, and cannot be: {os.path.abspath('copy')} cannot be written\n"))
    os.rename("target", "copy/target")
    subprocess.run(["chmod", "-R", "u+w", "copy"], check=True)


# ---------------------------------------------------------------------------
# What is installed
# ---------------------------------------------------------------------------

FILES = ("bin/haze", "lib/libhaze.a", "include/haze.h", "lib/pkgconfig/haze.pc", "share/man/man1/haze.1")


def alone(*words, **how):
    """The installed tool, with nothing in its environment and on its path."""
    return subprocess.run([os.path.abspath("prefix/bin/haze"), *words], capture_output=True, text=True, stdin=subprocess.DEVNULL, env={}, **how)


def installed():
    for words in ([], ["a", "b"], ["-x"], [""], ["pre fix"], ["p&q"], ["p|r"], ["p\\nq"], ["p'q"]):
        run = haze("install", *words)
        check(run.returncode == 1 and run.stderr.startswith("haze: ") and run.stderr.count("\n") == 1 and run.stdout == "", run)
    if not X86:
        check("the library is for x86-64" in haze("install", "prefix").stderr, "install on another machine")
        return
    run = haze("install", "prefix")
    check(run.returncode == 0 and run.stdout.split() == [os.path.abspath("prefix/" + name) for name in FILES], run)
    check(sorted(str(path.relative_to("prefix")) for path in Path("prefix").rglob("*") if path.is_file()) == sorted(FILES), "other files than those")
    check([os.stat("prefix/" + name).st_mode & 0o777 for name in FILES] == [0o755, 0o644, 0o644, 0o644, 0o644], "modes of what is installed")
    os.rename("copy", "gone")
    says(alone("light", "in.ppm"), 0, LIGHT)
    says(alone("clear", "in.ppm", "out.ppm"), 0)
    check(Path("out.ppm").read_bytes() == ppm(SIZE, cleared(SIZE, FRAME)[1]), "the installed tool's picture")
    check(alone("help", "clear").stdout.startswith("haze clear IN.ppm"), "the installed tool's help")
    os.rename("gone", "copy")
    for folder in (os.path.abspath("stage"), "other"):
        staged = subprocess.run([os.path.abspath("copy/haze"), "install", "/usr/"], capture_output=True, text=True, umask=0o077,
                                env={**os.environ, "DESTDIR": folder, "PATH": os.path.abspath("ours") + ":" + os.environ["PATH"]})
        check(staged.returncode == 0 and os.path.abspath(folder + "/usr/bin/haze") in staged.stdout, staged)
        check("prefix=/usr\n" in Path(folder, "usr/lib/pkgconfig/haze.pc").read_text() and os.stat(folder + "/usr/bin").st_mode & 0o777 == 0o755, staged)
    Path("full").mkdir()
    Path("full/bin").write_text("in the way")
    run = haze("install", "full")
    check(run.returncode == 1 and run.stderr.endswith("full/bin/haze: cannot be written\n") and os.listdir("full") == ["bin"], run)
    says(haze("install", "prefix", path=no_rt()), 0, "".join(os.path.abspath("prefix/" + name) + "\n" for name in FILES))


def library():
    """A program over the installed library, by the system's compiler and pkg-config where there are some."""
    if not X86 or not shutil.which("cc"):
        return
    flags = ["-I" + os.path.abspath("prefix/include"), "-L" + os.path.abspath("prefix/lib"), "-lhaze"]
    if shutil.which("pkg-config"):
        env = {**os.environ, "PKG_CONFIG_PATH": os.path.abspath("prefix/lib/pkgconfig")}
        asked = subprocess.run(["pkg-config", "--cflags", "--libs", "haze"], capture_output=True, text=True, env=env)
        check(asked.stdout.split() == flags, asked, flags)
        version = subprocess.run(["pkg-config", "--modversion", "haze"], capture_output=True, text=True, env=env).stdout
        check(haze("--version").stdout == "haze " + version, version)
    subprocess.run(["cc", ROOT / "examples/host.c", *flags, "-o", "example"], check=True)
    said = subprocess.run([os.path.abspath("example")], capture_output=True, text=True)
    check((said.returncode, said.stdout) == (0, (ROOT / "examples/host.txt").read_text()), said)


def man_page():
    """Without a warning, for 80 columns, with every page in it; uses, tables and examples line by line as they stand."""
    if not X86 or not shutil.which("groff"):
        return
    run = subprocess.run(["groff", "-man", "-Tascii", "-P-cbou", "-ww", "-rLL=78n", "-rHY=0", "prefix/share/man/man1/haze.1"], capture_output=True, text=True)
    check((run.returncode, run.stderr) == (0, ""), run.stderr)
    check(all(len(line) <= 80 for line in run.stdout.splitlines()), "lines that are too long for 80 columns")
    lines, version = [line.strip() for line in run.stdout.splitlines()], haze("--version").stdout.strip()
    check({"NAME", "SYNOPSIS", "DESCRIPTION", "CLEAR", "SETTINGS", "Examples", "haze - removes haze from camera frames, and adds it"} <= set(lines), "headings")
    check(version in lines[-1] and "\\-o DIR" in Path("prefix/share/man/man1/haze.1").read_text(), lines[-1])
    text = " ".join(run.stdout.split())
    for page in (ROOT / "host/help").glob("*.txt"):
        use = page.read_text().split("\n\n")[0].splitlines()
        for line in page.read_text().splitlines():
            check(" ".join(line.split()) in text, page.stem, "misses in the man page:", line)
            check(line.strip() in lines or not (line in use or line.startswith("  ")), page.stem, "does not keep in the man page:", line)
        check(text.count("haze " + page.stem + " ") or page.stem in ("haze", "settings", "files"), page.stem)


ALL = (copy, before, first_use, built, again, sums, failed_once, two_at_once, linked, shut, installed, library, man_page)
