"""Where the tool writes: files that are there whole or not at all, whatever goes wrong.

Faults come from limits of the system, and from faults.c, which is preloaded; that runs on x86-64 alone, where the tool runs by itself.
"""

import ctypes
import errno
import fcntl
import os
import signal
import stat
import subprocess
import time
from pathlib import Path

import common
from common import X86, check, cleared, done, haze, hazy, pgm, ppm, put, refused, seen
from reading import at_most

FAULTS = common.ROOT / "target/host/faults.so"
SIZE = (4, 3)
FRAME = hazy(SIZE, 0)


def without_override():
    """Root may write into any folder and read it, unless these capabilities are dropped (PR_CAPBSET_DROP, CAP_DAC_OVERRIDE, CAP_DAC_READ_SEARCH)."""
    for capability in (1, 2):
        ctypes.CDLL(None).prctl(24, capability, 0, 0, 0)


def begin():
    put("frame.ppm", ppm(SIZE, FRAME))


def no_place():
    Path("folder").mkdir()
    Path("shut").mkdir(mode=0o555)
    Path("link.ppm").symlink_to("frame.ppm")
    Path("dangling").symlink_to("nowhere")
    os.mkfifo("pipe")
    refused(["clear", "frame.ppm", "none/fresh"], "none/fresh: cannot be written: No such file or directory")
    refused(["clear", "frame.ppm", "frame.ppm/fresh"], "frame.ppm/fresh: cannot be written: Not a directory")
    refused(["clear", "frame.ppm", "shut/out.ppm"], "shut/out.ppm: cannot be written: Permission denied", preexec_fn=without_override)
    for name in ("folder", "link.ppm", "dangling", "pipe", "/dev/full", ".", "..", "folder/."):
        refused(["clear", "frame.ppm", name], name + ": cannot be written: it is there and is not a plain file")
    check(stat.S_ISCHR(os.stat("/dev/full").st_mode), "/dev/full is no device any more")
    refused(["clear", "frame.ppm", "folder/"], "folder/: cannot be written: Is a directory")
    refused(["clear", "frame.ppm", ""], ": cannot be written: Is a directory")
    for words in (["map=none/x"], ["depth=folder"], ["map=m.pgm", "depth=none/x"]):
        refused(["clear", "frame.ppm", "fresh", *words], "(none/x|folder): cannot be written: .*")
    with open("/dev/full", "wb") as full:
        run = subprocess.run([*common.tool, "clear", "frame.ppm", "-", "map=m.pgm"], stdout=full, stderr=subprocess.PIPE, text=True)
        check((run.returncode, run.stderr) == (1, "haze: standard output: cannot be written: No space left on device\n"), run)
        check(not Path("m.pgm").exists(), "the map beside a picture that could not be written")
        for words in (["light", "frame.ppm"], ["band", "frame.ppm", "0", "1"], ["help"], ["--version"]):
            run = subprocess.run([*common.tool, *words], stdout=full, stderr=subprocess.PIPE, text=True)
            check((run.returncode, run.stderr) == (1, "haze: standard output: cannot be written\n"), run)


def folder_of_another():
    """A folder that can be written to and not read."""
    Path("blind").mkdir(mode=0o300)
    done(["clear", "frame.ppm", "blind/out.ppm"], preexec_fn=without_override)
    check(Path("blind/out.ppm").read_bytes() == ppm(SIZE, cleared(SIZE, FRAME)[1]), "a folder that cannot be read")


def full_disk():
    put("large.ppm", ppm((100, 100), hazy((100, 100), 1)))
    for count in (0, 1, 20000):
        refused(["clear", "large.ppm", "fresh"], "fresh: cannot be written: File too large", **at_most(count))
    refused(["clear", "large.ppm", "fresh", "map=m.pgm"], "fresh: cannot be written: File too large", **at_most(20100))
    refused(["clear", "large.ppm", "large.ppm"], "large.ppm: cannot be written: File too large", **at_most(100))


def long_names():
    """Up to the system's limit: of a name, and of a path."""
    picture = ppm(SIZE, cleared(SIZE, FRAME)[1])
    most = os.pathconf(".", "PC_NAME_MAX")
    for name in ("x" * most, "ü" * (most // 2), "x" + "ü" * ((most - 1) // 2)):
        done(["clear", "frame.ppm", name], (name, picture))
        check(not [path for path in Path(".").iterdir() if path.name.endswith(".new")], "a new file is left")
    refused(["clear", "frame.ppm", "x" * (most + 1), "map=m.pgm"], "x+: cannot be written: File name too long")
    # a path that is as long as it can be: PATH_MAX counts the byte behind it
    here = os.getcwd()
    path, room = "deep/", os.pathconf(".", "PC_PATH_MAX") - 1
    Path("deep").mkdir()
    os.chdir("deep")
    while len(path) < room - 20:
        name = "d" * min(200, room - 12 - len(path))
        os.mkdir(name)
        os.chdir(name)
        path += name + "/"
    os.chdir(here)
    name = path + "o" * (room - len(path))
    done(["clear", "frame.ppm", name], (name, picture))


def leftovers():
    """What killed runs have left is named and left alone, however much of it there is; what another run holds is not named."""
    picture = ppm(SIZE, cleared(SIZE, FRAME)[1])
    names = [f"taken.ppm.{k}.new" for k in range(120)]
    for name in names:
        put(name, b"left")
    said = "".join(f"haze: {name}: nobody writes it; a run that was killed may have left it\n" for name in names)
    done(["clear", "frame.ppm", "taken.ppm"], ("taken.ppm", picture), said=said)
    check(all(Path(name).read_bytes() == b"left" for name in names), "what was left was touched")
    for name in names[1:]:
        Path(name).unlink()
    for name, kept in (("x" * 250, "x" * 100), ("x" + "ü" * 100, "x" + "ü" * 49)):     # of a long name 100 bytes, in whole letters
        put(kept + ".0.new", b"left")
        done(["clear", "frame.ppm", name], (name, picture), said=f"haze: {kept}.0.new: nobody writes it; a run that was killed may have left it\n")
    os.mkdir("sub")
    put("sub/taken.ppm.0.new", b"left")
    done(["clear", "frame.ppm", "sub/taken.ppm"], ("sub/taken.ppm", picture), said="haze: sub/" + said.splitlines(True)[0][6:])
    with open(names[0]) as held:
        fcntl.flock(held, fcntl.LOCK_EX)
        done(["clear", "frame.ppm", "taken.ppm"], ("taken.ppm", picture))
    folder = os.open(".", os.O_RDONLY)      # who cannot have the folder writes none the less, and names nothing
    fcntl.flock(folder, fcntl.LOCK_EX)
    done(["clear", "frame.ppm", "taken.ppm"], ("taken.ppm", picture))
    os.close(folder)
    for kind in (lambda name: os.mkfifo(name), lambda name: os.mkdir(name), lambda name: os.symlink("nowhere", name)):
        Path("odd.0.new").unlink(missing_ok=True)
        kind("odd.0.new")
        run = haze("clear", "frame.ppm", "odd", timeout=60)
        check((run.returncode, run.stderr) == (0, "") and Path("odd").read_bytes() == picture, run)
        if os.path.isdir("odd.0.new"):
            os.rmdir("odd.0.new")


def side_by_side():
    """Runs at the same time to the same file: each is whole, one is the last, none is in another's way."""
    frames = [hazy(SIZE, k) for k in range(12)]
    pictures = [ppm(SIZE, cleared(SIZE, frame)[1]) for frame in frames]
    for k, frame in enumerate(frames):
        put(f"{k}.ppm", ppm(SIZE, frame))
    runs = [subprocess.Popen([*common.tool, "clear", f"{k}.ppm", "one.ppm"], stderr=subprocess.PIPE) for k in range(12)]
    check([(run.wait(), run.stderr.read()) for run in runs] == [(0, b"")] * 12 and Path("one.ppm").read_bytes() in pictures, "runs side by side")
    check(not [path for path in Path(".").iterdir() if path.name.startswith("one.ppm.")], "a new file is left")


# ---------------------------------------------------------------------------
# Faults
# ---------------------------------------------------------------------------

def with_faults(**faults):
    # a sanitizer wants to be the first library
    return {"env": {**os.environ, "LD_PRELOAD": str(FAULTS), "ASAN_OPTIONS": "verify_asan_link_order=0", **{"FAULTS_" + k.upper(): v for k, v in faults.items()}}}


def order():
    """The new file is on the disk before it takes the name, and the folder after it; and the old mode is the new file's before it has the name."""
    put("out.ppm", b"old")
    done(["clear", "frame.ppm", "out.ppm"], **with_faults(log="log"))
    log = Path("log").read_text().splitlines()
    check([line for line in log if not line.startswith(("write", "read"))] ==
          ["flock folder", "flock file", "flock folder", "fchmod file", "fsync file", "renameat out.ppm.0.new out.ppm", "fsync folder"], log)
    check(log.index("fchmod file") < log.index("write file") < log.index("fsync file"), log)
    Path("log").unlink()
    done(["clear", "frame.ppm", "out.ppm", "map=m.pgm", "depth=d.pgm"], **with_faults(log="log"))
    log = [line for line in Path("log").read_text().splitlines() if line.startswith(("fsync", "renameat"))]
    check(log == ["fsync file"] * 3 + ["renameat m.pgm.0.new m.pgm", "renameat d.pgm.0.new d.pgm", "renameat out.ppm.0.new out.ppm"] + ["fsync folder"] * 3, log)
    Path("log").unlink()


def failing():
    for number, words in ((errno.EIO, "Input/output error"), (errno.ENOSPC, "No space left on device"), (errno.EDQUOT, "Disk quota exceeded")):
        for call in ("write:1", "fsync:1", "renameat:1"):
            refused(["clear", "frame.ppm", "fresh"], f"fresh: cannot be written: {words}", **with_faults(fail=f"{call}:{number}"))
        for call in ("write:3", "fsync:3", "write:2", "fsync:2"):
            refused(["clear", "frame.ppm", "fresh", "map=m.pgm", "depth=d.pgm"], f"(fresh|d.pgm): cannot be written: {words}", **with_faults(fail=f"{call}:{number}"))
    picture = ppm(SIZE, cleared(SIZE, FRAME)[1])
    refused(["clear", "frame.ppm", "fresh"], "frame.ppm: cannot be read: Input/output error", **with_faults(fail=f"read:2:{errno.EIO}"))
    for call in (f"read:1:{errno.EINTR}", f"read:2:{errno.EINTR}", f"fsync:2:{errno.EINVAL}", f"fchmod:1:{errno.EPERM}", f"flock:1:{errno.ENOLCK}", f"flock:2:{errno.ENOLCK}", f"write:1:{errno.EINTR}"):
        put("out.ppm", b"old")
        done(["clear", "frame.ppm", "out.ppm"], ("out.ppm", picture), **with_faults(fail=call))
    run = haze("clear", "frame.ppm", "out.ppm", **with_faults(fail=f"fsync:2:{errno.EIO}"))
    check((run.returncode, run.stderr) == (1, "haze: out.ppm: is written, but the disk may not have its name: Input/output error\n"), run)
    done(["clear", "frame.ppm", "out.ppm"], ("out.ppm", picture), **with_faults(short="1"))


def until(true):
    """Waits for it, and not for ever."""
    end = time.monotonic() + 60
    while not true() and time.monotonic() < end:
        time.sleep(0.005)
    check(true(), "what was waited for did not come")


# those that end a program; a sanitizer has its own way with some
SIGNALS = tuple(getattr(signal, "SIG" + name) for name in "INT TERM HUP QUIT ALRM XCPU PIPE USR1 USR2 VTALRM PROF IO PWR XFSZ SYS".split()) + (signal.SIGRTMIN,)
HARMLESS = (signal.SIGCHLD, signal.SIGCONT, signal.SIGURG, signal.SIGWINCH)


def as_usual():
    """A shell that starts a test in the background has it ignore some signals."""
    for number in SIGNALS:
        signal.signal(number, signal.SIG_DFL)


def without_hangup():
    as_usual()
    signal.signal(signal.SIGHUP, signal.SIG_IGN)


def waiting(call, words, before=as_usual, **faults):
    """A run that waits in a call."""
    Path("log").unlink(missing_ok=True)
    run = subprocess.Popen([*common.tool, *words], stderr=subprocess.PIPE, text=True, preexec_fn=before, **with_faults(wait=call, log="log", **faults))
    until(lambda: Path("log").exists() and "waits" in Path("log").read_text())
    Path("log").unlink()
    return run


def signals():
    """One that ends the run removes what is unfinished, and ends it as it does by itself; one that cannot be caught leaves it, and the next run says so."""
    words = ["clear", "frame.ppm", "end.ppm", "map=m.pgm"]
    put("end.ppm", b"old")
    before = seen()
    for number in SIGNALS:
        for call in ("write:1", "fsync:1", "write:2", "fsync:2"):
            run = waiting(call, words)
            check(len(seen()) == len(before) + int(call[-1]), "the unfinished files are not there:", call)
            run.send_signal(number)
            check(run.wait(60) == -number and run.stderr.read() == "", number, run.returncode)
            check(seen() == before, number, call, "left something")
    run = waiting("fsync:1", ["clear", "frame.ppm", "end.ppm"])
    run.kill()
    run.wait(60)
    check(Path("end.ppm").read_bytes() == b"old" and Path("end.ppm.0.new").exists(), "a killed run leaves the old file and the new one")
    run = haze("clear", "frame.ppm", "end.ppm")
    check((run.returncode, run.stderr) == (0, "haze: end.ppm.0.new: nobody writes it; a run that was killed may have left it\n"), run)


def signal_between_names():
    """A signal that comes while the files take their names waits until all have them."""
    put("out.ppm", b"old")
    put("m.pgm", b"old")
    run = waiting("renameat:1", ["clear", "frame.ppm", "out.ppm", "map=m.pgm"], go="go")
    run.terminate()
    time.sleep(0.05)
    put("go", b"")
    map, picture = cleared(SIZE, FRAME)
    check(run.wait(60) == -signal.SIGTERM and Path("out.ppm").read_bytes() == ppm(SIZE, picture) and Path("m.pgm").read_bytes() == pgm(SIZE, map), run.returncode)
    check(not [*Path(".").glob("m.pgm.*"), *Path(".").glob("out.ppm.*")], "a new file is left")


def harmless_signals():
    """Those that do not end a program leave the run alone."""
    run = waiting("fsync:1", ["clear", "frame.ppm", "calm.ppm"])
    for number in HARMLESS:
        run.send_signal(number)
    time.sleep(0.1)
    check(run.poll() is None and Path("calm.ppm.0.new").exists(), "a harmless signal ended the run")
    run.terminate()
    check(run.wait(60) == -signal.SIGTERM, run.returncode)


def secret():
    """A file that others may not read: the new one is as close, from its first moment on and while it is written."""
    put("secret.ppm", b"old")
    os.chmod("secret.ppm", 0o600)
    for call in ("flock:2", "fchmod:1", "write:1", "fsync:1"):
        run = waiting(call, ["clear", "frame.ppm", "secret.ppm"])
        mode = stat.S_IMODE(os.stat("secret.ppm.0.new").st_mode)
        run.kill()
        run.wait(60)
        Path("secret.ppm.0.new").unlink()
        check(not mode & 0o077, call, oct(mode))


def owned():
    """Root keeps the owner of what it replaces."""
    if os.geteuid() == 0:
        put("owned.ppm", b"old")
        os.chown("owned.ppm", 65534, 65534)
        done(["clear", "frame.ppm", "owned.ppm"])
        check((os.stat("owned.ppm").st_uid, os.stat("owned.ppm").st_gid) == (65534, 65534), "the owner has changed")


def one_name_refused():
    """Where the system refuses one of the names, that is said; what came before is whole, and nothing is left."""
    put("out.ppm", b"old")
    run = haze("clear", "frame.ppm", "out.ppm", "map=m.pgm", **with_faults(fail=f"renameat:2:{errno.EBUSY}"))
    check((run.returncode, run.stderr) == (1, "haze: out.ppm: cannot be written: Device or resource busy\n"), run)
    check(Path("out.ppm").read_bytes() == b"old" and Path("m.pgm").read_bytes() == pgm(SIZE, cleared(SIZE, FRAME)[0]), "a name that was refused")
    check(not [*Path(".").glob("m.pgm.*"), *Path(".").glob("out.ppm.*")], "a new file is left")
    Path("m.pgm").unlink()


def ignored_signals():
    """As nohup has it: a signal that was ignored stays so."""
    run = waiting("fsync:1", ["clear", "frame.ppm", "hup.ppm"], without_hangup)
    run.send_signal(signal.SIGHUP)
    check(run.poll() is None and Path("hup.ppm.0.new").exists(), "an ignored signal ended the run")
    run.terminate()
    check(run.wait(60) == -signal.SIGTERM and not Path("hup.ppm.0.new").exists(), run.returncode)


PLAIN = (begin, no_place, folder_of_another, full_disk, long_names, owned, leftovers, side_by_side)
ALL = PLAIN + ((order, failing, one_name_refused, secret, signals, signal_between_names, harmless_signals, ignored_signals) if FAULTS.exists() and X86 else ())
