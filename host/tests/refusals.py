"""What the tool refuses, and in which words."""

import os
import re
from pathlib import Path

import rules
from common import NAMES, check, haze, pgm, ppm, put, refused
from written import words_of

SIZE = "width or height is not 1 to 1024, or there are more than 262144 pixels"
LEFT = r"the pixels are short or bytes are left over; the header announces %d bytes of them, and %s"
MORE = "more follow; the first of several pictures: pampick 0 <%s >OUT"


def header(what):
    return "refused 11: the header is bad; " + re.escape(what)


def looks(what, convert):
    return header(f"it looks like {what}; to convert it: {convert}")


def as_frame(name):
    return f"convert '{name}[0]' -depth 8 ppm:OUT.ppm"


def as_mask(name):
    return f"convert '{name}[0]' -depth 8 pgm:OUT.pgm"


def as_map(name):
    return f"convert '{name}[0]' -depth 16 pgm:OUT.pgm, then `raw` or `scaled`, whichever it holds"


FORMATS = (("a PNG file", b"\x89PNG\r\n\x1a\n\0\0\0\rIHDR"), ("a JPEG file", b"\xff\xd8\xff\xe0\0\x10JFIF\0"), ("a GIF file", b"GIF89a\1\0"),
           ("a BMP file", b"BM\x36\0\0\0\0\0\0\0\x36\0"), ("a TIFF file", b"II*\0\x08\0\0\0"), ("a TIFF file", b"MM\0*\0\0\0\x08"), ("a WebP file", b"RIFF\x10\0\0\0WEBPVP8 "),
           ("a plain PBM file (P1)", b"P1\n1 1\n0\n"), ("a plain PGM file (P2)", b"P2\n1 1\n255\n7\n"), ("a plain PPM file (P3)", b"P3\n1 1\n255\n7 8 9\n"),
           ("a PBM file (P4)", b"P4\n1 1\n\0"), ("a PAM file (P7)", b"P7\nWIDTH 1\n"))


def bad_frames():
    whole = ppm((3, 2), range(18))
    layout = header("behind P6 stand width, height and maximum, 1 to 6 digits each, then one white byte")
    empty, other = header("the file is empty"), header("it does not begin with P6")
    yield from ((layout, data) for data in (b"P6", whole.replace(b"3", b"0000003", 1), b"P6\n3 2\n255", b"P6 # no end", whole.replace(b"3 2", b"3\v2"),
                                            whole.replace(b"255\n", b"255#\n")))
    yield from ((other, data) for data in (whole.replace(b"P6", b"p6"), b"x", b"P", b"RIF", b"\x89PN", b"\xff\xd8", b"\0" * 5000,
                                           b"BMW drives", b"RIFF\x10\0\0\0WAVEfmt ", b"RIFF\x10\0\0\0WEB"))
    yield empty, b""
    yield from ((looks(name, as_frame("bad.ppm")), data) for name, data in (*FORMATS, ("a PGM file (P5)", pgm((1, 1), [5]))))
    for size, scale in (((1025, 1), "-xyfit 1024 1024"), ((640, 480), "-pixels 262144"), ((1024, 257), "-pixels 261500"), ((2000, 1500), "-pixels 262144"),
                        ((1920, 1080), "-pixels 261500"), ((1280, 720), "-pixels 261500"), ((1080, 1920), "-pixels 261500"),
                        ((999999, 1), "-xyfit 1024 1024"), ((1500, 6100), "-xyfit 1024 1024"), ((999999, 999999), "-pixels 262144")):
        yield f"refused 1: {SIZE}; it is {size[0]} by {size[1]}; to scale it: pamscale {scale} bad.ppm >OUT", ppm(size, [])
    for size in ((0, 2), (3, 0), (0, 0)):
        yield f"refused 1: {SIZE}; it is {size[0]} by {size[1]}", ppm(size, [], 65535)
    for maximum in (65535, 1, 254, 256):
        yield re.escape(f"refused 12: the maximum is not 255; it is {maximum}; to convert it: {as_frame('bad.ppm')}"), ppm((3, 2), range(18), maximum)
    for maximum in (0, 65536, 999999):
        yield f"refused 12: the maximum is not 255; it is {maximum}", ppm((3, 2), range(18), maximum)
    for count in (0, 1, 17):
        yield "refused 13: " + LEFT % (18, f"{count} are there"), whole[:len(whole) - 18 + count]
    yield from (("refused 13: " + LEFT % (18, MORE % "bad.ppm"), data) for data in (whole + b"\0", whole + whole, whole.replace(b"255\n", b"255\r\n")))


def files():
    put("map.pgm", pgm((3, 2), range(6)))
    for why, data in bad_frames():
        put("bad.ppm", data)
        for words in (["clear", "bad.ppm", "fresh"], ["add", "bad.ppm", "map.pgm", "fresh"], ["light", "bad.ppm"], ["clear", "bad.ppm", "bad.ppm"],
                      ["map", "bad.ppm", "fresh"], ["depth", "bad.ppm", "fresh"], ["band", "bad.ppm", "0", "1"], ["add", "bad.ppm", "fresh", "t=1"]):
            refused(words, "bad.ppm: " + why)
        run = haze("clear", "-", "fresh", text=False, input=data)
        check(run.returncode == 1 and re.fullmatch("haze: standard input: " + re.sub(r"bad\\?\.ppm", "IN", why), run.stderr.decode()[:-1]), why, run)
    for name in ("a b.ppm", "a'b.ppm", "$x.ppm", "-.ppm", "@x", "+x", "100%.ppm", "ü.ppm"):
        put(name, b"GIF89a")
        refused(["clear", "--", name, "fresh"], re.escape(name) + ": " + looks("a GIF file", as_frame("IN")))
    put("a\n\x1b[31mb\x9bc\x7f", b"GIF89a")
    refused(["clear", "a\n\x1b[31mb\x9bc\x7f", "fresh"], re.escape("a??[31mb??c?: ") + looks("a GIF file", as_frame("IN")))


def bad_masks():
    whole = pgm((3, 2), range(6), 255)
    yield header("the file is empty"), b""
    yield header("it does not begin with P5"), b"\1\1\1\1\1\1"
    for data in (whole[:9], whole.replace(b"3 2", b"3,2"), whole.replace(b"255\n", b"255#\n")):
        yield header("behind P5 stand width, height and maximum, 1 to 6 digits each, then one white byte"), data
    yield header("it looks like a PPM file (P6), a frame"), ppm((3, 2), range(18))
    yield from ((looks(name, as_mask("bad.pgm")), data) for name, data in FORMATS)
    yield f"refused 1: {SIZE}; it is 0 by 2", pgm((0, 2), [], 65535)
    yield f"refused 1: {SIZE}; it is 513 by 512; to scale it: pamscale -pixels 261500 bad.pgm >OUT", pgm((513, 512), [], 255)
    for maximum in (1, 254, 256, 10000, 65535):
        yield re.escape(f"refused 12: the maximum is not 255; it is {maximum}; to convert it: {as_mask('bad.pgm')}"), pgm((3, 2), [1] * 6, maximum)
    for maximum in (0, 65536, 999999):
        yield f"refused 12: the maximum is not 255; it is {maximum}", pgm((3, 2), [1] * 6, maximum)
    yield "refused 13: " + LEFT % (6, "5 are there"), whole[:-1]
    yield from (("refused 13: " + LEFT % (6, MORE % "bad.pgm"), data) for data in (whole + b"\0", whole + whole, whole.replace(b"255\n", b"255\r\n")))


MASKED = (["clear", "frame.ppm", "fresh"], ["map", "frame.ppm", "fresh"], ["depth", "frame.ppm", "fresh"], ["light", "frame.ppm"], ["band", "frame.ppm", "0", "1"])


def masks():
    for why, data in bad_masks():
        put("bad.pgm", data)
        for words in MASKED:
            refused([*words, "mask=bad.pgm"], "bad.pgm: " + why)
    for size in ((2, 3), (6, 1), (3, 1), (4, 2)):
        put("bad.pgm", pgm(size, [0] * (size[0] * size[1]), 255))
        for words in MASKED:
            refused([*words, "mask=bad.pgm", "s=31"], "bad.pgm: refused 4: the mask is %d by %d, the frame frame.ppm is 3 by 2" % size)
    for words in MASKED:
        refused([*words, "mask=none.pgm"], "none.pgm: cannot be read: No such file or directory")
    put("bad.ppm", b"GIF89a")
    put("bad.pgm", b"")     # of two bad files the frame is said
    refused(["clear", "bad.ppm", "fresh", "mask=bad.pgm"], "bad.ppm: " + looks("a GIF file", as_frame("bad.ppm")))


def nothing_seen():
    """14 where the light has to be found, after a setting's 2; with a light that is given there is nothing to refuse."""
    put("dark.pgm", pgm((3, 2), [0] * 6, 255))
    for words in MASKED:
        refused([*words, "mask=dark.pgm"], "dark.pgm: refused 14: no pixel of the mask is seen; 0 hides a pixel, any other byte shows it; without mask= all is seen")
        refused([*words, "mask=dark.pgm", "t0=0"], "t0=0: refused 2: .*")
    run = haze("light", "frame.ppm", "mask=-", text=False, input=pgm((3, 2), [0] * 6, 255))
    check(run.returncode == 1 and run.stderr.startswith(b"haze: standard input: refused 14: "), run)
    check(haze("band", "frame.ppm", "0", "2", "mask=dark.pgm", "light=1,2,3").stdout == "mean 1\nleast 1\n", "a light that is given, and nothing seen")
    refused(["map", "frame.ppm", "fresh", "mask=dark.pgm", "light=1,0,3"], "light=1,0,3: refused 5: a channel of the light is 0")


def maps():
    whole = pgm((3, 2), range(6))
    maximum = "refused 12: the maximum of a map is not 10000; it is {}; `raw` takes the numbers as they stand, `scaled` takes the maximum as 10000"
    layout = header("behind P5 stand width, height and maximum, 1 to 6 digits each, then one white byte")
    bad = [(header("the file is empty"), b""), (layout, whole[:12]), (layout, whole.replace(b"3 2", b"3,2")),
           (header("it looks like a PPM file (P6), a frame"), ppm((3, 2), range(18))), *((looks(name, as_map("bad.pgm")), data) for name, data in FORMATS),
           (f"refused 1: {SIZE}; it is 0 by 2", pgm((0, 2), [])),
           (f"refused 1: {SIZE}; it is 513 by 512; to scale it: pamscale -pixels 261500 bad.pgm >OUT", pgm((513, 512), [], 255)),
           ("refused 13: " + LEFT % (12, "11 are there"), whole[:-1]), ("refused 13: " + LEFT % (12, MORE % "bad.pgm"), whole + b"\0"),
           ("refused 13: " + LEFT % (12, MORE % "bad.pgm"), whole + whole),
           ("refused 8: an entry of the map is above 10000; it is taken as 10001 in column 2 of row 1", pgm((3, 2), [0, 1, 2, 3, 4, 10001])),
           ("refused 8: an entry of the map is above 10000; it is taken as 65535 in column 0 of row 0", pgm((3, 2), [65535, 1, 2, 3, 4, 5])),
           ("refused 12: the maximum of a map is not 10000; it is 918, so these are depths", pgm((3, 2), range(6), 918))]
    bad += [(maximum.format(most), pgm((3, 2), range(6), most)) for most in (65535, 255, 0, 9999, 999999)]
    for why, data in bad:
        put("bad.pgm", data)
        refused(["add", "frame.ppm", "bad.pgm", "fresh"], "bad.pgm: " + why)
        if "maximum" not in why:
            refused(["view", "bad.pgm", "fresh"], "bad.pgm: " + why)
    for size in ((2, 3), (6, 1), (3, 1), (4, 2)):
        put("bad.pgm", pgm(size, [10001] * (size[0] * size[1])))
        for words in ([], ["light=0,1,1"]):
            refused(["add", "frame.ppm", "bad.pgm", "fresh", *words], "bad.pgm: refused 4: the map is %d by %d, the frame frame.ppm is 3 by 2" % size)
    put("bad.pgm", pgm((3, 2), [10001] * 6))
    refused(["add", "frame.ppm", "bad.pgm", "fresh", "light=1,0,1"], "light=1,0,1: refused 5: a channel of the light is 0")


def maps_of_others():
    """With raw and scaled: the maxima that a PGM file has, and samples above them."""
    for most in (0, 65536, 999999):
        put("bad.pgm", pgm((3, 2), range(6), most)[:14] + bytes(12))
        for word in ("raw", "scaled"):
            for words in (["add", "frame.ppm", "bad.pgm", "fresh", word], ["view", "bad.pgm", "fresh", word], ["view", "bad.pgm", "fresh", word, "depth"]):
                refused(words, "bad.pgm: refused 12: the maximum of a PGM file is 1 to 65535; it is %d" % most)
    above = "bad.pgm: refused 8: an entry of the map is above 10000; it is taken as %d in column 1 of row 1"
    for most, sample, word, entry in ((65535, 10001, "raw", 10001), (16383, 16384, "scaled", 65535), (60000, 60001, "scaled", 65535), (7, 8, "scaled", 65535)):
        put("bad.pgm", pgm((3, 2), [0, 0, 0, 0, sample, 0], most))
        refused(["add", "frame.ppm", "bad.pgm", "fresh", word], above % entry)
        refused(["view", "bad.pgm", "fresh", word], above % entry)
    neither = "bad.pgm: refused 12: the maximum is neither that of a map, 10000, nor that of depths, 918; it is %d; `raw` .* `scaled` .* with the word `depth`"
    for most in (0, 255, 919, 65535):
        put("bad.pgm", pgm((3, 2), range(6), most))
        refused(["view", "bad.pgm", "fresh"], neither % most)
    put("bad.pgm", pgm((3, 2), range(6), 10000))
    refused(["view", "bad.pgm", "fresh", "depth"], "bad.pgm: refused 12: the maximum of depths is not 918; it is 10000; .* as 918")
    for most, sample, words, entry in ((918, 919, [], 919), (65535, 919, ["raw", "depth"], 919), (16383, 16384, ["scaled", "depth"], 65535)):
        put("bad.pgm", pgm((3, 2), [0, 0, sample, 0, 0, 0], most))
        refused(["view", "bad.pgm", "fresh", *words], f"bad.pgm: a depth is above 918; it is taken as {entry} in column 2 of row 0")
    put("bad.pgm", pgm((3, 2), [918, 0, 0, 0, 0, 0], 918))
    check(haze("view", "bad.pgm", "good.ppm").returncode == 0 and Path("good.ppm").exists(), "depths up to 918 are shown")
    Path("good.ppm").unlink()


def settings():
    for name, (least, most) in zip(NAMES, rules.SETTINGS):
        for value in [most + 1, 2**64 - 1] + [0] * (least > 0):
            for command in ("clear", "map", "depth"):
                refused([command, "frame.ppm", "fresh", f"{name}={value}"],
                        f"{name}={value}: refused 2: a setting is outside its range; {name} goes from {least} to {most}")
            refused(["light", "frame.ppm", f"{name}={value}"], f"{name}={value}: refused 2: .*")
        for value in (least, most):
            check(haze("light", "frame.ppm", f"{name}={value}").returncode == 0, name, value, "is refused")
    run = haze("map", "frame.ppm", "fresh", "t0=0", "s=31", "light=0,1,1")
    check(re.findall("haze: (.*): refused (.*?):", run.stderr) == [("s=31", "2"), ("t0=0", "2")], run)
    for light in ("0,1,1", "1,0,1", "1,1,0"):
        for command in ("clear", "depth"):
            refused([command, "frame.ppm", "fresh", "light=" + light], f"light={light}: refused 5: a channel of the light is 0")
    for t in (10001, 65536, 2**64 - 1):
        refused(["add", "frame.ppm", "fresh", f"t={t}"], f"t={t}: refused 8: a transmission is 0 to 10000")
    for start, end in ((0, 0), (1, 1), (1, 0), (0, 3), (2, 3), (2**64 - 1, 1), (0, 2**64 - 1)):
        refused(["band", "frame.ppm", str(start), str(end)],
                f"rows {start} to {end}: refused 6: the band is empty or reaches outside the frame; frame.ppm has rows 0 to 1, and TO is left out")


NO_SETTING = re.escape("this is no setting here (a file of that name is written with ./ before it): ")
PLACES = {"clear": ["IN.ppm", "OUT.ppm"], "map": ["IN.ppm", "MAP.pgm"], "depth": ["IN.ppm", "DEPTH.pgm"], "light": ["IN.ppm"], "band": ["IN.ppm", "FROM", "TO"],
          "add": ["CLEAN.ppm", "MAP.pgm", "OUT.ppm"], "view": ["MAP-OR-DEPTH.pgm", "OUT.ppm"]}
GOOD = {"clear": ["frame.ppm", "fresh"], "map": ["frame.ppm", "fresh"], "depth": ["frame.ppm", "fresh"], "light": ["frame.ppm"],
        "band": ["frame.ppm", "0", "1"], "add": ["frame.ppm", "map.pgm", "fresh"], "view": ["map.pgm", "fresh"]}


def words():
    put("map.pgm", pgm((3, 2), range(6)))
    refused([], "a command is wanted")
    for word in ("clean", "Clear", "", "settings", "haze", "--versions", "-v"):
        refused([word, "frame.ppm", "fresh"], f"this is no command: {word}")
    for command, places in PLACES.items():
        good = GOOD[command]
        for count, place in enumerate(places):
            refused([command, *good[:count]], "a word is missing: " + re.escape(place))
            for word in ("s=5", "light=1,2,3", "map=x", "Q9=", "date=2.ppm"):
                why = f" is wanted; settings come behind the files, and a file of that name is written ./{word}" if "." in place else \
                    ", a number, is wanted; settings come behind it"
                refused([command, *good[:count], word, *good[count + 1:]], re.escape(f"{word} stands where {place}{why}"))
        for word in ("more.ppm", "", "7", "-"):
            refused([command, *good, word], f"this is a word more than it takes: {word}")
        for word in ("q=1", "S=7", "t1=1000", "omeg=1"):
            refused([command, *good, word], NO_SETTING + word)
        for word in ("-s", "-x", "--verbose", "-vv", "-s=7"):
            refused([command, *good, word], re.escape("this is no option here (behind -- it is a word as any other): ") + word)
            refused([command, word, *good], re.escape("this is no option here (behind -- it is a word as any other): ") + word)
    for command in ("add", "view"):
        for word in words_of(rules.DEFAULTS) + ["map=m", "depth=d"]:
            refused([command, *GOOD[command], word], NO_SETTING + word)
    for word in ("s=", "s=-1", "s=+7", "s=7x", "s= 7", "s=0x7", f"s={2**64}", f"s={10**20 - 1}", "s=" + "7".zfill(21)):
        refused(["clear", "frame.ppm", "fresh", word], re.escape(word) + ": s takes a whole number, 0 to 30")
    for name, (least, most) in zip(NAMES, rules.SETTINGS):
        refused(["map", "frame.ppm", "fresh", name + "=0.5"], f"{name}=0.5: {name} takes a whole number, {least} to {most}")
    for word in ("light=", "light=1,2", "light=1,2,3,4", "light=1,2,3,", "light=,2,3", "light=1;2;3", "light=256,1,1", "light=1,1,999"):
        refused(["clear", "frame.ppm", "fresh", word], re.escape(word) + ": light takes three whole numbers, 1 to 255, parted by commas")
    for word in ("t=", "t=0.7", f"t={2**64}"):
        refused(["add", "frame.ppm", "fresh", word], re.escape(word) + ": t takes a whole number, 0 to 10000")
    for word in ("s=7", "light=1,2,3", "mask=m", "map=m", "depth=d"):
        refused(["clear", "frame.ppm", "fresh", word, "r=2", word], f"this setting stands twice: {word}")
    for word in ("mask=", "map=", "depth="):
        refused(["clear", "frame.ppm", "fresh", word], f"{word}: {word[:-1]} takes the name of a file")
    refused(["light", "frame.ppm", "light=1,2,3"], NO_SETTING + "light=1,2,3")
    refused(["clear", "one.ppm", "frame.ppm", "fresh"], "this is a word more than it takes: fresh")
    for words in (["frame.ppm", "x", "1"], ["frame.ppm", "0", "-"], ["frame.ppm", "1x", "2"], ["frame.ppm", str(2**64), "2"]):
        refused(["band", *words], "this is no number of a row: .*")


VALUES = {name: name + "=5" for name in (*NAMES, "t")} | {"light": "light=1,2,3", "mask": "mask=x", "map": "map=x", "depth=": "depth=x", "raw": "raw", "scaled": "scaled", "depth": "depth"}
FRAMES = {*NAMES, "light", "mask"}
TAKES = {"clear": FRAMES | {"map", "depth="}, "map": FRAMES, "depth": FRAMES, "light": {*NAMES, "mask"}, "band": FRAMES, "add": {"light", "t", "raw", "scaled"},
         "view": {"raw", "scaled", "depth"}}


def kinds():
    """Which words each command takes, and no others; and which take -v."""
    for command, takes in TAKES.items():
        for name in VALUES.keys() - takes:
            refused([command, *GOOD[command], VALUES[name]], (NO_SETTING if "=" in VALUES[name] else "this is a word more than it takes: ") + VALUES[name])
    refused(["view", "map.pgm", "fresh", "-v"], "this is no option here .*: -v")


def words_together():
    """Words that are good alone and mean nothing together."""
    both = {"add": "a map is either raw or scaled", "view": "the numbers are either raw or scaled"}
    for command, why in both.items():
        refused([command, *GOOD[command], "raw", "scaled"], why)
    for word in ("raw", "scaled"):
        refused(["add", "frame.ppm", "fresh", "t=5000", word], "with t= there is no map that could be " + word)
    refused(["add", "frame.ppm", "map.pgm", "fresh", "t=5000"], "with t= there is no map: map.pgm")
    refused(["add", "frame.ppm", "t=5000"], "t=5000 stands where OUT.ppm is wanted; .*")
    refused(["add", "t=5000"], "t=5000 stands where CLEAN.ppm is wanted; .*")
    refused(["add", "-", "-", "fresh"], "standard input can be read once, not twice")
    for words in (["clear", "-", "fresh"], ["light", "-"], ["band", "-", "0", "1"]):
        refused([*words, "mask=-"], "standard input can be read once, not twice")
    refused(["clear", "frame.ppm", "fresh", "map=fresh"], "fresh: cannot be written: two files of this run would go there")
    refused(["clear", "frame.ppm", "fresh", "map=one", "depth=./one"], "./one: cannot be written: two files of this run would go there")
    refused(["clear", "frame.ppm", "fresh", "map=fresh", "depth=two"], "fresh: cannot be written: two files of this run would go there")
    refused(["clear", "frame.ppm", "fresh", "map=two", "depth=fresh"], "fresh: cannot be written: two files of this run would go there")
    for words in (["add", "frame.ppm", "fresh", "t=1", "t=2"], ["view", "map.pgm", "fresh", "raw", "raw"], ["view", "map.pgm", "fresh", "depth", "raw", "depth"]):
        refused(words, "this setting stands twice: " + words[-1])
    refused(["clear", "frame.ppm", "-", "map=-"], "standard output: cannot be written: two files of this run would go there")


def lost():
    """Something else in the place of what is read."""
    put("map.pgm", pgm((3, 2), range(6)))
    os.link("frame.ppm", "hard.ppm")
    Path("soft.pgm").symlink_to("map.pgm")
    for words in (["map", "frame.ppm", "frame.ppm"], ["depth", "frame.ppm", "hard.ppm"], ["clear", "frame.ppm", "fresh", "map=./frame.ppm"],
                  ["clear", "frame.ppm", "fresh", "depth=hard.ppm"], ["view", "map.pgm", "map.pgm"], ["view", "soft.pgm", "map.pgm"],
                  ["add", "frame.ppm", "map.pgm", "map.pgm"]):
        name = words[2] if words[0] == "add" else words[1]
        refused(words, name + ": would be lost, since it is read and something else is written to it")
    put("mask.pgm", pgm((3, 2), [1] * 6, 255))
    os.link("mask.pgm", "hard.pgm")
    for words in (["clear", "frame.ppm", "mask.pgm"], ["map", "frame.ppm", "hard.pgm"], ["depth", "frame.ppm", "./mask.pgm"],
                  ["clear", "frame.ppm", "fresh", "map=hard.pgm"], ["clear", "frame.ppm", "fresh", "depth=mask.pgm"]):
        refused([*words, "mask=mask.pgm"], "mask.pgm: would be lost, since it is read and something else is written to it")
    for name in ("hard.ppm", "soft.pgm", "mask.pgm", "hard.pgm"):
        Path(name).unlink()


def several():
    Path("to").mkdir()
    Path("a").mkdir()
    put("a/frame.ppm", Path("frame.ppm").read_bytes())
    refused(["clear", "-o"], "the name of a folder is missing behind -o")
    refused(["clear", "frame.ppm", "-o", "to", "-o", "to"], "this option stands twice: -o")
    refused(["map", "frame.ppm", "fresh", "-o", "to"], "this is no option here .*: -o")
    refused(["clear", "-o", "to"], "a word is missing: IN.ppm")
    refused(["clear", "-o", "to", "s=5", "frame.ppm"], "s=5 stands where IN.ppm is wanted.*")
    refused(["clear", "-o", "to", "frame.ppm", "T0=3000"], NO_SETTING + "T0=3000")
    refused(["clear", "-o", "to", "frame.ppm", "s=5", "a/frame.ppm"], "this is a word more than it takes: a/frame.ppm")
    for word in ("map=", "depth="):
        refused(["clear", "-o", "to", "frame.ppm", word + "x.pgm"], "with -o there is no " + word)
    put("b.ppm", Path("frame.ppm").read_bytes())
    refused(["clear", "-o", "to", "frame.ppm", "b.ppm", "a/frame.ppm"], "a/frame.ppm: another frame of this run has the same name; in to there can be one")
    refused(["clear", "-o", "to", "frame.ppm", "a/frame.ppm"], "a/frame.ppm: another frame of this run has the same name; in to there can be one")
    refused(["clear", "-o", ".", "frame.ppm"], "frame.ppm: stands in . and would be replaced itself; name another folder")
    refused(["clear", "-o", "a/../a", "a/frame.ppm"], "a/frame.ppm: stands in a/../a and would be replaced itself; name another folder")
    os.mkdir("linked")
    os.symlink("../a/frame.ppm", "linked/last.ppm")      # a frame that would be replaced under the name of another
    refused(["clear", "-o", "a", "frame.ppm", "linked/last.ppm"], "linked/last.ppm: stands in a and would be replaced itself; name another folder")
    refused(["clear", "-o", "to", "-"], "with -o every frame is a file; standard input has no name to go by")
    refused(["clear", "-o", "none", "a/frame.ppm"], "none: is no folder to write to: No such file or directory")
    refused(["clear", "-o", "frame.ppm", "a/frame.ppm"], "frame.ppm: is no folder to write to")
    refused(["clear", "-o", "to", "frame.ppm", "s=31"], "s=31: refused 2: .*")
    refused(["clear", "-o", "to", "frame.ppm", "light=0,1,1"], "light=0,1,1: refused 5: .*")
    for data, number in ((b"x", 11), (pgm((3, 2), [0] * 6, 255), 14)):      # refused for every frame, so it is said once
        put("mask.pgm", data)
        refused(["clear", "-o", "to", "frame.ppm", "b.ppm", "mask=mask.pgm"], f"mask.pgm: refused {number}: .*")


def frame():
    put("frame.ppm", ppm((3, 2), range(100, 118)))


ALL = (frame, files, masks, nothing_seen, maps, maps_of_others, settings, words, kinds, words_together, lost, several)
