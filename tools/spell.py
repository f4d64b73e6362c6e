#!/usr/bin/env python3
"""Spells the repository's own definitions and lemmas as today's Rattle does: words in snake case, `-` between words as `_`.

usage: python3 tools/spell.py [ROOT]

It goes once over what port.py made. A name is turned in the files that declare it or import it from a crate of this repository, and as a
field wherever a record of this repository has it. Names of src/, of Rattle's library and of what Rattle makes stay. It says which names
would fall together, and then writes nothing.
"""

import glob
import os
import re
import sys

TOKEN = r"[^\s(){}\[\].;,@\"«»`]+"
DECLARED = re.compile(rf"^\s*(?:(?:abbrev|unfoldable|pub|private|let)\s+)*((?:{TOKEN}\s+(?:\{{[^}}]*\}}\s+)*)+):(?:\s|$)")
NOT_A_NAME = {"=", "let", "in", "λ", "→", "|", "↦", "elim", "use", "×", "≡", "≤", "<", "+", "-", "*", "--"}
HEAD = re.compile(rf"^\s*(?:pub\s+)?(?:data|record)\s")
USE = re.compile(r"^\s*(?:ghost )?(?:pub )?use ([\w.+'◌-]+?)(?:\.\{([^}]*)\})?(?: as (\S+?))?;?\s*$")

# Lemmas that would have the name of their function.
LEMMAS = {"byte-of", "window-count", "row-line", "word-line", "seen-at", "bad-size", "in-float", "coarse-of", "span-at"}

# A module of proofs/ that Rattle makes one of the same name for.
MODULES = {"Rattle.rules.proofs.Hidden": "HiddenPixels"}

# Words that the library has respelled since.
WORDS = {"getD": "get_or", "natAbs": "nat_abs"}


def spelled(name):
    if "◌" in name or name.startswith("-"):
        return name
    if name in LEMMAS:
        return name.replace("-", "_") + "_lem"
    for old, new in WORDS.items():
        name = re.sub(rf"(?<![A-Za-z]){old}(?![a-z])", new, name)
    name = re.sub(r"(?<=[\w'ᶠ])-(?=\w)", "_", name)
    if name[:1].isupper():
        return name
    return re.sub(r"(?<=[a-z0-9])([A-Z])", lambda m: "_" + m[1].lower(), name)


def files(root):
    for p in sorted(glob.glob(root + "/crates/*/specs/*.antt") + glob.glob(root + "/crates/*/proofs/**/*.antt", recursive=True) + glob.glob(root + "/crates/*/src/*.rt")):
        yield p


def module(path, root):
    parts = os.path.relpath(path, root + "/crates").removesuffix(".antt").split("/")
    return "Rattle." + ".".join(parts)


def is_walk(path):
    return bool(re.search(r"/proofs/.+/(Proof|Answers|Invariants)\.antt$", path))


def main(root):
    own = {"Rattle." + c for c in os.listdir(root + "/crates")}
    text = {p: open(p, encoding="utf-8").read() for p in files(root)}
    declared, fields = {}, set()
    for p, t in text.items():
        if p.endswith(".rt") or is_walk(p):
            continue
        names, inside = set(), None
        for line in t.splitlines():
            if HEAD.match(line):
                inside = len(line) - len(line.lstrip())
                continue
            if inside is not None and line.strip() and len(line) - len(line.lstrip()) <= inside and not line.strip().startswith("--"):
                inside = None
            m = DECLARED.match(line)
            words = re.sub(r"\{[^}]*\}", " ", m[1]).split() if m else []
            if not NOT_A_NAME & set(words):
                names |= set(words)
                if inside is not None:
                    fields |= set(words)
        declared[module(p, root)] = names
    turned = {}
    fell = []
    for p, t in text.items():
        here, other = set(), set()
        aliases = set()
        if not p.endswith(".rt") and not is_walk(p):
            here |= declared[module(p, root)]
        for line in t.splitlines():
            m = USE.match(line)
            if not m:
                continue
            mine = ".".join(m[1].split(".")[:2]) in own
            items = [i.strip().split(" as ")[0].strip() for i in (m[2] or "").split(",") if i.strip()]
            if mine:
                here |= {i.split(" as ")[1].strip() for i in (m[2] or "").split(",") if " as " in i}
            if mine and m[1] in declared:
                here |= set(items)
                if m[3]:
                    aliases.add(m[3])
                if m[2] is None:
                    aliases.add(m[1].split(".")[-1])
            else:
                other |= set(items)
        if not p.endswith(".rt") and not is_walk(p):
            for m in re.finditer(r"[({]((?:[^\s(){}:.]+ )+):[ ]", t):
                here |= {w for w in m[1].split() if re.search(r"[a-z]-[a-z]|^[a-z]+[A-Z]", w)}
        turn = {n: spelled(n) for n in here - other if spelled(n) != n}
        for f in fields:
            if spelled(f) != f:
                turn.setdefault("." + f, "." + spelled(f))
        # names that are used in full, as Rattle.x.proofs.M.name or m.name
        met = {}
        for n in here | other:
            met.setdefault(turn.get(n, n), set()).add(n)
        fell += [f"{p}: {sorted(v)}" for k, v in met.items() if len(v) > 1]

        def new(m, turn=turn, aliases=aliases):
            before, name = m[1], m[2]
            if before.endswith("."):
                head = re.search(r"([\w.'-]*)\.$", t[: m.start(2)])
                head = head[1] if head else ""
                if head in declared or head in aliases or head.split(".")[-1] in aliases:
                    return before + spelled(name)
                return before + turn.get("." + name, "." + name)[1:]
            if name in fields and re.match(r" = ", t[m.end() :]):
                return before + spelled(name)
            return before + turn.get(name, name)

        body = re.sub(rf"(^|[\s(){{}}\[\].;,@\"«»`])({TOKEN})", new, t)
        if body != t:
            turned[p] = body
    if fell:
        print("fall together:\n" + "\n".join(fell))
        return 1
    for old, new_name in MODULES.items():
        crate, last = old.split(".")[1], old.split(".")[-1]
        folder = f"{root}/crates/{crate}/proofs"
        for p in text:
            t = turned.get(p, text[p])
            u = re.sub(rf"(?<![\w.]){re.escape(old)}(?![\w])", old.removesuffix(last) + new_name, t)
            if p == folder + "/Lib.antt":
                u = re.sub(rf"(?m)^((?:pub )?mod ){last}$", rf"\1{new_name}", u)
            if u != t:
                turned[p] = u
        os.rename(f"{folder}/{last}.antt", f"{folder}/{new_name}.antt")
        if f"{folder}/{last}.antt" in turned:
            turned[f"{folder}/{new_name}.antt"] = turned.pop(f"{folder}/{last}.antt")
    for p, t in turned.items():
        with open(p, "w", encoding="utf-8") as f:
            f.write(t)
    print(f"spell: {len(turned)} files")
    return 0


if __name__ == "__main__":
    raise SystemExit(main(os.path.abspath(sys.argv[1] if len(sys.argv) > 1 else ".")))
