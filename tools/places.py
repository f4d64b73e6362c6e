"""Counts places in src/ that a newer form may serve better: python3 tools/places.py [COMMIT]; without a commit, of the files as they stand.

By text alone. A place that it lists is looked at by a reader, who changes it or says why it stays: docs/DESIGN-PASS.md.
"""
import re
import subprocess
import sys
from collections import defaultdict


def sources(commit):
    """Each .rt file of the crates with its text."""
    if commit:
        names = subprocess.run(["git", "ls-tree", "-r", "--name-only", commit, "crates"], capture_output=True, text=True, check=True).stdout.split()
    else:
        names = subprocess.run(["git", "ls-files", "crates"], capture_output=True, text=True, check=True).stdout.split()
    for name in names:
        if not re.fullmatch(r"crates/\w+/src/\w+\.rt", name) or name.endswith("thresholds.rt"):
            continue
        if commit:
            text = subprocess.run(["git", "show", f"{commit}:{name}"], capture_output=True, text=True, check=True).stdout
        else:
            text = open(name, encoding="utf-8").read()
        yield name, text


FUNCTION = re.compile(r"^( *)(?:pub(?:\(crate\))? )?(?:extern \"C\" )?fn (\w+)(.*?)^\1\}$", re.S | re.M)
KEYWORDS = set("let mut if else return for in while match as true false fn pub struct enum impl self usize u8 u16 u32 u64 i64 i32 bool".split())
WIDTHS = set("usize u8 u16 u32 u64 i64 i32".split())


def crate(name):
    return name.split("/")[1]


def functions(files):
    """(crate::function, the whole text, its parameters, its body)."""
    for name, text in files:
        for found in FUNCTION.finditer(text):
            whole = found.group(0)
            depth, at = 0, whole.index("(")
            end = at
            for end in range(at, len(whole)):
                depth += {"(": 1, ")": -1}.get(whole[end], 0)
                if depth == 0:
                    break
            opening = re.search(r"^%s\{$|\{ *$" % found.group(1), whole[end:], re.M)
            body = whole[end + opening.start():] if opening else ""
            yield f"{crate(name)}::{found.group(2)}", whole, whole[at + 1:end], body


def shape(body):
    """The body with its names, numbers and widths taken out, and + and -, < and <= as one."""
    out, names = [], {}
    for token in re.findall(r"[A-Za-z_]\w*|\d+|[^\s\w]", re.sub(r"//.*", "", body)):
        if token in WIDTHS:
            out.append("T")
        elif re.fullmatch(r"\d+", token):
            out.append("0")
        elif re.fullmatch(r"[A-Za-z_]\w*", token) and token not in KEYWORDS:
            out.append("x%d" % names.setdefault(token, len(names)))
        elif token in "+-":
            out.append("±")
        else:
            out.append(token)
    return " ".join(out)


def show(title, places):
    places = list(places)
    print(f"{title}: {len(places)}")
    for place in places:
        print("    " + place)


def lines(files, pattern):
    for name, text in files:
        for n, line in enumerate(text.split("\n"), 1):
            if re.search(pattern, line):
                yield f"{name}:{n}: {line.strip()[:110]}"


def parameters(text):
    return [re.sub(r"\s+", " ", p).strip() for p in re.split(r",(?![^<\[]*[>\]])", text) if p.strip()]


def main():
    files = list(sources(sys.argv[1] if len(sys.argv) > 1 else None))
    all_functions = list(functions(files))

    print("== 1 own Option and Result, flags and sentinels, numbers for kinds and refusals")
    show("enums", lines(files, r"^(pub(\(crate\))? )?enum "))
    show("functions that answer a u8", (f for f, w, p, b in all_functions if re.search(r"\)\s*-> u8\b", w)))
    show("0, an empty part or a fault that stands for none", lines(files, r"//.*(\b0 (for|where|before|says|of)\b|or 0 |0 for none|[Ee]mpty (exactly|part)|mean nothing|With a fault)"))

    print("== 2 twins")
    groups = defaultdict(list)
    for f, w, p, b in all_functions:
        if len(b.split()) >= 8:
            groups[shape(b)].append(f)
    show("functions of the same shape", (", ".join(g) for g in groups.values() if len(g) > 1))
    show("the lesser, larger or shown of two, written out", (f for f, w, p, b in all_functions if re.fullmatch(r"\{\s*(let \w+ = [^;]+;\s*)?if [^{}]+\{ ?[-\w .:()]+ ?\} else \{ ?[-\w .:()]+ ?\}\s*\}", b.strip())))

    print("== 3 loops that count by hand")
    show("while", lines(files, r"^\s+('\w+: )?while "))

    print("== 4 equality, order, copying, conversion, printing by hand")
    show("functions", (f for f, w, p, b in all_functions if re.search(r"::(same|wide\d*|whole|copy\w*|sized|\w+_in|\w+_given|put_word|put_number|digits|store_row|bits|say_\w+|number|either|first_of|size|settings|rect)$", f) and not f.startswith(("records", "ppm::size"))))

    print("== 5 repeated facts, parameters that travel together")
    facts = defaultdict(set)
    for f, w, p, b in all_functions:
        head = w[:len(w) - len(b)]
        for clause in re.findall(r"requires[^{]*\{(.*?)\}\n", head + "\n", re.S):
            for fact in re.split(r" × ", re.sub(r"\s+", " ", clause).strip()):
                fact = fact.strip(" ()")
                facts[re.sub(r"\.(old|now)\b", "", fact)].add(f)
    show("facts in three contracts or more", (f"{k}  [{', '.join(sorted(v))}]" for k, v in sorted(facts.items(), key=lambda x: -len(x[1])) if len(v) >= 3))
    pairs = defaultdict(set)
    for f, w, p, b in all_functions:
        ps = parameters(p)
        for i in range(len(ps) - 1):
            pairs[(ps[i], ps[i + 1])].add(f)
    show("neighbours among parameters in four functions or more", (f"{a}, {b}  [{', '.join(sorted(v))}]" for (a, b), v in sorted(pairs.items(), key=lambda x: -len(x[1])) if len(v) >= 4))

    print("== 6 a buffer with a length beside it")
    show("functions", (f for f, w, p, b in all_functions if re.search(r"&(mut )?('\w+ )?\[", p) and re.search(r"\b(n|m|count|wide): usize", p)))

    print("== 7 a switch on the step to run")
    show("match", lines(files, r"match (kind|command|filled\()"))


main()
