#!/usr/bin/env python3
"""Brings the repository's own definitions, lemmas and fields to snake case: `firstBad` becomes `first_bad`, `put-part-spec` `put_part_spec`.

usage: python3 tools/port_names.py [--dry]      at the top of the repository, once, after port.py

A dash stays where it joins two names of definitions, as in `take-capitals`; a plain word is added with `_`. Names of src/, strings, inputs and
outputs keep their spelling. It lists names that would fall together.
So far looked at: those left are a definition and the function that it speaks of.
"""

import glob
import re
import sys

DECLARED = re.compile(r"(?m)^( *)((?:pub |abbrev |unfoldable |package )*)(data |record )?([^\s:(){}.;,]+) : ")
INFIX = re.compile(r"[◌]")
TOKEN = re.compile(r"[^\s(){}.;,@\"«»\[\]\\`]+")
FIELD = re.compile(r"(?m)^ +pub ([^\s:(){}.;,]+) : ")
STRING = re.compile(r'"(?:[^"\\\n]|\\.)*"')

# Names that would fall together with another: old spelling, and what it becomes.
APART = {
    n: re.sub("-", "_", n) + "_lem"
    for n in "of-key update-list at_cut cut_by laid_on goes_on is-at weigh-zip with-semis in-run some-bad cap-reached until_none good-member once_after key_in".split()
}


def read(path):
    with open(path, encoding="utf-8", newline="") as f:
        return f.read()


def snake(word):
    if not re.match(r"[a-z]", word):
        return word
    return re.sub(r"(?<=[a-z0-9?'₀-₉])([A-Z])", lambda m: "_" + m.group(1).lower(), word)


def spelled(name, known):
    words = name.split("-")
    if any(not w for w in words):
        return name
    words = [snake(w) for w in words]
    out = words[0]
    for a, b in zip(words, words[1:]):
        out += ("-" if a in known and b in known else "_") + b
    return out


def main(argv):
    antt = sorted(glob.glob("crates/*/specs/**/*.antt", recursive=True) + glob.glob("crates/*/proofs/**/*.antt", recursive=True))
    texts = {p: read(p) for p in antt}
    declared, defs, fields = set(), set(), set()
    for p, t in texts.items():
        for m in DECLARED.finditer(t):
            ind, mods, kind, name = m.groups()
            if INFIX.search(name):
                continue
            declared.add(name)
            if "abbrev" in mods or "unfoldable" in mods or kind:
                defs.add(name)
        for block in re.findall(r"(?ms)^(?:pub )?record .*?(?=^\S|\Z)", t):
            fields.update(FIELD.findall(block))
        for m in re.finditer(r"use Rattle\.std[^{\n]*\{([^}]*)\}", t):
            for n in re.split(r"[,\s]+", m.group(1)):
                if n and "-" not in n and re.match(r"[A-Za-z]", n):
                    defs.add(n)
    known = {snake(d) for d in defs if "-" not in d}
    new = {}
    for name in sorted(declared | fields):
        if name in APART or "-" in name or re.match(r"[a-z].*[A-Z]", name):
            to = APART.get(name) or spelled(name, known)
            if to != name:
                new[name] = to
    said = 0
    rts = sorted(glob.glob("crates/*/src/**/*.rt", recursive=True))
    for p in antt + rts:
        t = texts.get(p) or read(p)
        toks = set()
        for m in TOKEN.finditer(t):
            toks.add(m.group(0))
        by = {}
        for x in toks:
            by.setdefault(new.get(x, x), set()).add(x)
        for to, of in sorted(by.items()):
            # A definition may have the name of the function that it speaks of: paths of functions, and src/.
            if len([x for x in of if x in new or x in declared]) > 1:
                said += 1
                print(f"{p}: {', '.join(sorted(of))} -> {to}")
    if "--dry" in argv:
        print(len(new), "names,", said, "to look at")
        return 0

    def turn(text, code):
        def one(m):
            w = m.group(0)
            if w not in new or (code and w in APART and "-" not in w):
                return w
            if m.start() and text[m.start() - 1] == "." and w not in fields:
                return w
            return new[w]

        return TOKEN.sub(one, text)

    def turn_rt(text):
        kept = []

        def hide(m):
            kept.append(m.group(0))
            return f'"{len(kept) - 1}"'

        hidden = STRING.sub(hide, text)
        return re.sub(r'"(\d+)"', lambda m: kept[int(m.group(1))], by_line(hidden, "//", True))

    # In a comment, and in a page, only what stands between backticks is a name.
    def quoted(text):
        return re.sub(r"`[^`\n]+`", lambda m: turn(m.group(0), True), text)

    def by_line(text, mark, code):
        out = []
        for line in text.split("\n"):
            m = re.search(r"(?:^|\s)" + mark + r"(?=\s|$)", line)
            cut = m.start() if m else len(line)
            out.append(turn(line[:cut], code) + quoted(line[cut:]))
        return "\n".join(out)

    for p in antt:
        t = by_line(texts[p], "--", False)
        if t != texts[p]:
            open(p, "w", encoding="utf-8", newline="").write(t)
    for p in rts:
        t = read(p)
        u = turn_rt(t)
        if u != t:
            open(p, "w", encoding="utf-8", newline="").write(u)
    for p in sorted(glob.glob("crates/*/must-fail/*.edit") + glob.glob("docs/*.md") + ["README.md"]):
        t = read(p)
        u = quoted(t) if p.endswith(".md") else turn_rt(t)
        if u != t:
            open(p, "w", encoding="utf-8", newline="").write(u)
    print(len(new), "names")
    return 0


if __name__ == "__main__":
    sys.exit(main(sys.argv[1:]))
