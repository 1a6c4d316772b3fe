#!/usr/bin/env python3
"""Counts the places of docs/DESIGN-PASS.md in crates/*/src: python3 tools/places.py [--list] [FOLDER]

FOLDER is a checkout, by default this one. With --list each place is named.
"""
import collections
import glob
import os
import re
import sys

NUMBERS = {"usize", "u8", "u16", "u32", "u64", "i32", "f32"}
WORDS = set("fn let mut if else while for in return match pub loop break continue bool as ref self Self const true false".split())


def functions(text):
    """Each function of a file: its name, its parameters, its result, its body's lines."""
    lines, k = text.split("\n"), 0
    while k < len(lines):
        head = re.match(r"^(\s*)(?:pub(?:\(crate\))? )?(?:const )?fn (\w+)", lines[k])
        if not head:
            k += 1
            continue
        end = k
        while not (lines[end] == head.group(1) + "}" or lines[end].endswith(" {}") or (end == k and lines[end].endswith("}"))):
            end += 1
        whole = "\n".join(lines[k : end + 1])
        depth, at, start = 0, whole.index("("), whole.index("(")
        while True:
            depth += {"(": 1, ")": -1}.get(whole[at], 0)
            at += 1
            if depth == 0:
                break
        parameters = [p.strip() for p in re.split(r",(?![^<(\[]*[>)\]])", whole[start + 1 : at - 1]) if p.strip()]
        result = re.match(r"\s*->\s*([^\n{]*)", whole[at:])
        yield head.group(2), parameters, result.group(1).strip() if result else "", lines[k : end + 1]
        k = end + 1


def types(text, word):
    for found in re.finditer(r"^\s*(?:pub )?%s (\w+)[^{;\n]*\{\n(.*?)^\s*\}" % word, text, re.S | re.M):
        body = re.sub(r"//[^\n]*", "", found.group(2))
        yield found.group(1), body


def shapes(text):
    """Own enums of the shape of Option or Result; structs with a flag beside a value; answers that are numbers for cases."""
    for name, body in types(text, "enum"):
        cases = [c.strip() for c in body.split(",\n") if c.strip()]
        empty = [c for c in cases if re.fullmatch(r"\w+", c)]
        if re.search(r"\b(Refused|Unfit|Failed|Failure|NoAnswer)\b", body) or (len(cases) == 2 and len(empty) == 1):
            yield "enum " + name
    for name, body in types(text, "struct"):
        fields = [f.strip() for f in body.split(",") if f.strip()]
        if len(fields) > 1 and re.search(r"\b(more|found|full|fits|free|tested): ", body):
            yield "struct " + name
    for name, _, result, lines in functions(text):
        codes = re.findall(r"return (\d+);|^\s+(\d+)$", "\n".join(lines), re.M)
        if result == "u8" and len({a or b for a, b in codes}) > 1:
            yield "fn " + name


def tokens(lines):
    body = " ".join(line for line in lines if not re.match(r"^\s*(requires|ensures|//)", line))
    for token in re.findall(r"\w+|[^\w\s]", body):
        if token in NUMBERS:
            yield "T"
        elif token[0].isdigit():
            yield "N"
        elif token in WORDS or not re.match(r"\w", token):
            yield token
        else:
            yield "I"


def facts(lines):
    """The facts of a function's requires, apart from whether a value is a reference."""
    for line in lines:
        clause = re.match(r"^\s*requires (?:\w+ )?\{ (.*) \}$", line)
        depth, fact = 0, ""
        for letter in clause.group(1) + "×" if clause else "":
            depth += (letter in "([{") - (letter in ")]}")
            if letter == "×" and depth == 0:
                yield re.sub(r"\.(now|old|entry)\b", "", fact.strip().removeprefix("(").removesuffix(")"))
                fact = ""
            else:
                fact += letter


def count(folder, say):
    found = collections.Counter()
    twins = collections.defaultdict(list)
    asked = collections.defaultdict(list)

    def place(point, where):
        found[point] += 1
        if say:
            print("%s: %s" % (point, where))

    for path in sorted(glob.glob(os.path.join(folder, "crates/*/src/**/*.rt"), recursive=True)):
        text = open(path).read()
        short = os.path.relpath(path, os.path.join(folder, "crates"))
        for name in shapes(text):
            place("1 shapes of Option and Result, flags, numbers for cases", short + " " + name)
        for number, line in enumerate(text.split("\n"), 1):
            if re.match(r"^\s*(?:'\w+: )?(while|loop)\b", line):
                place("3 while and loop", "%s:%d %s" % (short, number, line.strip()))
        for name, parameters, result, lines in functions(text):
            mark = list(tokens(lines))
            if len(mark) > 24:
                twins[" ".join(mark)].append(short + " " + name)
            body = "\n".join(lines)
            if re.search(r"if (\w+) <=? (\w+) \{ (\1|\2) \} else \{ (\1|\2) \}", body):
                place("4 least and greatest by hand", short + " " + name)
            for fact in facts(lines):
                asked[short.split("/")[0], fact].append(name)
            if len(parameters) > 7:
                place("5a more than seven parameters", short + " " + name)
            if any(re.match(r"\w+: &(mut )?\[", p) for p in parameters) and any(re.match(r"(n|m|g|count): usize", p) for p in parameters):
                place("6 a slice with a count beside it", short + " " + name)
        for name, body in types(text, "enum"):
            if name in ("By", "Key", "Pass", "Run", "Sought"):
                place("7 an enum that says which step to run", short + " " + name)
    for names in twins.values():
        if len(names) > 1:
            for name in names:
                place("2 twins", name + " (" + "; ".join(n for n in names if n != name) + ")")
    for (crate, fact), names in asked.items():
        if len(names) > 2:
            place("5b facts that three or more functions of a crate ask for", "%s: %s (%s)" % (crate, fact, ", ".join(names)))
    lines = 0
    for path in glob.glob(os.path.join(folder, "crates/*/proofs/**/*.antt"), recursive=True):
        lines += sum(1 for _ in open(path))
    for point in sorted(found):
        print("%5d  %s" % (found[point], point))
    print("%5d  8 lines of proofs/" % lines)


if __name__ == "__main__":
    rest = [a for a in sys.argv[1:] if a != "--list"]
    count(rest[0] if rest else os.path.join(os.path.dirname(os.path.abspath(__file__)), ".."), "--list" in sys.argv)
