#!/usr/bin/env python3
"""Turns a Proof.antt that closes by `tie.spec` into Invariants.antt and Answers.antt.

usage: python3 tools/port_proofs.py NAMES [CRATE..]      at the top of the repository

NAMES/CRATE/names.json is what `rattle check --generated NAMES/CRATE --old-names` writes. An argument of `tie.spec` becomes the answer of the goal
in its place; one that is `search rules` goes. A path through `.before` becomes the step's own name. What it could not read is marked `TODO`.
"""

import glob
import json
import os
import re
import sys

WORD = r"[^\s(){}.;,@\"«»\[\]\\]+"
PATH = re.compile(r"--[^\n]*|" + WORD + r"(?:\.(?:" + WORD + r"))*")
DECL = re.compile(r"(?m)^((?:pub |abbrev |unfoldable )*)(\S+) : ")
DROPPED = ("Statement.{statement}", ".Tie as tie", "Author.Rules.{rules}")


def plain(s):
    return re.sub(r"[-_]", "", s).lower()


def need_key(s):
    s = plain(s)
    for w in ("overflow", "nonzero"):
        s = s.replace(w, "")
    return s


class Fn:
    def __init__(self, of, idents):
        self.of = of
        self.idents = idents
        self.places = of["places"]
        self.index = {p[0]: i for i, p in enumerate(self.places)}
        self.by_plain = {plain(p[0]): p[0] for p in self.places}
        self.args = dict(
            (re.sub(r"^\.args \.", "", a), re.sub(r"^\.args \.", "", b)) for a, b in of["args"] if a.startswith(".args ")
        )
        # places by where their needs are asked
        self.asked_at = of["asked_at"]

    def parent(self, place):
        return self.places[self.index[place]][1]

    def new_place(self, place):
        return self.of["places_by_name"][self.index[place]]

    def field(self, f):
        if f in self.idents or "-" not in f:
            return f
        g = f.replace("-", "_")
        return g if g in self.idents else f

    def nested(self, rest, names):
        """Reads (1)*0 or a last (1)+ as a place in a list of names."""
        k = 0
        while k < len(rest) and rest[k] == "1" and k < len(names) - 1:
            k += 1
        if k == len(names) - 1:
            return [names[k]] + rest[k:]
        if k < len(rest) and rest[k] == "0":
            return [names[k]] + rest[k + 1 :]
        return None

    def resolve(self, place, fields, var, top):
        """Returns ('place', P) or ('path', text) for var.fields at the place."""
        fields = list(fields)
        while fields and fields[0] == "before":
            up = self.parent(place)
            if up is None:
                # a place that is no more: what follows stands at the start
                fields = [x for x in fields if x != "before"]
                break
            place = up
            fields = fields[1:]
        if not fields:
            return "place", place
        f, rest = fields[0], fields[1:]
        # a field of an earlier place may be named without .before; where places have gone, a later one
        chain, q = [], top
        while q is not None:
            chain.append(q)
            q = self.parent(q)
        has = lambda x: self.places[self.index[x]][2][0] and plain(self.places[self.index[x]][2][0]) == plain(f)
        at = place
        above, q = [], place
        while q is not None:
            above.append(q)
            q = self.parent(q)
        if not any(has(x) for x in above):
            later = [x for x in chain if x not in above and has(x)]
            at = later[-1] if later else place
        while at is not None:
            i = self.index[at]
            old, new = self.places[i][2]
            if old and plain(old) == plain(f):
                # inside an arm?
                arm = self.arm(top, at, old, rest)
                if arm:
                    return "path", f"{var}." + ".".join(arm)
                return "path", f"{var}.{new}" + self.tail(i, old, rest)
            if self.parent(at) is None:
                break
            at = self.parent(at)
        if f == "args" and rest and rest[0] in self.args:
            rest = [self.args[rest[0]]] + rest[1:]
        if f == "requires" and self.of.get("pre") and rest and rest[0].isdigit():
            r = self.nested(rest, self.of["pre"]["fields"])
            if r:
                rest = r
        return "path", f"{var}." + ".".join([f] + [self.field(x) for x in rest])

    def arm(self, top, at, old, rest):
        """The new path of a step's field that an arm holds, seen from the place `top`."""
        chain, p = [], top
        while p is not None:
            chain.append(p)
            p = self.parent(p)
        for p in chain:
            i = self.index[p]
            a = self.of["arms"][i]
            if not a:
                continue
            name, level, entries = a
            # the places that the arm covers: this one and level - 1 above it
            covered, q = [], p
            for _ in range(level):
                if q is None:
                    break
                covered.append(q)
                q = self.parent(q)
            if at not in covered:
                continue
            best = None
            for new, step, path in entries:
                if plain(step) == plain(old) and [plain(x) for x in rest[: len(path)]] == [plain(x) for x in path]:
                    if best is None or len(path) > len(best[1]):
                        best = (new, path)
            if best:
                return [name, best[0]] + [self.field(x) for x in rest[len(best[1]) :]]
        return None

    def tail(self, i, old, rest):
        rest = list(rest)
        callee = self.places[i][3]
        if rest and rest[0] == "new" and callee and callee in self.of["params"]:
            r = self.nested(rest[1:] + ([] if rest[1:] and rest[-1] == "0" else []), self.of["params"][callee] + ["tt"])
            if r:
                rest = ["new"] + r
        return "".join("." + self.field(x) for x in rest)


def split_args(text):
    """Splits at top-level blanks: words and parenthesised terms."""
    out, depth, cur = [], 0, ""
    for ch in text:
        if ch in "([{":
            depth += 1
        if ch in ")]}":
            depth -= 1
        if ch.isspace() and depth == 0:
            if cur.strip():
                out.append(cur.strip())
            cur = ""
        else:
            cur += ch
    if cur.strip():
        out.append(cur.strip())
    return out


def balanced(text, start):
    depth = 0
    for at in range(start, len(text)):
        depth += (text[at] in "([{") - (text[at] in ")]}")
        if depth == 0:
            return at
    return len(text) - 1


def rewrite(text, fn, env, goal):
    """Rewrites the paths in a body. env: variable -> place. goal: the goal's new name, for helpers that take a place."""
    env = dict(env)
    # lets that name a place go
    while True:
        m = re.search(r"let (\S+) = (" + WORD + r"(?:\." + WORD + r")*) in\s*(?:\n\s*)?", text)
        found = False
        for m in re.finditer(r"let (\S+) = (" + WORD + r"(?:\." + WORD + r")*) in[ \t]*(\n[ \t]*)?", text):
            parts = m.group(2).split(".")
            if parts[0] in env:
                kind, what = fn.resolve(env[parts[0]], parts[1:], "c", fn.top)
                if kind == "place":
                    env[m.group(1)] = what
                    text = text[: m.start()] + text[m.end() :]
                    found = True
                    break
        if not found:
            break

    def one(m):
        w = m.group(0)
        if w.startswith("--"):
            return w
        parts = w.split(".")
        if parts[0] not in env:
            return w
        if m.start() and text[m.start() - 1] == ".":
            return w
        kind, what = fn.resolve(env[parts[0]], parts[1:], "c", fn.top)
        if kind == "place":
            return f"(goal.at.{goal} c).{fn.new_place(what)}" if goal else ("c" if what == fn.top else f"TODO-c.{fn.new_place(what)}")
        return what

    return PATH.sub(one, text)


def type_places(text, fn):
    """tie.PLACE inv dec in a signature becomes goal.PLACE."""
    used = []

    def one(m):
        p = fn.by_plain.get(plain(m.group(1)))
        if p is None:
            return "TODO-" + m.group(0)
        new = fn.new_place(p)
        used.append(new)
        return new

    text = re.sub(r"tie\.([^\s(){}.;,]+)((?: (?:invariant|decreases)[-_][^\s(){}.;,]+)*)", one, text)
    return text, used


def convert(path, names, idents):
    text = open(path, encoding="utf-8").read()
    folder = os.path.dirname(path)
    crate = path.split("/")[1]
    rel = folder.split("/proofs/", 1)[1].replace("/", ".")
    key = f"Rattle-{crate}-proofs.{rel}.Lts"
    if "tie.spec" not in text:
        return "hand"
    if key not in names:
        return f"no names: {key}"
    fn = Fn(names[key], idents)
    first = DECL.search(text)
    # comments right above the first declaration belong to it
    head_end = first.start()
    head = text[:head_end]
    pre_comment = ""
    m = re.search(r"(?m)(^--[^\n]*\n)+\Z", head)
    lines = head.split("\n")
    if m and m.start() > 0:
        pre_comment = m.group(0)
        head = head[: m.start()]
    title = "\n".join(l for l in head.split("\n") if l.startswith("--"))
    uses = [l for l in head.split("\n") if l.startswith("use ")]
    starts = [m.start() for m in DECL.finditer(text)] + [len(text)]
    decls = []
    carry = pre_comment
    for a, b in zip(starts, starts[1:]):
        block = text[a:b]
        m = re.search(r"(?m)\n((?:--[^\n]*\n)+)\s*\Z", block)
        nxt = ""
        if m:
            nxt = m.group(1)
            block = block[: m.start()] + "\n"
        decls.append((carry, block.rstrip("\n")))
        carry = nxt
    spec = decls[-1][1]
    m = re.search(r"tie\.spec\b", spec)
    if not m:
        return "spec is not last"
    open_at = spec.rfind("(", 0, m.start())
    close_at = balanced(spec, open_at)
    args = split_args(spec[m.end() : close_at])
    spec_unfold = re.findall(r"(?m)^ *unfolding [^\n]*", spec)
    by_name = {}
    kinds = {}
    for carry, block in decls[:-1]:
        m = DECL.match(block)
        by_name[m.group(2)] = (carry, block)
        ty = block[m.end() :]
        if re.match(r"tie\.invariant-", ty):
            kinds[m.group(2)] = ("inv", re.match(r"tie\.invariant-(\S+)", ty).group(1))
        elif re.match(r"tie\.decreases-", ty):
            kinds[m.group(2)] = ("dec", re.match(r"tie\.decreases-(\S+)", ty).group(1))
        elif re.match(r"tie\.Need-", ty):
            kinds[m.group(2)] = ("need", re.match(r"tie\.Need-(\S+)", ty).group(1))
        else:
            kinds[m.group(2)] = ("help", None)
    loops = {plain(l[0][0]): (l[0][1], l[1], c) for l, c in zip(fn.of["loops"], fn.of["changed"])}
    answers = [a for a in args if kinds.get(a, ("", ""))[0] not in ("inv", "dec")]
    # an inline invariant or measure
    needs = fn.of["needs"]
    said = ""
    n_inline = 0
    if len(answers) != len(needs):
        said = f"answers {len(answers)}, needs {len(needs)}"
    pos = {}
    if not said:
        pos = dict(enumerate(needs))
    else:
        keys = [need_key(o) for o, _ in needs]
        j = 0
        for i, a in enumerate(answers):
            k = kinds.get(a)
            if k and k[0] == "need" and need_key(k[1]) in keys:
                j = keys.index(need_key(k[1]))
                pos[i] = needs[j]
            else:
                pos[i] = None
    new_of = {}
    inline = []
    for i, a in enumerate(answers):
        if a in by_name:
            k = kinds[a]
            goal = pos[i]
            if goal is None and k[0] == "need":
                goal = next(((o, n) for o, n in needs if need_key(o) == need_key(k[1])), None)
            if a in new_of:
                inline.append((goal, i, a))
            new_of[a] = (goal, i)
        else:
            inline.append((pos[i], i, a))
    place_of = {}
    for (o, n), (po, pn) in zip(needs, fn.asked_at):
        place_of[n] = po
    inv_out, ans_out, goal_names = [], [], set()
    used_places = set()

    def need_block(goal, unfold, binders, body, carry):
        new = goal[1]
        fn.top = place_of[new]
        binders = [b for b in binders if b != "κs"]
        env = {binders[0]: fn.top} if binders else {}
        body = rewrite(body, fn, env, new)
        if binders and binders[0] != "_":
            binders = ["c"] + binders[1:]
        out = carry + f"pub {new} : goal.{new}\n" + "".join(u + "\n" for u in unfold) + f"{new} {' '.join(binders)} ={body}\n"
        if new in fn.of["asked"] and not re.match(r"\s*(record|search|grind)", body):
            out = f"-- TODO fields {fn.of['asked'][new]}\n" + out
        return out

    for carry, block in decls[:-1]:
        m = DECL.match(block)
        name = m.group(2)
        kind, what = kinds[name]
        if kind in ("inv", "dec"):
            loop = loops.get(plain(what))
            if loop is None:
                inv_out.append("-- TODO " + block)
                continue
            new_loop, variables, changed = loop
            m2 = re.search(r"(?m)^" + re.escape(name) + r"((?: \S+)*) =", block)
            if not m2:
                inv_out.append("-- TODO " + block)
                continue
            header = m2.group(1).split()
            target = []
            for v, ch in zip(variables, changed):
                target.append(f"l.initial.{v}" if ch else f"l.{v}")
            target += [f"l.{v}" for v, ch in zip(variables, changed) if ch]
            if len(header) > len(target):
                inv_out.append("-- TODO arguments\n" + block)
                continue
            env = {h: t for h, t in zip(header, target) if h != "_"}
            body = block[m2.end() :]
            # binders inside that hide a name
            hidden = set(re.findall(r"λ ([^.()]*)\.", body)) | set(re.findall(r"\(([^\s()]+(?: [^\s()]+)*) : ", body))
            hidden = {x for h in hidden for x in h.replace("(", " ").replace(")", " ").split()}
            clash = hidden & set(env)

            def one(mm):
                parts = mm.group(0).split(".")
                if mm.group(0).startswith("--") or parts[0] not in env or (mm.start() and body[mm.start() - 1] == "."):
                    return mm.group(0)
                return ".".join([env[parts[0]]] + parts[1:])

            body2 = PATH.sub(one, body)
            word = "invariant" if kind == "inv" else "decreases"
            note = f"-- TODO hidden names {sorted(clash)}\n" if clash else ""
            unf = "".join(u + "\n" for u in re.findall(r"(?m)^unfolding [^\n]*", block))
            inv_out.append(note + carry + f"abbrev pub {word}-{new_loop} : goal.{word}-{new_loop}\n{unf}{word}-{new_loop} l ={body2}\n")
        elif kind == "need" and name in new_of and new_of[name][0]:
            goal = new_of[name][0]
            unfold = re.findall(r"(?m)^unfolding [^\n]*", block)
            m2 = re.search(r"(?m)^" + re.escape(name) + r"((?: [^=\n]+?)?) =(?=\s)", block)
            if not m2:
                ans_out.append("-- TODO clauses\n" + block)
                continue
            binders = m2.group(1).split()
            ans_out.append(need_block(goal, unfold, binders, block[m2.end() :], carry))
        else:
            # a helper
            m2 = re.search(r"\((\S+) : tie\.([^\s(){}.;,]+)", block)
            goal = None
            if m2:
                p = fn.by_plain.get(plain(m2.group(2)))
                sig_end = re.search(r"(?m)^(?:unfolding|" + re.escape(name) + r"(?= ))", block[m.end() :])
                cut = m.end() + sig_end.start() if sig_end else len(block)
                sig, rest = block[:cut], block[cut:]
                if p:
                    fn.top = p
                    sig = rewrite(sig, fn, {m2.group(1): p}, None)
                    sig, used = type_places(sig, fn)
                    used_places.update(used)
                    rest = rewrite(rest, fn, {m2.group(1): p}, None)
                ans_out.append(carry + sig + rest + "\n")
            else:
                sig, used = type_places(block, fn)
                used_places.update(used)
                (ans_out if "tie." not in block or True else inv_out).append(carry + sig + "\n")
    for goal, i, a in inline:
        if re.fullmatch(r"\(λ c(?: κs)?\. search rules\)", a) or re.fullmatch(r"\(λ c(?: κs)?\. search rules\)", a.replace("\n", " ")):
            continue
        m = re.match(r"\(λ ([^.]*)\.\s?(.*)\)\Z", a, re.S)
        if goal is None or not m:
            ans_out.append(f"-- TODO goal for argument {i}: {a}\n")
            continue
        ans_out.append(need_block(goal, spec_unfold, m.group(1).split(), " " + m.group(2), ""))
    base = f"Rattle.{crate}.proofs.{rel}"
    keep = [u for u in uses if not any(d in u for d in DROPPED)]
    body_all = "\n".join(ans_out)
    if re.search(r"\brules\b", body_all):
        keep.append("use Rattle.std.proofs.Common.{rules}")
    keep_inv = [u for u in uses if not any(d in u for d in DROPPED)]
    if used_places:
        keep.append(f"use {base}.Goals.{{{', '.join(sorted(used_places))}}}")
    if said:
        ans_out.insert(0, f"-- TODO {said}: {[n for _, n in needs]}\n")
    if inv_out:
        with open(folder + "/Invariants.antt", "w", encoding="utf-8") as f:
            f.write(title + "\n" if title else "")
            f.write("\n".join(keep_inv + [f"use {base}.Given as goal", ""]) + "\n" + "\n".join(inv_out))
    if ans_out:
        with open(folder + "/Answers.antt", "w", encoding="utf-8") as f:
            f.write(title + "\n" if title else "")
            f.write("\n".join(keep + [f"use {base}.Goals as goal", ""]) + "\n" + "\n".join(ans_out))
    os.remove(path)
    return said or "done"


def main(argv):
    where = argv[0]
    crates = argv[1:] or sorted(os.listdir("crates"))
    count = {}
    for c in crates:
        files = sorted(glob.glob(f"crates/{c}/proofs/**/Proof.antt", recursive=True))
        if not files:
            continue
        list_ = f"{where}/{c}/names.json"
        if not os.path.exists(list_):
            print(f"{c}: no names")
            continue
        names = json.load(open(list_))
        source = "\n".join(open(p, encoding="utf-8").read() for p in glob.glob("crates/*/src/**/*.rt", recursive=True))
        idents = set(re.findall(r"[A-Za-z_][A-Za-z0-9_]*", source))
        for p in files:
            r = convert(p, names, idents)
            k = r if r in ("done", "hand") else r.split(":")[0].split(" ")[0]
            count[k] = count.get(k, 0) + 1
            if r not in ("done",):
                print(p, r)
    print(count)


if __name__ == "__main__":
    main(sys.argv[1:])
