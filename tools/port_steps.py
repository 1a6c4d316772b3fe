#!/usr/bin/env python3
"""Names what a call's step has by position: `f.new.1.1.0` becomes `f.new.out`, `f.auto.1.1.0` `f.auto.out`.

usage: python3 tools/port_steps.py NAMES      at the top of the repository, after port_proofs.py
"""

import glob
import json
import os
import re
import sys


def main(where):
    for p in sorted(glob.glob("crates/*/proofs/**/Answers.antt", recursive=True)):
        crate = p.split("/")[1]
        rel = os.path.dirname(p).split("/proofs/", 1)[1].replace("/", ".")
        list_ = f"{where}/{crate}/names.json"
        if not os.path.exists(list_):
            continue
        of = json.load(open(list_)).get(f"Rattle-{crate}-proofs.{rel}.Lts")
        if not of:
            continue
        params = {new: of["params"][callee] for _, _, (_, new), callee, _ in of["places"] if callee in of["params"]}
        text = open(p, encoding="utf-8").read()
        parts = re.split(r"(?m)^(?=pub |[a-z]\S* : )", text)
        out = []
        for part in parts:
            alias = {}
            for m in re.finditer(r"let (\S+) = c\.([^\s.]+) in", part):
                if m.group(2) in params:
                    alias[m.group(1)] = params[m.group(2)]

            def one(m):
                base, what, digits = m.group(1), m.group(2), m.group(3)
                if base.startswith("c."):
                    names = params.get(base[2:])
                else:
                    names = alias.get(base)
                if not names:
                    return m.group(0)
                ds = digits.split(".")[1:]
                k = 0
                while k < len(ds) and ds[k] == "1":
                    k += 1
                if k < len(ds) and ds[k] == "0" and k < len(names):
                    rest = "".join("." + d for d in ds[k + 1 :])
                    return f"{base}.{what}.{names[k]}{rest}"
                return m.group(0)

            out.append(re.sub(r"(?<![\w.'₀-₉-])((?:c\.)?[^\s().,;{}]+)\.(new|auto)((?:\.[01])+)", one, part))
        new = "".join(out)
        if new != text:
            open(p, "w", encoding="utf-8").write(new)


if __name__ == "__main__":
    main(sys.argv[1])
