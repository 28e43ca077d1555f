#!/usr/bin/env python3
"""Brings the names that the check gives to steps and goals, in Answers.antt and Invariants.antt, to today's spelling: a name from src/ keeps
its underscores, and a word of the check's own is in snake case. Usage, at the top: python3 tools/mend_steps.py CRATE.. [--list]"""
import os, re, sys

WORDS = ["overflow_add", "overflow_mul", "overflow_sub", "overflow_cast", "overflow_step", "overflow_shl", "overflow_shr", "nonzero_div", "nonzero_rem",
         "slice_bounds", "offset_bounds", "in_ok", "in_err", "in_default", "type_inv", "invariant_of", "yielded_by", "well_formed", "shared_slice_known", "row_known"]


def walk(folder, names):
    for d, _, fs in os.walk(folder):
        if os.sep + "out" in d:
            continue
        for f in fs:
            if f in names or (names == ".rt" and f.endswith(".rt")):
                yield os.path.join(d, f)


for crate in [a for a in sys.argv[1:] if not a.startswith("--")]:
    src = set()
    for p in walk(f"crates/{crate}/src", ".rt"):
        src |= set(re.findall(r"[A-Za-z][A-Za-z0-9]*(?:_[A-Za-z0-9]+)+", open(p, encoding="utf-8").read()))
    src |= set(WORDS)
    turn = {s.replace("_", "-"): s for s in src}
    keys = sorted(turn, key=len, reverse=True)
    at = re.compile(r"(?<![A-Za-z0-9_'])(" + "|".join(map(re.escape, keys)) + r")(?![A-Za-z0-9_'])")
    for p in walk(f"crates/{crate}/proofs", ("Answers.antt", "Invariants.antt")):
        t = open(p, encoding="utf-8").read()
        out = []
        for line in t.split("\n"):
            if not line.startswith("use ") or "Goals" in line or "Given" in line:
                line = at.sub(lambda m: turn[m[1]], line)
            out.append(line)
        new = "\n".join(out)
        if "--list" in sys.argv:
            for m in sorted(set(at.findall(t))):
                print(crate, p.split("proofs/")[1], m)
        elif new != t:
            open(p, "w", encoding="utf-8").write(new)
