#!/usr/bin/env python3
"""Brings the repository's own definitions and lemmas to snake case: usage, at the top: python3 tools/snake_names.py [--list]
A name counts as its own where a file of specs/ or proofs/ defines it, binds it or has it as a field, and it is no goal's name.
A dash inside such a name becomes an underscore, everywhere in .antt files and in the clauses of .rt files.
With --list it writes nothing, and names those that would fall together with another; they get a name of their own below."""
import os, re, sys

WORD = r"[A-Za-z0-9_'\u2080-\u2089\u03b1-\u03c9\u03bc]"
DEFINES = re.compile(rf"^\s*(?:(?:pub|abbrev|unfoldable|data|record|let)\s+)*({WORD}+(?:-{WORD}+)+)\s*:(?!\s*(?:goal|need)\.)", re.M)
BINDS = re.compile(rf"(?:let|λ|in let|[({{])\s*((?:{WORD}+(?:-{WORD}+)*\s+)*?{WORD}+(?:-{WORD}+)*)\s*(?:=|:|\.\s)")


def files(root):
    for folder, dirs, names in os.walk(os.path.join(root, "crates")):
        dirs[:] = [d for d in dirs if d not in ("out", "target")]
        for n in names:
            if n.endswith((".rt", ".antt")):
                yield os.path.join(folder, n)


def read(p):
    with open(p, encoding="utf-8") as f:
        return f.read()


def main():
    root = "."
    own, goals, all_words = set(), set(), set()
    for p in files(root):
        if not p.endswith(".antt"):
            continue
        t = re.sub(r"--.*", "", read(p))
        all_words |= set(re.findall(rf"{WORD}+(?:-{WORD}+)*", t))
        goals |= set(re.findall(rf"(?:goal|need)\.({WORD}+(?:-{WORD}+)*)", t))
        own |= set(DEFINES.findall(t))
        for names in BINDS.findall(t):
            own |= {n for n in names.split() if "-" in n}
        # fields of a record that is written or declared
        own |= {n for n in re.findall(rf"(?:\{{|;)\s*({WORD}+(?:-{WORD}+)+)\s*=", t)}
    own -= goals
    # these two would fall together with a function of src/: they get names of their own
    special = {"lowest-alike": "lowest_alike_lem", "by-mark": "marked_alike"}
    # facts are spelled as types
    special |= {"Wrote-row": "WroteRow", "both-next": "BothNext", "one_state": "OneState"} | {f"{n}-state": n.capitalize() + "State" for n in ("sub", "suc", "les", "sum", "emp")}
    special |= {n: n.capitalize() for n in ("unary", "binary", "ternary")}
    own |= set(special)
    turned, clash = {}, []
    for n in sorted(own):
        m = special.get(n, n.replace("-", "_"))
        if m in all_words or m in turned.values():
            clash.append((n, m))
        turned[n] = m
    if "--list" in sys.argv:
        print("own:", " ".join(sorted(own)))
        print("falls together:", clash)
        return
    for p in files(root):
        t = read(p)
        # a step that the check names, behind c. or l. in a proof, keeps its name
        steps = r"(?<![cl]\.)" if "/proofs/" in p and os.path.basename(p) in ("Answers.antt", "Invariants.antt", "Choices.antt") else ""
        new = re.sub(rf"(?<![A-Za-z0-9_'\-]){steps}({WORD}+(?:-{WORD}+)*)(?![A-Za-z0-9_'\-])", lambda m: turned.get(m[1], m[1]), t) if not p.endswith(".rt") else t
        if p.endswith(".rt"):
            out = []
            for line in t.split("\n"):
                if re.match(r"\s*(ghost|requires|ensures|pub ghost)\b", line) or "ghost " in line or "≡" in line or "→" in line:
                    line = re.sub(rf"(?<![A-Za-z0-9_'\-])({WORD}+(?:-{WORD}+)*)(?![A-Za-z0-9_'\-])", lambda m: turned.get(m[1], m[1]), line)
                out.append(line)
            new = "\n".join(out)
        if new != t:
            with open(p, "w", encoding="utf-8") as f:
                f.write(new)


main()
