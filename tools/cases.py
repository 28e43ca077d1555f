#!/usr/bin/env python3
"""Makes the cases of the program `cases`, each with the answer that is expected of it. The answers to claims come from MONA,
another tool that decides WS1S; the faults of inputs that are refused come from the rules alone, as tools/rules.py has them.

It needs Python 3.10 or later and MONA, `apt-get install mona`. At the top of the repository, to make the two files anew:

    python3 tools/cases.py crates/cases

In the folder, `stdin` gets a line for each case, in one of two forms that the program's head describes. `stdout` gets the
values that are expected of it, as `decide` prints them: the verdict, the states, the witness and the counterexample; or the
number, the layer and the place of the fault.
With `--bench bench` the formulas of bench/decide.py are made anew too: some of the cases by rising cost, in the form of
stdin, as bench/formulas.txt, and the same for MONA as bench/mona/NNN.mona.

The answers to claims are read off MONA's automata alone. The Tray of tools/rules.py picks the texts that are within the
limits; what it finds is compared with MONA, and every difference is printed. Exit status 1 says that there was one. A second
run makes the same files, byte for byte."""
import argparse
import collections
import functools
import itertools
import math
import pathlib
import random
import re
import shutil
import subprocess
import sys
import typing
import urllib.parse

sys.dont_write_bytecode = True
from faults import inputs, question  # noqa: E402
from rules import (  # noqa: E402
    NESTING, PLACES, TEXT, Answer, Automaton, Bound, Joined, Negated, Placed, Reader, Refused, Tray, answer, asked, build, explored,
    shown, smallest)

SEED = 20
SETS, BUDGET, DEPTH = 4, 64, 8


# ---- Texts ----

def read(text):
    """The formula of a text, which must be right."""
    return Reader(text.encode(), sets=len(text)).whole()


def tokens_of(text):
    return re.findall(r"[A-Za-z]+|[^A-Za-z \n]", text)


def spelt(formula):
    """The tokens of a formula."""
    match formula:
        case Placed(name, letters):
            return [name, *letters]
        case Negated(part):
            return ["~", *spelt(part)]
        case Joined(mark, left, right):
            return [mark, *spelt(left), *spelt(right)]
        case Bound(mark, letter, part):
            return [mark, letter, *spelt(part)]


def letters_of(text):
    """The letters in the order of their sets."""
    return list(dict.fromkeys(token for token in tokens_of(text) if len(token) == 1 and token.isalpha()))


def free_in(formula):
    match formula:
        case Placed(_, letters):
            return frozenset(letters)
        case Negated(part):
            return free_in(part)
        case Joined(_, left, right):
            return free_in(left) | free_in(right)
        case Bound(_, letter, part):
            return free_in(part) - {letter}


def nesting(formula):
    """In how many others the innermost formula stands."""
    match formula:
        case Placed():
            return 0
        case Negated(part) | Bound(_, _, part):
            return 1 + nesting(part)
        case Joined(_, left, right):
            return 1 + max(nesting(left), nesting(right))


def parts_of(formula):
    yield formula
    match formula:
        case Negated(part) | Bound(_, _, part):
            yield from parts_of(part)
        case Joined(_, left, right):
            yield from parts_of(left)
            yield from parts_of(right)


# ---- Words ----

def ends_accepting(automaton, word):
    return automaton.accepts[functools.reduce(lambda state, column: automaton.rows[state][column], word, 0)]


def first_by_trial(automaton, accepting, most=5_000):
    """The earliest word that ends so, by trying word after word; None where none of the first words does."""
    columns = range(len(automaton.rows[0]))
    words = (word for length in range(len(automaton.rows)) for word in itertools.product(columns, repeat=length))
    return next((word for word in itertools.islice(words, most) if ends_accepting(automaton, word) == accepting), None)


# ---- MONA ----

MONA_HEAD = """ws1s;
pred one(var2 X) = ex1 p: X = {p};
pred suc(var2 X, Y) = ex1 p: X = {p} & Y = {p + 1};
pred les(var2 X, Y) = ex1 p, q: p < q & X = {p} & Y = {q};
pred emp(var2 X) = X = empty;
pred sum(var2 X, Y, Z) = ex2 C: 0 notin C & all1 p:
  (p in Z <=> (p in X <=> (p in Y <=> p in C))) & (p + 1 in C <=> (p in X & p in Y | p in X & p in C | p in Y & p in C));
"""


def mona_source(text):
    """The formula for MONA. A position p is a first-order variable, and a free one has the set p_ = {p}."""
    formula = read(text)
    letters = letters_of(text)
    free = [letter for letter in letters if letter.islower() and letter in free_in(formula)]
    framed = "".join(f"ex1 {p}: {p}_ = {{{p}}} & (" for p in free) + mona_formula(formula) + ")" * len(free)
    return f"{MONA_HEAD}var2 {', '.join(mona_set(letter) for letter in letters)};\n{framed};\n"


def mona_set(letter):
    return letter if letter.isupper() else letter + "_"


def mona_formula(formula):
    match formula:
        case Placed(name, letters):
            return mona_placed(name, letters)
        case Negated(part):
            return f"~({mona_formula(part)})"
        case Joined(mark, left, right):
            return f"({mona_formula(left)}) {mark if mark != '>' else '=>'} ({mona_formula(right)})"
        case Bound(mark, letter, part):
            kind = ("ex" if mark == "?" else "all") + ("1" if letter.islower() else "2")
            return f"{kind} {letter}: ({mona_formula(part)})"


def mona_placed(name, letters):
    match name, [letter.islower() for letter in letters]:
        case "sub", [True, True]:
            return "{} = {}".format(*letters)
        case "sub", [True, False]:
            return "{} in {}".format(*letters)
        case "suc", [True, True]:
            return "{1} = {0} + 1".format(*letters)
        case "les", [True, True]:
            return "{} < {}".format(*letters)
    terms = [f"{{{letter}}}" if letter.islower() else letter for letter in letters]
    return "{} sub {}".format(*terms) if name == "sub" else f"{name}({', '.join(terms)})"


class Mona(typing.NamedTuple):
    """What MONA says of a text: its automaton without the first state, which reads no column, and its own examples."""
    automaton: Automaton
    witness: tuple | None
    counter: tuple | None
    restricted: int


def mona(text):
    letters = letters_of(text)
    run = subprocess.run(["mona", "-w", "-q", "/dev/stdin"], input=mona_source(text), capture_output=True, text=True)
    if run.returncode or run.stderr or "Transitions:" not in run.stdout:
        sys.exit(f"mona: {text}\n{mona_source(text)}\n{run.stdout}\n{run.stderr}")
    out = run.stdout

    def numbers(title):
        line = re.search(rf"^{title}:(.*)$", out, re.M)
        return {int(number) for number in line[1].split()} if line else set()

    # A variable of MONA's has the bit of its letter's set, whatever the order in which MONA lists it.
    sets = list(map(mona_set, letters))
    named = re.search(r"^DFA for formula with free variables:(.*)$", out, re.M)[1].split()
    assert sorted(named) == sorted(sets), text
    bits = [sets.index(name) for name in named]
    steps = {}
    for state, given, after in re.findall(r"^State (\d+): ([01X]+) -> state (\d+)$", out, re.M):
        for chosen in itertools.product(*("01" if each == "X" else each for each in given)):
            column = sum(1 << bit for bit, each in zip(bits, chosen) if each == "1")
            assert (int(state), column) not in steps, text
            steps[int(state), column] = int(after)
    columns = 2 ** len(letters)
    initial, = numbers("Initial state")
    start, = {steps[initial, column] for column in range(columns)}
    accepting, rejecting = numbers("Accepting states"), numbers("Rejecting states")
    automaton = explored(start, lambda s, column: steps[s, column], lambda s: s in accepting, columns)
    restricted = explored(start, lambda s, column: steps[s, column], lambda s: s not in accepting | rejecting, columns)

    def example(which):
        """MONA prints a track for each variable: a sign for its first step, and then one for each position."""
        found = re.search(rf"^A {which} of least length \((\d+)\) is:\n((?:.+\n)+)", out, re.M)
        if not found:
            return None
        tracks = dict(re.fullmatch(r"(\S+) +[01X] ([01X]*)", line).groups() for line in found[2].splitlines())
        assert sorted(tracks) == sorted(sets) and all(len(track) == int(found[1]) for track in tracks.values()), text
        return tuple(sum(1 << sets.index(name) for name in sets if tracks[name][at] == "1") for at in range(int(found[1])))

    return Mona(automaton, example("satisfying example"), example("counter-example"), sum(restricted.accepts))


def mona_version():
    return subprocess.run(["mona"], capture_output=True, text=True).stdout.split("\n")[0]


def closed_at_the_end(automaton):
    """Columns 0 at a word's end change nothing."""
    return all(automaton.accepts[s] == automaton.accepts[row[0]] for s, row in enumerate(automaton.rows))


# ---- Texts by hand ----

EXAMPLES = ("sub A B", "one A", "suc A B", "sum A B C", "?C sum A B C", "& one A one B", "?X!p sub p X", "!p?X sub p X", "sub x X",
            "& sub A B ?A one A")


def both(first, *more):
    return functools.reduce(lambda f, g: f"& {f} {g}", more, first)


def either(first, *more):
    return functools.reduce(lambda f, g: f"| {f} {g}", more, first)


def implied(f, g):
    return f"> {f} {g}"


def alike(f, g):
    return f"& > {f} {g} > {g} {f}"


def unlike(f, g):
    return f"~{alike(f, g)}"


def every(letters, f):
    return "".join(f"!{letter}" for letter in letters) + f" {f}"


def some(letters, f):
    return "".join(f"?{letter}" for letter in letters) + f" {f}"


def zero(p, spare):
    """Position p is 0."""
    return f"~?{spare} suc {spare} {p}"


def plus_one(first, second, p, q):
    """The number of the second set is one more."""
    return f"?{p} & {zero(p, q)} sum {first} {p} {second}"


def multiple(m, first, second):
    """The second number is m times the first, m above 1, with letters S and T of its own, by doubling and adding."""
    def part(m, target):
        if m == 2:
            return f"sum {first} {first} {target}"
        spare = "T" if target != "T" else "S"
        if m % 2:
            return f"?{spare} & {part(m - 1, spare)} sum {first} {spare} {target}"
        return f"?{spare} & {part(m // 2, spare)} sum {spare} {spare} {target}"
    return part(m, second)


def at_position(k, p, q):
    """Position p is k, for q a letter of its own."""
    return zero(p, q) if k == 0 else f"?{q} & {at_position(k - 1, q, p)} suc {q} {p}"


def later_by(k, p, q, r):
    """Position q is k after p, for k at least 1; r is a letter of its own."""
    return f"suc {p} {q}" if k == 1 else f"?{r} & {later_by(k - 1, p, r, q)} suc {r} {q}"


def adder_claims():
    a, b, c = "sub p A", "sub p B", "sub p C"
    # What stands at p + 1 is said with a set's letter that is bound again.
    a_next, b_next, c_next = "?B & suc p B sub B A", "?A & suc p A sub A B", "?A & suc p A sub A C"
    carry = unlike(unlike(a, b), c)
    carry_next = unlike(unlike(a_next, b_next), c_next)
    out = either(both(a, b), both(either(a, b), carry))
    starts = every("p", implied(zero("p", "A"), f"~{carry}"))
    steps = every("p", alike(carry_next, out))
    yield starts
    yield implied("sum A B C", starts)
    yield steps
    yield either(steps, "~sum A B C")
    yield implied(both(steps, starts), "sum A B C")
    yield implied(steps, "sum A B C")
    yield either(both(steps, starts), "~sum A B C")
    yield both(steps, starts, "~sum A B C")
    yield both(steps, starts, "sum A B C")
    # The carry set C of A + B: it starts at 0 and goes on as the full adder says.
    c_out = either(both(a, b), both(a, c), both(b, c))
    carries = both(every("p", implied(zero("p", "A"), f"~{c}")), every("p", alike(c_next, c_out)))
    yield carries
    yield implied(carries, implied("emp A", "emp C"))
    yield implied(carries, implied(every("p", f"~{both(a, b)}"), "emp C"))
    yield alike(both(carries, "emp C"), both("emp C", every("p", f"~{both(a, b)}")))
    yield implied(both(carries, "sub A B"), implied("sub B A", "sum A A C"))
    yield some("C", carries)
    yield implied(both(carries, "one p"), either(c, f"~{c}"))
    # Half adders.
    yield implied(every("p", f"~{both(a, b)}"), alike("sum A B C", every("p", alike(c, either(a, b)))))
    yield implied("sum A B C", alike(f"~?p {both(a, b)}", every("p", alike(c, either(a, b)))))
    yield implied(both("sum A B C", f"~?p {both(a, b)}"), both("sub A C", "sub B C"))
    yield implied(both("sum A B C", "sub A C", "sub B C"), f"~?p {both(a, b)}")
    yield implied("sum A B C", every("p", implied(zero("p", "A"), alike(c, unlike(a, b)))))
    yield implied("sum A B C", every("p", alike(c, unlike(a, b))))
    yield both("sum A B C", every("p", alike(c, unlike(a, b))))
    yield implied(both("sum A B C", "sub p A", "sub p B"), "~sub p C")
    # Adding a single bit: where the place is empty, it is filled, and nothing else moves.
    yield implied(both("sum A b S", "~sub b A"), "sub A S")
    yield every("b", implied(both("sum A b S", "~sub b A"), "sub A S"))
    yield every("b", implied(both("sum A b S", "~sub b A"), both("sub b S", every("q", implied("~sub q b", alike("sub q A", "sub q S"))))))
    yield every("b", implied(both("sum A b S", "sub b A"), both("~sub b S", every("q", implied("les q b", alike("sub q A", "sub q S"))))))
    yield every("b", implied("sum A b S", alike("sub b A", "sub b S")))


def number_claims():
    yield "?C sum A B C"
    yield "!A!B?C sum A B C"
    yield "?C!A!B sum A B C"
    yield "!A?B!C sum A B C"
    yield "> sum A B C sum B A C"
    yield alike("sum A B C", "sum B A C")
    yield implied(both("sum A B C", "sum A B D"), both("sub C D", "sub D C"))
    yield implied(both("sum A C D", "sum B C D"), both("sub A B", "sub B A"))
    yield both("sum A B C", "sum A B D", "~sub C D")
    yield both("sum A B C", "sum B A D")
    yield both("sum A B C", "sum B C D")
    yield alike(some("D", both("sum A A D", "sum D B C")), some("D", both("sum A B D", "sum A D C")))
    yield alike(some("D", both("sum A B D", "sum D B C")), some("D", both("sum B B D", "sum A D C")))
    yield unlike(some("D", both("sum A A D", "sum D B C")), some("D", both("sum A B D", "sum D B C")))
    # Zero, order, differences, parity.
    yield "> emp B sum A B A"
    yield alike("sum A B A", "emp B")
    yield alike("sum A A A", "emp A")
    yield "& sum A A A ~emp A"
    yield implied(both("sum A B C", "emp C"), both("emp A", "emp B"))
    yield "?B sum A B C"
    yield "?A?B sum A B C"
    yield either("?C sum A C B", "?C sum B C A")
    yield implied(both("?C sum A C B", "?C sum B C A"), both("sub A B", "sub B A"))
    yield implied(both("?D sum A D B", "?D sum B D C"), "?D sum A D C")
    yield implied("sub A B", "?C sum A C B")
    yield implied("?C sum A C B", "sub A B")
    yield both("sub A B", "~?C sum A C B")
    yield "!A?B & sum A A B ~sub B A"
    yield "?A!B?C sum A C B"
    yield "?B!A?C sum A C B"
    yield "!A?B sum A A B"
    yield "!B?A sum A A B"
    yield "?A sum A A B"
    yield either("?A sum A A B", some("A", both("sum A A C", "?p " + both(zero("p", "A"), "sum C p B"))))
    yield every("B", either("?A sum A A B", "?A?p" + both(zero("p", "B"), "sum A A C", "sum C p B")))
    yield alike("?A sum A A B", every("p", implied(zero("p", "A"), "~sub p B")))
    above = some("C", both("one C", "sub C B", "~sub C A", every("p", implied("les C p", alike("sub p A", "sub p B")))))
    yield above
    yield implied(above, "?C sum A C B")
    yield alike(above, both("?C sum A C B", "~?C sum B C A"))
    yield unlike(above, "?C sum A C B")
    # Doubling is a shift.
    shift = both(f"~?p {both('sub p B', zero('p', 'q'))}", every("pq", implied("suc p q", alike("sub p A", "sub q B"))))
    yield shift
    yield alike("sum A A B", shift)
    yield implied("sum A A B", every("p", implied("sub p A", some("q", both("suc p q", "sub q B")))))
    yield implied(every("p", implied("sub p A", some("q", both("suc p q", "sub q B")))), "sum A A B")
    yield both("sum A A B", some("p", both("sub p A", every("q", implied("suc p q", "~sub q B")))))
    yield alike("& one A sum A A B", "suc A B")
    yield every("pq", alike("sum p p q", "suc p q"))
    yield "!p!q > sum p p q les p q"
    yield "!p!q > les p q sum p p q"
    yield "sum p p q"
    yield "& sum A A B sub A B"
    yield "> sum A A B > sub A B emp A"
    yield "~?A?B & & sum A A B sub B A ~emp A"
    yield "?C & sum A A C sum C C B"
    yield alike("?C & sum A A C sum C C B", multiple(4, "A", "B"))
    yield alike("?C & sum A A C suc C B", "?C & suc A C suc C B")
    # Numbers that are multiples, remainders.
    for m in (3, 5, 7, 11, 13, 16, 19, 21, 24, 28, 32, 34, 40):
        yield multiple(m, "A", "B")
    for m in (3, 9, 13, 16):
        yield implied(some("A", multiple(m, "A", "B")), "emp B")
    yield both(some("A", multiple(24, "A", "B")), "~emp B")
    yield alike(multiple(6, "A", "B"), "?S & sum A A S " + multiple(3, "S", "B"))
    yield implied(multiple(3, "A", "B"), multiple(5, "A", "B"))
    yield both(multiple(3, "A", "B"), multiple(5, "A", "B"))
    yield some("A", multiple(3, "A", "B"))
    yield some("A", multiple(5, "A", "B"))
    yield some("A", multiple(9, "A", "B"))
    yield every("B", some("A", multiple(3, "A", "B")))
    yield both(some("A", multiple(3, "A", "B")), some("A", multiple(5, "A", "B")))
    yield both(some("A", multiple(3, "A", "B")), f"~{some('A', multiple(9, 'A', 'B'))}")
    yield implied(some("A", multiple(6, "A", "B")), some("A", multiple(3, "A", "B")))
    yield alike(some("A", multiple(6, "A", "B")), both("?A sum A A B", some("A", multiple(3, "A", "B"))))
    yield implied(some("A", multiple(3, "A", "B")), f"~{some('A', multiple(7, 'A', 'B'))}")


def counter_claims():
    up = plus_one("A", "B", "p", "q")
    yield up
    yield some("B", up)
    yield some("A", up)
    yield every("A", some("B", up))
    yield every("B", some("A", up))
    yield every("B", either("emp B", some("A", up)))
    yield alike(some("A", up), "~emp B")
    yield plus_one("A", "A", "p", "q")
    yield implied(up, "~sub B A")
    yield implied(up, "~sub A B")
    # The counter's gates: the lowest bit that is 0 is set, the ones below it are cleared, and the others stay.
    gates = some("p", both("~sub p A", "sub p B", every("q", both(
        implied("les q p", both("sub q A", "~sub q B")), implied("les p q", alike("sub q A", "sub q B"))))))
    yield gates
    yield alike(up, gates)
    yield implied(gates, up)
    yield both(gates, f"~{up}")
    yield implied(both(up, "sub p A"), "sub p B")
    yield implied(up, every("p", implied(zero("p", "q"), unlike("sub p A", "sub p B"))))
    yield implied(up, every("p", unlike("sub p A", "sub p B")))
    yield both(up, every("p", unlike("sub p A", "sub p B")))
    twice = some("C", both(plus_one("A", "C", "p", "B"), plus_one("C", "B", "p", "A")))
    yield twice
    yield implied(twice, "~emp B")
    yield implied(both(twice, "one A"), "one B")
    # A toggle, a delay line, a latch, one request granted at the next step.
    toggle = every("pq", implied("suc p q", alike("sub q B", unlike("sub p A", "sub p B"))))
    yield toggle
    yield implied(both(toggle, "emp A"), "emp B")
    yield implied(both(toggle, "emp B"), "emp A")
    yield implied(both(toggle, "one A"), "emp B")
    yield both(toggle, "one A")
    yield every("p", implied("sub p A", some("q", both("suc p q", "sub q B"))))
    yield every("p", implied("sub p A", some("q", both("les p q", "sub q B"))))
    yield implied(every("p", implied("sub p A", some("q", both("les p q", "sub q B")))), either("emp A", "~emp B"))
    yield implied(every("p", implied("sub p A", some("q", both("les p q", "sub q B")))), "~emp B")
    yield every("p", implied("sub p A", some("q", both("les p q", "sub q A"))))
    yield alike(every("p", implied("sub p A", some("q", both("les p q", "sub q A")))), "emp A")
    yield every("p", f"~{both('sub p A', 'sub p B')}")
    yield implied(every("p", f"~{both('sub p A', 'sub p B')}"), either("~sub A B", "emp A"))


def order_claims():
    yield "> & les A B les B C les A C"
    yield "!p!q!r > & les p q les q r les p r"
    yield "~les A A"
    yield "!p ~les p p"
    yield "?p les p p"
    yield "~& les A B les B A"
    yield "!p!q | sub p q | les p q les q p"
    yield "| sub p q | les p q les q p"
    yield "| les A B les B A"
    yield "> & one A one B | sub A B | les A B les B A"
    yield "!p?q les p q"
    yield "!p?q les q p"
    yield "?p!q les p q"
    yield "?p!q | sub p q les p q"
    yield "?p!q | sub p q les q p"
    yield "?q!p ~les p q"
    yield "!p!q > les p q ?r & les p r les r q"
    yield "!p!q > les p q | suc p q ?r & les p r les r q"
    yield every("pq", alike("suc p q", "& les p q ~?r & les p r les r q"))
    yield "> suc A B les A B"
    yield "> les A B suc A B"
    yield "& les A B ~suc A B"
    yield "~& suc A B suc B A"
    yield "suc A A"
    yield "!p?q suc p q"
    yield "!q?p suc p q"
    yield "!q | ?p suc p q !p | sub p q les q p"
    yield implied(both("suc A C", "suc B C"), both("sub A B", "sub B A"))
    yield implied(both("suc A B", "suc A C"), both("sub B C", "sub C B"))
    yield implied(both("suc A B", "les B C"), "~suc A C")
    yield both("suc A B", "suc B C", "suc C D")
    yield both("suc A B", "les B C", "suc C D")
    yield implied(both("suc A B", "les A C"), either("sub B C", "les B C"))
    yield implied(both("suc A B", "les A C"), "les B C")
    # What lies before q, by sets that are closed under stepping back; p and q are bound again inside.
    before = "!X > & sub q X !p!q > & suc p q sub q X sub p X sub p X"
    yield before
    yield every("pq", alike(before, either("sub p q", "les p q")))
    yield every("pq", alike(before, "les p q"))
    # Every set has a first and a last member, and stays below some position.
    yield "!A > ~emp A ?p & sub p A !q > sub q A | sub q p les p q"
    yield "!A > ~emp A ?p & sub p A !q > sub q A | sub q p les q p"
    yield "?p!q > sub q A les q p"
    yield "?p!A!q > sub q A les q p"
    yield "!A?p!q > sub q A les q p"
    yield "?A!p sub p A"
    yield "!p?A sub p A"
    yield "?p!A sub p A"
    # Rising by fixed steps.
    for k in (1, 2, 4, 6, 10, 14):
        yield at_position(k, "p", "q")
    for k in (3, 7, 12):
        yield some("p", both(at_position(k, "p", "q"), "sub p A"))
        yield every("p", implied(at_position(k, "p", "q"), "~sub p A"))
    yield every("p", implied(at_position(3, "p", "q"), f"~{at_position(2, 'p', 'q')}"))
    yield some("p", both(at_position(5, "p", "q"), "sub p A", "~sub p B"))
    for k in (2, 5, 9, 14):
        yield later_by(k, "p", "q", "r")
    yield every("pq", implied(later_by(3, "p", "q", "r"), "les p q"))
    yield every("pq", implied("les p q", later_by(2, "p", "q", "r")))
    # Every other position, and sets that keep a distance.
    turns = every("pq", implied("suc p q", unlike("sub p X", "sub q X")))
    yield turns
    yield every("pq", implied(both("les p r", "suc p q"), unlike("sub p X", "sub q X")))
    yield every("pq", implied(both("suc p q", "sub p X"), "~sub q X"))
    even = some("X", both("sub r X", every("pq", implied(both("suc p q", either("sub q r", "les q r")), unlike("sub p X", "sub q X"))),
                          every("p", implied(zero("p", "q"), "sub p X"))))
    yield even
    yield every("r", even)


def set_claims():
    yield "sub A A"
    yield "~sub A A"
    yield "> & sub A B sub B C sub A C"
    yield "> & sub A B sub C B sub A C"
    yield "& & sub A B sub B C ~sub A C"
    yield implied(both("sub A B", "sub B A"), alike("sub C A", "sub C B"))
    yield "> emp A sub A B"
    yield "> sub A B emp A"
    yield alike("emp A", "!B sub A B")
    yield alike("emp A", "~?p sub p A")
    yield unlike("emp A", "?p sub p A")
    yield alike("sub A B", "!p > sub p A sub p B")
    yield alike("sub A B", "?p > sub p A sub p B")
    yield "!A?B & sub A B ~sub B A"
    yield "!A?B & sub B A ~sub A B"
    yield "?A!B sub A B"
    yield "?A!B sub B A"
    yield some("C", both("sub A C", "sub B C", "!D > & sub A D sub B D sub C D"))
    yield some("C", both("sub C A", "sub C B", "!D > & sub D A sub D B sub D C"))
    yield both("sub A C", "sub B C", "!D > & sub A D sub B D sub C D")
    yield "?B!p & | sub p A sub p B ~& sub p A sub p B"
    yield some("C", both("sub C B", every("p", implied("sub p B", unlike("sub p A", "sub p C")))))
    yield "| sub A B sub B A"
    yield "> & one A one B | sub A B ~sub B A"
    yield "> & & one A one B sub A B sub B A"
    yield "?C & & sub A C sub C B & ~sub C A ~sub B C"
    # One and empty.
    yield "& one A emp A"
    yield "~& one A emp A"
    yield "| one A emp A"
    yield "?A & one A emp A"
    yield "!A | emp A ?p sub p A"
    yield "> & sub A B one B | emp A one A"
    yield "> & sub A B one B one A"
    yield alike("one A", both("~emp A", "!B > sub B A | emp B sub A B"))
    yield alike("one A", "?p & sub p A sub A p")
    yield alike("one A", "?B suc A B")
    yield unlike("one A", "?B suc B A")
    yield "one p"
    yield "emp p"
    yield "~one p"
    yield "~emp p"
    yield "& ~emp p one p"
    yield "!p one p"
    yield "?p emp p"
    yield "| emp p emp q"
    yield "!p!q?A & sub p A sub q A"
    yield "?A!p!q > & sub p A sub q A sub p q"
    yield "!p!q > & sub p A sub q A sub p q"
    yield alike("| emp A one A", "!p!q > & sub p A sub q A sub p q")
    yield some("pq", both("les p q", "sub p A", "sub q A", every("r", implied("sub r A", either("sub r p", "sub r q")))))
    yield both("one A", "one B", "one C", "one D")
    yield either("one A", "one B", "one C", "emp D")
    yield both("one A", "one B", "les A B", "sub A C", "sub B C")
    yield both("sub A B", "sub B C", "sub C D")
    yield both("sub A B", "~sub B A", "sub B C", "~sub C B")


def letter_claims():
    """Letters bound twice, bound and free, both kinds of one letter, letters of names, bound letters that do not appear."""
    yield "& sub A B ?A one A"
    yield "& ?A one A sub A B"
    yield "?A & one A ?A emp A"
    yield "?A&one A?A emp A"
    yield "!A?A one A"
    yield "?A!A one A"
    yield "?p & sub p A ?p & sub p B ?p & sub p C ~sub p A"
    yield "& sub p A ?p ~sub p A"
    yield "& ~sub p A ?p sub p A"
    yield "?p ~sub p A"
    yield "> sub p A ?p sub p A"
    yield "& ?p sub p A !p > sub p A sub p B"
    yield "& !A sub A A les p A"
    yield "!p > les p q ?q & suc p q sub q A"
    yield "| suc A B ?B suc B A"
    yield "& suc A B & !A | emp A ~emp A sub A A"
    yield "?a & sub a A sub A a"
    yield "sub a A"
    yield "sub A a"
    yield "> sub A a | emp A sub a A"
    yield "& les a b les B A"
    yield "sum A a B"
    yield "sum a b c"
    yield "sum a b B"
    yield "!a!b?B sum a b B"
    yield "& sum a b c ~sub a b"
    yield "!a!b!c > sum a b c sub a b"
    yield "sub s u"
    yield "?o one o"
    yield "!e emp e"
    yield "?m?u?s sum s u m"
    yield "?S!U?M sum S U M"
    yield "suc u c"
    yield "sub Z z"
    yield "& sub z Y les y z"
    yield "?A emp B"
    yield "!p emp A"
    yield "?p?q emp A"
    yield "?X?x!Y!y emp Y"
    yield "& emp A ?B?c one B"


def edge_claims():
    """Texts at the limits, and odd spacing."""
    yield "~" * NESTING + "one A"
    yield "~" * (NESTING - 1) + "one A"
    yield "?A" * NESTING + " one A"
    yield "& one A " * (DEPTH - 1) + "one A"
    yield "& one A & one B & one C & one D & sub A B & les C D & sub E E one D".replace("E", "A")
    yield "| emp A | suc A B | les B C | emp C | emp A | sum A B C | les C A one B"
    # Met is 64, by either and by hide.
    yield "| | | | suc A C sum D A C les D B sum A C C suc B C"
    yield "| | | | sum A A D sub A B suc A B sum D C B suc D C"
    yield "| | | | les C D sum B D C sum A A D sum D C A sub D A"
    yield "?B | | | | ~sub C C suc A B les A B sum D C B suc B C"
    yield "?A & & & & sub B B ~sum C D A ~sum D D D ~sum A A B ~sum A C D"
    yield "?p " + "& one A " * (DEPTH - 2) + "sub p A"
    yield "!A" * 10 + "?b" * 10 + "| sub A b emp A"
    yield "sub" + " " * 500 + "A" + " " * (TEXT - 505) + "B"
    yield " " * (TEXT - 5) + "one A"
    yield "   &   sub  A   B   ~   sub     B  A"
    yield "&sub A B~sub B A"
    yield "& sub A B~sub B A"
    yield "?X!p sub p X"
    yield " ?  X ! p   sub p X"
    yield "!p?X sub p X"
    yield "! p ? X sub p X"
    yield ">&sub A B sub B C sub A C"
    yield "|~one A|one A>emp A one A"


def turned_claims():
    """Claims that the order of the sets decides, with letters in another order than the alphabet's, bound ones among them."""
    yield from ("suc B A", "les B A", "sub B A", "suc q p", "les q p", "sub X p", "sum C B A", "sum C A B", "sum B C A", "suc p B",
                "les B p", "suc b A", "sum b A a")
    for order in ("BA", "CAB", "BCA", "CBA", "BAC", "DCBA", "CADB", "BDAC", "DACB", "qp", "rpq", "qrp", "Bp", "pBA", "BqA", "ZpYq"):
        pairs = list(itertools.pairwise(order))
        yield both(*(f"suc {first} {second}" for first, second in pairs))
        yield both(*(f"les {first} {second}" for first, second in pairs))
        yield f"~{both(*(f'suc {first} {second}' for first, second in pairs))}"
        yield implied(both(*(f"les {first} {second}" for first, second in pairs)), f"suc {order[0]} {order[-1]}")
        yield implied(f"les {order[0]} {order[-1]}", both(*(f"suc {first} {second}" for first, second in pairs)))
    for low, middle, high in itertools.permutations("ABX"):
        yield f"?{middle} & suc {low} {middle} suc {middle} {high}"
        yield f"?{middle} & les {low} {middle} les {middle} {high}"
        yield f"& one {low} ?{middle} & suc {high} {middle} les {middle} {low}"
        yield implied(f"les {low} {high}", f"?{middle} & les {low} {middle} les {middle} {high}")
        yield f"& sub {high} {low} ?{middle} & ~emp {middle} & sub {middle} {high} ~sub {low} {middle}"
        yield f"& ~emp {high} sum {low} {middle} {high}"
        yield f"& & ~emp {low} ~sub {low} {high} sum {high} {middle} {low}"
    for low, middle, high in itertools.permutations("pqr"):
        yield f"?{middle} & suc {low} {middle} suc {middle} {high}"
        yield f"& les {high} {low} ~?{middle} & les {high} {middle} les {middle} {low}"
        yield f"& sub {high} A ?{middle} & suc {high} {middle} & suc {middle} {low} ~sub {low} A"
    for first, second in ("BA", "ZY", "YB"):
        for m in (3, 5, 6, 11):
            yield both(f"~emp {second}", multiple(m, first, second))
        yield implied(multiple(3, second, first), f"sub {first} {second}")
        yield plus_one(first, second, "p", "q")
        yield implied("one " + first, f"~{plus_one(first, second, 'p', 'q')}")
    for k in (2, 3, 5):
        yield later_by(k, "q", "p", "r")
        yield later_by(k, "r", "p", "q")
        yield both(later_by(k, "q", "p", "r"), "sub p A")
        yield implied(later_by(k, "q", "p", "r"), "sub p A")
    # A letter that is bound first, or stands free first and bound later.
    yield from (
        "& ?X one X suc B A", "& ?B suc B A suc C B", "& suc C A ?C suc A C", "| ?A suc A B ?B suc B A",
        "& ?Z sub Z Y & suc Y X suc X Z", "!Y | emp Y ?B & suc Y B sub B A", "& !q | les p q sub q p suc q p",
        "?q & suc q B !A > sub A B sub A C", "& sub B C & !D > suc D B sub D A ~emp B", "> ?X & suc X B sub X A les A B",
        "& ?p suc p X & ?p suc X p sub Y X", "& suc D A & ?B suc B D ?C suc A C", "& ?C les C B & ?A les B A sub D B",
        "> & suc Y X les X A les Y A", "& & suc Y B ~sub A Y sub A B", "& les q r & sub r B ~?p & les q p les p r",
        "> & sub B A one A suc B C", "& & sub q Y sub p X suc q p")


# ---- Texts by rule and by chance ----

def placed_claims():
    """Each predicate with each choice of equal and different letters, of both kinds."""
    for name, places in PLACES.items():
        for pattern in itertools.product(range(places), repeat=places):
            if all(each <= max(pattern[:at], default=-1) + 1 for at, each in enumerate(pattern)):
                for kinds in itertools.product((str.upper, str.lower), repeat=max(pattern) + 1):
                    yield f"{name} {' '.join(kinds[each]('abc'[each]) for each in pattern)}"


def grown(rng, pool, size):
    if size < 2:
        name = rng.choices(list(PLACES), (4, 2, 3, 3, 4, 1))[0]
        return Placed(name, "".join(rng.choice(pool) for _ in range(PLACES[name])))
    match rng.choices("~&|>?!", (3, 6, 4, 4, 4, 4))[0]:
        case "~":
            return Negated(grown(rng, pool, size - 1))
        case "&" | "|" | ">" as mark:
            left = rng.randint(1, max(1, size - 2))
            return Joined(mark, grown(rng, pool, left), grown(rng, pool, size - 1 - left))
        case mark:
            return Bound(mark, rng.choice(pool), grown(rng, pool, size - 1))


def chance_formula(rng, sizes=(2, 14)):
    pool = rng.sample("ABCXYZabcpqr", rng.randint(1, SETS))
    formula = grown(rng, pool, rng.randint(*sizes))
    share = rng.choice((0, 0, 0.5, 1))
    for letter in sorted(free_in(formula)):
        if rng.random() < share:
            formula = Bound(rng.choice("?!"), letter, formula)
    return formula


def turned_formula(rng):
    """A few predicates whose places differ, joined, over letters in any order."""
    pool = rng.sample(rng.choice(("ABCD", "WXYZ", "pqrs", "ABpq", "AXYp")), rng.randint(2, 4))
    parts = []
    for _ in range(rng.randint(2, 4)):
        name = rng.choice(("suc", "suc", "les", "les", "sub", "sum"))
        part = Placed(name, "".join(rng.sample(pool, 2)) if name != "sum" else "".join(rng.choices(pool, k=3)))
        part = Negated(part) if rng.random() < 0.15 else part
        parts.append(Bound(rng.choice("??!"), rng.choice(pool), part) if rng.random() < 0.25 else part)
    whole = functools.reduce(lambda f, g: Joined(rng.choice("&&&|>"), f, g), parts)
    return Negated(whole) if rng.random() < 0.2 else whole


def restated(rng, formula):
    """The same claim in other words."""
    def again(part):
        return restated(rng, part)
    match formula:
        case Placed("sum", letters) if rng.random() < 0.5:
            return Placed("sum", letters[1] + letters[0] + letters[2])
        case Placed():
            return formula if rng.random() < 0.7 else Negated(Negated(formula))
        case Negated(Joined("&", left, right)):
            return Joined("|", again(Negated(left)), again(Negated(right)))
        case Negated(Joined("|", left, right)):
            return Joined("&", again(Negated(left)), again(Negated(right)))
        case Negated(Joined(">", left, right)):
            return Joined("&", again(left), again(Negated(right)))
        case Negated(Bound(mark, letter, part)):
            return Bound("!" if mark == "?" else "?", letter, again(Negated(part)))
        case Negated(Negated(part)):
            return again(part)
        case Negated(part):
            return Negated(again(part))
        case Joined(">", left, right):
            return Joined("|", again(Negated(left)), again(right)) if rng.random() < 0.6 else Joined(">", again(Negated(right)), again(Negated(left)))
        case Joined(mark, left, right):
            return Joined(mark, again(right), again(left))
        case Bound(mark, letter, part):
            return Negated(Bound("!" if mark == "?" else "?",
                                 letter, again(Negated(part)))) if rng.random() < 0.6 else Bound(mark, letter, again(part))


def restated_formula(rng):
    formula = chance_formula(rng, (2, 8))
    other = restated(rng, formula)
    claim = rng.choice((Joined(">", formula, other), Joined(">", other, formula), Joined("|", formula, Negated(other)),
                        Joined("&", Joined(">", formula, other), Joined(">", other, formula))))
    return Negated(claim) if rng.random() < 0.35 else claim


def spaced(rng, formula):
    """The text of a formula with blanks by chance, as few as may be, or one between all tokens."""
    least, most = rng.choice(((0, 0), (1, 1), (1, 1), (0, 1), (0, 4)))
    tokens = spelt(formula)
    text = " " * (rng.randint(0, most) if most == 4 else 0) + tokens[0]
    for before, after in itertools.pairwise(tokens):
        blanks = rng.randint(least, most)
        if before.isalpha() and after.isalpha():
            blanks = max(1, blanks)
        text += " " * blanks + after
    return text


# ---- Choosing and asking ----

class Case(typing.NamedTuple):
    """A claim with its line in stdin, and what the script's own Tray finds."""
    group: str
    line: str
    text: str
    tray: Tray
    own: Answer


def case_of_input(group, given):
    """The case of a whole input of `decide`, or raises Refused."""
    tray = build(given)
    text = " ".join(tokens_of(asked(given)[3].decode()))
    return Case(group, line_of_input(given), text, tray, answer(tray.table))


def line_of_input(given):
    """`input`, and the bytes with those that cannot stand in a line by `%` and two hexadecimal digits."""
    return f"input {urllib.parse.quote_from_bytes(given, safe=PRINTED)}"


PRINTED = "".join(map(chr, range(32, 127))).replace("%", "")


class Chosen:
    def __init__(self):
        self.cases = []
        self.said = set()
        self.left_out = []

    def tried(self, group, text):
        """The case of this text, unless it is over a limit."""
        sets = len(letters_of(text))
        try:
            tray = build(question(sets, BUDGET, DEPTH, text))
        except Refused:
            self.left_out.append((group, text))
            return None
        return Case(group, f"{sets} {text}", text, tray, answer(tray.table))

    def add(self, case, apart=False):
        """Adds a case; apart says that other blanks make another case."""
        same = case.text if apart else " ".join(tokens_of(case.text))
        if same in self.said:
            return False
        self.said.add(same)
        self.cases.append(case)
        return True

    def by_hand(self, group, texts, apart=False):
        for text in texts:
            if case := self.tried(group, text):
                self.add(case, apart)

    def by_chance(self, group, make, quotas, key):
        """Adds cases until each key has its quota."""
        rng = random.Random(f"{SEED} {group}")
        due = dict(quotas)
        for _ in range(100_000):
            if not any(due.values()):
                return
            formula = make(rng)
            if sum(isinstance(part, Placed) for part in parts_of(formula)) > 16:
                continue
            case = self.tried(group, spaced(rng, formula))
            if case and due.get(key(case), 0) and self.add(case):
                due[key(case)] -= 1
        sys.exit(f"{group}: still due {due}")


def plain_key(case):
    trivial = case.own.states == 1 and max(case.tray.mets) < 3
    return None if trivial else (case.own.verdict, len(case.tray.letters))


def length(word):
    return len(word or ())


def turned_answer(case):
    """The answer if the letters had their sets in the alphabet's order."""
    letters = sorted(case.tray.letters)
    places = [letters.index(letter) for letter in case.tray.letters]
    columns = [sum((column >> at & 1) << bit for bit, at in enumerate(places)) for column in range(2 ** len(letters))]
    rows, accepts = case.tray.table
    return answer(Automaton([[row[column] for column in columns] for row in rows], accepts))


def turned_key(case):
    """The length of the longer word, up to 4, and the letters, where their order changes the answer."""
    if turned_answer(case) == case.own:
        return None
    return min(4, max(length(case.own.witness), length(case.own.counter))), len(case.tray.letters)


def rich_key(case):
    large = case.own.states >= 8 or length(case.own.witness) >= 3 or length(case.own.counter) >= 2
    return len(case.tray.letters) if case.own.verdict == "some" and large else None


def wide_key(case):
    return case.own.verdict if max(case.tray.mets) >= 24 else None


def deep_key(case):
    return case.own.verdict if alternation(read(case.text)) >= 2 and max(case.tray.mets) >= 4 else None


def restated_key(case):
    return case.own.verdict if max(case.tray.mets) >= 5 else None


def many_key(case):
    return case.own.verdict if case.own.states >= 17 else None


def chosen_cases():
    chosen = Chosen()
    chosen.by_hand("examples", EXAMPLES)
    chosen.by_hand("places", placed_claims())
    chosen.by_hand("adders", adder_claims())
    chosen.by_hand("numbers", number_claims())
    chosen.by_hand("counters", counter_claims())
    chosen.by_hand("order", order_claims())
    chosen.by_hand("sets", set_claims())
    chosen.by_hand("letters", letter_claims())
    chosen.by_hand("edges", edge_claims(), apart=True)
    chosen.by_hand("turned", turned_claims())
    hand_left_out = [*chosen.left_out]
    chosen.by_chance("plain", chance_formula, {
        **{("none", n): 10 for n in range(1, 5)}, **{("all", n): 8 for n in range(1, 5)}, **{("some", n): 14 for n in range(1, 5)}}, plain_key)
    chosen.by_chance("rich", chance_formula, {2: 15, 3: 25, 4: 25}, rich_key)
    chosen.by_chance("many", lambda rng: chance_formula(rng, (4, 14)), {"some": 20}, many_key)
    chosen.by_chance("wide", lambda rng: chance_formula(rng, (8, 20)), {"none": 10, "some": 25, "all": 10}, wide_key)
    chosen.by_chance("deep", lambda rng: chance_formula(rng, (6, 16)), {"none": 15, "some": 20, "all": 15}, deep_key)
    chosen.by_chance("restated", restated_formula, {"none": 25, "some": 10, "all": 30}, restated_key)
    chosen.by_chance("turned", turned_formula, {
        **{(1, n): 8 for n in (2, 3, 4)}, (2, 2): 8, **{(2, n): 20 for n in (3, 4)}, **{(3, n): 15 for n in (3, 4)},
        **{(4, n): 6 for n in (3, 4)}}, turned_key)
    return chosen.cases, hand_left_out


def is_later_example(automaton, accepting, word, example):
    """Whether both are absent, or the example is another shortest word that ends so, or the same one."""
    if word is None or example is None:
        return word is example
    return len(example) == len(word) and example >= word and ends_accepting(automaton, example) == accepting


def compared(case):
    """MONA's answer, and what is odd about it."""
    found = mona(case.text)
    said = answer(found.automaton)
    odd = []
    if said != case.own:
        odd.append(f"here {case.own.line()}, MONA {said.line()}")
    if smallest(found.automaton) != case.tray.table:
        odd.append("tables differ")
    for accepting, word, example in ((True, said.witness, found.witness), (False, said.counter, found.counter)):
        tried = first_by_trial(found.automaton, accepting)
        if tried is not None and tried != word:
            odd.append(f"{shown(word)} is not the earliest word, as {shown(tried)} is earlier")
        if not is_later_example(found.automaton, accepting, word, example):
            odd.append(f"{shown(word)} does not fit MONA's own example {shown(example)}")
    if not closed_at_the_end(found.automaton):
        odd.append("columns 0 at the end change MONA's answer")
    return found, said, odd


# ---- The account ----

def alternation(formula, kind=None, positive=True):
    """How often quantifiers change their kind on the way inwards, with negations counted."""
    match formula:
        case Placed():
            return 0
        case Negated(part):
            return alternation(part, kind, not positive)
        case Joined(mark, left, right):
            return max(alternation(left, kind, positive != (mark == ">")), alternation(right, kind, positive))
        case Bound(mark, _, part):
            own = (mark == "?") == positive
            return (kind is not None and own != kind) + alternation(part, own, positive)


def bound_inside(formula, bound=frozenset()):
    """Whether a letter is bound inside a quantifier of the same letter."""
    match formula:
        case Placed():
            return False
        case Negated(part):
            return bound_inside(part, bound)
        case Joined(_, left, right):
            return bound_inside(left, bound) or bound_inside(right, bound)
        case Bound(_, letter, part):
            return letter in bound or bound_inside(part, bound | {letter})


def features(case):
    formula, text = read(case.text), case.text
    tokens = tokens_of(text)
    binders = [part.letter for part in parts_of(formula) if isinstance(part, Bound)]
    free = free_in(formula)
    yield from (f"mark {mark}" for mark in "~&|>?!" if mark in tokens)
    yield from (f"predicate {name}" for name in PLACES if name in tokens)
    yield f"{len(case.tray.letters)} letters"
    if any(letter.islower() for letter in free):
        yield "free positions"
    if any(letter.isupper() for letter in free):
        yield "free sets"
    if any(letter.islower() for letter in binders):
        yield "bound positions"
    if any(letter.isupper() for letter in binders):
        yield "bound sets"
    if not free:
        yield "nothing free"
    if bound_inside(formula):
        yield "a letter bound inside its own quantifier"
    if len(set(binders)) < len(binders):
        yield "a letter bound twice"
    if free & set(binders):
        yield "a letter bound and free"
    if any(letter.upper() in tokens and letter in tokens for letter in "abcdefghijklmnopqrstuvwxyz"):
        yield "a letter in both cases"
    if any(len(set(part.letters)) < len(part.letters) for part in parts_of(formula) if isinstance(part, Placed)):
        yield "a letter twice in one predicate"
    yield f"alternations {min(alternation(formula), 3)}{'+' if alternation(formula) >= 3 else ''}"
    if re.search(r"^ |  ", text):
        yield "several blanks, or blanks first"
    if re.search(r"[~&|>?!]\S|[A-Za-z][~&|>?!]", text):
        yield "no blank beside a mark"


def spread(title, numbers, steps):
    bounds = [*steps, math.inf]
    counts = [sum(low <= number < high for number in numbers) for low, high in itertools.pairwise(bounds)]
    names = [f"{low}" if high == low + 1 else f"{low}+" if high == math.inf else f"{low}-{high - 1}" for low, high in itertools.pairwise(bounds)]
    print(f"{title}: " + ", ".join(f"{name}: {count}" for name, count in zip(names, counts)) + f"; most {max(numbers)}")


def account(cases, answers, found, hand_left_out):
    print(f"{len(cases)} cases, {mona_version()}")
    for title, counted in (("groups", [case.group for case in cases]), ("verdicts", [said.verdict for said in answers])):
        print(f"{title}: " + ", ".join(f"{name} {count}" for name, count in collections.Counter(counted).items()))
    counts = collections.Counter(feature for case in cases for feature in features(case))
    for feature in sorted(counts):
        print(f"  {feature}: {counts[feature]}")
    spread("states", [said.states for said in answers], (1, 2, 3, 5, 9, 17, 33))
    spread("witness", [len(said.witness) for said in answers if said.witness is not None], (0, 1, 2, 3, 5, 9))
    spread("counterexample", [len(said.counter) for said in answers if said.counter is not None], (0, 1, 2, 3, 5, 9))
    spread("met", [max(case.tray.mets) for case in cases], (1, 5, 9, 17, 33, 49, 57))
    spread("tables", [case.tray.highest for case in cases], (1, 2, 3, 5, 7, 8))
    spread("nesting", [nesting(read(case.text)) for case in cases], (0, 1, 3, 6, 11, 21, 32))
    spread("bytes of text", [len(case.text) for case in cases], (5, 21, 51, 101, 201, 501))
    print(f"MONA's automata that had states to merge: {sum(said.states != len(each.automaton.rows) for said, each in zip(answers, found))}")
    print(f"MONA's automata with don't-care states after the first: {sum(each.restricted > 0 for each in found)}")
    print(f"cases whose answer the alphabet's order of letters would change: {sum(turned_answer(case) != case.own for case in cases)}")
    print(f"texts by hand over a limit, left out: {len(hand_left_out)}")
    for group, text in hand_left_out:
        print(f"  {group}: {len(text)} bytes: {text[:150]}")


def bench_cases(cases, many=36, largest=6):
    """Cases of rising cost: those with the most states, and others at even steps of the cost's logarithm, cheapest to dearest."""
    fit = [case for case in cases if case.group not in ("letters", "plain", "deep", "restated", "turned")]
    rising = sorted({" ".join(tokens_of(case.text)): case for case in fit}.values(), key=lambda case: (case.tray.cost(), case.text))
    low, high = math.log(rising[0].tray.cost()), math.log(rising[-1].tray.cost())
    many -= largest
    taken = {case.text: case for case in sorted(rising, key=lambda case: (-case.own.states, case.text))[:largest]}
    for step in range(many):
        wanted = low + (high - low) * step / (many - 1)
        free = [case for case in rising if case.text not in taken]
        best = min(free, key=lambda case: (abs(math.log(case.tray.cost()) - wanted), case.text))
        taken[best.text] = best
    return sorted(taken.values(), key=lambda case: (case.tray.cost(), case.text))


def write_bench(folder, cases):
    (folder / "mona").mkdir(parents=True, exist_ok=True)
    lines = []
    for number, case in enumerate(bench_cases(cases), 1):
        text = " ".join(tokens_of(case.text))
        lines.append(f"{len(case.tray.letters)} {text}\n")
        (folder / "mona" / f"{number:03}.mona").write_text(f"# {text}\n{mona_source(text)}")
    (folder / "formulas.txt").write_text("".join(lines))


def account_of_faults(expected):
    refused = [said for said in expected if isinstance(said, Refused)]
    counts = collections.Counter(said.number for said in refused)
    print(f"{len(expected)} whole inputs, {len(refused)} refused: " + ", ".join(f"{number}: {counts[number]}" for number in sorted(counts)))
    spread("places", [said.place for said in refused], (0, 1, 2, 5, 9, 17, 33, 65, 129, 257, 513, 1025))


def main():
    arguments = argparse.ArgumentParser(description="Makes the cases that are compared with MONA and with the rules.")
    arguments.add_argument("folder", type=pathlib.Path, help="gets stdin and stdout")
    arguments.add_argument("--bench", type=pathlib.Path, help="gets formulas.txt and mona/")
    given = arguments.parse_args()
    if not shutil.which("mona"):
        sys.exit("mona is not installed (apt-get install mona)")
    claims, hand_left_out = chosen_cases()
    cases, lines, expected = [*claims], [case.line for case in claims], [*claims]
    for group, asked_for in inputs(SEED, [case.text.encode() for case in claims]):
        lines.append(line_of_input(asked_for))
        try:
            cases.append(case_of_input(group, asked_for))
            expected.append(cases[-1])
        except Refused as fault:
            expected.append(fault)
    answers, found, differences = {}, [], 0
    for case in cases:
        each, answers[case.line], odd = compared(case)
        found.append(each)
        differences += bool(odd)
        for what in odd:
            print(f"DIFFERENCE {case.text}: {what}")
    values = [each.line() if isinstance(each, Refused) else answers[each.line].line() for each in expected]
    given.folder.mkdir(parents=True, exist_ok=True)
    (given.folder / "stdin").write_text("".join(f"{line}\n" for line in lines))
    (given.folder / "stdout").write_text("".join(f"{line}\n" for line in values))
    if given.bench:
        write_bench(given.bench, claims)
    account(cases, [answers[case.line] for case in cases], found, hand_left_out)
    account_of_faults(expected[len(claims):])
    print(f"differences: {differences}")
    sys.exit(differences > 0)


if __name__ == "__main__":
    main()
