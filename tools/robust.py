#!/usr/bin/env python3
"""Feeds odd inputs to the built program `decide`, and counts wrong answers, crashes and hangs. Usage, at the top:

    python3 tools/robust.py crates/decide/out/decide [COUNT] [--seed N] [--seconds N]

First come fixed inputs with the answers that are owed to them, some of which have no end. Any other input is bytes at random,
or a right question whose bytes were changed, cut off, repeated or doubled, whose numbers are at the limits and past them, or
whose text is long or deeply nested. A crash is any exit status but 0 and anything on standard error. A wrong answer is any
output but the two lines that the rules owe to the input, as tools/rules.py works them out. A hang is a run of more than so many
seconds. Exit status 1 says that there was one of these. The same seed makes the same inputs."""
import argparse
import collections
import pathlib
import random
import subprocess
import sys
import threading

sys.dont_write_bytecode = True
from rules import HEADING, MARKS, owed  # noqa: E402

PLACES = {b"sub": 2, b"one": 1, b"suc": 2, b"les": 2, b"sum": 3, b"emp": 1}
NAMES = [*PLACES, b"abc", b"zzz", b"onE", b"oneA", b"on"]
BYTES_OF_TEXTS = MARKS + b" \n\0\t\r,.-0189AZaz\x7f\x80\xff"

# Numbers at the limits and past them, and what is no number.
SETS = [b"0", b"1", b"2", b"3", b"4", b"5", b"6", b"7", b"8", b"9"]
BUDGETS = [b"0", b"1", b"2", b"3", b"8", b"32", b"63", b"64", b"65", b"256", b"511", b"512", b"513"]
DEPTHS = [b"0", b"1", b"2", b"3", b"7", b"8", b"9", b"15", b"16", b"17"]
ODD = [b"", b"00", b"01", b"+1", b"-1", b" 1", b"1 ", b"1.0", b"1e3", b"0x4", b"four", b"65535", b"65536", b"99999",
       b"4294967296", b"4294967300", b"18446744073709551616", b"18446744073709551620", b"9" * 40, b"\xc2\xb2", b"4\r"]


# ---- Inputs ----

def right_questions():
    """The claims of the program `cases`, as questions."""
    path = pathlib.Path(__file__).parent.parent / "crates" / "cases" / "stdin"
    lines = [line.split(b" ", 1) for line in path.read_bytes().splitlines()]
    return [question(sets, b"64", b"8", text) for sets, text in lines if sets.isdigit()]


def question(sets, budget, depth, text):
    return HEADING + b"%b %b %b\n" % (sets, budget, depth) + text


def limits(rng):
    """Three values, mostly right ones."""
    if rng.random() < 0.5:
        return b"4", b"64", b"8"
    return (rng.choice(values if rng.random() < 0.93 else ODD) for values in (SETS, BUDGETS, DEPTHS))


def formula(rng, size, letters):
    """Tokens of a formula over these letters, with a wrong one now and then."""
    if rng.random() < 0.005:
        return [rng.choice([*NAMES, b"~", b"&", b"?", b"A", b"p", b""])]
    if size < 2:
        name = rng.choice(list(PLACES))
        return [name, *(bytes([rng.choice(letters)]) for _ in range(PLACES[name]))]
    mark = bytes([rng.choice(MARKS)])
    if mark == b"~":
        return [mark, *formula(rng, size - 1, letters)]
    if mark in b"?!":
        return [mark, bytes([rng.choice(letters)]), *formula(rng, size - 1, letters)]
    left = rng.randint(1, size - 1)
    return [mark, *formula(rng, left, letters), *formula(rng, size - left, letters)]


def at_random(rng, _):
    many = rng.choice((0, 1, 2, 10, 18, 19, 30, 100, 1000, 2000))
    return bytes(rng.choices(range(256) if rng.random() < 0.5 else HEADING + BYTES_OF_TEXTS, k=many))


def heading_and_bytes(rng, _):
    return question(*limits(rng), bytes(rng.choices(range(256) if rng.random() < 0.3 else BYTES_OF_TEXTS, k=rng.randint(0, 60))))


def tokens_in_any_order(rng, _):
    tokens = [*NAMES, *(bytes([mark]) for mark in MARKS), *(bytes([letter]) for letter in b"ABCDEpqrxy")]
    return question(*limits(rng), rng.choice((b" ", b"\n", b"  ")).join(rng.choices(tokens, k=rng.randint(0, 120))))


def formulas(rng, _):
    letters = rng.sample(b"ABCDpqrx", rng.choice((1, 2, 3, 4, 4, 5)))
    return question(*limits(rng), b" ".join(formula(rng, rng.randint(1, 40), letters)))


def right_with_other_limits(rng, right):
    text = rng.choice(right).split(b"\n", 2)[2]
    return question(*limits(rng), text)


def changed(rng, right):
    """A right question with some bytes flipped, inserted, deleted, repeated, moved or cut off, often in its text alone."""
    given = bytearray(rng.choice(right))
    first = given.index(b"\n", len(HEADING)) + 1 if rng.random() < 0.7 else 0
    for _ in range(rng.choice((1, 1, 1, 2, 3, 8, 30))):
        at = rng.randint(min(first, len(given)), len(given))
        end = min(len(given), at + rng.choice((1, 2, 5, 20, 200)))
        match rng.randrange(7):
            case 0 if at < len(given):
                given[at] ^= 1 << rng.randrange(8)
            case 1:
                given[at:at] = bytes([rng.choice(BYTES_OF_TEXTS) if rng.random() < 0.7 else rng.randrange(256)])
            case 2:
                del given[at:end]
            case 3:
                given[at:at] = given[at:end] * rng.choice((1, 1, 2, 40))
            case 4:
                moved = given[at:end]
                del given[at:end]
                to = rng.randint(min(first, len(given)), len(given))
                given[to:to] = moved
            case 5 if at < len(given):
                given[at] = rng.choice(BYTES_OF_TEXTS)
            case 6 if rng.random() < 0.3:
                del given[at:]
    return bytes(given[:4000])


def cut_off(rng, right):
    given = rng.choice(right)
    lines = given.split(b"\n")
    match rng.randrange(4):
        case 0:
            return given[:rng.randint(0, len(given))]
        case 1:
            return given[rng.randint(0, len(given)):]
        case 2:
            del lines[rng.randrange(len(lines))]
        case 3:
            lines[rng.randrange(2)] = lines[rng.randrange(2)][:rng.randint(0, 17)]
    return b"\n".join(lines)


def two_as_one(rng, right):
    return rng.choice(right) + rng.choice((b"", b"\n", b" ")) + rng.choice(right)


def long_text(rng, right):
    """A text of up to 2,000 bytes, often next to the longest that is read."""
    many = rng.choice((1000, 1022, 1023, 1024, 1025, 1026, 1500, 2000, rng.randint(0, 2000)))
    part = rng.choice((b" ", b"\n", b"~", b"A", b"a", b"& one A ", b"?A", b"!p", b"| sub A B ", b"> emp A ", b"sum A B C ", b"\0",
                       rng.choice(right).split(b"\n", 2)[2] + b" "))
    last = rng.choice((b"", b"one A", b" one A", b" sub A B", b"&", b"?"))
    text = (part * many)[:max(0, many - len(last))] + last
    return question(*limits(rng), text)


def deep(rng, _):
    """Formulas inside so many others, next to the limit of 32 and far past it."""
    many = rng.choice((1, 7, 8, 16, 31, 32, 33, 34, 100, 300, 500))
    text = rng.choice((
        b"~" * many + b"one A",
        b"?A" * many + b" one A",
        b"!p" * many + b" sub p A",
        b"?p!A" * (many // 2) + b" sub p A",
        b"& one A " * many + b"one A",
        b"|" * many + b" one A" * (many + 1),
        b">" * many + b" sub A B" * (many + 1),
        b"&~" * (many // 2) + b" emp B" * (many // 2 + 1),
        b"|?B!A" * (many // 3) + b" sum A B C" * (many // 3 + 1)))
    return question(*limits(rng), text)


KINDS = {at_random: 2, heading_and_bytes: 2, tokens_in_any_order: 2, formulas: 4, right_with_other_limits: 3, changed: 8, cut_off: 2,
         two_as_one: 1, long_text: 3, deep: 3}


# ---- Fixed inputs ----

# Next to the longest text, and around the lines: what is owed was worked out by hand.
FIXED = [
    (question(b"2", b"8", b"4", b"sub A B".ljust(1024)), "some 2 . 1"),
    (question(b"2", b"8", b"4", b"sub A B".ljust(1025)), "9 1 0"),
    (question(b"2", b"8", b"4", b"sub A B".ljust(1100)), "9 1 0"),
    (question(b"2", b"8", b"4", b"sub A B".rjust(1024)), "some 2 . 1"),
    (question(b"2", b"8", b"4", b"sub A B".rjust(1025)), "9 1 0"),
    (question(b"2", b"8", b"4", b"sub A B\n" * 100_000), "9 1 0"),
    (question(b"02", b"8", b"4", b"sub A B".ljust(1025)), "17 1 0"),
    (question(b"9", b"8", b"4", b"sub A B".ljust(1025)), "1 3 0"),
    (question(b"2", b"8", b"4", b"sub A\r B"), "10 1 5"),
    (question(b"2", b"8", b"4\r", b"sub A B"), "17 1 0"),
    (HEADING[:-1], "16 1 0"),
    (HEADING, "17 1 0"),
    (b"", "16 1 0"),
]

# The second bytes follow the first without end.
ENDLESS = [
    (b"", b"y\n", "16 1 0"),
    (HEADING, b"1", "17 1 0"),
    (question(b"2", b"8", b"4", b"sub A B"), b" ", "9 1 0"),
    (question(b"2", b"8", b"17", b"sub A B"), b"\n", "3 3 0"),
]


def lines_of(values):
    return ("verdict states witness counter" if values[0].isalpha() else "refusal layer place") + "\n" + values + "\n"


def fed_without_end(program, first, more, seconds):
    """The outcome of a run whose input does not end. A run that wants all of it is stopped."""
    with subprocess.Popen(program, bufsize=0, stdin=subprocess.PIPE, stdout=subprocess.PIPE, stderr=subprocess.PIPE) as run:
        stop = threading.Timer(seconds, run.kill)
        stop.start()
        try:
            run.stdin.write(first)
            while True:
                run.stdin.write(more * 30_000)
        except BrokenPipeError:
            pass
        output, errors = run.stdout.read(), run.stderr.read()
        status = run.wait()
        stop.cancel()
        return status, output, errors


def wrong_at_fixed(program, seconds):
    """How many of the fixed inputs are answered otherwise than is owed."""
    wrong = 0
    for given, values in FIXED:
        run = subprocess.run(program, input=given, capture_output=True, timeout=seconds)
        if (run.returncode, run.stdout, run.stderr) != (0, lines_of(values).encode(), b""):
            wrong += 1
            print(f"WRONG {given[:60]!r}, {len(given)} bytes: status {run.returncode}, output {run.stdout!r}, owed {values!r}")
    for first, more, values in ENDLESS:
        outcome = fed_without_end(program, first, more, seconds)
        if outcome != (0, lines_of(values).encode(), b""):
            wrong += 1
            print(f"WRONG {first!r} and {more!r} without end: {outcome}, owed {values!r}")
    print(f"{len(FIXED) + len(ENDLESS)} fixed inputs, {len(ENDLESS)} of them without end: wrong {wrong}")
    return wrong


# ---- What comes of them ----

def main():
    arguments = argparse.ArgumentParser(description="Feeds odd inputs to decide, and counts wrong answers, crashes and hangs.")
    arguments.add_argument("program", type=pathlib.Path)
    arguments.add_argument("count", type=int, nargs="?", default=20_000)
    arguments.add_argument("--seed", type=int, default=1)
    arguments.add_argument("--seconds", type=float, default=5)
    given = arguments.parse_args()
    program = [str(given.program.resolve())]
    rng = random.Random(given.seed)
    right = right_questions()
    wrong_fixed = wrong_at_fixed(program, given.seconds)
    outcomes, kinds, wrong = collections.Counter(), collections.Counter(), collections.Counter()
    longest = 0
    for _ in range(given.count):
        kind, = rng.choices(list(KINDS), list(KINDS.values()))
        odd = kind(rng, right)
        kinds[kind.__name__] += 1
        longest = max(longest, len(odd))
        try:
            run = subprocess.run(program, input=odd, capture_output=True, timeout=given.seconds)
        except subprocess.TimeoutExpired:
            wrong["hangs"] += 1
            print(f"HANG {odd!r}")
            continue
        if run.returncode or run.stderr:
            wrong["crashes"] += 1
            print(f"CRASH {odd!r}: status {run.returncode}, output {run.stdout!r}, errors {run.stderr!r}")
            continue
        lines = owed(odd)
        if run.stdout != lines.encode():
            wrong["wrong answers"] += 1
            print(f"WRONG {odd!r}: output {run.stdout!r}, owed {lines!r}")
            continue
        outcomes[lines.split("\n")[1].split(" ")[0]] += 1
    print(f"{given.count} inputs of up to {longest} bytes: " + ", ".join(f"{name} {many}" for name, many in kinds.items()))
    print("outcomes: " + ", ".join(f"{said} {outcomes[said]}" for said in sorted(outcomes, key=lambda said: (len(said), said))))
    print(f"wrong answers: {wrong['wrong answers']}, crashes: {wrong['crashes']}, hangs: {wrong['hangs']}")
    sys.exit(bool(wrong or wrong_fixed))


if __name__ == "__main__":
    main()
