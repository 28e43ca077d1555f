#!/usr/bin/env python3
"""Times `decide` beside MONA, another tool that decides WS1S, as whole processes on the same formulas. It needs MONA,
`apt-get install mona`, and the built program (`rt run < stdin` in crates/decide). Usage, at the top:

    python3 bench/decide.py crates/decide/out/decide [--rounds N] [--growth-rounds N]

A line of bench/formulas.txt is the number of sets, a blank and the text; the same for MONA is bench/mona/001.mona for the
first line, and so on. tools/cases.py makes them. The second table shows how the time grows with nesting, sets and states.

Each round runs every formula once with each program, in an order drawn anew; which of the two goes first alternates.
Before any timing the answers of both are compared, and nothing is timed where they differ. Times are in milliseconds, from
the start of a process until it has ended. A net time is the least time less that of a start with nothing to do, and at
least 0.01. On a machine with other work the least times say most, and the medians of the two only beside each other."""
import argparse
import itertools
import math
import os
import pathlib
import random
import re
import shutil
import statistics
import subprocess
import sys
import tempfile
import time
import typing

HERE = pathlib.Path(__file__).resolve().parent
sys.path.insert(0, str(HERE.parent / "tools"))
sys.dont_write_bytecode = True
from cases import MONA_HEAD, later_by, mona_source, mona_version, multiple  # noqa: E402


# ---- Running ----

class Process(typing.NamedTuple):
    argv: list
    given: str

    def run(self):
        """The time of a whole process, by the clock and of the processor."""
        actions = [(os.POSIX_SPAWN_OPEN, 0, self.given, os.O_RDONLY, 0), (os.POSIX_SPAWN_OPEN, 1, os.devnull, os.O_WRONLY, 0),
                   (os.POSIX_SPAWN_OPEN, 2, os.devnull, os.O_WRONLY, 0)]
        begun = time.perf_counter_ns()
        process = os.posix_spawn(self.argv[0], self.argv, os.environ, file_actions=actions)
        _, status, used = os.wait4(process, 0)
        clock = (time.perf_counter_ns() - begun) / 1e6
        if status:
            sys.exit(f"{' '.join(self.argv)}: status {status}")
        return clock, (used.ru_utime + used.ru_stime) * 1e3

    def output(self):
        with open(self.given, "rb") as given:
            return subprocess.run(self.argv, stdin=given, capture_output=True, text=True, check=True).stdout


class Times:
    def __init__(self):
        self.clock = []
        self.processor = []

    def add(self, pair):
        self.clock.append(pair[0])
        self.processor.append(pair[1])

    def middle(self):
        return statistics.median(self.clock)

    def least(self):
        return min(self.clock)

    def used(self):
        return statistics.fmean(self.processor)

    def shown(self):
        low, _, high = statistics.quantiles(self.clock, n=4)
        return f"{self.middle():7.3f} {low:7.3f}-{high:7.3f} {self.least():7.3f}"


def taken(pairs, starts, rounds):
    """The times of each pair of processes, and of each start."""
    start_times = [Times() for _ in starts]
    times = [(Times(), Times()) for _ in pairs]
    order = list(range(len(pairs)))
    rng = random.Random(1)
    for each in range(rounds):
        for at, start in enumerate(starts):
            start_times[at].add(start.run())
        rng.shuffle(order)
        for k in order:
            for which in (0, 1) if (each + k) % 2 else (1, 0):
                times[k][which].add(pairs[k][which].run())
    return times, start_times


# ---- Answers ----

class Answer(typing.NamedTuple):
    verdict: str
    witness: int | None
    counter: int | None


def answer_of_program(output):
    """The verdict with the lengths of the two words, and the number of states."""
    names, values = output.splitlines()
    if names != "verdict states witness counter":
        return output, 0
    verdict, states, *words = values.split()
    witness, counter = (None if word == "-" else 0 if word == "." else len(word.split(",")) for word in words)
    return Answer(verdict, witness, counter), int(states)


def answer_of_mona(output):
    def least(which):
        found = re.search(rf"^A {which} of least length \((\d+)\) is:$", output, re.M)
        return int(found[1]) if found else None

    verdict = "all" if "Formula is valid" in output else "none" if "Formula is unsatisfiable" in output else "some"
    return Answer(verdict, least("satisfying example"), least("counter-example"))


class Formula(typing.NamedTuple):
    """A text with its settings, and the same for MONA."""
    settings: str
    text: str
    source: str

    def sets(self):
        return self.settings.split()[0]

    def shown(self):
        return self.text[:60] + ".." * (len(self.text) > 60)


class Bench:
    """The two programs, and a folder for what they read."""

    def __init__(self, program, mona, folder):
        self.program = program
        self.mona = mona
        self.folder = folder
        self.files = 0

    def kept(self, text):
        self.files += 1
        path = pathlib.Path(self.folder, str(self.files))
        path.write_text(text)
        return str(path)

    def on_program(self, text):
        return Process([self.program], self.kept(text))

    def on_mona(self, source):
        return Process([self.mona, "-q", self.kept(source)], os.devnull)

    def processes(self, formulas):
        """The two processes of each formula, and its states. Ends where the two answers differ."""
        pairs, states, unlike = [], [], 0
        for formula in formulas:
            pair = self.on_program(f"sets budget depth\n{formula.settings}\n{formula.text}"), self.on_mona(formula.source)
            said, many = answer_of_program(pair[0].output())
            other = answer_of_mona(pair[1].output())
            if said != other:
                print(f"DIFFERENCE {formula.text}: program {said}, MONA {other}")
                unlike += 1
            pairs.append(pair)
            states.append(many)
        if unlike:
            sys.exit(f"{unlike} answers differ; nothing is timed")
        return pairs, states


# ---- The formulas of the folder ----

def stored():
    lines = [line.split(" ", 1) for line in (HERE / "formulas.txt").read_text().splitlines()]
    return [Formula(f"{sets} 64 8", text, (HERE / "mona" / f"{number:03}.mona").read_text())
            for number, (sets, text) in enumerate(lines, 1)]


def geometric(ratios):
    return math.exp(statistics.fmean(map(math.log, ratios)))


def net_time(times, start):
    """At least 0.01 ms, since less is below what such a difference can tell."""
    return max(0.01, times.least() - start.least())


def ratios_told(title, ratios):
    ahead = sum(ratio > 1 for ratio in ratios)
    print(f"{title}: decide ahead on {ahead} of {len(ratios)}, MONA's time over decide's least {min(ratios):.2f}, "
          f"geometric mean {geometric(ratios):.2f}, most {max(ratios):.2f}")


def compare(bench, starts, rounds):
    formulas = stored()
    pairs, states = bench.processes(formulas)
    print(f"{mona_version()}; answers of both are the same on all {len(formulas)} formulas; {rounds} rounds")
    times, start_times = taken(pairs, list(starts.values()), rounds)

    print(f"\n{'start times':46} {'median':>7} {'quartiles':>15} {'least':>7}")
    for name, each in zip(starts, start_times):
        print(f"{name:46} {each.shown()}")
    _, program_start, _, mona_start = start_times

    print(f"\n{'':18}{'decide':^31}   {'mona -q':^31}   {'mona / decide':^15}")
    columns = f"{'median':>7} {'quartiles':>15} {'least':>7}"
    print(f"  # sets states   {columns}   {columns}   median least   net  text")
    by_median, by_least, by_processor, net = [], [], [], []
    for number, (formula, many, (ours, theirs)) in enumerate(zip(formulas, states, times), 1):
        by_median.append(theirs.middle() / ours.middle())
        by_least.append(theirs.least() / ours.least())
        by_processor.append(theirs.used() / ours.used())
        net.append(net_time(theirs, mona_start) / net_time(ours, program_start))
        print(f"{number:3} {formula.sets():>4} {many:6}   {ours.shown()}   {theirs.shown()}   "
              f"{by_median[-1]:6.2f} {by_least[-1]:5.2f} {net[-1]:5.1f}  {formula.shown()}")

    print()
    ratios_told("medians", by_median)
    ratios_told("least times", by_least)
    ratios_told("mean processor times", by_processor)
    ratios_told("net times", net)
    for title, figure in (("medians", Times.middle), ("least times", Times.least), ("mean processor times", Times.used)):
        ours, theirs = (sum(figure(each[which]) for each in times) for which in (0, 1))
        ours_net = ours - figure(program_start) * len(times)
        theirs_net = theirs - figure(mona_start) * len(times)
        print(f"sum of {title}: decide {ours:.2f}, MONA {theirs:.2f}, ratio {theirs / ours:.2f}; "
              f"less the start times: decide {ours_net:.2f}, MONA {theirs_net:.2f}, ratio {theirs_net / ours_net:.2f}")


# ---- Growing formulas ----

def left_chain(mark, parts):
    """The parts joined from the left, so that two tables are enough."""
    return f"{mark} " * (len(parts) - 1) + " ".join(parts)


def right_chain(mark, parts):
    """The parts joined from the right, so that a table stands for each."""
    return "".join(f"{mark} {part} " for part in parts[:-1]) + parts[-1]


def ones(many):
    return [f"one {'ABCD'[k % 4]}" for k in range(many)]


def quantified(many):
    """A text in so many quantifiers, by turns `!` over a set and `?` over a position."""
    return "".join(f"! {'AB'[k // 2 % 2]} " if k % 2 == 0 else f"? {'pq'[k // 2 % 2]} " for k in range(many)) + "| suc p q sub A B"


def reached(k, position="p", other="q"):
    """The position is k, by k steps from 0."""
    if k == 0:
        return f"~ ? {other} suc {other} {position}"
    return f"? {other} & {reached(k - 1, other, position)} suc {other} {position}"


def families():
    """Each with its sizes: the settings and the text of each size."""
    def standard(sizes, text):
        return {size: ("4 64 8", text(size)) for size in sizes}

    yield "`~` nested", standard((1, 8, 16, 32), lambda k: "~ " * k + "one A")
    yield "`& one A & one B ..`, parts", standard((2, 4, 6, 8), lambda k: right_chain("&", ones(k)))
    yield "`& & .. one A one B ..`, parts", standard((2, 9, 17, 33), lambda k: left_chain("&", ones(k)))
    yield "`! A ? p ! B ? q ..`, quantifiers", standard((1, 4, 8, 16, 31), quantified)
    yield "p is k, said by steps from 0, k", standard((1, 4, 8, 15), reached)
    yield "q - k is in A, k", standard((1, 2, 3, 4, 5), lambda k: f"? p & sub p A {later_by(k, 'p', 'q', 'r')}")
    yield "B is m times A, m", standard((2, 3, 5, 9, 16, 24, 32, 40), lambda m: multiple(m, "A", "B"))
    yield "five places, 64 states", standard((64,), lambda _: "| | | | sum A A D sub A B suc A B sum D C B suc D C")
    yield "`sub A B`, `sub B C` .., sets", {
        k: (f"{k} 10 2", left_chain("&", [f"sub {low} {high}" for low, high in itertools.pairwise("ABCDEFGH"[:k])])) for k in range(2, 9)}
    yield "`| | one A one B one C`, sets", {k: (f"{k} 64 8", left_chain("|", ones(k))) for k in (1, 2, 3)}


def grow(bench, starts, rounds):
    rows = [(name, size, Formula(settings, text, mona_source(text)))
            for name, sizes in families() for size, (settings, text) in sizes.items()]
    pairs, states = bench.processes([formula for _, _, formula in rows])
    _, start_of_program, _, start_of_mona = starts.values()
    times, (program_start, mona_start) = taken(pairs, [start_of_program, start_of_mona], rounds)
    print(f"\nGrowth, {rounds} rounds; the settings are the sets, the budget and the depth")
    print(f"{'':35}{'':36}{'decide':^23}   {'mona -q':^23}")
    columns = f"{'median':>7} {'least':>7} {'net':>7}"
    print(f"{'family':34} {'size':>4} {'settings':>8} {'bytes':>6} {'states':>6} {'verdict':>7}   {columns}   {columns}")
    before = None
    for (name, size, formula), many, (ours, theirs), pair in zip(rows, states, times, pairs):
        said, _ = answer_of_program(pair[0].output())
        figures = "   ".join(f"{each.middle():7.3f} {each.least():7.3f} {net_time(each, start):7.3f}"
                             for each, start in ((ours, program_start), (theirs, mona_start)))
        print(f"{name if name != before else '':34} {size:4} {formula.settings:>8} {len(formula.text):6} {many:6} {said.verdict:>7}   {figures}")
        before = name
    print()
    ratios_told("least times", [theirs.least() / ours.least() for ours, theirs in times])
    ratios_told("net times", [net_time(theirs, mona_start) / net_time(ours, program_start) for ours, theirs in times])


def main():
    arguments = argparse.ArgumentParser(description="Times decide beside MONA.")
    arguments.add_argument("program", type=pathlib.Path)
    arguments.add_argument("--rounds", type=int, default=200)
    arguments.add_argument("--growth-rounds", type=int, default=100)
    given = arguments.parse_args()
    mona = shutil.which("mona")
    if not mona:
        sys.exit("mona is not installed (apt-get install mona)")
    if min(given.rounds, given.growth_rounds) < 2:
        sys.exit("at least 2 rounds")
    with tempfile.TemporaryDirectory() as folder:
        bench = Bench(str(given.program.resolve()), mona, folder)
        # What each program and the machine need apart from any formula.
        starts = {
            "a process that does nothing (true)": Process([shutil.which("true")], os.devnull),
            "decide, refusing an empty input": bench.on_program(""),
            "mona -q, on `true`": bench.on_mona("ws1s;\ntrue;\n"),
            "mona -q, on the predicates and `true`": bench.on_mona(f"{MONA_HEAD}true;\n"),
        }
        compare(bench, starts, given.rounds)
        grow(bench, starts, given.growth_rounds)


if __name__ == "__main__":
    main()
