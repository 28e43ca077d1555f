"""Works out the counts that the benchmark prints:

    python3 expected/bench.py > crates/bench/stdout

Sets 3 and above are named by no claim of the benchmark, so that the counts are the same over 4, 6 and 8 sets, and three
bits of a column are enough here.
"""

from textbook import PREDICATES, hide, join, place

SETS = 3


def call(tray, words):
    """One call of the benchmark on a stack of tables; its line."""
    name, *rest = words.split()
    sets = [int(i) for i in rest]
    if name in PREDICATES:
        name, (met, table) = "place", place(2 ** SETS, name, sets)
    elif name == "hide":
        met, table = hide(tray.pop(), sets[0])
    else:
        upper, lower = tray.pop(), tray.pop()
        met, table = join(lower, upper, all if name == "both" else any)
    tray.append(table)
    return f"{name:<6} WIDTH sets {met:>4} met {len(table[0]):>4} states"


def judge(tray):
    return f"judge  WIDTH sets          {len(tray[-1][0]):>4} states"


THREE = ["sum 0 0 2", "sum 2 0 1", "both", "hide 2"]
DOUBLED = ["sum 1 1 2", "both", "hide 1"]
ONE_MORE = ["sum 2 0 1", "both", "hide 2"]
PARTS = [THREE] + 5 * [DOUBLED, ONE_MORE] + [DOUBLED, ["sub 1 0", "either"], ["hide 1"]]
TWO_FURTHER = ["suc 1 2", "both", "hide 1", "suc 2 1", "both", "hide 2"]


def multiples():
    tray = []
    return [line for part in PARTS for line in [call(tray, words) for words in part] + [judge(tray)]]


def chain():
    tray = []
    lines = [call(tray, "suc 0 1")]
    for k in range(1, 121):
        told = [call(tray, words) for words in TWO_FURTHER]
        if k % 40 == 0:
            lines += told + [judge(tray)]
    return lines + [call(tray, "sub 2 0"), call(tray, "either"), judge(tray)]


for lines in (multiples(), chain()):
    for width in (4, 6, 8):
        for line in lines:
            print(line.replace("WIDTH", str(width)))
