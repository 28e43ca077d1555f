"""Works out what the program that uses a saved table reads, and what it prints of that:

    python3 expected/reuse.py table > crates/reuse/stdin
    python3 expected/reuse.py > crates/reuse/stdout

The table says that set 1 counts three times as much as set 0. The script knows the claims, the sentences and how the text
of a table is laid out, and calculates with textbook automata.
"""

import sys
from textbook import PREDICATES, bit, explore, join, negate, place, shortest, smallest

PLACES = 2
SETS = 3
CLAIMS = [
    (
        "if tri holds of sets 0 and 1, and set 2 is twice set 0, then set 2 + set 0 = set 1",
        ["tri 0 1", "sum 0 0 2", "both", "negate", "sum 2 0 1", "either"],
    ),
    ("tri holds of sets 0 and 1, and set 1 is twice set 0", ["tri 0 1", "sum 0 0 1", "both"]),
]


def triple(carry, bits):
    """Three times the first number, bit by bit, with a carry of at most 2; 3 where the second number differs."""
    total = 3 * bits[0] + carry
    return 3 if carry == 3 or total % 2 != bits[1] else total // 2


def saved():
    """The table of it, in which states stand in the order of the earliest words that lead to them."""
    return smallest(*explore(2 ** PLACES, 0, lambda s, c: triple(s, (bit(c, 0), bit(c, 1))), lambda s: s == 0))


def text(table):
    yield " ".join(["state", "accepts"] + [f"n{column}" for column in range(2 ** PLACES)])
    for state, (following, accepts) in enumerate(zip(*table)):
        yield " ".join(str(field) for field in [state, int(accepts)] + following)


def call(tray, words, sets):
    name, *listed = words.split()
    if name == "negate":
        met, table = negate(tray.pop())
    elif name in ("both", "either"):
        upper, lower = tray.pop(), tray.pop()
        met, table = join(lower, upper, all if name == "both" else any)
    else:
        met, table = place(2 ** sets, name, [int(i) for i in listed])
        words = f"place {name} on " + ",".join(listed)
    tray.append(table)
    return f"  {words}: {met} met, {len(table[0])} kept"


def verdict(table):
    meets, fails = shortest(table, True), shortest(table, False)
    if meets is None:
        yield "No sets meet the claim, whatever the width."
    elif fails is None:
        yield "All sets meet the claim, whatever the width."
    else:
        yield "Some sets meet the claim and some do not."
    yield f"States of its table: {len(table[0])}"
    yield from drawn("meets", meets)
    yield from drawn("fails", fails)


def drawn(does, word):
    """The shortest word that meets or fails a claim."""
    if word is None:
        yield f"No word {does} it."
    elif not word:
        yield f"The shortest word that {does} it is empty: no set has a member."
    else:
        yield f"The shortest word that {does} it has length {len(word)}, position 0 leftmost:"
        for i in range(SETS):
            yield f"  set {i}  " + "".join(str(bit(column, i)) for column in word)


def account():
    loaded = saved()
    lines = "".join(line + "\n" for line in text(loaded))
    # The loaded table as one more predicate, which reads the bits of the listed sets as a column.
    rows, marks = loaded
    PREDICATES["tri"] = (lambda s, bits: rows[s][sum(b << j for j, b in enumerate(bits))], lambda s: marks[s])
    yield f"The table is loaded as tri: places {PLACES}, states {len(rows)}"
    for says, calls in CLAIMS:
        yield f"A claim: {says}"
        tray = []
        for words in calls:
            yield call(tray, words, SETS)
        yield from verdict(tray[-1])
    tray = []
    call(tray, "tri 0 1", PLACES)
    again = "".join(line + "\n" for line in text(tray[-1]))
    if again == lines:
        yield f"Loaded again, placed and saved, the table has the same {len(again)} bytes."
    else:
        yield f"Loaded again, placed and saved, the table has {len(again)} bytes, which differ from the {len(lines)} that were loaded."


for line in text(saved()) if sys.argv[1:] == ["table"] else account():
    print(line)
