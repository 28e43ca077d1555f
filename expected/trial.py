"""Works out the account that the program on trial prints of its stored input:

    python3 expected/trial.py < crates/trial/stdin > crates/trial/stdout

It knows the claims, the sentences and how the text of a table is laid out, and calculates with numbers and textbook
automata.
"""

import sys
from textbook import hide, join, negate, place, shortest

COLUMNS = 2 ** 4
LABELS = {
    "adder": ("Adder", "first input", "second input", "board's sum", "true sum"),
    "counter": ("Batch counter", "count", "one more", "board's next count", "true next count"),
}
SECOND_IS_ONE = ["suc 3 1", "hide 3", "negate", "single 1", "both"]
COUNTS_ON = SECOND_IS_ONE + ["negate", "sum 0 1 2", "either"]

# Each claim: what it says, how it is built, and whether it holds of the three numbers.
CLAIMS = {
    "adder": [
        ("the inputs have a sum", ["sum 0 1 2", "hide 2"], lambda a, b, c: True),
        ("the board's output is the sum of its inputs", ["sum 0 1 2"], lambda a, b, c: a + b == c),
    ],
    "counter": [
        ("every count has a next count", COUNTS_ON + ["hide 2"], lambda a, b, c: True),
        (
            "a counter that sticks is right: the second number is 1, and the next count is both the count and the sum",
            SECOND_IS_ONE + ["sub 0 2", "both", "sub 2 0", "both", "sum 0 1 2", "both"],
            lambda a, b, c: b == 1 and a == c and a + b == c,
        ),
        ("if the second number is 1, the next count is the sum", COUNTS_ON, lambda a, b, c: b != 1 or a + b == c),
    ],
}


def number(word, i):
    return sum(2 ** p for p, column in enumerate(word) if column >> i & 1)


def row(name, value, columns):
    return f"  {name:<18} {value:>6}  " + "".join("01"[value >> p & 1] for p in range(columns))


def rows(board, word):
    return [row(LABELS[board][1 + i], number(word, i), len(word)) for i in range(3)]


def recording(board, word):
    name, _, _, said, true = LABELS[board]
    first, second, answer = (number(word, i) for i in range(3))
    room = first + second < 2 ** len(word)
    yield f"{name}: a word of length {len(word)} over 3 sets, position 0 leftmost"
    yield from rows(board, word)
    yield row(true, first + second, len(word) if room else len(word) + 1)
    if first + second == answer:
        yield f"The board is right: sum holds of the {said}."
        return
    yield f"The board is wrong: sum fails of the {said}."
    if room:
        yield f"Within the word's length sum holds of the {true}."
    else:
        yield f"Within the word's length sum fails of the {true} too, which needs position {len(word)}."
        yield f"With position {len(word)} there, sum holds of the {true}."


def call(tray, words):
    name, *sets = words.split()
    listed = [int(i) for i in sets]
    if name == "negate":
        met, table = negate(tray.pop())
    elif name == "single":
        met, table = place(COLUMNS, "one", listed)
    elif name == "hide":
        met, table = hide(tray.pop(), listed[0])
    elif name in ("both", "either"):
        upper, lower = tray.pop(), tray.pop()
        met, table = join(lower, upper, all if name == "both" else any)
    else:
        met, table = place(COLUMNS, name, listed)
        words = f"place {name} on " + ",".join(sets)
    tray.append(table)
    return f"  {words}: {met} met, {len(table[0])} kept"


def verdict(board, table):
    states = len(table[0])
    witness, failing = shortest(table, True), shortest(table, False)
    if witness is None:
        which = "No sets meet the claim, whatever the width"
    elif failing is None:
        which = "All sets meet the claim, whatever the width"
    else:
        which = "Some sets meet the claim and some do not"
    yield f"{which}: its table has {states} {'state' if states == 1 else 'states'}."
    yield from drawn(board, "meets", witness)
    yield from drawn(board, "fails", failing)


def drawn(board, does, word):
    """The shortest word that meets or fails a claim."""
    if word is None:
        yield f"No word {does} it."
    elif not word:
        yield f"The shortest word that {does} it is empty: each number is 0."
    else:
        yield f"The shortest word that {does} it has length {len(word)}, position 0 leftmost:"
        yield from rows(board, word)


def saved(table):
    """The text of a table: names, and then each state with its mark and its next states."""
    yield "  " + " ".join(["state", "accepts"] + [f"n{column}" for column in range(COLUMNS)])
    for state, (following, accepts) in enumerate(zip(*table)):
        yield "  " + " ".join(str(field) for field in [state, int(accepts)] + following)


def claims(board, last):
    for says, calls, holds in CLAIMS[board]:
        yield f"{LABELS[board][0]}, a claim: {says}"
        tray = []
        for words in calls:
            yield call(tray, words)
        yield from verdict(board, tray[-1])
        if holds(*(number(last, i) for i in range(3))):
            yield f"The last recorded word, of length {len(last)}, meets it."
        else:
            yield f"The last recorded word, of length {len(last)}, fails it too:"
            yield from rows(board, last)
    yield "The table after these calls:"
    yield from saved(tray[-1])


def account(lines):
    past = {}
    for line in lines:
        head, rest = line.rstrip("\n").split(" ", 1)
        if head == "#":
            yield rest
        elif head == "claim":
            yield from claims(rest, past[rest])
        else:
            past[head] = [int(column) for column in rest.split(",")]
            yield from recording(head, past[head])


for line in account(sys.stdin):
    print(line)
