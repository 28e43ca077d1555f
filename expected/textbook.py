"""Textbook automata for what the programs are expected to print. They share nothing with the crates.

A table is its rows of next states, one for each column, and its marks.
"""


def bit(column, i):
    return column >> i & 1


# Each predicate as a step, which takes a state and the bits of the listed sets, and a test of states. All start at 0.
def sub(s, bits):
    return 1 if s or bits[0] > bits[1] else 0


def suc(s, bits):
    return {(0, (0, 0)): 0, (0, (1, 0)): 1, (1, (0, 1)): 2, (2, (0, 0)): 2}.get((s, bits), 3)


def add(carry, bits):
    if carry == 2 or (bits[0] + bits[1] + carry) % 2 != bits[2]:
        return 2
    return (bits[0] + bits[1] + carry) // 2


def one(s, bits):
    return min(s + bits[0], 2)


PREDICATES = {"sub": (sub, lambda s: s == 0), "suc": (suc, lambda s: s == 2), "sum": (add, lambda s: s == 0), "one": (one, lambda s: s == 1)}


def explore(columns, start, step, accepts):
    """All states that words lead to, in the order met, with their rows."""
    number, order, rows = {start: 0}, [start], []
    for state in order:
        row = []
        for column in range(columns):
            following = step(state, column)
            if following not in number:
                number[following] = len(order)
                order.append(following)
            row.append(number[following])
        rows.append(row)
    return rows, [accepts(state) for state in order]


def smallest(rows, marks):
    """The same language with one state for each residual."""
    classes = [int(mark) for mark in marks]
    while True:
        keys = [(classes[s], tuple(classes[t] for t in rows[s])) for s in range(len(rows))]
        names = {}
        finer = [names.setdefault(key, len(names)) for key in keys]
        if len(names) == len(set(classes)):
            break
        classes = finer
    return explore(len(rows[0]), classes[0], lambda c, column: classes[rows[classes.index(c)][column]], lambda c: marks[classes.index(c)])


def build(columns, start, step, accepts):
    """How many states are met, and the smallest table."""
    rows, marks = explore(columns, start, step, accepts)
    table = smallest(rows, marks)
    return len(rows), table


def place(columns, name, listed):
    step, accepts = PREDICATES[name]
    return build(columns, 0, lambda s, column: step(s, tuple(bit(column, i) for i in listed)), accepts)


def join(lower, upper, how):
    return build(len(lower[0][0]), (0, 0), lambda s, c: (lower[0][s[0]][c], upper[0][s[1]][c]), lambda s: how((lower[1][s[0]], upper[1][s[1]])))


def hide(table, i):
    rows, marks = table
    closing = {s for s in range(len(rows)) if marks[s]}
    while True:
        more = {s for s in range(len(rows)) if rows[s][0] in closing or rows[s][1 << i] in closing} - closing
        if not more:
            break
        closing |= more
    turned = lambda s, c: frozenset(rows[q][d] for q in s for d in (c & ~(1 << i), c | 1 << i))
    return build(len(rows[0]), frozenset([0]), turned, lambda s: bool(s & closing))


def negate(table):
    rows, marks = table
    return len(rows), (rows, [not mark for mark in marks])


def shortest(table, mark):
    """The earliest of the shortest words that lead to a state with this mark, or None."""
    rows, marks = table
    words, order = {0: []}, [0]
    for state in order:
        if marks[state] == mark:
            return words[state]
        for column, following in enumerate(rows[state]):
            if following not in words:
                words[following] = words[state] + [column]
                order.append(following)
    return None
