"""What docs/RULES.md says of an input of the program `decide`, in Python, apart from the crates: the settings, the tokens
and their faults, the formula, and the building calls with what each of them meets."""
import math
import re
import typing

HEADING = b"sets budget depth\n"
MARKS = b"~&|>?!"
PLACES = {"sub": 2, "one": 1, "suc": 2, "les": 2, "sum": 3, "emp": 1}

# The longest text, the most formulas that one may stand in, and the memory of `decide`.
TEXT, NESTING, NUMBERS, STATES = 1024, 32, 10_880, 64


class Refused(Exception):
    """The first check that fails, and where."""

    def __init__(self, number, place):
        super().__init__(number, place)
        self.number = number
        self.place = place

    def layer(self):
        return 1 if self.number in (9, 10, 16, 17) else 2 if self.number in range(11, 16) else 3

    def line(self):
        """The values as `decide` prints them."""
        return f"{self.number} {self.layer()} {self.place}"


# ---- Formulas ----

class Placed(typing.NamedTuple):
    """The letters are as many as the name has places, each with its place in the text."""
    name: str
    letters: str
    place: int = 0
    letter_places: tuple = ()


class Negated(typing.NamedTuple):
    part: "Formula"
    place: int = 0


class Joined(typing.NamedTuple):
    mark: str
    left: "Formula"
    right: "Formula"
    place: int = 0


class Bound(typing.NamedTuple):
    mark: str
    letter: str
    part: "Formula"
    place: int = 0


Formula = Placed | Negated | Joined | Bound


def free_places(formula, bound=frozenset()):
    """Each free appearance of a letter with its place, from left to right."""
    match formula:
        case Placed(_, letters, _, places):
            yield from ((letter, place) for letter, place in zip(letters, places) if letter not in bound)
        case Negated(part):
            yield from free_places(part, bound)
        case Joined(_, left, right):
            yield from free_places(left, bound)
            yield from free_places(right, bound)
        case Bound(_, letter, part):
            yield from free_places(part, bound | {letter})


# ---- Reading ----

class Token(typing.NamedTuple):
    kind: str
    said: str
    place: int


def tokens(text):
    """The tokens of a text, of the kinds mark, name, variable and other. Runs of letters are as long as can be."""
    for found in re.finditer(rb"[A-Za-z]+|[^A-Za-z \n]", text):
        said = found[0]
        if not said.isalpha():
            kind = "mark" if said in MARKS else "other"
        elif len(said) == 1:
            kind = "variable"
        else:
            kind = "name" if len(said) == 3 and said.islower() else "other"
        yield Token(kind, said.decode("latin-1"), found.start())


class Reader:
    """Reads a text with this many sets, and keeps its letters in the order of their sets."""

    def __init__(self, text, sets):
        self.text = text
        self.sets = sets
        self.tokens = tokens(text)
        self.letters = []

    def whole(self):
        formula = self.formula(0)
        if token := next(self.tokens, None):
            raise Refused(10 if token.kind == "other" else 13, token.place)
        return formula

    def token(self, *kinds):
        """The next token, which is to be of one of these kinds."""
        token = next(self.tokens, None)
        if token is None:
            raise Refused(11, len(self.text))
        if token.kind == "other":
            raise Refused(10, token.place)
        if token.kind not in kinds:
            raise Refused(13, token.place)
        return token

    def formula(self, within):
        """A formula that stands in so many others."""
        token = self.token("mark", "name")
        if within > NESTING:
            raise Refused(12, token.place)
        if token.kind == "name" and token.said not in PLACES:
            raise Refused(14, token.place)
        match token.said:
            case "~":
                return Negated(self.formula(within + 1), token.place)
            case "&" | "|" | ">" as mark:
                return Joined(mark, self.formula(within + 1), self.formula(within + 1), token.place)
            case "?" | "!" as mark:
                return Bound(mark, self.variable().said, self.formula(within + 1), token.place)
            case name:
                given = [self.variable() for _ in range(PLACES[name])]
                return Placed(name, "".join(each.said for each in given), token.place, tuple(each.place for each in given))

    def variable(self):
        token = self.token("variable")
        if token.said not in self.letters:
            if len(self.letters) == self.sets:
                raise Refused(15, token.place)
            self.letters.append(token.said)
        return token


# ---- Automata ----

class Automaton(typing.NamedTuple):
    """Row s has the next states of state s in the order of the columns. State 0 is the start."""
    rows: list
    accepts: list


class OverBudget(Exception):
    pass


def explored(start, step, accepts, columns, budget=math.inf):
    """The automaton of all that is reached from the start, with states numbered by the earliest shortest word."""
    number = {start: 0}
    reached = [start]
    rows = []
    for state in reached:
        row = []
        for column in range(columns):
            after = step(state, column)
            if after not in number:
                if len(reached) >= budget:
                    raise OverBudget
                number[after] = len(reached)
                reached.append(after)
            row.append(number[after])
        rows.append(row)
    return Automaton(rows, [bool(accepts(state)) for state in reached])


def smallest(automaton):
    """The least automaton for the same words. Classes of states are split until a whole round splits none."""
    rows, accepts = automaton
    kind = [int(each) for each in accepts]
    while True:
        looks = [(kind[s], *(kind[after] for after in rows[s])) for s in range(len(rows))]
        numbers = {look: k for k, look in enumerate(dict.fromkeys(looks))}
        finer = [numbers[look] for look in looks]
        if len(numbers) == len(set(kind)):
            break
        kind = finer
    first = {k: s for s, k in reversed(list(enumerate(kind)))}
    return explored(kind[0], lambda k, column: kind[rows[first[k]][column]], lambda k: accepts[first[k]], len(rows[0]))


# ---- Building ----

def step_sub(state, first, second):
    return state or int(first and not second)


def step_one(state, first):
    return min(state + first, 2)


def step_suc(state, first, second):
    return {(0, 0, 0): 0, (0, 1, 0): 1, (1, 0, 1): 2, (2, 0, 0): 2}.get((state, first, second), 3)


def step_les(state, first, second):
    return {(0, 0, 0): 0, (0, 1, 0): 1, (1, 0, 0): 1, (1, 0, 1): 2, (2, 0, 0): 2}.get((state, first, second), 3)


def step_sum(state, first, second, third):
    total = state + first + second
    return 2 if state == 2 or total % 2 != third else total // 2


def step_emp(state, first):
    return state or first


BOOK = {"sub": (step_sub, 0), "one": (step_one, 1), "suc": (step_suc, 2), "les": (step_les, 2), "sum": (step_sum, 0), "emp": (step_emp, 0)}


class Tray:
    """Builds a formula with a budget and a depth, or raises Refused. Columns are over the formula's letters alone, since
    the sets that no letter has change neither a count nor a word."""

    def __init__(self, formula, letters, budget, depth):
        self.letters = letters
        self.columns = 2 ** len(letters)
        self.budget = budget
        self.depth = depth
        self.pile = []
        self.mets = []
        self.highest = 0
        self.build(formula)
        first = dict(reversed(list(free_places(formula))))
        for letter in letters:
            if letter.islower() and letter in first:
                self.single(letter, first[letter])
                self.join("&", first[letter])
        self.table, = self.pile

    def build(self, formula):
        place = formula.place
        match formula:
            case Placed(name, letters):
                self.place(name, letters, place)
            case Negated(part):
                self.build(part)
                self.negate(place)
            case Joined(mark, left, right):
                self.build(left)
                if mark == ">":
                    self.negate(place)
                self.build(right)
                self.join(mark, place)
            case Bound(mark, letter, part):
                self.build(part)
                if mark == "!":
                    self.negate(place)
                if letter.islower():
                    self.single(letter, place)
                    self.join("&", place)
                self.hide(letter, place)
                if mark == "!":
                    self.negate(place)

    def bit(self, letter):
        return self.letters.index(letter)

    def lent(self):
        """There are as many records as the memory is for, and the calls that explore ask for one for each state."""
        if self.budget > STATES:
            raise Refused(4, 0)

    def room(self, place):
        if len(self.pile) == self.depth:
            raise Refused(21, place)

    def put(self, place, *exploration):
        try:
            found = explored(*exploration, self.columns, self.budget)
        except OverBudget:
            raise Refused(23, place) from None
        self.mets.append(len(found.rows))
        self.pile.append(smallest(found))
        self.highest = max(self.highest, len(self.pile))

    def put_placed(self, name, letters, place):
        self.room(place)
        step, accepting = BOOK[name]
        bits = [self.bit(letter) for letter in letters]
        self.put(place, 0, lambda s, column: step(s, *(column >> bit & 1 for bit in bits)), lambda s: s == accepting)

    def place(self, name, letters, place):
        self.lent()
        self.put_placed(name, letters, place)

    def single(self, letter, place):
        self.put_placed("one", letter, place)

    def negate(self, place):
        rows, accepts = self.pile.pop()
        self.put(place, 0, lambda s, column: rows[s][column], lambda s: not accepts[s])

    def join(self, mark, place):
        self.lent()
        upper = self.pile.pop()
        lower = self.pile.pop()
        hold = all if mark == "&" else any
        self.put(
            place,
            (0, 0),
            lambda pair, column: (lower.rows[pair[0]][column], upper.rows[pair[1]][column]),
            lambda pair: hold((lower.accepts[pair[0]], upper.accepts[pair[1]])))

    def hide(self, letter, place):
        self.lent()
        rows, accepts = self.pile.pop()
        own = 1 << self.bit(letter)
        # The hidden set may have members past the word's end, where the other sets have none.
        late = {s for s, each in enumerate(accepts) if each}
        while more := {s for s in range(len(rows)) if s not in late and (rows[s][0] in late or rows[s][own] in late)}:
            late |= more
        self.put(
            place,
            frozenset([0]),
            lambda states, column: frozenset(rows[s][c] for s in states for c in (column & ~own, column | own)),
            lambda states: states & late)

    def cost(self):
        return sum(self.mets) * self.columns


# ---- Answers ----

def earliest(automaton, accepting):
    """The earliest of the shortest words that end so, or None. States are met in the order of their earliest words."""
    words = {0: ()}
    for state in (met := [0]):
        if automaton.accepts[state] == accepting:
            return words[state]
        for column, after in enumerate(automaton.rows[state]):
            if after not in words:
                words[after] = *words[state], column
                met.append(after)
    return None


def shown(word):
    return "-" if word is None else ",".join(map(str, word)) or "."


class Answer(typing.NamedTuple):
    verdict: str
    states: int
    witness: tuple | None
    counter: tuple | None

    def line(self):
        """The values as `decide` prints them."""
        return f"{self.verdict} {self.states} {shown(self.witness)} {shown(self.counter)}"


def answer(automaton):
    witness, counter = earliest(automaton, True), earliest(automaton, False)
    verdict = "none" if witness is None else "all" if counter is None else "some"
    return Answer(verdict, len(smallest(automaton).rows), witness, counter)


# ---- Questions ----

def asked(question):
    """The three settings and the text of an input."""
    if not question.startswith(HEADING):
        raise Refused(16, 0)
    line, feed, text = question[len(HEADING):].partition(b"\n")
    values = line.split(b" ")
    if not feed or len(values) != 3 or not all(re.fullmatch(rb"0|[1-9][0-9]{0,4}", value) and int(value) <= 65_535 for value in values):
        raise Refused(17, 0)
    return *map(int, values), text


def build(question):
    """The tray of an input with the table of its text, or raises Refused."""
    sets, budget, depth, text = asked(question)
    for number, wrong in ((1, not 1 <= sets <= 8), (2, not 1 <= budget <= 512), (3, not 1 <= depth <= 16)):
        if wrong:
            raise Refused(number, 0)
    if (depth + 2) * budget * (2 ** sets + 1) > NUMBERS:
        raise Refused(4, 0)
    if len(text) > TEXT:
        raise Refused(9, 0)
    reader = Reader(text, sets)
    formula = reader.whole()
    return Tray(formula, reader.letters, budget, depth)


def owed(question):
    """The two lines that `decide` is to print."""
    try:
        return f"verdict states witness counter\n{answer(build(question).table).line()}\n"
    except Refused as fault:
        return f"refusal layer place\n{fault.line()}\n"
