"""Inputs of the program `decide` that are refused, and some that only just are not: by hand, at each limit of docs/RULES.md,
and by chance, from right texts that are changed."""
import random

from rules import HEADING, MARKS, NESTING, PLACES, TEXT, Refused, build, tokens


def question(sets, budget, depth, text):
    """The input with these settings and this text."""
    return HEADING + f"{sets} {budget} {depth}\n".encode() + (text if isinstance(text, bytes) else text.encode())


def usual(text, sets=2):
    return question(sets, 64, 8, text)


# ---- By hand ----

def heading_faults():
    rest = b"2 8 4\nsub A B"
    for heading in (b"", b"\n", b"sets budget depth", b"sets budget depth\r\n", b"Sets budget depth\n", b" sets budget depth\n",
                    b"sets  budget depth\n", b"sets budget depth \n", b"budget sets depth\n", b"sets budget dept\n",
                    b"sets budget depths\n", b"sets,budget,depth\n", b"sets budget depth\0\n", b"\nsets budget depth\n",
                    b"sets budget depth\x80\n", b"sets\nbudget depth\n"):
        yield heading + rest
    yield b""
    yield b"\n"
    yield b"sets budget depth"
    yield b"2 8 4\nsets budget depth\nsub A B"
    yield HEADING
    yield HEADING + HEADING + rest


def value_faults():
    for values in ("2 8", "2", "", "2 8 4 1", "2 8 4 ", " 2 8 4", "2  8 4", "2 8  4", "02 8 4", "2 08 4", "2 8 04", "00 8 4",
                   "+2 8 4", "-1 8 4", "2\t8 4", "2 8 4\r", "2,8,4", "a 8 4", "2 8 d", "2.0 8 4", "0x2 8 4", "2 8 4\0", "65536 8 4",
                   "2 65536 4", "2 8 65536", "131074 8 4", "2 65544 4", "2 8 4294967300", "18446744073709551618 8 4", "2 8 99999",
                   "2 8 4sub A B", "2 8 \xb2"):
        yield HEADING + values.encode("latin-1") + b"\nsub A B"
    yield HEADING + b"2 8 4"
    yield HEADING + b"2 8\n4\nsub A B"
    yield HEADING + b"\n2 8 4\nsub A B"
    yield HEADING + b"2 8 4\n"
    yield HEADING + b"2 8 4\n\nsub A B\n"


def setting_faults():
    right, faulty, long = "one A", "one A ab", " " * (TEXT + 1)
    for text in (right, faulty, long):
        for settings in ((0, 64, 8), (9, 64, 8), (2, 0, 8), (2, 513, 8), (2, 64, 0), (2, 64, 17), (4, 64, 9), (1, 65, 8)):
            yield question(*settings, text)
    for settings in ((65535, 64, 8), (2, 65535, 8), (2, 64, 65535), (0, 0, 0), (9, 513, 17), (1, 0, 0), (1, 513, 17), (8, 512, 16),
                     (1, 512, 17), (0, 512, 16), (5, 32, 8), (5, 33, 8), (6, 16, 8), (6, 17, 8), (6, 41, 2), (6, 42, 2), (7, 28, 1),
                     (7, 29, 1), (8, 14, 1), (8, 15, 1), (8, 10, 2), (8, 11, 2), (8, 4, 8), (8, 5, 8), (3, 64, 16), (3, 68, 16),
                     (3, 67, 16), (1, 512, 5), (1, 512, 6), (1, 201, 16), (1, 202, 16), (4, 64, 8), (4, 65, 8), (4, 71, 7),
                     (4, 72, 7), (2, 64, 16), (1, 64, 16)):
        yield question(*settings, right)
    # Where the records are too few, the text is read first.
    for text in ("", "sub A", "A", "abc A", "sub A B", "& one A one B", "?A one A", "one p", "?p one p", "~" * 33 + "one A"):
        yield question(1, 65, 8, text)


def length_faults():
    for many in (TEXT - 1, TEXT, TEXT + 1):
        yield usual(" " * (many - 5) + "one A")
        yield usual("one A" + " " * (many - 5))
        yield usual("one A" + "\n" * (many - 5))
        yield usual("sub A" + " " * (many - 5))
        yield usual(" " * many)
        yield usual("\n" * many)
        yield usual("~" * many)
        yield usual("a" * many)
        yield usual("sub A B" + " " * (many - 8) + "C")
        yield usual("sub A" + " " * (many - 7) + "ab")
        yield usual("sub" + " " * (many - 5) + "A" + " ")
        yield usual(b"one A" + b" " * (many - 6) + b"\xff")
        yield usual(b"\xff" + b" " * (many - 6) + b"one A")
    yield usual("sub A B" + " " * 1100)
    yield usual(" " * 1100 + "ab")
    yield usual("one A\n" * 200)
    yield usual("one A " * 170)
    for many in (254, 255, 256, 257, 511, 512, 513, 1000):
        yield usual(" " * many + "C")
        yield usual("\n" * many)
        yield question(1, 2, 4, " " * many + "one A")


def empty_texts():
    for text in ("", " ", "\n", "  ", " \n", "\n ", "\n\n\n", " " * 7 + "\n" + " " * 7):
        for sets in (1, 4):
            yield usual(text, sets)


def nesting_faults():
    for many in (NESTING, NESTING + 1, NESTING + 2):
        yield usual("~" * many + "one A")
        yield usual("~ " * many + "one A")
        yield usual("?A" * many + " one A")
        yield usual("!p" * many + " one p")
        yield usual("?p!A" * (many // 2) + "~" * (many % 2) + " sub p A")
        yield usual("& one A " * many + "one A")
        yield usual("&" * many + " one A" * (many + 1))
        yield usual(">~" * (many // 2) + "~" * (many % 2) + "emp A" + " emp B" * (many // 2))
        yield usual("| one A " + "~" * (many - 1) + " one A")
        yield usual("|" + "~" * (many - 1) + "one A one B")
        yield usual("& one A " + "~" * many + " one A")
        # Another fault on the same token, or none of a formula's beginnings.
        yield usual("~" * many)
        for last in ("A", "ab", "xyz A", "xyz", "-", "& one A one A", "~one A", "sub A B C", "?A one A", "?"):
            yield usual("~" * many + last)


def kind_faults():
    for text in ("A", "p", "A one", "sub sub A B", "sub A sub B", "sub & A B", "sub A & B", "? sub A B", "?~A one A", "?A B",
                 "?A A one A", "? one A", "! ! A one A", "!& one A one B", "& A one B", "& one A A", "| one A B one B", "~A",
                 "~ ~ A", "> ~A one A", "sub A B C", "sub A B A", "sub A B ~", "sub A B &", "sub A B ?", "sub A B sub A B",
                 "sub A B emp", "one A one", "one A\none A", "~one A A", "?A one A A", "& one A one B one A",
                 "& one A one B & one A", "sum A B A B", "sum A B ~", "emp A A", "emp emp A", "les A les", "suc A B |", "A B sub",
                 "AsubB", "A & B", "!A", "?A", "A?A one A", "sub A~B", "sub A!B", "&&one A~one B A"):
        yield usual(text)
        yield usual(" " + text + "\n")


def name_faults():
    for text in ("abc A", "xyz", "add A B C", "suo A B", "sun A B", "bus A B", "ona A", "ane A", "onf A", "emq A", "lef A B",
                 "suk A B", "zzz A", "aaa A", "~xyz A B", "?A xyz A", "& one A xyz B", "& xyz A one B", "> xyz A abc B",
                 "!p!q xyz p q", "sub A B xyz", "sub xyz A", "one xyz", "? xyz", "!xyz A", "xyz sub A B", "sub A xyz", "xyz A ab",
                 "xyz xyz", "or", "not A", "and A B", "all A one A", "xyz A B C D E", "xyz ~"):
        yield usual(text)


def run_faults():
    for many in (*range(1, 13), 31, 32, 33, 64, 100, 255, 256, 257, 1000):
        yield usual("a" * many)
        yield usual("one " + "a" * many)
        yield usual("one A " + "B" * many)
        yield usual("?" + "C" * many + " one A")
    for text in ("on A", "onE A", "oNe A", "One A", "ONE A", "ones A", "oneA", "one AB", "one Ab", "one ab", "subAB", "sub AB",
                 "subsub A B", "oneone A", "ABC", "SUB A B", "Sub A B", "suB A B", "sub A Bc", "sub A bc", "sub A BC", "AA", "Aa",
                 "aA", "sub A Bone", "~on A", "~onE A", "?AB one A", "?Aone A", "?Xone X", "& one A oneB", "& one A onne B",
                 "&one A one BB", "one A A", "one A AB", "one A abcd", "one A\nAB", "sub\nA\nB\n", "sub\nA\n\nB", "su\nb A B",
                 "s ub A B", "sub A B\nC", "one\n\n\n\nA", "o n e A"):
        yield usual(text)


def byte_faults():
    for byte in (0, 1, 9, 10, 11, 12, 13, 31, 32, 34, 39, 40, 45, 47, 48, 57, 58, 64, 91, 92, 95, 96, 123, 125, 127, 128, 129, 160,
                 191, 194, 195, 254, 255):
        one = bytes([byte])
        yield usual(one + b"one A")
        yield usual(b"one" + one + b"A")
        yield usual(b"sub A" + one + b" B")
        yield usual(b"o" + one + b"ne A")
        yield usual(b"?" + one + b"A one A")
    for text in ("one Ä", "ä A", "one A é", "∀A one A", "one A\0", "\0", "one A;", "(one A)", "&(one A)(one B)", "one(A)",
                 "sub A, B", "# one A", "1 one A", "one 1", "-", "=", "sub A B.", "\tone A", "one\tA", "one A\t", "one A\r\n",
                 "one A\x0b", "sub A = B", "%", "one A%20", "<", "> one A < one B"):
        yield usual(text)


def every_byte():
    """Each byte behind a formula that is complete."""
    for byte in range(256):
        yield usual(b"one A " + bytes([byte]))


# For each number of sets: a budget and a depth that fit, and two tables are enough.
ROOM = {1: (64, 8), 2: (64, 8), 3: (64, 8), 4: (64, 8), 5: (32, 8), 6: (16, 4), 7: (14, 4), 8: (10, 2)}


def letter_faults():
    def chain(letters):
        return "&" * (len(letters) - 1) + "".join(f" emp {letter}" for letter in letters)

    for sets, room in ROOM.items():
        for letters in ("ABCDEFGHI", "zZyYxXwWv", "IHGFEDCBA"):
            yield question(sets, *room, chain(letters[:sets]))
            yield question(sets, *room, chain(letters[:sets + 1]))
            yield question(sets, *room, chain(letters[:sets + 1]) + " A")
        yield question(sets, *room, "".join(f"?{letter}" for letter in "ABCDEFGHI"[:sets + 1]) + " emp A")
        yield question(sets, *room, "".join(f"!{letter}" for letter in "ABCDEFGHI"[:sets]) + " emp I")
    for text in ("sub A B", "sub A a", "sub a A", "?A one B", "?B one A", "& one A one B", "& one A B", "one A B", "& one A ~ B",
                 "?A sub A A", "sub A BC", "sub A bcd", "suc A xyz", "& one A xyz B", "?B", "one B", "sum A A B", "sum A B B",
                 "sum B A A", "?A?B?C one A", "| emp A | emp A emp B"):
        yield usual(text, 1)
    for text in ("sum A B C", "sum a A B", "?C sum A B C", "!p?q sub r X", "& sub A B one C", "& sub A B C", "& sub A B ?C one A",
                 "sub A B C"):
        yield usual(text, 2)
        yield usual(text, 3)


def ended_early():
    for text in ("& ?X sub p X > ~one A sum A B C", "!p | les p q\n& suc p q emp A"):
        for many in range(len(text) + 1):
            yield usual(text[:many], 4)
    for text in ("sub", "sub A", "~", "&", "& one A", "> one A", "?", "!", "?A", "!p", "sum A", "sum A B", "~~~", "&&&",
                 "& & one A one B", "?A?B", "| sub A B sub A", "& one A ~", "& one A ?", "& one A ?B", "les", "suc p", "emp"):
        for behind in ("", " ", "\n", "  \n"):
            yield usual(text + behind)


def two_faults():
    for text in ("A ab", "ab A", "sub xyz ab", "sub ab xyz", "xyz A ab", "xyz ab", "sub A B C -", "sub A B - C", "- xyz", "xyz -",
                 "& one A B C", "one A B one C D", "& A & B", "one A ab cd", "one A A ab", "one A abc ab", "one A ab abc",
                 "?ab cd A", "?abc ab A", "~A~B", "&& A xyz B", "one ~ ~", "one - -", "-", "--", "one A - -", "abc abc", "AB CD",
                 "& ab cd", "& one A & one B & one C ab", "& one A & one B ab & one C", "sub A", "sub -", "xyz", "? xyz", "ab",
                 "one ab"):
        yield usual(text, 1)
        yield question(1, 1, 1, text)
    for text in ("& one A one B ab", "& one A & one B xyz", "one p A", "?p one p -", "& one A & one B & one A B", "one A one"):
        yield question(2, 2, 1, text)


def full_trays():
    for depth in (*range(1, 9), 12, 16):
        budget = 64 if depth <= 8 else 30
        yield question(2, budget, depth, "& one A " * depth + "one B")
        yield question(2, budget, depth, "& emp A " * (depth - 1) + "emp B")
        yield question(2, budget, depth, "&" * depth + " emp A" * (depth + 1))
        yield question(2, budget, depth, "| emp A " * (depth - 1) + "?p sub p A")
        yield question(2, budget, depth, "> emp A " * (depth - 1) + "!p sub p A")
        yield question(2, budget, depth, "& emp A " * (depth - 1) + "sub p A")
    for text in ("one A", "one p", "emp p", "?A one A", "?p one p", "!p one p", "& one A one B", "~one p", "sub p q", "?A sub p A",
                 "& one p one q", "?p sub p q", "~~~one A", "!A!B sub A B", "?A & one A one A", "> one A one A", "  one   p",
                 "~ ?A sub A p"):
        yield question(2, 64, 1, text)
        yield question(2, 2, 1, text)
    for text in ("& ?p sub p A sub p A", "| !p sub p A sub q p", "& one q ?q one q", "& sub p A ?q & sub q A sub p q",
                 "& ?p one p one p", "?A & sub A p sub p A", "& emp A & emp B one p", "& & emp A emp B sub p q",
                 "> > one p one q one p"):
        for depth in (1, 2, 3):
            yield question(4, 64, depth, text)


def small_budgets():
    for text, most in (("one A", 3), ("sub A B", 2), ("suc A B", 4), ("les A B", 4), ("sum A B C", 3), ("emp A", 2), ("suc A A", 2),
                       ("les A A", 2), ("sub A A", 1), ("sum A A A", 2), ("sum A A B", 3), ("sum A B A", 3), ("sum A B B", 3),
                       ("one p", 4), ("emp p", 4), ("sub p p", 3), ("~one A", 3), ("?A one A", 3), ("!A one A", 3), ("?p emp p", 4),
                       ("?A emp B", 2), ("& one A one B", 9), ("| one A one B", 9), ("> one A one B", 9), ("& one A one A", 3),
                       ("?C sum A B C", 3), ("!C sum A B C", 4), ("?A sum A B C", 4), ("& sub A B sub B C", 4),
                       ("  ~ & one A   ~ one B", 9), ("sub p q", 9), ("!p!q les p q", 9), ("& emp A ?X & one X sub X B", 6),
                       ("> suc A B les A B", 8), ("?A & suc A B suc C A", 8), ("& sub q A ?p & sub p A suc p q", 12),
                       ("| ?p sub p A & one q sub q B", 12)):
        for budget in range(1, most + 1):
            yield question(4, budget, 8, text)
    for text in ("| | | | suc A C sum D A C les D B sum A C C suc B C", "?B | | | | ~sub C C suc A B les A B sum D C B suc D C",
                 "?A & & & & sub B B ~sum C D A ~sum D D D ~sum A A B ~sum A C D"):
        for budget in (16, 32, 48, 62, 63, 64):
            yield question(4, budget, 8, text)
    # What is found first: full, too many states, and each at its own place.
    for settings in ((1, 1, 1), (1, 2, 1), (1, 2, 2), (1, 3, 1), (1, 3, 2), (2, 8, 2), (2, 9, 2), (2, 8, 1), (2, 3, 2)):
        for text in ("& emp A one A", "& one A emp A", "& one A ?A one A", "one a"):
            yield question(*settings, text)


BY_HAND = {"heading": heading_faults, "values": value_faults, "settings": setting_faults, "lengths": length_faults,
           "empty": empty_texts, "nesting": nesting_faults, "kinds": kind_faults, "names": name_faults, "runs": run_faults,
           "bytes": byte_faults, "every byte": every_byte, "letters": letter_faults, "ends": ended_early, "two faults": two_faults,
           "full": full_trays, "budgets": small_budgets}


# ---- By chance ----

QUOTAS = {**{f"{number}": 6 for number in (1, 2, 3, 9, 16, 17)}, "4": 12, "10": 45, "11": 40, "12": 25, "13": 45, "14": 35,
          "15": 40, "21 letter": 12, "21 mark": 20, "21 name": 25, "23 letter": 25, "23 mark ?": 20, "23 mark !": 20,
          "23 mark &": 20, "23 mark |": 20, "23 mark >": 20, "23 name": 25, "right": 60}


def joined(rng, parts):
    """Tokens as a text, with blanks and line feeds by chance, and as few as may be at times."""
    wide = rng.choice((b"", b" ", b" ", b" \n", b"    \n"))
    text = bytes(rng.choices(wide, k=rng.randint(0, 3))) if wide else b""
    for at, part in enumerate(parts):
        apart = at and parts[at - 1][-1:].isalpha() and part[:1].isalpha() and rng.random() < 0.99
        text += (b" " if apart else b"") + (bytes(rng.choices(wide, k=rng.randint(0, 2))) if wide and at else b"") + part
    return text + (rng.choice((b"", b"\n", b" ")) if rng.random() < 0.4 else b"")


def changed(rng, parts):
    """Tokens with one or two changes."""
    parts = list(parts)
    for _ in range(rng.choice((1, 1, 1, 2))):
        at = rng.choice((0, len(parts) - 1, rng.randrange(len(parts)), rng.randrange(len(parts)))) if parts else 0
        new = rng.choice((bytes([rng.choice(MARKS)]), rng.choice(list(PLACES)).encode(), bytes([rng.choice(b"ABCDXYZpqrxyz")]),
                          bytes(rng.choices(b"abcdelmnopsux", k=3)), bytes(rng.choices(b"abcABCxyz", k=rng.choice((2, 2, 3, 4, 5)))),
                          bytes([rng.randrange(256)])))
        match rng.randrange(8):
            case 0 | 1:
                parts[at:at + 1] = [new]
            case 2:
                parts.insert(at + rng.randrange(2), new)
            case 3:
                del parts[at:at + 1]
            case 4:
                del parts[at:]
            case 5 if len(parts) > 1:
                at = rng.randrange(len(parts) - 1)
                parts[at:at + 2] = reversed(parts[at:at + 2])
            case 6:
                parts[at:at] = [rng.choice((b"~", b"~", b"?A", b"!p"))] * rng.randint(25, 34)
            case _:
                parts[at:at] = parts[at:at + rng.randint(1, 4)]
    return parts


def settings_by_chance(rng):
    sets = rng.choice((1, 2, 3, 4, 4, 4, 5, 6))
    budget, depth = ROOM[sets]
    match rng.randrange(6):
        case 0:
            return sets, budget, depth
        case 1 | 2:
            return sets, rng.randint(1, 12), depth
        case 3:
            return sets, budget, rng.randint(1, 3)
        case 4:
            return sets, rng.randint(2, 60), rng.randint(1, depth)
        case _:
            sets, budget = rng.choice((0, 1, 2, 3, 4, 5, 8, 9)), rng.choice((0, 1, 16, 64, 65, 100, 512, 513))
            return sets, budget, rng.choice((0, 1, 2, 5, 8, 9, 16, 17))


def by_chance(rng, right):
    """An input that was made of the tokens of a right text."""
    parts = [token.said.encode() for token in tokens(rng.choice(right))]
    if rng.random() < 0.5:
        parts = changed(rng, parts)
    text = joined(rng, parts)
    if rng.random() < 0.02:
        text += b" " * (TEXT - len(text) + rng.randint(0, 2))
    given = bytearray(question(*settings_by_chance(rng), text))
    if rng.random() < 0.02:
        at = rng.randrange(given.index(b"\n", len(HEADING)) + 1)
        given[at] ^= 1 << rng.randrange(8)
    return bytes(given)


def key(given):
    """The number of the fault; of a refused call also what stands at its place."""
    try:
        build(given)
    except Refused as fault:
        if fault.number not in (21, 23):
            return f"{fault.number}"
        text = given.split(b"\n", 2)[2]
        token = next(each for each in tokens(text) if each.place == fault.place)
        kind = "letter" if token.kind == "variable" else token.kind
        return f"{fault.number} {kind}" + (f" {token.said}" if kind == "mark" and fault.number == 23 else "")
    return "right"


def inputs(seed, right):
    """Each input once, with the name of its group; right are right texts."""
    seen = set()
    for group, make in BY_HAND.items():
        for given in make():
            if given not in seen:
                seen.add(given)
                yield group, given
    rng = random.Random(f"{seed} faults")
    due = dict(QUOTAS)
    while any(due.values()):
        given = by_chance(rng, right)
        if given not in seen and due.get(name := key(given), 0):
            seen.add(given)
            due[name] -= 1
            yield "changed", given
