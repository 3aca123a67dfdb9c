#!/usr/bin/env python3
"""Says what `cutter` must print, by brute force: every division is listed, tested and priced by the rules alone.

Usage: brute.py < COMMANDS > EXPECTED      (lines of at most a dozen readings: a line of n has 2^(n-1) divisions)

It shares nothing with the cutter: no dynamic programming, no prefix sums; levels are tried one by one.
"""
import itertools
import sys

NAMES = {
    11: "malformed line",
    12: "unknown kind, or a length that does not fit it",
    13: "reading outside its loss's range",
    14: "mark that cannot stand on this line",
    15: "shortest stretch outside the line",
    16: "penalty above 2^49",
    17: "count above the number of gaps",
    18: "stretch outside the loss",
    21: "more than 512 readings",
    22: "mark shares a gap with a standing one",
    23: "64 marks stand already",
    24: "no mark begins there",
    25: "no allowed division",
    28: "no reading",
}
HELP = """\
loss squares|distances|votes      begin a new line under that loss (squares at the start)
readings 3 3 8 9 4 4              take readings behind those held, all of them or none
mark FIRST LAST BOUNDARIES        exactly 0 or 1 of the gaps FIRST to LAST - 1 is a boundary
unmark FIRST                      lift the mark that begins at reading FIRST
shortest M                        every stretch holds at least M readings
price PENALTY at GAP GAP ..       check the division with these boundaries
best PENALTY                      the cheapest allowed division at that penalty for each boundary
best count COUNT                  the cheapest allowed division with so many boundaries
path                              for every penalty, how many boundaries are best
help                              print this list
# ..                              a comment
Gap i lies between reading i and reading i + 1."""

PRICES = {
    "squares": lambda d: d * d,
    "distances": abs,
    "votes": lambda d: int(d != 0),
}
LARGEST_PENALTY = 2**49


class Refused(Exception):
    pass


class Line:
    def __init__(self, kind):
        self.kind = kind
        self.readings = []
        self.marks = []
        self.shortest = 1
        self.losses = {}

    def loss(self, a, b):
        """The least price of the readings a + 1 to b over the levels between them."""
        if (a, b) not in self.losses:
            part = self.readings[a:b]
            price = PRICES[self.kind]
            self.losses[a, b] = min(sum(price(x - v) for x in part) for v in range(min(part), max(part) + 1))
        return self.losses[a, b]

    def stretches(self, gaps):
        return list(zip([0] + gaps, gaps + [len(self.readings)]))

    def division_loss(self, gaps):
        return sum(self.loss(a, b) for a, b in self.stretches(gaps))

    def inside(self, mark, gaps):
        first, last, _ = mark
        return sum(first <= g < last for g in gaps)

    def long_enough(self, gaps):
        return all(b - a >= self.shortest for a, b in self.stretches(gaps))

    def allowed(self, gaps):
        return self.long_enough(gaps) and all(self.inside(k, gaps) == k[2] for k in self.marks)

    def divisions(self):
        n = len(self.readings)
        for k in range(n):
            for gaps in itertools.combinations(range(1, n), k):
                yield list(gaps)

    def best(self, total, candidates):
        """The least total; then fewer boundaries; then the later last boundary, the one before it, and so on."""
        ranked = [(total(g), len(g), [-x for x in reversed(g)], g) for g in candidates]
        if not ranked:
            raise Refused(25)
        return min(ranked)[3]

    def winner(self, penalty):
        return self.best(lambda g: self.division_loss(g) + penalty * len(g), filter(self.allowed, self.divisions()))

    def winner_of_count(self, count):
        return self.best(self.division_loss, (g for g in self.divisions() if len(g) == count and self.allowed(g)))

    def path(self):
        """Steps (first penalty, count, loss): which count wins, at every penalty where that can change."""
        least = {}
        for gaps in filter(self.allowed, self.divisions()):
            loss = self.division_loss(gaps)
            least[len(gaps)] = min(loss, least.get(len(gaps), loss))
        if not least:
            raise Refused(25)
        changes = {0}
        for (j, lj), (k, lk) in itertools.permutations(least.items(), 2):
            if j < k and lj >= lk:
                changes |= {(lj - lk) // (k - j), -((lk - lj) // (k - j))}
        steps = []
        for p in sorted(changes):
            if p <= LARGEST_PENALTY:
                count = min(least, key=lambda k: (least[k] + p * k, k))
                if not steps or steps[-1][1] != count:
                    steps.append((p, count, least[count]))
        return steps


def natural(word, bits):
    if not word.isdigit():
        raise Refused(11)
    return min(int(word), 2**bits - 1)


def integer(word):
    digits = word[1:] if word.startswith("-") else word
    natural(digits, 64)
    return max(-(2**31), min(2**31 - 1, int(word)))


def readings(line, words):
    if not words:
        raise Refused(12)
    xs = [integer(w) for w in words]
    low, high = (0, 15) if line.kind == "votes" else (-32768, 32767)
    if not all(low <= x <= high for x in xs):
        raise Refused(13)
    if len(line.readings) + len(xs) > 512:
        raise Refused(21)
    line.readings += xs
    line.losses = {}
    return [f"readings: {len(xs)} taken, {len(line.readings)} held"]


def lay(line, words):
    if len(words) != 3:
        raise Refused(12)
    first, last, y = natural(words[0], 16), natural(words[1], 16), natural(words[2], 8)
    if not (1 <= first < last <= len(line.readings) and y <= 1):
        raise Refused(14)
    if any(first < k[1] and k[0] < last for k in line.marks):
        raise Refused(22)
    if len(line.marks) >= 64:
        raise Refused(23)
    line.marks = sorted(line.marks + [(first, last, y)])
    return [f"mark {first} {last} {y}: laid, {len(line.marks)} in all"]


def lift(line, words):
    if len(words) != 1:
        raise Refused(12)
    first = natural(words[0], 16)
    if first not in [k[0] for k in line.marks]:
        raise Refused(24)
    line.marks = [k for k in line.marks if k[0] != first]
    return [f"unmark {first}: lifted, {len(line.marks)} in all"]


def set_shortest(line, words):
    if len(words) != 1:
        raise Refused(12)
    m = natural(words[0], 16)
    if not 1 <= m <= len(line.readings):
        raise Refused(15)
    line.shortest = m
    return [f"shortest {m}: set"]


def check_opening(line):
    if not line.readings:
        raise Refused(28)


def price(line, words):
    if not words or len(words) > 1 and words[1] != "at":
        raise Refused(12)
    penalty = natural(words[0], 64)
    gaps = [natural(w, 16) for w in words[2:]]
    check_opening(line)
    if penalty > LARGEST_PENALTY:
        raise Refused(16)
    if any(a >= b for a, b in line.stretches(gaps)):
        raise Refused(18)
    loss = line.division_loss(gaps)
    out = [" ".join([f"price {penalty} at"] + [str(g) for g in gaps])]
    out += [f"  readings {a + 1} to {b} lose {line.loss(a, b)}" for a, b in line.stretches(gaps)]
    for k in line.marks:
        verdict = "obeyed" if line.inside(k, gaps) == k[2] else "broken"
        out.append(f"  mark {k[0]} {k[1]} {k[2]} holds {line.inside(k, gaps)}: {verdict}")
    long = "every stretch is long enough" if line.long_enough(gaps) else "a stretch is too short"
    out.append(f"  shortest {line.shortest}: {long}")
    out.append(f"  loss {loss}, total {loss + penalty * len(gaps)}")
    out.append("  allowed" if line.allowed(gaps) else "  not allowed")
    out.append("  " + compared(line, penalty, gaps))
    return out


def shown(gaps):
    return "boundaries " + " ".join(map(str, gaps)) if gaps else "no boundary"


def compared(line, penalty, gaps):
    try:
        best = line.winner(penalty)
    except Refused:
        return "no division is allowed"
    if best == gaps:
        return "the winner"
    total = line.division_loss(best) + penalty * len(best)
    more = line.division_loss(gaps) + penalty * len(gaps) - total
    difference = f"{more} less" if more >= 0 else f"{-more} more"
    return f"the winner has {shown(best)}, total {total}: {difference}"


def best(line, words):
    by_count = len(words) == 2 and words[0] == "count"
    if len(words) != 1 and not by_count:
        raise Refused(12)
    number = natural(words[-1], 16 if by_count else 64)
    if by_count and number > len(line.readings) - 1:
        raise Refused(17)
    if not by_count and number > LARGEST_PENALTY:
        raise Refused(16)
    check_opening(line)
    if by_count:
        gaps = line.winner_of_count(number)
        return [f"best count {number}: {shown(gaps)}, total {line.division_loss(gaps)}"]
    gaps = line.winner(number)
    return [f"best {number}: {shown(gaps)}, total {line.division_loss(gaps) + number * len(gaps)}"]


def path(line, words):
    if words:
        raise Refused(12)
    check_opening(line)
    steps = line.path()
    out = [f"path: {len(steps)} in all"]
    return out + [f"  from penalty {p}: {k} boundaries, loss {loss}" for p, k, loss in steps]


CALLS = {"readings": readings, "mark": lay, "unmark": lift, "shortest": set_shortest, "price": price, "best": best, "path": path}


def answer(state, text):
    if len(text) > 4096 or any(not (c in b" \t\r" or 33 <= c <= 126) for c in text):
        raise Refused(11)
    words = text.decode().split()
    if not words or words[0].startswith("#"):
        return []
    name, rest = words[0], words[1:]
    if name == "help" and not rest:
        return [HELP]
    if name == "loss" and len(rest) == 1 and rest[0] in PRICES:
        state["line"] = Line(rest[0])
        return [f"loss {rest[0]}: a new line"]
    if name not in CALLS:
        raise Refused(12)
    return CALLS[name](state["line"], rest)


def main():
    data = sys.stdin.buffer.read()
    lines = data.split(b"\n")
    if lines[-1] == b"":
        lines.pop()
    state = {"line": Line("squares")}
    for number, text in enumerate(lines, 1):
        try:
            out = answer(state, text)
        except Refused as refusal:
            number_of = refusal.args[0]
            out = [f"line {number}: refused {number_of}, {NAMES[number_of]}"]
        for printed in out:
            print(printed)


main()
