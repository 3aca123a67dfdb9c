#!/usr/bin/env python3
"""Prints crates/worked_runs/src/table.rt: runs of calls of a line, with the replies and lists that they must end in.

Usage: runs.py > TABLE

Every expected number is found by brute force from the rules alone: every set of gaps is listed, tested and priced, levels are
tried one by one, and at each penalty where the winner can change the winner is looked up afresh. It shares nothing with the cutter.
"""
import random

LARGEST_PENALTY = 2**49
NUMBERS, TRACE, PLACES, STEPS = 21, 42, 5, 6  # what the tests lend
NAMES = {
    14: "BadMark",
    15: "BadShortest",
    16: "BadPenalty",
    17: "BadCount",
    22: "SharedGap",
    24: "NoSuchMark",
    25: "NoAllowedDivision",
    26: "ShortBuffer",
    29: "WrongState",
}


class Refused(Exception):
    pass


class Line:
    def __init__(self, readings):
        self.readings = readings
        self.n = len(readings)
        self.marks = []
        self.shortest = 1
        self.cut = False
        self.boundaries = []
        self.steps = []

    def need(self, fine, number):
        if not fine:
            raise Refused(number)

    def price(self, gaps):
        """The least sum of squared distances from a whole level, over the stretches between the gaps."""
        ends = [0] + gaps + [self.n]
        parts = [self.readings[a:b] for a, b in zip(ends, ends[1:])]
        return sum(min(sum((x - v) ** 2 for x in part) for v in range(min(part), max(part) + 1)) for part in parts)

    def allowed(self):
        """Every allowed division, as a list of its gaps."""
        for chosen in range(2 ** (self.n - 1)):
            gaps = [g for g in range(1, self.n) if chosen >> (g - 1) & 1]
            ends = [0] + gaps + [self.n]
            long = all(b - a >= self.shortest for a, b in zip(ends, ends[1:]))
            if long and all(sum(first <= g < last for g in gaps) == y for first, last, y in self.marks):
                yield gaps

    def best(self, penalty, divisions):
        """The cheapest; of equals the one with fewer boundaries, then the later last one, and so on."""
        return min(divisions, key=lambda g: (self.price(g) + penalty * len(g), len(g), [-x for x in g[::-1]]))

    def mark(self, first, last, y):
        self.need(1 <= first < last <= self.n and y <= 1, 14)
        self.need(all(last <= f or l <= first for f, l, _ in self.marks), 22)
        self.marks.append((first, last, y))
        return f"Standing({len(self.marks)})"

    def unmark(self, first):
        kept = [k for k in self.marks if k[0] != first]
        self.need(len(kept) < len(self.marks), 24)
        self.marks = kept
        return f"Standing({len(kept)})"

    def set_shortest(self, m):
        self.need(1 <= m <= self.n, 15)
        self.shortest = m
        return f"Shortest({m})"

    def take_path(self, numbers):
        self.need(min(numbers, NUMBERS) >= 3 * (self.n + 1) and STEPS >= self.n, 26)
        divisions = list(self.allowed())
        self.need(divisions, 25)
        rises = {self.price(g) - self.price(h) for g in divisions for h in divisions}
        asked = {0} | {p for rise in rises for k in range(1, self.n) for p in (rise // k, rise // k + 1) if p >= 0}
        steps = []
        for p in sorted(asked):
            best = self.best(p, divisions)
            if not steps or steps[-1][1] != len(best):
                steps.append((p, len(best), self.price(best)))
        self.steps = steps
        return "Path"

    def take_cut(self, by, number, numbers, trace):
        self.need(number <= LARGEST_PENALTY if by == "Penalty" else number < self.n, 16 if by == "Penalty" else 17)
        rows = 1 if by == "Penalty" else number + 1
        roomy = min(numbers, NUMBERS) >= 3 * (self.n + 1) and min(trace, TRACE) >= rows * (self.n + 1) and PLACES >= self.n - 1
        self.need(roomy, 26)
        divisions = [g for g in self.allowed() if by == "Penalty" or len(g) == number]
        self.need(divisions, 25)
        penalty = number if by == "Penalty" else 0
        self.boundaries = self.best(penalty, divisions)
        self.cut = True
        return f"Total({self.price(self.boundaries) + penalty * len(self.boundaries)})"

    def reopen(self):
        self.cut = False
        return "Reopened"

    def reply(self, call):
        name, *rest = call
        calls = {"mark": self.mark, "unmark": self.unmark, "shortest": self.set_shortest, "path": self.take_path, "cut": self.take_cut, "reopen": self.reopen}
        try:
            self.need(self.cut == (name == "reopen"), 29)
            return f"Ok(Answer::{calls[name](*rest)})"
        except Refused as refusal:
            return f"Err(Fault::{NAMES[refusal.args[0]]})"


def mark(first, last, y):
    return ("mark", first, last, y)


def penalty(p, numbers=64, trace=64):
    return ("cut", "Penalty", p, numbers, trace)


def count(k, numbers=64, trace=64):
    return ("cut", "Count", k, numbers, trace)


PATH = ("path", 64)
REOPEN = ("reopen",)
LINE_A = [3, 3, 8, 9, 4, 4]
RUNS = {
    "line_a": (LINE_A, [mark(1, 3, 1), penalty(20), PATH, REOPEN, ("unmark", 1), PATH, ("shortest", 3), penalty(0)]),
    "refusals_in_order": (
        LINE_A,
        [("shortest", 3), penalty(0), REOPEN, mark(1, 3, 1), penalty(0), PATH, count(6), penalty(2**49 + 1)]
        + [penalty(0, 20), ("path", 20), penalty(0, 21, 6), count(2, 21, 20), mark(2, 4, 0), mark(3, 7, 0), ("shortest", 7), ("unmark", 2)],
    ),
    "wrong_state": ([5, 5, 1], [REOPEN, mark(1, 2, 0), count(1), mark(2, 3, 0), ("unmark", 1), ("shortest", 1), PATH, count(1), REOPEN, penalty(0)]),
    "one_reading": ([-7], [PATH, mark(1, 1, 0), count(1), count(0), REOPEN, ("shortest", 1), penalty(9, 6, 2), REOPEN, penalty(9, 5, 2)]),
}


def any_call(rng, line):
    """A call that mostly suits the state of the line."""
    n = line.n
    if line.cut and rng.random() < 0.8:
        return REOPEN
    first = rng.randint(1, n - 1)
    some = 2 * [mark(first, rng.randint(first + 1, n), rng.randint(0, 1))] + [("unmark", k[0]) for k in line.marks[:1]]
    some += [("shortest", rng.randint(1, 2)), PATH, penalty(rng.randint(0, 30)), penalty(rng.randint(0, 9)), count(rng.randint(0, n - 2))]
    return rng.choice(some)


def any_run(seed):
    """Six readings and sixteen calls, the same ones each time."""
    rng = random.Random(seed)
    line = Line([rng.randint(-9, 9) for _ in range(6)])
    calls = []
    for _ in range(16):
        calls.append(any_call(rng, line))
        line.reply(calls[-1])
    return line.readings, calls


for seed in (1, 2, 3):
    RUNS[f"any_calls_{seed}"] = any_run(seed)


def lent(numbers, trace):
    if (numbers, trace) == (64, 64):
        return ["ALL"]
    return ["Lent {", f"    numbers: {numbers},", f"    trace: {trace},", "}"]


def shown(call):
    """The call in lines, as the formatter lays it out."""
    name, *rest = call
    if name == "mark":
        first, last, y = rest
        return ["Call::Mark(Mark {", f"    first: {first},", f"    last: {last},", f"    boundaries: {y},", "}),"]
    if name == "unmark":
        return [f"Call::Unmark({rest[0]}),"]
    if name == "shortest":
        return [f"Call::Shortest({rest[0]}),"]
    if name == "reopen":
        return ["Call::Reopen,"]
    if name == "path":
        part = lent(rest[0], 64)
        return [f"Call::Path({part[0]}"] + part[1:-1] + (["}),"] if part[1:] else []) if part[1:] else ["Call::Path(ALL),"]
    by, number, numbers, trace = rest
    part = lent(numbers, trace)
    if part[1:]:
        return ["Call::Cut("] + [f"    Criterion::{by}({number}),"] + ["    " + x for x in part[:-1]] + ["    },", "),"]
    return [f"Call::Cut(Criterion::{by}({number}), ALL),"]


def listed(lines):
    """A lent array over several lines; one struct alone stands within its brackets."""
    if lines[:1] == ["Step {"] and lines.count("Step {") == 1:
        return ["        &[" + lines[0]] + ["        " + x for x in lines[1:-1]] + ["        }],"]
    return ["        &["] + ["            " + x for x in lines] + ["        ],"] if lines else ["        &[],"]


def table():
    out = ["// Runs of calls with what they must end in, as tools/runs.py prints them: change them there."]
    out += ["use crate::running::{ALL, run};", "use division::mark::Mark;", "use envelope::Step;", "use fault::Fault;"]
    out += ["use line::Criterion;", "use runs::model::{Answer, Call, Lent};", "use std::test::Fail;"]
    for name, (readings, calls) in RUNS.items():
        line = Line(readings)
        replies, cuts = [], 0
        for call in calls:
            replies.append(line.reply(call))
            cuts += line.cut and line.boundaries != []
        out += ["", "#[test]", f"fn {name}(rt: HostRuntime) -> Result<(), Fail> {{", "    run(", "        &rt,"]
        out += ["        &[" + ", ".join(map(str, readings)) + "],"]
        out += listed([x for call in calls for x in shown(call)])
        out += listed([reply + "," for reply in replies])
        out += ["        &[" + ", ".join(map(str, line.boundaries)) + "],"]
        out += listed([x for p, k, loss in line.steps for x in ("Step {", f"    penalty: {p},", f"    count: {k},", f"    loss: {loss},", "},")])
        out += [f"        {cuts},", "    )", "}"]
    print("\n".join(out))


table()
