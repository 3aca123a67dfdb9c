#!/usr/bin/env python3
"""Prints commands for `cutter` over many small lines, the same ones each time: readings, marks, shortest stretches, divisions,
and input that must be refused.

Usage: cases.py [LINES] [SEED] > COMMANDS
"""
import random
import sys


def number(rng, high):
    """Mostly from 0 to high + 2, now and then far too large."""
    return rng.choice([99999, 2**70]) if rng.random() < 0.02 else rng.randint(0, high + 2)


def line_of_commands(rng):
    kind = rng.choice(["squares", "squares", "distances", "votes"])
    n = rng.randint(1, 7)
    low, high = (0, 3) if kind == "votes" else rng.choice([(-9, 9), (3, 5), (-300, 300)])
    out = [f"loss {kind}"]
    readings = [rng.randint(low, high) for _ in range(n)]
    split = rng.randint(0, n)
    for part in (readings[:split], readings[split:]):
        if part:
            out.append("readings " + " ".join(map(str, part)))
    if rng.random() < 0.1:
        out.append(rng.choice(["readings 40000", "readings 2 x", "readings", "readings -32769 1", "readings 1 -"]))
    for _ in range(rng.randint(0, 3)):
        first = rng.randint(0, n)
        out.append(f"mark {number(rng, first)} {number(rng, n)} {rng.choice([0, 0, 1, 1, 1, 2])}")
    if rng.random() < 0.4:
        out.append(f"shortest {number(rng, n // 2)}")
    if rng.random() < 0.2:
        out.append(f"unmark {rng.randint(0, n)}")
    for _ in range(2):
        gaps = sorted(rng.sample(range(1, n), rng.randint(0, n - 1))) if n > 1 else []
        if rng.random() < 0.15:
            gaps = [number(rng, n) for _ in range(rng.randint(1, 3))]
        penalty = rng.choice([0, 1, 2, 7, 40, 2**49, 2**49 + 1])
        out.append(" ".join([f"price {penalty} at"] + [str(g) for g in gaps]))
        out.append(rng.choice([f"best {penalty}", f"best {rng.randint(0, 30)}", f"best count {number(rng, n)}"]))
    out.append("path")
    return out


def main():
    lines = int(sys.argv[1]) if len(sys.argv) > 1 else 250
    rng = random.Random(int(sys.argv[2]) if len(sys.argv) > 2 else 1)
    for number_of in range(1, lines + 1):
        print(f"# line {number_of}")
        for command in line_of_commands(rng):
            print(command)


main()
