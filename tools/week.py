#!/usr/bin/env python3
"""Writes a week of N lines for `report` and `replay`: week.py SEED N.

Eight stores and some fifty conversations that share beginnings; then bring-ins, touches, removals, expiries and lookups, mostly of spans that are there, now and
then of one that is not. Only lines that both programs carry out."""
import random
import sys

STORES = "8 refresh 64 fifo 500 refresh 0 fifo 16 fifo 128 refresh 1000 fifo 31 refresh"


def lists(rng):
    """Conversations: each goes on from some point of an earlier one."""
    made = []
    for number in range(50):
        start = []
        if made and rng.random() < 0.7:
            other = rng.choice(made)
            start = other[:rng.randrange(len(other))]
        made.append(start + [1000 * number + i + 1 for i in range(rng.randrange(5, 30))])
    return made


def span(rng):
    start = rng.randrange(12)
    return f"{rng.randrange(1, 90)} {start} {start + rng.randrange(1, 9)}"


def line(rng, known, time):
    store = rng.randrange(8)
    kind = rng.random()
    if kind < 0.08:
        return "insert " + " ".join(map(str, rng.choice(known)))
    if kind < 0.50:
        return f"bring {store} {span(rng)} {time} {rng.randrange(5)}"
    if kind < 0.70:
        return f"touch {store} {time} {rng.randrange(2)} {span(rng)}"
    if kind < 0.82:
        return f"remove {store} {span(rng)}"
    if kind < 0.85:
        return f"expire {rng.randrange(9)} {time} {rng.choice([60, 600, 6000])}"
    tiers = ",".join(map(str, rng.sample(range(8), rng.randrange(1, 5))))
    return f"lookup {tiers} : " + " ".join(map(str, rng.choice(known)))


def main():
    if len(sys.argv) != 3:
        sys.exit("usage: week.py SEED N")
    seed, count = int(sys.argv[1]), int(sys.argv[2])
    rng = random.Random(seed)
    known = lists(rng)
    out = sys.stdout
    out.write(f"setup each 4096 {STORES}\n")
    time = 0
    for _ in range(count - 1):
        time += rng.randrange(3)
        out.write(line(rng, known, time) + "\n")


main()
