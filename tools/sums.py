#!/usr/bin/env python3
"""The report of a trace, summed from `replay`'s answers: sums.py TRACE ANSWERS.

It keeps which blocks each store holds by itself, from the spans that went in and out, so that blocks brought in and removed are counted and not taken from a
balance. Only the lines that `report` carries out may stand in TRACE, each with its answer in ANSWERS."""
import sys
from collections import Counter

KINDS = ("in", "room", "age", "back", "removed", "bytes", "dead")


class Store:
    def __init__(self, capacity, policy):
        self.capacity, self.policy = int(capacity), policy
        self.held = set()
        self.sums = dict.fromkeys(KINDS, 0)

    def cut(self, node, kept, new):
        moved = {(n, i) for n, i in self.held if n == node and kept <= i}
        self.held -= moved
        self.held |= {(new, i - kept) for _, i in moved}

    def take(self, node, start, end):
        gaps = {(node, i) for i in range(start, end)} - self.held
        self.sums["in"] += len(gaps)
        self.held |= gaps

    def give(self, outs, kind):
        for out in outs:
            where, _, size, dead = out.split(",")
            node, ends = where.split(":")
            start, end = map(int, ends.split("-"))
            blocks = {(int(node), i) for i in range(start, end)}
            if kind != "back":
                if not blocks <= self.held:
                    sys.exit(f"sums.py: {out} was given out and not held")
                self.held -= blocks
            self.sums[kind] += len(blocks)
            self.sums["bytes"] += int(size.removeprefix("bytes="))
            self.sums["dead"] += int(dead.removeprefix("dead="))

    def remove(self, node, start, end):
        gone = {(node, i) for i in range(start, end)} & self.held
        self.held -= gone
        self.sums["removed"] += len(gone)

    def line(self, number):
        shown = [("cap", self.capacity), ("pol", self.policy)]
        shown += [(k, self.sums[k]) for k in KINDS[:5]] + [("held", len(self.held))] + [(k, self.sums[k]) for k in KINDS[5:]]
        return f"store {number} " + " ".join(f"{k}={v}" for k, v in shown)


def between(words, first, last):
    return words[words.index(first) + 1 : words.index(last) if last else None]


def carry_out(stores, lookups, words, answer):
    call = words[0]
    if call == "insert" and "cut" in answer:
        node, kept, new = map(int, answer[-3:])
        for store in stores:
            store.cut(node, kept, new)
    elif call == "bring":
        store = stores[int(words[1])]
        if store.capacity:
            store.take(*map(int, words[2:5]))
        store.give(answer[2:], "room" if store.capacity else "back")
    elif call == "expire":
        stores[int(words[1])].give(answer[2:], "age")
    elif call == "remove":
        stores[int(words[1])].remove(*map(int, words[2:5]))
    elif call == "lookup":
        lookups[0] += 1
        lookups[1] += sum(map(int, between(answer, "blocks", "bytes")))
        lookups[2] += sum(map(int, between(answer, "bytes", None)))


def main():
    if len(sys.argv) != 3:
        sys.exit("usage: sums.py TRACE ANSWERS")
    with open(sys.argv[1]) as trace, open(sys.argv[2]) as answers:
        lines = (x.split() for x in trace if x.strip() and not x.startswith("#"))
        first = next(lines)
        next(answers)
        rules = first[first.index("stores") + 1 :] if first[1] == "table" else first[3:]
        stores = [Store(c, p) for c, p in zip(rules[::2], rules[1::2])]
        lookups, refused, unreadable = [0, 0, 0], Counter(), 0
        for words, answer in zip(lines, (x.split() for x in answers), strict=True):
            if answer[0] == "ok":
                carry_out(stores, lookups, words, answer)
            elif answer[0] == "refused":
                refused[int(answer[1])] += 1
            else:
                unreadable += 1
    for number, store in enumerate(stores):
        print(store.line(number))
    print("lookups {} blocks {} bytes {}".format(*lookups))
    for number in sorted(refused):
        print("refused", number, refused[number])
    print("unreadable", unreadable)


main()
