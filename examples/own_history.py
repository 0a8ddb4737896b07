#!/usr/bin/env python3
"""Counts free pages on two CPUs by a counter of its own, and writes a trace and the history of what it did.

The CPUs take turns at random: each goes on from one `yield` to the next, which is one step on what they share."""
from random import choice, randint

THRESHOLD, ZEROS, MOD = 20, [0] * 8, "mod 0 Normal nr_free_pages"
LINES = [[choice([(MOD, randint(-15, 15)), ("fold", 1 - cpu)]) for _ in range(9)] for cpu in (0, 1)]
lists = [ZEROS, ZEROS]


def change(cpu, pages):
    yield "LoadT", 0, THRESHOLD, 0
    found = lists[cpu]
    yield "LoadD", cpu, 0, *found
    if lists[cpu] != found:
        yield "Miss", 0, *found
        found = lists[cpu]
    total = found[0] + pages
    lists[cpu] = [total if abs(total) <= THRESHOLD else 0, *ZEROS[1:]]
    yield "Put", 0, *found, THRESHOLD, pages, 0
    if abs(total) > THRESHOLD:
        yield "AddG", 0, total
        yield "AddS", 0, total


def fold(cpu, other):
    taken, lists[other] = lists[other], ZEROS
    yield "Take", other, 0, *taken
    if taken[0]:
        yield "AddG", 0, taken[0]
    yield "Take", other, 1, *ZEROS
    if taken[0]:
        yield "AddS", 0, taken[0]


def run(cpu):
    for verb, number in LINES[cpu]:
        yield from fold(cpu, number) if verb == "fold" else change(cpu, number)


print("vmtrace 1\ncpus 2\nzone 0 Normal 262144 100 125 150\nbase 0 Normal nr_free_pages 10000\ngo")
print(*(f"c{cpu} {verb} {number}" for cpu in (0, 1) for verb, number in LINES[cpu]), sep="\n")
print("history 1\nphase\n0 Split 1 0\n0 Split 2 1")
running = {1: run(0), 2: run(1)}
while running:
    caller = choice(list(running))
    step = next(running[caller], None)
    print(*([caller, *step] if step else [0, "Join", caller]))
    if step is None:
        del running[caller]
