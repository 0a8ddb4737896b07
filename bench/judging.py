#!/usr/bin/env python3
"""Measures how long a judge takes for an event: the proved program crates/vms_judge_lines on a long history.

    bench/judging.py [TABLE..] [--events N] [--runs R] [--instructions] [--program PATH]

TABLE is pages, percpu, events or groups, and each of them where none is given. The history has N events, 1,000,000 if
left out, between the first and the last passes, of which each of 64 CPUs has one: of a change of a page counter, a load
of differentials and a load of a global value in turn, of additions to local parts and loads of percpu counters, of
counts of events, and of changes of seven groups, each taken and then added to the group's value and to what is pending
for the root. The program has to answer that all are legal.

It reads the line of the history first, and then judges it. So it gets another line too, of the same events after a base
with which no history may begin: these are read and not judged. The difference is what judging takes. Printed are the
seconds of the processor of both, the medians of R runs (5 if left out), and the nanoseconds of the difference by event.
With --instructions they are instructions of one run each, which valgrind counts. The status is 1 if the program answers
otherwise, and 2 if there is nothing to run.
"""
import argparse
import os
import re
import resource
import statistics
import subprocess
import sys
import tempfile

import judge_events
import judge_groups
import judge_pages
import judge_percpu
import judge_rules
from judge_rules import DEAD, ONLINE

TOP = os.path.dirname(os.path.dirname(os.path.abspath(__file__)))
PROGRAM = os.path.join(TOP, "crates", "vms_judge_lines", "out", "vms_judge_lines")
CPUS = 64
LAYOUT = judge_rules.Layout([(0, 2)], CPUS, 8)
FIVE = (5, 0, 0, 0, 0, 0, 0, 0)
CHILDREN = 7


def facts_of_pages(state):
    base = judge_pages.State(
        place=[0] * 16, system=[0] * 16, diff=[0] * (16 * CPUS), threshold=[20] * (2 * CPUS), mark=[0],
        cpu=[state] * CPUS, acknowledged=[None] * CPUS, threshold_sets=[0] * (2 * CPUS), mark_sets=[0])
    return judge_pages.Facts(LAYOUT, [judge_pages.Size(262144, 2000, 4000, 6000)], base)


def step_of_pages(cpu, turn):
    if turn < 2:
        return ("LoadT", 0, 20, 0) if turn == 0 else ("LoadD", cpu, 0, judge_pages.ZEROS)
    return [("Put", 0, FIVE, 20, -5, judge_pages.MOD), ("LoadG", 0, 0),
            ("Put", 0, judge_pages.ZEROS, 20, 5, judge_pages.MOD),
            ("LoadD", cpu, 0, FIVE)][turn % 4]


def facts_of_percpu(state):
    return judge_percpu.Facts(LAYOUT, [state] * CPUS, [32] * 4, [0] * 4, [0] * (4 * CPUS))


def step_of_percpu(cpu, turn):
    counter = turn // 4 % 4
    return [("AddL", counter, 5), ("LoadL", counter, cpu, 5), ("AddL", counter, -5), ("LoadC", counter, 0)][turn % 4]


def facts_of_events(state):
    return judge_events.Facts(LAYOUT, [state] * CPUS, [0] * (8 * CPUS))


def facts_of_groups(state):
    """A root with its children. In place of CPUs that are dead a value is missing."""
    groups = 1 + CHILDREN
    return judge_groups.Facts([None] + [0] * CHILDREN, CPUS, [0] * (groups if state == ONLINE else groups - 1),
                              [0] * groups, [0] * (groups * CPUS))


def step_of_groups(cpu, turn):
    group = 1 + turn // 4 % CHILDREN
    return [("AddP", group, 5), ("TakeP", cpu, group, 5), ("AddV", group, 5), ("AddU", 0, 5)][turn % 4]


# Of each table its histories, its facts, and the step of a pass of a CPU in a turn. The events are counted by number.
TABLES = {
    "pages": (judge_pages.History, facts_of_pages, step_of_pages),
    "percpu": (judge_percpu.History, facts_of_percpu, step_of_percpu),
    "events": (judge_events.History, facts_of_events, None),
    "groups": (judge_groups.History, facts_of_groups, step_of_groups),
}


def events_of(name, count):
    """The callers and steps: a pass begins on each CPU, the passes make steps in turn, and all end. Passes of groups
    make steps in fours, and what is left of them are changes alone, since a pass that carries something may not end."""
    step = TABLES[name][2]
    yield from ((0, ("Split", cpu + 1, cpu)) for cpu in range(CPUS))
    whole = count - count % (4 * CPUS) if name == "groups" else count
    for number in range(count):
        cpu, turn = number % CPUS, number // CPUS
        if name == "events":
            yield cpu + 1, ("AddE", number % 8, 1)
        else:
            yield cpu + 1, step(cpu, turn) if number < whole else ("AddP", 1, 5)
    yield from ((0, ("Join", cpu + 1)) for cpu in range(CPUS))


def lines_of(name, count):
    """The line of the history, and that of the same events after a base with which no history may begin."""
    history, facts_of, _ = TABLES[name]
    events = [" ".join(map(str, [caller, *judge_rules.numbers_of_step(history, step)]))
              for caller, step in events_of(name, count)]
    told = f" {len(events)} " + " ".join(events) + "\n"
    return len(events), *(" ".join(map(str, [name, *facts_of(state).numbers()])) + told for state in (ONLINE, DEAD))


def answer(words, file):
    """What a program answers to a file."""
    file.seek(0)
    done = subprocess.run(words, stdin=file, capture_output=True, text=True)
    return done.stdout, done.stderr


def seconds(program, file, wanted, runs):
    """The median of what runs take of the processor, or None where the answer isn't the wanted one."""
    taken = []
    for _ in range(runs):
        before = resource.getrusage(resource.RUSAGE_CHILDREN)
        if answer([program], file)[0] != wanted:
            return None
        after = resource.getrusage(resource.RUSAGE_CHILDREN)
        taken.append(after.ru_utime + after.ru_stime - before.ru_utime - before.ru_stime)
    return statistics.median(taken)


def instructions(program, file, wanted):
    """What one run takes."""
    words = ["valgrind", "--tool=callgrind", "--callgrind-out-file=/dev/null", program]
    found, told = answer(words, file)
    collected = re.search(r"Collected : ([0-9]+)", told)
    return int(collected[1]) if found == wanted and collected else None


def measured(name, asked):
    """Prints what the judge of a table takes. Whether it answers as it should."""
    count, *lines = lines_of(name, asked.events)
    taken = []
    for line, wanted in zip(lines, ["1" * count + " ended\n", "no base\n"]):
        with tempfile.TemporaryFile("w+", encoding="ascii") as file:
            file.write(line)
            file.flush()
            taken.append(instructions(asked.program, file, wanted) if asked.instructions
                         else seconds(asked.program, file, wanted, asked.runs))
    if None in taken:
        print(f"{name}: the program doesn't answer what it should")
        return False
    whole, read = taken
    if asked.instructions:
        print(f"{name:8}{read:14} read{whole:14} read and judged{(whole - read) / asked.events:8.0f} instructions an event")
    else:
        print(f"{name:8}{read:8.2f} s read{whole:8.2f} s read and judged"
              f"{(whole - read) / asked.events * 1e9:8.0f} ns an event")
    return True


def main():
    parser = argparse.ArgumentParser(description=__doc__.split("\n")[0])
    parser.add_argument("tables", nargs="*", choices=[[], *TABLES])
    parser.add_argument("--events", type=int, default=1_000_000)
    parser.add_argument("--runs", type=int, default=5)
    parser.add_argument("--instructions", action="store_true")
    parser.add_argument("--program", default=PROGRAM)
    asked = parser.parse_args()
    if not os.access(asked.program, os.X_OK):
        print(f"bench/judging.py: there is no {asked.program}: `rt run` in its folder makes it", file=sys.stderr)
        return 2
    return 0 if all([measured(name, asked) for name in asked.tables or TABLES]) else 1


if __name__ == "__main__":
    sys.exit(main())
