#!/usr/bin/env python3
"""Says where outputs of a trace differ in what is the same in every order in which lanes make their lines.

    bench/agree.py TRACE OUTPUT OUTPUT..

These are the refused lines, which lines answer and which print a report, the totals of reports, and the last line. A
percpu counter's total counts without the limited additions that the output answers yes. A group's total is compared as
it is printed, and as its value and what is pending in sum. The status is 1 if an output differs from the first, and 2
for other words.
"""
import sys
from itertools import zip_longest


def fixed(trace, output):
    """The lines of an output, without what depends on the order."""
    added = {}
    report = None
    for text in output:
        words = text.split()
        if words[0] == "line" and words[1].endswith(":"):
            report = words[3] if words[2] == "report" else None
            yield text if report or words[2] == "refused:" else f"line {words[1]} an answer\n"
            if words[2:] == ["limited", "yes"]:
                name, _, amount = trace[int(words[1][:-1]) - 1].split()[2:]
                added[name] = added.get(name, 0) + int(amount)
        elif report == "totals" and words[0] == "counter":
            yield f"counter {words[1]} {int(words[2]) - added.get(words[1], 0)} without limited additions\n"
        elif report == "groups" and len(words) == 7:
            name, _, value, _, pending, _, total = words
            yield f"{name} total {total}, by value and pending {int(value) + int(pending)}\n"
        elif report == "totals" or words[0] == "done":
            yield text


def main(words):
    if len(words) < 3:
        print("usage: bench/agree.py TRACE OUTPUT OUTPUT..", file=sys.stderr)
        return 2
    with open(words[0]) as text:
        trace = text.read().split("\n")
    differ = 0
    for other in words[2:]:
        with open(words[1]) as one, open(other) as output:
            pairs = zip_longest(fixed(trace, one), fixed(trace, output), fillvalue="nothing\n")
            found = next((pair for pair in pairs if pair[0] != pair[1]), None)
        if found:
            differ += 1
            print(f"{words[1]}: {found[0]}{other}: {found[1]}", end="")
    return 1 if differ else 0


if __name__ == "__main__":
    sys.exit(main(sys.argv[1:]))
