"""Writes a trace of groups: mostly changes, with flushes, values and a few reports.

    groups.py [SEED [LINES [CPUS [GROUPS [PHASE]]]]]

There are 1,000,000 lines, 8 CPUs and 64 groups where none are given, and 10,000 lines stand before each boundary line.
The same numbers, with SEED 1 where none is given, give the same trace. The first group is the root. Each other one is
the child of a group that is drawn among the eight declared last, so that the tree is some levels deep. Of a hundred
lines of lanes 96 change a group, 2 flush one and 2 ask for a value. A few lines are refused or ignored. An input may
have 10,000 phases, so a trace of 1,000,000 lines wants a PHASE of at least 100. At most twenty boundary lines are
reports, and the last line is one.
"""
import random
import sys


def tree(rng, groups):
    """Of each group its parent, by their numbers; the root has none."""
    return [None] + [rng.randrange(max(0, group - 8), group) for group in range(1, groups)]


def head(cpus, parents):
    """The lines of the header."""
    lines = ["vmgroups 1", f"cpus {cpus}"]
    for group, parent in enumerate(parents):
        lines.append(f"group g{group}" if parent is None else f"group g{group} g{parent}")
    return lines + ["go"]


def line(rng, cpus, groups):
    """A line between two boundary lines."""
    lane, group, kind = f"c{rng.randrange(cpus)}", f"g{rng.randrange(groups)}", rng.randrange(1000)
    if kind < 20:
        return f"{lane} flush {group}"
    if kind < 40:
        return f"{lane} value {group}"
    if kind < 43:
        return rng.choice([f"{lane} add {group} 0{rng.randrange(9)}", f"c9{rng.randrange(10)} flush {group}",
                           f"{lane} add {group}x 1", f"{lane} value {group} {group}"])
    if kind < 45:
        return rng.choice(["", "# a remark"])
    if kind < 48:
        return f"{lane}  add\t{group}  {rng.randrange(9)}\r"
    return f"{lane} add {group} {rng.randrange(129) - 64}"


def main():
    given = sys.argv[1:] + ["1", "1000000", "8", "64", "10000"][len(sys.argv) - 1:]
    seed, lines, cpus, groups, phase = map(int, given)
    rng = random.Random(seed)
    begin = head(cpus, tree(rng, groups))
    body = max(0, lines - len(begin) - 1)
    phases = body // (phase + 1)
    out = sys.stdout
    for text in begin[:lines]:
        out.write(text + "\n")
    for n in range(1, body + 1):
        if n % (phase + 1):
            text = line(rng, cpus, groups)
        else:
            text = "report groups" if n // (phase + 1) % (phases // 20 + 1) == 0 else "sync"
        out.write(text + "\n")
    if lines > len(begin):
        out.write("report groups\n")


if __name__ == "__main__":
    main()
