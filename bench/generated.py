#!/usr/bin/env python3
"""Writes the text that `gen SEED CPUS LINES` runs: generated.py SEED CPUS LINES.

It is a plain program beside the crate `vms_gen`, whose text this one was compared with.
"""
import sys

ZONE_ITEMS = (
    "nr_free_pages", "nr_zone_inactive_anon", "nr_zone_active_anon", "nr_zone_inactive_file",
    "nr_zone_active_file", "nr_zone_unevictable", "nr_zone_write_pending", "nr_mlock",
)


def made_line(cpus, state):
    """The line of a state, of which the upper 31 bits are drawn."""
    drawn = state >> 33
    kind, lane, rest = drawn % 16, f"c{drawn // 16 % cpus}", drawn // 1024
    if kind < 8:
        return f"{lane} mod 0 Normal {ZONE_ITEMS[rest % 8]} {rest // 8 % 65 - 32}"
    if kind < 10:
        return f"{lane} inc 0 Normal nr_free_pages"
    if kind == 10:
        return f"{lane} dec 0 node nr_dirty"
    if kind == 11:
        return f"{lane} ev pgfault {rest % 4}"
    if kind == 12:
        return f"{lane} cnt files {rest % 129 - 64}"
    if kind == 13:
        return f"{lane} fold {rest % cpus}"
    if kind == 14:
        return "k normal 0" if rest % 2 else "k pressure 0"
    if rest % 64 == 0:
        return "sync"
    return f"{lane} mod 0 node nr_file_pages {rest % 65 - 32}"


def made_lines(seed, cpus, lines):
    """The lines of the text, one after another."""
    yield from ("vmtrace 1", f"cpus {cpus}", "zone 0 Normal 262144 100 125 150",
                "base 0 Normal nr_free_pages 1000000", "counter files 32", "go")
    state = seed
    for _ in range(lines):
        state = (state * 6364136223846793005 + 1442695040888963407) % 2**64
        yield made_line(cpus, state)
    yield "report totals"


def main():
    seed, cpus, lines = map(int, sys.argv[1:])
    sys.stdout.writelines(line + "\n" for line in made_lines(seed, cpus, lines))


if __name__ == "__main__":
    main()
