#!/usr/bin/env python3
"""Runs the gate and prints which crates take its time, or reads the table that an earlier run left in the documents.

    bench/gate_times.py [--write FILE] [COMMAND ..]      (default: rt ci)
    bench/gate_times.py --check FILE
    bench/gate_times.py --reckon FILE PROCESSORS [CRATE ..]

Every half second it reads how much processor time each run of the prover has taken so far, and adds it up by crate: for
proofs, for edits that must fail, and for tests (their proofs and their builds). The table has processor minutes. The
output of the command goes to standard error. The exit status is the command's. With --write the table takes the place
of the one in FILE, between the lines `<!-- times of crates -->` and `<!-- end of times -->`.

With --check it says whether the table of FILE has each crate of crates.txt once and no other. With --reckon it says from
that table how many minutes so many processors take where nothing is kept: for the proofs of each CRATE and of all that
it stands on, or, without one, for the whole gate. Each processor does one proof at a time, and that first which the
longest chain of others waits for; edits come after all proofs.
"""

import heapq
import os
import re
import subprocess
import sys
import time
from pathlib import Path

TOP = Path(__file__).resolve().parent.parent
KINDS = ("proofs", "edits", "tests")
BEGIN, END = "<!-- times of crates -->", "<!-- end of times -->"
TICKS = os.sysconf("SC_CLK_TCK")


def prover_run(pid):
    """The crate, the kind and the seconds so far of a process, or None where it is no run of the prover."""
    try:
        with open(f"/proc/{pid}/cmdline", "rb") as f:
            words = f.read().decode(errors="replace").split("\0")
        if not words[0].endswith("/rattle") or "--crate-name" not in words:
            return None
        folder = os.readlink(f"/proc/{pid}/cwd")
        with open(f"/proc/{pid}/stat") as f:
            fields = f.read().rsplit(")", 1)[1].split()
    except OSError:
        return None
    crate = words[words.index("--crate-name") + 1]
    if "/rt-edit" in folder:
        kind = "edits"
    elif "--test" in words:
        kind = "tests"
    else:
        kind = "proofs"
    seconds = (int(fields[11]) + int(fields[12])) / TICKS
    return (crate, kind, pid, fields[19]), seconds


def measured(command):
    """Runs the command, and returns its status, how many minutes it took, and each crate's minutes by kind."""
    began = time.monotonic()
    running = subprocess.Popen(command, stdout=sys.stderr)
    taken = {}
    while running.poll() is None:
        for pid in filter(re.compile(r"\d+$").match, os.listdir("/proc")):
            found = prover_run(pid)
            if found:
                taken[found[0]] = found[1]
        time.sleep(0.5)
    table = {}
    for (crate, kind, _, _), seconds in taken.items():
        table.setdefault(crate, dict.fromkeys(KINDS, 0.0))[kind] += seconds / 60
    return running.returncode, (time.monotonic() - began) / 60, table


def lines_of_table(table):
    yield "| crate | " + " | ".join(KINDS) + " | all |"
    yield "|---|" + "---|" * (len(KINDS) + 1)
    rows = sorted(table.items(), key=lambda row: (-sum(row[1].values()), row[0]))
    rows.append(("together", {kind: sum(row[kind] for _, row in rows) for kind in KINDS}))
    for crate, row in rows:
        cells = [f"{row[kind]:.1f}" if row[kind] else "-" for kind in KINDS] + [f"{sum(row.values()):.1f}"]
        yield f"| {crate} | " + " | ".join(cells) + " |"


def table_of(text):
    """The table between the two lines of a document: each crate's minutes by kind."""
    if BEGIN not in text or END not in text:
        sys.exit(f"bench/gate_times.py: no table between {BEGIN} and {END}")
    table = {}
    for line in text.split(BEGIN)[1].split(END)[0].splitlines():
        cells = [it.strip(" `") for it in line.strip("| ").split("|")]
        if len(cells) == len(KINDS) + 2 and re.fullmatch(r"\w+", cells[0]) and cells[0] not in ("crate", "together"):
            if cells[0] in table:
                sys.exit(f"bench/gate_times.py: {cells[0]} stands twice")
            table[cells[0]] = {kind: float(it) if it != "-" else 0.0 for kind, it in zip(KINDS, cells[1:])}
    return table


def crates_below():
    """Each crate of crates.txt with the crates of the repository that its line names, the lowest first."""
    lines = [line.split("#")[0] for line in (TOP / "crates.txt").read_text(encoding="utf-8").splitlines()]
    named = {line.split(":")[0].split()[0]: line.split(":")[1].split() for line in lines if ":" in line}
    return {name: [it for it in below if it in named] for name, below in named.items()}


def check(file):
    table, crates = table_of(file.read_text(encoding="utf-8")), crates_below()
    for name in sorted(crates.keys() - table.keys()):
        print(f"{name} isn't in the table of {file.name}")
    for name in sorted(table.keys() - crates.keys()):
        print(f"{name} is in the table of {file.name}, and no crate")
    return 1 if table.keys() != crates.keys() else 0


def reckoned(tasks, processors):
    """How many minutes the tasks take: a task is its minutes and the tasks that it waits for, which stand before it."""
    behind = {}
    for name in reversed(tasks):
        behind[name] = behind.get(name, 0.0) + tasks[name][0]
        for it in tasks[name][1]:
            behind[it] = max(behind.get(it, 0.0), behind[name])
    left, running, done, now = set(tasks), [], set(), 0.0
    while left or running:
        ready = sorted((name for name in left if all(it in done for it in tasks[name][1])), key=lambda it: -behind[it])
        for name in ready[: processors - len(running)]:
            left.remove(name)
            heapq.heappush(running, (now + tasks[name][0], name))
        now, name = heapq.heappop(running)
        done.add(name)
    return now


def reckon(file, processors, names):
    table, below = table_of(file.read_text(encoding="utf-8")), crates_below()
    wanted, tasks = set(), {}

    def want(name):
        if name not in wanted:
            wanted.add(name)
            for it in below[name]:
                want(it)

    for name in names or below:
        if name not in below:
            sys.exit(f"bench/gate_times.py: {name} is no crate")
        want(name)
    for name in below:
        if name in wanted:
            minutes = table.get(name, dict.fromkeys(KINDS, 0.0))
            tasks[name] = (minutes["proofs"], [it for it in below[name]])
            if not names:
                tasks[f"{name} tests"] = (minutes["tests"], tasks[name][1])
    edits = 0.0 if names else sum(row["edits"] for row in table.values())
    chain = {}
    for name, (minutes, waits) in tasks.items():
        chain[name] = minutes + max((chain[it] for it in waits), default=0.0)
    alone = sum(it[0] for it in tasks.values()) + edits
    took = max(reckoned(tasks, processors), 0.0)
    took = max(took, alone / processors)
    print(f"{alone:.0f} processor minutes, {took:.0f} minutes on {processors} processors, the longest chain "
          f"{max(chain.values(), default=0.0):.0f}")
    return 0


def main(words):
    if words[:1] in (["-h"], ["--help"]):
        print(__doc__.strip())
        return 0
    if words[:1] == ["--check"] and len(words) == 2:
        return check(Path(words[1]))
    if words[:1] == ["--reckon"] and len(words) > 2 and words[2].isdigit() and int(words[2]) > 0:
        return reckon(Path(words[1]), int(words[2]), words[3:])
    file = Path(words[1]) if words[:1] == ["--write"] and len(words) > 1 else None
    command = words[2 if file else 0:] or ["rt", "ci"]
    if command[0].startswith("-"):
        print(__doc__.strip())
        return 2
    status, minutes, table = measured(command)
    lines = "\n".join(lines_of_table(table))
    if file:
        text = file.read_text(encoding="utf-8")
        table_of(text)
        before, after = text.split(BEGIN)[0], text.split(END)[1]
        file.write_text(f"{before}{BEGIN}\n{lines}\n{END}{after}", encoding="utf-8")
    print(lines)
    print(f"\n{minutes:.1f} minutes on {os.cpu_count()} processors, status {status}")
    return status


if __name__ == "__main__":
    sys.exit(main(sys.argv[1:]))
