#!/usr/bin/env python3
"""Runs a trace whose lanes race many times, and says where the totals that it prints aren't the plain sums.

    bench/races.py [TIMES [SEED [KIND]]]

The program is the one that VOZHKELL names, called with the word `run`, 1,000 times where TIMES isn't given. The trace has
200 phases of eight CPUs and the control lane: changes of a few page counters, folds of every CPU, pressure and normal
thresholds, events, percpu counters with their locks, and a CPU that goes down, is folded and buried beside the other
lanes, and comes back. Every tenth phase ends with `report totals`. The same SEED, 1 where none is given, gives the same
trace.

With `groups` for KIND it is called with that word. The trace has 10 phases of 4,000 lines, in which eight CPUs change,
flush and read one tree of six groups. Each phase ends with `report groups`. At last one CPU alone flushes all groups, so
that nothing is pending in the last report.

With `marks` for KIND a CPU acknowledges its threshold beside a call that may lower the mark, in a trace of 11 lines, and
a test of a watermark finds the one mark or the other. What is printed is one of the three things that the orders of the
two lanes give.

The sums are taken from the trace alone, except that a limited addition counts where the output says yes. A run that takes
longer than a minute counts as one that hangs. The status is 1 if a run is wrong, and 2 if there is nothing to run.
"""
import os
import random
import subprocess
import sys

CPUS = 8
PHASES = 200
LINES = 40
SECONDS = 60
ZONE = ("nr_free_pages nr_zone_inactive_anon nr_zone_active_anon nr_zone_inactive_file nr_zone_active_file "
        "nr_zone_unevictable nr_zone_write_pending nr_mlock").split()
NODE = ("nr_inactive_anon nr_active_anon nr_inactive_file nr_active_file nr_unevictable nr_anon_pages nr_file_pages "
        "nr_dirty").split()
EVENTS = "pgpgin pgpgout pswpin pswpout pgfree pgactivate pgdeactivate pgfault".split()
COUNTERS = ["files", "inodes"]
COUNTED = [f"0 Normal {item}" for item in ZONE] + [f"0 node {item}" for item in NODE]
HEAD = ["vmtrace 1", f"cpus {CPUS}", "zone 0 Normal 262144 100 125 150", "base 0 Normal nr_free_pages 10000",
        "base 0 node nr_file_pages 500", "counter files 32", "counter inodes 4", "go"]


def change(rng, lane):
    """A line that changes something. Few things are changed, so that lanes meet."""
    kind = rng.randrange(20)
    counter = rng.choice(["0 Normal nr_free_pages", "0 Normal nr_free_pages", "0 Normal nr_mlock", "0 node nr_dirty"])
    if kind < 9:
        return f"{lane} mod {counter} {rng.randrange(65) - 32}"
    if kind < 13:
        return f"{lane} {rng.choice(['inc', 'dec'])} {counter}"
    if kind < 15:
        return f"{lane} ev {rng.choice(EVENTS[:2])} {rng.randrange(5)}"
    name = rng.choice(COUNTERS)
    if kind < 18:
        return f"{lane} cnt {name} {rng.randrange(65) - 32}"
    return f"{lane} lim {name} {rng.randrange(400) - 200} {rng.randrange(65) - 32}"


def look(rng, lane):
    """A line that changes no total: a fold, or a question."""
    return rng.choice([f"{lane} fold {rng.randrange(CPUS)}", f"{lane} fold {rng.randrange(CPUS)}",
                       f"{lane} ok 0 Normal high 2", f"{lane} snap 0 Normal nr_free_pages", f"{lane} evsum pgpgin",
                       f"{lane} sys nr_free_pages"])


def lines_of_phase(rng, online, dead):
    """The lines of a phase. The CPU that is dead, if one is, is folded by all and buried."""
    lanes = [f"c{cpu}" for cpu in online]
    lines = []
    for _ in range(LINES):
        lane = rng.choice(lanes)
        kind = rng.randrange(20)
        if kind < 12:
            lines.append(change(rng, lane))
        elif kind < 15:
            lines.append(look(rng, lane))
        elif kind < 17:
            name = rng.choice(COUNTERS)
            lines.append(f"{lane} {rng.choice([f'sum {name}', f'csync {name}', f'cmp {name} 50', f'rough {name}'])}")
        elif kind < 18:
            lines.append(look(rng, "k"))
        else:
            lines.append(f"k {rng.choice(['pressure', 'normal'])} 0")
    if dead is not None:
        for lane in lanes + ["k"]:
            lines.insert(rng.randrange(len(lines)), f"{lane} fold {dead}")
        lines.insert(rng.randrange(len(lines)), f"k dead {dead}")
    return lines


def trace(seed):
    """The lines of the trace."""
    rng = random.Random(seed)
    lines = list(HEAD)
    for phase in range(PHASES):
        online = list(range(CPUS))
        dead = None
        if phase % 4 == 3:
            dead = rng.randrange(CPUS)
            online.remove(dead)
            lines.append(f"offline {dead}")
        lines += lines_of_phase(rng, online, dead)
        if phase % 10 == 9:
            lines.append("report totals")
        if dead is not None:
            lines.append(f"online {dead}")
        elif phase % 10 != 9:
            lines.append("sync")
    return lines


GROUP_PHASES = 10
GROUP_LINES = 4000
PARENTS = {"root": None, "a": "root", "b": "a", "c": "a", "d": "root", "e": "d"}
GROUP_HEAD = ["vmgroups 1", f"cpus {CPUS}", *(f"group {name} {parent or ''}" for name, parent in PARENTS.items()), "go"]


def group_line(rng):
    """A line of a lane on the tree. More lines flush than in a usual trace, so that flushes meet."""
    lane, name, kind = f"c{rng.randrange(CPUS)}", rng.choice(list(PARENTS)), rng.randrange(10)
    if kind < 6:
        return f"{lane} add {name} {rng.randrange(129) - 64}"
    return f"{lane} {'flush' if kind < 9 else 'value'} {name}"


def group_trace(seed):
    """The lines of a trace of groups."""
    rng = random.Random(seed)
    lines = list(GROUP_HEAD)
    for _ in range(GROUP_PHASES):
        lines += [group_line(rng) for _ in range(GROUP_LINES)]
        lines.append("report groups")
    return lines + ["c0 flush root", "report groups"]


def printed(output):
    """What is printed of each line that prints: by its number, the rest of its line and the lines below it."""
    found = {}
    number = None
    for line in output.splitlines():
        words = line.split(" ", 2)
        if words[0] == "line" and words[1].endswith(":"):
            number = int(words[1][:-1])
            found[number] = [words[2]]
        elif number is not None and words[0] != "done":
            found[number].append(line)
    return found


def wrong_totals(lines, output):
    """Where the reports of an output aren't the plain sums of the lines above them."""
    answers = printed(output)
    sums = dict.fromkeys(COUNTED + [f"event {name}" for name in EVENTS] + [f"counter {name}" for name in COUNTERS], 0)
    sums["0 Normal nr_free_pages"] = 10000
    sums["0 node nr_file_pages"] = 500
    wrong = []
    for number, line in enumerate(lines, 1):
        words = line.split()
        act = words[1] if len(words) > 1 else ""
        if act in ("mod", "inc", "dec"):
            sums[" ".join(words[2:5])] += {"inc": 1, "dec": -1}.get(act) or int(words[5])
        elif act == "ev":
            sums[f"event {words[2]}"] += int(words[3])
        elif act == "cnt":
            sums[f"counter {words[2]}"] += int(words[3])
        elif act == "lim" and answers.get(number) == ["limited yes"]:
            sums[f"counter {words[2]}"] += int(words[4])
        elif line == "report totals":
            wanted = ["report totals"] + [f"{name} {value}" for name, value in sums.items()]
            wrong += [f"line {number}: {found} where {due} is due"
                      for found, due in zip(answers.get(number, []), wanted) if found != due]
            if len(answers.get(number, [])) != len(wanted):
                wrong.append(f"line {number}: {len(answers.get(number, []))} lines where {len(wanted)} are due")
    return wrong


def wrong_groups(lines, output):
    """Where the totals of groups aren't the plain sums of the lines above, or value and pending don't add up to them."""
    answers = printed(output)
    sums = dict.fromkeys(PARENTS, 0)
    wrong = []
    for number, line in enumerate(lines, 1):
        words = line.split()
        if words[1:2] == ["add"]:
            name = words[2]
            while name:
                sums[name] += int(words[3])
                name = PARENTS[name]
        elif line == "report groups":
            reported = answers.get(number, [])[1:]
            if [text.split()[0] for text in reported] != list(sums):
                wrong.append(f"line {number}: {len(reported)} lines, and not one for each group")
            for text in reported:
                name, _, value, _, pending, _, total = text.split()
                is_last = number == len(lines)
                if int(total) != sums[name] or int(value) + int(pending) != sums[name] or is_last and pending != "0":
                    wrong.append(f"line {number}: {text} where {sums[name]} is due")
    return wrong


MARKS_TRACE = ["vmtrace 1", "cpus 2", "zone 0 Normal 262144 100 105 150", "base 0 Normal nr_free_pages 165", "go",
               "offline 1", "k dead 1", "c0 fold 0", "k normal 0", "c0 ok 0 Normal high 2", "report zoneinfo"]
# The mark is 160 where the acknowledgement came first, and 170 where it came later. The test may find the one or the
# other, or the mark before both.
MARKS = [("yes free 165 fast", "  drift mark 160"), ("yes free 165 snapshot", "  drift mark 160"),
         ("yes free 165 snapshot", "  drift mark 170")]


def wrong_marks(lines, output):
    """Whether the test and the mark aren't those of one of the orders."""
    answers = printed(output)
    told = answers.get(10, [""])[0]
    marks = [line for line in answers.get(11, []) if line.startswith("  drift mark ")]
    return [] if len(marks) == 1 and (told, marks[0]) in MARKS else [f"{told!r} beside {marks}"]


def wrong_end(lines, output):
    """Whether the last line doesn't tell that all lines after `go` were accepted."""
    last = f"done accepted {len(lines) - lines.index('go') - 1} refused 0"
    return [] if output.endswith(f"\n{last}\n") else [f"the last line is {output.splitlines()[-1:]}"]


def main(words):
    program = os.environ.get("VOZHKELL")
    if not program or not os.access(program, os.X_OK):
        print("bench/races.py: VOZHKELL names no program", file=sys.stderr)
        return 2
    times = int(words[0]) if words else 1000
    seed = int(words[1]) if len(words) > 1 else 1
    kind = words[2] if len(words) > 2 else "run"
    command = "groups" if kind == "groups" else "run"
    make, judge = {"run": (trace, wrong_totals), "groups": (group_trace, wrong_groups),
                   "marks": (lambda _: MARKS_TRACE, wrong_marks)}[kind]
    lines = make(seed)
    text = "".join(line + "\n" for line in lines).encode()
    outputs = set()
    bad = 0
    for turn in range(1, times + 1):
        try:
            done = subprocess.run([program, command], input=text, capture_output=True, timeout=SECONDS)
        except subprocess.TimeoutExpired:
            wrong = [f"it doesn't end within {SECONDS} seconds"]
        else:
            output = done.stdout.decode(errors="replace")
            outputs.add(output)
            wrong = judge(lines, output) + wrong_end(lines, output)
            wrong += [f"the status is {done.returncode}"] * (done.returncode != 0)
        if wrong:
            bad += 1
            print(f"run {turn}: " + "; ".join(wrong[:3]), flush=True)
    print(f"{times} runs of {len(lines)} lines, {len(outputs)} different outputs, {bad} wrong")
    return 1 if bad else 0


if __name__ == "__main__":
    sys.exit(main(sys.argv[1:]))
