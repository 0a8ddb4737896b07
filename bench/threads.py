#!/usr/bin/env python3
"""Counts the threads of `run` and `groups`, and says where they aren't as they should be.

    bench/threads.py [CASE..]

The program is the one that VOZHKELL names. bench/threads.c, which is built for it, counts the threads that it starts,
those that run when it exits, and the most that run at once. CASES are the names of functions below, and all where none
is given. A line is printed for each case, and the status is 1 if one fails.
"""
import os
import resource
import subprocess
import sys
import tempfile

TOP = os.path.dirname(os.path.dirname(os.path.abspath(__file__)))
HEAD = ["vmtrace 1", "cpus 4", "zone 0 Normal 262144 100 125 150", "base 0 Normal nr_free_pages 10000", "go"]
DONE, WRITE, MEMORY, TOO_LONG = 0, 5, 6, 7


class Wrong(Exception):
    pass


def text(*phases):
    """A trace of these phases, each a list of lanes, whose lanes add a page three times in turn."""
    lines = HEAD[:]
    for lanes in phases:
        lines += [f"{lane} val 0 Normal nr_free_pages" if lane == "k" else f"{lane} mod 0 Normal nr_free_pages 1"
                  for _ in range(3) for lane in lanes]
        lines.append("sync")
    return "".join(line + "\n" for line in lines).encode()


class Counter:
    def __init__(self, folder, program):
        self.program, self.told = program, os.path.join(folder, "told")
        self.library = os.path.join(folder, "threads.so")
        subprocess.run(["cc", "-O2", "-Wall", "-Wextra", "-Werror", "-shared", "-fPIC", "-o", self.library,
                        os.path.join(TOP, "bench", "threads.c"), "-ldl", "-pthread"], check=True)

    def run(self, trace, status, out=subprocess.DEVNULL, prepare=None, command="run", limit=None):
        """The threads that a run of a trace started, those that it left, and the most at once. No more than `limit` can
        be made."""
        if os.path.exists(self.told):
            os.remove(self.told)
        done = subprocess.run([self.program, command], input=trace, stdout=out, timeout=60, preexec_fn=prepare,
                              env={"LD_PRELOAD": self.library, "THREADS_FILE": self.told}
                              | ({} if limit is None else {"THREADS_MOST": str(limit)}))
        if done.returncode != status:
            raise Wrong(f"status {done.returncode} where {status} is expected")
        with open(self.told) as file:
            words = file.read().split()
        return tuple(map(int, words[1::2]))


def expect(what, found, wanted):
    if found != wanted:
        raise Wrong(f"{what}: {found} where {wanted} is expected")


def lone_lanes(counter):
    """A phase in which one lane alone has lines starts no thread."""
    expect("threads", counter.run(text(["c0"], ["c1"], ["k"], ["c3"]), DONE), (0, 0, 0))


def lanes_side_by_side(counter):
    """Of a phase whose lanes are several one lane runs on the thread that is there, and each other on one that stands,
    which is started once."""
    started, left, most = counter.run(text(["c0", "c1", "c2", "k"]), DONE)
    expect("threads started and left", (started, left), (3, 0))
    started, left, most = counter.run(text(["c0", "c1"], ["c2", "c3", "k"], ["c1"], ["c0", "c1", "k"]), DONE)
    expect("threads started and left", (started, left), (2, 0))
    expect("threads at once", most, 2)


def long_phases(counter):
    """The lanes of a phase of more than 16,384 lines run on threads that are started for it."""
    long = ["c0", "c1"] * 3000
    started, left, most = counter.run(text(["c0", "c1"], long, ["c0", "c1"]), DONE)
    expect("threads started and left", (started, left), (2, 0))


def want_of_threads(counter):
    """Where no thread or too few can be made, the lanes run all the same, and what they changed is there."""
    trace = text(["c0", "c1", "c2"], ["c1", "c2", "c3"], ["c0", "c1", "c2", "c3"]) + b"report totals\n"
    for limit in (0, 1, 2):
        with tempfile.TemporaryFile() as out:
            started, left, most = counter.run(trace, DONE, out, limit=limit)
            out.seek(0)
            expect("the total", b"\n0 Normal nr_free_pages 10030\n" in out.read(), True)
        expect("threads started and left", (started, left), (limit, 0))


def failed_writes(counter):
    """A run whose sink fails leaves no thread."""
    with open("/dev/full", "wb") as full:
        trace = text(["c0", "c1"], ["c2", "c3"]).replace(b"sync\n", b"report totals\n")
        started, left, most = counter.run(trace, WRITE, full)
    expect("threads left", left, 0)


def passed_limits(counter):
    """A run that has too many phases leaves no thread."""
    started, left, most = counter.run(text(*[["c0", "c1"]] * 10001), TOO_LONG)
    expect("threads started and left", (started, left), (1, 0))


def want_of_memory(counter):
    """A run without memory for a phase leaves no thread."""
    trace = text(["c0", "c1"]) + b"c2 val 0 Normal nr_free_pages\nc3 val 0 Normal nr_free_pages\n" * 400_000
    limit = 64 << 20

    def small():
        resource.setrlimit(resource.RLIMIT_AS, (limit, limit))

    started, left, most = counter.run(trace, MEMORY, prepare=small)
    expect("threads left", left, 0)


def lanes_of_groups(counter):
    """Of a phase of groups one lane runs on the thread that is there, and each other on its own. None is left where the
    sink fails."""
    phases = [["c0", "c1", "c2", "c3"], ["c2"], ["c1", "c3"]]
    lines = ["vmgroups 1", "cpus 4", "group a", "group b a", "go"]
    for lanes in phases:
        lines += [f"{lane} {act} b" for act in ("flush", "value") for lane in lanes] + ["report groups"]
    trace = "".join(line + "\n" for line in lines).encode()
    started, left, most = counter.run(trace, DONE, command="groups")
    expect("threads started and left", (started, left), (4, 0))
    with open("/dev/full", "wb") as full:
        started, left, most = counter.run(trace, WRITE, full, command="groups")
    expect("threads left", left, 0)


CASES = [lone_lanes, lanes_side_by_side, long_phases, want_of_threads, failed_writes, passed_limits, want_of_memory,
         lanes_of_groups]


def main(names):
    program = os.path.abspath(os.environ["VOZHKELL"])
    failed = 0
    with tempfile.TemporaryDirectory() as folder:
        counter = Counter(folder, program)
        for case in CASES:
            if names and case.__name__ not in names:
                continue
            try:
                case(counter)
                print(f"{case.__name__}: ok")
            except (Wrong, OSError, subprocess.SubprocessError, ValueError) as error:
                print(f"{case.__name__}: FAILED: {error}")
                failed = 1
    return failed


if __name__ == "__main__":
    sys.exit(main(sys.argv[1:]))
