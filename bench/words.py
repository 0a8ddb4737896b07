#!/usr/bin/env python3
"""Measures calls on shared counters on threads: the proved programs crates/vms_bench and crates/vms_call_bench beside
the same in C.

    bench/words.py [-k KIND]... [-t THREADS]... [-d DISTANCE]... [-n CALLS] [-r RUNS] [--volumes] [--functions]
                   [--door] [--cc COMMAND]

The programs are built: the proved ones by `rt run` in their crates, bench/words.c by a C compiler for the processor
that the proved ones are built for, in two forms: with a row of lines of its own for each CPU (C), as the proved
programs have, and with the words one after another by kind (flat C). Each makes CALLS calls on every one of THREADS
threads, pinned to that many processors, the programs in turn, on CPUs 0 to 3 (near) or 16 apart. What they write has to
be the same. The time is that of the processors, which all threads take together, by thread; a run of a single call is
taken off, so what is left is the calls' own.

For each kind, number of threads and distance the medians of the runs in nanoseconds a call are printed, with the least
in brackets, and the ratio of the proved program's to those of C, by medians and by least times: at most 1.1 is wanted
to C with rows. The status is 1 if the programs write different things, and 2 if something can't be built or run.

The kind pages makes its changes by single steps on words, events and locals call crates/vms_event and
crates/vms_pcpu: these three are of crates/vms_bench. The others call crates/vms_count and crates/vms_look, by
crates/vms_call_bench. What each call does is told at the head of bench/words.c. On the 4 CPUs of snapshots4 one thread
alone works where CPUs stand 16 apart.

With --door the kinds that bench/door.c has are measured by calls of crates/vozhkell_c too, and for them is printed how
many nanoseconds more a call takes than in C with rows: at most 5 are wanted. The library is built by `rt lib`.

Needed are Linux, python3 and a C compiler with pthreads. The proved programs may be named in VMS_BENCH and
VMS_CALL_BENCH, and the library in VOZHKELL_C; then they aren't built. Times vary with what else the machine does, so
the load average is printed too.
"""
import argparse
import itertools
import os
import statistics
import subprocess
import sys
import tempfile
from pathlib import Path

TOP = os.path.dirname(os.path.dirname(os.path.abspath(__file__)))
BENCH = "vms_bench"
CALL_BENCH = "vms_call_bench"


class Kind:
    """What is called, by the program of which crate, and on how many threads at most where CPUs stand apart."""

    def __init__(self, crate, told, threads=4):
        self.crate, self.told, self.threads = crate, told, threads


KINDS = {
    "pages": Kind(BENCH, "changes of a page counter by single steps, each 20th past the threshold"),
    "events": Kind(BENCH, "counts of an event"),
    "locals": Kind(BENCH, "additions to a percpu counter within its batch"),
    "adds": Kind(CALL_BENCH, "changes of a page counter by `add`, each 20th past the threshold"),
    "folds": Kind(CALL_BENCH, "changes of a page counter by `add`, each with a `fold` of the CPU by its owner"),
    "watermarks": Kind(CALL_BENCH, "tests by `watermark_ok` that take no snapshot"),
    "snapshots4": Kind(CALL_BENCH, "tests by `watermark_ok` that take the snapshot on 4 CPUs", threads=1),
    "snapshots64": Kind(CALL_BENCH, "tests by `watermark_ok` that take the snapshot on 64 CPUs"),
    "snapshots128": Kind(CALL_BENCH, "tests by `watermark_ok` that take the snapshot on 128 CPUs"),
}
# What bench/door.c has.
DOOR = {"events", "locals", "adds", "folds", "watermarks", "snapshots64"}
# Loops are aligned, since else the time of a short one goes by where it happens to stand.
FLAGS = ["-std=c11", "-O3", "-march=x86-64-v2", "-falign-loops=32", "-Wall", "-Wextra", "-Werror", "-pthread"]


class Fault(Exception):
    """Why there is nothing to measure."""


def run(words, processors=None, **how):
    """What a program writes, and the seconds of processors that it took. It runs on these alone, if some are given."""
    pin = (lambda: os.sched_setaffinity(0, processors)) if processors else None
    try:
        process = subprocess.Popen(
            words, stdout=subprocess.PIPE, stderr=subprocess.STDOUT, text=True, preexec_fn=pin, **how)
    except OSError as error:
        raise Fault(f"{words[0]} can't be run: {error.strerror}") from error
    with process.stdout as pipe:
        written = pipe.read()
    _, status, used = os.wait4(process.pid, 0)
    process.returncode = os.waitstatus_to_exitcode(status)
    if process.returncode != 0:
        lines = written.strip().splitlines()
        raise Fault(f"`{' '.join(words)}` ended with status {process.returncode}: {lines[-1] if lines else 'no word'}")
    return written, used.ru_utime + used.ru_stime


def proved_program(kind):
    crate = KINDS[kind].crate
    named = os.environ.get(crate.upper())
    if named:
        if not os.access(named, os.X_OK):
            raise Fault(f"{crate.upper()} names {named}, which is no program")
        return named
    folder = os.path.join(TOP, "crates", crate)
    run(["rt", "run", "--", kind, "1", "1", "near"], cwd=folder)
    return os.path.join(folder, "out", crate)


def c_program(compiler, flags, folder):
    program = os.path.join(folder, "flat" if "-DFLAT" in flags else "words")
    run([*compiler.split(), *flags, "-o", program, os.path.join(TOP, "bench", "words.c")])
    return program


def kit_heap():
    """The heap of the Rattle kit, which a program in C links beside the library."""
    told, _ = run(["rt", "doc"])
    for folder in Path(told.strip()).resolve().parents:
        if (folder / "c" / "liblibc_c.a").exists():
            return str(folder / "c" / "liblibc_c.a")
    raise Fault("the kit's heap isn't where `rt doc` leads")


def door_program(compiler, folder):
    crate = os.path.join(TOP, "crates", "vozhkell_c")
    library = os.environ.get("VOZHKELL_C")
    if not library:
        run(["rt", "lib"], cwd=crate)
        library = os.path.join(crate, "out", "libvozhkell_c.a")
    program = os.path.join(folder, "door")
    run([*compiler.split(), *FLAGS, "-I", crate, "-o", program, os.path.join(TOP, "bench", "door.c"), library,
         kit_heap()])
    return program


def nanoseconds(programs, kind, threads, distance, calls, runs):
    """The times of a call by each program, run by run."""
    processors = sorted(os.sched_getaffinity(0))[:threads]
    if len(processors) < threads:
        raise Fault(f"{threads} threads want as many processors, and there are {len(processors)}")
    times = {name: [] for name in programs}
    for _ in range(runs):
        written = {}
        for name, program in programs.items():
            _, start = run([program, kind, "1", str(threads), distance], processors)
            written[name], whole = run([program, kind, str(calls), str(threads), distance], processors)
            times[name].append(1e9 * (whole - start) / (calls - 1) / threads)
        if len(set(written.values())) > 1:
            told = ", ".join(f"{name} {text.strip()!r}" for name, text in written.items())
            print(f"bench/words.py: {kind} on {threads} threads {distance} differ: {told}", file=sys.stderr)
            sys.exit(1)
    return times


def positive(text):
    number = int(text)
    if number < 1:
        raise ValueError
    return number


def arguments():
    parser = argparse.ArgumentParser(
        description=__doc__.split("\n\n")[0],
        epilog="\n\n".join(__doc__.split("\n\n")[2:]),
        formatter_class=argparse.RawDescriptionHelpFormatter,
    )
    parser.add_argument("-k", "--kind", action="append", choices=KINDS, help="a kind of call; all where none is given")
    parser.add_argument("-t", "--threads", action="append", type=positive, help="1 to 4; 1, 2 and 4 where none is given")
    parser.add_argument("-d", "--distance", action="append", choices=("near", "apart"),
                        help="between the CPUs of threads; both where none is given")
    parser.add_argument("-n", "--calls", type=positive, default=10_000_000, help="of each thread (10000000)")
    parser.add_argument("-r", "--runs", type=positive, default=11, help="of each program (11)")
    parser.add_argument("--cc", default=os.environ.get("CC", "cc"), metavar="COMMAND", help="the C compiler (cc)")
    parser.add_argument("--volumes", action="store_true",
                        help="let the C program keep what each CPU has changed so far, as the proved one does")
    parser.add_argument("--functions", action="store_true",
                        help="let the C program call its changes, folds and tests, as the kernel and the proved one do")
    parser.add_argument("--door", action="store_true", help="measure calls of crates/vozhkell_c too")
    words = parser.parse_args()
    if words.calls < 2:
        parser.error("the times of 2 calls at least can be told from that of one")
    if any(threads > 4 for threads in words.threads or []):
        parser.error("the programs start at most 4 threads")
    return words


def main():
    words = arguments()
    flags = FLAGS + ["-DVOLUMES"] * words.volumes + ["-DFUNCTIONS"] * words.functions
    with tempfile.TemporaryDirectory() as folder:
        try:
            in_c = c_program(words.cc, flags, folder)
            flat = c_program(words.cc, flags + ["-DFLAT"], folder)
            door = door_program(words.cc, folder) if words.door else None
            print(f"load average {os.getloadavg()[0]:.2f}; {words.calls} calls a thread, {words.runs} runs in turn")
            for kind in words.kind or KINDS:
                programs = {"proved": proved_program(kind), "C": in_c, "flat C": flat}
                if door and kind in DOOR:
                    programs["door"] = door
                print(f"{kind}: {KINDS[kind].told}")
                for threads, distance in itertools.product(words.threads or (1, 2, 4),
                                                           words.distance or ("near", "apart")):
                    if distance == "apart" and threads > KINDS[kind].threads:
                        continue
                    times = nanoseconds(programs, kind, threads, distance, words.calls, words.runs)
                    medians = {name: statistics.median(taken) for name, taken in times.items()}
                    told = ", ".join(
                        f"{name} {medians[name]:.2f} ns ({min(taken):.2f})" for name, taken in times.items())
                    ratios = ", ".join(
                        f"{medians['proved'] / medians[name]:.2f} ({min(times['proved']) / min(times[name]):.2f})"
                        f" to {name}" for name in ("C", "flat C"))
                    further = f", door {medians['door'] - medians['C']:+.2f} ns to C" if "door" in programs else ""
                    print(f"  {threads} thread{'s' * (threads > 1)} {distance}: {told}, ratio {ratios}{further}",
                          flush=True)
        except Fault as fault:
            print(f"bench/words.py: {fault}", file=sys.stderr)
            sys.exit(2)


if __name__ == "__main__":
    main()
