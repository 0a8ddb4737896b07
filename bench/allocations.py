#!/usr/bin/env python3
"""Refuses each allocation of the proved program in turn, and says where its status or output isn't what it should be.

    bench/allocations.py [TRACE..]
    bench/allocations.py --pool

The program is crates/vozhkell/out/vozhkell, or the one that VOZHKELL names, called with the words `replay`, `check`,
`record`, `certify`, `run`, `groups` and `gen`. The traces are the stored run of the program and two phases of 2,000
lines, where none is given, and `certify` judges what is recorded of them. Under `run` and `groups` they are rows of
bench/rows in which each phase has one lane, so that one output is right; under `record` and `certify` also rows with a
history, of which one is of three phases and one lacks what is due. A small library that is loaded before libc (cc
builds it) makes the Nth call of malloc or realloc find no memory, for each N that a run reaches. Such a run ends with
status 6, and what it wrote begins what the program writes where nothing is refused; or the same size is asked for again
and found, and it ends as where nothing is refused. A line is printed for each trace, and the status is 1 if a run ends
otherwise.

With --pool the program is crates/pool_example/out/pool_example, which is to write what stands beside it. Where it finds
no memory, it says so on standard error and ends with status 1; or it starts a thread less, and ends as otherwise.
"""
import os
import subprocess
import sys
import tempfile

TOP = os.path.dirname(os.path.dirname(os.path.abspath(__file__)))
# how a program ends that finds no memory: the status, and what it says on standard error
MEMORY = 6, b""
POOL_MEMORY = 1, b"out of memory"
LIBRARY = """
#include <errno.h>
#include <stdio.h>
#include <stdlib.h>

void *__libc_malloc(size_t);
void *__libc_realloc(void *, size_t);

static long refused, calls;

__attribute__((constructor)) static void begin(void)
{
    const char *number = getenv("REFUSED");
    refused = number ? atol(number) : 0;
}

/* A run tells on standard error how many calls it made, also where it ends by _exit. */
__attribute__((destructor)) static void end(void) { dprintf(2, "%ld\\n", calls); }

void _exit(int status)
{
    end();
    _Exit(status);
}

static int finds_none(void)
{
    if (__atomic_add_fetch(&calls, 1, __ATOMIC_SEQ_CST) != refused)
        return 0;
    errno = ENOMEM;
    return 1;
}

void *malloc(size_t size) { return finds_none() ? NULL : __libc_malloc(size); }
void *realloc(void *old, size_t size) { return finds_none() ? NULL : __libc_realloc(old, size); }
"""


def library(folder):
    source, built = (os.path.join(folder, name) for name in ("refuse.c", "refuse.so"))
    with open(source, "w") as file:
        file.write(LIBRARY)
    subprocess.run(["cc", "-O2", "-shared", "-fPIC", "-o", built, source], check=True)
    return built


def run(words, preload, text, refused):
    """The status, the output, and what was said on standard error: last how many allocations were asked for."""
    environment = {**os.environ, "LD_PRELOAD": preload, "REFUSED": str(refused)}
    try:
        done = subprocess.run(words, input=text, capture_output=True, env=environment, timeout=60)
    except subprocess.TimeoutExpired:
        return "not told within 60 s", b"", b""
    return done.returncode, done.stdout, done.stderr


def long_phases():
    """Two phases of 2,000 lines, half of which answer, with a report after each."""
    lines = ["vmtrace 1", "cpus 2", "zone 0 Normal 262144 100 125 150", "base 0 Normal nr_free_pages 10000", "go"]
    phase = ["c0 mod 0 Normal nr_free_pages -3", "c1 snap 0 Normal nr_free_pages"] * 1000
    lines += (phase + ["report totals"]) * 2
    return "".join(line + "\n" for line in lines).encode()


def contents(*path):
    with open(os.path.join(*path), "rb") as file:
        return file.read()


def row(name):
    return contents(TOP, "bench", "rows", name)


def calls_of(program, traces):
    """The name, the words and the input of each call, and what it should write where that is written."""
    traces = traces or {"stored run": contents(TOP, "crates", "vozhkell", "stdin"), "long phases": long_phases()}
    for command in ("replay", "check", "record"):
        for name, text in traces.items():
            yield f"{command} of {name}", [program, command], text, None
    for name, text in traces.items():
        recorded = subprocess.run([program, "record"], input=text, capture_output=True, timeout=60).stdout
        yield f"certify of what is recorded of {name}", [program, "certify"], recorded, None
    history = row("history_of_a_change.vmhistory")
    yield "record of history_of_a_change", [program, "record"], history[:history.index(b"history 1\n")], history
    for command, ending, names in [
            ("certify", "vmhistory", ["history_of_a_change", "history_after_refused_lines", "history_is_missing"]),
            ("run", "vmtrace", ["whole_run_in_turn"]),
            ("groups", "vmgroups", ["groups_flush_of_a_part", "groups_refused_lines_wait", "groups_unknown_parent"])]:
        for name in names:
            yield f"{command} of {name}", [program, command], row(f"{name}.{ending}"), row(f"{name}.out")
    yield "gen 1 4 50", [program, "gen", "1", "4", "50"], b"", None


def wrong_runs(name, words, text, wanted, preload, memory):
    """How many runs end otherwise than they should."""
    status, out, said = run(words, preload, text, 0)
    calls = int(said.split()[-1])
    ended, wrong = 0, int(wanted not in (None, out))
    for refused in range(1, calls + 1):
        found, written, said = run(words, preload, text, refused)
        if found == memory[0] and memory[1] in said and out.startswith(written):
            ended += 1
        elif (found, written) != (status, out):
            print(f"{name}: where allocation {refused} is refused the status is {found}, with {len(written)} bytes")
            wrong += 1
    print(f"{name}: {calls} runs, another allocation refused in each: {ended} ended with status {memory[0]}, "
          f"{wrong} wrong")
    return wrong


def main():
    if sys.argv[1:2] in (["-h"], ["--help"]):
        print(__doc__.strip())
        return 0
    if sys.argv[1:] == ["--pool"]:
        crate = os.path.join(TOP, "crates", "pool_example")
        calls = [("pool_example", [os.path.join(crate, "out", "pool_example")], b"", contents(crate, "stdout"))]
        memory = POOL_MEMORY
    else:
        program = os.environ.get("VOZHKELL", os.path.join(TOP, "crates", "vozhkell", "out", "vozhkell"))
        calls = calls_of(program, {name: contents(name) for name in sys.argv[1:]})
        memory = MEMORY
    with tempfile.TemporaryDirectory() as folder:
        preload = library(folder)
        wrong = [wrong_runs(*call, preload, memory) for call in calls]
    return 1 if sum(wrong) else 0


if __name__ == "__main__":
    sys.exit(main())
