#!/usr/bin/env python3
"""Measures the most memory that a program holds on a long trace of short phases, and says whether it is too much.

    bench/memory.py

The program is the proved one that VOZHKELL names, and else the plain one: bench/vozhkell.rs, which is built for this
where PLAIN doesn't name it. The trace has almost 1,000,000 lines in 2,000 phases, under `run`, `groups` and `record` the
first 100,000 in 200, and `certify` is given what is recorded of these. Every other phase ends with a report, and a third
of the lines of each answers. What is printed is VmHWM of /proc, once the program has read all lines, or the last that is
seen before it ends, as `record` writes the history then. `gen` is called with 100,000 lines on 8 CPUs, and reads
nothing. The status is 1 if it is more than is allowed or the program doesn't end with status 0.
"""
import array
import fcntl
import os
import subprocess
import sys
import tempfile
import termios
import time

from faults import plain_program, run

# `record` and `certify` keep the 98,800 lines of the lanes, in 32 bytes each or, the plain program, in 48: at most 4.8
# MB. The history, of which the text alone has 4.3 MB, isn't kept.
MOST = {"check": 3_000_000, "replay": 3_000_000, "run": 4_000_000, "groups": 4_000_000, "record": 8_000_000,
        "certify": 8_000_000, "gen": 10_000_000}
HEAD = b"""vmtrace 1
cpus 8
zone 0 Normal 262144 100 125 150
base 0 Normal nr_free_pages 10000
counter files 32
go
"""
LINES = b"""c0 mod 0 Normal nr_free_pages 19
c1 mod 0 node nr_dirty -33
c2 inc 0 Normal nr_mlock
c3 val 0 Normal nr_free_pages
c4 ev pgfault 2
c5 cnt files 40
c6 ok 0 Normal high 2
k fold 1
c7 lim files 1000000 3
"""


GROUP_HEAD = b"vmgroups 1\ncpus 8\ngroup root\n" + b"".join(b"group g%d root\n" % n for n in range(63)) + b"go\n"
GROUP_LINES = b"""c0 add g0 19
c1 add g62 -33
c2 value root
c3 add g1 40
c4 flush g1
c5 value g1
c6 add root 2
c7 value g62
c0 flush root
"""


def trace(command):
    """A tenth of the phases for the threads of `run` and `groups`, and for what writes and judges a history."""
    phases = 2000 if command in ("check", "replay") else 200
    head, lines, report = HEAD, LINES, b"report totals\n"
    if command == "groups":
        head, lines, report = GROUP_HEAD, GROUP_LINES, b"report groups\n"
    lines = lines.splitlines(keepends=True)
    phase = b"".join(lines[n % len(lines)] for n in range(494))
    return head + (phase + b"sync\n" + phase + report) * (phases // 2)


def unread(pipe):
    """The bytes in a pipe that nobody has read."""
    count = array.array("i", [0])
    fcntl.ioctl(pipe, termios.FIONREAD, count)
    return count[0]


def high_water(process):
    """The most memory that a process has held so far, in bytes; 0 where it has ended."""
    try:
        with open(f"/proc/{process.pid}/status") as status:
            marks = [line.split()[1] for line in status if line.startswith("VmHWM")]
    except OSError:
        marks = []
    return max([0, *map(int, marks)]) * 1024


def most_to_the_end(process):
    """The last high-water mark in bytes that is seen before a program ends by itself."""
    most = 0
    while process.poll() is None:
        most = max(most, high_water(process))
    return most


def most_memory(program, command, text):
    """The high-water mark in bytes of a program that waits for more after the whole trace, and then finds its end; and
    its status."""
    process = subprocess.Popen([program, command], stdin=subprocess.PIPE, stdout=subprocess.DEVNULL)
    with process.stdin as pipe:
        pipe.write(text)
        pipe.flush()
        while unread(pipe) and process.poll() is None:
            time.sleep(0.01)
        time.sleep(0.1)
        most = high_water(process)
    return max(most, most_to_the_end(process)), process.returncode


def most_of_made(program):
    """The same of a program that reads nothing."""
    words = [program, "gen", "1", "8", "100000"]
    process = subprocess.Popen(words, stdin=subprocess.DEVNULL, stdout=subprocess.DEVNULL)
    return most_to_the_end(process), process.returncode


def main():
    failed = 0
    with tempfile.TemporaryDirectory() as folder:
        program = os.environ.get("VOZHKELL") or plain_program(folder)
        for command, allowed in MOST.items():
            if command == "gen":
                most, status = most_of_made(program)
            else:
                text = trace(command)
                if command == "certify":
                    text = run([program, "record"], text)[1]
                most, status = most_memory(program, command, text)
            print(f"{command}: at most {most:,} bytes, where {allowed:,} are allowed; status {status}")
            failed += most == 0 or most > allowed or status != 0
    sys.exit(1 if failed else 0)


if __name__ == "__main__":
    main()
