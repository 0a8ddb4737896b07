#!/usr/bin/env python3
"""Proves a crate from nothing and prints which functions take its time.

    bench/proof_times.py CRATE [--test]

The crates below it must have been checked (`rt check` in its folder does that). With --test its tests are proved too.
The check runs in one process, in a copy of the crate; after each function that is proved the script reads how much
processor time it has taken so far. What comes before the first one, as reading the libraries and the definitions, is
counted with it. The exit status is the check's.
"""

import os
import re
import shutil
import subprocess
import sys
import tempfile

ROOT = os.path.dirname(os.path.dirname(os.path.abspath(__file__)))
TICKS = os.sysconf("SC_CLK_TCK")


def seconds_of(pid):
    """The processor time that a process has taken so far, or None where it has ended."""
    try:
        with open(f"/proc/{pid}/stat") as f:
            fields = f.read().rsplit(")", 1)[1].split()
    except OSError:
        return None
    return (int(fields[11]) + int(fields[12])) / TICKS


def words_of(crate, flags):
    """The prover's words for a check of a crate, by the kit's own library."""
    sys.path.insert(0, os.path.dirname(os.path.realpath(shutil.which("rt"))))
    import rtlib

    folder = f"{ROOT}/crates/{crate}"
    found = rtlib.Crate(folder, ROOT, {})
    return [rtlib.RATTLE, "check", *found.words(["--jobs", "1", "--progress", *flags], keeps=False)]


def main():
    crate, flags = "".join(sys.argv[1:2]), sys.argv[2:]
    if not os.path.isdir(f"{ROOT}/crates/{crate}/src") or flags not in ([], ["--test"]):
        print(__doc__.strip())
        return 2
    words = words_of(crate, flags)
    with tempfile.TemporaryDirectory() as room:
        for part in ("src", "specs", "proofs"):
            if os.path.isdir(f"{ROOT}/crates/{crate}/{part}"):
                shutil.copytree(f"{ROOT}/crates/{crate}/{part}", f"{room}/{part}")
        checking = subprocess.Popen(
            words, cwd=room, stdout=subprocess.PIPE, stderr=subprocess.STDOUT, text=True, errors="replace"
        )
        rows, before, last = [], 0.0, ""
        for line in checking.stdout:
            now = seconds_of(checking.pid)
            ended = re.match(r"checked (.*), \d+ of \d+$", line)
            if ended and now is not None:
                rows.append((now - before, ended[1]))
                before = now
            last = line.strip() or last
        status = checking.wait()
    for taken, name in sorted(rows, reverse=True):
        print(f"{taken:8.1f} {name}")
    print(f"{before:8.1f} together, {last}")
    return status


if __name__ == "__main__":
    sys.exit(main())
