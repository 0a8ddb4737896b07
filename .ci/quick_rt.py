#!/usr/bin/env python3
"""Runs `rt` with the same words, and spares it reading sources again that it has just read.

    quick_rt.py WORD..

Before `rt` takes a library that stands it sums up what it was made from: the sources of the crate, and those of the
crates below it. Some kits do so once for each way of crates.txt that leads to a crate, which for the program are some
15,000 ways, at each of many calls. This runs the kit's own code, in which a sum now remembers what it found of each
crate, until that sum is made. Where `rt` is no python script, or its code isn't as this script knows it, it is run as
it is.
"""
import functools
import importlib.machinery
import importlib.util
import os
import shutil
import sys
import threading


def loaded(path):
    """The kit's `rt` as a module, or none where it is something else."""
    with open(path, "rb") as script:
        if not script.readline().strip().endswith(b"python3"):
            return None
    loader = importlib.machinery.SourceFileLoader("kit_rt", path)
    module = importlib.util.module_from_spec(importlib.util.spec_from_loader("kit_rt", loader))
    sys.path.insert(0, os.path.dirname(path))
    sys.argv[0], sys.dont_write_bytecode = path, True
    loader.exec_module(module)
    return module


def remembering(stamp):
    """The sum of a crate, in which each crate below it is summed up once."""
    within = threading.local()

    @functools.wraps(stamp)
    def once(crate):
        if getattr(within, "known", None) is None:
            within.known = {}
            try:
                return stamp(crate)
            finally:
                within.known = None
        if crate.folder not in within.known:
            within.known[crate.folder] = stamp(crate)
        return within.known[crate.folder]

    return once


def asking_once(below):
    """The crates below one, which don't change while `rt` runs."""
    known = {}

    @functools.wraps(below)
    def once(crate):
        if id(crate) not in known:
            known[id(crate)] = (crate, below(crate))
        return list(known[id(crate)][1])

    return once


def quickened(crate):
    crate.stamp, crate.below = remembering(crate.stamp), asking_once(crate.below)


def running(path):
    """What `rt` calls with its words."""
    kit = loaded(path)
    quickened(kit.rtlib.Crate)
    return kit.main


def planting(path):
    """The same of `rt plant`."""
    planter = loaded(path)
    quickened(planter.rt.Crate)
    planter.rt.guarded()
    return lambda words: planter.main(*words[1:])


def main(words):
    path = shutil.which("rt")
    if path is None:
        print("rt: command not found", file=sys.stderr)
        return 127
    path = os.path.realpath(path)
    try:
        run = planting(f"{path}-plant") if words[:1] == ["plant"] else running(path)
    except (AttributeError, ImportError, OSError, SyntaxError):
        os.execv(path, [path, *words])
    return run(words)


if __name__ == "__main__":
    sys.exit(main(sys.argv[1:]))
