#!/usr/bin/env python3
"""Proves and builds libraries as the gate does, each once, and keeps them for the crates above.

    prove_libraries.py [--lanes N] [--jobs N] [--pool FOLDER] [--check] [NAME..]

For each crate NAME (without one: each crate) the libraries that it stands on are proved and built, and it too if it is
one: N at a time (as many as there are processors), each in so many jobs (1), those first that most others wait for. A library whose sources and
those below it are as when it was built is left as it is. With a pool, what is built is also kept there by the sum of
its sources, and what the pool has is taken from there, so that several clones of the repository prove each library
once; where the pool has a file `stop`, no other library is begun. With --check nothing is built, and what is missing is named.

`rt check`, `rt test` and `rt must-fail` then go by these libraries. `rt check` alone would prove each of them again,
one after the other. Status 1 where a library is not proved, or, with --check, where one is missing.
"""
import argparse
import os
import shutil
import sys
import time
from concurrent.futures import FIRST_COMPLETED, ThreadPoolExecutor, wait

sys.dont_write_bytecode = True
sys.path.insert(0, os.path.dirname(os.path.abspath(__file__)))
import quick_rt

TOP = os.path.dirname(os.path.dirname(os.path.abspath(__file__)))
BEGAN = time.monotonic()


def say(text):
    print(f"{time.monotonic() - BEGAN:6.0f} s  {text}", flush=True)


def taken(crate, stamp, pool):
    """Whether the library stands, or could be taken from the pool."""
    if crate.is_built():
        return True
    kept = pool and os.path.join(pool, stamp)
    if not kept or not os.path.isfile(f"{kept}/stamp"):
        return False
    room = os.path.dirname(crate.rlib)
    shutil.rmtree(room, ignore_errors=True)
    shutil.copytree(kept, room, copy_function=os.link)
    return True


def built(crate, stamp, pool, jobs):
    """Proves and builds a library below which all stand, unless the pool has it by now; whether it is proved."""
    if taken(crate, stamp, pool):
        return True
    os.makedirs(f"{crate.folder}/out", exist_ok=True)
    with open(f"{crate.folder}/out/prove.log", "w", encoding="utf-8") as crate.out:
        status = crate.build_rlib(["--jobs", str(jobs)], anew=True)
    if status or stamp != crate.stamp():
        return False
    room = os.path.dirname(crate.rlib)
    with open(f"{room}/stamp", "w", encoding="utf-8") as it:
        it.write(stamp)
    if pool and not os.path.isdir(f"{pool}/{stamp}"):
        part = f"{pool}/{stamp}.{os.getpid()}"
        shutil.copytree(room, part, copy_function=os.link)
        os.rename(part, f"{pool}/{stamp}")
    return True


def main():
    words = argparse.ArgumentParser(usage=__doc__)
    words.add_argument("--lanes", type=int, default=os.cpu_count())
    words.add_argument("--jobs", type=int, default=1)
    words.add_argument("--pool")
    words.add_argument("--check", action="store_true")
    words.add_argument("names", nargs="*")
    given = words.parse_args()
    kit = quick_rt.loaded(os.path.realpath(shutil.which("rt")))
    # the gate's own kind of crate, which is held to HANDLES
    crate = kit.rtlib.Crate = kit.Crate
    crate.stamp, crate.below = quick_rt.remembering(crate.stamp), quick_rt.asking_once(crate.below)
    crate.allowed, crate.cuts_libraries = kit.handles_of(TOP), True
    kit.rtlib.guarded()
    if given.pool:
        os.makedirs(given.pool, exist_ok=True)
    known = {}
    folders = [f"{TOP}/crates/{it}" for it in given.names or sorted(os.listdir(f"{TOP}/crates"))]
    for folder in folders:
        if folder not in known:
            known[folder] = crate(folder, TOP, known)
    wanted = []
    for folder in folders:
        whole = [*known[folder].below(), known[folder]]
        wanted += [it for it in whole if it.makes_rlib() and it not in wanted]
    stamps = {it.name: it.stamp() for it in wanted}
    # what waits for each, in lines
    behind = {}
    for it in reversed(wanted):
        above = [behind[other.name] for other in wanted if it in other.deps and other.name in behind]
        behind[it.name] = it.count(rb"\n") + max(above, default=0)
    left = [it for it in wanted if not taken(it, stamps[it.name], given.pool)]
    say(f"{len(wanted)} libraries, {len(left)} to build")
    if given.check:
        for it in left:
            say(f"missing: {it.name}")
        return 1 if left else 0
    left.sort(key=lambda it: -behind[it.name])
    running, failed, began = {}, [], {}
    with ThreadPoolExecutor(given.lanes) as pool:
        while left or running:
            waiting = {it.name for it in left} | {it.name for it in running.values()} | {*failed}
            for it in [it for it in left if not any(dep.name in waiting for dep in it.below())]:
                if len(running) < given.lanes and not (given.pool and os.path.exists(f"{given.pool}/stop")):
                    left.remove(it)
                    began[it.name] = time.monotonic()
                    running[pool.submit(built, it, stamps[it.name], given.pool, given.jobs)] = it
            if not running:
                break
            for done in wait(running, return_when=FIRST_COMPLETED).done:
                it = running.pop(done)
                took = time.monotonic() - began[it.name]
                if done.result():
                    say(f"{it.name} built in {took:.0f} s; left: {len(left) + len(running)}")
                else:
                    failed.append(it.name)
                    say(f"{it.name} NOT PROVED: see crates/{it.name}/out/prove.log")
    for it in left:
        say(f"{it.name} not tried: a library below it isn't proved")
    return 1 if failed else 0


if __name__ == "__main__":
    sys.exit(main())
