#!/usr/bin/env python3
"""Has `rt lib` take the libraries that `rt ci` has just proved and built, in place of proving them again.

    mark_libraries.py CRATE

`rt ci` leaves each library beside its crate, but without the stamp by which the other commands know what a library was
made from. This writes the stamp, as the kit's own code computes it, for each library below CRATE that is newer than all
it was made from. Where the kit's code isn't as this script knows it, or a library is missing or older, nothing is
written: then `rt lib` proves and builds what it lacks, and takes longer.
"""
import os
import shutil
import sys
from pathlib import Path

from quick_rt import asking_once, loaded, remembering

TOP = Path(__file__).resolve().parent.parent
PARTS = ("src", "specs", "proofs")


def newest(folder):
    """When the crate's sources were last changed."""
    files = [path for part in PARTS for path in (Path(folder) / part).rglob("*") if path.is_file()]
    return max((path.stat().st_mtime for path in files), default=0)


def mark(name):
    kit = loaded(os.path.realpath(shutil.which("rt"))).rtlib
    kit.Crate.stamp, kit.Crate.below = remembering(kit.Crate.stamp), asking_once(kit.Crate.below)
    crates = {crate.name: crate for crate in kit.crates_below(str(TOP))}
    listed = (TOP / "crates.txt").stat().st_mtime
    marked = 0
    for crate in crates[name].below():
        library, stamp = Path(crate.rlib), Path(crate.rlib).parent / "stamp"
        sources = max([listed, *(newest(it.folder) for it in (*crate.below(), crate))])
        if stamp.exists() or not library.is_dir() or library.stat().st_mtime <= sources:
            continue
        stamp.write_text(crate.stamp(), encoding="utf-8")
        marked += 1
    return marked


def main():
    os.chdir(TOP)
    try:
        print(f"libraries marked: {mark(sys.argv[1])}")
    except (AttributeError, ImportError, KeyError, OSError, TypeError) as error:
        print(f"no library marked: {error!r}")


if __name__ == "__main__":
    main()
