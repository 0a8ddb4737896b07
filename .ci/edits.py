#!/usr/bin/env python3
"""Tries the edits that must be refused, and says what came of each.

    .ci/edits.py [--jobs N] [--both] [CRATE..|CRATE/NAME..]
    .ci/edits.py --apply [CRATE..]

edits/CRATE/NAME.edit has the form of crates/CRATE/must-fail/NAME.edit: a line `file: src/FILE`, and pairs of lines
`old: TEXT` and `new: TEXT`, where `old` stands once in the file. It makes a body of the crate wrong, and the check has
to refuse it. The gate tries those of must-fail/. This tries those of edits/, and with --both those of must-fail/ too:
those named, those of the crates named, or all. It copies each crate and those below it to a temporary folder, with the
libraries and the work that earlier checks kept, and has `rt must-fail` try them there, so that the checkout stays as it
is. N checks run at a time (2 if left out). A library that is missing is proved first; .ci/prove_libraries.py does that
several at a time.

Each edit has a line, which says `refused`, `NOT REFUSED`, `BAD EDIT` (it can't be applied, compiled or read) or `NOT
TRIED`. The status is 0 if all were refused, 1 if one wasn't, and 2 where nothing could be tried.

With --apply nothing is proved: it looks whether all edits of edits/ and must-fail/ can be applied, and change code of
src/ alone. Status 1 and a line for each that can't.
"""
import argparse
import os
import re
import shutil
import subprocess
import sys
import tempfile
from concurrent.futures import ThreadPoolExecutor, as_completed
from pathlib import Path

TOP = Path(__file__).resolve().parent.parent
PARTS = ("src", "specs", "proofs", "c")
NAME = re.compile(r"[A-Za-z0-9_-][A-Za-z0-9_.-]*\.edit")
REMARK = re.compile(r"#|--|//")
REFUSED, MISSED, BAD, UNTRIED = "refused", "NOT REFUSED", "BAD EDIT", "NOT TRIED"
KINDS = (REFUSED, MISSED, BAD, UNTRIED)
SAID = re.compile(rf"(?:rt: )?must-fail (\w+)/(\S+\.edit): ({'|'.join(KINDS)})(?:, as it must be)?:? ?(.*)")


class Stop(Exception):
    """Why nothing could be tried."""


def lines_of(text):
    """The crates of a crates.txt, each with its line."""
    lines = [line.split("#")[0].strip() for line in text.splitlines()]
    return {line.split(":")[0].split()[0]: line for line in lines if ":" in line}


def listed():
    return lines_of((TOP / "crates.txt").read_text(encoding="utf-8"))


def with_those_below(names, lines):
    """The crates and all that their lines lead to."""
    found, left = set(), list(names)
    while left:
        name = left.pop()
        if name in lines and name not in found:
            found.add(name)
            left += lines[name].split(":")[1].split()
    return found


def beside(name):
    return TOP / "edits" / name


def within(name):
    return TOP / "crates" / name / "must-fail"


def edits_of(name, both):
    """The edits of a crate."""
    folders = [beside(name), within(name)] if both else [beside(name)]
    return [path for folder in folders for path in sorted(folder.glob("*.edit"))]


def with_edits(both):
    """The crates that have edits."""
    folders = [*TOP.glob("edits/*"), *([it.parent for it in TOP.glob("crates/*/must-fail")] if both else [])]
    return sorted({it.name for it in folders if it.is_dir() and edits_of(it.name, both)})


def chosen_by(words, both):
    """By crate the edits that the words name: CRATE or CRATE/NAME."""
    chosen, crates = {}, listed()
    for word in words:
        name, _, edit = word.partition("/")
        found = [path for path in edits_of(name, both or edit) if edit in ("", path.stem)] if name in crates else []
        if not found:
            raise Stop(f"{word} is no edit" if edit else f"{word} is no crate with edits")
        chosen[name] = list(dict.fromkeys([*chosen.get(name, []), *found]))
    return chosen


def fault_of(edit, crate):
    """Why an edit can't be applied to a crate, or none."""
    lines = [line for line in edit.read_text(encoding="utf-8").split("\n") if line.strip() and not REMARK.match(line)]
    if not NAME.fullmatch(edit.name):
        return "its name has other marks than letters, digits, _, - and ., or doesn't end in .edit"
    if not lines or not lines[0].startswith("file: src/"):
        return "it doesn't begin with a file of src/"
    path, old, texts, before = None, None, {}, {}
    for line in lines:
        if line.startswith("file: "):
            path = line.removeprefix("file: ").strip()
            if os.path.normpath(path) != path or not path.startswith("src/"):
                return f"{path} is no file of src/"
            if not (crate / path).is_file():
                return f"there is no file {path}"
            if path not in texts:
                texts[path] = before[path] = (crate / path).read_text(encoding="utf-8")
        elif line.startswith("old: ") and old is None:
            old = line.removeprefix("old: ")
        elif line.startswith("new:") and old:
            found = texts[path].count(old)
            if found != 1:
                return f"`{old.strip()}` stands {found} times in {path}, and not once"
            texts[path], old = texts[path].replace(old, line.removeprefix("new:").removeprefix(" ")), None
        else:
            return f"a line isn't read, or stands where it can't: {line.strip()[:60]}"
    if old is not None:
        return "the last `old` has no `new`"
    return "it changes nothing" if texts == before else None


def faults(names):
    """Of all edits of these crates, the number and what is wrong with some."""
    lines, number, wrong = listed(), 0, []
    for name in names:
        if name not in lines:
            wrong.append(f"{name}: there is no such crate")
            continue
        twice = {it.name for it in beside(name).glob("*")} & {it.name for it in within(name).glob("*")}
        wrong += [f"{name}/{it}: it stands in edits/ and in must-fail/" for it in sorted(twice)]
        for path in [*sorted(beside(name).glob("*")), *sorted(within(name).glob("*"))]:
            number += 1
            why = fault_of(path, TOP / "crates" / name)
            if why:
                wrong.append(f"{name}/{path.name}: {why}")
    return number, wrong


def link_or_copy(one, other):
    """Gives a file that is replaced, and never written into, a second name."""
    try:
        os.link(one, other)
    except OSError:
        shutil.copy2(one, other)


def keep(one, other):
    """What was proved as a link, the rest of the kept work as a copy."""
    (link_or_copy if one.endswith(".oantt") else shutil.copy2)(one, other)


def copied(chosen, room):
    """Makes a repository of these crates, with their edits, and of those below them."""
    lines = listed()
    wanted = with_those_below(chosen, lines)
    kept = [line for name, line in lines.items() if name in wanted]
    (room / "crates.txt").write_text("".join(f"{line}\n" for line in kept), encoding="utf-8")
    if (TOP / "HANDLES").exists():
        shutil.copy2(TOP / "HANDLES", room / "HANDLES")
    for name in wanted:
        crate, to = TOP / "crates" / name, room / "crates" / name
        to.mkdir(parents=True)
        for part in PARTS:
            if (crate / part).is_dir():
                shutil.copytree(crate / part, to / part)
        for part, how in [("rlib", link_or_copy), *([("incremental", keep)] if name in chosen else [])]:
            try:
                if (crate / "out" / part).is_dir():
                    shutil.copytree(crate / "out" / part, to / "out" / part, copy_function=how)
            except (OSError, shutil.Error):
                # (another check writes it just now)
                shutil.rmtree(to / "out" / part, ignore_errors=True)
    for name, edits in chosen.items():
        (room / "crates" / name / "must-fail").mkdir()
        for path in edits:
            shutil.copy2(path, room / "crates" / name / "must-fail" / path.name)


def try_crate(name, edits, room, jobs):
    """What came of each edit of a crate, with what was said of it."""
    words = [sys.executable, "-B", str(TOP / ".ci" / "quick_rt.py"), "must-fail", name]
    ran = subprocess.run(words, cwd=room, stdin=subprocess.DEVNULL, stdout=subprocess.PIPE, stderr=subprocess.STDOUT,
                         text=True, errors="replace", check=False, env={**os.environ, "RT_JOBS": str(jobs)})
    said = [SAID.fullmatch(line) for line in ran.stdout.splitlines()]
    found = {it[2]: (it[3], it[4]) for it in said if it and it[1] == name}
    last = (ran.stdout.strip().splitlines() or [f"rt ended with status {ran.returncode}"])[-1]
    return {path.name: found.get(path.name, (UNTRIED, last)) for path in edits}


def tried(chosen, jobs):
    """For each crate, as it ends, what came of these edits of it."""
    if not chosen:
        return
    with tempfile.TemporaryDirectory(prefix="edits-") as folder:
        room = Path(folder)
        copied(chosen, room)
        lanes = min(jobs, len(chosen))
        with ThreadPoolExecutor(lanes) as pool:
            given = {pool.submit(try_crate, name, edits, room, jobs // lanes): name for name, edits in chosen.items()}
            for ended in as_completed(given):
                yield given[ended], ended.result()


def told(name, found):
    """A line for each edit of a crate."""
    return [f"{kind}: {name}/{edit.removesuffix('.edit')}" + (f": {why}" if why else "")
            for edit, (kind, why) in found.items()]


def main(words):
    parser = argparse.ArgumentParser(description="Tries the edits that must be refused.")
    parser.add_argument("names", nargs="*")
    parser.add_argument("--apply", action="store_true")
    parser.add_argument("--both", action="store_true")
    parser.add_argument("--jobs", type=int, default=2)
    asked = parser.parse_args(words)
    if asked.apply:
        number, wrong = faults(dict.fromkeys(asked.names or with_edits(True)))
        print("\n".join([*(f"{BAD}: {line}" for line in wrong), f"{number} edits, {len(wrong)} can't be applied"]))
        return 1 if wrong or not number else 0
    chosen = chosen_by(asked.names or with_edits(asked.both), asked.both)
    if shutil.which("rt") is None or not chosen:
        raise Stop("there are no edits" if not chosen else "rt: command not found")
    kinds = []
    for name, found in tried(chosen, max(asked.jobs, 1)):
        print("\n".join(told(name, found)), flush=True)
        kinds += [kind for kind, _ in found.values()]
    counts = [f"{kinds.count(kind)} {kind}" for kind in KINDS]
    print(f"{len(kinds)} edits of {len(chosen)} crates: {', '.join(counts)}")
    return 0 if kinds.count(REFUSED) == len(kinds) else 1


if __name__ == "__main__":
    try:
        sys.exit(main(sys.argv[1:]))
    except (Stop, OSError) as why:
        print(f".ci/edits.py: {why}", file=sys.stderr)
        sys.exit(2)
