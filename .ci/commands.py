#!/usr/bin/env python3
"""Runs the commands that the documents show, as a reader would: commands.py [--plain PROGRAM] [DOCUMENT..]. With no
document it takes all.

A block ``` sh ``` is a command for bash. It ends with status 0 where the block after it isn't ``` output STATUS ```,
what it writes to standard output (a line `...` stands for any lines). The commands of a document run in turn in a copy
of the tree, with the built program in it, so they leave nothing behind.

A block ``` sh not run: REASON ``` isn't run, and ``` sh reads FILE ``` only where that file can be read. Their commands
are looked up, as are those within a sentence or a table: a script is there and has the flags in its text, and the help
of `rt` names the words that come after it. Any other block of code with a line that begins as a command is refused, but
within a list.

With --plain the commands are those of a reader without the Rattle kit: `./vozhkell` is `out/vozhkell`, which is this
program, `tools/page.py` is told so by `--program`, and a command that calls `rt` is only looked up.
"""
import os
import re
import shlex
import shutil
import subprocess
import sys
import tempfile
from concurrent.futures import ThreadPoolExecutor
from pathlib import Path

from examples import shortened

TOP = Path(__file__).resolve().parent.parent
DOCUMENTS = ["README.md", "docs/*.md", "crates/*/README.md", "tools/samples/README.md"]
PROGRAM = Path("crates", "vozhkell", "out", "vozhkell")
FENCED = re.compile(r"^```([^\n]*)\n(.*?)^```$", re.M | re.S)
INLINE = re.compile(r"`([^`\n]+(?:\n[^`\n]+)?)`")
SCRIPT = r"(?:\./|\.ci/|bench/|dist/|tools/)"
BEGINS = re.compile(rf"(?:\(?cd |sudo |python3 |rt [a-z]|[A-Z]+=\S+ |mkdir |valgrind |{SCRIPT}\S)")
PLAIN = Path("out", "vozhkell")
CALLS_PROVED = re.compile(r"(?<![\w./])\./vozhkell\b")
CALLS_RT = re.compile(r"(?<![\w./])rt [a-z]")
LIMIT = 600


def help_of_rt():
    texts = []
    for words in (["rt", "help"], ["rattle", "check", "--help"]):
        ended = subprocess.run(words, capture_output=True, text=True)
        texts += [ended.stdout, ended.stderr]
    return " ".join(texts)


class Lookup:
    """Says of a command that isn't run what of it isn't there."""

    def __init__(self):
        self.help = None

    def missing(self, text):
        for part in re.split(r"[|;()\n]|&&|\s--\s", text.replace("\\\n", " ")):
            try:
                words = shlex.split(part, comments=True)
            except ValueError:
                continue
            while words and (words[0] in ("sudo", "python3", "-B", "env") or re.match(r"[A-Z]+=", words[0])):
                words.pop(0)
            if words and words[0] == "rt":
                yield from self.missing_of_rt(words[1:])
            elif words and re.match(SCRIPT, words[0]):
                yield from self.missing_of_script(words)

    def missing_of_rt(self, words):
        self.help = self.help or help_of_rt()
        for number, word in enumerate(words):
            named = number == 0 or word.startswith("--")
            if named and not re.search(rf"(?<![\w-]){re.escape(word)}(?![\w-])", self.help):
                yield f"rt has no {word}"

    def missing_of_script(self, words):
        file = TOP / words[0]
        if not file.exists():
            yield f"{words[0]} isn't there"
        elif file.is_file():
            text = file.read_text(encoding="utf-8", errors="replace")
            yield from (f"{words[0]} has no {word}" for word in words[1:] if word.startswith("--") and word not in text)


def run(command, folder):
    words = ["bash", "-c", command]
    ended = subprocess.run(words, cwd=folder, stdin=subprocess.DEVNULL, capture_output=True, timeout=LIMIT)
    return ended.returncode, ended.stdout.decode(errors="replace"), ended.stderr.decode(errors="replace")


def on_plain(command):
    """The command of a reader who has the plain program."""
    return CALLS_PROVED.sub(str(PLAIN), command).replace("tools/page.py ", f"tools/page.py --program {PLAIN} ")


def copy_tree(to, plain):
    """The tree as a new checkout has it, and the program that was built of it, or the plain one."""
    shutil.copytree(TOP, to, ignore=shutil.ignore_patterns(".git", "out", "target", "__pycache__"))
    built, stands = (Path(plain), to / PLAIN) if plain else (TOP / PROGRAM, to / PROGRAM)
    if built.exists():
        stands.parent.mkdir()
        shutil.copy2(built, stands)


def check_block(info, command, after, folder, lookup, plain):
    """What is wrong with a block of commands, and whether it was run."""
    how = info.removeprefix("sh").strip()
    file = re.fullmatch(r"reads (\S+)", how)
    if how and not file and not re.fullmatch(r"not run: \S.*", how):
        return [f"its first line says {info!r}"], False
    if how and not (file and os.access(file[1], os.R_OK)):
        return list(lookup.missing(command)), False
    if plain and CALLS_RT.search(command):
        return list(lookup.missing(command)), False
    status, text, errors = run(on_plain(command) if plain else command, folder)
    words, wanted = after[0].split(), after[1]
    if words[:1] != ["output"]:
        return ([] if status == 0 else [f"status {status}\n{text}{errors}"]), True
    found = shortened(text, wanted)
    return ([] if (status, found) == (int(words[1]), wanted) else [f"status {status}\n{found}{errors}"]), True


def check(name, plain=None):
    """What is wrong with a document, how many of its commands were run, and how many were looked up."""
    text = (TOP / name).read_text(encoding="utf-8")
    wrong, ran, looked_up, lookup = [], 0, 0, Lookup()
    blocks = FENCED.findall(text)
    with tempfile.TemporaryDirectory() as room:
        folder = Path(room, "tree")
        if any(info.split()[:1] == ["sh"] for info, _ in blocks):
            copy_tree(folder, plain)
        for (info, command), after in zip(blocks, [*blocks[1:], ("", "")]):
            if info.split()[:1] == ["sh"]:
                found, was_run = check_block(info, command, after, folder, lookup, plain)
                wrong += [f"{command}{it}" for it in found]
                ran, looked_up = ran + was_run, looked_up + (not was_run)
            elif not info.startswith("output"):
                wrong += [f"a command in a block that isn't sh: {line}"
                          for line in command.splitlines() if BEGINS.match(line)]
    prose = FENCED.sub("", text)
    wrong += [f"a command in an indented block: {line}" for line in prose.splitlines()
              if line.startswith("    ") and BEGINS.match(line[4:])]
    for span in INLINE.findall(prose):
        if re.match(rf"rt [a-z]|python3 |{SCRIPT}\w", span):
            looked_up += 1
            wrong += [f"`{span}`: {it}" for it in lookup.missing(span)]
    return wrong, ran, looked_up


def main(names):
    plain = None
    if names[:1] == ["--plain"]:
        plain, names = names[1], names[2:]
    names = names or [str(file.relative_to(TOP)) for pattern in DOCUMENTS for file in sorted(TOP.glob(pattern))]
    if not plain:
        # builds the program where it isn't there, which takes long
        subprocess.run([TOP / "vozhkell", "usage"], stdin=subprocess.DEVNULL, capture_output=True)
    with ThreadPoolExecutor() as pool:
        checks = list(pool.map(lambda name: check(name, plain), names))
    for name, (wrong, _, _) in zip(names, checks):
        for what in wrong:
            print(f"{name}: {what.rstrip()}")
    ran, looked_up = (sum(check[n] for check in checks) for n in (1, 2))
    print(f"{ran} commands run, {looked_up} looked up, {sum(len(wrong) for wrong, _, _ in checks)} wrong")
    return 1 if any(wrong for wrong, _, _ in checks) or not ran else 0


if __name__ == "__main__":
    sys.exit(main(sys.argv[1:]))
