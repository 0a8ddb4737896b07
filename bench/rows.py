#!/usr/bin/env python3
"""Gives a program the traces of bench/rows and bench/large_rows.py, and says where an answer isn't the expected one.

    bench/rows.py [NAME]

The program is the proved one that VOZHKELL names, and else the plain one: bench/vozhkell.rs, which is built for this
where PLAIN doesn't name it. With a NAME it gets the rows of that name alone, and the whole difference is shown. The
status is 1 if an answer differs, and 2 if there is no such row.

In bench/rows there are
- NAME.vmtrace with NAME.out, which `replay` and `run` print of it, or with NAME.check, which `check` prints, or both. A
  refused header is answered alike by all three. Where a phase has lines of two lanes, they race in three runs, and what
  is the same in every order is compared (bench/agree.py). What `record` writes is held beside `check`, and certified;
- NAME.vmgroups with NAME.out, of `groups`;
- NAME.vmhistory with NAME.out, of `certify`;
- `spoiled_lines`: the number of a line of history_of_a_change.vmhistory, what `certify` says of it with another line in
  its place, as the number and the cause, and that line. `end` for the number is a line after the last one, and for the
  line nothing stands there. On standard error the program says that the line of this number is due, or nothing;
- `due_lines`: NAME.vmhistory, the number of a line of it, what the program says is due on standard error with another
  line in its place, `|`, and that line. For no line nothing stands there, and the history ends;
- `event_lines`: a line of a written history, with escapes as in C, as the first one of a phase on two CPUs, after the
  line that `certify` refuses and its cause, or `- certified`;
- `statuses`: the status of each NAME, and `same` where lanes race and every order gives the same bytes;
- `headers`: the line at fault and its cause, and the text, with escapes as in C;
- `watermarks`: KBYTES, SCALE, the managed pages of a zone and of all, and its watermarks, as `check` writes them;
- `words`: calls that name no command. They read nothing, and show the usage.

A text of at most 4096 bytes comes whole, and in pieces of 1, 7 and 64 bytes, each in a read of its own. What `check`
writes of a trace it accepts again. Expected outputs were written by hand from the rules of the formats and of the
counters, so that they judge the plain program as well as the proved one.
"""
import ast
import difflib
import io
import os
import re
import shlex
import subprocess
import sys
import tempfile

from agree import fixed
from faults import HEADER, NOT_CERTIFIED, USAGE, USAGE_OF_PLAIN, WORDS, from_socket, plain_program, run
from large_rows import Large, large_rows

TOP = os.path.dirname(os.path.dirname(os.path.abspath(__file__)))
ROWS = os.path.join(TOP, "bench", "rows")
PIECES = (1, 7, 64)
MOST_IN_PIECES = 4096
MOST_LINES = 1_000_000
TOO_LONG = 7
RUNS_OF_A_RACE = 3
MOST_ZONE = 1 << 40
# A history, above and below where a line of `event_lines` stands.
EVENT_LINES = (b"vmtrace 1\ncpus 2\nzone 0 Normal 262144 100 125 150\ngo\nc0 mod 0 Normal nr_free_pages 5\nhistory 1\n"
               b"phase\n",
               b"0 Split 1 0\n1 LoadT 0 20 0\n1 LoadD 0 0 0 0 0 0 0 0 0 0\n1 Put 0 0 0 0 0 0 0 0 0 20 5 0\n0 Join 1\n")
BOUNDARIES = {b"sync", b"flush", b"offline", b"online", b"report"}


def lanes_race(text, out):
    """Whether a phase has lines of two lanes. Lines that the output of the text says are refused are in no phase."""
    refused = {int(number) for number in re.findall(rb"^line ([0-9]+): refused: ", out, flags=re.M)}
    in_body, lane = False, None
    for number, line in enumerate(text.split(b"\n"), 1):
        words = line.split()
        if not words or words[0].startswith(b"#") or number in refused:
            continue
        if not in_body:
            in_body = words == [b"go"]
        elif words[0] in BOUNDARIES:
            lane = None
        elif lane not in (None, words[0]):
            return True
        else:
            lane = words[0]
    return False


def in_any_order(text, out):
    """What is the same in every order, of what a run of a text prints."""
    return list(fixed(text.decode("latin-1").split("\n"), io.StringIO(out.decode("latin-1"))))


def without_refusals(checked):
    """What `check` writes of what it wrote: the comments are ignored, and every line counts."""
    text = re.sub(rb"^# line [0-9]+: refused: .*\n", b"", checked, flags=re.M)
    return re.sub(rb"refused [0-9]+\n\Z", b"refused 0\n", text)


def said_on_error(words, text):
    """The status and standard error of a program that reads this text from a pipe."""
    done = subprocess.run(words, input=text, capture_output=True, timeout=60)
    return done.returncode, done.stderr


class Answers:
    def __init__(self, program, usage, shows_all):
        self.program, self.usage, self.shows_all = program, usage, shows_all
        self.count = self.differ = 0

    def expect(self, what, found, wanted, same_in_order=None):
        """Counts an answer, a status and an output, and shows how it differs."""
        self.count += 1
        if found == wanted:
            return
        if same_in_order and found[0] == wanted[0] and \
                in_any_order(same_in_order, found[1]) == in_any_order(same_in_order, wanted[1]):
            return
        self.differ += 1
        print(f"{what} differs: status {found[0]} where {wanted[0]} is expected")
        texts = ([line.decode("latin-1") for line in out.splitlines()] for out in (wanted[1], found[1]))
        lines = list(difflib.unified_diff(*texts, "expected", "found", n=0, lineterm=""))
        print("".join(f"    {line}\n" for line in (lines if self.shows_all else lines[:8])), end="")

    def ask(self, command, name, text, wanted, times=1, same_in_order=None):
        """One command on one text: whole, so many times, and a short one in pieces."""
        words = [self.program, command]
        for _ in range(times):
            self.expect(f"{command} of {name}", run(words, text), wanted, same_in_order)
        if len(text) <= MOST_IN_PIECES:
            for size in PIECES:
                packets = [text[at:at + size] for at in range(0, len(text), size)]
                self.expect(f"{command} of {name}, in pieces of {size},", from_socket(words, packets), wanted,
                            same_in_order)

    def ask_of_due(self, name, text, due):
        """What is due where `certify` refuses a history."""
        self.expect(f"what is due by certify of {name}", said_on_error([self.program, "certify"], text),
                    (NOT_CERTIFIED, b"due: " + due + b"\n"))

    def ask_of_trace(self, name, text, status, out, checked, is_same):
        """All that is known of a trace of counters: what `replay` and `run` print, and what `check` writes."""
        if out is not None:
            self.ask("replay", name, text, (status, out))
            races = status != HEADER and lanes_race(text, out)
            self.ask("run", name, text, (status, out), RUNS_OF_A_RACE if races else 1,
                     text if races and not is_same else None)
        if status == HEADER:
            checked = out
        self.ask_of_record(name, text)
        if checked is not None:
            self.ask("check", name, text, (status, checked))
            if checked.startswith(b"vmtrace") and checked.count(b"# done") == 1:
                self.expect(f"check of what it wrote of {name}", run([self.program, "check"], checked),
                            (0, without_refusals(checked)))

    def ask_of_record(self, name, text):
        """What `record` writes: what `check` writes, without remarks, and a history that is certified."""
        status, checked = run([self.program, "check"], text)
        found = run([self.program, "record"], text)
        if not checked.startswith(b"vmtrace"):
            self.expect(f"record of {name}", found, (status, checked))
            return
        copied = re.sub(rb"^#.*\n", b"", checked, flags=re.M)
        if status == TOO_LONG:
            self.expect(f"record of {name}", found, (status, copied))
            return
        self.expect(f"record of {name}, above its history", (found[0], found[1][:len(copied) + 10]),
                    (status, copied + b"history 1\n"))
        verdict = run([self.program, "certify"], found[1])
        within = found[1].count(b"\n") <= MOST_LINES
        self.expect(f"certify of what it recorded of {name}", (verdict[0], verdict[1].split(b" phases ")[0]),
                    (0, b"certified") if within else (TOO_LONG, b""))

    def ask_of_words(self, words):
        """Words that name no command: a file that is open as standard input is left at its first byte."""
        with tempfile.TemporaryFile() as file:
            file.write(b"vmtrace 1\n")
            file.seek(0)
            done = subprocess.run([self.program, *words], stdin=file, capture_output=True, timeout=60)
            left_at = os.lseek(file.fileno(), 0, os.SEEK_CUR)
        self.expect(f"the words {words}", (done.returncode, done.stdout), (WORDS, self.usage))
        self.expect(f"how far the words {words} read", (left_at, b""), (0, b""))

    def ask_of_watermarks(self, kbytes, scale, managed, total, *marks):
        zones, rest = [managed], total - managed
        while rest:
            zones.append(min(rest, MOST_ZONE))
            rest -= zones[-1]
        text = f"vmtrace 1\ncpus 1\nwatermarks {kbytes} {scale}\n"
        text += "".join(f"zone {node} Normal {pages}\n" for node, pages in enumerate(zones)) + "go\n"
        status, out = run([self.program, "check"], text.encode())
        zone = next((line for line in out.splitlines() if line.startswith(b"zone 0 ")), b"")
        wanted = "zone 0 Normal {} {} {} {}".format(managed, *marks).encode()
        self.expect(f"the watermarks of {kbytes} KiB, scale {scale}, {managed} of {total}", (status, zone), (0, wanted))


def contents(name):
    """The bytes of a file of bench/rows, and nothing where it isn't there."""
    path = os.path.join(ROWS, name)
    if not os.path.exists(path):
        return None
    with open(path, "rb") as file:
        return file.read()


def table(name):
    """The lines of a file of bench/rows."""
    return contents(name).decode().splitlines()


def ask_all(answers, wanted_name):
    """Asks for each row, or those of one name. How many there are."""
    rows = 0
    for line in table("statuses"):
        name, status, *same = line.split()
        if wanted_name not in (None, name):
            continue
        rows += 1
        groups, history = contents(name + ".vmgroups"), contents(name + ".vmhistory")
        out = contents(name + ".out")
        if groups is not None:
            answers.ask("groups", name, groups, (int(status), out))
        elif history is not None:
            answers.ask("certify", name, history, (int(status), out))
            if name == "history_is_missing":
                answers.ask_of_due(name, history, b"history 1")
            if name == "history_of_a_change":
                trace = history[:history.index(b"history 1\n")]
                answers.ask("record", name, trace, (0, history))
        else:
            answers.ask_of_trace(name, contents(name + ".vmtrace"), int(status), out, contents(name + ".check"), same)
    for name, make in large_rows():
        if wanted_name not in (None, name):
            continue
        rows += 1
        row = make()
        out, checked = (Large.joined(lines or []) for lines in (row.out, row.checked))
        if name.startswith("groups_"):
            answers.ask("groups", name, row.text(), (row.status, out))
        else:
            answers.ask_of_trace(name, row.text(), row.status, out, checked or None, row.is_same)
    if wanted_name in (None, "headers"):
        for line in table("headers"):
            rows += 1
            number, cause, text = line.split(" ", 2)
            text = ast.literal_eval("b" + text)
            answers.ask_of_trace(f"the header {line[:100]}", text, HEADER, f"line {number}: {cause}\n".encode(), None,
                                 False)
            answers.ask("certify", f"the header {line[:100]}", text,
                        (HEADER, f"line {number}: {cause}\n".encode()))
    if wanted_name in (None, "spoiled_lines"):
        history = contents("history_of_a_change.vmhistory").splitlines(keepends=True)
        for line in table("spoiled_lines"):
            rows += 1
            number, fault, cause, instead = (line.split(" ", 3) + [""])[:4]
            at = len(history) if number == "end" else int(number) - 1
            text = b"".join([*history[:at], *([instead.encode() + b"\n"] if instead else []), *history[at + 1:]])
            answers.ask("certify", f"the line {number} {instead}", text,
                        (NOT_CERTIFIED, f"line {fault}: {cause}\n".encode()))
            answers.ask_of_due(f"the line {number} {instead}", text,
                               history[at].rstrip(b"\n") if at < len(history) else b"nothing")
    if wanted_name in (None, "event_lines"):
        for line in table("event_lines"):
            rows += 1
            number, cause, text = line.split(" ", 2)
            text = b"".join([EVENT_LINES[0], ast.literal_eval("b" + text), b"\n", EVENT_LINES[1]])
            answers.ask("certify", f"the event line {line[:100]}", text,
                        (0, b"certified phases 1 events 5\n") if number == "-" else
                        (NOT_CERTIFIED, f"line {number}: {cause}\n".encode()))
    if wanted_name in (None, "due_lines"):
        for line in table("due_lines"):
            rows += 1
            told, instead = line.split(" | ") if " | " in line else (line.removesuffix(" |"), "")
            name, number, due = told.split(" ", 2)
            history = contents(name + ".vmhistory").splitlines(keepends=True)[:int(number) - 1]
            text = b"".join([*history, instead.encode() + b"\n"] if instead else history)
            answers.ask_of_due(f"the line {number} {instead} of {name}", text, due.encode())
    if wanted_name in (None, "watermarks"):
        for line in table("watermarks"):
            rows += 1
            answers.ask_of_watermarks(*map(int, line.split()))
    if wanted_name in (None, "words"):
        for line in table("words"):
            rows += 1
            answers.ask_of_words(shlex.split(line)[1:])
    return rows


def main():
    wanted_name = sys.argv[1] if len(sys.argv) > 1 else None
    with tempfile.TemporaryDirectory() as folder:
        proved = os.environ.get("VOZHKELL")
        usage = USAGE if proved else USAGE_OF_PLAIN
        answers = Answers(proved or plain_program(folder), usage, wanted_name is not None)
        rows = ask_all(answers, wanted_name)
    if not rows:
        print(f"bench/rows.py: there is no row {wanted_name}", file=sys.stderr)
        return 2
    print(f"{answers.count - answers.differ} of {answers.count} answers to {rows} rows are the expected ones")
    return 1 if answers.differ else 0


if __name__ == "__main__":
    sys.exit(main())
