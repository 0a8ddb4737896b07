#!/usr/bin/env python3
"""Lets a program's input and output fail, and says where its status or what it wrote isn't what it should be.

    bench/faults.py [CASE..]

The program is the proved one that VOZHKELL names, and else the plain one: bench/vozhkell.rs, which is built for this
where PLAIN doesn't name it. The traces are some of bench/rows, with what is written there of their outputs; the
beginnings of one by bench/phases.py and of one by bench/groups.py, of which the plain program says what is to be
written; and 2,000 phases of one lane each, of which the rules say it. `certify` is given histories of bench/rows and a
long one that the plain program records. Of an input that ends early bench/certify.py says what `certify` answers, and
bench/make_history.py what `record` writes after the trace.
Under `run` and `groups` one output is right: where a phase has lines of two lanes, what they answer is the same in every
order. CASES are the names of functions below, and all where none is given. A line is printed for each
case, and the status is 1 if one fails.

The program needs no build of its own for this: short and failing reads come from sockets, failing writes from full
devices, closed pipes and limits of file sizes, want of memory from limits of the address space.
"""
import fcntl
import os
import resource
import signal
import socket
import subprocess
import sys
import tempfile
import threading

from certify import Reading, certify, read_body, read_header
from large_rows import EVENTS, NODE, ZONE
from make_history import history_of

TOP = os.path.dirname(os.path.dirname(os.path.abspath(__file__)))
DONE, WORDS, HEADER, REFUSED, READ, WRITE, MEMORY = range(7)
NOT_CERTIFIED = 9
PANIC = 101
USAGE = b"usage: check | replay | run | gen SEED CPUS LINES | groups | record | certify\n"
USAGE_OF_PLAIN = USAGE + b"Nothing of this program is proved. It is plain Rust: bench/vozhkell.rs.\n"
# What `gen 1 1 1` prints: its one line adds 19 pages to an item.
SMALLEST_MADE = b"line 8: report totals\n" + b"".join(b"%s %d\n" % (counter.encode(), {
    "0 Normal nr_free_pages": 1_000_000, "0 Normal nr_zone_unevictable": 19}.get(counter, 0)) for counter in [
        *(f"0 Normal {item}" for item in ZONE), *(f"0 node {item}" for item in NODE),
        *(f"event {event}" for event in EVENTS), "counter files"]) + b"done accepted 2 refused 0\n"
BOUNDARIES = {b"sync", b"flush", b"offline", b"online", b"report"}
# What a pipe holds that nobody has set otherwise, and how many bytes of one a reader takes at most before it leaves.
PIPE, MOST_TAKEN = 1 << 16, 60000


class Wrong(Exception):
    pass


def expect(what, found, wanted):
    if found != wanted:
        raise Wrong(f"{what}: {found!r} where {wanted!r} is expected")


def plain_program(folder):
    """The plain program: the one that PLAIN names, or one that is built in this folder."""
    if "PLAIN" in os.environ:
        return os.environ["PLAIN"]
    program = os.path.join(folder, "vozhkell")
    source = os.path.join(TOP, "bench", "vozhkell.rs")
    subprocess.run(["rustc", "-O", "--edition", "2021", "-o", program, source], check=True)
    return program


def made_by(script, *words):
    """The trace that a script of bench writes."""
    return subprocess.run([sys.executable, "-B", os.path.join(TOP, "bench", script), *words], capture_output=True,
                          check=True).stdout


def run(words, text, prepare=None):
    """The status and the output of a program that reads this text from a pipe."""
    done = subprocess.run(words, input=text, capture_output=True, preexec_fn=prepare, timeout=60)
    return done.returncode, done.stdout


class Call:
    """A command and its input, with the status and the bytes that answer where nothing fails."""

    def __init__(self, words, text, status, out):
        self.words, self.text, self.answer = words, text, (status, out)

    def __str__(self):
        return " ".join(self.words[1:])


def from_socket(words, packets, fails=False):
    """Status and output where the input comes by a socket, each packet in a read of its own. A last read may fail."""
    kind = socket.SOCK_STREAM if fails else socket.SOCK_SEQPACKET
    ours, theirs = socket.socketpair(socket.AF_UNIX, kind)
    if fails:
        # A byte that we never read makes our end reset the connection when it is closed.
        theirs.send(b"x")
    with tempfile.TemporaryFile() as file:
        with theirs:
            process = subprocess.Popen(words, stdin=theirs, stdout=file, stderr=subprocess.DEVNULL)
        with ours:
            try:
                for packet in packets:
                    ours.sendall(packet)
            except (BrokenPipeError, ConnectionResetError):
                pass
        process.wait(timeout=60)
        file.seek(0)
        return process.returncode, file.read()


def into_file(words, text, size):
    """Status and output where the output is a file that takes no more than so many bytes."""
    def prepare():
        signal.signal(signal.SIGXFSZ, signal.SIG_IGN)
        resource.setrlimit(resource.RLIMIT_FSIZE, (size, size))

    with tempfile.TemporaryFile() as file:
        done = subprocess.run(words, input=text, stdout=file, preexec_fn=prepare, timeout=60)
        file.seek(0)
        return done.returncode, file.read()


def answers(text, out):
    """By line number, in order: what a line printed."""
    parts = []
    for line in out.splitlines(keepends=True):
        words = line.split()
        if words[0] == b"line":
            parts.append((int(words[1].rstrip(b":")), line))
        elif words[0] != b"done":
            parts[-1] = (parts[-1][0], parts[-1][1] + line)
    return parts


def taken(text, out, lines):
    """What is written if reading stops after so many whole lines: phases that have ended, and of the open one what was
    refused before its first answer."""
    parts = answers(text, out)
    refused = {number for number, part in parts if b": refused: " in part}
    ended = 0
    for number, line in enumerate(text.splitlines()[:lines], 1):
        if number not in refused and line.split()[:1] and line.split()[0] in BOUNDARIES:
            ended = number
    said = b""
    for number, part in parts:
        if number > lines or number > ended and number not in refused:
            break
        said += part
    return said


class Trials:
    def __init__(self, proved, plain):
        """The proved program, if it is the one, and the plain one, which says what is to be written of long traces."""
        self.proved, self.program, self.plain = proved, proved or plain, plain
        self.long = made_by("phases.py", "1", "20000")
        self.two_lanes = self.row("replay", "two_lanes")
        self.burial = self.row("replay", "burial_moves_once")
        self.in_turn = self.row("run", "whole_run_in_turn")
        self.racing = self.row("run", "racing_lanes_and_totals")
        # Each line of this trace counts, and has the one spelling.
        text = self.two_lanes.text
        self.spelled = self.call("check", text, DONE, text + b"# done accepted 31 refused 0\n")
        longs = [("replay", self.long), ("check", self.long)]
        self.readers = [self.two_lanes, self.burial, self.in_turn, self.racing, self.spelled]
        self.of_groups = [self.row("groups", "groups_" + name) for name in ("flush_of_a_part", "refused_lines_wait")]
        # One CPU, in phases of a hundred lines.
        longs.append(("groups", made_by("groups.py", "1", "20000", "1", "64", "100")))
        history = run([plain, "record"], self.long)[1]
        longs += [("certify", history), ("record", made_by("phases.py", "1", "1500"))]
        self.readers += self.of_groups
        self.certified = [self.row("certify", "history_" + name)
                          for name in ("after_refused_lines", "in_a_random_order", "of_a_change")]
        self.readers += self.certified
        self.recorded = [self.call("record", self.row("replay", name).text,
                                   *run([plain, "record"], self.row("replay", name).text))
                         for name in ("two_lanes", "burial_moves_once")]
        self.readers += self.recorded
        self.in_phases = self.calls_in_phases()
        self.longs = [self.call(command, text, *run([plain, command], text)) for command, text in longs]
        self.longs += [call for call in self.in_phases if str(call) in ("run", "groups")]
        self.made = [self.call("gen 1 1 1", b"", DONE, SMALLEST_MADE)]

    def call(self, words, text, status, out):
        return Call([self.program, *words.split()], text, status, out)

    def row(self, command, name):
        """A trace of bench/rows with what is written there of its answer."""
        rows = os.path.join(TOP, "bench", "rows")
        with open(os.path.join(rows, "statuses")) as statuses:
            status = int(dict(line.split()[:2] for line in statuses)[name])
        kind = {"groups": ".vmgroups", "certify": ".vmhistory"}.get(command, ".vmtrace")
        with open(os.path.join(rows, name + kind), "rb") as trace, \
                open(os.path.join(rows, name + ".out"), "rb") as out:
            return self.call(command, trace.read(), status, out.read())

    def calls_in_phases(self):
        """Calls on 2,000 phases of one lane each, the two lanes in turn. Eight lines of each phase answer."""
        lanes = [n % 2 for n in range(2000)]
        text = b"vmtrace 1\ncpus 2\nzone 0 Normal 262144 100 125 150\ngo\n" + b"".join(
            b"c%d val 0 Normal nr_free_pages\n" % lane * 8 + b"sync\n" for lane in lanes)
        of_groups = b"vmgroups 1\ncpus 2\ngroup a\ngo\n" + b"".join(
            b"c%d value a\n" % lane * 8 + b"sync\n" for lane in lanes)
        told = b"".join(b"line %d: value 0\n" % line for line in range(5, 18005) if (line - 4) % 9)
        history = b"history 1\n" + b"".join(
            b"phase\n0 Split 1 %d\n" % lane + b"1 LoadG 0 0\n" * 8 + b"0 Join 1\n" for lane in lanes)
        done = b"done accepted 18000 refused 0\n"
        return [self.call("check", text, DONE, text + b"# " + done), self.call("replay", text, DONE, told + done),
                self.call("run", text, DONE, told + done), self.call("groups", of_groups, DONE, told + done),
                self.call("record", text, DONE, text + history)]

    def copied(self, text):
        """What `record` writes above the history: what `check` writes of these lines, without remarks."""
        checked = run([self.plain, "check"], text)[1]
        return b"".join(line for line in checked.splitlines(True) if not line.startswith(b"#"))

    def all_words(self):
        """The words of each command that answers lines of a trace of page counters."""
        return [[self.program, command] for command in ("check", "replay", "run")]

    # Reading.

    def short_reads(self):
        for call in self.readers + self.longs:
            for size in (1, 64, 4096):
                if size == 1 and call in self.longs:
                    continue
                packets = [call.text[at:at + size] for at in range(0, len(call.text), size)]
                expect(f"{call} of pieces of {size}", from_socket(call.words, packets), call.answer)

    def slow_pipe(self):
        """The pieces come through a pipe, which may join them."""
        for call in self.readers:
            process = subprocess.Popen(call.words, stdin=subprocess.PIPE, stdout=subprocess.PIPE)
            for at in range(0, len(call.text), 64):
                process.stdin.write(call.text[at:at + 64])
                process.stdin.flush()
            out = process.communicate(timeout=60)[0]
            expect(f"{call} of a pipe", (process.returncode, out), call.answer)

    def failing_reads(self):
        """The read after some bytes, of one trace after each, fails. Until the header was read, nothing is written."""
        for call in self.readers + self.longs:
            text, (_, out) = call.text, call.answer
            header = text[:text.index(b"\ngo\n") + 4].count(b"\n")
            step = 1 if call is self.burial or call in self.of_groups else 7
            if call in self.longs:
                step = max(9973, len(text) // 40)
            for size in range(0, len(text) + 1, step):
                whole = text[:text.rfind(b"\n", 0, size) + 1]
                lines = whole.count(b"\n")
                if lines < header or str(call) == "certify":
                    said = b""
                elif call is self.spelled:
                    said = whole
                elif str(call) == "check":
                    said = run([self.plain, "check"], whole)[1].rpartition(b"# done ")[0]
                elif str(call) == "record":
                    said = self.copied(whole)
                else:
                    said = taken(text, out, lines)
                pieces = [text[at:min(at + 64, size)] for at in range(0, size, 64)]
                for packets in ([text[:size]] if size else [], pieces)[:1 if call in self.longs else 2]:
                    found = from_socket(call.words, packets, fails=True)
                    expect(f"{call} and a failed read after {size} bytes", found, (READ, said))

    def failed_read_in_a_phase(self):
        """What is written then, by hand: the answers of the phases that have ended, and a refused line of the open one
        that stands before its first answer."""
        words = self.two_lanes.words
        text = b"".join(self.two_lanes.text.splitlines(keepends=True)[:27])
        said = b"line 21: yes free 9968 fast\nline 22: snapshot 9960\nline 23: sum 45\nline 24: compare 1 sum\n"
        for more, also in [(b"", b""), (b"c0 val 0 Normal nr_mlock", b""), (b"c0 mod 0 Normal nr_mlock 1\n", b""),
                           (b"c0 val 0 Normal nr_mlock\n", b""),
                           (b"c9 fold 0\n", b"line 28: refused: UnknownLane\n"),
                           (b"c9 fold 0\nc0 sys nr_mlock\nc9 fold 0\n", b"line 28: refused: UnknownLane\n"),
                           (b"c9 fold 0\nc0 fold 0\nc9 fold 0\nflush",
                            b"line 28: refused: UnknownLane\nline 30: refused: UnknownLane\n"),
                           (b"c0 sys nr_dirty\nonline 0\nflush\nc0 sys nr_dirty\n",
                            b"line 28: system 0\nline 29: refused: NotDead\n")]:
            found = from_socket(words, [text + more], fails=True)
            expect(f"a failed read after {more!r}", found, (READ, said + also))
        head = b"vmtrace 1\ncpus 2\nzone 0 Normal 262144 100 125 150\ngo\n"
        first = b"c1 inc 0 Normal nr_mlock\nc1 snap 0 Normal nr_mlock\nsync\n"
        for more, also in [(b"", b""), (b"c0 val 0 Normal nr_mlock\n", b""),
                           (b"c9 fold 0\nc0 val 0 Normal nr_mlock\nc9 fold 0\n", b"line 8: refused: UnknownLane\n"),
                           (b"c0 fold 1\nc0 val 0 Normal nr_mlock\nflush\nc0 fold 0", b"line 9: value 1\n")]:
            for words in self.all_words()[1:]:
                found = from_socket(words, [head + first + more], fails=True)
                expect(f"{words[1]} and a failed read after {more!r}", found, (READ, b"line 6: snapshot 1\n" + also))
        head = b"vmtrace 1\ncpus 1\nzone 0 Normal 262144 100 125 150\ngo\n"
        for more, also in [(b"", b""), (b"c0 fold 0", b""), (b" c0  fold 0\n# a remark\n\nsync\n", b"c0 fold 0\nsync\n"),
                           (b"c9 fold 0\nsync\nk fold", b"# line 5: refused: UnknownLane\nsync\n")]:
            found = from_socket(self.spelled.words, [head + more], fails=True)
            expect(f"check and a failed read after {more!r}", found, (READ, head + also))
        head = b"vmgroups 1\ncpus 2\ngroup a\ngo\nc1 add a 5\nc1 flush a\nsync\nc1 value a\nsync\n"
        for more, also in [(b"", b""), (b"c0 value a\n", b""), (b"c9 value a\nc0 add a 1\nc0 value b\nreport groups",
                                                                b"line 10: refused: UnknownLane\n"
                                                                b"line 12: refused: UnknownGroup\n"),
                           (b"c9 value a\nc0 value a\nc9 value a\n", b"line 10: refused: UnknownLane\n"),
                           (b"c0 value a\nreport groups\nc0 add a", b"line 10: value 5\nline 11: report groups\n"
                                                                     b"a value 5 pending 0 total 5\n")]:
            found = from_socket(self.of_groups[0].words, [head + more], fails=True)
            expect(f"groups and a failed read after {more!r}", found, (READ, b"line 8: value 5\n" + also))

    def early_output(self):
        """Of 2,000 phases some output comes before the second half of them is sent."""
        for call in self.in_phases:
            text = call.text
            process = subprocess.Popen(call.words, stdin=subprocess.PIPE, stdout=subprocess.PIPE, bufsize=0)
            came, parts = threading.Event(), []

            def read(out=process.stdout, parts=parts, came=came):
                while part := out.read(1 << 16):
                    parts.append(part)
                    came.set()

            reader = threading.Thread(target=read)
            reader.start()
            process.stdin.write(text[:len(text) // 2])
            is_early = came.wait(timeout=20)
            process.stdin.write(text[len(text) // 2:])
            process.stdin.close()
            reader.join(timeout=60)
            expect(f"the output of {call} came early", is_early, True)
            expect(f"the output of {call}", (process.wait(timeout=60), b"".join(parts)), call.answer)

    def folder_as_input(self):
        answers = [(words, (READ, b""))
                   for words in [*self.all_words(), *(calls[0].words for calls in (self.of_groups, self.certified,
                                                                                   self.recorded))]]
        for words, answer in answers + [(call.words, call.answer) for call in self.made]:
            folder = os.open(TOP, os.O_RDONLY)
            done = subprocess.run(words, stdin=folder, stdout=subprocess.PIPE, timeout=60)
            os.close(folder)
            expect(f"{words[1]} of a folder", (done.returncode, done.stdout), answer)

    def refused_header_comes_first(self):
        """What is wrong with a line that was read is answered before a read that fails."""
        for words in [*self.all_words(), self.certified[0].words, self.recorded[0].words]:
            found = from_socket(words, [b"vmtrace 1\ncpus 65\n"], fails=True)
            expect(f"a refused header under {words[1]}", found, (HEADER, b"line 2: BadCpus\n"))
            found = from_socket(words, [b"vmtrace 1\ncpus 65"], fails=True)
            expect(f"a line without its end under {words[1]}", found, (READ, b""))
        words = self.of_groups[0].words
        found = from_socket(words, [b"vmgroups 1\ncpus 1\ngroup a b\n"], fails=True)
        expect("a refused header of groups", found, (HEADER, b"line 3: UnknownGroup\n"))
        found = from_socket(words, [b"vmgroups 1\ncpus 1\ngroup a b"], fails=True)
        expect("a line of groups without its end", found, (READ, b""))

    def fault_comes_first(self):
        """So is a line of a history that is at fault. What needs the end of the input is answered there alone."""
        head = b"vmtrace 1\ncpus 1\nzone 0 Normal 262144 100 125 150\ngo\nc0 inc 0 Normal nr_mlock\nhistory 1\nphase\n"
        words = self.certified[0].words
        for more, said in [(b"0 Split 2 0\n", b"line 8: Illegal\n"), (b"0 Split\n0 Split 2 0\n", b"line 8: BadEvent\n"),
                           (b"0 Split 1 0\nphase\n", b"line 9: NotInScript\n")]:
            found = from_socket(words, [head + more], fails=True)
            expect(f"a failed read after {more!r}", found, (NOT_CERTIFIED, said))
        for more in (b"", b"0 Split 1 0\n", b"0 Split 2 0"):
            expect(f"a failed read after {more!r}", from_socket(words, [head + more], fails=True), (READ, b""))

    def cut_inputs(self):
        """The input ends after each byte: a whole `go` tells a refused header from a trace. Of a trace the whole lines
        are answered as in the whole text, and the line that was cut says at most what it says itself."""
        for call in [self.two_lanes, self.in_turn, *self.of_groups, self.spelled, self.recorded[0], *self.certified]:
            go = call.text.index(b"\ngo\n") + 3
            for size in range(len(call.text) + 1):
                status, out = run(call.words, call.text[:size])
                what = f"{call} cut after {size} bytes"
                if size < go:
                    # The line that is refused is the one that was cut, or where it says something the next one.
                    lines = call.text[:size].count(b"\n")
                    named = out.startswith((b"line %d: " % (lines + 1), b"line %d: " % (lines + 2)))
                    expect(what, (status, out.count(b"\n"), named), (HEADER, 1, True))
                elif call in self.certified:
                    wanted, said = certify(call.text[:size])
                    expect(what, (status, out), (wanted, said.encode()))
                elif call in (self.spelled, self.recorded[0]):
                    self.expect_copy(what, call, size, status, out)
                else:
                    self.expect_answers(what, call, size, status, out)

    def expect_answers(self, what, call, size, status, out):
        """The answers to the whole lines of a text that was cut, and what the cut line says."""
        text, (_, whole) = call.text, call.answer
        go = text.index(b"\ngo\n") + 3
        header = text[:go + 1].count(b"\n")
        lines, cut = text[:size].count(b"\n"), len(text[:size].rpartition(b"\n")[2]) > 0
        lines = max(lines, header)
        above = [part for number, part in answers(text, whole) if number <= lines]
        said, refused_above = b"".join(above), sum(b": refused: " in part for part in above)
        expect(f"{what}, what began the output", out[:len(said)], said)
        cut_line, _, end = out[len(said):].rpartition(b"done ")
        refused = b": refused: " in cut_line
        accepted = lines - header - refused_above + (1 if cut and size > go and not refused else 0)
        expect(what, (status, end), (REFUSED if refused_above + refused else DONE,
                                     b"accepted %d refused %d\n" % (accepted, refused_above + refused)))
        expect(f"{what}, the cut line", cut_line[:cut_line.find(b":")], b"line %d" % (lines + 1) if cut_line else b"")

    def expect_copy(self, what, call, size, status, out):
        """`check` and `record` write the whole lines of a text in which each line counts and has the one spelling, and
        the cut line if it counts. `check` adds a remark on a refused one and its last line, `record` the history."""
        text = call.text[:size]
        whole, end, cut = text.rpartition(b"\n")
        whole += end
        header = call.text[:call.text.index(b"\ngo\n") + 4].count(b"\n")
        spelled, lines = b" ".join(cut.split()) + b"\n" if cut else b"", whole.count(b"\n")
        reading = iter(Reading(text, True))
        refused = read_body(reading, read_header(reading))[1]
        if str(call) == "record":
            written = whole + (b"" if refused else spelled)
            history = history_of(text)
            wanted = written + history[history.index(b"history 1\n"):]
        else:
            cause = out[len(whole):].partition(b"\n")[0].rpartition(b" ")[2]
            remark = b"# line %d: refused: %s\n" % (lines + 1, cause)
            accepted = max(0, lines - header + (1 if cut and not refused else 0))
            wanted = whole + (remark if refused else spelled) + b"# done accepted %d refused %d\n" % (accepted, refused)
        expect(what, (status, out), (REFUSED if refused else DONE, wanted))

    # Writing.

    def unwritable(self):
        """Calls of each command that write something."""
        return self.readers + self.made + [
            self.call("replay", b"vmtrace 3\n", HEADER, b"line 1: BadMagic\n"),
            self.call("groups", b"vmgroups 3\n", HEADER, b"line 1: BadMagic\n"),
            self.call("certify", b"vmtrace 3\n", HEADER, b"line 1: BadMagic\n"),
            self.call("record", b"vmtrace 3\n", HEADER, b"line 1: BadMagic\n"),
            self.call("certify", b"vmtrace 1\ncpus 1\nzone 0 Normal 262144 100 125 150\ngo\n", NOT_CERTIFIED,
                      b"line 5: Incomplete\n"),
            self.call("replay none", b"", WORDS, USAGE if self.proved else USAGE_OF_PLAIN),
        ]

    def full_device(self):
        for call in self.unwritable():
            with open("/dev/full", "wb") as full:
                done = subprocess.run(call.words, input=call.text, stdout=full, timeout=60)
            expect(f"{call} into a full device", done.returncode, WRITE)

    def closed_pipe(self):
        for call in self.unwritable():
            ours, theirs = os.pipe()
            os.close(ours)
            with os.fdopen(theirs, "wb", 0) as pipe:
                done = subprocess.run(call.words, input=call.text, stdout=pipe, timeout=60)
            expect(f"{call} into a closed pipe", done.returncode, WRITE)

    def reader_that_leaves(self):
        """The pipe is closed after some bytes of an output of which more is left than a pipe holds."""
        for call in (call for call in self.longs if len(call.answer[1]) > PIPE + MOST_TAKEN):
            out = call.answer[1]
            for size in (1, 5000, MOST_TAKEN):
                with tempfile.TemporaryFile() as trace:
                    trace.write(call.text)
                    trace.seek(0)
                    process = subprocess.Popen(call.words, stdin=trace, stdout=subprocess.PIPE, bufsize=0)
                    said = b""
                    while len(said) < size:
                        said += process.stdout.read(size - len(said))
                    process.stdout.close()
                    expect(f"{call} and a reader that leaves after {size} bytes", process.wait(timeout=60), WRITE)
                    expect(f"the {size} bytes of {call}", said, out[:size])

    def pipe_that_refuses(self):
        """A pipe that nobody reads takes 4096 bytes, and refuses the next ones at once."""
        for call in (call for call in self.longs if len(call.answer[1]) > 4096):
            ours, theirs = os.pipe2(os.O_NONBLOCK)
            with os.fdopen(ours, "rb", 0) as source, tempfile.TemporaryFile() as trace:
                # From a file a read brings 64 KiB, and what is written of these is more than the pipe takes: of less it
                # would take all or nothing.
                trace.write(call.text)
                trace.seek(0)
                with os.fdopen(theirs, "wb", 0) as pipe:
                    fcntl.fcntl(pipe, fcntl.F_SETPIPE_SZ, 4096)
                    done = subprocess.run(call.words, stdin=trace, stdout=pipe, timeout=60)
                expect(f"{call} and a pipe that refuses", (done.returncode, source.read(1 << 20)),
                       (WRITE, call.answer[1][:4096]))

    def limited_files(self):
        """A file takes some number of bytes, any of a short output, and then no more."""
        for call in self.unwritable():
            out = call.answer[1]
            for size in range(0, len(out), 1 if len(out) < 300 else 7):
                found = into_file(call.words, call.text, size)
                expect(f"{call} into a file of {size} bytes", found, (WRITE, out[:size]))
            expect(f"{call} into a file with room", into_file(call.words, call.text, len(out)), call.answer)
        for call in self.longs:
            out = call.answer[1]
            for size in range(0, len(out), 9973):
                found = into_file(call.words, call.text, size)
                expect(f"{call} into a file of {size} bytes", found, (WRITE, out[:size]))

    # Memory.

    def want_of_memory(self):
        """Less and less address space, from where the whole output comes down to where the program doesn't start. The
        plain program is ended by Rust's runtime where it finds no memory, or panics where it gets no thread."""
        def limited(words, text, size):
            def prepare():
                resource.setrlimit(resource.RLIMIT_AS, (size, size))
                resource.setrlimit(resource.RLIMIT_CORE, (0, 0))

            try:
                return run(words, text, prepare)
            except (OSError, subprocess.SubprocessError):
                return None, b""

        statuses = set()
        for call in [*self.readers, *self.longs, *self.made]:
            size = 1 << 20
            while size < 1 << 40 and limited(call.words, call.text, size) != call.answer:
                size *= 2
            for size in range(size, 0, -max(16 << 10, size >> 6)):
                if limited([call.words[0], "none"], b"", size)[0] != WORDS:
                    break
                status, out = limited(call.words, call.text, size)
                statuses.add(status)
                if status == call.answer[0]:
                    expect(f"{call} with {size} bytes of memory", out, call.answer[1])
                elif status == MEMORY or status in (-signal.SIGABRT, PANIC) and not self.proved:
                    began = call.answer[1][:len(out)]
                    expect(f"{call} with {size} bytes of memory, what began the output", out, began)
                else:
                    raise Wrong(f"{call} with {size} bytes of memory: the status is {status}")
        print("    statuses for want of memory:", *sorted(statuses))


CASES = ["short_reads", "slow_pipe", "early_output", "failing_reads", "failed_read_in_a_phase", "folder_as_input",
         "refused_header_comes_first", "fault_comes_first", "cut_inputs", "full_device", "closed_pipe",
         "reader_that_leaves", "pipe_that_refuses", "limited_files", "want_of_memory"]


def main():
    # A plain program that finds no memory while it writes the stack of a panic may hang.
    os.environ["RUST_BACKTRACE"] = "0"
    with tempfile.TemporaryDirectory() as folder:
        trials = Trials(os.environ.get("VOZHKELL"), plain_program(folder))
        failed = 0
        for case in sys.argv[1:] or CASES:
            try:
                getattr(trials, case)()
                print(f"ok: {case}")
            except Wrong as wrong:
                failed += 1
                print(f"FAILED: {case}: {str(wrong)[:400]}")
    sys.exit(1 if failed else 0)


if __name__ == "__main__":
    main()
