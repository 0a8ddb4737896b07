#!/usr/bin/env python3
"""Makes one HTML file that answers of a trace: how far off are its counters, when, and does the proved bound hold?

The page opens at the worst moment, of the counter that is furthest off, or of the one that --counter names; where
nothing is off, at what the trace asked. It charts the plain value minus the true total with the proved bound around it,
and the plain value, the snapshot and the true total, of each counter of a zone or a node, each percpu counter and each
event that changes. The charts of counters that are off by little are folded, and so is the rest. Pointing at a line, a
tap or the keyboard choose another moment. The file asks nothing of any other machine.

The numbers are those that the program prints: it replays the trace, and again with three reports and the sums of events
below each line that is read. It is the proved program, of this release or once ./vozhkell has built it, or the one that
--program names, such as the plain one of bench/vozhkell.rs. The page goes to standard output:

  page.py examples/drift.vmtrace > page.html"""
import interrupts  # first, for what it does
import json
import os
import re
import subprocess
import sys
import tempfile
import threading
import time
from contextlib import contextmanager
from dataclasses import dataclass, field
from itertools import groupby, zip_longest

import drift
import items
import vmtrace
from vmtrace import called

HERE = os.path.dirname(os.path.realpath(__file__))
BUILT = os.path.join(os.path.dirname(HERE), "crates", "vozhkell", "out", "vozhkell")
INSTALLED = os.path.join(HERE, "..", "..", "..", "bin", "vozhkell")
PROGRAM = INSTALLED if os.path.exists(INSTALLED) and not os.path.exists(BUILT) else BUILT
TEMPLATE = os.path.join(HERE, "page.html")
MOST_LINES = 5_000
MOST_READINGS = 2_000
MOST_REPLAYS = 500
READ_AT_ONCE = 200
SECONDS = 600
MOST_PRINTED = 2**28
MOST_LINE = 2**12
MOST_EXACT = 2**53
TEXT = ("ascii", "surrogateescape")
REPORTS = ("report zoneinfo", "report totals", "report counters")
EVENTS = ("pgpgin", "pgpgout", "pswpin", "pswpout", "pgfree", "pgactivate", "pgdeactivate", "pgfault")
QUESTIONS = (*REPORTS, *(f"k evsum {event}" for event in EVENTS))
BOUNDARIES = ("sync", "offline", "online", "flush", "report")
SETTERS = ("pressure", "normal", "kswapd", "dead")
DONE = re.compile(r"done accepted \d+ refused \d+")
LANE = re.compile(r"c[0-9]{1,20}")
PRINTED = re.compile(r"line (\d+): (.*)$")
PLACE = re.compile(r"Node (\d+), (?:zone (\w+)|all zones)$")
CPU = re.compile(r"  cpu \d+ (dead )?threshold (\d+) differentials ([-\d ]+)$")
NUMBER = re.compile(r"  (drift mark|\w+) (\d+)$")
PERCPU = re.compile(r"(\w+) batch (\d+) count (-?\d+) locals [-\d ]+ sum -?\d+$")
AREA = re.compile(r"area([1-9]|10)")
BETWEEN = "between phases"
CONTROL = "control lane"


@dataclass
class Standing:
    """What a report says of a zone or a node: its numbers by name, and by item what its CPUs haven't folded.

    Present CPUs are those that are online or dead. What dead ones haven't folded is a part of the whole.
    """

    numbers: "dict[str, int]" = field(default_factory=dict)
    unfolded: "list[int]" = field(default_factory=list)
    unfolded_by_dead: "list[int]" = field(default_factory=list)
    threshold: int = 0
    present: int = 0
    dead: int = 0

    def take_cpu(self, is_dead, threshold, differentials):
        self.present += 1
        self.threshold = max(self.threshold, threshold)
        self.unfolded = added(self.unfolded, differentials)
        self.unfolded_by_dead = added(self.unfolded_by_dead, differentials if is_dead else [0] * len(differentials))
        self.dead += is_dead


def added(one, other):
    """The sums of the numbers of two lists, place by place."""
    return [left + right for left, right in zip_longest(one, other, fillvalue=0)]


@dataclass
class Reading:
    """What was read below one line: zones and nodes by name, the totals, percpu counters and events by theirs.

    Of a percpu counter it has the batch and the count, of an event the sum over the online CPUs.
    """

    places: "dict[str, Standing]" = field(default_factory=dict)
    totals: "dict[str, int]" = field(default_factory=dict)
    percpu: "dict[str, tuple[int, int]]" = field(default_factory=dict)
    events: "dict[str, int]" = field(default_factory=dict)

    @property
    def any_place(self):
        """One of the places, all of which have the same CPUs."""
        return next(iter(self.places.values()))


@dataclass
class Moment:
    """The numbers of a counter below a line. The value and the snapshot may be negative, and are shown as 0 then.

    The value is the global value, the count of a percpu counter, or the sum of an event over the online CPUs. `bound`
    is how far it can be off the true total, or None where no law says it. A drift mark of 0 is none, and a snapshot is
    None where there is none, as of events and percpu counters.
    """

    line: int
    value: int
    snapshot: "int | None"
    total: int
    bound: "int | None" = None
    mark: int = 0

    @property
    def off(self):
        return self.value - self.total

    @property
    def numbers(self):
        return self.value, self.snapshot, self.total

    def row(self):
        return [exact(number) for number in
                (self.line, self.value, self.snapshot, self.total, self.off, self.bound, self.mark)]


@dataclass
class Figure:
    """What the page shows of one counter: a moment for each line that was read.

    Its law is that of page counters, of percpu counters or of events, and its name the one that `report totals` has.
    """

    name: str
    title: str
    law: str
    unit: str
    moments: "list[Moment]"
    marks: "list[list]" = field(default_factory=list)
    counter: "vmtrace.Counter | None" = None

    def changes(self):
        return len({moment.numbers for moment in self.moments}) > 1

    def take(self, bounds):
        """Takes how far off the value can be below each line."""
        for moment in self.moments:
            moment.bound = bounds[moment.line]

    def check(self, name):
        """Every value keeps its bound."""
        for moment in self.moments:
            if moment.bound is not None and abs(moment.off) > moment.bound:
                raise wrong(name, moment.line, self.name)

    def most_off(self):
        return max(abs(moment.off) for moment in self.moments)

    def worst(self):
        """When the value is furthest off: how far, the first and last line of it, and how often that comes.

        Of one that is never off it is the moment where it can be off furthest.
        """
        most = self.most_off()
        below = self.moments[1:] or self.moments
        if not most:
            first = max(below, key=lambda moment: moment.bound or 0)
            return {"off": 0, "from": first.line, "to": first.line, "times": 0}
        runs = [list(run) for off, run in groupby(below, key=lambda moment: moment.off) if abs(off) == most]
        return {"off": runs[0][0].off, "from": runs[0][0].line, "to": runs[0][-1].line, "times": len(runs)}

    def shown(self):
        """The figure as the page's script reads it: a row wherever a number differs from those of the row above."""
        rows = [moment.row() for moment in self.moments]
        kept = [row for above, row in zip([None, *rows], rows) if above is None or row[1:] != above[1:]]
        return {"name": self.name, "title": self.title, "law": self.law, "unit": self.unit, "marks": self.marks,
                "worst": self.worst(), "rows": kept}


def exact(number):
    """A number as a script reads it without loss: a large one as a text."""
    return number if number is None or abs(number) <= MOST_EXACT else str(number)


def is_refused(answer):
    return answer.startswith("refused: ")


def lane_of(words):
    """The row in which a line below `go` is shown."""
    if words[0] == "k":
        return CONTROL
    if LANE.fullmatch(words[0]):
        return f"CPU {int(words[0][1:])}"
    return BETWEEN


def places_of(lines, header, refused=()):
    """The numbers of the lines below which counters are read: `go`, and as many others as may be, the last too.

    They come by the replays that read them, and with how many lines there are for each that is read.
    """
    told = [number for number, line in enumerate(lines[header.lines:], header.lines + 1) if vmtrace.words_of(line)]
    setters = next_setters(lines, header, refused)
    step = -(-len(told) // MOST_READINGS) or 1
    while True:
        places = [header.lines, *told[step - 1::step], *told[len(told) - len(told) % step:][-1:]]
        batches = batches_of(places, setters)
        if len(batches) <= MOST_REPLAYS:
            return batches, step
        step += -(-step // 4)


def next_setters(lines, header, refused):
    """The line that sets thresholds next in the same phase, below each line that has one; 0 below the others."""
    setters, following = {}, 0
    for number in range(len(lines), header.lines - 1, -1):
        setters[number] = following
        words = vmtrace.words_of(lines[number - 1])
        if words[:1] == ["k"] and words[1:2] and words[1] in SETTERS:
            following = number
        elif words[:1] and words[0] in BOUNDARIES and number not in refused:
            following = 0
    return setters


def batches_of(places, setters):
    """The places by the replay that reads them.

    A report ends a phase, and then CPUs know more of their thresholds than in the trace. Only a line that sets
    thresholds in the same phase goes by that: a mark falls sooner. So the places before such a line have a replay of
    their own, which ends with them.
    """
    by_setter = {}
    for place in places:
        by_setter.setdefault(setters[place], []).append(place)
    return [same[begin:begin + READ_AT_ONCE]
            for same in by_setter.values() for begin in range(0, len(same), READ_AT_ONCE)]


@dataclass
class Program:
    """The program that replays, and how many seconds all that is done for a page may take."""

    path: str
    seconds: float
    began: float = field(default_factory=time.monotonic)

    def __str__(self):
        return called(self.path)

    @property
    def left(self):
        return self.began + self.seconds - time.monotonic()

    def check_time(self):
        if self.left <= 0:
            raise vmtrace.BadInput(f"{self}: the replays of the trace have taken {self.seconds:g} seconds; --seconds "
                                   "allows for more")

    def output(self, lines):
        """What it prints of a replay of these lines."""
        status, printed, errors = self.replay("".join(line + "\n" for line in lines).encode(*TEXT))
        self.check_time()
        if len(printed) > MOST_PRINTED:
            raise vmtrace.BadInput(f"{self} isn't the program: it prints more than {MOST_PRINTED:,} bytes")
        if status not in (0, 3):
            raise vmtrace.BadInput(f"{self} replay ended with status {status}: {last_line(printed or errors)}")
        if not DONE.fullmatch(last_line(printed)):
            raise vmtrace.BadInput(f"{self} isn't the program: with the word 'replay' it prints "
                                   f"'{last_line(printed)}' last, where 'done accepted N refused N' is expected")
        return printed.decode(*TEXT).splitlines()

    def replay(self, text):
        """The status of a replay of the text, and what it wrote: to standard output, up to a limit, and to the other.

        Once no time is left it is killed.
        """
        with tempfile.TemporaryFile() as trace, tempfile.TemporaryFile() as errors:
            trace.write(text)
            trace.seek(0)
            try:
                running = subprocess.Popen([os.path.abspath(self.path), "replay"], stdin=trace, stdout=subprocess.PIPE,
                                           stderr=errors)
            except OSError as error:
                raise vmtrace.BadInput(f"{self}: {error.strerror or error}; ./vozhkell builds the proved program, and "
                                       "--program names another, such as out/vozhkell of docs/GUIDE.md") from None
            late = threading.Timer(max(0, self.left), running.kill)
            late.start()
            with running:
                printed = running.stdout.read(MOST_PRINTED + 1)
                if len(printed) > MOST_PRINTED:
                    running.kill()
                running.wait()
                late.cancel()
            errors.seek(0)
            return running.returncode, printed, errors.read()


def last_line(printed):
    return vmtrace.shown(printed[-MOST_LINE:].decode(*TEXT).rstrip("\n").rpartition("\n")[2])


@contextmanager
def printed_by(program):
    """What is read here was printed by the program, or the program isn't what it should be."""
    try:
        yield
    except (LookupError, ValueError):
        raise vmtrace.BadInput(f"{program} isn't the program: its answers or its reports aren't those of "
                               "docs/FORMATS.md") from None


def standings_of(report):
    """The zones and nodes of a report on them, by name."""
    places, standing = {}, None
    for line in report:
        place, number, cpu = (form.match(line) for form in (PLACE, NUMBER, CPU))
        if place:
            standing = places[f"{place[1]} {place[2] or 'node'}"] = Standing()
        elif number:
            standing.numbers[number[1]] = int(number[2])
        elif cpu:
            standing.take_cpu(cpu[1] is not None, int(cpu[2]), [int(word) for word in cpu[3].split()])
    return places


def totals_of(report):
    """The totals of a report on them, by counter, event and percpu counter."""
    return {name: int(value) for name, _, value in (line.rpartition(" ") for line in report)}


def percpu_of(report):
    """The batch and the count of each percpu counter of a report on them."""
    found = list(map(PERCPU.match, report))
    if None in found:
        raise ValueError
    return {counter[1]: (int(counter[2]), int(counter[3])) for counter in found}


def answers_of(output):
    """The answers and refusals that the program printed, by line, and what it printed last."""
    answers = {int(found[1]): found[2] for found in map(PRINTED.match, output) if found}
    return {number: text for number, text in answers.items() if not text.startswith("report ")}, output[-1]


def readings_below(places, lines, answers, program):
    """What reports say below each of these lines, by one replay of the lines up to the last of them.

    The lines of the trace are answered as they are without the reports.
    """
    asked, numbers, begins, above = [], [], [], 0
    for place in places:
        asked += [*lines[above:place], *QUESTIONS]
        numbers += [*range(above + 1, place + 1), *[0] * len(QUESTIONS)]
        begins.append(len(asked) - len(QUESTIONS))
        above = place
    output = program.output(asked)
    told = {numbers[line - 1]: text for line, text in answers_of(output)[0].items() if numbers[line - 1]}
    if told != {line: text for line, text in answers.items() if line <= above}:
        raise ValueError
    at = 0
    for place, below in zip(places, begins):
        reading, at = reading_of(output, at, below)
        yield place, reading


def reading_of(output, at, below):
    """What the questions that come after so many lines have read, from there on in the output, and where that ends."""
    begins = []
    for n, report in enumerate(REPORTS, below + 1):
        at = output.index(f"line {n}: {report}", at) + 1
        begins.append(at)
    first = f"line {below + len(REPORTS) + 1}: events "
    while not output[at].startswith(first):
        at += 1
    zoneinfo, totals, counters = (output[begin:end] for begin, end in zip(begins, [*(n - 1 for n in begins[1:]), at]))
    events = {}
    for n, event in enumerate(EVENTS, below + len(REPORTS) + 1):
        events[event] = int(output[at].replace(f"line {n}: events ", "", 1))
        at += 1
    return Reading(standings_of(zoneinfo), totals_of(totals), percpu_of(counters), events), at


def counters_of(header):
    """All counters of zones and nodes, in the order of the header."""
    nodes = dict.fromkeys((node, "node") for node, _ in header.zones)
    for node, kind in [*header.zones, *nodes]:
        for item in header.items["node" if kind == "node" else "zone"]:
            yield vmtrace.Counter(node, kind, item)


def unit_of(header, item):
    """In what an item counts, or nothing where only the trace knows."""
    if item in header.in_bytes:
        return items.PAGES
    if AREA.fullmatch(item):
        return "free blocks"
    return items.UNITS[item].name if item in items.UNITS else ""


def page_figure(counter, header, readings, name):
    """What was read of a counter of a zone or a node. Its bounds come later, if it is shown."""
    is_zone, is_free = counter.kind != "node", counter.item == vmtrace.ZONE_ITEMS[0]
    at = header.items["zone" if is_zone else "node"].index(counter.item)
    moments = []
    for line, reading in readings.items():
        standing, total = reading.places[f"{counter.node} {counter.kind}"], reading.totals[str(counter)]
        value = total - standing.unfolded[at]
        snapshot = total - standing.unfolded_by_dead[at]
        if max(0, value) != standing.numbers[counter.item]:
            raise wrong(name, line, counter)
        mark = standing.numbers["drift mark"] if is_free else 0
        moments.append(Moment(line, value, snapshot, total, mark=mark))
    size = header.zones[counter.node, counter.kind] if is_free else None
    marks = [["min", size.min], ["low", size.low], ["high", size.high]] if size else []
    place = f"node {counter.node}" + (f", zone {counter.kind}" if is_zone else "")
    title, unit = f"{counter.item} of {place}", unit_of(header, counter.item)
    return Figure(str(counter), title, "pages", unit, moments, marks, counter)


def bounds_of(lines, header, counter, answers, places, name):
    """How far the counter's global value can be off below each of these lines.

    That is the sum of the thresholds that the CPUs used last on it.
    """
    bound = drift.Bound(header, counter)
    bounds = {header.lines: 0}
    for number, line in enumerate(lines[header.lines:], header.lines + 1):
        words = vmtrace.words_of(line)
        if words and not is_refused(answers.get(number, "")):
            drift.follow(words, header, counter, bound, f"{name}:{number}")
        if number in places:
            bounds[number] = bound.pages()
    return bounds


def percpu_figures(readings):
    """The percpu counters. A count is off by at most the batch for each CPU that is online or dead."""
    for counter in next(iter(readings.values())).percpu:
        moments = []
        for line, reading in readings.items():
            (batch, count), total = reading.percpu[counter], reading.totals[f"counter {counter}"]
            moments.append(Moment(line, count, None, total, batch * reading.any_place.present))
        yield Figure(f"counter {counter}", f"percpu counter {counter}", "percpu", "", moments)


def event_figures(readings):
    """The events. A sum over the online CPUs has all that was counted, unless a CPU is dead."""
    for event in EVENTS:
        moments = []
        for line, reading in readings.items():
            bound = None if reading.any_place.dead else 0
            moments.append(Moment(line, reading.events[event], None, reading.totals[f"event {event}"], bound))
        yield Figure(f"event {event}", f"event {event}", "events", "", moments)


def wrong(name, line, counter):
    return vmtrace.BadInput(f"{name}:{line}: what the program printed of {counter} is wrong: its plain value, its "
                            "total and what CPUs hold don't fit together, or it is further off than the proved bound")


def in_order(figures, asked):
    """The figure that is asked for, then those that are ever off, then others that change, and the rest.

    Of those, counters of pages come before percpu counters, and these before events, each the furthest off first.
    """
    laws = {law: place for place, law in enumerate(("pages", "percpu", "events"))}
    return sorted(figures, key=lambda figure: (figure.name != asked, not figure.most_off(), not figure.changes(),
                                               laws[figure.law], -figure.most_off()))


def figures_of(header, readings, name, asked):
    """The figures of all counters in their order: those that are shown, and those that never change."""
    pages = [page_figure(counter, header, readings, name) for counter in counters_of(header)]
    figures = in_order([*pages, *percpu_figures(readings), *event_figures(readings)], asked)
    if asked and figures[0].name != asked:
        raise vmtrace.BadInput(f"{name}: has no counter '{vmtrace.shown(asked)}'; the names are those of `report "
                               "totals`, as '0 Normal nr_free_pages', 'counter files' or 'event pgfault'")
    first, *others = figures
    return [first, *filter(Figure.changes, others)], [figure for figure in others if not figure.changes()]


def shown_lines(lines, header, answers):
    """Of each line below `go` that says something: its number, its row, its words and what was printed of it."""
    for number, line in enumerate(lines[header.lines:], header.lines + 1):
        words = vmtrace.words_of(line)
        if words:
            text = " ".join(words).encode("ascii", "replace").decode("ascii")
            yield [number, lane_of(words), text, answers.get(number, "")]


def rows_of(shown):
    """The rows of lanes in their order: what stands between phases, the control lane, and the CPUs that have lines."""
    used = {line[1] for line in shown}
    cpus = sorted((row for row in used if row.startswith("CPU ")), key=lambda row: int(row[4:]))
    return [row for row in (BETWEEN, CONTROL) if row in used] + cpus


def opening(figures, shown):
    """The line at which the page opens: the worst moment, or the first answer of a trace in which nothing is off."""
    if not any(figure.most_off() for figure in figures):
        for number, _, _, answer in shown:
            if answer and not is_refused(answer):
                return number
    return figures[0].worst()["from"]


def machine_of(header, reading):
    """The machine as the first reading has it: its CPUs, each zone's pages and threshold, each percpu counter."""
    zones = []
    for (node, kind), size in header.zones.items():
        threshold = reading.places[f"{node} {kind}"].threshold
        zones.append({"name": f"node {node}, zone {kind}", "managed": size.managed, "threshold": threshold})
    percpu = [{"name": name, "batch": batch} for name, (batch, _) in reading.percpu.items()]
    return {"cpus": header.cpus, "zones": zones, "percpu": percpu}


def page_of(lines, header, name, options):
    program = Program(options.program, options.seconds)
    with printed_by(program):
        answers, done = answers_of(program.output(lines))
        refused = {line for line, answer in answers.items() if is_refused(answer)}
        batches, step = places_of(lines, header, refused)
        readings = {place: reading for batch in batches
                    for place, reading in readings_below(batch, lines, answers, program)}
        readings = {place: readings[place] for place in sorted(readings)}
        figures, steady = figures_of(header, readings, name, options.counter)
    for figure in figures:
        if figure.counter:
            figure.take(bounds_of(lines, header, figure.counter, answers, readings, name))
        figure.check(name)
    shown = list(shown_lines(lines, header, answers))
    return {
        "title": os.path.basename(options.trace) if options.trace != "-" else "a trace",
        "done": done,
        "machine": machine_of(header, readings[header.lines]),
        "step": step,
        "begin": header.lines,
        "opens": opening(figures, shown),
        "rows": rows_of(shown),
        "lines": shown,
        "figures": [figure.shown() for figure in figures],
        "steady": [[figure.name, exact(figure.moments[0].value)] for figure in steady],
    }


def parse(arguments):
    parser = vmtrace.Parser(__doc__)
    parser.add_argument("trace", metavar="TRACE", help="the trace, - for standard input")
    parser.add_argument("--counter", help="the counter to answer of first: '0 Normal nr_free_pages', 'counter files'")
    parser.add_argument("--program", metavar="FILE", default=PROGRAM,
                        help="the program that replays, if not the proved one")
    parser.add_argument("--seconds", metavar="N", type=vmtrace.seconds, default=SECONDS,
                        help=f"how many seconds the replays may take together; {SECONDS} without it")
    return parser.parse_args(arguments)


def main(arguments):
    options = parse(arguments)
    name = vmtrace.called(options.trace)
    lines = vmtrace.lines_of(options.trace)
    header = vmtrace.read_header(lines, name)
    if len(lines) - header.lines > MOST_LINES:
        raise vmtrace.BadInput(f"{name}: has {len(lines) - header.lines:,} lines below 'go', and a page shows at most "
                               f"{MOST_LINES:,}")
    data = json.dumps(page_of(lines, header, name, options), separators=(",", ":")).replace("<", "\\u003c")
    with open(TEMPLATE, encoding="ascii") as template:
        sys.stdout.write(template.read().replace("DATA_OF_THE_REPLAY", data))
    return 0


if __name__ == "__main__":
    vmtrace.run(main)
