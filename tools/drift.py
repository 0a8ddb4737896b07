#!/usr/bin/env python3
"""Draws how far a counter's plain value is from its true total, over the lines of a trace that probe.py has probed.

Upper part: the plain value (`val`), the snapshot (`snap`) and the true total, in pages; the true total is the base and
every change that the program took. Lower part: by what value and snapshot differ from it. The band around the true
total is the nearest bound that holds of the value: the sum, over the CPUs, of the threshold under which each last
changed the counter, 0 once it was folded. That is the law `drift` of vms_core, and at most what `values_tell_nearly` of
vms_near allows, since between two lines nothing is in flight. A snapshot is the true total but for what dead CPUs keep,
by the same thresholds and `snapshots_sum_nearly` of vms_near. A value or a snapshot that is further off ends the tool
with status 1, and so does an output that isn't whole or isn't that of this trace.

The SVG, or with --data columns for gnuplot, goes to standard output:

  probe.py TRACE '0 Normal nr_free_pages' 5 > probed.vmtrace
  vozhkell replay < probed.vmtrace > probed.out
  drift.py probed.vmtrace probed.out > drift.svg"""
import interrupts  # first, for what it does
import re
import sys
from dataclasses import dataclass, field

import vmtrace
from vmtrace import called, within

PRINTED = re.compile(r"line (\d+): (?:(value|snapshot) (\d+)$|(refused): )?")
DONE = re.compile(r"done accepted (\d+) refused (\d+)")
MOST_IN_LINE, BLANKS = 200, " \t\r"
READINGS = {"val": "value", "snap": "snapshot"}
MOST = 2**63
WIDTH, MARGIN = 860, 70


@dataclass
class Point:
    """A line of the trace where the counter was read, and numbers of pages. Value or snapshot may be missing.

    `bound` is how far the value can be off, and `dead` how far a snapshot can: by what CPUs keep that are dead.
    """

    line: int
    total: int
    bound: int
    dead: int
    value: "int | None" = None
    snapshot: "int | None" = None

    @property
    def low(self):
        """The smallest value that the bound allows. A value is never printed below 0."""
        return self.within(self.bound)[0]

    @property
    def high(self):
        return self.within(self.bound)[1]

    def within(self, pages):
        """The least and the most that is printed of a number so near the true total."""
        return max(0, self.total - pages), max(0, self.total + pages)

    @property
    def readings(self):
        """What was read, each with its name and with the least and the most that it can be."""
        for name, number, pages in (("value", self.value, self.bound), ("snapshot", self.snapshot, self.dead)):
            if number is not None:
                yield (name, number, *self.within(pages))


@dataclass
class Printed:
    """What the program printed: values and snapshots by line of the trace, the lines that it refused, its last line."""

    answers: "dict[int, tuple[str, int]]" = field(default_factory=dict)
    refused: "set[int]" = field(default_factory=set)
    last: int = 0
    done: "tuple[int, int] | None" = None

    def take(self, line):
        """Takes a line, or a ValueError where it can't stand here."""
        found, done = PRINTED.match(line), DONE.fullmatch(line)
        if self.done or found and number_of(found[1]) <= self.last:
            raise ValueError
        if found:
            self.last = number_of(found[1])
            if found[2]:
                self.answers[self.last] = found[2], number_of(found[3])
            elif found[4]:
                self.refused.add(self.last)
        elif done:
            self.done = number_of(done[1]), number_of(done[2])


class Bound:
    """How far the counter's global value can be from its true total, as the lines of a trace tell.

    Where a line may change a threshold or may leave it, depending on a drift mark, the larger one is kept.
    """

    def __init__(self, header, counter):
        self.node = counter.node
        self.size = header.zones.get((counter.node, counter.kind))
        self.managed = [size.managed for (node, kind), size in header.zones.items()
                        if node == counter.node and counter.kind in (kind, "node")]
        self.online = set(range(header.cpus))
        self.thresholds = [0] * header.cpus
        self.last = [0] * header.cpus
        self.plugged = False
        self.refresh()

    def pages(self):
        return sum(self.last)

    def pages_of_dead(self):
        return sum(pages for cpu, pages in enumerate(self.last) if cpu not in self.online)

    def normal_threshold(self):
        """That of the zone; of a node the largest of its zones."""
        return vmtrace.normal_threshold(max(self.managed), len(self.online))

    def pressure_threshold(self):
        """calculate_pressure_threshold"""
        return min(vmtrace.MAX_THRESHOLD, max(1, (self.size.low - self.size.min) // len(self.online)))

    def refresh(self):
        """refresh_zone_stat_thresholds"""
        normal = self.normal_threshold()
        for cpu in self.online:
            self.thresholds[cpu] = normal
        self.marked = self.size is not None and len(self.online) * normal > self.size.low - self.size.min

    def changed(self, cpu):
        self.last[cpu] = self.thresholds[cpu]

    def fold(self, cpu):
        self.last[cpu] = 0

    def flush(self):
        for cpu in self.online:
            self.fold(cpu)

    def pressure(self):
        """set_pgdat_percpu_threshold with the rule of memory pressure: a zone without a drift mark keeps its own."""
        if self.size and (self.marked or self.plugged):
            for cpu in self.online:
                pressure = self.pressure_threshold()
                self.thresholds[cpu] = pressure if self.marked else max(pressure, self.thresholds[cpu])

    def normal(self):
        if self.size and (self.marked or self.plugged):
            for cpu in self.online:
                self.thresholds[cpu] = max(self.thresholds[cpu], self.normal_threshold())

    def plug(self, word, cpu):
        """Takes a CPU down, buries it or brings it up."""
        self.plugged = True
        if word == "offline":
            self.online.discard(cpu)
            return
        if word == "online":
            self.online.add(cpu)
        self.fold(cpu)
        self.refresh()

    def follow(self, words):
        """Takes in a line that the program took and that changes no counter."""
        if words[0] == "flush":
            self.flush()
        elif words[0] in ("offline", "online"):
            self.plug(words[0], number_of(words[1]))
        elif words[1:2] == ["fold"]:
            self.fold(number_of(words[2]))
        elif words[1:2] == ["dead"]:
            self.plug("dead", number_of(words[2]))
        elif words[1:2] == ["pressure"] and number_of(words[2]) == self.node:
            self.pressure()
        elif words[1:2] == ["normal"] and number_of(words[2]) == self.node:
            self.normal()
        elif words[1:2] == ["kswapd"] and number_of(words[2]) == self.node:
            before = self.thresholds[:]
            self.pressure()
            self.normal()
            self.thresholds = list(map(max, before, self.thresholds))


def number_of(word):
    """A number of a line of a trace, or of what the program prints of it."""
    return within(word, 0, MOST)


def read_answers(name):
    """What the program printed, which is whole: it ends with its line `done`, and no line is answered twice."""
    printed = Printed()
    for number, line in enumerate(vmtrace.each_line(name), 1):
        try:
            printed.take(line)
        except ValueError:
            raise vmtrace.BadInput(f"{called(name)}:{number}: the program prints no line "
                                   f"'{vmtrace.shown(line)}' here") from None
    if not printed.done:
        raise vmtrace.BadInput(f"{called(name)}: the last line isn't 'done accepted A refused R', so it may be cut")
    return printed


def check_whole(printed, lines, header, name, trace):
    """Each line of the trace has the answer that it needs, and no line another one."""
    body = dict(enumerate(lines[header.lines:], header.lines + 1))
    expected = {number: kind for number, line in body.items() if number not in printed.refused
                for kind in [READINGS.get(" ".join(vmtrace.words_of(line)[1:2]))] if kind}
    for number in sorted({*expected, *printed.answers}):
        kind, _ = printed.answers.get(number, ("nothing", 0))
        if kind != expected.get(number, "nothing"):
            raise vmtrace.BadInput(f"{name}: has {kind} of line {number}, and {trace} asks for "
                                   f"{expected.get(number, 'nothing')} there")
    accepted, refused = printed.done
    taken = sum(map(is_taken, body.values()))
    if refused != len(printed.refused) or accepted + refused != taken:
        raise vmtrace.BadInput(f"{name}: ends with 'done accepted {accepted} refused {refused}', shows "
                               f"{len(printed.refused)} refused lines, and {trace} has {taken} in all")


def is_taken(line):
    """Whether the program accepts or refuses a line below the header, and doesn't ignore it."""
    first = vmtrace.WORD.search(line)
    return len(line) > MOST_IN_LINE or bool(line.strip(BLANKS)) and not (first and first[0].startswith("#"))


def readings_of(lines, header):
    """The counters that have a `val` or a `snap` line, in the order of these lines."""
    found = {}
    for line in lines[header.lines:]:
        words = vmtrace.words_of(line)
        if len(words) == 5 and words[1] in READINGS:
            found[" ".join(words[2:])] = True
    return list(found)


def change_of(words, counter, header):
    """The pages by which a lane's line changes the counter, None for any other line."""
    if words[1:2] not in (["mod"], ["inc"], ["dec"]) or " ".join(words[2:5]) != str(counter):
        return None
    if words[1] == "mod":
        return within(words[5], -MOST, MOST) // (vmtrace.PAGE_BYTES if counter.item in header.in_bytes else 1)
    return 1 if words[1] == "inc" else -1


def points_of(lines, header, counter, printed, name):
    """A point for each place of the trace where the counter was read, in the order of the lines."""
    bound = Bound(header, counter)
    total = header.bases.get(counter, 0)
    points, place = [], None
    for number, line in enumerate(lines[header.lines:max(printed.answers, default=0)], header.lines + 1):
        words = vmtrace.words_of(line)
        if not words or number in printed.refused:
            continue
        kind = READINGS.get(" ".join(words[1:2]))
        if kind is None:
            place = None
            total += follow(words, header, counter, bound, f"{name}:{number}")
        elif " ".join(words[2:]) == str(counter):
            if place is None:
                place = Point(number, total, bound.pages(), bound.pages_of_dead())
                points.append(place)
            setattr(place, kind, printed.answers[number][1])
    return points


def follow(words, header, counter, bound, where):
    """Takes a line that the program took into the bound; gives back by how many pages it changes the counter."""
    try:
        delta = change_of(words, counter, header)
        if delta is None:
            bound.follow(words)
            return 0
        bound.changed(number_of(words[0][1:]))
        return delta
    except (ValueError, IndexError, ZeroDivisionError):
        raise vmtrace.BadInput(f"{where}: the program refuses this line, and its answers don't say so") from None


def check(points, name):
    """Every value and every snapshot keeps its bound."""
    for point in points:
        for kind, number, low, high in point.readings:
            if not low <= number <= high:
                raise vmtrace.BadInput(f"{name}: line {point.line}: the {kind} {number} is outside of {low} to {high}, "
                                       "so these aren't the answers to this trace")


def data(points, counter):
    yield f"# {counter}, in pages; NaN where it wasn't read"
    yield "# line value snapshot total low high"
    for point in points:
        read = ["NaN" if number is None else str(number) for number in (point.value, point.snapshot)]
        yield f"{point.line} {' '.join(read)} {point.total} {point.low} {point.high}"


STYLE = """
.back { fill: #ffffff } .frame { fill: none; stroke: #8c959f } text { fill: #24292f; font: 13px sans-serif }
.band { fill: #8c959f; fill-opacity: 0.3 }
.total { stroke: #24292f } .value { stroke: #cf222e } .snapshot { stroke: #0969da }
polyline, line { fill: none; stroke-width: 1.5 } .snapshot { stroke-dasharray: 5 5 } .total { stroke-width: 3 }
@media (prefers-color-scheme: dark) {
.back { fill: #0d1117 } text { fill: #e6edf3 } .total { stroke: #e6edf3 } .value { stroke: #ff7b72 }
.snapshot { stroke: #79c0ff } }
"""


@dataclass
class Panel:
    """A part of the drawing: where it begins and how high it is, and which numbers lie at its edges."""

    top: int
    height: int
    left: int
    right: int
    low: int
    high: int

    def x(self, line):
        return MARGIN + (line - self.left) * (WIDTH - 2 * MARGIN) / max(1, self.right - self.left)

    def y(self, number):
        return self.top + (self.high - number) * self.height / max(1, self.high - self.low)

    def curve(self, name, dots):
        places = " ".join(f"{self.x(line):.1f},{self.y(number):.1f}" for line, number in dots)
        return f'<polyline class="{name}" points="{places}"/>'

    def band(self, dots):
        """The area between two numbers on each line."""
        edge = [(line, high) for line, _, high in dots] + [(line, low) for line, low, _ in reversed(dots)]
        places = " ".join(f"{self.x(line):.1f},{self.y(number):.1f}" for line, number in edge)
        return f'<polygon class="band" points="{places}"/>'

    def frame(self, title):
        yield f'<rect class="frame" x="{MARGIN}" y="{self.top}" width="{WIDTH - 2 * MARGIN}" height="{self.height}"/>'
        yield f'<text x="{MARGIN}" y="{self.top - 8}">{title}</text>'
        for number in dict.fromkeys((self.high, (self.low + self.high) // 2, self.low)):
            yield f'<text x="{MARGIN - 6}" y="{self.y(number) + 4:.1f}" text-anchor="end">{number}</text>'
        for line in dict.fromkeys((self.left, (self.left + self.right) // 2, self.right)):
            height = self.top + self.height + 16
            yield f'<text x="{self.x(line):.1f}" y="{height}" text-anchor="middle">line {line}</text>'


def drawing(points, counter):
    left, right = points[0].line, points[-1].line
    values = [(point.line, point.value, point.total) for point in points if point.value is not None]
    snapshots = [(point.line, point.snapshot, point.total) for point in points if point.snapshot is not None]
    read = [number for _, number, _ in values + snapshots]
    upper = Panel(60, 260, left, right, min(read + [point.low for point in points]),
                  max(read + [point.high for point in points]))
    off = [number - max(0, total) for _, number, total in values + snapshots] + [point.bound for point in points]
    widest = max(map(abs, off)) or 1
    lower = Panel(380, 160, left, right, -widest, widest)
    yield f'<svg xmlns="http://www.w3.org/2000/svg" viewBox="0 0 {WIDTH} 580" role="img">'
    yield f"<title>{counter}: plain value, snapshot and true total</title><style>{STYLE}</style>"
    yield f'<rect class="back" width="{WIDTH}" height="580"/>'
    yield from legend()
    yield upper.band([(point.line, point.low, point.high) for point in points])
    yield upper.curve("total", [(point.line, max(0, point.total)) for point in points])
    yield upper.curve("value", [(line, number) for line, number, _ in values])
    yield upper.curve("snapshot", [(line, number) for line, number, _ in snapshots])
    yield from upper.frame(f"{counter}, in pages")
    yield lower.band([(point.line, -point.bound, point.bound) for point in points])
    yield lower.curve("total", [(left, 0), (right, 0)])
    yield lower.curve("value", [(line, number - max(0, total)) for line, number, total in values])
    yield lower.curve("snapshot", [(line, number - max(0, total)) for line, number, total in snapshots])
    yield from lower.frame("off the true total by, in pages")
    yield "</svg>"


def legend():
    names = {"total": "true total", "value": "plain value", "snapshot": "snapshot"}
    for n, (name, text) in enumerate(names.items()):
        x = MARGIN + 150 * n
        yield f'<line class="{name}" x1="{x}" y1="20" x2="{x + 30}" y2="20"/><text x="{x + 38}" y="24">{text}</text>'
    x = MARGIN + 150 * len(names)
    yield f'<rect class="band" x="{x}" y="13" width="30" height="14"/>'
    yield f'<text x="{x + 38}" y="24">where the plain value can be, by the law drift</text>'


def parse(arguments):
    parser = vmtrace.Parser(__doc__)
    parser.add_argument("trace", metavar="TRACE", help="the probed trace")
    parser.add_argument("output", metavar="OUTPUT", help="what `vozhkell replay` printed of it, - for standard input")
    parser.add_argument("--counter", help="where the trace reads several: '0 Normal nr_free_pages'")
    parser.add_argument("--data", action="store_true", help="columns for gnuplot in place of the SVG")
    return parser.parse_args(arguments)


def chosen_counter(lines, header, options):
    readings = readings_of(lines, header)
    if not readings:
        raise vmtrace.BadInput(f"{called(options.trace)}: no 'val' or 'snap' line; probe.py puts them in")
    if options.counter is None and len(readings) > 1:
        several = vmtrace.shown(", ".join(readings))
        raise vmtrace.BadInput(f"{called(options.trace)}: reads several counters, name one with --counter: {several}")
    counter = vmtrace.counter_of(options.counter or readings[0])
    if str(counter) not in readings or not header.has(counter):
        raise vmtrace.BadInput(f"{called(options.trace)}: doesn't read the counter '{vmtrace.shown(str(counter))}'")
    return counter


def main(arguments):
    options = parse(arguments)
    trace, output = called(options.trace), called(options.output)
    lines = vmtrace.lines_of(options.trace)
    header = vmtrace.read_header(lines, trace)
    counter = chosen_counter(lines, header, options)
    printed = read_answers(options.output)
    check_whole(printed, lines, header, output, trace)
    points = points_of(lines, header, counter, printed, trace)
    if not points:
        raise vmtrace.BadInput(f"{output}: has no answer to a reading of '{counter}' in {trace}")
    check(points, output)
    sys.stdout.writelines(line + "\n" for line in (data if options.data else drawing)(points, counter))
    return 0


if __name__ == "__main__":
    vmtrace.run(main)
