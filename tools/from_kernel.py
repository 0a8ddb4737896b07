#!/usr/bin/env python3
"""Makes a trace of free pages from a real machine, and writes it to standard output.

The header comes from /proc/zoneinfo: the CPUs that are online, the zones with managed pages, their watermarks, and
what the counters begin with. The body comes from the text of the kernel's tracing buffer, as tracefs (`trace`),
`trace-cmd report` or `perf script` give it. These events of kmem change nr_free_pages, by 2^order pages:

  mm_page_alloc_zone_locked  fewer: a block leaves the zone's free lists, for a per-CPU list or for its user
  mm_page_pcpu_drain         more: a block goes back from a per-CPU list
  mm_page_free               more, where no per-CPU list has the order: above 3, but for that of a huge page, 9

Pages on per-CPU lists are not free pages, so no other event changes the counter. The CPU is that of the event, the zone
the one that spans the page. Each block is a change of its own; Linux 6.1 subtracts all blocks that fill a per-CPU list
in one change. No event tells of a page that goes straight to its zone because its per-CPU list is busy.

In the trace the program computes each zone's threshold, for pages of 4096 bytes. Where the machine's is larger, as with
larger pages, the trace would show too small a bound, and none is made. Where the machine shows a smaller one, as under
memory pressure, a note says so, and a line of the trace. Of a copy the size of a page has to be told then.

Notes on what was used and left out go to standard error."""
import interrupts  # first, for what it does
import io
import itertools
import math
import os
import re
import shutil
import signal
import sys
import tempfile
import time
from collections import Counter as Tally
from contextlib import contextmanager, suppress
from dataclasses import dataclass, field
from pathlib import Path

import vmtrace
from procinfo import FREE, Zone, number_of, read_vmstat, read_zoneinfo
from vmtrace import BadInput, number_in, seconds

EVENT = re.compile(r".*\[(\d+)\]\s+(?:\S+\s+)?(\d+(?:\.\d+)?):\s+(?:\w+:)?(\w+):(.*)")
ARGUMENT = re.compile(r"\b(pfn|order)=(0x[0-9a-f]+|\d+)\b")
LOST = re.compile(r"CPU:?\s*\d+ \[(?:LOST )?(?:(\d+) )?EVENTS(?: DROPPED)?\]")
WRITTEN = re.compile(r"# entries-in-buffer/entries-written: (\d+)/(\d+)")
TAKES, GIVES, FREES = "mm_page_alloc_zone_locked", "mm_page_pcpu_drain", "mm_page_free"
COSTLY_ORDER, HUGE_ORDER, LAST_ORDER = 3, 9, 20
ZONEINFO, VMSTAT = "/proc/zoneinfo", "/proc/vmstat"
TRACEFS = (Path("/sys/kernel/tracing"), Path("/sys/kernel/debug/tracing"))
BUFFER_KB = "8192"
LIMITS = {"managed": vmtrace.MAX_MANAGED, **dict.fromkeys(("min", "low", "high"), vmtrace.MAX_MARK)}
REPORTS = ("vmstat", "zoneinfo", "totals", "counters")


@dataclass
class Machine:
    """The zones of a machine that a trace has, its nodes' counters, its online CPUs, and the text that describes it."""

    name: str
    zones: "list[Zone]"
    nodes: "dict[int, dict[str, int]]"
    cpus: "set[int]"
    left_out: "list[Zone]"


@dataclass(frozen=True)
class Event:
    """An event of the tracing buffer: the line of the text that has it, its CPU, its seconds since the first event."""

    line: int
    cpu: int
    since: float
    name: str
    arguments: str


@dataclass
class Account:
    """What was made of the events, counted by what is said of them; and the pages that they add up to, by zone."""

    used: Tally = field(default_factory=Tally)
    left_out: Tally = field(default_factory=Tally)
    early: Tally = field(default_factory=Tally)
    pages: Tally = field(default_factory=Tally)
    lost: int = 0
    cut: str = ""


def read_machine(text, name):
    """The machine that the text of /proc/zoneinfo describes."""
    info = read_zoneinfo(text, name)
    kept = [zone for zone in info.populated if zone.pages["managed"] and zone.kind in vmtrace.KINDS]
    machine = Machine(name, kept, info.nodes, info.cpus, [zone for zone in info.zones if zone not in kept])
    check_machine(machine)
    return machine


def check_machine(machine):
    """The machine is one that a trace can have."""
    if not machine.zones:
        raise BadInput(f"{machine.name}: no zone of a kind that a trace has, {', '.join(vmtrace.KINDS)}, has managed "
                       "pages")
    most = vmtrace.MAX_CPUS[2]
    if max(machine.cpus) >= most:
        raise BadInput(f"{machine.name}: CPU {max(machine.cpus)} is online, and a trace has at most {most} CPUs")
    if len(machine.zones) > vmtrace.MAX_ZONES or max(zone.node for zone in machine.zones) > vmtrace.MAX_NODE:
        raise BadInput(f"{machine.name}: a trace has at most {vmtrace.MAX_ZONES} zones, of nodes 0 to "
                       f"{vmtrace.MAX_NODE}")
    for zone in machine.zones:
        for word, most in LIMITS.items():
            if zone.pages[word] > most:
                raise BadInput(f"{machine.name}:{zone.line}: zone {zone} has {zone.pages[word]} as '{word}', and in a "
                               f"trace at most {most}")


def smaller_thresholds(machine, page_bytes):
    """By zone what is to be said of thresholds that are smaller than those in the trace; larger ones are refused.

    A zone of the machine may have used its normal threshold last where it shows a smaller one, and that is the one for
    the larger of its managed and present pages. `page_bytes` is 0 where the size of a page isn't known.
    """
    online = len(machine.cpus)
    said = {}
    for zone in machine.zones:
        where = f"{machine.name}:{zone.line}: zone {zone}"
        in_trace = vmtrace.normal_threshold(zone.pages["managed"], online)
        shown = set(zone.thresholds.values()) or {0}
        refuse_larger(max(shown), in_trace, f"{where} shows a threshold of")
        if page_bytes:
            refuse_larger(vmtrace.normal_threshold(zone.pages["managed"], online, page_bytes), in_trace,
                          f"{where}, with pages of {page_bytes} bytes, has a threshold of")
        if not zone.thresholds or min(shown) == in_trace:
            continue
        if not page_bytes:
            raise BadInput(f"{where} shows a threshold of {min(shown)}, and {in_trace} is that of pages of "
                           f"{vmtrace.PAGE_BYTES} bytes: say with --page-size how large its pages are")
        most = vmtrace.normal_threshold(max(zone.pages["managed"], zone.pages["present"]), online, page_bytes)
        refuse_larger(most, in_trace, f"{where} shows a threshold of {min(shown)}, and may have had one of")
        said[str(zone)] = (f"zone {zone}: the machine showed a threshold of {min(shown)}; it is {in_trace} in the "
                           "trace, so bounds of it hold, and are wider than that machine's")
    for zone in machine.left_out:
        in_trace = [vmtrace.normal_threshold(kept.pages["managed"], online)
                    for kept in machine.zones if kept.node == zone.node]
        if in_trace:
            refuse_larger(max(zone.thresholds.values(), default=0), max(in_trace),
                          f"{machine.name}:{zone.line}: node {zone.node}, by its zone {zone}, has a threshold of")
    return said


def refuse_larger(threshold, in_trace, told):
    if threshold > in_trace:
        raise BadInput(f"{told} {threshold}, and in the trace it is {in_trace}: a bound of the trace would be too "
                       "small")


def header_lines(machine, watermarks, smaller, added):
    """The header, and CPUs taken down that aren't online.

    `smaller` has what is said of a zone's threshold, `added` pages for nr_free_pages, by zone.
    """
    cpus = max(machine.cpus) + 1
    yield "vmtrace 1" if cpus <= vmtrace.MAX_CPUS[1] else "vmtrace 2"
    yield f"cpus {cpus}"
    if watermarks:
        yield "watermarks {} {}".format(*watermarks)
    for zone in machine.zones:
        marks = "" if watermarks else " {min} {low} {high}".format(**zone.pages)
        if str(zone) in smaller:
            yield f"# {smaller[str(zone)]}"
        yield f"zone {zone} {zone.pages['managed']}{marks}"
    for zone in machine.zones:
        values = {**zone.items, FREE: zone.items[FREE] + added[str(zone)]}
        yield from base_lines(zone, vmtrace.ZONE_ITEMS, values, f"{machine.name}:{zone.line}")
    for node in sorted({zone.node for zone in machine.zones}):
        yield from base_lines(f"{node} node", vmtrace.NODE_ITEMS, machine.nodes[node], machine.name)
    yield "go"
    for cpu in sorted(set(range(cpus)) - machine.cpus):
        yield f"offline {cpu}"
        yield f"k dead {cpu}"


def base_lines(place, items, values, where):
    for item in items:
        value = values.get(item, 0)
        if abs(value) > vmtrace.MAX_BASE:
            raise BadInput(f"{where}: {place} {item} begins with {value}, and a trace has at most {vmtrace.MAX_BASE}")
        if value:
            yield f"base {place} {item} {value}"


def events_of(lines, name, account):
    """The events of the text, in its order. Remarks and lines that are no events are passed over."""
    first = None
    other = False
    for number, line in enumerate(lines, 1):
        event, lost, written = (form.match(line) for form in (EVENT, LOST, WRITTEN))
        if event:
            since_boot = time_of(event[2], name, number)
            first = since_boot if first is None else first
            yield Event(number, number_of(event[1], name, number), since_boot - first, event[3], event[4])
        elif lost:
            account.lost += number_of(lost[1] or "1", name, number)
        elif written:
            account.lost += number_of(written[2], name, number) - number_of(written[1], name, number)
        elif line.strip() and not line.startswith("#"):
            other = True
    if other and first is None:
        raise BadInput(f"{name}: no line of it is an event of the kernel's tracing buffer, such as "
                       f"'task-1 [000] d..3. 1.5: {TAKES}: pfn=0x1000 order=0'")


def time_of(word, name, line):
    number = float(word)
    if math.isinf(number):
        raise BadInput(f"{name}:{line}: '{vmtrace.shown(word)}' is no time")
    return number


def pages_of(event, name):
    """The page frame of an event, and by how many pages it changes the free pages of its zone, 0 included."""
    arguments = dict(ARGUMENT.findall(event.arguments))
    for word in ("pfn", "order"):
        if word not in arguments:
            raise BadInput(f"{name}:{event.line}: {event.name} has no number '{word}='")
    pfn, order = (number_of(arguments[word], name, event.line, 16 if arguments[word].startswith("0x") else 10)
                  for word in ("pfn", "order"))
    if order > LAST_ORDER:
        raise BadInput(f"{name}:{event.line}: the order {order} is too large: at most {LAST_ORDER}")
    if event.name == FREES and (order <= COSTLY_ORDER or order == HUGE_ORDER):
        return pfn, 0
    return pfn, -(1 << order) if event.name == TAKES else 1 << order


def judged(event, machine, name):
    """The zone of an event and by how many pages its free pages change; or 0 pages and why the event is left out."""
    if event.name not in (TAKES, GIVES, FREES):
        return None, 0, "changes no free pages"
    pfn, pages = pages_of(event, name)
    zones = [str(zone) for zone in machine.zones if zone.spans(pfn)]
    if not pages:
        return None, 0, "goes to a per-CPU list"
    if len(zones) != 1:
        return None, 0, "several zones span its page" if zones else "no zone of the trace spans its page"
    if event.cpu not in machine.cpus:
        return None, 0, f"on CPU {event.cpu}, which wasn't online"
    return zones[0], pages, None


class Paper:
    """What a trace is written on: it takes lines as long as the program would read them and the last lines too.

    Nothing is put out before the end, so that what is put out is a whole trace.
    """

    def __init__(self, limits, last):
        self.text = io.StringIO()
        self.last = last
        self.lines = limits.lines - len(last)
        self.bytes = limits.bytes - sum(len(line) + 1 for line in last)

    def write(self, line):
        """Whether there was room for the line."""
        if self.lines < 1 or self.bytes < len(line) + 1:
            return False
        self.lines -= 1
        self.bytes -= len(line) + 1
        self.text.write(line + "\n")
        return True

    def end(self, out):
        self.text.writelines(line + "\n" for line in self.last)
        self.text.seek(0)
        shutil.copyfileobj(self.text, out)


def after_early(events, machine, name, skip, account):
    """The events from `skip` seconds on. The changes of those before are taken into the account."""
    for event in events:
        if event.since >= skip:
            return itertools.chain([event], events)
        zone, pages, _ = judged(event, machine, name)
        account.left_out["events before the window"] += 1
        if pages:
            account.early[zone] += pages
    return iter(())


def write_changes(paper, events, machine, name, end, account):
    """Writes a line for each change of the events, up to `end` seconds or as long as there is room."""
    for event in events:
        if event.since >= end:
            account.cut = f"the window ends before {name}:{event.line}"
            return
        zone, pages, reason = judged(event, machine, name)
        if reason:
            account.left_out[f"{event.name} ({reason})"] += 1
        elif paper.write(f"c{event.cpu} mod {zone} nr_free_pages {pages}"):
            account.used[event.name] += 1
            account.pages[zone] += pages
        else:
            account.cut = f"stopped before {name}:{event.line}: the program reads no more lines or bytes"
            return


def write_trace(paper, events, machine, name, options, smaller, account):
    """Writes the trace. What the window leaves out before it is added to the base values."""
    events = after_early(events, machine, name, options.skip, account)
    for line in header_lines(machine, options.watermarks, smaller, account.early):
        paper.write(line)
    write_changes(paper, events, machine, name, options.skip + options.seconds, account)


def free_pages(text, name):
    """The value of nr_free_pages in the text of /proc/vmstat."""
    return read_vmstat(text, name)[FREE]


def notes(machine, account, options, smaller, counted):
    """What is to be said of the trace. `counted` is by how much /proc/vmstat changed, None where it isn't known."""
    for zone in machine.left_out:
        known = zone.kind in vmtrace.KINDS or not zone.pages["managed"]
        yield f"zone {zone} left out: {'no managed pages' if known else 'a trace has no such kind'}"
    yield from smaller.values()
    if options.page_size not in (0, vmtrace.PAGE_BYTES):
        yield (f"pages have {options.page_size} bytes there, and {vmtrace.PAGE_BYTES} in a trace: the thresholds are "
               "the same, but sizes in bytes aren't")
    if not any(zone.thresholds for zone in machine.zones):
        yield f"{machine.name} shows no thresholds, so those of the trace weren't compared"
    if options.watermarks:
        yield from watermark_notes(machine, options.watermarks)
    yield from event_notes(account)
    if counted is not None and account.cut:
        yield f"/proc/vmstat: nr_free_pages changed by {counted}; not compared, since later events are left out"
    elif counted is not None:
        total = sum(account.pages.values()) + sum(account.early.values())
        yield f"/proc/vmstat: nr_free_pages changed by {counted}; the events' {total} is off by {total - counted}"


def event_notes(account):
    if account.lost:
        yield f"{account.lost} events were lost before the recording was read"
    for event, number in account.used.items():
        yield f"used: {number} {event}"
    for what, number in sorted(account.left_out.items()):
        yield f"left out: {number} {what}"
    for zone, pages in account.early.items():
        yield f"added to the base value of {zone} nr_free_pages: {pages}, by events before the window"
    for zone, pages in account.pages.items():
        yield f"{zone} nr_free_pages: changed by {pages}"
    if account.cut:
        yield account.cut


def watermark_notes(machine, watermarks):
    managed = [zone.pages["managed"] for zone in machine.zones]
    for zone, computed in zip(machine.zones, vmtrace.computed_watermarks(*watermarks, managed)):
        found = zone.pages["min"], zone.pages["low"], zone.pages["high"]
        relation = "as in zoneinfo" if found == computed else "but {} {} {} in zoneinfo".format(*found)
        yield "zone {}: watermarks {} {} {}, {}".format(zone, *computed, relation)


@contextmanager
def tracing_instance():
    """A tracing buffer of its own, with no event on, that is taken away afterwards. Other tracing isn't touched."""
    if os.geteuid() != 0:
        raise BadInput("--live needs root")
    root = next((path for path in TRACEFS if (path / "instances").is_dir()), None)
    if root is None:
        raise BadInput("--live: no tracefs; as root: mount -t tracefs tracefs /sys/kernel/tracing")
    instance = root / "instances" / f"from_kernel-{os.getpid()}"
    signal.signal(signal.SIGTERM, lambda *_: sys.exit(1))
    instance.mkdir()
    try:
        put(instance / "tracing_on", "0")
        put(instance / "buffer_size_kb", BUFFER_KB)
        yield instance
    finally:
        remove(instance)


def put(path, text):
    """Writes a file of tracefs. The system names no file where only the write fails."""
    try:
        path.write_text(text)
    except OSError as error:
        raise BadInput(f"{path}: {error.strerror}") from None


def remove(instance):
    """Takes an instance away, also where its events can't be switched off; where that fails it is named."""
    with suppress(BadInput):
        put(instance / "events" / "enable", "0")
    try:
        instance.rmdir()
    except OSError as error:
        vmtrace.tell(f"{instance}: {error.strerror}: it is left behind; as root: rmdir {instance}")


def record(seconds, recording):
    """Records this machine: zoneinfo just before, the text of the events into the file, and vmstat before and after."""
    with tracing_instance() as instance:
        kmem = instance / "events" / "kmem"
        put(kmem / FREES / "filter", f"order > {COSTLY_ORDER}")
        for event in (TAKES, GIVES, FREES):
            put(kmem / event / "enable", "1")
        before = vmtrace.text_of(VMSTAT)
        zoneinfo = vmtrace.text_of(ZONEINFO)
        put(instance / "tracing_on", "1")
        time.sleep(seconds)
        put(instance / "tracing_on", "0")
        after = vmtrace.text_of(VMSTAT)
        keep(vmtrace.each_line(str(instance / "trace")), recording)
    return zoneinfo, before, after


def keep(lines, recording):
    try:
        recording.writelines(line + "\n" for line in lines)
        recording.seek(0)
    except OSError as error:
        raise BadInput(f"the recording, a file in {tempfile.gettempdir()}: {error.strerror}") from None


def parse(arguments):
    parser = vmtrace.Parser(__doc__)
    source = parser.add_mutually_exclusive_group(required=True)
    source.add_argument("--zoneinfo", metavar="FILE", help="/proc/zoneinfo, or a copy")
    source.add_argument("--live", metavar="SECONDS", type=seconds,
                        help="record this machine: as root, through a buffer of its own in tracefs")
    parser.add_argument("--page-size", metavar="BYTES", type=vmtrace.page_size, default=0,
                        help="how large the pages of a copied machine are, as getconf PAGESIZE says there; of this "
                             "machine it is known")
    parser.add_argument("--events", metavar="FILE",
                        help="the text of the tracing buffer, also as .xz or .gz; - for standard input")
    parser.add_argument("--vmstat", metavar=("BEFORE", "AFTER"), nargs=2,
                        help="/proc/vmstat before and after the events, to compare with")
    parser.add_argument("--watermarks", metavar=("MIN_FREE_KBYTES", "SCALE"), nargs=2,
                        type=number_in(0, vmtrace.MAX_KBYTES),
                        help="a line from which the program computes the watermarks, in place of those of zoneinfo")
    parser.add_argument("--skip", metavar="SECONDS", type=seconds, default=0.0,
                        help="leave the first seconds of the events out, and add their changes to the base values")
    parser.add_argument("--seconds", metavar="N", type=seconds, default=math.inf,
                        help="take no more than this many seconds")
    parser.add_argument("--report", metavar="KIND", action="append", choices=REPORTS, default=[],
                        help=f"end with a report: {', '.join(REPORTS)}; may be given again")
    options = parser.parse_args(arguments)
    if options.live is not None and (options.events or options.vmstat):
        parser.error("--live records the events and vmstat by itself")
    if options.live is not None or options.zoneinfo == ZONEINFO:
        if options.page_size:
            parser.error("--page-size goes with a copy: of this machine the size of a page is known")
        options.page_size = os.sysconf("SC_PAGE_SIZE")
    if options.watermarks and not 1 <= options.watermarks[1] <= vmtrace.MAX_SCALE:
        parser.error(f"--watermarks: from 0 to {vmtrace.MAX_KBYTES}, and from 1 to {vmtrace.MAX_SCALE}")
    return options


def make(machine, events, name, counted, options, limits):
    """Writes the trace of a machine and the lines of that name, and the notes."""
    account = Account()
    smaller = smaller_thresholds(machine, options.page_size)
    paper = Paper(limits, [f"report {kind}" for kind in options.report])
    write_trace(paper, events_of(events, name, account), machine, name, options, smaller, account)
    paper.end(sys.stdout)
    for note in notes(machine, account, options, smaller, counted):
        vmtrace.tell(note)


def make_live(options, limits):
    with tempfile.TemporaryFile("w+", **vmtrace.ANY_BYTES) as recording:
        zoneinfo, before, after = record(options.live, recording)
        machine = read_machine(zoneinfo, ZONEINFO)
        counted = free_pages(after, VMSTAT) - free_pages(before, VMSTAT)
        events = map(vmtrace.without_end, recording)
        make(machine, events, "the recording", counted, options, limits)


def make_from_files(options, limits):
    machine = read_machine(vmtrace.text_of(options.zoneinfo), vmtrace.called(options.zoneinfo))
    counted = None
    if options.vmstat:
        before, after = (free_pages(vmtrace.text_of(name), vmtrace.called(name)) for name in options.vmstat)
        counted = after - before
    name = options.events or os.devnull
    make(machine, vmtrace.each_line(name), vmtrace.called(name), counted, options, limits)


def main(arguments, limits=vmtrace.Limits()):
    options = parse(arguments)
    if options.live is None:
        make_from_files(options, limits)
    else:
        make_live(options, limits)
    return 0


if __name__ == "__main__":
    vmtrace.run(main)
