"""What the tools read of a machine: the texts of /proc/zoneinfo and /proc/vmstat, and lists of CPUs.

The form of zoneinfo is that of zoneinfo_show_print of mm/vmstat.c in Linux 5.0 to 6.18. A kernel may show further
fields, items and numbers of a CPU or a zone, of the same forms. A text that isn't whole is refused.
"""
from __future__ import annotations

import re
from dataclasses import dataclass, field

import vmtrace
from vmtrace import BadInput

ZONE = re.compile(r"Node ([0-9]+), zone +(\w+)")
NODE_STATS = re.compile(r"  per-node stats")
FREE_PAGES = re.compile(r"  pages free +(\S+)")
NUMBERED = re.compile(r" +([a-z][a-z0-9_]*) +(\S+)")
PROTECTION = re.compile(r" +protection: \(([0-9]+(?:, [0-9]+)*)\)")
PAGE_SETS = re.compile(r"  pagesets")
CPU = re.compile(r" +cpu: (\S+)")
WITH_COLON = re.compile(r" +((?!cpu:)[a-z][a-z0-9_ ]*): *(\S+)")
VALUE = re.compile(r"([a-z][a-z0-9_]*) (\S+)")
NUMBERS = {10: re.compile(r"[0-9]{1,20}"), 16: re.compile(r"0x[0-9a-f]{1,16}")}
RANGE = re.compile(r"([0-9]{1,9})(?:-([0-9]{1,9}))?")
FIELDS = ("min", "low", "high", "spanned", "present", "managed")
WITHIN = (("managed", "present"), ("present", "spanned"))
FREE, THRESHOLD, START = "nr_free_pages", "vm stats threshold", "start_pfn"


@dataclass
class Zone:
    """A zone as /proc/zoneinfo has it.

    `pages` has its numbers of pages and its first page frame, by their names, `items` its counters, `cpus` the CPUs
    that have a page set of it, and `thresholds` the `vm stats threshold` of each, if they have one. `kinds` is how many
    zones its node has, by the `protection` line. A zone without present pages is unpopulated: nothing else is shown of
    it, and no first page frame.
    """

    node: int
    kind: str
    line: int
    has_node_stats: bool = False
    pages: dict[str, int] = field(default_factory=dict)
    kinds: int = 0
    items: dict[str, int] = field(default_factory=dict)
    cpus: set[int] = field(default_factory=set)
    thresholds: dict[int, int] = field(default_factory=dict)

    def __str__(self):
        return f"{self.node} {self.kind}"

    @property
    def is_populated(self):
        return self.pages["present"] > 0

    def spans(self, pfn):
        return self.pages[START] <= pfn < self.pages[START] + self.pages["spanned"]


@dataclass
class ZoneInfo:
    """All zones of a machine, the counters of its nodes that have a populated zone, and its online CPUs."""

    zones: list[Zone] = field(default_factory=list)
    nodes: dict[int, dict[str, int]] = field(default_factory=dict)

    @property
    def populated(self):
        return [zone for zone in self.zones if zone.is_populated]

    @property
    def cpus(self):
        return self.populated[0].cpus


def number_of(word, name, line, base=10):
    """The number that a word of a text of the kernel spells, in 64 bits."""
    if not NUMBERS[base].fullmatch(word) or int(word, base) >= 2**64:
        raise BadInput(f"{name}:{line}: '{vmtrace.shown(word)}' is no number")
    return int(word, base)


class KernelText:
    """The lines of a text of the kernel, which are taken one after another."""

    def __init__(self, text, name):
        *self.lines, rest = text.split("\n")
        self.name = name
        self.taken = 0
        if rest:
            raise BadInput(f"{name}:{len(self.lines) + 1}: the last line has no end, so the text may be cut")

    @property
    def at_end(self):
        return self.taken == len(self.lines)

    def refuse(self, what):
        """Refuses the line that was taken last."""
        raise BadInput(f"{self.name}:{self.taken}: {what}")

    def take(self, form):
        """What the next line tells if it has the form, else None."""
        found = None if self.at_end else form.fullmatch(self.lines[self.taken])
        self.taken += found is not None
        return found

    def need(self, form, expected):
        """What the next line tells, which has to have the form."""
        if self.at_end:
            self.refuse(f"the text ends here, where a line '{expected}' is expected")
        found = self.take(form)
        if not found:
            self.taken += 1
            self.refuse(f"'{vmtrace.shown(self.lines[self.taken - 1])}' stands where '{expected}' is expected")
        return found

    def number(self, word):
        return number_of(word, self.name, self.taken)

    def numbers(self, form):
        """The numbers of the next lines that have this form, by their names."""
        numbers = {}
        while found := self.take(form):
            if found[1] in numbers:
                self.refuse(f"'{found[1]}' comes a second time")
            numbers[found[1]] = self.number(found[2])
        return numbers


def read_zoneinfo(text, name):
    """What the text of /proc/zoneinfo says."""
    info = ZoneInfo()
    lines = KernelText(text, name)
    while not lines.at_end:
        read_zone(lines, info)
    check_zones(info, name)
    return info


def read_zone(lines, info):
    """Adds a zone, and the counters of its node where they stand in it."""
    head = lines.need(ZONE, "Node N, zone NAME")
    zone = Zone(lines.number(head[1]), head[2], lines.taken)
    if str(zone) in map(str, info.zones):
        lines.refuse(f"zone {zone} comes a second time")
    info.zones.append(zone)
    if lines.take(NODE_STATS):
        zone.has_node_stats = True
        info.nodes[zone.node] = lines.numbers(NUMBERED)
    lines.number(lines.need(FREE_PAGES, "pages free N")[1])
    first = lines.taken + 1
    zone.pages = lines.numbers(NUMBERED)
    zone.kinds = len(lines.need(PROTECTION, "protection: (N, ..)")[1].split(","))
    for word in FIELDS:
        if word not in zone.pages:
            raise BadInput(f"{lines.name}:{zone.line}: zone {zone} has no '{word}'")
    for part, whole in WITHIN:
        if zone.pages[part] > zone.pages[whole]:
            line = first + list(zone.pages).index(part)
            raise BadInput(f"{lines.name}:{line}: zone {zone} has {zone.pages[part]} as '{part}', and "
                           f"{zone.pages[whole]} as '{whole}', which is never less")
    if zone.is_populated:
        read_populated(lines, zone)


def read_populated(lines, zone):
    """What follows of a zone that has pages: its counters and page sets, and its first page frame."""
    zone.items = lines.numbers(NUMBERED)
    if FREE not in zone.items:
        raise BadInput(f"{lines.name}:{zone.line}: zone {zone} has no '{FREE}'")
    lines.need(PAGE_SETS, "pagesets")
    while START not in zone.pages:
        cpu = lines.number(lines.need(CPU, "cpu: N or start_pfn: N")[1])
        if cpu in zone.cpus:
            lines.refuse(f"CPU {cpu} comes a second time in zone {zone}")
        zone.cpus.add(cpu)
        numbers = lines.numbers(WITH_COLON)
        if THRESHOLD in numbers:
            zone.thresholds[cpu] = numbers[THRESHOLD]
        if START in numbers:
            zone.pages[START] = numbers[START]


def check_zones(info, name):
    """The zones are all that their nodes have, and show the same of what each has."""
    populated = info.populated
    if not populated:
        raise BadInput(f"{name}: not the text of /proc/zoneinfo: no zone with present pages")
    for node in {zone.node: None for zone in info.zones}:
        check_node([zone for zone in info.zones if zone.node == node], name)
    for zone in populated:
        if zone.cpus != populated[0].cpus or zone.thresholds.keys() not in (set(), zone.cpus):
            raise BadInput(f"{name}:{zone.line}: zone {zone} shows other CPUs, or thresholds of others, than zone "
                           f"{populated[0]}")
        if zone.items.keys() != populated[0].items.keys():
            raise BadInput(f"{name}:{zone.line}: zone {zone} has other items than zone {populated[0]}")
        if info.nodes[zone.node].keys() != info.nodes[populated[0].node].keys():
            raise BadInput(f"{name}:{zone.line}: node {zone.node} has other items than node {populated[0].node}")


def check_node(zones, name):
    """A node has as many zones as it has numbers of protection, and its counters in the first one with pages."""
    for zone in zones:
        if zone.kinds != len(zones):
            raise BadInput(f"{name}:{zone.line}: zone {zone} is one of {zone.kinds} by its 'protection', and the text "
                           f"has {len(zones)} of node {zone.node}")
    first = next((zone for zone in zones if zone.is_populated), None)
    for zone in zones:
        if zone.has_node_stats != (zone is first):
            raise BadInput(f"{name}:{zone.line}: 'per-node stats' stand in the first zone of a node that has present "
                           f"pages, and zone {zone} " + ("isn't that" if zone.has_node_stats else "has none"))


def read_vmstat(text, name):
    """The items in the text of /proc/vmstat, by name, in the order of its lines."""
    lines = KernelText(text, name)
    items = lines.numbers(VALUE)
    if not lines.at_end:
        lines.need(VALUE, "NAME N")
    if FREE not in items:
        raise BadInput(f"{name}: not the text of /proc/vmstat: no line '{FREE} N'")
    return items


def count_cpus(text, name):
    """How many CPUs a list has, as in `0-3,8`."""
    cpus = 0
    for part in text.strip().split(","):
        found = RANGE.fullmatch(part)
        first, last = (int(found[1]), int(found[2] or found[1])) if found else (1, 0)
        if first > last:
            raise BadInput(f"{name}: '{vmtrace.shown(text.strip())}' is no list of CPUs such as '0-3,8'")
        cpus += last - first + 1
    return cpus
