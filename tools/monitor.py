#!/usr/bin/env python3
"""Says how far the page counters of a machine can be off, and on which side of each watermark its free pages are.

What /proc/zoneinfo and /proc/vmstat show lacks what each CPU has counted and keeps to itself, up to a threshold. Of
each counter this prints its value, by how much it can be off, and between which numbers the truth is. Of each
watermark it says whether the zone's free pages are surely above it, surely below it, or whether that can't be told.
Each figure names the laws that it rests on (crates/vms_near/README.md, that of all nodes crates/vms_core/README.md).
What is assumed stands below them.

A watermark is compared with the free pages alone. A test of the kernel also adds a reserve, looks for large blocks,
leaves out pages that the request can't use, and mostly takes the value as it is shown. Nothing is said of the next
moment.

Without --zoneinfo this machine is read, with all CPUs that are present, online or not. Of a copy the CPUs count that it
shows, and a threshold is 125 unless --page-size is given, since a normal one depends on the size of a page. Where that
makes the figures larger, a line says so.

A text that isn't whole is refused. What /proc/vmstat shows of an item, and what the zones or nodes show of it together,
are both off by at most the figure that is printed. Where the two are further apart than twice that, they aren't numbers
of one moment. This machine is then read again, up to ten times, with /proc/vmstat before and after /proc/zoneinfo, and
copies are refused unless --apart allows for it.

The first lines say where free pages are least certain, and which watermarks can't be told. For a collector of text
files, as Prometheus' node exporter is one:

  monitor.py --prometheus > vozhkell.new && mv vozhkell.new vozhkell.prom"""
import interrupts  # first, for what it does
import json
import os
import sys
import textwrap
import time
from argparse import ArgumentTypeError
from contextlib import suppress
from dataclasses import dataclass

import vmtrace
from figures import BELOW, LAWS, UNKNOWN, Figure, Place, View, Watermark
from items import PAGES, UNITS, check_item, counts_events
from metrics import classic_of, openmetrics_of
from procinfo import FREE, ZoneInfo, count_cpus, read_vmstat, read_zoneinfo
from vmtrace import BadInput, called

ZONEINFO, VMSTAT, PRESENT = "/proc/zoneinfo", "/proc/vmstat", "/sys/devices/system/cpu/present"
MAX_CPUS = 8192
MAX_APART = 2**48
LOOKS, BETWEEN_LOOKS = 10, 0.01
MARKS = ("min", "low", "high")
MOST_NAMED = 8


@dataclass(frozen=True)
class Machine:
    """What was read: zoneinfo, the readings of vmstat, which CPUs there are, and how large a page is, 0 if not known.

    `zoneinfo` and `vmstat` are the names of the files. Readings of vmstat lie before and after zoneinfo's or are one.
    """

    zoneinfo: str
    vmstat: str
    info: ZoneInfo
    readings: "list[dict[str, int]]"
    cpus: int
    page_bytes: int

    @property
    def zones(self):
        return self.info.populated

    @property
    def has_hidden_nodes(self):
        """Whether a node has pages of devices alone: its counters are in vmstat, and zoneinfo doesn't show them."""
        return any(zone.pages["spanned"] and zone.node not in self.info.nodes for zone in self.info.zones)


class Thresholds:
    """The largest threshold that a CPU may still use in each zone, over all looks of a call, and its laws.

    It is the largest that zoneinfo shows in the zone, or the zone's normal threshold where that is larger: under memory
    pressure a zone that has a drift mark shows smaller ones, while a CPU still keeps what the normal one allowed. The
    normal one is that of the managed pages when the kernel computed it. A balloon takes managed pages away, and never
    present ones, so the larger of the two numbers counts.
    """

    def __init__(self, strict):
        self.strict = strict
        self.largest = {}

    def take_in(self, zone, machine):
        if self.strict or not zone.thresholds or not machine.page_bytes:
            self.largest[str(zone)] = vmtrace.MAX_THRESHOLD, ("values_tell_nearly", "hiding_is_bounded")
        else:
            before, _ = self.of_zone(zone)
            pages = max(zone.pages["managed"], zone.pages["present"])
            normal = vmtrace.normal_threshold(pages, machine.cpus, machine.page_bytes)
            self.largest[str(zone)] = max(before, normal, *zone.thresholds.values()), ("values_tell_nearly",)

    def of_zone(self, zone):
        return self.largest.get(str(zone), (0, ()))

    def of_node(self, machine, node):
        """A node has the largest threshold of its zones."""
        return max(self.of_zone(zone) for zone in machine.zones if zone.node == node)


def places_of(machine, chosen, thresholds):
    """The zones in their order, and after them the nodes."""
    for zone in machine.zones:
        threshold, laws = thresholds.of_zone(zone)
        off_by = machine.cpus * threshold
        free = Figure(zone.items[FREE], off_by, laws, UNITS[FREE])
        marks = {mark: Watermark(zone.pages[mark], free.against(zone.pages[mark]), laws) for mark in MARKS}
        yield Place(zone.node, zone.kind, threshold, figures_of(zone.items, chosen, off_by, laws), free, marks)
    for node, items in sorted(machine.info.nodes.items()):
        threshold, laws = thresholds.of_node(machine, node)
        yield Place(node, "node", threshold, figures_of(items, chosen, machine.cpus * threshold, laws))


def figures_of(items, chosen, off_by, laws):
    return {item: Figure(value, off_by, laws, UNITS[item]) for item, value in items.items() if item in chosen}


def system_of(items, places):
    """The counters of all nodes, which zones have or nodes."""
    for is_node in (False, True):
        parts = [place.figures for place in places if (place.kind == "node") == is_node]
        for item in parts[0]:
            yield item, together(items[item], [part[item] for part in parts])


def together(value, parts):
    """The figure of all nodes, which is off by what its parts are together."""
    laws = [law for law in LAWS if any(law in part.laws for part in parts) and law != "values_tell_nearly"]
    return Figure(value, sum(part.off_by for part in parts), ("system_drift", *laws), parts[0].unit)


def check_sums(machine, thresholds, apart):
    """What zones or nodes show of an item together is what vmstat shows of it, as far as neither is off.

    The truth is at most `off_by` from either number, so at one moment they are at most twice that apart.
    """
    zones = [(zone.items, thresholds.of_zone(zone)) for zone in machine.zones]
    nodes = [(items, thresholds.of_node(machine, node)) for node, items in machine.info.nodes.items()]
    for parts, is_all in ((zones, True), (nodes, not machine.has_hidden_nodes)):
        distance = 2 * machine.cpus * sum(threshold for _, (threshold, _) in parts) + apart
        for item in parts[0][0]:
            if not counts_events(item):
                check_sum(item, sum(items[item] for items, _ in parts), distance, is_all, machine)


def check_sum(item, together, distance, is_all, machine):
    """What parts show of an item together is near what vmstat shows of it; the parts are all, or others are hidden."""
    least, most = (choose(reading[item] for reading in machine.readings) for choose in (min, max))
    if together > most + distance or is_all and together < least - distance:
        line, value = list(machine.readings[-1]).index(item) + 1, most if together > most else least
        raise BadInput(f"{machine.vmstat}:{line}: {item} is {value}, and {together} in all of {machine.zoneinfo}: at "
                       f"one moment they are at most {distance} apart, as --help says")


def assumptions(machine, strict):
    """What has to hold of the machine for the figures to be true."""
    zones, cpus = machine.zones, machine.cpus
    yield "The kernel counts as docs/MODEL.md says. Its section 13 has where Linux differs."
    yield ("What is in flight isn't counted: for each change under way at most its size, and 62 pages more where "
           "another CPU folds its CPU meanwhile; for each fold under way of another CPU that is online at most 125 "
           "pages of a counter in each zone or node. In a number of all nodes each fold under way counts so much.")
    yield f"Only these {cpus} CPUs keep something to themselves: any other was folded when it went away."
    if not strict and machine.page_bytes and any(zone.thresholds for zone in zones):
        yield ("No CPU used a threshold last that is larger than all that its zone shows and than the zone's normal "
               "one, and on a node none larger than those of its zones. The normal one is computed for these "
               f"{cpus} CPUs, for pages of {machine.page_bytes} bytes, and for the larger of the zone's managed and "
               "present pages: the kernel last computed it for no more. With --strict this isn't assumed.")
    if (cpus > vmtrace.MAX_CPUS[2] or len(zones) > vmtrace.MAX_ZONES
            or any(zone.node > vmtrace.MAX_NODE or zone.kind not in vmtrace.KINDS for zone in zones)):
        yield (f"The laws hold of a machine such as this. They are proved for at most {vmtrace.MAX_CPUS[2]} CPUs and "
               f"{vmtrace.MAX_ZONES} zones, of nodes 0 to {vmtrace.MAX_NODE} and of the kinds "
               f"{', '.join(vmtrace.KINDS)}.")


def cost_of_no_size(machine, strict):
    """What it costs that the size of a page isn't told: nothing where no smaller threshold is shown or would count."""
    shown = [threshold for zone in machine.zones for threshold in zone.thresholds.values()]
    least, most = min(shown, default=vmtrace.MAX_THRESHOLD), max(shown, default=vmtrace.MAX_THRESHOLD)
    if strict or machine.page_bytes or least == vmtrace.MAX_THRESHOLD:
        return ""
    return (f"No --page-size: each threshold counts as {vmtrace.MAX_THRESHOLD}, and zoneinfo shows "
            f"{least if least == most else f'{least} to {most}'}. With it bounds are mostly smaller.")


def check_machine(machine, chosen):
    """The texts have no impossible threshold, and the counters that were asked for."""
    name, nodes = machine.zoneinfo, machine.info.nodes
    for zone in machine.zones:
        if max(zone.thresholds.values(), default=0) > vmtrace.MAX_THRESHOLD:
            raise BadInput(f"{name}:{zone.line}: zone {zone} has a threshold above {vmtrace.MAX_THRESHOLD}")
    for item in chosen:
        if not any(item in items for items in [zone.items for zone in machine.zones] + list(nodes.values())):
            raise BadInput(f"{name}: has no item '{vmtrace.shown(item)}'")
        check_item(item, name)
    for reading in machine.readings:
        for items in [machine.zones[0].items, *nodes.values()]:
            missing = [item for item in items if item not in reading]
            if missing:
                raise BadInput(f"{machine.vmstat}: has no line '{missing[0]} N', and {name} shows this item")


def present_cpus():
    """How many CPUs this machine has, online or not; 0 where it doesn't say."""
    try:
        text = vmtrace.text_of(PRESENT)
    except BadInput:
        return 0
    return count_cpus(text, PRESENT)


def this_machine(options):
    """What this machine shows, of vmstat before and after zoneinfo."""
    before, zoneinfo, after = map(vmtrace.text_of, (VMSTAT, ZONEINFO, VMSTAT))
    info = read_zoneinfo(zoneinfo, ZONEINFO)
    cpus = max(len(info.cpus), options.cpus, present_cpus())
    readings = [read_vmstat(text, VMSTAT) for text in (before, after)]
    return Machine(ZONEINFO, VMSTAT, info, readings, cpus, os.sysconf("SC_PAGE_SIZE"))


def copied_machine(options):
    """What the files show that were named."""
    zoneinfo, vmstat = called(options.zoneinfo), called(options.vmstat or "")
    info = read_zoneinfo(vmtrace.text_of(options.zoneinfo), zoneinfo)
    readings = [read_vmstat(vmtrace.text_of(options.vmstat), vmstat)] if vmstat else []
    return Machine(zoneinfo, vmstat, info, readings, max(len(info.cpus), options.cpus), options.page_size)


def view_of(machine, options, thresholds):
    """The figures of a machine whose texts are of one moment."""
    check_machine(machine, options.item)
    for zone in machine.zones:
        thresholds.take_in(zone, machine)
    if machine.readings:
        check_sums(machine, thresholds, options.apart)
    chosen = tuple(UNITS) if options.all else options.item or vmtrace.ZONE_ITEMS + vmtrace.NODE_ITEMS
    places = list(places_of(machine, chosen, thresholds))
    system, free = {}, None
    if machine.readings:
        system = dict(system_of(machine.readings[-1], places))
        free = together(machine.readings[-1][FREE], [place.free for place in places if place.free])
    assumed, cost = list(assumptions(machine, options.strict)), cost_of_no_size(machine, options.strict)
    return View(machine.cpus, machine.page_bytes, places, system, free, assumed, cost)


def look(options, thresholds):
    """Reads the files that were named, or this machine, and this again where it changed while it was read."""
    if options.zoneinfo is not None:
        return view_of(copied_machine(options), options, thresholds)
    for _ in range(LOOKS - 1):
        with suppress(BadInput):
            return view_of(this_machine(options), options, thresholds)
        time.sleep(BETWEEN_LOOKS)
    return view_of(this_machine(options), options, thresholds)


def summary_of(view):
    """The first lines for a reader: where free pages are least certain, which watermarks aren't kept for sure, and why.

    The reason stands there only where it is that the size of a page isn't known.
    """
    for worst, key in (("by share", lambda zone: zone.free.share), ("in pages", lambda zone: zone.free.off_by)):
        zone = max(view.zones, key=key)
        yield f"Worst {worst}: {zone}: {free_words(zone.free, view.page_bytes)}"
    if view.free:
        yield f"All nodes: {free_words(view.free, view.page_bytes)}"
    marks = [(f"{zone.node} {zone.kind} {mark}", watermark.free)
             for zone in view.zones for mark, watermark in zone.watermarks.items()]
    for words, wanted in (("that can't be told", UNKNOWN), ("that free pages are surely below", BELOW)):
        named = [name for name, side in marks if side == wanted]
        more = f" and {len(named) - MOST_NAMED} more" if len(named) > MOST_NAMED else ""
        yield f"Watermarks {words}: {', '.join(named[:MOST_NAMED]) or 'none'}{more}, of {len(marks)}"
    if view.cost:
        yield view.cost


def free_words(free, page_bytes):
    """Free pages, and by how much they can be off, in pages, MiB and as a share."""
    sizes = [f" ({pages * page_bytes / 2**20:.1f} MiB)" if page_bytes else "" for pages in (free.value, free.off_by)]
    share = f", {100 * free.share:.2f} %" if free.value else ""
    return f"{free.value} free pages{sizes[0]}, off by at most {free.off_by}{sizes[1]}{share}"


def text_of(view):
    """The lines for a reader."""
    yield from summary_of(view)
    for place in view.places:
        if place.watermarks or place.figures:
            yield f"{place}: each of {view.cpus} CPUs may keep {place.threshold} pages of a counter to itself"
        yield from table([*map(watermark_row, place.watermarks.items()), *map(figure_row, place.figures.items())])
    if view.system:
        yield "All nodes"
        yield from table([*map(figure_row, view.system.items())])


def remarks_of(view):
    """What the laws say, and what is assumed."""
    laws = [f"{law}: {words}" for law, words in view.laws.items()]
    for head, sentences in (("Laws", laws), ("Assumed", view.assumed)):
        yield head
        for sentence in sentences:
            yield from textwrap.wrap(sentence, 100, initial_indent="  ", subsequent_indent="    ")


def figure_row(named):
    item, figure = named
    unit = "" if figure.unit.name == PAGES else f" {figure.unit.name}"
    return item, figure.value, (f"off by at most {figure.off_by}{unit}: {figure.least} to {figure.most}, "
                                f"by {' and '.join(figure.laws)}")


def watermark_row(named):
    mark, watermark = named
    return mark, watermark.pages, f"free pages: {watermark.free}, by {' and '.join(watermark.laws)}"


def table(rows):
    names = max((len(name) for name, _, _ in rows), default=0)
    digits = max((len(str(number)) for _, number, _ in rows), default=0)
    for name, number, text in rows:
        yield f"  {name:{names}} {number:{digits}}  {text}"


def json_of(view):
    """The view as JSON has it."""
    return {"cpus": view.cpus, "page_size": view.page_bytes or None, "zones": list(map(zone_json, view.zones)),
            "nodes": list(map(place_json, view.nodes)), "all_nodes": figures_json(view.system), "laws": view.laws,
            "assumed": view.assumed}


def zone_json(place):
    marks = {mark: {"pages": watermark.pages, "free_pages": watermark.free, "laws": watermark.laws}
             for mark, watermark in place.watermarks.items()}
    return {"zone": place.kind, **place_json(place), "watermarks": marks}


def place_json(place):
    return {"node": place.node, "threshold": place.threshold, "counters": figures_json(place.figures)}


def figures_json(figures):
    return {item: {"value": figure.value, "unit": figure.unit.name, "cumulative": figure.unit.is_cumulative,
                   "off_by": figure.off_by, "least": figure.least, "most": figure.most, "laws": figure.laws}
            for item, figure in figures.items()}


def lines_of(view, options):
    """What is printed of a view; while it is watched with the time."""
    if options.openmetrics or options.prometheus:
        return openmetrics_of(view) if options.openmetrics else classic_of(view)
    if not options.watch:
        return [json.dumps(json_of(view), indent=2)] if options.json else [*text_of(view), *remarks_of(view)]
    if options.json:
        return [json.dumps({"time": time.time(), **json_of(view)})]
    return ["", time.strftime("%Y-%m-%d %H:%M:%S"), *text_of(view)]


def pause(text):
    number = vmtrace.seconds(text)
    if number:
        return number
    raise ArgumentTypeError("a pause of no seconds")


def parse(arguments):
    parser = vmtrace.Parser(__doc__)
    parser.add_argument("--zoneinfo", metavar="FILE", help="a copy of /proc/zoneinfo, - for standard input")
    parser.add_argument("--vmstat", metavar="FILE", help="a copy of /proc/vmstat, for the counters of all nodes")
    parser.add_argument("--page-size", metavar="BYTES", type=vmtrace.page_size, default=0,
                        help="how large the pages of the copied machine are, as getconf PAGESIZE says there")
    parser.add_argument("--apart", metavar="N", type=vmtrace.number_in(0, MAX_APART), default=0,
                        help="how much further apart numbers of the two copies may be than at one moment")
    parser.add_argument("--cpus", metavar="N", type=vmtrace.number_in(1, MAX_CPUS), default=0,
                        help="how many CPUs there are, where that is more than zoneinfo shows")
    chosen = parser.add_mutually_exclusive_group()
    chosen.add_argument("--item", metavar="ITEM", action="append", default=[],
                        help="print this item; may be given again; without it the sixteen that each trace has")
    chosen.add_argument("--all", action="store_true", help="print all items whose unit is known, but for events")
    parser.add_argument("--strict", action="store_true", help="take 125 for every threshold, whatever is shown")
    parser.add_argument("--watch", metavar="SECONDS", type=pause, help="look again after so many seconds, until Ctrl-C")
    form = parser.add_mutually_exclusive_group()
    form.add_argument("--json", action="store_true", help="print JSON, with --watch a line for each look")
    form.add_argument("--prometheus", action="store_true",
                      help="print metrics in Prometheus' classic text form, for a collector of text files")
    form.add_argument("--openmetrics", action="store_true", help="print metrics in the text form of OpenMetrics")
    options = parser.parse_args(arguments)
    if (options.vmstat or options.page_size) and not options.zoneinfo:
        parser.error("--vmstat and --page-size go with --zoneinfo: without it this machine is read")
    if options.apart and not options.vmstat:
        parser.error("--apart goes with --vmstat")
    if options.watch and (options.openmetrics or options.prometheus or "-" in (options.zoneinfo, options.vmstat)):
        parser.error("--watch goes neither with --prometheus, --openmetrics nor with standard input")
    return options


def main(arguments):
    options = parse(arguments)
    thresholds = Thresholds(options.strict)
    view = look(options, thresholds)
    if options.watch and not options.json:
        print(*remarks_of(view), sep="\n")
    while True:
        sys.stdout.writelines(line + "\n" for line in lines_of(view, options))
        sys.stdout.flush()
        if not options.watch:
            return 0
        time.sleep(options.watch)
        view = look(options, thresholds)


if __name__ == "__main__":
    vmtrace.run(main)
