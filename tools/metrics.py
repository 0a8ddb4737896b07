"""The metrics of a view, in the text form of OpenMetrics or the classic one. docs/FORMATS.md lists their names."""
from __future__ import annotations

import re
from dataclasses import dataclass

from figures import ABOVE, BELOW, LAWS
from items import HUGE_PAGES, KIB, PAGES, TREE_NODES

PREFIX = "vozhkell"
# The word at the end of a name, and how much of it a unit is: bytes are what collectors expect in place of KiB.
UNITS = {PAGES: ("pages", 1), HUGE_PAGES: ("hugepages", 1), KIB: ("bytes", 1024), TREE_NODES: ("nodes", 1)}
SOURCES = {"zone": "of a zone, as /proc/zoneinfo shows it", "node": "of a node, as /proc/zoneinfo shows it",
           "system": "of all nodes, as /proc/vmstat shows it"}


@dataclass(frozen=True)
class Family:
    """A family of metrics: its name, what it is, its unit if it has one, and its numbers with their labels.

    What only grows is cumulative, a counter. Its numbers have a longer name, and the classic form knows no other.
    """

    name: str
    words: str
    unit: str
    numbers: list[tuple[dict[str, str], int]]
    is_cumulative: bool = False

    @property
    def sample(self):
        """The name of its numbers, which is that of the family too in the classic form."""
        return self.name + ("_total" if self.is_cumulative else "")

    def lines(self, is_classic):
        name = self.sample if is_classic else self.name
        yield f"# HELP {name} {self.words}"
        yield f"# TYPE {name} {'counter' if self.is_cumulative else 'gauge'}"
        if self.unit and not is_classic:
            yield f"# UNIT {name} {self.unit}"
        for labels, number in self.numbers:
            told = ",".join(f'{label}="{text}"' for label, text in labels.items())
            yield self.sample + (f"{{{told}}}" if told else "") + f" {number}"


def openmetrics_of(view):
    """The lines in the text form of OpenMetrics."""
    yield from lines_of(view, False)
    yield "# EOF"


def classic_of(view):
    """The lines in the classic text form, that of Prometheus' collectors of text files."""
    return lines_of(view, True)


def lines_of(view, is_classic):
    for family in families_of(view):
        if family.numbers:
            yield from family.lines(is_classic)


def families_of(view):
    yield Family(f"{PREFIX}_cpus", "How many CPUs may keep a part of each counter to themselves.", "",
                 [({}, view.cpus)])
    if view.page_bytes:
        yield Family(f"{PREFIX}_page_size_bytes", "The size of a page.", "bytes", [({}, view.page_bytes)])
    for kind, places in (("zone", view.zones), ("node", view.nodes)):
        yield Family(f"{PREFIX}_{kind}_threshold", f"How much of a counter of a {kind} one CPU may keep to itself, in "
                     "what is counted.", "", [(place.labels, place.threshold) for place in places])
        for item in dict.fromkeys(item for place in places for item in place.figures):
            yield from figure_families(kind, item, [(place.labels, place.figures[item]) for place in places])
    for item, figure in view.system.items():
        yield from figure_families("system", item, [({}, figure)])
    yield from watermark_families(view.zones)


def figure_families(kind, item, named):
    """The values of an item, and by how much each can be off."""
    unit = named[0][1].unit
    word, factor = UNITS[unit.name]
    stem = f"{PREFIX}_{kind}_" + re.fullmatch(f"(?:nr_)?(?:{kind}_)?(.*?)(?:_{word})?", item)[1]
    name, uncertainty = f"{stem}_{word}", f"{stem}_uncertainty_{word}"
    value = Family(name, f"{item} {SOURCES[kind]}. The true number is at most {uncertainty} from it.", word,
                   [(labels, figure.value * factor) for labels, figure in named], unit.is_cumulative)
    yield value
    yield Family(uncertainty, f"By how much {value.sample} can be off at most, "
                 f"{by_laws([figure for _, figure in named])}, without what is in flight.", word,
                 [(labels, figure.off_by * factor) for labels, figure in named])


def watermark_families(zones):
    marks = [({**zone.labels, "watermark": mark}, watermark)
             for zone in zones for mark, watermark in zone.watermarks.items()]
    yield Family(f"{PREFIX}_zone_watermark_pages", "A watermark of a zone, as /proc/zoneinfo shows it.", "pages",
                 [(labels, watermark.pages) for labels, watermark in marks])
    for side in (ABOVE, BELOW):
        yield Family(f"{PREFIX}_zone_free_{side.replace(' ', '_')}",
                     f"1 where the free pages of a zone are {side} the watermark, "
                     f"{by_laws([mark for _, mark in marks])}, else 0. Where neither is 1, it can't be told.", "",
                     [(labels, int(watermark.free == side)) for labels, watermark in marks])


def by_laws(figures):
    return "by " + " and ".join(law for law in LAWS if any(law in figure.laws for figure in figures))
