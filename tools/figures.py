"""What the monitor says of a machine: figures with their bounds and laws, by place, in one view."""
from __future__ import annotations

from dataclasses import dataclass, field

from items import Unit

ABOVE, BELOW, UNKNOWN = "surely above", "surely below", "can't be told"
LAWS = {
    "values_tell_nearly": "a counter of a zone or a node is off by at most what the CPUs may hide of it, each no more "
                          "than the largest threshold that it may still use, and by what is in flight",
    "system_drift": "a counter of all nodes is off by at most the thresholds that the CPUs used last on it in each "
                    "zone or node, and by what is in flight",
    "hiding_is_bounded": "a CPU may hide at most 125 pages of a counter",
}


@dataclass(frozen=True)
class Figure:
    """What the kernel shows of a counter, by how much it can be off, in what it counts, and the laws that say so."""

    value: int
    off_by: int
    laws: tuple[str, ...]
    unit: Unit

    @property
    def least(self):
        """At least 0: no number is below it, and the kernel shows 0 where a value is."""
        return max(0, self.value - self.off_by)

    @property
    def most(self):
        return self.value + self.off_by

    @property
    def share(self):
        """By how much of its value it can be off."""
        return self.off_by / self.value if self.value else float("inf")

    def against(self, pages):
        """On which side of this many pages the truth is."""
        return ABOVE if self.least > pages else BELOW if self.most < pages else UNKNOWN


@dataclass(frozen=True)
class Watermark:
    """A watermark in pages, on which side of it the free pages are, and the laws that say so."""

    pages: int
    free: str
    laws: tuple[str, ...]


@dataclass(frozen=True)
class Place:
    """A zone, or a node as a whole where the kind is `node`; how much of a counter a CPU may keep to itself.

    A zone has its free pages and watermarks, whichever counters were chosen.
    """

    node: int
    kind: str
    threshold: int
    figures: dict[str, Figure]
    free: Figure | None = None
    watermarks: dict[str, Watermark] = field(default_factory=dict)

    @property
    def labels(self):
        return {"node": str(self.node)} if self.kind == "node" else {"node": str(self.node), "zone": self.kind}

    def __str__(self):
        return f"Node {self.node}, " + ("all zones" if self.kind == "node" else f"zone {self.kind}")


@dataclass(frozen=True)
class View:
    """One look at a machine: its CPUs, how many bytes a page has (0 if not known), and what it shows.

    That is, of its places, of all nodes with vmstat, the free pages of these whichever counters were chosen, what is
    assumed, and what it costs that the size of a page isn't known, if it costs something.
    """

    cpus: int
    page_bytes: int
    places: list[Place]
    system: dict[str, Figure]
    free: Figure | None
    assumed: list[str]
    cost: str = ""

    @property
    def zones(self):
        return [place for place in self.places if place.free]

    @property
    def nodes(self):
        return [place for place in self.places if not place.free]

    @property
    def laws(self):
        figures = [*self.system.values()]
        for place in self.places:
            figures += [*place.figures.values(), *place.watermarks.values()]
        return {law: words for law, words in LAWS.items() if any(law in figure.laws for figure in figures)}
