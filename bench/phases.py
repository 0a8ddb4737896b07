"""Writes a trace of every kind of line that `replay` replays: changes, queries, percpu counters, events, folds,
thresholds, balance turns and CPU hotplug, in phases of 10 to 100,000 lines, with reports and a few lines that are
refused.

    phases.py [SEED [LINES [CPUS [PHASE [ZONES]]]]]

There are 1,000,000 lines where LINES isn't given, and 16 CPUs where CPUS isn't given. The same SEED, 1 where none is
given, gives the same trace.

With PHASE, PHASE lines stand before each boundary line. A few of them are refused or ignored, as in other traces. The
last phase has the lines that are left, so a PHASE of LINES makes one phase. At most one CPU is away at a time, so that
nearly all lanes have lines, and fewer boundary lines are reports, of which an input may have 1,000. It may have 10,000
phases, so a trace of 1,000,000 lines wants a PHASE of at least 100.

ZONES is 4 or 16: two nodes with two zones each, or four nodes with each kind of zone.
"""
import random
import sys

EVENTS = "pgpgin pgpgout pswpin pswpout pgfree pgactivate pgdeactivate pgfault".split()
ZONE = ("nr_free_pages nr_zone_inactive_anon nr_zone_active_anon nr_zone_inactive_file nr_zone_active_file "
        "nr_zone_unevictable nr_zone_write_pending nr_mlock area4 area7").split()
NODE = ("nr_inactive_anon nr_active_anon nr_inactive_file nr_active_file nr_unevictable nr_anon_pages "
        "nr_file_pages nr_dirty").split()
COUNTERS = "files inodes dentries".split()
REPORTS = ["report vmstat", "report zoneinfo", "report totals", "report counters"]
# Each with the pages by which its free pages are above `high` on 16 CPUs, at first and later on: about where the
# watermark tests change their answers.
ZONES = {"0 DMA32": ("65536 200 260 320", 380), "0 Normal": ("524288 1000 1250 1500", 900),
         "1 Normal": ("1048576 100 600 1100", 1000), "1 Movable": ("16384 50 80 110", 90)}
SIZES = {"DMA": ("4096 20 25 30", 40), "DMA32": ZONES["0 DMA32"], "Normal": ZONES["0 Normal"],
         "Movable": ZONES["1 Movable"]}
MANY_ZONES = {f"{node} {kind}": size for node in range(4) for kind, size in SIZES.items()}


def free_pages(zones, zone, cpus):
    """About how many free pages a zone has."""
    size, above = zones[zone]
    return int(size.split()[-1]) + above * cpus // 16


def head(cpus, zones):
    """The lines of the header."""
    lines = ["vmtrace 2", f"cpus {cpus}", "item zone area4", "item zone area7", "item node slab bytes"]
    lines += [f"zone {zone} {size}" for zone, (size, _) in zones.items()]
    lines += [f"base {zone} nr_free_pages {free_pages(zones, zone, cpus)}" for zone in zones]
    return lines + ["base 1 node nr_file_pages 5000", "counter files", "counter inodes 1", "counter dentries 300", "go"]


class Machine:
    """What the trace has made of the machine, so that most of its lines count."""

    def __init__(self, seed, cpus, phase, zones):
        self.rng = random.Random(seed)
        self.draw = self.rng.randrange
        self.pick = self.rng.choice
        self.cpus = cpus
        self.phase = phase
        self.zones = zones
        self.nodes = 1 + max(int(zone.split()[0]) for zone in zones)
        # As many CPUs stay online at least.
        self.least = max(1, cpus - 1) if phase else 2
        self.online = list(range(cpus))
        self.dead = []
        self.absent = []
        self.free = {zone: free_pages(zones, zone, cpus) for zone in zones}

    def counter(self):
        if self.draw(3):
            return f"{self.pick(list(self.zones))} {self.pick(ZONE)}"
        return f"{self.draw(self.nodes)} node {self.pick(NODE)}"

    def change(self, lane):
        kind = self.draw(20)
        if kind < 5:
            zone = self.pick(list(self.zones))
            pages = self.draw(97) if self.draw(5) else self.draw(3)
            if (self.free[zone] > free_pages(self.zones, zone, self.cpus)) != (self.draw(4) == 0):
                pages = -pages
            self.free[zone] += pages
            return f"{lane} mod {zone} nr_free_pages {pages}"
        if kind < 12:
            return f"{lane} mod {self.counter()} {self.draw(129) - 64}"
        if kind < 13:
            return f"{lane} mod {self.draw(self.nodes)} node slab {4096 * (self.draw(65) - 32)}"
        return f"{lane} {self.pick(['inc', 'inc', 'dec'])} {self.counter()}"

    def percpu(self, lane):
        name = self.pick(COUNTERS)
        kind = self.draw(10)
        if kind < 4:
            return f"{lane} cnt {name} {self.draw(129) - 64}"
        if kind < 6:
            return f"{lane} lim {name} {self.draw(3000) - 1500} {self.draw(129) - 64}"
        if kind < 8:
            return f"{lane} cmp {name} {self.draw(3000) - 1500}"
        return f"{lane} {self.pick(['sum', 'rough', 'csync'])} {name}"

    def query(self, lane):
        kind = self.draw(10)
        if kind < 4:
            return f"{lane} ok {self.pick(list(self.zones))} {self.pick(['min', 'low', 'high'])} {self.draw(4)}"
        if kind < 6:
            return f"{lane} val {self.counter()}"
        if kind < 8:
            return f"{lane} snap {self.counter()}"
        return f"{lane} sys {self.pick(ZONE + NODE + ['slab'])}"

    def refused(self, lane):
        return self.pick([f"{lane} mod {self.counter()} 0{self.draw(9)}", f"c9{self.draw(9)} inc {self.counter()}",
                          f"{lane} inc 0 node slab", f"{lane} inc {self.counter()} 1", f"{lane} sum nothing",
                          f"online {self.pick(self.online)}", f"k dead {self.pick(self.online)}",
                          f"c{self.draw(self.cpus)} sum files"])

    def line(self):
        lane = f"c{self.pick(self.online)}"
        either = self.pick([lane, "k"])
        kind = self.draw(1000)
        if kind < 500:
            return self.change(lane)
        if kind < 580:
            return f"{lane} ev {self.pick(EVENTS)} {self.draw(9)}"
        if kind < 700:
            return self.percpu(lane)
        if kind < 850:
            return self.query(either)
        if kind < 880:
            return f"{either} evsum {self.pick(EVENTS)}"
        if kind < 905:
            return f"{either} fold {self.draw(self.cpus)}"
        if kind < 930:
            return f"{lane} fold {lane[1:]}"
        if kind < 950:
            return f"k {self.pick(['pressure', 'normal'])} {self.draw(self.nodes)}"
        if kind < 970:
            node = self.draw(self.nodes)
            order = self.pick([0, 0, self.draw(11)])
            index = node + 1 + self.draw(3 - node) if self.nodes == 2 else self.draw(4)
            return f"k kswapd {node} {order} {index}"
        if kind < 975 and self.dead:
            cpu = self.dead.pop(self.draw(len(self.dead)))
            self.absent.append(cpu)
            return f"k dead {cpu}"
        if kind < 985:
            return self.refused(lane)
        if kind < 990:
            return self.pick(["", "# a remark", f"{lane}  mod\t{self.counter()}   {self.draw(9)}\r"])
        return self.change(lane)

    def boundary(self):
        kind = self.draw(10)
        if kind < 3 and len(self.online) > self.least:
            cpu = self.online.pop(self.draw(len(self.online)))
            self.dead.append(cpu)
            return f"offline {cpu}"
        if kind < 6 and self.absent:
            cpu = self.absent.pop(self.draw(len(self.absent)))
            self.online.append(cpu)
            return f"online {cpu}"
        return self.pick(["sync", "sync", "flush", self.pick(REPORTS)] + ["sync"] * (4 if self.phase else 0))

    def length(self):
        """How many lines the next phase has."""
        return self.phase or int(10 ** (1 + 4 * self.rng.random()))

    def body(self, lines):
        """So many lines of phases and the boundary lines between them."""
        left = self.phase
        for _ in range(lines):
            if left:
                yield self.line()
                left -= 1
            else:
                yield self.boundary()
                left = self.length()


def main():
    given = sys.argv[1:] + ["1", "1000000", "16", "0", "4"][len(sys.argv) - 1:]
    seed, lines, cpus, phase, count = (int(word) for word in given)
    zones = {4: ZONES, 16: MANY_ZONES}[count]
    begin = head(cpus, zones)
    out = sys.stdout
    for text in begin[:lines]:
        out.write(text + "\n")
    for text in Machine(seed, cpus, phase, zones).body(lines - len(begin) - len(REPORTS)):
        out.write(text + "\n")
    for text in REPORTS[:max(0, lines - len(begin))]:
        out.write(text + "\n")


if __name__ == "__main__":
    main()
