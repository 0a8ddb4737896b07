"""Reads traces by docs/FORMATS.md, for judges that share no code with the programs: the header, which lines count, and
what they ask for.

Numbers and names are those of the formats. An act is a tuple of its verb and what it names: counters, places, items,
events, percpu counters and CPUs by number, amounts in pages.
"""
import re

from judge_pages import Size
from judge_rules import ABSENT, DEAD, ONLINE, Layout

KINDS = ("DMA", "DMA32", "Normal", "Movable")
MARKS = ("min", "low", "high")
REPORTS = ("vmstat", "zoneinfo", "totals", "counters")
EVENTS = ("pgpgin", "pgpgout", "pswpin", "pswpout", "pgfree", "pgactivate", "pgdeactivate", "pgfault")
ZONE_ITEMS = ("nr_free_pages", "nr_zone_inactive_anon", "nr_zone_active_anon", "nr_zone_inactive_file",
              "nr_zone_active_file", "nr_zone_unevictable", "nr_zone_write_pending", "nr_mlock")
NODE_ITEMS = ("nr_inactive_anon", "nr_active_anon", "nr_inactive_file", "nr_active_file", "nr_unevictable",
              "nr_anon_pages", "nr_file_pages", "nr_dirty")
MOST_LINE = 200
MOST_VOLUME = 2**48
U64, I63, I64 = (0, 2**64 - 1), (0, 2**63 - 1), (-(2**63), 2**63 - 1)
SIXTY = (-(2**60), 2**60)
WORD, CLEAN = re.compile(rb"[!-~]+"), re.compile(rb"[\t\r -~]*")
NUMBER = re.compile("0|-?[1-9][0-9]*")
NAME = re.compile("[a-z][a-z0-9_]{0,15}")
LANE = re.compile("k|c(0|[1-9][0-9]*)")
# The kinds of header lines, in the order in which they stand.
RANKS = {"vmtrace": 0, "cpus": 1, "watermarks": 2, "item": 3, "zone": 4, "base": 5, "counter": 6, "go": 7}


class Fault(Exception):
    """Why a line is refused."""


def words_of(line):
    return [word.decode() for word in WORD.findall(line)]


def is_clean(line):
    return CLEAN.fullmatch(line) is not None


def is_ignored(line):
    words = words_of(line)
    return len(line) <= MOST_LINE and (words[0].startswith("#") if words else is_clean(line))


def number(word, least, most):
    if not NUMBER.fullmatch(word) or not least <= int(word) <= most:
        raise Fault("BadNumber")
    return int(word)


def need(holds, cause):
    if not holds:
        raise Fault(cause)


class Header:
    """What the lines of a header said so far."""

    def __init__(self):
        self.rank = None
        self.wide = False
        self.cpus = 0
        self.share = None
        self.items = {"zone": list(ZONE_ITEMS), "node": list(NODE_ITEMS)}
        self.in_bytes = set()
        self.sizes = {}
        self.bases = {}
        self.counters = []
        self.layout = None

    def positions(self):
        return 16 if self.wide else 8

    def line(self, line):
        """Whether a line is the last."""
        need(len(line) <= MOST_LINE, "LineTooLong")
        if is_ignored(line):
            return False
        words = words_of(line)
        if self.rank is None:
            need(words in (["vmtrace", "1"], ["vmtrace", "2"]), "BadMagic")
            self.wide = words[1] == "2"
        need(is_clean(line) and self.is_due(words[0]), "Malformed")
        self.rank = RANKS[words[0]]
        getattr(self, "add_" + words[0])(*words[1:]) if self.fits(words) else need(False, "Malformed")
        return words[0] == "go"

    def is_due(self, word):
        if word not in RANKS or word == "item" and not self.wide:
            return False
        rank = RANKS[word]
        if self.rank is None or rank < 2:
            return rank == (0 if self.rank is None else 1) and self.rank in (None, 0)
        return self.rank >= 1 and (rank > self.rank or rank == self.rank and word not in ("watermarks", "go"))

    def fits(self, words):
        counts = {"vmtrace": (1,), "cpus": (1,), "watermarks": (1, 2), "item": (2, 3), "base": (4,),
                  "zone": (3,) if self.share else (6,), "counter": (1, 2), "go": (0,)}
        return len(words) - 1 in counts[words[0]]

    def add_vmtrace(self, _):
        pass

    def add_cpus(self, cpus):
        self.cpus = number(cpus, *U64)
        need(1 <= self.cpus <= (128 if self.wide else 64), "BadCpus")

    def add_watermarks(self, kbytes, scale="10"):
        self.share = number(kbytes, 0, 2**40), number(scale, 1, 3000)

    def add_item(self, where, name, unit=None):
        need(where in self.items and NAME.fullmatch(name) and unit in (None, "bytes"), "UnknownName")
        need(all(name not in items for items in self.items.values()), "DoubledItem")
        need(len(self.items[where]) < 16, "TooManyItems")
        self.items[where].append(name)
        if unit:
            self.in_bytes.add(name)

    def add_zone(self, node, kind, managed, *marks):
        node = number(node, 0, 15)
        need(kind in KINDS, "UnknownName")
        managed = number(managed, 1, 2**40)
        marks = [number(mark, 0, 2**40) for mark in marks]
        need(marks == sorted(marks), "BadMarks")
        zone = node, KINDS.index(kind)
        need(zone not in self.sizes, "DoubledZone")
        need(len(self.sizes) < 16, "TooManyZones")
        self.sizes[zone] = Size(managed, *(marks or (0, 0, 0)))

    def settle(self):
        need(self.sizes, "NoZone")
        if self.layout is None:
            self.layout = Layout(self.sizes, self.cpus, self.positions())

    def add_base(self, node, kind, item, value):
        self.settle()
        place = self.place(number(node, *U64), kind)
        need(place is not None, "UnknownName")
        need(item in self.names(place), "UnknownName")
        value = number(value, -(2**48), 2**48)
        counter = self.positions() * place + self.names(place).index(item)
        need(counter not in self.bases, "DoubledCounter")
        self.bases[counter] = value

    def add_counter(self, name, batch=None):
        self.settle()
        need(NAME.fullmatch(name), "UnknownName")
        batch = max(32, 2 * self.cpus) if batch is None else number(batch, *U64)
        need(name not in self.counters, "DoubledCounter")
        need(1 <= batch <= 65536, "BadBatch")
        need(len(self.counters) < 16, "TooManyCounters")
        self.counters.append(name)

    def add_go(self):
        self.settle()
        if self.share:
            kbytes, scale = self.share
            total = sum(size.managed for size in self.sizes.values())
            for size in self.sizes.values():
                size.min = kbytes // 4 * size.managed // total
                step = max(size.min // 4, size.managed * scale // 10000)
                size.low, size.high = size.min + step, size.min + 2 * step

    # What the fields of lines name, once the zones are known.

    def place(self, node, kind):
        zones, nodes = self.layout.zones, self.layout.nodes
        if kind == "node":
            return len(zones) + nodes.index(node) if node in nodes else None
        zone = node, KINDS.index(kind) if kind in KINDS else None
        return zones.index(zone) if zone in zones else None

    def names(self, place):
        return self.items["zone" if place < len(self.layout.zones) else "node"]

    def sizes_in_order(self):
        return [self.sizes[zone] for zone in self.layout.zones]


class Line:
    """What a line of the body that counts says: its lane, None where it has none; the verb; what it names."""

    def __init__(self, lane, verb, named):
        self.lane, self.verb, self.named = lane, verb, named


class Body:
    """Which lines count, by the lines above."""

    # The lanes of each verb, and what its words are.
    FORMS = {
        "mod": ("c", "PIA"), "inc": ("c", "PI"), "dec": ("c", "PI"), "ev": ("c", "eN"), "cnt": ("c", "nA"),
        "lim": ("c", "nLA"), "cmp": ("c", "nL"), "sum": ("c", "n"), "rough": ("c", "n"), "csync": ("c", "n"),
        "evsum": ("ck", "e"), "fold": ("ck", "C"), "ok": ("ck", "Zmx"), "val": ("ck", "PI"), "snap": ("ck", "PI"),
        "sys": ("ck", "i"), "pressure": ("k", "D"), "normal": ("k", "D"), "dead": ("k", "C"), "kswapd": ("k", "Dox"),
        "sync": ("", ""), "offline": ("", "C"), "online": ("", "C"), "flush": ("", ""), "report": ("", "r"),
    }

    def __init__(self, header):
        self.header = header
        self.states = [ONLINE] * header.cpus
        self.volumes = {}

    def line(self, line):
        """None of a line that is ignored; a Fault where it doesn't count."""
        need(len(line) <= MOST_LINE, "LineTooLong")
        if is_ignored(line):
            return None
        lane, verb, fields = self.cut(line)
        if isinstance(lane, int):
            need(lane < self.header.cpus, "UnknownLane")
        named = self.fields(verb, fields)
        self.judge(lane, verb, named)
        return Line(lane, verb, named)

    def cut(self, line):
        words, lane, kind = words_of(line), None, ""
        need(is_clean(line), "Malformed")
        if LANE.fullmatch(words[0]):
            kind = words[0][0]
            lane = "k" if kind == "k" else int(words[0][1:])
            words = words[1:]
        lanes, letters = self.FORMS.get(words[0] if words else None, ("?", ""))
        need(kind in lanes if kind else lanes == "", "Malformed")
        need(words[0] != "kswapd" or self.header.wide, "Malformed")
        fields = words[1:]
        need(len(fields) == len(letters) + sum(letter in "PZ" for letter in letters), "Malformed")
        need("m" not in letters or fields[2] in MARKS, "Malformed")
        need("r" not in letters or fields[0] in REPORTS, "Malformed")
        return lane, words[0], fields

    def fields(self, verb, words):
        """What the words name, from the left."""
        header, words, named = self.header, iter(words), []
        for letter in self.FORMS[verb][1]:
            word = next(words)
            if letter in "PZ":
                place = header.place(number(word, *U64), next(words))
                need(place is not None and (letter == "P" or place < len(header.layout.zones)), "UnknownPlace")
                named.append(place)
            elif letter == "I":
                place = named.pop()
                need(word in header.names(place), "UnknownItem")
                named.append(header.positions() * place + header.names(place).index(word))
            elif letter == "i":
                items = [(item, place) for place, items in enumerate(header.items.values())
                         for item in items if item == word]
                need(items, "UnknownItem")
                named.append(header.positions() * items[0][1]
                             + list(header.items.values())[items[0][1]].index(word))
            elif letter == "e":
                need(word in EVENTS, "UnknownItem")
                named.append(EVENTS.index(word))
            elif letter == "n":
                need(word in header.counters, "UnknownCounter")
                named.append(header.counters.index(word))
            elif letter == "C":
                cpu = number(word, *U64)
                need(cpu < header.cpus, "UnknownLane")
                named.append(cpu)
            elif letter == "D":
                place = header.place(number(word, *U64), "node")
                need(place is not None, "UnknownPlace")
                named.append(place)
            elif letter in "mr":
                named.append(word)
            else:
                named.append(number(word, *{"A": I64, "N": I63, "L": SIXTY, "x": (0, 3), "o": (0, 10)}[letter]))
        if verb == "kswapd":
            node = header.layout.nodes[named[0] - len(header.layout.zones)]
            need(any(at == node and kind <= named[2] for at, kind in header.layout.zones), "UnknownPlace")
        return named

    def judge(self, lane, verb, named):
        """By the states of the CPUs and by the volumes; a line that counts changes them."""
        states = self.states
        if verb in ("mod", "inc", "dec"):
            names = self.header.names(named[0] // self.header.positions())
            if names[named[0] % self.header.positions()] in self.header.in_bytes:
                need(verb == "mod" and named[1] % 4096 == 0, "NotPages")
                named[1] //= 4096
        if isinstance(lane, int):
            need(states[lane] == ONLINE, "NotOnline")
        if verb == "offline":
            need(states[named[0]] == ONLINE, "NotOnline")
            need(states.count(ONLINE) > 1, "LastCpu")
        if verb == "dead":
            need(states[named[0]] == DEAD, "NotDead")
        if verb == "online":
            need(states[named[0]] != ONLINE, "NotDead")
            need(states[named[0]] == ABSENT, "NotFolded")
        if verb in ("mod", "inc", "dec", "ev", "cnt", "lim"):
            thing = {"ev": "event", "cnt": "pcpu", "lim": "pcpu"}.get(verb, "counter")
            key = lane, thing, named[0]
            volume = self.volumes.get(key, 0) + (1 if verb in ("inc", "dec") else abs(named[-1]))
            need(volume <= MOST_VOLUME, "Overflow")
            self.volumes[key] = volume
        if verb in ("offline", "dead", "online"):
            states[named[0]] = {"offline": DEAD, "dead": ABSENT, "online": ONLINE}[verb]
