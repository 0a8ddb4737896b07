#!/usr/bin/env python3
"""Judges a written history by docs/MODEL.md and docs/FORMATS.md, and says what `vozhkell certify` is to say of it.

    bench/certify.py [--unlimited] [--self] [FILE]

It reads the trace and its history from FILE, or standard input, and shares no code with the programs. The conditions of
the steps are those of bench/judge_pages.py; what each lane is to do next stands here, by the calls of its lines. The
status is the program's. With --unlimited the limits on lines and bytes don't count. With --self what passes know, carry
and spend, and what CPUs may hide, is compared at each event with the definitions of bench/judge_pages.py, which go
through all events anew: this takes long.
"""
import argparse
import sys

from judge_pages import DEC, INC, MOD, ZEROS, Facts, History, State, carried_by, differential_after, peak
from judge_rules import ABSENT, DEAD, MAIN, ONLINE
from read_trace import Body, Fault, Header, is_clean, is_ignored, words_of, MOST_LINE, NUMBER

DONE, HEADER, REFUSED, TOO_LONG, NOT_CERTIFIED = 0, 2, 3, 7, 9
MOST_LINES, MOST_BYTES, MOST_PHASES, MOST_REPORTS = 1_000_000, 2**26, 10_000, 1_000
MODES = {"0": MOD, "1": INC, "-1": DEC}
STATES = {"0": ONLINE, "1": DEAD, "2": ABSENT}
# The kinds of what steps name that are ids of the layout.
IDS = ("cpu", "place", "counter", "group", "item", "owner")
PHASE, BAD = "phase", "bad"
RANGES = {"u32": (0, 2**64 - 1), "u64": (0, 2**64 - 1), "number": (0, 2**64 - 1), "i64": (-(2**63), 2**63 - 1)}


class TooLong(Exception):
    """A limit is passed."""


# The formulas.

def normal_threshold(size, online):
    return min(125, 2 * online.bit_length() * (1 + (size.managed >> 15).bit_length()))


def pressure_threshold(size, online):
    return min(125, max(1, (size.low - size.min) // online))


def cover_mark(size, online, hidden):
    """The mark that covers what CPUs may hide: Linux's mark, or more."""
    drift, gap = online * normal_threshold(size, online), size.low - size.min
    linux = size.high + drift if drift > gap else 0
    return 0 if linux == 0 and hidden <= gap else max(linux, size.high + hidden)


# Histories, with what passes know kept beside the events.

class Pass:
    """What a pass knows and carries, by its events so far."""

    def __init__(self):
        self.found, self.loaded, self.took, self.put = {}, {}, {}, {}
        self.counters, self.items = {}, {}


def add(amounts, key, amount):
    amounts[key] = amounts.get(key, 0) + amount
    if not amounts[key]:
        del amounts[key]


class PhaseHistory(History):
    """The history of a phase. Its conditions are those of `History`; what they ask for is kept, not reckoned anew."""

    def __init__(self, facts, slow):
        super().__init__(facts)
        self.passes, self.volumes = {}, {}
        cpus, zones = range(facts.layout.cpus), range(len(facts.layout.zones))
        self.peaks = [[peak(facts, [], c, g) for g in zones] for c in cpus]
        self.owners = {}
        self.slow = slow

    def kept(self, kept, anew):
        """What is kept. It has to be what the definitions give."""
        if self.slow:
            assert kept == anew(), (kept, anew(), self.events[-3:])
        return kept

    def of(self, p):
        return self.passes.get(p) or Pass()

    def owner(self, q):
        return self.kept(self.owners.get(q), lambda: History.owner(self, q))

    def found(self, c, j, p):
        kept = self.of(p).found.get(j) if c == self.owners.get(p) else None
        return self.kept(kept, lambda: History.found(self, c, j, p))

    def loaded(self, g, p):
        return self.kept(self.of(p).loaded.get(g), lambda: History.loaded(self, g, p))

    def took(self, c, g, j, p):
        return self.kept((c, j) in self.of(p).took.get(g, ()), lambda: History.took(self, c, g, j, p))

    def has_put(self, g, p):
        return self.kept(self.of(p).put.get(g, False), lambda: History.has_put(self, g, p))

    def carried(self, p):
        return self.kept((self.of(p).counters, self.of(p).items), lambda: History.carried(self, p))

    def spent(self, c, k):
        return self.kept(self.volumes.get((c, k), 0), lambda: History.spent(self, c, k))

    def peak_sum(self, g, *further):
        hidden = sum(self.peaks[c][g] for c, state in enumerate(self.state.cpu) if state != ABSENT)
        for _, c, _, t in further:
            hidden += max(0, t - self.peaks[c][g])
        return self.kept(hidden, lambda: History.peak_sum(self, g, *further))

    def take(self, p, step):
        who, kind, layout = self.owners.get(p), step[0], self.facts.layout
        super().take(p, step)
        if kind == "Split":
            self.passes[step[1]], self.owners[step[1]] = Pass(), step[2]
            return
        own = self.of(p)
        if kind == "LoadT":
            g = step[1]
            own.loaded[g], own.took[g], own.put[g] = step[2:], set(), False
        elif kind == "LoadD" and step[1] == who:
            own.found[step[2]] = step[3]
        elif kind == "Miss":
            own.found[step[1]] = ZEROS
        elif kind == "Put":
            _, k, w, t, delta, how = step
            own.found[k // 8] = (*w[:k % 8], differential_after(how, t, w[k % 8], delta), *w[k % 8 + 1:])
            own.put[layout.place_of(k)] = True
            self.carry(own, k, carried_by(how, t, w[k % 8], delta))
            self.volumes[who, k] = self.volumes.get((who, k), 0) + abs(delta)
        elif kind == "Take":
            _, c, j, w = step
            if c == who:
                own.found[j] = ZEROS
            for took in own.took.values():
                took.add((c, j))
            for n in range(8):
                self.carry(own, 8 * j + n, w[n])
        elif kind == "AddG":
            add(own.counters, step[1], -step[2])
        elif kind == "AddS":
            add(own.items, step[1], -step[2])
        elif kind == "SetT" and step[2] < len(layout.zones):
            self.peaks[step[1]][step[2]] = max(self.peaks[step[1]][step[2]], step[3])
        elif kind == "LoadA" and step[3] == self.state.threshold_sets_at(*step[1:3]):
            self.peaks[step[1]][step[2]] = self.state.threshold_at(*step[1:3])

    def carry(self, own, k, amount):
        if amount:
            add(own.counters, k, amount)
            add(own.items, self.facts.layout.item_of(k), amount)


# What lanes do: each yields the beginnings of the steps that are due, and is told the step that is made.

class Lane:
    """The steps that a lane's lines make, by docs/MODEL.md, section 10."""

    def __init__(self, history, lane, lines, header):
        self.history, self.layout, self.own, self.header = history, history.facts.layout, lane, header
        self.sizes = history.facts.sizes
        # How many lines are left, with the one that makes the step that is due.
        self.lines_left = len(lines)
        self.steps = self.all(lines)
        self.due = next(self.steps, None)
        self.begun = self.ended = False

    def makes(self, step):
        return self.due is not None and any(step[:len(due)] == due for due in self.due)

    def go_on(self, step):
        try:
            self.due = self.steps.send(step)
        except StopIteration:
            self.due = None

    def all(self, lines):
        for line in lines:
            calls = {"mod": self.mod, "inc": self.inc, "dec": self.dec, "fold": self.fold, "ok": self.ok,
                     "val": self.val, "snap": self.snapshot, "sys": self.sys, "pressure": self.pressure,
                     "normal": self.normal, "dead": self.bury, "kswapd": self.kswapd}
            if line.verb in calls:
                yield from calls[line.verb](*line.named)
            self.lines_left -= 1

    def mod(self, k, delta, how=MOD):
        j = k // 8
        t = (yield [("LoadT", self.layout.place_of(k))])[2]
        w = (yield [("LoadD", self.own, j)])[3]
        if (yield [("Put", k, w, t, delta, how), ("Miss", j, w)])[0] == "Miss":
            w = ZEROS
            yield [("Put", k, w, t, delta, how)]
        moved = carried_by(how, t, w[k % 8], delta)
        if moved:
            yield [("AddG", k, moved)]
            yield [("AddS", self.layout.item_of(k), moved)]

    def inc(self, k):
        return self.mod(k, 1, INC)

    def dec(self, k):
        return self.mod(k, -1, DEC)

    def val(self, k):
        return max((yield [("LoadG", k)])[2], 0)

    def sys(self, i):
        yield [("LoadS", i)]

    def snapshot(self, k):
        value = (yield [("LoadG", k)])[2]
        for c in range(self.layout.cpus):
            if (yield [("LoadO", c)])[2] == ONLINE:
                value += (yield [("LoadD", c, k // 8)])[3][k % 8]
        return max(value, 0)

    def ok(self, g, *_):
        """The free pages that a watermark test rests on."""
        k = self.layout.positions * g
        first = (yield [("LoadM", g)])[2:]
        value = max((yield [("LoadG", k)])[2], 0)
        last = (yield [("LoadM", g)])[2:]
        if first != last or value < first[0]:
            return (yield from self.snapshot(k))
        return value

    def fold(self, c):
        sums = {}
        for g in range(self.layout.places):
            acknowledges = c == self.own and g < len(self.layout.zones)
            told = (yield [("LoadT", g)]) if acknowledges else None
            for j in self.layout.groups_of(g):
                w = (yield [("Take", c, j)])[3]
                for n in range(8):
                    if w[n]:
                        yield [("AddG", 8 * j + n, w[n])]
                        add(sums, self.layout.item_of(8 * j + n), w[n])
            if acknowledges:
                yield [("SetA", g, told[3])]
        for i in sorted(sums):
            yield [("AddS", i, sums[i])]

    def online(self):
        online = []
        for c in range(self.layout.cpus):
            if (yield [("LoadO", c)])[2] == ONLINE:
                online.append(c)
        return online

    def zones_of(self, place):
        node = self.layout.nodes[place - len(self.layout.zones)]
        return [g for g, (at, _) in enumerate(self.layout.zones) if at == node]

    def rate(self, g, rule, online, always):
        for c in online:
            yield [("LoadA", c, g)]
        mark = (yield [("LoadM", g)])[2]
        if mark or always:
            size, peaks = self.sizes[g], self.history.peaks
            t = rule(size, len(online))
            hidden = sum(max(peaks[c][g], t) if c in online else peaks[c][g]
                         for c in range(self.layout.cpus) if self.history.state.cpu_at(c) != ABSENT)
            due = cover_mark(size, len(online), hidden)
            if due != mark:
                yield [("SetM", g, due)]
            for c in online:
                yield [("SetT", c, g, t)]

    def set_zones(self, node, rule):
        online = yield from self.online()
        for g in self.zones_of(node):
            yield from self.rate(g, rule, online, False)

    def pressure(self, node):
        return self.set_zones(node, pressure_threshold)

    def normal(self, node):
        return self.set_zones(node, normal_threshold)

    def bury(self, c):
        yield from self.fold(c)
        yield [("SetO", c)]
        online = yield from self.online()
        for g in range(len(self.layout.zones)):
            yield from self.rate(g, normal_threshold, online, True)
        for place in range(len(self.layout.zones), self.layout.places):
            most = max(normal_threshold(self.sizes[g], len(online)) for g in self.zones_of(place))
            for c in online:
                yield [("SetT", c, place, most)]

    def reserve(self, g, index):
        node, kind = self.layout.zones[g]
        managed = sum(self.sizes[other].managed for other, (at, above) in enumerate(self.layout.zones)
                      if at == node and kind < above <= index)
        ratio = (256, 256, 32, 0)[kind]
        return managed // ratio if ratio else 0

    def areas(self, order):
        """The positions of the items that count blocks of an order and above, by order."""
        items = self.header.items["zone"]
        for at in range(order, 11):
            if f"area{at}" in items and f"area{at}" not in self.header.in_bytes:
                yield items.index(f"area{at}")

    def has_block(self, g, order, index):
        free = yield from self.ok(g)
        if free <= self.sizes[g].high + self.reserve(g, index) + 2**order - 1:
            return False
        if order == 0:
            return True
        for position in self.areas(order):
            if (yield from self.snapshot(self.layout.positions * g + position)):
                return True
        return False

    def kswapd(self, node, order, index):
        yield from self.pressure(node)
        for g in self.zones_of(node):
            if self.layout.zones[g][1] <= index and (yield from self.has_block(g, order, index)):
                yield from self.normal(node)
                return


# Phases and what stands between them.

class World:
    """The page counters between two phases."""

    def __init__(self, header):
        layout = self.layout = header.layout
        self.sizes = header.sizes_in_order()
        place = [header.bases.get(k, 0) for k in range(layout.counters)]
        system = [0] * layout.items
        for k, value in enumerate(place):
            system[layout.item_of(k)] += value
        self.state = State(place=place, system=system, diff=[0] * (layout.cpus * layout.counters),
                           threshold=[0] * (layout.cpus * layout.places), mark=[0] * len(layout.zones),
                           cpu=[ONLINE] * layout.cpus, acknowledged=[], threshold_sets=[], mark_sets=[])
        self.refresh()

    def facts(self):
        """What a history begins with: nothing is acknowledged or set."""
        zones, cpus, places = len(self.layout.zones), self.layout.cpus, self.layout.places
        self.state.acknowledged = [None] * (cpus * zones)
        self.state.threshold_sets, self.state.mark_sets = [0] * (cpus * places), [0] * zones
        return Facts(self.layout, self.sizes, self.state)

    def refresh(self):
        online = [c for c, state in enumerate(self.state.cpu) if state == ONLINE]
        zones = self.layout.zones
        by_zone = [normal_threshold(size, len(online)) for size in self.sizes]
        by_node = [max(t for t, (at, _) in zip(by_zone, zones) if at == node) for node in self.layout.nodes]
        for c in online:
            self.state.threshold[c * self.layout.places:(c + 1) * self.layout.places] = by_zone + by_node
        facts = self.facts()
        for g, size in enumerate(self.sizes):
            hidden = sum(peak(facts, [], c, g) for c in range(self.layout.cpus) if self.state.cpu[c] != ABSENT)
            self.state.mark[g] = cover_mark(size, len(online), hidden)

    def cross(self, boundary):
        state = self.state
        if boundary.verb == "offline":
            state.cpu[boundary.named[0]] = DEAD
        elif boundary.verb == "online":
            state.cpu[boundary.named[0]] = ONLINE
            self.refresh()
        elif boundary.verb == "flush":
            for c in range(self.layout.cpus):
                if state.cpu[c] == ONLINE:
                    for k in range(self.layout.counters):
                        pages, state.diff[c * self.layout.counters + k] = state.diff_at(c, k), 0
                        state.place[k] += pages
                        state.system[self.layout.item_of(k)] += pages


def cut(lines):
    """The phases of lines that count: what stands before each since the one before, and its lanes' lines."""
    phases, before, lanes = [], [], {}
    for line in [*lines, None]:
        if line is not None and line.lane is not None:
            lanes.setdefault(line.lane, []).append(line)
        elif lanes:
            phases.append((before, lanes))
            before, lanes = [line], {}
        else:
            before.append(line)
    return phases


class Checker:
    """Goes through the lines of a history. A fault changes nothing."""

    def __init__(self, header, lines, slow=False):
        self.header, self.slow = header, slow
        self.world = World(header)
        self.left = cut(lines)[::-1]
        self.phases = self.events = 0
        self.history = None
        self.lanes = {}

    def is_open(self):
        return any(not lane.ended for lane in self.lanes.values())

    def event_of(self, words):
        """The caller and the step of an event line, or None where it is none."""
        if len(words) < 2 or words[1] not in History.KINDS:
            return None
        kinds, left = History.KINDS[words[1]], words[2:]
        if len(left) != sum(8 if kind == "diffs" else 1 for kind in kinds):
            return None
        step = [words[1]]
        try:
            for kind in kinds:
                count = 8 if kind == "diffs" else 1
                step.append(self.named(kind, left[:count]))
                left = left[count:]
            return within(words[0], 0, 2**64 - 1), tuple(step)
        except (ValueError, KeyError):
            return None

    def named(self, kind, words):
        layout = self.header.layout
        if kind == "diffs":
            return tuple(within(word, *RANGES["i64"]) for word in words)
        word = words[0]
        if kind == "mode":
            return MODES[word]
        if kind == "state":
            return STATES[word]
        if kind in ("owner", "number") and word == "-":
            return None
        if kind in IDS:
            count = {"cpu": layout.cpus, "owner": layout.cpus, "place": layout.places, "counter": layout.counters,
                     "group": layout.groups, "item": layout.items}[kind]
            return within(word, 0, count - 1)
        return within(word, *RANGES[kind])

    def read(self, line):
        """What a line says: an ignored one nothing, another PHASE, or the caller and the step of an event, or BAD."""
        if is_ignored(line):
            return None
        words = words_of(line)
        if len(line) > MOST_LINE or not is_clean(line):
            return BAD
        return PHASE if words == ["phase"] else self.event_of(words) or BAD

    def fault(self, read):
        """The cause of a line at fault, or None."""
        if read == PHASE:
            if not self.left:
                return "NotInScript"
            return "Incomplete" if self.is_open() else None
        if read == BAD or self.history is None:
            return "BadEvent"
        if not all(holds for _, holds in self.history.conditions(*read)) or not is_narrow(read[1]):
            return "Illegal"
        return None if self.in_script(*read) else "NotInScript"

    def in_script(self, p, step):
        if step[0] == "Split":
            lane = self.lanes.get("k" if step[2] is None else step[2])
            return lane is not None and not lane.begun
        lane = self.lane_of(step[1] if step[0] == "Join" else p)
        return lane.due is None if step[0] == "Join" else lane.makes(step)

    def lane_of(self, p):
        who = self.history.owners[p]
        return self.lanes["k" if who is None else who]

    def step(self, line):
        """The cause of a line at fault, or None. The line is taken where it isn't at fault."""
        read = self.read(line)
        cause = self.fault(read) if read is not None else None
        if cause is None and read == PHASE:
            self.begin()
        elif cause is None and read is not None:
            self.take(*read)
        return cause

    def take(self, p, step):
        self.events += 1
        self.history.take(p, step)
        if step[0] == "Split":
            self.lane_of(step[1]).begun = True
        elif step[0] == "Join":
            self.lane_of(step[1]).ended = True
        else:
            self.lane_of(p).go_on(step)

    def begin(self):
        if self.history is not None:
            self.world.state = self.history.state
        before, lines = self.left.pop()
        for boundary in before:
            self.world.cross(boundary)
        self.phases += 1
        self.history = PhaseHistory(self.world.facts(), self.slow)
        self.lanes = {lane: Lane(self.history, lane, its, self.header) for lane, its in lines.items()}

    def is_complete(self):
        return not self.left and not self.is_open()


def is_narrow(step):
    """Whether some step has these numbers: passes, thresholds and numbers of sets have 32 bits, entries of a list 8."""
    for kind, value in zip(History.KINDS[step[0]], step[1:]):
        if kind in ("u32", "number") and value is not None and value >= 2**32:
            return False
        if kind == "diffs" and any(not -128 <= entry <= 127 for entry in value):
            return False
    return True


def within(word, least, most):
    if not NUMBER.fullmatch(word) or not least <= int(word) <= most:
        raise ValueError
    return int(word)


class Reading:
    """A text as `certify` reads it: its lines, up to the limits."""

    def __init__(self, text, unlimited):
        self.over = not unlimited and len(text) > MOST_BYTES
        whole = text[:MOST_BYTES] if self.over else text
        self.lines = whole.split(b"\n")
        rest = self.lines.pop()
        if rest and not self.over:
            self.lines.append(rest)
        self.most = len(self.lines) if unlimited else MOST_LINES
        self.number = 0

    def __iter__(self):
        for self.number, line in enumerate(self.lines, 1):
            if self.number > self.most:
                raise TooLong
            yield line
        self.number = len(self.lines) + 1
        if self.over:
            raise TooLong


def read_header(lines):
    header = Header()
    for line in lines:
        if header.line(line):
            return header
    raise Fault("BadMagic" if header.rank is None else "MissingGo")


def read_body(lines, header):
    """The lines that count, how many don't, and whether the trace ends with a line `history 1`."""
    body, kept, refused = Body(header), [], 0
    phases = reports = 0
    in_phase = False
    for line in lines:
        if len(line) <= MOST_LINE and words_of(line) == ["history", "1"]:
            return kept, refused, True
        try:
            read = body.line(line)
        except Fault:
            refused += 1
            continue
        if read is not None:
            read.number = len(kept)
            kept.append(read)
            phases += read.lane is not None and not in_phase
            reports += read.verb == "report"
            in_phase = read.lane is not None
            if phases > MOST_PHASES or reports > MOST_REPORTS:
                raise TooLong
    return kept, refused, False


def certify(text, unlimited=False, slow=False):
    """The status and the line that `certify` writes."""
    reading = Reading(text, unlimited)
    lines = iter(reading)
    try:
        try:
            header = read_header(lines)
        except Fault as fault:
            return HEADER, f"line {reading.number}: {fault}\n"
        kept, refused, has_history = read_body(lines, header)
        checker = Checker(header, kept, slow)
        if has_history:
            for line in lines:
                cause = checker.step(line)
                if cause:
                    return NOT_CERTIFIED, f"line {reading.number}: {cause}\n"
        if not has_history or not checker.is_complete():
            return NOT_CERTIFIED, f"line {reading.number}: Incomplete\n"
    except TooLong:
        return TOO_LONG, ""
    return REFUSED if refused else DONE, f"certified phases {checker.phases} events {checker.events}\n"


def main():
    parser = argparse.ArgumentParser(description=__doc__.split("\n")[0])
    parser.add_argument("file", nargs="?")
    parser.add_argument("--unlimited", action="store_true")
    parser.add_argument("--self", action="store_true", dest="slow")
    asked = parser.parse_args()
    with open(asked.file, "rb") if asked.file else sys.stdin.buffer as file:
        status, said = certify(file.read(), asked.unlimited, asked.slow)
    sys.stdout.write(said)
    return status


if __name__ == "__main__":
    sys.exit(main())
