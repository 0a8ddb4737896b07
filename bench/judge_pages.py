"""The page counters (docs/MODEL.md, sections 1 to 10): which histories may begin and go on, and random ones."""
import judge_rules
from judge_rules import ABSENT, DEAD, MOST_VOLUME, ONLINE, at, draw_layout, draw_states, flat, numbers_of_list

MOST_THRESHOLD = 125
MOST_VALUE = 2**60
MARKS = 2**43
ZEROS = (0,) * 8
MOD, INC, DEC = range(3)


class Size:
    """A zone's managed pages and its watermarks."""

    def __init__(self, managed, min_, low, high):
        self.managed, self.min, self.low, self.high = managed, min_, low, high

    def numbers(self):
        return [self.managed, self.min, self.low, self.high]

    def is_valid(self):
        return 1 <= self.managed <= 2**40 and self.min <= self.low <= self.high <= 2**42

    def covers(self, mark, hidden):
        return hidden <= self.low - self.min if mark == 0 else self.high + hidden <= mark


class State:
    """The nine lists."""

    LISTS = ("place", "system", "diff", "threshold", "mark", "cpu", "acknowledged", "threshold_sets", "mark_sets")

    def __init__(self, **lists):
        for name in self.LISTS:
            setattr(self, name, lists[name])

    def lists(self):
        return [getattr(self, name) for name in self.LISTS]

    def copied(self):
        return State(**{name: list(getattr(self, name)) for name in self.LISTS})

    def lengths(self, layout):
        zones = len(layout.zones)
        return [layout.counters, layout.items, layout.cpus * layout.counters, layout.cpus * layout.places, zones,
                layout.cpus, layout.cpus * zones, layout.cpus * layout.places, zones]

    def diff_at(self, c, k):
        return at(self.diff, c * len(self.place) + k, 0)

    def group_at(self, c, j):
        return tuple(self.diff_at(c, 8 * j + i) for i in range(8))

    def places(self):
        return len(self.threshold) // len(self.cpu) if self.cpu else 0

    def threshold_at(self, c, g):
        return at(self.threshold, c * self.places() + g, 0)

    def threshold_sets_at(self, c, g):
        return at(self.threshold_sets, c * self.places() + g, 0)

    def acknowledged_at(self, c, g):
        return at(self.acknowledged, c * len(self.mark) + g, None)

    def cpu_at(self, c):
        return at(self.cpu, c, ABSENT)


class Facts:
    def __init__(self, layout, sizes, base):
        self.layout = layout
        self.sizes = sizes
        self.base = base

    def size_at(self, g):
        return at(self.sizes, g, Size(0, 0, 0, 0))

    def numbers(self):
        sizes = [len(self.sizes), *flat(size.numbers() for size in self.sizes)]
        return [*self.layout.numbers(), *sizes, *flat(map(numbers_of_list, self.base.lists()))]

    def __repr__(self):
        sizes = [size.numbers() for size in self.sizes]
        lists = [f"{name} {items}" for name, items in zip(State.LISTS, self.base.lists())]
        return "\n".join([f"{self.layout}\nsizes {sizes}", *lists])


def opening_peak(facts, c, g):
    """The largest of a CPU's threshold in a zone and of its differentials there, in the base."""
    positions = facts.layout.positions
    return max(facts.base.threshold_at(c, g),
               *(abs(facts.base.diff_at(c, positions * g + n)) for n in range(positions)))


def peak(facts, steps, c, g):
    """The largest threshold that a CPU may still be using in a zone, after these steps, the oldest first."""
    sets, threshold, most = 0, facts.base.threshold_at(c, g), opening_peak(facts, c, g)
    for step in steps:
        if step[:3] == ("SetT", c, g):
            sets, threshold, most = sets + 1, step[3], max(step[3], most)
        elif step[:3] == ("LoadA", c, g) and step[3] == sets:
            most = threshold
    return most


def peak_sum(facts, steps, g):
    """What the CPUs that are online or dead may hide of a zone together."""
    gone = {step[1] for step in steps if step[0] == "SetO"}
    return sum(peak(facts, steps, c, g) for c in range(facts.layout.cpus)
               if c not in gone and facts.base.cpu_at(c) != ABSENT)


def base_conditions(facts):
    layout, base = facts.layout, facts.base
    cpus, zones, places, counters = layout.cpus, len(layout.zones), layout.places, layout.counters
    yield "base: a size for each zone", len(facts.sizes) == zones
    yield "base: the sizes are valid", all(size.is_valid() for size in facts.sizes)
    for name, items, length in zip(State.LISTS, base.lists(), base.lengths(layout)):
        yield f"base: the length of the list {name}", len(items) == length
    yield "base: some CPU is online", any(base.cpu_at(c) == ONLINE for c in range(cpus))
    yield "base: a global value is at most 2^60 in size", all(
        abs(at(base.place, k, 0)) <= MOST_VALUE for k in range(counters))
    yield "base: a system-wide value is at most 2^60 in size", all(
        abs(at(base.system, i, 0)) <= MOST_VALUE for i in range(layout.items))
    yield "base: a differential is at most 125 in size", all(
        abs(base.diff_at(c, k)) <= MOST_THRESHOLD for c in range(cpus) for k in range(counters))
    yield "base: an absent CPU has no differentials", all(
        base.diff_at(c, k) == 0 for c in range(cpus) if base.cpu_at(c) == ABSENT for k in range(counters))
    yield "base: a threshold is at most 125", all(
        base.threshold_at(c, g) <= MOST_THRESHOLD for c in range(cpus) for g in range(places))
    yield "base: an online CPU has thresholds of 1 or more", all(
        base.threshold_at(c, g) >= 1 for c in range(cpus) if base.cpu_at(c) == ONLINE for g in range(places))
    yield "base: a mark is below 2^43", all(at(base.mark, g, 0) < MARKS for g in range(zones))
    yield "base: nothing is acknowledged", all(
        base.acknowledged_at(c, g) is None for c in range(cpus) for g in range(zones))
    yield "base: no threshold was set", all(
        base.threshold_sets_at(c, g) == 0 for c in range(cpus) for g in range(places))
    yield "base: no mark was set", all(at(base.mark_sets, g, 0) == 0 for g in range(zones))
    yield "base: a mark covers", all(
        facts.size_at(g).covers(at(base.mark, g, 0), peak_sum(facts, [], g)) for g in range(zones))


def overstep_of(how, t):
    return {MOD: 0, INC: t // 2, DEC: -(t // 2)}[how]


def differential_after(how, t, found, delta):
    return found + delta if abs(found + delta) <= t else -overstep_of(how, t)


def carried_by(how, t, found, delta):
    return 0 if abs(found + delta) <= t else found + delta + overstep_of(how, t)


class History(judge_rules.History):
    KINDS = {
        "LoadT": ("place", "u32", "u32"),
        "LoadD": ("cpu", "group", "diffs"),
        "Put": ("counter", "diffs", "u32", "i64", "mode"),
        "Miss": ("group", "diffs"),
        "AddG": ("counter", "i64"),
        "AddS": ("item", "i64"),
        "Take": ("cpu", "group", "diffs"),
        "LoadG": ("counter", "i64"),
        "LoadS": ("item", "i64"),
        "LoadM": ("place", "u64", "u32"),
        "LoadO": ("cpu", "state"),
        "SetT": ("cpu", "place", "u32"),
        "SetM": ("place", "u64"),
        "SetO": ("cpu",),
        "SetA": ("place", "u32"),
        "LoadA": ("cpu", "place", "number"),
        "Split": ("u32", "owner"),
        "Join": ("u32",),
    }

    def __init__(self, facts):
        super().__init__(facts)
        self.state = facts.base.copied()
        # the puts, with the CPUs whose volumes they spend
        self.puts = []
        # the steps that peaks go by
        self.settings = []

    def found(self, c, j, p):
        """What a pass that owns CPU c last found of its differentials in a group."""
        for step in reversed(self.own(p)):
            if step[0] in ("LoadD", "Take") and step[1:3] == (c, j):
                return step[3] if step[0] == "LoadD" else ZEROS
            if step[:2] == ("Miss", j):
                return ZEROS
            if step[0] == "Put" and step[1] // 8 == j:
                _, k, w, t, delta, how = step
                return (*w[:k % 8], differential_after(how, t, w[k % 8], delta), *w[k % 8 + 1:])
        return None

    def loaded(self, g, p):
        """The threshold and its number of sets that the last load of the own threshold of a place told."""
        for step in reversed(self.own(p)):
            if step[:2] == ("LoadT", g):
                return step[2:]
        return None

    def since_loaded(self, g, p):
        """A pass's steps since the last load of the own threshold of a place, or all; the newest first."""
        for step in reversed(self.own(p)):
            if step[:2] == ("LoadT", g):
                return
            yield step

    def took(self, c, g, j, p):
        return any(step[:3] == ("Take", c, j) for step in self.since_loaded(g, p))

    def has_put(self, g, p):
        return any(step[0] == "Put" and self.facts.layout.place_of(step[1]) == g for step in self.since_loaded(g, p))

    def carried(self, p):
        """What a pass carries for counters and for items, where that isn't 0."""
        layout = self.facts.layout
        counters, items = {}, {}
        for step in self.own(p):
            moved = []
            if step[0] == "Put":
                _, k, w, t, delta, how = step
                moved = [(k, carried_by(how, t, w[k % 8], delta))]
            elif step[0] == "Take":
                moved = [(8 * step[2] + n, step[3][n]) for n in range(8)]
            elif step[0] == "AddG":
                counters[step[1]] = counters.get(step[1], 0) - step[2]
            elif step[0] == "AddS":
                items[step[1]] = items.get(step[1], 0) - step[2]
            for k, amount in moved:
                counters[k] = counters.get(k, 0) + amount
                items[layout.item_of(k)] = items.get(layout.item_of(k), 0) + amount
        return ({k: amount for k, amount in counters.items() if amount},
                {i: amount for i, amount in items.items() if amount})

    def carries_nothing(self, p):
        return self.carried(p) == ({}, {})

    def spent(self, c, k):
        return sum(abs(step[4]) for who, step in self.puts if (who, step[1]) == (c, k))

    def peak_sum(self, g, *further):
        return peak_sum(self.facts, [*self.settings, *further], g)

    def may_own(self, who):
        if who is not None:
            yield "Split: the CPU is one of the layout", who < self.facts.layout.cpus
            yield "Split: the CPU is online in the base", self.facts.base.cpu_at(who) == ONLINE

    def may_end(self, q):
        yield "Join: it carries nothing", self.carries_nothing(q)

    def meets(self, p, kind, *named):
        yield from getattr(self, "meets_" + kind)(p, self.owner(p), *named)

    def meets_LoadT(self, p, c, g, t, a):
        yield "LoadT: the pass owns a CPU", c is not None
        yield "LoadT: there is such a place", g < self.facts.layout.places
        if c is not None:
            yield "LoadT: the threshold is this", self.state.threshold_at(c, g) == t
            yield "LoadT: it was set so often", self.state.threshold_sets_at(c, g) == a

    def finds_group(self, kind, c, j, w):
        yield f"{kind}: there is such a CPU", c < self.facts.layout.cpus
        yield f"{kind}: there is such a group", j < self.facts.layout.groups
        yield f"{kind}: the differentials are these", self.state.group_at(c, j) == w

    def meets_LoadD(self, p, _, c, j, w):
        return self.finds_group("LoadD", c, j, w)

    def meets_Take(self, p, _, c, j, w):
        return self.finds_group("Take", c, j, w)

    def meets_Put(self, p, c, k, w, t, delta, how):
        yield "Put: the pass owns a CPU", c is not None
        yield "Put: there is such a counter", k < self.facts.layout.counters
        loaded = self.loaded(self.facts.layout.place_of(k), p)
        yield "Put: a threshold was loaded", loaded is not None
        yield "Put: the threshold is the one that was loaded last", loaded is None or loaded[0] == t
        yield "Put: the pass carries nothing", self.carries_nothing(p)
        if c is not None:
            found = self.found(c, k // 8, p)
            yield "Put: a list was found", found is not None
            yield "Put: the list is the one that was found last", found in (None, w)
            yield "Put: the differentials still are these", self.state.group_at(c, k // 8) == w
            yield "Put: the own CPU is online", self.state.cpu_at(c) == ONLINE
            yield "Put: the volume of the CPU allows it", self.spent(c, k) + abs(delta) <= MOST_VOLUME

    def meets_Miss(self, p, c, j, w):
        yield "Miss: the pass owns a CPU", c is not None
        yield "Miss: there is such a group", j < self.facts.layout.groups
        yield "Miss: the list isn't all 0", w != ZEROS
        if c is not None:
            found = self.found(c, j, p)
            yield "Miss: a list was found", found is not None
            yield "Miss: the list is the one that was found last", found in (None, w)
            yield "Miss: the differentials are all 0", self.state.group_at(c, j) == ZEROS

    def meets_AddG(self, p, c, k, amount):
        yield "AddG: there is such a counter", k < self.facts.layout.counters
        yield "AddG: the pass carries so many", self.carried(p)[0].get(k, 0) == amount
        yield "AddG: they aren't 0", amount != 0

    def meets_AddS(self, p, c, i, amount):
        yield "AddS: there is such an item", i < self.facts.layout.items
        yield "AddS: the pass carries so many", self.carried(p)[1].get(i, 0) == amount
        yield "AddS: they aren't 0", amount != 0

    def meets_LoadG(self, p, c, k, v):
        yield "LoadG: there is such a counter", k < self.facts.layout.counters
        yield "LoadG: the global value is this", at(self.state.place, k, 0) == v

    def meets_LoadS(self, p, c, i, v):
        yield "LoadS: there is such an item", i < self.facts.layout.items
        yield "LoadS: the system-wide value is this", at(self.state.system, i, 0) == v

    def meets_LoadM(self, p, c, g, m, a):
        yield "LoadM: there is such a zone", g < len(self.facts.layout.zones)
        yield "LoadM: the mark is this", at(self.state.mark, g, 0) == m
        yield "LoadM: it was set so often", at(self.state.mark_sets, g, 0) == a

    def meets_LoadO(self, p, _, c, x):
        yield "LoadO: there is such a CPU", c < self.facts.layout.cpus
        yield "LoadO: the state is this", self.state.cpu_at(c) == x

    def meets_SetT(self, p, owner, c, g, t):
        yield "SetT: the pass is a control pass", owner is None
        yield "SetT: there is such a CPU", c < self.facts.layout.cpus
        yield "SetT: there is such a place", g < self.facts.layout.places
        yield "SetT: the CPU is online", self.state.cpu_at(c) == ONLINE
        yield "SetT: the threshold is at least 1", t >= 1
        yield "SetT: the threshold is at most 125", t <= MOST_THRESHOLD
        if g < len(self.facts.layout.zones):
            yield "SetT: the mark covers", self.facts.size_at(g).covers(
                self.state.mark[g], self.peak_sum(g, ("SetT", c, g, t)))

    def meets_SetM(self, p, owner, g, m):
        yield "SetM: the pass is a control pass", owner is None
        yield "SetM: there is such a zone", g < len(self.facts.layout.zones)
        yield "SetM: the mark is below 2^43", m < MARKS
        yield "SetM: the mark covers", self.facts.size_at(g).covers(m, self.peak_sum(g))

    def meets_SetO(self, p, owner, c):
        yield "SetO: the pass is a control pass", owner is None
        yield "SetO: there is such a CPU", c < self.facts.layout.cpus
        yield "SetO: the CPU is dead", self.state.cpu_at(c) == DEAD
        yield "SetO: its differentials are 0", all(
            self.state.diff_at(c, k) == 0 for k in range(self.facts.layout.counters))

    def meets_SetA(self, p, c, g, a):
        yield "SetA: the pass owns a CPU", c is not None
        yield "SetA: there is such a zone", g < len(self.facts.layout.zones)
        loaded = self.loaded(g, p)
        yield "SetA: a threshold was loaded", loaded is not None
        yield "SetA: the number is the one that was loaded last", loaded is None or loaded[1] == a
        if c is not None:
            yield "SetA: each group of the zone was taken since", all(
                self.took(c, g, j, p) for j in self.facts.layout.groups_of(g))
        yield "SetA: nothing was put there since", not self.has_put(g, p)

    def meets_LoadA(self, p, owner, c, g, x):
        yield "LoadA: the pass is a control pass", owner is None
        yield "LoadA: there is such a CPU", c < self.facts.layout.cpus
        yield "LoadA: there is such a zone", g < len(self.facts.layout.zones)
        yield "LoadA: this was acknowledged last", self.state.acknowledged_at(c, g) == x

    def effect(self, who, kind, *named):
        state, counters, places = self.state, self.facts.layout.counters, self.facts.layout.places
        step = (kind, *named)
        if kind == "Put" and who is not None:
            k, w, t, delta, how = named
            state.diff[who * counters + k] = differential_after(how, t, w[k % 8], delta)
            self.puts.append((who, step))
        elif kind == "AddG":
            state.place[named[0]] += named[1]
        elif kind == "AddS":
            state.system[named[0]] += named[1]
        elif kind == "Take":
            for n in range(8):
                state.diff[named[0] * counters + 8 * named[1] + n] = 0
        elif kind == "SetT":
            state.threshold[named[0] * places + named[1]] = named[2]
            state.threshold_sets[named[0] * places + named[1]] += 1
        elif kind == "SetM":
            state.mark[named[0]] = named[1]
            state.mark_sets[named[0]] += 1
        elif kind == "SetO":
            state.cpu[named[0]] = ABSENT
        elif kind == "SetA" and who is not None:
            state.acknowledged[who * len(state.mark) + named[0]] = named[1]
        if kind in ("SetT", "SetO", "LoadA"):
            self.settings.append(step)

    def told(self, p, step):
        kind, state = step[0], self.state
        c = self.owner(p) or 0
        if kind == "LoadT":
            return kind, step[1], state.threshold_at(c, step[1]), state.threshold_sets_at(c, step[1])
        if kind in ("LoadD", "Take"):
            return *step[:3], state.group_at(*step[1:3])
        if kind == "Put":
            return *step[:2], state.group_at(c, step[1] // 8), *step[3:]
        if kind == "AddG":
            return kind, step[1], self.carried(p)[0].get(step[1], 0)
        if kind == "AddS":
            return kind, step[1], self.carried(p)[1].get(step[1], 0)
        if kind == "LoadG":
            return kind, step[1], at(state.place, step[1], 0)
        if kind == "LoadS":
            return kind, step[1], at(state.system, step[1], 0)
        if kind == "LoadM":
            return kind, step[1], at(state.mark, step[1], 0), at(state.mark_sets, step[1], 0)
        if kind == "LoadO":
            return kind, step[1], state.cpu_at(step[1])
        if kind == "LoadA":
            return *step[:3], state.acknowledged_at(*step[1:3])
        if kind == "SetA":
            return *step[:2], (self.loaded(step[1], p) or (0, step[2]))[1]
        return step


class Maker(judge_rules.Maker):
    def count(self, kind):
        layout = self.history.facts.layout
        return {"cpu": layout.cpus, "place": self.dice.choice([layout.places, len(layout.zones)]),
                "counter": layout.counters, "item": layout.items, "group": layout.groups}[kind]

    def owners(self):
        facts = self.history.facts
        return [c for c in range(facts.layout.cpus) if facts.base.cpu[c] == ONLINE]

    def put_down(self, p):
        counters, items = self.history.carried(p)
        carried = [("AddG", *pair) for pair in counters.items()] + [("AddS", *pair) for pair in items.items()]
        return self.dice.choice(carried) if carried else None

    def plan(self, p):
        return self.control_plan(p) if self.history.owner(p) is None else self.cpu_plan(self.history.owner(p), p)

    def any_group(self):
        """Any group of any CPU, most often one that hides something."""
        dice, layout = self.dice, self.history.facts.layout
        groups = [(c, j) for c in range(layout.cpus) for j in range(layout.groups)]
        hiding = [group for group in groups if self.history.state.group_at(*group) != ZEROS]
        return dice.choice(hiding if hiding and dice.random() < 0.8 else groups)

    def looked_at_group(self):
        """A group that a pass has found and another may take, if there is one."""
        history = self.history
        looked_at = [(history.owner(q), j) for q in history.living() if history.owner(q) is not None
                     for j in range(history.facts.layout.groups)
                     if history.found(history.owner(q), j, q) not in (None, ZEROS)]
        return self.dice.choice(looked_at) if looked_at else self.any_group()

    def read_plan(self):
        dice, layout = self.dice, self.history.facts.layout
        return [dice.choice([
            ("Take", *self.looked_at_group()), ("Take", *self.looked_at_group()),
            ("LoadG", dice.randrange(layout.counters)), ("LoadS", dice.randrange(layout.items)),
            ("LoadM", dice.randrange(len(layout.zones))), ("LoadO", dice.randrange(layout.cpus)),
            ("LoadO", dice.randrange(layout.cpus)),
            ("LoadD", *self.any_group()), ("Take", *self.any_group())])]

    def cpu_plan(self, c, p):
        dice, layout, history = self.dice, self.history.facts.layout, self.history
        missed = [("Miss", j) for j in range(layout.groups)
                  if history.found(c, j, p) not in (None, ZEROS) and history.state.group_at(c, j) == ZEROS]
        if missed and dice.random() < 0.8:
            return [dice.choice(missed)]
        k = dice.randrange(layout.counters)
        put = ("Put", k)
        load_group, load = ("LoadD", c, k // 8), ("LoadT", layout.place_of(k))
        change = [load, load_group, put, *[put] * dice.choice([0, 0, 1, 3])]
        g = dice.randrange(len(layout.zones))
        fold = [("LoadT", g), *(("Take", c, j) for j in layout.groups_of(g)), ("SetA", g)]
        late = [*fold[:-1], ("Put", layout.positions * g + dice.randrange(layout.positions)), fold[-1]]
        if dice.random() < 0.15:
            fold.insert(dice.randint(1, len(fold) - 1), dice.choice([("LoadT", g), put, load_group]))
        if dice.random() < 0.2:
            fold.pop(dice.randrange(len(fold)))
        odd = [dice.choice([put, ("Miss", k // 8), ("SetA", g), ("LoadA", c, g), ("SetT", c, g), ("SetM", g),
                            ("Miss", k // 8), ("SetO", dice.randrange(layout.cpus)), ("AddG", k),
                            ("AddS", dice.randrange(layout.items))])]
        return list(dice.choice([change, change, change, [put], [put], [load], [load_group], fold, fold, fold, late,
                                 self.read_plan(), self.read_plan(), odd]))

    def control_plan(self, p):
        dice, layout, history = self.dice, self.history.facts.layout, self.history
        cpus, zones = range(layout.cpus), range(len(layout.zones))
        g = dice.choice(zones)
        online = [c for c in cpus if history.state.cpu_at(c) == ONLINE]
        set_all = [*(("LoadA", c, g) for c in online), ("LoadM", g), ("SetM", g), *(("SetT", c, g) for c in online)]
        plans = [set_all, [("SetT", dice.choice(online), dice.randrange(layout.places))],
                 [("SetM", g)], [("SetM", g), ("SetT", dice.choice(online), g)],
                 [("LoadA", dice.choice(cpus), g)],
                 [("LoadA", dice.choice(online), g), ("SetT", dice.choice(online), g)],
                 self.read_plan(), self.read_plan()]
        dead = [c for c in cpus if history.state.cpu_at(c) == DEAD]
        if dead:
            c = dice.choice(dead)
            burial = [("Take", c, j) for j in range(layout.groups) if history.state.group_at(c, j) != ZEROS]
            plans += [[*burial, ("SetO", c)], [*burial, ("SetO", c)], [("SetO", c)]]
        if dice.random() < 0.1:
            k = dice.randrange(layout.counters)
            plans = [[dice.choice([("LoadT", g), ("Put", k), ("Miss", k // 8), ("SetA", g), ("SetO", dice.choice(cpus)),
                                   ("AddG", k), ("SetT", dice.choice(cpus), g)])]]
        return list(dice.choice(plans))

    def granted(self, p, kind, *named):
        history = self.history
        owner = history.owner(p) or 0
        if kind == "Put":
            return self.put(p, owner, *named)
        if kind == "Miss":
            found = history.found(owner, named[0], p)
            if found is None or self.dice.random() < 0.1:
                found = self.dice.choice([ZEROS, (1, *ZEROS[1:])])
            return kind, *named, found
        if kind == "SetT":
            return kind, *named, self.threshold(*named)
        if kind == "SetM":
            return kind, *named, self.mark(*named)
        if kind == "SetO":
            return kind, *named
        empty = {"LoadT": (0, 0), "LoadM": (0, 0), "LoadD": (ZEROS,), "Take": (ZEROS,)}.get(kind, (0,))
        return history.told(p, (kind, *named, *empty))

    def put(self, p, c, k):
        dice, history = self.dice, self.history
        w = history.found(c, k // 8, p)
        if w is None or dice.random() < 0.1:
            w = history.state.group_at(c, k // 8)
        g = history.facts.layout.place_of(k)
        t = (history.loaded(g, p) or (history.state.threshold_at(c, g),))[0]
        found, left = w[k % 8], max(MOST_VOLUME - history.spent(c, k), 0)
        delta = dice.choice([1, -1, 1, -1, 2, -2, t - found, -t - found, t + 1 - found, -t - 1 - found, -found,
                             dice.randint(-t, t), dice.randint(-1000, 1000), 0])
        if dice.random() < 0.08:
            delta = dice.choice([left, -left, left // 2, -left // 2, left + 1, -left - 1, 2**63 - 1, -(2**63)])
        return "Put", k, w, t, delta, dice.randrange(3)

    def room(self, c, g):
        """The largest threshold that a mark of a zone allows a CPU, whatever its peak."""
        history = self.history
        size, mark = history.facts.size_at(g), at(history.state.mark, g, 0)
        most = size.low - size.min if mark == 0 else mark - size.high
        return most - history.peak_sum(g) + peak(history.facts, history.settings, c, g)

    def threshold(self, c, g):
        dice = self.dice
        if g >= len(self.history.facts.layout.zones) or dice.random() < 0.3:
            return dice.choice([1, 2, MOST_THRESHOLD, dice.randint(1, MOST_THRESHOLD)])
        room = self.room(c, g)
        drawn = dice.choice([room, room, room + 1, dice.randint(1, max(room, 1)), 1])
        return min(max(drawn, 1), MOST_THRESHOLD)

    def mark(self, g):
        dice = self.dice
        least = self.history.facts.size_at(g).high + self.history.peak_sum(g)
        return max(0, dice.choice([least, least, least - 1, least + dice.randrange(130), least + MOST_THRESHOLD, 0,
                                   MARKS - 1]))


def draw_sizes(dice, zones):
    sizes = []
    for _ in range(zones):
        low = dice.randrange(300)
        min_ = dice.randint(max(low - 20, 0), low)
        sizes.append(Size(dice.choice([1, 2**40, dice.randint(1, 2**30)]), min_, low, low + dice.randrange(50)))
    return sizes


def draw_facts(dice):
    layout = draw_layout(dice)
    cpus = draw_states(dice, layout.cpus)
    counters, places, zones = layout.counters, layout.places, len(layout.zones)

    def value():
        return dice.choice([0, 0, 1, -1, dice.randint(-10**6, 10**6), MOST_VALUE, -MOST_VALUE])

    def diff(c):
        small = dice.choice([0, 0, 0, 0, 0, 1, -1, dice.randint(-125, 125)])
        return 0 if cpus[c] == ABSENT else small

    calm = [dice.random() < 0.3 for _ in range(layout.cpus)]
    base = State(
        place=[value() for _ in range(counters)],
        system=[value() for _ in range(layout.items)],
        diff=[0 if calm[c] else diff(c) for c in range(layout.cpus) for _ in range(counters)],
        threshold=[dice.choice([0, 0, 5]) if cpus[c] != ONLINE else dice.choice([1, 2, 3, 10, 42, MOST_THRESHOLD])
                   for c in range(layout.cpus) for _ in range(places)],
        mark=[0] * zones,
        cpu=cpus,
        acknowledged=[None] * (layout.cpus * zones),
        threshold_sets=[0] * (layout.cpus * places),
        mark_sets=[0] * zones)
    facts = Facts(layout, draw_sizes(dice, zones), base)
    # marks that cover, most often just so
    for g, size in enumerate(facts.sizes):
        hidden = peak_sum(facts, [], g)
        if dice.random() < 0.5:
            base.mark[g] = size.high + hidden + dice.choice([0, 0, 1, 7, 100])
        else:
            wider = max(0, hidden - (size.low - size.min)) + dice.choice([0, 0, 1, 7, 100])
            size.low, size.high = size.low + wider, size.high + wider
    if dice.random() < 0.42:
        spoil_base(dice, facts)
    return facts


def spoil_base(dice, facts):
    base = facts.base
    c, g = dice.randrange(facts.layout.cpus), dice.randrange(len(facts.layout.zones))
    size = facts.sizes[g]
    place = dice.randrange(facts.layout.places)
    k = dice.randrange(facts.layout.counters)
    cell = c * facts.layout.places + place
    too_large = dice.choice([-1, 1]) * (MOST_VALUE + 1)
    way = dice.randrange(27)
    if way < 9:
        items = base.lists()[way]
        entry = {"cpu": ABSENT, "acknowledged": None}.get(State.LISTS[way], 0)
        items.append(entry) if dice.random() < 0.5 else items.pop()
    elif way == 9:
        facts.sizes.append(size) if dice.random() < 0.5 else facts.sizes.pop()
    elif way == 10:
        size.managed = dice.choice([0, 2**40 + 1])
    elif way == 11:
        base.mark[g] = MARKS - 1
        size.high = dice.choice([2**42, 2**42 + 1, size.low - 1 if size.low else 2**42 + 1])
    elif way == 12:
        # of watermarks that don't rise the distance is 0
        size.min = size.low + 1
        base.mark[g] = base.mark[g] or size.high + peak_sum(facts, [], g)
    elif way == 13:
        base.cpu[:] = [dice.choice([DEAD, DEAD, ABSENT]) for _ in base.cpu]
    elif way == 14:
        base.place[k] = too_large
    elif way == 15:
        base.system[dice.randrange(facts.layout.items)] = too_large
    elif way in (16, 17):
        base.diff[c * facts.layout.counters + k] = dice.choice([-126, 126, -128, 127, 2**63 - 1, -(2**63), 125])
    elif way == 18:
        base.cpu[c] = ABSENT
    elif way in (19, 20):
        base.threshold[cell] = dice.choice([126, 126, 2**32 - 1, 125]) if way == 19 else 0
    elif way == 21:
        base.mark[g] = dice.choice([MARKS, MARKS - 1, 2**64 - 1])
    elif way == 22:
        base.acknowledged[dice.randrange(len(base.acknowledged))] = dice.choice([0, 1])
    elif way == 23:
        base.threshold_sets[cell] = 1
    elif way == 24:
        base.mark_sets[g] = 1
    else:
        hidden = peak_sum(facts, [], g)
        if dice.random() < 0.5:
            base.mark[g] = size.high + hidden - 1
        elif hidden:
            base.mark[g], size.min = 0, max(size.low - hidden + 1, 0)
    if way in (16, 17, 19, 20):
        cover(facts)


def cover(facts):
    """Marks that cover, whatever the CPUs hide."""
    for g, size in enumerate(facts.sizes):
        facts.base.mark[g] = size.high + peak_sum(facts, [], g)
