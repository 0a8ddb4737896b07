"""The percpu counters (docs/MODEL.md, section 15): which histories may begin and go on, and random ones."""
import judge_rules
from judge_rules import ABSENT, DEAD, MOST_VOLUME, ONLINE, at, draw_layout, draw_states, numbers_of_list

MOST_BATCH = 2**16
MOST_COUNT = 2**60


class Facts:
    def __init__(self, layout, cpus, batch, count, local):
        self.layout = layout
        self.cpus = cpus
        self.batch = batch
        self.count = count
        # by CPU and then counter
        self.local = local

    def counters(self):
        return len(self.batch)

    def numbers(self):
        lists = [self.cpus, self.batch, self.count, self.local]
        return [*self.layout.numbers(), *judge_rules.flat(map(numbers_of_list, lists))]

    def __repr__(self):
        return f"{self.layout}\nstates {self.cpus}\nbatches {self.batch}\ncounts {self.count}\nlocals {self.local}"


def base_conditions(facts):
    cpus, counters = facts.layout.cpus, facts.counters()
    cells = [(c, j, at(facts.local, c * counters + j, 0)) for c in range(cpus) for j in range(counters)]
    yield "base: a state for each CPU", len(facts.cpus) == cpus
    yield "base: a shared part for each counter", len(facts.count) == counters
    yield "base: a local part for each CPU and counter", len(facts.local) == cpus * counters
    yield "base: some CPU is online", ONLINE in [at(facts.cpus, c, ABSENT) for c in range(cpus)]
    yield "base: a batch is at least 1", all(batch >= 1 for batch in facts.batch)
    yield "base: a batch is at most 2^16", all(batch <= MOST_BATCH for batch in facts.batch)
    yield "base: the size of a shared part is at most 2^60", all(
        abs(at(facts.count, j, 0)) <= MOST_COUNT for j in range(counters))
    yield "base: a local part is within its batch", all(abs(v) <= facts.batch[j] for _, j, v in cells)
    yield "base: an absent CPU has no local part", all(
        v == 0 for c, _, v in cells if at(facts.cpus, c, ABSENT) == ABSENT)


class History(judge_rules.History):
    KINDS = {
        "AddL": ("counter", "i64"),
        "LoadL": ("counter", "cpu", "i64"),
        "LoadC": ("counter", "i64"),
        "Won": ("counter",),
        "Missed": ("counter",),
        "TakeL": ("counter", "cpu", "i64"),
        "AddC": ("counter", "i64"),
        "Unlock": ("counter",),
        "Split": ("u32", "owner"),
        "Join": ("u32",),
    }

    def __init__(self, facts):
        super().__init__(facts)
        self.count = list(facts.count)
        self.local = list(facts.local)
        self.held = [False] * facts.counters()
        # (the CPU whose volume it is, counter, size) of each amount that was added
        self.amounts = []

    def local_at(self, c, j):
        return at(self.local, c * self.facts.counters() + j, 0)

    def count_at(self, j):
        return at(self.count, j, 0)

    def held_at(self, j):
        return at(self.held, j, False)

    def cpu_at(self, c):
        return at(self.facts.cpus, c, ABSENT)

    def holds_lock(self, j, p):
        """Whether a pass won the lock and hasn't given it back since."""
        for step in reversed(self.own(p)):
            if step[0] in ("Won", "Unlock") and step[1] == j:
                return step[0] == "Won"
        return False

    def carried(self, j, p):
        """The local parts that a pass took since it last added to the shared part."""
        carried = 0
        for step in reversed(self.own(p)):
            if step[:2] == ("AddC", j):
                break
            if step[:2] == ("TakeL", j):
                carried += step[3]
        return carried

    def spent(self, c, j):
        return sum(size for who, counter, size in self.amounts if (who, counter) == (c, j))

    def may_own(self, who):
        if who is not None:
            yield "Split: the CPU is one of the layout", who < self.facts.layout.cpus
            yield "Split: the CPU is online", self.cpu_at(who) == ONLINE

    def may_end(self, q):
        yield "Join: it holds no lock", not any(self.holds_lock(j, q) for j in range(self.facts.counters()))

    def meets(self, p, kind, *named):
        j = named[0]
        c = self.owner(p)
        yield f"{kind}: there is such a counter", j < self.facts.counters()
        if kind == "AddL":
            amount = named[1]
            yield "AddL: the pass owns a CPU", c is not None
            if c is not None:
                yield "AddL: the local part stays within the batch", (
                    abs(self.local_at(c, j) + amount) <= at(self.facts.batch, j, 0))
                yield "AddL: the volume of the CPU allows it", self.spent(c, j) + abs(amount) <= MOST_VOLUME
        elif kind == "LoadL":
            yield "LoadL: there is such a CPU", named[1] < self.facts.layout.cpus
            yield "LoadL: the local part is this", self.local_at(named[1], j) == named[2]
        elif kind == "LoadC":
            yield "LoadC: the shared part is this", self.count_at(j) == named[1]
        elif kind == "Won":
            yield "Won: the lock is free", not self.held_at(j)
        elif kind == "Missed":
            yield "Missed: the lock is held", self.held_at(j)
        elif kind == "TakeL":
            yield "TakeL: there is such a CPU", named[1] < self.facts.layout.cpus
            yield "TakeL: the pass holds the lock", self.holds_lock(j, p)
            if c is None:
                yield "TakeL: the control pass takes of a dead CPU", self.cpu_at(named[1]) == DEAD
            else:
                yield "TakeL: another pass takes of the own CPU", named[1] == c
            yield "TakeL: the local part is this", self.local_at(named[1], j) == named[2]
        elif kind == "AddC":
            yield "AddC: the pass holds the lock", self.holds_lock(j, p)
            amount = named[1] - self.carried(j, p)
            if c is None:
                yield "AddC: the control pass adds what it carries", amount == 0
            else:
                yield "AddC: the volume of the CPU allows it", self.spent(c, j) + abs(amount) <= MOST_VOLUME
        else:
            yield "Unlock: the pass holds the lock", self.holds_lock(j, p)
            yield "Unlock: the pass carries nothing", self.carried(j, p) == 0

    def take(self, p, step):
        kind, *named = step
        if kind == "AddL":
            self.amounts.append((self.owner(p), named[0], abs(named[1])))
        elif kind == "AddC":
            self.amounts.append((self.owner(p), named[0], abs(named[1] - self.carried(named[0], p))))
        super().take(p, step)

    def effect(self, who, kind, *named):
        cell = named[0] + (who or 0) * self.facts.counters()
        if kind == "AddL" and who is not None:
            self.local[cell] += named[1]
        elif kind == "TakeL":
            self.local[named[1] * self.facts.counters() + named[0]] = 0
        elif kind == "AddC":
            self.count[named[0]] += named[1]
        elif kind in ("Won", "Unlock"):
            self.held[named[0]] = kind == "Won"

    def told(self, p, step):
        kind, j = step[:2]
        if kind in ("LoadL", "TakeL"):
            return *step[:3], self.local_at(step[2], j)
        if kind == "LoadC":
            return kind, j, self.count_at(j)
        if kind == "AddC":
            return kind, j, self.carried(j, p)
        return step


class Maker(judge_rules.Maker):
    def count(self, kind):
        return self.history.facts.layout.cpus if kind == "cpu" else self.history.facts.counters()

    def owners(self):
        facts = self.history.facts
        return [c for c in range(facts.layout.cpus) if facts.cpus[c] == ONLINE]

    def put_down(self, p):
        """What it carries goes to the shared part, and then the lock is given back."""
        for j in range(self.history.facts.counters()):
            if self.history.holds_lock(j, p) and self.dice.random() < 0.8:
                carried = self.history.carried(j, p)
                return ("AddC", j, carried) if carried else ("Unlock", j)
        return None

    def plan(self, p):
        dice, facts, history = self.dice, self.history.facts, self.history
        j = dice.randrange(max(facts.counters(), 1))
        owner = history.owner(p)
        dead = [c for c in range(facts.layout.cpus) if history.cpu_at(c) == DEAD]
        whose = dice.choice(dead or [0]) if owner is None else owner
        lock = ("Missed" if history.held_at(j) else "Won", j)
        held = [i for i in range(facts.counters()) if history.holds_lock(i, p)]
        if held and dice.random() < 0.6:
            # under the lock
            i = dice.choice(held)
            return [dice.choice([("TakeL", i, whose), ("TakeL", i, whose), ("AddC", i), ("AddC", i), ("Unlock", i),
                                 ("LoadL", i, dice.randrange(facts.layout.cpus)), ("LoadC", i)])]
        reads = [("LoadC", j), ("LoadL", j, dice.randrange(facts.layout.cpus))]
        plans = [[lock], [lock], [lock, ("TakeL", j, whose), ("AddC", j)], [dice.choice(reads)], [dice.choice(reads)]]
        if owner is not None:
            plans += [[("AddL", j)]] * 4
        if dice.random() < 0.1:
            return [(dice.choice(["Won", "Missed"]), j)]
        if dice.random() < 0.05:
            plans += [[dice.choice([("AddL", j), ("Unlock", j), ("TakeL", j, whose), ("AddC", j)])]] * 9
        return list(dice.choice(plans))

    def granted(self, p, kind, *named):
        dice, history = self.dice, self.history
        j = named[0]
        if kind in ("Won", "Missed", "Unlock"):
            return kind, j
        if kind in ("TakeL", "LoadL"):
            return history.told(p, (kind, j, named[1], 0))
        if kind == "LoadC":
            return history.told(p, (kind, j, 0))
        owner = history.owner(p)
        left = max(MOST_VOLUME - history.spent(owner or 0, j), 0)
        if kind == "AddC":
            extra = dice.choice([0, 0, 1, -1, 50, -70000, left, -left, left + 1, -left - 1, left // 2])
            return kind, j, history.carried(j, p) + (0 if owner is None and dice.random() < 0.9 else extra)
        batch, found = at(history.facts.batch, j, 1), history.local_at(owner or 0, j)
        amount = dice.choice([0, 1, -1, 2, -3, batch - found, -batch - found, batch - found + 1, -batch - found - 1,
                              dice.randint(-batch, batch) - found])
        return kind, j, amount


def draw_facts(dice):
    layout = draw_layout(dice)
    cpus = draw_states(dice, layout.cpus)
    counters = dice.choice([1, 1, 2, 3])
    batch = [dice.choice([1, 2, 5, 32, MOST_BATCH]) for _ in range(counters)]
    count = [dice.choice([0, 0, 1, -1, dice.randint(-10**6, 10**6), MOST_COUNT, -MOST_COUNT]) for _ in range(counters)]
    local = [0 if cpus[c] == ABSENT else dice.choice([0, 0, batch[j], -batch[j], dice.randint(-batch[j], batch[j])])
             for c in range(layout.cpus) for j in range(counters)]
    facts = Facts(layout, cpus, batch, count, local)
    if dice.random() < 0.2:
        spoil_base(dice, facts)
    elif dice.random() < 0.03:
        facts.batch, facts.count, facts.local = [], [], []
    return facts


def spoil_base(dice, facts):
    way = dice.randrange(9)
    j = dice.randrange(facts.counters())
    c = dice.randrange(facts.layout.cpus)
    cell = c * facts.counters() + j
    if way < 3:
        items = [facts.cpus, facts.count, facts.local][way]
        items.append(0 if way else ABSENT) if dice.random() < 0.5 else items.pop()
    elif way == 3:
        facts.cpus[:] = [dice.choice([DEAD, DEAD, ABSENT]) for _ in facts.cpus]
    elif way == 4:
        facts.cpus[c] = ABSENT
    elif way == 5:
        facts.batch[j] = 0
        for d in range(facts.layout.cpus):
            facts.local[d * facts.counters() + j] = 0
    elif way == 6:
        facts.batch[j] = dice.choice([MOST_BATCH + 1, 2**32 - 1])
    elif way == 7:
        facts.count[j] = dice.choice([MOST_COUNT + 1, -MOST_COUNT - 1, -(2**63), 2**63 - 1])
    else:
        facts.local[cell] = dice.choice([-1, 1]) * (facts.batch[j] + 1)
