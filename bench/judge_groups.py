"""A tree of groups (docs/MODEL.md, section 23): which histories may begin and go on, and random ones."""
import judge_rules
from judge_rules import MOST_VOLUME, at, numbers_of_list

MOST_IN_BASE = 2**60
MOST_GROUPS = 64
MOST_CPUS = 64


class Facts:
    def __init__(self, parents, cpus, value, up, pending):
        self.parents = parents
        self.cpus = cpus
        self.value = value
        self.up = up
        # by CPU and then group
        self.pending = pending

    def groups(self):
        return len(self.parents)

    def in_subtree(self, g, x):
        """Whether group x is g, or its parent is in the subtree of g."""
        while x is not None and x != g:
            parent = self.parents[x]
            x = parent if parent is not None and parent < x else None
        return x == g

    def numbers(self):
        lists = [self.value, self.up, self.pending]
        return [self.cpus, *numbers_of_list(self.parents), *judge_rules.flat(map(numbers_of_list, lists))]

    def __repr__(self):
        return (f"{self.cpus} CPUs, parents {self.parents}\nvalues {self.value}\nup {self.up}\n"
                f"pending {self.pending}")


def base_conditions(facts):
    groups, cpus = facts.groups(), facts.cpus
    yield "base: some group", groups >= 1
    yield "base: at most 64 groups", groups <= MOST_GROUPS
    yield "base: some CPU", cpus >= 1
    yield "base: at most 64 CPUs", cpus <= MOST_CPUS
    above = all(parent is None or parent < g for g, parent in enumerate(facts.parents))
    yield "base: parents stand above their children", above
    yield "base: a value for each group", len(facts.value) == groups
    yield "base: a word from the children for each group", len(facts.up) == groups
    yield "base: a word for each CPU and group", len(facts.pending) == cpus * groups
    if above:
        sizes = [sum(abs(at(facts.pending, c * groups + x, 0)) for c in range(cpus))
                 + abs(at(facts.up, x, 0)) for x in range(groups)]
        yield "base: what stands in a subtree is at most 2^60 in sum", all(
            abs(at(facts.value, g, 0)) + sum(sizes[x] for x in range(groups) if facts.in_subtree(g, x)) <= MOST_IN_BASE
            for g in range(groups))


class History(judge_rules.History):
    KINDS = {
        "AddP": ("group", "i64"),
        "TakeP": ("cpu", "group", "i64"),
        "TakeU": ("group", "i64"),
        "AddV": ("group", "i64"),
        "AddU": ("group", "i64"),
        "LoadV": ("group", "i64"),
        "Split": ("u32", "owner"),
        "Join": ("u32",),
    }

    def __init__(self, facts):
        super().__init__(facts)
        self.value = list(facts.value)
        self.up = list(facts.up)
        self.pending = list(facts.pending)

    def pending_at(self, c, g):
        return at(self.pending, c * self.facts.groups() + g, 0)

    def carried(self, g, p):
        """What a pass carries for the value of a group."""
        carried = 0
        for step in self.own(p):
            if step[0] == "TakeP" and step[2] == g:
                carried += step[3]
            elif step[:2] == ("TakeU", g):
                carried += step[2]
            elif step[:2] == ("AddV", g):
                carried -= step[2]
        return carried

    def carried_up(self, g, p):
        """The amounts that a pass carries for the word that is pending for a group from its children."""
        amounts = []
        for step in self.own(p):
            if step[0] == "AddV" and self.facts.parents[step[1]] == g:
                amounts.append(step[2])
            elif step[:2] == ("AddU", g):
                amounts.remove(step[2])
        return amounts

    def spent(self, c, g):
        return sum(abs(step[2]) for _, who, step in self.events if step[:2] == ("AddP", g) and who == c)

    def may_own(self, who):
        if who is not None:
            yield "Split: the CPU is one of the tree", who < self.facts.cpus

    def may_end(self, q):
        groups = range(self.facts.groups())
        yield "Join: it carries nothing for a value", all(self.carried(g, q) == 0 for g in groups)
        yield "Join: it carries nothing for a parent", not any(self.carried_up(g, q) for g in groups)

    def meets(self, p, kind, *named):
        g, v = named[-2:]
        c = self.owner(p)
        yield f"{kind}: there is such a group", g < self.facts.groups()
        if kind == "AddP":
            yield "AddP: the pass owns a CPU", c is not None
            if c is not None:
                yield "AddP: the volume of the CPU allows it", self.spent(c, g) + abs(v) <= MOST_VOLUME
        elif kind == "TakeP":
            yield "TakeP: there is such a CPU", named[0] < self.facts.cpus
            yield "TakeP: the word is this", self.pending_at(named[0], g) == v
        elif kind == "TakeU":
            yield "TakeU: the word is this", at(self.up, g, 0) == v
        elif kind == "AddV":
            yield "AddV: the pass carries so many", self.carried(g, p) == v
            yield "AddV: they aren't 0", v != 0
        elif kind == "AddU":
            yield "AddU: the pass carries such an amount", v in self.carried_up(g, p)
            yield "AddU: it isn't 0", v != 0
        else:
            yield "LoadV: the value is this", at(self.value, g, 0) == v

    def effect(self, who, kind, *named):
        g, v = named[-2:] if len(named) > 1 else (None, None)
        if kind == "AddP" and who is not None:
            self.pending[who * self.facts.groups() + g] += v
        elif kind == "TakeP":
            self.pending[named[0] * self.facts.groups() + g] = 0
        elif kind == "TakeU":
            self.up[g] = 0
        elif kind == "AddV":
            self.value[g] += v
        elif kind == "AddU":
            self.up[g] += v

    def told(self, p, step):
        kind = step[0]
        if kind == "TakeP":
            return *step[:3], self.pending_at(*step[1:3])
        if kind in ("TakeU", "LoadV"):
            return *step[:2], at(self.up if kind == "TakeU" else self.value, step[1], 0)
        if kind == "AddV":
            return *step[:2], self.carried(step[1], p)
        return step


class Maker(judge_rules.Maker):
    def count(self, kind):
        return self.history.facts.cpus if kind == "cpu" else self.history.facts.groups()

    def owners(self):
        return range(self.history.facts.cpus)

    def put_down(self, p):
        groups = range(self.history.facts.groups())
        carried = [("AddV", g, self.history.carried(g, p)) for g in groups]
        carried += [("AddU", g, amount) for g in groups for amount in self.history.carried_up(g, p)]
        carried = [step for step in carried if step[2]]
        return self.dice.choice(carried) if carried else None

    def plan(self, p):
        dice, facts, history = self.dice, self.history.facts, self.history
        g = dice.randrange(facts.groups())
        if dice.random() < 0.3:
            # a flush
            flushed = []
            for x in reversed(range(facts.groups())):
                if facts.in_subtree(g, x):
                    flushed += [("TakeP", c, x) for c in range(facts.cpus)] + [("TakeU", x)]
            return flushed
        kinds = ["LoadV", "TakeP", "TakeU"]
        if history.owner(p) is not None or dice.random() < 0.1:
            kinds += ["AddP", "AddP", "AddP", "AddP"]
        if dice.random() < 0.1:
            kinds += ["AddV", "AddU"]
        kind = dice.choice(kinds)
        return [(kind, dice.randrange(facts.cpus), g) if kind == "TakeP" else (kind, g)]

    def granted(self, p, kind, *named):
        dice, history = self.dice, self.history
        if kind == "AddP":
            left = max(MOST_VOLUME - history.spent(history.owner(p) or 0, named[0]), 0)
            amount = dice.choice([0, 1, 2, 3, 5, dice.randrange(1000), left, left // 2, left + 1])
            return kind, *named, dice.choice([1, -1]) * amount
        if kind == "AddU":
            amounts = history.carried_up(named[0], p)
            return kind, *named, dice.choice([*amounts, 0, 1])
        return history.told(p, (kind, *named, 0))


def draw_facts(dice):
    groups, cpus = dice.randint(1, 6), dice.randint(1, 4)
    if dice.random() < 0.02:
        groups, cpus = dice.choice([(MOST_GROUPS, 1), (2, MOST_CPUS)])
    parents = [None] + [dice.choice([None, g - 1, dice.randrange(g)]) for g in range(1, groups)]

    def word():
        return dice.choice([0, 0, 1, -1, dice.randint(-1000, 1000), 2**50, -(2**50)])

    value, up = [word() for _ in range(groups)], [word() for _ in range(groups)]
    facts = Facts(parents, cpus, value, up, [word() for _ in range(cpus * groups)])
    if dice.random() < 0.2:
        spoil_base(dice, facts)
    return facts


def spoil_base(dice, facts):
    way = dice.randrange(10)
    g = dice.randrange(facts.groups())
    if way < 3:
        items = [facts.value, facts.up, facts.pending][way]
        items.append(0) if dice.random() < 0.5 else items.pop()
    elif way == 3:
        facts.parents, facts.value, facts.up, facts.pending = [], [], [], []
    elif way == 4:
        facts.parents, facts.cpus = [None] * (MOST_GROUPS + 1), 1
        facts.value, facts.up, facts.pending = [[1] * (MOST_GROUPS + 1) for _ in range(3)]
    elif way == 5:
        facts.cpus, facts.pending = 0, []
    elif way == 6:
        facts.cpus = MOST_CPUS + 1
        facts.pending = [1] * (facts.cpus * facts.groups())
    elif way == 7:
        facts.parents[g] = dice.choice([g, g + 1, 2**32 - 1])
    else:
        # the sum of a root is 2^60, or one more
        facts.parents[:] = [None] + [dice.randrange(h) for h in range(1, facts.groups())]
        for items in (facts.value, facts.up, facts.pending):
            items[:] = [0] * len(items)
        cell = dice.randrange(len(facts.pending))
        signs = [dice.choice([-1, 1]) for _ in range(3)]
        facts.pending[cell] = signs[0] * (MOST_IN_BASE - 7)
        facts.up[g] += signs[1] * dice.choice([3, 4, 4])
        facts.value[0] += signs[2] * dice.choice([4, 4, 2**63 - 1])
