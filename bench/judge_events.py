"""The event counters (docs/MODEL.md, section 14): which histories may begin and go on, and random ones."""
import judge_rules
from judge_rules import ABSENT, DEAD, MOST_VOLUME, ONLINE, at, draw_layout, draw_states, numbers_of_list

EVENTS = 8
MOST_IN_BASE = 2**60


class Facts:
    def __init__(self, layout, cpus, words):
        self.layout = layout
        self.cpus = cpus
        # by CPU and then event
        self.words = words

    def numbers(self):
        return [*self.layout.numbers(), *numbers_of_list(self.cpus), *numbers_of_list(self.words)]

    def __repr__(self):
        return f"{self.layout}\nstates {self.cpus}\nwords {self.words}"


def base_conditions(facts):
    cpus = facts.layout.cpus
    sums = [sum(at(facts.words, c * EVENTS + k, 0) for c in range(cpus)) for k in range(EVENTS)]
    absent = [c for c in range(cpus) if at(facts.cpus, c, ABSENT) == ABSENT]
    yield "base: a state for each CPU", len(facts.cpus) == cpus
    yield "base: a word for each CPU and event", len(facts.words) == cpus * EVENTS
    yield "base: some CPU is online", ONLINE in [at(facts.cpus, c, ABSENT) for c in range(cpus)]
    yield "base: an absent CPU has counted nothing", not any(
        at(facts.words, c * EVENTS + k, 0) for c in absent for k in range(EVENTS))
    yield "base: the words of an event are at most 2^60 in sum", max(sums) <= MOST_IN_BASE


class History(judge_rules.History):
    KINDS = {
        "AddE": ("event", "u64"),
        "LoadE": ("cpu", "event", "u64"),
        "TakeE": ("cpu", "event", "u64"),
        "AddF": ("cpu", "event", "u64"),
        "Split": ("u32", "owner"),
        "Join": ("u32",),
    }

    def __init__(self, facts):
        super().__init__(facts)
        self.words = list(facts.words)

    def word_at(self, c, k):
        return at(self.words, c * EVENTS + k, 0)

    def cpu_at(self, c):
        return at(self.facts.cpus, c, ABSENT)

    def is_lowest_online(self, c):
        return self.cpu_at(c) == ONLINE and all(self.cpu_at(b) != ONLINE for b in range(min(c, len(self.facts.cpus))))

    def carried(self, k, p):
        taken = sum(step[3] for step in self.own(p) if step[0] == "TakeE" and step[2] == k)
        return taken - sum(step[3] for step in self.own(p) if step[0] == "AddF" and step[2] == k)

    def spent(self, c, k):
        return sum(step[2] for _, who, step in self.events if step[0] == "AddE" and (who, step[1]) == (c, k))

    def may_own(self, who):
        if who is not None:
            yield "Split: the CPU is one of the layout", who < self.facts.layout.cpus
            yield "Split: the CPU is online", self.cpu_at(who) == ONLINE

    def may_end(self, q):
        yield "Join: it carries nothing", all(self.carried(k, q) == 0 for k in range(EVENTS))

    def meets(self, p, kind, *named):
        cpus = self.facts.layout.cpus
        if kind == "AddE":
            k, n = named
            c = self.owner(p)
            yield "AddE: the pass owns a CPU", c is not None
            yield "AddE: there is such an event", k < EVENTS
            if c is not None:
                yield "AddE: the volume of the CPU allows it", self.spent(c, k) + n <= MOST_VOLUME
            return
        c, k, v = named
        yield f"{kind}: there is such a CPU", c < cpus
        yield f"{kind}: there is such an event", k < EVENTS
        if kind == "AddF":
            yield "AddF: the CPU is the lowest that is online", self.is_lowest_online(c)
            yield "AddF: the pass carries so many", self.carried(k, p) == v
            yield "AddF: they aren't 0", v != 0
            return
        if kind == "TakeE":
            yield "TakeE: the pass is the control pass", self.owner(p) is None
            yield "TakeE: the CPU is dead", self.cpu_at(c) == DEAD
        yield f"{kind}: the word is this", self.word_at(c, k) == v

    def effect(self, who, kind, *named):
        if kind == "AddE" and who is not None:
            self.words[who * EVENTS + named[0]] += named[1]
        elif kind == "TakeE":
            self.words[named[0] * EVENTS + named[1]] = 0
        elif kind == "AddF":
            self.words[named[0] * EVENTS + named[1]] += named[2]

    def told(self, p, step):
        if step[0] in ("LoadE", "TakeE"):
            return *step[:3], self.word_at(*step[1:3])
        if step[0] == "AddF":
            return *step[:3], max(self.carried(step[2], p), 0)
        return step


class Maker(judge_rules.Maker):
    def count(self, kind):
        return self.history.facts.layout.cpus if kind == "cpu" else EVENTS

    def owners(self):
        facts = self.history.facts
        return [c for c in range(facts.layout.cpus) if facts.cpus[c] == ONLINE]

    def put_down(self, p):
        carried = [(k, self.history.carried(k, p)) for k in range(EVENTS)]
        carried = [(k, v) for k, v in carried if v]
        return ("AddF", self.owners()[0], *self.dice.choice(carried)) if carried else None

    def plan(self, p):
        dice, cpus = self.dice, self.history.facts.layout.cpus
        if self.history.owner(p) is None:
            dead = [c for c in range(cpus) if self.history.cpu_at(c) == DEAD]
            kinds = ["TakeE", "TakeE", "TakeE", "LoadE", "AddF"] if dead else ["LoadE"] * 5 + ["TakeE", "AddF"]
        else:
            dead = []
            kinds = ["AddE"] * 6 + ["LoadE"] * 4 + ["AddF", "TakeE"] * (dice.random() < 0.1)
        kind = dice.choice(kinds)
        c = dice.choice(dead) if kind == "TakeE" and dead else dice.randrange(cpus)
        # few events, so that they meet
        return [(kind, c, dice.choice([0, 0, 1, 7, dice.randrange(EVENTS)]))]

    def granted(self, p, kind, c, k):
        dice, history = self.dice, self.history
        if kind != "AddE":
            return history.told(p, (kind, c, k, 0))
        left = max(MOST_VOLUME - history.spent(history.owner(p) or 0, k), 0)
        large = dice.choice([left, left // 2, left + 1])
        return kind, k, dice.choice([0, 1, 2, 3, dice.randrange(1000), large])


def draw_facts(dice):
    layout = draw_layout(dice)
    cpus = draw_states(dice, layout.cpus)
    words = [0] * (layout.cpus * EVENTS)
    for c in range(layout.cpus):
        for k in range(EVENTS):
            if cpus[c] != ABSENT and dice.random() < 0.6:
                words[c * EVENTS + k] = dice.choice([1, 2, 3, dice.randrange(2**20), 2**58])
    facts = Facts(layout, cpus, words)
    if dice.random() < 0.2:
        spoil_base(dice, facts)
    return facts


def spoil_base(dice, facts):
    words, cpus = facts.words, facts.cpus
    way = dice.randrange(7)
    if way == 0:
        cpus.append(ABSENT) if dice.random() < 0.5 else cpus.pop()
    elif way == 1:
        words.append(0) if dice.random() < 0.5 else words.pop()
    elif way == 2:
        cpus[:] = [dice.choice([DEAD, ABSENT]) for _ in cpus]
    elif way == 3:
        cpus[dice.randrange(len(cpus))] = ABSENT
    else:
        # the sum is one more than the most, or the most
        k = dice.randrange(EVENTS)
        present = [c for c in range(facts.layout.cpus) if cpus[c] != ABSENT]
        for c in present:
            words[c * EVENTS + k] = 0
        words[dice.choice(present) * EVENTS + k] += MOST_IN_BASE - 5
        words[dice.choice(present) * EVENTS + k] += dice.choice([5, 6, 6, 2**63])
