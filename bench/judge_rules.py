"""What histories of every table have in common, by docs/MODEL.md: passes, roles, and how random histories are drawn.

A step is a tuple of its kind and what it names. A condition is drawn up as pairs (clause, whether it holds), so that
an event which isn't legal tells each clause that it breaks. Only the main pass, number 0, begins and ends passes.
"""
import itertools
import random

ONLINE, DEAD, ABSENT = range(3)
MOST_VOLUME = 2**48
MAIN = 0

# The least and the most of each type of number; of the others the tables say which there are.
RANGES = {"u32": (0, 2**32 - 1), "u64": (0, 2**64 - 1), "i64": (-(2**63), 2**63 - 1)}


class Dice:
    """Random draws that are the same under every version of python3 for the same seed."""

    def __init__(self, seed):
        self.random = random.Random(seed).random

    def randrange(self, count):
        return int(self.random() * count)

    def randint(self, least, most):
        return least + self.randrange(most - least + 1)

    def choice(self, items):
        return items[self.randrange(len(items))]

    def sample(self, items, count):
        left = list(items)
        return [left.pop(self.randrange(len(left))) for _ in range(count)]


def at(items, index, default):
    """The entry of a list; past its end the default."""
    return items[index] if 0 <= index < len(items) else default


class Layout:
    """The zones in ascending rank, their nodes, the CPUs, and how many positions a place has."""

    def __init__(self, zones, cpus, positions):
        self.zones = sorted(zones)
        self.nodes = sorted({node for node, _ in zones})
        self.cpus = cpus
        self.positions = positions
        self.places = len(self.zones) + len(self.nodes)
        self.counters = positions * self.places
        self.groups = self.counters // 8
        self.items = 2 * positions

    def place_of(self, counter):
        return counter // self.positions

    def item_of(self, counter):
        position = counter % self.positions
        return position if self.place_of(counter) < len(self.zones) else self.positions + position

    def groups_of(self, place):
        return [group for group in range(self.groups) if self.place_of(8 * group) == place]

    def numbers(self):
        named = [number for zone in self.zones for number in zone]
        return [self.cpus, self.positions, len(self.zones), *named]

    def __repr__(self):
        return f"zones {self.zones}, {self.cpus} CPUs, {self.positions} positions"


def draw_layout(dice):
    nodes = dice.choice([[0], [0], [0, 1], [3, 15]])
    names = [(node, kind) for node in nodes for kind in range(4)]
    zones = dice.sample(names, dice.randint(1, 3))
    return Layout(zones, dice.randint(1, 4), dice.choice([8, 8, 8, 16]))


def draw_states(dice, cpus):
    states = [dice.choice([ONLINE, ONLINE, ONLINE, DEAD, ABSENT]) for _ in range(cpus)]
    states[dice.randrange(cpus)] = ONLINE
    return states


class History:
    """A legal history of one table: its events, and whether an event may follow them."""

    # Of each kind of step the types of what it names, in the order of the kinds.
    KINDS = {}

    def __init__(self, facts):
        self.facts = facts
        # (caller, the CPU that it owns, step), the oldest first
        self.events = []
        # the steps of each caller, the oldest first
        self.steps = {}

    def own(self, p):
        return self.steps.get(p, [])

    def begun(self):
        return sum(step[0] == "Split" for step in self.own(MAIN))

    def lives(self, q):
        for step in reversed(self.own(MAIN)):
            if step[1] == q:
                return step[0] == "Split"
        return False

    def owner(self, q):
        for step in reversed(self.own(MAIN)):
            if step[0] == "Split" and step[1] == q:
                return step[2]
        return None

    def living(self):
        return [q for q in range(1, self.begun() + 1) if self.lives(q)]

    def is_free(self, who):
        return all(self.owner(q) != who for q in self.living())

    def conditions(self, p, step):
        """Each clause of what an event has to meet, and whether it holds."""
        if step[0] == "Split":
            _, q, who = step
            yield "Split: the main pass begins it", p == MAIN
            yield "Split: it has the next number", q == self.begun() + 1
            yield from self.may_own(who)
            yield "Split: no live pass has the same owner", self.is_free(who)
        elif step[0] == "Join":
            yield "Join: the main pass ends it", p == MAIN
            yield "Join: it has begun", 1 <= step[1] <= self.begun()
            yield "Join: it hasn't ended", self.lives(step[1]) or not 1 <= step[1] <= self.begun()
            yield from self.may_end(step[1])
        else:
            yield "a step that works: not the main pass", p != MAIN
            yield "a step that works: the pass has begun", p <= self.begun()
            yield "a step that works: the pass hasn't ended", self.lives(p) or not 1 <= p <= self.begun()
            yield from self.meets(p, *step)

    def broken(self, p, step):
        return [clause for clause, holds in self.conditions(p, step) if not holds]

    def take(self, p, step):
        who = self.owner(p)
        self.events.append((p, who, step))
        self.steps.setdefault(p, []).append(step)
        self.effect(who, *step)


class Maker:
    """Draws the events of one history: mostly such as may be made, some with one thing wrong."""

    def __init__(self, dice, history):
        self.dice = dice
        self.history = history
        # what each pass wants to do next
        self.wishes = {}
        self.last = None

    def event(self):
        caller, step = self.sound_event()
        if self.dice.random() < 0.2:
            caller, step = self.spoiled(caller, step)
        return caller, step

    def sound_event(self):
        history, dice = self.history, self.dice
        living = history.living()
        chance = dice.random()
        if not living or chance < 0.07:
            return MAIN, self.split()
        if chance < 0.13:
            return MAIN, ("Join", dice.choice(living))
        if self.last not in living or dice.random() < 0.4:
            self.last = dice.choice(living)
        return self.last, self.work(self.last)

    def split(self):
        owners = [*self.owners(), None]
        free = [who for who in owners if self.history.is_free(who)]
        return "Split", self.history.begun() + 1, self.dice.choice(free or owners)

    def work(self, p):
        """A step of a pass: it puts down what it carries, goes on with what it wants, or does something else."""
        dice = self.dice
        if dice.random() < 0.7:
            step = self.put_down(p)
            if step is not None:
                return step
        wishes = self.wishes.setdefault(p, [])
        if not wishes or dice.random() < 0.15:
            wishes[:] = self.plan(p)
        return self.granted(p, *wishes.pop(0))

    def last_events(self):
        """What lets all passes end, and their ends."""
        for q in self.history.living():
            for _ in range(200):
                step = self.put_down(q)
                if step is None:
                    break
                yield q, step
            yield MAIN, ("Join", q)

    def spoiled(self, caller, step):
        """The event with one thing of it drawn anew."""
        history, dice = self.history, self.dice
        kinds = history.KINDS[step[0]]
        if dice.random() < 0.25:
            begun = history.begun()
            return dice.choice([0, begun + 1, dice.randint(0, begun + 1), 2**32 - 1, dice.randint(1, begun + 1)]), step
        number = dice.randrange(len(kinds))
        value = self.other(kinds[number], step[1 + number])
        step = (*step[:1 + number], value, *step[2 + number:])
        if kinds[number] not in RANGES and dice.random() < 0.7:
            # another place: what stands there, so that it is wrong at most in that
            step = history.told(caller, step)
        return caller, step

    def other(self, kind, value):
        """Another value of a type, near the limits or near the value."""
        dice = self.dice
        if kind in RANGES:
            least, most = RANGES[kind]
            drawn = dice.choice([value + 1, value - 1, value + 1, value - 1, -value, 0, least, most, MOST_VOLUME,
                                 MOST_VOLUME + 1, value + dice.randint(-9, 9)])
            return min(max(drawn, least), most)
        if kind == "mode":
            return dice.randrange(3)
        if kind == "state":
            return dice.randrange(3)
        if kind == "owner":
            return dice.choice([None, *range(self.count("cpu") + 2), 2**32 - 1])
        if kind == "number":
            return dice.choice([None, 0, 1, 2, value or 0, 2**32 - 1])
        if kind == "diffs":
            drawn = list(value)
            place = dice.randrange(8)
            drawn[place] = dice.choice([drawn[place] + 1, drawn[place] - 1, 0, -drawn[place]])
            drawn[place] = min(max(drawn[place], -128), 127)
            return dice.choice([tuple(drawn), tuple(drawn), (0,) * 8])
        count = self.count(kind)
        return dice.choice([count, count, count + 1, dice.randrange(count + 1), dice.randrange(count + 1), 2**32 - 1])


def numbers_of_step(history, step):
    """The number of a step's kind, and what it names, as numbers; none is -1."""
    drawn = [list(history.KINDS).index(step[0])]
    for value in step[1:]:
        if isinstance(value, tuple):
            drawn.extend(value)
        else:
            drawn.append(-1 if value is None else value)
    return drawn


def numbers_of_list(items):
    return [len(items), *(-1 if item is None else item for item in items)]


def flat(lists):
    return list(itertools.chain.from_iterable(lists))
