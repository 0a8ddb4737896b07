"""The histories of bench/histories, which were judged by hand.

A file has the name of its table. In it stand
- `facts NAME`, and below it, indented, what a base has: a word and its values. With `, else OTHER` what isn't named is
  as in the facts of that name. `V*N` are N values V, `-` is none, and a power of two may stand with what is added to it;
- `history NAME`, of the last facts above it, and its events, one a line: `yes` where it is legal or `no`, the number of
  the pass, the step and what it names. A list of differentials stands in brackets, without the zeros at its end;
- `after N of OTHER` below such a name: the first N legal events of that history come before its own;
- how it ends: `ended`, `open`, where a pass lives, or `no base`, where no history may begin with the facts, and `---`
  stands before each event.

Blank lines are left out, and what follows `#`. An event that isn't legal is not taken, and the history goes on.
"""
import importlib
import os
import re

import judge_pages
import judge_rules

FOLDER = os.path.join(os.path.dirname(os.path.abspath(__file__)), "histories")
KINDS_OF_ZONES = ("DMA", "DMA32", "Normal", "Movable")
STATES = ("online", "dead", "absent")
MODES = ("mod", "inc", "dec")
ENDS = ("ended", "open", "no base")
TAKEN = {"yes": True, "no": False, "---": None}


def number_of(word):
    """A number, as 5, -5, 2^48, -2^60-1, or None for a dash."""
    if word == "-":
        return None
    power = re.fullmatch(r"(-?)2\^([0-9]+)([+-][0-9]+)?", word)
    if power:
        sign, exponent, added = power.groups()
        return (-1 if sign else 1) * 2**int(exponent) + int(added or 0)
    return int(word)


def value_of(word):
    """A number, or that of a state or a mode."""
    for names in (STATES, MODES):
        if word in names:
            return names.index(word)
    return number_of(word)


def words_of(line):
    """The words, where `V*N` is N words V."""
    for word in line.split():
        value, _, count = word.partition("*")
        yield from [value] * int(count or 1)


def zone_of(word):
    node, kind = word.split("/")
    return int(node), KINDS_OF_ZONES.index(kind)


def facts_of(table, named):
    """The facts of a table that these lists of words name."""
    lists = {name: [value_of(word) for word in words] for name, words in named.items() if name not in ("zones", "sizes")}
    layout = judge_rules.Layout([zone_of(word) for word in named["zones"]], lists["cpus"][0], 8)
    if table.__name__ == "judge_pages":
        sizes = [judge_pages.Size(*map(int, word.split("/"))) for word in named["sizes"]]
        lists["cpu"] = lists["states"]
        return table.Facts(layout, sizes, table.State(**{name: lists[name] for name in table.State.LISTS}))
    further = {"judge_events": ["words"], "judge_percpu": ["batch", "count", "local"]}[table.__name__]
    return table.Facts(layout, *(lists[name] for name in ["states", *further]))


def step_of(words):
    """The tuple of a step: its kind, and its values, where a list of differentials is a tuple of eight."""
    step, inner = [words[0]], None
    for word in words[1:]:
        if word.startswith("["):
            inner = []
        number = word.strip("[]")
        if number:
            (step if inner is None else inner).append(value_of(number))
        if word.endswith("]"):
            step.append(tuple(inner + [0] * (8 - len(inner))))
            inner = None
    return tuple(step)


class Row:
    """A history with the verdict on each of its events, by hand."""

    def __init__(self, name, facts):
        self.name = name
        self.facts = facts
        # (caller, step, whether it is legal)
        self.events = []
        self.end = None

    def answer(self):
        """What a judge has to say of it."""
        if self.end == "no base":
            return self.end
        return "".join("1" if legal else "0" for _, _, legal in self.events) + " " + self.end


class Reader:
    """Reads the lines of one file."""

    def __init__(self, name):
        self.table = importlib.import_module(f"judge_{name}")
        self.named = {}
        self.facts = None
        self.rows = {}
        self.row = None

    def take(self, line):
        words = line.split()
        if line.startswith(" "):
            self.facts[words[0]] = list(words_of(line.split(None, 1)[1]))
        elif words[0] == "facts":
            name, _, other = line.split(None, 1)[1].partition(", else ")
            assert name not in self.named, f"facts {name} stand twice"
            self.facts = self.named[name] = dict(self.named[other]) if other else {}
        elif words[0] == "history":
            name = line.split(None, 1)[1]
            assert name not in self.rows, f"history {name} stands twice"
            assert not self.row or self.row.end, f"history {self.row.name} has no end"
            self.row = self.rows[name] = Row(name, facts_of(self.table, self.facts))
        elif words[0] == "after":
            count, name = int(words[1]), line.split(" of ", 1)[1]
            taken = [event for event in self.rows[name].events if event[2]]
            assert len(taken) >= count, f"history {name} has no {count} legal events"
            self.row.events += taken[:count]
        elif line in ENDS:
            assert self.row.end is None, f"history {self.row.name} ends twice"
            self.row.end = line
        else:
            assert self.row.end is None, f"history {self.row.name} goes on after its end"
            self.row.events.append((int(words[1]), step_of(words[2:]), TAKEN[words[0]]))


def rows_of(name):
    """The histories of a table, in their order."""
    reader = Reader(name)
    with open(os.path.join(FOLDER, name), encoding="utf-8") as file:
        for number, line in enumerate(file, 1):
            line = line.split("#")[0].rstrip()
            if line:
                try:
                    reader.take(line)
                except (AssertionError, IndexError, KeyError, TypeError, ValueError) as error:
                    raise SystemExit(f"bench/histories/{name}, line {number}: {error}") from error
    return list(reader.rows.values())
