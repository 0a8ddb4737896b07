#!/usr/bin/env python3
"""Judges random histories of a table by the definitions of docs/MODEL.md, and compares the program's verdicts.

    bench/judge.py TABLE [--seed S] [--histories N] [--program PATH] [--self] [--write FOLDER]

TABLE is pages, events, percpu or groups, or all, which takes each of them in turn. The verdicts come from the events
alone: what a pass knows and carries, what a CPU has spent, and what CPUs may hide are reckoned again from the events
that stand. An event that isn't legal is not taken, and the history goes on without it. At the end stands how many
events of each kind were legal, and how often each clause of the definitions was broken: in all, and alone.

For rows, which all takes too, the histories are those of bench/histories, which were judged by hand
(bench/judge_rows.py). The definitions have to say the same of each of their events. Of each table all takes also the
history of 1,000 events that bench/judging.py makes, each of which has to be legal.

PATH is that of the built vms_judge_lines, which gets a line for each history and answers with one; without it nothing
is compared. The first difference is printed with its history, and gives status 1. With --self each clause that can be
broken has to be broken once in a hundred histories, or the status is 1 too. With --write the lines go to the file stdin
of FOLDER, and what the program has to answer to its file stdout."""
import argparse
import collections
import importlib
import subprocess
import sys

import judge_rows
import judge_rules
import judge_stories
import judging

TABLES = ("pages", "events", "percpu", "groups")
# The tables of which bench/histories has histories.
BY_HAND = ("pages", "events", "percpu")
# How many events a long history has between the first and the last passes.
LONG = 1000
# Histories go to the program in parts.
AT_ONCE = 2000
# Clauses that hold wherever the others of the same kind of step and of its pass do, and are broken only with them.
NEVER_BROKEN = {
    "Put: the own CPU is online": "a pass owns a CPU that was online, and only a dead one becomes absent",
}


class Counts:
    """What the histories had, by kind of step and by clause."""

    def __init__(self):
        self.histories = collections.Counter()
        self.legal = collections.Counter()
        self.illegal = collections.Counter()
        self.clauses = {}
        self.broken = collections.Counter()
        self.alone = collections.Counter()

    def clause(self, conditions):
        """The clauses that are broken, of which each is noted."""
        broken = []
        for clause, holds in conditions:
            self.clauses[clause] = True
            if not holds:
                broken.append(clause)
        self.broken.update(broken)
        if len(broken) == 1:
            self.alone.update(broken)
        return broken

    def print(self):
        legal, illegal = sum(self.legal.values()), sum(self.illegal.values())
        print(f"{sum(self.histories.values())} histories ("
              + ", ".join(f"{count} {end}" for end, count in sorted(self.histories.items()))
              + f"), {legal + illegal} events: {legal} legal, {illegal} illegal")
        for kind in sorted({*self.legal, *self.illegal}):
            print(f"    {kind:8}{self.legal[kind]:8} legal {self.illegal[kind]:8} illegal")
        print("broken clauses, in all and alone:")
        for clause in sorted(self.clauses):
            print(f"    {self.broken[clause]:8}{self.alone[clause]:8}  {clause}")

    def too_rare(self):
        """The clauses that were broken in less than one of a hundred histories, or though they can't be."""
        often = sum(self.histories.values()) / 100
        return [clause for clause in self.clauses
                if (self.broken[clause] < often) != (clause in NEVER_BROKEN)]


class Judged:
    """A history with the verdict on each of its events."""

    def __init__(self, name, facts, counts):
        table = importlib.import_module(f"judge_{name}")
        self.table = name
        self.facts = facts
        self.history = table.History(self.facts)
        # (caller, step, the clauses that it breaks)
        self.events = []
        broken = counts.clause(table.base_conditions(self.facts))
        if broken:
            self.end = "no base"
            self.events = [(caller, step, broken) for caller, step in self.unjudged()]
        else:
            self.make(table, counts)
            self.end = "open" if self.history.living() else "ended"
        counts.histories[self.end] += 1

    def add(self, caller, step, counts):
        broken = counts.clause(self.history.conditions(caller, step))
        (counts.illegal if broken else counts.legal)[step[0]] += 1
        if not broken:
            self.history.take(caller, step)
        self.events.append((caller, step, broken))

    def line(self):
        """The table, and as numbers the facts, the number of events, and the events."""
        numbers = [self.table, *self.facts.numbers(), len(self.events)]
        for caller, step, _ in self.events:
            numbers.append(caller)
            numbers.extend(judge_rules.numbers_of_step(self.history, step))
        return " ".join(map(str, numbers))

    def answer(self):
        """What the program has to say of it."""
        if self.end == "no base":
            return self.end
        return "".join("0" if broken else "1" for _, _, broken in self.events) + " " + self.end

    def print(self, answer):
        print(self.facts)
        verdicts = answer.split(" ")[0] if self.end != "no base" else ""
        for number, (caller, step, broken) in enumerate(self.events):
            here = "0" if broken else "1"
            theirs = verdicts[number:number + 1] or "-"
            mark = " <-- differs" if here != theirs else ""
            print(f"{number:4} {here} {theirs} {caller}: {step} {'; '.join(broken)}{mark}")
        print(f"here: {self.answer()}\nthere: {answer}")


class Drawn(Judged):
    """A random history."""

    def __init__(self, name, dice, counts):
        self.dice = dice
        super().__init__(name, importlib.import_module(f"judge_{name}").draw_facts(dice), counts)

    def unjudged(self):
        return [(0, ("Split", 1, 0))]

    def make(self, table, counts):
        maker = table.Maker(self.dice, self.history)
        for _ in range(self.dice.choice([10, 40, 80, 120])):
            self.add(*maker.event(), counts)
        if self.dice.random() < 0.6:
            for event in maker.last_events():
                self.add(*event, counts)


class Given(Judged):
    """A history whose events are given."""

    def __init__(self, name, facts, events, counts):
        self.given = events
        super().__init__(name, facts, counts)

    def unjudged(self):
        return self.given

    def make(self, table, counts):
        for caller, step in self.given:
            self.add(caller, step, counts)


class ByHand(Given):
    """A history of bench/histories."""

    def __init__(self, name, row, counts):
        self.row = row
        super().__init__(name, row.facts, [(caller, step) for caller, step, _ in row.events], counts)


def compare(program, judged):
    """Whether the program says the same of each history."""
    told = "".join(history.line() + "\n" for history in judged)
    ran = subprocess.run([program], input=told, capture_output=True, text=True)
    if ran.returncode:
        print(f"{program}: status {ran.returncode}: {ran.stderr[-2000:]}")
        return False
    answers = ran.stdout.splitlines()
    for number, history in enumerate(judged):
        answer = answers[number] if number < len(answers) else "nothing"
        if answer != history.answer():
            print(f"history {number} of this part differs:")
            history.print(answer)
            return False
    return True


def hand_on(judged, asked):
    """Gives histories to the program and to the files that are asked for. Whether the program says the same of them."""
    if asked.program and not compare(asked.program, judged):
        return False
    if asked.write:
        for file, lines in [("stdin", map(Judged.line, judged)), ("stdout", map(Judged.answer, judged))]:
            with open(f"{asked.write}/{file}", "a", encoding="ascii") as out:
                out.writelines(line + "\n" for line in lines)
    return True


def judge_rows_of(name, asked):
    """Whether the histories of a table that were judged by hand are judged so by the definitions and the program."""
    counts, rows = Counts(), judge_rows.rows_of(name)
    judged = [ByHand(name, row, counts) for row in rows]
    same = True
    for history in judged:
        if history.answer() != history.row.answer():
            print(f"{name}, {history.row.name}: the verdicts by hand differ:")
            history.print(history.row.answer())
            same = False
    for title in judge_stories.differing(rows) if name == "pages" else ():
        print(f"{name}, {title}: crates/vms_model_trials/src/stories.rt tells it otherwise")
        same = False
    same = hand_on(judged, asked) and same
    print(f"{name}: {len(judged)} histories that were judged by hand, {sum(counts.legal.values())} legal events, "
          f"{sum(counts.illegal.values())} illegal")
    return same


def judge_long(name, asked):
    """Whether each event of a long history is legal, and all its passes end."""
    facts, events = judging.TABLES[name][1](judge_rules.ONLINE), list(judging.events_of(name, LONG))
    history = Given(name, facts, events, Counts())
    same = history.answer() == "1" * len(events) + " ended"
    if not same:
        print(f"{name}: not all of a long history is legal")
        history.print("")
    return hand_on([history], asked) and same


def judge(name, asked):
    """Whether the histories of a table are judged alike, and break each clause often enough."""
    dice, counts, left = judge_rules.Dice(asked.seed), Counts(), asked.histories
    while left:
        judged = [Drawn(name, dice, counts) for _ in range(min(left, AT_ONCE))]
        left -= len(judged)
        if not hand_on(judged, asked):
            return False
    print(f"{name}: ", end="")
    counts.print()
    if asked.program:
        print("the program says the same of each event")
    rare = counts.too_rare()
    if asked.often and rare:
        print("broken too rarely, or though it can't be: " + "; ".join(rare))
        return False
    return True


def main():
    parser = argparse.ArgumentParser(description=__doc__.split("\n")[0])
    parser.add_argument("table", choices=[*TABLES, "rows", "all"])
    parser.add_argument("--seed", type=int, default=1)
    parser.add_argument("--histories", type=int, default=1000)
    parser.add_argument("--program")
    parser.add_argument("--self", action="store_true", dest="often")
    parser.add_argument("--write")
    asked = parser.parse_args()
    if asked.write:
        for file in ("stdin", "stdout"):
            open(f"{asked.write}/{file}", "w").close()
    names = {"all": TABLES, "rows": ()}.get(asked.table, [asked.table])
    by_hand = BY_HAND if asked.table in ("all", "rows") else ()
    same = [judge(name, asked) for name in names] + [judge_rows_of(name, asked) for name in by_hand]
    same += [judge_long(name, asked) for name in (TABLES if asked.table == "all" else ())]
    return 0 if all(same) else 1


if __name__ == "__main__":
    sys.exit(main())
