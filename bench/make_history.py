#!/usr/bin/env python3
"""Writes a history of a trace by docs/MODEL.md, as any maker might: it shares no code with the programs.

    bench/make_history.py [--seed S] [TRACE]

TRACE, or standard input, stands first as it is, then the history. Without a seed it is the one of the file order. With
one, in each phase the lanes begin, make their steps and end in a random order, so that exchanges are lost and numbers
change between two steps of a call.
"""
import argparse
import sys

from certify import Checker, Fault, Reading, read_body, read_header
from judge_pages import DEC
from judge_rules import MAIN, Dice

# How often a lane goes on with the next step, and isn't left for another one.
STAYS = 0.6


def spelled(step):
    """The words of a step, without its caller."""
    words = [step[0]]
    for number, value in enumerate(step[1:], 1):
        if isinstance(value, tuple):
            words.extend(map(str, value))
        elif (step[0], number) == ("Put", 5):
            words.append("-1" if value == DEC else str(value))
        else:
            words.append("-" if value is None else str(value))
    return " ".join(words)


class Maker:
    """Makes the events of the phases of a trace, one after another."""

    def __init__(self, header, lines, dice):
        self.checker, self.dice = Checker(header, lines), dice

    def events(self):
        """The lines of the history; each is taken once the next one is asked for."""
        checker = self.checker
        while checker.left:
            lanes_in_order = self.lanes_of(checker.left[-1])
            checker.begin()
            yield "phase"
            for p, step in self.phase(lanes_in_order):
                yield f"{p} {spelled(step)}"
                checker.take(p, step)

    def lanes_of(self, phase):
        """The lanes of the lines of a phase, in the order of the lines."""
        _, lanes = phase
        lines = [line for its in lanes.values() for line in its]
        return [line.lane for line in sorted(lines, key=lambda line: line.number)]

    def concrete(self, p, due):
        """The step that is due, with the numbers that stand."""
        history = self.checker.history
        if due[0][0] == "Put":
            stands = history.state.group_at(history.owners[p], due[0][1] // 8)
            return due[0] if due[0][2] == stands else due[1]
        return history.told(p, due[0])

    def split(self, lane):
        return MAIN, ("Split", self.checker.history.begun() + 1, None if lane == "k" else lane)

    def pass_of(self, lane):
        owners = self.checker.history.owners
        return next(p for p, who in owners.items() if who == (None if lane == "k" else lane))

    def phase(self, lanes_in_order):
        return self.at_random() if self.dice else self.in_file_order(lanes_in_order)

    def in_file_order(self, lanes_in_order):
        lanes = self.checker.lanes
        named = sorted(lanes, key=lambda lane: (lane == "k", lane))
        for lane in named:
            yield self.split(lane)
        left = {lane: lanes_in_order.count(lane) for lane in named}
        for lane in lanes_in_order:
            p = self.pass_of(lane)
            left[lane] -= 1
            # a line may make no step
            while lanes[lane].due is not None and lanes[lane].lines_left > left[lane]:
                yield p, self.concrete(p, lanes[lane].due)
        for lane in named:
            yield MAIN, ("Join", self.pass_of(lane))

    def at_random(self):
        dice, lanes, last = self.dice, self.checker.lanes, None
        while self.checker.is_open():
            lane = last
            if lane is None or lanes[lane].ended or dice.random() > STAYS:
                lane = last = dice.choice([lane for lane in lanes if not lanes[lane].ended])
            if not lanes[lane].begun:
                yield self.split(lane)
            elif lanes[lane].due is None:
                yield MAIN, ("Join", self.pass_of(lane))
            else:
                p = self.pass_of(lane)
                yield p, self.concrete(p, lanes[lane].due)


def history_of(text, seed=None):
    """The trace with a history of it."""
    lines = iter(Reading(text, True))
    header = read_header(lines)
    kept, _, _ = read_body(lines, header)
    maker = Maker(header, kept, None if seed is None else Dice(seed))
    written = "".join(line + "\n" for line in maker.events())
    return text.rstrip(b"\n") + b"\nhistory 1\n" + written.encode()


def main():
    parser = argparse.ArgumentParser(description=__doc__.split("\n")[0])
    parser.add_argument("trace", nargs="?")
    parser.add_argument("--seed", type=int)
    asked = parser.parse_args()
    with open(asked.trace, "rb") if asked.trace else sys.stdin.buffer as file:
        text = file.read()
    try:
        sys.stdout.buffer.write(history_of(text, asked.seed))
    except Fault as fault:
        print(f"make_history.py: the header is refused: {fault}", file=sys.stderr)
        return 1
    return 0


if __name__ == "__main__":
    sys.exit(main())
