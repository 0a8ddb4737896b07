#!/usr/bin/env python3
"""Spoils single events of written histories, and says where a program's verdict isn't that of bench/certify.py.

    bench/spoil.py PROGRAM [--seed S] [--count N] [--keep FILE] TRACE..

PROGRAM is called with the word `certify`. Of each TRACE there is a history in file order and four in random orders
(bench/make_history.py), which have to be certified. Then one line of a history is spoiled at a time, 10,000 times if no
count is given: a number in it is changed, or a word, or the line is left out, doubled, replaced, or put after another
one. What is to be said is found by bench/certify.py: the line at fault and its cause, or that the history is one of the
trace all the same. The status is 1 if a verdict differs; the first text of which it does is written to the file that
--keep names. At the end stands how often each cause came, for which kind of line.
"""
import argparse
import collections
import subprocess
import sys

from certify import Checker, PHASE, Reading, certify, read_body, read_header
from judge_rules import Dice
from make_history import history_of

RANDOM_ORDERS = 4
NEAR_LIMITS = (0, 1, -1, 2, 7, 8, 125, 126, 127, 128, -128, -129, 1000, 2**31, 2**32 - 1, 2**32, 2**40, 2**43 - 1,
               2**43, 2**48, 2**63 - 1, 2**63, -(2**63), -(2**63) - 1, 2**64 - 1, 2**64)
KINDS = ("LoadT", "LoadD", "Put", "Miss", "AddG", "AddS", "Take", "LoadG", "LoadS", "LoadM", "LoadO", "SetT", "SetM",
         "SetO", "SetA", "LoadA", "Split", "Join", "LoadX", "phase")
LINES = (b"phase", b"phase 1", b"", b"   \t\r", b"# a remark \xff", b"history 1", b"x", b"0 Join 1", b"1 LoadG 0 0",
         b"phase\x00", b"#" * 201, b"phase" + b" " * 200, b"go", b"sync", b"0", b"1 SetO 0", b"0 Split 1 -",
         b"0 Split 1 0")


class Spoiler:
    """Draws how a line is spoiled."""

    def __init__(self, dice):
        self.dice = dice

    def number(self, word):
        dice = self.dice
        if dice.random() < 0.5 and word.lstrip(b"-").isdigit():
            number = int(word) + dice.choice([1, -1, 1, -1, dice.randint(-9, 9)])
        else:
            number = dice.choice(NEAR_LIMITS)
        return str(number).encode()

    def word(self, word):
        """Another spelling, or no number at all."""
        return self.dice.choice([b"0" + word, b"+" + word, b"-" + word, word + b"x", b"-", b"", word + b" " + word,
                                 b"-0", b"", word.lower(), word + b"\x00", b"\t" + word + b"\r"])

    def line(self, line):
        """The line with one thing of it changed."""
        dice = self.dice
        words = line.split()
        at = dice.randrange(len(words))
        chance = dice.random()
        if chance < 0.1:
            return dice.choice(LINES)
        if chance < 0.2 and len(words) > 1:
            words[1] = dice.choice(KINDS).encode()
        elif chance < 0.3:
            words[0] = self.number(words[0])
        elif chance < 0.85:
            at = max(at, min(2, len(words) - 1))
            words[at] = self.number(words[at])
        else:
            words[at] = self.word(words[at])
        return b" ".join(words)


class History:
    """A text with its history, and where its lines stand."""

    def __init__(self, text):
        self.lines = text.split(b"\n")[:-1]
        self.first = self.lines.index(b"history 1") + 1

    def verdicts(self, spoiler, places):
        """At each place of `places` a spoiled text and its verdict, with the kind of the line that was spoiled."""
        reading = Reading(b"\n".join(self.lines) + b"\n", True)
        lines = iter(reading)
        header = read_header(lines)
        kept, refused, _ = read_body(lines, header)
        checker = Checker(header, kept)
        for at in range(self.first, len(self.lines)):
            line = self.lines[at]
            for _ in range(places[at]):
                yield self.kind_of(line), *self.spoiled(spoiler, checker, at)
            checker.step(line)

    def kind_of(self, line):
        return line.split()[1].decode() if b" " in line else line.decode()

    def spoiled(self, spoiler, checker, at):
        line, chance = self.lines[at], spoiler.dice.random()
        if chance < 0.85:
            changed = [spoiler.line(line)]
        elif chance < 0.9:
            changed = []
        elif chance < 0.95:
            changed = [line, line]
        else:
            changed = [spoiler.dice.choice(LINES), line]
        if len(changed) == 1 and b"\n" not in changed[0]:
            read = checker.read(changed[0])
            cause = checker.fault(read) if read is not None else None
            if cause:
                text = self.lines[:at] + changed + self.lines[at + 1:]
                return b"\n".join(text) + b"\n", (9, f"line {at + 1}: {cause}\n")
        text = b"\n".join(self.lines[:at] + changed + self.lines[at + 1:]) + b"\n"
        return text, certify(text)


def verdict_of(program, text):
    ran = subprocess.run([program, "certify"], input=text, capture_output=True, timeout=60)
    return ran.returncode, ran.stdout.decode()


def main():
    parser = argparse.ArgumentParser(description=__doc__.split("\n")[0])
    parser.add_argument("program")
    parser.add_argument("traces", nargs="+")
    parser.add_argument("--seed", type=int, default=1)
    parser.add_argument("--count", type=int, default=10_000)
    parser.add_argument("--keep")
    asked = parser.parse_args()
    dice, causes, differ = Dice(asked.seed), collections.Counter(), 0
    histories = []
    for trace in asked.traces:
        with open(trace, "rb") as file:
            text = file.read()
        for seed in (None, *range(RANDOM_ORDERS)):
            made = history_of(text, seed)
            wanted, said = certify(made), verdict_of(asked.program, made)
            if wanted != said or wanted[0] not in (0, 3):
                print(f"{trace}, order {seed}: expected {wanted}, the program: {said}")
                differ += 1
            histories.append((f"{trace}, order {seed}", History(made)))
    # each line of all histories is as likely
    lines = [(number, at) for number, (_, history) in enumerate(histories)
             for at in range(history.first, len(history.lines))]
    drawn = collections.Counter(dice.choice(lines) for _ in range(asked.count))
    for number, (name, history) in enumerate(histories):
        places = collections.Counter({at: count for (other, at), count in drawn.items() if other == number})
        for kind, text, wanted in history.verdicts(Spoiler(dice), places):
            said = verdict_of(asked.program, text)
            cause = wanted[1].split()[-1] if wanted[0] == 9 else "certified"
            causes[kind, cause] += 1
            if said != wanted:
                differ += 1
                print(f"{name}: expected {wanted}, the program: {said}")
                if differ == 1 and asked.keep:
                    with open(asked.keep, "wb") as out:
                        out.write(text)
    for cause in ("BadEvent", "Illegal", "NotInScript", "Incomplete", "certified"):
        kinds = sorted(kind for kind, other in causes if other == cause)
        total = sum(causes[kind, cause] for kind in kinds)
        print(f"{cause} {total}: " + ", ".join(f"{kind} {causes[kind, cause]}" for kind in kinds))
    print(f"{sum(causes.values())} spoiled events, {differ} verdicts that differ")
    return 1 if differ else 0


if __name__ == "__main__":
    sys.exit(main())
