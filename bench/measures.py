#!/usr/bin/env python3
"""Counts what the text of the repository shows of its shape: measures.py [--pairs] [--below], from any folder.

A line for each measure: the figure, then what is counted. Nothing is built or proved for it.

  files that name Csync   files outside trials, bench and docs with the word `Csync`, a kind of line
  matches on an act       `match` on a value named `act`, in code outside trials
  repeated pieces         pairs of places in files below proofs/ that are alike for 12 lines or more, other names aside.
                          Comments and imports go, and of each line every name becomes `n`, every number `0` and every
                          string `"`; keywords, operators and blank lines stay. Two windows of 12 lines of different
                          files that are equal then, with four different lines at least, make a pair, and pairs that
                          follow one another line by line in both files are one. --pairs lists them, longest first
  lines that import       lines whose first word, after `pub` or `ghost`, is `use`, of all lines of the crates
  lines of the crates     lines of the files .rt, .antt and .edit below crates/
  below the clause        definitions of specs/ that the clauses of `tool` name, and those that these name, and so on,
                          with the lines, files and crates in which they stand; and the types of src/ that they name,
                          for which modules specs.declared stand. --below lists both
  kept for proofs         `let _ =` in code outside trials
"""
import argparse
import collections
import itertools
import os
import pathlib
import re
import sys

TOP = pathlib.Path(__file__).resolve().parent.parent
sys.path.insert(0, str(TOP / ".ci"))
from definitions import IMPORT, all_modules, below, below_the_contracts, read, uncommented  # noqa: E402
import headline  # noqa: E402

WINDOW = 12
LEAST_DIFFERENT = 4
KEYWORDS = set("let in elim record abbrev pub unfolding as mod data where if then else search grind omega cc rw simp λ "
               "→ unfoldable ruleset hlevel first_of assumption cond".split())
TOKEN = re.compile(r'"(?:[^"\\]|\\.)*"|[^\W\d][^\s(){}\[\];,.⟨⟩]*|◌[^\s(){}\[\];,.⟨⟩]*|\d+|\S')


def is_trial(path):
    return path.parts[1].endswith("_trials")


def shape_of(line):
    """What a line of a proof says, but for names, numbers and strings."""
    said = []
    for token in TOKEN.findall(line):
        if token in KEYWORDS:
            said.append(token)
        elif token[0] == '"':
            said.append('"')
        elif token[0].isdigit():
            said.append("0")
        else:
            said.append("n" if token[0].isalpha() or token[0] in "_◌" else token)
    return " ".join(said)


def repeated_pieces():
    """Each pair of pieces that are alike: its lines, and either place."""
    places, windows = [], collections.defaultdict(list)
    for path in below("proofs", ".antt"):
        lines = [(shape_of(line), number) for number, line in enumerate(map(uncommented, read(path).splitlines()), 1)
                 if not IMPORT.match(line)]
        places.append((path, [number for _, number in lines]))
        for start in range(len(lines) - WINDOW + 1):
            window = tuple(shape for shape, _ in lines[start:start + WINDOW])
            if len(set(window)) >= LEAST_DIFFERENT:
                windows[window].append((len(places) - 1, start))
    alike = {(*one, *other) for found in windows.values() for one, other in itertools.combinations(found, 2)
             if one[0] != other[0]}
    pieces = []
    for one, at, other, there in alike:
        if (one, at - 1, other, there - 1) not in alike:
            more = next(n for n in itertools.count() if (one, at + n, other, there + n) not in alike)
            pieces.append((WINDOW + more - 1, *(f"{places[file][0]}:{places[file][1][start]}"
                                                for file, start in ((one, at), (other, there)))))
    return sorted(pieces, key=lambda piece: (-piece[0], piece[1:]))


def main():
    asked = argparse.ArgumentParser(description=__doc__, formatter_class=argparse.RawDescriptionHelpFormatter)
    asked.add_argument("--pairs", action="store_true", help="list the repeated pieces")
    asked.add_argument("--below", action="store_true", help="list the definitions and types below the clause")
    asked = asked.parse_args()
    os.chdir(TOP)
    files = below(None, ".rt", ".antt", ".edit")
    code = [path for path in below("src", ".rt") if not is_trial(path)]
    lines = [line for path in files for line in read(path).splitlines()]
    imports = sum(bool(IMPORT.match(line)) for line in lines)
    pieces = repeated_pieces()
    walk = below_the_contracts(all_modules())
    found, types = walk.found, walk.types
    crates = {path.split(".")[1] for path, _ in found}

    def count(pattern, paths):
        return sum(len(re.findall(pattern, read(path))) for path in paths)

    print(sum("Csync" in read(path) for path in files if not is_trial(path)), "files that name Csync")
    print(count(r"\bmatch [*&\w.]*\bact\b", code), "matches on an act")
    print(len(pieces), "repeated pieces of", WINDOW, "lines or more in proofs")
    print(f"{imports} lines that import, {imports / len(lines):.1%} of all")
    print(len(lines), "lines of the crates")
    size = sum(len(module.made[name]) for (_, name), (module, _) in found.items())
    print(len(found), "definitions below the contract of run_program, with", size, "lines in",
          len({path for path, _ in found}), "files of", len(crates), "crates;", len(types), "types of code")
    _, top, size = headline.page()
    print(top, "definitions in the top layer of docs/HEADLINE.md, with", size, "lines")
    print(count(r"\blet _ =", code), "let _ = in code")
    for piece in pieces if asked.pairs else []:
        print(*piece)
    for path, name in sorted(found) if asked.below else []:
        print(path, name, len(found[path, name][0].made[name]))
    for path in sorted(types) if asked.below else []:
        print(*path)


if __name__ == "__main__":
    sys.exit(main())
