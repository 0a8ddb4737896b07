#!/usr/bin/env python3
"""Has each file import the names of other crates from few places.

A crate's specs/Common.antt passes on the definitions of the crate that other crates, or its own proofs, cite, and its
proofs/Common.antt the lemmas that other crates cite. What `vms_history`, `vms_calls` and `vms_world` pass on has the
names of the crates that they name in crates.txt too, types and variants included: a crate imports from the highest of
the three that it names. Imported directly are a crate's own types, what a proof unfolds, and a name that two crates
give to different things.

    .ci/common_names.py            turns the imports of every file to the Common files as they stand
    .ci/common_names.py --check    changes nothing, lists the files that would change, and ends with 1 if there are any
    .ci/common_names.py --rewrite  writes the Common files anew first, with all that is cited: each crate whose file
                                   changes is proved again, with all above it, so a name that few cite can wait
"""

import collections
import glob
import os
import re
import sys

LAYERS = ["vms_world", "vms_calls", "vms_history"]  # the highest first
WIDTH = 120
USE = re.compile(r"^(\s*)(unfoldable )?(pub )?(ghost )?use Rattle\.(\w+)\.(specs|proofs)\.(.*)\.\{(.*)\}(;?)\s*$")
HEADS = {
    "specs": "-- The definitions that other crates and this one's proofs cite, passed on from one place. Declares nothing.",
    "layer": "-- The names of this crate and of those below it that the crates above cite, passed on from one place.",
    "proofs": "-- For other crates too: the lemmas that they cite, passed on from one place. Declares nothing.",
}


def split_names(text):
    return [name.strip() for name in text.split(",") if name.strip()]


def base_of(name):
    """The name as its module has it, without the `as` of an import."""
    return name.split(" as ")[0].strip()


def pack(before, names, after):
    """The names in as few lines as their width allows."""
    lines, held = [], []
    for name in names:
        if held and len(before + ", ".join([*held, name]) + after) > WIDTH:
            lines.append(before + ", ".join(held) + after)
            held = []
        held.append(name)
    return [*lines, before + ", ".join(held) + after]


def text_of(path):
    with open(path, encoding="utf-8") as file:
        return file.read()


class House:
    """The crates of the repository, their files, and where each name of a Common file stands."""

    def __init__(self):
        self.crates = {}
        for line in text_of("crates.txt").splitlines():
            if line.strip() and not line.startswith("#"):
                name, libraries = line.split(":", 1)
                self.crates[name.split()[0]] = libraries.split()
        self.below = {crate: self.all_below(crate, set()) for crate in self.crates}
        paths = [
            path
            for crate in self.crates
            for part in ("src", "specs", "proofs")
            for ending in ("rt", "antt")
            for path in glob.glob(f"crates/{crate}/{part}/**/*.{ending}", recursive=True)
        ]
        self.texts = {path: text_of(path) for path in sorted(paths)}
        self.passed_on, self.unfolded = {}, set()
        for path, text in self.texts.items():
            for line in text.splitlines():
                if found := re.match(r"\s*unfoldable pub (\S+) :", line):
                    self.unfolded.add(found.group(1))
                if found := re.match(r"\s*unfolding (.*)", line):
                    self.unfolded.update(found.group(1).split())
                if self.is_common(path) and (found := USE.match(line)):
                    crate, part = path.split("/")[1:3]
                    for name in split_names(found.group(8)):
                        self.passed_on[crate, part, name] = (found.group(5), found.group(7))

    def all_below(self, crate, found):
        for other in self.crates.get(crate, []):
            if other in self.crates and other not in found:
                found.add(other)
                self.all_below(other, found)
        return found

    @staticmethod
    def is_common(path):
        return path.endswith(("/specs/Common.antt", "/proofs/Common.antt"))

    def home_of(self, crate, part, module, name):
        """The crate and the module in which an imported name stands."""
        return self.passed_on.get((crate, part, name), (crate, module)) if module == "Common" else (crate, module)

    def road_of(self, own, where, crate, part, module):
        """The crate and the part whose Common may pass the names of a module on to a file, if there is one."""
        if crate not in self.crates:
            return None
        is_declared = module.startswith("declared.")
        if crate == own:
            return (crate, "specs") if where == "proofs" and part == "specs" and not is_declared else None
        if part == "proofs":
            return (crate, "proofs")
        for layer in LAYERS:
            if layer in self.crates[own]:
                if crate in self.crates[layer] or crate == layer and not is_declared:
                    return (layer, "specs")
                break
        return None if is_declared else (crate, "specs")

    def standing(self):
        """For each Common that stands the names that it passes on, each with its home."""
        found = collections.defaultdict(dict)
        for (crate, part, name), home in self.passed_on.items():
            found[crate, part][name] = home
        return found

    def cited(self):
        """The same of what the files cite: of a name that two crates give to different things neither."""
        cited = collections.defaultdict(lambda: collections.defaultdict(collections.Counter))
        for path, text in self.texts.items():
            if self.is_common(path):
                continue
            own, where = path.split("/")[1:3]
            for line in text.splitlines():
                found = USE.match(line)
                if not found or found.group(3):
                    continue
                crate, part, module = found.group(5, 6, 7)
                for name in map(base_of, split_names(found.group(8))):
                    home = self.home_of(crate, part, module, name)
                    road = self.road_of(own, where, home[0], part, home[1])
                    if road and name not in self.unfolded:
                        cited[road][name][home] += 1
        return {
            road: {
                name: max(homes.items(), key=lambda it: (it[1], it[0]))[0]
                for name, homes in names.items()
                if len({crate for crate, _ in homes}) == 1
            }
            for road, names in cited.items()
        }

    def common_text(self, crate, part, names):
        modules = collections.defaultdict(list)
        for name, home in names.items():
            modules[home].append(name)
        order = list(self.crates)

        def rank(home):
            other, module = home
            first = module.split(".")[0]
            listed = re.findall(r"^(?:pub )?mod (\w+)$", self.texts.get(f"crates/{other}/{part}/Lib.antt", ""), re.M)
            place = -1 if first == "declared" else listed.index(first) if first in listed else len(listed)
            return (other == crate, len(self.below[other]), order.index(other), place, module)

        lines = [HEADS["layer" if crate in LAYERS and part == "specs" else part]]
        for home in sorted(modules, key=rank):
            lines += pack(f"pub use Rattle.{home[0]}.{part}.{home[1]}.{{", sorted(modules[home]), "}")
        return "\n".join(lines) + "\n"

    def file_text(self, path, chosen):
        """The file with its imports by the Commons that pass their names on, each where the first of its names stood."""
        own, where = path.split("/")[1:3]
        lines = self.texts[path].split("\n")
        groups, taken, block = {}, set(), 0
        for number, line in enumerate(lines):
            found = USE.match(line)
            if not found:
                # what stands between two blocks of imports keeps its place
                block += bool(line.strip()) and not re.match(r"\s*(pub )?(ghost )?use ", line)
                continue
            if found.group(3):
                continue
            indent, ghost, crate, part, module, end = found.group(1, 4, 5, 6, 7, 9)
            taken.add(number)
            for name in split_names(found.group(8)):
                home = self.home_of(crate, part, module, base_of(name))
                road = self.road_of(own, where, home[0], part, home[1])
                is_passed = road and chosen.get(road, {}).get(base_of(name)) == home
                to = (*road, "Common") if is_passed else (home[0], part, home[1])
                names = groups.setdefault((block, indent, ghost or "", *to, end), (number, []))[1]
                if name not in names:
                    names.append(name)
        written = collections.defaultdict(list)
        for (_, indent, ghost, crate, part, module, end), (number, names) in groups.items():
            written[number] += pack(f"{indent}{ghost}use Rattle.{crate}.{part}.{module}.{{", names, "}" + end)
        kept = []
        for number, line in enumerate(lines):
            kept += written.get(number, [] if number in taken else [line])
        return "\n".join(kept)

    def wanted(self, is_anew):
        """Each file with the text that it should have."""
        chosen = self.cited() if is_anew else self.standing()
        texts = {path: self.file_text(path, chosen) for path in self.texts if not self.is_common(path)}
        for (crate, part), names in chosen.items() if is_anew else ():
            if names:
                texts[f"crates/{crate}/{part}/Common.antt"] = self.common_text(crate, part, names)
                listed = f"crates/{crate}/{part}/Lib.antt"
                text = texts.get(listed, "")
                if not re.search(r"^(pub )?mod Common$", text, re.M):
                    texts[listed] = text + "pub mod Common\n"
        return texts


def main(words):
    if words not in ([], ["--check"], ["--rewrite"]):
        print(__doc__)
        return 2
    os.chdir(os.path.join(os.path.dirname(os.path.abspath(__file__)), ".."))
    house = House()
    changed = {path: text for path, text in house.wanted(words == ["--rewrite"]).items() if house.texts.get(path) != text}
    for path, text in sorted(changed.items()):
        if words == ["--check"]:
            print(path)
        else:
            os.makedirs(os.path.dirname(path), exist_ok=True)
            with open(path, "w", encoding="utf-8") as file:
                file.write(text)
    return 1 if words == ["--check"] and changed else 0


if __name__ == "__main__":
    sys.exit(main(sys.argv[1:]))
