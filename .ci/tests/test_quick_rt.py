""".ci/quick_rt.py, with stand-ins for `rt`."""
import os
import subprocess
import tempfile
import unittest
from pathlib import Path

TOP = Path(__file__).resolve().parents[2]
# Prints each crate that a sum reads, and then the sum. Crates stand in a row, each on all that come before it.
LIBRARY = """
class Crate:
    def __init__(self, folder, deps):
        self.folder, self.deps = folder, deps

    def stamp(self):
        print(self.folder, end=" ")
        return self.folder + "".join(f"({dep.stamp()})" for dep in self.deps)

    def below(self):
        found = []
        for dep in self.deps:
            found += [it for it in [*dep.below(), dep] if it not in found]
        return found
"""
RT = """#!/usr/bin/env python3
import sys
import rtlib


def main(words):
    crates = []
    for folder in words:
        crates.append(rtlib.Crate(folder, list(crates)))
    for _ in range(2):
        print(crates[-1].stamp())
        below = crates[-1].below()
        print("".join(it.folder for it in below))
        below.clear()
    return 3


if __name__ == "__main__":
    sys.exit(main(sys.argv[1:]))
"""


PLANT = """#!/usr/bin/env python3
import rtlib as rt


def main(*words):
    crates = []
    for folder in words:
        crates.append(rt.Crate(folder, list(crates)))
    print(crates[-1].stamp())
    return 5
"""


class QuickRtTest(unittest.TestCase):
    def setUp(self):
        room = tempfile.TemporaryDirectory()
        self.addCleanup(room.cleanup)
        self.tools = Path(room.name)

    def write(self, text, library=None):
        (self.tools / "rt").write_text(text)
        (self.tools / "rt").chmod(0o755)
        if library is not None:
            (self.tools / "rtlib.py").write_text(library)

    def start(self, *words, quick=True):
        program = [TOP / ".ci" / "quick_rt.py"] if quick else [self.tools / "rt"]
        ended = subprocess.run([*program, *words], capture_output=True, text=True, check=False, timeout=60,
                               env={**os.environ, "PATH": f"{self.tools}:{os.environ['PATH']}"})
        return ended.returncode, ended.stdout.splitlines(), ended.stderr

    def test_each_crate_is_read_once_a_sum(self):
        self.write(RT, LIBRARY)
        status, lines, errors = self.start("a", "b", "c", quick=False)
        self.assertEqual((status, errors), (3, ""))
        self.assertEqual(lines, 2 * ["c a b a c(a)(b(a))", "ab"])
        self.assertEqual(self.start("a", "b", "c"), (3, 2 * ["c a b c(a)(b(a))", "ab"], ""))

    def test_rt_plant_reads_each_crate_once_too(self):
        self.write(RT, LIBRARY + "\n\ndef guarded():\n    return []\n")
        (self.tools / "rt-plant").write_text(PLANT)
        self.assertEqual(self.start("plant", "a", "b", "c"), (5, ["c a b c(a)(b(a))"], ""))

    def test_another_rt_is_run_as_it_is(self):
        for what, text, library in [
                ("no python", "#!/usr/bin/env bash\necho \"as it is: $*\"; exit 4\n", None),
                ("no library", "#!/usr/bin/env python3\nimport sys\nprint('as it is:', *sys.argv[1:])\nsys.exit(4)\n",
                 None),
                ("no sum", RT.replace("def main(words):", "def main(words):\n    print('as it is:', *words)\n    return 4"),
                 "class Crate:\n    pass\n")]:
            with self.subTest(what):
                self.write(text, library)
                self.assertEqual(self.start("a", "b c"), (4, ["as it is: a b c"], ""))

    def test_no_rt(self):
        paths = [path for path in os.environ["PATH"].split(":") if not Path(path, "rt").is_file()]
        ended = subprocess.run([TOP / ".ci" / "quick_rt.py", "check"], capture_output=True, text=True, check=False,
                               env={**os.environ, "PATH": ":".join(paths)})
        self.assertEqual((ended.returncode, ended.stderr), (127, "rt: command not found\n"))
