""".ci/prove_libraries.py, with stand-ins for `rt` and for crates, whose sources are one word each."""
import os
import shutil
import subprocess
import tempfile
import unittest
from pathlib import Path

CI = Path(__file__).resolve().parents[1]
LIBRARY = """
import os


class Crate:
    def __init__(self, folder, root, known, above=()):
        self.folder, self.name = folder, os.path.basename(folder)
        self.rlib = f"{folder}/out/rlib/{self.name}.rlib"
        self.source, *below = open(f"{folder}/source").read().split()
        self.deps = []
        for name in below:
            path = f"{root}/crates/{name}"
            known[path] = known.get(path) or Crate(path, root, known)
            self.deps.append(known[path])

    def makes_rlib(self):
        return True

    def below(self):
        found = []
        for dep in self.deps:
            found += [it for it in [*dep.below(), dep] if it not in found]
        return found

    def stamp(self):
        return "-".join([self.name, self.source, *[dep.stamp() for dep in self.deps]])

    def count(self, pattern):
        return 1

    def is_built(self):
        kept = f"{self.folder}/out/rlib/stamp"
        return os.path.isfile(kept) and open(kept).read() == self.stamp()

    def build_rlib(self, flags, anew):
        os.makedirs(os.path.dirname(self.rlib), exist_ok=True)
        with open(os.environ["BUILT"], "a") as it:
            it.write(self.name + "\\n")
        return 1 if self.source == "wrong" else 0


def guarded():
    return []
"""
RT = """#!/usr/bin/env python3
import rtlib


class Crate(rtlib.Crate):
    pass


def handles_of(root):
    return ()


def main(words):
    return 0
"""


class ProveLibraries(unittest.TestCase):
    def setUp(self):
        folder = tempfile.TemporaryDirectory()
        self.addCleanup(folder.cleanup)
        self.room = Path(folder.name)
        kit = self.room / "kit"
        kit.mkdir()
        (kit / "rtlib.py").write_text(LIBRARY)
        (kit / "rt").write_text(RT)
        (kit / "rt").chmod(0o755)
        self.top = self.clone("first")

    def clone(self, name, **sources):
        """A repository of three crates in a row, and one that stands alone."""
        top = self.room / name
        shutil.copytree(CI, top / ".ci", ignore=shutil.ignore_patterns("__pycache__", "tests"))
        for crate, below in {"low": "", "mid": "low", "high": "mid low", "alone": ""}.items():
            (top / "crates" / crate).mkdir(parents=True)
            (top / "crates" / crate / "source").write_text(f"{sources.get(crate, 'right')} {below}")
        return top

    def run_script(self, *words, top=None):
        """The status, what was said, and which libraries were built, in this order."""
        built = self.room / "built"
        built.write_text("")
        words = ["python3", (top or self.top) / ".ci" / "prove_libraries.py", "--lanes", "1", *words]
        environment = {**os.environ, "PATH": f"{self.room / 'kit'}:{os.environ['PATH']}", "BUILT": str(built)}
        done = subprocess.run(words, capture_output=True, text=True, env=environment, timeout=60)
        self.assertEqual(done.stderr, "")
        return done.returncode, done.stdout, built.read_text().split()

    def test_each_library_below_is_built_once_the_lowest_first(self):
        self.assertEqual(self.run_script("high")[::2], (0, ["low", "mid", "high"]))
        self.assertEqual(self.run_script("high")[::2], (0, []))
        self.assertEqual(self.run_script()[::2], (0, ["alone"]))

    def test_what_changed_is_built_again_with_what_stands_on_it(self):
        self.run_script()
        (self.top / "crates" / "mid" / "source").write_text("other low")
        self.assertEqual(self.run_script()[::2], (0, ["mid", "high"]))

    def test_what_stands_on_a_wrong_library_is_not_tried(self):
        (self.top / "crates" / "mid" / "source").write_text("wrong low")
        status, said, built = self.run_script()
        self.assertEqual((status, sorted(built)), (1, ["alone", "low", "mid"]))
        self.assertIn("mid NOT PROVED", said)
        self.assertIn("high not tried", said)

    def test_a_pool_serves_other_clones(self):
        pool = self.room / "pool"
        self.run_script("--pool", pool, "high")
        second = self.clone("second", mid="other")
        self.assertEqual(self.run_script("--pool", pool, "high", top=second)[::2], (0, ["mid", "high"]))

    def test_what_is_missing_is_named_and_not_built(self):
        self.run_script("low")
        status, said, built = self.run_script("--check", "high")
        self.assertEqual((status, built), (1, []))
        self.assertEqual([line.split()[-1] for line in said.splitlines() if "missing:" in line], ["mid", "high"])

    def test_a_stop_file_in_the_pool_begins_no_other_library(self):
        pool = self.room / "pool"
        pool.mkdir()
        (pool / "stop").write_text("")
        self.assertEqual(self.run_script("--pool", pool, "high")[2], [])


if __name__ == "__main__":
    unittest.main()
