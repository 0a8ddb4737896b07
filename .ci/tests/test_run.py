""".ci/run: it goes to its own checkout, whatever CDPATH says, and fails where one of its two parts does."""
import os
import shutil
import subprocess
import tempfile
import unittest
from pathlib import Path

TOP = Path(__file__).resolve().parents[2]


class RunTest(unittest.TestCase):
    def setUp(self):
        folder = tempfile.TemporaryDirectory()
        self.addCleanup(folder.cleanup)
        self.top = Path(folder.name).resolve() / "checkout"
        for name in ("checkout/.ci", "elsewhere/.ci", "bin"):
            (self.top.parent / name).mkdir(parents=True)
        shutil.copy(TOP / ".ci/run", self.top / ".ci/run")
        (self.top / ".ci/own-checks").write_text('pwd\nexit "${CHECKS:-0}"\n')
        rt = self.top.parent / "bin/rt"
        rt.write_text('#!/bin/sh\necho "rt $* in $PWD"\nexit "${RT:-0}"\n')
        rt.chmod(0o755)

    def call(self, **settings):
        parent = self.top.parent
        environment = {**os.environ, "PATH": f"{parent}/bin:{os.environ['PATH']}", **settings}
        done = subprocess.run(["bash", ".ci/run"], cwd=self.top, env=environment, capture_output=True, text=True)
        return done.returncode, done.stdout, done.stderr

    def test_it_goes_to_its_own_checkout(self):
        said = f"rt ci in {self.top}\n{self.top}\n"
        self.assertEqual(self.call(), (0, said, ""))
        self.assertEqual(self.call(CDPATH=f"{self.top.parent}/elsewhere"), (0, said, ""))

    def test_it_fails_where_a_part_fails(self):
        for settings in ({"RT": "1"}, {"CHECKS": "1"}):
            self.assertEqual(self.call(**settings)[0], 1)


if __name__ == "__main__":
    unittest.main()
