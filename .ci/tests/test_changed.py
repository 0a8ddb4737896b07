""".ci/changed, in a small repository with a stand-in for `rt` that proves nothing."""
import os
import re
import shutil
import subprocess
import tempfile
import unittest
from pathlib import Path

TOP = Path(__file__).resolve().parents[2]
CRATES = """# base
vms_low: thiserror
vms_mid: vms_low
vms_aside: memchr
# program
vozhkell: vms_mid
"""
# Notes each call with the crate that it is made in, and refuses the calls that match REFUSES.
RT = r"""#!/usr/bin/env bash
call="$1 ${2:-$(basename "$PWD")}"
echo "$call" >>"$CALLS"
said='refused, as it must be'
[[ ! $call =~ ^(${REFUSES:-none})$ ]] || said='NOT REFUSED: still proved'
[ "$1" != must-fail ] || for it in crates/"$2"/must-fail/*.edit; do
    echo "rt: must-fail $2/$(basename "$it"): $said"
done
[[ ! $call =~ ^(${REFUSES:-none})$ ]] || { echo "error: $call"; exit 1; }
"""
FIGURES = """# Performance

## Counting

| crate | proofs |
|---|---|
| `vms_low` | 900 |

## Proving

| crate | lines | proofs and tests | edits |
| --- | --- | --- | --- |
| `vms_low` * | 11 | 3.0 | 7.0 |
| `vms_mid` | 12 | 0.5 | |
| together | 23 | 3.5 | 7.0 |

## Other
"""


class ChangedTest(unittest.TestCase):
    def setUp(self):
        room = tempfile.TemporaryDirectory()
        self.addCleanup(room.cleanup)
        self.top, self.calls = Path(room.name, "top"), Path(room.name, "calls")
        for name in ("vms_low", "vms_mid", "vms_aside", "vozhkell"):
            self.write(f"crates/{name}/src/lib.rt", "fn one() {}\n")
        self.write("crates/vms_low/must-fail/wrong.edit", "file: src/lib.rt\n")
        self.write("edits/vms_mid/other.edit", "file: src/lib.rt\n")
        self.write("edits/vms_mid/wrong.edit", "file: src/lib.rt\n")
        self.write("crates/vozhkell/proofs/Lemmas.antt", 2500 * "\n")
        self.write("docs/PERFORMANCE.md", FIGURES)
        self.write("crates/vms_mid/src/tests.rt", "#[test]\nfn two() {}\n")
        self.write("crates.txt", CRATES)
        self.write("examples/first.vmtrace", "vmtrace 1\n")
        self.write("vozhkell", "#!/usr/bin/env bash\necho program >>\"$CALLS\"\n", 0o755)
        self.write(".ci/own-checks", "echo own-checks >>\"$CALLS\"\n")
        for name in ("changed", "edits.py", "quick_rt.py"):
            shutil.copy2(TOP / ".ci" / name, self.top / ".ci" / name)
        tools = Path(room.name, "bin")
        tools.mkdir()
        (tools / "rt").write_text(RT)
        (tools / "rt").chmod(0o755)
        self.environment = {**os.environ, "PATH": f"{tools}:{os.environ['PATH']}", "CALLS": str(self.calls)}
        self.git("init", "-q")
        self.git("add", "-A")
        self.git("-c", "user.name=n", "-c", "user.email=e", "commit", "-qm", "first")

    def write(self, name, text, mode=0o644):
        path = self.top / name
        path.parent.mkdir(parents=True, exist_ok=True)
        path.write_text(text)
        path.chmod(mode)

    def git(self, *words):
        subprocess.run(["git", *words], cwd=self.top, check=True, capture_output=True)

    def start(self, *words, **settings):
        """The status, the lines without their times, and the calls that were made."""
        self.calls.unlink(missing_ok=True)
        ended = subprocess.run([self.top / ".ci" / "changed", *words], text=True, capture_output=True, timeout=60,
                               env={**self.environment, **settings}, check=False)
        lines = [re.sub(r"^ *\d+ s  ", "", line) for line in ended.stdout.splitlines()]
        return ended.returncode, lines, self.calls.read_text().splitlines() if self.calls.exists() else []

    def test_takes_what_changed_and_what_stands_above(self):
        self.write("crates/vms_low/src/lib.rt", "fn one() { }\n")
        status, lines, calls = self.start("--jobs", "1")
        self.assertEqual(status, 0)
        self.assertEqual(lines, [
            "crates that changed since HEAD: 1, with those above them: 3",
            "from nothing, with 1 jobs: checks of 3 crates, about 6 minutes, and then 3 edits, about 1",
            "ok: layout of vms_low",
            "ok: check vms_low", "ok: check vms_mid", "ok: check vozhkell",
            "ok: edits of vms_low (1 refused)", "ok: edits of vms_mid (2 refused)",
            "ok: tests of vms_mid",
            "ok: the program is built", "ok: own checks",
            "all of it holds; the gate decides"])
        self.assertEqual(calls, ["fmt vms_low", "check vms_low", "check vms_mid", "check vozhkell",
                                 "must-fail vms_low", "must-fail vms_mid", "test vms_mid", "program", "own-checks"])
        self.assertEqual([path.name for path in (self.top / "crates").glob("*/must-fail/*")], ["wrong.edit"])

    def test_takes_new_files_and_lines_of_the_list(self):
        self.write("crates/vms_aside/specs/New.antt", "")
        self.write("crates.txt", CRATES.replace("vozhkell: vms_mid", "vozhkell: vms_mid vms_aside"))
        _, lines, _ = self.start()
        self.assertEqual(lines[0], "crates that changed since HEAD: 2, with those above them: 2")

    def test_takes_a_crate_alone_where_its_edits_or_its_readme_differ(self):
        self.write("edits/vms_low/new.edit", "file: src/lib.rt\n")
        self.write("crates/vms_aside/README.md", "# vms_aside\n")
        (self.top / "edits/vms_mid/other.edit").unlink()
        status, lines, calls = self.start("--jobs", "1", "--skip", "own")
        self.assertEqual((status, lines[0]), (0, "crates that changed since HEAD: 3, with those above them: 3"))
        self.assertEqual(calls, ["check vms_low", "check vms_mid", "check vms_aside", "must-fail vms_low",
                                 "must-fail vms_mid", "test vms_mid"])
        self.assertIn("ok: edits of vms_low (2 refused)", lines)

    def test_reckons_by_lines_what_has_no_figure(self):
        self.write("crates/vozhkell/src/lib.rt", "fn one() { }\n")
        self.assertEqual(self.start()[1][1],
                         "from nothing, with 2 jobs: checks of 1 crates, about 2 minutes, and then 0 edits, about 0")
        self.write("crates/vms_low/src/lib.rt", "fn one() { }\n")
        (self.top / "docs/PERFORMANCE.md").unlink()
        self.assertEqual(self.start()[1][1],
                         "from nothing, with 2 jobs: checks of 3 crates, about 2 minutes, and then 3 edits, about 0")

    def test_goes_by_the_commit_that_it_is_given(self):
        self.write("crates/vms_mid/src/lib.rt", "fn one() { }\n")
        self.git("-c", "user.name=n", "-c", "user.email=e", "commit", "-qam", "second")
        self.assertEqual(self.start()[1][0], "crates that changed since HEAD: 0, with those above them: 0")
        self.assertEqual(self.start("HEAD~1")[1][0], "crates that changed since HEAD~1: 1, with those above them: 2")

    def test_tries_nothing_above_a_crate_that_is_not_proved(self):
        self.write("crates/vms_low/src/lib.rt", "fn one() { }\n")
        status, lines, calls = self.start(REFUSES="check vms_low")
        self.assertEqual(status, 1)
        self.assertIn("FAILED: check vms_low", lines)
        self.assertIn("         error: check vms_low", lines)
        self.assertIn("NOT TRIED: check vms_mid, as vms_low isn't proved", lines)
        self.assertEqual(lines[-1], "not fit to be handed in")
        self.assertEqual(calls, ["fmt vms_low", "check vms_low"])

    def test_fails_where_an_edit_or_a_test_does(self):
        self.write("crates/vms_low/src/lib.rt", "fn one() { }\n")
        for refused in ("must-fail vms_low", "must-fail vms_mid", "test vms_mid", "fmt vms_low"):
            status, lines, calls = self.start(REFUSES=refused)
            self.assertEqual((status, lines[-1]), (1, "not fit to be handed in"), refused)
            self.assertNotIn("own-checks", calls, refused)
        _, lines, _ = self.start(REFUSES="must-fail vms_mid")
        at = lines.index("FAILED: edits of vms_mid")
        self.assertEqual(lines[at + 1:at + 3], ["         NOT REFUSED: vms_mid/other: still proved",
                                                "         NOT REFUSED: vms_mid/wrong: still proved"])

    def test_skips_what_it_is_told(self):
        self.write("crates/vms_mid/src/lib.rt", "fn one() { }\n")
        status, _, calls = self.start("--skip", "edits", "--skip", "tests", "--skip", "own")
        self.assertEqual((status, calls), (0, ["fmt vms_mid", "check vms_mid", "check vozhkell"]))

    def test_names_a_commit_that_is_not_there(self):
        ended = subprocess.run([self.top / ".ci" / "changed", "nowhere"], text=True, capture_output=True, check=False,
                               env=self.environment, timeout=60)
        self.assertEqual((ended.returncode, ended.stdout), (2, ""))
        self.assertRegex(ended.stderr, r"^\.ci/changed: .*nowhere")


if __name__ == "__main__":
    unittest.main()
