"""./vozhkell, the script that proves, builds and runs the program, with a stand-in for `rt` that proves nothing."""
import os
import pty
import re
import shutil
import signal
import subprocess
import tempfile
import time
import unittest
from pathlib import Path

TOP = Path(__file__).resolve().parents[2]
CRATES = """# base
vms_low: thiserror
vms_mid: vms_low
vms_aside: vms_low
# program
vozhkell: vms_mid
vms_trials: vms_mid
"""
# Notes each call, waits, and answers as `rt` does: a head for each crate that is done, and then a program.
RT = r"""#!/usr/bin/env bash
echo "$*" >>"$CALLS"
[ -n "${RUN_HOOK:-}" ] && eval "$RUN_HOOK"
if [ "$1" = all ]; then
    for crate in vms_low vms_mid vozhkell; do sleep "${PAUSE:-0}"; printf '== %s\nproved\n' "$crate"; done
    [ -z "${REFUSES:-}" ] || { echo 'fn main: not proved'; exit 1; }
else
    printf '#!/usr/bin/env bash\necho "proved $*"; cat; exit 3\n' >out/vozhkell
    chmod +x out/vozhkell
    cat >/dev/null
    exit "${LINKED:-0}"
fi
"""


class ScriptTest(unittest.TestCase):
    def setUp(self):
        room = tempfile.TemporaryDirectory()
        self.addCleanup(room.cleanup)
        self.top = Path(room.name, "top")
        self.crate = self.top / "crates" / "vozhkell"
        self.out = self.crate / "out"
        self.calls = Path(room.name, "calls")
        for folder in (self.crate / "src", self.top / "crates" / "vms_low" / "specs", self.top / "examples"):
            folder.mkdir(parents=True)
        self.source = self.crate / "src" / "main.rt"
        self.source.write_text("fn main() {}\n")
        (self.top / "crates.txt").write_text(CRATES)
        (self.top / "examples" / "first.vmtrace").write_text("vmtrace 1\n")
        shutil.copy2(TOP / "vozhkell", self.top / "vozhkell")
        (self.top / ".ci").mkdir()
        shutil.copy2(TOP / ".ci" / "quick_rt.py", self.top / ".ci" / "quick_rt.py")
        tools = Path(room.name, "bin")
        tools.mkdir()
        (tools / "rt").write_text(RT)
        (tools / "rt").chmod(0o755)
        self.environment = {**os.environ, "PATH": f"{tools}:{os.environ['PATH']}", "CALLS": str(self.calls)}
        self.age()

    def age(self, seconds=60):
        """Makes all sources older, as a checkout is older than what is built from it."""
        past = time.time() - seconds
        for path in self.top.rglob("*"):
            os.utime(path, (past, past))

    def start(self, *words, text="", **settings):
        ended = subprocess.run([self.top / "vozhkell", *words], input=text, text=True, capture_output=True,
                               env={**self.environment, **settings}, timeout=60, check=False)
        return ended.returncode, ended.stdout, ended.stderr

    def called(self):
        """The words of `rt` that were called, but for the number of jobs."""
        found = self.calls.read_text().splitlines() if self.calls.exists() else []
        self.calls.unlink(missing_ok=True)
        return [re.sub(r"(--jobs )[1-9]\d*$", r"\1N", line) for line in found]

    BUILDS = ["all check --jobs N", "run -- replay"]

    def test_proves_and_runs(self):
        status, output, errors = self.start("replay", "a b", text="input\n")
        self.assertEqual((status, output), (3, "proved replay a b\ninput\n"))
        self.assertEqual(errors, f"vozhkell: proving and building {self.out}/vozhkell, which takes about an hour on four "
                                 "processors where nothing is proved yet\n")
        self.assertEqual(self.called(), self.BUILDS)
        self.assertIn("== vms_mid\nproved\n", (self.out / "vozhkell.log").read_text())
        self.assertEqual(self.start("check", text="x"), (3, "proved check\nx", ""))
        self.assertEqual(self.called(), [])

    def test_newer_sources(self):
        self.start("check")
        for file in (self.source, self.top / "crates" / "vms_low" / "specs" / "New.antt", self.top / "crates.txt"):
            with self.subTest(file.name):
                self.called()
                file.touch()
                os.utime(file, (time.time() + 1, time.time() + 1))
                self.assertEqual(self.start("check")[0], 3)
                self.assertEqual(self.called(), self.BUILDS)
                self.age(5)
                (self.out / "vozhkell").touch()
                self.start("check")
                self.assertEqual(self.called(), [])

    def test_a_source_that_changes_meanwhile(self):
        self.start(RUN_HOOK="sleep 0.1; touch src/main.rt")
        self.called()
        self.start("check")
        self.assertEqual(self.called(), self.BUILDS)

    def test_refused(self):
        """Nothing that isn't proved is run, nor what was proved of older sources."""
        self.start("check")
        self.source.write_text("fn main() { wrong }\n")
        os.utime(self.source, (time.time() + 1, time.time() + 1))
        for what, settings in (("not proved", {"REFUSES": "1"}), ("not linked", {"LINKED": "2"})):
            with self.subTest(what):
                status, output, errors = self.start("replay", **settings)
                self.assertEqual((status, output), (125, ""))
                self.assertEqual("fn main: not proved" in errors, what == "not proved")
                self.assertTrue(errors.endswith(f"no program was built: {self.out}/vozhkell.log has what rt said\n"))
        self.age()
        self.called()
        self.assertEqual(self.start("check")[0], 3)
        self.assertEqual(self.called(), self.BUILDS)

    def test_no_rt(self):
        tools = Path(self.environment["PATH"].split(":")[0])
        (tools / "rt").unlink()
        (tools / "rt").symlink_to("/nowhere")
        paths = [path for path in self.environment["PATH"].split(":") if not Path(path, "rt").is_file()]
        status, output, errors = self.start("replay", PATH=":".join(paths))
        self.assertEqual((status, output), (125, ""))
        self.assertEqual(errors, "vozhkell: nothing was built: there is no rt on the path. It comes with the Rattle kit: "
                                 "README.md, 'The proved program'\n")
        self.assertFalse(self.out.exists())
        self.assertIn("\n## The proved program\n", (TOP / "README.md").read_text(encoding="utf-8"))

    def test_words_that_ask_for_help(self):
        """Nothing is proved for them, nor is `rt` needed; a program that stands answers for itself."""
        helps = [(("--help",), 0), (("-h",), 0), (("--version",), 0), (("--help", "replay"), 0), ((), 1), (("",), 1)]

        def answers():
            for words, wanted in helps:
                with self.subTest(words):
                    status, output, errors = self.start(*words, PATH=os.environ["PATH"])
                    self.assertEqual((status, errors, self.called()), (wanted, "", []))
                    self.assertTrue(output.startswith("usage: ./vozhkell COMMAND "), output)
            return output

        output = answers()
        self.assertFalse(self.out.exists())
        told = (TOP / "crates" / "vms_tool" / "src" / "commands.rt").read_text(encoding="utf-8")
        commands = re.search(r'b"usage: (.*)\\n"', told)[1].split(" | ")
        self.assertEqual(sorted(re.findall(r"^  (\w+(?: [A-Z]+)*)  ", output, re.M)), sorted(commands))
        for document in re.findall(r"\S+\.md", output):
            self.assertTrue((TOP / document).is_file(), document)
        self.start("check")
        self.called()
        for words, _ in helps:
            self.assertEqual(self.start(*words), (3, f"proved {' '.join(words)}\n", ""))
        self.source.touch()
        os.utime(self.source, (time.time() + 1, time.time() + 1))
        answers()

    def test_interrupted(self):
        """A program that a broken build left isn't run."""
        for name in ("INT", "TERM", "KILL"):
            with self.subTest(name):
                shutil.rmtree(self.out, ignore_errors=True)
                hook = f'[ "$1" = all ] || {{ echo >out/vozhkell; chmod +x out/vozhkell; kill -{name} 0; sleep 9; }}'
                ended = subprocess.run([self.top / "vozhkell", "replay"], env={**self.environment, "RUN_HOOK": hook},
                                       start_new_session=True, capture_output=True, timeout=60, check=False,
                                       preexec_fn=lambda: signal.signal(signal.SIGINT, signal.SIG_DFL))
                self.assertNotIn(ended.returncode, (0, 3))
                self.assertEqual(ended.stdout, b"")
                self.age()
                (self.out / "vozhkell").touch()
                self.called()
                self.assertEqual(self.start("replay")[:2], (3, "proved replay\n"))
                self.assertEqual(self.called(), self.BUILDS)

    def test_two_at_once(self):
        both = [subprocess.Popen([self.top / "vozhkell", "replay"], stdin=subprocess.DEVNULL, stdout=subprocess.PIPE,
                                 stderr=subprocess.DEVNULL, text=True, env={**self.environment, "PAUSE": "0.2"})
                for _ in range(2)]
        self.assertEqual([(each.communicate(timeout=60)[0], each.returncode) for each in both],
                         [("proved replay\n", 3)] * 2)
        self.assertEqual(self.called(), self.BUILDS)

    def test_by_a_link_from_elsewhere(self):
        link = self.top.parent / "link"
        link.symlink_to(self.top / "vozhkell")
        ended = subprocess.run([link, "gen"], cwd="/", env=self.environment, stdin=subprocess.DEVNULL, text=True,
                               capture_output=True, timeout=60, check=False)
        self.assertEqual((ended.returncode, ended.stdout), (3, "proved gen\n"))

    def test_a_terminal_shows_how_far_it_is(self):
        ours, theirs = pty.openpty()
        started = subprocess.Popen([self.top / "vozhkell", "replay"], stdin=subprocess.DEVNULL, stdout=subprocess.PIPE,
                                   stderr=theirs, env={**self.environment, "PAUSE": "0.6"})
        os.close(theirs)
        self.assertEqual((started.communicate(timeout=60)[0], started.returncode), (b"proved replay\n", 3))
        shown = os.read(ours, 65536).decode()
        os.close(ours)
        told = re.findall(r"\rvozhkell: (\d) of (\d) crates done, after (\d+):(\d\d) ", shown)
        self.assertEqual(told[0], ("0", "3", "0", "00"))
        self.assertEqual(told[-1][:2], ("3", "3"))
        self.assertIn(("0", "01"), [each[2:] for each in told])
        self.assertNotIn("to go", shown)

    def test_a_terminal_shows_how_long_the_rest_takes(self):
        (self.top / "docs").mkdir()
        (self.top / "docs" / "PERFORMANCE.md").write_text(
            "| crate | proofs | edits | tests | all |\n|---|---|---|---|---|\n"
            "| vms_low | 3.0 | - | - | 3.0 |\n| vms_mid | 30.0 | - | - | 30.0 |\n| vozhkell | 300.0 | - | - | 300.0 |\n")
        self.age()
        ours, theirs = pty.openpty()
        started = subprocess.Popen([self.top / "vozhkell", "replay"], stdin=subprocess.DEVNULL, stdout=subprocess.PIPE,
                                   stderr=theirs, env={**self.environment, "PAUSE": "1.2"})
        os.close(theirs)
        self.assertEqual((started.communicate(timeout=60)[0], started.returncode), (b"proved replay\n", 3))
        shown = os.read(ours, 65536).decode()
        os.close(ours)
        told = re.findall(r"\rvozhkell: (\d) of 3 crates done, after \d:\d\d(?:, about (\d+) min to go)? ", shown)
        self.assertEqual({done for done, left in told if not left}, {"0", "3"})
        # a second or two for 3 minutes' worth, and 330 to go; then two or three for 33, and 300 to go
        self.assertIn(told[[done for done, _ in told].index("1")][1], ("2", "3", "4"))
        self.assertEqual(told[-1], ("3", ""))


if __name__ == "__main__":
    unittest.main()
