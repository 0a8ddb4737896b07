""".ci/edits.py, in a small repository with a stand-in for `rt` that proves nothing."""
import os
import shutil
import subprocess
import tempfile
import unittest
from pathlib import Path

TOP = Path(__file__).resolve().parents[2]
CRATES = """# base
vms_low: thiserror
vms_mid: vms_low
vms_aside: memchr
"""
CODE = "fn one() -> u32 {\n    1 + 2\n}\n"
EDIT = "file: src/lib.rt\nold:     1 + 2\nnew:     2 + 2\n"
# Notes each call, with the crates that stand there and what is kept of them, and says of each edit what stands in its
# first line after `#`, or that it is refused. It ends early where EARLY is set.
RT = r"""#!/usr/bin/env bash
echo "$* with $(echo crates/*) jobs $RT_JOBS" >>"$CALLS"
find crates -path '*/out/*' -type f | sort >>"$CALLS"
[ -z "${EARLY:-}" ] || { echo 'error: a library is not proved'; exit 1; }
status=0
for it in crates/"$2"/must-fail/*.edit; do
    said=$(sed -n '1s/^# *//p' "$it")
    echo "rt: must-fail $2/$(basename "$it"): ${said:-refused, as it must be: src/lib.rt:1:1: error}"
    [ -z "$said" ] || status=1
done
echo 'rt: the end'
exit $status
"""


class EditsTest(unittest.TestCase):
    def setUp(self):
        room = tempfile.TemporaryDirectory()
        self.addCleanup(room.cleanup)
        self.top, self.calls, self.temporary = Path(room.name, "top"), Path(room.name, "calls"), Path(room.name, "tmp")
        for name in ("vms_low", "vms_mid", "vms_aside"):
            self.write(f"crates/{name}/src/lib.rt", CODE)
        self.write("crates.txt", CRATES)
        self.write("HANDLES", "Handles allowed: none.\n")
        for name in ("edits.py", "quick_rt.py"):
            (self.top / ".ci").mkdir(exist_ok=True)
            shutil.copy2(TOP / ".ci" / name, self.top / ".ci" / name)
        tools = Path(room.name, "bin")
        tools.mkdir()
        self.temporary.mkdir()
        (tools / "rt").write_text(RT)
        (tools / "rt").chmod(0o755)
        self.environment = {**os.environ, "PATH": f"{tools}:{os.environ['PATH']}", "CALLS": str(self.calls),
                            "TMPDIR": str(self.temporary)}

    def write(self, name, text):
        path = self.top / name
        path.parent.mkdir(parents=True, exist_ok=True)
        path.write_text(text)

    def start(self, *words, **settings):
        """The status, the lines, what was said of an error, and the calls that were made."""
        self.calls.unlink(missing_ok=True)
        ended = subprocess.run([self.top / ".ci" / "edits.py", *words], text=True, capture_output=True, timeout=60,
                               env={**self.environment, **settings}, check=False)
        self.assertEqual([*self.temporary.iterdir()], [])
        calls = self.calls.read_text().splitlines() if self.calls.exists() else []
        return ended.returncode, ended.stdout.splitlines(), ended.stderr, calls

    def test_tries_the_edits_beside_the_crates_in_a_copy(self):
        self.write("edits/vms_mid/adds_one.edit", EDIT)
        self.write("edits/vms_mid/adds_two.edit", EDIT)
        self.write("crates/vms_mid/must-fail/inside.edit", EDIT)
        self.write("crates/vms_mid/out/rlib/stamp", "mid")
        self.write("crates/vms_mid/out/incremental/a.oantt", "kept")
        self.write("crates/vms_low/out/rlib/stamp", "low")
        self.write("crates/vms_low/out/incremental/a.oantt", "kept")
        before = sorted(self.top.rglob("*"))
        status, lines, errors, calls = self.start("--jobs", "3")
        self.assertEqual((status, errors), (0, ""))
        self.assertEqual(lines, [
            "refused: vms_mid/adds_one: src/lib.rt:1:1: error", "refused: vms_mid/adds_two: src/lib.rt:1:1: error",
            "2 edits of 1 crates: 2 refused, 0 NOT REFUSED, 0 BAD EDIT, 0 NOT TRIED"])
        self.assertEqual(calls, ["must-fail vms_mid with crates/vms_low crates/vms_mid jobs 3",
                                 "crates/vms_low/out/rlib/stamp", "crates/vms_mid/out/incremental/a.oantt",
                                 "crates/vms_mid/out/rlib/stamp"])
        self.assertEqual(sorted(self.top.rglob("*")), before)

    def test_tries_those_of_the_crates_too_where_it_is_told(self):
        self.write("edits/vms_mid/beside.edit", EDIT)
        self.write("crates/vms_mid/must-fail/inside.edit", EDIT)
        self.write("crates/vms_aside/must-fail/inside.edit", EDIT)
        status, lines, _, calls = self.start("--both")
        self.assertEqual((status, sorted(line.split(": ")[1] for line in lines[:-1])),
                         (0, ["vms_aside/inside", "vms_mid/beside", "vms_mid/inside"]))
        self.assertEqual(sorted(call.split(" with")[0] for call in calls), ["must-fail vms_aside", "must-fail vms_mid"])
        self.assertEqual(self.start("--both", "vms_aside")[1][-1],
                         "1 edits of 1 crates: 1 refused, 0 NOT REFUSED, 0 BAD EDIT, 0 NOT TRIED")

    def test_tries_the_edits_that_it_is_given(self):
        for name in ("one", "two", "three"):
            self.write(f"edits/vms_mid/{name}.edit", EDIT)
        self.write("edits/vms_low/one.edit", EDIT)
        self.write("crates/vms_mid/must-fail/inside.edit", EDIT)
        status, lines, _, calls = self.start("vms_mid/two", "vms_mid/inside", "vms_mid/two")
        self.assertEqual((status, len(calls)), (0, 1))
        self.assertEqual([line.split(": ")[1] for line in lines[:-1]], ["vms_mid/two", "vms_mid/inside"])
        self.assertEqual(self.start("vms_mid/four")[2], ".ci/edits.py: vms_mid/four is no edit\n")

    def test_says_what_came_of_each(self):
        for name, said in [("a", "NOT REFUSED: the crate is still proved"), ("b", "BAD EDIT: no such name"),
                           ("c", "NOT TRIED: its check was killed"), ("d", "refused, as it must be (only by a limit)")]:
            self.write(f"edits/vms_low/{name}.edit", f"# {said}\n{EDIT}")
        status, lines, _, _ = self.start()
        self.assertEqual((status, lines), (1, [
            "NOT REFUSED: vms_low/a: the crate is still proved", "BAD EDIT: vms_low/b: no such name",
            "NOT TRIED: vms_low/c: its check was killed", "refused: vms_low/d: (only by a limit)",
            "4 edits of 1 crates: 1 refused, 1 NOT REFUSED, 1 BAD EDIT, 1 NOT TRIED"]))

    def test_an_edit_of_which_nothing_is_said_was_not_tried(self):
        self.write("edits/vms_low/wrong.edit", EDIT)
        status, lines, _, _ = self.start(EARLY="1")
        self.assertEqual((status, lines[0]), (1, "NOT TRIED: vms_low/wrong: error: a library is not proved"))

    def test_names_what_it_cannot_try(self):
        self.write("edits/vms_low/wrong.edit", EDIT)
        for name in ("vms_mid", "vms_nowhere"):
            status, lines, errors, calls = self.start(name)
            self.assertEqual((status, lines, calls), (2, [], []))
            self.assertEqual(errors, f".ci/edits.py: {name} is no crate with edits\n")

    def applied(self, **edits):
        """What --apply says of these edits of vms_low."""
        shutil.rmtree(self.top / "edits", ignore_errors=True)
        for name, text in edits.items():
            self.write(f"edits/vms_low/{name}.edit", text)
        status, lines, _, calls = self.start("--apply")
        self.assertEqual(calls, [])
        return status, lines

    def test_applies_all_and_proves_nothing(self):
        self.write("crates/vms_mid/must-fail/inside.edit", EDIT)
        later = "file: src/lib.rt\nold: 1 +\nnew: 4 +\nold: 4 + 2\nnew: 3\n"
        self.assertEqual(self.applied(good=EDIT, twice=later), (0, ["3 edits, 0 can't be applied"]))
        self.write("crates/vms_mid/must-fail/inside.edit", EDIT.replace("1 + 2", "1 + 3"))
        self.assertEqual(self.applied(good=EDIT), (1, [
            "BAD EDIT: vms_mid/inside.edit: `1 + 3` stands 0 times in src/lib.rt, and not once",
            "2 edits, 1 can't be applied"]))

    def test_finds_each_edit_that_does_not_apply(self):
        self.write("crates/vms_low/specs/Lib.antt", "one = 1\n")
        for text, why in [
                ("", "it doesn't begin with a file of src/"),
                ("file: specs/Lib.antt\nold: one\nnew: two\n", "it doesn't begin with a file of src/"),
                (EDIT + "file: specs/Lib.antt\nold: one\nnew: two\n", "specs/Lib.antt is no file of src/"),
                ("file: src/../specs/Lib.antt\nold: one\nnew: two\n", "src/../specs/Lib.antt is no file of src/"),
                ("file: src/other.rt\nold: one\nnew: two\n", "there is no file src/other.rt"),
                ("file: src/lib.rt\nold: n\nnew: m\n", "`n` stands 2 times in src/lib.rt, and not once"),
                ("file: src/lib.rt\nnew: m\n", "a line isn't read, or stands where it can't: new: m"),
                (EDIT + "    3\n", "a line isn't read, or stands where it can't: 3"),
                (EDIT + "old: 2\n", "the last `old` has no `new`"),
                ("file: src/lib.rt\n", "it changes nothing"),
                ("file: src/lib.rt\nold: one\nnew: one\n", "it changes nothing")]:
            with self.subTest(why):
                self.assertEqual(self.applied(wrong=text),
                                 (1, [f"BAD EDIT: vms_low/wrong.edit: {why}", "1 edits, 1 can't be applied"]))

    def test_finds_what_stands_at_a_wrong_place(self):
        self.write("crates/vms_low/must-fail/same.edit", EDIT)
        self.write("edits/vms_other/lost.edit", EDIT)
        self.write("edits/vms_low/same.edit", EDIT)
        self.write("edits/vms_low/notes.txt", EDIT)
        status, lines, _, _ = self.start("--apply")
        self.assertEqual((status, lines), (1, [
            "BAD EDIT: vms_low/same.edit: it stands in edits/ and in must-fail/",
            "BAD EDIT: vms_low/notes.txt: its name has other marks than letters, digits, _, - and ., or doesn't end in "
            ".edit",
            "BAD EDIT: vms_other: there is no such crate", "3 edits, 3 can't be applied"]))


if __name__ == "__main__":
    unittest.main()
