""".ci/release.py: which manual pages and which releases it refuses. dist/install and dist/make: what they refuse."""
import io
import subprocess
import sys
import tarfile
import tempfile
import unittest
from pathlib import Path

TOP = Path(__file__).resolve().parents[2]
sys.path.insert(0, str(TOP / ".ci"))
import release  # once its directory is known

USAGE = "usage: check | replay | gen SEED CPUS LINES\n"
PAGE = '.SH COMMANDS\n.TP\n.B check\nWrites.\n.TP\n.BI gen " SEED"\nMakes.\n.TP\n.B replay\n.SH EXIT STATUS\n.TP\n.B 0\n'
HEADER = "static inline int vozhkell_open(vozhkell *counters)\n{\n}\nint32_t vozhkell_c_open(void);\n"


def archive(path, **files):
    with tarfile.open(path, "w:gz") as made:
        for name, text in files.items():
            part = tarfile.TarInfo(name)
            part.size = len(text)
            made.addfile(part, io.BytesIO(text.encode()))
    return path


class ReleaseTest(unittest.TestCase):
    def setUp(self):
        room = tempfile.TemporaryDirectory()
        self.addCleanup(room.cleanup)
        self.room = Path(room.name)

    def refused(self, call, *words):
        with self.assertRaises(release.Wrong) as caught:
            call(*words)
        return str(caught.exception)

    def test_a_page_has_each_command_and_no_other(self):
        commands = release.commands_in_usage(USAGE)
        self.assertEqual(commands, {"check", "replay", "gen"})
        release.compare(commands, release.commands_in_page(PAGE), "usage", "page")
        rows = [
            (".TP\n.B check\nWrites.\n", "", "check is in usage and not in page"),
            (".SH EXIT", ".TP\n.B merge\n.SH EXIT", "merge is in page and not in usage"),
            (".B replay\n", ".B reply\n", "replay is in usage and not in page\nreply is in page and not in usage"),
        ]
        for old, new, says in rows:
            page = release.commands_in_page(PAGE.replace(old, new))
            self.assertEqual(self.refused(release.compare, commands, page, "usage", "page"), says)

    def test_a_page_has_each_function(self):
        functions = release.functions_in_header(HEADER)
        self.assertEqual(functions, {"vozhkell_open"})
        self.assertEqual(release.functions_in_page(".B int vozhkell_open(vozhkell *counters);\n"), functions)
        self.refused(release.compare, functions, release.functions_in_page(""), "header", "page")

    def test_the_pages_that_stand(self):
        page = (TOP / "dist/vozhkell.1").read_text()
        self.assertIn("certify", release.commands_in_page(page))
        header = TOP / "crates/vozhkell_c/vozhkell.h"
        made = subprocess.run([sys.executable, "-B", TOP / "dist/manual.py", "library", "0", "0", header], check=True,
                              capture_output=True, text=True).stdout
        release.compare(release.functions_in_header(header.read_text()), release.functions_in_page(made), "h", "page")

    def test_a_release_that_differs_from_itself(self):
        one = archive(self.room / "1.tar.gz", a="a", b="b")
        (self.room / "other").mkdir()
        other = archive(self.room / "other/1.tar.gz", a="a", b="c", d="")
        release.same([one], [one])
        self.assertEqual(self.refused(release.same, [one], [other]), "1.tar.gz differs from itself\nb\nd")
        self.assertIn("one is 1.tar.gz", self.refused(release.same, [one], [archive(self.room / "2.tar.gz")]))
        self.refused(release.same, [], [])

    def test_make_refuses_what_it_cannot_tell(self):
        rows = [
            (["debian"], "no such word: debian"),
            (["--gate"], "--gate wants a name"),
            (["--gate", self.gate("own-checks: ok: all\n")], "has no last line of the gate"),
            (["--gate", self.gate("9 passed, 1 failed\n")], "the gate failed"),
            (["--gate", self.gate("9 passed, 0 failed\nown-checks: FAILED: one (1 s)\n")], "the gate failed"),
            (["--gate", self.gate("9 passed, 0 failed (vms_base and the crates below alone: not the gate)\n")],
             "has no last line of the gate"),
        ]
        for words, says in rows:
            ended = subprocess.run([TOP / "dist/make", "--out", self.room, *words], capture_output=True, text=True)
            self.assertEqual((ended.returncode, ended.stdout), (1, ""))
            self.assertIn(says, ended.stderr)

    def gate(self, text):
        (self.room / "gates").mkdir(exist_ok=True)
        file = self.room / "gates" / str(len(list((self.room / "gates").iterdir())))
        file.write_text(text)
        return str(file)


if __name__ == "__main__":
    unittest.main()
