"""commands.py: which commands of a document it refuses, in a small tree."""
import os
import sys
import tempfile
import unittest
from pathlib import Path
from unittest import mock

sys.path.insert(0, str(Path(__file__).resolve().parent.parent))
import commands  # once its directory is known

TOOL = "import sys\nsys.exit('--wrong' in sys.argv or '--right' in sys.argv and 0)\n"


class CommandsTest(unittest.TestCase):
    def setUp(self):
        room = tempfile.TemporaryDirectory()
        self.addCleanup(room.cleanup)
        self.top = Path(room.name)
        (self.top / "tools").mkdir()
        (self.top / "tools" / "tool.py").write_text(TOOL)
        patch = mock.patch.multiple(commands, TOP=self.top, help_of_rt=lambda: "rt ci  rt check [--only X]")
        patch.start()
        self.addCleanup(patch.stop)

    def check(self, text):
        (self.top / "README.md").write_text(text)
        wrong, ran, looked_up = commands.check("README.md")
        return ran, looked_up, wrong

    def test_commands_that_are_right(self):
        rows = [
            ("```sh\npython3 tools/tool.py --right\n```\n", 1, 0),
            ("```sh\necho a; echo b; echo c\n```\n\n```output 0\na\n...\nc\n```\n", 1, 0),
            ("```sh\necho a; exit 3\n```\n\n```output 3\na\n```\n", 1, 0),
            ("```sh\nmkdir out && echo a > out/a\n```\n```sh\ncat out/a\n```\n```output 0\na\n```\n", 2, 0),
            ("```sh not run: it asks for much\npython3 tools/tool.py --right &&\n    rt check --only X\n```\n", 0, 1),
            ("```sh reads /nowhere\npython3 tools/tool.py\n```\n", 0, 1),
            (f"```sh reads {os.devnull}\npython3 tools/tool.py\n```\n", 1, 0),
            ("See `tools/tool.py --right`, and `rt check\n--only X`, `rt_like` and `tools`.\n", 0, 2),
            ("```\nnothing to run\n```\n\n    low = min + step\n", 0, 0),
        ]
        for text, ran, looked_up in rows:
            with self.subTest(text):
                self.assertEqual(self.check(text), (ran, looked_up, []))
        self.assertFalse((self.top / "out").exists())

    def test_commands_on_the_plain_program(self):
        program = self.top / "plain"
        program.write_text("#!/bin/sh\necho plain $1\n")
        program.chmod(0o755)
        rows = [
            ("```sh\n./vozhkell replay\n```\n\n```output 0\nplain replay\n```\n", 1, 0),
            ("```sh\necho a | ./vozhkell run\n```\n\n```output 0\nplain run\n```\n", 1, 0),
            ("```sh\n(cd tools && rt check)\n```\n", 0, 1),
            ("```sh\npython3 tools/tool.py --right\n```\n", 1, 0),
        ]
        for text, ran, looked_up in rows:
            with self.subTest(text):
                (self.top / "README.md").write_text(text)
                wrong, *counts = commands.check("README.md", program)
                self.assertEqual((counts, wrong), ([ran, looked_up], []))

    def test_commands_that_are_refused(self):
        rows = [
            ("```sh\npython3 tools/tool.py --wrong\n```\n", "status 1"),
            ("```sh\nmissing-command\n```\n", "status 127"),
            ("```sh\necho a\n```\n\n```output 0\nb\n```\n", "status 0\na\n"),
            ("```sh\necho a\n```\n\n```output 3\na\n```\n", "status 0\na\n"),
            ("```sh not run\ntrue\n```\n", "its first line says 'sh not run'"),
            ("```sh not run: long\ntools/other.py\n```\n", "tools/other.py isn't there"),
            ("```sh not run: long\nsudo python3 tools/tool.py --live\n```\n", "tools/tool.py has no --live"),
            ("Call `rt proof`.\n", "rt has no proof"),
            ("Call `rt check --all`.\n", "rt has no --all"),
            ("Call `python3 tools/other.py`.\n", "tools/other.py isn't there"),
            ("Call this:\n\n    ./vozhkell replay\n", "a command in an indented block:     ./vozhkell replay"),
            ("```\n./vozhkell replay\n```\n", "a command in a block that isn't sh: ./vozhkell replay"),
        ]
        for text, why in rows:
            with self.subTest(text):
                _, _, wrong = self.check(text)
                self.assertEqual(len(wrong), 1)
                self.assertIn(why, wrong[0])


if __name__ == "__main__":
    unittest.main()
