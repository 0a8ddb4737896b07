"""Each tool ends with a message, and without a traceback, whatever becomes of its input, its output, its imports."""
import os
import subprocess
import sys
import tempfile
import unittest
from pathlib import Path

from calls import SAMPLES, TOOLS
from page import EVENTS
from vmtrace import NODE_ITEMS, ZONE_ITEMS

FREE = "0 Normal nr_free_pages"
TRACE = f"vmtrace 1\ncpus 1\nzone 0 Normal 262144 100 125 150\nbase {FREE} 9\ngo\nk val {FREE}\n"
ANSWERS = "line 6: value 9\ndone accepted 1 refused 0\n"
TOOL_WORDS = {
    "monitor": ["--zoneinfo", str(SAMPLES / "zoneinfo")],
    "from_kernel": ["--zoneinfo", str(SAMPLES / "zoneinfo")],
    "probe": ["trace", FREE, "1"],
    "drift": ["trace", "answers"],
    "page": ["trace", "--program", "program"],
    "make_monitor": [],
}
# Stands for the program: what it prints of TRACE, and of TRACE with the questions of page.py wherever they stand.
PROGRAM = f"""#!{sys.executable} -S
import sys
lines = sys.stdin.read().splitlines()
for at in [n for n, line in enumerate(lines, 1) if line == "report zoneinfo"]:
    zone, node = {{item: 0 for item in {ZONE_ITEMS}}}, {{item: 0 for item in {NODE_ITEMS}}}
    zone["nr_free_pages"] = 9
    cpu = "  cpu 0 threshold 10 differentials" + 8 * " 0"
    print(f"line {{at}}: report zoneinfo", "Node 0, zone Normal", "  drift mark 0", sep="\\n")
    print(*(f"  {{item}} {{value}}" for item, value in zone.items()), cpu, "Node 0, all zones", sep="\\n")
    print(*(f"  {{item}} {{value}}" for item, value in node.items()), cpu, sep="\\n")
    print(f"line {{at + 1}}: report totals")
    print(*(f"0 Normal {{item}} {{value}}" for item, value in zone.items()), sep="\\n")
    print(*(f"0 node {{item}} 0" for item in node), *(f"event {{event}} 0" for event in {EVENTS}), sep="\\n")
    print(f"line {{at + 2}}: report counters")
    print(*(f"line {{at + 3 + n}}: events 0" for n in range(8)), sep="\\n")
print("done accepted 1 refused 0")
"""
INTERRUPTED = """
import runpy, sys
class Interrupted:
    def find_spec(self, name, *_):
        if name == "vmtrace":
            raise KeyboardInterrupt
sys.meta_path.insert(0, Interrupted())
sys.path.insert(0, sys.argv[1])
runpy.run_path(sys.argv[2], run_name="__main__")
"""


class OutputTest(unittest.TestCase):
    def setUp(self):
        directory = tempfile.TemporaryDirectory()
        self.addCleanup(directory.cleanup)
        self.addCleanup(os.chdir, os.getcwd())
        os.chdir(directory.name)
        Path("trace").write_text(TRACE, encoding="ascii")
        Path("answers").write_text(ANSWERS, encoding="ascii")
        Path("program").write_text(PROGRAM, encoding="ascii")
        os.chmod("program", 0o755)

    def call(self, tool, words, redirected=""):
        """The status and the standard error of a tool that a shell starts, with what it redirects."""
        script = f'exec "$0" "$@" {redirected}'
        ended = subprocess.run(["bash", "-c", script, sys.executable, "-S", "-B", str(TOOLS / f"{tool}.py"), *words],
                               stdin=subprocess.DEVNULL, capture_output=True, timeout=60, check=False,
                               env={name: text for name, text in os.environ.items() if name != "PYTHONUNBUFFERED"})
        self.assertNotIn(b"Traceback", ended.stderr, (tool, redirected))
        self.assertNotIn(b"Exception", ended.stderr, (tool, redirected))
        return ended.returncode, ended.stderr.decode()

    def test_outputs(self):
        full, closed = "standard output: No space left on device\n", "standard output is closed\n"
        rows = [
            (">&-", [], 1, closed),
            (">/dev/full", [], 1, full),
            (">/dev/full", ["--help"], 1, full),
            ("2>&- >/dev/null", [], 0, ""),
            ("2>/dev/full >/dev/null", [], 0, ""),
            (">&- 2>&- <&-", [], 1, ""),
        ]
        for tool, words in TOOL_WORDS.items():
            for redirected, more, status, message in rows:
                with self.subTest((tool, redirected, more)):
                    found, errors = self.call(tool, words + more, redirected)
                    self.assertEqual(found, status, errors)
                    self.assertTrue(errors.endswith(message and f"{tool}: {message}"), errors)

    def test_a_reader_that_leaves(self):
        for tool, words in TOOL_WORDS.items():
            with self.subTest(tool):
                status, errors = self.call(tool, words, "> >(exec <&-; sleep 0.2)")
                self.assertIn(status, (0, 1))
                self.assertNotIn("rror", errors)

    def test_ctrl_c_while_importing(self):
        for tool, words in TOOL_WORDS.items():
            with self.subTest(tool):
                ended = subprocess.run([sys.executable, "-S", "-B", "-c", INTERRUPTED, str(TOOLS),
                                        str(TOOLS / f"{tool}.py")],
                                       capture_output=True, timeout=60, check=False)
                self.assertEqual((ended.stdout, ended.stderr), (b"", b""))
                self.assertIn(ended.returncode, (-2, 130))

    def test_words_that_are_no_text(self):
        for tool, words in TOOL_WORDS.items():
            with self.subTest(tool):
                status, errors = self.call(tool, [*words, b"\xff\x1b[31m"])
                self.assertEqual(status, 2)
                self.assertTrue(errors.endswith(f"{tool}.py: error: unrecognized arguments: \\xff\\x1b[31m\n"), errors)

    def test_inputs_that_are_none(self):
        firsts = {"monitor": ["--zoneinfo"], "from_kernel": ["--zoneinfo"], "probe": [], "drift": [], "page": []}
        lasts = {"probe": [FREE, "1"], "drift": ["answers"]}
        Path("bytes").write_bytes(b"\xffx\x1b\n")
        rows = [
            ("-", "<&-", "standard input is closed"),
            (".", "", ".: Is a directory"),
            (b"\xff", "", "\\xff: No such file"),
            ("bytes", "", "bytes:1: '\\xffx\\x1b'"),
        ]
        for tool, first in firsts.items():
            for name, redirected, message in rows:
                with self.subTest((tool, name)):
                    status, errors = self.call(tool, [*first, name, *lasts.get(tool, [])], redirected)
                    self.assertEqual((status, errors[:len(tool) + 2]), (1, f"{tool}: "))
                    self.assertIn(message, errors)

    def test_each_tool_can_be_called(self):
        for tool in TOOL_WORDS:
            self.assertTrue(os.access(TOOLS / f"{tool}.py", os.X_OK), tool)


if __name__ == "__main__":
    unittest.main()
