"""bench/gate_times.py, on a small list of crates with times."""
import contextlib
import importlib.util
import io
import tempfile
import unittest
from pathlib import Path

TOP = Path(__file__).resolve().parents[2]
CRATES = """# base
vms_low: thiserror
vms_mid: vms_low
vms_aside: vms_low
# program
vozhkell: vms_mid vms_aside
"""
TABLE = """# Times
<!-- times of crates -->
| crate | proofs | edits | tests | all |
|---|---|---|---|---|
| vms_mid | 4.0 | - | 2.0 | 6.0 |
| vms_aside | 3.0 | 1.5 | - | 4.5 |
| vozhkell | 2.0 | - | - | 2.0 |
| vms_low | 1.0 | - | - | 1.0 |
| together | 10.0 | 1.5 | 2.0 | 13.5 |
<!-- end of times -->
What follows.
"""


class GateTimesTest(unittest.TestCase):
    def setUp(self):
        room = tempfile.TemporaryDirectory()
        self.addCleanup(room.cleanup)
        self.top = Path(room.name)
        spec = importlib.util.spec_from_file_location("gate_times", TOP / "bench" / "gate_times.py")
        self.tool = importlib.util.module_from_spec(spec)
        spec.loader.exec_module(self.tool)
        self.tool.TOP = self.top
        (self.top / "crates.txt").write_text(CRATES)
        self.page = self.top / "TIMES.md"
        self.page.write_text(TABLE)

    def told(self, *words):
        said = io.StringIO()
        with contextlib.redirect_stdout(said):
            status = self.tool.main([str(it) for it in words])
        return status, said.getvalue()

    def test_holds_the_table_against_the_crates(self):
        self.assertEqual(self.told("--check", self.page), (0, ""))
        (self.top / "crates.txt").write_text(CRATES.replace("vms_aside", "vms_other"))
        status, said = self.told("--check", self.page)
        self.assertEqual(status, 1)
        self.assertEqual(said, "vms_other isn't in the table of TIMES.md\nvms_aside is in the table of TIMES.md, and no crate\n")

    def test_refuses_a_crate_that_stands_twice(self):
        self.page.write_text(TABLE.replace("| vms_low |", "| vms_mid |"))
        with self.assertRaises(SystemExit):
            self.told("--check", self.page)

    def test_refuses_a_page_without_a_table(self):
        self.page.write_text("# Times\n")
        with self.assertRaises(SystemExit):
            self.told("--check", self.page)

    def test_reckons_the_gate(self):
        # vms_low, then vms_mid beside vms_aside and the tests of vms_mid, then vozhkell; 1.5 minutes of edits fill gaps
        self.assertEqual(self.told("--reckon", self.page, 1)[1].split(", the longest")[0],
                         "14 processor minutes, 14 minutes on 1 processors")
        self.assertEqual(self.told("--reckon", self.page, 2),
                         (0, "14 processor minutes, 7 minutes on 2 processors, the longest chain 7\n"))

    def test_reckons_crates_with_all_below(self):
        self.assertEqual(self.told("--reckon", self.page, 4, "vms_mid"),
                         (0, "5 processor minutes, 5 minutes on 4 processors, the longest chain 5\n"))

    def test_writes_the_table_in_its_place(self):
        self.assertEqual(self.told("--write", self.page, "true")[0], 0)
        text = self.page.read_text()
        self.assertTrue(text.startswith("# Times\n<!-- times of crates -->\n| crate |"))
        self.assertTrue(text.endswith("<!-- end of times -->\nWhat follows.\n"))
        self.assertNotIn("vms_mid", text)


if __name__ == "__main__":
    unittest.main()
