"""when.py: numbers that were worked out by hand or that a kernel showed, and what makes the documents stale."""
import io
import os
import sys
import tempfile
import unittest
from contextlib import redirect_stdout
from pathlib import Path

TOP = Path(__file__).resolve().parent.parent.parent
sys.path.insert(0, str(TOP / ".ci"))
import when  # once its directory is known

from procinfo import read_zoneinfo  # once that of the tools is known


class WhenTest(unittest.TestCase):
    def test_what_cpus_hide(self):
        rows = [
            # 2 * 3 digits of 4 CPUs * (1 + 7 digits of 104 blocks of 128 MiB)
            (13 * when.GIB, 4, 4096, 4 * 48),
            # 2 * 7 digits of 64 CPUs * (1 + 5 digits of 23 blocks)
            (when.DMA32, 64, 4096, 64 * 84),
            # 2 * 8 * (1 + 13) is more than 125
            (512 * when.GIB, 128, 4096, 128 * 125),
            # 2 * 2 * (1 + 0)
            (when.DMA, 2, 4096, 2 * 4),
            # 1 GiB of pages of 64 KiB: 2 * 2 * (1 + 4)
            (2**14, 2, 2**16, 2 * 20),
        ]
        for pages, cpus, page_bytes, wanted in rows:
            with self.subTest(pages=pages, cpus=cpus):
                self.assertEqual(when.hidden(pages, cpus, page_bytes), wanted)

    def test_it_is_what_a_kernel_showed(self):
        text = (TOP / "tools" / "samples" / "zoneinfo").read_text(encoding="ascii")
        zones = read_zoneinfo(text, "zoneinfo").populated
        managed = [zone.pages["managed"] for zone in zones]
        self.assertEqual(managed[:2], [when.DMA, when.DMA32])
        for zone in zones:
            self.assertEqual(when.hidden(zone.pages["managed"], 4), sum(zone.thresholds.values()))
            marks = tuple(zone.pages[mark] for mark in ("min", "low", "high"))
            self.assertEqual(when.marks_of(managed, zone.kind), marks)

    def test_distances_of_watermarks(self):
        # 1 in 1,000 pages; with 69 in 10,000 DMA32 has 5,333 and with 70 it has 5,410, where 5,376 are wanted
        self.assertEqual(when.step(when.DMA32), 772)
        self.assertEqual(when.covering_scale(when.zones_of(256), "DMA32", 5376), 70)
        self.assertEqual(when.covering_scale(when.zones_of(256), "DMA32", 772), 10)
        self.assertIsNone(when.covering_scale(when.zones_of(512), "DMA", 2048))

    def test_sizes(self):
        rows = [(0, "0 KiB"), (8, "32 KiB"), (255, "1020 KiB"), (256, "1 MiB"), (5376, "21 MiB"), (8000, "31.2 MiB"),
                (when.GIB, "1 GiB"), (1024 * when.GIB, "1 TiB")]
        for pages, wanted in rows:
            self.assertEqual(when.size(pages), wanted)

    def said(self, *words):
        out = io.StringIO()
        with redirect_stdout(out):
            return when.main(list(words)), out.getvalue()

    def test_stale_documents(self):
        room = tempfile.TemporaryDirectory()
        self.addCleanup(room.cleanup)
        self.addCleanup(os.chdir, os.getcwd())
        os.chdir(room.name)
        Path("docs").mkdir()
        readme = Path("README.md")
        guide = Path("docs/GUIDE.md")
        for page in (readme, guide):
            page.write_text(f"# It\n\n{when.BEGIN}\n{when.END}\n\nMore.\n", encoding="utf-8")
        self.assertEqual(self.said("--check")[0], 1)
        self.assertFalse(Path("docs/WHEN.md").exists())
        self.assertEqual(self.said(), (0, "3 documents, 0 wrong\n"))
        self.assertEqual(self.said("--check"), (0, "3 documents, 0 wrong\n"))
        self.assertIn("| the value or a test in Normal | 3,439, 13.4 MiB | 192, 768 KiB |",
                      guide.read_text(encoding="utf-8"))
        text = readme.read_text(encoding="utf-8")
        self.assertTrue(text.startswith("# It\n") and text.endswith("More.\n") and "21 MiB" in text)
        for name, before, after in (("README.md", "21 MiB", "22 MiB"), ("docs/WHEN.md", "**21 MiB**", "**20 MiB**"),
                                    ("docs/GUIDE.md", "| 192, ", "| 193, ")):
            with self.subTest(name):
                path = Path(name)
                whole = path.read_text(encoding="utf-8")
                path.write_text(whole.replace(before, after), encoding="utf-8")
                self.assertEqual(self.said("--check"),
                                 (1, f"{name} is stale: .ci/when.py makes it anew\n3 documents, 1 wrong\n"))
                path.write_text(whole, encoding="utf-8")
        readme.write_text("# It\n", encoding="utf-8")
        self.assertEqual(self.said()[0], 1)
        self.assertEqual(readme.read_text(encoding="utf-8"), "# It\n")


if __name__ == "__main__":
    unittest.main()
