"""procinfo.py: a text of the kernel that is cut, doubled or misread is refused, or tells no other bound than the whole.

Nodes and zones of other machines than the recorded one are put together by hand, in the form of zoneinfo_show_print.
"""
import unittest
from unittest import mock

from calls import SAMPLES, vmtrace

import monitor  # once the directory of the tools is known
import procinfo

RECORDED = (SAMPLES / "zoneinfo").read_text(encoding="ascii")
# The normal threshold of 4 CPUs is 6 times one more than the bits of the managed or present pages / 32768.
BOUNDS = {"0 DMA": 4 * 6, "0 DMA32": 4 * 36, "0 Normal": 4 * 54, "0 node": 4 * 54}


def head(node, kind, present=0, spanned=0, stats="", kinds=2):
    """The first lines of a zone, which are all of one without present pages."""
    return (f"Node {node}, zone {kind:>8}\n{stats}  pages free     0\n        min      1\n        low      1\n"
            f"        high     1\n        spanned  {spanned or present}\n        present  {present}\n"
            f"        managed  {present}\n        protection: ({', '.join(['0'] * kinds)})")


def whole(node, kind="Normal", stats="  per-node stats\n      nr_dirty     5\n", more="", kinds=2, items="", last=""):
    """A zone with pages on CPUs 0 and 2, as Linux 5.0 shows it, and what later kernels show of it beyond that."""
    cpus = "".join(f"\n    cpu: {cpu}\n              count: 1\n              high:  2\n              batch: 3{more}"
                   "\n  vm stats threshold: 4" for cpu in (0, 2))
    return (head(node, kind, 1000, stats=stats, kinds=kinds) + f"\n      nr_free_pages 7{items}\n  pagesets{cpus}"
            f"\n  node_unreclaimable:  0\n  start_pfn:           1{last}\n")


def bare(node, kind="Movable", spanned=0, kinds=2):
    return head(node, kind, spanned=spanned, kinds=kinds) + "\n"


class CutTest(unittest.TestCase):
    """The recorded text, changed in a small way, shows no smaller bound: none, that of the whole, or a refusal."""

    alone = monitor.parse(["--zoneinfo", "zoneinfo", "--page-size", "4096"])
    paired = monitor.parse(["--zoneinfo", "zoneinfo", "--page-size", "4096", "--vmstat", "vmstat"])

    def bounds(self, text, vmstat=None):
        """How far the free pages of each zone, and the counters of each node, can be off; None where it is refused."""
        texts = {"zoneinfo": text, "vmstat": vmstat}
        with mock.patch("vmtrace.text_of", texts.get):
            try:
                view = monitor.look(self.paired if vmstat else self.alone, monitor.Thresholds(False))
            except vmtrace.BadInput as refused:
                self.assertRegex(str(refused), r"^(zoneinfo|vmstat):")
                return None
        return {f"{place.node} {place.kind}": {figure.off_by for figure in place.figures.values()}
                for place in view.places}

    def keep(self, text, what, vmstat=None):
        """Whether the text isn't refused. Then it shows the bounds of the whole one, zone by zone."""
        found = self.bounds(text, vmstat)
        if found is not None:
            self.assertEqual(list(found.values()), [{off_by} for off_by in BOUNDS.values()], what)
        return found is not None

    def test_the_whole(self):
        self.assertTrue(self.keep(RECORDED, "the whole"))
        self.assertEqual(list(self.bounds(RECORDED)), list(BOUNDS))

    def test_every_cut(self):
        """No beginning of the recorded text is one that the kernel could have written whole."""
        for size in range(len(RECORDED)):
            self.assertFalse(self.keep(RECORDED[:size], f"the first {size} bytes"))

    def test_every_cut_at_its_beginning(self):
        for size in range(1, len(RECORDED)):
            self.assertFalse(self.keep(RECORDED[size:], f"without the first {size} bytes"))

    def test_every_line_that_is_missing_or_doubled(self):
        lines = RECORDED.splitlines(True)
        for number, line in enumerate(lines):
            self.keep("".join(lines[:number] + lines[number + 1:]), f"without line {number + 1}")
            self.assertFalse(self.keep("".join(lines[:number] + [line] + lines[number:]), f"line {number + 1} twice"))

    def test_every_line_that_is_cut(self):
        """Not within a number: that can't be told where the line has its end."""
        lines = RECORDED.splitlines(True)
        for number, line in enumerate(lines):
            for size in range(len(line) - 1):
                if not line[size].isdigit():
                    text = "".join(lines[:number] + [line[:size] + "\n"] + lines[number + 1:])
                    self.keep(text, f"line {number + 1} cut after {size} bytes")

    def test_every_digit_that_is_damaged(self):
        """Each digit as another one, missing or twice: the bound is that of the whole one, or larger where a threshold
        is, or the text is refused."""
        thresholds = [BOUNDS[zone] // 4 for zone in list(BOUNDS)[:3]]
        refused = 0
        for at, digit in enumerate(RECORDED):
            if not digit.isdigit():
                continue
            line = RECORDED[RECORDED.rfind("\n", 0, at) + 1:RECORDED.index("\n", at)]
            for text in {"", 2 * digit, *"0123456789"} - {digit}:
                try:
                    info = procinfo.read_zoneinfo(RECORDED[:at] + text + RECORDED[at + 1:], "zoneinfo")
                except vmtrace.BadInput as bad:
                    self.assertRegex(str(bad), r"^zoneinfo:[0-9]+: ")
                    refused += 1
                    continue
                found = monitor.Thresholds(False)
                for zone in info.populated:
                    found.take_in(zone, monitor.Machine("zoneinfo", "", info, [], len(info.cpus), 4096))
                largest = [found.of_zone(zone)[0] for zone in info.populated]
                what = f"'{text}' for the digit at {at}, in '{line}'"
                self.assertEqual(len(info.cpus), 4, what)
                if procinfo.THRESHOLD in line:
                    self.assertTrue(all(map(int.__ge__, largest, thresholds)), what)
                else:
                    self.assertEqual(largest, thresholds, what)
        self.assertGreater(refused, 400)

    def test_whole_zones_that_are_missing_or_doubled(self):
        zones = [f"Node 0, zone{text}" for text in RECORDED.split("Node 0, zone")[1:]]
        self.assertEqual("".join(zones), RECORDED)
        self.assertIsNone(self.bounds(RECORDED * 2))
        for number, zone in enumerate(zones):
            self.assertIsNone(self.bounds("".join(zones[:number] + zones[number + 1:])), zone[:20])
            self.assertIsNone(self.bounds(RECORDED + zone), zone[:20])
        for wrong in ("node 0, zone", "Node 0 zone", "Node 0, zones", " Node 0, zone", "Node x, zone"):
            for number, zone in enumerate(zones):
                text = "".join(zones[:number] + [zone.replace("Node 0, zone", wrong)] + zones[number + 1:])
                self.assertIsNone(self.bounds(text), wrong)

    def test_every_cut_of_vmstat(self):
        text = (SAMPLES / "vmstat.before").read_text(encoding="ascii")
        needed = text.index("\nnr_dirty_threshold") + 1
        for size in range(1, len(text)):
            if text[size - 1] == "\n":
                self.assertEqual(self.keep(RECORDED, "a cut vmstat", text[:size]), size >= needed, size)
            else:
                self.assertRaises(vmtrace.BadInput, procinfo.read_vmstat, text[:size], "vmstat")


class FormTest(unittest.TestCase):
    """What kernels show beside what the recorded one shows."""

    def test_texts_of_other_kernels(self):
        highatomic = "\n  reserved_highatomic: 0\n  free_highatomic:     0"
        rows = [
            ("Linux 5.0", whole(0) + bare(0), ["0 Normal"]),
            ("a kernel without NUMA and without a movable zone", whole(0, kinds=1), ["0 Normal"]),
            ("fields of page sets of Linux 6.7", whole(0, more="\n              high_min: 4") + bare(0), ["0 Normal"]),
            ("lines after the first page frame", whole(0, last=highatomic) + bare(0), ["0 Normal"]),
            ("further items", whole(0, items="\n      nr_free_cma  3\n      numa_hit     1") + bare(0), ["0 Normal"]),
            ("two zones with pages", whole(0) + whole(0, "Movable", stats=""), ["0 Normal", "0 Movable"]),
            ("a first zone without pages", bare(0, "DMA") + whole(0), ["0 Normal"]),
            ("a zone of devices", whole(0) + bare(0, "Device", spanned=4096), ["0 Normal"]),
            ("a node without memory", bare(0, "Normal") + bare(0) + whole(1) + bare(1), ["1 Normal"]),
            ("nodes whose numbers aren't in a row", whole(0) + bare(0) + whole(8) + bare(8), ["0 Normal", "8 Normal"]),
            ("one CPU, which has no threshold", whole(0, kinds=1).replace("\n  vm stats threshold: 4", ""),
             ["0 Normal"]),
            ("no managed pages", whole(0, kinds=1).replace("managed  1000", "managed  0"), ["0 Normal"]),
        ]
        for what, text, populated in rows:
            with self.subTest(what):
                info = procinfo.read_zoneinfo(text, "zoneinfo")
                self.assertEqual([str(zone) for zone in info.populated], populated)
                self.assertEqual((info.cpus, info.populated[0].pages["start_pfn"]), ({0, 2}, 1))
                self.assertEqual(list(info.nodes), sorted({zone.node for zone in info.populated}))

    def test_refusals(self):
        two = whole(0) + whole(1)
        rows = [
            ("zoneinfo: not the text of /proc/zoneinfo: no zone with present pages", ""),
            ("zoneinfo: not the text of /proc/zoneinfo: no zone with present pages", bare(0, kinds=1)),
            ("zoneinfo:1: '\\x1b[0m' stands where 'Node N, zone NAME' is expected", "\x1b[0m\n"),
            ("zoneinfo:1: '\\xc3\\xa9' stands where 'Node N, zone NAME' is expected", "\udcc3\udca9\n"),
            ("zoneinfo:2: the last line has no end", "Node 0, zone DMA\n  pages"),
            ("zoneinfo:1: the text ends here, where a line 'pages free N' is expected", "Node 0, zone DMA\n"),
            ("zoneinfo:1: 'Node 0, zone   Normal\\r' stands where", whole(0).replace("\n", "\r\n")),
            ("zoneinfo:5: 'x' is no number", whole(0).replace("min      1", "min      x")),
            ("zoneinfo:5: '-1' is no number", whole(0).replace("min      1", "min      -1")),
            ("zoneinfo:5: '0x1' is no number", whole(0).replace("min      1", "min      0x1")),
            ("zoneinfo:5: '18446744073709551616' is no number", whole(0).replace("min      1", f"min      {2**64}")),
            ("zoneinfo:5: '999", whole(0).replace("min      1", "min      " + "9" * 5000)),
            ("zoneinfo:6: 'min' comes a second time", whole(0).replace("low", "min")),
            ("zoneinfo:1: zone 0 Normal has no 'present'", whole(0).replace("present", "absent")),
            ("zoneinfo:1: zone 0 Normal has no 'nr_free_pages'", whole(0).replace("nr_free_pages", "nr_bounce")),
            ("zoneinfo:12: '      nr_free_pages 7' stands where 'Node N, zone NAME' is expected",
             whole(0).replace("present  1000\n        managed  1000", "present  0\n        managed  0")),
            ("zoneinfo:10: zone 0 Normal has 1000 as 'managed', and 0 as 'present', which is never less",
             whole(0).replace("present  1000", "present  0")),
            ("zoneinfo:12: 'Node 0, zone  Movable' stands where 'pagesets' is expected",
             head(0, "Normal", 1000, stats="  per-node stats\n") + "\n      nr_free_pages 7\n" + bare(0)),
            ("zoneinfo:13: '    cpu: 0' stands where 'pagesets' is expected", whole(0).replace("  pagesets\n", "")),
            ("zoneinfo:19: CPU 0 comes a second time in zone 0 Normal", whole(0).replace("cpu: 2", "cpu: 0")),
            ("zoneinfo:1: zone 0 Normal is one of 2 by its 'protection', and the text has 1 of node 0", whole(0)),
            ("zoneinfo:26: zone 0 Normal comes a second time", whole(0) + whole(0)),
            ("zoneinfo:1: zone 0 Normal is one of 2", two),
            ("zoneinfo:1: 'per-node stats' stand in the first zone", whole(0, stats="", kinds=1)),
            ("zoneinfo:26: 'per-node stats' stand in the first zone", whole(0) + whole(0, "Movable")),
            ("zoneinfo:10: zone 0 Normal has 1001 as 'managed', and 1000 as 'present', which is never less",
             whole(0).replace("managed  1000", "managed  1001")),
            ("zoneinfo:9: zone 0 Normal has 1000 as 'present', and 999 as 'spanned', which is never less",
             whole(0).replace("spanned  1000", "spanned  999")),
            ("zoneinfo:33: zone 0 Movable has 1 as 'managed', and 0 as 'present', which is never less",
             whole(0) + bare(0).replace("managed  0", "managed  1")),
            ("zoneinfo:26: zone 1 Normal shows other CPUs",
             whole(0, kinds=1) + whole(1, kinds=1).replace("cpu: 2", "cpu: 3")),
            ("zoneinfo:1: zone 0 Normal shows other CPUs, or thresholds of others",
             whole(0, kinds=1).replace("\n  vm stats threshold: 4", "", 1)),
            ("zoneinfo:26: zone 1 Normal has other items", whole(0, kinds=1)
             + whole(1, items="\n      nr_mlock 1", kinds=1)),
            ("zoneinfo:26: node 1 has other items", whole(0, kinds=1) + whole(1, kinds=1).replace("nr_dirty", "nr_shmem")),
        ]
        for message, text in rows:
            with self.subTest(message), self.assertRaises(vmtrace.BadInput) as refused:
                procinfo.read_zoneinfo(text, "zoneinfo")
            self.assertTrue(str(refused.exception).startswith(message), f"{refused.exception}, and not {message}")

    def test_vmstat(self):
        self.assertEqual(procinfo.read_vmstat("nr_free_pages 4\npgfault 5\n", "vmstat"),
                         {"nr_free_pages": 4, "pgfault": 5})
        rows = [
            ("vmstat: not the text of /proc/vmstat: no line 'nr_free_pages N'", "pgfault 5\n"),
            ("vmstat:2: the last line has no end", "nr_free_pages 4\npgfault 5"),
            ("vmstat:2: 'x' is no number", "nr_free_pages 4\npgfault x\n"),
            ("vmstat:2: 'nr_free_pages' comes a second time", "nr_free_pages 4\nnr_free_pages 5\n"),
            ("vmstat:2: 'pgfault' stands where 'NAME N' is expected", "nr_free_pages 4\npgfault\npgfree 4\n"),
        ]
        for message, text in rows:
            with self.subTest(message), self.assertRaises(vmtrace.BadInput) as refused:
                procinfo.read_vmstat(text, "vmstat")
            self.assertTrue(str(refused.exception).startswith(message), f"{refused.exception}, and not {message}")


if __name__ == "__main__":
    unittest.main()
