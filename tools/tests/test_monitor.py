"""monitor.py: texts of the kernel on one side, bounds worked out by hand on the other; and a recorded second, replayed.

On 2 CPUs a zone of 262,144 pages of 4 KiB has the normal threshold 2 * 2 * (1 + 4) = 20, one of 1,000 pages
2 * 2 * 1 = 4, and one of 262,144 pages of 64 KiB 2 * 2 * (1 + 8) = 36.
"""
import dataclasses
import gzip
import json
import re
import shutil
import subprocess
import sys
import tempfile
import unittest
from pathlib import Path
from unittest import mock

from calls import SAMPLES, TOOLS, ToolTest, vmtrace

import figures  # once the directory of the tools is known
import items
import monitor
from procinfo import read_zoneinfo

TOP = TOOLS.parent
READING = re.compile(r"line (\d+): (value|snapshot|system) (\d+)$", re.M)
NORMAL = "0 Normal nr_free_pages"


PAGE = ("--page-size", "4096")
NODE_STATS = "      nr_dirty     13\n      nr_kernel_stack 1928\n      nr_dirtied   90\n      nr_file_hugepages 3\n"


def zone(kind="Normal", free=1000, managed=262144, thresholds=(20, 20), marks=(100, 125, 150), node=0, stats=NODE_STATS,
         present=None, kinds=1):
    """A zone as /proc/zoneinfo has it, with a threshold for each CPU, or the CPU alone for None.

    It has the counters of its node if it is the first one of it, and the node has so many kinds of zones.
    """
    cpus = "".join(f"    cpu: {cpu}\n              count:    0\n              high:     7\n"
                   + ("" if threshold is None else f"  vm stats threshold: {threshold}\n")
                   for cpu, threshold in enumerate(thresholds))
    per_node = f"  per-node stats\n{stats}" if stats else ""
    return (f"Node {node}, zone {kind:>8}\n{per_node}  pages free     {free}\n        boost    0\n"
            "        min      {}\n        low      {}\n        high     {}\n".format(*marks)
            + f"        spanned  {present or managed}\n        present  {present or managed}\n"
            f"        managed  {managed}\n"
            f"        protection: ({', '.join(['0'] * kinds)})\n"
            f"      nr_free_pages {free}\n      nr_mlock     7\n      numa_hit     5\n"
            f"  pagesets\n{cpus}  node_unreclaimable:  0\n  start_pfn:           4096\n")


def unpopulated(kind="Movable", node=0, spanned=0, kinds=3):
    """A zone without present pages, as /proc/zoneinfo has it. A zone of devices spans pages none the less."""
    return (f"Node {node}, zone {kind:>8}\n  pages free     0\n        boost    0\n        min      32\n"
            f"        low      32\n        high     32\n        spanned  {spanned}\n        present  0\n"
            f"        managed  0\n        protection: ({', '.join(['0'] * kinds)})\n")


EMPTY = unpopulated()
SMALL = (zone("DMA", 3000, 1000, (4, 4), (3005, 3000, 2990), kinds=3)
         + zone(free=1000, stats="", kinds=3) + EMPTY)
VMSTAT = ("nr_free_pages 4000\nnr_mlock 14\nnuma_hit 11\nnr_dirty 13\nnr_kernel_stack 1928\nnr_dirtied 90\n"
          "nr_file_hugepages 3\nnr_dirty_threshold 792761\npgfault 5\n")
SUMMARY = """Worst by share: Node 0, zone Normal: 1000 free pages (3.9 MiB), off by at most 40 (0.2 MiB), 4.00 %
Worst in pages: Node 0, zone Normal: 1000 free pages (3.9 MiB), off by at most 40 (0.2 MiB), 4.00 %
All nodes: 4000 free pages (15.6 MiB), off by at most 48 (0.2 MiB), 1.20 %
Watermarks that can't be told: 0 DMA min, 0 DMA low, of 6
Watermarks that free pages are surely below: none, of 6
"""
TEXT = SUMMARY + """Node 0, zone DMA: each of 2 CPUs may keep 4 pages of a counter to itself
  min           3005  free pages: can't be told, by values_tell_nearly
  low           3000  free pages: can't be told, by values_tell_nearly
  high          2990  free pages: surely above, by values_tell_nearly
  nr_free_pages 3000  off by at most 8: 2992 to 3008, by values_tell_nearly
  nr_mlock         7  off by at most 8: 0 to 15, by values_tell_nearly
Node 0, zone Normal: each of 2 CPUs may keep 20 pages of a counter to itself
  min            100  free pages: surely above, by values_tell_nearly
  low            125  free pages: surely above, by values_tell_nearly
  high           150  free pages: surely above, by values_tell_nearly
  nr_free_pages 1000  off by at most 40: 960 to 1040, by values_tell_nearly
  nr_mlock         7  off by at most 40: 0 to 47, by values_tell_nearly
Node 0, all zones: each of 2 CPUs may keep 20 pages of a counter to itself
  nr_dirty 13  off by at most 40: 0 to 53, by values_tell_nearly
All nodes
  nr_free_pages 4000  off by at most 48: 3952 to 4048, by system_drift
  nr_mlock        14  off by at most 48: 0 to 62, by system_drift
  nr_dirty        13  off by at most 40: 0 to 53, by system_drift
Laws
"""
METRICS = """# HELP vozhkell_cpus How many CPUs may keep a part of each counter to themselves.
# TYPE vozhkell_cpus gauge
vozhkell_cpus 2
# HELP vozhkell_page_size_bytes The size of a page.
# TYPE vozhkell_page_size_bytes gauge
# UNIT vozhkell_page_size_bytes bytes
vozhkell_page_size_bytes 4096
# HELP vozhkell_zone_threshold How much of a counter of a zone one CPU may keep to itself, in what is counted.
# TYPE vozhkell_zone_threshold gauge
vozhkell_zone_threshold{node="0",zone="DMA"} 4
vozhkell_zone_threshold{node="0",zone="Normal"} 20
# HELP vozhkell_zone_free_pages nr_free_pages of a zone, as /proc/zoneinfo shows it. The true number is at most \
vozhkell_zone_free_uncertainty_pages from it.
# TYPE vozhkell_zone_free_pages gauge
# UNIT vozhkell_zone_free_pages pages
vozhkell_zone_free_pages{node="0",zone="DMA"} 3000
vozhkell_zone_free_pages{node="0",zone="Normal"} 1000
# HELP vozhkell_zone_free_uncertainty_pages By how much vozhkell_zone_free_pages can be off at most, by \
values_tell_nearly, without what is in flight.
# TYPE vozhkell_zone_free_uncertainty_pages gauge
# UNIT vozhkell_zone_free_uncertainty_pages pages
vozhkell_zone_free_uncertainty_pages{node="0",zone="DMA"} 8
vozhkell_zone_free_uncertainty_pages{node="0",zone="Normal"} 40
# HELP vozhkell_node_threshold How much of a counter of a node one CPU may keep to itself, in what is counted.
# TYPE vozhkell_node_threshold gauge
vozhkell_node_threshold{node="0"} 20
# HELP vozhkell_node_dirty_pages nr_dirty of a node, as /proc/zoneinfo shows it. The true number is at most \
vozhkell_node_dirty_uncertainty_pages from it.
# TYPE vozhkell_node_dirty_pages gauge
# UNIT vozhkell_node_dirty_pages pages
vozhkell_node_dirty_pages{node="0"} 13
"""


class MonitorTest(ToolTest):
    tool = "monitor"

    def look(self, zoneinfo, *options, vmstat=None, page=PAGE):
        """What the tool says as JSON of these texts, of a machine with pages of 4 KiB."""
        words = ["--zoneinfo", self.file("zoneinfo", zoneinfo), *page]
        if vmstat is not None:
            words += ["--vmstat", self.file("vmstat", vmstat)]
        status, output, errors = self.call(*words, "--json", *options)
        self.assertEqual(status, 0, errors)
        return json.loads(output)

    def live(self, zoneinfo, present):
        """This machine, as these texts have it."""
        self.file("zoneinfo", zoneinfo)
        self.file("vmstat", VMSTAT)
        Path("present").unlink(missing_ok=True)
        if present is not None:
            self.file("present", present)
        return mock.patch.multiple(monitor, ZONEINFO="zoneinfo", VMSTAT="vmstat", PRESENT="present")

    def test_help(self):
        self.tells_help()

    def test_bounds(self):
        both, strict = ["values_tell_nearly"], ["values_tell_nearly", "hiding_is_bounded"]
        rows = [
            ("the normal threshold", (20, 20), [], 40, both),
            ("under memory pressure CPUs keep what they had", (12, 12), [], 40, both),
            ("the number of CPUs fell, and a CPU doesn't know yet", (30, 20), [], 60, both),
            ("the watermarks lie far apart, under memory pressure", (125, 125), [], 250, both),
            ("no threshold shown", (None, None), [], 250, strict),
            ("whatever is shown", (20, 20), ["--strict"], 250, strict),
            ("8 CPUs, of which two are online", (20, 20), ["--cpus", "8"], 8 * 40, both),
            ("fewer CPUs than zoneinfo shows", (20, 20), ["--cpus", "1"], 40, both),
            ("8 CPUs and no threshold shown", (None, None), ["--cpus", "8"], 1000, strict),
        ]
        vmstat = VMSTAT.replace("4000", "1000").replace("14", "7")
        for what, thresholds, options, off_by, laws in rows:
            with self.subTest(what):
                found = self.look(zone(thresholds=thresholds), *options, vmstat=vmstat)
                figure = {"value": 1000, "unit": "pages", "cumulative": False, "off_by": off_by,
                          "least": max(0, 1000 - off_by), "most": 1000 + off_by, "laws": laws}
                self.assertEqual(found["zones"][0]["counters"]["nr_free_pages"], figure)
                self.assertEqual(found["nodes"][0]["counters"]["nr_dirty"]["off_by"], off_by)
                self.assertEqual(found["all_nodes"]["nr_free_pages"]["off_by"], off_by)
                self.assertEqual(found["all_nodes"]["nr_free_pages"]["laws"], ["system_drift", *laws[1:]])
                self.assertEqual(list(found["laws"]), ["values_tell_nearly", "system_drift", *laws[1:]])

    def test_normal_thresholds(self):
        """They go by the bytes of the pages managed or present, and are 125 where the size of a page isn't known."""
        rows = [
            ("pages of 4 KiB", {}, ["--page-size", "4096"], 20),
            ("pages of 16 KiB", {}, ["--page-size", "16384"], 28),
            ("pages of 64 KiB", {}, ["--page-size", "65536"], 36),
            ("pages of a size that isn't known", {}, [], 125),
            ("managed pages that were taken away", {"managed": 1000, "present": 262144}, ["--page-size", "4096"], 20),
            ("whatever is known", {}, ["--page-size", "4096", "--strict"], 125),
        ]
        for what, pages, options, threshold in rows:
            with self.subTest(what):
                found = self.look(zone(thresholds=(4, 4), **pages), page=options)
                self.assertEqual(found["zones"][0]["threshold"], threshold)

    def test_sides_of_a_watermark(self):
        rows = [(141, "surely above"), (140, "can't be told"), (100, "can't be told"), (60, "can't be told"),
                (59, "surely below"), (0, "surely below")]
        for free, side in rows:
            with self.subTest(free):
                found = self.look(zone(free=free, marks=(100, 100, 2**40)))["zones"][0]["watermarks"]
                self.assertEqual(found["low"], {"pages": 100, "free_pages": side, "laws": ["values_tell_nearly"]})
                self.assertEqual(found["high"]["free_pages"], "surely below")

    def test_sums(self):
        """A node has the largest threshold of its zones, and all nodes are off by what their parts are together."""
        zoneinfo = SMALL + zone("Normal", 500, 1000, (9, 4), node=1)
        vmstat = "nr_free_pages 4500\nnr_mlock 21\nnuma_hit 9\nnr_dirty 26\nnr_kernel_stack 3856\nnr_dirtied 180\n"
        found = self.look(zoneinfo, vmstat=vmstat + "nr_file_hugepages 6\n")
        self.assertEqual([zone["threshold"] for zone in found["zones"]], [4, 20, 9])
        self.assertEqual([(node["node"], node["threshold"]) for node in found["nodes"]], [(0, 20), (1, 9)])
        self.assertEqual({item: figure["off_by"] for item, figure in found["all_nodes"].items()},
                         {"nr_free_pages": 66, "nr_mlock": 66, "nr_dirty": 58})

    def test_a_pair_of_one_moment(self):
        """The zones of SMALL are off by 8 and 40, its node by 40: at one moment numbers are 96 and 80 apart at most."""
        hidden = unpopulated("Device", node=1, spanned=4096, kinds=1)
        rows = [
            ("of all zones too few", SMALL, ("free_pages 4000", "free_pages 4096"), [], None),
            ("of all zones far too few", SMALL, ("free_pages 4000", "free_pages 4097"), [], "vmstat:1: nr_free_pages"),
            ("of all zones too many", SMALL, ("free_pages 4000", "free_pages 3904"), [], None),
            ("of all zones far too many", SMALL, ("free_pages 4000", "free_pages 3903"), [], "vmstat:1: nr_free_pages"),
            ("apart", SMALL, ("free_pages 4000", "free_pages 3900"), ["--apart", "4"], None),
            ("far apart", SMALL, ("free_pages 4000", "free_pages 3899"), ["--apart", "4"], "vmstat:1: nr_free_pages"),
            ("thresholds of 125", SMALL, ("free_pages 4000", "free_pages 3000"), ["--strict"], None),
            ("of a node", SMALL, ("nr_dirtied 90", "nr_dirtied 170"), [], None),
            ("of a node, far", SMALL, ("nr_dirtied 90", "nr_dirtied 171"), [],
             "vmstat:6: nr_dirtied is 171, and 90 in all of zoneinfo: at one moment they are at most 80 apart"),
            ("events", SMALL, ("numa_hit 11", "numa_hit 9999"), [], None),
            ("a node that is missing", SMALL, ("nr_kernel_stack 1928", "nr_kernel_stack 4000"), [], "vmstat:5:"),
            ("a node of devices", SMALL + hidden, ("nr_kernel_stack 1928", "nr_kernel_stack 4000"), [], None),
            ("a node of devices, too many", SMALL + hidden, ("nr_kernel_stack 1928", "nr_kernel_stack 0"), [],
             "vmstat:5:"),
            ("a node without memory", SMALL + unpopulated(node=1, kinds=1),
             ("nr_kernel_stack 1928", "nr_kernel_stack 4000"), [], "vmstat:5:"),
            ("an item that is missing", SMALL, ("nr_mlock 14\n", ""), [], "vmstat: has no line 'nr_mlock N'"),
        ]
        for what, zoneinfo, change, options, message in rows:
            with self.subTest(what):
                words = ["--zoneinfo", self.file("zoneinfo", zoneinfo), *PAGE,
                         "--vmstat", self.file("vmstat", VMSTAT.replace(*change)), "--json", *options]
                if message:
                    self.fails("monitor: " + message, *words)
                else:
                    self.assertEqual(self.call(*words)[0], 0)

    def test_the_recorded_pairs(self):
        words = ["--zoneinfo", SAMPLES / "zoneinfo", *PAGE, "--json", "--vmstat"]
        status, output, _ = self.call(*words, SAMPLES / "vmstat.before")
        self.assertEqual((status, json.loads(output)["all_nodes"]["nr_free_pages"]["off_by"]), (0, 384))
        self.fails("vmstat.after:1: nr_free_pages is 860206, and 862477 in all of", *words, SAMPLES / "vmstat.after")
        self.assertEqual(self.call(*words, SAMPLES / "vmstat.after", "--apart", "15000")[0], 0)

    def test_units(self):
        words = [word for item in ("nr_kernel_stack", "nr_dirtied", "nr_file_hugepages") for word in ("--item", item)]
        counters = self.look(SMALL, *words, vmstat=VMSTAT)["all_nodes"]
        self.assertEqual([(item, figure["unit"], figure["cumulative"]) for item, figure in counters.items()],
                         [("nr_kernel_stack", "KiB", False), ("nr_dirtied", "pages", True),
                          ("nr_file_hugepages", "huge pages", False)])
        _, output, _ = self.call("--zoneinfo", "zoneinfo", *PAGE, *words)
        self.assertIn("  nr_kernel_stack   1928  off by at most 40 KiB: 1888 to 1968, by values_tell_nearly\n", output)
        self.assertIn("  nr_file_hugepages    3  off by at most 40 huge pages: 0 to 43, by values_tell_nearly\n", output)
        _, families = self.metrics(*words)
        self.assertEqual(families["vozhkell_node_kernel_stack_bytes"],
                         'vozhkell_node_kernel_stack_bytes{node="0"} 1974272\n')
        self.assertEqual(families["vozhkell_node_kernel_stack_uncertainty_bytes"],
                         'vozhkell_node_kernel_stack_uncertainty_bytes{node="0"} 40960\n')
        self.assertEqual(families["vozhkell_node_dirtied_pages"], 'vozhkell_node_dirtied_pages_total{node="0"} 90\n')
        self.assertEqual(families["vozhkell_system_dirtied_pages"], "vozhkell_system_dirtied_pages_total 90\n")
        self.assertEqual(families["vozhkell_node_file_hugepages"], 'vozhkell_node_file_hugepages{node="0"} 3\n')

    def test_the_worst_zone(self):
        """By share, which is larger in a small zone, and in pages; a zone without free pages is the worst by share."""
        rows = [
            ("a small zone", zone("DMA", 10, 1000, (4, 4), kinds=2) + zone(free=9000, stats="", kinds=2), PAGE,
             "Worst by share: Node 0, zone DMA: 10 free pages (0.0 MiB), off by at most 8 (0.0 MiB), 80.00 %\n"
             "Worst in pages: Node 0, zone Normal: 9000 free pages (35.2 MiB), off by at most 40 (0.2 MiB), 0.44 %\n"
             "Watermarks that can't be told: none, of 6\n"
             "Watermarks that free pages are surely below: 0 DMA min, 0 DMA low, 0 DMA high, of 6\nNode 0, zone DMA:"),
            ("no free pages", zone(free=0) + zone(free=1, node=1), [],
             "Worst by share: Node 0, zone Normal: 0 free pages, off by at most 250\n"),
            ("many watermarks", "".join(zone(node=node, free=125) for node in range(4)), PAGE,
             "can't be told: 0 Normal min, 0 Normal low, 0 Normal high, 1 Normal min, 1 Normal low, 1 Normal high, "
             "2 Normal min, 2 Normal low and 4 more, of 12\n"),
        ]
        for what, zoneinfo, options, wanted in rows:
            with self.subTest(what):
                status, output, errors = self.call("--zoneinfo", self.file("zoneinfo", zoneinfo), *options)
                self.assertEqual((status, errors), (0, ""))
                self.assertIn(wanted, output)

    def test_the_cost_of_no_page_size(self):
        rows = [
            ("no size", SMALL, [], "No --page-size: each threshold counts as 125, and zoneinfo shows 4 to 20. With it "
                                   "bounds are mostly smaller.\nNode 0, zone DMA:"),
            ("one threshold", zone(), [], " and zoneinfo shows 20. "),
            ("a size", SMALL, PAGE, None),
            ("thresholds that were asked for", SMALL, ["--strict"], None),
            ("no smaller threshold", zone(thresholds=(125, 125)), [], None),
            ("no threshold shown", zone(thresholds=(None, None)), [], None),
        ]
        for what, zoneinfo, options, wanted in rows:
            with self.subTest(what):
                status, output, errors = self.call("--zoneinfo", self.file("zoneinfo", zoneinfo), *options)
                self.assertEqual((status, errors, "--page-size" in output), (0, "", wanted is not None))
                self.assertIn(wanted or "", output)

    def test_all_items(self):
        found = self.look(SMALL, "--all", vmstat=VMSTAT)
        self.assertEqual(list(found["all_nodes"]), ["nr_free_pages", "nr_mlock", "nr_dirty", "nr_kernel_stack",
                                                    "nr_dirtied", "nr_file_hugepages"])
        self.assertEqual((found["cpus"], found["page_size"]), (2, 4096))
        self.assertIsNone(self.look(SMALL, page=[])["page_size"])

    def test_the_documented_keys(self):
        """FORMATS names each key of the JSON, and each word in the names of metrics."""
        text = (TOP / "docs" / "FORMATS.md").read_text(encoding="utf-8").split("## What the monitor")[-1]

        def keys(value):
            if isinstance(value, dict):
                for key, inner in value.items():
                    if key not in {*items.UNITS, *figures.LAWS}:
                        yield key
                    yield from keys(inner)
            for inner in value if isinstance(value, list) else ():
                yield from keys(inner)

        for key in set(keys(self.look(SMALL, "--all", vmstat=VMSTAT))) - {*monitor.MARKS}:
            self.assertIn(f"`{key}`", text)
        for name in self.metrics()[1]:
            if not re.search("_(zone|node|system)_.*_pages$", name) or "watermark" in name:
                self.assertIn(f"`{name}`", text)

    def test_items_that_are_refused(self):
        zoneinfo = self.file("zoneinfo", SMALL.replace("nr_dirtied ", "nr_later "))
        rows = [
            ("zoneinfo: 'numa_hit' counts events, and no law says how far such a number can be off", "numa_hit"),
            ("zoneinfo: the unit of 'nr_later' isn't known", "nr_later"),
            ("zoneinfo: has no item 'nr_dirtied'", "nr_dirtied"),
            ("zoneinfo: has no item '\\x1b'", "\x1b"),
        ]
        for message, item in rows:
            with self.subTest(item):
                self.fails("monitor: " + message, "--zoneinfo", zoneinfo, "--item", item)

    def test_the_units_of_all_items_that_were_recorded(self):
        info = read_zoneinfo((SAMPLES / "zoneinfo").read_text(), "zoneinfo")
        found = {item for items_of in (info.nodes[0], info.populated[0].items) for item in items_of}
        self.assertEqual({item for item in found if item not in items.UNITS},
                         {item for item in found if items.counts_events(item)})

    def test_counters(self):
        found = self.look(SMALL, "--item", "nr_kernel_stack", "--item", "nr_mlock", vmstat=VMSTAT)
        self.assertEqual([list(place["counters"]) for place in found["zones"] + found["nodes"]],
                         [["nr_mlock"], ["nr_mlock"], ["nr_kernel_stack"]])
        self.assertEqual(found["zones"][1]["watermarks"]["min"]["free_pages"], "surely above")
        self.assertEqual(list(found["all_nodes"]), ["nr_mlock", "nr_kernel_stack"])

    def test_assumptions(self):
        def assumed(*options, **settings):
            return " ".join(self.look(zone(**settings), *options)["assumed"])

        larger, size = "No CPU used a threshold last that is larger", "a machine such as this"
        self.assertIn("Only these 2 CPUs", assumed())
        self.assertIn("What is in flight isn't counted", assumed())
        self.assertIn(larger, assumed())
        self.assertIn("for these 2 CPUs, for pages of 4096 bytes, and for the larger of the zone's managed", assumed())
        self.assertNotIn(larger, assumed("--strict"))
        self.assertNotIn(larger, assumed(thresholds=(None, None)))
        self.assertNotIn(size, assumed("--cpus", "128"))
        self.assertIn(size, assumed("--cpus", "129"))
        self.assertNotIn(size, assumed(node=15))
        self.assertIn(size, assumed(node=16))
        self.assertIn(size, assumed(kind="HighMem"))

    def test_laws_are_those_of_the_documents(self):
        core, near = ((TOP / "crates" / crate / "README.md").read_text(encoding="utf-8")
                      for crate in ("vms_core", "vms_near"))
        promised = re.findall(r"By .*?`specs/Laws\.antt`\s\((.*?)\)", core, re.S) + re.findall(r"By ([^;.]*)", near)
        self.assertLessEqual(set(figures.LAWS), set(re.findall(r"\w+", " ".join(promised))))

    def test_text(self):
        words = ["--zoneinfo", self.file("zoneinfo", SMALL), "--vmstat", self.file("vmstat", VMSTAT), *PAGE]
        status, output, _ = self.call(*words)
        self.assertEqual(status, 0)
        self.assertTrue(output.startswith(TEXT), output)
        self.assertNotIn("  hiding_is_bounded: ", output)
        self.assertIn("  hiding_is_bounded: a CPU may hide at most 125 pages of a counter\n",
                      self.call(*words, "--strict")[1])

    def metrics(self, *options):
        """What the tool prints for a collector, and its samples by family."""
        status, output, errors = self.call("--zoneinfo", self.file("zoneinfo", SMALL), *PAGE,
                                           "--vmstat", self.file("vmstat", VMSTAT), "--openmetrics", *options)
        self.assertEqual(status, 0, errors)
        found = re.findall(r"# HELP (\w+) .*\.\n# TYPE \1 (gauge|counter)\n(?:# UNIT \1 (\w+)\n)?"
                           r"((?:\1(_total)?(?:\{.*\})? \d+\n)+)", output)
        for name, kind, unit, _, total in found:
            self.assertEqual((kind == "counter", name.endswith(unit)), (bool(total), True))
        families = [(name, samples) for name, _, _, samples, _ in found]
        self.assertEqual(len(families), output.count("# HELP"))
        self.assertEqual(len({name for name, _ in families}), len(families))
        self.assertTrue(output.endswith("\n# EOF\n"))
        return output, dict(families)

    def test_metrics(self):
        output, families = self.metrics("--item", "nr_free_pages", "--item", "nr_dirty")
        self.assertTrue(output.startswith(METRICS), output)
        self.assertEqual(families["vozhkell_system_free_pages"], "vozhkell_system_free_pages 4000\n")
        self.assertEqual(families["vozhkell_system_free_uncertainty_pages"],
                         "vozhkell_system_free_uncertainty_pages 48\n")
        sides = {'node="0",zone="DMA",watermark="min"': (0, 0), 'node="0",zone="DMA",watermark="high"': (1, 0)}
        for labels, (above, below) in sides.items():
            self.assertIn(f"vozhkell_zone_free_surely_above{{{labels}}} {above}\n", output)
            self.assertIn(f"vozhkell_zone_free_surely_below{{{labels}}} {below}\n", output)
        self.assertIn("by values_tell_nearly and hiding_is_bounded,", self.metrics("--strict")[0])

    def classic(self, *options):
        """What the tool prints in the classic form."""
        status, output, errors = self.call("--zoneinfo", self.file("zoneinfo", SMALL), *PAGE,
                                           "--vmstat", self.file("vmstat", VMSTAT), "--prometheus", *options)
        self.assertEqual((status, errors), (0, ""))
        return output

    def test_classic_metrics(self):
        """The numbers are those of OpenMetrics. Each family has the name of its numbers, and a type by it."""
        for options in ([], ["--strict"], ["--all"]):
            output = self.classic(*options)
            self.assertEqual([line for line in output.splitlines() if not line.startswith("#")],
                             [line for line in self.metrics(*options)[0].splitlines() if not line.startswith("#")])
            found = re.findall(r"# HELP (\w+) .*\.\n# TYPE \1 (gauge|counter)\n((?:\1(?:\{.*\})? \d+\n)+)", output)
            self.assertEqual("".join(samples for _, _, samples in found),
                             "".join(line for line in output.splitlines(True) if not line.startswith("#")))
            self.assertEqual(output.count("#"), 2 * len(found))
            self.assertEqual([name for name, kind, _ in found if kind == "counter"],
                             [name for name, _, _ in found if name.endswith("_total")])
        self.assertIn("""# HELP vozhkell_node_dirtied_pages_total nr_dirtied of a node, as /proc/zoneinfo shows it. \
The true number is at most vozhkell_node_dirtied_uncertainty_pages from it.
# TYPE vozhkell_node_dirtied_pages_total counter
vozhkell_node_dirtied_pages_total{node="0"} 90
# HELP vozhkell_node_dirtied_uncertainty_pages By how much vozhkell_node_dirtied_pages_total can be off at most, by \
values_tell_nearly, without what is in flight.
# TYPE vozhkell_node_dirtied_uncertainty_pages gauge
vozhkell_node_dirtied_uncertainty_pages{node="0"} 40
""", output)

    def test_metrics_are_what_promtool_takes(self):
        """It reads the classic form, in which what OpenMetrics has for counters has no type."""
        if not shutil.which("promtool"):
            self.skipTest("promtool isn't installed")
        standing = ([], ["--strict"], ["--item", "nr_dirty"])
        texts = [self.metrics(*options)[0] for options in standing]
        for text in texts + [self.classic(*options) for options in (*standing, ["--all"])]:
            done = subprocess.run(["promtool", "check", "metrics"], input=text, text=True, capture_output=True)
            self.assertEqual((done.returncode, done.stdout + done.stderr), (0, ""))

    def test_alerts_name_metrics_that_are_printed(self):
        rules = (TOOLS / "alerts.yml").read_text(encoding="utf-8")
        names = set(re.findall(r"\bvozhkell_\w+", rules))
        self.assertEqual(len(names), 2)
        old, = re.findall(r"time\(\) - (\w+\{.*\}) > 300", rules)
        self.assertIn(f"or absent({old})\n", rules)
        for name in names:
            self.assertIn(f"\n{name}{{", self.metrics()[0])
        if shutil.which("promtool"):
            done = subprocess.run(["promtool", "check", "rules", str(TOOLS / "alerts.yml")], text=True,
                                  capture_output=True)
            self.assertEqual(done.returncode, 0, done.stdout + done.stderr)

    def test_this_machine(self):
        rows = [("all CPUs are online", "0-1\n", 40), ("eight CPUs are there", "0-3,8,10-12\n", 320),
                ("it doesn't say", None, 40)]
        for what, present, off_by in rows:
            with self.subTest(what), self.live(SMALL, present):
                _, output, errors = self.call("--json")
                self.assertEqual(json.loads(output)["zones"][1]["counters"]["nr_free_pages"]["off_by"], off_by, errors)
        for present in ("", "1-0", "0-x", "0-" + "9" * 5000):
            with self.subTest(present), self.live(SMALL, present):
                self.fails("is no list of CPUs", "--json")

    def test_a_machine_without_permission(self):
        denied = PermissionError(13, "Permission denied", "/proc/vmstat")
        with mock.patch("vmtrace.opened", side_effect=denied):
            self.fails("monitor: /proc/vmstat: Permission denied")
            self.fails("monitor: /proc/vmstat: Permission denied", "--watch", "1", "--json")

    def test_a_machine_that_changes_while_it_is_read(self):
        """It is read again, and refused only if that goes on. Between two readings of vmstat a number may move."""
        far = VMSTAT.replace("nr_free_pages 4000", "nr_free_pages 5000")
        rows = [
            ("at first", [far, far, VMSTAT, VMSTAT], 4000, None),
            ("while it is read", [VMSTAT, far], 5000, None),
            ("nine times", [far, far] * 9 + [VMSTAT, VMSTAT], 4000, None),
            ("always", [far] * 20, None, "monitor: vmstat:1: nr_free_pages is 5000, and 4000 in all of zoneinfo"),
        ]
        for what, readings, value, message in rows:
            with self.subTest(what), self.live(SMALL, "0-1\n"), mock.patch("time.sleep"):
                texts = iter(readings)
                whole = vmtrace.text_of
                with mock.patch("vmtrace.text_of", lambda name: next(texts) if name == "vmstat" else whole(name)):
                    if message:
                        self.fails(message, "--json")
                    else:
                        view = json.loads(self.call("--json")[1])
                        self.assertEqual(view["all_nodes"]["nr_free_pages"]["value"], value)
                self.assertIsNone(next(texts, None))

    def test_watching(self):
        """The largest threshold of all looks counts."""
        looks = iter([SMALL, None])

        def sleep(_):
            if next(looks) is None:
                raise KeyboardInterrupt
            self.file("zoneinfo", SMALL)

        with self.live(SMALL.replace("threshold: 4", "threshold: 30"), "0-1"), mock.patch("time.sleep", sleep):
            status, output, errors = self.call("--watch", "0.5", "--json")
        found = [json.loads(line) for line in output.splitlines()]
        self.assertEqual((status, errors, len(found)), (130, "", 2))
        self.assertEqual([view["zones"][0]["threshold"] for view in found], [30, 30])
        self.assertLessEqual(found[0]["time"], found[1]["time"])

    def test_watching_as_text(self):
        with self.live(SMALL, "0-1"), mock.patch("time.sleep", side_effect=[None, KeyboardInterrupt]):
            status, output, errors = self.call("--watch", "1")
        self.assertEqual((status, errors), (130, ""))
        self.assertEqual((output.count("Assumed\n"), output.count("\nNode 0, zone DMA:")), (1, 2))
        self.assertEqual(len(re.findall(r"^\d{4}-\d\d-\d\d \d\d:\d\d:\d\d$", output, re.M)), 2)

    def test_bad_zoneinfo(self):
        """tests/test_procinfo.py has more of them."""
        rows = [
            ("zoneinfo: not the text of /proc/zoneinfo", ""),
            ("zoneinfo:1: zone 0 Normal has a threshold above 125", zone(thresholds=(20, 126))),
            ("zoneinfo:14: zone 0 Normal has 262144 as 'managed', and 1000 as 'present'", zone(present=1000)),
            ("zoneinfo:1: zone 0 Normal has no 'low'", zone().replace("        low      125\n", "")),
        ]
        for message, text in rows:
            with self.subTest(message):
                self.fails("monitor: " + message, "--zoneinfo", self.file("zoneinfo", text))

    def test_bad_files(self):
        self.file("zoneinfo", SMALL)
        self.fails("monitor: nowhere: No such file", "--zoneinfo", "nowhere")
        self.fails("monitor: nowhere: No such file", "--zoneinfo", "zoneinfo", "--vmstat", "nowhere")
        self.fails("monitor: zoneinfo:1: 'Node 0, zone      DMA' stands where 'NAME N' is expected",
                   "--zoneinfo", "zoneinfo", "--vmstat", "zoneinfo")
        self.fails("monitor: vmstat:1: 'x' is no number",
                   "--zoneinfo", "zoneinfo", "--vmstat", self.file("vmstat", "nr_free_pages x\n"))
        self.fails("monitor: standard input: not the text of /proc/zoneinfo", "--zoneinfo", "-")
        Path("zoneinfo.gz").write_bytes(gzip.compress(SMALL.encode())[:-30])
        self.fails("monitor: zoneinfo.gz: the packed file is damaged", "--zoneinfo", "zoneinfo.gz")

    def test_files_without_end(self):
        with mock.patch("vmtrace.MOST_TEXT", 1000):
            self.fails("monitor: zoneinfo: is longer than the 1,000 bytes that are read of a file",
                       "--zoneinfo", self.file("zoneinfo", SMALL))

    def test_bad_words(self):
        for words in (["--vmstat", "v"], ["--cpus", "0"], ["--cpus", "8193"], ["--cpus", "9" * 5000], ["--watch", "0"],
                      ["--watch", "x"], ["--watch", "1", "--openmetrics"],
                      ["--watch", "1", "--prometheus"], ["--watch", "1", "--zoneinfo", "-"],
                      ["--watch", "1e10"], ["--watch", "-1"], ["--watch", "nan"], ["--page-size", "4096"],
                      ["--zoneinfo", "z", "--page-size", "4095"], ["--zoneinfo", "z", "--apart", "1"],
                      ["--zoneinfo", "z", "--vmstat", "v", "--apart", "-1"],
                      ["--json", "--openmetrics"], ["--prometheus", "--openmetrics"], ["zoneinfo"]):
            with self.subTest(words):
                self.fails("usage: monitor.py", *words, status=2)


class ReplayTest(ToolTest):
    """Bounds beside the true totals of a replay, by the plain program that writes what the proved one writes."""

    tool = "monitor"

    @classmethod
    def setUpClass(cls):
        if not shutil.which("rustc"):
            raise unittest.SkipTest("rustc isn't installed")
        directory = tempfile.TemporaryDirectory()
        cls.addClassCleanup(directory.cleanup)
        cls.program = Path(directory.name, "replay")
        subprocess.run(["rustc", "--edition", "2021", "-o", cls.program, TOP / "bench" / "vozhkell.rs"], check=True)

    def replay(self, lines):
        """What the program prints of a trace that it accepts."""
        text = "".join(line + "\n" for line in lines)
        return subprocess.run([self.program, "replay"], input=text, text=True, capture_output=True, check=True).stdout

    def view(self, *words):
        return monitor.look(monitor.parse([*map(str, words)]), monitor.Thresholds(False))

    def test_the_recorded_second(self):
        """At every event of it the bounds hold, and what is sure of any watermark near is true."""
        made = subprocess.run([sys.executable, TOOLS / "from_kernel.py", "--zoneinfo", SAMPLES / "zoneinfo", "--events",
                               SAMPLES / "second.txt.xz"], text=True, capture_output=True, check=True)
        readings = [f"k val {NORMAL}", f"k snap {NORMAL}", "k sys nr_free_pages"]
        lines, total, totals = [], 0, []
        for line in made.stdout.splitlines():
            lines.append(line)
            if line.startswith(f"base {NORMAL} "):
                total = int(line.split()[-1])
            elif f" mod {NORMAL} " in line:
                total += int(line.split()[-1])
            if line == "go" or " mod " in line:
                lines += readings
                totals.append(total)
        found = [int(number) for _, _, number in READING.findall(self.replay(lines))]
        looks = list(zip(found[::3], found[1::3], found[2::3]))
        self.assertEqual((len(looks), totals), (1974, [snapshot for _, snapshot, _ in looks]))

        view = self.view("--zoneinfo", SAMPLES / "zoneinfo", "--vmstat", SAMPLES / "vmstat.before", *PAGE)
        others = sum(place.figures["nr_free_pages"].value for place in view.places if place.kind.startswith("DMA"))
        normal, = (place.figures["nr_free_pages"] for place in view.places if place.kind == "Normal")
        system = view.system["nr_free_pages"]
        self.assertEqual((normal.off_by, system.off_by, system.value), (216, 384, normal.value + others))
        for value, total, sum_of_zones in looks:
            figure = dataclasses.replace(normal, value=value)
            self.assertTrue(figure.least <= total <= figure.most)
            whole = dataclasses.replace(system, value=sum_of_zones)
            self.assertTrue(whole.least <= total + others <= whole.most)
            for mark in range(value - 250, value + 251, 10):
                side = figure.against(mark)
                self.assertTrue(side == figures.UNKNOWN or (side == figures.ABOVE) == (total > mark))
        self.assertGreater(max(abs(value - total) for value, total, _ in looks), 48)

    def test_memory_pressure(self):
        """CPUs keep more than the thresholds allow that are shown under memory pressure."""
        free = [f"c{cpu} mod {NORMAL} -80" for cpu in range(8)]
        header = ["vmtrace 1", "cpus 8", "zone 0 Normal 8388608 1000 1025 1050", f"base {NORMAL} 5000", "go"]
        output = self.replay([*header, *free, "k pressure 0", f"k val {NORMAL}", f"k snap {NORMAL}", "report zoneinfo"])
        (_, _, value), (_, _, total) = READING.findall(output)
        shown = [int(threshold) for threshold in re.findall(r"^  cpu \d+ threshold (\d+)", output, re.M)][:8]
        self.assertEqual((value, total, shown), ("5000", "4360", [3] * 8))
        view = self.view("--zoneinfo", self.file("zoneinfo", zone("Normal", value, 8388608, shown)), *PAGE)
        figure = view.places[0].figures["nr_free_pages"]
        self.assertTrue(figure.least <= int(total) <= figure.most)
        self.assertEqual(figure.least, int(total))


if __name__ == "__main__":
    unittest.main()
