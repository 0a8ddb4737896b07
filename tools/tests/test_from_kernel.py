"""from_kernel.py: texts of the kernel on one side, lines of a trace, worked out by hand, on the other.

On 2 CPUs a zone of less than 32,768 pages of 4 KiB has the threshold 2 * 2 * 1 = 4.
"""
import gzip
import lzma
import os
import shutil
import unittest
from contextlib import contextmanager
from pathlib import Path
from unittest import mock

from calls import SAMPLES, ToolTest, vmtrace

ZONEINFO = """Node 0, zone      DMA
  per-node stats
      nr_inactive_anon 11
      nr_slab_reclaimable 12
      nr_dirty     13
  pages free     100
        boost    0
        min      1
        low      2
        high     3
        spanned  4095
        present  3998
        managed  3840
        protection: (0, 3019, 16715)
      nr_free_pages 100
      nr_mlock     0
  pagesets
    cpu: 0
              count:    5
              high:     6
              batch:    7
  vm stats threshold: 4
    cpu: 1
              count:    5
              high:     6
              batch:    7
  vm stats threshold: 4
  node_unreclaimable:  0
  start_pfn:           1
Node 0, zone   Normal
  pages free     5000
        min      10
        low      20
        high     30
        spanned  1000
        present  1000
        managed  900
        protection: (0, 0, 0)
      nr_free_pages 5000
      nr_mlock     4
  pagesets
    cpu: 0
  vm stats threshold: 4
    cpu: 1
  vm stats threshold: 4
  start_pfn:           4096
Node 0, zone  Movable
  pages free     0
        min      32
        low      32
        high     32
        spanned  0
        present  0
        managed  0
        protection: (0, 0, 0)
"""
HEADER = """vmtrace 1
cpus 2
zone 0 DMA 3840 1 2 3
zone 0 Normal 900 10 20 30
base 0 DMA nr_free_pages 100
base 0 Normal nr_free_pages 5000
base 0 Normal nr_mlock 4
base 0 node nr_inactive_anon 11
base 0 node nr_dirty 13
go
"""


DIGITS = "9" * 5000


def event(name="mm_page_alloc_zone_locked", pfn="0x1000", order=0, cpu=0, seconds=1.5):
    return f"          task-1      [{cpu:03}] d..3.  {seconds:.6f}: {name}: pfn={pfn} order={order} migratetype=1\n"


class FromKernelTest(ToolTest):
    tool = "from_kernel"

    def make(self, events, *options, zoneinfo=ZONEINFO):
        """The header, the body and the notes that are made of these texts."""
        status, output, errors = self.call("--zoneinfo", self.file("zoneinfo", zoneinfo),
                                           "--events", self.file("events", events), *options)
        self.assertEqual(status, 0, errors)
        header, _, body = output.partition("go\n")
        return header + "go\n", body, errors

    def test_help(self):
        self.tells_help()

    def test_header(self):
        header, body, errors = self.make("")
        self.assertEqual((header, body), (HEADER, ""))
        self.assertIn("zone 0 Movable left out: no managed pages", errors)

    def test_header_alone(self):
        status, output, _ = self.call("--zoneinfo", self.file("zoneinfo", ZONEINFO), "--report", "zoneinfo")
        self.assertEqual((status, output), (0, HEADER + "report zoneinfo\n"))

    def test_events(self):
        rows = [
            ("a block for a per-CPU list", event(order=3), "c0 mod 0 Normal nr_free_pages -8\n"),
            ("a block for its user", event(order=10, cpu=1), "c1 mod 0 Normal nr_free_pages -1024\n"),
            ("a block from a per-CPU list", event("mm_page_pcpu_drain"), "c0 mod 0 Normal nr_free_pages 1\n"),
            ("freed to a per-CPU list", event("mm_page_free", order=3), ""),
            ("freed to the zone", event("mm_page_free", order=4), "c0 mod 0 Normal nr_free_pages 16\n"),
            ("a huge page freed to a per-CPU list", event("mm_page_free", order=9), ""),
            ("freed to the zone, largest", event("mm_page_free", order=10), "c0 mod 0 Normal nr_free_pages 1024\n"),
            ("taken from a per-CPU list", event("mm_page_alloc"), ""),
            ("freed in a batch", event("mm_page_free_batched"), ""),
            ("the first page of DMA", event(pfn="0x1"), "c0 mod 0 DMA nr_free_pages -1\n"),
            ("the last page of DMA", event(pfn="4095"), "c0 mod 0 DMA nr_free_pages -1\n"),
            ("the last page of Normal", event(pfn="0x13e7"), "c0 mod 0 Normal nr_free_pages -1\n"),
            ("the page after it", event(pfn="0x13e8"), ""),
            ("a decimal page frame", event(pfn="04096"), "c0 mod 0 Normal nr_free_pages -1\n"),
            ("a page before all zones", event(pfn="0x0"), ""),
            ("a CPU that wasn't online", event(cpu=2), ""),
        ]
        for what, text, wanted in rows:
            with self.subTest(what):
                self.assertEqual(self.make(text)[1], wanted)

    def test_spellings(self):
        rows = {
            "tracefs": "  kworker/0:1-12 [001] d..1.  10.5: mm_page_pcpu_drain: page=0000f3a1 pfn=0x1000 order=2 x=1",
            "older tracefs": "   bash-7   [001] d..1 10.5: mm_page_pcpu_drain: page=ffffea0 pfn=4096 order=2 x=1",
            "trace-cmd": "  my [002] task-12   [001]  10.5: mm_page_pcpu_drain:   page=0xffea pfn=0x1000 order=2 x=1",
            "trace-cmd with flags": "  <idle>-0   [001] d..3.  10.500001: mm_page_pcpu_drain: pfn=0x1000 order=2",
            "perf": "some task  12/13 [001]  10.500000: kmem:mm_page_pcpu_drain: page=(nil) pfn=0x1000 order=2 x=1",
            "perf, unparsed": "a 12 [001] 10.5: kmem:mm_page_pcpu_drain: [FAILED TO PARSE] pfn=4096 order=2",
        }
        for what, line in rows.items():
            with self.subTest(what):
                self.assertEqual(self.make("# tracer: nop\n\n" + line + "\n")[1], "c1 mod 0 Normal nr_free_pages 4\n")

    def test_zones_that_span_the_same_pages(self):
        zoneinfo = ZONEINFO.replace("spanned  4095", "spanned  5000")
        _, body, errors = self.make(event() + event(pfn="0x5"), zoneinfo=zoneinfo)
        self.assertEqual(body, "c0 mod 0 DMA nr_free_pages -1\n")
        self.assertIn("left out: 1 mm_page_alloc_zone_locked (several zones span its page)", errors)

    def test_cpus_that_are_not_online(self):
        zoneinfo = ZONEINFO.replace("    cpu: 1\n", "    cpu: 3\n")
        header, body, _ = self.make(event(cpu=3), zoneinfo=zoneinfo)
        self.assertIn("cpus 4\n", header)
        self.assertEqual(body, "offline 1\nk dead 1\noffline 2\nk dead 2\nc3 mod 0 Normal nr_free_pages -1\n")

    def test_many_cpus(self):
        for last, version in ((63, 1), (64, 2), (127, 2)):
            with self.subTest(last):
                header = self.make("", zoneinfo=ZONEINFO.replace("cpu: 1", f"cpu: {last}"))[0]
                self.assertTrue(header.startswith(f"vmtrace {version}\ncpus {last + 1}\n"))

    def machine(self, cpus=64, dma=8192, normal=524288, shown=(14, 84), present=None):
        """zoneinfo of a machine, with the managed pages of two zones and the thresholds that they show."""
        def sets(threshold):
            told = "" if threshold is None else f"\n  vm stats threshold: {threshold}"
            return "".join(f"\n    cpu: {cpu}\n              count:    5{told}" for cpu in range(cpus))

        def zone(kind, managed, threshold, stats="", first=1):
            return (f"Node 0, zone {kind:>8}\n{stats}  pages free     9\n        min      1\n"
                    "        low      2\n"
                    f"        high     3\n        spanned  {present or managed}\n"
                    f"        present  {present or managed}\n"
                    f"        managed  {managed}\n        protection: (0, 0)\n      nr_free_pages 9\n"
                    f"  pagesets{sets(threshold)}\n  start_pfn:           {first}\n")

        return (zone("DMA", dma, shown[0], "  per-node stats\n      nr_dirty     13\n")
                + zone("Normal", normal, shown[1], first=2**30))

    def test_thresholds(self):
        """On 64 CPUs they are 14 times one more than the bits of the managed bytes / 2^27, and at most 125.

        8,192 and 524,288 pages are 0 and 16 of these pieces with pages of 4 KiB, 1 and 64 with 16 KiB, 4 and 256 with
        64 KiB: 14 and 84, 28 and 112, 56 and 125.
        """
        small = "bound of the trace would be too small"
        told = "zoneinfo:1: zone 0 DMA shows a threshold of"
        page = {size: ("--page-size", str(size << 10)) for size in (4, 16, 64)}
        rows = [
            ("pages of 4 KiB", {}, (), None),
            ("pages of 4 KiB, as is told", {}, page[4], None),
            ("pages of 64 KiB", {"shown": (56, 125)}, (), f"{told} 56, and in the trace it is 14: a {small}"),
            ("pages of 64 KiB, as is told", {"shown": (56, 125)}, page[64], f"{told} 56, and in the trace it is 14"),
            ("pages of 64 KiB, in one zone", {"shown": (14, 125)}, (),
             "zone 0 Normal shows a threshold of 125, and in the trace it is 84"),
            ("pages of 64 KiB, under memory pressure", {"shown": (3, 3)}, page[64],
             "zoneinfo:1: zone 0 DMA, with pages of 65536 bytes, has a threshold of 56, and in the trace it is 14"),
            ("pages of 64 KiB, and what 4 KiB have", {}, page[64], "has a threshold of 56, and in the trace it is 14"),
            ("pages of 16 KiB", {"shown": (28, 112)}, (), f"{told} 28, and in the trace it is 14: a {small}"),
            ("pages of 16 KiB, under memory pressure", {"shown": (1, 1)}, page[16], "has a threshold of 28"),
            ("pages of a size that isn't told, under memory pressure", {"shown": (3, 84)}, (),
             f"{told} 3, and 14 is that of pages of 4096 bytes: say with --page-size how large its pages are"),
            ("managed pages that were taken away", {"shown": (14, 98)}, page[4],
             "zone 0 Normal shows a threshold of 98, and in the trace it is 84"),
            ("the same, under memory pressure", {"shown": (14, 5), "present": 2**21}, page[4],
             "zone 0 Normal shows a threshold of 5, and may have had one of 112, and in the trace it is 84"),
            ("more present pages, and no pressure", {"present": 2**21}, page[4], None),
            ("one CPU", {"cpus": 1, "shown": (None, None)}, (), None),
            ("one CPU, pages of 64 KiB", {"cpus": 1, "shown": (None, None)}, page[64], "has a threshold of 8"),
        ]
        for what, machine, options, message in rows:
            words = ["--zoneinfo", self.file("zoneinfo", self.machine(**machine)), *options]
            with self.subTest(what):
                if message:
                    self.fails(message, *words)
                    self.assertEqual(self.call(*words)[2].count("\n"), 1)
                    continue
                status, output, errors = self.call(*words)
                self.assertEqual((status, "#" in output, "the machine showed" in errors), (0, False, False), errors)
                self.assertEqual("shows no thresholds, so those of the trace" in errors, machine.get("cpus") == 1)

    def test_smaller_thresholds(self):
        said = ("zone 0 Normal: the machine showed a threshold of 5; it is 84 in the trace, so bounds of it hold, and "
                "are wider than that machine's\n")
        status, output, errors = self.call("--zoneinfo", self.file("zoneinfo", self.machine(shown=(14, 5))),
                                           "--page-size", "4096")
        self.assertEqual((status, errors), (0, f"from_kernel: {said}"))
        self.assertIn(f"zone 0 DMA 8192 1 2 3\n# {said}zone 0 Normal 524288 1 2 3\n", output)

    def test_larger_pages_and_the_same_thresholds(self):
        _, _, errors = self.make("", "--page-size", "16384")
        self.assertIn("pages have 16384 bytes there, and 4096 in a trace: the thresholds are the same", errors)

    def test_a_zone_that_is_left_out(self):
        """A counter of a node has the largest threshold of all its zones."""
        text = self.machine(shown=(14, 84)).replace("zone   Normal", "zone  HighMem")
        self.fails("zoneinfo:207: node 0, by its zone 0 HighMem, has a threshold of 84, and in the trace it is 14",
                   "--zoneinfo", self.file("zoneinfo", text))

    def test_this_machine(self):
        """The size of its pages isn't told, but asked."""
        text = self.machine(shown=(3, 3))
        vmstat = "nr_free_pages 18\n"
        rows = [(4096, "zone 0 DMA: the machine showed a threshold of 3; it is 14 in the trace", 0),
                (65536, "/proc/zoneinfo:1: zone 0 DMA, with pages of 65536 bytes, has a threshold of 56", 1)]
        for size, message, status in rows:
            with (self.subTest(size), mock.patch("os.sysconf", return_value=size),
                  mock.patch("vmtrace.text_of", return_value=text),
                  mock.patch("from_kernel.record", return_value=(text, vmstat, vmstat))):
                for words in (["--live", "1"], ["--zoneinfo", "/proc/zoneinfo"]):
                    found, _, errors = self.call(*words)
                    self.assertEqual((found, message in errors), (status, True), errors)
        for words in (["--live", "1"], ["--zoneinfo", "/proc/zoneinfo"]):
            self.fails("--page-size goes with a copy", *words, "--page-size", "4096", status=2)

    def test_window(self):
        events = "".join(event(order=n, seconds=10 + n / 10) for n in range(8))
        header, body, errors = self.make(events, "--skip", "0.15", "--seconds", "0.2")
        self.assertEqual(body, "c0 mod 0 Normal nr_free_pages -4\nc0 mod 0 Normal nr_free_pages -8\n")
        self.assertIn("base 0 Normal nr_free_pages 4997\n", header)
        self.assertIn("the window ends before events:5", errors)

    def test_a_window_after_all_events(self):
        header, body, _ = self.make(event() + event(), "--skip", "1")
        self.assertEqual(body, "")
        self.assertIn("base 0 Normal nr_free_pages 4998\n", header)

    def test_limits(self):
        change = len("c0 mod 0 Normal nr_free_pages -1\n")
        report = len("report totals\n")
        rows = [
            (vmtrace.Limits(lines=13), 2),
            (vmtrace.Limits(lines=14), 3),
            (vmtrace.Limits(bytes=len(HEADER) + 2 * change + report), 2),
            (vmtrace.Limits(bytes=len(HEADER) + 3 * change + report - 1), 2),
            (vmtrace.Limits(bytes=len(HEADER) + 3 * change + report), 3),
        ]
        words = ["--zoneinfo", self.file("zoneinfo", ZONEINFO), "--events", self.file("events", event() * 3),
                 "--report", "totals"]
        for limits, wanted in rows:
            with self.subTest(limits):
                _, output, errors = self.call(*words, limits=limits)
                self.assertEqual(output.count(" mod "), wanted)
                self.assertTrue(output.endswith("-1\nreport totals\n"))
                self.assertEqual("stopped before events:3: the program reads" in errors, wanted == 2)

    def test_watermarks(self):
        header, _, errors = self.make("", "--watermarks", "400", "30")
        self.assertIn("cpus 2\nwatermarks 400 30\nzone 0 DMA 3840\nzone 0 Normal 900\nbase", header)
        # 100 pages of 4740: 81 and 18, with steps of 20 (a quarter) or 11 (30 of 10,000), and of 4 or 2
        self.assertIn("zone 0 DMA: watermarks 81 101 121, but 1 2 3 in zoneinfo", errors)
        self.assertIn("zone 0 Normal: watermarks 18 22 26, but 10 20 30 in zoneinfo", errors)

    def test_notes(self):
        before = self.file("before", "nr_free_pages 5100\n")
        after = self.file("after", "nr_zspages 0\nnr_free_pages 5090\n")
        text = "# entries-in-buffer/entries-written: 5/9   #P:2\nCPU:1 [LOST 3 EVENTS]\nCPU:0 [EVENTS DROPPED]\n"
        _, _, errors = self.make(text + event(order=3) + event("mm_page_free"), "--vmstat", before, after)
        self.assertEqual(errors.replace("from_kernel: ", "").splitlines()[1:], [
            "8 events were lost before the recording was read",
            "used: 1 mm_page_alloc_zone_locked",
            "left out: 1 mm_page_free (goes to a per-CPU list)",
            "0 Normal nr_free_pages: changed by -8",
            "/proc/vmstat: nr_free_pages changed by -10; the events' -8 is off by 2",
        ])

    def test_comparison_of_a_part(self):
        vmstat = self.file("vmstat", "nr_free_pages 5100\n")
        _, _, errors = self.make(event() + event(seconds=2), "--vmstat", vmstat, vmstat, "--skip", "0.1")
        self.assertIn("the events' -2 is off by -2", errors)
        _, _, errors = self.make(event() + event(seconds=2), "--vmstat", vmstat, vmstat, "--seconds", "0.1")
        self.assertIn("not compared, since later events are left out", errors)

    def test_the_recorded_second(self):
        names = {name: SAMPLES / name for name in ("zoneinfo", "second.txt.xz", "vmstat.before", "vmstat.after")}
        status, output, errors = self.call("--zoneinfo", names["zoneinfo"], "--events", names["second.txt.xz"],
                                           "--vmstat", names["vmstat.before"], names["vmstat.after"])
        changes = [line.split() for line in output.splitlines() if " mod " in line]
        self.assertEqual((status, len(changes)), (0, 1973))
        self.assertEqual({tuple(words[2:5]) for words in changes}, {("0", "Normal", "nr_free_pages")})
        self.assertEqual(sum(int(words[5]) for words in changes), -2177)
        self.assertIn("the events' -2177 is off by 94", errors)

    def test_the_recorded_watermarks(self):
        _, _, errors = self.call("--zoneinfo", SAMPLES / "zoneinfo", "--watermarks", "67584", "10")
        self.assertEqual(errors.count(", as in zoneinfo\n"), 3)

    def test_a_piece_of_the_recording(self):
        _, output, errors = self.call("--zoneinfo", SAMPLES / "zoneinfo", "--events", SAMPLES / "piece.txt")
        self.assertTrue(output.endswith("go\nc0 mod 0 Normal nr_free_pages -32\nc0 mod 0 Normal nr_free_pages -16\n"))
        self.assertIn("left out: 44 mm_page_alloc (changes no free pages)", errors)

    def test_standard_input(self):
        status, output, _ = self.call("--zoneinfo", self.file("zoneinfo", ZONEINFO), "--events", "-", stdin=event())
        self.assertEqual((status, output.splitlines()[-1]), (0, "c0 mod 0 Normal nr_free_pages -1"))
        rows = [
            ("standard input:1: the order 64 is too large: at most 20", ["--zoneinfo", "zoneinfo", "--events", "-"],
             event(order=64)),
            ("standard input: not the text of /proc/zoneinfo", ["--zoneinfo", "-"], ""),
            ("standard input can be read only once", ["--zoneinfo", "-", "--events", "-"], ZONEINFO),
        ]
        for message, words, text in rows:
            with self.subTest(message):
                self.fails("from_kernel: " + message, *words, stdin=text)

    def test_bad_zoneinfo(self):
        rows = [
            ("zoneinfo: not the text of /proc/zoneinfo", ""),
            ("zoneinfo:1: 'MemTotal: 16 kB' stands where 'Node N, zone NAME' is expected", "MemTotal: 16 kB\n"),
            ("zoneinfo:30: zone 0 Normal has no 'spanned'", ZONEINFO.replace("        spanned  1000\n", "")),
            ("zoneinfo:46: 'Node 0, zone  Movable' stands where 'cpu: N or start_pfn: N' is expected",
             ZONEINFO.replace("  start_pfn:           4096\n", "")),
            ("zoneinfo:8: 'x' is no number", ZONEINFO.replace("min      1\n", "min      x\n")),
            ("zoneinfo:8: '999", ZONEINFO.replace("min      1\n", f"min      {DIGITS}\n")),
            ("zoneinfo:30: '999", ZONEINFO.replace("Node 0, zone   Normal", f"Node {DIGITS}, zone   Normal")),
            ("zoneinfo:40: the text ends here, where a line 'pagesets' is expected",
             ZONEINFO[:ZONEINFO.rindex("  pagesets")]),
            ("zoneinfo: no zone of a kind that a trace has, DMA, DMA32, Normal, Movable, has managed pages",
             ZONEINFO.replace("managed  3840", "managed  0").replace("managed  900", "managed  0")),
            ("zoneinfo:1: 0 DMA nr_free_pages begins with 281474976710657, and a trace has at most 281474976710656",
             ZONEINFO.replace("nr_free_pages 100\n", f"nr_free_pages {2**48 + 1}\n")),
            ("zoneinfo: 0 node nr_dirty begins with 281474976710657",
             ZONEINFO.replace("nr_dirty     13", f"nr_dirty {2**48 + 1}")),
            ("zoneinfo:1: zone 0 DMA has 1099511627777 as 'managed', and in a trace at most 1099511627776",
             ZONEINFO.replace("managed  3840", f"managed  {2**40 + 1}").replace("present  3998", f"present  {2**41}")
             .replace("spanned  4095", f"spanned  {2**41}")),
            ("zoneinfo:30: zone 0 Normal has 1099511627777 as 'high'",
             ZONEINFO.replace("high     30", f"high     {2**40 + 1}")),
            ("zoneinfo: CPU 128 is online", ZONEINFO.replace("cpu: 1", "cpu: 128")),
            ("zoneinfo: a trace has at most 16 zones, of nodes 0 to 15", ZONEINFO.replace("Node 0", "Node 16")),
        ]
        for message, text in rows:
            with self.subTest(message):
                self.fails(message, "--zoneinfo", self.file("zoneinfo", text))

    def test_bad_events(self):
        self.file("zoneinfo", ZONEINFO)
        rows = [
            ("events: no line of it is an event", "some other text\n"),
            ("events:2: mm_page_free has no number 'order='", event() + event("mm_page_free", order="x")),
            ("events:1: mm_page_pcpu_drain has no number 'pfn='", event("mm_page_pcpu_drain", pfn="")),
            ("events:1: the order 64 is too large", event(order=64)),
            ("events:2: the order 64 is too large", event() + event(order=64) + event()),
            ("events:1: '999", event(pfn=DIGITS)),
            ("events:1: '0xfff", event(pfn="0x" + "f" * 5000)),
            ("events:1: '999", event(order=DIGITS)),
            ("events:1: '999", event(cpu=int(DIGITS[:4000]))),
            ("events:1: '999", event().replace("1.500000", DIGITS)),
            ("events:1: '999", f"CPU:1 [LOST {DIGITS} EVENTS]\n"),
            ("events:1: '999", f"# entries-in-buffer/entries-written: 5/{DIGITS}   #P:2\n"),
        ]
        for message, text in rows:
            with self.subTest(message):
                self.fails("from_kernel: " + message, "--zoneinfo", "zoneinfo", "--events", self.file("events", text))

    def test_bad_files(self):
        self.file("zoneinfo", ZONEINFO)
        self.fails("from_kernel: nowhere: No such file", "--zoneinfo", "nowhere")
        self.fails("from_kernel: nowhere: No such file", "--zoneinfo", "zoneinfo", "--events", "nowhere")
        self.fails("zoneinfo:1: 'Node 0, zone      DMA' stands where 'NAME N' is expected",
                   "--zoneinfo", "zoneinfo", "--vmstat", "zoneinfo", "x")
        vmstat = self.file("vmstat", f"nr_zspages 0\nnr_free_pages {DIGITS}\n")
        self.fails("from_kernel: vmstat:2: '999", "--zoneinfo", "zoneinfo", "--vmstat", vmstat, vmstat)

    def test_lines_without_end(self):
        self.fails("from_kernel: /dev/zero: a line is longer than the 1,048,576 bytes that are read of one",
                   "--zoneinfo", self.file("zoneinfo", ZONEINFO), "--events", "/dev/zero")

    def test_damaged_files(self):
        self.file("zoneinfo", ZONEINFO)
        text = event().encode()
        packed = gzip.compress(text)
        rows = [
            ("events.xz", lzma.compress(text)[:-20]),
            ("events.gz", packed[:-20]),
            ("events.gz", packed[:-8] + b"\0" * 8),
            ("events.gz", packed[:12] + b"\xff" * 20 + packed[32:]),
            ("events.gz", text),
        ]
        for name, data in rows:
            with self.subTest(data):
                Path(name).write_bytes(data)
                self.fails(f"from_kernel: {name}: the packed file is damaged", "--zoneinfo", "zoneinfo",
                           "--events", name)

    @contextmanager
    def tracefs(self, *files, remove=shutil.rmtree):
        """A directory in the place of tracefs, whose instances have these files, and what removes an instance."""
        root = Path("tracing").absolute()
        (root / "instances").mkdir(parents=True, exist_ok=True)

        def make(instance):
            for file in files:
                os.makedirs((instance / file).parent, exist_ok=True)
                (instance / file).write_text("")

        with (mock.patch("from_kernel.TRACEFS", (root,)), mock.patch("os.geteuid", return_value=0),
              mock.patch("signal.signal"), mock.patch.object(Path, "mkdir", make),
              mock.patch.object(Path, "rmdir", remove)):
            yield root / "instances"

    def test_an_instance_is_removed(self):
        kmem = [f"events/kmem/{event}/{file}" for file in ("filter", "enable")
                for event in ("mm_page_alloc_zone_locked", "mm_page_pcpu_drain", "mm_page_free")]
        rows = [
            ("events that can't be switched off", ["tracing_on"], None, 1, "No such file"),
            ("Ctrl-C", ["tracing_on", "events/enable", "trace", *kmem], KeyboardInterrupt, 130, ""),
        ]
        for what, files, sleep, status, message in rows:
            with self.subTest(what), self.tracefs(*files) as instances, mock.patch("time.sleep", side_effect=sleep):
                self.fails(message, "--live", "1", status=status)
                self.assertEqual(list(instances.iterdir()), [])

    def test_an_instance_that_stays_is_named(self):
        busy = mock.Mock(side_effect=OSError(16, "Device or resource busy"))
        with self.tracefs("tracing_on", remove=busy) as instances:
            _, output, errors = self.call("--live", "1")
            name, = instances.iterdir()
        self.assertEqual(output, "")
        self.assertIn(f"from_kernel: {name}: Device or resource busy: it is left behind", errors)
        self.assertIn("No such file", errors)

    def test_bad_words(self):
        for words in ([], ["--zoneinfo", "z", "--live", "1"], ["--live", "1", "--events", "e"], ["--live", "x"],
                      ["--zoneinfo", "z", "--skip", "-1"], ["--zoneinfo", "z", "--watermarks", "1", "0"],
                      ["--zoneinfo", "z", "--watermarks", "1_0", "1"],
                      ["--zoneinfo", "z", "--report", "nothing"]):
            with self.subTest(words):
                self.fails("usage: from_kernel.py", *words, status=2)


if __name__ == "__main__":
    unittest.main()
