"""probe.py: where the readings stand in a trace."""
import unittest

from calls import ToolTest, vmtrace

HEADER = """vmtrace 2
cpus 2
item node slab bytes
zone 0 Normal 262144 100 125 150
go
"""
FREE = "0 Normal nr_free_pages"
READING = f"k val {FREE}\nk snap {FREE}\n"


class ProbeTest(ToolTest):
    tool = "probe"

    def probe(self, body, every, counter=FREE):
        status, output, errors = self.call(self.file("trace", HEADER + body), counter, every)
        self.assertEqual(status, 0, errors)
        self.assertTrue(output.startswith(HEADER))
        return output[len(HEADER):]

    def test_help(self):
        self.tells_help()

    def test_places(self):
        a, b, k, remark = f"c0 inc {FREE}\n", "c1  fold 0\n", "k normal 0\n", " # c0\n\n"
        rows = [
            ("no line", "", 1, READING),
            ("each line", a + b + k, 1, READING + a + READING + b + READING + k + READING),
            ("each second line and the last", a + b + k, 2, READING + a + b + READING + k + READING),
            ("fewer lines", a + b, 5, READING + a + b + READING),
            ("ignored lines don't count", a + remark + b + a, 2, READING + a + remark + b + READING + a + READING),
            ("nor do boundary lines", a + "sync\n" + b + "report totals\n", 2,
             READING + a + "sync\n" + b + READING + "report totals\n"),
            ("a last line without its end", a + b[:-1], 2, READING + a + b + READING),
        ]
        for what, body, every, wanted in rows:
            with self.subTest(what):
                self.assertEqual(self.probe(body, every), wanted)

    def test_counters(self):
        for counter in ("0 node nr_dirty", "0 node slab", "0 Normal nr_mlock"):
            self.assertEqual(self.probe("", 1, counter), f"k val {counter}\nk snap {counter}\n")

    def test_whatever_bytes_a_remark_has(self):
        self.assertEqual(self.probe("# é\x0c\x00\n", 1), READING + "# é\x0c\x00\n")

    def test_standard_input(self):
        status, output, _ = self.call("-", FREE, 1, stdin=HEADER)
        self.assertEqual((status, output), (0, HEADER + READING))
        self.fails("probe: standard input:1: 'cpus 0' is no header line", "-", FREE, 1, stdin="cpus 0\n")
        self.fails("probe: standard input: the header has no counter", "-", "0 DMA nr_mlock", 1, stdin=HEADER)

    def test_phases(self):
        a = f"c0 inc {FREE}\n"
        rows = [
            ("no line", "", 1),
            ("one phase", a + a, 1),
            ("the readings after `go` are a phase", "sync\n" + a, 2),
            ("boundary lines in a row", a + "sync\nflush\nreport totals\noffline 1\nonline 1\n" + a, 2),
            ("remarks", a + "# sync\n\n" + a, 1),
            ("a phase for each change", (a + "sync\n") * 20, 20),
        ]
        for what, body, phases in rows:
            with self.subTest(what):
                trace = self.file("trace", HEADER + body)
                self.fails(f"trace: with its readings it may have {phases} phases, and the program takes {phases - 1}",
                           trace, FREE, 1, limits=vmtrace.Limits(phases=phases - 1))
                self.assertEqual(self.call(trace, FREE, 1, limits=vmtrace.Limits(phases=phases))[0], 0)

    def test_ten_thousand_phases(self):
        trace = self.file("trace", HEADER + f"sync\nc0 inc {FREE}\n" * 10_000)
        self.fails("trace: with its readings it may have 10,001 phases, and the program takes 10,000", trace, FREE, 1)

    def test_limits(self):
        trace = self.file("trace", HEADER)
        size = len(HEADER + READING)
        for limits in (vmtrace.Limits(lines=6), vmtrace.Limits(bytes=size - 1)):
            self.fails("trace: with its readings it has 7 lines", trace, FREE, 1, limits=limits)
        self.assertEqual(self.call(trace, FREE, 1, limits=vmtrace.Limits(7, size))[0], 0)

    def test_bad_input(self):
        rows = [
            ("probe: nowhere: No such file", "nowhere", FREE, 1),
            ("trace: the header has no counter '0 DMA nr_mlock'", self.file("trace", HEADER), "0 DMA nr_mlock", 1),
            ("trace: the header has no counter '0 Normal nr_dirty'", "trace", "0 Normal nr_dirty", 1),
            ("trace: the header has no counter '1 node nr_dirty'", "trace", "1 node nr_dirty", 1),
            ("'nr_free_pages' is no counter", "trace", "nr_free_pages", 1),
            ("open: no header of a trace that ends with 'go'", self.file("open", "vmtrace 1\ncpus 2\n"), FREE, 1),
            ("bad:2: 'cpus x' is no header line of a trace", self.file("bad", "vmtrace 1\ncpus x\n"), FREE, 1),
            ("none:1: 'cpus 0' is no header line", self.file("none", "cpus 0\n"), FREE, 1),
            ("zero:2: 'zone 0 DMA 0' is no header line", self.file("zero", "watermarks 4\nzone 0 DMA 0\n"), FREE, 1),
            ("few:1: 'base 0 DMA nr_mlock' is no header line", self.file("few", "base 0 DMA nr_mlock\n"), FREE, 1),
            ("long:1: 'cpus 999", self.file("long", "cpus " + "9" * 5000), FREE, 1),
            ("is no counter", "trace", "9" * 5000 + " Normal nr_free_pages", 1),
        ]
        for message, *words in rows:
            with self.subTest(message):
                self.fails(message, *words)

    def test_spellings(self):
        """A header line that the program refuses isn't read as another."""
        rows = ["cpus 1_0", "cpus +2", "cpus 02", "cpus 129", "zone 0 Foo 1 0 0 0", "zone 16 DMA 1 0 0 0",
                "zone 0 DMA 1_0 0 0 0", "zone 0 DMA 1 0 0 1_0", "zone 0 DMA 1 0 0 -1", "base 0 Foo nr_mlock 1",
                "base 0 DMA nr_mlock 1_0", "base 0 DMA nr_mlock -0", "base 0 node nr_dirty 281474976710657",
                "watermarks 1_0", "watermarks 4 0"]
        for line in rows:
            with self.subTest(line):
                self.fails(f"trace:1: '{line}' is no header line", self.file("trace", line + "\n"), FREE, 1)

    def test_bad_words(self):
        for every in ("0", "x", "1_0"):
            self.fails("argument EVERY", "trace", FREE, every, status=2)


if __name__ == "__main__":
    unittest.main()
