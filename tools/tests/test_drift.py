"""drift.py: the numbers are those of the rules, worked out by hand.

On 2 CPUs a zone of 262,144 pages has the threshold 20, on one 10; under memory pressure it has (125 - 100) / 2 = 12.
"""
import gzip
import re
import unittest
from pathlib import Path
from xml.etree import ElementTree

from calls import ToolTest

HEADER = """vmtrace 2
cpus 2
item node slab bytes
zone 0 DMA 1000 1 2 3
zone 0 Normal 262144 100 125 150
base 0 Normal nr_free_pages 1000
go
"""
FREE = "0 Normal nr_free_pages"
DIGITS = "9" * 5000
VAL, SNAP = f"k val {FREE}", f"c1 snap {FREE}"
TRACE = [
    VAL, SNAP, f"c0 mod {FREE} -20",  # lines 8 to 10
    VAL, SNAP, f"c1 mod {FREE} -21",
    VAL, SNAP, f"c1 dec {FREE}", f"c9 inc {FREE}", "# a remark", "c1 mod 0 DMA nr_free_pages -5",
    VAL, SNAP, "c1 fold 0",
    VAL, f"c0 inc {FREE}",
    SNAP,
]
OUTPUT = """line 8: value 1000
line 9: snapshot 1000
line 11: value 1000
line 12: snapshot 980
line 14: value 979
line 15: snapshot 959
line 17: refused: UnknownLane
line 20: value 979
line 21: snapshot 958
line 23: value 959
line 25: snapshot 959
done accepted 16 refused 1
"""
DATA = """8 1000 1000 1000 1000 1000
11 1000 980 980 960 1000
14 979 959 959 919 999
20 979 958 958 918 998
23 959 NaN 958 938 978
25 NaN 959 959 919 999
"""


class DriftTest(ToolTest):
    tool = "drift"

    def files(self, lines, output, header=HEADER):
        """The trace of these lines, and the output, with its last line if it lacks it and no line is refused."""
        if output and "done" not in output:
            output += f"done accepted {len(lines)} refused 0\n"
        return self.file("trace", header + "\n".join(lines) + "\n"), self.file("output", output)

    def data(self, lines, output, *options, header=HEADER):
        """The lines of numbers that gnuplot is to get."""
        status, text, errors = self.call(*self.files(lines, output, header), "--data", *options)
        self.assertEqual(status, 0, errors)
        return "".join(line + "\n" for line in text.splitlines() if not line.startswith("#"))

    def bound_after(self, *lines, counter=FREE, header=HEADER):
        """The bound after these lines, which change a counter whose base is 1000 by 0 in all."""
        number = header.count("\n") + len(lines) + 1
        data = self.data([*lines, f"k val {counter}"], f"line {number}: value 1000\n", header=header)
        _, _, _, total, low, high = map(float, data.split())
        self.assertEqual(total - low, high - total)
        return high - total

    def test_help(self):
        self.tells_help()

    def test_data(self):
        self.assertEqual(self.data(TRACE, OUTPUT), DATA)

    def test_bounds(self):
        c0, c1 = f"c0 mod {FREE} 0", f"c1 mod {FREE} 0"
        rows = [
            ("nothing was changed", [], 0),
            ("one CPU", [c0, c0], 20),
            ("both CPUs", [c0, c1], 40),
            ("folded by another", [c0, c1, "c1 fold 0"], 20),
            ("both folded", [c0, c1, "flush"], 0),
            ("changed under pressure", [c0, "k pressure 0", c0], 12),
            ("not changed under pressure", [c0, "k pressure 0"], 20),
            ("pressure of another node", ["k pressure 1", c0], 20),
            ("normal again", ["k pressure 0", "k normal 0", c0], 20),
            ("kswapd takes both", [c0, "k kswapd 0 0 2", c0], 20),
            ("a CPU that is down", [c0, c1, "offline 1"], 40),
            ("a CPU that is buried", [c0, c1, "offline 1", "k dead 1", c0], 10),
            ("a CPU that came back", [c1, "offline 1", "k dead 1", "online 1", c0, c1], 40),
        ]
        for what, lines, wanted in rows:
            with self.subTest(what):
                self.assertEqual(self.bound_after(*lines), wanted)

    def test_snapshots_lack_what_dead_cpus_keep(self):
        lines = [f"c1 mod {FREE} -15", "offline 1", f"c0 snap {FREE}", "k dead 1", f"c0 snap {FREE}"]
        output = "line 10: snapshot {}\nline 12: snapshot {}\n"
        for dead, buried in ((1000, 985), (985, 985), (965, 985)):
            self.assertEqual(self.data(lines, output.format(dead, buried)),
                             f"10 NaN {dead} 985 965 1005\n12 NaN {buried} 985 985 985\n")
        for dead, buried, line in ((964, 985, 10), (1006, 985, 10), (1000, 986, 12), (1000, 984, 12)):
            self.fails(f"output: line {line}: the snapshot", *self.files(lines, output.format(dead, buried)))

    def test_a_zone_without_a_mark(self):
        header = HEADER.replace("100 125 150", "100 200 300")
        self.assertEqual(self.bound_after("k pressure 0", f"c0 mod {FREE} 0", header=header), 20)

    def test_computed_watermarks(self):
        # DMA has min 0 and low 1, Normal min 99 and low 361: more than 40 pages lie between
        header = HEADER.replace("cpus 2\n", "cpus 2\nwatermarks 400 10\n")
        header = header.replace(" 1 2 3\n", "\n").replace(" 100 125 150\n", "\n").replace("item node slab bytes\n", "")
        self.assertEqual(self.bound_after("k pressure 0", f"c0 mod {FREE} 0", header=header), 20)

    def test_a_counter_of_a_node(self):
        header = HEADER.replace("go\n", "base 0 node nr_dirty 1000\ngo\n")
        self.assertEqual(self.bound_after("k pressure 0", "c0 mod 0 node nr_dirty 0", counter="0 node nr_dirty",
                                          header=header), 20)

    def test_an_item_in_bytes(self):
        data = self.data(["c0 mod 0 node slab 8192", "k val 0 node slab"], "line 9: value 0\n")
        self.assertEqual(data, "9 0 NaN 2 0 22\n")

    def test_a_total_below_zero(self):
        data = self.data([f"c0 mod {FREE} -1030", VAL, SNAP], "line 9: value 0\nline 10: snapshot 0\n")
        self.assertEqual(data, "9 0 0 -30 0 0\n")

    def test_several_counters(self):
        lines = [VAL, "k val 0 node nr_dirty"]
        output = "line 8: value 1000\nline 9: value 0\n"
        self.fails(f"name one with --counter: {FREE}, 0 node nr_dirty", *self.files(lines, output))
        self.assertEqual(self.data(lines, output, "--counter", "0 node nr_dirty"), "9 0 NaN 0 0 0\n")

    def test_every_cut_of_an_output(self):
        trace, _ = self.files(TRACE, OUTPUT)
        for size in range(len(OUTPUT) - 1):
            with self.subTest(size):
                self.fails("drift: cut: the last line isn't 'done accepted A refused R', so it may be cut", trace,
                           self.file("cut", OUTPUT[:size]))

    def test_outputs_that_are_not_whole(self):
        trace, _ = self.files(TRACE, OUTPUT)
        here = "the program prints no line"
        rows = [
            ("doubled", OUTPUT * 2, f"13: {here} 'line 8: value 1000' here"),
            ("its beginning twice", OUTPUT[:OUTPUT.index("line 12")] + OUTPUT, f"4: {here} 'line 8: value 1000' here"),
            ("two last lines", OUTPUT + "done accepted 16 refused 1\n", f"13: {here} 'done accepted 16 refused 1'"),
            ("more than the last line", OUTPUT + "0 node nr_dirty 5\n", f"13: {here} '0 node nr_dirty 5' here"),
            ("a refused header", "line 1: NoVersion\n", " the last line isn't"),
            ("no refusal", OUTPUT.replace("line 17: refused: UnknownLane\n", ""),
             " ends with 'done accepted 16 refused 1', shows 0 refused lines, and trace has 17 in all"),
            ("too few lines", OUTPUT.replace("accepted 16", "accepted 15"),
             " ends with 'done accepted 15 refused 1', shows 1 refused lines, and trace has 17 in all"),
            ("a cut number", OUTPUT.replace("accepted 16", "accepted 1"), " ends with 'done accepted 1 refused 1'"),
            ("an answer of another kind", OUTPUT.replace("line 9: snapshot", "line 9: value"),
             " has value of line 9, and trace asks for snapshot there"),
            ("an answer to no question", OUTPUT.replace("line 11", "line 10: value 7\nline 11"),
             " has value of line 10, and trace asks for nothing there"),
            ("an answer beyond the trace", OUTPUT.replace("done", "line 26: value 7\ndone"),
             " has value of line 26, and trace asks for nothing there"),
        ]
        for number in re.findall(r"^line (\d+): [vs]", OUTPUT, re.M):
            text = re.sub(f"^line {number}: .*\n", "", OUTPUT, flags=re.M)
            rows.append((f"without line {number}", text, f" has nothing of line {number}, and trace asks for "))
        for what, text, message in rows:
            with self.subTest(what):
                self.fails(f"drift: output:{message}", trace, self.file("output", text))

    def test_lines_that_are_ignored(self):
        lines = ["# a remark", " \t\r", "", "\v# x", f"{VAL}\r", "#" * 201]
        output = "line 12: value 1000\nline 13: refused: LineTooLong\ndone accepted 1 refused 1\n"
        self.assertEqual(self.data(lines, output), "12 1000 NaN 1000 1000 1000\n")
        output = "line 8: refused: Malformed\nline 9: value 1000\ndone accepted 1 refused 1\n"
        self.assertEqual(self.data(["\v", VAL], output), "9 1000 NaN 1000 1000 1000\n")

    def test_drawing(self):
        for lines, output in ((TRACE, OUTPUT), ([VAL], "line 8: value 1000\n")):
            status, text, _ = self.call(*self.files(lines, output))
            drawing = ElementTree.fromstring(text)
            shapes = [shape.get("class") for shape in drawing.iter() if shape.get("points") is not None]
            self.assertEqual((status, drawing.tag), (0, "{http://www.w3.org/2000/svg}svg"))
            self.assertEqual(shapes, ["band", "total", "value", "snapshot"] * 2)
            self.assertIn("prefers-color-scheme: dark", text)

    def test_bad_input(self):
        trace, output = self.files(TRACE, OUTPUT)
        plain = self.file("plain", HEADER)
        wrong = self.file("wrong", OUTPUT.replace("line 14: value 979", "line 14: value 1000"))
        off = self.file("off", OUTPUT.replace("line 15: snapshot 959", "line 15: snapshot 958"))
        other = OUTPUT.replace("line 17: refused: UnknownLane\n", "").replace("16 refused 1", "17 refused 0")
        rows = [
            ("drift: nowhere: No such file", "nowhere", output),
            ("drift: nowhere: No such file", trace, "nowhere"),
            ("plain: no 'val' or 'snap' line", plain, output),
            ("empty: no header of a trace that ends with 'go'", self.file("empty", ""), output),
            ("trace: doesn't read the counter '0 node nr_dirty'", trace, output, "--counter", "0 node nr_dirty"),
            ("none: has no answer to a reading", self.file("refused", f"{HEADER}{VAL} x\n{VAL}\n"), self.file(
                "none", "line 8: refused: Malformed\nline 9: refused: Malformed\ndone accepted 0 refused 2\n")),
            ("trace:17: the program refuses this line", trace, self.file("other", other)),
            ("wrong: line 14: the value 1000 is outside of 919 to 999", trace, wrong),
            ("off: line 14: the snapshot 958 is outside of 959 to 959", trace, off),
            ("long:1: the program prints no line 'line 8: value 9",
             trace, self.file("long", f"line 8: value {DIGITS}\n")),
            ("far:1: the program prints no line 'line 9", trace, self.file("far", f"line {DIGITS}: refused: x\n")),
            ("large:8: the program refuses this line",
             self.file("large", f"{HEADER}c0 mod {FREE} {DIGITS}\n{VAL}\n"), self.file(
                 "answer", "line 9: value 1\ndone accepted 2 refused 0\n")),
        ]
        for message, *words in rows:
            with self.subTest(message):
                self.fails(message, *words)

    def test_standard_input(self):
        trace, _ = self.files(TRACE, "")
        self.fails("drift: standard input: line 8: the value 7 is outside", trace, "-",
                   stdin=OUTPUT.replace("line 8: value 1000", "line 8: value 7"))
        self.fails("drift: standard input: the last line isn't", trace, "-", stdin="")
        self.fails("drift: standard input:1: 'cpus 0' is no header line", "-", trace, stdin="cpus 0\n")
        self.fails("drift: standard input: no 'val' or 'snap' line", "-", trace, stdin=HEADER)

    def test_damaged_files(self):
        Path("trace.gz").write_bytes(gzip.compress(HEADER.encode())[:-12])
        self.fails("drift: trace.gz: the packed file is damaged", "trace.gz", "-")


if __name__ == "__main__":
    unittest.main()
