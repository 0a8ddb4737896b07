"""page.py: the page has the numbers that the program prints. A script stands for the program and prints what it would.

On 2 CPUs a zone of 262,144 pages has the threshold 20: so many pages of each CPU may be missing from the plain value.
"""
import json
import os
import sys
import time
from unittest import mock

from calls import ToolTest, vmtrace

import page

HEADER = """vmtrace 1
cpus 2
zone 0 Normal 262144 100 125 150
base 0 Normal nr_free_pages 1000
counter files 32
go
"""
BODY = """c1 mod 0 Normal nr_free_pages 3
c1 ev pgfault 4
c1 cnt files 9
offline 1
c0 mod 0 Normal nr_free_pages -5
# a remark
c9 inc 0 Normal nr_free_pages
k val 0 Normal nr_free_pages
"""
ZEROS = " 0" * 7
OTHERS = [f"0 Normal {item}" for item in vmtrace.ZONE_ITEMS[1:]] + [f"0 node {item}" for item in vmtrace.NODE_ITEMS]
# The script goes by the number of lines of the trace above, as each line of BODY has its effect.
PROGRAM = f"""#!{sys.executable} -IS
import sys
EVENTS = {page.EVENTS}
answers = {{13: "refused: UnknownLane", 14: "value 1000"}}
above = 0
for number, line in enumerate(sys.stdin.read().splitlines(), 1):
    free = [-5 if above > 10 else 0, 3 if above > 6 else 0]
    faults, files = 4 if above > 7 else 0, 9 if above > 8 else 0
    dead = "dead " if above > 9 else ""
    if line == "report zoneinfo":
        print(f"line {{number}}: {{line}}", "Node 0, zone Normal", "  pages free 1000", "  min 100", sep="\\n")
        print("  drift mark 190", "  nr_free_pages 1000", sep="\\n")
        print(*(f"  {{item}} 0" for item in {vmtrace.ZONE_ITEMS[1:]}), sep="\\n")
        print(*(f"  cpu {{n}} {{dead * n}}threshold 20 differentials {{free[n]}}{ZEROS}" for n in range(2)), sep="\\n")
        print("Node 0, all zones", *(f"  {{item}} 0" for item in {vmtrace.NODE_ITEMS}), sep="\\n")
        print(*(f"  cpu {{n}} {{dead * n}}threshold 20 differentials 0{ZEROS}" for n in range(2)), sep="\\n")
    elif line == "report totals":
        print(f"line {{number}}: {{line}}", f"0 Normal nr_free_pages {{1000 + sum(free)}}", sep="\\n")
        print(*(f"{{name}} 0" for name in {OTHERS}), sep="\\n")
        print(*(f"event {{event}} {{faults if event == 'pgfault' else 0}}" for event in EVENTS), sep="\\n")
        print(f"counter files {{files}}")
    elif line == "report counters":
        print(f"line {{number}}: {{line}}", f"files batch 32 count 0 locals 0 {{files}} sum {{files}}", sep="\\n")
    elif line.startswith("k evsum "):
        print(f"line {{number}}: events {{faults if line == 'k evsum pgfault' and not dead else 0}}")
    else:
        above += 1
        if above in answers:
            print(f"line {{number}}: {{answers[above]}}")
print("done accepted 6 refused 1")
sys.exit(3)
"""


class PageTest(ToolTest):
    tool = "page"

    def program(self, text=PROGRAM):
        name = os.path.abspath(self.file("program", text))
        os.chmod(name, 0o755)
        return name

    def test_help(self):
        self.tells_help()

    def data(self, *words, body=BODY, program=PROGRAM):
        """What a page has for its script."""
        trace = self.file("small.vmtrace", HEADER + body)
        status, output, errors = self.call(trace, "--program", self.program(program), *words)
        self.assertEqual((status, errors), (0, ""))
        return json.loads(output.split('id="data">')[1].split("</script>")[0])

    def test_lines_and_machine(self):
        data = self.data()
        self.assertEqual((data["title"], data["done"]), ("small.vmtrace", "done accepted 6 refused 1"))
        self.assertEqual((data["step"], data["begin"]), (1, 6))
        self.assertEqual(data["machine"], {
            "cpus": 2, "zones": [{"name": "node 0, zone Normal", "managed": 262144, "threshold": 20}],
            "percpu": [{"name": "files", "batch": 32}]})
        self.assertEqual(data["rows"], ["between phases", "control lane", "CPU 0", "CPU 1", "CPU 9"])
        self.assertEqual(data["lines"], [
            [7, "CPU 1", "c1 mod 0 Normal nr_free_pages 3", ""],
            [8, "CPU 1", "c1 ev pgfault 4", ""],
            [9, "CPU 1", "c1 cnt files 9", ""],
            [10, "between phases", "offline 1", ""],
            [11, "CPU 0", "c0 mod 0 Normal nr_free_pages -5", ""],
            [13, "CPU 9", "c9 inc 0 Normal nr_free_pages", "refused: UnknownLane"],
            [14, "control lane", "k val 0 Normal nr_free_pages", "value 1000"],
        ])

    def test_figures(self):
        free, files, faults = self.data()["figures"]
        self.assertEqual(free, {
            "name": "0 Normal nr_free_pages", "title": "nr_free_pages of node 0, zone Normal", "law": "pages",
            "unit": "pages", "marks": [["min", 100], ["low", 125], ["high", 150]],
            "worst": {"off": -3, "from": 7, "to": 10, "times": 1},
            # the line, value, snapshot (without the dead CPU), true total, how far off, how far it can be, drift mark
            "rows": [[6, 1000, 1000, 1000, 0, 0, 190], [7, 1000, 1003, 1003, -3, 20, 190],
                     [10, 1000, 1000, 1003, -3, 20, 190], [11, 1000, 995, 998, 2, 40, 190]],
        })
        self.assertEqual(files, {
            "name": "counter files", "title": "percpu counter files", "law": "percpu", "unit": "", "marks": [],
            "worst": {"off": -9, "from": 9, "to": 14, "times": 1},
            # a batch of 32 for each of 2 CPUs, the dead one too
            "rows": [[6, 0, None, 0, 0, 64, 0], [9, 0, None, 9, -9, 64, 0]],
        })
        self.assertEqual(faults, {
            "name": "event pgfault", "title": "event pgfault", "law": "events", "unit": "", "marks": [],
            "worst": {"off": -4, "from": 10, "to": 14, "times": 1},
            # a sum over the online CPUs is right unless a CPU is dead, and no law says how far it is off then
            "rows": [[6, 0, None, 0, 0, 0, 0], [8, 4, None, 4, 0, 0, 0], [10, 0, None, 4, -4, None, 0]],
        })

    def test_what_never_changes_is_apart(self):
        names = [*OTHERS, *(f"event {event}" for event in page.EVENTS[:-1])]
        self.assertEqual(self.data()["steady"], [[name, 0] for name in names])

    def test_the_first_figure(self):
        for name in ("event pgfault", "counter files", "0 node nr_dirty"):
            data = self.data("--counter", name)
            self.assertEqual(data["figures"][0]["name"], name)
            self.assertEqual(len(data["figures"]) + len(data["steady"]), 8 + 8 + 1 + 8)
        self.assertEqual(data["figures"][0]["rows"], [[6, 0, 0, 0, 0, 0, 0]])
        idle = self.data(body="")
        self.assertEqual([figure["name"] for figure in idle["figures"]], ["0 Normal nr_free_pages"])

    def test_the_worst_moment(self):
        cases = [
            ([0, 5, 5, 0], {"off": 5, "from": 2, "to": 3, "times": 1}),
            ([0, 5, -7, -7, 3, -7], {"off": -7, "from": 3, "to": 4, "times": 2}),
            ([0, -4, 4], {"off": -4, "from": 2, "to": 2, "times": 2}),
            ([0, 0, 0], {"off": 0, "from": 2, "to": 2, "times": 0}),
            ([0], {"off": 0, "from": 1, "to": 1, "times": 0}),
        ]
        for offs, wanted in cases:
            with self.subTest(offs):
                moments = [page.Moment(line, off, None, 0, 9) for line, off in enumerate(offs, 1)]
                self.assertEqual(page.Figure("", "", "pages", "", moments).worst(), wanted)
        bounded = [page.Moment(line, 0, None, 0, bound) for line, bound in enumerate([0, 20, 40, 40], 1)]
        self.assertEqual(page.Figure("", "", "pages", "", bounded).worst()["from"], 3)

    def test_where_the_page_opens(self):
        """At the worst moment; where nothing is off, at the first answer that is no refusal, if there is one."""
        self.assertEqual(self.data()["opens"], 7)
        self.assertEqual(self.data("--counter", "0 node nr_dirty")["opens"], 7)
        right = page.Figure("", "", "pages", "", [page.Moment(6, 0, 0, 0), page.Moment(7, 0, 0, 0, 9)])
        off = page.Figure("", "", "pages", "", [page.Moment(6, 0, 0, 0), page.Moment(9, 1, 0, 0, 9)])
        shown = [[7, "CPU 0", "", ""], [8, "CPU 0", "", "refused: Malformed"], [9, "CPU 0", "", "value 3"]]
        self.assertEqual(page.opening([right], shown), 9)
        self.assertEqual(page.opening([right], shown[:2]), 7)
        self.assertEqual(page.opening([right, off], shown), 7)

    def test_the_order_of_figures(self):
        figures = [page.Figure(name, name, law, "", [page.Moment(1, 0, None, 0), page.Moment(2, value, None, total)])
                   for name, law, value, total in (
                       ("still", "pages", 0, 0), ("right", "pages", 4, 4), ("near", "pages", 1, 0),
                       ("far", "pages", 0, 2), ("faults", "events", 0, 900), ("files", "percpu", 0, 90))]
        names = [figure.name for figure in page.in_order(figures, None)]
        self.assertEqual(names, ["far", "near", "files", "faults", "right", "still"])
        self.assertEqual(page.in_order(figures, "faults")[0].name, "faults")

    def test_large_numbers_lose_nothing(self):
        self.assertEqual([page.exact(number) for number in (None, 2**53, -2**53 - 1)], [None, 2**53, str(-2**53 - 1)])

    def test_units(self):
        header = vmtrace.Header(in_bytes={"slab"})
        units = {"nr_mlock": "pages", "slab": "pages", "area10": "free blocks", "area11": "", "own": ""}
        self.assertEqual({item: page.unit_of(header, item) for item in units}, units)

    def test_a_page_asks_nothing_of_others(self):
        with open(page.TEMPLATE, encoding="ascii") as template:
            text = template.read()
        for word in ("src=", "href=", "@import", "url(", "fetch("):
            self.assertNotIn(word, text)

    def test_places(self):
        header = vmtrace.Header(lines=1)
        cases = ((0, 0, 1, [1]), (3, 3, 1, [1, 2, 3, 4]), (2_000, 2_000, 1, None), (4_801, 1_601, 3, None))
        for told, readings, wanted_step, wanted in cases:
            batches, step = page.places_of(["go", *["sync"] * told], header)
            places = sum(batches, [])
            self.assertEqual((len(places), step), (readings + 1, wanted_step))
            self.assertEqual(places[-1], told + 1)
            self.assertEqual(places, sorted(set(places)))
            if wanted:
                self.assertEqual(places, wanted)

    def test_places_before_a_setter_have_their_own_replay(self):
        """A report ends a phase, and a line that sets thresholds goes by what CPUs knew in its phase."""
        lines = ["cpus 1", "go", "c0 inc", "k pressure 0", "c0 inc", "sync", "c0 inc", "offline 9", "k dead 0",
                 "c0 inc"]
        header = vmtrace.Header(lines=2)
        self.assertEqual(page.places_of(lines, header, {8}), ([[2, 3], [4, 5, 9, 10], [6, 7, 8]], 1))
        self.assertEqual(page.places_of(lines, header, {9}), ([[2, 3], [4, 5, 6, 7, 9, 10], [8]], 1))
        self.assertEqual(page.places_of(lines, header)[0], [[2, 3], [4, 5, 6, 7, 9, 10], [8]])

    def test_replays_grow_with_the_lines_alone(self):
        """However many lines there are, and whatever they are, so many replays read them."""
        header = vmtrace.Header(lines=1)
        for line, most in (("c0 inc", 11), ("sync", 11), ("k kswapd 0 3 2", page.MOST_REPLAYS)):
            for many in (200, 2_000, 5_000):
                with self.subTest(line, many=many):
                    batches, _ = page.places_of(["go", *[line] * many], header)
                    self.assertLessEqual(len(batches), most)
                    self.assertEqual(max(map(max, batches)), many + 1)

    def test_the_limit_of_time(self):
        trace = self.file("trace", HEADER + BODY)
        message = "the replays of the trace have taken 0.3 seconds; --seconds allows for more"
        began = time.monotonic()
        for first in ("", 'print("done accepted 0 refused 0", flush=True)\nos.close(1)\n'):
            program = self.program(f"#!{sys.executable} -IS\nimport os, time\n{first}time.sleep(60)\n")
            self.fails(message, trace, "--program", program, "--seconds", "0.3")
        self.fails("have taken 0 seconds", trace, "--program", self.program(), "--seconds", "0")
        self.assertLess(time.monotonic() - began, 30)

    def test_words_of_a_line_stand_as_text(self):
        body = "c0 </script><b>\n"
        program = PROGRAM.replace('13: "refused: UnknownLane"', '7: "refused: Malformed"').replace(
            "above > 6", "above > 9")
        status, output, _ = self.call(self.file("trace", HEADER + body), "--program", self.program(program))
        self.assertEqual(status, 0)
        self.assertNotIn("</script><b>", output)

    def test_rows_of_lines(self):
        rows = {"k": "control lane", "c0": "CPU 0", "c128": "CPU 128", "sync": "between phases", "c": "between phases",
                "c" + "9" * 5000: "between phases"}
        self.assertEqual({word: page.lane_of([word]) for word in rows}, rows)

    def test_refusals(self):
        trace = self.file("trace", HEADER + BODY)
        self.fails("has no counter '0 Normal nr_dirty'; the names are those of `report totals`", trace, "--counter",
                   "0 Normal nr_dirty", "--program", self.program())
        self.fails("missing: No such file or directory; ./vozhkell builds the proved program, and --program names "
                   "another", trace, "--program", "missing")
        self.fails("ended with status 2: line 1: NotVersion", trace, "--program",
                   self.program("#!/bin/sh\necho line 1: NotVersion\nexit 2\n"))
        others = "its answers or its reports aren't those of docs/FORMATS.md"
        expected = "where 'done accepted N refused N' is expected"
        programs = [
            ("it prints '' last, " + expected, "#!/bin/sh\n"),
            ("it prints 'replay' last, " + expected, '#!/bin/sh\necho "$@"\n'),
            ("it prints '\\xff\\x1b' last, " + expected, "#!/bin/sh\nprintf '\\377\\033\\n'\n"),
            (others, "#!/bin/sh\necho done accepted 1 refused 0\n"),
            (others, PROGRAM.replace('"  nr_free_pages 1000"', '""')),
            (others, PROGRAM.replace("counter files {files}", "counter files x")),
            (others, PROGRAM.replace("counter files {files}", "counter inodes 0")),
            (others, PROGRAM.replace("locals 0 {files}", "locals")),
            (others, PROGRAM.replace(": events", ": sum")),
            (others, PROGRAM.replace("{number}: events", "{number + 1}: events")),
            # another answer where reports stand among the lines
            (others, PROGRAM.replace("{answers[above]}", "{answers[above]}{'0' * (number > above)}")),
        ]
        for message, program in programs:
            with self.subTest(program):
                self.fails(message, trace, "--program", self.program(program))
        self.fails(".: Permission denied; ./vozhkell builds", trace, "--program", ".")
        with mock.patch("page.MOST_PRINTED", 100):
            self.fails("isn't the program: it prints more than 100 bytes", trace, "--program",
                       self.program("#!/bin/sh\nwhile echo replay; do :; done\n"))
        self.fails("no header of a trace", self.file("none", "vmtrace 1\n"), "--program", self.program())
        self.fails("and a page shows at most 5,000", self.file("long", HEADER + "sync\n" * 5_001))
        self.fails("page: standard input:1: 'cpus 0' is no header line", "-", stdin="cpus 0\n")
        wrong = [("6", "0 Normal nr_free_pages", "1000 + sum(free)", "1050"),
                 ("7", "0 Normal nr_free_pages", "3 if above", "21 if above"),
                 ("8", "event pgfault", "events {faults if", "events {0 if"),
                 ("9", "counter files", "9 if above > 8", "65 if above > 8")]
        for line, counter, before, after in wrong:
            with self.subTest(after):
                self.assertIn(before, PROGRAM)
                self.fails(f"trace:{line}: what the program printed of {counter} is wrong", trace, "--program",
                           self.program(PROGRAM.replace(before, after)))
