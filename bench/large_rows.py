"""Makes the traces that are too long to stand in bench/rows, each with its expected outputs, for bench/rows.py.

They are for the limits of a trace, for many changes of one counter by lanes that race, and for the largest report of
each version; and of traces of groups for the limits and for many changes of one tree. The outputs are put together from what each line
prints by the rules of the format, not by a program that replays it.
"""
from typing import NamedTuple

ZONE = ("nr_free_pages nr_zone_inactive_anon nr_zone_active_anon nr_zone_inactive_file nr_zone_active_file "
        "nr_zone_unevictable nr_zone_write_pending nr_mlock").split()
NODE = ("nr_inactive_anon nr_active_anon nr_inactive_file nr_active_file nr_unevictable nr_anon_pages "
        "nr_file_pages nr_dirty").split()
EVENTS = "pgpgin pgpgout pswpin pswpout pgfree pgactivate pgdeactivate pgfault".split()
FREE = "0 Normal nr_free_pages"
MOST_BYTES = 1 << 26
MOST_LINES = 1_000_000


class Large(NamedTuple):
    """A trace in lines, what `replay` or `groups` prints, the status, and what `check` writes where that is known.
    `is_same` says that refused lines alone are of a second lane, though not all of them are printed."""
    lines: list
    out: list
    status: int
    checked: list = None
    has_last_newline: bool = True
    is_same: bool = False

    def text(self):
        return self.joined(self.lines)[:None if self.has_last_newline else -1]

    @staticmethod
    def joined(lines):
        return "".join(line + "\n" for line in lines).encode()


# Of one CPU, with 10,000 free pages.
ONE_CPU = ["vmtrace 1", "cpus 1", "zone 0 Normal 262144 100 125 150", f"base {FREE} 10000", "go"]


def head(cpus, base):
    return ["vmtrace 1", f"cpus {cpus}", "zone 0 Normal 262144 100 125 150", f"base {FREE} {base}", "go"]


def totals(free):
    counters = [f"0 Normal {item}" for item in ZONE] + [f"0 node {item}" for item in NODE]
    counters += [f"event {event}" for event in EVENTS]
    return [f"{counter} {free if counter == FREE else 0}" for counter in counters]


def many_changes():
    """Eight lanes with 10,000 changes by one page each, while all are folded and thresholds change."""
    body = []
    for n in range(10_000):
        body += [f"c{cpu} mod {FREE} 1" for cpu in range(8)]
        if n % 500 == 250:
            body += [f"c{n // 500 % 8} fold {cpu}" for cpu in range(8)] + [f"k fold {n // 500 % 8}"]
        if n % 1000 == 100:
            body.append("k pressure 0")
        if n % 1000 == 600:
            body.append("k normal 0")
    body.append("report totals")
    lines = head(8, 10_000) + body
    out = [f"line {len(lines)}: report totals", *totals(90_000), f"done accepted {len(body)} refused 0"]
    return Large(lines, out, 0)


def crowd():
    """Eight lanes with 10,000 changes by one page each. Each hundredth time a lane and the control lane fold a CPU."""
    body = []
    for n in range(10_000):
        body += [f"c{cpu} mod {FREE} 1" for cpu in range(8)]
        if n % 100 == 0:
            cpu = n // 800 % 8
            body += [f"c{n // 100 % 8} fold {cpu}", "k pressure 0", f"k fold {cpu}", "k normal 0"]
    lines = head(8, 10_000) + body + ["report totals"]
    return Large(lines, ["line 80406: report totals", *totals(90_000), "done accepted 80401 refused 0"], 0)


def counts_of_two_lanes():
    """Two lanes that count an event and add 3 to a percpu counter, 10,000 times each. Of 11 additions the eleventh
    reaches the batch and moves 33, so that 909 times 33 and a 3 are left of each lane's."""
    head_lines = ["vmtrace 1", "cpus 2", "zone 0 Normal 262144 100 125 150", "counter files 32", "go"]
    body = ["c0 ev pgfault 1", "c1 ev pgfault 1", "c0 cnt files 3", "c1 cnt files 3"] * 10_000
    body += ["sync", "c0 evsum pgfault", "c0 rough files", "c0 sum files", "report counters"]
    lines = head_lines + body
    at = len(lines)
    return Large(lines, [f"line {at - 3}: events 20000", f"line {at - 2}: count 59994", f"line {at - 1}: sum 60000",
                         f"line {at}: report counters", "files batch 32 count 59994 locals 3 3 sum 60000",
                         f"done accepted {len(body)} refused 0"], 0)


def burials_beside_counts():
    """100 times a CPU that is dead, with 5 events and 7 things, is buried while another counts 100 and adds 100."""
    head_lines = ["vmtrace 1", "cpus 2", "zone 0 Normal 262144 100 125 150", "counter files 32", "go"]
    body = []
    for _ in range(100):
        counts = ["c0 ev pgfault 1", "c0 cnt files 1"] * 100
        body += ["c1 ev pgfault 5", "c1 cnt files 7", "offline 1", *counts[:100], "k dead 1", *counts[100:], "online 1"]
    body += ["c0 evsum pgfault", "c0 sum files"]
    lines = head_lines + body
    return Large(lines, [f"line {len(lines) - 1}: events 10500", f"line {len(lines)}: sum 10700",
                         f"done accepted {len(body)} refused 0"], 0)


def reports(count):
    lines = head(2, 7) + ["report totals"] * count
    checked = lines[:5 + 1_000]
    out = []
    for n in range(min(count, 1_000)):
        out += [f"line {n + 6}: report totals", *totals(7)]
    if count > 1_000:
        return Large(lines, out, 7, checked)
    done = f"done accepted {count} refused 0"
    return Large(lines, out + [done], 0, checked + ["# " + done])


def too_many_reports_of_vmstat():
    lines = head(2, 7) + ["report vmstat"] * 1_001
    values = [f"nr_free_pages 7", *(f"{name} 0" for name in ZONE[1:] + NODE + EVENTS)]
    out = []
    for n in range(1_000):
        out += [f"line {n + 6}: report vmstat", *values]
    return Large(lines, out, 7, lines[:-1])


def phases(count):
    """Phases of a line that prints. A refused line of the last one stands before what opens it, and is written."""
    lines, out = head(2, 7), []
    for n in range(count):
        lines += ["c2 inc " + FREE, "c0 val " + FREE, "sync"]
        out.append(f"line {3 * n + 6}: refused: UnknownLane")
        if n < 10_000:
            out.append(f"line {3 * n + 7}: value 7")
    checked = [f"# line {n}: refused: UnknownLane" if "c2" in line else line for n, line in enumerate(lines, 1)]
    if count > 10_000:
        return Large(lines, out, 7, checked[:-2])
    done = f"done accepted {2 * count} refused {count}"
    return Large(lines, out + [done], 3, checked + ["# " + done])


def silent_phases(line, count):
    """Phases of a line that prints nothing."""
    lines = ONE_CPU + [line, "sync"] * count
    if count > 10_000:
        return Large(lines, [], 7, lines[:-2])
    done = f"done accepted {2 * count} refused 0"
    return Large(lines, [done], 0, lines + ["# " + done])


def lines_in_all(count):
    """The answer of a phase that is open where the limit is passed isn't written."""
    lines = head(2, 7) + ["c2 inc " + FREE, "c0 val " + FREE, "c2 inc " + FREE]
    lines += [""] * (count - len(lines))
    out = ["line 6: refused: UnknownLane"]
    checked = head(2, 7) + ["# line 6: refused: UnknownLane", "c0 val " + FREE, "# line 8: refused: UnknownLane"]
    if count > MOST_LINES:
        return Large(lines, out, 7, checked, is_same=True)
    out += ["line 7: value 7", "line 8: refused: UnknownLane", "done accepted 1 refused 2"]
    return Large(lines, out, 3, checked + ["# done accepted 1 refused 2"])


def blank_lines(count):
    """Lines in all, of which those below the header are blank."""
    lines = ONE_CPU + [""] * (count - len(ONE_CPU))
    if count > MOST_LINES:
        return Large(lines, [], 7, ONE_CPU)
    return Large(lines, ["done accepted 0 refused 0"], 0, ONE_CPU + ["# done accepted 0 refused 0"])


def one_long_line(lines, count, out, status):
    """So many bytes in all, of which those below some lines are one line with no newline."""
    size = count - sum(len(line) + 1 for line in lines)
    return Large(lines + ["x" * size], out, status, has_last_newline=False)


def phase_past_the_limit():
    """A lane line opens the phase 10,001, between refused lines."""
    opening = ["c9 fold 0", "k val 0 Normal nr_mlock"]
    lines = ONE_CPU + opening + ["sync"] + ["k fold 0", "sync"] * 9_999 + opening + ["c9 fold 0"]
    out = ["line 6: refused: UnknownLane", "line 7: value 0", "line 20007: refused: UnknownLane"]
    return Large(lines, out, 7, is_same=True)


def line_past_the_limit():
    """The line 1,000,001 is one of a phase that is open."""
    lines = ONE_CPU + ["c9 fold 0", "sync", "c9 fold 1", "k val 0 Normal nr_mlock", "c9 fold 0"]
    lines += [""] * (MOST_LINES - len(lines)) + ["c9 fold 0"]
    return Large(lines, ["line 6: refused: UnknownLane", "line 8: refused: UnknownLane"], 7, is_same=True)


def byte_past_the_limit():
    """A phase is open where 64 MiB are passed."""
    lines = ONE_CPU + ["k val 0 Normal nr_mlock", "sync", "c9 fold 0", "k val 0 Normal nr_mlock", "c9 fold 0"]
    lines += ["# A remark, which a command has to read to its end before it can leave it out."] * 849_480
    return Large(lines, ["line 6: value 0", "line 8: refused: UnknownLane"], 7, is_same=True)


def bytes_in_all(count):
    lines = head(2, 7) + ["c2 inc " + FREE, "c0 val " + FREE]
    left = count - sum(len(line) + 1 for line in lines)
    lines += ["#" * 199] * (left // 200 - 1)
    rest = left - 200 * (left // 200 - 1)
    lines += ["#" * (rest // 2 - 1), "#" * (rest - rest // 2 - 1)]
    out = ["line 6: refused: UnknownLane"]
    if count > MOST_BYTES:
        return Large(lines, out, 7)
    return Large(lines, out + ["line 7: value 7", "done accepted 1 refused 1"], 3)


def largest_report(version, cpus):
    """Sixteen nodes of a zone each. Every CPU but the first is dead, and hides 125 pages of every item."""
    declared = [[f"{letter}{n}".ljust(16, "_") for n in range(8)] for letter in "zn"] if version == 2 else [[], []]
    zone, node = ZONE + declared[0], NODE + declared[1]
    most, managed = 1 << 48, 1 << 40
    header = [f"vmtrace {version}", f"cpus {cpus}"]
    header += [f"item {name} {item}" for name, items in zip(("zone", "node"), declared) for item in items]
    header += [f"zone {n} Normal {managed} {managed} {managed} {managed}" for n in range(16)]
    places = [(n, "Normal", item) for n in range(16) for item in zone]
    places += [(n, "node", item) for n in range(16) for item in node]
    header += [f"base {n} {kind} {item} {most}" for n, kind, item in places] + ["go"]
    body = [f"c{cpu} mod {n} {kind} {item} -125" for cpu in range(cpus) for n, kind, item in places]
    body += [f"offline {cpu}" for cpu in range(1, cpus)] + ["report zoneinfo"]
    out = [f"line {len(header) + len(body)}: report zoneinfo"]
    hidden = " -125" * len(zone)
    held = [f"  cpu {cpu}{' dead' if cpu else ''} threshold 125 differentials{hidden}" for cpu in range(cpus)]
    for n in range(16):
        out += [f"Node {n}, zone Normal", f"  pages free {most}"]
        out += [f"  {name} {managed}" for name in ("min", "low", "high", "managed")]
        out += [f"  drift mark {managed + cpus * 125}", "  protection 0 0 0 0"]
        out += [f"  {item} {most}" for item in zone] + held
    for n in range(16):
        out += [f"Node {n}, all zones"] + [f"  {item} {most}" for item in node] + held
    return Large(header + body, out + [f"done accepted {len(body)} refused 0"], 0)


# Of a tree of four groups.
GROUP_HEAD = ["vmgroups 1", "cpus 8", "group root", "group a root", "group b a", "group c root", "go"]


def many_changes_of_groups():
    """Eight lanes with 10,000 changes each, which flush all groups meanwhile. What they left is flushed at the end."""
    body = []
    for n in range(10_000):
        body += [f"c{cpu} add {'abc'[(n + cpu) % 3]} {cpu - 3}" for cpu in range(8)]
        if n % 50 == 25:
            body += [f"c{cpu} flush {('root', 'a', 'b', 'c')[(n // 50 + cpu) % 4]}" for cpu in range(8)]
    body += ["sync", "c0 flush root", "report groups"]
    # CPU c changes each group 3,333 times, and once more the one of its first line.
    sums = {name: sum(3_333 * (cpu - 3) for cpu in range(8)) for name in "abc"}
    for cpu in range(8):
        sums["abc"[cpu % 3]] += cpu - 3
    of_a = sums["a"] + sums["b"]
    values = {"root": of_a + sums["c"], "a": of_a, "b": sums["b"], "c": sums["c"]}
    lines = GROUP_HEAD + body
    out = [f"line {len(lines)}: report groups", *(f"{name} value {n} pending 0 total {n}" for name, n in values.items())]
    return Large(lines, out + [f"done accepted {len(body)} refused 0"], 0)


def flushes_of_two_lanes():
    """Two lanes that change a group and flush one above it, 10,000 times each, as a chain of three has them."""
    body = ["c0 add c 3", "c1 add b -1", "c0 flush b", "c1 flush a"] * 10_000
    body += ["sync", "c0 flush a", "report groups"]
    lines = ["vmgroups 1", "cpus 2", "group a", "group b a", "group c b", "go"] + body
    values = {"a": 20_000, "b": 20_000, "c": 30_000}
    out = [f"line {len(lines)}: report groups", *(f"{name} value {n} pending 0 total {n}" for name, n in values.items())]
    return Large(lines, out + [f"done accepted {len(body)} refused 0"], 0)


def reports_of_groups(count):
    lines, out = GROUP_HEAD + ["c0 add b 5"] + ["report groups"] * count, []
    for n in range(min(count, 1_000)):
        out += [f"line {n + 9}: report groups", "root value 0 pending 5 total 5", "a value 0 pending 5 total 5",
                "b value 0 pending 5 total 5", "c value 0 pending 0 total 0"]
    return Large(lines, out + [f"done accepted {count + 1} refused 0"], 0) if count <= 1_000 else Large(lines, out, 7)


def phases_of_groups(count):
    lines, out = list(GROUP_HEAD), []
    for n in range(count):
        lines += ["c8 add b 1", "c0 value b", "sync"]
        out.append(f"line {3 * n + 8}: refused: UnknownLane")
        if n < 10_000:
            out.append(f"line {3 * n + 9}: value 0")
    if count > 10_000:
        return Large(lines, out, 7)
    return Large(lines, out + [f"done accepted {2 * count} refused {count}"], 3)


def lines_of_groups(count):
    lines = GROUP_HEAD + ["c8 add b 1", "c0 value b", "c8 add b 1"]
    lines += [""] * (count - len(lines))
    out = ["line 8: refused: UnknownLane"]
    if count > MOST_LINES:
        return Large(lines, out, 7)
    return Large(lines, out + ["line 9: value 0", "line 10: refused: UnknownLane", "done accepted 1 refused 2"], 3)


def bytes_of_groups(count):
    lines = GROUP_HEAD + ["c8 add b 1", "c0 value b"]
    left = count - sum(len(line) + 1 for line in lines)
    lines += ["#" * 199] * (left // 200 - 1)
    rest = left - 200 * (left // 200 - 1)
    lines += ["#" * (rest // 2 - 1), "#" * (rest - rest // 2 - 1)]
    out = ["line 8: refused: UnknownLane"]
    if count > MOST_BYTES:
        return Large(lines, out, 7)
    return Large(lines, out + ["line 9: value 0", "done accepted 1 refused 1"], 3)


def large_rows():
    """The name of each row, and what makes it."""
    inc, fold = "c0 inc 0 Normal nr_mlock", "k fold 0"
    return [
        ("many_changes", many_changes),
        ("crowd", crowd),
        ("counts_of_two_lanes", counts_of_two_lanes),
        ("burials_beside_counts", burials_beside_counts),
        ("as_many_reports", lambda: reports(1_000)),
        ("too_many_reports", lambda: reports(1_001)),
        ("too_many_reports_of_vmstat", too_many_reports_of_vmstat),
        ("largest_report", lambda: largest_report(1, 64)),
        ("largest_report_of_version_2", lambda: largest_report(2, 128)),
        ("as_many_phases", lambda: phases(10_000)),
        ("too_many_phases", lambda: phases(10_001)),
        ("as_many_phases_of_changes", lambda: silent_phases(inc, 10_000)),
        ("too_many_phases_of_changes", lambda: silent_phases(inc, 10_001)),
        ("as_many_phases_of_folds", lambda: silent_phases(fold, 10_000)),
        ("too_many_phases_of_folds", lambda: silent_phases(fold, 10_001)),
        ("phase_past_the_limit", phase_past_the_limit),
        ("as_many_lines", lambda: lines_in_all(MOST_LINES)),
        ("too_many_lines", lambda: lines_in_all(MOST_LINES + 1)),
        ("as_many_blank_lines", lambda: blank_lines(MOST_LINES)),
        ("too_many_blank_lines", lambda: blank_lines(MOST_LINES + 1)),
        ("line_past_the_limit", line_past_the_limit),
        ("as_many_bytes", lambda: bytes_in_all(MOST_BYTES)),
        ("too_many_bytes", lambda: bytes_in_all(MOST_BYTES + 1)),
        ("byte_past_the_limit", byte_past_the_limit),
        ("as_many_bytes_in_a_line", lambda: one_long_line(
            ONE_CPU, MOST_BYTES, ["line 6: refused: LineTooLong", "done accepted 0 refused 1"], 3)),
        ("too_many_bytes_in_a_line", lambda: one_long_line(ONE_CPU, MOST_BYTES + 1, [], 7)),
        ("refused_header_of_too_many_bytes", lambda: one_long_line(
            ["vmtrace 3"], MOST_BYTES + 1, ["line 1: BadMagic"], 2)),
        ("groups_many_changes", many_changes_of_groups),
        ("groups_flushes_of_two_lanes", flushes_of_two_lanes),
        ("groups_as_many_reports", lambda: reports_of_groups(1_000)),
        ("groups_too_many_reports", lambda: reports_of_groups(1_001)),
        ("groups_as_many_phases", lambda: phases_of_groups(10_000)),
        ("groups_too_many_phases", lambda: phases_of_groups(10_001)),
        ("groups_as_many_lines", lambda: lines_of_groups(MOST_LINES)),
        ("groups_too_many_lines", lambda: lines_of_groups(MOST_LINES + 1)),
        ("groups_too_many_header_lines", lambda: Large(GROUP_HEAD[:-1] + [""] * MOST_LINES, [], 7)),
        ("groups_as_many_bytes", lambda: bytes_of_groups(MOST_BYTES)),
        ("groups_too_many_bytes", lambda: bytes_of_groups(MOST_BYTES + 1)),
    ]
