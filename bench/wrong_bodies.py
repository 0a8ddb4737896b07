#!/usr/bin/env python3
"""Builds the plain program with one wrong body at a time, and says which of them the rows of bench/rows let through.

    bench/wrong_bodies.py [WORD..]

Each body has a behavior wrong that an edit which must fail once tried, and that a row holds now. It is that of a plain
program, since a proved program with a wrong body isn't built: the rows judge both alike. `WRONG` names for each what is
wrong, the commands, the file with what stands there and what takes its place, and the row that has to differ. With
WORDS only the bodies are tried of which one of them is told. A line is printed for each body that goes through, the
last one counts, and the status is 1 if one goes through.
"""
import ast
import os
import shutil
import subprocess
import sys
import tempfile
from concurrent.futures import ThreadPoolExecutor

from faults import run
from large_rows import Large, large_rows
from rows import HEADER, TOP, contents, table

WRONG = [
    ("no limit on bytes", "replay run", "commands.rs", "self.bytes > MOST_BYTES || ", "", "too_many_bytes"),
    ("writes its output twice", "replay run", "commands.rs", "let written = self.sink.write_all(&self.held.0);",
     "let written = self.sink.write_all(&self.held.0).and_then(|()| self.sink.write_all(&self.held.0));",
     "whole_run_in_turn"),
    ("compares percpu counters by the shared part", "replay run", "counters.rs",
     "(self.sum(counter).cmp(&with), false)", "(rough.cmp(&with), false)", "shared_compares"),
    ("refuses a limited add that just fits by what CPUs may hold", "replay run", "counters.rs",
     "left + unknown >= 0 &&", "left + unknown > 0 &&", "limited_add_at_unknown"),
    ("compares over the CPUs that are online now", "replay", "world.rs", "        self.present\n",
     "        self.online.len()\n", "present_cpus_of_phase"),
    ("compares over the CPUs that are online now", "run", "shared.rs", "        self.present.load(SeqCst)\n",
     "        self.online().count()\n", "shared_compares_of_dead"),
    ("leaves dead CPUs out of a sum", "run", "shared.rs",
     "self.cpus.iter().map(|cpu| cpu.locals[counter].load(SeqCst)).sum()",
     "self.online().map(|cpu| cpu.locals[counter].load(SeqCst)).sum()", "shared_compares_of_dead"),
    ("leaves dead CPUs out of a sum", "replay", "world.rs",
     "self.locals[counter * self.cpus..][..self.cpus].iter().sum()",
     "self.online.iter().map(|cpu| self.locals[counter * self.cpus + cpu]).sum()", "burial_moves_locals"),
    ("looks for no free block", "replay run", "counters.rs",
     "(order == 0 || areas.any(|position| self.snapshot(first + position) > 0))",
     "(order == 0 || areas.next().is_some())", "shared_kswapd_blocks"),
    ("looks for blocks of any order", "replay run", "counters.rs", "areas[order as usize..]", "areas[1..]",
     "kswapd_smaller_area"),
    ("balances a node by its last zone", "replay run", "counters.rs", ".find(|(_, verdict)| verdict.yes);",
     ".filter(|(_, verdict)| verdict.yes).last();", "shared_kswapd_zones"),
    ("sums the events of two CPUs", "replay", "world.rs",
     "self.events_of_all(event) - self.dead.iter().map(|&cpu| words[cpu]).sum::<u64>()",
     "self.online.iter().take(2).map(|&cpu| words[cpu]).sum()", "events_of_four_cpus"),
    ("sums the events of two CPUs", "run", "shared.rs",
     "self.online().map(|cpu| cpu.events[event].load(SeqCst)).sum()",
     "self.online().take(2).map(|cpu| cpu.events[event].load(SeqCst)).sum()", "events_of_four_cpus"),
    ("gives the CPUs their events back in another order", "run", "shared.rs",
     "self.present.store(self.present_cpus().len(), SeqCst);",
     "for (one, other) in self.cpus[0].events.iter().zip(&self.cpus[1].events) { "
     "other.store(one.swap(other.load(SeqCst), SeqCst), SeqCst); } "
     "self.present.store(self.present_cpus().len(), SeqCst);", "shared_burial"),
    ("counts events for another CPU", "run", "shared.rs", "self.cpus[cpu].events[event].fetch_add(n, SeqCst);",
     "self.cpus[(cpu + 1) % self.cpus.len()].events[event].fetch_add(n, SeqCst);", "events_of_four_cpus"),
    ("takes differentials and leaves them", "run", "shared.rs", "word.swap(0, SeqCst) };", "word.load(SeqCst) };",
     "shared_fold_by_another"),
    ("loads another number", "run", "shared.rs", "shown(self.places[counter].load(SeqCst))",
     "shown(self.places[counter].load(SeqCst) + 1)", "shared_values_below_0"),
    ("closes page counters into other places", "run", "shared.rs",
     "self.present.store(self.present_cpus().len(), SeqCst);",
     "self.places[0].store(self.places[1].swap(self.places[0].load(SeqCst), SeqCst), SeqCst); "
     "self.present.store(self.present_cpus().len(), SeqCst);", "whole_run_in_turn"),
    ("prints no sign", "replay run", "lines.rs", "    out.signed(n);", "    out.number(n.unsigned_abs());",
     "shared_percpu_batches"),
    ("prints a sum as a count", "replay run", "lines.rs", 'b"sum ", n', 'b"count ", n', "whole_run_in_turn"),
    ("prints a snapshot as a value", "replay run", "lines.rs", 'b"snapshot ", n', 'b"value ", n', "whole_run_in_turn"),
    ("leaves zones in the order of the header", "check", "trace.rs",
     "self.zones.sort_by_key(|zone| (zone.node, zone.kind));", "", "spelled_zones_in_order"),
    ("takes a zone twice", "replay run check", "trace.rs",
     "if self.zones.iter().any(|zone| zone.node == node && zone.kind == kind) {", "if false {", "headers DoubledZone"),
    ("looks for a doubled zone before the marks", "replay run check", "trace.rs",
     "if marks[0] > marks[1] || marks[1] > marks[2] {",
     "if self.zones.iter().any(|zone| zone.node == node && zone.kind == kind) { return Err(Cause::DoubledZone); } "
     "if marks[0] > marks[1] || marks[1] > marks[2] {", "headers BadMarks"),
    ("halves system-wide values", "replay", "world.rs", "self.pages.system[item].max(0) as u64",
     "self.pages.system[item].max(0) as u64 / 2", "whole_run_in_turn"),
    ("halves system-wide values", "run", "shared.rs", "shown(self.system[item].load(SeqCst))",
     "shown(self.system[item].load(SeqCst)) / 2", "whole_run_in_turn"),
    ("leaves out the bases of the header", "replay", "world.rs", "pages.add(counter, base.unwrap_or(0));",
     "pages.add(counter, 0);", "totals_of_two_phases"),
    ("leaves out the bases of the header", "run", "shared.rs", "shared.add_pages(counter, base.unwrap_or(0));",
     "shared.add_pages(counter, 0);", "totals_of_two_phases"),
    ("names a zone's item at a node", "replay run check", "trace.rs",
     "let position = self.class(self.is_node(place)).find(item).ok_or(Cause::UnknownItem)?;",
     "let position = self.class(self.is_node(place)).find(item).or_else(|| self.zone_items.find(item))"
     ".ok_or(Cause::UnknownItem)?;", "lines_by_cause"),
    ("prints another report", "replay run", "report.rs", "[vmstat, zoneinfo, totals, counters][kind]",
     "[vmstat, zoneinfo, counters, totals][kind]", "whole_run_in_turn"),
    ("answers under the number of the line before", "replay", "replay.rs",
     "answer.write(&mut self.waiting, number);", "answer.write(&mut self.waiting, number - 1);", "whole_run_in_turn"),
    ("answers under the number of the line before", "run", "lanes.rs",
     "J::write(&mut out.held, number.into(), answer);", "J::write(&mut out.held, u64::from(number) - 1, answer);",
     "whole_run_in_turn"),
    ("leaves a buried CPU dead", "replay", "world.rs", "self.dead.retain(|&other| other != cpu);", "",
     "reports_of_gone_cpus"),
    ("leaves a buried CPU dead", "run", "shared.rs", "dead.state.store(State::Absent as u8, SeqCst);", "",
     "shared_burial"),
    ("lets marks cover less than is set", "replay", "world.rs", "peak.pages = peak.pages.max(threshold);", "",
     "pressure_above_normal"),
    ("lets marks cover less than is set", "run", "shared.rs", "peaks[zone] = peaks[zone].max(threshold);", "",
     "pressure_above_normal"),
    ("puts answers into another lane's place", "run", "lanes.rs",
     "self.waiting.push(Waiting { number: number as u32, prints: Prints::Answer(lane as u8) });",
     "self.waiting.push(Waiting { number: number as u32, prints: Prints::Answer(lane as u8 ^ 1) });",
     "answers_of_two_lanes"),
]


def built(folder, file, old, new):
    """The program with another text in a file, or what is wrong with that."""
    here = os.path.join(TOP, "bench")
    for name in os.listdir(here):
        if name.endswith(".rs"):
            shutil.copy(os.path.join(here, name), folder)
    path = os.path.join(folder, file)
    with open(path) as source:
        text = source.read()
    if text.count(old) != 1:
        return None, f"{file} has {text.count(old)} times: {old}"
    with open(path, "w") as source:
        source.write(text.replace(old, new))
    program = os.path.join(folder, "vozhkell")
    done = subprocess.run(["rustc", "-C", "debug-assertions=off", "--edition", "2021", "-A", "warnings", "-o", program,
                           program + ".rs"], capture_output=True, text=True)
    return (program, None) if done.returncode == 0 else (None, done.stderr[:600])


def row_of(name, command):
    """The text of a row, and the status and the output that a command should answer."""
    if name.startswith("headers "):
        cause = name.split()[1]
        # The last of them is the one that only this order of tests refuses so.
        number, _, text = next(line.split(" ", 2) for line in table("headers")
                               if line.split()[1] == cause and line.count("zone 0 Normal") == 2)
        return ast.literal_eval("b" + text), HEADER, f"line {number}: {cause}\n".encode()
    for large, make in large_rows():
        if large == name:
            row = make()
            return row.text(), row.status, Large.joined(row.checked if command == "check" else row.out)
    status = int(dict(line.split()[:2] for line in table("statuses"))[name])
    ending = ".check" if command == "check" else ".out"
    return contents(name + ".vmtrace"), status, contents(name + ending)


def tried(wrong):
    """What goes through of a wrong body, for each command."""
    what, commands, file, old, new, name = wrong
    with tempfile.TemporaryDirectory() as folder:
        program, fault = built(folder, file, old, new)
        if fault:
            return len(commands.split()), [f"a program that {what} can't be built: {fault}"]
        through = []
        for command in commands.split():
            text, status, out = row_of(name, command)
            if run([program, command], text) == (status, out):
                through.append(f"{command} that {what} answers {name} as it should")
    return len(commands.split()), through


def main():
    wanted = [wrong for wrong in WRONG if len(sys.argv) == 1 or any(word in " ".join(wrong) for word in sys.argv[1:])]
    with ThreadPoolExecutor(os.cpu_count()) as pool:
        tries = list(pool.map(tried, wanted))
    through = [line for _, lines in tries for line in lines]
    for line in through:
        print(line)
    print(f"{sum(count for count, _ in tries) - len(through)} of {sum(count for count, _ in tries)} wrong bodies differ")
    return 1 if through else 0


if __name__ == "__main__":
    sys.exit(main())
