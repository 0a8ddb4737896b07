#!/usr/bin/env python3
"""Writes docs/HEADLINE.md: what the program promises, and each definition to which that leads, cut from the sources.

    .ci/headline.py [--check]

The contracts of `run_program` and of `tool` come first, then a top layer: what they lead to, down to the leaves, which
are subjects with a sentence each (LEAVES). An appendix for each leaf has its definitions. The crates come from the
highest to the lowest, so that a definition stands below each that names it from another crate. In a crate the files
come by how many names lead to them, the nearest first, and so do the definitions of a file; the types of the crate's
code stand last. With --check nothing is written: the status is 1 where the page isn't what would be written.
"""
import os
import pathlib
import re
import sys
import textwrap

sys.path.insert(0, str(pathlib.Path(__file__).resolve().parent))
from definitions import Below, all_modules, below_the_contracts, contracts, read  # noqa: E402

PAGE = pathlib.Path("docs/HEADLINE.md")
WIDTH = 120
# The most that the top layer may hold.
MOST_DEFINITIONS, MOST_LINES = 400, 1600
OPENING = """\
# The headline, and what it names

This page has the contracts of `run_program` and `tool` in `vms_tool`, which say what the program does under any
arguments, and each definition to which they lead. The top layer is to be read from above. It ends at subjects that a
sentence tells each, whose definitions stand in the appendix of that name. To read the contracts no other definition of
this repository is needed. What the kit's library defines, `Rattle.std`, is told by the kit's own guides. The page is
cut from the sources by `python3 .ci/headline.py`, and the repository's own checks fail where it is stale, or where its
top layer grows past 400 definitions, or 1,600 lines of these without comments.
"""
# The subjects at which the top layer ends, each with its sentence and the files that tell it, as CRATE/FILE.
LEAVES = [
    ("Header lines", "A header is read line by line; the first line at fault is refused with the first cause that holds "
     "for it, and an accepted header is what its lines declare.", r"vms_header/(?!Spelling)|vms_line/Laws"),
    ("Body lines", "A line is blank, or refused with the first cause that holds for it, or counts as a line of a lane, a "
     "boundary or a report; which it is goes by the header and the lines above it.",
     r"vms_line/(?!Spelling|Laws)|vms_script/|vms_text/(PlaceNames|Reading)"),
    ("Words and numbers", "A text is cut into lines at its newlines, a line into words of printing bytes, and a word "
     "spells a number in one way.", r"vms_text/(Lines|Numbers|Words|Spelling)"),
    ("Canonical form", "Each header and each line that is accepted has one spelling, which `check` writes.",
     r"vms_header/Spelling|vms_line/Spelling"),
    ("Generated texts", "`gen` makes a text of three numbers, line by line.", r"vms_gen/"),
    ("Layouts and sizes", "What a machine has: CPUs, zones and nodes with their sizes, counters by number, and which "
     "numbers of them are valid.", r"vms_base/"),
    ("Reports", "Each report is a list of lines that a world, or the plain sums of the lines above, tells.",
     r"vms_report/|vms_group_report/|vms_total_laws/|vms_plain_pcpu/"),
    ("Answers", "The answer of a line is read off the steps that its call made, and printed in one form.", r"vms_answers/"),
    ("Calls on page counters", "Which steps each call on page counters makes with its answer: changes, folds, looks, "
     "ratings and turns of kswapd.", r"vms_calls/"),
    ("Calls on events, percpu counters and groups", "Which steps each call on the other tables makes with its answer.",
     r"vms_event_core/Calls|vms_pcpu_core/(Calls|PcpuCalls|Readings|Summing|Limits|OwnSteps|MadeBetween)|"
     r"vms_group_core/Calls"),
    ("What an answer means", "How far the true number was from each answer and from each number of a report, at a named "
     "moment.", r"vms_truth/|vms_drift/|vms_near/|vms_percpu_near/"),
    ("Laws", "What holds at every moment of a legal history: totals, drift, volumes, marks, thresholds and limits.",
     r"vms_core/(Laws|PeakLaws|Drift|Bounded|Taken|MarkNumbers|Knowledge|Spending)|"
     r"vms_(event|pcpu|group)_core/(Laws|Knowledge)"),
    ("Page counters", "The state of the page counters, their eighteen kinds of step, and what each step asks of the "
     "history before it.", r"vms_core/"),
    ("Event counters", "The state of the event counters, their steps, and what each asks.", r"vms_event_core/"),
    ("Percpu counters", "The state of the percpu counters with their locks, their steps, and what each asks.",
     r"vms_pcpu_core/"),
    ("Trees of groups", "The state of a tree of groups, its steps, and what each asks.", r"vms_group_core/"),
    ("Group lines", "How the header and the lines of a trace of groups are read and judged.", r"vms_group_lines/"),
    ("Runs of groups", "A phase of `groups` is one legal history of its lanes' lines, and each line and each report prints "
     "what that history tells.", r"vms_groups/(PastPhases|GroupTexts|MadePhases|GroupLimits)|vms_group_phase/"),
    ("Certifying", "Line by line `certify` goes through a header, a trace and the history after it, and gives each line "
     "of the history a verdict.", r"vms_certifying/(Certifying|HistoryLines|JobStates|Judging|Printing)"),
    ("Certified histories", "A history of a text is certified where each of its phases is legal, made of the lines of its "
     "lanes by the kernel's rules of thresholds, and whole.",
     r"vms_certifying/(Certificates|HistoryRules)|vms_written/|vms_history_judge/|vms_walks/|vms_certify/"),
    ("Copies of traces", "Line by line `record` copies a trace as `check` writes it, without remarks, and keeps its "
     "parts: the lane lines from each boundary line on.", r"vms_trace_parts/"),
    ("Recorded histories", "Of each phase `record` writes the events of file order: a pass begins for each lane, the "
     "lines follow one another and meet no other pass, and the passes end.",
     r"vms_record/Histories|vms_recorded/|vms_recording/|vms_phase_lines/"),
    ("Lines of a history", "A line of a history begins a phase, or is one event in its one spelling, or is ignored; "
     "any other is out of form.", r"vms_written_lines/"),
    ("Lines at fault", "Which line of a history is the first at fault, and for which of four causes.",
     r"vms_history_checks/|vms_phase_checks/"),
    ("Calls of a source and a sink", "Which call of a source or a sink failed, that no call came after it, and what the "
     "last call of a source brought.", r"vms_io/|vms_stream/Readings"),
    ("Texts that wait", "What a line prints may wait for the outcome of its phase; texts are printed in the order of "
     "their lines.", r"vms_stream/(Waiting|Orders)"),
    ("Passes", "A pass begins and ends once, owns a CPU or none, and acts while it lives; a history is complete where no "
     "pass lives.", r"vms_history/Passes"),
    ("Boundaries", "What a line between two phases makes of the world: the first world, folds of all, CPUs that go down "
     "and come up.", r"vms_world/(Boundaries|Refreshes|FirstWorlds)"),
]


def leaf_of(module):
    """The place among LEAVES of what a file defines, or none."""
    at = "/".join((module.path.parts[1], module.path.stem))
    return next((number for number, (_, _, files) in enumerate(LEAVES) if re.match(files, at)), None)


def crates_from_above():
    """The names of crates.txt, the highest crate first."""
    return re.findall(r"^(\w+):", read(pathlib.Path("crates.txt")), re.M)[::-1]


def declared(crate, place):
    """The lines of a type of a crate's code, with what stands right above it, or none where it is no type of ours."""
    *folders, name = place.split(".")
    path = pathlib.Path("crates", crate, "src", *folders).with_suffix(".rt")
    lines = read(path).splitlines() if folders and path.is_file() else []
    head = re.compile(r"pub(?:\(crate\))? (?:struct|enum|type) %s\b" % name)
    at = next((at for at, line in enumerate(lines) if head.match(line)), None)
    if at is None:
        return []
    first = at
    while first > 0 and lines[first - 1].startswith(("///", "#[")):
        first -= 1
    last = next(end for end in range(at, len(lines)) if lines[end].startswith("}") or lines[end].endswith(";"))
    return lines[first:last + 1]


def wrapped(line):
    """The line, and where it is too wide, what is left of it in lines of their own."""
    if len(line) <= WIDTH:
        return [line]
    mark = re.match(r"\s*(?:--|///?) ", line) or re.match(r"\s*", line)
    begin = mark.group() if mark.group().strip() else mark.group() + "    "
    end = line.rfind(" ", mark.end(), WIDTH + 1)
    return [line[:end], *wrapped(begin + line[end + 1:])] if end > 0 else [line]


def fenced(language, pieces):
    """A block of these pieces, a blank line between two."""
    lines = [line for piece in pieces for whole in ["", *piece] for line in wrapped(whole)]
    return [f"```{language}", *lines[1:], "```"]


def pieces_of(module, names):
    """The definitions of a file as they stand in it, each inner module's under its heading."""
    heading = None
    for name in names:
        piece = module.shown[name]
        if module.within[name] and module.within[name] is not heading:
            piece = [*module.within[name], *piece]
        heading = module.within[name]
        yield piece


def sections(found, types):
    """The definitions and the types of code, by crate from the highest to the lowest, and by file."""
    lines = []
    for crate in crates_from_above():
        files = {}
        for (path, name), (module, _) in found.items():
            if module.path.parts[1] == crate:
                files.setdefault(module.path, (module, []))[1].append(name)
        code = [piece for of, place in sorted(types) if of == crate and (piece := declared(of, place))]
        for path, (module, names) in files.items():
            lines += ["", f"### `{'/'.join(path.parts[1:])}`", "", *fenced("antt", list(pieces_of(module, names)))]
        if code:
            lines += ["", f"### Types of the code of `{crate}`", "", *fenced("rust", code)]
    return lines


def anchor(title):
    return re.sub(r"[^\w\- ]", "", title.lower()).replace(" ", "-")


def index(stopped):
    """The leaves that the top layer comes to, each with its sentence and the names that lead to it."""
    lines = []
    for number, (title, sentence, _) in enumerate(LEAVES):
        names = ", ".join(dict.fromkeys(f"`{name}`" for (_, name), module in stopped.items()
                                        if leaf_of(module) == number))
        if names:
            lines += textwrap.wrap(f"- [{title}](#appendix-{anchor(title)}): {sentence} By {names}.", WIDTH,
                                   subsequent_indent="  ", break_long_words=False, break_on_hyphens=False)
    return lines


def parts_of_leaves(top, modules):
    """The definitions and the types of each leaf. One of a file that tells no leaf stands in the first that leads to it."""
    owned = [Below(modules) for _ in LEAVES]
    placed, seen_types = {**top.found}, {**top.types}
    waiting = [*top.stopped]
    while waiting:
        entry = waiting.pop(0)
        if entry in placed:
            continue
        first = leaf_of(modules[entry[0]])
        walk = Below(modules, lambda module: leaf_of(module) not in (None, first)).go([entry])
        for at, found in walk.found.items():
            if at not in placed:
                placed[at] = owned[first].found[at] = found
        for kind, depth in walk.types.items():
            if kind not in seen_types:
                seen_types[kind] = owned[first].types[kind] = depth
        waiting += [at for at in walk.stopped if at not in placed]
    return owned


def page():
    """The lines of the page, and of its top layer how many definitions it has and how many lines these take, without
    comments."""
    modules = all_modules()
    top = below_the_contracts(modules, lambda module: leaf_of(module) is not None)
    lines = [*OPENING.splitlines(), "", "## The contracts", "",
             *fenced("rust", [contract for contract, _, _ in contracts()]), "", "## The top layer", "",
             "It ends at these subjects:", "", *index(top.stopped), *sections(top.found, top.types)]
    for (title, sentence, _), leaf in zip(LEAVES, parts_of_leaves(top, modules)):
        if leaf.found:
            lines += ["", f"## Appendix: {title}", "", *textwrap.wrap(sentence, WIDTH), *sections(leaf.found, leaf.types)]
    return lines, len(top.found), sum(len(module.made[name]) for (_, name), (module, _) in top.found.items())


def main():
    os.chdir(pathlib.Path(__file__).resolve().parent.parent)
    lines, definitions, size = page()
    wide = [line for line in lines if len(line) > WIDTH]
    for line in wide:
        print(f"more than {WIDTH} characters: {line}")
    large = definitions > MOST_DEFINITIONS or size > MOST_LINES
    if large:
        print(f"the top layer has {definitions} definitions and {size} lines, where {MOST_DEFINITIONS} and {MOST_LINES} "
              "are the most")
    if "--check" not in sys.argv[1:]:
        PAGE.write_text("\n".join(lines) + "\n", encoding="utf-8")
        return 1 if wide or large else 0
    stands = read(PAGE).splitlines() if PAGE.is_file() else []
    if stands != lines:
        at = next((at for at, (one, other) in enumerate(zip(stands, lines)) if one != other),
                  min(len(stands), len(lines)))
        print(f"{PAGE} is stale from line {at + 1} on: {(lines + [''])[at]!r} is to stand there")
        print("python3 .ci/headline.py writes it again")
    return 1 if wide or large or stands != lines else 0


if __name__ == "__main__":
    sys.exit(main())
