#!/usr/bin/env python3
"""Puts readings of a counter into a trace: `k val` for its plain value and `k snap` for its snapshot.

The two lines come after `go`, after every EVERY lane lines, and after the last lane line. So no line stands in
another phase than before, and the readings change no counter. The probed trace goes to standard output."""
import interrupts  # first, for what it does
import sys

import vmtrace

BOUNDARIES = ("sync", "offline", "online", "flush", "report")


def is_lane_line(line):
    words = vmtrace.words_of(line)
    return bool(words) and (words[0] == "k" or words[0][0] == "c" and words[0][1:].isdecimal())


def probed(lines, header, counter, every):
    """The lines of the trace with the readings among them."""
    reading = [f"k val {counter}", f"k snap {counter}"]
    body = lines[header.lines:]
    last = max((n for n, line in enumerate(body) if is_lane_line(line)), default=None)
    yield from lines[:header.lines]
    yield from reading
    passed = 0
    for n, line in enumerate(body):
        yield line
        if is_lane_line(line):
            passed += 1
            if passed % every == 0 or n == last:
                yield from reading


def most_phases(lines, header):
    """How many phases the trace may have: a boundary line that is refused counts here like one that isn't."""
    phases = 0
    is_open = False
    for line in lines[header.lines:]:
        if any(word in BOUNDARIES for word in vmtrace.words_of(line)[:1]):
            is_open = False
        elif not is_open and is_lane_line(line):
            is_open = True
            phases += 1
    return phases


def check_limits(lines, header, limits, name):
    """The program takes a trace of these lines."""
    size = sum(len(line) + 1 for line in lines)
    if len(lines) > limits.lines or size > limits.bytes:
        raise vmtrace.BadInput(
            f"{name}: with its readings it has {len(lines):,} lines and {size:,} bytes, and the program reads "
            f"{limits.lines:,} and {limits.bytes:,}: take a greater EVERY or a shorter trace")
    phases = most_phases(lines, header)
    if phases > limits.phases:
        raise vmtrace.BadInput(f"{name}: with its readings it may have {phases:,} phases, and the program takes "
                               f"{limits.phases:,}: take a trace with fewer boundary lines")


def parse(arguments):
    parser = vmtrace.Parser(__doc__)
    parser.add_argument("trace", metavar="TRACE", help="the trace, - for standard input")
    parser.add_argument("counter", metavar="COUNTER", help="as one word of the shell: '0 Normal nr_free_pages'")
    parser.add_argument("every", metavar="EVERY", type=vmtrace.number_in(1, vmtrace.Limits.lines),
                        help="how many lane lines lie between two readings")
    return parser.parse_args(arguments)


def main(arguments, limits=vmtrace.Limits()):
    options = parse(arguments)
    counter = vmtrace.counter_of(options.counter)
    name = vmtrace.called(options.trace)
    lines = vmtrace.lines_of(options.trace)
    header = vmtrace.read_header(lines, name)
    if not header.has(counter):
        raise vmtrace.BadInput(f"{name}: the header has no counter '{vmtrace.shown(str(counter))}'")
    result = list(probed(lines, header, counter, options.every))
    check_limits(result, header, limits, name)
    sys.stdout.reconfigure(**vmtrace.ANY_BYTES)
    sys.stdout.writelines(line + "\n" for line in result)
    return 0


if __name__ == "__main__":
    vmtrace.run(main)
