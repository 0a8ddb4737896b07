"""What the tools share: the names and limits of the trace format, and how a trace is read. Pages have 4096 bytes.

The judge of a trace is the program. What is read here is what a tool needs to know of one that the program accepts.
"""
from __future__ import annotations

import argparse
import gzip
import lzma
import os
import re
import sys
import zlib
from contextlib import contextmanager, suppress
from dataclasses import dataclass, field

KINDS = ("DMA", "DMA32", "Normal", "Movable")
ZONE_ITEMS = ("nr_free_pages", "nr_zone_inactive_anon", "nr_zone_active_anon", "nr_zone_inactive_file",
              "nr_zone_active_file", "nr_zone_unevictable", "nr_zone_write_pending", "nr_mlock")
NODE_ITEMS = ("nr_inactive_anon", "nr_active_anon", "nr_inactive_file", "nr_active_file", "nr_unevictable",
              "nr_anon_pages", "nr_file_pages", "nr_dirty")
PAGE_BYTES = 4096
PAGE_SIZES = tuple(2**shift for shift in range(12, 21))
MAX_CPUS = {1: 64, 2: 128}
MAX_ZONES = 16
MAX_NODE = 15
MAX_MANAGED = 2**40
MAX_MARK = 2**40
MAX_KBYTES = 2**40
MAX_SCALE = 3000
MAX_BASE = 2**48
MAX_THRESHOLD = 125
NUMBER = re.compile(r"0|-?[1-9][0-9]{,19}")
WORD = re.compile(r"[!-~]+")
ANY_BYTES = {"encoding": "ascii", "errors": "surrogateescape", "newline": "\n"}
MOST_SHOWN = 80
MOST_TEXT, MOST_LINE = 2**27, 2**20
MAX_SECONDS = 10**9


class BadInput(Exception):
    """What is wrong with what the user gave, with the file and the line where there are any."""


@dataclass(frozen=True)
class Limits:
    """How many lines, bytes and phases the program takes at most."""

    lines: int = 1_000_000
    bytes: int = 2**26
    phases: int = 10_000


@dataclass(frozen=True)
class Counter:
    """One item of a zone of a node, or of the node itself where the kind is `node`."""

    node: int
    kind: str
    item: str

    def __str__(self):
        return f"{self.node} {self.kind} {self.item}"


@dataclass(frozen=True)
class Size:
    """A zone's managed pages and its watermarks, in pages."""

    managed: int
    min: int
    low: int
    high: int


@dataclass
class Header:
    """What the tools need of the header of a trace, which has so many lines."""

    cpus: int = 0
    zones: dict[tuple[int, str], Size] = field(default_factory=dict)
    items: dict[str, list[str]] = field(default_factory=lambda: {"zone": list(ZONE_ITEMS), "node": list(NODE_ITEMS)})
    in_bytes: set[str] = field(default_factory=set)
    bases: dict[Counter, int] = field(default_factory=dict)
    watermarks: tuple[int, int] | None = None
    lines: int = 0

    def has(self, counter):
        if counter.kind == "node":
            return any(node == counter.node for node, _ in self.zones) and counter.item in self.items["node"]
        return (counter.node, counter.kind) in self.zones and counter.item in self.items["zone"]


def words_of(line):
    """The words of a line, none where the line is ignored."""
    words = WORD.findall(line)
    return [] if words and words[0].startswith("#") else words


def counter_of(text):
    """The counter of three words, as in `0 Normal nr_free_pages`."""
    try:
        node, kind, item = text.split()
        return Counter(within(node, 0, MAX_NODE), kind, item)
    except ValueError:
        raise BadInput(f"'{shown(text)}' is no counter: it has the form '0 Normal nr_free_pages' or "
                       "'0 node nr_dirty'") from None


def computed_watermarks(kbytes, scale, managed):
    """The three watermarks of each zone, in pages, as __setup_per_zone_wmarks has them.

    `kbytes` is min_free_kbytes, `scale` is watermark_scale_factor, `managed` has the managed pages of each zone.
    """
    total = sum(managed)
    for pages in managed:
        lowest = kbytes // 4 * pages // total
        step = max(lowest // 4, pages * scale // 10_000)
        yield lowest, lowest + step, lowest + 2 * step


def normal_threshold(managed, online, page_bytes=PAGE_BYTES):
    """calculate_normal_threshold, of a zone with so many managed pages where so many CPUs are online.

    It counts the pieces of 128 MiB, so it depends on the size of a page.
    """
    return min(MAX_THRESHOLD, 2 * online.bit_length() * (1 + (managed * page_bytes >> 27).bit_length()))


def escaped(text):
    """The text with each byte and letter spelled out that a terminal wouldn't show as it stands."""
    return "".join(letter if letter.isprintable() else spelled(letter) for letter in text)


def spelled(letter):
    """A byte that is no text as two hexadecimal digits, any other letter as Python spells it."""
    if "\udc80" <= letter <= "\udcff":
        return f"\\x{ord(letter) - 0xdc00:02x}"
    return letter.encode("unicode_escape").decode()


def shown(text):
    """A text as messages show it, not much of a long one."""
    return escaped(text if len(text) <= MOST_SHOWN else text[:MOST_SHOWN] + "..")


def called(name):
    """What messages call the file of that name."""
    return "standard input" if name == "-" else escaped(name)


@contextmanager
def reading(name):
    """Says what is wrong with a file that can't be read."""
    try:
        yield
    except (lzma.LZMAError, gzip.BadGzipFile, zlib.error, EOFError) as error:
        raise BadInput(f"{called(name)}: the packed file is damaged: {error}") from None
    except OSError as error:
        raise BadInput(f"{called(name)}: {error.strerror or error}") from None


def opened(name):
    """The file of that name, or standard input for `-`, whatever bytes it holds; .xz and .gz are unpacked."""
    if name != "-":
        opener = {".xz": lzma.open, ".gz": gzip.open}.get(os.path.splitext(name)[1], open)
        return opener(name, "rt", **ANY_BYTES)
    if sys.stdin is None:
        raise BadInput("standard input is closed")
    if sys.stdin.closed:
        raise BadInput("standard input can be read only once")
    sys.stdin.reconfigure(**ANY_BYTES)
    return sys.stdin


def text_of(name):
    """The text of a file."""
    with reading(name), opened(name) as file:
        text = file.read(MOST_TEXT + 1)
    if len(text) > MOST_TEXT:
        raise BadInput(f"{called(name)}: is longer than the {MOST_TEXT:,} bytes that are read of a file")
    return text


def lines_of(name):
    """The lines of a file without their byte 10."""
    *lines, rest = text_of(name).split("\n")
    return [*lines, rest] if rest else lines


def each_line(name):
    """The lines of a file without their byte 10, as they are read, of a file of any length."""
    with reading(name), opened(name) as file:
        while line := file.readline(MOST_LINE + 1):
            if len(line) > MOST_LINE:
                raise BadInput(f"{called(name)}: a line is longer than the {MOST_LINE:,} bytes that are read of one")
            yield without_end(line)


def without_end(line):
    """The line without its byte 10."""
    return line[:-1] if line.endswith("\n") else line


def within(word, least, most):
    """The number that a word spells as a trace does, or a ValueError where it spells none of this range."""
    if not NUMBER.fullmatch(word) or not least <= int(word) <= most:
        raise ValueError
    return int(word)


def one_of(word, words):
    if word not in words:
        raise ValueError
    return word


class Parser(argparse.ArgumentParser):
    """What reads the words of a tool. Messages show words of the user escaped, and a help that isn't written fails."""

    def __init__(self, description):
        super().__init__(description=description, formatter_class=argparse.RawDescriptionHelpFormatter)

    def error(self, message):
        super().error(escaped(message))

    def print_help(self, file=None):
        (file or sys.stdout).write(self.format_help())


def number_in(least, most):
    """A type of numbers of this range, for an option."""
    def number(text):
        try:
            return within(text, least, most)
        except ValueError:
            raise argparse.ArgumentTypeError(f"'{shown(text)}' is no number from {least} to {most}") from None
    return number


def seconds(text):
    """A type of numbers of seconds, for an option."""
    with suppress(ValueError):
        if 0 <= float(text) <= MAX_SECONDS:
            return float(text)
    raise argparse.ArgumentTypeError(f"'{shown(text)}' is no number of seconds from 0 to {MAX_SECONDS}")


def page_size(text):
    """A type of sizes of a page in bytes, for an option."""
    if text in map(str, PAGE_SIZES):
        return int(text)
    raise argparse.ArgumentTypeError(f"'{shown(text)}' is none of {', '.join(map(str, PAGE_SIZES))}")


def add_line(header, words):
    """Adds what a header line says, or fails in Python's way where it is none."""
    if words[0] == "cpus":
        header.cpus = within(words[1], 1, MAX_CPUS[2])
    elif words[0] == "watermarks":
        scale = within(words[2], 1, MAX_SCALE) if len(words) > 2 else 10
        header.watermarks = within(words[1], 0, MAX_KBYTES), scale
    elif words[0] == "item":
        header.items[words[1]].append(words[2])
        if words[3:] == ["bytes"]:
            header.in_bytes.add(words[2])
    elif words[0] == "zone":
        marks = (0, 0, 0) if header.watermarks else [within(word, 0, MAX_MARK) for word in words[4:7]]
        zone = within(words[1], 0, MAX_NODE), one_of(words[2], KINDS)
        header.zones[zone] = Size(within(words[3], 1, MAX_MANAGED), *marks)
    elif words[0] == "base":
        counter = Counter(within(words[1], 0, MAX_NODE), one_of(words[2], (*KINDS, "node")), words[3])
        header.bases[counter] = within(words[4], -MAX_BASE, MAX_BASE)
    elif words[0] not in ("vmtrace", "counter"):
        raise ValueError


def read_header(lines, name):
    """The header of the trace that has these lines."""
    header = Header()
    for number, line in enumerate(lines, 1):
        words = words_of(line)
        if words == ["go"]:
            header.lines = number
            break
        try:
            if words:
                add_line(header, words)
        except (ValueError, IndexError, KeyError, TypeError):
            raise BadInput(f"{name}:{number}: '{shown(line.strip())}' is no header line of a trace") from None
    if not header.lines or not header.cpus:
        raise BadInput(f"{name}: no header of a trace that ends with 'go'")
    if header.watermarks:
        managed = [size.managed for size in header.zones.values()]
        marks = computed_watermarks(*header.watermarks, managed)
        header.zones = {zone: Size(pages, *three) for zone, pages, three in zip(header.zones, managed, marks)}
    return header


def tell(message):
    """A line on standard error, where that can be written."""
    tool = os.path.splitext(os.path.basename(sys.argv[0]))[0]
    try:
        print(f"{tool}: {message}", file=sys.stderr, flush=True)
    except OSError:
        discard(sys.stderr)


def discard(stream):
    """Lets nothing come of what a stream still holds. Python would write it at its end, in vain."""
    os.dup2(os.open(os.devnull, os.O_WRONLY), stream.fileno())


def run(main):
    """Calls a tool's main and ends with its status: 1 with a message where what it was given is bad, 130 at Ctrl-C."""
    if sys.stderr is None:
        sys.stderr = open(os.devnull, "w", encoding="ascii")
    if sys.stdout is None:
        tell("standard output is closed")
        sys.exit(1)
    try:
        status = status_of(main)
        sys.stdout.flush()
    except OSError as error:
        if not isinstance(error, BrokenPipeError):
            tell(f"{escaped(str(error.filename or 'standard output'))}: {error.strerror or error}")
        discard(sys.stdout)
        status = 1
    sys.exit(status)


def status_of(main):
    try:
        return main(sys.argv[1:])
    except SystemExit as end:
        return end.code
    except BadInput as bad:
        tell(bad)
        return 1
    except KeyboardInterrupt:
        return 130
