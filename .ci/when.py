#!/usr/bin/env python3
"""Makes docs/WHEN.md, and what README.md and docs/GUIDE.md say of how far off, from the formulas of tools/vmtrace.py.

    .ci/when.py            writes them anew, of README.md and GUIDE.md what stands between the two comments
    .ci/when.py --check    changes nothing, says which of them is stale, and ends with 1 if one is

The page has how far the free pages of a zone can be off, by the number of CPUs and the size of the zone, and beside it
how far `low` is above `min`.
"""
import pathlib
import re
import sys

from from_crates import wrapped

sys.path.insert(0, str(pathlib.Path(__file__).resolve().parent.parent / "tools"))
from vmtrace import KINDS, MAX_SCALE, computed_watermarks, normal_threshold  # once its directory is known

PAGE_BYTES = 4096
GIB = 2**30 // PAGE_BYTES
# Of the recorded machine, tools/samples/zoneinfo: its two lower zones in managed pages, and its vm.min_free_kbytes.
DMA, DMA32, KBYTES = 3840, 772918, 67584
# Linux's vm.watermark_scale_factor.
SCALE = 10
CPUS = (2, 4, 8, 16, 32, 64, 128, 256, 512)
SIZES = (DMA, GIB, DMA32, 16 * GIB, 64 * GIB, 256 * GIB, 1024 * GIB)
MACHINES = ((4, 16), (8, 32), (16, 64), (32, 128), (64, 256), (128, 512), (256, 1024))
BEGIN, END = "<!-- made by .ci/when.py -->", "<!-- end of what .ci/when.py makes -->"

README = """\
It matters with many CPUs, in a small zone, and near a watermark ([when, and what to do](docs/WHEN.md)):

- Of a zone of {few_size} {few} CPUs can hide {few_off}, and of one of {many_size} {many} CPUs {many_off}.
- Of DMA32, {small_size}, {many} CPUs can hide {small_off}, and there `low` is {small_step} above `min`.
- So at `low`, {small_low}, perhaps no page of it is free. Where it shows 1 GiB it is off by {small_share}.
"""

GUIDE = """\
{by_answer}

*Coarse* goes by the slack of a zone, or by 125 pages for each CPU, twice that for a snapshot, and so needs no
thresholds. *Nearest* goes by H, where each CPU has the zone's normal threshold: under pressure, once all CPUs have taken
up the thresholds for it, the 64 CPUs can hide 768 pages of DMA32, 3 MiB.
"""

PAGE = """\
# When does it matter, and what do I do?

A plain read of a counter lacks what CPUs keep to themselves, at most a threshold each. That matters where it is much
beside what the number is compared with. Of free pages these are a zone's watermarks: below `low` kswapd wakes, and
below `min` most requests have to free pages themselves.

## By CPUs and size of the zone

How far the free pages of a zone can be off, with pages of 4096 bytes:

{by_size}

**Bold** is more than a thousandth of the zone, which is how far `low` is above `min` where
`vm.watermark_scale_factor` is {scale}, as Linux sets it, and `vm.min_free_kbytes` asks for no more. A zone that shows
`low` may truly be below `min` then. `nproc` says how many CPUs there are, and `/proc/zoneinfo` how many pages a zone
has, as `managed`.

- All CPUs count, of whichever node, so many small nodes make it worse: with {many_cpus} CPUs and {node_count} nodes of
  {node_size} each zone can be off by {node_off}, and `low` is {node_step} above `min`.
- Thresholds count pages, so larger pages make it worse, too: with pages of 64 KiB {many} CPUs can hide {large_off} of a
  zone of {many_size}.

## By machine

With `vm.min_free_kbytes` {kbytes} and `vm.watermark_scale_factor` {scale}, as on
[the recorded machine](GUIDE.md#is-this-the-kernels-arithmetic), and all memory above 3 GiB in one zone Normal:

{by_machine}

*Truly* is what a zone that shows `low` has at least. *Scale* is the least `vm.watermark_scale_factor` with which `low`
is as far above `min` as the zone can be off. DMA, {dma_size}, is left out: its reserve keeps most requests away.

## What do I do?

- **Look at your own machine.** This names the zones that are worst, and the watermarks that can't be told
  ([what the lines mean](GUIDE.md#watch-a-machine)):

```sh reads /proc/zoneinfo
python3 tools/monitor.py | head -n 5
```

- **Not bold, and no watermark that can't be told**: nothing.
- **A number has to be right**: [make the counters exact](GUIDE.md#how-do-i-make-the-counters-exact), and read then.
- **An alert on free pages**: ask whether they are surely below a watermark, [as these rules
  do](GUIDE.md#how-do-i-keep-watch), and not whether the plain number is.
- **`low` shall mean at least `min`**: raise `vm.watermark_scale_factor` to the last column. All zones then keep more
  pages free: with {many} CPUs and {machine_size} the `low` of Normal comes from {normal_before} to {normal_after}
  above `min`. Linux sets thresholds and drift marks when it starts, and when memory or a CPU comes or goes, and not
  with this setting; so its tests below a mark go on to add up what CPUs hold.
- **A test of your own**: [which number Linux's tests take](GUIDE.md#which-number-do-linuxs-own-tests-take), and what
  an answer promises.
- **Pages seem to be missing**: what CPUs have on their lists isn't in the number at all, and was
  [far more](GUIDE.md#what-do-free-pages-leave-out) on the recorded machine.

This page is made by `.ci/when.py`, by the formulas of `tools/vmtrace.py`. That these are the kernel's is
[compared](GUIDE.md#is-this-the-kernels-arithmetic) with a recorded machine.
"""


def hidden(pages, cpus, page_bytes=PAGE_BYTES):
    """How many pages of a counter of a zone so many CPUs can keep to themselves."""
    return cpus * normal_threshold(pages, cpus, page_bytes)


def step(pages):
    """How far `low` is above `min` by vm.watermark_scale_factor alone."""
    lowest, low, _ = next(computed_watermarks(0, SCALE, [pages]))
    return low - lowest


def zones_of(gib):
    """The managed pages of the zones of a machine with so much memory."""
    return [DMA, DMA32, (gib - 3) * GIB]


def marks_of(zones, kind, scale=SCALE):
    """The watermarks of one of the zones."""
    return list(computed_watermarks(KBYTES, scale, zones))[KINDS.index(kind)]


def covering_scale(zones, kind, pages):
    """The least vm.watermark_scale_factor with which `low` is so many pages above `min`, None where there is none."""
    for scale in range(SCALE, MAX_SCALE + 1):
        lowest, low, _ = marks_of(zones, kind, scale)
        if low - lowest >= pages:
            return scale
    return None


def size(pages, page_bytes=PAGE_BYTES):
    """So many pages in the unit that suits."""
    number, units = pages * page_bytes / 2**10, iter(("KiB", "MiB", "GiB", "TiB"))
    unit = next(units)
    while number >= 1024:
        number, unit = number / 1024, next(units)
    return f"{number:.1f} {unit}".replace(".0 ", " ")


def laid_out(text):
    """The text with its paragraphs and lists in lines that are full."""
    parts = text.split("\n\n")
    for at, part in enumerate(parts):
        if part.startswith("- "):
            parts[at] = "\n".join(wrapped(item, "- ", "  ") for item in re.split(r"^- ", part, flags=re.M)[1:])
        elif part[:1].isalnum() or part[:1] == "*":
            parts[at] = wrapped(part)
    return "\n\n".join(parts)


def table(rows):
    head, *rest = [f"| {' | '.join(row)} |" for row in rows]
    return "\n".join([head, "|---" * (head.count("|") - 1) + "|", *rest])


def by_size():
    yield ["CPUs", *(f"of {size(pages)}" for pages in SIZES)]
    for cpus in CPUS:
        offs = [(size(hidden(pages, cpus)), hidden(pages, cpus) > step(pages)) for pages in SIZES]
        yield [str(cpus), *(f"**{off}**" if is_far else off for off, is_far in offs)]


def by_machine():
    yield ["CPUs", "memory", "zone", "`low`", "`low - min`", "off by", "truly", "scale"]
    for cpus, gib in MACHINES:
        zones = zones_of(gib)
        for kind in ("DMA32", "Normal"):
            lowest, low, _ = marks_of(zones, kind)
            off = hidden(zones[KINDS.index(kind)], cpus)
            shown = f"**{size(off)}**" if off > low - lowest else size(off)
            scale = covering_scale(zones, kind, off)
            yield [str(cpus), f"{gib} GiB", kind, size(low), size(low - lowest), shown, size(max(0, low - off)),
                   str(scale) if scale else "none"]


def by_answer():
    """Of what each kind of answer on two machines may be off by: by the slack and 125 pages a CPU, and by H."""
    machines = ((4, 16), (64, 256))
    yield ["of `nr_free_pages`", *(f"{cpus} CPUs, {kind}" for cpus, _ in machines for kind in ("coarse", "nearest"))]
    rows = {}
    for cpus, gib in machines:
        zones = zones_of(gib)
        offs = [hidden(pages, cpus) for pages in zones]
        for kind, off in zip(KINDS, offs):
            lowest, low, _ = marks_of(zones, kind)
            rows.setdefault(f"the value or a test in {kind}", []).extend((max(off, low - lowest), off))
        rows.setdefault("the number of `/proc/vmstat`", []).extend((3 * 125 * cpus, sum(offs)))
        rows.setdefault("a snapshot of Normal, as others count", []).extend((250 * cpus, 2 * offs[2]))
    for name, pages in rows.items():
        yield [name, *(f"{number:,}, {size(number)}" for number in pages)]


def words():
    """The numbers of the sentences."""
    few, many, most, gib, node, large = 4, 64, 256, 256, 32 * GIB, 2**16
    zones = zones_of(gib)
    lowest, low, _ = marks_of(zones, "DMA32")
    off, normal = hidden(DMA32, many), 13 * GIB
    before, after = (marks[1] - marks[0] for marks in (
        marks_of(zones, "Normal", scale) for scale in (SCALE, covering_scale(zones, "DMA32", off))))
    return {
        "few": few, "few_size": size(normal), "few_off": size(hidden(normal, few)),
        "many": many, "many_size": size(zones[2]), "many_off": size(hidden(zones[2], many)),
        "small_size": size(DMA32), "small_off": size(off), "small_step": size(low - lowest), "small_low": size(low),
        "small_share": f"{100 * off / GIB:.1f} %",
        "many_cpus": most, "node_count": 8, "node_size": size(node), "node_off": size(hidden(node, most)),
        "node_step": size(step(node)),
        "large_off": size(hidden(zones[2] * PAGE_BYTES // large, many, large), large),
        "kbytes": KBYTES, "scale": SCALE, "dma_size": size(DMA), "machine_size": f"{gib} GiB",
        "normal_before": size(before), "normal_after": size(after),
        "by_size": table(by_size()), "by_machine": table(by_machine()), "by_answer": table(by_answer()),
    }


def made(name, text, numbers):
    """What a document is to be, and what is wrong with it."""
    if name == "docs/WHEN.md":
        return laid_out(PAGE.format(**numbers)).rstrip("\n") + "\n", []
    if text.count(BEGIN) != 1 or text.count(END) != 1:
        return text, [f"{name}: its made part isn't enclosed by the two comments"]
    before, _, rest = text.partition(BEGIN)
    part = laid_out((README if name == "README.md" else GUIDE).format(**numbers)).rstrip("\n")
    return f"{before}{BEGIN}\n\n{part}\n\n{END}{rest.partition(END)[2]}", []


def main(arguments):
    if arguments not in ([], ["--check"]):
        print(__doc__)
        return 2
    numbers, wrong = words(), []
    for name in ("docs/WHEN.md", "README.md", "docs/GUIDE.md"):
        path = pathlib.Path(name)
        text = path.read_text(encoding="utf-8") if path.is_file() else ""
        whole, told = made(name, text, numbers)
        wrong += told
        if whole != text and arguments:
            wrong.append(f"{name} is stale: .ci/when.py makes it anew")
        elif whole != text:
            path.write_text(whole, encoding="utf-8")
    print("\n".join([*wrong, f"3 documents, {len(wrong)} wrong"]))
    return 1 if wrong else 0


if __name__ == "__main__":
    sys.exit(main(sys.argv[1:]))
