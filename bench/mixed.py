"""Writes a trace of 1,000,000 mixed lines, of every kind of line that a version 2 trace has."""
import random
import sys

EVENTS = "pgpgin pgpgout pswpin pswpout pgfree pgactivate pgdeactivate pgfault".split()
ZONE = ("nr_free_pages nr_zone_inactive_anon nr_zone_active_anon nr_zone_inactive_file nr_zone_active_file "
        "nr_zone_unevictable nr_zone_write_pending nr_mlock area4").split()
NODE = ("nr_inactive_anon nr_active_anon nr_inactive_file nr_active_file nr_unevictable nr_anon_pages "
        "nr_file_pages nr_dirty").split()
ZONES = [(0, "DMA32"), (0, "Normal"), (1, "Normal"), (1, "Movable")]
COUNTERS = "files inodes dentries".split()
HEAD = ["vmtrace 2", "cpus 8", "watermarks 67584", "item zone area4", "item node slab bytes"]
HEAD += [f"zone {node} {kind} {262144 << n}" for n, (node, kind) in enumerate(ZONES)]
HEAD += ["base 0 Normal nr_free_pages 100000", "base 1 node nr_file_pages 5000"]
HEAD += [f"counter {name}" for name in COUNTERS] + ["go"]
rng = random.Random(1)
draw = rng.randrange
pick = rng.choice


def counter():
    if draw(3):
        node, kind = pick(ZONES)
        return f"{node} {kind} {pick(ZONE)}"
    return f"{draw(2)} node {pick(NODE)}"


def zone():
    node, kind = pick(ZONES)
    return f"{node} {kind}"


def line(n):
    lane = f"c{draw(7)}"
    either = pick([lane, "k"])
    kind = draw(100)
    if kind < 30:
        return f"{lane} mod {counter()} {draw(129) - 64}"
    if kind < 33:
        return f"{lane} mod {draw(2)} node slab {4096 * (draw(65) - 32)}"
    if kind < 43:
        return f"{lane} inc {counter()}"
    if kind < 51:
        return f"{lane} dec {counter()}"
    if kind < 57:
        return f"{lane} ev {pick(EVENTS)} {draw(9)}"
    if kind < 62:
        return f"{lane} cnt {pick(COUNTERS)} {draw(129) - 64}"
    if kind < 65:
        return f"{lane} lim {pick(COUNTERS)} {draw(100000)} {draw(129) - 64}"
    if kind < 67:
        return f"{lane} cmp {pick(COUNTERS)} {draw(1000)}"
    if kind < 69:
        return f"{lane} {pick(['sum', 'rough', 'csync'])} {pick(COUNTERS)}"
    if kind < 71:
        return f"{either} evsum {pick(EVENTS)}"
    if kind < 74:
        return f"{either} fold {draw(8)}"
    if kind < 79:
        return f"{either} ok {zone()} {pick(['min', 'low', 'high'])} {draw(4)}"
    if kind < 83:
        return f"{either} val {counter()}"
    if kind < 86:
        return f"{either} snap {counter()}"
    if kind < 88:
        return f"{either} sys {pick(ZONE + NODE)}"
    if kind < 90:
        return f"k {pick(['pressure', 'normal'])} {draw(2)}"
    if kind < 92:
        return f"k kswapd {draw(2)} {draw(11)} {2 + draw(2)}"
    if kind < 94:
        return f"# a comment of line {n}"
    if kind < 95:
        return ""
    if kind < 97:
        return f"{lane}  mod\t{counter()}   {draw(9)}\r"
    if kind < 98:
        return f"{lane} mod {counter()} 0{draw(9)}"
    if kind < 99:
        return f"c9{draw(9)} inc {counter()}"
    return f"{lane} inc {counter()} {draw(9)}"


def main():
    out = sys.stdout
    for text in HEAD:
        out.write(text + "\n")
    boundaries = {1000: "offline 7", 1001: "k dead 7", 1002: "online 7"}
    for n in range(len(HEAD) + 1, 1_000_001):
        text = boundaries.get(n)
        if text is None:
            if n % 200 == 0:
                text = "sync"
            elif n % 5000 == 1:
                text = pick(["report totals", "report vmstat", "report counters", "report zoneinfo", "flush"])
            else:
                text = line(n)
        out.write(text + "\n")


if __name__ == "__main__":
    main()
