"""Writes a trace of 100,000 watermark tests that take the snapshot, on 128 CPUs that all hide something.

    snapshots.py [SEED [TESTS]]

The same SEED, 1 where none is given, gives the same trace.
"""
import random
import sys

CPUS = 128
FREE = "0 Normal nr_free_pages"


def main():
    seed, tests = (int(word) for word in (sys.argv[1:] + ["1", "100000"][len(sys.argv) - 1:])[:2])
    rng = random.Random(seed)
    out = sys.stdout
    # 128 CPUs with thresholds of 80 have the mark 10,390.
    for text in ["vmtrace 2", f"cpus {CPUS}", "zone 0 Normal 262144 100 125 150", f"base {FREE} 5000", "go"]:
        out.write(text + "\n")
    for cpu in range(CPUS):
        out.write(f"c{cpu} mod {FREE} {rng.randrange(-80, 81)}\n")
    for _ in range(tests):
        out.write(f"c{rng.randrange(CPUS)} ok 0 Normal {rng.choice(['min', 'low', 'high'])} {rng.randrange(4)}\n")


if __name__ == "__main__":
    main()
