"""Writes a trace of 1,000,000 lines that change counters: `mod`, `inc` and `dec`, with `sync` and reports of totals."""
import sys

from mixed import HEAD, counter, draw


def line():
    lane = f"c{draw(8)}"
    kind = draw(100)
    if kind < 60:
        return f"{lane} mod {counter()} {draw(129) - 64}"
    if kind < 64:
        return f"{lane} mod {draw(2)} node slab {4096 * (draw(65) - 32)}"
    if kind < 83:
        return f"{lane} inc {counter()}"
    return f"{lane} dec {counter()}"


def main():
    out = sys.stdout
    for text in HEAD:
        out.write(text + "\n")
    for n in range(len(HEAD) + 1, 1_000_001):
        if n % 200 == 0:
            text = "sync"
        elif n % 50000 == 1:
            text = "report totals"
        else:
            text = line()
        out.write(text + "\n")


if __name__ == "__main__":
    main()
