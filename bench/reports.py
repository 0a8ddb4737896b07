"""Writes a trace that prints the largest report of its version, of 180 or of 521 KB, as often as it is told.

    reports.py VERSION COUNT

VERSION is 1 or 2, COUNT from 1 to 1,000. The report is `zoneinfo` of 64 or of 128 CPUs, as in bench/large_rows.py.
"""
import sys

from large_rows import largest_report


def main():
    version, count = (int(word) for word in sys.argv[1:3])
    lines = largest_report(version, 64 * version).lines
    sys.stdout.writelines(line + "\n" for line in lines + lines[-1:] * (count - 1))


if __name__ == "__main__":
    main()
