#!/usr/bin/env python3
"""before.py TIMES: what bench printed of the libraries of before and of now: how often as fast the one of now is, by the medians and by the fastest rounds."""
import sys

CALLS = {"utf8": ("utf8", " utf8"), "measure": ("read", " measure"), "read": ("read", " read"), "read, then write": ("round", "")}


def load(path):
    """{file: {(group, name): (median, fastest)}}, in the order of TIMES."""
    times = {}
    with open(path) as f:
        for line in f:
            file, group, name, _, _, median, fastest = line.rstrip("\n").split("\t")
            times.setdefault(file, {})[group, name] = float(median), float(fastest)
    return times


def main():
    """Prints a table."""
    print("| Text | " + " | ".join(CALLS) + " |")
    print("|---|" + "---|" * len(CALLS))
    for file, rows in load(sys.argv[1]).items():
        cells = []
        for group, call in CALLS.values():
            was, is_now = rows.get((group, "before" + call)), rows.get((group, "Lanternrung" + call))
            cells.append(f"{was[0] / is_now[0]:.2f} ({was[1] / is_now[1]:.2f})" if was and is_now else "")
        print(f"| `{file}` | " + " | ".join(cells) + " |")


if __name__ == "__main__":
    main()
