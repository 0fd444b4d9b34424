#!/usr/bin/env python3
"""Runs each benchmark, and prints one table of their ratios.

Usage: bench/all.py [NAME..]. Without names it runs all of them. A ratio of speeds above 1 means that the proved program is
faster, and a ratio of memory above 1 that it takes more. A growth is the costliest round by the cheapest one. Bytes are
those of the units that were read.
"""

import pathlib
import subprocess
import sys

HERE = pathlib.Path(__file__).resolve().parent
NAMES = ["words", "exclusive_or", "maps", "script", "plans", "scans", "storm"]
TOLD = ["ratio of the best", "ratio of the medians", "ratio of memory", "greatest by least", "bytes a nanosecond"]


def cells(line):
    return [cell.strip() for cell in line.strip().strip("|").split("|")]


def rows(name):
    """Each row of the benchmark's table: what it measures, and its ratios."""
    head = None
    with subprocess.Popen([sys.executable, HERE / name / "run.py"], stdout=subprocess.PIPE, text=True) as child:
        for line in child.stdout:
            if not line.startswith("|") or line.startswith("|--"):
                continue
            if head is None:
                head = cells(line)
                continue
            row = dict(zip(head, cells(line)))
            of = [row[column] for column in head[: 2 if head[1] in ("program", "beside") else 1]]
            yield " ".join(of), [row.get(column, "") for column in TOLD]
    if child.returncode != 0:
        sys.exit(f"{name}: status {child.returncode}")


def main():
    print("| Benchmark | work | " + " | ".join(TOLD) + " |")
    print("|---" * (len(TOLD) + 2) + "|")
    for name in sys.argv[1:] or NAMES:
        for of, told in rows(name):
            print(f"| {name} | {of} | {' | '.join(told)} |", flush=True)


if __name__ == "__main__":
    main()
