#!/usr/bin/env python3
"""Counts the instructions of a commit of 4,096 bytes to a slot with parity: by the array, and as a list of single writes that is
planned and carried out.

Usage: bench/stops/run.py [FOLDER]. Proves and builds the program in a scratch folder. Needs callgrind (Debian's valgrind).
"""

import pathlib
import subprocess
import sys
import tempfile

HERE = pathlib.Path(__file__).resolve().parent
sys.path.insert(0, str(HERE.parent))
from scratch import add_program, lay_out, lines_of_crates, prove  # noqa: E402

PROGRAM = "stops_bench"
STANDS_ON = "crash_points step_core unit_store extents"
ROUNDS = 1_000
WORKS = ["begun", "copies", "commits", "plans", "runs"]


def crates_below(name):
    """The crate and all of the repository's crates that it depends on, in the order of crates.txt."""
    lines = lines_of_crates()
    wanted, left = set(), [name]
    while left:
        crate = left.pop()
        if crate in lines and crate not in wanted:
            wanted.add(crate)
            left += lines[crate].split(":")[1].split()
    return [crate for crate in lines if crate in wanted]


def instructions(program, work, folder):
    """How many instructions a run takes."""
    line = ["valgrind", "--tool=callgrind", f"--callgrind-out-file={folder}/callgrind", program]
    told = subprocess.run(line, input=work + "\n", capture_output=True, text=True, check=True)
    return int(next(it.split()[-1] for it in told.stderr.splitlines() if "Collected" in it))


def main():
    folder = pathlib.Path(sys.argv[1] if len(sys.argv) > 1 else tempfile.mkdtemp(prefix="stops_bench_"))
    lay_out(folder, crates_below("crash_points"))
    add_program(folder, HERE, PROGRAM, STANDS_ON)
    program = prove(folder, PROGRAM)
    took = {work: instructions(program, work, folder) for work in WORKS}
    print("| Work | instructions |")
    print("|---|---|")
    print(f"| copy and discard | {(took['copies'] - took['begun']) // ROUNDS} |")
    print(f"| the array's commit | {(took['commits'] - took['copies']) // ROUNDS} |")
    print(f"| the commit's list, planned | {(took['plans'] - took['begun']) // ROUNDS} |")
    print(f"| the list carried out | {(took['runs'] - took['plans']) // ROUNDS} |")


if __name__ == "__main__":
    main()
