#!/usr/bin/env python3
"""Counts the instructions of writes, demotions, plugs and cleans on arrays of few and many blocks and groups, by callgrind.

Usage: bench/plans/instructions.py PROGRAM [KIND..]. Prints instructions a round, and how much they grow from the least to the
greatest. Other jobs of the machine don't change them.
"""

import pathlib
import subprocess
import sys
import tempfile
from concurrent.futures import ThreadPoolExecutor

from run import SIZES
from workloads import KINDS

ROUNDS = (1_000, 3_000)


def counted(program, script, folder):
    """The instructions of one run on the script."""
    with open(script) as source:
        said = subprocess.run(
            ["valgrind", "--tool=callgrind", f"--callgrind-out-file={folder / 'calls'}", program, "script"],
            stdin=source, stdout=subprocess.DEVNULL, stderr=subprocess.PIPE, text=True, check=True).stderr
    line = next(line for line in said.splitlines() if "Collected :" in line)
    return int(line.split(":")[1])


def a_round(program, kind, blocks, groups):
    """The instructions of a round: the difference of a long script and a short one."""
    folder = pathlib.Path(tempfile.mkdtemp(prefix="plans_instructions_"))
    found = []
    for rounds in ROUNDS:
        script = folder / f"script_{rounds}"
        script.write_text("\n".join(KINDS[kind][0](blocks, groups, rounds)) + "\n")
        found.append(counted(program, script, folder))
    return (found[1] - found[0]) / (ROUNDS[1] - ROUNDS[0])


def main():
    program, kinds = sys.argv[1], sys.argv[2:] or list(KINDS)
    for kind in kinds:
        with ThreadPoolExecutor(max_workers=2) as pool:
            found = list(pool.map(lambda size: a_round(program, kind, *size), SIZES))
        told = ", ".join(f"{count:,.0f}" for count in found)
        print(f"{kind}: {told}; {max(found) / min(found):.2f}", flush=True)


if __name__ == "__main__":
    main()
