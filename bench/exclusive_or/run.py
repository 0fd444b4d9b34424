#!/usr/bin/env python3
"""Builds the proved program, the plain one and, where libisal-dev is installed, one over ISA-L in a scratch folder, times them,
and prints the ratios of their speeds.

Usage: bench/exclusive_or/run.py [FOLDER]. A ratio above 1 says that the proved program is the faster one.
"""

import pathlib
import statistics
import subprocess
import sys
import tempfile

HERE = pathlib.Path(__file__).resolve().parent
sys.path.insert(0, str(HERE.parent))
from scratch import build, seconds  # noqa: E402

CRATES = ["map_join", "extents", "extent_groups", "parity_store"]
SIZES = ["104", "65568"]
ROUNDS = 7


def build_all(folder):
    """The programs by name, the first one proved."""
    proved, plain = build(folder, HERE, "exclusive_or_bench", "parity_store", CRATES)
    programs = {"proved": proved, "plain Rust": plain}
    made = subprocess.run(["cc", "-O3", "-x", "c", HERE / "isal.c.txt", "-x", "none", "-o", folder / "isal", "-lisal"], capture_output=True)
    if made.returncode == 0:
        programs["ISA-L"] = folder / "isal"
    else:
        print("no program over ISA-L: libisal-dev or cc is missing")
    return programs


def main():
    folder = pathlib.Path(sys.argv[1] if len(sys.argv) > 1 else tempfile.mkdtemp(prefix="exclusive_or_bench_"))
    programs = build_all(folder)
    print("| Bytes | beside | proved, best (s) | the other, best (s) | ratio of the best | ratio of the medians |")
    print("|---|---|---|---|---|---|")
    for size in SIZES:
        times = {name: [] for name in programs}
        said = set()
        for _ in range(ROUNDS):
            for name, program in programs.items():
                spent, says = seconds(program, size)
                times[name].append(spent)
                said.add(says)
        if len(said) != 1:
            sys.exit(f"the programs differ: {said}")
        ours = times.pop("proved")
        for name, theirs in times.items():
            best = min(theirs) / min(ours)
            median = statistics.median(theirs) / statistics.median(ours)
            print(f"| {size} | {name} | {min(ours):.3f} | {min(theirs):.3f} | {best:.2f} | {median:.2f} |")


if __name__ == "__main__":
    main()
