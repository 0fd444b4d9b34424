#!/usr/bin/env python3
"""Builds the program and the one in plain Rust, and times writes, demotions, plugs and cleans on arrays of few and many blocks and groups.

Usage: bench/plans/run.py [PROGRAM WORD..]. Prints microseconds a round, how much they grow, and in the row of a program beside the
proved one the ratio of the best: its microseconds by the proved program's, as the geometric mean over the sizes, so that above 1 the
proved one is the faster. With a program and its words that one is timed beside both on the same scripts, in turn. All answers have to be
the same.
"""

import pathlib
import statistics
import sys
import tempfile

HERE = pathlib.Path(__file__).resolve().parent
sys.path.insert(0, str(HERE.parent))
from scratch import a_round, plain_program, script_program  # noqa: E402
from workloads import KINDS  # noqa: E402

TIMES = 7
SIZES = [(256, 4), (4_096, 4), (65_536, 4), (256, 500), (4_096, 500), (65_536, 500)]


def spent(programs, kind, blocks, count, folder):
    """Microseconds a round by each program."""
    lines, rounds = KINDS[kind]
    return a_round(programs, lambda many: lines(blocks, count, many), rounds, TIMES, folder, f"{kind}, {blocks} blocks, {count} groups")


def ratio(ones, others):
    """The geometric mean of the ratios of some times, where each is above 0."""
    if min(ones + others) <= 0:
        return ""
    return f"{statistics.geometric_mean(one / other for one, other in zip(ones, others)):.2f}"


def main():
    folder = pathlib.Path(tempfile.mkdtemp(prefix="plans_bench_"))
    programs = {"proved": script_program(), "plain Rust": plain_program(folder)}
    if sys.argv[1:]:
        programs["beside"] = sys.argv[1:]
    sizes = " | ".join(f"{blocks:,} blocks, {count} groups" for blocks, count in SIZES)
    print(f"| Round | program | {sizes} | greatest by least | ratio of the best |")
    print("|---" * (len(SIZES) + 4) + "|")
    for kind in KINDS:
        found = [spent(programs, kind, blocks, count, folder) for blocks, count in SIZES]
        times = {program: [one[program] for one in found] for program in programs}
        for program, each in times.items():
            told = " | ".join(f"{one:.2f}" for one in each)
            growth = f"{max(each) / min(each):.1f}" if min(each) > 0 else ""
            beside = "" if program == "proved" else ratio(each, times["proved"])
            print(f"| {kind} | {program} | {told} | {growth} | {beside} |", flush=True)


if __name__ == "__main__":
    main()
