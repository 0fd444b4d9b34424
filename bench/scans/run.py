#!/usr/bin/env python3
"""Builds the program and the one in plain Rust, and times scans of all units and restarts from them, with short and long payloads.

Usage: bench/scans/run.py [PROGRAM WORD..]. Prints microseconds a scan or a restart, the bytes of all units by that time (of which both
read the headers alone), and in the row of a program beside the proved one the ratio of the best: its microseconds by the proved
program's, so that above 1 the proved one is the faster. With a program and its words that one is timed beside both on the same scripts,
in turn. All answers have to be the same.
"""

import pathlib
import random
import sys
import tempfile

HERE = pathlib.Path(__file__).resolve().parent
sys.path.insert(0, str(HERE.parent))
from scratch import a_round, plain_program, script_program  # noqa: E402

TIMES = 7
HEADER = 32
# Bytes of a payload, groups of four members, half of them mirrored, and how often it is scanned or restarted.
SIZES = [(8, 256, 40), (1_024, 64, 200), (65_536, 8, 600)]
SEGMENTS, UPPER, LOWER = 8, 32, 48


def lines(payload, groups, kind, count):
    """All mirrored slots but four are written, and then half of the blocks are demoted, as far as there is room."""
    chance = random.Random(4)
    blocks = UPPER * (groups // 2) - 4
    text = [f"array 8 512 {SEGMENTS} {payload} {blocks}"]
    for group in range(groups):
        members = " ".join(f"{(4 * group + k) % 8}.{group // 2}" for k in range(4))
        text.append(f"make {'m' if group < groups // 2 else 'p'} {members}")
    text += [f"write 0 {block} {chance.randbytes(payload).hex()}" for block in range(blocks)]
    text += ["demote 0"] * (blocks // 2)
    return text + [kind] * count, blocks


def main():
    folder = pathlib.Path(tempfile.mkdtemp(prefix="scans_bench_"))
    programs = {"proved": script_program(), "plain Rust": plain_program(folder)}
    if sys.argv[1:]:
        programs["beside"] = sys.argv[1:]
    print("| Work | program | blocks | microseconds | bytes a nanosecond | ratio of the best |")
    print("|---|---|---|---|---|---|")
    for kind in ("scan", "restart"):
        for payload, groups, count in SIZES:
            _, blocks = lines(payload, groups, kind, count)
            found = a_round(programs, lambda many: lines(payload, groups, kind, many)[0], count, TIMES, folder, f"{kind} with {payload} bytes")
            slots = (UPPER + LOWER) * (groups // 2)
            for program, each in found.items():
                told = slots * (HEADER + payload) / (1000 * each) if each > 0 else 0
                is_told = program != "proved" and min(each, found["proved"]) > 0
                beside = f"{each / found['proved']:.2f}" if is_told else ""
                print(f"| {kind} with {payload:,} bytes | {program} | {blocks:,} | {each:.1f} | {told:.2f} | {beside} |", flush=True)


if __name__ == "__main__":
    main()
