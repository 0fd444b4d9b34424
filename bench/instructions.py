#!/usr/bin/env python3
"""Counts instructions by callgrind, of `raid_bench` and of another program with the same commands, and prints one table.

Usage: bench/instructions.py [--csv] PROGRAM [OTHER [SCRIPT..]]

Rows of the table:
- 20,000 lines that claim, fill, commit, release and read, with payloads of 8, 64 and 1,024 bytes
- each SCRIPT, and `storm 8 1000`
- a scan and a restart of 10,240 slots, by header
- steps by a plan with few and with many blocks and groups, also where they find nothing to do

A ratio is the other's count by ours: above 1 ours takes fewer instructions. The answers must be the same, byte for byte.
--csv appends the rows to bench/instructions.csv. Other jobs of the machine don't change counts. It takes about five minutes.
"""

import csv
import datetime
import pathlib
import random
import subprocess
import sys
import tempfile
from concurrent.futures import ThreadPoolExecutor

HERE = pathlib.Path(__file__).resolve().parent
sys.path[:0] = [str(HERE / "scans"), str(HERE / "plans")]
from run import lines as scanned_lines  # noqa: E402  (bench/scans/run.py is found first)
from workloads import KINDS, STUCK  # noqa: E402

LINES = 20_000


def single_steps(size):
    """Claims, fills, commits and reads at random in thirty mirrored groups, with releases of old places."""
    chance = random.Random(1)
    lines = [f"array 8 64 8 {size} 2560"]
    for group in range(30):
        lines.append("make m " + " ".join(f"{(2 * group + k) % 8}.{group}" for k in range(4)))
    free = [128 * group + index for group in range(30) for index in range(32)]
    places = {}
    while len(lines) < LINES:
        block = chance.randrange(900)
        slot = free.pop(chance.randrange(len(free)))
        lines += [f"claim 0 {slot}", f"fill 0 {slot} {chance.randbytes(size).hex()}", f"commit 0 {slot} {block}"]
        if block in places:
            lines.append(f"release 0 {places[block]}")
            free.append(places[block])
        places[block] = slot
        lines += [f"read {chance.randrange(900)}", f"read {chance.randrange(900)}"]
    return "\n".join(lines) + "\n"


def counted(words, given):
    """The instructions of a run, and what it printed."""
    with tempfile.TemporaryDirectory() as folder:
        done = subprocess.run(
            ["valgrind", "--tool=callgrind", f"--callgrind-out-file={folder}/calls", *words], input=given.encode(), capture_output=True, check=True)
    line = next(line for line in done.stderr.decode().splitlines() if "Collected :" in line)
    return int(line.split(":")[1]), done.stdout


def beside(programs, name, words, given, unit):
    """One row: the millions of instructions of each program."""
    found = [counted([program, *words], given) for program in programs]
    if len({said for _, said in found}) > 1:
        sys.exit(f"{name}: the answers differ")
    return name, unit, [count for count, _ in found]


def each(programs, name, short, long, times, unit):
    """One row: the instructions of a step, by the difference of two scripts, of which the second has `times` more of it."""
    less = beside(programs, name, ["script"], short, unit)[2]
    more = beside(programs, name, ["script"], long, unit)[2]
    return name, unit, [(second - first) / times for first, second in zip(less, more)]


def planned(programs, kind, blocks, count):
    lines = {**KINDS, **STUCK}[kind][0]
    texts = ["\n".join(lines(blocks, count, rounds)) + "\n" for rounds in (1_000, 3_000)]
    return each(programs, f"{kind}, {blocks:,} blocks, {count} groups", *texts, 2_000, "instructions")


def scanned(programs, kind):
    texts = ["\n".join(scanned_lines(8, 256, kind, count)[0]) + "\n" for count in (2, 6)]
    slots = 80 * 128
    return each(programs, f"a {kind}, by header", *texts, 4 * slots, "instructions")


def main():
    words = sys.argv[1:]
    keep = words[:1] == ["--csv"]
    words = words[keep:]
    if not words:
        sys.exit(__doc__)
    programs, scripts = words[:2], words[2:]
    jobs = [(beside, (programs, f"20,000 lines of single steps, {size:,} bytes", ["script"], single_steps(size), "million")) for size in (8, 64, 1_024)]
    jobs += [(beside, (programs, pathlib.Path(script).stem, ["script"], pathlib.Path(script).read_text(), "million")) for script in scripts]
    jobs += [(beside, (programs, "storm of 8 workers, 1,000 rounds each", ["storm", "8", "1000"], "", "million"))]
    jobs += [(scanned, (programs, kind)) for kind in ("scan", "restart")]
    jobs += [(planned, (programs, kind, *size)) for kind in KINDS for size in ((256, 4), (65_536, 500))]
    jobs += [(planned, (programs, kind, *size)) for kind in STUCK for size in ((4_096, 4), (65_536, 500))]
    with ThreadPoolExecutor(max_workers=2) as pool:
        rows = [future.result() for future in [pool.submit(call, *given) for call, given in jobs]]
    commit = subprocess.run(["git", "rev-parse", "--short", "HEAD"], cwd=HERE, capture_output=True, text=True).stdout.strip()
    print("| Work | unit | ours | the other's | ratio |\n|---|---|---|---|---|")
    for name, unit, counts in rows:
        ours, *other = [count / 1_000_000 if unit == "million" else count for count in counts]
        digits = 2 if unit == "million" else 0
        told = [f"{other[0]:,.{digits}f}", f"{other[0] / ours:.2f}"] if other else ["", ""]
        print(f"| {name} | {unit} | {ours:,.{digits}f} | {told[0]} | {told[1]} |")
        if keep:
            with open(HERE / "instructions.csv", "a", newline="") as target:
                csv.writer(target).writerow([datetime.date.today(), commit, name, unit, f"{ours:.{digits}f}", told[0].replace(",", "")])


if __name__ == "__main__":
    main()
