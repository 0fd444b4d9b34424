#!/usr/bin/env python3
"""Builds the program and one in plain Rust, runs both on the same scripts, and prints the ratios of their speeds and of their peak memory.

Usage: bench/script/run.py. A ratio of speeds above 1 says that the proved program is the faster one; a ratio of memory above 1, that
it takes more.
"""

import pathlib
import statistics
import subprocess
import sys
import tempfile

HERE = pathlib.Path(__file__).resolve().parent
sys.path.insert(0, str(HERE.parent))
from scratch import plain_program, processor_seconds, script_program  # noqa: E402
from workloads import WORKLOADS  # noqa: E402

ROUNDS = 15


def peak(program, script, told):
    """Peak memory of one run in KB, by GNU time. A direct child would report this process's memory where that is greater."""
    with open(script) as source:
        subprocess.run(["/usr/bin/time", "-f", "%M", "-o", told, *program], stdin=source, stdout=subprocess.DEVNULL, check=True)
    return int(told.read_text())


def main():
    folder = pathlib.Path(tempfile.mkdtemp(prefix="script_bench_"))
    programs = {"proved": script_program(), "plain Rust": plain_program(folder)}
    script, answers = folder / "script", folder / "answers"
    print("| Script | lines | proved, best (s) | plain Rust, best (s) | ratio of the best | ratio of the medians | proved (KB) | plain Rust (KB) | ratio of memory |")
    print("|---|---|---|---|---|---|---|---|---|")
    for name, lines in WORKLOADS.items():
        text = lines()
        script.write_text("\n".join(text) + "\n")
        times = {program: [] for program in programs}
        said = set()
        for _ in range(ROUNDS):
            for program, words in programs.items():
                times[program].append(processor_seconds(words, script, answers))
                said.add(answers.read_bytes())
        if len(said) != 1:
            sys.exit(f"{name}: the programs differ")
        best = {program: min(spent) for program, spent in times.items()}
        middle = {program: statistics.median(spent) for program, spent in times.items()}
        peaks = {program: peak(words, script, folder / "peak") for program, words in programs.items()}
        told = [f"{spent:.3f}" for spent in best.values()]
        told += [f"{found['plain Rust'] / found['proved']:.2f}" for found in (best, middle)]
        told += [f"{peak:,}" for peak in peaks.values()] + [f"{peaks['proved'] / peaks['plain Rust']:.2f}"]
        print(f"| {name} | {len(text):,} | {' | '.join(told)} |", flush=True)


if __name__ == "__main__":
    main()
