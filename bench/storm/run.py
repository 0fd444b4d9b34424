#!/usr/bin/env python3
"""Builds the proved program and the plain one in a scratch folder, times twenty storms in a row by both, and prints the ratios of their speeds.

Usage: bench/storm/run.py [FOLDER]. A ratio above 1 says that the proved program is the faster one.
"""

import pathlib
import sys

HERE = pathlib.Path(__file__).resolve().parent
sys.path.insert(0, str(HERE.parent))
from scratch import compare  # noqa: E402

BELOW = "array_book tiered_array cleaner migrator step_core disk_array slot_tables unit_store flat_machine extent_groups extents map_words slot_words map_join"
CRATES = ["storm", "mirrored_store", "parity_store", *BELOW.split()]
WORKS = [f"{workers} {payload}" for payload in (8, 4096) for workers in (1, 2, 4, 8)]

if __name__ == "__main__":
    compare(HERE, "storm_bench", CRATES, WORKS, rounds=7, stands_on=f"storm {BELOW} atomic_table")
