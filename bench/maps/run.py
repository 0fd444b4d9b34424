#!/usr/bin/env python3
"""Builds the proved program and the plain one in a scratch folder, times both, and prints the ratios of their speeds.

Usage: bench/maps/run.py [FOLDER]. A ratio above 1 says that the proved program is the faster one.
"""

import pathlib
import sys

HERE = pathlib.Path(__file__).resolve().parent
sys.path.insert(0, str(HERE.parent))
from scratch import compare  # noqa: E402

CRATES = ["map_join"]
WORKS = ["take rising", "take scattered", "merge into empty", "merge into full", "agrees", "covers", "lowest_difference", "to_list"]

if __name__ == "__main__":
    compare(HERE, "maps_bench", CRATES, WORKS, rounds=15)
