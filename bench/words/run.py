#!/usr/bin/env python3
"""Builds the proved program and the plain one in a scratch folder, times both, and prints the ratios of their speeds.

Usage: bench/words/run.py [FOLDER]. A ratio above 1 says that the proved program is the faster one.
"""

import pathlib
import sys

HERE = pathlib.Path(__file__).resolve().parent
sys.path.insert(0, str(HERE.parent))
from scratch import compare  # noqa: E402

CRATES = ["map_join", "slot_words", "map_words"]
WORKS = ["claims 1", "claims 4", "takes 1", "takes 4", "finds 1", "finds 4"]

if __name__ == "__main__":
    compare(HERE, "words_bench", CRATES, WORKS, rounds=25)
