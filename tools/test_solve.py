#!/usr/bin/env python3
"""Tests of solve.py and of package solver, which stand in tools/tests/solve; they need clingo and the archive.

    python3 tools/test_solve.py [--seed N] [--puzzles N] [-v] [-k NAME]

Run it anywhere. --seed: of the puzzles that are drawn (1); --puzzles: how many of them (150).
"""
import argparse
import os
import sys
import unittest

TOOLS = os.path.dirname(os.path.abspath(__file__))

if __name__ == "__main__":
    sys.path.insert(0, TOOLS)
    from tests.solve.support import DRAWN
    parser = argparse.ArgumentParser(description=__doc__, formatter_class=argparse.RawDescriptionHelpFormatter)
    parser.add_argument("--seed", type=int, default=DRAWN.seed, help="of the puzzles that are drawn")
    parser.add_argument("--puzzles", type=int, default=DRAWN.puzzles, help="how many puzzles are drawn")
    _, rest = parser.parse_known_args(namespace=DRAWN)
    unittest.main(module=None, argv=["test_solve.py", "discover", "-s", os.path.join(TOOLS, "tests", "solve"), "-t", TOOLS] + rest)
