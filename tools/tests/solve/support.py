"""What the tests of the solver share: how much is drawn, and a clingo that solves puzzle after puzzle."""
import argparse
import unittest

from solver.search import Bounds, Solver

DRAWN = argparse.Namespace(seed=1, puzzles=150)


class WithClingo(unittest.TestCase):
    @classmethod
    def setUpClass(cls):
        cls.solver = Solver()
        cls.addClassCleanup(cls.solver.__exit__)

    def solved(self, puzzle, bounds=Bounds()):
        """The answers as lists of states, and why the search stopped."""
        found = self.solver.solve(puzzle, bounds)
        return [list(answer) for answer in found.answers], found.stopped
