"""What the propagator calls, with a stand-in for clingo."""
import unittest
import unittest.mock

from checker import sendai
from solver.propagator import Propagator
from solver.trace import NoTrace


class Clingo:
    """Stands for clingo, as far as a propagator sees it."""

    decision_level = 0

    def __init__(self, literals, true=()):
        self.literals, self.true, self.watched, self.nogoods = literals, true, set(), []
        self.symbolic_atoms = self.assignment = self

    def by_signature(self, name, arguments):
        assert (name, arguments) == ("wall", 1)
        return [unittest.mock.Mock(**{"symbol.arguments": [unittest.mock.Mock(number=border)]}, literal=literal)
                for border, literal in enumerate(self.literals)]

    def solver_literal(self, literal):
        return literal

    def is_true(self, literal):
        return literal in self.true

    def add_watch(self, literal):
        self.watched.add(literal)

    def add_nogood(self, literals):
        self.nogoods.append(literals)
        return False


class Propagated(unittest.TestCase):
    def propagator(self, puzzle, clingo):
        made = Propagator(puzzle, NoTrace(), lambda _: None)
        made.init(clingo)
        return made

    def at(self, propagator, clingo, level, changes):
        clingo.decision_level = level
        propagator.propagate(clingo, changes)

    def test_levels(self):
        puzzle, clingo = sendai.Puzzle(1, 6), Clingo([2, 3, 4, 5, 6])
        made = self.propagator(puzzle, clingo)
        self.assertEqual(clingo.watched, {2, -2, 3, -3, 4, -4, 5, -5, 6, -6})
        self.at(made, clingo, 0, [2])
        self.at(made, clingo, 1, [-3])
        self.at(made, clingo, 1, [4, -5])
        self.at(made, clingo, 3, [6])
        self.assertEqual(puzzle.strokes(), [[(0, True)], [(1, False)], [(2, True), (3, False)], [(4, True)]])
        made.undo(0, clingo, [6])
        self.assertEqual(len(puzzle.strokes()), 3)
        clingo.decision_level = 1
        made.undo(0, clingo, [-3, 4, -5])
        self.assertEqual(puzzle.strokes(), [[(0, True)]])

    def test_a_fault_is_a_nogood(self):
        puzzle, clingo = sendai.Puzzle(1, 3), Clingo([7, -9])
        made = self.propagator(puzzle, clingo)
        self.at(made, clingo, 1, [7, 9])
        self.assertEqual((clingo.nogoods, made.asks, made.faults), ([[7, 9]], 1, 1))

    def test_one_literal_for_several_borders(self):
        puzzle, clingo = sendai.Puzzle(1, 4), Clingo([2, -2, 2])
        made = self.propagator(puzzle, clingo)
        self.at(made, clingo, 1, [-2])
        self.assertEqual(puzzle.strokes(), [[(0, False), (1, True), (2, False)]])
        made.undo(0, clingo, [-2])
        self.assertEqual(puzzle.strokes(), [])

    def test_what_holds_from_the_start(self):
        puzzle, clingo = sendai.Puzzle(1, 4, [1]), Clingo([-3, 1, 4], true=(1, 3))
        made = self.propagator(puzzle, clingo)
        self.assertEqual(puzzle.strokes(), [[(0, False)]])
        self.at(made, clingo, 0, [1, 3])
        self.at(made, clingo, 1, [4])
        self.assertEqual(puzzle.strokes(), [[(0, False)], [(2, True)]])
        self.assertEqual(clingo.nogoods, [[3, 1, 4]])

    def test_a_check_wants_all_borders(self):
        made = self.propagator(sendai.Puzzle(1, 2), Clingo([2]))
        self.assertRaises(RuntimeError, made.check, Clingo([2]))
