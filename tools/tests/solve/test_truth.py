"""The answers are those of trying all boards."""
import random
import time

from cases.model import NO_CLUE
from checker import sendai
from solver.search import Bounds

from .laws import SIZES, joined, lawful, right, sides
from .support import DRAWN, WithClingo


def random_puzzle(rng):
    """Given walls and clues that a right board has, or any; some borders decided, as it has them, or anyhow."""
    height, width = rng.choice(SIZES[:8] + 3 * [size for size in SIZES if 1 not in size])
    borders = len(sides(height, width))
    boards = lawful(height, width)
    board, unit = rng.choice(boards) if boards else ([rng.random() < 0.5 for _ in range(borders)], None)
    kind = rng.random()
    walls = [b for b in range(borders) if (board[b] or kind < 0.1) and rng.random() < rng.choice((0, 0.3, 0.7))]
    plain = sendai.Puzzle(height, width, walls)
    rooms = joined(height, width, [pair for b, pair in enumerate(sides(height, width)) if b not in walls])
    parts = {}
    for cell, name in sorted(rooms.items()):
        parts.setdefault(name, []).append(cell)
    clues = []
    for cells in parts.values():
        held = len({unit[cell] for cell in cells}) if unit and kind > 0.3 else rng.randint(0, len(cells))
        clues.append(held if rng.random() < 0.6 else NO_CLUE)
    assert len(clues) == len(plain.clues)
    puzzle = sendai.Puzzle(height, width, walls, clues)
    for border in rng.sample([b for b in range(borders) if b not in walls], rng.randint(0, 2) if borders - len(walls) > 2 else 0):
        puzzle.decide(border, board[border] if rng.random() < 0.9 else not board[border])
    return puzzle


class Truth(WithClingo):
    def test_laws(self):
        """The test's own laws, where the answer is known."""
        self.assertEqual([len(lawful(1, width)) for width in (1, 2, 3, 4)], [0, 1, 1, 2])
        self.assertEqual(right(sendai.Puzzle(2, 2)), [[1, 1, 2, 2], [2, 2, 1, 1], [2, 2, 2, 2]])

    def test_answers_are_those_of_all_boards(self):
        rng, counts = random.Random(DRAWN.seed), []
        for number in range(DRAWN.puzzles):
            puzzle = random_puzzle(rng)
            truth = right(puzzle)
            self.assertEqual(self.solved(puzzle), (truth, None), "puzzle %d: %r" % (number, puzzle))
            self.assertEqual(puzzle.right_boards().boards, truth, "puzzle %d: %r" % (number, puzzle))
            counts.append(min(2, len(truth)))
        # the puzzles are worth trying: some have no answer, some one, some several
        self.assertGreater(min(counts.count(0), counts.count(1), counts.count(2)), DRAWN.puzzles // 20)

    def test_empty_4_by_4(self):
        puzzle = sendai.Puzzle(4, 4)
        answers, stopped = self.solved(puzzle)
        self.assertEqual((len(answers), stopped), (1808, None))
        self.assertEqual(answers, puzzle.right_boards().boards)

    def test_larger_puzzles_beside_the_proved_search(self):
        """More borders than all boards can be tried of, 24 of them undecided."""
        rng = random.Random(DRAWN.seed)
        for _ in range(8):
            puzzle = sendai.Puzzle(6, 6)
            board = rng.choice(self.solved(puzzle, Bounds(limit=rng.randint(1, 9)))[0])
            free = rng.sample(range(puzzle.borders), 24)
            puzzle.stroke((border, board[border] == 2) for border in range(puzzle.borders) if border not in free)
            answers, _ = self.solved(puzzle)
            self.assertIn(board, answers)
            self.assertEqual(answers, puzzle.right_boards().boards)

    def test_a_limit_is_met_and_not_passed(self):
        for limit in (1, 2, 1807, 1808, 1809):
            answers, stopped = self.solved(sendai.Puzzle(4, 4), Bounds(limit=limit))
            self.assertEqual(len(answers), min(limit, 1808))
            self.assertIn(stopped, ("limit",) if limit < 1808 else (None, "limit") if limit == 1808 else (None,))

    def test_asks_and_seconds(self):
        hard = sendai.Puzzle(32, 32)
        few = self.solver.solve(hard, Bounds(asks=50))
        self.assertEqual(few.stopped, "asks")
        self.assertLess(abs(few.asks - 50), 10)
        began = time.monotonic()
        self.assertEqual(self.solver.solve(sendai.Puzzle(7, 7), Bounds(seconds=0.5)).stopped, "seconds")
        self.assertLess(time.monotonic() - began, 5)
