"""Reasons and refusals are held to the program, and those of images to the checker's calls: the same check finds a fault, and a reason has
the borders that are listed."""
import os
import random
import unittest

from cases.images import IMAGES
from cases.model import ASK, CONNECT, NO_CLUE, UNDO, WALL, Case, border_count, refusal, rooms
from cases.program import run
from cases.reasons import reason
from cases.turns import FAULT, turns
from checker import lines_of

from .support import PROGRAM, WithCalls


def random_load(rng):
    """A case of decides, undos and asks on a small board with rooms and clues."""
    made = Case(rng.randint(1, 6), rng.randint(1, 6))
    count = border_count(made)
    made.walls = sorted(rng.sample(range(count), rng.choice((0, 0, count // 8, count // 4))))
    room = rooms(made)
    few = [rng.randint(0, min(3, room.count(k))) for k in range(max(room) + 1)]
    made.clues = [rng.choice((NO_CLUE, NO_CLUE, n, room.count(k) - n)) for k, n in enumerate(few)]
    free, likely = [b for b in range(count) if b not in made.walls], rng.random()
    rng.shuffle(free)
    for border in free:
        made.calls += [(WALL if rng.random() < likely else CONNECT, border), (ASK, None)]
        if rng.random() < 0.3:
            made.calls += [(UNDO, None)]
    return made


class Known(unittest.TestCase):
    def told(self, made, standing):
        found = reason(made, standing)
        return found and (found.words, found.cells, found.listed, found.room)

    def test_examples_of_the_specification(self):
        self.assertEqual(self.told(Case(1, 1, [], [NO_CLUE]), {}), (
            "unit of 1 cell at row 1, column 1 has no partner left: there is no room for one that it can touch", [0], {}, None))
        self.assertIsNone(self.told(Case(1, 2, [], [NO_CLUE]), {}))
        self.assertIsNone(self.told(Case(1, 2, [], [NO_CLUE]), {0: 1}))
        self.assertEqual(self.told(Case(1, 3, [], [NO_CLUE]), {0: 1, 1: 0}), (
            "unit of 1 cell at row 1, column 1 has no partner left: a border is in the way in each of the 2 places for one", [0], {0: 1, 1: 0}, None))
        self.assertEqual(self.told(Case(2, 2, [], [NO_CLUE]), {0: 0, 1: 0, 2: 0, 3: 1}), (
            "Wall 3 lies inside a unit of 4 cells: Connected borders join row 1, column 2 and row 2, column 2, on its two sides",
            [0, 1, 2, 3], {0: 0, 1: 0, 2: 0, 3: 1}, None))
        self.assertIsNone(self.told(Case(2, 2, [], [NO_CLUE]), {0: 0, 1: 0, 2: 1, 3: 1}))

    def test_a_unit_of_three(self):
        self.assertEqual(self.told(Case(1, 4, [], [NO_CLUE]), {0: 1, 1: 0, 2: 0})[0],
                         "unit of 1 cell at row 1, column 1 has no partner left: a border is in the way in each of the 3 places for one")
        self.assertEqual(self.told(Case(1, 4, [], [NO_CLUE]), {0: 0, 1: 0, 2: 1})[:2], (
            "unit of 3 cells at row 1, column 1 has no partner left: there is no room for one that it can touch", [0, 1, 2]))

    def test_images(self):
        def images(height, width):
            return Case(height, width, [], [NO_CLUE], images=IMAGES)

        # each image of the unit of one cell takes the same two places
        self.assertEqual(self.told(images(1, 3), {0: 1, 1: 0}), self.told(Case(1, 3, [], [NO_CLUE]), {0: 1, 1: 0}))
        # docs/SPEC.md, 14.2: an image with the cells of an earlier one may fit where that does not
        self.assertIsNone(self.told(images(2, 3), {0: 1, 1: 0, 2: 0, 4: 0}))
        # an L of three cells: in the two places that it may take beside it, a Wall or a Connected border is in the way
        self.assertEqual(self.told(images(2, 3), {0: 0, 1: 1, 2: 1, 3: 1, 4: 0, 5: 1, 6: 0}), (
            "unit of 3 cells at row 1, column 1 has no partner left: a border is in the way in the one place for one",
            [0, 1, 3], {0: 0, 1: 1, 2: 1, 3: 1, 4: 0, 5: 1}, None))
        self.assertIsNone(self.told(images(2, 3), {0: 0, 1: 1, 2: 1, 3: 0, 4: 0, 5: 1, 6: 0}))
        self.assertEqual(self.told(Case(2, 3, [], [NO_CLUE]), {0: 0, 1: 1, 2: 1, 3: 0, 4: 0, 5: 1, 6: 0})[0],
                         "unit of 3 cells at row 1, column 1 has no partner left: there is no room for one that it can touch")

    def test_rooms(self):
        made = Case(1, 4, [], [3])
        self.assertEqual(self.told(made, {0: 0, 2: 0}), ("room 0 wants 3 units and has at most 2", [0, 1, 2, 3], {0: 0, 2: 0}, 0))
        made = Case(2, 4, [1, 4], [NO_CLUE, 1])
        self.assertEqual(self.told(made, {1: 1, 4: 1, 8: 1, 9: 1}), ("room 1 wants 1 unit and has at least 2", [2, 3, 6, 7], {8: 1, 9: 1}, 1))
        self.assertEqual(self.told(Case(1, 2, [0], [1, 0]), {0: 1})[0], "room 1 wants 0 units and has at least 1")


def random_puzzle(rng):
    """A puzzle, most often one that is refused."""
    made = Case(rng.choice((0, 1, 1, 2, 2, 3, 3, 33)), rng.choice((0, 1, 2, 2, 3, 3, 3, 33)), calls=[(ASK, None)])
    made.walls = [rng.randrange(8) for _ in range(rng.randint(0, 3))]
    made.walls = made.walls if rng.random() < 0.3 else sorted(made.walls)
    made.clues = [rng.choice((NO_CLUE, 0, 1, 2, 9)) for _ in range(rng.randint(1, 2))]
    return made


def compared(test, made, lines, kinds):
    """Holds the reasons of a case to the lines for it, and counts them by kind."""
    for turn in turns(made, lines):
        if turn.call[0] == ASK:
            found = reason(made, turn.standing)
            test.assertEqual(found is not None, turn.kind == FAULT, (made, turn.number))
            if found:
                test.assertEqual((found.room, found.listed), (turn.room, turn.listed), (made, turn.number))
            kind = "clear" if found is None else found.words.split()[0] + (" at most" if "at most" in found.words else "")
            kinds[kind] = kinds.get(kind, 0) + 1


def enough(test, kinds):
    test.assertEqual(sorted(kinds), ["Wall", "clear", "room", "room at most", "unit"])
    test.assertGreater(min(kinds.values()), 20, kinds)


@unittest.skipUnless(os.path.exists(PROGRAM), "no %s (run `bindings/prove program`)" % PROGRAM)
class BesideTheProgram(unittest.TestCase):
    def test_refused_puzzles(self):
        rng, numbers = random.Random(10), set()
        for _ in range(300):
            made = random_puzzle(rng)
            number, lines = refusal(made), run(PROGRAM, made)
            self.assertEqual(lines == ["refused %d" % number], number != 0, made)
            numbers.add(number)
        self.assertEqual(numbers, {0, 1, 3, 7, 8, 9})

    def test_random_cases(self):
        rng, kinds = random.Random(8), {}
        for _ in range(150):
            made = random_load(rng)
            compared(self, made, run(PROGRAM, made), kinds)
        enough(self, kinds)


class BesideTheCalls(WithCalls):
    def test_random_cases_of_images(self):
        rng, kinds = random.Random(9), {}
        for _ in range(150):
            made = random_load(rng)
            made.images = IMAGES
            compared(self, made, lines_of(made), kinds)
        enough(self, kinds)

    @unittest.skipUnless(os.path.exists(PROGRAM), "no %s (run `bindings/prove program`)" % PROGRAM)
    def test_the_calls_have_the_lines_of_the_program(self):
        rng = random.Random(11)
        for made in [random_load(rng) for _ in range(40)] + [random_puzzle(rng) for _ in range(40)]:
            self.assertEqual(lines_of(made), run(PROGRAM, made), made)
