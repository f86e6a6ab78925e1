import os
import random
import re
import unittest

from cases import text
from cases.drawing import parse
from cases.file import encode
from cases.model import ASK, CONNECT, NO_CLUE, WALL, Case, Mistake, border_count, rooms

from .support import PAPER, PAPER_DRAWING, ROOMS, TOP, random_case


class Drawings(unittest.TestCase):
    def test_paper(self):
        self.assertEqual(encode(parse(PAPER_DRAWING)), PAPER)

    def test_rooms_and_clues(self):
        made = parse(ROOMS)
        self.assertEqual((made.height, made.width), (2, 3))
        # borders: rights 0 1 / 2 3, belows 4 5 6
        self.assertEqual(made.walls, [1, 2, 4, 6])
        self.assertEqual(rooms(made), [0, 0, 1, 2, 0, 0])
        self.assertEqual(made.clues, [2, 1, NO_CLUE])
        self.assertEqual(made.calls, [(CONNECT, 3), (ASK, None)])

    def test_borders_below(self):
        made = parse("+---+---+\n|   |   |\n+ x + o +\n|   o   |\n+---+---+\nwall 0\nclue 0 3\n")
        self.assertEqual(made.walls, [0])
        self.assertEqual(made.clues, [3])
        self.assertEqual(made.calls, [(CONNECT, 1), (WALL, 2), (CONNECT, 3), (WALL, 0)])

    def test_drawn_again(self):
        rng = random.Random(2)
        for _ in range(100):
            made = random_case(rng)
            made.clues = [NO_CLUE] * (max(rooms(made)) + 1)
            made.calls = [(ASK, None)]
            self.assertEqual(parse(text.draw(made)), made)

    def test_standing_borders_drawn_again(self):
        rng = random.Random(3)
        for _ in range(100):
            made = random_case(rng)
            made.clues = [NO_CLUE] * (max(rooms(made)) + 1)
            free = [b for b in range(border_count(made)) if b not in made.walls]
            stand = {b: rng.randint(0, 1) for b in rng.sample(free, rng.randint(0, len(free)))}
            made.calls = [(WALL if stand[b] else CONNECT, b) for b in sorted(stand)] + [(ASK, None)]
            self.assertEqual(parse(text.draw(made, stand) + "\nask\n"), made)

    def test_long_clues_are_not_cut(self):
        made = Case(32, 32, [], [1024], [(ASK, None)])
        self.assertEqual(text.draw(made).split("\n")[1][:5], "|... ")
        self.assertEqual(parse(text.draw(made) + "\nclue 0 1024"), made)

    def test_forms(self):
        plain = parse(ROOMS)
        rows = ROOMS.strip().split("\n")
        for form in ("\n".join("    " + row for row in rows), "\n".join("\t" + row for row in rows), "\r\n".join(rows) + "\r\n", "\r".join(rows),
                     "\n".join(row + "  \t" for row in rows), "\n\n".join(rows), "  # a comment\n" + ROOMS,
                     ROOMS.replace(" 2 ", "2  ").replace(" 1 ", "  1"), ROOMS.replace(" ", "\u00a0"),
                     ROOMS.replace("-", "─").replace("|", "│").replace("+", "┼"), ROOMS.replace("-", "━").replace("|", "┃").replace("+", "╋"),
                     ROOMS.replace("-", "═").replace("|", "║").replace("+", "╬"),
                     "┌───┬───────┐\n│ 2   . │ 1 │\n├───┐   ├───┤\n│   │   o   │\n╰───┴───┴───╯".replace("┬───────┐", "────┬───┐")):
            self.assertEqual(parse(form), plain, form)
        with open(os.path.join(TOP, "README.md"), encoding="utf-8") as f:
            drawn = re.search(r"\n(    \+---(?:.*\n)(?:    [|+].*\n)+)    4  wall 0", f.read()).group(1)
        self.assertEqual(parse(drawn).calls, [(WALL, 0), (WALL, 6), (ASK, None)])

    def test_mistakes(self):
        for drawn, said in MISTAKES:
            with self.assertRaises(Mistake, msg=repr(drawn)) as raised:
                parse(drawn)
            self.assertEqual(str(raised.exception), said)

    def test_as_is(self):
        one = "+---+---+\n|   | %s |\n+---+---+\n"
        self.assertEqual(parse(one % "9", as_is=True).clues, [NO_CLUE, 9])
        self.assertEqual(parse(one % " " + "clue 3 1", as_is=True).clues, [NO_CLUE, NO_CLUE, NO_CLUE, 1])
        self.assertEqual(parse(one % "1" + "clue 1 0", as_is=True).clues, [NO_CLUE, 0])
        self.assertEqual(len(parse(one % " " + "clue 65535 1", as_is=True).clues), 65536)
        self.assertEqual(parse(one % " " + "wall 700", as_is=True).calls, [(WALL, 700)])
        self.assertEqual(parse(row_of(33), as_is=True).width, 33)
        self.assertEqual(parse(one % " " + "wall 0\nwall 0").calls, [(WALL, 0), (WALL, 0)])


def row_of(width, height=1):
    edge = "+" + "---+" * width
    return edge + ("\n" + "|   " * width + "|\n" + edge) * height


ONE = "+---+\n|   |\n+---+"
NO_EDGE, NO_ROW = "the board's edge is missing", "a row of borders is missing: one stands before and behind each row of cells"
WITHIN = "a cell is three characters wide, and a border one: the line ends within a cell"
MISTAKES = [
    ("", "there is no drawing: none of the lines starts with + or |"),
    ("wall 3", "there is no drawing: none of the lines starts with + or |"),
    ("+---+\n|   |\n", "line 2, column 1: " + NO_ROW),
    ("  +---+", "line 1, column 3: " + NO_ROW),
    ("\n+---+\n|   \n+---+", "line 3, column 5: " + NO_EDGE),
    ("+---+\n    |\n+---+", "line 2, column 5: the line starts here, and the first one in column 1"),
    ("+---+\n+---+\n+---+", "line 2, column 1: a row of cells belongs here, and it starts with |"),
    ("+---+\n|   x\n+---+", "line 2, column 5: " + NO_EDGE),
    ("+---+\n|   |\n+   +", "line 3, column 2: " + NO_EDGE),
    ("+--+\n|  |\n+--+", "line 1, column 5: " + WITHIN),
    ("+", "line 1, column 2: " + WITHIN),
    ("+---+\n  |   |\n+---+", "line 2, column 3: the line starts here, and the first one in column 1"),
    ("+---+\n|   |   |\n+---+", "line 2, column 6: there is something behind the board's edge"),
    ("+---+---+\n|   |   |\n+---a---+\n|   |   |\n+---+---+", "line 3, column 5: 'a' stands where borders meet"),
    ("+---+\n| a |\n+---+", "line 2, column 3: 'a' is no clue: a number, or blank"),
    ("+---+\n| ² |\n+---+", "line 2, column 3: '²' is no clue: a number, or blank"),
    ("+---+\n|-1 |\n+---+", "line 2, column 2: '-1' is no clue: a number, or blank"),
    ("\t+---+---+\n\t|   y   |\n\t+---+---+", "line 2, column 13: 'y' is no border: |, x, o, ? or a blank"),
    ("+---+\n|   |\n+ | +\n|   |\n+---+", "line 3, column 2: '|' is no border: ---, x, o, ? or a blank"),
    ("+---+---+\n| 1   2 |\n+---+---+", "line 2, column 7: room 0 has a clue already, 1 (the cell in row 1, column 2)"),
    ("+---+---+\n|   | 2 |\n+---+---+", "line 2, column 7: clue 2 is above the 1 cell of room 1 (the cell in row 1, column 2)"),
    (ONE + "\njump", "line 4, column 1: 'jump' is no call: wall, connect, undo, ask or clue"),
    (ONE + "\n  wall", "line 4, column 3: wall takes one number"),
    (ONE + "\nundo 3", "line 4, column 1: undo takes no number"),
    (ONE + "\nclue 3", "line 4, column 1: clue takes two numbers"),
    (ONE + "\nwall ²", "line 4, column 6: '²' is no number from 0 to 65535"),
    (ONE + "\nwall -1", "line 4, column 6: '-1' is no number from 0 to 65535"),
    (ONE + "\nwall 65536", "line 4, column 6: '65536' is no number from 0 to 65535"),
    (ONE + "\nclue 0 1234567890", "line 4, column 8: '1234567890' is no number from 0 to 65535"),
    (ONE + "\nwall 0", "line 4, column 6: there is no border 0: a board of one cell has none"),
    (row_of(3) + "\nask\nconnect 2", "line 5, column 9: there is no border 2: they are 0 to 1"),
    (ONE + "\nclue 1 1", "line 4, column 6: there is no room 1: they are 0 to 0"),
    (ONE + "\nclue 0 2", "line 4, column 8: clue 2 is above the 1 cell of room 0"),
    ("+---+\n| 1 |\n+---+\nclue 0 1", "line 4, column 8: room 0 has a clue already, 1"),
    (ONE + "\nask\n  " + ONE, "line 5, column 3: a second drawing starts here: a case has one, and calls behind it"),
    ("+---+\nask\n|   |\n+---+", "line 3, column 1: a second drawing starts here: a case has one, and calls behind it"),
    (row_of(33), "line 1, column 130: a board has at most 32 columns, and here are 33"),
    (row_of(1, 40), "line 66, column 1: a board has at most 32 rows, and here are 40"),
]
