import random
import unittest

from cases import url
from cases.drawing import parse
from cases.model import ASK, NO_CLUE, Case, Mistake, border_count, rooms
from cases.read import read_case

SITES = ("", "?", "p?", "https://puzz.link/p?", "https://pzprxs.vercel.app/p?", "http://pzv.jp/p.html?")

# Rooms as pzpr has them in a puzzle of the same form (its heyawake of 6 by 6), with the drawing that they make.
ELEVEN_ROOMS = "sendai/6/6/aa66aapv0fu0g2i3k"
ELEVEN_DRAWN = """
+---+---+---+---+---+---+
|       | 2     |       |
+---+---+   +   +---+---+
|       |       |       |
+---+---+---+---+   +   +
| 3         |   |       |
+   +   +   +   +---+---+
|           |   |       |
+---+---+---+---+---+---+
|       |       |       |
+   +   +   +   +   +   +
|       |       |       |
+---+---+---+---+---+---+
"""


def random_puzzle(rng):
    """A puzzle that is made: walls that part rooms or none, clues that fit."""
    made = Case(rng.randint(1, 32), rng.randint(1, 32), calls=[(ASK, None)])
    n = border_count(made)
    made.walls = sorted(rng.sample(range(n), rng.randint(0, n) if rng.random() < 0.7 else n // 9))
    room = rooms(made)
    made.clues = [NO_CLUE if rng.random() < 0.5 else rng.randint(0, room.count(k)) for k in range(max(room) + 1)]
    return made


class Urls(unittest.TestCase):
    def test_worked_by_hand(self):
        # 2 by 4, one wall after the second column: rows 010 010 make 01001 0...., that is 9 and 0; no wall below; rooms 0 and 1
        walls, across = [1, 4], "90"
        self.assertEqual(url.parse("sendai/4/2/" + across + "0" + "2g"), Case(2, 4, walls, [2, NO_CLUE], [(ASK, None)]))
        # 3 by 1: two borders, both below: 11... is o (24)
        self.assertEqual(url.parse("sendai/1/3/o1.0"), Case(3, 1, [0, 1], [1, NO_CLUE, 0], [(ASK, None)]))
        self.assertEqual(url.parse("sendai/1/1/g"), Case(1, 1, [], [NO_CLUE], [(ASK, None)]))
        whole = url.parse("sendai/32/32/" + "0" * (199 + 199) + "+400")
        self.assertEqual((whole.height, whole.width, whole.walls, whole.clues), (32, 32, [], [1024]))

    def test_rooms_of_pzpr(self):
        self.assertEqual(url.parse(ELEVEN_ROOMS), parse(ELEVEN_DRAWN))
        self.assertEqual(url.write(parse(ELEVEN_DRAWN)), url.SITE + ELEVEN_ROOMS)

    def test_sites(self):
        for site in SITES:
            for before, end in (("", ""), ("", "/"), (" ", "\n")):
                self.assertEqual(read_case(before + site + ELEVEN_ROOMS + end), parse(ELEVEN_DRAWN))

    def test_clues_of_all_lengths(self):
        for clue, written in ((0, "0"), (15, "f"), (16, "-10"), (255, "-ff"), (256, "+100"), (1024, "+400"), (NO_CLUE, "g")):
            made = Case(32, 32, [], [clue], [(ASK, None)])
            self.assertTrue(url.write(made).endswith("0" * 398 + written))
            self.assertEqual(url.parse(url.write(made)), made)
        for count, written in ((1, "g"), (19, "y"), (20, "z"), (21, "zg"), (32, "zr")):
            made = Case(1, count, range(count - 1), [NO_CLUE] * count, [(ASK, None)])
            self.assertTrue(url.write(made).endswith(written))
            self.assertEqual(url.parse(url.write(made)), made)

    def test_there_and_back(self):
        rng = random.Random(6)
        for _ in range(200):
            made = random_puzzle(rng)
            self.assertEqual(url.parse(url.write(made)), made)

    def test_a_wall_that_parts_no_rooms_is_kept(self):
        made = Case(2, 2, [0], [NO_CLUE], [(ASK, None)])
        self.assertEqual(url.parse(url.write(made)), made)

    def test_mistakes(self):
        for text, said in MISTAKES:
            with self.assertRaises(Mistake, msg=text) as raised:
                url.parse(text)
            self.assertEqual(str(raised.exception), said)

    def test_no_url_but_a_mistake_or_a_case(self):
        rng = random.Random(7)
        for _ in range(3000):
            text = "sendai/3/2/" + "".join(rng.choice("0123456789abcgruvwz-+./?²") for _ in range(rng.randint(0, 6)))
            try:
                made = url.parse(text)
            except Mistake:
                continue
            self.assertEqual(url.parse(url.write(made)), made)

    def test_as_is(self):
        self.assertEqual(url.parse("sendai/1/1/9", as_is=True).clues, [9])
        self.assertEqual(url.parse("sendai/33/1/" + "0" * 7 + "g", as_is=True).width, 33)

    def test_no_url_for_a_refused_puzzle(self):
        with self.assertRaisesRegex(Mistake, "^the puzzle is refused 8: "):
            url.write(Case(1, 2))


MISTAKES = [
    ("sendai/", "character 8: the number of columns, with a / behind it, is missing"),
    ("?sendai/3/x/", "character 11: the number of rows, with a / behind it, is missing"),
    ("sendai/3/1", "character 10: the number of rows, with a / behind it, is missing"),
    ("sendai/0/1/", "character 8: a board has 1 to 32 columns, and here are 0"),
    ("sendai/3/33/", "character 10: a board has 1 to 32 rows, and here are 33"),
    ("sendai/3/1/", "character 12: the URL ends within the borders"),
    ("sendai/3/1/w", "character 12: 'w' does not belong in the borders"),
    ("sendai/3/1/4g", "character 12: '4' has bits behind the last border"),
    ("sendai/3/1/0", "character 13: the URL ends within the clues"),
    ("sendai/3/1/0A", "character 13: 'A' does not belong in the clues"),
    ("sendai/3/1/0-1", "character 15: the URL ends within a clue"),
    ("sendai/3/1/0-1g", "character 15: 'g' does not belong in a clue"),
    ("sendai/3/1/04", "character 13: clue 4 is above the 3 cells of room 0"),
    ("sendai/3/1/0+400", "character 13: clue 1024 is above the 3 cells of room 0"),
    ("sendai/3/1/0h", "character 13: the clues go on behind those of 1 room"),
    ("sendai/3/1/01g", "character 14: there is something behind the clue of the last room"),
]
