import random
import re
import unittest
import xml.etree.ElementTree as ElementTree

from cases import svg
from cases.drawing import parse
from cases.images import IMAGES
from cases.model import ASK, CONNECT, NO_CLUE, WALL, Case, Mistake, border_count
from cases.turns import Choice

from .support import PAPER_CASE, PAPER_LINES, ROOMS, random_case

SVG = "{http://www.w3.org/2000/svg}"


def tree_of(picture):
    return ElementTree.fromstring(picture)


def boards(tree):
    """The boards of a picture, without its legend and what is shared."""
    return [g for g in tree.iter(SVG + "g") if g.find(SVG + "rect") is not None and g.find(SVG + "rect").get("class") == "board"]


def marks(tree):
    """How many lines of each kind there are, over all boards."""
    found = {}
    for board in boards(tree):
        for path in board.iter(SVG + "path"):
            found[path.get("class")] = found.get(path.get("class"), 0) + path.get("d").count("M")
    return found


def labels(tree):
    """The names of units and of their partners on all boards."""
    return [part.text for board in boards(tree) for part in board if part.get("class") == "unit"]


def titles(tree):
    return [e.text for e in tree.iter(SVG + "text") if e.get("class") == "title"]


def contrast(one, other):
    """The ratio of two colours' luminances, as the Web's guidelines for accessible content count it."""
    def light(colour):
        parts = [int(colour[k:k + 2], 16) / 255 for k in (1, 3, 5)]
        parts = [p / 12.92 if p <= 0.03928 else ((p + 0.055) / 1.055) ** 2.4 for p in parts]
        return 0.2126 * parts[0] + 0.7152 * parts[1] + 0.0722 * parts[2]
    low, high = sorted((light(one), light(other)))
    return (high + 0.05) / (low + 0.05)


class Pictures(unittest.TestCase):
    def test_paper(self):
        tree = tree_of(svg.asks(PAPER_CASE, PAPER_LINES))
        self.assertEqual(marks(tree), {"about": 1, "gone": 1, "listed": 2, "connected": 1, "wall": 1})
        self.assertEqual(" ".join(titles(tree)), "3  ask  ->  shape: 1 2 unit of 1 cell at row 1, column 1 has no partner left: "
                         "a border is in the way in each of the 2 places for one")

    def test_a_shaded_unit(self):
        made = Case(1, 4, [], [NO_CLUE], [(CONNECT, 0), (CONNECT, 1), (WALL, 2), (ASK, None)])
        tree = tree_of(svg.asks(made, ["decided"] * 3 + ["shape: 0 2 5"]))
        self.assertEqual(marks(tree), {"about": 3, "gone shaded": 2, "listed": 3, "connected": 2, "wall": 1})

    def test_the_frame(self):
        tree = tree_of(svg.asks(PAPER_CASE, PAPER_LINES))
        size = (tree.get("width"), tree.get("height"))
        self.assertEqual(tree.get("viewBox"), "0 0 %s %s" % size)
        paper = next(e for e in tree.iter(SVG + "rect"))
        self.assertEqual((paper.get("class"), paper.get("width"), paper.get("height")), ("paper",) + size)
        said = [e.text for e in tree.iter(SVG + "text")]
        for words in svg.OF_FAULTS.values():
            self.assertIn(words, said)

    def test_a_clue_is_over_everything(self):
        made = parse(ROOMS)
        picture = svg.asks(made, ["decided", "clear"], numbers=True)
        tree = tree_of(picture)
        over = next(g for g in tree.iter(SVG + "g") if g.get("id") == "over")
        self.assertEqual([e.text for e in over][-2:], ["2", "1"])
        self.assertEqual([e.get("class") for e in over][-2:], ["clue", "clue"])
        self.assertEqual([board[-1].get("href") for board in boards(tree)], ["#over"])
        numbers = [e.text for e in over if e.get("class") == "number"]
        self.assertEqual(numbers, [str(n) for n in range(border_count(made))])

    def test_a_number_leaves_its_sign_to_be_seen(self):
        tree = tree_of(svg.asks(Case(2, 1, [], [NO_CLUE], [(CONNECT, 0), (ASK, None)]), None, numbers=True))
        (sign,) = [e.get("d") for e in boards(tree)[0] if e.get("class") == "connected"]
        top, high = map(int, re.fullmatch(r"M18 (\d+)v(\d+)", sign).groups())
        (foot,) = [int(e.get("y")) for e in tree.iter(SVG + "text") if e.get("class") == "number"]
        # a digit is 7 high, and has a rim of 2: above and below that the sign shows
        self.assertGreaterEqual(min(foot - 9 - top, top + high - (foot + 2)), 8)

    def test_a_long_list_is_broken(self):
        made = Case(32, 32, [], [1000], [(CONNECT, b) for b in range(25)] + [(ASK, None)])
        line = "room 0: " + " ".join(str(2 * b) for b in range(25))
        lines = ["decided"] * 25 + [line]
        for case, wanted in ((made, 1300), (Case(6, 6, [], [30], made.calls), 400)):
            tree = tree_of(svg.asks(case, lines))
            self.assertLess(int(tree.get("width")), wanted)
            self.assertIn(line, " ".join(titles(tree)))
            self.assertLess(max(len(title) for title in titles(tree)) * svg.LETTER, int(tree.get("width")))

    def test_partners(self):
        made, lines = Case(1, 2, [], [2], [(ASK, None), (WALL, 0), (ASK, None)]), ["clear", "decided", "clear"]
        tree = tree_of(svg.asks(made, lines, Choice(partners=True)))
        self.assertEqual(labels(tree), ["a", "b 0", "b", "a 0"])  # on the board that is full
        said = [e.text for e in tree.iter(SVG + "text")]
        for words in ("image 0: as it is", "the unit's image 5 is unit b"):
            self.assertIn(words, said)
        self.assertEqual(labels(tree_of(svg.asks(made, lines))), [])

    def test_a_legend_with_long_words_is_not_cut_off(self):
        signs = svg.of_images(IMAGES)
        tree = tree_of(svg.picture(Case(1, 1), [svg.Panel("a", {}, {})], signs))
        self.assertGreater(int(tree.get("width")), 44 + 6 * max(map(len, signs.values())))
        self.assertEqual(svg.sign_width(svg.OF_FAULTS), svg.SIGN)

    def test_too_many_boards(self):
        made = Case(32, 32, [], [NO_CLUE], [(ASK, None)] * 3000)
        with self.assertRaisesRegex(Mistake, "^3,000 boards are too many for one picture: choose fewer, by --steps, --faults or --cap$"):
            svg.asks(made, None)
        self.assertEqual(len(boards(tree_of(svg.asks(made, None, Choice([(5, 6), (2999, 4000)]))))), 4)
        self.assertEqual(len(boards(tree_of(svg.asks(made, None, Choice(faults=True))))), 1)

    def test_boards_without_an_ask_and_refused_ones(self):
        self.assertEqual(titles(tree_of(svg.asks(Case(1, 9, [], [NO_CLUE]), None))), ["1 by 9, 0 given walls, clues: -"])
        self.assertIn("the puzzle is refused 3", titles(tree_of(svg.asks(Case(1, 9, [99]), None)))[0])

    def test_random_pictures(self):
        rng = random.Random(4)
        for _ in range(30):
            made = random_case(rng)
            self.assertEqual(len(boards(tree_of(svg.asks(made, None)))), 1)  # clues of no room: refused
            made.walls, made.clues = [], [NO_CLUE]
            self.assertEqual(len(boards(tree_of(svg.asks(made, None)))), max(1, sum(kind == ASK for kind, _ in made.calls)))

    def test_each_border_is_drawn_as_it_stands(self):
        rng = random.Random(9)
        for _ in range(20):
            made = Case(rng.randint(1, 8), rng.randint(2, 8), [], [NO_CLUE])
            stand = {b: rng.randint(0, 1) for b in range(border_count(made)) if rng.random() < 0.6}
            made.calls = [(WALL if value else CONNECT, b) for b, value in stand.items()] + [(ASK, None)]
            found = marks(tree_of(svg.asks(made, None)))
            self.assertEqual((found.get("wall", 0), found.get("connected", 0)), (sum(stand.values()), len(stand) - sum(stand.values())))

    def test_contrasts(self):
        for colours in (svg.LIGHT, svg.DARK):
            for ground in ("paper", "board", "about"):
                self.assertGreater(contrast(colours["ink"], colours[ground]), 7)
            for ground in ("paper", "board"):
                self.assertGreater(contrast(colours["quiet"], colours[ground]), 4.5)
            for line in ("wall", "listed"):
                self.assertGreater(contrast(colours[line], colours["board"]), 3)
            self.assertGreater(contrast(colours["wall"], colours["paper"]), 4.5)
