"""The eight images of a square, by turning pictures in text."""
import os
import unittest
import xml.etree.ElementTree as ElementTree

from cases import svg
from cases.images import DOWN, IMAGES, LEFT, RIGHT, STEPS, UP, image, told, ways
from cases.read import read_bytes

from .support import TOP, InFolder, run
from .test_svg import boards

PICTURE = ["abc", "def"]


def clockwise(rows):
    return ["".join(column) for column in zip(*reversed(rows))]


def pictures(rows):
    """The eight images of a picture, which is rows of letters."""
    found = []
    for shown in (rows, [row[::-1] for row in rows]):
        for _ in range(4):
            found.append(shown)
            shown = clockwise(shown)
    return found


def spots(rows):
    """Where each letter of a picture stands."""
    return {letter: (y, x) for y, row in enumerate(rows) for x, letter in enumerate(row)}


class Turned(unittest.TestCase):
    def test_pictures(self):
        self.assertEqual(pictures(PICTURE), [["abc", "def"], ["da", "eb", "fc"], ["fed", "cba"], ["cf", "be", "ad"],
                                             ["cba", "fed"], ["fc", "eb", "da"], ["def", "abc"], ["ad", "be", "cf"]])

    def test_places(self):
        before = spots(PICTURE)
        for number, shown in enumerate(pictures(PICTURE)):
            places, after = image(number, list(before.values())), spots(shown)
            y, x = places[0]
            moved = [(v - y + after["a"][0], u - x + after["a"][1]) for v, u in places]
            self.assertEqual(dict(zip(before, moved)), after, number)

    def test_directions(self):
        around = {UP: "b", LEFT: "d", RIGHT: "f", DOWN: "h"}
        before = spots(["abc", "def", "ghi"])
        self.assertEqual([(before[letter][0] - 1, before[letter][1] - 1) for _, letter in sorted(around.items())], STEPS)
        for number, shown in enumerate(pictures(["abc", "def", "ghi"])):
            after = spots(shown)
            for direction, letter in around.items():
                y, x = STEPS[ways(number)[direction]]
                self.assertEqual(after[letter], (1 + y, 1 + x), (number, direction))

    def test_words(self):
        self.assertEqual([told(number).split(": ") for number in IMAGES], [["image %d" % k, words] for k, words in enumerate([
            "as it is", "a quarter turn clockwise", "a half turn", "three quarter turns clockwise",
            "mirrored", "mirrored, then a quarter turn clockwise", "mirrored, then a half turn", "mirrored, then three quarter turns clockwise"])])


class Drawn(InFolder):
    def test_the_picture(self):
        """docs/pictures/images.svg is what the command draws today: the eight images of one unit, which all look otherwise."""
        self.assertEqual(run("images", self.path), (0, "", ""))
        self.assertEqual(read_bytes(self.path), read_bytes(os.path.join(TOP, "docs", "pictures", "images.svg")))
        self.assertEqual(run("images")[1].encode(), read_bytes(self.path))
        drawn = boards(ElementTree.parse(self.path).getroot())
        self.assertEqual(len({[part.get("d") for part in board if part.get("class") == "about"][0] for board in drawn}), 8)
        self.assertEqual([[part.text for part in board if part.get("class") == "unit"] for board in drawn], [list("12345")] * 8)

    def test_a_sign_for_each(self):
        self.assertEqual(len({svg.sign(number) for number in IMAGES}), 8)
