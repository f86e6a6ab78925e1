"""Which image of which unit is meant: by hand, and on all full boards of up to 3 by 3 beside pictures of the units."""
import itertools
import unittest

from cases.drawing import parse
from cases.images import IMAGES, TRANSLATES
from cases.model import NO_CLUE, Case, border_count, groups, members, sides
from cases.partners import Partners, images_on, named, said
from cases.reasons import reason
from checker import sendai

from .support import WithCalls
from .test_images import pictures

SIZES = [(1, 1), (1, 2), (1, 4), (2, 1), (2, 2), (2, 3), (3, 2), (3, 3)]


def partners(states, height, width, images):
    """The partners on a full board: 1 Connected, 2 Wall, by border."""
    return Partners(Case(height, width, images=images), {border: int(state) - 1 for border, state in enumerate(states)})


def full_boards():
    """All full boards of the sizes, each with the states of its borders."""
    for height, width in SIZES:
        case = Case(height, width, [], [NO_CLUE])
        for states in itertools.product((1, 2), repeat=border_count(case)):
            yield case, states


def pictured(case, cells):
    """A unit as rows of letters: # for its cells, a dot for others, no more than it takes."""
    places = [divmod(cell, case.width) for cell in cells]
    rows, columns = ([place[k] for place in places] for k in (0, 1))
    return ["".join("#" if (y, x) in places else "." for x in range(min(columns), max(columns) + 1)) for y in range(min(rows), max(rows) + 1)]


def right(case, states):
    """Whether a full board obeys the second law and the third one of its kind, by pictures of its units."""
    unit = groups(case, lambda border: states[border] == 1)
    if any(states[border] == 2 and unit[a] == unit[b] for border, (a, b) in enumerate(sides(case))):
        return False
    drawn = [pictured(case, cells) for cells in members(unit)]
    near = {(unit[a], unit[b]) for pair in sides(case) for a, b in (pair, pair[::-1]) if unit[a] != unit[b]}
    return all(any((number, other) in near and drawn[other] in [pictures(drawn[number])[image] for image in case.images]
                   for other in range(len(drawn))) for number in range(len(drawn)))


class ByHand(unittest.TestCase):
    def test_two_cells(self):
        for images in (TRANSLATES, IMAGES):
            self.assertEqual(partners("2", 1, 2, images).found, [(0, 1), (0, 0)])
            self.assertEqual(partners("1", 1, 2, images).found, [None])
            self.assertEqual(partners("", 1, 1, images).found, [None])

    def test_one_is_the_other_turned(self):
        self.assertEqual(partners("1221121", 2, 3, IMAGES).found, [(2, 1), (2, 0)])
        self.assertEqual(partners("1221121", 2, 3, TRANSLATES).found, [None, None])

    def test_one_is_the_other_mirrored(self):
        states = "1121121212" + "122221"
        self.assertEqual(partners(states, 2, 6, IMAGES).found, [(4, 1), (4, 0), (0, 3), (0, 2)])
        self.assertEqual(partners(states, 2, 6, TRANSLATES).found, [None, None, (0, 3), (0, 2)])

    def test_the_first_image_and_the_first_place(self):
        # a domino that stands beside two that lie: no translate of it is there, and by a quarter turn it is the upper one first
        self.assertEqual(partners("2121" + "122", 2, 3, IMAGES).found, [(1, 1), (0, 2), (0, 1)])

    def test_a_wall_inside_a_unit_makes_it_no_partner_of_its_own(self):
        self.assertEqual(partners("1112", 2, 2, IMAGES).found, [None])

    def test_what_is_said(self):
        found = partners("1121121212" + "122221", 2, 6, TRANSLATES)
        self.assertEqual(found.lines(), ["a: no partner", "b: no partner", "c: image 0 is d", "d: image 0 is c"])
        self.assertEqual(found.labels(), {(0, 0): ("a", "-"), (0, 3): ("b", "-"), (1, 1): ("c", "d 0"), (1, 3): ("d", "c 0")})
        self.assertEqual("".join(name for _, name in sorted(found.names().items())), "aaabbb" + "accddb")
        self.assertEqual(images_on([None, found, partners("1221121", 2, 3, IMAGES)]), {0, 2})
        self.assertEqual(said({2, 0}), ["image 0: as it is", "image 2: a half turn"])

    def test_names(self):
        self.assertEqual([named(number) for number in (0, 25, 26, 27, 701, 702, 1023)], ["a", "z", "aa", "ab", "zz", "aaa", "amj"])
        self.assertEqual(len({named(number) for number in range(1024)}), 1024)


class ByTrial(unittest.TestCase):
    def test_all_full_boards(self):
        counts = {}
        for case, states in full_boards():
            for case.images in (TRANSLATES, IMAGES):
                standing = {border: state - 1 for border, state in enumerate(states)}
                found, wanted = reason(case, standing), right(case, states)
                self.assertEqual(found is None, wanted, (case, states))
                if found is None or found.words.startswith("unit"):  # there is no Wall inside a unit
                    self.assertEqual(all(Partners(case, standing).found), wanted, (case, states))
                counts[len(case.images)] = counts.get(len(case.images), 0) + wanted
        self.assertEqual(counts, {1: 40, 8: 96})


class BesideTheCalls(WithCalls):
    def test_all_full_boards(self):
        for height, width in SIZES:
            for images in (TRANSLATES, IMAGES):
                case = Case(height, width, [], [NO_CLUE], images=images)
                found = [tuple(map(int, board)) for board in sendai.Puzzle(height, width, images=images == IMAGES).right_boards().boards]
                tried = itertools.product((1, 2), repeat=border_count(case))
                self.assertEqual(found, [states for states in tried if right(case, states)])
