"""Which image of which unit is meant as each unit's partner on a full board: the third law of docs/SPEC.md, 2.5 and 14.3, by pictures."""
from .images import image, told
from .model import border_count, groups, members, sides
from .turns import CLEAR


def shape(places):
    """Some places, moved to the corner, in row order."""
    top, left = min(y for y, _ in places), min(x for _, x in places)
    return sorted((y - top, x - left) for y, x in places)


class Partners:
    """The units of a full board by number, and for each unit the image and the number of its partner: the first of the kind's images, at its first
    place in row order, that is another unit and has a Wall in common with it. None is a unit without a partner."""

    def __init__(self, case, standing):
        unit = groups(case, lambda border: standing[border] == 0)
        self.cells = [[divmod(cell, case.width) for cell in cells] for cells in members(unit)]
        self.shapes, self.near = [shape(cells) for cells in self.cells], [set() for _ in self.cells]
        for a, b in sides(case):
            self.near[unit[a]].add(unit[b])
            self.near[unit[b]].add(unit[a])
        self.found = [self.partner(number, case.images) for number in range(len(self.cells))]

    def partner(self, number, images):
        for tried in images:
            turned = shape(image(tried, self.cells[number]))
            for other in sorted(self.near[number] - {number}):  # of the same shape, so in the order of their places
                if self.shapes[other] == turned:
                    return tried, other
        return None

    def names(self):
        """For each cell, by row and column, the name of its unit."""
        return {place: named(number) for number, cells in enumerate(self.cells) for place in cells}

    def lines(self):
        """Each unit's partner in words."""
        return ["%s: %s" % (named(number), "image %d is %s" % (found[0], named(found[1])) if found else "no partner")
                for number, found in enumerate(self.found)]

    def labels(self):
        """For each unit's first cell the unit's name, and its partner's with the image."""
        return {cells[0]: (named(number), "%s %d" % (named(found[1]), found[0]) if found else "-")
                for number, (cells, found) in enumerate(zip(self.cells, self.found))}


def named(number):
    """A unit's name: a to z, aa to zz, aaa .."""
    return (named(number // 26 - 1) if number >= 26 else "") + chr(ord("a") + number % 26)


def meant(case, turn, choice):
    """The partners on the board of an ask, where they are drawn: where it is clear and no border is undecided."""
    if choice.partners and turn.kind == CLEAR and len(turn.standing) == border_count(case):
        return Partners(case, turn.standing)
    return None


def images_on(boards):
    """The images that are meant on some boards, for which partners are given or, where none are drawn, None."""
    return {found[0] for partners in boards if partners for found in partners.found if found}


def said(images):
    """What some images are, a line for each."""
    return [told(number) for number in sorted(images)]
