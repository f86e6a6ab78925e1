"""Why a fault is one, in words: the checks of docs/SPEC.md, 4.3 to 4.15 and 14.2, made once more on the standing borders."""
from .images import DOWN, RIGHT, image, ways
from .model import NO_CLUE, below, counted, groups, members, place, right_of, rooms, sides


class Reason:
    """Why the standing borders can't all hold: one sentence, the cells that it is about, the borders that make it so, each with 1 for
    Wall and 0 for Connected, and the room; None is a fault of shape."""

    def __init__(self, words, cells, listed, room=None):
        self.words, self.cells, self.listed, self.room = words, sorted(cells), listed, room


class Board:
    """A case's board with its standing borders, its units and its potential units."""

    def __init__(self, case, standing):
        self.case, self.standing, self.sides = case, standing, sides(case)
        self.unit = groups(case, lambda border: standing.get(border) == 0)
        self.potential = groups(case, lambda border: standing.get(border) != 1)
        self.cells, self.known = members(self.potential), {}
        self.around = [self.borders_of(*divmod(cell, case.width)) for cell in range(case.height * case.width)]

    def borders_of(self, y, x):
        """The borders up, down, left and right of a cell; None is the board's end."""
        case = self.case
        return [below(case, y - 1, x) if y > 0 else None, below(case, y, x) if y + 1 < case.height else None,
                right_of(case, y, x - 1) if x > 0 else None, right_of(case, y, x) if x + 1 < case.width else None]

    def behind(self, cell, border):
        a, b = self.sides[border]
        return b if cell == a else a

    def state(self, border):
        return None if border is None else self.standing.get(border)

    def walls_of(self, cells):
        """The Walls at some cells, each with the cell and the one behind it."""
        return [(border, cell, self.behind(cell, border)) for cell in cells for border in self.around[cell] if self.state(border) == 1]

    def near(self, number):
        """The potential units that are adjacent to one, which is among them, and their cells, rows and columns."""
        if number not in self.known:
            units = {number} | {self.potential[other] for _, _, other in self.walls_of(self.cells[number])}
            cells = {cell for unit in units for cell in self.cells[unit]}
            self.known[number] = (units, cells) + spans(divmod(cell, self.case.width) for cell in cells)
        return self.known[number]


# A Wall inside a unit.

def path(board, start, target):
    """The Connected borders on the way from one cell to another, found as the checker finds them."""
    finder, queue = {start: None}, [start]
    for cell in queue:
        if cell == target:
            break
        for border in board.around[cell]:
            if board.state(border) == 0 and board.behind(cell, border) not in finder:
                finder[board.behind(cell, border)] = (cell, border)
                queue.append(board.behind(cell, border))
    way = []
    while finder[target]:
        target, border = finder[target]
        way.append(border)
    return way


def inner_wall(board):
    """The first Wall with one unit on both sides."""
    for cell, around in enumerate(board.around):
        for border in (around[DOWN], around[RIGHT]):
            if board.state(border) == 1 and board.unit[cell] == board.unit[board.behind(cell, border)]:
                other = board.behind(cell, border)
                unit = [c for c, number in enumerate(board.unit) if number == board.unit[cell]]
                words = "Wall %d lies inside a unit of %s: Connected borders join %s and %s, on its two sides" % (
                    border, counted(len(unit), "cell"), place(board.case, cell), place(board.case, other))
                return Reason(words, unit, {**dict.fromkeys(path(board, cell, other), 0), border: 1})
    return None


# A unit without a partner.

def spans(places):
    """The first and the last row of some places, and the first and the last column."""
    rows, columns = zip(*places)
    return (min(rows), max(rows)), (min(columns), max(columns))


def shifts(own, near, side):
    """By how much a span on a line of so many places may be moved and still be on it, in reach of a near one."""
    return range(max(-own[0], near[0] - own[1]), min(side - 1 - own[1], near[1] - own[0]) + 1)


class Trial:
    """A unit, and the places that an image of it may take."""

    def __init__(self, board, cells):
        self.board, self.cells, self.own = board, cells, set(cells)
        self.near, self.reach, *self.spans = board.near(board.potential[cells[0]])
        self.inner = [(c, d) for c in cells for d in (DOWN, RIGHT)
                      if board.around[c][d] is not None and board.behind(c, board.around[c][d]) in self.own]
        self.edges = [(c, d) for c in cells for d in range(4) if board.around[c][d] is None or board.state(board.around[c][d]) == 1]

    def offsets(self):
        """How an image may lie: on the board, off the unit, with a cell in a potential unit that is near. Each cell's place, and each direction's."""
        case = self.board.case
        for number in case.images:
            turned = image(number, [divmod(cell, case.width) for cell in self.cells])
            downs, rights = map(shifts, spans(turned), self.spans, (case.height, case.width))
            for down in downs:
                for right in rights:
                    landed = [(y + down) * case.width + x + right for y, x in turned]
                    if self.own.isdisjoint(landed) and not self.reach.isdisjoint(landed):
                        yield dict(zip(self.cells, landed)), ways(number)

    def barred(self, landed, turned):
        """The border that is in the way of an image, or None."""
        for kind, places in ((1, self.inner), (0, self.edges)):
            for cell, direction in places:
                border = self.board.around[landed[cell]][turned[direction]]
                if self.board.state(border) == kind:
                    return border
        return None

    def bars(self):
        """For each offset the image's cells and the border in its way; None where there is an offset without one."""
        found = []
        for landed, turned in self.offsets():
            border = self.barred(landed, turned)
            if border is None:
                return None
            found.append((frozenset(landed.values()), border))
        return found


def lone_unit(board):
    """The first unit that can have no partner any more."""
    for cells in members(board.unit):
        trial = Trial(board, cells)
        bars = trial.bars()
        if bars is None:
            continue
        listed = {border: board.state(border) for _, border in bars}
        listed.update((b, board.state(b)) for c in cells for b in board.around[c] if board.state(b) is not None)
        for number in trial.near:
            listed.update((border, 1) for border, _, other in board.walls_of(board.cells[number]) if board.potential[other] != number)
        count = len({landed for landed, _ in bars})
        why = "there is no room for one that it can touch" if not bars else "a border is in the way " + (
            "in the one place" if count == 1 else "in each of the %s" % counted(count, "place")) + " for one"
        words = "unit of %s at %s has no partner left: %s" % (counted(len(cells), "cell"), place(board.case, cells[0]), why)
        return Reason(words, cells, listed)
    return None


# A room with the wrong number of units.

def wrong_room(board):
    """The first room with a clue that holds too few units at most, or too many at least."""
    room = rooms(board.case)
    for number, cells in enumerate(members(room)):
        clue = board.case.clues[number]
        if clue == NO_CLUE:
            continue
        most, fewest = len({board.unit[c] for c in cells}), len({board.potential[c] for c in cells})
        if most >= clue >= fewest:
            continue
        value, bound = (0, "at most {:,}".format(most)) if most < clue else (1, "at least {:,}".format(fewest))
        words = "room %d wants %s and has %s" % (number, counted(clue, "unit"), bound)
        inside = [b for b, (a, c) in enumerate(board.sides) if room[a] == room[c] == number]
        given = set(board.case.walls)
        return Reason(words, cells, {b: value for b in inside if board.state(b) == value and b not in given}, number)
    return None


def reason(case, standing):
    """Why the standing borders can't all hold, or None where an ask of them is clear."""
    board = Board(case, standing)
    return inner_wall(board) or lone_unit(board) or wrong_room(board)


def why(case, turn):
    """Why the fault of a turn is one."""
    found = reason(case, turn.standing)
    if found and (found.room, found.listed) == (turn.room, turn.listed):
        return found
    return Reason("no reason is found: by docs/SPEC.md this ask has another answer", (), {})
