"""What a case is: a board's size, its given walls, its clues and the calls on it. docs/SPEC.md, 1.1 to 1.7, says what they mean."""
from .images import IMAGES, TRANSLATES

NO_CLUE = 65535
LONGEST_SIDE = 32
UNDO, CONNECT, WALL, ASK = range(4)
NAMES = {UNDO: "undo", CONNECT: "connect", WALL: "wall", ASK: "ask"}

# Why a puzzle is refused, by the number that the program prints.
REFUSALS = {
    1: "a side is not within 1 to 32",
    3: "a given wall does not exist",
    7: "the given walls don't rise",
    8: "there are not as many clues as rooms",
    9: "a clue is above its room's cells",
}


class Mistake(Exception):
    """What was given makes no case, or no picture; one line says why."""

    def __init__(self, words, line=None, column=None):
        place = "" if line is None else "line %d: " % line if column is None else "line %d, column %d: " % (line, column)
        super().__init__(place + words)

    def of(self, source):
        """The same mistake, with the name of what was read."""
        return type(self)("%s: %s" % (source, self))


class Unsound(Mistake):
    """A file that the program refuses with 11."""

    def of(self, source):
        return Mistake("%s: unsound: %s" % (source, self))


class Case:
    """`images` are those that a unit's partner may be: the puzzle's kind, which files, drawings and URLs don't have."""

    def __init__(self, height, width, walls=(), clues=(), calls=(), images=TRANSLATES):
        self.height, self.width, self.images = height, width, images
        self.walls, self.clues, self.calls = list(walls), list(clues), list(calls)

    def __eq__(self, other):
        return vars(self) == vars(other)

    def __repr__(self):
        return "Case(%r)" % vars(self)


def right_of(case, y, x):
    """The border between (y, x) and (y, x+1)."""
    return y * (case.width - 1) + x


def below(case, y, x):
    """The border between (y, x) and (y+1, x)."""
    return case.height * (case.width - 1) + y * case.width + x


def border_count(case):
    return case.height * (case.width - 1) + (case.height - 1) * case.width


def drawable(case):
    return 1 <= case.height <= LONGEST_SIDE and 1 <= case.width <= LONGEST_SIDE


def sides(case):
    """For each border, by its number, the cells on its two sides: left and right, or above and below."""
    across = [(y * case.width + x, y * case.width + x + 1) for y in range(case.height) for x in range(case.width - 1)]
    return across + [(cell, cell + case.width) for cell in range((case.height - 1) * case.width)]


def groups(case, joins):
    """Each cell's group: cells joined by the borders for which `joins` is true, numbered by first cell in row order."""
    near = [[] for _ in range(case.height * case.width)]
    for border, (a, b) in enumerate(sides(case)):
        if joins(border):
            near[a].append(b)
            near[b].append(a)
    group, count = [None] * len(near), 0
    for start in range(len(near)):
        if group[start] is None:
            todo, group[start] = [start], count
            count += 1
            while todo:
                for cell in near[todo.pop()]:
                    if group[cell] is None:
                        group[cell] = group[start]
                        todo.append(cell)
    return group


def members(group):
    """The cells of each group, in row order."""
    cells = [[] for _ in range(max(group) + 1)]
    for cell, number in enumerate(group):
        cells[number].append(cell)
    return cells


def rooms(case):
    """Each cell's room: cells joined when only given walls part them."""
    given = set(case.walls)
    return groups(case, lambda border: border not in given)


def counted(number, what):
    """So many of something. Counts have a comma before each three digits; numbers of borders, rooms, steps and lines have none."""
    return "{:,} {}{}".format(number, what, "" if number == 1 else "s")


def sized(case):
    """A case's size, and its kind where it is not the usual one."""
    return "%d by %d%s" % (case.height, case.width, ", of images" if case.images == IMAGES else "")


def place(case, cell):
    """A cell in words; rows and columns are counted from 1."""
    return "row %d, column %d" % (cell // case.width + 1, cell % case.width + 1)


def clue_texts(case):
    """The clue to write into each room's first cell."""
    texts, room = {}, rooms(case)
    for k, clue in enumerate(case.clues):
        if clue != NO_CLUE and k in room:
            texts[divmod(room.index(k), case.width)] = str(clue)
    return texts


def border_missing(case, border):
    """What is wrong with a border's number, or None."""
    count = border_count(case)
    if border < count:
        return None
    return "there is no border %d: %s" % (border, "they are 0 to %d" % (count - 1) if count else "a board of one cell has none")


def clue_too_large(room, number, clue):
    """What is wrong with the clue of a room, or None."""
    cells = room.count(number)
    if clue == NO_CLUE or clue <= cells:
        return None
    return "clue %d is above the %s of room %d" % (clue, counted(cells, "cell"), number)


def refusal(case):
    """The number by which the program refuses the puzzle of a case, or 0."""
    if not drawable(case):
        return 1
    if any(border >= border_count(case) for border in case.walls):
        return 3
    if any(a >= b for a, b in zip(case.walls, case.walls[1:])):
        return 7
    room = rooms(case)
    if len(case.clues) != max(room) + 1:
        return 8
    return 9 if any(clue_too_large(room, k, clue) for k, clue in enumerate(case.clues)) else 0
