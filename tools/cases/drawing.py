"""A case from a drawing in text; case.py's help says what a drawing is."""
import re

from .model import (ASK, CONNECT, LONGEST_SIDE, NAMES, NO_CLUE, WALL, Case, Mistake, below, border_missing, clue_too_large, place, right_of,
                    rooms)

KINDS = {name: kind for kind, name in NAMES.items()}
NUMBERS = {"wall": 1, "connect": 1, "clue": 2}  # how many numbers stand behind the word; none behind the others

# Box characters: light, heavy and double lines, and all the ways in which these meet. Dashed ones are none: they may mean no wall.
UPRIGHT, LEVEL = "│┃║╵╷╹╻╽╿", "─━═╴╶╸╺╼╾"
MEETING = [chr(code) for first, last in ((0x250c, 0x254b), (0x2552, 0x2570)) for code in range(first, last + 1)]
PLAIN = str.maketrans({**dict.fromkeys(UPRIGHT, "|"), **dict.fromkeys(LEVEL, "-"), **dict.fromkeys(MEETING, "+"), "\u00a0": " "})


def tidy(text):
    """The lines that say something, with their numbers, in plain characters, without tabs and blanks at the end."""
    lines = re.split("\r\n|\r|\n", text.translate(PLAIN))
    lines = [(n, line.expandtabs().rstrip()) for n, line in enumerate(lines, 1)]
    return [(n, line) for n, line in lines if line and not line.lstrip().startswith("#")]


class Sheet:
    """The lines of a board, cut into pieces: one in front of each cell and one for the cell itself, and one behind the last."""

    def __init__(self, lines):
        if not lines:
            raise Mistake("there is no drawing: none of the lines starts with + or |")
        self.lines = lines
        self.left = len(lines[0][1]) - len(lines[0][1].lstrip())
        self.wide = len(lines[0][1]) - self.left
        self.height, self.width = len(lines) // 2, self.wide // 4

    def mistake(self, words, row, at=0):
        return Mistake(words, self.lines[row][0], self.left + at + 1)

    def pieces(self, row):
        """The pieces of a row, each with its place: corners and borders to the right at 0, 4, 8 .., cells at 1, 5, 9 .."""
        line = self.lines[row][1][self.left:].ljust(self.wide)
        return [(at, line[at] if at % 4 == 0 else line[at:at + 3]) for x in range(self.width + 1) for at in (4 * x, 4 * x + 1) if at < self.wide]

    def check(self, as_is):
        """Refuses lines that make no board."""
        for row, (_, line) in enumerate(self.lines):
            start = len(line) - len(line.lstrip())
            if start != self.left:
                raise self.mistake("the line starts here, and the first one in column %d" % (self.left + 1), row, start - self.left)
            if len(line) > self.left + self.wide:
                raise self.mistake("there is something behind the board's edge", row, self.wide)
        if self.wide % 4 != 1 or self.wide < 5:
            raise self.mistake("a cell is three characters wide, and a border one: the line ends within a cell", 0, self.wide)
        if len(self.lines) % 2 == 0 or self.height == 0:
            raise self.mistake("a row of borders is missing: one stands before and behind each row of cells", len(self.lines) - 1)
        if not as_is and self.width > LONGEST_SIDE:
            raise self.mistake("a board has at most %d columns, and here are %d" % (LONGEST_SIDE, self.width), 0, 4 * LONGEST_SIDE + 1)
        if not as_is and self.height > LONGEST_SIDE:
            raise self.mistake("a board has at most %d rows, and here are %d" % (LONGEST_SIDE, self.height), 2 * LONGEST_SIDE + 1)

    def check_edges(self):
        """Refuses rows that don't come in turn, and gaps in the board's edge."""
        for row in range(len(self.lines)):
            for at, piece in self.pieces(row):
                level, corner = row % 2 == 0, at % 4 == 0
                if level and corner and piece not in "+-| .":
                    raise self.mistake("%r stands where borders meet" % piece, row, at)
                if level and not corner and row in (0, len(self.lines) - 1) and piece != "---":
                    raise self.mistake("the board's edge is missing", row, at)
                if not level and at == 0 and piece == "+":
                    raise self.mistake("a row of cells belongs here, and it starts with |", row, at)
                if not level and at in (0, self.wide - 1) and piece != "|":
                    raise self.mistake("the board's edge is missing", row, at)


class Reading:
    """What is read so far: the case, each clue's place, and what `as_is` lets pass."""

    def __init__(self, sheet, as_is):
        self.sheet, self.as_is = sheet, as_is
        self.case = Case(sheet.height, sheet.width)
        self.numbers = []

    def mark(self, row, at, piece, border):
        """A border as it is drawn."""
        letter, upright = piece.strip(), row % 2 == 1
        if letter == "|" if upright else set(letter) == {"-"}:
            self.case.walls.append(border)
        elif letter in ("x", "X"):
            self.case.calls.append((WALL, border))
        elif letter in ("o", "O"):
            self.case.calls.append((CONNECT, border))
        elif letter not in ("", "?"):
            raise self.sheet.mistake("%r is no border: %s, x, o, ? or a blank" % (letter, "|" if upright else "---"), row, at)

    def cells_row(self, row):
        y = row // 2
        for at, piece in self.sheet.pieces(row):
            x = at // 4
            if at % 4 == 0:
                if 0 < x < self.case.width:
                    self.mark(row, at, piece, right_of(self.case, y, x - 1))
                continue
            clue = piece.strip(" .")
            if clue and not decimal(clue):
                raise self.sheet.mistake("%r is no clue: a number, or blank" % clue, row, at + piece.index(clue[0]))
            if clue:
                self.numbers.append((y * self.case.width + x, int(clue), row, at + piece.index(clue[0])))

    def borders_row(self, row):
        for at, piece in self.sheet.pieces(row):
            if at % 4 == 1:
                self.mark(row, at, piece, below(self.case, row // 2 - 1, at // 4))

    def clues(self):
        """Gives the clues that are drawn to their rooms."""
        self.room = rooms(self.case)
        self.case.clues = [NO_CLUE] * (max(self.room) + 1)
        for cell, clue, row, at in self.numbers:
            wrong = self.clue(self.room[cell], clue)
            if wrong:
                raise self.sheet.mistake("%s (the cell in %s)" % (wrong, place(self.case, cell)), row, at)

    def clue(self, room, clue):
        """Sets a room's clue, and says what is wrong with it."""
        clues = self.case.clues
        if not self.as_is and room >= len(clues):
            return "there is no room %d: they are 0 to %d" % (room, len(clues) - 1)
        clues += [NO_CLUE] * (room + 1 - len(clues))
        wrong = "room %d has a clue already, %d" % (room, clues[room]) if clues[room] != NO_CLUE else clue_too_large(self.room, room, clue)
        clues[room] = clue
        return None if self.as_is else wrong

    def order(self, number, line):
        """A line behind the drawing: a call, or a clue."""
        words = [(m.start() + 1, m.group()) for m in re.finditer(r"\S+", line)]
        column, name = words[0]
        if name not in KINDS and name != "clue":
            raise Mistake("%r is no call: wall, connect, undo, ask or clue" % name, number, column)
        wanted = NUMBERS.get(name, 0)
        if len(words) != wanted + 1:
            raise Mistake("%s takes %s" % (name, ("no number", "one number", "two numbers")[wanted]), number, column)
        for at, word in words[1:]:
            if not decimal(word) or len(word) > 5 or int(word) > 65535:
                raise Mistake("%r is no number from 0 to 65535" % word, number, at)
        numbers = [int(word) for _, word in words[1:]]
        if name == "clue":
            wrong = self.clue(*numbers)
        else:
            wrong = None if self.as_is or not numbers else border_missing(self.case, numbers[0])
            self.case.calls.append((KINDS[name], numbers[0] if numbers else None))
        if wrong:
            raise Mistake(wrong, number, words[-1 if name == "clue" and numbers[0] <= max(self.room) else 1][0])


def decimal(word):
    """Whether a word is a number; others than 0 to 9 count as digits in Python."""
    return word.isascii() and word.isdecimal()


def parted(lines):
    """The lines of the board, which stand in one piece, and the others, which are calls."""
    drawn, orders = [], []
    for n, line in lines:
        column = len(line) - len(line.lstrip()) + 1
        if line[column - 1] not in "+|":
            orders.append((n, line))
        elif drawn and orders and orders[-1][0] > drawn[-1][0]:
            raise Mistake("a second drawing starts here: a case has one, and calls behind it", n, column)
        else:
            drawn.append((n, line))
    return drawn, orders


def parse(text, as_is=False):
    """The case of a drawing. With `as_is` it may be one that the program refuses."""
    drawn, orders = parted(tidy(text))
    sheet = Sheet(drawn)
    sheet.check(as_is)
    sheet.check_edges()
    reading = Reading(sheet, as_is)
    case = reading.case
    for row in range(1, len(drawn) - 1):
        (reading.cells_row if row % 2 else reading.borders_row)(row)
    case.walls.sort()
    case.calls.sort(key=lambda call: call[1])
    reading.clues()
    for n, line in orders:
        reading.order(n, line)
    if all(line.split()[0] == "clue" for _, line in orders):
        case.calls.append((ASK, None))
    return case
