"""The truth that the solver is held to: all full boards, judged by the four laws of docs/SPEC.md alone, in words of its own.

A full board has True for each Wall, by border.
"""
import functools

from cases.model import NO_CLUE

SIZES = [(h, w) for h in range(1, 19) for w in range(1, 19) if h * (w - 1) + (h - 1) * w <= 17]


def sides(height, width):
    """The cells on the two sides of each border, by the border's number (1.2)."""
    cells = [[(y, x) for x in range(width)] for y in range(height)]
    beside = [(row[x], row[x + 1]) for row in cells for x in range(width - 1)]
    return beside + [(cells[y][x], cells[y + 1][x]) for y in range(height - 1) for x in range(width)]


def joined(height, width, pairs):
    """The largest sets of cells that these pairs join: of each cell its set's name."""
    name = {(y, x): (y, x) for y in range(height) for x in range(width)}
    for one, other in pairs:
        if name[one] != name[other]:
            old, new = name[one], name[other]
            for cell in name:
                if name[cell] == old:
                    name[cell] = new
    return name


def shape(cells):
    """Equal for translates alone."""
    top, left = min(y for y, x in cells), min(x for y, x in cells)
    return frozenset((y - top, x - left) for y, x in cells)


def units_of(height, width, board):
    return joined(height, width, [pair for pair, wall in zip(sides(height, width), board) if not wall])


@functools.lru_cache(None)
def lawful(height, width):
    """All full boards that obey the second and the third law, with each cell's unit."""
    borders, kept = sides(height, width), []
    for number in range(2 ** len(borders)):
        board = [number >> border & 1 == 1 for border in range(len(borders))]
        unit = units_of(height, width, board)
        walls = [(unit[one], unit[other]) for (one, other), wall in zip(borders, board) if wall]
        if any(one == other for one, other in walls):
            continue  # second law: a Wall inside a unit
        shapes = {name: shape([cell for cell in unit if unit[cell] == name]) for name in set(unit.values())}
        partnered = {name for pair in walls if shapes[pair[0]] == shapes[pair[1]] for name in pair}
        if partnered == set(shapes):  # third law
            kept.append((board, unit))
    return kept


def right(puzzle):
    """All right boards over what is decided on a puzzle, as states, rising."""
    height, width = puzzle.height, puzzle.width
    borders, start, found = sides(height, width), puzzle.ledger(), []
    room = joined(height, width, [pair for border, pair in enumerate(borders) if border not in puzzle.given])
    names = sorted(set(room.values()), key=lambda name: min(cell for cell in room if room[cell] == name))
    for board, unit in lawful(height, width):
        if not all(board[wall] for wall in puzzle.given) or any(board[border] != wall for border, wall in start):
            continue  # first law, and what stands
        held = [len({unit[cell] for cell in room if room[cell] == name}) for name in names]
        if all(clue in (NO_CLUE, count) for clue, count in zip(puzzle.clues, held)):  # fourth law
            found.append([2 if wall else 1 for wall in board])
    return sorted(found)
