"""The eight images of a square: docs/SPEC.md, 14.1."""

UP, DOWN, LEFT, RIGHT = range(4)
STEPS = [(-1, 0), (1, 0), (0, -1), (0, 1)]  # by how many rows and columns the next cell is away, for each direction

# The images that a unit's partner may be, in the order in which they are tried: of puzzles of translates, and of images.
TRANSLATES, IMAGES = (0,), tuple(range(8))

TURNS = ["", "a quarter turn clockwise", "a half turn", "three quarter turns clockwise"]


def image(number, places):
    """An image of some places, each a row and a column; only how they lie to each other counts."""
    if number >= 4:
        places = [(y, -x) for y, x in places]
    for _ in range(number % 4):
        places = [(x, -y) for y, x in places]
    return places


def ways(number):
    """For each direction the one that it has in an image."""
    return [STEPS.index(step) for step in image(number, STEPS)]


def told(number):
    """What an image is, in words."""
    made = ["mirrored"] * (number >= 4) + [TURNS[number % 4]] * (number % 4 > 0)
    return "image %d: %s" % (number, ", then ".join(made or ["as it is"]))
