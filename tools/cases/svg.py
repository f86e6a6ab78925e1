"""Boards as SVG pictures."""
import textwrap
from itertools import zip_longest
from xml.sax.saxutils import escape

from .images import IMAGES, image, told
from .model import ASK, Case, Mistake, clue_texts, counted, refusal, sides, sized
from .partners import images_on, meant
from .reasons import why
from .text import heading, refusal_said, titled
from .turns import FAULT, Choice, turns

CELL, LINK = 36, 9       # the side of a cell; how far the sign for Connected reaches into the two cells
NUMBERED_LINK = 14       # and how far where the border's number stands on its middle
LEFT, TOP, GAP = 30, 22, 12  # room for the numbers of rows and of columns, and around all
LETTER, LINE = 7.5, 17   # about how wide a letter is, and how high a line
SIGN, SIGN_LETTER = 220, 6.6  # how wide a sign is with its words, at least, and a letter of these
NARROWEST = 250          # a board with its title takes at least so much
MOST_CELLS = 100000      # a picture of more would be too large for a browser

LIGHT = dict(paper="#ffffff", board="#ffffff", ink="#1a1a1a", quiet="#5c5c5c", open="#a8a8a8", wall="#0a5aa8", listed="#d55e00", about="#ffe8a8")
DARK = dict(paper="#16181c", board="#202329", ink="#f2f2f2", quiet="#b4b8bf", open="#6d737c", wall="#6db8ff", listed="#ff9440", about="#5c4a10")
RULES = """.paper { fill: %(paper)s } .board { fill: %(board)s } .about { fill: %(about)s }
.edge, .given { stroke: %(ink)s } .open { stroke: %(open)s } .gone { stroke: %(board)s } .shaded { stroke: %(about)s }
.wall, .connected { stroke: %(wall)s } .listed, .differs { stroke: %(listed)s } .now { stroke: %(ink)s }
text { fill: %(ink)s } .label { fill: %(quiet)s } .clue, .number, .unit { stroke: %(board)s } .cell { fill: %(wall)s }"""
STYLE = """.edge, .given, .open, .gone, .wall, .connected, .listed, .differs, .now { fill: none }
.edge { stroke-width: 3 } .given { stroke-width: 5; stroke-linecap: square } .open { stroke-width: 1; stroke-dasharray: 3 3 }
.gone { stroke-width: 3 } .wall { stroke-width: 4; stroke-linecap: round } .connected { stroke-width: 4; stroke-linecap: round }
.listed { stroke-width: 11; stroke-linecap: round } .differs { stroke-width: 4; stroke-dasharray: 6 4 } .now { stroke-width: 1.5 }
text { font: 13px sans-serif } .label { font-size: 11px; text-anchor: middle }
.clue { font-size: 13px; font-weight: bold } .number { font-size: 10px; text-anchor: middle } .unit { font-size: 11px; text-anchor: end }
.clue, .number, .unit { paint-order: stroke; stroke-width: 3px; stroke-linejoin: round }
%s
@media (prefers-color-scheme: dark) {
%s
}
""" % (RULES % LIGHT, RULES % DARK)

SIGNS = {"given": "a given wall", "wall": "a Wall, decided", "connected": "Connected, decided", "open": "undecided"}
OF_FAULTS = {**SIGNS, "listed": "listed by the fault", "about": "the unit or room at fault"}
OF_STEPS = {**OF_FAULTS, "now": "the border of the call"}
OF_ANSWERS = {**SIGNS, "listed": "answers differ here", "differs": "not alike in all answers"}


# A unit whose eight images all look otherwise: its cells in row order, as seen from the middle one.
UNLIKE = [(-1, 0), (-1, 1), (0, -1), (0, 0), (1, 0)]


class Panel:
    """A board with its title: the borders that stand, those that are marked, the cells that are shaded, and for some cells words in it."""

    def __init__(self, title, standing, listed, cells=(), touched=None, labels=None):
        self.title, self.standing, self.listed, self.cells, self.touched, self.labels = title, standing, listed, cells, touched, labels or {}


class Drawer:
    """Draws the boards of a case. What they have in common stands in `shared`, once in a picture."""

    def __init__(self, case, numbers=False):
        self.case, self.numbers, self.clues, self.given = case, numbers, clue_texts(case), set(case.walls)
        self.wide, self.high = case.width * CELL, case.height * CELL
        self.sides, across = sides(case), case.height * (case.width - 1)
        self.spots = [(b % case.width * CELL, b // case.width * CELL, border < across) for border, (_, b) in enumerate(self.sides)]

    def side(self, border):
        """The line between the two cells of a border."""
        x, y, upright = self.spots[border]
        return "M%d %d%s%d" % (x, y, "v" if upright else "h", CELL)

    def link(self, border):
        """A short line across a border. One between two rows has the border's number on it, and shows above and below that."""
        x, y = self.middle(border)
        if self.spots[border][2]:
            return "M%d %dh%d" % (x - LINK, y, 2 * LINK)
        reach = NUMBERED_LINK if self.numbers else LINK
        return "M%d %dv%d" % (x, y - reach, 2 * reach)

    def square(self, cell):
        y, x = divmod(cell, self.case.width)
        return "M%d %dh%dv%dh-%dz" % (x * CELL, y * CELL, CELL, CELL, CELL)

    def middle(self, border):
        x, y, upright = self.spots[border]
        return (x, y + CELL // 2) if upright else (x + CELL // 2, y)

    def shared(self):
        """The parts that all boards of the picture have: what lies under their borders, and what lies over them."""
        case, grid = self.case, [path("open", (self.side(b) for b in range(len(self.spots)) if b not in self.given))]
        for x in range(case.width):
            grid.append('<text class="label" x="%d" y="-7">%d</text>' % (x * CELL + CELL // 2, x + 1))
        for y in range(case.height):
            grid.append('<text class="label" x="-15" y="%d">%d</text>' % (y * CELL + CELL // 2 + 4, y + 1))
        over = [path("given", (self.side(b) for b in case.walls if b < len(self.spots))),
                '<rect class="edge" width="%d" height="%d"/>' % (self.wide, self.high)]
        if self.numbers:
            for border, (_, _, upright) in enumerate(self.spots):
                x, y = self.middle(border)  # below the sign for Connected, where that lies across
                over.append('<text class="number" x="%d" y="%d">%d</text>' % (x, y + (12 if upright else 3), border))
        for (y, x), clue in self.clues.items():
            over.append('<text class="clue" x="%d" y="%d">%s</text>' % (x * CELL + 5, y * CELL + 15, escape(clue)))
        return '<defs><g id="grid">%s</g><g id="over">%s</g></defs>' % ("".join(grid), "".join(over))

    def board(self, panel):
        """A board, whose upper left corner has the coordinates 0 and 0."""
        standing, listed, shaded = panel.standing, panel.listed, set(panel.cells)
        walls = [b for b, value in standing.items() if value and b not in self.given and listed.get(b, 1) is not None]
        links = [b for b, value in standing.items() if not value and listed.get(b, 0) is not None]
        out = ['<rect class="board" width="%d" height="%d"/>' % (self.wide, self.high),
               path("about", (self.square(cell) for cell in panel.cells)),
               '<use href="#grid"/>', path("gone", (self.side(b) for b in links if self.sides[b][0] not in shaded)),
               path("gone shaded", (self.side(b) for b in links if self.sides[b][0] in shaded)),
               path("listed", (self.side(b) if value else self.link(b) for b, value in listed.items() if value is not None)),
               path("connected", (self.link(b) for b in links)), path("wall", (self.side(b) for b in walls)),
               path("differs", (self.side(b) for b, value in listed.items() if value is None))]
        if panel.touched is not None and panel.touched < len(self.spots):
            out.append('<circle class="now" cx="%d" cy="%d" r="8"/>' % self.middle(panel.touched))
        for (y, x), words in panel.labels.items():
            # beside a clue, and off the signs for Connected
            out += [unit_text(word, x * CELL + 32 - 7 * k, y * CELL + 13 + 12 * k) for k, word in enumerate(words)]
        return "".join(out) + '<use href="#over"/>'


def labels_of(partners):
    return partners.labels() if partners else None


def unit_text(word, x, y):
    return '<text class="unit" x="%d" y="%d">%s</text>' % (x, y, escape(word))


def path(kind, pieces):
    """One path for all lines of a kind; nothing where there are none."""
    drawn = "".join(pieces)
    return '<path class="%s" d="%s"/>' % (kind, drawn) if drawn else ""


def sign(kind):
    """A sample of a sign, 36 wide and 24 high: two cells with a border between them."""
    if kind in IMAGES:
        return path("cell", ("M%d %dh5v5h-5z" % (15 + 5 * x, 9 + 5 * y) for y, x in image(kind, UNLIKE)))
    cells = '<path class="open" d="M3 4h30v16h-30z"/>'
    if kind == "unit":
        return cells + unit_text("b 5", 27, 16)
    if kind == "about":
        return path("about", ["M3 4h30v16h-30z"]) + cells
    if kind == "now":
        return cells + '<circle class="now" cx="18" cy="12" r="8"/>'
    if kind == "connected":
        return cells + path("connected", ["M%d 12h%d" % (18 - LINK, 2 * LINK)])
    return cells + path(kind, ["M18 4v16"]) + (path("wall", ["M18 4v16"]) if kind == "listed" else "")


def lines_of(title, wide):
    """A title, broken into lines that fit a width."""
    return [line for part in title.split("\n") for line in textwrap.wrap(part, max(20, int(wide / LETTER)))]


def text_lines(lines, x, y):
    return "".join('<text class="title" x="%d" y="%d">%s</text>' % (x, y + LINE * (k + 1) - 4, escape(line)) for k, line in enumerate(lines))


def sign_width(signs):
    return max(SIGN, int(44 + SIGN_LETTER * max(map(len, signs.values()))))


def of_images(images):
    """The signs of partners, where some images are meant."""
    return {"unit": "the unit's image 5 is unit b", **{k: told(k) for k in sorted(images)}} if images else {}


def legend(signs, top, wide):
    """What the signs mean, in as many columns as fit, and how high that is."""
    each = sign_width(signs)
    columns, out = max(1, (wide - 2 * GAP) // each), []
    for k, (kind, words) in enumerate(signs.items()):
        x, y = GAP + k % columns * each, top + k // columns * 24
        out.append('<g transform="translate(%d %d)">%s<text x="44" y="16">%s</text></g>' % (x, y, sign(kind), escape(words)))
    return "".join(out), -(-len(signs) // columns) * 24


def check_size(case, boards):
    if boards * case.height * case.width > MOST_CELLS:
        raise Mistake("%s are too many for one picture: choose fewer, by --steps, --faults or --cap" % counted(boards, "board"))


def picture(case, panels, signs, numbers=False, widest=1000):
    """A picture of boards with their titles, side by side as far as they fit a width, at least one in a row, and a legend."""
    check_size(case, len(panels))
    drawer, out, top = Drawer(case, numbers), [], GAP
    wide = max(NARROWEST, drawer.wide + LEFT + 2 * GAP)
    columns = max(1, min(len(panels), widest // wide))
    for first in range(0, len(panels), columns):
        row = [(panel, lines_of(panel.title, wide - 2 * GAP)) for panel in panels[first:first + columns]]
        under = top + LINE * max(len(lines) for _, lines in row) + TOP
        for k, (panel, lines) in enumerate(row):
            out.append("<g>%s" % text_lines(lines, k * wide + GAP, top))
            out.append('<g role="img" aria-label="%s" transform="translate(%d %d)">%s</g></g>' % (
                escape(lines[0]), k * wide + LEFT + GAP, under, drawer.board(panel)))
        top = under + drawer.high + GAP + 4
    total = max(columns * wide, sign_width(signs) + 2 * GAP)
    drawn, high = legend(signs, top, total)
    head = '<svg xmlns="http://www.w3.org/2000/svg" width="%d" height="%d" viewBox="0 0 %d %d"><title>%s</title>' % (
        (total, top + high + GAP) * 2 + ("%s, %s" % (sized(case), counted(len(panels), "board")),))
    paper = '<rect class="paper" width="%d" height="%d"/>' % (total, top + high + GAP)
    return "\n".join([head, "<style>%s</style>" % STYLE, paper, drawer.shared()] + out + [drawn, "</svg>", ""])


def asks(case, lines, choice=Choice(), numbers=False):
    """A picture with the board of each chosen ask, or of the puzzle alone where there is none."""
    if refusal(case):
        return picture(case, [Panel(refusal_said(case), {}, {})], SIGNS, numbers)
    check_size(case, sum(turn.call[0] == ASK and choice.takes(turn) for turn in turns(case, lines)))
    panels, images = [], set()
    for turn in turns(case, lines):
        if turn.call[0] == ASK and choice.takes(turn):
            reason, partners = why(case, turn) if turn.kind == FAULT else None, meant(case, turn, choice)
            title = titled(turn) + ("\n" + reason.words if reason else "")
            panels.append(Panel(title, dict(turn.standing), turn.listed, reason.cells if reason else (), labels=labels_of(partners)))
            images |= images_on([partners])
    return picture(case, panels or [Panel(heading(case), {}, {})], {**OF_FAULTS, **of_images(images)}, numbers)


def answers(found, partners=()):
    """A picture of right boards, with `found.partners()` where they are to be drawn."""
    panels = [Panel(*drawing, labels=labels_of(on_it)) for drawing, on_it in zip_longest(found.drawings(), partners)]
    panels[0].title += ": " + found.told()
    return picture(found.case, panels, {**OF_ANSWERS, **of_images(images_on(partners))})


def eight_images():
    """A picture of the eight images of a unit; its cells are numbered, the first one 1."""
    case, panels = Case(3, 3), []
    for number in IMAGES:
        places = [(y + 1, x + 1) for y, x in image(number, UNLIKE)]
        cells = {y * 3 + x for y, x in places}
        standing = {border: 1 for border, (a, b) in enumerate(sides(case)) if (a in cells) != (b in cells)}
        labels = {place: (str(k),) for k, place in enumerate(places, 1)}
        panels.append(Panel(told(number), standing, {}, sorted(cells), labels=labels))
    return picture(case, panels, {"about": "the unit, and 1 its first cell"})
