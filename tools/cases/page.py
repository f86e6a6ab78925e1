"""A case as pages of HTML: a step for each call, with its answer, its board and why a fault is one. They need no script."""
import os
from html import escape
from urllib.parse import quote

from .model import NO_CLUE, Mistake, counted, refusal, sized
from .partners import images_on, meant
from .reasons import why
from .svg import DARK, GAP, LEFT, LIGHT, NARROWEST, OF_STEPS, STYLE, TOP, Drawer, Panel, labels_of, of_images, sign
from .text import refusal_said, spoken
from .turns import FAULT, REFUSED, turns

CELLS_ON_A_PAGE, STEPS_ON_A_PAGE, MOST_PAGES = 20000, 200, 400
LONG_LIST = 12
CALL_REFUSALS = {3: "there is no such border", 4: "the border is decided already", 5: "there is nothing to take back"}

COLOURS = """body { background: %(paper)s; color: %(ink)s } a { color: %(wall)s } .step { background: %(board)s; border-color: %(open)s }
.fault { border-color: %(listed)s } .quiet { color: %(quiet)s }"""
LAYOUT = """body { font: 15px/1.45 system-ui, sans-serif; margin: 1.2rem } h1 { font-size: 1.3rem; margin: 0 } h2 { font-size: 1rem; margin: 0 }
p { margin: .3rem 0; overflow-wrap: anywhere } nav, .legend { display: flex; flex-wrap: wrap; gap: .2rem 1.2rem; margin: .6rem 0; padding: 0 }
.legend li { list-style: none; display: flex; align-items: center; gap: .4rem }
.steps { display: grid; grid-template-columns: repeat(auto-fill, minmax(min(100%%, %dpx), 1fr)); gap: .8rem; padding: 0; margin: 0 }
.step { list-style: none; border: 1px solid; border-left-width: 6px; border-radius: 4px; padding: .6rem } .step:target { outline: 2px solid }
.step { overflow-x: auto } .step svg { max-width: %s; height: auto } .why { font-weight: 600 } .parts { position: absolute }
%s
@media (prefers-color-scheme: dark) {
%s
}
"""


def page_path(path, number):
    """PAGE.html, PAGE-2.html, PAGE-3.html .."""
    root, end = os.path.splitext(path)
    return path if number == 1 else "%s-%d%s" % (root, number, end)


class Book:
    """The pages of a case: its chosen steps, cut into as many pages as they take."""

    def __init__(self, case, lines, choice, numbers=False):
        self.case, self.lines, self.choice, self.drawer = case, lines, choice, Drawer(case, numbers)
        self.images = set()  # those that are meant so far
        self.refused = refusal(case)
        self.steps = [] if self.refused else [(t.number, t.kind) for t in turns(case, lines) if choice.takes(t)]
        self.each = max(1, min(STEPS_ON_A_PAGE, CELLS_ON_A_PAGE // (case.height * case.width)))
        self.count = max(1, -(-len(self.steps) // self.each))
        if self.count > MOST_PAGES:
            raise Mistake("%s make %s, more than %d: choose some by --steps or --faults" % (
                counted(len(self.steps), "step"), counted(self.count, "page"), MOST_PAGES))

    def pages(self, path):
        """The text of each page, in turn; `path` is that of the first."""
        at, made = 0, []
        shown = () if self.refused else (t for t in turns(self.case, self.lines) if self.choice.takes(t))
        for turn in shown:
            made.append(self.step(turn))
            if len(made) == self.each:
                yield self.page(path, at // self.each + 1, made)
                at, made = at + self.each, []
        if made or not at:
            yield self.page(path, at // self.each + 1, made)

    def page(self, path, number, made):
        part = self.steps[(number - 1) * self.each:number * self.each]
        said = refusal_said(self.case) if self.refused else steps_said(part, self.choice)
        wide = max(NARROWEST, self.drawer.wide + LEFT + 2 * GAP) + 30
        shrinks = "none" if self.drawer.numbers else "100%"  # a board in a narrow window; its numbers would be too small to read
        style = STYLE + LAYOUT % (wide, shrinks, COLOURS % LIGHT, COLOURS % DARK)
        if not made:  # the puzzle alone
            made = ['<li class="step">%s</li>' % self.board(Panel(said, {}, {}))]
        return "\n".join([
            '<!doctype html>', '<html lang="en">', "<head>", '<meta charset="utf-8">', '<meta name="viewport" content="width=device-width">',
            "<title>%s: %s</title>" % (sized(self.case), escape(said)), "<style>%s</style>" % style, "</head>", "<body>",
            "<header>", "<h1>%s</h1>" % self.heading(), "<p>%s</p>" % escape(said), self.links(path, number),
            fault_links(part), legend(self.images), "</header>",
            '<svg class="parts" width="0" height="0" aria-hidden="true">%s</svg>' % self.drawer.shared(),
            '<main><ol class="steps">', *made, "</ol></main>", self.links(path, number), "</body>", "</html>", ""])

    def heading(self):
        case = self.case
        clued = sum(clue != NO_CLUE for clue in case.clues)
        return "%s, %s, %s, %d with a clue" % (
            sized(case), counted(len(case.walls), "given wall"), counted(len(case.clues), "room"), clued)

    def links(self, path, number):
        """The way to the other pages."""
        if self.count == 1:
            return ""
        near = [("first page", 1), ("page before", number - 1), ("next page", number + 1), ("last page", self.count)]
        found = ['<a href="%s">%s</a>' % (escape(quote(os.path.basename(page_path(path, to)))), name)
                 for name, to in near if 1 <= to <= self.count and to != number]
        return '<nav aria-label="pages"><span>page %d of %d</span> %s</nav>' % (number, self.count, " ".join(found))

    def board(self, panel):
        drawer = self.drawer
        wide, high = drawer.wide + LEFT + GAP, drawer.high + TOP + GAP
        return '<svg viewBox="%d %d %d %d" width="%d" height="%d" role="img" aria-label="%s">%s</svg>' % (
            -LEFT, -TOP, wide, high, wide, high, escape(panel.title), drawer.board(panel))

    def step(self, turn):
        """One call: what it is, its answer, why, and the board behind it."""
        reason, partners = why(self.case, turn) if turn.kind == FAULT else None, meant(self.case, turn, self.choice)
        out = ["<h2>%d&ensp;%s</h2>" % (turn.number, spoken(turn.call))]
        if turn.kind == REFUSED:
            number = int(turn.line.split()[1])
            out.append("<p>%s: %s</p>" % (turn.line, CALL_REFUSALS.get(number, "docs/SPEC.md has the question")))
        elif turn.kind == FAULT:
            out += ["<p>a fault of %s</p>" % ("shape" if turn.room is None else "room %d" % turn.room),
                    '<p class="why">%s.</p>' % escape(reason.words[0].upper() + reason.words[1:]), listed_said(turn)]
        elif turn.line is not None:
            out.append("<p>%s</p>" % turn.line)
        if partners:
            out.append("<p>%s</p>" % "; ".join(partners.lines()))
            self.images |= images_on([partners])
        title = "the board behind step %d, %s%s" % (turn.number, spoken(turn.call), ": " + reason.words if reason else "")
        out.append(self.board(Panel(title, turn.standing, turn.listed, reason.cells if reason else (), turn.touched, labels_of(partners))))
        return '<li class="step%s" id="step-%d">%s</li>' % (" fault" if reason else "", turn.number, "\n".join(out))


def steps_said(part, choice):
    if not part:
        return "no %s" % ("fault" if choice.faults else "step")
    kind, first, last = "fault" if choice.faults else "step", part[0][0], part[-1][0]
    if len(part) == 1:
        return "%s %d" % (kind, first)
    if len(part) == last - first + 1:
        return "%ss %d to %d" % (kind, first, last)
    return "%ss %d and %d" % (kind, first, last) if len(part) == 2 else "%s, the first %d, the last %d" % (counted(len(part), kind), first, last)


def fault_links(part):
    """The way to the faults of a page that has other steps, too."""
    faults = [number for number, kind in part if kind == FAULT]
    if not faults or len(faults) == len(part):
        return ""
    return '<nav aria-label="faults"><span>faults on this page:</span> %s</nav>' % " ".join('<a href="#step-%d">%d</a>' % (n, n) for n in faults)


def listed_said(turn):
    """The listed borders in words; a long list is folded."""
    words = ", ".join("%s %d" % ("Wall" if value else "Connected", border) for border, value in sorted(turn.listed.items()))
    if len(turn.listed) > LONG_LIST:
        return '<details><summary>%d borders are listed</summary><p class="quiet">%s</p><p class="quiet">%s</p></details>' % (
            len(turn.listed), words, turn.line)
    return '<p class="quiet">listed: %s (%s)</p>' % (words or "none", turn.line)


def legend(images):
    signs = {**OF_STEPS, **of_images(images)}
    items = ('<li><svg width="36" height="24" aria-hidden="true">%s</svg>%s</li>' % (sign(kind), words) for kind, words in signs.items())
    return '<ul class="legend">%s</ul>' % "".join(items)
