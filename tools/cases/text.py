"""Boards as text, in the form that drawing.py reads."""
from itertools import zip_longest

from .model import ASK, NAMES, NO_CLUE, REFUSALS, below, clue_texts, counted, drawable, refusal, right_of, sized
from .partners import images_on, meant, said
from .turns import FAULT, Choice, turns


def letters(case, standing, listed):
    """The letter of each border that has one: a listed border's in capitals, ? for one that is marked without a value."""
    drawn = {border: "x" if value else "o" for border, value in standing.items()}
    drawn.update(dict.fromkeys(case.walls, "|"))
    drawn.update((border, {None: "?", 0: "O", 1: "X"}[value]) for border, value in listed.items())
    return drawn


def draw(case, standing=None, listed=None, clues=None):
    """A board; `clues` are clue_texts of the case, for who draws it often, or other words for its cells."""
    drawn = letters(case, standing or {}, listed or {})
    clues = clue_texts(case) if clues is None else clues
    edge = "+" + "---+" * case.width
    out = [edge]
    for y in range(case.height):
        row = "|"
        for x in range(case.width):
            clue = clues.get((y, x), "")
            row += clue.center(3) if len(clue) <= 3 else "..."
            row += drawn.get(right_of(case, y, x), " ") if x + 1 < case.width else "|"
        out.append(row)
        if y + 1 < case.height:
            under = [drawn.get(below(case, y, x), " ") for x in range(case.width)]
            out.append("+" + "".join(("---" if c == "|" else " %s " % c) + "+" for c in under))
    return "\n".join(out + [edge])


def with_partners(case, standing, listed, partners=None, clues=None):
    """A board; where there are partners, each cell has its unit's name instead of clues, and a line for each unit is behind it."""
    if partners is None:
        return [draw(case, standing, listed, clues)]
    return [draw(case, standing, listed, partners.names())] + partners.lines()


def spoken(call):
    kind, border = call
    return NAMES[kind] if border is None else "%s %d" % (NAMES[kind], border)


def heading(case):
    clues = " ".join("-" if c == NO_CLUE else str(c) for c in case.clues) or "none"
    return "%s, %s, clues: %s" % (sized(case), counted(len(case.walls), "given wall"), clues)


def report(case, lines, choice=Choice(), explain=None):
    """The case as text, part by part: its board, then each call with its answer, and the board of each ask.

    `explain` gives the reason for a case and a turn with a fault.
    """
    yield heading(case)
    if not drawable(case):
        yield "no such board is drawn: " + refusal_said(case)
        return
    clues, images = clue_texts(case), set()
    yield draw(case, clues=clues)
    if refusal(case):
        yield refusal_said(case)
        return
    for turn in turns(case, lines):
        if choice.takes(turn):
            yield titled(turn)
            if explain and turn.kind == FAULT:
                yield explain(case, turn).words
            if turn.call[0] == ASK:
                partners = meant(case, turn, choice)
                yield from with_partners(case, turn.standing, turn.listed, partners, clues)
                images |= images_on([partners])
    yield from said(images)


def refusal_said(case):
    return "the puzzle is refused %d: %s" % (refusal(case), REFUSALS[refusal(case)])


def titled(turn):
    return "%d  %s%s" % (turn.number, spoken(turn.call), "" if turn.line is None else "  ->  " + turn.line)


def beside(blocks, widest=100):
    """Blocks of lines, side by side as far as they fit a width, at least one in a row."""
    wide = max(len(line) for block in blocks for line in block)
    columns = max(1, (widest + 3) // (wide + 3))
    rows = [zip_longest(*blocks[i:i + columns], fillvalue="") for i in range(0, len(blocks), columns)]
    return [(" " * 3).join(line.ljust(wide) for line in lines).rstrip() for row in rows for lines in row]
