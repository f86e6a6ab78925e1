"""What a search found, in words and drawings."""
from cases.answers import Answers, values
from cases.model import counted
from cases.text import beside, draw, heading

WHY = {"limit": "stopped at the limit", "seconds": "stopped after the time", "asks": "stopped after the asks", "signal": "interrupted"}


def verdict(found):
    """How many answers there are, as far as it is known."""
    count = len(found.answers)
    if found.stopped is None:
        return counted(count, "answer") + (": these are all" if count > 1 else ": it is the only one") if count else "no answer"
    known = "at least " + counted(count, "answer") if count else "no answer found yet"
    return "%s; %s" % (known, WHY[found.stopped])


def effort(found):
    return "%s, %s, %.1f seconds" % (counted(found.asks, "ask"), counted(found.faults, "fault"), found.seconds)


def differing(found):
    """The borders in which the answers differ."""
    return [border for border, states in enumerate(zip(*found.answers)) if len(set(states)) > 1]


def notes(found, differing, most):
    """What is to be known of the drawings."""
    out, elsewhere = [], "; others may differ elsewhere" if found.stopped else ""
    if differing:
        out.append("X and O: Walls and Connected borders in which these answers differ" + elsewhere)
    if len(found.answers) > most:
        out.append("drawn are the first {:,} of {:,} answers: --draw N for more".format(most, len(found.answers)))
    return out


def drawn(case, puzzle, found, most):
    """What stands, what the answers share, and the first answers, side by side."""
    differ = differing(found)
    # of all answers the first one is enough to draw what they share
    boards = [values(answer) for answer in found.answers[:max(1, most)]]
    drawings = Answers(case, values(puzzle.states()), boards, found.stopped is not None, differ).drawings()
    titles = {"in all answers": "in these answers"} if found.stopped else {}
    drawings = drawings[:len(drawings) - len(boards) + most]
    blocks = [[titles.get(title, title)] + draw(case, standing, marked).split("\n") for title, standing, marked in drawings]
    return "\n".join(beside(blocks) + notes(found, differ, most))


def report(case, puzzle, found, most=None):
    """With drawings of at most so many answers; None: without drawings."""
    head = [heading(case), verdict(found), effort(found)]
    return "\n".join(head if most is None else head + [drawn(case, puzzle, found, most)])
