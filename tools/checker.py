"""The checker's calls for the tools: package sendai of bindings/python."""
import os
import sys

from cases.images import IMAGES
from cases.model import ASK, UNDO, WALL

TOP = os.path.dirname(os.path.dirname(os.path.abspath(__file__)))
sys.path.insert(0, os.path.join(TOP, "bindings", "python"))
import sendai  # noqa: E402


def fresh(case):
    """The puzzle of a case, before its calls."""
    return sendai.Puzzle(case.height, case.width, case.walls, case.clues, images=case.images == IMAGES)


def called(puzzle, kind, border):
    """Makes a call of a case on a puzzle, and returns the line that the program has for it."""
    try:
        if kind == ASK:
            return asked(puzzle.ask())
        if kind == UNDO:
            puzzle.undo()
            return "undone"
        puzzle.decide(border, kind == WALL)
        return "decided"
    except sendai.Refused as e:
        return "refused %d" % e.number


def asked(fault):
    """The line of an ask."""
    if fault is None:
        return "clear"
    check = fault.check if fault.check == "shape" else "room %d" % fault.check
    return "".join([check + ":"] + [" %d" % entry for entry in sendai.hand_over(fault.list)])


def lines_of(case):
    """The lines that the program has for a case, here of a puzzle of either kind."""
    try:
        puzzle = fresh(case)
    except sendai.Refused as e:
        return ["refused %d" % e.number]
    return [called(puzzle, *call) for call in case.calls]


def puzzle_of(case):
    """The puzzle of a case, as all its calls leave it."""
    puzzle = fresh(case)
    for kind, border in case.calls:
        if kind != ASK:
            called(puzzle, kind, border)
    return puzzle
