#!/usr/bin/env python3
"""Solves a Sendai puzzle with clingo, a clause learner. The proved checker looks at each step, and none of its lists rules out an answer.

    solve.py PUZZLE [options]

PUZZLE is a case file, a drawing in text or a puzzle's URL, as for case.py; '-' is standard input. What the case's calls leave decided is a
start, which the answers extend.

It says whether there is no answer, one, or several, and draws them, with X and O for the Walls and the Connected borders in which they
differ. By default it stops at two answers, since that tells whether there is just one. On a terminal it shows how far it is. Ctrl-C ends it
with what was found until then.

Status: 0 where the search ended or met its limit of answers; 1 where it was stopped before (--seconds, --asks); 2 for a wrong use, a puzzle
that is refused, or an output that can't be written; 3 where clingo or the checker's library is missing or failed; 130 after Ctrl-C.

Needed are clingo with Python inside (Debian's package gringo; tried with 5.4.1) and the checker's library, which bindings/python finds.
"""
import argparse
import json
import os
import sys

from cases.read import read_case
from checker import puzzle_of, sendai
from command import Parser, finished, natural
from solver.report import effort, report, verdict
from solver.search import Bounds, NoSolver, Solver

EARLY = {"seconds": 1, "asks": 1, "signal": 130}


def duration(text):
    try:
        seconds = float(text)
    except ValueError:
        seconds = -1
    if not 0 <= seconds < float("inf"):
        raise argparse.ArgumentTypeError("%r is no number of seconds" % text)
    return seconds


def at_least_one(word):
    if natural(word) == 0:
        raise argparse.ArgumentTypeError("it is at least 1")
    return int(word)


def arguments(words):
    parser = Parser(prog="solve.py", description=__doc__, formatter_class=argparse.RawDescriptionHelpFormatter)
    parser.add_argument("puzzle", metavar="PUZZLE", help="a case file, a drawing or a URL; '-': standard input")
    parser.add_argument("--limit", type=natural, default=2, metavar="N", help="stop at so many answers (2); 0: find all")
    parser.add_argument("--all", dest="limit", action="store_const", const=0, help="find all answers: --limit 0")
    parser.add_argument("--seconds", type=duration, metavar="S", help="stop after so many seconds")
    parser.add_argument("--asks", type=at_least_one, metavar="N", help="stop after so many asks, at least 1")
    parser.add_argument("--trace", metavar="FILE", help="write every call to FILE, in the form that tools/solver/trace.py describes")
    parser.add_argument("--json", action="store_true", help="print answers (1 Connected, 2 Wall, by border) and counts as one JSON object")
    parser.add_argument("--draw", type=natural, default=100, metavar="N", help="draw at most so many answers (100)")
    parser.add_argument("--quiet", action="store_true", help="draw nothing, and show no progress")
    parser.add_argument("--library", metavar="PATH", help="the archive with the checker's calls, or a shared library of it")
    return parser.parse_args(words)


def shown(found):
    """The line of progress, which the next one is written over."""
    sys.stderr.write("\r\x1b[K{}, {:,} found".format(effort(found), len(found.answers)))
    sys.stderr.flush()


def solved(puzzle, args):
    bounds = Bounds(args.limit, args.seconds, args.asks, args.trace and os.path.abspath(args.trace))
    watched = sys.stderr.isatty() and not args.quiet
    with Solver(library=args.library) as solver:
        found = solver.solve(puzzle, bounds, shown if watched else lambda found: None)
    if watched:
        sys.stderr.write("\r\x1b[K")
    return found


def run(args):
    """The status that a search ends with."""
    sendai.load(args.library)
    case = read_case(args.puzzle)
    puzzle = puzzle_of(case)
    if args.trace:
        # that it can be written is known before the search
        open(args.trace, "wb").close()
    found = solved(puzzle, args)
    if args.json:
        print(json.dumps({"told": verdict(found), **vars(found), "answers": [list(answer) for answer in found.answers]}))
    else:
        print(report(case, puzzle, found, None if args.quiet else args.draw))
    return EARLY.get(found.stopped, 0)


def main(words):
    """Acts on the words of a command, and returns the exit status; one line says what is wrong."""
    return finished("solve.py", lambda: run(arguments(words)), (NoSolver, sendai.NoLibrary))


if __name__ == "__main__":
    sys.exit(main(sys.argv[1:]))
