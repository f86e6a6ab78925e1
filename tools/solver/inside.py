"""Runs in clingo: takes puzzles from standard input, a line of JSON each, and writes what it finds to standard output, in lines of JSON.

A job has `height`, `width`, `given`, `clues`; `start`, pairs of a border and whether it is a Wall, which all answers extend; `limit`, how
many answers are enough (0: all); and perhaps `seconds`, `asks` and `trace`. Told is {"answer": ..} for each answer, a string with a digit a
border (1 Connected, 2 Wall), {"asks": .., "faults": ..} now and then, and last {"stopped": .., "asks": .., "faults": ..}, where stopped is
null if every answer was told, else "limit", "seconds", "asks" or "signal"; or {"unwritten": ..}, the error's number and words, where the
trace can't be written.
"""
import json
import signal
import sys
import time

import clingo
from checker import sendai
from solver.propagator import Propagator
from solver.trace import NoTrace, Trace

OPTIONS = ["--parallel-mode=1"]
EVERY = 0.25  # seconds between two lines of progress


def program(job):
    """Each border an atom, with what holds from the start as facts."""
    borders = job["height"] * (job["width"] - 1) + (job["height"] - 1) * job["width"]
    lines = ["{ wall(0..%d) }." % (borders - 1)] if borders else []
    lines += ["wall(%d)." % border for border in job["given"]]
    lines += ["wall(%d)." % border if wall else ":- wall(%d)." % border for border, wall in job["start"]]
    return "\n".join(lines)


def tell(**what):
    print(json.dumps(what), flush=True)


class Search:
    """One puzzle."""

    signalled = False

    def __init__(self, job):
        self.job, self.stopped = job, None
        self.puzzle = sendai.Puzzle(job["height"], job["width"], job["given"], job["clues"])
        self.control = clingo.Control(OPTIONS)
        self.control.configuration.solve.models = job["limit"]
        self.next = time.monotonic() + EVERY
        self.end = time.monotonic() + job.get("seconds", float("inf"))

    def asked(self, propagator):
        """Stops where a bound is met, and tells how far it is."""
        now = time.monotonic()
        if Search.signalled or now >= self.end or propagator.asks >= self.job.get("asks", float("inf")):
            self.stopped = "signal" if Search.signalled else "seconds" if now >= self.end else "asks"
            self.control.interrupt()
        if propagator.trace.failure:
            self.control.interrupt()
        if now >= self.next:
            self.next = now + EVERY
            tell(asks=propagator.asks, faults=propagator.faults)

    def answer(self, model):
        walls = {symbol.arguments[0].number for symbol in model.symbols(atoms=True)}
        tell(answer="".join("2" if border in walls else "1" for border in range(self.puzzle.borders)))

    def run(self):
        trace = Trace(self.job["trace"], self.puzzle) if "trace" in self.job else NoTrace()
        propagator = Propagator(self.puzzle, trace, self.asked)
        try:
            self.control.add("base", [], program(self.job))
            self.control.ground([("base", [])])
            self.control.register_propagator(propagator)
            ended = self.control.solve(on_model=self.answer).exhausted
        finally:
            trace.close()
        if trace.failure:
            tell(unwritten=[trace.failure.errno, trace.failure.strerror])
        else:
            tell(stopped=None if ended else self.stopped or "limit", asks=propagator.asks, faults=propagator.faults)


def stop(_signal, _frame):
    Search.signalled = True


def main(_control):
    signal.signal(signal.SIGTERM, stop)
    for line in sys.stdin:
        Search(json.loads(line)).run()
