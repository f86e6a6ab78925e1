"""A Sendai solver: clingo, a clause learner that no one here wrote, with the proved checker for its propagator.

search         starts clingo and puts puzzles to it
inside.lp      what clingo is started on
inside         runs in clingo: takes a puzzle, solves it, tells what it finds
propagator     decides, asks and undoes on a puzzle as clingo goes; a fault becomes a nogood
trace          writes the calls of a propagator to a file
report         what was found, in words and drawings
"""
