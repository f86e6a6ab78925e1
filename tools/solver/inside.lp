#script (python)
from solver.inside import main
#end.
