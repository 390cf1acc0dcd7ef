"""Tables of the planner in two shapes: the words that its calls take, with five or six to a row, and a text that people read.

Nothing here is taken from the reference program, so that a comparison of the two says something about both. No table is turned
from one form into the other: a proved program does that.
"""
