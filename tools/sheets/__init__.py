"""Field sheets in two forms: the text that a laboratory writes, and the words that the planner reads; and seasons, files of many.

Nothing here is taken from the reference program, so that a comparison of the two says something about both.
"""
