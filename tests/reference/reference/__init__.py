"""The planner of document 01 in plain Python, with the requests of document 02, for comparison word for word.

A public call takes lists of words or bytes and changes none of them: its answer has the final content of every
lent slice beside the returned fields.
"""

from .certificates import certified, verified
from .checker import check_call
from .conversions import to_five, to_six
from .derivations import most_rows
from .inputs import make_instance
from .planning import Buffers, solved
from .plans import complete_call, plan_call
from .printed import printed_plan
from .readout import readout_call
from .season import season_line
from .steps import run_call, step_call
from .tables import encode

__all__ = ["Buffers", "certified", "check_call", "complete_call", "encode", "make_instance", "most_rows", "plan_call",
           "printed_plan", "readout_call", "run_call", "season_line", "solved", "step_call", "to_five", "to_six", "verified"]
