"""The program as a command: a sheet on standard input, the printed plan on standard output."""

import sys

from .printed import printed_plan

sys.stdout.buffer.write(printed_plan(sys.stdin.buffer.read()))
