#!/usr/bin/env python3
"""Writes the instance of a sheet as a .wcsp file, which other solvers of weighted constraint problems read."""

import sys
from pathlib import Path

sys.dont_write_bytecode = True
sys.path.insert(0, str(Path(__file__).resolve().parent.parent / "tests" / "reference"))

from reference.inputs import instance_of, read_sheet
from reference.planning import words_of


def cost_functions(entries):
    """For each scope, the cost of each tuple of values; repeated entries add."""
    functions = {}
    for entry in entries:
        scope = tuple(variable for variable, _ in entry.bindings)
        values = tuple(value for _, value in entry.bindings)
        tuples = functions.setdefault(scope, {})
        tuples[values] = tuples.get(values, 0) + entry.cost
    return functions


def function_lines(scope, tuples):
    """A cost function with default cost 0; the one of no variables has its cost in the default's place."""
    if not scope:
        return [f"0 {tuples[()]} 0"]
    numbers = [len(scope), *scope, 0, len(tuples)]
    return [" ".join(map(str, numbers))] + [" ".join(map(str, [*values, cost])) for values, cost in tuples.items()]


def wcsp_text(name, instance):
    functions = cost_functions(instance.entries)
    above_all = 1 + sum(entry.cost for entry in instance.entries)
    lines = [f"{name} {len(instance.sizes)} {max(instance.sizes, default=0)} {len(functions)} {above_all}",
             " ".join(map(str, instance.sizes))]
    for scope, tuples in functions.items():
        lines += function_lines(scope, tuples)
    return "\n".join(lines) + "\n"


def write_wcsp(sheet, target):
    instance = instance_of(read_sheet(words_of(sheet.read_bytes())))
    target.write_text(wcsp_text(sheet.stem, instance))


if __name__ == "__main__":
    write_wcsp(Path(sys.argv[1]), Path(sys.argv[2]))
