"""Certificates as text: the plan, its cost, how many steps there are, and a line for each.

    plan 0/0 1/1                # station/spot for each station; none for a field without stations
    cost 10
    steps 1
    step 1 station 1 rows 0 1   # numbered from 1; rows count from 0 in the table that the steps before leave
    word 6 kind 4 payload 9     # in place of a step: a word of the file, counted from 0, that is none
"""

from .certificate import Step


def write_text(certificate):
    steps = sum(isinstance(taken, Step) for taken in certificate.derivation)
    lines = [" ".join(["plan", *(f"{station}/{spot}" for station, spot in enumerate(certificate.spots))]),
             f"cost {certificate.cost}", f"steps {steps}"]
    return "".join(line + "\n" for line in lines + derivation_lines(certificate.derivation))


def derivation_lines(derivation):
    lines, number = [], 0
    for taken in derivation:
        if isinstance(taken, Step):
            number += 1
            lines.append(f"step {number} station {taken.station} rows {taken.first} {taken.second}")
        else:
            lines.append(f"word {taken.place} kind {taken.kind} payload {taken.payload}")
    return lines
