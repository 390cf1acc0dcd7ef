"""Whether the program's table has room for the encoding of a sheet: the planner's refusal 12."""

from .sheet import sizes_of

TABLE_WORDS = 15_998    # the program's buffer
ROW_WORDS = 6
NO_ROOM = 12            # the planner's number
HALF_METRE = 50         # centimetres


def room_fault(sheet):
    """Why the program has no room for a sheet, or None where it has."""
    rows = len(clauses(sheet))
    # Behind the head, the sizes and the row count.
    room = (TABLE_WORDS - len(sheet.places) - 2) // ROW_WORDS
    if rows > room:
        return (f"{rows:,} combinations of spots have a cost or are forbidden, those of the legs included; "
                f"the program's table has room for {room:,} (refusal {NO_ROOM})")
    return None


def clauses(sheet):
    """The combinations that have a row each. A station's only spot tells no plans apart, so it is left out."""
    sizes = sizes_of(sheet.places)
    costly = [entry.bindings for entry in sheet.entries if entry.cost != 0] + costly_legs(sheet.places)
    return {tuple((variable, value) for variable, value in bindings if sizes[variable] > 1) for bindings in costly}


def costly_legs(places):
    """The legs that cost something: from half a metre on, the nearest metre is not 0."""
    return [((variable, here), (variable + 1, there))
            for variable, (starts, ends) in enumerate(zip(places, places[1:]))
            for here, start in enumerate(starts)
            for there, end in enumerate(ends)
            if (start[0] - end[0]) ** 2 + (start[1] - end[1]) ** 2 >= HALF_METRE ** 2]
