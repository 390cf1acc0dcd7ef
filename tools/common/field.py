"""A field's limits, and the spots that it does not have, whichever file tells of it."""

# Variables are document 01's stations, values its spots. What a laboratory reads says station and spot.
MAX_VARIABLES = 12
MAX_SIZE = 8


def spot_fault(sizes, variable, value):
    """Why there is no such spot, or None where there is."""
    if variable >= len(sizes):
        return f"there is no station {variable}; " + (f"the last one is {len(sizes) - 1}" if sizes else "the field has none")
    if value >= sizes[variable]:
        return f"station {variable} has no spot {value}; its last one is {sizes[variable] - 1}"
    return None
