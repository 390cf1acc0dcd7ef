"""That a verified certificate rests on nothing of the planner: which crates the verifying program's line in crates.txt leads to."""

from sources import listed_crates

VERIFIES = "verify"
# The crates that choose steps, rebuild plans or plan sheets, and the claims about them.
PLANNER = {"hunt", "resolution", "assignment", "completion", "calls", "planning", "printing", "batch", "certifying"}


def reached(crate, crates):
    found, new = set(), {crate}
    while new:
        found |= new
        new = set().union(*(crates.get(name, set()) for name in new)) - found
    return found


def trust_faults():
    crates = listed_crates()
    faults = [f"{name} is of the planner, and {VERIFIES} takes it" for name in sorted(PLANNER & reached(VERIFIES, crates))]
    faults += [f"{name} is no crate" for name in sorted((PLANNER | {VERIFIES}) - crates.keys())]
    if not PLANNER & reached(VERIFIES, {**crates, "checker": crates["checker"] | {"planning"}}):
        faults.append("a planner below the checker is not told")
    return faults
