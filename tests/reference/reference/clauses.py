"""Signs and clauses, and which assignments falsify them."""

# Variables are document 01's stations, values its spots, sizes the numbers of spots.  A sign is the set of the values
# that satisfy it, as a bit mask: bit b stands for value b.  A clause is the tuple of its signs, one for each variable,
# 0 where the variable is absent.


def full(size):
    return (1 << size) - 1


def complement(size, sign):
    """All values of this variable's own domain that are not in the sign."""
    return full(size) & ~sign


def is_tautology(sizes, clause):
    return any(sign == full(size) for sign, size in zip(clause, sizes))


def joined(clause, other):
    """The union with all literals of the other clause."""
    return tuple(sign | sign2 for sign, sign2 in zip(clause, other))


def replaced(clause, variable, sign):
    """The clause with one variable's sign replaced."""
    return clause[:variable] + (sign,) + clause[variable + 1:]


def bucket_of(clause):
    """The lowest variable present (document 01: the station a row belongs to), or None for the empty clause."""
    for variable, sign in enumerate(clause):
        if sign:
            return variable
    return None


def falsifies(assignment, clause):
    """Whether every value of the assignment lies outside its sign."""
    return all(not sign >> value & 1 for value, sign in zip(assignment, clause))
