"""A second, slower reading of the rules with sets of values in place of bit masks, to hold the reference against."""

# A literal is (variable, set of values), a clause a dictionary of its literals, a row a clause with a weight.


from reference.limits import MAX_WEIGHT


def value_set(sign):
    return frozenset(value for value in range(8) if sign >> value & 1)


def plain_rows(rows):
    return [({variable: value_set(sign) for variable, sign in enumerate(signs) if sign}, weight)
            for signs, weight in rows]


def disjunction(literals):
    """The clause of all these literals; a variable's sets are united, and empty ones say nothing."""
    clause = {}
    for variable, values in literals:
        clause[variable] = clause.get(variable, frozenset()) | values
    return {variable: values for variable, values in clause.items() if values}


def other_literals(clause, variable):
    return [(place, clause[place]) for place in sorted(clause) if place != variable]


def may_resolve(domains, variable, clause, other):
    if variable not in clause or variable not in other:
        return False
    if clause[variable] <= other[variable] or other[variable] <= clause[variable]:
        return False
    return all(clause[place] | other[place] != domains[place]
               for place in clause if place != variable and place in other)


def belongs(clause):
    return min(clause, default=None)


def plain_pair(domains, rows):
    """The least (variable, first, second) among all, or None."""
    for variable in range(len(domains)):
        for first in range(len(rows)):
            for second in range(first + 1, len(rows)):
                clause, other = rows[first][0], rows[second][0]
                if belongs(clause) == belongs(other) == variable:
                    if may_resolve(domains, variable, clause, other):
                        return variable, first, second
    return None


def plain_conclusions(domains, variable, clause, other):
    s, t = clause[variable], other[variable]
    a, b = other_literals(clause, variable), other_literals(other, variable)
    made = [[(variable, s & t)] + a + b, [(variable, s | t)] + a + b]
    for at, (place, values) in enumerate(b):
        made.append([(variable, s)] + a + b[:at] + [(place, domains[place] - values)])
    for at, (place, values) in enumerate(a):
        made.append([(variable, t)] + b + a[:at] + [(place, domains[place] - values)])
    return [disjunction(literals) for literals in made]


def plain_add(domains, rows, clause, weight):
    if any(clause[variable] == domains[variable] for variable in clause):
        return rows
    if any(clause == present for present, _ in rows):
        return [(present, old + weight if present == clause else old) for present, old in rows]
    return rows + [(clause, weight)]


def plain_step(domains, rows, pair):
    variable, first, second = pair
    moved = min(rows[first][1], rows[second][1])
    left = [(clause, weight - moved if index in (first, second) else weight)
            for index, (clause, weight) in enumerate(rows)]
    left = [row for row in left if row[1] > 0]
    for clause in plain_conclusions(domains, variable, rows[first][0], rows[second][0]):
        left = plain_add(domains, left, clause, moved)
    return left


def plain_answer(sizes, rows, most_rows):
    """The number of a step call, its pair (None when done) and the rows that it leaves."""
    domains = [frozenset(range(size)) for size in sizes]
    before = plain_rows(rows)
    pair = plain_pair(domains, before)
    if pair is None:
        return 0, None, before
    after = plain_step(domains, before, pair)
    if any(weight > MAX_WEIGHT for _, weight in after):
        return 11, pair, before
    if len(after) > most_rows:
        return 12, pair, before
    return 0, pair, after


def plain_completion(domains, rows, fixed):
    """The cost and the assignment with these values in the last places: before them, from the last down, each gets the least
    value in the sets of all rows that belong to it and that no value behind it satisfies."""
    k = len(domains) - len(fixed)
    chosen = dict(enumerate(fixed, k))
    cost = sum(weight for clause, weight in rows
               if all(place >= k and chosen[place] not in clause[place] for place in clause))
    for variable in reversed(range(k)):
        sets = [clause[variable] for clause, _ in rows if belongs(clause) == variable
                and all(chosen[place] not in clause[place] for place in clause if place != variable)]
        chosen[variable] = min(domains[variable].intersection(*sets))
    return cost, [chosen[variable] for variable in range(len(domains))]
