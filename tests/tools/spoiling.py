"""Texts spoiled line by line, for the faults of sheets and of tables."""


def spoiled(rng, lines, others):
    """A line left out, doubled, exchanged with another, or with a word of another or one of these in it."""
    lines = list(lines)
    at, other = rng.randrange(len(lines)), rng.randrange(len(lines))
    change = rng.choice(["out", "twice", "exchanged", "word", "word", "word"])
    if change == "out":
        del lines[at]
    elif change == "twice":
        lines.insert(at, lines[at])
    elif change == "exchanged":
        lines[at], lines[other] = lines[other], lines[at]
    else:
        words = lines[at].split(" ")
        words[rng.randrange(len(words))] = rng.choice(lines[other].split(" ") + others)
        lines[at] = " ".join(words)
    return lines
