"""Lines of docs/PROMISES.md: every name in backquotes exists, and in the crate and file that the line gives for it.

A line gives them as `crate` specs/File `name`, `name`: these names are in that file, or are theorems in the crate's proofs
(a statement is called in the specs what its proof is called there). `crate` `name` gives the crate alone.
"""

import re

# A name in backquotes, or a file of specs, proofs or code.
MENTION = re.compile(r"`([^`]+)`|\b((?:specs|proofs|src)/\w+(?:/\w+)*)")
NOTE = re.compile(r"\([^()`]*\)")
# What stands between names that share a file.
JOINTS = {"", ",", "and", ", and", "or"}


class Line:
    """The mentions of a line in order, and where the names are looked for that come next."""

    def __init__(self, repository, text):
        self.repository = repository
        self.text = text
        self.crate = ""         # named last with a file or a name behind it
        self.places = []        # where the next name has to be: beginnings of paths
        self.folder = ""        # of the path named last

    def faults(self):
        found, end = [], 0
        for mention in MENTION.finditer(self.text):
            if NOTE.sub("", self.text[end:mention.start()]).strip() not in JOINTS:
                self.places = []
            name, place = mention.groups()
            end = mention.end()
            reason = self.place_fault(place) if place else self.name_fault(name, self.text[end:])
            if reason:
                found.append(f"{name or place}: {reason}")
        return found

    def place_fault(self, place):
        files = self.repository.files_of(self.crate, place)
        self.places = [part for path in files for part in (path, path.split("/" + place.split("/")[0])[0] + "/proofs/")]
        return None if files else f"there is no such file in {self.crate or 'any crate'}"

    def name_fault(self, name, after):
        """A crate opens its own places; any other name is looked for, in the places that are open if there are any."""
        if name in self.repository.crates and re.match(r" (`|specs/|proofs/|src/)", after):
            self.crate, self.places = name, [f"crates/{name}/"]
            return None
        reason = self.repository.fault(name, self.folder)
        if reason is None and self.places and re.fullmatch(r"[\w′-]+", name) and not self.is_there(name):
            return f"is not in {self.places[0]}"
        if "/" in name and reason is None:
            path = name.rstrip("/")
            self.folder = path if path in self.repository.folders else path.rsplit("/", 1)[0]
        return reason

    def is_there(self, name):
        return any(name in self.repository.names_under(place) for place in self.places)


def faults_of(repository, text):
    """Each fault of a document with its line."""
    return [f"line {number}: {fault}" for number, line in enumerate(text.split("\n"), 1)
            for fault in Line(repository, line).faults()]
