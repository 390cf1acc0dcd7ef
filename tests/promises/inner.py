"""What stands behind the promises in the sources: definitions for readers rest on no inner one, and every edit's old text is there once."""

import re

from sources import ROOT, names_in_lines

# The first words of a file that serves inner contracts alone, and the line of another file behind which what it has does so.
INNER, BEHIND = "-- Inner:", "-- ---- for inner contracts"
IMPORT = re.compile(r"^use Rattle\.(\w+)\.specs\.(\w+)\.\{([^}]*)\}", re.M)


def name_of(path):
    return path.parts[-3], path.stem


def parts_of(text):
    """A file's definitions for readers, and those for inner contracts."""
    if text.startswith(INNER):
        return "", text
    front, _, behind = text.partition(BEHIND)
    return front, behind


def inner_faults(texts):
    """Names for inner contracts on which definitions for readers rest; texts has each file's text by crate and name."""
    inner = {name: names_in_lines(parts_of(text)[1].split("\n")) for name, text in texts.items()}
    for name, text in sorted(texts.items()):
        readers = re.sub(r"^use .*$|--.*$", "", parts_of(text)[0], flags=re.M)
        for crate, file, names in IMPORT.findall(text):
            for taken in inner.get((crate, file), set()) & {part.strip() for part in names.split(",")}:
                if re.search(rf"(?<![\w-]){re.escape(taken)}(?![\w-])", readers):
                    yield f"crates/{name[0]}/specs/{name[1]}.antt rests on {taken}, which is for inner contracts, of {crate}"


def edit_faults(edit, crate):
    """The old texts of an edit that are not in its file exactly once, each tried after those before it."""
    path, text, old = None, "", None
    for line in edit.read_text().split("\n"):
        field, _, rest = line.partition(":")
        if field == "file":
            path = crate / rest.strip()
            text = path.read_text()
        elif field == "old":
            old = rest[1:]
            if text.count(old) != 1:
                yield f"{edit.relative_to(ROOT)}: its old text stands {text.count(old)} times in {path.relative_to(ROOT)}"
        elif field == "new":
            text = text.replace(old, rest[1:], 1)


def search_faults(texts):
    """That the search above finds imports, and tells a definition for readers that takes an inner one: one is put on top of each other file."""
    if not any(IMPORT.search(text) for text in texts.values()):
        yield "no import of a definition is found"
    for (crate, file), text in sorted(texts.items()):
        for taken in sorted(names_in_lines(parts_of(text)[1].split("\n")))[:1]:
            spoiled = {name: f"use Rattle.{crate}.specs.{file}.{{{taken}}}\nmade = {taken}\n" for name in texts if name != (crate, file)}
            if len(list(inner_faults({**spoiled, (crate, file): text}))) != len(spoiled):
                yield f"a definition for readers that rests on {taken} of {crate} is not told"


def source_faults():
    specs = {name_of(path): path.read_text() for path in ROOT.glob("crates/*/specs/*.antt")}
    faults = [*inner_faults(specs), *search_faults(specs)]
    for edit in sorted(ROOT.glob("crates/*/must-fail/*.edit")):
        faults += edit_faults(edit, edit.parents[1])
    return faults
