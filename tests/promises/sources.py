"""The names that the repository defines: in specs and proofs, in the code, in the C header, and as files."""

import os
import re
from pathlib import Path

ROOT = Path(__file__).resolve().parents[2]
BUILT = {".git", "target", "out", "__pycache__"}

# What may stand before the name that a line of a spec or proof defines.
KEYWORDS = {"pub", "abbrev", "record", "data", "unfoldable", "opaque"}
SIGNATURE = re.compile(r"\s*((?:[^\s(){}\[\]:=,;]+ )+)(?:\{[^}]*\} )*: ")
TYPE = re.compile(r"\s*(?:pub |abbrev )*(?:record|data) ([^\s:]+)")
IMPORTED = re.compile(r"^(?:ghost )?use .*\{([^}]*)\}")
FUNCTION = re.compile(r"\s*(?:pub )?(?:extern \"C\" )?fn (\w+)")
ITEM = re.compile(r"\s*(?:pub )?(?:struct|enum|const|type|mod) (\w+)")
# What the names in the lines behind it belong to.
OWNER = re.compile(r"(?:impl(?:<[^>]*>)?|(?:pub )?(?:struct|enum)) (\w+)")
VARIANT = re.compile(r"    ([A-Z]\w*)\b(?!::)")
FIELD = re.compile(r"    (?:pub )?(\w+): ")
HEADER_NAME = re.compile(r"\b(gotalhim_\w+|GOTALHIM_\w+)\b")


def all_files():
    """The repository's files, without what is built."""
    found = []
    for folder, inner, names in os.walk(ROOT):
        inner[:] = [name for name in inner if name not in BUILT]
        found += [(Path(folder) / name).relative_to(ROOT) for name in names]
    return found


def lines_of(path):
    return (ROOT / path).read_text().split("\n")


def listed_crates():
    """Each crate of crates.txt with those that its line names; behind the name of a static library its kind stands."""
    lines = [line.partition(":") for line in lines_of("crates.txt") if line and not line.startswith("#")]
    return {name.split()[0]: set(rest.split()) for name, _, rest in lines}


def names_in_logic(path):
    return names_in_lines(lines_of(path))


def names_in_lines(lines):
    """Definitions, records, data, fields and constructors of a spec or proof, by the form of their first line."""
    names = set()
    for line in lines:
        line = line.split("--")[0]
        made, signed = TYPE.match(line), SIGNATURE.match(line + " ")
        if made:
            names.add(made.group(1))
        elif signed:
            names |= set(signed.group(1).split()) - KEYWORDS
    return names


def imported_names(path):
    """Names that a spec or the code takes from elsewhere, which the prover resolves."""
    found = (IMPORTED.match(line) for line in lines_of(path))
    return {part.strip() for match in found if match for part in match.group(1).split(",")}


def names_in_code(path):
    """Functions and other items of a file of the code; methods, variants and fields have their type in front."""
    names, owner = set(), ""
    for line in lines_of(path):
        owned, item = OWNER.match(line), FUNCTION.match(line) or ITEM.match(line)
        if owned:
            owner = owned.group(1)
        if item:
            names.add((owner + "::" if line.startswith(" ") else "") + item.group(1))
        elif owner:
            names |= {f"{owner}::{found.group(1)}" for found in (VARIANT.match(line), FIELD.match(line)) if found}
        if line.startswith("}"):
            owner = ""
    return names


def header_names(path):
    return {name for line in lines_of(path) for name in HEADER_NAME.findall(line)}
