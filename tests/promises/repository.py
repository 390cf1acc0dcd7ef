"""What a name in backquotes stands for: a crate, a definition, a function, a file. A name that stands for nothing is told."""

import re

from sources import all_files, header_names, imported_names, listed_crates, names_in_code, names_in_logic

# Words of the languages and commands, which no file of the repository defines.
LANGUAGE = {"requires", "ensures", "entry", "exit", "now", "old", "new", "record", "let", "else", "loop", "break", "mut", "self",
            "&mut", "check", "staticlib", "rt ci"}
WORD = re.compile(r"[A-Za-z][\w′-]{2,}")


class Repository:
    def __init__(self):
        files = all_files()
        self.folders = {up.as_posix() for path in files for up in path.parents}
        self.paths = {path.as_posix() for path in files} | self.folders
        self.endings = tuple({path.suffix for path in files if path.suffix})
        self.crates = set(listed_crates())
        self.logic = {path.as_posix(): names_in_logic(path) for path in files if path.suffix == ".antt"}
        self.code = {path.as_posix(): names_in_code(path) for path in files if path.suffix == ".rt"}
        headers = set().union(*(header_names(path) for path in files if path.suffix == ".h"))
        imported = set().union(*(imported_names(path) for path in files if path.suffix in (".antt", ".rt")))
        edits = {path.stem for path in files if path.suffix == ".edit"}
        parts = {part for names in self.code.values() for name in names for part in name.split("::")}
        self.known = LANGUAGE.union(self.crates, headers, imported, edits, parts, *self.logic.values())

    def fault(self, token, folder=""):
        """Why a token stands for nothing, or None; a bare file is looked for in a folder."""
        if token in self.known or not self.paths.isdisjoint({token.removeprefix("./"), f"{folder}/{token}"}):
            return None
        if " " in token:
            return self.parts_fault(token)
        if "/" in token:
            return None if self.has_path(token) else "there is no such file or folder"
        if token.endswith(self.endings):
            return f"there is no such file in {folder}" if folder else "a file whose folder is not named before it"
        if "::" in token:
            return self.code_fault(re.sub("<.*>", "", token))
        if ".." in token:
            return None if self.has_form(token) else "no name has this form"
        return self.parts_fault(token) if "." in token else f"nothing is called {token}"

    def has_path(self, token):
        """NAME stands for any crate."""
        form = re.escape(token.rstrip("/")).replace("NAME", "[^/]+")
        return any(re.fullmatch(form, path) for path in self.paths)

    def has_form(self, token):
        """Two points stand for any part of a name."""
        form = re.escape(token).replace(re.escape(".."), ".+")
        return any(re.fullmatch(form, name) for name in self.known)

    def code_fault(self, token):
        """crate::function, crate::module::function, crate::Type::method, Type::method."""
        crate, rest = token.split("::", 1)
        if crate not in self.crates:
            owners = [path for path, names in self.code.items() if token in names]
            return None if owners else "no crate has it"
        module, _, inner = rest.partition("::")
        if any(rest in self.code.get(f"crates/{crate}/src/{root}.rt", ()) for root in ("lib", "main")):
            return None
        return None if inner in self.code.get(f"crates/{crate}/src/{module}.rt", ()) else f"crates/{crate}/src has no such item"

    def parts_fault(self, token):
        """A statement, or a constructor or field behind its type: each word of three letters or more must be known."""
        words = WORD.findall(token)
        unknown = [word for word in words if word not in self.known] if words else [token]
        return f"nothing is called {', '.join(unknown)}" if unknown else None

    def files_of(self, crate, place):
        """The files that `specs/Name` can mean: of the crate, or of any where none is named."""
        form = rf"crates/{crate or '[^/]+'}/{re.escape(place)}(/(Proof|Invariants|Answers))?\.(antt|rt)"
        return [path for path in [*self.logic, *self.code] if re.fullmatch(form, path)]

    def names_under(self, place):
        """Every name of the files whose path begins so, methods also without their type."""
        logic = [names for path, names in self.logic.items() if path.startswith(place)]
        code = [{part for name in names for part in name.split("::")}
                for path, names in self.code.items() if path.startswith(place)]
        return set().union(*logic, *code)
