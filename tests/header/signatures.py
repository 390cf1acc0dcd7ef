"""The header's declarations against the functions that the source exports: names, parameters in order, and types."""

import re

EXPORTED = re.compile(r'pub extern "C" fn (\w+)\(([^)]*)\) -> (\w+)')
DECLARED = re.compile(r"^(\w+) (gotalhim_\w+)\(([^)]*)\);", re.MULTILINE)
TYPES = {"u8": "uint8_t", "u32": "uint32_t", "u64": "uint64_t", "usize": "size_t"}
SLICE = re.compile(r"&(mut )?\[(\w+)\]")


def in_c(parameter):
    """A parameter of the source as the header writes it: a slice is a pointer and a length."""
    name, kind = parameter.split(": ")
    slice_of = SLICE.fullmatch(kind)
    if not slice_of:
        return [f"{TYPES[kind]} {name}"]
    written, element = slice_of.groups()
    return [f"{'' if written else 'const '}{TYPES[element]} *{name}", f"size_t {name}_length"]


def exported(source):
    return {name: (TYPES[result], [part for parameter in split(parameters) for part in in_c(parameter)])
            for name, parameters, result in EXPORTED.findall(source)}


def declared(header):
    return {name: (result, split(parameters)) for result, name, parameters in DECLARED.findall(header)}


def split(parameters):
    return [" ".join(part.split()) for part in parameters.split(",") if part.strip()]


def run(checks, header, source):
    functions, declarations = exported(source), declared(header)
    checks.same("the functions declared", sorted(declarations), sorted(functions))
    for name, function in functions.items():
        checks.same(f"the declaration of {name}", declarations.get(name), function)
    return sorted(functions)
