"""What PROMISES.md says of contracts and of demand 3's records, held to the sources.

A function cited for its contract has one. A public call, of which a clause is named as one of a call's, asks nothing, and every exported call is
one. A call for C, in a crate NAME_c, has the parameters and the clauses of the call of its name in NAME. The fields that the document cites of
demand 3's records are fields, and it cites all of them.
"""

import re

from sources import FUNCTION, ROOT

CITED = re.compile(r"contracts? of ((?:`[\w:]+`(?: \([^)]*\))?(?:, and |, | and )?)+)")
# What a call returned, what a driver upheld; the clauses of inner functions are named where there are two of a kind, and otherwise.
NAMED = re.compile(r"ensures (?:returned|driven|upheld) \{")
RECORDS = re.compile(r"^pub record (?:Kept|Upheld|UpheldFive) .*?(?=^\S)", re.M | re.S)
HEADING = "| sentence | field of `Upheld`, of its `kept`, or of `UpheldFive` |"


def contract_at(lines):
    """The lines from a function's first up to the brace that opens its body."""
    contract = []
    for line in lines:
        if line.endswith("{"):
            break
        contract.append(line.strip())
    return contract


def contracts():
    """Each function's name behind its crate, with the lines of its contract; one name may stand for several functions."""
    found = {}
    for path in sorted(ROOT.glob("crates/*/src/*.rt")):
        lines = path.read_text().split("\n")
        for at, line in enumerate(lines):
            function = FUNCTION.match(line)
            if function:
                found.setdefault(f"{path.parts[-3]}::{function.group(1)}", []).append(contract_at(lines[at:]))
    return found


def holds(contract, clause):
    return any(line.startswith(clause + " ") for line in contract)


def cited_names(text):
    """The names that a text cites for their contract: modules and types between a crate and a function are left out."""
    for cited in CITED.findall(text):
        for crate, _, rest in (name.partition("::") for name in re.findall(r"`([\w:]+)`", cited)):
            yield f"{crate}::{rest.split('::')[-1]}" if rest else crate


def contract_faults(text, functions):
    for name in cited_names(text):
        meant = [contract for known, all_of in functions.items() if name in (known, known.split("::")[1]) for contract in all_of]
        if meant and not all(holds(contract, "ensures") for contract in meant):
            yield f"{name} is cited for its contract and has no ensures"


def call_faults(functions):
    for name, all_of in functions.items():
        for contract in all_of:
            public = any(NAMED.match(line) for line in contract)
            if public and holds(contract, "requires"):
                yield f"{name} is a public call and has a requires"
            if contract and 'extern "C"' in contract[0] and not public:
                yield f"{name} is exported and its contract has no name"


def thin_faults(functions):
    """Calls for C that differ from the library's, and those that are missing."""
    thin = {name for name in functions if name.split("::")[0].endswith("_c")}
    for name in sorted(thin):
        if functions[name] != functions.get(name.replace("_c::", "::", 1)):
            yield f"{name} has another contract than the library's call"
    for name, all_of in functions.items():
        if any('extern "C"' in contract[0] for contract in all_of if contract) and name not in thin and name.replace("::", "_c::", 1) not in thin:
            yield f"{name} is exported, and no crate of calls for C has it"


def field_faults(text):
    records = RECORDS.findall((ROOT / "crates/calls/specs/Demand.antt").read_text())
    fields = set(re.findall(r"^  pub (\w+) :", "".join(records), re.M))
    rows = [row.split("|")[2] for row in text.split(HEADING)[1].split("\n\n")[0].split("\n")[2:]]
    firsts = {re.search(r"`(\w+)`", row).group(1) for row in rows}
    yield from (f"{name} is cited as a field of demand 3 and is none" for name in sorted(firsts - fields))
    cited = set(re.findall(r"`(\w+)`", " ".join(rows)))
    yield from (f"{name} is a field of demand 3 and no row cites it" for name in sorted(fields - cited))


def cited_faults(text):
    functions = contracts()
    faults = [*contract_faults(text, functions), *call_faults(functions), *thin_faults(functions), *field_faults(text)]
    if not list(contract_faults("contract of `planner::main`", functions)):
        faults.append("a function without a contract is not told")
    for name, contract in (("gotalhim_c::gotalhim_cost", []), ("roots::roots_cost", ['pub extern "C" fn roots_cost() -> u64'])):
        if len(list(thin_faults({**functions, name: [contract]}))) != 1:
            faults.append(f"{name} differs, which is not told")
    if len(list(field_faults(text.replace("`conserved`", "`conserve`")))) != 2:
        faults.append("a field that is misspelt is not told")
    return faults
