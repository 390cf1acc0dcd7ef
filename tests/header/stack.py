"""What the archive's machine code says of stack and state: frames along every chain of calls, and no memory to write to.

A frame is what a function pushes and reserves. A form that changes the stack pointer in another way, a call through a
pointer and a function that calls itself are told as faults, since no sum would hold then. A jump by a table is none of
these where every place in the table lies in the function itself, as a match has it.
"""

import re
import subprocess

FUNCTION = re.compile(r"^[0-9a-f]+ <(.+)>:$")
INSTRUCTION = re.compile(r"^ *[0-9a-f]+:\t(\S+) *(.*)$")
TARGET = re.compile(r"R_X86_64_\w+\t(?:\.text\.)?(\S+?)(?:[-+]0x[0-9a-f]+)?$")
RESERVED = re.compile(r"\$0x([0-9a-f]+),%rsp$")
# Instructions that write to their last operand where that is the stack pointer itself.
MOVES = re.compile(r"(^|,)%rsp$")
# A jump by a table: its address, the distance in it, their sum, the jump.
TABLE = re.compile(r"lea 0x0\(%rip\),(%\w+) .*\nmovslq \(\1,%\w+,4\),(%\w+)\nadd \1,\2\njmp \*\2$")
RECORDS = re.compile(r"^RELOCATION RECORDS FOR \[\.rodata\.(.+)\]:$")
PLACE = re.compile(r"R_X86_64_PC32 +\.text\.(\S+?)(?:[-+]0x[0-9a-f]+)?$")
WORD = 8
# Steps make conclusions, which take the most room.
STEPPING = {"gotalhim_step", "gotalhim_run", "gotalhim_drive", "gotalhim_check"}
# What is taken from the C library, whose own stack is not counted.
FOREIGN = {"memset"}


def tables_of(listing):
    """Of each table of places that a function has, the functions that they lie in."""
    tables, name = {}, None
    for line in listing.split("\n"):
        records, place = RECORDS.match(line), PLACE.search(line)
        if line.startswith("RELOCATION"):
            name = records and records.group(1)
        elif name and line.startswith("0"):
            tables.setdefault(name, set()).add(place.group(1) if place else line)
    return tables


class Code:
    def __init__(self, listing, tables):
        self.frames, self.calls, self.strange = {}, {}, []
        self.tables, self.last = tables, []
        name, jumped = None, False
        for line in listing.split("\n"):
            function, instruction = FUNCTION.match(line), INSTRUCTION.match(line)
            if function:
                name = function.group(1)
                self.frames[name], self.calls[name] = WORD, set()
            elif name and instruction:
                jumped = self.take(name, *instruction.groups())
            elif name and jumped and TARGET.search(line):
                self.calls[name].add(TARGET.search(line).group(1))

    def take(self, name, operation, operands):
        """One instruction; whether it may go to another function."""
        reserved = RESERVED.match(operands)
        self.last = [*self.last[-3:], f"{operation} {operands}"]
        if operation == "push":
            self.frames[name] += WORD
        elif operation == "sub" and reserved:
            self.frames[name] += int(reserved.group(1), 16)
        elif operation == "jmp" and TABLE.match("\n".join(self.last)) and self.tables.get(name) == {name}:
            pass
        elif "*" in operands or (operation not in ("add", "pop", "test", "cmp") and MOVES.search(operands)):
            self.strange.append(f"{name}: {operation} {operands}")
        return operation.startswith(("call", "j"))

    def depth(self, name, above=()):
        """The most bytes below the caller's own frame."""
        if name in above:
            raise RecursionError(name)
        if name not in self.frames:
            return 0
        return self.frames[name] + max((self.depth(called, above + (name,)) for called in self.calls[name]), default=0)


def listed(*command):
    return subprocess.run(command, check=True, capture_output=True, text=True).stdout


def run(checks, archive, functions, most):
    sections = [line.split() for line in listed("objdump", "-hw", archive).split("\n") if "ALLOC" in line]
    checks.same("sections that a call could write to", [parts[1] for parts in sections if "READONLY," not in parts], [])
    code = Code(listed("objdump", "-dr", "--no-show-raw-insn", archive), tables_of(listed("objdump", "-r", archive)))
    checks.same("functions taken from elsewhere", set().union(*code.calls.values()) - set(code.frames), FOREIGN)
    checks.same("forms of the stack that are not counted", code.strange, [])
    for name in functions:
        bound = most if name in STEPPING else most // 2
        checks.same(f"{name} needs {code.depth(name)} bytes of stack, at most {bound}", code.depth(name) <= bound, True)
