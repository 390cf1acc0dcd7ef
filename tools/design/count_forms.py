#!/usr/bin/env python3
"""Counts the places of the eight points of docs/DESIGN-PASS.md, crate by crate: `tools/design/count_forms.py [FOLDER] [--list POINT]`.

It reads crates/*/src and crates/*/proofs of the folder (default: this one) and goes by text, so what it counts are candidates: each is changed,
or kept with a reason. Points: 1 own enums, flags and numbers; 2 pairs of functions that are alike; 3 loops that count by hand; 4 copying,
comparing, converting and printing by hand; 5 facts in the contracts of three or more functions, and parameters that travel together; 6 buffers
with a length beside; 7 switches on which step to run; 8 answers given by hand in proofs/.
"""

import collections
import difflib
import glob
import os
import re
import sys

FACTS = {
    "FitsBlocks": r"FitsBlocks", "rows within the words": r"([rR]ow_?[wW]idth|five_?[wW]idth|rows\.width) \* \w+ (\+ [\w.]+ )?≤ length", "Laid/Left": r"\b(Laid|Left)(In)?\b",
    "valid table": r"valid_?[tT]able", "shape of the table": r"shape_?[oO]f", "base and count of the table": r"variables_?[oO]f \w+\.\w+ \+ 2",
    "n ≤ max_variables": r"n ≤ max_?[vV]ariables", "sizes with n": r"take n sizes", "room for a text": r"(at \+ \d+|\d+) ≤ length out|array_vec_len text\.old \+", "Put": r"\bPut\b",
    "full signs": r"FullSigns", "variable below 12": r"\b[vk] < 12\b", "PackedBuffer": r"PackedBuffer", "sheet accepted": r"sheet_?[fF]ault \w+\.now ≡ 0",
    "HoldsPlan": r"HoldsPlan",
}
# Of a line of src/: the point that it is a place of, what tells it, and what it is called in the list.
LINES = [
    (1, r"^\s*(pub )?enum \w+", ""),
    (1, r"^\s*(pub )?(number|failed|heavy|answer): (u32|bool|RunAnswer)", "flag or number in a struct: "),
    (1, r"(Fault|Stops|Refused|refusal|refused|stopped_sizing|refused_stations|put_refused)\((out, 0, )?\d+\)|return (1|2|3|4|5|6|7|8|9|1\d);|number: [1-9]",
     "refusal by its number: "),
    (1, r"\b(number|fault|planned|judged) != 0", "test of a number: "),
    (3, r"^\s*(while|loop)\b|= loop \{", ""),
    (7, r"match (form|words::kind\(w\)|ending|outcome|found|phase)\b|if form ==", ""),
    (6, r"^\s*(pub )?(length|count|kept|n|behind|entries_at|variables): usize|^\s*(pub )?\w+: \[u\d+; \w+\],", ""),
    (6, r"let mut \w+ = \[0(u8|u32|usize)?; ", ""),
]
TOGETHER = [("t", "base", "count"), ("sizes", "n"), ("out", "at"), ("buffer", "kept"), ("table", "shape"), ("t", "shape"), ("words", "at"),
            ("instance", "at"), ("sheet", "plan"), ("x", "y", "v", "fulls"), ("plan", "cost"), ("plan", "steps", "cost")]


def functions(folder):
    for path in sorted(glob.glob(os.path.join(folder, "crates/*/src/**/*.rt"), recursive=True)):
        crate = path.split("crates/")[1].split("/")[0]
        text = open(path, encoding="utf-8").read()
        starts = [m for m in re.finditer(r"^[ ]*(?:pub )?(?:extern \"C\" )?fn (\w+)", text, re.M)]
        for m, after in zip(starts, starts[1:] + [None]):
            piece = text[m.start():after.start() if after else len(text)]
            depth, brace, seen = 0, None, False
            for b in re.finditer(r"^[ ]*\{\s*$|\{\s*$", piece, re.M):
                brace = b
                break
            head, body = (piece[:brace.start()], piece[brace.start():]) if brace else (piece, "")
            yield crate, path, m.group(1), head, body


def shape(body):
    tokens = re.findall(r"[A-Za-z_]\w*|\d+|[^\s\w]", re.sub(r"//.*", "", body))
    keep = {"let", "mut", "while", "if", "else", "return", "match", "for", "in", "loop", "break", "as", "self", "true", "false"}
    return [t if t in keep or not re.match(r"\w", t) else ("0" if t[0].isdigit() else "x") for t in tokens]


def count(folder):
    found = collections.defaultdict(lambda: collections.defaultdict(list))
    sources = sorted(glob.glob(os.path.join(folder, "crates/*/src/**/*.rt"), recursive=True))
    for path in sources:
        crate = path.split("crates/")[1].split("/")[0]
        for i, line in enumerate(open(path, encoding="utf-8"), 1):
            where = f"{path.split('crates/')[1]}:{i}"
            for point, pattern, what in LINES:
                if re.search(pattern, line):
                    found[point][crate].append(f"{where} {what}{line.strip()}")
    all_functions = list(functions(folder))
    for crate, path, name, head, body in all_functions:
        where = f"{path.split('crates/')[1]} {name}"
        if re.match(r"(equals|wide|lesser|copy_\w+|put_\w+|put|\w+_number|\w+_field|fault_in|\w+_in|goes|\w+_left|\w+_of|refusal\w*|refused\w*|success|stopped\w*|none|no_\w+|note\w*|write_words|read_words|word_at|write_word|clear|zero_from|all_zero_from|move_down)$", name):
            found[4][crate].append(where)
        params = re.findall(r"(\w+): ", head.split("->")[0].split("requires")[0])
        for group in TOGETHER:
            if all(p in params for p in group):
                found[5][crate].append(f"{where} parameters together: {', '.join(group)}")
        for fact, pattern in FACTS.items():
            if re.search(pattern, head):
                found[5][crate].append(f"{where} fact: {fact}")
    shapes = [(c, n, shape(b)) for c, p, n, h, b in all_functions]
    for i, (c, n, s) in enumerate(shapes):
        for d, m, r in shapes[i + 1:]:
            if len(s) > 30 and len(r) > 30 and abs(len(s) - len(r)) < 0.25 * len(s):
                ratio = difflib.SequenceMatcher(None, s, r, autojunk=False).ratio()
                if ratio >= 0.9:
                    found[2][c].append(f"{c}::{n} ~ {d}::{m} ({ratio:.2f})")
    for path in sorted(glob.glob(os.path.join(folder, "crates/*/proofs/**/Answers.antt"), recursive=True)):
        crate = path.split("crates/")[1].split("/")[0]
        for name in re.findall(r"^pub (\S+) : goal\.", open(path, encoding="utf-8").read(), re.M):
            found[8][crate].append(f"{path.split('crates/')[1]} {name}")
    return found


def main():
    args = sys.argv[1:]
    point = int(args[args.index("--list") + 1]) if "--list" in args else None
    folder = next((a for i, a in enumerate(args) if not a.startswith("--") and (i == 0 or args[i - 1] != "--list")), ".")
    found = count(folder)
    if point:
        for crate in sorted(found[point]):
            for place in found[point][crate]:
                print(place)
        return
    crates = sorted(os.path.basename(c) for c in glob.glob(os.path.join(folder, "crates/*")))
    print("crate".ljust(14) + "".join(f"{p:>6}" for p in range(1, 9)))
    for crate in crates:
        print(crate.ljust(14) + "".join(f"{len(found[p][crate]):>6}" for p in range(1, 9)))
    print("sum".ljust(14) + "".join(f"{sum(len(v) for v in found[p].values()):>6}" for p in range(1, 9)))


if __name__ == "__main__":
    main()
