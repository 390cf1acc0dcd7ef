"""The examples: their words made anew, and their plans anew by the reference program; the seasons of them and their figures; a
table of last year's and its text; certificates with their text and their verdict."""

from checks import CERTIFICATE, ROOT, TABLE, called
from reference import certified, encode, make_instance, printed_plan, run_call, season_line, to_five, to_six, verified
from reference.certificates import request
from reference.fields import as_bytes
from reference.planning import words_of

EXAMPLES = ROOT / "examples"
README = ROOT / "README.md"
# Those with stations that are planned, the one without stations, and the one whose every plan has a forbidden combination.
NAMES = ["corner", "headland", "terraces"]
FLOODED = "flooded"
CULVERT = "culvert"
ALL = sorted([*NAMES, FLOODED, CULVERT])
CERTIFIED = ["corner", "headland"]

# The printed plan of the small field that document 01 works out.
CORNER_PLAN = b"PLAN\nCOST 10\nSTEPS 1\n0 0 0\n1 1 10\n"
# Without stations, the sum of what every plan costs.
FLOODED_PLAN = b"PLAN\nCOST 155\nSTEPS 0\n"


def run(checks):
    for ending in ["txt", "sheet", "plan"]:
        checks.same(f"examples/*.{ending}", sorted(path.stem for path in EXAMPLES.glob(f"*.{ending}")), ALL)
    for name in ALL:
        check_example(checks, name)
    checks.same("examples/corner.plan", content("corner.plan"), CORNER_PLAN)
    checks.same(f"examples/{FLOODED}.plan", content(f"{FLOODED}.plan"), FLOODED_PLAN)
    check_season(checks)
    check_shown_season(checks)
    check_table(checks)
    check_certificates(checks)


def content(name):
    return (EXAMPLES / name).read_bytes()


def check_example(checks, name):
    sheet, plan = content(f"{name}.sheet"), content(f"{name}.plan")
    checks.answers(["words", f"examples/{name}.txt"], b"", sheet)
    checks.same(f"the plan of examples/{name}.sheet", printed_plan(sheet), plan)
    checks.same(f"the first line of examples/{name}.plan", plan.split(b"\n")[0], b"REFUSED 15" if name == CULVERT else b"PLAN")


def check_table(checks):
    """The corner's table before its one step, in five-word rows with room for four; behind a conversion, its step leads to the
    plan's cost."""
    for ending in ["table", "rows"]:
        checks.same(f"examples/*.{ending}", [path.stem for path in EXAMPLES.glob(f"*.{ending}")], ["corner"])
    checks.answers(["show", "examples/corner.table"], b"", content("corner.rows"), TABLE)
    checks.answers(["make", "examples/corner.rows"], b"", content("corner.table"), TABLE)
    made = make_instance(words_of(content("corner.sheet")), [0] * 100)
    five = to_five(encode(made.target[:made.written], [0] * 24).table, [0] * 24).target
    checks.same("examples/corner.table", content("corner.table"), as_bytes(five))
    ran = run_call(to_six(five, [0] * 24).target, 9, [0] * 9)
    checks.same("the run of examples/corner.table", (ran.outcome, ran.steps, ran.bound), ("done", 1, 10))


def check_season(checks):
    """The season of the three examples with stations that are planned, and the figures that their plans come to."""
    for ending in ["season", "figures"]:
        checks.same(f"examples/*.{ending}", [path.stem for path in EXAMPLES.glob(f"*.{ending}")], ["three"])
    checks.answers(["season", "pack", *(f"examples/{name}.txt" for name in NAMES)], b"", content("three.season"))
    costs = [int(content(f"{name}.plan").split()[2]) for name in NAMES]
    figures = [len(NAMES), *[0] * 10, sum(costs), max(costs), costs.index(max(costs)) + 1]
    checks.same("examples/three.figures", content("three.figures").decode(), " ".join(map(str, figures)) + "\n")


def check_shown_season(checks):
    """The README's season of all examples, of which one is refused under 15, and the line that it prints for it."""
    status, packed, said = called(["season", "pack", *(str(EXAMPLES / f"{name}.txt") for name in ALL)], b"")
    line = season_line(packed).decode()
    checks.same("all examples packed", (status, said, line.split()[8]), (0, "", "1"))
    command = "    tools/sheet season pack examples/*.txt | ./season -\n"
    checks.same("the line of all examples in the README", f"{command}\nprints\n\n    {line}" in README.read_text(), True)


def check_certificates(checks):
    """Made with the plans of their sheets, shown as text, and accepted with these sheets; what the README shows of the corner's."""
    for ending in ["certificate", "steps", "verified"]:
        checks.same(f"examples/*.{ending}", sorted(path.stem for path in EXAMPLES.glob(f"*.{ending}")), CERTIFIED)
    for name in CERTIFIED:
        sheet, certificate = content(f"{name}.sheet"), content(f"{name}.certificate")
        checks.same(f"examples/{name}.certificate", (content(f"{name}.plan"), certificate), certified(sheet))
        checks.answers([f"examples/{name}.certificate"], b"", content(f"{name}.steps"), CERTIFICATE)
        told = content(f"{name}.verified")
        checks.same(f"examples/{name}.verified", told, verified(request(sheet, certificate)))
        checks.same(f"the plan in examples/{name}.verified", told.replace(b"ACCEPTED", b"PLAN"), content(f"{name}.plan"))
    for command, ending in [("./verify examples/corner.sheet examples/corner.certificate", "verified"),
                            ("tools/certificate examples/corner.certificate", "steps")]:
        printed = "".join(f"    {line}\n" for line in content(f"corner.{ending}").decode().splitlines())
        checks.same(f"what the README shows of {command}", f"    {command}\n\nprints\n\n{printed}" in README.read_text(), True)
