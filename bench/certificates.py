"""Certificates in the benchmark: sheets planned by the program that certifies and verified by the one that verifies, the instructions
of both, and the same certificates by the plain implementation."""

import subprocess
from typing import NamedTuple

import figures
import solver
from fields import STRIPS, fields, strip, strip_sheet
from reference.certificates import request

CERTIFY, VERIFY = [figures.ROOT / "target" / "bin" / name for name in ("certify", "verify")]
PLAIN = figures.BUILT / "certificates"
# The strips, two fields of the other table, and the examples that have a plan.
EXAMPLES = ["corner", "flooded", "headland", "terraces"]
NAMES = [field.name for field in STRIPS] + ["12x3", "12x8"] + EXAMPLES
# Of planning's instructions.
MOST_TO_VERIFY = 1.0
# So many strips are planned by the plain implementation alone.
TRIED = 200

COLUMNS = ["field", "cost", "toulbar2", "steps", "words", "certify instr", "verify instr", "ratio"]
WIDTHS = [9, 6, 8, 6, 6, 13, 13, 6]


class Plain(NamedTuple):
    """The plain implementation's certificate, and what it verifies of it."""
    certificate: bytes
    number: int         # of the refusal
    cost: int
    steps: int


class Proved(NamedTuple):
    """What the programs write, and the instructions of both; 0 where they are not counted."""
    text: str
    certificate: bytes
    verdict: str
    planning: int
    verifying: int

    def ratio(self):
        return self.verifying / self.planning if self.planning else 0


def are_there():
    return CERTIFY.exists() and VERIFY.exists()


def file_of(name, suffix):
    return figures.BUILT / (name + suffix)


def build():
    """Builds the plain program, and puts the examples beside the other sheets."""
    figures.build("certificates.rs", PLAIN, figures.build_plain())
    for name in EXAMPLES:
        file_of(name, ".sheet").write_bytes((figures.ROOT / "examples" / (name + ".sheet")).read_bytes())


def plain_certificate(sheet):
    """No bytes where there is no plan."""
    return subprocess.run([PLAIN, "make", sheet], check=True, capture_output=True).stdout


def by_plain(name):
    sheet, certificate = file_of(name, ".sheet"), file_of(name, ".plain-certificate")
    certificate.write_bytes(plain_certificate(sheet))
    done = subprocess.run([PLAIN, "verify", sheet, certificate], check=True, capture_output=True, text=True)
    return Plain(certificate.read_bytes(), *map(int, done.stdout.split()))


def by_programs(name):
    """The first program writes the certificate to descriptor 3."""
    sheet, certificate, asked = file_of(name, ".sheet"), file_of(name, ".certificate"), file_of(name, ".request")
    to_certificate = ["sh", "-c", 'exec "$@" 3>"$0"', certificate]
    text = output([*to_certificate, CERTIFY], sheet)
    asked.write_bytes(request(sheet.read_bytes(), certificate.read_bytes()))
    return Proved(text, certificate.read_bytes(), output([VERIFY], asked),
                  counted(CERTIFY, sheet, to_certificate), counted(VERIFY, asked))


def output(command, source):
    with source.open("rb") as stdin:
        return subprocess.run(command, stdin=stdin, check=True, capture_output=True, text=True).stdout


def counted(program, source, before=()):
    with source.open("rb") as stdin:
        return figures.counted([program], stdin=stdin, before=before)


def certificate_line(name):
    """The cells of a field, and what is not as it should be, or None."""
    plain = by_plain(name)
    proved = by_programs(name) if are_there() else None
    least = solver.solved(file_of(name, ".sheet")) if solver.is_there() else None
    cells = [name, plain.cost, least.cost if least else "-", plain.steps, len(plain.certificate) // 4]
    cells += [proved.planning, proved.verifying, f"{proved.ratio():.3f}"] if proved else ["-", "-", "-"]
    return cells, plain_fault(plain, least) or (proved and proved_fault(proved, plain))


def plain_fault(plain, least):
    if plain.number:
        return f"the plain implementation makes no certificate that it accepts: {plain.number}"
    if least and least.cost != plain.cost:
        return f"the cost is {plain.cost}, by toulbar2 {least.cost}"
    return None


def proved_fault(proved, plain):
    """Cost and steps are those of the plain implementation, whose cost has been compared with toulbar2's."""
    if not proved.text.startswith(f"PLAN\nCOST {plain.cost}\nSTEPS {plain.steps}\n"):
        return f"not planned as by the plain implementation: {proved.text.splitlines()[:3]}"
    if proved.certificate != plain.certificate:
        return "another certificate than the plain implementation's"
    if proved.verdict != proved.text.replace("PLAN", "ACCEPTED", 1):
        return f"the certificate is not accepted with the same lines: {proved.verdict.splitlines()[:3]}"
    if proved.ratio() > MOST_TO_VERIFY:
        return f"verifying takes {proved.ratio():.3f} times planning's instructions, above {MOST_TO_VERIFY}"
    return None


def tried():
    """A line on so many strips: how many of them the plain implementation plans, and in how many steps."""
    sheet, lengths = file_of("tried", ".sheet"), []
    for seed in range(1, TRIED + 1):
        sheet.write_bytes(fields.as_bytes(strip_sheet(strip(seed))))
        lengths.append(len(plain_certificate(sheet)) // 4)
    # Before the steps stand a head, a word for each of the twelve stations, and two of the cost.
    steps = [length - 15 for length in lengths if length]
    return (f"strips of the seeds 1 to {TRIED}: {len(steps)} planned by the plain implementation, {TRIED - len(steps)} not; "
            f"{min(steps)} to {max(steps)} steps")
