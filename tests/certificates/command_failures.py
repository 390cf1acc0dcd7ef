"""Where ./plan --certificate and ./verify have no answer: one line that says why, status 1, and no new file; their help, and how
they build."""

import os
import shutil
import socket
import tempfile
from pathlib import Path

import building
from certified import CORNER, files_in, ran_verify, ran_verify_to_full
from commands import EXAMPLES, ROOT, planned, planned_to_full

FIELD = EXAMPLES / "corner.sheet"
SHEET = FIELD.read_bytes()
PLAN_USAGE = "usage: plan --certificate NEW FILE; plan --help says more"
VERIFY_USAGE = "usage: verify FIELD CERTIFICATE; verify --help says more"
PLAN_HELP = [b"plan --certificate NEW FILE", b"200,000 steps", b"4,096 rows", b"./verify"]
VERIFY_HELP = [b"usage: verify FIELD CERTIFICATE", b"ACCEPTED", b"REFUSED n", b"200,015", b"268,431,361", b"tools/certificate",
               b"The exit status is 0 for ACCEPTED alone"]
VERIFY_HELP += [f"        {number} ".encode() for number in ("1 to 5", 6, 7, 10, 12)]
UNKNOWN = "the program's answer is unknown"
# Programs in place of the true ones: what they do, and what is said of each.
CERTIFIERS = {
    "silent": ("true", "the program gave no answer"),
    "failing": ("echo x >&3; echo PLAN; exit 3", "the program ended with status 3"),
    "keeping": ("echo PLAN", "the program gave no certificate"),
}
VERIFIERS = {
    "silent": ("true", "the program gave no answer"),
    "failing": ("printf 'ACCEPTED\\nCOST 1\\n'; exit 3", "the program ended with status 3"),
    **{f"wrong {at}": (f"printf '{text}'", UNKNOWN)
       for at, text in enumerate(["ACCEPTED", "ACCEPTED\\n", "ACCEPTED\\nCOST\\n", "ACCEPTED\\nCOST x\\n", "ACCEPTED\\nCOST 10",
                                  "PLAN\\nCOST 10\\n", "REFUSED\\n", "REFUSED 7", "REFUSED x\\n", "REFUSED 7 7\\n",
                                  "\\nACCEPTED\\nCOST 10\\n", "ACCEPTED\\nCOST 99999999999999999999\\n"])},
}


def check_arguments(checks, folder):
    new = str(folder / "new")
    for arguments in (["--certificate"], ["--certificate", new], ["--certificate", new, FIELD, FIELD], ["--certificate", "", FIELD],
                      ["--certificate", "-", FIELD], ["--certificate", new, "--certificate", new, FIELD], [FIELD, "--certificate"]):
        checks.same(f"plan {arguments}", planned(arguments), (1, b"", f"plan: {PLAN_USAGE}\n"))
    for arguments in ([], [FIELD], [FIELD, new, new], ["-"]):
        checks.same(f"verify {arguments}", ran_verify(arguments), (1, b"", f"verify: {VERIFY_USAGE}\n"))
    checks.same("what is left of these", files_in(folder), {"field": SHEET, "certificate": CORNER})


def check_help(checks, folder):
    for name, ran, arguments, parts in (("plan", planned, ["--help"], PLAN_HELP),
                                        ("plan", planned, ["--certificate", folder / "new", "-h"], PLAN_HELP),
                                        ("verify", ran_verify, ["--help"], VERIFY_HELP),
                                        ("verify", ran_verify, ["-h", "-"], VERIFY_HELP)):
        status, printed, said = ran(arguments)
        checks.same(f"{name} {arguments}", (status, said), (0, ""))
        for part in parts:
            checks.same(f"{name} --help has {part}", part in printed, True)
        checks.same(f"the longest line of {name} --help", max(map(len, printed.decode().split("\n"))) <= 80, True)


def unreadable(folder):
    """Names of files that cannot be read, and what is said of them."""
    yield folder / "nowhere", f"there is no file {folder / 'nowhere'}"
    yield folder, f"{folder} is a directory"
    yield "/proc/self/mem", "cannot read /proc/self/mem"
    yield folder / "socket", f"cannot read {folder / 'socket'}"


def check_unreadable(checks, folder):
    with socket.socket(socket.AF_UNIX) as made:
        made.bind(str(folder / "socket"))
        for name, said in unreadable(folder):
            checks.same(f"plan --certificate of {name}", planned(["--certificate", folder / "new", name]),
                        (1, b"", f"plan: {said}\n"))
            for arguments in ([name, folder / "certificate"], [folder / "field", name]):
                checks.same(f"verify {arguments}", ran_verify(arguments), (1, b"", f"verify: {said}\n"))
    checks.same("what is left of these", files_in(folder), {"field": SHEET, "certificate": CORNER})


def check_new_files(checks, folder):
    """Names that a certificate cannot have."""
    field, link = folder / "field", folder / "link"
    link.symlink_to(field)
    same = "is the file that is read; the certificate needs a file of its own"
    around = f"{folder}/../{folder.name}/field"
    for arguments, said in [([field, field], f"{field} {same}"), ([around, field], f"{around} {same}"),
                            ([link, field], f"{link} {same}"), ([field, link], f"{field} {same}"),
                            ([folder, field], f"{folder} is a directory"),
                            (["/dev/null", field], "/dev/null is no ordinary file"),
                            ([folder / "none" / "new", field], f"there is no directory {folder / 'none'}")]:
        checks.same(f"plan --certificate {arguments}", planned(["--certificate", *arguments]), (1, b"", f"plan: {said}\n"))
    checks.same("what is left of these", files_in(folder), {"field": SHEET, "certificate": CORNER, "link": SHEET})


def check_places(checks, folder):
    """No folder for temporary files, one that takes no certificate, where that binds whoever tests, and an output that takes
    nothing."""
    field, new, closed = folder / "field", folder / "new", folder / "closed"
    for name, ran, arguments in (("plan", planned, ["--certificate", new, field]),
                                 ("verify", ran_verify, [field, folder / "certificate"])):
        checks.same(f"{name} with no room for temporary files", ran(arguments, TMPDIR=str(folder / "none")),
                    (1, b"", f"{name}: no temporary file can be made\n"))
    closed.mkdir()
    closed.chmod(0o555)
    if not os.access(closed, os.W_OK):
        checks.same("a certificate in a closed folder", planned(["--certificate", closed / "new", field]),
                    (1, b"", f"plan: cannot write {closed / 'new'}\n"))
    checks.same("what these leave", files_in(folder), {"field": SHEET, "certificate": CORNER})
    checks.same("plan --certificate to a full device", planned_to_full(["--certificate", new, field]),
                (1, "plan: the certificate was written; the answer cannot be"))
    checks.same("the certificate written with it", files_in(folder)["new"], CORNER)
    checks.same("verify to a full device", ran_verify_to_full([field, folder / "certificate"]),
                (1, "verify: the answer cannot be written"))


def made_repository(folder, program, toolchain=building.TOOLCHAIN):
    """A repository of three crates whose programs for certificates are this one, and a search path with this toolchain."""
    made, path = building.repository(folder, f"#!/bin/sh\n{program}\n", toolchain)
    shutil.copy(ROOT / "verify", made)
    (made / "crates.txt").write_text(building.CRATES + "certify: table\nverify: table\n")
    return made, path


class Exchanged:
    """A command whose program is built and can be exchanged for another."""

    def __init__(self, folder, ran, command, crate):
        made, path = made_repository(folder, "exit 9")
        self.ran = lambda arguments: ran(arguments, command=made / command, path=path)
        self.program = made / "target" / "bin" / crate

    def answer(self, text, arguments):
        """What the command does with a program of this text."""
        if not self.program.exists():
            self.ran(arguments)
        self.program.write_text(f"#!/bin/sh\ncat >/dev/null\n{text}\n")
        return self.ran(arguments)


def check_certifiers(checks, folder):
    """Nothing is written where the program does not answer as it has to, or has a certificate without a plan."""
    plan, arguments = Exchanged(folder / "made", planned, "plan", "certify"), ["--certificate", folder / "new", folder / "field"]
    for name, (text, said) in CERTIFIERS.items():
        checks.same(f"a {name} program", plan.answer(text, arguments), (1, b"", f"plan: {said}\n"))
    checks.same("a certificate without a plan", plan.answer("echo certificate >&3; echo REFUSED 15", arguments),
                (2, b"REFUSED 15\n", f"plan: {folder / 'field'}: every plan has a forbidden combination of spots (refusal 15)\n"))
    checks.same("a program that pauses", plan.answer("echo certificate >&3; echo PAUSED 200000 BOUND 7", arguments),
                (3, b"PAUSED 200000 BOUND 7\n", f"plan: {folder / 'field'}: not planned within 200000 steps, "
                 "the most that the program makes; no plan costs less than 7\n"))
    checks.same("what these leave", files_in(folder), {"field": SHEET, "certificate": CORNER})


def check_verifiers(checks, folder):
    """No status 0 but for a whole answer of ACCEPTED."""
    verify, arguments = Exchanged(folder / "made", ran_verify, "verify", "verify"), [folder / "field", folder / "certificate"]
    for name, (text, said) in VERIFIERS.items():
        status, _, told = verify.answer(text, arguments)
        checks.same(f"a {name} program", (status, told), (1, f"verify: {said}\n"))
    checks.same("an unknown number", verify.answer("echo REFUSED 99", arguments),
                (2, b"REFUSED 99\n", f"verify: {folder / 'field'}: refused with number 99, which verify --help explains\n"))


def check_building(checks, folder):
    """A build before the first answer and none where nothing has changed, each command and option with its own program and mark."""
    made, path = made_repository(folder / "made", 'cat >/dev/null; echo REFUSED 99; echo "${0##*/}" >>"$(dirname "$0")/../called"')
    field = folder / "field"
    for name, ran, arguments, marked, crate in (("plan", planned, ["--certificate", folder / "new", field], "certify", "certify"),
                                                ("plan", planned, [field], "plan", "planner"),
                                                ("verify", ran_verify, [field, folder / "certificate"], "verify", "verify")):
        first = f"{name}: proving and building the program; the first time takes some minutes\n"
        counted = first + "".join(f"{name}: {count} of 3 crates proved\n" for count in (1, 2, 3))
        answer = f"{name}: {field}: refused with number 99, which {name} --help explains\n"
        checks.same(f"whether {marked} is built before", (made / "target" / f"{marked}.built").exists(), False)
        for what, said in (("first", counted + answer), ("second", answer)):
            checks.same(f"the {what} run of {marked}", ran(arguments, command=made / name, path=path), (2, b"REFUSED 99\n", said))
            checks.same(f"the program of {marked}", (made / "target" / "called").read_text().splitlines()[-1], crate)
        checks.same(f"the log of {marked}", (made / "target" / f"{marked}.log").read_text().count("logic=proved "), 3)
    made, path = made_repository(folder / "broken", "true", building.FAILING)
    said = "verify: proving and building the program; the first time takes some minutes\nverify: 1 of 3 crates proved\n"
    checks.same("a failing toolchain", ran_verify([field, folder / "certificate"], command=made / "verify", path=path),
                (1, b"", f"{said}verify: the program could not be proved and built; see target/verify.log\n"))


def run(checks):
    for check in (check_arguments, check_help, check_unreadable, check_new_files, check_places, check_certifiers, check_verifiers,
                  check_building):
        with tempfile.TemporaryDirectory() as made:
            folder = Path(made).resolve()
            (folder / "field").write_bytes(SHEET)
            (folder / "certificate").write_bytes(CORNER)
            check(checks, folder)
