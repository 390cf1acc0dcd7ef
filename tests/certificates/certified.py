"""The programs certify and verify and the commands in front of them, run as users run them."""

import shlex
from functools import partial
from pathlib import Path

from commands import ROOT, planned, planned_to_full
from programs import given_whole
from reference.certificates import certificate_words
from reference.fields import as_bytes

CERTIFY, VERIFY = (ROOT / "target" / "bin" / name for name in ("certify", "verify"))
# The certificate of document 01's worked example, with the sheet in the examples.
CORNER = as_bytes([0x10000002, 0x30000000, 0x30000101, 0x6000000A, 0xC0000000, 0x71000001])

ran_verify = partial(planned, command=ROOT / "verify")
ran_verify_to_full = partial(planned_to_full, command=ROOT / "verify")


class Certifier:
    """The program with a file of this folder as descriptor 3, where it writes a certificate."""

    def __init__(self, folder):
        self.file = Path(folder) / "made"
        self.program = started(Path(folder) / "certify", f"3>{shlex.quote(str(self.file))}")

    def __call__(self, source, given=given_whole):
        """What it prints, and what it writes there."""
        return given(self.program, source), self.file.read_bytes()


def started(path, redirection):
    """A program that is certify with this redirection."""
    path.write_text(f"#!/bin/sh\nexec {shlex.quote(str(CERTIFY))} {redirection}\n")
    path.chmod(0o755)
    return path


def packed(certificate):
    """The bytes of a certificate that is given by its parts."""
    return as_bytes(certificate_words(certificate))


def files_in(folder):
    """Every file's name and bytes, hidden ones too."""
    return {path.name: path.read_bytes() for path in folder.iterdir() if path.is_file()}
