"""Requests as files, in pieces, cut anywhere, and longer than what is read; reads and writes that fail."""

import os
import tempfile
from pathlib import Path

from certified import CERTIFY, VERIFY, Certifier, started
from damaged import front_words
from programs import at_failed_read, at_failed_write, given_as_file, given_in_pieces, given_whole, shown
from reference.certificates import MOST_WORDS, request, verified
from small_sheets import planned_fields, small_fields

SHEET_UNREAD = b"certify: the sheet cannot be read\n"
UNWRITTEN = b"certify: the certificate cannot be written\n"
PLAN_UNWRITTEN = b"certify: the plan cannot be written\n"
UNREAD = b"verify: the certificate cannot be read\n"
VERDICT_UNWRITTEN = b"verify: the answer cannot be written\n"


def failed(said):
    """No answer, and this on the standard error."""
    return shown(0, b"", said)


def named(name):
    return next(field for field in small_fields() if field.name == name)


def pieces_of(length):
    return lambda program, source: given_in_pieces(program, source, length)


def check_ways(checks, folder):
    certify = Certifier(folder)
    for name, sheet, text, certificate in (named("corner"), named("headland"), named("no words"), named("culvert")):
        asked = request(sheet, certificate)
        for way in (given_as_file, *(pieces_of(length) for length in (1, 3, 50, 1_000))):
            checks.same(f"{name} certified", certify(sheet, way), (text, certificate))
            checks.same(f"{name} verified", way(VERIFY, asked), verified(asked))


def check_cut(checks, _):
    """A request cut at every byte; without the whole front of its certificate it is refused, whatever its sheet is then."""
    for name, sheet, _, certificate in (named("corner"), named("growing"), named("no words"), *planned_fields(12, 20)[:2]):
        asked, front = request(sheet, certificate), 4 * front_words(certificate)
        for length in range(len(asked)):
            due = verified(asked[:length])
            checks.same(f"{name} cut to {length} bytes", given_whole(VERIFY, asked[:length]), due)
            if length < len(asked) - len(certificate) + front:
                checks.same(f"whether {name} is refused at {length} bytes", due[:7], b"REFUSED")


def check_more(checks, _):
    """What is behind the most that is read changes nothing."""
    _, sheet, _, certificate = named("corner")
    for field in (sheet, sheet + bytes(64_000 - len(sheet)), bytes(70_000)):
        whole = request(field, certificate)
        for length in (864_064, 864_065, 864_066, 1_000_000):
            asked = whole + bytes(length - len(whole))
            checks.same(f"{length} bytes", given_as_file(VERIFY, asked), verified(asked))
    checks.same("the most that is read", 4 + 64_000 + 4 * MOST_WORDS, 864_064)


def check_failures(checks, folder):
    _, sheet, text, certificate = named("corner")
    certify, asked = Certifier(folder), request(sheet, certificate)
    # A whole sheet, and a whole certificate, may have come before a read fails.
    for source in (b"", sheet[:36], sheet):
        checks.same("certify at a read that fails", certify(source, at_failed_read), (failed(SHEET_UNREAD), b""))
    for source in (b"", asked[:48], asked):
        checks.same("verify at a read that fails", at_failed_read(VERIFY, source), failed(UNREAD))
    checks.same("certify at a write that fails", certify(sheet, at_failed_write), (failed(PLAN_UNWRITTEN), certificate))
    checks.same("verify at a write that fails", at_failed_write(VERIFY, asked), failed(VERDICT_UNWRITTEN))


def check_certificate_unwritten(checks, folder):
    """Without a place for the certificate there is no plan; what has no certificate needs no place."""
    full = started(folder / "full", "3>/dev/full")
    closed = started(folder / "closed", "3>&-")
    for name, sheet, text, certificate in (named("corner"), named("headland"), named("no words"), named("culvert")):
        for program in (full, closed, CERTIFY):
            checks.same(f"{name} with no place for a certificate", given_whole(program, sheet),
                        failed(UNWRITTEN) if certificate else text)


def check_pipe(checks, folder):
    """The certificate is written before the text, whole, also through a pipe that is read slowly."""
    pipe = folder / "pipe"
    os.mkfifo(pipe)
    _, sheet, text, certificate = named("headland")
    program = started(folder / "certify-to-pipe", f"3>{pipe}")
    kept = os.open(pipe, os.O_RDWR)
    checks.same("a plan with its certificate in a pipe", given_whole(program, sheet), text)
    checks.same("the certificate in the pipe", os.read(kept, 1 << 20), certificate)
    os.close(kept)


def run(checks):
    for check in (check_ways, check_cut, check_more, check_failures, check_certificate_unwritten, check_pipe):
        with tempfile.TemporaryDirectory() as made:
            check(checks, Path(made))
