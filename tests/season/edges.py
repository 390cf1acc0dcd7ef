"""What the program reads and what it does not, reads and writes that fail, and seasons of more bytes than its memory. The
answers are worked out by hand."""

import os
import resource
import subprocess

from programs import at_failed_read, at_failed_write, given_one_by_one, left_in_file, shown
from reference.fields import NO_HEAD, NO_WORDS, as_bytes, length, season, sheet
from seasons import ONE, PASSED_OVER
from sheets import HERE

UNREAD = b"season: the season cannot be read\n"
UNWRITTEN = b"season: the figures cannot be written\n"
BEHIND = bytes(range(1, 101))
# Bytes of address space, with the program itself and its stack.
MEMORY = 64_000_000
GREATEST = as_bytes(sheet([[HERE]], [([], 65_535)] * 4_096))


def left_in_pipe(program, source):
    """The answer, and what stands in the pipe afterwards; the source is short enough to stand there whole."""
    reader, writer = os.pipe()
    with open(reader, "rb") as pipe:
        os.write(writer, source)
        os.close(writer)
        ran = subprocess.run([program], stdin=pipe, capture_output=True, check=False)
        return shown(ran.returncode, ran.stdout, ran.stderr), pipe.read()


def check_nothing_behind_is_read(checks, program):
    first = [NO_WORDS] * 9_999
    source, line = season([*first, NO_WORDS]), b"10000 0 0 0 0 0 0 0 0 0 0 0 0 1\n"
    checks.same("what is left in a pipe behind 10,000 sheets", left_in_pipe(program, source + BEHIND), (line, BEHIND))
    checks.same("10,000 sheets before a read that would fail", at_failed_read(program, source), line)
    for name, last, line in (("no words", NO_WORDS, line),
                             ("a plan", ONE, b"10000 0 0 0 0 0 0 0 0 0 0 10 10 10000\n"),
                             ("no head", NO_HEAD, b"9999 1 0 0 0 0 0 0 0 0 0 0 0 1\n"),
                             ("passed-over words", PASSED_OVER, b"9999 0 0 0 0 0 1 0 0 0 0 0 0 1\n")):
        checks.same(f"what is left in a file behind {name} as the 10,000th sheet",
                    left_in_file(program, season([*first, last]) + BEHIND), (line, BEHIND))


def check_failures(checks, program):
    """They are told, and no line is written."""
    passed_over = season([ONE, PASSED_OVER])
    for name, source in (("at once", b""), ("in a length", length(1)[:2]), ("behind a length", length(1)),
                         ("in a sheet", season([ONE])[:-1]), ("behind a sheet", season([ONE])),
                         ("behind a length above 16,000", length(16_001)), ("in passed-over words", passed_over[:40_000]),
                         ("at a length above 16,000 that is cut", length(0xFFFFFFFF)[:3]),
                         ("behind no words", length(0))):
        checks.same(f"a read that fails {name}", at_failed_read(program, source), shown(0, b"", UNREAD))
    for name, source in (("no sheet", b""), ("a sheet", season([ONE]))):
        checks.same(f"a write that fails for {name}", at_failed_write(program, source), shown(0, b"", UNWRITTEN))


def limited():
    resource.setrlimit(resource.RLIMIT_AS, (MEMORY, MEMORY))


def check_memory(checks, program):
    """Seasons of 164 MB and of 228 MB, which are made while they are read, in less memory."""
    greatest = (season([GREATEST]) for _ in range(10_000))
    checks.same("10,000 sheets of the greatest cost", given_one_by_one(program, greatest, preexec_fn=limited),
                b"10000 0 0 0 0 0 0 0 0 0 0 2684313600000 268431360 1\n")
    checks.same("sheets of 164 and 64 MB", given_one_by_one(program, long_pieces(), preexec_fn=limited),
                b"2 1000 0 0 0 0 1 0 0 0 0 20 10 1\n")


def long_pieces():
    """A sheet, one of 41,000,000 words, a thousand of 16,000, and a sheet."""
    yield season([ONE]) + length(41_000_000)
    for _ in range(41_000_000 // 16_000):
        yield bytes(64_000)
    yield bytes(4 * (41_000_000 % 16_000))
    for _ in range(1_000):
        yield season([bytes(64_000)])
    yield season([ONE])


def run(checks, program):
    check_nothing_behind_is_read(checks, program)
    check_failures(checks, program)
    check_memory(checks, program)
