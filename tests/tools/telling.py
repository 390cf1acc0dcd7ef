"""Text and words told apart: the rule in Python and the rule in the shell, which are the same."""

import subprocess
import tempfile
from pathlib import Path

from checks import ROOT
from examples import ALL, content
from reference import fields, words
from sheets.forms import is_text

TEXTS = [b"stat", b"stations 0", b"\t\n\r ", b"\xff\xfe\x80\x7f", b"abcd\x01\x1f", b"# a\r\n\r\n", b" " * 64_001 + b"\0"]
NO_TEXTS = [b"", b"a", b"abc", bytes(4), b"abc\0", b"\x01bcd", b"ab\x1fd", b"abc\x0b", b"abcd\0", b" " * 64_000 + b"\0"]
NO_TEXTS += [fields.as_bytes([words.head(stations)]) for stations in range(13)]

SHELL = '. "$0"; if is_text "$1"; then echo text; else echo words; fi'


def in_the_shell(data):
    with tempfile.NamedTemporaryFile() as file:
        Path(file.name).write_bytes(data)
        asked = ["bash", "-euo", "pipefail", "-c", SHELL, ROOT / "tools" / "commands" / "input.sh", file.name]
        return subprocess.run(asked, capture_output=True, check=True).stdout.decode()


def run(checks):
    texts = TEXTS + [content(f"{name}.txt") for name in ALL]
    no_texts = NO_TEXTS + [content(f"{name}.sheet") for name in ALL]
    for form, all_data in [("text", texts), ("words", no_texts)]:
        for data in all_data:
            what = f"the form of {len(data)} bytes, {data[:20]}"
            checks.same(what, "text" if is_text(data) else "words", form)
            checks.same(f"{what}, in the shell", in_the_shell(data), f"{form}\n")
