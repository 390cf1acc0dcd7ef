"""The command ./convert, run as a user runs it, and the files that it leaves."""

from functools import partial

from commands import ROOT, planned, planned_to_full

CONVERT = ROOT / "convert"
PROGRAM = ROOT / "target" / "bin" / "converter"
# The words of the longest table: 4,096 rows of six words over twelve stations.
MOST_WORDS = 24_590

converted = partial(planned, command=CONVERT)
converted_to_full = partial(planned_to_full, command=CONVERT)


def files_in(folder):
    """Every file's name and bytes, hidden ones too."""
    return {path.name: path.read_bytes() for path in folder.iterdir() if path.is_file()}
