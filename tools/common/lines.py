"""Text of lines that begin with a word each: comments, numbers in order, and faults with their line."""

import re

from .fault import Fault

# Characters at which an editor may show a new line though the text has none: what follows would be lost in a comment.
BREAK = re.compile("[\r\v\f\x1c-\x1e\x85\u2028\u2029]")


class Lines:
    """What is read of a text, line by line; a fault names the line read last."""

    # More digits than any limit has are no number of this text.
    digits = 9

    def __init__(self):
        self.line = 0

    def takers(self):
        """The words that a line may begin with, each with what takes the rest of the line."""
        raise NotImplementedError

    def refuse(self, reason):
        raise Fault(f"line {self.line}", reason)

    def finished(self):
        """What all lines together say."""
        raise NotImplementedError

    @classmethod
    def read(cls, text):
        lines = cls()
        for line in text.split("\n"):
            lines.take_line(line)
        return lines.finished()

    def take_line(self, line):
        self.line += 1
        line = line[:-1] if line.endswith("\r") else line
        if BREAK.search(line):
            self.refuse("a line ends with a line feed, or with a carriage return and a line feed; here another sign of a new line stands in it")
        parts = line.split("#")[0].split()
        if not parts:
            return
        takers = self.takers()
        if parts[0] not in takers:
            self.refuse(f"unknown word {parts[0]!r}; a line begins with {', '.join(takers)} or #")
        takers[parts[0]](parts[1:])

    def take_number(self, what, text, due, most):
        """Numbers are written out for the reader's sake, since others name them; they say nothing new."""
        if self.whole_number(what, text, most - 1) != due:
            self.refuse(f"{what} {text} where {what} {due} is due; they are numbered from 0 in order")

    def whole_number(self, what, text, highest, lowest=0):
        if not re.fullmatch(f"[0-9]{{1,{self.digits}}}", text) or not lowest <= int(text) <= highest:
            self.refuse(f"{what} {text!r} is not a whole number from {lowest} to {highest}")
        return int(text)
