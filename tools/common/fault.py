"""The way a fault travels from the place where it is found to the command that prints it."""


class Fault(Exception):
    """Raised at the first fault. The place is a line of a text, a word of a sheet, a table or a certificate, or a sheet of a season;
    the reason is plain words."""

    def __init__(self, place, reason):
        super().__init__(f"{place}: {reason}")
        self.place = place
        self.reason = reason


class Failure(Exception):
    """Raised where a command cannot go on; its text is all that is printed."""
