"""Checks that are counted: each that fails is printed, and the verdict says how many there were."""

# How much of a differing result is printed.
SHOWN = 300


class Counted:
    def __init__(self):
        self.made = 0
        self.failed = 0

    def same(self, what, got, expected):
        self.made += 1
        if got != expected:
            self.failed += 1
            print(f"FAILED {what}\n  expected {repr(expected)[:SHOWN]}\n  got      {repr(got)[:SHOWN]}")

    def verdict(self, name):
        """Prints the count; the status for the command to end with."""
        if self.failed:
            print(f"{name}: {self.failed} of {self.made} checks fail")
            return 1
        print(f"{name}: {self.made} checks")
        return 0
