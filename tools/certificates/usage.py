"""What is printed where the command is not called with one file."""

USAGE = """usage: certificate FILE    the certificate in FILE, words of 32 bits, as text
FILE may be -, the standard input. The text goes to the standard output: the plan as station/spot for each station, its cost, the
number of steps, and each step with its station and its two rows, which count from 0 in the table that the steps before it leave.
A word in place of a step is shown with its place in the file, its kind and its payload. A file that is no certificate has no
text: its first fault is said. Whether a certificate holds for a field is said by ./verify."""
