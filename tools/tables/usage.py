"""What is printed where a command is not one of these."""

USAGE = """usage: table show FILE    the table in FILE, words of 32 bits, as text
       table make FILE    the words of a table in text form
FILE may be -, the standard input. The result goes to the standard output. The text tells the form of the rows (five words to a
row, as last year's tables have, or six), the words of the table and the rows that they have room for, the stations with their
spots, or 'stations 0' where there are none, and each row with its weight and its signs: 'unless 0/1,2 1/0' are the spots 1 and 2
of station 0 and spot 0 of station 1, and a plan costs the weight unless it has one of them. A table that is not valid has no
text: its first fault is said. A table is not turned into the other form here."""
