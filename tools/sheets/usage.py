"""What is printed where a command is not one of these."""

USAGE = """usage: sheet words FILE                            the words of a sheet in text form
       sheet text FILE                             the text form of a sheet in words
       sheet why FILE                              why the planner refuses a sheet in words; nothing where it does not
       sheet season pack FILE ...                  the season of these sheets, text or words, in this order
       sheet season unpack [--text] SEASON FOLDER  its sheets as FOLDER/00001.sheet ..., or as text as FOLDER/00001.txt ...
       sheet season why SEASON                     why the planner refuses sheets of a season, a line for each
FILE and SEASON may be -, the standard input. The result goes to the standard output, that of unpack to FOLDER, which is
made or has to be empty. A faulty sheet has no text: unpack --text writes it as words and names it on the standard error.
Words whose bytes read as text are packed as text; unpack names such a sheet too. That every plan has a forbidden
combination (refusal 15) is found by planning alone, so why does not say it. A field with no stations has the line
'stations 0' before its costs, or no words: an empty file is such a sheet, and so is a text of comments alone. pack
takes one to three bytes for words that are cut, whatever they are."""
