"""What the tools for sheets, tables and certificates share: faults, files, commands, words, lines of text and stations."""
