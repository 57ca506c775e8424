"""What a case says: its text, names, groups and words, the files beside it, a plan as a table."""
