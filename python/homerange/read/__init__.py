"""Reading fixes: a data frame is written as a text, which the program homerange-split reads, as it reads files; and what it made
is read back. docs/TABLES.md says how tables are read."""
