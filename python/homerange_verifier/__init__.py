"""Holds a folder of evidence to what it says: what can be made again is made again and compared. The lines of a report are
computed by code of its own (lines, hull), which shares nothing with the package homerange, nor with the program."""
