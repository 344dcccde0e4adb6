"""The ranges of fixes: their tracks, the runs of the program and its report, groups, and what is answered of them."""
