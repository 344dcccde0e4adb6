"""The commands of the package. Each takes its name, by which it says what is wrong: that of the entry point, or that of the
script of tools/ in a clone."""
