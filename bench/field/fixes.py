"""The fixes of a file, for the scripts in Python."""

import math
import pathlib

import numpy


def read_fixes(name):
    """The animal, the second of each fix, and its coordinates."""
    path = pathlib.Path(name)
    fixes = numpy.loadtxt(path, delimiter=",", skiprows=1, usecols=(1, 2, 3))
    return path.stem, fixes[:, 0], fixes[:, 1:]


def read_animals(names):
    """By animal the coordinates of its fixes."""
    return {animal: xy for animal, _, xy in map(read_fixes, names)}


def kept_fixes(name):
    """The animal, and by level the fixes that it keeps, those nearest to their mean."""
    animal, _, xy = read_fixes(name)
    nearest = numpy.argsort(((xy - xy.mean(axis=0)) ** 2).sum(axis=1), kind="stable")
    return animal, {level: xy[nearest[: math.ceil(len(xy) * level / 100)]] for level in (50, 95, 100)}
