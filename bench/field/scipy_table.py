"""The table of incremental area analysis by SciPy: the corners and the doubled area of the convex polygon after each
fix. A fix that is at no edge's outer side, by more than what rounding comes to, leaves it; else it is made anew, of its
corners and the fix. The first three fixes must not be in line."""

import sys

import numpy
from fixes import read_fixes
from scipy.spatial import ConvexHull

animal, seconds, xy = read_fixes(sys.argv[1])

hull = ConvexHull(xy[:3])
rows = [(1, 0), (2, 0)]
for point in xy[2:]:
    if (hull.equations[:, :2] @ point + hull.equations[:, 2]).max() > 1e-7:
        hull = ConvexHull(numpy.vstack([hull.points[hull.vertices], point]))
    rows.append((len(hull.vertices), 2 * hull.volume))
for n, (corners, area2) in enumerate(rows):
    print(f"row,{animal},{n + 1},{seconds[n]:.0f},{corners},{area2:.0f}")
