"""The table of incremental area analysis by SciPy: the corners and the doubled area of the convex polygon after each
fix, of a hull to which the fixes are added one by one. The first three must not be in line. Where a fix makes an edge
longer, being in line with it, `volume` leaves out that edge, and the area is too small. Each addition copies all fixes
so far."""

import sys

from fixes import read_fixes
from scipy.spatial import ConvexHull

animal, seconds, xy = read_fixes(sys.argv[1])

hull = ConvexHull(xy[:3], incremental=True)
rows = [(1, 0), (2, 0), (len(hull.vertices), 2 * hull.volume)]
for point in xy[3:]:
    hull.add_points([point])
    rows.append((len(hull.vertices), 2 * hull.volume))
for n, (corners, area2) in enumerate(rows):
    print(f"row,{animal},{n + 1},{seconds[n]:.0f},{corners},{area2:.0f}")
