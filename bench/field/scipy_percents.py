"""The convex polygons of the fixes nearest to their mean, by SciPy: kept fixes, corners and doubled area of each
level."""

import sys

from fixes import kept_fixes
from scipy.spatial import ConvexHull

animal, levels = kept_fixes(sys.argv[1])
for level, kept in levels.items():
    hull = ConvexHull(kept)
    print(f"percent,{animal},{level},{len(kept)},{len(hull.vertices)},{2 * hull.volume:.0f}")
