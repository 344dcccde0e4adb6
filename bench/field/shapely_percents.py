"""The convex polygons of the fixes nearest to their mean, by Shapely."""

import sys

from fixes import kept_fixes
from shapely.geometry import MultiPoint

animal, levels = kept_fixes(sys.argv[1])
for level, kept in levels.items():
    polygon = MultiPoint(kept).convex_hull
    corners = len(polygon.exterior.coords) - 1
    print(f"percent,{animal},{level},{len(kept)},{corners},{2 * polygon.area:.0f}")
