"""The table of incremental area analysis by Shapely: the corners and the doubled area of the convex polygon after each
fix. A fix that the prepared polygon covers leaves it; else it is made anew, of its corners and the fix."""

import sys

from fixes import read_fixes
from shapely.geometry import MultiPoint, Point
from shapely.prepared import prep

animal, seconds, xy = read_fixes(sys.argv[1])

corners, area2 = [tuple(xy[0])], 0
polygon = prep(Point(corners[0]))
for n, (x, y) in enumerate(xy.tolist()):
    if not polygon.covers(Point(x, y)):
        hull = MultiPoint([*corners, (x, y)]).convex_hull
        corners = hull.exterior.coords[:-1] if hull.geom_type == "Polygon" else hull.coords[:]
        polygon = prep(hull)
        area2 = 2 * hull.area
    print(f"row,{animal},{n + 1},{seconds[n]:.0f},{len(corners)},{area2:.0f}")
