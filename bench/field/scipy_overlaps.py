"""How many fixes of each animal lie in the convex polygon of each other one, by SciPy's hulls: a fix is in the polygon
where it is at no edge's outer side, by more than what rounding comes to."""

import sys

from fixes import read_animals
from scipy.spatial import ConvexHull

animals = read_animals(sys.argv[1:])
hulls = {name: ConvexHull(xy).equations for name, xy in animals.items()}

for name, xy in animals.items():
    for other, edges in hulls.items():
        if other != name:
            within = (xy @ edges[:, :2].T + edges[:, 2] <= 1e-7).all(axis=1)
            print(f"overlap,{name},{other},{within.sum()},{len(xy)}")
