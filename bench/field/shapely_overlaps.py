"""How many fixes of each animal lie in the convex polygon of each other one, by Shapely."""

import sys

from fixes import read_animals
from shapely import vectorized
from shapely.geometry import MultiPoint

animals = read_animals(sys.argv[1:])
polygons = {name: MultiPoint(xy).convex_hull for name, xy in animals.items()}

for name, xy in animals.items():
    x, y = xy.T
    for other, polygon in polygons.items():
        if other != name:
            inside = vectorized.contains(polygon, x, y)
            on_edges = vectorized.touches(polygon, x[~inside], y[~inside])
            print(f"overlap,{name},{other},{inside.sum() + on_edges.sum()},{len(xy)}")
