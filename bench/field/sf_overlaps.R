# How many fixes of each animal lie in the convex polygon of each other one, by sf.
suppressPackageStartupMessages(library(sf))
animals <- lapply(commandArgs(TRUE), read.csv, colClasses = c("character", rep("numeric", 3)))
names <- vapply(animals, function(fixes) fixes$animal[1], "")
points <- lapply(animals, function(fixes) st_geometry(st_as_sf(fixes, coords = c("easting", "northing"))))
polygons <- do.call(c, lapply(points, function(p) st_convex_hull(st_combine(p))))

for (i in seq_along(animals)) {
    within <- lengths(st_intersects(polygons, points[[i]], sparse = TRUE))
    cat(sprintf("overlap,%s,%s,%d,%d\n", names[i], names, within, length(points[[i]]))[-i], sep = "")
}
