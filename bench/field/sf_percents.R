# The convex polygons of the fixes nearest to their mean, by sf: kept fixes, corners and doubled area of each level. The
# fixes are points of a data frame; `st_multipoint` of a matrix, with no points before, took two fifths of the time.
suppressPackageStartupMessages(library(sf))
fixes <- read.csv(commandArgs(TRUE), colClasses = c("character", rep("numeric", 3)))
points <- st_geometry(st_as_sf(fixes, coords = c("easting", "northing")))
nearest <- with(fixes, order((easting - mean(easting))^2 + (northing - mean(northing))^2))

for (level in c(50, 95, 100)) {
    kept <- nearest[seq_len(ceiling(length(points) * level / 100))]
    polygon <- st_convex_hull(st_combine(points[kept]))
    corners <- nrow(st_coordinates(polygon)) - 1
    cat(sprintf("percent,%s,%d,%d,%d,%.0f\n", fixes$animal[1], level, length(kept), corners, 2 * st_area(polygon)))
}
