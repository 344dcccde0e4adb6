# The table of incremental area analysis in base R: the corners and the doubled area of the convex polygon after each
# fix. A fix inside the polygon leaves it; else `chull` makes it anew, of its corners and the fix. At times `chull`
# keeps a fix in line with an edge as a corner.
fixes <- read.csv(commandArgs(TRUE), colClasses = c("character", rep("numeric", 3)))
x <- fixes$easting
y <- fixes$northing

corner_x <- corner_y <- numeric()
area2 <- 0
corners <- areas <- numeric(nrow(fixes))
for (i in seq_along(x)) {
    # The corners are clockwise, so a fix to the left of an edge is outside.
    if (length(corner_x) < 3 || any((y[i] - corner_y) * edge_x > (x[i] - corner_x) * edge_y)) {
        px <- c(corner_x, x[i])
        py <- c(corner_y, y[i])
        hull <- chull(px, py)
        corner_x <- px[hull]
        corner_y <- py[hull]
        edge_x <- c(corner_x[-1], corner_x[1]) - corner_x
        edge_y <- c(corner_y[-1], corner_y[1]) - corner_y
        area2 <- sum(corner_y * edge_x - corner_x * edge_y)
    }
    corners[i] <- length(corner_x)
    areas[i] <- area2
}
writeLines(sprintf("row,%s,%d,%.0f,%.0f,%.0f", fixes$animal, seq_along(x), fixes$second, corners, areas))
