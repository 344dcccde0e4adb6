# The convex polygons of the fixes nearest to their mean, in base R: kept fixes, corners and doubled area of each level.
fixes <- read.csv(commandArgs(TRUE), colClasses = c("character", rep("numeric", 3)))
x <- fixes$easting
y <- fixes$northing
nearest <- order((x - mean(x))^2 + (y - mean(y))^2)

for (level in c(50, 95, 100)) {
    kept <- nearest[seq_len(ceiling(length(x) * level / 100))]
    hull <- kept[chull(x[kept], y[kept])]
    after <- c(hull[-1], hull[1])
    area2 <- abs(sum(x[hull] * y[after] - x[after] * y[hull]))
    cat(sprintf("percent,%s,%d,%d,%d,%.0f\n", fixes$animal[1], level, length(kept), length(hull), area2))
}
