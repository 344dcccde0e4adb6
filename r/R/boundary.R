# The boundary of a map, boundary.csv: its rings in metres, to whole millimetres, in one order.

# The rings of a boundary that was given, in the reference system of the ranges; NULL where there is none.
rings_given <- function(x, reserve) if (!is.null(reserve)) rings_in_order(rings_of_boundary(boundary_of(x, reserve)))

# The rings of a boundary.
rings_of_boundary <- function(shape) {
  if (inherits(shape, "POLYGON")) return(lapply(unclass(shape), ring_in_order))
  if (inherits(shape, "MULTIPOLYGON")) return(lapply(unlist(unclass(shape), recursive = FALSE), ring_in_order))
  if (is.list(shape)) unlist(lapply(shape, rings_of_boundary), recursive = FALSE)
}

# The points of a ring, each once, from the westernmost on, of two such the southern, towards the more western of both beside
# it, to whole millimetres: shapes say neither where a ring begins nor which comes first.
ring_in_order <- function(ring) {
  points <- ring[-1, 1:2]
  points[] <- as.numeric(sprintf("%.3f", points))
  first <- order(points[, 1], points[, 2])[1]
  points <- points[(first + seq_len(nrow(points)) - 2) %% nrow(points) + 1, ]
  ends <- c(2, nrow(points))
  if (order(points[ends, 1], points[ends, 2])[1] == 1) points else points[c(1, rev(seq_len(nrow(points))[-1])), ]
}

# The rings of a boundary in the order of their first two points.
rings_in_order <- function(rings) {
  starts <- vapply(rings, function(ring) c(t(ring[1:2, ])), c(0, 0, 0, 0))
  rings[order(starts[1, ], starts[2, ], starts[3, ], starts[4, ])]
}

# The boundary of a map: each ring by its number, with its points in metres.
lines_of_rings <- function(rings) {
  c("ring,easting,northing", unlist(lapply(seq_along(rings), function(number) {
    sprintf("%d,%.3f,%.3f", number, rings[[number]][, 1], rings[[number]][, 2])
  })))
}

# Writes the boundary of a map into a folder, if there is one.
write_rings <- function(rings, folder) {
  if (!is.null(rings)) write_lines(file.path(folder, "boundary.csv"), lines_of_rings(rings))
}
