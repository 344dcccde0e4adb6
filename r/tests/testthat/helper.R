# Fixes to test with, and home ranges computed directly, by base R and by sf, to compare with.

has_program <- function() {
  !inherits(try(homerange_program(), silent = TRUE), "try-error")
}

skip_without_program <- function() skip_if_not(has_program(), "the program homerange")

# Where the second program is there, the first is too.
skip_without_split <- function() {
  skip_if(inherits(try(c(split_program(), page_program()), silent = TRUE), "try-error"), "the programs beside homerange")
}

# As it is loaded lubridate asks for the zone of times, and where none is set the system may not know one.
skip_without_lubridate <- function() {
  if (Sys.getenv("TZ") == "") {
    Sys.setenv(TZ = "UTC")
    on.exit(Sys.unsetenv("TZ"))
  }
  skip_if_not_installed("lubridate")
}

# A random walk on whole metres.
walk <- function(animal, number, seed, stride = 40, at = c(562000, 5134000)) {
  set.seed(seed)
  data.frame(
    animal = animal, second = 1800 * (seq_len(number) - 1),
    easting = at[1] + round(cumsum(stats::rnorm(number, 0, stride))),
    northing = at[2] + round(cumsum(stats::rnorm(number, 0, stride)))
  )
}

herd_of_three <- function() rbind(walk("fox", 120, 1), walk("NA", 90, 2), walk("alter Keiler \u00e4\u6f22", 61, 3))

quietly <- function(call) suppressMessages(call)

# The doubled area of the polygon with these corners in order.
doubled_ring <- function(easting, northing) {
  easting <- easting - easting[1]
  northing <- northing - northing[1]
  after <- c(seq_along(easting)[-1], 1)
  abs(sum(easting * northing[after] - easting[after] * northing))
}

# The doubled area of the minimum convex polygon, by base R's chull.
doubled <- function(easting, northing) {
  hull <- grDevices::chull(easting, northing)
  doubled_ring(easting[hull], northing[hull])
}

# The minimum convex polygon by sf.
hull_of <- function(easting, northing) {
  sf::st_convex_hull(sf::st_multipoint(cbind(easting, northing)))
}

# Which fixes a level keeps. The fixes are few and close, so that these distances are exact.
kept_directly <- function(easting, northing, level) {
  number <- length(easting)
  squares <- (number * easting - sum(easting))^2 + (number * northing - sum(northing))^2
  stopifnot(max(squares) < 2^53)
  rank(squares, ties.method = "first") <= ceiling(level * number / 100 - 1e-9)
}

# The rule of adehabitatHR's mcp.
kept_by_quantile <- function(easting, northing, level) {
  distance <- sqrt((easting - mean(easting))^2 + (northing - mean(northing))^2)
  distance <= stats::quantile(distance, level / 100)
}

# Makes a call when a test ends, the last one first.
at_end <- function(call, frame) do.call(on.exit, list(call, add = TRUE, after = FALSE), envir = frame)

# A program that does as this script says in the place of homerange, in a folder that is gone when the test ends.
local_program <- function(script, frame = parent.frame()) {
  folder <- local_folder(frame)
  file.symlink(c(split_program(), page_program()), file.path(folder, c("homerange-split", "homerange-page")))
  path <- file.path(folder, "program")
  writeLines(c("#!/bin/sh", script), path)
  Sys.chmod(path, "755")
  old <- options(homerange.program = path)
  at_end(bquote(options(.(old))), frame)
  path
}

# An empty folder that is gone when the test ends.
local_folder <- function(frame = parent.frame()) {
  folder <- tempfile("test")
  dir.create(folder)
  at_end(bquote(unlink(.(folder), recursive = TRUE)), frame)
  folder
}

# Ranges that were changed, as none are in a session.
changed_ranges <- function(ranges, change) structure(change(unclass(ranges)), class = class(ranges))

# Fixes with another column.
transform_fixes <- function(fixes, column, value) {
  fixes[[column]] <- value
  fixes
}

# Overlaps without the titles of their rows and columns, to compare with counts.
counts_of_overlap <- function(...) {
  found <- homerange_overlap(...)
  names(dimnames(found)) <- NULL
  found
}
