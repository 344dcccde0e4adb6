# The polygons of levels: those of the report, and of lower levels those of the fixes that a level keeps.

# Which fixes of an animal a level keeps: of n fixes the (level * n + 99) %/% 100 nearest to the mean of all, of fixes
# as near the earlier.
kept_fixes <- function(easting, northing, level) {
  number <- length(easting)
  distance <- squared_distances(number * easting - sum(easting), number * northing - sum(northing))
  nearest <- order(distance$high, distance$low, method = "radix")
  replace(logical(number), nearest[seq_len((level * number + 99) %/% 100)], TRUE)
}

# x * x + y * y as high * 2^48 + low, exactly, for whole numbers below 2^47: all parts stay below 2^53.
squared_distances <- function(x, y) {
  half <- 2^24
  x <- abs(x)
  y <- abs(y)
  x_high <- x %/% half
  x_low <- x %% half
  y_high <- y %/% half
  y_low <- y %% half
  middle <- 2 * (x_high * x_low + y_high * y_low)
  low <- x_low^2 + y_low^2 + middle %% half * half
  list(high = x_high^2 + y_high^2 + middle %/% half + low %/% half^2, low = low %% half^2)
}

# The rings of each animal's polygon at a level, in the program's whole numbers: those of the report at 100, at other levels
# those of the fixes that are kept, which are made once and held to the report's numbers each time.
whole_rings <- function(ranges, level) {
  sides <- c("easting", "northing")
  by_animal <- function(table) split(table[sides], factor(table$animal, ranges$animals$animal))
  if (level == 100) return(lapply(by_animal(ranges$corners), as.matrix, rownames.force = FALSE))
  name <- as.character(level)
  if (is.null(ranges$cache[[name]])) assign(name, lapply(by_animal(ranges$fixes), level_ring, level = level), ranges$cache)
  rings <- ranges$cache[[name]]
  wanted <- percents_of(ranges, level)
  if (!all(vapply(rings, nrow, 0L) == wanted$corners & vapply(rings, doubled_area, 0) == wanted$area2)) {
    refuse("check", "the polygons at level ", level, " are not those of the report")
  }
  rings
}

# A row for each animal: its line percent of this level.
percents_of <- function(ranges, level) {
  own <- ranges$percents[ranges$percents$level == level, ]
  own[match(ranges$animals$animal, own$animal), ]
}

# The polygon of the fixes of an animal that a level keeps.
level_ring <- function(places, level) {
  kept <- kept_fixes(places$easting, places$northing, level)
  convex_ring(places$easting[kept], places$northing[kept])
}
