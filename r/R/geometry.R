# Convex polygons of whole numbers, exactly: which corners they have, their area, and which places lie in them.
#
# A ring is a matrix of eastings and northings, counterclockwise from the westernmost corner, of two such the southern.

low_part <- 2^14

# The product of two ways, as high * low_part + low with low from 0: exact for whole numbers below 2^33, whose parts stay below
# 2^53.
turn_of <- function(east, north, other_east, other_north) {
  high <- (east %/% low_part) * other_north - (north %/% low_part) * other_east
  low <- (east %% low_part) * other_north - (north %% low_part) * other_east
  list(high = high + low %/% low_part, low = low %% low_part)
}

# Above 0 where the other way turns left, below 0 where it turns right. Of short ways doubles hold the products.
side_of <- function(east, north, other_east, other_north) {
  is_short <- function(sides) all(abs(sides) < 2^26)
  if (is_short(east) && is_short(north) && is_short(other_east) && is_short(other_north)) {
    return(east * other_north - north * other_east)
  }
  turn <- turn_of(east, north, other_east, other_north)
  turn$high + (turn$low > 0) / 2
}

is_right_turn <- function(...) side_of(...) < 0
is_left_turn <- function(...) side_of(...) > 0

# The rows of a matrix each one further, the first behind the last.
next_rows <- function(ring) ring[c(seq_len(nrow(ring))[-1], 1), , drop = FALSE]

# The ring of the minimum convex polygon of places. What chull takes for corners may lie in line with others.
convex_ring <- function(easting, northing) {
  ring <- unique(cbind(easting, northing)[rev(chull(easting, northing)), , drop = FALSE])
  repeat {
    number <- nrow(ring)
    from <- next_rows(ring) - ring
    to <- from[c(number, seq_len(number - 1)), , drop = FALSE]
    is_corner <- is_left_turn(to[, 1], to[, 2], from[, 1], from[, 2])
    if (number < 3 || all(is_corner)) break
    if (!any(is_corner)) is_corner[order(ring[, 1], ring[, 2])[c(1, number)]] <- TRUE
    ring <- ring[is_corner, , drop = FALSE]
  }
  first <- order(ring[, 1], ring[, 2])[1]
  ring[(first + seq_len(number) - 2) %% number + 1, , drop = FALSE]
}

# Whether at each of three or more corners of a ring the way turns left.
is_convex <- function(ring) {
  to <- next_rows(ring) - ring
  from <- next_rows(to)
  nrow(ring) < 3 || all(is_left_turn(to[, 1], to[, 2], from[, 1], from[, 2]))
}

# The doubled area of a ring, as the double that is nearest where none has it.
doubled_area <- function(ring) {
  from <- sweep(ring, 2, ring[1, ])
  to <- next_rows(from)
  turns <- turn_of(from[, 1], from[, 2], to[, 1], to[, 2])
  low <- sum(turns$low)
  (sum(turns$high) + low %/% low_part) * low_part + low %% low_part
}

# Which places lie in a ring, its edges included: between its southern and its northern chain.
is_within <- function(easting, northing, ring) {
  number <- nrow(ring)
  east <- range(which(ring[, 1] == max(ring[, 1])))
  south <- ring[seq_len(east[1]), , drop = FALSE]
  north <- ring[number:east[2], , drop = FALSE]
  if (north[1, 1] > ring[1, 1]) north <- rbind(ring[1, ], north)
  within <- easting >= ring[1, 1] & easting <= ring[east[1], 1] & northing >= min(ring[, 2]) & northing <= max(ring[, 2])
  own <- which(within)
  is_below <- lies_beside(south, easting[own], northing[own], is_right_turn)
  is_above <- lies_beside(north, easting[own], northing[own], is_left_turn)
  within[own] <- !is_below & !is_above
  within
}

# Which places lie on this side of a chain, whose corners go east, and of which one alone is a way to the east.
lies_beside <- function(chain, easting, northing, is_turn) {
  ways <- if (nrow(chain) == 1) cbind(1, 0) else diff(chain)
  at <- pmin(findInterval(easting, chain[, 1]), nrow(ways))
  is_turn(ways[at, 1], ways[at, 2], easting - chain[at, 1], northing - chain[at, 2])
}
