# Exact polygons: corners, areas and places within, against a chain of corners made by hand and what is worked out by hand.

# The ring by the chain of Andrew (1979), by products that doubles hold.
ring_directly <- function(easting, northing) {
  places <- unique(cbind(easting, northing)[order(easting, northing), , drop = FALSE])
  half <- function(places) {
    chain <- NULL
    for (at in seq_len(nrow(places))) {
      while (NROW(chain) > 1) {
        last <- chain[nrow(chain), ]
        way <- last - chain[nrow(chain) - 1, ]
        if (way[1] * (places[at, 2] - last[2]) > way[2] * (places[at, 1] - last[1])) break
        chain <- chain[-nrow(chain), , drop = FALSE]
      }
      chain <- rbind(chain, places[at, ])
    }
    chain[-nrow(chain), , drop = FALSE]
  }
  if (nrow(places) < 2) places else rbind(half(places), half(places[rev(seq_len(nrow(places))), ]))
}

# Tables of places: strewn, on a circle, in line, upright, all in one place, and with many in line with edges.
strewn <- function(seed) {
  set.seed(seed)
  number <- sample(1:40, 1)
  size <- sample(c(3, 30, 1e4, 16777216), 1)
  angle <- stats::runif(number, 0, 2 * pi)
  east <- floor(stats::runif(number, 0, size))
  switch(seed %% 6 + 1,
         cbind(east, floor(stats::runif(number, 0, size))), round(size / 2 + size / 2 * cbind(cos(angle), sin(angle))),
         cbind(east, 2 * east), cbind(7, east), cbind(rep(5, number), 6), cbind(east %% 5, east %/% 5 %% 5))
}

test_that("rings have the corners of a polygon, and no places that lie in line", {
  for (seed in 1:600) {
    places <- strewn(seed)
    expect_identical(unname(convex_ring(places[, 1], places[, 2])), unname(ring_directly(places[, 1], places[, 2])))
  }
})

test_that("areas are exact", {
  for (seed in 1:60) {
    places <- strewn(seed)
    expect_identical(doubled_area(convex_ring(places[, 1], places[, 2])), doubled(places[, 1], places[, 2]))
  }
  # A thin triangle whose products no double has: 2^27 * (2^27 - 1) - (2^27 - 2) * (2^27 + 1) is 2.
  thin <- rbind(c(0, 0), c(2^27, 2^27 + 1), c(2^27 - 2, 2^27 - 1))
  expect_identical(doubled_area(thin), 2)
  # 2^54 - (2^27 - 1) * (2^27 + 1) is 1, and of doubles 0.
  expect_identical(2^54 - (2^27 - 1) * (2^27 + 1), 0)
  expect_identical(is_left_turn(2^27, 2^27 - 1, 2^27 + 1, 2^27), TRUE)
  expect_identical(is_right_turn(2^27 + 1, 2^27, 2^27, 2^27 - 1), TRUE)
})

# Which places lie in a ring, by the signs of the triangles with its edges.
within_directly <- function(places, ring) {
  after <- ring[c(seq_len(nrow(ring))[-1], 1), , drop = FALSE]
  sides <- outer(places[, 2], ring[, 2], "-") * rep(after[, 1] - ring[, 1], each = nrow(places)) -
    outer(places[, 1], ring[, 1], "-") * rep(after[, 2] - ring[, 2], each = nrow(places))
  in_range <- function(side) places[, side] >= min(ring[, side]) & places[, side] <= max(ring[, side])
  rowSums(sides < 0) == 0 & in_range(1) & in_range(2)
}

test_that("places within are those by all edges", {
  found <- 0
  for (seed in 1:600) {
    ring <- ring_directly(strewn(seed)[, 1], strewn(seed)[, 2])
    places <- rbind(strewn(seed), strewn(seed + 6), strewn(seed + 12), ring, ring + 1, ring - 1)
    wanted <- within_directly(places, ring)
    expect_identical(is_within(places[, 1], places[, 2], ring), wanted)
    found <- found + sum(!wanted)
  }
  expect_gt(found, 1000)
})

test_that("polygons of 256 times the size are as those, by products that no double has", {
  for (seed in 1:200) {
    ring <- ring_directly(strewn(seed)[, 1], strewn(seed)[, 2])
    places <- rbind(strewn(seed), strewn(seed + 6), ring + 1)
    expect_identical(unname(convex_ring(256 * strewn(seed)[, 1], 256 * strewn(seed)[, 2])), 256 * unname(ring))
    expect_identical(is_within(256 * places[, 1], 256 * places[, 2], 256 * ring), within_directly(places, ring))
    expect_identical(doubled_area(256 * ring), 65536 * doubled_area(ring))
  }
})

test_that("a place beside a long edge is told from one on it", {
  # From (0, 0) to (2^27, 2^27 - 1): (2^26, 2^26 - 1) lies half a unit below the edge, one north of it above.
  ring <- rbind(c(0, 0), c(2^27, 2^27 - 1), c(0, 2^27))
  expect_identical(is_within(c(2^26, 2^26, 2^27, 2^27), c(2^26 - 1, 2^26, 2^27 - 1, 2^27 - 2), ring), c(FALSE, TRUE, TRUE, FALSE))
})
