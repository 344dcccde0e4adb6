# Overlaps, against sf and what is worked out by hand.

test_that("overlaps are those of st_intersects", {
  skip_without_program()
  skip_if_not_installed("sf")
  fixes <- rbind(herd_of_three(), walk("lynx", 100, 9, stride = 60))
  ranges <- quietly(home_range(fixes))
  tracks <- split(fixes, factor(fixes$animal, unique(fixes$animal)))
  hulls <- sf::st_sfc(lapply(unname(tracks), function(own) hull_of(own$easting, own$northing)))
  points <- lapply(tracks, function(own) sf::st_geometry(sf::st_as_sf(own, coords = c("easting", "northing"))))
  wanted <- t(vapply(points, function(own) colSums(sf::st_intersects(own, hulls, sparse = FALSE)), numeric(4)))
  colnames(wanted) <- names(tracks)
  expect_identical(counts_of_overlap(ranges), wanted)
  expect_equal(counts_of_overlap(ranges, share = TRUE), wanted / c(120, 90, 61, 100))
  expect_gt(sum(wanted), sum(diag(wanted)))
})

test_that("overlaps say of which level they are, which is 100 if none is named", {
  skip_without_program()
  ranges <- quietly(home_range(herd_of_three(), levels = 50))
  expect_identical(names(dimnames(homerange_overlap(ranges))), c("fixes_of", "in_range_of_100"))
  expect_output(print(homerange_overlap(ranges)), "in_range_of_100", fixed = TRUE)
  both <- homerange_overlap(ranges, share = TRUE, levels = c(50, 100))
  expect_identical(vapply(both, function(own) names(dimnames(own))[2], ""), c("50" = "in_range_of_50", "100" = "in_range_of_100"))
})

test_that("edges and corners count as within", {
  skip_without_program()
  square <- data.frame(animal = "a", second = 0:3, easting = c(0, 200, 200, 0), northing = c(0, 0, 200, 200))
  other <- data.frame(animal = "b", second = 0:3, easting = c(100, 200, 100, 201), northing = c(0, 200, 100, 100))
  wanted <- matrix(c(4, 3, 1, 4), 2, dimnames = list(c("a", "b"), c("a", "b")))
  expect_equal(counts_of_overlap(quietly(home_range(rbind(square, other)))), wanted)
})
