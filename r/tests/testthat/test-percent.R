# Percent polygons, against the rule written directly, the rule of adehabitatHR, and what is worked out by hand.

test_that("percent polygons are those of the nearest fixes", {
  skip_without_program()
  fixes <- herd_of_three()
  levels <- c(1, 37, 50, 80, 95, 99)
  ranges <- quietly(home_range(fixes, levels = levels))
  areas <- summary(ranges)
  for (level in levels) {
    rings <- homerange_corners(ranges, level)
    for (animal in unique(fixes$animal)) {
      own <- fixes[fixes$animal == animal, ]
      kept <- own[kept_directly(own$easting, own$northing, level), ]
      found <- areas[areas$animal == animal & areas$level == level, ]
      expect_equal(found$kept, nrow(kept))
      expect_identical(round(found$hectares * 20000), doubled(kept$easting, kept$northing))
      expect_identical(doubled_ring(rings[[animal]][, 1], rings[[animal]][, 2]), doubled(kept$easting, kept$northing))
      expect_true(all(paste(rings[[animal]][, 1], rings[[animal]][, 2]) %in% paste(kept$easting, kept$northing)))
    }
  }
})

test_that("the rule of adehabitatHR keeps as many fixes or one fewer", {
  skip_without_program()
  for (number in 41:62) {
    fixes <- walk("fox", number, number)
    areas <- summary(quietly(home_range(fixes)))
    kept <- lapply(c(50, 95, 100), kept_by_quantile, easting = fixes$easting, northing = fixes$northing)
    more <- areas$kept - vapply(kept, sum, 0)
    expect_equal(more, c(0, if (number %% 20 > 1) 1 else 0, 0))
    wanted <- vapply(kept, function(own) doubled(fixes$easting[own], fixes$northing[own]), 0)
    expect_identical(round(areas$hectares * 20000)[more == 0], wanted[more == 0])
    expect_true(all(round(areas$hectares * 20000) >= wanted))
  }
})

test_that("of fixes as near the earlier are kept", {
  skip_without_program()
  # All four lie as far from their mean.
  square <- data.frame(animal = "a", second = 0:3, easting = c(0, 10, 10, 0), northing = c(0, 0, 10, 10))
  ranges <- quietly(home_range(square, levels = c(25, 50, 75, 76)))
  expect_equal(summary(ranges)$kept, c(1, 2, 3, 4))
  expect_equal(summary(ranges)$hectares * 20000, c(0, 0, 100, 200))
  expect_equal(homerange_corners(ranges, 75)$a, cbind(easting = c(0, 10, 10), northing = c(0, 0, 10)))
  # The first row becomes the last in time.
  square$second <- c(3, 0, 1, 2)
  ranges <- quietly(home_range(square, levels = 75))
  expect_equal(homerange_corners(ranges, 75)$a, cbind(easting = c(0, 10, 10), northing = c(10, 0, 10)))
})

test_that("distances are exact beyond the doubles", {
  # (2^47 - 1)^2 * 2 is 2^95 - 2^49 + 2.
  expect_identical(squared_distances(2^47 - 1, 1 - 2^47), list(high = 2^47 - 2, low = 2))
  # 2^80 and 2^80 + 1 are one double.
  expect_identical(squared_distances(c(2^40, 2^40), c(0, 1)), list(high = c(2^32, 2^32), low = c(0, 1)))
  expect_identical(squared_distances(3, 4), list(high = 0, low = 25))
})

test_that("fixes whose distances are one double are told apart", {
  # Four times the distances from the mean, (d, d), have the squares 16 d^2 + 16, 16 d^2, 0 and 16.
  d <- 2^27
  expect_identical((4 * d)^2 + 16, (4 * d)^2)
  expect_identical(kept_fixes(c(0, 2 * d, d, d), c(d + 1, d, d, d - 1), 75), c(FALSE, TRUE, TRUE, TRUE))
})

test_that("polygons of many fixes over all of the grid agree with the program", {
  skip_without_program()
  set.seed(11)
  fixes <- data.frame(animal = "whale", second = 1:3000, easting = stats::runif(3000, 0, 13421772),
                      northing = stats::runif(3000, 0, 13421772))
  ranges <- quietly(home_range(fixes, unit = "dm"))
  ring <- homerange_corners(ranges, 50)$whale
  expect_equal(doubled_ring(ring[, 1], ring[, 2]) / 20000, summary(ranges)$hectares[1])
})

test_that("a polygon that is not that of the report is refused", {
  skip_without_program()
  ranges <- changed_ranges(quietly(home_range(walk("fox", 40, 5))), function(x) {
    x$percents$area2[2] <- x$percents$area2[2] + 1
    x
  })
  expect_error(homerange_corners(ranges, 95), "level 95", class = "homerange_check_error")
  expect_error(homerange_corners(ranges, 70), "50, 95, 100", class = "homerange_option_error")
  expect_error(homerange_corners(ranges, "95"), class = "homerange_option_error")
})
