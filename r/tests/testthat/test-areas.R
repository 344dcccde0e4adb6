# Areas and curves, against base R's chull, sf, and what is worked out by hand.

test_that("areas of level 100 are those of chull and of sf, exactly", {
  skip_without_program()
  skip_if_not_installed("sf")
  fixes <- herd_of_three()
  areas <- summary(quietly(home_range(fixes, levels = 100)))
  for (animal in unique(fixes$animal)) {
    own <- fixes[fixes$animal == animal, ]
    ring <- sf::st_coordinates(hull_of(own$easting, own$northing))
    ring <- ring[-1, ]
    found <- areas[areas$animal == animal, ]
    expect_identical(round(found$hectares * 20000), doubled(own$easting, own$northing))
    expect_identical(round(found$hectares * 20000), doubled_ring(ring[, "X"], ring[, "Y"]))
    expect_equal(found$corners, nrow(ring))
    expect_equal(found$kept, nrow(own))
  }
})

test_that("each row of the curve is the polygon of the first fixes", {
  skip_without_program()
  fixes <- herd_of_three()
  table <- homerange_curve(quietly(home_range(fixes)))
  expect_identical(table$animal, fixes$animal)
  expect_equal(table$time, fixes$second)
  expect_equal(table$n, c(1:120, 1:90, 1:61))
  for (animal in unique(fixes$animal)) {
    own <- fixes[fixes$animal == animal, ]
    wanted <- vapply(seq_len(nrow(own)), function(n) doubled(own$easting[1:n], own$northing[1:n]), 0)
    expect_identical(round(table$hectares[table$animal == animal] * 20000), wanted)
  }
})

test_that("a square of 200 metres has 4 hectares", {
  skip_without_program()
  square <- data.frame(animal = "a", second = 0:3, easting = c(0, 200, 200, 0), northing = c(0, 0, 200, 200))
  table <- homerange_curve(quietly(home_range(square)))
  expect_equal(table$hectares, c(0, 0, 2, 4))
  expect_equal(table$corners, 1:4)
})

test_that("decimetres keep a square of 20.5 metres", {
  skip_without_program()
  square <- data.frame(animal = "a", second = 0:3, easting = c(0, 20.5, 20.5, 0), northing = c(0, 0, 20.5, 20.5))
  expect_silent(suppressMessages(ranges <- home_range(square, levels = 100, unit = "dm")))
  expect_equal(summary(ranges)$hectares, 20.5^2 / 10000)
  expect_equal(homerange_corners(ranges)$a, cbind(easting = c(0, 20.5, 20.5, 0), northing = c(0, 0, 20.5, 20.5)))
  # In metres, halves up, it is one of 21 metres.
  expect_equal(summary(quietly(home_range(square, levels = 100)))$hectares, 21^2 / 10000)
})

test_that("one fix, two equal fixes and two fixes have no area", {
  skip_without_program()
  fixes <- data.frame(id = c("one", "same", "same", "two", "two"), date = as.Date("2024-05-01") + 0:4,
                      x = c(5, 7, 7, 1, 4), y = c(6, 8, 8, 1, 5))
  ranges <- quietly(home_range(fixes, levels = c(50, 100)))
  areas <- summary(ranges)
  expect_equal(areas$hectares, rep(0, 6))
  expect_equal(areas$corners, c(1, 1, 1, 1, 1, 2))
  expect_equal(areas$kept, c(1, 1, 1, 2, 1, 2))
  expect_equal(homerange_corners(ranges)$one, cbind(easting = 5, northing = 6))
  expect_equal(homerange_corners(ranges)$two, cbind(easting = c(1, 4), northing = c(1, 5)))
  expect_equal(counts_of_overlap(ranges)["one", ], c(one = 1, same = 0, two = 0))
})
