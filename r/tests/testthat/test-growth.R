# How areas grew: worked out by hand, and step by step over polygons of base R's chull.

# What is said of the areas after each fix, step by step.
growth_directly <- function(areas) {
  number <- length(areas)
  last <- areas[number]
  within <- 1
  while (100 * areas[within] < 95 * last) within <- within + 1
  added_since <- function(count) (last - if (count > 0) areas[count] else 0) / last
  list(within, added_since(floor(number * 9 / 10)), added_since(floor(number * 0.75)))
}

columns <- c("within_95_fix", "last_tenth", "last_quarter")

test_that("the numbers of each animal are those of its polygons", {
  skip_without_program()
  fixes <- rbind(herd_of_three(), walk("few", 29, 4), walk("more", 30, 5))
  found <- homerange_growth(quietly(home_range(fixes)))
  expect_identical(names(found), c("animal", "fixes", "hectares", "within_95_fix", "within_95_time", "last_tenth", "last_quarter"))
  expect_identical(found$animal, unique(fixes$animal))
  expect_equal(found$fixes, c(120, 90, 61, 29, 30))
  for (animal in found$animal) {
    own <- fixes[fixes$animal == animal, ]
    areas <- vapply(seq_len(nrow(own)), function(n) doubled(own$easting[1:n], own$northing[1:n]), 0)
    row <- found[found$animal == animal, ]
    expect_equal(unname(as.list(row[columns])), growth_directly(areas))
    expect_equal(row$within_95_time, own$second[row$within_95_fix])
    expect_equal(row$hectares, areas[nrow(own)] / 20000)
  }
})

test_that("an area of exactly 95 per cent of the final one is enough", {
  expect_identical(growth_of(rep(c(95, 100), c(30, 10))), list(area2 = 100, within = 1, tenth = 0, quarter = 5))
  expect_identical(growth_of(rep(c(94, 100), c(36, 4)))[2:4], list(within = 37, tenth = 6, quarter = 6))
  # Numbers whose products with 19 and 20 no double has.
  whole <- 2^53 - 12  # a multiple of 20
  expect_identical(growth_of(rep(c(whole / 20 * 19, whole), c(30, 10)))$within, 1)
  expect_identical(growth_of(rep(c(whole / 20 * 19 - 1, whole), c(30, 10)))$within, 31)
  expect_identical(growth_of(rep(c(whole / 20 * 19 + 1, whole), c(30, 10)))$quarter, whole / 20 - 1)
})

test_that("tenths and quarters of numbers of fixes are rounded down", {
  # Of 33 fixes 29 and 24 are before the last tenth and the last quarter.
  areas <- c(rep(10, 24), rep(50, 5), rep(100, 4))
  expect_identical(growth_of(areas), list(area2 = 100, within = 30, tenth = 50, quarter = 90))
  expect_identical(growth_of(7), list(area2 = 7, within = 1, tenth = 7, quarter = 7))
})

test_that("of animals without an area nothing is said", {
  skip_without_program()
  fixes <- rbind(data.frame(animal = "still", second = 1:40, easting = 5, northing = 6), walk("fox", 40, 1))
  found <- homerange_growth(quietly(home_range(fixes)))
  expect_equal(found$hectares[1], 0)
  expect_true(all(is.na(unlist(found[1, c("within_95_fix", "within_95_time", "last_tenth", "last_quarter")]))))
  expect_false(anyNA(found[2, ]))
})

test_that("times are those of the fixes", {
  report <- system.file("extdata", "report.txt", package = "homerange")
  start <- as.POSIXct("2024-05-01", tz = "UTC")
  found <- homerange_growth(read_report(report, start = start))
  expect_identical(found$within_95_time, start + 1800 * (found$within_95_fix - 1))
  expect_error(homerange_growth(1), "has no ranges: home_range makes them", class = "homerange_option_error")
})
