# What is printed.

test_that("a home range prints in about ten lines", {
  report <- system.file("extdata", "report.txt", package = "homerange")
  ranges <- read_report(report, start = as.POSIXct("2024-05-01", tz = "UTC"))
  expect_identical(capture.output(print(ranges)), c(
    "Home ranges of 3 animals (minimum convex polygons)",
    "180 fixes in whole metres, 2024-05-01 to 2024-05-02 05:30:00",
    "Areas in hectares by percent level, and what the last quarter of the fixes added:",
    " animal fixes  50 %  95 % 100 % last quarter",
    "    fox    60 17.36 50.73 55.79        0.0 %",
    " badger    60  0.00 32.14 40.51       21.0 %",
    "  otter    60 17.32 37.84 48.24        0.0 %"
  ))
})

test_that("of animals without an area no last quarter is printed", {
  skip_without_program()
  fixes <- data.frame(animal = "still", second = 1:40, easting = 5, northing = 6)
  expect_match(capture.output(print(quietly(home_range(fixes))))[5], "40 .* 0 +NA$")
})

test_that("times of a report without a start are seconds", {
  report <- system.file("extdata", "report.txt", package = "homerange")
  expect_identical(capture.output(print(read_report(report)))[2],
                   "180 fixes in whole metres, second 0 to second 106,200")
})

test_that("of many animals the first are printed", {
  skip_without_program()
  fixes <- do.call(rbind, lapply(1:12, function(seed) walk(paste("deer", seed), 5, seed)))
  lines <- capture.output(print(quietly(home_range(fixes))))
  expect_length(lines, 11)
  expect_identical(lines[11], "... and 6 more animals")
})

test_that("names are printed in one line", {
  skip_without_program()
  said <- format(quietly(home_range(transform(walk("fox", 20, 1), animal = "a\tb"), 100)))
  expect_match(said[length(said)], "a\\x09b", fixed = TRUE)
})
