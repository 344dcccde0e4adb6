# Fixes that are printed, read again, or have lost what is known of them.

deer_in_metres <- function() {
  with(deer[deer$visible, ], data.frame(animal = individual.local.identifier, time = timestamp, easting = utm.easting,
                                        northing = utm.northing))
}

with_dop <- function(table) cbind(table, dop = rep_len(c(1, 4), nrow(table)))

test_that("printed fixes say which columns they were read from again, and which not", {
  skip_without_split()
  table <- with_dop(cbind(deer_in_metres(), place = "a"))
  fixes <- quietly(read_fixes(table, zone = "33N"))
  first <- c("read: animal, time, easting, northing", "not read: place, dop")
  expect_identical(grep("read", format(fixes), value = TRUE), first)
  again <- quietly(read_fixes(fixes, max_dop = 3))
  expect_identical(grep("read|left", format(again), value = TRUE), c(first[1], "not read: place", "left out: 539 for dop"))
  moved <- quietly(read_fixes(transform(fixes, k = easting + 5000), easting = "k", northing = "northing"))
  expect_identical(moved$easting, fixes$easting + 5000)
  expect_identical(grep("read", format(moved), value = TRUE), c(first, "read again by columns: animal, time, k, northing"))
  named <- quietly(read_fixes(fixes, animal = "place"))
  said <- c(first[1], "not read: dop", "read again by columns: place, time, easting, northing")
  expect_identical(grep("read", format(named), value = TRUE), said)
  kept <- quietly(read_fixes(fixes[-1, ], every = "2h"))
  expect_identical(grep("read", format(kept), value = TRUE), first)
})

test_that("a column that fixes were read from again is not changed in silence", {
  skip_without_split()
  fixes <- quietly(read_fixes(with_dop(deer_in_metres()), zone = "33N"))
  again <- quietly(read_fixes(fixes, max_dop = 3))
  again$dop[3] <- 40
  expect_error(home_range(again), "'dop' was changed since this fix was read from it", class = "homerange_columns_error")
  moved <- quietly(read_fixes(transform(fixes, k = easting + 5000), easting = "k", northing = "northing"))
  moved$k <- moved$k + 1
  expect_error(home_range(moved), "'k' was changed since this fix was read from it", class = "homerange_columns_error")
})

test_that("printed fixes are whole, whatever the options of the session", {
  skip_without_split()
  table <- data.frame(animal = "a", time = as.POSIXct("2024-05-01", tz = "UTC") + 3600 * 0:2, easting = c(500000.1, 500020, 5e5),
                      northing = c(4999981.5, 5000020.2, 5e6), weight = 1 / 3)
  fixes <- quietly(read_fixes(table, unit = "dm", zone = "33N"))
  shown <- function() utils::capture.output(print(fixes))
  plain <- shown()
  expect_true(any(grepl(" 500000.1 +4999981.5 ", plain)))
  expect_true(any(grepl(" 500000.0 +5000000.0 ", plain)))
  for (own in list(list(digits = 3), list(scipen = -9), list(OutDec = ","))) {
    old <- options(own)
    expect_identical(shown(), plain)
    options(old)
  }
  metres <- quietly(read_fixes(deer_in_metres(), zone = "33N"))
  old <- options(scipen = -9, digits = 2, OutDec = ",")
  on.exit(options(old))
  expect_true(any(grepl(" 561200 +5133900$", utils::capture.output(print(metres)))))
})

test_that("fixes of which it is not known any more how they were read are refused with what reads them, and printed as a table", {
  skip_without_split()
  fixes <- quietly(read_fixes(deer_in_metres(), zone = "33N"))
  lost <- fixes
  attr(lost, "homerange") <- NULL
  said <- "it is not known any more how these fixes were read: read them anew as a table, as by read_fixes(as.data.frame(x), zone = ..)"
  for (read in list(home_range, read_fixes, function(x) home_range(x, zone = "33N"))) {
    expect_error(read(lost), said, fixed = TRUE, class = "homerange_option_error")
  }
  again <- quietly(read_fixes(as.data.frame(lost), zone = "33N"))  # as is said
  expect_identical(as.data.frame(again), as.data.frame(fixes))
  expect_identical(utils::capture.output(print(lost)), utils::capture.output(print(as.data.frame(fixes))))
  expect_s3_class(format(lost), "data.frame")
  for (bound in list(quote(rbind(fixes, lost)), quote(rbind(lost, fixes)))) {
    expect_error(eval(bound), "not to such of which it is no longer known how they were read", class = "homerange_option_error")
  }
  expect_true(all(is.na(summary(lost)$left_out)))
})
