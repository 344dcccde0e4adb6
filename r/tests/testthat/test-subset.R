# Some animals of home ranges, and several home ranges together, against the ranges of a table of those.

without_call <- function(ranges) {
  unclass(ranges)[setdiff(names(ranges), c("call", "cache", "notes", "read", "is_part", "fixes"))]
}

test_that("some animals are those of a table of them", {
  skip_without_program()
  fixes <- herd_of_three()
  ranges <- quietly(home_range(fixes))
  chosen <- c("alter Keiler \u00e4\u6f22", "fox")
  wanted <- quietly(home_range(rbind(fixes[fixes$animal == chosen[1], ], fixes[fixes$animal == chosen[2], ])))
  for (some in list(ranges[chosen], ranges[c(3, 1)], ranges[c("fox", chosen[1])][2:1], ranges[c(TRUE, FALSE, TRUE)][c(2, 1)])) {
    expect_identical(without_call(some), without_call(wanted))
    expect_identical(some$fixes[-1], wanted$fixes[-1])
    expect_identical(homerange_corners(some, 50), homerange_corners(wanted, 50))
  }
  expect_identical(homerange_left_out(ranges[1]), homerange_left_out(ranges)[0, ])
})

test_that("what is no animal is refused", {
  report <- read_report(system.file("extdata", "report.txt", package = "homerange"))
  refused <- function(call, text) expect_error(call, text, class = "homerange_option_error")
  refused(report["wolf"], "there is no animal wolf")
  refused(report[4], "there is no animal at this place")
  refused(report[c("fox", "fox")], "fox is named twice")
  refused(report[character()], "no animal is named")
  refused(report[1.5], "there is no animal at this place")
  expect_identical(report[factor("otter")]$animals$animal, "otter")
  expect_identical(report[-1]$animals$animal, c("badger", "otter"))
})

test_that("several home ranges together are those of one table, with their overlaps", {
  skip_without_program()
  fixes <- rbind(herd_of_three(), walk("lynx", 100, 9, stride = 60))
  one <- quietly(home_range(fixes[fixes$animal %in% c("fox", "NA"), ]))
  two <- quietly(home_range(fixes[!fixes$animal %in% c("fox", "NA"), ]))
  whole <- quietly(home_range(fixes))
  joined <- c(one, two)
  expect_identical(without_call(joined), without_call(whole))
  expect_gt(sum(homerange_overlap(whole)[1:2, 3:4]), 0)
  expect_identical(joined$fixes[-1], whole$fixes[-1])
  expect_identical(joined$notes, union(one$notes, two$notes))
  expect_identical(homerange_corners(joined, 50), homerange_corners(whole, 50))
})

test_that("home ranges that cannot stand together are refused", {
  skip_without_program()
  fixes <- walk("fox", 40, 1)
  other <- walk("hare", 40, 2)
  ranges <- quietly(home_range(fixes))
  refused <- function(other, text) expect_error(c(ranges, other), text, class = "homerange_option_error")
  refused(ranges, "fox is in two of them")
  refused(quietly(home_range(other, unit = "dm")), "they differ in their unit")
  refused(quietly(home_range(other, levels = 50)), "they differ in their levels")
  refused(quietly(home_range(transform(other, easting = easting - 1e6))), "they differ in their shift")
  refused(1, "has no ranges: home_range makes them")
  one <- quietly(home_range(walk("fox", 9, 1)))
  other <- quietly(home_range(walk("elk", 9, 2)))
  for (whole in list(c(one, other), c(one, NULL, other), rbind(NULL, one, other), Reduce(rbind, list(one, other), NULL))) {
    expect_identical(names(whole), c("fox", "elk"))
    expect_s3_class(whole, "home_range")
  }
  expect_error(homerange_curve(c(NULL, one)), "a list has no ranges: c(NULL, ranges) makes a list of their parts, and rbind(NULL, ranges) ranges",
               fixed = TRUE, class = "homerange_option_error")
  expect_error(homerange_curve(list(one, other)), "a list has no ranges: bind those that are in it, as by do.call(c, x)", fixed = TRUE,
               class = "homerange_option_error")
  days <- data.frame(animal = "wolf", date = as.Date("2024-05-01") + 0:2, x = 1:3, y = c(1, 5, 2))
  refused(quietly(home_range(days)), "they differ in their times")
})

test_that("of reports the overlaps between them are not known", {
  report <- read_report(system.file("extdata", "report.txt", package = "homerange"))
  joined <- c(report["otter"], report[c("fox", "badger")])
  wanted <- homerange_overlap(report)[c(3, 1, 2), c(3, 1, 2)]
  wanted["otter", c("fox", "badger")] <- NA
  wanted[c("fox", "badger"), "otter"] <- NA
  expect_identical(homerange_overlap(joined), wanted)
  expect_error(write_report(joined, tempfile()), "whose overlaps are not known", class = "homerange_option_error")
})

test_that("no evidence is made of parts", {
  skip_without_program()
  ranges <- quietly(home_range(herd_of_three()))
  for (part in list(ranges[1], c(ranges[1], ranges[2]))) {
    expect_error(homerange_evidence(part, tempfile()), "with all their animals", class = "homerange_option_error")
  }
})

test_that("functions of R speak of animals", {
  report <- read_report(system.file("extdata", "report.txt", package = "homerange"))
  animals <- c("fox", "badger", "otter")
  expect_identical(length(report), 3L)
  expect_identical(names(report), animals)
  expect_identical(report[["otter"]]$animals$animal, "otter")
  expect_identical(report[[2]]$animals$animal, "badger")
  expect_error(report[[c("fox", "otter")]], "one animal is wanted", class = "homerange_option_error")
  expect_error(report[["wolf"]], "there is no animal wolf", class = "homerange_option_error")
  expect_identical(names(rev(report)), rev(animals))
  expect_identical(names(utils::head(report, 2)), animals[1:2])
  expect_identical(names(utils::tail(report, 1)), "otter")
  expect_identical(names(unique(report)), animals)
  expect_identical(vapply(report, function(one) one$animals$fixes, 0), `names<-`(report$animals$fixes, animals))
  expect_identical(names(rbind(report["otter"], report["fox"])), c("otter", "fox"))
})

test_that("a dollar answers as brackets do", {
  path <- system.file("extdata", "report.txt", package = "homerange")
  report <- read_report(path)
  other <- file.path(local_folder(), "report.txt")
  writeLines(gsub("\\botter\\b", "unit", readLines(path)), other)
  named <- read_report(other)
  outside <- function(call, ...) eval(call, list(...), globalenv())  # as a user calls, and not the package
  expect_identical(outside(quote(x$otter), x = report), report[["otter"]])
  expect_identical(outside(quote(x$unit), x = report), "m")
  expect_identical(outside(quote(x$unit), x = named), named[["unit"]])
  refused <- function(call, text) expect_error(outside(call, x = report), text, fixed = TRUE, class = "homerange_option_error")
  refused(quote(x$wolf), "there is no animal wolf")
  refused(quote(x$uni), "there is no animal uni")
  refused(quote(x["otter", "fox"]), "animals are chosen by one vector, as by x[c(\"fox\", \"elk\")]")
  refused(quote(x[, 1]), "ranges are no table")
  refused(quote(x[["otter", "fox"]]), "the name or the place of one animal is wanted")
  refused(quote(x[[]]), "the name or the place of one animal is wanted")
  expect_identical(report[], report)
  expect_identical(report[["otter", exact = TRUE]], report["otter"])
})

test_that("the ranges of an animal are not put or taken away by its name", {
  skip_without_program()
  ranges <- quietly(home_range(herd_of_three(), 100))
  outside <- function(call) eval(call, list(x = ranges), globalenv())
  for (call in expression(x$fox <- NULL, x[] <- 1, x["unit", "fox"] <- 1, x["fox"] <- x["fox"], x[["fox"]] <- NULL, x[["unit"]] <- "dm",
                          x$unit <- "dm", x$percents$area2[1] <- 0, x["notes"] <- NULL, x$crs <- 3, names(x$overlaps) <- "a")) {
    said <- "ranges are not changed: take some by x[..], bind ranges by c"
    expect_error(outside(call), said, fixed = TRUE, class = "homerange_option_error")
  }
})

test_that("animals are chosen by names, places and truths, and by nothing else", {
  report <- read_report(system.file("extdata", "report.txt", package = "homerange"))
  skip_if_not_installed("bit64")
  expect_identical(names(report[bit64::as.integer64(2)]), names(report)[2])
  expect_identical(names(report[-1]), names(report)[-1])
  expect_identical(names(report[I(2)]), names(report)[2])
  refused <- function(i, text) expect_error(report[i], text, fixed = TRUE, class = "homerange_option_error")
  refused(c(-1, 1), "places from 1 on take animals, and those below 0 leave some out")
  refused(~a, "the names or the places of animals are wanted, and not formula")
  refused(1i, "the names or the places of animals are wanted, and not 0+1i")
  refused(quote(a), "the names or the places of animals are wanted, and not name")
  refused(as.Date("2024-05-01"), "the names or the places of animals are wanted, and not Date")
  refused(bit64::as.integer64(NA), "there is no animal at this place")
  for (one in list(-1, 0, TRUE, FALSE, NA, c(1, 2), bit64::as.integer64(-1))) {
    expect_error(report[[one]], "the name or the place of one animal is wanted", fixed = TRUE, class = "homerange_option_error")
  }
  expect_identical(report[[2]], report[2])
})

test_that("what sf and dplyr take away of points of fixes is counted as left out", {
  skip_without_program()
  skip_if_not_installed("sf")
  table <- data.frame(animal = rep(c("a", "b"), each = 4), time = as.POSIXct("2024-05-01", tz = "UTC") + 3600 * 0:7,
                      easting = 500000 + c(0, 100, 200, 0, 300, 50, 20, 60), northing = 5300000 + c(0, 10, 50, 100, 200, 70, 30, 20))
  fixes <- quietly(read_fixes(table, zone = "33N"))
  points <- sf::st_as_sf(fixes)
  place <- sf::st_as_sfc(sf::st_bbox(c(xmin = 499990, ymin = 5299990, xmax = 500150, ymax = 5300150), crs = 32633))
  field <- sf::st_sf(field = "own", geometry = place)
  is_within <- table$easting < 500150 & table$northing < 5300150
  chosen <- suppressWarnings(list(
    points[place, ], points[is_within, ], subset(points, is_within), sf::st_crop(points, place), sf::st_intersection(points, field),
    sf::st_intersection(points, place), sf::st_join(points, field, left = FALSE), sf::st_filter(points, field), sf::st_crop(fixes, place),
    sf::st_intersection(fixes, field), sf::st_join(fixes, field, left = FALSE), sf::st_filter(fixes, field), sf::st_drop_geometry(sf::st_crop(points, place)),
    sf::st_transform(sf::st_crop(points, place), 4326), sf::st_crop(sf::st_transform(sf::st_transform(points, 4326), 32633), place)))
  if (requireNamespace("dplyr", quietly = TRUE)) {
    keys <- fixes[is_within, c("animal", "time")]
    chosen <- c(chosen, list(dplyr::slice(points, which(is_within)), dplyr::filter(points, is_within), dplyr::arrange(points[is_within, ], northing),
                             dplyr::inner_join(points, as.data.frame(keys), by = names(keys)), dplyr::distinct(points[is_within, ])))
  }
  wanted <- as.numeric(table(table$animal) - table(table$animal[is_within]))
  for (own in chosen) {
    ranges <- quietly(home_range(own, 100))
    expect_identical(summary(ranges)$left_out, wanted)
    expect_identical(homerange_left_out(ranges)$fixes, wanted)
  }
  west <- sf::st_as_sfc(sf::st_bbox(c(xmin = 499990, ymin = 5299990, xmax = 500030, ymax = 5300150), crs = 32633))
  east <- suppressWarnings(sf::st_difference(points, west))
  expect_identical(summary(quietly(home_range(east, 100)))[c("fixes", "left_out")], list2DF(list(fixes = c(2, 3), left_out = c(2, 1))), ignore_attr = TRUE)
  bound <- quietly(home_range(rbind(points[1:3, ], points[6:8, ]), 100))
  expect_identical(summary(bound)[c("fixes", "left_out")], list2DF(list(fixes = c(3, 3), left_out = c(1, 1))), ignore_attr = TRUE)
  named <- sf::st_join(points, sf::st_sf(animal = "x", geometry = place), left = FALSE)
  expect_message(try(read_fixes(named), silent = TRUE), "fixes without their column 'animal' are read as a data frame", class = "homerange_guessed_note")
  moved <- quietly(home_range(transform(sf::st_transform(points[is_within, ], 4326), tag = "c"), 100, animal = "tag"))
  expect_identical(homerange_left_out(moved), list2DF(list(animal = "", reason = "chosen", fixes = sum(wanted))), ignore_attr = TRUE)
})
