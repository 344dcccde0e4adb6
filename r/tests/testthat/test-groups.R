# Ranges by groups of an animal's fixes, against hulls by base R of the fixes that belong to these.

# Two animals with a fix every 20 days from December 2022 on, whose rows take turns.
frame <- function() {
  times <- as.POSIXct("2022-12-20", tz = "UTC") + 86400 * 20 * 0:39
  found <- do.call(rbind, lapply(c("fox", "otter"), function(name) {
    own <- walk(name, 40, nchar(name))
    data.frame(animal = name, time = times, easting = own$easting, northing = own$northing)
  }))
  found[order(found$time), ]
}

read_frame_quietly <- function(...) read_fixes(..., quiet = TRUE)

# The areas of groups in hectares, by animal and group, in the order of animals and of times.
wanted_areas <- function(table, groups) {
  rows <- order(match(table$animal, unique(table$animal)), table$time)
  key <- paste(table$animal, groups)[rows]
  table <- table[rows, ]
  vapply(split(table, factor(key, unique(key))), function(own) doubled(own$easting, own$northing) / 20000, 0)
}

areas_of <- function(ranges) {
  table <- summary(ranges)
  table <- table[table$level == 100, ]
  `names<-`(table$hectares, paste(table$animal, table$group))
}

season_of <- function(time) {
  month <- as.numeric(format(time, "%m"))
  year <- as.numeric(format(time, "%Y"))
  winter <- paste0(year - (month < 12), "-", year + (month == 12), " Dec-Feb")
  ifelse(month %in% c(12, 1, 2), winter, paste(year, c("", "", rep(c("Mar-May", "Jun-Aug", "Sep-Nov"), each = 3))[month]))
}

test_that("ranges are by the calendar", {
  skip_without_program()
  fixes <- read_frame_quietly(frame())
  labels <- list(season = season_of, year = function(time) format(time, "%Y"), month = function(time) format(time, "%Y-%m"))
  for (by in names(labels)) {
    wanted <- wanted_areas(frame(), labels[[by]](frame()$time))
    said <- capture_messages(ranges <- home_range(fixes, 100, by = by))
    expect_identical(said, paste0("homerange: ranges are by group: ", length(wanted), " of 2 animals\n"))
    expect_identical(areas_of(ranges), wanted)
  }
})

test_that("a winter has the December of the year before", {
  skip_without_program()
  ranges <- quietly(home_range(frame()[frame()$animal == "fox", ], 100, by = "season"))
  expect_identical(ranges$animals$animal[1:2], c("fox 2022-2023 Dec-Feb", "fox 2023 Mar-May"))
})

test_that("periods go by the clock of tz", {
  skip_without_program()
  # Half past eleven in the evening of UTC on the last of May is June in Slovenia.
  table <- data.frame(animal = "a", time = as.POSIXct(c("2024-05-31 12:00", "2024-05-31 23:30"), tz = "UTC"), easting = 1:2,
                      northing = 1:2)
  groups <- function(...) summary(quietly(home_range(table, 100, by = "month", ...)))$group
  expect_identical(groups(), "2024-05")
  expect_identical(groups(tz = "Europe/Ljubljana"), c("2024-05", "2024-06"))
})

test_that("groups are those of a column, of values and of a function, of fixes and of a frame", {
  skip_without_program()
  table <- cbind(frame(), sex = rep_len(c("f", "m", "m"), 80), herd = rep_len(1:7, 80))
  wanted <- wanted_areas(table, table$sex)
  fixes <- read_frame_quietly(table)
  expect_identical(areas_of(quietly(home_range(fixes, 100, by = "sex"))), wanted)
  expect_identical(areas_of(quietly(home_range(fixes, 100, by = factor(fixes$sex)))), wanted)
  expect_identical(areas_of(quietly(home_range(fixes, 100, by = function(own) own$sex))), wanted)
  expect_identical(areas_of(quietly(home_range(table, 100, by = "sex"))), wanted)
  expect_identical(areas_of(quietly(home_range(table, 100, by = table$sex))), wanted)
  expect_identical(areas_of(quietly(home_range(fixes, 100, by = "herd"))), wanted_areas(table, table$herd))
  marked <- cbind(table, visible = seq_len(80) %% 5 > 0)
  found <- areas_of(quietly(home_range(marked, 100, by = marked$sex)))
  expect_identical(found, wanted_areas(table[marked$visible, ], table$sex[marked$visible]))
})

# Refuses values of which nobody knows the fix, and takes them as a column, as it says.
refuses_order <- function(fixes, values) {
  said <- paste0("by: it is not known which of the fixes each value is of, .* make the values a column of that table before read_fixes, or, .*, ",
                 "as by fixes[$]group <- [.][.], and name it, as by by = \"group\"$")
  expect_error(quietly(home_range(fixes, 100, by = values)), said, class = "homerange_option_error")
  fixes$group <- values
  areas_of(quietly(home_range(fixes, 100, by = "group")))
}

test_that("values beside fixes go by what is known of their order", {
  skip_without_program()
  # Rows of the frame take turns, and its fixes stand by animals: values of the one, in its order, are none of the other.
  table <- cbind(frame(), sex = rep_len(c("f", "f", "m"), 80))
  wanted <- wanted_areas(table, table$sex)
  fixes <- read_frame_quietly(table)
  own <- fixes$sex
  expect_identical(areas_of(quietly(home_range(fixes, 100, by = own))), wanted)
  expect_identical(areas_of(quietly(do.call(home_range, list(fixes, 100, by = factor(own))))), wanted)
  expect_identical(areas_of(quietly(home_range(fixes[1:80, ], 100, by = fixes$sex[1:80]))), wanted)
  marked <- `names<-`(wanted, paste0(names(wanted), "!"))
  expect_identical(areas_of(quietly(home_range(fixes, 100, by = ifelse(fixes[["sex"]] == "f", "f!", "m!")))), marked)
  refuses_order(fixes, table$sex)
  expect_error(quietly(home_range(fixes, 100, by = rev(table$sex))), "by: it is not known which of the fixes", class = "homerange_option_error")
  expect_error(quietly(home_range(fixes, 100, by = paste(table$sex, fixes$sex))), "by: it is not known", class = "homerange_option_error")
  expect_error(quietly(home_range(fixes, 100, by = as.POSIXlt(table$time))), "by: it is not known", class = "homerange_option_error")
  expect_identical(refuses_order(fixes, paste0(fixes$sex, "!")), marked)
})

test_that("values in the order of a table are taken where its fixes have it", {
  skip_without_program()
  table <- frame()[order(frame()$animal, frame()$time), ]
  sex <- rep_len(c("f", "m", "m", "m"), 80)
  fixes <- read_frame_quietly(table)
  wanted <- wanted_areas(table, sex)
  for (own in list(fixes, read_frame_quietly(fixes))) expect_identical(areas_of(quietly(home_range(own, 100, by = sex))), wanted)
  local <- fixes
  attr(local$time, "tzone") <- "Asia/Tokyo"
  expect_identical(areas_of(quietly(home_range(local, 100, by = sex))), wanted)
  chosen <- list(fixes[-1, ], fixes[80:1, ], rbind(fixes[1:40, ], read_frame_quietly(table[41:80, ])), read_frame_quietly(fixes[-1, ]))
  for (own in chosen) refuses_order(own, sex[seq_len(nrow(own))])
  path <- file.path(local_folder(), "fixes.csv")
  write.csv(transform(table, time = format(time)), path, row.names = FALSE)
  refuses_order(read_frame_quietly(path), sex)
  expect_error(home_range(path, by = sex), "another order: read the file before, as by read.csv, and hand in the data frame", class = "homerange_option_error")
})

test_that("a title is that of the column of the frame, and none of a file", {
  skip_without_program()
  table <- frame()
  collars <- rep_len(c("x", "y"), 80)
  wanted <- wanted_areas(table, collars)
  named <- transform(table, collar = animal, animal = collars)
  expect_identical(areas_of(quietly(home_range(named, 100, by = "animal", animal = "collar"))), wanted)
  moments <- transform(table, t2 = time, time = collars)[c("animal", "t2", "time", "easting", "northing")]
  expect_identical(areas_of(quietly(home_range(moments, 100, by = "time", time = "t2"))), wanted)
  sides <- transform(table, x_e = easting, y_n = northing, easting = 1, northing = collars)
  expect_identical(areas_of(quietly(home_range(sides, 100, by = "northing", easting = "x_e", northing = "y_n"))), wanted)
  path <- file.path(local_folder(), "fixes.csv")
  write.csv(transform(named, sex = "f", time = format(time)), path, row.names = FALSE)
  refused <- function(x, by, ...) expect_error(quietly(home_range(x, by = by, ...)), "of a file is not kept: read the file before", class = "homerange_columns_error")
  refused(path, "sex", animal = "collar")
  refused(path, "animal", animal = "collar")
  refused(quietly(read_fixes(path, animal = "collar")), "sex")
  expect_identical(names(quietly(home_range(path, 100, by = "animal"))), c("x x", "y y"))
})

test_that("moments are named by their own clock, and days without it", {
  skip_without_program()
  times <- as.POSIXct("2024-04-29 21:00", tz = "Europe/Vienna") + 3600 * 5 * 0:11
  fixes <- read_frame_quietly(data.frame(animal = "a", time = times, easting = 1:12, northing = (1:12)^2))
  days <- as.POSIXct(format(fixes$time, "%Y-%m-%d"), tz = "Europe/Vienna")
  expect_identical(names(quietly(home_range(fixes, by = days))), paste("a", c("2024-04-29", "2024-04-30", "2024-05-01", "2024-05-02")))
  halves <- .POSIXct(43200 * (as.numeric(fixes$time) %/% 43200), tz = "Europe/Vienna")
  expect_identical(names(quietly(home_range(fixes, by = halves)))[1:2], paste("a", c("2024-04-29T14:00:00+02:00", "2024-04-30T02:00:00+02:00")))
})

test_that("what is no group is refused", {
  skip_without_program()
  table <- cbind(frame(), sex = "f", year = 1)
  fixes <- read_frame_quietly(table[order(table$animal, table$time), ])
  refused <- function(by, text, class = "homerange_option_error") {
    expect_error(quietly(home_range(fixes, by = by)), text, fixed = TRUE, class = class)
  }
  refused("week", "by: there is no column \"week\", and it is none of \"year\", \"month\", \"season\"", "homerange_columns_error")
  refused("year", "by = \"year\" is a period of the calendar, and a column too: by = fixes$year takes the column")
  refused(5, "by is 1 value for 80 fixes")
  refused(rep("a", 79), "by is 79 values for 80 fixes")
  refused(rep(1.5, 80), "row 1: by has a group that is '1.5', a number that is not whole: make it text")
  refused(data.frame(a = 1:80, b = 2), "by is a table, and a value for each row is wanted: take one column, or join several, as by paste")
  refused(function(own) own[c("animal", "time")], "by is a table, and a value for each row is wanted")
  refused(matrix(0, 80, 1), "by is a table, and a value for each row is wanted")
  refused(as.list(1:80), "by is a list, and a vector is wanted: unlist(..) makes one of it")
  refused(list(1, NULL), "by = list is none of \"year\", \"month\", \"season\", no column of the fixes, no value for each of them")
  refused(replace(rep("a", 80), 5, NA), "row 5: by has no group: leave fixes without a group out")
  seconds <- walk("a", 9, 1)
  expect_error(quietly(home_range(seconds, by = "month")), "by = \"month\": seconds have no calendar, since none is of the years 1973 to 2262: read a table with date-times of these",
               class = "homerange_option_error")
  early <- data.frame(animal = "a", time = as.POSIXct(c("2024-05-01", "1970-01-01", "2024-05-02"), tz = "UTC"), easting = 1:3, northing = c(1, 2, 1))
  expect_error(quietly(home_range(early, by = "month")), "a fix of 'a', at 1970-01-01 00:00:00 UTC, is not of the years 1973 to 2286",
               class = "homerange_option_error")
  both <- rbind(walk("a", 6, 1), walk("a 1", 6, 2))
  expect_error(quietly(home_range(both, by = rep(c("1 2", "2"), each = 6))), "'a' and 'a 1' both have a range named 'a 1 2': rename one",
               class = "homerange_name_error")
})

test_that("tables have animal and group, and overlaps the names of both", {
  skip_without_program()
  ranges <- quietly(home_range(frame(), c(50, 100), by = "year", zone = "33N"))
  tables <- list(summary(ranges), as.data.frame(ranges), homerange_growth(ranges), homerange_curve(ranges))
  if (requireNamespace("sf", quietly = TRUE)) {
    reserve <- sf::st_buffer(sf::st_sfc(sf::st_point(c(562000, 5134000)), crs = 32633), 1e5)
    shares <- homerange_share(ranges, reserve)
    expect_equal(shares$share[shares$hectares > 0], rep(1, sum(shares$hectares > 0)))
    tables <- c(tables, list(sf::st_drop_geometry(sf::st_as_sf(ranges)), shares))
  }
  for (table in tables) {
    expect_identical(names(table)[1:2], c("animal", "group"))
    expect_setequal(table$animal, c("fox", "otter"))
    expect_setequal(table$group, c("2022", "2023", "2024", "2025"))
  }
  expect_true(all(is.na(summary(ranges)$left_out)))
  expect_identical(rownames(homerange_overlap(ranges))[1:2], c("fox 2022", "fox 2023"))
  expect_error(homerange_left_out(ranges), "what was left out is of whole ranges", class = "homerange_option_error")
  expect_identical(unique(summary(ranges["fox 2023"])$group), "2023")
  expect_identical(summary(c(ranges["fox 2023"], ranges["otter 2024"])), summary(ranges[c("fox 2023", "otter 2024")]))
})

test_that("evidence and pages are of whole ranges", {
  skip_without_program()
  ranges <- quietly(home_range(frame(), by = "year"))
  folder <- local_folder()
  expect_error(homerange_evidence(ranges, file.path(folder, "a")), "evidence is of whole ranges, and these are by groups",
               class = "homerange_option_error")
  expect_error(write_page(ranges, file.path(folder, "b.html")), "a page is of whole ranges", class = "homerange_option_error")
  expect_length(list.files(folder), 0)
})

test_that("the print of ranges by groups counts animals and groups", {
  skip_without_program()
  table <- rbind(walk("a", 4, 1), walk("b", 4, 2))
  ranges <- quietly(home_range(table, 100, by = rep(1:2, 4)))
  expect_identical(format(ranges)[1], "Home ranges of 2 animals in 4 groups (minimum convex polygons)")
})

test_that("values for the records of a file are refused", {
  skip_without_program()
  path <- tempfile(fileext = ".csv")
  writeLines(c("animal,second,easting,northing", "a,60,1,2", "b,0,3,4", "a,0,5,6"), path)
  expect_error(home_range(path, by = c(1, 2, 1), quiet = TRUE), "by goes by rows, and fixes of a file stand in another order",
               class = "homerange_option_error")
  expect_s3_class(home_range(path, by = function(fixes) fixes$easting > 2, quiet = TRUE), "home_range")
})

test_that("by names one column, or has a value for each fix", {
  skip_without_program()
  fixes <- quietly(read_fixes(data.frame(animal = "a", second = c(0, 60), easting = 1:2, northing = 1, s = c("u", "v"))))
  expect_identical(names(quietly(home_range(fixes, by = c("s", "t")))), c("a s", "a t"))
  for (by in list(c("animal", "s"), c("s", "easting"))) {
    expect_error(home_range(fixes, by = by), "by names 2 columns: join them, as by paste[(]fixes[$]", class = "homerange_option_error")
    expect_error(home_range(as.data.frame(fixes), by = by, quiet = TRUE), "by names 2 columns", class = "homerange_option_error")
  }
  expect_identical(names(quietly(home_range(fixes, by = paste(fixes$animal, fixes$s)))), c("a a u", "a a v"))
  for (answer in c("s", "year", "one")) {
    expect_error(home_range(fixes, by = function(own) answer), "by is 1 value for 2 fixes", class = "homerange_option_error")
  }
  expect_identical(names(quietly(home_range(fixes[1, ], by = "s"))), "a u")
  expect_identical(names(quietly(home_range(fixes[1, ], by = function(own) "year"))), "a year")
})

test_that("groups that may be one, or none, are asked", {
  skip_without_split()
  cases <- list(
    c("M", "M ", "groups 'M' and 'M ' differ in blanks or capitals alone: are they one?"),
    c("M", "m", "groups 'M' and 'm' differ in blanks or capitals alone: are they one?"),
    c("007", "7", "groups '007' and '7' differ in zeros alone: are they one?"),
    c("V\u00b2", "V2", "groups 'V\u00b2' and 'V2' differ in the form of letters alone: are they one?"),
    c("M", "-", "group '-' has 40 fixes: are they of no group?"), c("M", " ", "group ' ' has 40 fixes: are they of no group?"),
    c("a/b", "a:b", "groups are not compared: groups 'a/b' and 'a:b' would both be named a_b"), c("M", "F")
  )
  fixes <- read_frame_quietly(frame()[order(frame()$animal, frame()$time), ])
  for (case in cases) {
    said <- list()
    hear <- function(told) {
      said <<- c(said, list(told))
      invokeRestart("muffleMessage")
    }
    labels <- rep(case[1:2], 40)
    found <- withCallingHandlers(areas_of(home_range(fixes, 100, by = labels)), homerange_note = hear)
    expect_equal(found, wanted_areas(fixes, labels))
    texts <- sub("^homerange: (.*)\n$", "\\1", vapply(said, conditionMessage, ""))
    expect_identical(texts, c(case[-(1:2)], "ranges are by group: 4 of 2 animals"))
    expect_s3_class(said[[length(said)]], "homerange_guessed_note")
    if (length(said) > 1) expect_s3_class(said[[1]], "homerange_asked_note")
  }
})

test_that("groups that have lost digits, or are no text, are refused", {
  skip_without_split()
  fixes <- read_frame_quietly(frame()[order(frame()$animal, frame()$time), ])
  refused <- function(by, message, class) expect_error(home_range(fixes, by = by, quiet = TRUE), message, fixed = TRUE, class = class)
  refused(rep(c(2^60, 2^60 + 4096), 40), "row 1: by has a group that is '1.152921504606847e+18', a number that has lost digits: read its column as text",
          "homerange_option_error")
  refused(rep(c("3E+14", "a"), 40), "by: group '3E+14' is a number that has lost digits: read its column as text", "homerange_name_error")
  refused(rep(c(Inf, 1), 40), "row 1: by has a group that is 'inf', a number that is not whole: make it text", "homerange_option_error")
  refused(rep(c("a\xe4", "a"), 40), "row 1: by has a group that is 'a<e4>', which is no text in UTF-8: mend it", "homerange_option_error")
})

test_that("a period that a file has as a column is said to be of the calendar", {
  skip_without_program()
  table <- data.frame(animal = "a", time = "2024-03-01 08:00:00", easting = 562000 + c(0, 200, 200, 0), northing = 5134000 + c(0, 0, 200, 200))
  table$time <- sprintf("2024-03-01 %02d:00:00", 1:4)
  wanted <- c(season = "2024 Mar-May", month = "2024-03", year = "2024")
  for (by in names(wanted)) {
    path <- file.path(local_folder(), "own.csv")
    utils::write.csv(`names<-`(cbind(table, "rut"), c(names(table), by)), path, row.names = FALSE)
    said <- paste0("ranges are by the ", by, " of the calendar, and not by the column '", by, "' of the file, which is not kept: read the file ",
                   "before to take that")
    for (own in list(path, quietly(read_fixes(path)))) {
      expect_message(ranges <- home_range(own, 100, by = by), said, fixed = TRUE, class = "homerange_guessed_note")
      expect_identical(summary(ranges)$group, wanted[[by]])
    }
    utils::write.csv(cbind(table, note = "rut"), path, row.names = FALSE)
    expect_false(any(grepl("of the calendar", capture_messages(home_range(path, 100, by = by)))))
    expect_error(quietly(home_range(`names<-`(cbind(table, "rut"), c(names(table), by)), 100, by = by)),
                 paste0("by = \"", by, "\" is a period of the calendar, and a column too"), class = "homerange_option_error")
  }
})

test_that("values of a table that was sorted since are refused", {
  skip_without_program()
  table <- data.frame(animal = "a", time = sprintf("2024-03-01 %02d:00:00", c(3, 1, 4, 2)), easting = 562000 + c(0, 200, 200, 0),
                      northing = 5134000 + c(0, 0, 200, 200), g = c("u", "v", "v", "u"))
  sorted <- table[order(table$time), ]
  said <- paste0("by: the values are those of the column 'g' of the table in another order than that of its rows: name it, as by by = \"g\", or ",
                 "make others a column of the table, as by x$group <- .., and by = \"group\"")
  plain <- `row.names<-`(sorted, NULL)  # as dplyr leaves them
  values <- table$g
  for (call in list(quote(home_range(sorted, 100, by = table$g)), quote(home_range(sorted, 100, by = values)),
                    quote(home_range(table[order(table$time), ], 100, by = table[["g"]])), quote(home_range(plain, 100, by = table$g)),
                    quote(home_range(sorted, 100, by = factor(table$g))), quote(home_range(plain, 100, by = values)),
                    quote(home_range(plain, 100, by = with(table, g))), quote(home_range(read_fixes(plain), 100, by = values)))) {
    expect_error(quietly(eval(call)), said, fixed = TRUE, class = "homerange_option_error")
  }
  wanted <- summary(quietly(home_range(table, 100, by = "g")))
  for (call in list(quote(home_range(sorted, 100, by = "g")), quote(home_range(sorted, 100, by = sorted$g)), quote(home_range(table, 100, by = values)),
                    quote(home_range(plain, 100, by = plain$g)), quote(home_range(sorted, 100, by = toupper(sorted$g))))) {
    expect_identical(summary(quietly(eval(call)))$hectares, wanted$hectares)
  }
})

# Three fixes of a fox in its den and three of a boar that is out, by animals: in the order of times they take turns.
dens <- function() {
  times <- as.POSIXct(paste0("2024-01-0", c(1, 3, 5, 2, 4, 6)), tz = "UTC")
  data.frame(animal = rep(c("fox", "boar"), each = 3), k = rep(c("den", "out"), each = 3), time = times,
             easting = c(0, 900, 0, 5000, 5900, 5000), northing = c(0, 0, 900, 0, 0, 900))
}

# How many fixes each animal's groups have.
counts_of <- function(ranges) {
  table <- summary(ranges)
  table <- table[table$level == 100, ]
  `names<-`(table$fixes, paste(table$animal, table$group))
}

test_that("values made of what another table has under the title of a column are refused", {
  skip_without_program()
  table <- dens()
  plain <- `row.names<-`(table[order(table$time), ], NULL)
  other <- transform(table, k = rep(c("x", "y"), 3))
  for (call in list(quote(toupper(table$k)), quote(paste(table[["k"]], "!")))) {
    expect_error(quietly(eval(bquote(home_range(plain, by = .(call))))), "^by is made of table.*k.*, and the column of that title says otherwise: by = \"k\" takes the column; if other values are meant, make them a column of the table, as by x[$]group <- [.][.], and by = \"group\"$",
                 class = "homerange_option_error")
  }
  expect_error(quietly(home_range(plain, by = other$k)), "by is made of other$k, and the column of that title says otherwise", fixed = TRUE,
               class = "homerange_option_error")
  wanted <- c("fox DEN" = 3, "boar OUT" = 3)
  expect_equal(counts_of(quietly(home_range(plain, by = toupper(plain$k)))), wanted)
  expect_equal(counts_of(quietly(home_range(table, by = toupper(table$k)))), wanted)
  expect_equal(counts_of(quietly(home_range(cbind(table, n = 1:6), by = c("1", "2", "3", "4", "5", "6")))), `names<-`(rep(1, 6), paste(table$animal, 1:6)))
  by <- `names<-`(toupper(plain$k), c(1, 4, 2, 5, 3, 6))
  expect_error(quietly(home_range(table, by = by)), "by has the names of rows in another order, so that nobody knows of which each value is: unname(by)",
               fixed = TRUE, class = "homerange_option_error")
  expect_equal(counts_of(quietly(home_range(table, by = by[row.names(table)]))), wanted)
  for (package in c("data.table", "dplyr")) skip_if_not_installed(package)
  turned <- data.table::as.data.table(table)
  values <- table$k  # that of the other table is sorted where it stands
  data.table::setorder(turned, time)
  for (own in list(turned, dplyr::arrange(dplyr::as_tibble(table), time), dplyr::group_by(dplyr::arrange(table, time), animal))) {
    expect_error(quietly(home_range(own, by = values)), "by: the values are those of the column 'k' of the table in another order", fixed = TRUE,
                 class = "homerange_option_error")
    expect_equal(counts_of(quietly(home_range(own, by = own$k))), c("fox den" = 3, "boar out" = 3))
  }
})

test_that("values by the names of animals are told from values of rows", {
  skip_without_program()
  table <- dens()
  by <- c(fox = "f", boar = "m")
  said <- "by has names that are those of the column 'animal', and not a value for each row: a column has it for each fix, as by "
  for (own in list(table, read_frame_quietly(table))) {
    expect_error(quietly(home_range(own, by = by)), paste0(said, "by[as.character(x$animal)]"), fixed = TRUE, class = "homerange_option_error")
    expect_error(quietly(home_range(own, by = as.list(by))), paste0(said, "unlist(by)[as.character(x$animal)]"), fixed = TRUE, class = "homerange_option_error")
  }
  expect_equal(counts_of(quietly(home_range(table, by = by[as.character(table$animal)]))), c("fox f" = 3, "boar m" = 3))
})

test_that("titles and periods of several are refused with what helps", {
  skip_without_program()
  table <- dens()
  cases <- list(
    list(c("year", "month"), "by names 2 columns or periods: write by = \"month\", which has year too"),
    list(c("season", "year"), "by names 2 columns or periods: write by = \"season\", which has year too"),
    list(c("k", "year"), "by names 2 columns or periods: join them, as by function(fixes) paste(fixes$k, format(fixes$time, \"%Y\"))"),
    list(c("k", "season"), "by names 2 columns or periods: write by = \"season\" for fixes of one k alone, as by fixes[fixes$k == .., ]"),
    list(c("animal", "k"), "by names 2 columns: join them, as by paste(fixes$animal, fixes$k)"),
    list(c("k", "sex"), "by: there is no column \"sex\", and it is none of \"year\", \"month\", \"season\""),
    list(list("year", "month"), "by is a list of 2 texts: write a vector, as by c(\"year\", \"month\")"),
    list("K", "by: there is no column \"K\", and it is none of \"year\", \"month\", \"season\"; the column \"k\" differs from it in capitals alone: write it so")
  )
  for (case in cases) expect_error(quietly(home_range(table, by = case[[1]])), case[[2]], fixed = TRUE, class = "homerange_error")
  joined <- quietly(home_range(table, by = function(fixes) paste(fixes$k, format(fixes$time, "%Y"))))
  expect_equal(counts_of(joined), c("fox den 2024" = 3, "boar out 2024" = 3))
})

test_that("titles that look alike are told apart", {
  skip_without_program()
  cases <- list(c("La\u0308nge", "L\u00e4nge", "\"La\\u0308nge\"", "the form of letters"), c("k\u00a0x", "k x", "\"k\\u00a0x\"", "blanks or signs that are not seen"),
                c("k\u200b", "k", "\"k\\u200b\"", "blanks or signs that are not seen"))
  for (case in cases) {
    table <- `names<-`(dens(), sub("^k$", case[1], names(dens())))
    said <- paste0("; the column ", case[3], " differs from it in ", case[4], " alone: write it so")
    expect_error(quietly(home_range(table, by = case[2])), said, fixed = TRUE, class = "homerange_columns_error")
    expect_error(quietly(read_fixes(table, easting = case[2], northing = "northing")), said, fixed = TRUE, class = "homerange_columns_error")
  }
  said <- tryCatch(quietly(read_fixes(`names<-`(dens(), sub("^k$", "Lange", names(dens()))), easting = "L\u00e4nge", northing = "northing")),
                   error = conditionMessage)
  expect_false(grepl("differs", said))
})

test_that("a column of groups is not said to be not read", {
  skip_without_program()
  unread <- function(lines) grep("not read", lines, value = TRUE)
  expect_identical(unread(capture_messages(ranges <- home_range(dens(), by = "k"))), character())
  expect_identical(unread(ranges$notes), character())
  said <- unread(capture_messages(ranges <- home_range(cbind(dens(), note = 1), by = "k")))
  expect_identical(c(said, unread(ranges$notes)), c("homerange: not read: note\n", "not read: note"))
})

test_that("a period in other capitals is a column too", {
  skip_without_program()
  table <- `names<-`(dens(), sub("^k$", "Season", names(dens())))
  for (own in list(table, read_frame_quietly(table))) {
    expect_error(quietly(home_range(own, by = "season")), "by = \"season\" is a period of the calendar, and the column \"Season\" too: by = fixes$Season takes",
                 fixed = TRUE, class = "homerange_option_error")
    expect_equal(counts_of(quietly(home_range(own, by = "Season"))), c("fox den" = 3, "boar out" = 3))
  }
  path <- file.path(local_folder(), "own.csv")
  utils::write.csv(transform(table, time = format(time)), path, row.names = FALSE)
  expect_message(home_range(path, by = "season"), "ranges are by the season of the calendar, and not by the column 'Season' of the file", fixed = TRUE)
})
