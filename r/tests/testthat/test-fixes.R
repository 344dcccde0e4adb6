# Fixes that were read: of a file and of a frame, by the program; what they keep where rows are taken away or bound.

# Two animals by turns, not in the order of time, with a fix that failed, an outlier, and a column of the user's own.
frame <- function() {
  data.frame(
    animal = c("fox", "hare/1", "fox", "fox", "hare/1", "fox"),
    when = as.POSIXct("2024-05-01 02:00", tz = "Europe/Berlin") + 3600 * c(1, 0, 0, 2, 1, 3),
    x = c(562000.4, 562010, 562100.6, 562200, NA, 562900), y = 5134000 + 0:5, visible = c(TRUE, TRUE, TRUE, TRUE, TRUE, FALSE),
    note = letters[1:6]
  )
}

# A square of 4 hectares, in the order of time.
square <- function(animal) data.frame(animal = animal, second = 60 * 0:3, easting = c(0, 200, 200, 0), northing = c(0, 0, 200, 200))

read_quietly <- function(...) read_fixes(..., quiet = TRUE)
named <- function(x = frame(), ...) read_quietly(x, time = "when", easting = "x", northing = "y", ...)

test_that("fixes of a frame are those that are used, by animal and time, with its own columns", {
  skip_without_split()
  fixes <- named(zone = "33N")
  wanted <- data.frame(
    animal = c("fox", "fox", "fox", "hare/1"), time = as.POSIXct("2024-05-01 02:00", tz = "Europe/Berlin") + 3600 * c(0, 1, 2, 0),
    easting = c(562101, 562000, 562200, 562010), northing = c(5134002, 5134000, 5134003, 5134001),
    when = as.POSIXct("2024-05-01 02:00", tz = "Europe/Berlin") + 3600 * c(0, 1, 2, 0), x = c(562100.6, 562000.4, 562200, 562010),
    y = 5134000 + c(2, 0, 3, 1), visible = TRUE, note = c("c", "a", "d", "b")
  )
  expect_s3_class(fixes, c("homerange_fixes", "data.frame"), exact = TRUE)
  expect_identical(as.data.frame(fixes), wanted)
  facts <- facts_of(fixes)
  expect_identical(facts[c("unit", "zone", "tz")], list(unit = "m", zone = "33N", tz = "Europe/Berlin"))
  expect_identical(facts$fixes, c(fox = 3, "hare/1" = 1))
  expect_identical(as.list(facts$left_out), list(animal = c("fox", "hare/1"), reason = c("outlier", "coordinates"), fixes = c(1, 1)))
  expect_true(all(c("export,fixes.csv", "option,tz,Europe/Berlin", "option,zone,33N") %in% facts$record))
  expect_true("days and hours are those of Europe/Berlin, the zone of when" %in% facts$notes)
})

test_that("fixes of a file are read by the same rules", {
  skip_without_split()
  path <- file.path(local_folder(), "export.csv")
  lines <- c("device_id,UTC_datetime,hdop,Latitude,Longitude", "7,2024-09-20 05:00:20,1,46.356742,15.805899",
             "7,2024-09-20 00:00:20,1,46.356742,15.805899", "7,2024-09-20 06:00:20,9,46.358710,15.807277", "7,2024-09-20 07:00:20,,,")
  writeLines(lines, path)
  expect_error(read_quietly(path), "the columns are those of ornitela: read them by from = \"ornitela\"", class = "homerange_columns_error")
  expect_message(fixes <- read_fixes(path, from = "ornitela", max_dop = 5), "1 fixes have a DOP above 5: left out",
                 class = "homerange_left_out_note")
  times <- as.POSIXct(c("2024-09-20 00:00:20", "2024-09-20 05:00:20"), tz = "UTC")
  # By PROJ: 562000.28 and 5134000.76.
  expect_identical(as.data.frame(fixes), data.frame(animal = "7", time = times, easting = c(562000, 562000), northing = c(5134001, 5134001)))
  expect_identical(facts_of(fixes)$zone, "33N")
  writeLines(c(lines[1], "7,2024-09-20 00:00:20,1,46.356742"), path)
  expect_error(read_quietly(path, from = "ornitela"), "record 1: 4 fields where 5 are wanted", class = "homerange_fields_error")
  writeLines(c("animal,second,easting,northing", "a,0,-250.5,10", "a,60,-300,20"), path)
  expect_identical(as.data.frame(read_quietly(path)),
                   data.frame(animal = "a", second = c(0, 60), easting = c(-250, -300), northing = c(10, 20)))
  expect_identical(read_quietly(path, unit = "dm")$easting, c(-250.5, -300))
})

test_that("a frame and its file come to the same fixes", {
  skip_without_split()
  path <- file.path(local_folder(), "deer.csv")
  table <- transform(deer, timestamp = format(timestamp, "%Y-%m-%d %H:%M:%S"))
  write.csv(table, path, row.names = FALSE)
  columns <- c("animal", "time", "easting", "northing")
  expect_identical(as.data.frame(read_quietly(path)), as.data.frame(read_quietly(deer))[columns])
  expect_identical(as.data.frame(read_quietly(table))[columns], as.data.frame(read_quietly(deer))[columns])
})

test_that("a row that is refused is named by its label", {
  skip_without_split()
  table <- frame()
  table$x[2] <- Inf
  fault <- expect_error(named(table), "^row 2: x is 'inf' and not a number", class = "homerange_number_error")
  expect_identical(fault$record, 2)
  row.names(table) <- paste0("r", 1:6)
  expect_error(named(table), "^row r2 [(]x\\[2, \\][)]: x is 'inf'", class = "homerange_number_error")
  table$note[3] <- "\xff"
  fault <- expect_error(named(table), "^row r3 [(]x\\[3, \\][)]: note is no text in UTF-8", class = "homerange_text_error")
  expect_identical(fault$record, 3L)
  table <- frame()
  table$when[4] <- NA
  expect_error(named(table), "^row 4: there is no when", class = "homerange_time_error")
  expect_error(named(animal = "name"), "animal: there is no column 'name'", class = "homerange_columns_error")
})

test_that("columns of classes are read as meant, or refused by name", {
  skip_without_split()
  expect_error(named(transform(frame(), x = complex(real = y))), "row 1: x is of the class complex, of which no cell is known: make text, numbers or times of it$",
               class = "homerange_number_error")
  expect_error(named(transform(frame(), when = as.difftime(1:6, units = "days"))), "row 1: when is of the class difftime", class = "homerange_time_error")
  expect_identical(nrow(named(transform(frame(), note = complex(real = y)))), 4L)
  expect_error(named(transform(frame(), animal = complex(real = 1))), "row 1: animal is of the class complex", class = "homerange_unread_error")
  expect_identical(unique(named(transform(frame(), animal = "<complex>", note = complex(real = y)))$animal), "<complex>")
  table <- cbind(frame(), sensor.type = I(c(list(NULL), as.list(1:5))))
  expect_error(named(table), "row 1: sensor.type is of the class list, of which no cell is known", class = "homerange_unread_error")
  expect_error(named(cbind(frame(), id = c(1, 1.5)), animal = "id"), "row 2: id is 1.5, a number that is not whole: make it text", class = "homerange_name_error")
  expect_error(named(transform(frame(), animal = c(1, 1, 1 / 3))), "row 3: animal is 0.3333333333333333, a number that is not whole")
  days <- rep(as.Date("2024-05-01") + 0:1, 3)
  expect_error(named(transform(frame(), animal = days)), "row 1: animal is 2024-05-01, a time: make it text", class = "homerange_name_error")
  expect_error(named(transform(frame(), animal = c(TRUE, FALSE))), "row 1: animal is true, a truth: make it text", class = "homerange_name_error")
  for (odd in c(Inf, -Inf)) {
    expect_error(named(transform(frame(), animal = c(1, 1, odd))), "row 3: animal is -?inf, a number that is not whole", class = "homerange_name_error")
  }
  expect_error(named(transform(frame(), animal = I(c(1, 1, 1.5)))), "row 3: animal is 1.5, a number that is not whole", class = "homerange_name_error")
  for (class in list("ITime", c("hms", "difftime"))) {
    clocks <- structure(rep(36000, 6), class = class, units = "secs")
    expect_error(named(transform(frame(), animal = clocks)), "row 1: animal is 10:00:00, a time: make it text", class = "homerange_name_error")
  }
  for (title in c(NA, "")) {
    fixes <- named(`names<-`(cbind(frame(), 1), c(names(frame()), title)))
    expect_identical(dim(fixes), c(4L, 10L))
  }
  table <- transform(frame(), date = as.Date("2024-05-01"))
  table$time <- structure(rep(36000L, 6), class = "ITime")
  fixes <- read_quietly(table[setdiff(names(table), "when")], time = c("date", "time"))
  expect_identical(unique(fixes$time), as.POSIXct("2024-05-01 10:00", tz = "UTC"))
})

test_that("moments are the time whatever their title says", {
  skip_without_split()
  times <- as.POSIXct("2024-05-01 02:00", tz = "UTC") + 3600 * 0:3
  table <- data.frame(animal = "a", easting = 562000 + 0:3, northing = 5134000)
  for (title in c("timestamp_utc", "time_local", "UTC_datetime", "local time")) {
    for (tz in c("UTC", "Asia/Tokyo")) {
      own <- `attr<-`(times, "tzone", if (grepl("local", title)) "Africa/Nairobi" else "UTC")
      typed <- `names<-`(cbind(table, own), c(names(table), title))
      for (time in list(NULL, title)) {
        fixes <- read_quietly(typed, tz = tz, time = time)
        expect_identical(as.numeric(fixes$time), as.numeric(times))
        expect_match(facts_of(fixes)$notes, paste0("^columns: animal, ", title, ", easting"), all = FALSE)
      }
    }
  }
  expect_identical(nrow(read_quietly(cbind(table, moment = times), since = times[2])), 3L)
  expect_identical(as.numeric(read_quietly(cbind(table, second = times))$time), as.numeric(times))
  text <- `names<-`(cbind(table, format(times)), c(names(table), "local time"))
  expect_error(read_quietly(text), class = "homerange_columns_error")
  expect_error(read_quietly(text, time = "local time"), "says local", class = "homerange_columns_error")
  several <- cbind(table, released = times, caught = times)
  expect_error(read_quietly(several), "no column has a usual title for the time", class = "homerange_columns_error")
  expect_error(
    read_quietly(cbind(vogel = "a", table[-1], zeit = times)), class = "homerange_columns_error",
    "neither for the animal nor for the time: name them, as by animal = .. and time = \"zeit\"$"
  )
  expect_error(read_quietly(cbind(table, time_utc = c(times[1:3], NA)), tz = "Asia/Tokyo"), "row 4: there is no time_utc", class = "homerange_time_error")
})

test_that("a table of groups says that these are not looked at", {
  skip_without_split()
  skip_if_not_installed("dplyr")
  table <- cbind(frame(), season = rep(c("a", "b"), 3))
  expect_message(read_fixes(dplyr::group_by(table, animal, season), time = "when"), "groups of the table are not looked at (animal, season): by",
                 fixed = TRUE, class = "homerange_guessed_note")
  expect_false(any(grepl("groups", facts_of(named(dplyr::group_by(table, animal)))$notes)))
  fixes <- named(table)
  some <- dplyr::filter(fixes, season == "a")
  expect_s3_class(some, "homerange_fixes")
  expect_identical(facts_of(some), facts_of(fixes))
})

test_that("what is no table is refused", {
  skip_without_split()
  refused <- function(x, text, kind = "option") expect_error(read_quietly(x), text, fixed = TRUE, class = paste0("homerange_", kind, "_error"))
  refused(5L, "a integer is neither a path nor a data frame with a row for each fix: make it one, as by data.frame(..)")
  refused(list(1), "a list is neither a path nor a data frame with a row for each fix: make it one, as by data.frame(..)")
  refused(c("a", "b"), "a character is neither a path nor a data frame")
  refused(structure(list(), class = "ltraj"), "with a row for each fix: make it one, as by adehabitatLT::ld(x)")
  refused(frame()[0, ], "the data frame has no row of a fix", "empty")
  refused(frame()[integer()], "the data frame has no row of a fix", "empty")
})

test_that("a move2 table says which columns it has", {
  skip_without_split()
  table <- `names<-`(frame(), c("deployment", "when", "x", "y", "visible", "id"))
  attr(table, "track_id_column") <- "deployment"
  attr(table, "time_column") <- "when"
  expect_identical(unique(read_quietly(table)$animal), c("fox", "hare/1"))
})

test_that("hours are those of the column's zone, where it has a name, and else of UTC", {
  skip_without_split()
  zone_of <- function(own, ...) facts_of(named(transform(frame(), when = `attr<-`(when, "tzone", own)), ...))$tz
  expect_identical(zone_of("Asia/Tokyo"), "Asia/Tokyo")
  expect_identical(zone_of("GMT"), "UTC")
  expect_identical(zone_of("Asia/Tokyo", tz = "Europe/Berlin"), "Europe/Berlin")
  old <- Sys.getenv("TZ", NA)
  on.exit(if (is.na(old)) Sys.unsetenv("TZ") else Sys.setenv(TZ = old))
  Sys.setenv(TZ = ":Asia/Kolkata")
  expect_identical(zone_of(""), "Asia/Kolkata")
  Sys.setenv(TZ = "CET-1CEST")
  expect_identical(zone_of(""), "UTC")
  expect_true("days and hours are those of UTC, since the zone CET-1CEST of when has no name" %in%
                facts_of(named(transform(frame(), when = `attr<-`(when, "tzone", ""))))$notes)
  # A day of Berlin begins at 22:00 of UTC.
  expect_identical(nrow(named(since = "2024-05-01 03:30")), 1L)
})

test_that("the zone of a column that is not read moves no time of another", {
  skip_without_split()
  table <- transform(frame(), timestamp = "2024-05-01 10:00:00")
  fixes <- read_quietly(table, easting = "x", northing = "y")
  expect_identical(unique(fixes$time), as.POSIXct("2024-05-01 10:00", tz = "UTC"))
  expect_identical(facts_of(fixes)$tz, "UTC")
  expect_false(any(grepl("^option,tz|Berlin", c(facts_of(fixes)$record, facts_of(fixes)$notes))))
})

test_that("rows that are taken away keep what is known, and columns that are needed make fixes", {
  skip_without_split()
  fixes <- named(zone = "33N")
  for (some in list(fixes[2:3, ], subset(fixes, easting < 562201), utils::head(fixes, 2), fixes[fixes$animal == "fox", c(1:4, 9)])) {
    expect_s3_class(some, "homerange_fixes")
    expect_identical(facts_of(some), facts_of(fixes))
  }
  expect_identical(class(fixes[c("animal", "easting")]), "data.frame")
  expect_null(facts_of(fixes[c("animal", "easting")]))
  expect_identical(fixes[["note"]], c("c", "a", "d", "b"))
  expect_identical(fixes[2, "note"], "a")
  expect_identical(class(as.data.frame(fixes)), "data.frame")
})

test_that("what was taken away since is left out as not chosen", {
  skip_without_split()
  fixes <- named()
  left <- left_since(fixes[-1, ])$left
  expect_identical(left$reason, c("outlier", "coordinates", "chosen"))
  expect_identical(left$fixes, c(1, 1, 1))
  ranges <- quietly(home_range(fixes[fixes$animal == "fox", ][-1, ], 100))
  expect_identical(as.list(homerange_left_out(ranges)), list(
    animal = c("fox", "fox", "hare/1", "hare/1"), reason = c("chosen", "outlier", "chosen", "coordinates"), fixes = c(1, 1, 1, 1)))
})

test_that("what is not known of an animal with another name is missing, and stays so", {
  skip_without_program()
  skip_without_split()
  table <- rbind(square("fox"), transform(square("elk"), easting = easting + 1000))
  dop <- ifelse(seq_len(nrow(table)) %in% c(1, 6, 7), 9, 1)
  rename <- function(fixes, from, to) transform_fixes(fixes, "animal", sub(from, to, fixes$animal))
  first <- quietly(read_fixes(cbind(table, dop = dop), zone = "33N", max_dop = 5))
  second <- quietly(read_fixes(rename(first, "fox", "wolf")))
  expect_identical(summary(second)[c("animal", "left_out")], list2DF(list(animal = c("wolf", "elk"), left_out = c(NA, 2))))
  expect_identical(facts_of(second)$left_out, list2DF(list(animal = c("elk", ""), reason = c("dop", "dop"), fixes = c(2, 1))))
  for (fixes in list(second, rename(second, "wolf", "dog"), second[-1, ])) {
    ranges <- quietly(home_range(fixes, 100))
    expect_identical(is.na(summary(ranges)$left_out), names(ranges) != "elk")
    expect_identical(is.na(rows_to_choose(ranges)$left_out), names(ranges) != "elk")
    path <- file.path(local_folder(), "page.html")
    suppressMessages(write_page(ranges, path))
    page <- paste(readLines(path, encoding = "UTF-8"), collapse = "")
    cells <- regmatches(page, gregexpr("data-field=\"records\">[^<]*", page))[[1]]
    expect_identical(sub(".*>", "", cells), format(table(factor(fixes$animal, names(ranges)))[], trim = TRUE), ignore_attr = TRUE)
    expect_match(page, "the fixes are not as they were read: (1 of them was taken away since, and )?what was left out before is neither in the folder nor on its page")
  }
  whole <- quietly(read_fixes(table, zone = "33N"))  # of which nothing was left out
  expect_identical(summary(home_range(rename(whole, "fox", "wolf"), 100))$left_out, c(0, 0))
})

test_that("fixes that are alike are bound", {
  skip_without_split()
  fixes <- named()
  both <- rbind(fixes[fixes$animal == "fox", ], named(transform(frame(), animal = paste(animal, 2))))
  expect_s3_class(both, "homerange_fixes")
  expect_identical(both$animal, c("fox", "fox", "fox", "fox 2", "fox 2", "fox 2", "hare/1 2"))
  expect_identical(facts_of(both)$fixes, c(fox = 3, "hare/1" = 1, "fox 2" = 3, "hare/1 2" = 1))
  expect_null(facts_of(both)$record)
  expect_identical(summary(quietly(home_range(both, 100)))$fixes, c(3, 3, 1))
  parts <- rbind(fixes[4, ], fixes[1:3, ])
  expect_identical(facts_of(parts), facts_of(fixes))
  expect_identical(left_since(parts)$left$fixes, c(1, 1))
  refused <- function(other, text) expect_error(rbind(fixes, other), text, fixed = TRUE, class = "homerange_option_error")
  refused(named(unit = "dm"), "fixes of the unit m and of dm are not bound: read them alike")
  refused(named(zone = "33N"), "fixes of the reference system not known and of EPSG:32633 (WGS 84 / UTM zone 33N) are not bound")
  refused(named(tz = "UTC"), "fixes of the time zone Europe/Berlin and of UTC are not bound: read them alike")
  refused(named(frame()[-6]), "some have no column 'note'")
  refused(frame(), "and not to data.frame")
})

test_that("animals that no column names are not made one", {
  skip_without_split()
  halves <- lapply(c(0, 1000), function(away) transform(square("a"), easting = easting + away)[-1])
  both <- lapply(halves, read_quietly)
  words <- "^animal animal is in two of them, .*: name each, as by name = \"Fox\" of read_fixes, or keep the column of the animal$"
  refused <- function(...) expect_error(rbind(...), words, class = "homerange_option_error")
  refused(both[[1]], both[[2]])
  refused(both[[1]][1:2, ], read_quietly(cbind(animal = "animal", halves[[2]])))
  expect_identical(summary(rbind(both[[1]][1:2, ], both[[1]][3:4, ]))$fixes, 4L)
  known <- rbind(both[[1]], transform(both[[2]], animal = "elk"))
  expect_identical(summary(rbind(known, known[1, ]))$fixes, c(5L, 4L))
  refused(known, read_quietly(transform(halves[[1]], northing = northing + 1)))
  refused_later <- function(fixes) expect_error(home_range(fixes), words, class = "homerange_option_error")
  if (requireNamespace("vctrs", quietly = TRUE)) {
    refused_later(vctrs::vec_rbind(both[[1]], both[[2]]))
    expect_identical(nrow(vctrs::vec_rbind(both[[1]][1:2, ], both[[1]][3:4, ])), 4L)
    renamed <- quietly(home_range(vctrs::vec_rbind(transform(both[[1]], animal = "fox"), both[[2]]), 100))
    expect_identical(names(renamed), c("fox", "animal"))
  }
  named <- Map(function(table, name) read_quietly(table, name = name), halves, c("fox", "elk"))
  expect_identical(summary(quietly(home_range(do.call(rbind, unname(named)))))$animal, c("fox", "elk")[c(1, 1, 1, 2, 2, 2)])
  expect_identical(nrow(rbind(read_quietly(halves[[1]], name = "fox"), read_quietly(halves[[2]], name = "fox"))), 8L)
})

test_that("times whose zone was taken away have that of the reading", {
  skip_without_program()
  old <- Sys.getenv("TZ", NA)
  on.exit(if (is.na(old)) Sys.unsetenv("TZ") else Sys.setenv(TZ = old))
  Sys.setenv(TZ = "Europe/Vienna")
  table <- transform(square("a")[-2], time = as.POSIXct("2024-05-01 00:00", tz = "America/Denver") + 3600 * c(0, 743, 745, 800))
  fixes <- read_quietly(table)
  seconds <- as.numeric(fixes$time)
  for (bare in list(.POSIXct(seconds), .POSIXct(seconds, tz = ""), as.POSIXlt(fixes$time))) {
    lost <- fixes
    lost$time <- bare
    for (some in list(lost, lost[1:4, ][4:1, ], rbind(lost, lost[1, ]), dplyr::mutate(lost, n = 1), `class<-`(lost, "data.frame"))) {
      ranges <- quietly(home_range(some, 100, by = "month"))
      expect_identical(ranges$groups$group, c("2024-05", "2024-06"))
      expect_identical(attr(ranges$rows$time, "tzone"), "America/Denver")
      expect_identical(names(quietly(home_range(some, 100, by = function(x) format(x$time, "%m")))), c("a 05", "a 06"))
    }
    expect_identical(summary(lost), summary(fixes))
    expect_identical(format(lost), format(fixes))
    expect_output(print(lost), paste(utils::capture.output(print(fixes)), collapse = "\n"), fixed = TRUE)
    expect_identical(as.data.frame(quietly(read_fixes(lost, since = "2024-05-31 23:00"))), as.data.frame(fixes[2:4, ]), ignore_attr = "row.names")
  }
  expect_identical(summary(transform(fixes, time = format(time)))$first, "2024-05-01 00:00:00")
  expect_identical(summary(transform(fixes, time = .POSIXct(NA_real_, "UTC")))$last, .POSIXct(NA_real_, "UTC"))
  moved <- transform(fixes, time = .POSIXct(as.numeric(time), tz = "Asia/Tokyo"))
  expect_match(format(moved)[1], "2024-05-01 15:00:00 to 2024-06-03 23:00:00 Asia/Tokyo", fixed = TRUE)
})

test_that("a remedy can be written as it is said", {
  skip_without_split()
  path <- file.path(local_folder(), "export.csv")
  writeLines(c("sep=,", "animal,second,easting,northing", "a,0,10,20", "a,60,30,40"), path)
  expect_error(read_quietly(path), "leave it out, by skip_lines = 1$", class = "homerange_columns_error")
  expect_identical(nrow(read_quietly(path, skip_lines = 1)), 2L)
  said <- c("--max-dop 5", "--max-speed=2.5", "--zone 33N", "--na -999", "--skip-lines 1 --header 'a b'", "--time 'a \"b\"'")
  wanted <- c("max_dop = 5", "max_speed = 2.5", "zone = \"33N\"", "na = \"-999\"", "skip_lines = 1, header = \"a b\"",
              "time = \"a \\\"b\\\"\"")
  expect_identical(as_arguments(said), wanted)
})

test_that("fixes with another name beside their own are read anew", {
  skip_without_program()
  fixes <- read_quietly(square("a"), zone = "33N")
  words <- "^'b' is none of the animals that were read, and its fixes are there by another name too: read them anew by read_fixes[(]as"
  expect_error(home_range(rbind(fixes, transform(fixes, animal = "b"))), words, class = "homerange_option_error")
  anew <- quietly(read_fixes(as.data.frame(rbind(fixes, transform(fixes, animal = "b"))), zone = "33N"))
  expect_identical(quietly(summary(home_range(anew, 100)))$fixes, c(4, 4))
  of_id <- read_quietly(`names<-`(square("a"), c("id", "second", "x", "y")))
  both <- rbind(of_id, transform(of_id, animal = "b"))
  named <- "read_fixes(as.data.frame(fixes), animal = \"animal\", time = \"second\", easting = \"easting\", northing = \"northing\")"
  expect_error(home_range(both), named, fixed = TRUE, class = "homerange_option_error")
  anew <- quietly(eval(str2lang(named), list(fixes = both), environment()))
  expect_identical(quietly(summary(home_range(anew, 100)))$fixes, c(4, 4))
  moved <- transform(fixes, animal = "b", easting = easting + 1000)
  expect_error(home_range(rbind(fixes, moved)), "^'b' is none of the animals that were read: bind fixes of several tables by rbind; if it is")
})

test_that("a column of fixes that is there twice is refused, as of a plain frame", {
  skip_without_program()
  fixes <- read_quietly(square("a"))
  refused <- function(call, text) expect_error(quietly(call), text, class = "homerange_ambiguous_error")
  for (twice in list(cbind(fixes, animal = "z"), cbind(fixes, easting = 3 * fixes$easting), cbind(fixes, northing = 0), cbind(fixes, second = 1))) {
    title <- names(twice)[5]
    for (some in list(twice, twice[4:1, ], as.data.frame(twice))) {
      refused(home_range(some, 100), paste0("column [0-9] '", title, "' and column 5 '", title, "' both fit .*: rename one$"))
    }
    expect_error(read_quietly(twice, easting = "easting", animal = "animal"), title, class = "homerange_data_error")
    refused(rbind(twice, twice), paste0("fixes are not bound, since some have two columns '", title, "': rename one"))
  }
  noted <- cbind(fixes, note = 1, note = 2)
  expect_identical(summary(quietly(home_range(noted[4:1, ], 100)))$fixes, 4)
  refused(rbind(noted, noted), "two columns 'note'")
  refused(home_range(noted, 100, by = "note"), "two columns 'note'")
  expect_message(again <- read_fixes(noted[4:1, ]), "not in the fixes, since their titles are there twice: note", class = "homerange_left_out_note")
  expect_identical(names(again), c("animal", "second", "easting", "northing"))
})

test_that("fixes have the unit in which they were read", {
  skip_without_split()
  fixes <- read_quietly(square("a"))
  expect_error(read_fixes(fixes, unit = "dm"), "^these fixes are in whole metres, which another unit does not change: read the table anew",
               class = "homerange_option_error")
  fine <- read_quietly(square("a"), unit = "dm")
  expect_error(read_fixes(fine[1:2, ], unit = factor("m")), "in whole decimetres, which another unit", class = "homerange_option_error")
  expect_error(read_fixes(fixes, unit = "km"), "unit: km is neither m nor dm", class = "homerange_option_error")
  expect_identical(facts_of(quietly(read_fixes(fine, unit = "dm", every = "2min")))$unit, "dm")
})

test_that("fixes without an end are printed", {
  skip_without_split()
  fixes <- named(zone = "33N")
  fixes$easting[2] <- -Inf
  expect_identical(format(fixes)[2], "in a box of Inf by 0.003 km, in whole metres")
  fixes$easting <- Inf
  expect_identical(format(fixes)[2], "in a box of Inf by 0.003 km, in whole metres")
})

test_that("their print says what was taken", {
  skip_without_split()
  said <- utils::capture.output(print(named(zone = "33N")))
  expect_identical(said[1:5], c(
    "4 fixes of 2 animals, 2024-05-01 02:00:00 to 2024-05-01 04:00:00 Europe/Berlin",
    "in a box of 0.200 by 0.003 km, in whole metres", "of UTM zone 33N", "read: animal, when, x, y",
    "not read: note"))
  expect_identical(said[6], "left out: 1 for outlier, 1 for coordinates")
  many <- utils::capture.output(print(read_quietly(deer)))
  expect_identical(many[length(many)], "... and 1,073 more fixes")
  table <- summary(named())
  expect_identical(as.list(table[c("animal", "fixes", "left_out")]), list(animal = c("fox", "hare/1"), fixes = c(3L, 1L), left_out = c(1, 1)))
  expect_identical(format(table$last), c("2024-05-01 04:00:00", "2024-05-01 02:00:00"))
})

test_that("ranges of fixes are those of their table, and options are not told twice", {
  skip_without_program()
  fixes <- read_quietly(deer)
  wanted <- quietly(home_range(deer))
  found <- home_range(fixes)
  expect_identical(summary(found), summary(wanted))
  mixed <- fixes[order(fixes$easting), ]
  expect_setequal(quietly(home_range(mixed))$animals$animal, c("Asta", "Bruno", "Cilla"))
  expect_identical(homerange_curve(quietly(home_range(mixed)))$hectares[mixed$animal == "none"], numeric())
  expect_error(home_range(fixes, zone = "33N"), "zone says how a table is read, and these fixes were read already: give it to read_fixes", class = "homerange_option_error")
  expect_silent(home_range(fixes, every = NULL))
  expect_error(home_range(fixes, 95, NULL, "33N"), "there is no option without a name", class = "homerange_option_error")
})

test_that("fixes that were changed are read again, and only what is new is said", {
  skip_without_program()
  fixes <- named(frame()[c(3, 1, 2, 4:6), ], zone = "33N")  # in the order of time
  said_of <- function(fixes) sub("^homerange: (.*)\n$", "\\1", capture_messages(home_range(fixes, 100)))
  expect_identical(said_of(fixes), character())
  expect_identical(read_quietly(fixes), fixes)
  expect_identical(said_of(fixes[order(fixes$easting), ]), "1 records of fox come before an earlier one: sorted by time")
  expect_identical(said_of(fixes[c(1, 1:4), ]), "1 records of fox have the second of the one before, and 1 its place: kept")
  expect_identical(said_of(`names<-`(fixes[c(1:5)], names(fixes)[1:5])), character())
  expect_identical(read_quietly(fixes, zone = "33n")$easting, fixes$easting)
  expect_error(read_quietly(fixes, zone = "34N"), "^the coordinates of these fixes are of 33N, which another zone does not change: read",
               class = "homerange_zone_error")
  half <- transform_fixes(fixes, "easting", fixes$easting + 0.25)
  expect_identical(said_of(half), "coordinates are rounded to whole metres, which moves a fix by at most 0.25 m")
  away <- quietly(home_range(transform_fixes(named(), "easting", named()$easting - 1e6), 100))
  expect_identical(homerange_corners(away)[["hare/1"]], cbind(easting = -437990, northing = 5134001))
  swapped <- transform_fixes(transform_fixes(fixes, "easting", fixes$northing), "northing", fixes$easting)
  expect_error(quietly(home_range(swapped)), class = "homerange_scale_error")
  refused <- function(fixes, text, kind) expect_error(quietly(home_range(fixes)), text, class = paste0("homerange_", kind, "_error"))
  timeless <- quietly(home_range(transform_fixes(fixes, "time", NULL)[c("animal", "easting", "northing")], 100))
  expect_identical(homerange_curve(timeless)$time, c(0, 1, 2, 3))
  refused(transform_fixes(fixes, "animal", NA), "row 1: there is no animal", "animal")
  refused(transform_fixes(named(), "easting", c(0, 1e8, 0, 0)), "grid", "grid")
  refused(fixes[0, ], "no fix is left", "empty")
  refused(structure(fixes, homerange = NULL), "it is not known any more how these fixes were read", "option")
})

test_that("what is left out again is said again", {
  skip_without_program()
  table <- transform(walk("a", 12, 1), visible = c(rep(TRUE, 10), FALSE, FALSE))
  expect_message(fixes <- read_fixes(table, zone = "33N"), "2 outliers: left out", class = "homerange_left_out_note")
  fixes$visible[1:2] <- FALSE
  expect_message(ranges <- home_range(fixes, 100), "2 outliers: left out", class = "homerange_left_out_note")
  expect_identical(sum(homerange_left_out(ranges)$fixes), 4)
})

test_that("what a second reading leaves out is left out beside what was before", {
  skip_without_program()
  fixes <- named()
  fixes$use <- c(TRUE, FALSE, TRUE, TRUE)
  fixes$easting[3] <- NA
  ranges <- quietly(home_range(fixes[fixes$animal == "fox", ], 100))
  expect_identical(as.list(homerange_left_out(ranges)), list(
    animal = c("fox", "fox", "hare/1", "hare/1"), reason = c("coordinates", "outlier", "chosen", "coordinates"), fixes = c(1, 2, 1, 1)))
  again <- quietly(read_fixes(fixes, tz = "Asia/Tokyo"))
  expect_identical(again[["note"]], c("c", "b"))
  expect_identical(facts_of(again)$tz, "Asia/Tokyo")
})

test_that("groups of fixes that were changed go by their rows and columns", {
  skip_without_program()
  fixes <- quietly(read_fixes(square("a")))
  fixes$side <- c("w", "e", "e", "w")
  mixed <- fixes[4:1, ]
  for (by in list("side", mixed$side, function(fixes) fixes$side)) {
    ranges <- quietly(home_range(mixed, 100, by))
    expect_identical(lapply(homerange_corners(ranges), unname), list(
      "a w" = rbind(c(0, 0), c(0, 200)), "a e" = rbind(c(200, 0), c(200, 200))))
  }
})

test_that("a file may be of a reference system that is named", {
  skip_without_split()
  skip_if_not_installed("sf")
  file <- tempfile(fileext = ".csv")
  on.exit(unlink(file))
  writeLines(c("animal,second,easting,northing", "a,0,4321000,3210000", "a,60,4321100,3210000"), file)
  fixes <- quietly(read_fixes(file, crs = 3035))
  expect_identical(sf::st_crs(sf::st_as_sf(fixes))$epsg, 3035L)
  expect_match(facts_of(fixes)$record, "^option,crs,EPSG:3035 ", all = FALSE)
  expect_error(read_fixes(file, crs = 4326), "no plane coordinates", class = "homerange_crs_error")
})

test_that("marks that were set on fixes are read", {
  skip_without_program()
  skip_without_split()
  fixes <- quietly(read_fixes(square("a")))
  for (mark in list(list(use = c(1, 1, 0, 1)), list(visible = c(TRUE, TRUE, TRUE, FALSE)), list("Manually marked.outlier" = c(TRUE, FALSE, FALSE, NA)))) {
    marked <- fixes
    marked[[names(mark)]] <- mark[[1]]
    expect_message(ranges <- home_range(marked, 100), "1 outliers: left out", class = "homerange_left_out_note")
    expect_identical(summary(ranges)$hectares, 2)
  }
})

test_that("columns of fixes that got other classes are read as those of a frame", {
  skip_without_program()
  skip_without_split()
  start <- as.POSIXct("2024-03-30 20:00", tz = "UTC")
  table <- data.frame(animal = "a", time = start + 3600 * 0:3, easting = c(0, 200, 200, 0), northing = c(0, 0, 200, 200))
  fixes <- quietly(read_fixes(table, tz = "Europe/Berlin"))
  changed <- function(title, column) {
    fixes[[title]] <- column
    quietly(home_range(fixes, 100))
  }
  shown <- format(fixes$time)
  again <- quietly(read_fixes(transform(as.data.frame(fixes), time = shown), tz = "Europe/Berlin"))
  expect_identical(as.numeric(again$time), as.numeric(fixes$time))
  for (column in list(shown, factor(shown), as.Date(fixes$time), format(fixes$time, "%d.%m.%Y %H:%M"), format(fixes$time, "%H:%M"))) {
    expect_error(changed("time", column), "the times of fixes have no zone any more: keep those that read_fixes gave, or read as.data.frame", class = "homerange_time_error")
  }
  for (column in list(as.POSIXct(shown, tz = "Europe/Berlin"), format(fixes$time, "%Y-%m-%dT%H:%M:%S%z"), `attr<-`(fixes$time, "tzone", "UTC"))) {
    expect_identical(as.numeric(homerange_curve(changed("time", column))$time), as.numeric(fixes$time))
  }
  expect_identical(summary(changed("easting", factor(table$easting)))$hectares, 4)
  expect_error(changed("time", table$time - start), "row 1: time is '00:00:00', which is a clock without a day", class = "homerange_time_error")
  expect_error(changed("easting", as.list(table$easting)), "row 1: easting is of the class list, of which no cell is known")
  expect_output(print(fixes["animal"]), "animal")
})

test_that("animals that were not read are bound by rbind alone", {
  skip_without_program()
  skip_without_split()
  fixes <- quietly(read_fixes(square("a")))
  more <- structure(rbind(as.data.frame(fixes), square("b")[c("animal", "second", "easting", "northing")]), class = class(fixes),
                    homerange = facts_of(fixes))
  expect_error(home_range(more), "'b' is none of the animals that were read", class = "homerange_option_error")
  renamed <- fixes
  renamed$animal <- "c"
  expect_identical(names(home_range(renamed, 100)), "c")
})

test_that("columns that are several themselves go with their fixes", {
  skip_without_program()
  table <- square("a")
  table$pair <- matrix(1:8, 4)
  table$both <- data.frame(m = 1:4, n = letters[1:4])
  fixes <- quietly(read_fixes(table[4:1, ]))
  expect_identical(fixes$pair[2, ], c(2L, 6L))
  expect_identical(fixes[2:3, "both"]$n, c("b", "c"))
  expect_identical(dim(rbind(fixes, fixes)$pair), c(8L, 2L))
  expect_identical(summary(quietly(home_range(rbind(fixes, fixes), 100)))$fixes, 8)
})

test_that("a matrix is no name of an animal, and no group", {
  skip_without_program()
  skip_without_split()
  table <- rbind(square("a"), square("b"))
  table$animal <- cbind(table$animal, "gps")
  expect_error(quietly(read_fixes(table)), "animal is of the class matrix", class = "homerange_unread_error")
  fixes <- quietly(read_fixes(square("a")))
  for (by in list(as.difftime(1:4, units = "days"), complex(4), as.raw(1:4))) {
    expect_error(home_range(fixes, by = by), "by has a group of the class .*, which is no text", class = "homerange_option_error")
  }
})

test_that("the zone of times is that of the columns that are read", {
  skip_without_split()
  start <- as.POSIXct("2024-03-30 20:00", tz = "Europe/Paris")
  table <- data.frame(animal = "a", deployed = start + 3600 * 0:3, easting = 1:4, northing = 1:4, created = as.POSIXct("2024-05-01", tz = "UTC"))
  expect_message(read_fixes(table, time = "deployed"), "days and hours are those of Europe/Paris, the zone of deployed")
  expect_identical(attr(quietly(read_fixes(table, time = "created"))$time, "tzone"), "UTC")
})

test_that("fixes of renamed animals are counted as one, and fixes of other readings are refused", {
  skip_without_program()
  skip_without_split()
  table <- rbind(square("fox"), transform(square("elk"), easting = easting + 1000))
  fixes <- quietly(read_fixes(table, zone = "33N"))
  renamed <- transform_fixes(fixes, "animal", paste(fixes$animal, rep(1:2, 4)))
  expect_identical(names(home_range(renamed, 100)), c("fox 1", "fox 2", "elk 1", "elk 2"))
  expect_identical(as.list(left_since(renamed[-(1:3), ])$left), list(animal = "", reason = "chosen", fixes = 3))
  expect_identical(nrow(left_since(renamed)$left), 0L)
  expect_identical(names(home_range(transform_fixes(fixes, "animal", "fox"), 100)), "fox")  # of two that are one
  others <- list("'lynx' is none of the animals that were read: bind fixes of several tables by rbind; .* zone = \"33N\"" = "lynx",
                 "'fox' has more fixes than were read of it: bind fixes of several tables by rbind" = "fox")
  for (said in names(others)) {
    other <- quietly(read_fixes(transform(square(others[[said]]), easting = easting + 500), zone = "34N"))
    mixed <- structure(rbind(as.data.frame(fixes[1:4, ]), as.data.frame(other)), class = class(fixes), homerange = facts_of(fixes))
    expect_error(home_range(mixed), said, class = "homerange_option_error")
  }
})

test_that("columns that were added and may say which fixes count are read or refused", {
  skip_without_program()
  skip_without_split()
  table <- transform(square("fox"), use = 1, outlier = 0)
  expect_identical(summary(home_range(quietly(read_fixes(table))[-1, ], 100))$fixes, 3)
  fixes <- quietly(read_fixes(square("fox")))
  for (title in c("outlier", "LC", "event.visible", "utm-zone")) {
    expect_error(home_range(transform_fixes(fixes, title, "1"), 100), title, fixed = TRUE, class = "homerange_columns_error")
  }
  expect_silent(home_range(fixes, 100))
})

test_that("columns that were added to fixes are said as not read", {
  skip_without_program()
  skip_without_split()
  fixes <- quietly(read_fixes(transform(square("fox"), sex = "f")))
  added <- transform(fixes, exclude = c(0, 1, 0, 0), keep = TRUE)
  line <- "not read: exclude, keep"
  heard <- function(call) {
    said <- capture_messages(found <- call)
    list(found = found, said = sub("^homerange: (.*)\n$", "\\1", said))
  }
  for (own in list(added, added[-1, ], added[c(1, 2, 4), ])) {
    answer <- heard(home_range(own, 100))
    expect_identical(answer$said, line)
    expect_identical(summary(answer$found)$fixes, as.numeric(nrow(own)))
    expect_true(line %in% answer$found$notes)
  }
  expect_identical(heard(home_range(added, 100, by = "exclude"))$said, c("not read: keep", "ranges are by group: 2 of 1 animals"))
  again <- heard(read_fixes(added))
  expect_identical(again$said, line)
  expect_true(line %in% format(again$found))
  expect_true(all(again$found$keep))
  expect_identical(heard(home_range(again$found, 100))$said, character())
  expect_identical(heard(home_range(fixes, 100))$said, character())
  expect_message(home_range(added, 100), line, class = "homerange_guessed_note")
})

test_that("options that look at further columns of fixes find them", {
  skip_without_split()
  fixes <- quietly(read_fixes(transform(square("fox"), hdop = c(1, 9, 1, 1), x = 0, y = 0), easting = "easting", northing = "northing"))
  expect_identical(nrow(quietly(read_fixes(fixes, dop = "hdop", max_dop = 5))), 3L)
})

test_that("fixes that lost a column are read as the data frame that they are", {
  skip_without_program()
  skip_without_split()
  table <- rbind(square("fox"), transform(square("elk"), easting = easting + 1000))
  fixes <- quietly(read_fixes(table, zone = "33N"))
  names(fixes)[1] <- "id"
  expect_message(ranges <- home_range(fixes, 100), "fixes without their column 'animal' are read as a data frame", class = "homerange_guessed_note")
  expect_identical(names(ranges), c("fox", "elk"))
  expect_identical(quietly(home_range(fixes, 100, zone = "33N"))$zone, "33N")
})

test_that("so many fixes are printed as are wanted", {
  skip_without_split()
  said <- utils::capture.output(print(quietly(read_fixes(square("fox"))), n = 3))
  expect_identical(said[length(said)], "... and 1 more fix")
})

test_that("tables that functions of R make of fixes keep how these were read", {
  skip_without_split()
  fixes <- quietly(read_fixes(square("fox"), unit = "dm", zone = "33N"))
  sexes <- data.frame(animal = "fox", sex = "f")
  tables <- list(
    merge(fixes, sexes), transform(fixes, note = 1), within(fixes, note <- 1), cbind(fixes, note = 1), cbind(fixes, data.frame(note = 1:4)),
    do.call(rbind, split(fixes, 1)), unsplit(split(fixes, rep(1:2, 2)), rep(1:2, 2)), list2DF(fixes), `class<-`(fixes, "data.frame"), unique(fixes)
  )
  tables[[11]] <- unserialize(serialize(fixes, NULL))
  for (table in Filter(nrow, tables)) {
    again <- read_fixes(table)
    expect_identical(as.list(as.data.frame(again)[names(fixes)]), as.list(as.data.frame(fixes)))
    expect_identical(facts_of(again)[c("unit", "zone", "left_out")], facts_of(fixes)[c("unit", "zone", "left_out")])
  }
  moved <- read_fixes(transform(fixes, easting = easting + 0.1))
  expect_identical(moved$easting, fixes$easting + 0.1)
  expect_null(facts_of(as.data.frame(fixes)))
  expect_null(facts_of(merge(fixes, sexes)["sex"]))
})

test_that("tables that dplyr and tibble make of fixes keep how these were read", {
  skip_without_program()
  skip_if_not_installed("dplyr")
  skip_if_not_installed("tibble")
  table <- rbind(square("fox"), transform(square("elk"), easting = easting + 1000))
  fixes <- quietly(read_fixes(cbind(table, side = c("w", "e")), unit = "dm", zone = "33N"))
  grouped <- dplyr::group_by(fixes, side)
  tables <- list(
    tibble::as_tibble(fixes), grouped, dplyr::rowwise(fixes), dplyr::ungroup(dplyr::filter(grouped, dplyr::n() > 1)),
    dplyr::mutate(grouped, n = dplyr::n()), dplyr::select(grouped, animal, second, easting, northing),
    dplyr::rename(dplyr::rename(grouped, id = animal), animal = id), dplyr::relocate(grouped, second),
    dplyr::rename_with(grouped, toupper, side), dplyr::group_modify(grouped, function(rows, key) rows[1:2, ]), dplyr::group_split(grouped)[[1]], dplyr::arrange(grouped, second),
    dplyr::left_join(grouped, data.frame(side = "w", bank = 1), by = "side"), dplyr::bind_rows(fixes[1:4, ], fixes[5:8, ])
  )
  for (table in tables) expect_identical(facts_of(quietly(read_fixes(table)))[c("unit", "zone")], list(unit = "dm", zone = "33N"))
  expect_s3_class(dplyr::ungroup(grouped), c("homerange_fixes", "tbl_df", "tbl", "data.frame"), exact = TRUE)
  expect_identical(as.data.frame(grouped), as.data.frame(fixes))
  expect_message(home_range(grouped), "groups of the table are not looked at (side): by makes", fixed = TRUE, class = "homerange_guessed_note")
  expect_silent(home_range(dplyr::group_by(fixes, animal)))
  expect_null(facts_of(dplyr::select(grouped, second)))
  # A table that a function makes without a column is a plain one, which is read as a new table; fixes that lose one say so.
  without <- list(dplyr::select(fixes, -second), subset(fixes, select = -second), fixes[names(fixes) != "second"], dplyr::mutate(fixes, second = NULL))
  for (table in without) expect_identical(class(table), "data.frame")
  lost <- fixes
  lost$second <- NULL
  for (table in list(lost, within(fixes, rm(second)))) {
    expect_message(read_fixes(table), "fixes without their column 'time' are read as a data frame", class = "homerange_guessed_note")
  }
  expect_message(try(read_fixes(dplyr::rename(grouped, id = animal)), TRUE), "fixes without their column 'animal' are read as a data frame")
  expect_output(print(grouped), "8 fixes of 2 animals")
})

test_that("points of fixes are fixes as long as they lie where these are", {
  skip_without_program()
  skip_if_not_installed("sf")
  table <- data.frame(id = "fox", timestamp = as.POSIXct("2024-05-01", "UTC") + 3600 * 0:3, x = 562000 + c(0, 200, 200, 0), y = 5134000 + c(0, 0, 200, 200))
  fixes <- quietly(read_fixes(table, unit = "dm", crs = 32633))
  points <- sf::st_as_sf(fixes)
  expect_identical(as.data.frame(read_fixes(points)), as.data.frame(fixes))
  expect_identical(as.data.frame(read_fixes(sf::st_drop_geometry(sf::st_transform(points, 4326)))), as.data.frame(fixes))
  moved <- sf::st_set_geometry(points, sf::st_geometry(points) + c(0.5, 0))
  moved <- quietly(read_fixes(sf::st_set_crs(moved, 32633)))
  expect_identical(moved$easting, fixes$easting + 0.5)
  expect_identical(facts_of(moved)[c("unit", "zone")], list(unit = "dm", zone = "33N"))
  # The columns that they were read from are not taken again in silence where nothing is known of them.
  expect_error(read_fixes(data.frame(fixes)), paste0("both fit the easting: name one, .*; of fixes that were read it is animal = \"animal\", ",
    "time = \"time\", easting = \"easting\", northing = \"northing\"$"), class = "homerange_ambiguous_error")
  named <- quietly(read_fixes(data.frame(fixes), animal = "animal", time = "time", easting = "easting", northing = "northing", crs = 32633, unit = "dm"))
  expect_identical(as.data.frame(named)[1:4], as.data.frame(fixes)[1:4])
})

test_that("fixes that were taken away are counted by the animals that they had", {
  skip_without_split()
  fixes <- quietly(read_fixes(rbind(square("fox"), transform(square("elk"), easting = easting + 1000))))
  chosen <- function(...) {
    left <- left_since(changed_fixes(fixes, ...))$left
    `names<-`(left$fixes, left$animal)
  }
  changed_fixes <- function(fixes, rows = 1:8, animal = fixes$animal[rows], easting = fixes$easting[rows]) {
    found <- fixes[rows, ]
    found[c("animal", "easting")] <- list(animal, easting)
    found
  }
  none <- `names<-`(numeric(), character())
  expect_identical(chosen(), none)
  expect_identical(chosen(8:1), none)
  expect_identical(chosen(c(1:8, 1:8)), none)
  expect_identical(chosen(animal = rep(c("elk", "fox"), each = 4)), none)  # swapped
  of_none <- function(number) `names<-`(number, "")
  expect_identical(chosen(2:8, animal = rep("wolf", 7)), of_none(1))
  expect_identical(chosen(2:8, animal = rep(c("elk", "fox"), c(3, 4))), of_none(1))
  expect_identical(chosen(2:8, animal = rep(c("wolf", "elk"), c(3, 4))), of_none(1))
  expect_identical(chosen(1:7, animal = rep(c("wolf", "elk"), c(4, 3))), c(elk = 1))
  expect_identical(chosen(c(1, 1, 1, 2, 5:8)), of_none(2))  # two are gone beside one that is there three times
  expect_identical(chosen(c(1:3, 5:8, 8)), c(fox = 1))
  expect_identical(chosen(easting = fixes$easting + 1), none)
  expect_identical(chosen(3:8, easting = c(7, fixes$easting[4:8])), c(fox = 2))
  expect_identical(chosen(3:8, animal = "wolf", easting = c(7, fixes$easting[4:8])), `names<-`(2, ""))  # of three that are gone one may be the wolf's
})

test_that("columns that say which fixes count, and are not read, are refused", {
  skip_without_program()
  table <- square("fox")
  said <- function(title, first) paste0("'", title, "' was added to the fixes, and is not read, since '", first, "' goes before it: change that, or drop '", title, "'")
  is_refused <- function(fixes, text) {
    for (own in list(fixes, fixes[-1, ])) expect_error(quietly(home_range(own)), text, class = "homerange_columns_error", fixed = TRUE)
  }
  used <- quietly(read_fixes(transform(table, use = 1, event.visible = TRUE)))
  for (title in c("visible", "manually-marked-outlier", "outlier")) is_refused(`[[<-`(used, title, value = c(0, 0, 1, 1)), said(title, "use"))
  fixes <- quietly(read_fixes(table))
  both <- transform(fixes, Visible = c(0, 1, 1, 1), visible = 1)
  expect_error(quietly(home_range(both)), "column 5 'Visible' and column 6 'visible' both fit visible: rename one", class = "homerange_ambiguous_error")
  is_refused(transform(fixes, sensor.type = "gps", sensor.type.id = 82798), said("sensor.type.id", "sensor.type"))
  set <- transform(used, event.visible = c(TRUE, TRUE, FALSE, TRUE))
  text <- "'event.visible' was changed since this fix was read, and is not read, since 'use' goes before it: change that, or drop 'event.visible'"
  is_refused(set, text)
  is_refused(transform(set, northing = northing + 1), text)
  is_refused(transform(used, use = NULL), "column 5 'event.visible' ")  # which is passed over beside use alone
  for (fine in list(used[-1, ], transform(used[4:1, ], event.visible = NULL), transform(used, use = c(0, 1, 1, 1)))) {
    expect_s3_class(quietly(home_range(fine)), "home_range")
  }
})

test_that("columns that fixes were read from are not changed beside them", {
  skip_without_program()
  table <- data.frame(id = "fox", timestamp = "2024-05-01 00:00:00", lon = c(15.80, 15.81, 15.82), lat = 46.35, note = "a", visible = TRUE)
  table$timestamp <- format(as.POSIXct("2024-05-01", "UTC") + 3600 * 0:2)
  fixes <- quietly(read_fixes(table))
  moved <- transform_fixes(fixes, "lat", c(46.35, 46.35, 46.36))
  refused <- "^row 3: 'lat' was changed since this fix was read from it: change what fixes have of it, such as easting and northing, and drop it$"
  fault <- expect_error(home_range(moved), refused, class = "homerange_columns_error")
  expect_identical(fault$record, 3L)
  expect_error(read_fixes(moved[3:2, ]), "^row 3 [(]x\\[1, \\][)]: 'lat' was changed", class = "homerange_columns_error")
  for (fine in list(moved[1:2, ], transform(moved, lat = NULL), transform(moved, northing = northing + 1:3), transform(fixes, note = "b"),
                    transform(fixes, visible = c(TRUE, TRUE, FALSE)), rbind(fixes, fixes), fixes[c(3, 1, 1), ])) {
    expect_s3_class(quietly(read_fixes(fine)), "homerange_fixes")
  }
  expect_error(quietly(read_fixes(rbind(fixes, moved))), "'lat' was changed", class = "homerange_columns_error")
  expect_error(read_fixes(transform(fixes, id = "elk")), "'id' was changed", class = "homerange_columns_error")
})

test_that("columns that fixes have not are said", {
  skip_without_split()
  table <- data.frame(tag = "7", animal = c("fox", "fox", "elk"), time = "noon", second = 60 * 0:2, easting = 0, northing = 0, x = c(0, 9, 9), y = 9, n = 1, n = 2,
                      check.names = FALSE)
  expect_message(fixes <- read_fixes(table, animal = "tag", time = "second", easting = "x", northing = "y"),
                 "not in the fixes, which have columns of these titles: animal, time, easting, northing\n", fixed = TRUE)
  expect_true("not in the fixes, since their titles are there twice: n" %in% facts_of(fixes)$notes)
  expect_identical(names(fixes), c("animal", "second", "easting", "northing", "tag", "x", "y"))
  expect_identical(fixes$easting, c(0, 9, 9))
})

test_that("text below factors stays text", {
  skip_without_split()
  fixes <- quietly(read_fixes(transform(square("a"), note = factor(c("u", "v")))))
  bound <- rbind(fixes, transform(fixes, note = "w"))
  expect_identical(bound$note, c("u", "v", "u", "v", "w", "w", "w", "w"))
})

test_that("midnights beside a clock are days, of whatever class and zone", {
  skip_without_split()
  table <- data.frame(animal = "a", easting = 1:3, northing = 1, clock = c("10:00:00", "11:00:00", "12:00:00"))
  for (zone in c("UTC", "Europe/Berlin")) {
    days <- as.POSIXct(c("2024-07-01", "2024-07-02", "2024-07-03"), tz = zone)
    wanted <- as.POSIXct(c("2024-07-01 10:00", "2024-07-02 11:00", "2024-07-03 12:00"), tz = zone)
    for (own in list(days, as.POSIXlt(days))) {
      table$day <- own
      expect_identical(quietly(read_fixes(table, time = c("day", "clock")))$time, wanted)
    }
  }
  expect_error(quietly(read_fixes(table, time = c("day", "clock"), tz = "Asia/Tokyo")), "row 1: day clock is ", class = "homerange_time_error")
})

test_that("files in folders of other letters than the locale's are read and written", {
  skip_without_program()
  old <- Sys.getlocale("LC_CTYPE")
  on.exit(Sys.setlocale("LC_CTYPE", old))
  folder <- file.path(local_folder(), "Gr\u00fcn")
  dir.create(folder)
  Sys.setlocale("LC_CTYPE", "C")
  path <- function(name) file.path(`Encoding<-`(folder, "UTF-8"), name)
  ranges <- quietly(home_range(square("Sch\u00e4fer"), 100))
  expect_silent(write_page(ranges, path("page.html")))
  expect_silent(write_report(ranges, path("report.txt")))
  expect_identical(names(expect_silent(read_report(path("report.txt")))), "Sch\u00e4fer")
  writeLines(c("animal,second,easting,northing", "a,0,1,2", "a,60,5,9"), in_bytes(path("fixes.csv")))
  expect_identical(nrow(quietly(read_fixes(path("fixes.csv")))), 2L)
  expect_setequal(list.files(in_bytes(folder)), c("page.html", "report.txt", "fixes.csv"))
  expect_error(read_fixes(path("none.csv")), "none.csv: No such file or directory$", class = "homerange_text_error")
})

test_that("rows of several readings are bound where these are alike, and counted once", {
  skip_without_split()
  zoned <- function(animal, zone) quietly(read_fixes(square(animal), zone = zone))
  fox <- zoned("fox", "33N")
  elk <- zoned("elk", "33N")
  bound <- rbind(rbind(fox, elk), fox[1, ], elk)
  expect_identical(facts_of(bound)$fixes, c(fox = 4, elk = 4))
  expect_identical(nrow(left_since(bound)$left), 0L)
  skip_if_not_installed("dplyr")
  expect_identical(as.data.frame(dplyr::bind_rows(fox, elk)), as.data.frame(rbind(fox, elk)))
  expect_identical(dplyr::bind_rows(transform(fox, note = 1), elk)$note, rep(c(1, NA), each = 4))
  other <- "fixes of the (reference system|zone) .*33N.* and of .*34N.* are not bound: read them alike"
  expect_error(dplyr::bind_rows(fox[1:2, ], zoned("fox", "34N")[3, ]), other, class = "homerange_option_error")
  expect_error(vctrs::vec_c(fox, zoned("fox", "34N")), other, class = "homerange_option_error")
  expect_identical(facts_of(vctrs::vec_c(fox, elk))$fixes, c(fox = 4, elk = 4))
})

test_that("moments beside days are named alone, and what is both times is not joined", {
  skip_without_split()
  times <- as.POSIXct("2024-05-01 10:00", tz = "UTC") + 3600 * 0:2
  both <- function(date, time) data.frame(animal = "a", date = date, time = time, easting = 1:3, northing = 1)
  refused <- function(table, text, ...) expect_error(quietly(read_fixes(table, ...)), text, class = "homerange_data_error")
  refused(both(as.Date(times), times), "both fit the time: time has moments: name it alone, as by time = \"time\"$")
  refused(both(as.Date(times), times), "row 1: date time is .*: time has moments: name it alone, as by time = \"time\"$", time = c("date", "time"))
  refused(both(as.Date(times), as.Date(times)), "both fit the time: name one, as by time = \"date\"$")
  refused(both(times, times), "both fit the time: name one, as by time = \"date\"$")
  expect_identical(quietly(read_fixes(both(as.Date(times), times), time = "time"))$time, times)
  midnights <- as.POSIXct("2024-05-01", tz = "Europe/Berlin")
  refused(both(midnights, format(times, "%H:%M")), "date has moments: make days of it, as by as.Date[(]x, tz = \"Europe/Berlin\"[)]$", time = c("date", "time"), tz = "UTC")
  days <- both(as.Date(midnights, tz = "Europe/Berlin"), format(times, "%H:%M"))
  expect_identical(quietly(read_fixes(days, time = c("date", "time"), tz = "UTC"))$time, times)
})

test_that("rows of many kinds have numbers of their own", {
  many <- seq_len(1e5)
  expect_identical(expect_silent(numbered(list(many, many))), many)
  expect_identical(numbered(list(c(many, many), c(rev(many), rev(many)))), c(many, many))
})

test_that("of many fixes those that were taken away are counted", {
  skip_without_split()
  table <- data.frame(animal = "a", second = seq_len(60000), easting = 562000 + seq_len(60000) %% 1000, northing = 5134000 + seq_len(60000) %% 999)
  fixes <- quietly(read_fixes(table))
  left <- expect_silent(left_since(fixes[seq(1, 60000, 3), ])$left)
  expect_identical(left$fixes, 40000)
})

test_that("a record in brackets is a row by its label", {
  skip_without_program()
  table <- data.frame(animal = "fox", time = sprintf("2024-07-01 %02d:00:00", 0:3), dst = c(1, 1, 0, 1), easting = c(0, 900, 0, 9), northing = c(0, 0, 900, 9))
  labelled <- `row.names<-`(table, paste0("r", 1:4))
  expect_error(quietly(read_fixes(table, tz = "Europe/Ljubljana")), "^column 3 'dst' says otherwise than the clock of Europe/Ljubljana .* [(]row 3[)]: ",
               class = "homerange_columns_error")
  expect_error(quietly(read_fixes(labelled, tz = "Europe/Ljubljana")), "^column 3 'dst' says otherwise .* [(]row r3, x\\[3, \\][)]: ", class = "homerange_columns_error")
})

test_that("names with control characters are asked about", {
  skip_without_program()
  path <- file.path(local_folder(), "own.csv")
  writeBin(charToRaw("animal,time,easting,northing\n\x8aa\x9aa,2024-01-01,9,0\n\x8aa\x9aa,2024-01-02,18,0\n"), path)
  said <- "the name '\\x8aa\\x9aa' has control characters: is the encoding of its table another, such as windows-1250?"
  expect_message(read_fixes(path, encoding = "latin-1"), said, fixed = TRUE, class = "homerange_asked_note")
  expect_message(read_fixes(utils::read.csv(path, fileEncoding = "latin1")), said, fixed = TRUE, class = "homerange_asked_note")
  expect_false(any(grepl("control characters", capture_messages(fixes <- read_fixes(path, encoding = "windows-1250")))))
  expect_identical(unique(fixes$animal), "\u0160a\u0161a")
})
