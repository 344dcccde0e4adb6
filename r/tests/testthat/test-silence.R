# What strangers met: nothing is wrong in silence, and nothing ends in an error of R itself.

table_of_four <- function() data.frame(animal = "a", second = 60 * 0:3, easting = 562000 + 0:3, northing = 5134000)

refused <- function(call, text, kind = "option") expect_error(quietly(call), text, fixed = TRUE, class = paste0("homerange_", kind, "_error"))

test_that("options of the session change no number and no name", {
  skip_without_program()
  table <- transform(table_of_four(), animal = "Sch\u00e4fer", easting = easting + 0.5)
  wanted <- summary(quietly(home_range(table)))
  old <- options(encoding = "latin1", scipen = -9, OutDec = ",", digits = 3)
  on.exit(options(old))
  expect_identical(summary(quietly(home_range(table))), wanted)
  # Arguments are those that the user's own options make.
  named <- quietly(home_range(table[-1], name = format(1.25)))
  expect_identical(names(named), "1,25e+00")
})

test_that("an argument that is NULL for a misspelt name is refused", {
  skip_without_program()
  table <- table_of_four()
  said <- function(name, part) paste0(name, ": ", part, " is NULL: is it misspelt? leave ", name, " out where none is meant")
  refused(home_range(table, by = table$seson), said("by", "table$seson"))
  refused(home_range(table, 100, table[["seson"]][1:4]), said("by", "table[[\"seson\"]][1:4]"))
  refused(home_range(table, zone = (table$zne)), said("zone", "(table$zne)"))
  refused(read_fixes(table, crs = table$zne), said("crs", "table$zne"))
  none <- NULL
  ranges <- quietly(home_range(table, by = none, zone = NULL))
  expect_identical(quietly(home_range(table, by = if (FALSE) table$animal))$animals, ranges$animals)
  wrapped <- function(...) home_range(..., zone = none)
  refused(wrapped(table, by = table$seson), said("by", "table$seson"))
  refused(plot(ranges, over = table$reserve), said("over", "table$reserve"))
  page <- file.path(local_folder(), "page.html")
  refused(write_page(ranges, page, reserve = table$reserve), said("reserve", "table$reserve"))
  refused(homerange_evidence(ranges, page, title = table$words), said("title", "table$words"))
  refused(read_report(page, files = table$paths), said("files", "table$paths"))
  skip_if_not_installed("sf")
  refused(sf::st_as_sf(ranges, levels = table$levels), said("levels", "table$levels"))
})

test_that("units on the wrong axis are refused", {
  skip_without_split()
  skip_if_not_installed("units")
  degrees <- units::set_units(c(46.1, 46.2, 46.3, 46.4), "\u00b0", mode = "standard")
  refused(read_fixes(transform(table_of_four(), northing = degrees)), "northing is in \u00b0, and metres are wanted", "columns")
  lon <- units::set_units(c(15.1, 15.2, 15.3, 15.4), "m")
  places <- data.frame(animal = "a", second = 60 * 0:3, lon = lon, lat = degrees)
  refused(read_fixes(places), "lon is in m, and degrees are wanted", "columns")
  expect_identical(nrow(quietly(read_fixes(transform(places, lon = as.numeric(lon))))), 4L)
})

test_that("systems of other bodies are refused in one line", {
  skip_without_split()
  skip_if_not_installed("sf")
  for (moon in c("+proj=longlat +R=1737400 +no_defs", "+proj=stere +lat_0=-90 +R=1737400 +units=m +no_defs")) {
    points <- sf::st_as_sf(table_of_four(), coords = c("easting", "northing"), crs = moon)
    refused(read_fixes(points), "is of another body than the Earth", "crs")
    refused(read_fixes(table_of_four(), crs = moon), "is of another body than the Earth", "crs")
  }
})

test_that("what the program says of a text is said of the frame", {
  skip_without_split()
  refused(read_fixes(transform(table_of_four(), animal = "1e+05")), "keep them as numbers", "name")
  expect_identical(unique(quietly(read_fixes(transform(table_of_four(), animal = 1e5)))$animal), "100000")
  many <- cbind(table_of_four(), as.data.frame(matrix(1, 4, 20000)))
  refused(read_fixes(many), "the table has 20004 columns, and a table may have 16384", "columns")
  far <- transform(table_of_four(), time = .POSIXct(c(1.7e9, Inf, 1.7e9, 1.7e9), "UTC"), second = NULL)
  refused(read_fixes(far), "row 2: time is 'inf'", "time")
})

test_that("arguments that are none are refused by this package", {
  skip_without_program()
  ranges <- quietly(home_range(table_of_four()))
  folder <- local_folder()
  refused(homerange_evidence(ranges, file.path(folder, "a"), nonsense = 1), "there is no argument nonsense")
  refused(homerange_evidence(ranges, file.path(folder, "a"), "title"), "there is an argument too many")
  refused(homerange_evidence(ranges, file.path(folder, "a"), title = 1), "title = 1 is no text")
  refused(write_page(ranges, file.path(folder, "a.html"), made = "today"), "made = \"today\" is no date")
  refused(write_page(ranges, "/proc/page.html"), "/proc/page.html: ", "file")
  refused(read_report(folder), "is a folder, and a file is wanted", "file")
  refused(names(ranges) <- "b", "ranges have the names of their animals")
  refused(plot(ranges, animals = 5), "animals = 5 are no names")
  refused(plot(ranges, col = "nocolour"), "col: \"nocolour\" is no colour")
  refused(plot(ranges, xlim = "a"), "xlim = \"a\" are no two ends of an axis")
  expect_false(file.exists(file.path(folder, "a")))
})

test_that("the zone of the session is found without another program", {
  old <- Sys.getenv(c("TZ", "PATH"), NA)
  on.exit({
    Sys.setenv(PATH = old[["PATH"]])
    if (is.na(old[["TZ"]])) Sys.unsetenv("TZ") else Sys.setenv(TZ = old[["TZ"]])
  })
  Sys.setenv(TZ = "Asia/Tokyo")
  expect_identical(zone_of_session(), "Asia/Tokyo")
  Sys.unsetenv("TZ")
  Sys.setenv(PATH = "/none")
  expect_silent(zone <- zone_of_session())
  expect_true(zone %in% c("UTC", OlsonNames()))
})

test_that("what a refusal says of a column makes it one that is read", {
  skip_without_split()
  with_column <- function(title, column) {
    table <- table_of_four()
    if (title == "time") table$second <- NULL
    table[[title]] <- column
    table
  }
  days <- as.difftime(0:3, units = "days")
  seconds <- "if it is a time, as.numeric(x, units = \"secs\") makes seconds of it, in a column 'second' in its place"
  refused(read_fixes(with_column("time", days)), seconds, "time")
  expect_identical(quietly(read_fixes(with_column("second", as.numeric(days, units = "secs"))))$second, 86400 * c(0, 1, 2, 3))
  hours <- as.difftime(0:3, units = "hours")
  refused(read_fixes(with_column("time", hours)), paste0("join it to days, as by time = c(\"DAY\", \"time\"); if it is a time since a start, ",
                                                         "as.numeric(x, units = \"secs\") makes seconds of it, in a column 'second' in its place"), "time")
  table <- cbind(with_column("time", hours), day = as.Date("2024-05-01"))
  expect_identical(quietly(read_fixes(table, time = c("day", "time")))$time, as.POSIXct("2024-05-01", tz = "UTC") + 3600 * 0:3)
  wanted <- 562000 + c(0, 1, 2, 3)
  refused(read_fixes(with_column("easting", as.list(wanted))), "do.call(c, x) makes a vector of it", "number")
  expect_identical(quietly(read_fixes(with_column("easting", do.call(c, as.list(wanted)))))$easting, wanted)
  pair <- cbind(wanted, 5134000)
  refused(read_fixes(with_column("easting", pair)), "make each of its columns one of the table, as by cbind(table, x)", "number")
  within <- with_column("place", pair)[c("animal", "second", "place")]
  refused(read_fixes(within), "the column 'place' is of several columns: make them columns of the table, as by x$easting <- x[[\"place\"]][, 1]", "columns")
  within$easting <- within[["place"]][, 1]
  within$northing <- within[["place"]][, 2]
  expect_identical(quietly(read_fixes(within))$easting, wanted)
})

test_that("lengths of time beside days become times", {
  skip_without_split()
  table <- cbind(table_of_four()[c("animal", "easting", "northing")], day = as.Date("2024-05-01"), clock = as.difftime(c(0, 1, 30, 31), units = "hours"))
  refused(read_fixes(table, time = c("day", "clock")),
          "as.POSIXct(x[[\"day\"]], tz = \"UTC\") + x[[\"clock\"]] makes times of both, in a column that time names alone", "time")
  table$when <- as.POSIXct(table[["day"]], tz = "UTC") + table[["clock"]]
  expect_identical(quietly(read_fixes(table, time = "when", tz = "UTC"))$time, as.POSIXct("2024-05-01", tz = "UTC") + 3600 * c(0, 1, 30, 31))
})

test_that("a form of times is for texts", {
  skip_without_split()
  moments <- as.POSIXct("2024-05-01 01:00", tz = "UTC") + 3600 * 0:3
  for (title in c("timestamp", "when", "local_time")) {
    table <- table_of_four()[c("animal", "easting", "northing")]
    said <- paste0("time_format is for texts, and '", title, "' has moments: leave it out")
    for (own in list(moments, `attr<-`(moments, "tzone", "Asia/Tokyo"), as.POSIXlt(moments))) {
      table[[title]] <- own
      for (form in c("%d.%m.%Y", "%Y-%m-%d %H:%M:%S", "%Y-%m-%dT%H:%M:%SZ")) {
        # The program says of a form with Z beside another zone that one is to be left out.
        words <- if (endsWith(form, "Z") && identical(attr(own, "tzone"), "Asia/Tokyo")) "leave one of them out" else said
        refused(read_fixes(table, time_format = form), words, "option")
        refused(read_fixes(table, time = title, time_format = form), words, "option")
      }
    }
    table[[title]] <- format(moments, "%d.%m.%Y %H:%M")
    table$deployed <- moments
    expect_identical(quietly(read_fixes(table, time = title, time_format = "%d.%m.%Y %H:%M", tz = "UTC"))$time, moments)
  }
  table <- cbind(table, day = as.Date("2024-05-01"), clock = as.difftime(1:4, units = "hours"))
  expect_identical(quietly(read_fixes(table, time = c("day", "clock"), time_format = "%Y-%m-%d %H:%M:%S"))$time, moments)
})

test_that("clocks that are parts of hours and days are those of whole seconds", {
  skip_without_split()
  seconds <- 60 * 0:1439
  table <- data.frame(animal = "a", day = as.Date("2024-05-01"), easting = 5e5 + seconds %% 977, northing = 5e6 + seconds %% 1013)
  wanted <- as.POSIXct("2024-05-01", tz = "UTC") + seconds
  for (unit in c("hours", "days", "mins")) {
    table$clock <- as.difftime(seconds / c(hours = 3600, days = 86400, mins = 60)[[unit]], units = unit)
    expect_identical(quietly(read_fixes(table, time = c("day", "clock")))$time, wanted)
    if (requireNamespace("hms", quietly = TRUE)) {
      table$clock <- hms::hms(seconds / 86400 * 86400)
      expect_identical(quietly(read_fixes(table, time = c("day", "clock")))$time, wanted)
    }
  }
})

test_that("lengths of time beside days are made clocks", {
  skip_without_split()
  table <- table_of_four()
  table$second <- NULL
  table$day <- as.Date("2024-05-01")
  both <- function(clock) read_fixes(cbind(table, clock = clock), time = c("day", "clock"))
  clocks <- function(seconds) {
    if (!requireNamespace("hms", quietly = TRUE)) return(invisible())
    expect_identical(quietly(both(hms::as_hms(seconds)))$time, as.POSIXct("2024-05-01", tz = "UTC") + 3600 * 0:3)
  }
  if (requireNamespace("lubridate", quietly = TRUE)) {
    seconds <- "hms::as_hms(as.numeric(x, units = \"secs\")) makes clocks of it, which stand beside days"
    refused(both(lubridate::dhours(0:3)), seconds, "time")
    clocks(as.numeric(lubridate::hours(0:3), units = "secs"))
  }
  if (requireNamespace("units", quietly = TRUE)) {
    hours <- units::set_units(0:3, "h")
    refused(both(hours), "hms::as_hms(units::drop_units(units::set_units(x, \"s\"))) makes clocks of it, which stand beside days", "time")
    clocks(units::drop_units(units::set_units(hours, "s")))
  }
})

test_that("units that are no lengths say what makes of them what is read", {
  skip_without_split()
  skip_if_not_installed("units")
  table <- table_of_four()
  table$second <- units::set_units(0:3, "min")
  refused(read_fixes(table), "if it is a time, units::drop_units(units::set_units(x, \"s\")) makes seconds of it, in a column 'second' in its place", "time")
  table$second <- units::drop_units(units::set_units(table$second, "s"))
  expect_identical(quietly(read_fixes(table))$second, 60 * c(0, 1, 2, 3))
  table$easting <- units::set_units(table$easting, "kg")
  refused(read_fixes(table), "it is no length: units::drop_units(x) makes numbers of it", "number")
  table$easting <- units::drop_units(table$easting)
  expect_identical(nrow(quietly(read_fixes(table))), 4L)
})

test_that("points of a site in feet are read once they are metres", {
  skip_without_split()
  skip_if_not_installed("sf")
  site <- "ENGCRS[\"site\",EDATUM[\"site\"],CS[Cartesian,2],AXIS[\"x\",east],AXIS[\"y\",north],LENGTHUNIT[\"foot\",0.3048]]"
  points <- sf::st_set_crs(sf::st_as_sf(table_of_four(), coords = c("easting", "northing")), sf::st_crs(site))
  refused(read_fixes(points), "turn them into metres first, as by sf::st_set_geometry(x, sf::st_geometry(x) * 0.3048)", "crs")
  # 562000 feet are 171297.6 metres.
  expect_identical(quietly(read_fixes(sf::st_set_geometry(points, sf::st_geometry(points) * 0.3048)))$easting[1], 171298)
  refused(read_fixes(table_of_four(), crs = sf::st_crs(site)), "turn them into metres first, and leave crs out", "crs")
})
