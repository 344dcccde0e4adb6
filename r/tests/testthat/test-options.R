# Arguments become options of homerange-split, its refusals become errors, and what it says has its kind.

# Puts a program in the place of homerange-split: a script of a shell that gets the options, and before them where its words are
# to be written, a line for each.
local_split <- function(script, frame = parent.frame()) {
  folder <- local_folder(frame)
  for (name in c("homerange", "homerange-split")) {
    lines <- c("#!/bin/sh", "printf '%s\\n' \"$@\" >\"$0.words\"", script)
    writeLines(lines, file.path(folder, name))
  }
  Sys.chmod(file.path(folder, c("homerange", "homerange-split")), "755")
  old <- options(homerange.program = file.path(folder, "homerange"))
  at_end(bquote(options(.(old))), frame)
  file.path(folder, "homerange-split.words")
}

test_that("arguments become options", {
  skip_on_os("windows")
  words <- local_split("exit 70")
  expect_words <- function(wanted, ...) {
    expect_error(read_fixes("a b.csv", ...), "homerange-split ended with status 70: it says no more", class = "homerange_program_error")
    lines <- readLines(words, encoding = "UTF-8")
    own <- lines[!startsWith(lines, "--into=")]
    expect_identical(own, c("--machine", wanted, "--", "a b.csv"))
    into <- sub("^--into=", "", lines[startsWith(lines, "--into=")])
    expect_true(startsWith(into, "/") && !dir.exists(dirname(into)))
  }
  expect_words(character())
  expect_words(character(), zone = NULL, skip_unnamed = FALSE)
  expect_words("--skip-unnamed", skip_unnamed = TRUE)
  expect_words(c("--from=lotek", "--unit=dm", "--zone=33N"), from = "lotek", unit = "dm", zone = "33N")
  expect_words(c("--animal=A,B", "--time=Day,Hour of it"), animal = "A,B", time = c("Day", "Hour of it"))
  expect_words(c("--na=-9999,N/A", "--sensor=gps,none"), na = c(-9999, "N/A"), sensor = "gps,none")
  expect_words("--na=-9999,999.125", na = c(-9999, 999.125))
  expect_words(c("--argos-class=3,2", "--fix-type=3D"), argos_class = c(3, 2), fix_type = factor("3D"))
  expect_words(c("--max-dop=5", "--max-speed=0.1"), max_dop = 5, max_speed = 0.1)
  expect_words(c("--max-dop=5.0", "--max-speed=0.0000001"), max_dop = "5.0", max_speed = 1e-7)
  expect_words(c("--since=2024-05-01", "--until=2024-05-31T12:00:00Z"), since = as.Date("2024-05-01"),
               until = as.POSIXct("2024-05-31 14:00", tz = "Europe/Berlin"))
  expect_words(c("--since=2024-05-01 10:00", "--every=90min"), since = "2024-05-01 10:00", every = "90min")
  expect_words("--every=7200s", every = 2)
  expect_words(c("--zone=33N", "--time-format=%d.%m.%Y|%Y"), zone = factor("33N"), time_format = c("%d.%m.%Y", "%Y"))
  expect_words("--every=1200s", every = 1 / 3)
  expect_words("--every=1800s", every = as.difftime(30, units = "mins"))
  expect_words(c("--skip-lines=100000", "--header=Acquisition"), skip_lines = 1e5, header = "Acquisition")
  expect_words(c("--encoding=latin-1", "--name=-x", "--tz=Europe/Berlin"), encoding = "latin-1", name = "-x", tz = "Europe/Berlin")
  expect_words(c("--lon=\u00e4", "--lat=it's $HOME", "--dop=d"), lon = "\u00e4", lat = "it's $HOME", dop = "d")
  expect_error(read_fixes("-"), class = "homerange_program_error")
  expect_identical(utils::tail(readLines(words), 1), "./-")
})

test_that("lengths of time and speeds are taken by their class", {
  skip_without_lubridate()
  expect_identical(text_of_length(lubridate::dhours(6)), "21600s")
  expect_identical(text_of_length(lubridate::hours(6)), "21600s")
  expect_identical(text_of_length(lubridate::days(1) + lubridate::minutes(1)), "86460s")
  expect_error(text_of_length(lubridate::period(1, "month")), "every = Period is not a second or more", class = "homerange_option_error")
  skip_if_not_installed("units")
  expect_identical(text_of_length(units::set_units(30, "min")), "1800s")
  expect_identical(text_of_speed(units::set_units(1.8, "km/h")), "0.5")
  expect_identical(text_of_speed(units::set_units(0.25, "m/s")), "0.25")
  expect_error(text_of_speed(units::set_units(1, "m")), "max_speed is in m, which is no speed", class = "homerange_option_error")
  expect_error(text_of_length(units::set_units(1, "m")), "every = units is not a second or more", class = "homerange_option_error")
  expect_error(text_of_number("max_dop", units::set_units(5, "1")), "max_dop is units and not a number from 0",
               class = "homerange_option_error")
})

test_that("what no option can say is refused", {
  skip_on_os("windows")
  words <- local_split("exit 70")
  refused <- function(message, ...) {
    fault <- expect_error(read_fixes("export.csv", ...), class = "homerange_option_error")
    expect_match(conditionMessage(fault), message, fixed = TRUE)
    expect_false(file.exists(words))
  }
  refused("there is no option form", form = "x")
  refused("there is no option use", use = TRUE)
  refused("there is no option mark", mark = TRUE)
  refused("there is no option without a name", "33N")
  refused("zone is there twice", zone = "33N", zone = "33N")
  refused("from = 2 values is no text", from = c("lotek", "argos"))
  refused("name = \"a\\x0ab\" has a control character", name = "a\nb")
  refused("zone = 33 is no text: write such as zone = \"33N\"", zone = 33)
  refused("skip_lines is NA and not a number from 0", skip_lines = NA)
  refused("skip_unnamed = \"yes\" is neither TRUE nor FALSE", skip_unnamed = "yes")
  refused("sensor = NA is no name: a text, or several, is wanted", sensor = NA)
  refused("sensor: there is no word", sensor = character())
  refused("animal: 'a,b' has a comma, which stands between words", animal = c("a,b", "c"))
  refused("animal = 2 is no name of a column: a text, or several, is wanted", animal = 2)
  refused("max_dop is 2 values and not a number from 0", max_dop = 1:2)
  refused("max_dop is Date and not a number from 0", max_dop = as.Date("2024-05-01"))
  refused("every = 0 is not a second or more in h, min or s, such as \"24h\", \"30min\" or \"90s\"", every = 0)
  refused("every = \"1d\" is not a second or more in h, min or s, such as \"24h\", \"30min\" or \"90s\"", every = "1d")
  refused("every = \"0.2s\" is not a second or more in h, min or s", every = "0.2s")
  refused("every = 1.0001 is no whole number of seconds", every = 1.0001)
  refused("every = TRUE is not a second or more", every = TRUE)
  refused("since has 2 values, and one moment is wanted", since = c("2024-05-01", "2024-05-02"))
  refused("since = 20240401 is neither a text such as \"2024-05-01\" nor a date", since = 20240401)
  refused("until = TRUE is neither a text", until = TRUE)
  refused("until is missing, and a moment is wanted", until = as.Date(NA))
  refused("until = POSIXct is neither a text", until = .POSIXct(Inf))
  refused("lon is a<e4>, which the program cannot be told: is it UTF-8, and short?", lon = "a\xe4")
  refused("which the program cannot be told", lon = strrep("a", 70000))
  refused("there is no option use: choose the rows of the table before", use = "ok")
  refused("there is no option months: choose among the fixes", months = 5)
  expect_error(read_fixes("export.csv", quiet = 1), "quiet = 1 is neither TRUE nor FALSE", class = "homerange_option_error")
})

test_that("options of files are refused beside a frame", {
  frame <- data.frame(animal = "a", second = 0, easting = 1, northing = 1)
  for (option in list(list(encoding = "latin-1"), list(skip_lines = 1), list(header = "a"), list(from = "gpx"))) {
    expect_error(do.call(read_fixes, c(list(frame), option)), paste0("^", names(option), ".* is for files"),
                 class = "homerange_option_error")
  }
})

test_that("refusals become errors", {
  skip_on_os("windows")
  record <- file.path(local_folder(), "record")
  expect_refusal <- function(status, line, kind, text, number = NULL) {
    writeLines(line, record)
    local_split(sprintf("cat '%s' >&2; exit %d", record, status))
    fault <- expect_error(read_fixes("export.csv"), class = paste0("homerange_", kind, "_error"))
    expect_identical(conditionMessage(fault), text)
    expect_identical(fault$record, number)
    expect_identical(inherits(fault, "homerange_data_error"), status == 1 && kind != "program")
  }
  expect_refusal(1, "number,export.csv,3,\"x is '1,5', so\"", "number", "export.csv: record 3: x is '1,5', so", 3)
  expect_refusal(1, "text,export.csv,,\"export.csv is no GPX, \u00e4\"", "text", "export.csv is no GPX, \u00e4")
  expect_refusal(1, "unread,export.csv,2,not read yet", "unread", "export.csv: record 2: not read yet", 2)
  expect_refusal(2, "option,export.csv,,--unit: km is neither m nor dm", "option", "unit: km is neither m nor dm")
  expect_refusal(3, "memory,export.csv,,not enough memory", "memory", "not enough memory")
  expect_refusal(4, "output,export.csv,,tracks: No space left on device", "output", "tracks: No space left on device")
  expect_refusal(1, "split: no record", "program", "homerange-split ended with status 1: split: no record")
  expect_refusal(70, "number,export.csv,,x", "program", "homerange-split ended with status 70: number,export.csv,,x")
})

test_that("options in the program's text are said as arguments", {
  said <- c(
    "--max-dop: no column has it" = "max_dop: no column has it", "name it, as by --dop COLUMN" = "name it, as by dop = \"COLUMN\"",
    "such as --zone 33N" = "such as zone = \"33N\"", "say so by --lon 'a b' --lat y --zone 33N; or" =
      "say so by lon = \"a b\", lat = \"y\", zone = \"33N\"; or",
    "such as --argos-class 3,2,1 (none is" = "such as argos_class = \"3,2,1\" (none is", "by --na=x" = "by na = \"x\"",
    "name it, by --na=." = "name it, by na = \".\"", "by --na=.., or" = "by na = \"..\", or", "(by --na=n/a)" = "(by na = \"n/a\")",
    "by --na='x;y'" = "by na = \"x;y\"", "'a', which --na names: leave it out of --na" = "'a', which na names: leave it out of na",
    "and --skip-unnamed leaves such records out" = "and skip_unnamed = TRUE leaves such records out",
    "take these, by --lon and --lat and more" = "take these, by lon and lat and more", "without --tz times are" = "without tz times are",
    "read by --from gpx" = "read by from = \"gpx\"", "leave --tz out, or" = "leave tz out, or", "a -- b" = "a -- b"
  )
  expect_identical(vapply(names(said), as_arguments, "", USE.NAMES = FALSE), unname(said))
})

test_that("each line that is said has its kind", {
  of <- c(
    "1 records have no coordinates: left out" = "left_out", "no fix of 'a?' is left: no file" = "left_out",
    "2 fixes are before 2024-05-01: left out" = "left_out", "3 outliers: use 0" = "left_out",
    "no column has a usual title for the time: fixes are in the order of rows, as seconds 0, 1, 2, .." = "guessed",
    "times are read as ISO text, in UTC" = "guessed", "all fixes are of the sensor argos" = "guessed",
    "2 records lie in the hour that comes twice in Europe/Berlin: records 5, 6" = "guessed",
    "UTM coordinates are those of the export; zone: 33N 5" = "guessed",
    "longitude and latitude are projected into zone 33N; fixes by zone: 33N 5" = "guessed",
    "days and hours are those of Europe/Berlin, the zone of when?" = "guessed",
    "columns: a, what?" = "guessed", "not read: a, what?" = "guessed",
    "2 of 3 animals have one record: is id the animal?" = "asked",
    "animals 'fox' and 'Fox' differ in blanks or capitals alone: are they one?" = "asked",
    "3 fixes lie at easting 0 and northing 0: are they fixes that failed?" = "asked",
    "15 of 315 fixes of v lie 5,000 m from the others: records 4, 5, ..: are they hers?" = "asked",
    "all 10 fixes lie within 2 by 1 m: are they in metres?" = "asked",
    "coordinates are shifted by 1000000 m east and 0 m north" = "moved",
    "coordinates are rounded to whole metres, which moves a fix by at most 0.71 m" = "rounded",
    "areas of a are 0.15 % too great on this grid" = "scale", "lengths of a differ by up to 2.72 % by direction on this grid" = "scale",
    "2 records of a come before an earlier one: sorted by time" = "sorted",
    "2 records of a have the second of the one before, and 1 its place: kept" = "same",
    "a has 1048577 records, more than the 1048576 that homerange takes" = "limit",
    "no fix of a is used, which homerange refuses" = "limit", "animal 'a/b?' is named a_b_" = "renamed"
  )
  expect_identical(vapply(names(of), kind_of_said, ""), of)
})

test_that("an empty zone of times is that of the session, and it is said", {
  skip_without_split()
  old <- Sys.getenv("TZ", NA)
  on.exit(if (is.na(old)) Sys.unsetenv("TZ") else Sys.setenv(TZ = old))
  Sys.setenv(TZ = "Europe/Berlin")
  table <- data.frame(animal = "a", time = c("2024-05-01 00:00", "2024-05-01 01:00"), easting = 1e5 + 1:2, northing = 1e6)
  expect_message(fixes <- read_fixes(table, tz = ""), "days and hours are those of Europe/Berlin, the zone of the session",
                 class = "homerange_guessed_note")
  expect_identical(as.numeric(fixes$time[1]), as.numeric(as.POSIXct("2024-04-30 22:00", tz = "UTC")))
  Sys.setenv(TZ = "CET-1CEST")
  expect_error(read_fixes(table, tz = ""), "which has no name: name it", class = "homerange_option_error")
})

test_that("a speed in units is rounded up, so that none is cut", {
  skip_if_not_installed("units")
  expect_identical(text_of_speed(units::set_units(1.2, "km/h")), "0.333334")
})

test_that("options of times are refused for fixes that have none", {
  skip_without_split()
  fixes <- read_fixes(data.frame(animal = "a", easting = c(500000, 500010, 500020), northing = c(5000000, 5000030, 5000010)), quiet = TRUE)
  for (given in list(list(every = "2h"), list(max_speed = 400), list(since = "1970-01-01"), list(until = "2024-01-01"))) {
    fault <- expect_error(do.call(read_fixes, c(list(fixes, quiet = TRUE), given)), class = "homerange_option_error")
    expect_identical(conditionMessage(fault), paste0(names(given), ": these fixes have no time, but the order of rows: name its column, by time, where the table is read"))
  }
})
