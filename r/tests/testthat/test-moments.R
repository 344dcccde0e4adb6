# Days and clocks of frames in sessions of other zones, and what is said of lengths of time beside days.

in_zone <- function(zone, frame = parent.frame()) {
  old <- Sys.getenv("TZ", NA)
  Sys.setenv(TZ = zone)
  at_end(if (is.na(old)) quote(Sys.unsetenv("TZ")) else bquote(Sys.setenv(TZ = .(old))), frame)
}

days_and_clocks <- function(day, clock) {
  data.frame(animal = "a", day = day, clock = clock, easting = 500000 + 1:4, northing = 5e6 + c(1, 5, 2, 9))
}

test_that("days as moments without a zone are joined to clocks in each session", {
  skip_without_split()
  clock <- as.difftime(3600 * 1:4, units = "secs")
  wanted <- as.numeric(as.POSIXct(c("2024-05-01 01:00", "2024-05-02 02:00", "2024-05-03 03:00", "2024-05-04 04:00"), tz = "UTC"))
  for (zone in c("UTC", "Europe/Vienna", "America/New_York", "Asia/Kathmandu")) {
    in_zone(zone)
    day <- .POSIXct(86400 * as.numeric(as.Date("2024-05-01") + 0:3))  # as R before 4.3 makes moments of days
    fixes <- quietly(read_fixes(days_and_clocks(day, clock), time = c("day", "clock")))
    expect_identical(as.numeric(fixes$time), wanted)
    own <- quietly(read_fixes(days_and_clocks(as.POSIXct(format(as.Date("2024-05-01") + 0:3)), clock), time = c("day", "clock"), tz = zone))
    expect_identical(format(own$time, "%d %H"), c("01 01", "02 02", "03 03", "04 04"))
  }
})

test_that("what is said to make times of days and lengths makes them in each session, of the row that has such a length", {
  skip_without_split()
  in_zone("America/New_York")
  hours <- c(1, 2, 25, 4)
  lengths <- as.difftime(hours, units = "hours")
  wanted <- as.numeric(as.POSIXct("2024-05-01", tz = "UTC")) + 86400 * 0:3 + 3600 * hours
  texts <- format(as.Date("2024-05-01") + 0:3)
  for (day in list(texts, factor(texts), as.Date(texts), as.POSIXct(texts, tz = "UTC"))) {
    x <- days_and_clocks(day, lengths)
    fault <- expect_error(read_fixes(x, time = c("day", "clock"), quiet = TRUE), "makes times of both", class = "homerange_time_error")
    expect_identical(fault$record, 3L)
    help <- sub(" makes times of both.*", "", sub(".*known: ", "", conditionMessage(fault)))
    x$at <- eval(parse(text = help))
    expect_identical(as.numeric(quietly(read_fixes(x[c("animal", "at", "easting", "northing")], time = "at"))$time), sort(wanted))
  }
  x <- days_and_clocks(as.Date(texts), lengths)
  fault <- expect_error(read_fixes(x, time = c("day", "clock"), tz = "Europe/Vienna", quiet = TRUE), class = "homerange_time_error")
  expect_match(conditionMessage(fault), "as.POSIXct(format(x[[\"day\"]]), tz = \"Europe/Vienna\") + x[[\"clock\"]]", fixed = TRUE)
  x <- days_and_clocks(format(as.Date(texts), "%d.%m.%Y"), lengths)
  said <- "as.POSIXct(x[[\"day\"]], tz = \"UTC\", format = ..) + x"
  expect_error(read_fixes(x, time = c("day", "clock"), quiet = TRUE), said, fixed = TRUE)
})

test_that("since goes from the first of two moments, and until to the second", {
  skip_without_split()
  at <- as.POSIXct("2024-10-26 23:30", tz = "UTC") + 1800 * 0:6  # the clocks of Vienna have 01:30, and twice 02:00 and 02:30
  table <- data.frame(animal = "a", time = at, easting = 500000 + 1:7, northing = 5e6 + c(1, 5, 2, 9, 3, 4, 8))
  since <- quietly(read_fixes(table, tz = "Europe/Vienna", since = "2024-10-27 02:30"))
  expect_equal(as.numeric(min(since$time)), as.numeric(as.POSIXct("2024-10-27 00:30", tz = "UTC")))
  until <- quietly(read_fixes(table, tz = "Europe/Vienna", until = "2024-10-27 02:30"))
  expect_equal(as.numeric(max(until$time)), as.numeric(as.POSIXct("2024-10-27 01:30", tz = "UTC")))
})

test_that("groups may be moments of any class, and what has labels is said to have them", {
  skip_without_split()
  fixes <- quietly(read_fixes(transform(walk("fox", 40, 1), second = 1.7e9 + second)))
  names_of <- function(by) quietly(home_range(fixes, 100, by = by))$groups$group
  day <- as.POSIXct("2024-05-01", tz = "UTC") + 86400 * (seq_len(nrow(fixes)) %% 2)
  expect_identical(names_of(as.POSIXlt(day)), names_of(day))
  expect_identical(names_of(function(x) as.POSIXlt(day)), names_of(day))
  labelled <- structure(rep_len(1:2, nrow(fixes)), labels = c(den = 1L, open = 2L), class = c("haven_labelled", "vctrs_vctr", "integer"))
  expect_error(home_range(fixes, by = labelled, quiet = TRUE), "as by haven::as_factor", class = "homerange_option_error")
})

test_that("moments labelled UTC whose title says another clock are refused", {
  skip_without_split()
  clock <- as.POSIXct("2024-05-01 08:00", tz = "UTC") + 3600 * 0:3
  words <- c(local_time = "local", time_cet = "cet", Ortszeit = "Ortszeit", "Zeit (MEZ)" = "MEZ")
  in_zone("UTC")
  for (title in names(words)) {
    table <- data.frame(animal = "a", time = clock, easting = 500000 + 1:4, northing = 5e6 + c(1, 5, 2, 9))
    names(table)[2] <- title
    said <- paste0("'", title, "' says ", words[[title]], ", and its moments are labelled UTC: if they are, name tz = \"UTC\", and else give them ",
                   "the zone of their clock, as by as.POSIXct(format(x[[\"", title, "\"]]), tz = \"Europe/Ljubljana\")")
    for (own in list(clock, as.POSIXlt(clock), `attr<-`(clock, "tzone", NULL), `attr<-`(clock, "tzone", "GMT"))) {
      table[[title]] <- own
      for (given in list(list(), list(tz = "Europe/Vienna"), list(time = title), list(time = title, tz = "Europe/Vienna"))) {
        expect_error(quietly(do.call(read_fixes, c(list(table), given))), said, fixed = TRUE, class = "homerange_columns_error")
      }
      expect_identical(as.numeric(quietly(read_fixes(table, tz = "UTC"))$time), as.numeric(clock))
    }
    table[[title]] <- as.POSIXct(format(table[[title]]), tz = "Europe/Ljubljana")
    expect_identical(as.numeric(quietly(read_fixes(table))$time), as.numeric(clock) - 7200)
    names(table)[2] <- "time_utc"
    table$time_utc <- clock
    for (tz in list(NULL, "Europe/Vienna")) expect_identical(as.numeric(quietly(read_fixes(table, tz = tz))$time), as.numeric(clock))
  }
})

test_that("fixes that write.csv writes are read as they were", {
  skip_without_split()
  times <- as.POSIXct("2024-03-30 22:00", tz = "UTC") + 86400 * 0:3  # clocks are moved on the second day
  for (zone in c("UTC", "Europe/Vienna", "America/St_Johns", "Asia/Kathmandu")) {
    table <- data.frame(animal = "a", time = times, easting = c(500002, 500101, 600003, 500001), northing = 5300004 + c(0, 1, 5, 2))
    fixes <- quietly(read_fixes(table, tz = zone, zone = "33N"))
    path <- file.path(local_folder(), "fixes.csv")
    utils::write.csv(fixes, path, row.names = FALSE)
    for (own in list(path, utils::read.csv(path))) {
      again <- quietly(read_fixes(own, tz = zone, zone = "33N"))
      expect_identical(as.data.frame(again), as.data.frame(fixes))
    }
    expect_identical(class(fixes$time), c("POSIXct", "POSIXt"))
  }
  changed <- fixes
  changed[1, "easting"] <- 500004
  expect_identical(quietly(read_fixes(changed))$easting, c(500004, 500101, 600003, 500001))
})

test_that("moments without a zone under a title that says UTC are refused in a session of another zone", {
  skip_without_split()
  old <- Sys.getenv("TZ", NA)
  on.exit(if (is.na(old)) Sys.unsetenv("TZ") else Sys.setenv(TZ = old))
  Sys.setenv(TZ = "Europe/Vienna")
  x <- data.frame(id = "a", time_utc = as.POSIXct("2024-05-01 10:00") + 3600 * 0:2, x = c(500000, 500010, 500020), y = c(5000000, 5000030, 5000010))
  fault <- expect_error(read_fixes(x, time = "time_utc", quiet = TRUE), class = "homerange_columns_error")
  helps <- "as.POSIXct(format(x[[\"time_utc\"]]), tz = \"UTC\")"
  expect_identical(conditionMessage(fault), paste0("'time_utc' says utc, and its moments have no zone, and are by the clock of the session, Europe/Vienna: ",
                                                   "give them their own, as by ", helps, ", or rename the column"))
  labelled <- transform(x, time_utc = as.POSIXct("2024-05-01 10:00", tz = "Europe/Vienna") + 3600 * 0:2)
  expect_identical(as.numeric(read_fixes(labelled, time = "time_utc", quiet = TRUE)$time), 1714550400 + 3600 * 0:2)
  x$time_utc <- eval(parse(text = helps))
  expect_identical(as.numeric(read_fixes(x, time = "time_utc", quiet = TRUE)$time), 1714557600 + 3600 * 0:2)
})

# Four fixes with these times, and with a further column.
timed <- function(time, ...) data.frame(animal = "a", time = time, easting = 500000 + 1:4, northing = 5e6 + c(1, 5, 2, 9), ...)

test_that("moments of a zone that R takes otherwise than its name says are refused", {
  skip_without_split()
  texts <- format(as.POSIXct("2024-05-01 08:00", tz = "UTC") + 3600 * 0:3)
  read_in <- function(zone, ...) as.numeric(quietly(read_fixes(timed(suppressWarnings(as.POSIXct(texts, tz = zone))), ...))$time)
  utc <- as.numeric(as.POSIXct(texts, tz = "UTC"))
  unknown <- c(CEST = "Europe/Ljubljana", MESZ = "Europe/Ljubljana", "Europe/Lubljana" = "Europe/Ljubljana", "+02:00" = "Etc/GMT-2", "-3" = "Etc/GMT+3")
  for (zone in names(unknown)) {
    said <- paste0("the zone ", zone, " of time is none that R knows, and has the clock of UTC there: if moments are of that, name tz = \"UTC\", ",
                   "and else give them the zone of their clock, as by as.POSIXct(format(x[[\"time\"]]), tz = \"", unknown[[zone]], "\")")
    for (tz in list(NULL, "Europe/Ljubljana")) expect_error(read_in(zone, tz = tz), said, fixed = TRUE, class = "homerange_columns_error")
    expect_identical(read_in(zone, tz = "UTC"), utc)
  }
  turned <- list("UTC+2" = c("2 hours behind", "-2", "+2"), "GMT-1" = c("1 hour ahead of", "+1", "-1"), "utc+12" = c("12 hours behind", "-12", "+12"))
  for (zone in names(turned)) {
    own <- turned[[zone]]
    said <- paste0("the zone ", zone, " of time is for R ", sub(" of$", "", own[1]), if (grepl("behind", own[1])) " UTC" else " of UTC",
                   ": give such moments the zone of their clock, as by as.POSIXct(format(x[[\"time\"]]), tz = \"Etc/GMT", own[2],
                   "\"), or by tz = \"Etc/GMT", own[3], "\" if that is meant")
    for (tz in list(NULL, "UTC")) expect_error(read_in(zone, tz = tz), said, fixed = TRUE, class = "homerange_columns_error")
  }
  expect_error(read_in("UTC+5:30"), "5.5 hours behind UTC: .* tz = \"Europe/Ljubljana\"[)]$", class = "homerange_columns_error")
  honest <- c(EST5EDT = 4, CET = -2, EST = 5, "Etc/GMT-2" = -2, "CET-1CEST" = -2, EST5 = 5, Z = 0, utc = 0, "UTC+0" = 0, "+00:00" = 0)
  # Old names of zones are a package of their own from Debian 13 on.
  honest <- honest[!names(honest) %in% setdiff(c("EST5EDT", "CET", "EST"), OlsonNames())]
  for (zone in names(honest)) expect_identical(read_in(zone), utc + 3600 * honest[[zone]])
  notes <- facts_of(quietly(read_fixes(timed(as.POSIXct(texts, tz = "EST5")))))$notes
  expect_true("days and hours are those of UTC, since the zone EST5 of time has no name, which R has 5 hours behind UTC" %in% notes)
})

test_that("a bound and a session of such a zone are refused too", {
  skip_without_split()
  table <- timed(as.POSIXct("2024-05-01 08:00", tz = "UTC") + 3600 * 0:3)
  for (zone in c("CEST", "UTC+2")) {
    since <- suppressWarnings(as.POSIXct("2024-05-01 09:00", tz = zone))
    expect_error(quietly(read_fixes(table, since = since)), paste0("since: the zone ", zone, " is "), fixed = TRUE, class = "homerange_option_error")
  }
  expect_identical(nrow(quietly(read_fixes(table, since = as.POSIXct("2024-05-01 11:00", tz = "Etc/GMT-2")))), 3L)
  in_zone("UTC+2")
  expect_error(quietly(read_fixes(timed(as.POSIXct("2024-05-01 08:00") + 3600 * 0:3))),
               "the zone UTC+2 of the session is for R 2 hours behind UTC", fixed = TRUE, class = "homerange_columns_error")
})

test_that("moments labelled UTC beside a column that says another clock are refused", {
  skip_without_split()
  clock <- as.POSIXct("2024-05-01 08:00", tz = "UTC") + 3600 * 0:3
  zones <- "says of which zone times are, and is not read"
  summers <- function(row) paste0("says that times are by the clock of a summer (row ", row, ")")
  cases <- list(list("utc_offset", 2, zones, 0), list("timezone", "Europe/Ljubljana", zones, "UTC"), list("tz", "CEST", zones, "UTC"),
                list("isdst", 1, summers(1), 0), list("isdst", c(0, 0, NA, 1), summers(4), 0L), list("DST", c(FALSE, TRUE, TRUE, TRUE), summers(2), FALSE),
                list("summer_time", factor(c("no", "yes", "yes", "no")), summers(2), factor(rep("no", 4), c("no", "yes"))))
  for (case in cases) {
    table <- timed(clock)
    table[[case[[1]]]] <- case[[2]]
    said <- paste0("column 5 '", case[[1]], "' ", case[[3]], ", and the moments of time are labelled UTC: if they are, remove it, and else give them ",
                   "the zone of their clock, as by as.POSIXct(format(x[[\"time\"]]), tz = \"Europe/Ljubljana\")")
    for (own in list(clock, as.POSIXlt(clock))) {
      table$time <- own
      expect_error(quietly(read_fixes(table)), said, fixed = TRUE, class = "homerange_columns_error")
    }
    names(table)[2] <- "when"
    expect_error(quietly(read_fixes(table, time = "when")), "the moments of when are labelled UTC", class = "homerange_columns_error")
    table <- transform(table, time = as.POSIXct(format(clock), tz = "Europe/Ljubljana"), when = NULL)
    expect_identical(as.numeric(quietly(read_fixes(table))$time), as.numeric(clock) - 7200)
    table$time <- clock
    table[[case[[1]]]] <- case[[4]]
    expect_identical(as.numeric(quietly(read_fixes(table))$time), as.numeric(clock))
  }
  texts <- timed(format(clock), capture = clock, utc_offset = 2)
  expect_error(quietly(read_fixes(texts)), "name the zone, as by tz = \"Europe/Ljubljana\", or write", class = "homerange_columns_error")
})

test_that("moments of another part of a second are refused with it", {
  skip_without_split()
  clock <- 1714550400 + 3600 * 0:3
  of_seconds <- function(numbers) .POSIXct(numbers, "UTC")
  cases <- list(list(of_seconds(1e3 * clock), "milliseconds", " / 1e3"), list(as.POSIXlt(of_seconds(1e3 * clock)), "milliseconds", " / 1e3"),
                list(of_seconds(1e6 * clock), "microseconds", " / 1e6"), list(.Date(clock), "seconds", ""), list(.Date(1e3 * clock), "milliseconds", " / 1e3"))
  for (case in cases) {
    table <- timed(as.POSIXct(clock, origin = "1970-01-01"))
    table$time <- case[[1]]
    expect_error(quietly(read_fixes(table)), paste0(
      "row 1: time is far behind the year 9999 and not a time such as 2024-05-01 00:30:04: if its numbers are ", case[[2]],
      " since 1970, make moments of them, as by x[[\"time\"]] <- as.POSIXct(as.numeric(x[[\"time\"]])", case[[3]],
      ", origin = \"1970-01-01\", tz = \"UTC\")"), fixed = TRUE, class = "homerange_time_error")
  }
  expect_error(quietly(read_fixes(timed(of_seconds(c(clock[1:3], Inf))))), "row 4: time is 'inf' and not a time", class = "homerange_time_error")
})
