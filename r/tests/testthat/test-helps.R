# What is refused of times in several columns, of numbers, years and sensors, with what helps: what it says is done, and then the
# table is read as it was meant.

places <- data.frame(animal = "a", easting = c(500010, 500090, 500040), northing = c(5000020, 5000010, 5000080))
day <- as.POSIXct("2024-03-01", tz = "UTC")
ats <- cbind(places, Year = 2024, Julday = 60:62, Hour = c(1, 0, 23), Minute = c(5, 30, 0))
ats_times <- as.numeric(as.POSIXct(c("2024-02-29 01:05", "2024-03-01 00:30", "2024-03-02 23:00"), tz = "UTC"))
hours <- cbind(places, date = "2024-03-01", hour = c(1, 9, 23))
hour_times <- as.numeric(day) + 3600 * c(1, 9, 23)

refused <- function(x, text, kind, ...) {
  fault <- expect_error(read_fixes(x, ..., quiet = TRUE), class = paste0("homerange_", kind, "_error"))
  expect_identical(conditionMessage(fault), text)
}

# What a refusal says is to be done, behind these words.
said_of <- function(x, start, ...) {
  text <- conditionMessage(expect_error(read_fixes(x, ..., quiet = TRUE), class = "homerange_error"))
  expect_identical(substr(text, 1, nchar(start)), start)
  substring(text, nchar(start) + 1)
}

seconds_of_fixes <- function(...) as.numeric(read_fixes(..., quiet = TRUE)$time)

test_that("times in several columns are refused with what joins them", {
  skip_without_split()
  odd <- "and not a time such as 2024-05-01 00:30:04: "
  has_hours <- "has hours, which the days of the time have not: join them, as by "
  form <- "%Y %j %H %M"
  refused(ats, paste0("row 1: Year Julday Hour Minute is '2024 60 1 5' ", odd, "name its form, as by time_format = \"%Y %j %H %M\""), "time",
          time = c("Year", "Julday", "Hour", "Minute"))
  refused(ats, paste0("column 6 'Hour' ", has_hours, "time = \"Year,Julday,Hour,Minute\", time_format = \"%Y %j %H %M\", or remove it"), "columns",
          time = c("Year", "Julday"), time_format = "%Y %j")
  expect_identical(seconds_of_fixes(ats, time = "Year,Julday,Hour,Minute", time_format = "%Y %j %H %M"), ats_times)
  refused(hours, paste0("column 5 'hour' ", has_hours, "time = \"date,hour\", time_format = \"%Y-%m-%d %H\", or remove it"), "columns")
  refused(hours, paste0("row 1: date hour is '2024-03-01 1' ", odd, "name its form, as by time_format = \"%Y-%m-%d %H\""), "time",
          time = c("date", "hour"))
  expect_identical(seconds_of_fixes(hours, time = "date,hour", time_format = "%Y-%m-%d %H"), hour_times)
  more <- cbind(hours, minute = 0)
  refused(more, paste0("column 5 'hour' ", has_hours, "time = \"date,hour,minute\", time_format = \"%Y-%m-%d %H %M\", or remove it"), "columns")
  expect_identical(seconds_of_fixes(more, time = "date,hour,minute", time_format = "%Y-%m-%d %H %M"), hour_times)
  odd_titles <- cbind(places, y = 24, m = 3, d = 1, h = c(1, 9, 23))
  refused(odd_titles, paste0("row 1: y m d h is '24 3 1 1' ", odd, "if it is one, name its form, by time_format"), "time", time = "y,m,d,h")
  path <- file.path(local_folder(), "ats.csv")
  write.csv(ats, path, row.names = FALSE)
  refused(path, paste0(path, ": record 1: Year Julday Hour Minute is '2024 60 1 5' ", odd, "name its form, as by time_format = \"%Y %j %H %M\""),
          "time", time = "Year,Julday,Hour,Minute")
  expect_identical(seconds_of_fixes(path, time = "Year,Julday,Hour,Minute", time_format = "%Y %j %H %M"), ats_times)
})

test_that("clocks that have lost zeros are refused with what gives them back", {
  skip_without_split()
  for (clocks in list(c(30, 130, 1330), c("30", "130", "1330"))) {
    x <- cbind(places, date = "2024-03-01", time = clocks)
    helps <- "write clocks of four digits, as by x[[\"time\"]] <- sprintf(\"%04d\", as.integer(x[[\"time\"]]))"
    odd <- "row 1: date time is '2024-03-01 30' and not a time "
    refused(x, paste0(odd, "such as 2024-05-01 00:30:04: ", helps), "time", time = "date,time")
    refused(x, paste0(odd, "of the form %Y-%m-%d %H%M: ", helps), "time", time = "date,time", time_format = "%Y-%m-%d %H%M")
    eval(parse(text = sub("^.* as by ", "", helps)))
    refused(x, paste("row 1: date time is '2024-03-01 0030' and not a time such as 2024-05-01 00:30:04: name its form, as by time_format =",
                     "\"%Y-%m-%d %H%M\""), "time", time = "date,time")
    expect_identical(seconds_of_fixes(x, time = "date,time", time_format = "%Y-%m-%d %H%M"), as.numeric(day) + 60 * c(30, 90, 810))
  }
})

test_that("hours with decimals are refused with what makes moments of them", {
  skip_without_split()
  x <- cbind(places, date = "2024-03-01", hour = c(0.5, 1.25, 23.75))
  moment <- "as.POSIXct(x[[\"date\"]], tz = \"UTC\") + 3600 * x[[\"hour\"]]"
  helps <- paste0("make moments of both, as by ", moment, ", in a column that time names alone")
  refused(x, paste0("column 5 'hour' has hours, which the days of the time have not: ", helps, ", or remove it"), "columns")
  odd <- "row 1: date hour is '2024-03-01 0.5' and not a time "
  refused(x, paste0(odd, "such as 2024-05-01 00:30:04: ", helps), "time", time = "date,hour")
  refused(x, paste0(odd, "of the form %Y-%m-%d %H: ", helps), "time", time = "date,hour", time_format = "%Y-%m-%d %H")
  x$moment <- eval(parse(text = moment))
  expect_identical(seconds_of_fixes(x, time = "moment"), as.numeric(day) + 60 * c(30, 75, 1425))
})

test_that("clocks and parts of a day under a title of hours are refused with what makes clocks and moments of them", {
  skip_without_split()
  has_hours <- "column 5 'hour' has hours, which the days of the time have not: "
  for (case in list(list(c(30, 100, 1330), 4, "four"), list(c("0030", "0100", "1330"), 4, "four"), list(c(3000, 10000, 133000), 6, "six"))) {
    x <- cbind(places, date = "2024-03-01", hour = case[[1]])
    makes <- paste0("x[[\"hour\"]] <- sprintf(\"%0", case[[2]], "d\", as.integer(x[[\"hour\"]]))")
    form <- paste("%Y-%m-%d", if (case[[2]] == 4) "%H%M" else "%H%M%S")
    refused(x, paste0(has_hours, "write clocks of ", case[[3]], " digits, as by ", makes, ", and join them, as by time = \"date,hour\", time_format = \"",
                      form, "\", or remove it"), "columns")
    eval(parse(text = makes))
    expect_identical(seconds_of_fixes(x, time = "date,hour", time_format = form), as.numeric(day) + 60 * c(30, 60, 810))
  }
  x <- cbind(places, date = "2024-03-01", hour = c(0.020833333, 0.25, 0.5625))
  moment <- "as.POSIXct(x[[\"date\"]], tz = \"UTC\") + round(86400 * x[[\"hour\"]])"
  refused(x, paste0(has_hours, "make moments of both, as by ", moment, ", in a column that time names alone, or remove it"), "columns")
  x$moment <- eval(parse(text = moment))
  expect_identical(seconds_of_fixes(x, time = "moment"), as.numeric(day) + 60 * c(30, 360, 810))
  x <- cbind(places, date = "2024-03-01", hour = c("1h30", "2h30", "3h30"))
  refused(x, paste0(has_hours, "write them as clocks, such as 00:30, and join them, as by time = \"date,hour\", or remove it"), "columns")
})

test_that("clocks to which one day was given are refused with what takes it away", {
  skip_without_split()
  x <- cbind(places, date = c("2024-03-01", "2024-03-02", "2024-03-03"))
  x$clock <- as.POSIXct(c("2026-11-30 00:30", "2026-11-30 09:00", "2026-11-30 13:30"), tz = "UTC")
  makes <- "x[[\"clock\"]] <- format(x[[\"clock\"]], \"%H:%M:%S\")"
  refused(x, paste0("column 5 'clock' has days with clocks, and all of one day: if they are clocks, make clocks of them, as by ", makes,
                    ", and name both, as by time = \"DAY,clock\"; or remove it"), "columns")
  expect_match(said_of(x, "", time = "date,clock"), "clock has clocks on one day: make clocks of it, as by format(x[[\"clock\"]], \"%H:%M:%S\")", fixed = TRUE)
  eval(parse(text = makes))
  expect_identical(seconds_of_fixes(x, time = "date,clock"), as.numeric(day) + 86400 * 0:2 + 60 * c(30, 540, 810))
})

test_that("numbers that are text are refused with what makes numbers of them", {
  skip_without_split()
  cases <- list(c("500010,5", "500090,25", "if its comma stands before decimals, make"), c("+500010.5", "500090.25", "make"),
                c(" 500010.5", "500090.25", "make"), c("5.000105e5", "500090.25", "make"))
  for (case in cases) {
    for (kind in list(identity, factor)) {
      x <- data.frame(animal = "a", time = as.Date("2024-03-01") + 0:2, easting = kind(c(case[1:2], NA)), northing = places$northing)
      start <- paste0("row 1: easting is '", case[1], "' and not a number of up to 12 digits: ", case[3], " numbers of its column, as by ")
      eval(parse(text = said_of(x, start)))
      expect_identical(read_fixes(x, unit = "dm", quiet = TRUE)$easting, c(500010.5, 500090.3))
    }
  }
})

test_that("years of two digits are refused with what reads them", {
  skip_without_split()
  for (value in list(as.Date("0024-03-01"), as.POSIXct("0024-03-01", tz = "UTC"), as.POSIXct("01.03.24", format = "%d.%m.%Y", tz = "UTC"), "0024-03-01")) {
    text <- said_of(cbind(places, time = value), "row 1: time is '0024-03-01")
    expect_identical(sub("^.* seconds", "", text), paste0(": if its year was written with two digits, read it so, as by as.POSIXct(.., format = ",
                                                          "\"%d.%m.%y\", tz = \"UTC\")"))
  }
  when <- as.POSIXct(c("01.03.24", "02.03.24", "03.03.24"), format = "%d.%m.%y", tz = "UTC")
  expect_identical(seconds_of_fixes(cbind(places, time = when)), as.numeric(day) + 86400 * 0:2)
})

test_that("sensors without a column are refused with what helps", {
  skip_without_split()
  x <- cbind(places, time = "2024-03-01", kind = c("gps", "gps", "other"))
  no_column <- "sensor: no fix is of gps: no column has a usual title for the sensor: name it sensor-type, or leave sensor out"
  refused(x, no_column, "sensor", sensor = "gps")
  named <- `names<-`(x, sub("kind", "sensor-type", names(x)))
  expect_identical(nrow(read_fixes(named, sensor = "gps", quiet = TRUE)), 2L)
  refused(named, "sensor: no fix is of radio: they are of gps 2, other 1", "sensor", sensor = "radio")
  path <- file.path(local_folder(), "fixes.csv")
  write.csv(x, path, row.names = FALSE)
  refused(path, paste0(path, ": ", no_column), "sensor", sensor = "gps")
})

moments <- as.POSIXct(c("2024-03-01 12:00:00", "2024-03-01 13:20:05", "2024-03-02 00:00:01"), tz = "UTC")

test_that("times that are counted otherwise are refused with what makes moments of them", {
  skip_without_split()
  seconds <- as.numeric(moments)
  cases <- list(
    list(c(45352.5, 45352.5 + 4805 / 86400, 45353 + 1 / 86400), "which looks like days of Excel: make moments of it"),
    list(c(19783.5, 19783.5 + 4805 / 86400, 19784 + 1 / 86400), "which looks like days since 1970: make moments of it"),
    list(c(60370.5, 60370.5 + 4805 / 86400, 60371 + 1 / 86400), "which looks like modified Julian days: make moments of it"),
    list(c(2460371, 2460371 + 4805 / 86400, 2460371.5 + 1 / 86400), "which looks like Julian days: make moments of it"),
    list(seconds * 1e3, paste("which looks like milliseconds, or a date without signs between: if it is milliseconds since 1970, make moments",
                              "of it")),
    list(seconds * 1e6, "which is no second since 1970 (1990 to 2286): if it is microseconds since 1970, make moments of it")
  )
  for (case in cases) {
    texts <- trimws(formatC(case[[1]], digits = 17, width = 1, format = "fg"))
    for (counts in list(case[[1]], texts, factor(texts))) {
      x <- cbind(places, time = counts)
      eval(parse(text = said_of(x, paste0("row 1: time is '", texts[1], "', ", case[[2]], ", as by "))))
      expect_identical(seconds_of_fixes(x), seconds)
    }
  }
  x <- cbind(places, time = cases[[1]][[1]])
  eval(parse(text = sub("^.* as by ", "", said_of(x, "row 1: ", tz = "Europe/Vienna"))))
  expect_identical(seconds_of_fixes(x, tz = "Europe/Vienna"), seconds - 3600)  # days of a spreadsheet are of the clock that tz names
})

test_that("days since 1970 are refused with what makes days of them", {
  skip_without_split()
  cases <- list(list(19783:19785, "which looks like days since 1970: make days of it"),
                list(12478:12480, "which is no second since 1970 (1990 to 2286): if it is days since 1970, make days of it"))
  for (case in cases) {
    x <- cbind(places, time = case[[1]])
    call <- said_of(x, paste0("row 1: time is '", case[[1]][1], "', ", case[[2]], ", as by "))
    expect_identical(call, "x[[\"time\"]] <- as.Date(x[[\"time\"]], origin = \"1970-01-01\")")
    eval(parse(text = call))
    expect_identical(seconds_of_fixes(x), 86400 * case[[1]])
  }
  path <- file.path(local_folder(), "days.csv")
  writeLines(c("animal,time,easting,northing", "a,19783,500010,5000020"), path)
  said_of(path, paste0(path, ": record 1: time is '19783', which looks like days since 1970: write a time such as"))
})

test_that("titles with a comma are to be renamed", {
  skip_without_split()
  ends <- function(x, text, ...) expect_match(said_of(x, "", ...), paste0("\\Q", text, "\\E$"), perl = TRUE)
  before <- function(title) paste0("; rename '", title, "' before, since a comma or | stands between titles")
  ends(cbind(places, date = "2024-03-01", "clock, local" = c("01:05", "02:00", "03:00")), before("clock, local"))
  x <- cbind(places, "date, time" = moments)
  expect_identical(seconds_of_fixes(x), as.numeric(moments))
  ends(x, ": rename columns whose titles have a comma or |", time = "date, time")
  names(x)[1] <- "beast"
  ends(x, paste0("as by animal = .. and time = \"date, time\"", before("date, time")))
  names(x)[4] <- "when"
  expect_identical(seconds_of_fixes(x, animal = "beast", time = "when"), as.numeric(moments))
})

test_that("moments under the titles of a maker are refused with what helps, and days beside clocks are read", {
  skip_without_split()
  x <- data.frame(id = 7, Latitude = 45 + 0:2 / 10, Longitude = 14 + 0:2 / 10)
  lotek <- cbind(`names<-`(x, c("Device ID", "Latitude", "Longitude")), "Date & Time [GMT]" = moments)
  refused(lotek, paste("from = \"lotek\" has a form for texts, and 'Date & Time [GMT]' has moments: leave from out, and name columns, as by",
                       "animal = .., time = \"Date & Time [GMT]\""), "option", from = "lotek")
  expect_identical(seconds_of_fixes(lotek, animal = "Device ID", time = "Date & Time [GMT]"), as.numeric(moments))
  vectronic <- cbind(`names<-`(x, c("CollarID", "Latitude", "Longitude")), AnimalID = "", UTC_Date = trunc(moments, "days"), UTC_Time = format(moments, "%H:%M:%S"))
  expect_identical(seconds_of_fixes(vectronic, from = "vectronic"), as.numeric(moments))
  vectronic$UTC_Date <- moments
  expect_match(said_of(vectronic, "", from = "vectronic"), ": UTC_Date has moments: name it alone, as by time = \"UTC_Date\"$")
})

test_that("moments labelled UTC get the zone of their title", {
  skip_without_split()
  zones <- c("time (Europe/Vienna)" = "Europe/Vienna", "time (UTC+2)" = "Etc/GMT-2", "local time" = "Europe/Ljubljana")
  for (title in names(zones)) {
    x <- `names<-`(cbind(places, moments), c(names(places), title))
    own <- eval(parse(text = sub("^.* as by ", "", said_of(x, ""))))
    expect_identical(attr(own, "tzone"), zones[[title]])
    expect_identical(format(own), format(moments))
  }
})

test_that("dates without signs are refused with their form", {
  skip_without_split()
  days <- cbind(places, time = c(20240301, 20240302, 20240303))
  refused(days, "row 1: time is '20240301', which looks like a date without hyphens: name its form, as by time_format = \"%Y%m%d\"", "time")
  expect_identical(seconds_of_fixes(days, time_format = "%Y%m%d"), as.numeric(day) + 86400 * 0:2)
  clocks <- cbind(places, time = c(20240301120000, 20240301132005, 20240302000001))
  text <- said_of(clocks, "row 1: time is '20240301120000', which looks like milliseconds, or a date without signs between: ")
  expect_identical(text, "name its form, as by time_format = \"%Y%m%d%H%M%S\"")
  expect_identical(seconds_of_fixes(clocks, time_format = "%Y%m%d%H%M%S"), as.numeric(moments))
})

test_that("rows without a time are refused with what leaves them out", {
  skip_without_split()
  x <- cbind(places, time = moments)
  x$time[1] <- NA
  refused(x, "row 1: there is no time: leave rows without one out, as by x[!is.na(x[[\"time\"]]), ]", "time")
  expect_identical(seconds_of_fixes(x[!is.na(x[["time"]]), ]), as.numeric(moments[2:3]))
  refused(transform(x, time = c("", "2024-03-01", "2024-03-02")), "row 1: there is no time", "time")
})

test_that("options that are written otherwise are refused with what helps", {
  skip_without_split()
  x <- cbind(places, time = "2024-03-01", other = "good", "fix-type" = c("3D", "2D", "3D"))
  has <- function(text, ...) expect_error(read_fixes(x, ..., quiet = TRUE), text, fixed = TRUE, class = "homerange_error")
  has(": %S has the decimals of seconds: write it for %OS", time_format = "%d.%m.%Y %H:%M:%OS")
  has(": %H:%M:%S stands for %T", time_format = "%d.%m.%Y %T")
  has(": the offset +2 is that of 'Etc/GMT-2'", tz = "UTC+2")
  has(": the offset -5 is that of 'Etc/GMT+5'", tz = "-05:00")
  has(": the offset +0 is that of 'UTC'", tz = "UTC+0")
  has(": a reference system is named by crs", zone = "EPSG:32633")
  has("max_speed is -1 and not a number of metres a second from 0", max_speed = -1)
  has("no fix is left; left out by reason: type 3: column 'fix-type' has 3D, 2D", fix_type = "3-D")
  has("no fix is left; left out by reason: type 3: column 'other' has good", fix_type = "3-D", fix = "other")
  expect_error(read_fixes(x, tz = "UTC+5:30", quiet = TRUE), "is no time zone such as 'Europe/Ljubljana'$", class = "homerange_error")
  skip_if_not_installed("sf")
  has("crs = \"33N\" names no reference system: a zone is named by zone = \"33N\"", crs = "33N")
})

test_that("tables that are missing, paths that are several, and animals that there are not are refused with what helps", {
  skip_without_split()
  has <- function(call, text) expect_error(call, text, fixed = TRUE, class = "homerange_option_error")
  has(home_range(), "x is missing: fixes, a data frame or a file are wanted, as by home_range(x)")
  has(read_fixes(zone = "33N"), "x is missing: fixes, a data frame or a file are wanted, as by read_fixes(x)")
  has(home_range(c("a.csv", "b.csv")), "with a row for each fix: read each path, as by do.call(rbind, lapply(x, read.csv))")
  ranges <- home_range(cbind(places, time = moments), quiet = TRUE)
  has(ranges["b"], "there is no animal b: there are \"a\"")
  has(plot(ranges, animals = "b"), "there is no animal \"b\": there are \"a\"")
  has(home_range(places, "50, 95"), "and not \"50, 95\": it is a text, so write c(50, 95) without quotes")
  skip_if_not_installed("sf")
  has(homerange_share(ranges, "reserve.gpkg"), "reserve: an sf geometry is wanted: read its file, as by sf::st_read(reserve)")
})

test_that("tables and paths that are in a list are bound as it is said", {
  skip_without_split()
  table <- function(at) data.frame(second = 60 * 0:2, easting = c(at, 9, 5), northing = c(0, 0, 9))
  said <- function(x) tryCatch(read_fixes(x), homerange_option_error = conditionMessage)
  begin <- "a list is neither a path nor a data frame with a row for each fix: "
  x <- list(a = table(0), b = table(1))
  bound <- "bind those that are in it, as by do.call(rbind, unname(x))"
  named <- "do.call(rbind, Map(cbind, animal = names(x), unname(x)))"
  expect_identical(said(x), paste0(begin, bound, ", or where its names are those of the animals by ", named))
  expect_identical(unique(quietly(read_fixes(eval(str2lang(named))))$animal), c("a", "b"))
  expect_identical(said(unname(x)), paste0(begin, bound))
  expect_identical(nrow(quietly(read_fixes(do.call(rbind, unname(x))))), 6L)
  path <- file.path(local_folder(), "a.csv")
  write.csv(cbind(animal = "a", table(0)), path, row.names = FALSE)
  for (x in list(c(path, path), list(path, path))) {
    expect_match(said(x), "read each path, as by do.call(rbind, lapply(x, read.csv))", fixed = TRUE)
    expect_identical(nrow(quietly(read_fixes(do.call(rbind, lapply(x, read.csv))))), 6L)
  }
  expect_match(said(as.matrix(table(0))), "a matrix is neither .*: make it one, as by as.data.frame\\(x\\)$")
})

test_that("titles that read.csv changed are named with what keeps them", {
  skip_without_split()
  text <- "Device ID,Date & Time [GMT],Latitude,Longitude\n12,2024-05-01 00:00:00,46.3,15.8\n12,2024-05-01 01:00:00,46.31,15.81"
  changed <- read.csv(text = text)
  keep <- "' may be it, as read.csv changes titles: keep them, by read.csv(.., check.names = FALSE)"
  for (case in list(list(from = "lotek", "'Device.ID"), list(time = "Date & Time [GMT]", "'Date...Time..GMT."))) {
    expect_error(do.call(read_fixes, c(list(changed), case[1])), paste0(case[[2]], keep), fixed = TRUE, class = "homerange_columns_error")
    expect_identical(nrow(quietly(do.call(read_fixes, c(list(read.csv(text = text, check.names = FALSE)), case[1])))), 2L)
  }
  expect_error(read_fixes(changed, time = "when"), "there is no column 'when'; the table has", class = "homerange_columns_error")
})

test_that("levels that are texts of per cent, and groups in a list, are said as they are meant", {
  skip_without_program()
  table <- data.frame(animal = "a", second = 0:2, easting = c(0, 9, 0), northing = c(0, 0, 9), sex = "f")
  refused <- function(text, ...) expect_error(quietly(home_range(table, ...)), text, fixed = TRUE, class = "homerange_option_error")
  refused("levels: numbers from 1 to 100 are wanted, such as c(50, 95), and not \"95%\": it is a text, so write 95 without quotes", levels = "95%")
  refused("and not 2 values: they are texts, so write c(50, 95) without quotes", levels = c("50", "95 %"))
  refused(": it is a text, so write c(50, 95) without quotes", levels = "50%, 95%")
  refused("and not factor: it is a text, so write 95 without quotes", levels = factor("95"))
  refused("by is a list of 1 text: write by = \"sex\"", by = list("sex"))
  refused("by is a list, and a vector is wanted: unlist(..) makes one of it", by = as.list(table$sex))
  expect_identical(length(quietly(home_range(table, by = unlist(as.list(table$sex))))), 1L)
  table$group <- I(as.list(table$sex))
  refused("by is a list, and a vector is wanted: unlist(..) makes one of it", by = "group")
  refused("by is a list of 1 vector, and one vector is wanted: take it, as by by[[1]]", by = list(table$sex))
  refused("by is a list of 2 vectors, and one vector is wanted: join them, as by paste(by[[1]], by[[2]])", by = list(table$sex, table$sex))
})

test_that("parts of a day that are joined to a day become moments by what is said, and a system is named whole", {
  skip_without_split()
  parts <- c(1.5, 7.5, 13.5, 19.5) / 24
  moments <- as.POSIXct("2024-05-01", tz = "UTC") + round(86400 * parts)
  x <- data.frame(animal = "a", date = as.Date("2024-05-01"), clock = parts, easting = 5e5 + c(0, 100, 100, 0), northing = 5e6 + c(0, 0, 100, 100))
  helps <- list(numbers = "as.POSIXct(x[[\"date\"]], tz = \"UTC\") + round(86400 * x[[\"clock\"]])",
                texts = "as.POSIXct(x[[\"date\"]], tz = \"UTC\") + round(86400 * as.numeric(x[[\"clock\"]]))")
  for (kind in names(helps)) {
    if (kind == "texts") x$clock <- as.character(x$clock)
    expect_error(home_range(x, time = c("date", "clock"), quiet = TRUE),
                 paste0("make moments of both, as by ", helps[[kind]], ", in a column that time names alone"), fixed = TRUE)
    x$moment <- eval(parse(text = helps[[kind]]))
    expect_equal(as.numeric(read_fixes(x[c("animal", "moment", "easting", "northing")], time = "moment", quiet = TRUE)$time), as.numeric(moments))
    x$moment <- NULL
  }
  named <- data.frame(animal = "a", time = moments, x[c("easting", "northing")], srid = 31467)
  expect_error(home_range(named, quiet = TRUE), "name it, as by crs = \"EPSG:31467\", or remove it", fixed = TRUE)
})

test_that("cells that are no numbers, and words for a time that is missing, are refused with what helps", {
  skip_without_split()
  blanks <- "blanks are no missing cell: empty the cell"
  cells <- list(c("\u22121.8", "the minus is another sign (U+2212): write -"), c(" ", blanks), c("   ", blanks),
                c("15.805.895", "dots stand between thousands, or a spreadsheet took the decimal sign: mend the column"),
                c("NaT", "if it stands for what is missing, name it, by na = \"NaT\""))
  path <- file.path(local_folder(), "t.csv")
  for (cell in cells) {
    table <- transform(places, easting = c("500010", cell[1], "500040"))
    said <- paste0("easting is '", cell[1], "' and not a number of up to 12 digits: ", cell[2])
    refused(table, paste0("row 2: ", said), "number")
    utils::write.csv(table, path, row.names = FALSE, fileEncoding = "UTF-8")
    refused(path, paste0(path, ": record 2: ", said), "number")
  }
  for (word in c("NaT", "nan")) {
    refused(transform(places, time = c("2024-05-01 10:00", word, "2024-05-01 12:00")),
            paste0("row 2: time is '", word, "' and not a time such as 2024-05-01 00:30:04: if it stands for what is missing, name it, by na = \"", word, "\""), "time")
  }
})
