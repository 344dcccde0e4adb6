# The text of a data frame: how each class of columns is written, by hand.

cells <- function(column) {
  found <- cells_of_column(column, "column")
  ifelse(is.na(found), "", found)
}

# The text of a frame.
text_of <- function(x, more = list()) {
  path <- tempfile()
  on.exit(unlink(path))
  write_parts(c(parts_of_frame(as.list(x)), lapply(more, parts_of_cells)), path)
  rawToChar(readBin(path, "raw", file.size(path)))
}

test_that("numbers have the fewest digits that give them back, and no exponent below 2^53", {
  expect_identical(cells(c(0, -0, 1, 562000.4, -0.5, 0.1, 100000, 1e15, 123456789012345)),
                   c("0", "0", "1", "562000.4", "-0.5", "0.1", "100000", "1000000000000000", "123456789012345"))
  expect_identical(cells(c(0.1 + 0.2, 1 / 3, 2 / 3)), c("0.30000000000000004", "0.3333333333333333", "0.6666666666666666"))
  expect_identical(cells(c(1e-5, 1.5e-7, 2^-60)), c("0.00001", "0.00000015", "0.0000000000000000008673617379884035"))
  expect_identical(cells(c(2^53 - 1, 2^53, 1e16, -1e300)), c("9007199254740991", "9.007199254740992e+15", "1e+16", "-1e+300"))
  expect_identical(cells(c(NA, NaN, Inf, -Inf)), c("", "", "inf", "-inf"))
  expect_identical(cells(c(1L, NA, -5L, 100000L)), c("1", "", "-5", "100000"))
  set.seed(1)
  numbers <- c(stats::runif(1000, -1e6, 1e6), 10^stats::runif(1000, -10, 15))
  expect_identical(as.numeric(cells(numbers)), numbers)
  old <- options(OutDec = ",", scipen = -9, digits = 3)
  on.exit(options(old))
  expect_identical(cells(c(1234.5, 1e5)), c("1234.5", "100000"))
})

test_that("numbers of three decimals below 1000 have one more, since their point is none before thousands", {
  expect_identical(cells(c(123.456, -7.001, 5, NA)), c("123.4560", "-7.0010", "5", ""))
  expect_identical(cells(c(1e-300 * 0, 0.125)), c("0", "0.1250"))
  for (others in list(c(123.456, 1000), c(123.456, 1.5), c(1.001, 999.9995), c(12, 1.5), 1:3)) {
    expect_identical(cells(others), as.character(others))
  }
  expect_identical(text_of(data.frame(a = c(1.001, 2, NA), b = c(10.125, 20.5, 3))), "a,b\n1.0010,10.125\n2,20.5\n,3\n")
})

test_that("truths, texts and factors are written as they are", {
  expect_identical(cells(c(TRUE, FALSE, NA)), c("true", "false", ""))
  expect_identical(cells(c("a", NA, "NA", "", " b ", "1,5", "say \"no\"", "two\nlines", "\u00e4")),
                   c("a", "", "NA", "", " b ", "\"1,5\"", "\"say \"\"no\"\"\"", "\"two\nlines\"", "\u00e4"))
  expect_identical(cells(factor(c("b", "a,b", NA), levels = c("a,b", "b"))), c("b", "\"a,b\"", ""))
  expect_identical(cells(structure("x", class = c("glue", "character"))), "x")
  expect_identical(cells(`Encoding<-`("Sch\xe4fer", "latin1")), "Sch\u00e4fer")
  expect_identical(cells(I(c(1.5, 2))), c("1.5", "2"))
  expect_identical(cells(matrix(c(1.5, 2), 2)), c("1.5", "2"))
})

test_that("a cell that is no text in UTF-8 is refused by its row", {
  for (column in list(c("a", "\xe4", "b"), factor(c("a", "\xe4", "b")))) {
    fault <- expect_error(cells(column), "column is no text in UTF-8", class = "homerange_text_error")
    expect_identical(fault$record, 2L)
  }
})

test_that("moments are those of UTC, with as many decimals as they need", {
  berlin <- as.POSIXct(c("2024-05-01 12:00:00", NA, "2024-01-01 00:00:00"), tz = "Europe/Berlin")
  expect_identical(cells(berlin), c("2024-05-01T10:00:00Z", "", "2023-12-31T23:00:00Z"))
  expect_identical(cells(as.POSIXlt(berlin)), cells(berlin))
  expect_identical(cells(.POSIXct(1714557600 + c(0.5, 0.123, 0.25), "UTC")),
                   c("2024-05-01T10:00:00.5Z", "2024-05-01T10:00:00.123Z", "2024-05-01T10:00:00.25Z"))
  expect_identical(cells(.POSIXct(c(-1, 2^32, 253402300800), "UTC")),
                   c("1969-12-31T23:59:59Z", "2106-02-07T06:28:16Z", "10000-01-01T00:00:00Z"))
  expect_identical(cells(.POSIXct(c(1e300, -Inf, NaN), "UTC")), c("inf", "-inf", ""))
  expect_identical(cells(as.Date(c("2024-05-01", NA, "1969-12-31"))), c("2024-05-01", "", "1969-12-31"))
  expect_identical(cells(.Date(19844)), "2024-05-01")
  expect_identical(cells(structure(c(0L, 36000L, 86399L), class = "ITime")), c("00:00:00", "10:00:00", "23:59:59"))
  expect_identical(cells(structure(c(36000.5, -1, NA), class = c("hms", "difftime"), units = "secs")), c("10:00:00.5", "<hms>", ""))
})

test_that("each moment of a day is written as strftime writes it", {
  set.seed(2)
  seconds <- floor(stats::runif(2000, -1e9, 4e9))
  expect_identical(cells(.POSIXct(seconds, "UTC")), format(.POSIXct(seconds, "UTC"), "%Y-%m-%dT%H:%M:%SZ"))
})

test_that("integers of 64 bits have their digits, with or without bit64", {
  # 2^32 + 1, -2 and the greatest of them, as bit64 keeps them.
  bits <- function(...) structure(readBin(as.raw(c(...)), "double", length(c(...)) / 8, endian = "little"), class = "integer64")
  some <- bits(1, 0, 0, 0, 1, 0, 0, 0, 0xfe, rep(0xff, 7), rep(0xff, 7), 0x7f, rep(0, 7), 0x80)
  expect_identical(cells(some), c("4294967297", "-2", "9223372036854775807", ""))
  skip_if_not_installed("bit64")
  expect_identical(cells(bit64::as.integer64(c("9007199254740993", "-9223372036854775807", NA))),
                   c("9007199254740993", "-9223372036854775807", ""))
})

# Numbers with a unit, as the package units has them.
in_units <- function(values, numerator, denominator = character()) {
  unit <- structure(list(numerator = numerator, denominator = denominator), class = "symbolic_units")
  structure(values, units = unit, class = "units")
}

test_that("lengths are metres, degrees and bare numbers are as they are, and other units are named", {
  expect_identical(cells(in_units(c(562.1, NA), "km")), c("562100", ""))
  expect_identical(cells(in_units(5, "m")), "5")
  expect_identical(cells(in_units(15.5, "\u00b0")), "15.5")
  expect_identical(cells(in_units(2.5, character())), "2.5")
  expect_identical(cells(in_units(2.5, "m", "s")), "<units m/s>")
  skip_if_not_installed("units")
  expect_identical(cells(units::set_units(100, "ft")), "30.48")
  expect_identical(cells(units::set_units(10, "rad")), "<units rad>")
})

test_that("a class of which nothing is known is written by its name", {
  expect_identical(cells(complex(real = 1:2)), rep("<complex>", 2))
  expect_identical(cells(as.raw(1)), "<raw>")
  expect_identical(cells(list(1, "a")), rep("<list>", 2))
  expect_identical(cells(as.difftime(1:2, units = "days")), rep("<difftime>", 2))
  expect_identical(cells(structure(c(1, 2), class = "chron")), rep("<chron>", 2))
  expect_identical(cells(matrix(1:4, 2)), rep("<matrix>", 2))
  expect_identical(cells(data.frame(a = 1:2)), rep("<data.frame>", 2))
  skip_without_lubridate()
  expect_identical(cells(lubridate::dhours(1:2)), rep("<Duration>", 2))
  expect_identical(cells(lubridate::hours(1:2)), rep("<Period>", 2))
})

test_that("the text has all columns below their titles, and further ones behind them", {
  table <- data.frame(id = c("a", "b,c"), when = as.Date("2024-05-01") + 0:1, x = c(1.5, NA))
  names(table)[2] <- "a \"day\""
  expect_identical(text_of(table, list("point easting" = c("1", "2"))),
                   "id,\"a \"\"day\"\"\",x,point easting\na,2024-05-01,1.5,1\n\"b,c\",2024-05-02,,2\n")
  expect_identical(text_of(data.frame(x = c(1, NA))), "x\n1\n\"\"\n")
  for (title in c("a;b", "a\tb")) {
    expect_error(text_of(`names<-`(table, c(title, "b", "c"))), "the first column is titled 'a", class = "homerange_columns_error")
  }
  expect_identical(text_of(data.frame(b = 1, "a;b" = 2, check.names = FALSE)), "b,a;b\n1,2\n")
  old <- Sys.getlocale("LC_CTYPE")
  on.exit(Sys.setlocale("LC_CTYPE", old))
  Sys.setlocale("LC_CTYPE", "C")
  expect_identical(charToRaw(text_of(data.frame(a = "Sch\xc3\xa4fer"))), charToRaw("a\nSch\xc3\xa4fer\n"))
})

test_that("cells that are written as bytes are those that are written as texts", {
  set.seed(3)
  number <- 200
  some <- function(values) replace(values, sample(number, 20), NA)
  table <- list(
    id = some(sample(c("a", "\u00e4\u00f6", "with, comma", "say \"no\""), number, TRUE)), whole = some(round(stats::runif(number, -1e6, 1e6))),
    two = some(round(stats::runif(number, -10, 1e5), 2)), nine = round(stats::runif(number), 9), zero = rep(c(0, -0), 100),
    time = some(.POSIXct(1714557600 + round(stats::runif(number, -1e9, 1e9), 1), "UTC")), truth = some(stats::runif(number) > 0.5),
    none = rep(NA_real_, number), odd = c(1 / 3, rep(1e17, number - 1)), count = some(sample(-5:5, number, TRUE)), empty = rep("", number),
    fours = rep(c(0, 1, 9999, 10000, 10000001, 1e8, 123400005678, 99990000), 25),
    parts = some(rep(c(0, 0.1, 0.0001, 0.00001, -1.00010001, 10000.0123, 0.1234567, 5), 25))
  )
  by_bytes <- text_of(table)
  lines <- do.call(paste, c(unname(Map(cells_of_column, table, names(table))), sep = ","))
  expect_identical(by_bytes, paste0(paste(c(names(table)), collapse = ","), "\n", paste0(lines, "\n", collapse = "")))
  table$long <- strrep("x", seq_len(number))
  lines <- paste(lines, table$long, sep = ",")
  expect_identical(text_of(table), paste0(paste(c(names(table)), collapse = ","), "\n", paste0(lines, "\n", collapse = "")))
})

test_that("clocks of each class are clocks, and moments that are days beside them are days", {
  clock <- c(37800, NA, 45296)
  cells <- c("10:30:00", "", "12:34:56")
  for (column in list(.POSIXct(-25569 * 86400 + clock, "UTC"), .POSIXct(-25568 * 86400 + clock, "UTC"), as.difftime(clock / 60, units = "mins"))) {
    expect_identical(cells_of_column(column, "t"), cells)
  }
  for (zone in c("UTC", "Europe/Berlin", "Asia/Tokyo")) {
    expect_identical(cells_of_column(as.POSIXct(c("1899-12-31 10:30:00", NA, "1899-12-30 00:00:00"), tz = zone), "t"), c("10:30:00", "", "00:00:00"))
  }
  expect_match(cells_of_column(as.difftime(c(1, 2), units = "days"), "t"), "<difftime>", fixed = TRUE)
  times <- function(parts) structure(parts, format = "h:m:s", class = "times")  # as the package chron has them
  expect_identical(cells_of_column(times(clock / 86400), "t"), cells)
  skip_without_split()
  table <- data.frame(animal = "a", date = as.POSIXct("2024-05-01", tz = "UTC") + 86400 * 0:2, easting = 1e5 + 1:3, northing = 1e6)
  for (own in list(times(c(0.25, 0.5, 0.75)), .POSIXct(-25568 * 86400 + c(6, 12, 18) * 3600, "UTC"), c("06:00", "12:00", "18:00"))) {
    table$clock <- own
    expect_error(quietly(read_fixes(table)), "'clock' has hours, which the days of the time have not: join them", class = "homerange_columns_error")
    joined <- suppressMessages(read_fixes(table, time = c("date", "clock")))
    expect_identical(format(joined$time, "%d %H:%M"), c("01 06:00", "02 12:00", "03 18:00"))
  }
})

test_that("days with parts of a day have the clock that they are", {
  expect_identical(cells_of_column(.Date(c(19000.5, 19001, NA, 19002.1)), "day"), c("2022-01-08 12:00:00", "2022-01-09 00:00:00", "", "2022-01-10 02:24:00"))
  expect_identical(cells_of_column(.Date(c(19000, NA, Inf)), "day"), c("2022-01-08", "", "inf"))
  expect_identical(text_of_bound("since", .Date(19000.25)), "2022-01-08 06:00:00")
})
