# What a call of home_range is refused for, with the class of the error.

fixes <- function() {
  data.frame(animal = c("a", "a", "b", "b"), second = c(0, 60, 0, 60), easting = c(1, 2, 3, 4), northing = c(4, 5, 6, 7))
}

refused <- function(table, message, class = "homerange_option_error", ...) {
  fault <- expect_error(quietly(home_range(table, ...)), message, fixed = TRUE, class = class)
  expect_s3_class(fault, c("homerange_error", "error", "condition"), exact = FALSE)
}

test_that("levels are plain whole numbers from 1 to 100, and others are refused with the remedy", {
  skip_without_program()
  wrong <- function(message, levels) refused(fixes(), message, levels = levels)
  wrong("levels: numbers from 1 to 100 are wanted, such as c(50, 95), and not \"95\": it is a text, so write 95 without quotes", "95")
  wrong("and not 0 values", numeric())
  wrong("levels: 0.95 is not a whole number from 1 to 100: levels are per cent, such as 95", 0.95)
  wrong("levels: 94.99999999 is not a whole number from 1 to 100: levels are per cent, such as 95", 94.99999999)
  wrong("levels: 95.5 is not a whole number from 1 to 100", c(50, 95.5))
  wrong("levels: 101 is not a whole number from 1 to 100", 101)
  wrong("levels: 0 is not a whole number from 1 to 100", 0)
  wrong("levels: 50 is there twice", c(50, 95, 50))
  wrong("levels: more than 8 levels", 1:9)
  wrong("and not factor", factor(95))
  wrong("and not units", structure(95, class = "units"))
  wrong("and not integer64", structure(95, class = "integer64"))
  expect_identical(unique(quietly(home_range(fixes(), 95L))$percents$level), 95)
})

test_that("other arguments that cannot be right are refused", {
  skip_without_program()
  refused(fixes(), "there is no option use", use = TRUE)
  refused(fixes(), "there is no option months", months = 5)
  refused(fixes(), "quiet = NA is neither TRUE nor FALSE", quiet = NA)
  refused(fixes(), "unit: km is neither m nor dm", unit = "km")
  refused(fixes(), "'spring' is no time in UTC", since = "spring")
  refused(fixes(), "tz='Bavaria' is no time zone", tz = "Bavaria")
  refused(fixes(), "33U is no zone as 33N: U is a band, and the zone is 33N", "homerange_zone_error", zone = "33U")
  refused(list(1), "a list is neither a path nor a data frame")
  expect_identical(nrow(homerange_curve(quietly(home_range(fixes(), unit = NULL)))), 4L)
})

test_that("what others call an option is refused with the name that it has here", {
  skip_without_split()
  read <- quietly(read_fixes(fixes()))
  named <- c(percent = "here it is levels", id = "here it is animal", epsg = "here it is crs", date = "here it is time",
             timezone = "here it is tz", group = "here it is by", unin = "coordinates are in metres, and in no other unit",
             unout = "areas are in hectares", xy = "easting and northing name columns of metres, and lon and lat those of degrees",
             sep = "read a file of another form before, as by read.csv, and give the data frame", verbose = "quiet = TRUE says nothing")
  for (name in names(named)) {
    for (table in list(fixes(), read)) {
      text <- paste0("there is no option ", name, ": ", named[[name]])
      expect_error(do.call(home_range, c(list(table), `names<-`(list(95), name))), text, fixed = TRUE, class = "homerange_option_error")
    }
  }
  expect_error(read_fixes(fixes(), levels = 95), "there is no option levels: give it to home_range", fixed = TRUE, class = "homerange_option_error")
  expect_error(home_range(read, nonsense = 95), "there is no option nonsense", fixed = TRUE, class = "homerange_option_error")
  known <- c(names(formals(home_range)), options_of_reading)
  expect_identical(setdiff(names(ours), known), character())
  expect_identical(intersect(names(elsewhere), options_of_reading), character())
})

test_that("levels of answers that are none of the ranges are refused with the remedy", {
  skip_without_split()
  ranges <- quietly(home_range(fixes(), c(50, 95)))
  wrong <- function(levels, text) expect_error(homerange_corners(ranges, levels), text, fixed = TRUE, class = "homerange_option_error")
  wrong(0.95, "levels = 0.95 is none of these ranges (50, 95, 100): levels are per cent, such as 95")
  wrong("95", "levels = \"95\" is none of these ranges (50, 95, 100): it is a text, so write 95 without quotes")
  wrong(90, "levels = 90 is none of these ranges (50, 95, 100)")
})

test_that("names are kept as they are, whatever files have", {
  skip_without_program()
  for (name in c("fox,red", "fox \"red\"", "..", "1", strrep("\u00e4", 170), "5334-Golden Eagle (Aquila chrysaetos) 2010 Male", "NA")) {
    table <- fixes()
    table$animal[1:2] <- name
    ranges <- quietly(home_range(table))
    expect_identical(ranges$animals$animal, c(name, "b"))
    expect_identical(names(homerange_corners(ranges, 50)), c(name, "b"))
    expect_identical(rownames(homerange_overlap(ranges)), c(name, "b"))
  }
  latin <- transform(fixes(), animal = `Encoding<-`("Sch\xe4fer", "latin1"))
  expect_identical(summary(quietly(home_range(latin)))$animal[1], "Sch\u00e4fer")
})

test_that("names are the same in a locale of ASCII alone", {
  skip_without_program()
  before <- Sys.getlocale("LC_CTYPE")
  on.exit(Sys.setlocale("LC_CTYPE", before))
  Sys.setlocale("LC_CTYPE", "C")
  bare <- transform(fixes(), animal = "Sch\xc3\xa4fer/1")
  expect_identical(summary(quietly(home_range(bare)))$animal[1], "Sch\u00e4fer/1")
  expect_identical(names(quietly(home_range(fixes()[-1], name = "Sch\u00e4fer"))), "Sch\u00e4fer")
})

test_that("coordinates of a grid of one's own come back where they were", {
  skip_without_program()
  table <- transform(fixes(), easting = easting - 100, northing = northing + 2e7)
  said <- capture_messages(ranges <- home_range(table))
  expect_true("homerange: coordinates are shifted by 1000000 m east and -20000000 m north\n" %in% said)
  expect_equal(homerange_corners(ranges)$a, as.matrix(table[1:2, c("easting", "northing")]), ignore_attr = TRUE)
})

test_that("what is said of a frame has its rows and what is to be done with it", {
  skip_without_split()
  table <- data.frame(animal = "a", time = c("2024-10-27 01:30", "2024-10-27 02:10", "2024-10-27 02:30"), easting = 1e5 + 1:3, northing = 1e6,
                      row.names = c("r", "s", "t"))
  expect_message(read_fixes(table, tz = "Europe/Berlin"), "comes twice in Europe/Berlin: rows s, t", class = "homerange_guessed_note")
  table$easting <- c("123.456", "124.456", "125.456")
  table$northing <- c("223.456", "224.456", "225.457")
  expect_error(suppressMessages(read_fixes(table)), "may stand before thousands: make numbers of its column, if they are decimals")
  expect_identical(of_frame("lie within 180 by 90: say so by lon = \"point easting\", lat = \"point northing\"; or, if", table),
                   "lie within 180 by 90: give the points the reference system that they have, as by sf::st_set_crs(x, 4326); or, if")
})

test_that("what has another remedy than numbers is told it", {
  skip_without_split()
  table <- data.frame(animal = "a", time = as.POSIXct("2024-05-01", tz = "UTC") + 0:2, easting = 1e5 + 1:3, northing = 1e6)
  refusal <- function(...) conditionMessage(expect_error(quietly(read_fixes(transform(table, ...))), class = "homerange_error"))
  expect_match(refusal(time = as.difftime(2:4, units = "days")), "as.numeric(x, units = \"secs\") makes seconds of it", fixed = TRUE)
  expect_match(refusal(animal = structure(c(1, 1, 1), class = c("haven_labelled", "vctrs_vctr", "double"))), "haven::as_factor(x)", fixed = TRUE)
  expect_error(quietly(home_range(unname(table))), "the data frame has no titles: names(x) <- ", fixed = TRUE, class = "homerange_columns_error")
  readers_wanted <- c(a.RDS = "readRDS", b.geojson = "sf::st_read", c.SHP = "sf::st_read", d.parquet = "arrow::read_parquet", e.feather = "arrow::read_feather")
  for (file in names(readers_wanted)) {
    expect_error(read_fixes(file), paste0(file, " is no text with a line of titles: read what it has, as by read_fixes(", readers_wanted[[file]], "(..))"),
                 fixed = TRUE, class = "homerange_text_error")
  }
  skip_if_not_installed("units")
  expect_match(refusal(easting = units::set_units(c(1, 2, 3), "rad")), "units::set_units(x, \"degrees\") makes degrees of it", fixed = TRUE)
  skip_if_not_installed("sf")
  shapes <- table[c("animal", "time")]
  shapes$geometry <- sf::st_as_sf(table, coords = c("easting", "northing"))$geometry
  expect_error(quietly(read_fixes(shapes)), "the column 'geometry' has shapes, and the table is none of sf: sf::st_as_sf(x) makes one of it",
               fixed = TRUE, class = "homerange_columns_error")
})

test_that("what is no table, and columns of further classes, are refused with the call that helps", {
  skip_without_split()
  table <- data.frame(animal = "a", time = as.POSIXct("2024-05-01", tz = "UTC") + 3600 * 0:3, easting = 500000 + c(0, 100, 200, 0), northing = 5300000 + 0:3)
  refused <- function(x, text) expect_error(quietly(read_fixes(x)), text, fixed = TRUE, class = "homerange_error")
  if (requireNamespace("sf", quietly = TRUE)) {
    refused(sf::st_as_sf(table, coords = c("easting", "northing"))$geometry, "make it one, as by sf::st_sf(animal = .., time = .., geometry = x)")
  }
  if (requireNamespace("terra", quietly = TRUE)) {
    points <- terra::vect(as.matrix(table[c("easting", "northing")]), type = "points", atts = table[c("animal", "time")], crs = "EPSG:32633")
    refused(points, "a SpatVector is neither a path nor a data frame with a row for each fix: make it one, as by sf::st_as_sf(x)")
    expect_identical(quietly(read_fixes(sf::st_as_sf(points)))$easting, table$easting)
  }
  if (requireNamespace("xts", quietly = TRUE)) {
    series <- xts::xts(as.matrix(table[c("easting", "northing")]), order.by = table$time)
    refused(series, "make it one, as by data.frame(time = zoo::index(x), zoo::coredata(x))")
    helped <- data.frame(time = zoo::index(series), zoo::coredata(series))
    expect_identical(quietly(read_fixes(helped))[c("time", "easting")], quietly(read_fixes(table[-1]))[c("time", "easting")])
  }
  if (requireNamespace("nanotime", quietly = TRUE)) {
    nano <- transform(table, time = nanotime::as.nanotime(table$time))
    refused(nano, "time is of the class nanotime, of which no cell is known: as.POSIXct(x, tz = \"UTC\") makes times of it")
    nano$time <- as.POSIXct(nano$time, tz = "UTC")
    expect_identical(quietly(read_fixes(nano))$time, table$time)
  }
})

test_that("values in place of a title, and several moments in place of one, are refused with what is wanted", {
  skip_without_split()
  table <- data.frame(animal = "a", time = as.POSIXct("2024-05-01", tz = "UTC") + 3600 * 0:3, easting = 500000 + c(0, 100, 200, 0), northing = 5300000 + 0:3)
  refused <- function(text, ...) expect_error(quietly(read_fixes(table, ...)), text, fixed = TRUE, class = "homerange_option_error")
  for (own in list(table$time, as.Date("2024-05-01"), factor("x"), 1:4)) {
    refused("time has values, and the title of their column is wanted, in quotes, as by time = \"COLUMN\"", time = own)
  }
  refused("since has 2 values, and one moment is wanted, such as \"2024-05-01\"", since = as.Date(c("2024-05-01", "2024-05-02")))
  refused("until is missing, and a moment is wanted: leave until out where none is meant", until = as.POSIXct(NA))
})

test_that("x and y, which name columns in other tools, are refused beside a table", {
  table <- data.frame(id = "A", lon = c(15.8, 15.9), lat = c(46.3, 46.4))
  said <- "^x is the table: name columns of degrees by lon = \"lon\", lat = \"lat\", and those of metres by easting and northing$"
  for (read in list(home_range, read_fixes)) expect_error(read(table, x = "lon", y = "lat"), said, class = "homerange_option_error")
})
