# Drawings: what they have, that they leave the device as it was, and that an animal looks the same in each.

# Draws into a file of its own, and gives what the function gives.
drawn <- function(action, width = 7, height = 5) {
  path <- tempfile(fileext = ".pdf")
  grDevices::pdf(path, width, height)
  on.exit(unlink(path))
  result <- tryCatch(action(), finally = grDevices::dev.off())
  expect_gt(file.size(path), 2000)
  result
}

# The texts of a drawing, in the order in which they are drawn, each once.
texts_of <- function(action, width = 7, height = 5) {
  path <- tempfile(fileext = ".svg")
  on.exit(unlink(path))
  skip_if_not(capabilities("cairo"))
  grDevices::svg(path, width, height)
  grDevices::dev.control("enable")
  action()
  plot <- grDevices::recordPlot()
  grDevices::dev.off()
  calls <- lapply(plot[[1]], function(call) call[[2]])
  words <- unlist(lapply(calls, function(call) Filter(function(part) is.character(part), call[-1])))
  unique(unlist(words))
}

# The ranges of animals with five fixes each, in squares of 100 m and a fix in the middle: 1 ha each.
squares <- function(count) {
  corner <- cbind(x = c(0, 100, 100, 0, 50), y = c(0, 0, 100, 100, 50))
  rows <- lapply(seq_len(count), function(at) {
    data.frame(id = paste("deer", at), date = as.POSIXct("2024-05-01", tz = "UTC") + 3600 * 0:4,
               x = 500000 + corner[, 1] + 300 * (at %% 20), y = 5000000 + corner[, 2] + 300 * (at %/% 20))
  })
  quietly(home_range(do.call(rbind, rows)))
}

report <- function() read_report(system.file("extdata", "report.txt", package = "homerange"))

test_that("a report is drawn, and the margins are as before", {
  for (what in c("ranges", "curve")) {
    for (facets in c(FALSE, TRUE)) {
      drawn(function() {
        before <- graphics::par(no.readonly = TRUE)[c("mai", "mgp", "las", "xpd", "mfrow", "oma", "cex", "tcl")]
        expect_identical(withVisible(plot(report(), what, main = "Three animals", facets = facets))$visible, FALSE)
        expect_identical(graphics::par(no.readonly = TRUE)[c("mai", "mgp", "las", "xpd", "mfrow", "oma", "cex", "tcl")], before)
      })
    }
  }
})

test_that("margins stay where more is to be drawn", {
  drawn(function() {
    before <- graphics::par("mai")
    plot(report(), reset = FALSE)
    expect_gt(graphics::par("mai")[4], before[4])
    # The plot has equal scales on both axes.
    scales <- graphics::par("pin") / c(diff(graphics::par("usr")[1:2]), diff(graphics::par("usr")[3:4]))
    expect_equal(scales[1], scales[2])
  })
})

test_that("home ranges are drawn with fixes and several levels", {
  skip_without_program()
  ranges <- quietly(home_range(deer))
  drawn(function() plot(ranges, levels = c(50, 95, 100)))
  drawn(function() plot(ranges, animals = c("Asta", "Cilla"), fixes = FALSE, facets = TRUE))
  drawn(function() plot(ranges, "curve", animals = "Cilla", by = "date"))
  small <- quietly(home_range(data.frame(id = c("a", "b", "b"), date = as.Date("2024-05-01") + 0:2, x = 1:3, y = 1:3)))
  drawn(function() plot(small))
  drawn(function() plot(small, "curve"))
  drawn(function() plot(small, "curve", share = TRUE, facets = TRUE))
})

test_that("a map is wide enough for a boundary, which has to be in its CRS", {
  skip_without_program()
  skip_if_not_installed("sf")
  ranges <- quietly(home_range(deer))
  boundary <- sf::st_buffer(sf::st_sfc(sf::st_point(c(562000, 5134000)), crs = 32633), 9000)
  usr <- drawn(function() {
    plot(ranges, over = boundary, label = "reserve", reset = FALSE)
    graphics::par("usr")
  })
  expect_true(usr[1] < 553000 && usr[2] > 571000 && usr[3] < 5125000 && usr[4] > 5143000)
  refused <- function(over) expect_error(plot(ranges, over = over), class = "homerange_option_error")
  refused(sf::st_transform(boundary, 4326))
  refused("reserve")
  expect_error(plot(report(), over = boundary), class = "homerange_option_error")
})

test_that("a boundary of which a map has no edge is said, and one that is far, and panels have it", {
  skip_without_program()
  skip_if_not_installed("sf")
  fixes <- data.frame(animal = rep(c("a", "b"), each = 4), second = rep(60 * 0:3, 2), easting = 562000 + c(0, 200, 200, 0),
                      northing = 5134000 + c(0, 0, 200, 200))
  ranges <- quietly(home_range(fixes, zone = "33N"))
  box <- function(west, south, east, north) sf::st_as_sfc(sf::st_bbox(c(xmin = west, ymin = south, xmax = east, ymax = north), crs = 32633))
  said <- function(over, ...) drawn(function() capture_messages(plot(ranges, over = over, ...)))
  unseen <- "homerange: no edge of the boundary is on this map, which lies "
  expect_identical(said(box(500000, 5000000, 600000, 5200000)), paste0(unseen, "within it\n"))
  expect_identical(said(box(561000, 5130000, 563000, 5133800)), paste0(unseen, "outside of it\n"))
  middle <- sf::st_sfc(sf::st_point(c(562100, 5134100)), crs = 32633)
  expect_identical(said(sf::st_difference(sf::st_buffer(middle, 9000), sf::st_buffer(middle, 4000))), paste0(unseen, "outside of it\n"))
  expect_identical(said(box(561500, 5134100, 562100, 5134500)), character())
  far <- box(582200, 5134000, 582300, 5134100)
  expect_identical(said(far), paste0("homerange: ", c("the boundary lies at least 20.0 km away from all ranges: is it the right one, and its CRS?\n",
                                                      "no edge of the boundary is on this map, which lies outside of it\n")))
  expect_identical(drawn(function() {
    plot(ranges, over = box(561900, 5133900, 562900, 5134500), facets = TRUE, reset = FALSE)
    graphics::par("usr")[2] > 562900
  }), TRUE)
})

test_that("limits between which nothing lies are refused, with those that are meant", {
  skip_without_program()
  ranges <- quietly(home_range(deer))
  refused <- function(text, ...) expect_error(drawn(function() plot(ranges, ...)), text, fixed = TRUE, class = "homerange_option_error")
  refused("xlim: the first is the greater: write xlim = c(555000, 570000)", xlim = c(570000, 555000))
  refused(": limits are in metres, so write xlim = 1000 * c(555, 570)", xlim = c(555, 570))
  refused("ylim: nothing lies from 5,131 to 5,131.5, since what is drawn goes from 5,131,9", ylim = c(5131, 5131.5))
  refused("are no two ends of an axis", xlim = c(FALSE, TRUE))
  refused("xlim is of one map, and facets have one for each animal: leave it out", xlim = c(555000, 570000), facets = TRUE)
  expect_equal(drawn(function() {
    plot(ranges, xlim = 1000 * c(555, 570), reset = FALSE)
    mean(graphics::par("usr")[1:2])
  }), 562500, tolerance = 0.01)
  refused("xlim: nothing lies from 400 to 500, since what is drawn goes from 1 to 360", "curve", xlim = c(400, 500))
  refused("ylim: nothing lies from 5,000 to 6,000, since what is drawn goes from 0 to 342.3", "curve", ylim = c(5000, 6000))
  refused("xlim: nothing lies from 1970-01-01 00:00 to 1970-01-01 00:06, since what is drawn goes from 2024-04-01 00:00 to 2024-05-15 21:00",
          "curve", by = "date", xlim = c(0, 360))
  days <- as.Date(c("2024-04-10", "2024-05-01"))
  for (ends in list(days, as.POSIXct(days))) {
    expect_equal(drawn(function() {
      plot(ranges, "curve", by = "date", xlim = ends, reset = FALSE)
      mean(graphics::par("usr")[1:2])
    }), 86400 * mean(as.numeric(days)))
  }
})

test_that("the key lies beside the plot, or below it, within the page, and leaves it room", {
  for (names in list(c("Asta", "Bruno"), strrep("W", 32), paste("deer", 1:30), paste("deer", 1:200))) {
    drawn(function() {
      key <- data.frame(text = short_name(names), colour = "black", dashes = "solid", width = 2)
      where <- begin_plot(c(0, 100), c(0, 50), key, "")$rect
      page <- list(x = graphics::grconvertX(c(0, 1), "ndc", "user"), y = graphics::grconvertY(c(0, 1), "ndc", "user"))
      usr <- graphics::par("usr")
      expect_true(where$left >= usr[2] || where$top <= usr[3])
      expect_lte(where$left + where$w, page$x[2])
      expect_gte(where$top - where$h, page$y[1])
      expect_gt(diff(graphics::par("plt")[1:2]), 0.3)
      expect_gt(diff(graphics::par("plt")[3:4]), 0.2)
    })
  }
})

test_that("an animal has its number and its colour in each drawing", {
  skip_without_program()
  ranges <- squares(30)
  expect_identical(drawn_animals(ranges, NULL, NULL)$colour[c(3, 10)], rep(animal_colours[3], 2))
  one <- drawn_animals(ranges, "deer 9", NULL)
  expect_identical(one$number, 9L)
  expect_identical(one$colour, drawn_animals(ranges, NULL, NULL)$colour[9])
  expect_identical(drawn_animals(ranges, c("deer 2", "deer 1"), c("deer 2" = "red"))$colour, c(animal_colours[1], "red"))
  expect_identical(drawn_animals(ranges, NULL, c("red", "blue"))$colour[1:3], c("red", "blue", "red"))
})

test_that("of many animals each has a number at its polygon, and a name and an area in the key", {
  skip_without_program()
  for (count in c(30, 200)) {
    found <- texts_of(function() plot(squares(count)), 10, 10)
    expect_true(all(as.character(seq_len(count)) %in% found))
    expect_true(all(paste0(seq_len(count), " deer ", seq_len(count), ", 1.00 ha") %in% found))
  }
  panels <- texts_of(function() plot(squares(30), "curve", facets = TRUE), 10, 10)
  expect_true(all(paste0(1:30, " deer ", 1:30, ", 1.00 ha") %in% panels))
})

test_that("colours are those of the page", {
  skip_without_program()
  path <- file.path(local_folder(), "page.html")
  write_page(quietly(home_range(deer)), path)
  page <- readLines(path, encoding = "UTF-8")
  found <- unlist(regmatches(page, gregexpr("[.]c[0-6] [{] color: #[0-9a-f]{6}", page)))
  expect_identical(sub(".*(#.*)", "\\1", found), animal_colours)
})

test_that("levels have lines of their own, and names in the key", {
  skip_without_program()
  lines <- lines_of_levels(8)
  expect_false(anyDuplicated(lines) > 0)
  found <- texts_of(function() plot(quietly(home_range(deer)), levels = c(50, 95, 100)))
  expect_true(all(c("100 %", "95 %", "50 %") %in% found))
})

test_that("axes tell places apart, and areas have a unit that is not too great for them", {
  skip_without_program()
  newt <- data.frame(id = "newt", date = as.Date("2024-05-01") + 0:3, x = 5134000 + c(0, 0.8, 0.8, 0.1),
                     y = 5134000 + c(0, 0, 0.8, 0.7))
  ranges <- quietly(home_range(newt, unit = "dm"))
  # Of 0.8 by 0.8 m the half, and a corner of 0.8 by 0.7 m beside it that is 0.245 m2 more.
  expect_true("Area (m\u00b2)" %in% texts_of(function() plot(ranges, "curve")))
  ticks <- texts_of(function() plot(ranges))
  expect_false(any(duplicated(grep("^5,1[0-9,]*([.][0-9]+)?$", ticks, value = TRUE))))
  expect_true(any(grepl("^5,13[0-9],[0-9]{3}([.][0-9])?$", ticks)))
})

test_that("curves by date and as a share, with the words of the user", {
  skip_without_program()
  ranges <- squares(2)
  found <- texts_of(function() plot(ranges, "curve", by = "date", share = TRUE, ylab = "Fl\u00e4che", main = "Rehe"))
  expect_true(all(c("Date (UTC)", "Fl\u00e4che", "Rehe") %in% found))
  line <- line_of_areas(ranges, "deer 1", "fix", TRUE)
  expect_identical(line$across, c(1, 3, 4, 5))
  expect_identical(line$area, c(0, 50, 100, 100))
  expect_true("E" %in% texts_of(function() plot(ranges, xlab = "E", xlim = c(500000, 501000))))
})

test_that("fixes are thinned to what can be seen", {
  skip_without_program()
  set.seed(1)
  table <- data.frame(id = "a", date = as.POSIXct("2024-05-01", tz = "UTC") + 1:50000, x = runif(50000, 0, 5000), y = runif(50000, 0, 5000))
  ranges <- quietly(home_range(table, levels = 100))
  size <- function(...) {
    path <- tempfile(fileext = ".pdf")
    on.exit(unlink(path))
    grDevices::pdf(path, compress = FALSE)
    plot(ranges, ...)
    grDevices::dev.off()
    file.size(path)
  }
  with_fixes <- size()
  expect_lt(with_fixes, 20000 * 200)  # a dot takes less than 200 bytes
  expect_lt(size(fixes = FALSE), with_fixes / 20)
})

test_that("what cannot be drawn is refused", {
  expect_error(plot(report(), "hull"), class = "homerange_option_error")
  expect_error(plot(report(), animals = "wolf"), "there is no animal \"wolf\"", class = "homerange_option_error")
  expect_error(plot(report(), animals = character(0)), "there is none", class = "homerange_option_error")
  expect_error(plot(report(), by = "day"), class = "homerange_option_error")
  expect_error(plot(report(), share = "yes"), class = "homerange_option_error")
  expect_error(plot(report(), pch = 3), "there is no argument pch", class = "homerange_option_error")
  expect_error(drawn(function() plot(report(), levels = 95)), "below 100 per cent need the fixes", class = "homerange_option_error")
  expect_error(plot(report(), "curve", levels = 50), "levels is of the map of ranges, and a curve is that of all fixes", class = "homerange_option_error")
  expect_error(plot(report(), "ranges", share = TRUE), "share is of the curve of area: leave it out", class = "homerange_option_error")
})

test_that("what is drawn over ranges has a shape and a reference system, and colours may be a factor", {
  skip_without_program()
  skip_if_not_installed("sf")
  ranges <- quietly(home_range(walk("fox", 20, 1), 100, zone = "33N"))
  refused <- function(over, text) expect_error(check_over(ranges, over), text, fixed = TRUE, class = "homerange_option_error")
  refused(sf::st_sfc(crs = 32633), "the boundary has no area: there is no shape in it")
  refused(sf::st_sfc(sf::st_polygon(), crs = 32633), "the boundary has no area: there is no shape in it")
  points <- sf::st_sfc(sf::st_point(c(562000, 5134000)), crs = 32633)
  refused(points, "the boundary has no area: it is of points, and polygons are wanted")
  around <- sf::st_buffer(points, 300)
  line <- sf::st_cast(around, "LINESTRING")
  refused(line, "the boundary has no area: it is of lines, and polygons are wanted; sf::st_cast(over, \"POLYGON\") makes them of closed lines")
  expect_identical(sf::st_area(check_over(ranges, sf::st_cast(line, "POLYGON"))), sf::st_area(around))
  expect_message(found <- check_over(ranges, c(points, around)), "left out of the boundary, without an area: row 1\n", class = "homerange_left_out_note")
  expect_identical(sf::st_area(found), sf::st_area(around))
  refused(sf::st_sfc(sf::st_point(c(562000, 5134000))), "over has no CRS: name its own, as by sf::st_set_crs(over, 32633)")
  expect_identical(drawn_animals(ranges, NULL, factor("red"))$colour, "red")
})
