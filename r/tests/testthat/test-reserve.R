# The share of ranges in a reserve, also of ranges that lie outside it.

herd <- function() {
  square <- function(name, east) {
    data.frame(id = name, date = as.Date("2024-05-01") + 0:3, x = east + c(0, 200, 200, 0), y = 5134000 + c(0, 0, 200, 200))
  }
  rbind(square("inside", 562000), square("outside", 570000), square("half", 562900), square("far", 580000),
        data.frame(id = "point", date = as.Date("2024-05-01"), x = 562000, y = 5134000))
}

box <- function(west, east) {
  sf::st_polygon(list(cbind(c(west, east, east, west, west), 5133000 + c(0, 0, 2000, 2000, 0))))
}

test_that("each animal has its own share", {
  skip_without_program()
  skip_if_not_installed("sf")
  ranges <- quietly(home_range(herd(), crs = 32633))
  whole <- sf::st_sfc(box(561000, 563000), crs = 32633)
  parts <- sf::st_sfc(box(561000, 562500), box(562000, 563000), crs = 32633)
  for (reserve in list(whole, sf::st_sf(name = "a", geometry = whole), parts, whole[[1]])) {
    found <- homerange_share(ranges, reserve)
    expect_equal(found, data.frame(animal = c("inside", "outside", "half", "far", "point"), level = 100,
                                   hectares = c(4, 4, 4, 4, 0), inside = c(4, 0, 2, 0, 0), share = c(1, 0, 0.5, 0, NA)))
  }
  expect_equal(homerange_share(ranges, sf::st_transform(whole, 4326))$share, c(1, 0, 0.5, 0, NA), tolerance = 0.01)
  expect_equal(homerange_share(ranges, whole, 50)$level, rep(50, 5))
})

test_that("what is no reserve is refused", {
  skip_without_program()
  skip_if_not_installed("sf")
  ranges <- quietly(home_range(herd()))
  expect_error(homerange_share(ranges, "reserve.shp"), "an sf geometry is wanted", class = "homerange_option_error")
  expect_error(homerange_share(deer, box(0, 1)), "has no ranges: home_range makes them", class = "homerange_option_error")
  placed <- sf::st_sfc(box(0, 1), crs = 32633)
  expect_error(homerange_share(ranges, placed), "the ranges have no CRS", class = "homerange_crs_error")
  known <- quietly(home_range(herd(), crs = 32633))
  expect_error(homerange_share(known, sf::st_sfc(box(0, 1))), "the reserve has no CRS", class = "homerange_crs_error")
  bow <- sf::st_polygon(list(cbind(c(0, 10, 10, 0, 0), c(0, 10, 0, 10, 0))))
  expect_error(homerange_share(ranges, bow), "crosses itself", class = "homerange_option_error")
  expect_error(homerange_share(ranges, sf::st_point(c(1, 1))), "has no area", class = "homerange_option_error")
})

test_that("a bare shape is in the system of the ranges, and not in degrees", {
  skip_without_program()
  skip_if_not_installed("sf")
  ranges <- quietly(home_range(deer))
  whole <- sf::st_as_sfc(sf::st_bbox(sf::st_as_sf(ranges)))
  expect_equal(homerange_share(ranges, whole[[1]])$share, rep(1, length(ranges)))
  degrees <- sf::st_transform(whole, 4326)
  expect_error(homerange_share(ranges, degrees[[1]]), "lies as longitude and latitude do: make sf::st_sfc(reserve, crs = 4326) of it",
               fixed = TRUE, class = "homerange_degrees_error")
  expect_equal(homerange_share(ranges, sf::st_sfc(degrees[[1]], crs = 4326))$share, rep(1, length(ranges)), tolerance = 0.01)
})

plain_box <- function(west, south, east, north) {
  sf::st_polygon(list(cbind(c(west, east, east, west, west), c(south, south, north, north, south))))
}

test_that("shapes without an area are refused or said, and so is a reserve that is far", {
  skip_without_program()
  skip_if_not_installed("sf")
  ranges <- quietly(home_range(herd(), crs = 32633))
  whole <- sf::st_sfc(box(561000, 563000), crs = 32633)
  point <- sf::st_centroid(whole)
  line <- sf::st_cast(whole, "LINESTRING")
  refused <- function(reserve, said) {
    said <- paste0("the reserve has no area: ", said)
    expect_error(homerange_share(ranges, reserve), said, fixed = TRUE, class = "homerange_option_error")
    expect_error(write_page(ranges, file.path(local_folder(), "page.html"), reserve = reserve), said, fixed = TRUE)
  }
  refused(c(point, line), "it is of lines, and polygons are wanted; sf::st_cast(reserve, \"POLYGON\") makes them of closed lines")
  refused(point, "it is of points, and polygons are wanted")
  refused(point[[1]], "it is of points, and polygons are wanted")
  refused(sf::st_sfc(sf::st_point(), crs = 32633), "there is no shape in it")
  expect_identical(homerange_share(ranges, sf::st_cast(line, "POLYGON"))$share, homerange_share(ranges, whole)$share)
  empty <- sf::st_sfc(sf::st_polygon(), crs = 32633)
  several <- c(empty, point, whole, empty, empty, empty, empty, empty)
  told <- capture_messages(found <- homerange_share(ranges, several)$share)
  expect_identical(told, paste0("homerange: left out of the reserve, without ",
                                c("a shape: row 1, row 4, row 5, row 6, row 7 and 1 more\n", "an area: row 2\n")))
  expect_identical(found, homerange_share(ranges, whole)$share)
  # The ranges lie in a box of 18.2 by 0.2 km, and the reserve is one of 2 by 2 km: 20.2 km apart they are far.
  beside <- function(gap) sf::st_polygon(list(cbind(580200 + gap + c(0, 2000, 2000, 0, 0), 5133000 + c(0, 0, 2000, 2000, 0))))
  expect_identical(homerange_share(ranges, beside(20000))$share[1:4], rep(0, 4))
  expect_message(homerange_share(ranges, beside(20400)), "the reserve lies at least 20.4 km away from all ranges: is it the right one, and its CRS?",
                 fixed = TRUE, class = "homerange_asked_note")
})

test_that("a reserve in metres whose CRS is of degrees is refused, and ranges of a report are told of their CRS", {
  skip_without_program()
  skip_if_not_installed("sf")
  ranges <- quietly(home_range(herd(), crs = 32633))
  metres <- sf::st_sfc(box(561000, 563000))
  reserve <- sf::st_set_crs(metres, 4326)
  said <- paste0("row 1: the boundary of the reserve goes to 563000, 5135000, which is no longitude and latitude, though its CRS is of these: ",
                 "if it is in metres, name their CRS, as by sf::st_set_crs(sf::st_set_crs(%s, NA), 32633)")
  refused <- function(call, name) expect_error(call, sprintf(said, name), fixed = TRUE, class = "homerange_option_error")
  expect_silent(refused(homerange_share(ranges, reserve), "reserve"))
  refused(write_page(ranges, file.path(local_folder(), "a.html"), reserve = reserve), "reserve")
  grDevices::pdf(NULL)
  on.exit(grDevices::dev.off())
  refused(plot(ranges, over = reserve), "over")
  expect_identical(homerange_share(ranges, sf::st_set_crs(sf::st_set_crs(reserve, NA), 32633))$share[1:4], c(1, 0, 0.5, 0))
  path <- file.path(local_folder(), "report.txt")
  write_report(ranges, path)
  report <- read_report(path)
  placed <- sf::st_set_crs(metres, 32633)
  help <- "a report has it from its record alone, by read_report(.., record = ..); if %1$s has the coordinates of the report, take sf::st_set_crs(%1$s, NA)"
  expect_error(homerange_share(report, placed), paste("the ranges have no CRS, and the reserve has:", sprintf(help, "reserve")), fixed = TRUE,
               class = "homerange_crs_error")
  expect_error(plot(report, over = placed), paste("over: the CRS of the fixes is not known, and over has one:", sprintf(help, "over")), fixed = TRUE,
               class = "homerange_option_error")
  expect_identical(homerange_share(report, sf::st_set_crs(placed, NA))$share[1:4], c(1, 0, 0.5, 0))
  expect_s3_class(plot(report, over = sf::st_set_crs(placed, NA)), "home_range")
})

# A box with corners in the middle of its long sides.
wide_box <- function(west, south, east, north) {
  middle <- (west + east) / 2
  sf::st_polygon(list(cbind(c(west, middle, east, east, middle, west, west), c(south, south, south, north, north, north, south))))
}

test_that("each shape of a reserve is looked at", {
  skip_without_program()
  skip_if_not_installed("sf")
  ranges <- quietly(home_range(herd(), crs = 32633))
  bow <- sf::st_polygon(list(cbind(c(0, 10, 10, 0, 0), c(0, 10, 0, 10, 0))))
  split <- sf::st_polygon(list(cbind(c(0, 9, 9, 0), c(0, 0, 9, 0)), cbind(c(50, 60, 60, 50), c(50, 50, 60, 50))))
  whole <- box(561000, 563000)
  lost <- whole
  lost[[1]][2, 2] <- NaN
  refused <- function(reserve, said) {
    expect_error(homerange_share(ranges, reserve), said, fixed = TRUE, class = "homerange_option_error")
    expect_error(write_page(ranges, file.path(local_folder(), "page.html"), reserve = reserve), said, fixed = TRUE)
  }
  refused(sf::st_sfc(bow, whole, crs = 32633), "row 1: the boundary of the reserve crosses itself: mend it, as by sf::st_make_valid")
  table <- sf::st_sf(name = 1:3, geometry = sf::st_sfc(whole, sf::st_polygon(), bow, crs = 32633), row.names = c("a", "b", "c"))
  refused(table, "row c (x[3, ]): the boundary of the reserve crosses itself")
  refused(sf::st_sfc(whole, split, crs = 32633), "row 2: the boundary of the reserve has a hole that lies outside of it: mend it")
  refused(sf::st_sfc(lost, whole, crs = 32633), "row 1: the boundary of the reserve has a corner that is no number")
  bow <- sf::st_polygon(list(cbind(562000 + c(0, 200, 200, 0, 0), 5134000 + c(0, 200, 0, 200, 0))))
  # Two of four triangles about its middle.
  expect_equal(homerange_share(ranges, sf::st_make_valid(sf::st_sfc(bow, crs = 32633)))$share[1], 0.5)
})

test_that("a wide reserve is taken around the ranges", {
  skip_without_program()
  skip_if_not_installed("sf")
  ranges <- quietly(home_range(herd(), crs = 32633))  # from 15.80 to 16.05 degrees east, near 46.36 degrees north
  share_of <- function(reserve, crs = 4326) homerange_share(ranges, sf::st_sfc(reserve, crs = crs))$share[1:4]
  for (reserve in list(wide_box(-170, -80, 170, 85), wide_box(-180, 0, 180, 90), plain_box(-180, -90, 180, 90))) {
    expect_equal(share_of(reserve), rep(1, 4))
  }
  for (reserve in list(wide_box(-180, 47, 180, 90), wide_box(16.1, -90, 180, 90), wide_box(-170, -80, 15, 85))) {
    expect_equal(share_of(reserve), rep(0, 4))
  }
  expect_message(found <- share_of(wide_box(-180, -90, 180, -60)), class = "homerange_asked_note",
                 "the reserve lies more than 100 km away from all ranges: is it the right one, and its CRS?", fixed = TRUE)
  expect_equal(found, rep(0, 4))
  expect_equal(share_of(wide_box(-20e6, -20e6, 20e6, 20e6), 3857), rep(1, 4))
  around_180 <- transform(herd(), x = x + 158000)
  beside <- quietly(home_range(around_180[around_180$id == "inside", ], crs = 32660))
  expect_error(homerange_share(beside, sf::st_sfc(wide_box(-180, -90, 180, 90), crs = 4326)),
               "the reserve reaches to where the CRS of the ranges has no places: cut it", class = "homerange_crs_error")
})

test_that("long edges go straight in degrees", {
  skip_without_program()
  skip_if_not_installed("sf")
  # At 15 degrees east the parallel of 46.3 degrees runs 2.6 km south of the ranges, and the straight line of UTM between its ends
  # north of them: (9 degrees of longitude * 76.9 km / 2)^2 / 2 / 6379 km * tan(46.3 degrees) = 9.8 km north of the parallel.
  fixes <- data.frame(id = "a", date = as.Date("2024-05-01") + 0:3, x = 500000 + c(0, 200, 200, 0), y = 5130000 + c(0, 0, 200, 200))
  ranges <- quietly(home_range(fixes, crs = 32633))
  share_of <- function(south, north) homerange_share(ranges, sf::st_sfc(wide_box(10.5, south, 19.5, north), crs = 4326))$share
  expect_equal(c(share_of(46.3, 50), share_of(40, 46.3)), c(1, 0))
})

test_that("there are no arguments that are swallowed", {
  skip_without_program()
  ranges <- quietly(home_range(herd()))
  refused <- function(call) expect_error(call, "there is (no argument|an argument too many)", class = "homerange_option_error")
  refused(homerange_corners(ranges, level = 95, 1))
  refused(homerange_overlap(ranges, FALSE, 95, TRUE, 1))
  refused(homerange_curve(ranges, level = 95))
  for (call in list(homerange_overlap, homerange_corners, homerange_curve, homerange_growth, homerange_left_out, homerange_share, write_page,
                    write_report, read_report, plot, summary)) {
    expect_error(call(ranges, nothing = 1), "^there is no argument nothing$", class = "homerange_option_error")
  }
  renamed <- function(call, text) expect_error(call, paste0("there is no argument ", text), fixed = TRUE, class = "homerange_option_error")
  renamed(homerange_overlap(ranges, percent = 95), "percent: here it is levels")
  renamed(read_report("report.txt", crs = 32633), "crs: here it is record")
  renamed(plot(ranges, colour = "red"), "colour: here it is col")
  renamed(plot(ranges, boundary = 1), "boundary: here it is over")
  renamed(write_page(ranges, "a.html", author = "x"), "author: here it is by")
  renamed(homerange_evidence(ranges, "a", boundary = 1), "boundary: here it is reserve")
  renamed(homerange_share(ranges, boundary = 1), "boundary: here it is reserve")
  refused(summary(ranges, level = 95))
  refused(as.data.frame(ranges, level = 95))
  refused(format(ranges, digits = 2))
  refused(print(ranges, digits = 2))
  refused(plot(ranges, pch = 2))
  expect_error(homerange_overlap(ranges, "share"), "share = \"share\" is neither TRUE nor FALSE", class = "homerange_option_error")
})

test_that("a boundary of the system of a site is one without a system", {
  skip_without_program()
  skip_if_not_installed("sf")
  ranges <- quietly(home_range(walk("a", 40, 1)))
  whole <- sf::st_buffer(sf::st_sfc(sf::st_point(c(562000, 5134000))), 1e5)
  file <- file.path(local_folder(), "reserve.gpkg")
  suppressMessages(sf::st_write(whole, file, quiet = TRUE))
  expect_equal(homerange_share(ranges, sf::st_read(file, quiet = TRUE))$share, 1)
  site <- sf::st_set_crs(whole, "LOCAL_CS[\"farm\",UNIT[\"metre\",1]]")
  expect_equal(homerange_share(ranges, site)$share, 1)
  expect_error(homerange_share(quietly(home_range(walk("a", 40, 1), zone = "33N")), site), "the reserve has no CRS",
               class = "homerange_crs_error")
})

# A box of 0.2 degrees about the date line, the middle fifth of which lies within 0.02 degrees of it.
ranges_about_180 <- function() {
  quietly(home_range(data.frame(animal = "a", time = as.POSIXct("2024-05-01", tz = "UTC") + 3600 * 0:3,
                                lon = c(179.9, -179.9, -179.9, 179.9), lat = c(60, 60, 60.05, 60.05))))
}

test_that("a boundary in degrees that crosses the date line is not taken as what lies around it", {
  skip_without_split()
  skip_if_not_installed("sf")
  ranges <- ranges_about_180()
  said <- paste0("row 1: the boundary of the reserve has an edge of %s degrees of longitude: if it crosses the date line, ",
                 "sf::st_wrap_dateline(reserve")
  refused <- function(reserve, degrees) {
    expect_error(homerange_share(ranges, reserve), sprintf(said, degrees), fixed = TRUE, class = "homerange_option_error")
  }
  cut <- function(reserve) sf::st_wrap_dateline(reserve, options = c("WRAPDATELINE=YES", "DATELINEOFFSET=180"))  # as is said
  for (east in c(179.98, 165, 100)) {
    across <- sf::st_sfc(plain_box(east, 59.9, -east, 60.1), crs = 4326)
    refused(across, format(2 * east))
    expect_equal(homerange_share(ranges, cut(across))$share, min((180 - east) / 0.1, 1), tolerance = 1e-4)
  }
  expect_equal(homerange_share(ranges, sf::st_sfc(plain_box(179.98, 59.9, 180.02, 60.1), crs = 4326))$share, 0.2, tolerance = 1e-4)
  own <- sf::st_crs(ranges)
  circle <- sf::st_buffer(sf::st_transform(sf::st_sfc(sf::st_point(c(180, 60.025)), crs = 4326), own), 5000)
  there <- sf::st_transform(circle, 4326)
  expect_error(homerange_share(ranges, there), "has an edge of 359.[0-9]+ degrees of longitude", class = "homerange_option_error")
  expect_equal(homerange_share(ranges, cut(there))$share, homerange_share(ranges, circle)$share, tolerance = 1e-3)
  page <- file.path(local_folder(), "page.html")
  expect_error(write_page(ranges, page, reserve = sf::st_sf(geometry = there)), "cuts it there", fixed = TRUE)
  rest <- sf::st_sfc(plain_box(-170, 0, 170, 80), crs = 4326)
  refused(rest, "340")
  holed <- sf::st_polygon(list(plain_box(-180, 50, 180, 70)[[1]], plain_box(-179.98, 59.9, 179.98, 60.1)[[1]]))
  refused(sf::st_sfc(sf::st_multipolygon(list(holed)), crs = 4326), "359.96")
})

test_that("shapes of curves and of triangles are refused with what makes polygons of them", {
  skip_without_program()
  skip_if_not_installed("sf")
  ranges <- quietly(home_range(herd(), crs = 32633))
  curve <- paste0("CURVEPOLYGON(CIRCULARSTRING(561000 5133000, 562000 5134000, 563000 5133000, 562000 5132000, 561000 5133000))")
  triangles <- "TIN(((561000 5133000, 563000 5133000, 562000 5135000, 561000 5133000)))"
  of_text <- function(text) sf::st_as_sfc(text, crs = 32633)
  grDevices::pdf(NULL)
  on.exit(grDevices::dev.off())
  for (shape in list(of_text(curve), of_text(triangles), of_text(paste0("GEOMETRYCOLLECTION(", curve, ")")))) {
    said <- function(name) paste0("^", name, ": row 1: the shape is a (CURVEPOLYGON|TIN): make polygons of its file, as by sf::gdal_utils")
    expect_error(homerange_share(ranges, shape), said("reserve"), class = "homerange_option_error")
    expect_error(homerange_share(ranges, shape[[1]]), "^reserve: the shape is a ", class = "homerange_option_error")
    page <- file.path(local_folder(), "page.html")
    expect_error(write_page(ranges, page, reserve = shape), said("reserve"), class = "homerange_option_error")
    expect_error(plot(ranges, over = shape), said("over"), class = "homerange_option_error")
  }
})

test_that("edges of a reserve are straight in its own system", {
  skip_without_program()
  skip_if_not_installed("sf")
  at <- 0:39
  vole <- data.frame(animal = "vole", second = 60 * at, easting = 559980 + (7 * at) %% 40, northing = 5134480 + (11 * at) %% 40)
  ranges <- quietly(home_range(vole, zone = "33N"))
  middle <- sf::st_coordinates(sf::st_transform(sf::st_sfc(sf::st_point(c(560000, 5134500)), crs = 32633), 4326))
  for (side in c(0.06, 0.098, 0.3)) {
    corners <- rbind(c(-1, 0), c(1, 0), c(1, 2), c(-1, 2), c(-1, 0)) * side / 2
    coarse <- sf::st_sfc(sf::st_polygon(list(cbind(middle[1] + corners[, 1], middle[2] + corners[, 2]))))
    fine <- sf::st_set_crs(sf::st_segmentize(coarse, side / 1000), 4326)
    share <- homerange_share(ranges, sf::st_set_crs(coarse, 4326))$share
    expect_true(share > 0 && share < 1)
    expect_equal(share, homerange_share(ranges, fine)$share, tolerance = 0.001)
  }
})
