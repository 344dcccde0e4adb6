# Methods of generics of R and of sf: tables in units of areas, polygons of levels, and what is said and not said.

square <- function(name, side, east = 562000) {
  data.frame(animal = name, second = 0:3, easting = east + c(0, side, side, 0), northing = 5134000 + c(0, 0, side, side))
}

flat <- function() {
  data.frame(animal = c("one", "two", "two"), second = c(0, 0, 1), easting = c(5, 1, 4) + 562000, northing = 5134000 + c(6, 1, 5))
}

test_that("as.data.frame has a row for each animal and level", {
  skip_without_program()
  ranges <- quietly(home_range(rbind(square("a", 200), square("b", 3000)), levels = c(75, 100)))
  expect_equal(as.data.frame(ranges), data.frame(
    animal = c("a", "a", "b", "b"), level = c(75, 100, 75, 100), fixes = 4, kept = c(3, 4, 3, 4), corners = c(3, 4, 3, 4),
    hectares = c(2, 4, 450, 900)
  ))
  expect_identical(as.data.frame(ranges)$hectares, summary(ranges)$hectares)
  expect_identical(row.names(as.data.frame(ranges, row.names = letters[1:4])), letters[1:4])
  expect_identical(data.frame(ranges), as.data.frame(ranges))
  expect_identical(as.data.frame(ranges["b"], stringsAsFactors = TRUE)$animal, factor(c("b", "b")))
})

test_that("areas are in the unit that is asked", {
  skip_without_program()
  for (unit in c("m", "dm")) {
    ranges <- quietly(home_range(square("a", 200), levels = 100, unit = unit))
    expect_identical(summary(ranges, area = "m2")$square_metres, 40000)
    expect_identical(as.data.frame(ranges, area = "km2")$square_kilometres, 0.04)
    expect_identical(homerange_curve(ranges, area = "m2")$square_metres, c(0, 0, 20000, 40000))
    expect_identical(summary(ranges)$hectares, 4)
  }
  expect_error(summary(ranges, area = "acre"), "area: \"ha\", \"m2\" or \"km2\"", class = "homerange_option_error")
  expect_error(summary(ranges, units = 1), "units = 1 is neither TRUE nor FALSE", class = "homerange_option_error")
})

test_that("areas are of the package units where they are asked to be", {
  skip_without_program()
  skip_if_not_installed("units")
  ranges <- quietly(home_range(square("a", 200), levels = 100))
  for (area in c("ha", "m2", "km2")) {
    found <- as.data.frame(ranges, area = area, units = TRUE)$area
    expect_s3_class(found, "units")
    expect_equal(as.numeric(units::set_units(found, "m^2", mode = "standard")), 40000)
  }
  expect_identical(as.numeric(found), 0.04)
})

test_that("st_as_sf is an sf of all levels, with a CRS or without", {
  skip_without_program()
  skip_if_not_installed("sf")
  fixes <- rbind(square("a", 200), square("b", 3000))
  for (crs in list(NULL, 32633)) {
    shapes <- sf::st_as_sf(quietly(home_range(fixes, levels = c(75, 100), crs = crs)))
    expect_s3_class(shapes, "sf")
    expect_identical(sf::st_crs(shapes), if (is.null(crs)) sf::NA_crs_ else sf::st_crs(crs))
    expect_identical(shapes$animal, c("a", "b", "a", "b"))
    expect_equal(shapes$level, c(75, 75, 100, 100))
    expect_equal(shapes$fixes, rep(4, 4))
    expect_equal(shapes$corners, c(3, 3, 4, 4))
    expect_equal(as.numeric(sf::st_area(shapes)), c(2, 450, 4, 900) * 10000)
    expect_equal(shapes$hectares, c(2, 450, 4, 900))
  }
  ranges <- quietly(home_range(fixes, levels = c(75, 100)))
  expect_equal(sf::st_as_sf(ranges, levels = 75, area = "km2")$square_kilometres, c(0.02, 4.5))
  refused <- function(call, text) expect_error(call, text, class = "homerange_option_error")
  refused(sf::st_as_sf(ranges, levels = 50), "levels = 50 is none of these ranges .75, 100.")
  refused(sf::st_as_sf(ranges, levels = c(75, 75)), "levels: 75 is there twice")
  refused(sf::st_as_sf(ranges, level = 75, crs = 1), "there is no argument")
  refused(sf::st_as_sf(ranges, drop_flat = 1), "drop_flat = 1 is neither TRUE nor FALSE")
})

test_that("without flat ranges a shapefile can be written", {
  skip_without_program()
  skip_if_not_installed("sf")
  ranges <- quietly(home_range(rbind(flat(), square("a", 200)), levels = 100, crs = 32633))
  expect_identical(as.character(sf::st_geometry_type(sf::st_as_sf(ranges))), c("POINT", "LINESTRING", "POLYGON"))
  shapes <- sf::st_as_sf(ranges, drop_flat = TRUE)
  expect_s3_class(sf::st_geometry(shapes), "sfc_POLYGON")
  path <- file.path(local_folder(), "ranges.shp")
  sf::st_write(shapes, path, quiet = TRUE)
  expect_equal(as.numeric(sf::st_area(sf::st_read(path, quiet = TRUE))), 40000)
  expect_equal(nrow(sf::st_as_sf(quietly(home_range(flat(), levels = 100)), drop_flat = TRUE)), 0)
})

test_that("overlaps at a level are those of sf", {
  skip_without_program()
  skip_if_not_installed("sf")
  fixes <- rbind(herd_of_three(), walk("lynx", 100, 9, stride = 60))
  ranges <- quietly(home_range(fixes, levels = c(50, 95)))
  points <- lapply(split(fixes, factor(fixes$animal, unique(fixes$animal))), function(own) {
    sf::st_geometry(sf::st_as_sf(own, coords = c("easting", "northing")))
  })
  for (level in c(50, 95, 100)) {
    hulls <- lapply(split(fixes, factor(fixes$animal, unique(fixes$animal))), function(own) {
      kept <- kept_directly(own$easting, own$northing, level)
      hull_of(own$easting[kept], own$northing[kept])
    })
    hulls <- sf::st_sfc(unname(hulls))
    wanted <- t(vapply(points, function(own) colSums(sf::st_intersects(own, hulls, sparse = FALSE)), numeric(4)))
    colnames(wanted) <- names(points)
    expect_identical(counts_of_overlap(ranges, levels = level), wanted)
    expect_equal(counts_of_overlap(ranges, share = TRUE, levels = level), wanted / c(120, 90, 61, 100))
  }
  expect_error(homerange_overlap(ranges, levels = 90), "levels = 90 is none of these ranges (50, 95, 100)", fixed = TRUE, class = "homerange_option_error")
  report <- read_report(system.file("extdata", "report.txt", package = "homerange"))
  expect_error(homerange_overlap(report, levels = 95), "polygons below 100 per cent need the fixes", class = "homerange_option_error")
})

test_that("what is said has a class of its kind, and is kept where it is not said", {
  skip_without_program()
  fixes <- rbind(square("fox", 200.3), transform(square("fox", 10)[1, ], second = -1 + 3, easting = NA))[c(2, 1, 3:5), ]
  kinds <- character()
  lines <- character()
  withCallingHandlers(ranges <- home_range(fixes), homerange_note = function(note) {
    kinds <<- c(kinds, class(note)[1])
    lines <<- c(lines, conditionMessage(note))
    tryInvokeRestart("muffleMessage")
  })
  expect_identical(lines, paste0("homerange: ", ranges$notes, "\n"))
  expect_setequal(kinds, paste0("homerange_", c("left_out", "rounded", "sorted", "guessed"), "_note"))
  expect_silent(quiet <- home_range(fixes, quiet = TRUE))
  expect_identical(quiet$notes, ranges$notes)
  expect_error(home_range(fixes, quiet = "yes"), "is neither TRUE nor FALSE", class = "homerange_option_error")
})

test_that("the options of numbers and decimals change nothing", {
  skip_without_program()
  made <- function() {
    ranges <- quietly(home_range(deer, levels = c(50, 100)))
    path <- tempfile(fileext = ".html")
    write_page(ranges, path, made = as.Date("2026-11-26"))
    write_report(ranges, sub("html$", "txt", path))
    on.exit(unlink(c(path, sub("html$", "txt", path))))
    list(ranges$notes, capture.output(print(ranges)), summary(ranges), readLines(path), readLines(sub("html$", "txt", path)))
  }
  wanted <- made()
  old <- options(scipen = -5L, OutDec = ",", digits = 3L)
  on.exit(options(old))
  expect_silent(found <- made())
  path <- tempfile(fileext = ".pdf")
  grDevices::pdf(path)
  plot(read_report(system.file("extdata", "report.txt", package = "homerange")))
  grDevices::dev.off()
  unlink(path)
  expect_identical(options("scipen", "OutDec", "digits"), list(scipen = -5L, OutDec = ",", digits = 3L))
  options(old)
  expect_identical(found, wanted)
})

test_that("a report is written as the program writes it", {
  skip_without_program()
  fixes <- rbind(herd_of_three(), walk("lynx", 1, 9))
  ranges <- quietly(home_range(fixes, levels = c(95, 50), unit = "dm"))
  folder <- local_folder()
  names <- c("fox", "NA", "alter Keiler \u00e4\u6f22", "lynx")
  files <- file.path(folder, paste0(1:4, ".csv"))
  for (at in 1:4) {
    own <- fixes[fixes$animal == names[at], ]
    lines <- sprintf("%s,%d,%d,%d", names[at], own$second, 10 * own$easting, 10 * own$northing)
    writeLines(enc2utf8(c("animal,second,easting,northing", lines)), files[at], useBytes = TRUE)
  }
  path <- file.path(folder, "report.txt")
  status <- system2(homerange_program(), c("--unit", "dm", "--percent", "95,50", files), stdout = path)
  expect_equal(status, 0)
  expect_identical(write_report(ranges, file.path(folder, "written.txt")), file.path(folder, "written.txt"))
  expect_identical(readBin(file.path(folder, "written.txt"), "raw", 1e6), readBin(path, "raw", 1e6))
  for (write in list(write_report, write_page)) {
    expect_error(write(ranges, file.path(folder, "none", "x")), "none: there is no such folder$", class = "homerange_file_error")
    expect_error(write(ranges, folder), " is a folder$", class = "homerange_file_error")
    expect_error(write(ranges, NA), "path = NA is no path", class = "homerange_option_error")
  }
  odd <- transform(fixes, animal = sub("fox", "fox, red", animal, fixed = TRUE))
  ranges <- quietly(home_range(odd))
  expect_message(write_report(ranges, path), "animal 'fox, red' is named fox_ red", class = "homerange_renamed_note")
  expect_identical(read_report(path)$animals$animal[1], "fox_ red")
})
