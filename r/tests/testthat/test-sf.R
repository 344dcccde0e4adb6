# Points of sf and reference systems: in, and polygons out.

hare_points <- function(crs = 32633) {
  sf::st_as_sf(walk("hare", 50, 21), coords = c("easting", "northing"), crs = crs)
}

test_that("points of a projected CRS go in, and polygons of this CRS come out", {
  skip_without_program()
  skip_if_not_installed("sf")
  points <- hare_points()
  ranges <- quietly(home_range(points))
  for (level in c(50, 95, 100)) {
    range <- sf::st_as_sf(ranges, level)
    at <- sf::st_coordinates(points)
    kept <- kept_directly(at[, "X"], at[, "Y"], level)
    wanted <- sf::st_convex_hull(sf::st_union(points[kept, ]))
    expect_identical(sf::st_crs(range), sf::st_crs(points))
    expect_true(sf::st_equals(range, wanted, sparse = FALSE)[1, 1])
    expect_equal(range$hectares, as.numeric(sf::st_area(wanted)) / 10000)
    expect_equal(range$kept, sum(kept))
    expect_equal(range$level, level)
    expect_true(sf::st_is_valid(range))
  }
})

test_that("ranges without an area are lines and points", {
  skip_without_program()
  skip_if_not_installed("sf")
  fixes <- data.frame(id = c("one", "two", "two", "three", "three", "three"), date = as.Date("2024-05-01") + 0:5,
                      x = 4321000 + c(1, 1, 2, 1, 2, 1), y = 3210000 + c(1, 1, 2, 1, 1, 2))
  ranges <- sf::st_as_sf(quietly(home_range(fixes, crs = 3035)), 100)
  expect_identical(as.character(sf::st_geometry_type(ranges)), c("POINT", "LINESTRING", "POLYGON"))
  expect_equal(ranges$hectares, c(0, 0, 0.00005))
})

test_that("decimetres come out as metres", {
  skip_without_program()
  skip_if_not_installed("sf")
  ranges <- sf::st_as_sf(quietly(home_range(hare_points(), unit = "dm")))
  expect_equal(as.numeric(sf::st_area(ranges)) / 10000, ranges$hectares)
})

test_that("points in degrees are projected, whatever their geographic system is", {
  skip_without_program()
  skip_if_not_installed("sf")
  wanted <- as.data.frame(read_fixes(hare_points(), quiet = TRUE))
  for (crs in list(4326, 4258, "OGC:CRS84", "+proj=longlat +ellps=GRS80")) {
    found <- read_fixes(sf::st_transform(hare_points(), crs), quiet = TRUE)
    expect_lte(max(abs(found$easting - wanted$easting), abs(found$northing - wanted$northing)), 1)
    expect_identical(facts_of(found)$zone, "33N")
  }
  expect_message(read_fixes(sf::st_transform(hare_points(), 4258)), "points of ETRS89 are turned into longitude and latitude of WGS 84",
                 class = "homerange_guessed_note")
})

test_that("points that cannot be taken are refused, with the call that helps", {
  skip_without_split()
  skip_if_not_installed("sf")
  refused <- function(points, message, ...) {
    expect_error(read_fixes(points, ..., quiet = TRUE), message, fixed = TRUE, class = "homerange_data_error")
  }
  degrees <- sf::st_transform(hare_points(), 4326)
  refused(sf::st_set_crs(degrees, NA), "the points have no CRS, and lie as longitude and latitude do: sf::st_set_crs(x, 4326) says so")
  # Feet of New York, zone 18.
  feet <- sf::st_as_sf(walk("hare", 50, 21, at = c(981000, 199000)), coords = c("easting", "northing"), crs = 2263)
  refused(feet, "is in US survey foot and not in metres: sf::st_transform(x, 32618)")
  own <- paste0("PROJCS[\"own\",GEOGCS[\"WGS 84\",DATUM[\"WGS_1984\",SPHEROID[\"WGS 84\",6378137,298.257223563]],PRIMEM[\"Greenwich\",0],",
                "UNIT[\"degree\",0.0174532925199433]],PROJECTION[\"Transverse_Mercator\"],PARAMETER[\"latitude_of_origin\",0],",
                "PARAMETER[\"central_meridian\",15],PARAMETER[\"scale_factor\",0.9996],PARAMETER[\"false_easting\",500000],",
                "PARAMETER[\"false_northing\",0],UNIT[\"Meter\",1]]")
  in_own <- function(crs) sf::st_set_crs(sf::st_set_crs(hare_points(), NA), crs)
  refused(in_own(sub("\"Meter\",1", "\"Meter\",0.3", own, fixed = TRUE)), "the CRS own is in Meter of 0.3 m and not in metres: ")
  wanted <- quietly(read_fixes(hare_points()))$easting
  for (crs in c(own, sub("Meter", "METRES", own))) expect_identical(quietly(read_fixes(in_own(crs)))$easting, wanted)
  refused(sf::st_transform(hare_points(), 3857), "grow away from the equator: sf::st_transform(x, 32633)")
  refused(sf::st_as_sf(data.frame(x = 1, y = 2, z = 3), coords = c("x", "y", "z"), crs = 4978), "the CRS WGS 84 is not a plane one in metres: project the points first")
  shapes <- sf::st_sfc(sf::st_point(1:2), sf::st_linestring(diag(2)), crs = 32633)
  refused(sf::st_set_geometry(hare_points()[1:2, ], shapes), "row 2: the geometry is a linestring, and points are wanted: its vertices are no fixes unless they say when")
  refused(sf::st_cast(hare_points(), "MULTIPOINT"), "row 1: the geometry is a multipoint, and points are wanted: sf::st_cast(x, \"POINT\") makes points of it")
  renamed <- hare_points()
  names(renamed)[3] <- "shape"
  refused(renamed, "x has no geometry where sf looks for it: sf::st_geometry(x) <- \"COLUMN\" says where it is")
  expect_error(read_fixes(hare_points(), crs = 3035), "crs: points bring their own CRS", class = "homerange_option_error")
  refused(hare_points(), "the coordinates are of the zone 32N, and the CRS WGS 84 / UTM zone 33N is that of 33N: give one", zone = "32N")
  expect_identical(facts_of(read_fixes(hare_points(), zone = "33 n", quiet = TRUE))$zone, "33N")
})

test_that("missing points are left out, and further dimensions are not looked at", {
  skip_without_split()
  skip_if_not_installed("sf")
  empty <- hare_points()
  sf::st_geometry(empty)[3] <- sf::st_point()
  expect_message(fixes <- read_fixes(empty), "1 records have no coordinates: left out")
  expect_identical(nrow(fixes), 49L)
  measured <- sf::st_set_geometry(hare_points()[1:2, ], sf::st_sfc(sf::st_point(c(5e5, 5e6, 1, 1)), sf::st_point(), crs = 32633))
  expect_identical(read_fixes(measured, quiet = TRUE)$easting, 5e5)
})

test_that("points alone are fixes of one animal in the order of rows", {
  skip_without_split()
  skip_if_not_installed("sf")
  for (order in list(1:50, 50:1)) {
    points <- sf::st_sf(geometry = sf::st_geometry(hare_points())[order])
    fixes <- read_fixes(points, name = "hare", quiet = TRUE)
    expect_identical(names(fixes), c("animal", "second", "easting", "northing"))
    expect_identical(fixes$easting, unname(sf::st_coordinates(points)[, "X"]))
  }
})

test_that("the geometry is left alone where coordinates are named, and no title is taken twice", {
  skip_without_split()
  skip_if_not_installed("sf")
  points <- cbind(hare_points(), x = 5e5 + 0:49, y = 5e6 + 0:49)
  expect_identical(read_fixes(points, easting = "x", northing = "y", quiet = TRUE)$easting, 5e5 + 0:49)
  points[["point easting"]] <- 1
  expect_identical(read_fixes(points, quiet = TRUE)$easting, sf::st_coordinates(hare_points())[, "X"], ignore_attr = TRUE)
})

# A session of its own, since a fault of this kind ends it.
ends_well <- function(...) {
  code <- c("library(homerange)", "s <- sf::st_as_sf(data.frame(id = 'a', date = as.Date('2024-05-01') + 0:2, x = c(1, 900, 1), y = c(1, 1, 900)),
    coords = c('x', 'y'))", ..., "f <- read_fixes(x, quiet = TRUE); r <- home_range(f, 100)
    cat(summary(r)$hectares, is.null(attr(f, 'homerange')$crs), '\\n')")
  path <- tempfile(fileext = ".R")
  on.exit(unlink(path))
  writeLines(code, path)
  suppressWarnings(system2(file.path(R.home("bin"), "Rscript"), path, stdout = TRUE, stderr = TRUE))
}

test_that("a system of a site in metres is one of no known place, and one in feet is refused", {
  skip_without_program()
  skip_if_not_installed("sf")
  site <- function(unit) paste0("ENGCRS[\"Site\",EDATUM[\"Site\"],CS[Cartesian,2],AXIS[\"x\",east],AXIS[\"y\",north],LENGTHUNIT[", unit, "]]")
  metres <- "40.41005 TRUE "  # half of 899 by 899 metres
  expect_identical(ends_well("x <- s"), metres)
  expect_identical(ends_well("x <- sf::st_set_crs(s, 'LOCAL_CS[\"farm\",UNIT[\"metre\",1]]')"), metres)
  expect_identical(ends_well(paste0("x <- sf::st_set_crs(s, '", site("\"metre\",1"), "')")), metres)
  file <- "f <- tempfile(fileext = '.gpkg'); sf::st_write(s, f, quiet = TRUE); x <- sf::st_read(f, quiet = TRUE)"
  expect_identical(utils::tail(ends_well(file), 1), metres)
  feet <- ends_well(paste0("x <- sf::st_set_crs(s, '", site("\"foot\",0.3048"), "')"))
  expect_match(feet, "crs: the unit of the coordinates is not the metre but foot", all = FALSE)
})

test_that("the CRS of columns is that of the argument", {
  skip_without_program()
  skip_if_not_installed("sf")
  fixes <- walk("hare", 20, 3)
  shapes_of <- function(...) sf::st_crs(sf::st_as_sf(quietly(home_range(fixes, ...))))
  expect_identical(shapes_of(), sf::NA_crs_)
  expect_identical(shapes_of(crs = 25833), sf::st_crs(25833))
  expect_identical(shapes_of(crs = 32633), sf::st_crs(32633))
  record <- facts_of(read_fixes(fixes, crs = 25833, quiet = TRUE))$record
  expect_true("option,crs,EPSG:25833 (ETRS89 / UTM zone 33N)" %in% record)
  expect_true("option,zone,33N" %in% facts_of(read_fixes(fixes, crs = 32633, quiet = TRUE))$record)
  refused <- function(text, kind, ...) expect_error(read_fixes(fixes, ..., quiet = TRUE), text, class = paste0("homerange_", kind, "_error"))
  refused("WGS 84 has longitude and latitude, .*: name their columns by lon and lat, without crs", "crs", crs = 4326)
  refused("crs = NA names no reference system", "crs", crs = NA)
  refused("crs = 2 values names no reference system", "crs", crs = 1:2)
  refused("crs = \"EPSG:999999\" names no reference system", "crs", crs = "EPSG:999999")
  refused("the coordinates are of the zone 33N, and the CRS ETRS89 / UTM zone 33N is none of UTM", "zone", crs = 25833, zone = "33N")
  expect_identical(facts_of(read_fixes(fixes, crs = "LOCAL_CS[\"farm\",UNIT[\"metre\",1]]", quiet = TRUE))$crs, NULL)
})

test_that("an amt track says its CRS", {
  skip_without_split()
  skip_if_not_installed("sf")
  table <- data.frame(id = "hare", t_ = as.POSIXct("2024-05-01", tz = "UTC") + 0:1, x_ = 562000 + 0:1, y_ = 5134000)
  attr(table, "crs_") <- sf::st_crs(32633)
  expect_identical(facts_of(read_fixes(table, quiet = TRUE))$zone, "33N")
  attr(table, "crs_") <- sf::NA_crs_
  expect_null(facts_of(read_fixes(table, quiet = TRUE))$zone)
  attr(table, "crs_") <- sf::st_crs(4326)
  expect_error(read_fixes(table, quiet = TRUE), "which are no plane coordinates", class = "homerange_crs_error")
})

test_that("a reference system of wrong areas is refused or said", {
  skip_without_split()
  skip_if_not_installed("sf")
  points <- sf::st_as_sf(data.frame(id = "hare", x = 562000 + c(0, 200), y = 5134000), coords = c("x", "y"), crs = 32633)
  # By how many per cent areas are too great there: the squared secant of the latitude, and what PROJ's own factors say.
  wrong <- c("3395" = "109.", "4087" = "44.")
  for (code in names(wrong)) {
    message <- paste0("areas of hare are ", wrong[[code]], "[0-9]*[.]?[0-9]* % too great on this grid")
    expect_error(read_fixes(sf::st_transform(points, as.numeric(code)), quiet = TRUE), message, class = "homerange_scale_error")
  }
  expect_error(read_fixes(sf::st_transform(points, 3832), quiet = TRUE), "the fixes lie near 15.8 E 46.4 N, and .* is of 98.7 E to 68.0 W, 60.0 S to 66.7 N: ",
               class = "homerange_crs_error")
  expect_message(read_fixes(sf::st_transform(points, 31468)), "areas of hare are 0[.][0-9]+ % too great on this grid",
                 class = "homerange_scale_note")
  expect_null(facts_of(read_fixes(sf::st_transform(points, 3035), quiet = TRUE))$zone)
})

# Five fixes around a place in longitude and latitude, as points.
lynx_at <- function(longitude, latitude, crs) {
  places <- data.frame(animal = "lynx", date = as.POSIXct("2024-05-01", tz = "UTC") + 3600 * 0:4,
                       x = longitude + c(0, 0.004, -0.003, 0.001, 0.002), y = latitude + c(0, 0.001, 0.006, -0.005, 0.002))
  sf::st_transform(sf::st_as_sf(places, coords = c("x", "y"), crs = 4326), crs)
}

# The same as eastings and northings in columns.
in_columns <- function(points) {
  data.frame(points[c("animal", "date")], easting = sf::st_coordinates(points)[, 1], northing = sf::st_coordinates(points)[, 2])[-3]
}

# Expects that points are refused, and the same places in columns whose reference system is named, as sf::st_transform mends it.
expect_turned <- function(points, crs, text, columns, zone) {
  message <- function(help, code) paste0(text, ", and not east and north: sf::st_transform(", help, ", ", code, ")")
  kind <- "homerange_crs_error"
  expect_error(read_fixes(points, quiet = TRUE), message("x", zone), fixed = TRUE, class = kind)
  named <- paste0("the points, as by sf::st_as_sf(x, coords = c(", columns, "), crs = ..)")
  expect_error(read_fixes(in_columns(points), crs = crs, quiet = TRUE), message(named, "EPSG"), fixed = TRUE, class = kind)
  wanted <- quietly(read_fixes(sf::st_transform(points, 4326)))
  expect_identical(facts_of(wanted)$zone, zone_of_crs(sf::st_crs(zone)))
  again <- sf::st_as_sf(in_columns(points), coords = c("easting", "northing"), crs = crs)
  for (turned in list(sf::st_transform(points, zone), sf::st_transform(again, zone))) {
    expect_identical(quietly(read_fixes(turned))[c("easting", "northing")], wanted[c("easting", "northing")])
  }
}

test_that("axes that go west or south are refused", {
  skip_without_split()
  skip_if_not_installed("sf")
  expect_turned(lynx_at(19.5, -33, 2048), 2048, "crs: the axes of the CRS Hartebeesthoek94 / Lo19 go west and south", "WESTING, SOUTHING", 32734)
  expect_turned(lynx_at(15, 50, 5513), 5513, "crs: the axes of the CRS S-JTSK / Krovak go south and west", "SOUTHING, WESTING", 32633)
  own <- "+proj=tmerc +lon_0=-19 +axis=wnu +ellps=GRS80"
  expect_turned(lynx_at(-19, 65, own), own, "crs: the axes of the CRS unknown go west and north", "WESTING, NORTHING", 32627)
  # Around a pole both axes go south; eastings may be below 0.
  expect_identical(nrow(quietly(read_fixes(lynx_at(15, 71, 3995)))), 5L)
  expect_lt(max(quietly(read_fixes(lynx_at(15, 50, 5514)))$easting), 0)
  site <- "ENGCRS[\"plant\",EDATUM[\"plant\"],CS[Cartesian,2],AXIS[\"y\",west],AXIS[\"x\",north],LENGTHUNIT[\"metre\",1]]"
  points <- sf::st_set_crs(sf::st_set_crs(lynx_at(19, 50, 32634), NA), sf::st_crs(site))
  for (call in list(quote(read_fixes(points)), quote(read_fixes(in_columns(points), crs = site)))) {
    expect_error(quietly(eval(call)), paste("^crs: the axes of the CRS plant go west and north, and not east and north: make eastings and northings",
                                            "of its coordinates, which need no CRS$"), class = "homerange_crs_error")
  }
})

test_that("a system that sf cannot turn is refused", {
  skip_without_split()
  skip_if_not_installed("sf")
  points <- sf::st_set_crs(sf::st_set_crs(lynx_at(15, 50, 32633), NA), 2985)
  expect_error(read_fixes(points, quiet = TRUE), "has no way to longitude and latitude that sf knows: name another one, such as by its code$",
               class = "homerange_crs_error")
})

test_that("the unit of a plane is that of its axes, whatever its projection is", {
  skip_if_not_installed("sf")
  unit_of <- function(crs) unit_of_plane(sf::st_crs(crs)$wkt)
  for (metres in c("EPSG:8857", "EPSG:6247", "EPSG:32633+5773", "+proj=utm +zone=33 +towgs84=1,2,3")) expect_null(unit_of(metres))
  expect_identical(unit_of("EPSG:6201"), "US survey foot")
  expect_identical(unit_of("+proj=eqearth +units=km"), "kilometre")
})

test_that("a grid on which lengths differ by direction is refused or said", {
  skip_without_split()
  skip_if_not_installed("sf")
  lines_of <- function(points, ...) grep("on this grid", capture_messages(read_fixes(points, ...)), value = TRUE)
  # By geodesics of PROJ between places that lie on a circle of the grid around the mean of the five.
  told <- list(list(3035, -6.4, 37, "2.72"), list(3577, 146.8, -43.5, "7.21"), list(6933, 20, 31, "2.07"))
  for (one in told) {
    points <- lynx_at(one[[2]], one[[3]], one[[1]])
    line <- paste0("homerange: lengths of lynx differ by up to ", one[[4]], " % by direction on this grid\n")
    expect_identical(lines_of(points), line)
    expect_identical(lines_of(in_columns(points), crs = one[[1]]), line)
    expect_message(read_fixes(points), "lengths of lynx", class = "homerange_scale_note")
  }
  refused <- list(list("EPSG:6933", 16, 48, "67.18"), list("ESRI:54009", 31, -24, "21.42"), list("EPSG:8857", 16, 48, "18.89"))
  for (one in refused) {
    expect_error(read_fixes(lynx_at(one[[2]], one[[3]], one[[1]]), quiet = TRUE),
                 paste0("^crs: lengths of lynx differ by up to ", one[[4]], " % by direction on this grid: take a zone or a reference system of the place$"),
                 class = "homerange_scale_error")
  }
  expect_identical(lines_of(lynx_at(16.4, 48.2, 3035)), character())
})

test_that("scales are those of the formulas of two projections, and of the ground where a system has a sphere", {
  skip_if_not_installed("sf")
  # The equal-area cylinder of the parallel of 30 degrees (Snyder 1987, formula 10-9): a length along the parallel is so many times
  # as long as on the ground, and one along the meridian as many times shorter.
  squared <- 1 - (6356752.314245 / 6378137)^2
  along <- function(latitude) sqrt(1 - squared * sin(latitude * pi / 180)^2) / cos(latitude * pi / 180)
  for (latitude in c(0, 31, 48)) {
    at <- sf::st_coordinates(sf::st_transform(sf::st_sfc(sf::st_point(c(20, latitude)), crs = 4326), 6933))
    times <- along(latitude) / along(30)
    expect_equal(scales_of_crs(sf::st_crs(6933))(at[1], at[2]), c(areas = 1, lengths = max(times, 1 / times)^2), tolerance = 1e-7)
  }
  # In the middle of an azimuthal projection of a sphere an area is that of the sphere: on the ground a degree of latitude is
  # shorter at the equator, and one of longitude as long.
  radius <- 6370997
  at_equator <- scales_of_crs(sf::st_crs(paste0("+proj=laea +lat_0=0 +lon_0=10 +R=", radius)))(0, 0)
  parallel <- 6378137
  meridian <- parallel * (1 - squared)
  expect_equal(at_equator, c(areas = radius^2 / (parallel * meridian), lengths = parallel / meridian), tolerance = 1e-7)
})

test_that("fixes are points of sf, where they were", {
  skip_without_split()
  skip_if_not_installed("sf")
  table <- walk("a", 9, 1, at = c(-50, 20))
  fixes <- read_fixes(table, quiet = TRUE)
  points <- sf::st_as_sf(fixes)
  expect_identical(sf::st_crs(points), sf::NA_crs_)
  expect_equal(sf::st_coordinates(points), as.matrix(table[c("easting", "northing")]), ignore_attr = TRUE)
  expect_identical(points$easting, table$easting)
  expect_identical(sf::st_crs(sf::st_as_sf(read_fixes(deer, quiet = TRUE))), sf::st_crs(32633))
})

test_that("no fixes are no points", {
  skip_without_split()
  skip_if_not_installed("sf")
  fixes <- quietly(read_fixes(walk("fox", 20, 1), zone = "33N"))
  expect_silent(points <- sf::st_as_sf(fixes[0, ]))
  expect_identical(c(nrow(points), sf::st_crs(points)$epsg), c(0L, 32633L))
})

test_that("points whose sides are the other way are turned", {
  skip_without_program()
  skip_if_not_installed("sf")
  table <- data.frame(animal = "a", lon = 46 + 0:4 / 1000, lat = 96 + (0:4)^2 / 1000)
  x <- sf::st_as_sf(table, coords = c("lon", "lat"), crs = 4326)
  expect_error(quietly(home_range(x)), "latitude 96: are x and y of the points the other way[?] sf::st_geometry[(]x[)] <- .* turns them$", class = "homerange_data_error")
  sf::st_geometry(x) <- sf::st_set_crs(sf::st_geometry(x) * matrix(c(0, 1, 1, 0), 2), sf::st_crs(x))
  expect_identical(quietly(home_range(x))$zone, "47N")
  expect_error(quietly(home_range(table)), "are their columns to be named the other way, by lon and lat[?]$", class = "homerange_data_error")
})

test_that("points in metres that are called degrees are refused with what helps", {
  skip_without_program()
  skip_if_not_installed("sf")
  x <- sf::st_as_sf(walk("a", 8, 1), coords = c("easting", "northing"), crs = 4326)
  expect_error(quietly(read_fixes(x)), ": if they are metres, give the points .*, as by sf::st_set_crs[(]sf::st_set_crs[(]x, NA[)], 32633[)]",
               class = "homerange_data_error")
  expect_identical(nrow(quietly(read_fixes(sf::st_set_crs(sf::st_set_crs(x, NA), 32633)))), 8L)
})

test_that("points of fixes are refused as ranges of them are", {
  skip_without_program()
  skip_if_not_installed("sf")
  fixes <- quietly(read_fixes(transform(walk("a", 8, 1), animal = "a"), zone = "33N"))
  with_side <- function(values) transform_fixes(fixes, "easting", values)
  twice <- structure(cbind(as.data.frame(fixes), northing = 1), class = class(fixes), homerange = facts_of(fixes))
  for (odd in list(with_side("x"), with_side(Inf), with_side(as.list(1:8)), twice)) {
    wanted <- tryCatch(quietly(home_range(odd)), homerange_error = conditionMessage)
    expect_type(wanted, "character")
    expect_error(sf::st_as_sf(odd), wanted, fixed = TRUE, class = "homerange_data_error")
  }
  expect_error(sf::st_as_sf(`names<-`(fixes, c("animal", "second", "x", "northing"))), "these fixes have no column 'easting' any more", class = "homerange_columns_error")
  whole <- sf::st_coordinates(sf::st_as_sf(fixes))
  for (same in list(factor(fixes$easting), format(fixes$easting), as.integer(fixes$easting))) {
    expect_identical(sf::st_coordinates(sf::st_as_sf(with_side(same))), whole)
  }
  expect_identical(sf::st_is_empty(sf::st_as_sf(with_side(replace(fixes$easting, 3, NA)))), seq_len(8) == 3)
})

# Metres from the equator to a latitude on GRS80, by the integral of the radius of the meridian.
arc_to <- function(latitude) {
  square <- 0.0066943800229
  radius <- function(angle) 6378137 * (1 - square) / (1 - square * sin(angle)^2)^1.5
  stats::integrate(radius, 0, latitude * pi / 180, rel.tol = 1e-12)$value
}

test_that("points of systems whose x is the northing", {
  skip_without_program()
  skip_if_not_installed("sf")
  systems <- list(list(2180, 19, 52, 0.9993, 5300000), list(3059, 24, 57, 0.9996, 6000000))
  for (one in systems) {
    points <- sf::st_as_sf(data.frame(animal = "a", timestamp = as.POSIXct("2024-05-01", tz = "UTC") + 3600 * 0:3, lon = one[[2]] + c(0, 4, -3, 1) / 1000,
                                      lat = one[[3]] + c(0, 1, 6, -5) / 1000), coords = c("lon", "lat"), crs = 4326)
    moved <- sf::st_transform(points, one[[1]])
    fixes <- quietly(read_fixes(moved))
    expect_identical(c(fixes$easting[1], fixes$northing[1]), c(500000, round(one[[4]] * arc_to(one[[3]]) - one[[5]])))
    box <- as.numeric(sf::st_bbox(sf::st_transform(sf::st_as_sf(quietly(home_range(fixes, 100))), 4326)))
    expect_equal(box, c(one[[2]] - 0.003, one[[3]] - 0.005, one[[2]] + 0.004, one[[3]] + 0.006), tolerance = 1e-6)
    table <- cbind(sf::st_drop_geometry(moved), x = sf::st_coordinates(moved)[, 1], y = sf::st_coordinates(moved)[, 2])
    path <- tempfile(fileext = ".csv")
    utils::write.csv(transform(table, x = sprintf("%.3f", x), y = sprintf("%.3f", y)), path, row.names = FALSE)
    said <- paste0("crs: x of ", sf::st_crs(one[[1]])$Name, " is the northing, and that of a table the easting: say which it is, as by easting = \"y\", northing = \"x\", ",
                   "or by easting = \"x\", northing = \"y\"")
    for (own in list(table, stats::setNames(table, toupper(names(table))), path)) {
      expect_error(quietly(read_fixes(own, crs = one[[1]])), said, fixed = TRUE, class = "homerange_ambiguous_error")
    }
    expect_identical(quietly(read_fixes(table, crs = one[[1]], easting = "x", northing = "y"))$easting, fixes$easting)
    names(table)[3:4] <- c("y", "x")
    expect_identical(quietly(read_fixes(table, crs = one[[1]], easting = "y", northing = "x"))$easting, fixes$easting)
    moved <- sf::st_coordinates(sf::st_transform(points, 3035))
    table[c("x", "y")] <- list(moved[, 1], moved[, 2])
    expect_identical(quietly(read_fixes(table, crs = 3035))$easting, round(unname(moved[, 1])))
  }
})

test_that("points are refused while sf has axes in the order of their authority", {
  skip_without_split()
  skip_if_not_installed("sf")
  old <- sf::st_axis_order(TRUE)
  on.exit(sf::st_axis_order(old))
  points <- sf::st_as_sf(data.frame(animal = "a", x = c(500000, 500010, 500020), y = c(5000000, 5000030, 5000010)), coords = c("x", "y"), crs = 32633)
  expect_error(read_fixes(points, quiet = TRUE), "sf::st_axis_order() is TRUE", fixed = TRUE, class = "homerange_crs_error")
})

test_that("a system is that of degrees beside the metres", {
  skip_without_program()
  skip_if_not_installed("sf")
  table <- data.frame(animal = "hare", second = 0:3, x = 0, y = 0, lon = c(14.2, 14.2512, 14.1833, 14.2301), lat = c(46.3, 46.3121, 46.2887, 46.3554))
  places <- sf::st_transform(sf::st_as_sf(table, coords = c("lon", "lat"), crs = 4326), 3794)
  table[c("x", "y")] <- round(sf::st_coordinates(places), 1)
  expect_identical(read_fixes(table, crs = 3794, quiet = TRUE)$easting, floor(table$x + 0.5))
  for (crs in c(27700, 3763, 2154)) {
    said <- paste0("crs: by column 5 'lon' and column 6 'lat', which are not read, the first fix is near 14.2 E 46.3 N, and by ", sf::st_crs(crs)$Name,
                   " no fix is within 20 km of there: name the system of easting and northing, or leave out the columns that are not theirs")
    expect_error(read_fixes(table, crs = crs, quiet = TRUE), said, fixed = TRUE, class = "homerange_crs_error")
  }
})

# Fixes at a place as columns of eastings and northings.
fixes_near <- function(easting, northing) {
  data.frame(animal = "lynx", time = as.POSIXct("2024-05-01", tz = "UTC") + 3600 * 0:2, easting = easting + c(0, 200, 0), northing = northing + c(0, 0, 200))
}

test_that("fixes that lie elsewhere than their system are refused, and others are said to lie where they are", {
  skip_without_split()
  krovak <- "S-JTSK / Krovak East North is of 12.1 E to 22.6 E, 47.7 N to 51.1 N: easting and northing are"
  said <- function(easting, northing, crs) read_fixes(fixes_near(easting, northing), crs = crs, quiet = TRUE)
  refused <- function(easting, northing, crs, text) expect_error(said(easting, northing, crs), text, fixed = TRUE, class = "homerange_crs_error")
  refused(742000, 1043000, 5514, paste("crs: the fixes lie near 41.5 E 68.5 N, and", krovak, "without their signs, perhaps: give them a minus"))
  refused(1043000, 742000, 5514, paste(krovak, "exchanged and without their signs, perhaps: give them the other way, and a minus"))
  refused(463000, 150000, 28992, "7.2 E, 50.8 N to 53.7 N: easting and northing are exchanged, perhaps: give them the other way")
  refused(150000, 463000, 31370, "51.5 N: name the system that they have, or are easting and northing exchanged, or without their signs?")
  near <- function(...) grep("^near ", facts_of(said(...))$notes, value = TRUE)
  expect_identical(near(-742000, -1043000, 5514), "near 14.4 E 50.1 N by EPSG:5514")
  expect_identical(kind_of_said("near 14.4 E 50.1 N by EPSG:5514"), "guessed")
  expect_identical(near(400000, 4630000, 25833), "near 13.8 E 41.8 N by EPSG:25833")  # a zone that is used beside its area
  expect_identical(near(562000, 5134000, 32633), character())  # of which the program says the place
  both <- rbind(fixes_near(-742000, -1043000), fixes_near(742000, 1043000))
  both$animal <- rep(c("lynx", "hare"), each = 3)
  expect_identical(grep("^near ", facts_of(read_fixes(both, crs = 5514, quiet = TRUE))$notes, value = TRUE), "near 14.4 E 50.1 N by EPSG:5514")
})

test_that("degrees are held to the area of their system, and areas are asked whether the axes are exchanged", {
  skip_without_split()
  points <- function(longitude, latitude, crs) sf::st_as_sf(fixes_near(0, 0)[1:2], geometry = sf::st_sfc(lapply(0:2 / 100, function(by) sf::st_point(c(longitude, latitude + by))), crs = crs))
  notes <- facts_of(read_fixes(points(14.5, 46.1, 4258), quiet = TRUE))$notes
  expect_true("near 14.5 E 46.1 N by EPSG:4258" %in% notes)
  expect_error(read_fixes(points(46.1, 14.5, 4258), quiet = TRUE), "longitude and latitude are exchanged, perhaps: give them the other way", class = "homerange_crs_error")
  expect_error(read_fixes(points(110, 44, 4269), quiet = TRUE), "longitude is without its sign, perhaps: give it a minus", class = "homerange_crs_error")
  away <- function(what, are_turned) line_of_worst(what, c(lynx = 1.2719), "lynx", are_turned)
  helps <- "crs: areas of lynx are 127.19 % too great on this grid: take a zone or a reference system of the place"
  expect_error(away("areas", TRUE), paste0(helps, ", or are easting and northing exchanged?"), fixed = TRUE, class = "homerange_scale_error")
  expect_error(away("areas", FALSE), paste0("^", helps, "$"), class = "homerange_scale_error")
})
