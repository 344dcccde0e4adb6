# What other packages and functions of R ask of ranges: rows, polygons, choices and pictures.

# Two squares, of 4 hectares and of 1, the second in a corner of the first.
squares <- function() {
  data.frame(animal = rep(c("a", "b"), c(5, 4)), second = 60 * c(0:4, 0:3), easting = 562000 + c(0, 200, 200, 0, 10, 0, 100, 100, 0),
             northing = 5134000 + c(0, 0, 200, 200, 20, 0, 0, 100, 100))
}

ranges_of_squares <- function(...) quietly(home_range(squares(), c(60, 100), zone = "33N", ...))

test_that("several levels are asked in one call, and overlaps are a table too", {
  skip_without_program()
  ranges <- ranges_of_squares()
  corners <- homerange_corners(ranges, c(60, 100))
  expect_identical(corners, list("60" = homerange_corners(ranges, 60), "100" = homerange_corners(ranges)))
  both <- homerange_overlap(ranges, levels = c(60, 100))
  expect_identical(both[["100"]], homerange_overlap(ranges))
  expect_identical(both[["60"]], homerange_overlap(ranges, levels = 60))
  # Of a the corner in common and the fix at 10, 20 lie in the range of b; of b all lie in that of a.
  expect_identical(as.list(homerange_overlap(ranges, tidy = TRUE)), list(
    animal = c("a", "a", "b", "b"), other = c("a", "b", "a", "b"), level = rep(100, 4), count = c(5, 2, 4, 4),
    fixes = c(5, 5, 4, 4), share = c(1, 0.4, 1, 1)))
  expect_identical(homerange_overlap(ranges, tidy = TRUE, levels = c(60, 100))$level, rep(c(60, 100), each = 4))
  expect_error(homerange_corners(ranges, c(60, 60)), "levels: 60 is there twice", class = "homerange_option_error")
  expect_error(homerange_corners(ranges, "60"), "levels = \"60\" is none of these ranges", class = "homerange_option_error")
  skip_if_not_installed("sf")
  west <- sf::st_as_sfc(sf::st_bbox(c(xmin = 561900, ymin = 5133900, xmax = 562050, ymax = 5134300), crs = sf::st_crs(32633)))
  shares <- homerange_share(ranges, west, levels = c(60, 100))
  expect_identical(shares$level, c(60, 60, 100, 100))
  expect_equal(shares$share[3:4], c(0.25, 0.5))
})

test_that("animals are chosen by what is known of them", {
  skip_without_program()
  ranges <- ranges_of_squares()
  expect_identical(names(subset(ranges, hectares_100 > 2)), "a")
  least <- 4
  expect_identical(names(subset(ranges, fixes <= least & animal != "c")), "b")
  expect_identical(subset(ranges), ranges)
  expect_error(subset(ranges, fixes), "TRUE or FALSE is wanted for each of 2 ranges", class = "homerange_option_error")
  expect_error(subset(ranges, fixes > 9), "subset: no range is such as is asked", class = "homerange_option_error")
  lost <- "^subset: there is no column hectares_90: there are animal, fixes, first, last, left_out, hectares_60, hectares_100$"
  expect_error(subset(ranges, hectares_90 > 5), lost, class = "homerange_option_error")
  expect_error(subset(ranges, area > 5), "^subset: there is no column area: there are animal, ", class = "homerange_option_error")
  expect_error(subset(ranges, stop("of my own")), "^of my own$", class = "simpleError")
  expect_error(subset(ranges, fixes > 2, hectares_100 > 1), "^subset takes one condition: join several by &, as by subset\\(x, fixes > 30 & ",
               class = "homerange_option_error")
  expect_error(subset(ranges, fixes > 2, select = animal), "^there is no argument select$", class = "homerange_option_error")
  skip_if_not_installed("dplyr")
  expect_identical(names(dplyr::filter(ranges, fixes == max(fixes))), "a")
  expect_error(dplyr::filter(ranges, fixes > 1, hectares_90 > 5), lost, class = "homerange_option_error")
  expect_error(dplyr::filter(ranges, .data$hectares_90 > 5), lost, class = "homerange_option_error")
})

test_that("verbs of dplyr for tables refuse ranges, and take the table of these", {
  skip_without_program()
  skip_if_not_installed("dplyr")
  ranges <- ranges_of_squares()
  verbs <- c("arrange", "group_by", "left_join", "mutate", "pull", "rename", "select", "semi_join", "slice", "summarise")
  for (verb in verbs) {
    expect_error(getExportedValue("dplyr", verb)(ranges, 1), paste0("^ranges are no table, which ", verb, " wants: dplyr::filter\\(x, [.][.]\\) ",
                                                                    "chooses among them, and as.data.frame\\(x\\) is a table of theirs$"),
                 class = "homerange_option_error")
  }
  expect_identical(dplyr::pull(as.data.frame(ranges), level), summary(ranges)$level)
})

test_that("tidy has a row for each animal and level, and glance one of all", {
  skip_without_program()
  skip_if_not_installed("generics")
  ranges <- ranges_of_squares()
  expect_identical(generics::tidy(ranges), as.data.frame(ranges))
  expect_identical(as.list(generics::glance(ranges))[1:8], list(
    animals = 2L, ranges = 2L, fixes = 9, left_out = 0, first = 0, last = 240, levels = "60, 100", unit = "m"))
  groups <- ranges_of_squares(by = c("w", "e", "e", "w", "w", "w", "e", "e", "w"))
  expect_identical(as.list(generics::glance(groups))[1:2], list(animals = 2L, ranges = 4L))
})

test_that("sf has polygons, areas, boxes and files of ranges and of fixes", {
  skip_without_program()
  skip_if_not_installed("sf")
  ranges <- ranges_of_squares()
  fixes <- quietly(read_fixes(squares(), zone = "33N"))
  polygons <- sf::st_as_sf(ranges)
  expect_identical(sf::st_geometry(ranges), sf::st_geometry(polygons))
  expect_equal(as.numeric(sf::st_area(ranges)), 10000 * polygons$hectares)
  expect_equal(as.numeric(sf::st_area(ranges, levels = 100)), c(40000, 10000))
  for (x in list(ranges, fixes)) {
    expect_identical(as.numeric(sf::st_bbox(x)), c(562000, 5134000, 562200, 5134200))
    expect_identical(sf::st_crs(x)$epsg, 32633L)
    path <- file.path(local_folder(), "some.gpkg")
    sf::st_write(x, path, quiet = TRUE)
    expect_identical(nrow(sf::st_read(path, quiet = TRUE)), if (inherits(x, "home_range")) 4L else 9L)
  }
})

test_that("a group without an area is named with its group", {
  skip_without_program()
  skip_if_not_installed("sf")
  ranges <- ranges_of_squares(by = c("w", "e", "e", "w", "w", "w", "e", "e", "w"))
  expect_error(sf::st_write(ranges, file.path(local_folder(), "a.shp")), "a range of a w has no area", class = "homerange_option_error")
})

test_that("pictures of ggplot2 have the corners and the curves", {
  skip_without_program()
  skip_if_not_installed("ggplot2")
  ranges <- ranges_of_squares()
  drawn <- ggplot2::ggplot_build(ggplot2::autoplot(ranges, levels = c(60, 100)))$data
  expect_identical(vapply(drawn, nrow, 0L), c(9L, sum(vapply(unlist(homerange_corners(ranges, c(60, 100)), recursive = FALSE), nrow, 0L))))
  curve <- ggplot2::ggplot_build(ggplot2::autoplot(ranges, "curve"))$data[[1]]
  expect_identical(max(curve$y), 4)
  expect_error(ggplot2::autoplot(ranges, levels = 50), "levels = 50 is none of these ranges", class = "homerange_option_error")
})

test_that("ranges are equal whatever was drawn of them, and alike systems bind", {
  skip_without_program()
  ranges <- ranges_of_squares()
  other <- quietly(home_range(read_fixes(squares(), zone = "33N"), c(60, 100)))
  homerange_corners(ranges, 60)
  expect_true(all.equal(ranges, other))
  expect_false(isTRUE(all.equal(ranges, ranges["a"])))
  skip_if_not_installed("sf")
  code <- sf::st_crs("EPSG:3035")
  table <- transform(squares(), easting = easting - 562000 + 4321000, northing = northing - 5134000 + 3210000)
  one <- quietly(read_fixes(table, crs = code))
  again <- quietly(read_fixes(transform(table, animal = toupper(animal)), crs = sf::st_crs(code$wkt)))
  expect_identical(nrow(rbind(one, again)), 18L)
  expect_identical(length(c(quietly(home_range(one)), quietly(home_range(again)))), 4L)
})

test_that("a file that is there is refused, unless it is said what becomes of it", {
  skip_without_split()
  testthat::skip_if_not_installed("sf")
  fixes <- read_fixes(data.frame(animal = "hare", easting = c(0, 200, 0), northing = c(0, 0, 200)), quiet = TRUE)
  for (own in list(fixes, home_range(fixes, quiet = TRUE))) {
    path <- file.path(local_folder(), "a.gpkg")
    write <- function(...) sf::st_write(own, path, ..., quiet = TRUE)
    write()
    expect_error(write(), paste(path, "is there already: append = FALSE writes its layer anew, and delete_dsn = TRUE the file"), fixed = TRUE, class = "homerange_option_error")
    rows <- nrow(sf::st_read(path, quiet = TRUE))
    write(append = FALSE)
    write("other")
    expect_error(write("other"), "is there already", class = "homerange_option_error")
    expect_identical(sort(sf::st_layers(path)$name), c("a", "other"))
    write(delete_dsn = TRUE)
    expect_identical(nrow(sf::st_read(path, quiet = TRUE)), rows)
  }
})
