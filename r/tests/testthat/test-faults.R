# What would end in an error of R itself, or be taken in silence, is refused in a line.

refused <- function(call, text, kind = "option") expect_error(call, text, fixed = TRUE, class = paste0("homerange_", kind, "_error"))

test_that("colours of animals that there are not are refused", {
  report <- read_report(system.file("extdata", "report.txt", package = "homerange"))
  grDevices::pdf(NULL)
  on.exit(grDevices::dev.off())
  refused(plot(report, col = c(otter = "red", Fox = "blue")), "col: there is no animal \"Fox\"")
  refused(plot(report, what = "curve", col = factor(c(Fox = "blue"))), "col: there is no animal \"Fox\"")
  expect_s3_class(plot(report, animals = "otter", col = c(otter = "red", fox = "blue")), "home_range")
})

test_that("what is typed into a page is text, and its day is a day", {
  report <- read_report(system.file("extdata", "report.txt", package = "homerange"))
  path <- file.path(local_folder(), "page.html")
  for (made in list(as.Date(Inf, origin = "1970-01-01"), as.Date(-Inf, origin = "1970-01-01"), .POSIXct(Inf), as.Date(NA))) {
    refused(write_page(report, path, made = made), "is no date")
  }
  for (name in c("title", "study", "species", "by", "reference", "purpose")) {
    typed <- `names<-`(list("M\xfcller"), name)
    refused(do.call(write_page, c(list(report, path), typed)), paste(name, "is M<fc>ller, which is no text in UTF-8"))
  }
})

test_that("a title in the letters of latin1 is on the page", {
  skip_without_program()
  path <- file.path(local_folder(), "page.html")
  write_page(read_report(system.file("extdata", "report.txt", package = "homerange")), path, title = `Encoding<-`("M\xfcller", "latin1"))
  expect_match(paste(readLines(path, encoding = "UTF-8"), collapse = ""), "M\u00fcller", fixed = TRUE)
})

test_that("what ranges are not is refused in a line", {
  report <- read_report(system.file("extdata", "report.txt", package = "homerange"))
  rows <- nrow(as.data.frame(report))
  refused(as.matrix(report), "ranges are no matrix: homerange_overlap(x) is one")
  said <- paste("row.names: a name for each of", rows, "rows is wanted, and each another")
  refused(as.data.frame(report, row.names = rep("x", rows)), said)
  refused(as.data.frame(report, row.names = "x"), "row.names: a name for each of")
  expect_identical(row.names(as.data.frame(report, row.names = paste0("r", seq_len(rows)))), paste0("r", seq_len(rows)))
  refused(subset(report, hectares_100 > 1e9), "subset: no range is such as is asked")
})

test_that("a progress that is no truth, and a path with an end of a line, are refused once", {
  skip_without_split()
  refused(home_range(herd_of_three(), progress = NA), "progress = NA is neither TRUE nor FALSE")
  path <- file.path(local_folder(), "a\nb.csv")
  writeLines("animal,time", path)
  said <- conditionMessage(expect_error(home_range(path), class = "homerange_error"))
  expect_identical(lengths(regmatches(said, gregexpr("b.csv", said, fixed = TRUE))), 1L)
})

test_that("a folder for temporary files that is gone is made again", {
  skip_without_split()
  code <- paste("library(homerange); unlink(tempdir(), recursive = TRUE);",
                "f <- read_fixes(data.frame(animal = \"a\", second = 1:3, easting = c(1, 9, 1), northing = c(1, 1, 9)), quiet = TRUE);",
                "unlink(tempdir(), recursive = TRUE); cat(summary(home_range(f, 100, quiet = TRUE))$fixes)")
  said <- suppressWarnings(system2(file.path(R.home("bin"), "Rscript"), c("-e", shQuote(code)), stdout = TRUE, stderr = TRUE))
  expect_identical(utils::tail(said, 1), "3")
})

test_that("a session without sha256sum is told so", {
  old <- Sys.getenv("PATH")
  on.exit(Sys.setenv(PATH = old))
  Sys.setenv(PATH = local_folder())
  report <- system.file("extdata", "report.txt", package = "homerange")
  if (exists("sha256sum", asNamespace("tools"))) {  # from R 4.5 on, which wants no program for it
    expect_length(read_report(report), 3)
  } else {
    refused(read_report(report), "there is no program sha256sum on PATH", "program")
  }
})

test_that("a file of shapes of one kind takes no range without an area", {
  skip_without_split()
  skip_if_not_installed("sf")
  still <- data.frame(animal = "point", second = 1:3, easting = 562000, northing = 5134000)
  ranges <- quietly(home_range(rbind(walk("fox", 40, 1), still), 100))
  path <- file.path(local_folder(), "ranges.shp")
  refused(sf::st_write(ranges, path, quiet = TRUE), "a range of point has no area: write sf::st_as_sf(x, drop_flat = TRUE)")
  sf::st_write(ranges, sub("shp$", "gpkg", path), quiet = TRUE)
  suppressWarnings(sf::st_write(sf::st_as_sf(ranges, drop_flat = TRUE), path, quiet = TRUE))
  expect_identical(nrow(sf::st_read(path, quiet = TRUE)), 1L)
})

test_that("functions of sf that are of tables of shapes refuse ranges with what makes one of them", {
  skip_if_not_installed("sf")
  ranges <- read_report(system.file("extdata", "report.txt", package = "homerange"))
  point <- sf::st_sfc(sf::st_point(c(562000, 5134000)))
  calls <- list(st_transform = list(32633), st_buffer = list(10), st_union = list(), st_centroid = list(), st_simplify = list(), st_cast = list("POINT"),
                st_intersection = list(point), st_difference = list(point), st_crop = list(point), st_join = list(point), st_filter = list(point))
  for (name in names(calls)) {
    refused(do.call(getExportedValue("sf", name), c(list(ranges), calls[[name]])),
            paste0("ranges are no table of shapes, which ", name, " wants: sf::st_as_sf(x) makes one of them"))
  }
  refused(sf::st_set_crs(ranges, 32633), "which st_crs<- wants: sf::st_as_sf(x) makes one of them")
  expect_s3_class(sf::st_transform(sf::st_set_crs(sf::st_as_sf(ranges), 32633), 4326), "sf")
})
