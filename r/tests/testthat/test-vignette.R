# The export of the package, and the vignette that begins with it: its code is run, and its numbers and sentences are compared
# with those that base R and sf compute of the export.

export <- function() utils::read.csv(system.file("extdata", "deer.csv", package = "homerange"), check.names = FALSE)

test_that("the export is the table of deer, as Movebank writes it", {
  text <- export()
  expect_identical(text$visible == "true", deer$visible[order(deer$timestamp, deer$individual.local.identifier)])
  skip_without_split()
  expect_message(found <- read_fixes(system.file("extdata", "deer.csv", package = "homerange")), "1 outliers: left out")
  wanted <- deer[order(deer$individual.local.identifier, deer$timestamp), ]
  used <- wanted[wanted$visible, ]
  in_metres <- data.frame(animal = used$individual.local.identifier, time = used$timestamp, easting = floor(used$utm.easting + 0.5),
                          northing = floor(used$utm.northing + 0.5))
  expect_equal(as.data.frame(found), in_metres)
  skip_if_not_installed("sf")
  by_time <- deer[order(deer$timestamp, deer$individual.local.identifier), ]
  points <- sf::st_as_sf(by_time, coords = c("utm.easting", "utm.northing"), crs = 32633)
  degrees <- sf::st_coordinates(sf::st_transform(points, 4326))
  expect_equal(unname(degrees), unname(as.matrix(text[c("location-long", "location-lat")])), tolerance = 1e-7)
})

# The fixes of a deer that a level keeps, in whole metres.
kept_of <- function(animal, level) {
  own <- export()
  own <- own[own[["individual-local-identifier"]] == animal & own$visible == "true", ]
  east <- floor(own[["utm-easting"]] + 0.5)
  north <- floor(own[["utm-northing"]] + 0.5)
  kept <- kept_directly(east, north, level)
  data.frame(east = east, north = north)[kept, ]
}

test_that("the vignette has the numbers of the export", {
  skip_without_split()
  skip_if_not_installed("sf")
  skip_if_not_installed("knitr")
  path <- system.file("doc", "homerange.Rmd", package = "homerange")
  skip_if(path == "", "the package was installed without its vignette")
  code <- file.path(local_folder(), "homerange.R")
  knitr::purl(path, code, quiet = TRUE, documentation = 0)
  page <- new.env()
  grDevices::pdf(NULL)
  on.exit(grDevices::dev.off(), add = TRUE)
  suppressMessages(utils::capture.output(sys.source(code, page)))
  names <- c("Asta", "Bruno", "Cilla")
  shapes <- sf::st_sfc(lapply(names, function(name) hull_of(kept_of(name, 95)$east, kept_of(name, 95)$north)))
  whole <- as.numeric(sf::st_area(shapes)) / 10000
  corners <- c(560300, 562100, 563500, 563600, 561300, 560300, 5133000, 5132300, 5133300, 5135300, 5135500, 5133000)
  reserve <- sf::st_sfc(sf::st_polygon(list(matrix(corners, ncol = 2))))
  inside <- vapply(1:3, function(at) as.numeric(sf::st_area(sf::st_intersection(shapes[at], reserve))), 0) / 10000
  expect_equal(page$inside, data.frame(animal = names, level = 95, hectares = whole, inside = inside, share = inside / whole))
  text <- readLines(path, encoding = "UTF-8")
  says <- function(sentence) expect_true(any(grepl(sentence, text, fixed = TRUE)), label = sentence)
  shares <- round(100 * inside / whole)
  says(sprintf("holds %d %% of Asta's range, %d %% of Bruno's and %d %% of Cilla's", shares[1], shares[2], shares[3]))
  expect_equal(round(1 / (1 - inside[2] / whole[2])), 6)  # a sixth of Bruno's lies outside
  expect_true(1 - inside[3] / whole[3] > 0.3 && 1 - inside[3] / whole[3] < 1 / 3)
  expect_equal(vapply(names, function(name) nrow(kept_of(name, 100)), 0L), c(Asta = 359L, Bruno = 360L, Cilla = 360L))
  says("of 359 or 360 fixes per animal, one every three hours from 1 April to 15 May 2024")
})

test_that("the sentences of the vignette on curves and cores hold", {
  growth <- function(name) {
    own <- kept_of(name, 100)
    areas <- vapply(seq_len(nrow(own)), function(number) doubled(own$east[seq_len(number)], own$north[seq_len(number)]), 0)
    part <- function(share) 1 - areas[floor(share * nrow(own))] / areas[nrow(own)]
    list(tenth = part(0.9), quarter = part(0.75), within = which(areas >= 0.95 * areas[nrow(own)])[1])
  }
  bruno <- growth("Bruno")
  expect_true(bruno$quarter > 0.049 && bruno$quarter < 0.05)
  expect_identical(format(deer$timestamp[360 + bruno$within], "%d %B"), "04 May")
  expect_true(abs(growth("Asta")$quarter - 0.2) < 0.01 && growth("Asta")$tenth == 0)
  expect_gt(growth("Cilla")$quarter, 0.25)
  skip_if_not_installed("sf")
  for (core in c("Asta", "Bruno", "Cilla")) {
    shape <- sf::st_sfc(hull_of(kept_of(core, 50)$east, kept_of(core, 50)$north))
    for (other in setdiff(c("Asta", "Bruno", "Cilla"), core)) {
      points <- sf::st_geometry(sf::st_as_sf(kept_of(other, 100), coords = c("east", "north")))
      expect_false(any(sf::st_intersects(points, shape, sparse = FALSE)))
    }
  }
})
