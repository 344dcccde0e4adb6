# Tracks as bytes: how they are written, and how those of the program are read.

# Fixes of two animals whose numbers have other digits in each line, and of one whose lines are alike.
fixes_of_many_digits <- function() {
  number <- 600
  set.seed(5)
  side <- function() floor(10^stats::runif(number, 0, 7))
  list2DF(list(
    animal = rep(c("a", "b", "alike"), c(299, 1, 300)), second = cumsum(c(0, floor(10^stats::runif(number - 1, 0, 5)))),
    easting = c(side()[1:300], 100000 + 1:300), northing = c(side()[1:300], 5000000 + 1:300)
  ))
}

test_that("tracks of the program are read, whatever digits they have", {
  skip_without_split()
  table <- fixes_of_many_digits()
  read <- read_fixes(table, zone = "33N", quiet = TRUE)
  for (title in names(table)) expect_identical(read[[title]], table[[title]], info = title)
})

test_that("tracks have the digits of their numbers", {
  table <- fixes_of_many_digits()
  for (names in list(NULL, c("\u00e4", "b", "c"))) {
    tracks <- write_tracks(cbind(table, moment = table$second), local_folder(), names)
    for (at in 1:3) {
      own <- table[table$animal == c("a", "b", "alike")[at], ]
      lines <- sprintf("%s,%.0f,%.0f,%.0f", tracks$name[at], own$second, own$easting, own$northing)
      expect_identical(readLines(tracks$file[at], encoding = "UTF-8"), c("animal,second,easting,northing", lines))
    }
  }
})

test_that("a track that is not that of its record is refused", {
  path <- tempfile()
  on.exit(unlink(path))
  lines <- c("animal,second,easting,northing", "a,1,2,3", "a,2,2,3", "a,10,2,3")
  writeLines(lines, path)
  expect_identical(numbers_of_track(path, 3), list(c(1, 2, 10), c(2, 2, 2), c(3, 3, 3)))
  expect_error(numbers_of_track(path, 2), "the tracks are not those of their record", class = "homerange_program_error")
  writeLines(c(lines, "a,3,2"), path)
  expect_error(numbers_of_track(path, 4), "the tracks are not those of their record", class = "homerange_program_error")
})
