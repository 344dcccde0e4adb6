# The pages of help: of each function that is exported, with the arguments that it has.

test_that("pages of help have the functions and arguments of the code", {
  expect_length(tools::codoc("homerange"), 0)
  expect_length(tools::undoc("homerange")[["code objects"]], 0)
  expect_length(tools::undoc("homerange")[["data sets"]], 0)
  found <- tools::checkDocFiles("homerange")
  expect_length(found, 0)
  expect_length(tools::checkDocStyle("homerange"), 0)
})

test_that("a citation has the version and the year of the package", {
  text <- paste(format(utils::citation("homerange"), style = "text"), collapse = " ")
  expect_match(text, as.character(utils::packageVersion("homerange")), fixed = TRUE)
  expect_match(text, substr(utils::packageDate("homerange"), 1, 4), fixed = TRUE)
  expect_match(text, "Table of equivalent populations", fixed = TRUE)
})
