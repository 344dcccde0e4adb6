# What is known of ranges that are put together of parts: what was left out is counted once.

herd_with_outliers <- function() {
  herd <- herd_of_three()
  cbind(herd, visible = replace(rep(TRUE, nrow(herd)), c(5, 130, 131), FALSE))
}

ranges_of_each <- function(fixes) lapply(unname(split(fixes, fixes$animal)), function(own) quietly(home_range(own)))

# What is said of the ranges of all fixes is said of those of their parts.
expect_left_as_of_all <- function(parts, fixes) {
  whole <- quietly(home_range(fixes))
  found <- do.call(c, parts)[names(whole)]
  numbers_of <- function(x) summary(x)[c("animal", "fixes", "left_out")]
  expect_equal(numbers_of(found), numbers_of(whole))
  expect_equal(sum(do.call(c, parts)$left_out$fixes), sum(whole$left_out$fixes))
  expect_equal(homerange_left_out(found), homerange_left_out(whole[names(whole)]), ignore_attr = TRUE)
}

test_that("ranges of parts of one reading count what was left out of it once", {
  skip_without_split()
  fixes <- quietly(read_fixes(herd_with_outliers()))
  expect_equal(vapply(split(fixes, fixes$animal), nrow, 0L)[["fox"]], 119)
  expect_left_as_of_all(ranges_of_each(fixes), fixes)
  expect_equal(sum(do.call(c, ranges_of_each(fixes))$left_out$fixes), 3)
  expect_left_as_of_all(rev(ranges_of_each(fixes)), fixes)
  later <- fixes[-(1:7), ]
  expect_left_as_of_all(ranges_of_each(later), later)
  two <- lapply(split(later, later$animal == "fox"), function(own) quietly(home_range(own)))
  expect_left_as_of_all(unname(two), later)
  all <- quietly(home_range(fixes))
  expect_left_as_of_all(list(all["fox"], quietly(home_range(fixes[fixes$animal != "fox", ]))), fixes)
  expect_equal(Reduce(c, ranges_of_each(fixes))$left_out$fixes, do.call(c, ranges_of_each(fixes))$left_out$fixes)
})

test_that("an animal without a range is counted once, and one of other readings as often as it was read", {
  skip_without_split()
  fixes <- quietly(read_fixes(herd_with_outliers()))
  some <- do.call(c, ranges_of_each(fixes)[1:2])
  gone <- setdiff(unique(fixes$animal), names(some))
  expect_equal(sum(some$left_out$fixes[some$left_out$animal == gone]), sum(herd_of_three()$animal == gone))
  other <- cbind(walk("fox", 50, 8), visible = FALSE)
  more <- quietly(home_range(rbind(other, cbind(walk("elk", 40, 9), visible = TRUE))))
  both <- c(do.call(c, ranges_of_each(fixes)), more)
  expect_equal(summary(both)$left_out[summary(both)$animal == "fox"][1], 1 + 50)
  expect_equal(sum(both$left_out$fixes), 3 + 50)
})

test_that("what was left out of parts is missing where it is not known", {
  skip_without_split()
  fixes <- quietly(read_fixes(herd_with_outliers()))
  named <- fixes
  named$animal[named$animal == "fox"] <- "vixen"
  twice <- list(quietly(home_range(named[named$animal == "vixen", ])), quietly(home_range(fixes[fixes$animal == "fox", ])))
  for (parts in list(ranges_of_each(named), twice)) {
    both <- do.call(c, parts)
    expect_true(all(is.na(summary(both)$left_out)))
    said <- "what was left out of all these ranges is not known: bind their fixes"
    expect_error(homerange_left_out(both), said, class = "homerange_option_error")
    expect_false(any(grepl("left out", format(both))))
  }
  page <- file.path(local_folder(), "page.html")
  write_page(do.call(c, ranges_of_each(named)), page)
  expect_match(paste(readLines(page), collapse = ""), "How many fixes were left out is not known.", fixed = TRUE)
})

test_that("fixes that were read again are of their first reading", {
  skip_without_split()
  fixes <- quietly(read_fixes(herd_with_outliers()))
  again <- quietly(read_fixes(fixes[fixes$animal == "NA", ], every = "2h"))
  rest <- quietly(home_range(fixes[fixes$animal != "NA", ]))
  both <- c(rest, quietly(home_range(again)))
  expect_equal(sum(both$left_out$fixes) + sum(both$animals$fixes), nrow(herd_of_three()))
  expect_equal(unique(summary(both)[c("animal", "left_out")])$left_out, c(1, 0, 90 - nrow(again)))
})

test_that("reports of one record count what it has once", {
  skip_without_split()
  folder <- local_folder()
  herd <- herd_with_outliers()
  herd <- herd[herd$animal != "alter Keiler \u00e4\u6f22", ]
  utils::write.csv(herd, file.path(folder, "herd.csv"), row.names = FALSE)
  into <- file.path(folder, "tracks")
  expect_null(run_split(file.path(folder, "herd.csv"), character(), into))
  report <- function(animal) {
    path <- file.path(folder, paste0(animal, ".txt"))
    program <- system2(homerange_program(), shQuote(file.path(into, paste0(animal, ".csv"))), stdout = path)
    read_report(path, record = file.path(into, "split.txt"))
  }
  both <- c(report("fox"), report("NA"))
  expect_equal(sum(both$left_out$fixes), 3)
  expect_equal(unique(summary(both)[c("animal", "left_out")])$left_out, c(1, 2))
})
