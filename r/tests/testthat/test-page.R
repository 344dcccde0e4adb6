# The page by the program homerange-page: its numbers, and what is escaped, worked out by hand; and areas of plots.

page_of <- function(ranges, ...) {
  path <- file.path(local_folder(parent.frame()), "page.html")
  write_page(ranges, path, ...)
  paste(readLines(path, encoding = "UTF-8"), collapse = "\n")
}

example_ranges <- function(...) read_report(system.file("extdata", "report.txt", package = "homerange"), ...)

test_that("a page has the numbers of its report", {
  skip_without_program()
  page <- page_of(example_ranges(start = as.POSIXct("2024-05-01", tz = "UTC")), made = as.Date("2026-11-26"))
  expect_match(page, "<h1><bdi>Home ranges of fox, badger and otter</bdi></h1>", fixed = TRUE)
  expect_match(page, "<span data-field=\"period\">1 to 2 May 2024 (dates of UTC)</span>. Made on 26 Nov 2026 with homerange", fixed = TRUE)
  row <- paste(regmatches(page, gregexpr("<tr data-animal=\"fox\">.*?</tr>", page, perl = TRUE))[[1]], collapse = "")
  for (cell in c("used\">60<", "hectares_100\">55.8<", "hectares_50\">17.4<", "last_quarter\">0.0 %<", "records\">\u2013<",
                 "median_interval\">30 min<", "days\">1.2<")) {
    expect_match(row, paste0("data-field=\"", cell), fixed = TRUE)
  }
  expect_match(page, "reference system not known", fixed = TRUE)
  expect_false(grepl("{{", page, fixed = TRUE))
  expect_identical(lengths(regmatches(page, gregexpr("<figure class=\"of3\">", page))), 3L)
})

test_that("one pair and several that do not meet are said, and animals without a range", {
  skip_without_program()
  herd <- do.call(rbind, lapply(1:3, function(at) walk(letters[at], 9, at, 5, c(560000 + 3000 * at, 5134000))))
  expect_match(page_of(quietly(home_range(herd[herd$animal != "c", ]))), "in the range of another (1 pair).", fixed = TRUE)
  expect_match(page_of(quietly(home_range(herd))), "in the range of another (3 pairs).", fixed = TRUE)
  herd$use <- herd$animal != "c"
  page <- page_of(quietly(home_range(herd)))
  expect_match(page, "none of their fixes is used (fixes of the data): <bdi>c</bdi> (9).", fixed = TRUE)
  expect_match(page, "Of 27 fixes of the data 9 were left out: 9 marked as outliers.", fixed = TRUE)
})

test_that("the command that a page names has no export where none is known", {
  skip_without_program()
  expect_match(page_of(example_ranges()), "<code>python3 tools/verify.py FOLDER</code>", fixed = TRUE)
})

test_that("an export that is called as the text of a table is named, and that of a table is not", {
  skip_without_program()
  folder <- local_folder()
  path <- file.path(folder, "fixes.csv")
  utils::write.csv(deer, path, row.names = FALSE)
  checksum <- sub(" .*", "", system2("sha256sum", shQuote(path), stdout = TRUE))
  of_file <- page_of(quietly(home_range(path)))
  expect_match(of_file, "<th scope=\"row\">Export</th><td><bdi>fixes.csv</bdi></td>", fixed = TRUE)
  expect_match(of_file, checksum, fixed = TRUE)
  of_table <- page_of(quietly(home_range(utils::read.csv(path))))
  expect_no_match(of_table, "fixes.csv", fixed = TRUE)
  expect_no_match(of_table, checksum, fixed = TRUE)
  # Fixes of the file that were changed since are those of a table that is read again.
  fixes <- quietly(read_fixes(path))
  expect_no_match(page_of(quietly(home_range(fixes[-1, ]))), "fixes.csv", fixed = TRUE)
  expect_match(page_of(quietly(home_range(fixes))), checksum, fixed = TRUE)
})

test_that("what is typed in is escaped, and places in it stay", {
  skip_without_program()
  page <- page_of(example_ranges(), title = "{{sentences}} <script>", study = "a & b", by = "M\u202ea", reference = "7 <8",
                  purpose = "permit")
  expect_match(page, "<title>{{sentences}} &lt;script&gt;</title>", fixed = TRUE)
  expect_match(page, "<span>Study: <bdi>a &amp; b</bdi></span> <span>By: <bdi>M\\u202ea</bdi></span> ", fixed = TRUE)
  expect_match(page, "<span>Reference: <bdi>7 &lt;8</bdi></span> <span>Purpose: <bdi>permit</bdi></span> ", fixed = TRUE)
  expect_false(grepl("<script", page, fixed = TRUE))
})

test_that("areas of plots are rounded exactly, halves up", {
  expect_identical(quotient_text(c(1, 5, 2^52), c(2, 10, 1), 0), c("1", "1", "4,503,599,627,370,496"))
  expect_identical(quotient_text(2^53 - 1, 2^53, 2), "1.00")
  expect_identical(vapply(c(0, 19999, 20000, 199900, 26046000, 2), area_text, "", "m"),
                   c("0", "10,000 m\u00b2", "1.00", "10.00", "1,302", "1.00 m\u00b2"))
})

test_that("steps of axes are round", {
  expect_identical(step_text(step_of(7, 4), 3), "6")
  expect_identical(step_text(step_of(0.07, 4), 3), "0.06")
  expect_identical(step_text(step_of(7e6, 4), -3), "-6,000,000")
})

test_that("a ring of a boundary begins in the west, whichever way it went", {
  ring <- rbind(c(2, 0), c(2, 2), c(0, 2), c(0, 0), c(2, 0))
  expected <- rbind(c(0, 0), c(0, 2), c(2, 2), c(2, 0))
  expect_equal(ring_in_order(ring), expected)
  expect_equal(ring_in_order(ring[5:1, ]), expected)
})

test_that("a boundary is on the map", {
  skip_without_program()
  skip_if_not_installed("sf")
  ranges <- quietly(home_range(deer))
  box <- sf::st_as_sfc(sf::st_bbox(c(xmin = 560000, ymin = 5132000, xmax = 564000, ymax = 5136000), crs = 32633))
  page <- page_of(ranges, reserve = box, reserve_name = "Park <1>")
  expect_match(page, "<path class=\"boundary\" d=\"M", fixed = TRUE)
  expect_match(page, "<bdi>Park &lt;1&gt;</bdi>", fixed = TRUE)
  expect_match(page, "EPSG:32633 (WGS 84 / UTM zone 33N)", fixed = TRUE)
})

test_that("what cannot be right is refused", {
  expect_error(write_page(1, "page.html"), "has no ranges: home_range makes them", class = "homerange_option_error")
  expect_error(write_page(example_ranges(), ""), "path = \"\" is no path", class = "homerange_option_error")
  for (path in c("fixes.csv", "page", "html")) {
    expect_error(write_page(example_ranges(), path), paste0("path = \"", path, "\": a name that ends in .html or .htm is wanted"), fixed = TRUE,
                 class = "homerange_option_error")
  }
  expect_error(write_page(example_ranges(), "page.html", overwrite = 1), "overwrite = 1 is neither TRUE nor FALSE", class = "homerange_option_error")
  for (zone in c("Mars", "localtime", "posixrules", "Factory", "posix/Europe/Paris")) {
    expect_error(write_page(example_ranges(), "page.html", tz = zone), "no time zone", class = "homerange_option_error")
  }
  expect_error(write_page(example_ranges(), "page.html", reserve_name = "Park"), "reserve_name is the name of no reserve",
               class = "homerange_option_error")
})

test_that("a page and a report are written over their like, and over other files if it is said", {
  skip_without_program()
  folder <- local_folder()
  writers <- list(page.HTM = write_page, page.html = write_page, report.txt = write_report)
  for (name in names(writers)) {
    path <- file.path(folder, name)
    file.create(path)
    writers[[name]](example_ranges(), path)
    whole <- readLines(path)
    writers[[name]](example_ranges()["fox"], path)
    expect_false(identical(readLines(path), whole))
    for (other in list(charToRaw("<!DOCTYPE html>\n<html lang=\"en\">\n<title>mine</title>\n"), as.raw(c(80, 75, 0, 4)), charToRaw("animal,second\na,1\n"))) {
      writeBin(other, path)
      expect_error(writers[[name]](example_ranges(), path), paste0("/", name, " is there, and is no (page of write_page|report): name another file, or say overwrite = TRUE$"),
                   class = "homerange_file_error")
      expect_identical(readBin(path, "raw", 1000), other)
    }
    writers[[name]](example_ranges(), path, overwrite = TRUE)
    expect_identical(readLines(path), whole)
  }
})

test_that("a page of some animals is of these alone", {
  skip_without_program()
  ranges <- quietly(home_range(deer))
  page <- page_of(ranges["Asta"])
  expect_match(page, "How many fixes were left out is not known.", fixed = TRUE)
  expect_match(page, "EPSG:32633 (WGS 84 / UTM zone 33N)", fixed = TRUE)
  expect_false(grepl("Bruno", page, fixed = TRUE))
})

test_that("a page of fixes that were changed says so", {
  skip_without_program()
  fixes <- quietly(read_fixes(deer))
  ranges <- quietly(home_range(fixes[-(1:5), ]))
  expect_message(page <- page_of(ranges), "the fixes are not as they were read", class = "homerange_note")
  expect_match(page, paste("\u201cthe fixes are not as they were read: 5 of them were taken away since, and what was left out before is neither in",
                           "the folder nor on its page\u201d"), fixed = TRUE)
})

test_that("of files without a record it is not known what was left out", {
  skip_without_program()
  folder <- file.path(local_folder(), "hand-in")
  quietly(homerange_evidence(quietly(home_range(deer)), folder))
  files <- file.path(folder, "tracks", c("Asta.csv", "Bruno.csv", "Cilla.csv"))
  ranges <- read_report(file.path(folder, "report.txt"), files = files)
  expect_true(all(is.na(summary(ranges)$left_out)))
  expect_null(ranges$left_out)
  expect_match(page_of(ranges), "How many fixes were left out is not known.", fixed = TRUE)
})
