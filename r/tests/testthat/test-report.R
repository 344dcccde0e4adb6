# Reports that were made elsewhere.

written <- function(lines, frame = parent.frame()) {
  path <- file.path(local_folder(frame), "report.txt")
  writeLines(enc2utf8(lines), path, useBytes = TRUE)
  path
}

# The report of a square of 200 units that is made of four fixes, and of a fix in it, worked out by hand.
square <- c(
  "animal,NA,fixes,4", "box,NA,0,0,200,200", "row,NA,1,10,1,0", "row,NA,2,20,2,0", "row,NA,3,30,3,40000",
  "row,NA,4,40,4,80000", "corner,NA,1,0,0", "corner,NA,2,200,0", "corner,NA,3,200,200", "corner,NA,4,0,200",
  "percent,NA,50,2,2,0", "percent,NA,100,4,4,80000", "animal,Ha\u0219e,fixes,1", "box,Ha\u0219e,7,8,7,8",
  "row,Ha\u0219e,1,5,1,0", "corner,Ha\u0219e,1,7,8", "percent,Ha\u0219e,50,1,1,0", "percent,Ha\u0219e,100,1,1,0",
  "overlap,NA,Ha\u0219e,0,4", "overlap,Ha\u0219e,NA,1,1", "end,2"
)

test_that("a report is read", {
  ranges <- read_report(written(square))
  areas <- summary(ranges)
  expect_identical(areas$animal, rep(c("NA", "Ha\u0219e"), each = 2))
  expect_equal(areas$hectares, c(0, 4, 0, 0))
  expect_equal(areas$kept, c(2, 4, 1, 1))
  expect_equal(areas$first, c(10, 10, 5, 5))
  expect_equal(areas$last, c(40, 40, 5, 5))
  expect_identical(areas$left_out, rep(NA_real_, 4))
  expect_equal(homerange_curve(ranges)$hectares, c(0, 0, 2, 4, 0))
  expect_equal(counts_of_overlap(ranges), matrix(c(4, 1, 0, 1), 2, dimnames = list(c("NA", "Ha\u0219e"), c("NA", "Ha\u0219e"))))
  expect_equal(homerange_corners(ranges)[["NA"]], cbind(easting = c(0, 200, 200, 0), northing = c(0, 0, 200, 200)))
  expect_error(homerange_corners(ranges, 50), "polygons below 100 per cent need the fixes", class = "homerange_option_error")
})

test_that("lines may end as those of other systems do, and numbers have any digits", {
  path <- written(character())
  lines <- sub("row,NA,2,20,2,0", "row,NA,2,0000000000000000000000020,2,0", square)
  writeLines(enc2utf8(lines), path, sep = "\r\n", useBytes = TRUE)
  expect_identical(read_report(path)$rows$second, c(10, 20, 30, 40, 5))
  great <- replace(square, 6, "row,NA,4,9007199254740993,4,80000")
  expect_identical(read_report(written(great))$rows$second[4], 2^53)
})

# The report of an animal that stays at a place for these seconds, which then goes 200 units to the north.
stay <- function(seconds, n = seq_along(seconds)) {
  number <- length(seconds)
  rows <- paste("row,a", n, seconds, c(rep("1,0", number - 1), "2,0"), sep = ",")
  c(paste0("animal,a,fixes,", number), "box,a,7,8,7,208", rows, "corner,a,1,7,8", "corner,a,2,7,208",
    paste0("percent,a,100,", number, ",2,0"), "end,1")
}

test_that("rows that differ in number and second alone are read each by itself", {
  seconds <- cumsum(c(0, rep(c(0, 1, 9, 1000, 99999), 400)))
  rows <- read_report(written(stay(seconds)))$rows
  expect_identical(rows$n, as.numeric(seq_along(seconds)))
  expect_identical(rows$second, seconds)
  expect_identical(rows$corners, c(rep(1, length(seconds) - 1), 2))
  expect_identical(rows$area2, numeric(length(seconds)))
  wrong <- list(c(1:11, 13:2002), c(1:11, 11:2000), c(2:2002), replace(1:2001, 461, 5), replace(1:2001, 12, 120))
  for (n in wrong) {
    expect_error(read_report(written(stay(seconds, n))), "lines are missing, or there twice", class = "homerange_report_error")
  }
  # The digits of 461, if a comma were one: 5 * 100 + (44 - 48) * 10 + 1.
  expect_error(read_report(written(stay(replace(seconds, 461, 1), replace(1:2001, 461, 5)))), "lines are missing, or there twice",
               class = "homerange_report_error")
  other <- sub("row,a,700,", "row,b,700,", stay(seconds))
  expect_error(read_report(written(other)), "line 702 is none of a report there: row,b,700,", class = "homerange_report_error")
})

test_that("the unit is that of the first line", {
  ranges <- read_report(written(c("unit,dm", square)))
  expect_equal(summary(ranges)$hectares[2], 0.04)
  expect_equal(unname(homerange_corners(ranges)[["NA"]][3, ]), c(20, 20))
})

test_that("seconds become times from a start", {
  start <- as.POSIXct("2024-05-01", tz = "UTC")
  expect_identical(summary(read_report(written(square), start))$last[1], start + 40)
  expect_error(read_report(written(square), "2024-05-01"), class = "homerange_option_error")
})

test_that("what is no whole report is refused", {
  refused <- function(lines, message) {
    expect_error(read_report(written(lines)), message, class = "homerange_report_error")
  }
  refused(square[-21], "is cut off: its last line is not 'end,' with the number of animals")
  refused(character(), "is cut off: its last line is not")
  refused(replace(square, 21, "end,3"), "it has 2 animals, and its last line says 3")
  refused(replace(square, 21, "end,"), "is cut off: its last line is not")
  refused("end,0", "it has no animals")
  for (line in c(1:20)) refused(square[-line], "")
  for (line in c(1:20)) refused(square[c(seq_len(line), line:21)], "")
  refused(replace(square, 3, "row,NA,1,10,1"), "line 3 is none of a report there: row,NA,1,10,1$")
  refused(replace(square, 3, "line,NA,1,10,1"), "line 3 is none")
  refused(c("unit,dm", replace(square, 3, "row")), "line 4 is none")
  refused(replace(square, 6, "row,NA,4,40,4,8e4"), "line 6 is none of a report there: row,NA,4,40,4,8e4$")
  refused(square[c(1:6, 8, 7, 9:21)], "lines are missing, or there twice")
  refused(square[c(1:2, 7, 3:6, 8:21)], "line 4 is none of a report there: row,NA,1,10,1,0$")
  refused(c(square[19:20], square[-(19:20)]), "line 3 is none of a report there: animal,NA,fixes,4$")
  refused(c(square, "", ""), "is cut off: its last line is not")
  refused(sub("Ha\u0219e", "NA", square), "an animal is there twice")
  refused(replace(square, 15, "row,Hare,1,5,1,0"), "line 15 is none of a report there: row,Hare,1,5,1,0$")
  refused(replace(square, 19, "overlap,NA,Hare,0,4"), "an animal that has no line animal")
  expect_error(read_report(tempfile()), "there is no such file", class = "homerange_file_error")
  expect_error(read_report(c("a", "b")), class = "homerange_option_error")
})

test_that("a report of the program reads as its run", {
  skip_without_program()
  fixes <- herd_of_three()
  ranges <- quietly(home_range(fixes, levels = c(95, 50)))
  report <- in_folder(function(folder) {
    files <- file.path(folder, c("1.csv", "2.csv", "3.csv"))
    tracks <- split(ranges$fixes, factor(ranges$fixes$animal, ranges$animals$animal))
    for (at in 1:3) {
      lines <- sprintf("%s,%.0f,%.0f,%.0f", tracks[[at]]$animal, tracks[[at]]$moment, tracks[[at]]$easting, tracks[[at]]$northing)
      write_lines(files[at], c("animal,second,easting,northing", lines))
    }
    path <- file.path(folder, "report.txt")
    text <- run_program(homerange_program(), files, ranges$animals$animal, c("--percent", "95,50"))
    writeLines(text, path, sep = "", useBytes = TRUE)
    read_report(path)
  })
  expect_equal(summary(report)[-5], summary(ranges)[-5])
  expect_identical(homerange_curve(report), homerange_curve(ranges))
  expect_identical(homerange_overlap(report), homerange_overlap(ranges))
  expect_identical(homerange_corners(report), homerange_corners(ranges))
})

test_that("files that are no tracks are refused in one line", {
  folder <- local_folder()
  writeLines(c("unit,m", "zone,none", "track,a,1,1", "left,a,1,every,2,3"), file.path(folder, "split.txt"))
  expect_error(read_track(file.path(folder, "split.txt")), "has no fix with animal, second, easting and northing", class = "homerange_text_error")
  expect_error(read_track(folder), "is a folder: name its files, as by list.files", class = "homerange_file_error")
})

# What python/homerange/report.py refuses.
test_that("reports that contradict themselves are refused as Python's reader refuses them", {
  refused <- function(at, line, said) {
    expect_error(read_report(written(replace(square, at, line))), said, fixed = TRUE, class = "homerange_report_error")
  }
  refused(19, "overlap,NA,Ha\u0219e,5,4", "NA: 5 of 4 fixes, but it has 4")
  refused(19, "overlap,NA,Ha\u0219e,3,3", "NA: 3 of 3 fixes, but it has 4")
  refused(11, "percent,NA,50,2,2,90000", "NA: no polygon of fixes that are kept")
  refused(11, "percent,NA,50,2,3,0", "NA: no polygon of fixes that are kept")
  refused(12, "percent,NA,100,4,4,70000", "NA: all are kept, but it is not the last row")
  refused(12, "percent,NA,100,4,3,80000", "NA: all are kept, but it is not the last row")
  refused(11, "percent,NA,50,3,2,0", "NA: 3 fixes are not 50 percent")
  refused(4, "row,NA,2,9,2,0", "NA: seconds or areas fall")
  refused(5, "row,NA,3,30,3,90000", "NA: seconds or areas fall")
  refused(2, "box,NA,0,0,200,201", "NA: the corners are not of the box")
  refused(8, "corner,NA,2,201,0", "NA: the corners are not of the box")
  refused(c(9, 2), c("corner,NA,3,200,190", "box,NA,0,0,200,200"), "NA: the corners are not of the area")
  refused(7:10, paste0("corner,NA,", 1:4, c(",200,0", ",200,200", ",0,200", ",0,0")), "NA: the first corner is not the westernmost")
  refused(8:9, c("corner,NA,2,200,200", "corner,NA,3,200,0"), "NA: the corners are not of the area")
  refused(16:17, c("corner,Ha\u0219e,1,7,8", "percent,Ha\u0219e,60,1,1,0"), "lines are missing, or there twice")
  refused(19:20, square[20:19], "lines are missing, or there twice")
  long <- strrep("a", 33)
  expect_error(read_report(written(gsub("NA", long, square))), paste(long, "is no name of an animal"), class = "homerange_report_error")
  # A pentagon whose last corner lies within the square of the others: of the area that the corners have, and not convex.
  dented <- c("animal,a,fixes,5", "box,a,0,0,200,200", paste0("row,a,", 1:4, ",", 1:4, ",", 1:4, ",0"), "row,a,5,5,5,60000",
              paste0("corner,a,", 1:5, c(",0,0", ",200,0", ",200,200", ",0,200", ",50,100")), "percent,a,100,5,5,60000", "end,1")
  expect_equal(doubled_ring(c(0, 200, 200, 0, 50), c(0, 0, 200, 200, 100)), 70000)
  said <- "a: the corners are not those of a convex polygon"
  expect_error(read_report(written(gsub("60000", "70000", dented))), said, class = "homerange_report_error")
  # Seconds may begin anew with another animal.
  expect_s3_class(read_report(written(square)), "home_range")
})

test_that("a report in UTF-16 is said to be none in UTF-8", {
  path <- file.path(local_folder(), "report.txt")
  for (coding in c("UTF-16LE", "UTF-16BE", "UTF-16")) {
    writeBin(iconv("animal,fox,fixes,1\nend,1\n", "UTF-8", coding, toRaw = TRUE)[[1]], path)
    expect_error(read_report(path), "is no text in UTF-8: it has a byte 0, as files in UTF-16 have: write it in UTF-8", fixed = TRUE,
                 class = "homerange_text_error")
  }
})

test_that("the shift of a report that is read without its record is said, where that lies beside its files", {
  skip_without_program()
  folder <- local_folder()
  table <- data.frame(animal = "fox", second = 60 * 0:3, x = c(-744000, -743500, -743500, -744000), y = c(-1044000, -1044000, -1043500, -1043500))
  own <- file.path(folder, "own.csv")
  utils::write.csv(table, own, row.names = FALSE)
  tracks <- file.path(folder, "tracks")
  expect_null(run_split(own, character(), tracks))
  report <- file.path(folder, "report.txt")
  write_report(quietly(home_range(table, 100)), report)
  path <- file.path(tracks, "split.txt")
  said <- paste0("homerange: coordinates are shifted by 1000000 m east and 2000000 m north, as ", path, " has it, and lie so here: name it, as by record = \"",
                 path, "\"")
  files <- file.path(tracks, "fox.csv")
  expect_message(read_report(report, files = files), said, fixed = TRUE, class = "homerange_moved_note")
  expect_silent(read_report(report))
  expect_silent(ranges <- read_report(report, files = files, record = path))
  expect_identical(range(homerange_corners(ranges)[["fox"]][, "easting"]), c(-744000, -743500))
  file.copy(path, file.path(folder, "split.txt"))
  expect_message(read_report(report), "and lie so here: name it", class = "homerange_moved_note")
  for (lines in list(sub("fox", "hare", readLines(path)), grep("^shift", readLines(path), value = TRUE, invert = TRUE), "none")) {
    writeLines(lines, file.path(folder, "split.txt"))
    expect_silent(read_report(report))
  }
})
