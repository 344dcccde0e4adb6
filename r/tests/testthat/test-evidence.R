# The folder that is handed in: its files, tables by hand, what the verifier of the repository says, and what is refused.

# Three animals whose tables can be worked out by hand, one of them with a name that no file has.
fixes_by_hand <- function() {
  fixes <- data.frame(animal = c(rep("old/boar", 5), "vixen", "vixen", "one"),
                      time = as.POSIXct("2024-05-01", tz = "UTC") + 1800 * c(0, 1, 2, 4, 9, 0, 1, 3),
                      easting = c(562000, 562200, 562200, 562000, 562900, 562050, 562400, 562100),
                      northing = c(5134000, 5134000, 5134200, 5134200, 5134900, 5134050, 5134400, 5134100))
  fixes$visible <- fixes$easting < 562900
  fixes
}

ranges_by_hand <- function(levels = c(100, 75)) {
  skip_without_program()
  quietly(home_range(fixes_by_hand(), levels = levels, zone = if (requireNamespace("sf", quietly = TRUE)) "33N"))
}

# The record of a folder's tracks, but for what made them.
record_of <- function(folder) {
  lines <- readLines(file.path(folder, "tracks", "split.txt"), encoding = "UTF-8")
  lines[!startsWith(lines, "tool,")]
}

# Evidence in a folder that is gone when the test ends.
local_evidence <- function(ranges, frame = parent.frame()) {
  folder <- file.path(local_folder(frame), "hand-in")
  quietly(homerange_evidence(ranges, folder))
  folder
}

about_of <- function(folder) {
  lines <- readLines(file.path(folder, "evidence.txt"), encoding = "UTF-8")
  `names<-`(sub("^[^:]*: ", "", lines), sub(": .*", "", lines))
}

# What the verifier says, with its status.
verified <- function(folder, export = NULL) {
  named <- Sys.getenv("HOMERANGE_VERIFIER")
  verifier <- if (nzchar(named)) named else file.path(dirname(dirname(homerange_program())), "tools", "verify.py")
  skip_if_not(nzchar(Sys.which("python3")) && file.exists(verifier), "the verifier of the repository")
  words <- shQuote(c(verifier, folder, export, "--program", homerange_program()))
  suppressWarnings(system2("python3", words, stdout = TRUE, env = "PYTHONDONTWRITEBYTECODE=1"))
}

test_that("evidence has fixes, report, record, tables and checksums", {
  ranges <- ranges_by_hand()
  folder <- local_evidence(ranges)
  files <- setdiff(list.files(folder, recursive = TRUE), c("ranges.gpkg", "build.log"))
  wanted <- c("SHA256SUMS", "animals.csv", "evidence.txt", "overlaps.csv", "report.html", "report.txt",
              "summary.csv", "tracks/old_boar.csv", "tracks/one.csv", "tracks/split.txt", "tracks/vixen.csv")
  expect_setequal(files, wanted)
  expect_identical(file.exists(file.path(folder, "ranges.gpkg")), requireNamespace("sf", quietly = TRUE))
  expect_identical(system(paste("cd", shQuote(folder), "&& sha256sum -c --strict --quiet SHA256SUMS")), 0L)
  sums <- readLines(file.path(folder, "SHA256SUMS"))
  expect_identical(substring(sums, 67), sort(setdiff(list.files(folder, recursive = TRUE), "SHA256SUMS"), method = "radix"))
  expect_identical(readLines(file.path(folder, "tracks", "vixen.csv")),
                   c("animal,second,easting,northing", "vixen,1714521600,562050,5134050", "vixen,1714523400,562400,5134400"))
  about <- about_of(folder)
  expect_identical(about[["arguments"]],
                   "--percent 100,75 --unit m -- tracks/old_boar.csv tracks/one.csv tracks/vixen.csv")
  expect_match(about[["program"]], "^homerange [0-9]")
  expect_match(about[["made"]], "^20[0-9-]{8}T[0-9:]{8}Z$")
  expect_identical(about[c("form", "unit", "levels", "runs")], c(form = "2", unit = "m", levels = "100,75", runs = "1"))
  expect_identical(about[["export"]], "fixes.csv")
  expect_false(any(c("notes", "zone", "shift", "crs") %in% names(about)))
})

test_that("its tracks have a record", {
  folder <- local_evidence(ranges_by_hand())
  sums <- checksums_of(file.path(folder, "tracks"))
  has_sf <- requireNamespace("sf", quietly = TRUE)
  # By PROJ the middle of the box is 15.8 E and 46.4 N.
  box <- "said,columns: animal, time, easting, northing; 3 animals, box 0.400 by 0.400 km"
  text <- paste0("animal,time,easting,northing,visible\n", paste0(
    rep(c("old/boar", "vixen", "one"), c(5, 2, 1)), ",2024-05-01T", c("00:00", "00:30", "01:00", "02:00", "04:30", "00:00", "00:30", "01:30"),
    ":00Z,", c(562000, 562200, 562200, 562000, 562900, 562050, 562400, 562100), ",",
    c(5134000, 5134000, 5134200, 5134200, 5134900, 5134050, 5134400, 5134100), ",", c("true", "false")[1 + (1:8 == 5)], "\n", collapse = ""))
  file <- file.path(local_folder(), "fixes.csv")
  cat(text, file = file)
  expect_identical(record_of(folder), c(
    "export,fixes.csv", paste0("sha256,", substr(system2("sha256sum", shQuote(file), stdout = TRUE), 1, 64)),
    "unit,m", if (has_sf) c("zone,33N", "option,zone,33N") else "zone,none", "said,1 outliers: left out",
    paste("said,coordinates are those of the table; zone:", if (has_sf) "33N" else "not known"),
    paste0(box, if (has_sf) " near 15.8 E 46.4 N", ", from 2024-05-01 to 2024-05-01"), "said,animal 'old/boar' is named old_boar",
    "left,old_boar,1,outlier", paste0("track,old_boar,4,4,", sums[["old_boar.csv"]]), paste0("track,vixen,2,2,", sums[["vixen.csv"]]),
    paste0("track,one,1,1,", sums[["one.csv"]])
  ))
  lines <- readLines(file.path(folder, "tracks", "split.txt"))
  expect_match(lines[length(lines)], "^tool,homerange-split [0-9.]+ \\(logic [0-9a-f]{16}\\)$")
  expect_identical(read_record(file.path(folder, "tracks", "split.txt"))$options, if (has_sf) list(zone = "33N") else list())
})

test_that("evidence of fixes that were filtered or bound is of their second reading, and of those of a file of its record", {
  skip_without_split()
  path <- file.path(local_folder(), "export.csv")
  table <- transform(fixes_by_hand(), time = format(time, "%Y-%m-%d %H:%M:%S"))
  write.csv(table, path, row.names = FALSE)
  fixes <- read_fixes(path, quiet = TRUE)
  whole <- record_of(local_evidence(quietly(home_range(fixes, 100))))
  expect_identical(whole[1], "export,export.csv")
  expect_identical(whole, facts_of(fixes)$record[!startsWith(facts_of(fixes)$record, "tool,")])
  some <- local_evidence(quietly(home_range(fixes[-1, ], 100)))
  expect_identical(record_of(some)[1], "export,fixes.csv")
  expect_identical(readLines(file.path(some, "tracks", "old_boar.csv"))[-1],
                   c("old_boar,1714523400,562200,5134000", "old_boar,1714525200,562200,5134200", "old_boar,1714528800,562000,5134200"))
  expect_identical(attr(verified(some), "status"), 3L)
  again <- rbind(fixes[fixes$animal == "vixen", ], fixes[fixes$animal != "vixen", ])
  expect_identical(record_of(local_evidence(quietly(home_range(again, 100))))[1], "export,fixes.csv")
  both <- rbind(fixes, read_fixes(path, since = "2024-05-01", quiet = TRUE)[7, ])
  expect_identical(record_of(local_evidence(quietly(home_range(both, 100))))[1], "export,fixes.csv")
  moved <- transform_fixes(fixes[fixes$animal != "one", ], "easting", fixes$easting[fixes$animal != "one"] - 3e6)
  expect_identical(grep("^shift,", record_of(local_evidence(quietly(home_range(moved, 100)))), value = TRUE), "shift,3000000,0")
})

test_that("a folder may be named from where the session stands", {
  skip_without_program()
  old <- setwd(local_folder())
  on.exit(setwd(old))
  homerange_evidence(quietly(home_range(walk("fox", 9, 1))), "hand-in")
  expect_true(file.exists("hand-in/report.txt"))
})

test_that("names that Windows cannot tell apart or hold are others in files", {
  skip_without_program()
  fixes <- rbind(walk("Fox", 9, 1), walk("con", 9, 2), walk("FOX_2", 2, 3), walk("fox", 9, 4))
  fixes$visible <- fixes$animal != "FOX_2"
  folder <- file.path(local_folder(), "hand-in")
  ranges <- quietly(home_range(fixes))
  renamed <- c("animal 'con' is named _con", "animal 'fox' is named fox_3")
  said <- capture_messages(homerange_evidence(ranges, folder))
  expect_identical(said, paste0("homerange: ", renamed, "\n"))
  lines <- record_of(folder)
  expect_identical(grep("is named", lines, value = TRUE), paste0("said,", renamed))
  expect_identical(grep("^left,", lines, value = TRUE), "left,FOX_2,2,outlier")
  expect_identical(sub("^track,([^,]*),.*", "\\1", grep("^track,", lines, value = TRUE)), c("Fox", "_con", "fox_3"))
  expect_setequal(list.files(file.path(folder, "tracks")), c("Fox.csv", "_con.csv", "fox_3.csv", "split.txt"))
})

test_that("a name is no formula in tables", {
  skip_without_program()
  names <- c("=1+1", "+7", "-7", "@sum", "'quoted", "it's", "a=b")
  folder <- local_evidence(quietly(home_range(do.call(rbind, Map(walk, names, 9, seq_along(names))))))
  cells <- c("''quoted", "'+7", "'-7", "'=1+1", "'@sum", "a=b", "it's")  # in the order of files
  first <- function(table) unique(sub(",.*", "", readLines(file.path(folder, table))[-1]))
  for (table in c("summary.csv", "animals.csv", "overlaps.csv")) expect_identical(first(table), cells)
  expect_identical(readLines(file.path(folder, "overlaps.csv"), 1), paste(c("fixes_of", cells), collapse = ","))
  expect_true("animal,=1+1,fixes,9" %in% readLines(file.path(folder, "report.txt")))
  expect_false(any(grepl("did not hold", verified(folder))))
})

test_that("a definition of a UTM zone is refused, and its code is taken", {
  skip_without_program()
  skip_if_not_installed("sf")
  for (crs in c("+proj=utm +zone=33 +datum=WGS84", "+proj=utm +zone=12 +datum=NAD83 +units=m")) {
    ranges <- quietly(home_range(walk("a", 40, 1), crs = crs))
    folder <- file.path(tempdir(), "defined")
    expect_error(homerange_evidence(ranges, folder), "name it by its code, as by home_range(x, crs = 32633)", fixed = TRUE, class = "homerange_crs_error")
    expect_false(file.exists(folder))
  }
  expect_true(dir.exists(local_evidence(quietly(home_range(walk("a", 40, 1), crs = 26912)))))
})

test_that("another reference system than that of a zone is in the record", {
  skip_without_program()
  skip_if_not_installed("sf")
  folder <- local_evidence(quietly(home_range(walk("a", 40, 1, at = c(4321000, 3210000)), crs = 3035)))
  expect_identical(record_of(folder)[3:5],
                   c("unit,m", "zone,none", "option,crs,EPSG:3035 (ETRS89-extended / LAEA Europe)"))
  said <- verified(folder)
  expect_identical(attr(said, "status"), 3L)
  expect_true(any(startsWith(said, "held: ranges.gpkg: made again it has the same layers")))
  expect_identical(text_of_crs(sf::st_crs(32733)), "EPSG:32733 (WGS 84 / UTM zone 33S)")
})

test_that("the log of a program that was built here goes with it", {
  skip_without_program()
  built <- local_folder()
  program <- file.path(built, "homerange")
  file.copy(homerange_program(), program)
  file.symlink(c(split_program(), page_program()), file.path(built, c("homerange-split", "homerange-page")))
  writeLines("rt: homerange proved", file.path(built, "build.log"))
  old <- options(homerange.program = program)
  on.exit(options(old), add = TRUE, after = FALSE)
  folder <- local_evidence(ranges_by_hand())
  expect_identical(readLines(file.path(folder, "build.log")), "rt: homerange proved")
  expect_true(any(endsWith(readLines(file.path(folder, "SHA256SUMS")), "  build.log")))
})

test_that("its tables are those worked out by hand", {
  folder <- local_evidence(ranges_by_hand())
  expect_identical(readLines(file.path(folder, "summary.csv")), c(
    "animal,first,last,fixes,level,kept,corners,hectares",
    "old_boar,2024-05-01T00:00:00Z,2024-05-01T02:00:00Z,4,100,4,4,4.0",
    "old_boar,2024-05-01T00:00:00Z,2024-05-01T02:00:00Z,4,75,3,3,2.0",
    "one,2024-05-01T01:30:00Z,2024-05-01T01:30:00Z,1,100,1,1,0.0",
    "one,2024-05-01T01:30:00Z,2024-05-01T01:30:00Z,1,75,1,1,0.0",
    "vixen,2024-05-01T00:00:00Z,2024-05-01T00:30:00Z,2,100,2,2,0.0",
    "vixen,2024-05-01T00:00:00Z,2024-05-01T00:30:00Z,2,75,2,2,0.0"
  ))
  # The square of the boar has half of its area after three fixes, and all of it after the fourth, the last.
  expect_identical(readLines(file.path(folder, "animals.csv")), c(
    paste0("animal,records,left_outlier,used,first,last,days,median_hours,longest_hours,hectares_100,hectares_75,",
           "within_95_fix,within_95_time,last_tenth,last_quarter"),
    paste0("old_boar,5,1,4,2024-05-01T00:00:00Z,2024-05-01T02:00:00Z,0.0833,0.5,1.0,4.0,2.0,",
           "4,2024-05-01T02:00:00Z,0.5,0.5"),
    "one,1,0,1,2024-05-01T01:30:00Z,2024-05-01T01:30:00Z,0.0,,,0.0,0.0,,,,",
    "vixen,2,0,2,2024-05-01T00:00:00Z,2024-05-01T00:30:00Z,0.0208,0.5,0.5,0.0,0.0,,,,"
  ))
  # One fix of the vixen lies in the square, and the one of `one`; that and a corner of the square lie on the vixen's line.
  expect_identical(readLines(file.path(folder, "overlaps.csv")), c(
    "fixes_of,old_boar,one,vixen", "old_boar,1.0,0.0,0.25", "one,1.0,1.0,1.0", "vixen,0.5,0.0,1.0"
  ))
})

test_that("layers have the polygons with an area", {
  skip_if_not_installed("sf")
  ranges <- ranges_by_hand()
  expect_message(homerange_evidence(ranges, folder <- file.path(local_folder(), "hand-in")),
                 "not in ranges.gpkg, since they have no area at 75 %: one, vixen", fixed = TRUE, class = "homerange_left_out_note")
  path <- file.path(folder, "ranges.gpkg")
  expect_identical(sf::st_layers(path)$name, c("ranges", "fixes", "layer_styles"))
  layer <- sf::st_read(path, "ranges", quiet = TRUE)
  layer <- layer[layer$level == 75, ]
  expect_identical(as.list(sf::st_drop_geometry(layer)[c("animal", "level", "fixes", "kept", "corners", "hectares", "unit")]),
                   list(animal = "old_boar", level = 75L, fixes = 4L, kept = 3L, corners = 3L, hectares = 2, unit = "m"))
  expect_equal(as.numeric(sf::st_area(layer)), 20000)
  fixes <- sf::st_read(path, "fixes", quiet = TRUE)
  expect_identical(fixes$n, unlist(lapply(table(factor(fixes$animal, unique(fixes$animal))), seq_len), use.names = FALSE))
  expect_identical(as.numeric(fixes$time[fixes$animal == "vixen"]), c(1714521600, 1714523400))
  expect_identical(unname(sf::st_coordinates(fixes)[fixes$animal == "vixen", ]), rbind(c(562050, 5134050), c(562400, 5134400)))
  again <- file.path(local_folder(), "again.gpkg")
  Sys.sleep(1.1)
  quietly(write_layers(ranges_of_report(ranges, folder, names_of_files(ranges), NULL), again))
  expect_identical(readBin(again, "raw", file.size(again)), readBin(path, "raw", file.size(path)))
  expect_identical(sf::st_crs(layer)$epsg, 32633L)
})

test_that("the verifier holds it, but for the export", {
  skip_without_program()
  said <- verified(local_evidence(ranges_by_hand()))
  expect_identical(attr(said, "status"), 3L)
  expect_false(any(startsWith(said, "did not hold")))
  expect_match(grep("^not looked at", said, value = TRUE), "^not looked at: whether the tracks are those of ")
  expect_true("held: run again the program makes the same report, byte for byte" %in% said)
  for (part in c("animals.csv", "report.html")) expect_true(any(startsWith(said, "held") & grepl(part, said, fixed = TRUE)))
  folder <- local_evidence(ranges_by_hand())
  cat("more\n", file = file.path(folder, "summary.csv"), append = TRUE)
  expect_identical(attr(verified(folder), "status"), 1L)
})

test_that("the verifier holds odd names, decimetres, grids of one's own, and more animals than a run takes", {
  skip_without_program()
  odd <- rbind(walk("\u017diga \u00c4, it's", 40, 1, at = c(-50, 20)), walk("a b", 9, 2, at = c(0, 0)), walk("a", 9, 3, at = c(9, 9)))
  odd$easting <- odd$easting + 0.1
  folder <- local_evidence(quietly(home_range(odd, levels = c(33, 95), unit = "dm")))
  expect_match(record_of(folder)[5], "^shift,[0-9]+,[0-9]+$")
  expect_match(about_of(folder)[["arguments"]],
               "-- 'tracks/a b.csv' tracks/a.csv 'tracks/\u017diga \u00c4_ it'\"'\"'s.csv'", fixed = TRUE)
  expect_identical(attr(verified(folder), "status"), 3L)
  many <- do.call(rbind, lapply(1:70, function(at) walk(paste0("deer", at), 5, at)))
  for (unit in c("m", "dm")) {
    folder <- local_evidence(quietly(home_range(many, levels = 95, unit = unit)))
    expect_identical(about_of(folder)[["runs"]], "6 of groups of 32 animals")
    expect_identical(attr(verified(folder), "status"), 3L)
  }
})

# The export of the repository, its tracks in a folder, and their report.
split_by_hand <- function(frame = parent.frame()) {
  skip_without_split()
  export <- file.path(dirname(dirname(homerange_program())), "examples", "export.csv")
  named <- Sys.getenv("HOMERANGE_VERIFIER")
  if (nzchar(named)) export <- file.path(dirname(dirname(named)), "examples", "export.csv")
  skip_if_not(file.exists(export), "the export of the repository")
  folder <- local_folder(frame)
  into <- file.path(folder, "tracks")
  system2(split_program(), c("--into", shQuote(into), shQuote(export)), stderr = FALSE)
  files <- list.files(file.path(folder, "tracks"), "[.]csv$", full.names = TRUE)
  report <- file.path(folder, "report.txt")
  system2(homerange_program(), c("--percent", "95,100", shQuote(rev(files))), stdout = report)
  list(export = export, report = report, files = files, record = file.path(folder, "tracks", "split.txt"))
}

test_that("evidence of a report and its files is held with the export", {
  skip_without_program()
  own <- split_by_hand()
  ranges <- read_report(own$report, files = own$files, record = own$record)
  expect_identical(homerange_left_out(ranges), data.frame(animal = "vixen", reason = "coordinates", fixes = 1))
  expect_identical(ranges$zone, "33N")
  folder <- local_evidence(ranges)
  expect_identical(about_of(folder)[["export"]], "export.csv")
  expect_identical(readLines(file.path(folder, "tracks", "split.txt")), readLines(own$record))
  said <- verified(folder, own$export)
  expect_null(attr(said, "status"), info = said)
  # The record beside the files goes with them too, and one from elsewhere.
  expect_null(attr(verified(local_evidence(read_report(own$report, files = own$files)), own$export), "status"))
  elsewhere <- file.path(local_folder(), "record.txt")
  file.rename(own$record, elsewhere)
  expect_null(attr(verified(local_evidence(read_report(own$report, files = own$files, record = elsewhere)), own$export), "status"))
})

test_that("evidence of the files of a frame has its record", {
  skip_without_program()
  first <- local_evidence(ranges_by_hand())
  tracks <- file.path(first, "tracks")
  ranges <- read_report(file.path(first, "report.txt"), files = list.files(tracks, "csv$", full.names = TRUE),
                        record = file.path(tracks, "split.txt"))
  expect_identical(as.list(homerange_left_out(ranges)), list(animal = "old_boar", reason = "outlier", fixes = 1))
  again <- local_evidence(ranges)
  expect_identical(record_of(again), record_of(first))
  expect_identical(attr(verified(again), "status"), 3L)
})

test_that("a record of another run is refused, and a folder for a file", {
  skip_without_program()
  table <- fixes_by_hand()
  folder_of <- function(table, ...) local_evidence(quietly(home_range(table, 100, ...)), parent.frame())
  own <- folder_of(table)
  files <- list.files(file.path(own, "tracks"), "csv$", full.names = TRUE)
  read <- function(record, files = NULL) read_report(file.path(own, "report.txt"), files = files, record = file.path(record, "tracks", "split.txt"))
  refused <- function(call, text) expect_error(call, text, class = "homerange_text_error")
  expect_identical(names(read(own, files)), names(read(own)))
  refused(read(folder_of(table[-8, ])), "the report has 1 fixes of one, and split.txt has 0: was a track changed, or left out[?]$")
  refused(read(folder_of(table[-1, ])), "the report has 4 fixes of old_boar, and split.txt has 3")
  refused(read(folder_of(table, unit = "dm")), "the report is in m, and split.txt in dm: take the record of the tracks of this report$")
  moved <- folder_of(transform(table, northing = northing + (animal == "one")))
  expect_identical(names(read(moved)), names(read(own)))  # of which nothing tells that it is another
  refused(read(moved, files), "no file is the track of one of which split.txt has the checksum: take the record of these files")
  for (call in list(function(path) read_report(path), function(path) read_report(file.path(own, "report.txt"), record = path))) {
    expect_error(call(own), "hand-in is a folder, and a file is wanted$", class = "homerange_file_error")
    expect_error(call(""), "= \"\" is no path: it is empty$", class = "homerange_option_error")
  }
})

test_that("layers of seconds without a date have whole seconds", {
  skip_without_program()
  skip_if_not_installed("sf")
  for (start in c(0, 2^34)) {
    table <- transform(walk("a", 12, 1), second = second + start)
    folder <- local_evidence(quietly(home_range(table, c(50, 100))))
    read <- function(layer) sf::st_read(file.path(folder, "ranges.gpkg"), layer, quiet = TRUE, int64_as_string = TRUE)
    expect_identical(as.character(read("fixes")$time), sprintf("%.0f", table$second))
    expect_identical(as.character(read("ranges")$first), rep(sprintf("%.0f", start), 2))
    said <- verified(folder)
    expect_true(any(startsWith(said, "held: ranges.gpkg: made again it has the same layers")), info = said)
  }
})

test_that("files that are not those of their report or record are refused", {
  skip_without_program()
  own <- split_by_hand()
  into <- file.path(local_folder(), "hand-in")
  refused <- function(call, text, class) {
    expect_error(call, text, class = class)
    expect_length(list.files(dirname(into)), 0)
  }
  expect_error(homerange_evidence(read_report(own$report), into), "evidence needs the fixes", class = "homerange_option_error")
  ranges <- read_report(own$report, files = own$files)
  refused(homerange_evidence(read_report(own$report, files = own$files[1]), into), "no file has the animal",
          "homerange_report_error")
  lines <- readLines(own$files[2])
  writeLines(sub(",562", ",563", lines), own$files[2])
  refused(read_report(own$report, files = own$files), "the polygon of the file of vixen is not that", "homerange_report_error")
  refused(homerange_evidence(ranges, into), "vixen.csv was changed since it was split", "homerange_text_error")
  writeLines(lines[-3], own$files[2])
  refused(read_report(own$report, files = own$files), "the file of vixen has other fixes", "homerange_report_error")
  unlink(own$record)
  refused(homerange_evidence(ranges, into), "reports other numbers", "homerange_check_error")
  writeLines(lines, own$files[2])
  copy <- file.path(local_folder(), basename(own$files[1]))
  file.copy(own$files[1], copy)
  twice <- changed_ranges(ranges, function(x) replace(x, "files", list(c(own$files, copy))))
  refused(homerange_evidence(twice, into), "have the same name", "homerange_name_error")
})

test_that("a record that is none is refused", {
  path <- file.path(local_folder(), "split.txt")
  good <- c("unit,m", "zone,none", "track,a,2,2")
  for (bad in c("left,a,x,outlier", "place,33N", "unit,dm", "shift,1", "unit", "track,a,2")) {
    writeLines(c(good, bad), path)
    expect_error(read_record(path), "line 4 is '.*', which does not fit there", class = "homerange_text_error")
  }
  two <- c("export,a.csv", paste0("sha256,", strrep("a", 64)), "export,b.csv", paste0("sha256,", strrep("b", 64)))
  writeLines(c(two, good), path)
  expect_error(read_record(path), "its tracks are of several exports", class = "homerange_text_error")
  writeLines(good[-1], path)
  expect_error(read_record(path), "has no line 'unit'", class = "homerange_text_error")
  writeLines(c("sha256,0", good), path)
  expect_error(read_record(path), "has no line 'export'", class = "homerange_text_error")
  expect_error(read_report(1), class = "homerange_option_error")
  report <- system.file("extdata", "report.txt", package = "homerange")
  expect_error(read_report(report, record = path, files = 1), "files = 1 are no paths", class = "homerange_option_error")
  expect_error(read_report(report, record = tempfile()), "there is no such file", class = "homerange_file_error")
  expect_error(read_report(report, files = tempfile()), "there is no such file", class = "homerange_file_error")
})

test_that("ways turn as exact numbers have it", {
  expect_identical(is_right_turn(2^27, 2^27 - 1, c(2^27 - 1, 2^27, 2^27 - 1), c(2^27 - 2, 2^27 - 1, 2^27 - 1)), c(TRUE, FALSE, FALSE))
  expect_identical(is_right_turn(1, 0, c(0, 0), c(-1, 1)), c(TRUE, FALSE))
})

test_that("files have the animals' names in each locale", {
  skip_without_program()
  ranges <- quietly(home_range(walk("\u010carli", 9, 1)))
  folder <- file.path(local_folder(), "hand-in")
  old <- Sys.getlocale("LC_CTYPE")
  on.exit(Sys.setlocale("LC_CTYPE", old), add = TRUE, after = FALSE)
  Sys.setlocale("LC_CTYPE", "C")
  quietly(homerange_evidence(ranges, folder))
  expect_identical(Sys.getlocale("LC_CTYPE"), "C")
  Sys.setlocale("LC_CTYPE", old)
  expect_identical(list.files(file.path(folder, "tracks")), c("split.txt", "\u010carli.csv"))
})

test_that("what cannot be right is refused, and leaves nothing", {
  ranges <- ranges_by_hand()
  folder <- local_folder()
  into <- file.path(folder, "hand-in")
  report <- read_report(system.file("extdata", "report.txt", package = "homerange"))
  expect_error(homerange_evidence(1, into), "has no ranges: home_range makes them", class = "homerange_option_error")
  expect_error(homerange_evidence(report, into), "evidence needs the fixes", class = "homerange_option_error")
  expect_error(homerange_evidence(ranges, ""), "folder = \"\" is no path", class = "homerange_option_error")
  expect_error(homerange_evidence(ranges, folder), "is there already", class = "homerange_text_error")
  same <- fixes_by_hand()
  same$animal[6:7] <- "old\\boar"
  expect_error(homerange_evidence(quietly(home_range(same)), into), "would both be named old_boar",
               class = "homerange_name_error")
  expect_length(list.files(folder), 0)
})

test_that("programs that lie or change are refused", {
  ranges <- ranges_by_hand()
  real <- shQuote(homerange_program())
  into <- file.path(local_folder(), "hand-in")
  refused <- function(script, text, class) {
    local_program(c(paste("[ \"$1\" != --version ] || exec", real, "--version"), script))
    expect_error(homerange_evidence(ranges, into), text, class = class)
    expect_length(list.files(dirname(into)), 0)
  }
  refused(paste(real, "\"$@\" | sed 's/^percent,old_boar,75,3,3,40000/percent,old_boar,75,3,3,40001/'"), "reports other numbers",
          "homerange_check_error")
  refused(paste(real, "\"$@\" | sed '$d'"), "is cut off", "homerange_report_error")
  refused(c(paste(real, "\"$@\""), "echo 'vixen,1,1,1' >>tracks/vixen.csv"), "tracks/vixen.csv changed while it was read",
          "homerange_text_error")
  refused(c(paste(real, "\"$@\""), "echo '# more' >>\"$0\""), "changed while it ran", "homerange_program_error")
  refused("exit 3", "ended with status 3|no more", "homerange_memory_error")
  local_program("exit 0")
  expect_error(homerange_evidence(ranges, into), "is not homerange", class = "homerange_program_error")
})

test_that("a folder may begin with a hyphen or be of the user's home", {
  skip_without_program()
  ranges <- quietly(home_range(walk("fox", 20, 1), 100))
  old <- setwd(local_folder())
  on.exit(setwd(old))
  expect_identical(quietly(homerange_evidence(ranges, "-x")), "./-x")
  expect_true(file.exists("./-x/report.html"))
  home <- Sys.getenv("HOME")
  on.exit(Sys.setenv(HOME = home), add = TRUE)
  Sys.setenv(HOME = getwd())
  quietly(homerange_evidence(ranges, "~/y"))
  expect_identical(names(read_report("~/y/report.txt", files = "~/y/tracks/fox.csv", record = "~/y/tracks/split.txt")), "fox")
})

test_that("layers are written without a warning in each locale", {
  skip_without_program()
  skip_if_not_installed("sf")
  old <- Sys.getlocale("LC_CTYPE")
  on.exit(Sys.setlocale("LC_CTYPE", old))
  ranges <- quietly(home_range(walk("fox", 20, 1), 100))
  folder <- local_folder()
  locales <- Filter(function(name) nzchar(suppressWarnings(Sys.setlocale("LC_CTYPE", name))), c("tr_TR.UTF-8", "C"))
  for (name in locales) {
    Sys.setlocale("LC_CTYPE", name)
    expect_no_warning(quietly(homerange_evidence(ranges, file.path(folder, paste0("m\u00e4ppe", name)))))
    expect_identical(Sys.getlocale("LC_CTYPE"), name)
  }
})
