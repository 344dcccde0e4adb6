#!/usr/bin/env -S Rscript --vanilla
# check.R [--percent LIST] [--unit UNIT] REPORT FILE ..: recomputes each line of a report from the files, by base R's chull,
# and says how many lines agree; the status is 0 where all do and none is missing. The levels and the unit are those
# of the report where they are not given, and are said. The fixes of a column use that has 0 are left out.
# Numbers are doubles, which are exact below 2^53; where one could be greater that is said, with status 3.
if (!l10n_info()[["UTF-8"]]) invisible(Sys.setlocale("LC_CTYPE", "C.UTF-8"))
usage <- "check.R [--percent LIST] [--unit m|dm] REPORT FILE .."
exact_below <- 2^53

script <- gsub("~+~", " ", sub("^--file=", "", grep("^--file=", commandArgs(), value = TRUE)[1]), fixed = TRUE)

# What this script is for: the comment at its head.
show_help <- function() {
  lines <- readLines(script, encoding = "UTF-8")[-1]
  writeLines(sub("^# ?", "", lines[seq_len(which(!startsWith(lines, "#"))[1] - 1)]))
  quit()
}

show_version <- function() {
  cat("check.R", read.dcf(file.path(dirname(dirname(normalizePath(script))), "r", "DESCRIPTION"), "Version"), fill = TRUE)
  quit()
}

fail <- function(..., status = 1) {
  message("check.R: ", ...)
  quit(status = status)
}

if (!"--vanilla" %in% commandArgs()) {
  fail("call it as tools/check.R, or by Rscript --vanilla: else R first runs what a file .Rprofile of this folder says", status = 2)
}

# The places of the corners among some fixes: counterclockwise from the westernmost, of two such the southern; none on a line
# with its neighbours.
corners_of <- function(east, north) {
  at <- rev(chull(east, north))
  at <- at[!duplicated(data.frame(east[at], north[at]))]
  if (length(at) > 2) {
    before <- c(at[length(at)], at[-length(at)])
    after <- c(at[-1], at[1])
    turn <- (east[at] - east[before]) * (north[after] - north[at]) - (north[at] - north[before]) * (east[after] - east[at])
    at <- if (any(turn != 0)) at[turn != 0] else at[order(east[at], north[at])][c(1, length(at))]
  }
  first <- order(east[at], north[at])[1]
  at[(seq_along(at) + first - 2) %% length(at) + 1]
}

doubled_area <- function(east, north, at) {
  e <- east[at] - east[at[1]]
  n <- north[at] - north[at[1]]
  after <- c(seq_along(at)[-1], 1)
  sum(e * n[after] - e[after] * n)
}

polygon_of <- function(fixes, rows) {
  at <- rows[corners_of(fixes$easting[rows], fixes$northing[rows])]
  c(length(at), doubled_area(fixes$easting, fixes$northing, at))
}

whole <- function(x) sprintf("%.0f", x)

row_lines <- function(fixes, name) {
  polygons <- vapply(seq_len(nrow(fixes)), function(n) polygon_of(fixes, seq_len(n)), numeric(2))
  paste("row", name, seq_len(nrow(fixes)), whole(fixes$second), whole(polygons[1, ]), whole(polygons[2, ]), sep = ",")
}

percent_lines <- function(fixes, name, levels) {
  count <- nrow(fixes)
  far <- (count * fixes$easting - sum(fixes$easting))^2 + (count * fixes$northing - sum(fixes$northing))^2
  vapply(levels, function(level) {
    kept <- sort(order(far)[seq_len((level * count + 99) %/% 100)])
    paste(c("percent", name, level, length(kept), whole(polygon_of(fixes, kept))), collapse = ",")
  }, "")
}

animal_lines <- function(fixes, levels) {
  name <- fixes$animal[1]
  at <- corners_of(fixes$easting, fixes$northing)
  c(paste("animal", name, "fixes", nrow(fixes), sep = ","),
    paste(c("box", name, whole(c(min(fixes$easting), min(fixes$northing), max(fixes$easting), max(fixes$northing)))), collapse = ","),
    row_lines(fixes, name),
    paste("corner", name, seq_along(at), whole(fixes$easting[at]), whole(fixes$northing[at]), sep = ","),
    percent_lines(fixes, name, levels))
}

# Which fixes the polygon of others covers, its edges included.
is_covered <- function(fixes, range) {
  at <- corners_of(range$easting, range$northing)
  e <- range$easting[at]
  n <- range$northing[at]
  inside <- fixes$easting >= min(e) & fixes$easting <= max(e) & fixes$northing >= min(n) & fixes$northing <= max(n)
  for (i in seq_along(at)) {
    j <- i %% length(at) + 1
    inside <- inside & (e[j] - e[i]) * (fixes$northing - n[i]) - (n[j] - n[i]) * (fixes$easting - e[i]) >= 0
  }
  inside
}

overlap_lines <- function(tracks) {
  unlist(lapply(tracks, function(one) lapply(tracks, function(other) {
    if (one$animal[1] == other$animal[1]) return(NULL)
    paste("overlap", one$animal[1], other$animal[1], sum(is_covered(one, other)), nrow(one), sep = ",")
  })))
}

titles_known <- c("animal", "second", "easting", "northing")

# The used fixes of a file, which has to be one of the fixes of one animal.
read_fixes <- function(path) {
  check_file(path)
  table <- tryCatch(
    suppressWarnings(utils::read.csv(path, na.strings = character(), colClasses = "character", fileEncoding = "UTF-8-BOM",
                                     check.names = FALSE)),
    error = function(fault) NULL
  )
  titles <- if (is.null(table$use)) titles_known else c(titles_known, "use")
  if (!identical(names(table), titles)) fail(path, " does not begin with the titles of a file of fixes")
  numbers <- unlist(table[-1])
  is_right <- all(validUTF8(table$animal)) && all(grepl("^[0-9]+$", numbers)) && all(table$use %in% c("0", "1"))
  if (!nrow(table) || length(unique(table$animal)) > 1 || !is_right) fail(path, " is no file of the fixes of one animal")
  if (!is.null(table$use)) table <- table[table$use == "1", ]
  for (column in titles_known[-1]) table[[column]] <- as.numeric(table[[column]])
  table
}

check_file <- function(path) {
  if (!file.exists(path)) fail("there is no file ", path)
  if (dir.exists(path)) fail(path, " is a folder")
}

# Refuses levels and units that there are not.
check_words <- function(arguments) {
  levels <- strsplit(paste0(arguments$percent, ","), ",", fixed = TRUE)[[1]]
  if (!is.null(arguments$percent) && (length(levels) > 8 || !all(grepl("^(100|[1-9][0-9]?)$", levels)))) {
    fail("--percent ", arguments$percent, ": up to eight levels from 1 to 100 are wanted, such as 50,95,100", status = 2)
  }
  if (!is.null(arguments$unit) && !arguments$unit %in% c("m", "dm")) fail("--unit ", arguments$unit, ": m or dm is wanted", status = 2)
}

# Whether all products of these fixes are exact: areas and distances are sums of such.
is_exact <- function(fixes) {
  count <- nrow(fixes)
  wide <- max(diff(range(fixes$easting)), diff(range(fixes$northing)))
  max(4 * wide^2, 2 * (count * wide)^2) < exact_below
}

read_arguments <- function(words) {
  found <- list(files = character())
  while (length(words)) {
    if (words[1] %in% c("-h", "--help")) {
      show_help()
    } else if (words[1] == "--version") {
      show_version()
    } else if (words[1] %in% c("--percent", "--unit") && length(words) > 1) {
      found[[substring(words[1], 3)]] <- words[2]
      words <- words[-1]
    } else if (startsWith(words[1], "--")) {
      fail(words[1], " is no option: ", usage, status = 2)
    } else {
      found$files <- c(found$files, words[1])
    }
    words <- words[-1]
  }
  if (length(found$files) < 2) fail(usage, status = 2)
  found
}

arguments <- read_arguments(commandArgs(trailingOnly = TRUE))
check_words(arguments)
report <- arguments$files[1]
check_file(report)
found <- strsplit(gsub("\r", "<CR>", readChar(report, file.size(report), useBytes = TRUE), fixed = TRUE, useBytes = TRUE), "\n", fixed = TRUE, useBytes = TRUE)[[1]]
Encoding(found) <- "UTF-8"
tracks <- lapply(arguments$files[-1], read_fixes)
animals <- vapply(tracks, function(track) track$animal[1], "")
if (anyDuplicated(animals)) fail("two files have the animal ", animals[duplicated(animals)][1])
if (!all(vapply(tracks, is_exact, NA))) fail("numbers of these files are not exact in R: take check.py", status = 3)
unit <- if (is.null(arguments$unit)) if (identical(found[1], "unit,dm")) "dm" else "m" else arguments$unit
first <- paste0("percent,", tracks[[1]]$animal[1], ",")
levels <- if (is.null(arguments$percent)) sub(",.*", "", substring(found[startsWith(found, first)], nchar(first) + 1)) else
  strsplit(arguments$percent, ",", fixed = TRUE)[[1]]
if (!length(levels) || !all(grepl("^(100|[1-9][0-9]?)$", levels))) fail("there are no levels: name them by --percent, such as 50,95,100")
wanted <- c(if (unit == "dm") "unit,dm", unlist(lapply(tracks, animal_lines, as.numeric(levels))), overlap_lines(tracks),
            paste0("end,", length(tracks)))
count <- max(length(wanted), length(found))
agree <- !is.na(wanted[seq_len(count)]) & !is.na(found[seq_len(count)]) & wanted[seq_len(count)] == found[seq_len(count)]
is_ended <- identical(readBin(report, "raw", file.size(report))[file.size(report)], as.raw(10))
if (!is_ended) cat("the last line of the report has no end\n")
if (!all(agree)) cat(sprintf("line %d is '%s'; '%s' is wanted\n", which(!agree)[1], found[which(!agree)[1]], wanted[which(!agree)[1]]))
cat("in", if (unit == "dm") "decimetres," else "metres,", "at the levels", paste0(paste(levels, collapse = ","), "\n"))
cat(sum(agree), "of", length(wanted), "lines agree; the report has", paste0(length(found), "\n"))
if (!all(agree) || !is_ended) quit(status = 1)
