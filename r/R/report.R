# Reads the program's report.

# The form of a report up to its last line: of each animal its lines, which all have the name of the first, then overlaps.
report_form <- paste0(
  "^(?:unit,dm\n)?+(?:animal,([^,\n]++),fixes,[0-9]++\n(?:box,\\1(?:,[0-9]++){4}\n)*+(?:row,\\1(?:,[0-9]++){4}\n)*+",
  "(?:corner,\\1(?:,[0-9]++){3}\n)*+(?:percent,\\1(?:,[0-9]++){4}\n)*+)*+(?:overlap(?:,[^,\n]++){2}(?:,[0-9]++){2}\n)*+"
)
end_form <- "(?:^|\n)end,([0-9]+)\n?$"
longest_end <- 40  # bytes of the last line
# A row, and those behind it of the same animal, corners and area: its captures are the animal, what stays, and both numbers.
run_form <- "(?m)^row,([^,\n]++),[0-9]++,[0-9]++(,([0-9]++),([0-9]++)\n)(?:row,\\1,[0-9]++,[0-9]++\\2)*+"
longest_animal <- 32  # bytes of a name
most_bytes <- 2^31 - 1  # that R has as one text

# The fields of each kind of line, and how many of them are texts, which stand before the numbers.
fields_of_kinds <- list(
  animal = c("animal", "word", "fixes"), box = c("animal", "west", "south", "east", "north"),
  row = c("animal", "n", "second", "corners", "area2"), corner = c("animal", "corner", "easting", "northing"),
  percent = c("animal", "level", "kept", "corners", "area2"), overlap = c("animal", "other", "count", "fixes")
)
texts_of_kinds <- c(animal = 2, box = 1, row = 1, corner = 1, percent = 1, overlap = 2)
kinds_of_codes <- replace(integer(256), utf8ToInt("abrcpo") + 1, seq_along(fields_of_kinds))  # by a line's first byte

# The text of a report's file.
report_text <- function(path) {
  size <- file.size(path)
  if (size > most_bytes) refuse("report", path, ": it is longer than R can read: take fewer animals at once")
  text_of_file(path, size)
}

# The tables of a report's text, which is refused where it is not a whole report.
parse_report <- function(text, name = "the report") {
  runs <- runs_of_rows(text)
  rest <- text_without(text, runs)
  end <- check_form(rest, name, text)
  lines <- lines_of_report(rest)
  animals <- texts_at(lines, "animal", 1)
  report <- list(
    unit = if (startsWith(text, "unit,dm\n")) "dm" else "m", animals = cbind(animal = animals, numbers_at(lines, "animal")),
    rows = rows_of_runs(charToRaw(text), runs), corners = table_of_animals(lines, "corner", animals),
    percents = table_of_animals(lines, "percent", animals), overlaps = overlaps_at(lines)
  )
  check_report(report, table_of_animals(lines, "box", animals), end, name)
  report
}

# The overlaps alone of a report's text.
parse_overlaps <- function(text, name = "the report") {
  rest <- text_without(text, runs_of_rows(text))
  check_form(rest, name, text)
  list(overlaps = overlaps_at(lines_of_report(rest)))
}

# The rows of a text by runs of lines that are alike but for number and second: where a run, what stays in it and its numbers begin,
# and where they end. A run is the first of a block where it does not go on with the animal of the one before.
runs_of_rows <- function(text) {
  found <- gregexpr(run_form, text, perl = TRUE, useBytes = TRUE)[[1]]
  is_there <- found > 0  # where there is no run, one is at -1
  start <- found[is_there]
  end <- start + attr(found, "match.length")[is_there] - 1L
  begins <- attr(found, "capture.start")[is_there, , drop = FALSE]
  ends <- begins + attr(found, "capture.length")[is_there, , drop = FALSE] - 1L
  animal <- texts_between(text, begins[, 1], ends[, 1])
  before <- seq_along(start)[-length(start)]
  goes_on <- start[-1] == end[before] + 1L & animal[-1] == animal[before]
  list(animal = animal, start = start, end = end, begins = begins, ends = ends, is_first = c(TRUE, !goes_on)[seq_along(start)])
}

# Texts by where they begin and end in a text of many bytes.
texts_between <- function(text, starts, ends) {
  if (!length(starts)) return(character())
  if (Encoding(text) != "unknown") Encoding(text) <- "bytes"
  `Encoding<-`(substring(text, starts, ends), "UTF-8")
}

# A report's text without rows but the first of each block: it has a report's form where the whole has it.
text_without <- function(text, runs) {
  first <- which(runs$is_first)
  last <- c(first[-1] - 1L, length(runs$start))[seq_along(first)]
  kept <- texts_between(text, c(1L, runs$end[last] + 1L), c(runs$ends[first, 2], nchar(text, "bytes")))
  `Encoding<-`(paste(kept, collapse = ""), Encoding(text))
}

# Refuses a text that has not the form of a report, of which these lines are the whole or have it where the whole has it; the number
# of animals that its last line says.
check_form <- function(text, name, whole = text) {
  size <- nchar(text, "bytes")
  last <- texts_between(text, max(size - longest_end, 0) + 1, size)
  end <- regmatches(last, regexec(end_form, last, useBytes = TRUE))[[1]]
  if (!length(end)) refuse("report", name, " is cut off: its last line is not 'end,' with the number of animals")
  if (bytes_of_form(text) + nchar(sub("^\n", "", end[1]), "bytes") != size) refuse_line(whole, name)
  as.numeric(end[2])
}

# How many bytes of a text have a report's form up to its last line.
bytes_of_form <- function(text) attr(regexpr(report_form, text, perl = TRUE, useBytes = TRUE), "match.length")

# Refuses the first line of a text that is none of a report there.
refuse_line <- function(text, name) {
  number <- sum(charToRaw(text)[seq_len(bytes_of_form(text))] == as.raw(10)) + 1
  line <- lines_of_text(text)[number]
  refuse("report", name, ": line ", number, " is none of a report there: ", substr(line, 1, 60))
}

# The table of the rows of runs, without numbers and seconds where the numbers are not those from 1 on for each block.
rows_of_runs <- function(bytes, runs) {
  ends <- grepRaw(as.raw(10), bytes, fixed = TRUE, all = TRUE)
  before <- findInterval(runs$start, ends)
  counts <- findInterval(runs$end, ends) - before
  line <- sequence(counts, before)  # before each row
  n <- sequence(rowsum(counts, cumsum(runs$is_first))[, 1])
  start <- ends[line] + rep(runs$ends[, 1] - runs$start + 3L, counts)  # of the number, two behind the animal
  comma <- start + findInterval(n, powers_of_ten)  # behind it
  rest <- ends[line + 1L] - rep(runs$ends[, 2] - runs$begins[, 2], counts)  # what stays in the run
  is_counted <- all(comma < rest & bytes[comma] == as.raw(44)) && all(field_wholes(bytes, start, comma - start) == n)
  second <- if (is_counted) field_wholes(bytes, comma + 1L, rest - comma - 1L) else rep(NA_real_, length(n))
  of_runs <- function(at) rep(field_wholes(bytes, runs$begins[, at], runs$ends[, at] - runs$begins[, at] + 1L), counts)
  list2DF(list(
    animal = rep(runs$animal, counts), n = if (is_counted) as.numeric(n) else second, second = second, corners = of_runs(3),
    area2 = of_runs(4)
  ))
}

# The lines of a text that has a report's form, by its bytes: where each ends, the places of those of each kind, where commas
# are, and how many of them are before each line.
lines_of_report <- function(text) {
  bytes <- charToRaw(text)
  if (Encoding(text) != "unknown") Encoding(text) <- "bytes"
  ends <- grepRaw(as.raw(10), bytes, fixed = TRUE, all = TRUE)
  kinds <- kinds_of_codes[as.integer(bytes[c(1L, ends + 1L)[seq_along(ends)]]) + 1L]
  commas <- c(1L, lengths(fields_of_kinds))[kinds + 1L]
  list(text = text, bytes = bytes, ends = ends, commas = grepRaw(as.raw(44), bytes, fixed = TRUE, all = TRUE),
       before = cumsum(c(0L, commas))[seq_along(ends)],
       of = lapply(`names<-`(seq_along(fields_of_kinds), names(fields_of_kinds)), function(kind) which(kinds == kind)))
}

# Where the fields of the lines of a kind begin, from the first behind the word for it on, and at last where the lines end.
fields_at <- function(lines, kind) {
  own <- lines$of[[kind]]
  before <- lines$before[own]
  c(lapply(seq_along(fields_of_kinds[[kind]]), function(field) lines$commas[before + field] + 1L), list(lines$ends[own] + 1L))
}

# The numbers of the lines of a kind, by their names.
numbers_at <- function(lines, kind) {
  fields <- fields_of_kinds[[kind]]
  starts <- fields_at(lines, kind)
  wanted <- setdiff(seq_along(fields), seq_len(texts_of_kinds[[kind]]))
  columns <- lapply(wanted, function(field) field_wholes(lines$bytes, starts[[field]], starts[[field + 1]] - starts[[field]] - 1L))
  list2DF(`names<-`(columns, fields[wanted]))
}

# The texts in a field of the lines of a kind.
texts_at <- function(lines, kind, field) {
  starts <- fields_at(lines, kind)[field + 0:1]
  if (!length(starts[[1]])) return(character())
  texts <- substring(lines$text, starts[[1]], starts[[2]] - 2L)
  Encoding(texts) <- "UTF-8"
  texts
}

overlaps_at <- function(lines) {
  cbind(animal = texts_at(lines, "overlap", 1), other = texts_at(lines, "overlap", 2), numbers_at(lines, "overlap"))
}

# The place of the animal of each line of a kind: its line stands before.
animals_at <- function(lines, kind) findInterval(lines$of[[kind]], lines$of$animal)

table_of_animals <- function(lines, kind, animals) cbind(animal = animals[animals_at(lines, kind)], numbers_at(lines, kind))

# Refuses tables that have not what the animals' lines say, and numbers that do not go together, as homerange of Python does.
check_report <- function(report, boxes, end, name) {
  refuse_report <- function(...) refuse("report", name, ": ", ...)
  animals <- report$animals$animal
  number <- length(animals)
  if (number == 0) refuse_report("it has no animals")
  if (number != end) refuse_report("it has ", number, " animals, and its last line says ", end)
  if (anyDuplicated(animals)) refuse_report("an animal is there twice")
  odd <- c(animals[grepl("[\\x01-\\x1f\\x7f\"]", animals, perl = TRUE, useBytes = TRUE) | nchar(animals, "bytes") > longest_animal], NA)[1]
  if (!is.na(odd)) refuse_report(odd, " is no name of an animal")
  if (!all(c(report$overlaps$animal, report$overlaps$other) %in% animals)) {
    refuse_report("a line is of an animal that has no line animal")
  }
  if (!is_whole_report(report, boxes)) refuse_report("lines are missing, or there twice")
  of_first <- function(is_odd, table, why) {
    at <- which(is_odd)[1]
    if (!is.na(at)) refuse_report(table$animal[at], ": ", if (is.function(why)) why(table[at, ]) else why)
  }
  last <- report$rows[cumsum(report$animals$fixes), ]
  check_rows(report, of_first)
  check_corners(report, boxes, last, of_first)
  check_percents(report, last, of_first)
  check_overlaps(report, of_first)
}

# Whether each animal has all of its lines, once and in their order.
is_whole_report <- function(report, boxes) {
  animals <- report$animals$animal
  number <- length(animals)
  counts <- lapply(report[c("rows", "corners", "percents")], function(table) tabulate(match(table$animal, animals), number))
  fixes <- report$animals$fixes
  levels <- report$percents$level
  all(counts$rows == fixes) && all(fixes > 0) && identical(report$rows$n, as.numeric(sequence(fixes))) &&
    identical(boxes$animal, animals) && all(counts$corners == report$rows$corners[cumsum(fixes)]) && all(counts$corners > 0) &&
    identical(report$corners$corner, as.numeric(sequence(counts$corners))) && length(unique(counts$percents)) == 1 &&
    all(counts$percents > 0) && identical(levels, rep(unique(levels), number)) &&
    identical(report$overlaps$animal, rep(animals, each = number - 1)) &&
    identical(report$overlaps$other, rep(animals, number)[rep(seq_len(number), number) != rep(seq_len(number), each = number)])
}

# Refuses the first row whose second or area is less than that of the row before.
check_rows <- function(report, of_first) {
  rows <- report$rows
  falls <- function(values) c(FALSE, diff(values) < 0)
  of_first((falls(rows$second) | falls(rows$area2)) & rows$n > 1, rows, "seconds or areas fall")
}

# Refuses the first animal whose corners are not of its box and its last row, or not those of a convex polygon.
check_corners <- function(report, boxes, last, of_first) {
  corners <- report$corners
  rows <- split(seq_along(corners$animal), as_groups(corners$animal))
  numbers_of <- function(side, action) vapply(rows, function(own) action(side[own]), 0, USE.NAMES = FALSE)
  has_box <- numbers_of(corners$easting, min) == boxes$west & numbers_of(corners$easting, max) == boxes$east &
    numbers_of(corners$northing, min) == boxes$south & numbers_of(corners$northing, max) == boxes$north
  of_first(!has_box, boxes, "the corners are not of the box")
  is_west <- vapply(rows, function(own) order(corners$easting[own], corners$northing[own])[1] == 1, NA)
  of_first(!is_west, boxes, "the first corner is not the westernmost")
  rings <- lapply(rows, function(own) cbind(corners$easting[own], corners$northing[own]))
  of_first(vapply(rings, doubled_area, 0) != last$area2, last, "the corners are not of the area")
  of_first(!vapply(rings, is_convex, NA), boxes, "the corners are not those of a convex polygon")
}

# Refuses the first percent polygon that cannot be one of its level.
check_percents <- function(report, last, of_first) {
  percents <- report$percents
  own <- last[match(percents$animal, last$animal), ]
  of_first(percents$level < 1 | percents$level > 100 | percents$kept != (percents$level * own$n + 99) %/% 100, percents, function(odd) {
    sprintf("%.0f fixes are not %.0f percent", odd$kept, odd$level)
  })
  is_within <- percents$area2 <= own$area2 & percents$corners > 0 & percents$corners <= percents$kept
  of_first(!is_within, percents, "no polygon of fixes that are kept")
  is_other <- percents$corners != own$corners | percents$area2 != own$area2
  of_first(percents$kept == own$n & is_other, percents, "all are kept, but it is not the last row")
}

# Refuses the first overlap that is of other fixes than its animal has, or of more.
check_overlaps <- function(report, of_first) {
  overlaps <- report$overlaps
  fixes <- report$animals$fixes[match(overlaps$animal, report$animals$animal)]
  of_first(overlaps$fixes != fixes | overlaps$count > fixes, overlaps, function(odd) {
    own <- report$animals$fixes[report$animals$animal == odd$animal]
    sprintf("%.0f of %.0f fixes, but it has %.0f", odd$count, odd$fixes, own)
  })
}

# The counts of overlaps as a matrix, a row and a column for each animal; NA where there is no line.
put_overlaps <- function(counts, overlaps) {
  at <- cbind(match(overlaps$animal, rownames(counts)), match(overlaps$other, rownames(counts)))
  known <- counts[at]
  if (any(known != overlaps$count, na.rm = TRUE)) refuse("check", "two runs of the program count another overlap")
  counts[at] <- overlaps$count
  counts
}

# The home ranges of a report that was made elsewhere, of its files where they are named, and of the record of these.
read_report <- function(file, start = NULL, files = NULL, record = NULL, ...) {
  check_dots(...)
  local_options(file, start, files, record)
  if (!is_text(file)) refuse("option", argument_text("file", file), " is no path")
  if (!is.null(start) && (!inherits(start, "POSIXct") || length(start) != 1 || !is.finite(start))) {
    refuse("option", argument_text("start", start), " is no time as POSIXct")
  }
  if (!is.null(files) && (!is.character(files) || !length(files) || anyNA(files))) {
    refuse("option", argument_text("files", files), " are no paths")
  }
  if (!is.null(record) && !is_text(record)) refuse("option", argument_text("record", record), " is no path")
  file <- expanded(file)
  files <- if (!is.null(files)) expanded(files)
  record <- if (!is.null(record)) expanded(record)
  check_file(file, "file")
  check_begin(file)
  report <- parse_report(report_text(file), file)
  animals <- report$animals$animal
  counts <- matrix(NA_real_, length(animals), length(animals), dimnames = list(animals, animals))
  report$overlaps <- put_overlaps(counts, report$overlaps)
  seconds <- report$rows$second
  ranges <- new_home_range(report, time = if (is.null(start)) seconds else start + seconds)
  ranges$call <- match.call()
  ranges$checksum <- checksum_of(file)
  if (!is.null(files)) ranges <- with_files(ranges, files)
  if (is.null(record)) tell_shift(ranges, c(file, files))
  if (is.null(record)) return(ranges)
  ranges$record_file <- record
  own <- read_record(record)
  check_record_of(own, ranges)
  ranges <- with_record(ranges, own)
  text <- paste(readLines(record, warn = FALSE, encoding = "UTF-8"), collapse = "\n")
  ranges$readings <- list(records = text, fixes = sum(own$tracks$records) + sum(own$left$fixes))
  ranges
}

# Says of ranges that were read without their record by how much they are shifted, where it lies beside the report or its files.
tell_shift <- function(ranges, paths) {
  for (path in unique(file.path(dirname(paths), "split.txt"))) {
    own <- if (file.exists(path)) tryCatch(read_record(path), homerange_error = function(fault) NULL)
    is_own <- any(own$shift != 0) && tryCatch(is.null(check_record_of(own, ranges)), homerange_error = function(fault) FALSE)
    if (is_own) {
      line <- sprintf("coordinates are shifted by %.0f m east and %.0f m north, as %s has it, and lie so here: name it, as by record = \"%s\"",
                      own$shift[1], own$shift[2], path, path)
      return(tell_note(line, "moved"))
    }
  }
}

# Refuses a record that is not that of a report, or not that of its files, where these are there.
check_record_of <- function(record, ranges) {
  if (record$unit != ranges$unit) {
    refuse("text", "the report is in ", ranges$unit, ", and split.txt in ", record$unit, ": take the record of the tracks of this report")
  }
  animals <- ranges$animals$animal
  place <- match(animals, record$tracks$animal)
  used <- ifelse(is.na(place), 0, record$tracks$used[place])
  odd <- which(used != ranges$animals$fixes)[1]
  if (nrow(record$tracks) && !is.na(odd)) {
    refuse("text", "the report has ", ranges$animals$fixes[odd], " fixes of ", animals[odd], ", and split.txt has ", used[odd],
           ": was a track changed, or left out?")
  }
  sums <- record$tracks$checksum[place]
  lost <- if (length(ranges$files)) animals[nzchar(sums) & !sums %in% vapply(ranges$files, checksum_of, "")]
  if (length(lost)) {
    refuse("text", "no file is the track of ", lost[1], " of which split.txt has the checksum: take the record of these files, or the ",
           "files of this record")
  }
}

# Ranges with the fixes of the files of their report, which have to be of them.
with_files <- function(ranges, files) {
  tracks <- lapply(files, read_track)
  place <- match(ranges$animals$animal, vapply(tracks, `[[`, "", "animal"))
  if (anyNA(place)) refuse("report", "no file has the animal ", ranges$animals$animal[is.na(place)][1], " of the report")
  own <- lapply(tracks[place], function(track) cbind(animal = rep(track$animal, sum(track$used)), track$fixes[track$used, ]))
  for (fixes in own) check_fixes(fixes, ranges)
  ranges$fixes <- do.call(rbind, own)
  ranges$fixes <- cbind(row = seq_len(nrow(ranges$fixes)), ranges$fixes, time = ranges$rows$time)
  unused <- vapply(tracks[place], function(track) sum(!track$used), 0L)
  left_out <- data.frame(animal = ranges$animals$animal, reason = rep("use", length(place)), fixes = unused)[unused > 0, ]
  if (nrow(left_out)) ranges$left_out <- left_out  # else it is not known: what was left out before is not in the files
  ranges$files <- files
  ranges
}

# A file of fixes: its animal, its fixes, and which of them are used.
read_track <- function(path) {
  if (dir.exists(path)) {
    refuse("file", path, " is a folder: name its files, as by list.files(\"", path, "\", \"[.]csv$\", full.names = TRUE)")
  }
  check_file(path, "files")
  table <- tryCatch(
    suppressWarnings(utils::read.csv(path, colClasses = "character", na.strings = character(), check.names = FALSE, encoding = "UTF-8")),
    error = function(fault) data.frame(none = character())
  )
  names(table)[1] <- sub("^\ufeff", "", enc2utf8(names(table)[1]))
  titles <- c("second", "easting", "northing")
  if (!all(c("animal", titles) %in% names(table)) || !nrow(table)) {
    refuse("text", path, " has no fix with animal, second, easting and northing")
  }
  used <- if (is.null(table$use)) rep(TRUE, nrow(table)) else table$use == "1"
  if (!all(grepl("^[0-9]+$", unlist(table[titles])))) {
    refuse("number", path, " has a fix whose second, easting or northing is no number")
  }
  fixes <- `names<-`(as.data.frame(lapply(table[titles], as.numeric)), c("moment", "easting", "northing"))
  list(animal = table$animal[1], fixes = fixes, used = used)
}

# Refuses fixes of an animal whose times, or whose polygon, are not those of the report. Each is within the polygon where
# it lies beside no edge, and within the box.
check_fixes <- function(fixes, ranges) {
  animal <- fixes$animal[1]
  if (!identical(fixes$moment, ranges$rows$second[ranges$rows$animal == animal])) {
    refuse("report", "the file of ", animal, " has other fixes than the report")
  }
  corners <- ranges$corners[ranges$corners$animal == animal, ]
  is_corner <- paste(corners$easting, corners$northing) %in% paste(fixes$easting, fixes$northing)
  has_box <- identical(lapply(fixes[c("easting", "northing")], range), lapply(corners[c("easting", "northing")], range))
  after <- corners[c(seq_len(nrow(corners))[-1], 1), ]
  is_beside <- Map(function(east, north, next_east, next_north) {
    any(is_right_turn(next_east - east, next_north - north, fixes$easting - east, fixes$northing - north))
  }, corners$easting, corners$northing, after$easting, after$northing)
  if (!all(is_corner) || !has_box || any(unlist(is_beside))) {
    refuse("report", "the polygon of the file of ", animal, " is not that of the report")
  }
}

# Ranges of tracks that have a record: what was left out and said is that of the record, and so are the reference system and
# the shift, where none is known otherwise.
with_record <- function(ranges, record) {
  ranges$record <- record
  ranges$left_out <- left_out_of_record(record)
  ranges$notes <- record$said
  if (!is.null(ranges$crs) || !is.null(ranges$zone)) return(ranges)
  ranges$shift <- record$shift
  ranges$zone <- record$zone
  code <- code_of_record(record)
  if (!is.null(code) && has_sf()) ranges$crs <- sf::st_crs(code)
  ranges
}

# Writes the report of home ranges, with the names that animals have in files, as the program would of those.
write_report <- function(x, path, overwrite = FALSE, ...) {
  check_dots(...)
  local_options(x, path, overwrite)
  check_ranges(x)
  check_path(path)
  check_truth(overwrite, "overwrite")
  if (!overwrite && is_full(expanded(path)) && !begins_as_report(expanded(path))) refuse_other(path, "is no report")
  names <- names_of_files(x)
  write_report_as(x, names, path)
  for (line in renames_of(x$animals$animal, names)) tell_note(line, "renamed")
  invisible(path)
}

# Refuses a file that neither begins nor ends as a report; of one with bytes 0 it is said elsewhere that it is no text in UTF-8.
check_begin <- function(path) {
  input <- file(path, "rb")
  on.exit(close(input))
  first <- readBin(input, "raw", 4096)
  seek(input, max(file.size(path) - longest_end, 0))
  ends <- grepl(end_form, rawToChar(Filter(as.logical, readBin(input, "raw", longest_end))), useBytes = TRUE)
  is_wide <- any(utils::head(first, 4) == 0)
  begins <- grepl("^(unit,d?m\r?\n)?animal,[^\n]*,fixes,[0-9]", rawToChar(first[first != 0]), useBytes = TRUE)
  if (length(first) && !is_wide && !begins && !ends) {
    refuse("report", path, " is no report: it does not begin as one, with a line 'animal,NAME,fixes,NUMBER'")
  }
}

# Whether a file begins as a report does.
begins_as_report <- function(path) {
  bytes <- readBin(path, "raw", 65536)
  all(bytes > 0) && grepl("^(unit,dm\n)?animal,[^\n]*,fixes,[0-9]+\n", rawToChar(bytes), useBytes = TRUE)
}

# Writes the report of home ranges whose animals have these names.
write_report_as <- function(x, names, path) {
  if (anyNA(x$overlaps)) refuse("option", "x: these are ranges of several reports, whose overlaps are not known")
  animals <- x$animals$animal
  tables <- lapply(unclass(x)[c("rows", "corners", "percents")], function(table) split(table, factor(table$animal, animals)))
  lines <- Map(lines_of_animal, names, x$animals$fixes, tables$rows, tables$corners, tables$percents)
  pairs <- which(row(x$overlaps) != col(x$overlaps), arr.ind = TRUE)
  pairs <- pairs[order(pairs[, 1], pairs[, 2]), , drop = FALSE]
  one <- pairs[, 1]
  overlaps <- sprintf("overlap,%s,%s,%.0f,%.0f", names[one], names[pairs[, 2]], x$overlaps[pairs], x$animals$fixes[one])
  write_lines(path, c(if (x$unit == "dm") "unit,dm", unlist(lines), overlaps, sprintf("end,%d", length(names))))
}

# The lines of an animal in a report.
lines_of_animal <- function(name, fixes, rows, corners, percents) {
  lines_of <- function(kind, columns) do.call(paste, c(list(kind, name), lapply(columns, sprintf, fmt = "%.0f"), sep = ","))
  box <- lapply(corners[c("easting", "northing")], range)
  c(sprintf("animal,%s,fixes,%.0f", name, fixes), lines_of("box", list(box[[1]][1], box[[2]][1], box[[1]][2], box[[2]][2])),
    lines_of("row", rows[c("n", "second", "corners", "area2")]), lines_of("corner", corners[c("corner", "easting", "northing")]),
    lines_of("percent", percents[c("level", "kept", "corners", "area2")]))
}
