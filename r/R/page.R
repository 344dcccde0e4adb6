# Has homerange-page write the tables and the page of a folder, and the page of ranges in memory by way of such a folder.

# Writes the page.
write_page <- function(x, path, title = NULL, study = NULL, species = NULL, by = NULL, reference = NULL, purpose = NULL,
                       reserve = NULL, reserve_name = NULL, tz = NULL, made = NULL, overwrite = FALSE, ...) {
  check_dots(...)
  local_options(x, path, title, study, species, by, reference, purpose, reserve, reserve_name, tz, made, overwrite)
  check_ranges(x)
  check_whole(x, "a page")
  check_path(path)
  check_truth(overwrite, "overwrite")
  if (!grepl("[.]html?$", in_small(path))) refuse("option", argument_text("path", path), ": a name that ends in .html or .htm is wanted")
  words <- list(title = title, study = study, species = species, by = by, reference = reference, purpose = purpose,
                boundary = reserve_name)
  check_typed(words, made, reserve)
  zone <- zone_of_page(x, tz)
  rings <- rings_given(x, reserve)
  program <- identity_of(homerange_program())
  x <- with_dates(x)
  names <- in_folder(function(folder) {
    names <- put_known(x, folder)
    write_report_as(x, names, file.path(folder, "report.txt"))
    write_rings(rings, folder)
    record <- record_in(file.path(folder, "tracks"))
    options <- options_of_page(x, c(words, clock = zone), day_of_page(made, Sys.time(), zone), program, record)
    make_page(folder, c(options, flags_of_page(x, folder)))
    if (!overwrite) check_other_page(path, file.path(folder, "report.html"))
    if (!suppressWarnings(file.copy(file.path(folder, "report.html"), expanded(path), overwrite = TRUE))) refuse("file", path, ": it cannot be written")
    names
  })
  tell_of_tracks(x, names)
  invisible(path)
}

# Refuses to write a page over a file that is none: what stands before the title is the same in each.
check_other_page <- function(path, page) {
  own <- expanded(path)
  before <- regexpr("<title>", readChar(page, 4096, useBytes = TRUE), fixed = TRUE, useBytes = TRUE) - 1
  is_page <- !is_full(own) || identical(readBin(own, "raw", before), readBin(page, "raw", before))
  if (!is_page) refuse_other(path, "is no page of write_page")
}

# Refuses what was typed in and is no text, a name of no reserve, and a day that is none.
check_typed <- function(words, made, reserve) {
  arguments <- replace(names(words), names(words) == "boundary", "reserve_name")
  for (at in seq_along(words)) if (!is.null(words[[at]])) check_typed_word(arguments[at], words[[at]])
  if (is.null(reserve) && is_given(words$boundary)) refuse("option", "reserve_name is the name of no reserve: give its shape as reserve")
  if (is.null(made) || length(made) == 1 && inherits(made, c("Date", "POSIXct")) && is.finite(made)) return(invisible())
  refuse("option", argument_text("made", made), " is no date")
}

# Refuses what was typed in and is no text.
check_typed_word <- function(name, word) {
  if (!is_text(word)) refuse("option", argument_text(name, word), " is no text")
  if (!validUTF8(in_utf8(word))) refuse("option", name, " is ", readable(word), ", which is no text in UTF-8")
}

# Whether a text was typed in.
is_given <- function(text) !is.null(text) && nzchar(text)

# The zone of the dates of a page.
zone_of_page <- function(x, tz) {
  zone <- if (!is.null(tz)) tz else if (is.null(x$tz)) "UTC" else x$tz
  # Factory is that of a machine whose zone was not set.
  if (!is_text(zone) || !zone %in% c("UTC", "GMT", setdiff(OlsonNames(), "Factory"))) {
    refuse("option", argument_text("tz", zone), " is no time zone such as \"Europe/Ljubljana\"")
  }
  zone
}

# The day of making: the one that was given, or that of a moment.
day_of_page <- function(made, now, zone) if (is.null(made)) format(now, "%Y-%m-%d", tz = zone) else format(made, "%Y-%m-%d")

# Ranges whose seconds are since 1970, where they were read with the moment from which their seconds are counted: their files have other
# ones.
with_dates <- function(x) {
  time <- x$rows$time
  second <- if (inherits(time, "POSIXct")) floor(as.numeric(time)) else x$rows$second
  added <- second[1] - x$rows$second[1]
  if (added == 0) return(x)
  x$rows$second <- second
  if (!is.null(x$fixes)) x$fixes$moment <- x$fixes$moment + added
  x[c("files", "record_file")] <- NULL
  x
}

# The options of the page's program: what was typed in, the zone of dates, the day, the program that made the report, and what the
# record of the tracks does not say.
options_of_page <- function(x, words, day, program, record) {
  beside <- system_beside(x, record)
  options <- c(words[setdiff(names(words), c("boundary", "day"))], list(
    "boundary-name" = words$boundary, made = day, program = program$version, "program-sum" = program$checksum, system = beside$crs,
    shift = beside$shift, "area-difference" = area_difference(x)
  ))
  options <- options[vapply(options, is_given, NA)]
  sprintf("--%s=%s", names(options), in_utf8(unlist(options)))
}

# By how much areas on the grid differ from those on the ellipsoid, in per cent, at the least and at the most; NULL where it is
# not known here. That of UTM is known to the program.
area_difference <- function(x) {
  if (!is.null(x$zone) || is.null(x$crs) || !is.null(zone_of_crs(x$crs))) return(NULL)
  scales_at <- scales_of_crs(x$crs)
  scales <- vapply(rings_of(x, levels_drawn(x)[1]), function(corners) {
    box <- box_of(corners)
    scales_at((box[1] + box[3]) / 2, (box[2] + box[4]) / 2)[["areas"]]
  }, 0)
  paste(sprintf("%+.2f", 100 * (range(scales) - 1)), collapse = ",")
}

# The flags of the page of ranges of which no report is kept, or that were made of a frame.
flags_of_page <- function(x, folder) {
  is_kept <- identical(x$checksum, checksum_of(file.path(folder, "report.txt")))
  c(if (!is_kept) "--alone", if (isTRUE(x$read$is_frame)) "--data")
}

# Has the page's program write its files into a folder.
make_page <- function(folder, words) {
  program <- page_program()
  fault <- tempfile("fault")
  on.exit(unlink(fault))
  local_utf8(character())
  call <- vapply(c(words, "--", folder), function(word) shQuote(in_bytes(word)), "")
  status <- suppressWarnings(system2(program, call, stdout = FALSE, stderr = fault))
  if (status == 0) return(invisible())
  line <- utils::tail(c("it says no more", readLines(fault, warn = FALSE, encoding = "UTF-8")), 1)
  text <- sub("^homerange-page: ", "", line)
  if (text == line || !status %in% seq_along(kinds_by_status)) refuse("program", "homerange-page ended with status ", status, ": ", line)
  refuse(kinds_by_status[status], text)
}
