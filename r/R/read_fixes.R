# Reads a table of fixes: a file, or a data frame, which the program gets as text. docs/TABLES.md says how.

# The fixes of a file or of a data frame.
read_fixes <- function(x, ..., quiet = FALSE) {
  if (missing(x)) refuse_missing("read_fixes")
  local_options(x, ..., quiet)
  refuse_sides(x, ...)
  check_truth(quiet, "quiet")
  fixes <- in_folder(function(folder) read_table(x, list(...), quiet, folder))$fixes
  as_read(fixes, union(facts_of(x)$titles, names(x)))
}

# The fixes, and beside them what was said and the tracks that the program made in a folder. Of a frame they have its further
# columns, and it is known which of how many rows each is, unless that is not wanted. A column may be used that is not read.
read_table <- function(x, options, quiet, folder, has_rows = TRUE, used = NULL) {
  given <- options_given(options)
  groups <- if (is_fixes(x)) groups_of_dplyr(x, "animal")
  x <- as_fixes(x)
  if (is_made_of_fixes(x) && is.null(facts_of(x)) && has_columns(x)) refuse_unknown()
  lost <- line_of_lost(x)
  if (!is.null(lost)) {
    if (!quiet) tell_note(lost, "guessed")  # also where it is refused then
    attr(x, "homerange") <- NULL
  }
  read <- if (is_fixes(x)) {
    read_again(x, given, folder, has_rows, used)
  } else if (is_text(x)) {
    if (!nzchar(x)) refuse("option", argument_text("x", x), " is no path")
    check_no_address(x, "x")
    read_file(x, given, folder)
  } else {
    with_left_before(read_frame(x, given, folder, has_rows), x, given$animal)
  }
  if (is_text(used) && !is.null(facts_of(read$fixes)$sources)) {  # of a file no column is kept
    read$said <- without_title(read$said, used)
    attr(read$fixes, "homerange")$notes <- without_title(facts_of(read$fixes)$notes, used)
  }
  session <- if (is_of_session(options)) paste0("days and hours are those of ", given$tz, ", the zone of the session")
  read$said <- c(session, groups, read$said)
  if (!quiet) for (line in read$said) tell_note(line, kind_of_said(line))
  read
}

# What was read of points of fixes that lie elsewhere now, with what was left out of these before, of no animal where these have others.
with_left_before <- function(read, x, animal) {
  if (is.null(facts_of(x)) || !has_columns(x)) return(read)
  since <- left_since(fixes_of_points(x))
  facts <- facts_of(read$fixes)
  if (!identical(c(animal, "animal")[1], "animal")) since <- list(left = replace(since$left, "animal", ""), unknown = names(facts$fixes))
  facts$left_out <- summed_left(rbind(since$left, facts$left_out))
  facts$unknown <- since$unknown
  attr(read$fixes, "homerange") <- facts
  read
}

refuse_unknown <- function() {
  refuse("option", "it is not known any more how these fixes were read: read them anew as a table, as by ",
         "read_fixes(as.data.frame(x), zone = ..), and with the unit that they have")
}

# What is said of fixes that have lost one of their columns, or have it by another name.
line_of_lost <- function(x) {
  if (!is_made_of_fixes(x) || has_columns(x)) return(NULL)
  lost <- c(setdiff(columns_of_fixes, names(x)), "time")[1]
  paste0("fixes without their column '", lost, "' are read as a data frame, whose zone is not known unless it is named")
}

# What reads files of other forms, by how their names end.
readers <- c("[.]rds$" = "readRDS", "[.](geojson|json|shp)$" = "sf::st_read", "[.]parquet$" = "arrow::read_parquet", "[.]feather$" = "arrow::read_feather")

# The fixes of a file of text.
read_file <- function(path, given, folder) {
  reader <- readers[vapply(names(readers), grepl, NA, in_small(readable(path)))]
  if (length(reader)) refuse("text", path, " is no text with a line of titles: read what it has, as by read_fixes(", reader[1], "(..))")
  places <- places_of_columns(NULL, given, TRUE)
  full <- path_for_program(path, folder)
  into <- file.path(folder, "tracks")
  refusal <- run_split(full, c(words_of_options(given), places$words), into)
  if (!is.null(refusal)) {
    name <- one_line(readable(path))
    text <- with_help(sub(one_line(full), name, refusal$text, fixed = TRUE), list(given = given))
    file <- if (refusal$kind %in% kinds_of_tables && !startsWith(text, name)) paste0(name, ": ")
    record <- if (!is.null(refusal$record)) sprintf("record %.0f: ", refusal$record)
    refuse(refusal$kind, file, record, text, record = refusal$record)
  }
  said <- read_record(file.path(into, "split.txt"))$said
  check_turned_sides(places$crs, said, given)
  fixes_of_tracks(into, if (is.null(given$tz)) "UTC" else given$tz, places$crs, said)
}

# The fixes of tracks, and what is to be said of them: by the clock of a zone, in a reference system that is known otherwise than
# by a zone of UTM, and with further columns.
fixes_of_tracks <- function(into, tz, crs, said, further = function(record, fixes) NULL) {
  record <- read_record(file.path(into, "split.txt"))
  if (!is.null(crs) && !is.null(record$zone)) {
    if (any(startsWith(record$said, "longitude and latitude are projected into zone "))) {
      refuse_crs("longitude and latitude are read, which are projected into the zone ", record$zone, ", and crs is the reference system of ",
                 "easting and northing: leave crs out, or name these by easting and northing", kind = "zone")
    }
    refuse_crs("the coordinates are of the zone ", record$zone, ", and the CRS ", crs$Name, " is none of UTM: give one of the two", kind = "zone")
  }
  fixes <- read_tracks(into, record)
  table <- table_of_fixes(fixes, record, tz, further(record, fixes))
  if (!is.null(crs)) check_elsewhere(crs, record$said, table)
  said <- c(vapply(said, as_arguments, "", USE.NAMES = FALSE), if (!is.null(crs)) c(line_of_place(crs, cbind(table$easting, table$northing)), check_scales(table, crs)),
            line_of_encoding(unname(own_names(record)[record$tracks$animal])))
  facts <- facts_of_record(record, file.path(into, "split.txt"), tz, crs, said)
  list(fixes = new_fixes(table, facts), said = said, tracks = tracks_named(into, record$tracks$animal, names(facts$fixes)))
}

# What is asked where a name has control characters, as of a text of Windows that was read as latin-1.
line_of_encoding <- function(names) {
  own <- grep("\\xc2[\\x80-\\x9f]", names, perl = TRUE, useBytes = TRUE, value = TRUE)
  if (length(own)) paste0("the name '", one_line(own[1]), "' has control characters: is the encoding of its table another, such as windows-1250?")
}

# The fixes of tracks as a table: animal, time in a zone or seconds since a start of one's own, eastings and northings in metres.
table_of_fixes <- function(fixes, record, tz, more) {
  scale <- units_known[[record$unit]]$scale
  is_calendar <- all(are_seconds_of_dates(fixes$second))
  time <- if (is_calendar) list(time = .POSIXct(fixes$second, tz = tz)) else list(second = fixes$second)
  own <- c(list(animal = unname(own_names(record)[record$tracks$animal])[fixes$track]), time,
           list(easting = fixes$easting / scale - record$shift[1], northing = fixes$northing / scale - record$shift[2]))
  frame_of(c(own, more))
}

# What goes with fixes: of their record and what else is known.
facts_of_record <- function(record, path, tz, crs, notes) {
  names <- own_names(record)
  left <- record$left
  left$animal <- as.character(ifelse(left$animal == "", "", names[left$animal]))
  if (is.null(crs) && !is.null(record$zone) && has_sf()) crs <- sf::st_crs(code_of_zone(record$zone))
  list(unit = record$unit, zone = record$zone, crs = crs, tz = tz, shift = record$shift, notes = notes, left_out = left,
       fixes = `names<-`(record$tracks$used, names[record$tracks$animal]), files = files_of(record),
       record = readLines(path, encoding = "UTF-8", warn = FALSE))
}
