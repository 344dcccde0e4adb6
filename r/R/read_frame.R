# Reads a data frame, which is written as text for the program: what it is asked, and what is refused, by the rows of the frame.

lost_digits <- "a number that has lost digits"
help_for_digits <- "read its column as text, as by read.csv(.., colClasses = \"character\")"

# What the program says is to be done with a file, and what with a frame in place of it.
remedies_of_frames <- c(
  "write its column as text, before a spreadsheet opens it" = paste0(help_for_digits, ", or keep them as numbers, if none is above 2^53"),
  "may stand before thousands: export without it" = "may stand before thousands: make numbers of its column, if they are decimals",
  "say so by lon = \"point [^;]*" = "give the points the reference system that they have, as by sf::st_set_crs(x, 4326)"
)

remedy_of_swapped <- paste0(": are x and y of the points the other way? sf::st_geometry(x) <- sf::st_set_crs(sf::st_geometry(x) * ",
                            "matrix(c(0, 1, 1, 0), 2), sf::st_crs(x)) turns them")

remedy_of_metres <- paste0(": if they are metres, give the points the reference system that they have, as by ",
                           "sf::st_set_crs(sf::st_set_crs(x, NA), 32633); a word for what is missing is named by na")

# The fixes of a data frame.
read_frame <- function(x, given, folder, has_rows) {
  check_frame(x, given)
  for (at in which(vapply(as.list(x), inherits, NA, "AsIs"))) x[[at]] <- without_class(x[[at]], "AsIs")
  frame <- frame_to_split(x, with_columns_of(x, given))
  into <- file.path(folder, "tracks")
  frame <- split_frame(frame, folder, into, has_rows)
  said <- read_record(file.path(into, "split.txt"))$said
  is_of_columns <- startsWith(said, "columns: ")
  said[is_of_columns] <- with_own_title(said[is_of_columns], frame)
  check_cells(frame, said)
  rows <- NULL
  sources <- titles_read(frame$x, said)
  check_text_form(frame, sources)
  check_turned_sides(frame$places$crs, said, given)
  refuse_other_clocks(frame, intersect(sources, frame$moments), folder)
  refuse_summers(frame, sources, folder)
  said <- c(groups_of_dplyr(x, titles_of_animals(frame, said)), frame$places$line, frame$clock$line, of_frame(said, x))
  read <- fixes_of_tracks(into, c(given$tz, frame$clock$tz, "UTC")[1], frame$places$crs, said, function(record, fixes) {
    if (has_rows) rows <<- records_of_fixes(into, record, fixes)
    if (has_rows) rows_of_columns(further_columns(x), rows, nrow(x))
  })
  lost <- if (has_rows) lost_columns(x, sources)
  facts <- facts_of(read$fixes)
  # The export that the record of a frame names is the text of it, which nobody has.
  facts[c("sources", "notes", "is_frame")] <- list(sources, c(facts$notes, lost), TRUE)
  facts$is_in_order <- identical(rows, seq_len(nrow(x)))
  own <- columns_of(x)[names(columns_of(x)) %in% titles_of_fixes]
  list(fixes = new_fixes(read$fixes, facts), said = c(read$said, lost), tracks = read$tracks,
       frame = list(rows = rows, number = nrow(x), own = own))
}

# The columns of a frame that its fixes have too: all but those with the titles of what fixes have of their own, and those whose
# title is there twice.
further_columns <- function(x) {
  columns <- columns_of(x)
  columns[!names(columns) %in% c(titles_of_fixes, titles_twice(columns))]
}

titles_twice <- function(columns) setdiff(unique(names(columns)[duplicated(names(columns))]), c(NA, ""))

# What is said of columns that the fixes of a frame have not, and that were not read.
lost_columns <- function(x, sources) {
  columns <- columns_of(x)
  lost <- list("which have columns of these titles" = intersect(names(columns), titles_of_fixes),
               "since their titles are there twice" = setdiff(titles_twice(columns), titles_of_fixes))
  lost <- Filter(length, lapply(lost, setdiff, sources))
  sprintf("not in the fixes, %s: %s", names(lost), vapply(lost, function(titles) paste(one_line(readable(titles)), collapse = ", "), ""))
}

# The titles of the columns of a frame that were read, by what was said.
titles_read <- function(x, said) {
  not_read <- grep("^not read: ", said, value = TRUE)
  Filter(function(title) !is_listed(title, not_read), unique(readable(names(columns_of(x)))))
}

check_frame <- function(x, given) {
  if (!is.data.frame(x)) {
    refuse("option", "a ", class(x)[1], " is neither a path nor a data frame with a row for each fix: ", help_for_table(x))
  }
  if (is.null(names(x))) refuse("columns", "the data frame has no titles: names(x) <- c(\"animal\", \"time\", ..) gives them")
  if (!nrow(x) || !ncol(x)) refuse("empty", "the data frame has no row of a fix")
  odd <- intersect(options_of_files, names(given))
  if (length(odd)) refuse("option", odd[1], " is for files, and not for a data frame: leave it out")
  if (identical(given$from, "gpx")) refuse("option", "from = \"gpx\" is for files of GPX, and not for a data frame: leave it out")
}

# How what is no table is made one.
help_for_table <- function(x) {
  are_all <- function(is_such) is.list(x) && length(x) > 0 && all(vapply(x, is_such, NA))
  if (!is.matrix(x) && is.character(x) && length(x) > 1 || are_all(is_text)) return("read each path, as by do.call(rbind, lapply(x, read.csv))")
  if (inherits(x, "ltraj")) return("make it one, as by adehabitatLT::ld(x)")
  if (are_all(is.data.frame)) {
    return(paste0("bind those that are in it, as by do.call(rbind, unname(x))", if (!is.null(names(x)))
      ", or where its names are those of the animals by do.call(rbind, Map(cbind, animal = names(x), unname(x)))"))
  }
  if (inherits(x, "zoo")) return("make it one, as by data.frame(time = zoo::index(x), zoo::coredata(x))")
  if (inherits(x, "sfc")) return("make it one, as by sf::st_sf(animal = .., time = .., geometry = x)")
  paste("make it one, as by", if (inherits(x, c("Spatial", "SpatVector"))) "sf::st_as_sf(x)" else if (is.matrix(x)) "as.data.frame(x)" else "data.frame(..)")
}

# The options of a table that says itself which columns have the animal and the time: of move2, or points of fixes that were moved.
with_columns_of <- function(x, given) {
  own <- list(animal = attr(x, "track_id_column", exact = TRUE), time = attr(x, "time_column", exact = TRUE))
  if (!is.null(facts_of(x))) own <- list(animal = "animal", time = column_of_time(x), unit = facts_of(x)$unit)
  c(given, Filter(Negate(is.null), own[setdiff(names(own), names(given))]))
}

# What the program gets of a frame: the parts of its columns and of its points, and what it is asked.
frame_to_split <- function(x, given) {
  places <- places_of_frame(x, given)
  parts <- with_rows(x, parts_of_frame(with_days(columns_of(x), given)))
  list(x = x, given = given, places = places, parts = c(parts, places$parts), clock = clock_of_frame(x, given),
       moments = readable(names(x))[vapply(as.list(x), is_of_moments, NA)])
}

# Has the program split a frame into tracks, as often as something is known better for it; answers how it was asked at last.
split_frame <- function(frame, folder, into, has_rows) {
  path <- file.path(folder, name_of_frame)
  write_parts(frame$parts, path)
  repeat {
    words <- c(if (has_rows) "--records", words_of_options(frame$given), frame$places$words,
               if (!is.null(frame$clock$tz)) paste0("--tz=", frame$clock$tz))
    refusal <- run_split(path, words, into)
    better <- if (is.null(refusal)) with_clock_read(frame, into) else with_moments(frame, refusal)
    if (is.null(better)) break
    if (is.null(refusal) && identical(better$clock$tz, frame$clock$tz)) return(better)
    unlink(into, recursive = TRUE)
    if (!identical(names(better$parts), names(frame$parts))) write_parts(better$parts, path)
    frame <- better
  }
  if (!is.null(refusal)) refuse_frame(frame, refusal, folder)
  frame
}

# A frame with the clock of the columns that were read, where none was named.
with_clock_read <- function(frame, into) {
  if (!is.null(frame$given$tz)) return(NULL)
  own <- titles_read(frame$x, read_record(file.path(into, "split.txt"))$said)
  frame["clock"] <- list(clock_of_frame(frame$x, frame$given, c(own, frame$renamed["from"])))
  frame
}

# A frame whose column of moments is named as the time where no title is a usual one, or has a title that says no clock: that
# these are moments the program cannot know. NULL where it refused something else.
with_moments <- function(frame, refusal) {
  said <- sub("^column [0-9]+ ", "", refusal$text)
  is_among_seconds <- grepl("which is a time among seconds", said, fixed = TRUE)
  own <- if (is_among_seconds) paste0(frame$moments, " is ") else paste0("'", one_line(frame$moments), "' says ")
  refused <- frame$moments[startsWith(rep(said, length(own)), own)]
  is_unnamed <- grepl("no column has a usual title for the time", refusal$text, fixed = TRUE) && is.null(frame$given[["time"]])
  if (is_unnamed && length(frame$moments) == 1) {
    frame$finds_time <- TRUE
    refused <- frame$moments
    frame$given[["time"]] <- refused
    if (!grepl("[,|]", refused)) return(frame)
  }
  if (length(refused) && is.null(frame$renamed)) {
    frame$renamed <- c(from = refused[[1]], to = free_title("datetime", names(frame$parts)))
    names(frame$parts)[names(frame$parts) == refused[[1]]] <- frame$renamed[["to"]]
    frame$given[["time"]] <- frame$renamed[["to"]]
  } else {
    return(NULL)
  }
  frame
}

# Texts with the title that a column has itself, where it got another.
with_own_title <- function(texts, frame) {
  if (is.null(frame$renamed)) return(texts)
  sub(frame$renamed[["to"]], one_line(frame$renamed[["from"]]), texts, fixed = TRUE)
}

# Whether a line that was said names a column as taken, or as not read.
is_taken <- function(title, said) is_listed(title, grep("^columns: ", said, value = TRUE))

is_listed <- function(title, lines) {
  lines <- paste0(sub("; [0-9]+ animals, box .*", "", sub("^[a-z ]*:", ",", lines)), ",")
  any(grepl(paste0(", ", one_line(title), ","), lines, fixed = TRUE))
}

# The columns of a frame but for the geometry of sf.
columns_of <- function(x) {
  columns <- as.list(x)
  if (inherits(x, "sf")) columns[setdiff(seq_along(columns), match(attr(x, "sf_column"), names(columns)))] else columns
}

# The further columns of the fixes, which are these rows of a frame of so many.
rows_of_columns <- function(columns, rows, number) {
  if (identical(rows, seq_len(number))) return(columns)
  lapply(columns, function(column) if (length(dim(column)) == 2) column[rows, , drop = FALSE] else column[rows])
}

# What is said of a table of dplyr that is by other groups than its animals.
groups_of_dplyr <- function(x, animals) {
  by <- setdiff(names(attr(x, "groups", exact = TRUE)), ".rows")
  if (all(by %in% animals)) return(NULL)
  paste0("groups of the table are not looked at (", paste(by, collapse = ", "), "): by makes ranges of groups")
}

# Refuses the first cell that is odd in a column that was read, and a number that is not whole as the name of an animal.
check_cells <- function(frame, said) {
  not_read <- grep("^not read: ", said, value = TRUE)
  odd <- Filter(Negate(is.null), lapply(frame$parts, odd_cell))
  odd <- odd[!vapply(names(odd), is_listed, NA, not_read)]
  if (length(odd)) refuse_cell(frame, "unread", odd)
  check_units(frame, said)
  has_animal <- !any(startsWith(said, "no column has a usual title for the animal"))
  if (!has_animal && isTRUE(frame$finds_time) && is.null(frame$given$name)) {
    own <- if (is.null(frame$renamed)) frame$given[["time"]] else frame$renamed[["from"]]
    refuse("columns", with_rename(paste0("no column has a usual title, neither for the animal nor for the time: name them, as by animal = .. and ",
                                         "time = \"", own, "\""), frame))
  }
  if (has_animal) for (title in titles_of_animals(frame, said)) check_names(frame, title)
}

# Refuses truths, times, quantities, and numbers that are not whole, as names.
check_names <- function(frame, title) {
  column <- as.list(frame$x)[[title]]
  what <- what_no_name_is(column)
  row <- if (!is.null(what)) which(!is.na(column))[1] else if (is.double(column) && !has_own_class(column)) first_not_whole(column)
  if (length(row) && !is.na(row)) {
    shown <- cells_of_column(column, title)[row]
    refuse_row(frame$x, "name", row, paste0(title, " is ", shown, ", ", c(what, "a number that is not whole")[1], ": make it text"))
  }
}

# The first number that is not whole, or has no end.
first_not_whole <- function(numbers) which(is.infinite(numbers) | numbers != floor(numbers))[1]

# What a column is that has no names, whatever is in it.
what_no_name_is <- function(column) {
  if (is.logical(column)) return("a truth")
  if (inherits(column, c("Date", "POSIXt", "difftime", "ITime", "times"))) return("a time")
  if (inherits(column, "units")) "a quantity"
}

# Refuses degrees that were taken as metres, and lengths that were taken as degrees.
check_units <- function(frame, said) {
  has_units <- vapply(as.list(frame$x), inherits, NA, "units")
  for (title in Filter(function(title) is_taken(title, said), names(frame$x)[has_units])) {
    unit <- name_of_unit(frame$x[[title]])
    wanted <- if (any(startsWith(said, "longitude and latitude are "))) "degrees" else "metres"
    is_odd <- switch(wanted, degrees = !unit %in% c("", "1", degrees_of_units), metres = unit %in% degrees_of_units)
    has_both <- any(startsWith(said, "UTM coordinates are "))
    if (is_odd && !has_both) refuse("columns", title, " is in ", unit, ", and ", wanted, " are wanted")
  }
}

# The titles of the columns that were taken for the animal: those that were named, or the first of all that were taken.
titles_of_animals <- function(frame, said) {
  taken <- grep("^columns: ", said, value = TRUE)
  is_first <- function(title) startsWith(taken, paste0("columns: ", one_line(title), ","))
  c(frame$given$animal, Filter(is_first, names(frame$parts)))
}

# Refuses the first of odd cells.
refuse_cell <- function(frame, kind, odd) {
  first <- which.min(vapply(odd, `[[`, 0L, "row"))
  title <- names(odd)[first]
  class <- odd[[first]]$class
  days <- if (kind == "time") setdiff(titles_of_time(frame), title)
  columns <- as.list(frame$x)
  is_length <- class == "difftime" && length(days)
  moment <- if (is_length) moment_of_days(columns[[days[1]]], days[1], c(frame$given$tz, frame$clock$tz, "UTC")[1])
  row <- if (is_length) first_beyond_day(columns[[title]]) else odd[[first]]$row
  refuse_row(frame$x, kind, row, paste0(title, " is of the class ", class, ", of which no cell is known: ",
                                        remedy_of_class(columns[[title]], class, days, title, moment)))
}

# The titles of columns that were named as the time.
titles_of_time <- function(frame) unlist(strsplit(paste(frame$given[["time"]], collapse = ","), ","))

# What is said, with what is to be done before where it names a column for an option which takes its title for several.
with_rename <- function(text, frame) {
  titles <- grep("[,|]", c(frame$renamed[["from"]], titles_in(frame)), value = TRUE)
  is_named <- function(title) {
    own <- paste0("\\Q", one_line(title), "\\E")
    options <- if (grepl("|", title, fixed = TRUE)) "[a-z]" else "\\b(animal|time)"
    grepl(paste0(options, " = (\"[^\"]*|c\\([^)]*)", own), text, perl = TRUE) || grepl(paste0("'", own, "'.*COLUMN\""), text, perl = TRUE)
  }
  odd <- Filter(is_named, titles)
  if (length(odd)) text <- paste0(text, "; rename '", one_line(odd[1]), "' before, since a comma or | stands between titles")
  text
}

# Refuses a form of times for columns of moments, which have one form, unless several columns are joined; so is one that a maker has.
check_text_form <- function(frame, titles, is_of_maker = FALSE) {
  own <- intersect(titles, frame$moments)
  if (length(own) && is_of_maker && !is.null(frame$given[["from"]])) {
    refuse("option", with_rename(paste0("from = \"", frame$given[["from"]], "\" has a form for texts, and '", one_line(own[1]), "' has moments: leave from out, ",
                                        "and name columns, as by animal = .., time = \"", own[1], "\""), frame))
  }
  if (is.null(frame$given$time_format) || !length(own) || length(titles_of_time(frame)) > 1) return(invisible())
  refuse("option", "time_format is for texts, and '", one_line(own[1]), "' has moments: leave it out")
}

# Which titles a refusal of a cell begins with.
titles_at_start <- function(titles, text) titles[startsWith(rep(text, length(titles)), paste0(one_line(titles), " is '"))]

# Refuses what the program refused of a frame. An odd cell is named by its class.
refuse_frame <- function(frame, refusal, folder) {
  text <- with_own_title(sub(file.path(folder, name_of_frame), "the table", refusal$text, fixed = TRUE), frame)
  if (refusal$kind == "time") check_text_form(frame, titles_at_start(frame$moments, text), grepl(" of the form ", text, fixed = TRUE))
  odd <- Filter(Negate(is.null), lapply(frame$parts, odd_cell))
  odd <- Filter(function(cell) grepl(paste0("<", cell$class, ">"), refusal$text, fixed = TRUE), odd)
  named <- vapply(names(odd), grepl, NA, refusal$text, fixed = TRUE)
  if (length(odd)) refuse_cell(frame, refusal$kind, if (any(named)) odd[named] else odd)
  if (startsWith(refusal$text, "there are no columns of usual titles for easting")) check_columns_within(frame$x)
  if (refusal$kind == "time") text <- with_remedy_of_clocks(text, frame$x)
  if (length(frame$places$parts)) {
    text <- sub(": are their columns to be named the other way.*", remedy_of_swapped, text)
    text <- sub(": coordinates in metres are named by .*", remedy_of_metres, text)
  }
  if (grepl("both fit the time: |and not a time ", text)) text <- with_remedy_of_moments(text, frame)
  text <- with_rename(with_help(text, frame), frame)
  refuse_row(frame$x, refusal$kind, refusal$record, paste0(of_frame(text, frame$x), remedy_of_fixes(frame$x, refusal)))
}

# What helps where the columns that fixes have stand beside those that they were read from.
remedy_of_fixes <- function(x, refusal) {
  own <- c("animal", column_of_time(x), "easting", "northing")
  is_own <- vapply(paste0("'", own, "'"), grepl, NA, refusal$text, fixed = TRUE)
  place <- which(names(x) %in% own)
  if (refusal$kind != "ambiguous" || !any(is_own) || !identical(names(x)[place], own) || any(diff(place) != 1)) return(NULL)
  paste0("; of fixes that were read it is ", text_of_own(own))
}

# The columns that fixes have, as arguments.
text_of_own <- function(own) paste0(sub("second", "time", own), " = \"", own, "\"", collapse = ", ")

# What the program says, with what is to be done with a frame, and with the labels of rows for the numbers of records.
of_frame <- function(texts, x) {
  for (form in names(remedies_of_frames)) texts <- sub(form, remedies_of_frames[[form]], texts)
  places <- regexpr("(?<=: )records [0-9]+(, [0-9]+)*", texts, perl = TRUE)
  if (all(places < 0)) return(texts)
  labels <- row.names(x)
  regmatches(texts, places) <- vapply(strsplit(sub("records ", "", regmatches(texts, places)), ", "), function(rows) {
    paste("rows", paste(labels[as.numeric(rows)], collapse = ", "))
  }, "")
  texts
}

# Makes a call; a record of what it refuses is a row of the frame.
with_rows <- function(x, call) {
  tryCatch(call, homerange_data_error = function(fault) refuse_row(x, fault$kind, fault$record, conditionMessage(fault)))
}

# Refuses a table with the row that has the fault, by its label.
refuse_row <- function(x, kind, record, text) {
  places <- regexpr("[(]record [0-9]+[)]", text)
  if (places > 0) {
    own <- row_named(x, as.numeric(gsub("[^0-9]", "", regmatches(text, places))))
    regmatches(text, places) <- paste0("(", sub("[)]$", "", sub(" (x[", ", x[", own, fixed = TRUE)), ")")
  }
  text <- gsub("\\brecord ([0-9]+)\\b", "row \\1", text, perl = TRUE)
  if (is.null(record)) refuse(kind, text)
  refuse(kind, row_named(x, record), ": ", text, record = record)
}

# A row by its label, and where that is not its place by that too.
row_named <- function(x, at) {
  label <- row.names(x)[at]
  if (label == at) paste("row", label) else paste0("row ", label, " (x[", at, ", ])")
}

# The zone by whose clock days and hours of a frame are counted: the only one that these of its columns have, where none is named.
clock_of_frame <- function(x, given, titles = readable(names(x))) {
  if (!is.null(given$tz)) return(NULL)
  is_time <- vapply(as.list(x), is_of_moments, NA) & readable(names(x)) %in% titles
  turned <- if (any(is_time)) with_days(as.list(x), given)
  zones <- vapply(which(is_time), function(at) zone_of_column(as.POSIXct(as.list(x)[[at]]), turned[[at]]), "")
  if (length(unique(zones)) > 1) {
    return(list(line = paste0("days and hours are those of UTC, since times are of ", paste(sort(unique(zones)), collapse = ", "))))
  }
  if (!length(zones) || zones[[1]] == "UTC") return(NULL)
  column <- readable(names(x)[is_time][1])
  if (!zones[[1]] %in% OlsonNames()) {
    return(list(line = paste0("days and hours are those of UTC, since the zone ", zones[[1]], " of ", column, " has no name",
                              if (grepl(offsets_of_posix, zones[[1]])) paste0(", which R has ", hours_of_zone(zones[[1]])))))
  }
  list(tz = zones[[1]], line = paste0("days and hours are those of ", zones[[1]], ", the zone of ", column))
}

# The zone of a column of moments: where it is turned into days that in which these are midnights.
zone_of_column <- function(column, turned) if (inherits(turned, "Date")) zone_of_days(column) else zone_of_times(column)

# The zone of date-times. What R has without one is by the clock of the session.
zone_of_times <- function(times) {
  zone <- sub("^:", "", if (has_zone(times)) attr(times, "tzone")[1] else zone_of_session())
  if (is_utc(zone)) "UTC" else zone
}

has_zone <- function(times) c(attr(times, "tzone"), "")[1] != ""

# The zone of the session: that of TZ, or of the system, of whose files one has it. Sys.timezone would call other programs.
zone_of_session <- function() {
  zone <- Sys.getenv("TZ")
  if (zone == "" && file.exists("/etc/timezone")) zone <- c(readLines("/etc/timezone", 1, warn = FALSE), "")[1]
  if (zone == "") zone <- sub(".*/zoneinfo/", "", c(Sys.readlink("/etc/localtime"), "")[1])
  if (zone == "" || is.na(zone)) "UTC" else zone
}
