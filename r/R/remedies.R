# What is to be done with columns of a frame that are refused, so that they are read.

in_seconds <- "as.numeric(x, units = \"secs\") makes seconds of it, in a column 'second' in its place"

in_clocks <- "hms::as_hms("
makes_clocks <- ") makes clocks of it, which stand beside days"

# What to do with a column of a class: numbers alone may be other ones than they seem. Lengths of time beside days are parts of times:
# the first of these days makes a moment, as it is said.
remedy_of_class <- function(column, class, days = NULL, title = NULL, moment = NULL) {
  if (class == "difftime" && length(days)) {
    return(paste0(moment, " + x[[\"", title, "\"]] makes times of both, in a column that time names alone"))
  }
  if (class %in% c("Period", "Duration") && length(days)) return(paste0(in_clocks, "as.numeric(x, units = \"secs\")", makes_clocks))
  if (inherits(column, "units")) return(remedy_of_unit(column, length(days) > 0))
  if (length(dim(column)) == 2) return("make each of its columns one of the table, as by cbind(table, x)")
  switch(
    class, difftime = , Period = , Duration = paste0("if it is a time, ", in_seconds),
    Interval = "lubridate::int_start(x) makes times of it",
    haven_labelled = , haven_labelled_spss = "haven::zap_labels(x) makes numbers of it, and haven::as_factor(x) text",
    chron = , dates = "format(round(as.POSIXct(x), \"secs\"), tz = \"UTC\") makes text of it",
    nanotime = , clock_sys_time = "as.POSIXct(x, tz = \"UTC\") makes times of it", timeDate = , clock_zoned_time = "as.POSIXct(x) makes times of it",
    clock_naive_time = , clock_year_month_day = "format(x) makes text of it", list = "do.call(c, x) makes a vector of it",
    "make text, numbers or times of it"
  )
}

# How a column of days is made moments of a zone: R takes text by the clock of the session, and days by UTC.
moment_of_days <- function(column, title, tz) {
  own <- paste0("x[[\"", title, "\"]]")
  if (inherits(column, "POSIXt")) return(own)
  is_plain <- inherits(column, "Date") || all(is.na(column) | grepl("^[0-9]{4}-[0-9]{2}-[0-9]{2}$", column))
  if (inherits(column, "Date") && tz != "UTC") own <- paste0("format(", own, ")")
  paste0("as.POSIXct(", own, ", tz = \"", tz, "\"", if (!is_plain) ", format = ..", ")")
}

# The first row with a length of time that is none of a day, or else the first with one.
first_beyond_day <- function(lengths) {
  seconds <- as.numeric(lengths, units = "secs")
  c(which(seconds < 0 | seconds >= seconds_of_day), which(!is.na(seconds)))[1]
}

# What to do with a column of a unit that is no length in metres, and may stand beside days.
remedy_of_unit <- function(column, has_days = FALSE) {
  if (!is.null(in_unit(column, "degrees"))) return("units::set_units(x, \"degrees\") makes degrees of it")
  if (!is.null(in_unit(column, "m"))) return("units::set_units(x, \"m\") makes metres of it")
  if (is.null(in_unit(column, "s"))) return("it is no length: units::drop_units(x) makes numbers of it")
  seconds <- "units::drop_units(units::set_units(x, \"s\"))"
  if (has_days) return(paste0(in_clocks, seconds, makes_clocks))
  paste0("if it is a time, ", seconds, " makes seconds of it, in a column 'second' in its place")
}

# Refuses a table whose places are within one of its columns: shapes, or a matrix or a table of two.
check_columns_within <- function(x) {
  titles <- readable(names(x))
  shapes <- titles[vapply(as.list(x), inherits, NA, "sfc")]
  if (length(shapes) && !inherits(x, "sf")) {
    refuse("columns", "the column '", shapes[1], "' has shapes, and the table is none of sf: sf::st_as_sf(x) makes one of it")
  }
  several <- titles[vapply(as.list(x), NCOL, 0L) > 1]
  if (length(several)) {
    refuse("columns", "the column '", several[1], "' is of several columns: make them columns of the table, as by x$easting <- x[[\"",
           several[1], "\"]][, 1]")
  }
}

# The titles that are joined at the start of what the program says of a time.
titles_joined <- function(text, titles) {
  start <- paste0(" ", sub(" is '.*", "", text), " ")
  titles[vapply(paste0(" ", one_line(titles), " "), grepl, NA, start, fixed = TRUE)]
}

# What the program says of days and times that it joins, or would join, where they are more than days and clocks.
with_remedy_of_moments <- function(text, frame) {
  both <- regmatches(text, regexec("'([^']*)' and column [0-9]+ '([^']*)' both fit the time: ", text))[[1]][-1]
  titles <- if (length(both)) both else if (is.null(frame$given[["from"]])) titles_of_time(frame) else titles_joined(text, titles_in(frame))
  if (length(titles) < 2) return(text)
  own <- as.list(frame$x)[match(titles, one_line(readable(names(frame$x))))]
  moments <- Filter(is_of_moments, own)
  zones <- lapply(moments, zone_of_days)
  whole <- names(moments)[vapply(zones, is.null, NA)]
  days <- substr(unlist(lapply(own[setdiff(names(own), whole)], as.character)), 1, 10)
  day <- if (length(whole) == 1 && length(days)) day_of_all(as.POSIXct(moments[[whole]]))
  helps <- if (!is.null(day) && !day %in% days) {
    paste0(whole, " has clocks on one day: make clocks of it, as by format(x[[\"", whole, "\"]], \"%H:%M:%S\")")
  } else if (length(whole) == 1) {
    paste0(whole, " has moments: name it alone, as by time = \"", whole, "\"")
  } else if (!length(both) && length(moments) && !length(whole)) {
    paste0(names(moments)[1], " has moments: make days of it, as by as.Date(x, tz = \"", zones[[1]], "\")")
  }
  if (!is.null(helps)) return(paste0(sub(": (name one|if it is one|write|name) .*", "", text), ": ", helps))
  are_full <- length(moments) > 1 || all(vapply(own, inherits, NA, "Date"))
  if (are_full) sub(", or both, as by .*", "", text) else text
}

# What the program says of a time that is a clock alone, with what is to be done with a column of this class: no form has a clock.
with_remedy_of_clocks <- function(text, x) {
  titles <- names(x)[vapply(as.list(x), has_class_of_clocks, NA) & !vapply(as.list(x), is_of_moments, NA)]
  own <- titles_at_start(readable(titles), text)
  if (!length(own)) return(text)
  since <- if (inherits(x[[own[1]]], "difftime")) paste0("; if it is a time since a start, ", in_seconds)
  paste0(sub(": (if it is one|write|name)\\b.*", "", text), ": join it to days, as by time = c(\"DAY\", \"", own[1], "\")", since)
}
