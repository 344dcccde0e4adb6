# What a call says of how a table is read, as words of the command line of homerange-split. docs/TABLES.md says what each option
# does; those of the program are given here by the same names, with _ for hyphens.

column_options <- c("animal", "time")  # which may be several titles between commas
text_options <- c("argos", "dop", "easting", "encoding", "fix", "from", "header", "lat", "lon", "name", "northing", "time_format",
                  "tz", "unit", "zone")
word_options <- c("argos_class", "fix_type", "na", "sensor")  # which may be several words between commas
bound_options <- c("since", "until")
number_options <- c("max_dop", "max_speed", "skip_lines")
other_options <- c("crs", "every", "skip_unnamed")
options_of_reading <- c(column_options, text_options, word_options, bound_options, number_options, other_options)
options_of_files <- c("encoding", "header", "skip_lines")  # which a frame has not
longest_word <- 65536  # bytes of a word of a command line; the system takes some more
longest_length <- 2^40  # seconds

is_number <- function(value) is.numeric(value) && length(value) == 1 && is.finite(value)
is_text <- function(value) is.character(value) && length(value) == 1 && !is.na(value)
is_truth <- function(value) isTRUE(value) || isFALSE(value)

# What is no option, and what to do in its place.
elsewhere <- c(
  use = "choose the rows of the table before, as by x[x$use, ]",
  months = "choose among the fixes, as by fixes[format(fixes$time, \"%m\") %in% c(\"05\", \"06\"), ]",
  hours = "choose among the fixes, as by fixes[format(fixes$time, \"%H\") < \"06\", ]",
  mark = "fixes that are not used are left out and counted", to = "until is the last moment", every_hours = "every takes hours too",
  program = "options(homerange.program = ..) names it", unin = "coordinates are in metres, and in no other unit",
  unout = "areas are in hectares", verbose = "quiet = TRUE says nothing"
)
elsewhere[c("levels", "by", "progress")] <- "give it to home_range"
elsewhere[c("xy", "x", "y", "coords", "coordinates")] <- "easting and northing name columns of metres, and lon and lat those of degrees"
elsewhere[c("sep", "delimiter", "separator", "dec", "decimal", "sheet", "skip", "skiprows")] <-
  "read a file of another form before, as by read.csv, and give the data frame"

# What others call what an option, or an argument of home_range, is here.
ours <- c(
  animal = "id ids individual individuals individual_id animal_id animals track_id burst", argos_class = "lc argos_lc",
  by = "group groups group_by groupby season period", crs = "crs_code epsg srid srs proj projection proj4string",
  every = "interval resolution", lat = "latitude", levels = "level percent percents isopleths", lon = "longitude long lng",
  max_dop = "hdop pdop dop_max", max_speed = "speed vmax", na = "na_values na_strings", sensor = "sensors sensor_type",
  since = "start begin from_date start_date", time = "date datetime timestamp times", time_format = "format date_format",
  tz = "timezone time_zone", unit = "units", until = "end to_date end_date", zone = "utm utm_zone zone_number"
)
elsewhere <- c(elsewhere, unlist(lapply(names(ours), function(own) {
  names <- strsplit(ours[[own]], " ")[[1]]
  `names<-`(rep(paste("here it is", own), length(names)), names)
})))

# What others call what an argument of another function is here.
arguments_of_others <- c(
  animals = "animal id ids individual individuals", area = "unit unout", by = "author", col = "color colors colour colours palette",
  facets = "facet panels", file = "path report", files = "tracks", fixes = "points", folder = "path into", label = "over_name boundary_name reserve_name",
  levels = "level percent percents isopleths", made = "date day", main = "title", over = "boundary reserve polygon", overwrite = "force replace",
  path = "file filename output", record = "split crs zone shift", reserve = "boundary over polygon", reserve_name = "boundary_name label over_name",
  share = "proportion", start = "origin", tz = "timezone time_zone"
)

# Refuses a table that is handed in beside x and y, which name columns in other tools.
refuse_sides <- function(x, ...) {
  y <- list(...)[["y"]]
  if (is_text(x) && is_text(y) && any(vapply(list(...), is.data.frame, NA))) {
    refuse("option", "x is the table: name columns of degrees by lon = \"", readable(x), "\", lat = \"", readable(y),
           "\", and those of metres by easting and northing")
  }
}

# The options that are given; NULL is no wish, and a zone of times that is empty is that of the session.
options_given <- function(options) {
  check_options(options)
  twice <- names(options)[duplicated(names(options))]
  if (length(twice)) refuse("option", twice[1], " is there twice")
  given <- options[!vapply(options, is.null, NA)]
  if (is_of_session(given)) given$tz <- zone_of_times(.POSIXct(0))
  if (is_of_session(options) && !given$tz %in% OlsonNames()) {
    refuse("option", "tz = \"\" is the zone of the session, ", given$tz, ", which has no name: name it, such as tz = \"Europe/Ljubljana\"")
  }
  words_of_options(given)  # what cannot be right is refused before anything is looked for
  given
}

# Refuses options that there are not.
check_options <- function(options) {
  odd <- setdiff(names(options), options_of_reading)
  if (!length(odd) && length(options) == sum(nzchar(names(options)))) return(invisible())
  name <- c(sort(as.character(odd[nzchar(odd)]), method = "radix"), "without a name")[1]
  refuse("option", "there is no option ", name, if (name %in% names(elsewhere)) paste0(": ", elsewhere[[name]]))
}

is_of_session <- function(options) is_text(options[["tz"]]) && !nzchar(options[["tz"]])

# Options as words; the reference system is not one of them.
words_of_options <- function(given) {
  given <- given[names(given) != "crs"]
  words <- vapply(names(given), function(option) word_of_option(option, given[[option]]), "")
  unname(words[nzchar(words)])
}

# An option with its value as a word, "" where it is no wish.
word_of_option <- function(option, value) {
  name <- paste0("--", gsub("_", "-", option, fixed = TRUE))
  if (option == "skip_unnamed") {
    check_truth(value, option)
    return(if (value) name else "")
  }
  paste0(name, "=", text_for_program(text_of_option(option, value), option))
}

# A text in UTF-8 that a word of a command line can be.
text_for_program <- function(text, what) {
  is_utf8 <- Encoding(text) != "bytes" && validUTF8(in_utf8(text))
  if (!is_utf8 || nchar(text, "bytes") > longest_word) {
    refuse("option", what, " is ", substr(readable(text), 1, 60), ", which the program cannot be told: is it UTF-8, and short?")
  }
  in_utf8(text)
}

# The value of an option as text.
text_of_option <- function(option, value) {
  if (option %in% column_options) return(text_of_titles(option, value))
  if (option %in% word_options) return(text_of_words(option, value))
  if (option %in% bound_options) return(text_of_bound(option, value))
  switch(option, every = text_of_length(value), max_dop = text_of_number(option, value), max_speed = text_of_speed(value),
         skip_lines = text_of_count(option, value), text_of_text(option, value))
}

text_of_text <- function(option, value) {
  if (is.factor(value)) value <- as.character(value)
  if (option == "time_format" && is.character(value) && length(value) > 1) value <- paste(value, collapse = "|")
  if (!is_text(value)) {
    refuse("option", argument_text(option, value), " is no text", if (option == "zone") ": write such as zone = \"33N\"")
  }
  if (option == "name" && one_line(value) != value) refuse("option", argument_text(option, value), " has a control character")
  as.vector(value)
}

# The title of a column, or several.
text_of_titles <- function(option, value) {
  if (inherits(value, c("Date", "POSIXt", "factor")) || !is.character(value) && is.atomic(value) && length(value) > 1) {
    refuse("option", option, " has values, and the title of their column is wanted, in quotes, as by ", option, " = \"COLUMN\"")
  }
  if (!is.character(value) || !length(value) || anyNA(value)) {
    refuse("option", argument_text(option, value), " is no name of a column: a text, or several, is wanted")
  }
  if (length(value) == 1) as.vector(value) else with_commas(option, as.vector(value))
}

# One word, several between commas, or several words and numbers.
text_of_words <- function(option, value) {
  if (is.factor(value)) value <- as.character(value)
  if (is.numeric(value) && !is.object(value)) value <- cells_of_numbers(value)
  if (!length(value)) refuse("option", option, ": there is no word")
  if (!is.character(value) || anyNA(value)) {
    refuse("option", argument_text(option, value), " is no name: a text, or several, is wanted")
  }
  if (length(value) == 1) as.vector(value) else with_commas(option, as.vector(value))
}

with_commas <- function(option, words) {
  odd <- words[grepl(",", words, fixed = TRUE)]
  if (length(odd)) refuse("option", option, ": '", odd[1], "' has a comma, which stands between words")
  paste(words, collapse = ",")
}

# A number, of a plain class or as text, of which the program says whether it can be right.
text_of_number <- function(option, value) {
  if (is_text(value)) return(as.vector(value))
  if (is.object(value) || !is_number(value) || value < 0) {
    refuse("option", option, " is ", what_it_is(value), " and not a number", if (option == "max_speed") " of metres a second", " from 0")
  }
  cells_of_numbers(as.numeric(value))
}

# A value that was given, as a refusal has it.
what_it_is <- function(value) {
  if (is.object(value) || !is.atomic(value)) return(class(value)[1])
  if (length(value) != 1) return(paste(length(value), "values"))
  if (is.character(value) && !is.na(value)) paste0("\"", readable(value), "\"") else format(value, digits = if (is.numeric(value)) 15)
}

text_of_count <- function(option, value) {
  if (is.object(value) || !is_number(value) || value < 0 || value != floor(value)) {
    refuse("option", option, " is ", what_it_is(value), " and not a number from 0")
  }
  sprintf("%.0f", value)
}

# Metres a second, of a number or of units of speed.
text_of_speed <- function(value) {
  if (!inherits(value, "units") || length(value) != 1) return(text_of_number("max_speed", value))
  speed <- if (name_of_unit(value) == "m/s") as.vector(unclass(value)) else in_unit(value, "m/s")
  if (is.null(speed)) refuse("option", "max_speed is in ", name_of_unit(value), ", which is no speed, or wants the package units")
  millionths <- speed * 1e6
  is_whole <- abs(millionths - round(millionths)) < 1e-3
  text_of_number("max_speed", (if (is_whole) round(millionths) else ceiling(millionths)) / 1e6)
}

# A text, a day, or another moment in UTC.
text_of_bound <- function(option, value) {
  if (is_text(value)) return(as.vector(value))
  if (inherits(value, c("Date", "POSIXt")) && length(value) != 1 || is.character(value) && length(value) > 1) {
    refuse("option", option, " has ", length(value), " values, and one moment is wanted, such as \"2024-05-01\"")
  }
  if (isTRUE(is.na(value))) refuse("option", option, " is missing, and a moment is wanted: leave ", option, " out where none is meant")
  if (!inherits(value, c("Date", "POSIXt"))) {
    refuse("option", argument_text(option, value), " is neither a text such as \"2024-05-01\" nor a date")
  }
  if (inherits(value, "POSIXt")) {
    zone <- zone_of_times(as.POSIXct(value))
    refuse_odd_zone(paste0(option, ": the zone ", zone), zone, option, "option")
  }
  cell <- cells_of_column(value, option)
  if (length(cell) != 1 || !grepl("^[0-9-]*[0-9]", cell)) {
    refuse("option", argument_text(option, value), " is neither a text such as \"2024-05-01\" nor a date")
  }
  cell
}

# A length of time: text such as 2h, a number of hours, or a length of R, of lubridate or of units, in whole seconds.
text_of_length <- function(every) {
  seconds <- if (is_text(every)) seconds_of_text(every) else seconds_of_length(every)
  if (length(seconds) != 1 || !is.finite(seconds) || round(seconds) < 1 || seconds >= longest_length) {
    refuse("option", argument_text("every", every), " is not a second or more in h, min or s, such as \"24h\", \"30min\" or \"90s\"")
  }
  if (is_text(every)) return(as.vector(every))
  if (abs(seconds - round(seconds)) > 1e-6) {
    refuse("option", argument_text("every", every), " is no whole number of seconds: write such as \"90min\" or \"5s\"")
  }
  sprintf("%.0fs", round(seconds))
}

# The seconds of a text such as 2h; NULL of another one.
seconds_of_text <- function(every) {
  parts <- regmatches(every, regexec("^([0-9]+([.][0-9]+)?)(h|min|s)$", every))[[1]]
  if (length(parts)) as.numeric(parts[2]) * c(h = 3600, min = 60, s = 1)[[parts[4]]]
}

# The seconds of a length of time; NULL of what is none, or of months and years, which are not of one length.
seconds_of_length <- function(every) {
  if (inherits(every, "difftime")) return(as.numeric(every, units = "secs"))
  if (inherits(every, "units")) return(in_unit(every, "s"))
  if (inherits(every, "Duration")) return(as.numeric(every@.Data))
  if (inherits(every, "Period")) {
    if (any(every@year != 0, every@month != 0)) return(NULL)
    return(86400 * every@day + 3600 * every@hour + 60 * every@minute + every@.Data)
  }
  if (is.numeric(every) && !is.object(every)) 3600 * every
}
