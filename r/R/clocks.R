# Columns of clocks alone, and of days alone, whose classes have both: docs/TABLES.md, Data frames.

days_without_date <- .Date(c(-25569, -25568))  # 1899-12-30 and 1899-12-31, on which spreadsheets have clocks
seconds_of_day <- 86400

# The seconds of the day that a column of clocks has, to nine decimals, as moments: hours and days are parts of such seconds that
# float64 has a little too small or too great. NULL of another column.
seconds_of_clocks <- function(column) {
  if (inherits(column, c("ITime", "hms"))) return(round(as.numeric(unclass(column)), 9))
  first <- as.numeric(first_value(column))
  if (is.na(first)) return(NULL)
  if (inherits(column, "times") && !inherits(column, "dates")) return(round(as.numeric(unclass(column)) * seconds_of_day, 3))
  if (inherits(column, "POSIXct")) return(if (has_no_date(first_value(column))) seconds_without_date(column))
  if (!inherits(column, "difftime")) return(NULL)
  seconds <- round(as.numeric(column, units = "secs"), 9)
  if (all(seconds >= 0 & seconds < seconds_of_day, na.rm = TRUE)) seconds
}

# Whether moments are all of days on which spreadsheets have clocks, in their own zone.
has_no_date <- function(times) {
  abs(as.numeric(times[1]) / seconds_of_day - as.numeric(days_without_date[1])) < 3 &&
    all(as.Date(times, tz = zone_of_times(times)) %in% c(days_without_date, NA))
}

# The seconds of the day of such moments; NULL where not all are some.
seconds_without_date <- function(column) {
  known <- column[!is.na(column)]
  if (!all(has_no_date(known))) return(NULL)
  local <- as.POSIXlt(column, tz = zone_of_times(column))
  round(3600 * local$hour + 60 * local$min + local$sec, 3)
}

# The first value that is not missing; NA where there is none.
first_value <- function(column) if (isFALSE(is.na(column[1]))) column[1] else column[c(which.max(!is.na(column)), 1)[1]]

has_class_of_clocks <- function(column) inherits(column, c("ITime", "hms", "times", "difftime", "POSIXct"))

# Whether a column is of moments.
is_of_moments <- function(column) inherits(column, "POSIXt") && is.null(seconds_of_clocks(as.POSIXct(column)))

# Columns, of which those of moments that are all days are days, if clocks stand in another or the time is joined of several.
with_days <- function(columns, given) {
  columns <- lapply(columns, function(column) if (inherits(column, "POSIXlt")) as.POSIXct(column) else column)
  is_joined <- grepl(",", paste(given[["time"]], collapse = ","), fixed = TRUE)
  if (!is_joined && !any(vapply(columns, has_clocks, NA))) return(columns)
  lapply(columns, function(column) {
    zone <- zone_of_days(column, given$tz)
    if (is.null(zone)) column else as.Date(column, tz = zone)
  })
}

# Whether a column has clocks, by its class or by the first of its texts.
has_clocks <- function(column) {
  if (is.factor(column)) column <- levels(column)
  if (is.character(column)) return(grepl("^ *[0-9]{1,2}:[0-9]{2}", first_value(column), useBytes = TRUE))
  has_class_of_clocks(column) && !is.null(seconds_of_clocks(column))
}

# The zone in which moments are all midnights, if that is UTC or the zone by whose clock times are read; NULL where they are no days.
# Days that R makes moments of have no zone, and are midnights of UTC.
zone_of_days <- function(column, tz = NULL) {
  if (!inherits(column, "POSIXct") || !is.null(seconds_of_clocks(column))) return(NULL)
  for (zone in unique(c(zone_of_times(column), if (!has_zone(column)) "UTC"))) {
    is_read <- zone %in% c("UTC", if (is.null(tz)) OlsonNames() else tz)
    if (is_read && are_midnights(first_value(column), zone) && are_midnights(column, zone)) return(zone)
  }
}

# Whether moments are all midnights of a zone.
are_midnights <- function(times, zone) {
  all(unlist(unclass(as.POSIXlt(times, tz = zone))[c("hour", "min", "sec")]) == 0, na.rm = TRUE)
}

names_of_utc <- "^((Etc/)?(UTC|GMT[+-]?0?|UCT|Zulu|Universal|Greenwich)|(?i)(utc|gmt|z|(utc|gmt)?[+-]?00?(:?00)?))$"
zones_of_posix <- "^([A-Za-z]{3,}|<[A-Za-z0-9+-]+>)[+-]?[0-9]"  # such as EST5EDT, whose hours are those behind UTC
offsets_of_posix <- paste0(zones_of_posix, "?[0-9:]*$")  # such as EST5, which have no summer
most_flags <- 4  # kinds of cells of a column of flags, and of what is missing in it
offset_in_zone <- "^(UTC|GMT)?([+-]?)0?([0-9]{1,2})(:?[0-9]{2})?$"

# Whether a zone is a name of UTC.
is_utc <- function(zone) grepl(names_of_utc, zone, perl = TRUE)

# Refuses columns of moments that were read, whose title says another clock: such of UTC, and such that have no zone, and so that of the session.
refuse_other_clocks <- function(frame, titles, folder) {
  for (title in titles) {
    column <- as.POSIXct(as.list(frame$x)[[title]])
    zone <- zone_of_times(column)
    refuse_odd_zone(paste("the zone", zone, "of", if (has_zone(column)) title else "the session"), zone,
                    paste0("x[[\"", title, "\"]]"), "columns", frame$given$tz)
    if (is_utc(zone)) {
      if (!is_utc(c(frame$given$tz, "")[1])) refuse_labelled(frame, title, folder)
    } else if (!has_zone(column)) {
      refuse_of_session(title, zone, folder)
    }
  }
}

# Refuses moments of a zone that R takes otherwise than its name says, if it was not said by tz that they are of UTC.
refuse_odd_zone <- function(what, zone, moments, kind, tz = NULL) {
  if (is_utc(zone) || zone %in% OlsonNames()) return(invisible())
  offset <- regmatches(zone, regexec(offset_in_zone, zone, ignore.case = TRUE))[[1]]
  is_of_posix <- grepl(zones_of_posix, zone)
  own <- zone_of_offset(offset)
  made <- paste0(", as by as.POSIXct(format(", moments, "), tz = \"", own[1], "\")")
  if (is_of_posix && length(offset)) {
    refuse(kind, what, " is for R ", hours_of_zone(zone), ": give such moments the zone of their clock", made,
           if (length(own) > 1) paste0(", or by tz = \"", own[2], "\" if that is meant"))
  }
  if (!is_of_posix && has_clock_of_utc(zone) && !is_utc(c(tz, "")[1])) {
    refuse(kind, what, " is none that R knows, and has the clock of UTC there: ", if (kind == "columns")
      "if moments are of that, name tz = \"UTC\", and else ", "give them the zone of their clock", made)
  }
}

# The zones of Etc that are so many whole hours ahead of UTC as an offset says, and so many behind it; else a zone as an example.
zone_of_offset <- function(offset) {
  hours <- as.numeric(offset[4])
  if (!length(offset) || hours > 12 || !sub(":", "", offset[5], fixed = TRUE) %in% c("", "00")) return("Europe/Ljubljana")
  signs <- if (offset[3] == "-") c("+", "-") else c("-", "+")
  paste0("Etc/GMT", signs, hours)
}

# Moments in the winter and in the summer, of which R is asked what a clock is then.
probes_of_zones <- .POSIXct(c(1705320000, 1721044800), "UTC")

# Whether a zone has the clock of UTC in R, which warns of one that it does not know.
has_clock_of_utc <- function(zone) identical(suppressWarnings(format(probes_of_zones, tz = zone)), format(probes_of_zones))

# How far the clock of a zone is from that of UTC in the winter.
hours_of_zone <- function(zone) {
  own <- suppressWarnings(format(probes_of_zones[1], tz = zone))
  hours <- as.numeric(difftime(as.POSIXct(own, tz = "UTC"), probes_of_zones[1], units = "hours"))
  paste(format(abs(hours)), if (abs(hours) == 1) "hour" else "hours", if (hours < 0) "behind UTC" else "ahead of UTC")
}

# Refuses moments labelled UTC, whose title says another clock, if the program has not seen that title.
refuse_labelled <- function(frame, title, folder) {
  if (is.null(frame$given$tz) && !title %in% frame$renamed[["from"]]) return(invisible())
  said <- said_of_clock(title, folder, "T00:00:00Z", NULL, "without tz times are those of UTC")
  if (!is.null(said)) {
    refuse("columns", said[1], ", and its moments are labelled UTC: if they are, name tz = \"UTC\", and else ", zone_of_clock(title, said[2]))
  }
}

# How moments get the zone of their clock in place of UTC.
zone_of_clock <- function(title, zone = "Europe/Ljubljana") {
  paste0("give them the zone of their clock, as by as.POSIXct(format(x[[\"", title, "\"]]), tz = \"", zone, "\")")
}

# What is said of a column that says another clock than UTC, with which moments are labelled.
beside_labels <- function(title) {
  paste0(", and the moments of ", one_line(title), " are labelled UTC: if they are, remove it, and else ", zone_of_clock(title))
}

# The columns of moments of these titles that are labelled UTC.
labelled_in <- function(frame, titles) {
  Filter(function(title) is_utc(zone_of_times(as.POSIXct(as.list(frame$x)[[title]]))), titles)
}

# Refuses a column that is not read and says that times which are moments labelled UTC are by the clock of a summer, which UTC has not.
refuse_summers <- function(frame, sources, folder) {
  labelled <- labelled_in(frame, intersect(sources, frame$moments))
  if (!length(labelled)) return(invisible())
  for (title in setdiff(intersect(names(frame$parts), readable(names(columns_of(frame$x)))), sources)) {
    kinds <- flags_of_parts(frame$parts[[title]])
    at <- if (length(kinds)) kind_of_summer(title, kinds, folder)
    row <- if (length(at)) which(texts_of_parts(frame$parts[[title]]) == kinds[at])[1]
    if (length(row)) {
      refuse_row(frame$x, "columns", NULL, paste0("column ", match(title, names(frame$parts)), " '", one_line(title), "' says that times are by the ",
                                                  "clock of a summer (record ", row, ")", beside_labels(labelled[1])))
    }
  }
}

# The few kinds of cells of a column that may be flags; NULL of another one.
flags_of_parts <- function(parts) {
  own <- parts[[1]]
  if (length(parts) > 1 || length(unique(utils::head(own$numbers, some_numbers))) > most_flags) return(NULL)
  kinds <- if (is.null(own$numbers)) own$kinds[unique(own$place)] else cells_of_numbers(unique(own$numbers))
  if (length(kinds) <= most_flags) setdiff(kinds, c("", NA))
}

# Which of these cells of a column says of a time that it is by the clock of a summer, as the program takes its title.
kind_of_summer <- function(title, kinds, folder) {
  path <- file.path(folder, "summer.csv")
  columns <- list(kinds, sprintf("2024-01-15 12:00:%02d", seq_along(kinds)), rep("500000", length(kinds)), rep("5000000", length(kinds)))
  write_parts(`names<-`(lapply(columns, parts_of_cells), c(title, "datetime", "easting", "northing")), path)
  said <- c(run_split(path, "--time=datetime", file.path(folder, "summer"))$text, "")[1]
  unlink(file.path(folder, "summer"), recursive = TRUE)
  found <- regmatches(said, regexec("' says that times are by the clock of a summer \\(record ([0-9]+)\\)", said))[[1]]
  if (length(found)) as.numeric(found[2])
}

# Refuses moments of the session's zone, which they have not themselves, whose title says UTC.
refuse_of_session <- function(title, zone, folder) {
  said <- if (zone %in% OlsonNames()) said_of_clock(title, folder, "T00:00:00", paste0("--tz=", zone), paste("tz is", zone))
  if (!is.null(said)) {
    refuse("columns", said[1], ", and its moments have no zone, and are by the clock of the session, ", zone, ": give them their own, as by ",
           "as.POSIXct(format(x[[\"", title, "\"]]), tz = \"UTC\"), or rename the column")
  }
}

# What the program says of the title of a column of times of this form, if that is another clock than the one of these words, and the zone of it.
said_of_clock <- function(title, folder, clock, words, beside) {
  path <- file.path(folder, "clock.csv")
  write_parts(`names<-`(lapply(c(paste0("2024-05-01", clock), "500000", "5000000"), parts_of_cells), c(title, "easting", "northing")), path)
  refusal <- run_split(path, c(paste0("--time=", title), words), file.path(folder, "clock"))
  form <- paste0("^column 1 ('.*' says .*), and ", beside, ": .*?(?:as by tz = \"([^\"]*)\".*)?$")
  text <- c(refusal$text, "")[1]
  found <- regmatches(text, regexec(form, text, perl = TRUE))[[1]]
  if (length(found)) c(found[2], if (nzchar(found[3])) found[3] else "Europe/Ljubljana")
}
