# What helps in R where the program refuses a time that is counted or written otherwise, a number, a type of fixes, or an option. Of a frame
# its columns are known, of a file none are.

titles_of_types <- c("gps-fix-type", "fix-type", "fixtype", "fix-status", "fixstatus", "type-of-fix")
days_since <- list("days since 1970" = c(7305, 32874, 0), "days of Excel" = c(32874, 49310, 25569),  # 1990 to 2059, to 2034, and 1993 to 2077
                   "modified Julian days" = c(49310, 80000, 40587), "Julian days" = c(2400000, 2500000, 2440587.5))
parts_since_1970 <- list("13" = c("milliseconds", "1e3"), "16" = c("microseconds", "1e6"), "19" = c("nanoseconds", "1e9"))  # by their digits
parts_of_second <- c("seconds" = 1, "milliseconds" = 1e3, "microseconds" = 1e6, "nanoseconds" = 1e9)
titles_of_times <- c("second", "timestamp", "t-", "date", "time", "datetime", "date-time", "acquisition-time", "tracked-at")
sign_helps <- c("%OS" = "%S has the decimals of seconds: write it for %OS", "%T" = "%H:%M:%S stands for %T", "%F" = "%Y-%m-%d stands for %F",
                "%R" = "%H:%M stands for %R", "%e" = "%d stands for %e",
                "%z" = "a form has no offset: make moments of its texts, as by as.POSIXct(.., format = .., tz = \"UTC\")",
                "%B" = "make moments of its texts, as by as.POSIXct(.., format = .., tz = \"UTC\")")

# The titles of a frame; none of a file.
titles_in <- function(frame) readable(as.character(names(frame$x)))

# How many digits clocks without their colons have in a column, such as 30, 130 and 1330, which have lost zeros; 0 where it has others.
digits_of_clocks <- function(column, title) {
  if (is.null(column)) return(0)
  cells <- cells_of_column(column, title)
  cells <- cells[nzchar(cells)]
  if (!length(cells) || !all(grepl("^[0-9]{1,6}$", cells))) return(0)
  numbers <- as.numeric(cells)
  digits <- if (max(numbers) < 10000) 4 else 6
  are_clocks <- all(numbers < 24 * 10^(digits - 2) & numbers %% 100 < 60 & numbers %/% 100 %% 100 < 60)
  if (are_clocks && max(numbers) >= 100) digits else 0
}

forms_of_clocks <- c("4" = "%H%M", "6" = "%H%M%S")

# Moments or days far behind the year 9999, whose numbers may be of another part of a second, or seconds; NULL of others.
help_for_far <- function(found, frame) {
  at <- match(found[3], one_line(titles_in(frame)))
  column <- if (!is.na(at)) as.list(frame$x)[[at]]
  if (!inherits(column, c("POSIXt", "Date"))) return(NULL)
  numbers <- as.numeric(if (inherits(column, "POSIXlt")) as.POSIXct(column) else column)
  seconds <- max(numbers[is.finite(numbers)], 0) / parts_of_second
  kind <- which(seconds >= 1e8 & seconds < 1e10)[1]  # from 1973 to 2286
  if (is.na(kind) || kind == 1 && !inherits(column, "Date")) return(NULL)
  own <- paste0("x[[\"", titles_in(frame)[at], "\"]]")
  paste0(sub(paste0("'", found[4], "'"), "far behind the year 9999", found[2], fixed = TRUE), ": if its numbers are ", names(parts_of_second)[kind],
         " since 1970, make moments of them, as by ", own, " <- as.POSIXct(as.numeric(", own, ")", if (kind > 1) paste0(" / 1e", 3 * (kind - 1)),
         ", origin = \"1970-01-01\", tz = \"UTC\")")
}

# A column that says of which zone times are, beside moments labelled UTC, to which the zone of an option does nothing.
help_for_labels <- function(found, frame) {
  titles <- titles_in(frame)
  named <- titles_of_time(frame)
  named[named %in% frame$renamed[["to"]]] <- frame$renamed[["from"]]
  usual <- if (length(named)) named else titles[plain_title(titles) %in% titles_of_times & !vapply(as.list(frame$x), is.numeric, NA)]
  times <- if (length(usual)) usual else frame$moments
  if (!length(times) || !all(times %in% frame$moments)) return(found[1])
  labelled <- labelled_in(frame, times)
  if (!length(labelled)) return(found[1])
  paste0(found[2], beside_labels(labelled[1]))
}

# How clocks are written with all their digits.
help_for_clocks <- function(digits, own) {
  paste0("write clocks of ", if (digits == 4) "four" else "six", " digits, as by ", own, " <- sprintf(\"%0", digits, "d\", as.integer(", own, "))")
}

# A time that is joined of a day and a clock without its zeros, or of a day and hours with decimals.
help_for_time <- function(found, frame) {
  if (in_small(found[4]) %in% no_times) return(paste0(found[2], ": if it stands for what is missing, name it, by na = \"", found[4], "\""))
  far <- if (grepl("^(-?inf|[0-9]{5,}-.*)$", found[4])) help_for_far(found, frame)
  if (!is.null(far)) return(far)
  titles <- titles_of_time(frame)
  cells <- strsplit(found[4], " ", fixed = TRUE)[[1]]
  are_alike <- length(cells) == length(titles) && length(titles) >= 2
  if (!are_alike || found[3] != one_line(paste(titles, collapse = " "))) return(found[1])
  last <- titles[length(titles)]
  own <- paste0("x[[\"", last, "\"]]")
  digits <- digits_of_clocks(as.list(frame$x)[[last]], last)
  if (digits > nchar(cells[length(cells)])) return(paste0(found[2], ": ", help_for_clocks(digits, own)))
  is_part <- length(titles) == 2 && grepl("^[0-9]+[.][0-9]+$", cells[2])
  if (!is_part || is.null(frame$x)) return(found[1])
  known <- suppressWarnings(as.numeric(as.character(as.list(frame$x)[[last]])))
  said <- sub(": name its form too, .*$", "", found[2])  # hours with decimals look as clocks with a point
  paste0(said, ": ", help_for_decimals(titles[1], last, frame, all(known < 1, na.rm = TRUE)))
}

# What helps where hours have decimals, or are parts of a day.
help_for_decimals <- function(day, hours, frame, are_parts = FALSE) {
  moment <- moment_of_days(as.list(frame$x)[[day]], day, c(frame$given$tz, frame$clock$tz, "UTC")[1])
  own <- paste0("x[[\"", hours, "\"]]")
  if (!is.numeric(as.list(frame$x)[[hours]])) own <- paste0("as.numeric(", own, ")")
  paste0("make moments of both, as by ", moment, " + ", if (are_parts) paste0("round(86400 * ", own, ")") else paste("3600 *", own),
         ", in a column that time names alone")
}

# Hours that are no clocks, beside the days of one column: clocks without their colons, parts of a day, or hours with decimals.
help_for_hours <- function(found, frame) {
  if (!all(found[3:4] %in% titles_in(frame))) return(found[1])
  column <- as.list(frame$x)[[found[3]]]
  digits <- digits_of_clocks(column, found[3])
  if (digits) {
    form <- paste(c(frame$given[["time_format"]], "%Y-%m-%d")[1], forms_of_clocks[[as.character(digits)]])
    return(paste0(found[2], ": ", help_for_clocks(digits, paste0("x[[\"", found[3], "\"]]")), ", and join them, as by time = \"", found[4], ",",
                  found[3], "\", time_format = \"", form, "\", or remove it"))
  }
  known <- if (is.numeric(column)) column[!is.na(column)]
  if (!length(known) || any(known < 0 | known > 24)) return(found[1])
  paste0(found[2], ": ", help_for_decimals(found[4], found[3], frame, max(known) < 1), ", or remove it")
}

# Moments of one day beside others, which are clocks to which a day was given.
help_for_moments <- function(found, frame) {
  at <- match(found[3], one_line(titles_in(frame)))
  column <- if (!is.na(at)) as.list(frame$x)[[at]]
  if (!inherits(column, "POSIXct") || is.null(day_of_all(column))) return(found[1])
  own <- paste0("x[[\"", titles_in(frame)[at], "\"]]")
  paste0(found[2], ", and all of one day: if they are clocks, make clocks of them, as by ", own, " <- format(", own,
         ", \"%H:%M:%S\"), and name both, as by time = \"DAY,", found[3], "\"; or remove it")
}

# The day of moments, more than one, that are all of it; NULL of others.
day_of_all <- function(column) {
  days <- format(column[!is.na(column)], "%Y-%m-%d")
  if (length(days) > 1 && length(unique(days)) == 1) days[1]
}

# Cells that are no numbers, and what helps.
odd_numbers <- list(
  c("^\u2212", "the minus is another sign (U+2212): write -"), c("^ +$", "blanks are no missing cell: empty the cell"),
  c("^[+-]?[0-9]{1,3}([.][0-9]{3}){2,}$", "dots stand between thousands, or a spreadsheet took the decimal sign: mend the column")
)
no_times <- c("nat", "nan")  # words for a time that is missing, in small letters

# A number that is text and written otherwise than it is read.
help_for_number <- function(found, frame) {
  titles <- titles_in(frame)
  at <- match(found[3], one_line(titles))
  column <- if (!is.na(at)) as.list(frame$x)[[at]]
  odd <- Find(function(own) grepl(own[1], found[4], perl = TRUE), odd_numbers)
  if (!is.null(odd)) return(paste0(found[2], ": ", odd[2]))
  if (!is.character(column) && !is.factor(column)) return(found[1])
  own <- paste0("x[[\"", titles[at], "\"]]")
  has_comma <- grepl("^-?[0-9]+,[0-9]+$", found[4])
  if (!has_comma && !grepl("^ *[+-]?([0-9]+[.]?[0-9]*|[.][0-9]+)([eE][+-]?[0-9]+)? *$", found[4])) return(found[1])
  text <- if (has_comma) paste0("sub(\",\", \".\", ", own, ", fixed = TRUE)") else if (is.factor(column)) paste0("as.character(", own, ")") else own
  what <- if (has_comma) "if its comma stands before decimals, make" else "make"
  paste0(found[2], ": ", what, " numbers of its column, as by ", own, " <- as.numeric(", text, ")")
}

# A year of two digits that was read as one of the first century.
help_for_year <- function(found, frame) {
  if (is.null(frame$x)) return(found[1])
  paste0(found[2], ": if its year was written with two digits, read it so, as by as.POSIXct(.., format = \"%d.%m.%y\", tz = \"UTC\")")
}

# Types of fixes that no fix has.
help_for_types <- function(found, frame) {
  titles <- titles_in(frame)
  is_own <- if (is.null(frame$given[["fix"]])) plain_title(titles) %in% titles_of_types else titles %in% frame$given[["fix"]]
  if (any(is_own)) paste0(found[1], kinds_said(frame, which(is_own)[1])) else found[1]
}

# What a column has.
kinds_said <- function(frame, at) {
  title <- titles_in(frame)[at]
  kinds <- one_line(setdiff(unique(cells_of_column(as.list(frame$x)[[at]], title)), ""))
  if (length(kinds)) paste0(": column '", one_line(title), "' has ", paste(utils::head(kinds, 5), collapse = ", "), if (length(kinds) > 5) ", ..")
}

# A number that counts something else than seconds since 1970. What has a clock without a zone is made text, which tz reads.
help_for_count <- function(found, frame) {
  at <- match(found[3], one_line(titles_in(frame)))
  kind <- names(Filter(function(days) as.numeric(found[4]) >= days[1] && as.numeric(found[4]) < days[2], days_since))
  looks_so <- length(kind) && grepl("days", found[5], fixed = TRUE)
  said <- if (looks_so) paste0(found[3], " is '", found[4], "', which looks like ", kind) else found[2]
  if (is.na(at)) return(sub(found[2], said, found[1], fixed = TRUE))
  own <- paste0("x[[\"", titles_in(frame)[at], "\"]]")
  numbers <- if (is.numeric(as.list(frame$x)[[at]])) own else paste0("as.numeric(as.character(", own, "))")
  if (length(kind)) {
    since <- days_since[[kind]][3]
    are_whole <- !any(grepl(".", cells_of_column(as.list(frame$x)[[at]], found[3]), fixed = TRUE))
    days <- if (since) paste0("(", numbers, " - ", format(since, digits = 15), ")") else numbers
    is_date <- since == 0 && are_whole
    made <- if (is_date) paste0("as.Date(", numbers, ", origin = \"1970-01-01\")") else
      paste0("format(as.POSIXct(round(86400 * ", days, "), origin = \"1970-01-01\", tz = \"UTC\"))")
    return(paste0(said, ": ", if (!looks_so) paste0("if it is ", kind, ", "), "make ", if (is_date) "days" else "moments", " of it, as by ", own, " <- ", made))
  }
  part <- parts_since_1970[[as.character(nchar(found[4]))]]
  if (is.null(part)) return(found[1])
  paste0(found[2], ": if it is ", part[1], " since 1970, make moments of it, as by ", own, " <- as.POSIXct(", numbers, " / ", part[2],
         ", origin = \"1970-01-01\", tz = \"UTC\")")
}

# A row without a time.
help_for_none <- function(found, frame) {
  at <- match(found[2], one_line(titles_in(frame)))
  if (is.na(at) || !anyNA(as.list(frame$x)[[at]])) return(found[1])
  paste0(found[1], ": leave rows without one out, as by x[!is.na(x[[\"", titles_in(frame)[at], "\"]]), ]")
}

# A form of times with signs that others have.
help_for_form <- function(found, frame) {
  own <- sign_helps[vapply(names(sign_helps), grepl, NA, found[2], fixed = TRUE)]
  if (length(own)) paste0(found[1], ": ", own[[1]]) else found[1]
}

# An offset in place of a zone of times: those of Etc have its other sign.
help_for_offset <- function(found, frame) {
  hours <- as.numeric(found[4])
  zone <- if (hours == 0) "UTC" else paste0("Etc/GMT", if (found[3] == "+") "-" else "+", hours)
  if (hours > 12) found[1] else paste0(found[1], ": the offset ", found[3], hours, " is that of '", zone, "'")
}

# A column that there is not, where one has the title that read.csv makes of its title.
help_for_dots <- function(found, frame) {
  as_made <- function(titles) gsub("[.]+", ".", make.names(titles))
  titles <- Filter(function(title) grepl(".", title, fixed = TRUE), titles_in(frame))
  own <- titles[as_made(titles) %in% as_made(strsplit(found[3], " or ", fixed = TRUE)[[1]])]
  if (!length(own)) return(found[1])
  paste0(found[2], ": '", own[1], "' may be it, as read.csv changes titles: keep them, by read.csv(.., check.names = FALSE)")
}

# A moment that is none, with the option whose it is.
help_for_bound <- function(found, frame) {
  own <- Filter(function(name) identical(as.vector(frame$given[[name]]), found[2]), bound_options)
  if (length(own)) paste0(own[1], ": ", found[1]) else found[1]
}

# A column that there is not, where commas and bars stand in titles.
help_for_column <- function(found, frame) {
  if (any(grepl("[,|]", titles_in(frame)))) return(paste0(found[1], ": rename columns whose titles have a comma or |"))
  titles <- titles_in(frame)
  if (!length(titles)) titles <- gsub("^'|'$", "", unlist(regmatches(found[1], gregexpr("'[^']*'", found[1]))))[-1]
  like <- like_title(found[3], titles)
  if (length(like)) paste0(found[1], like) else help_for_dots(found, frame)
}

# What one sees of a title: no blanks but those between words, and nothing of signs that stand for nothing that is seen.
as_seen <- function(titles) {
  unseen <- "[\u00ad\u200b-\u200f\u202a-\u202e\u2060-\u2064\ufeff]"
  blanks <- "[\\s\u00a0\u2000-\u200a\u202f\u205f\u3000]+"
  trimws(gsub(blanks, " ", gsub(unseen, "", titles, perl = TRUE), perl = TRUE))
}

# How many accents a text has, in letters or behind them.
accents_of <- function(text) {
  signs <- strsplit(text, "")[[1]]
  sum(without_accents(signs) != in_small(signs) & !grepl("^[A-Z]$", signs))
}

# What is said of a title that no column has, where that of one looks like it; NULL else.
like_title <- function(wanted, titles) {
  titles <- setdiff(readable(titles), c(wanted, NA, ""))
  wanted <- readable(wanted)
  are_like <- without_accents(as_seen(titles)) == without_accents(as_seen(wanted)) & vapply(titles, accents_of, 0L) == accents_of(wanted)
  own <- titles[are_like][1]
  if (is.na(own)) return(NULL)
  seen <- as_seen(c(own, wanted))
  what <- if (seen[1] == seen[2]) "blanks or signs that are not seen" else if (nchar(seen[1]) != nchar(seen[2])) "the form of letters" else "capitals"
  paste0("; the column ", in_ascii(own), " differs from it in ", what, " alone: write it so")
}

# A text as R takes it, in quotes, with all signs but those of ASCII by their numbers.
in_ascii <- function(text) {
  codes <- utf8ToInt(text)
  signs <- ifelse(codes < 128, intToUtf8(codes, multiple = TRUE), sprintf(ifelse(codes < 65536, "\\u%04x", "\\U%08x"), codes))
  paste0("\"", gsub("([\"])", "\\\\\\1", paste(signs, collapse = "")), "\"")
}

# What the program says, and what is said in its place.
helps <- list(
  list("^((.*) is '(.*)' and not a time (?:such as 2024-05-01 00:30:04|of the form .*?))(?:: (?:if it is one|name its form), .*)?$", help_for_time),
  list(paste0("^(column [0-9]+ '(.*)' has hours, which the days of the time have not): write them as clocks, such as 00:30, and join them, as by ",
              "time = \"([^,]*),.*\", or remove it$"), help_for_hours),
  list("^(column [0-9]+ '(.*)' has days with clocks), and the times that are read are days alone: name it .*$", help_for_moments),
  list("^((.*) is '(.*)' and not a number of up to 12 digits)(?:: write .*)?$", help_for_number),
  list("^(.* is '00[0-9]{2}-[^']*', which is no time since 1970, and not within 0 to [0-9]+ seconds): if its year .*$", help_for_year),
  list("^(.*there is no column '(.*)'); the table has .*$", help_for_column),
  list("^'(.*)' is no time in .*$", help_for_bound),
  list("^( *) is no zone as 33N$", function(found, frame) paste0("zone = \"", found[2], "\" is no zone as 33N")),
  list("^(no line begins with '(.*)', as that of titles does)$", help_for_dots),
  list("^no fix is left; left out by reason: type [0-9]+$", help_for_types),
  list("^((.*) is '([0-9.]+)', (which (?:looks like|is no second since 1970).*)): write a time such as .*$", help_for_count),
  list("^there is no ([^:,]*)$", help_for_none), list("^time_format is '(.*)', which is no form of a day.*$", help_for_form),
  list("^(column [0-9]+ '.*' says of which zone times are, and is not read): name the zone, .*$", help_for_labels),
  list("^tz='((?:UTC|GMT)?)([+-])0?([0-9]{1,2})(?::?00)?' is no time zone such as .*$", help_for_offset),
  list("^EPSG:.* is no zone as 33N$", function(found, frame) paste0(found[1], ": a reference system is named by crs"))
)

# What the program refuses, with what helps. A frame is its columns and what was asked; of a file what was asked alone.
with_help <- function(text, frame) {
  for (help in helps) {
    found <- regmatches(text, regexec(help[[1]], text, perl = TRUE))[[1]]
    if (length(found)) return(help[[2]](found, frame))
  }
  text
}
