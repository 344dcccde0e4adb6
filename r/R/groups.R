# Groups of an animal's fixes, each of which has a range of its own: periods of a calendar, or what a column or the call says.

# Seasons are named by their months, since those of north and south have other names.
seasons <- c("Dec-Feb", "Mar-May", "Jun-Aug", "Sep-Nov")
periods <- list(
  year = function(day) sprintf("%04.0f", day$year),
  month = function(day) sprintf("%04.0f-%02.0f", day$year, day$month),
  season = function(day) {
    first <- day$year - (day$month <= 2)  # of a winter, whose December is that of the year before
    name <- seasons[day$month %% 12 %/% 3 + 1]
    ifelse(name == seasons[1], sprintf("%04.0f-%04.0f %s", first, first + 1, name), sprintf("%04.0f %s", day$year, name))
  }
)

# Fixes in the order of animals, groups and times, by names that say animal and group; what these names mean; and what is said of
# groups, behind what is asked of them.
grouped_fixes <- function(whole, labels, questions) {
  fixes <- whole$fixes
  group <- labels[fixes$row]
  key <- paste(match(fixes$animal, unique(fixes$animal)), match(group, unique(group)))
  first <- which(!duplicated(key))
  first <- first[order(match(fixes$animal[first], unique(fixes$animal)), first)]
  known <- list2DF(list(animal = paste(fixes$animal[first], group[first]), of = fixes$animal[first], group = group[first]))
  twice <- which(duplicated(known$animal))
  if (length(twice)) {
    other <- known$of[match(known$animal[twice[1]], known$animal)]
    refuse("name", "by: '", other, "' and '", known$of[twice[1]], "' both have a range named '", known$animal[twice[1]],
           "': rename one")
  }
  place <- match(key, key[first])
  fixes$animal <- known$animal[place]
  fixes <- fixes[order(place, method = "radix"), ]
  row.names(fixes) <- NULL
  note <- paste0("ranges are by group: ", nrow(known), " of ", length(unique(known$of)), " animals")
  list(shift = whole$shift, fixes = fixes, groups = known, notes = c(questions, note))
}

# What the program asks of groups that may be one, or none, as it does of animals by their names. What it refuses of names, but for
# numbers that have lost digits, is none of groups.
questions_of_groups <- function(labels) {
  split <- split_of_names(unique(labels))
  if (!is.null(split$refusal)) {
    what <- sub("^animals ", "groups ", sub("^the name of animal ", "group ", sub("(.*): .*", "\\1", split$refusal$text)))
    if (grepl(lost_digits, what, fixed = TRUE)) refuse("name", "by: ", what, ": ", help_for_digits)
    return(paste("groups are not compared:", what))
  }
  alike <- grep("^animals '.* alone: are they one[?]$", split$record$said, value = TRUE)
  form <- "^animal '(.*)' has [0-9]+ records: are they of no animal[?]$"
  none <- sub(form, "\\1", grep(form, split$record$said, value = TRUE))
  counts <- vapply(none, function(name) sum(labels == name), 0L)
  c(sub("^animals ", "groups ", alike), sprintf("group '%s' has %d fixes: are they of no group?", none, counts))
}

# The group of each fix. Where a frame was read, values are those of its rows.
labels_of <- function(fixes, by, frame = NULL, is_file = FALSE) {
  if (is_period(by)) return(labels_of_period(fixes, by))
  own <- if (is_text(by)) frame$own[names(frame$own) %in% by]  # that of the frame, though fixes have one of the title too
  if (is_text(by) && (by %in% titles_twice(fixes) || length(own) > 1)) {
    refuse("ambiguous", "by: there are two columns '", by, "': rename one")
  }
  if (is_text(by)) check_kept(by, fixes, is_file)
  if (is_text(by) && !length(own) && by %in% names(fixes)) {
    by <- fixes[[by]]
  } else if (is.function(by)) {
    by <- tryCatch(by(fixes), error = function(fault) {
      refuse("option", "by: the function of the fixes has failed: ", one_line(conditionMessage(fault)), ": a title, or a period such as \"month\", ",
             "stands in quotes")
    })
  } else {
    if (length(own)) by <- own[[1]] else check_titles(by, fixes)
    if (!is.null(frame)) return(check_labels(text_of_groups(values_of(by, frame$number, "rows"))[frame$rows], frame$rows))
  }
  check_labels(text_of_groups(values_of(by, nrow(fixes), "fixes")), seq_len(nrow(fixes)))
}

# Refuses the title of a column of a file, of which fixes keep none but their own.
check_kept <- function(by, fixes, is_file) {
  facts <- facts_of(fixes)
  is_of_file <- is.null(facts$sources) && (is_file || !by %in% names(fixes))
  if (is_of_file && is_listed(by, grep("^not read: ", facts$notes, value = TRUE))) {
    refuse("columns", "by: the column \"", by, "\" of a file is not kept: read the file before, as by read.csv, and take that in its place")
  }
}

# Refuses a text that is the title of no column, and titles of several, periods among them.
check_titles <- function(by, fixes) {
  if (is_text(by) && nrow(fixes) > 1) refuse_title(by, names(fixes))
  if (!is.character(by) || length(by) < 2 || anyDuplicated(by) || anyNA(by)) return(invisible())
  others <- setdiff(by, names(fixes))
  if (!length(others)) refuse("option", "by names ", length(by), " columns: join them, as by ", joined_texts(by))
  if (length(by) == nrow(fixes) || !any(by %in% c(names(fixes), names(periods)))) return(invisible())
  unknown <- setdiff(others, names(periods))
  if (length(unknown)) refuse_title(unknown[1], names(fixes))
  refuse("option", "by names ", length(by), " columns or periods: ", help_for_periods(by, others))
}

# Refuses the title of no column, with that of these which looks like it.
refuse_title <- function(by, titles) {
  refuse("columns", "by: there is no column \"", by, "\", and it is none of ", paste0("\"", names(periods), "\"", collapse = ", "), like_title(by, titles))
}

# How the texts of columns, or of years and months, are joined.
joined_texts <- function(titles) {
  forms <- c(year = "%Y", month = "%Y-%m")[titles]
  paste0("paste(", paste(ifelse(is.na(forms), paste0("fixes$", titles), sprintf("format(fixes$time, \"%s\")", forms)), collapse = ", "), ")")
}

# What helps where several titles are wanted, some of which are periods: months and seasons are those of a year.
help_for_periods <- function(titles, own) {
  if (length(own) == length(titles)) {
    finest <- if ("month" %in% own) "month" else "season"
    return(paste0("write by = \"", finest, "\", which has ", paste(setdiff(own, finest), collapse = " and "), " too"))
  }
  if (!"season" %in% own) return(paste0("join them, as by function(fixes) ", joined_texts(titles)))
  other <- setdiff(titles, own)[1]
  paste0("write by = \"season\" for fixes of one ", other, " alone, as by fixes[fixes$", other, " == .., ]")
}

# A value for each of so many rows or fixes.
values_of <- function(by, number, what) {
  if (inherits(by, "POSIXlt")) by <- as.POSIXct(by)
  if (length(dim(by)) > 1) {
    refuse("option", "by is a table, and a value for each row is wanted: take one column, or join several, as by paste(x$a, x$b)")
  }
  if (is.list(by) && length(by) == number && number > 1 && all(lengths(by) == 1)) refuse("option", "by is a list, and a vector is wanted: unlist(..) makes one of it")
  if (is.list(by) && length(by) && all(lengths(by) == number)) {
    refuse("option", "by is a list of ", count_of(length(by), "vector"), ", and one vector is wanted: ",
           if (length(by) == 1) "take it, as by by[[1]]" else "join them, as by paste(by[[1]], by[[2]])")
  }
  if (is.list(by) && length(by) && all(vapply(by, is_text, NA))) {
    refuse("option", "by is a list of ", count_of(length(by), "text"), ": ", if (length(by) == 1) paste0("write by = \"", by[[1]], "\"") else
      paste0("write a vector, as by c(", paste0("\"", unlist(by), "\"", collapse = ", "), ")"))
  }
  if (is.list(by) || is.language(by) || is.environment(by)) {
    refuse("option", argument_text("by", by), " is none of ", paste0("\"", names(periods), "\"", collapse = ", "),
           ", no column of the fixes, no value for each of them, and no function of them")
  }
  if (length(by) != number) refuse("option", "by is ", count_of(length(by), "value"), " for ", number, " ", what)
  by
}

# Refuses values with the names of animals, or with those of another column, which are fewer or more than rows.
check_names_of_values <- function(by, x) {
  if (is.null(names(by)) || length(by) == nrow(x) || !is.data.frame(x)) return(invisible())
  own <- Filter(function(column) is.character(column) || is.factor(column), columns_of(x))
  title <- names(own)[vapply(own, function(column) all(as.character(column) %in% names(by)), NA)]
  if (length(title)) {
    refuse("option", "by has names that are those of the column '", title[1], "', and not a value for each row: a column has it for each fix, as by ",
           if (is.list(by)) "unlist(by)" else "by", "[as.character(x$", title[1], ")]")
  }
}

# Groups as text; what is no name of one is missing.
text_of_groups <- function(by) {
  if (is.double(by) && !is.object(by)) {
    odd <- which(is.infinite(by) | by != floor(by) | abs(by) >= most_exact)[1]
    fault <- if (!is.na(odd) && is.finite(by[odd]) && by[odd] == floor(by[odd])) c(lost_digits, help_for_digits) else
      c("a number that is not whole", "make it text")
    if (!is.na(odd)) refuse_group(odd, cells_of_numbers(by[odd]), fault)
  }
  if (is.character(by) || is.factor(by)) return(check_printable(in_utf8(as.character(by))))
  if (inherits(by, "POSIXct") && all(as.numeric(by) %% 1 == 0, na.rm = TRUE)) return(moments_by_clock(by))
  cells <- cells_of_column(by, "by")
  odd <- which(grepl("^<[^<>]+>$", cells))[1]
  if (!is.na(odd)) {
    refuse("option", "row ", odd, ": by has a group of the class ", class(by)[1], ", which is no text: make it one, as by ",
           if (inherits(by, "haven_labelled")) "haven::as_factor" else "as.character", record = odd)
  }
  cells
}

# Refuses a group for a fault, with what helps.
refuse_group <- function(row, group, fault) {
  refuse("option", "row ", row, ": by has a group that is '", group, "', ", fault[1], ": ", fault[2], record = row)
}

# Moments of whole seconds as their own clock shows them, and as days where all are midnights.
moments_by_clock <- function(by) {
  at <- as.POSIXlt(by, tz = zone_of_times(by))
  if (all(at$hour == 0 & at$min == 0 & at$sec == 0, na.rm = TRUE)) return(format(at, "%Y-%m-%d"))
  text <- format(at, "%Y-%m-%dT%H:%M:%S%z")
  sub("[+]00:00$", "Z", sub("([0-9]{2})$", ":\\1", text))
}

# Refuses a group that is more than one line, or no text.
check_printable <- function(groups) {
  bad <- which(!is.na(groups) & !validUTF8(groups))[1]
  if (!is.na(bad)) refuse_group(bad, readable(groups[bad]), c("which is no text in UTF-8", "mend it"))
  odd <- which(one_line(groups) != groups)[1]
  if (is.na(odd)) groups else refuse_group(odd, groups[odd], c("with a control character", "make it text"))
}

# Refuses a fix of no group, by its row.
check_labels <- function(labels, rows) {
  odd <- rows[is.na(labels) | labels == ""]
  if (length(odd)) {
    refuse("option", "row ", odd[1], ": by has no group: leave fixes without a group out, as by subset(fixes, ..)",
           record = odd[1])
  }
  labels
}

# Of a column of groups that the program refuses, since it may be something else by its title, it is said how it is kept.
named_by <- function(by, call) {
  tryCatch(call, homerange_data_error = function(fault) {
    text <- conditionMessage(fault)
    is_kept <- is_text(by) && grepl(by, text, fixed = TRUE) && grepl("\\b(rename|remove it)\\b", text)
    if (!is_kept) stop(fault)
    refuse(fault$kind, text, "; of groups give it another title, as by names(x)[names(x) == \"", by, "\"] <- \"group\", by = \"group\"", record = fault$record)
  })
}

is_period <- function(by) is_text(by) && by %in% names(periods)

# Refuses a period that is the title of a column too, in whatever capitals.
check_period <- function(by, titles) {
  own <- titles[in_small(readable(as.character(titles))) == by]
  if (length(own)) {
    what <- if (own[1] == by) "a column" else paste0("the column \"", own[1], "\"")
    refuse("option", "by = \"", by, "\" is a period of the calendar, and ", what, " too: by = fixes$", own[1], " takes the column")
  }
}

# What is said of a period that is also the title of a column of the file that fixes are of, in whatever capitals.
line_of_period <- function(by, fixes) {
  facts <- facts_of(fixes)
  titles <- unlist(strsplit(sub("^not read: ", "", grep("^not read: ", facts$notes, value = TRUE)), ", "))
  own <- titles[in_small(titles) == by]
  if (is.null(facts$sources) && length(own)) {
    paste0("ranges are by the ", by, " of the calendar, and not by the column '", own[1], "' of the file, which is not kept: read the file before ",
           "to take that")
  }
}

# What is said of fixes, of which the column of groups is not among those that are not read.
without_title <- function(lines, by) {
  if (!length(lines)) return(lines)
  is_unread <- startsWith(lines, "not read: ")
  rest <- sub(paste0(", ", one_line(readable(by)), ","), ",", paste0(",", sub("^not read:", "", lines[is_unread]), ","), fixed = TRUE)
  lines[is_unread] <- paste0("not read:", substr(rest, 2, nchar(rest) - 1))
  lines[lines != "not read:"]
}

# Why seconds have no calendar, and what helps.
why_no_calendar <- function(fixes) {
  are_dates <- are_seconds_of_dates(fixes$second)
  if (all(are_dates) || !any(are_dates)) {
    return(paste("seconds have no calendar, since none is of the years 1973 to 2262: read a table with date-times of these, or name groups by",
                 "a column of text"))
  }
  odd <- which(!are_dates)[1]
  paste0("a fix of '", fixes$animal[odd], "', at ", format(.POSIXct(fixes$second[odd], tz = "UTC"), "%Y-%m-%d %H:%M:%S"), " UTC, is not of the ",
         "years 1973 to 2286, so that no second has a calendar: leave it out, as by since, or name groups by a column of text")
}

# The period of each fix, by the clock of the fixes.
labels_of_period <- function(fixes, by) {
  if (!"time" %in% names(fixes)) refuse("option", "by = \"", by, "\": ", why_no_calendar(fixes))
  clock <- clock_of_fixes(fixes)
  by_distinct(900 * (as.numeric(fixes$time) %/% 900), function(quarters) {  # in which no clock is moved
    day <- as.POSIXlt(.POSIXct(quarters, tz = clock), tz = clock)
    periods[[by]](list(year = day$year + 1900, month = day$mon + 1))
  })
}

# A table with a column of animals, which where ranges are by groups gets one of groups behind it.
with_groups <- function(ranges, table) {
  if (is.null(ranges$groups)) return(table)
  place <- match(table$animal, ranges$groups$animal)
  table$animal <- ranges$groups$of[place]
  at <- match("animal", names(table))
  list2DF(c(as.list(table)[seq_len(at)], list(group = ranges$groups$group[place]), as.list(table)[-seq_len(at)]))
}

# Refuses ranges of groups, of which it is not known what was left out of each.
check_whole <- function(ranges, what) {
  if (!is.null(ranges$groups)) {
    refuse("option", what, " is of whole ranges, and these are by groups: make those of one group alone, as by subset(fixes, ..)")
  }
}
