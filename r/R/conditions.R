# How the package refuses, and what it says on its way, each in one line.

# The kinds of refusals of a table, which docs/TABLES.md has. Their errors are homerange_data_error too.
kinds_of_tables <- c("text", "fields", "columns", "ambiguous", "number", "animal", "name", "onefix", "mark", "time", "zone",
                     "degrees", "grid", "scale", "crs", "sensor", "argos", "empty", "unread")

# Stops with a fault of this kind: its classes are homerange_KIND_error and homerange_error. The record is the number of
# the row that has it, counted from 1.
refuse <- function(kind, ..., record = NULL) {
  classes <- paste0("homerange_", c(kind, if (kind %in% kinds_of_tables) "data"), "_error")
  stop(errorCondition(one_line(paste0(...)), class = c(classes, "homerange_error"), kind = kind, record = record))
}

# Text with its control characters and separators of lines escaped.
one_line <- function(text) {
  form <- "[\\x01-\\x1f\\x7f]|\\xc2[\\x80-\\x9f]|\\xe2\\x80[\\xa8\\xa9]"
  bad <- grepl(form, text, perl = TRUE, useBytes = TRUE)
  text[bad] <- vapply(text[bad], escaped, "", USE.NAMES = FALSE)
  text
}

escaped <- function(text) {
  codes <- utf8ToInt(enc2utf8(text))
  if (anyNA(codes)) return(gsub("[[:cntrl:]]", "?", text, useBytes = TRUE))
  signs <- intToUtf8(codes, multiple = TRUE)
  bad <- codes < 32 | codes >= 127 & codes < 160 | codes %in% c(8232, 8233)
  signs[bad] <- sprintf(ifelse(codes[bad] < 256, "\\x%02x", "\\u%04x"), codes[bad])
  paste(signs, collapse = "")
}

# Tells a line as a message with the classes homerange_KIND_note and homerange_note.
tell_note <- function(line, kind) {
  classes <- c(paste0("homerange_", kind, "_note"), "homerange_note", "message", "condition")
  message(structure(class = classes, list(message = paste0("homerange: ", one_line(line), "\n"), call = NULL)))
}

# Has numbers written by digits, with a point, and text read as it is, until the function in this frame ends, whatever the options
# of the session are. The arguments of that function are evaluated before, and looked at.
local_options <- function(..., frame = parent.frame()) {
  look_at_arguments(frame, sys.function(sys.parent()))
  old <- options(scipen = 15, OutDec = ".", digits = 7, encoding = "native.enc")
  do.call(on.exit, list(bquote(options(.(old))), add = TRUE), envir = frame)
}

# What arguments that have no default are.
wanted_arguments <- c(x = "ranges are wanted, as home_range makes them", path = "the name of a file is wanted", folder = "the name of a folder is wanted",
                      file = "the name of a report is wanted", reserve = "an sf geometry is wanted")

of_no_text <- c("levels", "progress", "quiet", "overwrite", "tidy", "units", "start", "made", "reserve", "over", "n", "ranges")

# Evaluates the arguments of the function in a frame. Refuses one that is missing, or cannot be evaluated; a function, which only by may
# be; and one that was written as a part of something, such as x$season, and is NULL, as it is where there is no such part.
look_at_arguments <- function(frame, called) {
  names <- setdiff(names(formals(called)), "...")
  is_missing <- vapply(names, function(name) eval(call("missing", as.name(name)), frame), NA)
  lost <- Filter(function(name) identical(formals(called)[[name]], quote(expr = )), names[is_missing])
  if (length(lost)) refuse("option", lost[1], " is missing: ", wanted_arguments[lost[1]])
  names <- names[!is_missing]
  written <- `names<-`(lapply(names, function(name) eval(call("substitute", as.name(name)), frame)), names)
  further <- if (exists("...", frame, inherits = FALSE)) as.list(eval(quote(substitute(list(...))), frame))[-1]
  written <- c(written, further)
  places <- c(names, if (length(further)) paste0("..", seq_along(further)))
  for (at in seq_along(written)) look_at_argument(c(names(written)[at], "")[1], written[[at]], as.name(places[at]), frame)
}

look_at_argument <- function(name, written, place, frame) {
  value <- tryCatch(eval(place, frame), error = function(fault) refuse_object(name, written, fault))
  text <- substr(paste(deparse(written), collapse = " "), 1, 60)
  if (is.null(value) && is_part_of_other(written)) {
    refuse("option", name, ": ", text, " is NULL: is it misspelt? leave ", name, " out where none is meant")
  }
  if (is.function(value) && is.symbol(written) && name != "by") refuse("option", name, ": ", text, " is a function", help_for_quotes(name, text))
}

# Refuses an argument that names an object which there is not; R says so in the language of the session.
refuse_object <- function(name, written, fault) {
  is_lost <- function(own) identical(conditionMessage(fault), gettextf("object '%s' not found", own, domain = "R"))
  lost <- Filter(is_lost, unique(all.names(written)))
  if (!length(lost)) stop(fault)
  helps <- if (is.symbol(written) && (name != "x" || grepl(".", lost[1], fixed = TRUE))) help_for_quotes(name, lost[1])
  refuse("option", if (nzchar(name)) paste0(name, ": "), "there is no object '", lost[1], "'", helps)
}

help_for_quotes <- function(name, text) {
  if (!name %in% of_no_text) paste0(": a title, or another text, stands in quotes, as by ", if (nzchar(name)) paste(name, "= "), "\"", text, "\"")
}

# Whether an expression names a part of something, as x$season, x[["season"]] and x$season[1:9] do.
is_part_of_other <- function(expression) {
  if (!is.call(expression) || !is.symbol(expression[[1]])) return(FALSE)
  own <- as.character(expression[[1]])
  if (own %in% c("(", "[")) is_part_of_other(expression[[2]]) else own %in% c("$", "[[", "@")
}

# Refuses what is neither TRUE nor FALSE.
check_truth <- function(value, name, help = NULL) {
  if (!is_truth(value)) refuse("option", argument_text(name, value), " is neither TRUE nor FALSE", help)
}

# An argument with its value, as a refusal has it.
argument_text <- function(name, value) paste0(name, " = ", what_it_is(value))

in_digits <- function(numbers) format(numbers, big.mark = ",", decimal.mark = ".", scientific = FALSE, trim = TRUE)

# A number of things in words: "1 fix", "2 fixes".
count_of <- function(number, one, several = paste0(one, "s")) {
  paste(in_digits(number), if (number == 1) one else several)
}
