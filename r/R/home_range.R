# The package's first function, and the class of what it answers.

# The home ranges of the animals of fixes, or of a table of fixes, which is read first.
home_range <- function(x, levels = c(50, 95, 100), by = NULL, ..., progress = interactive(), quiet = FALSE) {
  if (missing(x)) refuse_missing("home_range")
  local_options(x, levels, by, ..., progress, quiet)
  refuse_sides(x, levels, ...)
  levels <- checked_levels(levels)
  check_truth(quiet, "quiet")
  check_truth(progress, "progress")
  if (is_text(x) && !is.null(by) && !is_text(by) && !is.function(by)) {
    refuse("option", "by goes by rows, and fixes of a file stand in another order: read the file before, as by read.csv, and hand in ",
           "the data frame, with a value for each of its rows")
  }
  check_order(x, by, is_made_of(substitute(x), substitute(by)))
  check_turned(x, by, substitute(by), parent.frame())
  check_names_of_values(by, x)
  program <- homerange_program()  # refuses now, and not after all has been read, where there is none
  ranges <- in_folder(function(folder) {
    if (is_period(by)) check_period(by, names(x))
    read <- named_by(by, fixes_to_take(x, list(...), quiet, folder, by))
    whole <- whole_fixes(read$fixes)
    if (!is.null(by)) {
      labels <- labels_of(read$fixes, by, read$frame, is_text(x))
      whole <- grouped_fixes(whole, labels, if (is_period(by)) line_of_period(by, read$fixes) else questions_of_groups(labels))
      if (!quiet) for (line in whole$notes) tell_note(line, kind_of_said(line))
    }
    tracks <- if (is.null(by) && !is.null(read$tracks)) read$tracks else write_tracks(whole$fixes, folder)
    report <- run_all(program, tracks, c("--unit", facts_of(read$fixes)$unit, "--percent", levels), progress)
    if (!identical(report$rows$second, whole$fixes$moment)) refuse("check", "the report has not the times of the fixes")
    ranges_of_fixes(report, whole, read$fixes)
  })
  ranges$program <- identity_of(program)
  ranges$call <- own_call(match.call())
  ranges
}

# Refuses a call of a function without a table.
refuse_missing <- function(called) refuse("option", "x is missing: fixes, a data frame or a file are wanted, as by ", called, "(x)")

# The fixes of a table with the rows of a frame that they are, for groups; of fixes that were read there are no options.
fixes_to_take <- function(x, options, quiet, folder, by) {
  options <- Filter(Negate(is.null), options)
  check_options(options)
  if (is_fixes(as_fixes(x)) && length(options)) {
    refuse("option", names(options)[1], " says how a table is read, and these fixes were read already: give it to read_fixes")
  }
  read_table(x, options, quiet, folder, has_rows = !is.null(by) && !is_period(by), used = by)
}

# The ranges of a report of fixes, with what is known of these.
ranges_of_fixes <- function(report, whole, fixes) {
  facts <- facts_of(fixes)
  since <- if (is.null(whole$groups)) left_since(fixes)
  ranges <- new_home_range(report, whole$fixes$time, whole$fixes, since$left, facts$crs, whole$shift, facts$zone,
                           c(facts$notes, whole$notes), clock_of_fixes(fixes))
  ranges$unknown <- since$unknown
  ranges["groups"] <- list(whole$groups)
  ranges$read <- facts[intersect(c("record", "files", "is_frame", "is_again"), names(facts))]
  ranges$readings <- list(records = records_of(facts), fixes = sum(ranges$animals$fixes) + sum(since$left$fixes))
  ranges
}

# A call in which a table that was put there itself, as do.call puts it, is its argument's name.
own_call <- function(call) {
  if (!is.language(call$x)) call$x <- quote(x)
  call
}

# Levels as the program takes them.
checked_levels <- function(levels) {
  if (is.object(levels) || !is.numeric(levels) || length(levels) == 0 || anyNA(levels)) {
    refuse("option", "levels: numbers from 1 to 100 are wanted, such as c(50, 95), and not ", what_it_is(levels), help_for_level(levels))
  }
  odd <- levels[levels != round(levels) | levels < 1 | levels > 100]
  if (length(odd)) {
    refuse("option", "levels: ", cells_of_numbers(odd[1]), " is not a whole number from 1 to 100", help_for_level(odd[1]))
  }
  if (anyDuplicated(levels)) refuse("option", "levels: ", levels[duplicated(levels)][1], " is there twice")
  paste(sprintf("%.0f", levels), collapse = ",")
}

# What to write for a share of 1, for a number that is not whole, or for one in quotes; NULL of others.
help_for_level <- function(level) {
  if (is.factor(level)) level <- as.character(level)
  if (is.character(level) && all(grepl("^ *[0-9]+ *%?( *, *[0-9]+ *%?)* *$", level)) && length(level)) {
    plain <- paste(trimws(gsub("%", "", level, fixed = TRUE)), collapse = ", ")
    is_one <- length(level) == 1
    return(paste0(": ", if (is_one) "it is a text" else "they are texts", ", so write ", if (grepl(",", plain)) paste0("c(", plain, ")") else plain,
                  " without quotes"))
  }
  if (is.object(level) || !is_number(level)) return(NULL)
  near <- if (level > 0 && level < 1) 100 * level else round(level)
  if (near != level && near >= 1 && near <= 100 && near == round(near)) paste0(": levels are per cent, such as ", near)
}

# Refuses arguments that the function which calls has not.
check_dots <- function(...) {
  names <- names_of_arguments(...)
  if (length(names)) refuse_argument(names[1], names(formals(sys.function(sys.parent()))))
  look_at_arguments(parent.frame(), sys.function(sys.parent()))
}

# Refuses an argument, or one without a name, that is none of these; says which of them it is, where other tools call it so.
refuse_argument <- function(name, known) {
  if (!nzchar(name)) refuse("option", "there is an argument too many")
  is_own <- vapply(strsplit(arguments_of_others[names(arguments_of_others) %in% known], " "), function(names) name %in% names, NA)
  refuse("option", "there is no argument ", name, if (any(is_own)) paste0(": here it is ", names(which(is_own))[1]))
}

# The names of arguments, "" of those without one.
names_of_arguments <- function(...) {
  given <- list(...)
  if (is.null(names(given))) rep("", length(given)) else names(given)
}

# An object of a report's tables, the time of each row, and what else is known, such as the UTM zone and what was said.
# Coordinates are those of the program, to which the shift, in metres, was added.
new_home_range <- function(report, time, fixes = NULL, left_out = NULL, crs = NULL, shift = c(0, 0), zone = NULL,
                           notes = NULL, tz = "UTC") {
  diag(report$overlaps) <- report$animals$fixes
  report$rows$time <- time
  structure(list(
    unit = report$unit, animals = report$animals[c("animal", "fixes")], rows = report$rows, corners = report$corners,
    percents = report$percents, overlaps = report$overlaps, fixes = fixes, left_out = left_out, crs = crs, shift = shift,
    zone = zone, notes = notes, tz = tz, cache = new.env(parent = emptyenv())
  ), class = "home_range")
}

# Eastings and northings of the program in metres where they were.
in_metres <- function(ranges, places) {
  scale <- units_known[[ranges$unit]]$scale
  cbind(easting = as.vector(places[, "easting"]) / scale - ranges$shift[1],
        northing = as.vector(places[, "northing"]) / scale - ranges$shift[2])
}
