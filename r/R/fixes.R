# Fixes that were read: a data frame with what is known of it, which rows that are taken away or bound keep.

columns_of_fixes <- c("animal", "easting", "northing")  # and time, or second
titles_of_fixes <- c(columns_of_fixes, "time", "second")
said_of_no_animal <- "no column has a usual title for the animal: all fixes are of one, named animal"

new_fixes <- function(table, facts) structure(table, class = c("homerange_fixes", "data.frame"), homerange = facts)

# A table that was made of fixes, with what is known of these where it still has their columns.
with_reading <- function(table, fixes) {
  is_known <- is.data.frame(table) && has_columns(table)
  attr(table, "homerange") <- if (is_known) facts_of(fixes)
  class(table) <- c(if (is_known) "homerange_fixes", setdiff(class(table), "homerange_fixes"))
  table
}

# Columns as a data frame; one of several itself is one column.
frame_of <- function(columns) structure(columns, class = "data.frame", row.names = .set_row_names(NROW(columns[[1]])))

facts_of <- function(fixes) attr(fixes, "homerange", exact = TRUE)

# The fixes as a data frame alone.
as.data.frame.homerange_fixes <- function(x, row.names = NULL, optional = FALSE, ...) {
  attributes(x)[c("homerange", "groups")] <- NULL
  class(x) <- "data.frame"
  if (!is.null(row.names)) row.names(x) <- checked_names(row.names, nrow(x))
  x
}

# Rows keep what is known; without a column that fixes need it is a data frame alone.
`[.homerange_fixes` <- function(x, ...) {
  found <- NextMethod()
  if (is.data.frame(found)) with_reading(found, x) else found
}

# All columns as texts, as write.csv has them, which would write times by their clock without its offset, and 500000 as 5e+05.
`[<-.homerange_fixes` <- function(x, i, j, value) {
  found <- NextMethod()
  are_texts <- missing(i) && missing(j) && inherits(x[["time"]], "POSIXct") && identical(as.list(value)[["time"]], as.character(x[["time"]]))
  if (!are_texts) return(found)
  found[["time"]] <- sub("([0-9]{2})$", ":\\1", format(x[["time"]], "%Y-%m-%dT%H:%M:%S%z"))
  for (side in c("easting", "northing")) if (is_plain_number(found[[side]])) found[[side]] <- cells_of_numbers(found[[side]])
  found
}

# Whether a table is of fixes of which is known how they were read. Other packages may have taken the class away, and not this.
is_fixes <- function(x) !is.null(facts_of(x)) && has_columns(x) && !inherits(x, "sf")

is_made_of_fixes <- function(x) inherits(x, "homerange_fixes") || !is.null(facts_of(x))

# A table of fixes, of whatever class it is by now, as fixes; so are points that still lie where they are.
as_fixes <- function(x) {
  is_at_points <- inherits(x, "sf") && !is.null(facts_of(x)) && has_columns(x) && has_own_points(x)
  if (!is_fixes(x) && !is_at_points) return(x)
  columns <- with_zone(columns_of(x), facts_of(x)$tz)
  new_fixes(structure(columns, class = "data.frame", row.names = attr(x, "row.names")), facts_of(x))
}

# The columns of fixes whose times have a zone: that by which they were read, where it was taken away.
with_zone <- function(columns, tz) {
  if (inherits(columns[["time"]], "POSIXlt")) columns[["time"]] <- as.POSIXct(columns[["time"]])
  if (inherits(columns[["time"]], "POSIXct") && !has_zone(columns[["time"]])) attr(columns[["time"]], "tzone") <- tz
  columns
}

# Whether the points of a table of sf are the eastings and northings of its fixes.
has_own_points <- function(x) {
  if (!has_sf() || !all(sf::st_geometry_type(x) == "POINT") || any(sf::st_is_empty(x))) return(FALSE)
  own <- cbind(x$easting, x$northing)
  isTRUE(all(sf::st_coordinates(x)[, 1:2] == own)) && is_same_fact(sf::st_crs(x), crs_or_none(facts_of(x)))
}

has_columns <- function(x) all(columns_of_fixes %in% names(x)) && any(c("time", "second") %in% names(x))

# Fixes below others, which have to be alike in what one table says of all.
rbind.homerange_fixes <- function(..., deparse.level = 1) {
  all <- lapply(Filter(Negate(is.null), list(...)), as_fixes)
  titles <- names(all[[1]])
  for (one in all) {
    check_bound(one, all[[1]])
    odd <- c(setdiff(names(one), titles), setdiff(titles, names(one)))
    if (length(odd)) refuse("option", "fixes are not bound, since some have no column '", odd[1], "'")
    twice <- c(titles_twice(one), titles_twice(all[[1]]))
    if (length(twice)) refuse("ambiguous", "fixes are not bound, since some have two columns '", twice[1], "': rename one")
  }
  check_unnamed(all)
  columns <- lapply(titles, function(title) joined_columns(lapply(all, `[[`, title)))
  new_fixes(frame_of(`names<-`(columns, titles)), bound_facts(lapply(all, facts_of)))
}

# Refuses to make one animal of those of several readings, of which one is named so because its table has no column of the animal.
check_unnamed <- function(all) {
  readings <- lapply(Filter(function(one) "animal" %in% one$animal, all), function(one) {
    Filter(function(facts) "animal" %in% names(facts$fixes), readings_of(facts_of(one)))
  })
  every <- unlist(readings, recursive = FALSE)
  refuse_unnamed(every, length(unique(lapply(every, `[[`, "checksum"))) > max(lengths(readings), 1))
}

refuse_unnamed <- function(readings, are_several) {
  if (are_several && any(vapply(readings, function(facts) said_of_no_animal %in% facts$notes, NA))) {
    refuse("option", "animal animal is in two of them, whose tables do not say which animal it is: name each, as by name = \"Fox\" of ",
           "read_fixes, or keep the column of the animal")
  }
}

# What is known of each reading whose fixes were bound, or of the only one.
readings_of <- function(facts) if (is.null(facts$parts)) list(facts) else facts$parts

# Columns one below the other. Factors have all levels, and are text below text.
joined_columns <- function(columns) {
  is_factor <- vapply(columns, is.factor, NA)
  if (!all(is_factor)) columns[is_factor] <- lapply(columns[is_factor], as.character)
  if (length(dim(columns[[1]])) == 2) do.call(rbind, columns) else do.call(c, columns)
}

# Refuses fixes that cannot be bound to others.
check_bound <- function(one, first) {
  if (!is_fixes(one)) {
    refuse("option", "fixes are bound to fixes that read_fixes has read, and not to ",
           if (is_made_of_fixes(one)) "such of which it is no longer known how they were read" else what_it_is(one))
  }
  own <- facts_of(one)
  facts <- facts_of(first)
  what <- c(unit = "unit", system_compared(own, facts), tz = "time zone")
  for (name in names(what)) {
    if (!is_same_fact(own[[name]], facts[[name]])) {
      refuse("option", "fixes of the ", what[[name]], " ", fact_text(facts[[name]]), " and of ", fact_text(own[[name]]),
             " are not bound: read them alike")
    }
  }
}

# By which of their facts the reference systems of two are compared: without the package sf the zone alone is known.
system_compared <- function(one, other) {
  if (is.null(one$crs) && is.null(other$crs)) c(zone = "zone") else c(crs = "reference system")
}

# Whether facts are the same: a reference system has several forms of text, and a program lies at several paths.
is_same_fact <- function(one, other) {
  if (inherits(one, "crs") && inherits(other, "crs")) return(isTRUE(one == other))
  if (is.list(one) && is.list(other)) identical(one$checksum, other$checksum) else identical(one, other)
}

fact_text <- function(fact) if (is.null(fact)) "not known" else if (inherits(fact, "crs")) text_of_crs(fact) else fact

# The records of the first readings of fixes, as texts: those of fixes that were read again are those of what these were before.
records_of <- function(facts) {
  if (!is.null(facts$records)) return(facts$records)
  unlist(lapply(readings_of(facts), function(own) if (is.null(own$records)) paste(own$record, collapse = "\n") else own$records))
}

# What is known of fixes that are bound, which may be bound themselves. Those of one reading are what they were.
bound_facts <- function(facts) {
  facts <- unlist(lapply(facts, readings_of), recursive = FALSE)
  facts <- facts[!duplicated(facts)]
  found <- facts[[1]]
  if (length(facts) == 1) return(found)
  found$parts <- facts
  found$notes <- unlist(lapply(facts, `[[`, "notes"))
  found[c("record", "files", "checksum", "records", "is_in_order")] <- NULL  # there is none of all
  found$titles <- Reduce(intersect, lapply(facts, `[[`, "titles"))
  found$seen <- bound_seen(lapply(facts, `[[`, "seen"))
  counts <- unlist(lapply(facts, `[[`, "fixes"))
  found$fixes <- vapply(split(counts, factor(names(counts), unique(names(counts)))), sum, 0)
  found$left_out <- summed_left(do.call(rbind, lapply(facts, `[[`, "left_out")))
  found$unknown <- unique(unlist(lapply(facts, `[[`, "unknown")))
  found
}

# Fixes as they were read, of several readings, with the columns that all were read from.
bound_seen <- function(seen) {
  columns <- lapply(seen, `[[`, "columns")
  titles <- Reduce(intersect, lapply(columns, names))
  joined <- lapply(titles, function(title) joined_columns(lapply(columns, `[[`, title)))
  list(own = do.call(Map, c(list(c), lapply(seen, `[[`, "own"))), columns = `names<-`(joined, titles))
}

# How many fixes were left out, once for each animal and reason.
summed_left <- function(left) {
  key <- paste(left$reason, left$animal)
  first <- !duplicated(key)
  counts <- vapply(split(left$fixes, factor(key, key[first])), sum, 0)
  list2DF(list(animal = left$animal[first], reason = left$reason[first], fixes = unname(counts)))
}

# What was left out when the fixes were read, and since: by the animals that they had then, and of none where that is not known; and
# the animals of which it is not known, since some that are counted of none may be theirs.
left_since <- function(fixes) {
  facts <- facts_of(fixes)
  if (is.null(facts$seen) || identical(unname(as.list(fixes)[own_columns(fixes)]), facts$seen$own)) {
    return(list(left = facts$left_out, unknown = facts$unknown))
  }
  since <- gone_since(fixes)
  gone <- since$fixes[since$fixes > 0]
  chosen <- list(animal = as.character(names(gone)), reason = rep("chosen", length(gone)), fixes = unname(gone))
  left <- rbind(facts$left_out, list2DF(chosen))
  is_moved <- left$animal %in% since$unsure
  is_lost <- any(is_moved & left$fixes > 0) || "" %in% names(gone)
  left$animal[is_moved] <- ""
  list(left = summed_left(left), unknown = c(intersect(facts$unknown, as.character(fixes$animal)),
                                             if (is_lost || length(facts$unknown)) animals_in_doubt(fixes, since)))
}

# The animals of fixes of which not as many were read as there are, with those that were taken away, or that had other names.
animals_in_doubt <- function(fixes, since) {
  now <- table(as.character(fixes$animal))
  read <- facts_of(fixes)$fixes
  number_of <- function(counts) ifelse(names(now) %in% names(counts), as.vector(counts[names(now)]), 0)
  names(now)[names(now) %in% since$unsure | as.vector(now) + pmax(number_of(since$fixes), 0) != number_of(read)]
}

# A count of each animal, missing where it is not known.
known_counts <- function(counts, animals, unknown) replace(as.numeric(counts), animals %in% unknown, NA)

# A row for each animal: how many fixes, from when to when, and how many were left out.
summary.homerange_fixes <- function(object, ...) {
  check_dots(...)
  object <- as_fixes(object)
  animals <- unique(as.character(object$animal))
  rows <- split(seq_len(nrow(object)), factor(object$animal, animals))
  times <- object[[column_of_time(object)]]
  at <- function(pick) vapply(rows, function(own) own[c(pick(xtfrm(times[own])), NA)[1]], 1L)
  since <- if (is_fixes(object)) left_since(object) else list(unknown = animals)
  counts <- vapply(animals, function(animal) sum(since$left$fixes[since$left$animal == animal]), 0)
  list2DF(list(animal = animals, fixes = unname(lengths(rows)), first = times[at(which.min)], last = times[at(which.max)],
               left_out = known_counts(counts, animals, since$unknown)))
}

column_of_time <- function(fixes) if ("time" %in% names(fixes)) "time" else "second"

# What was taken, and then the first rows, or so many.
print.homerange_fixes <- function(x, ..., n = 6) {
  local_options(x, n)
  if (!is_number(n) || n < 0) refuse("option", argument_text("n", n), " is no number of rows")
  if (!is_fixes(as_fixes(x))) {
    print(as.data.frame.homerange_fixes(x), ...)
    return(invisible(x))
  }
  writeLines(format(x))
  print(with_whole_sides(utils::head(as.data.frame.homerange_fixes(as_fixes(x)), n)), ...)
  more <- nrow(x) - floor(n)
  if (more > 0) writeLines(paste0("... and ", count_of(more, "more fix", "more fixes")))
  invisible(x)
}

# Rows whose eastings and northings are texts, which no print rounds.
with_whole_sides <- function(rows) {
  is_side <- names(rows) %in% c("easting", "northing") & vapply(rows, is_plain_number, NA)
  rows[is_side] <- lapply(rows[is_side], format, digits = 15)
  rows
}

# The lines that are printed above the rows; of what is no longer known how it was read those of a data frame.
format.homerange_fixes <- function(x, ...) {
  local_options()
  x <- as_fixes(x)
  if (!is_fixes(x)) return(format(as.data.frame.homerange_fixes(x), ...))
  facts <- facts_of(x)
  asked <- grepl("[?]$", facts$notes)
  read <- unique(grep("^(columns: |not read: |read again by columns: )", facts$notes, value = TRUE))
  c(paste0(count_of(nrow(x), "fix", "fixes"), " of ", count_of(length(unique(x$animal)), "animal"), span_text(x)),
    box_text(x), system_text(facts), unique(sub("; [0-9]+ animals, box .*", "", sub("^columns", "read", read))),
    left_text(left_since(x)$left), facts$notes[asked])
}

# From when to when fixes are.
span_text <- function(x) {
  if (!nrow(x)) return("")
  times <- range(x[[column_of_time(x)]])
  if (is.numeric(times)) paste0(", second ", paste(in_digits(times), collapse = " to ")) else
    paste0(", ", paste(format(times), collapse = " to "), " ", clock_of_fixes(x))
}

# How far they lie from each other.
box_text <- function(x) {
  if (!nrow(x)) return(NULL)
  sides <- vapply(list(x$easting, x$northing), function(side) if (any(is.infinite(side))) Inf else diff(range(side)) / 1000, 0)
  paste0("in a box of ", sprintf("%.3f by %.3f km", sides[1], sides[2]), ", in whole ", units_known[[facts_of(x)$unit]]$name)
}

system_text <- function(facts) {
  if (!is.null(facts$zone)) return(paste("of UTM zone", facts$zone))
  if (is.null(facts$crs)) "of no reference system that is known" else paste("of", text_of_crs(facts$crs))
}

# How many fixes were left out and why.
left_text <- function(left) {
  if (!sum(left$fixes)) return("no fix left out")
  counts <- vapply(split(left$fixes, factor(left$reason, unique(left$reason))), sum, 0)
  paste0("left out: ", paste(in_digits(counts), "for", names(counts), collapse = ", "))
}

# The fixes as points of sf.
st_as_sf.homerange_fixes <- function(x, ...) {
  check_dots(...)
  check_sides(x)
  crs <- crs_or_none(facts_of(x))
  sides <- list2DF(sapply(c("easting", "northing"), function(title) numbers_of(x[[title]], title), simplify = FALSE))
  sides[!stats::complete.cases(sides), ] <- NA_real_
  places <- if (nrow(x)) sf::st_geometry(sf::st_as_sf(sides, coords = names(sides), crs = crs, na.fail = FALSE)) else sf::st_sfc(crs = crs)
  with_points(sf::st_sf(as.data.frame.homerange_fixes(x), geometry = places), x)
}

# Refuses fixes whose places are no numbers, or not there once, as they are refused that are read again.
check_sides <- function(x) {
  lost <- setdiff(columns_of_fixes, names(x))
  if (length(lost)) refuse("columns", "these fixes have no column '", lost[1], "' any more: give it back")
  are_plain <- vapply(x[c("easting", "northing")], function(side) is_plain_number(side) && !any(is.infinite(side)), NA)
  is_twice <- any(columns_of_fixes %in% titles_twice(x))
  if (is_twice || !all(are_plain)) in_folder(function(folder) read_table(x, list(), TRUE, folder, FALSE))
}

is_plain_number <- function(column) is.numeric(column) && !is.object(column)

# The numbers of a column of whatever class, as the program gets them.
numbers_of <- function(column, title) if (is_plain_number(column)) as.numeric(column) else as.numeric(cells_of_column(column, title))
