# Some of the animals of home ranges, the animals of several together, and what functions of R say of them.

tables_of_animals <- c("animals", "rows", "corners", "percents", "fixes", "left_out", "groups")
tables_of_ranges <- c("animals", "rows", "corners", "percents", "overlaps")  # which no ranges are without

# The home ranges of these animals, by their names, their places or truths, in this order.
`[.home_range` <- function(x, i, ...) {
  if (nargs() > 2) refuse("option", "ranges are no table: animals are chosen by one vector, as by x[c(\"fox\", \"elk\")]")
  if (missing(i)) return(x)
  known <- x$animals$animal
  i <- plain_choice(i)
  if (is.numeric(i)) check_places(i)
  names <- if (is.character(i)) i else known[i]
  odd <- setdiff(names, known)
  if (length(odd)) refuse_animal(if (is.na(odd[1])) "at this place" else odd[1], known)
  if (anyDuplicated(names)) refuse("option", "animal ", names[duplicated(names)][1], " is named twice")
  if (!length(names)) refuse("option", "no animal is named")
  for (table in tables_of_animals) x[table] <- list(rows_of_names(unclass(x)[[table]], names))
  x$overlaps <- x$overlaps[names, names, drop = FALSE]
  as_part(x)
}

# Refuses an animal that there is not, with those that there are.
refuse_animal <- function(animal, known) {
  refuse("option", "there is no animal ", animal, ": there are ", paste0("\"", utils::head(known, 5), "\"", collapse = ", "),
         if (length(known) > 5) ", ..")
}

# What chooses animals, as texts, numbers or truths.
plain_choice <- function(i) {
  if (is.factor(i)) return(as.character(i))
  if (inherits(i, "integer64")) return(as.numeric(digits_of_integer64(i)))
  if (is.character(i) || is.numeric(i) && !has_own_class(i) || is.logical(i)) return(i)
  refuse("option", "the names or the places of animals are wanted, and not ", what_it_is(i))
}

# Refuses numbers that are no places, and places that are to be taken beside others that are not.
check_places <- function(i) {
  if (!all(i %% 1 == 0) %in% TRUE) refuse("option", "there is no animal at this place")
  if (any(i < 0) && any(i > 0)) {
    refuse("option", "places from 1 on take animals, and those below 0 leave some out: name either these or those")
  }
}

# The animals are what home ranges have: their number, their names, the range of one, and a list of those of each.
length.home_range <- function(x) nrow(x$animals)

names.home_range <- function(x) x$animals$animal

`names<-.home_range` <- function(x, value) {
  refuse("option", "ranges have the names of their animals: rename these in the table, and make the ranges again")
}

`[<-.home_range` <- function(x, i, ..., value) {
  check_owner(parent.frame())
  NextMethod()
}

`[[<-.home_range` <- function(x, i, ..., value) {
  check_owner(parent.frame())
  NextMethod()
}

# Refuses to change ranges, whose tables and facts go together, unless a function of the package does.
check_owner <- function(frame) {
  if (is_of_package(frame)) return(invisible())
  refuse("option", "ranges are not changed: take some by x[..], bind ranges by c, and make others of other fixes")
}

is_of_package <- function(frame) identical(topenv(frame), topenv())

`[[.home_range` <- function(x, i, ..., exact = TRUE) {
  is_one <- !...length() && !missing(i) && length(i) == 1 && !is.logical(i) && !(is.numeric(i) && isTRUE(i < 1))
  if (!is_one) refuse("option", "the name or the place of one animal is wanted")
  x[i]
}

# An animal by its name, as names(x) has them, and else a table or a fact of all. The package itself knows these alone.
`$.home_range` <- function(x, name) {
  if (is_of_package(parent.frame()) || !name %in% names(x) && name %in% names(unclass(x))) .subset2(x, name) else x[[name]]
}

`$<-.home_range` <- function(x, name, value) {
  check_owner(parent.frame())
  NextMethod()
}

as.list.home_range <- function(x, ...) `names<-`(lapply(seq_along(x), function(at) x[at]), names(x))

unique.home_range <- function(x, ...) x

rbind.home_range <- function(..., deparse.level = 1) c.home_range(...)

# The rows of a table that are of these animals, in their order.
rows_of_names <- function(table, names) {
  if (is.null(table)) return(NULL)
  place <- match(table$animal, names)
  table <- table[order(place, na.last = NA), ]
  rownames(table) <- NULL
  table
}

# Ranges that are no longer those of one call or one report, of which evidence is made.
as_part <- function(ranges) {
  ranges[c("files", "record", "record_file", "checksum")] <- NULL
  if (!is.null(ranges$read)) ranges$read <- list()
  ranges$cache <- new.env(parent = emptyenv())
  ranges$is_part <- TRUE
  ranges
}

# The home ranges of all animals of several, which have to be alike in what one call makes alike; NULL is none.
c.home_range <- function(...) {
  all <- Filter(Negate(is.null), list(...))
  for (one in all) check_alike(one, all[[1]])
  whole <- all[[1]]
  parts <- lapply(all, unclass)
  for (table in tables_of_animals) whole[table] <- list(joined_tables(lapply(parts, `[[`, table)))
  if (anyDuplicated(whole$animals$animal)) {
    refuse("option", "animal ", whole$animals$animal[duplicated(whole$animals$animal)][1], " is in two of them")
  }
  whole["left_out"] <- list(joined_left(parts))
  for (slot in c("notes", "unknown")) whole[slot] <- list(unique(unlist(lapply(parts, `[[`, slot))))
  whole$readings <- joined_readings(parts)
  whole <- as_part(whole)
  whole$overlaps <- joined_overlaps(whole, lapply(parts, `[[`, "overlaps"))
  whole
}

# Refuses home ranges that differ from others in what one table says of all.
check_alike <- function(one, first) {
  check_ranges(one)
  what <- c(unit = "unit", shift = "shift", system_compared(one, first), tz = "time zone", program = "program")
  differs <- !vapply(names(what), function(own) is_same_fact(unclass(one)[[own]], unclass(first)[[own]]), NA)
  if (any(differs)) refuse("option", "they differ in their ", what[differs][1])
  if (is.null(one$groups) != is.null(first$groups)) refuse("option", "they differ: those of one are by groups")
  if (!identical(unique(one$percents$level), unique(first$percents$level))) refuse("option", "they differ in their levels")
  if (!identical(class(one$rows$time), class(first$rows$time))) {
    refuse("option", "they differ in their times: those of one are seconds or days")
  }
}

# Tables one below the other; NULL where one is not known.
joined_tables <- function(tables) if (!any(vapply(tables, is.null, NA))) do.call(rbind, tables)

# The readings of ranges that are put together: the records of all, and how many fixes these had.
joined_readings <- function(parts) {
  readings <- unique(lapply(parts, `[[`, "readings"))
  list(records = unique(unlist(lapply(readings, `[[`, "records"))), fixes = sum(unlist(lapply(readings, `[[`, "fixes"))))
}

# What was left out of the fixes of all parts; NULL where it is not known. Parts of the same readings all count it, also of the
# animals whose ranges others have: so they are counted together.
joined_left <- function(parts) {
  left <- lapply(parts, `[[`, "left_out")
  if (any(vapply(left, is.null, NA))) return(NULL)
  is_own <- Map(function(table, part) table$animal %in% part$animals$animal, left, parts)
  if (all(unlist(is_own))) return(do.call(rbind, left))
  keys <- vapply(parts, function(part) paste(c(part$readings$records, part$readings$fixes), collapse = "\n"), "")
  first <- !duplicated(keys)
  if (anyDuplicated(unlist(lapply(parts[first], function(part) part$readings$records)))) return(NULL)
  joined_tables(unname(lapply(split(parts, factor(keys, keys[first])), left_of_alike)))
}

# The same of parts of the same readings. Each knows what was left out of its own animals, and the first that has another what was
# left out of that. It is not known where those of no animal differ, or where more fixes come together than were read, as of animals
# that were renamed.
left_of_alike <- function(parts) {
  left <- lapply(parts, `[[`, "left_out")
  if (length(parts) == 1 || is.null(parts[[1]]$readings)) return(do.call(rbind, left))
  of_none <- unique(lapply(left, function(table) as.list(table[table$animal == "", c("reason", "fixes")])))
  part <- rep(seq_along(parts), vapply(left, nrow, 0L))
  left <- do.call(rbind, left)
  animals <- lapply(parts, function(part) part$animals$animal)
  owner <- rep(seq_along(parts), lengths(animals))[match(left$animal, unlist(animals))]
  found <- left[part == ifelse(is.na(owner), part[match(left$animal, left$animal)], owner), ]
  used <- sum(unlist(lapply(parts, function(part) part$animals$fixes)))
  if (length(of_none) == 1 && used + sum(found$fixes) <= parts[[1]]$readings$fixes) found
}

# The overlaps of all animals: those of each part, and between the parts those of the fixes; NA where these are not known.
joined_overlaps <- function(whole, parts) {
  names <- whole$animals$animal
  unknown <- matrix(NA_real_, length(names), length(names), dimnames = list(names, names))
  counts <- if (is.null(whole$fixes)) unknown else overlaps_at_level(whole, 100)
  for (own in parts) counts[rownames(own), colnames(own)] <- own
  counts
}
