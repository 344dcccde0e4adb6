# Tables of home ranges.

# Units of areas: the title of a column of them, how many hectares each has, and its name in the package units.
areas_known <- list(
  ha = list(title = "hectares", hectares = 1, name = "hectare"),
  m2 = list(title = "square_metres", hectares = 1e-4, name = "m^2"),
  km2 = list(title = "square_kilometres", hectares = 100, name = "km^2")
)

hectares_of <- function(ranges, area2) area2 / units_known[[ranges$unit]]$hectare

# A column of areas by its title, or one of the package units.
area_column <- function(ranges, area2, area, units) {
  if (!is_text(area) || !area %in% names(areas_known)) refuse("option", "area: \"ha\", \"m2\" or \"km2\" is wanted")
  check_truth(units, "units")
  unit <- areas_known[[area]]
  values <- area2 / round(units_known[[ranges$unit]]$hectare * unit$hectares)
  if (!units) return(`names<-`(list(values), unit$title))
  if (!requireNamespace("units", quietly = TRUE)) refuse("option", "units = TRUE wants the package units, which is not installed")
  list(area = units::set_units(values, unit$name, mode = "standard"))
}

# The place of the last row of each animal among all rows.
last_rows <- function(ranges) cumsum(ranges$animals$fixes)

# A row for each animal and level, with the times of its fixes and how many were left out.
summary.home_range <- function(object, area = "ha", units = FALSE, ...) {
  check_dots(...)
  place <- match(object$percents$animal, object$animals$animal)
  last <- last_rows(object)
  first <- last - object$animals$fixes + 1
  left_of <- function(animal) sum(object$left_out$fixes[object$left_out$animal == animal])
  left_out <- if (is.null(object$left_out)) rep(NA_real_, length(last)) else
    known_counts(vapply(object$animals$animal, left_of, 0, USE.NAMES = FALSE), object$animals$animal, object$unknown)
  columns <- list(
    animal = object$percents$animal, first = object$rows$time[first[place]], last = object$rows$time[last[place]],
    fixes = object$animals$fixes[place], left_out = left_out[place]
  )
  areas <- area_column(object, object$percents$area2, area, units)
  with_groups(object, list2DF(c(columns, as.list(object$percents[c("level", "kept", "corners")]), areas)))
}

# A row for each animal and level.
as.data.frame.home_range <- function(x, row.names = NULL, optional = FALSE, ..., stringsAsFactors = FALSE, area = "ha",
                                     units = FALSE) {
  table <- summary(x, area = area, units = units, ...)
  first <- intersect(c("animal", "group", "level"), names(table))
  table <- table[c(first, setdiff(names(table), c(first, "first", "last", "left_out")))]
  if (isTRUE(stringsAsFactors)) table$animal <- factor(table$animal, unique(table$animal))
  if (is.null(row.names)) return(table)
  `row.names<-`(table, checked_names(row.names, nrow(table)))
}

# Names of so many rows.
checked_names <- function(names, number) {
  if (!is.atomic(names) || length(names) != number || anyNA(names) || anyDuplicated(names)) {
    refuse("option", "row.names: a name for each of ", number, " rows is wanted, and each another")
  }
  names
}

# How many fixes were left out of the table, by animal and reason.
homerange_left_out <- function(x, ...) {
  check_dots(...)
  check_ranges(x)
  check_whole(x, "what was left out")
  if (is.null(x$left_out)) {
    of_parts <- "what was left out of all these ranges is not known: bind their fixes by rbind, and make ranges of these"
    refuse("option", if (isTRUE(x$is_part)) of_parts else "a report does not say what was left out")
  }
  table <- x$left_out[order(x$left_out$animal, x$left_out$reason, method = "radix"), ]
  rownames(table) <- NULL
  table
}

# The table of incremental area analysis.
homerange_curve <- function(x, area = "ha", units = FALSE, ...) {
  check_dots(...)
  check_ranges(x)
  with_groups(x, list2DF(c(as.list(x$rows[c("animal", "n", "time", "corners")]), area_column(x, x$rows$area2, area, units))))
}

# How many fixes, or which share, of a row's animal lie in the polygon of a column's animal, at the level that the columns are titled
# by; of several levels a list, and tidy a table with a row for each two animals and level.
homerange_overlap <- function(x, share = FALSE, levels = 100, tidy = FALSE, ...) {
  check_dots(...)
  check_ranges(x)
  check_truth(share, "share", if (is_number(share)) paste0(": a level is named, as by levels = ", cells_of_numbers(share)))
  check_truth(tidy, "tidy")
  check_levels(x, levels)
  counts <- lapply(levels, function(level) if (level == 100) x$overlaps else overlaps_at_level(x, level))
  if (tidy) return(with_groups(x, do.call(rbind, Map(tidy_overlaps, counts, levels, list(x$animals$fixes)))))
  if (share) counts <- lapply(counts, `/`, x$animals$fixes)
  by_level(Map(with_level, counts, levels), levels)
}

# A matrix of overlaps whose print says of what its rows and its columns are.
with_level <- function(counts, level) {
  names(dimnames(counts)) <- c("fixes_of", paste0("in_range_of_", level))
  counts
}

# A row for each two animals: how many fixes of the one lie in the polygon of the other.
tidy_overlaps <- function(counts, level, fixes) {
  names <- rownames(counts)
  number <- length(names)
  list2DF(list(animal = rep(names, each = number), other = rep(names, number), level = rep(level, number^2), count = c(t(counts)),
               fixes = rep(fixes, each = number), share = c(t(counts / fixes))))
}

# What was found of levels: of one alone that, of several a list by level.
by_level <- function(found, levels) if (length(levels) == 1) found[[1]] else `names<-`(found, levels)

# The same counts of the polygons of a lower level, by the exact place of each fix.
overlaps_at_level <- function(ranges, level) {
  names <- ranges$animals$animal
  number <- length(names)
  fixes <- ranges$fixes
  order <- order(fixes$easting, method = "radix")
  easting <- fixes$easting[order]
  northing <- fixes$northing[order]
  animal <- match(fixes$animal, names)[order]
  counts_in <- function(ring) {
    ends <- findInterval(range(ring[, 1]) - c(0.5, 0), easting)  # between whole numbers
    rows <- ends[1] + seq_len(ends[2] - ends[1])
    tabulate(animal[rows][is_within(easting[rows], northing[rows], ring)], number)
  }
  counts <- vapply(whole_rings(ranges, level), counts_in, numeric(number))
  matrix(counts, number, dimnames = list(names, names))
}

# The corners of each animal's polygon in metres; of several levels a list.
homerange_corners <- function(x, levels = 100, ...) {
  check_dots(...)
  check_ranges(x)
  check_levels(x, levels)
  by_level(lapply(levels, rings_of, ranges = x), levels)
}

rings_of <- function(ranges, level) lapply(whole_rings(ranges, level), in_metres, ranges = ranges)

# The levels whose polygons are known: without fixes that of all alone.
levels_of <- function(ranges) {
  levels <- unique(ranges$percents$level)
  if (is.null(ranges$fixes)) 100 else levels
}

# Refuses what are no levels whose polygons are known.
check_levels <- function(ranges, levels) {
  local_options(levels)
  known <- sort(unique(c(ranges$percents$level, 100)))
  odd <- if (is.numeric(levels) && !is.object(levels)) setdiff(levels, known) else levels
  if (length(odd) || !length(levels)) {
    if (is.numeric(odd)) odd <- odd[1]
    refuse("option", argument_text("levels", odd), " is none of these ranges (", paste(known, collapse = ", "), ")", help_for_level(odd))
  }
  if (anyDuplicated(levels)) refuse("option", "levels: ", levels[duplicated(levels)][1], " is there twice")
  if (any(levels < 100) && is.null(ranges$fixes)) {
    refuse("option", "polygons below 100 per cent need the fixes: read_report(file, files = ..)")
  }
}

check_ranges <- function(x) {
  if (inherits(x, "home_range")) return(invisible())
  are_several <- is.list(x) && length(x) > 0 && all(vapply(x, inherits, NA, "home_range"))
  is_taken_apart <- is.list(x) && !is.data.frame(x) && all(tables_of_ranges %in% names(x))
  help <- if (are_several) "bind those that are in it, as by do.call(c, x)" else
    if (is_taken_apart) "c(NULL, ranges) makes a list of their parts, and rbind(NULL, ranges) ranges" else "home_range makes them"
  refuse("option", "a ", class(x)[1], " has no ranges: ", help)
}

# The polygons of levels as a table of sf, a row for each animal and level. Without an area a polygon is a line or a point.
st_as_sf.home_range <- function(x, levels = NULL, drop_flat = FALSE, area = "ha", units = FALSE, ...) {
  local_options(x, levels, drop_flat, area, units, ...)
  check_dots(...)
  check_truth(drop_flat, "drop_flat")
  if (is.null(levels)) levels <- levels_of(x)
  check_levels(x, levels)
  rings <- unlist(lapply(levels, function(level) unname(rings_of(x, level))), recursive = FALSE)
  table <- do.call(rbind, lapply(levels, level_table, ranges = x))
  shown <- if (drop_flat) table$corners > 2 else TRUE
  shapes_of(x, table[shown, ], rings[shown], area, units)
}

# The numbers of the polygons of a level, a row for each animal.
level_table <- function(ranges, level) {
  animals <- ranges$animals
  own <- percents_of(ranges, level)
  if (level == 100) own <- cbind(kept = animals$fixes, ranges$rows[last_rows(ranges), c("corners", "area2")])
  list2DF(c(as.list(animals["animal"]), level = list(rep(level, nrow(animals))), as.list(animals["fixes"]),
            as.list(own[c("kept", "corners", "area2")])))
}

# A table of polygons with these rings and its areas in a unit.
shapes_of <- function(ranges, table, rings, area, units) {
  numbers <- with_groups(ranges, table[setdiff(names(table), "area2")])
  sf::st_sf(list2DF(c(as.list(numbers), area_column(ranges, table$area2, area, units))),
            geometry = sf::st_sfc(lapply(unname(rings), as_shape), crs = crs_or_none(ranges)))
}

# The polygons of one level, with their hectares.
as_sf <- function(ranges, level, rings) shapes_of(ranges, level_table(ranges, level), rings, "ha", FALSE)

# A polygon, or of two corners a line and of one a point, since a polygon wants three.
as_shape <- function(ring) {
  shape <- switch(min(nrow(ring), 3), sf::st_point, sf::st_linestring, function(ring) {
    sf::st_polygon(list(rbind(ring, ring[1, ])))
  })
  shape(unname(if (nrow(ring) == 1) ring[1, ] else ring))
}

# About ten lines.
print.home_range <- function(x, ...) {
  writeLines(format(x, ...))
  invisible(x)
}

# The lines that are printed.
format.home_range <- function(x, ...) {
  local_options()
  check_dots(...)
  number <- nrow(x$animals)
  times <- range(x$rows$time)
  times <- if (is.object(times)) c(format(times[1]), format(times[2])) else paste("second", in_digits(times))
  left_out <- if (!is.null(x$left_out)) paste0(", ", in_digits(sum(x$left_out$fixes)), " left out")
  shown <- seq_len(min(number, 6))
  of_groups <- if (!is.null(x$groups)) paste0(" in ", count_of(number, "group"))
  animals <- if (is.null(x$groups)) number else length(unique(x$groups$of))
  c(paste0("Home ranges of ", count_of(animals, "animal"), of_groups, " (minimum convex polygons)"),
    paste0(count_of(sum(x$animals$fixes), "fix", "fixes"), " in whole ", units_known[[x$unit]]$name, left_out, ", ", times[1],
           " to ", times[2]),
    "Areas in hectares by percent level, and what the last quarter of the fixes added:",
    aligned_lines(area_table(x)[shown, , drop = FALSE]),
    if (number > length(shown)) paste0("... and ", count_of(number - length(shown), if (is.null(x$groups)) "more animal" else "more range")))
}

# The lines of a table of texts, below its titles.
aligned_lines <- function(table) {
  columns <- Map(function(title, column) paste0(" ", format(c(title, column), justify = "right")), names(table), table)
  do.call(paste0, unname(columns))
}

# A row for each animal as text, with a column for each level.
area_table <- function(ranges) {
  areas <- lapply(levels_named(ranges), function(level) {
    hectares <- hectares_of(ranges, percents_of(ranges, level)$area2)
    format(hectares, digits = 4, big.mark = ",", decimal.mark = ".", scientific = FALSE)
  })
  list2DF(c(list(animal = one_line(ranges$animals$animal), fixes = in_digits(ranges$animals$fixes)), areas,
            list("last quarter" = quarter_text(homerange_growth(ranges)$last_quarter))))
}

# Which share of the area of all fixes the last quarter of them added, in per cent.
quarter_text <- function(shares) ifelse(is.na(shares), "NA", sprintf("%.1f %%", 100 * shares))

# The levels of the report, by how they are titled.
levels_named <- function(ranges) {
  levels <- unique(ranges$percents$level)
  `names<-`(levels, paste(levels, "%"))
}
