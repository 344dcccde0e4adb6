# What other packages ask of home ranges and of fixes: methods that are registered where these packages are loaded.

# A row for each animal and level.
tidy.home_range <- function(x, ...) as.data.frame(x, ...)

# One row of all.
glance.home_range <- function(x, ...) {
  check_dots(...)
  times <- x$rows$time
  list2DF(list(
    animals = length(unique(c(x$groups$of, if (is.null(x$groups)) x$animals$animal))), ranges = length(x),
    fixes = sum(x$animals$fixes), left_out = if (is.null(x$left_out)) NA_real_ else sum(x$left_out$fixes),
    first = min(times), last = max(times), levels = paste(unique(x$percents$level), collapse = ", "), unit = x$unit,
    system = fact_text(if (is.null(x$crs)) x$zone else x$crs)
  ))
}

# A row for each animal, by which some are chosen.
rows_to_choose <- function(x) {
  last <- last_rows(x)
  levels <- unique(x$percents$level)
  areas <- lapply(levels, function(level) hectares_of(x, percents_of(x, level)$area2))
  left <- lapply(x$animals$animal, function(animal) sum(x$left_out$fixes[x$left_out$animal == animal]))
  with_groups(x, list2DF(c(
    list(animal = x$animals$animal, fixes = x$animals$fixes, first = x$rows$time[last - x$animals$fixes + 1], last = x$rows$time[last],
         left_out = if (is.null(x$left_out)) rep(NA_real_, length(last)) else known_counts(unlist(left), x$animals$animal, x$unknown)),
    `names<-`(areas, paste0("hectares_", levels))
  )))
}

# The ranges of those animals whose row is as is asked.
subset.home_range <- function(x, subset, ...) {
  if (...length()) {
    name <- c(names(match.call(expand.dots = FALSE)$...), "")[1]
    if (nzchar(name)) refuse_argument(name, "subset")
    refuse("option", "subset takes one condition: join several by &, as by subset(x, fixes > 30 & hectares_100 > 1)")
  }
  if (missing(subset)) return(x)
  asked <- substitute(subset)
  rows <- rows_to_choose(x)
  chosen_animals(x, with_columns_known(eval(asked, rows, parent.frame()), all.vars(asked), names(rows)))
}

filter.home_range <- function(.data, ...) {
  rows <- rows_to_choose(.data)
  titles <- names(rows)
  rows$.place <- seq_len(nrow(rows))
  found <- with_columns_known(dplyr::filter(rows, ...)$.place, all.vars(substitute(list(...))), titles)
  chosen_animals(.data, rows$.place %in% found)
}

# Verbs of dplyr that are of tables.
refuse_verb <- function(...) {
  refuse("option", "ranges are no table, which ", .Generic, " wants: dplyr::filter(x, ..) chooses among them, and as.data.frame(x) is a table of theirs")
}

# Functions of sf that are of tables of shapes; one puts a value in.
refuse_shapes <- function(..., value) {
  refuse("option", "ranges are no table of shapes, which ", .Generic, " wants: sf::st_as_sf(x) makes one of them")
}

# What an expression with these names makes of the rows of ranges, which have these columns: where it fails since there is nothing of a
# name, as of the area at a level that was not asked, what there is is said. R says so in the language of the session.
with_columns_known <- function(found, names, columns) {
  tryCatch(found, error = function(fault) {
    said <- c(conditionMessage(fault), if (inherits(fault$parent, "condition")) conditionMessage(fault$parent))
    is_lost <- gettextf("object '%s' not found", names, domain = "R") %in% said | sprintf("Column `%s` not found in `.data`.", names) %in% said
    lost <- names[is_lost]
    if (length(lost)) refuse("option", "subset: there is no column ", lost[1], ": there are ", paste(columns, collapse = ", "))
    stop(fault)
  })
}

chosen_animals <- function(x, chosen) {
  if (!is.logical(chosen) || !length(chosen) %in% c(1, length(x))) {
    refuse("option", "subset: TRUE or FALSE is wanted for each of ", count_of(length(x), "range"))
  }
  chosen <- rep_len(chosen & !is.na(chosen), length(x))
  if (!any(chosen)) refuse("option", "subset: no range is such as is asked")
  x[chosen]
}

as.matrix.home_range <- function(x, ...) {
  refuse("option", "ranges are no matrix: homerange_overlap(x) is one, homerange_corners(x) has those of corners, and summary(x) is ",
         "a table")
}

# Whether two are equal, but for what was made of them since, and the calls.
all.equal.home_range <- function(target, current, ...) {
  if (!inherits(current, "home_range")) return("current is no home range")
  whole <- function(x) unclass(x)[setdiff(names(unclass(x)), c("cache", "call", "readings"))]
  all.equal(whole(target), whole(current), ...)
}

# The polygons of sf, those of ranges with all their levels.
st_geometry.home_range <- function(obj, ...) sf::st_geometry(sf::st_as_sf(obj, ...))
st_geometry.homerange_fixes <- function(obj, ...) sf::st_geometry(sf::st_as_sf(obj, ...))

st_bbox.home_range <- function(obj, ...) sf::st_bbox(sf::st_as_sf(obj, levels = 100, ...))
st_bbox.homerange_fixes <- function(obj, ...) sf::st_bbox(sf::st_as_sf(obj, ...))

st_crs.home_range <- function(x, ...) crs_or_none(x)
st_crs.homerange_fixes <- function(x, ...) crs_or_none(facts_of(x))

# The exact areas of these polygons.
st_area.home_range <- function(x, ...) sf::st_as_sf(x, ..., area = "m2", units = TRUE)$area

st_write.home_range <- function(obj, dsn, ...) {
  table <- sf::st_as_sf(obj)
  flat <- (if (is.null(obj$groups)) table$animal else paste(table$animal, table$group))[table$corners < 3]
  if (length(flat) && is_text(dsn) && grepl("[.](shp|fgb)$", in_small(dsn))) {
    refuse("option", dsn, ": such a file has shapes of one kind, and a range of ", flat[1], " has no area: write ",
           "sf::st_as_sf(x, drop_flat = TRUE), which leaves such out")
  }
  check_no_file(dsn, ...)
  sf::st_write(table, dsn, ...)
}
st_write.homerange_fixes <- function(obj, dsn, ...) {
  check_no_file(dsn, ...)
  sf::st_write(sf::st_as_sf(obj), dsn, ...)
}

# Refuses a file that is there, if nothing says what becomes of it, and no other layer of it is named.
check_no_file <- function(dsn, layer = NULL, ...) {
  says_more <- any(c("append", "delete_dsn", "delete_layer", "update") %in% names(list(...)))
  if (says_more || !is_text(dsn) || !utils::file_test("-f", dsn)) return(invisible())
  if (!is.null(layer) && !layer %in% sf::st_layers(dsn)$name) return(invisible())
  refuse("option", dsn, " is there already: append = FALSE writes its layer anew, and delete_dsn = TRUE the file")
}

# A picture of ggplot2: polygons over fixes, or the curves of area.
autoplot.home_range <- function(object, what = c("ranges", "curve"), levels = 100, fixes = TRUE, ...) {
  check_dots(...)
  what <- word_of_these(what, c("ranges", "curve"), "what")
  check_truth(fixes, "fixes")
  check_drawing(what, levels)
  of <- function(...) do.call(ggplot2::aes, lapply(c(...), as.name))  # titles of columns
  if (what == "curve") {
    curve <- homerange_curve(object[TRUE])
    curve$animal <- rep(names(object), object$animals$fixes)
    return(ggplot2::ggplot(curve, of(x = "n", y = "hectares", colour = "animal")) + ggplot2::geom_step() +
             ggplot2::labs(x = "fix", y = "area in hectares"))
  }
  drawn <- ggplot2::ggplot(corners_of_levels(object, levels), of(x = "easting", y = "northing", colour = "animal"))
  if (fixes && !is.null(object$fixes)) {
    places <- as.data.frame(in_metres(object, object$fixes))
    drawn <- drawn + ggplot2::geom_point(data = cbind(animal = object$fixes$animal, places), size = 0.4, alpha = 0.4)
  }
  drawn + ggplot2::geom_polygon(of(group = "polygon", linetype = "level"), fill = NA) + ggplot2::coord_equal() +
    ggplot2::labs(x = "easting in metres", y = "northing in metres", linetype = "level in %")
}

# The corners of all levels below each other.
corners_of_levels <- function(ranges, levels) {
  check_levels(ranges, levels)
  do.call(rbind, lapply(sort(levels, decreasing = TRUE), function(level) {
    rings <- rings_of(ranges, level)
    animal <- rep(names(rings), vapply(rings, nrow, 0L))
    data.frame(animal = animal, level = factor(level, sort(levels)), polygon = paste(animal, level), do.call(rbind, unname(rings)))
  }))
}
