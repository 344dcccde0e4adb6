# How much of home ranges lies in a reserve.

around <- 100000  # metres around the ranges, to where a boundary is taken that is too wide for their system
longest_degrees <- 0.005  # of an edge, behind which it gets a point: so a straight one is off by millimetres
longest_metres <- 500
missed <- 0.02  # of the longest edge, by which a place may miss itself that is turned to another system and back
torn <- 100000  # metres from one such point to the next, where an edge is torn apart
half_turn <- 180
kinds_of_shapes <- c("POINT", "LINESTRING", "POLYGON", "MULTIPOINT", "MULTILINESTRING", "MULTIPOLYGON")
help_for_long <- paste0("has an edge of %s degrees of longitude: if it crosses the date line, sf::st_wrap_dateline(reserve, options = ",
                        "c(\"WRAPDATELINE=YES\", \"DATELINEOFFSET=180\")) cuts it there; if it goes the long way, give it corners between")
help_for_wide <- paste("the reserve reaches to where the CRS of the ranges has no places: cut it to the surroundings of the ranges before,",
                       "as by sf::st_crop(reserve, box)")

# A row for each animal and level with the hectares of the polygon, those of them in the reserve, and their share.
homerange_share <- function(x, reserve, levels = 100, ...) {
  check_dots(...)
  check_ranges(x)
  check_levels(x, levels)
  if (!has_sf()) refuse("option", "homerange_share wants the package sf, which is not installed")
  boundary <- boundary_of(x, reserve)
  rings <- unlist(lapply(levels, function(level) unname(rings_of(x, level))), recursive = FALSE)
  shapes <- sf::st_sfc(lapply(rings, as_shape), crs = crs_or_none(x))
  area_of <- function(shapes) sum(as.numeric(sf::st_area(shapes)))
  places <- seq_along(shapes)
  whole <- vapply(places, function(at) area_of(shapes[at]), 0)
  inside <- vapply(places, function(at) area_of(sf::st_intersection(shapes[at], boundary)), 0)
  animals <- x$animals$animal
  with_groups(x, data.frame(animal = rep(animals, length(levels)), level = rep(levels, each = length(animals)), hectares = whole / 10000,
                            inside = inside / 10000, share = ifelse(whole > 0, inside / whole, NA_real_)))
}

crs_or_none <- function(ranges) if (is.null(ranges$crs)) sf::NA_crs_ else ranges$crs

# The boundary of a reserve, all its shapes together, in the reference system of the ranges.
boundary_of <- function(ranges, reserve) {
  if (!inherits(reserve, c("sf", "sfc", "sfg"))) {
    refuse("option", "reserve: an sf geometry is wanted", if (is_text(reserve)) ": read its file, as by sf::st_read(reserve)")
  }
  own <- crs_or_none(ranges)
  is_bare <- inherits(reserve, "sfg")
  shapes <- if (is_bare) sf::st_sfc(reserve, crs = own) else sf::st_geometry(reserve)
  check_kinds(shapes, reserve, "reserve")
  shapes <- sf::st_zm(shapes)
  if (is_without_place(sf::st_crs(shapes), "reserve")) shapes <- sf::st_set_crs(shapes, NA)
  if (is.na(sf::st_crs(shapes)) != is.na(own)) {
    refuse("crs", if (is.na(own)) paste0("the ranges have no CRS, and the reserve has: ", help_for_no_crs(ranges, "reserve")) else
      "the reserve has no CRS, and the ranges have: name it, as by sf::st_set_crs(reserve, 32633)")
  }
  check_shapes(sf::st_set_crs(shapes, NA), reserve, are_in_degrees(shapes))
  tell_shapes_left(shapes, reserve, "reserve", "reserve")
  shapes <- polygons_of(shapes)
  says_system <- !is_bare && !is.na(sf::st_crs(shapes))
  if (!is.na(own) && sf::st_crs(shapes) != own) shapes <- turned_shapes(shapes, own, ranges)
  boundary <- sf::st_union(shapes)
  if (!says_system && lies_in_degrees(sf::st_bbox(boundary), ranges)) {
    refuse("degrees", "the reserve has no CRS, and lies as longitude and latitude do: ",
           if (is_bare) "make sf::st_sfc(reserve, crs = 4326) of it" else "name it, as by sf::st_set_crs(reserve, 4326)",
           ", which is taken to that of the ranges")
  }
  tell_far(boundary, ranges, "reserve")
  boundary
}

# Refuses shapes of which none has an area, and says which of some have none: shapes of a boundary that an argument has.
tell_shapes_left <- function(shapes, x, name, argument) {
  has_area <- sf::st_dimension(shapes) %in% 2
  are_empty <- sf::st_is_empty(shapes)
  if (!any(has_area)) {
    is_line <- any(sf::st_dimension(shapes) %in% 1)
    refuse("option", "the ", name, " has no area: ", if (all(are_empty)) "there is no shape in it" else if (is_line) "it is of lines" else "it is of points",
           if (!all(are_empty)) ", and polygons are wanted", if (is_line) paste0("; sf::st_cast(", argument, ", \"POLYGON\") makes them of closed lines"))
  }
  left <- list("a shape" = which(are_empty), "an area" = which(!has_area & !are_empty))
  for (what in names(left)[lengths(left) > 0]) {
    rows <- vapply(left[[what]], function(at) sub(": $", "", where_of_shape(x, at)), "")
    tell_note(paste0("left out of the ", name, ", without ", what, ": ", paste(utils::head(rows, 5), collapse = ", "),
                     if (length(rows) > 5) paste0(" and ", length(rows) - 5, " more")), "left_out")
  }
}

# Says that a boundary lies far from all ranges: their boxes do not meet, though each is widened by its own longer side.
tell_far <- function(boundary, ranges, name) {
  boxes <- rbind(as.numeric(sf::st_bbox(boundary)), box_of(in_metres(ranges, ranges$corners)))
  gaps <- c(max(boxes[, 1]) - min(boxes[, 3]), max(boxes[, 2]) - min(boxes[, 4]))
  is_cut <- anyNA(boxes)  # at so many metres around the ranges
  if (!is_cut && max(gaps) <= longer_side(boxes[1, ]) + longer_side(boxes[2, ])) return(invisible())
  away <- if (is_cut) paste("more than", around / 1000) else sprintf("at least %.1f", sqrt(sum(pmax(gaps, 0)^2)) / 1000)
  tell_note(paste0("the ", name, " lies ", away, " km away from all ranges: is it the right one, and its CRS?"), "asked")
}

# What helps where the CRS of ranges is not known: those of a report have none but that of a record.
help_for_no_crs <- function(ranges, argument) {
  if (!is.null(ranges$read)) return("name it, as by home_range(x, crs = 32633)")
  paste0("a report has it from its record alone, by read_report(.., record = ..); if ", argument, " has the coordinates of the report, take ",
         "sf::st_set_crs(", argument, ", NA)")
}

# Whether a box may be one of longitude and latitude, and has no place in common with ranges.
lies_in_degrees <- function(box, ranges) {
  box <- unname(box)
  is_in_degrees <- box[1] >= -half_turn && box[2] >= -half_turn / 2 && box[3] <= half_turn && box[4] <= half_turn / 2
  is_in_degrees && !boxes_meet(box, matrix(box_of(in_metres(ranges, ranges$corners)), nrow = 1))
}

# Refuses the first shape of a kind that the library of sf knows not, such as one of curves or of triangles.
check_kinds <- function(shapes, x, name) {
  odd <- lapply(shapes, function(shape) setdiff(kinds_within(shape), kinds_of_shapes))
  at <- which(lengths(odd) > 0)[1]
  if (is.na(at)) return(invisible())
  refuse("option", name, ": ", where_of_shape(x, at), "the shape is a ", odd[[at]][1], ": make polygons of its file, as by ",
         "sf::gdal_utils(\"vectortranslate\", FILE, NEW, c(\"-nlt\", \"MULTIPOLYGON\"))")
}

kinds_within <- function(shape) {
  if (inherits(shape, "GEOMETRYCOLLECTION")) unlist(lapply(unclass(shape), kinds_within)) else class(shape)[2]
}

# The row of a shape, as a refusal begins with it.
where_of_shape <- function(x, at) {
  if (inherits(x, "sfg")) return("")
  paste0(if (is.data.frame(x)) row_named(x, at) else paste("row", at), ": ")
}

# Refuses the first of the shapes of a reserve that bounds nothing, with its row.
check_shapes <- function(shapes, reserve, are_degrees) {
  of_first <- function(is_odd, why) {
    odd <- which(is_odd)[1]
    if (!is.na(odd)) refuse("option", where_of_shape(reserve, odd), "the boundary of the reserve ", why(odd))
  }
  check_degrees(shapes, reserve, are_degrees, "reserve")
  are_numbers <- vapply(shapes, function(shape) all(is.finite(unlist(shape))), NA)
  of_first(!sf::st_is_empty(shapes) & !are_numbers, function(odd) "has a corner that is no number: mend it, or leave it out")
  steps <- if (are_degrees) vapply(shapes, longest_step, 0) else 0
  of_first(steps > half_turn, function(odd) sprintf(help_for_long, cells_of_numbers(round(steps[odd], 6))))
  of_first(!sf::st_is_valid(shapes), function(odd) {
    is_hole <- startsWith(sf::st_is_valid(shapes[odd], reason = TRUE), "Hole")
    paste0(if (is_hole) "has a hole that lies outside of it" else "crosses itself", ": mend it, as by sf::st_make_valid(reserve)")
  })
}

# Whether shapes are of a geographic system, whatever their numbers are.
are_in_degrees <- function(shapes) isTRUE(sf::st_is_longlat(sf::st_crs(shapes)))

# Refuses the first of some shapes in degrees whose corners are none: longitudes may go on to 360.
check_degrees <- function(shapes, x, are_degrees, argument) {
  if (!are_degrees) return(invisible())
  boxes <- vapply(shapes, function(shape) as.numeric(sf::st_bbox(shape)), numeric(4))
  odd <- which(colSums(abs(round(boxes, 6)) > c(2 * half_turn, half_turn / 2)) > 0)[1]  # sides of an empty shape are missing
  if (is.na(odd)) return(invisible())
  refuse("option", where_of_shape(x, odd), "the boundary of the reserve goes to ", paste(cells_of_numbers(boxes[3:4, odd]), collapse = ", "),
         ", which is no longitude and latitude, though its CRS is of these: if it is in metres, name their CRS, as by sf::st_set_crs(",
         "sf::st_set_crs(", argument, ", NA), 32633)")
}

# How far two corners of a shape, one behind the other, lie apart in longitude, at most. A full circle apart they are one place.
longest_step <- function(shape) {
  if (!inherits(shape, "sfg") && is.matrix(shape)) {
    steps <- abs(diff(shape[, 1]))
    return(max(steps[steps != 2 * half_turn], 0))
  }
  if (is.list(shape)) max(vapply(unclass(shape), longest_step, 0), 0) else 0
}

# The polygons among shapes.
polygons_of <- function(shapes) {
  shapes <- shapes[sf::st_dimension(shapes) %in% 2]
  if (any(sf::st_is(shapes, "GEOMETRYCOLLECTION"))) shapes <- sf::st_collection_extract(shapes, "POLYGON")
  if (length(shapes)) sf::st_cast(shapes, "MULTIPOLYGON") else shapes
}

# Polygons of one reference system in another, where they go straight in their own; of those that are too wide for it what lies
# around the ranges.
turned_shapes <- function(shapes, own, ranges) {
  is_in_degrees <- are_in_degrees(shapes)
  longest <- if (is_in_degrees) longest_degrees else longest_metres / max(in_unit(sf::st_crs(shapes)$ud_unit, "m"), 0.1)
  found <- turned(shapes, own, longest)
  if (is.null(found)) {
    near <- surroundings(ranges, own, sf::st_crs(shapes), is_in_degrees)
    cut <- sf::st_intersection(sf::st_set_crs(shapes, NA), near)
    found <- turned(polygons_of(sf::st_set_crs(cut, sf::st_crs(shapes))), own, longest)
  }
  if (is.null(found)) refuse("crs", help_for_wide)
  found
}

# Polygons in another system, with points between corners that lie far from each other; NULL where it has no places for all of them.
turned <- function(shapes, own, longest) {
  if (!length(shapes)) return(sf::st_sfc(crs = own))
  crs <- sf::st_crs(shapes)
  whole <- sf::st_segmentize(sf::st_set_crs(shapes, NA), longest)
  at <- sf::st_coordinates(whole)
  there <- projected(at[, 1:2], crs, own)
  back <- projected(there, own, crs)
  last <- nrow(at)
  is_step <- rowSums(at[-1, -(1:2), drop = FALSE] != at[-last, -(1:2), drop = FALSE]) == 0
  steps <- sqrt(rowSums((there[-1, ] - there[-last, ])^2))[is_step]
  if (!isTRUE(all(apart(back, at[, 1:2], isTRUE(sf::st_is_longlat(crs))) <= missed * longest)) || !isTRUE(max(steps) <= torn)) return(NULL)
  found <- sf::st_transform(sf::st_set_crs(whole, crs), own)
  if (all(sf::st_is_valid(found))) found
}

# How far coordinates lie apart; longitudes around the circle, on which -180 and 180 are one.
apart <- function(one, other, are_degrees) {
  abs(if (are_degrees) (one - other + half_turn) %% (2 * half_turn) - half_turn else one - other)
}

# Coordinates of one reference system in another; not finite where they have no place there.
projected <- function(at, from, into) {
  sf::sf_project(from$wkt, into$wkt, at, keep = TRUE, warn = FALSE, authority_compliant = FALSE)
}

# The box around the ranges, in the system of a boundary.
surroundings <- function(ranges, own, crs, is_in_degrees) {
  sides <- apply(in_metres(ranges, ranges$corners), 2, range) + c(-around, around)
  sides <- sides[, 1:2]
  corners <- cbind(sides[c(1, 2, 2, 1, 1), 1], sides[c(1, 1, 2, 2, 1), 2])
  ring <- sf::st_segmentize(sf::st_sfc(sf::st_polygon(list(corners))), longest_metres)
  at <- projected(sf::st_coordinates(ring)[, 1:2], own, crs)
  # A box that holds a pole, or the meridian at which longitudes begin anew, is none of longitudes.
  if (!all(is.finite(at)) || is_in_degrees && diff(range(at[, 1])) > half_turn) refuse("crs", help_for_wide)
  sf::st_as_sfc(sf::st_bbox(c(xmin = min(at[, 1]), ymin = min(at[, 2]), xmax = max(at[, 1]), ymax = max(at[, 2]))))
}
