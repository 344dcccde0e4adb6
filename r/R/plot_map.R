# The map of ranges: polygons of levels over fixes and a boundary, numbers at the polygons, a bar of scale and an arrow to the
# north. Numbers and thinning are those of the page's map.

foot_of_map <- 0.32  # inches below the ranges, for the bar of scale
dots_on_plot <- 20000
times_wider <- 6  # how much wider than all ranges a boundary may be that a map shows as a whole

draw_ranges <- function(ranges, drawn, levels, fixes, over, label, facets, asked) {
  shapes <- shapes_drawn(ranges, drawn, levels, fixes)
  title <- paste0(paste(levels, collapse = ", "), " % of the fixes; ", system_of_plot(ranges))
  odd <- intersect(c("xlim", "ylim"), names(Filter(Negate(is.null), asked)))
  if (facets && length(odd)) refuse("option", odd[1], " is of one map, and facets have one for each animal: leave it out, or facets")
  if (facets) return(draw_map_panels(ranges, drawn, shapes, levels, over, title, asked))
  check_map_ends(asked, box_of_boxes(rbind(box_of_shapes(shapes), if (!is.null(over)) as.numeric(sf::st_bbox(over)))))
  box <- box_with(box_of_shapes(shapes), over, least_of_map[[ranges$unit]])
  xlim <- if (is.null(asked$xlim)) box[c(1, 3)] else asked$xlim
  ylim <- if (is.null(asked$ylim)) box[c(2, 4)] else asked$ylim
  begin_plot(xlim, ylim, key_of_ranges(ranges, drawn, levels, if (!is.null(over)) label), asked$main, 1, foot_of_map)
  draw_grid(asked)
  mtext(title, adj = 0, line = 0.2, cex = 0.8 * par("cex"))
  draw_over(over)
  draw_shapes(shapes, drawn)
  if (nrow(drawn) > 1) draw_numbers(shapes, drawn)
  draw_scale()
  if (!is.null(over)) tell_unseen(over)
}

# Refuses limits of a map whose first is the greater, or between which nothing of a box lies, as if they were in kilometres.
check_map_ends <- function(asked, box) {
  for (side in list(list(name = "xlim", ends = box[c(1, 3)]), list(name = "ylim", ends = box[c(2, 4)]))) {
    own <- asked[[side$name]]
    if (is.null(own)) next
    text <- paste0("c(", paste(cells_of_numbers(as.numeric(sort(own))), collapse = ", "), ")")
    if (own[1] > own[2]) refuse("option", side$name, ": the first is the greater: write ", side$name, " = ", text)
    are_kilometres <- 1000 * own[1] <= side$ends[2] && 1000 * own[2] >= side$ends[1]
    check_ends(own, side$name, side$ends, if (are_kilometres) paste0(": limits are in metres, so write ", side$name, " = 1000 * ", text))
  }
}

# The boundary, where there is one.
draw_over <- function(over) if (!is.null(over)) plot(over, add = TRUE, border = edge_colour, col = NA, lwd = 3)

# Says of a boundary that no edge of it is on the map that was drawn.
tell_unseen <- function(over) {
  ends <- par("usr")
  view <- sf::st_as_sfc(sf::st_bbox(c(xmin = ends[1], ymin = ends[3], xmax = ends[2], ymax = ends[4])))
  over <- sf::st_set_crs(over, NA)
  if (any(sf::st_intersects(sf::st_boundary(over), view, sparse = FALSE))) return(invisible())
  is_around <- any(sf::st_intersects(over, view, sparse = FALSE))
  tell_note(paste("no edge of the boundary is on this map, which lies", if (is_around) "within it" else "outside of it"), "left_out")
}

# The reference system of ranges, as it is written; as their record has it, since versions of PROJ have other names.
system_of_plot <- function(ranges) {
  if (!is.null(ranges$zone)) return(text_of_zone(ranges$zone))
  if (is.null(ranges$crs)) return("reference system not known")
  own <- ranges$record$crs
  if (is.null(own) || !is.null(zone_of_crs(ranges$crs))) text_of_crs(ranges$crs) else own
}

# What is drawn of each animal.
shapes_drawn <- function(ranges, drawn, levels, fixes) {
  polygons <- lapply(levels, function(level) rings_of(ranges, level))
  shapes_of_animals(ranges, polygons, fixes && !is.null(ranges$fixes), drawn$number)
}

# What a map shows, as wide as it has to be: all ranges, and the boundary, where it is not so much wider that they would not be
# seen.
box_with <- function(box, over, least) {
  if (!is.null(over)) {
    whole <- box_of_boxes(rbind(box, as.numeric(sf::st_bbox(over))))
    if (longer_side(whole) <= times_wider * max(longer_side(box), least)) box <- whole
  }
  more <- pmax(least - (box[3:4] - box[1:2]), 0) / 2
  c(box[1:2] - more, box[3:4] + more)
}

# The key of a map: the lines of levels, the boundary, and each animal with the area of the highest level.
key_of_ranges <- function(ranges, drawn, levels, label) {
  animals <- data.frame(text = paste0(key_names(drawn), ", ", area_texts(ranges, drawn, levels[1])), colour = drawn$colour,
                        dashes = "solid", width = 2)
  lines <- lines_of_levels(length(levels))
  rbind(
    if (length(levels) > 1) data.frame(text = paste(levels, "%"), colour = "black", dashes = lines$dashes, width = lines$width),
    if (!is.null(label)) data.frame(text = short_name(label), colour = edge_colour, dashes = "solid", width = 3), animals
  )
}

# The lines of so many levels, from the highest on.
lines_of_levels <- function(count) {
  if (count == 1) line_alone else level_lines[(seq_len(count) - 1) %% nrow(level_lines) + 1, ]
}

# Axes in kilometres where the plot is wide, else in metres, with as many digits as tell places apart.
draw_grid <- function(asked) {
  unit <- if (diff(par("usr")[1:2]) >= 2500) list(sign = "km", metres = 1000) else list(sign = "m", metres = 1)
  for (side in 1:2) {
    ticks <- axTicks(side)
    axis(side, ticks, format(ticks / unit$metres, digits = 12, scientific = FALSE, trim = TRUE, big.mark = ","))
  }
  abline(v = axTicks(1), h = axTicks(2), col = "#dddddd", lwd = 0.6)
  box()
  words <- list(main = asked$main, xlab = paste0("Easting (", unit$sign, ")"), ylab = paste0("Northing (", unit$sign, ")"))
  for (name in c("xlab", "ylab")) if (!is.null(asked[[name]])) words[[name]] <- asked[[name]]
  do.call(title, c(words, asked$titles))
}

# The frame of the plot as it stands, in points, as the page's drawings have one.
frame_of_plot <- function() {
  usr <- par("usr")
  size <- 72 * par("pin")
  list(width = size[1], height = size[2], scale = size[1] / (usr[2] - usr[1]), west = usr[1], south = usr[3])
}

# The place on the ground of places in a frame.
ground_at <- function(frame, places) {
  cbind(frame$west + places[, 1] / frame$scale, frame$south + (frame$height - places[, 2]) / frame$scale)
}

# Fixes, as few as cover the same, and polygons, those of the highest level below the others.
draw_shapes <- function(shapes, drawn) {
  frame <- frame_of_plot()
  cell <- 1
  repeat {
    places <- lapply(shapes, function(shape) thinned(shape$fixes, frame, cell))
    if (sum(vapply(places, nrow, 0L)) <= dots_on_plot) break
    cell <- cell * 1.5
  }
  is_few <- sum(vapply(places, nrow, 0L)) <= 200
  for (at in seq_along(places)) {
    pale <- adjustcolor(drawn$colour[at], 0.45)
    points(ground_at(frame, places[[at]]), pch = 16, cex = if (is_few) 0.5 else 0.25, col = pale)
  }
  kinds <- lines_of_levels(length(shapes[[1]]$polygons))
  kinds$width <- kinds$width / if (length(shapes) > most_beside) 2 else 1
  for (level in seq_along(shapes[[1]]$polygons)) {
    for (at in seq_along(shapes)) draw_ring(shapes[[at]]$polygons[[level]], drawn$colour[at], kinds[level, ])
  }
}

# A polygon, of two corners a line, of one a cross.
draw_ring <- function(ring, colour, kind) {
  if (nrow(ring) == 1) points(ring, pch = 3, col = colour, lwd = kind$width)
  else polygon(ring, border = colour, lty = kind$dashes, lwd = kind$width, col = if (kind$dark > 0) adjustcolor(colour, kind$dark))
}

# The numbers of animals, each in the middle of its innermost polygon or near it, where it covers no other.
draw_numbers <- function(shapes, drawn) {
  frame <- frame_of_plot()
  size <- if (length(shapes) <= most_beside) 0.75 else 0.5
  places <- places_of_numbers_on(shapes, frame, 12 * size * par("cex"))
  for (at in seq_along(shapes)) {
    own <- ground_at(frame, rbind(places[at, 1:2], places[at, 3:4]))
    if (places[at, 5]) segments(own[1, 1], own[1, 2], own[2, 1], own[2, 2], col = "#888888", lwd = 0.5)
  }
  at <- ground_at(frame, places[, 3:4, drop = FALSE])
  text_with_edge(at[, 1], at[, 2], drawn$number, size, drawn$colour)
}

# The bar of scale and the arrow to the north, below on the left.
draw_scale <- function() {
  frame <- frame_of_plot()
  step <- step_of(frame$width / frame$scale / 6, 1)
  point <- 1 / frame$scale
  left <- frame$west + 24 * point
  height <- frame$south + 6 * point
  segments(left, height, left + step_value(step, 1), height, lwd = 2, lend = "butt")
  text(left + step_value(step, 1) / 2, height, length_text(step), pos = 3, offset = 0.2, cex = 0.65)
  arrows(frame$west + 10 * point, frame$south + 10 * point, y1 = frame$south + 20 * point, length = 0.04)
  text(frame$west + 10 * point, frame$south + 5 * point, "N", cex = 0.6)
}

# A map for each animal, with its number, its name and its area above, and a bar of scale of its own.
draw_map_panels <- function(ranges, drawn, shapes, levels, over, title, asked) {
  areas <- area_texts(ranges, drawn, levels[1])
  in_panels(drawn, if (nzchar(asked$main)) asked$main else title, function(own, size) {
    at <- match(own$name, drawn$name)
    box <- box_with(box_of_shapes(shapes[at]), over, least_of_map[[ranges$unit]])
    plot.new()
    foot <- 0.28 * max((box[4] - box[2]) / par("pin")[2], (box[3] - box[1]) / par("pin")[1])
    plot.window(box[c(1, 3)], c(box[2] - foot, box[4]), asp = 1)
    box(col = "grey60")
    draw_over(over)
    draw_shapes(shapes[at], own)
    draw_scale()
    mtext(paste0(own$number, " ", short_name(own$name), ", ", areas[at]), adj = 0, line = 0.2, cex = size, col = own$colour)
  })
}
