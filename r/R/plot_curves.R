# The curves of incremental area analysis, in one drawing or in a panel for each animal.

# The curve of an animal: where its fixes are along the axis, and areas in hectares or in per cent of the last one. Where the
# area stays, only the ends are kept.
line_of_areas <- function(ranges, name, by, share) {
  own <- ranges$rows[ranges$rows$animal == name, ]
  last <- nrow(own)
  kept <- unique(c(1, which(diff(own$area2) != 0) + 1, last))
  area <- if (!share) hectares_of(ranges, own$area2) else if (own$area2[last]) 100 * own$area2 / own$area2[last] else own$area2
  across <- if (by == "fix") own$n else if (inherits(own$time, "POSIXct")) as.numeric(own$time) else own$time / 86400
  list(across = across[kept], area = area[kept])
}

draw_curves <- function(ranges, drawn, by, share, facets, asked) {
  lines <- lapply(drawn$name, function(name) line_of_areas(ranges, name, by, share))
  unit <- if (share) list(factor = 1, sign = "% of the final one") else area_axis(max(unlist(lapply(lines, `[[`, "area"))))
  lines <- lapply(lines, function(line) list(across = line$across, area = unit$factor * line$area))
  is_dated <- by == "date" && inherits(ranges$rows$time, "POSIXct")
  labels <- list(x = if (by == "fix") "Number of fixes" else if (is_dated) paste0("Date (", ranges$tz, ")") else
    "Days from the files' start", y = paste0("Area (", unit$sign, ")"))
  zone <- if (is_dated) ranges$tz
  if (!is.null(asked$xlim)) asked$xlim <- seconds_of_ends(asked$xlim)
  if (facets) return(draw_curve_panels(ranges, drawn, lines, zone, labels, asked))
  check_curve_ends(lines, asked, zone)
  limits <- curve_limits(lines, by, asked)
  key <- data.frame(text = key_names(drawn), colour = drawn$colour, dashes = "solid", width = 2)
  begin_plot(limits$x, limits$y, key, asked$main)
  draw_axes(zone)
  label_axes(asked, labels)
  for (at in seq_along(lines)) draw_line(lines[[at]], drawn$colour[at])
  if (nrow(drawn) > 1) if (share) number_parts(drawn, lines) else number_ends(drawn, lines)
}

# The ends of an axis as numbers: of days and moments the seconds since 1970.
seconds_of_ends <- function(ends) as.numeric(if (inherits(ends, "Date")) as.POSIXct(ends) else ends)

# Refuses limits between which no curve lies; where a time zone is given, the lower axis has dates.
check_curve_ends <- function(lines, asked, zone) {
  across <- range(unlist(lapply(lines, `[[`, "across")))
  if (is.null(zone)) check_ends(asked$xlim, "xlim", across) else
    check_ends(asked$xlim, "xlim", across, as_text = function(end) format(.POSIXct(end, tz = zone), "%Y-%m-%d %H:%M"))
  check_ends(asked$ylim, "ylim", range(unlist(lapply(lines, `[[`, "area"))))
}

# The limits of both axes, from no fix and no area on.
curve_limits <- function(lines, by, asked) {
  across <- range(unlist(lapply(lines, `[[`, "across")))
  if (by == "fix") across[1] <- 0
  most <- max(unlist(lapply(lines, `[[`, "area")))
  list(x = if (is.null(asked$xlim)) across else asked$xlim,
       y = if (is.null(asked$ylim)) c(0, max(most, 1e-9)) else asked$ylim)
}

# The axes of curves; where a time zone is given, the lower one has dates.
draw_axes <- function(zone, ...) {
  if (is.null(zone)) {
    axis(1, axTicks(1), in_digits(axTicks(1)), ...)
  } else {
    ends <- as.POSIXct(par("usr")[1:2], origin = "1970-01-01", tz = zone)
    axis.POSIXct(1, ends, ...)
  }
  axis(2, axTicks(2), in_digits(axTicks(2)), las = 1, ...)
  box(bty = "l")
}

# The titles of both axes and of the drawing, those of the user where they are given.
label_axes <- function(asked, labels) {
  beside <- label_inches(par("usr")[3:4]) / line_inches() + 1.6
  xlab <- if (is.null(asked$xlab)) labels$x else asked$xlab
  ylab <- if (is.null(asked$ylab)) labels$y else asked$ylab
  do.call(title, c(list(main = asked$main, xlab = xlab), asked$titles))
  do.call(title, c(list(ylab = ylab, line = beside), asked$titles[setdiff(names(asked$titles), "sub")]))
}

# A curve; of one fix a dot.
draw_line <- function(line, colour, width = 2) {
  lines(line$across, line$area, type = "s", col = colour, lwd = width)
  if (length(line$area) == 1) points(line$across, line$area, pch = 16, col = colour)
}

# The numbers of animals at the ends of their curves, as many as there is room for beside these.
number_ends <- function(drawn, lines) {
  ends <- vapply(lines, function(line) c(line$across[length(line$across)], line$area[length(line$area)]), c(0, 0))
  size <- 0.6
  step <- 1.1 * size * par("cxy")[2]
  lowest <- -Inf
  for (at in order(ends[2, ])) {
    place <- max(ends[2, at], lowest + step)
    if (place > ends[2, at] + step) next
    lowest <- place
    text_with_edge(ends[1, at], place, drawn$number[at], size, drawn$colour[at], pos = 4, offset = 0.2)
  }
}

# The numbers of animals at curves of shares, which all end at the same height: where they pass one of five heights, each the
# next of them, since many do so at about the same fix.
number_parts <- function(drawn, lines) {
  for (at in seq_along(lines)) {
    height <- 30 + 10 * ((at - 1) %% 5)
    passed <- which(lines[[at]]$area >= height)[1]
    if (is.na(passed)) next
    text_with_edge(lines[[at]]$across[passed], height, drawn$number[at], 0.6, drawn$colour[at], pos = 4, offset = 0.2)
  }
}

# A panel for each animal, with its number, its name and its area above.
draw_curve_panels <- function(ranges, drawn, lines, zone, labels, asked) {
  areas <- area_texts(ranges, drawn, 100)
  in_panels(drawn, asked$main, function(own, size) {
    at <- match(own$name, drawn$name)
    limits <- curve_limits(lines[at], if (is.null(zone)) "fix" else "date", asked)
    plot.new()
    plot.window(limits$x, limits$y)
    draw_axes(zone, cex.axis = 0.9)
    draw_line(lines[[at]], own$colour, 1.6)
    mtext(paste0(own$number, " ", short_name(own$name), ", ", areas[at]), adj = 0, line = 0.2, cex = size, col = own$colour)
  })
  mtext(if (is.null(asked$xlab)) labels$x else asked$xlab, 1, 0.4, outer = TRUE, cex = 0.8)
  mtext(if (is.null(asked$ylab)) labels$y else asked$ylab, 2, 0.4, outer = TRUE, cex = 0.8)
}
