# The frame of a map of a plot: its steps, the fixes that are drawn, and the places of animals' numbers, as on the page.
#
# A shape is what is drawn of an animal, in metres: its number, polygons from the highest level on, and fixes. A box is west,
# south, east and north.

least_of_map <- c(m = 100, dm = 10)  # metres that a map is wide at least, whose fixes may all lie in one place
around_place <- rbind(c(0, -1), c(0.7, -0.7), c(1, 0), c(0.7, 0.7), c(0, 1), c(-0.7, 0.7), c(-1, 0), c(-0.7, -0.7))
# Up to how many animals have how many panels beside each other.
panel_columns <- data.frame(most = c(1, 2, 3, 12, 40, Inf), columns = c(1, 2, 3, 4, 6, 10))

columns_of_panels <- function(animals) panel_columns$columns[which(animals <= panel_columns$most)[1]]

box_of <- function(points) c(min(points[, 1]), min(points[, 2]), max(points[, 1]), max(points[, 2]))
box_of_boxes <- function(boxes) c(min(boxes[, 1]), min(boxes[, 2]), max(boxes[, 3]), max(boxes[, 4]))

# The box of the polygons and fixes of animals.
box_of_shapes <- function(shapes) {
  box_of_boxes(do.call(rbind, lapply(shapes, function(shape) box_of(do.call(rbind, c(shape$polygons, list(shape$fixes)))))))
}

# The longer side of a box.
longer_side <- function(box) max(box[3] - box[1], box[4] - box[2])

# The levels of the map from the highest on; without the fixes that of all is the only one that is known.
levels_drawn <- function(x) if (is.null(x$fixes)) 100 else sort(unique(x$percents$level), decreasing = TRUE)

# What is drawn of the animals of these numbers.
shapes_of_animals <- function(x, polygons, has_fixes, numbers) {
  places <- if (has_fixes) in_metres(x, x$fixes)
  rows <- if (has_fixes) split(seq_along(x$fixes$animal), factor(x$fixes$animal, x$animals$animal))
  lapply(numbers, function(number) {
    list(number = number, polygons = lapply(polygons, `[[`, number),
         fixes = if (has_fixes) places[rows[[number]], , drop = FALSE] else matrix(0, 0, 2))
  })
}

# Places of the ground in the frame, whose first corner is above on the left.
frame_x <- function(frame, easting) (easting - frame$west) * frame$scale
frame_y <- function(frame, northing) frame$height - (northing - frame$south) * frame$scale

# The places of fixes, the first in each cell of the drawing.
thinned <- function(fixes, frame, cell) {
  x <- frame_x(frame, fixes[, 1])
  y <- frame_y(frame, fixes[, 2])
  is_first <- !duplicated(complex(real = x %/% cell, imaginary = y %/% cell))
  cbind(x[is_first], y[is_first])
}

# So many steps, without the errors of a sum. A step is 1, 2 or 5 times a power of ten.
step_value <- function(step, count) {
  many <- count * step$digit
  if (step$power >= 0) many * 10^step$power else many / 10^-step$power
}

step_text <- function(step, count) {
  text <- sprintf("%.*f", max(0, -step$power), step_value(step, count))
  parts <- strsplit(text, ".", fixed = TRUE)[[1]]
  parts[1] <- gsub("(?<=[0-9])(?=(?:[0-9]{3})+$)", ",", parts[1], perl = TRUE)
  paste(parts, collapse = ".")
}

# The least step of which a span has at most so many.
step_of <- function(span, most) {
  for (power in -3:11) {
    for (digit in c(1, 2, 5)) {
      step <- list(digit = digit, power = power)
      if (span <= most * step_value(step, 1)) return(step)
    }
  }
}

# A length on the ground.
length_text <- function(step) {
  if (step$power < 3) return(paste(step_text(step, 1), "m"))
  paste(step_text(list(digit = step$digit, power = step$power - 3), 1), "km")
}

# Whether a box meets each of some boxes.
boxes_meet <- function(box, others) {
  box[1] < others[, 3] & others[, 1] < box[3] & box[2] < others[, 4] & others[, 2] < box[4]
}

# Of each animal the middle of its innermost polygon, the place of its number, and whether a line leads there.
places_of_numbers_on <- function(shapes, frame, size) {
  taken <- matrix(0, 0, 4)
  found <- matrix(0, length(shapes), 5)
  for (at in seq_along(shapes)) {
    polygon <- shapes[[at]]$polygons[[length(shapes[[at]]$polygons)]]
    box <- box_of(polygon)
    x <- frame_x(frame, (box[1] + box[3]) / 2)
    y <- frame_y(frame, (box[2] + box[4]) / 2)
    half <- 0.31 * size * nchar(shapes[[at]]$number) + 1
    to <- free_place(x, y, half, size, frame, taken, nrow(polygon) < 3)
    taken <- rbind(taken, number_box(to, half, size))
    found[at, ] <- c(x, y, to, abs(to[1] - x) + abs(to[2] - y) > 1.5 * size)
  }
  found
}

number_box <- function(at, half, size) c(at[1] - half, at[2] - size / 2, at[1] + half, at[2] + size / 2)

# The nearest place where a number fits, of what is flat not the place itself, which it would cover; that where there is none.
free_place <- function(x, y, half, size, frame, taken, is_flat) {
  rings <- rep(1:15, each = nrow(around_place))
  around <- around_place[rep(seq_len(nrow(around_place)), 15), ]
  places <- rbind(c(x, y), cbind(x + 0.7 * rings * size * around[, 1], y + 0.7 * rings * size * around[, 2]))
  for (at in seq_len(nrow(places))[if (is_flat) -1 else TRUE]) {
    box <- number_box(places[at, ], half, size)
    is_within <- box[1] >= 0 && box[2] >= 0 && box[3] <= frame$width && box[4] <= frame$height
    if (is_within && !any(boxes_meet(box, taken))) return(places[at, ])
  }
  c(x, y)
}
