# What the drawings share: the colours and numbers of animals, the kinds of lines of levels, the key beside a drawing, and
# panels. Colours and lines are those of the page, and an animal has its own in each drawing.

animal_colours <- c("#0072b2", "#c44e00", "#00805e", "#a8437a", "#7a6200", "#4b3fa0", "#4d4d4d")
# The lines of levels, from the highest on: width, dashes and how dark the polygon is filled.
level_lines <- data.frame(
  width = c(1.2, 2.4, 1.2, 1.8, 1.8, 1.4, 1, 0.7), dashes = c("53", "solid", "solid", "13", "83", "8222", "32", "solid"),
  dark = c(0, 0.06, 0.22, 0.15, 0.1, 0.1, 0.1, 0.1)
)
line_alone <- data.frame(width = 1.8, dashes = "solid", dark = 0.08)
longest_name <- 24  # letters of a name in the key
most_beside <- 40  # animals whose key stands beside the drawing
rows_beside <- 20
edge_colour <- "#666666"  # of a boundary
key_sizes <- c(0.8, 0.7, 0.6, 0.5, 0.45, 0.4, 0.35, 0.3)

# A name in one line, and no longer than leaves a drawing its room.
short_name <- function(names) {
  names <- one_line(names)
  ifelse(nchar(names) > longest_name, paste0(substr(names, 1, longest_name - 3), "..."), names)
}

# Names of drawn animals, of several with their numbers.
key_names <- function(drawn) {
  if (nrow(drawn) == 1) short_name(drawn$name) else paste(drawn$number, short_name(drawn$name))
}

# Areas as the page writes them.
area_texts <- function(ranges, drawn, level) {
  found <- level_table(ranges, level)
  area2 <- found$area2[match(drawn$name, found$animal)]
  vapply(area2, area_with_sign, "", ranges$unit)
}

# By what hectares are multiplied at an axis whose greatest area this is, and the unit's sign.
area_axis <- function(hectares) {
  if (hectares >= 10000) return(list(factor = 0.01, sign = "km\u00b2"))
  if (hectares >= 1 || hectares == 0) return(list(factor = 1, sign = "ha"))
  list(factor = 10000, sign = "m\u00b2")
}

# Begins a drawing with room for its key, which it draws: a data frame of texts, colours, dashes and widths. The foot is the room
# below the ground of a map, in inches.
begin_plot <- function(xlim, ylim, key, main, asp = NA, foot = 0) {
  plot.new()
  margins <- par("mai")
  if (!nzchar(main)) margins[3] <- min(margins[3], 2.2 * line_inches())
  if (is.na(asp)) margins[2] <- label_inches(ylim) + 3 * line_inches()
  room <- if (nrow(key) <= most_beside) key_beside(key) else key_below(key, margins)
  margins[4] <- if (room$is_beside) room$width + 0.2 else min(margins[4], 0.3)
  if (!room$is_beside) margins[1] <- 4.6 * line_inches() + room$height
  par(mai = margins, new = TRUE)
  plot.new()
  if (!is.na(asp)) ylim[1] <- ylim[1] - foot * max(diff(ylim) / par("pin")[2], diff(xlim) / par("pin")[1])
  plot.window(xlim, ylim, asp = asp)
  corner <- par("usr")[if (room$is_beside) c(2, 4) else c(1, 3)]
  if (!room$is_beside) corner[2] <- corner[2] - 4.4 * line_inches() * diff(par("usr")[3:4]) / par("pin")[2]
  do.call(legend, c(list(x = corner[1], y = corner[2], xpd = NA), room$call))
}

# How legend is called for a key.
key_call <- function(key, columns, size) {
  list(legend = key$text, col = key$colour, lty = key$dashes, lwd = key$width, bty = "n", seg.len = 1.6, ncol = columns,
       cex = size, x.intersp = 0.6)
}

# The width and the height of a key, in inches.
key_inches <- function(call) {
  size <- do.call(legend, c(list(x = 0, y = 1, plot = FALSE), call))$rect
  c(size$w / diff(par("usr")[1:2]) * par("pin")[1], size$h / diff(par("usr")[3:4]) * par("pin")[2])
}

# A key beside the drawing: in one column or two, in letters that leave the drawing its room.
key_beside <- function(key) {
  columns <- ceiling(nrow(key) / rows_beside)
  for (size in key_sizes) {
    call <- key_call(key, columns, size)
    inches <- key_inches(call)
    if (inches[1] <= 0.38 * par("fin")[1] && inches[2] <= par("pin")[2]) break
  }
  list(call = call, width = min(inches[1], 0.5 * par("fin")[1]), is_beside = TRUE)
}

# A key below the drawing, in as many columns as there is room for.
key_below <- function(key, margins) {
  wide <- par("fin")[1] - margins[2] - 0.3
  for (size in key_sizes) {
    one <- key_inches(key_call(key, 1, size))
    columns <- max(floor(wide / one[1]), 1)
    call <- key_call(key, columns, size)
    height <- key_inches(call)[2]
    if (height <= 0.45 * par("fin")[2]) break
  }
  if (height > 0.45 * par("fin")[2]) call <- key_call(shortened_key(key, columns, one[2]), columns, size)
  list(call = call, height = min(height, 0.45 * par("fin")[2]), is_beside = FALSE)
}

# As many entries of a key as there is room for, and how many more there are. All of them in one column have this height.
shortened_key <- function(key, columns, height) {
  room <- max(floor(0.45 * par("fin")[2] * nrow(key) / height) * columns - 1, 1)
  more <- data.frame(text = paste(nrow(key) - room, "more"), colour = NA, dashes = "blank", width = 0)
  rbind(key[seq_len(room), ], more)
}

line_inches <- function() par("mai")[1] / par("mar")[1]

# The width of the labels beside an axis of these limits.
label_inches <- function(limits) max(strwidth(in_digits(pretty(limits)), "inches"))

# Text with an edge of white around it, which is legible over lines.
text_with_edge <- function(x, y, labels, size, colour, ...) {
  labels <- as.character(labels)
  around <- 0.09 * size * par("cxy")
  for (angle in seq(0, 2 * pi, length.out = 9)[-1]) {
    text(x + around[1] * cos(angle), y + around[2] * sin(angle), labels, cex = size, col = "white", font = 2, xpd = NA, ...)
  }
  text(x, y, labels, cex = size, col = colour, font = 2, xpd = NA, ...)
}

# Calls a function for each animal, which draws into a panel of its own with little room around it.
in_panels <- function(drawn, main, action) {
  columns <- columns_of_panels(nrow(drawn))
  size <- c(1, 1, 0.9, 0.8, 0, 0.6, 0, 0, 0, 0.45)[columns]
  par(mfrow = c(ceiling(nrow(drawn) / columns), columns), oma = c(1.6, 1.6, if (nzchar(main)) 2.4 else 0.6, 0),
      mar = c(1.6, 2.2, 1.4, 0.4), mgp = c(1, 0.3, 0), tcl = -0.2, cex = size)
  for (at in seq_len(nrow(drawn))) action(drawn[at, ], size)
  if (nzchar(main)) mtext(main, outer = TRUE, font = 2, line = 1)
}
