# Drawings of home ranges: the polygons over the fixes, and the curves of area.

plot.home_range <- function(x, what = c("ranges", "curve"), levels = 100, animals = NULL, over = NULL, label = "boundary",
                            main = "", reset = TRUE, fixes = TRUE, by = c("fix", "date"), share = FALSE, facets = FALSE,
                            col = NULL, xlab = NULL, ylab = NULL, xlim = NULL, ylim = NULL, ...) {
  local_options(x, what, levels, animals, over, label, main, reset, fixes, by, share, facets, col, xlab, ylab, xlim, ylim, ...)
  check_title(...)
  what <- word_of_these(what, c("ranges", "curve"), "what")
  by <- word_of_these(by, c("fix", "date"), "by")
  for (flag in c("fixes", "share", "facets", "reset")) check_truth(get(flag), flag)
  drawn <- drawn_animals(x, animals, col)
  old <- par("mai", "mfrow", "mar", "oma", "cex", "mgp", "tcl")
  if (reset) on.exit(par(old), add = TRUE)
  for (side in c("xlim", "ylim")) check_limits(get(side), side)
  for (word in c("main", "xlab", "ylab", "label")) check_word(get(word), word)
  asked <- list(main = if (is.null(main)) "" else as_label(main), xlab = as_label(xlab), ylab = as_label(ylab), xlim = xlim, ylim = ylim,
                titles = list(...))
  check_drawing(what, levels, over, share, by)
  if (what == "curve") {
    draw_curves(x, drawn, by, share, facets, asked)
  } else {
    draw_ranges(x, drawn, drawn_levels(x, levels), fixes, check_over(x, over), label, facets, asked)
  }
  invisible(x)
}

# Refuses arguments that another drawing has.
check_drawing <- function(what, levels, over = NULL, share = FALSE, by = "fix") {
  of_map <- c(levels = !(is_number(levels) && levels == 100), over = !is.null(over))
  of_curve <- c(share = share, by = by != "fix")
  odd <- names(which(if (what == "curve") of_map else of_curve))[1]
  if (is.na(odd)) return(invisible())
  refuse("option", odd, if (what == "curve") " is of the map of ranges, and a curve is that of all fixes: leave it out, or take what = \"ranges\"" else
    " is of the curve of area: leave it out, or take what = \"curve\"")
}

# One of some words, the first where all of them stand, as in the head of a function.
word_of_these <- function(value, words, name) {
  if (identical(value, words)) return(words[1])
  if (is_text(value) && value %in% words) return(value)
  refuse("option", argument_text(name, value), " is neither ", paste0("\"", words, "\"", collapse = " nor "))
}

# Refuses what are no two ends of an axis.
check_limits <- function(value, name) {
  is_good <- is.null(value) || !is.logical(value) && length(value) == 2 && all(is.finite(value)) && value[1] != value[2]
  if (!is_good) refuse("option", argument_text(name, value), " are no two ends of an axis")
}

# Refuses the ends of an axis between which nothing lies of what is drawn, which goes from here to there.
check_ends <- function(value, name, drawn, help = NULL, as_text = function(end) in_digits(signif(end, 7))) {
  if (is.null(value) || min(value) <= max(drawn) && max(value) >= min(drawn)) return(invisible())
  text <- function(ends) paste("from", paste(vapply(ends, as_text, ""), collapse = " to "))
  refuse("option", name, ": nothing lies ", text(range(value)), ", since what is drawn goes ", text(drawn), help)
}

# Refuses what cannot be written beside a drawing.
check_word <- function(value, name) {
  is_good <- is.null(value) || is.expression(value) || is.call(value) || is.atomic(value) && length(value) == 1 && !is.factor(value)
  if (!is_good) refuse("option", argument_text(name, value), " is no text")
}

# What is written beside a drawing: a formula as one, and not as what it would come to.
as_label <- function(value) if (is.call(value)) as.expression(value) else value

arguments_of_titles <- c("sub", "outer", "family", paste0(c("cex.", "col.", "font."), rep(c("main", "sub", "lab"), each = 3)))

# Refuses arguments that are none of titles.
check_title <- function(...) {
  odd <- setdiff(names_of_arguments(...), arguments_of_titles)
  if (length(odd)) refuse_argument(odd[1], names(formals(sys.function(sys.parent()))))
}

# The animals that are wanted, in the order of the ranges: their numbers among all, their names, and the colours of the user or
# their own.
drawn_animals <- function(ranges, animals, col) {
  known <- ranges$animals$animal
  is_named <- is.null(animals) || is.character(animals) || is.factor(animals)
  if (!is_named) refuse("option", argument_text("animals", animals), " are no names")
  missing <- setdiff(as.character(animals), known)
  if (length(missing)) refuse_animal(paste0("\"", missing[1], "\""), known)
  if (!is.null(animals) && !length(animals)) refuse("option", "animals: there is none")
  number <- which(known %in% if (is.null(animals)) known else animals)
  drawn <- data.frame(number = number, name = known[number], colour = animal_colours[(number - 1) %% length(animal_colours) + 1])
  if (is.null(col)) return(drawn)
  if (is.factor(col)) col <- `names<-`(as.character(col), names(col))
  if (!is.list(col) && !is.character(col) && !is.numeric(col) && !is.logical(col)) refuse("option", "col: ", what_it_is(col), " is no colour")
  is_colour <- vapply(col, function(own) !is.na(own) && !inherits(try(col2rgb(own), silent = TRUE), "try-error"), NA)
  odd <- if (length(col)) unlist(col)[!is_colour] else list(col)
  if (length(odd)) refuse("option", "col: ", what_it_is(odd[[1]]), " is no colour")
  unknown <- setdiff(names(col), c("", known))
  if (length(unknown)) refuse("option", "col: there is no animal \"", unknown[1], "\"")
  if (is.null(names(col))) {
    drawn$colour <- rep_len(col, nrow(drawn))
  } else {
    is_named <- drawn$name %in% names(col)
    drawn$colour[is_named] <- col[drawn$name[is_named]]
  }
  drawn
}

# The levels of a map, from the highest on.
drawn_levels <- function(ranges, levels) {
  check_levels(ranges, levels)
  sort(levels, decreasing = TRUE)
}

# The geometry to draw over a map, which has to be in the CRS of the fixes.
check_over <- function(ranges, over) {
  if (is.null(over)) return(NULL)
  if (!inherits(over, c("sf", "sfc"))) refuse("option", "over: an sf geometry is wanted")
  check_kinds(sf::st_geometry(over), over, "over")
  own <- crs_or_none(ranges)
  if (is.na(own) && !is.na(sf::st_crs(over))) refuse("option", "over: the CRS of the fixes is not known, and over has one: ", help_for_no_crs(ranges, "over"))
  if (is.na(sf::st_crs(over)) && !is.na(own)) refuse("option", "over has no CRS: name its own, as by sf::st_set_crs(over, 32633)")
  check_degrees(sf::st_geometry(over), over, are_in_degrees(over), "over")
  if (!is.na(own) && sf::st_crs(over) != own) {
    refuse("option", "over: this is not in the CRS of the fixes: sf::st_transform(over, sf::st_crs(sf::st_as_sf(x)))")
  }
  shapes <- sf::st_zm(sf::st_geometry(over))
  tell_shapes_left(shapes, over, "boundary", "over")
  shapes <- polygons_of(shapes)
  tell_far(shapes, ranges, "boundary")
  shapes
}
