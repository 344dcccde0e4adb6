# How plots write areas, as the page does. Whole numbers are divided and rounded exactly, halves up.

# A quotient times a power of ten, rounded halves up. Digit by digit no number is greater than ten times the divisor.
scaled_quotient <- function(part, whole, places) {
  found <- part %/% whole
  rest <- part %% whole
  for (digit in seq_len(places)) {
    found <- 10 * found + (10 * rest) %/% whole
    rest <- (10 * rest) %% whole
  }
  found + (2 * rest >= whole)
}

# A whole number with its last digits behind a point, and commas between thousands.
with_point <- function(scaled, places) {
  text <- in_digits(scaled %/% 10^places)
  if (places == 0) text else paste0(text, ".", sprintf("%0*.0f", places, scaled %% 10^places))
}

quotient_text <- function(part, whole, places) with_point(scaled_quotient(part, whole, places), places)

# A quotient with three digits, or all that stand before its point.
three_digits <- function(part, whole) {
  quotient_text(part, whole, if (part >= 100 * whole) 0 else if (part >= 10 * whole) 1 else 2)
}

# A doubled area as a number of hectares, or of square metres with their sign.
area_text <- function(area2, unit) {
  hectare <- units_known[[unit]]$hectare
  if (area2 == 0) return("0")
  if (area2 >= hectare) three_digits(area2, hectare) else paste(three_digits(area2, hectare / 10000), "m\u00b2")
}

# A doubled area with the sign of its unit.
area_with_sign <- function(area2, unit) {
  text <- area_text(area2, unit)
  if (endsWith(text, "m\u00b2")) text else paste(text, "ha")
}

# Which seconds may be times of a calendar, from 1973 to 2286.
are_seconds_of_dates <- function(seconds) seconds >= 1e8 & seconds < 1e10
