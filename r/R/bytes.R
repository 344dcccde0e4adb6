# What the bytes of a file are: a text, and whole numbers by where they stand in it, all at once.

fields_at_once <- 8192L
powers_of_ten <- 10^(0:22)
most_exact_digits <- 15  # of a whole number that is divided by a power of ten without an error

# The whole numbers of fields of digits alone. R reads those of many digits. Pieces of fields fit into a processor's cache.
field_wholes <- function(bytes, starts, widths) {
  ends <- starts + widths
  wholes <- numeric(length(ends))
  for (first in seq(1L, by = fields_at_once, length.out = ceiling(length(ends) / fields_at_once))) {
    own <- first:min(first + fields_at_once - 1L, length(ends))
    wholes[own] <- digits_before(bytes, ends[own], widths[own])
  }
  long <- which(widths > most_exact_digits)
  wholes[long] <- vapply(long, function(at) as.numeric(rawToChar(bytes[starts[at] + seq_len(widths[at]) - 1L])), 0)
  wholes
}

# The numbers of which the digits, from the last on, stand before these places. Their codes are added up.
digits_before <- function(bytes, ends, widths) {
  wholes <- numeric(length(ends))
  least <- min(widths)
  widest <- min(max(widths), most_exact_digits)
  for (place in seq_len(widest)) {
    codes <- as.integer(bytes[ends - place])
    if (place > least) codes <- codes * (widths >= place)
    wholes <- wholes + powers_of_ten[place] * codes
  }
  wholes - 48 * cumsum(powers_of_ten)[if (least < widest) pmin(widths, widest) else widest]
}

# The text of a file of so many bytes in UTF-8, marked as such unless it is ASCII, whose lines end in LF; what is no text is refused.
text_of_file <- function(path, size) {
  text <- if (size > 0) suppressWarnings(readChar(path, size, useBytes = TRUE)) else ""
  if (nchar(text, "bytes") < size) refuse("text", path, " is no text in UTF-8: it has a byte 0, as files in UTF-16 have: write it in UTF-8")
  if (grepl("[^\\x01-\\x0c\\x0e-\\x7f]", text, perl = TRUE, useBytes = TRUE)) {
    if (!validUTF8(text)) refuse("text", path, " is no text in UTF-8")
    text <- gsub("\r\n?", "\n", text, perl = TRUE, useBytes = TRUE)
    Encoding(text) <- "UTF-8"
  }
  text
}

# The lines of a text, each of which ends in LF.
lines_of_text <- function(text) {
  lines <- strsplit(text, "\n", fixed = TRUE, useBytes = TRUE)[[1]]
  Encoding(lines) <- "UTF-8"
  lines
}
