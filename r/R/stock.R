# Lines as bytes that are taken from a stock of texts: signs, digits by fours, and what else lines have. A text is named by its
# place in the stock. This takes a tenth of the time of texts of R.

signs_in_stock <- c(none = "", comma = ",", end = "\n", minus = "-", zero = "0")
sign_at <- `names<-`(seq_along(signs_in_stock), names(signs_in_stock))
# Behind which place the digits of 0 to 9999 stand: as numbers, with zeros before them, and so without those at their end; and the
# last two behind a point.
numbers_behind <- length(signs_in_stock)
fours_behind <- numbers_behind + 10000
ends_behind <- fours_behind + 10000
pointed_ends_behind <- ends_behind + 20000

# Texts as a stock: their bytes, and where each begins and how many it has.
stock_of <- function(texts) {
  texts[is.na(texts)] <- ""
  widths <- unname(nchar(texts, "bytes"))
  list(bytes = writeBin(texts, raw(), useBytes = TRUE), begins = cumsum(c(1L, widths + 1L))[seq_along(widths)], widths = widths)
}

stock_of_digits <- local({
  fours <- sprintf("%04d", 0:9999)
  ends <- sub("0+$", "", fours)
  stock_of(c(signs_in_stock, 0:9999, fours, ends, paste0(".", fours), sub("(.+)", ".\\1", ends)))
})

# The stock of digits with further texts behind them.
stock_with <- function(texts) {
  own <- stock_of(texts)
  list(bytes = c(stock_of_digits$bytes, own$bytes), widths = c(stock_of_digits$widths, own$widths),
       begins = c(stock_of_digits$begins, own$begins + length(stock_of_digits$bytes)))
}

# The bytes of lines, of which each member has the places of one text a line, or one for all.
bytes_of_lines <- function(stock, places) {
  places <- do.call(rbind, places)
  stock$bytes[sequence(stock$widths[places], stock$begins[places])]
}

# The places of the digits of whole numbers from 0, by fours.
stocked_wholes <- function(numbers) {
  found <- list()
  repeat {
    above <- floor(numbers / 10000)
    behind <- if (min(above) > 0) fours_behind else numbers_behind + 10000 * (above > 0)
    places <- as.integer(numbers - 10000 * above + (behind + 1))
    if (length(found) && min(numbers) == 0) places[numbers == 0] <- sign_at[["none"]]
    found <- c(list(places), found)
    if (max(above) == 0) return(found)
    numbers <- above
  }
}

# The places of a point and so many decimals, by fours, without zeros at their end, but for a further one.
stocked_decimals <- function(parts, decimals, zero) {
  if (max(parts) == 0) return(NULL)
  fours <- ceiling(decimals / 4)
  rest <- parts * 10^(4 * fours - decimals)
  found <- list()
  for (four in seq_len(fours)) {
    unit <- 10^(4 * (fours - four))
    digits <- floor(rest / unit)
    rest <- rest - unit * digits
    behind <- if (four == 1) pointed_ends_behind else ends_behind
    found[[four]] <- as.integer(digits + (behind + 1 - 10000 * (rest > 0)))
  }
  c(found, if (zero) list(stocked_sign("zero", parts > 0)))
}

# The places of a sign, or of none.
stocked_sign <- function(name, is_there) c(sign_at[["none"]], sign_at[[name]])[is_there + 1L]
