# How the columns of a data frame are written as the cells of a text, by their classes: docs/TABLES.md, Data frames.
#
# Cells are text in UTF-8, "" where they are missing. One of a class of which nothing is known is odd: it is written by the class,
# as <complex>, and refused where that column is read. A column is written in parts, one behind the other in each cell: texts by
# their kinds and the place of each cell among these, or numbers with decimals.

most_exact <- 2^53
most_short <- 1e15  # below which a number has no more digits than a double holds
most_places <- 9  # decimals of numbers that are written without a look at each
most_days <- 4e6  # from 1970: the calendar of R is slow beyond
most_counted <- 1e6  # whole numbers from the least to the greatest that are told apart by counting
some_numbers <- 1000  # that are looked at before all
thousand <- 1000
metres_of_units <- c(m = 1, metre = 1, meter = 1, km = 1000)
degrees_of_units <- c("\u00b0", "degree", "arc_degree", "degrees")

# The parts of a column.
parts_of_column <- function(column, title) {
  if (inherits(column, "POSIXlt")) column <- as.POSIXct(column)
  if (is.list(column) || is.complex(column) || is.raw(column) || NCOL(column) > 1) return(parts_of_class(column))
  if (!is.null(dim(column))) column <- as.vector(column)
  if (is.factor(column)) return(parts_of_text(levels(column), as.integer(column), title))
  if (is.character(column)) {
    kinds <- distinct(as.vector(column))
    return(parts_of_text(kinds, places_of(column, kinds), title))
  }
  if (inherits(column, "nanotime")) return(parts_of_class(column, "nanotime"))
  if (inherits(column, "integer64")) return(parts_of_cells(digits_of_integer64(column)))
  clocks <- if (has_class_of_clocks(column)) seconds_of_clocks(column)
  if (!is.null(clocks)) return(parts_of_clocks(clocks, class(column)[1]))
  if (inherits(column, "POSIXct")) return(parts_of_moments(as.numeric(column)))
  if (inherits(column, "Date")) return(parts_of_days(as.numeric(column)))
  if (inherits(column, "units")) return(parts_of_units(column))
  if (has_own_class(column)) return(parts_of_class(column))
  if (is.logical(column)) return(list(part_of_kinds(c("false", "true"), column + 1L)))
  parts_of_numbers(as.numeric(unclass(column)))
}

# The cells of a column as texts.
cells_of_column <- function(column, title) texts_of_parts(parts_of_column(column, title))

texts_of_parts <- function(parts) do.call(paste0, lapply(parts, texts_of_part))

texts_of_part <- function(part) {
  if (!is.null(part$numbers)) return(with_zero(cells_of_numbers(part$numbers), part$zero))
  texts <- part$kinds[part$place]
  replace(texts, is.na(texts), "")
}

# A part of texts: its kinds, the place of each cell among them, and which kinds are odd.
part_of_kinds <- function(kinds, place, odd = FALSE) list(kinds = kinds, place = place, odd = odd)

parts_of_cells <- function(cells) {
  kinds <- distinct(cells)
  list(part_of_kinds(kinds, places_of(cells, kinds)))
}

# Whether cells mean something else than the numbers or truths they are kept as.
has_own_class <- function(column) isS4(column) || length(setdiff(oldClass(column), c("AsIs", "noquote"))) > 0

parts_of_class <- function(column, name = class(without_class(column, "AsIs"))[1]) {
  list(part_of_kinds(paste0("<", name, ">"), rep(1L, NROW(column)), odd = TRUE))
}

without_class <- function(column, class) `oldClass<-`(column, setdiff(oldClass(column), class))

# The first row with an odd cell and its class; NULL where there is none.
odd_cell <- function(parts) {
  for (part in parts) {
    row <- if (any(part$odd)) which(rep_len(part$odd, length(part$kinds))[part$place])[1]
    if (length(row) && !is.na(row)) return(list(row = row, class = gsub("^<|>$", "", part$kinds[part$place[row]])))
  }
}

# A column of text, by its different texts and the place of each cell among them. One that cannot be UTF-8 is refused by its
# row.
parts_of_text <- function(kinds, place, title) {
  kinds <- in_utf8(kinds)
  bad <- which(!is.na(kinds) & !validUTF8(kinds))
  if (length(bad)) {
    refuse("text", readable(title), " is no text in UTF-8: iconv(x, \"latin1\", \"UTF-8\") makes it of another encoding",
           record = which(place %in% bad)[1])
  }
  list(part_of_kinds(quoted(kinds), place))
}

# Texts as fields: those with commas, quotes or ends of lines stand in quotes.
quoted <- function(texts) {
  needs <- grepl("[,\"\r\n]", texts, useBytes = TRUE)
  texts[needs] <- paste0("\"", gsub("\"", "\"\"", texts[needs], fixed = TRUE), "\"")
  texts
}

# Text in UTF-8. Bytes of no declared encoding are UTF-8 where they can be, and else of the locale. In one of ASCII alone,
# such as that of a job without LANG, enc2utf8 would write them as <c3><bc>.
in_utf8 <- function(text) {
  is_plain <- Encoding(text) == "unknown" & validUTF8(text)
  if (all(is_plain)) return(`Encoding<-`(text, "UTF-8"))
  Encoding(text[is_plain]) <- "UTF-8"
  others <- text[!is_plain]
  is_known <- Encoding(others) != "unknown" | !is.na(iconv(others, "", "UTF-8"))
  is_good <- is_known & validEnc(others)
  others[is_good] <- enc2utf8(others[is_good])
  text[!is_plain] <- others
  text
}

# Text in UTF-8, with <e4> for a byte that is none, of which R could not be asked anything.
readable <- function(text) {
  text <- in_utf8(text)
  is_bad <- !is.na(text) & !validUTF8(text)
  text[is_bad] <- iconv(text[is_bad], "UTF-8", "UTF-8", sub = "byte")
  text
}

# Numbers: those with few decimals and digits, or else their texts.
parts_of_numbers <- function(numbers) {
  places <- places_of_decimals(numbers)
  if (is.na(places)) return(parts_of_cells(cells_of_numbers(numbers)))
  list(list(numbers = numbers, decimals = places, zero = places == 3 && look_like_thousands(numbers)))
}

# Whether numbers of at most three decimals are such as 123.456 and 123 alone, whose point may be one before thousands to the
# program: so a 0 is written behind them.
look_like_thousands <- function(numbers) {
  numbers <- numbers[!is.na(numbers)]
  has_part <- numbers != floor(numbers)
  all(abs(numbers) < thousand) && all(round(numbers[has_part] * 100) / 100 != numbers[has_part])
}

with_zero <- function(cells, zero) if (zero) sub("([.].*)", "\\10", cells) else cells

# How many decimals all of some numbers have; NA where one has too many, or has no end.
places_of_decimals <- function(numbers) {
  if (anyNA(numbers)) numbers <- numbers[!is.na(numbers)]
  size <- max(numbers, -min(numbers, 0))
  has_places <- function(numbers, places) all(round(numbers * 10^places) / 10^places == numbers)
  for (places in 0:most_places) {
    if (size * 10^places >= most_short) return(NA)
    if (has_places(utils::head(numbers, some_numbers), places) && has_places(numbers, places)) return(places)
  }
  NA
}

# The fewest digits that give numbers back, without an exponent below 2^53.
cells_of_numbers <- function(numbers) {
  numbers <- numbers + 0  # of -0 too, which is 0
  size <- abs(numbers)
  is_plain <- is.finite(numbers) & size < most_short & (size >= 1e-4 | size == 0)
  cells <- character(length(numbers))
  left <- which(is_plain)
  for (digits in 15:17) {
    cells[left] <- sprintf("%.*g", digits, numbers[left])
    left <- left[as.numeric(cells[left]) != numbers[left]]
  }
  cells[!is_plain] <- vapply(numbers[!is_plain], odd_number, "")
  cells
}

# The text of a number that has an exponent, or no end.
odd_number <- function(number) {
  if (is.na(number)) return("")
  if (is.infinite(number)) return(if (number > 0) "inf" else "-inf")
  digits <- 15
  while (digits < 17 && as.numeric(sprintf("%.*e", digits - 1, number)) != number) digits <- digits + 1
  parts <- strsplit(sprintf("%.*e", digits - 1, number), "e", fixed = TRUE)[[1]]
  if (abs(number) >= most_exact) return(paste0(without_zeros(parts[1]), "e", parts[2]))
  without_zeros(sprintf("%.*f", max(digits - 1 - as.numeric(parts[2]), 0), number))
}

# Decimals without zeros at their end.
without_zeros <- function(texts) {
  has_point <- grepl(".", texts, fixed = TRUE)
  texts[has_point] <- sub("[.]?0*$", "", texts[has_point])
  texts
}

# The digits of integers of 64 bits, which the package bit64 keeps in the bits of doubles.
digits_of_integer64 <- function(column) {
  bits <- matrix(readBin(writeBin(as.vector(unclass(column)), raw(), endian = "little"), "integer", 4 * length(column), 2,
                         signed = FALSE, endian = "little"), 4)
  is_missing <- bits[4, ] == 32768 & colSums(bits[1:3, , drop = FALSE]) == 0
  is_negative <- bits[4, ] >= 32768
  bits[, is_negative] <- 65535 - bits[, is_negative]
  high <- numeric(ncol(bits))
  low <- as.numeric(is_negative)  # of two's complement
  low <- low + bits[1, ] + 65536 * bits[2, ]
  for (limb in 3:4) {
    place <- bits[limb, ] * c(4294967296, 281474976710656)[limb - 2]
    high <- high + place %/% 1e8
    low <- low + place %% 1e8
  }
  high <- high + low %/% 1e8
  digits <- ifelse(high > 0, sprintf("%.0f%08.0f", high, low %% 1e8), sprintf("%.0f", low))
  ifelse(is_missing, "", paste0(ifelse(is_negative, "-", ""), digits))
}

# Days since 1970; those with parts of a day have a clock, to the millisecond that they may be exact to, which is of no zone.
parts_of_days <- function(days) {
  if (all(days == floor(days), na.rm = TRUE)) return(list(part_of_days(days, "")))
  parts_of_moments(round(days * seconds_of_day, 3), " ", "")
}

# Moments of UTC, from seconds since 1970: the day, the clock, and decimals where there are some.
parts_of_moments <- function(seconds, between = "T", zone = "Z") {
  whole <- floor(seconds)
  day <- whole %/% 86400
  is_far <- !is.finite(seconds) | abs(day) > most_days
  clock <- whole - 86400 * day
  clock[is_far] <- NA
  has_part <- isTRUE(any(seconds > whole))
  parts <- list(part_of_days(day, between), part_of_clocks(clock, if (has_part) "" else zone))
  if (!has_part) return(parts)
  c(parts, parts_of_cells(ifelse(is_far, "", paste0(decimals_of(seconds), zone))))
}

# The different values of a vector, whose values are often all the same.
distinct <- function(values) {
  if (length(values) && isTRUE(all(values == values[1]))) values[1] else unique(values)
}

# The place of each value among the different ones.
places_of <- function(values, kinds) if (length(kinds) == 1) rep(1L, length(values)) else match(values, kinds)

# What a function makes of the different values of a vector, put where they stand.
by_distinct <- function(values, action) {
  kinds <- distinct(values)
  action(kinds)[places_of(values, kinds)]
}

# The different values of whole numbers and the place of each among them. Those that lie near each other are told apart by counting.
kinds_of_wholes <- function(numbers) {
  ends <- suppressWarnings(c(min(numbers, na.rm = TRUE), max(numbers, na.rm = TRUE)))
  if (!all(is.finite(ends)) || diff(ends) >= most_counted) {
    kinds <- distinct(numbers)
    return(list(kinds = kinds, place = places_of(numbers, kinds)))
  }
  at <- as.integer(numbers - ends[1]) + 1L
  is_there <- tabulate(at, diff(ends) + 1) > 0
  list(kinds = ends[1] + which(is_there) - 1, place = cumsum(is_there)[at])
}

# Days since 1970 as dates, with what stands behind them. Those that are too far are no time to the program either.
part_of_days <- function(days, behind) {
  found <- kinds_of_wholes(days)
  kinds <- found$kinds
  is_near <- is.finite(kinds) & abs(kinds) <= most_days
  texts <- ifelse(is.na(kinds), "", ifelse(kinds > 0, "inf", "-inf"))
  day <- as.POSIXlt(.Date(kinds[is_near]))
  texts[is_near] <- sprintf("%04.0f-%02.0f-%02.0f%s", day$year + 1900, day$mon + 1, day$mday, behind)  # format has years below 1000 short
  part_of_kinds(texts, found$place)
}

# Whole seconds of a day as its clock has them, with what stands behind them.
part_of_clocks <- function(seconds, behind) {
  found <- kinds_of_wholes(seconds)
  kinds <- found$kinds
  texts <- sprintf("%02.0f:%02.0f:%02.0f", kinds %/% 3600, kinds %/% 60 %% 60, kinds %% 60)
  part_of_kinds(ifelse(is.na(kinds), "", paste0(texts, behind)), found$place)
}

# The decimals of seconds behind their point, as few as give them back and nine at most.
decimals_of <- function(seconds) {
  part <- seconds - floor(seconds)
  texts <- rep("", length(seconds))
  has_part <- which(part > 0)
  if (!length(has_part)) return(texts)
  places <- rep(9, length(has_part))
  for (place in 8:1) {
    scaled <- round(seconds[has_part] * 10^place)
    places[scaled < most_exact & scaled / 10^place == seconds[has_part]] <- place
  }
  wholes <- ifelse(places < 9, round(part[has_part] * 10^places), floor(part[has_part] * 1e9))
  texts[has_part] <- without_zeros(sprintf(".%0*.0f", places, wholes))
  texts
}

# Clocks of days, of seconds of a class; what is none is odd.
parts_of_clocks <- function(seconds, class) {
  is_clock <- is.finite(seconds) & seconds >= 0 & seconds < 86400
  word <- paste0("<", class, ">")
  cells <- ifelse(is.na(seconds), "", word)
  own <- seconds[is_clock]
  cells[is_clock] <- paste0(texts_of_part(part_of_clocks(floor(own), "")), decimals_of(own))
  kinds <- distinct(cells)
  list(part_of_kinds(kinds, places_of(cells, kinds), odd = kinds == word))
}

# Lengths in metres, degrees and numbers without a unit; other units are written by their names.
parts_of_units <- function(column) {
  name <- name_of_unit(column)
  values <- as.vector(unclass(column))
  if (name %in% c("", "1", degrees_of_units)) return(parts_of_numbers(as.numeric(values)))
  if (name %in% names(metres_of_units)) return(parts_of_numbers(values * metres_of_units[[name]]))
  metres <- in_unit(column, "m")
  if (is.null(metres)) parts_of_class(column, paste("units", name)) else parts_of_numbers(metres)
}

# The name of a column's unit, such as m/s.
name_of_unit <- function(column) {
  unit <- attr(column, "units")
  paste(c(paste(unit$numerator, collapse = "*"), unit$denominator), collapse = "/")
}

# The numbers of something with a unit in another; NULL where it is not of that kind, or the package units is not there.
in_unit <- function(value, unit) {
  if (!requireNamespace("units", quietly = TRUE)) return(NULL)
  tryCatch(as.vector(units::drop_units(units::set_units(value, unit, mode = "standard"))), error = function(fault) NULL)
}
