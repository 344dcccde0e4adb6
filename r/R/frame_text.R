# A data frame as the text of a table, which the program reads as that of a file: docs/TABLES.md, Data frames.

name_of_frame <- "fixes.csv"  # of the text, in records
signs_between_fields <- "[;\t]"  # of other tables than those with commas
widest_kind <- 64  # bytes of a text among those whose cells are written as bytes

# The parts of columns, by their titles.
parts_of_frame <- function(columns) {
  titles <- readable(names(columns))
  if (grepl(signs_between_fields, titles[1])) {
    refuse("columns", "the first column is titled '", titles[1], "', whose sign would be taken for what stands between fields: ",
           "rename it")
  }
  `names<-`(Map(parts_of_column, columns, titles), titles)
}

# Writes columns of parts as the text of a table.
write_parts <- function(parts, path) {
  titles <- names(parts)
  output <- file(path, "wb")
  on.exit(close(output))
  writeLines(enc2utf8(paste(quoted(titles), collapse = ",")), output, useBytes = TRUE)
  by_bytes <- length(parts) > 1 && all(vapply(unlist(parts, recursive = FALSE), is_narrow, NA))
  if (by_bytes) write_bytes(parts, output) else write_texts(parts, output)
}

# Whether a part of cells is of numbers, or of texts that are all short.
is_narrow <- function(part) !is.null(part$numbers) || max(nchar(part$kinds, "bytes"), 0, na.rm = TRUE) <= widest_kind

write_texts <- function(parts, output) {
  lines <- do.call(paste, c(unname(lapply(parts, texts_of_parts)), sep = ","))
  if (length(parts) == 1) lines[lines == ""] <- "\"\""  # since blank lines are no records
  writeLines(enc2utf8(lines), output, useBytes = TRUE)
}

# Writes cells as bytes of a stock.
write_bytes <- function(parts, output) {
  columns <- cumsum(lengths(parts))  # of which these parts are the last
  parts <- unlist(unname(parts), recursive = FALSE)
  kinds <- lapply(parts, `[[`, "kinds")
  stock <- stock_with(as.character(unlist(kinds)))
  behind <- cumsum(c(length(stock_of_digits$widths), lengths(kinds)))[seq_along(parts)]
  number <- max(length(parts[[1]]$place), length(parts[[1]]$numbers))
  for (start in seq(1, number, lines_written)) {
    cells <- Map(stocked_part, parts, behind, list(start:min(start + lines_written - 1, number)))
    cells[columns] <- Map(c, cells[columns], sign_at[rep(c("comma", "end"), c(length(columns) - 1, 1))])
    writeBin(bytes_of_lines(stock, unlist(cells, recursive = FALSE)), output)
  }
}

# The places in a stock of some cells, of whose part the kinds stand behind a place.
stocked_part <- function(part, behind, rows) {
  if (!is.null(part$numbers)) return(stocked_numbers(part$numbers[rows], part$decimals, part$zero))
  places <- behind + part$place[rows]
  list(if (anyNA(places)) replace(places, is.na(places), sign_at[["none"]]) else places)
}

# The places of numbers with so many decimals, of which those at the end that are 0 are not written, but for a further one.
stocked_numbers <- function(numbers, decimals, zero) {
  is_missing <- if (anyNA(numbers)) is.na(numbers)
  if (!is.null(is_missing)) numbers[is_missing] <- 0
  sign <- if (min(numbers) < 0) list(stocked_sign("minus", numbers < 0))
  scaled <- round(abs(numbers) * 10^decimals)
  whole <- floor(scaled / 10^decimals)
  places <- c(sign, stocked_wholes(whole), stocked_decimals(scaled - whole * 10^decimals, decimals, zero))
  if (is.null(is_missing)) places else lapply(places, replace, is_missing, sign_at[["none"]])
}
