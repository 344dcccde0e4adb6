# Files: which names they may have, how tracks and other lines are written, and checksums.

lines_written <- 16384  # at once

# Refuses what cannot be the name of a file that is to be written.
check_path <- function(path) {
  if (!is_text(path) || !nzchar(path)) refuse("option", argument_text("path", path), " is no path")
  path <- expanded(path)
  if (dir.exists(path)) refuse("file", path, " is a folder")
  if (!dir.exists(dirname(path))) refuse("file", dirname(path), ": there is no such folder")
}

# Refuses what is no file that is there.
check_file <- function(path, what) {
  check_no_address(path, what)
  if (!nzchar(path)) refuse("option", argument_text(what, path), " is no path: it is empty")
  if (dir.exists(path)) refuse("file", path, " is a folder, and a file is wanted")
  if (!file.exists(path)) refuse("file", path, ": there is no such file")
}

# Refuses an address of something that is not on this machine.
check_no_address <- function(path, what) {
  if (grepl("^[A-Za-z][A-Za-z0-9+.-]+:/+[^/]", path)) refuse("option", argument_text(what, path), " is an address, and a path is wanted: load the file down before")
}

# A file that is open to be written; where it cannot be, what the system says of it is refused.
open_file <- function(path) {
  said <- "it cannot be written"
  hear <- function(warning) {
    said <<- sub("^.*: ", "", conditionMessage(warning))
    invokeRestart("muffleWarning")
  }
  tryCatch(withCallingHandlers(file(expanded(path), "wb"), warning = hear), error = function(fault) refuse("file", path, ": ", said))
}

write_lines <- function(path, lines) {
  output <- open_file(path)
  on.exit(close(output))
  writeLines(enc2utf8(lines), output, useBytes = TRUE)
}

# Paths with the home for ~, as their bytes: in the letters of the locale, and in UTF-8 where it has them not.
expanded <- function(paths) {
  is_of_home <- startsWith(paths, "~")
  paths <- replace(paths, is_of_home, path.expand(paths[is_of_home]))
  is_marked <- Encoding(paths) %in% c("UTF-8", "latin1")
  own <- in_utf8(paths[is_marked])
  found <- iconv(own, "UTF-8", "")
  has_none <- is.na(found)
  replace(paths, is_marked, `Encoding<-`(replace(found, has_none, own[has_none]), "unknown"))
}

# The path of a file for the program, which takes UTF-8: where the system has it in other letters, that of a link in a folder.
path_for_program <- function(path, folder) {
  if (path == "-") return("./-")  # the program takes - for standard input
  own <- expanded(path)
  found <- text_for_program(own, "x")
  if (file.exists(in_bytes(found)) || !file.exists(own)) return(found)
  link <- file.path(folder, sub(".*/", "", found))
  if (!file.symlink(normalizePath(own), in_bytes(link))) refuse("text", path, ": its name is not in UTF-8: rename it")
  link
}

# Whether there is a file with something in it.
is_full <- function(path) file.exists(path) && !dir.exists(path) && isTRUE(file.size(path) > 0)

# Refuses to write over a file that the package did not make.
refuse_other <- function(path, what) {
  refuse("file", path, " is there, and ", what, ": name another file, or say overwrite = TRUE")
}

# Whether a path names something, if a link to nothing.
is_there <- function(path) file.exists(path) || !is.na(Sys.readlink(path)) && nzchar(Sys.readlink(path))

make_folder <- function(path) {
  fault <- NULL
  withCallingHandlers(dir.create(path, recursive = TRUE), warning = function(warning) {
    fault <<- sub("'.*", "", sub(".*reason '", "", conditionMessage(warning)))
    invokeRestart("muffleWarning")
  })
  if (!dir.exists(path)) refuse("text", path, ": ", if (is.null(fault)) "it cannot be made" else fault)
}

# Writes the file of an animal, whose name is at a place of a stock, in pieces: these rows of records.
write_track <- function(path, records, stock, name, rows) {
  output <- file(path, "wb")
  on.exit(close(output))
  writeLines("animal,second,easting,northing", output)
  for (start in seq(1, length(rows), lines_written)) {
    piece <- rows[start:min(start + lines_written - 1, length(rows))]
    fields <- lapply(records[c("second", "easting", "northing")], function(column) {
      c(sign_at[["comma"]], stocked_wholes(as.numeric(column[piece])))
    })
    writeBin(bytes_of_lines(stock, c(name, unlist(fields, recursive = FALSE), sign_at[["end"]])), output)
  }
}

check_sha256sum <- function() {
  if (!nzchar(Sys.which("sha256sum"))) refuse("program", "there is no program sha256sum on PATH, which makes checksums: put it there")
}

# The checksum of a file: by R itself from 4.5 on, which hands a command no name that is of no letters of the locale.
checksum_of <- function(path) {
  own <- get0("sha256sum", asNamespace("tools"))
  if (is.null(own)) check_sha256sum()
  if (is.null(own)) substr(system2("sha256sum", c("--", shQuote(path)), stdout = TRUE), 1, 64) else unname(own(path))
}

# The checksums of the files in a folder but for some, by their names within it.
checksums_of <- function(folder, but = character()) {
  check_sha256sum()
  unwanted <- paste(sprintf("! -path %s", shQuote(file.path(".", but))), collapse = " ")
  lines <- system(paste("cd", shQuote(folder), "&& find . -type f", unwanted, "-exec sha256sum -- {} +"), intern = TRUE)
  Encoding(lines) <- "UTF-8"
  names(lines) <- substring(lines, 69)
  substr(lines, 1, 64)
}
