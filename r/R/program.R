# Finds the programs homerange, homerange-split and homerange-page, and runs homerange.

# The path of the program.
homerange_program <- function(...) {
  check_dots(...)
  normalizePath(found_program(getNamespaceInfo("homerange", "path")))
}

# The program that is named, that of the installed package in this folder, that of the clone that it stands in, or the one on
# PATH.
found_program <- function(here) {
  option <- getOption("homerange.program", "")
  if (!is_text(option)) refuse("program", "options(", argument_text("homerange.program", option), ") names no program")
  named <- c("options(homerange.program)" = option, "HOMERANGE" = Sys.getenv("HOMERANGE"))
  for (by in names(named)[nzchar(named)]) {
    path <- Sys.which(path.expand(named[[by]]))[[1]]
    if (!nzchar(path)) refuse("program", "there is no program ", named[[by]], ", which ", by, " names")
    return(path)
  }
  found <- c(packed_program(here), clone_program(here), Sys.which("homerange"))
  found <- found[nzchar(found)]
  if (length(found) == 0) {
    refuse("program", "the program homerange was not found: name it by options(homerange.program = \"...\") or by ",
           "HOMERANGE in the environment, or put it on PATH")
  }
  found[[1]]
}

# The paths of the programs homerange-split and homerange-page, which lie beside the program homerange.
split_program <- function(here = getNamespaceInfo("homerange", "path")) program_beside("homerange-split", here)
page_program <- function(here = getNamespaceInfo("homerange", "path")) program_beside("homerange-page", here)

# The path of a program that lies beside the program homerange.
program_beside <- function(name, here) {
  found <- found_program(here)
  if (identical(found, packed_path(here, "homerange"))) return(normalizePath(held_program(packed_path(here, name))))
  for (folder in dirname(c(found, normalizePath(found)))) {
    path <- Sys.which(file.path(folder, name))[[1]]
    if (nzchar(path)) return(normalizePath(path))
  }
  refuse("program", "there is no program ", name, " beside ", found, ": install it there, from release/", name,
         " of homerange's repository")
}

# The program that was installed with the package, or nothing.
packed_program <- function(folder) {
  path <- packed_path(folder, "homerange")
  if (file.exists(path)) held_program(path) else character()
}

packed_path <- function(folder, name) file.path(folder, "bin", name)

# The path of a program that was installed with the package, which has to have the checksum that was.
held_program <- function(path) {
  sums <- file.path(dirname(path), "SHA256SUMS")
  lines <- if (file.exists(sums)) readLines(sums, warn = FALSE)
  if (!file.exists(path) || !paste0(checksum_of(path), "  release/", basename(path)) %in% lines) {
    refuse("program", path, " is not the program that was installed with the package: install the package again")
  }
  path
}

# The program of the clone of homerange's repository whose folder r a folder is, or nothing.
clone_program <- function(folder) {
  release <- file.path(dirname(folder), "release")
  is_clone <- basename(folder) == "r" && all(file.exists(file.path(release, c("homerange", "SOURCES"))))
  if (is_clone) file.path(release, "homerange") else character()
}

# The text of the report of these files, of one animal each.
run_program <- function(program, files, animals, options) {
  folder <- dirname(files[1])
  output <- tempfile("report", folder)
  fault <- tempfile("fault", folder)
  on.exit(unlink(c(output, fault)))
  local_utf8(basename(files))
  words <- shQuote(c(options, files))
  status <- suppressWarnings(system2(program, words, stdout = output, stderr = fault))
  if (status != 0) refuse_run(status, readLines(fault, warn = FALSE, encoding = "UTF-8"), `Encoding<-`(files, "UTF-8"), animals)
  report_text(output)
}

kinds_by_status <- c("file", "option", "memory", "output", "cut")

# Stops with the program's line, which names animals in place of their files.
refuse_run <- function(status, lines, files, animals) {
  kind <- if (status %in% seq_along(kinds_by_status)) kinds_by_status[status] else "program"
  line <- if (length(lines)) lines[1] else "it says no more"
  if (kind == "program" || !length(lines)) line <- paste0("the program ended with status ", status, ": ", line)
  for (place in order(-nchar(files))) line <- gsub(files[place], animals[place], line, fixed = TRUE)
  refuse(kind, sub("^homerange: --percent: ", "levels: ", line))
}

# Values as a factor, whose levels stand in the order of the values.
as_groups <- function(values) {
  levels <- unique(values)
  structure(match(values, levels), levels = as.character(levels), class = "factor")
}

# Tracks in a folder: their files, the names that these and the animals in them have, and the animals' own names.
tracks_named <- function(folder, names, animals) {
  list2DF(list(file = in_bytes(file.path(folder, paste0(names, ".csv"))), name = names, animal = animals))
}

# Writes the fixes of each animal to a file. The file and the animal in it are named by a number, since the program takes not
# each name.
write_tracks <- function(fixes, folder, names = NULL) {
  records <- c(list(second = fixes$moment), fixes[c("easting", "northing")])
  rows <- split(seq_along(fixes$animal), as_groups(fixes$animal))
  tracks <- tracks_named(folder, if (is.null(names)) as.character(seq_along(rows)) else names, names(rows))
  stock <- stock_with(tracks$name)
  behind <- length(stock$widths) - length(rows)
  for (at in seq_along(rows)) write_track(tracks$file[at], records, stock, behind + at, rows[[at]])
  tracks
}

# What is parsed of the report of tracks, with the animals' own names.
report_of <- function(program, tracks, options, parse) {
  report <- parse(run_program(program, tracks$file, tracks$animal, options))
  for (table in setdiff(names(report), "unit")) report[[table]] <- with_names(report[[table]], tracks)
  report
}

# A table of a report with the animals' own names.
with_names <- function(table, tracks) {
  for (column in intersect(c("animal", "other"), names(table))) {
    found <- tracks$animal[match(table[[column]], tracks$name)]
    if (anyNA(found)) refuse("check", "the report has not the animals of its files")
    table[[column]] <- found
  }
  table
}

# Calls a function with a folder of its own, which is gone afterwards.
in_folder <- function(action) {
  folder <- tempfile("homerange", tempdir(check = TRUE))
  dir.create(folder)
  on.exit(unlink(folder, recursive = TRUE))
  action(folder)
}
