# Has the program homerange-split make tracks of a table of text, and reads back what it made: the record, the tracks, and what
# became of each record of the table.

# What a line says is of a kind, by how it begins or ends; one of none says what was left out.
kinds_of_said <- c(
  "^coordinates are shifted " = "moved", "^coordinates are rounded " = "rounded", "^animal '.*' is named " = "renamed",
  "^(no column has a usual title|times are read as|all fixes are of the sensor|coordinates are those of|columns:|not read:) " = "guessed",
  "^(UTM coordinates are|longitude and latitude are|days and hours are|points of|groups of the table are|ranges are by|near) " = "guessed",
  "^column [0-9]+ '.*' is read as (eastings|northings|longitudes|latitudes|times)[ :]" = "guessed", "^by column " = "guessed",
  "^groups are not compared: " = "asked",
  "^[0-9]+ records lie in the hour that comes twice in " = "guessed",
  "[?]$" = "asked", "^(areas|lengths) of .* on this grid$" = "scale", " come before an earlier one: sorted by time$" = "sorted",
  "^[0-9]+ records of .* have the second of the one before.*: kept$" = "same",
  ", (more than the 1048576 that homerange takes|which homerange refuses)$" = "limit"
)

kind_of_said <- function(line) {
  fits <- vapply(names(kinds_of_said), grepl, NA, line)
  if (any(fits)) kinds_of_said[[which(fits)[1]]] else "left_out"
}

# Has the program split a table of text into the tracks of a folder; answers what it refuses: the kind, the record and the text.
run_split <- function(path, words, into) {
  program <- split_program()
  fault <- tempfile("fault", dirname(into))
  on.exit(unlink(fault))
  local_utf8(character())
  call <- vapply(c("--machine", words, paste0("--into=", into), "--", path), function(word) shQuote(in_bytes(word)), "")
  status <- suppressWarnings(system2(program, call, stdout = FALSE, stderr = fault))
  if (status != 0) refusal_of_split(status, fault)
}

# A text as its bytes in UTF-8, whatever the locale is: so the system gets it.
in_bytes <- function(text) `Encoding<-`(in_utf8(text), "unknown")

# An option that the program names as what it says a word of.
word_form <- "^(argos|fix|max|skip|time)-(class|dop|format|lines|speed|type)(?= is )"

# What the program refuses: a record of CSV of the kind, the file, the number of the record that has the fault, and the text. What
# is no such record is a fault of the program.
refusal_of_split <- function(status, fault) {
  said <- tryCatch(utils::read.csv(fault, header = FALSE, colClasses = "character", na.strings = character(), encoding = "UTF-8"),
                   error = function(error) data.frame())
  known <- c(kinds_of_tables, "option", "memory", "output")
  if (!status %in% 1:4 || nrow(said) != 1 || ncol(said) != 4 || !said[[1]] %in% known) {
    lines <- c(readLines(fault, warn = FALSE, encoding = "UTF-8"), "it says no more")
    refuse("program", "homerange-split ended with status ", status, ": ", lines[1])
  }
  text <- sub(word_form, "\\1_\\2", said[[4]], perl = TRUE)
  list(kind = said[[1]], record = if (nzchar(said[[3]])) as.numeric(said[[3]]), text = as_arguments(text))
}

# Options of the command line in a text, as arguments of R. A word behind one is its value, unless it goes on with the sentence.
as_arguments <- function(text) {
  form <- paste0("--([a-z]+(?:-[a-z]+)*)(?:([= ])(?!(?:and|or|is|out|times|leaves|names|of|to|for|in|that|beside|where|a|the|",
                 "takes|was|has)\\b)('[^']*'|[A-Z]+:[0-9]+|(?<==)[^ ]+?(?=[,;:)]?(?: |$))|[^ ;:?()]*[^ ,;:?().]))?")
  places <- gregexpr(form, text, perl = TRUE)
  regmatches(text, places) <- lapply(regmatches(text, places), function(found) vapply(found, as_argument, ""))
  gsub("( = (\"[^\"]*\"|[0-9.]+)) (?=[a-z_]+ = )", "\\1, ", text, perl = TRUE)  # several stand one behind the other
}

# An option of the command line, with its value where it has one, as an argument.
as_argument <- function(option) {
  name <- gsub("-", "_", sub("^--([a-z-]+).*", "\\1", option), fixed = TRUE)
  value <- gsub("^'|'$", "", sub("^--[a-z-]+[= ]?", "", option))
  if (name == "skip_unnamed") return("skip_unnamed = TRUE")
  if (!nzchar(value)) return(name)
  paste0(name, " = ", if (name %in% number_options) value else paste0("\"", gsub("([\"\\\\])", "\\\\\\1", value), "\""))
}

# The tracks of a folder, one below the other in the order of the record: the place of the track, and seconds, eastings and
# northings in whole units.
read_tracks <- function(folder, record) {
  paths <- in_bytes(file.path(folder, paste0(record$tracks$animal, ".csv")))
  tracks <- unname(Map(numbers_of_track, paths, record$tracks$records))
  bound <- lapply(c(second = 1, easting = 2, northing = 3), function(column) unlist(lapply(tracks, `[[`, column)))
  c(list(track = rep(seq_along(tracks), record$tracks$records)), bound)
}

# The numbers of a track of so many records: behind its titles each line has the animal, and then three numbers.
numbers_of_track <- function(path, records) {
  bytes <- readBin(path, "raw", file.size(path))
  first <- grepRaw("\n", bytes, fixed = TRUE)
  line <- bytes[(first + 1):grepRaw("\n", bytes, first + 1, fixed = TRUE)]
  places <- lapply(c(grepRaw(",", line, fixed = TRUE, all = TRUE), length(line)), function(place) {
    seq.int(first + place, by = length(line), length.out = records)
  })
  is_alike <- length(places) == 4 && first + length(line) * records == length(bytes) &&
    all(unlist(Map(function(sign, at) all(bytes[at] == as.raw(sign)), c(44, 44, 44, 10), places)))
  if (!is_alike) places <- signs_of_track(bytes, records)
  lapply(1:3, function(field) field_wholes(bytes, places[[field]] + 1L, places[[field + 1]] - places[[field]] - 1L))
}

# Where the signs behind the fields of a track's lines are.
signs_of_track <- function(bytes, records) {
  ends <- grepRaw("\n", bytes, fixed = TRUE, all = TRUE)
  commas <- grepRaw(",", bytes, fixed = TRUE, all = TRUE)
  if (length(ends) != records + 1 || length(commas) != 3 * length(ends)) refuse("program", "the tracks are not those of their record")
  commas <- matrix(commas, 3)[, -1, drop = FALSE]
  list(commas[1, ], commas[2, ], commas[3, ], ends[-1])
}

# Which record of the table each fix of the tracks is: those of a track stand by time, and of one time by their order.
records_of_fixes <- function(folder, record, fixes) {
  records <- scan(file.path(folder, "records.txt"), list(NULL, file = "", second = 0, nanosecond = 0, reason = ""), sep = ",",
                  skip = 1, quote = "", quiet = TRUE, encoding = "UTF-8", na.strings = "")
  used <- which(records$reason == "" | is.na(records$reason))
  track <- by_distinct(records$file[used], function(files) match(unescaped(files), record$tracks$animal))
  rows <- used[order(track, records$second[used], records$nanosecond[used], method = "radix")]
  if (!identical(records$second[rows], fixes$second)) refuse("program", "the records of the table are not those of its tracks")
  rows
}

# The animals' own names, by the names of their files: where both differ, a line says so.
own_names <- function(record) {
  files <- setdiff(c(record$tracks$animal, record$left$animal), "")
  names <- `names<-`(files, files)
  form <- "^animal '(.*)' is named (.*)$"
  lines <- grep(form, record$said, value = TRUE)
  known <- unescaped(sub(form, "\\2", lines))
  names[known] <- unescaped(sub(form, "\\1", lines))
  names <- names[files]
  twice <- names[duplicated(names)]
  names[names %in% twice] <- files[names %in% twice]
  names
}
