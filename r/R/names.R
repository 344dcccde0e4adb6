# Names that animals have in files, which the program gives them: docs/TABLES.md, Animals.

# The names in files of the animals of ranges: those of the record of their fixes, where it has them.
names_of_files <- function(x) {
  animals <- x$animals$animal
  if (is.null(x$read)) return(animals)  # of a report, which has them already
  known <- if (is.null(x$groups)) x$read$files
  names <- if (all(animals %in% names(known))) unname(known[animals]) else names_by_program(animals)
  bad <- names[one_line(names) != names]
  if (length(bad)) refuse("name", bad[1], " has a control character or a separator of lines in its name: rename it")
  names
}

# The names in files of animals of which no record is known: those that the program gives to two fixes of each.
names_by_program <- function(animals) {
  split <- split_of_names(animals)
  if (!is.null(split$refusal)) refuse(split$refusal$kind, split$refusal$text)
  files_of(split$record)[animals]
}

# What the program makes of a table with two fixes of each name: the record, or what it refuses.
split_of_names <- function(names) {
  table <- list(animal = rep(names, each = 2), second = rep(c(0, 60), length(names)), easting = 500000, northing = 5000000)
  in_folder(function(folder) {
    path <- file.path(folder, name_of_frame)
    write_parts(parts_of_frame(lapply(table, rep_len, 2 * length(names))), path)
    refusal <- run_split(path, character(), file.path(folder, "tracks"))
    list(refusal = refusal, record = if (is.null(refusal)) read_record(file.path(folder, "tracks", "split.txt")))
  })
}

# The names of files of a record, by the animals' own names.
files_of <- function(record) {
  own <- own_names(record)
  `names<-`(names(own), own)
}

# Which animals have another name in files, a line each.
renames_of <- function(animals, names) {
  is_other <- names != animals
  sprintf("animal '%s' is named %s", animals[is_other], names[is_other])
}
