# Puts the fixes of ranges into a folder as files, with the record of how they were made.

# What is said of fixes that were changed since they were read.
changed_fixes <- function(x) {
  gone <- sum(x$left_out$fixes[x$left_out$reason == "chosen"])
  paste0("the fixes are not as they were read: ", if (gone) paste0(sprintf("%.0f", gone), " of them ", if (gone == 1) "was" else "were", " taken away since, and "),
         "what was left out before is neither in the folder nor on its page")
}

# Puts the tracks of ranges into a folder: the files that were read, with the record that was named or lies beside them, or the fixes.
# Answers the names that animals have in files.
put_tracks <- function(x, folder) if (is.null(x$files)) put_fixes(x, folder) else put_files(x, file.path(folder, "tracks"))

# Puts into a folder what is known of the fixes of ranges: the files that were read, the record that was named, or the fixes.
put_known <- function(x, folder) {
  if (is.null(x$files) && !is.null(x$fixes)) return(put_fixes(x, folder))
  tracks <- file.path(folder, "tracks")
  make_folder(tracks)
  if (length(x$files)) copy_files(x$files, tracks)
  if (!is.null(x$record_file)) file.copy(x$record_file, file.path(tracks, "split.txt"))
  x$animals$animal
}

# Puts the fixes of ranges into the folder's tracks, a file for each animal, with the program's record of how they were made.
put_fixes <- function(x, folder) {
  tracks <- file.path(folder, "tracks")
  if (!dir.exists(tracks)) make_folder(tracks)
  names <- names_of_files(x)
  write_tracks(x$fixes, tracks, names)
  record <- record_of_ranges(x)
  if (length(record)) write_lines(file.path(tracks, "split.txt"), record)
  names
}

# The lines of the program's record of the fixes of ranges, in which it is said where these were changed since they were read.
record_of_ranges <- function(x) {
  lines <- x$read$record
  if (!isTRUE(x$read$is_again)) return(lines)
  at <- c(grep("^(left|track|tool),", lines), length(lines) + 1)[1]
  append(lines, paste0("said,", changed_fixes(x)), at - 1)
}

# Copies files of fixes into a folder.
copy_files <- function(files, folder) {
  names <- basename(files)
  twice <- which(duplicated(names))
  if (length(twice)) refuse("name", files[match(names[twice[1]], names)], " and ", files[twice[1]], " have the same name")
  odd <- files[!endsWith(files, ".csv")]
  if (length(odd)) refuse("name", odd[1], " is no track: its name does not end in .csv")
  bad <- names[grepl("\\", names, fixed = TRUE) | one_line(names) != names]
  if (length(bad)) refuse("name", bad[1], " has a backslash, a line end or a control character in its name: rename it")
  if (!all(file.copy(files, folder))) refuse("file", "a file of fixes cannot be copied into ", folder)
}

# Copies the files that were read into a folder, with their record: the one that was named, or the one beside them.
put_files <- function(x, folder) {
  folders <- unique(normalizePath(dirname(x$files)))
  records <- file.path(folders, "split.txt")
  records <- if (is.null(x$record_file)) records[file.exists(records)] else x$record_file
  if (is.null(x$record_file) && length(records) && length(folders) > 1) {
    refuse("text", "the tracks are of several folders of which one has a record of its split: take those of one")
  }
  copy_files(x$files, folder)
  if (length(records)) file.copy(records, file.path(folder, "split.txt"))
  x$animals$animal
}

# Says of fixes that they were changed since they were read, and of animals that they have other names in files.
tell_of_tracks <- function(x, names) {
  if (is.null(x$files) && isTRUE(x$read$is_again)) tell_note(changed_fixes(x), "left_out")
  for (line in renames_of(x$animals$animal, names)) tell_note(line, "renamed")
}
