# The record of tracks, split.txt in their folder: of which table they were made, how, and by what.
# docs/TABLES.md, The record, has its lines.

kinds_of_lines <- c("export", "sha256", "unit", "zone", "shift", "crs", "option", "said", "left", "track", "tool")
single_lines <- kinds_of_lines[1:6]

# Texts as they were before signs of control and separators of lines were escaped.
unescaped <- function(texts, form = "\\\\(x(?:[0189][0-9a-f]|7f)|u202[89])") {
  places <- gregexpr(form, texts, perl = TRUE)
  regmatches(texts, places) <- lapply(regmatches(texts, places), function(signs) {
    vapply(signs, function(sign) if (sign == "\\\\") "\\" else intToUtf8(strtoi(substring(sign, 3), 16)), "")
  })
  texts
}

# What a record says.
read_record <- function(path) {
  check_file(path, "record")
  lines <- suppressWarnings(readLines(path, warn = FALSE, encoding = "UTF-8"))
  if (!all(validUTF8(lines))) refuse("text", path, " is no text in UTF-8")
  kinds <- sub(",.*", "", lines)
  rest <- substring(lines, nchar(kinds) + 2)
  refuse_line <- function(bad) {
    if (length(bad)) refuse("text", path, ": line ", bad[1], " is '", lines[bad[1]], "', which does not fit there")
  }
  if (sum(kinds == "export") > 1) refuse("text", path, ": its tracks are of several exports: evidence is made of those of one")
  refuse_line(which(!kinds %in% kinds_of_lines | kinds == lines | duplicated(kinds) & kinds %in% single_lines))
  single <- as.list(`names<-`(rest, kinds)[kinds %in% single_lines])
  wanted <- c(if (any(c("export", "sha256") %in% kinds)) c("export", "sha256"), "unit", "zone")
  missing <- setdiff(wanted, kinds)
  if (length(missing)) refuse("text", path, " has no line '", missing[1], "': is it a record of split?")
  # The export is a plain name of a file, since a record may be a stranger's.
  refuse_line(which(kinds == "export" & (grepl("/", rest, fixed = TRUE) | rest %in% c("", ".", ".."))))
  refuse_line(which(kinds == "unit" & !rest %in% c("m", "dm") | kinds == "sha256" & !grepl("^[0-9a-f]{64}$", rest)))
  refuse_line(which(kinds == "zone" & !grepl("^(none|([1-9]|[1-5][0-9]|60)[NS])$", rest)))
  refuse_line(which(kinds == "shift" & !grepl("^-?[0-9]+,-?[0-9]+$", rest)))
  refuse_line(which(kinds == "left" & !grepl("^[^,]*,[0-9]+,[^,]+$", rest)))
  refuse_line(which(kinds == "track" & !grepl("^[^,]+,[0-9]+,[0-9]+(,[0-9a-f]{64})?$", rest)))
  of_kind <- function(kind) rest[kinds == kind]
  options <- options_of_lines(of_kind("option"))
  list(
    export = single$export, checksum = single$sha256, unit = single$unit, zone = if (single$zone != "none") single$zone,
    shift = if (is.null(single$shift)) c(0, 0) else as.numeric(strsplit(single$shift, ",")[[1]]),
    crs = if (is.null(single$crs)) options$crs else single$crs, options = options, said = of_kind("said"),
    left = left_of_lines(of_kind("left")),
    tracks = tracks_of_lines(of_kind("track")), tools = of_kind("tool")
  )
}

# Options by name; TRUE is the value of one that has none.
options_of_lines <- function(lines) {
  has_value <- grepl(",", lines, fixed = TRUE)
  values <- as.list(unescaped(sub("^[^,]*,", "", lines), "\\\\(\\\\|x[0-9a-f]{2}|u[0-9a-f]{4})"))  # of these the backslash too
  values[!has_value] <- TRUE
  `names<-`(values, sub(",.*", "", lines))
}

left_of_lines <- function(lines) {
  data.frame(animal = unescaped(sub(",.*", "", lines)), reason = sub(".*,", "", lines),
             fixes = as.numeric(sub("^[^,]*,([0-9]+),.*", "\\1", lines)))
}

tracks_of_lines <- function(lines) {
  form <- "^([^,]*),([0-9]+),([0-9]+),?(.*)$"
  data.frame(animal = unescaped(sub(form, "\\1", lines)), records = as.numeric(sub(form, "\\2", lines)),
             used = as.numeric(sub(form, "\\3", lines)), checksum = sub(form, "\\4", lines))
}

# The record of the tracks of a folder; NULL where there is none.
record_in <- function(folder) {
  path <- file.path(folder, "split.txt")
  if (file.exists(path)) read_record(path)
}

# How many fixes were left out, by animal and reason. Records that are written and not used are outliers that are marked.
left_out_of_record <- function(record) {
  marked <- record$tracks[record$tracks$used < record$tracks$records, ]
  outliers <- data.frame(animal = marked$animal, reason = rep("outlier", nrow(marked)), fixes = marked$records - marked$used)
  rbind(record$left, outliers)
}

# The code of the reference system for sf; NULL where none is known, or where it has no code.
code_of_record <- function(record) {
  if (!is.null(record$zone)) return(code_of_zone(record$zone))
  if (isTRUE(grepl("^[A-Za-z]+:[A-Za-z0-9]+ [(]", record$crs))) sub(" [(].*", "", record$crs)
}

# Refuses tracks in a folder that are not those of their record, by the checksums of files in the folder above.
check_record <- function(record, folder, sums) {
  files <- files_in(folder, "[.]csv$")
  made <- paste0(record$tracks$animal, ".csv")
  again <- ", by split.txt beside them: split the export again"
  odd <- sort(c(setdiff(files, made), setdiff(made, files)), method = "radix")
  if (length(odd)) refuse("text", odd[1], if (odd[1] %in% made) " is not among the tracks" else " was not made by it", again)
  if (!all(nzchar(record$tracks$checksum))) {
    refuse("text", "split.txt has no checksums of the tracks, as older versions wrote it: split the export again")
  }
  changed <- made[sums[paste0("tracks/", made)] != record$tracks$checksum]
  if (length(changed)) refuse("text", changed[1], " was changed since it was split: split the export again")
}
