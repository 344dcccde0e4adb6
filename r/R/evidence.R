# The folder that is handed in: fixes with their record, their report, the record of the run, tables, polygons, the page and
# checksums.
# docs/EVIDENCE.md says what it shows.

form_of_evidence <- "2"  # that of tables, layers, page and records: another byte that their makers write takes another number

# Makes the folder of evidence of home ranges, whose page is written with the other arguments.
homerange_evidence <- function(x, folder, ...) {
  local_options(x, folder, ...)
  check_ranges(x)
  check_whole(x, "evidence")
  known <- names(formals(fill_evidence))[-(1:3)]
  odd <- setdiff(names_of_arguments(...), known)
  if (length(odd)) refuse_argument(odd[1], known)
  if (isTRUE(x$is_part)) refuse("option", "x: evidence is made of the ranges of one call or one report, with all their animals")
  if (is.null(x$fixes)) refuse("option", "evidence needs the fixes: read_report(file, files = ..)")
  check_definition(x)
  if (!is_text(folder) || !nzchar(folder)) refuse("option", argument_text("folder", folder), " is no path")
  folder <- sub("^-", "./-", expanded(sub("(.)/+$", "\\1", folder)))  # which GDAL would take for an option
  local_utf8(names_of_files(x))
  if (!validUTF8(folder)) refuse("option", "folder can have this name in a locale of UTF-8 alone, such as LC_ALL=C.UTF-8")
  if (is_there(folder)) refuse("text", folder, " is there already: name another folder")
  program <- identity_of(homerange_program())
  part <- paste0(folder, ".part")
  if (is_there(part)) refuse("text", part, " is there: another call is at work, or was killed and left it to be removed")
  on.exit(unlink(part, recursive = TRUE), add = TRUE, after = FALSE)
  make_folder(file.path(part, "tracks"))
  fill_evidence(x, part, program, ...)
  if (!file.rename(part, folder)) refuse("text", folder, ": it cannot be made")
  invisible(folder)
}

# Refuses a definition of a UTM zone, since GDAL would write the code that it stands for into the layers, and not the definition.
check_definition <- function(x) {
  if (!is.null(x$zone) || is.null(x$crs) || !is.null(zone_of_crs(x$crs)) || !grepl("^[+]proj=utm ", text_of_crs(x$crs))) return(invisible())
  refuse("crs", "the reference system is the definition of a UTM zone: name it by its code, as by home_range(x, crs = 32633), ",
         "so that the layers are those of the record")
}

# The names of the files of a folder that have this form, in UTF-8.
files_in <- function(folder, pattern) {
  names <- list.files(folder, pattern, all.files = TRUE)
  Encoding(names) <- "UTF-8"
  names
}

# Has files named in UTF-8 until the function in this frame ends, which other locales cannot do.
local_utf8 <- function(names, frame = parent.frame()) {
  if (l10n_info()[["UTF-8"]] || nzchar(local_plain(frame))) return(invisible())
  odd <- names[grepl("[^ -~]", names, useBytes = TRUE)]
  if (length(odd)) refuse("name", odd[1], " can be the name of a file in a locale of UTF-8 alone, such as LC_ALL=C.UTF-8")
}

# Has letters be those of C, in UTF-8, until the function in this frame ends: in Turkish GDAL does not know its own options. Answers
# the locale, or "" where there is none.
local_plain <- function(frame = parent.frame()) {
  old <- Sys.getlocale("LC_CTYPE")
  set <- suppressWarnings(Sys.setlocale("LC_CTYPE", "C.UTF-8"))
  if (nzchar(set)) do.call(on.exit, list(bquote(Sys.setlocale("LC_CTYPE", .(old))), add = TRUE), envir = frame)
  set
}

fill_evidence <- function(x, folder, program, title = NULL, study = NULL, species = NULL, by = NULL, reference = NULL,
                          purpose = NULL, reserve = NULL, reserve_name = NULL, tz = NULL, made = NULL) {
  typed <- list(title = title, study = study, species = species, by = by, reference = reference, purpose = purpose)
  check_typed(c(typed, list(boundary = reserve_name)), made, reserve)
  zone <- zone_of_page(x, tz)
  rings <- rings_given(x, reserve)
  words <- c(typed, list(day = if (!is.null(made)) format(made, "%Y-%m-%d"),
                         boundary = if (!is.null(rings)) if (is_given(reserve_name)) reserve_name else "boundary"))
  names <- put_tracks(x, folder)
  record <- record_in(file.path(folder, "tracks"))
  now <- Sys.time()
  read <- report_of_folder(x, folder, names, program, record, c(words, clock = zone), now)
  found <- read$ranges
  tell_of_tracks(x, names)
  if (has_sf()) write_layers(found, file.path(folder, "ranges.gpkg"))
  write_rings(rings, folder)
  make_page(folder, options_of_page(x, c(words, clock = zone), day_of_page(made, now, zone), program, record))
  sums <- c(read$sums, checksums_of(folder, but = c("tracks/*", "report.txt")))
  sums <- sums[order(names(sums), method = "radix")]
  write_lines(file.path(folder, "SHA256SUMS"), paste0(sums, "  ", names(sums)))
}

# Has the program report of the tracks in a folder, and writes the record of the run; answers the ranges of the report, and the
# checksums of the files that were there when it was read.
report_of_folder <- function(x, folder, names, program, record, words, now) {
  before <- checksums_of(folder)
  if (!is.null(record)) check_record(record, file.path(folder, "tracks"), before)
  if (!is.null(record) && record$unit != x$unit) {
    refuse("option", "the tracks are in ", record$unit, ", by split.txt beside them, and the ranges in ", x$unit)
  }
  files <- used_tracks(folder)
  call <- c("--percent", paste(unique(x$percents$level), collapse = ","), "--unit", x$unit)
  write_report_of(program$path, call, files, folder)
  made <- ranges_of_report(x, folder, names, record)
  after <- checksums_of(folder)
  changed <- names(before)[!(after[names(before)] == before) %in% TRUE]
  if (length(changed)) refuse("text", changed[1], " changed while it was read")
  if (identity_of(program$path)$checksum != program$checksum) refuse("program", program$path, " changed while it ran")
  log <- file.path(dirname(program$path), "build.log")
  if (file.exists(log)) file.copy(log, folder)
  write_lines(file.path(folder, "evidence.txt"), about_lines(x, program, c(call, "--", files), record, words, now))
  list(ranges = made, sums = after)
}

# The files of a folder's tracks that have a used fix, by their names within the folder in order of bytes.
used_tracks <- function(folder) {
  files <- sort(paste0("tracks/", files_in(file.path(folder, "tracks"), "[.]csv$")), method = "radix")
  files[vapply(file.path(folder, files), function(path) !has_marks(path) || any(read_track(path)$used), NA)]
}

# Whether a file of fixes says which are used.
has_marks <- function(path) "use" %in% strsplit(readLines(path, 1, warn = FALSE), ",", fixed = TRUE)[[1]]

# A program: its path, what it says of its version, and its checksum.
identity_of <- function(path) {
  force(path)  # whose own refusal is not to be caught here
  version <- tryCatch(suppressWarnings(system2(path, "--version", stdout = TRUE, stderr = FALSE)), error = function(fault) "")
  if (length(version) != 1 || !startsWith(version, "homerange ") || !is.null(attr(version, "status"))) {
    refuse("program", path, " is not homerange: its --version says '", paste(version, collapse = " "), "'")
  }
  list(path = path, version = version, checksum = checksum_of(path))
}

# Writes the report of files in a folder, as one run would make it if it took them all. Of more than that each group has its own
# run, and each two groups one more, of which the overlaps are taken.
write_report_of <- function(program, words, files, folder) {
  path <- file.path(folder, "report.txt")
  plan <- plan_runs(length(files))
  if (length(plan) == 1) return(run_in(folder, program, c(words, "--", files), path))
  parts <- lapply(plan, function(run) {
    run_in(folder, program, c(words, "--", files[run$places]), path)
    parts_of_report(report_text(path))
  })
  is_pair <- vapply(plan, `[[`, NA, "is_pair")
  tables <- gsub("(?<=\n)unit,dm\n", "", paste(vapply(parts[!is_pair], `[[`, "", "tables"), collapse = ""), perl = TRUE)
  lines <- unlist(lapply(parts, `[[`, "overlaps"))
  names <- unlist(lapply(parts[!is_pair], `[[`, "animals"))
  wanted <- paste(rep(names, each = length(names)), names, sep = ",")[c(!diag(length(names)))]
  write_lines(path, c(sub("\n$", "", tables), lines[match(wanted, sub("^overlap,([^,]*,[^,]*),.*", "\\1", lines))],
                      paste0("end,", length(names))))
}

# A report's text up to its overlaps, these as lines, and its animals.
parts_of_report <- function(text) {
  check_form(text, "the report")
  ends <- regexpr("\n(overlap|end),", text, useBytes = TRUE)
  lines <- lines_of_text(text)
  tables <- rawToChar(charToRaw(text)[seq_len(ends)])
  list(tables = `Encoding<-`(tables, Encoding(text)), overlaps = lines[startsWith(lines, "overlap,")],
       animals = sub("^animal,([^,]*),.*", "\\1", lines[startsWith(lines, "animal,")]))
}

# Has the program write its report into a file, within a folder.
run_in <- function(folder, program, words, path) {
  fault <- tempfile("fault")
  path <- file.path(normalizePath(dirname(path)), basename(path))
  old <- setwd(folder)
  on.exit({
    setwd(old)
    unlink(fault)
  })
  status <- suppressWarnings(system2(program, shQuote(words), stdout = path, stderr = fault))
  if (status != 0) refuse_run(status, readLines(fault, warn = FALSE, encoding = "UTF-8"), character(), character())
}

# The ranges of the report that was made in a folder, by the names of the files, once it is seen that they are these.
ranges_of_report <- function(x, folder, clean, record) {
  made <- read_report(file.path(folder, "report.txt"))
  known <- unclass(x)
  at <- match(made$animals$animal, clean)
  if (anyNA(at) || length(at) != length(clean)) refuse("check", "the report has other animals than the tracks")
  for (table in c("animals", "rows", "corners", "percents")) {
    order <- order(match(match(known[[table]]$animal, x$animals$animal), at))
    numbers <- setdiff(names(known[[table]]), c("animal", "time"))
    own <- lapply(as.list(known[[table]])[numbers], `[`, order)
    if (!identical(unname(own), unname(as.list(unclass(made)[[table]][numbers])))) refuse_other_numbers()
  }
  if (made$unit != x$unit || any(x$overlaps[at, at, drop = FALSE] != made$overlaps)) refuse_other_numbers()
  animal <- match(x$fixes$animal, x$animals$animal)
  fixes <- replace(as.list(x$fixes), "animal", list(clean[animal]))
  made$fixes <- list2DF(lapply(fixes, `[`, order(match(animal, at))))
  for (slot in c("crs", "shift", "zone", "notes", "tz", "left_out")) made[[slot]] <- known[[slot]]
  if (is.null(record)) made else with_record(made, record)
}

refuse_other_numbers <- function() {
  refuse("check", "the program reports other numbers of these tracks than the ranges have: make them again")
}

# The record of a run, fields by name, the last of them what is known of the call alone: where the record of the tracks has not
# these, the reference system and the shift; and what was typed in.
about_lines <- function(x, program, call, record, words, now) {
  number <- sum(endsWith(call, ".csv"))
  groups <- ceiling(number / group_size)
  fields <- c(
    form = form_of_evidence, made = format(now, "%Y-%m-%dT%H:%M:%SZ", tz = "UTC"), program = program$version,
    "program sha256" = program$checksum, arguments = paste(shell_words(call), collapse = " "), unit = x$unit,
    levels = paste(unique(x$percents$level), collapse = ","),
    runs = if (number <= most_files) "1" else sprintf("%.0f of groups of %d animals", groups * (groups + 1) / 2, group_size),
    commit = "not known, since the package for R stands in no clone", sources = made_from(program$path, "sources"),
    logic = made_from(program$path, "logic"),
    if (!is.null(record$export)) c(export = record$export, "export sha256" = record$checksum) else
      if (!is.null(record)) c(export = "none"),
    unlist(lapply(c(system_beside(x, record), words), gsub, pattern = "\\", replacement = "\\\\", fixed = TRUE))
  )
  fields <- fields[nzchar(fields)]
  one_line(paste0(names(fields), ": ", fields))
}

# The reference system and the shift of ranges whose tracks have no record of these.
system_beside <- function(x, record) {
  crs <- if (!is.null(x$zone)) text_of_zone(x$zone) else if (!is.null(x$crs)) text_of_crs(x$crs)
  own <- if (!is.null(record$zone)) text_of_zone(record$zone) else record$crs
  shift <- if (is.null(record)) c(0, 0) else record$shift
  c(list(crs = if (!identical(crs, own)) crs), if (any(x$shift != shift)) list(shift = sprintf("%.0f,%.0f", x$shift[1], x$shift[2])))
}

# Words as a shell takes them back.
shell_words <- function(words) {
  is_plain <- grepl("^[A-Za-z0-9_@%+=:,./-]+$", words, useBytes = TRUE)
  ifelse(is_plain, words, paste0("'", gsub("'", "'\"'\"'", words, fixed = TRUE), "'"))
}

# A line of SOURCES beside the program: the checksum of what it was made from, or of the logic.
made_from <- function(program, kind) {
  path <- file.path(dirname(program), "SOURCES")
  lines <- if (file.exists(path)) readLines(path, warn = FALSE) else character()
  found <- sub("^[^ ]* ", "", lines[startsWith(lines, paste0(kind, " "))])
  if (length(found)) found[1] else "not known, since it does not stand beside the program"
}
