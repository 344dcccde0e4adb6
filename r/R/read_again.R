# Fixes that were changed since they were read are read again, by the program: how that is seen, and how it goes.

# Titles of marks, as they are compared: docs/TABLES.md, Titles.
titles_of_marks <- c("use", "visible", "manually-marked-outlier", "algorithm-marked-outlier", "import-marked-outlier",
                     "manually-marked-valid")
# Titles of other columns that may say which fixes count, or where they are: those that were added are read or refused.
titles_of_doubt <- c(
  "lc", "class", "loc-class", "locationclass", "argos-loc-class", "argos-location-class", "argos-lc", "argos-class", "loc--quality",
  "location-quality", "location-class", "sensor-type", "sensor-type-id", "utm-zone", "zone", "zona", "huso", "fuso", "fuseau", "utmz", "utmzone",
  "utm-zone-number", "zone-number", "zonenumber", "zone-letter", "zoneletter", "grid-zone", "epsg", "epsg-code", "srid", "crs"
)
# Words of titles that say so too, and words and titles beside which one of the first says nothing.
words_of_marks <- c(
  "outlier", "outliers", "outlying", "isoutlier", "isoutliers", "valid", "isvalid", "invalid", "isinvalid", "visible",
  "isvisible", "invisible", "ausreisser", "ausrei\u00dfer", "valide", "valido", "aberrant", "valida", "invalido", "invalida",
  "invalide", "gultig", "ungultig", "gueltig", "ungueltig", "avvikare", "avvikande", "avviker", "avvikende", "uitbijter",
  "uitbijters", "uitschieter", "uitschieters", "geldig", "ongeldig", "gyldig", "ugyldig", "giltig", "ogiltig", "platny",
  "platna", "platne", "neplatny", "neplatna", "neplatne", "wazny", "wazne", "niewazny", "niewazne", "veljaven", "veljavna",
  "veljavno", "neveljaven", "neveljavna", "osamelec", "odlehla", "odlehly", "odlahla", "odstajacy", "odstajaca", "kiugro",
  "ervenyes", "ervenytelen", "poikkeava", "aykiri", "gecerli", "gecersiz", "aberrante", "atipico", "atipica", "anomalo",
  "anomala", "valabil", "\u0432\u044b\u0431\u0440\u043e\u0441", "\u0432\u044b\u0431\u0440\u043e\u0441\u044b",
  "\u0434\u0435\u0438\u0441\u0442\u0432\u0438\u0442\u0435\u043b\u0435\u043d"
)
words_of_grids <- c(
  "zone", "zones", "zona", "zonas", "zonen", "huso", "fuso", "fuseau", "utm", "utmz", "utmzone", "zonenumber", "zoneletter",
  "mgrs", "strefa", "pasmo", "cona", "pojas", "\u043f\u043e\u044f\u0441", "\u0437\u043e\u043d\u0430", "dilim", "dilimi", "fus",
  "sone", "vyohyke", "josla", "juosta", "\u03b6\u03c9\u03bd\u03b7", "epsg", "srid", "crs", "srs"
)
words_of_satellites <- c("sat", "sats", "satellite", "satellites", "sv", "svs")
no_marks <- c("argos-valid-location-algorithm", "argos-valid-location-manual", "outlier-comments")
options_of_columns <- c("animal", "time", "easting", "northing", "lon", "lat", "argos", "argos_class", "dop", "max_dop", "fix",
                        "fix_type", "sensor")  # which look at further columns
# Lines that only say what was taken.
form_of_taken <- "^(columns: |not read: |coordinates are those of |times are read as |column [0-9]+ '.*' is read as |by column )"

# A title as the program compares it.
plain_title <- function(titles) gsub("[ .:_]", "-", in_small(trimws(readable(titles))))

# Whether columns of these titles say which fixes count, and not where they are, which the program tells by its cells.
say_which_count <- function(titles) {
  plain <- plain_title(titles)
  plain %in% c(titles_of_marks, titles_of_doubt) & !have_word(titles, words_of_grids) | may_be_marks(titles)
}

# Whether titles have one of some words, as docs/TABLES.md, Titles, cuts them.
have_word <- function(titles, words) {
  titles <- enc2utf8(readable(titles))
  found <- regmatches(titles, gregexpr("[A-Z]*[a-z\u00c0-\u1fff\u3000-\uffff]+|[A-Z]+|[0-9]+", titles, perl = TRUE))
  vapply(found, function(own) any(without_accents(own) %in% words), NA)
}

# The plain letters of those from U+00C0 to U+017F; a point for one that stays.
plain_latin <- paste0(
  "aaaaaa.ceeeeiiii.nooooo.ouuuuy..aaaaaa.ceeeeiiii.nooooo.ouuuuy.y",
  "aaaaaaccccccccddddeeeeeeeeeegggggggghhhhiiiiiiiiii..jjkk.lllllll",
  "lllnnnnnn...oooooo..rrrrrrssssssssttttttuuuuuuuuuuuuwwyyyzzzzzz."
)

# Words in small letters without their accents: Latin, Greek and Cyrillic ones.
without_accents <- function(words) {
  letters <- strsplit(plain_latin, "")[[1]]
  at <- which(letters != ".")
  words <- chartr(intToUtf8(at + 0xbf), paste(letters[at], collapse = ""), in_small(words))
  words <- chartr("\u0218\u0219\u021a\u021b", "sstt", words)
  words <- chartr(intToUtf8(c(0x391:0x3a1, 0x3a3:0x3a9, 0x410:0x42f)), intToUtf8(c(0x3b1:0x3c1, 0x3c3:0x3c9, 0x430:0x44f)), words)
  words <- chartr("\u03ac\u03ad\u03ae\u03af\u03cc\u03cd\u03ce\u03c2\u0439\u0401\u0451",
                  "\u03b1\u03b5\u03b7\u03b9\u03bf\u03c5\u03c9\u03c3\u0438\u0435\u0435", words)
  gsub("[\u0300-\u036f]", "", words, perl = TRUE)
}

# Whether a word of a title says that a column may have marks.
may_be_marks <- function(titles) {
  have_word(titles, words_of_marks) & !have_word(titles, words_of_satellites) & !plain_title(titles) %in% no_marks
}

# The columns of fixes that are read again: their own, marks, also those that no table may have without use, and those of doubt that
# were added.
columns_to_read <- function(fixes) {
  titles <- plain_title(names(fixes))
  is_added <- !names(fixes) %in% facts_of(fixes)$titles
  is_of_doubt <- titles %in% titles_of_doubt | have_word(names(fixes), words_of_grids)
  counts <- titles %in% titles_of_marks | may_be_marks(names(fixes)) | is_of_doubt & is_added
  places <- match(names(fixes), own_columns(fixes))  # of columns that may be there twice
  as.list(fixes)[c(order(places, na.last = NA), which(is.na(places) & counts))]
}

own_columns <- function(fixes) c("animal", column_of_time(fixes), "easting", "northing")

# Fixes that were read, or read again, with what tells whether they are still the same: their checksum, the titles of their table,
# and as they were seen, what they have of their own and the columns that they were read from, or that say which of them count.
as_read <- function(fixes, titles) {
  facts <- facts_of(fixes)
  facts$titles <- union(titles, names(fixes))
  seen <- setdiff(names(fixes)[names(fixes) %in% facts$sources | say_which_count(names(fixes))], titles_of_fixes)
  facts$seen <- list(own = unname(as.list(fixes)[own_columns(fixes)]), columns = as.list(fixes)[seen])
  facts$checksum <- checksum_of_fixes(new_fixes(fixes, facts))
  new_fixes(fixes, facts)
}

# Whether fixes are those of the rows of their table, each of its own, in the order of these.
are_rows_of_table <- function(fixes) {
  facts <- facts_of(fixes)
  values <- function(columns) lapply(unname(columns), plain_values)
  isTRUE(facts$is_in_order) && identical(values(as.list(fixes)[own_columns(fixes)]), values(facts$seen$own))
}

# The zone by whose clock times of fixes are shown, which may be another than that by which they were read.
clock_of_fixes <- function(fixes) {
  zone <- if (inherits(fixes$time, "POSIXct")) zone_of_times(fixes$time)
  if (isTRUE(zone %in% OlsonNames())) zone else facts_of(fixes)$tz
}

is_as_read <- function(fixes) {
  known <- facts_of(fixes)$checksum
  !is.null(known) && known == checksum_of_fixes(fixes)
}

# The checksum of the titles, classes and values of columns, in order.
checksum_of_fixes <- function(fixes) {
  columns <- columns_to_read(fixes)
  path <- tempfile("fixes", tempdir(check = TRUE))
  on.exit(unlink(path))
  output <- file(path, "wb")
  for (title in names(columns)) writeBin(bytes_of_values(columns[[title]], title), output)
  close(output)
  unname(tools::md5sum(path))
}

# What tells a column from others: of a class of its own all that R has of it, but for the zone in which moments are shown.
bytes_of_values <- function(column, title) {
  if (inherits(column, "POSIXct")) column <- .POSIXct(as.numeric(column))
  if (is.character(column) && !is.object(column)) {
    kinds <- distinct(column)
    column <- list(in_utf8(kinds), places_of(column, kinds))
  }
  serialize(list(title, column), NULL, xdr = FALSE)
}

# Refuses times of fixes that have no zone any more, as text or days, in whatever form.
check_times <- function(fixes) {
  times <- fixes[["time"]]
  if (!is.character(times) && !is.factor(times) && !inherits(times, "Date")) return(invisible())
  cells <- cells_of_column(times, "time")
  if (all(cells == "" | grepl("[0-9]:[0-9.:]+(Z|[+-][0-9]{2}:?([0-9]{2})?)$", cells))) return(invisible())
  refuse("time", "the times of fixes have no zone any more: keep those that read_fixes gave, or read as.data.frame(fixes) as a new table, ",
         "with tz for the clock of its times")
}

# Refuses fixes of other readings, or of none, among these: of an animal more than were read of it, of which some were not read.
# So fixes that were read may have another name, or be there twice.
check_own <- function(fixes) {
  facts <- facts_of(fixes)
  animals <- as.character(fixes$animal)
  kinds <- setdiff(animals, NA)
  read <- facts$fixes[match(kinds, names(facts$fixes))]
  more <- kinds[is.na(read) | tabulate(match(animals, kinds), length(kinds)) > read]
  odd <- if (length(more)) which(animals %in% more & !were_read(fixes, animals))
  if (!length(odd)) return(invisible())
  is_new <- !animals[odd[1]] %in% names(facts$fixes)
  keys <- keys_of(fixes)
  is_read <- are_of_reading(fixes)
  is_copy <- is_new && keys[!is_read][odd[1]] %in% keys[is_read]
  zone <- if (!is.null(facts$zone)) paste0(", zone = \"", facts$zone, "\"") else if (!is.null(facts$crs)) ", crs = .."
  unit <- if (facts$unit != "m") paste0(", unit = \"", facts$unit, "\"")
  named <- if (length(setdiff(facts$sources, titles_of_fixes))) paste0(", ", text_of_own(own_columns(fixes)))
  refuse("option", "'", animals[odd[1]], if (is_new) "' is none of the animals that were read" else "' has more fixes than were read of it",
         if (is_copy) ", and its fixes are there by another name too: " else
           ": bind fixes of several tables by rbind; if it is a new name, or all are alike, ",
         "read them anew by read_fixes(as.data.frame(fixes)", zone, unit, named, ")")
}

# Refuses one animal of several readings, as rbind does, of fixes that vctrs bound, which asks for what is known without the rows.
check_unnamed_rows <- function(fixes) {
  parts <- readings_of(facts_of(fixes))
  if (length(parts) < 2) return(invisible())
  is_read <- are_of_reading(fixes)
  keys <- keys_of(fixes)
  part <- rep(seq_along(parts), vapply(parts, function(facts) length(facts$seen$own[[1]]), 0L))
  own <- unique(part[match(keys[!is_read][fixes$animal %in% "animal"], keys[is_read], nomatch = 0)])
  refuse_unnamed(parts[own], length(own) > 1)
}

# Which fixes are as they were read, but for their animals, of which each has one.
were_read <- function(fixes, animals) {
  keys <- keys_of(fixes)
  is_known <- are_of_reading(fixes)
  now <- keys[!is_known]
  first <- !duplicated(numbered(list(now, animals)))
  (tabulate(now[first], max(keys)) <= tabulate(keys[is_known], max(keys)))[now]
}

# A number for each fix as it was read, and behind these for each that there is, the same where second, easting and northing are.
keys_of <- function(fixes) {
  own <- as.list(fixes)[own_columns(fixes)[-1]]
  numbered(Map(function(one, other) c(plain_values(one), plain_values(other)), facts_of(fixes)$seen$own[-1], own))
}

# Which of these numbers are of the reading.
are_of_reading <- function(fixes) {
  number <- length(facts_of(fixes)$seen$own[[1]])
  rep(c(TRUE, FALSE), c(number, nrow(fixes)))
}

# How many fixes were taken away since they were read, by the animals that they had then: those of which no row has the second and
# the place, but for as many as there are rows that were changed. And the animals of which it is not known: one of whose fixes has
# another name now, or that have more than were read of them, with those that were taken away.
gone_since <- function(fixes) {
  is_read <- are_of_reading(fixes)
  keys <- keys_of(fixes)
  animals <- c(as.character(facts_of(fixes)$seen$own[[1]]), as.character(fixes$animal))
  is_own <- have_partner(numbered(list(keys, animals)), is_read)
  rest <- which(!is_own)
  is_there <- replace(is_own, rest, have_partner(keys[rest], is_read[rest]))
  kinds <- unique(animals)
  count <- function(which) tabulate(match(animals[which], kinds), length(kinds))
  gone <- count(is_read & !is_there) - count(!is_read & !is_there & !keys %in% keys[is_read])
  is_unsure <- count(is_read & !is_own & keys %in% keys[!is_read & !is_own]) > 0
  if (any(gone < 0)) {
    is_unsure <- is_unsure | gone > 0
    gone <- c(0 * gone, max(sum(gone), 0))
  }
  is_unsure <- is_unsure | count(!is_read) + gone[seq_along(kinds)] > count(is_read)
  list(fixes = `names<-`(as.numeric(gone), c(kinds, if (length(gone) > length(kinds)) "")), unsure = kinds[is_unsure])
}

# Which of some numbers, of those that were read and of the others, have an equal one on the other side, each of its own.
have_partner <- function(numbers, is_read) {
  turn <- integer(length(numbers))
  for (side in list(which(is_read), which(!is_read))) turn[side] <- turns_of(numbers[side])
  own <- numbered(list(numbers, turn))
  own %in% intersect(own[is_read], own[!is_read])
}

# How often each number stood there so far.
turns_of <- function(numbers) {
  place <- order(numbers, method = "radix")
  sorted <- numbers[place]
  replace(integer(length(numbers)), place, seq_along(place) - match(sorted, sorted) + 1L)
}

# Refuses a column that was added to fixes and says which count, if it is not among those that the program read.
check_unread <- function(fixes, read) {
  odd <- setdiff(names(fixes)[say_which_count(names(fixes))], c(facts_of(fixes)$titles, read))
  if (length(odd)) refuse("columns", "'", odd[1], "' was added to the fixes, and is not read", goes_before(odd[1], read))
}

# What goes before a column that is not read, and what helps.
goes_before <- function(title, read) {
  usual <- if (startsWith(plain_title(title), "sensor-")) "sensor-type" else "use"
  first <- read[order(match(plain_title(read), c(plain_title(title), usual)), na.last = NA)][1]
  if (is.na(first)) ": drop it" else paste0(", since '", first, "' goes before it: change that, or drop '", title, "'")
}

# Refuses fixes that are as they were read, where a column was changed that they were read from, or that says which of them count, but
# for those that were read again.
check_sources <- function(fixes, read = character()) {
  facts <- facts_of(fixes)
  known <- facts$seen$columns
  is_other <- function(title) !identical(fixes[[title]], known[[title]])
  for (title in Filter(is_other, setdiff(intersect(names(known), names(fixes)), read))) {
    odd <- first_changed(fixes, known[[title]], fixes[[title]], title, title %in% facts$sources)
    if (!is.na(odd)) {
      why <- if (title %in% facts$sources) " from it: change what fixes have of it, such as easting and northing, and drop it" else
        paste0(", and is not read", goes_before(title, intersect(names(fixes), c(facts$sources, read))))
      refuse_row(fixes, "columns", odd, paste0("'", title, "' was changed since this fix was read", why))
    }
  }
}

# The first fix of which the second and the place were read, and with them another value of a column; of a column that was not read
# also one that was not read itself, if its value is one that no fix had.
first_changed <- function(fixes, known, now, title, is_source) {
  keys <- keys_of(fixes)
  is_read <- are_of_reading(fixes)
  values <- c(cells_of_column(known, title), cells_of_column(now, title))
  cells <- numbered(list(keys, values))
  is_known <- keys[!is_read] %in% keys[is_read]
  is_new <- if (is_source) FALSE else !is_known & !values[!is_read] %in% values[is_read]
  which(is_known & !cells[!is_read] %in% cells[is_read] | is_new)[1]
}

plain_values <- function(column) if (is.numeric(column) || inherits(column, "POSIXct")) as.numeric(column) else as.character(column)

# A number for each row of columns, the same for rows that are alike.
numbered <- function(columns) {
  columns <- lapply(unname(columns), function(column) if (is.numeric(column)) column else places_of(column, distinct(column)))
  place <- do.call(order, c(columns, method = "radix"))
  is_new <- Reduce(`|`, lapply(columns, function(column) differs_from_last(column[place])))
  replace(integer(length(place)), place, cumsum(is_new))
}

# Whether each value is another than the one before.
differs_from_last <- function(values) {
  is_missing <- is.na(values)
  last <- values[-length(values)]
  c(TRUE, (values[-1] != last | is_missing[-1] != is_missing[-length(values)]) %in% TRUE)[seq_along(values)]
}

# Refuses another unit, and another zone or reference system for coordinates that have one.
refuse_system <- function(facts, given) {
  if (isTRUE(given$unit %in% setdiff(names(units_known), facts$unit))) {
    refuse("option", "these fixes are in whole ", units_known[[facts$unit]]$name, ", which another unit does not change: read the table ",
           "anew by read_fixes")
  }
  name <- c(intersect(c("zone", "crs"), names(given)), NA)[1]
  own <- if (!is.null(facts$zone)) text_of_zone(facts$zone) else if (!is.null(facts$crs)) text_of_crs(facts$crs)
  if (is.na(name) || is.null(own)) return(invisible())
  wanted <- if (name == "crs") text_of_crs(named_crs(given$crs)) else text_of_zone(sub("^0", "", toupper(sub(" ", "", given$zone))))
  if (wanted != own) {
    refuse(name, "the coordinates of these fixes are of ", if (is.null(facts$zone)) own else facts$zone, ", which another ", name,
           " does not change: read the table anew by read_fixes")
  }
}

# What was said of a reading, but for titles that are said not to be read, and have been since.
with_sources <- function(facts, sources) {
  is_of_rest <- startsWith(facts$notes, "not read: ")
  rest <- Filter(function(title) is_listed(title, facts$notes[is_of_rest]), setdiff(facts$titles, sources))
  line <- if (length(rest)) paste0("not read: ", paste(one_line(rest), collapse = ", "))
  if (length(sources) == length(facts$sources) || !any(is_of_rest)) return(facts$notes)
  c(facts$notes[!is_of_rest], line)
}

# The columns of fixes that were read again by others than their own, as a line.
line_of_again <- function(notes, own) {
  lines <- sub("; .*", "", sub("^columns: ", "", grep("^columns: ", notes, value = TRUE)))
  if (length(lines) && !all(lines == paste(own, collapse = ", "))) paste0("read again by columns: ", lines)
}

# Fixes as they were read, or the fixes of those that were changed, by options that go before those of their reading, with their
# further columns. What was left out by the first reading, since and by the second stands together; said is what the first had not
# said, and of columns that were added, but for one that is used otherwise, that they are not read.
read_again <- function(x, given, folder, has_rows, used) {
  facts <- facts_of(x)
  if (is.null(facts$seen)) refuse_unknown()
  if (!nrow(x)) refuse("empty", "no fix is left")
  if (!length(given) && is_as_read(x)) {
    check_sources(x)
    return(with_added_said(list(fixes = x), x, used))
  }
  check_times(x)
  check_own(x)
  check_unnamed_rows(x)
  refuse_system(facts, given)
  check_time(facts, given)
  has_filter <- any(options_of_columns %in% names(given))
  is_own <- c(TRUE, TRUE, rep(!any(c("lon", "lat") %in% names(given)), 2))
  own <- list(unit = facts$unit, zone = facts$zone, crs = if (is.null(facts$zone)) facts$crs, tz = clock_of_fixes(x))
  if (has_filter) own[c("animal", "time", "easting", "northing")[is_own]] <- own_columns(x)[is_own]
  given <- c(given, Filter(Negate(is.null), own[setdiff(names(own), names(given))]))
  is_twice <- any(own_columns(x) %in% titles_twice(x))  # which the program refuses, with the places that columns have
  columns <- if (has_filter || is_twice) as.list(x) else columns_to_read(x)
  read <- read_frame(`row.names<-`(frame_of(columns), row.names(x)), given, folder, has_rows)
  check_unread(x, facts_of(read$fixes)$sources)
  check_sources(x, facts_of(read$fixes)$sources)
  further <- as.list(x)[!names(x) %in% c(titles_of_fixes, names(read$fixes))]
  lost <- if (has_rows) lost_columns(further, facts$sources)
  said <- unique(c(read$said, lost))
  is_done <- endsWith(said, ": left out") | endsWith(said, ": sorted by time")  # to rows, and was not when these were read
  read$said <- grep(form_of_taken, said[is_done | !said %in% facts$notes], value = TRUE, invert = TRUE)
  now <- facts_of(read$fixes)
  sources <- union(facts$sources, now$sources)
  now$notes <- c(with_sources(facts, sources), if (has_filter) line_of_again(now$notes, own_columns(x)), read$said)
  since <- left_since(x)
  now$left_out <- summed_left(rbind(since$left, now$left_out))
  now$unknown <- since$unknown
  now$is_again <- TRUE
  now$is_in_order <- now$is_in_order && are_rows_of_table(x)
  now$records <- records_of(facts)
  now$sources <- sources
  more <- if (has_rows) rows_of_columns(further_columns(further), read$frame$rows, nrow(x))
  read$fixes <- new_fixes(frame_of(c(as.list(read$fixes), more)), now)
  with_added_said(read, x, used)
}

# Refuses an option that looks at the times of fixes that have none, but the order of rows.
check_time <- function(facts, given) {
  name <- intersect(c("since", "until", "max_speed", "every"), names(given))[1]
  if (!is.na(name) && is.null(given[["time"]]) && any(startsWith(facts$notes, "no column has a usual title for the time: "))) {
    refuse("option", name, ": these fixes have no time, but the order of rows: name its column, by time, where the table is read")
  }
}

# What was read of these fixes, with what is said of columns that were added to them, and not read.
with_added_said <- function(read, x, used) {
  facts <- facts_of(read$fixes)
  added <- setdiff(unique(names(x)), c(facts$titles, facts_of(x)$titles, facts$sources, titles_of_fixes, if (is_text(used)) used))
  if (!length(added)) return(read)
  line <- paste0("not read: ", paste(one_line(readable(added)), collapse = ", "))
  attr(read$fixes, "homerange")$notes <- c(facts$notes, line)
  read$said <- c(read$said, line)
  read
}
