# Runs the program on all animals: by one run, or by many where they are more than one takes.

most_files <- 64
group_size <- 32

# The groups of files of the runs: one run of all, or one of each group for its tables and of each pair for its
# overlaps.
plan_runs <- function(number) {
  if (number <= most_files) return(list(list(places = seq_len(number), is_pair = FALSE)))
  groups <- unname(split(seq_len(number), (seq_len(number) - 1) %/% group_size))
  alone <- lapply(groups, function(places) list(places = places, is_pair = FALSE))
  pairs <- combn(length(groups), 2, function(pair) {
    list(places = unlist(groups[pair]), is_pair = TRUE)
  }, simplify = FALSE)
  c(alone, pairs)
}

# The report of all tracks, as one run would give it if it took them. Of two groups those animals are run whose boxes meet: no
# polygon covers a fix outside its box.
run_all <- function(program, tracks, options, progress) {
  animals <- tracks$animal
  plan <- plan_runs(nrow(tracks))
  is_pair <- vapply(plan, `[[`, NA, "is_pair")
  bar <- if (progress && length(plan) > 1) txtProgressBar(max = length(plan), style = 3)
  if (!is.null(bar)) on.exit(close(bar))
  done <- function(step) if (!is.null(bar)) setTxtProgressBar(bar, step)
  call <- function(places, parse) report_of(program, tracks[places, ], options, parse)
  reports <- lapply(which(!is_pair), function(step) {
    done(step - 1)
    call(plan[[step]]$places, parse_report)
  })
  whole <- join_reports(lapply(reports, function(report) report[setdiff(names(report), "overlaps")]))
  if (!identical(whole$animals$animal, animals)) refuse("check", "the report has not the animals of its files")
  counts <- matrix(NA_real_, length(animals), length(animals), dimnames = list(animals, animals))
  for (report in reports) counts <- put_overlaps(counts, report$overlaps)
  if (any(is_pair)) counts <- overlaps_of_pairs(counts, plan, boxes_that_meet(whole$corners, animals), call, done)
  if (any(is.na(counts) & row(counts) != col(counts))) refuse("check", "the runs of groups have not all overlaps")
  whole$overlaps <- counts
  whole
}

# The counts of the runs of groups with those of pairs of groups.
overlaps_of_pairs <- function(counts, plan, meets, call, done) {
  counts[!meets & is.na(counts)] <- 0
  for (step in which(vapply(plan, `[[`, NA, "is_pair"))) {
    places <- places_that_meet(meets, plan[[step]]$places)
    if (length(places)) counts <- put_overlaps(counts, call(places, parse_overlaps)$overlaps)
    done(step)
  }
  counts
}

# Of two groups of animals those whose box meets that of one in the other group.
places_that_meet <- function(meets, places) {
  is_first <- (places - 1) %/% group_size == (places[1] - 1) %/% group_size
  met <- meets[places[is_first], places[!is_first], drop = FALSE]
  c(places[is_first][rowSums(met) > 0], places[!is_first][colSums(met) > 0])
}

# Whether the boxes of each two animals meet.
boxes_that_meet <- function(corners, animals) {
  rows <- split(seq_along(corners$animal), factor(corners$animal, animals))
  ends <- function(side, end) vapply(rows, function(own) end(side[own]), 0)
  begins_before <- function(side) outer(ends(side, min), ends(side, max), "<=")
  east <- begins_before(corners$easting)
  north <- begins_before(corners$northing)
  east & t(east) & north & t(north)
}

# One report of the reports of groups, but for overlaps.
join_reports <- function(reports) {
  if (length(reports) == 1) return(reports[[1]])
  tables <- setdiff(names(reports[[1]]), "unit")
  joined <- lapply(tables, function(name) do.call(rbind, lapply(reports, `[[`, name)))
  c(list(unit = reports[[1]]$unit), `names<-`(joined, tables))
}
