# How the area of a range grew with the number of fixes (incremental area analysis, Harris et al. 1990), in whole numbers.

# A row for each animal: from which fix on the area stayed at 95 per cent or more of the final one, and what the last tenth and
# the last quarter of the fixes added.
homerange_growth <- function(x, ...) {
  check_dots(...)
  check_ranges(x)
  first <- last_rows(x) - x$animals$fixes
  found <- lapply(split(x$rows$area2, rep(seq_along(first), x$animals$fixes)), growth_of)
  numbers_of <- function(what) vapply(found, `[[`, 0, what, USE.NAMES = FALSE)
  area2 <- numbers_of("area2")
  share_of <- function(part) ifelse(area2 > 0, part / area2, NA_real_)
  with_groups(x, list2DF(list(
    animal = x$animals$animal, fixes = x$animals$fixes, hectares = hectares_of(x, area2),
    within_95_fix = numbers_of("within"), within_95_time = x$rows$time[first + numbers_of("within")],
    last_tenth = share_of(numbers_of("tenth")), last_quarter = share_of(numbers_of("quarter"))
  )))
}

# What is said of the doubled areas after each fix, which never fall: the last; the number of the first fix with 95 per cent
# of it, NA where there is no area; and how much of it the last tenth and the last quarter of the fixes added.
growth_of <- function(areas) {
  number <- length(areas)
  last <- areas[number]
  after <- c(0, areas)  # of no fix on
  # What is missing is compared, 20 times, with the whole: that is exact for whole numbers up to 2^53, and 19 times it is not.
  within <- if (last > 0) which(20 * (last - areas) <= last)[1] else NA
  list(area2 = last, within = as.numeric(within), tenth = last - after[(9 * number) %/% 10 + 1],
       quarter = last - after[(3 * number) %/% 4 + 1])
}
