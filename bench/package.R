# package.R: what home_range() of the installed package for R takes for tables of walks: seconds of processors, of R and of the
# program, and the greatest memory that R had for its objects.
#
#     Rscript bench/package.R [JOB ..]
suppressMessages(library(homerange))

# A table of walks of so many animals, whose first fixes lie 400 m apart.
walks <- function(animals, fixes) {
  set.seed(1)
  sides <- replicate(2, unlist(lapply(seq_len(animals), function(animal) round(cumsum(rnorm(fixes, 0, 5)), 1))))
  data.frame(
    animal = rep(sprintf("animal %d", seq_len(animals)), each = fixes),
    timestamp = as.POSIXct("2020-01-01", tz = "UTC") + 60 * seq_len(fixes),
    easting = 562000 + rep(400 * seq_len(animals), each = fixes) + sides[, 1], northing = 5134000 + sides[, 2]
  )
}

# The seconds of processors that a call takes, of R and of what it runs.
seconds_of <- function(call) {
  time <- system.time(call)
  c(R = sum(time[c("user.self", "sys.self")]), program = sum(time[c("user.child", "sys.child")]))
}

sizes <- list(one = c(1, 1e6), some = c(200, 5e3), many = c(960, 1e2))
jobs <- commandArgs(trailingOnly = TRUE)
if (!length(jobs)) jobs <- c(names(sizes), "evidence")

for (size in sizes[intersect(jobs, names(sizes))]) {
  table <- walks(size[1], size[2])
  invisible(gc(reset = TRUE))
  time <- seconds_of(ranges <- home_range(table, quiet = TRUE, progress = FALSE))
  peak <- sum(gc()[, 6])
  polygons <- seconds_of(homerange_corners(ranges, 95))
  overlaps <- seconds_of(homerange_overlap(ranges, levels = 95))
  cat(sprintf("%d animals of %.0f fixes: R %.1f s, program %.1f s, %.0f MB; polygons %.1f s, overlaps at 95 %% %.1f s\n",
              size[1], size[2], time[["R"]], time[["program"]], peak, polygons[["R"]], overlaps[["R"]]))
}

if ("evidence" %in% jobs) {
  folder <- tempfile("evidence")
  ranges <- home_range(walks(64, 1e4), quiet = TRUE, progress = FALSE)
  time <- seconds_of(suppressMessages(homerange_evidence(ranges, folder)))
  cat(sprintf("evidence of 64 animals of 10000 fixes: R %.1f s, program %.1f s\n", time[["R"]], time[["program"]]))
  unlink(folder, recursive = TRUE)
}
