# More animals than one run takes.

herd <- function(number, fixes) {
  do.call(rbind, lapply(seq_len(number), function(seed) {
    walk(paste("deer", seed), fixes, seed, stride = 200, at = c(560000, 5130000) + 90 * seed %% 7)
  }))
}

# Which points lie in a convex polygon, whose corners go counterclockwise, by the signs of the triangles.
in_ring <- function(points, ring) {
  after <- ring[c(seq_len(nrow(ring))[-1], 1), ]
  turns <- outer(points[, 2], ring[, 2], "-") * rep(after[, 1] - ring[, 1], each = nrow(points)) -
    outer(points[, 1], ring[, 1], "-") * rep(after[, 2] - ring[, 2], each = nrow(points))
  rowSums(turns < 0) == 0
}

test_that("70 animals are those of a direct computation", {
  skip_without_program()
  fixes <- herd(70, 12)
  ranges <- quietly(home_range(fixes))
  tracks <- lapply(split(fixes, factor(fixes$animal, unique(fixes$animal))), function(own) as.matrix(own[3:4]))
  areas <- vapply(tracks, function(track) doubled(track[, 1], track[, 2]), 0)
  expect_identical(round(summary(ranges)$hectares[summary(ranges)$level == 100] * 20000), unname(areas))
  rings <- lapply(tracks, function(track) track[rev(grDevices::chull(track)), ])
  wanted <- vapply(rings, function(ring) vapply(tracks, function(track) sum(in_ring(track, ring)), 0), numeric(70))
  expect_identical(counts_of_overlap(ranges), wanted)
  expect_gt(sum(wanted), 70 * 12 * 2)
  expect_identical(names(homerange_corners(ranges, 50)), unique(fixes$animal))
})

test_that("64 animals take one run and 65 six, and the plan compares every pair of animals", {
  expect_length(plan_runs(64), 1)
  expect_length(plan_runs(65), 6)
  for (number in c(1, 64, 65, 96, 97, 130)) {
    plan <- plan_runs(number)
    met <- matrix(FALSE, number, number)
    for (run in plan) met[run$places, run$places] <- TRUE
    expect_true(all(met))
    expect_lte(max(lengths(lapply(plan, `[[`, "places"))), 64)
    alone <- unlist(lapply(plan, function(run) if (!run$is_pair) run$places))
    expect_equal(alone, seq_len(number))
  }
})

# A folder with programs of which the first writes the first word of each of its calls.
counting_programs <- function(folder) {
  script <- file.path(folder, "homerange")
  writeLines(c("#!/bin/sh", paste("echo \"$1\" >>", shQuote(file.path(folder, "calls"))), paste("exec", shQuote(homerange_program()), "\"$@\"")), script)
  Sys.chmod(script)
  file.symlink(c(split_program(), page_program()), file.path(folder, c("homerange-split", "homerange-page")))
  script
}

test_that("groups whose boxes do not meet have no run", {
  skip_without_program()
  skip_without_split()
  folder <- tempfile("programs")
  dir.create(folder)
  script <- counting_programs(folder)
  old <- Sys.getenv("HOMERANGE", NA)
  on.exit(if (is.na(old)) Sys.unsetenv("HOMERANGE") else Sys.setenv(HOMERANGE = old))
  Sys.setenv(HOMERANGE = script)
  for (apart in c(101, 100, 99)) {
    east <- apart * rep(0:69, each = 4) + c(0, 100, 100, 0)
    fixes <- data.frame(animal = rep(paste("deer", 1:70), each = 4), second = 0:3, easting = east, northing = c(0, 0, 100, 100))
    overlap <- homerange_overlap(quietly(home_range(fixes, 100)))
    expect_equal(sum(readLines(file.path(folder, "calls")) != "--version"), if (apart > 100) 3 else 5)
    unlink(file.path(folder, "calls"))
    distance <- abs(row(overlap) - col(overlap))
    expect_identical(unname(overlap), 4 * (distance == 0) + 2 * (distance == 1 & apart <= 100))
  }
})

test_that("a bar shows how far the runs have come", {
  skip_without_program()
  fixes <- herd(65, 3)
  expect_output(quietly(home_range(fixes, progress = TRUE)), "100%")
  expect_silent(quietly(home_range(fixes, progress = FALSE)))
  expect_silent(quietly(home_range(fixes[fixes$animal == "deer 1", ], progress = TRUE)))
})
