# Three simulated deer of 360 fixes each, in the columns of a Movebank export. No animal was tracked.
#
# A deer takes a random step every three hours and is drawn back to its home. The random numbers are those of
# x <- 16807 * x modulo 2^31 - 1; all is adding, subtracting and multiplying, so that each machine makes the same table.
deer <- local({
  seed <- 1
  draw <- function() {
    seed <<- (16807 * seed) %% 2147483647
    seed / 2147483647
  }
  walk <- function(home, pull, stride) {
    at <- home
    track <- matrix(NA_real_, 360, 2)
    for (fix in seq_len(360)) {
      track[fix, ] <- at
      step <- c(draw() + draw() + draw(), draw() + draw() + draw()) - 1.5
      at <- at + pull * (home - at) + stride * step
    }
    track
  }
  track_of <- function(name, home, pull, stride) {
    track <- round(walk(home, pull, stride), 2)
    data.frame(
      individual.local.identifier = name,
      timestamp = as.POSIXct("2024-04-01 00:00:00", tz = "UTC") + 10800 * (seq_len(360) - 1),
      utm.easting = track[, 1], utm.northing = track[, 2], utm.zone = "33N", visible = TRUE
    )
  }
  table <- rbind(
    track_of("Asta", c(561200.4, 5133900.2), 0.05, 260),
    track_of("Bruno", c(563000.1, 5134600.7), 0.06, 330),
    track_of("Cilla", c(562300.8, 5132600.3), 0.10, 240)
  )
  # A fix far away that the collar's owner has marked as an outlier.
  table$utm.easting[100] <- 598211.37
  table$visible[100] <- FALSE
  table
})
