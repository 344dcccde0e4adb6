# Fixes in the whole units that the program takes, from metres.

# Units of coordinates, by their names: what they are called, how many a metre has, the limit of the grid, and how many of twice
# its areas a hectare has.
units_known <- list(
  m = list(name = "metres", scale = 1, limit = 16777216, hectare = 20000),
  dm = list(name = "decimetres", scale = 10, limit = 134217728, hectare = 2000000)
)

# Fixes as the program takes them: seconds, and eastings and northings in whole units, with the shift in metres that the program
# gave them. Rows stand by animal, in the order of time, since fixes are as they were read.
whole_fixes <- function(fixes) {
  facts <- facts_of(fixes)
  scale <- units_known[[facts$unit]]$scale
  time <- fixes[[column_of_time(fixes)]]
  list(shift = facts$shift, fixes = list2DF(list(
    row = seq_along(time), animal = as.character(fixes$animal), time = time, moment = as.numeric(time),
    easting = round(scale * (fixes$easting + facts$shift[1])), northing = round(scale * (fixes$northing + facts$shift[2]))
  )))
}
