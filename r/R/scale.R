# How much greater areas are on the plane of a reference system than on the ground, and how lengths differ there by direction:
# docs/TABLES.md, Areal scale and Lengths by direction. The program looks at zones itself.

scales_told <- c(areas = 0.001, lengths = 0.01)  # how far each may be from 1 until it is said
scales_refused <- c(areas = 0.01, lengths = 0.1)

step_of_scale <- 100  # metres by which a place is moved on a grid, to see how far it goes on the ground
axes_of_wgs_84 <- c(6378137, 6356752.314245)  # half the axes of its ellipsoid in metres

help_for_scale <- ": take a zone or a reference system of the place"

# Refuses a reference system on which areas or lengths of an animal are too wrong, and says where they are less so.
check_scales <- function(table, crs) {
  animal <- factor(table$animal, unique(table$animal))
  means <- lapply(table[c("easting", "northing")], tapply, animal, mean)
  away <- mapply(scales_of_crs(crs), means$easting, means$northing) - 1
  lost <- levels(animal)[!is.finite(colSums(away))]
  if (length(lost)) refuse_crs("the fixes of ", lost[1], " have no place on this grid", help_for_scale, kind = "scale")
  are_turned <- mapply(function(easting, northing) lie_so(crs, c(easting, northing), TRUE), means$easting, means$northing)
  unlist(lapply(rownames(away), function(what) line_of_worst(what, away[what, ], levels(animal), are_turned)))
}

# What is said of the animal whose areas or lengths are most wrong; refused where that is too much, with what is asked of areas of those
# that lie where the system is made for once their coordinates are exchanged.
line_of_worst <- function(what, away, animals, are_turned) {
  place <- which.max(abs(away))
  worst <- away[[place]]
  share <- sprintf("%.2f %%", 100 * abs(worst))
  text <- if (what == "lengths") paste0("lengths of ", animals[place], " differ by up to ", share, " by direction on this grid") else
    paste0("areas of ", animals[place], " are ", share, " too ", if (worst > 0) "great" else "small", " on this grid")
  if (abs(worst) > scales_refused[[what]]) {
    refuse_crs(text, help_for_scale, if (what == "areas" && are_turned[[place]]) ", or are easting and northing exchanged?", kind = "scale")
  }
  if (abs(worst) > scales_told[[what]]) text
}

# What tells the scales of a reference system at a place, by how far a step to the east and one to the north go on the ground of its
# ellipsoid, or of that of WGS 84 where it has a sphere: how many times greater areas are, and how many times longer a length is in
# the direction in which it is longest than in that in which it is shortest.
scales_of_crs <- function(crs) {
  axes <- as.numeric(c(crs$SemiMajor, crs$SemiMinor))
  ellipsoid <- sprintf("+proj=longlat +a=%.6f +b=%.6f +no_defs", axes[1], axes[2])
  ground <- if (axes[1] == axes[2]) axes_of_wgs_84 else axes
  function(easting, northing) {
    around <- cbind(easting + step_of_scale * c(1, -1, 0, 0), northing + step_of_scale * c(0, 0, 1, -1))
    radians <- sf::sf_project(crs$wkt, ellipsoid, around, keep = TRUE, warn = FALSE) * pi / 180
    if (!all(is.finite(radians))) return(c(areas = Inf, lengths = Inf))
    moved <- radians[c(1, 3), ] - radians[c(2, 4), ]
    moved[, 1] <- (moved[, 1] + pi) %% (2 * pi) - pi  # over the meridian of 180 degrees
    # How far a metre of the grid goes on the ground, in the direction in which it goes farthest and in which it goes least far.
    goes <- svd(moved %*% diag(metres_of_radian(mean(radians[, 2]), ground)) / (2 * step_of_scale))$d
    c(areas = 1 / prod(goes), lengths = goes[1] / goes[2])
  }
}

# The metres of a radian along the parallel of a latitude, and along the meridian there, on an ellipsoid of these half axes.
metres_of_radian <- function(latitude, axes) {
  squared <- 1 - (axes[2] / axes[1])^2
  bulge <- 1 - squared * sin(latitude)^2
  axes[1] * c(cos(latitude) / sqrt(bulge), (1 - squared) / bulge^1.5)
}
