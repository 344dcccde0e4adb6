\name{st_as_sf.home_range}
\alias{st_as_sf.home_range}
\title{Polygons of Home Ranges}
\description{
The minimum convex polygons of home ranges as a table of the package sf, for maps, files of a GIS and other analysis.
}
\usage{
\method{st_as_sf}{home_range}(x, levels = NULL, drop_flat = FALSE, area = "ha", units = FALSE, ...)
}
\arguments{
\item{x}{a home range, from \code{\link{home_range}} or \code{\link{read_report}}.}
\item{levels}{the levels in per cent: of those that \code{home_range} was given, and 100. If left out, all that were given, and
  of a report without its fixes 100.}
\item{drop_flat}{whether ranges without an area are left out: those of one corner, which are points, and of two, which are
  lines. All others are polygons, as a shapefile wants them.}
\item{area}{the unit of areas: \code{"ha"} for a column \code{hectares}, \code{"m2"} for \code{square_metres},
  \code{"km2"} for \code{square_kilometres}.}
\item{units}{whether areas are of the package units, in a column \code{area}.}
\item{...}{none; others are refused.}
}
\value{
An \code{sf} table in the coordinate reference system of the fixes, or without one where none is known, with a row for each
animal and level, level by level, and the columns \code{animal}, \code{group} where ranges are by groups, \code{level}, \code{fixes} (how many are used), \code{kept} (how
many of them the level keeps), \code{corners}, an area, and \code{geometry}. \code{\link{homerange_corners}} says how polygons
below level 100 are made and what is refused.
}
\examples{
if (requireNamespace("sf", quietly = TRUE)) {
  report <- system.file("extdata", "report.txt", package = "homerange")
  sf::st_as_sf(read_report(report))
}
}
