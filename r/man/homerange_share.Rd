\name{homerange_share}
\alias{homerange_share}
\title{The Share of Home Ranges in a Reserve}
\description{How much of each animal's polygon lies in a reserve, also of those that lie outside it.}
\usage{
homerange_share(x, reserve, levels = 100, ...)
}
\arguments{
\item{x}{a home range, from \code{\link{home_range}} or \code{\link{read_report}}.}
\item{reserve}{an \code{sf} geometry of polygons, which are taken together. It may be in another coordinate reference system
  (CRS) than the ranges, and goes straight in that one; what reaches to where the CRS of the ranges has no places is taken as
  far as 100 km from the ranges. Where those have none, it must have none, and its coordinates are theirs.}
\item{levels}{one level of the polygons in per cent or several, as \code{\link{homerange_corners}} takes them.}
\item{...}{none: others are refused.}
}
\value{
A data frame with a row for each animal, in the order of \code{x}, level by level:
\item{animal}{the animal's name; behind it stands \code{group} where ranges are by groups.}
\item{level}{the level in per cent.}
\item{hectares}{the area of its polygon in hectares.}
\item{inside}{how many of them lie in the reserve: 0 where it lies outside.}
\item{share}{\code{inside / hectares}, from 0 to 1; \code{NA} for a range without an area.}
}
\section{What is said}{
Shapes that are missing, and points and lines beside polygons, are left out, with their rows. A reserve that lies far from all ranges, so
that their boxes do not meet though each is widened by its own longer side, is asked about.
}
\section{Errors}{
A boundary of which a shape crosses itself, one in degrees with an edge of more than 180 degrees of longitude, as of a shape that crosses
the date line and is not cut there, one of curves or triangles, one without an area, and what is no \code{sf} geometry are refused as
\code{homerange_option_error}; a CRS that one of the two lacks as \code{homerange_crs_error}.
}
\examples{
found <- tryCatch(nzchar(homerange_program()), homerange_program_error = function(fault) FALSE)
if (found && requireNamespace("sf", quietly = TRUE)) {
  reserve <- sf::st_buffer(sf::st_sfc(sf::st_point(c(562000, 5134000)), crs = 32633), 1000)
  homerange_share(home_range(deer), reserve, levels = 95)
}
}
