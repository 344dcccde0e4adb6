\name{tidy.home_range}
\alias{tidy.home_range}
\alias{glance.home_range}
\alias{autoplot.home_range}
\alias{st_geometry.home_range}
\alias{st_area.home_range}
\alias{st_bbox.home_range}
\alias{st_crs.home_range}
\alias{st_write.home_range}
\title{Home Ranges in Other Packages}
\description{
Methods for functions of the packages generics (and so broom), ggplot2 and sf, which are there once these packages are loaded.
}
\usage{
\method{tidy}{home_range}(x, ...)

\method{glance}{home_range}(x, ...)

\method{autoplot}{home_range}(object, what = c("ranges", "curve"), levels = 100,
         fixes = TRUE, ...)

\method{st_geometry}{home_range}(obj, ...)

\method{st_area}{home_range}(x, ...)

\method{st_bbox}{home_range}(obj, ...)

\method{st_crs}{home_range}(x, ...)

\method{st_write}{home_range}(obj, dsn, ...)
}
\arguments{
\item{x, object, obj}{a home range, from \code{\link{home_range}} or \code{\link{read_report}}.}
\item{what}{\code{"ranges"} for a map, \code{"curve"} for the curves of incremental area analysis.}
\item{levels}{the levels of the polygons of a map, as \code{\link{homerange_corners}} takes them.}
\item{fixes}{whether a map has the fixes.}
\item{dsn}{the file that is written, such as \code{"ranges.gpkg"}.}
\item{...}{of \code{tidy} arguments of \code{\link[=summary.home_range]{as.data.frame}}; of \code{st_geometry} and \code{st_area} those of
  \code{\link{st_as_sf.home_range}}, such as \code{levels}; of \code{st_write} those of \code{sf::st_write}; else none.}
}
\value{
Of \code{tidy} the table of \code{as.data.frame}, with a row for each animal and level; of \code{glance} a table of one row: how many
\code{animals}, \code{ranges}, \code{fixes} and fixes that were \code{left_out}, \code{first} and \code{last} time, \code{levels},
\code{unit} and reference \code{system}; of \code{autoplot} a plot of ggplot2. Those of sf are of the polygons of all levels, in the
order of \code{\link{st_as_sf.home_range}}, and the box is that of all fixes. Areas are the exact ones, in square metres.
}
\examples{
report <- read_report(system.file("extdata", "report.txt", package = "homerange"))
if (requireNamespace("generics", quietly = TRUE)) generics::glance(report)
if (requireNamespace("sf", quietly = TRUE)) sf::st_area(report)
}
