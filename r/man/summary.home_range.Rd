\name{summary.home_range}
\alias{summary.home_range}
\alias{as.data.frame.home_range}
\title{Areas of Home Ranges}
\description{A table of home ranges, with a row for each animal and level.}
\usage{
\method{summary}{home_range}(object, area = "ha", units = FALSE, ...)

\method{as.data.frame}{home_range}(x, row.names = NULL, optional = FALSE, ...,
              stringsAsFactors = FALSE, area = "ha", units = FALSE)
}
\arguments{
\item{object, x}{a home range, from \code{\link{home_range}} or \code{\link{read_report}}.}
\item{row.names}{names for the rows.}
\item{optional}{not used.}
\item{stringsAsFactors}{whether animals are a factor, in the order in which they stand in \code{x}.}
\item{area}{the unit of areas: \code{"ha"} for a column \code{hectares}, \code{"m2"} for \code{square_metres},
  \code{"km2"} for \code{square_kilometres}.}
\item{units}{whether areas are of the package units, in a column \code{area}.}
\item{...}{none; others are refused.}
}
\value{
A data frame, of \code{as.data.frame} without times and what was left out, with the columns
\item{animal}{the animal's name; behind it stands \code{group} where ranges are by groups.}
\item{first, last}{the times of its first and its last fix that is used.}
\item{fixes}{how many fixes are used.}
\item{left_out}{how many of its rows were left out, as \code{\link{homerange_left_out}} says by reason; \code{NA} for a report and for groups,
  and where it is not known, as of an animal that got another name.}
\item{level}{the level of the percent polygon, in per cent of the fixes.}
\item{kept}{how many fixes the level keeps.}
\item{corners}{how many corners the polygon has.}
\item{hectares}{its area in hectares, of which one is 10,000 square metres, or in the unit that is asked for.}
}
\seealso{\code{\link{homerange_growth}} says how the area grew with the number of fixes.}
\examples{
report <- system.file("extdata", "report.txt", package = "homerange")
summary(read_report(report))
}
