\name{homerange_curve}
\alias{homerange_curve}
\title{The Table of Incremental Area Analysis}
\description{The area of an animal's range after each fix (Harris et al. 1990).}
\usage{
homerange_curve(x, area = "ha", units = FALSE, ...)
}
\arguments{
\item{x}{a home range, from \code{\link{home_range}} or \code{\link{read_report}}.}
\item{area}{the unit of areas: \code{"ha"} for a column \code{hectares}, \code{"m2"} for \code{square_metres},
  \code{"km2"} for \code{square_kilometres}.}
\item{units}{whether areas are of the package units, in a column \code{area}.}
\item{...}{none: others are refused.}
}
\value{
A data frame with a row for each fix and the columns
\item{animal}{the animal's name; behind it stands \code{group} where ranges are by groups.}
\item{n}{the number of the fix, from 1 for each animal, in the order of time.}
\item{time}{its time; for a report without \code{start} its second.}
\item{corners}{how many corners the minimum convex polygon of the first n fixes has.}
\item{hectares}{the area of that polygon in hectares, or in the unit that is asked for.}
}
\references{
Harris, S., Cresswell, W. J., Forde, P. G., Trewhella, W. J., Woollard, T. and Wray, S. (1990) Home-range analysis using
radio-tracking data -- a review of problems and techniques particularly as applied to the study of mammals.
\emph{Mammal Review} 20, 97--123.
}
\seealso{\code{\link{plot.home_range}} draws it.}
\examples{
report <- system.file("extdata", "report.txt", package = "homerange")
tail(homerange_curve(read_report(report)))
}
