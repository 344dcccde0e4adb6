\name{deer}
\alias{deer}
\docType{data}
\title{Three Simulated Deer}
\description{
A table of 1,080 fixes of three deer, in the columns of a Movebank export. No animal was tracked: the fixes come from a
random walk whose numbers are made by a fixed formula, so they are the same on each machine.
}
\usage{deer}
\format{
A data frame with 1,080 rows and the columns
\describe{
\item{individual.local.identifier}{the deer's name: Asta, Bruno or Cilla.}
\item{timestamp}{the time of the fix, every three hours from 2024-04-01 00:00 UTC on, as \code{POSIXct}.}
\item{utm.easting, utm.northing}{metres in UTM zone 33 north.}
\item{utm.zone}{\code{"33N"}.}
\item{visible}{\code{FALSE} for one fix that is marked as an outlier.}
}
}
\source{The file \code{data/deer.R} of the package's sources makes it. \file{extdata/deer.csv} is the same table as an export of
Movebank, with longitude and latitude.}
\examples{
head(deer)
}
\keyword{datasets}
