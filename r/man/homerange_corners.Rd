\name{homerange_corners}
\alias{homerange_corners}
\title{Corners of Polygons}
\description{The corners of the minimum convex polygons of one level or several, in metres, which takes no other package.}
\usage{
homerange_corners(x, levels = 100, ...)
}
\arguments{
\item{x}{a home range, from \code{\link{home_range}} or \code{\link{read_report}}.}
\item{levels}{one level in per cent or several: 100, and of those that \code{home_range} was given.}
\item{...}{none: others are refused.}
}
\details{
The program's report has the corners of the polygons of all fixes. For a level below 100 the package finds the fixes that the
level keeps, by the rule of \code{\link{home_range}}, and the corners of their polygon, by whole numbers, exactly. Its number of
corners and its area are compared with those of the report; where they differ, the call stops with an error of class
\code{homerange_check_error}. Polygons are made once for an object. A report that was read without its files has no fixes, so there
levels can only be 100; others are refused as \code{homerange_option_error}.
}
\value{
Of one level a list, and of several a list of such lists, by their levels. It has a matrix for each animal, by its name, with the columns \code{easting} and \code{northing} in metres: the corners,
counterclockwise from the westernmost, of two such the southern. The first is not repeated at the end. Coordinates that were
shifted are where they were.
}
\references{
Mohr, C. O. (1947) Table of equivalent populations of North American small mammals. \emph{American Midland Naturalist}
37, 223--249.
}
\seealso{\code{\link{st_as_sf.home_range}} has the polygons as a table of sf.}
\examples{
report <- system.file("extdata", "report.txt", package = "homerange")
homerange_corners(read_report(report))$otter
}
