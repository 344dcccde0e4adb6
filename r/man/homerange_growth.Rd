\name{homerange_growth}
\alias{homerange_growth}
\title{How Areas Grew}
\description{
Says of each animal how the area of the polygon of all its fixes grew with their number, in the order of time (incremental area
analysis, Harris et al. 1990).
}
\usage{
homerange_growth(x, ...)
}
\arguments{
\item{x}{a home range, from \code{\link{home_range}} or \code{\link{read_report}}.}
\item{...}{none: others are refused.}
}
\value{
A data frame with a row for each animal and the columns
\item{animal}{the animal's name; behind it stands \code{group} where ranges are by groups.}
\item{fixes}{how many fixes are used.}
\item{hectares}{the area of the polygon of all of them.}
\item{within_95_fix, within_95_time}{the number and the time of the first fix from which on the area stayed at 95 per
  cent or more of that.}
\item{last_tenth, last_quarter}{the share of that area, from 0 to 1, that the last tenth and the last quarter of the fixes
  added: with n fixes, \code{(A - B) / A}, where \code{A} is the area after fix n, and \code{B} that after fix
  \code{floor(9 * n / 10)} or \code{floor(3 * n / 4)}.}
Of an animal without an area the columns behind \code{hectares} are \code{NA}.
}
\references{
Harris, S., Cresswell, W. J., Forde, P. G., Trewhella, W. J., Woollard, T. and Wray, S. (1990) Home-range analysis using
radio-tracking data -- a review of problems and techniques particularly as applied to the study of mammals.
\emph{Mammal Review} 20, 97--123.
}
\seealso{\code{\link{homerange_curve}} has the areas, and \code{\link{plot.home_range}} draws them.}
\examples{
report <- system.file("extdata", "report.txt", package = "homerange")
homerange_growth(read_report(report))
}
