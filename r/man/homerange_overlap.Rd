\name{homerange_overlap}
\alias{homerange_overlap}
\title{Fixes of One Animal in the Range of Another}
\description{Counts, for every pair of animals, the fixes of one that lie in the minimum convex polygon of the other.}
\usage{
homerange_overlap(x, share = FALSE, levels = 100, tidy = FALSE, ...)
}
\arguments{
\item{x}{a home range, from \code{\link{home_range}} or \code{\link{read_report}}.}
\item{share}{whether to give shares of the row animal's fixes, from 0 to 1, in place of counts.}
\item{levels}{one level of the polygons in per cent or several: 100, and of those that \code{home_range} was given.}
\item{tidy}{whether to give a data frame with a row for each two animals and level.}
\item{...}{none: others are refused.}
}
\details{
Overlaps at level 100 are those of the program's report. At other levels the package tells by whole numbers, exactly, which
fixes lie in a polygon; that takes the fixes, which a report that was read from a file has not.
}
\value{
Of one level a matrix with a row and a column for each animal, by their names, and of several a list of such matrices. Its rows are titled
\code{fixes_of}, and its columns by the level, as \code{in_range_of_100}: if none is named it is 100, also of ranges that were made at
others. Row A, column B has how many fixes of A, of all that are used,
lie in the polygon of B at this level, its edges included. On the diagonal are the fixes of A in A's own polygon: at level 100
all of them, and at a lower level those that it keeps and those of the others that lie in their polygon too. Of ranges that
\code{c} puts together and that have no fixes, the overlaps between the parts are \code{NA}.

With \code{tidy} a data frame with the columns \code{animal} and \code{other}, of whose fixes and of whose polygon a row is,
\code{level}, \code{count}, \code{fixes}, how many \code{animal} has, and \code{share}; behind \code{animal} stands \code{group}
where ranges are by groups, and \code{other} is a range's name.
}
\examples{
report <- system.file("extdata", "report.txt", package = "homerange")
homerange_overlap(read_report(report), share = TRUE)
homerange_overlap(read_report(report), tidy = TRUE)
}
