\name{home_range}
\alias{home_range}
\alias{print.home_range}
\alias{format.home_range}
\title{Home Ranges of Tagged Animals}
\description{
Runs the program \code{homerange} on location fixes, and reads what it answers: for each animal the minimum convex polygon of
all fixes, percent polygons, and the range after each fix; for every pair of animals how many fixes of one lie in the polygon
of the other.
}
\usage{
home_range(x, levels = c(50, 95, 100), by = NULL, ..., progress = interactive(),
           quiet = FALSE)

\method{print}{home_range}(x, ...)

\method{format}{home_range}(x, ...)
}
\arguments{
\item{x}{for \code{home_range} fixes, from \code{\link{read_fixes}}, or what that reads: a data frame with a row for each fix,
  an \code{sf} table of points, or the name of a file. For \code{print} and \code{format} a home range.}
\item{levels}{the levels of the percent polygons: 1 to 8 different whole numbers from 1 to 100.}
\item{by}{of what groups of an animal's fixes ranges are: \code{"year"}, \code{"month"} or \code{"season"}, by the clock of the
  zone of times; the name of a column of the table, or of the fixes; a vector with a group for each fix, made of \code{x}, or for each row of \code{x} where
  that is a data frame that was not read yet; or a function of the fixes that gives one. Moments name groups as their own clock shows
  them, and by days where all are midnights.}
\item{...}{options of \code{\link{read_fixes}}, where \code{x} was not read yet. For \code{print} and \code{format} none;
  others are refused.}
\item{progress}{whether a bar shows how far many runs of the program have come.}
\item{quiet}{whether what is guessed or left out is not said, and kept in \code{notes} alone.}
}
\details{
\strong{The percent rule.} Of n fixes, level p keeps the \code{(p * n + 99) \%/\% 100} that lie nearest to the mean of all
n fixes, of fixes as near as each other the earlier. The percent polygon is the minimum convex polygon of those. Other
programs have other rules; \code{mcp} of the package adehabitatHR often keeps one fix less.

\strong{Groups.} With \code{by} there is a range for each group of an animal's fixes, and tables have a column \code{group} behind
\code{animal}. A range is named by both, as \code{"Asta 2024-05"}. Seasons are those of meteorology, named by their months
since north and south name them otherwise, and of a year each: \code{"2024 Mar-May"}, \code{"2023-2024 Dec-Feb"}. What was left out of
each group is not known, and a page and evidence are of whole ranges. Groups that may be one, as \code{"M"} and \code{"m"} or \code{"007"}
and \code{"7"}, or none, as \code{"NA"}, are asked about as names of animals are. Beside fixes that were read a vector is taken where it is
known of which fix each value is: where the call makes it of \code{x} alone, as \code{by = format(fixes$time, "\%H")}, where a column of
\code{x} has its values, and where the fixes are the rows of their table in its order. Others are refused, since fixes are sorted and left
out: give them to the table or to the fixes as a column, and name it. Values that may be of other rows are refused beside each table, as of
one that was sorted since: those of a column in another order, what the call makes of a column of another table that says otherwise than
that of its title, and values with the names of rows in another order.

\strong{Arguments} that are written as a part of something, such as \code{by = x$season}, and are \code{NULL}, as they are where the name is
misspelt, are refused here and in the other functions of the package. Written as \code{NULL}, or as a variable that is \code{NULL}, they are
left out.

\strong{More than 64 animals} are reported by several runs, of groups of 32 animals and of every pair of groups, so
that every pair of animals is compared.

The files of the runs are in a folder of their own below \code{\link{tempdir}}, which is removed at the end.
}
\value{
An object of class \code{home_range}. \code{print} shows about ten lines of it, which \code{format} gives; what the last quarter
of the fixes added is \code{last_quarter} of \code{\link{homerange_growth}}. See
\code{\link[=summary.home_range]{summary}} for areas, \code{\link{homerange_curve}} for incremental area analysis,
\code{\link{homerange_overlap}}, \code{\link[=st_as_sf.home_range]{st_as_sf}} for polygons and
\code{\link[=plot.home_range]{plot}}. Beside its tables it has \code{notes}, what was said; \code{program}, the path of the
program, what it says of its version, and its checksum; and \code{call}.
}
\section{Limits and errors}{
What cannot be right is refused with an error of class \code{homerange_data_error}, in one line with the row and the remedy;
its \code{kind} is the word that docs/TABLES.md has for it, and \code{record} the number of the row.
Arguments that cannot be right are refused as \code{homerange_option_error}. \link{homerange-package} lists all classes.
Coordinates are in a grid of 16,777,216 metres, or with \code{unit = "dm"} of 13,421,772 metres. An animal has at most
1,048,576 fixes.

Areas are exact for the rounded coordinates. They are handed on as doubles, which hold whole numbers up to 2^53: enough for
any range on land.
}
\references{
Mohr, C. O. (1947) Table of equivalent populations of North American small mammals. \emph{American Midland Naturalist}
37, 223--249.

Harris, S., Cresswell, W. J., Forde, P. G., Trewhella, W. J., Woollard, T. and Wray, S. (1990) Home-range analysis using
radio-tracking data -- a review of problems and techniques particularly as applied to the study of mammals.
\emph{Mammal Review} 20, 97--123.
}
\seealso{\code{\link{read_fixes}}, \code{\link{read_report}}, \code{\link{homerange_program}}, \code{\link{deer}}}
\examples{
found <- tryCatch(nzchar(homerange_program()), homerange_program_error = function(fault) FALSE)
if (found) {
  ranges <- home_range(deer)
  print(ranges)
  # A range of each month, of the nights alone, by local time.
  fixes <- read_fixes(deer, tz = "Europe/Berlin", quiet = TRUE)
  nights <- subset(fixes, !as.POSIXlt(time)$hour \%in\% 6:17)
  home_range(nights, levels = 95, by = "month")
}
}
