\name{read_report}
\alias{read_report}
\title{Read a Report of the Program}
\description{Reads a report that the program \code{homerange} wrote elsewhere, as its own run or as a herd's.}
\usage{
read_report(file, start = NULL, files = NULL, record = NULL, ...)
}
\arguments{
\item{file}{the name of the report's file.}
\item{start}{the time of second 0 as \code{POSIXct}, such as \code{as.POSIXct("1970-01-01", tz = "UTC")}. If left out, times
  are seconds.}
\item{files}{the names of the files that the report was made from. With them \code{\link[=st_as_sf.home_range]{polygons}}
  below level 100, fixes in   plots and \code{\link{homerange_evidence}} can be had.}
\item{record}{the name of their record, \code{split.txt} of \code{homerange-split} or
  \code{\link{homerange_evidence}}. From it is known what was left out and said, the reference system and the shift.
  One of another report, or of other files, is refused.}
\item{...}{none: others are refused.}
}
\details{
The unit of coordinates is that of the report's first line: decimetres after \code{unit,dm}, else metres. A report alone has no
fixes and no coordinate reference system, so its polygons are of level 100 alone and in an unknown system, and lie where their tracks do: a
shift of these is in their record, and is said where that lies beside the report or its files. Fixes of
\code{files} that are marked as not used are counted as left out.
}
\value{An object of class \code{home_range}, as of \code{\link{home_range}}.}
\seealso{\code{\link{write_report}}}
\section{Errors}{
A report that has not the line \code{end} with the right number of animals, or has lines that are missing, twice there, at
another place or of no known kind, is refused as \code{homerange_report_error}, and so are files with other times of fixes,
or another polygon of all, than the report; a file that is not there as \code{homerange_file_error}; a record that is none as
\code{homerange_text_error}.
}
\examples{
report <- system.file("extdata", "report.txt", package = "homerange")
read_report(report, start = as.POSIXct("2024-05-01", tz = "UTC"))
}
