\name{write_report}
\alias{write_report}
\title{Write a Report}
\description{Writes the report of home ranges, as the program \code{homerange} writes it.}
\usage{
write_report(x, path, overwrite = FALSE, ...)
}
\arguments{
\item{x}{a home range, from \code{\link{home_range}} or \code{\link{read_report}}.}
\item{path}{the file. A report that was written before is written over.}
\item{overwrite}{whether a file that is there and no report is written over; else it is refused as \code{homerange_file_error}.}
\item{...}{none: others are refused.}
}
\details{
Of up to 64 animals it has the bytes that the program writes of files with these fixes and names. Names that no file has are
changed as \code{\link{homerange_evidence}} changes them, which is said. Ranges that \code{c} puts together of reports without
fixes have no whole report, and are refused. \code{\link{homerange_evidence}} writes a report with all that shows how it was made.
}
\value{The path, invisibly.}
\seealso{\code{\link{read_report}}}
\examples{
report <- read_report(system.file("extdata", "report.txt", package = "homerange"))
path <- tempfile(fileext = ".txt")
write_report(report["fox"], path)
readLines(path, 4)
}
