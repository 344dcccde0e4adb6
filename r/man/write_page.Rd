\name{write_page}
\alias{write_page}
\title{A Page to Read, to Print and to Hand In}
\description{
Writes one HTML file with nothing outside it: a sentence and a row for each animal, the map, the curves of area, overlaps, a
method text with references, and checksums.
}
\usage{
write_page(x, path, title = NULL, study = NULL, species = NULL, by = NULL,
           reference = NULL, purpose = NULL, reserve = NULL, reserve_name = NULL, tz = NULL, made = NULL,
           overwrite = FALSE, ...)
}
\arguments{
\item{x}{a home range, from \code{\link{home_range}} or \code{\link{read_report}}.}
\item{path}{the file, such as \code{report.html}, whose name ends in \code{.html} or \code{.htm}. A page that was written before is
  written over.}
\item{title, study, species, by}{text for the head of the page.}
\item{reference, purpose}{the reference of the case that the page belongs to, such as its file number, and what the page is for.}
\item{reserve, reserve_name}{a boundary for the map, as \code{\link{homerange_share}} takes it, and what it is called.}
\item{tz}{the time zone of dates; if left out, that of the ranges.}
\item{made}{the day of making, a \code{Date}; if left out, today.}
\item{overwrite}{whether a file that is there and no such page is written over; else it is refused as \code{homerange_file_error}.}
\item{...}{none: others are refused.}
}
\details{
The program \code{homerange-page} writes it, which lies beside \code{homerange}. Animals have the names that their files have; of
those of some of the animals of a call it is not known there what was left out.
}
\value{The path, invisibly.}
\seealso{\code{\link{homerange_evidence}}, which makes a whole folder with such a page.}
\examples{
found <- tryCatch(nzchar(homerange_program()), homerange_program_error = function(fault) FALSE)
if (found) {
  report <- system.file("extdata", "report.txt", package = "homerange")
  path <- tempfile(fileext = ".html")
  write_page(read_report(report), path, title = "Three animals")
}
}
