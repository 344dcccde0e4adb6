\name{homerange_evidence}
\alias{homerange_evidence}
\title{A Folder to Hand In}
\description{
Makes a new folder with all that an authority needs to check home ranges: the fixes, the report that the program makes of
them, a record of the run, tables, polygons, a page and checksums.
}
\usage{
homerange_evidence(x, folder, ...)
}
\arguments{
\item{x}{a home range, from \code{\link{home_range}}, or from \code{\link{read_report}} with its \code{files}.}
\item{folder}{the name of the folder. One that is there is refused.}
\item{...}{arguments of \code{\link{write_page}}, such as \code{title}.}
}
\details{
The program is run again, on the files in the folder, and its report has to have the numbers of \code{x}. The files are
\tabular{ll}{
\code{SHA256SUMS} \tab the checksum of each other file \cr
\code{evidence.txt} \tab the record of the run, a field a line: the program with its version and checksum, arguments, unit,
  levels, and the export, which is \code{fixes.csv} where \code{x} was made of a data frame \cr
\code{report.txt} \tab the report \cr
\code{tracks} \tab the fixes, a file for each animal, and \code{split.txt}, the record of how they were made: unit, reference
  system, shift, the options, what was said and left out, checksums, and what made them \cr
\code{summary.csv} \tab for each animal and level fixes, corners and hectares \cr
\code{animals.csv} \tab for each animal what was left out and why, times, intervals, hectares, and
  \code{\link{homerange_growth}} \cr
\code{overlaps.csv} \tab which share of the fixes of the row's animal lie in the polygon of the column's \cr
\code{ranges.gpkg} \tab with the package sf layers for a GIS: the polygons of all levels, the fixes, and how QGIS draws them \cr
\code{report.html} \tab the page, to read and to print \cr
\code{build.log} \tab where the program was built, what the prover said
}
\code{tools/verify.py} of homerange's repository checks such a folder: that no file was changed, that the program makes the
same report again, that another method computes each of its numbers, and that tables, polygons and page are those of the tracks
and of their record. Whether the table was right nobody can see from it.

Fixes that are as \code{\link{read_fixes}} has read them go with the record of that. Those that were filtered, bound or changed since
were read again by the program for \code{\link{home_range}}, and the record is that of this second reading.

Of a report that was read with its files these are copied, with the record that was named, or else the \code{split.txt} beside
them; they have to be as it says. Where it is the record of a split, the verifier holds the folder to the export too.

In names of files and animals \code{< > : / \\ | ? *}, comma, double quote and control characters are \code{_}, and so is a
point or a blank at the start or the end; a name of a device of Windows, such as \code{con}, has \code{_} before it, and what
is over 32 bytes is cut off. Of names that differ in capitals or in the form of letters alone all but the first have a number.
Two names that come out the same are refused. In the tables a name that begins with \code{=}, \code{+}, \code{-}, \code{@} or
an apostrophe has an apostrophe before it, so that no spreadsheet computes it. It wants \code{sha256sum}.
}
\value{The name of the folder, invisibly.}
\seealso{\code{\link{write_page}}, \code{\link{homerange_growth}}}
\examples{
found <- tryCatch(nzchar(homerange_program()), homerange_program_error = function(fault) FALSE)
if (found) {
  folder <- file.path(tempdir(), "hand-in")
  homerange_evidence(home_range(deer), folder)
  list.files(folder)
  unlink(folder, recursive = TRUE)
}
}
