\name{homerange-package}
\alias{homerange-package}
\alias{homerange}
\title{Home Ranges of Tagged Animals by a Proved Program}
\description{
Estimates the home ranges of tagged animals from their location fixes by the minimum convex polygon: areas, percent
polygons, incremental area analysis, and overlaps of animals.
}
\details{
The package has the program \code{homerange-split} read a table of fixes, runs the program \code{homerange} on them and reads its
report. Each function of these programs is proved to meet its contract, and their numbers are exact whole numbers. The
package itself is tested, and not proved.

\code{\link{read_fixes}} reads a data frame, points of sf, or an export of Movebank or of a collar, \code{\link{home_range}} makes
home ranges of fixes, and \code{\link{read_report}} reads them from a report.
\code{\link[=summary.home_range]{summary}} and \code{as.data.frame} give tables of them,
\code{\link[=st_as_sf.home_range]{sf::st_as_sf}} and \code{\link{homerange_corners}} polygons,
\code{\link[=plot.home_range]{plot}} draws them, and \code{\link[=c.home_range]{[ and c}} take some animals and put several
together. \code{\link{homerange_curve}} has the areas after each fix, \code{\link{homerange_growth}} how they grew,
\code{\link{homerange_overlap}} has the fixes of one animal in the range of another, \code{\link{homerange_share}} the
share of ranges in a reserve, and \code{\link{homerange_left_out}} the fixes that were left out. \code{\link{write_page}} writes a page of
all this, \code{\link{write_report}} the report, and \code{\link{homerange_evidence}} makes a folder to hand in.
\code{\link{homerange_program}} says which program is run. \code{vignette("homerange")} goes from an export to the share of ranges in a reserve.

The options \code{scipen}, \code{OutDec} and \code{digits} of a session change nothing of what the package reads, says, prints and
writes. The tables and matrices that it answers, such as those of \code{\link{homerange_corners}}, are plain ones, which R prints by
these options.
}
\section{Messages}{
Each message has the class \code{homerange_note} and another, by which a handler of \code{\link{withCallingHandlers}} can tell
them apart and \code{suppressMessages(.., classes = "homerange_rounded_note")} can silence some:
\tabular{ll}{
\code{homerange_left_out_note} \tab fixes were left out, or an animal has none left \cr
\code{homerange_guessed_note} \tab what columns, times, zones and sensors were taken for \cr
\code{homerange_asked_note} \tab a question: something may be other than it was taken for \cr
\code{homerange_sorted_note}, \code{homerange_same_note} \tab fixes were sorted by time, or have the same second \cr
\code{homerange_moved_note}, \code{homerange_rounded_note} \tab coordinates were shifted, or rounded \cr
\code{homerange_scale_note} \tab areas differ on the grid from those on the ground, or lengths by direction \cr
\code{homerange_limit_note} \tab the program refuses what follows \cr
\code{homerange_renamed_note} \tab an animal has another name in files
}
With \code{quiet = TRUE} nothing is said, and the lines are in \code{notes} of the object all the same.
}
\section{Errors}{
Each error of the package has the class \code{homerange_error} and another, which \code{\link{tryCatch}} can tell apart:
\tabular{ll}{
\code{homerange_data_error} \tab the table of fixes is refused; the message names the row or the record. Beside it stands the kind of
  docs/TABLES.md, such as \code{homerange_time_error} \cr
\code{homerange_option_error} \tab an argument is refused, by the package or by the program (its status 2) \cr
\code{homerange_program_error} \tab there is no program, or it ended with a status that it does not know \cr
\code{homerange_file_error} \tab a file cannot be read, or is refused by the program (status 1) \cr
\code{homerange_memory_error} \tab there is not enough memory (status 3) \cr
\code{homerange_output_error} \tab the report cannot be written (status 4) \cr
\code{homerange_cut_error} \tab not all fixes were handed on within the program (status 5) \cr
\code{homerange_report_error} \tab a report is cut off, or no report \cr
\code{homerange_check_error} \tab two numbers that have to agree do not
}
Where the program refuses, the message is its own line, with the animal's name in place of the file's.
}
\references{
Mohr, C. O. (1947) Table of equivalent populations of North American small mammals. \emph{American Midland Naturalist}
37, 223--249.

Harris, S., Cresswell, W. J., Forde, P. G., Trewhella, W. J., Woollard, T. and Wray, S. (1990) Home-range analysis using
radio-tracking data -- a review of problems and techniques particularly as applied to the study of mammals.
\emph{Mammal Review} 20, 97--123.
}
\keyword{package}
