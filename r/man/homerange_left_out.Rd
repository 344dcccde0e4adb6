\name{homerange_left_out}
\alias{homerange_left_out}
\title{Fixes That Were Left Out}
\description{Counts the rows of a table that are not among the fixes of a home range, by animal and reason.}
\usage{
homerange_left_out(x, ...)
}
\arguments{
\item{x}{a home range, from \code{\link{home_range}}, or from \code{\link{read_report}} with files or a record.}
\item{...}{none: others are refused.}
}
\value{
A data frame with a row for each animal and reason:
\item{animal}{the animal's name, empty where a row has none.}
\item{reason}{why: a word of those that docs/TABLES.md of homerange's repository has, such as \code{coordinates} of fixes that
  failed, \code{outlier}, \code{speed}, or \code{chosen} of fixes that were taken away after they were read.}
\item{fixes}{how many.}
}
\examples{
found <- tryCatch(nzchar(homerange_program()), homerange_program_error = function(fault) FALSE)
if (found) homerange_left_out(home_range(deer, every = "6h"))
}
