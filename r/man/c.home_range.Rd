\name{c.home_range}
\alias{c.home_range}
\alias{[.home_range}
\alias{[[.home_range}
\alias{$.home_range}
\alias{as.list.home_range}
\alias{length.home_range}
\alias{names.home_range}
\alias{[<-.home_range}
\alias{[[<-.home_range}
\alias{$<-.home_range}
\alias{names<-.home_range}
\alias{subset.home_range}
\alias{filter.home_range}
\alias{all.equal.home_range}
\alias{rbind.home_range}
\alias{unique.home_range}
\title{Some Animals, and Animals of Several Tables}
\description{Takes some of the animals of home ranges, and puts those of several home ranges together.}
\usage{
\method{[}{home_range}(x, i, ...)

\method{[[}{home_range}(x, i, ..., exact = TRUE)

\method{$}{home_range}(x, name)

\method{[}{home_range}(x, i, ...) <- value

\method{[[}{home_range}(x, i, ...) <- value

\method{$}{home_range}(x, name) <- value

\method{c}{home_range}(...)

\method{rbind}{home_range}(..., deparse.level = 1)

\method{as.list}{home_range}(x, ...)

\method{length}{home_range}(x)

\method{names}{home_range}(x)

\method{names}{home_range}(x) <- value

\method{subset}{home_range}(x, subset, ...)

\method{filter}{home_range}(.data, ...)

\method{all.equal}{home_range}(target, current, ...)

\method{unique}{home_range}(x, ...)
}
\arguments{
\item{x, .data, target, current}{a home range, from \code{\link{home_range}} or \code{\link{read_report}}.}
\item{i}{the animals, by their names, their places or truths, in the wanted order; of \code{[[} one of them.}
\item{name}{the name of an animal, or of a fact of all, such as \code{program}, where no animal is named so.}
\item{exact}{not used.}
\item{...}{of \code{c} and \code{rbind} home ranges of different animals, which have the same unit, levels, reference system, shift,
  zone of times and program; of \code{filter} what \code{subset} takes, and of \code{all.equal} its other arguments; else none.}
\item{deparse.level}{not used.}
\item{subset}{which animals are taken, by columns of a table with a row for each range: \code{animal}, \code{group} where ranges are
  by groups, \code{fixes}, \code{first}, \code{last}, \code{left_out}, and \code{hectares_95} and the like for each level.}
\item{value}{names, ranges of some animals, or facts, which are all refused: what ranges have goes together.}
}
\details{
Overlaps of animals of different parts are counted from the fixes, as the program counts them; where a part is a report without
its fixes they are \code{NA}. What was left out is that of all parts; where several are of one reading, as those of
\code{lapply(split(fixes, fixes$animal), home_range)}, it is counted once, and where that is not known, as of animals that were renamed,
it is missing. \code{NULL} among them is none. Where it is the first, R makes a list of their parts by \code{c(NULL, x)}, which the functions
of the package refuse; \code{rbind(NULL, x)} binds ranges, so that \code{all <- rbind(all, x)} may begin with \code{all <- NULL}.
\code{for} goes through the parts of an object, and not through its animals: \code{for (name in names(x))} does, with \code{x[name]} for
the range of each. \code{\link{homerange_evidence}} takes neither, but the ranges of one call or one report.
}
\value{
An object of class \code{home_range}, as of \code{\link{home_range}}. \code{length} is the number of animals, \code{names} are
theirs, and \code{as.list}, and so \code{lapply}, has the range of each. \code{filter} is that of dplyr, whose other verbs are of tables and
refuse ranges: \code{as.data.frame(x)} is one. \code{rbind} binds ranges, and \code{dplyr::bind_rows} does not. \code{all.equal} compares what
ranges have, and neither the calls that made them nor what was made of them since.
}
\examples{
report <- read_report(system.file("extdata", "report.txt", package = "homerange"))
report[c("otter", "fox")]
subset(report, hectares_100 > 1)
vapply(report, function(one) summary(one)$hectares[1], 0)
c(report["otter"], report["fox"])
}
