\name{fixes}
\alias{fixes}
\alias{print.homerange_fixes}
\alias{format.homerange_fixes}
\alias{summary.homerange_fixes}
\alias{[.homerange_fixes}
\alias{rbind.homerange_fixes}
\alias{cbind.homerange_fixes}
\alias{merge.homerange_fixes}
\alias{names<-.homerange_fixes}
\alias{transform.homerange_fixes}
\alias{as.data.frame.homerange_fixes}
\alias{st_as_sf.homerange_fixes}
\alias{st_geometry.homerange_fixes}
\alias{st_bbox.homerange_fixes}
\alias{st_crs.homerange_fixes}
\alias{st_write.homerange_fixes}
\title{Fixes That Were Read}
\description{Prints fixes, takes some of them, binds those of several tables, and turns them into points or a data frame.}
\usage{
\method{print}{homerange_fixes}(x, ..., n = 6)

\method{format}{homerange_fixes}(x, ...)

\method{summary}{homerange_fixes}(object, ...)

\method{[}{homerange_fixes}(x, ...)

\method{rbind}{homerange_fixes}(..., deparse.level = 1)

\method{cbind}{homerange_fixes}(..., deparse.level = 1)

\method{merge}{homerange_fixes}(x, y, ...)

\method{names}{homerange_fixes}(x) <- value

\method{transform}{homerange_fixes}(`_data`, ...)

\method{as.data.frame}{homerange_fixes}(x, row.names = NULL, optional = FALSE, ...)

\method{st_as_sf}{homerange_fixes}(x, ...)

\method{st_geometry}{homerange_fixes}(obj, ...)

\method{st_bbox}{homerange_fixes}(obj, ...)

\method{st_crs}{homerange_fixes}(x, ...)

\method{st_write}{homerange_fixes}(obj, dsn, ...)
}
\arguments{
\item{x, object, obj, _data}{fixes, from \code{\link{read_fixes}}.}
\item{...}{of \code{[} rows and columns, as of a data frame; of \code{rbind} fixes, which have the same unit, reference system,
  zone of times and columns; of \code{print} arguments of the print of a data frame; of
  \code{st_write} those of \code{sf::st_write}; else none.}
\item{value}{titles.}
\item{y}{another table, as of \code{merge}.}
\item{n}{how many rows are printed.}
\item{dsn}{the file that is written, such as \code{"fixes.gpkg"}.}
\item{row.names}{names for the rows.}
\item{deparse.level, optional}{not used.}
}
\details{
Rows that are taken by \code{[}, \code{subset} or \code{head}, and what \code{merge}, \code{transform}, \code{within}, \code{cbind},
most verbs of dplyr and tidyr, groups, tibbles and data tables make of them, stay fixes, with what is known of them, as long as they have
the columns of fixes; so do points of sf, also what \code{st_crop}, \code{st_intersection}, \code{st_join} and \code{st_filter} make of them, which take fixes too;
of points that were moved the counts stay. \code{write.csv} of fixes writes times with their offset; of \code{as.data.frame(fixes)} it writes
them by their clock without it, which \code{tz} has to say when they are read. Of others, as those of \code{data.frame(fixes)}, of \code{aggregate} or
of a merge of data tables, nothing is known, neither the unit nor the zone nor what was taken away: they are read as any table, whose
zone is not known. Such are also tables that tidyr makes anew, by \code{unnest} of what \code{nest} made, by \code{pivot_wider}, \code{hoist} and
\code{separate_wider_delim}, and rows that data.table makes anew, by \code{fixes[, .SD[1:5], by = animal]}, \code{fixes[, .(..)]} and
\code{rbindlist}. Where the class stays and not what is known, they are refused: \code{read_fixes(as.data.frame(fixes), zone = ..)} reads them anew. Fixes that were taken away
are counted by \code{\link{homerange_left_out}} as \code{chosen}, by the animal that they had when they were read: a fix is there as long as a row
has its second and its place, whatever the animal is called now. Where the class stays without a column, as after
\code{dplyr::rename(fixes, id = animal)}, they are read as a data frame, which is said.

Fixes of several readings are bound by \code{rbind}. Of such as have another unit, reference system or zone of times it is refused, by
\code{dplyr::bind_rows} too; but that knows the first reading alone. It is refused too where tables without a column of the animal
both have the animal \code{animal}: name each by \code{name} of \code{\link{read_fixes}}. So an animal that was not read, and one with more fixes than were read of it, is refused, unless its fixes are among those that
were read: these may be renamed or be there twice.

Fixes whose rows are no longer those that were read, in their order, are read again by the program where ranges are made of them:
with the unit, the reference system and the zone of their reading, which is that of times whose own was taken away, and with marks such as \code{use} or \code{visible}, and columns
that were added since and may say which fixes count, such as \code{outlier} or \code{lc}, which are read or refused; other columns that were added are said as not read. Only what is new is said then. \code{read_fixes(fixes, every = "2h")} reads them again by further options; those of
dilutions of precision, types of fixes, sensors and Argos look at all columns.

\code{print} says what was taken for what, the span in time and place, the reference system and what was left out, and shows the
first rows.
}
\value{
Of \code{print} the fixes, invisibly; of \code{format} the lines above the rows; of \code{summary} a data frame with a row for each
animal: \code{animal}, \code{fixes}, \code{first}, \code{last} and \code{left_out}. Of \code{[} and \code{rbind} fixes, of
\code{as.data.frame} a data frame alone, and of \code{st_as_sf} a table of points. The others are those of the package sf.
}
\examples{
fixes <- tryCatch(read_fixes(deer, quiet = TRUE), homerange_program_error = function(fault) NULL)
if (!is.null(fixes)) {
  print(fixes)
  april <- subset(fixes, time < as.POSIXct("2024-05-01", tz = "UTC"))
  summary(april)
}
}
