\name{read_fixes}
\alias{read_fixes}
\title{Read a Table of Fixes}
\description{
Reads the location fixes of a data frame, of points of sf, or of a file, by the program \code{homerange-split}, and says what it took
for what. What is read can be looked at, filtered and bound before \code{\link{home_range}} makes ranges of it.
}
\usage{
read_fixes(x, ..., quiet = FALSE)
}
\arguments{
\item{x}{a data frame with a row for each fix, an \code{sf} table of points, the name of a file of text or GPX, or fixes that were
  read, whose unit and reference system stay, and the zone of their times where no other is named.}
\item{...}{options, of which each is left out where it is \code{NULL}:
  \describe{
  \item{\code{unit}}{to what coordinates are rounded: \code{"m"} for whole metres, \code{"dm"} for whole decimetres. The
    coordinates of \code{x} are in metres in either case.}
  \item{\code{animal}, \code{time}, \code{easting}, \code{northing}, \code{lon}, \code{lat}}{the names of columns, where they have no
    usual titles; of several for the animal the second counts where the first is empty, and several for the time are joined.
    Where coordinates are named the geometry of an \code{sf} table is left alone.}
  \item{\code{name}}{the name of the one animal, where no column has it.}
  \item{\code{time_format}, \code{tz}}{the form of times, such as \code{"\%d.\%m.\%Y \%H:\%M:\%S"}, and their zone, such as
    \code{"Europe/Ljubljana"}, by whose clock days are counted and times are shown. Without \code{tz} it is that of the
    \code{POSIXct} column, which is said, and else UTC; \code{tz = ""} is the zone of the session, which is said.}
  \item{\code{zone}}{the UTM zone of the coordinates, such as \code{"33N"}; longitude and latitude are projected into it,
    and without it into that of most fixes.}
  \item{\code{crs}}{the reference system of columns in metres, of a data frame or a file, as \code{sf::st_crs} takes it, such as
    3035. Points of sf bring their own. Its axes go east and north; \code{sf::st_transform} turns points of others.}
  \item{\code{since}, \code{until}}{the first and the last time: a day (a \code{Date}, or text such as \code{"2024-05-31"}), a
    \code{POSIXct}, or text such as \code{"2024-05-31 18:00"}. Both are included; a day of \code{until} to its end.}
  \item{\code{every}}{one fix in each piece of time is used: text such as \code{"2h"} or \code{"30min"}, a \code{difftime}, a
    duration or period of lubridate, a length of the package units, or a number of hours.}
  \item{\code{max_speed}}{the greatest speed in metres a second, or of the package units, from the last fix that is kept.}
  \item{\code{max_dop}, \code{dop}}{the greatest dilution of precision, and the column that has it.}
  \item{\code{sensor}, \code{argos_class}, \code{argos}, \code{fix_type}, \code{fix}}{which types of sensors, Argos classes and types
    of fixes are used, and the columns of the last two.}
  \item{\code{skip_unnamed}}{whether records without an animal are left out and counted, and not refused.}
  \item{\code{na}}{words for what is missing, beside \code{NA} and nothing.}
  \item{\code{from}}{the preset of a maker: \code{"vectronic"}, \code{"lotek"}, \code{"telonics"}, \code{"eobs"},
    \code{"ornitela"}, \code{"argos"}, and of files \code{"gpx"}.}
  \item{\code{encoding}, \code{skip_lines}, \code{header}}{of files alone: the encoding, the number of lines before that of titles, or
    the start of that line.}
  }}
\item{quiet}{whether what is guessed or left out is not said.}
}
\details{
\strong{How a table is read} stands in \file{docs/TABLES.md} of homerange's repository, once for all languages and the commands: the
usual titles of columns, times and coordinates, marks of outliers, sensors and filters, what is left out, sorted, moved or
rounded, and what is refused. A data frame is written as text, which the program reads as that of a file. So text in it is
read as in a file, and other classes are written as they mean: moments of \code{POSIXct} in UTC, with as many decimals as they
have; \code{Date} as a day; factors by their labels; numbers by the fewest digits that give them back; lengths of the package
units in metres. Clocks of \code{ITime}, hms and chron, lengths of time below a day, and \code{POSIXct} of 1899-12-30 or 1899-12-31, as
readxl has them, are clocks; a \code{POSIXct} that is midnight of UTC in all rows is a day beside them, so that
\code{time = c("day", "clock")} joins both. A class of which nothing is known, also labelled values of haven, is refused where that column is read. Moments
are moments whatever their title says, and the time where no title is a usual one and one column alone has some. A \code{move2} table says itself which
columns have the animal and the time, and an amt track its reference system.

Points of sf have to be of a plane of eastings and northings in metres, or in degrees of any geographic system. Points without a reference system, or of the
system of a site alone, are metres of no known place.

The program lies beside the one that \code{\link{homerange_program}} names.
}
\value{
An object of class \code{homerange_fixes}, which is a data frame of the fixes that are used, by animal and time, with the
columns
\item{animal}{the animal's name.}
\item{time}{the time in whole seconds as \code{POSIXct}; or \code{second}, a number, where the table has seconds since a start
  of its own, or no time.}
\item{easting, northing}{metres, rounded to whole ones or to decimetres.}
Behind these stand the other columns of a data frame. \code{\link[=fixes]{Methods}} print and summarise it, take rows away and
bind them. \code{write.csv} may write a number such as 500000 as \code{5e+05}, which \code{options(scipen = 100)} before it prevents; what it
writes so is read back.
}
\section{Errors}{
What cannot be right is refused as \code{homerange_data_error}, with the row, or the number of the record below the titles, and options
that cannot be right as \code{homerange_option_error}. Where the program is not there the error is a
\code{homerange_program_error}.
}
\seealso{\code{\link{home_range}}}
\examples{
deer_file <- system.file("extdata", "deer.csv", package = "homerange")
tryCatch(read_fixes(deer_file), homerange_program_error = conditionMessage)
}
