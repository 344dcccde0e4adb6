\name{plot.home_range}
\alias{plot.home_range}
\title{Maps and Curves of Home Ranges}
\description{
Draws the polygons of home ranges over the fixes, or the area of each animal's range after each fix, with a key in room that is
made beside the plot or, for more than 40 animals, below it.
}
\usage{
\method{plot}{home_range}(x, what = c("ranges", "curve"), levels = 100, animals = NULL,
     over = NULL, label = "boundary", main = "", reset = TRUE, fixes = TRUE,
     by = c("fix", "date"), share = FALSE, facets = FALSE, col = NULL,
     xlab = NULL, ylab = NULL, xlim = NULL, ylim = NULL, ...)
}
\arguments{
\item{x}{a home range, from \code{\link{home_range}} or \code{\link{read_report}}.}
\item{what}{\code{"ranges"} for a map, \code{"curve"} for the curves of incremental area analysis.}
\item{levels}{for a map the level or the levels of the polygons, as \code{\link{homerange_corners}} takes them. Each has a kind of
  line of its own, the same for all animals.}
\item{animals}{the names of the animals to draw; all, if left out. An animal has its number and its colour in each drawing.}
\item{over}{for a map an \code{sf} geometry of polygons in the CRS of the fixes, or without one where they have none, such as the boundary of a reserve. It is drawn
  in grey, and the map is wide enough for it, unless it is more than six times as wide as all ranges; where no edge of it is on
  the map that is said. Points and lines are refused, and left out beside polygons, which is said.}
\item{label}{what the key calls it.}
\item{main}{a title.}
\item{reset}{whether the device gets its margins back. With \code{FALSE} more can be drawn on the plot, such as by
  \code{\link{text}}; coordinates are in metres then.}
\item{fixes}{whether a map has the fixes. Of those that would cover each other one is drawn.}
\item{by}{for curves \code{"fix"}, or \code{"date"} for the time of each fix; without times days of the files' own start.}
\item{share}{whether curves have areas in per cent of the final one of each animal.}
\item{facets}{whether each animal has a panel of its own.}
\item{col}{a colour for all, several in turn, or colours with the names of animals.}
\item{xlab, ylab, xlim, ylim}{words beside the axes, and their limits, on a map in metres and upwards, and for dates days or moments;
  those of the drawing, if left out. Limits between which nothing lies, and those of maps with \code{facets}, are refused.}
\item{...}{further arguments of \code{\link{title}}: \code{sub}, \code{outer}, \code{family}, and sizes, colours and fonts such
  as \code{cex.main}; others are refused.}
}
\details{
A map has equal scales on both axes, in metres, or in kilometres where it is 2.5 km wide or wider, a bar of a round length and an
arrow to the north of the grid. A report that was read from a file has no fixes, so its map shows polygons alone. A curve has
hectares on its axis, below 1 hectare square metres, and from 10,000 hectares on square kilometres.

The numbers at polygons and curves are those of the key, which has each animal with the area of the highest level. Where the
ends of curves lie close together some have no room; with \code{facets} each animal has. Colours are those of the page of
\code{\link{write_page}}. Of more animals than the device has room for in the key, it lists the first and says how many more
there are.
}
\value{\code{x}, invisibly.}
\examples{
report <- system.file("extdata", "report.txt", package = "homerange")
ranges <- read_report(report)
plot(ranges)
plot(ranges, "curve")
plot(ranges, "curve", facets = TRUE)
}
