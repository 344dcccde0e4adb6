# fread_tracks.R EXPORT FOLDER: reads an export of Movebank in degrees, or one in metres, and writes all tracks into one
# file of a new folder.
library(data.table)
words <- commandArgs(trailingOnly = TRUE)
table <- fread(words[1])
if ("location-long" %in% names(table)) {
  suppressPackageStartupMessages(library(sf))
  points <- st_as_sf(table, coords = c("location-long", "location-lat"), crs = 4326)
  places <- st_coordinates(st_transform(points, 32633))
  tracks <- table[, .(animal = `individual-local-identifier`, second = timestamp)]
  tracks[, c("easting", "northing") := .(places[, 1], places[, 2])]
} else {
  tracks <- table[, .(animal = id, second = date, easting = x, northing = y)]
}
tracks[, second := floor(as.numeric(second))]
tracks[, c("easting", "northing") := .(floor(easting + 0.5), floor(northing + 0.5))]
setorder(tracks, animal, second)
dir.create(words[2])
fwrite(tracks, file.path(words[2], "tracks.csv"))
