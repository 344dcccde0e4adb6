# Where the fixes of a frame are, where that is not in columns of their own: points of sf, and reference systems that are named.
# docs/TABLES.md, Data frames.

# What the program is told of the places of a frame: further columns, and options; beside these the reference system of a plane
# that is that of no zone, and a line to say.
places_of_frame <- function(x, given) {
  names_places <- any(c("easting", "northing", "lon", "lat") %in% names(given))
  if (!inherits(x, "sf") || names_places) return(places_of_columns(x, given, names_places))
  if (!is.null(given$crs)) refuse("option", "crs: points bring their own CRS; sf::st_set_crs names it, and sf::st_transform ",
                                     "projects them into another")
  if (!has_sf()) refuse("crs", "a table of sf wants the package sf, which is not installed")
  shapes <- tryCatch(sf::st_geometry(x), error = function(fault) refuse("columns", "x has no geometry where sf looks for it: ",
                                                                       "sf::st_geometry(x) <- \"COLUMN\" says where it is"))
  shapes <- sf::st_zm(shapes)
  crs <- sf::st_crs(shapes)
  if (!is.na(crs) && sf::st_axis_order()) {
    refuse("crs", "sf::st_axis_order() is TRUE, and the two coordinates of points may stand in either order: make them with sf::st_axis_order(FALSE)")
  }
  at <- coordinates_of(x, shapes)
  has_place <- !is_without_place(crs, "x")
  if (!has_place && is.na(crs) && look_like_degrees(at)) {
    refuse("degrees", "the points have no CRS, and lie as longitude and latitude do: sf::st_set_crs(x, 4326) says so where ",
           "they are")
  }
  if (has_place && is_in_degrees(crs, "x", function() at)) return(points_in_degrees(x, at, crs))
  plane <- plane_of(if (has_place) crs, given)
  points <- points_as_columns(x, at, c("easting", "northing"))
  list(parts = points$parts, words = c(plane$words, points$words), crs = plane$crs)
}

help_for_multipoint <- "sf::st_cast(x, \"POINT\") makes points of it"
help_for_vertices <- "its vertices are no fixes unless they say when"

# The eastings and northings of points, NA where there is none.
coordinates_of <- function(x, shapes) {
  kinds <- as.character(sf::st_geometry_type(shapes))
  is_there <- !sf::st_is_empty(shapes)
  odd <- which(kinds != "POINT" & is_there)[1]
  if (!is.na(odd)) refuse_row(x, "number", odd, paste0("the geometry is a ", in_small(kinds[odd]), ", and points are wanted: ",
                                                    if (kinds[odd] == "MULTIPOINT") help_for_multipoint else help_for_vertices))
  at <- matrix(NA_real_, length(shapes), 2)
  if (any(is_there)) at[is_there, ] <- sf::st_coordinates(shapes[is_there])[, 1:2]
  at
}

# Whether all of some coordinates may be degrees, and are no whole metres.
look_like_degrees <- function(at) {
  at <- at[is.finite(rowSums(at)), , drop = FALSE]
  nrow(at) > 0 && all(abs(at[, 1]) <= 180 & abs(at[, 2]) <= 90) && any(at != round(at))
}

# The columns of points, and the options that name them.
points_as_columns <- function(x, at, sides) {
  titles <- vapply(paste("point", c(easting = "easting", northing = "northing", lon = "longitude", lat = "latitude")[sides]),
                   free_title, "", names(x), USE.NAMES = FALSE)
  parts <- lapply(1:2, function(side) parts_of_numbers(at[, side]))
  list(parts = `names<-`(parts, titles), words = paste0("--", sides, "=", titles))
}

# Words of letters without accents in small ones, which in Turkish has others for I.
in_small <- function(words) chartr("ABCDEFGHIJKLMNOPQRSTUVWXYZ", "abcdefghijklmnopqrstuvwxyz", words)

# A title that is not among these: this one, or with a number behind it.
free_title <- function(title, titles) {
  found <- c(title, paste(title, seq_len(length(titles)) + 1))
  found[!found %in% titles][1]
}

# Points of a geographic system, as degrees of WGS 84.
points_in_degrees <- function(x, at, crs) {
  is_there <- is.finite(rowSums(at))
  is_other <- !(crs$epsg %in% 4326 || crs == sf::st_crs("OGC:CRS84"))
  own <- at[is_there, , drop = FALSE]
  if (is_other && any(is_there)) at[is_there, ] <- in_degrees(own, crs)
  line <- if (is_other) c(paste0("points of ", crs$Name, " are turned into longitude and latitude of WGS 84"),
                          line_of_place(crs, own, c("longitude", "latitude")))
  c(list(line = line), points_as_columns(x, at, c("lon", "lat")))
}

# What is told of columns whose reference system is named, or is that of an amt track.
places_of_columns <- function(x, given, names_places) {
  crs <- given$crs
  if (is.null(crs) && !names_places) crs <- attr(x, "crs_", exact = TRUE)
  if (is.null(crs) || inherits(crs, "crs") && is.na(crs)) return(NULL)
  crs <- named_crs(crs)
  if (is_without_place(crs, "crs")) return(NULL)
  points <- "the points, as by sf::st_as_sf(x, coords = c(EASTING, NORTHING), crs = ..)"
  if (is_in_degrees(crs, points, function() matrix(0, 0, 2))) {
    refuse_crs("the CRS ", crs$Name, " has longitude and latitude, which are no plane coordinates: name their columns by lon and lat, ",
               "without crs")
  }
  plane_of(crs, given)
}

# What is told of a plane: its zone, or what it is.
plane_of <- function(crs, given) {
  if (is.null(crs)) return(NULL)
  zone <- zone_of_crs(crs)
  if (!is.null(given$zone) && !identical(zone, toupper(sub("^0?([0-9]+) ?", "\\1", given$zone)))) {
    refuse_crs("the coordinates are of the zone ", given$zone, ", and the CRS ", one_line(crs$Name), " is ",
               if (is.null(zone)) "none of UTM" else paste("that of", zone), ": give one of the two", kind = "zone")
  }
  if (is.null(zone)) return(list(crs = crs, words = paste0("--crs=", text_of_crs(crs))))
  list(words = if (is.null(given$zone)) paste0("--zone=", zone))
}
